#!/usr/bin/env python3
"""Writes the crates of rows: a function for each law and lemma that procedures use.

What a row says is read from docs/LAWS.md, and where its constant stands from the code of alg_law and alg_lemma. The
tables below name the rows, by the crate and the file that their functions stand in; to add one, add its name there and
run the script from anywhere. It writes the same bytes each time for the same tables; run `rt fmt` in the crates afterwards.
"""
import pathlib
import re

TOP = pathlib.Path(__file__).resolve().parent.parent

SHARED = (
    ("sums", "Sums, differences and negations.", (
        "zero_add", "add_zero", "neg_neg", "neg_zero", "neg_add_neg_lit", "add_neg_pos", "add_neg_neg", "neg_add_pos",
        "neg_add_negr", "sub_eq_of_add", "sub_of_neg",
    )),
    ("products", "Products.", (
        "one_mul", "mul_one", "zero_mul", "mul_zero", "right_distrib", "sub_mul", "neg_mul_lit", "mul_neg_lit",
        "neg_mul_neg",
    )),
    ("powers", "Powers, and multiples by integers below 0.", (
        "pow_zero", "pow_one", "one_pow", "pow_double", "pow_next", "div_pow", "zpow_neg_lit0", "zsmul_neg_lit",
    )),
    ("inverses", "Inverses in a field.", (
        "inv_zero", "one_inv0", "inv_eq_one_div", "div_inv0", "one_div_inv0", "neg_inv_lit",
    )),
    ("quotients", "Quotients in a field.", (
        "eq_of_mul", "div_one0", "div_of_inv", "neg_div", "div_split", "div_join", "div_expand", "eq_div_of_mul", "div_mul_lit",
    )),
    ("fractions", "Sums and products of quotients in a field.", (
        "div_add_same", "div_mul_swap", "div_mul_div", "mul_div_right", "mul_div_left", "mul_div_comm",
    )),
    ("inequations", "What is unequal.", (
        "div_ne_zero", "neg_ne_neg", "neg_ne_pos", "pos_ne_neg", "ne_of_mul",
    )),
    ("comparisons", "Order.", (
        "div_pos", "neg_lt_neg", "neg_le_neg", "neg_lt_nonneg", "neg_le_nonneg", "lt_of_mul", "le_of_mul",
    )),
)

RING = (
    ("nodes", "Sums of products by powers.", (
        "add_tail", "add_tail_zero", "add_head", "add_head_zero", "add_mul_right", "add_mul_right_zero", "add_pair_left",
        "add_pair_right", "add_pair_drop", "add_front", "add_front_drop", "add_nodes", "add_nodes_zero", "add_add_add_comm",
    )),
    ("splits", "Powers of one base.", (
        "node_split", "node_join", "pow_mul_of", "pow_pow_of", "atom_node",
    )),
    ("factors", "Products with products by powers, and their powers.", (
        "mul_swap", "mul_node", "mul_node_zero", "mul_same", "mul_same_zero", "mul_unit", "mul_unit_join", "left_distrib",
        "distrib_back", "pow_node", "mul_comm", "div_eq_mul_inv0",
    )),
    ("negations", "Negations of products by powers.", (
        "neg_sum", "neg_node", "neg_node_zero",
    )),
    ("monomials", "Products with monomials.", (
        "leaf_mono", "node_mono", "node_mono_zero", "mono_first", "mono_next", "mono_one_more", "mono_again",
    )),
    ("terms", "Terms as they are written.", (
        "first_one", "first_neg", "first_neg_one", "first_const", "next_coef", "next_one", "next_neg", "next_neg_one",
        "next_const", "next_const_neg",
    )),
    ("combinations", "Equations from differences.", (
        "eq_of_combo",
    )),
)

# each crate, what its first line says, and its files
CRATES = (
    ("alg_rows", "The rows that procedures share, each as a function: its contract is what the row says, over trees.", SHARED),
    ("alg_ring_rows", "The rows of polynomials, each as a function: its contract is what the row says, over trees.", RING),
)

# what fills the letters of a row, where its name isn't made of them, and what premises are, by their number
FILLS = {"": "none_fills", "a": "one_fills", "ab": "two_fill", "abc": "three_fill", "abcd": "four_fill"}
PREMISES = ("no_premise", "one_premise", "two_premises", "three_premises")
STATEMENTS = ("no_premise", "one_statement", "two_statements", "three_statements")

LETTERS = "abcdmnij"
SORTS = {"a": "sort", "b": "sort", "c": "sort", "d": "sort", "m": "Nat", "n": "Nat", "i": "Int", "j": "Int"}
RELATIONS = {"=": "Eq", "≠": "Ne", "<": "Lt", "≤": "Le"}
PLACES = ("first", "second", "third")
OPERATIONS = {
    "Add": "sum_tree", "Mul": "product_tree", "Neg": "negation_tree", "Sub": "difference_tree", "Inv": "inverse_tree",
    "Div": "quotient_tree", "Npow": "power_tree", "Zpow": "integer_power_tree", "Nsmul": "multiple_tree",
    "Zsmul": "integer_multiple_tree",
}
OF_TERMS = ("sum_tree", "product_tree", "Lit")


def read_page():
    """Each row of the page: its name, the classes, its premises and its conclusion, and whether it is a lemma."""
    rows, lemma = {}, False
    for line in (TOP / "docs" / "LAWS.md").read_text(encoding="utf-8").split("\n"):
        if line == "# Lemmas":
            lemma = True
        cells = [cell.strip() for cell in line.split("|")]
        if len(cells) == 6 and re.fullmatch(r"[a-z0-9_]+", cells[1]):
            premises = re.findall(r"`([^`]*)`", cells[3])
            rows[cells[1]] = (cells[2], premises, cells[4].strip("`"), lemma)
    return rows


def read_constants():
    """The module of each row's constant."""
    found = {}
    for crate in ("alg_law", "alg_lemma"):
        for path in sorted((TOP / "crates" / crate / "src").glob("*.rt")):
            for name in re.findall(r"pub const ([A-Z0-9_]+): (?:Law|LemmaRow) ", path.read_text(encoding="utf-8")):
                found[name] = f"{crate}::{path.stem}"
    return found


class Reader:
    """Reads an expression of the page: letters, the literals 0 and 1, and the symbols of the notation."""

    def __init__(self, text):
        self.tokens = re.findall(r"⁻¹|[a-z]+|[0-9]+|[-+*/^•()=≠<≤]", text)
        self.at = 0

    def next(self):
        return self.tokens[self.at] if self.at < len(self.tokens) else ""

    def take(self):
        self.at += 1
        return self.tokens[self.at - 1]

    def statement(self):
        left = self.sum()
        relation = self.take()
        return (RELATIONS[relation], left, self.sum())

    def chain(self, heads, part):
        """Parts with operators between them, taken from the left."""
        left = part()
        while self.next() in heads:
            left = (heads[self.take()], left, part())
        return left

    def sum(self):
        return self.chain({"+": "Add", "-": "Sub"}, self.product)

    def product(self):
        return self.chain({"*": "Mul", "/": "Div"}, self.multiple)

    def multiple(self):
        left = self.signed()
        if self.next() == "•":
            self.take()
            return ("smul", left, self.multiple())
        return left

    def signed(self):
        if self.next() == "-":
            self.take()
            return ("Neg", self.signed())
        return self.power()

    def power(self):
        base = self.inverse()
        if self.next() == "^":
            self.take()
            return ("pow", base, self.signed())
        return base

    def inverse(self):
        inner = self.atom()
        while self.next() == "⁻¹":
            self.take()
            inner = ("Inv", inner)
        return inner

    def atom(self):
        token = self.take()
        if token == "(":
            inner = self.sum()
            assert self.take() == ")"
            return inner
        if token.isdigit():
            return ("literal", token)
        assert token in LETTERS, token
        return ("letter", token)


def letters_in(tree):
    if tree[0] == "letter":
        return {tree[1]}
    if tree[0] == "literal":
        return set()
    return set().union(*(letters_in(part) for part in tree[1:]))


def sort_of(tree):
    """The sort of a tree by its letters; none for a literal."""
    if tree[0] == "letter":
        return SORTS[tree[1]]
    if tree[0] == "literal":
        return None
    if tree[0] == "smul":
        return sort_of(tree[2])
    if tree[0] == "pow":
        return sort_of(tree[1])
    for part in tree[1:]:
        if sort_of(part):
            return sort_of(part)
    return None


def tree_text(tree, sort):
    """The tree as the contracts write it, with the functions that it names."""
    if tree[0] == "letter":
        return f"(tree_of cx.old.trees {tree[1]})"
    if tree[0] == "literal":
        return f"(Lit {sort} {tree[1]})"
    if tree[0] in ("smul", "pow"):
        number, inner = (tree[1], tree[2]) if tree[0] == "smul" else (tree[2], tree[1])
        of = sort_of(number) or "Nat"
        symbol = {"smul": {"Nat": "Nsmul", "Int": "Zsmul"}, "pow": {"Nat": "Npow", "Int": "Zpow"}}[tree[0]][of]
        parts = (tree_text(number, of), tree_text(inner, sort))
        if tree[0] == "pow":
            parts = parts[::-1]
        return f"({OPERATIONS[symbol]} {sort} {parts[0]} {parts[1]})"
    return f"({OPERATIONS[tree[0]]} {sort} {' '.join(tree_text(part, sort) for part in tree[1:])})"


def sides_text(statement):
    relation, left, right = statement
    sort = sort_of(left) or sort_of(right) or "sort"
    return sort, tree_text(left, sort), tree_text(right, sort)


def line_text(statement, number, book):
    sort, left, right = sides_text(statement)
    if statement[0] == "Eq":
        return f"Proves {book} {number} {left} {right}"
    return f"Concludes {book} {number} (related {statement[0]} {sort} {left} {right})"


def snake(word):
    return re.sub(r"(?<!^)([A-Z])", r"_\1", word).lower()


def function_text(name, row, ruleset):
    classes, premises, conclusion, lemma = row
    said = [Reader(text).statement() for text in premises]
    concluded = Reader(conclusion).statement()
    used = set().union(*(letters_in(side) for statement in said + [concluded] for side in statement[1:]))
    letters = [letter for letter in LETTERS if letter in used]
    places = PLACES[: len(said)]
    equation = concluded[0] == "Eq"
    text = f"/// `{conclusion}`"
    if said:
        many = "lines" if len(said) > 1 else "a line"
        given = ", ".join(f"`{premise}`" for premise in premises)
        text += f", from {many} for " + re.sub(r", (`[^`]*`)$", r" and \1", given)
    text += ".\n"
    text += f"#[tactic(auto, using(crate::proofs::RowNames::{ruleset}))]\n"
    arguments = ["cx: &mut Builder", "sort: Sort"] + [f"{letter}: ExprId" for letter in letters]
    arguments += [f"{place}: usize" for place in places]
    text += f"pub fn {name}({', '.join(arguments)}) -> Result<{'Rewriting' if equation else 'usize'}, Memory>\n"
    for letter in letters:
        text += f"    requires {letter}_stands {{ Stands cx.old {SORTS[letter]} {letter} (tree_of cx.old.trees {letter}) }}\n"
    for place, statement in zip(places, said):
        text += f"    requires {place}_line {{ {line_text(statement, place, 'cx.old')} }}\n"
    if not any(SORTS[letter] == "sort" for letter in letters):
        text += "    requires known { sort_mark cx.old.theory.declarations sort ≡ Good }\n"
    for word in [] if classes == "any" else classes.split(" and "):
        text += f"    requires {snake(word)} {{ has_class cx.old.theory.declarations sort {word} ≡ true }}\n"
    if lemma:
        text += "    requires library { HoldsLibrary cx.old.theory.lemmas }\n"
    if equation:
        sort, left, right = sides_text(concluded)
        text += f"    ensures turns {{ IfOk result (λ r. Turns cx.new {sort} r {left} {right}) }}\n"
    else:
        text += f"    ensures concludes {{ IfOk result (λ n. {line_text(concluded, 'n', 'cx.new')}) }}\n"
    text += "    ensures grows { Grows cx.old cx.new }\n"
    call = {(True, True): "by_lemma", (True, False): "by_law", (False, True): "by_row", (False, False): "by_law_row"}
    text += f"{{\n    {call[equation, lemma]}(cx, &{name.upper()}, sort, &[{', '.join(letters)}], &[{', '.join(places)}])\n}}\n"
    return re.sub(r"([({ ])\((tree_of|Lit)", r"\1(\2", text)


def occurring(words, text):
    return [word for word in words if re.search(rf"\b{word}\b", text)]


def imports(path, words, text):
    found = occurring(words, text)
    return f"ghost use {path}.{{{', '.join(found)}}};\n" if found else ""


def file_text(group, about, names, rows, constants):
    body = "\n".join(function_text(name, rows[name], group) for name in names)
    head = f"//! {about}\n"
    symbols = ("◌≡◌",) if "≡" in body else ()
    head += f"ghost use Rattle.std.specs.Prelude.{{{', '.join(symbols + ('IfOk',) + (('true',) if '≡ true' in body else ()))}}};\n"
    head += imports("Rattle.alg_terms.specs.declared.sorts.Sort.TheVariants", ("Nat", "Int"), body)
    head += imports("Rattle.alg_terms.specs.declared.relations.Rel.TheVariants", ("Ne", "Lt", "Le"), body)
    head += imports("Rattle.alg_terms.specs.Tree", OF_TERMS, body)
    head += "ghost use Rattle.alg_expr.specs.Ids.{tree_of};\n"
    classes = sorted({word for name in names for word in rows[name][0].split(" and ") if word not in ("any", "ℕ")})
    head += f"ghost use Rattle.alg_law.specs.declared.classes.Class.TheVariants.{{{', '.join(classes)}}};\n"
    head += "ghost use Rattle.alg_law.specs.Having.{has_class};\n"
    if "sort_mark" in body:
        head += "ghost use Rattle.alg_law.specs.declared.marks.Mark.TheVariants.{Good};\n"
        head += "ghost use Rattle.alg_law.specs.WellSorted.{sort_mark};\n"
    head += imports("Rattle.alg_law.specs.Derivations", ("related",), body)
    head += imports("Rattle.alg_lemma.specs.Library", ("HoldsLibrary",), body)
    head += imports("Rattle.alg_build.specs.Book", ("Concludes", "Grows", "Proves"), body)
    head += imports("Rattle.alg_build.specs.Rewriting", ("Stands", "Turns"), body)
    head += imports("Rattle.alg_rows.specs.Operations", tuple(sorted(set(OPERATIONS.values()) - set(OF_TERMS))), body)
    head += "\n"
    calls = occurring(("Builder", "Memory", "Rewriting", "by_law", "by_law_row", "by_lemma", "by_row"), body)
    lines = [f"use alg_build::{{{', '.join(calls)}}};", f"use alg_expr::{{{', '.join(occurring(('ExprId', 'Sort'), body))}}};"]
    modules = {}
    for name in names:
        modules.setdefault(constants[name.upper()], []).append(name.upper())
    lines += [f"use {module}::{{{', '.join(sorted(found))}}};" for module, found in modules.items()]
    return head + "\n".join(sorted(lines)) + "\n\n" + body


def answers_text(crate, group, name, row):
    """The answers for a row's call: how it's found by its name, what fills it, and the lines of its premises."""
    classes, premises, conclusion, lemma = row
    said = [Reader(text).statement() for text in premises]
    concluded = Reader(conclusion).statement()
    used = set().union(*(letters_in(side) for statement in said + [concluded] for side in statement[1:]))
    letters = [letter for letter in LETTERS if letter in used]
    call = {(True, True): "by_lemma", (True, False): "by_law", (False, True): "by_row", (False, False): "by_law_row"}[concluded[0] == "Eq", lemma]
    fill = FILLS.get("".join(letters), "fill-" + "".join(letters))
    needs = [] if classes == "any" else [f"c.requires.{snake(word)}" for word in classes.split(" and ")]
    met = "refl" if not needs else f"(rw {needs[0] if len(needs) == 1 else '(' + ', '.join(needs) + ')'} refl)"
    known = [] if not letters or SORTS[letters[0]] == "sort" else ["c.requires.known"]
    if not letters:
        known = ["c.requires.known"]
    filled = f"{fill} _ _ _ {met}" + " _" * len(letters) + " " + " ".join(
        ["refl"] + known + [f"c.requires.{letter}_stands.sorted" for letter in letters] + [f"c.requires.{letter}_stands.sort" for letter in letters])
    equations = all(statement[0] == "Eq" for statement in said)
    fact = (PREMISES if equations else STATEMENTS)[len(said)]
    lines = []
    for place, statement in zip(PLACES, said):
        line = f"c.requires.{place}_line"
        lines.append(line if equations or statement[0] != "Eq" else f"(proves-concludes _ _ _ _ {line})")
    blanks = len(said) * (3 if equations else 2) if said else 0
    premise = f"{fact} _" + " _" * blanks + "".join(f" {line}" for line in lines) if said else "refl"
    facts = [fill] + ([fact] if said else []) + (["proves-concludes"] if "(proves-concludes" in premise else [])
    text = "use Rattle.std.proofs.Common.{refl}\n"
    text += f"use Rattle.alg_{'lemma' if lemma else 'law'}.proofs.Named.{{{name}-named}}\n"
    text += f"use Rattle.alg_build.proofs.RowFacts.{{{', '.join(facts)}}}\n"
    text += f"use Rattle.{crate}.proofs.{group}.{name}.Goals as goal\n"
    for clause, answer in (
        ("named", f"{name}-named _ c.requires.library" if lemma else f"{name}-named"),
        ("fills", filled),
        ("premises", premise),
    ):
        text += f"\npub {call}-requires-clause-{clause} : goal.{call}-requires-clause-{clause}\n"
        text += f"{call}-requires-clause-{clause} c = {answer}\n"
    return text


def names_text(groups, rows):
    """The rulesets: for each file what its rows ask, and that they are found by their names."""
    laws = [name for _, _, names in groups for name in names if not rows[name][3]]
    lemmas = [name for _, _, names in groups for name in names if rows[name][3]]
    text = "-- Rows found by their names, and what their lines ask.\n"
    text += f"use Rattle.alg_law.proofs.Named.{{{', '.join(f'{name}-named' for name in laws)}}}\n"
    text += f"use Rattle.alg_lemma.proofs.Named.{{{', '.join(f'{name}-named' for name in lemmas)}}}\n"
    text += "use Rattle.alg_build.proofs.RowFacts.{row_facts, proves-concludes}\n"
    for group, _, names in groups:
        text += f"\npub ruleset {group} = (row_facts, proves-concludes, {', '.join(f'{name}-named' for name in names)})\n"
    return text


def write_crate(crate, about, groups, rows, constants):
    folder = TOP / "crates" / crate
    for group, said, names in groups:
        (folder / "src" / f"{group}.rt").write_text(file_text(group, said, names, rows, constants), encoding="utf-8")
        for name in names:
            answers = folder / "proofs" / group / name
            answers.mkdir(parents=True, exist_ok=True)
            (answers / "Answers.antt").write_text(answers_text(crate, group, name, rows[name]), encoding="utf-8")
    lib = f"//! {about}\n"
    lib += "#![tactic(auto)]\n\n" + "".join(f"pub mod {group};\n" for group in sorted(group for group, _, _ in groups))
    (folder / "src" / "lib.rt").write_text(lib, encoding="utf-8")
    (folder / "proofs" / "RowNames.antt").write_text(names_text(groups, rows), encoding="utf-8")
    (folder / "proofs" / "Lib.antt").write_text("pub mod RowNames\n", encoding="utf-8")


def main():
    rows, constants = read_page(), read_constants()
    for crate, about, groups in CRATES:
        write_crate(crate, about, groups, rows, constants)


main()
