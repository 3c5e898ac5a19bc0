#!/usr/bin/env python3
"""Writes docs/TRUST.md: the definitions that the top contracts rest on, as files in reading order.

It begins with the names in the clauses of three functions and follows each name, by the imports of the file where it
stands, to the definition that declares it and to the names that this one uses. Only files in specs/ are followed, so
lemmas that stand in proofs/ are no part of the list. Run it from anywhere; it writes the same bytes each time for the
same sources. With the word --check it writes nothing and fails where the page isn't what it would write.
"""
import pathlib
import re
import sys

TOP = pathlib.Path(__file__).resolve().parent.parent
PAGE = TOP / "docs" / "TRUST.md"

# the functions, with the crate that has them
FUNCTIONS = (("alg_kernel", "accept"), ("alg_cli", "run"), ("alg_run", "check"))

# the parts: title, what is said of it, and its roots (function, clause); the empty clause stands for all of them
PARTS = (
    (
        "What 'derivable' means",
        "The kernel's `accept` promises it of each goal that it accepts. A closed goal of a report was accepted so.",
        (("accept", "derivable"),),
    ),
    (
        "What is true of the integers",
        "`accept` promises this too, of a goal that it accepts without a given statement. Nothing of it is needed to "
        "understand the first part; it tells that no law is false there. Files of the first part aren't listed again.",
        (("accept", "holds"),),
    ),
    (
        "What a file and its report say",
        "What remains of the clauses of `accept`, `run` and `check`: which lists of lines are valid, what the bytes of "
        "a file tell, the report, certificates, the check, and what a run does to its host. The lemmas among them say "
        "what a line may cite; each is proved to follow from the laws, so none has to be believed.",
        (("accept", ""), ("run", ""), ("check", "")),
    ),
)

NAME = r"[^\s(){}\[\],;:.]+"
USE = re.compile(r"^\s*(?:pub )?(?:ghost )?use ([^;\s]+?)(?:\.\{([^}]*)\}| as (\S+?))?;?\s*$")
WORDS = re.compile(r"[^\s(){}\[\],;]+")


class Imports:
    """What the names of a file stand for: a name to (module path, name), an alias to a module path."""

    def __init__(self):
        self.names = {}
        self.aliases = {}

    def read(self, line):
        match = USE.match(line)
        if not match:
            return False
        path, names, alias = match.groups()
        if names is not None:
            for word in names.split(","):
                parts = word.split(" as ")
                name = parts[0].strip()
                if name:
                    self.names[parts[-1].strip()] = (path, name)
        else:
            self.aliases[alias or path.split(".")[-1]] = path
        return True


class Unit:
    """A definition with all that stands in one block with it."""

    def __init__(self, first, text):
        self.first = first
        self.text = text
        self.lines = sum(1 for line in text.split("\n") if line.strip())


class Spec:
    """A file of specs/: its heading, its imports and its definitions by name."""

    def __init__(self, path):
        self.path = path
        self.imports = Imports()
        self.units = []
        self.by_name = {}
        lines = path.read_text(encoding="utf-8").split("\n")
        self.heading = lines[0][2:].strip() if lines[0].startswith("--") else ""
        block, first = [], 0
        for number, line in enumerate(lines + [""]):
            if self.imports.read(line):
                continue
            begins = line and not line[0].isspace()
            after_gap = not block or not block[-1].strip()
            if begins and after_gap and block:
                self.add(first, block)
                block = []
            if begins and not block:
                first = number
            if block or begins:
                block.append(line)
        self.add(first, block)

    def add(self, first, block):
        text = "\n".join(line for line in block if not line.strip().startswith("--"))
        if not text.strip():
            return
        names = declared(text)
        if not names:
            return
        unit = Unit(first, text)
        self.units.append(unit)
        for name in names:
            self.by_name.setdefault(name, unit)


def declared(text):
    """The names that a block declares: definitions, with the constructors and fields of data and records."""
    if not re.search(r"^\s*(?:abbrev|unfoldable|data|record|syntax|pub|mutual|module)\b", text, re.M):
        return set()
    names = set()
    for line in text.split("\n"):
        line = re.sub(r"^\s*(?:(?:pub|abbrev|unfoldable|mutual)\b\s*)*", "", line)
        match = re.match(r"(?:data|record|syntax)\s+(" + NAME + ")", line)
        if match:
            names.add(match.group(1))
            continue
        match = re.match("(" + NAME + r"(?:\s+" + NAME + r")*)\s+:\s", line + " ")
        if match:
            names.update(match.group(1).split())
    return names


class Sources:
    def __init__(self):
        self.specs = {}
        # names of proofs/ that a reached definition uses: there should be none
        self.strays = set()

    def spec(self, path):
        """The file of a module path such as Rattle.alg_law.specs.Laws, if there is one in specs/."""
        parts = path.split(".")
        if len(parts) != 4 or parts[0] != "Rattle" or parts[2] != "specs":
            return None
        if path not in self.specs:
            file = TOP / "crates" / parts[1] / "specs" / (parts[3] + ".antt")
            self.specs[path] = Spec(file) if file.is_file() else None
        return self.specs[path]

    def note_type(self, path, found):
        """A type of the code, such as Rattle.alg_terms.specs.declared.sorts.Sort."""
        parts = path.split(".")
        if len(parts) >= 6 and parts[0] == "Rattle" and parts[2:4] == ["specs", "declared"]:
            names = [part for part in parts[4:] if not part.startswith("The")]
            found.add((parts[1], names[-1]))


def words(text):
    """The words of a text, also those before and after a dot."""
    for word in WORDS.findall(text):
        yield word.strip(".")


def resolve(word, imports, local):
    """The module path and name that a word stands for; the path None is the file itself."""
    if word in local:
        return (None, word)
    if word in imports.names:
        return imports.names[word]
    if "." in word:
        head, rest = word.split(".", 1)
        if head in imports.aliases:
            return (imports.aliases[head], rest.split(".")[0])
        return resolve(head, imports, local)
    if word in imports.aliases:
        return (imports.aliases[word], "")
    return None


class Reach:
    """What is reached from some words, in the order in which it has to be read."""

    def __init__(self, sources, seen):
        self.sources = sources
        self.seen = seen
        self.units = {}
        self.types = set()

    def from_text(self, text, imports):
        waiting = []
        self.follow(text, imports, {}, None, waiting)
        while waiting:
            path, unit = waiting.pop()
            spec = self.sources.spec(path)
            self.follow(unit.text, spec.imports, spec.by_name, path, waiting)

    def follow(self, text, imports, local, here, waiting):
        for word in words(text):
            target = resolve(word, imports, local)
            if target is None:
                continue
            path = target[0] or here
            if ".specs.declared." in path:
                full = path if target[1] == "" else path + "." + target[1]
                self.sources.note_type(path if "TheVariants" in path or "TheView" in path else full_type(path, full), self.types)
                continue
            spec = self.sources.spec(path)
            if spec is None:
                if re.match(r"Rattle\.alg_\w+\.proofs\.", path + "."):
                    self.sources.strays.add((here or "a clause", path, target[1]))
                continue
            unit = spec.by_name.get(target[1])
            if unit is None:
                continue
            if (path, unit.first) not in self.seen:
                self.seen.add((path, unit.first))
                self.units.setdefault(path, []).append(unit)
                waiting.append((path, unit))


def full_type(path, full):
    """The path of a type: its module ends in the type's own name."""
    return path if path.split(".")[-1][:1].isupper() else full


def blanked(text):
    return re.sub(r"//[^\n]*", "", text)


def crate_files(crate):
    return sorted((TOP / "crates" / crate / "src").rglob("*.rt"))


def closing(text, start):
    """The place behind the brace that closes the one at this place."""
    depth = 0
    for place in range(start, len(text)):
        depth += {"{": 1, "}": -1}.get(text[place], 0)
        if depth == 0:
            return place + 1
    return len(text)


def contract_after(text, start):
    """The clauses between the head of a function at this place and its body."""
    clause = re.compile(r"\s*(?://[^\n]*\n\s*)*(requires|ensures)\s+(?:(\w+)\s+)?(?=\{)")
    first = re.compile(r"\b(?:requires|ensures)\s+(?:\w+\s+)?\{|\{").search(text, start)
    found = []
    place = first.start() if first else len(text)
    match = clause.match(text, place)
    while match:
        end = closing(text, match.end())
        found.append((match.group(1), match.group(2) or "", " ".join(text[match.end() + 1:end - 1].split())))
        match = clause.match(text, end)
    return found


def clauses(crate, function):
    """The clauses of a function, as (kind, name, text), and the imports that are in force for them."""
    head = re.compile(r"^\s*(?:pub(?:\([a-z]+\))? )?fn " + function + r"\b", re.M)
    for file in crate_files(crate):
        text = file.read_text(encoding="utf-8")
        match = head.search(text)
        while match:
            found = contract_after(text, match.start())
            if found:
                imports = Imports()
                for line in blanked(text).split("\n"):
                    if line.startswith("ghost use"):
                        imports.read(line)
                return file, found, imports
            match = head.search(text, match.end())
    raise SystemExit(f"trust.py: no contract of {function} in {crate}")


def crate_order():
    """The crates of crates.txt, each after those that it stands on."""
    stands = {}
    for line in (TOP / "crates.txt").read_text(encoding="utf-8").split("\n"):
        line = line.split("#")[0].strip()
        if line:
            name, _, rest = line.partition(":")
            stands[name.split()[0]] = rest.split()
    order = []

    def visit(name):
        if name in stands and name not in order:
            for low in stands[name]:
                visit(low)
            if name not in order:
                order.append(name)

    for name in stands:
        visit(name)
    return order


def reading_order(sources, reach, crates):
    """The files that were reached, each after those that its reached definitions use."""
    uses = {path: set() for path in reach.units}
    for path, units in reach.units.items():
        spec = sources.spec(path)
        for unit in units:
            for word in words(unit.text):
                target = resolve(word, spec.imports, spec.by_name)
                if target and target[0] in uses and target[0] != path:
                    uses[path].add(target[0])

    def key(path):
        crate = path.split(".")[1]
        return (crates.index(crate) if crate in crates else len(crates), path)

    order, state = [], {}

    def visit(path):
        if path in state:
            return
        state[path] = True
        for low in sorted(uses[path], key=key):
            visit(low)
        order.append(path)

    for path in sorted(uses, key=key):
        visit(path)
    return order


def names_of(spec, units):
    """The first few names that the units declare."""
    found = []
    for unit in sorted(units, key=lambda u: u.first):
        for name in re.findall(r"^\s*(?:(?:abbrev|unfoldable)(?: pub)?|pub (?:data|record)|(?:data|record)) (" + NAME + ")", unit.text, re.M):
            if name not in found:
                found.append(name)
    return found


def heading_of(spec, units):
    if spec.heading:
        return spec.heading.rstrip(".").rstrip()
    names = names_of(spec, units)
    text = ", ".join(f"`{name}`" for name in names[:5])
    return text + (" and more" if len(names) > 5 else "")


def type_file(crate, name):
    """The file of the crate that declares a type, and None where a macro or another crate does."""
    pattern = re.compile(r"^\s*pub(?:\([a-z]+\))? (?:enum|struct) " + re.escape(name) + r"\b", re.M)
    for file in crate_files(crate):
        if pattern.search(file.read_text(encoding="utf-8")):
            return file
    return None


def types_line(types, crates):
    by_file = {}
    for crate, name in sorted(types, key=lambda t: (crates.index(t[0]) if t[0] in crates else len(crates), t)):
        file = type_file(crate, name)
        if file is not None:
            by_file.setdefault(file, []).append(name)
    parts = []
    for file, names in by_file.items():
        path = file.relative_to(TOP / "crates").as_posix()
        parts.append(", ".join(f"`{name}`" for name in names) + f" ([{path}](../crates/{path}))")
    return "; ".join(parts)


def page():
    sources, crates = Sources(), crate_order()
    contracts = {function: clauses(crate, function) for crate, function in FUNCTIONS}
    out = [
        "# What has to be believed",
        "",
        "Everything that the program promises is said in the clauses of three functions: `accept`, the kernel's check "
        "of a list of proof lines; `run`, the whole program; and `check`, its check of certificates. That the code "
        "keeps these clauses is proved, and whoever trusts the prover needs to read neither code nor proofs. What the "
        "clauses *mean* is said by definitions, and these have to be read and believed. Here they are, each file "
        "after those that it builds on. `tools/trust.py` makes this page from the sources.",
        "",
        "The number of lines counts the definitions that are reached, without comments, imports and blank lines; a "
        "file may hold others beside them. Of definitions that stand in one block with a reached one all count. "
        "Definitions of the kit, such as those of numbers, lists and options, aren't listed.",
        "",
        "A clause sees a value of the code as its model, which stands beside its type: a base as its list of "
        "declarations, an arena as its list of trees, a text as its bytes. `old` and `new` are a value before and "
        "after the call, `now` one that doesn't change. What the calls of a host do, over which `run` and `check` "
        "work, is said by the clauses of the trait in [alg_host/src/host.rt](../crates/alg_host/src/host.rt).",
        "",
    ]
    seen, seen_types, tables, total = set(), set(), [], []
    for title, text, roots in PARTS:
        reach = Reach(sources, seen)
        shown = []
        for function, only in roots:
            file, found, imports = contracts[function]
            for kind, name, clause in found:
                if only and name != only:
                    continue
                reach.from_text(clause, imports)
                if only:
                    shown.append((function, kind, name, clause))
        order = reading_order(sources, reach, crates)
        lines = sum(unit.lines for units in reach.units.values() for unit in units)
        total.append((title, len(order), lines))
        part = [f"## {title}", "", text, ""]
        for function, kind, name, clause in shown:
            part += [f"    {kind} {name} {{ {clause} }}", ""]
        part += ["| File | What it defines | Lines |", "|---|---|---|"]
        for path in order:
            spec = sources.spec(path)
            file = spec.path.relative_to(TOP / "crates").as_posix()
            count = sum(unit.lines for unit in reach.units[path])
            part.append(f"| [{file}](../crates/{file}) | {heading_of(spec, reach.units[path])} | {count} |")
        types = types_line(reach.types - seen_types, crates)
        seen_types |= reach.types
        if types:
            part += ["", f"Types of the code that these name: {types}."]
        tables += part + [""]
    out += ["| Part | Files | Lines |", "|---|---|---|"]
    out += [f"| {title} | {files} | {lines} |" for title, files, lines in total]
    out += [f"| all | {len({path for path, _ in seen})} | {sum(lines for _, _, lines in total)} |", ""]
    for here, path, name in sorted(sources.strays):
        print(f"trust.py: {here} uses {name} of {path}, which isn't followed", file=sys.stderr)
    out += [
        "Where to begin: read the first part, and of the third what a report says "
        f"([alg_report/specs/Report.antt](../crates/alg_report/specs/Report.antt)). The clauses themselves stand in "
        + ", ".join(
            f"`{function}` in [{contracts[function][0].relative_to(TOP / 'crates').as_posix()}]"
            f"(../crates/{contracts[function][0].relative_to(TOP / 'crates').as_posix()})"
            for _, function in FUNCTIONS
        )
        + ".",
        "",
    ]
    return "\n".join(out + tables).rstrip("\n") + "\n"


def main():
    text = page()
    if sys.argv[1:] == ["--check"]:
        if not PAGE.is_file() or PAGE.read_text(encoding="utf-8") != text:
            raise SystemExit("trust.py: docs/TRUST.md isn't what the sources give; run tools/trust.py")
        return
    PAGE.write_text(text, encoding="utf-8")


if __name__ == "__main__":
    main()
