#!/usr/bin/env python3
"""Checks a certificate against a file of goals, as `algebra check FILE CERT` does, and prints the same lines.

This is a second checker, written from docs/NOTATION.md, docs/CERTIFICATES.md and docs/LAWS.md (which it reads for the laws
and lemmas) and from nothing of the program's code. It is plain Python 3 and is no part of what is proved: it is there
so that those pages can be seen to be enough, and that two programs can be compared. Run it as

    tools/check.py FILE CERT
"""
import math
import pathlib
import re
import sys
import unicodedata

sys.setrecursionlimit(100_000)
GREATEST = 2**127 - 1
LAWS = pathlib.Path(__file__).resolve().parent.parent / "docs" / "LAWS.md"


class Fault(Exception):
    """A command, a line or bytes with a fault, and which."""


# ---- Tokens -----------------------------------------------------------------------------------------------------

COMMANDS = {"import", "variable", "theorem", "lemma", "example"}
WORDS = COMMANDS | {"by", "Type"}
MARKS = [":=", "<=", ">=", "->", "⁻¹"] + list("(){}[]:;=≠<≤>≥∣+-*/%^•→")
SAME = {"<=": "≤", ">=": "≥", "->": "→"}


def starts(c):
    return c == "_" or c in "ℕℤℚ" or c.isidentifier()


def goes_on(c):
    return starts(c) or c == "'" or "₀" <= c <= "₉" or ("a" + c).isidentifier() or unicodedata.category(c) == "Cf" and c in "\u200c\u200d"


class Token:
    def __init__(self, kind, text, line, fresh):
        self.kind, self.text, self.line, self.fresh = kind, text, line, fresh


def tokens_of(text):
    """The tokens of a text; a lexer fault is a token of the kind 'fault'."""
    found, at, line, fresh = [], 0, 1, True

    def put(kind, what):
        nonlocal fresh
        found.append(Token(kind, what, line, fresh))
        fresh = False

    while at < len(text):
        c = text[at]
        if c in " \t\r\n":
            if c == "\n":
                line, fresh = line + 1, True
            at += 1
        elif text.startswith("--", at):
            end = text.find("\n", at)
            at = len(text) if end < 0 else end
        elif text.startswith("/-", at):
            depth, end = 1, at + 2
            while depth and end < len(text):
                if text.startswith("/-", end):
                    depth, end = depth + 1, end + 2
                elif text.startswith("-/", end):
                    depth, end = depth - 1, end + 2
                else:
                    end += 1
            if depth:
                put("fault", "open comment")
                return found
            if "\n" in text[at:end]:
                line, fresh = line + text.count("\n", at, end), True
            at = end
        elif c in "0123456789":
            end = at
            while end < len(text) and text[end] in "0123456789":
                end += 1
            digits = text[at:end].lstrip("0") or "0"
            if len(digits) > 39 or int(digits) > GREATEST:
                put("fault", "literal too wide")
            else:
                put("literal", int(digits))
            at = end
        elif starts(c):
            end = at + 1
            while end < len(text) and (goes_on(text[end]) or text[end] == "." and end + 1 < len(text) and starts(text[end + 1])):
                end += 2 if text[end] == "." else 1
            name = text[at:end]
            put("word" if name in WORDS else "name", name)
            at = end
        else:
            mark = next((m for m in MARKS if text.startswith(m, at)), None)
            if mark:
                put("mark", SAME.get(mark, mark))
            else:
                put("fault", "bad character")
            at += len(mark) if mark else 1
    return found


# ---- Syntax: expressions are tuples, a word first ---------------------------------------------------------------

RELATIONS = {"=": "eq", "≠": "ne", "<": "lt", "≤": "le", "∣": "dvd", ">": "lt", "≥": "le"}
PROCEDURES = {"norm_num", "ring", "ring1", "ring_nf", "abel", "abel1", "abel_nf", "group", "positivity", "field_simp"}


class Reader:
    def __init__(self, tokens):
        self.tokens, self.at = tokens, 0

    def peek(self, text=None):
        if self.at == len(self.tokens):
            return None
        token = self.tokens[self.at]
        return token if text is None or token.kind in ("mark", "word") and token.text == text else None

    def take(self, text):
        if not self.peek(text):
            raise Fault("syntax")
        self.at += 1

    def name(self):
        token = self.peek()
        if not token or token.kind != "name":
            raise Fault("syntax")
        self.at += 1
        return token.text

    def sum(self):
        left = self.product()
        while self.peek("+") or self.peek("-"):
            mark = self.tokens[self.at].text
            self.at += 1
            left = (mark, left, self.product())
        return left

    def product(self):
        left = self.multiple()
        while self.peek("*") or self.peek("/") or self.peek("%"):
            mark = self.tokens[self.at].text
            self.at += 1
            left = (mark, left, self.multiple())
        return left

    def multiple(self):
        parts = [self.prefix()]
        while self.peek("•"):
            self.at += 1
            parts.append(self.prefix())
        e = parts.pop()
        while parts:
            e = ("•", parts.pop(), e)
        return e

    def prefix(self):
        if self.peek("-"):
            self.at += 1
            return ("neg", self.prefix())
        base = self.application()
        if self.peek("^"):
            self.at += 1
            return ("^", base, self.prefix())
        return base

    def application(self):
        token = self.peek()
        if token and token.kind == "name":
            # (a name with marks ⁻¹ directly behind it is no application)
            mark = self.at
            self.at += 1
            parts = []
            while True:
                token = self.peek()
                if not token or token.fresh or not (token.kind in ("name", "literal") or self.peek("(")):
                    break
                parts.append(self.postfix())
            if parts:
                return ("apply", self.tokens[mark].text, parts)
            self.at = mark
        return self.postfix()

    def postfix(self):
        token = self.peek()
        if not token:
            raise Fault("syntax")
        if token.kind == "literal":
            self.at += 1
            e = ("literal", token.text)
        elif token.kind == "name":
            self.at += 1
            e = ("name", token.text)
        else:
            self.take("(")
            e = self.sum()
            if self.peek(":"):
                self.at += 1
                e = ("typed", e, self.name())
            self.take(")")
        while self.peek("⁻¹"):
            self.at += 1
            e = ("inv", e)
        return e

    def statement(self):
        left = self.sum()
        token = self.peek()
        if not token or token.kind != "mark" or token.text not in RELATIONS:
            raise Fault("syntax")
        self.at += 1
        return (token.text, left, self.sum())

    def binder(self):
        if self.peek("["):
            self.at += 1
            binder = ("class", self.name(), self.name())
            self.take("]")
            return binder
        close = ")" if self.peek("(") else "}"
        self.take("(" if close == ")" else "{")
        names = [self.name()]
        while not self.peek(":"):
            names.append(self.name())
        self.take(":")
        if self.peek("Type"):
            self.at += 1
            if self.peek("*"):
                self.at += 1
            kind = ("type",)
        else:
            kind = self.arrows() or ("hypothesis", self.statement())
        self.take(close)
        return ("names", names, kind)

    def arrows(self):
        start, sorts = self.at, []
        while True:
            token = self.peek()
            if not token or token.kind != "name":
                break
            sorts.append(self.name())
            if self.peek(")") or self.peek("}"):
                return ("sorts", sorts)
            if not self.peek("→"):
                break
            self.at += 1
        self.at = start
        return None

    def command(self):
        word = self.peek()
        if not word or word.kind != "word" or word.text not in COMMANDS:
            raise Fault("syntax")
        self.at += 1
        if word.text == "import":
            self.name()
            command = ("import",)
        elif word.text == "variable":
            binders = [self.binder()]
            while self.peek():
                binders.append(self.binder())
            command = ("variable", binders)
        else:
            label = None if word.text == "example" else self.name()
            binders = []
            while not self.peek(":"):
                binders.append(self.binder())
            self.take(":")
            statement = self.statement()
            self.take(":=")
            self.take("by")
            script = [self.procedure()]
            while self.peek():
                if self.peek(";"):
                    self.at += 1
                elif not self.peek().fresh:
                    raise Fault("syntax")
                script.append(self.procedure())
            command = ("goal", label, binders, statement, script)
        if self.peek():
            raise Fault("syntax")
        return command

    def procedure(self):
        name = self.name()
        return (name, self.sum()) if name == "linear_combination" else (name,)


# ---- Sorts, classes, declarations -------------------------------------------------------------------------------

GIVES = {
    "Semigroup": [], "CommSemigroup": ["Semigroup"], "Monoid": ["Semigroup"], "CommMonoid": ["Monoid", "CommSemigroup"],
    "Group": ["Monoid"], "CommGroup": ["Group", "CommMonoid"], "AddMonoid": [], "AddCommMonoid": ["AddMonoid"],
    "AddGroup": ["AddMonoid"], "AddCommGroup": ["AddGroup", "AddCommMonoid"], "Semiring": ["AddCommMonoid", "Monoid"],
    "CommSemiring": ["Semiring", "CommMonoid"], "Ring": ["Semiring", "AddCommGroup"], "CommRing": ["Ring", "CommSemiring"],
    "Field": ["CommRing"], "LinearOrder": [], "CharZero": [], "IsStrictOrderedRing": ["CharZero"],
    "LinearOrderedCommRing": ["CommRing", "LinearOrder", "IsStrictOrderedRing"],
    "LinearOrderedField": ["Field", "LinearOrder", "IsStrictOrderedRing"],
}
OPERATIONS = {
    "mul": {"Semigroup", "CommSemigroup", "Monoid", "CommMonoid", "Group", "CommGroup"},
    "add": {"AddMonoid", "AddCommMonoid", "AddGroup", "AddCommGroup"},
    "both": {"Semiring", "CommSemiring", "Ring", "CommRing", "Field", "LinearOrderedCommRing", "LinearOrderedField"},
    "order": {"LinearOrder", "LinearOrderedCommRing", "LinearOrderedField"},
}
NEEDS = {"CharZero": ["Semiring"], "IsStrictOrderedRing": ["Semiring", "LinearOrder"]}
BUILT_IN = {"ℕ": "N", "Nat": "N", "ℤ": "Z", "Int": "Z", "ℚ": "Q", "Rat": "Q"}
TAKEN = set(BUILT_IN) | {"abs", "min", "max", "Nat.gcd", "Nat.lcm", "Nat.factorial", "Nat.choose", "Nat.fib"}
NAMED = {"Nat.gcd": "gcd", "Nat.lcm": "lcm", "Nat.factorial": "fact", "Nat.choose": "choose", "Nat.fib": "fib"}
OF_ONE = {"abs": 1, "min": 2, "max": 2}


def operations(name):
    found = {kind for kind in ("mul", "add", "order") if name in OPERATIONS[kind]}
    return found | ({"mul", "add"} if name in OPERATIONS["both"] else set())


def closure(names):
    found, todo = set(), list(names)
    while todo:
        name = todo.pop()
        if name not in found:
            found.add(name)
            todo += GIVES[name]
    return found


ORDERED = ["LinearOrder", "IsStrictOrderedRing"]
OWN = {"N": closure(["CommSemiring"] + ORDERED), "Z": closure(["CommRing"] + ORDERED), "Q": closure(["Field"] + ORDERED)}

# the arguments of a symbol: S is the sort of its value
PLACES = {
    "add": "SS", "mul": "SS", "neg": "S", "sub": "SS", "inv": "S", "div": "SS", "npow": "SN", "zpow": "SZ", "nsmul": "NS",
    "zsmul": "ZS", "abs": "S", "min": "SS", "max": "SS", "natsub": "NN", "idiv": "SS", "mod": "SS", "gcd": "NN", "lcm": "NN",
    "fact": "N", "choose": "NN", "fib": "N",
}
NATURAL = {"natsub", "gcd", "lcm", "fact", "choose", "fib"}


class Base:
    """Declarations in their order: ('type',), ('class', C, sort), ('variable', sort), ('function', sorts, sort), ('hypothesis', statement)."""

    def __init__(self, declarations=()):
        self.declarations = list(declarations)
        self.index()

    def index(self):
        given = {}
        for each in self.declarations:
            if each[0] == "class":
                given.setdefault(each[2], []).append(each[1])
        self.classes = {sort: closure(names) for sort, names in given.items()}
        self.hypotheses = [each[1] for each in self.declarations if each[0] == "hypothesis"]

    def has(self, sort, name):
        return name in (OWN[sort] if sort in OWN else self.classes.get(sort, ()))

    def kind(self, number):
        return self.declarations[number][0] if number < len(self.declarations) else None

    def is_sort(self, sort):
        return sort in OWN or self.kind(sort) == "type"

    def may(self, symbol, sort):
        """Whether the sort has the classes of a symbol."""
        has = self.has
        if isinstance(symbol, int):
            return True
        if symbol in ("inv", "div", "zpow"):
            return has(sort, "Group") or has(sort, "Field")
        if symbol == "abs":
            return has(sort, "Ring") and has(sort, "IsStrictOrderedRing")
        if symbol in ("idiv", "mod"):
            return sort in ("N", "Z")
        if symbol in NATURAL:
            return sort == "N"
        needs = {"add": "AddMonoid", "mul": "Semigroup", "neg": "AddGroup", "sub": "AddGroup", "npow": "Monoid", "nsmul": "AddMonoid", "zsmul": "AddGroup", "min": "LinearOrder", "max": "LinearOrder"}
        return has(sort, needs[symbol])

    def may_literal(self, sort, number):
        return self.has(sort, {0: "AddMonoid", 1: "Monoid"}.get(number, "Semiring"))

    def may_relation(self, relation, sort):
        return self.has(sort, "LinearOrder") if relation in ("lt", "le") else relation != "dvd" or sort in ("N", "Z")


# Trees are interned tuples: ('lit', sort, n), ('var', declaration, sort), ('app', symbol, sort, parts).
INTERNED = {}


def tree(*parts):
    return INTERNED.setdefault(parts, parts)


def sort_of(t):
    return t[1] if t[0] == "lit" else t[2]


class Elaborator:
    """Expressions as trees over a base: a region has one sort, which its first leaf that tells tells."""

    def __init__(self, base, names, hypotheses_allowed=False):
        self.base, self.names, self.proofs = base, names, hypotheses_allowed

    def sort_named(self, name):
        if name in BUILT_IN:
            return BUILT_IN[name]
        if name not in self.names:
            raise Fault("unknown name")
        number = self.names[name]
        if self.base.kind(number) != "type":
            raise Fault("sort mismatch")
        return number

    def leaf_sort(self, e):
        """The sort that a leaf tells, None where it tells none."""
        if e[0] == "typed":
            if e[2] in BUILT_IN:
                return BUILT_IN[e[2]]
            number = self.names.get(e[2])
            return number if number is not None and self.base.kind(number) == "type" else None
        if e[0] == "apply" and e[1] in NAMED or e[0] == "name" and e[1] in NAMED:
            return "N"
        number = self.names.get(e[1])
        if number is None:
            return None
        declared = self.base.declarations[number]
        return {"variable": lambda: declared[1], "function": lambda: declared[2]}.get(declared[0], lambda: None)()

    def region(self, parts):
        """The sort of the first leaf of a region, from the left."""
        for e in parts:
            found = None
            if e[0] in ("+", "-", "*", "/", "%"):
                found = self.region(e[1:3])
            elif e[0] in ("neg", "inv"):
                found = self.region(e[1:2])
            elif e[0] == "^":
                found = self.region(e[1:2])
            elif e[0] == "•":
                found = self.region(e[2:3])
            elif e[0] == "apply" and e[1] in OF_ONE:
                found = self.region(e[2])
            elif e[0] in ("name", "apply", "typed"):
                found = self.leaf_sort(e)
            if found is not None:
                return found
        return None

    def aside(self, e):
        """The sort of an exponent or of a left part of `•`."""
        sort = self.region([e])
        return sort if sort is not None else "Z" if e[0] == "neg" else "N"

    def node(self, symbol, sort, parts):
        return tree("app", symbol, sort, tuple(parts))

    def must(self, symbol, sort):
        if not self.base.may(symbol, sort):
            raise Fault("no instance")

    def tree(self, e, sort):
        head = e[0]
        if head == "literal":
            if not self.base.may_literal(sort, e[1]):
                raise Fault("no instance")
            return tree("lit", sort, e[1])
        if head in ("name", "apply"):
            return self.named(e, sort)
        if head == "typed":
            own = self.sort_named(e[2])
            if own != sort:
                raise Fault("sort mismatch")
            return self.tree(e[1], own)
        if head in ("neg", "inv"):
            self.must(head, sort)
            return self.node(head, sort, [self.tree(e[1], sort)])
        if head == "^":
            own = self.aside(e[2])
            if own not in ("N", "Z"):
                raise Fault("sort mismatch")
            symbol = "npow" if own == "N" else "zpow"
            self.must(symbol, sort)
            return self.node(symbol, sort, [self.tree(e[1], sort), self.tree(e[2], own)])
        if head == "•":
            own = self.aside(e[1])
            if own not in ("N", "Z"):
                raise Fault("sort mismatch")
            symbol = "nsmul" if own == "N" else "zsmul"
            self.must(symbol, sort)
            return self.node(symbol, sort, [self.tree(e[1], own), self.tree(e[2], sort)])
        symbol = {"+": "add", "*": "mul", "%": "mod", "-": "natsub" if sort == "N" else "sub", "/": "idiv" if sort in ("N", "Z") else "div"}[head]
        self.must(symbol, sort)
        return self.node(symbol, sort, [self.tree(e[1], sort), self.tree(e[2], sort)])

    def named(self, e, sort):
        name, parts = e[1], e[2] if e[0] == "apply" else []
        if name in OF_ONE:
            if len(parts) != OF_ONE[name]:
                raise Fault("sort mismatch")
            self.must(name, sort)
            return self.node(name, sort, [self.tree(p, sort) for p in parts])
        if name in NAMED:
            symbol = NAMED[name]
            if sort != "N" or len(parts) != len(PLACES[symbol]):
                raise Fault("sort mismatch")
            return self.node(symbol, "N", [self.tree(p, "N") for p in parts])
        if name in BUILT_IN:
            raise Fault("sort mismatch")
        if name not in self.names:
            raise Fault("unknown name")
        number = self.names[name]
        declared = self.base.declarations[number]
        if declared[0] == "variable" and not parts and declared[1] == sort:
            return tree("var", number, sort)
        if declared[0] == "function" and len(parts) == len(declared[1]) and declared[2] == sort:
            return self.node(number, sort, [self.tree(p, own) for p, own in zip(parts, declared[1])])
        raise Fault("sort mismatch")

    def statement(self, s, sort=None):
        mark, left, right = s
        if sort is None:
            sort = self.region([left, right])
        sort = "N" if sort is None else sort
        if not self.base.may_relation(RELATIONS[mark], sort):
            raise Fault("no instance")
        l, r = self.tree(left, sort), self.tree(right, sort)
        return (RELATIONS[mark], sort) + ((r, l) if mark in ">≥" else (l, r))

    def combination(self, e, sort):
        """The expression of linear_combination; whether it has hypotheses."""
        has = self.contains_proof(e)
        if not has:
            self.tree(e, sort)
            return False
        head = e[0]
        if head == "name":
            declared = self.base.declarations[self.names[e[1]]]
            if declared[1][0] != "eq" or declared[1][1] != sort:
                raise Fault("bad combination")
            return True
        direct = self.direct_proofs(e)
        if head in ("+", "-") or head == "neg" or head == "*" and direct.count(True) == 1 or head == "/" and direct[0] and not direct[1]:
            symbol = {"+": "add", "*": "mul", "-": "natsub" if sort == "N" else "sub", "/": "idiv" if sort in ("N", "Z") else "div", "neg": "neg"}[head]
            self.must(symbol, sort)
            for part in e[1:]:
                self.combination(part, sort)
            return True
        if any(direct):
            raise Fault("bad combination")
        # (a node without a direct proof: what stands deeper is looked for in the order of the text)
        self.tree(e, sort)
        return False

    def contains_proof(self, e):
        return self.proof(e) or any(self.contains_proof(p) for p in self.parts(e))

    def parts(self, e):
        return e[2] if e[0] == "apply" else [e[1]] if e[0] == "typed" else list(e[1:]) if e[0] not in ("literal", "name") else []

    def proof(self, e):
        if e[0] == "name":
            number = self.names.get(e[1])
            return number is not None and self.base.kind(number) == "hypothesis"
        direct = self.direct_proofs(e)
        return e[0] in ("+", "-") and any(direct) or e[0] == "neg" and direct[0] or e[0] == "*" and direct.count(True) == 1 or e[0] == "/" and direct == [True, False]

    def direct_proofs(self, e):
        return [self.proof(p) for p in self.parts(e)]


class File:
    """What a file tells: its goals, in their order, each with its label, its base and its statement."""

    def __init__(self, text):
        self.base, self.names, self.used, self.goals = Base(), {}, set(), []
        tokens = tokens_of(text)
        starts_at = [i for i, t in enumerate(tokens) if t.kind == "word" and t.text in COMMANDS]
        bounds = ([0] if tokens and (not starts_at or starts_at[0]) else []) + starts_at
        for first, last in zip(bounds, bounds[1:] + [len(tokens)]):
            try:
                self.command(tokens[first:last])
            except Fault:
                pass

    def command(self, tokens):
        for token in tokens:
            if token.kind == "fault":
                raise Fault(token.text)
        depth = 0
        for token in tokens:
            if token.kind == "mark" and token.text in "({[":
                depth += 1
            elif token.kind == "mark" and token.text in ")}]":
                depth = max(depth - 1, 0)
            if depth > 256:
                raise Fault("too deep")
        if len(tokens) > 4096:
            raise Fault("too deep")
        command = Reader(tokens).command()
        if command[0] == "import":
            return
        base, names = Base(self.base.declarations), dict(self.names)
        if command[0] == "variable":
            for binder in command[1]:
                self.declare(binder, base, names)
            self.base, self.names = base, names
            return
        _, label, binders, statement, script = command
        if label is not None and label in self.used:
            raise Fault("name taken")
        for binder in binders:
            self.declare(binder, base, names)
        elaborator = Elaborator(base, names)
        said = elaborator.statement(statement)
        for procedure in script:
            if procedure[0] == "linear_combination":
                elaborator.combination(procedure[1], said[1])
            elif procedure[0] not in PROCEDURES:
                raise Fault("unknown procedure")
        if label is not None:
            self.used.add(label)
        self.goals.append((label or f"example@{tokens[0].line}", base, names, said))

    def declare(self, binder, base, names):
        elaborator = Elaborator(base, names)
        if binder[0] == "class":
            _, name, of = binder
            if name not in GIVES:
                raise Fault("unknown name")
            if of in BUILT_IN or of in names and base.kind(names[of]) != "type":
                raise Fault("sort mismatch")
            if of not in names:
                raise Fault("unknown name")
            sort = names[of]
            given = set().union(*[operations(each[1]) for each in base.declarations if each[0] == "class" and each[2] == sort] or [set()])
            if operations(name) & given or not all(base.has(sort, need) for need in NEEDS.get(name, [])):
                raise Fault("no instance")
            base.declarations.append(("class", name, sort))
            base.index()
            return
        _, new, kind = binder
        for i, name in enumerate(new):
            if name in names or name in TAKEN or name in new[:i]:
                raise Fault("name taken")
        if kind[0] == "type":
            declared = ("type",)
        elif kind[0] == "sorts":
            sorts = [elaborator.sort_named(name) for name in kind[1]]
            declared = ("variable", sorts[0]) if len(sorts) == 1 else ("function", tuple(sorts[:-1]), sorts[-1])
        else:
            declared = ("hypothesis", elaborator.statement(kind[1]))
        for name in new:
            names[name] = len(base.declarations)
            base.declarations.append(declared)
        base.index()


# ---- Showing a statement ----------------------------------------------------------------------------------------

LEVEL = {"add": 65, "sub": 65, "natsub": 65, "mul": 70, "div": 70, "idiv": 70, "mod": 70, "nsmul": 73, "zsmul": 73, "neg": 75, "npow": 76, "zpow": 76}
MARK = {"add": "+", "sub": "-", "natsub": "-", "mul": "*", "div": "/", "idiv": "/", "mod": "%", "nsmul": "•", "zsmul": "•", "npow": "^", "zpow": "^"}
CALLED = {"abs": "abs", "min": "min", "max": "max", "gcd": "Nat.gcd", "lcm": "Nat.lcm", "fact": "Nat.factorial", "choose": "Nat.choose", "fib": "Nat.fib"}


class Shower:
    def __init__(self, names):
        self.name = {number: name for name, number in names.items()}

    def sort(self, sort):
        return {"N": "ℕ", "Z": "ℤ", "Q": "ℚ"}.get(sort) or self.name[sort]

    def first(self, t):
        """The leftmost leaf of a region: True where some leaf of it is no literal."""
        if t[0] == "lit":
            return False
        if t[0] == "var" or isinstance(t[1], int) or t[1] in NATURAL - {"natsub"}:
            return True
        inside = t[3][1:] if t[1] in ("nsmul", "zsmul") else t[3][:1] if t[1] in ("npow", "zpow") else t[3]
        return any(self.first(p) for p in inside)

    def statement(self, s):
        relation, sort, l, r = s
        typed = [sort != "N" and not (self.first(l) or self.first(r))]
        mark = {"eq": "=", "ne": "≠", "lt": "<", "le": "≤", "dvd": "∣"}[relation]
        left = self.text(l, 65, typed)
        return f"{left} {mark} {self.text(r, 65, typed)}"

    def apart(self, t, level):
        """A region of its own: an exponent, a left part of `•`, an argument."""
        sort = sort_of(t)
        told = "Z" if level in (74, 75) and t[0] == "app" and t[1] == "neg" else "N"
        return self.text(t, level, [sort != told and not self.first(t)])

    def text(self, t, level, typed):
        if t[0] == "lit":
            if typed[0]:
                typed[0] = False
                return f"({t[2]} : {self.sort(t[1])})"
            return str(t[2])
        if t[0] == "var":
            return self.name[t[1]]
        _, symbol, sort, parts = t
        if isinstance(symbol, int) or symbol in CALLED:
            inside = [self.text(p, 100, typed if symbol in OF_ONE else [False]) for p in parts]
            said, own = " ".join([self.name[symbol] if isinstance(symbol, int) else CALLED[symbol]] + inside), 90
        elif symbol == "inv":
            return self.text(parts[0], 100, typed) + "⁻¹"
        elif symbol == "neg":
            # (two minuses would begin a comment)
            negated = parts[0][0] == "app" and parts[0][1] == "neg"
            inside = self.text(parts[0], 0 if negated else 75, typed)
            said, own = "-" + (f"({inside})" if negated else inside), 75
        elif symbol in ("npow", "zpow"):
            base = self.text(parts[0], 77, typed)
            said, own = f"{base} ^ {self.apart(parts[1], 75)}", 76
        elif symbol in ("nsmul", "zsmul"):
            factor = self.apart(parts[0], 74)
            said, own = f"{factor} • {self.text(parts[1], 73, typed)}", 73
        else:
            own = LEVEL[symbol]
            left = self.text(parts[0], own, typed)
            said = f"{left} {MARK[symbol]} {self.text(parts[1], own + 1, typed)}"
        return said if own >= level else f"({said})"


# ---- Laws and lemmas, as docs/LAWS.md lists them ----------------------------------------------------------------

LETTERS = {"a": "S", "b": "S", "c": "S", "d": "S", "m": "N", "n": "N", "i": "Z", "j": "Z"}


class AnySort(Base):
    """A sort that has every class, for the sort of a law."""

    def has(self, sort, name):
        return sort == "S" or super().has(sort, name)

    def may(self, symbol, sort):
        return sort == "S" or super().may(symbol, sort)


class Row:
    def __init__(self, name, classes, premises, conclusion):
        self.name, self.natural = name, classes == "ℕ"
        self.classes = [] if classes in ("any", "ℕ") else classes.split(" and ")
        own = "N" if self.natural else "S"
        names = {letter: number for number, letter in enumerate(LETTERS)}
        base = AnySort([("variable", own if sort == "S" else sort) for sort in LETTERS.values()])
        elaborator = Elaborator(base, names)
        texts = premises + [conclusion]
        self.letters = [letter for letter in LETTERS if any(letter in re.findall(r"[A-Za-z.]+", text) for text in texts)]
        said = []
        for text in texts:
            # (the page writes two minuses side by side, which begin a comment in a file)
            statement = Reader(tokens_of(text.replace("--", "- -"))).statement()
            told = elaborator.region(statement[1:])
            said.append(elaborator.statement(statement, own if told is None else told))
        self.premises, self.conclusion = said[:-1], said[-1]
        self.places = [own if LETTERS[letter] == "S" else LETTERS[letter] for letter in self.letters]
        self.number = names

    def at(self, statement, sort, trees):
        values = {self.number[letter]: t for letter, t in zip(self.letters, trees)}

        def fill(t):
            if t[0] == "var":
                return values[t[1]]
            if t[0] == "lit":
                return tree("lit", sort if t[1] == "S" else t[1], t[2])
            return tree("app", t[1], sort if t[2] == "S" else t[2], tuple(fill(p) for p in t[3]))

        relation, own, l, r = statement
        return (relation, sort if own == "S" else own, fill(l), fill(r))


def rows_of(page):
    laws, lemmas = {}, {}
    into = laws
    for line in page.split("\n"):
        if line == "# Lemmas":
            into = lemmas
        cells = [cell.strip() for cell in line.strip().strip("|").split("|")]
        if line.startswith("| ") and len(cells) == 4 and cells[0] != "Name":
            quoted = re.findall(r"`([^`]*)`", cells[2])
            into[cells[0]] = Row(cells[0], cells[1], quoted, cells[3].strip("`"))
    return laws, lemmas


# ---- Lean's functions -------------------------------------------------------------------------------------------


def computed(symbol, sort, xs):
    """The value of a function at numbers; None where there is none up to the greatest literal."""
    if symbol in ("idiv", "mod"):
        a, b = xs
        r = a if b == 0 else a % abs(b)
        value = r if symbol == "mod" else 0 if b == 0 else (a - r) // b
    elif symbol == "natsub":
        value = max(xs[0] - xs[1], 0)
    elif symbol == "gcd":
        value = math.gcd(*xs)
    elif symbol == "lcm":
        value = math.lcm(*xs)
    elif symbol == "fact":
        value = math.factorial(xs[0]) if xs[0] < 64 else GREATEST + 1
    elif symbol == "choose":
        n, k = xs
        k, value = min(k, n - k), 1
        if k < 0:
            value = 0
        for i in range(k):
            value = value * (n - i) // (i + 1)
            if value > GREATEST:
                return None
    elif symbol == "fib":
        value, after = 0, 1
        for _ in range(min(xs[0], 400)):
            value, after = after, value + after
    else:
        return None
    return value if abs(value) <= GREATEST else None


# ---- Certificates -----------------------------------------------------------------------------------------------

NUMBER = r"(?:0|[1-9][0-9]*)"


class Words:
    """The words of one line, as its grammar takes them."""

    def __init__(self, text):
        self.words, self.at = text.split(" "), 0
        self.text = text

    def word(self):
        if self.at == len(self.words):
            raise Fault("grammar")
        self.at += 1
        return self.words[self.at - 1]

    def has_more(self):
        return self.at < len(self.words)

    def end(self):
        if self.has_more():
            raise Fault("grammar")

    def among(self, *words):
        word = self.word()
        if word not in words:
            raise Fault("grammar")
        return word

    def number(self, word=None):
        word = self.word() if word is None else word
        if not re.fullmatch(NUMBER, word) or len(word) > 39 or int(word) > GREATEST:
            raise Fault("grammar")
        return int(word)

    def numbers(self):
        found = []
        while self.has_more():
            found.append(self.number())
        return found

    def sort(self, word=None):
        word = self.word() if word is None else word
        return word if word in OWN else self.declaration(word, "t")

    def declaration(self, word, mark):
        if word[:1] != mark:
            raise Fault("grammar")
        return self.number(word[1:])

    def symbol(self, word):
        return word if word in PLACES else self.declaration(word, "@")

    def integer(self):
        word = self.word()
        if word[:1] == "-":
            number = self.number(word[1:])
            if number == 0:
                raise Fault("grammar")
            return -number
        return self.number(word)

    def tree(self):
        """A tree as it is spelled, without its sorts: ('lit', sort, n), ('var', k), ('app', symbol, parts)."""
        open_nodes = []
        while True:
            word = self.word()
            if word[:1] == "(":
                open_nodes.append(("app", self.symbol(word[1:]), []))
                continue
            closes = len(word) - len(word.rstrip(")"))
            word = word[: len(word) - closes]
            if word[:1] == "#":
                sort, colon, number = word[1:].partition(":")
                if not colon:
                    raise Fault("grammar")
                done = ("lit", self.sort(sort), self.number(number))
            else:
                done = ("var", self.declaration(word, "$"))
            for _ in range(closes):
                if not open_nodes:
                    raise Fault("grammar")
                node = open_nodes.pop()
                node[2].append(done)
                done = node
            if not open_nodes:
                return done
            open_nodes[-1][2].append(done)


def line_of(text):
    w = Words(text)
    head = w.word()
    if head in ("refl",):
        line = (head, w.tree())
    elif head in ("symm", "hyp"):
        line = (head, w.number())
    elif head == "trans":
        line = (head, w.number(), w.number())
    elif head == "subst":
        line = (head, w.number(), w.number(), w.number())
    elif head == "cong":
        line = (head, w.symbol(w.word()), [w.number()] + w.numbers())
    elif head in ("law", "lemma"):
        name = w.word()
        if not re.fullmatch(r"[a-z0-9_]+", name):
            raise Fault("grammar")
        sort, trees = w.sort(), []
        while w.has_more() and w.words[w.at] != ";":
            trees.append(w.tree())
        w.among(";")
        line = (head, name, sort, trees, w.numbers())
    elif head == "rest":
        line = (head,)
    elif head in ("add", "mul"):
        line = (head, w.sort(), w.number(), w.number())
    elif head == "rel":
        line = (head, w.among("ne", "lt", "le"), w.sort(), w.number(), w.number())
    elif head == "bridge":
        line = (head, w.among("smul", "zsmul", "zpow"), w.number(), w.tree())
    elif head == "compute":
        word = w.word()
        symbol = "dvd" if word == "dvd" else w.symbol(word)
        sort, xs = w.sort(), [w.integer()]
        while w.has_more():
            xs.append(w.integer())
        line = (head, symbol, sort, xs)
    else:
        raise Fault("grammar")
    w.end()
    return line


def given_of(text):
    w = Words(text)
    w.among("given")
    given = (w.among("eq", "ne", "lt", "le", "dvd"), w.sort(), w.tree(), w.tree())
    w.end()
    return given


def entries_of(data):
    """The entries of a certificate's bytes, each (goal, given, lines); a last item is the place of what is bad."""
    at, state, entry = 0, "first", None
    if not data:
        yield 0
        return
    while at < len(data):
        end = data.find(b"\n", at)
        try:
            if end < 0:
                raise Fault("grammar")
            text = data[at:end].decode("ascii")
            if state == "first":
                if text != "algebra-cert 1":
                    raise Fault("grammar")
                state = "between"
            elif state == "between":
                w = Words(text)
                w.among("goal")
                number = w.number()
                w.end()
                if number == 0:
                    raise Fault("grammar")
                state, entry = "goal", (number, None, [])
            elif text == "end":
                yield entry
                state, entry = "between", None
            elif state == "goal" and text.startswith("given "):
                state, entry = "lines", (entry[0], given_of(text), [])
            else:
                entry[2].append(line_of(text))
                state = "lines"
        except (Fault, UnicodeDecodeError):
            yield at
            return
        at = end + 1
    if state not in ("between",):
        yield len(data)


# ---- Judging ----------------------------------------------------------------------------------------------------


class Judge:
    """The lines of one entry, one after another: each gives its conclusion, or a Fault with its cause."""

    def __init__(self, base, given, laws, lemmas):
        self.base, self.given, self.laws, self.lemmas, self.done = base, given, laws, lemmas, []

    # the first look: names, then sorts, then classes, each of the whole line before the next

    def names(self, item):
        base = self.base
        if item[0] == "lit":
            good = base.is_sort(item[1])
        elif item[0] == "var":
            good = base.kind(item[1]) == "variable"
        else:
            good = not isinstance(item[1], int) or base.kind(item[1]) == "function"
        if not good:
            raise Fault("bad name")
        for part in item[2] if item[0] == "app" else []:
            self.names(part)

    def named_sort(self, sort):
        if not self.base.is_sort(sort):
            raise Fault("bad name")

    def named_symbol(self, symbol):
        if isinstance(symbol, int) and self.base.kind(symbol) != "function":
            raise Fault("bad name")

    def value_sort(self, symbol, sorts):
        """The sort of a symbol's value over arguments of these sorts."""
        if isinstance(symbol, int):
            _, places, value = self.base.declarations[symbol]
            if tuple(sorts) != tuple(places):
                raise Fault("bad sort")
            return value
        places = PLACES[symbol]
        if len(places) != len(sorts):
            raise Fault("bad sort")
        value = "N" if symbol in NATURAL else sorts[places.index("S")]
        if any(sort != (value if place == "S" else place) for place, sort in zip(places, sorts)):
            raise Fault("bad sort")
        return value

    def sorted(self, item):
        if item[0] == "lit":
            return tree("lit", item[1], item[2])
        if item[0] == "var":
            return tree("var", item[1], self.base.declarations[item[1]][1])
        parts = [self.sorted(part) for part in item[2]]
        return tree("app", item[1], self.value_sort(item[1], [sort_of(p) for p in parts]), tuple(parts))

    def instances(self, t):
        if t[0] == "lit" and not self.base.may_literal(t[1], t[2]):
            raise Fault("no instance")
        if t[0] == "app":
            if not self.base.may(t[1], t[2]):
                raise Fault("no instance")
            for part in t[3]:
                self.instances(part)

    def trees(self, items):
        for item in items:
            self.names(item)
        found = [self.sorted(item) for item in items]
        for t in found:
            self.instances(t)
        return found

    def statement(self, given):
        relation, sort, l, r = given
        self.named_sort(sort)
        l, r = self.trees([l, r])
        if sort_of(l) != sort or sort_of(r) != sort or not self.base.may_relation(relation, sort):
            raise Fault("no statement")
        return (relation, sort, l, r)

    # the second look

    def line(self, number):
        if not 1 <= number <= len(self.done):
            raise Fault("bad reference")
        return self.done[number - 1]

    def same_sort(self, *lines):
        if any(line[1] != lines[0][1] for line in lines):
            raise Fault("bad sort")

    def shape(self, holds):
        if not holds:
            raise Fault("bad shape")

    def need(self, holds):
        if not holds:
            raise Fault("no instance")

    def literal(self, sort, number):
        self.need(self.base.may_literal(sort, number))
        return tree("lit", sort, number)

    def numeral(self, sort, x):
        if x >= 0:
            return self.literal(sort, x)
        self.need(self.base.may("neg", sort))
        return tree("app", "neg", sort, (self.literal(sort, -x),))

    def judge(self, line):
        conclusion = getattr(self, "judge_" + line[0])(*line[1:])
        self.done.append(conclusion)

    def judge_refl(self, item):
        (t,) = self.trees([item])
        return ("eq", sort_of(t), t, t)

    def judge_symm(self, i):
        relation, sort, l, r = self.line(i)
        self.shape(relation == "eq")
        return ("eq", sort, r, l)

    def judge_trans(self, i, j):
        first, second = self.line(i), self.line(j)
        self.same_sort(first, second)
        self.shape(first[0] == "eq" and second[0] == "eq" and first[3] is second[2])
        return ("eq", first[1], first[2], second[3])

    def judge_cong(self, symbol, numbers):
        self.named_symbol(symbol)
        lines = [self.line(i) for i in numbers]
        sort = self.value_sort(symbol, [line[1] for line in lines])
        self.need(self.base.may(symbol, sort))
        self.shape(all(line[0] == "eq" for line in lines))
        left = tree("app", symbol, sort, tuple(line[2] for line in lines))
        return ("eq", sort, left, tree("app", symbol, sort, tuple(line[3] for line in lines)))

    def judge_subst(self, i, j, k):
        related, first, second = self.line(i), self.line(j), self.line(k)
        self.same_sort(related, first, second)
        self.shape(first[0] == "eq" and second[0] == "eq" and related[2] is first[2] and related[3] is second[2])
        return (related[0], related[1], first[3], second[3])

    def judge_law(self, name, sort, items, numbers):
        return self.row(self.laws, name, sort, items, numbers)

    def judge_lemma(self, name, sort, items, numbers):
        return self.row(self.lemmas, name, sort, items, numbers)

    def row(self, rows, name, sort, items, numbers):
        self.named_sort(sort)
        trees = self.trees(items)
        lines = [self.line(i) for i in numbers]
        if name not in rows:
            raise Fault("bad name")
        row = rows[name]
        if row.natural and sort != "N" or len(trees) != len(row.letters) or len(lines) != len(row.premises):
            raise Fault("bad sort")
        if any(sort_of(t) != (sort if place == "S" else place) for t, place in zip(trees, row.places)):
            raise Fault("bad sort")
        wanted = [row.at(premise, sort, trees) for premise in row.premises]
        if any(line[1] != premise[1] for line, premise in zip(lines, wanted)):
            raise Fault("bad sort")
        self.need(all(self.base.has(sort, name) for name in row.classes))
        self.shape(all(line[:2] == premise[:2] and line[2] is premise[2] and line[3] is premise[3] for line, premise in zip(lines, wanted)))
        return row.at(row.conclusion, sort, trees)

    def judge_hyp(self, number):
        if not 1 <= number <= len(self.base.hypotheses):
            raise Fault("bad reference")
        return self.base.hypotheses[number - 1]

    def judge_rest(self):
        if self.given is None:
            raise Fault("bad reference")
        return self.given

    def judge_add(self, sort, m, n):
        return self.arithmetic("add", sort, m, n, m + n)

    def judge_mul(self, sort, m, n):
        return self.arithmetic("mul", sort, m, n, m * n)

    def arithmetic(self, symbol, sort, m, n, result):
        self.named_sort(sort)
        self.need(self.base.has(sort, "Semiring"))
        if result > GREATEST:
            raise Fault("bad literal")
        left = tree("app", symbol, sort, (tree("lit", sort, m), tree("lit", sort, n)))
        return ("eq", sort, left, tree("lit", sort, result))

    def judge_rel(self, relation, sort, m, n):
        self.named_sort(sort)
        self.need(self.base.has(sort, "CharZero" if relation == "ne" else "IsStrictOrderedRing"))
        l, r = self.literal(sort, m), self.literal(sort, n)
        if not {"ne": m != n, "lt": m < n, "le": m <= n}[relation]:
            raise Fault("bad literal")
        return (relation, sort, l, r)

    def judge_bridge(self, kind, number, item):
        (t,) = self.trees([item])
        sort, has = sort_of(t), self.base.has
        if kind == "smul":
            self.need(has(sort, "Semiring"))
            sides = ("nsmul", (tree("lit", "N", number), t)), ("mul", (tree("lit", sort, number), t))
        elif kind == "zsmul":
            self.need(has(sort, "AddGroup"))
            sides = ("zsmul", (tree("lit", "Z", number), t)), ("nsmul", (tree("lit", "N", number), t))
        else:
            self.need(has(sort, "Group") or has(sort, "Field"))
            sides = ("zpow", (t, tree("lit", "Z", number))), ("npow", (t, tree("lit", "N", number)))
        return ("eq", sort) + tuple(tree("app", symbol, sort, parts) for symbol, parts in sides)

    def judge_compute(self, symbol, sort, xs):
        if symbol == "dvd":
            self.named_sort(sort)
            if len(xs) != 2:
                raise Fault("bad sort")
            self.need(sort in ("N", "Z"))
            parts = tuple(self.numeral(sort, x) for x in xs)
            if xs[1] != 0 if xs[0] == 0 else xs[1] % xs[0] != 0:
                raise Fault("bad literal")
            return ("dvd", sort) + parts
        self.named_symbol(symbol)
        self.named_sort(sort)
        value_sort = self.value_sort(symbol, [sort] * len(xs))
        if value_sort != sort:
            raise Fault("bad sort")
        self.need(self.base.may(symbol, sort))
        parts = tuple(self.numeral(sort, x) for x in xs)
        value = computed(symbol, sort, xs) if sort in ("N", "Z") else None
        if value is None:
            raise Fault("bad literal")
        return ("eq", sort, tree("app", symbol, sort, parts), self.numeral(sort, value))


SIZES = {}


def size(t):
    """How many nodes a tree has, written out."""
    if id(t) not in SIZES:
        SIZES[id(t)] = 1 + sum(size(p) for p in t[3]) if t[0] == "app" else 1
    return SIZES[id(t)]


def main(words):
    if len(words) != 2:
        print("usage: tools/check.py FILE CERT", file=sys.stderr)
        return 2
    goals = File(pathlib.Path(words[0]).read_bytes().decode("utf-8")).goals
    laws, lemmas = rows_of(LAWS.read_text(encoding="utf-8"))
    accepted = refused = last = 0
    for entry in entries_of(pathlib.Path(words[1]).read_bytes()):
        if isinstance(entry, int):
            print(f"certificate: bad at byte {entry}")
            refused += 1
            break
        number, given, lines = entry
        known = number <= len(goals) and number > last
        last = number
        said, good = verdict(goals[number - 1], given, lines, laws, lemmas) if known else (f"goal {number}: refused: no such goal", False)
        print(said)
        accepted, refused = accepted + good, refused + (not good)
    print(f"accepted {accepted}, refused {refused}")
    return 1 if refused else 0


def verdict(goal, given, lines, laws, lemmas):
    label, base, names, statement = goal
    judge = Judge(base, None, laws, lemmas)
    if given is not None:
        try:
            judge.given = judge.statement(given)
        except Fault:
            return f"{label}: refused: given is not a statement", False
        if size(judge.given[2]) + size(judge.given[3]) > 2**20:
            return f"{label}: refused: given is not a statement", False
    for number, line in enumerate(lines, 1):
        try:
            judge.judge(line)
        except Fault as cause:
            return f"{label}: refused at line {number}: {cause}", False
    if not judge.done or judge.done[-1] != statement:
        return f"{label}: refused: last line is not the goal", False
    if given is not None:
        return f"{label}: accepted from {Shower(names).statement(judge.given)}", True
    return f"{label}: accepted", True


if __name__ == "__main__":
    sys.exit(main(sys.argv[1:]))
