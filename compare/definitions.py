"""Reads the definitions of crates/rules/specs as they stand: clauses, types, and the equations that the check computes.

What is read is the part of the language that these files use. Anything else is an Unknown error, never passed over.
"""
import re
from pathlib import Path
from typing import Any, Dict, List, NamedTuple, Tuple

RULES = Path(__file__).resolve().parent.parent / "crates" / "rules"

OURS = "Rattle.rules.specs."
# Not computed: limits are propositions, Open only gives names to sets of definitions, Said speaks of the code's answers.
NOT_READ = ("Limits", "Open", "Said")

# Binding strength and side, as the libraries declare them.
SIGNS = {"→": (1, "right"), "≡": (4, "none"), "||": (30, "left"), "&&": (35, "left"),
         "+": (65, "left"), "-": (65, "left"), "++": (65, "left"), "∷": (67, "right"),
         "*": (70, "left"), "/": (70, "left"), "%": (70, "left"), "^": (75, "right")}


class Unknown(Exception):
    """A form that is not read, in plain words."""


# ------------------------------------------------------------------ expressions


class Number(NamedTuple):
    value: int


class Name(NamedTuple):
    text: str


class Empty(NamedTuple):
    """The empty list."""


class Call(NamedTuple):
    head: Any
    arguments: Tuple


class Field(NamedTuple):
    of: Any
    name: str


class Sign(NamedTuple):
    """A sign between two expressions."""
    sign: str
    left: Any
    right: Any


class Function(NamedTuple):
    name: str
    body: Any


class Let(NamedTuple):
    name: str
    value: Any
    body: Any


class Record(NamedTuple):
    names: Tuple[str, ...]
    values: Tuple


def parts(e):
    """The expressions of which an expression is made."""
    if isinstance(e, Call):
        return (e.head,) + e.arguments
    if isinstance(e, Field):
        return (e.of,)
    if isinstance(e, Sign):
        return (e.left, e.right)
    if isinstance(e, Function):
        return (e.body,)
    if isinstance(e, Let):
        return (e.value, e.body)
    if isinstance(e, Record):
        return e.values
    return ()


def with_parts(e, new):
    """The same expression made of other parts."""
    new = tuple(new)
    if isinstance(e, Call):
        return Call(new[0], new[1:])
    if isinstance(e, Field):
        return Field(new[0], e.name)
    if isinstance(e, Sign):
        return Sign(e.sign, *new)
    if isinstance(e, Function):
        return Function(e.name, new[0])
    if isinstance(e, Let):
        return Let(e.name, *new)
    if isinstance(e, Record):
        return Record(e.names, new)
    return e


def elements(e):
    """The elements of a list that is written out, or None."""
    found = []
    while isinstance(e, Sign) and e.sign == "∷":
        found.append(e.left)
        e = e.right
    return found if isinstance(e, Empty) else None


def listed(found):
    """The list of these elements, written out."""
    e = Empty()
    for each in reversed(found):
        e = Sign("∷", each, e)
    return e


def text(e, strength=0):
    """An expression as it is written; in brackets where something of this strength stands beside it."""
    if isinstance(e, Number):
        return str(e.value)
    if isinstance(e, Name):
        return e.text
    if isinstance(e, Empty):
        return "[]"
    if isinstance(e, Record):
        fields = "; ".join(f"{name} = {text(value)}" for name, value in zip(e.names, e.values))
        return bracketed(f"record {{ {fields} }}", strength > 90)
    if isinstance(e, Call):
        return bracketed(" ".join([text(e.head, 90)] + [text(each, 100) for each in e.arguments]), strength > 90)
    if isinstance(e, Field):
        return f"{text(e.of, 100)}.{e.name}"
    if isinstance(e, Sign):
        own, side = SIGNS[e.sign]
        left, right = text(e.left, own + (side != "left")), text(e.right, own + (side != "right"))
        return bracketed(f"{left} {e.sign} {right}", strength > own)
    if isinstance(e, Function):
        return bracketed(f"λ {e.name}. {text(e.body)}", strength > 0)
    if isinstance(e, Let):
        return bracketed(f"let {e.name} = {text(e.value)} in {text(e.body)}", strength > 0)
    raise Unknown(f"an expression: {e!r}")


def bracketed(words, wanted):
    return f"({words})" if wanted else words


# ------------------------------------------------------------------ modules


class Clause(NamedTuple):
    patterns: Tuple
    body: Any


class Definition(NamedTuple):
    module: str
    name: str
    type: Any
    clauses: Tuple[Clause, ...]


class Equation(NamedTuple):
    """What the check computes: both sides are the same."""
    module: str
    name: str
    left: Any
    right: Any


class Module(NamedTuple):
    name: str
    imports: Dict[str, Tuple[str, str]]  # a name here: its module and its name there
    others: Dict[str, str]               # a short name of a whole module
    definitions: Dict[str, Definition]
    constructors: Dict[str, int]         # of data types, with their count of arguments
    records: Dict[str, Dict[str, Any]]   # each with the types of its fields
    equations: List[Equation]


def file_text(name):
    return (RULES / name).read_text(encoding="utf-8")


def specs_texts():
    """The texts of the modules that Lib.antt names, in its order."""
    names = []
    for number, lines in items(file_text("specs/Lib.antt")):
        named = re.fullmatch(r"pub mod (\w+)", " ".join(lines))
        if not named:
            raise Unknown(f"Lib.antt, line {number}: {lines[0]}")
        names.append(named.group(1))
    return {name: file_text(f"specs/{name}.antt") for name in names if name not in NOT_READ}


def read_all(texts):
    """All modules, from their texts."""
    return {name: read_module(name, words) for name, words in texts.items()}


def all_records(modules):
    """The fields of every record, with their types: of the modules, and of src/lib.rt, where most are numbers."""
    found = {name: fields for module in modules.values() for name, fields in module.records.items()}
    for name, fields in re.findall(r"pub struct (\w+) \{(.*?)\n\}", file_text("src/lib.rt"), re.S):
        found[name] = {field: Name("ℕ" if re.fullmatch(r"u\d+|usize", type_) else type_)
                       for field, type_ in re.findall(r"pub (\w+): (\w+),", fields)}
    return found


def items(words):
    """The items of a file, each with its first line's number: one begins at the left edge and goes on indented, to a
    closing bracket if it is a list over several lines."""
    found = []
    for number, line in enumerate(words.splitlines(), 1):
        line = re.sub(r"(^|\s)--(\s.*|-*)?$", "", line).rstrip()
        if not line:
            continue
        if line[0] not in " }":
            found.append((number, [line]))
        elif found:
            found[-1][1].append(line)
        else:
            raise Unknown(f"line {number}: an indented line without a beginning")
    return found


def read_module(name, words):
    """A module from the text of its file."""
    module = Module(name, {}, {}, {}, {}, {}, [])
    types, clauses = {}, {}
    for number, lines in items(words):
        try:
            read_item(module, lines, types, clauses)
        except Unknown as trouble:
            raise Unknown(f"{name}.antt, line {number}: {trouble}") from None
    for own, type_ in types.items():
        if own not in clauses:
            raise Unknown(f"{name}.antt: {own} has a type and no clause")
        add_definition(module, own, type_, tuple(clauses[own]))
    for own in clauses:
        if own not in types:
            raise Unknown(f"{name}.antt: {own} has a clause and no type")
    return module


def add_definition(module, name, type_, clauses):
    if isinstance(type_, Sign) and type_.sign == "≡":
        if clauses != (Clause((), Name("refl")),):
            raise Unknown(f"{module.name}.antt: {name} is an equation that is not computed")
        module.equations.append(Equation(module.name, name, type_.left, type_.right))
    elif result_of(type_) != Call(Name("Type"), (Number(0),)):  # a proposition has nothing to compute
        if len({len(clause.patterns) for clause in clauses}) != 1:
            raise Unknown(f"{module.name}.antt: the clauses of {name} have different counts of arguments")
        module.definitions[name] = Definition(module.name, name, type_, clauses)


def read_item(module, lines, types, clauses):
    first = lines[0].split()
    plain = [word for word in first if word not in ("pub", "abbrev", "unfoldable")]
    whole = " ".join(lines)
    if plain[0] == "use":
        read_use(module, whole)
    elif plain[0] == "unfolding":
        pass  # which definitions the check opens: all are open here
    elif plain[0] == "record":
        fields = [Tokens(re.sub(r"^\s+pub ", "", line)).signature() for line in lines[1:]]
        module.records[type_name(lines[0])] = dict(fields)
    elif plain[0] == "data":
        type_name(lines[0])
        for line in lines[1:]:
            name, type_ = Tokens(line).signature()
            module.constructors[name] = len(arguments_of(type_))
    elif len(plain) > 1 and plain[1] == ":":
        name, type_ = Tokens(" ".join([" ".join(plain)] + lines[1:])).signature()
        if name in types:
            raise Unknown(f"{name} is declared twice")
        types[name] = type_
    elif plain == first and "=" in whole.split():
        name, clause = Tokens(whole).clause()
        clauses.setdefault(name, []).append(clause)
    else:
        raise Unknown(lines[0])


def type_name(line):
    """The name of a record or data type from the line that begins it."""
    found = re.fullmatch(r"pub (?:record|data) (\w+) : Type 0 where", line)
    if not found:
        raise Unknown(line)
    return found.group(1)


def read_use(module, line):
    whole = re.fullmatch(r"use (\S+) as (\w+)", line)
    some = re.fullmatch(r"(?:pub )?use ([^\s{]+)\.\{([^{}]+)\}", line)
    if whole and whole.group(1).startswith(OURS):
        module.others[whole.group(2)] = whole.group(1)[len(OURS):]
    elif some:
        place, names = some.groups()
        place = place[len(OURS):] if place.startswith(OURS) else "library " + place
        for name in re.split(r",\s*(?=\S)", names.strip().rstrip(",")):
            if len(name.split()) != 1:
                raise Unknown(line)
            module.imports[name.strip()] = (place, name.strip())
    else:
        raise Unknown(line)


def arguments_of(type_):
    """The types of a function's arguments."""
    found = []
    while isinstance(type_, Sign) and type_.sign == "→":
        found.append(type_.left)
        type_ = type_.right
    return found


def result_after(type_, count):
    """The type that is left when a function was given so many arguments, or None."""
    for _ in range(count):
        type_ = type_.right if isinstance(type_, Sign) and type_.sign == "→" else None
    return type_


def result_of(type_):
    return result_after(type_, len(arguments_of(type_)))


# ------------------------------------------------------------------ from words to expressions

# A field is a word with its dot, before which no space stands; a whole module's short name is one word with the name.
PLAIN = r"[^\s(){};\[\].]+"
TOKEN = re.compile(rf"\[\]|[(){{}};]|[A-Z]\w*\.{PLAIN}|(?<!\s)\.{PLAIN}|{PLAIN}(?:\.(?=\s))?")
NUMERAL = re.compile(r"\d+$")
NAME = re.compile(r"([A-Z]\w*\.)?[^\W\d][\w'-]*$")
KEYWORDS = {"let", "in", "record", "λ", "where", "=", ":", "use", "as", "pub", "abbrev", "unfoldable", "unfolding"}


class Tokens:
    """The words of one item, read from left to right."""

    def __init__(self, words):
        self.words = TOKEN.findall(words)
        if "".join(self.words) != re.sub(r"\s", "", words):
            raise Unknown(words.strip())
        self.at = 0

    def next(self):
        return self.words[self.at] if self.at < len(self.words) else None

    def take(self, wanted=None):
        word = self.next()
        if word is None or (wanted is not None and word != wanted):
            raise Unknown(f"{'the end' if word is None else word!r} where {wanted or 'a word'!r} should be")
        self.at += 1
        return word

    def end(self):
        if self.next() is not None:
            raise Unknown(f"{self.next()!r} after the end of an expression")

    def name(self):
        word = self.take()
        if word in KEYWORDS or word in SIGNS or not NAME.match(word):
            raise Unknown(f"{word!r} where a name should be")
        return word

    def signature(self):
        name = self.name()
        self.take(":")
        if self.next() == "{":  # a type that is found by itself, as in '{A : Type 0} → List A', is passed over
            for word in ("{", None, ":", "Type", "0", "}", "→"):
                self.take(word)
        type_ = self.expression()
        self.end()
        return name, type_

    def clause(self):
        name = self.name()
        patterns = []
        while self.next() != "=":
            patterns.append(checked_pattern(self.atom()))
        self.take("=")
        body = self.expression()
        self.end()
        return name, Clause(tuple(patterns), body)

    def expression(self, strength=0):
        if self.next() == "λ":
            return self.function()
        if self.next() == "let":
            return self.let()
        left = self.call()
        while self.next() in SIGNS:
            sign = self.next()
            own, side = SIGNS[sign]
            if own < strength:
                break
            self.take()
            left = Sign(sign, left, self.expression(own + (side != "right")))
            if side == "none" and self.next() in SIGNS and SIGNS[self.next()][0] == own:
                raise Unknown(f"{sign} twice without brackets")
        return left

    def function(self):
        self.take("λ")
        word = self.take()
        if not word.endswith(".") or not NAME.match(word[:-1]):
            raise Unknown(f"λ {word}: a function of one name is read, as 'λ x. body'")
        return Function(word[:-1], self.expression())

    def let(self):
        self.take("let")
        name = self.name()
        self.take("=")
        value = self.expression()
        self.take("in")
        return Let(name, value, self.expression())

    def call(self):
        head, arguments = self.atom(), []
        while True:
            word = self.next()
            if word is None or word in SIGNS or word in (")", "}", ";", "=", "in", ":"):
                break
            arguments.append(self.atom())
        return Call(head, tuple(arguments)) if arguments else head

    def atom(self):
        """What needs no brackets, with the fields that are taken from it."""
        e = self.without_fields()
        while (self.next() or "").startswith("."):
            word = self.take()
            if not NAME.match(word[1:]):
                raise Unknown(f"{word!r} where a field should be")
            e = Field(e, word[1:])
        return e

    def without_fields(self):
        word = self.next()
        if word == "(":
            self.take()
            inner = self.expression()
            self.take(")")
            return inner
        if word == "[]":
            self.take()
            return Empty()
        if word == "record":
            return self.record()
        if word is not None and NUMERAL.match(word):
            self.take()
            return Number(int(word))
        return Name(self.name())

    def record(self):
        self.take("record")
        self.take("{")
        names, values = [], []
        while self.next() != "}":
            names.append(self.name())
            self.take("=")
            values.append(self.expression())
            if self.next() != "}":
                self.take(";")
        self.take("}")
        return Record(tuple(names), tuple(values))


def checked_pattern(pattern):
    """A pattern is a name, zero, suc of a pattern, [], or a pattern ∷ a pattern."""
    if isinstance(pattern, Empty) or (isinstance(pattern, Name) and pattern.text not in ("true", "false")):
        return pattern
    if isinstance(pattern, Call) and pattern.head == Name("suc") and len(pattern.arguments) == 1:
        checked_pattern(pattern.arguments[0])
        return pattern
    if isinstance(pattern, Sign) and pattern.sign == "∷":
        checked_pattern(pattern.left)
        checked_pattern(pattern.right)
        return pattern
    raise Unknown(f"the pattern {text(pattern)}")
