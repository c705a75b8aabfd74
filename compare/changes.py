"""The mutants: definitions with one change, made at every place of every clause, and a table of named slips."""
from typing import Any, NamedTuple, Tuple

from definitions import (Call, Definition, Empty, Field, Function, Let, Name, Number, Record, Sign, Unknown,
                         all_records, arguments_of, elements, listed, parts, read_module, result_after, text, with_parts)
from slips import SLIPS

DEFINITIONS = ("Range", "Units", "Month", "ControlHours", "Bands", "Cut", "Coefficients", "Rows", "Consumers", "Totals",
               "Fields", "Sheet", "Result", "Refusals", "Outcome", "TransferList", "Transfers", "ControlTable",
               "ComplexRecord", "Averaging", "Text2015", "Result2015", "Outcome2015")


class Mutant(NamedTuple):
    module: str
    name: str                        # the definition
    step: str                        # what was done
    old: str
    new: str
    changed: Tuple[Definition, ...]
    reached: Tuple                   # the clauses that must be reached to notice it: module, name, number

    def label(self):
        return f"{self.module}.{self.name}: " + (f"{self.old} → {self.new}" if self.old else self.new)


class Change(NamedTuple):
    """A change of an expression: what was done, the words before and after it, the expression with it."""
    step: str
    old: str
    new: str
    whole: Any


# ------------------------------------------------------------------ what is taken for what

# Fields of one record that hold figures of one kind.
FIELD_KINDS = (
    ("attested", "deductible", "own_needs"),
    ("no_upward_bid", "no_downward_bid", "no_plan"),
    ("k3", "k6", "k7", "k8", "k9", "k10"),
    ("working", "possible", "outside_use", "outside"),
    ("days", "weekday"),
    ("producers", "rows", "consumers"),
    ("producer", "consumer"),
    ("contract", "peak", "volume", "price"),
    ("supplier", "grid", "z"),
    ("first", "last"),
    ("start", "step"),
    ("part", "whole"),
    ("edge", "factor"),
    ("after_cut", "actual", "payment"),
    ("credit", "percent", "band", "volume", "charge"),
    ("factor", "volume", "charge"),
    ("paid", "charged"),
    ("width", "figure"),
    ("place", "bytes"),
)

# Definitions that a reader may take for one another; only those of the same type are.
NAME_KINDS = (
    ("support_volume", "bilateral_volume", "summed_capacity", "excess"),
    ("own_volume", "own_support", "own_bilateral"),
    ("support", "bilateral"),
    ("after_cut", "actual", "payment"),
    ("credit", "counted_peak", "percent", "band", "volume", "charge"),
    ("total_paid", "total_charged"),
    ("k1", "k4"),
    ("k2", "k5"),
    ("asked", "met"),
    ("over_contract", "percent_of", "bracket"),
    ("tenths_ceiling", "millionths_ceiling", "tiyn_ceiling", "one"),
    ("tenth", "hundredth"),
    ("in_hundredths", "in_thousandths", "in_millionths", "to_tenths"),
    ("length_field", "version"),
    ("states_days", "by_column"),
    ("header_width", "row_width", "consumer_width"),
    ("hours", "hours_width", "producer_width"),
    ("sheet_length", "result_length"),
    ("producer_at", "row_at", "consumer_at"),
    ("row_record", "consumer_record"),
    ("row_record_at", "consumer_record_at", "totals_at"),
    ("contract_at", "peak_at"),
    ("record_front", "record_hour"),
    ("record_length", "complex", "imported"),
    ("drawn_series", "sent_series"),
    ("drawn", "sent", "net"),
    ("excess_of", "factor_for", "volume_for"),
    ("factor_2015", "volume_2015", "charge_2015"),
    ("bands", "bands_2015"),
    ("band", "factor_2015"),
    ("volume", "volume_2015"),
    ("charge", "charge_2015"),
    ("result_length", "length_2015"),
    ("consumer_record", "record_2015"),
    ("result_of", "result_2015"),
    ("refusal", "refusal_2015"),
    ("tests", "tests_2015"),
    ("true", "false"),
)

COMPARISONS = {"leb": ("ltb", "eqb"), "ltb": ("leb", "eqb"), "eqb": ("leb", "ltb")}
OTHER_SIGNS = {"+": ["-"], "-": ["+"], "*": ["/"], "/": ["*", "%"], "%": ["/"], "^": ["*"], "&&": ["||"], "||": ["&&"]}
OTHER_NAMES = {"min": "max", "max": "min"}
COUNT_PLACE = {"sum": 1, "any": 1, "listed": 1, "joined": 1, "take": 0, "drop": 0}  # which argument is a count
ROUNDINGS = {
    "rounded down": lambda n, d: Sign("/", n, d),
    "rounded up": lambda n, d: Sign("/", Sign("+", n, Sign("-", d, Number(1))), d),
    "a half rounded down": lambda n, d: Sign("/", Sign("+", n, Sign("/", Sign("-", d, Number(1)), Number(2))), d),
}


def same_kind(name, kinds):
    """The other names of the kinds to which a name belongs."""
    return [other for kind in kinds if name in kind for other in kind if other != name]


def exchanged(values, place):
    """The values with the one at a place and the next one exchanged."""
    return values[:place] + values[place:place + 2][::-1] + values[place + 2:]


# ------------------------------------------------------------------ every change of one step


class Changer:
    """Every change of one step, at every place of an expression. scope: the types of a clause's names."""

    def __init__(self, modules):
        self.records = all_records(modules)
        self.types = {}
        for module in DEFINITIONS:
            for definition in modules[module].definitions.values():
                if definition.name in self.types:
                    raise Unknown(f"two definitions have the name {definition.name}")
                self.types[definition.name] = definition.type

    # -------------------------------------------------------------- types

    def type_of(self, e, scope):
        """The type of an expression, or None where it is not needed."""
        if isinstance(e, Name):
            return scope.get(e.text) or self.types.get(e.text)
        if isinstance(e, Call):
            return result_after(self.type_of(e.head, scope), len(e.arguments))
        if isinstance(e, Field):
            return self.fields_of(e, scope)[e.name]
        return None

    def fields_of(self, e, scope):
        """The fields of the record of which a field is asked."""
        record = self.type_of(e.of, scope)
        if not isinstance(record, Name) or e.name not in self.records.get(record.text, ()):
            raise Unknown(f"the record of {text(e)}")
        return self.records[record.text]

    def expected(self, e, scope):
        """The types that are expected of an expression's parts, where they are known."""
        if isinstance(e, Call):
            types = arguments_of(self.type_of(e.head, scope))
            return [None] + types + [None] * (len(e.arguments) - len(types))
        if isinstance(e, Record):
            for fields in self.records.values():
                if set(fields) == set(e.names):
                    return [fields[name] for name in e.names]
            raise Unknown(f"the record {text(e)}")
        return [None] * len(parts(e))

    def inner_scope(self, e, scope, type_):
        if isinstance(e, Function):
            if type_ is None:
                raise Unknown(f"the type of {text(e)}")
            return {**scope, e.name: arguments_of(type_)[0]}
        if isinstance(e, Let):
            return {**scope, e.name: self.type_of(e.value, scope)}
        return scope

    # -------------------------------------------------------------- places

    def everywhere(self, e, scope, type_=None, inside="", rest=False):
        """Every change in an expression. inside: to what definition it is given; rest: it is the rest of a list."""
        if not rest:
            yield from self.here(e, scope, inside)
        whole, inner, types = parts(e), self.inner_scope(e, scope, type_), self.expected(e, scope)
        name = e.head.text if isinstance(e, Call) and isinstance(e.head, Name) else ""
        for place, part in enumerate(whole):
            for change in self.everywhere(part, inner, types[place], name, is_rest(e, place)):
                changed = with_parts(e, whole[:place] + (change.whole,) + whole[place + 1:])
                old, new = change.old, change.new
                if isinstance(part, (Number, Name)):  # too little to be told by itself
                    old, new = around(e, place, change, changed)
                yield Change(change.step, old, new, changed)

    def here(self, e, scope, inside):
        """Every change of an expression as a whole."""
        def change(step, new):
            return Change(step, text(e), text(new), new)
        if isinstance(e, Number):
            yield change("one more", Number(e.value + 1))
            if e.value > 0:
                yield change("one less", Number(e.value - 1))
        elif isinstance(e, Name):
            for name in self.other_names(e, scope):
                yield change("another name", Name(name))
        elif isinstance(e, Field):
            yield from self.of_field(e, scope, change)
        elif isinstance(e, Call):
            yield from self.of_call(e, change)
            types = self.expected(e, scope)[1:]
            for place in range(len(types) - 1):
                if types[place] is not None and types[place] == types[place + 1]:
                    yield change("exchanged", Call(e.head, exchanged(e.arguments, place)))
        elif isinstance(e, Sign) and e.sign in ("∷", "++"):
            yield from self.of_list(e, inside)
        elif isinstance(e, Sign):
            for sign in OTHER_SIGNS[e.sign]:
                yield change("another sign", Sign(sign, e.left, e.right))
            if e.sign in ("-", "/", "%", "^"):
                yield change("exchanged", Sign(e.sign, e.right, e.left))
            yield change("left out", e.left)
            yield change("left out", e.right)
        elif isinstance(e, Record):
            types = self.expected(e, scope)
            for place in range(len(types) - 1):
                if types[place] == types[place + 1]:
                    names, values = e.names[place:place + 2], e.values[place:place + 2]
                    yield Change("exchanged", text(Record(names, values)), text(Record(names, values[::-1])),
                                 Record(e.names, exchanged(e.values, place)))
        elif not isinstance(e, (Empty, Function, Let)):
            raise Unknown(f"no change is known for {text(e)}")

    def other_names(self, e, scope):
        if e.text in scope:
            return [name for name, type_ in scope.items() if name != e.text and type_ == scope[e.text]]
        return [name for name in same_kind(e.text, NAME_KINDS) if self.types.get(name) == self.types.get(e.text)]

    def of_field(self, e, scope, change):
        fields = self.fields_of(e, scope)
        for name in same_kind(e.name, FIELD_KINDS):
            if fields.get(name) == fields[e.name]:
                yield change("another field", Field(e.of, name))
        if e.name == "volume" and self.type_of(e.of, scope) == Name("Row") and isinstance(e.of, Call):
            for name in ("after_cut", "actual"):
                yield change("another volume", Call(Name(name), (e.of.head.of,) + e.of.arguments))

    def of_call(self, e, change):
        name = e.head.text if isinstance(e.head, Name) else ""
        given = e.arguments
        if name in COMPARISONS:
            for other in COMPARISONS[name]:
                yield change("another comparison", Call(Name(other), given))
            if name != "eqb":
                yield change("exchanged", Call(e.head, given[::-1]))
        elif name in OTHER_NAMES:
            yield change("another name", Call(Name(OTHER_NAMES[name]), given))
            for each in given:
                yield change("left out", each)
        elif name == "cond":
            yield change("exchanged", Call(e.head, exchanged(given, 1)))
            for each in given[1:]:
                yield change("left out", each)
        elif name in ("when", "not"):
            yield change("left out", given[-1])
        elif name == "suc":
            yield change("one less", given[0])
            yield change("one more", Call(e.head, (e,)))
        elif name == "rounded":
            for step, way in ROUNDINGS.items():
                yield change(step, way(*given))
        elif name in COUNT_PLACE:
            place = COUNT_PLACE[name]
            for step, sign in (("one more", "+"), ("one less", "-")):
                count = Sign(sign, given[place], Number(1))
                yield change(step, Call(e.head, given[:place] + (count,) + given[place + 1:]))
        elif name in ("after_cut", "actual") and len(given) == 2:
            yield change("another volume", Field(Call(Field(given[0], "row"), given[1:]), "volume"))

    def of_list(self, e, inside):
        """A list written out, or lists joined: each element left out, doubled, exchanged with the next."""
        found, build = (elements(e), listed) if e.sign == "∷" else (joined(e), together)
        of = f" in {inside}" if inside else ""

        def change(step, old, new, whole):
            return Change(step + of, text(build(old)), text(build(new)), build(whole))
        for place, each in enumerate(found or ()):
            two = found[place:place + 2]
            yield change("left out", two, two[1:], found[:place] + found[place + 1:])
            yield Change("doubled" + of, text(each), text(build([each, each])), build(found[:place + 1] + found[place:]))
            if len(two) == 2:
                yield change("exchanged", two, two[::-1], exchanged(found, place))


def is_rest(e, place):
    """The part at a place is the rest of a list, whose elements were left out and exchanged already."""
    part = parts(e)[place]
    return (isinstance(e, Sign) and isinstance(part, Sign) and e.sign == part.sign
            and (e.sign, place) in (("∷", 1), ("++", 0)))


def around(e, place, change, changed):
    """The words of a change with what stands around it."""
    if isinstance(e, Record):
        return f"{e.names[place]} = {change.old}", f"{e.names[place]} = {change.new}"
    if isinstance(e, (Call, Field)) or (isinstance(e, Sign) and e.sign not in ("∷", "++")):
        return text(e), text(changed)
    return change.old, change.new


def joined(e):
    """The lists that ++ joins."""
    return joined(e.left) + [e.right] if isinstance(e, Sign) and e.sign == "++" else [e]


def together(found):
    e = found[0] if found else Empty()
    for each in found[1:]:
        e = Sign("++", e, each)
    return e


def clause_types(definition, clause):
    """The type of each name that a clause's patterns give."""
    found = {}

    def note(pattern, type_):
        if isinstance(pattern, Name) and pattern != Name("zero"):
            found[pattern.text] = type_
        elif isinstance(pattern, Call):
            note(pattern.arguments[0], type_)
        elif isinstance(pattern, Sign):
            note(pattern.left, type_.arguments[0])
            note(pattern.right, type_)
    for pattern, type_ in zip(clause.patterns, arguments_of(definition.type)):
        note(pattern, type_)
    return found


def step_mutants(changer, definition):
    """Every mutant of a definition by one step."""
    seen, times = {definition.clauses}, {}
    before = definition.clauses
    for number, clause in enumerate(before):
        for change in changer.everywhere(clause.body, clause_types(definition, clause)):
            clauses = before[:number] + (clause._replace(body=change.whole),) + before[number + 1:]
            if clauses in seen:
                continue
            seen.add(clauses)
            words = change.old, change.new
            times[words] = times.get(words, 0) + 1
            new = change.new + (f" ({times[words]})" if times[words] > 1 else "")
            yield Mutant(definition.module, definition.name, change.step, change.old, new,
                         (definition._replace(clauses=clauses),), ((definition.module, definition.name, number),))


# ------------------------------------------------------------------ named slips


def named_mutants(texts, modules):
    """The slips of the table: each puts texts in the place of others, in one file or in several."""
    for name, *edits in SLIPS:
        changed = {}
        for module, old, new in edits:
            words = changed.get(module, texts[module])
            if words.count(old) != 1:
                raise Unknown(f"slip '{name}': {module}.antt has {words.count(old)} places with: {old}")
            changed[module] = words.replace(old, new)
        found = []
        for module, words in changed.items():
            now, before = read_module(module, words).definitions, modules[module].definitions
            if set(now) != set(before):
                raise Unknown(f"slip '{name}': other definitions than before")
            found += [now[each] for each in now if now[each] != before[each]]
        reached = tuple((each.module, each.name, number) for each in found
                        for number in range(len(modules[each.module].definitions[each.name].clauses)))
        yield Mutant(found[0].module, found[0].name, "slip", "", name, tuple(found), reached)


def all_mutants(texts, modules):
    """The named slips, and every step that is none of them."""
    changer = Changer(modules)
    found = list(named_mutants(texts, modules))
    named = {mutant.changed for mutant in found}
    for module in DEFINITIONS:
        for definition in modules[module].definitions.values():
            found += [mutant for mutant in step_mutants(changer, definition) if mutant.changed not in named]
    return found
