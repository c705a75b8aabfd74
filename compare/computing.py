"""Turns the definitions that definitions.py reads into Python functions, and the equations into figures.

Numbers are Python's; a difference ends at 0, a quotient by 0 is 0, a remainder by 0 is the number itself, as in the
library. Lists are tuples. All functions are total, so the order of computing changes no figure. What may not be needed
is computed late: branches of cond, the right side of && and ||, fields of records, and arguments that only go there.
"""
import sys
from functools import partial
from typing import Any, NamedTuple

from definitions import (Call, Empty, Field, Function, Let, Name, Number, Record, Sign, Unknown, arguments_of, elements,
                         parts, text, with_parts)

sys.setrecursionlimit(3000)

# What the library gives: a name, its count of arguments, the Python text with a place for each of them.
PRELUDE = "library Rattle.std.specs.Prelude"
LIBRARY = {
    "zero": (0, "0"),
    "suc": (1, "({} + 1)"),
    "min": (2, "min({}, {})"),
    "max": (2, "max({}, {})"),
    "true": (0, "True"),
    "false": (0, "False"),
    "not": (1, "(not {})"),
    "cond": (3, "({1} if {0} else {2})"),
    "leb": (2, "({} <= {})"),
    "ltb": (2, "({} < {})"),
    "eqb": (2, "({} == {})"),
    "length": (1, "len({})"),
    "get_or": (3, "element({}, {}, {})"),
    "take": (2, "{1}[:{0}]"),
    "drop": (2, "{1}[{0}:]"),
    "replicate": (2, "(({1},) * {0})"),
}

# The Python text of its signs.
SIGN_TEXT = {"+": "({} + {})", "-": "less({}, {})", "*": "({} * {})", "/": "quotient({}, {})", "%": "remainder({}, {})",
             "^": "({} ** {})", "&&": "({} and {})", "||": "({} or {})", "∷": "(({},) + {})", "++": "({} + {})"}


# ------------------------------------------------------------------ what the functions stand on


def less(a, b):
    return a - b if a > b else 0


def quotient(a, b):
    return a // b if b else 0


def remainder(a, b):
    return a % b if b else a


def element(row, place, otherwise):
    return row[place] if place < len(row) else otherwise


class Later:
    """A value that is computed when it is first asked for."""
    __slots__ = ("make", "made")

    def __init__(self, make):
        self.make = make

    def __call__(self):
        if self.make is not None:
            self.made = self.make()
            self.make = None
        return self.made


class Fields:
    """A record: some fields are known, the others are computed when they are first asked for."""

    def __init__(self, known, later):
        self.__dict__.update(known)
        self.later = later

    def __getattr__(self, name):
        value = self.__dict__["later"][name]()
        self.__dict__[name] = value
        return value


class NoClause(Exception):
    """No clause of a definition fits its arguments."""


def no_clause(name):
    raise NoClause(name)


# ------------------------------------------------------------------ translation


def local(name):
    """A name of ours as a name in Python."""
    return "v_" + "".join(c if c.isascii() and c.isalnum() else f"_{ord(c):x}_" for c in name)


def global_name(module, name):
    return f"{module}_{local(name)[2:]}"


class Variable(NamedTuple):
    """A name of a clause: the Python text, and whether that text gives the value only when it is called."""
    words: str
    late: bool


class Figure(NamedTuple):
    """One figure of a list, or an equation: what it says, and a function that tells whether it is right."""
    equation: str
    words: str
    right: Any


class Translator:
    """All definitions as Python functions. seen(module, name, clause), if given, is called at each clause reached."""

    def __init__(self, modules, seen=None):
        self.modules = modules
        self.seen = seen
        self.caches = []
        self.elsewhere = {}  # for mutants: names that a module does not import, with their modules
        self.late = {(module.name, definition.name): late_arguments(definition)
                     for module in modules.values() for definition in module.definitions.values()}
        self.space = {"less": less, "quotient": quotient, "remainder": remainder, "element": element, "Later": Later,
                      "Fields": Fields, "no_clause": no_clause, "partial": partial, "seen": seen}
        constructors = {name for module in modules.values() for name in module.constructors}
        for module in modules.values():
            check_meanings(module, constructors)
            for definition in module.definitions.values():
                self.define(definition)

    # -------------------------------------------------------------- names

    def resolve(self, module, name):
        """Where a name comes from: ("library", name), ("definition", module, name), ("constructor", module, name)."""
        home = self.modules[module]
        place, inner = home.imports.get(name, (None, name))
        if "." in name and name.split(".")[0] in home.others:
            short, inner = name.split(".")
            place = home.others[short]
        elif name in home.definitions or name in home.constructors:
            place = module
        elif place is None and name in self.elsewhere:
            place = self.elsewhere[name]
        elif place is None and self.elsewhere:
            place = PRELUDE
        if place in self.modules and inner in self.modules[place].definitions:
            return ("definition", place, inner)
        if place in self.modules and inner in self.modules[place].constructors:
            return ("constructor", place, inner)
        if place == PRELUDE and inner in LIBRARY:
            return ("library", inner)
        raise Unknown(f"{module}.antt: the name {name}")

    def count(self, where):
        """How many arguments a global name takes."""
        if where[0] == "library":
            return LIBRARY[where[1]][0]
        if where[0] == "constructor":
            return self.modules[where[1]].constructors[where[2]]
        return len(self.late[where[1:]])

    # -------------------------------------------------------------- definitions

    def define(self, definition):
        """Puts the function of a definition into the space of names, in the place of what stood there."""
        own = global_name(definition.module, definition.name)
        exec(compile(self.source(definition, own), own, "exec"), self.space)
        if is_of_month(definition.type) and not any(self.late[definition.module, definition.name]):
            self.space[own] = self.remembering(self.space[own])

    def remembering(self, function):
        """The same function of a month and a number, computed once for each; the months of one figure are few."""
        cache = {}
        self.caches.append(cache)

        def ask(month, number):
            key = (month, number)
            if key not in cache:
                cache[key] = function(month, number)
            return cache[key]
        return ask

    def forget(self):
        for cache in self.caches:
            cache.clear()

    def source(self, definition, own):
        module, late = definition.module, self.late[definition.module, definition.name]
        given = [Variable(f"a{place}", is_late) for place, is_late in enumerate(late)]
        lines = [f"def {own}({', '.join(argument.words for argument in given)}):"]
        loop = self.loop(definition, given)
        if loop:
            return "\n".join(lines + loop)
        for number, clause in enumerate(definition.clauses):
            tests, scope = [], {}
            for argument, pattern in zip(given, clause.patterns):
                match(pattern, argument, tests, scope)
            lines.append(f"    if {' and '.join(tests) or True}:")
            for name, variable in scope.items():
                lines.append(f"        {local(name)} = {variable.words}")
                scope[name] = Variable(local(name), variable.late)
            lines += self.mark(definition, number)
            lines.append(f"        return {self.value(module, clause.body, scope)}")
        return "\n".join(lines + [f"    no_clause({own!r})"])

    def mark(self, definition, number):
        return [f"        seen({definition.module!r}, {definition.name!r}, {number})"] if self.seen else []

    def loop(self, definition, given):
        """A recursion from suc n to n, with all other arguments unchanged, as a loop; None for any other definition."""
        found = recursion(definition)
        if found is None:
            return None
        place, counter, first, second = found
        base, scope = ({pattern.text: argument for pattern, argument in zip(clause.patterns, given)
                        if isinstance(pattern, Name)} for clause in definition.clauses)
        scope[counter], scope["\0"] = Variable("n", False), Variable("so_far", False)
        body = self.value(definition.module, second(Name("\0")), scope)
        count = given[place].words
        lines = [f"    so_far = {self.value(definition.module, first, base)}"]
        for number in (0, 1) if self.seen else ():
            lines += [f"    if {count} >= {number}:"] + self.mark(definition, number)
        if "lambda" in body:  # what is computed late must keep the numbers of its own turn
            lines += ["    def step(n, so_far):", f"        return {body}"]
            body = "step(n, so_far)"
        return lines + [f"    for n in range({count}):", f"        so_far = {body}", "    return so_far"]

    def function(self, module, name):
        """A definition as a Python function of all its arguments."""
        scope = {f"x{place}": Variable(f"x{place}", False) for place in range(len(self.late[module, name]))}
        words = self.value(module, Call(Name(name), tuple(Name(each) for each in scope)), scope)
        return eval(compile(f"lambda {', '.join(scope)}: {words}", name, "eval"), self.space)

    # -------------------------------------------------------------- expressions

    def value(self, module, e, scope):
        """The Python text of an expression's value."""
        def inner(part, more=()):
            return self.value(module, part, {**scope, **{name: Variable(local(name), False) for name in more}})
        if isinstance(e, Number):
            return str(e.value)
        if isinstance(e, Empty):
            return "()"
        if isinstance(e, Name):
            if e.text in scope:
                return scope[e.text].words + ("()" if scope[e.text].late else "")
            return self.call(module, e, scope)
        if isinstance(e, Call):
            if isinstance(e.head, Name) and e.head.text not in scope:
                return self.call(module, e, scope)
            return inner(e.head) + "".join(f"({inner(each)})" for each in e.arguments)
        if isinstance(e, Field):
            return f"{inner(e.of)}.{local(e.name)}"
        if isinstance(e, Function):
            return f"(lambda {local(e.name)}: {inner(e.body, [e.name])})"
        if isinstance(e, Let):
            return f"(lambda {local(e.name)}: {inner(e.body, [e.name])})({inner(e.value)})"
        if isinstance(e, Record):
            return self.record(module, e, scope)
        if isinstance(e, Sign) and elements(e) is not None:
            return "(" + "".join(f"{inner(each)}, " for each in elements(e)) + ")"
        if isinstance(e, Sign) and e.sign in SIGN_TEXT:
            return SIGN_TEXT[e.sign].format(inner(e.left), inner(e.right))
        raise Unknown(f"{module}.antt: {text(e)}")

    def record(self, module, e, scope):
        known, later = [], []
        for name, value in zip(e.names, e.values):
            if is_at_hand(value, scope) or isinstance(value, Function):
                known.append(f"{local(name)!r}: {self.value(module, value, scope)}")
            else:
                later.append(f"{local(name)!r}: {self.late_value(module, value, scope)}")
        return f"Fields({{{', '.join(known)}}}, {{{', '.join(later)}}})"

    def late_value(self, module, e, scope):
        """The Python text of a function that gives an expression's value when it is called."""
        if isinstance(e, Name) and e.text in scope and scope[e.text].late:
            return scope[e.text].words
        words = f"lambda: {self.value(module, e, scope)}"
        return f"({words})" if is_at_hand(e, scope) else f"Later({words})"

    def call(self, module, e, scope):
        """A global name with as many arguments as it takes, with fewer, or with more."""
        head, arguments = (e.head, e.arguments) if isinstance(e, Call) else (e, ())
        where = self.resolve(module, head.text)
        count = self.count(where)
        late = self.late[where[1:]] if where[0] == "definition" else (False,) * count
        given = [self.late_value(module, each, scope) if is_late else self.value(module, each, scope)
                 for each, is_late in zip(arguments, late)]
        if len(arguments) >= count:
            more = "".join(f"({self.value(module, each, scope)})" for each in arguments[count:])
            return applied(where, given) + more
        missing = list(range(len(given), count))
        if where[0] == "definition" and len(missing) == 1 and not late[-1]:
            return f"partial({', '.join([global_name(*where[1:])] + given)})"
        kept = [f"k{place}" for place in range(len(given))]
        whole = kept + [f"(lambda: x{place})" if late[place] else f"x{place}" for place in missing]
        function = "".join(f"lambda x{place}: " for place in missing) + applied(where, whole)
        return f"(lambda {', '.join(kept)}: {function})({', '.join(given)})" if kept else f"({function})"

    # -------------------------------------------------------------- figures

    def figures(self):
        """All figures that the check computes, in the order of the files."""
        return [figure for module in self.modules.values() for equation in module.equations
                for figure in self.figures_of(equation)]

    def figures_of(self, equation):
        """The figures of a list, for 'wrong list ≡ []'; otherwise the equation itself."""
        left, right = equation.left, equation.right
        if isinstance(left, Call) and left.head == Name("wrong") and right == Empty():
            sides = [(home, Call(left.head, (around(listed_alone(e)),)), right, text(e))
                     for home, e, around in self.flat(equation.module, left.arguments[0])]
        else:
            sides = [(equation.module, left, right, text(Sign("≡", left, right)))]
        found = []
        for home, one, other, words in sides:
            code = f"lambda: {self.value(home, one, {})} == {self.value(home, other, {})}"
            found.append(Figure(equation.name, words, eval(compile(code, equation.name, "eval"), self.space)))
        return found

    def flat(self, module, e, around=lambda e: e):
        """The figures of a list of figures: their module, the figure, and what stands around it."""
        if isinstance(e, Empty):
            return []
        if isinstance(e, Sign) and e.sign == "++":
            return self.flat(module, e.left, around) + self.flat(module, e.right, around)
        if isinstance(e, Sign) and e.sign == "∷" and isinstance(e.left, Call) and e.left.head == Name("figure"):
            return [(module, e.left, around)] + self.flat(module, e.right, around)
        if isinstance(e, Let):
            return self.flat(module, e.body, lambda inner: around(Let(e.name, e.value, inner)))
        if isinstance(e, Name):
            where = self.resolve(module, e.text)
            if where[0] == "definition" and self.count(where) == 0:
                return self.flat(where[1], self.modules[where[1]].definitions[where[2]].clauses[0].body)
        raise Unknown(f"{module}.antt: a list of figures: {text(e)}")


def listed_alone(e):
    return Sign("∷", e, Empty())


def applied(where, words):
    """The Python text of a global name with all its arguments."""
    if where[0] == "library":
        return LIBRARY[where[1]][1].format(*words)
    if where[0] == "constructor":
        return f"({where[2]!r}, {''.join(word + ', ' for word in words)})"
    return f"{global_name(*where[1:])}({', '.join(words)})"


def match(pattern, value, tests, scope):
    """Adds the tests that a pattern asks of a value, and the names that it gives."""
    if isinstance(pattern, Empty):
        tests.append(f"not {value.words}")
    elif pattern == Name("zero"):
        tests.append(f"{value.words} == 0")
    elif isinstance(pattern, Name):
        scope[pattern.text] = value
    elif isinstance(pattern, Call):
        tests.append(f"{value.words} > 0")
        match(pattern.arguments[0], Variable(f"({value.words} - 1)", False), tests, scope)
    else:
        tests.append(value.words)
        match(pattern.left, Variable(f"{value.words}[0]", False), tests, scope)
        match(pattern.right, Variable(f"{value.words}[1:]", False), tests, scope)


def is_at_hand(e, scope):
    """A number, or a name whose value is known: nothing is to be computed."""
    return isinstance(e, (Number, Empty)) or (isinstance(e, Name) and e.text in scope and not scope[e.text].late)


def is_of_month(type_):
    """A function of a month and a number, whose result is no function."""
    return [text(each) for each in arguments_of(type_)] == ["Month", "ℕ"]


def check_meanings(module, constructors):
    """Each sign comes from the library, and no name in a pattern is a constructor's."""
    def check(e, known=()):
        if isinstance(e, Sign) and module.imports.get(f"◌{e.sign}◌") != (PRELUDE, f"◌{e.sign}◌"):
            raise Unknown(f"{module.name}.antt: the sign {e.sign}")
        if isinstance(e, Name) and e.text in known:
            raise Unknown(f"{module.name}.antt: the pattern {e.text}")
        for part in parts(e):
            check(part, known)
    for equation in module.equations:
        check(equation.left)
        check(equation.right)
    for definition in module.definitions.values():
        for clause in definition.clauses:
            check(clause.body)
            for pattern in clause.patterns:
                check(pattern, constructors)


# ------------------------------------------------------------------ recursion


def recursion(definition):
    """For f .. zero .. = first and f .. (suc n) .. = second, where second asks f only for n with all else unchanged:
    the place, the name of n, first, and second with another expression where f was asked. Otherwise None."""
    if len(definition.clauses) != 2:
        return None
    base, step = definition.clauses
    places = [place for place, pattern in enumerate(base.patterns) if pattern == Name("zero")]
    if len(places) != 1 or not isinstance(step.patterns[places[0]], Call):
        return None
    place = places[0]
    counter = step.patterns[place].arguments[0]
    others = base.patterns[:place] + base.patterns[place + 1:] + step.patterns[:place] + step.patterns[place + 1:]
    if any(not isinstance(pattern, Name) or pattern == Name("zero") for pattern in others + (counter,)):
        return None
    own = Call(Name(definition.name), step.patterns[:place] + (counter,) + step.patterns[place + 1:])

    def replaced(e, by):
        return by if e == own else with_parts(e, [replaced(part, by) for part in parts(e)])
    rest = replaced(step.body, Empty())
    if rest == step.body or mentions(rest, definition.name) or binds(step.body):
        return None
    return place, counter.text, base.body, lambda by: replaced(step.body, by)


def mentions(e, name):
    return e == Name(name) or any(mentions(part, name) for part in parts(e))


def binds(e):
    return isinstance(e, (Function, Let)) or any(binds(part) for part in parts(e))


# ------------------------------------------------------------------ what is computed late


def late_arguments(definition):
    """Which arguments no clause needs at once: they only stand where things are computed late."""
    return tuple(all(is_late(clause.patterns[place], clause.body) for clause in definition.clauses)
                 for place in range(len(definition.clauses[0].patterns)))


def is_late(pattern, body):
    return isinstance(pattern, Name) and pattern != Name("zero") and pattern.text not in needs(body)


def needs(e):
    """The names that an expression needs at once."""
    if isinstance(e, Name):
        return {e.text}
    if isinstance(e, Record):
        return set()
    if isinstance(e, Sign) and e.sign in ("&&", "||"):
        return needs(e.left)
    if isinstance(e, Call) and e.head == Name("cond"):
        return needs(e.arguments[0])
    return set().union(*[needs(part) for part in parts(e)])
