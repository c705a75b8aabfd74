"""What is given with a month and changes its sheet before it is settled: lists of transfers, records of complexes.

An aid for people: the proved programs apply them, and their answers hold.
"""
from abc import ABC, abstractmethod
from dataclasses import dataclass

from files import CHECK, Trouble
from kinds import ending_of, kind_of
from monthtext import NUMBER, figure_of, shown
from records import Entry, Sheet
from refusals import HANDED_OVER, Refusal, all_refusals, places_known


@dataclass(frozen=True)
class Change(ABC):
    """A list or record as it is given to a command: its bytes, or a text, which is packed. Each kind has
    option, metavar: on the command line
    word, parts: in messages, and what its text has a line for
    wanted: what is said of a file that is something else by its name
    text, packed: what its files are by their names
    one, many: keys for programs: of the one that is refused, of all that were given
    numbers: of refusals, in the order in which they are tried
    """
    name: str
    content: bytes
    is_text: bool

    @staticmethod
    @abstractmethod
    def read_text(path):
        """The bytes of one that is kept as text."""

    @abstractmethod
    def as_text(self):
        """The text of one that has no fault of its form."""

    @abstractmethod
    def form_faults(self):
        """What is wrong with it whatever the month, and keeps it from being written as text: place and words."""

    @abstractmethod
    def refusals(self, sheet, names):
        """Every field that breaks a rule, by the turn of its number and then by its place. The sheet, whose records
        can be told apart, becomes that after the change, as far as it can be applied."""

    @abstractmethod
    def lines(self, names):
        """It as far as it can be read, whether it would be refused or not, in lines for people."""

    @staticmethod
    @abstractmethod
    def after_lines(given, changes):
        """What changes of this kind, which can be applied, make of a month, in lines for people."""

    @staticmethod
    @abstractmethod
    def unlikely(changes, month, names):
        """What changes of this kind may have, but hardly ever have, each in words."""

    def known(self):
        """Whether the bytes can be told apart into entries or hours."""
        return all(place > 0 for place, _ in self.form_faults())

    def fault(self, number, place, words, line=None):
        """A rule that is broken at a place; in a text it may have a line."""
        return Refusal(number, place, words, source=self.name, line=line if self.is_text else None)

    def field_fault(self, number, place, field, allowed, line, entry=None, hour=None):
        """A field that breaks a rule; in a text it has a line, in bytes a place."""
        figure = int.from_bytes(self.content[place:place + field.width], "big")
        found = Entry(place, None if entry is None else "entry", entry, hour, field, figure)
        return self.fault(number, place, "", line)._replace(entry=found, allowed=allowed)


def consumer_figure(cell, field):
    """The number of a consumer in a text. It is written as a number, since two names may be alike."""
    if not NUMBER.fullmatch(cell.strip().removeprefix("-")):
        raise Trouble(f"{shown(cell.strip())} is not the number of a consumer, from 0 in the order of the month")
    return figure_of(cell, field)


def consumers_words(sheet):
    """Which consumers can be named."""
    count = len(sheet.consumers)
    return f"the sheet has {f'consumers 0 to {count - 1}' if count else 'no consumer'}"


def lister_of(kinds):
    """The command that lists all that is wrong with a month and with what is given with it."""
    return " ".join([CHECK, *(f"{kind.option} {kind.metavar}" for kind in dict.fromkeys(kinds)), "MONTH"])


def text_files(change, path):
    """The file of the text of a list or record, name and bytes."""
    if kind_of(path) != change.text:
        raise Trouble(f"{path}: is to be the text of a {change.word}, whose name ends in {ending_of(change.text)}")
    for place, words in change.form_faults():
        raise Trouble(f"{change.name}: cannot be written as text: byte {place}: {words}")
    return {path: change.as_text().encode()}


# ------------------------------------------------------------------ a month with its changes


def sheet_of(given):
    """The sheet of a month whose records can be told apart."""
    return Sheet.from_bytes(given.content[:HANDED_OVER])


def judged(given, changes):
    """Every field that breaks a rule, of the sheet and then of each change, applied in order; and the sheet after the
    changes, or as it stands if there is a refusal. Where the places of the sheet's records cannot be told, there is
    none, and the changes are left out."""
    found = all_refusals(given.content)
    if not places_known(found):
        return found, None
    after = sheet_of(given)
    for each in changes:
        found += each.refusals(after, given.names)
    return found, sheet_of(given) if found else after


def first_refusal(given, changes):
    """The first number that applies, save 7, at the first field that breaks it; none if the changes can be applied."""
    return next(iter(judged(given, changes)[0]), None)


def by_kind(changes):
    """The kinds that are there, each with its changes in their order."""
    found = {}
    for each in changes:
        found.setdefault(type(each), []).append(each)
    return found
