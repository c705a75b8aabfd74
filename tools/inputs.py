"""What is given to a command: months, and what changes them first, lists of transfers and records of complexes, all in
bytes or as texts, which are packed; the text of the order that holds."""
import argparse
from typing import NamedTuple

from changing import lister_of
from complexes import GivenRecord
from files import CHECK, STANDARD, Trouble, name_of, read_bytes
from kinds import LISTS, MONTH_TEXT, MONTHS, RECORDS, kind_of
from monthtext import Faults, read_month_text
from names import NO_NAMES, Names
from refusals import HANDED_OVER
from results import OF_2021, OF_2015
from transfers import GivenList

MOST_READ = 2 ** 25     # bytes of a sheet, list or record that are looked at; no text packs into more
CHANGES = GivenList, GivenRecord
WORDS = {MONTHS: "a month", LISTS: "a list", RECORDS: "a record"}


class Given(NamedTuple):
    """A month."""
    name: str          # in messages
    content: bytes     # of the sheet
    names: Names
    title: str         # as "December 2021", or ""
    files: list        # that were read
    is_text: bool

    def byte_words(self, refusal):
        """The place in front of a field; whoever keeps a text does not count bytes. A list's or record's field has its
        own."""
        return "" if self.is_text or refusal.source else f"byte {refusal.place}: "

    def words(self, refusal):
        """The field that breaks a rule, with its place and what is wrong with it."""
        return self.byte_words(refusal) + refusal.field(self.names)


def change_of(path):
    """The kind of change that a file is by its name, or None."""
    return next((kind for kind in CHANGES if kind_of(path) in (kind.text, kind.packed)), None)


def read_given(path):
    change = change_of(path)
    if change:
        raise Trouble(f"{path}: is a {change.word} by its name; give it with its month, as {change.option} "
                      f"{change.metavar} MONTH")
    if kind_of(path) == MONTH_TEXT:
        text = read_month_text(path)
        return Given(str(path), text.sheet.to_bytes(), text.names, text.title, text.files, True)
    files = [] if path == STANDARD else [path]
    return Given(name_of(path), read_bytes(path, MOST_READ), NO_NAMES, "", files, False)


def add_edition(command, words):
    """The option for the text of 2015, in place of that of 2021."""
    command.add_argument("--text-2015", dest="edition", action="store_const", const=OF_2015, default=OF_2021,
                         help=words)


# ------------------------------------------------------------------ lists and records


class Wanted(NamedTuple):
    """A list or record as the command line names it."""
    kind: type      # one of CHANGES
    path: str


def add_changes(command, words):
    """The options for lists and records, which are kept together in the order given; words says what for, of each."""
    for kind in CHANGES:
        def wanted(path, kind=kind):
            if path == STANDARD:     # the month's
                raise argparse.ArgumentTypeError(f"a {kind.word} is read from a file")
            return Wanted(kind, path)
        command.add_argument(kind.option, metavar=kind.metavar, dest="changes", action="append", default=[],
                             type=wanted, help=words.format(kind.metavar))


def read_change(kind, path):
    """A list or record, in bytes or as text."""
    found = kind_of(path)
    if found not in (None, kind.text, kind.packed):
        words = next(words for kinds, words in WORDS.items() if found in kinds)
        raise Trouble(f"{path}: is {words} by its name, and {kind.option} wants {kind.wanted}")
    if found == kind.text:
        return kind(str(path), kind.read_text(path), True)
    return kind(name_of(path), read_bytes(path, MOST_READ), False)


def read_changes(wanted):
    """Lists and records that are to be applied; what is wrong with any of them is told together."""
    changes, faults = [], Faults()
    for each in wanted:
        with faults.part():
            changes.append(handed_over(read_change(*each)))
    faults.tell(lister_of(each.kind for each in wanted))
    return changes


def handed_over(given):
    """One that the program takes whole. A longer one it would take for its first bytes, so it is not given any."""
    if len(given.content) > HANDED_OVER:
        raise Trouble(f"{given.name}: has {len(given.content)} bytes, and the program takes at most {HANDED_OVER}")
    return given


def read_both(month, wanted):
    """A month and its changes; what is wrong with any of them is told together."""
    given, changes, faults = None, [], Faults()
    with faults.part():
        given = read_given(month)
    with faults.part():
        changes = read_changes(wanted)
    faults.tell(lister_of(each.kind for each in wanted) if wanted else CHECK)
    return given, changes
