"""What a file is by the end of its name; what is in it decides nothing."""
import re

from files import Trouble

MONTH_TEXT, SHEET, RESULT = "a month's text", "a sheet", "a result"
LIST_TEXT, LIST = "a list's text", "a packed list"              # of transfers
RECORD_TEXT, RECORD = "a record's text", "a packed record"      # of an industrial complex
# A name can have two of these endings, and the first one counts: the longer stands before the shorter.
ENDINGS = {".toml": MONTH_TEXT, ".sheet": SHEET, ".complex.csv": RECORD_TEXT, ".csv": LIST_TEXT, ".list": LIST,
           ".complex": RECORD}
MONTHS, LISTS, RECORDS = (MONTH_TEXT, SHEET), (LIST_TEXT, LIST), (RECORD_TEXT, RECORD)
# The word before the first comma of a text, for messages on texts whose names do not say what they are.
BEGINNINGS = {b"day": LIST_TEXT, b"consumer": RECORD_TEXT}
BEGINNING = re.compile(rb"(?:\xef\xbb\xbf)?(\w+) *[,;]")    # with or without a byte order mark


def ending_of(kind):
    return next(ending for ending, each in ENDINGS.items() if each == kind)


MONTH_ENDING = ending_of(MONTH_TEXT)


def kind_of(path):
    """None of a name that says nothing, as '-' or a pipe's."""
    name = str(path).lower()
    return next((kind for ending, kind in ENDINGS.items() if name.endswith(ending)), None)


def check_kind(path, kinds, words):
    """Turns down a name that says something else, with words for what is wanted."""
    found = kind_of(path)
    if found not in (None, *kinds):
        raise Trouble(f"{path}: is {found} by its name, and {words}")


def check_written(path, kind):
    check_kind(path, (kind,), f"{kind} is to be written")


def begun_as(content, other_than=None):
    """In words, what the beginning of a list's or a record's text makes of it; "" of any other content."""
    found = BEGINNING.match(content)
    kind = BEGINNINGS.get(found.group(1)) if found else None
    return f"begins as {kind} does, whose name ends in {ending_of(kind)}" if kind not in (None, other_than) else ""
