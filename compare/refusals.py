"""Why a sheet is refused: every number that applies, in the order in which they are tried, with the fields.

An aid for people. What holds is the answer of the proved program; number 7 is about the result buffer, not the sheet.
The numbers of a list of transfers and of a complex's record have their turn and their words here too; transfers.py and
complexes.py try them.
"""
from typing import NamedTuple

from records import (BUYER, CAPACITY, COEFFICIENT, DAYS, HEADER, HEADER_FIELDS, HOURS, LOWEST_Z, MOST_CONSUMERS,
                     MOST_PRODUCERS, MOST_ROWS, ONE, PRICE, PRODUCER_NUMBER, ROW_DAY, SINGLE_BUYER, TOP_CAPACITY,
                     TOP_PRICE, TOP_Z, VERSIONS, Z, Entry, Header, entries)

HANDED_OVER = 65_536    # bytes of a longer input that the program takes

# The order in which the numbers are tried, each over the whole sheet before the next. What is "first" goes by the place
# in this list and never by size: a number added later stands where it is tried.
TRIED = (1, 2, 3, 4, 5, 6, 7, 8, 9, 10, 11, 12, 18)
BUFFER_NUMBER = 7       # the result buffer is shorter than the result
# The same for a list of transfers. A settlement never meets them; where a list is applied to a sheet, they are tried
# after all of the sheet's save 7.
TRIED_IN_LIST = BAD_LIST, FILED_LATE, OVERDRAWN = 13, 14, 15
# And for the record of an industrial complex, in the same place.
TRIED_IN_RECORD = BAD_RECORD, HIGH_POWER = 16, 17
LAST_DAY = 31           # that a month can have
LAST_FILING_DAY = 20

RULES = {
    1: f"the sheet has fewer than {HEADER} bytes",
    2: "the length field is not the number of bytes",
    3: f"the version is not {', '.join(map(str, VERSIONS[:-1]))} or {VERSIONS[-1]}",
    4: "there is no such month: days are 28 to 31, the weekday of day 1 is 1 to 7, no holiday is past the last day",
    5: f"too many records: at most {MOST_PRODUCERS} producers, {MOST_ROWS} rows, {MOST_CONSUMERS} consumers",
    6: "the length is not what the version, the counts and the days ask for",
    7: "the result buffer is shorter than the result",
    8: "a count of hours is above the hours of the month, or a given coefficient is above 1",
    9: f"a capacity, power, volume or peak is above {CAPACITY.text(TOP_CAPACITY)} MW",
    10: "a row names a producer or a consumer that the sheet does not have",
    11: f"a price is above {PRICE.text(TOP_PRICE)} tenge",
    12: f"mining days are above the days of the month, or z is outside {Z.text(LOWEST_Z)} to {Z.text(TOP_Z)}",
    13: f"the list's length or version is wrong, or an entry's day is not 1 to {LAST_DAY}, or it does not name two "
        "consumers of the sheet",
    14: f"an entry was filed after day {LAST_FILING_DAY}",
    15: "at its turn, an entry asks more than its giver has, or brings its taker above "
        f"{CAPACITY.text(TOP_CAPACITY)} MW",
    16: "the record's length is not what its bytes and the days of the month ask for, or it names no consumer of the "
        "sheet",
    17: f"a power in the record is above {CAPACITY.text(TOP_CAPACITY)} MW",
    18: "a row begins before day 1, ends before it begins, or ends after the month does",
}


def turn(number):
    """The place of a number in the order in which they are tried."""
    return (*TRIED, *TRIED_IN_LIST, *TRIED_IN_RECORD).index(number)


def tried_before(number):
    return TRIED[:turn(number)]


def tried_from(number):
    """The number and those that are tried after it."""
    return TRIED[turn(number):]


# The sheet's form, decided by its first bytes and its length; its figures come after the result buffer.
FORM = tried_before(BUFFER_NUMBER)
FIGURES = tried_from(BUFFER_NUMBER)[1:]
# Where one of these applies, nobody can tell which byte belongs to which record.
WITHOUT_PLACES = (1, 2, 6)


class Refusal(NamedTuple):
    """A field that breaks a rule."""
    number: int
    place: int              # of the field's first byte
    said: str = ""          # what is wrong with a field of the header
    entry: Entry = None     # any other field,
    allowed: str = ""       # and what is allowed there
    remark: str = ""
    source: str = ""        # the list or record that it stands in, if not in the sheet,
    line: int = None        # and its line in the text of this

    @property
    def rule(self):
        return RULES[self.number]

    def field(self, names=None):
        """The field and what is wrong with it."""
        if self.entry is None:
            return f"{self.in_source()}{self.said}{self.remark}"
        return f"{self.in_source()}{self.entry.where(names)}, {self.figure()}{self.remark}"

    def in_source(self):
        """In front of a list's or record's field: the name, and the line or the byte."""
        return f"{self.source}, {self.line_or_byte()}: " if self.source else ""

    def line_or_byte(self):
        return f"line {self.line}" if self.line else f"byte {self.place}"

    def figure(self):
        unit = self.entry.field.unit
        return f"{f'{unit.text(self.entry.figure)} {unit.symbol}'.rstrip()} ({self.allowed})"


def field_places(fields):
    """The fields of a record by key, each with its place."""
    place, found = 0, {}
    for field in fields:
        found[field.key] = place, field
        place += field.width
    return found


HEADER_PLACES = field_places(HEADER_FIELDS)


def header_refusal(number, key, words):
    place, field = HEADER_PLACES[key]
    return Refusal(number, place, f"{field.words}, {words}")


# ------------------------------------------------------------------ the sheet's form


def short_refusal(content):
    """Number 1, at the first field of the header that is not whole."""
    for place, field in HEADER_PLACES.values():
        if place + field.width > len(content):
            return Refusal(1, place, f"{field.words}, which is cut off: the sheet ends after {len(content)} bytes")


def month_refusals(header):
    """Number 4."""
    if not 28 <= header.days <= 31:
        yield header_refusal(4, "days", header.days)
    if not 1 <= header.weekday <= 7:
        yield header_refusal(4, "weekday", header.weekday)
    for day in range(header.days + 1, 33):
        if header.holidays >> day - 1 & 1:
            yield header_refusal(4, "holidays", f"day {day} in a month of {header.days} days")


def counts_refusals(header):
    """Number 5."""
    for key, most in (("producers", MOST_PRODUCERS), ("rows", MOST_ROWS), ("consumers", MOST_CONSUMERS)):
        count = getattr(header, key)
        if count > most:
            yield header_refusal(5, key, f"{count} (at most {most})")


def length_refusal(header, content):
    """Number 6, with the place where the records end in fact."""
    asked = header.sheet_length
    end = f"bytes after the last record: {len(content) - asked}"
    for kind, number, place, length in header.records():
        if place + length > len(content):
            end = f"the sheet ends before the end of {kind} {number}"
            break
    return header_refusal(6, "length", f"{header.length}, but {asked} are asked for: {end}")


def form_refusals(content):
    """What breaks the rules of the form in the bytes handed over; where 1 applies, the others cannot be told."""
    if len(content) < HEADER:
        yield short_refusal(content)
        return
    header = Header.from_bytes(content)
    if header.length != len(content):
        yield header_refusal(2, "length", f"{header.length}, but there are {len(content)} bytes")
    if header.version not in VERSIONS:
        yield header_refusal(3, "version", header.version)
    yield from month_refusals(header)
    yield from counts_refusals(header)
    if header.length != header.sheet_length:
        yield length_refusal(header, content)


# ------------------------------------------------------------------ the sheet's figures


def broken_rule(entry, header, before):
    """The number that a field breaks, with what is allowed there; none if it breaks no rule. before: the figure of the
    field before it, which for a row's last day is its first."""
    unit, figure = entry.field.unit, entry.figure
    if unit is HOURS and figure > header.month.hours:
        return 8, f"at most {header.month.hours}"
    if unit is COEFFICIENT and figure > ONE:
        return 8, "at most 1"
    if unit is CAPACITY and figure > TOP_CAPACITY:
        return 9, f"at most {unit.text(TOP_CAPACITY)}"
    if unit is PRODUCER_NUMBER and figure >= header.producers:
        return 10, f"the sheet has {header.producers}, numbered from 0"
    if unit is BUYER and figure != SINGLE_BUYER and figure >= header.consumers:
        return 10, f"the sheet has {header.consumers}, numbered from 0; {SINGLE_BUYER} is the single buyer"
    if unit is PRICE and figure > TOP_PRICE:
        return 11, f"at most {unit.text(TOP_PRICE)}"
    if unit is DAYS and figure > header.days:
        return 12, f"at most {header.days}"
    if unit is Z and not LOWEST_Z <= figure <= TOP_Z:
        return 12, f"from {unit.text(LOWEST_Z)} to {unit.text(TOP_Z)}"
    return broken_day(entry, header.days, before) if unit is ROW_DAY else None


def broken_day(entry, days, before):
    """Number 18. A first day past the month's end leaves no day to be the last, so it is told itself."""
    lowest, words = 1, "1"
    if entry.field.key == "last_day" and 1 <= before <= days:
        lowest, words = before, f"the first day, {before},"
    return None if lowest <= entry.figure <= days else (18, f"from {words} to {days}")


def figure_refusals(content):
    """What breaks the rules of the figures, in the sheet's order; the places of its records must be known."""
    header, before = Header.from_bytes(content), None
    for entry in entries(content):
        broken = broken_rule(entry, header, before)
        before = entry.figure
        if broken:
            number, allowed = broken
            yield Refusal(number, entry.place, entry=entry, allowed=allowed)


# ------------------------------------------------------------------ all together


def all_refusals(content):
    """Every field that breaks a rule, by the turn of its number and then by its place; of a sheet as the program is
    handed it. None if it is accepted. The figures are left out where the places of the records cannot be told."""
    handed_over = content[:HANDED_OVER]
    found = list(form_refusals(handed_over))
    if places_known(found):
        found.extend(figure_refusals(handed_over))
    found.sort(key=lambda refusal: (turn(refusal.number), refusal.place))
    if len(content) > HANDED_OVER:
        # No accepted sheet is that long, so there is a refusal.
        found[0] = found[0]._replace(remark=f"; of this longer sheet, the program takes {HANDED_OVER} bytes")
    return found


def places_known(refusals):
    return not any(refusal.number in WITHOUT_PLACES for refusal in refusals)


def first_refusal(content):
    """The first number that applies to a sheet, save 7, at the first field that breaks it; none if it is accepted."""
    return next(iter(all_refusals(content)), None)


def without_month(content):
    """What keeps the month of a sheet's header from being known, whatever else is wrong with the sheet."""
    return [refusal for refusal in form_refusals(content) if refusal.number in (1, 3, 4)]


def form_refusal(content):
    """The first number of the form that applies to a sheet, as first_refusal."""
    first = first_refusal(content)
    return first if first and first.number in FORM else None


def not_as_text(content):
    """What first keeps a sheet from being written as text without loss, or none."""
    return next((refusal for refusal in form_refusals(content) if refusal.number not in (4, 5)), None)
