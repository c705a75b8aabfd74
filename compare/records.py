"""A month's sheet as records and as bytes, the entries of a list of transfers, the record of an industrial complex, and
the figures of a result.

Layout and limits are those of document 01: "Units and the sheet", "Result" and "When a sheet is turned down"; of a
list, of a complex, of a result under the text of 2015 and of sheets of versions 2 and 3 those of requests 1, 3, 4, 5
and 7 of document 02; the fineness of the control average is that of request 6, and what the cut leaves is that of
request 8. Capacities, powers, volumes, peaks and amounts are in tenths of a megawatt, prices in tiyn, coefficients in
millionths.
"""
import struct
import sys
from array import array
from dataclasses import dataclass, replace
from typing import NamedTuple

MOST_PRODUCERS = 6
MOST_ROWS = 32
MOST_CONSUMERS = 32
TOP_CAPACITY = 100_000
TOP_PRICE = 200_000_000
LOWEST_Z, TOP_Z = 10, 100
ONE = 1_000_000      # a coefficient of 1
SINGLE_BUYER = 255
SINGLE_BUYER_WORDS = "single buyer"
# Rows of version 1 cover the month, those of version 2 state their days; version 3 is version 2 with a producer's hours
# as three columns, and not as a triple for each hour.
VERSIONS = FULL_ROWS, DAY_ROWS, COLUMN_HOURS = 1, 2, 3
REARRANGED = {DAY_ROWS: COLUMN_HOURS, COLUMN_HOURS: DAY_ROWS}    # versions that differ in the order of the powers alone
RESULT_VERSION = 1    # under every version of the sheet
LIST_VERSION = 1
CONTROL_HOURS = range(17, 23)    # of a control day
# What a control average is rounded to, told by how many of it are a tenth of a megawatt.
TENTH = 1         # of net power, for a complex's peak
HUNDREDTH = 10    # of outside use, for k1


def rounded(figure, divisor):
    """A quotient to the nearest whole number, a half upward."""
    return (2 * figure + divisor) // (2 * divisor)


# ------------------------------------------------------------------ units and fields


class Unit(NamedTuple):
    what: str        # what the figure is; a limit holds for all fields of one unit
    decimals: int    # the field holds a whole number of the last decimal
    symbol: str = ""

    def text(self, figure):
        """A figure of the sheet as people write it; a coefficient without noughts at its end."""
        if self.decimals == 0:
            return str(figure)
        whole, part = divmod(figure, 10 ** self.decimals)
        part = f"{part:0{self.decimals}}"
        return f"{whole}.{part if self.decimals <= 2 else part.rstrip('0') or '0'}"


CAPACITY = Unit("capacity", 1, "MW")
OUTSIDE_USE = Unit("outside use in k1", 2, "MW")    # averaged, in hundredths
PRICE = Unit("price", 2, "tenge")
COEFFICIENT = Unit("coefficient", 6)
HOURS = Unit("count of hours", 0, "hours")
DAYS = Unit("mining days", 0, "days")
ROW_DAY = Unit("day of a row", 0)
Z = Unit("z", 1)
PRODUCER_NUMBER = Unit("producer", 0)
BUYER = Unit("buyer", 0)
PLAIN = Unit("number", 0)


class Field(NamedTuple):
    key: str      # its name in a month kept as text
    words: str    # its name in messages and tables
    width: int    # in bytes
    unit: Unit

    @property
    def most(self):
        """The largest number that the field holds."""
        return 256 ** self.width - 1


HEADER_FIELDS = (
    Field("length", "length", 4, PLAIN),
    Field("version", "version", 1, PLAIN),
    Field("days", "days in the month", 1, PLAIN),
    Field("weekday", "weekday of day 1", 1, PLAIN),
    Field("holidays", "holidays", 4, PLAIN),
    Field("producers", "count of producers", 1, PLAIN),
    Field("rows", "count of rows", 1, PLAIN),
    Field("consumers", "count of consumers", 1, PLAIN),
)
PRODUCER_FIELDS = (
    Field("attested_capacity", "attested capacity", 4, CAPACITY),
    Field("deductible_capacity", "deductible capacity", 4, CAPACITY),
    Field("own_needs", "greatest own needs", 4, CAPACITY),
    Field("hours_without_upward_bid", "hours without an upward bid", 2, HOURS),
    Field("hours_without_downward_bid", "hours without a downward bid", 2, HOURS),
    Field("hours_without_plan", "hours without a plan", 2, HOURS),
    *(Field(name, name, 4, COEFFICIENT) for name in ("k3", "k6", "k7", "k8", "k9", "k10")),
)
HOUR_FIELDS = (
    Field("working", "working power", 4, CAPACITY),
    Field("possible", "possible power", 4, CAPACITY),
    Field("outside", "outside-use power", 4, CAPACITY),
)
ROW_FIELDS = (
    Field("producer", "producer", 1, PRODUCER_NUMBER),
    Field("consumer", "consumer", 1, BUYER),
    Field("volume", "volume", 4, CAPACITY),
    Field("price", "price", 4, PRICE),
)
# They follow in a row from version 2 on; the first day of the month is 1.
ROW_DAY_FIELDS = (
    Field("first_day", "first day", 1, ROW_DAY),
    Field("last_day", "last day", 1, ROW_DAY),
)
CONSUMER_FIELDS = (
    Field("contract_volume", "contract volume", 4, CAPACITY),
    Field("peak", "peak", 4, CAPACITY),
    Field("supplier_mining_days", "mining days of the supplier", 1, DAYS),
    Field("grid_mining_days", "mining days of the grid company", 1, DAYS),
    Field("z", "z", 1, Z),
    Field("price", "price", 4, PRICE),
)
# A list of transfers: its front and each of its entries.
FRONT_FIELDS = (
    Field("length", "length", 4, PLAIN),
    Field("version", "version", 1, PLAIN),
)
ENTRY_FIELDS = (
    Field("day", "day filed", 1, PLAIN),
    Field("giver", "giver", 1, PLAIN),
    Field("taker", "taker", 1, PLAIN),
    Field("amount", "amount", 4, CAPACITY),
)
# The record of an industrial complex: its front and each of its hours.
COMPLEX_FIELDS = (
    Field("length", "length", 4, PLAIN),
    Field("consumer", "consumer", 1, PLAIN),
    Field("imported", "imported power", 4, CAPACITY),
)
COMPLEX_HOUR_FIELDS = (
    Field("drawn", "power drawn", 4, CAPACITY),
    Field("sent", "power sent out", 4, CAPACITY),
)


def packing(fields):
    return struct.Struct(">" + "".join({1: "B", 2: "H", 4: "I"}[field.width] for field in fields))


HEADER_PACKING = packing(HEADER_FIELDS)
PRODUCER_PACKING = packing(PRODUCER_FIELDS)
HOUR_PACKING = packing(HOUR_FIELDS)
ROW_PACKING = packing(ROW_FIELDS)
DAY_ROW_PACKING = packing(ROW_FIELDS + ROW_DAY_FIELDS)
CONSUMER_PACKING = packing(CONSUMER_FIELDS)
FRONT_PACKING = packing(FRONT_FIELDS)
ENTRY_PACKING = packing(ENTRY_FIELDS)
COMPLEX_PACKING = packing(COMPLEX_FIELDS)
COMPLEX_HOUR_PACKING = packing(COMPLEX_HOUR_FIELDS)
HEADER, FRONT, ENTRY = HEADER_PACKING.size, FRONT_PACKING.size, ENTRY_PACKING.size
POWER = HOUR_FIELDS[0].width
COMPLEX_FRONT, COMPLEX_HOUR = COMPLEX_PACKING.size, COMPLEX_HOUR_PACKING.size


def states_days(version):
    """Whether the rows of a version state the days that they cover."""
    return version >= DAY_ROWS


def in_columns(version):
    """Whether a producer's hours stand as three columns."""
    return version >= COLUMN_HOURS


def layout_words(version):
    """What a version's layout is, in words."""
    return (f"rows {'state their days' if states_days(version) else 'cover the month'}, "
            f"hours as {'columns' if in_columns(version) else 'triples'}")


def row_fields(version):
    return ROW_FIELDS + ROW_DAY_FIELDS if states_days(version) else ROW_FIELDS


def row_packing(version):
    return DAY_ROW_PACKING if states_days(version) else ROW_PACKING


class Series(NamedTuple):
    """Where one of the three powers stands in a producer's record, hour after hour."""
    start: int    # the place of hour 0 of day 1, from the record's first byte
    step: int     # bytes from one hour to the next
    hours: int

    def place(self, hour):
        return self.start + self.step * hour

    def among_powers(self):
        """Its part of all powers of the record, as a slice."""
        first, step = (self.start - PRODUCER_PACKING.size) // POWER, self.step // POWER
        return slice(first, first + step * self.hours, step)


def series_of(version, hours):
    """The Series of each of HOUR_FIELDS: all that the layouts of hours differ in."""
    width, step = (POWER * hours, POWER) if in_columns(version) else (POWER, HOUR_PACKING.size)
    return [Series(PRODUCER_PACKING.size + width * place, step, hours) for place in range(len(HOUR_FIELDS))]


def complex_length(days):
    """The bytes of a complex's record in a month of so many days: 9 + 192 × days."""
    return COMPLEX_FRONT + COMPLEX_HOUR * 24 * days


# ------------------------------------------------------------------ records


class Month(NamedTuple):
    days: int
    weekday: int     # of day 1, Monday 1 to Sunday 7
    holidays: int    # lowest bit for day 1

    @property
    def hours(self):
        return 24 * self.days

    @property
    def all_days(self):
        """The holidays of a month in which every day is one."""
        return (1 << self.days) - 1

    def control_hours(self):
        """Hours 17 to 22 of each Monday to Friday that is no holiday, counted from hour 0 of day 1."""
        found = []
        for day in range(self.days):
            working_day = (self.weekday - 1 + day) % 7 < 5
            if working_day and not self.holidays >> day & 1:
                found.extend(24 * day + hour for hour in CONTROL_HOURS)
        return found

    def control_average(self, powers, fineness):
        """The average of hourly powers over the control hours, in units of this fineness, a half upward; 0 if there is
        no such hour."""
        control = self.control_hours()
        return rounded(fineness * sum(powers[hour] for hour in control), len(control)) if control else 0


class Header(NamedTuple):
    length: int
    version: int
    days: int
    weekday: int
    holidays: int
    producers: int
    rows: int
    consumers: int

    @classmethod
    def from_bytes(cls, content):
        return cls(*HEADER_PACKING.unpack_from(content))

    @property
    def month(self):
        return Month(self.days, self.weekday, self.holidays)

    @property
    def producer_length(self):
        return PRODUCER_PACKING.size + self.month.hours * HOUR_PACKING.size

    @property
    def row_length(self):
        return row_packing(self.version).size

    def series(self):
        """Where the powers of the hours stand in a producer's record."""
        return series_of(self.version, self.month.hours)

    @property
    def sheet_length(self):
        """The length that the version, the counts and the days ask for."""
        return (HEADER + self.producers * self.producer_length + self.rows * self.row_length
                + self.consumers * CONSUMER_PACKING.size)

    def records(self):
        """Each record of the sheet in order: its kind, its number, its place, its length."""
        place = HEADER
        for kind, count, length in (("producer", self.producers, self.producer_length),
                                    ("row", self.rows, self.row_length),
                                    ("consumer", self.consumers, CONSUMER_PACKING.size)):
            for number in range(count):
                yield kind, number, place, length
                place += length


@dataclass
class Producer:
    attested: int
    deductible: int
    own_needs: int
    missing: list    # hours without an upward bid, without a downward bid, without a plan
    given: list      # k3, k6, k7, k8, k9, k10
    working: array   # one power for each hour of the month, as in the next two
    possible: array
    outside: array

    @classmethod
    def of(cls, figures, powers):
        """A producer from the figures of PRODUCER_FIELDS and the powers of HOUR_FIELDS."""
        return cls(*figures[:3], list(figures[3:6]), list(figures[6:]), *powers)

    @classmethod
    def from_bytes(cls, content, version):
        powers = array("I", content[PRODUCER_PACKING.size:])
        if sys.byteorder == "little":
            powers.byteswap()
        of_hours = series_of(version, len(powers) // len(HOUR_FIELDS))
        return cls.of(PRODUCER_PACKING.unpack_from(content), [powers[series.among_powers()] for series in of_hours])

    def figures(self):
        return [self.attested, self.deductible, self.own_needs, *self.missing, *self.given]

    def powers(self):
        return self.working, self.possible, self.outside

    def sums(self, rows):
        """T, the volumes of its support rows; B, of its bilateral rows; S, both and deductible capacity."""
        support = sum(row.volume for row in rows if row.consumer == SINGLE_BUYER)
        bilateral = sum(row.volume for row in rows) - support
        return support, bilateral, support + bilateral + self.deductible

    def excess(self, rows):
        """What S less own needs has beyond attested capacity, of its rows in the sheet."""
        *_, capacity = self.sums(rows)
        return max(capacity - self.own_needs - self.attested, 0)

    def after_cut(self, rows):
        """Its rows with what the excess leaves of them: each gives up what it has until the excess is used up."""
        left, excess = [], self.excess(rows)
        for row in rows:
            given_up = min(row.volume, excess)
            left.append(replace(row, volume=row.volume - given_up))
            excess -= given_up
        return left

    def to_bytes(self, version):
        hours = len(self.working)
        powers = array("I", bytes(HOUR_PACKING.size * hours))
        for series, figures in zip(series_of(version, hours), self.powers()):
            powers[series.among_powers()] = figures
        if sys.byteorder == "little":
            powers.byteswap()
        return PRODUCER_PACKING.pack(*self.figures()) + powers.tobytes()


@dataclass
class Row:
    producer: int
    consumer: int
    volume: int
    price: int
    first_day: int = None    # none in version 1: the row covers the month
    last_day: int = None

    @classmethod
    def from_bytes(cls, content, version):
        return cls(*row_packing(version).unpack(content))

    def figures(self):
        """The figures of its fields: those that it states."""
        figures = [self.producer, self.consumer, self.volume, self.price]
        return figures if self.first_day is None else [*figures, self.first_day, self.last_day]

    def days(self, month):
        """Its first and last day in a month."""
        return (1, month.days) if self.first_day is None else (self.first_day, self.last_day)

    def to_bytes(self, version, month):
        """In a sheet of a version; one that states no days is given those of the month where it must."""
        figures = [self.producer, self.consumer, self.volume, self.price]
        if states_days(version):
            figures.extend(self.days(month))
        return row_packing(version).pack(*figures)


@dataclass
class Consumer:
    contract: int
    peak: int
    supplier_days: int    # mining days of the supplier, T''
    grid_days: int        # mining days of the grid company, T'''
    z: int
    price: int

    @classmethod
    def from_bytes(cls, content, _):
        return cls(*CONSUMER_PACKING.unpack(content))

    def figures(self):
        return [self.contract, self.peak, self.supplier_days, self.grid_days, self.z, self.price]

    def to_bytes(self):
        return CONSUMER_PACKING.pack(*self.figures())


class Transfer(NamedTuple):
    """An entry of a list."""
    day: int       # of filing, in the month before
    giver: int     # consumers from 0
    taker: int
    amount: int

    def to_bytes(self):
        return ENTRY_PACKING.pack(*self)


RECORDS = {"producer": Producer, "row": Row, "consumer": Consumer}


@dataclass
class Sheet:
    month: Month
    producers: list
    rows: list
    consumers: list
    version: int = FULL_ROWS
    # The rest differs only in sheets that are to be turned down.
    stated_length: int = None    # in place of the true length
    stated_counts: list = None   # P, R, C in place of the true counts
    surplus: int = 0             # bytes added after the last record, or left off if below 0

    @classmethod
    def from_bytes(cls, content):
        """A sheet that has a header; of the records, those that stand in it whole."""
        header = Header.from_bytes(content)
        found = {kind: [] for kind in RECORDS}
        for kind, _, place, length in header.records():
            if place + length > len(content):
                break
            found[kind].append(RECORDS[kind].from_bytes(content[place:place + length], header.version))
        return cls(header.month, *found.values(), version=header.version)

    def to_bytes(self):
        body = b"".join((*(producer.to_bytes(self.version) for producer in self.producers),
                         *(row.to_bytes(self.version, self.month) for row in self.rows),
                         *(consumer.to_bytes() for consumer in self.consumers)))
        if self.surplus > 0:
            body += bytes(self.surplus)
        elif self.surplus < 0:
            body = body[:self.surplus]
        length = HEADER + len(body) if self.stated_length is None else self.stated_length
        counts = self.stated_counts or [len(self.producers), len(self.rows), len(self.consumers)]
        return HEADER_PACKING.pack(length, self.version, *self.month, *counts) + body

    def rows_of(self, number):
        """The rows of a producer, in the sheet's order."""
        return [row for row in self.rows if row.producer == number]

    def volume_of(self, number):
        """T + B of a producer: the volumes of all its rows."""
        return sum(row.volume for row in self.rows_of(number))


def rearranged(content):
    """The bytes of a sheet of version 2 or 3 that gets past refusal 6, in the other of the two."""
    sheet = Sheet.from_bytes(content)
    sheet.version = REARRANGED[sheet.version]
    return sheet.to_bytes()


# ------------------------------------------------------------------ the fields of a sheet with their places


class Entry(NamedTuple):
    """A field that stands in a sheet, or in what is given with one."""
    place: int       # of its first byte
    record: str      # "producer", "row", "consumer", "entry" of a list; None in a complex's record, which is one
    number: int      # of the record, from 0
    hour: int        # from 0; None for a field that is not one of the hours
    field: Field
    figure: int

    def where(self, names=None):
        """The field in words; names has those of producers and consumers, if they are known."""
        parts = []
        if self.record is not None:
            parts.append(names.label(self.record, self.number) if names else f"{self.record} {self.number}")
        if self.hour is not None:
            parts.append(hour_words(self.hour))
        return ", ".join([*parts, self.field.words])


def hour_words(hour):
    return f"hour {hour} (day {hour // 24 + 1}, {hour % 24}:00)"


def entries(content):
    """Every field after the header of a sheet that gets past refusal 6, in the sheet's order."""
    header = Header.from_bytes(content)
    parts = {"producer": (PRODUCER_FIELDS, PRODUCER_PACKING),
             "row": (row_fields(header.version), row_packing(header.version)),
             "consumer": (CONSUMER_FIELDS, CONSUMER_PACKING)}
    for kind, number, start, _ in header.records():
        fields, layout = parts[kind]
        place = start
        for field, figure in zip(fields, layout.unpack_from(content, place)):
            yield Entry(place, kind, number, None, field, figure)
            place += field.width
        if kind == "producer":
            yield from hour_entries(content, header, number, start)


def hour_entries(content, header, number, start):
    """The powers of a producer, whose record starts there, in the sheet's order."""
    powers = struct.unpack_from(f">{len(HOUR_FIELDS) * header.month.hours}I", content, start + PRODUCER_PACKING.size)
    found = [Entry(start + series.place(hour), "producer", number, hour, field, figure)
             for field, series in zip(HOUR_FIELDS, header.series())
             for hour, figure in enumerate(powers[series.among_powers()])]
    return sorted(found, key=lambda entry: entry.place)


def row_volumes(sheet):
    """The volumes that the rows of an accepted sheet's bytes give."""
    header = Header.from_bytes(sheet)
    place = HEADER + header.producers * header.producer_length
    end = place + header.rows * header.row_length
    return [figures[2] for figures in row_packing(header.version).iter_unpack(sheet[place:end])]


# ------------------------------------------------------------------ results


def result_length(rows, consumers):
    return 21 + 16 * rows + 25 * consumers


class RowFigures(NamedTuple):
    after_cut: int
    actual: int
    payment: int


class ConsumerFigures(NamedTuple):
    credit: int
    p: int
    n: int
    actual: int
    charge: int


def figures_of_result(rows, consumers, result):
    """The rows' figures, the consumers' figures and the two totals of a result with so many rows and consumers."""
    place = 5 + 16 * rows
    end = place + 25 * consumers
    return ([RowFigures(*figures) for figures in struct.iter_unpack(">2IQ", result[5:place])],
            [ConsumerFigures(*figures) for figures in struct.iter_unpack(">2IB2Q", result[place:end])],
            struct.unpack(">2Q", result[end:end + 16]))


def result_of(rows, consumers, totals):
    """The bytes of a result with these figures."""
    length = result_length(len(rows), len(consumers))
    return b"".join((struct.pack(">IB", length, RESULT_VERSION), *(struct.pack(">2IQ", *row) for row in rows),
                     *(struct.pack(">2IB2Q", *consumer) for consumer in consumers), struct.pack(">2Q", *totals)))


def result_figures(sheet, result):
    """The same, of the result of an accepted sheet's bytes."""
    return figures_of_result(sheet[12], sheet[13], result)


def result_fields(rows, consumers):
    """The fields of a result in order, each with its width."""
    yield from (("length", 4), ("version", 1))
    for number in range(rows):
        for name, width in (("volume after the cut", 4), ("actual volume", 4), ("payment", 8)):
            yield f"row {number}, {name}", width
    for number in range(consumers):
        for name, width in (("credit", 4), ("p", 4), ("n", 1), ("actual volume", 8), ("charge", 8)):
            yield f"consumer {number}, {name}", width
    yield from (("total paid", 8), ("total charged", 8))


def field_at(sheet, place):
    """The name of the field that holds the byte at a place of an accepted sheet's result."""
    for name, width in result_fields(sheet[12], sheet[13]):
        if place < width:
            return name
        place -= width
    return "past the result"


# ------------------------------------------------------------------ results under the text of 2015


def result_2015_length(consumers):
    """The bytes of a result under the text of 2015 with so many consumers."""
    return 4 + 17 * consumers


class Figures2015(NamedTuple):
    factor: int
    volume: int
    charge: int


def result_2015_figures(result):
    """The consumers' figures of a result under the text of 2015: factor in tenths, volume, charge."""
    return [Figures2015(*figures) for figures in struct.iter_unpack(">B2Q", result[4:])]


def result_2015_of(consumers):
    """The bytes of a result under the text of 2015 with these figures."""
    return b"".join((struct.pack(">I", result_2015_length(len(consumers))),
                     *(struct.pack(">B2Q", *figures) for figures in consumers)))
