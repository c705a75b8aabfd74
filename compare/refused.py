"""Kinds of sheets that are turned down, by every cause that document 01 and requests 5 and 7 name; sheets that break
several rules at once; damaged sheets.

A cause changes an accepted Sheet so that it breaks one rule and none that is tried before it.
"""
from dataclasses import dataclass
from itertools import combinations
from typing import NamedTuple

from accepted import ordinary_month
from drawing import draw_consumer, draw_sheet
from records import (COLUMN_HOURS, DAY_ROWS, FULL_ROWS, HEADER, LOWEST_Z, MOST_CONSUMERS, MOST_PRODUCERS, MOST_ROWS,
                     ONE, SINGLE_BUYER, TOP_CAPACITY, TOP_PRICE, TOP_Z, VERSIONS, Row, result_length, row_packing,
                     states_days)
from refusals import BUFFER_NUMBER, HEADER_PLACES, TRIED, tried_from, turn
from versions import in_version

LARGEST_4 = 2 ** 32 - 1
NEXT_VERSION = VERSIONS[-1] + 1


@dataclass
class Cause:
    number: int
    name: str
    touches: str    # the records it changes: producers, rows, consumers, or "" for the header and the length
    change: object  # takes a random.Random, the sheet, and a function that picks one of a list


def above(rng, top, most):
    """A figure above its ceiling: the next one, the largest of its width, or any between."""
    return rng.choice((top + 1, top + 1, most, rng.randrange(top + 1, most + 1)))


# ------------------------------------------------------------------ 2 to 6: length, version, month, counts


def length_field(change):
    def cause(rng, sheet, pick):
        true = len(sheet.to_bytes())
        sheet.stated_length = change(true) % 2 ** 32
    return cause


def backwards(length):
    """The length with its lowest byte first."""
    return int.from_bytes(length.to_bytes(4, "big"), "little")


def surplus_of(count):
    def cause(rng, sheet, pick):
        sheet.surplus = count
    return cause


def a_row_more(rng, sheet, pick):
    sheet.surplus = row_packing(sheet.version).size


def lost_bytes(rng, sheet, pick):
    """The sheet is cut short, its length field is not."""
    sheet.stated_length = len(sheet.to_bytes())
    sheet.surplus -= rng.randrange(1, 15)


def added_bytes(rng, sheet, pick):
    sheet.stated_length = len(sheet.to_bytes())
    sheet.surplus += rng.randrange(1, 50)


def version_is(figure):
    def cause(rng, sheet, pick):
        sheet.version = figure
    return cause


def version_other(rng, sheet, pick):
    sheet.version = rng.randrange(NEXT_VERSION, 255)


def days_are(figure):
    """The hours stay as many as they were, since number 4 is tried before number 6."""
    def cause(rng, sheet, pick):
        sheet.month = sheet.month._replace(days=figure, holidays=0)
    return cause


def weekday_is(figure):
    def cause(rng, sheet, pick):
        sheet.month = sheet.month._replace(weekday=figure)
    return cause


def holiday_next(rng, sheet, pick):
    sheet.month = sheet.month._replace(holidays=sheet.month.holidays | 1 << sheet.month.days)


def holiday_highest(rng, sheet, pick):
    sheet.month = sheet.month._replace(holidays=1 << 31)


def holidays_all_bits(rng, sheet, pick):
    sheet.month = sheet.month._replace(holidays=LARGEST_4)


def state_counts(sheet):
    """The counts that the header states, to be changed."""
    if sheet.stated_counts is None:
        sheet.stated_counts = [len(sheet.producers), len(sheet.rows), len(sheet.consumers)]
    return sheet.stated_counts


def count_past_limit(place, limit):
    """One record too many, all of them in the sheet."""
    def cause(rng, sheet, pick):
        records = (sheet.producers, sheet.rows, sheet.consumers)[place]
        records.extend([records[-1]] * (limit + 1 - len(records)))
        state_counts(sheet)[place] = limit + 1
    return cause


def count_stated(place, figure):
    """A count above its limit; the records are not there."""
    def cause(rng, sheet, pick):
        state_counts(sheet)[place] = figure
    return cause


def count_other(place, step):
    """A count that differs by one from the records in the sheet."""
    def cause(rng, sheet, pick):
        state_counts(sheet)[place] += step
    return cause


def days_other(rng, sheet, pick):
    """One day more or less than the producers' hours are for."""
    other = sheet.month.days + (1 if sheet.month.days < 31 else -1)
    sheet.month = sheet.month._replace(days=other, holidays=sheet.month.holidays & (1 << 28) - 1)


# ------------------------------------------------------------------ 8 to 12: other figures


def missing_hours(place):
    def cause(rng, sheet, pick):
        pick(sheet.producers).missing[place] = above(rng, sheet.month.hours, 65535)
    return cause


def given_coefficient(place):
    def cause(rng, sheet, pick):
        pick(sheet.producers).given[place] = above(rng, ONE, LARGEST_4)
    return cause


def figure_of(records, name, top):
    def cause(rng, sheet, pick):
        setattr(pick(getattr(sheet, records)), name, above(rng, top, LARGEST_4))
    return cause


def power_of(name, place):
    """The power of the first hour of the month, the last, or one between."""
    def cause(rng, sheet, pick):
        powers = getattr(pick(sheet.producers), name)
        hour = {"first": 0, "last": len(powers) - 1, "middle": rng.randrange(1, len(powers) - 1)}[place]
        powers[hour] = above(rng, TOP_CAPACITY, LARGEST_4)
    return cause


def producer_is(choose):
    def cause(rng, sheet, pick):
        pick(sheet.rows).producer = choose(rng, len(sheet.producers))
    return cause


def consumer_is(choose):
    def cause(rng, sheet, pick):
        pick(sheet.rows).consumer = choose(rng, len(sheet.consumers))
    return cause


def consumer_32_of_32(rng, sheet, pick):
    sheet.consumers = [draw_consumer(rng, sheet.month, 1000) for _ in range(MOST_CONSUMERS)]
    pick(sheet.rows).consumer = MOST_CONSUMERS


def no_producers(rng, sheet, pick):
    sheet.producers = []


def no_consumers(rng, sheet, pick):
    pick(sheet.rows).consumer = 0
    sheet.consumers = []


def mining_days(name, far):
    def cause(rng, sheet, pick):
        setattr(pick(sheet.consumers), name, 255 if far else sheet.month.days + 1)
    return cause


def z_is(figure):
    def cause(rng, sheet, pick):
        pick(sheet.consumers).z = figure
    return cause


# ------------------------------------------------------------------ 18: days of a row


def days_of_row(choose):
    """choose: first and last day, from a random.Random and the days of the month."""
    def cause(rng, sheet, pick):
        sheet.version = max(sheet.version, DAY_ROWS)
        row = pick(sheet.rows)
        row.first_day, row.last_day = choose(rng, sheet.month.days)
    return cause


def some_day(rng, days):
    return rng.choice((1, days, rng.randrange(1, days + 1)))


def days_before(rng, days, count):
    """The last day so many days before the first, or on day 0 where there are not so many."""
    first = rng.randrange(1, days + 1)
    return first, max(0, first - count)


# First and last day.
WRONG_DAYS = {
    "first_0": lambda rng, days: (0, some_day(rng, days)),
    "first_and_last_0": lambda rng, days: (0, 0),
    "last_0": lambda rng, days: (some_day(rng, days), 0),
    "last_one_before": lambda rng, days: days_before(rng, days, 1),
    "last_far_before": lambda rng, days: days_before(rng, days, rng.randrange(2, days)),
    "last_next": lambda rng, days: (some_day(rng, days), days + 1),
    "last_255": lambda rng, days: (some_day(rng, days), 255),
    "first_past_last_within": lambda rng, days: (days + 1, days),
    "first_and_last_past": lambda rng, days: (days + 1, days + 1),
    "first_and_last_255": lambda rng, days: (255, 255),
    "first_0_last_past": lambda rng, days: (0, rng.choice((days + 1, 255))),
}

# ------------------------------------------------------------------ all causes


def causes_of_length():
    """Numbers 2, 3 and 6."""
    for name, change in (("one_more", lambda true: true + 1), ("one_less", lambda true: true - 1),
                         ("nought", lambda true: 0), ("all_ones", lambda true: LARGEST_4),
                         ("65536_more", lambda true: true + 65536), ("highest_bit", lambda true: true + 2 ** 31),
                         ("lowest_byte_first", backwards)):
        yield 2, name, "", length_field(change)
    yield 2, "bytes_lost", "consumers", lost_bytes
    yield 2, "bytes_added", "", added_bytes
    for figure in (0, NEXT_VERSION, 255):
        yield 3, f"version_{figure}", "", version_is(figure)
    yield 3, "version_other", "", version_other
    yield 6, "one_byte_more", "", surplus_of(1)
    yield 6, "a_row_more", "", a_row_more
    yield 6, "65536_bytes_more", "", surplus_of(65536)
    for name, count in (("one_byte_less", -1), ("a_consumer_less", -15)):
        yield 6, name, "consumers", surplus_of(count)
    for place, records in enumerate(("producers", "rows", "consumers")):
        yield 6, f"{records}_one_more", records, count_other(place, 1)
        yield 6, f"{records}_one_less", records, count_other(place, -1)
    yield 6, "days_other", "producers", days_other


def causes_of_month_and_counts():
    """Numbers 4 and 5."""
    for figure in (27, 32, 0, 255):
        yield 4, f"days_{figure}", "", days_are(figure)
    for figure in (0, 8, 255):
        yield 4, f"weekday_{figure}", "", weekday_is(figure)
    yield 4, "holiday_next", "", holiday_next
    yield 4, "holiday_highest", "", holiday_highest
    yield 4, "holidays_all_bits", "", holidays_all_bits
    for place, (records, limit) in enumerate((("producers", MOST_PRODUCERS), ("rows", MOST_ROWS),
                                              ("consumers", MOST_CONSUMERS))):
        yield 5, f"{records}_{limit + 1}", records, count_past_limit(place, limit)
        yield 5, f"{records}_{limit + 1}_stated", "", count_stated(place, limit + 1)
        yield 5, f"{records}_255_stated", "", count_stated(place, 255)


def causes_of_figures():
    """Numbers 8 to 12 and 18."""
    for place, name in enumerate(("no_upward", "no_downward", "no_plan")):
        yield 8, name, "producers", missing_hours(place)
    for place, name in enumerate(("k3", "k6", "k7", "k8", "k9", "k10")):
        yield 8, name, "producers", given_coefficient(place)
    for name in ("attested", "deductible", "own_needs"):
        yield 9, name, "producers", figure_of("producers", name, TOP_CAPACITY)
    for name in ("working", "possible", "outside"):
        for place in ("first", "last", "middle"):
            yield 9, f"{name}_{place}_hour", "producers", power_of(name, place)
    yield 9, "row_volume", "rows", figure_of("rows", "volume", TOP_CAPACITY)
    yield 9, "contract", "consumers", figure_of("consumers", "contract", TOP_CAPACITY)
    yield 9, "peak", "consumers", figure_of("consumers", "peak", TOP_CAPACITY)
    yield 10, "producer_next", "rows", producer_is(lambda rng, count: count)
    yield 10, "producer_255", "rows", producer_is(lambda rng, count: 255)
    yield 10, "producer_other", "rows", producer_is(lambda rng, count: rng.randrange(count, 256))
    yield 10, "consumer_next", "rows", consumer_is(lambda rng, count: count)
    yield 10, "consumer_254", "rows", consumer_is(lambda rng, count: SINGLE_BUYER - 1)
    yield 10, "consumer_other", "rows", consumer_is(lambda rng, count: rng.randrange(count, SINGLE_BUYER))
    yield 10, "consumer_32_of_32", "rows", consumer_32_of_32
    yield 10, "no_producers", "rows", no_producers
    yield 10, "no_consumers", "rows", no_consumers
    yield 11, "row_price", "rows", figure_of("rows", "price", TOP_PRICE)
    yield 11, "consumer_price", "consumers", figure_of("consumers", "price", TOP_PRICE)
    for name in ("supplier_days", "grid_days"):
        yield 12, f"{name}_next", "consumers", mining_days(name, far=False)
        yield 12, f"{name}_255", "consumers", mining_days(name, far=True)
    for figure in (0, LOWEST_Z - 1, TOP_Z + 1, 255):
        yield 12, f"z_{figure}", "consumers", z_is(figure)
    for name, choose in WRONG_DAYS.items():
        yield 18, name, "rows", days_of_row(choose)


CAUSES = {number: [] for number in TRIED}
for cause in (*causes_of_length(), *causes_of_month_and_counts(), *causes_of_figures()):
    CAUSES[cause[0]].append(Cause(*cause))

# Numbers 1 and 7 do not change the sheet's records: how many bytes are left, and the result buffer's length.
SHORT_SHEETS = {"no_bytes": 0, "one_byte": 1, "thirteen_bytes": 13, "some_bytes": None}


class Room(NamedTuple):
    """The room that an entry needs for its result."""
    needed: object    # in bytes, from the counts of rows and consumers
    short: tuple      # forms of a result buffer that is too short whatever the counts are


SETTLEMENT_ROOM = Room(result_length, ("none", "one_byte", "shorter_by_one", "twenty", "shorter"))

# ------------------------------------------------------------------ one cause


def base_sheet(rng, touches):
    """An accepted sheet with the records that a cause touches; producers, which are long, only where needed."""
    producers = rng.randrange(1, 3) if touches in ("producers", "rows") or rng.random() < 0.3 else 0
    rows = rng.randrange(1, 5) if touches == "rows" or producers else 0
    consumers = rng.randrange(1, 5) if touches == "consumers" else rng.randrange(4)
    return in_version(rng, draw_sheet(rng, producers, rows, consumers))


def first_of(records):
    return records[0]


def last_of(records):
    return records[-1]


def refused_sheet(cause):
    def draw(rng):
        sheet = base_sheet(rng, cause.touches)
        cause.change(rng, sheet, rng.choice((first_of, last_of, rng.choice)))
        return sheet
    return draw


def short_sheet(count):
    """The first bytes of an accepted sheet, or any bytes."""
    def draw(rng):
        whole = ordinary_month(rng).to_bytes() if rng.random() < 0.7 else rng.getrandbits(112).to_bytes(14, "big")
        return whole[:rng.randrange(2, 13) if count is None else count]
    return draw


def rows_of_another_version(version, stated):
    """The bytes of a sheet of one version whose header states the other."""
    def draw(rng):
        sheet = base_sheet(rng, "rows")
        sheet.version = version
        content = bytearray(sheet.to_bytes())
        content[HEADER_PLACES["version"][0]] = stated
        return bytes(content)
    return draw


def few_rows(rng):
    return rng.randrange(2, 5)


def wrong_row(pick, count_rows):
    """One row of several has wrong days."""
    def draw(rng):
        sheet = in_version(rng, draw_sheet(rng, 1, count_rows(rng), rng.randrange(3)))
        rng.choice(CAUSES[18]).change(rng, sheet, pick)
        return sheet
    return draw


def short_buffer(rng, form, needed):
    lengths = {"none": 0, "one_byte": 1, "three": 3, "twenty": 20, "shorter_by_one": needed - 1,
               "shorter": rng.randrange(needed)}
    return lengths[form]


def accepted_sheet(rng):
    return base_sheet(rng, rng.choice(("", "rows", "consumers")))


REFUSALS = {number: {cause.name: refused_sheet(cause) for cause in CAUSES[number]} for number in CAUSES}
REFUSALS[1] = {name: short_sheet(count) for name, count in SHORT_SHEETS.items()}
REFUSALS[6].update(rows_of_10_bytes_in_version_2=rows_of_another_version(FULL_ROWS, DAY_ROWS),
                   rows_of_10_bytes_in_version_3=rows_of_another_version(FULL_ROWS, COLUMN_HOURS),
                   rows_of_12_bytes_in_version_1=rows_of_another_version(DAY_ROWS, FULL_ROWS))
REFUSALS[18].update(only_the_first_row=wrong_row(first_of, few_rows), only_the_last_row=wrong_row(last_of, few_rows),
                    only_the_last_of_32=wrong_row(last_of, lambda rng: MOST_ROWS))


def refusal_groups(room):
    """The causes of each number, of an entry that needs this room."""
    found = {**REFUSALS, BUFFER_NUMBER: {form: accepted_sheet for form in room.short}}
    return {f"refusal_{number}": corners for number, corners in found.items()}


# ------------------------------------------------------------------ several rules at once

# Causes that take records away or put others in their place.
TAKEN_AWAY = {"no_producers": "producers", "no_consumers": "consumers", "consumer_32_of_32": "consumers"}


def causes_to_join(rng, numbers):
    """A cause of each number, that of the last turn first; none takes away the records that another one changes."""
    while True:
        causes = [rng.choice(CAUSES[number]) for number in sorted(numbers, key=turn, reverse=True) if CAUSES[number]]
        taken_away = {TAKEN_AWAY.get(cause.name) for cause in causes}
        if not taken_away & {cause.touches for cause in causes}:
            return causes


def numbers_to_join(rng, first):
    """The number and those tried after it that a sheet of the case's version can break: 18 is for versions 2 and 3."""
    return [number for number in tried_from(first) if number != 18 or states_days(rng.version)]


def break_rules(rng, first, later, room):
    """Breaks two rules, now and then more that are tried later. Gives the sheet's bytes and the buffer's length.

    As a rule the number tried first is broken in the last record and the others in the first, so that a program that
    goes through the sheet once and answers with what it meets first is found out.
    """
    numbers = {first, later}
    while rng.random() < 0.25:
        numbers.add(rng.choice(numbers_to_join(rng, first)))
    causes = causes_to_join(rng, numbers)
    touched = {cause.touches for cause in causes}
    producers = rng.randrange(1, 3) if touched & {"producers", "rows"} or rng.random() < 0.3 else 0
    sheet = in_version(rng, draw_sheet(rng, producers, rng.randrange(2, 5) if producers else 0, rng.randrange(2, 5)))
    # A cause of the length comes last: it is to see the sheet as it will be handed over.
    for cause in causes:
        usual = last_of if cause.number == first else first_of
        cause.change(rng, sheet, rng.choice((usual, usual, rng.choice)))
    content = sheet.to_bytes()
    if first == 1:
        content = content[:rng.randrange(HEADER)]
    buffer = room.needed(len(sheet.rows), len(sheet.consumers))
    if BUFFER_NUMBER in numbers:
        buffer = short_buffer(rng, rng.choice(room.short), buffer)
    return content, buffer


def rules_broken(first, later, room):
    return lambda rng: break_rules(rng, first, later, room)


def several_rules(room):
    """Every two numbers, the one that is tried first in front: "3_and_9"."""
    return {f"{first}_and_{later}": rules_broken(first, later, room) for first, later in combinations(TRIED, 2)}


# ------------------------------------------------------------------ damaged sheets


def some_place(rng, content):
    """A place in the header or in the records that are not hours, or any."""
    form = rng.random()
    if form < 0.3:
        return rng.randrange(HEADER)
    if form < 0.7:
        return rng.randrange(max(0, len(content) - 80), len(content))
    return rng.randrange(min(len(content), HEADER + 42)) if form < 0.85 else rng.randrange(len(content))


def one_byte_changed(rng, content):
    place = some_place(rng, content)
    content[place] = rng.choice((0, 1, 127, 128, 255, rng.randrange(256)))


def one_bit_changed(rng, content):
    content[some_place(rng, content)] ^= 1 << rng.randrange(8)


def two_bytes_changed(rng, content):
    one_byte_changed(rng, content)
    one_byte_changed(rng, content)


def cut_short(rng, content):
    del content[rng.randrange(len(content)):]


def cut_short_and_stated(rng, content):
    del content[rng.randrange(HEADER, len(content) + 1):]
    content[0:4] = len(content).to_bytes(4, "big")


def lengthened(rng, content):
    content += bytes(rng.randrange(1, 40))


def lengthened_and_stated(rng, content):
    content += rng.getrandbits(320).to_bytes(40, "big")[:rng.randrange(1, 41)]
    content[0:4] = len(content).to_bytes(4, "big")


def any_bytes(rng, content):
    content[:] = rng.getrandbits(8 * 400).to_bytes(400, "big")[:rng.randrange(400)]


def any_bytes_with_length(rng, content):
    any_bytes(rng, content)
    content += bytes(14)
    content[0:6] = len(content).to_bytes(4, "big") + bytes((rng.version, rng.randrange(27, 33)))


def any_records(rng, content):
    """A true header, and any bytes after it."""
    body = len(content) - HEADER
    content[HEADER:] = rng.getrandbits(8 * body + 8).to_bytes(body + 1, "big")[1:]


def all_noughts(rng, content):
    content[:] = bytes(len(content))


def all_ones(rng, content):
    content[:] = b"\xff" * len(content)


def empty(rng, content):
    content.clear()


def damaged_sheet(damage):
    def draw(rng):
        content = bytearray(accepted_sheet(rng).to_bytes())
        damage(rng, content)
        return bytes(content)
    return draw


DAMAGES = (one_byte_changed, one_bit_changed, two_bytes_changed, cut_short, cut_short_and_stated, lengthened,
           lengthened_and_stated, any_bytes, any_bytes_with_length, any_records, all_noughts, all_ones, empty)
DAMAGED = {damage.__name__: damaged_sheet(damage) for damage in DAMAGES}

# ------------------------------------------------------------------ rows that no producer can have


def rows_without_producers(rng):
    """P is 0 and R is not: number 10."""
    sheet = draw_sheet(rng, 0, 0, rng.randrange(3))
    sheet.rows = [Row(0, SINGLE_BUYER, 1000, 1000) for _ in range(rng.randrange(1, 4))]
    return sheet
