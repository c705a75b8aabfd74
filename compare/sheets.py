#!/usr/bin/env python3
"""The sheets that the two programs are compared on, drawn from a seed: the same seed gives the same bytes.

  compare/sheets.py SEED COUNT FILE    writes the first COUNT cases of a seed to FILE and lists their kinds

A case is a kind (case_kinds.py), a sheet's bytes and the length of the result buffer.
"""
import sys
from collections import Counter
from copy import deepcopy
from functools import partial
from typing import NamedTuple

sys.dont_write_bytecode = True

import accepted
import bands
import powers
import programs
import refused
import ties
from after_cut import AFTER_CUT
from case_kinds import Kinds, in_bytes
from drawing import summed
from hour_columns import COLUMNS, HIGH_COLUMNS
from records import HEADER, MOST_CONSUMERS, MOST_ROWS, TOP_CAPACITY, TOP_Z
from refusals import BUFFER_NUMBER, FORM, TRIED
from refused import SETTLEMENT_ROOM
from row_days import ROW_DAYS
from versions import Draws, for_month, in_versions

LONGEST_BUFFER = 2000


class Case(NamedTuple):
    kind: str
    sheet: bytes
    buffer: int

    @property
    def length(self):
        return len(self.sheet)

    def to_bytes(self):
        return programs.case_bytes(self.sheet, self.buffer)


class Pair(NamedTuple):
    """Two accepted sheets in the relation of demand 3."""
    kind: str
    first: bytes
    second: bytes


BUFFERS = ("none", "shorter", "shorter_by_one", "exact", "longer_by_one", "much_longer")

# The corners of each group. A corner draws a Sheet, or bytes where the sheet is damaged, or bytes with the length of
# the result buffer where it decides on both.
GROUPS = {
    "checked_months": in_versions(accepted.CHECKED_MONTHS, lambda rng, sheet: for_month(sheet)),
    "slips": in_versions(accepted.SLIPS),
    **refused.refusal_groups(SETTLEMENT_ROOM),
    "several_rules": refused.several_rules(SETTLEMENT_ROOM),
    "bands_of_k1": in_versions(bands.BANDS_OF_K1),
    "bands_of_consumers": in_versions(bands.BANDS_OF_CONSUMERS),
    "ties": in_versions(ties.TIES),
    "zero_counts": in_versions({**accepted.ZERO_COUNTS, "rows_without_producers": refused.rows_without_producers}),
    "months": in_versions(accepted.MONTHS),
    "ceilings": in_versions(accepted.CEILINGS),
    "powers": in_versions(powers.POWERS),
    "cut": in_versions(accepted.CUT),
    "credits": in_versions(accepted.CREDITS),
    "largest": in_versions(accepted.LARGEST),
    "row_days": ROW_DAYS,
    "after_cut": AFTER_CUT,
    "columns": COLUMNS,
    "high_columns": HIGH_COLUMNS,
    "damaged": refused.DAMAGED,
    "buffers": {form: refused.accepted_sheet for form in BUFFERS},
    "ordinary": in_versions(accepted.ORDINARY),
}

# Cases of each group in a hundred.
SHARES = {
    "checked_months": 1, "slips": 4, "several_rules": 8, "bands_of_k1": 10, "bands_of_consumers": 8, "ties": 10,
    "zero_counts": 3, "months": 8, "ceilings": 4, "powers": 4, "cut": 5, "credits": 4, "largest": 2, "row_days": 6,
    "after_cut": 4, "columns": 3, "high_columns": 1, "damaged": 5, "buffers": 3, "ordinary": 5,
    **{f"refusal_{number}": 1 for number in TRIED},
}

# ------------------------------------------------------------------ cases


def draw_buffer(rng, group, corner, needed):
    """The length of the result buffer; it is too short only where that is what the sheet is for, or does not matter."""
    if group in ("buffers", f"refusal_{BUFFER_NUMBER}"):
        form = corner
    elif group in (f"refusal_{number}" for number in FORM):
        form = rng.choice(BUFFERS)
    else:
        form = rng.choices(("exact", "longer_by_one", "much_longer"), (60, 15, 25))[0]
    if form == "exact":
        return needed
    if form == "longer_by_one":
        return needed + 1
    if form == "much_longer":
        return rng.randrange(needed + 2, LONGEST_BUFFER + 1)
    return refused.short_buffer(rng, form, needed)


class SheetKinds(Kinds):
    """Every kind of case that an entry with a result buffer is tried with."""

    def __init__(self, drawn_for, groups, shares, room):
        super().__init__(drawn_for, groups, shares)
        self.room = room

    def draw_case(self, rng, group, corner):
        kind, drawn = f"{group}/{corner}", self.groups[group][corner](rng)
        if isinstance(drawn, tuple):
            return Case(kind, *drawn)
        sheet = in_bytes(drawn)
        counts = (sheet[12], sheet[13]) if len(sheet) >= HEADER else (0, 0)
        needed = min(self.room.needed(*counts), self.room.needed(MOST_ROWS, MOST_CONSUMERS))
        return Case(kind, sheet, draw_buffer(rng, group, corner, needed))

    def intended_refusal(self, kind):
        """The number for which a case was drawn, 0 if it is to be accepted, None if that is left open."""
        group, corner = kind.split("/")
        if group.startswith("refusal_"):
            return int(group[len("refusal_"):])
        if group == "several_rules":
            return int(corner.split("_")[0])
        if group == "damaged":
            return None
        if group == "powers":
            return 9 if powers.is_above(corner) else 0
        if group == "high_columns":
            return 9
        if corner == "rows_without_producers":
            return 10
        if group == "buffers" and corner in ("none", "shorter", "shorter_by_one"):
            return BUFFER_NUMBER
        return 0


KINDS = SheetKinds("", GROUPS, SHARES, SETTLEMENT_ROOM)


# ------------------------------------------------------------------ pairs of demand 3

PAIR_GROUPS = ("bands_of_k1", "bands_of_consumers", "ties", "cut", "credits", "row_days", "after_cut", "columns",
               "ordinary", "months", "slips")


def step(rng, figure):
    """From the smallest step to the whole figure."""
    return rng.choice((1, 1, 2, rng.randrange(1, 60), figure // 50 + 1, figure // 7 + 1, figure))


def lower(rng, record, name):
    figure = getattr(record, name)
    setattr(record, name, max(0, figure - step(rng, figure)))


def higher(rng, record, name, top):
    figure = getattr(record, name)
    setattr(record, name, min(top, figure + step(rng, figure)))


def lower_one(rng, figures, place):
    figures[place] = max(0, figures[place] - step(rng, figures[place]))


def higher_one(rng, figures, place, top):
    figures[place] = min(top, figures[place] + step(rng, figures[place]))


def some_hours(rng, hours):
    """All of these hours, about half, or one."""
    form = rng.random()
    if form < 0.4:
        return hours
    if form < 0.8:
        return [hour for hour in hours if rng.random() < 0.5]
    return [rng.choice(hours)]


def lower_powers(rng, powers):
    by = step(rng, powers[0])
    for hour in some_hours(rng, range(len(powers))):
        powers[hour] = max(0, powers[hour] - by)


def higher_powers(rng, powers, hours):
    by = step(rng, powers[0])
    for hour in some_hours(rng, hours):
        powers[hour] = min(TOP_CAPACITY, powers[hour] + by)


def free_to_attest(sheet):
    """The numbers of the producers of which less may be attested in the second sheet: those with at most one row. With
    more rows attested capacity is the same in both."""
    rows = Counter(row.producer for row in sheet.rows)
    return [number for number in range(len(sheet.producers)) if rows[number] <= 1]


def attest_summed(sheet):
    """Producers with at most one row whose own needs are S or more, so that nothing is cut however little is attested:
    attested is S instead, and own needs are what S has above the ceiling. Nothing is cut until less is attested."""
    for number in free_to_attest(sheet):
        producer, whole = sheet.producers[number], summed(sheet, number)
        if whole <= producer.own_needs:
            producer.attested, producer.own_needs = min(whole, TOP_CAPACITY), max(0, whole - TOP_CAPACITY)
    return sheet


def cut_further(rng, sheet, number):
    """Lowers attested capacity so far that more of the producer's row is cut, if there is anything left of it."""
    producer = sheet.producers[number]
    at_most = max(0, summed(sheet, number) - producer.own_needs)
    producer.attested = max(0, min(producer.attested, at_most) - step(rng, sheet.volume_of(number)))


def places_to_worsen(sheet):
    """Every place at which the second sheet of a pair may differ, as a change to make there."""
    month = sheet.month
    control_hours = month.control_hours()
    for number in free_to_attest(sheet):
        yield partial(lower, record=sheet.producers[number], name="attested")
        yield partial(cut_further, sheet=sheet, number=number)
    for producer in sheet.producers:
        yield partial(lower_powers, powers=producer.working)
        yield partial(higher_powers, powers=producer.outside, hours=range(month.hours))
        if control_hours:
            yield partial(higher_powers, powers=producer.outside, hours=control_hours)
        for place in range(3):
            yield partial(higher_one, figures=producer.missing, place=place, top=month.hours)
        for place in range(6):
            yield partial(lower_one, figures=producer.given, place=place)
    for consumer in sheet.consumers:
        yield partial(higher, record=consumer, name="peak", top=TOP_CAPACITY)
        yield partial(higher, record=consumer, name="supplier_days", top=month.days)
        yield partial(higher, record=consumer, name="grid_days", top=month.days)
        yield partial(higher, record=consumer, name="z", top=TOP_Z)


def worsened(rng, sheet):
    """The second sheet of a pair: alike, or worse in one place, in some, in half of them or in all. In two of five
    each row whose producer has no other is cut further."""
    second = deepcopy(sheet)
    places = list(places_to_worsen(second))
    form = rng.random()
    if form < 0.04:
        count = 0
    elif form < 0.4:
        count = 1
    elif form < 0.75:
        count = rng.randrange(2, 6)
    else:
        count = rng.choice((len(places) // 2, len(places)))
    for change in rng.sample(places, min(count, len(places))):
        change(rng)
    if rng.random() < 0.4:
        for number in free_to_attest(second):
            cut_further(rng, second, number)
    return second


def draw_pair(rng, index, groups, taken, second_of, first_of=lambda sheet: sheet):
    """The first sheet is made of a corner of a group, the groups that are taken in turn; the second is made of the
    first, with the days of its rows."""
    group = "largest" if index % 50 == 49 else taken[index % len(taken)]
    corner = rng.choice(list(groups[group]))
    sheet = first_of(groups[group][corner](rng))
    return Pair(f"{group}/{corner}", sheet.to_bytes(), second_of(rng, sheet).to_bytes())


def pair(seed, index):
    return draw_pair(Draws(f"{seed}/pair/{index}"), index, GROUPS, PAIR_GROUPS, worsened, attest_summed)


def pairs(seed, count, start=0):
    return (pair(seed, index) for index in range(start, start + count))


# ------------------------------------------------------------------ command


def main():
    words = sys.argv[1:]
    if len(words) != 3 or not (words[0].isdecimal() and words[1].isdecimal()):
        raise programs.Trouble("usage: compare/sheets.py SEED COUNT FILE")
    drawn = list(KINDS.cases(int(words[0]), int(words[1])))
    programs.write_cases(words[2], drawn)
    for index, each in enumerate(drawn):
        print(index, each.kind, len(each.sheet), each.buffer)
    return 0


if __name__ == "__main__":
    programs.end_with("compare/sheets.py", main)
