"""Sheets with high powers: at most the ceiling, so that they are accepted, or above it, so that number 9 applies.

A power of 65,536 or more takes more than two bytes: the module passes others at once. So one figure stands at every
kind of place among powers that are low, some of them high, or all high.
"""
from drawing import draw_sheet, spread
from records import TOP_CAPACITY

TWO_BYTES = 65_535
AT_MOST = (TWO_BYTES, TWO_BYTES + 1, TOP_CAPACITY - 1, TOP_CAPACITY)
# The next figure, the ends of a byte, the highest bit, what is 0 in four bytes with 31,071 added, the largest.
ABOVE = (TOP_CAPACITY + 1, 0x1FFFF, 0x20000, 0xFF0000, 0x1000000, 0x80000000, 0xFFFF86A1, 0xFFFFFFFF)


def powers_of(producer):
    return producer.working, producer.possible, producer.outside


def low_powers(rng, month):
    return spread(rng, month, 0, TWO_BYTES)


def high_powers(rng, month):
    return spread(rng, month, TWO_BYTES + 1, TOP_CAPACITY)


def some_high_powers(rng, month):
    powers = low_powers(rng, month)
    for hour in rng.sample(range(len(powers)), min(rng.choice((1, 5, 100)), len(powers))):
        powers[hour] = rng.randrange(TWO_BYTES + 1, TOP_CAPACITY + 1)
    return powers


AMONG = {"low": low_powers, "some_high": some_high_powers, "high": high_powers}


def draw_hour(rng, hours):
    """The first hour of the month or of a day, the last, or any."""
    first_of_day = rng.randrange(0, hours, 24)
    return rng.choice((0, hours - 1, first_of_day, first_of_day + 23, rng.randrange(hours), rng.randrange(hours)))


def sheet_with(among, figure):
    """One power is this figure; of a figure that is accepted there may be more."""
    def draw(rng):
        sheet = draw_sheet(rng, rng.randrange(1, 3), rng.randrange(1, 4), rng.randrange(3))
        for producer in sheet.producers:
            producer.working, producer.possible, producer.outside = (AMONG[among](rng, sheet.month) for _ in range(3))
        for _ in range(1 if figure > TOP_CAPACITY else rng.choice((1, 2, 50))):
            powers = rng.choice(powers_of(rng.choice(sheet.producers)))
            powers[draw_hour(rng, len(powers))] = figure
        return sheet
    return draw


POWERS = {f"{figure}_among_{among}": sheet_with(among, figure) for among in AMONG for figure in (*AT_MOST, *ABOVE)}


def is_above(corner):
    return int(corner.split("_")[0]) > TOP_CAPACITY
