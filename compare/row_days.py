"""Sheets of versions 2 and 3 that are accepted, each drawn to reach a corner of request 5: the days of a row."""
from fractions import Fraction
from math import gcd

import accepted
import bands
from drawing import draw_price, draw_sheet, full_producer, one_row_sheet, plain_consumer
from records import TOP_CAPACITY, Month, Row, Sheet
from ties import sheet_before_half
from versions import DAY_FORMS, PARTS, in_form, in_layouts, with_days

LENGTHS = range(28, 32)
HALVED = (28, 30)    # months of which a half has whole days
TENTH = 100_000      # in millionths


def month_of(rng, days):
    return Month(days, rng.randrange(1, 8), 0)


def covering(rng, sheet, covered):
    """The sheet with rows that cover so many days, from any day on."""
    first = rng.randrange(1, sheet.month.days - covered + 2)
    return with_days(sheet, lambda row: (first, first + covered - 1))


def one_row(rng, days, covered, k, volume):
    """One row, which covers so many days of a month of so many, by one coefficient; all others are 1."""
    month = month_of(rng, days)
    producer = full_producer(month)
    producer.given[rng.randrange(6)] = k
    return covering(rng, one_row_sheet(rng, month, producer, volume), covered)


# ------------------------------------------------------------------ forms


def rows_in_form(form, days):
    def draw(rng):
        sheet = draw_sheet(rng, rng.randrange(1, 3), rng.randrange(1, 5), rng.randrange(4), month_of(rng, days))
        return in_form(rng, sheet, [form])
    return draw


FORMS = {f"{form}_of_{days}": rows_in_form(form, days) for form in DAY_FORMS for days in LENGTHS}

# ------------------------------------------------------------------ the rounding to a millionth

# Where the product for the days lies between 49,999 and 50,000 millionths past a tenth, as parts of that millionth: a
# wrong rounding to the millionth shows in the tenth. Each gives the parts by how many there are; an odd count has no
# half.
NEAR_HALF_A_TENTH = {
    "exact": lambda parts: [0],
    "rounded_down": lambda parts: range(1, (parts + 1) // 2),
    "on_a_half": lambda parts: [] if parts % 2 else [parts // 2],
    "rounded_up": lambda parts: range(parts // 2 + 1, parts),
}


def draw_share(rng, days, parts_of):
    """Days covered, their share of the month, and one of the parts that are asked for. Neither 2 nor 5 divides the
    share's numerator."""
    while True:
        covered = rng.randrange(1, days)
        share = Fraction(covered, days)
        parts = parts_of(share.denominator)
        if parts and gcd(share.numerator, 10) == 1:
            return covered, share, rng.choice(parts)


def near_half_a_tenth(days, parts_of):
    """By a coefficient of so many tens of millionths the product is volume × tens, in millionths."""
    def draw(rng):
        volume = 0
        while not 1 <= volume <= TOP_CAPACITY:
            covered, share, part = draw_share(rng, days, parts_of)
            tens, whole = rng.randrange(1, TENTH + 1), TENTH * share.denominator
            if gcd(tens * share.numerator, whole) == 1:
                wanted = (TENTH // 2 - 1) * share.denominator + part
                volume = wanted * pow(tens * share.numerator, -1, whole) % whole
        return one_row(rng, days, covered, 10 * tens, volume)
    return draw


def half_a_tenth(rng):
    """The product for the days is a whole number of millionths, and lies on half a tenth."""
    days = rng.choice(LENGTHS)
    covered, share, _ = draw_share(rng, days, range)
    volume = share.denominator * rng.randrange(1, TOP_CAPACITY // share.denominator, 2)
    return one_row(rng, days, covered, 500_000, volume)


ROUNDINGS = {f"{name}_of_{days}": near_half_a_tenth(days, parts_of) for name, parts_of in NEAR_HALF_A_TENTH.items()
             for days in LENGTHS if name != "on_a_half" or days in HALVED}
ROUNDINGS["half_a_tenth"] = half_a_tenth

# ------------------------------------------------------------------ the share in its turn


def half_after(number):
    """Half of the month is covered; that it is taken after the coefficient with this number shows."""
    def draw(rng):
        month = month_of(rng, rng.choice(HALVED))
        return covering(rng, sheet_before_half(rng, month, number), month.days // 2)
    return draw


def before_the_tenth(rng):
    """A quarter of an odd volume is a quarter above a tenth; from the half rounded to a tenth it would be a half."""
    days = rng.choice(HALVED)
    return one_row(rng, days, days // 2, 500_000, rng.randrange(1, TOP_CAPACITY, 4))


TURNS = {f"after_k{number}": half_after(number) for number in (2, 9, 10)}
TURNS["before_the_tenth"] = before_the_tenth

# ------------------------------------------------------------------ full volumes, credits


def in_part(draw_sheet_of):
    """A sheet in which another cut, T or S would show, with rows that cover part of the month."""
    return lambda rng: in_form(rng, draw_sheet_of(rng), PARTS)


FULL_VOLUMES = {
    **{f"cut_{form}": in_part(accepted.CUT[form]) for form in ("one_tenth", "into_a_later", "all_but_one")},
    **{f"k1_{corner}": in_part(bands.BANDS_OF_K1[corner]) for corner in ("next_50", "half_400", "penalty_is_all")},
    "k4_beside_the_cut": in_part(accepted.SLIPS["cut_beside_k4"]),
}


def credit_of_the_days(rng):
    """A credit for the days brings the counted peak to a corner of the bands."""
    days = rng.choice(LENGTHS)
    covered = rng.randrange(1, days)
    volume = days * rng.randrange(1, 3000 // days)
    contract, counted = bands.peak_at(rng, rng.choice(bands.EDGES), rng.choice(bands.SIDES))
    month = month_of(rng, days)
    consumer = plain_consumer(rng, contract, counted + volume // days * covered)
    sheet = Sheet(month, [full_producer(month)], [Row(0, 0, volume, draw_price(rng))], [consumer])
    return covering(rng, sheet, covered)


ROW_DAYS = in_layouts({**FORMS, **ROUNDINGS, **TURNS, **FULL_VOLUMES,
                       credit_of_the_days.__name__: credit_of_the_days})
