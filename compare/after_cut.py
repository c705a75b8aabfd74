"""Sheets that are accepted, each drawn to reach a corner of request 8: T and S after the cut, and the one fraction of a
single row.

A corner draws a producer with what it sells; a sheet holds one such producer, or several.
"""
from math import gcd
from typing import NamedTuple

from bands import P_OF_FACTOR, deductibles_for
from drawing import (capacity, draw_month, draw_price, flat, full_producer, plain_consumer, spread, with_average,
                     with_sum_of)
from records import HUNDREDTH, ONE, SINGLE_BUYER, TOP_CAPACITY, Producer, Row, Sheet, rounded
from versions import for_month, in_versions, some_days

BUYERS = {"support": SINGLE_BUYER, "bilateral": 0}
TENTH = 100_000             # in millionths
THOUSANDTHS = 100           # in a tenth: n × D is a whole number of them


class Seller(NamedTuple):
    producer: Producer
    sales: list    # buyer and volume of each row, in the order of the rows

    @property
    def summed(self):
        """S before the cut."""
        return sum(volume for _, volume in self.sales) + self.producer.deductible


def sheet_of(rng, month, sellers):
    """Each producer's rows in their order, among those of the others."""
    turns = [number for number, seller in enumerate(sellers) for _ in seller.sales]
    rng.shuffle(turns)
    sales = [iter(seller.sales) for seller in sellers]
    rows = [Row(number, *next(sales[number]), draw_price(rng)) for number in turns]
    consumer = plain_consumer(rng, 5000, rng.randrange(TOP_CAPACITY // 2))
    return Sheet(month, [seller.producer for seller in sellers], rows, [consumer])


def alone(draw_seller):
    """The corner of one producer."""
    def draw(rng):
        month = draw_month(rng, control_days=2)
        return sheet_of(rng, month, [draw_seller(rng, month)])
    return draw


# ------------------------------------------------------------------ what is cut, n × D, powers


def cut_by(rng, seller, cut):
    """So much is to be cut, by attested capacity and own needs."""
    left = seller.summed - cut
    least = max(0, left - TOP_CAPACITY)
    own_needs = rng.choice((least, rng.randrange(least, min(left, TOP_CAPACITY) + 1)))
    seller.producer.own_needs, seller.producer.attested = own_needs, left - own_needs
    return seller


def part_of(rng, volume):
    """From the least part of a volume to nearly all of it."""
    return rng.choice((1, volume - 1, rng.randrange(1, volume)))


def more_than(rng, volume):
    """A volume before the cut: this one, or more."""
    return rng.choice((volume, rng.randrange(volume, TOP_CAPACITY + 1)))


class Use(NamedTuple):
    """D in hundredths, the deductible over which it is put, and n × D in thousandths."""
    overuse: int
    deductible: int
    penalty: int


def some_use(rng, fits=lambda penalty: True):
    """An outside use above the deductible, by which n × D is above 0."""
    while True:
        n, overuse = rng.choice(list(P_OF_FACTOR)), rng.randrange(20, rng.choice((200, 3000)))
        deductibles = deductibles_for(n, overuse)
        if deductibles and fits(n * overuse):
            return Use(overuse, rng.choice(deductibles), n * overuse)


def in_tenths(penalty):
    return penalty % THOUSANDTHS == 0


def put_use(rng, month, producer, use):
    producer.deductible = use.deductible
    producer.outside = with_average(rng, month, HUNDREDTH * use.deductible + use.overuse)


def put_powers(rng, month, producer, low, high):
    """Powers around an S after the cut and one before it, so that another S shows in k4."""
    producer.possible = spread(rng, month, capacity(low * 0.8), capacity(high * 1.1))
    producer.working = spread(rng, month, capacity(low * 0.6), capacity(high))


# ------------------------------------------------------------------ rows cut

# What is cut of a volume.
CUT_OF = {"nothing": lambda rng, volume: 0, "part": part_of, "all": lambda rng, volume: volume}


def selling(kinds, form):
    """Rows of these kinds, of which the cut takes this part of all that is sold."""
    def draw(rng, month):
        producer, use = full_producer(month), some_use(rng)
        least = use.penalty // THOUSANDTHS + 2
        sales = [(BUYERS[kind], rng.randrange(least, 2 * least + 3000)) for kind in kinds]
        put_use(rng, month, producer, use)
        if rng.random() < 0.3:  # no n × D
            producer.outside = flat(month, 0)
        seller = Seller(producer, sales)
        cut = CUT_OF[form](rng, seller.summed - producer.deductible)
        put_powers(rng, month, producer, seller.summed - cut, seller.summed)
        return cut_by(rng, seller, cut)
    return draw


def first_cut_whole(kinds):
    """The first row goes, and perhaps some of the next."""
    def draw(rng, month):
        seller = selling(kinds, "nothing")(rng, month)
        (_, first), (_, second) = seller.sales[:2]
        return cut_by(rng, seller, first + rng.choice((0, part_of(rng, second))))
    return draw


def nothing_left(kinds):
    """S is 0 after the cut, and with it the sum of m."""
    def draw(rng, month):
        seller = selling(kinds, "all")(rng, month)
        producer = seller.producer
        producer.deductible = producer.attested = producer.own_needs = 0
        producer.possible = spread(rng, month, 1, capacity(seller.summed))
        return seller
    return draw


ROWS_CUT = {f"{form}_cut_of_one_{kind}": selling([kind], form) for kind in BUYERS for form in CUT_OF}
ROWS_CUT.update((f"{form}_cut_of_two", selling(BUYERS, form)) for form in CUT_OF)
ROWS_CUT.update({
    "first_cut_whole_of_two": first_cut_whole(["support", "support"]),
    "all_support_cut": first_cut_whole(["support", "bilateral"]),
    "all_bilateral_cut": first_cut_whole(["bilateral", "support"]),
    "nothing_left_of_one": nothing_left(["support"]),
    "nothing_left_of_two": nothing_left(["support", "bilateral"]),
})

# ------------------------------------------------------------------ n × D against a single support row

# What is left after the cut, from n × D in thousandths: more than n × D, as much, or less but not nothing.
LEFT = {
    "below": lambda rng, penalty: penalty // THOUSANDTHS + 1 + rng.randrange(rng.choice((2, 300, 20_000))),
    "at": lambda rng, penalty: penalty // THOUSANDTHS,
    "above": lambda rng, penalty: rng.randrange(1, max(2, -(-penalty // THOUSANDTHS))),
}


def penalty_against(form, before_above=False):
    """n × D against the volume after the cut; that before it may have to be above n × D."""
    def draw(rng, month):
        producer, use = full_producer(month), some_use(rng, in_tenths if form == "at" else lambda penalty: True)
        left = LEFT[form](rng, use.penalty)
        least = use.penalty // THOUSANDTHS + 1 if before_above else left
        put_use(rng, month, producer, use)
        seller = Seller(producer, [(SINGLE_BUYER, more_than(rng, least))])
        put_powers(rng, month, producer, left + use.deductible, seller.summed)
        return cut_by(rng, seller, seller.summed - use.deductible - left)
    return draw


PENALTIES = {f"penalty_{form}_what_is_left": penalty_against(form) for form in LEFT}
PENALTIES.update((f"penalty_{form}_what_is_left_alone", penalty_against(form, True)) for form in ("at", "above"))

# ------------------------------------------------------------------ the one fraction next to half a tenth

# How many parts the one fraction lies below half a tenth, if so many parts make a tenth: a wrong rounding to the
# millionth shows in the tenth. The class Single says what a part is.
BELOW_HALF_A_TENTH = {
    "rounded_up": lambda parts: range(1, -(-parts // (2 * TENTH))),
    "on_a_half": lambda parts: [] if parts % (2 * TENTH) else [parts // (2 * TENTH)],
    "rounded_down": lambda parts: range(parts // (2 * TENTH) + 1, -(-parts // TENTH)),
}


def below_a_tenth(parts):
    """Below a whole tenth, by one millionth and up to half of the next: rounded upward there, half of it is upward
    again, to a half tenth; half of it without that rounding is not."""
    return range(parts // TENTH + 1, 3 * parts // (2 * TENTH) + 1)


class Single(NamedTuple):
    """A row's volume after the cut, outside use, and m, alike in every hour; asked is the sum of m.

    If worked is the sum of the smaller of m and working power, the one fraction is (volume - n × D) × worked / asked,
    in tenths. It is counted in parts, so small that it is a whole number of them: units × worked. An example without
    n × D, with volume 3 and asked 10: 10 parts make a tenth, and the fraction is 3 × worked parts. With worked 8 that
    is 24, which is 2 tenths and 4 parts, and so 1 part below 2 and a half tenths.
    """
    volume: int
    use: Use
    m: int
    asked: int

    @property
    def in_tenth(self):
        """How many units make a tenth: with n × D a unit is a thousandth of a megawatt, without it a tenth."""
        return THOUSANDTHS if self.use.penalty else 1

    @property
    def units(self):
        """What n × D leaves of the volume."""
        return self.in_tenth * self.volume - self.use.penalty

    def parts(self):
        """How many parts make a tenth: one part is a unit divided by asked. In the example 10, with n × D 1,000."""
        return self.in_tenth * self.asked

    def worked(self, tenths, below):
        """A worked sum with which the fraction is so many parts below a half tenth, where tenths is 1, or below an odd
        number of whole tenths, where it is 2. None if it is above asked; nor is it sought where units and whole have a
        common divisor.

        In the example, 1 part below a half tenth: 3 × worked is to leave 4 when it is divided by 10. 7 turns 3 into 1
        there (21), so worked is 4 × 7 = 28, which leaves 8.
        """
        whole = tenths * self.parts()
        if gcd(self.units, whole) > 1:
            return None
        worked = (whole // 2 - below) * pow(self.units, -1, whole) % whole
        return worked if worked <= self.asked else None

    def as_one(self, worked):
        """The one fraction, in tenths."""
        return rounded(rounded(self.units * TENTH * worked, self.parts()), TENTH)

    def rounded_first(self, worked):
        """The same by k1 and k4, each rounded before."""
        k1, k4 = rounded(self.units * ONE, self.in_tenth * self.volume), rounded(worked * ONE, self.asked)
        return rounded(rounded(rounded(self.volume * TENTH * k1, ONE) * k4, ONE), TENTH)


def step_of_m(month, in_tenth):
    """Any multiple of it in every hour makes the sum of m one with which the fraction can lie on half a millionth."""
    least = 2 * TENTH // in_tenth
    return least // gcd(month.hours, least)


def free_row(rng, month, step):
    """No n × D, so that the deductible is free. m is S in half of these rows, if it can be."""
    volume, m = rng.randrange(1, TOP_CAPACITY), step * rng.randrange(1, TOP_CAPACITY // step + 1)
    least = max(0, m - volume)
    deductible = rng.choice((least, rng.randrange(least, TOP_CAPACITY + 1)))
    return Single(volume, Use(0, deductible, 0), m, month.hours * m)


def used_row(rng, month, step):
    use = some_use(rng)
    volume = use.penalty // THOUSANDTHS + rng.randrange(500, 20_000)
    m = step * rng.randrange(1, min(volume + use.deductible, TOP_CAPACITY) // step + 1)
    return Single(volume, use, m, month.hours * m)


# A row that is drawn, its buyer, and how many of its units make a tenth.
ROWS = {"support": (free_row, SINGLE_BUYER, 1), "bilateral": (free_row, 0, 1),
        "support_with_use": (used_row, SINGLE_BUYER, THOUSANDTHS)}


def near(below_of, tenths=1):
    """The worked sum of a row next to a half of so many tenths, or None."""
    def worked_of(rng, row):
        found = below_of(row.parts())
        return row.worked(tenths, rng.choice(found)) if found else None
    return worked_of


def on_half_a_tenth(rng, row):
    """The same of a row on half a tenth. Worked over asked has no end as a decimal, and k1 seldom has one."""
    odd, left = rng.choice((3, 7, 9, 11, 13, 17, 19, 21, 23)), row.units // row.in_tenth
    if row.units % row.in_tenth or left % (2 * odd) != odd or row.m % odd:
        return None
    times = rng.randrange(1, 2 * odd, 2)
    return row.asked // (2 * odd) * times if gcd(times, odd) == 1 else None


NEAR = {**{form: near(below_of) for form, below_of in BELOW_HALF_A_TENTH.items()}, "exact": on_half_a_tenth}
NEAR_A_TENTH = near(below_a_tenth, 2)

# ------------------------------------------------------------------ its row, and others of the producer


def by_itself(rng, buyer, volume):
    before = more_than(rng, volume)
    return [(buyer, before)], before - volume


def shuffled(rng, sales):
    return rng.sample(sales, len(sales))


def beside_nothing(rng, buyer, volume):
    """And a row of volume 0."""
    return shuffled(rng, [(buyer, volume), (rng.choice((SINGLE_BUYER, 0)), 0)]), 0


def behind_one_cut_whole(rng, buyer, volume):
    gone = rng.randrange(1, TOP_CAPACITY + 1)
    return [(rng.choice((SINGLE_BUYER, 0)), gone), (buyer, volume)], gone


def beside_another(rng, buyer, volume):
    """Which leaves T alone, and raises S."""
    return shuffled(rng, [(buyer, volume), (0, rng.randrange(1, 1000))]), 0


def draw_near(rng, month, kind, worked_of, shows):
    """A row of this kind with its worked sum; shows: only one by which it shows that k1 and k4 are rounded first."""
    draw_row, _, in_tenth = ROWS[kind]
    step = step_of_m(month, in_tenth) if worked_of is NEAR["on_a_half"] else 1
    while True:
        row = draw_row(rng, month, step)
        worked = worked_of(rng, row)
        if worked is not None and not (shows and row.as_one(worked) == row.rounded_first(worked)):
            return row, worked


def next_to_half(kind, worked_of, rows_of=by_itself):
    """A row of this kind next to half a tenth, by itself or with others of its producer."""
    def draw(rng, month):
        row, worked = draw_near(rng, month, kind, worked_of, rows_of is not by_itself)
        producer = full_producer(month)
        put_use(rng, month, producer, row.use)
        # Beside another row S is higher than this: there possible power has to be m in every hour.
        of_s = row.m == row.volume + row.use.deductible and rows_of is not beside_another
        producer.possible = spread(rng, month, row.m, TOP_CAPACITY) if of_s else flat(month, row.m)
        producer.working = with_sum_of(month, worked)
        _, buyer, _ = ROWS[kind]
        sales, cut = rows_of(rng, buyer, row.volume)
        return cut_by(rng, Seller(producer, sales), cut)
    return draw


def then_halved(kind, halve):
    """A row of this kind below a whole tenth, by a coefficient of a half then."""
    def draw(rng, month):
        seller = next_to_half(kind, NEAR_A_TENTH)(rng, month)
        halve(rng, month, seller.producer)
        return seller
    return draw


def half_k2(rng, month, producer):
    producer.missing[rng.randrange(2)] = month.hours // 2


def half_k3(rng, month, producer):
    producer.given[0] = ONE // 2


FRACTIONS = {f"{kind}_{form}": next_to_half(kind, worked_of) for kind in ROWS for form, worked_of in NEAR.items()}
FRACTIONS.update((f"{kind}_before_{halve.__name__}", then_halved(kind, halve))
                 for kind in ("bilateral", "support_with_use") for halve in (half_k2, half_k3))
FRACTIONS.update((f"{kind}_{rows_of.__name__}", next_to_half(kind, NEAR["rounded_up"], rows_of))
                 for kind in ("support", "support_with_use")
                 for rows_of in (beside_nothing, behind_one_cut_whole, beside_another))

# ------------------------------------------------------------------ several producers

SINGLE_ROWS = [*(selling([kind], "part") for kind in BUYERS), *(FRACTIONS[f"{kind}_rounded_up"] for kind in ROWS)]
MORE_ROWS = [selling(BUYERS, "part"), FRACTIONS["support_beside_nothing"], FRACTIONS["support_behind_one_cut_whole"]]


def side_by_side(*choices):
    """A producer of each of these choices."""
    def draw(rng):
        month = draw_month(rng, control_days=2)
        return sheet_of(rng, month, [rng.choice(draws)(rng, month) for draws in choices])
    return draw


TOGETHER = {
    "two_with_single_rows": side_by_side(SINGLE_ROWS, SINGLE_ROWS),
    "single_and_more_rows": side_by_side(SINGLE_ROWS, MORE_ROWS),
    "more_and_single_rows": side_by_side(MORE_ROWS, SINGLE_ROWS),
    "some_of_each": side_by_side(SINGLE_ROWS, MORE_ROWS, SINGLE_ROWS, MORE_ROWS),
}


def mostly_the_month(rng, sheet):
    """Of rows that cover the month, what lies next to half a tenth shows."""
    return for_month(sheet) if rng.random() < 0.8 else some_days(rng, sheet)


AFTER_CUT = {
    **in_versions({name: alone(draw) for name, draw in {**ROWS_CUT, **PENALTIES}.items()}),
    **in_versions({name: alone(draw) for name, draw in FRACTIONS.items()}, mostly_the_month),
    **in_versions(TOGETHER, mostly_the_month),
}
