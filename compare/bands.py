"""Sheets at the edges of the bands, and at the zero rules beside them, for k1 and for consumers."""
from math import gcd

from drawing import (draw_mining_days, draw_month, draw_price, full_producer, in_parts, plain_consumer, sums_of,
                     with_average, with_sum)
from records import HUNDREDTH, LOWEST_Z, MOST_CONSUMERS, SINGLE_BUYER, TOP_CAPACITY, TOP_Z, Row, Sheet, rounded

EDGES = (50, 200, 400, 500)

# For each edge of the bands: the last excess with p at the edge, the next one, the excess that is exactly the edge in
# thousandths, exactly one more, and exactly one half more, which is rounded upward.
SIDES = ("last", "next", "exact", "exact_next", "half")


def last_excess(edge, reference, whole):
    """The last excess over a reference with p at most at an edge, in so many parts of the reference to a whole."""
    return ((2 * edge + 1) * reference - 1) // (2 * whole)


def excess_at(rng, edge, side, whole, most):
    """A reference, at most this, and an excess over it that is an edge or one above it, rounded, in so many parts of
    the reference to a whole."""
    if side in ("last", "next"):
        reference = rng.randrange(2 * whole, most + 1)
        return reference, last_excess(edge, reference, whole) + (side == "next")
    times = rng.randrange(1, most // (2 * whole) + 1)
    if side == "half":
        return 2 * whole * times, (2 * edge + 1) * times
    return whole * times, (edge + (side == "exact_next")) * times


# ------------------------------------------------------------------ k1

# D is in hundredths and the deductible in tenths, so p is 100 × D over the deductible.
WHOLE = 100
# The first and the last p of each n above 0; the last band has no end.
P_OF_FACTOR = {13: (51, 200), 15: (201, 400), 17: (401, 500), 20: (501, None)}


def deductibles_for(n, overuse):
    """The deductibles over which D meets n; where n is 2.0, a deductible of 0 is one."""
    first, last = P_OF_FACTOR[n]
    least = 2 * WHOLE * overuse // (2 * last + 1) + 1 if last else 0
    return range(least, 2 * WHOLE * overuse // (2 * first - 1) + 1)


def little_support(rng, overuse):
    """A T above n × D, whatever n is, and so small that rows show a hundredth of D."""
    least = overuse // 5 + 1
    return rng.randrange(least, min(2 * least + 50, TOP_CAPACITY + 1))


def some_support(rng, overuse):
    """A T above n × D, small or any."""
    return rng.choice((little_support(rng, overuse), rng.randrange(overuse // 5 + 1, TOP_CAPACITY + 1)))


def outside_sheet(rng, month, deductible, outside, support):
    """One producer with this deductible, outside use and T. Only k1 is below 1."""
    producer = full_producer(month)
    producer.deductible, producer.outside = deductible, outside
    rows = [Row(0, SINGLE_BUYER, part, draw_price(rng)) for part in in_parts(rng, support)]
    if support == 0 and rng.random() < 0.5:
        rows = []
    for _ in range(rng.randrange(1, 3)):
        rows.append(Row(0, 0, rng.randrange(1, 15_000), draw_price(rng)))
    rng.shuffle(rows)
    return Sheet(month, [producer], rows, [plain_consumer(rng, 5000, rng.randrange(30_000))])


def k1_sheet(rng, deductible, overuse, support):
    """The same by D in hundredths; below 0, the control average is so much below the deductible."""
    month = draw_month(rng, control_days=2)
    outside = with_average(rng, month, HUNDREDTH * deductible + overuse)
    return outside_sheet(rng, month, deductible, outside, support)


def half_sheet(rng, deductible, overuse, support):
    """The same with a control average half a hundredth below the one that is rounded."""
    twice = 2 * (HUNDREDTH * deductible + overuse) - 1
    while True:
        month = draw_month(rng, control_days=1)
        total, rest = divmod(len(month.control_hours()) * twice, 2 * HUNDREDTH)
        if rest == 0:
            return outside_sheet(rng, month, deductible, with_sum(rng, month, total), support)


def in_proportion(rng, reference, excess):
    """Both at most as large, in the same proportion."""
    common = gcd(reference, excess)
    times = rng.randrange(1, common + 1)
    return reference // common * times, excess // common * times


def k1_at(edge, side):
    def draw(rng):
        deductible, overuse = excess_at(rng, edge, side, WHOLE, rng.choice((1000, 60_000)))
        if side == "exact":  # also where D is no whole tenths
            deductible, overuse = in_proportion(rng, deductible, overuse)
        return k1_sheet(rng, deductible, overuse, some_support(rng, overuse))
    return draw


def other_side_by_tenth(edge, above):
    """p is above an edge, or is not, and an average rounded to a tenth would bring it to the other side. The deductible
    is small, so that p takes large steps."""
    def draw(rng):
        while True:
            month, deductible = draw_month(rng, control_days=2), rng.randrange(1, 61)
            last = last_excess(edge, deductible, WHOLE)
            overuse = last + rng.randrange(1, 6) if above else max(0, last - rng.randrange(6))
            total = rng.choice(sums_of(month, HUNDREDTH * deductible + overuse))
            tenths = rounded(total, len(month.control_hours())) - deductible
            if (HUNDREDTH * tenths <= last) == above:
                outside = with_sum(rng, month, total)
                return outside_sheet(rng, month, deductible, outside, little_support(rng, overuse))
    return draw


def penalty_past(past):
    """n × D is T and so many thousandths."""
    def draw(rng):
        found = []
        while not found:
            n = rng.choice(list(P_OF_FACTOR))
            found = [overuse for overuse in range(20, 1000) if (n * overuse - past) % 100 == 0]
        overuse = rng.choice(found)
        deductible = rng.choice(deductibles_for(n, overuse))
        return k1_sheet(rng, deductible, overuse, (n * overuse - past) // 100)
    return draw


def no_deductible_no_use(rng):
    """The average is rounded to 0."""
    return k1_sheet(rng, 0, 0, rng.randrange(1, 50_000))


def no_deductible_but_use(rng):
    use = rng.randrange(1, rng.choice((100, 400_000)))
    return k1_sheet(rng, 0, use, some_support(rng, use))


def no_deductible_least_use(rng):
    return k1_sheet(rng, 0, 1, rng.randrange(1, 100))


def no_deductible_half_a_hundredth(rng):
    return half_sheet(rng, 0, 1, rng.randrange(1, 100))


def use_below_deductible(rng):
    deductible = rng.randrange(1, 50_000)
    below = rng.choice((0, 1, rng.randrange(HUNDREDTH * deductible + 1)))
    return k1_sheet(rng, deductible, -below, rng.randrange(50_000))


def least_overuse(rng):
    """D is 0.01 MW, within the first band or, over a deductible of 0.1, past it."""
    return k1_sheet(rng, rng.choice((1, 1, 2, 3, rng.randrange(4, 60_000))), 1, rng.randrange(1, 100))


def least_deductible(rng):
    """0.1 MW: each hundredth of D is 100 thousandths of it."""
    overuse = rng.randrange(1, 8)
    return k1_sheet(rng, 1, overuse, little_support(rng, overuse))


def no_support_penalty(rng):
    deductible = rng.randrange(0, 30_000)
    return k1_sheet(rng, deductible, deductible + 1, 0)


def no_support_least_penalty(rng):
    return k1_sheet(rng, rng.choice((0, 1)), 1, 0)


def no_support_no_penalty(rng):
    deductible = rng.randrange(0, 30_000)
    return k1_sheet(rng, deductible, rng.choice((deductible // 2, 2 * deductible // 5)), 0)


def penalty_above_all(rng):
    deductible = rng.randrange(100, 20_000)
    return k1_sheet(rng, deductible, HUNDREDTH * deductible + rng.randrange(10), rng.randrange(1, 2 * deductible))


def small_deductible(rng):
    """p takes large steps here too."""
    deductible = rng.randrange(1, 60)
    return k1_sheet(rng, deductible, rng.randrange(HUNDREDTH * (deductible + 2)), rng.randrange(200))


PAST = {"is_all": 0, "a_thousandth_more": 1, "a_thousandth_less": -1, "a_hundredth_more": 10, "a_hundredth_less": -10,
        "a_tenth_more": 100, "a_tenth_less": -100}
BANDS_OF_K1 = {
    **{f"{side}_{edge}": k1_at(edge, side) for side in SIDES for edge in EDGES},
    **{f"above_{edge}_not_by_tenth": other_side_by_tenth(edge, True) for edge in EDGES},
    **{f"above_{edge}_only_by_tenth": other_side_by_tenth(edge, False) for edge in EDGES},
    **{f"penalty_{words}": penalty_past(past) for words, past in PAST.items()},
}
BANDS_OF_K1.update((corner.__name__, corner) for corner in (
    no_deductible_no_use, no_deductible_but_use, no_deductible_least_use, no_deductible_half_a_hundredth,
    use_below_deductible, least_overuse, least_deductible, no_support_penalty, no_support_least_penalty,
    no_support_no_penalty, penalty_above_all, small_deductible))

# ------------------------------------------------------------------ consumers


def peak_at(rng, edge, side):
    """A contract volume and a counted peak with p at an edge or one above: p = 1000 × peak / DO − 1050."""
    if side in ("last", "next"):
        contract = rng.randrange(1000, 60_001)
        peak = ((2 * edge + 2101) * contract - 1) // 2000
        return contract, peak + (side == "next")
    times = rng.randrange(1, 31)
    if side == "half":
        return 2000 * times, (2 * edge + 2101) * times
    return 1000 * times, (edge + 1050 + (side == "exact_next")) * times


def no_contract_no_peak(rng):
    return 0, 0


def no_contract_but_peak(rng):
    return 0, rng.choice((1, rng.randrange(1, TOP_CAPACITY + 1)))


def no_excess(rng):
    contract = 20 * rng.randrange(1, 4000)
    return contract, contract // 20 * 21 - rng.choice((0, 1, rng.randrange(contract)))


def smallest_excess(rng):
    contract = 20 * rng.randrange(1, 4000)
    return contract, contract // 20 * 21 + 1


def small_contract(rng):
    contract = rng.randrange(1, 60)
    return contract, rng.randrange(2 * contract)


def consumer_at(edge, side):
    return lambda rng: peak_at(rng, edge, side)


PEAKS = {f"{side}_{edge}": consumer_at(edge, side) for side in SIDES for edge in EDGES}
PEAKS.update((corner.__name__, corner) for corner in (
    no_contract_no_peak, no_contract_but_peak, no_excess, smallest_excess, small_contract))


def consumers_at(rng, corner, peaks):
    """A sheet of consumers at corners of these bands, the first at this one; some have mining days and z."""
    month = draw_month(rng)
    count = MOST_CONSUMERS if rng.random() < 0.05 else rng.randrange(1, 6)
    corners = [corner] + [rng.choice(list(peaks.values())) for _ in range(count - 1)]
    sheet = Sheet(month, [], [], [plain_consumer(rng, *draw_peak(rng)) for draw_peak in corners])
    for consumer in sheet.consumers:
        if rng.random() < 0.3:
            consumer.supplier_days = draw_mining_days(rng, month)
            consumer.grid_days = draw_mining_days(rng, month)
            consumer.z = rng.randrange(LOWEST_Z, TOP_Z + 1)
    return sheet


def consumers_sheet(corner):
    """Consumers at corners of the bands, the first at this one. One sheet in four has a credit to each."""
    def draw(rng):
        sheet = consumers_at(rng, corner, PEAKS)
        if rng.random() < 0.25:
            sheet.producers = [full_producer(sheet.month)]
            for number, consumer in enumerate(sheet.consumers):
                credit = rng.randrange(min(TOP_CAPACITY - consumer.peak, 3000) + 1)
                consumer.peak += credit
                sheet.rows.append(Row(0, number, credit, draw_price(rng)))
        return sheet
    return draw


BANDS_OF_CONSUMERS = {name: consumers_sheet(corner) for name, corner in PEAKS.items()}
