"""Kinds of sheets that are accepted under the text of 2015, each drawn to reach a corner of request 4.

A corner of the bands draws a contract volume and a peak, in tenths; any other corner draws a Sheet, or a sheet's bytes
with the length of the result buffer.
"""
import bands
from bands import SIDES, consumers_at, excess_at
from drawing import draw_price, draw_sheet, full_producer
from records import (LOWEST_Z, MOST_CONSUMERS, TOP_CAPACITY, TOP_PRICE, TOP_Z, Row, result_2015_length, result_length)
from refused import accepted_sheet

WHOLE = 10_000    # hundredths of a percent
EDGES = (500, 1000, 2000)
# The largest contract volume drawn: with 20.01 percent more its peak is below the ceiling.
MOST = 80_000
# The largest contract volume that a peak can pass by more than 20.00 percent: it gives the largest volume.
LARGEST_RAISED = 83_329

# ------------------------------------------------------------------ contract volumes and peaks


def at_edge(edge, side):
    def draw(rng):
        contract, excess = excess_at(rng, edge, side, WHOLE, MOST)
        return contract, contract + excess
    return draw


def near_edge(edge):
    """Over small contract volumes too, where one tenth is many hundredths of a percent."""
    def draw(rng):
        contract = rng.randrange(1, rng.choice((60, 2000, MOST)))
        return contract, contract + contract * edge // WHOLE + rng.randrange(3)
    return draw


def smallest_peak_alone(rng):
    return 0, 1


def peak_below(rng):
    contract = rng.randrange(1, TOP_CAPACITY + 1)
    return contract, rng.choice((0, contract - 1, rng.randrange(contract)))


def peak_equal(rng):
    return (rng.randrange(1, TOP_CAPACITY + 1),) * 2


def highest_peak(rng):
    """Over a contract volume at which the factor changes, or far above one."""
    contract = rng.choice((1, 2, LARGEST_RAISED, LARGEST_RAISED + 1, 90_904, 90_905, 95_233, 95_234, TOP_CAPACITY))
    return contract, TOP_CAPACITY


def largest_volume(rng):
    return LARGEST_RAISED, TOP_CAPACITY


# Where a peak has a factor, in hundredths of a percent: some way from the edges.
WITHIN = {10: (0, 401), 11: (600, 901), 12: (1100, 1901), 15: (2100, 2401)}


def with_factor(factor, digits):
    """A contract volume that ends in one of these digits, and a peak that gives it this factor."""
    def draw(rng):
        contract = 10 * rng.randrange(100, MOST // 10) + rng.choice(digits)
        return contract, contract + contract * rng.randrange(*WITHIN[factor]) // WHOLE
    return draw


PEAKS = {f"{side}_{edge}": at_edge(edge, side) for side in SIDES for edge in EDGES}
PEAKS.update((f"near_{edge}", near_edge(edge)) for edge in EDGES)
PEAKS.update((corner.__name__, corner) for corner in (
    bands.no_contract_no_peak, bands.no_contract_but_peak, bands.small_contract, smallest_peak_alone, peak_below,
    peak_equal, highest_peak, largest_volume))

# How the volume is rounded: 1.2 times a whole count of tenths never lies on a half.
VOLUMES = {
    "half_of_11": with_factor(11, (5,)), "down_of_11": with_factor(11, (1, 2, 3, 4)),
    "up_of_11": with_factor(11, (6, 7, 8, 9)), "whole_of_11": with_factor(11, (0,)),
    "down_of_12": with_factor(12, (1, 2, 6, 7)), "up_of_12": with_factor(12, (3, 4, 8, 9)),
    "whole_of_12": with_factor(12, (0, 5)), "half_of_15": with_factor(15, (1, 3, 5, 7, 9)),
    "whole_of_15": with_factor(15, (0, 2, 4, 6, 8)),
}

# ------------------------------------------------------------------ sheets of consumers


def credit_to(rng, sheet, number, volume):
    """A bilateral row to a consumer, from a producer whose coefficients are 1."""
    sheet.producers = sheet.producers or [full_producer(sheet.month)]
    sheet.rows.append(Row(0, number, volume, draw_price(rng)))


def consumers_sheet(corner):
    """Consumers at corners of the bands, the first at this one. In one sheet of five each has a credit."""
    def draw(rng):
        sheet = consumers_at(rng, corner, PEAKS)
        if rng.random() < 0.2:
            for number, consumer in enumerate(sheet.consumers):
                credit_to(rng, sheet, number, rng.randrange(consumer.peak + 1))
        return sheet
    return draw


def priced_sheet(corner, draw_price_of):
    """The first consumer at a corner, with a price of its own."""
    def draw(rng):
        sheet = consumers_at(rng, corner, PEAKS)
        sheet.consumers[0].price = draw_price_of(rng)
        return sheet
    return draw


def ending_in(digits):
    return lambda rng: 10 * rng.randrange(TOP_PRICE // 10) + rng.choice(digits)


# With a volume that ends in 1 the last digit of the price says how the charge is rounded.
ENDING_IN_1 = with_factor(10, (1,))
CHARGES = {
    "half": priced_sheet(ENDING_IN_1, ending_in((5,))), "down": priced_sheet(ENDING_IN_1, ending_in((1, 2, 3, 4))),
    "up": priced_sheet(ENDING_IN_1, ending_in((6, 7, 8, 9))), "whole": priced_sheet(ENDING_IN_1, ending_in((0,))),
    # A charge from the volume before it is rounded would be another.
    "of_a_half_volume": priced_sheet(VOLUMES["half_of_11"], lambda rng: rng.choice((25, 1001, TOP_PRICE))),
    "highest_price": priced_sheet(with_factor(12, range(10)), lambda rng: TOP_PRICE),
    "largest": priced_sheet(largest_volume, lambda rng: TOP_PRICE),
    "no_price": priced_sheet(with_factor(11, range(10)), lambda rng: 0),
}


def all_32_largest(rng):
    sheet = draw_sheet(rng, 0, 0, MOST_CONSUMERS)
    for consumer in sheet.consumers:
        consumer.contract, consumer.peak, consumer.price = LARGEST_RAISED, TOP_CAPACITY, TOP_PRICE
    return sheet


CHARGES[all_32_largest.__name__] = all_32_largest

# ------------------------------------------------------------------ what the text does not know


def credited(factor):
    """A credit of the whole excess or more: with the counted peak the factor would be 1.0."""
    def draw(rng):
        sheet = consumers_at(rng, with_factor(factor, range(10)), PEAKS)
        first = sheet.consumers[0]
        credit_to(rng, sheet, 0, rng.randrange(first.peak - first.contract, first.peak + 1))
        return sheet
    return draw


def mined(*names):
    """Mining days and z that would change the volume."""
    def draw(rng):
        sheet = consumers_at(rng, with_factor(rng.choice(list(WITHIN)), range(10)), PEAKS)
        tops = {"supplier_days": (1, sheet.month.days), "grid_days": (1, sheet.month.days), "z": (LOWEST_Z + 1, TOP_Z)}
        for name in names:
            low, top = tops[name]
            setattr(sheet.consumers[0], name, rng.randrange(low, top + 1))
        return sheet
    return draw


NOT_KNOWN = {f"credit_{factor}": credited(factor) for factor in (11, 12, 15)}
NOT_KNOWN.update((name, mined(name)) for name in ("supplier_days", "grid_days", "z"))
NOT_KNOWN["mining_days_and_z"] = mined("supplier_days", "grid_days", "z")

# ------------------------------------------------------------------ counts and rooms


def counts_of(producers, consumers):
    return lambda rng: draw_sheet(rng, producers, rng.randrange(5) if producers else 0, consumers)


COUNTS = {"no_consumers": counts_of(0, 0), "no_consumers_behind_producers": counts_of(1, 0),
          "one_consumer": counts_of(0, 1), "one_consumer_behind_producers": counts_of(1, 1),
          "all_32_consumers": counts_of(0, MOST_CONSUMERS), "all_32_behind_producers": counts_of(2, MOST_CONSUMERS)}


def room_of(choose):
    """choose: the length of the result buffer, from that of this text's result and of the settlement's."""
    def draw(rng):
        content = accepted_sheet(rng).to_bytes()
        _, rows, consumers = content[11:14]
        return content, choose(rng, result_2015_length(consumers), result_length(rows, consumers))
    return draw


ROOMS = {
    "as_the_settlement_needs": room_of(lambda rng, own, settled: settled),
    "one_less_than_the_settlement_needs": room_of(lambda rng, own, settled: settled - 1),
    "more_than_this_needs_and_less_than_that": room_of(lambda rng, own, settled: rng.randrange(own + 1, settled)),
}
