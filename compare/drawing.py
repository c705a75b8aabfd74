"""Drawing of single parts of a sheet: months, hours, rows, producers, consumers.

The functions take a random.Random; the same state of it gives the same part.
"""
import struct
from array import array

from records import (CONTROL_HOURS, HUNDREDTH, LOWEST_Z, ONE, SINGLE_BUYER, TOP_CAPACITY, TOP_PRICE, TOP_Z, Consumer,
                     Month, Producer, Row, Sheet)


def draw_month(rng, control_days=0):
    """A month with so many control days or more."""
    while True:
        days, weekday = rng.randrange(28, 32), rng.randrange(1, 8)
        form = rng.random()
        if form < 0.4:
            holidays = 0
        elif form < 0.9:
            holidays = 0
            for _ in range(rng.randrange(1, 5)):
                holidays |= 1 << rng.randrange(days)
        elif form < 0.95:
            holidays = rng.getrandbits(days)
        else:
            holidays = (1 << days) - 1
        month = Month(days, weekday, holidays)
        if len(month.control_hours()) >= len(CONTROL_HOURS) * control_days:
            return month


def flat(month, figure):
    """The same figure for every hour."""
    return array("I", [figure]) * month.hours


def spread(rng, month, low, high):
    """A figure from low to high for each hour."""
    drawn = struct.unpack(f">{month.hours}H", rng.getrandbits(16 * month.hours).to_bytes(2 * month.hours, "big"))
    width = high - low + 1
    return array("I", [low + width * each // 65536 for each in drawn])


def with_sum_of(month, total):
    """Powers with this sum over all hours: alike, but for one more in the first of them."""
    each, more = divmod(total, month.hours)
    return array("I", [each + 1]) * more + array("I", [each]) * (month.hours - more)


def capacity(figure):
    """The nearest figure that the sheet may carry."""
    return max(0, min(int(figure), TOP_CAPACITY))


def draw_price(rng):
    form = rng.random()
    if form < 0.1:
        return rng.choice((0, 1, 5, TOP_PRICE - 5, TOP_PRICE - 1, TOP_PRICE))
    if form < 0.3:
        return 5 * rng.randrange(1, TOP_PRICE // 5, 2)  # gives a half tiyn with an odd volume
    return rng.randrange(TOP_PRICE + 1)


def draw_coefficient(rng):
    form = rng.random()
    if form < 0.5:
        return ONE
    if form < 0.6:
        return rng.choice((0, 1, 500_000, 250_000, 999_999, 999_995))
    if form < 0.9:
        return rng.randrange(900_000, ONE)
    return rng.randrange(ONE + 1)


def draw_missing(rng, month):
    form = rng.random()
    if form < 0.4:
        return 0
    if form < 0.9:
        return rng.randrange(1, 100)
    return rng.choice((1, month.hours - 1, month.hours, rng.randrange(month.hours)))


def draw_rows(rng, count, producers, consumers, scale):
    rows = []
    for _ in range(count):
        support = consumers == 0 or rng.random() < 0.5
        buyer = SINGLE_BUYER if support else rng.randrange(consumers)
        volume = 0 if rng.random() < 0.05 else capacity(rng.randrange(2 * scale + 1))
        rows.append(Row(rng.randrange(producers), buyer, volume, draw_price(rng)))
    return rows


def draw_producer(rng, month, volume, scale):
    """A producer whose rows have a volume in all: powers and capacities lie around S."""
    deductible = 0 if rng.random() < 0.3 else rng.randrange(scale + 1)
    whole = volume + deductible
    own_needs = capacity(rng.choice((0, rng.randrange(scale + 1), whole)))
    attested = capacity(whole - own_needs + rng.choice((0, 1, -1, scale // 3, -scale // 3, -whole // 4, whole)))
    possible = spread(rng, month, capacity(whole * 0.8), capacity(whole * 1.1))
    working = spread(rng, month, capacity(whole * 0.7), capacity(whole * 1.05))
    use = rng.choice((0.5, 1.0, 1.05, 1.1, 1.2, 1.35, 1.45, 1.6))
    outside = spread(rng, month, capacity(deductible * use * 0.9), capacity(deductible * use * 1.1 + 2))
    if rng.random() < 0.05:
        possible = flat(month, 0)
    missing = [draw_missing(rng, month) for _ in range(3)]
    given = [draw_coefficient(rng) for _ in range(6)]
    return Producer(attested, deductible, own_needs, missing, given, working, possible, outside)


def draw_mining_days(rng, month):
    form = rng.random()
    if form < 0.7:
        return 0
    return rng.randrange(1, 6) if form < 0.9 else rng.randrange(month.days + 1)


def draw_consumer(rng, month, scale):
    contract = 0 if rng.random() < 0.2 else capacity(rng.randrange(2 * scale + 1))
    peak = contract * rng.choice((0, 0.9, 1.0, 1.05, 1.08, 1.1, 1.2, 1.3, 1.5, 2.0)) + rng.randrange(scale // 10 + 2)
    z = LOWEST_Z if rng.random() < 0.6 else rng.randrange(LOWEST_Z, TOP_Z + 1)
    supplier_days, grid_days = draw_mining_days(rng, month), draw_mining_days(rng, month)
    return Consumer(contract, capacity(peak), supplier_days, grid_days, z, draw_price(rng))


def draw_sheet(rng, producers, rows, consumers, month=None):
    """A month at will, with these counts."""
    month = month or draw_month(rng)
    scale = rng.choice((10, 100, 1000, 10_000, 50_000))
    sheet = Sheet(month, [], draw_rows(rng, rows, producers, consumers, scale), [])
    for number in range(producers):
        sheet.producers.append(draw_producer(rng, month, sheet.volume_of(number), scale))
    sheet.consumers = [draw_consumer(rng, month, scale) for _ in range(consumers)]
    return sheet


def full_producer(month):
    """Every coefficient is 1, and nothing is cut as long as S is at most 200,000 tenths."""
    return Producer(TOP_CAPACITY, 0, TOP_CAPACITY, [0, 0, 0], [ONE] * 6,
                    flat(month, TOP_CAPACITY), flat(month, TOP_CAPACITY), flat(month, 0))


def one_row_sheet(rng, month, producer, volume):
    return Sheet(month, [producer], [Row(0, SINGLE_BUYER, volume, draw_price(rng))], [])


def plain_consumer(rng, contract, peak):
    return Consumer(contract, peak, 0, 0, LOWEST_Z, draw_price(rng))


def summed(sheet, number):
    """S of a producer before the cut."""
    return sheet.volume_of(number) + sheet.producers[number].deductible


def with_sum(rng, month, total):
    """Powers with this sum over the control hours; other hours have any power."""
    hours = month.control_hours()
    average, rest = divmod(total, len(hours))
    powers = spread(rng, month, 0, capacity(3 * average + 1000))
    rng.shuffle(hours)
    most = min(average, TOP_CAPACITY - average, 500)
    for one, other in zip(hours[0::2], hours[1::2]):
        step = rng.randrange(most + 1)
        powers[one] = average + step
        powers[other] = average - step
    for hour in hours:
        if powers[hour] + rest <= TOP_CAPACITY:
            powers[hour] += rest
            break
    return powers


def sums_of(month, average):
    """The sums over the control hours whose average, rounded to a hundredth, is so many of them. From two control days
    on every average has such a sum."""
    count = len(month.control_hours())
    least, past = (-(-count * (2 * average + half) // (2 * HUNDREDTH)) for half in (-1, 1))
    return range(max(0, least), past)


def with_average(rng, month, average):
    """Powers whose control average is rounded to so many hundredths: from below, from above, or as it comes."""
    sums = sums_of(month, average)
    return with_sum(rng, month, rng.choice((sums[0], sums[-1], rng.choice(sums))))


def in_parts(rng, volume):
    """A volume in one to three parts."""
    parts = []
    for _ in range(rng.randrange(3)):
        part = rng.randrange(volume + 1)
        parts.append(part)
        volume -= part
    return parts + [volume]
