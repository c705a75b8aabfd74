"""Sheets in which a rounded figure lies exactly on a half, and in which the order of the coefficients shows.

They are made so that a wrong rounding shows in the result and is not lost in a later one.
"""
from math import gcd

from bands import P_OF_FACTOR, deductibles_for, half_sheet, k1_sheet, little_support, some_support
from drawing import (draw_month, draw_price, flat, full_producer, in_parts, one_row_sheet, plain_consumer, spread,
                     with_average, with_sum_of)
from records import HUNDREDTH, ONE, SINGLE_BUYER, TOP_CAPACITY, TOP_PRICE, TOP_Z, Row, Sheet

# No half can occur in k2 and k5: a half millionth asks that 24 × days has a power of 2 one higher than a million has,
# which is the sixth; 24 × days has at most the fifth (28 days). So these two get the nearest rounding only.
# k1 and k4 are rounded only where a producer has more rows than one; after_cut.py has the halves of the one fraction.


def telling_volume(rng, k):
    """A volume that k brings to a half tenth or just above, so that one millionth less of k would show.

    A few coefficients, as 200,000, have no such volume; they get any.
    """
    for _ in range(300):
        volume = rng.randrange(20_000, TOP_CAPACITY - 500)
        if 500_000 <= volume * k % ONE < 500_000 + volume:
            break
    return volume


def coprime_volume(rng):
    """A volume that neither 2 nor 5 divides."""
    while True:
        volume = rng.randrange(1, TOP_CAPACITY)
        if gcd(volume, 10) == 1:
            return volume


def add_row(rng, sheet, volume):
    """A support row more, first or last."""
    sheet.rows.insert(rng.choice((0, len(sheet.rows))), Row(0, SINGLE_BUYER, volume, draw_price(rng)))


def tie_average(rng):
    """Half a hundredth."""
    overuse = rng.randrange(1, 3000)
    deductible = overuse * rng.choice((0, 1, 2, 3, 4, 8)) // HUNDREDTH
    return half_sheet(rng, deductible, overuse, little_support(rng, overuse))


def tie_p_of_k1(rng):
    times = rng.randrange(1, 290)
    overuse = rng.randrange(1, 1400, 2) * times
    return k1_sheet(rng, 200 * times, overuse, some_support(rng, overuse))


def tie_p_of_consumer(rng):
    times = rng.randrange(1, 30)
    peak = rng.randrange(2101, 3301, 2) * times
    return Sheet(draw_month(rng), [], [], [plain_consumer(rng, 2000 * times, peak)])


def tie_k1(rng):
    """D in hundredths over T in tenths is an odd number of 32nds (of 128ths where n is 2.0): k1 ends in a half
    millionth."""
    month = draw_month(rng, control_days=2)
    deductibles = ()
    while not deductibles:
        n, unit, odd = rng.choice(list(P_OF_FACTOR)), rng.randrange(1, 120), rng.randrange(1, 150, 2)
        overuse, support = unit * odd, unit * (128 if n == 20 else 32)
        deductibles = deductibles_for(n, overuse)
    producer = full_producer(month)
    producer.deductible = rng.choice(deductibles)
    producer.outside = with_average(rng, month, HUNDREDTH * producer.deductible + overuse)
    k1 = ONE - 10_000 * n * overuse // support  # the penalty rounded down, so k1 upward
    rows = [Row(0, SINGLE_BUYER, part, draw_price(rng)) for part in in_parts(rng, support)]
    rows.append(Row(0, 0, telling_volume(rng, k1), draw_price(rng)))
    return Sheet(month, [producer], rows, [plain_consumer(rng, 5000, 6000)])


def tie_k4(rng):
    """The worked sum is an odd number of 128ths of the whole sum: k4 ends in a half millionth. A second row, of any
    volume or of 0, brings S to a multiple of what the sum of m is to hold."""
    month = draw_month(rng)
    producer = full_producer(month)
    odd = rng.randrange(1, 128, 2)
    k4 = (15_625 * odd + 1) // 2
    unit = 128 // gcd(month.hours, 128)
    sheet = one_row_sheet(rng, month, producer, telling_volume(rng, k4))
    add_row(rng, sheet, -sheet.volume_of(0) % unit + rng.choice((0, unit * rng.randrange(20))))
    if rng.random() < 0.5:  # m is the possible power
        m = unit * rng.randrange(1, 20_000 // unit)
        producer.possible = flat(month, m)
    else:  # m is S
        m = sheet.volume_of(0)
        producer.possible = spread(rng, month, m, TOP_CAPACITY)
    producer.working = with_sum_of(month, month.hours * m // 128 * odd)
    return sheet


def share_of_hours(month, missing):
    """The hours of the month without the missing ones, over all, in millionths, rounded."""
    return (2 * ONE * (month.hours - missing) + month.hours) // (2 * month.hours)


def nearest(rng, counts):
    """k2 or k5 next to a half tenth of the volume: one millionth less or more would show."""
    month = draw_month(rng)
    producer = full_producer(month)
    missing = rng.randrange(1, month.hours)
    for count in counts:
        producer.missing[count] = missing
    k = share_of_hours(month, missing)
    return one_row_sheet(rng, month, producer, telling_volume(rng, k + rng.choice((0, 1))))


def nearest_k2(rng):
    return nearest(rng, rng.choice(((0,), (1,), (0, 1))))


def nearest_k5(rng):
    return nearest(rng, (2,))


def tie_first_product(rng):
    """volume × k ends in 499995: a tenth of that, rounded upward, is a half tenth of a megawatt."""
    month = draw_month(rng)
    producer = full_producer(month)
    volume = coprime_volume(rng)
    producer.given[rng.randrange(6)] = 499_995 * pow(volume, -1, ONE) % ONE
    return one_row_sheet(rng, month, producer, volume)


def tie_later_product(rng):
    """After k3 the product is odd, and a later coefficient of a half makes it end in 49999.5."""
    month = draw_month(rng)
    producer = full_producer(month)
    while True:
        volume = coprime_volume(rng)
        k3 = 999_990 * pow(volume, -1, 2 * ONE) % (2 * ONE)
        if k3 <= ONE:
            break
    producer.given[0] = k3
    producer.given[rng.randrange(1, 6)] = 500_000
    return one_row_sheet(rng, month, producer, volume)


GIVEN = (3, 6, 7, 8, 9, 10)  # the numbers of the coefficients that the sheet carries


def set_half(rng, sheet, number, support):
    """Makes the coefficient with this number of k1 to k10 one half, where T is this."""
    month, producer = sheet.month, sheet.producers[0]
    if number == 1:  # 2 × D is half of T
        producer.outside = with_average(rng, month, 5 * support // 2)
    elif number == 2:
        producer.missing[rng.randrange(2)] = month.hours // 2
    elif number == 4:
        producer.possible, producer.working = flat(month, 1000), flat(month, 500)
    elif number == 5:
        producer.missing[2] = month.hours // 2
    else:
        producer.given[GIVEN.index(number)] = 500_000


def draw_odd_coefficient(rng, month, producer, number):
    """Draws k2, k5 or a given coefficient so that neither 2 nor 5 divides it."""
    while True:
        if number in GIVEN:
            k = rng.randrange(1, ONE)
            producer.given[GIVEN.index(number)] = k
        else:
            missing = rng.randrange(1, month.hours)
            k = share_of_hours(month, missing)
            producer.missing[0 if number == 2 else 2] = missing
        if gcd(k, 10) == 1:
            return k


def sheet_before_half(rng, month, drawn):
    """A row by one coefficient that is drawn, all others being 1: whether a half comes before it or after it shows.

    volume × k is 999,985 to 999,989 past a multiple of two millions, in tenths of a millionth. k first: rounded
    upward, then half of it upward again, to a half tenth of a megawatt. The half first: below it.
    """
    producer = full_producer(month)
    volume = 0
    while not 1000 <= volume <= TOP_CAPACITY:
        k = draw_odd_coefficient(rng, month, producer, drawn)
        volume = (999_985 + rng.randrange(5)) * pow(k, -1, 2 * ONE) % (2 * ONE)
    return Sheet(month, [producer], [Row(0, 0, volume, draw_price(rng))], [plain_consumer(rng, 5000, 6000)])


def order_of(drawn, half, single=False):
    """Two coefficients whose order shows: one is drawn, the other a half. In a single row, or beside another."""
    def draw(rng):
        sheet, support = sheet_before_half(rng, draw_month(rng, control_days=2), drawn), 0
        if not single:
            support = 2 * rng.randrange(1, 4000)
            add_row(rng, sheet, support)
        set_half(rng, sheet, half, support)
        return sheet
    return draw


# Each two neighbours of k1 to k10, so that any other order is found out. And in a single row, where k4 is in what comes
# first.
ORDERS = {f"order_of_k{min(numbers)}_and_k{max(numbers)}": order_of(*numbers) for numbers in (
    (2, 1), (3, 2), (3, 4), (5, 4), (6, 5), (6, 7), (7, 8), (8, 9), (9, 10))}
ORDERS.update((f"order_of_k{first}_and_k{second}_in_a_single_row", order_of(*numbers, single=True))
              for first, second, numbers in ((4, 2, (2, 4)), (2, 3, (3, 2)), (3, 5, (3, 5))))


def tie_volume(rng):
    month = draw_month(rng)
    producer = full_producer(month)
    producer.given[rng.randrange(6)] = 500_000
    return one_row_sheet(rng, month, producer, rng.randrange(1, TOP_CAPACITY, 2))


def tie_payment(rng):
    month = draw_month(rng)
    sheet = one_row_sheet(rng, month, full_producer(month), rng.randrange(1, TOP_CAPACITY, 2))
    sheet.rows[0].price = 5 * rng.randrange(1, TOP_PRICE // 5, 2)
    return sheet


def tie_volume_by_z(rng):
    contract = rng.randrange(1, TOP_CAPACITY, 2)
    consumer = plain_consumer(rng, contract, rng.randrange(contract + 1))
    consumer.z = rng.randrange(15, TOP_Z, 10)
    return Sheet(draw_month(rng), [], [], [consumer])


def tie_volume_by_bracket(rng):
    """n × (Do − 0.05 × DO) ends in a half tenth, in each band whose n is odd in tenths."""
    odd = rng.randrange(1, 700, 2)
    above, contract = rng.choice(((5, 50), (5, 20), (25, 60)))
    consumer = plain_consumer(rng, contract * odd, (contract // 10 * 11 + above) * odd)
    return Sheet(draw_month(rng), [], [], [consumer])


def tie_volume_by_mining_days(rng):
    """DO holds the days' divisors twice, so that both factors of point 59 come out whole and odd."""
    month = draw_month(rng)
    divisor, step = {28: (7, 2), 29: (29, 1), 30: (3, 1), 31: (31, 1)}[month.days]
    consumer = tie_volume_by_z(rng).consumers[0]
    consumer.contract = divisor ** 2 * rng.randrange(1, 100, 2)
    consumer.peak = rng.randrange(consumer.contract + 1)
    consumer.supplier_days = rng.randrange(0, month.days + 1, step)
    consumer.grid_days = rng.randrange(0, month.days + 1, step)
    return Sheet(month, [], [], [consumer])


def tie_charge(rng):
    contract = rng.randrange(1, TOP_CAPACITY, 2)
    consumer = plain_consumer(rng, contract, rng.randrange(contract + 1))
    consumer.price = 5 * rng.randrange(1, TOP_PRICE // 5, 2)
    return Sheet(draw_month(rng), [], [], [consumer])


TIES = {corner.__name__: corner for corner in (
    tie_average, tie_p_of_k1, tie_p_of_consumer, tie_k1, tie_k4, nearest_k2, nearest_k5, tie_first_product,
    tie_later_product, tie_volume, tie_payment, tie_volume_by_z, tie_volume_by_bracket, tie_volume_by_mining_days,
    tie_charge)}
TIES.update(ORDERS)
