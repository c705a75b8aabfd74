"""Further kinds of sheets that are accepted, each drawn to reach a corner of document 01.

A group is a table of corners: a name, and a function that draws one sheet for it.
"""
from array import array

from bands import EDGES, PEAKS, SIDES, peak_at
from drawing import (capacity, draw_coefficient, draw_consumer, draw_month, draw_price, draw_producer, draw_sheet, flat,
                     full_producer, one_row_sheet, plain_consumer, spread)
from records import (LOWEST_Z, MOST_CONSUMERS, MOST_PRODUCERS, MOST_ROWS, ONE, SINGLE_BUYER, TOP_CAPACITY, TOP_PRICE,
                     TOP_Z, Consumer, Month, Producer, Row, Sheet)

# ------------------------------------------------------------------ zero counts and months of noughts


def counts_of(producers, rows, consumers):
    def draw(rng):
        return draw_sheet(rng, producers and rng.randrange(1, 3), rows and rng.randrange(1, 5),
                          consumers and rng.randrange(1, 5))
    return draw


def nothing_possible(rng):
    sheet = draw_sheet(rng, 1, 2, 1)
    sheet.producers[0].possible = flat(sheet.month, 0)
    return sheet


def rows_without_volume(rng):
    sheet = draw_sheet(rng, 1, 3, 2)
    for row in sheet.rows:
        row.volume = 0
    return sheet


def nothing_but_noughts(rng):
    month = draw_month(rng)
    idle = Producer(0, 0, 0, [0, 0, 0], [0] * 6, flat(month, 0), flat(month, 0), flat(month, 0))
    rows = [Row(0, SINGLE_BUYER, 0, 0), Row(0, 0, 0, 0)]
    return Sheet(month, [idle], rows, [Consumer(0, 0, 0, 0, LOWEST_Z, 0)])


ZERO_COUNTS = {
    "none_at_all": counts_of(0, 0, 0),
    "only_consumers": counts_of(0, 0, 1),
    "only_producers": counts_of(1, 0, 0),
    "no_rows": counts_of(1, 0, 1),
    "no_consumers": counts_of(1, 1, 0),
}
ZERO_COUNTS.update((corner.__name__, corner) for corner in (nothing_possible, rows_without_volume, nothing_but_noughts))

# ------------------------------------------------------------------ months

HOLIDAYS = ("no_holiday", "all_holidays", "some_holidays", "no_working_day", "first_and_last_day")


def month_in_form(rng, days, weekday, form):
    month = Month(days, weekday, 0)
    if form == "all_holidays":
        return month._replace(holidays=month.all_days)
    if form == "some_holidays":
        return month._replace(holidays=rng.getrandbits(days) & rng.getrandbits(days))
    if form == "no_working_day":
        working = sum(1 << day for day in range(days) if (weekday - 1 + day) % 7 < 5)
        return month._replace(holidays=working)
    return month._replace(holidays=1 | 1 << days - 1) if form == "first_and_last_day" else month


def month_sheet(rng, month):
    """Outside use differs from hour to hour, so that a wrong choice of control hours shows in k1."""
    producer = full_producer(month)
    producer.deductible = rng.randrange(5000, 15_000)
    producer.outside = spread(rng, month, producer.deductible, producer.deductible + rng.randrange(1000, 30_000))
    return one_row_sheet(rng, month, producer, rng.randrange(60_000, TOP_CAPACITY))


def all_months(draw_for):
    """All 28 months in turn, and the five forms of holidays in turn: in 140 corners each month has each form."""
    def corner(*form):
        return lambda rng: draw_for(rng, month_in_form(rng, *form))
    for place in range(140):
        days, weekday, form = 28 + place % 4, 1 + place % 28 // 4, HOLIDAYS[place % 5]
        yield f"days_{days}_weekday_{weekday}_{form}", corner(days, weekday, form)


MONTHS = dict(all_months(month_sheet))

# ------------------------------------------------------------------ ceilings


def small_sheet(rng):
    return draw_sheet(rng, 1, 2, 2)


def ceiling_of_producer(name):
    def draw(rng):
        sheet = small_sheet(rng)
        setattr(sheet.producers[0], name, TOP_CAPACITY)
        return sheet
    return draw


def ceiling_of_powers(name):
    def draw(rng):
        sheet = small_sheet(rng)
        setattr(sheet.producers[0], name, flat(sheet.month, TOP_CAPACITY))
        return sheet
    return draw


def ceiling_of_missing(position):
    def draw(rng):
        sheet = small_sheet(rng)
        sheet.producers[0].missing[position] = sheet.month.hours
        return sheet
    return draw


def ceiling_of_row(name, top):
    def draw(rng):
        sheet = small_sheet(rng)
        setattr(sheet.rows[0], name, top)
        return sheet
    return draw


def ceiling_of_consumer(name, top):
    """top None stands for the days of the month."""
    def draw(rng):
        sheet = draw_sheet(rng, 0, 0, 2)
        setattr(sheet.consumers[0], name, sheet.month.days if top is None else top)
        return sheet
    return draw


def all_ceilings(rng):
    """Every figure of one producer, its rows and one consumer at its ceiling."""
    month = draw_month(rng)
    month = month._replace(holidays=rng.choice((0, month.all_days)))
    top = [flat(month, TOP_CAPACITY) for _ in range(3)]
    producer = Producer(TOP_CAPACITY, TOP_CAPACITY, TOP_CAPACITY, [month.hours] * 3, [ONE] * 6, *top)
    rows = [Row(0, buyer, TOP_CAPACITY, TOP_PRICE) for buyer in (SINGLE_BUYER, 0)]
    consumer = Consumer(TOP_CAPACITY, TOP_CAPACITY, month.days, month.days, TOP_Z, TOP_PRICE)
    return Sheet(month, [producer], rows, [consumer])


def largest_payments(rng):
    """Rows at the ceiling with coefficients of 1; the first rows are cut, the last are whole."""
    month = draw_month(rng)
    rows = [Row(0, SINGLE_BUYER, TOP_CAPACITY, TOP_PRICE) for _ in range(rng.randrange(1, MOST_ROWS + 1))]
    return Sheet(month, [full_producer(month)], rows, [])


def largest_penalty(rng):
    """Outside use at the ceiling, or up to 99.9 MW below it, over a deductible of 0 or 0.1 MW: D, p and n × D at or
    near their largest. The cut leaves T 20,000.0 at most. With one row k1 is 0; with more it is 0, or little above it,
    below 0.01. In a month without control hours D is 0, and k1 is 1."""
    sheet = largest_payments(rng)
    sheet.producers[0].deductible = rng.choice((0, 1))
    sheet.producers[0].outside = flat(sheet.month, TOP_CAPACITY - rng.choice((0, rng.randrange(1, 1000))))
    return sheet


def largest_charges(rng):
    month = draw_month(rng)
    contract, count = rng.choice((0, 1, TOP_CAPACITY)), rng.choice((1, MOST_CONSUMERS))
    consumers = [Consumer(contract, TOP_CAPACITY, month.days, month.days, TOP_Z, TOP_PRICE) for _ in range(count)]
    return Sheet(month, [], [], consumers)


CEILINGS = {name: ceiling_of_producer(name) for name in ("attested", "deductible", "own_needs")}
CEILINGS.update((name, ceiling_of_powers(name)) for name in ("working", "possible", "outside"))
CEILINGS.update((name, ceiling_of_missing(place)) for place, name in enumerate(("no_upward", "no_downward", "no_plan")))
CEILINGS.update({
    "row_volume": ceiling_of_row("volume", TOP_CAPACITY),
    "row_price": ceiling_of_row("price", TOP_PRICE),
    "contract": ceiling_of_consumer("contract", TOP_CAPACITY),
    "peak": ceiling_of_consumer("peak", TOP_CAPACITY),
    "supplier_days": ceiling_of_consumer("supplier_days", None),
    "grid_days": ceiling_of_consumer("grid_days", None),
    "z": ceiling_of_consumer("z", TOP_Z),
    "consumer_price": ceiling_of_consumer("price", TOP_PRICE),
    "all_ceilings": all_ceilings,
    "largest_payments": largest_payments,
    "largest_penalty": largest_penalty,
    "largest_charges": largest_charges,
})

# ------------------------------------------------------------------ cut

CUTS = ("none_equal", "none_one_below", "one_tenth", "part_of_first", "first_whole", "into_a_later", "all_but_one",
        "all", "more_than_all", "own_needs_above_all", "nothing_attested")


def cut_sheet(form):
    """What is cut from producer 0 by this form. Possible power lies around S before the cut, so that a k4 of that S
    would show."""
    def draw(rng):
        month = draw_month(rng)
        others = rng.random() < 0.3
        rows = []
        for _ in range(rng.randrange(2, 7)):
            if others and rng.random() < 0.4:
                rows.append(Row(1, SINGLE_BUYER, rng.randrange(1000), draw_price(rng)))
            volume = 0 if rng.random() < 0.1 else rng.randrange(1, 8000)
            rows.append(Row(0, rng.choice((SINGLE_BUYER, 0)), volume, draw_price(rng)))
        sheet = Sheet(month, [], rows, [draw_consumer(rng, month, 5000)])
        volumes = [row.volume for row in rows if row.producer == 0 and row.volume] or [0]
        whole, deductible = sum(volumes), rng.randrange(1, 5000)
        own_needs = rng.choice((0, rng.randrange(deductible)))
        excess = {
            "none_equal": 0, "none_one_below": -1, "one_tenth": 1, "part_of_first": rng.randrange(volumes[0] + 1),
            "first_whole": volumes[0], "into_a_later": volumes[0] + rng.randrange(whole - volumes[0] + 1),
            "all_but_one": whole - 1, "all": whole,
            "more_than_all": whole + rng.randrange(1, deductible - own_needs + 1),
        }.get(form, 0)
        producer = draw_producer(rng, month, whole, 1)
        producer.given = [rng.choice((ONE, 999_999, 990_000)) for _ in range(6)]
        producer.deductible, producer.own_needs = deductible, own_needs
        producer.outside = spread(rng, month, 0, deductible)
        producer.attested = capacity(whole + deductible - own_needs - excess)
        if form == "own_needs_above_all":
            producer.own_needs = whole + deductible + rng.randrange(3)
            producer.attested = rng.choice((0, 1000))
        if form == "nothing_attested":
            producer.attested = 0
        sheet.producers = [producer]
        if others:
            sheet.producers.append(draw_producer(rng, month, sheet.volume_of(1), 500))
        return sheet
    return draw


CUT = {form: cut_sheet(form) for form in CUTS}

# ------------------------------------------------------------------ credits

CREDITED = ("above_peak", "equal_to_peak", "one_below_peak", "at_a_band_edge", "past_the_ceiling", "two_producers",
            "drawn")


def credit_sheet(form):
    """Several bilateral rows of one pair, with support rows and rows to others between them."""
    def draw(rng):
        month = draw_month(rng)
        consumers = rng.choice((1, 3, MOST_CONSUMERS))
        buyer = rng.randrange(consumers)
        producers = 2 if form == "two_producers" else 1
        sheet = Sheet(month, [full_producer(month) for _ in range(producers)], [], [])
        sheet.consumers = [draw_consumer(rng, month, 1000) for _ in range(consumers)]
        most = 60_000 if form == "past_the_ceiling" else 4000
        for _ in range(rng.randrange(2, 5)):
            sheet.rows.append(Row(rng.randrange(producers), buyer, rng.randrange(most // 2, most), draw_price(rng)))
            other = rng.choice((SINGLE_BUYER, rng.randrange(consumers)))
            sheet.rows.append(Row(rng.randrange(producers), other, rng.randrange(1000), draw_price(rng)))
        credit = sum(row.volume for row in sheet.rows if row.consumer == buyer)
        consumer = sheet.consumers[buyer]
        if form == "equal_to_peak":
            consumer.peak = capacity(credit)
        elif form == "one_below_peak":
            consumer.peak = capacity(credit + 1)
        elif form == "at_a_band_edge":
            consumer.contract, counted = peak_at(rng, rng.choice(EDGES), rng.choice(SIDES))
            consumer.peak = capacity(counted + credit)
        elif form == "drawn":
            sheet.producers[0].given = [draw_coefficient(rng) for _ in range(6)]
            consumer.contract, counted = peak_at(rng, rng.choice(EDGES), rng.choice(SIDES))
            consumer.peak = capacity(counted + rng.randrange(credit + 1))
        else:
            consumer.peak = rng.randrange(min(credit, TOP_CAPACITY))
        return sheet
    return draw


CREDITS = {form: credit_sheet(form) for form in CREDITED}

# ------------------------------------------------------------------ the largest sheets


def full_counts(rng, month=None):
    return draw_sheet(rng, MOST_PRODUCERS, MOST_ROWS, MOST_CONSUMERS, month)


def full_counts_31_days(rng):
    return full_counts(rng, Month(31, rng.randrange(1, 8), 0))


def full_ceilings(rng):
    """The largest payments and charges in the largest sheet."""
    month = draw_month(rng)
    rows = [Row(number % MOST_PRODUCERS, SINGLE_BUYER, TOP_CAPACITY, TOP_PRICE) for number in range(MOST_ROWS)]
    consumers = [Consumer(0, TOP_CAPACITY, month.days, month.days, TOP_Z, TOP_PRICE) for _ in range(MOST_CONSUMERS)]
    return Sheet(month, [full_producer(month) for _ in range(MOST_PRODUCERS)], rows, consumers)


def full_of_edges(rng):
    """Each consumer at a corner of the bands after its credit, and all rows bilateral."""
    month = draw_month(rng)
    producers = [full_producer(month) for _ in range(MOST_PRODUCERS)]
    sheet = Sheet(month, producers, [], [])
    for number in range(MOST_CONSUMERS):
        contract, counted = rng.choice(list(PEAKS.values()))(rng)
        credit = rng.randrange(min(TOP_CAPACITY - counted, 5000) + 1)
        sheet.rows.append(Row(rng.randrange(MOST_PRODUCERS), number, credit, draw_price(rng)))
        sheet.consumers.append(plain_consumer(rng, contract, counted + credit))
    return sheet


LARGEST = {corner.__name__: corner for corner in (full_counts, full_counts_31_days, full_ceilings, full_of_edges)}

# ------------------------------------------------------------------ slips and ordinary months


def five_percent_once(rng):
    """A consumer in a band above 0: 5 percent taken off once only would give more."""
    contract = rng.randrange(100, 40_000)
    return Sheet(draw_month(rng), [], [], [plain_consumer(rng, contract, int(contract * rng.uniform(1.12, 2.0)))])


def factors_rounded(rng):
    """Both mining days and z: factors rounded one by one would give another volume."""
    month = draw_month(rng)
    consumer = five_percent_once(rng).consumers[0]
    consumer.supplier_days, consumer.grid_days = rng.randrange(1, month.days), rng.randrange(1, month.days)
    consumer.z = rng.randrange(LOWEST_Z + 1, TOP_Z)
    return Sheet(month, [], [], [consumer])


def both_bids_missing(rng):
    """Multiplying the two bid ratios would give less."""
    month = draw_month(rng)
    producer = full_producer(month)
    producer.missing = [rng.randrange(10, 200), rng.randrange(10, 200), 0]
    return one_row_sheet(rng, month, producer, rng.randrange(1000, TOP_CAPACITY))


def use_in_hour_23(rng):
    """Outside use is high only from 23:00 to 24:00, or in every hour but that one."""
    month = draw_month(rng, control_days=1)
    producer = full_producer(month)
    producer.deductible = rng.randrange(1000, 10_000)
    low, high, late = rng.choice(((0.4, 0.6, 9), (1.2, 1.4, 0)))
    producer.outside = spread(rng, month, int(producer.deductible * low), int(producer.deductible * high))
    producer.outside[23::24] = array("I", [capacity(producer.deductible * late)]) * month.days
    return one_row_sheet(rng, month, producer, rng.randrange(50_000, TOP_CAPACITY))


def cut_beside_k4(rng):
    """Possible power is S before the cut: a k4 with that S, as document 01 had it, would be lower."""
    month = draw_month(rng)
    producer = full_producer(month)
    volume = rng.randrange(10_000, TOP_CAPACITY)
    producer.possible = flat(month, volume)
    producer.working = spread(rng, month, volume // 2, volume)
    producer.attested, producer.own_needs = rng.randrange(volume // 2, volume), 0
    return one_row_sheet(rng, month, producer, volume)


SLIPS = {corner.__name__: corner for corner in (
    five_percent_once, factors_rounded, both_bids_missing, use_in_hour_23, cut_beside_k4)}


def ordinary_month(rng):
    producers = rng.choices((0, 1, 2, rng.randrange(3, MOST_PRODUCERS + 1)), (20, 55, 20, 5))[0]
    return draw_sheet(rng, producers, rng.randrange(9) if producers else 0, rng.randrange(7))


ORDINARY = {"ordinary_month": ordinary_month}

# ------------------------------------------------------------------ document 01's checked months


def checked_consumer(contract, peak):
    return Sheet(Month(30, 1, 0), [], [], [Consumer(contract, peak, 0, 0, LOWEST_Z, 100_000)])


def checked_producer(attested=1100, outside=100, all_else_full=False):
    """The producer of the checked months; if all else is full, k1 alone is below 1."""
    month = Month(30, 1, 0)
    missing, working = ([0, 0, 0], 1100) if all_else_full else ([72, 36, 0], 990)
    producer = Producer(attested, 100, 0, missing, [ONE] * 6,
                        flat(month, working), flat(month, 1100), flat(month, outside))
    return Sheet(month, [producer], [Row(0, SINGLE_BUYER, 1000, 100_000)], [])


# Name, sheet, the figures that the paper gives: a consumer's actual volume, or a row's volume after the cut and
# actual volume. Where the paper gives k1, the actual volume is 100.0 × k1, rounded: 0.9685 makes 96.9.
CHECKED = [(f"peak_{peak / 10}", checked_consumer(1000, peak), volume) for peak, volume in (
    (1050, 1000), (1100, 1000), (1101, 1001), (1250, 1195), (1251, 1227), (1260, 1240), (1450, 1525), (1451, 1597),
    (1550, 1765), (1551, 1902))]
CHECKED.append(("no_contract", checked_consumer(0, 10), 20))
CHECKED.append(("producer", checked_producer(), (1000, 810)))
CHECKED.append(("producer_cut", checked_producer(attested=1050), (950, 806)))  # as request 8 has it
for outside, volume in ((105, 1000), (120, 974), (121, 969)):
    CHECKED.append((f"k1_at_{outside / 10}", checked_producer(outside=outside, all_else_full=True), (1000, volume)))


def always(sheet):
    return lambda rng: sheet


CHECKED_MONTHS = {name: always(sheet) for name, sheet, _ in CHECKED}
