"""Kinds of sheets with a complex's record whose peak is written, each drawn to reach a corner of request 3.

A corner draws a Sheet and a ComplexRecord. Most sheets have no producers, so that they are short.
"""
from array import array

from accepted import LARGEST, all_months, month_in_form
from complex_records import ComplexRecord, average_of, peak_of
from drawing import capacity, draw_month, draw_sheet, flat, spread, with_sum
from powers import AMONG, AT_MOST, draw_hour
from records import CONTROL_HOURS, MOST_CONSUMERS, TOP_CAPACITY, Month
from versions import in_version

# ------------------------------------------------------------------ sheets and records


def some_sheet(rng, month=None, consumers=None):
    """Consumers alone, one or more, in a month that as a rule has control days."""
    if consumers is None:
        consumers = rng.choice((1, 2, 2, 3, 4, rng.randrange(1, MOST_CONSUMERS), MOST_CONSUMERS))
    return in_version(rng, draw_sheet(rng, 0, 0, consumers, month or draw_month(rng, control_days=1)))


def some_consumer(rng, sheet):
    return rng.choice((0, len(sheet.consumers) - 1, rng.randrange(len(sheet.consumers))))


def with_net(rng, month, net):
    """Powers drawn and sent out that leave this net power; where it is 0, more may be sent out than is drawn."""
    most = rng.choice((0, 1, 100, 10_000, TOP_CAPACITY))
    sent = array("I", map(min, spread(rng, month, 0, most), (TOP_CAPACITY - left for left in net)))
    drawn = array("I", map(int.__add__, net, sent))
    if rng.random() < 0.5:
        for hour, more in enumerate(spread(rng, month, 0, most)):
            if net[hour] == 0:
                sent[hour] = min(sent[hour] + more, TOP_CAPACITY)
    return drawn, sent


def record_for(rng, sheet, net, imported=0):
    return ComplexRecord(some_consumer(rng, sheet), imported, *with_net(rng, sheet.month, net))


def some_average(rng):
    """Any, or one at which a byte is carried, or near the ceiling; above 0."""
    form = rng.random()
    if form < 0.2:
        return rng.choice((1, 2, 255, 256, 257, 65_535, 65_536, 65_537))
    if form < 0.3:
        return TOP_CAPACITY - rng.randrange(700, 1000)
    return rng.randrange(1, rng.choice((100, 10_000, 90_000)))


def plain_record(rng, month, consumer):
    """Powers at will, so that some hours have none left."""
    scale = rng.choice((10, 1000, 30_000, TOP_CAPACITY))
    low = rng.choice((0, scale // 2))
    drawn, sent = spread(rng, month, low, scale), spread(rng, month, 0, rng.choice((0, scale // 3, scale)))
    return ComplexRecord(consumer, rng.choice((0, 0, rng.randrange(scale), rng.randrange(scale // 5))), drawn, sent)


def ordinary(rng):
    sheet = some_sheet(rng, draw_month(rng))
    return sheet, plain_record(rng, sheet.month, some_consumer(rng, sheet))


# ------------------------------------------------------------------ the average and how it is rounded

# What is left when the sum of net power is divided by the count of control hours, which is even.
RESTS = {
    "no_rest": lambda count: 0, "rest_1": lambda count: 1, "rest_below_half": lambda count: count // 2 - 1,
    "rest_half": lambda count: count // 2, "rest_above_half": lambda count: count // 2 + 1,
    "rest_one_less": lambda count: count - 1,
}


def net_with_rest(rng, month, rest, average=None):
    count = len(month.control_hours())
    return with_sum(rng, month, count * (average or some_average(rng)) + RESTS[rest](count))


def rounding(rest):
    def draw(rng):
        sheet = some_sheet(rng)
        record = record_for(rng, sheet, net_with_rest(rng, sheet.month, rest))
        record.imported = rng.choice((0, 0, 1, rng.randrange(average_of(sheet.month, record) + 1)))
        return sheet, record
    return draw


def one_more_sent_than_drawn(rng):
    """In one control hour. The sum lies on a half; were that hour below 0, it would lie below it."""
    sheet = some_sheet(rng)
    net = net_with_rest(rng, sheet.month, "rest_half", rng.randrange(1, 40_000))
    one, other = rng.sample(sheet.month.control_hours(), 2)
    net[one], net[other] = 0, net[one] + net[other]
    record = record_for(rng, sheet, net)
    record.drawn[one] = rng.randrange(TOP_CAPACITY)
    record.sent[one] = record.drawn[one] + 1
    return sheet, record


# ------------------------------------------------------------------ imported power

# Against the rounded average.
IMPORTED = {
    "imported_one_below": lambda average: average - 1, "imported_equal": lambda average: average,
    "imported_one_above": lambda average: average + 1, "imported_at_the_ceiling": lambda average: TOP_CAPACITY,
    "imported_half": lambda average: average // 2, "imported_1": lambda average: 1,
}


def imported_power(choose):
    def draw(rng):
        sheet = some_sheet(rng)
        record = record_for(rng, sheet, net_with_rest(rng, sheet.month, rng.choice(list(RESTS))))
        record.imported = capacity(choose(average_of(sheet.month, record)))
        return sheet, record
    return draw


def half_above_imported(rng):
    """The average is imported power and a half, so the peak is 0.1 MW."""
    sheet, average = some_sheet(rng), some_average(rng)
    return sheet, record_for(rng, sheet, net_with_rest(rng, sheet.month, "rest_half", average), average)


def imported_without_net_power(rng):
    sheet = some_sheet(rng)
    return sheet, record_for(rng, sheet, flat(sheet.month, 0), rng.choice((0, 1, TOP_CAPACITY)))


# ------------------------------------------------------------------ power sent out


def sent_out(least, most):
    """In every hour so much above the power drawn, from least to most, which may lie below 0."""
    def draw(rng):
        sheet = some_sheet(rng)
        drawn = spread(rng, sheet.month, max(0, -least), min(TOP_CAPACITY, TOP_CAPACITY - most))
        above = spread(rng, sheet.month, 0, most - least)
        sent = array("I", [power + least + more for power, more in zip(drawn, above)])
        return sheet, ComplexRecord(some_consumer(rng, sheet), rng.choice((0, 0, 1)), drawn, sent)
    return draw


def sent_out_by_turns(rng):
    """Far more than is drawn in every second control hour, nothing in the others: sums alone would leave nothing."""
    sheet, power = some_sheet(rng), rng.randrange(1, 30_000)
    drawn, sent = spread(rng, sheet.month, power, 2 * power), flat(sheet.month, 0)
    for hour in sheet.month.control_hours()[::2]:
        sent[hour] = 3 * power
    return sheet, ComplexRecord(some_consumer(rng, sheet), 0, drawn, sent)


# ------------------------------------------------------------------ hours that count and hours that do not


def on_days(wanted, hours):
    """These hours of the days that are wanted."""
    return lambda month: [24 * day + hour for day in range(month.days) if wanted(month, day) for hour in hours]


def working_weekday(month, day):
    return (month.weekday - 1 + day) % 7 < 5


def holiday(month, day):
    return month.holidays >> day & 1


def control_day(month, day):
    return working_weekday(month, day) and not holiday(month, day)


SINGLED_OUT = {f"hour_{hour}": on_days(control_day, [hour]) for hour in (0, 16, 17, 22, 23)}
SINGLED_OUT.update({
    "weekends": on_days(lambda month, day: not working_weekday(month, day), CONTROL_HOURS),
    "holidays": on_days(lambda month, day: holiday(month, day) and working_weekday(month, day), CONTROL_HOURS),
    "first_control_day": lambda month: month.control_hours()[:6],
    "last_control_day": lambda month: month.control_hours()[-6:],
    "first_hour": lambda month: [0], "last_hour": lambda month: [month.hours - 1],
})


def singled_out(hours_of):
    """Net power is high in these hours and low in all others, or the other way round."""
    def draw(rng):
        month = draw_month(rng, control_days=1)
        while not hours_of(month):
            month = draw_month(rng, control_days=1)
        sheet = some_sheet(rng, month)
        low, high = (0, 100), (20_000, TOP_CAPACITY)
        usual, other = rng.choice(((low, high), (high, low)))
        net, others = spread(rng, month, *usual), spread(rng, month, *other)
        for hour in hours_of(month):
            net[hour] = others[hour]
        return sheet, record_for(rng, sheet, net)
    return draw


def without_control_day(form):
    def draw(rng):
        sheet = some_sheet(rng, month_in_form(rng, rng.randrange(28, 32), rng.randrange(1, 8), form))
        return sheet, plain_record(rng, sheet.month, some_consumer(rng, sheet))
    return draw


# ------------------------------------------------------------------ peaks and consumers


def highest_peak(rng):
    """10,000.0 MW, and now and then a little imported power."""
    sheet = some_sheet(rng)
    net = spread(rng, sheet.month, 0, TOP_CAPACITY)
    for hour in sheet.month.control_hours():
        net[hour] = TOP_CAPACITY
    return sheet, record_for(rng, sheet, net, rng.choice((0, 0, 1)))


def everything_at_the_ceiling(rng):
    sheet = some_sheet(rng)
    top = flat(sheet.month, TOP_CAPACITY)
    return sheet, ComplexRecord(some_consumer(rng, sheet), TOP_CAPACITY, top, top)


def peak_is(figure):
    """Bytes of the peak are carried here."""
    def draw(rng):
        sheet, imported = some_sheet(rng), rng.choice((0, 1, rng.randrange(30_000)))
        return sheet, record_for(rng, sheet, net_with_rest(rng, sheet.month, "no_rest", figure + imported), imported)
    return draw


def peak_before(change):
    """The sheet's peak against the one that comes out."""
    def draw(rng):
        sheet = some_sheet(rng)
        record = plain_record(rng, sheet.month, some_consumer(rng, sheet))
        sheet.consumers[record.consumer].peak = capacity(peak_of(sheet.month, record) + change)
        return sheet, record
    return draw


def consumer_of(number, count):
    """The complex is this consumer, counted from the last if below 0."""
    def draw(rng):
        sheet = some_sheet(rng, consumers=count)
        return sheet, plain_record(rng, sheet.month, number % count)
    return draw


def power_is(among, figure):
    """Some power of the record is this figure, which is at most the ceiling."""
    def draw(rng):
        sheet = some_sheet(rng)
        series = [AMONG[among](rng, sheet.month) for _ in range(2)]
        for _ in range(rng.choice((1, 2, 50))):
            powers = rng.choice(series)
            powers[draw_hour(rng, len(powers))] = figure
        return sheet, ComplexRecord(some_consumer(rng, sheet), rng.choice((0, figure)), *series)
    return draw


# ------------------------------------------------------------------ months, longer sheets


def in_month(rng, month):
    """Net power differs from hour to hour, so that a wrong choice of control hours shows in the peak."""
    sheet = some_sheet(rng, month)
    return sheet, record_for(rng, sheet, spread(rng, month, 0, rng.randrange(2000, TOP_CAPACITY)))


def with_record(draw_longer):
    def draw(rng):
        sheet = in_version(rng, draw_longer(rng))
        return sheet, plain_record(rng, sheet.month, some_consumer(rng, sheet))
    return draw


def behind_producers(rng):
    """The consumers stand behind producers and rows."""
    return draw_sheet(rng, rng.randrange(1, 3), rng.randrange(5), rng.randrange(1, 6))


def largest_with_most_control_days(rng):
    return draw_sheet(rng, 6, 32, MOST_CONSUMERS, Month(31, 1, 0))


TAKEN = {
    "ordinary": ordinary,
    **{rest: rounding(rest) for rest in RESTS},
    **{name: imported_power(choose) for name, choose in IMPORTED.items()},
    "sent_out_equal": sent_out(0, 0), "sent_out_one_above": sent_out(1, 1), "sent_out_one_below": sent_out(-1, -1),
    "sent_out_above": sent_out(1, 5000), "sent_out_about_as_much": sent_out(-300, 300),
    **{f"{name}_singled_out": singled_out(hours_of) for name, hours_of in SINGLED_OUT.items()},
    **{form: without_control_day(form) for form in ("all_holidays", "no_working_day")},
    **{f"peak_{figure}": peak_is(figure) for figure in (1, 255, 256, 65_535, 65_536)},
    "peak_kept": peak_before(0), "peak_one_lower": peak_before(1), "peak_one_higher": peak_before(-1),
    "only_consumer": consumer_of(0, 1), "first_of_32": consumer_of(0, MOST_CONSUMERS),
    "last_of_32": consumer_of(-1, MOST_CONSUMERS), "second_of_three": consumer_of(1, 3),
    **{f"{figure}_among_{among}": power_is(among, figure) for among in AMONG for figure in AT_MOST},
}
TAKEN.update((corner.__name__, corner) for corner in (
    one_more_sent_than_drawn, half_above_imported, imported_without_net_power, sent_out_by_turns, highest_peak,
    everything_at_the_ceiling))
MONTHS = dict(all_months(in_month))
LONG = {"behind_producers": with_record(behind_producers),
        "largest_with_most_control_days": with_record(largest_with_most_control_days),
        **{name: with_record(draw) for name, draw in LARGEST.items()}}
