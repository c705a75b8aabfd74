"""Sheets of version 3, each drawn to reach a corner of request 7: a producer's hours as three columns.

They are accepted, and powers differ from hour to hour, or one power differs from the others of its column, so that one
that is read at another place shows. Or they are refused by 9, for one power at an end of a column.
"""
from drawing import draw_sheet, flat, full_producer, one_row_sheet, spread, summed
from records import CONTROL_HOURS, HOUR_FIELDS, TOP_CAPACITY
from refused import first_of, last_of, power_of
from row_days import LENGTHS, month_of
from versions import by_columns

SERIES = tuple(field.key for field in HOUR_FIELDS)


def plain_sheet(rng, days):
    """One producer that works with S or more in every hour and has no outside use beyond its deductible capacity. Its
    row is so large that one hour can show there."""
    month = month_of(rng, days)
    producer = full_producer(month)
    producer.deductible = rng.randrange(2000, 9000)
    producer.outside = flat(month, producer.deductible)
    return one_row_sheet(rng, month, producer, rng.randrange(50_000, 90_000))


# ------------------------------------------------------------------ powers that differ from hour to hour


def powers_differ(days):
    """In no order: another order of columns, or a column that is begun elsewhere, shows."""
    def draw(rng):
        sheet = plain_sheet(rng, days)
        producer, month, whole = sheet.producers[0], sheet.month, summed(sheet, 0)
        producer.working = spread(rng, month, whole // 2, whole)
        producer.possible = spread(rng, month, whole * 3 // 4, min(whole * 5 // 4, TOP_CAPACITY))
        producer.outside = spread(rng, month, producer.deductible, 2 * producer.deductible)
        return sheet
    return draw


# ------------------------------------------------------------------ one power that differs


def one_working(rng, sheet, hour):
    """Less works than half of S."""
    sheet.producers[0].working[hour] = rng.randrange(summed(sheet, 0) // 2)


def one_possible(rng, sheet, hour):
    """All that is possible works; in other hours half of S."""
    producer, half = sheet.producers[0], summed(sheet, 0) // 2
    producer.working = flat(sheet.month, half)
    producer.possible[hour] = rng.randrange(half // 2, half + 1)


def one_outside(rng, sheet, hour):
    sheet.producers[0].outside[hour] = rng.randrange(TOP_CAPACITY // 2, TOP_CAPACITY + 1)


def on_control_day(hour):
    """This hour of a control day."""
    return lambda rng, month: hour - CONTROL_HOURS.start + rng.choice(month.control_hours()[::len(CONTROL_HOURS)])


ENDS = {"first_hour": lambda rng, month: 0, "last_hour": lambda rng, month: month.hours - 1}
# The control hours of a day have ends too, and hours beside them that do not count.
CONTROL_ENDS = {f"hour_{hour}": on_control_day(hour) for end in (CONTROL_HOURS.start, CONTROL_HOURS.stop)
                for hour in (end - 1, end)}


def singled_out(differ, hour_of):
    def draw(rng):
        sheet = plain_sheet(rng, rng.choice(LENGTHS))
        differ(rng, sheet, hour_of(rng, sheet.month))
        return sheet
    return draw


def noughts_beside(name):
    """One column alone has powers."""
    def draw(rng):
        sheet = plain_sheet(rng, rng.choice(LENGTHS))
        for each in SERIES:
            setattr(sheet.producers[0], each, flat(sheet.month, summed(sheet, 0) if each == name else 0))
        return sheet
    return draw


# ------------------------------------------------------------------ 9 by column


def high_power(name, place):
    """One power too high, at an end of a column of the first or the last producer."""
    def draw(rng):
        sheet = draw_sheet(rng, rng.randrange(1, 4), rng.randrange(3), rng.randrange(3))
        power_of(name, place)(rng, sheet, rng.choice((first_of, last_of)))
        return sheet
    return draw


COLUMNS = by_columns({
    **{f"powers_differ_in_{days}": powers_differ(days) for days in LENGTHS},
    **{f"{differ.__name__}_{name}": singled_out(differ, hour_of)
       for differ, hours in ((one_working, ENDS), (one_possible, ENDS), (one_outside, CONTROL_ENDS))
       for name, hour_of in hours.items()},
    **{f"noughts_beside_{name}": noughts_beside(name) for name in SERIES},
})
HIGH_COLUMNS = by_columns({f"{name}_{place}_hour": high_power(name, place)
                           for name in SERIES for place in ("first", "last")})
