"""Kinds of sheets with a complex's record that are turned down, by every cause that request 3 names; several rules at
once; damaged records and sheets.

A corner draws a sheet and a record; either may be bytes, where it is damaged.
"""
from array import array

import refused
from drawing import draw_month
from powers import ABOVE, AMONG, draw_hour
from records import COMPLEX_FRONT, COMPLEX_HOUR, MOST_CONSUMERS, TOP_CAPACITY, Month, Sheet, complex_length
from refusals import BAD_RECORD, HIGH_POWER, TRIED_IN_RECORD
from refused import LARGEST_4, above
from refused_changes import LAST_OF_SHEET, OF_SHEET, damaged_kinds, one_byte_changed, refused_sheets
from taken_records import plain_record, some_sheet

DAY = 24 * COMPLEX_HOUR

# ------------------------------------------------------------------ what a record is drawn for


class Known:
    """A sheet's month and how many consumers it has. Of bytes neither is known; of a sheet that is turned down the
    month may be one that does not exist."""

    def __init__(self, sheet):
        known = isinstance(sheet, Sheet)
        self.month = sheet.month._replace(days=max(1, sheet.month.days)) if known else Month(30, 1, 0)
        self.consumers = len(sheet.consumers) if known else 1

    def good_record(self, rng):
        return plain_record(rng, self.month, rng.randrange(max(1, self.consumers)))


# ------------------------------------------------------------------ 16: length and consumer

# A cause takes a random.Random, what is known of the sheet, and a record that is good for it or breaks 17. It gives the
# record with the cause in it, or bytes.


def first_bytes(count):
    return lambda rng, known, record: record.to_bytes()[:count]


def eight_bytes_that_say_8(rng, known, record):
    return (8).to_bytes(4, "big") + record.to_bytes()[4:8]


def front_alone(rng, known, record):
    """9 bytes that say 9."""
    record.drawn = record.sent = array("I")
    return record


def length_stated(change):
    def cause(rng, known, record):
        record.stated_length = change(len(record.to_bytes())) % 2 ** 32
        return record
    return cause


def bytes_lost(count):
    """Bytes at the end, of which the length field still speaks."""
    def cause(rng, known, record):
        record.stated_length, record.lost = len(record.to_bytes()), count
        return record
    return cause


def bytes_added(count):
    """Bytes at the end, of which the length field does not speak."""
    def cause(rng, known, record):
        record.stated_length, record.surplus = len(record.to_bytes()), bytes(count)
        return record
    return cause


def fewer_bytes(count):
    """Bytes at the end that are left out, as the length field says: the record of no month, or of another one."""
    def cause(rng, known, record):
        record.lost = count
        return record
    return cause


def more_bytes(count):
    def cause(rng, known, record):
        record.surplus = bytes(count)
        return record
    return cause


def of_another_month(rng, known, record):
    """Whole, and of 28 to 31 days, but not of as many as this month has."""
    days = rng.choice([days for days in range(28, 32) if days != known.month.days])
    record.drawn, record.sent = (array("I", (powers * 2)[:24 * days]) for powers in (record.drawn, record.sent))
    return record


def consumer_is(choose):
    def cause(rng, known, record):
        record.consumer = choose(known.consumers)
        return record
    return cause


TOO_SHORT = {"no_bytes": first_bytes(0), "one_byte": first_bytes(1), "four_bytes": first_bytes(4),
             "eight_bytes": first_bytes(8), "eight_bytes_that_say_8": eight_bytes_that_say_8}
CAUSES_16 = {
    "front_alone": front_alone, "front_alone_of_a_longer": first_bytes(COMPLEX_FRONT),
    "length_one_more": length_stated(lambda true: true + 1), "length_one_less": length_stated(lambda true: true - 1),
    "length_a_day_more": length_stated(lambda true: true + DAY), "length_nought": length_stated(lambda true: 0),
    "length_all_ones": length_stated(lambda true: LARGEST_4),
    "length_65536_more": length_stated(lambda true: true + 65536),
    "length_lowest_byte_first": length_stated(refused.backwards),
    **{f"{name}_{what}": cause(count) for what, cause in (("lost", bytes_lost), ("added", bytes_added),
                                                          ("less", fewer_bytes), ("more", more_bytes))
       for name, count in (("a_byte", 1), ("an_hour", COMPLEX_HOUR), ("a_day", DAY))},
    "another_month": of_another_month,
    "consumer_next": consumer_is(lambda count: count), "consumer_255": consumer_is(lambda count: 255),
}

# ------------------------------------------------------------------ 17: a power above the ceiling

# A cause takes a random.Random, what is known of the sheet, and a good record, and puts a power above the ceiling into
# it.


def imported_above(choose):
    def cause(rng, known, record):
        record.imported = choose(rng)
        return record
    return cause


def hours_at(month):
    """Kinds of places in a month; in one without a control day, some other hour."""
    control = month.control_hours() or [20]
    outside = sorted(set(range(month.hours)) - set(control))
    return {"first_hour": [0], "last_hour": [month.hours - 1], "first_control_hour": control[:1],
            "last_control_hour": control[-1:], "a_control_hour": control, "an_hour_outside": outside}


def power_above(name, place):
    """A power drawn or sent out in an hour of this kind."""
    def cause(rng, known, record):
        getattr(record, name)[rng.choice(hours_at(known.month)[place])] = above(rng, TOP_CAPACITY, LARGEST_4)
        return record
    return cause


def power_is(among, figure):
    """Some power of the hours is this figure, among powers that are low, some of them high, or all high."""
    def cause(rng, known, record):
        record.drawn, record.sent = (AMONG[among](rng, known.month) for _ in range(2))
        rng.choice((record.drawn, record.sent))[draw_hour(rng, known.month.hours)] = figure
        return record
    return cause


def all_above(rng, known, record):
    record.imported = TOP_CAPACITY + 1
    record.drawn = record.sent = array("I", [LARGEST_4]) * known.month.hours
    return record


CAUSES_17 = {
    "imported_next": imported_above(lambda rng: TOP_CAPACITY + 1),
    "imported_above": imported_above(lambda rng: above(rng, TOP_CAPACITY, LARGEST_4)),
    **{f"imported_{figure}": imported_above(lambda rng, figure=figure: figure) for figure in ABOVE[1:]},
    **{f"{name}_{place}": power_above(name, place)
       for name in ("drawn", "sent") for place in hours_at(Month(28, 1, 0))},
    **{f"{figure}_among_{among}": power_is(among, figure) for among in AMONG for figure in ABOVE},
    "all_above": all_above,
}

# ------------------------------------------------------------------ records that are turned down


def faulty_record(cause, consumers=None):
    def draw(rng):
        sheet = some_sheet(rng, draw_month(rng), consumers)
        known = Known(sheet)
        return sheet, cause(rng, known, known.good_record(rng))
    return draw


def unchanged(rng, known, record):
    """Where the sheet alone is the cause."""
    return record


RECORD_16 = {name: faulty_record(cause) for name, cause in {**TOO_SHORT, **CAUSES_16}.items()}
RECORD_16.update(consumer_32_of_32=faulty_record(CAUSES_16["consumer_next"], MOST_CONSUMERS),
                 no_consumers=faulty_record(unchanged, 0))
RECORD_17 = {name: faulty_record(cause) for name, cause in CAUSES_17.items()}

# ------------------------------------------------------------------ sheets that are turned down, several rules at once


def with_record(draw_sheet, causes=(unchanged,)):
    """A sheet that is turned down, with a record that would be taken, or turned down by one of these causes."""
    def draw(rng):
        sheet = draw_sheet(rng)
        known = Known(sheet)
        return sheet, rng.choice(causes)(rng, known, known.good_record(rng))
    return draw


def turned_down_by(number):
    return lambda rng: rng.choice(list(refused.REFUSALS[number].values()))(rng)


def both_in_record(cause):
    """A power above the ceiling, and a cause of 16. It stands in front, so that lost bytes are others."""
    earlier = [CAUSES_17[name] for name in ("imported_next", "imported_above")]
    earlier += [CAUSES_17[f"{name}_first_hour"] for name in ("drawn", "sent")]

    def draw(rng):
        sheet = some_sheet(rng)
        known = Known(sheet)
        return sheet, cause(rng, known, rng.choice(earlier)(rng, known, known.good_record(rng)))
    return draw


CAUSES = {BAD_RECORD: {**TOO_SHORT, **CAUSES_16}, HIGH_POWER: CAUSES_17}
SEVERAL_RULES = {f"{first}_and_{later}": with_record(turned_down_by(first), list(CAUSES[later].values()))
                 for first in OF_SHEET for later in TRIED_IN_RECORD}
# Each cause of 16 with the last of the sheet's numbers: whatever is tried before that one is found out.
SEVERAL_RULES.update((f"{last}_and_{BAD_RECORD}_{name}", with_record(turned_down_by(last), [cause]))
                     for last in LAST_OF_SHEET for name, cause in CAUSES[BAD_RECORD].items())
SEVERAL_RULES.update((f"{BAD_RECORD}_{name}_and_{HIGH_POWER}", both_in_record(cause))
                     for name, cause in CAUSES_16.items())

# ------------------------------------------------------------------ damaged records and sheets


def front_changed(rng, content):
    front = content[:COMPLEX_FRONT]
    one_byte_changed(rng, front)
    content[:COMPLEX_FRONT] = front


def any_hours(rng, content):
    """A true front, and any bytes after it."""
    count = len(content) - COMPLEX_FRONT
    content[COMPLEX_FRONT:] = rng.getrandbits(8 * count).to_bytes(count, "big")


def another_whole_length(rng, content):
    """The length field of another count of days, the bytes of this one."""
    content[:4] = complex_length(rng.randrange(33)).to_bytes(4, "big")


DAMAGED = damaged_kinds([front_changed, any_hours, another_whole_length], faulty_record(unchanged), with_record)
REFUSED_SHEETS = refused_sheets(with_record)
