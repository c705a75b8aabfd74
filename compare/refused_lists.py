"""Kinds of sheets with a list of transfers that are turned down, by every cause that request 1 names; several rules at
once; damaged lists and sheets.

A corner draws a sheet and a list; either may be bytes, where it is damaged.
"""
from functools import wraps

import refused
from applied_lists import (Turns, filing_day, sheet_of, sheet_with, so_many_entries, some_entries, some_sheet,
                           volumes_of)
from drawing import capacity
from records import ENTRY, FRONT, MOST_CONSUMERS, TOP_CAPACITY, Sheet, Transfer
from refusals import BAD_LIST, FILED_LATE, LAST_DAY, LAST_FILING_DAY, OVERDRAWN, TRIED_IN_LIST
from refused import LARGEST_4
from refused_changes import LAST_OF_SHEET, OF_SHEET, damaged_kinds, refused_sheets
from transfer_lists import TransferList

# ------------------------------------------------------------------ 13: the list's form

# A fault takes a random.Random and the contract volumes of a sheet, and draws a list. Of a sheet that is turned down
# there may be no volumes, or one.


def short_list(count):
    def fault(rng, volumes):
        return count.to_bytes(4, "big")[-count:] if count else b""
    return fault


def length_stated(change):
    def fault(rng, volumes):
        drawn = some_entries(rng, volumes).list()
        drawn.stated_length = change(len(drawn.to_bytes())) % 2 ** 32
        return drawn
    return fault


def bytes_lost(rng, volumes):
    """Some bytes or a whole entry, of which the length field still speaks."""
    drawn = some_entries(rng, volumes).list()
    drawn.stated_length = len(drawn.to_bytes())
    drawn.lost = min(rng.choice((1, ENTRY, rng.randrange(1, ENTRY + 1))), drawn.stated_length - FRONT)
    return drawn if drawn.lost else short_list(4)(rng, volumes)


def bytes_added(rng, volumes):
    """Some bytes or a whole entry, of which the length field does not speak."""
    drawn = some_entries(rng, volumes).list()
    drawn.stated_length = len(drawn.to_bytes())
    drawn.surplus = rng.choice((Transfer(1, 0, 1, 0).to_bytes(), bytes(rng.randrange(1, 20))))
    return drawn


def part_of_an_entry(count):
    def fault(rng, volumes):
        drawn = some_entries(rng, volumes).list()
        drawn.surplus = Transfer(1, 0, 1, 0).to_bytes()[:count]
        return drawn
    return fault


def list_version(version):
    def fault(rng, volumes):
        drawn = some_entries(rng, volumes).list()
        drawn.version = version
        return drawn
    return fault


def entry_put(draw_entry):
    """An entry that breaks a rule, before others that do not, behind them or among them."""
    def fault(rng, volumes):
        transfers = some_entries(rng, volumes, least=0, most=3).transfers
        place = rng.choice((0, len(transfers), rng.randrange(len(transfers) + 1)))
        return TransferList(transfers[:place] + [draw_entry(rng, volumes)] + transfers[place:])
    return fault


def behind_many(draw_entry):
    """An entry that breaks a rule, behind more than 256 that do not."""
    def fault(rng, volumes):
        return TransferList(some_entries(rng, volumes, least=257, most=300).transfers + [draw_entry(rng, volumes)])
    return fault


def usual_entry(rng, volumes):
    """An entry that breaks no rule of 13 or 14."""
    giver, taker = rng.sample(range(max(2, len(volumes))), 2)
    return Transfer(filing_day(rng), giver, taker, rng.choice((0, rng.randrange(TOP_CAPACITY))))


def entry_with(**figures):
    """An entry with some figures in place of the usual."""
    return lambda rng, volumes: usual_entry(rng, volumes)._replace(**figures)


def past_the_last(name):
    """An entry whose giver or taker is the number after the last consumer's."""
    return lambda rng, volumes: usual_entry(rng, volumes)._replace(**{name: len(volumes)})


def one_consumer_twice(rng, volumes):
    """Also with nothing moved, and with an amount that it has."""
    usual = usual_entry(rng, volumes)
    return usual._replace(taker=usual.giver, amount=rng.choice((0, 1, usual.amount)))


FAULTS_13 = {
    "no_bytes": short_list(0), "one_byte": short_list(1), "four_bytes": short_list(4),
    "length_one_more": length_stated(lambda true: true + 1), "length_one_less": length_stated(lambda true: true - 1),
    "length_an_entry_more": length_stated(lambda true: true + ENTRY), "length_nought": length_stated(lambda true: 0),
    "length_all_ones": length_stated(lambda true: LARGEST_4),
    "length_65536_more": length_stated(lambda true: true + 65536),
    "length_lowest_byte_first": length_stated(refused.backwards),
    "bytes_lost": bytes_lost, "bytes_added": bytes_added,
    **{f"{count}_bytes_of_an_entry": part_of_an_entry(count) for count in range(1, ENTRY)},
    **{f"version_{version}": list_version(version) for version in (0, 2, 255)},
    **{f"day_{day}": entry_put(entry_with(day=day)) for day in (0, LAST_DAY + 1, 255)},
    "giver_next": entry_put(past_the_last("giver")), "giver_255": entry_put(entry_with(giver=255)),
    "taker_next": entry_put(past_the_last("taker")), "taker_255": entry_put(entry_with(taker=255)),
    "one_consumer_twice": entry_put(one_consumer_twice), "behind_many": behind_many(past_the_last("taker")),
}

# ------------------------------------------------------------------ 14: filed late


def some_late_day(rng):
    return rng.randrange(LAST_FILING_DAY + 1, LAST_DAY + 1)


def late_entry(rng, volumes):
    return usual_entry(rng, volumes)._replace(day=some_late_day(rng))


def all_late(rng, volumes):
    transfers = some_entries(rng, volumes).transfers or [usual_entry(rng, volumes)]
    return TransferList([transfer._replace(day=some_late_day(rng)) for transfer in transfers])


FAULTS_14 = {
    "day_21": entry_put(entry_with(day=LAST_FILING_DAY + 1)), "day_31": entry_put(entry_with(day=LAST_DAY)),
    "some_day": entry_put(late_entry), "all_late": all_late, "behind_many": behind_many(late_entry),
    "nothing_moved": entry_put(entry_with(day=LAST_FILING_DAY + 1, amount=0)),
}

# ------------------------------------------------------------------ 15: overdrawn at its turn


def overdrawn(ask):
    """Entries that can be met, then one that cannot, then any. ask: the amount from giver and taker's volumes then."""
    def fault(rng, volumes):
        turns = Turns(rng, volumes if len(volumes) > 1 else (1000, 1000))
        turns.add_some(rng.choice((0, 0, 1, 4)))
        giver, taker = rng.sample(range(len(turns.volumes)), 2)
        unmet = Transfer(filing_day(rng), giver, taker, ask(rng, turns.volumes[giver], turns.volumes[taker]))
        behind = [usual_entry(rng, turns.volumes) for _ in range(rng.choice((0, 0, 1, 3)))]
        return TransferList(turns.transfers + [unmet] + behind)
    return fault


FAULTS_15 = {
    "one_more_than_the_giver_has": overdrawn(lambda rng, giver, taker: giver + 1),
    "far_more": overdrawn(lambda rng, giver, taker: rng.randrange(TOP_CAPACITY + 1, LARGEST_4)),
    "largest_amount": overdrawn(lambda rng, giver, taker: LARGEST_4),
    "highest_bit": overdrawn(lambda rng, giver, taker: 2 ** 31),
    # The taker's volume with the amount is 2^32 or a little more, which four bytes do not hold.
    "past_four_bytes": overdrawn(lambda rng, giver, taker: min(LARGEST_4, 2 ** 32 - taker + rng.randrange(3))),
    "behind_many": behind_many(entry_with(amount=TOP_CAPACITY + 1)),
}


def unmet(draw_moves):
    """As moves, but the last of the entries cannot be met. Those behind it would mend that, were they tried before."""
    @wraps(draw_moves)
    def draw(rng):
        volumes, entries, behind = draw_moves(rng)
        sheet, numbers = sheet_with(rng, volumes)
        return sheet, TransferList([Transfer(filing_day(rng), numbers[giver], numbers[taker], amount)
                                    for giver, taker, amount in entries + behind])
    return draw


@unmet
def giver_has_nothing(rng):
    return {"a": 0, "b": rng.randrange(TOP_CAPACITY), "c": 5000}, [("a", "b", 1)], [("c", "a", 1)]


@unmet
def taker_one_above(rng):
    amount = rng.randrange(1, TOP_CAPACITY + 1)
    return ({"a": rng.randrange(amount, TOP_CAPACITY + 1), "b": TOP_CAPACITY + 1 - amount, "c": 0},
            [("a", "b", amount)], [("b", "c", 1)])


@unmet
def taker_far_above(rng):
    return {"a": TOP_CAPACITY, "b": rng.randrange(2, TOP_CAPACITY + 1)}, [("a", "b", TOP_CAPACITY)], []


@unmet
def both_sides(rng):
    """The giver has less, and the taker would come above the ceiling."""
    amount = rng.randrange(2, TOP_CAPACITY)
    return {"a": rng.randrange(amount), "b": rng.randrange(TOP_CAPACITY + 1 - amount, TOP_CAPACITY + 1)}, [
        ("a", "b", amount)], []


@unmet
def emptied_before(rng):
    """It could be met before the list."""
    amount = rng.randrange(1, 40_000)
    return {"a": amount, "b": 0, "c": 0}, [("a", "b", amount), ("a", "c", 1)], [("b", "a", amount)]


@unmet
def filled_before(rng):
    """It could be met before the list."""
    amount = rng.randrange(1, TOP_CAPACITY + 1)
    return {"a": amount, "b": TOP_CAPACITY - amount, "c": 1}, [("a", "b", amount), ("c", "b", 1)], [("b", "a", 1)]


@unmet
def chain_in_the_other_order(rng):
    first, second = rng.randrange(1, 40_000), rng.randrange(40_000)
    return {"a": first, "b": second, "c": 0}, [("b", "c", second + 1)], [("a", "b", first)]


@unmet
def repeated_once_too_often(rng):
    times = rng.randrange(2, 8)
    amount = rng.randrange(1, TOP_CAPACITY // (times + 1))
    return {"a": amount * times + rng.randrange(amount), "b": 0}, [("a", "b", amount)] * (times + 1), []


# ------------------------------------------------------------------ lists that are turned down


def faulty_list(fault):
    def draw(rng):
        sheet = some_sheet(rng)
        return sheet, fault(rng, volumes_of(sheet))
    return draw


def consumer_32_of_32(name):
    def draw(rng):
        sheet = sheet_of(rng, MOST_CONSUMERS)
        return sheet, entry_put(entry_with(**{name: MOST_CONSUMERS}))(rng, volumes_of(sheet))
    return draw


def too_few_consumers(count):
    """No two consumers, so no entry is good."""
    def draw(rng):
        sheet = sheet_of(rng, count)
        return sheet, TransferList([Transfer(1, *rng.choice(((0, 1), (1, 0), (0, 0))), 0)])
    return draw


LIST_13 = {name: faulty_list(fault) for name, fault in FAULTS_13.items()}
LIST_13.update({
    "giver_32_of_32": consumer_32_of_32("giver"), "taker_32_of_32": consumer_32_of_32("taker"),
    "no_consumers": too_few_consumers(0), "one_consumer": too_few_consumers(1),
})
LIST_14 = {name: faulty_list(fault) for name, fault in FAULTS_14.items()}
LIST_15 = {name: faulty_list(fault) for name, fault in FAULTS_15.items()}
LIST_15.update((corner.__name__, corner) for corner in (
    giver_has_nothing, taker_one_above, taker_far_above, both_sides, emptied_before, filled_before,
    chain_in_the_other_order, repeated_once_too_often))
FAULTS = {BAD_LIST: FAULTS_13, FILED_LATE: FAULTS_14, OVERDRAWN: FAULTS_15}

# ------------------------------------------------------------------ sheets that are turned down, several rules at once


def volumes_known(sheet):
    """The contract volumes of a sheet that may be turned down, none above the ceiling; of bytes none are known."""
    return [capacity(volume) for volume in volumes_of(sheet)] if isinstance(sheet, Sheet) else []


def good_list(draw_sheet):
    """A list that could be applied, were the sheet not turned down."""
    def draw(rng):
        sheet = draw_sheet(rng)
        return sheet, some_entries(rng, volumes_known(sheet)).list()
    return draw


def sheet_and_list(number, faults):
    """A sheet that is turned down, with a list that would be."""
    def draw(rng):
        sheet = rng.choice(list(refused.REFUSALS[number].values()))(rng)
        return sheet, rng.choice(list(faults))(rng, volumes_known(sheet))
    return draw


def entry_behind(draw_entry):
    def put(rng, volumes, drawn):
        drawn.transfers.append(draw_entry(rng, volumes))
    return put


def length_of_an_entry_more(rng, volumes, drawn):
    drawn.stated_length = len(drawn.to_bytes()) + ENTRY


def part_of_an_entry_more(rng, volumes, drawn):
    drawn.surplus = bytes(3)


def version_2(rng, volumes, drawn):
    drawn.version = 2


# Each cause of 13 but too few bytes, to be put into a list behind an entry whose number is tried later.
CAUSES_13 = {
    "length": length_of_an_entry_more, "multiple": part_of_an_entry_more, "version": version_2,
    "day_0": entry_behind(entry_with(day=0)), "day_32": entry_behind(entry_with(day=LAST_DAY + 1)),
    "giver": entry_behind(past_the_last("giver")), "taker": entry_behind(past_the_last("taker")),
    "twice": entry_behind(one_consumer_twice),
}
LATER_ENTRIES = {FILED_LATE: late_entry, OVERDRAWN: entry_with(amount=TOP_CAPACITY + 1)}


def list_with_both(put_cause, later):
    """The entry whose number is tried later stands in front."""
    def draw(rng):
        sheet = some_sheet(rng)
        volumes = volumes_of(sheet)
        between = [usual_entry(rng, volumes) for _ in range(rng.choice((0, 0, 1, 4)))]
        drawn = TransferList([LATER_ENTRIES[later](rng, volumes)] + between)
        put_cause(rng, volumes, drawn)
        return sheet, drawn
    return draw


SEVERAL_RULES = {f"{first}_and_{later}": sheet_and_list(first, FAULTS[later].values())
                 for first in OF_SHEET for later in TRIED_IN_LIST}
# Each cause of 13 with the last of the sheet's numbers: whatever is tried before that one is found out.
SEVERAL_RULES.update((f"{last}_and_{BAD_LIST}_{name}", sheet_and_list(last, [fault]))
                     for last in LAST_OF_SHEET for name, fault in FAULTS_13.items())
SEVERAL_RULES.update((f"{BAD_LIST}_{name}_and_{later}", list_with_both(put_cause, later))
                     for name, put_cause in CAUSES_13.items() for later in LATER_ENTRIES)
SEVERAL_RULES[f"{FILED_LATE}_and_{OVERDRAWN}"] = list_with_both(entry_behind(late_entry), OVERDRAWN)

# ------------------------------------------------------------------ damaged lists and sheets


def any_entries(rng, content):
    """A true front, and any bytes after it."""
    count = ENTRY * rng.randrange(1, 20)
    content[:] = TransferList([], surplus=rng.getrandbits(8 * count).to_bytes(count, "big")).to_bytes()


DAMAGED = damaged_kinds([any_entries], so_many_entries(1, 5), good_list)
REFUSED_SHEETS = refused_sheets(good_list)
