"""Kinds of sheets with a list of transfers that is applied, each drawn to reach a corner of request 1.

A corner draws a Sheet and a TransferList. Most sheets have no producers, so that they are short.
"""
from functools import wraps

from accepted import LARGEST
from drawing import draw_sheet
from records import MOST_CONSUMERS, TOP_CAPACITY, Transfer
from refusals import LAST_FILING_DAY
from transfer_lists import TransferList
from versions import in_version

# ------------------------------------------------------------------ sheets


def draw_volume(rng):
    """A contract volume: any, or one at which a byte is carried, or near the ceiling."""
    form = rng.random()
    if form < 0.1:
        return 0
    if form < 0.2:
        return rng.choice((1, 255, 256, 257, 65_535, 65_536, 65_537))
    if form < 0.3:
        return TOP_CAPACITY - rng.choice((0, 1, 2, 255, 256))
    return rng.randrange(rng.choice((100, 10_000, TOP_CAPACITY)))


def sheet_of(rng, consumers, producers=0, rows=0):
    sheet = draw_sheet(rng, producers, rows, consumers)
    if rng.random() < 0.7:
        for consumer in sheet.consumers:
            consumer.contract = draw_volume(rng)
    return in_version(rng, sheet)


def some_sheet(rng):
    """Two consumers or more, so that volume can be moved."""
    return sheet_of(rng, rng.choice((2, 2, 3, 4, 6, rng.randrange(2, MOST_CONSUMERS), MOST_CONSUMERS)))


def sheet_with(rng, volumes):
    """A sheet in which some consumers have the named volumes, and the number that each name got."""
    sheet = sheet_of(rng, rng.randrange(len(volumes), rng.choice((4, 8, MOST_CONSUMERS)) + 1))
    numbers = dict(zip(volumes, rng.sample(range(len(sheet.consumers)), len(volumes))))
    for name, volume in volumes.items():
        sheet.consumers[numbers[name]].contract = volume
    return sheet, numbers


def volumes_of(sheet):
    return [consumer.contract for consumer in sheet.consumers]


# ------------------------------------------------------------------ entries that can be met


def filing_day(rng):
    return rng.choice((1, LAST_FILING_DAY, rng.randrange(1, LAST_FILING_DAY + 1)))


class Turns:
    """A list in the making: its entries so far and the contract volumes after them."""

    def __init__(self, rng, volumes):
        self.rng, self.volumes, self.transfers = rng, list(volumes), []

    def most(self, giver, taker):
        """The most that can be moved now."""
        return max(0, min(self.volumes[giver], TOP_CAPACITY - self.volumes[taker]))

    def add(self, giver, taker, amount):
        self.transfers.append(Transfer(filing_day(self.rng), giver, taker, amount))
        self.volumes[giver] -= amount
        self.volumes[taker] += amount

    def two(self):
        """A giver and a taker; as a rule, something can be moved between them."""
        for _ in range(4):
            giver, taker = self.rng.sample(range(len(self.volumes)), 2)
            if self.most(giver, taker):
                break
        return giver, taker

    def add_some(self, count):
        """Entries at will. With fewer than two consumers there are none."""
        if len(self.volumes) < 2:
            return
        for _ in range(count):
            giver, taker = self.two()
            most = self.most(giver, taker)
            self.add(giver, taker, self.rng.choice((0, min(1, most), most // 2, most, self.rng.randrange(most + 1))))

    def list(self):
        return TransferList(self.transfers)


def some_entries(rng, volumes, least=1, most=5):
    turns = Turns(rng, volumes)
    turns.add_some(rng.randrange(least, most + 1))
    return turns


# ------------------------------------------------------------------ lists that are applied


def no_entries(rng):
    return sheet_of(rng, rng.randrange(4)), TransferList([])


def so_many_entries(least, most):
    def draw(rng):
        sheet = some_sheet(rng)
        return sheet, some_entries(rng, volumes_of(sheet), least, most).list()
    return draw


def filed_on(day):
    def draw(rng):
        sheet = some_sheet(rng)
        transfers = some_entries(rng, volumes_of(sheet)).transfers
        return sheet, TransferList([transfer._replace(day=day) for transfer in transfers])
    return draw


def moves(draw_moves):
    """What a function tells, on a drawn sheet: volumes by name, and entries between these. Some more follow."""
    @wraps(draw_moves)
    def draw(rng):
        volumes, entries = draw_moves(rng)
        sheet, numbers = sheet_with(rng, volumes)
        turns = Turns(rng, volumes_of(sheet))
        for giver, taker, amount in entries:
            turns.add(numbers[giver], numbers[taker], amount)
        turns.add_some(rng.choice((0, 0, 1, 3)))
        return sheet, turns.list()
    return draw


@moves
def nothing_moved(rng):
    """From one that has nothing to one that may have no more."""
    return {"a": 0, "b": TOP_CAPACITY}, [("a", "b", 0)]


@moves
def all_given(rng):
    amount = rng.randrange(1, TOP_CAPACITY + 1)
    return {"a": amount, "b": rng.randrange(TOP_CAPACITY - amount + 1)}, [("a", "b", amount)]


@moves
def taker_filled(rng):
    amount = rng.randrange(1, TOP_CAPACITY + 1)
    return {"a": rng.randrange(amount, TOP_CAPACITY + 1), "b": TOP_CAPACITY - amount}, [("a", "b", amount)]


@moves
def all_given_and_taker_filled(rng):
    amount = rng.choice((1, TOP_CAPACITY, rng.randrange(1, TOP_CAPACITY)))
    return {"a": amount, "b": TOP_CAPACITY - amount}, [("a", "b", amount)]


@moves
def given_on(rng):
    """The second gives more than it had before the list."""
    first, second = rng.randrange(1, 50_000), rng.randrange(50_000)
    return ({"a": first, "b": second, "c": rng.randrange(TOP_CAPACITY - first - second + 1)},
            [("a", "b", first), ("b", "c", rng.randrange(second + 1, first + second + 1))])


@moves
def given_after_taking(rng):
    """Out of nothing but what it got."""
    amount = rng.randrange(1, 50_000)
    return {"a": amount, "b": 0, "c": 0}, [("a", "b", amount), ("b", "c", amount)]


@moves
def taken_after_giving(rng):
    """Above the ceiling, had it not given before."""
    amount = rng.randrange(1, TOP_CAPACITY + 1)
    return {"a": amount, "b": TOP_CAPACITY, "c": 0}, [("b", "c", amount), ("a", "b", amount)]


@moves
def there_and_back(rng):
    amount = rng.randrange(1, 50_000)
    return {"a": rng.randrange(amount, 50_001), "b": rng.randrange(50_000)}, [("a", "b", amount), ("b", "a", amount)]


@moves
def repeated(rng):
    times = rng.randrange(2, 8)
    amount = rng.randrange(1, TOP_CAPACITY // times)
    return {"a": amount * times, "b": rng.randrange(TOP_CAPACITY - amount * times + 1)}, [("a", "b", amount)] * times


@moves
def a_byte_carried(rng):
    """The lower bytes of giver and taker run over."""
    edge, other = rng.sample((256, 65_536), 2)
    amount = rng.randrange(1, 256)
    return {"a": edge + rng.randrange(amount), "b": other - 1}, [("a", "b", amount)]


def first_and_last(rng):
    """Consumers 0 and 31, in both directions."""
    sheet = sheet_of(rng, MOST_CONSUMERS)
    turns = Turns(rng, volumes_of(sheet))
    for giver, taker in rng.sample(((0, MOST_CONSUMERS - 1), (MOST_CONSUMERS - 1, 0)), 2):
        turns.add(giver, taker, turns.most(giver, taker))
    return sheet, turns.list()


def round_of_all(rng):
    """Each gives to the next, the last to the first."""
    sheet = some_sheet(rng)
    turns = Turns(rng, volumes_of(sheet))
    for giver in range(len(sheet.consumers)):
        taker = (giver + 1) % len(sheet.consumers)
        turns.add(giver, taker, turns.most(giver, taker))
    return sheet, turns.list()


def behind_producers(rng):
    """The consumers stand behind producers and rows."""
    sheet = sheet_of(rng, rng.randrange(2, 6), rng.randrange(1, 3), rng.randrange(5))
    return sheet, some_entries(rng, volumes_of(sheet)).list()


def in_the_largest_sheet(rng):
    sheet = in_version(rng, LARGEST["full_counts_31_days"](rng))
    return sheet, some_entries(rng, volumes_of(sheet), most=60).list()


def more_than_65535_bytes(rng):
    """Back and forth, so often that two bytes do not hold the list's length; as a rule, a change at the end."""
    sheet = some_sheet(rng)
    turns = Turns(rng, volumes_of(sheet))
    giver, taker = turns.two()
    amount = turns.most(giver, taker)
    turns.add(giver, taker, amount)
    turns.add(taker, giver, amount)
    turns.transfers *= rng.randrange(4681, 4700)
    turns.add_some(5)
    return sheet, turns.list()


APPLIED = {
    "no_entries": no_entries, "one_entry": so_many_entries(1, 1), "two_entries": so_many_entries(2, 2),
    "some_entries": so_many_entries(3, 12), "many_entries": so_many_entries(50, 200),
    "day_1": filed_on(1), "day_20": filed_on(LAST_FILING_DAY),
}
APPLIED.update((corner.__name__, corner) for corner in (
    nothing_moved, all_given, taker_filled, all_given_and_taker_filled, given_on, given_after_taking,
    taken_after_giving, there_and_back, repeated, a_byte_carried, first_and_last, round_of_all))
LONG = {corner.__name__: corner for corner in (behind_producers, in_the_largest_sheet, more_than_65535_bytes)}
