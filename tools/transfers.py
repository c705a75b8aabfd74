"""A list of transfers of contract volume between consumers: its bytes, its text, why it is refused, what it changes.

Layout and numbers are those of request 1 of document 02. Amounts are in tenths of a megawatt. An aid for people: lists
are applied by the proved program, and its answer holds.
"""
from collections import Counter

from changing import Change, consumer_figure, consumers_words, lister_of, sheet_of
from files import Trouble
from kinds import LIST, LIST_TEXT, begun_as
from monthtext import csv_figures, csv_lines, csv_text, figure_of
from names import NO_NAMES
from printing import table_lines
from records import (CAPACITY, ENTRY, ENTRY_FIELDS, ENTRY_PACKING, FRONT, FRONT_FIELDS, FRONT_PACKING, LIST_VERSION,
                     TOP_CAPACITY, Transfer)
from refusals import BAD_LIST, FILED_LATE, LAST_DAY, LAST_FILING_DAY, OVERDRAWN, TRIED_IN_LIST, field_places, turn

ENTRY_PLACES = field_places(ENTRY_FIELDS)
ENTRY_HEADS = ("entry", "day filed", "giver", "taker", "amount")
VOLUME_HEADS = ("consumer", "before", "given", "taken", "after")
PARTIES = ("giver", "taker")


# ------------------------------------------------------------------ bytes and text


def list_bytes(transfers):
    body = b"".join(ENTRY_PACKING.pack(*transfer) for transfer in transfers)
    return FRONT_PACKING.pack(FRONT + len(body), LIST_VERSION) + body


def transfers_of(content):
    """The whole entries that the bytes of a list hold."""
    count = max(len(content) - FRONT, 0) // ENTRY
    return [Transfer(*figures) for figures in ENTRY_PACKING.iter_unpack(content[FRONT:FRONT + ENTRY * count])]


def entry_figure(cell, field):
    """A figure of an entry's line."""
    return consumer_figure(cell, field) if field.key in PARTIES else figure_of(cell, field)


# ------------------------------------------------------------------ refusals


def front_faults(content):
    """What number 13 finds before the entries: the place of the field, and what is wrong."""
    if len(content) < FRONT:
        yield 0, f"the list ends after {len(content)} bytes; its length and version take {FRONT}"
        return
    length, version = FRONT_PACKING.unpack_from(content)
    if length != len(content):
        text = begun_as(content)
        yield 0, f"length, {length}, but there are {len(content)} bytes" + (f"; it {text}" if text else "")
    elif (length - FRONT) % ENTRY:
        yield 0, f"length, {length}: bytes after the last whole entry: {(length - FRONT) % ENTRY}"
    if version != LIST_VERSION:
        yield FRONT - 1, f"version, {version} (not {LIST_VERSION})"


def day_faults(day):
    """What 13 and 14 find in an entry's day: the number, the field's key, and what is wrong or allowed there."""
    if not 1 <= day <= LAST_DAY:
        yield BAD_LIST, "day", f"from 1 to {LAST_DAY}"
    elif day > LAST_FILING_DAY:
        yield FILED_LATE, "day", f"at most {LAST_FILING_DAY}"


def name_faults(transfer, sheet):
    """What 13 finds in an entry's names."""
    for key in PARTIES:
        if getattr(transfer, key) >= len(sheet.consumers):
            yield BAD_LIST, key, consumers_words(sheet)
    if transfer.giver == transfer.taker:
        yield BAD_LIST, "taker", "the giver of this entry"


def turn_faults(transfer, sheet, names):
    """What 15 finds in an entry at its turn."""
    has = sheet.consumers[transfer.giver].contract
    comes_to = sheet.consumers[transfer.taker].contract + transfer.amount
    giver, taker = names.label("consumer", transfer.giver), names.label("consumer", transfer.taker)
    if transfer.amount > has:
        yield OVERDRAWN, "amount", f"at its turn the giver, {giver}, has {CAPACITY.text(has)}"
    if comes_to > TOP_CAPACITY:
        yield OVERDRAWN, "amount", (f"at its turn the taker, {taker}, would come to {CAPACITY.text(comes_to)}; at most "
                                    f"{CAPACITY.text(TOP_CAPACITY)}")


def apply(transfer, sheet):
    sheet.consumers[transfer.giver].contract -= transfer.amount
    sheet.consumers[transfer.taker].contract += transfer.amount


def unlikely_lists(lists, *_):
    """An amount of 0, and the same list twice, in any month."""
    for given in lists:
        for number, transfer in enumerate(given.transfers()):
            if transfer.amount == 0:
                yield f"{given.name}: entry {number}: amount is 0"
    for content, count in Counter(given.content for given in lists).items():
        if count > 1 and transfers_of(content):
            alike = ", ".join(given.name for given in lists if given.content == content)
            yield f"the same list is given {count} times: {alike}"


# ------------------------------------------------------------------ tables


def entry_cells(number, transfer, names):
    parties = [names.cell("consumer", party) for party in (transfer.giver, transfer.taker)]
    return [str(number), str(transfer.day), *parties, CAPACITY.text(transfer.amount)]


def volume_lines(given, lists):
    """The contract volumes of a month before and after lists that can be applied to it."""
    gave, took = Counter(), Counter()
    for transfer in (transfer for each in lists for transfer in transfers_of(each.content)):
        gave[transfer.giver] += transfer.amount
        took[transfer.taker] += transfer.amount
    before = [consumer.contract for consumer in sheet_of(given).consumers]
    cells = [volume_cells(given.names.cell("consumer", number), volume, gave[number], took[number])
             for number, volume in enumerate(before)]
    cells.append(volume_cells("all", sum(before), sum(gave.values()), sum(took.values())))
    return ["Contract volumes, in MW", *table_lines(VOLUME_HEADS, cells, (0,) if given.names.consumer else ())]


def volume_cells(words, volume, gave, took):
    """What nobody gave or took is left empty, so that what changes is seen."""
    moved = [CAPACITY.text(figure) if figure else "" for figure in (gave, took)]
    return [words, CAPACITY.text(volume), *moved, CAPACITY.text(volume - gave + took)]


# ------------------------------------------------------------------ a list as it is given


class GivenList(Change):
    option, metavar, word, parts = "--transfers", "LIST", "list", "entries"
    wanted = "a list"
    text, packed = LIST_TEXT, LIST
    one, many = "list", "transfers"
    numbers = TRIED_IN_LIST
    after_lines = staticmethod(volume_lines)
    unlikely = staticmethod(unlikely_lists)

    @staticmethod
    def read_text(path):
        try:
            return list_bytes(csv_figures(path, csv_lines(path, ENTRY_FIELDS), ENTRY_FIELDS, entry_figure))
        except Trouble as trouble:
            raise Trouble(*trouble.lines, lister=lister_of([GivenList])) from None

    def as_text(self):
        return csv_text(transfers_of(self.content), ENTRY_FIELDS)

    def form_faults(self):
        return front_faults(self.content)

    def transfers(self):
        """The entries, if they can be told apart."""
        return transfers_of(self.content) if self.known() else []

    def refusals(self, sheet, names=NO_NAMES):
        """An entry that cannot be applied is left out, and the next ones are tried without it."""
        found = [self.fault(BAD_LIST, place, words) for place, words in self.form_faults()]
        for number, transfer in enumerate(self.transfers()):
            wrong = list(name_faults(transfer, sheet)) or list(turn_faults(transfer, sheet, names))
            if not wrong:
                apply(transfer, sheet)
            found.extend(self.entry_fault(number, *fault) for fault in (*day_faults(transfer.day), *wrong))
        return sorted(found, key=lambda refusal: (turn(refusal.number), refusal.place))

    def entry_fault(self, entry, number, key, allowed):
        place, field = ENTRY_PLACES[key]
        return self.field_fault(number, FRONT + ENTRY * entry + place, field, allowed, entry + 2, entry=entry)

    def lines(self, names=NO_NAMES):
        faults = [f"refusal {BAD_LIST}, byte {place}: {words}" for place, words in self.form_faults()]
        if len(self.content) < FRONT:
            return faults
        front = FRONT_PACKING.unpack_from(self.content)
        lines = [f"{field.words:20}{figure}" for field, figure in zip(FRONT_FIELDS, front)]
        cells = [entry_cells(number, transfer, names) for number, transfer in enumerate(transfers_of(self.content))]
        if cells:
            left = (2, 3) if names.consumer else ()
            lines += ["", "Entries, in the order in which they are applied; amounts in MW",
                      *table_lines(ENTRY_HEADS, cells, left)]
        return [*lines, "", *faults] if faults else lines
