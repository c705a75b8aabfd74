"""The record of an industrial complex, whose peak is taken by averaging: its bytes, its text, why it is refused, what
it changes.

Layout and numbers are those of request 3 of document 02. Powers are in tenths of a megawatt. An aid for people: the
peak is written into the sheet by the proved program, and its answer holds.
"""
from typing import NamedTuple

from changing import Change, consumer_figure, consumers_words, lister_of, sheet_of
from files import Trouble
from kinds import RECORD, RECORD_TEXT, begun_as, ending_of
from monthtext import MOST_LINES, Faults, at, check_head, csv_figures, csv_text, figure_of, line_shown, text_lines
from names import NO_NAMES
from printing import table_lines
from records import (CAPACITY, COMPLEX_FIELDS, COMPLEX_FRONT, COMPLEX_HOUR, COMPLEX_HOUR_FIELDS, COMPLEX_HOUR_PACKING,
                     COMPLEX_PACKING, TENTH, TOP_CAPACITY, complex_length)
from refusals import BAD_RECORD, HIGH_POWER, TRIED_IN_RECORD, field_places

FRONT_PLACES = field_places(COMPLEX_FIELDS)
# A text has a line for each field of the front save the length, then the head of the hours, then the hours.
TEXT_FRONT = {"consumer": "consumer,14", "imported": "imported,12.5"}    # keys, each with a line as it may be
HEAD_LINE = len(TEXT_FRONT) + 1
MONTHS = range(28, 32)    # days that a month can have
PEAK_HEADS = ("record", "consumer", "control hours", "average", "imported", "before", "after")


class Complex(NamedTuple):
    """What a record says."""
    consumer: int
    imported: int    # power of the month
    hours: list      # power drawn and power sent out in each

    def average(self, month):
        """Net power over the control hours, to a tenth; in no hour it is below 0."""
        return month.control_average([max(drawn - sent, 0) for drawn, sent in self.hours], TENTH)

    def peak(self, month):
        return max(self.average(month) - self.imported, 0)


# ------------------------------------------------------------------ bytes and text


def record_bytes(consumer, imported, hours):
    body = b"".join(COMPLEX_HOUR_PACKING.pack(*powers) for powers in hours)
    return COMPLEX_PACKING.pack(COMPLEX_FRONT + len(body), consumer, imported) + body


def complex_of(content):
    """What the bytes of a record say that has a whole front; of the hours, those that stand in it whole."""
    _, consumer, imported = COMPLEX_PACKING.unpack_from(content)
    end = len(content) - (len(content) - COMPLEX_FRONT) % COMPLEX_HOUR
    return Complex(consumer, imported, list(COMPLEX_HOUR_PACKING.iter_unpack(content[COMPLEX_FRONT:end])))


def front_figure(line, key):
    """The figure of a line before the head."""
    found, _, cell = line.partition(",")
    if found.strip() != key:
        other = begun_as(line.encode(), other_than=RECORD_TEXT)
        raise Trouble(f"is {line_shown(line)}, not {key} and its figure, as {TEXT_FRONT[key]}"
                      + (f"; it {other}" if other else ""))
    _, field = FRONT_PLACES[key]
    with at(key):
        return consumer_figure(cell, field) if key == "consumer" else figure_of(cell, field)


def any_of(numbers):
    """As "5385, 5577, 5769 or 5961"."""
    *words, last = map(str, numbers)
    return f"{', '.join(words)} or {last}" if words else last


# ------------------------------------------------------------------ what comes of records


def peak_lines(given, records):
    """The peaks of a month before and after records that can be applied to it."""
    sheet, cells = sheet_of(given), []
    for each in records:
        found = each.complex()
        consumer = sheet.consumers[found.consumer]
        figures = found.average(sheet.month), found.imported, consumer.peak, found.peak(sheet.month)
        cells.append([each.name, given.names.cell("consumer", found.consumer), str(len(sheet.month.control_hours())),
                      *map(CAPACITY.text, figures)])
        consumer.peak = found.peak(sheet.month)
    return ["Peaks by averaging, in MW: net power averaged over the control hours, less imported power",
            *table_lines(PEAK_HEADS, cells, (0, 1) if given.names.consumer else (0,))]


def unlikely_records(records, month, names):
    """Hours that are all equal, a peak of 0, and two records of one consumer."""
    by_consumer = {}
    for each in records:
        if len(each.content) != complex_length(month.days) or not each.known():
            continue
        found = each.complex()
        by_consumer.setdefault(found.consumer, []).append(each.name)
        if len(set(found.hours)) == 1:
            yield f"{each.name}: all {len(found.hours)} hours are equal"
        if month.control_hours() and found.peak(month) == 0:
            yield f"{each.name}: the peak comes to 0"
    for consumer, found in by_consumer.items():
        if len(found) > 1:
            label = names.label("consumer", consumer)
            yield f"{label} has {len(found)} records, and the last holds: {', '.join(found)}"


# ------------------------------------------------------------------ a record as it is given


class GivenRecord(Change):
    option, metavar, word, parts = "--complex", "RECORD", "record", "hours"
    wanted = f"a record; the name of its text ends in {ending_of(RECORD_TEXT)}"
    text, packed = RECORD_TEXT, RECORD
    one, many = "complex", "complexes"
    numbers = TRIED_IN_RECORD
    after_lines = staticmethod(peak_lines)
    unlikely = staticmethod(unlikely_records)

    @staticmethod
    def read_text(path):
        lines, faults, front, hours = text_lines(path), Faults(), [], []
        lines += [""] * (HEAD_LINE - len(lines))
        for number, (key, line) in enumerate(zip(TEXT_FRONT, lines), 1):
            with faults.part(), at(f"{path}, line {number}"):
                front.append(front_figure(line, key))
        with faults.part():
            check_head(lines[HEAD_LINE - 1], COMPLEX_HOUR_FIELDS, path, HEAD_LINE)
            hours = csv_figures(path, lines[HEAD_LINE:], COMPLEX_HOUR_FIELDS, most=MOST_LINES, first=HEAD_LINE + 1)
        faults.tell(lister_of([GivenRecord]))
        return record_bytes(*front, hours)

    def as_text(self):
        found = self.complex()
        front = (f"{key},{FRONT_PLACES[key][1].unit.text(getattr(found, key))}\n" for key in TEXT_FRONT)
        return "".join(front) + csv_text(found.hours, COMPLEX_HOUR_FIELDS)

    def complex(self):
        """What it says, if it has a whole front."""
        return complex_of(self.content)

    def form_faults(self):
        count, front = len(self.content), COMPLEX_FRONT
        if count < front:
            yield 0, f"the record ends after {count} bytes; its length, consumer and imported power take {front}"
            return
        length, *_ = COMPLEX_PACKING.unpack_from(self.content)
        surplus = (length - front) % COMPLEX_HOUR
        if length != count:
            text = begun_as(self.content)
            yield 0, f"length, {length}, but there are {count} bytes" + (f"; it {text}" if text else "")
        elif surplus:
            yield 0, f"length, {length}: bytes after the last whole hour: {surplus}"

    def refusals(self, sheet, names=NO_NAMES):
        """None of its fields needs another one, and they are tried in their order."""
        found = [*self.length_faults([sheet.month.days]), *self.consumer_faults(sheet), *self.power_faults()]
        if not found:
            says = self.complex()
            sheet.consumers[says.consumer].peak = says.peak(sheet.month)
        return found

    def length_faults(self, months):
        """What 16 finds in the length for a month of so many days, or one of several. In a text this is the count of
        lines, so the last one is named."""
        month = "the month" if len(months) == 1 else "a month"
        lengths, hours = map(complex_length, months), any_of(24 * days for days in months)
        asked, faults = f"{month} asks for {any_of(lengths)}", list(self.form_faults())
        for place, words in faults:
            yield self.fault(BAD_RECORD, place, f"{words} ({asked})")
        if not faults and len(self.content) not in map(complex_length, months):
            count = len(self.complex().hours)
            words = (f"here the hours end, {count} of them ({month} has {hours})" if self.is_text
                     else f"length, {len(self.content)} ({asked})")
            yield self.fault(BAD_RECORD, 0, words, HEAD_LINE + count)

    def consumer_faults(self, sheet):
        if len(self.content) >= COMPLEX_FRONT and self.complex().consumer >= len(sheet.consumers):
            yield self.front_fault(BAD_RECORD, "consumer", consumers_words(sheet))

    def power_faults(self):
        """What 17 finds; of the hours, if they can be told apart."""
        if len(self.content) < COMPLEX_FRONT:
            return
        found, allowed = self.complex(), f"at most {CAPACITY.text(TOP_CAPACITY)}"
        if found.imported > TOP_CAPACITY:
            yield self.front_fault(HIGH_POWER, "imported", allowed)
        for hour, powers in enumerate(found.hours if self.known() else []):
            if max(powers) > TOP_CAPACITY:
                yield from self.hour_faults(hour, powers, allowed)

    def front_fault(self, number, key, allowed):
        place, field = FRONT_PLACES[key]
        return self.field_fault(number, place, field, allowed, [*TEXT_FRONT].index(key) + 1)

    def hour_faults(self, hour, powers, allowed):
        place = COMPLEX_FRONT + COMPLEX_HOUR * hour
        for field, power in zip(COMPLEX_HOUR_FIELDS, powers):
            if power > TOP_CAPACITY:
                yield self.field_fault(HIGH_POWER, place, field, allowed, HEAD_LINE + 1 + hour, hour=hour)
            place += field.width

    def lines(self, names=NO_NAMES):
        faults = [f"refusal {fault.number}, {fault.line_or_byte()}: {fault.said}"
                  for fault in self.length_faults(MONTHS)]
        if len(self.content) < COMPLEX_FRONT:
            return faults
        found, (length, *_) = self.complex(), COMPLEX_PACKING.unpack_from(self.content)
        figures = {"length": length, "consumer": names.cell("consumer", found.consumer),
                   "imported power": f"{CAPACITY.text(found.imported)} MW"}
        if self.known():
            drawn, sent = (sum(powers[place] for powers in found.hours) for place in (0, 1))
            figures.update({"hours": len(found.hours), "drawn in all": f"{CAPACITY.text(drawn)} MWh",
                            "sent out in all": f"{CAPACITY.text(sent)} MWh"})
        lines = [f"{words:20}{figure}" for words, figure in figures.items()]
        return [*lines, "", *faults] if faults else lines
