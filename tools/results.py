"""The result of a settlement: taken from the program's listing, laid out as bytes, listed, held against the sheet.

A month is settled under the text of 2021 or, for old acts, under that of 2015.
"""
import re
import struct
from typing import Callable, NamedTuple

from records import (CAPACITY, PRICE, SINGLE_BUYER, Z, Header, figures_of_result, result_2015_figures,
                     result_2015_length, result_2015_of, result_length, result_of, rounded)

REFUSED = re.compile(r"N([0-9]+)\n")
FIGURE = re.compile(r"[0-9]+\.[0-9]+")
MILLIONTHS = 100_000    # of a megawatt in a tenth of one

# ------------------------------------------------------------------ a result against its sheet


class Bands(NamedTuple):
    """A band table."""
    whole: int      # the parts of the reference in which an excess is counted
    edges: tuple    # each band's upper edge, in these parts, with its n or factor in tenths
    above: int      # n or factor above the last edge

    def parts(self, excess, reference):
        """An excess in parts of its reference; over a reference of 0 it is above the last edge."""
        if reference == 0:
            return self.edges[-1][0] + 1 if excess else 0
        return rounded(self.whole * excess, reference)

    def factor(self, parts):
        return next((factor for edge, factor in self.edges if parts <= edge), self.above)

    def factors(self):
        return [*(factor for _, factor in self.edges), self.above]


BANDS = Bands(1000, ((50, 0), (200, 13), (400, 15), (500, 17)), 20)
BANDS_2015 = Bands(10_000, ((500, 10), (1000, 11), (2000, 12)), 15)


def impossible(rows, consumers, totals, sheet=None):
    """What no settlement gives, in words: each figure is held against those that it is worked out from. Without the
    sheet, only what a result tells of itself."""
    for number, row in enumerate(rows):
        for words in row_faults(row, number, sheet):
            yield f"row {number}: {words}"
    for number, consumer in enumerate(consumers):
        for words in consumer_faults(consumer, number, rows, sheet) if sheet else own_faults(consumer):
            yield f"consumer {number}: {words}"
    for words, total, figures in (("paid", totals[0], [row.payment for row in rows]),
                                  ("charged", totals[1], [consumer.charge for consumer in consumers])):
        if total != sum(figures):
            yield f"totals: {words} {PRICE.text(total)} is not the sum of the lines, {PRICE.text(sum(figures))}"


def row_faults(row, number, sheet):
    if row.actual > row.after_cut:
        yield (f"actual volume {CAPACITY.text(row.actual)} is above the volume after the cut, "
               f"{CAPACITY.text(row.after_cut)}")
    if sheet is None:
        return
    given = sheet.rows[number]
    if row.after_cut > given.volume:
        yield f"volume after the cut {CAPACITY.text(row.after_cut)} is above the sheet's, {CAPACITY.text(given.volume)}"
    yield from days_faults(row, *given.days(sheet.month), sheet.month.days)
    yield from money_faults("payment", row.payment, "actual volume", row.actual, given.price)


def days_faults(row, first_day, last_day, days):
    """No coefficient is above 1, so the days covered leave at most their share of the volume after the cut, which is
    rounded to a millionth and then to a tenth."""
    covered = last_day - first_day + 1
    most = rounded(rounded(MILLIONTHS * row.after_cut * covered, days), MILLIONTHS)
    if most < row.actual <= row.after_cut:
        yield (f"actual volume {CAPACITY.text(row.actual)} is above the volume after the cut × days covered / days of "
               f"the month, {CAPACITY.text(row.after_cut)} × {covered} / {days} = {CAPACITY.text(most)}")


def money_faults(words, money, volume_words, volume, price):
    wanted = rounded(volume * price, 10)
    if money != wanted:
        yield (f"{words} {PRICE.text(money)} is not {volume_words} × price, "
               f"{CAPACITY.text(volume)} × {PRICE.text(price)} = {PRICE.text(wanted)}")


def own_faults(consumer):
    n = BANDS.factor(consumer.p)
    if consumer.n != n:
        yield f"n {Z.text(consumer.n)} is not that of {Z.text(consumer.p)} percent, {Z.text(n)}"


def consumer_faults(consumer, number, rows, sheet):
    given = sheet.consumers[number]
    brought = sum(row.actual for row, contract in zip(rows, sheet.rows)
                  if contract.consumer == number and contract.consumer != SINGLE_BUYER)
    if consumer.credit != brought:
        yield (f"credit {CAPACITY.text(consumer.credit)} is not the sum of the actual volumes of its bilateral rows, "
               f"{CAPACITY.text(brought)}")
    counted = max(given.peak - consumer.credit, 0)
    excess = max(20 * counted - 21 * given.contract, 0)     # over 1.05 × contract volume, in twentieths
    percent = BANDS.parts(excess, 20 * given.contract)
    if consumer.p != percent:
        yield (f"percent {Z.text(consumer.p)} is not that of the counted peak {CAPACITY.text(counted)} over contract "
               f"volume {CAPACITY.text(given.contract)}, {Z.text(percent)}")
    yield from own_faults(consumer)
    volume = volume_of(given, excess, consumer.n, sheet.month.days)
    if consumer.actual != volume:
        yield (f"actual volume {CAPACITY.text(consumer.actual)} is not what contract volume, n, mining days and z "
               f"give, {CAPACITY.text(volume)}")
    yield from money_faults("charge", consumer.charge, "actual volume", consumer.actual, given.price)


def volume_of(given, excess, n, days):
    """A consumer's actual volume, exact until one rounding; excess is in twentieths, the bracket in two-hundredths."""
    bracket = 200 * given.contract + (n * (excess - given.contract) if n else 0)
    factors = (days + 100 * given.supplier_days) * (days + 100 * given.grid_days) * given.z
    return rounded(max(bracket, 0) * factors, 200 * days * days * 10)


def impossible_2015(_rows, consumers, _totals, sheet=None):
    """The same under the text of 2015, whose result has consumers alone."""
    for number, consumer in enumerate(consumers):
        for words in faults_2015(consumer, sheet.consumers[number]) if sheet else own_faults_2015(consumer):
            yield f"consumer {number}: {words}"


def own_faults_2015(consumer):
    if consumer.factor not in BANDS_2015.factors():
        yield f"factor {Z.text(consumer.factor)} is none of {', '.join(map(Z.text, BANDS_2015.factors()))}"


def faults_2015(consumer, given):
    excess = max(given.peak - given.contract, 0)
    factor = BANDS_2015.factor(BANDS_2015.parts(excess, given.contract))
    if consumer.factor != factor:
        yield (f"factor {Z.text(consumer.factor)} is not that of the peak {CAPACITY.text(given.peak)} over contract "
               f"volume {CAPACITY.text(given.contract)}, {Z.text(factor)}")
    volume = rounded(given.contract * consumer.factor, 10)
    if consumer.volume != volume:
        yield (f"volume {CAPACITY.text(consumer.volume)} is not contract volume × factor, "
               f"{CAPACITY.text(given.contract)} × {Z.text(consumer.factor)} = {CAPACITY.text(volume)}")
    yield from money_faults("charge", consumer.charge, "volume", consumer.volume, given.price)


# ------------------------------------------------------------------ the texts of the order


class Edition(NamedTuple):
    """A text of the order, with the form of its result. The figures of a record are keys for programs with their units,
    in the order of result and listing; a result that has no such record has none."""
    year: str               # named beside a result under the text of 2015, else ""
    rows: tuple
    consumers: tuple
    totals: tuple
    length: Callable        # of a result with so many rows and consumers, in bytes
    figures: Callable       # of so many rows and consumers in a result's bytes: the rows', the consumers', the totals
    result: Callable        # the bytes of these, without totals where there are none
    impossible: Callable    # what no settlement gives, in words, of these and the sheet

    @property
    def title(self):
        return f"under the text of {self.year}" if self.year else ""


CHARGE = "charge", PRICE
OF_2021 = Edition(
    "", (("volume_after_cut", CAPACITY), ("actual_volume", CAPACITY), ("payment", PRICE)),
    (("credit", CAPACITY), ("percent", Z), ("n", Z), ("actual_volume", CAPACITY), CHARGE),
    (("paid", PRICE), ("charged", PRICE)), result_length, figures_of_result, result_of, impossible)
OF_2015 = Edition(
    "2015", (), (("factor", Z), ("volume", CAPACITY), CHARGE), (),
    lambda _rows, consumers: result_2015_length(consumers),
    lambda _rows, consumers, result: ([], result_2015_figures(result[:result_2015_length(consumers)]), ()),
    lambda _rows, consumers: result_2015_of(consumers), impossible_2015)

# ------------------------------------------------------------------ the program's listing


def texts_of(kinds, figures):
    """The figures of a record as the listing has them."""
    return [unit.text(figure) for (_, unit), figure in zip(kinds, figures)]


def listing_lines(rows, consumers, totals, edition):
    """The lines that the program prints for a result with these figures."""
    lines = [[f"R{number}", *texts_of(edition.rows, row)] for number, row in enumerate(rows)]
    lines += [[f"C{number}", *texts_of(edition.consumers, consumer)] for number, consumer in enumerate(consumers)]
    if edition.totals:
        lines.append(["T", *texts_of(edition.totals, totals)])
    return [" ".join(line) for line in lines]


def refusal_of_listing(listing):
    """The number of a refusal, or None."""
    found = REFUSED.fullmatch(listing)
    return int(found.group(1)) if found else None


def result_of_listing(listing, content, edition=OF_2021):
    """The bytes of the result that a listing prints, or None if it is no listing of this sheet. It has every figure
    without loss; the bytes, read back and listed again, are to give it letter by letter."""
    try:
        counts = Header.from_bytes(content)[-2:]
        rows = counts[0] if edition.rows else 0
        end = rows + counts[1]
        figures = [[int(word.replace(".", "")) for word in line.split(" ")[1:] if FIGURE.fullmatch(word)]
                   for line in listing.splitlines()]
        result = edition.result(figures[:rows], figures[rows:end], *figures[end:])
    except (TypeError, ValueError, struct.error):
        return None
    if len(result) != edition.length(*counts):
        return None
    listed = "".join(f"{line}\n" for line in listing_lines(*edition.figures(*counts, result), edition))
    return result if listed == listing else None
