"""A sheet as tables for people."""
from names import NO_NAMES, width
from records import (CAPACITY, CONSUMER_FIELDS, HEADER, HEADER_FIELDS, HUNDREDTH, OUTSIDE_USE, PRODUCER_FIELDS,
                     SINGLE_BUYER, SINGLE_BUYER_WORDS, VERSIONS, Z, Header, Sheet, layout_words, row_fields)
from results import BANDS

WEEKDAYS = ("Monday", "Tuesday", "Wednesday", "Thursday", "Friday", "Saturday", "Sunday")
PRODUCER_HEADS = ("producer", "attested", "deductible", "own needs", "no upward bid", "no downward bid", "no plan",
                  "k3", "k6", "k7", "k8", "k9", "k10")
SERIES_HEADS = ("producer", "working", "possible", "outside", "step")
HOUR_HEADS = ("producer", "working", "possible", "outside", "control hours", "control average", "D", "percent", "n")
SALES_HEADS = ("producer", "rows", "T", "B", "S", "excess", "T after the cut", "S after the cut")
CONSUMER_HEADS = ("consumer", "contract", "peak", "supplier's days", "grid's days", "z", "price")

# ------------------------------------------------------------------ tables


def table_lines(heads, lines, left=()):
    """Cells under their heads, flush right save in the columns named left; no blanks at the end of a line."""
    lines = [heads, *lines]
    widths = [max(map(width, column)) for column in zip(*lines)]
    return ["  ".join(blanks_added(cell, wide, place in left)
                      for place, (cell, wide) in enumerate(zip(line, widths))).rstrip() for line in lines]


def blanks_added(cell, wide, left):
    blanks = " " * (wide - width(cell))
    return cell + blanks if left else blanks + cell


# ------------------------------------------------------------------ a sheet as tables


def sheet_lines(content, names=NO_NAMES):
    """A sheet as far as it can be read, whether it would be refused or not."""
    lines = header_lines(content)
    if len(content) < HEADER:
        return lines
    header, sheet = Header.from_bytes(content), Sheet.from_bytes(content)
    of_row = row_fields(header.version)
    starts = [place for kind, _, place, _ in header.records() if kind == "producer"][:len(sheet.producers)]
    hours = (f"Hours, the powers of {header.month.hours} hours summed, in MWh; "
             "control average of outside use and D, in MW; D in percent of deductible; n")
    sales = ("Sales, in rows and MW: T, B, S and the excess of the sheet's volumes; "
             "T and S after the cut, by which k1 and k4 go")
    sellers = range(len(sheet.producers)) if 0 < header.rows == len(sheet.rows) else ()
    for title, heads, records, kind, cells_of in (
        ("Producers, in MW; counts of hours; coefficients", PRODUCER_HEADS, sheet.producers, "producer",
         lambda producer: cells(PRODUCER_FIELDS, producer)),
        ("Series of hours, the byte where each begins, from 0; the step from one hour to the next, in bytes",
         SERIES_HEADS, starts, "producer", lambda start: series_cells(start, header)),
        (hours, HOUR_HEADS, sheet.producers, "producer", lambda producer: hour_cells(producer, header.month)),
        ("Rows, in MW; prices in tenge", ("row", *(field.words for field in of_row)), sheet.rows, "row",
         lambda row: [*party_cells(row, names), *cells(of_row, row)[2:]]),
        (sales, SALES_HEADS, sellers, "producer", lambda number: sales_cells(sheet, number)),
        ("Consumers, in MW; mining days; prices in tenge", CONSUMER_HEADS, sheet.consumers, "consumer",
         lambda consumer: cells(CONSUMER_FIELDS, consumer)),
    ):
        if records:
            left = () if names == NO_NAMES else (1, 2) if kind == "row" else (0,)
            lines += ["", title] + table_lines(heads, [[names.cell(kind, number), *cells_of(record)]
                                                       for number, record in enumerate(records)], left)
    return lines + end_lines(content, header)


def header_lines(content):
    lines, place = [], 0
    for field in HEADER_FIELDS:
        end = place + field.width
        if end > len(content):
            return lines + ["", f"The sheet ends after {len(content)} bytes, inside the header."]
        figure = int.from_bytes(content[place:end], "big")
        lines.append(f"{field.words:20}{header_text(field.key, figure)}")
        place = end
    return lines


def header_text(key, figure):
    if key == "version":
        return f"{figure} ({layout_words(figure) if figure in VERSIONS else 'no such version'})"
    if key == "weekday":
        return f"{figure} ({WEEKDAYS[figure - 1] if 1 <= figure <= 7 else 'no weekday'})"
    if key == "holidays":
        return ", ".join(f"day {day}" for day in range(1, 33) if figure >> day - 1 & 1) or "none"
    return str(figure)


def cells(fields, record):
    return [field.unit.text(figure) for field, figure in zip(fields, record.figures())]


def party_cells(row, names):
    """Who sells in a row, and who buys."""
    buyer = SINGLE_BUYER_WORDS if row.consumer == SINGLE_BUYER else names.cell("consumer", row.consumer)
    return [names.cell("producer", row.producer), buyer]


def series_cells(start, header):
    """Where the powers stand of a producer whose record starts there, and their step."""
    found = header.series()
    return [*(str(start + series.start) for series in found), str(found[0].step)]


def hour_cells(producer, month):
    """The sums of a producer's powers, and what k1 takes from its outside use."""
    return [*(CAPACITY.text(sum(powers)) for powers in producer.powers()), str(len(month.control_hours())),
            *use_cells(producer, month)]


def use_cells(producer, month):
    """The control average of outside use, D, D in percent of deductible capacity, n."""
    average, deductible = month.control_average(producer.outside, HUNDREDTH), HUNDREDTH * producer.deductible
    above = max(average - deductible, 0)
    p = BANDS.parts(above, deductible)
    return [OUTSIDE_USE.text(average), OUTSIDE_USE.text(above), Z.text(p), Z.text(BANDS.factor(p))]


def sales_cells(sheet, number):
    """The count of a producer's rows; T, B, S and the excess of their volumes; T and S after the cut."""
    producer, rows = sheet.producers[number], sheet.rows_of(number)
    support, _, capacity = producer.sums(producer.after_cut(rows))
    return [str(len(rows)), *map(CAPACITY.text, (*producer.sums(rows), producer.excess(rows), support, capacity))]


def end_lines(content, header):
    """What is left of the bytes after the records that could be read."""
    for kind, number, place, length in header.records():
        if place + length > len(content):
            return ["", f"The sheet ends after {len(content)} bytes; {kind} {number} would end after {place + length}."]
    if header.sheet_length < len(content):
        return ["", f"The last record ends after {header.sheet_length} bytes; the sheet has {len(content)}."]
    return []
