"""What each producer sells and what the cut leaves, as show prints it: the count of its rows; T, B, S and the excess of
the sheet's volumes; T and S after the cut."""
import re
from array import array

import drawn
import printing
import records
from checks import check, check_example, shown_table

TRACED = re.compile(r"Producer \d+: rows (\d+)\n"
                    r"  before the cut T (.*), B (.*), S (.*), excess (.*)\n"
                    r"  after the cut T (.*), B .*, S (.*)\n")
TITLE = ("Sales, in rows and MW: T, B, S and the excess of the sheet's volumes; "
         "T and S after the cut, by which k1 and k4 go")
HEADS = "producer rows T B S excess T after the cut S after the cut"
MONTH = records.Month(28, 1, 0)
BUYER = records.SINGLE_BUYER

# Attested capacity, deductible capacity and own needs of a producer; the buyers and volumes of its rows; in tenths.
# Then the count of its rows, T, B, S, the excess, T and S after the cut.
SHOWN = [
    # Document 01's producer: nothing is cut, and with less attested 5.0 of 100.0.
    ((1100, 100, 0), [(BUYER, 1000)], "1 100.0 0.0 110.0 0.0 100.0 110.0"),
    ((1050, 100, 0), [(BUYER, 1000)], "1 100.0 0.0 110.0 5.0 95.0 105.0"),
    # Own needs come off before: 110.0 − 5.0 is 5.0 above 100.0. At the edge, a tenth past it, and above all of S.
    ((1000, 100, 50), [(BUYER, 1000)], "1 100.0 0.0 110.0 5.0 95.0 105.0"),
    ((1000, 100, 100), [(BUYER, 1000)], "1 100.0 0.0 110.0 0.0 100.0 110.0"),
    ((999, 100, 100), [(BUYER, 1000)], "1 100.0 0.0 110.0 0.1 99.9 109.9"),
    ((0, 100, 1101), [(BUYER, 1000)], "1 100.0 0.0 110.0 0.0 100.0 110.0"),
    # A bilateral row is in B and S alone.
    ((300, 0, 0), [(0, 400)], "1 0.0 40.0 40.0 10.0 0.0 30.0"),
    # The first row goes first: T gives up all, some, or nothing.
    ((500, 0, 0), [(BUYER, 500), (0, 500)], "2 50.0 50.0 100.0 50.0 0.0 50.0"),
    ((300, 0, 0), [(BUYER, 500), (0, 500)], "2 50.0 50.0 100.0 70.0 0.0 30.0"),
    ((700, 0, 0), [(0, 400), (BUYER, 600)], "2 60.0 40.0 100.0 30.0 60.0 70.0"),
    ((550, 0, 0), [(0, 400), (BUYER, 600)], "2 60.0 40.0 100.0 45.0 55.0 55.0"),
    # 22.0 of producer 2 of `month`: 6.5 of B, then 15.5 of T; the rows behind lose nothing.
    ((1522, 100, 0), [(5, 65), (BUYER, 950), (11, 227), (BUYER, 400)], "4 135.0 29.2 174.2 22.0 119.5 152.2"),
    # More than the rows have: deductible capacity is left.
    ((100, 500, 0), [(BUYER, 150), (0, 50)], "2 15.0 5.0 70.0 60.0 0.0 50.0"),
    # A row of volume 0 is a row; so is one that is cut whole.
    ((1000, 0, 0), [(BUYER, 0), (BUYER, 1000)], "2 100.0 0.0 100.0 0.0 100.0 100.0"),
    ((0, 0, 0), [(BUYER, 0)], "1 0.0 0.0 0.0 0.0 0.0 0.0"),
    # No row: nothing to cut.
    ((80, 100, 0), [], "0 0.0 0.0 10.0 2.0 0.0 10.0"),
    # The largest figure of each field, which is refused.
    ((0, 2 ** 32 - 1, 0), [(BUYER, 2 ** 32 - 1)], "1 429496729.5 0.0 858993459.0 858993459.0 0.0 429496729.5"),
]


def sheet_of(sellers, more=()):
    """A sheet of producers with their rows; the rows of all stand by turns, with more of them in front."""
    powers = [array("I", [1]) * MONTH.hours] * 3
    producers = [records.Producer(*figures, [0] * 3, [0] * 6, *powers) for figures, _ in sellers]
    rows = [(turn, records.Row(number, *row, 1)) for number, (_, sold) in enumerate(sellers)
            for turn, row in enumerate(sold)]
    by_turns = [row for _, row in sorted(rows, key=lambda each: each[0])]
    return records.Sheet(MONTH, producers, [*more, *by_turns], [records.Consumer(1, 1, 0, 0, 10, 1)])


def shown(content):
    """The cells of the producers in the table of sales, without their numbers; none where there is no such table."""
    table = shown_table("Sales", "-", stdin=content).splitlines()
    check([" ".join(line.split()) for line in table[:2]] in ([], [TITLE, HEADS]),
          "show: sales: title and heads", str(table[:2]))
    return [line.split()[1:] for line in table[2:]]


def test_shown():
    """Figures worked out by hand: of one producer, of several whose rows stand by turns, beside rows of nobody."""
    for figures, sold, wanted in SHOWN:
        # One row that names no producer keeps the table where the producer has none.
        nobody = records.Row(1, BUYER, 700, 1)
        cells = shown(sheet_of([(figures, sold)], [nobody]).to_bytes())
        check(cells == [wanted.split()], f"show: sales: {wanted}", str(cells))
    for first in range(0, len(SHOWN), 5):
        sellers = SHOWN[first:first + 5]
        nobody = [records.Row(number, BUYER, 999, 1) for number in (len(sellers), 200, 255)]
        cells = shown(sheet_of([seller[:2] for seller in sellers], nobody).to_bytes())
        wanted = [seller[-1].split() for seller in sellers]
        check(cells == wanted, f"show: sales of {len(sellers)} producers", str(cells))


def test_days():
    """Volumes count whole, whatever the days of their rows."""
    for figures, sold, wanted in SHOWN:
        made = sheet_of([(figures, sold)])
        made.version = records.DAY_ROWS
        for day, row in enumerate(made.rows, start=1):
            row.first_day = row.last_day = day
        cells = shown(made.to_bytes())
        check(cells == ([wanted.split()] if sold else []), f"show: sales on single days: {wanted}", str(cells))


def test_unread():
    """No table without producers, without rows, or where the sheet ends inside its rows; else it is there."""
    one = ((1050, 100, 0), [(BUYER, 600), (0, 400)])
    content, wanted = sheet_of([one]).to_bytes(), ["2", "60.0", "40.0", "110.0", "5.0", "55.0", "105.0"]
    consumer = records.CONSUMER_PACKING.size
    for name, given, cells in (
        ("a whole sheet", content, [wanted]),
        ("a byte too many", content + b"\0", [wanted]),
        ("a sheet that ends behind its rows", content[:-consumer], [wanted]),
        ("a sheet that ends inside its last row", content[:-consumer - 1], []),
        ("a sheet that ends behind its first row", content[:-consumer - 10], []),
        ("a sheet that ends inside a producer", content[:1000], []),
        ("no row", sheet_of([(one[0], [])]).to_bytes(), []),
        ("no producer", sheet_of([], [records.Row(0, BUYER, 1, 1)]).to_bytes(), []),
    ):
        found = shown(given)
        check(found == cells, f"show: sales: {name}", str(found))


def test_by_rival(cases, answers):
    """The same figures as in the rival's trace, on drawn sheets; among them cuts of all kinds."""
    kinds = {"one row": 0, "several rows": 0, "T cut": 0, "B cut": 0, "nothing left": 0}
    for found, trace in drawn.traces(cases, answers):
        wanted = [list(figures) for figures in TRACED.findall(trace)]
        cells = [printing.sales_cells(found, number) for number in range(len(found.producers))]
        check(cells == wanted, "show: sales by the rival's trace", f"{cells}\n{wanted}")
        for figures in wanted:
            count_kinds(kinds, *(int(figure.replace(".", "")) for figure in figures))
    check(min(kinds.values()) >= 5, f"show: sales of drawn sheets: {kinds}")


def count_kinds(kinds, rows, support, bilateral, capacity, excess, support_after, capacity_after):
    kinds["one row"] += rows == 1
    kinds["several rows"] += rows > 1
    kinds["T cut"] += support_after < support
    kinds["B cut"] += capacity - capacity_after > support - support_after
    kinds["nothing left"] += 0 < support + bilateral <= excess


def test_example():
    """examples/README.md has the sales of `after-cut`, and its listing."""
    check_example("after-cut", "Sales, ")
