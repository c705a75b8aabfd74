#!/usr/bin/env python3
"""Makes the stored sheets that the program `listings` prints, and the sheet on the standard input of `settle` and of
`settle_2015`.

  tools/stored_sheets.py          writes crates/listings/data/*, crates/settle/stdin and crates/settle_2015/stdin
  tools/stored_sheets.py RIVAL    also writes the stdout of these three, as the rival program RIVAL lists the sheets

Every figure stands below, save those of an example month: capacities and volumes in tenths of a megawatt, prices in
tiyn per megawatt and month, coefficients in millionths. Nothing is random, so each run writes the same bytes.
"""
import subprocess
import sys
from array import array
from pathlib import Path

sys.dont_write_bytecode = True

from records import DAY_ROWS, FULL_ROWS, ONE, SINGLE_BUYER, Consumer, Month, Producer, Row, Sheet

ROOT = Path(__file__).resolve().parent.parent
CRATES = ROOT / "crates"
IDLE = [(0, 0, 0)] * (24 * 28)    # hours of 28 days


def sheet(days, weekday, holidays=0, producers=(), rows=(), consumers=(), version=FULL_ROWS):
    return Sheet(Month(days, weekday, holidays), list(producers), list(rows), list(consumers), version).to_bytes()


def producer(attested, deductible, own_needs, missing, given, hours):
    """missing: hours without an upward bid, without a downward bid, without a plan; given: k3, k6 to k10."""
    return Producer(attested, deductible, own_needs, missing, given, *(array("I", powers) for powers in zip(*hours)))


def example():
    """Document 01's example: one consumer."""
    return sheet(30, 1, consumers=[Consumer(1000, 1260, 0, 0, 10, 100000)])


def month():
    """28 days from a Sunday, day 6 a holiday: two producers, support and bilateral rows, a cut, all bands."""
    first = [(1400 + 7 * i % 211, 1500 + 5 * i % 97, 100 + 3 * i % 31) for i in range(24 * 28)]
    second = [(600 + 11 * i % 301, 850 + i % 7, 20 + i % 5) for i in range(24 * 28)]
    return sheet(
        28, 7, 1 << 5,
        producers=[
            producer(1500, 100, 20, (12, 30, 4), (ONE, 999000, ONE, 998500, ONE, ONE), first),
            producer(800, 20, 15, (0, 0, 0), (987654, ONE, ONE, ONE, 999999, ONE), second),
        ],
        rows=[
            Row(0, SINGLE_BUYER, 900, 61234567),
            Row(0, 0, 400, 58000000),
            Row(1, SINGLE_BUYER, 505, 60000001),
            Row(0, 2, 251, 57500050),
            Row(1, 1, 333, 59999999),
            Row(0, 0, 7, 1),
        ],
        consumers=[
            Consumer(1000, 1450, 0, 0, 10, 61000000),
            Consumer(500, 900, 0, 0, 11, 61000000),
            Consumer(777, 1140, 3, 0, 10, 60500025),
            Consumer(200, 282, 0, 5, 10, 199999999),
            Consumer(1, 500, 0, 0, 10, 33),
            Consumer(640, 640, 1, 2, 15, 61000000),
            Consumer(300, 450, 0, 0, 10, 61000000),
        ],
    )


def inside_month():
    """Version 2, 30 days: rows that begin, end or lie inside the month, cover its first or last day alone, or all of
    it. The first is cut in part."""
    hours = [(1700 + 13 * i % 307, 1900 + 3 * i % 101, 60 + i % 9) for i in range(24 * 30)]
    return sheet(
        30, 3, 1 << 14,
        producers=[producer(1800, 60, 10, (6, 0, 1), (ONE, 998765, ONE, ONE, 999999, ONE), hours)],
        rows=[
            Row(0, SINGLE_BUYER, 900, 61234567, 10, 30),
            Row(0, 0, 333, 58000001, 1, 15),
            Row(0, 1, 257, 59999999, 7, 19),
            Row(0, 0, 100, 60000000, 1, 1),
            Row(0, 1, 101, 60000000, 30, 30),
            Row(0, SINGLE_BUYER, 201, 57500050, 1, 30),
        ],
        consumers=[
            Consumer(200, 450, 0, 0, 10, 61000000),
            Consumer(150, 300, 0, 1, 12, 61000000),
        ],
        version=DAY_ROWS,
    )


def zeros():
    """A month of noughts: idle hours, volumes, prices, peaks and a coefficient of 0."""
    return sheet(
        28, 1,
        producers=[producer(1000, 0, 0, (0, 0, 0), (0, ONE, ONE, ONE, ONE, ONE), IDLE)],
        rows=[
            Row(0, SINGLE_BUYER, 0, 0),
            Row(0, 0, 0, 60000000),
            Row(0, SINGLE_BUYER, 500, 60000000),
        ],
        consumers=[
            Consumer(0, 0, 0, 0, 10, 0),
            Consumer(0, 0, 0, 0, 10, 60000000),
            Consumer(100, 0, 0, 0, 10, 0),
            Consumer(0, 1, 0, 0, 10, 0),
        ],
    )


def largest():
    """The largest sheet, 54,698 bytes of version 2, with the largest payments, totals, volumes and charges."""
    full = [(100000, 100000, 0)] * (24 * 31)
    return sheet(
        31, 1,
        producers=[producer(100000, 0, 100000, (0, 0, 0), (ONE,) * 6, full)] * 6,
        rows=[Row(j % 6, SINGLE_BUYER, 100000, 200000000, 1, 31) for j in range(32)],
        consumers=[Consumer(0, 100000, 31, 31, 100, 200000000)] * 32,
        version=DAY_ROWS,
    )


def refused_18():
    """Version 2: a row ends on day 29 of 28; all else is accepted."""
    return sheet(
        28, 1,
        producers=[producer(1000, 0, 0, (0, 0, 0), (ONE,) * 6, IDLE)],
        rows=[Row(0, SINGLE_BUYER, 10, 10, 1, 28), Row(0, SINGLE_BUYER, 10, 10, 28, 29)],
        version=DAY_ROWS,
    )


# In the order of the program.
STORED = {
    "month": month(),
    "inside_month": inside_month(),
    "small_deductible": (ROOT / "examples/small-deductible.sheet").read_bytes(),
    "columns": (ROOT / "examples/columns.sheet").read_bytes(),
    "zeros": zeros(),
    "largest": largest(),
    "header": sheet(28, 1),
    "refused_1": sheet(28, 1)[:13],
    "refused_2": example()[:-1],
    "refused_9": sheet(28, 1, consumers=[Consumer(0, 100001, 0, 0, 10, 0)]),
    "refused_12": sheet(28, 1, consumers=[Consumer(0, 0, 0, 0, 9, 0)]),
    "refused_18": refused_18(),
}


def main():
    data, programs = CRATES / "listings/data", {"settle": "list", "settle_2015": "list2015"}
    data.mkdir(exist_ok=True)
    for name, content in STORED.items():
        (data / name).write_bytes(content)
    for program in programs:
        (CRATES / program / "stdin").write_bytes(example())
    if len(sys.argv) > 1:
        write_listed("listings", "list", [data / name for name in STORED])
        for program, command in programs.items():
            write_listed(program, command, [CRATES / program / "stdin"])


def write_listed(program, command, sheets):
    """What a program is to print for sheets: their listings by the rival."""
    lists = [subprocess.run([sys.argv[1], command, path], capture_output=True, check=True).stdout for path in sheets]
    (CRATES / program / "stdout").write_bytes(b"".join(lists))


if __name__ == "__main__":
    main()
