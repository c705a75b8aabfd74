"""What k1 takes from outside use, as show prints it: the control average and D to a hundredth of a megawatt, percent
and n. A complex's record keeps its tenth."""
import random
import re
from array import array
from fractions import Fraction

import drawn
import printing
import records
from checks import EXAMPLES, check, check_example, sheet, words_of

TRACED = re.compile(r"control hours (\d+), their sum .*, average (.*), D (.*), p (\d+), n (.*)")

# 28 days from a Monday have 120 control hours. Outside use in all of them, in tenths; in how many of them it is a tenth
# more, 12 of which make a hundredth on average; deductible capacity, in tenths; then average, D, percent and n.
SHOWN = [
    # 1.05 and not 1.1: 0.05 over 1.0 is 5.0 percent. By the tenth 10.0 percent, n 1.3.
    (10, 60, 10, "1.05 0.05 5.0 0.0"),
    # 2.11: 0.11 over 2.0. By the tenth 2.1, 5.0 percent, n 0.
    (21, 12, 20, "2.11 0.11 5.5 1.3"),
    # 1.235, a half of a hundredth, is 1.24; one hour less, 1.23416.., is 1.23. By the tenth 1.2, 20.0 percent, n 1.3.
    (12, 42, 10, "1.24 0.24 24.0 1.5"),
    (12, 41, 10, "1.23 0.23 23.0 1.5"),
    # 0.525 is 0.53, and n is 1.3; one hour less, 0.52416.., is 0.52, and n is 0.
    (5, 30, 5, "0.53 0.03 6.0 1.3"),
    (5, 29, 5, "0.52 0.02 4.0 0.0"),
    # 0.75 and 1.51: 0.25 over 0.5, 0.51 over 1.0. By the tenth 0.8 and 1.5, n 2.0 and 1.7.
    (7, 60, 5, "0.75 0.25 50.0 1.7"),
    (15, 12, 10, "1.51 0.51 51.0 2.0"),
    # 1.01 over 20.0 is 5.05 percent, rounded 5.1.
    (210, 12, 200, "21.01 1.01 5.1 1.3"),
    # Not below 0; at deductible capacity; half of a hundredth above it.
    (10, 60, 11, "1.05 0.00 0.0 0.0"),
    (10, 0, 10, "1.00 0.00 0.0 0.0"),
    (10, 6, 10, "1.01 0.01 1.0 0.0"),
    # No deductible capacity: any D counts as 50.1 percent.
    (0, 0, 0, "0.00 0.00 0.0 0.0"),
    (0, 5, 0, "0.00 0.00 0.0 0.0"),
    (0, 6, 0, "0.01 0.01 50.1 2.0"),
    (100_000, 0, 0, "10000.00 10000.00 50.1 2.0"),
]
# The same powers drawn by a complex that sends out and imports nothing, and its average in show: a half of a tenth is
# rounded upward, and 1.045 at once, not by way of 1.05.
COMPLEX = [(10, 60, "1.1"), (10, 59, "1.0"), (10, 54, "1.0"), (12, 42, "1.2")]


def powers_of(month, tenths, hours_of_more):
    """Powers of so many tenths, a tenth more in the first so many control hours; outside these, 50.0 MW."""
    powers, control = array("I", [500]) * month.hours, month.control_hours()
    for number, hour in enumerate(control):
        powers[hour] = tenths + (number < hours_of_more)
    return powers


def producer_of(deductible, *powers):
    return records.Producer(1, deductible, 1, [0] * 3, [0] * 6, *powers)


def shown(month, producer):
    """The cells of the hours of a sheet's only producer."""
    content = records.Sheet(month, [producer], [], []).to_bytes()
    heads, cells = (line.split() for line in sheet("show", "-", stdin=content).stdout.decode().splitlines()[-2:])
    check(" ".join(heads[4:]) == "control hours control average D percent n", "show: the columns of outside use",
          str(heads))
    return cells


def test_shown():
    """Figures worked out by hand, each edge of a band among them where the tenth would meet another n."""
    month = records.Month(28, 1, 0)
    for tenths, hours_of_more, deductible, figures in SHOWN:
        powers = powers_of(month, tenths, hours_of_more)
        cells = shown(month, producer_of(deductible, powers, powers, powers))
        check(cells[4:] == ["120", *figures.split()], f"show: outside use: {figures}", str(cells))


def test_averages():
    """The control average is that of the control hours, in any month; 0 where there is none."""
    rng = random.Random(20211022)
    for weekday, holidays, count in ((1, 0, 120), (6, 2 ** 28 - 1, 0), (7, 0b10, 114), (3, 1 << 3, 120)):
        month = records.Month(28, weekday, holidays)
        powers = [array("I", (rng.randrange(3000) for _ in range(month.hours))) for _ in range(3)]
        control = [power for hour, power in enumerate(powers[2])
                   if 17 <= hour % 24 <= 22 and (weekday - 1 + hour // 24) % 7 < 5 and not holidays >> hour // 24 & 1]
        average = int(Fraction(10 * sum(control), count) + Fraction(1, 2)) if count else 0
        cells = shown(month, producer_of(1, *powers))
        check(len(control) == count and cells[4:6] == [str(count), f"{average // 100}.{average % 100:02}"],
              f"show: control hours and average from weekday {weekday}", str(cells))


def test_by_rival(cases, answers):
    """The same figures as in the rival's trace, on drawn sheets; in many of them hundredths are left over."""
    fine = 0
    for found, trace in drawn.traces(cases, answers):
        wanted = [[hours, average, over, records.Z.text(int(p)), n]
                  for hours, average, over, p, n in TRACED.findall(trace)]
        cells = [printing.hour_cells(producer, found.month)[3:] for producer in found.producers]
        check(cells == wanted, "show: outside use by the rival's trace", f"{cells}\n{wanted}")
        fine += any(not average.endswith("0") for _, average, *_ in wanted)
    check(fine >= drawn.BY_TRACE // 3, f"show: only {fine} drawn sheets have an average that is no whole tenth")


def test_complex(folder):
    """The average of net power is to a tenth."""
    month = records.Month(31, 3, 1 << 0 | 1 << 15 | 1 << 16)    # of the example, December 2021: 120 control hours
    for tenths, hours_of_more, average in COMPLEX:
        lines = "".join(f"{records.CAPACITY.text(power)},0\n" for power in powers_of(month, tenths, hours_of_more))
        (folder / "a.complex.csv").write_text(f"consumer,1\nimported,0\ndrawn,sent\n{lines}")
        done = sheet("show", "--complex", "a.complex.csv", EXAMPLES / "small.sheet", folder=folder)
        check(done.stdout.decode().splitlines()[-1].split()[2:4] == ["120", average],
              f"show --complex: an average of {average}", words_of(done))


def test_example():
    """examples/README.md has what show says of the hours of `small-deductible`, and its listing."""
    check_example("small-deductible", "Hours, ")
