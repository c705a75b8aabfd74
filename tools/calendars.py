"""A month as a printed calendar, and the module's table of control weekdays, which is printed as seven such months.

Which days fall on a control weekday is read in the printed table and not worked out here.
"""
import re
from pathlib import Path

from files import Trouble, read_text
from forms import month_words
from monthtext import at, shown
from printing import WEEKDAYS
from records import CONTROL_HOURS, Header
from refusals import LAST_DAY, without_month

TABLE = Path(__file__).resolve().parent.parent / "crates" / "seven_months" / "stdout"
CONTROL, HOLIDAY = "*", "h"     # marks, which stand before a day's number
LEGEND = f"{CONTROL} control day, {HOLIDAY} holiday"
# In the table: a mark, and a day with its mark or none.
MARK = re.compile(r"\*(?=[0-9])")
DAY = re.compile(r"(\*?)[0-9]+")


def week_lines(weekday, marks):
    """The days under their weekdays, each with its mark, which may be empty; weekday is that of day 1."""
    cells = [name[:2] for name in WEEKDAYS] + [""] * (weekday - 1)
    cells += [f"{mark}{day}" for day, mark in enumerate(marks, 1)]
    return ["".join(f"{cell:>4}" for cell in cells[place:place + 7]) for place in range(0, len(cells), 7)]


# ------------------------------------------------------------------ the table


def read_table():
    """The table's lines, and the marks of its months, from the one that begins on Monday to that on Sunday."""
    with at("the table of control weekdays"):
        text = read_text(TABLE)
        check_form(text)
    return text.split("\n")[:-1], [DAY.findall(month) for month in text.split("\n\n")[1:]]


def check_form(text):
    """Turns down what is no table. The words of the first line and the marks are the table's own."""
    lines, wanted = text.split("\n")[1:], [*unmarked_lines(), ""]
    if len(lines) != len(wanted):
        raise Trouble(f"{TABLE}: has {len(lines)} lines; seven months take {len(wanted)}")
    for number, (line, form) in enumerate(zip(lines, wanted), 2):
        if MARK.sub(" ", line) != form:
            raise Trouble(f"{TABLE}, line {number}: is {shown(line)}, not {shown(form)}, marks aside")


def unmarked_lines():
    """The table's lines after the first, without marks."""
    for weekday, name in enumerate(WEEKDAYS, 1):
        yield from ("", f"A month that begins on {name}", *week_lines(weekday, [""] * LAST_DAY))


# ------------------------------------------------------------------ a month


def month_of(given):
    """The month of a sheet's header, whatever else is wrong with the sheet."""
    found = without_month(given.content)
    if found:
        raise Trouble(*(f"{given.name}: has no calendar: {each.rule}; {given.words(each)}" for each in found))
    return Header.from_bytes(given.content).month


def month_lines(given):
    """The calendar of a month. A holiday is marked as one on every weekday."""
    month, (_, table) = month_of(given), read_table()
    marks = [HOLIDAY if month.holidays >> day & 1 else mark
             for day, mark in enumerate(table[month.weekday - 1][:month.days])]
    control = marks.count(CONTROL)
    counts = {"control days": control, "control hours": control * len(CONTROL_HOURS), "holidays": marks.count(HOLIDAY)}
    return [f"{given.name}: {month_words(given)}", *week_lines(month.weekday, marks), "", LEGEND,
            *(f"{words:20}{count}" for words, count in counts.items())]
