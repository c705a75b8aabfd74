"""calendar: months as printed, against those of Python's own calendar; the table that they go by; what is turned down.

What is wanted is made with the modules calendar and datetime from real months.
"""
import calendar
import datetime
import random
import re
import shutil
from contextlib import contextmanager

import calendars
import records
import refusals
from checks import EXAMPLES, ROOT, SHEET, check, run, sheet, turned_down, words_of
from texts import GOOD, MONTH, changed

SEED = 20211216
DRAWN = 12     # months with drawn holidays, for each count of days and first weekday
TABLE = ROOT / "crates" / "seven_months" / "stdout"
TABLE_TEXT = TABLE.read_bytes().decode()
HEAD = "The table of control weekdays: * marks Monday to Friday. Holidays stand in a sheet, not here.\n"
HEADS = "  Mo  Tu  We  Th  Fr  Sa  Su"
# A real month, year and number, for each count of days and weekday of day 1.
FIRST_DAYS = [datetime.date(year, month, 1) for year in range(1990, 2030) for month in range(1, 13)]
REAL = {(calendar.monthrange(first.year, first.month)[1], first.isoweekday()): (first.year, first.month)
        for first in FIRST_DAYS}

# ------------------------------------------------------------------ what is wanted


def cell_of(year, month, day, holidays):
    if day == 0:     # of another month
        return 4 * " "
    mark = "h" if day in holidays else "*" if datetime.date(year, month, day).weekday() < 5 else ""
    return f"{mark}{day}".rjust(4)


def real_weeks(year, month, holidays=()):
    """The weeks of a real month under their heads."""
    weeks = ["".join(cell_of(year, month, day, holidays) for day in week).rstrip()
             for week in calendar.monthcalendar(year, month)]
    return "\n".join([HEADS, *weeks, ""])


def real_calendar(title, year, month, holidays=()):
    """All that is printed of a real month."""
    control = sum(day not in {0, *holidays} for week in calendar.monthcalendar(year, month) for day in week[:5])
    return (f"{title}\n{real_weeks(year, month, holidays)}\n* control day, h holiday\ncontrol days        {control}\n"
            f"control hours       {6 * control}\nholidays            {len(holidays)}\n")


def title_of(days, weekday, name="standard input"):
    return f"{name}: {days} days from a {calendar.day_name[weekday - 1]}"


def month_bytes(days, weekday, holidays=0):
    """A sheet without records."""
    return records.Sheet(records.Month(days, weekday, holidays), [], [], []).to_bytes()


def check_printed(done, wanted, name):
    check(done.returncode == 0 and done.stdout.decode() == wanted and not done.stderr, f"calendar: {name}",
          f"{words_of(done)}\nwanted\n{wanted}")


# ------------------------------------------------------------------ months


def test_real_months():
    """Every count of days from every first weekday."""
    check(sorted(REAL) == [(days, weekday) for days in range(28, 32) for weekday in range(1, 8)],
          "calendar: a real month for each count of days and first weekday", str(sorted(REAL)))
    for (days, weekday), real in REAL.items():
        done = sheet("calendar", "-", stdin=month_bytes(days, weekday))
        check_printed(done, real_calendar(title_of(days, weekday), *real), f"{days} days from weekday {weekday}")


def drawn_holidays(rng, days, weekends):
    """Holidays as bits: all days, the weekends, the first, the last, and drawn ones, few or many."""
    yield from (2 ** days - 1, sum(1 << day - 1 for day in weekends), 1, 1 << days - 1)
    for count in range(DRAWN):
        bits = rng.getrandbits(days)
        yield bits if count % 3 == 0 else bits & rng.getrandbits(days) & rng.getrandbits(days)


def test_holidays():
    """Holidays on all weekdays; the counts are those of the control hours too."""
    rng, on_weekends = random.Random(SEED), 0
    for (days, weekday), real in REAL.items():
        weekends = [day for week in calendar.monthcalendar(*real) for day in week[5:] if day]
        for bits in drawn_holidays(rng, days, weekends):
            holidays = {day for day in range(1, days + 1) if bits & 1 << day - 1}
            on_weekends += bool(holidays & {*weekends})
            done = sheet("calendar", "-", stdin=month_bytes(days, weekday, bits))
            name = f"{days} days from weekday {weekday}, holidays {sorted(holidays)}"
            check_printed(done, real_calendar(title_of(days, weekday), *real, holidays), name)
            hours = len(records.Month(days, weekday, bits).control_hours())
            counts = [int(line.split()[-1]) for line in done.stdout.decode().splitlines()[-3:]]
            check(counts == [hours // 6, hours, len(holidays)], f"calendar: the counts of {name}", words_of(done))
    check(on_weekends > 28 * DRAWN // 2, f"calendar: only {on_weekends} months with holidays on weekends")


def test_ways(folder):
    """A text, its sheet, and the sheet on standard input have the same weeks and counts, under their own titles."""
    text, packed = (EXAMPLES / f"small.{ending}" for ending in ("toml", "sheet"))
    (folder / "days.toml").write_text(changed(text.read_text(), [
        ("year = 2021\nmonth = 12", "days = 31\nweekday = 3"),
        ("[2021-12-01, 2021-12-16, 2021-12-17]", "[17, 1, 16]")]))
    for name, stdin, title in (
        (text, b"", f"{text}: December 2021"),
        (packed, b"", title_of(31, 3, packed)),
        ("-", packed.read_bytes(), title_of(31, 3)),
        ("days.toml", b"", title_of(31, 3, "days.toml")),
    ):
        wanted = real_calendar(title, 2021, 12, {1, 16, 17})
        check_printed(sheet("calendar", name, folder=folder, stdin=stdin), wanted, title)
        check_printed(run(SHEET, "calendar", name, folder=folder, stdin=stdin), wanted, f"{title}, started")


# ------------------------------------------------------------------ the table


@contextmanager
def table_at(path):
    """The tools go by another file for a while."""
    kept, calendars.TABLE = calendars.TABLE, path
    try:
        yield
    finally:
        calendars.TABLE = kept


def opposite(text):
    """The marked days without their mark, and with one those that have none."""
    return re.sub("[* ](?=[0-9])", lambda found: {"*": " ", " ": "*"}[found.group()], text)


def test_table():
    """The seven months are those of Python's calendar, and without a month they are printed as they stand."""
    wanted = [f"\nA month that begins on {calendar.day_name[weekday - 1]}\n{real_weeks(*REAL[31, weekday])}"
              for weekday in range(1, 8)]
    check(TABLE_TEXT == "".join([HEAD, *wanted]), "crates/seven_months/stdout has the months of Python's calendar")
    check_printed(sheet("calendar"), TABLE_TEXT, "the table")
    check_printed(run(SHEET, "calendar", folder="/"), TABLE_TEXT, "the table, started in another folder")


def test_other_table(folder):
    """Control weekdays are those of the file, not worked out: where it marks the others, so does the calendar."""
    other = folder / "crates" / "seven_months" / "stdout"
    shutil.copytree(ROOT / "tools", folder / "tools")
    copied = folder / "tools" / "sheet", "calendar"
    done = run(*copied)
    check(done.returncode == 1 and f"{other.resolve()}: cannot be read: No such file" in done.stderr.decode(),
          "calendar: copied tools without a table", words_of(done))
    other.parent.mkdir(parents=True)
    other.write_text(opposite(TABLE_TEXT))
    check_printed(run(*copied), opposite(TABLE_TEXT), "copied tools go by the table beside them")
    with table_at(other):
        check_printed(sheet("calendar"), opposite(TABLE_TEXT), "another table")
        for (days, weekday), real in REAL.items():
            done = sheet("calendar", "-", stdin=month_bytes(days, weekday, 0b111_0000_0001))
            weeks = opposite(real_weeks(*real, {1, 9, 10, 11}))
            check(done.stdout.decode().startswith(f"{title_of(days, weekday)}\n{weeks}\n")
                  and f"control days        {weeks.count('*')}\n".encode() in done.stdout,
                  f"calendar: another table, {days} days from weekday {weekday}", words_of(done))


# A change of the table, and what is said of the file, after its name.
FIRST_WEEK = "  *1  *2  *3  *4  *5   6   7\n"
LAST_WEEK = " *29 *30 *31\n\nA month that begins on Tuesday"
END = " *23 *24 *25 *26 *27  28  29\n *30 *31\n"
BAD_TABLES = [
    (TABLE_TEXT, "", ": has 0 lines; seven months take 59"),
    (TABLE_TEXT, "N4\n", ": has 1 lines; seven months take 59"),
    (HEAD, "", ": has 58 lines; seven months take 59"),
    (FIRST_WEEK, "", ": has 58 lines; seven months take 59"),
    (END, END[:-9], ": has 58 lines; seven months take 59"),
    (END, END[:-1], ": has 58 lines; seven months take 59"),
    (END, f"{END}\n", ": has 60 lines; seven months take 59"),
    (END, f"{END}more", ', line 60: is "more", not "", marks aside'),
    (f"{HEAD}\n", f"\n{HEAD}", f', line 2: is "{HEAD[:56]}..., not "", marks aside'),
    ("\n", "\r\n", ', line 2: is "\\r", not "", marks aside'),
    ("Monday\n", "Montag\n", ', line 3: is "A month that begins on Montag", not "A month that begins on Monday"'),
    ("Tuesday", "Sunday", ', line 11: is "A month that begins on Sunday", not "A month that begins on Tuesday"'),
    (HEADS, f"  Su{HEADS[:-4]}", f', line 4: is "  Su{HEADS[:-4]}", not "{HEADS}", marks aside'),
    (FIRST_WEEK, f" {FIRST_WEEK}", f', line 5: is " {FIRST_WEEK[:-1]}", not "   1   2   3   4   5   6   7", marks'),
    (FIRST_WEEK, f"{FIRST_WEEK[:-1]} \n", f', line 5: is "{FIRST_WEEK[:-1]} ", not'),
    *((FIRST_WEEK, FIRST_WEEK.replace(" *4", cell), f', line 5: is "  *1  *2  *3 {cell}  *5   6   7", not')
      for cell in ("**4", "* 4", "4* ", " h4", " x4", " *5", "*14")),
    (LAST_WEEK, LAST_WEEK.replace(" *31", ""), ', line 9: is " *29 *30", not "  29  30  31", marks aside'),
    (LAST_WEEK, LAST_WEEK.replace("31", "31  32"), ', line 9: is " *29 *30 *31  32", not "  29  30  31", marks aside'),
    (LAST_WEEK, LAST_WEEK.replace("\n\n", "\n \n"), ', line 10: is " ", not "", marks aside'),
]


def test_bad_tables(folder):
    """A table that is missing or has another form: with a month and without, nothing is printed but why."""
    other = folder / "stdout"
    cases = [(changed(TABLE_TEXT, [(old, new)]).encode(), words) for old, new, words in BAD_TABLES]
    cases += [(None, ": cannot be read: No such file or directory"),
              (TABLE_TEXT.encode().replace(b"*9", b"*\xff", 1), ", line 6: is not text in UTF-8")]
    for content, words in cases:
        other.unlink(missing_ok=True)
        if content is not None:
            other.write_bytes(content)
        bad_table(other, words, folder)
    bad_table(folder, ": cannot be read: Is a directory", folder)


def bad_table(path, words, folder):
    message = " ".join(f"tools/sheet: the table of control weekdays: {path}{words}".split())
    with table_at(path):
        for month in ([], [EXAMPLES / "small.toml"]):
            turned_down("calendar: a bad table", folder, ["calendar", *month], message)


# ------------------------------------------------------------------ sheets that are turned down, and others

HEADER_FIELDS = {0: "length", 4: "version", 5: "days in the month", 6: "weekday of day 1", 7: "holidays",
                 11: "count of producers", 12: "count of rows", 13: "count of consumers"}
# The number of a refusal, the place of a byte in the header, and figures that are wrong there.
BAD_FIGURES = [(3, 4, (0, 9, 255)), (4, 5, (0, 27, 32, 255)), (4, 6, (0, 8, 255))]
# Lines in place of those of the good text's month, and what is said of it, after its name.
BAD_MONTHS = [
    ("days = 27\nweekday = 1\nholidays = []", "days in the month, 27"),
    ("days = 28\nweekday = 8\nholidays = [1]", "weekday of day 1, 8"),
    ("days = 30\nweekday = 1\nholidays = [30, 31]", "holidays, day 31 in a month of 30 days"),
    ("days = 27\nweekday = 0\nholidays = [27, 28, 32]",
     "days in the month, 27 (and 3 more; tools/sheet check lists them all)"),
]


def without_calendar(folder, content, number, words):
    turned_down("calendar", folder, ["calendar", "-"], "tools/sheet: standard input: has no calendar: "
                f"{refusals.RULES[number]}; {words}", stdin=content)


def test_turned_down(folder):
    """Numbers 1, 3 and 4, each with its field; texts that cannot be packed."""
    for length in range(records.HEADER):
        place = max(place for place in HEADER_FIELDS if place <= length)
        without_calendar(folder, month_bytes(30, 1)[:length], 1, f"byte {place}: {HEADER_FIELDS[place]}, which is cut "
                         f"off: the sheet ends after {length} bytes")
    for number, place, figures in BAD_FIGURES:
        for figure in figures:
            content = bytearray(month_bytes(30, 1))
            content[place] = figure
            without_calendar(folder, bytes(content), number, f"byte {place}: {HEADER_FIELDS[place]}, {figure}")
    for days in range(28, 32):
        for day in range(days + 1, 33):
            without_calendar(folder, month_bytes(days, 1, 1 << day - 1), 4,
                             f"byte 7: holidays, day {day} in a month of {days} days")
    without_calendar(folder, bytes.fromhex("0000000e 09 1b 08 ffffffff 00 00 00"), 3,
                     "byte 4: version, 9 (and 7 more; tools/sheet check lists them all)")
    text = folder / "month.toml"
    for lines, words in BAD_MONTHS:
        text.write_text(changed(GOOD, [(MONTH, lines)]))
        turned_down("calendar", folder, ["calendar", "month.toml"],
                    f"tools/sheet: month.toml: has no calendar: {refusals.RULES[4]}; {words}")
    text.write_text(changed(GOOD, [('"110.0"', '"x"'), ("month = 2", "month = 13")]))
    turned_down("calendar", folder, ["calendar", "month.toml"], "tools/sheet: month.toml: month: 13 is not a whole "
                "number from 1 to 12 (and 1 more; tools/sheet check lists them all)")


def test_refused_otherwise():
    """A sheet that another number refuses has its calendar."""
    for number in {*refusals.TRIED} - {1, 3, 4, refusals.BUFFER_NUMBER}:
        path = EXAMPLES / f"refused-{number}.sheet"
        check_printed(sheet("calendar", path), real_calendar(title_of(30, 1, path), 2021, 11), path.name)
        text = path.with_suffix(".toml")
        if text.is_file():
            check_printed(sheet("calendar", text), real_calendar(f"{text}: November 2021", 2021, 11), text.name)
    for name, content, number in (
        ("another length", bytes(4) + month_bytes(29, 5, 2)[4:], 2),
        ("counts of 255", month_bytes(29, 5, 2)[:11] + 3 * b"\xff", 5),
        ("a longer file than the program takes", month_bytes(29, 5, 2) + bytes(refusals.HANDED_OVER), 2),
    ):
        check(refusals.first_refusal(content).number == number, f"calendar: {name}: is refused by {number}")
        wanted = real_calendar(title_of(29, 5), *REAL[29, 5], {2})
        check_printed(sheet("calendar", "-", stdin=content), wanted, name)


# ------------------------------------------------------------------ what is said of it


def test_told():
    """The README's example is what is printed; README and help name the command and the file that it goes by."""
    readme, file = (ROOT / "tools" / "README.md").read_text(), str(TABLE.relative_to(ROOT))
    done = sheet("calendar", "examples/small.toml", folder=ROOT)
    check(f"And `tools/sheet calendar examples/small.toml`:\n\n```\n{done.stdout.decode()}```\n" in readme,
          "tools/README.md has the calendar", words_of(done))
    helped = " ".join(sheet("calendar", "--help").stdout.decode().split())
    check("    tools/sheet calendar [MONTH] " in readme and f"`{file}`" in readme and "`calendars.py`" in readme,
          "tools/README.md has calendar, its file and its module")
    check("tools/sheet calendar [-h] [MONTH]" in helped and f" {file}, " in helped, "calendar --help", helped)
    check(" calendar print a sheet's month " in " ".join(sheet("--help").stdout.decode().split()), "--help: calendar")
