"""A month kept as text: a TOML file, with a CSV file for each producer whose hours differ. README.md lists the keys.

A figure is taken digit by digit as it is written, in quotes or without, so nothing passes through a binary fraction.
What is wrong in several places is told together: a Trouble has a line for each fault.
"""
import calendar
import datetime
import os
import re
from array import array
from contextlib import contextmanager
from functools import partial
from typing import Callable, NamedTuple

from files import CHECK, Trouble, read_text
from kinds import begun_as, kind_of
from names import LONGEST_NAME, Names, wrong_character
from records import (BUYER, COLUMN_HOURS, CONSUMER_FIELDS, DAY_ROWS, DAYS, FULL_ROWS, HEADER_FIELDS, HOUR_FIELDS, HOURS,
                     PLAIN, PRODUCER_FIELDS, PRODUCER_NUMBER, ROW_DAY, ROW_DAY_FIELDS, ROW_FIELDS, SINGLE_BUYER,
                     SINGLE_BUYER_WORDS, VERSIONS, Consumer, Month, Producer, Row, Sheet, layout_words, row_fields)

MONTH_FIELDS = [field for field in HEADER_FIELDS if field.key in ("days", "weekday")]
TOP_KEYS = ("year", "month", "days", "weekday", "holidays", "version", "producer", "row", "consumer")
MOST_RECORDS = 255      # that a count byte holds
LAST_HOLIDAY = 32       # the last day that the holidays' bits can name
MOST_LINES = 3          # of a CSV file of hours that are told as wrong one by one
NUMBER = re.compile(r"([0-9]+)(?:\.([0-9]+))?")
DATE = re.compile(r"[0-9]{4}-[0-9]{2}-[0-9]{2}")


def keys_of(fields):
    return tuple(field.key for field in fields)


DAY_KEYS = keys_of(ROW_DAY_FIELDS)


@contextmanager
def at(place):
    """Names a place of the text before what goes wrong there."""
    try:
        yield
    except Trouble as trouble:
        raise Trouble(*(f"{place}: {line}" for line in trouble.lines)) from None


class Faults:
    """What goes wrong in parts that do not need one another, to be told together."""

    def __init__(self):
        self.lines = []

    @contextmanager
    def part(self):
        try:
            yield
        except Trouble as trouble:
            self.lines.extend(trouble.lines)

    def tell(self, lister=CHECK):
        if self.lines:
            raise Trouble(*self.lines, lister=lister)


def shown(value):
    """A value of the text in a message, on one line and not too long."""
    if isinstance(value, (list, dict)):
        return "a list" if isinstance(value, list) else "a table"
    if is_whole(value) and abs(value) >= 10 ** 30:
        return "this number"
    text = f'"{value}"' if isinstance(value, str) else str(value)
    text = "".join(each if each.isprintable() else repr(each)[1:-1] for each in text)
    return text if len(text) <= 60 else text[:57] + "..."


# ------------------------------------------------------------------ figures


def figure_of(value, field):
    """The number that goes into the field for a figure as it is written: it must fit, and nothing is rounded."""
    unit = field.unit
    if isinstance(value, str):
        number = number_of(value.strip(), unit)
    elif is_whole(value):
        number = value * 10 ** unit.decimals
    else:
        raise Trouble(f"{shown(value)} is no number")
    if number < 0:
        raise Trouble(f"{shown(value)} is negative")
    if number > field.most:
        raise Trouble(f"{shown(value)} does not fit its field, which holds at most {unit.text(field.most)}")
    return number


def is_whole(value):
    return isinstance(value, int) and not isinstance(value, bool)


def number_of(text, unit):
    """A number written in digits, with a point if it has decimals, as a whole number of the unit's last decimal."""
    found = NUMBER.fullmatch(text.removeprefix("-"))
    if found is None:
        raise Trouble(f"{shown(text)} is not a number written plainly, as {'100.0' if unit.decimals else '100'}")
    if text.startswith("-"):
        raise Trouble(f"{shown(text)} is negative")
    whole, part = found.group(1).lstrip("0"), (found.group(2) or "").rstrip("0")
    if len(part) > unit.decimals:
        most = {0: "decimals, and a whole number is asked for", 1: "more than one decimal", 2: "more than two decimals"}
        raise Trouble(f"{shown(text)} has {most.get(unit.decimals, f'more than {unit.decimals} decimals')}")
    if len(whole) > 20:
        raise Trouble(f"{shown(text)} is too large")
    return int((whole + part.ljust(unit.decimals, "0")) or "0")


def read_figures(table, fields, faults, figure=figure_of):
    """The figures of a table, in the order of the fields, as far as they can be read."""
    figures = []
    for field in fields:
        if field.key in table:
            with faults.part(), at(field.key):
                figures.append(figure(table[field.key], field))
    return figures


def row_figure(value, field, known):
    """A figure of a row. known: the KnownMonth, or None if it cannot be read."""
    if field.unit is BUYER:
        return buyer_of(value, field)
    return row_day_of(value, field, known) if field.unit is ROW_DAY else figure_of(value, field)


def buyer_of(value, field):
    """A consumer's number, or the single buyer's; the latter is not written as a number, since no consumer has it."""
    if value == SINGLE_BUYER_WORDS:
        return SINGLE_BUYER
    number = figure_of(value, field)
    if number == SINGLE_BUYER:
        raise Trouble(f'{shown(value)} stands for the single buyer in a sheet; in a text write "{SINGLE_BUYER_WORDS}"')
    return number


def row_day_of(value, field, known):
    """A row's first or last day: a date of the month, or a number, which the field may hold though no month does."""
    date = date_of(value)
    if date is not None:
        return day_of_date(date, known.dates) if known else date.day
    if not is_whole(value) and not (isinstance(value, str) and NUMBER.fullmatch(value.strip().removeprefix("-"))):
        raise Trouble(f"{shown(value)} is neither a date nor the number of a day")
    return figure_of(value, field)


# ------------------------------------------------------------------ from text to a sheet


class Text(NamedTuple):
    """A month kept as text."""
    sheet: Sheet
    names: Names
    title: str      # as "December 2021"; "" if the text has only days and weekday
    files: list     # that were read for it


def read_sheet(path):
    """The sheet that a month's text gives, and the files that were read for it."""
    text = read_month_text(path)
    return text.sheet, text.files


def read_month_text(path):
    table, files, faults, known = read_toml(path), [path], Faults(), None
    with at(path):
        with faults.part():
            check_keys(table, TOP_KEYS, needed=())
        with faults.part():
            known = read_month(table)
        producers = read_tables(table, PRODUCERS, faults)
        hours = [read_hours(each, known and known.month, path, files, faults) for each in producers]
        rows = read_tables(table, ROWS._replace(figure=partial(row_figure, known=known)), faults)
        consumers = read_tables(table, CONSUMERS, faults)
        version = read_version(table, rows, faults)
        faults.tell()
    sheet = Sheet(known.month, [Producer.of(each.figures, powers) for each, powers in zip(producers, hours)],
                  [Row(*each.figures) for each in rows], [Consumer(*each.figures) for each in consumers], version)
    names = Names(*({number: each.name for number, each in enumerate(tables) if each.name}
                    for tables in (producers, consumers)))
    return Text(sheet, names, known.title, files)


def read_toml(path):
    try:
        import tomllib
    except ModuleNotFoundError:
        raise Trouble("a month as text is read with Python 3.11 or newer") from None
    text = read_text(path)
    try:
        return tomllib.loads(text, parse_float=str)
    except RecursionError:
        raise Trouble(f"{path}: is no TOML: too many brackets inside one another") from None
    except ValueError as error:
        raise Trouble(f"{path}: is no TOML: {error}") from None


def check_keys(table, known, needed):
    faults = Faults()
    for key in table:
        if key not in known:
            faults.lines.append(f"the key {shown(key)} is unknown; known are {', '.join(known)}")
    faults.lines += [f"the key {key} is missing" for key in needed if key not in table]
    faults.tell()


class KnownMonth(NamedTuple):
    """What a text says of its month."""
    month: Month
    title: str
    dates: tuple    # the year and the month; None if the text gives days and weekday


def read_month(table):
    """The KnownMonth of a text."""
    faults = Faults()
    by_dates = "year" in table or "month" in table
    if by_dates:
        faults.lines += [f"{field.key}: follows from year and month; give these or days and weekday"
                         for field in MONTH_FIELDS if field.key in table]
        with faults.part():
            check_keys(table, table, needed=("year", "month"))
        figures = [number_between(table, *each, faults) for each in (("year", 1, 9999), ("month", 1, 12))]
    else:
        with faults.part(), at("without year and month"):
            check_keys(table, table, needed=keys_of(MONTH_FIELDS))
        figures = read_figures(table, MONTH_FIELDS, faults)
    with faults.part():
        check_keys(table, table, needed=["holidays"])
    faults.tell()
    with at("holidays"):
        if not by_dates:
            return KnownMonth(Month(*figures, read_holidays(table["holidays"], figures[0], None)), "", None)
        year, number = dates = tuple(figures)
        before, days = calendar.monthrange(year, number)
        title = f"{calendar.month_name[number]} {year}"
        return KnownMonth(Month(days, before + 1, read_holidays(table["holidays"], days, dates)), title, dates)


def number_between(table, key, low, high, faults):
    """The number of a key, or None."""
    value = table.get(key, low)
    if is_whole(value) and low <= value <= high:
        return value
    faults.lines.append(f"{key}: {shown(value)} is not a whole number from {low} to {high}")
    return None


def read_holidays(values, days, dates):
    """The holidays' bits. dates is the year and month, or None if the text gives days and weekday."""
    if not isinstance(values, list):
        raise Trouble("is no list; a month without a holiday has holidays = []")
    bits = 0
    for value in values:
        day = holiday_of(value, days, dates)
        if bits >> day - 1 & 1:
            raise Trouble(f"day {day} stands there twice")
        bits |= 1 << day - 1
    return bits


def holiday_of(value, days, dates):
    """The day of the month. Where only its days are given, one past them can be named, since the sheet can hold it."""
    date = date_of(value)
    if date is not None:
        return day_of_date(date, dates)
    last = LAST_HOLIDAY if dates is None else days
    if not is_whole(value) or not 1 <= value <= last:
        raise Trouble(f"{shown(value)} is neither a date nor a day from 1 to {last}")
    return value


def date_of(value):
    """A date, in quotes or without; None of a value that is none."""
    if isinstance(value, str) and DATE.fullmatch(value):
        try:
            return datetime.date.fromisoformat(value)
        except ValueError:
            raise Trouble(f"{shown(value)} is no date") from None
    return value if isinstance(value, datetime.date) and not isinstance(value, datetime.datetime) else None


def day_of_date(date, dates):
    """The day of a date, which is to be one of the month."""
    if dates is None:
        raise Trouble(f"{date} is a date, which needs year and month; with days and weekday give the day's number")
    if (date.year, date.month) != dates:
        raise Trouble(f"{date} is outside the month")
    return date.day


class Form(NamedTuple):
    """What the tables of a kind have."""
    kind: str
    fields: tuple
    needed: tuple                   # keys that must be there
    optional: tuple                 # and those that may be left out
    figure: Callable = figure_of    # of a value and its field


PRODUCERS = Form("producer", PRODUCER_FIELDS, (*keys_of(PRODUCER_FIELDS), "hours"), ("name",))
ROWS = Form("row", ROW_FIELDS + ROW_DAY_FIELDS, keys_of(ROW_FIELDS), DAY_KEYS)
CONSUMERS = Form("consumer", CONSUMER_FIELDS, keys_of(CONSUMER_FIELDS), ("name",))


class Table:
    """A producer, row or consumer of the text."""

    def __init__(self, form, number, keys, faults):
        self.place, self.keys, self.name = f"{form.kind} {number}", keys, None     # place: in messages
        own = Faults()
        with own.part():
            check_keys(keys, (*form.needed, *form.optional), form.needed)
        if form.kind == "row":
            with own.part():
                check_days(keys)
        self.figures = read_figures(keys, form.fields, own, form.figure)
        if "name" in form.optional and "name" in keys:
            with own.part(), at("name"):
                self.name = read_name(keys["name"])
        with faults.part(), at(self.place):
            own.tell()


def check_days(keys):
    """A row states both of its days, or none."""
    for day, other in (DAY_KEYS, DAY_KEYS[::-1]):
        if day in keys and other not in keys:
            raise Trouble(f"{day}: stands without {other}; a row has both, or none if it covers the month")


def read_version(table, rows, faults):
    """The version that the text states, or else the one that its rows ask for."""
    with_days = next((row.place for row in rows if not row.keys.keys().isdisjoint(DAY_KEYS)), None)
    if "version" not in table:
        return DAY_ROWS if with_days else FULL_ROWS
    version = number_between(table, "version", VERSIONS[0], VERSIONS[-1], faults)
    if version == FULL_ROWS and with_days:
        faults.lines.append(f"version: is {FULL_ROWS}, where every row covers the month, but {with_days} states its "
                            f"days; that is version {DAY_ROWS}, also if the key is left out, or {COLUMN_HOURS}")
    return version


def read_tables(table, form, faults):
    """The producers, the rows or the consumers, in their order, as far as they can be read."""
    kind = form.kind
    tables, found = table.get(kind, []), []
    if isinstance(tables, dict):
        faults.lines.append(f"{kind}: each one begins with [[{kind}]], in two brackets")
    elif not isinstance(tables, list) or not all(isinstance(each, dict) for each in tables):
        faults.lines.append(f"{kind}: is no list of tables")
    elif len(tables) > MOST_RECORDS:
        faults.lines.append(f"{kind}: there are {len(tables)}; the count byte holds at most {MOST_RECORDS}")
    else:
        found.extend(Table(form, number, keys, faults) for number, keys in enumerate(tables))
    return found


def read_name(value):
    """A producer's or consumer's name."""
    if not isinstance(value, str):
        raise Trouble(f"{shown(value)} is no text in quotes")
    name = value.strip()
    wrong = wrong_character(name)
    if wrong:
        raise Trouble(f"has the control character {wrong}")
    if not name:
        raise Trouble("is empty; who has no name has no such key")
    if len(name) > LONGEST_NAME:
        raise Trouble(f"has {len(name)} characters, and {LONGEST_NAME} are allowed")
    return name


def read_hours(table, month, path, files, faults):
    """The powers of a producer's hours, as far as they can be read."""
    hours = table.keys.get("hours")
    if hours is None:
        return None     # the missing key was told
    with faults.part(), at(table.place), at("hours"):
        if isinstance(hours, dict):
            known, wrong = keys_of(HOUR_FIELDS), Faults()
            with wrong.part():
                check_keys(hours, known, known)
            figures = read_figures(hours, HOUR_FIELDS, wrong)
            wrong.tell()
            return [array("I", [figure]) * (month.hours if month else 0) for figure in figures]
        if not isinstance(hours, str):
            raise Trouble("is neither a file's name nor three powers that hold for every hour")
        file = os.path.join(os.path.dirname(path), hours)
        files.append(file)
        return read_csv(file, month and month.hours)
    return None


def read_csv(path, hours):
    """The powers of a CSV file with a line for each hour of the month; hours is None if that is unknown."""
    lines = csv_lines(path, HOUR_FIELDS)
    if len(lines) != hours and hours is not None:
        raise Trouble(f"{path}: has {len(lines)} lines after the head; the month has {hours} hours")
    powers = [array("I") for _ in HOUR_FIELDS]
    for figures in csv_figures(path, lines, HOUR_FIELDS, most=MOST_LINES):
        for series, figure in zip(powers, figures):
            series.append(figure)
    return powers


# ------------------------------------------------------------------ CSV files


def csv_head(fields):
    return ",".join(keys_of(fields))


def text_lines(path):
    """The lines of a text; after the end of the last one no further line begins."""
    lines = read_text(path).split("\n")
    return lines[:-1] if len(lines) > 1 and lines[-1] == "" else lines


def csv_lines(path, fields):
    """The lines of a CSV file after its head, which has the fields' keys."""
    first, *lines = text_lines(path)
    check_head(first, fields, path)
    return lines


def check_head(line, fields, path, number=1):
    """Turns down a line that is not the head. The text of something else is told by its beginning."""
    if line.replace(" ", "").rstrip("\r") != csv_head(fields):
        other = begun_as(line.encode(), other_than=kind_of(path)) if number == 1 else ""
        raise Trouble(f"{path}, line {number}: is {line_shown(line)}, not {csv_head(fields)}"
                      + (f"; it {other}" if other else ""))


def line_shown(line):
    return shown(line.strip()) if line.strip() else "empty"


def csv_figures(path, lines, fields, figure=figure_of, most=None, first=2):
    """The figures of each line after the head; first is the number of the first one. Lines that are wrong are told one
    by one, at most so many."""
    found, wrong = [], []
    for number, line in enumerate(lines, first):
        try:
            found.append(read_line(line, fields, figure))
        except Trouble as trouble:
            wrong.append([f"{path}, line {number}: {words}" for words in trouble.lines])
    faults = [words for line in wrong[:most] for words in line]
    if len(wrong) > len(wrong[:most]):
        faults.append(f"{path}: more lines that are wrong: {len(wrong[most:])}")
    if faults:
        raise Trouble(*faults)
    return found


def read_line(line, fields, figure):
    if not line.strip():
        raise Trouble("is empty")
    cells = line.split(",")
    if len(cells) != len(fields):
        raise Trouble(f"has not {len(fields)} figures with commas between them")
    figures, faults = [], Faults()
    for field, cell in zip(fields, cells):
        with faults.part(), at(field.key):
            figures.append(figure(cell, field))
    faults.tell()
    return figures


def csv_text(lines, fields=HOUR_FIELDS):
    """The text of a CSV file with these figures in each line after the head."""
    texts = [",".join(field.unit.text(figure) for field, figure in zip(fields, figures)) for figures in lines]
    return "\n".join([csv_head(fields), *texts, ""])


# ------------------------------------------------------------------ from a sheet to text

HEAD = """\
# A month's sheet as text. Capacities, powers, volumes and peaks in MW, prices in tenge per MW and month.
# Producers, rows and consumers stand in the order of the sheet and are numbered from 0.
"""
BARE_UNITS = (PLAIN, HOURS, DAYS, ROW_DAY, PRODUCER_NUMBER, BUYER)     # written without quotes


def text_files(sheet, path):
    """The files of a sheet's text, name and bytes; path is the TOML file, beside which the CSV files are to stand."""
    files = {}
    month = sheet.month
    days = [day for day in range(1, LAST_HOLIDAY + 1) if month.holidays >> day - 1 & 1]
    parts = [HEAD, f"\ndays = {month.days}\n", f"weekday = {month.weekday}  # of day 1, Monday 1 to Sunday 7\n",
             f"holidays = {days}\n", f"version = {sheet.version}  # {layout_words(sheet.version)}\n"]
    for number, producer in enumerate(sheet.producers):
        lines = table_lines("producer", number, PRODUCER_FIELDS, producer)
        hours = list(zip(*producer.powers()))
        if len(set(hours)) == 1:
            powers = (f'{field.key} = "{field.unit.text(figure)}"' for field, figure in zip(HOUR_FIELDS, hours[0]))
            lines.append(f"hours = {{ {', '.join(powers)} }}\n")
        else:
            file = f"{os.path.splitext(path)[0]}-producer-{number}.csv"
            files[file] = csv_text(hours).encode()
            lines.append(f"hours = {quoted(os.path.basename(file))}\n")
        parts.extend(lines)
    for number, row in enumerate(sheet.rows):
        parts.extend(table_lines("row", number, row_fields(sheet.version), row))
    for number, consumer in enumerate(sheet.consumers):
        parts.extend(table_lines("consumer", number, CONSUMER_FIELDS, consumer))
    return {**files, path: text_bytes(parts, path)}


def text_bytes(parts, path):
    """The bytes of a text with these parts, in which the names of its CSV files stand."""
    try:
        return "".join(parts).encode()
    except UnicodeEncodeError:
        raise Trouble(f"{path}: has a name that is not text in UTF-8, so the text cannot name its CSV files") from None


def table_lines(kind, number, fields, record):
    lines = [f"\n[[{kind}]]  # {number}\n"]
    for field, figure in zip(fields, record.figures()):
        text = field.unit.text(figure)
        if field.unit is BUYER and figure == SINGLE_BUYER:
            text = f'"{SINGLE_BUYER_WORDS}"'
        elif field.unit not in BARE_UNITS:
            text = f'"{text}"'
        lines.append(f"{field.key} = {text}\n")
    return lines


def quoted(text):
    """A text in quotes, as TOML wants it."""
    kept = "".join(f"\\u{ord(each):04x}" if each in '"\\\x7f' or each < " " else each for each in text)
    return f'"{kept}"'
