"""The text of a month that is still to be filled in, with CSV files for the hours."""
import calendar
import os

from monthtext import csv_text, quoted, text_bytes
from records import CAPACITY, COEFFICIENT, CONSUMER_FIELDS, PRICE, PRODUCER_FIELDS, ROW_FIELDS, SINGLE_BUYER_WORDS, Z

HEAD = """\
# {title}. Every 0 below and in the CSV files is to be filled in, and what the remarks name;
# `tools/sheet check {name}` says what is still unlikely or would be refused. The keys are in tools/README.md.
# Producers, rows and consumers are numbered from 0, in the order in which they stand here.
year = {year}
month = {month}
holidays = []  # dates, as {year:04}-{month:02}-01
# version = 3  # of the sheet, its hours as columns; without this line 2 if a row states its days, else 1
"""
# Under a row: two keys that may be left out.
ROW_DAYS = """\
# first_day = 1  # both, if the contract begins or ends inside the month
# last_day = {days}
"""
# What stands for a figure that is not 0 from the start, and remarks.
FIRST = {"producer": "0", "consumer": f'"{SINGLE_BUYER_WORDS}"'}
BY_UNIT = {COEFFICIENT: '"1.0"', Z: '"1.0"', CAPACITY: '"0.0"', PRICE: '"0.00"'}
REMARKS = {
    "attested_capacity": "MW, as the next two", "hours_without_upward_bid": "hours of the month, as the next two",
    "k3": "the System Operator states these six", "contract_volume": "MW, as the peak",
    "supplier_mining_days": "T'', days", "grid_mining_days": "T''', days", "volume": "MW",
    "price": "tenge per MW and month", "consumer": f'its number; "{SINGLE_BUYER_WORDS}" is a support row',
}
EMPTY_HOUR = 0, 0, 0


def skeleton_files(year, month, path, counts):
    """The files of the text, name and bytes: path is the TOML file; counts has the producers, rows and consumers."""
    producers, rows, consumers = counts
    days = calendar.monthrange(year, month)[1]
    files, parts = {}, [HEAD.format(title=f"{calendar.month_name[month]} {year}", name=os.path.basename(path),
                                    year=year, month=month)]
    for number in range(producers):
        file = f"{os.path.splitext(path)[0]}-producer-{number}.csv"
        files[file] = csv_text([EMPTY_HOUR] * (24 * days)).encode()
        parts += table("producer", number, PRODUCER_FIELDS)
        parts.append(f"hours = {quoted(os.path.basename(file))}  # MW, a line for each of the {24 * days} hours\n")
    for number in range(rows):
        parts += [*table("row", number, ROW_FIELDS, producer=str(number % producers)), ROW_DAYS.format(days=days)]
    for number in range(consumers):
        parts += table("consumer", number, CONSUMER_FIELDS)
    return {**files, path: text_bytes(parts, path)}


def table(kind, number, fields, **given):
    lines = [f"\n[[{kind}]]  # {number}\n"]
    if kind != "row":
        lines.append('# name = "its name, for tables and messages"\n')
    for field in fields:
        figure = given.get(field.key) or FIRST.get(field.key) or BY_UNIT.get(field.unit, "0")
        remark = REMARKS.get(field.key)
        lines.append(f"{field.key} = {figure}" + (f"  # {remark}\n" if remark else "\n"))
    return lines
