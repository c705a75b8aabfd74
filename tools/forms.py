"""The answers of the program in forms for people and for programs: the listing, a table, CSV, JSON.

Every figure is the listing's or the sheet's, letter by letter; nothing is worked out here.
"""
import csv
import io
import json
from typing import NamedTuple

from changing import Change
from inputs import CHANGES, Given
from printing import WEEKDAYS, party_cells, table_lines
from records import CAPACITY, PRICE, SINGLE_BUYER, SINGLE_BUYER_WORDS, Header, Sheet, states_days
from results import OF_2021, OF_2015, Edition, texts_of

ROW_DAYS = "first_day", "last_day"
# The columns of a table, with their units, by the keys of the figures.
HEADS = {"volume": ("volume", "MW"), "volume_after_cut": ("after the cut", "MW"), "contract_volume": ("contract", "MW"),
         "peak": ("peak", "MW"), "credit": ("credit", "MW"), "percent": ("percent", ""), "n": ("n", ""),
         "factor": ("factor", ""), "actual_volume": ("actual", "MW"), "price": ("price", "tenge/MW"),
         "payment": ("payment", "tenge"), "charge": ("charge", "tenge")}
REFUSAL_COLUMNS = ("refusal", "words", "byte", "field", *(key for kind in CHANGES for key in (kind.one, kind.many)))
COLUMNS = {
    OF_2021: ("month", "record", "row", "producer", "producer_name", "consumer", "consumer_name", "volume",
               "contract_volume", "peak", "price", "volume_after_cut", "credit", "percent", "n", "actual_volume",
               "payment", "charge", *REFUSAL_COLUMNS, *ROW_DAYS),
    OF_2015: ("month", "text", "record", "consumer", "consumer_name", "contract_volume", "peak", "price", "factor",
              "volume", "charge", *REFUSAL_COLUMNS),
}


class Refused(NamedTuple):
    number: int      # the program's
    change: Change   # the list or record that is refused; None if the sheet is
    words: str
    byte: int        # and what follows: None where the aid in refusals.py has another answer than the program
    field: str
    line: str        # the field with its place, for people


class Answer(NamedTuple):
    edition: Edition     # the text of the order that it is settled under
    given: Given         # the month as it was settled: after its lists and records
    listing: str         # as the program printed it
    refused: Refused     # or None,
    result: bytes        # and then these are the result's bytes, laid out from the listing
    changes: tuple = ()  # the lists and records, in their order

    def names_of(self, kind):
        """The names of the lists, or of the records, in their order."""
        return [in_utf8(each.name) for each in self.changes if isinstance(each, kind)]

    def heading(self):
        """What tells a month from others for programs: its name, the text if it is that of 2015, its lists and
        its records."""
        text = {"text": self.edition.year} if self.edition.year else {}
        return {"month": in_utf8(self.given.name), **text, **{kind.many: self.names_of(kind) for kind in CHANGES}}


# ------------------------------------------------------------------ records with names and figures


def records_of(answer):
    """The rows, the consumers and the totals of a settled month, each figure as the listing or the sheet has it."""
    sheet, names, edition = Sheet.from_bytes(answer.given.content), answer.given.names, answer.edition
    rows, consumers, totals = edition.figures(len(sheet.rows), len(sheet.consumers), answer.result)
    by_row = [{
        "row": number, "producer": row.producer, "producer_name": names.of("producer", row.producer),
        "consumer": SINGLE_BUYER_WORDS if row.consumer == SINGLE_BUYER else row.consumer,
        "consumer_name": names.of("consumer", row.consumer),
        "volume": CAPACITY.text(row.volume), "price": PRICE.text(row.price),
        **dict(zip(ROW_DAYS, row.days(sheet.month))), **keyed(edition.rows, figures),
    } for number, (row, figures) in enumerate(zip(sheet.rows, rows))]
    by_consumer = [{
        "consumer": number, "consumer_name": names.of("consumer", number),
        "contract_volume": CAPACITY.text(consumer.contract), "peak": CAPACITY.text(consumer.peak),
        "price": PRICE.text(consumer.price), **keyed(edition.consumers, figures),
    } for number, (consumer, figures) in enumerate(zip(sheet.consumers, consumers))]
    return by_row, by_consumer, keyed(edition.totals, totals)


def keyed(kinds, figures):
    """The figures of a record under their keys."""
    return dict(zip(keys_of(kinds), texts_of(kinds, figures)))


def keys_of(kinds):
    return [key for key, _ in kinds]


# ------------------------------------------------------------------ forms


def as_listing(answers):
    """As ./settle prints it: with more than one month, a line with its name stands before each listing."""
    return "".join((f"{answer.given.name}:\n" if len(answers) > 1 else "") + answer.listing for answer in answers)


def as_table(answers):
    return "\n".join("".join(f"{line}\n" for line in month_lines(answer)) for answer in answers)


def month_lines(answer):
    given, refused, edition = answer.given, answer.refused, answer.edition
    if refused:
        lines = [f"{given.name}: refused by {refused.number}: {refused.words}"]
        return lines + ([refused.line] if refused.line else [])
    by_row, by_consumer, totals = records_of(answer)
    title = ", after ".join([month_words(given), *(each.name for each in answer.changes)])
    lines = [f"{given.name}: {title}{f', {edition.title}' if edition.title else ''}"]
    if edition.rows:
        lines += ["", *row_lines(given, edition, by_row, totals)]
    return lines + ["", *consumer_lines(given, edition, by_consumer, totals)]


def row_lines(given, edition, by_row, totals):
    """The rows, with a column for their days where the sheet states them, and the total."""
    sheet, columns = Sheet.from_bytes(given.content), columns_of(("volume",), edition.rows)
    heads = ("row", "producer", "buyer", *(["days"] if states_days(sheet.version) else []))
    lines = []
    for row, contract in zip(by_row, sheet.rows):
        days = [f"{contract.first_day}-{contract.last_day}"] if "days" in heads else []
        lines.append([str(row["row"]), *party_cells(contract, given.names), *days, *cells_of(row, columns)])
    lines.append(["", "total paid", *[""] * (len(heads) + len(columns) - 3), parted(totals["paid"])])
    return headed(heads, columns, lines, (1, 2))


def consumer_lines(given, edition, by_consumer, totals):
    columns = columns_of(("contract_volume", "peak"), edition.consumers)
    lines = [[given.names.cell("consumer", consumer["consumer"]), *cells_of(consumer, columns)]
             for consumer in by_consumer]
    if totals:
        lines.append(["total charged", *[""] * (len(columns) - 1), parted(totals["charged"])])
    return headed(("consumer",), columns, lines, (0,))


def columns_of(given, kinds):
    """The keys of a record's figures in a table: the sheet's, the result's; the price before the money."""
    *keys, money = keys_of(kinds)
    return [*given, *keys, "price", money]


def cells_of(record, columns):
    return [parted(record[key]) for key in columns]


def headed(heads, columns, lines, left):
    names, units = zip(*((head, "") for head in heads), *(HEADS[key] for key in columns))
    return table_lines(names, [units, *lines], left)


def month_words(given):
    """As "December 2021", or "31 days from a Wednesday" if that is not known."""
    month = Header.from_bytes(given.content).month
    return given.title or f"{month.days} days from a {WEEKDAYS[month.weekday - 1]}"


def parted(text):
    """A figure with its thousands parted, as 46 599 505.49."""
    whole, point, part = text.partition(".")
    return f"{int(whole):,}".replace(",", " ") + point + part


def in_utf8(text):
    """A text with a file's name, for programs; a byte of the name that is no text is written as \\udcff."""
    return text and text.encode("utf-8", "backslashreplace").decode()


def as_csv(answers):
    """A line for each record of each month: row, consumer, totals or refusal. What a record does not have is empty."""
    text = io.StringIO()
    lines = csv.DictWriter(text, COLUMNS[answers[0].edition], lineterminator="\n")
    lines.writeheader()
    for answer in answers:
        heading = {**answer.heading(), **{kind.many: " ".join(answer.names_of(kind)) for kind in CHANGES}}
        lines.writerows({**heading, **record} for record in csv_records(answer))
    return text.getvalue()


def csv_records(answer):
    if answer.refused:
        refusal = refusal_record(answer.refused)
        yield {"record": "refusal", "refusal": refusal.pop("number"), **refusal}
        return
    by_row, by_consumer, totals = records_of(answer)
    yield from ({"record": "row", **row} for row in by_row)
    yield from ({"record": "consumer", **consumer} for consumer in by_consumer)
    if totals:
        yield {"record": "totals", "payment": totals["paid"], "charge": totals["charged"]}


def refusal_record(refused):
    names = {kind.one: in_utf8(refused.change.name) if isinstance(refused.change, kind) else None for kind in CHANGES}
    return {"number": refused.number, **names, "words": refused.words, "byte": refused.byte,
            "field": in_utf8(refused.field)}


def as_json(answers):
    """A list with an object for each month. Figures are strings: a JSON number is often read as a binary fraction."""
    months = []
    for answer in answers:
        rows, consumers, totals = ([], [], None) if answer.refused else records_of(answer)
        found = {"rows": rows, "consumers": consumers, "totals": totals}
        months.append({**answer.heading(), "refusal": answer.refused and refusal_record(answer.refused),
                       **{part: found[part] for part in found if getattr(answer.edition, part)}})
    return json.dumps(months, indent=1) + "\n"


FORMS = {"listing": as_listing, "table": as_table, "csv": as_csv, "json": as_json}
