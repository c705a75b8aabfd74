"""Rows that state their days, in sheets of version 2: texts, forms, lists and records before them, the text of 2015,
the refusal, and results held to them. The answers are the rival's."""
import csv
import io
import json

import monthtext
import programs
import records
import results
import text_2015
from checks import (CHANGES, EXAMPLES, LISTS, RECORDS, ROOT, check, report, report_2015, run, sheet, turned_down,
                    words_of)
from complexes import record_bytes
from texts import GOOD, MONTH, ROW, changed
from transfers import Transfer, list_bytes

INSIDE = EXAMPLES / "inside-month.sheet"
LISTING = INSIDE.with_suffix(".listing").read_text()
INSIDE_DAYS = [(10, 30), (1, 15), (20, 20), (1, 30), (1, 30)]
REFUSED = EXAMPLES / "refused-18.sheet"
RULE = "a row begins before day 1, ends before it begins, or ends after the month does"
FIELD = "row 1, last day, 31 (from the first day, 10, to 30)"
# A list and a record that change the month.
CONTENTS = {LISTS: list_bytes([Transfer(3, 0, 1, 155)]),
            RECORDS: record_bytes(0, 5, [(900 + hour % 7, 100) for hour in range(24 * 30)])}


def with_days(first, last, *more):
    """The good text with days in its row, and other changes."""
    return changed(GOOD, [(ROW, f"{ROW}first_day = {first}\nlast_day = {last}\n"), *more])


BY_DAYS = (MONTH, "days = 28\nweekday = 1\nholidays = []")
SECOND_ROW = ("[[consumer]]", f"{ROW}\n[[consumer]]")
STATED = ("holidays = []", "holidays = []\nversion = 2")
# A text, the days of its rows in the sheet, and its version.
TEXTS = {
    "no days": (GOOD, [(None, None)], 1),
    "numbers": (with_days(10, 28), [(10, 28)], 2),
    "numbers in quotes": (with_days('"10"', '"28"'), [(10, 28)], 2),
    "dates": (with_days("2021-02-10", '"2021-02-28"'), [(10, 28)], 2),
    "a month by its days": (with_days(10, 28, BY_DAYS), [(10, 28)], 2),
    "one row of two": (with_days(5, 5, SECOND_ROW), [(5, 5), (1, 28)], 2),
    "no days in version 2": (changed(GOOD, [STATED]), [(1, 28)], 2),
    "days in version 2": (with_days(1, 15, STATED), [(1, 15)], 2),
    "no row in version 2": (changed(GOOD, [STATED, (ROW, "")]), [], 2),
    "days that are refused": (with_days(0, 255, SECOND_ROW), [(0, 255), (1, 28)], 2),
}
ONLY_BOTH = "a row has both, or none if it covers the month"
# A text that cannot be packed, and what is said of it after its name.
BAD = [
    (with_days(10, 28).replace("last_day = 28\n", ""), f"row 0: first_day: stands without last_day; {ONLY_BOTH}"),
    (with_days(10, 28).replace("first_day = 10\n", ""), f"row 0: last_day: stands without first_day; {ONLY_BOTH}"),
    (with_days(10, 28, SECOND_ROW).replace("28\n", "28\nname = 1\n"), 'row 0: the key "name" is unknown; known are '
     "producer, consumer, volume, price, first_day, last_day"),
    (with_days(10, 28, ("holidays = []", "holidays = []\nversion = 1")), "version: is 1, where every row covers the "
     "month, but row 0 states its days; that is version 2, also if the key is left out, or 3"),
    (with_days(-1, 28), "row 0: first_day: -1 is negative"),
    (with_days(10, 256), "row 0: last_day: 256 does not fit its field, which holds at most 255"),
    (with_days(10, "28.5"), 'row 0: last_day: "28.5" has decimals, and a whole number is asked for'),
    (with_days('"tenth"', 28), 'row 0: first_day: "tenth" is neither a date nor the number of a day'),
    (with_days("true", 28), "row 0: first_day: True is neither a date nor the number of a day"),
    (with_days("2021-01-31", 28), "row 0: first_day: 2021-01-31 is outside the month"),
    (with_days(10, "2022-02-28"), "row 0: last_day: 2022-02-28 is outside the month"),
    (with_days(10, '"2021-02-29"'), 'row 0: last_day: "2021-02-29" is no date'),
    (with_days("2021-02-10T00:00:00", 28), "row 0: first_day: 2021-02-10 00:00:00 is neither a date nor the number of a day"),
    (with_days(10, "2021-02-28", BY_DAYS), "row 0: last_day: 2021-02-28 is a date, which needs year and month; with "
     "days and weekday give the day's number"),
    (changed(GOOD, [("[[consumer]]", "[[consumer]]\nfirst_day = 1")]), 'consumer 0: the key "first_day" is unknown'),
    # Of a date beside a month that cannot be read, nothing is said.
    (with_days("2021-02-10", "2021-02-28", ("year = 2021", "year = 0")), "year: 0 is not a whole number from 1 to "
     "9999"),
]


def test_texts(folder):
    """The version follows from the days, or is stated; a row without days covers the month."""
    path = folder / "month.toml"
    for name, (text, days, version) in TEXTS.items():
        path.write_text(text)
        content = monthtext.read_sheet(str(path))[0].to_bytes()
        found = records.Sheet.from_bytes(content)
        check((found.version, [(row.first_day, row.last_day) for row in found.rows]) == (version, days),
              f"pack: {name}", str(found.rows))
        check(len(content) == records.Header.from_bytes(content).sheet_length, f"pack: {name}: the length")
        (folder / "in.sheet").write_bytes(content)
        sheet("unpack", "in.sheet", "out.toml", "--force", folder=folder)
        unpacked = (folder / "out.toml").read_text()
        check(unpacked.count(f"\nversion = {version}  # rows ") == 1, f"unpack: {name}: the version", unpacked)
        done = sheet("pack", "out.toml", "-", folder=folder)
        check(done.stdout == content, f"pack after unpack: {name}", words_of(done))
    for text, message in BAD:
        path.write_text(text)
        turned_down("pack", folder, ["pack", "month.toml", "out.bin"], f"tools/sheet: month.toml: {message}")


def form(name, *words, **more):
    done = report("--form", name, *words, folder=EXAMPLES, **more)
    check(done.returncode == 0 and not done.stderr, f"report: {name} {words}", words_of(done))
    return done.stdout.decode()


def test_forms():
    """The days of each row for programs, also where the sheet states none; the table has them where it does."""
    for name, days in (("inside-month", INSIDE_DAYS), ("small", [(1, 31)] * 2), ("old-act", [(1, 30)])):
        for path in (f"{name}.toml", f"{name}.sheet"):
            month, = json.loads(form("json", path))
            check([(row["first_day"], row["last_day"]) for row in month["rows"]] == days, f"--json: {path}")
            printed = form("csv", path)
            check(printed.splitlines()[0].endswith(",complexes,first_day,last_day"), f"--csv: {path}: the last columns")
            lines = list(csv.DictReader(io.StringIO(printed)))
            check([(line["first_day"], line["last_day"]) for line in lines if line["record"] == "row"] ==
                  [(str(first), str(last)) for first, last in days], f"--csv: {path}")
            check({line["first_day"] + line["last_day"] for line in lines if line["record"] != "row"} == {""},
                  f"--csv: {path}: only rows have days")
            heads, _, *rows = form("table", path).splitlines()[2:4 + len(days)]
            stated = name == "inside-month"
            check(("days" in heads.split()) == stated and all((f" {first}-{last} " in line) == stated for line, (
                first, last) in zip(rows, days)), f"--table: {path}", "\n".join([heads, *rows]))
    table = report("--form", "table", "examples/inside-month.toml", folder=ROOT).stdout.decode()
    check(f"```\n{table}```\n" in (ROOT / "tools" / "README.md").read_text(), "tools/README.md has the table", table)
    readme = (EXAMPLES / "README.md").read_text()
    for line in LISTING.splitlines():
        check(f"`{line}`" in readme, f"examples/README.md has {line}")


def after_change(kind, folder):
    """A list or record for the month, and the month's sheet after it, by the rival."""
    packed, after = folder / f"a{kind.packed}", folder / f"after{kind.packed}.sheet"
    packed.write_bytes(CONTENTS[kind])
    after.write_bytes(bytes.fromhex(run(programs.RIVAL, kind.command, INSIDE, packed).stdout.decode().split()[2]))
    return packed, after


def test_changes(folder):
    """Lists and records change a sheet of version 2, whose rows keep their days, and it is settled after them."""
    for kind in CHANGES:
        packed, after = after_change(kind, folder)
        found = records.Sheet.from_bytes(after.read_bytes())
        check(found.version == 2 and [row.days(found.month) for row in found.rows] == INSIDE_DAYS,
              f"{kind.option}: the rows keep their days")
        listing = run(programs.RIVAL, "list", after).stdout
        check(listing.decode() != LISTING, f"{kind.option}: a change is seen")
        for month in (INSIDE, INSIDE.with_suffix(".toml")):
            done = report(kind.option, packed, "--sheet", folder / "new.sheet", "--force", month)
            check(done.stdout == listing and (folder / "new.sheet").read_bytes() == after.read_bytes(),
                  f"{kind.option}: {month.name}", words_of(done))
        done = report_2015(kind.option, packed, INSIDE)
        check(done.stdout == text_2015.by_rival(after), f"--text-2015 {kind.option}", words_of(done))
        done = sheet("check", kind.option, packed, INSIDE)
        check(done.returncode == 0 and done.stdout.startswith(b"accepted\n"), f"check {kind.option}", words_of(done))
        check_result(after, ["--sheet", INSIDE, kind.option, packed], folder)


def check_result(settled, words, folder):
    """`result` reads the rival's result of a sheet with what is named."""
    (folder / "r.bin").write_bytes(bytes.fromhex(run(programs.RIVAL, "settle", settled).stdout.decode().split()[2]))
    done = sheet("result", "r.bin", *words, folder=folder)
    check(done.returncode == 0 and done.stdout == run(programs.RIVAL, "list", settled).stdout, f"result {words[2:]}",
          words_of(done))


def test_text_2015():
    """The text of 2015 knows no rows, so days change nothing under it; 18 refuses all the same."""
    done = report_2015(INSIDE)
    check(done.stdout == text_2015.by_rival(INSIDE) and done.stdout.count(b"\n") == 2, "--text-2015", words_of(done))
    full = records.Sheet.from_bytes(INSIDE.read_bytes())
    full.version = 1
    check(report_2015("-", stdin=full.to_bytes()).stdout == done.stdout, "--text-2015: days change nothing")
    done = report_2015("--explain", REFUSED)
    check(done.stdout == b"N18\n" and f"byte 8719: {FIELD}\n" in done.stderr.decode(), "--text-2015: 18",
          words_of(done))


def test_refused():
    """18 in each form; it comes before the numbers of a list or record."""
    done = report("--explain", "--strict", "refused-18.toml", folder=EXAMPLES)
    check((done.returncode, done.stdout) == (1, b"N18\n") and done.stderr.decode() ==
          f"refused-18.toml: refusal 18: {RULE}\nrefused-18.toml: {FIELD}\n", "--explain: 18", words_of(done))
    check(form("table", "refused-18.toml") == f"refused-18.toml: refused by 18: {RULE}\n{FIELD}\n", "--table: 18")
    month, = json.loads(form("json", "refused-18.sheet"))
    check(month["refusal"] == {"number": 18, "list": None, "complex": None, "words": RULE, "byte": 8719,
                               "field": FIELD}, "--json: 18", str(month))
    for kind in CHANGES:
        for number in kind.refused:
            for month in ("refused-18.sheet", "refused-18.toml"):
                words = [kind.option, kind.files(f"refused-{number}")[1], month]
                check(form("listing", *words) == "N18\n", f"18 before {number}: {words}")
                done = sheet("explain", *words, folder=EXAMPLES)
                check(done.stdout.decode().startswith(f"refusal 18: {RULE}\n"), f"explain: 18 before {number}",
                      words_of(done))
    readme = (ROOT / "tools" / "README.md").read_text()
    check(f"refusal 18: {RULE}\n" in readme and f"{FIELD}\n" in readme, "tools/README.md has the message of 18")


# The days of a row in a month of 30 days, and what explain says of it; 12 comes before 18.
WRONG_DAYS = [
    ((0, 30), "first day, 0 (from 1 to 30)"), ((0, 0), "first day, 0 (from 1 to 30)"),
    ((31, 31), "first day, 31 (from 1 to 30)"), ((255, 20), "first day, 255 (from 1 to 30)"),
    ((10, 9), "last day, 9 (from the first day, 10, to 30)"), ((1, 0), "last day, 0 (from the first day, 1, to 30)"),
    ((30, 31), "last day, 31 (from the first day, 30, to 30)"),
    ((1, 255), "last day, 255 (from the first day, 1, to 30)"),
]


def test_explained():
    """The field that is wrong first, with what is allowed there."""
    content = INSIDE.read_bytes()
    for days, words in WRONG_DAYS:
        wrong = records.Sheet.from_bytes(content)
        wrong.rows[4].first_day, wrong.rows[4].last_day = days
        place = 14 + 42 + 288 * 30 + 12 * 4 + (10 if words.startswith("first") else 11)
        done = sheet("explain", "-", stdin=wrong.to_bytes())
        check(done.stdout.decode() == f"refusal 18: {RULE}\nbyte {place}: row 4, {words}\n", f"explain: days {days}",
              words_of(done))
    wrong.consumers[1].z = 101
    done = sheet("explain", "-", stdin=wrong.to_bytes())
    check(done.stdout.startswith(b"refusal 12:"), "explain: 12 before 18", words_of(done))
    done = sheet("check", "-", stdin=wrong.to_bytes())
    check([line[:11] for line in done.stdout.decode().splitlines() if line.startswith("refusal")] ==
          ["refusal 12:", "refusal 18:"], "check: 12 and 18", words_of(done))


def test_results(folder):
    """A result is held to the days covered: more than their share of the volume after the cut cannot be."""
    for path in (INSIDE, INSIDE.with_suffix(".toml")):
        check_result(INSIDE, ["--sheet", path], folder)
    content = results.result_of_listing(LISTING, INSIDE.read_bytes())
    for actual, wanted in ((200, []), (201, ["row 1: actual volume 20.1 is above the volume after the cut × days "
                                             "covered / days of the month, 40.0 × 15 / 30 = 20.0"]),
                           (401, ["row 1: actual volume 40.1 is above the volume after the cut, 40.0"])):
        rows, consumers, totals = records.result_figures(INSIDE.read_bytes(), content)
        rows[1] = rows[1]._replace(actual=actual)
        (folder / "r.bin").write_bytes(records.result_of(rows, consumers, totals))
        done = sheet("result", "r.bin", "--sheet", INSIDE, folder=folder)
        said = [line.split("r.bin: ")[1] for line in done.stderr.decode().splitlines() if "actual volume" in line
                and "is above" in line]
        check(done.returncode == 1 and said == [f"{words}, so this is no result of {INSIDE}" for words in wanted],
              f"result: an actual volume of {actual}", words_of(done))
