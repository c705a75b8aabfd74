"""tools/report with records of complexes, as ./settle starts it: forms, refusals, names, the changed sheet, several
records, and lists beside them. What is the same of lists and records is tested in transferred.py."""
import csv
import io
import json

import programs
import records
from checks import EXAMPLES, LISTS, RECORDS, check, files_in, report, run, turned_down, words_of

CHANGED = (EXAMPLES / "month-averaged.sheet").read_bytes()
LISTING = (EXAMPLES / "month-averaged.listing").read_text()
PLANT = EXAMPLES / "plant.complex"
MONTH = EXAMPLES / "month.sheet"
RULE = "a power in the record is above 10000.0 MW"


def peaks(content):
    return [consumer.peak for consumer in records.Sheet.from_bytes(content).consumers]


def rows_of(*words):
    return list(csv.DictReader(io.StringIO(report("--form", "csv", *words, folder=EXAMPLES).stdout.decode())))


def month_of(*words):
    month, = json.loads(report("--form", "json", *words, folder=EXAMPLES).stdout)
    return month


def test_forms():
    """The table, CSV and JSON have the peak after the record, and name it."""
    words = ["--complex", "plant.complex.csv", "month.toml"]
    done = report("--form", "table", *words, folder=EXAMPLES)
    lines = done.stdout.decode().splitlines()
    check(lines[0] == "month.toml: December 2021, after plant.complex.csv", "--table: the heading", words_of(done))
    # Contract volume, peak, credit, percent, n and actual volume, as examples/README.md works them out.
    line = ["9", "50.0", "67.5", "9.0", "12.0", "1.3", "54.6", "610", "000.00", "33", "306", "000.00"]
    check(line in [each.split() for each in lines], "--table: consumer 9", words_of(done))
    month, rows = month_of(*words), rows_of(*words)
    wanted = [records.CAPACITY.text(peak) for peak in peaks(CHANGED)]
    check(wanted[9] == "67.5" and peaks(MONTH.read_bytes())[9] == 810, "the rival's peak is the one by hand")
    consumers = [row for row in rows if row["record"] == "consumer"]
    for name, found in (("--json", month["consumers"]), ("--csv", consumers)):
        check([each["peak"] for each in found] == wanted, f"{name}: the peaks")
    check((month["complexes"], month["transfers"]) == (["plant.complex.csv"], []), "--json: the record is named")
    check({(row["complexes"], row["transfers"]) for row in rows} == {("plant.complex.csv", "")},
          "--csv: the record is named")
    check(f"T {month['totals']['paid']} {month['totals']['charged']}" == LISTING.splitlines()[-1], "--json: the totals")


def test_refused():
    """How each form meets a refused record."""
    field = "refused-17.complex.csv, line 79: hour 75 (day 4, 3:00), power sent out, 10000.1 MW (at most 10000.0)"
    words = ["--complex", "refused-17.complex.csv", "month.sheet"]
    done = report("--form", "table", *words, folder=EXAMPLES)
    check(done.stdout.decode() == f"month.sheet: refused by 17: {RULE}\n{field}\n", "--table: refused", words_of(done))
    wanted = {"number": 17, "complex": "refused-17.complex.csv", "words": RULE, "byte": 613, "field": field}
    month, (row,) = month_of(*words), rows_of(*words)
    check(month["refusal"] == {**wanted, "list": None}, "--json: refused", str(month))
    found = [row[key] for key in ("record", "refusal", "complex", "words", "byte", "field", "list")]
    check(found == ["refusal", *map(str, wanted.values()), ""], "--csv: refused", str(row))
    done = report("--explain", "--strict", *words, folder=EXAMPLES)
    check((done.returncode, done.stdout) == (1, b"N17\n") and done.stderr.decode() ==
          f"month.sheet: refusal 17: {RULE}\nmonth.sheet: {field}\n", "--explain, --strict: refused", words_of(done))
    done = report("--explain", "--complex", "refused-17.complex", "month.toml", folder=EXAMPLES)
    check(b"month.toml: refused-17.complex, byte 613: hour 75 (day 4, 3:00), power sent out, " in done.stderr,
          "--explain: a record's bytes", words_of(done))
    done = report("--explain", "--complex", "refused-17.complex", "refused-10.sheet", folder=EXAMPLES)
    check(done.stdout == b"N10\n" and b"refused-10.sheet: byte 8707: row 1, consumer, 2 (" in done.stderr,
          "--explain: a refused sheet with a record", words_of(done))


def test_named():
    """JSON and CSV name lists and records apart, in their order, and the one that is refused, if one is."""
    lists, plants = ["transfers.csv", "refused-15.list"], ["plant.complex", "refused-16.complex.csv"]
    both = [*LISTS.words(lists[0]), *RECORDS.words(*plants), *LISTS.words(lists[1])]
    for words, month, given, refused in (
        (RECORDS.words("plant.complex", "plant.complex.csv"), "month.sheet",
         ([], ["plant.complex", "plant.complex.csv"]), ("", "")),
        (both, "month.toml", (lists, plants), ("", plants[1])),
        ([*both[:4], *both[6:]], "month.toml", (lists, plants[:1]), (lists[1], "")),
        (both, "refused-9.sheet", (lists, plants), ("", "")),
    ):
        found = month_of(*words, month)
        refusal = found["refusal"] or {}
        by_json = (found["transfers"], found["complexes"]), (refusal.get("list") or "", refusal.get("complex") or "")
        check(by_json == (given, refused), f"--json: {words} {month}", str(by_json))
        by_csv = {tuple(row[key] for key in ("transfers", "complexes", "list", "complex"))
                  for row in rows_of(*words, month)}
        check(by_csv == {(*map(" ".join, given), *refused)}, f"--csv: {words} {month}", str(by_csv))
    done = report("--form", "table", *both[:4], "month.sheet", folder=EXAMPLES)
    check(done.stdout.startswith(b"month.sheet: 31 days from a Wednesday, after transfers.csv, after plant.complex\n"),
          "--table: a list and a record, in their order", words_of(done))


def test_odd_names(folder):
    """A record's name that is no text: as it is for people, in UTF-8 for programs."""
    name, shown = "\udcff,\n.complex", "\\udcff,\n.complex"
    (folder / name).write_bytes((EXAMPLES / "refused-16.complex").read_bytes())
    words = ["--complex", folder / name, "month.sheet"]
    month, (row,) = month_of(*words), rows_of(*words)
    found = [*month["complexes"], month["refusal"]["complex"], row["complexes"], row["complex"]]
    check(found == [f"{folder}/{shown}"] * 4, "--csv, --json: a record's name", str(found))
    check(month["refusal"]["field"] == row["field"] == f"{folder}/{shown}, byte 0: length, 5769 (the month asks for "
          "5961)", "--csv, --json: a record's name with its field", str(month))


def test_changed_sheet(folder):
    """--sheet writes the sheet afterwards, and nothing on a refusal."""
    words = ["--sheet", "new.sheet", "--result", "new.bin", "--complex", PLANT, MONTH]
    done = report(*words, folder=folder)
    result = run(programs.RIVAL, "settle", EXAMPLES / "month-averaged.sheet").stdout.decode().split()[2]
    check(done.stdout.decode() == LISTING and (folder / "new.sheet").read_bytes() == CHANGED
          and (folder / "new.bin").read_bytes().hex() == result, "--sheet and --result", words_of(done))
    turned_down("--sheet", folder, words, "settle: new.bin: exists; --force writes over it", status=2, command=report)
    (folder / "a.complex").write_bytes(PLANT.read_bytes())
    (folder / "link").symlink_to("a.complex")
    turned_down("--sheet", folder, ["--sheet", "link", "--force", "--complex", "a.complex", MONTH],
                "settle: link: is read here", status=2, command=report)
    before = files_in(folder)
    refused = EXAMPLES / "refused-16.complex"
    done = report("--sheet", "new.sheet", "--force", *RECORDS.words("a.complex", refused), MONTH, folder=folder)
    check((done.returncode, done.stdout) == (1, b"N16\n") and files_in(folder) == before and done.stderr.decode() ==
          f"settle: new.sheet: is not written, since {refused} is refused by 16\n", "--sheet: refused", words_of(done))


def test_several(folder):
    """Records of several consumers are all applied, of one consumer the last one holds; a refused one takes the others
    back. Lists move contract volumes before, between and after them."""
    plant = PLANT.read_bytes()
    (folder / "other.complex").write_bytes(plant[:4] + b"\x0b" + plant[5:])
    # The same consumer with 20.0 imported, so 78.0 - 20.0 = 58.0.
    (folder / "less.complex").write_bytes(plant[:5] + (200).to_bytes(4, "big") + plant[9:])
    there = EXAMPLES / "transfers.list"
    for words, changed in (
        (RECORDS.words(PLANT, "other.complex"), {9: 675, 11: 675}), (RECORDS.words(PLANT, "less.complex"), {9: 580}),
        (RECORDS.words("less.complex", PLANT, PLANT), {9: 675}),
        ([*RECORDS.words("less.complex"), *LISTS.words(there), *RECORDS.words("other.complex")], {9: 580, 11: 675}),
    ):
        done = report("--sheet", "new", "--force", *words, MONTH, folder=folder)
        sheet = records.Sheet.from_bytes(MONTH.read_bytes() if "--transfers" not in words else
                                         (EXAMPLES / "month-transferred.sheet").read_bytes())
        for consumer, peak in changed.items():
            sheet.consumers[consumer].peak = peak
        check((folder / "new").read_bytes() == sheet.to_bytes(), f"{words}: the sheet afterwards", words_of(done))
        listing = run(programs.RIVAL, "list", folder / "new").stdout
        check(done.returncode == 0 and done.stdout == listing, f"{words}: the listing", words_of(done))
    refused = EXAMPLES / "refused-15.list"
    for words, number in (([*RECORDS.words(PLANT), *LISTS.words(refused)], 15),
                          ([*LISTS.words(refused), *RECORDS.words(EXAMPLES / "refused-17.complex")], 15),
                          ([*RECORDS.words(EXAMPLES / "refused-17.complex"), *LISTS.words(refused)], 17)):
        done = report("--form", "json", *words, MONTH)
        month, = json.loads(done.stdout)
        check(month["refusal"]["number"] == number and month["refusal"]["field"], f"{words}: refused", words_of(done))
