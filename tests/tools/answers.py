"""tools/report, as ./settle starts it: texts and sheets as listing, table, CSV and JSON; the bytes of a result."""
import csv
import io
import json
import os
import subprocess
import sys

import records
import results
from checks import EXAMPLES, PROGRAM, REPORT, by_rival, check, files_in, report, turned_down, words_of
from texts import GOOD, changed

LISTINGS = {path.stem: path.with_suffix(".listing").read_text() for path in EXAMPLES.glob("*.sheet")}
SETTLED = [name for name, listing in LISTINGS.items() if not listing.startswith("N")]
NAMES = [("[[producer]]", '[[producer]]\nname = "ТОО «Север», 1"'),
         ("[[consumer]]", '[[consumer]]\nname = "a \\"b\\""')]
STAND_IN = "#!/bin/sh\ncat >/dev/null\nprintf '%b' \"$(cat \"$0.says\")\"\n"


def form(name, *months, **more):
    """What is printed in a form, status 0 and no message taken for granted."""
    done = report("--form", name, *months, **more)
    check(done.returncode == 0 and not done.stderr, f"report: {name}", words_of(done))
    return done.stdout.decode()


def as_settled(name):
    """The text of an example if it has one, else its sheet."""
    text = EXAMPLES / f"{name}.toml"
    return text if text.is_file() else EXAMPLES / f"{name}.sheet"


def test_listings():
    """Texts and sheets print the stored listings."""
    names = sorted(LISTINGS)
    for name in names:
        check(form("listing", as_settled(name)) == LISTINGS[name], f"report: {name}")
    months = [as_settled(name) for name in names]
    wanted = "".join(f"{month}:\n{LISTINGS[name]}" for name, month in zip(names, months))
    check(form("listing", *months) == wanted, "report: all examples at once")
    content = (EXAMPLES / "small.sheet").read_bytes()
    check(form("listing", "-", stdin=content) == LISTINGS["small"], "report: standard input")


def test_figures():
    """CSV, JSON and the table have every figure of the listing, and refusals among them."""
    names = sorted(LISTINGS)
    months = {str(as_settled(name)): LISTINGS[name] for name in names}
    by_csv, by_json = dict.fromkeys(months, ""), {}
    for line in csv.DictReader(io.StringIO(form("csv", *months))):
        by_csv[line["month"]] += listed(line["record"], line)
    for month in json.loads(form("json", *months)):
        if month["refusal"]:
            by_json[month["month"]] = f"N{month['refusal']['number']}\n"
            check(month["refusal"]["words"] and month["refusal"]["field"], f"report: {month['month']}: words and field")
            continue
        lines = [listed(kind, each) for kind in ("row", "consumer") for each in month[f"{kind}s"]]
        by_json[month["month"]] = "".join(lines) + f"T {month['totals']['paid']} {month['totals']['charged']}\n"
    check(by_csv == months, "report: the figures of --csv")
    check(by_json == months, "report: the figures of --json")
    for month, listing in months.items():
        check_table(month, listing)


def listed(record, line):
    """The line of the listing that a record of CSV or JSON gives."""
    if record == "row":
        return f"R{line['row']} {line['volume_after_cut']} {line['actual_volume']} {line['payment']}\n"
    if record == "consumer":
        keys = ("credit", "percent", "n", "actual_volume", "charge")
        return " ".join([f"C{line['consumer']}", *(line[key] for key in keys)]) + "\n"
    if record == "totals":
        return f"T {line['payment']} {line['charge']}\n"
    return f"N{line['refusal']}\n"


def check_table(month, listing):
    """Each line of the table has the figures of the listing's line in their order, the thousands parted."""
    lines = form("table", month).splitlines()
    if listing.startswith("N"):
        check(lines[0].startswith(f"{month}: refused by {listing[1:-1]}: ") and len(lines) == 2, f"table: {month}")
        return
    heads = [place for place, line in enumerate(lines) if line.startswith(("row ", "consumer "))]
    check(len(heads) == 2, f"table: {month}: the heads")
    found = [lines[heads[0] + 2:heads[1] - 1], lines[heads[1] + 2:]]
    rows = [line for line in listing.splitlines() if line[0] == "R"]
    consumers = [line for line in listing.splitlines() if line[0] == "C"]
    paid, charged = listing.splitlines()[-1].split()[1:]
    for printed, wanted, total in ((found[0], rows, paid), (found[1], consumers, charged)):
        ends = printed[-1].endswith(f"  {parted(total)}")
        check(len(printed) == len(wanted) + 1 and ends, f"table: {month}: the totals")
        for line, figures in zip(printed, wanted):
            place, seen = 0, True
            for figure in figures.split()[1:]:
                place = line.find(f" {parted(figure)}", place) + 1
                seen = seen and place > 0
            check(seen and line.endswith(f"  {parted(figures.split()[-1])}"), f"table: {month}: {figures}", line)


def parted(figure):
    whole, point = figure[:figure.index(".")], figure[figure.index("."):]
    groups = []
    while whole:
        groups.insert(0, whole[-3:])
        whole = whole[:-3]
    return " ".join(groups) + point


def test_names(folder):
    """Names stand in tables, CSV, JSON and explanations, and change no byte of the sheet."""
    text = folder / "month.toml"
    text.write_text(changed(GOOD, [*NAMES, ('"single buyer"', "0")]))
    row = next(csv.DictReader(io.StringIO(form("csv", text))))
    check((row["producer_name"], row["consumer_name"]) == ("ТОО «Север», 1", 'a "b"'), "names: --csv", str(row))
    month, = json.loads(form("json", text))
    check(month["rows"][0]["producer_name"] == "ТОО «Север», 1", "names: --json, a row")
    check(month["consumers"][0]["consumer_name"] == 'a "b"', "names: --json, a consumer")
    table = form("table", text)
    check("  0  0 ТОО «Север», 1  0 a \"b\"" in table and "\n0 a \"b\" " in table, "names: --table", table)
    text.write_text(changed(GOOD, [*NAMES, ('"110.0"', '"10000.1"')]))
    field = "producer 0 (ТОО «Север», 1), attested capacity, 10000.1 MW (at most 10000.0)"
    month, = json.loads(form("json", text))
    check(month["refusal"]["field"] == field, "names: --json, a refusal", str(month))
    check(form("table", text).splitlines()[1] == field, "names: --table, a refusal")
    done = report("--explain", text)
    check(done.stdout == b"N9\n" and done.stderr.decode().endswith(f"{text}: {field}\n"), "names: --explain",
          words_of(done))
    done = subprocess.run([sys.executable, REPORT, "--program", PROGRAM, "--form", "table", text], capture_output=True,
                          env=dict(os.environ, LC_ALL="C", PYTHONCOERCECLOCALE="0", PYTHONUTF8="0"))
    check(field in done.stdout.decode(), "names: --table is in UTF-8, whatever the locale", words_of(done))


def test_odd_names(folder):
    """A file's name that is no text: as it is in listings, in UTF-8 for programs."""
    name = "\udcff,\n.sheet"
    (folder / name).write_bytes((EXAMPLES / "exam-126.sheet").read_bytes())
    done = report(name, name, folder=folder)
    wanted = b"\xff,\n.sheet:\n" + LISTINGS["exam-126"].encode()
    check(done.stdout == 2 * wanted, "report: a name that is no text", words_of(done))
    lines = list(csv.DictReader(io.StringIO(form("csv", name, folder=folder))))
    month, = json.loads(form("json", name, folder=folder))
    check({line["month"] for line in lines} == {month["month"]} == {"\\udcff,\n.sheet"}, "--csv, --json: the same")


def test_result_bytes(folder):
    """--result writes the rival's result, byte for byte; of a refused month nothing."""
    for name in SETTLED:
        printed = by_rival("settle", EXAMPLES / f"{name}.sheet").decode()
        done = report("--result", f"{name}.bin", as_settled(name), folder=folder)
        check(done.stdout.decode() == LISTINGS[name] and not done.stderr, f"--result: {name}: the listing",
              words_of(done))
        check((folder / f"{name}.bin").read_bytes().hex() == printed.split()[2], f"--result: {name}: the bytes")
    (folder / "old.bin").write_bytes(b"old")
    (folder / "month.sheet").write_bytes((EXAMPLES / "small.sheet").read_bytes())
    (folder / "link").symlink_to("month.sheet")
    for words, message in (
        (["old.bin", "month.sheet"], "settle: old.bin: exists; --force writes over it"),
        (["link", "--force", "month.sheet"], "settle: link: is read here"),
        (["no/new.bin", "month.sheet"], "settle: no/new.bin: cannot be written: No such file"),
        ([".", "month.sheet"], "settle: .: is a folder"),
        (["new.bin", "month.sheet", "month.sheet"], "settle: --result takes the result of one month"),
    ):
        turned_down("--result", folder, ["--result", *words], message, status=2, command=report)
    before = files_in(folder)
    done = report("--result", "old.bin", "--force", EXAMPLES / "refused-9.toml", folder=folder)
    check((done.returncode, done.stdout) == (1, b"N9\n") and files_in(folder) == before, "--result: refused",
          words_of(done))
    check(done.stderr.decode() == f"settle: old.bin: is not written, since {EXAMPLES / 'refused-9.toml'} is refused by "
          "9\n", "--result: refused, the message", words_of(done))


def test_statuses(folder):
    for words, status in ((["refused-9.toml"], 0), (["--strict", "refused-9.toml"], 1),
                          (["--strict", "small.toml"], 0), (["--strict", "small.toml", "refused-9.sheet"], 1),
                          (["--form", "json", "refused-1.sheet"], 0),
                          (["--strict", "--form", "csv", "refused-1.sheet"], 1)):
        done = report(*words, folder=EXAMPLES)
        check(done.returncode == status and not done.stderr, f"report: status of {words}", words_of(done))
    (folder / "bad.toml").write_text(changed(GOOD, [('"110.0"', '"x"'), ("bid = 72", 'bid = ""')]))
    (folder / "sheet.toml").write_bytes((EXAMPLES / "month.sheet").read_bytes())
    for words, message in (
        (["none.toml"], "settle: none.toml: cannot be read: No such file"),
        ([EXAMPLES / "small.sheet", "none.sheet"], "settle: none.sheet: cannot be read"),
        ([EXAMPLES / "small.sheet", "bad.toml"], 'settle: bad.toml: producer 0: attested_capacity: "x" is not a number '
                                                 "written plainly, as 100.0 (and 1 more; tools/sheet check lists"),
        (["sheet.toml"], "settle: sheet.toml, line 1: is not text in UTF-8"),
        (["."], "settle: .: cannot be read: Is a directory"),
    ):
        turned_down("report", folder, words, message, status=2, command=report)


def test_other_programs(folder):
    """What is no listing of the sheet is not passed on; the program's number holds."""
    program = folder / "program"
    program.write_text(STAND_IN)
    program.chmod(0o755)
    small = LISTINGS["small"].replace("\n", "\\n")
    for said in ("", "N", "N9", "N9\\nN9\\n", "T 0.00 0.00\\n", small[:-2], small.replace("R1", "R2"), f"{small}\\n",
                 small.replace("76.1", "076.1"), small.replace("76.1", "76.10"), small.replace("76.1", "99999999999.9"),
                 small.replace(" 76.1", ""), small.replace("T", "X"), small.replace("76", 5000 * "9"), "\\0377\\n"):
        (folder / "program.says").write_text(said)
        turned_down("a bad program", folder, ["--form", "json", EXAMPLES / "small.sheet"],
                    "is no listing of this sheet", status=2, command=report, program=program)
    (folder / "program.says").write_text("N20\\n")
    month, = json.loads(form("json", "small.sheet", program=program, folder=EXAMPLES))
    wanted = {"number": 20, "list": None, "complex": None, "words": "a rule that tools/refusals.py does not know",
              "byte": None, "field": None}
    check(month["refusal"] == wanted, "a number that the tools do not know", str(month))
    done = report("--explain", "small.sheet", program=program, folder=EXAMPLES)
    check(b"has another answer; the program's holds" in done.stderr, "--explain: another answer", words_of(done))
    for name, message in (("none", "cannot be started: No such file"), (".", "cannot be started: Permission denied")):
        turned_down("no program", folder, [EXAMPLES / "small.sheet"], message, status=2, command=report,
                    program=folder / name)


def test_impossible(cases, answers):
    """Every result of the rival is possible under its sheet. In that of the full month, no byte can be changed without
    being noticed, save in a volume after the cut that stays between the actual volume and the sheet's."""
    settled = [(case.sheet, answer) for case, answer in zip(cases, answers) if isinstance(answer, bytes)]
    for content, answer in settled:
        found = list(results.impossible(*records.result_figures(content, answer), records.Sheet.from_bytes(content)))
        check(not found, "result --sheet: a true result", "\n".join(found))
    content = (EXAMPLES / "month.sheet").read_bytes()
    sheet = records.Sheet.from_bytes(content)
    result = results.result_of_listing(LISTINGS["month"], content)
    for place in range(5, len(result)):
        for change in (1, 64):
            other = bytearray(result)
            other[place] ^= change
            figures = records.result_figures(content, bytes(other))
            unseen = any(old.after_cut != new.after_cut and new.actual <= new.after_cut <= row.volume
                         for old, new, row in zip(records.result_figures(content, result)[0], figures[0], sheet.rows))
            found = list(results.impossible(*figures, sheet))
            name = records.field_at(content, place)
            check(bool(found) != unseen and all(name.split(",")[0].split()[0] in words or "totals" in words
                                                for words in found[:1]), f"result --sheet: {name}", "\n".join(found))
