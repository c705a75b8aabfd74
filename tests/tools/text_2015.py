"""tools/report under the text of 2015, as ./settle --text-2015 starts it: listings, forms, lists and records before it,
refusals, the bytes of a result; and tools/sheet result, which reads these. The answers are the rival's, and those of
the request."""
import csv
import io
import json
import tempfile

import checks
import programs
import records
import results
from answers import STAND_IN, as_settled, parted
from checks import (CHANGES, EXAMPLES, LISTS, PROGRAM_2015, RECORDS, ROOT, check, files_in, report, report_2015,
                    run, sheet, turned_down, words_of)
from texts import BACK, GOOD, changed

OLD_ACT = EXAMPLES / "old-act.sheet"
OLD_ACT_LISTING = (EXAMPLES / "old-act-2015.listing").read_text()
MONTH = EXAMPLES / "month.sheet"
WITHOUT_CONSUMERS = EXAMPLES / "producer.sheet"
FIGURES = ("factor", "volume", "charge")
CONSUMER_KEYS = ["consumer", "consumer_name", "contract_volume", "peak", "price", *FIGURES]
MONTH_KEYS = ["month", "text", "transfers", "complexes", "refusal", "consumers"]
COLUMNS = ["month", "text", "record", *CONSUMER_KEYS, "refusal", "words", "byte", "field", "list", "transfers",
           "complex", "complexes"]
# Worked out by hand from request 4: contract volume and peak, then factor and volume, in MW.
BY_HAND = [("100.0", "0.0", "1.0", "100.0"), ("100.0", "105.0", "1.0", "100.0"), ("100.0", "105.1", "1.1", "110.0"),
           ("100.0", "110.0", "1.1", "110.0"), ("100.0", "110.1", "1.2", "120.0"), ("100.0", "120.0", "1.2", "120.0"),
           ("100.0", "120.1", "1.5", "150.0"), ("0.0", "0.0", "1.0", "0.0"), ("0.0", "0.1", "1.5", "0.0"),
           ("0.5", "10000.0", "1.5", "0.8")]


def by_rival(path):
    """The rival's listing of a sheet."""
    return checks.by_rival("list2015", path)


def result_by_rival(path):
    """The rival's result of an accepted sheet."""
    return bytes.fromhex(checks.by_rival("settle2015", path).decode().split()[2])


def form(name, *words, **more):
    """What is printed in a form, status 0 and no message taken for granted."""
    done = report_2015("--form", name, *words, folder=EXAMPLES, **more)
    check(done.returncode == 0 and not done.stderr, f"--text-2015 --{name}", words_of(done))
    return done.stdout.decode()


def months_of(*words):
    return json.loads(form("json", *words))


def lines_of(*words):
    return list(csv.DictReader(io.StringIO(form("csv", *words))))


def test_example():
    """The old act: its listing by the rival and by the proved program, alone; the READMEs' tables of it."""
    check(by_rival(OLD_ACT).decode() == OLD_ACT_LISTING, "old-act-2015.listing by the rival")
    done = run(PROGRAM_2015, stdin=OLD_ACT.read_bytes())
    check(done.stdout.decode() == OLD_ACT_LISTING, "old-act-2015.listing by the proved program", words_of(done))
    factors = {line.split()[1] for line in OLD_ACT_LISTING.splitlines()}
    check(factors == {"1.0", "1.1", "1.2", "1.5"}, "old-act: every factor", str(factors))
    readme = (EXAMPLES / "README.md").read_text()
    for name in ("old-act", "old-act-2015"):
        for line in (EXAMPLES / f"{name}.listing").read_text().splitlines():
            check(f"| `{line}` |" in readme, f"examples/README.md has {line}")
    table = report_2015("--form", "table", "examples/old-act.toml", folder=ROOT).stdout.decode()
    check(f"```\n{table}```\n" in (ROOT / "tools" / "README.md").read_text(), "tools/README.md has the table", table)


def test_listings():
    """Texts and sheets, alone, together and on standard input."""
    paths = [as_settled(path.stem) for path in sorted(EXAMPLES.glob("*.sheet"))]
    listings = {path: by_rival(path.with_suffix(".sheet")).decode() for path in paths}
    check(listings[as_settled("producer")] == "", "a month without consumers has no line")
    for path, listing in listings.items():
        for each in {path, path.with_suffix(".sheet")}:
            check(form("listing", each) == listing, f"--text-2015: {each.name}")
    wanted = "".join(f"{path}:\n{listing}" for path, listing in listings.items())
    check(form("listing", *paths) == wanted, "--text-2015: all examples at once")
    for path in (OLD_ACT, WITHOUT_CONSUMERS):
        check(form("listing", "-", stdin=path.read_bytes()) == by_rival(path).decode(),
              f"--text-2015: {path.name} on standard input")


def test_paper(folder):
    """The edges of the request, from a text."""
    _, consumer = GOOD.split("[[consumer]]")
    consumers = ["[[consumer]]" + consumer.replace('"100.0"', f'"{contract}"').replace('"126.0"', f'"{peak}"')
                 for contract, peak, *_ in BY_HAND]
    (folder / "month.toml").write_text(GOOD.split("[[consumer]]")[0] + "".join(consumers))
    found = [line.split()[1:3] for line in form("listing", folder / "month.toml").splitlines()]
    check(found == [list(line[2:]) for line in BY_HAND], "--text-2015: the figures worked out by hand", str(found))


def test_figures():
    """CSV, JSON and the table have every figure of the rival's listing under their headings, with refusals."""
    names = sorted(path.stem for path in EXAMPLES.glob("*.sheet"))
    listings = {str(as_settled(name)): by_rival(EXAMPLES / f"{name}.sheet").decode() for name in names}
    by_csv, by_json = dict.fromkeys(listings, ""), dict.fromkeys(listings, "")
    for line in lines_of(*listings):
        check(list(line) == COLUMNS and line["text"] == "2015", f"--csv: the columns of {line['month']}", str(line))
        by_csv[line["month"]] += listed(line) if line["record"] == "consumer" else f"N{line['refusal']}\n"
    for month in months_of(*listings):
        check(list(month) == MONTH_KEYS and month["text"] == "2015", f"--json: the keys of {month['month']}")
        check(all(list(each) == CONSUMER_KEYS for each in month["consumers"]), f"--json: consumers: {month['month']}")
        refused = month["refusal"]
        check(not refused or refused["words"] and refused["field"], f"--json: {month['month']}: words and field")
        by_json[month["month"]] = (f"N{refused['number']}\n" if refused
                                   else "".join(map(listed, month["consumers"])))
    check(by_csv == listings, "--text-2015: the figures of --csv")
    check(by_json == listings, "--text-2015: the figures of --json")
    for name, listing in listings.items():
        check_table(name, listing)
    header, = form("csv", WITHOUT_CONSUMERS).splitlines()
    check(header == ",".join(COLUMNS), "--csv: a month without consumers has no line", header)


def listed(consumer):
    """The line of the listing that a consumer of CSV or JSON gives."""
    return " ".join([f"C{consumer['consumer']}", *(consumer[key] for key in FIGURES)]) + "\n"


def check_table(month, listing):
    lines = form("table", month).splitlines()
    if listing.startswith("N"):
        check(lines[0].startswith(f"{month}: refused by {listing[1:-1]}: ") and len(lines) == 2,
              f"--table: {month}: refused", "\n".join(lines))
        return
    heading, blank, names, units, *consumers = lines
    check(heading.startswith(f"{month}: ") and heading.endswith(", under the text of 2015") and not blank
          and names.split() == ["consumer", "contract", "peak", "factor", "volume", "price", "charge"]
          and units.split() == ["MW", "MW", "MW", "tenge/MW", "tenge"], f"--table: {month}: the heads",
          "\n".join(lines[:4]))
    wanted = listing.splitlines()
    check(len(consumers) == len(wanted), f"--table: {month}: a line for each consumer, and no total")
    for line, figures in zip(consumers, wanted):
        _, factor, volume, charge = figures.split()
        check(f" {factor} " in line and f" {parted(volume)} " in line and line.endswith(f" {parted(charge)}"),
              f"--table: {month}: {figures}", line)


def low_plant(folder):
    """A record that leaves the plant of the examples a peak of 78.0 - 20.0 = 58.0 over its 50.0, factor 1.2, and the
    month's sheet after it, by the rival."""
    plant, record, after = RECORDS.files()[1].read_bytes(), folder / "low.complex", folder / "low.sheet"
    record.write_bytes(plant[:5] + (200).to_bytes(4, "big") + plant[9:])
    after.write_bytes(bytes.fromhex(run(programs.RIVAL, "average", MONTH, record).stdout.decode().split()[2]))
    return record, after


def test_changes(folder):
    """Lists and records are applied first, in the order given, and the consumers settled after them."""
    after = {kind: EXAMPLES / f"{kind.after}.sheet" for kind in CHANGES}
    for kind, path in after.items():
        for given in kind.files():
            for month in ("month.toml", "month.sheet"):
                check(form("listing", kind.option, given, month) == by_rival(path).decode(),
                      f"--text-2015 {kind.option} {given.name} {month}")
        month, = months_of(kind.option, kind.files()[0].name, "month.toml")
        check("".join(map(listed, month["consumers"])) == by_rival(path).decode()
              and month["transfers"] + month["complexes"] == [kind.files()[0].name], f"--json {kind.option}")
        heading = form("table", kind.option, kind.files()[0].name, "month.toml").splitlines()[0]
        check(heading == f"month.toml: December 2021, after {kind.files()[0].name}, under the text of 2015",
              f"--table {kind.option}", heading)
        for number in kind.refused:
            for given in kind.files(f"refused-{number}"):
                check(form("listing", kind.option, given, "month.sheet") == f"N{number}\n",
                      f"--text-2015 {kind.option} {given.name}")
    (folder / "back.csv").write_text(BACK)
    there, back, plant, (record, low) = LISTS.files()[0], folder / "back.csv", RECORDS.files()[1], low_plant(folder)
    check(len({by_rival(path) for path in (MONTH, after[LISTS], low)}) == 3, "changes are seen under the text of 2015")
    for words, wanted in (
        (RECORDS.words(plant, record), by_rival(low)), (RECORDS.words(record, plant), by_rival(after[RECORDS])),
        ([*LISTS.words(there), *RECORDS.words(record), *LISTS.words(back)], by_rival(low)),
        (LISTS.words(there, back), by_rival(MONTH)), (LISTS.words(back, there), b"N15\n"),
        ([*RECORDS.words(EXAMPLES / "refused-17.complex"), *LISTS.words(back)], b"N17\n"),
    ):
        check(form("listing", *words, "month.sheet") == wanted.decode(), f"--text-2015 {words}")


def test_refused():
    """--explain and --strict: the number, the rule and the field are those of the text of 2021."""
    refused = [path.stem for path in sorted(EXAMPLES.glob("refused-*.sheet"))]
    for words in ([as_settled(name) for name in refused],
                  [*LISTS.words("refused-15.csv"), "month.sheet"], [*RECORDS.words("refused-17.complex"), "month.toml"],
                  [*LISTS.words("refused-13.list"), "refused-10.sheet"]):
        done, in_force = (each("--explain", "--strict", *words, folder=EXAMPLES) for each in (report_2015, report))
        check(done.returncode == 1 and (done.stdout, done.stderr) == (in_force.stdout, in_force.stderr) and done.stderr,
              f"--text-2015 --explain: {words}", words_of(done))
    for words, status in ((["refused-9.toml"], 0), (["--strict", "refused-9.toml"], 1),
                          (["--strict", "old-act.toml"], 0), (["--strict", "producer.sheet"], 0),
                          (["--strict", "producer.sheet", "refused-9.sheet"], 1),
                          (["--strict", "--form", "csv", "refused-1.sheet"], 1)):
        done = report_2015(*words, folder=EXAMPLES)
        check(done.returncode == status and not done.stderr, f"--text-2015: status of {words}", words_of(done))


def test_bad(folder):
    """What cannot be read is told with the file, the key and the reason."""
    (folder / "bad.toml").write_text(changed(GOOD, [('peak = "126.0"', 'peak = "126.05"')]))
    (folder / "keyless.toml").write_text(changed(GOOD, [('z = "1.0"\n', "")]))
    (folder / "bad.csv").write_text("day,giver,taker,amount\n1,0,1,1.05\n")
    for words, message in (
        (["bad.toml"], 'settle: bad.toml: consumer 0: peak: "126.05" has more than one decimal'),
        ([OLD_ACT, "keyless.toml"], "settle: keyless.toml: consumer 0: the key z is missing"),
        (["none.toml"], "settle: none.toml: cannot be read: No such file"),
        (["--transfers", "bad.csv", MONTH], 'settle: bad.csv, line 2: amount: "1.05" has more than one decimal'),
        (["--transfers", LISTS.files()[0], MONTH, OLD_ACT], "settle: --transfers goes with one month"),
        (["--complex", RECORDS.files()[1], OLD_ACT, MONTH], "settle: --complex goes with one month"),
        (["--sheet", "new.sheet", OLD_ACT], "settle: --sheet goes with --transfers or --complex"),
        (["--result", "new.bin", OLD_ACT, MONTH], "settle: --result takes the result of one month"),
        (["--result", "new.sheet", OLD_ACT], "settle: new.sheet: is a sheet by its name, and a result is to be"),
    ):
        turned_down("--text-2015", folder, words, message, status=2, command=report_2015)


def test_result_bytes(folder):
    """--result writes the rival's result, byte for byte; of a refused month nothing. --sheet beside it."""
    for name in sorted(path.stem for path in EXAMPLES.glob("*.sheet")):
        if by_rival(EXAMPLES / f"{name}.sheet").startswith(b"N"):
            continue
        done = report_2015("--result", f"{name}.bin", as_settled(name), folder=folder)
        check(done.returncode == 0 and not done.stderr and (folder / f"{name}.bin").read_bytes() ==
              result_by_rival(EXAMPLES / f"{name}.sheet"), f"--text-2015 --result: {name}", words_of(done))
    check((folder / "producer.bin").read_bytes() == b"\0\0\0\4", "--result: without consumers, the length alone")
    turned_down("--result", folder, ["--result", "month.bin", OLD_ACT], "settle: month.bin: exists; --force writes "
                "over it", status=2, command=report_2015)
    done = report_2015("--result", "month.bin", "--force", OLD_ACT, folder=folder)
    check((folder / "month.bin").read_bytes() == (folder / "old-act.bin").read_bytes(), "--force", words_of(done))
    before = files_in(folder)
    done = report_2015("--result", "month.bin", "--force", EXAMPLES / "refused-9.sheet", folder=folder)
    check((done.returncode, done.stdout) == (1, b"N9\n") and files_in(folder) == before
          and b"settle: month.bin: is not written, since " in done.stderr, "--result: refused", words_of(done))
    for kind in CHANGES:
        after = EXAMPLES / f"{kind.after}.sheet"
        done = report_2015("--sheet", "new.sheet", "--result", "new.bin", "--force", kind.option, kind.files()[1],
                           MONTH, folder=folder)
        check(done.stdout == by_rival(after) and (folder / "new.sheet").read_bytes() == after.read_bytes()
              and (folder / "new.bin").read_bytes() == result_by_rival(after), f"--sheet --result {kind.option}",
              words_of(done))


def test_other_programs(folder):
    """What is no listing of this sheet under the text of 2015 is not passed on; the program's number holds."""
    program = folder / "program"
    program.write_text(STAND_IN)
    program.chmod(0o755)
    listing = OLD_ACT_LISTING.replace("\n", "\\n")
    lines = OLD_ACT_LISTING.splitlines()
    in_force = (EXAMPLES / "old-act.listing").read_text().replace("\n", "\\n")
    for path, said in (
        *((OLD_ACT, said) for said in (
            "", "\\n", "N", "N9", listing[:-2], f"{listing}\\n", in_force, f"{listing}T 0.00 0.00\\n",
            f"{listing}C6 1.0 1.0 1.00\\n", "".join(f"{line}\\n" for line in lines[:-1]),
            "".join(f"{line}\\n" for line in lines[1:]), listing.replace("C1", "C2"), listing.replace("1.1", "01.1"),
            listing.replace("1.1", "26.0"), listing.replace(" 50.1", ""), listing.replace(" 50.1", " 50.10"))),
        (WITHOUT_CONSUMERS, "\\n"), (WITHOUT_CONSUMERS, "T 0.00 0.00\\n"), (WITHOUT_CONSUMERS, "C0 1.0 0.0 0.00\\n"),
        (EXAMPLES / "refused-1.sheet", ""),
    ):
        (folder / "program.says").write_text(said)
        turned_down("a bad program", folder, ["--form", "json", path], f"settle: what the program printed for {path} "
                    "is no listing of this sheet", status=2, command=report_2015, program=program)
    done = report("old-act.sheet", program=PROGRAM_2015, folder=EXAMPLES)
    check(done.returncode == 2 and b"is no listing of this sheet" in done.stderr, "the program of the other text",
          words_of(done))
    (folder / "program.says").write_text("N20\\n")
    done = report_2015("--explain", OLD_ACT, program=program)
    check(done.stdout == b"N20\n" and b"has another answer; the program's holds" in done.stderr,
          "--text-2015 --explain: another answer", words_of(done))
    program.write_text("#!/bin/sh\nexit 1\n")
    turned_down("a program that fails", folder, [WITHOUT_CONSUMERS], f"the program failed on {WITHOUT_CONSUMERS}",
                status=2, command=report_2015, program=program)


def test_read(folder):
    """`result --text-2015` prints the rival's results as its listings; what it says of other bytes."""
    for path in (OLD_ACT, WITHOUT_CONSUMERS, MONTH, *(EXAMPLES / f"{kind.after}.sheet" for kind in CHANGES)):
        (folder / "r.bin").write_bytes(result_by_rival(path))
        dump = (folder / "r.bin").read_bytes() + b"\1\0more of the buffer"
        for name, words, more in (("with its sheet", ["r.bin", "--sheet", path], {}), ("alone", ["r.bin"], {}),
                                  ("in a dump", ["-", "--sheet", path], {"stdin": dump}), ("alone in a dump", ["-"],
                                                                                          {"stdin": dump})):
            done = sheet("result", "--text-2015", *words, folder=folder, **more)
            check(done.returncode == 0 and done.stdout == by_rival(path) and not done.stderr,
                  f"result --text-2015: {path.stem}, {name}", words_of(done))
    transferred = EXAMPLES / f"{LISTS.after}.sheet"
    for given, after in ((LISTS.words(LISTS.files()[0]), transferred), (LISTS.words(LISTS.files()[1]), transferred),
                         (RECORDS.words(low_plant(folder)[0]), folder / "low.sheet")):
        (folder / "r.bin").write_bytes(result_by_rival(after))
        words = ["result", "--text-2015", "r.bin", "--sheet", MONTH]
        done = sheet(*words, *given, folder=folder)
        check(done.stdout == by_rival(after), f"result --text-2015 {given}", words_of(done))
        done = sheet(*words, folder=folder)
        check(done.returncode == 1 and not done.stdout and b", so this is no result of " in done.stderr,
              f"result --text-2015: not that of the month before {given}", words_of(done))
    check_bad_results(folder)


def check_bad_results(folder):
    old, one = result_by_rival(OLD_ACT), EXAMPLES / "exam-126.sheet"
    in_force = bytes.fromhex(run(programs.RIVAL, "settle", one).stdout.decode().split()[2])
    (folder / "zeros.sheet").write_bytes(records.Sheet(records.Month(28, 1, 0), [], [], []).to_bytes())
    empty = bytes.fromhex(run(programs.RIVAL, "settle", folder / "zeros.sheet").stdout.decode().split()[2])
    for content, words, message in (
        (b"\0\0\0", ["--text-2015"], "has 3 bytes; a result has at least 21, under the text of 2015 4"),
        (b"\0\0\0\4", [], "has 4 bytes; a result has at least 21, under the text of 2015 4"),
        (old[:-1], ["--text-2015"], "its length field says 106, but it has 105 bytes"),
        (b"\0\0\0\5" + old[4:], ["--text-2015"], "its length field says 5, which no counts of consumers give"),
        (b"\0\0\2\x35" + bytes(561), ["--text-2015"], "its length field says 565, which no counts of consumers give"),
        (old, ["--text-2015", "--sheet", one], "its length field says 106; 1 consumers make 21"),
        (old, [], "its version is 10, not 1; --text-2015 reads a result under the text of 2015"),
        (old, ["--sheet", OLD_ACT], "its version is 10, not 1; --text-2015 reads a result under the text of 2015"),
        (in_force, ["--text-2015"], "has a version, so it is no result under the text of 2015; without --text-2015 it "
                                    "can be read"),
        (empty, ["--text-2015"], "has a version, so it is no result under the text of 2015"),
        (old[:4] + b"\x0d" + old[5:], ["--text-2015"], "consumer 0: factor 1.3 is none of 1.0, 1.1, 1.2, 1.5, so this "
                                                       "is no result of any sheet"),
        (old, ["--text-2015", "--sheet", EXAMPLES / "refused-9.sheet"], "is refused by 9, so there is no result"),
    ):
        turned_down("result", folder, ["result", "-", *words], message, stdin=content)
    turned_down("result", folder, ["result", "--text-2015", "r.bin", "--transfers", "a.list"], "--transfers goes with "
                "--sheet", status=2)


# A figure of the old act's result: where it stands, what is put there, and what is said of it.
IMPOSSIBLE = [
    (21, 1, 12, ["consumer 1: factor 1.2 is not that of the peak 50.0 over contract volume 45.5, 1.1",
                 "consumer 1: volume 50.1 is not contract volume × factor, 45.5 × 1.2 = 54.6"]),
    (22, 8, 500, ["consumer 1: volume 50.0 is not contract volume × factor, 45.5 × 1.1 = 50.1",
                  "consumer 1: charge 30060000.00 is not volume × price, 50.0 × 600000.00 = 30000000.00"]),
    (30, 8, 0, ["consumer 1: charge 0.00 is not volume × price, 50.1 × 600000.00 = 30060000.00"]),
    (89, 1, 10, ["consumer 5: factor 1.0 is not that of the peak 2.0 over contract volume 0.0, 1.5"]),
]


def test_impossible(cases, _answers):
    """Every result of the rival is possible under its sheet. In that of the full month no byte can be changed without
    being noticed, and in that of the old act it is said what is wrong."""
    with tempfile.TemporaryDirectory() as folder:
        answers = programs.rival_answers(cases, folder, "batch2015")
    settled = [(case.sheet, answer) for case, answer in zip(cases, answers) if isinstance(answer, bytes)]
    check(len(settled) > 300, f"the drawn sheets: only {len(settled)} are settled")
    for content, answer in settled:
        found = faults(content, answer)
        check(not found, "result --text-2015 --sheet: a true result", "\n".join(found))
    content, result = MONTH.read_bytes(), result_by_rival(MONTH)
    for place in range(4, len(result)):
        number = (place - 4) // 17
        for change in (1, 64):
            other = bytearray(result)
            other[place] ^= change
            found = faults(content, bytes(other))
            check(found and all(words.startswith(f"consumer {number}: ") for words in found),
                  f"result --text-2015 --sheet: byte {place}", "\n".join(found))
    old = result_by_rival(OLD_ACT)
    for place, width, figure, wanted in IMPOSSIBLE:
        other = old[:place] + figure.to_bytes(width, "big") + old[place + width:]
        done = sheet("result", "--text-2015", "-", "--sheet", OLD_ACT, stdin=other)
        lines = [f"tools/sheet: standard input: {words}, so this is no result of {OLD_ACT}" for words in wanted]
        check(done.returncode == 1 and not done.stdout and done.stderr.decode().splitlines() == lines,
              f"result --text-2015 --sheet: the old act, byte {place}", words_of(done))


def faults(content, result):
    """What is impossible in a result of an accepted sheet."""
    month = records.Sheet.from_bytes(content)
    figures = results.OF_2015.figures(len(month.rows), len(month.consumers), result)
    return list(results.OF_2015.impossible(*figures, month))
