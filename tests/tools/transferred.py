"""tools/report with lists of transfers, as ./settle starts it: listings, forms, the changed sheet, order, statuses.

What is the same of records of complexes is tested of both."""
import csv
import io
import json
import tempfile

import programs
import records
import transfers
from checks import CHANGES, EXAMPLES, LISTS, RECORDS, ROOT, check, files_in, report, run, turned_down, words_of
from transfers import Transfer

# Stored cases, in crates/vectors/data, and how many there are (docs/EVIDENCE.md).
STORED = ((LISTS, "transfers", 28), (RECORDS, "averages", 32))
MONTHS = EXAMPLES / "month.toml", EXAMPLES / "month.sheet"
CHANGED = (EXAMPLES / "month-transferred.sheet").read_bytes()
LISTING = (EXAMPLES / "month-transferred.listing").read_text()
# The consumers of the month whose contract volumes the list changes, in MW.
AFTER = {8: "19.5", 10: "57.0", 19: "17.5", 29: "4.0", 31: "55.0"}
STAND_IN = "#!/bin/sh\ncat >/dev/null\ncat \"$0.writes\"\n"


def list_file(folder, name, *entries):
    (folder / name).write_bytes(transfers.list_bytes([Transfer(*entry) for entry in entries]))


def contracts(content):
    return [consumer.contract for consumer in records.Sheet.from_bytes(content).consumers]


def written(kind, packed, content):
    """What the program writes that applies lists or records."""
    return run("sh", "-c", 'exec "$0" 3<"$1"', kind.program, packed, stdin=content).stdout


def test_stored(folder):
    """The programs that apply lists and records, alone, on the stored cases."""
    for kind, name, count in STORED:
        stored = list(programs.stored_lists((ROOT / "crates" / "vectors" / "data" / name).read_bytes()))
        check(len(stored) == count, f"{kind.program.name}: {len(stored)} stored cases")
        for place, (sheet, packed, answer) in enumerate(stored):
            (folder / "packed").write_bytes(packed)
            wanted = b"N%d\n" % answer if isinstance(answer, int) else answer
            check(written(kind, folder / "packed", sheet) == wanted, f"{kind.program.name}: stored case {place}")


def test_programs():
    """The programs that apply lists and records, alone, with all of the examples."""
    month = MONTHS[1].read_bytes()
    for kind in CHANGES:
        name, after = kind.program.name, (EXAMPLES / f"{kind.after}.sheet").read_bytes()
        check(written(kind, kind.files()[1], month) == after, f"{name}: the sheet afterwards")
        refused = [kind.files(f"refused-{number}")[1] for number in kind.refused]
        for packed, number in zip(refused, kind.refused):
            check(written(kind, packed, month) == b"N%d\n" % number, f"{name}: {packed.name}")
        for path in EXAMPLES.glob("refused-*.sheet"):
            listing = path.with_suffix(".listing").read_bytes()
            check(written(kind, refused[0], path.read_bytes()) == listing, f"{name}: {path.name}")


def test_listings():
    """Texts and bytes of lists and records, with texts and sheets of the month, print the stored listings."""
    for kind in CHANGES:
        listing = (EXAMPLES / f"{kind.after}.listing").read_bytes()
        answers = {path: listing for path in kind.files()}
        answers |= {path: b"N%d\n" % number for number in kind.refused for path in kind.files(f"refused-{number}")}
        for month in MONTHS:
            for path, answer in answers.items():
                done = report(kind.option, path, month)
                check((done.returncode, done.stdout) == (0, answer) and not done.stderr,
                      f"report {kind.option} {path.name} {month.name}", words_of(done))
        done = report(kind.option, kind.files()[0], "-", stdin=MONTHS[1].read_bytes())
        check(done.stdout == listing, f"report {kind.option}: standard input", words_of(done))
        for path in EXAMPLES.glob("refused-*.sheet"):
            done = report(kind.option, kind.files(f"refused-{kind.refused[0]}")[1], path)
            check(done.stdout == path.with_suffix(".listing").read_bytes(), f"report {kind.option}: {path.name}",
                  words_of(done))


def test_forms():
    """The table, CSV and JSON have the contract volumes after the list; a refusal has its number, words and field."""
    words = ["--transfers", "transfers.csv", "month.toml"]
    done = report("--form", "table", *words, folder=EXAMPLES)
    lines = done.stdout.decode().splitlines()
    check(lines[0] == "month.toml: December 2021, after transfers.csv", "--table: the heading", words_of(done))
    for number, volume in AFTER.items():
        check(any(line.split()[:2] == [str(number), volume] for line in lines), f"--table: consumer {number}",
              words_of(done))
    done = report("--form", "table", *LISTS.words("transfers.csv", "transfers.list"), "month.sheet", folder=EXAMPLES)
    check(done.stdout.startswith(b"month.sheet: 31 days from a Wednesday, after transfers.csv, after transfers.list\n"),
          "--table: two lists", words_of(done))
    month, = json.loads(report("--form", "json", *words, folder=EXAMPLES).stdout)
    rows = list(csv.DictReader(io.StringIO(report("--form", "csv", *words, folder=EXAMPLES).stdout.decode())))
    volumes = [records.CAPACITY.text(volume) for volume in contracts(CHANGED)]
    consumers = [row for row in rows if row["record"] == "consumer"]
    for name, found in (("--json", month["consumers"]), ("--csv", consumers)):
        check([each["contract_volume"] for each in found] == volumes, f"{name}: the contract volumes")
    check(month["transfers"] == ["transfers.csv"] and {row["transfers"] for row in rows} == {"transfers.csv"},
          "--json, --csv: the list is named")
    check(f"T {month['totals']['paid']} {month['totals']['charged']}" == LISTING.splitlines()[-1], "--json: the totals")


def test_refused():
    """How each form meets a refused list."""
    field = "refused-15.csv, line 2: entry 0, amount, 16.0 MW (at its turn the giver, consumer 29, has 0.0)"
    rule = "at its turn, an entry asks more than its giver has, or brings its taker above 10000.0 MW"
    words = ["--transfers", "refused-15.csv", "month.sheet"]
    done = report("--form", "table", *words, folder=EXAMPLES)
    check(done.stdout.decode() == f"month.sheet: refused by 15: {rule}\n{field}\n", "--table: refused", words_of(done))
    month, = json.loads(report("--form", "json", *words, folder=EXAMPLES).stdout)
    wanted = {"number": 15, "list": "refused-15.csv", "words": rule, "byte": 8, "field": field}
    check(month["refusal"] == {**wanted, "complex": None}, "--json: refused", str(month))
    row, = csv.DictReader(io.StringIO(report("--form", "csv", *words, folder=EXAMPLES).stdout.decode()))
    found = [row[key] for key in ("record", "refusal", "list", "words", "byte", "field")]
    check(found == ["refusal", *map(str, wanted.values())], "--csv: refused", str(row))
    done = report("--explain", "--strict", *words, folder=EXAMPLES)
    check((done.returncode, done.stdout) == (1, b"N15\n") and done.stderr.decode() ==
          f"month.sheet: refusal 15: {rule}\nmonth.sheet: {field}\n", "--explain, --strict: refused", words_of(done))
    done = report("--explain", "--transfers", "refused-15.list", "month.sheet", folder=EXAMPLES)
    check(b"month.sheet: refused-15.list, byte 8: entry 0, amount, " in done.stderr, "--explain: a list's bytes",
          words_of(done))
    done = report("--explain", "--transfers", "refused-15.list", "refused-10.sheet", folder=EXAMPLES)
    check(done.stdout == b"N10\n" and b"refused-10.sheet: byte 8707: row 1, consumer, 2 (" in done.stderr,
          "--explain: a refused sheet with a list", words_of(done))


def test_named_lists():
    """JSON and CSV name the lists that were given, in their order, and the one that is refused, if one is."""
    for lists, month, refused in (
        ([], "month.sheet", ""), ([], "refused-9.sheet", ""),
        (["transfers.csv", "transfers.list"], "month.sheet", ""),
        (["transfers.list", "refused-14.csv", "refused-13.list"], "month.toml", "refused-14.csv"),
        (["refused-15.list", "transfers.csv"], "month.sheet", "refused-15.list"),
        (["refused-13.list", "transfers.csv"], "refused-9.sheet", ""),
    ):
        words = [*LISTS.words(*lists), month]
        found, = json.loads(report("--form", "json", *words, folder=EXAMPLES).stdout)
        by_json = found["transfers"], found["refusal"] and found["refusal"]["list"] or ""
        check(by_json == (lists, refused), f"--json: {words}", str(found))
        rows = csv.DictReader(io.StringIO(report("--form", "csv", *words, folder=EXAMPLES).stdout.decode()))
        by_csv = {(row["transfers"], row["list"]) for row in rows}
        check(by_csv == {(" ".join(lists), refused)}, f"--csv: {words}", str(by_csv))


def test_odd_names(folder):
    """A list's name that is no text: as it is for people, in UTF-8 for programs."""
    name = "\udcff,\n.list"
    (folder / name).write_bytes((EXAMPLES / "refused-14.list").read_bytes())
    words = ["--transfers", name, EXAMPLES / "month.sheet"]
    month, = json.loads(report("--form", "json", *words, folder=folder).stdout)
    row, = csv.DictReader(io.StringIO(report("--form", "csv", *words, folder=folder).stdout.decode()))
    field = "\\udcff,\n.list, byte 19: entry 2, day filed, 21 (at most 20)"
    check(month["refusal"]["field"] == row["field"] == field, "--csv, --json: a list's name", str(month))
    named = [*month["transfers"], month["refusal"]["list"], row["transfers"], row["list"]]
    check(named == ["\\udcff,\n.list"] * 4, "--csv, --json: a list's name alone", str(named))
    done = report("--form", "table", *words, folder=folder)
    check(done.stdout.endswith(b"\n\xff,\n.list, byte 19: entry 2, day filed, 21 (at most 20)\n"),
          "--table: a list's name", words_of(done))


def test_changed_sheet(folder):
    """--sheet writes the sheet afterwards, whole or not at all, and nothing on a refusal."""
    (folder / "old").write_bytes(b"old")
    (folder / "a.list").write_bytes((EXAMPLES / "transfers.list").read_bytes())
    (folder / "month.sheet").write_bytes(MONTHS[1].read_bytes())
    (folder / "link").symlink_to("a.list")
    for words in (["new.sheet"], ["old", "--force"], ["-x"]):
        done = report(f"--sheet={words[0]}", *words[1:], "--transfers", "a.list", "month.sheet", folder=folder)
        check(done.stdout.decode() == LISTING and (folder / words[0]).read_bytes() == CHANGED, f"--sheet {words}",
              words_of(done))
    done = report("--sheet", "new.2", "--result", "new.bin", "--transfers", "a.list", "month.sheet", folder=folder)
    result = run(programs.RIVAL, "settle", EXAMPLES / "month-transferred.sheet").stdout.decode().split()[2]
    check((folder / "new.2").read_bytes() == CHANGED and (folder / "new.bin").read_bytes().hex() == result,
          "--sheet and --result", words_of(done))
    for words, message in (
        (["new.sheet"], "settle: new.sheet: exists; --force writes over it"),
        (["month.sheet", "--force"], "settle: month.sheet: is read here"),
        (["link", "--force"], "settle: link: is read here"),
        (["no/new.sheet"], "settle: no/new.sheet: cannot be written: No such file"),
        (["."], "settle: .: is a folder"),
        (["one", "--result", "./one"], "settle: one: is to be the result and the sheet; give two names"),
        (["one", "month.sheet"], "settle: --transfers goes with one month"),
    ):
        turned_down("--sheet", folder, ["--sheet", *words, "--transfers", "a.list", "month.sheet"], message, status=2,
                    command=report)
    turned_down("--sheet", folder, ["--sheet", "one", "month.sheet"], "settle: --sheet goes with --transfers or "
                "--complex", status=2, command=report)
    before = files_in(folder)
    refused = EXAMPLES / "refused-14.list"
    words = ["--sheet", "old", "--force", *LISTS.words("a.list", refused), "month.sheet"]
    done = report(*words, folder=folder)
    check((done.returncode, done.stdout) == (1, b"N14\n") and files_in(folder) == before, "--sheet: refused",
          words_of(done))
    said = f"settle: old: is not written, since {refused} is refused by 14\n"
    check(done.stderr.decode() == said, "--sheet: refused, the message", words_of(done))
    done = report(*words, "--result", "none.bin", folder=folder)
    check(done.returncode == 1 and done.stderr.decode() == said.replace("old", "none.bin") + said
          and files_in(folder) == before, "--sheet and --result: refused", words_of(done))
    refused = EXAMPLES / "refused-9.sheet"
    done = report(*words[:-1], refused, folder=folder)
    check(done.stderr.decode() == f"settle: old: is not written, since {refused} is refused by 9\n",
          "--sheet: a refused sheet with a list", words_of(done))


def test_several(folder):
    """Lists are applied in the order given, each as a whole; a refused one takes the others back."""
    (folder / "month.sheet").write_bytes(records.Sheet(records.Month(28, 1, 0), [], [], [
        records.Consumer(volume, 0, 0, 0, 10, 1000) for volume in (100, 0, 0)]).to_bytes())
    list_file(folder, "a.list", (1, 0, 1, 60))
    list_file(folder, "b.list", (1, 1, 2, 60))
    list_file(folder, "none.list")
    for names, volumes in ((["a.list", "b.list"], [40, 0, 60]), (["none.list"], [100, 0, 0]), (["b.list"], None),
                           (["a.list", "none.list"], [40, 60, 0]), (["b.list", "a.list"], None),
                           (["a.list", "a.list"], None), (["a.list", "b.list", "b.list"], None)):
        done = report("--sheet", "new", "--force", *LISTS.words(*names), "month.sheet", folder=folder)
        if volumes is None:
            check((done.returncode, done.stdout) == (1, b"N15\n") and not (folder / "new").exists(),
                  f"--transfers {names}: refused", words_of(done))
            continue
        check(done.returncode == 0 and contracts((folder / "new").read_bytes()) == volumes, f"--transfers {names}",
              words_of(done))
        (folder / "new").unlink()
    done = report("--explain", *LISTS.words("a.list", "a.list"), "month.sheet", folder=folder)
    check(b"a.list, byte 8: entry 0, amount, 6.0 MW (at its turn the giver, consumer 0, has 4.0)" in done.stderr,
          "--transfers: the volumes of the second list's turn", words_of(done))


# The second and third line of a text that are wrong, and what is said of it.
BAD_TEXTS = {
    "--transfers": ("day,giver,taker,amount\n1,0,1,1.05\n1,0,1\n", 'line 2: amount: "1.05" has more than one decimal '
                    "(and 1 more; tools/sheet check --transfers LIST MONTH lists them all)"),
    "--complex": ("consumer,1\nimported,1.05\ndrawn\n", 'line 2: imported: "1.05" has more than one decimal '
                  "(and 1 more; tools/sheet check --complex RECORD MONTH lists them all)"),
}


def test_statuses(folder):
    """Lists and records that cannot be read, and statuses."""
    for kind in CHANGES:
        bad, long, none = f"bad{kind.text}", f"long{kind.packed}", f"none{kind.packed}"
        content, said = BAD_TEXTS[kind.option]
        (folder / bad).write_text(content)
        (folder / long).write_bytes(bytes(65_537))
        for words, message in (
            ([none], f"settle: {none}: cannot be read: No such file"),
            ([f"none{kind.text}"], f"settle: none{kind.text}: cannot be read: No such file"),
            (["."], "settle: .: cannot be read: Is a directory"), ([bad], f"settle: {bad}, {said}"),
            ([long], f"settle: {long}: has 65537 bytes, and the program takes at most 65536"),
            ([none, MONTHS[1]], f"settle: {kind.option} goes with one month"),
        ):
            turned_down(kind.option, folder, [kind.option, *words, MONTHS[1]], message, status=2, command=report)
        refused = kind.files(f"refused-{kind.refused[0]}")[0]
        for words, status in (([], 0), (["--strict"], 1), (["--form", "json"], 0), (["--strict", "--form", "csv"], 1)):
            done = report(*words, kind.option, refused, "month.toml", folder=EXAMPLES)
            check(done.returncode == status and not done.stderr, f"report {kind.option}: status of {words}",
                  words_of(done))
        done = report("--strict", kind.option, kind.files()[0], "month.toml", folder=EXAMPLES)
        check(done.returncode == 0, f"report {kind.option}: status of what is applied", words_of(done))


def test_other_programs(folder):
    """What is neither a sheet as long as before nor a refusal is not passed on; the program's number holds."""
    program = folder / "program"
    for kind in CHANGES:
        program.write_text(STAND_IN)
        program.chmod(0o755)
        check_program(kind, folder, {kind.keyword: program})
    words = ["--transfers", EXAMPLES / "transfers.list", MONTHS[1]]
    kept, tempfile.tempdir = tempfile.tempdir, str(folder / "none")
    try:
        turned_down("no room", folder, words, "settle: a temporary file cannot be written: No such file", status=2,
                    command=report)
    finally:
        tempfile.tempdir = kept


def check_program(kind, folder, program):
    """The same of one kind, with a stand-in as its program."""
    packed, after = kind.files()[1], (EXAMPLES / f"{kind.after}.sheet").read_bytes()
    words = [kind.option, packed, MONTHS[1]]
    for said in (b"", b"N", b"N13", b"N13\nN13\n", after[:-1], after + b"\0", b"\1" + after[1:], b"\0", b"\xff\n"):
        (folder / "program.writes").write_bytes(said)
        turned_down("a bad program", folder, words, f"settle: what the program wrote for {packed} is neither a sheet "
                    "nor a refusal", status=2, command=report, **program)
    number = b"N%d\n" % kind.refused[-1]
    (folder / "program.writes").write_bytes(number)
    done = report("--explain", *words, **program)
    check(done.stdout == number and b"has another answer; the program's holds" in done.stderr,
          f"--explain {kind.option}: another answer", words_of(done))
    (folder / "program").write_text("#!/bin/sh\nexit 1\n")
    turned_down("a program that fails", folder, words, f"the program failed on {packed}", status=2, command=report,
                **program)
    needed = f"{kind.option} needs --{kind.keyword.replace('_', '-')}"
    for other, message in ((folder / "none", "none cannot be started"), ("", needed)):
        turned_down("no program", folder, words, message, status=2, command=report, **{kind.keyword: other})
