"""Files that are missing or exist already, bad results, wrong use, an old Python, and standard input and output in
trouble."""
import ast
import shutil
import struct
import subprocess
import sys

import records
import refusals
import results
from checks import CHANGES, EXAMPLES, LISTS, RECORDS, REPORT, SHEET, check, report, run, sheet, turned_down, words_of
from texts import BACK, CONSTANT, CSV, GOOD, changed


def test_files(folder):
    """Files that are missing, exist already, or are read by the same command."""
    (folder / "month.toml").write_text(changed(GOOD, [(CONSTANT, 'hours = "hours.csv"')]))
    (folder / "hours.csv").write_text(CSV.replace("99.0", "98.0", 1))
    (folder / "old").write_text("kept")
    (folder / "folder").mkdir()
    for link, file in (("text", "month.toml"), ("hours", "hours.csv"), ("sheet", "out.sheet")):
        (folder / link).symlink_to(file)
    for name, words, message in (
        ("pack", ["pack", "none.toml", "out.sheet"], "none.toml: cannot be read: No such file"),
        ("pack", ["pack", "folder", "out.sheet"], "folder: cannot be read: Is a directory"),
        ("pack", ["pack", "month.toml", "old"], "old: exists; --force writes over it"),
        ("pack", ["pack", "month.toml", "folder"], "folder: is a folder, and a file is to be written; give the name"),
        ("pack", ["pack", "month.toml", "folder", "--force"], "folder: is a folder"),
        ("pack", ["pack", "month.toml", "none/", "--force"], "none/: is a folder"),
        ("pack", ["pack", "month.toml", "", "--force"], ": cannot be written: No such file"),
        ("pack", ["pack", "month.toml", "none/out.sheet"], "none/out.sheet: cannot be written: No such file"),
        ("pack", ["pack", "month.toml", "text", "--force"], "text: is read here"),
        ("pack", ["pack", "month.toml", "hours", "--force"], "hours: is read here"),
    ):
        turned_down(name, folder, words, message)
    done = sheet("pack", "month.toml", "out.sheet", folder=folder)
    check(done.returncode == 0 and (folder / "out.sheet").is_file(), "pack: a text with a CSV file", words_of(done))
    (folder / "new-producer-0.csv").write_text("kept")
    for name, words, message in (
        ("unpack", ["unpack", "none.sheet", "new.toml"], "none.sheet: cannot be read: No such file"),
        ("unpack", ["unpack", "out.sheet", "old"], "old: exists; --force writes over it"),
        ("unpack", ["unpack", "out.sheet", "new.toml"], "new-producer-0.csv: exists; --force writes over it"),
        ("unpack", ["unpack", "out.sheet", "sheet", "--force"], "sheet: is read here"),
        ("unpack", ["unpack", "out.sheet", "none/new.toml"], "cannot be written: No such file"),
        ("unpack", ["unpack", "out.sheet", "folder", "--force"], "folder: is a folder"),
        ("show", ["show", "none.sheet"], "none.sheet: cannot be read: No such file"),
        ("show", ["show", "folder"], "folder: cannot be read: Is a directory"),
        ("explain", ["explain", "none.sheet"], "none.sheet: cannot be read: No such file"),
        ("calendar", ["calendar", "none.sheet"], "none.sheet: cannot be read: No such file"),
        ("calendar", ["calendar", ""], ": cannot be read: No such file"),
        ("check", ["check", "none.toml"], "none.toml: cannot be read: No such file"),
        ("check", ["check", "folder"], "folder: cannot be read: Is a directory"),
        ("result", ["result", "none.bin"], "none.bin: cannot be read: No such file"),
    ):
        turned_down(name, folder, words, message)
    for number in (1, 2, 3, 6):
        turned_down("unpack", folder, ["unpack", EXAMPLES / f"refused-{number}.sheet", "new.toml"],
                    f"refused-{number}.sheet: cannot be written as text: {refusals.RULES[number]}; byte ")
    sheet("unpack", "out.sheet", "new.toml", "--force", folder=folder)
    done = sheet("pack", "new.toml", "old", "--force", folder=folder)
    check((folder / "old").read_bytes() == (folder / "out.sheet").read_bytes(), "--force", words_of(done))


# Names that say something else than what is read or written under them, and what is said.
NOT_A_MONTH = "is a list by its name; give it with its month, as --transfers LIST MONTH"
NOT_A_LIST = "is a month by its name, and --transfers wants a list"
RECORD_NO_MONTH = "is a record by its name; give it with its month, as --complex RECORD MONTH"
RECORD_NO_LIST = "is a record by its name, and --transfers wants a list"
NOT_A_RECORD = "by its name, and --complex wants a record; the name of its text ends in .complex.csv"
KINDS = [
    *((f"{command} {name}", f"{name}: {NOT_A_MONTH}") for command in ("check", "explain")
      for name in ("a.list", "a.csv", "A.CSV", ".list")),
    *((f"{command} {name}", f"{name}: {RECORD_NO_MONTH}") for command in ("check", "explain")
      for name in ("a.complex", "a.complex.csv", "A.Complex.CSV", ".complex")),
    ("calendar a.complex", "a.complex: is a packed record by its name, and calendar wants a month"),
    *((f"{command} --transfers {name} a.sheet", f"{name}: {RECORD_NO_LIST}") for command in ("check", "explain", "show")
      for name in ("a.complex", "a.complex.csv", "A.COMPLEX.csv")),
    *((f"{command} --complex {name} a.sheet", f"{name}: is {what} {NOT_A_RECORD}") for command in ("check", "show")
      for name, what in (("a.sheet", "a month"), ("a.toml", "a month"), ("a.list", "a list"), ("a.csv", "a list"))),
    ("show --complex a.complex a.complex.csv", f"a.complex.csv: {RECORD_NO_MONTH}"),
    ("result a.bin --sheet a.complex", f"a.complex: {RECORD_NO_MONTH}"),
    ("result a.bin --sheet a.sheet --complex a.list", f"a.list: is a list {NOT_A_RECORD}"),
    ("pack a.complex new", "a.complex: is a packed record by its name, and pack wants a text"),
    ("pack a.toml new.complex", "new.complex: is a packed record by its name, and a sheet is to be written"),
    ("pack a.csv new.complex", "new.complex: is a packed record by its name, and a packed list is to be written"),
    ("pack a.complex.csv new.list", "new.list: is a packed list by its name, and a packed record is to be written"),
    ("pack a.complex.csv a.complex.csv --force",
     "a.complex.csv: is a record's text by its name, and a packed record is to be written"),
    ("unpack a.complex.csv new", "a.complex.csv: is a record's text by its name, and unpack wants bytes"),
    ("unpack a.sheet new.complex.csv",
     "new.complex.csv: is a record's text by its name, and a month's text is to be written"),
    *((f"unpack a.complex {name}", f"{name}: is to be the text of a record, whose name ends in .complex.csv")
      for name in ("new.csv", "new.toml", "new")),
    ("unpack a.list new.complex.csv", "new.complex.csv: is to be the text of a list, whose name ends in .csv"),
    ("calendar a.list", "a.list: is a packed list by its name, and calendar wants a month"),
    ("calendar A.CSV", "A.CSV: is a list's text by its name, and calendar wants a month"),
    *((f"{command} --transfers {name} a.sheet", f"{name}: {NOT_A_LIST}") for command in ("check", "explain", "show")
      for name in ("a.sheet", "a.toml", "A.Sheet")),
    ("show --transfers a.list a.list", f"a.list: {NOT_A_MONTH}"),
    ("result a.bin --sheet a.list", f"a.list: {NOT_A_MONTH}"),
    ("result a.bin --sheet a.sheet --transfers a.sheet", f"a.sheet: {NOT_A_LIST}"),
    ("pack a.sheet new", "a.sheet: is a sheet by its name, and pack wants a text"),
    ("pack a.list new", "a.list: is a packed list by its name, and pack wants a text"),
    ("pack a.toml new.TOML", "new.TOML: is a month's text by its name, and a sheet is to be written"),
    ("pack a.toml new.csv", "new.csv: is a list's text by its name, and a sheet is to be written"),
    ("pack a.toml new.list", "new.list: is a packed list by its name, and a sheet is to be written"),
    ("pack a.csv new.csv", "new.csv: is a list's text by its name, and a packed list is to be written"),
    ("pack a.csv a.csv --force", "a.csv: is a list's text by its name, and a packed list is to be written"),
    ("pack a.csv new.sheet", "new.sheet: is a sheet by its name, and a packed list is to be written"),
    ("unpack a.toml new", "a.toml: is a month's text by its name, and unpack wants bytes"),
    ("unpack a.csv new.csv", "a.csv: is a list's text by its name, and unpack wants bytes"),
    ("unpack a.sheet new.list", "new.list: is a packed list by its name, and a month's text is to be written"),
    ("unpack a.sheet new.sheet", "new.sheet: is a sheet by its name, and a month's text is to be written"),
    ("unpack a.sheet new.csv", "new.csv: is a list's text by its name, and a month's text is to be written"),
    ("unpack a.list new.toml", "new.toml: is to be the text of a list, whose name ends in .csv"),
    ("unpack a.list new", "new: is to be the text of a list, whose name ends in .csv"),
    ("new 2021-12 new.csv", "new.csv: is a list's text by its name, and a month's text is to be written"),
    ("new 2021-12 new.sheet", "new.sheet: is a sheet by its name, and a month's text is to be written"),
]
# The same of ./settle.
SETTLE_KINDS = [
    ("a.list", f"a.list: {NOT_A_MONTH}"),
    ("--transfers A.toml a.sheet", f"A.toml: {NOT_A_LIST}"),
    ("--transfers a.list --transfers a.sheet a.sheet", f"a.sheet: {NOT_A_LIST}"),
    ("--transfers a.list --sheet new.toml a.sheet",
     "new.toml: is a month's text by its name, and a sheet is to be written"),
    ("--transfers a.list --sheet new.LIST a.sheet",
     "new.LIST: is a packed list by its name, and a sheet is to be written"),
    ("a.complex", f"a.complex: {RECORD_NO_MONTH}"),
    ("--complex a.csv a.sheet", f"a.csv: is a list {NOT_A_RECORD}"),
    ("--transfers a.complex.csv a.sheet", f"a.complex.csv: {RECORD_NO_LIST}"),
    ("--complex a.complex --sheet new.complex.csv a.sheet",
     "new.complex.csv: is a record's text by its name, and a sheet is to be written"),
    ("--result new.complex a.sheet", "new.complex: is a packed record by its name, and a result is to be written"),
    ("--result new.csv a.sheet", "new.csv: is a list's text by its name, and a result is to be written"),
    ("--result new.sheet a.sheet", "new.sheet: is a sheet by its name, and a result is to be written"),
]


def test_kinds(folder):
    """A name that says something else is turned down, whatever is in the file; one that says nothing is taken."""
    for name in ("transfers.csv", "transfers.list", "exam-126.sheet", "exam-126.toml", "plant.complex",
                 "plant.complex.csv"):
        shutil.copy(EXAMPLES / name, folder / f"a{name[name.index('.'):]}")
    (folder / "a.bin").write_bytes(result_bytes(0, 1))
    for line, message in KINDS:
        turned_down(line, folder, line.split(), f"tools/sheet: {message}")
    for line, message in SETTLE_KINDS:
        turned_down(line, folder, line.split(), f"settle: {message}", status=2, command=report)
    month = (EXAMPLES / "month.sheet").read_bytes()
    (folder / "month").write_bytes(month)
    for kind in CHANGES:
        packed = kind.files()[1].read_bytes()
        (folder / "packed").write_bytes(packed)
        for words, stdin in ((["packed", "-"], month), (["/dev/stdin", "month"], packed)):
            done = run(SHEET, "explain", kind.option, *words, folder=folder, stdin=stdin)
            check(done.stdout == b"accepted\n", f"names that say nothing: {kind.option} {words}", words_of(done))


def test_wrong_use(folder):
    for line in ("", "settle", "pack month.toml", "pack month.toml new more", "pack --forced month.toml new",
                 "pack - new", "unpack", "unpack in.sheet -", "unpack in.sheet --force", "show", "show a b",
                 "show --transfers - a", "show --complex - a", "explain --complex a", "check a --complex",
                 "result a.bin --complex a.complex", "calendar --complex a b", "calendar a b",
                 "calendar --transfers a b", "explain", "explain a b", "explain --transfers a", "explain --text-2015 a",
                 "check --text-2015 a", "result", "result a.bin --sheet", "result a.bin b.bin", "result --text-2015",
                 "result a.bin --transfers a.list", "check", "check a b", "check a --transfers", "new", "new 2021",
                 "new 2021-12 - x", "new 2021-12 --rows", "new 2021-12 --rows -1", "new 1-1 --rows 1.0"):
        turned_down(f"wrong use: {line}", folder, line.split(), "usage: tools/sheet", status=2)


def result_bytes(rows, consumers, version=1, length=None, paid=0):
    whole = records.result_length(rows, consumers)
    head = struct.pack(">IB", whole if length is None else length, version)
    return head + bytes(whole - 21) + struct.pack(">2Q", paid, 0)


def test_results(folder):
    (folder / "one.sheet").write_bytes((EXAMPLES / "exam-126.sheet").read_bytes())
    zeros = records.Sheet(records.Month(28, 1, 0), [], [], [records.Consumer(0, 0, 0, 0, 10, 0)])
    (folder / "zeros.sheet").write_bytes(zeros.to_bytes())
    for content, more, message in (
        (b"", [], "has 0 bytes; a result has at least 21"),
        (result_bytes(0, 1)[:40], [], "its length field says 46, but it has 40 bytes"),
        (result_bytes(0, 1, version=2), [], "its version is 2, not 1"),
        (result_bytes(0, 1, length=22), [], "its length field says 22, which no counts of rows and consumers give"),
        (result_bytes(0, 16), [], "of 421 bytes has 0 rows and 16 consumers or 25 rows and 0 consumers; --sheet SHEET"),
        (result_bytes(0, 1, paid=1), [], "totals: paid 0.01 is not the sum of the lines, 0.00, so this is no result"),
        (result_bytes(0, 1, paid=1), ["--sheet", "zeros.sheet"], "0.00, so this is no result of zeros.sheet"),
        (result_bytes(1, 1), ["--sheet", "one.sheet"], "its length field says 62; 0 rows and 1 consumers make 46"),
        (result_bytes(0, 1), ["--sheet", EXAMPLES / "refused-9.sheet"], "is refused by 9, so there is no result"),
        (result_bytes(0, 1), ["--sheet", "none.sheet"], "none.sheet: cannot be read"),
    ):
        turned_down("result", folder, ["result", "-", *more], message, stdin=content)
    done = sheet("result", "-", stdin=result_bytes(0, 1))
    check(done.stdout == b"C0 0.0 0.0 0.0 0.0 0.00\nT 0.00 0.00\n", "result: of zeros", words_of(done))


# A figure of the small month's result: where it stands, what is put there, and what is said of it.
IMPOSSIBLE = [
    (5, 4, 801, ["row 0: volume after the cut 80.1 is above the sheet's, 80.0"]),
    (9, 4, 801, ["row 0: actual volume 80.1 is above the volume after the cut, 80.0",
                 "row 0: payment 46599505.49 is not actual volume × price, 80.1 × 612345.67 = 49048888.17"]),
    (13, 8, 4659950550, ["row 0: payment 46599505.50 is not actual volume × price, 76.1 × 612345.67 = 46599505.49",
                         "totals: paid 57809505.49 is not the sum of the lines, 57809505.50"]),
    (37, 4, 1, ["consumer 0: credit 0.1 is not the sum of the actual volumes of its bilateral rows, 0.0",
                "consumer 0: percent 1.7 is not that of the counted peak 63.9 over contract volume 60.0, 1.5"]),
    (41, 4, 51, ["consumer 0: percent 5.1 is not that of the counted peak 64.0 over contract volume 60.0, 1.7",
                 "consumer 0: n 0.0 is not that of 5.1 percent, 1.3"]),
    (45, 1, 13, ["consumer 0: n 1.3 is not that of 1.7 percent, 0.0",
                 "consumer 0: actual volume 60.0 is not what contract volume, n, mining days and z give, 57.4"]),
    (46, 8, 601, ["consumer 0: actual volume 60.1 is not what contract volume, n, mining days and z give, 60.0",
                  "consumer 0: charge 36600000.00 is not actual volume × price, 60.1 × 610000.00 = 36661000.00"]),
    (54, 8, 0, ["consumer 0: charge 0.00 is not actual volume × price, 60.0 × 610000.00 = 36600000.00",
                "totals: charged 64599000.00 is not the sum of the lines, 27999000.00"]),
    (95, 8, 0, ["totals: charged 0.00 is not the sum of the lines, 64599000.00"]),
]


def test_impossible(folder):
    """With the sheet at hand, a figure that no settlement gives is named; nothing is printed as a listing."""
    source = EXAMPLES / "small.sheet"
    content = results.result_of_listing((EXAMPLES / "small.listing").read_text(), source.read_bytes())
    for place, width, figure, wanted in IMPOSSIBLE:
        changed_result = content[:place] + figure.to_bytes(width, "big") + content[place + width:]
        (folder / "small.bin").write_bytes(changed_result)
        done = sheet("result", "small.bin", "--sheet", source, folder=folder)
        lines = [f"tools/sheet: small.bin: {words}, so this is no result of {source}" for words in wanted]
        check(done.returncode == 1 and not done.stdout and done.stderr.decode().splitlines() == lines,
              f"result --sheet: byte {place}", words_of(done))
    (folder / "small.bin").write_bytes(content)
    for month in (source, EXAMPLES / "small.toml"):
        done = sheet("result", "small.bin", "--sheet", month, folder=folder)
        check(done.stdout == (EXAMPLES / "small.listing").read_bytes(), f"result --sheet {month.name}", words_of(done))
    done = sheet("result", "-", stdin=content[:45] + b"\x0e" + content[46:])
    check(done.returncode == 1 and b"consumer 0: n 1.4 is not that of 1.7 percent, 0.0" in done.stderr,
          "result without a sheet: n", words_of(done))


def test_changed_results(folder):
    """With lists and records, a result is held to the month after them, in the order given."""
    month = EXAMPLES / "month.sheet"
    for name in ("month", "month-transferred", "month-averaged"):
        listing, content = (EXAMPLES / f"{name}.listing").read_text(), (EXAMPLES / f"{name}.sheet").read_bytes()
        (folder / f"{name}.bin").write_bytes(results.result_of_listing(listing, content))
    (folder / "back.csv").write_text(BACK)

    def held(name, *words):
        return sheet("result", name, "--sheet", month, *words, folder=folder)
    (text, there), back, (plant_text, plant) = LISTS.files(), "back.csv", RECORDS.files()
    for name, words in (("month-transferred", LISTS.words(there)), ("month-transferred", LISTS.words(text)),
                        ("month", LISTS.words(there, back)), ("month-transferred", LISTS.words(there, back, there)),
                        ("month-averaged", RECORDS.words(plant)), ("month-averaged", RECORDS.words(plant_text, plant)),
                        ("month-averaged", [*LISTS.words(there), *RECORDS.words(plant), *LISTS.words(back)])):
        done = held(f"{name}.bin", *words)
        check(done.returncode == 0 and done.stdout == (EXAMPLES / f"{name}.listing").read_bytes(),
              f"result: {name}, after {words}", words_of(done))
    moved = {8, 10, 19, 29, 31}
    for name, words, consumers in (
        ("month-transferred.bin", [], moved), ("month.bin", LISTS.words(there), moved),
        ("month-averaged.bin", [], {9}), ("month.bin", RECORDS.words(plant), {9}),
        ("month.bin", [*RECORDS.words(plant), *LISTS.words(there)], {9, *moved}),
    ):
        done = held(name, *words)
        ends = "".join(f", after {each}" for each in words[1::2])
        said = done.stderr.decode().splitlines()
        check(done.returncode == 1 and {line.split(": ")[2] for line in said} == {
            f"consumer {number}" for number in consumers} and not done.stdout
            and all(line.endswith(f", so this is no result of {month}{ends}") for line in said),
            f"result: {name} is no result after {words}", words_of(done))
    words = ["result", "month.bin", "--sheet", month, *RECORDS.words(plant)]
    for more, message in (
        (LISTS.words(back, there), "back.csv: is refused by 15"),
        (RECORDS.words(EXAMPLES / "refused-17.complex"), f"{EXAMPLES / 'refused-17.complex'}: is refused by 17"),
    ):
        turned_down("result", folder, [*words, *more], f"tools/sheet: {message}, so there is no result")


OLD_PYTHON = """\
import runpy, sys
sys.version_info, sys.argv = (3, 8, 10, "final", 0), {}
runpy.run_path(sys.argv[0], run_name="__main__")
"""


def test_old_python():
    """An old Python can read the first lines of the commands, and gets one plain line from them."""
    for path, name, status in ((SHEET, "tools/sheet", 1), (REPORT, "settle", 2)):
        ast.parse(path.read_text(), feature_version=(3, 8))
        done = run(sys.executable, "-c", OLD_PYTHON.format([str(path), "show", "none"]))
        said = f"{name}: needs Python 3.11 or newer; {sys.executable} is 3.8\n"
        check(done.returncode == status and done.stderr.decode() == said, f"{name}: an old Python", words_of(done))


def test_started():
    """The commands as a user starts them: status, messages, and standard input and output in trouble."""
    done = run(SHEET, "explain", "none.sheet")
    said = b"tools/sheet: none.sheet: cannot be read: No such file or directory\n"
    check(done.returncode == 1 and done.stderr == said, "a file that is missing", words_of(done))
    done = run(SHEET, "packed")
    check(done.returncode == 2 and done.stderr.startswith(b"usage: tools/sheet"), "an unknown command", words_of(done))
    done = subprocess.run(f"'{SHEET}' show '{EXAMPLES}/month.sheet' >/dev/full", shell=True, capture_output=True)
    said = b"tools/sheet: standard output: No space left on device\n"
    check(done.returncode == 1 and done.stderr == said, "a full disk", words_of(done))
    done = subprocess.run(f"'{SHEET}' show '{EXAMPLES}/month.sheet' | head -n 1", shell=True, capture_output=True)
    check(done.stdout.startswith(b"length ") and not done.stderr, "a closed pipe", words_of(done))
    done = subprocess.run(f"'{SHEET}' explain - <&-", shell=True, capture_output=True)
    check(done.stdout.startswith(b"refusal 1:"), "no standard input", words_of(done))
