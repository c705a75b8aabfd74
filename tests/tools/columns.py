"""Hours as columns, in sheets of version 3: where each power stands, texts, rearrange, show, explain and check;
settled, and changed by lists and records. The answers are the rival's."""
import json
import random
from array import array

import monthtext
import programs
import records
import refusals
import text_2015
from checks import CHANGES, EXAMPLES, check, report, report_2015, run, sheet, turned_down, words_of
from days import CONTENTS, INSIDE, SECOND_ROW, with_days
from texts import CONSTANT, GOOD, ROW, changed

COLUMNS = EXAMPLES / "columns.sheet"
LISTING = COLUMNS.with_suffix(".listing").read_bytes()
POWERS = ("working power", "possible power", "outside-use power")
RULE_9 = "a capacity, power, volume or peak is above 10000.0 MW"
WORDS = {1: "rows cover the month, hours as triples", 2: "rows state their days, hours as triples",
         3: "rows state their days, hours as columns"}


def place_of(version, days, producer, kind, hour):
    """Where a power stands: header 14 bytes, a producer's stated figures 42, an hour's powers 12."""
    start = 14 + producer * (42 + 288 * days) + 42
    return start + 4 * (kind * 24 * days + hour) if version == 3 else start + 12 * hour + 4 * kind


def numbered_sheet(version, days=28, producers=2):
    """A sheet whose powers are all unlike: what stands at each place is known."""
    made, number = [], 0
    for _ in range(producers):
        powers = [array("I", range(number + kind, number + 3 * 24 * days, 3)) for kind in range(3)]
        number += 3 * 24 * days
        made.append(records.Producer(1, 2, 3, [4, 5, 6], list(range(7, 13)), *powers))
    rows = [records.Row(0, records.SINGLE_BUYER, 10, 20, 2, 3), records.Row(1, 0, 30, 40, 1, days)]
    return records.Sheet(records.Month(days, 1, 0), made, rows, [records.Consumer(1, 2, 0, 0, 10, 3)], version)


def rearranged_by_hand(content):
    """A sheet of version 2 in version 3, power by power."""
    days, after = content[5], bytearray(content)
    after[4] = 3
    for producer in range(content[11]):
        for kind in range(3):
            for hour in range(24 * days):
                old, new = (place_of(version, days, producer, kind, hour) for version in (2, 3))
                after[new:new + 4] = content[old:old + 4]
    return bytes(after)


# ------------------------------------------------------------------ layout


def test_layout():
    """Every power stands where it is said to; in all else the layouts are alike."""
    for days in (28, 29, 30, 31):
        contents = {version: numbered_sheet(version, days).to_bytes() for version in records.VERSIONS}
        check(contents[3] == rearranged_by_hand(contents[2]), f"version 3: {days} days, by hand")
        check(len(contents[2]) == len(contents[3]), f"version 3: {days} days, the length")
        for version, content in contents.items():
            number, right = 0, True
            for producer in range(2):
                for hour in range(24 * days):
                    for kind in range(3):
                        place = place_of(version, days, producer, kind, hour)
                        right &= int.from_bytes(content[place:place + 4], "big") == number
                        number += 1
            check(right, f"version {version}: {days} days, the places of the powers")
            found = records.Sheet.from_bytes(content)
            check(found.to_bytes() == content and found.producers == numbered_sheet(version, days).producers,
                  f"version {version}: {days} days, read and written again")
            check_entries(version, days, content)
    without = records.Sheet(records.Month(28, 1, 0), [], [], [], 2).to_bytes()
    check(records.rearranged(without) == without[:4] + b"\3" + without[5:], "rearranged: no producer")


def check_entries(version, days, content):
    """The fields of a sheet have their places, and stand in the order of these."""
    found = list(records.entries(content))
    ends = [14, *(entry.place + entry.field.width for entry in found)]
    check([entry.place for entry in found] == ends[:-1] and ends[-1] == len(content),
          f"entries: version {version}: one behind the other, to the end")
    hours = [entry for entry in found if entry.hour is not None]
    check(len(hours) == 2 * 72 * days and all(
        entry.place == place_of(version, days, entry.number, POWERS.index(entry.field.words), entry.hour)
        for entry in hours), f"entries: version {version}: the places of the hours")


def test_drawn(cases, _answers):
    """Each drawn sheet of version 2 or 3 that gets past 6 comes back when it is rearranged twice."""
    found = {2: 0, 3: 0}
    for case in cases:
        if refusals.form_refusal(case.sheet) is None and case.sheet[4] in found:
            found[case.sheet[4]] += 1
            after = records.rearranged(case.sheet)
            check(records.rearranged(after) == case.sheet and after[4] == 5 - case.sheet[4]
                  and refusals.form_refusal(after) is None, f"rearranged: {case.kind}")
    check(min(found.values()) >= 50, f"rearranged: drawn sheets by version: {found}")


# ------------------------------------------------------------------ texts

STATED = ("holidays = []", "holidays = []\nversion = 3")
IN_FILE = (CONSTANT, 'hours = "hours.csv"')
# A text of version 3, and the days of its rows in the sheet.
TEXTS = {
    "no days": (changed(GOOD, [STATED]), [(1, 28)]),
    "days": (with_days(10, 28, STATED), [(10, 28)]),
    "one row of two": (with_days(5, 5, STATED, SECOND_ROW), [(5, 5), (1, 28)]),
    "no row": (changed(GOOD, [STATED, (ROW, "")]), []),
    "hours in a file": (with_days(5, 5, STATED, IN_FILE), [(5, 5)]),
    "days that are refused": (with_days(0, 255, STATED), [(0, 255)]),
}


def test_texts(folder):
    """version = 3 writes columns, and is all that a text differs in from one of version 2; unpack states it."""
    hours = [(990 + hour % 24, 1105, hour) for hour in range(24 * 28)]
    (folder / "hours.csv").write_text(monthtext.csv_text(hours))
    for name, (text, days) in TEXTS.items():
        contents = {}
        for version in (3, 2):
            (folder / "month.toml").write_text(text.replace("version = 3", f"version = {version}"))
            done = sheet("pack", "month.toml", "-", folder=folder)
            contents[version] = done.stdout
            check(done.returncode == 0 and done.stdout[4] == version, f"pack: version {version}: {name}",
                  words_of(done))
        check(contents[3] == rearranged_by_hand(contents[2]), f"pack: version 3: {name}: the columns")
        found = records.Sheet.from_bytes(contents[3])
        check([(row.first_day, row.last_day) for row in found.rows] == days, f"pack: version 3: {name}: the days")
        if name == "hours in a file":
            check(list(zip(*found.producers[0].powers())) == hours, "pack: version 3: the hours of a file")
        for version, content in contents.items():
            (folder / "in.sheet").write_bytes(content)
            sheet("unpack", "in.sheet", "out.toml", "--force", folder=folder)
            unpacked = (folder / "out.toml").read_text()
            check(f"\nversion = {version}  # {WORDS[version]}\n" in unpacked, f"unpack: {name}: the version", unpacked)
            done = sheet("pack", "out.toml", "-", folder=folder)
            check(done.stdout == content, f"pack after unpack: version {version}: {name}", words_of(done))


def test_from_version_1(folder):
    """What rearrange says of a sheet of version 1 leads to one of version 3 with rows that cover the month."""
    sheet("unpack", EXAMPLES / "month.sheet", "month.toml", folder=folder)
    text = (folder / "month.toml").read_text()
    (folder / "month.toml").write_text(text.replace("\nversion = 1 ", "\nversion = 3 "))
    done = sheet("pack", "month.toml", "-", folder=folder)
    found, before = (records.Sheet.from_bytes(content) for content in (
        done.stdout, (EXAMPLES / "month.sheet").read_bytes()))
    check(found.version == 3 and {row.days(found.month) for row in found.rows} == {(1, 31)} and found.producers ==
          before.producers, "pack: version 1 made version 3", words_of(done))


# ------------------------------------------------------------------ rearrange


def test_rearrange(folder):
    """Versions 2 and 3 become one another, whatever their figures; twice gives the first bytes."""
    for path in (INSIDE, EXAMPLES / "refused-18.sheet"):
        content = path.read_bytes()
        wanted = rearranged_by_hand(content)
        done = sheet("rearrange", path, "columns.sheet", "--force", folder=folder)
        check(done.returncode == 0 and not done.stdout + done.stderr and (folder / "columns.sheet").read_bytes()
              == wanted, f"rearrange: {path.name}", words_of(done))
        done = sheet("rearrange", "columns.sheet", "-", folder=folder)
        check(done.returncode == 0 and done.stdout == content and not done.stderr, f"rearrange: {path.name} twice",
              words_of(done))
        done = sheet("rearrange", "-", "-", stdin=content)
        check(done.stdout == wanted, f"rearrange: {path.name}: standard input", words_of(done))
        done = sheet("rearrange", "-", folder / "any-name", "--force", stdin=wanted)
        check((folder / "any-name").read_bytes() == content, f"rearrange: {path.name}: another name", words_of(done))
    done = sheet("rearrange", COLUMNS, "-")
    check(rearranged_by_hand(done.stdout) == COLUMNS.read_bytes(), "rearrange: columns.sheet", words_of(done))
    check(run(programs.RIVAL, "list", written(folder, done.stdout)).stdout == LISTING, "rearrange: its listing")
    check_refused(folder)


def written(folder, content):
    (folder / "twin.sheet").write_bytes(content)
    return folder / "twin.sheet"


# Changes of the numbered sheet, by the number that then refuses it.
REFUSED = {
    8: lambda made: setattr(made.producers[0], "missing", [0, 673, 0]),
    9: lambda made: setattr(made.producers[1], "outside", array("I", [100_001] * 672)),
    10: lambda made: setattr(made.rows[1], "consumer", 1),
    11: lambda made: setattr(made.rows[0], "price", 200_000_001),
    12: lambda made: setattr(made.consumers[0], "z", 9),
    18: lambda made: setattr(made.rows[0], "first_day", 0),
}


def check_refused(folder):
    """A sheet that a later number refuses is rearranged all the same, and refused by the same number."""
    for number, change in REFUSED.items():
        for version in (2, 3):
            made = numbered_sheet(version)
            change(made)
            done = sheet("rearrange", "-", "out.sheet", "--force", stdin=made.to_bytes(), folder=folder)
            made.version = 5 - version
            check((folder / "out.sheet").read_bytes() == made.to_bytes(), f"rearrange: {number}", words_of(done))
            done = sheet("explain", "out.sheet", folder=folder)
            check(done.stdout.decode().startswith(f"refusal {number}: "), f"rearrange: {number}: explain",
                  words_of(done))


def test_turned_down(folder):
    """What has no other order of hours, and files in the way."""
    good = INSIDE.read_bytes()
    (folder / "a.sheet").write_bytes(good)
    (folder / "old").write_text("kept")
    (folder / "folder").mkdir()
    (folder / "same.sheet").symlink_to("a.sheet")
    ending = "by its name, and rearrange wants a sheet"
    for words, message in (
        ([EXAMPLES / "small.sheet", "new"], f"tools/sheet: {EXAMPLES / 'small.sheet'}: version: is 1, whose rows state "
         "no days, and only versions 2 and 3 are rearranged; unpack it, set version = 3 in its text and pack that, "
         "which gives each row the days of the month"),
        ([EXAMPLES / "small.toml", "new"], f"small.toml: is a month's text {ending}; in a text the key version says "
         "how pack writes the hours: 2 as triples, 3 as columns"),
        (["a.list", "new"], f"a.list: is a packed list {ending}"),
        (["a.csv", "new"], f"a.csv: is a list's text {ending}"),
        (["a.complex", "new"], f"a.complex: is a packed record {ending}"),
        (["a.sheet", "new.toml"], "new.toml: is a month's text by its name, and a sheet is to be written"),
        (["a.sheet", "new.list"], "new.list: is a packed list by its name, and a sheet is to be written"),
        (["none.sheet", "new"], "none.sheet: cannot be read: No such file"),
        (["folder", "new"], "folder: cannot be read: Is a directory"),
        (["a.sheet", "old"], "old: exists; --force writes over it"), (["a.sheet", "folder"], "folder: is a folder"),
        (["a.sheet", "a.sheet", "--force"], "a.sheet: is read here, so it is not written over"),
        (["a.sheet", "same.sheet", "--force"], "same.sheet: is read here"),
        (["a.sheet", "none/new"], "none/new: cannot be written: No such file"),
    ):
        turned_down("rearrange", folder, ["rearrange", *words], message)
    turned_down("rearrange", folder, ["rearrange", "a.sheet"], "usage: tools/sheet rearrange", status=2)
    for number in (1, 2, 3, 4, 5, 6):
        path = EXAMPLES / f"refused-{number}.sheet"
        turned_down("rearrange", folder, ["rearrange", path, "new"], f"{path}: cannot be rearranged: it is refused by "
                    f"{number}: {refusals.RULES[number]}; byte ")
    for content, words in (
        (good[:4] + b"\4" + good[5:], "3: the version is not 1, 2 or 3; byte 4: version, 4"),
        (good + bytes(70_000), "2: the length field is not the number of bytes; byte 0: length, 8786, but there are "
         "65536 bytes; of this longer sheet, the program takes 65536 bytes"),
    ):
        turned_down("rearrange", folder, ["rearrange", "-", "new"],
                    f"tools/sheet: standard input: cannot be rearranged: it is refused by {words}", stdin=content)


# ------------------------------------------------------------------ show, explain, check


def test_shown():
    """show names the layout, and where each series of a producer stands."""
    for version, lines in {
        1: ["       0       56        60       64    12", "       1     8162      8166     8170    12"],
        2: ["       0       56        60       64    12", "       1     8162      8166     8170    12"],
        3: ["       0       56      2744     5432     4", "       1     8162     10850    13538     4"],
    }.items():
        made = numbered_sheet(version)
        done = sheet("show", "-", stdin=made.to_bytes())
        printed = done.stdout.decode()
        check(f"\nversion             {version} ({WORDS[version]})\n" in printed, f"show: version {version}",
              words_of(done))
        heads = "producer  working  possible  outside  step"
        title = "Series of hours, the byte where each begins, from 0; the step from one hour to the next, in bytes"
        check("\n".join(["", "", title, heads, *lines, "", ""]) in printed, f"show: version {version}: the series",
              words_of(done))
        check_first_bytes(made, lines)
    shown = [sheet("show", "-", stdin=numbered_sheet(version).to_bytes()).stdout.decode() for version in (2, 3)]
    check([part for part in shown[0].split("\n\n")[1:] if not part.startswith("Series")] ==
          [part for part in shown[1].split("\n\n")[1:] if not part.startswith("Series")], "show: the same figures")
    for version in (0, 4, 9, 255):
        content = bytearray(INSIDE.read_bytes())
        content[4] = version
        done = sheet("show", "-", stdin=bytes(content))
        check(f"\nversion             {version} (no such version)\n" in done.stdout.decode(),
              f"show: version {version}", words_of(done))
        series = next(part for part in done.stdout.decode().split("\n\n") if part.startswith("Series"))
        check(series.split()[-1] == ("4" if version > 3 else "12"), f"show: the series of version {version}", series)
    readme = (EXAMPLES / "README.md").read_text()
    for content in (COLUMNS.read_bytes(), records.rearranged(COLUMNS.read_bytes())):
        parts = sheet("show", "-", stdin=content).stdout.decode().split("\n\n")
        series = next(part for part in parts if part.startswith("Series"))
        check(f"```\n{series}\n```\n" in readme, "examples/README.md has the series of columns", series)
    for line in LISTING.decode().splitlines():
        check(f"`{line}`" in readme, f"examples/README.md has {line}")


def check_first_bytes(made, lines):
    """The places that show prints lead to the powers."""
    content = made.to_bytes()
    for producer, line in zip(made.producers, lines):
        *starts, step = map(int, line.split()[1:])
        for start, powers in zip(starts, producer.powers()):
            for hour in (0, 1, 671):
                place = start + step * hour
                check(int.from_bytes(content[place:place + 4], "big") == powers[hour], f"show: byte {place}")


def test_explained():
    """The byte of a power that is too high, in each version; what stands first in the bytes is told first."""
    rng = random.Random(20220207)
    for days in (28, 31):
        for producer, kind, hour in [(0, 0, 0), (1, 2, 24 * days - 1), *((rng.randrange(2), rng.randrange(3),
                                     rng.randrange(24 * days)) for _ in range(8))]:
            for version in records.VERSIONS:
                made = numbered_sheet(version, days)
                made.producers[producer].powers()[kind][hour] = 100_001
                place = place_of(version, days, producer, kind, hour)
                words = (f"byte {place}: producer {producer}, hour {hour} (day {hour // 24 + 1}, {hour % 24}:00), "
                         f"{POWERS[kind]}, 10000.1 MW (at most 10000.0)")
                done = sheet("explain", "-", stdin=made.to_bytes())
                check(done.stdout.decode() == f"refusal 9: {RULE_9}\n{words}\n", f"explain: version {version}: {words}",
                      words_of(done))
                done = sheet("check", "-", stdin=made.to_bytes())
                check(done.stdout.decode().startswith(f"refusal 9: {RULE_9}\n  {words}\n"),
                      f"check: version {version}: {words}", words_of(done))
    check_order()


def check_order():
    """A possible power of hour 0 and working powers of the last day: in columns the latter come first."""
    for version, first in (
        (2, f"byte {place_of(2, 28, 0, 1, 0)}: producer 0, hour 0 (day 1, 0:00), possible power"),
        (3, f"byte {place_of(3, 28, 0, 0, 648)}: producer 0, hour 648 (day 28, 0:00), working power"),
    ):
        made = numbered_sheet(version)
        made.producers[0].possible[0] = 100_001
        for hour in range(648, 672):
            made.producers[0].working[hour] = 100_001
        done = sheet("explain", "-", stdin=made.to_bytes())
        check(done.stdout.decode().splitlines()[1].startswith(first), f"explain: the first in version {version}",
              words_of(done))
        done = sheet("check", "-", stdin=made.to_bytes())
        lines = [f"  byte {place_of(version, 28, 0, 0, 648)}: producer 0, working power of 24 hours, "
                 "the first hour 648 (day 28, 0:00), 10000.1 MW (at most 10000.0)",
                 f"  byte {place_of(version, 28, 0, 1, 0)}: producer 0, hour 0 (day 1, 0:00), possible power, "
                 "10000.1 MW (at most 10000.0)"]
        check(done.stdout.decode().splitlines()[1:3] == (lines if version == 3 else lines[::-1]),
              f"check: the order in version {version}", words_of(done))


# ------------------------------------------------------------------ the proved programs


def test_settled():
    """Columns are settled as the same month in triples, under both texts."""
    wanted_2015 = text_2015.by_rival(COLUMNS)
    for month in (COLUMNS, COLUMNS.with_suffix(".toml")):
        done = report(month)
        check(done.stdout == LISTING and not done.stderr, f"settle: {month.name}", words_of(done))
        done = report_2015(month)
        check(done.stdout == wanted_2015, f"--text-2015: {month.name}", words_of(done))
    for content in (COLUMNS.read_bytes(), records.rearranged(COLUMNS.read_bytes())):
        done = report("-", stdin=content)
        check(done.stdout == LISTING, f"settle: version {content[4]}", words_of(done))
    month, = json.loads(report("--form", "json", COLUMNS).stdout)
    days = [(row["first_day"], row["last_day"]) for row in month["rows"]]
    check(days == [(1, 28), (15, 28)], "--json: the days of the rows in columns", str(days))


def test_refused():
    """The byte of the field in each form, in columns."""
    made = records.Sheet.from_bytes(COLUMNS.read_bytes())
    made.producers[1].possible[100] = 100_001
    place = place_of(3, 28, 1, 1, 100)
    field = "producer 1, hour 100 (day 5, 4:00), possible power, 10000.1 MW (at most 10000.0)"
    done = report("--form", "json", "-", stdin=made.to_bytes())
    check(json.loads(done.stdout)[0]["refusal"] == {"number": 9, "list": None, "complex": None, "words": RULE_9,
                                                    "byte": place, "field": field}, "--json: columns", words_of(done))
    for settle in (report, report_2015):
        done = settle("--explain", "-", stdin=made.to_bytes())
        check(done.stdout == b"N9\n" and done.stderr.decode().endswith(f": byte {place}: {field}\n"),
              "--explain: columns", words_of(done))


def test_changes(folder):
    """Lists and records change a sheet of columns as they change its rearrangement, and it is settled after them."""
    (folder / "columns.sheet").write_bytes(records.rearranged(INSIDE.read_bytes()))
    for kind in CHANGES:
        packed = folder / f"a{kind.packed}"
        packed.write_bytes(CONTENTS[kind])
        after = bytes.fromhex(run(programs.RIVAL, kind.command, INSIDE, packed).stdout.decode().split()[2])
        listing = run(programs.RIVAL, "list", written(folder, after)).stdout
        done = report(kind.option, packed, "--sheet", folder / "new.sheet", "--force", folder / "columns.sheet")
        check(done.stdout == listing and (folder / "new.sheet").read_bytes() == rearranged_by_hand(after),
              f"{kind.option}: columns", words_of(done))


def test_changes_read(folder):
    """show, check and explain of a list or record say the same of a month in columns and in triples."""
    contents = {2: INSIDE.read_bytes(), 3: records.rearranged(INSIDE.read_bytes())}
    for kind in CHANGES:
        packed = folder / f"a{kind.packed}"
        packed.write_bytes(CONTENTS[kind])
        for command in ("show", "check", "explain"):
            in_triples, in_columns = (sheet(command, kind.option, packed, "-", stdin=contents[version])
                                      for version in (2, 3))
            check(in_columns.stdout == in_triples.stdout and in_columns.returncode == 0,
                  f"{command} {kind.option}: columns", words_of(in_columns))
