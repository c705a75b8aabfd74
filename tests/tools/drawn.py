"""Sheets of the comparison's drawing, and the same with drawn days in versions 2 and 3: explain against the rival, and
the way to text and back."""
import os
import random
import tempfile
from array import array
from collections import Counter
from pathlib import Path

import monthtext
import programs
import records
import refusals
import sheets
from checks import SHEET, check, files_in, run, sheet, words_of

SEED = 20211022
DRAWN = 1000
WITH_DAYS = 200     # of the drawn sheets are taken with days too, half of them with hours as columns
ROUND_TRIPS = 400   # of the drawn sheets, beside those with days; most get past refusal 6
BY_COMMAND = 6      # of these, of each version, go through the commands
BY_TRACE = 300      # of those that are accepted and have producers
MOST_REPAIRS = 12   # of one sheet


def draw():
    """The sheets of a seed as the program is handed them, with the rival's answers in a buffer that is long enough."""
    drawn = [case._replace(sheet=case.sheet[:refusals.HANDED_OVER], buffer=sheets.LONGEST_BUFFER)
             for case in sheets.KINDS.cases(SEED, DRAWN)]
    full, rng = [case for case in drawn if covers_month(case.sheet)], random.Random(SEED)
    cases = [with_days(case, rng, (records.DAY_ROWS, records.COLUMN_HOURS)[number % 2])
             for number, case in enumerate(full[:WITH_DAYS])] + drawn
    return cases, by_rival(cases)


def by_rival(cases):
    """The rival's answers."""
    with tempfile.TemporaryDirectory() as folder:
        return programs.rival_answers(cases, folder)


def traces(cases, answers):
    """Drawn sheets that are accepted and have producers, each with what the rival's trace prints."""
    accepted = [case.sheet for case, answer in zip(cases, answers) if isinstance(answer, bytes) and case.sheet[11]]
    with tempfile.TemporaryDirectory() as folder:
        path = Path(folder) / "month.sheet"
        for content in accepted[:BY_TRACE]:
            path.write_bytes(content)
            yield records.Sheet.from_bytes(content), run(programs.RIVAL, "trace", path).stdout.decode()


def covers_month(content):
    """Whether a sheet's rows can be told apart and are of version 1."""
    return refusals.not_as_text(content) is None and not records.states_days(content[4])


def with_days(case, rng, version):
    """A sheet of version 1 in another."""
    drawn = records.Sheet.from_bytes(case.sheet)
    drawn.version = version
    for row in drawn.rows:
        row.first_day, row.last_day = draw_days(rng, drawn.month.days)
    return case._replace(kind=f"{case.kind}, with days", sheet=drawn.to_bytes())


def draw_days(rng, days):
    """As a rule days of the month, now and then any that fit the fields."""
    if days and rng.random() < 0.95:
        return sorted(rng.choices(range(1, days + 1), k=2))
    return rng.randrange(256), rng.randrange(256)


def test_explained(cases, answers):
    """explain has the rival's number, on every sheet."""
    found = {}
    for case, answer in zip(cases, answers):
        refusal = refusals.first_refusal(case.sheet)
        number, rival = refusal.number if refusal else 0, answer if isinstance(answer, int) else 0
        found[rival] = found.get(rival, 0) + 1
        check(number == rival, f"explain: {case.kind}: {number}, the rival has {rival} (0: accepted)")
    wanted = {0, *refusals.TRIED} - {refusals.BUFFER_NUMBER}
    check(set(found) == wanted, f"explain: the drawn sheets reach the numbers {sorted(found)}")


def test_places(cases, answers):
    """The field that explain names is the one: when it is repaired, what is named next stands behind it."""
    repaired = []
    for case, answer in zip(cases, answers):
        if answer not in refusals.FIGURES:
            continue
        content, last = bytearray(case.sheet), (0, 0)
        for _ in range(MOST_REPAIRS):
            refusal = refusals.first_refusal(content)
            if refusal is None:
                repaired.append(sheets.Case(case.kind, bytes(content), sheets.LONGEST_BUFFER))
                break
            # A row of a sheet without producers cannot be repaired.
            if content[11] == 0 and refusal.number == 10:
                break
            found = refusals.turn(refusal.number), refusal.place
            check(found > last, f"explain: {case.kind}: byte {refusal.place} after {last}")
            last = found
            entry = next(entry for entry in records.entries(content) if entry.place == refusal.place)
            allowed = {records.BUYER: records.SINGLE_BUYER, records.Z: records.LOWEST_Z,
                       records.ROW_DAY: content[5]}.get(entry.field.unit, 0)
            content[entry.place:entry.place + entry.field.width] = allowed.to_bytes(entry.field.width, "big")
    check(len(repaired) >= 50, f"explain: only {len(repaired)} sheets were repaired")
    for case, answer in zip(repaired, by_rival(repaired)):
        check(isinstance(answer, bytes), f"explain: {case.kind}: repaired, but the rival refuses it by {answer}")


def test_round_trips(cases, answers):
    """Every sheet that gets past refusal 6 comes back from its text byte for byte; others do, or are turned down."""
    by_command = Counter()
    for case, answer in zip(cases[:WITH_DAYS + ROUND_TRIPS], answers):
        number = answer if isinstance(answer, int) else 0
        with tempfile.TemporaryDirectory() as folder:
            text = os.path.join(folder, "month.toml")
            if refusals.not_as_text(case.sheet):
                check(number in refusals.FORM, f"unpack: {case.kind}: turned down, though it gets past refusal 6")
                continue
            check(number not in (1, 2, 3, 6), f"unpack: {case.kind}: taken, though it is refused by {number}")
            for path, content in monthtext.text_files(records.Sheet.from_bytes(case.sheet), text).items():
                Path(path).write_bytes(content)
            packed, _ = monthtext.read_sheet(text)
            check(packed.to_bytes() == case.sheet, f"pack after unpack: {case.kind}")
            if number in refusals.FORM or by_command[case.sheet[4]] == BY_COMMAND:
                continue
            by_command[case.sheet[4]] += 1
            test_commands(case.kind, case.sheet, Path(folder), files_in(folder))
    check(by_command == dict.fromkeys(records.VERSIONS, BY_COMMAND), f"round trips by command: {by_command}")


def test_commands(name, content, folder, texts):
    """unpack, started as a user starts it, writes the same texts and nothing else, pack the same bytes."""
    (folder / "in.sheet").write_bytes(content)
    for path in texts:
        path.unlink()
    done = run(SHEET, "unpack", "in.sheet", "month.toml", folder=folder)
    check(done.returncode == 0 and not done.stdout + done.stderr, f"unpack: {name}", words_of(done))
    check(files_in(folder) == {**texts, folder / "in.sheet": content}, f"unpack: {name}: the files")
    done = run(SHEET, "pack", "month.toml", "out.sheet", folder=folder)
    check(done.returncode == 0 and not done.stdout + done.stderr, f"pack: {name}", words_of(done))
    check((folder / "out.sheet").read_bytes() == content, f"pack: {name}: the sheet")


def largest_fields():
    """Every figure the largest that its field holds, in as many records as get past refusal 6; one hour is another."""
    for month, series, hour, version in ((records.Month(31, 7, 2 ** 31 - 1), 0, 743, records.FULL_ROWS),
                                         (records.Month(28, 1, 0), 2, 0, records.DAY_ROWS),
                                         (records.Month(31, 7, 2 ** 31 - 1), 1, 700, records.COLUMN_HOURS)):
        powers = [array("I", [2 ** 32 - 1]) * month.hours for _ in range(3)]
        powers[series][hour] = 0
        producer = records.Producer(*[2 ** 32 - 1] * 3, [65535] * 3, [2 ** 32 - 1] * 6, *powers)
        row = records.Row(255, 254, 2 ** 32 - 1, 2 ** 32 - 1, 255, 255)
        consumer = records.Consumer(2 ** 32 - 1, 2 ** 32 - 1, 255, 255, 255, 2 ** 32 - 1)
        yield records.Sheet(month, [producer] * 6, [row] * 32, [consumer] * 32, version).to_bytes()


def test_largest_fields():
    for content in largest_fields():
        with tempfile.TemporaryDirectory() as folder:
            (Path(folder) / "in.sheet").write_bytes(content)
            sheet("unpack", "in.sheet", "month.toml", folder=folder)
            done = sheet("pack", "month.toml", "-", folder=folder)
            check(done.stdout == content, "pack after unpack: the largest figures of all fields", words_of(done))
