"""The third part of a run: both programs write complexes' peaks into sheets, and the sheets that come out are settled.

Of every record that is taken, beside what RecordRun checks: the sheet is accepted before and after, with the same room.
And of two records for one sheet, alike but for higher powers drawn in the second: it never gives the complex a lower
volume or charge, and every other line of the result is the same.
"""
import record_cases
from change_cases import ChangeCase
from change_run import compare_cases, exact_case
from records import result_figures
from refused_changes import OF_SHEET
from running import CHUNK, RecordRun, SheetRun, answer_text

MARKS = {
    "refusals of the sheet": [f"N{number}" for number in OF_SHEET],
    "16": ["N16", "16short", "16length", "16days", "16consumer", "16with17"],
    "17": ["N17"] + [f"17{place}" for place in (
        "imported", "drawn", "sent", "control", "outside", "first", "last", "oneabove")],
    "18": ["18with16"],
    "sent out and drawn": ["done", "nocontrol", "sentabove", "sentequal", "sentbelow", "clamped"],
    "rounding": ["half", "rounddown", "roundup", "exact"],
    "imported power": [f"imported{side}" for side in ("0", "below", "equal", "above")] + ["halfimported"],
    "peak": ["peak0", "peakone", "peaktop", "raised", "lowered", "kept"],
    "consumer": ["onlyconsumer", "firstconsumer", "lastconsumer"],
    "month": [f"days{days}" for days in range(28, 32)] + ["holiday"],
    "slips that would show": ["hour16", "hour23", "weekend", "swapped"],
    "version": ["version2", "version3"],
}

# ------------------------------------------------------------------ two records for one sheet


def against_pair(consumer, first, second):
    """What goes against the paper in two results, of which the second has the higher powers drawn, or nothing."""
    (rows, lines, (paid, _)), (other_rows, other_lines, (other_paid, _)) = first, second
    if rows != other_rows or paid != other_paid:
        return "the rows' lines or the total paid are not the same"
    for number, (line, other) in enumerate(zip(lines, other_lines)):
        if number != consumer and line != other:
            return f"consumer {number}, which is not the complex, has {line} and {other}"
    line, other = lines[consumer], other_lines[consumer]
    if other.actual < line.actual or other.charge < line.charge:
        return f"the complex, consumer {consumer}, has {line} and with higher powers drawn {other}"
    return ""


def check_taken(run, start, cases, answers):
    for index, (case, answer) in enumerate(zip(cases, answers), start):
        if isinstance(answer, int):
            raise run.report(index, case, f"drawn to be taken, but both programs answer {answer_text(answer)}")


def compare_pairs(run, settling, count):
    """Gives in how many pairs the complex's volume or charge moved."""
    moved = 0
    for start in range(0, count, CHUNK):
        pairs = list(record_cases.pairs(run.seed, min(CHUNK, count - start), start))
        cases = [ChangeCase(pair.kind, pair.sheet, record) for pair in pairs for record in (pair.first, pair.second)]
        answers = run.answers(2 * start, cases)
        check_taken(run, 2 * start, cases, answers)
        results = settling.answers(2 * start, [exact_case(case.kind, after) for case, after in zip(cases, answers)])
        figures = [result_figures(case.sheet, result) for case, result in zip(cases, results)]
        for place in range(0, len(cases), 2):
            consumer = cases[place].given[4]
            (_, lines, _), (_, other, _) = figures[place:place + 2]
            moved += lines[consumer][-2:] != other[consumer][-2:]
            wrong = against_pair(consumer, *figures[place:place + 2])
            if wrong:
                raise run.report_pair(2 * start + place, *cases[place:place + 2], wrong)
    return moved


def moved_in(moved, count):
    """Says in how many pairs a figure moved; gives the words of a failure if they are too few, or none."""
    print(f"higher powers drawn: {count} pairs of records, in {moved} the complex's volume or charge is higher, "
          "in none lower")
    return "in less than half of the pairs of records a volume or charge moved" if 2 * moved < count else ""


def compare_averages(options, folder):
    """Gives the words of what failed without being a difference, or none."""
    where = options.seed, folder, options.keep
    failed = compare_cases(RecordRun, where, options.records, MARKS, "taken; no byte but the peak's changed")
    return failed or moved_in(
        compare_pairs(RecordRun("pair-record", *where), SheetRun("pair-record-sheet", *where), options.record_pairs),
        options.record_pairs)
