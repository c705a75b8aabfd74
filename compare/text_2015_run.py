"""The fourth part of a run: both programs settle sheets' consumers under the text of 2015.

Every sheet that is accepted is settled again in the room that the settlement's own result needs, by both entries: the
settlement accepts it there, and so does this one, with the same result. Every sheet is settled again in another
version. And of two sheets alike but for higher peaks in the second: under neither text has a consumer a lower volume or
charge.
"""
import text_2015_cases
from change_run import exact_case
from coverage import MARKS_OF_DAYS_REFUSED, Coverage
from demand_3 import Rule, compare_pairs, moved_in
from records import result_2015_figures
from refusals import TRIED
from running import CHUNK, Run2015, SheetRun
from text_2015_sheets import EDGES
from version_run import OtherVersions

MARKS = {
    "refusals": [f"N{number}" for number in TRIED] + ["7oneless"],
    "factors": [f"factor{factor}" for factor in (10, 11, 12, 15)],
    **{f"edge {edge}": [f"{side}{edge}" for side in ("edge", "past", "down", "up", "halfexcess")] for edge in EDGES},
    "no excess": ["below", "equal"],
    "contract of 0": ["contract0peak0", "contract0peak", "contract0peakone"],
    "rounding": ["halfexcess"] + [way.format(figure) for figure in ("volume", "charge")
                                  for way in ("half{}", "{}rounddown", "{}roundup")],
    "not known to it": ["credited", "mined", "other", "same"],
    "ends": ["largest", "priciest", "zeroprice"],
    "consumers": [f"consumers{count}" for count in (0, 1, 32)],
    "room": ["roomexact", "roomless2021"],
    "version": ["version2", "version3"],
    **MARKS_OF_DAYS_REFUSED,
}

# ------------------------------------------------------------------ sheets


def settle_in_same_room(run, settling, start, cases, answers):
    """Gives how many sheets were accepted. All of them are, by both entries, in the room of the settlement's result."""
    accepted = [(case, answer) for case, answer in zip(cases, answers) if isinstance(answer, bytes)]
    exact = [exact_case("2015/in_the_room_of_the_settlement", case.sheet) for case, _ in accepted]
    settling.answers(start, exact)
    run.check_again(start, exact, [answer for _, answer in accepted], "which differ from the result in another room")
    return len(accepted)


def compare_sheets(run, again, other_versions, settling, count):
    coverage, accepted = Coverage(MARKS, run.kinds.groups), 0
    for start in range(0, count, CHUNK):
        cases = list(run.kinds.cases(run.seed, min(CHUNK, count - start), start))
        answers, marks = run.answers_and_marks(start, cases)
        coverage.add(cases, marks)
        accepted += settle_in_same_room(again, settling, accepted, cases, answers)
        other_versions.check(cases, answers)
    print(f"text of 2015: {accepted} of {count} sheets accepted, and each by both entries in the settlement's room")
    other_versions.print("sheets under the text of 2015")
    coverage.missed = other_versions.never_reached("sheets")
    return coverage


# ------------------------------------------------------------------ pairs


def figures_compared(sheet, result):
    """None that may not be larger in the second result; every figure of a consumer, which may not be smaller."""
    return {}, {f"consumer {number}, {name}": figure for number, line in enumerate(result_2015_figures(result))
                for name, figure in line._asdict().items()}


HIGHER_PEAKS = Rule("higher peaks under the text of 2015", figures_compared)

# ------------------------------------------------------------------ both


def compare_2015(options, folder):
    """Gives the words of what failed without being a difference, or none."""
    where, count = (options.seed, folder, options.keep), options.pairs_2015
    coverage = compare_sheets(Run2015("sheet-2015", *where), Run2015("sheet-2015-again", *where),
                              OtherVersions(Run2015, "sheet-2015", where), SheetRun("sheet-2015-settled", *where),
                              options.sheets_2015)
    coverage.print_all("sheets under the text of 2015", "refusal_")
    failed = coverage.failure(options.sheets_2015, "sheets")
    if failed:
        return failed
    pairs = text_2015_cases.pairs
    compare_pairs(SheetRun("pair-2015-settled", *where), pairs, count)
    found = compare_pairs(Run2015("pair-2015", *where), pairs, count, HIGHER_PEAKS)
    return moved_in(found, count, "pairs with higher peaks", HIGHER_PEAKS)
