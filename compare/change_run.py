"""What the parts of a run that change sheets share: both programs change the same sheets, also rearranged, and settle
what comes out."""
import sheets
from coverage import Coverage
from records import result_length
from running import CHUNK, SheetRun
from version_run import RearrangedChanges


def exact_case(kind, sheet):
    """A sheet to be settled into just as much room as its result needs."""
    return sheets.Case(kind, sheet, result_length(sheet[12], sheet[13]))


def settle_done(run, start, given, cases, answers):
    """Each sheet that was changed, before and after it: both are to be accepted with the same room."""
    settled = []
    for case, after in zip(cases, answers):
        if isinstance(after, bytes):
            settled += exact_case(f"{given}/before", case.sheet), exact_case(f"{given}/after", after)
    run.answers(start, settled)
    return len(settled) // 2


def compare_cases(run_class, where, count, marks, told):
    """Gives the words of what was never reached, or none. told: what is said of the sheets that were changed."""
    kinds = run_class.kinds
    run, settling = run_class(kinds.given, *where), SheetRun(f"{kinds.given}-sheet", *where)
    rearranged = RearrangedChanges(run_class, f"{kinds.given}-rearranged", where)
    coverage, done = Coverage(marks, kinds.groups), 0
    for start in range(0, count, CHUNK):
        cases = list(kinds.cases(run.seed, min(CHUNK, count - start), start))
        answers, marked = run.answers_and_marks(start, cases)
        coverage.add(cases, marked)
        done += settle_done(settling, 2 * done, kinds.given, cases, answers)
        rearranged.check(cases, answers)
    print(f"{kinds.given}s: {done} of {count} {told}, the sheet accepted in the same room")
    rearranged.print(f"sheets with {kinds.given}s")
    coverage.missed = rearranged.never_reached("sheets")
    coverage.print_all(f"{kinds.given}s", ("sheet_", f"{kinds.given}_"))
    return coverage.failure(count, f"{kinds.given}s")
