"""The second part of a run: both programs apply lists of transfers to sheets, and the sheets that come out are settled.

Of every list that is applied, beside what ListRun checks: the sheet is accepted before and after, with the same room.
And of pairs of sheets as in demand 3: one list gets the same answer from both, and demand 3 holds of them afterwards.
"""
from collections import Counter

import list_cases
from change_cases import ChangeCase
from change_run import compare_cases, exact_case
from demand_3 import attested_in, check_pairs, moved_in
from refused_changes import OF_SHEET
from running import CHUNK, ListRun, SheetRun, answer_text
from transfer_lists import contract_volumes

MARKS = {
    "refusals of the sheet": [f"N{number}" for number in OF_SHEET],
    "13": ["N13"] + [f"13{cause}" for cause in (
        "short", "length", "multiple", "version", "day0", "dayabove", "giver", "taker", "same", "with14")],
    "14": ["N14", "day21", "day31"],
    "15": ["N15"] + [f"15{cause}" for cause in ("giver", "taker", "turn", "first", "oneabove")],
    "18": ["18with13"],
    "applied": ["done", "entries0", "entries1", "entriesmany", "day1", "day20", "amount0", "takerfull", "giverempty",
                "chain", "repeated", "version2", "version3"],
}

LEAST_ATTESTED = 20  # of so many pairs less is attested in one or more: half of all have no producers

# ------------------------------------------------------------------ demand 3


def sheet_after(case, answer):
    """What stands in the sheet's bytes afterwards: after a refusal the sheet."""
    return case.sheet if isinstance(answer, int) else answer


def check_same_answer(run, start, cases, answers):
    """One list, two sheets that differ only as demand 3 says: the same refusal, or the same contract volumes."""
    for place in range(0, len(cases), 2):
        first, second = answers[place:place + 2]
        if isinstance(first, bytes) and isinstance(second, bytes):
            first, second = contract_volumes(first), contract_volumes(second)
        if first != second:
            told = " and ".join(answer_text(answer) for answer in answers[place:place + 2])
            words = f"one list, two sheets as in demand 3, but answers or contract volumes differ: {told}"
            raise run.report_pair(start + place, *cases[place:place + 2], words)


def compare_pairs(run, settling, count):
    """Applies one list to two sheets and checks demand 3 afterwards.

    Counts as check_pairs does, and in how many pairs the list changed contract volumes.
    """
    found = Counter()
    for start in range(0, count, CHUNK):
        pairs = list_cases.pairs(run.seed, min(CHUNK, count - start), start)
        cases = [ChangeCase(pair.kind, sheet, pair.list)
                 for pair in pairs for sheet in (pair.first, pair.second)]
        answers = run.answers(2 * start, cases)
        check_same_answer(run, 2 * start, cases, answers)
        settled = [exact_case(case.kind, sheet_after(case, answer)) for case, answer in zip(cases, answers)]
        results = settling.answers(2 * start, settled)
        found += check_pairs(settling, 2 * start, settled, results)
        # Of a pair one sheet will do: both have the same contract volumes, before the list and after it.
        found["changed"] += sum(before.sheet != after.sheet for before, after in zip(cases[::2], settled[::2]))
    return found


def changed_in(found, count):
    """As moved_in, of the contract volumes."""
    print(f"in {found['changed']} of these pairs the list changed contract volumes")
    too_few = 2 * found["changed"] < count
    return "in less than half of the pairs with a list it changed contract volumes" if too_few else ""


# ------------------------------------------------------------------ both


def compare_transfers(options, folder):
    """Gives the words of what failed without being a difference, or none."""
    where = options.seed, folder, options.keep
    failed = compare_cases(ListRun, where, options.lists, MARKS, "applied; the sum of contract volumes kept")
    if failed:
        return failed
    count = options.list_pairs
    found = compare_pairs(ListRun("pair-list", *where), SheetRun("pair-list-sheet", *where), count)
    what = "pairs with a list"
    return moved_in(found, count, what) or attested_in(found, count, what, LEAST_ATTESTED) or changed_in(found, count)
