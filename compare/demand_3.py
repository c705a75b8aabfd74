"""Demand 3 of two results, the second of a sheet that is worse in some places, and rules of that form."""
from collections import Counter
from typing import NamedTuple

import sheets
from records import VERSIONS, Header, result_figures
from running import CHUNK

LATER_VERSIONS = VERSIONS[1:]


class Rule(NamedTuple):
    name: str
    figures: object    # of a sheet and its result: what is no larger in the second, what no smaller, each with a name


def figures_compared(sheet, result):
    """What demand 3 has no larger in the second sheet, and what it has no smaller, each with a name."""
    rows, consumers, (paid, charged) = result_figures(sheet, result)
    not_larger = {"total paid": paid}
    for number, row in enumerate(rows):
        not_larger[f"row {number}, actual volume"] = row.actual
        not_larger[f"row {number}, payment"] = row.payment
    not_smaller = {"total charged": charged}
    for number, consumer in enumerate(consumers):
        not_smaller[f"consumer {number}, actual volume"] = consumer.actual
        not_smaller[f"consumer {number}, charge"] = consumer.charge
    return not_larger, not_smaller


DEMAND_3 = Rule("demand 3", figures_compared)


def against_rule(first, second):
    """What of the compared figures goes against the rule, or nothing."""
    for name, figure in first[0].items():
        if second[0][name] > figure:
            return f"{name} is {figure} in the first result and {second[0][name]}, which is larger, in the second"
    for name, figure in first[1].items():
        if second[1][name] < figure:
            return f"{name} is {figure} in the first result and {second[1][name]}, which is smaller, in the second"
    return ""


def records_of(sheet, kind):
    """The places of a sheet's records of a kind."""
    return [place for of_kind, _, place, _ in Header.from_bytes(sheet).records() if of_kind == kind]


def attested_of(sheet):
    """Each producer's attested capacity, the first four bytes of its record."""
    return [sheet[place:place + 4] for place in records_of(sheet, "producer")]


def with_more_rows(sheet):
    """The numbers of the producers, the first byte of a row, that have more rows than one."""
    rows = Counter(sheet[place] for place in records_of(sheet, "row"))
    return [number for number, count in rows.items() if count > 1]


def against_drawing(first, second):
    """What goes against the rule for drawing a pair, or nothing: of a producer with more rows than one, the same is
    attested in both sheets."""
    attested, others = attested_of(first), attested_of(second)
    for number in with_more_rows(first):
        if others[number] != attested[number]:
            return f"producer {number} has more rows than one, and another capacity is attested in the second sheet"
    return ""


def some_row_cut_further(sheet, first, second):
    """In the second result of two sheets that have the same rows."""
    (rows, _, _), (others, _, _) = (result_figures(sheet, result) for result in (first, second))
    return any(other.after_cut < row.after_cut for row, other in zip(rows, others))


def kinds_of_pair(first, second, results):
    """What a pair is counted as, by what is attested in its sheets and by its rows."""
    if attested_of(first) != attested_of(second):
        yield "attested"
        if some_row_cut_further(first, *results):
            yield "cut further"
    if with_more_rows(first):
        yield "more rows"


def check_pairs(run, start, cases, answers, rule=DEMAND_3):
    """A rule of cases that follow each other by two, with results on which both programs agree.

    Counts the pairs that had a figure that moved, those of each version, and of demand 3 the kinds of pairs.
    """
    found = Counter()
    for place in range(0, len(cases), 2):
        first, second = (rule.figures(cases[number].sheet, answers[number]) for number in (place, place + 1))
        wrong = against_rule(first, second)
        found["moved"] += first != second
        found[Header.from_bytes(cases[place].sheet).version] += 1
        if rule is DEMAND_3:
            pair = [case.sheet for case in cases[place:place + 2]]
            wrong = against_drawing(*pair) or wrong
            found.update(kinds_of_pair(*pair, answers[place:place + 2]))
        if wrong:
            raise run.report_pair(start + place, *cases[place:place + 2], f"{rule.name}: {wrong}")
    return found


def compare_pairs(run, draw_pairs, count, rule=DEMAND_3):
    """Settles pairs of sheets by both programs and checks a rule; counts as check_pairs does."""
    found = Counter()
    for start in range(0, count, CHUNK):
        pairs = draw_pairs(run.seed, min(CHUNK, count - start), start)
        cases = [sheets.Case(pair.kind, sheet, sheets.LONGEST_BUFFER)
                 for pair in pairs for sheet in (pair.first, pair.second)]
        # Both programs gave these answers, byte by byte, so the rule is checked of each by one look.
        found += check_pairs(run, 2 * start, cases, run.answers(2 * start, cases), rule)
    return found


def moved_in(found, count, what, rule=DEMAND_3):
    """Says in how many pairs a figure moved, and how many are of each later version; gives the words of a failure if
    any of these are too few, or none."""
    of_versions = ", ".join(f"{found[version]} of version {version}" for version in LATER_VERSIONS)
    print(f"{rule.name}: {count} {what}, {of_versions}, {found['moved']} with a figure that moved, none against it")
    if 2 * found["moved"] < count:
        return f"in less than half of the {what} a figure moved"
    rare = [version for version in LATER_VERSIONS if 6 * found[version] < count]
    return f"less than a sixth of the {what} are of version {rare[0]}" if rare else ""


def attested_in(found, count, what, least):
    """Says in how many pairs of demand 3 less is attested, and in how many of these more is cut; gives the words of a
    failure if these are rare, less than one in so many pairs or half of the former, or none."""
    print(f"in {found['attested']} of these pairs less is attested, in {found['cut further']} of them a row is cut "
          f"further; in {found['more rows']} a producer has more rows than one, and the same is attested of it")
    if least * found["attested"] < count:
        return f"less is attested in less than one of {least} {what}"
    return f"in few of the {what} a row is cut further" if 2 * found["cut further"] < found["attested"] else ""
