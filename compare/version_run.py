"""The cases of a run again, in other versions of their sheets: both programs are to answer the same.

A sheet of version 1 is settled again in version 2, with rows that cover the month (request 5). One of version 2 or 3 is
rearranged into the other of the two, for every entry (request 7); the rival rearranges it too, into the same bytes.
"""
from collections import Counter

from records import COLUMN_HOURS, DAY_ROWS, FULL_ROWS, HEADER, REARRANGED, Header, rearranged
from refusals import FORM
from running import SheetRun
from sheets import Case
from versions import same_in_version_2


def version_of(case):
    return Header.from_bytes(case.sheet).version


class Again:
    """Cases of some versions whose sheets get past number 6, again in another version; counted by the first."""

    versions = ()     # of the cases that are taken
    words = ""        # what it means if the answer is another

    def __init__(self, run_class, name, where):
        self.run, self.found = run_class(name, *where), Counter()

    def other(self, sheet):
        """The sheet in the other version."""
        raise NotImplementedError

    def wanted(self, answer):
        """What is to be answered to the other sheet."""
        return answer

    def check(self, cases, answers):
        taken = [(case, answer) for case, answer in zip(cases, answers)
                 if answer not in FORM and version_of(case) in self.versions]
        start, before = sum(self.found.values()), [case for case, _ in taken]
        again = [case._replace(sheet=self.other(case.sheet)) for case in before]
        self.check_sheets(start, before, again)
        self.run.check_again(start, again, [self.wanted(answer) for _, answer in taken], self.words)
        self.found.update(map(version_of, before))

    def check_sheets(self, start, before, again):
        """Nothing more is to hold of the other sheets."""


class InVersion2(Again):
    versions = (FULL_ROWS,)
    words = "which is not the answer to the sheet in version 1"

    def other(self, sheet):
        return same_in_version_2(sheet)

    def print(self, what):
        print(f"{what} of version 1 again in version 2, with rows that cover the month: {self.found[FULL_ROWS]}, "
              "the same answer")

    def never_reached(self, what):
        return [] if self.found[FULL_ROWS] else [f"{what} of version 1 again in version 2"]


class Rearranging(SheetRun):
    answer_command = "rearranges"


class Rearranged(Again):
    versions = tuple(REARRANGED)
    words = "which is not the answer to the sheet before it was rearranged"

    def __init__(self, run_class, name, where):
        super().__init__(run_class, name, where)
        self.rearranging, self.moved = Rearranging(f"{name}-by-rival", *where), 0

    def other(self, sheet):
        return rearranged(sheet)

    def check_sheets(self, start, before, again):
        """The rival's rearrangements are the same, byte by byte. Counts those in which powers stand elsewhere."""
        cases = [Case(case.kind, case.sheet, 0) for case in before]
        by_rival = self.rearranging.by_rival(start, cases)
        for index, (case, here, there) in enumerate(zip(cases, again, by_rival), start):
            if here.sheet != there:
                raise self.rearranging.report(index, case, "the rival rearranges the sheet into other bytes")
            self.moved += here.sheet[HEADER:] != case.sheet[HEADER:]

    def print(self, what, told="the same answer"):
        print(f"{what} rearranged: {self.found[DAY_ROWS]} of version 2 by column, {self.found[COLUMN_HOURS]} of "
              f"version 3 hour by hour, as the rival does it; in {self.moved} powers stand elsewhere; {told}")

    def never_reached(self, what):
        counts = {f"{what} of version {version} rearranged": self.found[version] for version in REARRANGED}
        counts[f"{what} rearranged, with powers elsewhere"] = self.moved
        return [words for words, count in counts.items() if count == 0]


class RearrangedChanges(Rearranged):
    """Of sheets that are changed: the changed sheet is rearranged too."""

    def wanted(self, answer):
        return answer if isinstance(answer, int) else rearranged(answer)

    def print(self, what):
        super().print(what, "the same answer, the changed sheet rearranged")


class OtherVersions:
    """Both, of an entry that settles sheets."""

    def __init__(self, run_class, name, where):
        self.all = (InVersion2(run_class, f"{name}-in-version-2", where),
                    Rearranged(run_class, f"{name}-rearranged", where))

    def check(self, cases, answers):
        for each in self.all:
            each.check(cases, answers)

    def print(self, what):
        for each in self.all:
            each.print(what)

    def never_reached(self, what):
        return [words for each in self.all for words in each.never_reached(what)]
