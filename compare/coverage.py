"""Which corners the cases of a run reached: the marks that the rival gives each case, and the kinds that were drawn."""
from collections import Counter

from bands import EDGES
from records import VERSIONS
from refusals import FIGURES

JUDGED_FROM = 2000  # fewer cases need not reach every corner

# The rival's marks of request 5, in lines with a title: of sheets that are settled, and of those that are refused.
MARKS_OF_DAYS = {
    "version": [f"version{version}" for version in VERSIONS],
    "days covered": ["coversall", "coverspart", "coversone", "beginsinside", "endsinside", "bothinside", "firstdayonly",
                     "lastdayonly"],
    "rounding for the days": ["tie_days", "daysdown", "daysup", "daysexact"],
    "share out of its turn": ["daysbefore", "daysbeforek10", "daysaftertenth", "daysunrounded", "daysonefewer"],
    "volumes of the days": ["cutofdays", "tofdays", "sofdays"],
}
MARKS_OF_DAYS_REFUSED = {
    "3 and 6 by version": ["3version0", "3version4", "3versionabove", "6rows10", "6rows12"],
    "18 beside another": [f"N{number}with18" for number in FIGURES if number != 18],
    "18": [f"18{cause}" for cause in ("first0", "lastbefore", "lastafter", "firstrow", "lastrow")],
}

# Those of request 6: of the control average, of p on each side of an edge where D is no whole tenths, of p on another
# side of it than by an average rounded to a tenth, and slips that would have shown.
MARKS_OF_HUNDREDTHS = {
    "average of outside use": ["hundredths", "wholetenths"],
    "edges in hundredths": [f"k1{side}{edge}" for edge in EDGES for side in ("last", "next")],
    "other band by the tenth": [f"k1{side}{edge}" for edge in EDGES for side in ("down", "up")],
    "least D and deductible": ["k1d1", "k1deductible1"],
    "slips of hundredths": ["k1tenth", "k1unscaled", "k1ptenths", "k1tenthpenalty"],
}

# Those of request 7: slips in the reading of hours that would have shown, and 9 by what stands in one column alone.
MARKS_OF_COLUMNS = {
    "columns in another order": ["hourbyhour", "possiblefirst", "outsidefirst", "workinglast"],
    "columns begun late": ["secondhour", "secondbyte", "thirdhour", "thirdbyte"],
    "columns in version 2": ["bycolumn"],
    "9 by column": ["9column1", "9column2", "9column3", "9lasthour3"],
}

# Those of request 8: of the rows of a producer, and what the cut takes of them; of the one fraction of a single row,
# and n × D there; slips that would have shown. k1first cannot occur: see rival/README.md.
MARKS_OF_AFTER_CUT = {
    "rows of a producer": ["onerow", "manyrows", "norow", "onesupport", "onebilateral", "zerorow", "zerorowsingle"],
    "cut of a single row": ["onecut0", "onecutpart", "onecutall"],
    "cut of more rows": ["manycut0", "manycutpart", "manycutall", "rowgone", "rowsupportgone"],
    "k4 of a sum cut to 0": ["k4zerobycut"],
    "the one fraction": ["tie_fraction", "fractiondown", "fractionup", "fractionexact"],
    "n x D in a single row": ["penaltypart", "penaltyall", "penaltybycut", "onebilateralpenalty", "onebilateralfree"],
    "T and S before the cut": ["tbefore", "sbefore", "tsbefore"],
    "slips of the fraction": ["roundedfirst", "k4last", "fractionformany", "zerorowuncounted", "gonerowuncounted"],
}


def marks_of(line):
    """The marks of a case in the rival's line of them. One that stands beside several numbers is told with its own."""
    marks = line.split()
    return [marks[0] + mark if mark == "with18" else mark for mark in marks]


class Coverage:
    def __init__(self, titles, groups):
        """The marks that are to be reached, in lines with a title, and the groups of which each corner is a kind."""
        self.titles = titles
        self.all_kinds = [f"{group}/{corner}" for group, corners in groups.items() for corner in corners]
        self.marks, self.kinds = Counter(), Counter()
        self.missed = []    # words of what else was never reached

    def add(self, cases, lines):
        """Counts cases with the line of marks of each."""
        for case, line in zip(cases, lines):
            self.marks.update(marks_of(line))
            self.kinds[case.kind] += 1

    def print_marks(self):
        for title, marks in self.titles.items():
            print(f"  {title:24}", "  ".join(f"{mark} {self.marks[mark]}" for mark in marks))
        known = {mark for marks in self.titles.values() for mark in marks}
        others = sorted(mark for mark in self.marks if mark not in known)
        if others:
            print(f"  {'other marks':24}", "  ".join(f"{mark} {self.marks[mark]}" for mark in others))

    def print_kinds(self, title, start=""):
        """Those whose group begins so."""
        drawn = [self.kinds[kind] for kind in self.all_kinds if kind.startswith(start)]
        print(f"  {title:24} {sum(1 for count in drawn if count)} of {len(drawn)}, the rarest {min(drawn)} times")

    def print_all(self, what, causes):
        """causes: how the groups begin of which each corner is the cause of a refusal."""
        print(f"coverage, in {what}:")
        self.print_marks()
        self.print_kinds("causes of refusals", causes)
        self.print_kinds("two numbers at once", "several_rules/")
        self.print_kinds("all kinds")

    def never_reached(self):
        missed = [mark for marks in self.titles.values() for mark in marks if self.marks[mark] == 0]
        return missed + [kind for kind in self.all_kinds if self.kinds[kind] == 0] + self.missed

    def failure(self, count, what):
        """The words of what so many cases never reached, or none."""
        if count < JUDGED_FROM:
            print(f"coverage is not judged below {JUDGED_FROM} {what}")
            return ""
        missed = self.never_reached()
        return f"never reached: {', '.join(missed)}" if missed else ""
