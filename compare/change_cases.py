"""What list_cases.py and record_cases.py share: sheets that an entry changes by a second buffer, drawn from a seed.

A case is a kind, a sheet's bytes and the bytes of what it is changed by.
"""
from typing import NamedTuple

import programs
from case_kinds import Kinds, in_bytes


class ChangeCase(NamedTuple):
    kind: str
    sheet: bytes
    given: bytes    # a list of transfers, or a complex's record

    @property
    def length(self):
        return len(self.sheet) + len(self.given)

    def to_bytes(self):
        return programs.list_case_bytes(self.sheet, self.given)


class ChangeKinds(Kinds):
    """Every kind of case that an entry is tried with."""

    def __init__(self, given, own, refused_sheets, shares, done):
        """given: what the sheet is changed by, in a word; own: its groups; refused_sheets: the corners of each number
        of the sheet; shares: cases of each group in a hundred; done: the groups in which nothing is turned down."""
        of_sheet = {f"sheet_{number}": corners for number, corners in refused_sheets.items()}
        super().__init__(f"{given}/", {**own, **of_sheet}, {**shares, **dict.fromkeys(of_sheet, 1)})
        self.given, self.done = given, done

    def draw_case(self, rng, group, corner):
        return ChangeCase(f"{group}/{corner}", *map(in_bytes, self.groups[group][corner](rng)))

    def intended_refusal(self, kind):
        """The number for which a case was drawn, 0 if it is to be done, None if that is left open."""
        group, corner = kind.split("/")
        if group in self.done:
            return 0
        if group == "several_rules":
            return int(corner.split("_")[0])
        if group.startswith(("sheet_", f"{self.given}_")):
            return int(group.split("_")[1])
        return None
