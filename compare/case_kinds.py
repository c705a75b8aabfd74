"""Kinds of cases that an entry is tried with, and the drawing of cases from a seed.

A kind is "group/corner", as "refusal_4/days_27". The corners of a group come in turn, so each is reached however the
seed falls; all else in a case is drawn, the version of its sheet too. A case depends only on the seed and its index.
"""
from versions import Draws


def in_bytes(drawn):
    return drawn if isinstance(drawn, bytes) else drawn.to_bytes()


def make_schedule(shares):
    """The group of each case of a hundred, with its number in the group: first one of each group, then a second."""
    schedule = []
    for number in range(max(shares.values())):
        schedule.extend((group, number) for group in shares if number < shares[group])
    return schedule


class Kinds:
    """A class of these has draw_case(rng, group, corner)."""

    def __init__(self, drawn_for, groups, shares):
        """drawn_for: stands behind the seed, so that each entry has cases of its own; groups: for each the corners;
        shares: cases of each group in a hundred."""
        self.drawn_for, self.groups, self.shares = drawn_for, groups, shares
        self.schedule = make_schedule({group: shares[group] for group in groups})

    def group_and_corner(self, index):
        group, number = self.schedule[index % len(self.schedule)]
        corners = list(self.groups[group])
        turn = index // len(self.schedule) * self.shares[group] + number
        return group, corners[turn % len(corners)]

    def case(self, seed, index):
        return self.draw_case(Draws(f"{seed}/{self.drawn_for}{index}"), *self.group_and_corner(index))

    def cases(self, seed, count, start=0):
        return (self.case(seed, index) for index in range(start, start + count))
