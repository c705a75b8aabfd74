"""The version in which a case is drawn, and the days of its rows from version 2 on.

A sheet is drawn in version 1; where its case is one of version 2 or 3, its rows are then given days, and in version 3
its hours are written by column. Version and days come from a source of their own, so that nothing else in a case is
drawn otherwise for them.
"""
import random
from dataclasses import replace

from records import COLUMN_HOURS, DAY_ROWS, FULL_ROWS, VERSIONS, Sheet


class Draws(random.Random):
    """What a case is drawn from, by a text; and the version of its sheet, which the text decides too if none is
    given."""

    def __init__(self, text, *, version=None):
        super().__init__(text)
        self.of_days = random.Random(f"{text}/days")
        self.version = version or self.of_days.choice(VERSIONS)


# ------------------------------------------------------------------ days of a row

# First and last day by form, from a random.Random and the days of the month.
DAY_FORMS = {
    "month": lambda rng, days: (1, days),
    "one_day": lambda rng, days: (rng.randrange(2, days),) * 2,
    "first_day_only": lambda rng, days: (1, 1),
    "last_day_only": lambda rng, days: (days, days),
    "begins_inside": lambda rng, days: (rng.randrange(2, days), days),
    "ends_inside": lambda rng, days: (1, rng.randrange(2, days)),
    "both_inside": lambda rng, days: tuple(sorted(rng.sample(range(2, days), 2))),
}
PARTS = tuple(form for form in DAY_FORMS if form != "month")


def with_days(sheet, days_of_row):
    """The sheet in version 2, with the days that a function gives a row."""
    rows = []
    for row in sheet.rows:
        first, last = days_of_row(row)
        rows.append(replace(row, first_day=first, last_day=last))
    return replace(sheet, version=DAY_ROWS, rows=rows)


def in_form(rng, sheet, forms):
    """The sheet in version 2, with days of one of these forms in each row."""
    return with_days(sheet, lambda row: DAY_FORMS[rng.choice(forms)](rng, sheet.month.days))


def for_month(sheet):
    """The sheet in version 2, with rows that cover the month."""
    return with_days(sheet, lambda row: (1, sheet.month.days))


# ------------------------------------------------------------------ the version of a case


def some_days(rng, sheet):
    """In two sheets of five all rows cover the month; in the others they have days of any form."""
    return for_month(sheet) if rng.random() < 0.4 else in_form(rng, sheet, tuple(DAY_FORMS))


def in_version(rng, sheet, give_days=some_days):
    """A sheet, drawn in version 1, in the version of its case."""
    return sheet if rng.version == FULL_ROWS else in_layout(rng, give_days(rng.of_days, sheet))


def in_layout(rng, sheet):
    """A sheet of version 2, by column if its case is one of version 3."""
    return by_column(sheet) if rng.version == COLUMN_HOURS else sheet


def by_column(sheet):
    """A sheet in version 3; rows that have no days cover the month."""
    return replace(sheet, version=COLUMN_HOURS)


def changed(corners, change):
    """Corners, with a change of what each draws: a function of the random.Random and the sheet."""
    def corner(draw):
        return lambda rng: change(rng, draw(rng))
    return {name: corner(draw) for name, draw in corners.items()}


def in_versions(corners, give_days=some_days):
    """Corners that draw accepted sheets, each in the version of its case."""
    return changed(corners, lambda rng, sheet: in_version(rng, sheet, give_days))


def in_layouts(corners):
    """Corners that draw sheets of version 2, each by column if its case is one of version 3."""
    return changed(corners, in_layout)


def by_columns(corners):
    """Corners, each in version 3."""
    return changed(corners, lambda rng, sheet: by_column(sheet))


def same_in_version_2(content):
    """The bytes of a sheet of version 1 that gets past number 6, in version 2 with rows that cover the month."""
    return for_month(Sheet.from_bytes(content)).to_bytes()
