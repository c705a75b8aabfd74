"""The sheets and lists of transfers that the two programs are compared on, and the pairs of demand 3 with a list."""
from typing import NamedTuple

import sheets
from accepted import credit_sheet
from applied_lists import APPLIED, LONG, sheet_of, some_entries, some_sheet, volumes_of
from case_kinds import in_bytes
from change_cases import ChangeKinds
from drawing import capacity
from refusals import TRIED_IN_LIST
from refused_lists import DAMAGED, FAULTS, LIST_13, LIST_14, LIST_15, REFUSED_SHEETS, SEVERAL_RULES
from versions import Draws, in_versions


class ListPair(NamedTuple):
    """Two accepted sheets in the relation of demand 3, and one list for both."""
    kind: str
    first: bytes
    second: bytes
    list: bytes


# ------------------------------------------------------------------ cases

GROUPS = {"applied": APPLIED, "long": LONG, "list_13": LIST_13, "list_14": LIST_14, "list_15": LIST_15,
          "several_rules": SEVERAL_RULES, "damaged": DAMAGED}
SHARES = {"applied": 47, "long": 3, "list_13": 14, "list_14": 5, "list_15": 11, "several_rules": 7, "damaged": 4}
KINDS = ChangeKinds("list", GROUPS, REFUSED_SHEETS, SHARES, done=("applied", "long"))

# ------------------------------------------------------------------ pairs of demand 3 with a list


def single_rows(rng):
    """Each producer has one row."""
    count = rng.randrange(1, 4)
    sheet = sheet_of(rng, rng.randrange(2, 7), producers=count, rows=count)
    for number, row in enumerate(sheet.rows):
        row.producer = number
    return sheet


PAIR_SHEETS = {
    "only_consumers": some_sheet,
    **in_versions({"credits": credit_sheet("drawn")}),
    "with_producers": lambda rng: sheet_of(rng, rng.randrange(2, 7), producers=rng.randrange(1, 3),
                                           rows=rng.randrange(1, 9)),
    "single_rows": single_rows,
}
BAND_STARTS = (1.0, 1.05, 1.1, 1.25, 1.45, 1.55)


def peaks_at_bands(rng, sheet, volumes):
    """Peaks near the edges of the bands over these contract volumes."""
    for consumer, volume in zip(sheet.consumers, volumes):
        if rng.random() < 0.8:
            consumer.peak = capacity(volume * rng.choice(BAND_STARTS) + rng.randrange(-3, 4))


def pair(seed, index):
    """Every second pair has no producers, and every fifth a list that is turned down."""
    rng = Draws(f"{seed}/list-pair/{index}")
    name = list(PAIR_SHEETS)[0 if index % 2 else 1 + index // 2 % (len(PAIR_SHEETS) - 1)]
    sheet = PAIR_SHEETS[name](rng)
    turns = some_entries(rng, volumes_of(sheet))
    peaks_at_bands(rng, sheet, turns.volumes)
    drawn = turns.list()
    if index % 5 == 4:
        drawn = rng.choice(list(FAULTS[rng.choice(TRIED_IN_LIST)].values()))(rng, volumes_of(sheet))
    second = sheets.worsened(rng, sheet)
    return ListPair(f"pair/{name}", sheet.to_bytes(), second.to_bytes(), in_bytes(drawn))


def pairs(seed, count, start=0):
    return (pair(seed, index) for index in range(start, start + count))
