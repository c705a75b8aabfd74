"""The sheets and complexes' records that the two programs are compared on, and pairs of records for one sheet.

Of a pair the second record is alike but for higher powers drawn.
"""
from copy import deepcopy
from typing import NamedTuple

from accepted import credit_sheet
from change_cases import ChangeKinds
from complex_records import peak_of
from drawing import capacity, spread
from refused_records import DAMAGED, RECORD_16, RECORD_17, REFUSED_SHEETS, SEVERAL_RULES
from sheets import higher_powers
from taken_records import LONG, MONTHS, TAKEN, behind_producers, plain_record, record_for, some_consumer, some_sheet
from versions import Draws, in_versions

# ------------------------------------------------------------------ cases

GROUPS = {"taken": TAKEN, "months": MONTHS, "long": LONG, "record_16": RECORD_16, "record_17": RECORD_17,
          "several_rules": SEVERAL_RULES, "damaged": DAMAGED}
SHARES = {"taken": 38, "months": 10, "long": 2, "record_16": 14, "record_17": 12, "several_rules": 8, "damaged": 5}
KINDS = ChangeKinds("record", GROUPS, REFUSED_SHEETS, SHARES, done=("taken", "months", "long"))

# ------------------------------------------------------------------ pairs


class RecordPair(NamedTuple):
    """A sheet that is accepted, and two records that are, of which the second has higher powers drawn."""
    kind: str
    sheet: bytes
    first: bytes
    second: bytes


PAIR_SHEETS = {
    "only_consumers": some_sheet,
    **in_versions({"credits": credit_sheet("drawn"), "with_producers": behind_producers}),
}


def more_drawn(rng, month, record):
    """Higher powers drawn: as a rule in control hours, now and then in any hours or in none."""
    second = deepcopy(record)
    for _ in range(rng.choice((0, 1, 1, 2, 3, 3, 4, 4, 5, 5, 5, 5))):
        hours = month.control_hours() if rng.random() < 0.9 else []
        higher_powers(rng, second.drawn, hours or range(month.hours))
    return second


def first_of_pair(rng, sheet):
    """As a rule something is left in every hour; otherwise powers at will."""
    if rng.random() < 0.3:
        return plain_record(rng, sheet.month, some_consumer(rng, sheet))
    high = rng.randrange(10, 90_000)
    net = spread(rng, sheet.month, rng.choice((0, high // 2, high)), high)
    return record_for(rng, sheet, net, rng.choice((0, 0, 0, high // 10, high // 3, high)))


def contract_below(rng, peak):
    """A contract volume that the peak is above, at the edge of a band or anywhere."""
    return capacity(peak / rng.choice((1.05, 1.1, 1.25, 1.45, 1.55, 2, 10)) + rng.randrange(-2, 3))


def pair(seed, index):
    """Every second pair has no producers."""
    rng = Draws(f"{seed}/record-pair/{index}")
    name = list(PAIR_SHEETS)[0 if index % 2 else 1 + index // 2 % 2]
    sheet = PAIR_SHEETS[name](rng)
    record = first_of_pair(rng, sheet)
    sheet.consumers[record.consumer].contract = contract_below(rng, peak_of(sheet.month, record))
    second = more_drawn(rng, sheet.month, record)
    return RecordPair(f"pair/{name}", sheet.to_bytes(), record.to_bytes(), second.to_bytes())


def pairs(seed, count, start=0):
    return (pair(seed, index) for index in range(start, start + count))
