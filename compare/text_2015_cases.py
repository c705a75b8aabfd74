"""The sheets that the two programs are compared on under the text of 2015, and pairs of sheets.

Of a pair the second sheet is alike but for higher peaks.
"""
from copy import deepcopy

import accepted
import powers
import refused
from drawing import capacity
from records import result_2015_length
from refusals import TRIED
from refused import Room
from sheets import BUFFERS, SheetKinds, draw_pair
from text_2015_sheets import CHARGES, COUNTS, NOT_KNOWN, PEAKS, ROOMS, VOLUMES, consumers_sheet
from versions import Draws, in_versions

ROOM = Room(lambda rows, consumers: result_2015_length(consumers),
            ("none", "one_byte", "shorter_by_one", "three", "shorter"))

# ------------------------------------------------------------------ cases

GROUPS = {
    "bands": in_versions({name: consumers_sheet(corner) for name, corner in PEAKS.items()}),
    "volumes": in_versions({name: consumers_sheet(corner) for name, corner in VOLUMES.items()}),
    "charges": in_versions(CHARGES),
    "not_known": in_versions(NOT_KNOWN),
    "counts": in_versions(COUNTS),
    **refused.refusal_groups(ROOM),
    "several_rules": refused.several_rules(ROOM),
    "powers": in_versions(powers.POWERS),
    "credits": in_versions(accepted.CREDITS),
    "largest": in_versions(accepted.LARGEST),
    "damaged": refused.DAMAGED,
    "buffers": {form: refused.accepted_sheet for form in BUFFERS},
    "rooms": ROOMS,
    "ordinary": in_versions(accepted.ORDINARY),
}

# Cases of each group in a hundred.
SHARES = {
    "bands": 28, "volumes": 9, "charges": 8, "not_known": 7, "counts": 3, "several_rules": 9, "powers": 2, "credits": 2,
    "largest": 1, "damaged": 5, "buffers": 6, "rooms": 3, "ordinary": 5, **{f"refusal_{number}": 1 for number in TRIED},
}
KINDS = SheetKinds("2015/", GROUPS, SHARES, ROOM)

# ------------------------------------------------------------------ pairs

PAIR_GROUPS = ("bands", "volumes", "not_known")


def with_higher_peaks(rng, sheet):
    """Some peaks are higher, or all, and now and then none: by the smallest step, or by as much as a band is wide."""
    second = deepcopy(sheet)
    share = rng.choice((0, 0.3, *[1] * 10))
    for consumer in second.consumers:
        if rng.random() < share:
            step = rng.choice((1, rng.randrange(1, 60), *(consumer.contract // part + 1 for part in (20, 10, 5, 5))))
            consumer.peak = capacity(consumer.peak + step)
    return second


def pair(seed, index):
    return draw_pair(Draws(f"{seed}/2015-pair/{index}"), index, GROUPS, PAIR_GROUPS, with_higher_peaks)


def pairs(seed, count, start=0):
    return (pair(seed, index) for index in range(start, start + count))
