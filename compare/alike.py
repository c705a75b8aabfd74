"""Mutants that no figure can tell from the definitions, with the reason.

They give the same answer for every sheet, or for every sheet that no number turns down. A mutant is named as it
is printed, or by its definition and what was done there, or only by what was done.
"""

ALIKE = [
    ("one_of asks whether some test of a list holds: neither the order of the tests nor one asked twice changes that",
     ["doubled in one_of",
      "exchanged in one_of"]),
    ("the first test that applies is the same where one is asked twice",
     ["Refusals.front_tests, doubled",
      "Refusals.header_tests, doubled",
      "Refusals.room_tests, doubled",
      "Refusals.figure_tests, doubled",
      "Refusals.tests_for, doubled",
      "Transfers.list_tests, doubled",
      "Transfers.turn_tests, doubled",
      "Transfers.transfer_tests, doubled",
      "Averaging.record_tests, doubled",
      "Averaging.average_tests, doubled"]),
    ("a row of the table that stands twice gives what it gives once: the first whose edge p does not pass counts",
     ["Bands.bands, doubled",
      "Text2015.bands_2015, doubled"]),
    ("the table's last row is open above: its edge is never asked",
     ["Bands.bands: up_to 4294967295 20 → up_to 4294967296 20",
      "Bands.bands: up_to 4294967295 20 → up_to 4294967294 20",
      "Text2015.bands_2015: up_to 4294967295 15 → up_to 4294967296 15",
      "Text2015.bands_2015: up_to 4294967295 15 → up_to 4294967294 15"]),
    ("the table has rows: an empty one is never asked",
     ["Bands.factor_of: 0 → 1"]),
    ("a month's last hour is hour 23 of its day and the hour after it would be hour 0: neither is a control hour",
     ["ControlHours.control_sum: sum (counted h series) (hours h) → sum (counted h series) (hours h + 1)",
      "ControlHours.control_sum: sum (counted h series) (hours h) → sum (counted h series) (hours h - 1)"]),
    ("the first weekday and the day are added up, which is the same in either order",
     ["ControlHours.control_weekday: weekday_on first day → weekday_on day first",
      "ControlHours.control_day: control_weekday h.weekday day → control_weekday day h.weekday",
      "ControlTable.control_weekdays: control_weekday (suc i) day → control_weekday day (suc i)"]),
    ("what is read past a line's end says no where it is not the letter y, be it 0 or 1",
     ["ControlTable.says: get_or (line_of first) day 0 → get_or (line_of first) day 1"]),
    ("the row past the last is read from the first consumer's contract volume, whose second byte is at most 1 "
     "(number 9), or past the end as 0: it is never a support row",
     ["Cut.support_volume: sum (own_support m v p) m.header.rows → sum (own_support m v p) (m.header.rows + 1)"]),
    ("a producer without rows has none that would be worked as one fraction",
     ["Cut.single: eqb (row_count m p) 1 → leb (row_count m p) 1"]),
    ("a difference ends at 0, so v - min v left is v - left, and left - min v left is left - v",
     ["Cut.cut_in_order: min v left → left",
      "Cut.cut_in_order: min v left → min left left",
      "Cut.cut_in_order: min v left → v (2)",
      "Cut.cut_in_order: min v left → min v v (2)"]),
    ("a product is the same in either order",
     ["Rows.payment: money (actual m j) (m.row j).price → money (m.row j).price (actual m j)",
      "Consumers.charge: money (volume m c) (m.consumer c).price → money (m.consumer c).price (volume m c)",
      "Text2015.charge_2015: money (volume_2015 m c) (m.consumer c).price → "
      "money (m.consumer c).price (volume_2015 m c)",
      "Rows.begun: as_one_fraction volume (exact_k1 m.header (m.producer p) (support_after m p)) "
      "(exact_k4 m.header (m.producer p) (capacity_after m p)) → "
      "as_one_fraction volume (exact_k4 m.header (m.producer p) (capacity_after m p)) "
      "(exact_k1 m.header (m.producer p) (support_after m p))"]),
    ("a support row names consumer 255, and no sheet has so many consumers (number 5)",
     ["Consumers.credited: bilateral m j && eqb (m.row j).consumer c → eqb (m.row j).consumer c"]),
    ("a byte past the end is read only of a sheet that number 1 or 6 refuses, whatever that byte is",
     ["Fields.big_endian: get_or s (at + w) 0 → get_or s (at + w) 1"]),
    ("0 of 2 is 0, as 0 of 1 is, and so is all that is divided by 0",
     ["Coefficients.less_penalty: ratio 0 1 → ratio 0 2",
      "Coefficients.less_penalty: ratio 0 1 → ratio 1 0",
      "Coefficients.less_penalty: ratio 0 1 → ratio 0 0"]),
    ("a number that is at most 0 is 0",
     ["Outcome.answered: eqb number 0 → leb number 0",
      "Outcome.lent_after: eqb number 0 → leb number 0",
      "Outcome.hours_stretch: eqb (first_of (form_tests s)) 0 → leb (first_of (form_tests s)) 0",
      "Transfers.bad_front: eqb ((list_length l - list_front) % entry_width) 0 → "
      "leb ((list_length l - list_front) % entry_width) 0"]),
    ("a length of 5 plus a multiple of 7 holds as many sevens as without the 5; of another length 13 asks no entry",
     ["TransferList.entries: list_length l - list_front → list_length l"]),
    ("a list of fewer than 5 bytes has no version: it is read as 0, which is not 1",
     ["Transfers.bad_front: ltb (length l) list_front ∷ not (eqb (list_length l) (length l)) ∷ [] → "
      "not (eqb (list_length l) (length l)) ∷ []"]),
    ("the entry past the last is read as an amount of 0, from consumer 0 to itself: it can be met",
     ["Transfers.turn_tests: any (overdrawn_at v l) (entries l) → any (overdrawn_at v l) (entries l + 1)"]),
    ("no month asks for a record of fewer than 9 bytes: the length that such a record states is not its own, or not "
     "the month's",
     ["Averaging.bad_record: ltb (length r) record_front ∷ not (eqb (record_length r) (length r)) ∷ [] → "
      "not (eqb (record_length r) (length r)) ∷ []",
      "Averaging.bad_record: ltb (length r) record_front → ltb (length r) record_hour"]),
    ("17 is asked of a record that ends where the month's hours do: a power past its end is read as 0",
     ["Averaging.high_record: any (high_at r) (hours h) → any (high_at r) (hours h + 1)",
      "Averaging.high_record: hours h → hours_width h"]),
    ("where the two numbers are the same, both name one consumer",
     ["Averaging.with_peak_of: m.consumer k → m.consumer c"]),
]


def names(mutant):
    """All ways to name a mutant in the table."""
    return (mutant.step, f"{mutant.module}.{mutant.name}, {mutant.step}", mutant.label())


def reason(mutant):
    """Why no figure can tell a mutant from the definitions, or nothing."""
    for words, entries in ALIKE:
        if any(name in entries for name in names(mutant)):
            return words
    return ""


def stale(survivors):
    """Entries of the table that are no survivor's."""
    alive = {name for mutant in survivors for name in names(mutant)}
    return [entry for _, entries in ALIKE for entry in entries if entry not in alive]
