#!/usr/bin/env python3
"""Writes stored cases with the rival's answers, one file for each group of sheets; each run writes the same bytes.

  compare/store.py OUTDIR [--expect FILE]

OUTDIR/GROUP holds cases one after another: sheet length (4 bytes, highest first), result buffer length (4),
kind of answer (1: 0 result, 1 refusal), byte count or refusal number (4), the sheet, for kind 0 the result.
OUTDIR/text_2015_NAME holds sheets under the text of 2015 in the same way.
OUTDIR/transfers holds sheets with lists of transfers: sheet length (4), list length (4), kind of answer (1: 0 done,
1 refusal), byte count 0 or refusal number (4), the sheet, the list, and the sheet afterwards, which after a refusal is
the sheet again. OUTDIR/averages holds sheets with a complex's record in the same way. In each file sheets of version 2
stand behind those of version 1, and those of version 3 last. FILE gets a line for each file of sheets to be settled,
its name and its count of cases, in a fixed order.
"""
import argparse
import struct
import sys
import tempfile
from itertools import islice
from pathlib import Path
from typing import NamedTuple

sys.dont_write_bytecode = True

import list_cases
import programs
import record_cases
import sheets
import text_2015_cases
from bands import EDGES
from coverage import (MARKS_OF_AFTER_CUT, MARKS_OF_COLUMNS, MARKS_OF_DAYS, MARKS_OF_DAYS_REFUSED, MARKS_OF_HUNDREDTHS,
                      marks_of)
from hour_columns import COLUMNS, HIGH_COLUMNS
from programs import Trouble
from records import COLUMN_HOURS, DAY_ROWS, FULL_ROWS
from refusals import FIGURES, tried_before
from sheets import SheetKinds
from text_2015_run import MARKS
from versions import Draws

SEED = 152
LONGEST_SHEET = 65_000
MOST_BYTES = 2_950_000
DRAWS = 40

# A sheet with one producer of 28 days, up to a few rows and consumers; a sheet without producers.
ONE_PRODUCER, NO_PRODUCER = 8_400, 600

# How often each corner of a group is stored, and the length that its sheets are to have if the corner allows it.
PLAN = {
    "checked_months": (1, LONGEST_SHEET),
    "slips": (1, ONE_PRODUCER),
    "refusal_1": (3, NO_PRODUCER),
    "refusal_2": (2, NO_PRODUCER),
    "refusal_3": (2, NO_PRODUCER),
    "refusal_4": (2, NO_PRODUCER),
    "refusal_5": (1, NO_PRODUCER),
    "refusal_6": (1, NO_PRODUCER),
    "refusal_7": (3, NO_PRODUCER),
    "refusal_8": (1, ONE_PRODUCER),
    "refusal_9": (1, ONE_PRODUCER),
    "refusal_10": (1, ONE_PRODUCER),
    "refusal_11": (2, ONE_PRODUCER),
    "refusal_12": (2, NO_PRODUCER),
    "several_rules": (1, NO_PRODUCER),
    "bands_of_k1": (1, ONE_PRODUCER),
    "bands_of_consumers": (2, NO_PRODUCER),
    "ties": (1, ONE_PRODUCER),
    "zero_counts": (1, ONE_PRODUCER),
    "months": (1, LONGEST_SHEET),
    "ceilings": (1, ONE_PRODUCER),
    "cut": (1, ONE_PRODUCER),
    "credits": (1, ONE_PRODUCER),
    "largest": (1, LONGEST_SHEET),
    "damaged": (4, NO_PRODUCER),
    "buffers": (3, NO_PRODUCER),
}


# What the files leave out, to stay small: other corners reach nearly the same.
LEFT_OUT = {f"bands_of_k1/{side}_{edge}" for side in ("exact", "exact_next") for edge in EDGES} | {
    f"bands_of_k1/penalty_{past}" for past in ("a_thousandth_more", "a_hundredth_more", "a_hundredth_less",
                                               "a_tenth_more", "a_tenth_less")} | {
    "bands_of_k1/no_deductible_least_use", "bands_of_k1/use_below_deductible", "bands_of_k1/no_support_least_penalty",
    "bands_of_k1/small_deductible", "columns/powers_differ_in_29", "columns/powers_differ_in_30", "largest/full_counts",
    "refusal_5/producers_7", "refusal_5/rows_33", "refusal_10/producer_other", "refusal_10/consumer_other",
    "zero_counts/rows_without_volume"}
MONTHS_STORED = 28  # all months once, each with the next form of holidays
# What no sheet of version 1 is stored for.
ONLY_LATER = {f"several_rules/{number}_and_18" for number in tried_before(18)} | {
    "refusal_6/rows_of_10_bytes_in_version_2", "refusal_6/rows_of_10_bytes_in_version_3",
    "refusal_6/rows_of_12_bytes_in_version_1"}

# Sheets with a list, each kind once: lists that are applied, every cause of 13 to 15, the order of the numbers.
SHORT_LIST = 130    # sheet and list in bytes, if the kind allows it
LISTS = (
    "applied/no_entries", "applied/all_given_and_taker_filled", "applied/given_on", "applied/repeated",
    "long/behind_producers",
    "list_13/four_bytes", "list_13/length_one_more", "list_13/6_bytes_of_an_entry", "list_13/version_2",
    "list_13/day_0", "list_13/day_32", "list_13/giver_next", "list_13/taker_next", "list_13/one_consumer_twice",
    "list_14/day_21", "list_15/one_more_than_the_giver_has", "list_15/taker_one_above", "list_15/emptied_before",
    "several_rules/12_and_13", "several_rules/13_version_and_14", "several_rules/14_and_15",
)

# The same of sheets with a complex's record, which is long where it is taken or 17 is tried.
SHORT_RECORD = 5_600
RECORDS = (
    "taken/rest_half", "taken/imported_one_below", "taken/imported_equal", "taken/imported_one_above",
    "taken/half_above_imported", "taken/one_more_sent_than_drawn", "taken/hour_16_singled_out",
    "taken/hour_23_singled_out", "taken/weekends_singled_out", "taken/all_holidays", "taken/highest_peak",
    "taken/last_of_32", "months/days_29_weekday_7_first_and_last_day", "months/days_30_weekday_6_some_holidays",
    "months/days_31_weekday_1_no_holiday", "long/behind_producers",
    "record_16/eight_bytes", "record_16/a_byte_lost", "record_16/another_month", "record_16/consumer_next",
    "record_17/imported_next", "record_17/drawn_first_hour", "record_17/sent_last_hour",
    "several_rules/12_and_16_eight_bytes", "several_rules/16_consumer_next_and_17",
)

# Sheets under the text of 2015, each kind once: whole groups and single kinds, few of them with producers. All marks
# must be reached.
TEXT_2015 = {
    "text_2015_bands": ("bands", "not_known/credit_12", "not_known/supplier_days", "not_known/grid_days", "not_known/z",
                        "not_known/mining_days_and_z"),
    "text_2015_ties": ("volumes", "charges"),
    "text_2015_rooms": ("counts/no_consumers", "counts/one_consumer", "counts/all_32_consumers", "buffers", "rooms"),
    "text_2015_refusals": (
        "refusal_1/thirteen_bytes", "refusal_2/one_more", "refusal_3/version_4", "refusal_4/days_27",
        "refusal_5/consumers_33", "refusal_6/one_byte_more", "refusal_7", "refusal_8/no_plan", "refusal_9/peak",
        "refusal_9/contract", "refusal_9/outside_last_hour", "refusal_10/no_producers", "refusal_11/consumer_price",
        "refusal_12/z_9", "refusal_12/grid_days_next", "several_rules/6_and_7",
        *(f"several_rules/7_and_{number}" for number in FIGURES if number != 18)),
}

# Sheets of version 2, each kind once, behind those of version 1 in the files that there are. All marks of request 5
# must be reached, in the files for the settlement and in those for the text of 2015. Rows that cover part of a month,
# and days that no month has, are with the months. Corners of request 8 are with the cut; all its marks must be reached too.
ORDERS_OF_18 = tuple(f"several_rules/{number}_and_18" for number in FIGURES if number != 18)
VERSION_2 = {
    "checked_months": ("checked_months/producer_cut",),
    "refusal_2": ("refusal_2/one_more", "refusal_2/bytes_lost"),
    "refusal_4": ("refusal_4/days_27", "refusal_4/holiday_next"),
    "refusal_5": ("refusal_5/consumers_33",),
    "refusal_6": ("refusal_6/one_byte_less", "refusal_6/rows_of_10_bytes_in_version_2",
                  "refusal_6/rows_of_12_bytes_in_version_1"),
    "refusal_7": ("refusal_7/shorter_by_one",),
    "refusal_9": ("refusal_9/row_volume",),
    "refusal_10": ("refusal_10/consumer_next",),
    "refusal_11": ("refusal_11/row_price",),
    "refusal_12": ("refusal_12/z_9",),
    "several_rules": ORDERS_OF_18 + ("several_rules/7_and_18", "several_rules/6_and_12"),
    "bands_of_consumers": ("bands_of_consumers/half_200",),
    "ties": ("ties/order_of_k9_and_k10",),
    "months": (
        "row_days/month_of_31", "row_days/one_day_of_29", "row_days/first_day_only_of_28",
        "row_days/last_day_only_of_31", "row_days/begins_inside_of_30", "row_days/ends_inside_of_31",
        "row_days/both_inside_of_28", "row_days/exact_of_29", "row_days/rounded_down_of_31",
        "row_days/on_a_half_of_28", "row_days/on_a_half_of_30", "row_days/rounded_up_of_29", "row_days/half_a_tenth",
        "row_days/after_k2", "row_days/after_k10", "row_days/before_the_tenth", "row_days/cut_into_a_later",
        "row_days/k1_next_50", "row_days/k4_beside_the_cut", "row_days/credit_of_the_days",
        "refusal_18/first_0", "refusal_18/first_and_last_0", "refusal_18/last_one_before", "refusal_18/last_next",
        "refusal_18/first_and_last_past", "refusal_18/only_the_first_row", "refusal_18/only_the_last_row"),
    "cut": ("after_cut/part_cut_of_one_support", "after_cut/all_cut_of_one_support", "after_cut/part_cut_of_one_bilateral",
            "after_cut/penalty_at_what_is_left_alone", "after_cut/all_support_cut", "after_cut/nothing_left_of_two",
            "after_cut/support_beside_nothing", "after_cut/bilateral_rounded_up"),
    "credits": ("credits/drawn",),
    "largest": ("largest/full_counts_31_days",),
    "damaged": ("damaged/one_byte_changed", "damaged/any_records"),
    "buffers": ("buffers/exact",),
    "text_2015_bands": ("bands/next_500", "bands/half_1000", "not_known/credit_15"),
    "text_2015_ties": ("volumes/half_of_11", "charges/half"),
    "text_2015_rooms": ("buffers/exact", "rooms/as_the_settlement_needs"),
    "text_2015_refusals": (
        "refusal_3/version_0", "refusal_3/version_255", "refusal_6/rows_of_10_bytes_in_version_2",
        "refusal_6/rows_of_12_bytes_in_version_1", "refusal_18/first_0", "refusal_18/last_one_before",
        "refusal_18/last_next", "refusal_18/only_the_first_row", "refusal_18/only_the_last_row", *ORDERS_OF_18,
        "several_rules/7_and_18"),
    "transfers": ("applied/given_on", "long/behind_producers", "list_15/emptied_before", "several_rules/18_and_13"),
    "averages": ("taken/rest_half", "long/behind_producers", "record_16/consumer_next",
                 "several_rules/18_and_16_eight_bytes"),
}

# Sheets of version 3 in the same way, behind those of version 2. All marks of request 7 must be reached in the files for
# the settlement. Columns that are accepted are with the months, those that are not with 9.
VERSION_3 = {
    "checked_months": ("checked_months/producer_cut",),
    "refusal_2": ("refusal_2/one_more",),
    "refusal_3": ("refusal_3/version_4",),
    "refusal_4": ("refusal_4/days_27",),
    "refusal_5": ("refusal_5/consumers_33",),
    "refusal_6": ("refusal_6/one_byte_less", "refusal_6/rows_of_10_bytes_in_version_3"),
    "refusal_7": ("refusal_7/shorter_by_one",),
    "refusal_9": tuple(f"high_columns/{corner}" for corner in HIGH_COLUMNS),
    "refusal_11": ("refusal_11/row_price",),
    "refusal_12": ("refusal_12/z_9",),
    "several_rules": ("several_rules/6_and_12", "several_rules/7_and_9", "several_rules/9_and_18"),
    "bands_of_k1": ("bands_of_k1/next_50",),
    "bands_of_consumers": ("bands_of_consumers/half_200",),
    "ties": ("ties/tie_average", "ties/order_of_k9_and_k10"),
    "months": (*(kind for kind in (f"columns/{corner}" for corner in COLUMNS) if kind not in LEFT_OUT),
               "row_days/both_inside_of_28", "refusal_18/only_the_last_row"),
    "cut": ("after_cut/part_cut_of_two", "after_cut/nothing_left_of_one", "after_cut/support_on_a_half",
            "after_cut/support_with_use_rounded_down", "after_cut/support_with_use_before_half_k2",
            "after_cut/support_with_use_behind_one_cut_whole", "after_cut/support_with_use_beside_another"),
    "credits": ("credits/drawn",),
    "largest": ("largest/full_counts_31_days",),
    "damaged": ("damaged/one_byte_changed", "damaged/any_records"),
    "buffers": ("buffers/exact",),
    "text_2015_bands": ("bands/next_500", "not_known/credit_15"),
    "text_2015_ties": ("volumes/half_of_11",),
    "text_2015_rooms": ("buffers/exact", "rooms/as_the_settlement_needs"),
    "text_2015_refusals": ("refusal_6/rows_of_10_bytes_in_version_3", "refusal_9/outside_last_hour",
                           "refusal_18/last_next", "several_rules/7_and_9"),
    "transfers": ("applied/given_on", "long/behind_producers", "list_15/emptied_before"),
    "averages": ("taken/rest_half", "long/behind_producers", "several_rules/18_and_16_eight_bytes"),
}
LATER_VERSIONS = {DAY_ROWS: VERSION_2, COLUMN_HOURS: VERSION_3}


def corners_stored(group):
    corners = [corner for corner in sheets.GROUPS[group] if f"{group}/{corner}" not in LEFT_OUT | ONLY_LATER]
    return corners[:MONTHS_STORED] if group == "months" else corners


def draw_stored(kinds, kind, length, name, version=FULL_ROWS):
    """The first of some draws that is short enough, or else the shortest. name: what is drawn for, once."""
    shortest = None
    for draw in range(DRAWS):
        case = kinds.draw_case(Draws(f"{SEED}/{name}/{draw}", version=version), *kind.split("/"))
        if case.length <= length:
            return case
        if shortest is None or case.length < shortest.length:
            shortest = case
    return shortest


def drawn_in_later_versions(kinds, file, length):
    return [draw_stored(kinds, kind, length, f"version_{version}/{file}/{kind}", version)
            for version, stored in LATER_VERSIONS.items() for kind in stored.get(file, ())]


def stored_cases(group):
    times, length = PLAN[group]
    cases = [draw_stored(sheets.KINDS, f"{group}/{corner}", length, f"{group}/{corner}/{number}")
             for number in range(times) for corner in corners_stored(group)]
    short = [case for case in cases if len(case.sheet) <= LONGEST_SHEET]
    return short + drawn_in_later_versions(sheets.KINDS, group, min(length, ONE_PRODUCER))


def kinds_of_2015(file):
    """The kinds that a file of sheets under the text of 2015 stores in version 1."""
    for stored in TEXT_2015[file]:
        yield from [stored] if "/" in stored else (f"{stored}/{corner}" for corner in text_2015_cases.GROUPS[stored])


def stored_cases_2015(file):
    kinds = text_2015_cases.KINDS
    cases = [draw_stored(kinds, kind, NO_PRODUCER, f"2015/{kind}") for kind in kinds_of_2015(file)]
    return cases + drawn_in_later_versions(kinds, file, NO_PRODUCER)


# The files of sheets that an entry changes: the kinds of its cases, those that are stored, the length if it can be.
CHANGED = {"transfers": (list_cases.KINDS, LISTS, SHORT_LIST), "averages": (record_cases.KINDS, RECORDS, SHORT_RECORD)}


def check_intended(cases, answers, intended_refusal):
    for case, answer in zip(cases, answers):
        intended = intended_refusal(case.kind)
        answered = answer if isinstance(answer, int) else 0
        if intended is not None and answered != intended:
            raise Trouble(f"{case.kind} was drawn for {intended}, the rival answers {answered} (0: no refusal)")


def stored_bytes(case, answer):
    refused = isinstance(answer, int)
    front = struct.pack(">2IBI", len(case.sheet), case.buffer, refused, answer if refused else len(answer))
    return front + case.sheet + (b"" if refused else answer)


def stored_change_bytes(case, answer):
    """Where the sheet is changed, the answer is byte count 0. The sheet afterwards stands there in any case."""
    refused = isinstance(answer, int)
    front = struct.pack(">2IBI", len(case.sheet), len(case.given), refused, answer if refused else 0)
    return front + case.sheet + case.given + (case.sheet if refused else answer)


def read_options():
    options = argparse.ArgumentParser(prog="compare/store.py",
                                      description="Writes stored cases with the rival's answers.")
    options.add_argument("outdir", metavar="OUTDIR", help="the folder for the files, one for each group")
    options.add_argument("--expect", metavar="FILE", help="gets a line for each group: its name and its count of cases")
    return options.parse_args()


def check_reached(cases, folder, command, titles):
    """The cases reach every mark of the titled lines."""
    reached = {mark for line in programs.rival_marks(cases, folder, command) for mark in marks_of(line)}
    missed = {mark for marks in titles.values() for mark in marks} - reached
    if missed:
        raise Trouble(f"{command}: the stored sheets do not reach {', '.join(sorted(missed))}")


class Settled(NamedTuple):
    """An entry that settles: its kinds of sheets, the rival's commands, the marks that stored cases are to reach."""
    kinds: SheetKinds
    command: str
    marks_command: str
    titles: dict


SETTLEMENT = Settled(sheets.KINDS, "batch", "marks",
                     {**MARKS_OF_DAYS, **MARKS_OF_DAYS_REFUSED, **MARKS_OF_HUNDREDTHS, **MARKS_OF_COLUMNS,
                      **MARKS_OF_AFTER_CUT})
OLD_TEXT = Settled(text_2015_cases.KINDS, "batch2015", "marks2015", MARKS)


def answered_sheets(entry, files, folder):
    """Files of cases of an entry that settles: the cases of each in bytes."""
    cases = [case for stored in files.values() for case in stored]
    answers = programs.rival_answers(cases, folder, entry.command)
    check_intended(cases, answers, entry.kinds.intended_refusal)
    programs.check_paper(cases, answers)
    check_reached(cases, folder, entry.marks_command, entry.titles)
    told = map(stored_bytes, cases, answers)
    return {file: list(islice(told, len(stored))) for file, stored in files.items()}


def answered_changes(file, folder):
    """The stored cases of a file of sheets that are changed, each in bytes. The rival's command has the file's name."""
    kinds, stored, length = CHANGED[file]
    cases = [draw_stored(kinds, kind, length, f"{file}/{kind}") for kind in stored]
    cases += drawn_in_later_versions(kinds, file, length)
    answers = programs.rival_answers(cases, folder, file)
    check_intended(cases, answers, kinds.intended_refusal)
    return list(map(stored_change_bytes, cases, answers))


def main():
    options = read_options()
    programs.build_rival()
    programs.make_folder(programs.OUT)
    with tempfile.TemporaryDirectory(dir=programs.OUT) as folder:
        files = answered_sheets(SETTLEMENT, {group: stored_cases(group) for group in PLAN}, folder)
        files.update(answered_sheets(OLD_TEXT, {file: stored_cases_2015(file) for file in TEXT_2015}, folder))
        files.update((file, answered_changes(file, folder)) for file in CHANGED)
    total = sum(len(each) for stored in files.values() for each in stored)
    if total >= MOST_BYTES:
        raise Trouble(f"the stored cases take {total} bytes, which is not below {MOST_BYTES}")
    programs.make_folder(options.outdir)
    for group, stored in files.items():
        programs.write_file(Path(options.outdir) / group, b"".join(stored))
    lines = "".join(f"{group} {len(files[group])}\n" for group in (*PLAN, *TEXT_2015))
    if options.expect:
        programs.write_file(options.expect, lines.encode())
    print(f"stored: {sum(map(len, files.values()))} cases in {len(files)} files, {total} bytes")
    return 0


if __name__ == "__main__":
    programs.end_with("compare/store.py", main)
