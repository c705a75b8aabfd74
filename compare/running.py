"""Both programs over the same cases: they must agree, and a difference is told with all that is needed to repeat it.

A SheetRun settles sheets, a Run2015 settles them under the text of 2015, a ListRun applies lists of transfers to
sheets, a RecordRun writes complexes' peaks into them. What must hold of each answer by itself is checked here too.
"""
import re
from contextlib import contextmanager
from pathlib import Path

import list_cases
import programs
import record_cases
import sheets
import text_2015_cases
import transfer_lists
from complex_records import peak_place
from records import field_at, result_2015_figures, result_figures, row_volumes

CHUNK = 500  # cases that the programs are given at a time


class Difference(Exception):
    """The two programs differ, or one of them breaks a rule that the answers must keep."""


def answer_text(answer):
    return f"refusal {answer}" if isinstance(answer, int) else f"{len(answer)} bytes"


class Run:
    """One set of cases, answered by both programs in chunks. Its files are kept only in a folder that was asked for."""

    answer_command, marks_command = None, None    # the rival's
    driver = ()                                   # the module's: a program, and the word for the entry
    kinds = None                                  # of the cases

    def __init__(self, name, seed, folder, keep):
        self.name, self.seed, self.folder, self.keep = name, seed, Path(folder), keep

    def answers(self, start, cases):
        """The answers on which both programs agree."""
        with self.written(start, cases) as run:
            return self.agreed(run, start, cases)

    def answers_and_marks(self, start, cases):
        """These, and for each case the line of the rival's marks."""
        with self.written(start, cases) as run:
            answers = self.agreed(run, start, cases)
            marks = run([programs.RIVAL, self.marks_command], "marks").read_text().splitlines()
        if len(marks) != len(cases):
            raise programs.Trouble(f"{self.name} {start}: the rival did not mark {len(cases)} cases")
        return answers, marks

    @contextmanager
    def written(self, start, cases):
        """The cases in a file, and a function that runs a program over them and gives the file that it wrote."""
        files = {part: self.folder / f"{self.name}-{start:06}.{part}" for part in ("cases", "rival", "module", "marks")}
        programs.write_cases(files["cases"], cases)

        def run(program, part, *words):
            status, printed = programs.run_program([*program, files["cases"], files[part], *words])
            if status != 0:
                self.stopped(part, status, printed, start, cases)
            return files[part]
        yield run
        if not self.keep:
            for file in files.values():
                file.unlink(missing_ok=True)

    def by_rival(self, start, cases):
        """The rival's answers alone."""
        with self.written(start, cases) as run:
            return self.rival_answers(run, cases)

    def rival_answers(self, run, cases):
        return programs.read_answers(run([programs.RIVAL, self.answer_command], "rival"), len(cases))

    def agreed(self, run, start, cases):
        by_rival = self.rival_answers(run, cases)
        by_module = programs.read_answers(run(self.driver, "module", start), len(cases))
        self.compare(start, cases, by_rival, by_module)
        return by_rival

    def check_again(self, start, cases, wanted, words):
        """Other cases are to get answers that are known already. words: what it means if one does not."""
        for index, (case, answer, again) in enumerate(zip(cases, wanted, self.answers(start, cases)), start):
            if again != answer:
                raise self.report(index, case, f"{answer_text(again)}, {words}")

    def stopped(self, part, status, printed, start, cases):
        found = re.search(r"case (\d+)", printed)
        if part == "module" and status == 1 and found:
            index = int(found.group(1))
            raise self.report(index, cases[index - start], printed)
        program = "module" if part == "module" else "rival"
        raise Difference(f"compare: seed {self.seed}, {self.name} {start} to {start + len(cases) - 1}: "
                         f"the {program} did not answer, it ended with status {status}\n{printed}")

    def intended_refusal(self, kind):
        return self.kinds.intended_refusal(kind)

    def compare(self, start, cases, by_rival, by_module):
        for index, (case, rival, module) in enumerate(zip(cases, by_rival, by_module), start):
            if rival != module:
                raise self.report(index, case, self.difference_text(case, rival, module))
            intended = self.intended_refusal(case.kind)
            answered = rival if isinstance(rival, int) else 0
            if intended is not None and answered != intended:
                wanted = f"refusal {intended}" if intended else "no refusal"
                raise self.report(index, case, f"drawn for {wanted}, but both programs answer {answer_text(rival)}")
            if answered == 0:
                wrong = self.wrong_in(case, rival)
                if wrong:
                    raise self.report(index, case, wrong)

    def difference_text(self, case, rival, module):
        lines = [f"rival:  {answer_text(rival)}", f"module: {answer_text(module)}"]
        if isinstance(rival, bytes) and isinstance(module, bytes):
            place = next((place for place, (one, other) in enumerate(zip(rival, module)) if one != other), None)
            if place is not None:
                lines.append(f"first differing byte: {place} ({self.field_at(case, place)}), "
                             f"rival {rival[place]}, module {module[place]}")
        return "\n".join(lines)

    def report(self, index, case, words):
        """Saves the case for repeating, and gives the words of a difference with all that is needed to repeat it."""
        saved = programs.OUT / f"seed-{self.seed}-{self.name}-{index}"
        sheet, whole = saved.with_suffix(".sheet"), saved.with_suffix(".case")
        programs.write_file(sheet, case.sheet)
        programs.write_file(whole, case.to_bytes())
        return Difference(f"compare: seed {self.seed}, {self.name} {index}, kind {case.kind}\n"
                          f"sheet: {sheet} ({len(case.sheet)} bytes)\n{self.beside(saved, case)}\n"
                          f"both as a case: {whole}\n{words}")

    def report_pair(self, index, first, second, words):
        """The same of two cases that follow each other."""
        self.report(index, first, "")
        return self.report(index + 1, second, f"{words}\nthe sheet named is the second of the pair; "
                                              f"the first was saved with the number before it")


class SheetRun(Run):
    answer_command, marks_command = "batch", "marks"
    driver = programs.MODULE, "settle"
    kinds = sheets.KINDS

    def field_at(self, case, place):
        return field_at(case.sheet, place)

    def beside(self, saved, case):
        return f"buffer length: {case.buffer}"

    def wrong_in(self, case, result):
        """The last sentence of demand 3: actual volume ≤ volume after the cut ≤ the sheet's volume."""
        rows, _, _ = result_figures(case.sheet, result)
        for number, (row, volume) in enumerate(zip(rows, row_volumes(case.sheet))):
            if not row.actual <= row.after_cut <= volume:
                return (f"demand 3: row {number} has volume {volume} in the sheet, "
                        f"{row.after_cut} after the cut, and actual volume {row.actual}")
        return ""


class Run2015(SheetRun):
    answer_command, marks_command = "batch2015", "marks2015"
    driver = programs.MODULE, "settle_2015"
    kinds = text_2015_cases.KINDS

    def field_at(self, case, place):
        consumer, at = divmod(place - 4, 17)
        name = "factor" if at < 1 else "volume" if at < 9 else "charge"
        return "length" if place < 4 else f"consumer {consumer}, {name}"

    def wrong_in(self, case, result):
        """The volume is the contract volume or more, and at most half more, rounded upward."""
        lines = zip(transfer_lists.contract_volumes(case.sheet), result_2015_figures(result))
        for number, (contract, line) in enumerate(lines):
            if not contract <= line.volume <= (3 * contract + 1) // 2:
                return f"consumer {number} has a contract volume of {contract} and a volume of {line.volume}"
        return ""


class ChangeRun(Run):
    """Sheets that are changed by a second buffer."""

    def field_at(self, case, place):
        return transfer_lists.field_at(case.sheet, place)

    def beside(self, saved, case):
        file = saved.with_suffix(f".{self.kinds.given}")
        programs.write_file(file, case.given)
        return f"{self.kinds.given}: {file} ({len(case.given)} bytes)"


class ListRun(ChangeRun):
    answer_command, marks_command = "transfers", "transfermarks"
    driver = programs.CHANGED, "transfer"
    kinds = list_cases.KINDS

    def wrong_in(self, case, after):
        """The sum of contract volumes is the same, and no other byte is touched."""
        volumes, moved = transfer_lists.contract_volumes(case.sheet), transfer_lists.contract_volumes(after)
        if sum(volumes) != sum(moved):
            return f"the contract volumes add up to {sum(volumes)} before the list and to {sum(moved)} after it"
        if transfer_lists.with_contract_volumes(case.sheet, moved) != after:
            return "another byte than those of the contract volumes has changed"
        return ""


class RecordRun(ChangeRun):
    answer_command, marks_command = "averages", "averagemarks"
    driver = programs.CHANGED, "average"
    kinds = record_cases.KINDS

    def wrong_in(self, case, after):
        """No byte is touched but the four of that consumer's peak."""
        peak, wanted = peak_place(case.sheet, case.given), bytearray(case.sheet)
        wanted[peak] = after[peak]
        return "" if wanted == after else "another byte than those of that consumer's peak has changed"
