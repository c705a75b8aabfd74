"""The rival and the module's driver: building them, the files of cases and answers, running them over cases."""
import os
import struct
import subprocess
import sys
from pathlib import Path

from accepted import CHECKED
from records import result_figures

ROOT = Path(__file__).resolve().parent.parent
OUT = ROOT / "target" / "compare"
ARCHIVE = ROOT / "target" / "staticlib" / "libcapacity.a"
RIVAL = ROOT / "target" / "rival" / "rival"
MODULE = OUT / "module"      # settles sheets by the module
CHANGED = OUT / "changed"    # changes them by its other entries

LONGEST_WAIT = 300  # seconds


class Trouble(Exception):
    """Something that keeps the work from being done, in plain words."""


def end_with(name, main):
    """Runs a command's main function and ends with its status; trouble is told in plain words."""
    try:
        status = main()
        sys.stdout.flush()
    except Trouble as trouble:
        print(f"{name}: {trouble}", file=sys.stderr)
        status = 2
    except BrokenPipeError:
        os.dup2(os.open(os.devnull, os.O_WRONLY), sys.stdout.fileno())
        status = 2
    except OSError as trouble:
        print(f"{name}: {trouble.strerror}: {trouble.filename}", file=sys.stderr)
        status = 2
    except KeyboardInterrupt:
        print(f"{name}: stopped", file=sys.stderr)
        status = 130
    sys.exit(status)


def run_program(words):
    """Runs a program to its end; gives its status and what it printed."""
    words = [str(word) for word in words]
    try:
        done = subprocess.run(words, stdout=subprocess.PIPE, stderr=subprocess.STDOUT, timeout=LONGEST_WAIT)
    except subprocess.TimeoutExpired:
        raise Trouble(f"{words[0]} did not end within {LONGEST_WAIT} seconds") from None
    except OSError as error:
        raise Trouble(f"cannot run {words[0]}: {error.strerror}") from None
    return done.returncode, done.stdout.decode(errors="replace").strip()


def build_rival(sources=ROOT / "rival"):
    """Builds the rival from a folder of sources; from then on it is the rival of this run."""
    global RIVAL
    sources = Path(sources).resolve()
    status, printed = run_program([sources / "build"])
    if status != 0:
        raise Trouble(f"the rival was not built\n{printed}")
    RIVAL = sources.parent / "target" / "rival" / "rival"


def build_module(archive):
    if not Path(archive).is_file():
        raise Trouble(f"there is no archive {archive}; make it with: tools/archive")
    make_folder(OUT)
    for driver in (MODULE, CHANGED):
        build_driver(driver, archive)


def build_driver(driver, archive):
    new, source = driver.with_suffix(".new"), ROOT / "compare" / f"{driver.name}.c"
    status, printed = run_program(["cc", "-std=c99", "-O2", "-Wall", "-Wextra", "-Werror", "-I", ROOT / "include",
                                   "-o", new, source, archive])
    if status != 0:
        raise Trouble(f"the module's driver {driver.name} was not built\n{printed}")
    new.replace(driver)


def make_folder(path):
    try:
        Path(path).mkdir(parents=True, exist_ok=True)
    except OSError as error:
        raise Trouble(f"cannot make the folder {path}: {error.strerror}") from None


def write_file(path, content):
    try:
        Path(path).write_bytes(content)
    except OSError as error:
        raise Trouble(f"cannot write {path}: {error.strerror}") from None


def case_bytes(sheet, buffer):
    return struct.pack(">2I", len(sheet), buffer) + sheet


def list_case_bytes(sheet, given):
    """A sheet with a list of transfers, or with a complex's record."""
    return struct.pack(">2I", len(sheet), len(given)) + sheet + given


def write_cases(path, cases):
    write_file(path, b"".join(case.to_bytes() for case in cases))


def read_answers(path, count):
    """For each case the refusal's number, or the bytes of the result or of the sheet afterwards."""
    try:
        content = Path(path).read_bytes()
    except OSError as error:
        raise Trouble(f"cannot read {path}: {error.strerror}") from None
    answers, place = [], 0
    while place + 5 <= len(content):
        kind, number = struct.unpack_from(">BI", content, place)
        place += 5
        if kind == 1:
            answers.append(number)
        else:
            answers.append(content[place:place + number])
            place += number
    if len(answers) != count or place != len(content):
        raise Trouble(f"{path} does not hold the answers to {count} cases")
    return answers


def stored_lists(content):
    """Each stored sheet, its list or record, and the answer: the sheet afterwards, or the refusal's number."""
    place = 0
    while place < len(content):
        length, beside, refused, number = struct.unpack_from(">2IBI", content, place)
        place += 13
        sheet, given = content[place:place + length], content[place + length:place + length + beside]
        place += length + beside
        yield sheet, given, number if refused else content[place:place + length]
        place += length


def rival_file(cases, folder, command):
    """The file that a command of the rival writes about cases, in a folder."""
    asked, answered = Path(folder) / "cases", Path(folder) / "rival"
    write_cases(asked, cases)
    status, printed = run_program([RIVAL, command, asked, answered])
    if status != 0:
        raise Trouble(f"the rival ended with status {status}\n{printed}")
    return answered


def rival_answers(cases, folder, command="batch"):
    """The rival's answers to cases, with files in a folder."""
    return read_answers(rival_file(cases, folder, command), len(cases))


def rival_marks(cases, folder, command):
    """For each case the line of marks that the rival gives it."""
    return rival_file(cases, folder, command).read_text().splitlines()


def check_paper(cases, answers):
    """The rival's figures for the checked months are the paper's own. Gives the lines that were checked."""
    wanted = {f"checked_months/{name}": figures for name, _, figures in CHECKED}
    checked = set()
    for case, answer in zip(cases, answers):
        if case.kind not in wanted:
            continue
        if isinstance(answer, int):
            raise Trouble(f"{case.kind}: a month of document 01, but the rival turns it down with {answer}")
        rows, consumers, _ = result_figures(case.sheet, answer)
        found = (rows[0].after_cut, rows[0].actual) if rows else consumers[0].actual
        if found != wanted[case.kind]:
            raise Trouble(f"{case.kind}: document 01 has {wanted[case.kind]} tenths, the rival {found}")
        checked.add(case.kind)
    return checked
