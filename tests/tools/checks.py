"""Counting of checks, and running of the commands under test."""
import importlib.machinery
import importlib.util
import io
import os
import subprocess
import sys
import traceback
from pathlib import Path
from typing import NamedTuple

import programs

ROOT = Path(__file__).resolve().parents[2]
SHEET = ROOT / "tools" / "sheet"
REPORT = ROOT / "tools" / "report"
PROGRAM = ROOT / "target" / "bin" / "settle"
PROGRAM_2015 = ROOT / "target" / "bin" / "settle_2015"
TRANSFER_PROGRAM = ROOT / "target" / "bin" / "transfer_sheet"
AVERAGE_PROGRAM = ROOT / "target" / "bin" / "average_sheet"
PROGRAMS = PROGRAM, PROGRAM_2015, TRANSFER_PROGRAM, AVERAGE_PROGRAM      # which ./settle builds
EXAMPLES = ROOT / "examples"


class Kind(NamedTuple):
    """A kind of what changes a month, with its examples, which are for the sheet `month`."""
    option: str
    name: str         # of the example that is applied; the others are refused
    text: str         # how names end, of texts
    packed: str       # and of bytes
    refused: tuple    # the numbers, by which the other examples are named
    after: str        # the name of the sheet afterwards
    program: Path     # that applies it
    keyword: str      # of report, for another program
    command: str      # of the rival

    def files(self, name=None):
        """An example as text and as bytes."""
        return EXAMPLES / f"{name or self.name}{self.text}", EXAMPLES / f"{name or self.name}{self.packed}"

    def words(self, *paths):
        """The options for these files."""
        return [word for path in paths for word in (self.option, path)]


LISTS = Kind("--transfers", "transfers", ".csv", ".list", (13, 14, 15), "month-transferred", TRANSFER_PROGRAM,
             "transfer_program", "transfer")
RECORDS = Kind("--complex", "plant", ".complex.csv", ".complex", (16, 17), "month-averaged", AVERAGE_PROGRAM,
               "average_program", "average")
CHANGES = LISTS, RECORDS

passed = failed = 0


def check(holds, name, more=""):
    """Counts a check; prints it if it fails."""
    global passed, failed
    if holds:
        passed += 1
    else:
        failed += 1
        print(f"FAILED: {name}" + (f"\n{more}" if more else ""))
    return holds


def attempt(test, *given):
    """A test that breaks down is one that fails."""
    try:
        test(*given)
    except Exception:
        check(False, test.__name__, traceback.format_exc())


def run(*words, stdin=b"", folder=None, path=None):
    """Runs a command to its end; what it prints comes as bytes."""
    env = dict(os.environ, PATH=str(path)) if path else None
    words = [str(word) for word in words]
    return subprocess.run(words, input=stdin, capture_output=True, cwd=folder, env=env, timeout=60)


def load_command(path):
    name = f"{path.name}_command"
    loader = importlib.machinery.SourceFileLoader(name, str(path))
    module = importlib.util.module_from_spec(importlib.util.spec_from_loader(name, loader))
    loader.exec_module(module)
    return module


COMMANDS = {path: load_command(path) for path in (SHEET, REPORT)}


def sheet(*words, **more):
    """tools/sheet, in this process."""
    return run_here(SHEET, *words, **more)


def report(*words, program=PROGRAM, transfer_program=TRANSFER_PROGRAM, average_program=AVERAGE_PROGRAM, **more):
    """tools/report, in this process."""
    return run_here(REPORT, "--program", program, "--transfer-program", transfer_program, "--average-program",
                    average_program, *words, **more)


def report_2015(*words, program=PROGRAM_2015, **more):
    """The same under the text of 2015."""
    return report("--text-2015", *words, program=program, **more)


def run_here(command, *words, stdin=b"", folder=None):
    """Runs a command in this process, which saves a start of Python each time; the answer is as run's."""
    kept = sys.argv, sys.stdin, sys.stdout, sys.stderr, os.getcwd()
    sys.argv = [str(command), *map(str, words)]
    sys.stdin, out, err = (io.TextIOWrapper(io.BytesIO(content)) for content in (stdin, b"", b""))
    sys.stdout, sys.stderr = out, err
    try:
        os.chdir(folder or kept[-1])
        status = COMMANDS[command].main()
    except SystemExit as end:
        status = end.code
    except Exception:
        traceback.print_exc()
        status = None
    finally:
        sys.argv, sys.stdin, sys.stdout, sys.stderr = kept[:-1]
        os.chdir(kept[-1])
    out.flush()
    err.flush()
    return subprocess.CompletedProcess(words, status, out.buffer.getvalue(), err.buffer.getvalue())


def shown_table(title, *words, **more):
    """The table of `show` that begins with a title; nothing if there is none."""
    parts = sheet("show", *words, **more).stdout.decode().rstrip("\n").split("\n\n")
    return next((part for part in parts if part.startswith(title)), "")


def check_example(name, title):
    """examples/README.md has a table that show prints of an example, and the lines of its listing."""
    readme, table = (EXAMPLES / "README.md").read_text(), shown_table(title, EXAMPLES / f"{name}.toml")
    check(table and f"```\n{table}\n```\n" in readme, f"examples/README.md has a table of {name}", table)
    for line in (EXAMPLES / f"{name}.listing").read_text().splitlines():
        check(f"`{line}`" in readme, f"examples/README.md has {line}")


def words_of(done):
    """What is printed of a command whose check fails."""
    said = (done.stdout + done.stderr).decode(errors="replace")
    return f"status {done.returncode}\n{said[:1000]}".rstrip()


def by_rival(command, path):
    """What a command of the rival prints about a sheet."""
    return run(programs.RIVAL, command, path).stdout


def files_in(folder):
    return {path: path.read_bytes() for path in Path(folder).rglob("*") if path.is_file()}


def turned_down(name, folder, words, message, status=1, command=sheet, **more):
    """A command ends with a status and a message, without a traceback, and leaves every file as it was."""
    before = files_in(folder)
    done = command(*words, folder=folder, **more)
    said = done.stderr.decode(errors="replace")
    check(done.returncode == status and message in " ".join(said.split()) and not done.stdout,
          f"{name}: {message}", words_of(done))
    check("Traceback" not in said and (status == 2 or said.count("\n") == 1), f"{name}: one line", words_of(done))
    check(files_in(folder) == before, f"{name}: every file is as it was")
