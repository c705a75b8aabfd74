"""The script settle, in a small repository of its own with a stand-in for rt."""
import os
import shutil
import subprocess
import time
from hashlib import sha256

import programs
from checks import CHANGES, EXAMPLES, LISTS, PROGRAMS, RECORDS, ROOT, check, files_in, run, sheet, words_of
from days import INSIDE, after_change
from text_2015 import by_rival
from texts import BACK, GOOD, changed
from use import NOT_A_LIST, NOT_A_MONTH, NOT_A_RECORD, RECORD_NO_LIST, RECORD_NO_MONTH

TOOLS_USED = ("sh", "dirname", "readlink", "find", "cat", "mkdir", "mv", "rm", "cp", "mktemp", "chmod", "awk", "sleep",
              "sort", "xargs", "sha256sum", "cut", "git", "python3", "env", "wc", "od")
STAND_IN = """\
#!/bin/sh
# rt in the tests: eats its standard input, counts its runs, and leaves the program of the crate that it is called in.
case $1 in version) cat "$0.version"; exit ;; esac
cat >/dev/null
name=${PWD##*/}
echo "$* $name" >>"$0.log"
[ ! -f "$0.slow" ] || sleep 1
say() { for line; do echo "$line" >&2; done; }
mkdir -p ../laws/out ../rules/out out
echo made >../rules/out/made
say "rt: rules: begins with what a check kept in /another/checkout/crates/rules" "rt: chose --jobs 2 for laws"
say "fn laws::sum: proved" "library rules: modules loaded=65 checked=0" "crate laws: modules loaded=0 checked=47"
[ ! -f "$0.fails" ] || {
    say "logic=not-proved" "rattle build: nothing was built, since only a proved crate is built"
    say "rt: the library laws did not build, so nothing above it was checked"
    exit 1
}
say "logic=proved functions=1 sum=0 incremental=trusted"
say "rt: rt check --fix-imports removes those imports, and so does rt tidy once the crate is proved"
say "crate $name: modules loaded=0 checked=153" "logic=proved functions=8 axioms=2 sum=0 incremental=trusted"
cp "$0.$name" "out/new.$$"
mv "out/new.$$" "out/$name"
say "rt: running out/$name; to give it other input, run that file yourself"
echo N1
"""
CRATES = """\
# NAME: crates
rules:
laws: rules  # and more
other: rules
settle: rules laws io libc
settle_2015: rules laws io libc
transfer_sheet: rules laws other io libc
average_sheet: rules laws other io libc
"""
EXAM = (EXAMPLES / "exam-126.sheet").read_bytes()
MONTH = EXAMPLES / "month.sheet"
NOT_PROVED = ("settle: laws is not proved\nrt: the library laws did not build, so nothing above it was checked\n"
              "settle: the program settle is not proved, so nothing is settled; 'rt check' in crates/settle says why\n")
LISTINGS = {path.stem: path.with_suffix(".listing").read_bytes() for path in EXAMPLES.glob("*.sheet")}


class House:
    """A small repository around ./settle, and two folders of commands: with the stand-in for rt, and without any rt."""

    def __init__(self, folder):
        folder.mkdir(exist_ok=True)
        self.root, self.bin, self.bin_without_rt = folder / "house", folder / "bin", folder / "without"
        for commands in (self.bin, self.bin_without_rt):
            commands.mkdir()
            for name in TOOLS_USED:
                (commands / name).symlink_to(shutil.which(name))
        (self.bin / "rt").write_text(STAND_IN)
        (self.bin / "rt").chmod(0o755)
        self.beside_rt("version").write_text("kit 1\n")
        for program in PROGRAMS:
            shutil.copy(program, self.beside_rt(program.name))
        self.source = self.root / "crates" / "rules" / "src"
        self.source.mkdir(parents=True)
        for name in ("laws", *(program.name for program in PROGRAMS)):
            (self.root / "crates" / name).mkdir()
        (self.source / "lib.rt").write_text("one")
        (self.source / "more.rt").write_text("two")
        (self.root / "crates.txt").write_text(CRATES)
        (self.root / "tools").symlink_to(ROOT / "tools")
        (self.root / "examples").symlink_to(EXAMPLES)
        shutil.copy(ROOT / "settle", self.root)

    def beside_rt(self, name):
        return self.bin / f"rt.{name}"

    def checks(self, program="settle"):
        """How often a program was checked by rt."""
        log = self.beside_rt("log")
        return log.read_text().count(f"run {program}\n") if log.is_file() else 0

    def settle(self, *words, folder=None, **more):
        """./settle in its own folder, or from another one."""
        command = self.root / "settle" if folder else "./settle"
        return run(command, *words, folder=folder or self.root, path=self.bin, **more)

    def settles(self, name, checks, said=b"", words=()):
        """Settles the exam from standard input, after so many checks by rt, and says this on standard error."""
        before = self.checks()
        done = self.settle(*words, stdin=EXAM)
        check(done.returncode == 0 and done.stdout == LISTINGS["exam-126"], f"settle: {name}: listing", words_of(done))
        check(said in done.stderr and bool(said) == bool(done.stderr), f"settle: {name}: messages", words_of(done))
        check(self.checks() - before == checks, f"settle: {name}: checks by rt", words_of(done))
        return done.stderr

    def fails(self, name, said, words=(), commands=None):
        """Settles nothing, says why, and leaves target/ as it was."""
        before = files_in(self.root / "target")
        done = run("./settle", *words, stdin=EXAM, folder=self.root, path=commands or self.bin)
        check(done.returncode == 2 and not done.stdout, f"settle: {name}: status", words_of(done))
        check(said in done.stderr.decode(), f"settle: {name}: message", words_of(done))
        after = files_in(self.root / "target")
        check(all(after.get(path) == before[path] for path in before), f"settle: {name}: target/ is as it was")


def test_building(folder):
    """When the program is proved and built, and when it is not."""
    house = House(folder)
    house.fails("no rt", "settle: the program settle is to be proved and built first, and rt",
                commands=house.bin_without_rt)
    house.fails("no such sheet", "settle: cannot read none.sheet\n", ["none.sheet"])
    check(house.checks() == 0, "settle: nothing is built for a sheet that cannot be read")
    house.beside_rt("fails").write_text("")
    house.fails("rt fails", NOT_PROVED)
    house.beside_rt("fails").unlink()

    said = house.settles("the first use builds, and rt does not eat the sheet", 1, b"which takes some minutes\n"
                         b"settle: laws is proved, 2 of 3 crates\nsettle: settle is proved, 3 of 3 crates\n")
    check(b"rt: " not in said and b"fn " not in said, "settle: what rt says for who proves is not passed on",
          said.decode())
    house.settles("the second use does not build", 0)
    house.settles("a dash", 0, words=["-"])
    (house.source.parent / "out" / "made").write_text("made again")
    house.settles("what rt makes is no source", 0)
    (house.source / "lib.rt").write_text("changed")
    house.beside_rt("fails").write_text("")
    house.fails("rt fails on a changed source", NOT_PROVED)
    house.beside_rt("fails").unlink()
    house.settles("a changed source", 1, b"settle: rt looks whether the program settle is up to date\n")
    house.settles("after that", 0)
    (house.source / "more.rt").write_text("put in place with an old time")
    os.utime(house.source / "more.rt", (1, 1))
    house.settles("a source with an old time", 1, b"up to date")
    (house.source / "more.rt").unlink()
    house.settles("a source taken away", 1, b"up to date")
    (house.root / "crates.txt").write_text("rules: \n")
    house.settles("crates.txt", 1, b"up to date\nsettle: laws is proved\nsettle: settle is proved\n")
    house.beside_rt("version").unlink()
    house.fails("an rt that fails", "rt.version: No such file or directory\nsettle: rt is on the PATH, but fails: "
                "'rt version' ended with status 1\n")
    house.beside_rt("version").write_text("kit 2\n")
    house.settles("another version of rt", 1, b"up to date")
    (house.root / "target" / "bin" / "settle").unlink()
    house.settles("a program that is gone", 1, b"some minutes")
    check(not any(house.checks(program.name) for program in PROGRAMS[1:]), "settle: no other program is built")
    house.settles("at the end", 0)
    done = run(house.root / "settle", stdin=EXAM, path=house.bin_without_rt)
    check(done.stdout == LISTINGS["exam-126"] and not done.stderr, "settle: an up-to-date program needs no rt",
          words_of(done))


def test_copied(folder):
    """A built tree that was copied settles without rt, and says that nobody looked; with rt, rt looks."""
    house = House(folder)
    house.settle(stdin=EXAM)
    copy = folder / "a copy"
    shutil.copytree(house.root, copy, symlinks=True)
    for words in ([], ["--table"]):
        done = run(copy / "settle", *words, EXAMPLES / "exam-126.sheet", path=house.bin_without_rt)
        said = (b"settle: rt, the Rattle toolchain, is not on the PATH, so nobody looked whether the program settle "
                b"is current; the one there is used\n")
        check(done.returncode == 0 and done.stderr == said and b"124.0" in done.stdout, "settle: a copied tree",
              words_of(done))
    check(house.checks() == 1, "settle: a copied tree is not built")
    for listing in ("", "N", "R0 1.0 1.0 1.00", "R0 1.0 1.0 1.00\nT 1.00", "R0 1.0 1.0 1.00\nT 1.00 0.0"):
        (copy / "target/bin/settle").write_text(f"#!/bin/sh\necho '{listing}'\n")
        done = run(copy / "settle", stdin=EXAM, path=house.bin_without_rt)
        check(done.returncode == 2 and not done.stdout and b"what it printed is no listing" in done.stderr,
              "settle: a program that ends too soon", words_of(done))


def test_at_once(folder):
    """Two first runs at once: each settles, and neither has a fault to tell. With flock, one of them waits."""
    for flock in (False, True) if shutil.which("flock") else (False,):
        house = House(folder / str(flock))
        house.beside_rt("slow").write_text("")
        if flock:
            (house.bin / "flock").symlink_to(shutil.which("flock"))
        env = dict(os.environ, PATH=str(house.bin))
        runs = [subprocess.Popen(["./settle", EXAMPLES / "exam-126.sheet"], cwd=house.root, env=env,
                                 stdout=subprocess.PIPE, stderr=subprocess.PIPE) for _ in range(2)]
        for each in runs:
            out, err = each.communicate(timeout=30)
            known = (b"settle: the program settle is proved", b"settle: another run proves a program",
                     b"settle: laws is proved, 2 of 3", b"settle: settle is proved, 3 of 3")
            quiet = all(line.startswith(known) for line in err.splitlines())
            check(each.returncode == 0 and out == LISTINGS["exam-126"] and quiet, "settle: two first runs at once",
                  err.decode())
        check(house.checks() in ([1] if flock else [1, 2]), "settle: two first runs at once: checks by rt")
        left = [path.name for path in files_in(house.root / "target") if path.name.startswith("settle.checked")]
        check(left == ["settle.checked"], "settle: two first runs at once: what is left", str(left))


def test_output(folder):
    """What cannot be written is told, with status 2; a pipe that nobody reads any more needs no words."""
    house = House(folder)
    for kind in CHANGES:
        house.settle(kind.option, kind.files()[1], "examples/month.sheet")
    house.settle("--text-2015", "examples/old-act.sheet")
    env = dict(os.environ, PATH=f"{house.bin}:/usr/bin:/bin")

    def shell(line):
        return subprocess.run(["bash", "-c", line], cwd=house.root, env=env, capture_output=True, timeout=60)
    for words in ("examples/small.sheet", "examples/small.sheet examples/refused-9.sheet", "- <examples/small.sheet",
                  "examples/small.toml", "--table examples/small.sheet", "--csv examples/small.toml",
                  "--json examples/small.toml", "--transfers examples/transfers.list examples/month.sheet",
                  "--transfers examples/refused-15.csv examples/month.sheet",
                  "--complex examples/plant.complex examples/month.sheet", "--text-2015 examples/old-act.sheet",
                  "--text-2015 --csv examples/old-act.toml", "--help", "--version"):
        for place in (">/dev/full", ">&-"):
            done = shell(f"./settle {words} {place}")
            said = done.stderr.decode()
            one_line = said.startswith("settle: ") and said.count("\n") == 1 and "standard output" in said
            check(done.returncode == 2 and one_line, f"settle {words} {place}", words_of(done))
        done = shell(f"./settle {words} | {{ exec <&-; sleep 0.3; }}; exit ${{PIPESTATUS[0]}}")
        check(done.returncode in (0, 2) and not done.stderr, f"settle {words} to a closed pipe", words_of(done))
    done = shell("{ sleep 0.3; ./settle examples/small.sheet; } | true; exit ${PIPESTATUS[0]}")
    check(done.returncode == 2 and not done.stderr, "settle: nobody reads the listing", words_of(done))
    done = shell("{ sleep 0.3; ./settle --csv examples/small.sheet; } | true; exit ${PIPESTATUS[0]}")
    check(done.returncode == 2 and not done.stderr, "settle --csv: nobody reads it", words_of(done))


def test_months(folder):
    """Texts beside sheets, the forms, --strict and --result; what needs Python, and what does not."""
    house, elsewhere = House(folder), folder / "else where"
    elsewhere.mkdir()
    (elsewhere / "bad.toml").write_text(changed(GOOD, [('"110.0"', '"x"')]))
    house.fails("a bad text is told before the program is built", "bad.toml: producer 0: attested_capacity",
                [elsewhere / "bad.toml"])
    check(house.checks() == 0, "settle: nothing is built for a bad text")
    house.settle(stdin=EXAM)
    for name in ("-x.TOML", "a month.toml"):
        (elsewhere / name).write_bytes((EXAMPLES / "small.toml").read_bytes())
    small, exam = LISTINGS["small"].decode(), LISTINGS["exam-126"].decode()
    done = house.settle("a month.toml", folder=elsewhere)
    check(done.stdout.decode() == small and not done.stderr, "settle: a text", words_of(done))
    refused = "../house/examples/refused-9.toml"
    done = house.settle("a month.toml", "-", refused, "--", "-x.TOML", folder=elsewhere, stdin=EXAM)
    wanted = f"a month.toml:\n{small}standard input:\n{exam}{refused}:\nN9\n./-x.TOML:\n{small}"
    check(done.returncode == 0 and done.stdout.decode() == wanted and not done.stderr, "settle: texts and sheets",
          words_of(done))
    for words, status in ((["--strict", "examples/refused-9.sheet"], 1), (["--strict", "examples/small.sheet"], 0),
                          (["--strict", "examples/refused-9.toml"], 1),
                          (["--strict", "--table", "examples/small.toml"], 0),
                          (["--strict", "examples/refused-9.sheet", "examples/small.sheet"], 1),
                          (["--strict", "--explain", "examples/refused-9.sheet", "examples/small.sheet"], 1)):
        done = house.settle(*words)
        check(done.returncode == status and done.stdout, f"settle {' '.join(words)}: status", words_of(done))
    for form, start in (("--table", b"examples/small.toml: December 2021\n\nrow  producer "),
                        ("--csv", b"month,record,row,"), ("--json", b'[\n {\n  "month": "examples/small.toml",\n')):
        done = house.settle(form, "examples/small.toml")
        check(done.returncode == 0 and done.stdout.startswith(start) and not done.stderr, f"settle {form}",
              words_of(done))
    for result in (["--result", "-r.bin"], ["--result=r bin"], ["--force", "--result", "-r.bin"]):
        done = house.settle(*result, "examples/small.toml")
        made = house.root / result[-1].removeprefix("--result=")
        check(done.stdout.decode() == small and made.stat().st_size == 103, f"settle {' '.join(result)}",
              words_of(done))
    done = house.settle("--result", "-r.bin", "examples/small.toml")
    check(done.returncode == 2 and b"-r.bin: exists; --force" in done.stderr, "settle --result: exists", words_of(done))
    for number, field in ((10, "row 1, consumer, 2 ("), (18, "row 1, last day, 31 (")):
        done = house.settle("--explain", f"examples/refused-{number}.toml")
        check(done.stdout == b"N%d\n" % number and f"refused-{number}.toml: {field}" in done.stderr.decode(),
              f"settle --explain: a text, {number}", words_of(done))
    for words, said in ((["--table", "--csv"], "--table and --csv are two forms"), (["--result"], "--result wants"),
                        (["--result", "-"], "--result wants"), (["--result="], "--result wants"),
                        (["--force"], "--force goes with --result or --sheet"),
                        (["--tables"], "there is no option --tables"),
                        (["--result", "r", "a", "b"], "--result takes the result of one month"),
                        (["none.toml"], "cannot read none.toml")):
        house.fails(f"wrong use: {' '.join(words)}", said, words)
    (house.bin / "python3").unlink()
    done = house.settle("--strict", "examples/small.sheet")
    check(done.stdout.decode() == small, "settle: a sheet needs no Python", words_of(done))
    for words in (["examples/small.toml"], ["--json", "examples/small.sheet"], ["--explain", "examples/small.sheet"]):
        house.fails(f"no Python: {words[0]}", "need python3, which is not on the PATH", words)


def test_transfers_built(folder):
    check_built(LISTS, folder)
    bad = folder / "bad.csv"
    bad.write_text("day,giver,taker,amount\n1,0,1,1.05\n")
    house = House(folder / "bad")
    house.fails("a bad list is told before a program is built", 'bad.csv, line 2: amount: "1.05" has more than one '
                "decimal", ["--transfers", bad, EXAMPLES / "month.sheet"])
    bad = folder / "bad.complex.csv"
    bad.write_text("consumer,x\nimported,0\ndrawn,sent\n")
    house.fails("a bad record is told before a program is built", 'bad.complex.csv, line 1: consumer: "x" is not the '
                "number of a consumer", ["--complex", bad, EXAMPLES / "month.sheet"])


def test_complexes_built(folder):
    check_built(RECORDS, folder)
    house = House(folder / "both")
    words = ["--transfers", "examples/transfers.list", "--complex", "examples/plant.complex", "examples/month.sheet"]
    house.settle(*words)
    found = [house.checks(name) for name in ("settle", "transfer_sheet", "average_sheet")]
    check(found == [1, 1, 1], "settle --transfers --complex: every program is built", str(found))


def check_built(kind, folder):
    """With a list or record both programs are proved and built, each when it has to be."""
    house, program, listing = House(folder / "built"), kind.program.name, LISTINGS[kind.after]
    words = [kind.option, kind.files()[1], "examples/month.sheet"]

    def built(name, settle, other, said):
        before = house.checks(), house.checks(program)
        done = house.settle(*words)
        check(done.stdout == listing and done.stderr.decode() == said, f"settle {kind.option}: {name}", words_of(done))
        found = house.checks() - before[0], house.checks(program) - before[1]
        check(found == (settle, other), f"settle {kind.option}: {name}: checks by rt", str(found))
    house.fails("no rt", "settle: the program settle is to be proved", words, commands=house.bin_without_rt)
    house.settle(stdin=EXAM)
    house.fails("no rt", f"the program {program} is to be proved", words, commands=house.bin_without_rt)
    house.beside_rt("fails").write_text("")
    house.fails("rt fails", f"the program {program} is not proved, so nothing is settled; 'rt check' in crates/"
                f"{program} says why\n", words)
    house.beside_rt("fails").unlink()
    lines = "settle: laws is proved, 2 of {0} crates\nsettle: {1} is proved, {0} of {0} crates\n"
    first = f"settle: the program {program} is proved and built first, which takes some minutes\n"
    built("the first use", 0, 1, first + lines.format(4, program))
    built("the second use", 0, 0, "")
    (house.source / "lib.rt").write_text("changed")
    built("a changed source", 1, 1, "".join(
        f"settle: rt looks whether the program {name} is up to date\n" + lines.format(count, name)
        for name, count in (("settle", 3), (program, 4))))
    (house.root / "target/bin" / program).unlink()
    built("a program that is gone", 0, 1, first + lines.format(4, program))
    left = {path.name for path in (house.root / "target").iterdir() if path.is_file() and "lock" not in path.name}
    check(left == {"settle.checked", f"{program}.checked"}, f"settle {kind.option}: what is left", str(left))
    copy = folder / "a copy"
    shutil.copytree(house.root, copy, symlinks=True)
    done = run(copy / "settle", *words, path=house.bin_without_rt, folder=house.root)
    check(done.stdout == listing and done.stderr.decode() == "".join(
        f"settle: rt, the Rattle toolchain, is not on the PATH, so nobody looked whether the program {name} is "
        "current; the one there is used\n" for name in ("settle", program)), f"settle {kind.option}: a copied tree",
        words_of(done))


def test_kinds(folder):
    """Months, lists and records in one another's places: told in tools/report's words, without Python or a program."""
    house = House(folder)
    (house.bin / "python3").unlink()
    month = "examples/month.sheet"
    for words, said in (
        (["examples/transfers.list"], f"examples/transfers.list: {NOT_A_MONTH}"),
        (["examples/transfers.csv", "examples/month.toml"], f"examples/transfers.csv: {NOT_A_MONTH}"),
        (["--table", "none.CSV"], f"none.CSV: {NOT_A_MONTH}"), (["--", "-x.List"], f"./-x.List: {NOT_A_MONTH}"),
        (["--transfers", "examples/transfers.list", "examples/refused-13.list", month],
         f"examples/refused-13.list: {NOT_A_MONTH}"),
        (["--transfers", "examples/month.toml", "examples/transfers.csv"], f"examples/month.toml: {NOT_A_LIST}"),
        ([month, "--transfers", month], f"{month}: {NOT_A_LIST}"),
        (["--transfers=-x.TOML"], f"./-x.TOML: {NOT_A_LIST}"),
        (["examples/plant.complex"], f"examples/plant.complex: {RECORD_NO_MONTH}"),
        (["--table", "none.Complex.CSV"], f"none.Complex.CSV: {RECORD_NO_MONTH}"),
        (["--complex", "examples/plant.complex", "--", "-x.complex"], f"./-x.complex: {RECORD_NO_MONTH}"),
        (["--transfers", "examples/plant.complex.csv", month], f"examples/plant.complex.csv: {RECORD_NO_LIST}"),
        (["--transfers", "a.COMPLEX", month], f"a.COMPLEX: {RECORD_NO_LIST}"),
        (["--complex", "examples/transfers.csv", month], f"examples/transfers.csv: is a list {NOT_A_RECORD}"),
        (["--complex=a.List", month], f"a.List: is a list {NOT_A_RECORD}"),
        (["--complex", month, "examples/plant.complex"], f"{month}: is a month {NOT_A_RECORD}"),
    ):
        done = house.settle(*words)
        check((done.returncode, done.stdout, done.stderr.decode()) == (2, b"", f"settle: {said}\n"),
              f"settle {words}", words_of(done))
    check(house.checks() == 0, "settle: nothing is built for a name in the wrong place")


# Of refused-13 and refused-16: the field that is wrong first, in bytes and as text.
FIRST_FIELDS = {
    "--transfers": ("byte 21: entry 2, taker, 32 (the sheet has consumers 0 to 31)",
                    "line 4: entry 2, taker, 32 (the sheet has consumers 0 to 31)"),
    "--complex": ("byte 0: length, 5769 (the month asks for 5961)",
                  "line 723: here the hours end, 720 of them (the month has 744)"),
}


def test_transfers(folder):
    check_change(LISTS, folder, check_order)


def test_complexes(folder):
    check_change(RECORDS, folder, check_both)


def check_change(kind, folder, check_several):
    """Lists or records on the command line: names, several, pipes, refusals, forms, what needs Python, wrong use."""
    house = House(folder / "built")
    done = house.settle(kind.option, kind.files()[1], MONTH)
    check(done.stdout == LISTINGS[kind.after], f"settle {kind.option}", words_of(done))
    check_names(kind, house, folder)
    check_several(house, folder)
    check_refused(kind, house)
    check_written(kind, house, folder)
    check_wrong_files(kind, house)
    check_other_output(kind, house)


def check_names(kind, house, folder):
    """Names of lists or records, from another folder, and pipes."""
    elsewhere, wanted, (text, packed) = folder / "else where", LISTINGS[kind.after], kind.files()
    elsewhere.mkdir()
    bytes_name, text_name, upper_name = f"-a b{kind.packed}", f"-a b{kind.text}", f"-a b{kind.text.upper()}"
    for name, path in ((bytes_name, packed), (text_name, text), (upper_name, text)):
        shutil.copy(path, elsewhere / name)
    for words in ([kind.option, bytes_name, MONTH], [f"{kind.option}={bytes_name}", MONTH],
                  [MONTH, kind.option, text_name], [f"{kind.option}={upper_name}", "--", MONTH],
                  [kind.option, bytes_name, "-"], [kind.option, text_name],
                  [kind.option, packed, EXAMPLES / "month.toml"]):
        done = house.settle(*words, folder=elsewhere, stdin=MONTH.read_bytes())
        check(done.returncode == 0 and done.stdout == wanted and not done.stderr, f"settle {words}", words_of(done))
    done = house.settle(kind.option, "/dev/stdin", MONTH, stdin=packed.read_bytes())
    check(done.stdout == wanted and not done.stderr, f"settle {kind.option}: from a pipe", words_of(done))


def check_order(house, folder):
    """Several lists are applied in the order given: there and back is the month again, back before there is refused."""
    (folder / "back.csv").write_text(BACK)
    sheet("pack", "back.csv", "back.list", folder=folder)
    for suffix in ("list", "csv"):
        there, back = EXAMPLES / f"transfers.{suffix}", folder / f"back.{suffix}"
        for lists, wanted in (((there, back), LISTINGS["month"]), ((back, there), b"N15\n")):
            done = house.settle(*LISTS.words(*lists), MONTH)
            check(done.returncode == 0 and done.stdout == wanted and not done.stderr,
                  f"settle --transfers: {lists[0].name}, then {lists[1].name}", words_of(done))


def check_both(house, folder):
    """Lists and records are applied in the order given, and the first that is refused is told."""
    (folder / "back.csv").write_text(BACK)
    list_text, record = LISTS.files()[0], RECORDS.files()[1]
    late, long = EXAMPLES / "refused-14.list", EXAMPLES / "refused-16.complex"
    for words, wanted in (
        ([*LISTS.words(list_text), *RECORDS.words(record), *LISTS.words(folder / "back.csv")],
         LISTINGS["month-averaged"]),
        ([*LISTS.words(late), *RECORDS.words(long)], b"N14\n"), ([*RECORDS.words(long), *LISTS.words(late)], b"N16\n"),
        ([*RECORDS.words(record, record), *LISTS.words(late)], b"N14\n"),
    ):
        done = house.settle(*words, MONTH)
        check(done.returncode == 0 and done.stdout == wanted, f"settle {words}", words_of(done))


def check_refused(kind, house):
    """The listings of refusals, with statuses; which field it is; a refused sheet comes first."""
    for number in kind.refused:
        (text, packed), listing = kind.files(f"refused-{number}"), b"N%d\n" % number
        for words, status in (([], 0), (["--strict"], 1), ([kind.option, text], 0)):
            done = house.settle(*words, kind.option, packed, MONTH)
            check((done.returncode, done.stdout) == (status, listing) and not done.stderr,
                  f"settle {words} {packed.name}", words_of(done))
    number = kind.refused[0]
    for suffix, words in zip((kind.packed, kind.text), FIRST_FIELDS[kind.option]):
        name = f"refused-{number}{suffix}"
        done = house.settle("--explain", kind.option, name, "month.sheet", folder=EXAMPLES)
        check(done.stdout == b"N%d\n" % number and done.stderr.decode().splitlines()[1] ==
              f"month.sheet: {name}, {words}", f"settle --explain {kind.option}: {name}", words_of(done))
    for name, listing in LISTINGS.items():
        if name.startswith("refused-"):
            done = house.settle(kind.option, kind.files(f"refused-{kind.refused[-1]}")[1], f"examples/{name}.sheet")
            check(done.stdout == listing and not done.stderr, f"settle {kind.option}: {name}", words_of(done))


def check_written(kind, house, folder):
    """The changed sheet and the result; temporary files; a form."""
    wanted, (text, packed) = LISTINGS[kind.after], kind.files()
    done = house.settle("--sheet", "-new", "--result=new.bin", kind.option, packed, MONTH)
    after = (EXAMPLES / f"{kind.after}.sheet").read_bytes()
    check(done.stdout == wanted and (house.root / "-new").read_bytes() == after
          and (house.root / "new.bin").is_file(), f"settle --sheet --result {kind.option}", words_of(done))
    room = folder / "room"
    room.mkdir()
    for path in (text, packed):
        words = ["./settle", kind.option, path, "-"]
        done = run("env", f"TMPDIR={room}", *words, folder=house.root, path=house.bin, stdin=MONTH.read_bytes())
        check(done.stdout == wanted and not list(room.iterdir()), f"settle {words}: nothing is left", words_of(done))
    done = run("env", "TMPDIR=/none", "./settle", kind.option, packed, MONTH, folder=house.root, path=house.bin)
    check(done.returncode == 2 and done.stderr.endswith(b"settle: cannot make a temporary folder\n"),
          f"settle {kind.option}: no room", words_of(done))
    done = house.settle("--table", kind.option, text, "examples/month.toml")
    check(done.stdout.decode().startswith(f"examples/month.toml: December 2021, after {text}\n"),
          f"settle --table {kind.option}", words_of(done))


def check_wrong_files(kind, house):
    """Wrong use of --transfers or --complex, and of --sheet; bytes need no Python."""
    packed, option, long = kind.files()[1], kind.option, f"long{kind.packed}"
    (house.root / long).write_bytes(bytes(65_537))
    (house.root / "longest").write_bytes(bytes(65_536))
    done = house.settle(option, "longest", MONTH)
    check(done.stdout == b"N%d\n" % kind.refused[0], f"settle {option}: 65536 bytes are handed over", words_of(done))
    for words, said in (
        ([option], f"{option} wants the name of a file"), ([f"{option}="], f"{option} wants the name"),
        ([option, "-", MONTH], f"{option} wants the name of a file"),
        (["--sheet"], "--sheet wants the name of a file"), (["--sheet", "-"], "--sheet wants the name of a file"),
        (["--sheet", "new", MONTH], "--sheet goes with --transfers or --complex"),
        (["--sheet", "-new", option, packed, MONTH], "-new: exists; --force writes over it"),
        ([option, packed, MONTH, MONTH], f"{option} goes with one month"),
        ([option, "none", MONTH], "cannot read none"), ([option, "/", MONTH], "cannot read /"),
        ([option, long, MONTH], f"{long}: has 65537 bytes, and the program takes at most 65536"),
        (["--csv", option, long, MONTH], f"{long}: has 65537 bytes, and the program takes at most"),
    ):
        done = house.settle(*words)
        check(done.returncode == 2 and not done.stdout and done.stderr.decode().startswith(f"settle: {said}"),
              f"wrong use: {words}", words_of(done))
    (house.bin / "python3").unlink()
    done = house.settle("--strict", option, packed, option, packed, MONTH)
    check(done.returncode == 0 and done.stdout and not done.stderr, f"settle {option}: no Python", words_of(done))
    for words in ([option, kind.files()[0]], ["--sheet", "x", option, packed], ["--explain", option, packed]):
        house.fails(f"no Python: {words[0]}", "need python3, which is not on the PATH", [*words, MONTH])


def check_other_output(kind, house):
    """A program that writes neither a sheet nor a refusal."""
    packed, program = kind.files()[1], house.root / "target/bin" / kind.program.name
    for said in ("", "N", "N1345", "\\0", "x" * 54_633, "x" * 54_635):
        program.write_text(f"#!/bin/sh\ncat >/dev/null\nprintf '{said}'\n")
        done = house.settle(kind.option, packed, MONTH)
        check(done.returncode == 2 and not done.stdout and b"what it wrote is neither a sheet nor a refusal"
              in done.stderr, f"settle {kind.option}: a program that writes {said[:5]}", words_of(done))
    program.write_text("#!/bin/sh\nexit 1\n")
    done = house.settle(kind.option, packed, MONTH)
    check(done.returncode == 2 and b"settle: the program failed on " in done.stderr,
          f"settle {kind.option}: a failure", words_of(done))


def test_text_2015(folder):
    """--text-2015: its own program is built, and no other; months, forms, changes, refusals, wrong use, no Python."""
    house, words = House(folder), ["--text-2015", "examples/old-act.sheet"]
    wanted = (EXAMPLES / "old-act-2015.listing").read_bytes()
    house.fails("--text-2015: no rt", "settle: the program settle_2015 is to be proved and built first, and rt", words,
                commands=house.bin_without_rt)
    done = house.settle(*words)
    check(done.stdout == wanted and done.stderr.startswith(b"settle: the program settle_2015 is proved and built first")
          and done.stderr.endswith(b"settle: settle_2015 is proved, 3 of 3 crates\n"),
          "settle --text-2015: the first use", words_of(done))
    for given in (words, [*words, "--text-2015"], ["--text-2015", "examples/old-act.toml"], ["--text-2015", "-"],
                  ["--text-2015"]):
        done = house.settle(*given, stdin=(EXAMPLES / "old-act.sheet").read_bytes())
        check(done.returncode == 0 and done.stdout == wanted and not done.stderr, f"settle {given}", words_of(done))
    check((house.checks("settle_2015"), house.checks()) == (1, 0), "settle --text-2015: only its program is built")
    check_months_2015(house)
    check_changes_2015(house)
    check_wrong_use_2015(house)
    check_other_output_2015(house)


def check_months_2015(house):
    """Several months; one without consumers, of which nothing is printed; refusals; forms; a result."""
    names = sorted(path.name for path in EXAMPLES.glob("*.sheet"))
    wanted = b"".join(f"{name}:\n".encode() + by_rival(EXAMPLES / name) for name in names)
    check(b"producer.sheet:\nrefused-1.sheet:\n" in wanted, "a month without consumers stands among the examples")
    done = house.settle("--text-2015", *names, folder=EXAMPLES)
    check(done.stdout == wanted and not done.stderr, "settle --text-2015: all examples", words_of(done))
    done, in_force = (house.settle(*option, "--explain", "--strict", *names, folder=EXAMPLES)
                      for option in (["--text-2015"], []))
    check(done.returncode == 1 and done.stdout == wanted and done.stderr.decode().splitlines() ==
          [line for line in in_force.stderr.decode().splitlines() if line.startswith("refused-")],
          "settle --text-2015 --explain --strict: all examples", words_of(done))
    for name in ("producer.sheet", "producer.toml"):
        done = house.settle("--strict", "--text-2015", f"examples/{name}")
        check((done.returncode, done.stdout, done.stderr) == (0, b"", b""), f"settle --text-2015 {name}",
              words_of(done))
    for form, start in (("--table", b"examples/old-act.toml: November 2019, under the text of 2015\n\nconsumer  "),
                        ("--csv", b"month,text,record,consumer,"),
                        ("--json", b'[\n {\n  "month": "examples/old-act.toml",\n  "text": "2015",\n')):
        done = house.settle("--text-2015", form, "examples/old-act.toml")
        check(done.returncode == 0 and done.stdout.startswith(start) and not done.stderr, f"settle --text-2015 {form}",
              words_of(done))
    for more in ([], ["--force"]):
        done = house.settle("--text-2015", "--result", "-r.bin", *more, "examples/old-act.sheet")
        check(done.returncode == 0 and (house.root / "-r.bin").stat().st_size == 4 + 17 * 6,
              f"settle --text-2015 --result {more}", words_of(done))


def check_changes_2015(house):
    """Lists and records before the text of 2015: bytes and texts; a refused one; the changed sheet."""
    (house.root / "target/bin/settle").unlink()
    before = house.checks()
    for kind in CHANGES:
        after = EXAMPLES / f"{kind.after}.sheet"
        for given in kind.files():
            done = house.settle("--text-2015", kind.option, given, MONTH)
            check(done.returncode == 0 and done.stdout == by_rival(after), f"settle --text-2015 {kind.option}: "
                  f"{given.name}", words_of(done))
        number = kind.refused[0]
        done = house.settle("--strict", kind.option, kind.files(f"refused-{number}")[1], "--text-2015", MONTH)
        check((done.returncode, done.stdout) == (1, b"N%d\n" % number), f"settle --text-2015 {kind.option}: refused",
              words_of(done))
        done = house.settle("--text-2015", "--sheet", "new", "--force", kind.option, kind.files()[1], MONTH)
        check((house.root / "new").read_bytes() == after.read_bytes(), f"settle --text-2015 --sheet {kind.option}",
              words_of(done))
    check(house.checks() == before, "settle --text-2015 with changes: settle is not built")


def check_wrong_use_2015(house):
    for words, said in ((["--text-2015=x"], "there is no option --text-2015=x"),
                        (["--text"], "there is no option --text; ./settle --help has the use"),
                        (["--text-2015", "--table", "--csv"], "--table and --csv are two forms"),
                        (["--text-2015", "--force"], "--force goes with --result or --sheet"),
                        (["--text-2015", "--sheet", "x", MONTH], "--sheet goes with --transfers or --complex"),
                        (["--text-2015", "--result", "x", MONTH, MONTH], "--result takes the result of one month"),
                        (["--text-2015", "--transfers", LISTS.files()[1], MONTH, MONTH], "--transfers goes with one"),
                        (["--text-2015", "--result", "-r.bin", MONTH], "-r.bin: exists; --force writes over it"),
                        (["--text-2015", LISTS.files()[1]], f"{LISTS.files()[1]}: {NOT_A_MONTH}"),
                        (["--text-2015", "none.sheet"], "cannot read none.sheet")):
        house.fails(f"wrong use: {words}", f"settle: {said}", words)
    (house.bin / "python3").unlink()
    for name in ("old-act", "producer", "refused-9"):
        done = house.settle("--text-2015", f"examples/{name}.sheet")
        check(done.stdout == by_rival(EXAMPLES / f"{name}.sheet") and not done.stderr,
              f"settle --text-2015: {name} needs no Python", words_of(done))
    house.fails("--text-2015: no Python", "need python3, which is not on the PATH", ["--text-2015", "--csv", MONTH])


def check_other_output_2015(house):
    """What is no listing of this sheet; nothing at all is one where the sheet has no consumer."""
    program = house.root / "target/bin/settle_2015"
    lines = (EXAMPLES / "old-act-2015.listing").read_text().splitlines(keepends=True)
    for name, said in (
        *(("old-act", said) for said in (
            "", "N", "N123", "".join(lines[:-1]), "".join(lines)[:-3], "C5 1.5 0.0 0.0", "C5 1.5 0.00",
            "".join(lines) + "T 0.00 0.00", "".join(lines) + "C6 1.0 1.0 1.00", LISTINGS["old-act"].decode())),
        ("producer", "N"), ("producer", "C0 1.0 1.0 1.00"), ("producer", "T 0.00 0.00"), ("refused-1", "")
    ):
        program.write_text(f"#!/bin/sh\ncat >/dev/null\nprintf '{said}'\n")
        done = house.settle("--text-2015", f"examples/{name}.sheet")
        check(done.returncode == 2 and not done.stdout and done.stderr.decode() ==
              f"settle: the program failed on examples/{name}.sheet: what it printed is no listing\n",
              f"settle --text-2015: {name}: a program that prints {said[-20:]!r}", words_of(done))
    program.write_text("#!/bin/sh\nexit 1\n")
    done = house.settle("--text-2015", "examples/producer.sheet")
    check(done.returncode == 2 and done.stderr == b"settle: the program failed on examples/producer.sheet\n",
          "settle --text-2015: a failure", words_of(done))


def test_days(folder):
    """The bytes of a sheet of version 2 after a list or record, under both texts, without Python."""
    house = House(folder)
    (house.bin / "python3").unlink()
    for kind in CHANGES:
        packed, after = after_change(kind, folder)
        for words, listing in (([], run(programs.RIVAL, "list", after).stdout), (["--text-2015"], by_rival(after))):
            done = house.settle(*words, kind.option, packed, INSIDE)
            check(done.returncode == 0 and done.stdout == listing, f"settle {words} {kind.option}: a sheet with days",
                  words_of(done))


def test_version(folder):
    """The revision, the kit, the sources and the archive, as docs/EMBEDDING.md has them."""
    house = House(folder)
    (house.root / "tools").unlink()
    (house.root / "tools").mkdir()
    shutil.copy(ROOT / "tools" / "version", house.root / "tools")
    out = house.source.parent / "out"
    out.mkdir()
    (out / "made").write_text("made by rt after the archive")
    for path in (out.parent, out, out / "made"):
        os.utime(path, (time.time() + 60, time.time() + 60))
    names = ["crates.txt", "crates/rules/src/lib.rt", "crates/rules/src/more.rt"]
    sums = "".join(f"{sha256((house.root / name).read_bytes()).hexdigest()}  {name}\n" for name in names)
    sources = sha256(sums.encode()).hexdigest()

    def lines(commands=house.bin):
        done = run(house.root / "settle", "--version", folder=folder, path=commands)
        check(done.returncode == 0 and not done.stderr, "settle --version", words_of(done))
        return dict(line.split(maxsplit=1) for line in done.stdout.decode().splitlines())
    found = lines()
    check(found == {"revision": "unknown: this folder is no checkout that git can read", "kit": "kit 1",
                    "sources": sources,
                    "archive": "none; 'tools/archive' makes target/staticlib/libcapacity.a"},
          "settle --version: no checkout", str(found))
    (house.root / ".gitignore").write_text("target/\n.gitignore\ncrates/*/out/\n")
    git = ["git", "-C", house.root, "-c", "user.name=x", "-c", "user.email=x"]
    for words in (["init", "-q"], ["add", "."], ["commit", "-q", "-m", "x"]):
        run(*git, *words)
    archive = house.root / "target/staticlib/libcapacity.a"
    archive.parent.mkdir(parents=True)
    archive.write_bytes(b"archive")
    revision, made = run(*git, "rev-parse", "HEAD").stdout.decode().strip(), sha256(b"archive").hexdigest()
    found = lines(house.bin_without_rt)
    check(found == {"revision": revision, "kit": "unknown: rt, the Rattle toolchain, is not on the PATH",
                    "sources": sources, "archive": made}, "settle --version: a checkout", str(found))
    os.utime(archive, (time.time() - 60, time.time() - 60))
    (house.source / "new.rt").write_text("new")
    found = lines()
    check(found["revision"] == f"{revision}, with files that are changed or new" and found["sources"] == sources
          and found["archive"].startswith(f"{made}, made before the sources"), "settle --version: changed files",
          str(found))
    (house.source / "lib.rt").unlink()
    check(lines()["sources"] == "unknown: one of them cannot be read", "settle --version: a source is missing")
    house.beside_rt("version").unlink()
    check(lines()["kit"] == "unknown: 'rt version' ended with status 1", "settle --version: an rt that fails")
    check(house.checks() == 0 and not (house.root / "target/bin").exists(), "settle --version builds nothing")


def test_sheets(folder):
    """Names of sheets, from another folder, several at once; --explain; wrong use."""
    house, elsewhere = House(folder), folder / "else where"
    house.settle(stdin=EXAM)
    elsewhere.mkdir()
    for name in ("a sheet", "-x"):
        (elsewhere / name).write_bytes(EXAM)
    done = house.settle("a sheet", folder=elsewhere)
    check(done.stdout == LISTINGS["exam-126"] and not done.stderr, "settle: from another folder", words_of(done))
    done = house.settle("a sheet", "../house/examples/refused-9.sheet", "-", "--", "-x", folder=elsewhere, stdin=EXAM)
    exam = LISTINGS["exam-126"].decode()
    wanted = f"a sheet:\n{exam}../house/examples/refused-9.sheet:\nN9\nstandard input:\n{exam}./-x:\n{exam}"
    check(done.returncode == 0 and done.stdout.decode() == wanted, "settle: several sheets", words_of(done))
    check(not done.stderr, "settle: several sheets, no message", words_of(done))
    (elsewhere / "link").symlink_to(house.root / "settle")
    done = run("./link", "a sheet", folder=elsewhere, path=house.bin)
    check(done.stdout == LISTINGS["exam-126"], "settle: through a link", words_of(done))

    names = sorted(path.name for path in EXAMPLES.glob("*.sheet"))
    wanted = b"".join(f"{name}:\n".encode() + LISTINGS[name[:-len(".sheet")]] for name in names)
    done = house.settle(*names, folder=EXAMPLES)
    check(done.stdout == wanted and not done.stderr, "settle: all examples", words_of(done))
    done = house.settle("--explain", *names, folder=EXAMPLES)
    refused = sum(listing.startswith(b"N") for listing in LISTINGS.values())
    check(done.stdout == wanted and done.stderr.count(b"\n") == 2 * refused, "settle --explain: all", words_of(done))
    done = house.settle("--explain", stdin=(EXAMPLES / "refused-9.sheet").read_bytes())
    lines = sheet("explain", EXAMPLES / "refused-9.sheet").stdout.decode().splitlines()
    wanted = "".join(f"standard input: {line}\n" for line in lines)
    check(done.stdout == b"N9\n" and done.stderr.decode() == wanted, "settle --explain: one", words_of(done))

    house.fails("a folder", "settle: cannot read /", ["/"])
    house.fails("one of two sheets", "settle: cannot read none", [EXAMPLES / "month.sheet", "none"])
    house.fails("an unknown option", "there is no option --explained", ["--explained"])
    done = house.settle("--help")
    check(done.returncode == 0 and done.stdout.startswith(b"usage: ./settle"), "settle --help", words_of(done))
