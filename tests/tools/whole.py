"""Files are written whole or not at all: what stays when a file cannot be written, and what is left beside it."""
import os
import resource
import stat
import subprocess

import files
import monthtext
import records
from checks import EXAMPLES, PROGRAM, REPORT, SHEET, check, files_in, run, sheet, words_of

SHEET_BYTES = (EXAMPLES / "month.sheet").read_bytes()


def longest_last():
    """The month with its producers in the opposite order, so that unpack's longest files are not its first."""
    month = records.Sheet.from_bytes(SHEET_BYTES)
    month.producers.reverse()
    return month


def run_with_room(words, room, folder):
    """Runs a command that can make no file longer than so many bytes, as on a disk with so much room."""
    def limit():
        resource.setrlimit(resource.RLIMIT_FSIZE, (room, room))
    words = [str(word) for word in words]
    return subprocess.run(words, cwd=folder, preexec_fn=limit, capture_output=True, timeout=60)


def without_room(name, words, room, folder, status=1):
    """The command says which file it cannot write, and every file is as it was; none is new, under any name."""
    before = files_in(folder)
    done = run_with_room(words, room, folder)
    said = done.stderr.decode()
    check(done.returncode == status and "cannot be written: File too large" in said and said.count("\n") == 1,
          f"{name}: status and message", words_of(done))
    check(files_in(folder) == before, f"{name}: the files are as they were", "\n".join(map(str, files_in(folder))))


def test_without_room(folder):
    (folder / "old.sheet").write_bytes(b"the sheet of last month")
    pack = [SHEET, "pack", EXAMPLES / "month.toml"]
    without_room("pack on a full disk", [*pack, "new.sheet"], 20_000, folder)
    without_room("pack --force on a full disk", [*pack, "old.sheet", "--force"], 20_000, folder)
    done = run_with_room([*pack, "old.sheet", "--force"], 60_000, folder)
    check(done.returncode == 0 and files_in(folder) == {folder / "old.sheet": SHEET_BYTES}, "pack, with room",
          words_of(done))

    (folder / "old.sheet").write_bytes(longest_last().to_bytes())
    texts = monthtext.text_files(longest_last(), "new.toml")
    rooms = [len(content) for content in texts.values()]
    check(rooms[0] < max(rooms) - 1, "unpack: the longest of its files is not the first")
    unpack = [SHEET, "unpack", "old.sheet", "new.toml"]
    for words, room in (("the first file", rooms[0] - 1), ("a later file", max(rooms) - 1)):
        without_room(f"unpack, no room for {words}", unpack, room, folder)
    for name in texts:
        (folder / name).write_text(f"old {name}")
    for words, room in (("the first file", rooms[0] - 1), ("a later file", max(rooms) - 1)):
        without_room(f"unpack --force, no room for {words}", [*unpack, "--force"], room, folder)
    done = run_with_room([*unpack, "--force"], max(rooms), folder)
    check({path.name: content for path, content in files_in(folder).items() if path.suffix != ".sheet"} == texts,
          "unpack --force, with room", words_of(done))


def test_result_without_room(folder):
    (folder / "old.bin").write_bytes(b"the result of last month")
    report = [REPORT, "--program", PROGRAM, "--result", "old.bin", "--force", EXAMPLES / "month.sheet"]
    without_room("--result on a full disk", report, 1_000, folder, status=2)
    report[4] = "new.bin"
    without_room("--result on a full disk, a new file", report, 1_000, folder, status=2)


def test_sheet_without_room(folder):
    """--sheet and --result are written both or neither."""
    (folder / "old.bin").write_bytes(b"the result of last month")
    (folder / "program").write_text(f"#!/bin/sh\ncat >/dev/null\nexec cat '{EXAMPLES}/month-transferred.sheet'\n")
    (folder / "program").chmod(0o755)
    report = [REPORT, "--program", PROGRAM, "--transfer-program", folder / "program", "--result", "old.bin", "--force",
              "--sheet", "new.sheet", "--transfers", EXAMPLES / "transfers.list", EXAMPLES / "month.sheet"]
    without_room("--sheet on a full disk", report, 20_000, folder, status=2)
    without_room("--sheet and --result on a full disk", report, 1_000, folder, status=2)
    done = run_with_room(report, 60_000, folder)
    check(done.returncode == 0 and (folder / "new.sheet").stat().st_size == len(SHEET_BYTES)
          and (folder / "old.bin").stat().st_size == 1333, "--sheet, with room", words_of(done))


def test_last_step(folder):
    """If one of several files cannot be put into its place, those that were are taken back."""
    place, names = files.NewFile.place, ["a", "b", "c"]
    contents = {str(folder / name): name.encode() for name in names}

    def place_two(self):
        if self.path.endswith("c"):
            raise OSError(5, "Input/output error")
        place(self)
    files.NewFile.place = place_two
    try:
        for old in ({}, {str(folder / "b"): b"old b"}):
            for path, content in old.items():
                with open(path, "wb") as file:
                    file.write(content)
            try:
                files.write_files(contents, force=bool(old))
                said = "nothing"
            except files.Trouble as trouble:
                said = str(trouble)
            check(said == f"{folder}/c: cannot be written: Input/output error", "the last step fails", said)
            found = {str(path): content for path, content in files_in(folder).items()}
            check(found == old, "the last step fails: the files are as they were", str(found))
    finally:
        files.NewFile.place = place


def test_kinds_of_files(folder):
    """Links, modes, devices and pipes stay what they are."""
    (folder / "month.toml").write_bytes((EXAMPLES / "exam-126.toml").read_bytes())
    wanted = (EXAMPLES / "exam-126.sheet").read_bytes()
    (folder / "target").write_bytes(b"old")
    (folder / "target").chmod(0o640)
    (folder / "link").symlink_to("target")
    done = sheet("pack", "month.toml", "link", "--force", folder=folder)
    check((folder / "link").is_symlink() and (folder / "target").read_bytes() == wanted, "pack: a link", words_of(done))
    check(stat.S_IMODE((folder / "target").stat().st_mode) == 0o640, "pack --force: the mode is kept")
    (folder / "nowhere").symlink_to("later")
    done = sheet("pack", "month.toml", "nowhere", "--force", folder=folder)
    check((folder / "later").read_bytes() == wanted, "pack: a link to what is not there yet", words_of(done))
    kept = os.umask(0o027)
    sheet("pack", "month.toml", "new", folder=folder)
    os.umask(kept)
    check(stat.S_IMODE((folder / "new").stat().st_mode) == 0o640, "pack: the mode of a new file is the user's")
    os.mkfifo(folder / "pipe")
    with subprocess.Popen(["cat", folder / "pipe"], stdout=subprocess.PIPE) as reader:
        done = run(SHEET, "pack", "month.toml", "pipe", "--force", folder=folder)
        read = reader.communicate(timeout=10)[0]
    check(read == wanted and stat.S_ISFIFO((folder / "pipe").stat().st_mode), "pack: a pipe", words_of(done))
    device = os.stat("/dev/null")
    done = sheet("pack", "month.toml", "/dev/null", "--force", folder=folder)
    check(done.returncode == 0 and os.stat("/dev/null").st_ino == device.st_ino, "pack: a device", words_of(done))
    done = sheet("pack", "month.toml", "/dev/full", "--force", folder=folder)
    said = b"tools/sheet: /dev/full: cannot be written: No space left on device\n"
    check(done.returncode == 1 and done.stderr == said, "pack: a device that takes nothing", words_of(done))
    for line, where in ((f"'{SHEET}' pack month.toml /dev/stdout --force | cat >out", "a pipe"),
                        (f"'{SHEET}' pack month.toml /dev/stdout --force >out", "a file")):
        done = subprocess.run(line, shell=True, cwd=folder, capture_output=True)
        check((folder / "out").read_bytes() == wanted and not done.stderr, f"pack: /dev/stdout, {where}",
              words_of(done))
    long = "x" * 250
    done = sheet("pack", "month.toml", long, folder=folder)
    check((folder / long).read_bytes() == wanted, "pack: a long name", words_of(done))
