"""The examples: their texts, sheets and listings; show, explain and result on them; what the READMEs say of them."""
import shutil
import struct
import tempfile
from pathlib import Path

import forms
import monthtext
import programs
import records
from checks import CHANGES, EXAMPLES, PROGRAM, ROOT, by_rival, check, files_in, report, run, sheet, words_of


def test_examples(folder):
    """Each text packs to its sheet, each sheet has its listing by the rival; show, explain and result on each."""
    names = sorted(path.stem for path in EXAMPLES.glob("*.sheet"))
    check(len(names) >= 22, f"examples: only {len(names)} sheets")
    for name in names:
        source, listing = EXAMPLES / f"{name}.sheet", (EXAMPLES / f"{name}.listing").read_bytes()
        if (EXAMPLES / f"{name}.toml").is_file():
            done = sheet("pack", EXAMPLES / f"{name}.toml", folder / f"{name}.sheet")
            check(done.returncode == 0 and (folder / f"{name}.sheet").read_bytes() == source.read_bytes(),
                  f"examples: {name}.toml packs to {name}.sheet", words_of(done))
        printed = by_rival("list", source)
        check(printed == listing, f"examples: {name}.listing by the rival", printed.decode()[:1000])
        done = sheet("show", source)
        check(done.returncode == 0 and done.stdout.startswith(b"length ") and not done.stderr,
              f"show: {name}", words_of(done))
        done = sheet("explain", source, folder=folder)
        answer = f"refusal {listing[1:].decode().strip()}:" if listing.startswith(b"N") else "accepted\n"
        check(done.returncode == 0 and done.stdout.startswith(answer.encode()), f"explain: {name}", words_of(done))
        if not listing.startswith(b"N"):
            test_result(name, source, listing, folder)


def test_changes(folder):
    """Each text of a list or record packs to its bytes and comes back from them; explain on each has the rival's
    number."""
    month = EXAMPLES / "month.sheet"
    for kind in CHANGES:
        names = {path.name.removesuffix(kind.packed) for path in EXAMPLES.glob(f"*{kind.packed}")}
        check(names == {kind.name, *(f"refused-{number}" for number in kind.refused)},
              f"examples: for {kind.option} there are {names}")
        for name in names:
            text, packed = kind.files(name)
            done = sheet("pack", text, "-")
            check(done.stdout == packed.read_bytes(), f"examples: {text.name} packs to {packed.name}", words_of(done))
            done = sheet("unpack", packed, folder / text.name)
            check((folder / text.name).read_text() == text.read_text(), f"examples: {packed.name} unpacks to "
                  f"{text.name}", words_of(done))
            check_answer(kind, name, month)


def check_answer(kind, name, month):
    """What the rival and explain say of a list or record."""
    refused = name != kind.name
    number = name.removeprefix("refused-")
    wanted = (f"refusal {number}\n" if refused else
              f"bytes {month.stat().st_size} {(EXAMPLES / f'{kind.after}.sheet').read_bytes().hex()}\n")
    text, packed = kind.files(name)
    printed = run(programs.RIVAL, kind.command, month, packed).stdout.decode()
    check(printed == wanted, f"examples: {packed.name} by the rival", printed[:200])
    check(not refused or (EXAMPLES / f"{name}.listing").read_text() == f"N{number}\n", f"examples: {name}.listing")
    for each in (text, packed):
        done = sheet("explain", kind.option, each, month)
        answer = f"refusal {number}:" if refused else "accepted\n"
        check(done.returncode == 0 and done.stdout.decode().startswith(answer), f"explain: {each.name}", words_of(done))


def test_proved(folder):
    """Each sheet has its listing by the proved program; the table of tools/README.md comes from it too."""
    done = report("--form", "table", "examples/small.toml", folder=ROOT)
    readme = (ROOT / "tools" / "README.md").read_text()
    check(f"```\n{done.stdout.decode()}```\n" in readme, "tools/README.md has the table", words_of(done))
    for path in EXAMPLES.glob("*.sheet"):
        done = run(PROGRAM, stdin=path.read_bytes())
        listing = path.with_suffix(".listing").read_bytes()
        check(done.stdout == listing, f"examples: {path.stem}.listing by the proved program", words_of(done))


def test_result(name, source, listing, folder):
    """The rival's result, printed by `result`, is the listing."""
    kind, count, digits = by_rival("settle", source).split()
    content = bytes.fromhex(digits.decode())
    check((kind, len(content)) == (b"bytes", int(count)), f"result: {name}: the rival's result")
    (folder / f"{name}.bin").write_bytes(content)
    done = sheet("result", f"{name}.bin", "--sheet", source, folder=folder)
    check(done.returncode == 0 and done.stdout == listing, f"result: {name}, with its sheet", words_of(done))
    done = sheet("result", "-", stdin=content + b"more of the buffer")
    check(done.returncode == 0 and done.stdout == listing, f"result: {name}, without its sheet", words_of(done))


def test_show_and_explain():
    for name, lines in {
        "month.sheet": ["holidays            day 1, day 16, day 17", " 26         3             0     5.0  568000.00",
                        "       0  305853.6  307267.2  16437.0            120            28.09  3.09     12.4  1.3",
                        "row  producer      consumer  volume      price"],
        "inside-month.sheet": ["version             2 (rows state their days, hours as triples)",
                               "row  producer      consumer  volume      price  first day  last day",
                               "  0         0  single buyer    80.0  600000.00         10        30",
                               "  4         0             1    10.0  580000.00          1        30"],
        "refused-1.sheet": ["The sheet ends after 13 bytes, inside the header."],
        "refused-2.sheet": ["The sheet ends after 28 bytes; consumer 0 would end after 29."],
        "refused-6.sheet": ["The last record ends after 29 bytes; the sheet has 30."],
    }.items():
        printed = sheet("show", EXAMPLES / name).stdout.decode().split("\n")
        check(all(line in printed for line in lines), f"show: {name}", "\n".join(printed))
    for name, line in {
        "refused-1.sheet": "byte 13: count of consumers, which is cut off: the sheet ends after 13 bytes",
        "refused-9.sheet": "byte 5232: producer 0, hour 431 (day 18, 23:00), possible power, 10000.1 MW "
                           "(at most 10000.0)",
        "refused-3.sheet": "byte 4: version, 9",
        "refused-10.sheet": "byte 8707: row 1, consumer, 2 (the sheet has 2, numbered from 0; 255 is the single buyer)",
        "refused-18.sheet": "byte 8719: row 1, last day, 31 (from the first day, 10, to 30)",
    }.items():
        printed = sheet("explain", "-", stdin=(EXAMPLES / name).read_bytes()).stdout.decode().split("\n")
        check(printed[1:] == [line, ""], f"explain: {name}", "\n".join(printed))
    long = struct.pack(">I", 70_000) + (EXAMPLES / "month.sheet").read_bytes()[4:]
    done = sheet("explain", "-", stdin=long + bytes(70_000 - len(long)))
    check(done.stdout.startswith(b"refusal 2:") and b"65536" in done.stdout, "explain: a long file", words_of(done))
    done = sheet("explain", "--help")
    check(b"not the proved program" in b" ".join(done.stdout.split()), "explain: its help", words_of(done))


def test_readmes():
    """The example of tools/README.md is the one that is tested here, and every key is named there."""
    readme = (ROOT / "tools" / "README.md").read_text()
    for kind, name in (("toml", "small.toml"), ("", "small.listing"), ("csv", "transfers.csv")):
        check(f"```{kind}\n{(EXAMPLES / name).read_text()}```\n" in readme, f"tools/README.md has {name}")
    plant = (EXAMPLES / "plant.complex.csv").read_text().splitlines(keepends=True)
    check(f"```csv\n{''.join(plant[:5])}```\n" in readme, "tools/README.md has the beginning of plant.complex.csv")
    keys = [field.key for field in (*records.PRODUCER_FIELDS, *records.ROW_FIELDS, *records.ROW_DAY_FIELDS,
                                    *records.CONSUMER_FIELDS, *records.ENTRY_FIELDS, *records.COMPLEX_FIELDS[1:],
                                    *records.COMPLEX_HOUR_FIELDS)]
    for key in (*keys, *monthtext.TOP_KEYS[:6], "name", "hours", monthtext.csv_head(records.HOUR_FIELDS),
                *(key for columns in forms.COLUMNS.values() for key in columns)):
        check(f"`{key}`" in readme, f"tools/README.md names {key}")
    commands = sheet("--help").stdout.decode()
    for command in ("new", "check", "pack", "unpack", "rearrange", "show", "calendar", "explain", "result"):
        check(f"\n    tools/sheet {command} " in readme and f"\n    {command}" in commands,
              f"{command} stands in tools/README.md and tools/sheet --help")
    usage = run(ROOT / "settle", "--help").stdout.decode()
    for option in ("--text-2015", "--table", "--csv", "--json", "--explain", "--transfers", "--complex", "--sheet",
                   "--result", "--force", "--strict", "--version"):
        check(option in usage and f"`{option}" in readme, f"{option} stands in tools/README.md and ./settle --help")
    for words in (readme, usage, commands):
        words = " ".join(words.split())
        check("docs/RULES.md" in words and '"When a sheet is turned down", of a list under Requests, 1, of a record '
              "under Requests, 3" in words, "the rules' document is named, with its tables of numbers")
    check(max(map(len, readme.split("\n"))) <= 118, "tools/README.md is wrapped")
    readme = (EXAMPLES / "README.md").read_text()
    for path in (path for ending in ("sheet", "list", "complex") for path in EXAMPLES.glob(f"*.{ending}")):
        check(f"`{path.stem}`" in readme, f"examples/README.md names {path.stem}")


def test_made_again():
    """examples/make writes the same files again."""
    with tempfile.TemporaryDirectory() as folder:
        for name in ("tools", "rival", "target"):
            (Path(folder) / name).symlink_to(ROOT / name)
        copy = Path(folder) / "examples"
        copy.mkdir()
        lists = [path.with_suffix(".csv") for path in EXAMPLES.glob("*.list")]
        for path in [EXAMPLES / "make", *EXAMPLES.glob("*.toml"), *lists]:
            shutil.copy(path, copy)
        done = run(copy / "make")
        made = {path.name: content for path, content in files_in(copy).items()}
        kept = {path.name: content for path, content in files_in(EXAMPLES).items() if path.name != "README.md"}
        check(done.returncode == 0 and made == kept, "examples/make writes the same files",
              words_of(done) + "".join(f"\n{name}" for name in {**made, **kept} if made.get(name) != kept.get(name)))
