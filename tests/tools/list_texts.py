"""Lists of transfers: their text and their bytes, what show, explain and check say of them, and drawn lists against the
rival."""
import random
import struct
from typing import NamedTuple

import changing
import inputs
import names
import programs
import records
import refusals
import transfers
from checks import EXAMPLES, LISTS, SHEET, check, run, sheet, turned_down, words_of
from records import Transfer
from texts import changed
from transfers import GivenList

GOOD = "day,giver,taker,amount\n1,0,1,10.0\n20,1,2,10.5\n"
GOOD_BYTES = bytes.fromhex("00000013 01 01 00 01 00000064 14 01 02 00000069")

# Other ways to write the same list.
SAME = {
    "no decimals": [("10.0", "10")],
    "noughts": [("10.0", "010.000"), ("20,", "020,"), ("1,0,1", "1.0,0,1.0")],
    "blanks": [(",", " , "), ("10.0", " 10.0 ")],
    "lines as Windows ends them": [("\n", "\r\n")],
    "a byte order mark": [("day", "\ufeffday")],
    "no end of the last line": [("10.5\n", "10.5")],
}

# A change of the good text, and words of the message.
BAD = [
    ("day,", "days,", 'line 1: is "days,giver,taker,amount", not day,giver,taker,amount'),
    (GOOD, "", "line 1: is empty, not day,giver,taker,amount"),
    (GOOD, " \r\n", "line 1: is empty, not day,giver,taker,amount"),
    (",", ";", 'line 1: is "day;giver;taker;amount", not day,giver,taker,amount'),
    ("day,giver,taker,amount\n", "", 'line 1: is "1,0,1,10.0", not day,giver,taker,amount'),
    ("1,0,1,10.0\n", "\n", "line 2: is empty"),
    ("1,0,1,10.0\n", " \r\n", "line 2: is empty"),
    ("20,1,2,10.5", "20,1,2,10,5", "line 3: has not 4 figures with commas between them"),
    ("20,1,2,10.5", "20,1,2", "line 3: has not 4 figures with commas between them"),
    ("20,1,2,10.5\n", "20,1,2,10.5\n\n", "line 4: is empty"),
    ("10.5", "10.55", 'line 3: amount: "10.55" has more than one decimal'),
    ("10.5", "-1", 'line 3: amount: "-1" is negative'),
    ("10.5", "429496729.6", 'line 3: amount: "429496729.6" does not fit its field, which holds at most 429496729.5'),
    ("10.5", "1e2", 'line 3: amount: "1e2" is not a number written plainly, as 100.0'),
    ("10.5", "", 'line 3: amount: "" is not a number written plainly, as 100.0'),
    ("10.5", '"10.5"', 'line 3: amount: ""10.5"" is not a number written plainly, as 100.0'),
    ("20,1", "20.5,1", 'line 3: day: "20.5" has decimals, and a whole number is asked for'),
    ("20,1", "256,1", 'line 3: day: "256" does not fit its field, which holds at most 255'),
    ("20,1", "x,1", 'line 3: day: "x" is not a number written plainly, as 100'),
    ("1,0,1", "1,-1,1", 'line 2: giver: "-1" is negative'),
    ("1,0,1", "1,0,256", 'line 2: taker: "256" does not fit its field, which holds at most 255'),
    ("1,0,1", "1,0,Rolling mill",
     'line 2: taker: "Rolling mill" is not the number of a consumer, from 0 in the order of the month'),
    ("1,0,1", "1,,1", 'line 2: giver: "" is not the number of a consumer, from 0 in the order of the month'),
    ("10.5", "10\udcff", "line 3: is not text in UTF-8"),
    (GOOD, "consumer,1\nimported,0\ndrawn,sent\n", 'line 1: is "consumer,1", not day,giver,taker,amount; it begins as '
     "a record's text does, whose name ends in .complex.csv"),
]

# Faults of a list's text, more than one in a line and more lines than are told of a CSV file of hours.
FAULTY = "day,giver,taker,amount\nx,0,mill,1.05\n\n1,0\n1,0,1,y\n256,0,1,1\n"
ALL_FAULTS = [
    'line 2: day: "x" is not a number written plainly, as 100',
    'line 2: taker: "mill" is not the number of a consumer, from 0 in the order of the month',
    'line 2: amount: "1.05" has more than one decimal',
    "line 3: is empty",
    "line 4: has not 4 figures with commas between them",
    'line 5: amount: "y" is not a number written plainly, as 100.0',
    'line 6: day: "256" does not fit its field, which holds at most 255',
]

# Bytes that are no list, and why they cannot be unpacked.
NO_LIST = [
    (b"", "byte 0: the list ends after 0 bytes; its length and version take 5"),
    (bytes.fromhex("00000004"), "byte 0: the list ends after 4 bytes; its length and version take 5"),
    (GOOD_BYTES[:-1], "byte 0: length, 19, but there are 18 bytes"),
    (GOOD_BYTES + b"\0", "byte 0: length, 19, but there are 20 bytes"),
    (bytes.fromhex("0000000801010203"), "byte 0: length, 8: bytes after the last whole entry: 3"),
    (GOOD_BYTES[:4] + b"\2" + GOOD_BYTES[5:], "byte 4: version, 2 (not 1)"),
]

SHOWN = """\
length              19
version             1

Entries, in the order in which they are applied; amounts in MW
entry  day filed  giver  taker  amount
    0          1      0      1    10.0
    1         20      1      2    10.5
"""

# The example with names has contract volumes of 60.0 and 30.0.
NAMED = "day,giver,taker,amount\n5,0,1,60.0\n20,1,0,85.5\n"
SHOWN_NAMED = """\
named.csv:
length              19
version             1

Entries, in the order in which they are applied; amounts in MW
entry  day filed  giver           taker           amount
    0          5  0 Copper works  1 Rolling mill    60.0
    1         20  1 Rolling mill  0 Copper works    85.5

Contract volumes, in MW
consumer        before  given  taken  after
0 Copper works    60.0   60.0   85.5   85.5
1 Rolling mill    30.0   85.5   60.0    4.5
all               90.0  145.5  145.5   90.0
"""

# Entries for that month, the number, and what is said of the first field that breaks it.
EXPLAINED = [
    ("0,0,1,1", 13, "entry 0, day filed, 0 (from 1 to 31)"),
    ("32,0,1,1", 13, "entry 0, day filed, 32 (from 1 to 31)"),
    ("1,2,1,1", 13, "entry 0, giver, 2 (the sheet has consumers 0 to 1)"),
    ("1,0,255,1", 13, "entry 0, taker, 255 (the sheet has consumers 0 to 1)"),
    ("1,1,1,1", 13, "entry 0, taker, 1 (the giver of this entry)"),
    ("21,0,1,1", 14, "entry 0, day filed, 21 (at most 20)"),
    ("31,0,1,1", 14, "entry 0, day filed, 31 (at most 20)"),
    ("20,0,1,60.1", 15,
     "entry 0, amount, 60.1 MW (at its turn the giver, consumer 0 (Copper works), has 60.0)"),
    ("20,0,1,60\n20,0,1,0.1", 15,
     "entry 1, amount, 0.1 MW (at its turn the giver, consumer 0 (Copper works), has 0.0)"),
    ("20,0,1,9970.1", 15,
     "entry 0, amount, 9970.1 MW (at its turn the giver, consumer 0 (Copper works), has 60.0)"),
    # A later number in front of an earlier one: the number that is tried first is told.
    ("21,0,1,99\n1,0,2,1", 13, "entry 1, taker, 2 (the sheet has consumers 0 to 1)"),
    ("20,0,1,99\n21,0,1,1", 14, "entry 1, day filed, 21 (at most 20)"),
]

WRONG = "day,giver,taker,amount\n0,0,1,60.0\n25,1,1,1.0\n21,0,1,0.1\n1,3,0,0.0\n20,1,0,90.0\n"
ALL_WRONG = """\
refusal 13: the list's length or version is wrong, or an entry's day is not 1 to 31, or it does not name two consumers \
of the sheet
  wrong.csv, line 2: entry 0, day filed, 0 (from 1 to 31)
  wrong.csv, line 3: entry 1, taker, 1 (the giver of this entry)
  wrong.csv, line 5: entry 3, giver, 3 (the sheet has consumers 0 to 1)
refusal 14: an entry was filed after day 20
  wrong.csv, line 3: entry 1, day filed, 25 (at most 20)
  wrong.csv, line 4: entry 2, day filed, 21 (at most 20)
refusal 15: at its turn, an entry asks more than its giver has, or brings its taker above 10000.0 MW
  wrong.csv, line 4: entry 2, amount, 0.1 MW (at its turn the giver, consumer 0 (Copper works), has 0.0)

legal, but unlikely:
  producer 0 (Northern plant): all 744 hours are equal
  wrong.csv: entry 3: amount is 0
"""
ALL_GOOD = """\
accepted

legal, but unlikely:
  producer 0 (Northern plant): all 744 hours are equal
"""
SMALL = EXAMPLES / "small.toml"


# ------------------------------------------------------------------ text and bytes


def check_same(kind, good, packed, same, folder):
    """A text packs to its bytes, however it is written, and comes back from them."""
    text, back, stdin = f"text{kind.text}", f"back{kind.text.upper()}", f"stdin{kind.text}"
    for name, changes in {**same, "as it stands": []}.items():
        (folder / text).write_bytes(changed(good, changes).encode())
        done = sheet("pack", text, "-", folder=folder)
        check(done.returncode == 0 and done.stdout == packed, f"pack: {text}: {name}", words_of(done))
    for name in (f"a{kind.packed}", f"A{kind.packed.upper()}"):
        done = sheet("pack", text, name, folder=folder)
        again = sheet("unpack", name, back, "--force", folder=folder)
        check((folder / back).read_text() == good, f"unpack: {name}", words_of(done) + words_of(again))
    done = sheet("unpack", "-", stdin, folder=folder, stdin=packed)
    check((folder / stdin).read_text() == good, f"unpack: standard input to {stdin}", words_of(done))


def check_turned_down(kind, good, texts, contents, folder):
    """Texts that cannot be packed, as changes of a good one, and bytes that cannot be unpacked; each with what is
    said."""
    text, packed, new = f"text{kind.text}", f"out{kind.packed}", f"new{kind.text}"
    for old, other, message in texts:
        (folder / text).write_bytes(changed(good, [(old, other)]).encode(errors="surrogateescape"))
        turned_down("pack", folder, ["pack", text, packed], f"tools/sheet: {text}, {message}")
    for content, message in contents:
        (folder / f"bad{kind.packed}").write_bytes(content)
        turned_down("unpack", folder, ["unpack", f"bad{kind.packed}", new],
                    f"tools/sheet: bad{kind.packed}: cannot be written as text: {message}")
    none = f"none{kind.packed}"
    for words, message in (
        (["pack", f"none{kind.text}", packed], f"none{kind.text}: cannot be read: No such file"),
        (["unpack", none, new], f"{none}: cannot be read: No such file"),
        (["explain", kind.option, none, SMALL], f"{none}: cannot be read: No such file"),
    ):
        turned_down(" ".join(map(str, words)), folder, words, message)


def check_kept(kind, good, folder):
    """Files that are there, or are read by the same command, are not written over."""
    text, packed, kept = f"text{kind.text}", f"kept{kind.packed}", f"kept{kind.text}"
    (folder / text).write_text(good)
    (folder / kept).write_text(good)
    (folder / "link").symlink_to(text)
    sheet("pack", text, packed, folder=folder)
    turned_down("pack", folder, ["pack", text, packed], f"{packed}: exists; --force writes over it")
    turned_down("pack", folder, ["pack", text, "link", "--force"], "link: is read here")
    turned_down("unpack", folder, ["unpack", packed, kept], f"{kept}: exists; --force writes over it")


def test_texts(folder):
    """Lists as texts and as bytes."""
    check_same(LISTS, GOOD, GOOD_BYTES, SAME, folder)
    (folder / "empty.csv").write_text(GOOD.splitlines(keepends=True)[0])
    done = sheet("pack", "empty.csv", "-", folder=folder)
    check(done.stdout == bytes.fromhex("0000000501"), "pack: a list without entries", words_of(done))
    largest = f"255,255,255,{records.CAPACITY.text(2 ** 32 - 1)}\n"
    (folder / "largest.csv").write_text(GOOD.splitlines(keepends=True)[0] + largest)
    done = sheet("pack", "largest.csv", "-", folder=folder)
    check(done.stdout == bytes.fromhex("0000000c01") + b"\xff" * 7, "pack: the largest figures", words_of(done))


def test_bad(folder):
    """What cannot be packed or unpacked, with the file, the line or byte, and the reason."""
    check_turned_down(LISTS, GOOD, BAD, NO_LIST, folder)
    (folder / "list.csv").write_text(changed(GOOD, [("\n1,", "\nx,"), ("\n20,", "\ny,")]))
    turned_down("pack", folder, ["pack", "list.csv", "out.list"],
                "(and 1 more; tools/sheet check --transfers LIST MONTH lists them all)")
    check_kept(LISTS, GOOD, folder)


def test_faults(folder):
    """check names every fault of every list's text, beside those of a month's; other commands name the first."""
    (folder / "a.csv").write_text(FAULTY)
    (folder / "b.CSV").write_text(FAULTY)
    (folder / "month.toml").write_text(changed(SMALL.read_text(), [('"110.0"', '"x"'), ("month = 12", "month = 13")]))
    month = ["month: 13 is not a whole number from 1 to 12",
             'producer 0: attested_capacity: "x" is not a number written plainly, as 100.0',
             'producer 0: hours: possible: "x" is not a number written plainly, as 100.0']
    words = ["--transfers", "a.csv", "--transfers", "none.list", "--transfers", "b.CSV", "month.toml"]
    wanted = [*(f"month.toml: {fault}" for fault in month), *(f"a.csv, {fault}" for fault in ALL_FAULTS),
              "none.list: cannot be read: No such file or directory", *(f"b.CSV, {fault}" for fault in ALL_FAULTS)]
    done = sheet("check", *words, folder=folder)
    check(done.returncode == 1 and not done.stdout
          and done.stderr.decode().splitlines() == [f"tools/sheet: {line}" for line in wanted],
          "check: all faults of a month and its lists", words_of(done))
    for command in ("explain", "show"):
        turned_down(command, folder, [command, *words], f"tools/sheet: {wanted[0]} (and {len(wanted) - 1} more; "
                    "tools/sheet check --transfers LIST MONTH lists them all)")
    turned_down("explain", folder, ["explain", "month.toml"], "(and 2 more; tools/sheet check lists them all)")


def test_long(folder):
    """A list that is longer than what the program takes: packed, unpacked and shown, but not judged."""
    count = (refusals.HANDED_OVER - transfers.FRONT) // transfers.ENTRY
    for entries, taken in ((count, True), (count + 1, False)):
        content = transfers.list_bytes([Transfer(1, 0, 1, 0)] * entries)
        (folder / "long.list").write_bytes(content)
        sheet("unpack", "long.list", "long.csv", "--force", folder=folder)
        done = sheet("pack", "long.csv", "-", folder=folder)
        check(done.stdout == content, f"pack after unpack: {entries} entries", words_of(done))
        done = sheet("show", "long.list", folder=folder)
        check(done.stdout.count(b"\n") == entries + 5, f"show: {entries} entries", words_of(done))
        for name in ("long.list", "long.csv"):
            words = ["explain", "--transfers", name, SMALL]
            if taken:
                done = sheet(*words, folder=folder)
                check(done.stdout == b"accepted\n", f"explain: {name} of {len(content)} bytes", words_of(done))
            else:
                turned_down("explain", folder, words, f"{name}: has 65539 bytes, and the program takes at most 65536")


# ------------------------------------------------------------------ show, explain, check


def test_shown(folder):
    """A list alone as far as it can be read; with its month the names, and the contract volumes or why they stay."""
    (folder / "list.csv").write_text(GOOD)
    (folder / "named.csv").write_text(NAMED)
    (folder / "a.list").write_bytes(GOOD_BYTES)
    for name in ("list.csv", "a.list"):
        done = sheet("show", name, folder=folder)
        check(done.stdout.decode() == SHOWN and not done.stderr, f"show: {name}", words_of(done))
    for content, words in NO_LIST:
        (folder / "bad.list").write_bytes(content)
        done = sheet("show", "bad.list", folder=folder)
        check(done.returncode == 0 and done.stdout.decode().splitlines()[-1] == f"refusal 13, {words}",
              f"show: {words}", words_of(done))
    (folder / "bad.list").write_bytes(GOOD_BYTES[:3] + b"\x14\2" + GOOD_BYTES[5:])
    done = sheet("show", "bad.list", folder=folder)
    wanted = changed(SHOWN, [("length              19", "length              20"),
                             ("version             1", "version             2")])
    check(done.stdout.decode() == f"{wanted}\nrefusal 13, byte 0: length, 20, but there are 19 bytes\n"
          "refusal 13, byte 4: version, 2 (not 1)\n", "show: a wrong length and version", words_of(done))
    done = sheet("show", "--transfers", "named.csv", SMALL, folder=folder)
    check(done.returncode == 0 and done.stdout.decode() == SHOWN_NAMED, "show --transfers: a text", words_of(done))
    content = SMALL.with_suffix(".sheet").read_bytes()
    done = sheet("show", "--transfers", "named.csv", "-", folder=folder, stdin=content)
    check(b"       0    60.0   60.0   85.5   85.5\n" in done.stdout, "show --transfers: a sheet", words_of(done))
    done = sheet("show", "--transfers", "named.csv", "--transfers", "a.list", SMALL, folder=folder)
    said = done.stdout.decode()
    check(said.startswith("named.csv:\n") and "\na.list:\n" in said and said.endswith(
        "\nNot applied:\nrefusal 13: " + refusals.RULES[13] + "\n"
        "a.list, byte 14: entry 1, taker, 2 (the sheet has consumers 0 to 1)\n"),
        "show --transfers: two lists, the second refused", words_of(done))
    done = sheet("show", "--transfers", "named.csv", EXAMPLES / "refused-2.sheet", folder=folder)
    check(done.returncode == 0 and b"\nNot applied:\nrefusal 2: " in done.stdout, "show --transfers: a refused sheet",
          words_of(done))
    nobody = records.Sheet(records.Month(28, 1, 0), [], [], []).to_bytes()
    (folder / "empty.list").write_bytes(transfers.list_bytes([]))
    done = sheet("show", "--transfers", "empty.list", "-", folder=folder, stdin=nobody)
    check(done.stdout.endswith(b"\n     all     0.0                  0.0\n"), "show --transfers: no consumer",
          words_of(done))


def test_other_name(folder):
    """A list's text whose name does not say so."""
    hint = "begins as a list's text does, whose name ends in .csv"
    for content in (GOOD, f"\ufeff{GOOD}", GOOD.replace(",", ";")):
        (folder / "list.txt").write_text(content)
        length, count = int.from_bytes(content.encode()[:4], "big"), len(content.encode())
        line = f"list.txt, byte 0: length, {length}, but there are {count} bytes; it {hint}"
        for command in ("explain", "check"):
            done = sheet(command, "--transfers", "list.txt", SMALL, folder=folder)
            check(done.stdout.decode().splitlines()[1].strip() == line, f"{command}: a list's text named list.txt",
                  words_of(done))
        turned_down("pack", folder, ["pack", "list.txt", "out.list"], f"tools/sheet: list.txt: {hint}")
    (folder / "month.txt").write_text("days = 28\nweekday = 1\nholidays = []\n")
    done = sheet("pack", "month.txt", "-", folder=folder)
    check(done.returncode == 0 and len(done.stdout) == records.HEADER, "pack: a month's text named month.txt",
          words_of(done))
    done = run(SHEET, "pack", "/dev/stdin", "-", stdin=SMALL.read_bytes())
    check(done.stdout == SMALL.with_suffix(".sheet").read_bytes(), "pack: a month's text from a pipe", words_of(done))


def test_explained(folder):
    """The first number and the first field, with the line of a text or the byte of a list."""
    for entries, number, words in EXPLAINED:
        (folder / "list.csv").write_text(f"day,giver,taker,amount\n{entries}\n")
        sheet("pack", "list.csv", "a.list", "--force", folder=folder)
        entry, key = int(words.split()[1].strip(",")), words.split(", ")[1]
        place = 5 + 7 * entry + {"day filed": 0, "giver": 1, "taker": 2, "amount": 3}[key]
        for name, where in (("list.csv", f"line {entry + 2}"), ("a.list", f"byte {place}")):
            done = sheet("explain", "--transfers", name, SMALL, folder=folder)
            wanted = f"refusal {number}: {refusals.RULES[number]}\n{name}, {where}: {words}\n"
            check(done.returncode == 0 and done.stdout.decode() == wanted, f"explain: {entries!r}: {name}",
                  words_of(done))
    for content, words in NO_LIST:
        (folder / "bad.list").write_bytes(content)
        done = sheet("explain", "--transfers", "bad.list", SMALL, folder=folder)
        check(done.stdout.decode().splitlines()[1] == f"bad.list, {words}", f"explain: {words}", words_of(done))
        done = sheet("explain", "--transfers", "bad.list", EXAMPLES / "refused-9.toml", folder=folder)
        check(done.stdout.startswith(b"refusal 9: "), "explain: the sheet's numbers come first", words_of(done))
    nobody = records.Sheet(records.Month(28, 1, 0), [], [], []).to_bytes()
    done = sheet("explain", "--transfers", "list.csv", "-", folder=folder, stdin=nobody)
    check(done.stdout.decode().splitlines()[1] == "list.csv, line 2: entry 0, giver, 0 (the sheet has no consumer)",
          "explain: no consumer", words_of(done))
    two = records.Sheet(records.Month(28, 1, 0), [], [], [records.Consumer(volume, 0, 0, 0, 10, 0)
                                                        for volume in (60_000, 60_000)]).to_bytes()
    (folder / "a.list").write_bytes(transfers.list_bytes([Transfer(1, 0, 1, 40_000), Transfer(1, 0, 1, 1)]))
    done = sheet("explain", "--transfers", "a.list", "-", folder=folder, stdin=two)
    check(done.stdout.decode().splitlines()[1] == "a.list, byte 15: entry 1, amount, 0.1 MW (at its turn the taker, "
          "consumer 1, would come to 10000.1; at most 10000.0)", "explain: a taker", words_of(done))
    (folder / "b.list").write_bytes(transfers.list_bytes([Transfer(1, 0, 1, 20_001)]))
    (folder / "a.list").write_bytes(transfers.list_bytes([Transfer(1, 0, 1, 40_000)]))
    for names_given, line in ((("a.list", "b.list"), "b.list, byte 8: entry 0, amount, 2000.1 MW (at its turn the "
                               "giver, consumer 0, has 2000.0)"), (("b.list",), ""), (("a.list",), "")):
        words = [word for name in names_given for word in ("--transfers", name)]
        done = sheet("explain", *words, "-", folder=folder, stdin=two)
        check(line in done.stdout.decode() if line else done.stdout == b"accepted\n", f"explain: {names_given}",
              words_of(done))


def test_check(folder):
    """All that is wrong with a sheet and its lists; an entry that cannot be met is left out for the next ones."""
    (folder / "wrong.csv").write_text(WRONG)
    done = sheet("check", "--transfers", "wrong.csv", SMALL, folder=folder)
    check(done.returncode == 1 and done.stdout.decode() == ALL_WRONG and not done.stderr, "check --transfers",
          words_of(done))
    (folder / "good.csv").write_text(NAMED)
    done = sheet("check", "--transfers", "good.csv", SMALL, folder=folder)
    check(done.returncode == 0 and done.stdout.decode() == ALL_GOOD and not done.stderr, "check --transfers: accepted",
          words_of(done))
    (folder / "all.csv").write_text("day,giver,taker,amount\n1,31,30,75.0\n")
    done = sheet("check", "--transfers", "all.csv", EXAMPLES / "month.sheet", folder=folder)
    check(done.returncode == 0 and b"  consumer 31: no row names it, and its peak is far above its contract volume: "
          b"51.3 MW and 0.0 MW\n" in done.stdout, "check --transfers: unlikely after the list", words_of(done))
    (folder / "late.csv").write_text("day,giver,taker,amount\n21,0,1,1.0\n")
    for words in (["--transfers", "all.csv", "--transfers", "late.csv"], ["--transfers", "late.csv"]):
        done = sheet("check", *words, EXAMPLES / "month.sheet", folder=folder)
        refused = f"refusal 14: {refusals.RULES[14]}\n  late.csv, line 2: entry 0, day filed, 21 (at most 20)"
        wanted = changed(sheet("check", EXAMPLES / "month.sheet").stdout.decode(), [("accepted", refused)])
        check(done.returncode == 1 and done.stdout.decode() == wanted,
              f"check {words}: after a refusal, what is unlikely in the month as it stands", words_of(done))
    check_twice(folder)
    (folder / "bad.list").write_bytes(GOOD_BYTES[:-1])
    done = sheet("check", "--transfers", "good.csv", "--transfers", "bad.list", EXAMPLES / "refused-10.sheet",
                 folder=folder)
    said = done.stdout.decode()
    check(done.returncode == 1 and said.startswith("refusal 10: ") and "\nrefusal 13: " in said
          and said.endswith("\nthe entries of bad.list cannot be told apart, so they were not looked at\n"),
          "check --transfers: a sheet and a list", words_of(done))
    done = sheet("check", "--transfers", "good.csv", EXAMPLES / "refused-2.sheet", folder=folder)
    check(done.returncode == 1 and done.stdout.endswith(b"nothing after the header was looked at, and no list\n"),
          "check --transfers: no places", words_of(done))


def check_twice(folder):
    """The same list twice is unlikely, under one name or two, applied or refused; two lists without entries are not."""
    (folder / "one.csv").write_text("day,giver,taker,amount\n1,0,1,60.0\n")
    (folder / "half.csv").write_text("day,giver,taker,amount\n1,0,1,20.0\n")
    for name in ("none.csv", "no.csv"):
        (folder / name).write_text("day,giver,taker,amount\n")
    sheet("pack", "half.csv", "half.list", folder=folder)
    for names_given, status, line in (
        (["half.csv", "half.list"], 0, "  the same list is given 2 times: half.csv, half.list\n"),
        (["half.csv", "none.csv", "half.csv", "half.csv"], 0,
         "  the same list is given 3 times: half.csv, half.csv, half.csv\n"),
        (["one.csv", "one.csv"], 1, "  the same list is given 2 times: one.csv, one.csv\n"),
        (["half.csv", "none.csv", "no.csv"], 0, ""),
    ):
        words = [word for name in names_given for word in ("--transfers", name)]
        done = sheet("check", *words, SMALL, folder=folder)
        said = done.stdout.decode()
        check(done.returncode == status and said.endswith(line) and said.count("the same list") == bool(line),
              f"check: {names_given}", words_of(done))


# ------------------------------------------------------------------ drawn lists

SEED = 20211120
DRAWN = 1500
VOLUMES = (0, 0, 1, 500, 1000, 50_000, 99_999, 100_000)


def drawn_sheet(rng):
    """A sheet without producers and rows; some have a contract volume that is refused, some a length."""
    consumers = [records.Consumer(rng.choice(VOLUMES), rng.randrange(2000), 0, 0, 10, 1000)
                 for _ in range(rng.choice((0, 1, 2, 3, 5, 32)))]
    if consumers and rng.random() < 0.05:
        rng.choice(consumers).contract = 100_001
    content = records.Sheet(records.Month(rng.choice((28, 31)), 1, 0), [], [], consumers).to_bytes()
    return content + b"\0" if rng.random() < 0.03 else content


def drawn_transfer(rng, volumes):
    """An entry; most could be met, and then the volumes follow it."""
    day = rng.choice((1, 5, 19, 20) if rng.random() < 0.97 else (0, 21, 31, 32, 255))
    if len(volumes) < 2 or rng.random() < 0.02:
        return Transfer(day, *(rng.choice((0, 1, len(volumes), 255)) for _ in range(2)), rng.choice(VOLUMES))
    giver, taker = rng.sample(range(len(volumes)), 2)
    most = min(volumes[giver], records.TOP_CAPACITY - volumes[taker])
    amount = rng.choice((0, most, rng.randint(0, max(most, 0))) if rng.random() < 0.95 else (most + 1, 2 ** 32 - 1))
    transfer = Transfer(day, giver, taker, max(amount, 0))
    if transfer.amount <= most:
        volumes[giver] -= transfer.amount
        volumes[taker] += transfer.amount
    return transfer


def drawn_list(rng, volumes):
    content = transfers.list_bytes([drawn_transfer(rng, volumes) for _ in range(rng.choice((0, 1, 2, 3, 7, 40)))])
    if rng.random() < 0.9:
        return content
    return rng.choice((content[:rng.randrange(len(content))], content + b"\0", content[:4] + b"\2" + content[5:],
                       struct.pack(">I", len(content) + 3) + content[4:] + b"\1\0\1",
                       struct.pack(">I", len(content) + 7) + content[4:]))


class Case(NamedTuple):
    sheet: bytes
    list: bytes

    def to_bytes(self):
        return programs.list_case_bytes(self.sheet, self.list)


def draw():
    """Sheets, each with a list."""
    rng, cases = random.Random(SEED), []
    for _ in range(DRAWN):
        content = drawn_sheet(rng)
        volumes = [consumer.contract for consumer in records.Sheet.from_bytes(content).consumers]
        cases.append(Case(content, drawn_list(rng, volumes)))
    return cases


def first_of(case):
    """The first refusal that the aid finds, and the contract volumes after the list."""
    given = inputs.Given("sheet", case.sheet, names.NO_NAMES, "", [], False)
    found, after = changing.judged(given, [GivenList("list", case.list, False)])
    return found[0] if found else None, [consumer.contract for consumer in after.consumers] if after else []


def test_drawn(folder):
    """explain has the rival's number, and the volumes after an applied list; every list that can be unpacked comes
    back from its text."""
    cases, found = draw(), {}
    answers = programs.rival_answers(cases, folder, "transfers")
    for place, (case, answer) in enumerate(zip(cases, answers)):
        first, volumes = first_of(case)
        number, rival = first.number if first else 0, answer if isinstance(answer, int) else 0
        found[rival] = found.get(rival, 0) + 1
        check(number == rival, f"explain: drawn list {place}: {number}, the rival has {rival} (0: applied)")
        if not rival:
            after = [consumer.contract for consumer in records.Sheet.from_bytes(answer).consumers]
            check(volumes == after, f"show: drawn list {place}: the volumes after it")
        given = GivenList("list", case.list, False)
        if given.known() and case.list[4] == records.LIST_VERSION:
            text = folder / "list.csv"
            text.write_text(given.as_text())
            check(GivenList.read_text(text) == case.list, f"pack after unpack: drawn list {place}")
        else:
            check(rival, f"unpack: drawn list {place}: turned down, though the rival applies it")
    check(set(found) == {0, 2, 9, *refusals.TRIED_IN_LIST} and min(found.values()) >= 10,
          f"explain: the drawn lists reach the numbers {found}")
    check_places(cases, answers, folder)


def check_places(cases, answers, folder):
    """The field that explain names is the one: when it is repaired, what is named next stands behind it."""
    repaired = []
    for case, answer in zip(cases, answers):
        known = GivenList("list", case.list, False).known()
        if answer not in refusals.TRIED_IN_LIST or not known or case.sheet[13] < 2:
            continue
        packed, last = bytearray(case.list), (0, 0)
        packed[4] = records.LIST_VERSION
        while (first := first_of(case._replace(list=bytes(packed)))[0]) is not None:
            turn = refusals.turn(first.number), first.place
            check(turn > last, f"explain: byte {first.place} after {last}")
            if turn <= last:
                break
            last = turn
            repair(packed, first)
        repaired.append(case._replace(list=bytes(packed)))
    check(len(repaired) >= 50, f"explain: only {len(repaired)} lists were repaired")
    for answer in programs.rival_answers(repaired, folder, "transfers"):
        check(isinstance(answer, bytes), f"explain: a repaired list, but the rival refuses it by {answer}")


def repair(packed, refusal):
    """Puts a figure into the field that is allowed there."""
    key, place = refusal.entry.field.key, refusal.place
    if key == "taker":
        packed[place] = 1 if packed[place - 1] == 0 else 0
    else:
        packed[place:place + refusal.entry.field.width] = (1 if key == "day" else 0).to_bytes(
            refusal.entry.field.width, "big")
