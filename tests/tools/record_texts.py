"""Records of complexes: their text and their bytes, what show, explain and check say of them, and drawn records against
the rival."""
import random
import struct
from typing import NamedTuple

import changing
import inputs
import names
import programs
import records
import refusals
from checks import EXAMPLES, LISTS, RECORDS, check, sheet, turned_down, words_of
from complexes import GivenRecord, record_bytes
from list_texts import SMALL, check_kept, check_same, check_turned_down
from texts import changed

# A record can be packed that no month asks for, as this one of two hours.
GOOD = "consumer,1\nimported,12.5\ndrawn,sent\n120.0,30.0\n99.9,100.1\n"
GOOD_BYTES = bytes.fromhex("00000019 01 0000007d 000004b0 0000012c 000003e7 000003e9")

# Other ways to write the same record.
SAME = {
    "no decimals": [("120.0,30.0", "120,30")],
    "noughts": [("consumer,1\n", "consumer,01\n"), ("12.5", "012.50"), ("120.0", "0120.000")],
    "blanks": [(",", " , "), ("12.5", " 12.5 ")],
    "lines as Windows ends them": [("\n", "\r\n")],
    "a byte order mark": [("consumer", "\ufeffconsumer")],
    "no end of the last line": [("100.1\n", "100.1")],
}

# A change of the good text, and words of the message.
BAD = [
    (GOOD, "", "line 1: is empty, not consumer and its figure, as consumer,14 (and 2 more; tools/sheet check --complex "
     "RECORD MONTH lists them all)"),
    ("consumer,1\n", "", 'line 1: is "imported,12.5", not consumer and its figure, as consumer,14 (and '),
    ("consumer,1\n", "consumers,1\n", 'line 1: is "consumers,1", not consumer and its figure, as consumer,14'),
    ("consumer,1\n", "consumer;1\n", 'line 1: is "consumer;1", not consumer and its figure, as consumer,14'),
    ("consumer,1\n", "day,giver,taker,amount\n", 'line 1: is "day,giver,taker,amount", not consumer and its figure, as '
     "consumer,14; it begins as a list's text does, whose name ends in .csv"),
    ("consumer,1\n", "consumer\n", 'line 1: consumer: "" is not the number of a consumer, from 0 in the order'),
    ("consumer,1\n", "consumer,Rolling mill\n",
     'line 1: consumer: "Rolling mill" is not the number of a consumer, from 0 in the order of the month'),
    ("consumer,1\n", "consumer,-1\n", 'line 1: consumer: "-1" is negative'),
    ("consumer,1\n", "consumer,1.5\n", 'line 1: consumer: "1.5" has decimals, and a whole number is asked for'),
    ("consumer,1\n", "consumer,256\n", 'line 1: consumer: "256" does not fit its field, which holds at most 255'),
    ("imported,12.5\n", "", 'line 2: is "drawn,sent", not imported and its figure, as imported,12.5 (and '),
    ("imported,12.5\n", "\n", "line 2: is empty, not imported and its figure, as imported,12.5"),
    ("12.5", "12.55", 'line 2: imported: "12.55" has more than one decimal'),
    ("12.5", "12,5", 'line 2: imported: "12,5" is not a number written plainly, as 100.0'),
    ("12.5", "", 'line 2: imported: "" is not a number written plainly, as 100.0'),
    ("12.5", "429496729.6", 'line 2: imported: "429496729.6" does not fit its field, which holds at most 429496729.5'),
    ("drawn,sent\n", "", 'line 3: is "120.0,30.0", not drawn,sent'),
    ("drawn,sent", "sent,drawn", 'line 3: is "sent,drawn", not drawn,sent'),
    ("drawn,sent", "drawn;sent", 'line 3: is "drawn;sent", not drawn,sent'),
    ("120.0,30.0", "120.0", "line 4: has not 2 figures with commas between them"),
    ("120.0,30.0", "120,0,30,0", "line 4: has not 2 figures with commas between them"),
    ("120.0,30.0\n", "\n", "line 4: is empty"),
    ("99.9", "-99.9", 'line 5: drawn: "-99.9" is negative'),
    ("100.1", "100.15", 'line 5: sent: "100.15" has more than one decimal'),
    ("100.1", "1e2", 'line 5: sent: "1e2" is not a number written plainly, as 100.0'),
    ("100.1\n", "100.1\n\n", "line 6: is empty"),
    ("99.9", "99\udcff", "line 5: is not text in UTF-8"),
]

# Faults in every part of a text; of the hours three lines are told, and how many more are wrong.
FAULTY = "consumer,x\nimported,1.05\ndrawn,sent\na,b\n1\n\n1,1\n2,-2\n"
ALL_FAULTS = [
    ', line 1: consumer: "x" is not the number of a consumer, from 0 in the order of the month',
    ', line 2: imported: "1.05" has more than one decimal',
    ', line 4: drawn: "a" is not a number written plainly, as 100.0',
    ', line 4: sent: "b" is not a number written plainly, as 100.0',
    ", line 5: has not 2 figures with commas between them",
    ", line 6: is empty",
    ": more lines that are wrong: 1",
]

# Bytes that are no record, and why they cannot be unpacked.
NO_RECORD = [
    (b"", "byte 0: the record ends after 0 bytes; its length, consumer and imported power take 9"),
    (GOOD_BYTES[:8], "byte 0: the record ends after 8 bytes; its length, consumer and imported power take 9"),
    (GOOD_BYTES[:-1], "byte 0: length, 25, but there are 24 bytes"),
    (GOOD_BYTES + b"\0", "byte 0: length, 25, but there are 26 bytes"),
    (struct.pack(">I", 28) + GOOD_BYTES[4:] + bytes(3), "byte 0: length, 28: bytes after the last whole hour: 3"),
]
# The lengths of records for months of 28 to 31 days: 9 + 192 × days; and the hours.
NO_MONTH = "(a month asks for 5385, 5577, 5769 or 5961)"
NO_MONTH_HOURS = "(a month has 672, 696, 720 or 744)"

SHOWN = """\
length              25
consumer            1
imported power      12.5 MW
hours               2
drawn in all        219.9 MWh
sent out in all     130.1 MWh
"""

# For the example with names, December 2021: 100.0 drawn and 40.0 sent out in each of 744 hours, so 60.0 on average.
HOURS = 744 * "100.0,40.0\n"
NAMED = f"consumer,1\nimported,12.5\ndrawn,sent\n{HOURS}"
SHOWN_NAMED = """\
named.complex.csv:
length              5961
consumer            1 Rolling mill
imported power      12.5 MW
hours               744
drawn in all        74400.0 MWh
sent out in all     29760.0 MWh

Peaks by averaging, in MW: net power averaged over the control hours, less imported power
record             consumer        control hours  average  imported  before  after
named.complex.csv  1 Rolling mill            120     60.0      12.5    57.5   47.5
"""
VOLUMES = """\
Contract volumes, in MW
consumer        before  given  taken  after
0 Copper works    60.0   10.0          50.0
1 Rolling mill    30.0          10.0   40.0
all               90.0   10.0   10.0   90.0
"""
FEW_HOURS = "here the hours end, {} of them (the month has 744)"
HIGH = "10000.1 MW (at most 10000.0)"

# Changes of that text, the number, the line and the place of the first field that breaks it, and what is said of it;
# where the length is wrong, text and bytes say it in their own words.
EXPLAINED = [
    ([("consumer,1", "consumer,2")], 16, 1, 4, "consumer, 2 (the sheet has consumers 0 to 1)"),
    ([("consumer,1", "consumer,255")], 16, 1, 4, "consumer, 255 (the sheet has consumers 0 to 1)"),
    ([("12.5", "10000.1")], 17, 2, 5, f"imported power, {HIGH}"),
    ([("sent\n100.0", "sent\n10000.1")], 17, 4, 9, f"hour 0 (day 1, 0:00), power drawn, {HIGH}"),
    ([(HOURS, HOURS[:-5] + "10000.1\n")], 17, 747, 5957, f"hour 743 (day 31, 23:00), power sent out, {HIGH}"),
    ([(HOURS, HOURS[11:])], 16, 746, 0, [FEW_HOURS.format(743), "length, 5953 (the month asks for 5961)"]),
    ([(HOURS, HOURS + "0,0\n")], 16, 748, 0, [FEW_HOURS.format(745), "length, 5969 (the month asks for 5961)"]),
    ([(HOURS, "")], 16, 3, 0, [FEW_HOURS.format(0), "length, 9 (the month asks for 5961)"]),
    # A later number in front of an earlier one: the number that is tried first is told.
    ([("12.5", "10000.1"), (HOURS, HOURS[11:])], 16, 746, 0,
     [FEW_HOURS.format(743), "length, 5953 (the month asks for 5961)"]),
    ([("consumer,1", "consumer,2"), ("100.0", "10000.1")], 16, 1, 4, "consumer, 2 (the sheet has consumers 0 to 1)"),
]

# All of it wrong at once: the consumer, the count of hours, and powers.
WRONG = f"consumer,2\nimported,10000.1\ndrawn,sent\n{HOURS[11:-11]}10000.1,429496729.5\n"
ALL_WRONG = """\
refusal 16: the record's length is not what its bytes and the days of the month ask for, or it names no consumer of \
the sheet
  wrong.complex.csv, line 746: here the hours end, 743 of them (the month has 744)
  wrong.complex.csv, line 1: consumer, 2 (the sheet has consumers 0 to 1)
refusal 17: a power in the record is above 10000.0 MW
  wrong.complex.csv, line 2: imported power, 10000.1 MW (at most 10000.0)
  wrong.complex.csv, line 746: hour 742 (day 31, 22:00), power drawn, 10000.1 MW (at most 10000.0)
  wrong.complex.csv, line 746: hour 742 (day 31, 22:00), power sent out, 429496729.5 MW (at most 10000.0)

legal, but unlikely:
  producer 0 (Northern plant): all 744 hours are equal
"""
UNLIKELY = """\
accepted

legal, but unlikely:
  producer 0 (Northern plant): all 744 hours are equal
"""


# ------------------------------------------------------------------ text and bytes


def test_texts(folder):
    """Records as texts and as bytes."""
    check_same(RECORDS, GOOD, GOOD_BYTES, SAME, folder)
    (folder / "empty.complex.csv").write_text("consumer,0\nimported,0\ndrawn,sent\n")
    done = sheet("pack", "empty.complex.csv", "-", folder=folder)
    check(done.stdout == bytes.fromhex("00000009 00 00000000"), "pack: a record without hours", words_of(done))
    top = records.CAPACITY.text(2 ** 32 - 1)
    (folder / "largest.complex.csv").write_text(f"consumer,255\nimported,{top}\ndrawn,sent\n{top},{top}\n")
    done = sheet("pack", "largest.complex.csv", "-", folder=folder)
    check(done.stdout == bytes.fromhex("00000011") + b"\xff" * 13, "pack: the largest figures", words_of(done))


def test_bad(folder):
    """What cannot be packed or unpacked, with the file, the line or byte, and the reason."""
    check_turned_down(RECORDS, GOOD, BAD, NO_RECORD, folder)
    check_kept(RECORDS, GOOD, folder)


def test_faults(folder):
    """check names every fault of every text, of the month, of lists and of records; other commands name the first."""
    (folder / "a.complex.csv").write_text(FAULTY)
    (folder / "b.csv").write_text("day,giver,taker,amount\n1,0,x,1\n")
    (folder / "month.toml").write_text(changed(SMALL.read_text(), [("month = 12", "month = 13")]))
    words = ["--complex", "a.complex.csv", "--transfers", "b.csv", "--complex", "none.complex", "month.toml"]
    wanted = ["month.toml: month: 13 is not a whole number from 1 to 12",
              *(f"a.complex.csv{fault}" for fault in ALL_FAULTS),
              'b.csv, line 2: taker: "x" is not the number of a consumer, from 0 in the order of the month',
              "none.complex: cannot be read: No such file or directory"]
    done = sheet("check", *words, folder=folder)
    check(done.returncode == 1 and not done.stdout
          and done.stderr.decode().splitlines() == [f"tools/sheet: {line}" for line in wanted],
          "check: all faults of a month, its lists and records", words_of(done))
    for command in ("explain", "show"):
        turned_down(command, folder, [command, *words], f"tools/sheet: {wanted[0]} (and {len(wanted) - 1} more; "
                    "tools/sheet check --complex RECORD --transfers LIST MONTH lists them all)")


def test_long(folder):
    """A record that is longer than what the program takes: packed, unpacked and shown, but not judged."""
    for hours, taken in ((8190, True), (8191, False)):
        content = record_bytes(0, 0, [(1, 0)] * hours)
        (folder / "long.complex").write_bytes(content)
        sheet("unpack", "long.complex", "long.complex.csv", "--force", folder=folder)
        done = sheet("pack", "long.complex.csv", "-", folder=folder)
        check(done.stdout == content, f"pack after unpack: {hours} hours", words_of(done))
        done = sheet("show", "long.complex", folder=folder)
        check(f"\nhours               {hours}\n" in done.stdout.decode(), f"show: {hours} hours", words_of(done))
        for name in ("long.complex", "long.complex.csv"):
            words = ["explain", "--complex", name, SMALL]
            if taken:
                done = sheet(*words, folder=folder)
                check(done.stdout.startswith(b"refusal 16: "), f"explain: {name} of {len(content)} bytes",
                      words_of(done))
            else:
                turned_down("explain", folder, words, f"{name}: has 65537 bytes, and the program takes at most 65536")


# ------------------------------------------------------------------ show, explain, check


def test_shown(folder):
    """A record alone as far as it can be read; with its month what comes of it, or why nothing does."""
    for name, content in (("text.complex.csv", GOOD), ("named.complex.csv", NAMED)):
        (folder / name).write_text(content)
    (folder / "a.complex").write_bytes(GOOD_BYTES)
    for name, line in (("text.complex.csv", f"line 5: here the hours end, 2 of them {NO_MONTH_HOURS}"),
                       ("a.complex", f"byte 0: length, 25 {NO_MONTH}")):
        done = sheet("show", name, folder=folder)
        check(done.stdout.decode() == f"{SHOWN}\nrefusal 16, {line}\n" and not done.stderr, f"show: {name}",
              words_of(done))
    for content, words in NO_RECORD:
        (folder / "bad.complex").write_bytes(content)
        done = sheet("show", "bad.complex", folder=folder)
        check(done.returncode == 0 and done.stdout.decode().splitlines()[-1] == f"refusal 16, {words} {NO_MONTH}",
              f"show: {words}", words_of(done))
    done = sheet("show", "named.complex.csv", folder=folder)
    wanted = SHOWN_NAMED.split("\n\n")[0].split("\n", 1)[1].replace(" Rolling mill", "")
    check(done.stdout.decode() == f"{wanted}\n", "show: a record that a month asks for", words_of(done))
    done = sheet("show", "--complex", "named.complex.csv", SMALL, folder=folder)
    check(done.returncode == 0 and done.stdout.decode() == SHOWN_NAMED, "show --complex: a text", words_of(done))
    content = SMALL.with_suffix(".sheet").read_bytes()
    done = sheet("show", "--complex", "named.complex.csv", "-", folder=folder, stdin=content)
    check(done.stdout.endswith(b"\nnamed.complex.csv         1            120     60.0      12.5    57.5   47.5\n"),
          "show --complex: a sheet", words_of(done))
    check_shown_together(folder)


def check_shown_together(folder):
    """Several records and lists; a record that is refused, and a sheet; the example of examples/README.md."""
    (folder / "one.csv").write_text("day,giver,taker,amount\n1,0,1,10.0\n")
    (folder / "none.complex.csv").write_text(changed(NAMED, [("12.5", "60.0")]))
    words = ["--complex", "none.complex.csv", "--transfers", "one.csv", "--complex", "named.complex.csv"]
    done = sheet("show", *words, SMALL, folder=folder)
    # The second record meets the peak that the first one left: 60.0 - 60.0.
    lines = ["none.complex.csv   1 Rolling mill            120     60.0      60.0    57.5    0.0",
             "named.complex.csv  1 Rolling mill            120     60.0      12.5     0.0   47.5"]
    said = done.stdout.decode()
    check(said.endswith("\n".join([*lines, "", VOLUMES])) and said.count("\nconsumer            1 Rolling mill\n") == 2
          and "\none.csv:\n" in said, "show: two records and a list", words_of(done))
    done = sheet("show", *words, "--complex", "a.complex", SMALL, folder=folder)
    check(done.stdout.decode().endswith(f"\nNot applied:\nrefusal 16: {refusals.RULES[16]}\na.complex, byte 0: length, "
                                        "25 (the month asks for 5961)\n"), "show: the last one is refused",
          words_of(done))
    done = sheet("show", "--complex", "named.complex.csv", EXAMPLES / "refused-2.sheet", folder=folder)
    check(done.returncode == 0 and b"\nNot applied:\nrefusal 2: " in done.stdout, "show --complex: a refused sheet",
          words_of(done))
    done = sheet("show", "--complex", "plant.complex", "month.sheet", folder=EXAMPLES)
    line = "plant.complex         9            120     78.0      10.5    81.0   67.5"
    check(done.stdout.decode().splitlines()[-1] == line, "show: the example", words_of(done))
    free = records.Sheet(records.Month(31, 3, 2 ** 31 - 1), [], [], [records.Consumer(0, 50, 0, 0, 10, 0)] * 2)
    done = sheet("show", "--complex", "named.complex.csv", "-", folder=folder, stdin=free.to_bytes())
    line = "named.complex.csv         1              0      0.0      12.5     5.0    0.0"
    check(done.stdout.decode().splitlines()[-1] == line, "show: no control hour", words_of(done))


def test_other_name(folder):
    """A record's text whose name does not say so."""
    hint = "begins as a record's text does, whose name ends in .complex.csv"
    for content in (GOOD, f"\ufeff{GOOD}", GOOD.replace(",", ";")):
        (folder / "a.txt").write_text(content)
        length, count = int.from_bytes(content.encode()[:4], "big"), len(content.encode())
        line = f"a.txt, byte 0: length, {length}, but there are {count} bytes; it {hint} (the month asks for 5961)"
        for command in ("explain", "check"):
            done = sheet(command, "--complex", "a.txt", SMALL, folder=folder)
            check(line in map(str.strip, done.stdout.decode().splitlines()), f"{command}: a record's text named a.txt",
                  words_of(done))
        turned_down("pack", folder, ["pack", "a.txt", "out.complex"], f"tools/sheet: a.txt: {hint}")
    (folder / "plant.csv").write_text(GOOD)
    turned_down("pack", folder, ["pack", "plant.csv", "out.complex"], f'plant.csv, line 1: is "consumer,1", not '
                f"day,giver,taker,amount; it {hint}")


def test_explained(folder):
    """The first number and the first field, with the line of a text or the byte of a record; 10000.0 is allowed."""
    for changes_made, number, line, place, words in EXPLAINED:
        (folder / "text.complex.csv").write_text(changed(NAMED, changes_made))
        sheet("pack", "text.complex.csv", "a.complex", "--force", folder=folder)
        in_text, in_bytes = words if isinstance(words, list) else (words, words)
        for name, said in (("text.complex.csv", f"line {line}: {in_text}"), ("a.complex", f"byte {place}: {in_bytes}")):
            done = sheet("explain", "--complex", name, SMALL, folder=folder)
            wanted = f"refusal {number}: {refusals.RULES[number]}\n{name}, {said}\n"
            check(done.returncode == 0 and done.stdout.decode() == wanted, f"explain: {name}: {said}", words_of(done))
    for content, words in NO_RECORD:
        (folder / "bad.complex").write_bytes(content)
        done = sheet("explain", "--complex", "bad.complex", SMALL, folder=folder)
        check(done.stdout.decode().splitlines()[1] == f"bad.complex, {words} (the month asks for 5961)",
              f"explain: {words}", words_of(done))
    done = sheet("explain", "--complex", "bad.complex", EXAMPLES / "refused-9.toml", folder=folder)
    check(done.stdout.startswith(b"refusal 9: "), "explain: the sheet's numbers come first", words_of(done))
    (folder / "top.complex.csv").write_text(changed(NAMED, [("12.5", "10000.0"), ("100.0,40.0", "10000,10000")]))
    done = sheet("explain", "--complex", "top.complex.csv", SMALL, folder=folder)
    check(done.stdout == b"accepted\n", "explain: the highest powers", words_of(done))
    nobody = records.Sheet(records.Month(31, 1, 0), [], [], []).to_bytes()
    done = sheet("explain", "--complex", "top.complex.csv", "-", folder=folder, stdin=nobody)
    check(done.stdout.decode().splitlines()[1] == "top.complex.csv, line 1: consumer, 1 (the sheet has no consumer)",
          "explain: no consumer", words_of(done))


def test_check(folder):
    """All that is wrong with a sheet and its records; what is unlikely."""
    (folder / "wrong.complex.csv").write_text(WRONG)
    done = sheet("check", "--complex", "wrong.complex.csv", SMALL, folder=folder)
    check(done.returncode == 1 and done.stdout.decode() == ALL_WRONG and not done.stderr, "check --complex",
          words_of(done))
    (folder / "good.complex.csv").write_text(changed(NAMED, [("sent\n100.0", "sent\n100.1")]))
    done = sheet("check", "--complex", "good.complex.csv", SMALL, folder=folder)
    check(done.returncode == 0 and done.stdout.decode() == UNLIKELY and not done.stderr, "check --complex: accepted",
          words_of(done))
    (folder / "equal.complex.csv").write_text(changed(NAMED, [("12.5", "60.0")]))
    done = sheet("check", "--complex", "equal.complex.csv", "--complex", "good.complex.csv", SMALL, folder=folder)
    check(done.returncode == 0 and done.stdout.decode() == UNLIKELY + "".join(f"  {line}\n" for line in (
        "equal.complex.csv: all 744 hours are equal", "equal.complex.csv: the peak comes to 0",
        "consumer 1 (Rolling mill) has 2 records, and the last holds: equal.complex.csv, good.complex.csv")),
        "check --complex: unlikely", words_of(done))
    (folder / "high.complex.csv").write_text(changed(NAMED, [("consumer,1", "consumer,15"), ("100.0,", "900.0,")]))
    done = sheet("check", "--complex", "high.complex.csv", EXAMPLES / "month.sheet", folder=folder)
    check(b"  consumer 15: no row names it, and its peak is far above its contract volume: 847.5 MW and 10.0 MW\n"
          in done.stdout, "check --complex: unlikely after the record", words_of(done))
    (folder / "bad.complex").write_bytes(GOOD_BYTES[:-1])
    done = sheet("check", "--complex", "bad.complex", "--transfers", EXAMPLES / "refused-14.list",
                 EXAMPLES / "refused-10.sheet", folder=folder)
    said = done.stdout.decode()
    numbers = [line.split()[1] for line in said.splitlines() if line.startswith("refusal ")]
    check(done.returncode == 1 and numbers == ["10:", "16:", "13:", "14:"] and said.endswith(
        "\nthe hours of bad.complex cannot be told apart, so they were not looked at\n"),
        "check: a sheet, a record and a list", words_of(done))
    for words, end in ((["--complex", "bad.complex"], "record"),
                       (["--complex", "bad.complex", *LISTS.words(*LISTS.files())], "record or list")):
        done = sheet("check", *words, EXAMPLES / "refused-2.sheet", folder=folder)
        check(done.stdout.decode().endswith(f"nothing after the header was looked at, and no {end}\n"),
              f"check {words}: no places", words_of(done))


# ------------------------------------------------------------------ drawn records

SEED = 20211216
DRAWN = 400
ROUND_TRIPS = 40    # of the drawn records
TOPS = (0, 1, 10, 1000, 5000, 100_000)    # below which powers are drawn


class Case(NamedTuple):
    sheet: bytes
    record: bytes

    def to_bytes(self):
        return programs.list_case_bytes(self.sheet, self.record)


def drawn_sheet(rng):
    """A sheet without producers and rows; some have a peak that is refused, some a length."""
    days = rng.randint(28, 31)
    holidays = rng.choice((0, 1 << rng.randrange(days), rng.getrandbits(days), 2 ** days - 1))
    consumers = [records.Consumer(1000, rng.randrange(2000), 0, 0, 10, 1000)
                 for _ in range(rng.choice((0, 1, 2, 5, 32)))]
    if consumers and rng.random() < 0.05:
        rng.choice(consumers).peak = 100_001
    month = records.Month(days, rng.randint(1, 7), holidays)
    content = records.Sheet(month, [], [], consumers).to_bytes()
    return month, len(consumers), content + b"\0" if rng.random() < 0.04 else content


def drawn_record(rng, month, consumers):
    """A record; most can be applied. Many of its powers are alike, so that halves come up."""
    top, other = rng.choice(TOPS), rng.choice(TOPS)
    powers = [[rng.randint(0, each) for _ in range(6)] for each in (top, other)]
    hours = [tuple(rng.choice(each) for each in powers) for _ in range(month.hours)]
    consumer = rng.randrange(consumers) if consumers and rng.random() < 0.95 else rng.choice((consumers, 255))
    imported = rng.choice((0, 1, top // 3, top // 2, top))
    for _ in range(rng.choice((0, 0, 0, 0, 0, 1, 3))):
        hours[rng.randrange(len(hours))] = rng.choice(((100_001, 0), (0, 100_001), (2 ** 32 - 1, 100_000)))
    if rng.random() < 0.05:
        imported = rng.choice((100_001, 2 ** 32 - 1))
    content = record_bytes(consumer, imported, hours)
    if rng.random() < 0.9:
        return content
    return rng.choice((content[:rng.randrange(len(content))], content + b"\0", record_bytes(consumer, 0, hours[:-24]),
                       struct.pack(">I", len(content) + 1) + content[4:],
                       struct.pack(">I", len(content) + 5) + content[4:] + bytes(5)))


def draw():
    """Sheets, each with a record."""
    rng, cases = random.Random(SEED), []
    for _ in range(DRAWN):
        month, consumers, content = drawn_sheet(rng)
        cases.append(Case(content, drawn_record(rng, month, consumers)))
    return cases


def first_of(case):
    """The first refusal that the aid finds, and the sheet after the record."""
    given = inputs.Given("sheet", case.sheet, names.NO_NAMES, "", [], False)
    found, after = changing.judged(given, [GivenRecord("record", case.record, False)])
    return found[0] if found else None, after


def test_drawn(folder):
    """explain has the rival's number, and the sheet after an applied record; records come back from their texts."""
    cases, found = draw(), {}
    answers, texts = programs.rival_answers(cases, folder, "averages"), 0
    for place, (case, answer) in enumerate(zip(cases, answers)):
        first, after = first_of(case)
        number, rival = first.number if first else 0, answer if isinstance(answer, int) else 0
        found[rival] = found.get(rival, 0) + 1
        check(number == rival, f"explain: drawn record {place}: {number}, the rival has {rival} (0: applied)")
        check(rival or after.to_bytes() == answer, f"show: drawn record {place}: the sheet after it")
        given = GivenRecord("record", case.record, False)
        check(given.known() or rival, f"unpack: drawn record {place}: turned down, though the rival applies it")
        if given.known() and texts < ROUND_TRIPS:
            texts += 1
            text = folder / "text.complex.csv"
            text.write_text(given.as_text())
            check(GivenRecord.read_text(text) == case.record, f"pack after unpack: drawn record {place}")
    check(set(found) == {0, 2, 9, *refusals.TRIED_IN_RECORD} and min(found.values()) >= 10,
          f"explain: the drawn records reach the numbers {found}")
    check_places(cases, answers, folder)


def check_places(cases, answers, folder):
    """The field that explain names is the one: when it is repaired, what is named next stands behind it."""
    repaired = []
    for case, answer in zip(cases, answers):
        record = GivenRecord("record", case.record, False)
        if answer not in refusals.TRIED_IN_RECORD or not record.known() or not case.sheet[13]:
            continue
        packed, last = bytearray(case.record), (0, -1)
        while (first := first_of(case._replace(record=bytes(packed)))[0]) is not None and first.entry:
            turn = refusals.turn(first.number), first.place
            check(turn > last, f"explain: byte {first.place} after {last}")
            if turn <= last:
                break
            last = turn
            packed[first.place:first.place + first.entry.field.width] = bytes(first.entry.field.width)
        if first is None:
            repaired.append(case._replace(record=bytes(packed)))
    check(len(repaired) >= 30, f"explain: only {len(repaired)} records were repaired")
    for answer in programs.rival_answers(repaired, folder, "averages"):
        check(isinstance(answer, bytes), f"explain: a repaired record, but the rival refuses it by {answer}")
