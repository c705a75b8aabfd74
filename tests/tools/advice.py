"""check, new, and the names in what explain and show say."""
import monthtext
import refusals
from checks import EXAMPLES, SHEET, check, files_in, run, sheet, turned_down, words_of
from texts import CONSTANT, CSV, GOOD, ROW, changed

ACCEPTED = "accepted\n"
WRONG = [
    # Number 12 is broken in front of number 8 in the text, and many hours are above 10000.0 MW.
    ("holidays = []", 'holidays = []\nconsumer = [ { contract_volume = "10000.1", peak = "1", grid_mining_days = 0, '
                      'supplier_mining_days = 29, z = "0.9", price = "2000000.01" } ]'),
    ("[[consumer]]" + GOOD.split("[[consumer]]")[1], ""),
    ("bid = 72", "bid = 673"), ("bid = 36", "bid = 700"), ('k3 = "0.985"', 'k3 = "1.000001"'),
    (CONSTANT, 'hours = "hours.csv"'), ('"single buyer"', "7"),
    ('price = "1000.05"', 'price = "2000000.02"\nfirst_day = 0\nlast_day = 29'),
    ("[[producer]]", '[[producer]]\nname = "North"'),
]
ALL_WRONG = """\
refusal 8: a count of hours is above the hours of the month, or a given coefficient is above 1
  producer 0 (North), hours without an upward bid, 673 hours (at most 672)
  producer 0 (North), hours without a downward bid, 700 hours (at most 672)
  producer 0 (North), k3, 1.000001 (at most 1)
refusal 9: a capacity, power, volume or peak is above 10000.0 MW
  producer 0 (North), possible power of 3 hours, the first hour 30 (day 2, 6:00), 10000.1 MW (at most 10000.0)
  producer 0 (North), hour 31 (day 2, 7:00), outside-use power, 99999.0 MW (at most 10000.0)
  consumer 0, contract volume, 10000.1 MW (at most 10000.0)
refusal 10: a row names a producer or a consumer that the sheet does not have
  row 0, consumer, 7 (the sheet has 1, numbered from 0; 255 is the single buyer)
refusal 11: a price is above 2000000.00 tenge
  row 0, price, 2000000.02 tenge (at most 2000000.00)
  consumer 0, price, 2000000.01 tenge (at most 2000000.00)
refusal 12: mining days are above the days of the month, or z is outside 1.0 to 10.0
  consumer 0, mining days of the supplier, 29 days (at most 28)
  consumer 0, z, 0.9 (from 1.0 to 10.0)
refusal 18: a row begins before day 1, ends before it begins, or ends after the month does
  row 0, first day, 0 (from 1 to 28)
  row 0, last day, 29 (from 1 to 28)
"""
# Changes of the good text, and the line that check then has under "legal, but unlikely".
UNLIKELY = [
    ([], "producer 0: all 672 hours are equal"),
    ([('working = "99.0"', 'working = "110.6"')], "producer 0: working power is above possible power in 672 hours, "
                                                  "the first hour 0 (day 1, 0:00): 110.6 MW and 110.5 MW"),
    ([('"110.0"', '"0"')], "producer 0: attested capacity is 0"),
    ([('k6 = "1.0"', 'k6 = "0"')], "producer 0: k6 is 0, so its rows bring nothing"),
    ([("[[row]]", "[[producer]]\n" + GOOD.split("[[producer]]")[1].split("[[row]]")[0] + "[[row]]"),
      ("[[producer]]", '[[producer]]\nname = "One"')], "producer 1 (One): no row names it"),
    ([("[[row]]", "[[producer]]\n" + GOOD.split("[[producer]]")[1].split("[[row]]")[0] + "[[row]]"),
      ("[[producer]]", '[[producer]]\nname = "One"')], "2 producers have the name One"),
    ([('volume = "100.0"\nprice = "1000.05"', 'volume = "0"\nprice = "1000.05"')], "row 0: volume is 0"),
    ([('price = "1000.05"', 'price = "0"')], "row 0: price is 0"),
    ([(ROW, f"{ROW}first_day = 1\nlast_day = 15\n{ROW}first_day = 16\nlast_day = 28\n")],
     "row 1: it has the producer and the buyer of row 0, on other days; in the cut, T and S both count as if they "
     "covered the month"),
    ([('price = "1000.00"', 'price = "0"')], "consumer 0: price is 0"),
    ([('peak = "126.0"', 'peak = "150.1"')],
     "consumer 0: no row names it, and its peak is far above its contract volume: 150.1 MW and 100.0 MW"),
    ([("holidays = []", f"holidays = {list(range(1, 29))}")],
     "the month has no control hour, since every day from Monday to Friday is a holiday"),
]
LIKELY = [(ROW, f"{ROW}first_day = 1\nlast_day = 15\n{ROW}first_day = 15\nlast_day = 28\n"),
          ('peak = "126.0"', 'peak = "150.0"'), ("[[consumer]]", '[[consumer]]\nname = "One"'),
          ("[[producer]]", '[[producer]]\nname = "One"'), ('working = "99.0"', 'working = "110.5"')]


def test_check(folder):
    """All that would be refused, in its order, with every field; the hours of one power together."""
    hours = CSV.splitlines(keepends=True)
    for number in (30, 31, 33):
        hours[number + 1] = "99.0,10000.1,10.0\n"
    hours[32] = "99.0,10000.1,99999\n"
    (folder / "hours.csv").write_text("".join(hours))
    text = folder / "month.toml"
    text.write_text(changed(GOOD, WRONG))
    done = sheet("check", "month.toml", folder=folder)
    check(done.returncode == 1 and done.stdout.decode() == ALL_WRONG and not done.stderr, "check: a text",
          words_of(done))
    sheet("pack", "month.toml", "month.sheet", folder=folder)
    done = sheet("check", "-", folder=folder, stdin=(folder / "month.sheet").read_bytes())
    lines = done.stdout.decode().splitlines()
    check(len(lines) == ALL_WRONG.count("\n") and "  byte 420: producer 0, possible power of 3 hours" in lines[5],
          "check: a sheet names the bytes", words_of(done))
    for path in EXAMPLES.glob("*.sheet"):
        listing = path.with_suffix(".listing").read_text()
        done = sheet("check", path)
        first = f"refusal {listing[1:-1]}: " if listing.startswith("N") else ACCEPTED
        check(done.returncode == listing.startswith("N") and done.stdout.decode().startswith(first),
              f"check: {path.stem}", words_of(done))
    done = sheet("check", EXAMPLES / "refused-2.sheet")
    check(b"nothing after the header was looked at" in done.stdout, "check: no places", words_of(done))
    header = bytes.fromhex("0000000e 09 1b 08 ffffffff 00 00 00")
    done = sheet("check", "-", stdin=header)
    numbers = [refusal.number for refusal in refusals.all_refusals(header)]
    check(numbers == [3] + [4] * 7 and done.stdout.count(b"\n") == 2 + len(numbers), "check: every fault of a header",
          words_of(done))


def test_unlikely(folder):
    text = folder / "month.toml"
    for changes, line in UNLIKELY:
        text.write_text(changed(GOOD, changes))
        done = sheet("check", "month.toml", folder=folder)
        check(done.returncode == 0 and done.stdout.decode().startswith(f"{ACCEPTED}\nlegal, but unlikely:\n")
              and f"  {line}\n" in done.stdout.decode(), f"check: {line}", words_of(done))
    (folder / "hours.csv").write_text(CSV.replace("99.0", "98.0", 1))
    text.write_text(changed(GOOD, [*LIKELY, (changed(CONSTANT, LIKELY[-1:]), 'hours = "hours.csv"')]))
    done = sheet("check", "month.toml", folder=folder)
    check(done.returncode == 0 and done.stdout.decode() == ACCEPTED, "check: nothing unlikely", words_of(done))


def test_text_faults(folder):
    """Of a text that cannot be packed, all faults at once; pack names the first and the count of the others."""
    lines = CSV.splitlines(keepends=True)
    lines[2:7] = ["1,2\n"] * 4 + ["a,b,c\n"]
    (folder / "hours.csv").write_text("".join(lines))
    (folder / "month.toml").write_text(changed(GOOD, [
        ("year = 2021", "year = 0"), ("holidays = []", "holiday = []"), ('"110.0"', '"1 10"'), ("bid = 36", "bid = -1"),
        (CONSTANT, 'hours = "hours.csv"'), ('\nvolume = "100.0"', ""), ("[[consumer]]", '[[consumer]]\nname = ""'),
        ('z = "1.0"', "z = 25.6")]))
    wanted = [
        'the key "holiday" is unknown; known are', "year: 0 is not a whole number from 1 to 9999",
        "the key holidays is missing", 'producer 0: attested_capacity: "1 10" is not a number',
        "producer 0: hours_without_downward_bid: -1 is negative",
        *(f"producer 0: hours: hours.csv, line {line}: has not 3 figures" for line in (3, 4, 5)),
        "producer 0: hours: hours.csv: more lines that are wrong: 2", "row 0: the key volume is missing",
        'consumer 0: z: "25.6" does not fit', "consumer 0: name: is empty",
    ]
    done = sheet("check", "month.toml", folder=folder)
    said = done.stderr.decode().splitlines()
    check(done.returncode == 1 and not done.stdout and len(said) == len(wanted), "check: a bad text", words_of(done))
    for line, words in zip(said, wanted):
        check(line.startswith(f"tools/sheet: month.toml: {words}"), f"check: a bad text: {words}", line)
    turned_down("pack", folder, ["pack", "month.toml", "new.sheet"],
                f"(and {len(wanted) - 1} more; tools/sheet check lists them all)")


def test_new(folder):
    """A text to be filled in packs at once, is accepted, and is written whole or not at all."""
    done = sheet("new", "2021-12", "--producers", "2", "--rows", "4", "--consumers", "3", folder=folder)
    names = {"2021-12.toml", "2021-12-producer-0.csv", "2021-12-producer-1.csv"}
    check(set(done.stdout.decode().split()) == names == {path.name for path in files_in(folder)}, "new", words_of(done))
    text = monthtext.read_month_text(str(folder / "2021-12.toml"))
    counts = [len(each) for each in (text.sheet.producers, text.sheet.rows, text.sheet.consumers)]
    check(counts == [2, 4, 3] and text.title == "December 2021", "new: the counts and the month", str(counts))
    done = sheet("check", "2021-12.toml", folder=folder)
    check(done.returncode == 0 and done.stdout.startswith(b"accepted\n"), "new: is accepted", words_of(done))
    check_new_days(folder / "2021-12.toml")
    check_new_version(folder / "2021-12.toml")
    for counts in ((0, 0, 0), (6, 32, 32), (1, 32, 0), (0, 0, 32)):
        words = [word for pair in zip(("--producers", "--rows", "--consumers"), counts) for word in pair]
        done = sheet("new", "0001-02", "a b.toml", *words, "--force", folder=folder)
        content = monthtext.read_sheet(str(folder / "a b.toml"))[0].to_bytes()
        check(refusals.all_refusals(content) == [], f"new: {counts}", words_of(done))
    for words, message, status in (
        (["2021-12"], "2021-12-producer-0.csv: exists; --force writes over it", 1),
        (["2021-11", "--producers", "0", "--rows", "1"], "a row names a producer", 1),
        (["2021-11", "none/new.toml"], "cannot be written: No such file", 1), (["2021-11", "."], ".: is a folder", 1),
        (["2021-13"], "2021-13 is no month written as 2021-12", 2), (["0000-12"], "is no month", 2),
        (["12-2021"], "is no month", 2), (["2021-11", "-"], "a text is read from a file", 2),
        (["2021-11", "--rows", "33"], "33 is no whole number from 0 to 32", 2),
        (["2021-11", "--producers", "-1"], "usage: tools/sheet new", 2),
    ):
        turned_down(f"new {words}", folder, ["new", *words], message, status=status)
    done = run(SHEET, "new", "2022-02", "\udcff.toml", folder=folder)
    check(done.returncode == 1 and b"is not text in UTF-8" in done.stderr, "new: a name that is no text",
          words_of(done))


def check_new_days(path):
    """The days of a row stand in the text as remarks, which can be taken as they are."""
    without, text = monthtext.read_sheet(str(path))[0], path.read_text()
    check(text.count("# first_day = 1 ") == text.count("# last_day = 31\n") == 4, "new: the days of each row", text)
    path.write_text(text.replace("# first_day", "first_day").replace("# last_day", "last_day"))
    stated, _ = monthtext.read_sheet(str(path))
    days = [(row.first_day, row.last_day) for row in stated.rows]
    check((without.version, stated.version, days) == (1, 2, [(1, 31)] * 4), "new: the days are stated", str(days))
    check(refusals.all_refusals(stated.to_bytes()) == [], "new: with days it is accepted")
    path.write_text(text)


def check_new_version(path):
    """So does the version, with what it is if it is left out."""
    text = path.read_text()
    check(text.count("\n# version = 3  # of the sheet, its hours as columns; without this line 2 if a row states its "
                     "days, else 1\n") == 1, "new: the version", text)
    path.write_text(text.replace("# version", "version"))
    stated, _ = monthtext.read_sheet(str(path))
    check(stated.version == 3 and {row.days(stated.month) for row in stated.rows} == {(1, 31)}
          and refusals.all_refusals(stated.to_bytes()) == [], "new: the version is stated")
    path.write_text(text)


def test_named():
    """show and explain take texts, and use their names."""
    done = sheet("show", EXAMPLES / "small.toml")
    lines = done.stdout.decode().splitlines()
    for line in ("0 Northern plant     110.0        10.0        1.5             12                0        0  "
                 "1.0  0.985  1.0  1.0  1.0  1.0",
                 "0 Northern plant  80352.0   81840.0   7440.0            120            10.00  0.00      0.0  0.0",
                 "  1  0 Northern plant  1 Rolling mill    20.0  590000.00"):
        check(line in lines, f"show: {line}", words_of(done))
    title = ("Hours, the powers of 744 hours summed, in MWh; control average of outside use and D, in MW; "
             "D in percent of deductible; n")
    check(title in lines, "show: the units of the hours", words_of(done))
    done = sheet("explain", EXAMPLES / "refused-9.toml")
    check(done.stdout.decode().splitlines()[1].startswith("producer 0, hour 431 (day 18, 23:00), possible power, "),
          "explain: a text", words_of(done))


def test_order():
    """The order in which numbers are tried is one list; what is first goes by it, not by size."""
    numbers = (*refusals.TRIED, *refusals.TRIED_IN_LIST, *refusals.TRIED_IN_RECORD)
    check(sorted(numbers) == sorted(refusals.RULES), "refusals: every number has its rule and its turn")
    check([refusals.turn(number) for number in numbers] == list(range(len(numbers))),
          "refusals: the numbers of a list and of a record are tried after the sheet's")
    content = bytearray((EXAMPLES / "refused-9.sheet").read_bytes())
    content[26:28] = b"\xff\xff"
    kept = refusals.TRIED
    try:
        check(refusals.first_refusal(content).number == 8, "refusals: 8 before 9")
        refusals.TRIED = (1, 2, 3, 4, 5, 6, 7, 9, 8, 10, 11, 12, 18)
        check(refusals.first_refusal(content).number == 9, "refusals: the order is the list's")
        check(refusals.tried_before(8)[-1] == 9 and refusals.tried_from(9)[1] == 8, "refusals: before and after")
    finally:
        refusals.TRIED = kept
