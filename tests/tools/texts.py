"""Texts of a month, good and bad: what pack takes, and what it says of the others."""
import monthtext
from checks import check, turned_down
from files import Trouble

GOOD = """\
year = 2021
month = 2
holidays = []

[[producer]]
attested_capacity = "110.0"
deductible_capacity = "10.0"
own_needs = "0.5"
hours_without_upward_bid = 72
hours_without_downward_bid = 36
hours_without_plan = 0
k3 = "0.985"
k6 = "1.0"
k7 = "1.0"
k8 = "1.0"
k9 = "1.0"
k10 = "0.000001"
hours = { working = "99.0", possible = "110.5", outside = "10.0" }

[[row]]
producer = 0
consumer = "single buyer"
volume = "100.0"
price = "1000.05"

[[consumer]]
contract_volume = "100.0"
peak = "126.0"
supplier_mining_days = 0
grid_mining_days = 0
z = "1.0"
price = "1000.00"
"""
ROW = """\
[[row]]
producer = 0
consumer = "single buyer"
volume = "100.0"
price = "1000.05"
"""
CONSTANT = 'hours = { working = "99.0", possible = "110.5", outside = "10.0" }'
CSV = "working,possible,outside\n" + 672 * "99.0,110.5,10.0\n"
MONTH = "year = 2021\nmonth = 2\nholidays = []"
# A list that takes back what examples/transfers.csv does to its month.
BACK = "day,giver,taker,amount\n1,19,8,5.5\n1,10,29,16.0\n1,29,31,20.0\n"

# Other ways to write the same month.
SAME = {
    "days and weekday": [("year = 2021\nmonth = 2", "days = 28\nweekday = 1")],
    "bare numbers": [('"110.0"', "110.0"), ('"100.0"', "100"), ('"1000.05"', "1000.05"), ('"0.985"', "0.985")],
    "noughts at the end": [('"110.0"', '"110.000"'), ('"1000.05"', '"01000.0500"'), ('"0.985"', '"0.98500000"')],
    "no noughts": [('"110.0"', '"110"'), ('"1000.00"', '"1000"'), ('z = "1.0"', "z = 1")],
    "names": [("[[consumer]]", '[[consumer]]\nname = "ТОО «Мыс, \'Балхаш\'»"'),
              ("[[producer]]", '[[producer]]\nname = "x"')],
    "lines as Windows ends them": [("\n", "\r\n")],
    "a byte order mark": [("year", "\ufeffyear")],
    "hours in a file": [(CONSTANT, 'hours = "hours.csv"')],
    "one line for a record": [
        (ROW, ""),
        ("holidays = []", f"holidays = []\nrow = [ {{ {', '.join(ROW.splitlines()[1:])} }} ]")],
    "version 1": [("holidays = []", "holidays = []\nversion = 1")],
}

# A change of the good text, and words of the message.
BAD = [
    ("year = 2021", "year = ", "month.toml: is no TOML: Invalid value (at line 1"),
    ("year = 2021", "year = 2021\nyear = 2022", "month.toml: is no TOML"),
    ("holidays = []", "holidays = " + 5000 * "[", "is no TOML"),
    ("year = 2021", "year = " + 5000 * "9", "is no TOML"),
    ("year = 2021", "year = true", "year: True is not a whole number"),
    ("year = 2021", "year = 0", "year: 0 is not"),
    ("month = 2", "month = 13", "month: 13 is not a whole number from 1 to 12"),
    ("month = 2", "", "the key month is missing"),
    ("year = 2021\nmonth = 2", "", "the key days is missing"),
    ("year = 2021\nmonth = 2", "days = 28", "the key weekday is missing"),
    ("month = 2", "month = 2\ndays = 28", "days: follows from year and month"),
    ("year = 2021\nmonth = 2", "days = 256\nweekday = 1", "days: 256 does not fit its field, which holds at most 255"),
    ("year = 2021\nmonth = 2", "days = 28\nweekday = -1", "weekday: -1 is negative"),
    ("holidays = []", "", "the key holidays is missing"),
    ("holidays = []", "holidays = 7", "holidays: is no list"),
    ("holidays = []", "holidays = [2021-03-01]", "holidays: 2021-03-01 is outside the month"),
    ("holidays = []", "holidays = [2020-02-08]", "holidays: 2020-02-08 is outside the month"),
    ("holidays = []", 'holidays = ["2021-02-29"]', 'holidays: "2021-02-29" is no date'),
    ("holidays = []", "holidays = [2021-02-08T00:00:00]", "is neither a date nor a day from 1 to 28"),
    ("holidays = []", "holidays = [0]", "holidays: 0 is neither"),
    ("holidays = []", "holidays = [29]", "holidays: 29 is neither a date nor a day from 1 to 28"),
    ("holidays = []", "holidays = [8, 2021-02-08]", "holidays: day 8 stands there twice"),
    (MONTH, "days = 28\nweekday = 1\nholidays = [2021-02-08]", "holidays: 2021-02-08 is a date"),
    (MONTH, "days = 28\nweekday = 1\nholidays = [33]", "a day from 1 to 32"),
    ("holidays = []", "holidays = []\nversion = 0", "month.toml: version: 0 is not a whole number from 1 to 3"),
    ("holidays = []", "holidays = []\nversion = 4", "version: 4 is not a whole number from 1 to 3"),
    ("holidays = []", 'holidays = []\nversion = "3"', 'version: "3" is not a whole number from 1 to 3'),
    ("holidays = []", "holidays = []\nproducers = 1", 'the key "producers" is unknown'),
    ("holidays = []", 'holidays = []\n"a\\nb" = 1', 'the key "a\\nb" is unknown'),
    ("[[consumer]]", "[consumer]", "consumer: each one begins with [[consumer]], in two brackets"),
    ("holidays = []", "holidays = []\nconsumer = 1", "is no TOML"),
    ("[[row]]", "[[consumer]]", "consumer 0: the key \"producer\" is unknown"),
    ('own_needs = "0.5"', "", "producer 0: the key own_needs is missing"),
    ('k10 = "0.000001"', 'k10 = "0.000001"\nk4 = "1.0"', 'producer 0: the key "k4" is unknown'),
    ('"110.0"', '"110.05"', 'producer 0: attested_capacity: "110.05" has more than one decimal'),
    ('"110.0"', "110.05", "has more than one decimal"),
    ('"1000.05"', '"1000.005"', 'row 0: price: "1000.005" has more than two decimals'),
    ('"0.985"', '"0.9850001"', 'k3: "0.9850001" has more than 6 decimals'),
    ('"110.0"', '"-1.0"', '"-1.0" is negative'),
    ('"110.0"', "-1", "-1 is negative"),
    ('"110.0"', "-0.1", "is negative"),
    ('"110.0"', "true", "True is no number"),
    ('"110.0"', "2021-02-08", "2021-02-08 is no number"),
    ('"110.0"', "[]", "a list is no number"),
    ('"110.0"', f"[0x{5000 * 'f'}]", "a list is no number"),
    ('"110.0"', "{ a = 1 }", "a table is no number"),
    ('"110.0"', "1e2", "is not a number written plainly"),
    ('"110.0"', "inf", "is not a number written plainly"),
    ('"110.0"', "nan", "is not a number written plainly"),
    ('"110.0"', '"110,0"', "is not a number written plainly"),
    ('"110.0"', '"1 100.0"', "is not a number written plainly"),
    ('"110.0"', '""', "is not a number written plainly"),
    ('"110.0"', '".5"', "is not a number written plainly"),
    ('"110.0"', '"\u0661\u0661"', "is not a number written plainly"),
    ('"110.0"', '"429496729.6"', "does not fit its field, which holds at most 429496729.5"),
    ('"110.0"', f'"{5000 * "9"}"', "is too large"),
    ('"110.0"', "0x" + 5000 * "f", "this number does not fit its field"),
    ('"1000.05"', '"42949672.96"', "does not fit its field, which holds at most 42949672.95"),
    ("bid = 72", "bid = 72.5", "has decimals, and a whole number is asked for"),
    ("bid = 72", "bid = 65536", "does not fit its field, which holds at most 65535"),
    ("producer = 0", "producer = 256", "row 0: producer: 256 does not fit"),
    ("producer = 0", "producer = -1", "row 0: producer: -1 is negative"),
    ('"single buyer"', '"somebody"', 'row 0: consumer: "somebody" is not a number written plainly'),
    ('"single buyer"', "255", 'month.toml: row 0: consumer: 255 stands for the single buyer in a sheet; in a text '
                              'write "single buyer"'),
    ('"single buyer"', '"255"', 'row 0: consumer: "255" stands for the single buyer'),
    ("[[consumer]]", "[[consumer]]\nname = 5", "consumer 0: name: 5 is no text in quotes"),
    ("[[consumer]]", '[[consumer]]\nname = " "', "consumer 0: name: is empty"),
    ("[[consumer]]", '[[consumer]]\nname = "a\\nb"', "consumer 0: name: has the control character U+000A"),
    ("[[producer]]", '[[producer]]\nname = "a\\u202eb"', "producer 0: name: has the control character U+202E"),
    ("[[producer]]", f'[[producer]]\nname = "{81 * "x"}"', "producer 0: name: has 81 characters, and 80 are allowed"),
    ("[[row]]", '[[row]]\nname = "x"', 'row 0: the key "name" is unknown'),
    ('z = "1.0"', 'z = "25.6"', "consumer 0: z: \"25.6\" does not fit"),
    ("supplier_mining_days = 0", "supplier_mining_days = 256", "does not fit"),
    (CONSTANT, "hours = 5", "producer 0: hours: is neither a file's name nor three powers"),
    (CONSTANT, 'hours = { working = "99.0", possible = "110.5" }', "producer 0: hours: the key outside is missing"),
    (CONSTANT, 'hours = { working = "9", possible = "1", outside = "1", more = "1" }', 'the key "more" is unknown'),
    (CONSTANT, 'hours = { working = "9.99", possible = "1", outside = "1" }', 'working: "9.99" has more than one'),
    (CONSTANT, 'hours = "none.csv"', "none.csv: cannot be read: No such file"),
    (CONSTANT, 'hours = "a\\u0000b"', "cannot be read"),
    ("[[row]]", 256 * '[[row]]\nproducer = 0\nconsumer = 0\nvolume = "1"\nprice = "1"\n' + "[[row]]",
     "row: there are 257; the count byte holds at most 255"),
]


def first_hour(line):
    """The good CSV file with another first hour, which stands in line 2."""
    return CSV.replace("99.0,110.5,10.0\n", line, 1).encode()


# A CSV file in place of the good one, and words of the message.
BAD_CSV = [
    (b"", "hours.csv, line 1: is empty, not working,possible,outside"),
    (CSV.replace("working,", "worked,").encode(),
     'hours.csv, line 1: is "worked,possible,outside", not working,possible,outside'),
    (CSV.replace(",", ";").encode(), 'hours.csv, line 1: is "working;possible;outside", not working,possible,outside'),
    (CSV[:-16].encode(), "hours.csv: has 671 lines after the head; the month has 672 hours"),
    (CSV.encode() + b"1,1,1\n", "hours.csv: has 673 lines after the head"),
    (CSV.encode() + b"\n", "hours.csv: has 673 lines after the head"),
    (first_hour("\n"), "hours.csv, line 2: is empty"),
    (first_hour("99.0,110.5,10,0\n"), "hours.csv, line 2: has not 3 figures"),
    (first_hour("99.0,110.55,10.0\n"), 'hours.csv, line 2: possible: "110.55" has more than one'),
    (first_hour("99.0,110.5,-1\n"), 'hours.csv, line 2: outside: "-1" is negative'),
    (first_hour("99.0,,1\n"), 'hours.csv, line 2: possible: "" is not a number'),
    (first_hour("429496729.6,1,1\n"), "hours.csv, line 2: working: \"429496729.6\" does not fit"),
    (CSV.encode().replace(b"99.0", b"99\xff", 1), "hours.csv, line 2: is not text in UTF-8"),
]


def changed(text, changes):
    for old, new in changes:
        assert old in text, old
        text = text.replace(old, new)
    return text


def test_same(folder):
    text = folder / "month.toml"
    (folder / "hours.csv").write_text(CSV)
    text.write_text(GOOD)
    wanted = monthtext.read_sheet(str(text))[0].to_bytes()
    for name, changes in SAME.items():
        text.write_bytes(changed(GOOD, changes).encode())
        try:
            check(monthtext.read_sheet(str(text))[0].to_bytes() == wanted, f"pack: {name}: the same sheet")
        except Trouble as trouble:
            check(False, f"pack: {name}", str(trouble))
    text.write_text(changed(GOOD, [("holidays = []", 'holidays = ["2021-02-28", 2021-02-01, 8]')]))
    check(monthtext.read_sheet(str(text))[0].month.holidays == 1 << 27 | 1 << 7 | 1, "pack: holidays as dates and days")


def test_bad(folder):
    text = folder / "month.toml"
    for old, new, message in BAD:
        text.write_bytes(changed(GOOD, [(old, new)]).encode())
        turned_down("pack", folder, ["pack", "month.toml", "out.sheet"], message)
    text.write_text(changed(GOOD, [(CONSTANT, 'hours = "hours.csv"')]))
    for content, message in BAD_CSV:
        (folder / "hours.csv").write_bytes(content)
        turned_down("pack", folder, ["pack", "month.toml", "out.sheet"], f"month.toml: producer 0: hours: {message}")
    text.write_bytes(b"# \xff\n")
    turned_down("pack", folder, ["pack", "month.toml", "out.sheet"], "month.toml, line 1: is not text in UTF-8")
