"""Names of producers and consumers, as the text of a month gives them. A sheet holds none."""
import unicodedata
from typing import NamedTuple

LONGEST_NAME = 80                                # characters
NOT_IN_NAMES = ("Cc", "Cf", "Cs", "Zl", "Zp")    # Unicode's control and format characters, and its ends of lines


class Names(NamedTuple):
    producer: dict     # names by number
    consumer: dict

    def of(self, kind, number):
        """A producer's or consumer's name, or None."""
        return getattr(self, kind, {}).get(number)

    def label(self, kind, number):
        """As 'producer 0 (Northern plant)', or 'producer 0' if it has no name."""
        name = self.of(kind, number)
        return f"{kind} {number}" + (f" ({name})" if name else "")

    def cell(self, kind, number):
        """The same in a table, as '0 Northern plant'."""
        return f"{number} {self.of(kind, number) or ''}".rstrip()


NO_NAMES = Names({}, {})


def wrong_character(name):
    """The first character that a name may not have, as U+000A; or None."""
    return next((f"U+{ord(each):04X}" for each in name if unicodedata.category(each) in NOT_IN_NAMES), None)


def width(text):
    """The columns that a text takes on a terminal."""
    return sum(0 if unicodedata.combining(each) else 2 if unicodedata.east_asian_width(each) in "WF" else 1
               for each in text)
