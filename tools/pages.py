"""The parts of documents that a command writes: each stands between two lines that name the command."""
from pathlib import Path


def around_part(page, command):
    """The page before and after what the command wrote last, the two lines included."""
    first, last = (f"<!-- {command}: {which} line -->\n" for which in ("first", "last"))
    text = Path(page).read_text()
    if text.count(first) != 1 or last not in text[text.index(first):]:
        raise ValueError(f"{page}: has no part for '{command}'")
    begin = text.index(first) + len(first)
    return text[:begin], text[text.index(last, begin):]


def write_part(page, command, words):
    """Puts words in the place of those that the command wrote last."""
    front, back = around_part(page, command)
    Path(page).write_text(f"{front}\n{words.strip()}\n\n{back}")
