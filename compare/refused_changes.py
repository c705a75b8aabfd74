"""What refused_lists.py and refused_records.py share: sheets that are turned down, with a list or record that would be
taken, and damaged lists and records."""
import refused
from refusals import BUFFER_NUMBER, TRIED

# The sheet's own numbers where there is no result buffer, and the last of them by version: 18 is for versions 2 and 3.
OF_SHEET = tuple(number for number in TRIED if number != BUFFER_NUMBER)
LAST_OF_SHEET = OF_SHEET[-2:]


def refused_sheets(with_good):
    """By every cause. with_good: from the drawing of a sheet, that of the sheet with a good list or record."""
    return {number: {name: with_good(draw) for name, draw in refused.REFUSALS[number].items()} for number in OF_SHEET}


def one_byte_changed(rng, content):
    content[rng.randrange(len(content))] = rng.choice((0, 1, 31, 32, 127, 128, 255, rng.randrange(256)))


def one_bit_changed(rng, content):
    content[rng.randrange(len(content))] ^= 1 << rng.randrange(8)


DAMAGES = (refused.cut_short, refused.lengthened, refused.any_bytes, refused.all_noughts, refused.all_ones, refused.empty)


def damaged(damage, draw_good):
    def draw(rng):
        sheet, given = draw_good(rng)
        content = bytearray(given.to_bytes())
        damage(rng, content)
        return sheet, bytes(content)
    return draw


def damaged_kinds(damages, draw_good, with_good):
    """Lists or records that are damaged, in one of these ways or as any bytes are; damaged sheets."""
    found = {damage.__name__: damaged(damage, draw_good)
             for damage in (one_byte_changed, one_bit_changed, *damages, *DAMAGES)}
    found.update((f"sheet_{name}", with_good(draw)) for name, draw in refused.DAMAGED.items())
    return found
