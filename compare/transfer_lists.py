"""A list of transfers as it is drawn, good or to be turned down, and the contract volumes in a sheet's bytes."""
import struct
from dataclasses import dataclass

from records import FRONT, FRONT_PACKING, HEADER, LIST_VERSION, Header, entries

VOLUME = struct.Struct(">I")


@dataclass
class TransferList:
    transfers: list
    # The rest differs only in lists that are to be turned down.
    version: int = LIST_VERSION
    stated_length: int = None    # in place of the true length
    surplus: bytes = b""         # added after the last entry
    lost: int = 0                # bytes left off at the end

    def to_bytes(self):
        body = b"".join(transfer.to_bytes() for transfer in self.transfers) + self.surplus
        body = body[:len(body) - self.lost]
        length = FRONT + len(body) if self.stated_length is None else self.stated_length
        return FRONT_PACKING.pack(length, self.version) + body


# ------------------------------------------------------------------ contract volumes of a sheet that gets past 6


def contract_places(sheet):
    """Where each consumer's contract volume begins: it is the first field of its record."""
    return [place for kind, _, place, _ in Header.from_bytes(sheet).records() if kind == "consumer"]


def contract_volumes(sheet):
    return [VOLUME.unpack_from(sheet, place)[0] for place in contract_places(sheet)]


def with_contract_volumes(sheet, volumes):
    """The sheet with these contract volumes and no other byte changed."""
    content = bytearray(sheet)
    for place, volume in zip(contract_places(sheet), volumes):
        VOLUME.pack_into(content, place, volume)
    return bytes(content)


def field_at(sheet, place):
    """The name of the field that holds the byte at a place of a sheet."""
    if place < HEADER:
        return "header"
    for entry in entries(sheet):
        if entry.place <= place < entry.place + entry.field.width:
            return entry.where()
    return "past the sheet"
