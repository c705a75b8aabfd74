"""The record of an industrial complex as it is drawn, good or to be turned down, and its peak.

The peak here serves to draw records near a figure. No answer is held to it: these are held to the rival's.
"""
import struct
from array import array
from dataclasses import dataclass

from records import COMPLEX_FRONT, COMPLEX_PACKING, CONSUMER_PACKING, TENTH, Header

PEAK = slice(4, 8)    # of a consumer's bytes


@dataclass
class ComplexRecord:
    consumer: int
    imported: int
    drawn: array    # one power for each hour of the month, as in the next
    sent: array
    # The rest differs only in records that are to be turned down.
    stated_length: int = None    # in place of the true length
    surplus: bytes = b""         # added after the last hour
    lost: int = 0                # bytes left off at the end

    def to_bytes(self):
        powers = [power for hour in zip(self.drawn, self.sent) for power in hour]
        body = struct.pack(f">{len(powers)}I", *powers) + self.surplus
        body = body[:len(body) - self.lost]
        length = COMPLEX_FRONT + len(body) if self.stated_length is None else self.stated_length
        return COMPLEX_PACKING.pack(length, self.consumer, self.imported) + body


def average_of(month, record):
    """The average of net power over the control hours, rounded to a tenth; 0 without a control day."""
    return month.control_average([max(0, drawn - sent) for drawn, sent in zip(record.drawn, record.sent)], TENTH)


def peak_of(month, record):
    return max(0, average_of(month, record) - record.imported)


def peak_place(sheet, record):
    """Where the peak that a record names stands in the bytes of a sheet that is accepted with it."""
    header = Header.from_bytes(sheet)
    consumers = len(sheet) - header.consumers * CONSUMER_PACKING.size
    first = consumers + COMPLEX_PACKING.unpack_from(record)[1] * CONSUMER_PACKING.size
    return slice(first + PEAK.start, first + PEAK.stop)
