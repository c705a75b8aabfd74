//! Records of industrial complexes, written into a lent buffer.
use crate::pieces::{write_pieces, LENGTH_FIELD};

/// What stands before a record's hours, in bytes: its length, its consumer and imported power.
pub const RECORD_FRONT: usize = LENGTH_FIELD + 1 + 4;

/// An hour of a record, in bytes.
pub const RECORD_HOUR: usize = 8;

/// The longest record, in bytes: 31 days.
pub const LARGEST_RECORD: usize = record_length(24 * 31);

/// An hour of a record: powers of an industrial complex, in tenths of a megawatt.
#[derive(Clone, Copy, Debug, PartialEq, Eq)]
pub struct Hour {
    /// The power drawn.
    pub drawn: u32,
    /// The power that its stations sent out.
    pub sent: u32,
}

impl Hour {
    /// The hour as a record has it.
    pub const fn to_bytes(self) -> [u8; RECORD_HOUR] {
        let [a, b, c, d] = self.drawn.to_be_bytes();
        let [e, f, g, h] = self.sent.to_be_bytes();
        [a, b, c, d, e, f, g, h]
    }
}

/// The length of a record of so many hours, in bytes. A month has 24 for each day.
pub const fn record_length(hours: usize) -> usize {
    RECORD_FRONT + RECORD_HOUR * hours
}

/// Writes the record of a complex to the front of a buffer, and gives these bytes. Nothing, with nothing written, where
/// the buffer is shorter than [`record_length`] says or the length does not fit its field of four bytes.
///
/// `consumer` is what the complex is in the sheet, by its place from 0, `imported` the month's imported power in tenths
/// of a megawatt. The hours begin with hour 0 of day 1. Whether the record is good is for [`crate::average`] to say.
pub fn write_record<'a>(consumer: u8, imported: u32, hours: &[Hour], buffer: &'a mut [u8]) -> Option<&'a [u8]> {
    let [a, b, c, d] = imported.to_be_bytes();
    write_pieces(&[consumer, a, b, c, d], hours.iter().map(|hour| hour.to_bytes()), buffer)
}
