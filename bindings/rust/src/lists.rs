//! Lists of transfers, written into a lent buffer.
use crate::pieces::{write_pieces, LENGTH_FIELD};

/// What stands before a list's entries, in bytes: its length and its version.
pub const LIST_FRONT: usize = LENGTH_FIELD + 1;

/// An entry of a list, in bytes.
pub const LIST_ENTRY: usize = 7;

const VERSION: u8 = 1;

/// An entry of a list: contract volume that one consumer of a sheet gives another.
#[derive(Clone, Copy, Debug, PartialEq, Eq)]
pub struct Transfer {
    /// The day of the month before on which it was filed.
    pub day: u8,
    /// The consumer that gives, by its place in the sheet from 0.
    pub giver: u8,
    /// The consumer that takes.
    pub taker: u8,
    /// The amount, in tenths of a megawatt.
    pub amount: u32,
}

impl Transfer {
    /// The entry as a list has it.
    pub const fn to_bytes(self) -> [u8; LIST_ENTRY] {
        let [a, b, c, d] = self.amount.to_be_bytes();
        [self.day, self.giver, self.taker, a, b, c, d]
    }
}

/// The length of a list of so many entries, in bytes.
pub const fn list_length(entries: usize) -> usize {
    LIST_FRONT + LIST_ENTRY * entries
}

/// Writes a list to the front of a buffer, and gives these bytes. Nothing, with nothing written, where the buffer is
/// shorter than [`list_length`] says or the length does not fit its field of four bytes.
///
/// Whether the entries are good is for [`crate::transfer`] to say.
pub fn write_list<'a>(transfers: &[Transfer], buffer: &'a mut [u8]) -> Option<&'a [u8]> {
    write_pieces(&[VERSION], transfers.iter().map(|transfer| transfer.to_bytes()), buffer)
}
