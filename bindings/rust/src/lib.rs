#![doc = include_str!("../README.md")]
#![no_std]
#![deny(missing_docs, unsafe_code)]

use core::fmt;

mod figures;
mod lists;
mod pieces;
mod records;

pub use figures::{ConsumerLine, Figures, Figures2015, Line2015, RowLine, Totals};
pub use lists::{list_length, write_list, Transfer, LIST_ENTRY, LIST_FRONT};
pub use records::{record_length, write_record, Hour, LARGEST_RECORD, RECORD_FRONT, RECORD_HOUR};

/// The longest sheet, in bytes: version 2 or 3, 6 producers, 31 days, 32 rows, 32 consumers.
pub const LARGEST_SHEET: usize = 14 + 6 * (42 + 288 * 31) + 12 * 32 + 15 * 32;

/// The longest result, in bytes: 32 rows, 32 consumers. A buffer of this size is long enough for every sheet.
pub const LARGEST_RESULT: usize = 21 + 16 * 32 + 25 * 32;

/// The longest result under the text of 2015, in bytes: 32 consumers.
pub const LARGEST_RESULT_2015: usize = 4 + 17 * 32;

/// Why a sheet, a list or a record was turned down: the first of the numbers of docs/RULES.md that applies, in the
/// order in which they are tried. Every byte of the buffers keeps what it had.
#[derive(Clone, Copy, Debug, PartialEq, Eq, Hash)]
pub struct Refusal(u8);

/// The words for each number, from 1 on.
const WORDS: [&str; 18] = [
    "the sheet is shorter than its header",
    "the length field is not the sheet's length",
    "the version is unknown",
    "the month is wrong: its days, first weekday or holidays",
    "there are too many producers, rows or consumers",
    "the length does not go with version, month and counts",
    "the result buffer is too short",
    "a count of hours or a given coefficient is too large",
    "a capacity figure is too large",
    "a row names a producer or a consumer that is not there",
    "a price is too large",
    "there are too many mining days, or z is outside its range",
    "the list is wrong: its length, its version, a day, a giver or a taker",
    "an entry of the list was filed after day 20",
    "an entry of the list asks more than the giver has, or than the taker may have",
    "the record is wrong: its length, for its bytes or for the month, or its consumer",
    "a power in the record is too large",
    "a row's days are not days of the month, or end before they begin",
];

impl Refusal {
    /// Fewer than 14 bytes.
    pub const NO_HEADER: Refusal = Refusal(1);
    /// The length field is not the count of bytes.
    pub const WRONG_LENGTH: Refusal = Refusal(2);
    /// The version is not 1, 2 or 3.
    pub const OTHER_VERSION: Refusal = Refusal(3);
    /// Days, weekday or holidays.
    pub const BAD_MONTH: Refusal = Refusal(4);
    /// Producers, rows or consumers.
    pub const TOO_MANY: Refusal = Refusal(5);
    /// The length does not go with version, month and counts.
    pub const LENGTH_OFF: Refusal = Refusal(6);
    /// The result buffer is shorter than the result.
    pub const SHORT_BUFFER: Refusal = Refusal(7);
    /// A count of hours or a given coefficient.
    pub const BAD_SHARE: Refusal = Refusal(8);
    /// A capacity, power, volume or peak.
    pub const HIGH_FIGURE: Refusal = Refusal(9);
    /// A row's producer or consumer.
    pub const BAD_REFERENCE: Refusal = Refusal(10);
    /// A price.
    pub const HIGH_PRICE: Refusal = Refusal(11);
    /// Mining days or z.
    pub const BAD_FACTOR: Refusal = Refusal(12);
    /// The list's length, version, a day of no month, a giver or taker.
    pub const BAD_LIST: Refusal = Refusal(13);
    /// An entry filed after day 20.
    pub const FILED_LATE: Refusal = Refusal(14);
    /// At its turn, an entry asks more than the giver has or the taker may have.
    pub const OVERDRAWN: Refusal = Refusal(15);
    /// The record's length, for its bytes or for the month, or its consumer.
    pub const BAD_RECORD: Refusal = Refusal(16);
    /// A power in the record, imported power too.
    pub const HIGH_POWER: Refusal = Refusal(17);
    /// A row's first or last day.
    pub const BAD_DAYS: Refusal = Refusal(18);

    /// The number of the rule, as docs/RULES.md counts them.
    pub const fn number(self) -> u8 {
        self.0
    }

    fn words(self) -> &'static str {
        let place = usize::from(self.0).wrapping_sub(1);
        WORDS.get(place).copied().unwrap_or("turned down")
    }
}

impl fmt::Display for Refusal {
    fn fmt(&self, f: &mut fmt::Formatter<'_>) -> fmt::Result {
        write!(f, "refusal {}: {}", self.0, self.words())
    }
}

impl core::error::Error for Refusal {}

// As include/capacity.h declares them.
extern "C" {
    fn capacity_settle(sheet: *const u8, sheet_length: usize, result: *mut u8, result_length: usize) -> i64;
    fn capacity_transfer(sheet: *mut u8, sheet_length: usize, list: *const u8, list_length: usize) -> i64;
    fn capacity_average(sheet: *mut u8, sheet_length: usize, record: *const u8, record_length: usize) -> i64;
    fn capacity_settle_2015(sheet: *const u8, sheet_length: usize, result: *mut u8, result_length: usize) -> i64;
}

/// A refusal from an answer below 0. By its contract that is minus a number from 1 to 18, which fits.
fn refusal(answer: i64) -> Refusal {
    Refusal(answer.unsigned_abs() as u8)
}

/// The answer of an entry that writes a result. By its contract it is the count of bytes, above 0, or a refusal.
fn written(answer: i64) -> Result<usize, Refusal> {
    if answer > 0 {
        Ok(answer as usize)
    } else {
        Err(refusal(answer))
    }
}

/// The answer of an entry that changes a sheet in place. By its contract it is 0, or a refusal.
fn changed(answer: i64) -> Result<(), Refusal> {
    if answer == 0 {
        Ok(())
    } else {
        Err(refusal(answer))
    }
}

/// Settles one month's sheet into a result buffer.
///
/// The answer is the count of bytes written to the buffer's front: 21 + 16 for each row + 25 for each consumer. Bytes
/// past them keep what they had. The sheet may be of version 1, whose rows cover the month, of version 2, whose rows
/// state their first and last day, or of version 3, which also has each producer's hours as three columns; so it may
/// for every other entry. It may hold any bytes and have any length, and so may the buffer; neither has to be aligned.
/// Nothing is allocated and no state is kept, so any number of threads may call at once.
///
/// # Errors
///
/// The [`Refusal`] of a sheet that is turned down. Every byte of the buffer then keeps what it had.
#[allow(unsafe_code)]
pub fn settle(sheet: &[u8], result: &mut [u8]) -> Result<usize, Refusal> {
    // SAFETY: capacity.h asks four things of a caller, and two slices have them.
    // - As many bytes as the length says: a slice has its length in bytes, all of them initialized, for the whole call.
    // - No null: a slice's pointer never is, an empty slice's neither. That one may lead nowhere, and with length 0 the
    //   module reads and writes nothing through it.
    // - No overlap: `result` is borrowed mutably, so no other borrow reaches its bytes.
    // - The module writes to `result` alone and keeps neither pointer, so both borrows may end with the call.
    written(unsafe { capacity_settle(sheet.as_ptr(), sheet.len(), result.as_mut_ptr(), result.len()) })
}

/// Applies a month's list of transfers to the contract volumes in its sheet, entry by entry in the list's order.
///
/// The sheet is then settled as any other. The sum of its contract volumes is as before, and every byte that does not
/// belong to one of them keeps what it had. Sheet and list may hold any bytes and have any length; neither has to be
/// aligned. A list that is handed over again is applied again. [`write_list`] writes a list.
///
/// # Errors
///
/// The [`Refusal`] of a sheet or a list that is turned down. Every byte of the sheet then keeps what it had, even if
/// only the last entry cannot be met.
#[allow(unsafe_code)]
pub fn transfer(sheet: &mut [u8], list: &[u8]) -> Result<(), Refusal> {
    // SAFETY: as in `settle`: two slices that do not overlap, `sheet` being borrowed mutably. The module reads and
    // writes `sheet`, reads `list`, and keeps neither pointer.
    changed(unsafe { capacity_transfer(sheet.as_mut_ptr(), sheet.len(), list.as_ptr(), list.len()) })
}

/// Takes the peak of an industrial complex by averaging, from its record, and writes it into a sheet as the peak of the
/// consumer that the record names.
///
/// The sheet is then settled as any other. Every byte but the four of that peak keeps what it had. A month with several
/// complexes has a record and a call for each. Sheet and record may hold any bytes and have any length; neither has to
/// be aligned. A record that is handed over again writes the same peak again. [`write_record`] writes a record.
///
/// # Errors
///
/// The [`Refusal`] of a sheet or a record that is turned down. Every byte of the sheet then keeps what it had. The
/// sheet's own numbers are tried first, so what stands there as the peak beforehand has to be one that [`settle`]
/// accepts, such as 0.
#[allow(unsafe_code)]
pub fn average(sheet: &mut [u8], record: &[u8]) -> Result<(), Refusal> {
    // SAFETY: as in `transfer`, with `record` for `list`.
    changed(unsafe { capacity_average(sheet.as_mut_ptr(), sheet.len(), record.as_ptr(), record.len()) })
}

/// Settles the consumers of one month's sheet under the text of 2015 into a result buffer: an old act is opened again
/// with it.
///
/// The sheet is the same as for [`settle`], and the whole of it is tried; the text reads contract volumes, peaks and
/// prices. The answer is the count of bytes written to the buffer's front: 4 + 17 for each consumer, at most
/// [`LARGEST_RESULT_2015`]. Bytes past them keep what they had. [`Figures2015`] reads them.
///
/// # Errors
///
/// The [`Refusal`] of a sheet that is turned down; [`Refusal::SHORT_BUFFER`] is about this result. Every byte of the
/// buffer then keeps what it had.
#[allow(unsafe_code)]
pub fn settle_2015(sheet: &[u8], result: &mut [u8]) -> Result<usize, Refusal> {
    // SAFETY: as in `settle`.
    written(unsafe { capacity_settle_2015(sheet.as_ptr(), sheet.len(), result.as_mut_ptr(), result.len()) })
}
