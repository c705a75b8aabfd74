//! Sheets that the tests settle, and what tests of transfers and of complexes share.
#![allow(dead_code)] // no test file uses them all

use capacity::{settle, Figures, Refusal, LARGEST_RESULT};

/// Document 01's example, of 30 days. One consumer: contract volume 100.0, peak 126.0, no mining days, z 1.0, price
/// 100,000 tiyn.
pub const EXAMPLE: [u8; 29] =
    [0, 0, 0, 29, 1, 30, 1, 0, 0, 0, 0, 0, 0, 1, 0, 0, 3, 232, 0, 0, 4, 236, 0, 0, 10, 0, 1, 134, 160];

/// Its result has one consumer's record.
pub const EXAMPLE_RESULT: usize = 46;

/// Two consumers with contract volumes of 150.0 and 50.0 and peaks of 126.0 and 105.0, all else as in the example.
pub const MEMBERS: [u8; 44] = [
    0, 0, 0, 44, 1, 30, 1, 0, 0, 0, 0, 0, 0, 2, 0, 0, 5, 220, 0, 0, 4, 236, 0, 0, 10, 0, 1, 134, 160, 0, 0, 1, 244, 0,
    0, 4, 26, 0, 0, 10, 0, 1, 134, 160,
];

/// The same after consumer 0 gave consumer 1 50.0.
pub const MEMBERS_AFTER: [u8; 44] = [
    0, 0, 0, 44, 1, 30, 1, 0, 0, 0, 0, 0, 0, 2, 0, 0, 3, 232, 0, 0, 4, 236, 0, 0, 10, 0, 1, 134, 160, 0, 0, 3, 232, 0,
    0, 4, 26, 0, 0, 10, 0, 1, 134, 160,
];

/// That one before the peak of consumer 0 was taken: 10,000.0 stands there.
pub const MEMBERS_UNMEASURED: [u8; 44] = [
    0, 0, 0, 44, 1, 30, 1, 0, 0, 0, 0, 0, 0, 2, 0, 0, 3, 232, 0, 1, 134, 160, 0, 0, 10, 0, 1, 134, 160, 0, 0, 3, 232,
    0, 0, 4, 26, 0, 0, 10, 0, 1, 134, 160,
];

/// The volumes and charges of consumers that a sheet is settled with.
pub fn settled(sheet: &[u8]) -> Vec<(u64, u64)> {
    let mut result = [0; LARGEST_RESULT];
    let count = settle(sheet, &mut result).expect("the sheet is to be accepted");
    let figures = Figures::of(sheet, &result[..count]).expect("a result of this sheet");
    figures.consumers().map(|line| (line.volume, line.charge)).collect()
}

/// Those of MEMBERS_AFTER, as document 01 has them for 126.0 and 105.0.
pub const SETTLED_AFTER: [(u64, u64); 2] = [(1240, 12_400_000), (1000, 10_000_000)];

/// An entry that changes a sheet in place, from a list or a record.
pub type Change = fn(&mut [u8], &[u8]) -> Result<(), Refusal>;

/// Its answer and the sheet afterwards, with the bytes around the sheet as they were; after a refusal the sheet too.
pub fn answer_of(entry: Change, sheet: &[u8], given: &[u8]) -> Result<Vec<u8>, Refusal> {
    let mut memory = [&[UNTOUCHED; 8][..], sheet, &[UNTOUCHED; 8]].concat();
    let (front, rest) = memory.split_at_mut(8);
    let (lent, back) = rest.split_at_mut(sheet.len());
    let answer = entry(lent, given);
    assert!(front.iter().chain(&*back).all(|byte| *byte == UNTOUCHED), "a byte beside the sheet was changed");
    match answer {
        Ok(()) => Ok(lent.to_vec()),
        Err(refusal) => {
            assert_eq!(lent, sheet, "{refusal}: a byte of the sheet was changed");
            Err(refusal)
        }
    }
}

/// The same, from every address that 16 tells apart.
pub fn at_any_address(entry: Change, sheet: &[u8], given: &[u8], wanted: &[u8]) {
    for place in 0..16 {
        let mut memory = [&vec![UNTOUCHED; place], sheet, &[UNTOUCHED; 16]].concat();
        let moved = [&vec![UNTOUCHED; 15 - place], given].concat();
        assert_eq!(entry(&mut memory[place..place + sheet.len()], &moved[15 - place..]), Ok(()));
        assert_eq!(memory[place..place + sheet.len()], *wanted);
    }
}

/// Sheet and list or record, side by side in one buffer.
pub fn side_by_side(entry: Change, sheet: &[u8], given: &[u8], wanted: &[u8]) {
    let mut memory = [sheet, given].concat();
    let (lent, read) = memory.split_at_mut(sheet.len());
    assert_eq!(entry(lent, read), Ok(()));
    assert_eq!(lent, wanted);
    assert_eq!(read, given);
}

/// A writer gives the bytes wanted, leaves those past them, and writes nothing where there is less room.
pub fn written_where_there_is_room(write: impl Fn(&mut [u8]) -> Option<&[u8]>, wanted: &[u8]) {
    for room in 0..wanted.len() {
        let mut buffer = vec![UNTOUCHED; room];
        assert_eq!(write(&mut buffer), None);
        assert!(buffer.iter().all(|byte| *byte == UNTOUCHED));
    }
    let mut buffer = vec![UNTOUCHED; wanted.len() + 5];
    assert_eq!(write(&mut buffer), Some(wanted));
    assert_eq!(buffer[wanted.len()..], [UNTOUCHED; 5]);
}

/// What stands in a buffer before a call.
pub const UNTOUCHED: u8 = 0xA5;

/// Bytes with some of them changed, from a place on.
pub fn changed(sheet: &[u8], place: usize, bytes: &[u8]) -> Vec<u8> {
    let mut other = sheet.to_vec();
    other[place..place + bytes.len()].copy_from_slice(bytes);
    other
}

/// A month of 28 days whose producers, rows and consumers are these bytes.
pub fn month(producers: u8, rows: u8, consumers: u8, records: &[u8]) -> Vec<u8> {
    let length = 14 + records.len() as u32;
    let header = [1, 28, 1, 0, 0, 0, 0, producers, rows, consumers];
    [&length.to_be_bytes()[..], &header, records].concat()
}

/// A producer in a month of 28 days: every figure and every hour 0.
pub const PRODUCER: [u8; 42 + 288 * 28] = [0; 42 + 288 * 28];

/// A row: from producer 0 to the single buyer, volume 10.0, price 1,000 tiyn.
pub const ROW: [u8; 10] = [0, 255, 0, 0, 0, 100, 0, 0, 3, 232];

/// The example's consumer.
pub fn consumer() -> &'static [u8] {
    &EXAMPLE[14..]
}
