//! Consumers under the text of 2015: figures worked out by hand, rooms, refusals, and the reader of its result.
mod common;

use capacity::{settle_2015, Figures2015, Line2015, Refusal, LARGEST_RESULT_2015};
use common::{changed, consumer, month, EXAMPLE, MEMBERS, PRODUCER, ROW, UNTOUCHED};

/// The result of a sheet that is to be accepted, and its consumers' lines.
fn settled(sheet: &[u8]) -> (Vec<u8>, Vec<Line2015>) {
    let mut buffer = [UNTOUCHED; LARGEST_RESULT_2015];
    let count = settle_2015(sheet, &mut buffer).expect("the sheet is to be accepted");
    assert!(buffer[count..].iter().all(|byte| *byte == UNTOUCHED));
    let lines = Figures2015::of(sheet, &buffer).expect("a result of this sheet").consumers().collect();
    (buffer[..count].to_vec(), lines)
}

/// The one consumer of document 01's example with another contract volume, peak and price.
fn line_of(contract: u32, peak: u32, price: u32) -> Line2015 {
    let figures = [contract.to_be_bytes(), peak.to_be_bytes()].concat();
    let sheet = changed(&changed(&EXAMPLE, 14, &figures), 25, &price.to_be_bytes());
    settled(&sheet).1[0]
}

fn factor_of(contract: u32, peak: u32) -> u8 {
    line_of(contract, peak, 0).factor
}

/// The refusal of a sheet with a buffer of so many bytes, all of which stay.
fn refused(sheet: &[u8], room: usize) -> Refusal {
    let mut buffer = vec![UNTOUCHED; room];
    let refusal = settle_2015(sheet, &mut buffer).expect_err("to be turned down");
    assert!(buffer.iter().all(|byte| *byte == UNTOUCHED), "{refusal}: a byte of the buffer was changed");
    refusal
}

#[test]
fn the_bytes_of_the_example() {
    // 126.0 over 100.0 is 26.00 percent: factor 1.5, 150.0, and 150,000.00 tenge, 15,000,000 = 0xE4E1C0 tiyn.
    let wanted = [0, 0, 0, 21, 15, 0, 0, 0, 0, 0, 0, 5, 220, 0, 0, 0, 0, 0, 0xE4, 0xE1, 0xC0];
    assert_eq!(settled(&EXAMPLE).0, wanted);
}

#[test]
fn edges_of_the_table() {
    let edges = [(10_500, 10, 11), (11_000, 11, 12), (12_000, 12, 15)];
    for (peak, up_to, past) in edges {
        assert_eq!(factor_of(10_000, peak), up_to);
        assert_eq!(factor_of(10_000, peak + 1), past);
    }
    // 5.004, 10.004 and 20.004 percent of 2,500.0; 5.005, 10.005 and 20.005 of 2,000.0.
    assert_eq!([26_251, 27_501, 30_001].map(|peak| factor_of(25_000, peak)), [10, 11, 12]);
    assert_eq!([21_001, 22_001, 24_001].map(|peak| factor_of(20_000, peak)), [11, 12, 15]);
}

#[test]
fn no_excess_and_a_contract_of_nothing() {
    assert_eq!(line_of(1000, 5, 100), Line2015 { factor: 10, volume: 1000, charge: 10_000 });
    assert_eq!(line_of(0, 0, 100), Line2015 { factor: 10, volume: 0, charge: 0 });
    assert_eq!(line_of(0, 1, 100), Line2015 { factor: 15, volume: 0, charge: 0 });
}

#[test]
fn halves_go_upward() {
    // 1.5 × 1.1 = 1.65, and 1.7 × 5 tiyn = 8.5.
    assert_eq!(line_of(15, 16, 5), Line2015 { factor: 11, volume: 17, charge: 9 });
    // 8,332.9 × 1.5 = 12,499.35, the largest volume there is, at the highest price.
    let largest = line_of(83_329, 100_000, 200_000_000);
    assert_eq!(largest, Line2015 { factor: 15, volume: 124_994, charge: 2_499_880_000_000 });
}

#[test]
fn mining_days_z_and_credit_have_no_part() {
    let mined = changed(&EXAMPLE, 22, &[30, 30, 100]);
    assert_eq!(settled(&mined), settled(&EXAMPLE));
    let full = [&100_000u32.to_be_bytes()[..], &PRODUCER[4..18], &1_000_000u32.to_be_bytes().repeat(6)].concat();
    let producer = [&full, &PRODUCER[42..]].concat();
    let bilateral = changed(&ROW, 1, &[0]);
    let credited = month(1, 1, 1, &[&producer[..], &bilateral, consumer()].concat());
    assert_eq!(settled(&credited).0, settled(&month(0, 0, 1, consumer())).0);
}

#[test]
fn rooms() {
    for (sheet, length) in [(&EXAMPLE[..], 21), (&MEMBERS, 38), (&month(0, 0, 0, &[]), 4)] {
        for room in 0..length {
            assert_eq!(refused(sheet, room), Refusal::SHORT_BUFFER);
        }
        let mut exact = vec![UNTOUCHED; length];
        assert_eq!(settle_2015(sheet, &mut exact), Ok(length));
        assert_eq!(exact, settled(sheet).0);
    }
    let most = month(0, 0, 32, &consumer().repeat(32));
    assert_eq!(settled(&most).0.len(), LARGEST_RESULT_2015);
}

#[test]
fn refusals_in_their_order() {
    assert_eq!(refused(&[], 0), Refusal::NO_HEADER);
    assert_eq!(refused(&EXAMPLE[..28], 0), Refusal::WRONG_LENGTH);
    assert_eq!(refused(&changed(&EXAMPLE, 4, &[4]), 0), Refusal::OTHER_VERSION);
    let low_z = changed(&EXAMPLE, 24, &[9]);
    assert_eq!(refused(&low_z, 20), Refusal::SHORT_BUFFER);
    assert_eq!(refused(&low_z, 21), Refusal::BAD_FACTOR);
    assert_eq!(refused(&changed(&EXAMPLE, 18, &100_001u32.to_be_bytes()), 21), Refusal::HIGH_FIGURE);
}

#[test]
fn what_is_no_result_of_the_sheet_is_not_read() {
    let (result, lines) = settled(&MEMBERS);
    assert_eq!(lines.len(), 2);
    assert!(Figures2015::of(&MEMBERS, &result[..37]).is_none());
    assert!(Figures2015::of(&EXAMPLE, &result).is_none(), "the result of another sheet");
    assert!(Figures2015::of(&MEMBERS, &changed(&result, 3, &[21])).is_none());
    assert!(Figures2015::of(&MEMBERS[..13], &result).is_none());
    assert_eq!(Figures2015::of(&MEMBERS, &[&result[..], &[0; 9]].concat()).unwrap().consumers().len(), 2);
}
