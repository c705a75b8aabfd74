//! A sheet for each number that the settlement answers; those of days and columns are in versions.rs. The buffer keeps
//! every byte.
mod common;

use capacity::{settle, Refusal, LARGEST_RESULT};
use common::{changed, consumer, month, EXAMPLE, EXAMPLE_RESULT, PRODUCER, ROW, UNTOUCHED};

fn refusal_with_room(sheet: &[u8], room: usize) -> Refusal {
    let mut result = vec![UNTOUCHED; room];
    let refusal = settle(sheet, &mut result).expect_err("the sheet is to be turned down");
    assert!(result.iter().all(|byte| *byte == UNTOUCHED), "{refusal}: a byte of the buffer was changed");
    refusal
}

fn number(sheet: &[u8]) -> u8 {
    refusal_with_room(sheet, LARGEST_RESULT).number()
}

fn count(sheet: &[u8]) -> usize {
    settle(sheet, &mut [0; LARGEST_RESULT]).expect("the sheet is to be accepted")
}

#[test]
fn one_less_than_a_header() {
    assert_eq!(number(&EXAMPLE[..13]), 1);
    assert_eq!(number(&[]), 1);
}

#[test]
fn two_another_length() {
    assert_eq!(number(&EXAMPLE[..28]), 2);
    assert_eq!(number(&changed(&EXAMPLE, 0, &30u32.to_be_bytes())), 2);
}

#[test]
fn three_another_version() {
    for version in [0, 4, 255] {
        assert_eq!(number(&changed(&EXAMPLE, 4, &[version])), 3);
    }
    for version in [2, 3] {
        assert_eq!(count(&changed(&EXAMPLE, 4, &[version])), EXAMPLE_RESULT, "without rows all have one length");
    }
}

#[test]
fn four_no_such_month() {
    assert_eq!(number(&changed(&EXAMPLE, 5, &[27])), 4);
    assert_eq!(number(&changed(&EXAMPLE, 5, &[32])), 4);
    assert_eq!(number(&changed(&EXAMPLE, 6, &[0])), 4);
    assert_eq!(number(&changed(&EXAMPLE, 6, &[8])), 4);
    assert_eq!(number(&changed(&EXAMPLE, 7, &[0x40, 0, 0, 0])), 4, "a holiday on day 31 of 30");
    assert_eq!(count(&changed(&EXAMPLE, 7, &[0x20, 0, 0, 0])), EXAMPLE_RESULT, "a holiday on day 30");
}

#[test]
fn five_too_many() {
    assert_eq!(number(&changed(&EXAMPLE, 11, &[7])), 5);
    assert_eq!(number(&changed(&EXAMPLE, 12, &[33])), 5);
    assert_eq!(number(&changed(&EXAMPLE, 13, &[33])), 5);
}

#[test]
fn six_counts_of_another_length() {
    assert_eq!(number(&changed(&EXAMPLE, 13, &[2])), 6);
    assert_eq!(number(&changed(&EXAMPLE, 11, &[1])), 6);
}

#[test]
fn seven_no_room() {
    assert_eq!(refusal_with_room(&EXAMPLE, EXAMPLE_RESULT - 1).number(), 7);
    assert_eq!(refusal_with_room(&EXAMPLE, 0).number(), 7);
}

#[test]
fn eight_hours_and_coefficients() {
    let producer = month(1, 0, 0, &PRODUCER);
    assert_eq!(count(&changed(&producer, 14 + 12, &672u16.to_be_bytes())), 21);
    assert_eq!(number(&changed(&producer, 14 + 12, &673u16.to_be_bytes())), 8);
    assert_eq!(number(&changed(&producer, 14 + 16, &673u16.to_be_bytes())), 8);
    assert_eq!(number(&changed(&producer, 14 + 18, &1_000_001u32.to_be_bytes())), 8);
}

#[test]
fn nine_capacities() {
    assert_eq!(count(&changed(&EXAMPLE, 14, &100_000u32.to_be_bytes())), EXAMPLE_RESULT);
    assert_eq!(number(&changed(&EXAMPLE, 14, &100_001u32.to_be_bytes())), 9);
    let producer = month(1, 0, 0, &PRODUCER);
    assert_eq!(number(&changed(&producer, producer.len() - 4, &100_001u32.to_be_bytes())), 9, "the last hour");
}

#[test]
fn ten_references() {
    assert_eq!(number(&month(0, 1, 1, &[&ROW[..], consumer()].concat())), 10);
    let accepted = month(1, 1, 1, &[&PRODUCER[..], &ROW, consumer()].concat());
    let row = 14 + PRODUCER.len();
    assert_eq!(count(&accepted), 21 + 16 + 25);
    assert_eq!(count(&changed(&accepted, row + 1, &[0])), 21 + 16 + 25);
    assert_eq!(number(&changed(&accepted, row + 1, &[1])), 10);
}

#[test]
fn eleven_prices() {
    assert_eq!(count(&changed(&EXAMPLE, 25, &200_000_000u32.to_be_bytes())), EXAMPLE_RESULT);
    assert_eq!(number(&changed(&EXAMPLE, 25, &200_000_001u32.to_be_bytes())), 11);
}

#[test]
fn twelve_mining_days_and_z() {
    assert_eq!(number(&changed(&EXAMPLE, 22, &[31])), 12);
    assert_eq!(number(&changed(&EXAMPLE, 23, &[31])), 12);
    assert_eq!(number(&changed(&EXAMPLE, 24, &[9])), 12);
    assert_eq!(number(&changed(&EXAMPLE, 24, &[101])), 12);
}

#[test]
fn a_refusal_prints_its_number_and_words() {
    let refusal = refusal_with_room(&EXAMPLE, 0);
    assert_eq!(refusal.to_string(), "refusal 7: the result buffer is too short");
    assert_eq!(Refusal::FILED_LATE.to_string(), "refusal 14: an entry of the list was filed after day 20");
    assert_eq!(Refusal::HIGH_POWER.to_string(), "refusal 17: a power in the record is too large");
    let days = "refusal 18: a row's days are not days of the month, or end before they begin";
    assert_eq!(Refusal::BAD_DAYS.to_string(), days);
}
