//! Buffers of every kind: exact, too short, longer, empty, at any address.
mod common;

use capacity::{settle, LARGEST_RESULT};
use common::{EXAMPLE, EXAMPLE_RESULT, UNTOUCHED};

/// The example's result, from a buffer that has room for every sheet.
fn expected() -> [u8; EXAMPLE_RESULT] {
    let mut result = [0; LARGEST_RESULT];
    assert_eq!(settle(&EXAMPLE, &mut result), Ok(EXAMPLE_RESULT));
    result[..EXAMPLE_RESULT].try_into().unwrap()
}

fn untouched(bytes: &[u8]) -> bool {
    bytes.iter().all(|byte| *byte == UNTOUCHED)
}

/// The refusal's number where a part of this buffer is lent; the whole buffer stays as it was.
fn refused(sheet: &[u8], room: usize) -> u8 {
    let mut buffer = [UNTOUCHED; 3 * EXAMPLE_RESULT];
    let lent = &mut buffer[EXAMPLE_RESULT..EXAMPLE_RESULT + room];
    let number = settle(sheet, lent).expect_err("to be turned down").number();
    assert!(untouched(&buffer));
    number
}

#[test]
fn exact_or_longer_and_bytes_around_are_kept() {
    for room in [EXAMPLE_RESULT, EXAMPLE_RESULT + 1, LARGEST_RESULT, 100_000] {
        let mut buffer = vec![UNTOUCHED; 10 + room + 10];
        assert_eq!(settle(&EXAMPLE, &mut buffer[10..10 + room]), Ok(EXAMPLE_RESULT));
        assert!(untouched(&buffer[..10]));
        assert_eq!(buffer[10..10 + EXAMPLE_RESULT], expected());
        assert!(untouched(&buffer[10 + EXAMPLE_RESULT..]));
    }
}

#[test]
fn every_shorter_one_is_refused() {
    for room in 0..EXAMPLE_RESULT {
        assert_eq!(refused(&EXAMPLE, room), 7);
    }
}

#[test]
fn of_no_bytes() {
    assert_eq!(refused(&[], EXAMPLE_RESULT), 1);
    assert_eq!(settle(&[], &mut []).unwrap_err().number(), 1);
    assert_eq!(settle(&EXAMPLE, &mut []).unwrap_err().number(), 7);
    assert_eq!(settle(&Vec::new(), &mut Vec::new()).unwrap_err().number(), 1);
}

#[test]
fn at_any_address() {
    for place in 0..16 {
        let mut sheet = [0; 16 + EXAMPLE.len()];
        sheet[place..place + EXAMPLE.len()].copy_from_slice(&EXAMPLE);
        let mut buffer = [UNTOUCHED; 16 + EXAMPLE_RESULT];
        let lent = &mut buffer[15 - place..15 - place + EXAMPLE_RESULT];
        assert_eq!(settle(&sheet[place..place + EXAMPLE.len()], lent), Ok(EXAMPLE_RESULT));
        assert_eq!(*lent, expected());
    }
}

#[test]
fn sheet_and_result_side_by_side_in_one_buffer() {
    let mut memory = [UNTOUCHED; EXAMPLE.len() + EXAMPLE_RESULT];
    let (sheet, result) = memory.split_at_mut(EXAMPLE.len());
    sheet.copy_from_slice(&EXAMPLE);
    assert_eq!(settle(sheet, result), Ok(EXAMPLE_RESULT));
    assert_eq!(*sheet, EXAMPLE);
    assert_eq!(*result, expected());
}

#[test]
fn a_second_call_gives_the_same() {
    let first = expected();
    let _ = settle(&[UNTOUCHED; 100], &mut [0; 100]);
    assert_eq!(expected(), first);
}
