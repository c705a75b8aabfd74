//! Document 01's example sheet and its figures.
mod common;

use capacity::{settle, Refusal, LARGEST_RESULT, LARGEST_SHEET, LIST_ENTRY, LIST_FRONT};
use capacity::{LARGEST_RECORD, LARGEST_RESULT_2015, RECORD_FRONT, RECORD_HOUR};
use common::{EXAMPLE, EXAMPLE_RESULT};

/// Takes a field off the front.
fn field(bytes: &mut &[u8], width: usize) -> u64 {
    let (front, rest) = bytes.split_at(width);
    *bytes = rest;
    front.iter().fold(0, |number, byte| number << 8 | u64::from(*byte))
}

#[test]
fn has_the_figures_of_document_01() {
    let mut result = [0; LARGEST_RESULT];
    assert_eq!(settle(&EXAMPLE, &mut result), Ok(EXAMPLE_RESULT));
    let mut rest = &result[..EXAMPLE_RESULT];
    assert_eq!(field(&mut rest, 4), 46, "length");
    assert_eq!(field(&mut rest, 1), 1, "version");
    assert_eq!(field(&mut rest, 4), 0, "credit");
    assert_eq!(field(&mut rest, 4), 210, "p, 21.0 percent");
    assert_eq!(field(&mut rest, 1), 15, "n 1.5");
    assert_eq!(field(&mut rest, 8), 1240, "actual volume 124.0");
    assert_eq!(field(&mut rest, 8), 12_400_000, "charge, 124,000.00 tenge");
    assert_eq!(field(&mut rest, 8), 0, "total paid");
    assert_eq!(field(&mut rest, 8), 12_400_000, "total charged");
    assert!(rest.is_empty());
}

#[test]
fn lengths_are_those_of_the_c_header() {
    let header = include_str!("../../../include/capacity.h");
    assert!(header.contains(&format!("#define CAPACITY_LARGEST_SHEET {LARGEST_SHEET}\n")));
    assert!(header.contains(&format!("#define CAPACITY_LARGEST_RESULT {LARGEST_RESULT}\n")));
    assert!(header.contains(&format!("#define CAPACITY_LARGEST_RESULT_2015 {LARGEST_RESULT_2015}\n")));
    assert!(header.contains(&format!("#define CAPACITY_LIST_FRONT {LIST_FRONT}\n")));
    assert!(header.contains(&format!("#define CAPACITY_LIST_ENTRY {LIST_ENTRY}\n")));
    assert!(header.contains(&format!("#define CAPACITY_RECORD_FRONT {RECORD_FRONT}\n")));
    assert!(header.contains(&format!("#define CAPACITY_RECORD_HOUR {RECORD_HOUR}\n")));
    assert!(header.contains(&format!("#define CAPACITY_LARGEST_RECORD {LARGEST_RECORD}\n")));
    assert_eq!((LARGEST_SHEET, LARGEST_RESULT, LARGEST_RECORD), (54_698, 1_333, 5_961));
    assert_eq!(LARGEST_RESULT_2015, 548);
}

#[test]
fn refusals_are_those_of_the_c_header() {
    let header = include_str!("../../../include/capacity.h");
    let names = [
        ("NO_HEADER", Refusal::NO_HEADER),
        ("WRONG_LENGTH", Refusal::WRONG_LENGTH),
        ("OTHER_VERSION", Refusal::OTHER_VERSION),
        ("BAD_MONTH", Refusal::BAD_MONTH),
        ("TOO_MANY", Refusal::TOO_MANY),
        ("LENGTH_OFF", Refusal::LENGTH_OFF),
        ("SHORT_BUFFER", Refusal::SHORT_BUFFER),
        ("BAD_SHARE", Refusal::BAD_SHARE),
        ("HIGH_FIGURE", Refusal::HIGH_FIGURE),
        ("BAD_REFERENCE", Refusal::BAD_REFERENCE),
        ("HIGH_PRICE", Refusal::HIGH_PRICE),
        ("BAD_FACTOR", Refusal::BAD_FACTOR),
        ("BAD_LIST", Refusal::BAD_LIST),
        ("FILED_LATE", Refusal::FILED_LATE),
        ("OVERDRAWN", Refusal::OVERDRAWN),
        ("BAD_RECORD", Refusal::BAD_RECORD),
        ("HIGH_POWER", Refusal::HIGH_POWER),
        ("BAD_DAYS", Refusal::BAD_DAYS),
    ];
    let numbers = names.iter().filter(|(name, refusal)| {
        let line = format!("    CAPACITY_{name} = {}", refusal.number());
        header.lines().any(|found| found.strip_prefix(&line).is_some_and(|rest| rest.starts_with([',', ' '])))
    });
    assert_eq!(numbers.count(), names.len());
    assert_eq!(header.matches("    CAPACITY_").count(), names.len());
}
