//! The stored sheets, lists and records with the rival's answers, crates/vectors/data (compare/README.md has the
//! format): one after the other, and by several threads at once. Kinds that begin with text_2015_ are sheets under the
//! text of 2015.
mod common;

use capacity::{average, settle, settle_2015, transfer, Figures, Figures2015, Refusal};
use common::Change;
use std::fs;
use std::path::{Path, PathBuf};
use std::sync::Barrier;
use std::thread;

struct Case {
    sheet: Vec<u8>,
    room: usize,
    /// The result, or the refusal's number.
    told: Result<Vec<u8>, u8>,
}

/// The files of lists and of records, which have a form of their own, with the entry that takes them.
const CHANGES: [(&str, Change); 2] = [("transfers", transfer), ("averages", average)];

struct ChangeCase {
    sheet: Vec<u8>,
    /// The list or the record.
    given: Vec<u8>,
    /// Nothing, or the refusal's number.
    told: Result<(), u8>,
    /// The sheet afterwards.
    after: Vec<u8>,
}

fn vectors() -> PathBuf {
    Path::new(env!("CARGO_MANIFEST_DIR")).join("../../crates/vectors")
}

fn take<'a>(rest: &mut &'a [u8], count: usize) -> &'a [u8] {
    let (front, after) = rest.split_at(count);
    *rest = after;
    front
}

fn take_number(rest: &mut &[u8]) -> usize {
    u32::from_be_bytes(take(rest, 4).try_into().unwrap()) as usize
}

fn next_case(rest: &mut &[u8]) -> Case {
    let length = take_number(rest);
    let room = take_number(rest);
    let refused = take(rest, 1) != [0];
    let number = take_number(rest);
    let sheet = take(rest, length).to_vec();
    let told = if refused { Err(number as u8) } else { Ok(take(rest, number).to_vec()) };
    Case { sheet, room, told }
}

fn next_change(rest: &mut &[u8]) -> ChangeCase {
    let length = take_number(rest);
    let given_length = take_number(rest);
    let refused = take(rest, 1) != [0];
    let number = take_number(rest);
    let sheet = take(rest, length).to_vec();
    let given = take(rest, given_length).to_vec();
    let after = take(rest, length).to_vec();
    assert!(refused || number == 0, "a list or record that is taken is answered with 0");
    ChangeCase { sheet, given, told: if refused { Err(number as u8) } else { Ok(()) }, after }
}

/// All that a file holds.
fn read_all<T>(kind: &str, next: fn(&mut &[u8]) -> T) -> Vec<T> {
    let bytes = fs::read(vectors().join("data").join(kind)).expect(kind);
    let mut rest = &bytes[..];
    let mut cases = Vec::new();
    while !rest.is_empty() {
        cases.push(next(&mut rest));
    }
    cases
}

/// Every kind, with the count of cases that the vectors' program prints.
fn kinds() -> Vec<(String, usize)> {
    let listed = fs::read_to_string(vectors().join("stdout")).expect("crates/vectors/stdout");
    let kind = |line: &str| {
        let (name, count) = line.split_once(' ').expect(line);
        (name.to_string(), count.parse().expect(line))
    };
    listed.lines().map(kind).collect()
}

fn under_2015(kind: &str) -> bool {
    kind.starts_with("text_2015_")
}

/// The entry that settles the sheets of a kind.
fn entry_of(kind: &str) -> fn(&[u8], &mut [u8]) -> Result<usize, Refusal> {
    if under_2015(kind) {
        settle_2015
    } else {
        settle
    }
}

/// The answer, the result and every byte around it are as stored.
fn agrees(kind: &str, case: &Case, fill: u8) -> bool {
    let mut buffer = vec![fill; 8 + case.room + 8];
    let answer = entry_of(kind)(&case.sheet, &mut buffer[8..8 + case.room]);
    let mut wanted = vec![fill; buffer.len()];
    if let Ok(result) = &case.told {
        wanted[8..8 + result.len()].copy_from_slice(result);
    }
    let told = case.told.as_ref().map(Vec::len).map_err(|number| *number);
    answer.map_err(|refusal| refusal.number()) == told && buffer == wanted
}

/// The answer to a list or record and every byte of the sheet and around it are as stored.
fn agrees_changed(entry: Change, case: &ChangeCase, fill: u8) -> bool {
    let around = |sheet: &[u8]| [&[fill; 8][..], sheet, &[fill; 8]].concat();
    let mut memory = around(&case.sheet);
    let answer = entry(&mut memory[8..8 + case.sheet.len()], &case.given);
    answer.map_err(|refusal| refusal.number()) == case.told && memory == around(&case.after)
}

/// Settles all of them twice, over different bytes.
fn settle_all(stored: &[(String, Vec<Case>)]) {
    for (kind, cases) in stored {
        for (at, case) in cases.iter().enumerate() {
            assert!(agrees(kind, case, 0xA5) && agrees(kind, case, 0x5A), "{kind}, case {at}");
        }
    }
}

fn change_all(changes: &[Vec<ChangeCase>]) {
    for ((kind, entry), cases) in CHANGES.iter().zip(changes) {
        for (at, case) in cases.iter().enumerate() {
            assert!(agrees_changed(*entry, case, 0xA5) && agrees_changed(*entry, case, 0x5A), "{kind}, case {at}");
        }
    }
}

/// The sheets to be settled.
fn stored() -> Vec<(String, Vec<Case>)> {
    kinds().into_iter().map(|(kind, _)| (kind.clone(), read_all(&kind, next_case))).collect()
}

/// The sheets with a list and those with a record, a file each.
fn stored_changes() -> Vec<Vec<ChangeCase>> {
    CHANGES.iter().map(|(kind, _)| read_all(kind, next_change)).collect()
}

#[test]
fn agree_byte_for_byte() {
    let (stored, changes) = (stored(), stored_changes());
    let counts: Vec<_> = stored.iter().map(|(kind, cases)| (kind.clone(), cases.len())).collect();
    assert_eq!(counts, kinds());
    assert_eq!(changes.iter().map(Vec::len).collect::<Vec<_>>(), [28, 32]);
    assert_eq!(fs::read_dir(vectors().join("data")).unwrap().count(), counts.len() + changes.len());
    settle_all(&stored);
    change_all(&changes);
}

#[test]
fn agree_in_several_threads_at_once() {
    const THREADS: usize = 8;
    let (stored, changes) = (stored(), stored_changes());
    let start = Barrier::new(THREADS);
    let round = || {
        settle_all(&stored);
        change_all(&changes);
    };
    let rounds = || {
        start.wait();
        (0..10).for_each(|_| round());
    };
    thread::scope(|scope| {
        for _ in 0..THREADS {
            scope.spawn(rounds);
        }
    });
}

/// A stored result, laid out again from the figures that are read of it.
fn laid_again(sheet: &[u8], result: &[u8]) -> Vec<u8> {
    let figures = Figures::of(sheet, result).expect("a result of this sheet");
    assert_eq!((figures.rows().len(), figures.consumers().len()), (usize::from(sheet[12]), usize::from(sheet[13])));
    let mut bytes = result[..5].to_vec();
    for row in figures.rows() {
        bytes.extend(row.after_cut.to_be_bytes());
        bytes.extend(row.actual.to_be_bytes());
        bytes.extend(row.payment.to_be_bytes());
    }
    for line in figures.consumers() {
        bytes.extend(line.credit.to_be_bytes());
        bytes.extend(line.percent.to_be_bytes());
        bytes.push(line.band);
        bytes.extend(line.volume.to_be_bytes());
        bytes.extend(line.charge.to_be_bytes());
    }
    let totals = figures.totals();
    assert_eq!(totals.paid, figures.rows().map(|row| row.payment).sum::<u64>());
    assert_eq!(totals.charged, figures.consumers().map(|line| line.charge).sum::<u64>());
    bytes.extend(totals.paid.to_be_bytes());
    bytes.extend(totals.charged.to_be_bytes());
    bytes
}

/// The same of a result under the text of 2015.
fn laid_again_2015(sheet: &[u8], result: &[u8]) -> Vec<u8> {
    let figures = Figures2015::of(sheet, result).expect("a result of this sheet");
    assert_eq!(figures.consumers().len(), usize::from(sheet[13]));
    let mut bytes = result[..4].to_vec();
    for line in figures.consumers() {
        bytes.push(line.factor);
        bytes.extend(line.volume.to_be_bytes());
        bytes.extend(line.charge.to_be_bytes());
    }
    bytes
}

/// Whether there are figures of so many bytes of a result.
fn is_read(kind: &str, sheet: &[u8], result: &[u8]) -> bool {
    if under_2015(kind) {
        Figures2015::of(sheet, result).is_some()
    } else {
        Figures::of(sheet, result).is_some()
    }
}

#[test]
fn figures_are_read_where_they_stand() {
    let mut results = [0, 0];
    for (kind, cases) in stored() {
        let again = if under_2015(&kind) { laid_again_2015 } else { laid_again };
        for (at, case) in cases.iter().enumerate() {
            let Ok(result) = &case.told else { continue };
            assert_eq!(again(&case.sheet, result), *result, "{kind}, case {at}");
            let longer = [&result[..], &[0xA5; 7]].concat();
            assert_eq!(again(&case.sheet, &longer), *result, "{kind}, case {at}");
            assert!(!is_read(&kind, &case.sheet, &result[..result.len() - 1]));
            assert!(!is_read(&kind, &case.sheet[..13], result));
            results[usize::from(under_2015(&kind))] += 1;
        }
    }
    assert!(results.iter().all(|count| *count > 0));
}
