//! Sheets of versions 2 and 3: rows that cover part of the month, rows that cover all of it, hours as columns, the
//! numbers of version, days and powers, and all four entries.
mod common;

use capacity::{average, settle, settle_2015, transfer, Figures, Refusal, LARGEST_RESULT, LARGEST_SHEET};
use common::{answer_of, changed, UNTOUCHED};

const MONTH: &[u8] = include_bytes!("../../../examples/month.sheet");
const LIST: &[u8] = include_bytes!("../../../examples/transfers.list");
const RECORD: &[u8] = include_bytes!("../../../examples/plant.complex");

/// The last day of MONTH, which is of version 1.
const LAST: u8 = MONTH[5];

/// Days of a row inside that month.
const INSIDE: [u8; 2] = [10, 15];

/// A sheet of version 1 in version 2, where each row has these days.
fn with_days(sheet: &[u8], days: [u8; 2]) -> Vec<u8> {
    let [in_month, producers, rows] = [sheet[5], sheet[11], sheet[12]].map(usize::from);
    let (front, back) = sheet.split_at(14 + producers * (42 + 288 * in_month));
    let (rows, consumers) = back.split_at(10 * rows);
    let rows: Vec<u8> = rows.chunks_exact(10).flat_map(|row| [row, &days].concat()).collect();
    let bytes = [front, &rows, consumers].concat();
    let length = bytes.len() as u32;
    changed(&changed(&bytes, 0, &length.to_be_bytes()), 4, &[2])
}

/// How many powers an hour has, and the bytes of each.
const POWERS: usize = 3;
const POWER: usize = 4;

/// A producer's hours, hour by hour, as columns.
fn columns(hours: &[u8]) -> Vec<u8> {
    let column = |at: usize| hours.chunks_exact(POWERS * POWER).flat_map(move |hour| &hour[at * POWER..][..POWER]);
    (0..POWERS).flat_map(column).copied().collect()
}

/// A sheet of version 2 in version 3.
fn in_columns(sheet: &[u8]) -> Vec<u8> {
    let [in_month, producers] = [sheet[5], sheet[11]].map(usize::from);
    let width = 42 + 288 * in_month;
    let (header, records) = sheet.split_at(14);
    let (producers, back) = records.split_at(producers * width);
    let rearranged = |producer: &[u8]| [&producer[..42], &columns(&producer[42..])].concat();
    let producers: Vec<u8> = producers.chunks_exact(width).flat_map(rearranged).collect();
    changed(&[header, &producers, back].concat(), 4, &[3])
}

/// A sheet of version 1 in versions 2 and 3, where each row has these days.
fn both_with_days(sheet: &[u8], days: [u8; 2]) -> [Vec<u8>; 2] {
    let in_hours = with_days(sheet, days);
    let in_columns = in_columns(&in_hours);
    [in_hours, in_columns]
}

/// Where a power of a producer stands in a sheet of version 3 with the days of MONTH.
fn place_of(producer: usize, column: usize, hour: usize) -> usize {
    let hours = 24 * usize::from(LAST);
    14 + producer * (42 + hours * POWERS * POWER) + 42 + (column * hours + hour) * POWER
}

/// Where the days of the last row stand in MONTH with days.
fn last_days() -> usize {
    LARGEST_SHEET - 15 * 32 - 2
}

/// An entry that settles.
type Settlement = fn(&[u8], &mut [u8]) -> Result<usize, Refusal>;

/// Its answer, and the result; after a refusal the buffer is as it was.
fn answer_to(entry: Settlement, sheet: &[u8]) -> Result<Vec<u8>, Refusal> {
    let mut buffer = [UNTOUCHED; LARGEST_RESULT];
    let answer = entry(sheet, &mut buffer);
    let written = answer.unwrap_or(0);
    assert!(buffer[written..].iter().all(|byte| *byte == UNTOUCHED));
    answer.map(|count| buffer[..count].to_vec())
}

/// The answers of all entries; a list and a record of no bytes are turned down by 13 and 16.
fn refusals(sheet: &[u8]) -> [Option<Refusal>; 4] {
    [
        answer_to(settle, sheet).err(),
        answer_to(settle_2015, sheet).err(),
        answer_of(transfer, sheet, &[]).err(),
        answer_of(average, sheet, &[]).err(),
    ]
}

/// None of the sheet's own numbers applies.
const ACCEPTED: [Option<Refusal>; 4] = [None, None, Some(Refusal::BAD_LIST), Some(Refusal::BAD_RECORD)];

/// A figure with so many decimals.
fn decimal(figure: u64, decimals: usize) -> String {
    let one = 10u64.pow(decimals as u32);
    format!("{}.{:02$}", figure / one, figure % one, decimals)
}

/// The listing of an accepted sheet.
fn listing(sheet: &[u8]) -> String {
    let result = answer_to(settle, sheet).expect("the sheet is to be accepted");
    let figures = Figures::of(sheet, &result).expect("a result of this sheet");
    let tenths = |figure: u64| decimal(figure, 1);
    let money = |tiyn: u64| decimal(tiyn, 2);
    let rows = figures.rows().enumerate().map(|(at, row)| {
        format!("R{at} {} {} {}\n", tenths(row.after_cut.into()), tenths(row.actual.into()), money(row.payment))
    });
    let consumers = figures.consumers().enumerate().map(|(at, line)| {
        let [credit, percent, band] = [line.credit, line.percent, line.band.into()].map(|figure| tenths(figure.into()));
        format!("C{at} {credit} {percent} {band} {} {}\n", tenths(line.volume), money(line.charge))
    });
    let totals = figures.totals();
    rows.chain(consumers).collect::<String>() + &format!("T {} {}\n", money(totals.paid), money(totals.charged))
}

#[test]
fn rows_inside_the_month() {
    let sheet = include_bytes!("../../../examples/inside-month.sheet");
    assert_eq!(sheet[4], 2);
    for sheet in [&sheet[..], &in_columns(sheet)] {
        assert_eq!(listing(sheet), include_str!("../../../examples/inside-month.listing"));
    }
}

#[test]
fn hours_as_columns() {
    let sheet = include_bytes!("../../../examples/columns.sheet");
    assert_eq!(sheet[4], 3);
    assert_eq!(listing(sheet), include_str!("../../../examples/columns.listing"));
}

#[test]
fn rows_of_the_whole_month_are_settled_as_in_version_1() {
    let old_act = include_bytes!("../../../examples/old-act.sheet");
    let small = include_bytes!("../../../examples/small.sheet");
    for sheet in [MONTH, old_act, small] {
        for whole in both_with_days(sheet, [1, sheet[5]]) {
            for entry in [settle, settle_2015] {
                assert_eq!(answer_to(entry, &whole), answer_to(entry, sheet));
            }
        }
        assert_ne!(answer_to(settle, &with_days(sheet, INSIDE)), answer_to(settle, sheet));
        assert_eq!(answer_to(settle_2015, &with_days(sheet, INSIDE)), answer_to(settle_2015, sheet));
    }
}

#[test]
fn hours_as_columns_are_settled_as_hour_by_hour() {
    let [in_hours, in_columns] = both_with_days(MONTH, INSIDE);
    assert_eq!((in_hours.len(), in_columns.len()), (LARGEST_SHEET, LARGEST_SHEET));
    for entry in [settle, settle_2015] {
        assert!(answer_to(entry, &in_hours).is_ok());
        assert_eq!(answer_to(entry, &in_columns), answer_to(entry, &in_hours));
    }
}

#[test]
fn hours_that_stand_otherwise_are_settled_otherwise() {
    let [in_hours, in_columns] = both_with_days(MONTH, INSIDE);
    let right = answer_to(settle, &in_columns);
    for (sheet, version) in [(&in_hours, 3), (&in_columns, 2)] {
        let stated = changed(sheet, 4, &[version]);
        assert_eq!(refusals(&stated), ACCEPTED);
        assert_ne!(answer_to(settle, &stated), right, "version {version}");
    }
    let column = |at: usize| place_of(0, at, 0)..place_of(0, at + 1, 0);
    for (one, other) in [(0, 1), (1, 2), (0, 2)] {
        let moved = changed(&in_columns, column(one).start, &in_columns[column(other)]);
        let exchanged = changed(&moved, column(other).start, &in_columns[column(one)]);
        assert_ne!(answer_to(settle, &exchanged), right, "columns {one} and {other}");
    }
    for late in [1, POWER] {
        for at in 0..POWERS {
            let read = &in_columns[column(at)][late..];
            assert_ne!(answer_to(settle, &changed(&in_columns, column(at).start, read)), right, "{late} bytes, {at}");
        }
    }
}

#[test]
fn a_list_and_a_record_change_the_same_figures() {
    for (entry, given) in [(transfer as common::Change, LIST), (average, RECORD)] {
        let after = answer_of(entry, MONTH, given).expect("it is to be taken");
        let answers = both_with_days(MONTH, INSIDE).map(|sheet| answer_of(entry, &sheet, given));
        assert_eq!(answers, both_with_days(&after, INSIDE).map(Ok));
    }
}

#[test]
fn eighteen_days() {
    for sheet in both_with_days(MONTH, INSIDE) {
        for days in [[1, 1], [1, LAST], [LAST, LAST]] {
            assert_eq!(refusals(&changed(&sheet, last_days(), &days)), ACCEPTED, "{days:?}");
        }
        for days in [[0, 0], [0, LAST], [10, 9], [1, LAST + 1], [LAST + 1, LAST + 1], [255, 255]] {
            assert_eq!(refusals(&changed(&sheet, last_days(), &days)), [Some(Refusal::BAD_DAYS); 4], "{days:?}");
        }
    }
    let refused = include_bytes!("../../../examples/refused-18.sheet");
    assert_eq!(refusals(refused), [Some(Refusal::BAD_DAYS); 4]);
}

#[test]
fn eighteen_is_the_sheets_last() {
    for sheet in both_with_days(MONTH, INSIDE) {
        let no_day = changed(&sheet, last_days(), &[0]);
        let low_z = changed(&no_day, LARGEST_SHEET - 5, &[9]);
        assert_eq!(refusals(&low_z), [Some(Refusal::BAD_FACTOR); 4]);
        assert_eq!(settle(&no_day, &mut []), Err(Refusal::SHORT_BUFFER));
        assert_eq!(settle_2015(&no_day, &mut []), Err(Refusal::SHORT_BUFFER));
    }
}

#[test]
fn nine_in_every_column() {
    let sheet = in_columns(&with_days(MONTH, INSIDE));
    let last_hour = 24 * usize::from(LAST) - 1;
    for producer in [0, 5] {
        for column in 0..POWERS {
            for hour in [0, last_hour] {
                let with = |power: u32| changed(&sheet, place_of(producer, column, hour), &power.to_be_bytes());
                assert_eq!(refusals(&with(100_000)), ACCEPTED);
                assert_eq!(refusals(&with(100_001)), [Some(Refusal::HIGH_FIGURE); 4], "{producer} {column} {hour}");
            }
        }
    }
}

#[test]
fn a_version_and_the_width_of_its_rows() {
    for sheet in both_with_days(MONTH, INSIDE) {
        for version in [0, 4, 255] {
            assert_eq!(refusals(&changed(&sheet, 4, &[version])), [Some(Refusal::OTHER_VERSION); 4]);
        }
        assert_eq!(refusals(&changed(&sheet, 4, &[1])), [Some(Refusal::LENGTH_OFF); 4]);
    }
    for version in [2, 3] {
        assert_eq!(refusals(&changed(MONTH, 4, &[version])), [Some(Refusal::LENGTH_OFF); 4]);
    }
}
