//! Records of industrial complexes: the peak written in place and settled afterwards, each new number, the example of
//! examples/, and the writer of records.
mod common;

use capacity::{average, list_length, record_length, transfer, write_list, write_record, Hour, Refusal, Transfer};
use capacity::{LARGEST_RECORD, RECORD_FRONT, RECORD_HOUR};
use common::{answer_of, changed, settled, EXAMPLE, UNTOUCHED};
use common::{MEMBERS, MEMBERS_AFTER, MEMBERS_UNMEASURED, SETTLED_AFTER};

/// The hours of 30 days.
const HOURS: usize = 24 * 30;

/// The ceiling of a power, in tenths of a megawatt.
const CEILING: u32 = 100_000;

/// 176.0 drawn and 30.0 sent out.
const HOUR: Hour = Hour { drawn: 1760, sent: 300 };

/// Nothing drawn, nothing sent out.
const STANDING: Hour = Hour { drawn: 0, sent: 0 };

fn record_of(consumer: u8, imported: u32, hours: &[Hour]) -> Vec<u8> {
    let mut buffer = vec![UNTOUCHED; record_length(hours.len())];
    write_record(consumer, imported, hours, &mut buffer).expect("the buffer is long enough").to_vec()
}

/// Consumer 0: that hour all month, 20.0 imported. Its peak: 126.0.
fn plain() -> Vec<u8> {
    record_of(0, 200, &[HOUR; HOURS])
}

fn answer_to(sheet: &[u8], record: &[u8]) -> Result<Vec<u8>, Refusal> {
    answer_of(average, sheet, record)
}

fn refused(record: &[u8]) -> Refusal {
    answer_to(&MEMBERS_UNMEASURED, record).expect_err("the record is to be turned down")
}

/// The peak that a record gives consumer 0 of document 01's example, whose other bytes stay.
fn peak_in(sheet: &[u8], record: &[u8]) -> u32 {
    let after = answer_to(sheet, record).expect("the record is to be taken");
    let peak: [u8; 4] = after[18..22].try_into().unwrap();
    assert_eq!(after, changed(sheet, 18, &peak));
    u32::from_be_bytes(peak)
}

/// The same where an hour of day 1 is this one and all others stand.
fn peak_of_hour(sheet: &[u8], hour: usize, powers: Hour) -> u32 {
    let mut hours = [STANDING; HOURS];
    hours[hour] = powers;
    peak_in(sheet, &record_of(0, 0, &hours))
}

/// Document 01's example with holidays on all days but the first, a Monday: it has six control hours.
fn one_control_day() -> Vec<u8> {
    changed(&EXAMPLE, 7, &[0x3F, 0xFF, 0xFF, 0xFE])
}

#[test]
fn written_in_place_and_settled() {
    let sheet = answer_to(&MEMBERS_UNMEASURED, &plain()).expect("the record is to be taken");
    assert_eq!(sheet, MEMBERS_AFTER);
    assert_eq!(settled(&sheet), SETTLED_AFTER);
    assert_eq!(answer_to(&sheet, &plain()), Ok(sheet), "a second time");
}

#[test]
fn several_complexes() {
    let other = record_of(1, 0, &[Hour { drawn: 1050, sent: 0 }; HOURS]);
    let before = changed(&MEMBERS_UNMEASURED, 33, &[0; 4]);
    for records in [[&plain(), &other], [&other, &plain()]] {
        let after = records.iter().try_fold(before.clone(), |sheet, record| answer_to(&sheet, record));
        assert_eq!(after, Ok(MEMBERS_AFTER.to_vec()));
    }
}

#[test]
fn before_or_after_transfers() {
    let mut buffer = [0; list_length(1)];
    let list = write_list(&[Transfer { day: 20, giver: 0, taker: 1, amount: 500 }], &mut buffer).unwrap();
    let before = changed(&MEMBERS, 18, &[0; 4]);
    let given = answer_of(transfer, &before, list).expect("the list is to be applied");
    assert_eq!(answer_to(&given, &plain()), Ok(MEMBERS_AFTER.to_vec()));
    let measured = answer_to(&before, &plain()).expect("the record is to be taken");
    assert_eq!(answer_of(transfer, &measured, list), Ok(MEMBERS_AFTER.to_vec()));
}

#[test]
fn at_any_address_and_side_by_side() {
    common::at_any_address(average, &MEMBERS_UNMEASURED, &plain(), &MEMBERS_AFTER);
    common::side_by_side(average, &MEMBERS_UNMEASURED, &plain(), &MEMBERS_AFTER);
}

#[test]
fn the_example() {
    let month = include_bytes!("../../../examples/month.sheet");
    let averaged = include_bytes!("../../../examples/month-averaged.sheet");
    let record = include_bytes!("../../../examples/plant.complex");
    assert_eq!(record.len(), LARGEST_RECORD);
    assert_eq!(answer_to(month, record).as_deref(), Ok(&averaged[..]));
    let peak = month.len() - 15 * (32 - 9) + 4;
    assert_eq!(averaged[..], changed(month, peak, &675u32.to_be_bytes()), "consumer 9 of 32 has a peak of 67.5");
    let short = include_bytes!("../../../examples/refused-16.complex");
    assert_eq!(answer_to(month, short), Err(Refusal::BAD_RECORD));
    let high = include_bytes!("../../../examples/refused-17.complex");
    assert_eq!(answer_to(month, high), Err(Refusal::HIGH_POWER));
}

#[test]
fn the_average_is_rounded_half_up() {
    let sheet = one_control_day();
    assert_eq!(peak_of_hour(&sheet, 17, Hour { drawn: 2, sent: 0 }), 0, "2 tenths over 6 hours");
    assert_eq!(peak_of_hour(&sheet, 22, Hour { drawn: 3, sent: 0 }), 1, "3 tenths over 6 hours");
    assert_eq!(peak_of_hour(&sheet, 22, Hour { drawn: 8, sent: 0 }), 1);
    assert_eq!(peak_of_hour(&sheet, 17, Hour { drawn: 109, sent: 100 }), 2);
}

#[test]
fn nothing_counts_below_zero() {
    let sheet = one_control_day();
    let mut hours = [Hour { drawn: 60, sent: 0 }; HOURS];
    hours[17] = Hour { drawn: 0, sent: CEILING };
    assert_eq!(peak_in(&sheet, &record_of(0, 0, &hours)), 50, "five hours of 6.0, and one of 0.0");
    assert_eq!(peak_in(&sheet, &record_of(0, 50, &hours)), 0);
    assert_eq!(peak_in(&sheet, &record_of(0, CEILING, &hours)), 0, "more imported than the average");
}

#[test]
fn hours_that_are_no_control_hours() {
    let high = Hour { drawn: CEILING, sent: 0 };
    for hour in (0..17).chain([23, 24 + 17]) {
        assert_eq!(peak_of_hour(&one_control_day(), hour, high), 0, "hour {hour}");
    }
    let no_control_day = changed(&EXAMPLE, 7, &[0x3F, 0xFF, 0xFF, 0xFF]);
    assert_eq!(peak_in(&no_control_day, &record_of(0, 0, &[high; HOURS])), 0);
    assert_eq!(peak_in(&EXAMPLE, &record_of(0, 0, &[high; HOURS])), CEILING, "the highest peak");
}

#[test]
fn the_sheets_numbers_come_first() {
    assert_eq!(answer_to(&[], &[]), Err(Refusal::NO_HEADER));
    assert_eq!(answer_to(&EXAMPLE[..28], &plain()), Err(Refusal::WRONG_LENGTH));
    assert_eq!(answer_to(&changed(&EXAMPLE, 24, &[9]), &[]), Err(Refusal::BAD_FACTOR));
    let too_high = changed(&EXAMPLE, 18, &(CEILING + 1).to_be_bytes());
    assert_eq!(answer_to(&too_high, &plain()), Err(Refusal::HIGH_FIGURE), "the very peak that would be written over");
}

#[test]
fn sixteen_the_length() {
    let record = plain();
    for length in 0..record.len() {
        assert_eq!(refused(&record[..length]), Refusal::BAD_RECORD, "{length} bytes of the record");
    }
    assert_eq!(refused(&[&record[..], &[0]].concat()), Refusal::BAD_RECORD);
    for field in [0, 5768, 5770, u32::MAX] {
        assert_eq!(refused(&changed(&record, 0, &field.to_be_bytes())), Refusal::BAD_RECORD);
    }
    for hours in [0, HOURS - 24, HOURS - 1, HOURS + 1, HOURS + 24] {
        assert_eq!(refused(&record_of(0, 200, &vec![HOUR; hours])), Refusal::BAD_RECORD, "{hours} hours");
    }
}

#[test]
fn sixteen_the_consumer() {
    for consumer in [2, 255] {
        assert_eq!(refused(&changed(&plain(), 4, &[consumer])), Refusal::BAD_RECORD);
    }
    let nobody = common::month(0, 0, 0, &[]);
    assert_eq!(answer_to(&nobody, &record_of(0, 0, &[HOUR; 24 * 28])), Err(Refusal::BAD_RECORD));
}

#[test]
fn seventeen_powers() {
    let record = plain();
    let places = (RECORD_FRONT - 4..record.len()).step_by(4);
    assert_eq!(places.len(), 1 + 2 * HOURS);
    for place in places {
        let with = |power: u32| changed(&record, place, &power.to_be_bytes());
        assert!(answer_to(&MEMBERS_UNMEASURED, &with(CEILING)).is_ok(), "10,000.0 at {place}");
        for high in [CEILING + 1, 1 << 17, u32::MAX] {
            assert_eq!(refused(&with(high)), Refusal::HIGH_POWER, "{high} at {place}");
        }
    }
}

#[test]
fn the_numbers_in_their_order() {
    let high = changed(&plain(), RECORD_FRONT, &(CEILING + 1).to_be_bytes());
    assert_eq!(refused(&high), Refusal::HIGH_POWER);
    assert_eq!(refused(&changed(&high, 4, &[2])), Refusal::BAD_RECORD);
    assert_eq!(refused(&high[..high.len() - RECORD_HOUR]), Refusal::BAD_RECORD);
    assert_eq!(answer_to(&changed(&EXAMPLE, 24, &[9]), &changed(&high, 4, &[2])), Err(Refusal::BAD_FACTOR));
}

#[test]
fn records_are_written_where_there_is_room() {
    let wanted = [0, 0, 0, 25, 7, 1, 2, 3, 4, 0, 0, 6, 224, 0, 0, 1, 44, 5, 6, 7, 8, 9, 10, 11, 12];
    let hours = [HOUR, Hour { drawn: 0x0506_0708, sent: 0x090A_0B0C }];
    common::written_where_there_is_room(|buffer| write_record(7, 0x0102_0304, &hours, buffer), &wanted);
    assert_eq!(record_of(1, 2, &[]), [0, 0, 0, 9, 1, 0, 0, 0, 2]);
}

/// Tenths, from a power of the text with its one decimal.
fn tenths(text: &str) -> u32 {
    text.replace('.', "").parse().expect(text)
}

#[test]
fn the_examples_text_is_written_as_its_record() {
    let text = include_str!("../../../examples/plant.complex.csv");
    let mut lines = text.lines().map(|line| line.split_once(',').expect(line));
    let (_, consumer) = lines.next().unwrap();
    let (_, imported) = lines.next().unwrap();
    assert_eq!(lines.next(), Some(("drawn", "sent")));
    let hours: Vec<_> = lines.map(|(drawn, sent)| Hour { drawn: tenths(drawn), sent: tenths(sent) }).collect();
    let record = record_of(consumer.parse().unwrap(), tenths(imported), &hours);
    assert_eq!(record, include_bytes!("../../../examples/plant.complex"));
}
