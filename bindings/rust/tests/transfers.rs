//! Lists of transfers: applied in place and settled afterwards, each new number, and the writer of lists.
mod common;

use capacity::{list_length, transfer, write_list, Refusal, Transfer};
use common::{answer_of, changed, settled, MEMBERS, MEMBERS_AFTER, SETTLED_AFTER, UNTOUCHED};

/// Filed on day 20: consumer 0 gives consumer 1 50.0.
const FILED: Transfer = Transfer { day: 20, giver: 0, taker: 1, amount: 500 };

fn list_of(transfers: &[Transfer]) -> Vec<u8> {
    let mut buffer = vec![UNTOUCHED; list_length(transfers.len())];
    write_list(transfers, &mut buffer).expect("the buffer is long enough").to_vec()
}

fn answer_to(sheet: &[u8], list: &[u8]) -> Result<Vec<u8>, Refusal> {
    answer_of(transfer, sheet, list)
}

fn refused(transfers: &[Transfer]) -> Refusal {
    answer_to(&MEMBERS, &list_of(transfers)).expect_err("the list is to be turned down")
}

fn applied(transfers: &[Transfer]) -> Vec<u8> {
    answer_to(&MEMBERS, &list_of(transfers)).expect("the list is to be applied")
}

#[test]
fn applied_in_place_and_settled() {
    let sheet = applied(&[FILED]);
    assert_eq!(sheet, MEMBERS_AFTER);
    assert_eq!(settled(&sheet), SETTLED_AFTER);
}

#[test]
fn at_any_address_and_side_by_side() {
    common::at_any_address(transfer, &MEMBERS, &list_of(&[FILED]), &MEMBERS_AFTER);
    common::side_by_side(transfer, &MEMBERS, &list_of(&[FILED]), &MEMBERS_AFTER);
}

#[test]
fn in_their_order() {
    let back = Transfer { giver: 1, taker: 0, ..FILED };
    assert_eq!(applied(&[FILED, back]), MEMBERS);
    assert_eq!(applied(&[back, FILED]), MEMBERS);
    // Consumer 1 has 50.0 before the list: it can give 50.1 only after it has got some.
    let more = Transfer { amount: 501, ..back };
    applied(&[FILED, more]);
    assert_eq!(refused(&[more, FILED]), Refusal::OVERDRAWN);
}

#[test]
fn a_list_of_no_entries() {
    assert_eq!(applied(&[]), MEMBERS);
    assert_eq!(answer_to(&common::EXAMPLE, &list_of(&[])), Ok(common::EXAMPLE.to_vec()));
}

#[test]
fn the_sheets_numbers_come_first() {
    assert_eq!(answer_to(&[], &[]), Err(Refusal::NO_HEADER));
    assert_eq!(answer_to(&MEMBERS[..43], &[]), Err(Refusal::WRONG_LENGTH));
    assert_eq!(answer_to(&changed(&MEMBERS, 14, &100_001u32.to_be_bytes()), &[]), Err(Refusal::HIGH_FIGURE));
    assert_eq!(answer_to(&changed(&MEMBERS, 24, &[9]), &[]), Err(Refusal::BAD_FACTOR));
}

#[test]
fn thirteen_the_lists_form() {
    let list = list_of(&[FILED]);
    for length in 0..list.len() {
        assert_eq!(answer_to(&MEMBERS, &list[..length]), Err(Refusal::BAD_LIST), "{length} bytes of the list");
    }
    assert_eq!(answer_to(&MEMBERS, &[&list[..], &[0]].concat()), Err(Refusal::BAD_LIST));
    assert_eq!(answer_to(&MEMBERS, &changed(&list, 4, &[2])), Err(Refusal::BAD_LIST), "version 2");
    let half = changed(&list[..11], 0, &11u32.to_be_bytes());
    assert_eq!(answer_to(&MEMBERS, &half), Err(Refusal::BAD_LIST), "an entry of 6 bytes");
}

#[test]
fn thirteen_entries() {
    for day in [0, 32, 255] {
        assert_eq!(refused(&[Transfer { day, ..FILED }]), Refusal::BAD_LIST);
    }
    for number in [2, 255] {
        assert_eq!(refused(&[Transfer { giver: number, ..FILED }]), Refusal::BAD_LIST);
        assert_eq!(refused(&[FILED, Transfer { taker: number, ..FILED }]), Refusal::BAD_LIST);
    }
    assert_eq!(refused(&[Transfer { taker: 0, amount: 0, ..FILED }]), Refusal::BAD_LIST);
}

#[test]
fn fourteen_filed_late() {
    for day in [21, 31] {
        assert_eq!(refused(&[FILED, Transfer { day, ..FILED }]), Refusal::FILED_LATE);
    }
    applied(&[Transfer { day: 1, ..FILED }]);
}

#[test]
fn fifteen_overdrawn() {
    applied(&[Transfer { amount: 1500, ..FILED }]);
    assert_eq!(refused(&[Transfer { amount: 1501, ..FILED }]), Refusal::OVERDRAWN);
    assert_eq!(refused(&[Transfer { amount: u32::MAX, ..FILED }]), Refusal::OVERDRAWN);
    // The first entry alone could be met: it is not applied.
    assert_eq!(refused(&[FILED, Transfer { amount: 1001, ..FILED }]), Refusal::OVERDRAWN);
    // A taker that comes to 10,000.0, and one that would come to 10,000.1.
    let full = changed(&MEMBERS, 29, &99_500u32.to_be_bytes());
    assert!(answer_to(&full, &list_of(&[FILED])).is_ok());
    assert_eq!(answer_to(&full, &list_of(&[Transfer { amount: 501, ..FILED }])), Err(Refusal::OVERDRAWN));
}

#[test]
fn the_numbers_in_their_order() {
    let (bad, late, overdrawn) =
        (Transfer { day: 0, ..FILED }, Transfer { day: 21, ..FILED }, Transfer { amount: 1501, ..FILED });
    assert_eq!(refused(&[overdrawn, late, bad]), Refusal::BAD_LIST);
    assert_eq!(refused(&[overdrawn, late]), Refusal::FILED_LATE);
    assert_eq!(refused(&[overdrawn]), Refusal::OVERDRAWN);
}

#[test]
fn lists_are_written_where_there_is_room() {
    let wanted = [0, 0, 0, 19, 1, 20, 0, 1, 0, 0, 1, 244, 3, 255, 2, 1, 2, 3, 4];
    let transfers = [FILED, Transfer { day: 3, giver: 255, taker: 2, amount: 0x0102_0304 }];
    common::written_where_there_is_room(|buffer| write_list(&transfers, buffer), &wanted);
}
