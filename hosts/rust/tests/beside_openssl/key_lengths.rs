//! Document 02, A.8, case by case: "Key expansion, sealing, opening and all above them take 16 or 32 bytes … A key of 24 bytes
//! is still refused." Which of the two a unit has is its own for life, and nothing stored says so: a key of the other length is
//! another key.

use crate::by_hand::*;
use crate::firmware::{FIRMWARES, KEEPER};
use crate::layout::half_of;
use crate::operations::*;

for_each_key_length!(every_length_in_its_place, a_checkpoint_under_a_key_of_the_other_length);

/// A key of the other length that is made of this one: its front, or itself twice.
pub fn of_other_length(key: &[u8]) -> Vec<u8> {
    key.iter().copied().cycle().take(48 - key.len()).collect()
}

/// A unit after a first save and a save, with a nonce that is not used.
fn saved(key_length: usize) -> Lent {
    let mut unit = lent(key_length, 3, 2, 128);
    made(Operation::FirstSave, &mut unit, 1);
    made(Operation::Save, &mut unit, 2);
    unit.nonce[11] += 1;
    unit
}

/// Every call that takes a key, with keys of every length that are the front of the unit's or the unit's repeated: 3 where it
/// is neither 16 nor 32, after 1 and 2 and before all else.
fn every_length_in_its_place(key_length: usize) {
    let (blank, used) = (lent(key_length, 3, 2, 128), saved(key_length));
    for length in (0..=100).chain([128, 192, 256, 4096]) {
        let key: Vec<u8> = used.key.iter().copied().cycle().take(length).collect();
        let opened = if length == key_length { DONE } else { 12 };
        for (operation, unit, answer) in [
            (Operation::FirstSave, &blank, DONE),
            (Operation::FirstSave, &used, 5),
            (Operation::Save, &blank, 6),
            (Operation::Save, &used, DONE),
            (Operation::PowerUp, &blank, 6),
            (Operation::PowerUp, &used, opened),
            (Operation::Look, &blank, 6),
            (Operation::Look, &used, opened),
        ] {
            let or_3 = |answer| if length == 16 || length == 32 { answer } else { 3 };
            let with = |change: fn(&mut Lent)| tried(operation, unit, |c| (c.key = key.clone(), change(c)).1);
            assert_eq!(with(|_| ()), or_3(answer), "{operation:?}, {length} bytes");
            assert_eq!(with(|c| c.pages = 4), 1, "{operation:?}, {length} bytes");
            assert_eq!(with(|c| c.fram.truncate(84)), 2, "{operation:?}, {length} bytes");
            if operation != Operation::Look {
                assert_eq!(with(|c| c.staging.truncate(63)), or_3(4), "{operation:?}, {length} bytes");
            }
            // A ring that is not readable.
            let unread = if operation == Operation::FirstSave { 5 } else { 7 };
            assert_eq!(with(|c| c.ring[95] = 0), or_3(unread), "{operation:?}, {length} bytes");
        }
    }
}

/// A save does not look at the checkpoint before, so it is not stopped by a key of the other length. What it stores opens with
/// that key and no more with the unit's.
fn a_checkpoint_under_a_key_of_the_other_length(key_length: usize) {
    let mut unit = saved(key_length);
    let keys = [of_other_length(&unit.key), unit.key.clone()];
    for operation in [Operation::Save, Operation::PowerUp, Operation::Save] {
        unit.key = keys[0].clone();
        made(operation, &mut unit, 3);
        for (key, expected) in keys.iter().zip([DONE, 12]) {
            for call in [Operation::Look, Operation::PowerUp] {
                let found = tried(call, &unit, |c| {
                    c.nonce[11] += 1;
                    c.key = key.clone();
                });
                assert_eq!(found, expected, "{call:?} with {} bytes after {operation:?}", key.len());
            }
        }
    }
}

/// The same calls on two units, one of whose keys is the front of the other's: the same answers and stores, the same ring and
/// heads; what is made of the key differs.
#[test]
fn the_same_stores_with_either_length() {
    let long = lent(32, 3, 2, 128);
    let short = Lent { key: of_other_length(&long.key), ..long.clone() };
    let mut units = [long, short];
    for (n, operation) in [Operation::FirstSave, Operation::Save, Operation::PowerUp, Operation::Save, Operation::Save]
        .into_iter()
        .enumerate()
    {
        let stores = units.each_mut().map(|unit| {
            assert_eq!(started(operation, unit, 7), DONE);
            finished(unit)
        });
        assert_eq!(stores[0], stores[1], "{operation:?}");
        assert!(units[0].ring == units[1].ring, "{operation:?}");
        // Page, slot and record of the session; its restarts and packet number.
        let [a, b] = units.each_ref().map(|unit| &unit.session);
        assert_eq!((&a[..24], &a[40..]), (&b[..24], &b[40..]), "{operation:?}");
        // The head's words, the previous tag, the open part, the sealed secret part, and the tag.
        let [a, b] = units.each_ref().map(|unit| half_of(&unit.fram, n % 2));
        assert!(a[..16] == b[..16] && a[32..36] == b[32..36], "{operation:?}");
        assert_eq!(a[16..32] == b[16..32], operation == Operation::FirstSave, "{operation:?}");
        assert!(a[36..40] != b[36..40] && a[40..56] != b[40..56], "{operation:?}");
    }
}

/// Firmware before A.8 stops at a key of 16 bytes with 3, after 1 and 2. It stores nothing, so that the keeper begins where it is
/// given such a unit.
#[test]
fn firmware_before_it() {
    let blank = lent(16, 3, 2, 128);
    for firmware in FIRMWARES.into_iter().filter(|firmware| *firmware != KEEPER) {
        for operation in [Operation::FirstSave, Operation::Save, Operation::PowerUp, Operation::Look] {
            for mut unit in [blank.clone(), saved(16)] {
                unit.job.resize(job_length(firmware.form), 0);
                let given = |change: fn(&mut Lent)| {
                    let mut copy = unit.clone();
                    change(&mut copy);
                    let before = copy.clone();
                    let answer = perform(firmware, operation, &mut copy);
                    assert!(copy == before, "{operation:?} by {} firmware changes something", firmware.name);
                    answer
                };
                assert_eq!(given(|_| ()), 3);
                assert_eq!(given(|c| c.pages = 4), 1);
                assert_eq!(given(|c| c.fram.truncate(84)), 2);
            }
        }
    }
    made(Operation::FirstSave, &mut blank.clone(), 1);
}
