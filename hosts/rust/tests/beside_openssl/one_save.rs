//! Document 02, A.7, case by case: "Two entries for saving led the firmware to call the wrong one. Merge first save and save:
//! the caller gives either a starting tag or a session. With a starting tag a ring that is not blank gives 5; with a session
//! the checks are those of save."

use crate::by_hand::*;
use crate::firmware::{Firmware, KEEPER};
use crate::operations::*;
use std::collections::BTreeSet;

/// A.6's two entries, with keys of either length.
const A_6S_ENTRIES: Firmware = Firmware { one_save: false, ..KEEPER };

for_each_key_length!(
    every_length,
    a_starting_tag_on_a_ring_in_use,
    a_session_on_a_blank_ring,
    the_entries_before_it,
    buffers_of_other_lengths,
);

/// A unit after a first save and so many saves, with a nonce that is not used.
fn saved(key_length: usize, saves: usize) -> Lent {
    let mut unit = lent(key_length, 3, 2, 128);
    made(Operation::FirstSave, &mut unit, 1);
    for _ in 0..saves {
        made(Operation::Save, &mut unit, 2);
    }
    unit.nonce[11] += 1;
    unit
}

/// One with a ring that is not readable.
fn unreadable(key_length: usize) -> Lent {
    let mut unit = saved(key_length, 1);
    unit.ring[64] = 0;
    unit
}

/// The answer to a save that is given these bytes to follow, whichever they are.
fn following(unit: &Lent, from: &[u8]) -> u32 {
    tried(Operation::Save, unit, |c| c.session = from.to_vec())
}

/// 16 bytes are a starting tag, 48 a session, any other length gives 3, after 1 and 2 and before all else.
fn every_length(key_length: usize) {
    let blank = lent(key_length, 3, 2, 128);
    let used = saved(key_length, 3);
    for length in (0..=100).chain([640, 4096]) {
        let from = vec![0x5A; length];
        let expected = match length {
            16 => [DONE, 5],
            48 => [6, 8],
            _ => [3, 3],
        };
        assert_eq!([following(&blank, &from), following(&used, &from)], expected, "{length} bytes");
        for unit in [&blank, &used] {
            let with =
                |change: fn(&mut Lent)| tried(Operation::Save, unit, |c| (change(c), c.session = from.clone()).0);
            assert_eq!(with(|c| c.pages = 4), 1, "{length} bytes");
            assert_eq!(with(|c| c.fram.truncate(84)), 2, "{length} bytes");
            assert_eq!(with(|c| c.key.resize(24, 0)), 3, "{length} bytes");
            let behind = if length == 16 || length == 48 { 4 } else { 3 };
            assert_eq!(with(|c| c.staging.truncate(63)), behind, "{length} bytes");
        }
    }
}

/// A starting tag on a ring that is not blank, whatever it holds: one record, a full page, a pending page, a ring gone round,
/// one that is not readable, a single bit. No 16 bytes of a session do better, its tag among them.
fn a_starting_tag_on_a_ring_in_use(key_length: usize) {
    let mut units: Vec<Lent> = (0..9).map(|saves| saved(key_length, saves)).collect();
    for page in 0..3 {
        for byte in [0, 17, 31] {
            let mut unit = lent(key_length, 3, 2, 128);
            unit.ring[32 * page + byte] = 0xFE;
            units.push(unit);
        }
    }
    let mut pending = saved(key_length, 2);
    pending.ring[0] = 0;
    units.push(pending);
    for unit in &units {
        assert_eq!(tried(Operation::FirstSave, unit, |_| ()), 5);
        for at in 0..=32 {
            assert_eq!(following(unit, &unit.session[at..at + 16]), 5, "bytes {at} of the session");
        }
    }
}

/// A session where nothing is recorded: the one of another unit, with its own tag, record and place.
fn a_session_on_a_blank_ring(key_length: usize) {
    for saves in 0..9 {
        let session = saved(key_length, saves).session;
        assert_eq!(following(&lent(key_length, 3, 2, 128), &session), 6);
    }
}

/// "with the same stores and answers": what A.6's first save and save answer and leave, worked out here, is what the one save
/// does, byte for byte, for many units and wrong arguments.
fn the_entries_before_it(key_length: usize) {
    let changes: [fn(&mut Lent); 14] = [
        |_| (),
        |c| c.pages = 2,
        |c| c.fram.truncate(120),
        |c| c.fram.truncate(84),
        |c| c.key.resize(24, 0),
        |c| c.nonce.push(0),
        |c| c.open_part.push(0),
        |c| c.secret.resize(32, 7),
        |c| c.staging.push(9),
        |c| c.packet = u32::MAX,
        |c| c.packet = 3,
        |c| c.nonce[11] -= 1,
        |c| c.session[5] ^= 1,
        |c| c.job.truncate(56),
    ];
    let mut pending = saved(key_length, 2);
    pending.ring[0] = 0;
    let mut answers = BTreeSet::new();
    for unit in (0..9).map(|saves| saved(key_length, saves)).chain([
        lent(key_length, 3, 2, 128),
        unreadable(key_length),
        pending,
    ]) {
        for operation in [Operation::FirstSave, Operation::Save] {
            for change in changes {
                let mut older = unit.clone();
                older.nonce[11] = older.nonce[11].max(1);
                change(&mut older);
                let mut newer = older.clone();
                let expected = perform(A_6S_ENTRIES, operation, &mut older);
                assert_eq!(answer(operation, &mut newer), expected);
                assert!(older == newer, "{operation:?} leaves other bytes");
                answers.insert((operation, expected));
            }
        }
    }
    let of =
        |operation| answers.iter().filter(|(of, _)| *of == operation).map(|(_, answer)| *answer).collect::<Vec<_>>();
    assert_eq!(of(Operation::FirstSave), [0, 1, 2, 3, 4, 5, 14, 18]);
    assert_eq!(of(Operation::Save), [0, 1, 2, 3, 4, 6, 7, 8, 9, 10, 14, 18]);
}

/// The answers of the entry before it and of the one save, on a blank ring, one in use and one that is not readable.
fn answers(key_length: usize, operation: Operation, change: fn(&mut Lent)) -> [(u32, u32); 3] {
    [lent(key_length, 3, 2, 128), saved(key_length, 3), unreadable(key_length)].map(|mut unit| {
        change(&mut unit);
        (perform(A_6S_ENTRIES, operation, &mut unit.clone()), answer(operation, &mut unit))
    })
}

/// Where they differ, for C: 16 bytes of a session are a starting tag, a session of another length gives 3, where it gave
/// 6, 7 or 8, and a starting tag of 48 bytes is a session.
fn buffers_of_other_lengths(key_length: usize) {
    let answers = |operation, change: fn(&mut Lent)| answers(key_length, operation, change);
    assert_eq!(answers(Operation::Save, |_| ()), [(6, 6), (0, 0), (7, 7)]);
    assert_eq!(answers(Operation::Save, |c| c.session.truncate(16)), [(6, 0), (8, 5), (7, 5)]);
    assert_eq!(answers(Operation::Save, |c| c.session.truncate(40)), [(6, 3), (8, 3), (7, 3)]);
    assert_eq!(answers(Operation::FirstSave, |_| ()), [(0, 0), (5, 5), (5, 5)]);
    assert_eq!(answers(Operation::FirstSave, |c| c.starting_tag.resize(48, 0)), [(3, 6), (3, 8), (3, 7)]);
    assert_eq!(answers(Operation::FirstSave, |c| c.starting_tag.truncate(15)), [(3, 3); 3]);
}
