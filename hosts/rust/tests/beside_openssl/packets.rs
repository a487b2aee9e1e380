//! Document 02, A.2, case by case: packet numbers and restarts, the longer head, and where the new stops stand.

use crate::by_hand::*;
use crate::layout::{half_of, number, word, LARGEST_PACKET};
use crate::operations::*;

fn with_first_save(key_length: usize, packet: u32) -> Lent {
    let mut lent = lent(key_length, 3, 2, 128);
    made(Operation::FirstSave, &mut lent, packet);
    lent
}

/// Restarts and packet number of the session that was handed out last.
fn held(lent: &Lent) -> (u32, u32) {
    (number(&lent.session[40..44]), number(&lent.session[44..48]))
}

for_each_key_length!(
    a_unit_that_hears_only_repeats_stops,
    numbers_beside_the_sessions,
    where_restarts_and_number_stand,
    every_byte_of_the_head_is_sealed,
    stop_18_stands_after_4,
    a_session_out_of_range,
    restarts_of_8_carry_over,
    jobs_from_48_bytes_on,
    the_smallest_memories,
);

/// "A unit that saved after each repeated packet set its restarts to 0 and never stopped."
fn a_unit_that_hears_only_repeats_stops(key_length: usize) {
    let mut unit = with_first_save(key_length, 700);
    for restarts in 1..=8 {
        made(Operation::PowerUp, &mut unit, 0);
        assert_eq!(held(&unit), (restarts, 700));
        // The repeated packet, and one from before it.
        made(Operation::Save, &mut unit, 700);
        made(Operation::Save, &mut unit, 699);
        assert_eq!(held(&unit), (restarts, 700));
        assert_eq!(answer(Operation::Look, &mut unit), DONE);
        assert_eq!(unit.restarts, restarts);
    }
    assert_eq!(started(Operation::PowerUp, &mut unit, 0), 13);
    // The last save's session still serves, and a newer packet is progress.
    made(Operation::Save, &mut unit, 701);
    assert_eq!(held(&unit), (0, 701));
    made(Operation::PowerUp, &mut unit, 0);
    assert_eq!(held(&unit), (1, 701));
}

/// "Above the session's number it sets restarts to 0; otherwise restarts carry over, and the larger number is stored."
fn numbers_beside_the_sessions(key_length: usize) {
    let mut unit = with_first_save(key_length, 500);
    assert_eq!(held(&unit), (0, 500));
    made(Operation::PowerUp, &mut unit, 0);
    for (packet, expected) in [
        (0, (1, 500)),
        (499, (1, 500)),
        (500, (1, 500)),
        (501, (0, 501)),
        (LARGEST_PACKET - 1, (0, LARGEST_PACKET - 1)),
        (LARGEST_PACKET, (0, LARGEST_PACKET)),
    ] {
        let mut copy = unit.clone();
        made(Operation::Save, &mut copy, packet);
        assert_eq!(held(&copy), expected, "packet {packet}");
        // Words 0 and 3 of the checkpoint, the third in the unit's life and so in half A, say the same.
        let half = half_of(&copy.fram, 0);
        assert_eq!(
            (half[0..4].to_vec(), half[12..16].to_vec()),
            (word(0, expected.1).into(), word(3, expected.0).into())
        );
    }
}

/// A job's and a session's last words, and the head of the checkpoint between them.
fn where_restarts_and_number_stand(key_length: usize) {
    let mut unit = lent(key_length, 3, 2, 128);
    assert_eq!(started(Operation::FirstSave, &mut unit, 0x0102_0304), DONE);
    assert_eq!(unit.job.len(), 64);
    assert_eq!(unit.job[56..], [0, 0, 0, 0, 1, 2, 3, 4]);
    // Kind 0, packet; kind 1, one word; kind 2, one word; kind 3, restarts 0; the starting tag; the open part.
    let head = [1, 2, 3, 4, 0x40, 0, 0, 1, 0x80, 0, 0, 1, 0xC0, 0, 0, 0];
    assert_eq!(unit.staging[..16], head);
    assert_eq!(unit.staging[16..32], unit.starting_tag);
    assert_eq!(unit.staging[32..36], unit.open_part);
    // 48 bytes and two words: 14 words and a record.
    assert_eq!(finished(&mut unit), 15);
    assert_eq!(unit.fram[..56], unit.staging[..56]);
    assert_eq!(unit.session[40..], [0, 0, 0, 0, 1, 2, 3, 4]);
    assert_eq!(answer(Operation::Look, &mut unit), DONE);
    assert_eq!((unit.restarts, unit.open_start, unit.open_len), (0, 32, 4));
    made(Operation::PowerUp, &mut unit, 0);
    assert_eq!(unit.session[40..], [0, 0, 0, 1, 1, 2, 3, 4]);
}

/// "all 32 head bytes are associated data": a change of any of them is seen.
fn every_byte_of_the_head_is_sealed(key_length: usize) {
    let unit = with_first_save(key_length, 6);
    for at in 0..32 {
        for bit in 0..8 {
            let found = tried(Operation::PowerUp, &unit, |c| {
                c.nonce[11] += 1;
                c.fram[at] ^= 1 << bit;
            });
            assert!(found == 11 || found == 12, "byte {at}, bit {bit}: {found}");
        }
    }
    // A word of kind 0 has no value that is wrong: the packet number alone is found by its tag.
    assert_eq!(tried(Operation::Look, &unit, |c| c.fram[3] ^= 1), 12);
    assert_eq!(tried(Operation::Look, &unit, |c| c.fram[0] ^= 0x80), 11);
}

/// "(18 packet number too large, after 4": first save 1 to 4, 18, 5; save 1 to 4, 18, 6 to 10.
fn stop_18_stands_after_4(key_length: usize) {
    let large = |c: &mut Lent| c.packet = LARGEST_PACKET + 1;
    let blank = lent(key_length, 3, 2, 128);
    let unit = with_first_save(key_length, 3);
    let mut saving = unit.clone();
    saving.nonce[11] += 1;
    for (operation, unit) in [(Operation::FirstSave, &blank), (Operation::Save, &saving)] {
        assert_eq!(tried(operation, unit, |_| ()), DONE);
        assert_eq!(tried(operation, unit, |c| c.packet = LARGEST_PACKET), DONE);
        assert_eq!(tried(operation, unit, large), 18);
        assert_eq!(tried(operation, unit, |c| c.packet = u32::MAX), 18);
        assert_eq!(tried(operation, unit, |c| (large(c), c.pages = 4).0), 1);
        assert_eq!(tried(operation, unit, |c| (large(c), c.fram.truncate(84)).0), 2);
        assert_eq!(tried(operation, unit, |c| (large(c), c.key.resize(24, 0)).0), 3);
        assert_eq!(tried(operation, unit, |c| (large(c), c.secret.truncate(3)).0), 4);
        assert_eq!(tried(operation, unit, |c| (large(c), c.open_part.resize(16, 0)).0), 4);
        assert_eq!(tried(operation, unit, |c| (large(c), c.staging.truncate(63)).0), 4);
        assert_eq!(tried(operation, unit, |c| (large(c), c.job.truncate(63)).0), 18);
    }
    // 5 and after.
    assert_eq!(tried(Operation::FirstSave, &unit, |_| ()), 5);
    assert_eq!(tried(Operation::FirstSave, &unit, large), 18);
    // 6, 7, 8, 9 and 10 and after.
    for stop in 6..=10 {
        let change = |c: &mut Lent| match stop {
            6 => c.ring.fill(0xFF),
            7 => c.ring[16] = 0,
            8 => c.session[0] = 1,
            9 => c.ring[64] = 0,
            _ => c.nonce[11] -= 1,
        };
        assert_eq!(tried(Operation::Save, &saving, change), stop);
        assert_eq!(tried(Operation::Save, &saving, |c| (change(c), large(c)).0), 18);
    }
}

/// "8 also where the session's restarts or packet number are out of range".
fn a_session_out_of_range(key_length: usize) {
    let mut unit = with_first_save(key_length, 3);
    unit.nonce[11] += 1;
    let held = |c: &mut Lent, restarts: u32, packet: u32| {
        c.session[40..44].copy_from_slice(&restarts.to_be_bytes());
        c.session[44..48].copy_from_slice(&packet.to_be_bytes());
    };
    assert_eq!(tried(Operation::Save, &unit, |c| held(c, 8, LARGEST_PACKET)), DONE);
    for (restarts, packet) in [(9, 3), (0, LARGEST_PACKET + 1), (9, u32::MAX), (u32::MAX, 0), (1 << 31, 0)] {
        assert_eq!(tried(Operation::Save, &unit, |c| held(c, restarts, packet)), 8);
        // After 7, before 9 and 10; and a session is not looked at by any other call.
        assert_eq!(tried(Operation::Save, &unit, |c| (held(c, restarts, packet), c.ring[16] = 0).0), 7);
        assert_eq!(tried(Operation::Save, &unit, |c| (held(c, restarts, packet), c.ring[64] = 0).0), 8);
        assert_eq!(tried(Operation::Save, &unit, |c| (held(c, restarts, packet), c.nonce[11] -= 1).0), 8);
        assert_eq!(tried(Operation::PowerUp, &unit, |c| held(c, restarts, packet)), DONE);
    }
    // A session of document 01's firmware is 40 bytes: by A.7 neither a session nor a starting tag.
    assert_eq!(tried(Operation::Save, &unit, |c| c.session.truncate(40)), 3);
}

/// A save with a session of 8 restarts and no newer packet stores the 8: the next power-up gives 13.
fn restarts_of_8_carry_over(key_length: usize) {
    let mut unit = with_first_save(key_length, 3);
    for _ in 0..8 {
        made(Operation::PowerUp, &mut unit, 0);
    }
    let stale = {
        let mut unit = unit.clone();
        made(Operation::Save, &mut unit, 3);
        assert_eq!(held(&unit), (8, 3));
        started(Operation::PowerUp, &mut unit, 0)
    };
    made(Operation::Save, &mut unit, 4);
    assert_eq!((stale, started(Operation::PowerUp, &mut unit, 0)), (13, DONE));
}

/// "14 takes 48 for 44", and no stop of an advance looks at a job's restarts and number: the session gets them.
fn jobs_from_48_bytes_on(key_length: usize) {
    let mut unit = lent(key_length, 3, 2, 128);
    unit.open_part.clear();
    unit.secret.clear();
    assert_eq!(started(Operation::FirstSave, &mut unit, 9), DONE);
    assert_eq!(number(&unit.job[16..20]), 48);
    let length = |c: &mut Lent, n: u32| c.job[16..20].copy_from_slice(&n.to_be_bytes());
    for (n, expected) in [(40, 14), (44, 14), (46, 14), (47, 14), (48, 256), (49, 14), (52, 256), (64, 256), (68, 14)] {
        assert_eq!(tried(Operation::Advance, &unit, |c| length(c, n)), expected, "length {n}");
    }
    for n in [0, 40, 56, 63, 65, 72] {
        assert_eq!(tried(Operation::Advance, &unit, |c| c.job.resize(n, 0)), 14);
    }
    for n in [0, 40, 47, 49, 64] {
        assert_eq!(tried(Operation::Advance, &unit, |c| c.session.resize(n, 0)), 4);
    }
    unit.job[56..].copy_from_slice(&[0xFF; 8]);
    assert_eq!(finished(&mut unit), 13);
    assert_eq!(held(&unit), (u32::MAX, u32::MAX));
    assert_eq!(started(Operation::Save, &mut unit, 10), 8);
}

/// "FRAM 88 holds no new checkpoint."
fn the_smallest_memories(key_length: usize) {
    let mut unit = lent(key_length, 3, 2, 88);
    unit.open_part.clear();
    unit.secret.clear();
    assert_eq!(started(Operation::FirstSave, &mut unit, 0), 4);
    for (fram, open, secret, expected) in
        [(96, 0, 0, DONE), (96, 4, 0, 4), (96, 0, 4, 4), (104, 4, 0, DONE), (104, 4, 4, 4)]
    {
        let mut unit = lent(key_length, 3, 2, fram);
        unit.open_part.resize(open, 1);
        unit.secret.resize(secret, 2);
        assert_eq!(started(Operation::FirstSave, &mut unit, 0), expected, "FRAM {fram}, parts {open} and {secret}");
    }
}
