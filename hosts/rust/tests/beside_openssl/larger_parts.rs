//! Document 02, A.5, case by case: the limits, and what firmware from before it makes of a larger part. "Stored checkpoints
//! keep their form; a unit with old firmware, where its checks before 11 pass, refuses a larger one with 11 and never reads
//! it short."

use crate::by_hand::*;
use crate::firmware::{Firmware, A_2, DOCUMENT_01, KEEPER};
use crate::layout::{half_of, record, tag_of, word, Checkpoint, Form};
use crate::openssl;
use crate::operations::*;
use crate::random::Random;
use crate::unit::stopped;
use std::rc::Rc;

const OLDER: [Firmware; 2] = [DOCUMENT_01, A_2];

const EACH: [Firmware; 3] = [DOCUMENT_01, A_2, KEEPER];

for_each_key_length!(
    largest_memories,
    largest_parts,
    least_state_buffer,
    stored_parts_at_the_limit,
    older_firmware_refuses_what_the_keeper_saved,
    no_length_is_read_short,
    larger_parts_behind_the_older_head,
);

fn key_of(length: usize) -> Vec<u8> {
    vec![0x5B; length]
}

/// Lengths above 4,096 whose words, 1,025, 2,048, 4,097 and 8,192, have few of their lowest 10 to 13 bits set or none, so that
/// they would be read short if the higher ones were dropped.
const LARGER: [usize; 4] = [4100, 8192, 16_388, 32_768];

/// Parts of which one at least is larger.
fn larger_parts() -> impl Iterator<Item = (usize, usize)> {
    LARGER.into_iter().flat_map(|n| [(n, 0), (0, n), (n, 4), (4096, n), (n, 16_388)]).chain([(32_768, 32_720)])
}

fn with_parts(c: &mut Lent, open: usize, secret: usize) {
    let mut random = Random::new((open + 3 * secret) as u64);
    (c.open_part, c.secret) = (random.bytes(open), random.bytes(secret));
}

/// The answer of this firmware's call on copies of the memories, with buffers of its own. A stop leaves everything.
fn answered_by(firmware: Firmware, operation: Operation, lent: &Lent) -> u32 {
    let mut copy = lent.clone();
    copy.nonce = vec![0xEE; 12];
    copy.job = vec![0x55; job_length(firmware.form)];
    copy.state = Rc::new(vec![0x44; firmware.part_limit]);
    let before = copy.clone();
    let answer = match firmware {
        KEEPER => answer(operation, &mut copy),
        older => perform(older, operation, &mut copy),
    };
    assert!(
        !stopped(answer) || copy == before,
        "{operation:?} by {} firmware stops and changes something",
        firmware.name
    );
    answer
}

/// What both older firmwares and the keeper's, in their order, answer to a power-up and to a look.
fn read_by_each(lent: &Lent) -> [(u32, u32); 3] {
    EACH.map(|firmware| {
        let [power_up, look] = [Operation::PowerUp, Operation::Look].map(|call| answered_by(firmware, call, lent));
        (power_up, look)
    })
}

/// What they are to answer: the older ones this to both calls, or 3 where they do not take the key.
fn answers(key_length: usize, older: u32, keeper: (u32, u32)) -> [(u32, u32); 3] {
    let [first, second] = OLDER.map(|firmware| firmware.or_3(key_length, older));
    [(first, first), (second, second), keeper]
}

/// A unit whose newest record, with a nonce of 0x77, names a half that begins with these bytes.
fn holding(key_length: usize, fram: usize, half: usize, bytes: &[u8]) -> Lent {
    let mut lent = Lent { key: key_of(key_length), ..lent(key_length, 3, 2, fram) };
    lent.ring[..16].copy_from_slice(&record(&[0x77; 12], half));
    lent.fram[half * fram / 2..][..bytes.len()].copy_from_slice(bytes);
    lent
}

/// A checkpoint for such a unit.
fn checkpoint(form: Form, open: usize, secret: usize) -> Checkpoint {
    let mut random = Random::new((5 * open + secret) as u64);
    let packet = if form == Form::Longer { 9 } else { 0 };
    let (open_part, secret) = (random.bytes(open), random.bytes(secret));
    Checkpoint { form, packet, open_part, secret, restarts: 3, previous_tag: [0x66; 16], nonce: [0x77; 12] }
}

/// "document 01's limit cases move with them: FRAM 262,152 gives 2".
fn largest_memories(key_length: usize) {
    for (fram, wrong) in [(131_080, false), (262_136, false), (262_144, false), (262_148, true), (262_152, true)] {
        let mut unit = lent(key_length, 3, 2, fram);
        let expected = |answer: u32| if wrong { 2 } else { answer };
        assert_eq!(tried(Operation::Save, &unit, |_| ()), expected(6), "FRAM {fram}");
        assert_eq!(tried(Operation::PowerUp, &unit, |_| ()), expected(6), "FRAM {fram}");
        assert_eq!(tried(Operation::Look, &unit, |_| ()), expected(6), "FRAM {fram}");
        assert_eq!(answer(Operation::FirstSave, &mut unit), expected(DONE), "FRAM {fram}");
        assert_eq!(answer(Operation::Advance, &mut unit), expected(GOING_ON), "FRAM {fram}");
    }
}

/// "a part of 32,768 passes, 32,772 gives 4".
fn largest_parts(key_length: usize) {
    let blank = lent(key_length, 3, 2, 262_144);
    let mut saved = blank.clone();
    made(Operation::FirstSave, &mut saved, 1);
    saved.nonce[11] += 1;
    for (operation, unit) in [(Operation::FirstSave, &blank), (Operation::Save, &saved)] {
        for (n, expected) in
            [(4100, DONE), (32_764, DONE), (32_768, DONE), (32_769, 4), (32_770, 4), (32_772, 4), (65_536, 4)]
        {
            assert_eq!(tried(operation, unit, |c| with_parts(c, n, 0)), expected, "{operation:?}, open part {n}");
            assert_eq!(tried(operation, unit, |c| with_parts(c, 0, n)), expected, "{operation:?}, secret part {n}");
            assert_eq!(tried(operation, unit, |c| with_parts(c, n, n)), expected, "{operation:?}, both parts {n}");
        }
    }
    // Both of 32,768 bytes fill a half of 65,584.
    for (fram, expected) in [(131_160, 4), (131_168, DONE)] {
        assert_eq!(
            tried(Operation::FirstSave, &lent(key_length, 3, 2, fram), |c| with_parts(c, 32_768, 32_768)),
            expected
        );
    }
}

/// "The power-up's state buffer must be at least 32,768." The parts stored do not matter.
fn least_state_buffer(key_length: usize) {
    let mut unit = lent(key_length, 3, 2, 128);
    made(Operation::FirstSave, &mut unit, 1);
    unit.nonce[11] += 1;
    for (n, expected) in [(0, 4), (4096, 4), (32_764, 4), (32_767, 4), (32_768, DONE), (32_769, DONE)] {
        assert_eq!(tried(Operation::PowerUp, &unit, |c| c.state = Rc::new(vec![0x44; n])), expected, "state of {n}");
    }
}

/// Of rightly sealed checkpoints, a part of 8,192 words is read and one of 8,193 gives 11.
fn stored_parts_at_the_limit(key_length: usize) {
    for form in [Form::Older, Form::Longer] {
        for (open, secret, expected) in [
            (8192, 0, DONE),
            (0, 8192, DONE),
            (8191, 8192, DONE),
            (8192, 8192, DONE),
            (8193, 0, 11),
            (0, 8193, 11),
            (8193, 8193, 11),
            (16_384, 1, 11),
            (1, 16_385, 11),
        ] {
            for half in [0, 1] {
                let stored = checkpoint(form, 4 * open, 4 * secret).sealed(&key_of(key_length));
                let [_, _, keeper] = read_by_each(&holding(key_length, 262_144, half, &stored));
                assert_eq!(keeper, (expected, expected), "{form:?}, {open} and {secret} words, half {half}");
            }
        }
    }
}

/// Images of the keeper's own making, in a FRAM that they just fill and in the largest of the older firmwares.
fn older_firmware_refuses_what_the_keeper_saved(key_length: usize) {
    for (open, secret) in larger_parts() {
        for fram in [2 * (48 + open + secret), A_2.fram_limit] {
            let mut unit = lent(key_length, 3, 2, fram);
            // In half A, in half B, and restarted.
            for operation in [Operation::FirstSave, Operation::Save, Operation::PowerUp] {
                with_parts(&mut unit, open, secret);
                made(operation, &mut unit, 1);
                let read = read_by_each(&unit);
                assert_eq!(
                    read,
                    answers(key_length, 11, (DONE, DONE)),
                    "{operation:?}, {open} and {secret}, FRAM {fram}"
                );
            }
        }
    }
}

/// "where its checks before 11 pass". It takes keys of 32 bytes only.
#[test]
fn older_checks_before_11() {
    let mut unit = lent(32, 3, 2, 131_072);
    with_parts(&mut unit, 4100, 4);
    made(Operation::FirstSave, &mut unit, 1);
    let nonce = unit.nonce.clone();
    for firmware in OLDER {
        let tried = |change: &dyn Fn(&mut Lent)| {
            let mut copy = unit.clone();
            copy.nonce = vec![0xEE; 12];
            change(&mut copy);
            perform(firmware, Operation::PowerUp, &mut copy)
        };
        assert_eq!(tried(&|_| ()), 11);
        assert_eq!(tried(&|c| c.pages = 4), 1);
        assert_eq!(tried(&|c| c.fram.resize(131_080, 0)), 2);
        assert_eq!(tried(&|c| c.key.truncate(16)), 3);
        assert_eq!(tried(&|c| c.key.truncate(31)), 3);
        assert_eq!(tried(&|c| c.state = Rc::new(vec![0; 4095])), 4);
        assert_eq!(tried(&|c| c.state = Rc::new(vec![0; 4096])), 11);
        assert_eq!(tried(&|c| c.ring.fill(0xFF)), 6);
        assert_eq!(tried(&|c| c.ring[16] = 0), 7);
        assert_eq!(tried(&|c| c.nonce = nonce.clone()), 10);
        // 12 would come after it.
        assert_eq!(tried(&|c| c.key[0] ^= 1), 11);
    }
}

/// "Stored checkpoints keep their form": parts up to 4,096 bytes are stored as A.2's firmware stores them, and it reads them,
/// with keys of 32 bytes.
#[test]
fn parts_to_4096_as_before() {
    for (open, secret) in [(0, 0), (4, 0), (4096, 0), (0, 4096), (4092, 4096), (4096, 4096)] {
        let mut unit = lent(32, 3, 2, 2 * (48 + open + secret));
        let mut older = unit.clone();
        older.state = Rc::new(vec![0x44; A_2.part_limit]);
        for operation in [Operation::FirstSave, Operation::Save, Operation::PowerUp] {
            with_parts(&mut unit, open, secret);
            made(operation, &mut unit, 1);
            with_parts(&mut older, open, secret);
            (older.nonce, older.packet) = (unit.nonce.clone(), 1);
            assert_eq!(perform(A_2, operation, &mut older), DONE);
            while perform(A_2, Operation::Advance, &mut older) == GOING_ON {}
            assert!((&unit.ring, &unit.fram) == (&older.ring, &older.fram), "{operation:?}, {open} and {secret}");
            assert_eq!(
                read_by_each(&unit),
                [(11, 11), (DONE, DONE), (DONE, DONE)],
                "{operation:?}, {open} and {secret}"
            );
        }
    }
}

/// A head whose words say more than the firmware's limit, sealed over as many words as their low bits say: whoever drops the
/// higher bits finds the tag right.
fn no_length_is_read_short(key_length: usize) {
    for (words, bits) in
        [(0x401, 10), (0x402, 10), (0x800, 11), (0x1001, 12), (0x2000, 13), (0x2001, 13), (0x4001, 14), (0x1_0001, 16)]
    {
        for (open, secret) in [(words, 1), (1, words), (words, words)] {
            for form in [Form::Older, Form::Longer] {
                let short = |words: u32| 4 * (words & ((1 << bits) - 1)) as usize;
                let mut bytes = if form == Form::Longer { word(0, 9).to_vec() } else { vec![] };
                bytes.extend([word(1, open), word(2, secret), word(3, 0)].concat());
                bytes.extend([0x66; 16]);
                bytes.extend(vec![0xA1; short(open)]);
                let (text, tag) = openssl::seal(&key_of(key_length), &[0x77; 12], &bytes, &vec![0xA2; short(secret)]);
                bytes.extend(text);
                bytes.extend(tag);
                // Of the lengths up to the keeper's limit all but the last pair fit the half, which has another tag there.
                let keeper = if words < 0x2000 || words == 0x2000 && open != secret { 12 } else { 11 };
                let read = read_by_each(&holding(key_length, 131_072, 1, &bytes));
                assert_eq!(
                    read,
                    answers(key_length, 11, (keeper, keeper)),
                    "{form:?}, {open:#x} and {secret:#x} words"
                );
            }
        }
    }
}

/// A checkpoint of the older head with a larger part, which no older firmware wrote: both older ones refuse it, and the keeper
/// resumes it in the longer form.
fn larger_parts_behind_the_older_head(key_length: usize) {
    for (open, secret) in larger_parts() {
        for half in [0, 1] {
            let older = checkpoint(Form::Older, open, secret);
            let sealed = older.sealed(&key_of(key_length));
            let full = holding(key_length, 2 * sealed.len(), half, &sealed);
            assert_eq!(read_by_each(&full), answers(key_length, 11, (4, DONE)), "{open} and {secret}, half {half}");

            let mut unit = holding(key_length, A_2.fram_limit, half, &sealed);
            assert_eq!(read_by_each(&unit), answers(key_length, 11, (DONE, DONE)), "{open} and {secret}, half {half}");
            assert_eq!(answer(Operation::Look, &mut unit), DONE);
            assert_eq!((unit.restarts, unit.open_start), (3, half * 65_536 + 28));
            assert!(unit.fram[unit.open_start..][..unit.open_len] == older.open_part);
            made(Operation::PowerUp, &mut unit, 0);
            assert!(unit.state[..unit.secret_len] == older.secret);
            let newer = Checkpoint {
                form: Form::Longer,
                restarts: 4,
                previous_tag: tag_of(&sealed),
                nonce: unit.nonce[..].try_into().unwrap(),
                ..older
            };
            let resealed = newer.sealed(&key_of(key_length));
            assert!(half_of(&unit.fram, 1 - half)[..resealed.len()] == resealed);
        }
    }
}
