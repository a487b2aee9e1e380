//! Units whose memories were written by the firmware before A.2 (`tests/older_images`): its checkpoints are those of the
//! older form here, and the keeper reads them and seals them anew in the longer form.

use crate::compare::call;
use crate::firmware::{Firmware, DOCUMENT_01, KEEPER};
use crate::layout::{half_of, read_ring, Checkpoint, Form, Newest, Reading};
use crate::operations::*;
use std::collections::BTreeMap;
use std::rc::Rc;

/// Each image, with what a power-up of the keeper's answers: 4 where the longer form outgrows the half, 13 at 8 restarts.
const IMAGES: [(&str, &str, u32); 11] = [
    ("empty parts in 88", include_str!("../older_images/empty_parts_in_88.txt"), 4),
    ("empty parts in 96", include_str!("../older_images/empty_parts_in_96.txt"), DONE),
    ("restarted once", include_str!("../older_images/restarted_once.txt"), DONE),
    ("saved and restarted", include_str!("../older_images/saved_and_restarted.txt"), DONE),
    ("restarted 8 times", include_str!("../older_images/restarted_8_times.txt"), 13),
    ("page pending", include_str!("../older_images/page_pending.txt"), DONE),
    ("page pending, restarted", include_str!("../older_images/page_pending_restarted.txt"), DONE),
    ("fills its half", include_str!("../older_images/fills_its_half.txt"), 4),
    ("fills its half, restarted 8 times", include_str!("../older_images/fills_its_half_restarted_8_times.txt"), 13),
    ("around the ring", include_str!("../older_images/around_the_ring.txt"), DONE),
    ("cut in the words", include_str!("../older_images/cut_in_the_words.txt"), DONE),
];

/// A file of `tests/older_images`.
struct Image {
    values: BTreeMap<&'static str, &'static str>,
    /// The lines `call` and `cut`.
    calls: Vec<Vec<&'static str>>,
}

fn bytes(text: &str) -> Vec<u8> {
    match text {
        "-" => vec![],
        _ => (0..text.len() / 2).map(|i| u8::from_str_radix(&text[2 * i..2 * i + 2], 16).unwrap()).collect(),
    }
}

impl Image {
    fn read(text: &'static str) -> Image {
        let (mut values, mut calls) = (BTreeMap::new(), Vec::new());
        for line in text.lines().filter(|line| !line.starts_with('#')) {
            let words: Vec<&str> = line.split(' ').collect();
            match words[..] {
                ["call", ..] | ["cut"] => calls.push(words),
                [name, value] => assert!(values.insert(name, value).is_none()),
                _ => panic!("{line}"),
            }
        }
        Image { values, calls }
    }

    fn number(&self, name: &str) -> usize {
        self.values[name].parse().unwrap()
    }

    fn bytes(&self, name: &str) -> Vec<u8> {
        bytes(self.values[name])
    }

    /// The newest checkpoint, as that firmware reported it.
    fn newest(&self) -> Checkpoint {
        Checkpoint {
            form: Form::Older,
            packet: 0,
            open_part: self.bytes("open"),
            secret: self.bytes("secret"),
            restarts: self.number("restarts") as u32,
            previous_tag: self.bytes("previous").try_into().unwrap(),
            nonce: self.bytes("nonce").try_into().unwrap(),
        }
    }

    /// The memories that the calls left, and buffers for this firmware.
    fn lent(&self, firmware: Firmware, nonce: [u8; 12]) -> Lent {
        let fram = self.bytes("fram");
        Lent {
            pages: self.number("pages"),
            slots: self.number("slots"),
            ring: self.bytes("ring"),
            key: self.bytes("key"),
            nonce: nonce.to_vec(),
            starting_tag: vec![0x11; 16],
            session: vec![0x22; session_length(firmware.form)],
            packet: 0,
            open_part: vec![],
            secret: vec![],
            staging: vec![0x33; fram.len() / 2],
            state: Rc::new(vec![0x44; firmware.part_limit]),
            job: vec![0x55; job_length(firmware.form)],
            secret_len: 0,
            restarts: 99,
            open_start: 0,
            open_len: 0,
            fram,
        }
    }
}

fn newest_of(c: &Lent) -> Newest {
    match read_ring(c.pages, c.slots, &c.ring) {
        Reading::Newest(newest) => newest,
        _ => panic!("no newest record"),
    }
}

fn answer(name: &str, operation: Operation, lent: &mut Lent) -> u32 {
    call(operation, lent).unwrap_or_else(|words| panic!("{name}: {words}"))
}

/// Document 01's firmware here, given the same calls, leaves the same memories; and the half that the newest record names
/// begins with the newest checkpoint in its older form.
#[test]
fn document_01s_firmware_here_is_the_one_that_wrote_them() {
    for (name, text, _) in IMAGES {
        let image = Image::read(text);
        let mut c = image.lent(DOCUMENT_01, [0; 12]);
        (c.ring, c.fram) = (vec![0xFF; c.ring.len()], image.bytes("fram-at-first"));
        for words in &image.calls {
            let operation = match words[..] {
                ["cut"] => {
                    c.job = vec![0; 56];
                    continue;
                }
                ["call", "advance", count, "answers", expected] => {
                    let answers: Vec<u32> =
                        (0..count.parse().unwrap()).map(|_| perform(DOCUMENT_01, Operation::Advance, &mut c)).collect();
                    let (last, before) = answers.split_last().unwrap();
                    assert!(before.iter().all(|answer| *answer == GOING_ON), "{name}: {answers:?}");
                    assert_eq!(last.to_string(), expected, "{name}");
                    continue;
                }
                ["call", "first-save", nonce, tag, open, secret] => {
                    (c.nonce, c.starting_tag) = (bytes(nonce), bytes(tag));
                    (c.open_part, c.secret) = (bytes(open), bytes(secret));
                    Operation::FirstSave
                }
                ["call", "save", nonce, open, secret] => {
                    (c.nonce, c.open_part, c.secret) = (bytes(nonce), bytes(open), bytes(secret));
                    Operation::Save
                }
                ["call", "power-up", nonce] => {
                    c.nonce = bytes(nonce);
                    Operation::PowerUp
                }
                _ => panic!("{name}: {words:?}"),
            };
            assert_eq!(perform(DOCUMENT_01, operation, &mut c), DONE, "{name}: {words:?}");
        }
        assert!(c.ring == image.bytes("ring") && c.fram == image.bytes("fram"), "{name}: other memories");
        let sealed = image.newest().sealed(&c.key);
        let newest = newest_of(&c);
        assert_eq!(newest.record[..12], image.bytes("nonce"), "{name}");
        assert_eq!(half_of(&c.fram, newest.half)[..sealed.len()], sealed, "{name}");
        assert_eq!(sealed[sealed.len() - 16..], image.bytes("tag"), "{name}");
    }
}

/// "A first word of kind 1 means the older head, number 0, still read".
#[test]
fn look_reads_the_older_form() {
    for (name, text, _) in IMAGES {
        let image = Image::read(text);
        let mut c = image.lent(KEEPER, [0xEE; 12]);
        assert_eq!(answer(name, Operation::Look, &mut c), DONE, "{name}");
        assert_eq!(c.restarts as usize, image.number("restarts"), "{name}");
        assert_eq!(c.open_start, newest_of(&c).half * c.fram.len() / 2 + 28, "{name}");
        assert_eq!(c.fram[c.open_start..c.open_start + c.open_len], image.bytes("open"), "{name}");
        // Its tag is still compared.
        c.key[0] ^= 1;
        assert_eq!(answer(name, Operation::Look, &mut c), 12, "{name}");
    }
}

/// "a power-up reseals it in the longer form": number 0, one restart more, the older checkpoint's tag as the previous one;
/// run to its end, the newest record has the new nonce, and the half that it names begins with the new checkpoint. A save
/// after it goes on from there.
#[test]
fn a_power_up_reseals_them() {
    let mut resealed = 0;
    for (name, text, expected) in IMAGES {
        let image = Image::read(text);
        let mut c = image.lent(KEEPER, [0xEE; 12]);
        let before = (c.ring.clone(), c.fram.clone());
        assert_eq!(answer(name, Operation::PowerUp, &mut c), expected, "{name}");
        let older = image.newest();
        if expected != DONE {
            assert!(c.staging.iter().all(|byte| *byte == 0x33) && c.state.iter().all(|byte| *byte == 0x44), "{name}");
            assert_eq!((&c.ring, &c.fram, c.secret_len), (&before.0, &before.1, 0), "{name}");
            continue;
        }
        resealed += 1;
        assert_eq!(c.secret_len, older.secret.len(), "{name}");
        assert_eq!(c.state[..c.secret_len], older.secret, "{name}");
        let newer = Checkpoint {
            form: Form::Longer,
            restarts: older.restarts + 1,
            previous_tag: image.bytes("tag").try_into().unwrap(),
            nonce: [0xEE; 12],
            ..older.clone()
        };
        let sealed = newer.sealed(&c.key);
        assert_eq!(sealed[..4], [0; 4], "{name}: kind 0, packet number 0");
        assert_eq!(c.staging[..sealed.len()], sealed, "{name}");

        let (pending, half) = (newest_of(&c).pending, newest_of(&c).half);
        let mut stores = 1;
        while answer(name, Operation::Advance, &mut c) == GOING_ON {
            stores += 1;
        }
        let newest = newest_of(&c);
        let erases = usize::from(pending.is_some() || newest.slot == 0);
        assert_eq!(stores, sealed.len() / 4 + 1 + erases, "{name}");
        assert_eq!(
            (newest.record[..12].to_vec(), newest.half, newest.pending),
            (vec![0xEE; 12], 1 - half, None),
            "{name}"
        );
        assert_eq!(half_of(&c.fram, newest.half)[..sealed.len()], sealed, "{name}");
        // The older checkpoint is still whole in its own half.
        let kept = older.sealed(&c.key);
        assert_eq!(half_of(&c.fram, half)[..kept.len()], kept, "{name}");

        for (packet, restarts) in [(0, newer.restarts), (1, 0)] {
            let mut c = c.clone();
            (c.nonce, c.packet) = (vec![0xDD; 12], packet);
            assert_eq!(answer(name, Operation::Save, &mut c), DONE, "{name}");
            while answer(name, Operation::Advance, &mut c) == GOING_ON {}
            assert_eq!(answer(name, Operation::Look, &mut c), DONE, "{name}");
            assert_eq!((c.restarts, c.open_len), (restarts, 0), "{name}: a save after packet {packet}");
        }
    }
    assert_eq!(resealed, 7);
}

/// Every power loss between two stores of that power-up leaves the older checkpoint or the new one, whichever was recorded last.
#[test]
fn a_power_loss_in_the_resealing() {
    for (name, text, _) in IMAGES.into_iter().filter(|(_, _, expected)| *expected == DONE) {
        let image = Image::read(text);
        let mut c = image.lent(KEEPER, [0xEE; 12]);
        assert_eq!(answer(name, Operation::PowerUp, &mut c), DONE);
        for made in 0.. {
            let recorded = newest_of(&c).record[..12] == [0xEE; 12];
            let restarts = image.number("restarts") + usize::from(recorded);
            let mut again = image.lent(KEEPER, [0xDD; 12]);
            (again.ring, again.fram) = (c.ring.clone(), c.fram.clone());
            assert_eq!(answer(name, Operation::Look, &mut again), DONE, "{name}, {made} stores");
            assert_eq!(again.restarts as usize, restarts, "{name}, {made} stores");
            let head = if recorded { 32 } else { 28 };
            assert_eq!(again.open_start % (again.fram.len() / 2), head, "{name}, {made} stores");
            assert_eq!(answer(name, Operation::PowerUp, &mut again), DONE, "{name}, {made} stores");
            assert_eq!(again.state[..again.secret_len], image.bytes("secret"), "{name}, {made} stores");
            if answer(name, Operation::Advance, &mut c) != GOING_ON {
                break;
            }
        }
    }
}
