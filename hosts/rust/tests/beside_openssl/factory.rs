//! Document 02, A.10: "Given ring, FRAM and key, accept exactly if some parts, nonce, packet number and starting tag exist
//! for which a first save, run to its end, leaves this ring and these bytes in the checkpoint's length of half A." Each
//! answer is compared with both ways of saying it: by the numbers, and by a first save made anew, over OpenSSL.

use crate::by_hand::*;
use crate::firmware::{Firmware, DOCUMENT_01, FIRMWARES, KEEPER};
use crate::layout::*;
use crate::openssl;
use crate::operations::*;
use crate::program::program;
use crate::random::Random;
use godwitshelf::{calls, Sizes};
use std::ffi::OsStr;
use std::fs;
use std::io::Write as _;
use std::os::unix::ffi::OsStrExt as _;
use std::path::{Path, PathBuf};
use std::process::{Command, Stdio};
use std::rc::Rc;

for_each_key_length!(
    own_first_saves_damaged_in_every_byte,
    every_value_of_every_byte,
    parts_of_every_small_length,
    the_longest_parts,
    images_of_another_implementation,
    errors_of_another_implementation,
    heads_that_are_wrong_under_a_right_tag,
    what_is_accepted_starts,
    what_other_calls_leave,
    pending_pages,
    cuts_of_a_first_save,
    the_first_number_that_applies,
    memories_changed_at_random,
);

/// A unit's memories and key.
#[derive(Clone)]
struct Unit {
    pages: usize,
    slots: usize,
    ring: Vec<u8>,
    fram: Vec<u8>,
    key: Vec<u8>,
}

impl Unit {
    fn of(lent: &Lent) -> Unit {
        Unit {
            pages: lent.pages,
            slots: lent.slots,
            ring: lent.ring.clone(),
            fram: lent.fram.clone(),
            key: lent.key.clone(),
        }
    }

    /// One that another implementation made: this checkpoint in a half, its record in a slot, all else blank or free.
    fn with(size: Size, key: &[u8], checkpoint: &Checkpoint, place: (usize, usize, usize)) -> Unit {
        let (page, slot, half) = place;
        let mut ring = vec![0xFF; 16 * size.pages * size.slots];
        for earlier in 0..slot {
            slot_at(page, earlier, size.slots).of(&mut ring).copy_from_slice(&record(&[earlier as u8; 12], 0));
        }
        slot_at(page, slot, size.slots).of(&mut ring).copy_from_slice(&record(&checkpoint.nonce, half));
        let mut fram = Random::new(5).bytes(size.fram);
        let sealed = checkpoint.sealed(key);
        fram[half * size.fram / 2..][..sealed.len()].copy_from_slice(&sealed);
        Unit { pages: size.pages, slots: size.slots, ring, fram, key: key.to_vec() }
    }

    /// The call's answer, which is also the documents'.
    fn checked(&self) -> u32 {
        let sizes = Sizes { pages: self.pages, slots: self.slots };
        let answer = calls::factory_check(sizes, &self.ring, &self.fram, &self.key);
        assert_eq!(answer, self.numbered().map_or_else(|stop| stop, |()| DONE), "by the numbers");
        assert_eq!(answer == DONE, self.is_left_by_a_first_save(), "{answer} by a first save made anew");
        answer
    }

    /// The same after a change.
    fn changed(&self, change: impl FnOnce(&mut Unit)) -> u32 {
        let mut copy = self.clone();
        change(&mut copy);
        copy.checked()
    }

    /// "(19, after 12: newest not page 0, slot 0, half A, a page pending, restarts not 0, or the older head; otherwise 1, 2,
    /// 3, 6, 7, 11 and 12 as in a look.)"
    fn numbered(&self) -> Result<(), u32> {
        let stop_if = |condition, number| if condition { Err(number) } else { Ok(()) };
        stop_if(ring_size_wrong(self.pages, self.slots, &self.ring), 1)?;
        stop_if(fram_size_wrong(KEEPER, &self.fram), 2)?;
        stop_if(!KEEPER.takes_key_of(self.key.len()), 3)?;
        let newest = match read_ring(self.pages, self.slots, &self.ring) {
            Reading::WhollyBlank => return Err(6),
            Reading::NotReadable => return Err(7),
            Reading::Newest(newest) => newest,
        };
        let (found, _) = open_half(KEEPER, half_of(&self.fram, newest.half), &self.key, &newest.record[..12])?;
        let place = (newest.page, newest.slot, newest.half, newest.pending);
        stop_if(place != (0, 0, 0, None) || found.restarts != 0 || found.form == Form::Older, 19)
    }

    /// Whether a first save leaves these memories. If one does, its nonce is at the front of the ring, and its packet number,
    /// starting tag and parts stand in half A; so it is enough to try that one, on a blank ring and another FRAM.
    fn is_left_by_a_first_save(&self) -> bool {
        let half = self.fram.len() / 2;
        if self.ring.len() < 12 || half < 48 || !KEEPER.takes_key_of(self.key.len()) {
            return false;
        }
        let length_at = |at: usize| 4 * (number(&self.fram[at..at + 4]) & 0x3FFF_FFFF) as usize;
        let (open_end, length) = (32 + length_at(4), 48 + length_at(4) + length_at(8));
        if length > half {
            return false;
        }
        let nonce = &self.ring[..12];
        let (secret, _) = openssl::seal(&self.key, nonce, &[], &self.fram[open_end..length - 16]);
        let mut anew = Lent {
            pages: self.pages,
            slots: self.slots,
            ring: vec![0xFF; self.ring.len()],
            fram: vec![0xA5; self.fram.len()],
            key: self.key.clone(),
            nonce: nonce.to_vec(),
            starting_tag: self.fram[16..32].to_vec(),
            session: vec![0; 48],
            packet: number(&self.fram[..4]),
            open_part: self.fram[32..open_end].to_vec(),
            secret,
            staging: vec![0x5A; half],
            state: Rc::new(Vec::new()),
            job: vec![0; 64],
            secret_len: 0,
            restarts: 0,
            open_start: 0,
            open_len: 0,
        };
        if perform(KEEPER, Operation::FirstSave, &mut anew) != DONE {
            return false;
        }
        run_by(KEEPER, &mut anew);
        anew.ring == self.ring && anew.fram[..length] == self.fram[..length]
    }
}

/// Runs a job to its end by the documents' advances.
fn run_by(firmware: Firmware, lent: &mut Lent) {
    loop {
        match perform(firmware, Operation::Advance, lent) {
            GOING_ON => (),
            SAVED | RESTORED => return,
            stop => panic!("an advance stopped with {stop}"),
        }
    }
}

/// The sizes of a ring, of a FRAM and of both parts.
#[derive(Clone, Copy, Debug)]
struct Size {
    pages: usize,
    slots: usize,
    fram: usize,
    open: usize,
    secret: usize,
}

const fn size(pages: usize, slots: usize, fram: usize, open: usize, secret: usize) -> Size {
    Size { pages, slots, fram, open, secret }
}

/// Small ones: empty parts and others, halves with and without room behind the checkpoint.
const SMALL: [Size; 8] = [
    size(3, 2, 96, 0, 0),
    size(3, 2, 104, 0, 0),
    size(3, 2, 104, 4, 0),
    size(3, 3, 104, 0, 4),
    size(4, 2, 128, 8, 4),
    size(5, 4, 176, 16, 20),
    size(3, 7, 256, 0, 64),
    size(32, 2, 256, 64, 0),
];

/// A unit of the keeper's own after its first save.
fn own_first_save(key_length: usize, size: Size, packet: u32) -> Unit {
    let mut unit = lent(key_length, size.pages, size.slots, size.fram);
    let mut random = Random::new(size.fram as u64 + packet as u64);
    unit.open_part = random.bytes(size.open);
    unit.secret = random.bytes(size.secret);
    made(Operation::FirstSave, &mut unit, packet);
    Unit::of(&unit)
}

/// "Everything our own first save leaves is accepted." "Other FRAM bytes are free."
fn own_first_saves_damaged_in_every_byte(key_length: usize) {
    for (size, packet) in SMALL.into_iter().zip([0, 1, 7, LARGEST_PACKET].into_iter().cycle()) {
        let unit = own_first_save(key_length, size, packet);
        assert_eq!(unit.checked(), DONE, "{size:?}");
        for at in 0..unit.ring.len() {
            for bit in 0..8 {
                assert_ne!(unit.changed(|u| u.ring[at] ^= 1 << bit), DONE, "{size:?}: ring byte {at}, bit {bit}");
            }
        }
        for at in 0..unit.fram.len() {
            let counts = at < 48 + size.open + size.secret;
            for bit in 0..8 {
                let answer = unit.changed(|u| u.fram[at] ^= 1 << bit);
                assert_eq!(answer != DONE, counts, "{size:?}: FRAM byte {at}, bit {bit} gives {answer}");
            }
        }
    }
}

/// All 255 other values, of one size.
fn every_value_of_every_byte(key_length: usize) {
    let unit = own_first_save(key_length, size(3, 2, 128, 8, 4), 5);
    for change in 1..=255 {
        for at in 0..unit.ring.len() {
            assert_ne!(unit.changed(|u| u.ring[at] ^= change), DONE, "ring byte {at} changed by {change}");
        }
        for at in 0..unit.fram.len() {
            let answer = unit.changed(|u| u.fram[at] ^= change);
            assert_eq!(answer != DONE, at < 60, "FRAM byte {at} changed by {change} gives {answer}");
        }
    }
}

/// Both parts of 0 to 36 bytes, in halves that they fill and in longer ones, each with another nonce.
fn parts_of_every_small_length(key_length: usize) {
    let mut random = Random::new(31);
    for (open, secret) in (0..=36).step_by(4).flat_map(|open| (0..=36).step_by(4).map(move |secret| (open, secret))) {
        let least = 2 * (48 + open + secret);
        for fram in [least, least + 8] {
            let size = size(3 + open / 4, 2 + secret / 4, fram, open, secret);
            let mut unit = lent(key_length, size.pages, size.slots, size.fram);
            (unit.open_part, unit.secret) = (random.bytes(open), random.bytes(secret));
            unit.nonce = random.bytes(12);
            unit.packet = random.next() as u32 & LARGEST_PACKET;
            assert_eq!(answer(Operation::FirstSave, &mut unit), DONE);
            finished(&mut unit);
            let unit = Unit::of(&unit);
            assert_eq!(unit.checked(), DONE, "{size:?}");
            assert_eq!(unit.changed(|u| u.fram[48 + open + secret - 1] ^= 1), 12, "{size:?}");
            assert_eq!(unit.changed(|u| u.fram[48 + open + secret] ^= 1), DONE, "{size:?}");
        }
    }
}

/// The largest FRAM and both parts of 32,768 bytes; a ring of the most pages and slots.
fn the_longest_parts(key_length: usize) {
    let mut random = Random::new(41);
    for size in
        [size(3, 2, 262_144, 32_768, 32_768), size(32, 512, 131_168, 32_768, 32_768), size(3, 512, 65_584, 32_744, 0)]
    {
        let unit = own_first_save(key_length, size, LARGEST_PACKET);
        assert_eq!(unit.checked(), DONE, "{size:?}");
        let length = 48 + size.open + size.secret;
        let ends = [
            0,
            4,
            16,
            32,
            32 + size.open,
            length - 17,
            length - 16,
            length - 1,
            length,
            size.fram / 2 - 1,
            size.fram - 1,
        ];
        let some = (0..12).map(|_| random.below(size.fram)).chain(ends);
        for at in some.filter(|at| *at < size.fram) {
            let answer = unit.changed(|u| u.fram[at] ^= 1 << (at % 8));
            assert_eq!(answer != DONE, at < length, "{size:?}: FRAM byte {at} gives {answer}");
        }
        let ring = unit.ring.len();
        for at in (0..12).map(|_| random.below(ring)).chain([0, 11, 12, 15, 16, ring - 1]) {
            assert_ne!(unit.changed(|u| u.ring[at] ^= 1 << (at % 8)), DONE, "{size:?}: ring byte {at}");
        }
    }
}

/// A first checkpoint of these sizes.
fn first_checkpoint(random: &mut Random, size: Size, packet: u32) -> Checkpoint {
    Checkpoint {
        form: Form::Longer,
        packet,
        open_part: random.bytes(size.open),
        secret: random.bytes(size.secret),
        restarts: 0,
        previous_tag: random.bytes(16).try_into().unwrap(),
        nonce: random.bytes(12).try_into().unwrap(),
    }
}

/// "They write first checkpoints with their own tool."
fn images_of_another_implementation(key_length: usize) {
    let mut random = Random::new(10);
    for (size, packet) in SMALL.into_iter().zip([0, 3, LARGEST_PACKET].into_iter().cycle()) {
        let key = random.bytes(key_length);
        let checkpoint = first_checkpoint(&mut random, size, packet);
        let first = (0, 0, 0);
        let unit = Unit::with(size, &key, &checkpoint, first);
        assert_eq!(unit.checked(), DONE, "{size:?}");
        // A nonce and a starting tag of any bytes.
        for byte in [0, 0xFF] {
            let plain = Checkpoint { previous_tag: [byte; 16], nonce: [byte; 12], ..checkpoint.clone() };
            assert_eq!(Unit::with(size, &key, &plain, first).checked(), DONE, "{size:?}");
        }
        // "newest not page 0, slot 0, half A"
        let last = (size.pages - 1, size.slots - 1);
        for place in [(0, 0, 1), (0, 1, 0), (1, 0, 0), (last.0, 0, 0), (0, last.1, 0), (last.0, last.1, 1)] {
            assert_eq!(Unit::with(size, &key, &checkpoint, place).checked(), 19, "{size:?}: {place:?}");
        }
        // "a page pending": the page before page 0 is the last.
        let pending = |u: &mut Unit| *u.ring.last_mut().unwrap() = 0;
        assert_eq!(unit.changed(pending), 19, "{size:?}");
        // "restarts not 0"; above 8 the head is wrong.
        for restarts in 1..=9 {
            let restarted = Checkpoint { restarts, ..checkpoint.clone() };
            let answer = Unit::with(size, &key, &restarted, first).checked();
            assert_eq!(answer, if restarts > 8 { 11 } else { 19 }, "{size:?}: {restarts} restarts");
        }
        // "the older head"
        let older = Checkpoint { form: Form::Older, packet: 0, ..checkpoint.clone() };
        assert_eq!(Unit::with(size, &key, &older, first).checked(), 19, "{size:?}");
        // Another key, of either length, and another nonce.
        assert_eq!(unit.changed(|u| u.key[0] ^= 1), 12);
        assert_eq!(unit.changed(|u| u.key = vec![7; 48 - key_length]), 12);
        assert_eq!(unit.changed(|u| u.ring[3] ^= 0x40), 12);
    }
}

/// What a tool that follows the documents almost would write.
fn errors_of_another_implementation(key_length: usize) {
    let mut random = Random::new(11);
    let size = size(3, 2, 128, 8, 4);
    let key = random.bytes(key_length);
    let checkpoint = first_checkpoint(&mut random, size, 0x0102_0304);
    let unit = Unit::with(size, &key, &checkpoint, (0, 0, 0));
    assert_eq!(unit.checked(), DONE);
    // The place word, or the head's words, with the least significant byte first.
    assert_eq!(unit.changed(|u| u.ring[12..16].reverse()), 7);
    assert_eq!(unit.changed(|u| u.fram[..16].chunks_mut(4).for_each(|word| word.reverse())), 11);
    // The first slots left blank, or the record cut short by the programmer.
    assert_eq!(unit.changed(|u| u.ring.rotate_right(16)), 7);
    for bytes in 0..16 {
        let answer = unit.changed(|u| u.ring[bytes..16].fill(0xFF));
        assert_eq!(answer, if bytes == 0 { 6 } else { 7 }, "{bytes} bytes of the record");
    }
    // A ring of zeros, and a FRAM that was not written.
    assert_eq!(unit.changed(|u| u.ring.fill(0)), 7);
    assert_eq!(unit.changed(|u| u.fram.fill(0)), 11);
    assert_eq!(unit.changed(|u| u.fram.fill(0xFF)), 11);
    // The secret part not sealed; the head, or the open part, left out of the associated data; the tag of a text that is not
    // there.
    let sealed_with = |aad: &[u8], text: &[u8]| openssl::seal(&key, &checkpoint.nonce, aad, text);
    let (head, open) = (unit.fram[..32].to_vec(), checkpoint.open_part.clone());
    assert_eq!(unit.changed(|u| u.fram[40..44].copy_from_slice(&checkpoint.secret)), 12);
    for aad in [&open[..], &head, &head[4..], &[]] {
        let (secret, tag) = sealed_with(aad, &checkpoint.secret);
        assert_eq!(unit.changed(|u| u.fram[40..60].copy_from_slice(&[&secret[..], &tag].concat())), 12);
    }
    let (_, tag) = sealed_with(&[&head[..], &open].concat(), &[]);
    assert_eq!(unit.changed(|u| u.fram[44..60].copy_from_slice(&tag)), 12);
    // Lengths in bytes and not in words.
    assert_eq!(unit.changed(|u| (u.fram[7], u.fram[11]) = (8, 4)), 11);
}

/// A head word of a wrong kind or value, or a checkpoint longer than the half, with the tag of what is there: 11.
fn heads_that_are_wrong_under_a_right_tag(key_length: usize) {
    let mut random = Random::new(13);
    let size = size(3, 2, 128, 8, 4);
    let key = random.bytes(key_length);
    let checkpoint = first_checkpoint(&mut random, size, 9);
    let unit = Unit::with(size, &key, &checkpoint, (0, 0, 0));
    let sealed_again = |u: &mut Unit| {
        let (secret, tag) = openssl::seal(&key, &checkpoint.nonce, &u.fram[..40], &checkpoint.secret);
        u.fram[40..60].copy_from_slice(&[&secret[..], &tag].concat());
    };
    assert_eq!(unit.changed(sealed_again), DONE);
    for (at, right) in [(0, 0), (4, 1), (8, 2), (12, 3)] {
        for kind in (0..4).filter(|kind| *kind != right) {
            let answer = unit.changed(|u| {
                u.fram[at] = u.fram[at] & 0x3F | kind << 6;
                sealed_again(u)
            });
            assert_eq!(answer, 11, "kind {kind} at byte {at}");
        }
    }
    for (open, secret) in [(32_772, 0), (0, 32_772), (32_768, 32_772)] {
        let long = self::size(3, 2, 262_144, open, secret);
        let checkpoint = first_checkpoint(&mut random, long, 0);
        assert_eq!(Unit::with(long, &key, &checkpoint, (0, 0, 0)).checked(), 11, "{open} and {secret} bytes");
    }
    // One that runs into half B.
    let over = self::size(3, 2, 112, 8, 4);
    let checkpoint = first_checkpoint(&mut random, over, 0);
    assert_eq!(Unit::with(over, &key, &checkpoint, (0, 0, 0)).checked(), 11);
    // The older head in the smallest FRAM, which holds no longer one.
    let smallest = self::size(3, 2, 88, 0, 0);
    let older = Checkpoint { form: Form::Older, ..first_checkpoint(&mut random, smallest, 0) };
    assert_eq!(Unit::with(smallest, &key, &older, (0, 0, 0)).checked(), 19);
}

/// Images of another implementation that are accepted, on a unit: look, power-up and save go on from them.
fn what_is_accepted_starts(key_length: usize) {
    let mut random = Random::new(14);
    for size in SMALL {
        let key = random.bytes(key_length);
        let checkpoint = first_checkpoint(&mut random, size, 5);
        let programmed = Unit::with(size, &key, &checkpoint, (0, 0, 0));
        assert_eq!(programmed.checked(), DONE);
        let mut unit = Lent {
            ring: programmed.ring,
            fram: programmed.fram,
            key,
            nonce: vec![0xEE; 12],
            ..lent(key_length, size.pages, size.slots, size.fram)
        };
        assert_eq!(answer(Operation::Look, &mut unit), DONE);
        assert_eq!((unit.restarts, unit.open_start, unit.open_len), (0, 32, size.open));
        assert_eq!(answer(Operation::PowerUp, &mut unit), DONE);
        finished(&mut unit);
        assert_eq!(unit.state[..size.secret], checkpoint.secret);
        (unit.open_part, unit.secret) = (checkpoint.open_part, checkpoint.secret);
        made(Operation::Save, &mut unit, 6);
        assert_eq!(Unit::of(&unit).checked(), 19, "{size:?}");
    }
}

/// What saves and power-ups leave, and first saves of older firmware.
fn what_other_calls_leave(key_length: usize) {
    // A ring of 3 by 2 comes around to page 0, slot 0 with the seventh record, in half A; one of 3 by 3 with the tenth, in
    // half B, and with the nineteenth, in half A. A save's checkpoint there is one that a first save could have made, if it
    // has no restarts: nothing tells it from one. A power-up's has restarts.
    for (slots, around, operation) in [(2, 7, Operation::Save), (2, 7, Operation::PowerUp), (3, 19, Operation::Save)] {
        let mut unit = lent(key_length, 3, slots, 128);
        made(Operation::FirstSave, &mut unit, 1);
        assert_eq!(Unit::of(&unit).checked(), DONE);
        for count in 2..=around {
            made(operation, &mut unit, 1);
            let answer = if count == around && operation == Operation::Save { DONE } else { 19 };
            assert_eq!(Unit::of(&unit).checked(), answer, "{operation:?} {count} of 3 by {slots}");
        }
    }
    // Restarts that a save carries over.
    let mut unit = lent(key_length, 3, 2, 128);
    made(Operation::FirstSave, &mut unit, 1);
    made(Operation::PowerUp, &mut unit, 0);
    for _ in 3..=7 {
        made(Operation::Save, &mut unit, 1);
    }
    assert_eq!(Unit::of(&unit).checked(), 19);
    for firmware in FIRMWARES.into_iter().filter(|firmware| firmware.takes_key_of(key_length)) {
        let mut unit = lent(key_length, 3, 2, 128);
        unit.job = vec![0; job_length(firmware.form)];
        unit.session = vec![0; session_length(firmware.form)];
        assert_eq!(perform(firmware, Operation::FirstSave, &mut unit), DONE);
        run_by(firmware, &mut unit);
        let answer = if firmware == DOCUMENT_01 { 19 } else { DONE };
        assert_eq!(Unit::of(&unit).checked(), answer, "{}", firmware.name);
    }
}

/// "a page pending", whatever it holds, and wherever the newest record stands.
fn pending_pages(key_length: usize) {
    let mut random = Random::new(15);
    let size = size(4, 3, 128, 8, 4);
    let key = random.bytes(key_length);
    let checkpoint = first_checkpoint(&mut random, size, 9);
    let first = Unit::with(size, &key, &checkpoint, (0, 0, 0));
    let records = record(&[3; 12], 1).repeat(size.slots);
    for bytes in [&records[..], &vec![0; 48], &random.bytes(48)] {
        let pending = |u: &mut Unit| page_at(3, size.slots).of(&mut u.ring).copy_from_slice(bytes);
        assert_eq!(first.changed(pending), 19);
    }
    // The first record's own page pending, behind a newer one of the same checkpoint.
    let newer = |u: &mut Unit| slot_at(1, 0, size.slots).of(&mut u.ring).copy_from_slice(&record(&checkpoint.nonce, 0));
    assert_eq!(first.changed(newer), 19);
    // While a save comes around to page 0: a page is pending between its record and its last store.
    let mut unit = lent(key_length, 3, 2, 128);
    made(Operation::FirstSave, &mut unit, 1);
    for _ in 2..=6 {
        made(Operation::Save, &mut unit, 1);
    }
    assert_eq!(started(Operation::Save, &mut unit, 1), DONE);
    loop {
        assert_eq!(Unit::of(&unit).checked(), 19);
        match answer(Operation::Advance, &mut unit) {
            GOING_ON => (),
            last => break assert_eq!(last, SAVED),
        }
    }
    assert_eq!(Unit::of(&unit).checked(), DONE);
}

/// "run to its end": before the record the ring is blank.
fn cuts_of_a_first_save(key_length: usize) {
    let mut unit = lent(key_length, 3, 2, 128);
    assert_eq!(started(Operation::FirstSave, &mut unit, 0), DONE);
    let words = number(&unit.job[16..20]) / 4;
    for store in 0..=words {
        assert_eq!(Unit::of(&unit).checked(), 6, "after {store} stores");
        let last = if store < words { GOING_ON } else { SAVED };
        assert_eq!(answer(Operation::Advance, &mut unit), last);
    }
    assert_eq!(Unit::of(&unit).checked(), DONE);
}

/// Each number together with those behind it.
fn the_first_number_that_applies(key_length: usize) {
    let mut random = Random::new(23);
    let size = size(3, 2, 128, 8, 4);
    let key = random.bytes(key_length);
    let restarted = Checkpoint { restarts: 1, ..first_checkpoint(&mut random, size, 9) };
    let mut unit = Unit::with(size, &key, &restarted, (0, 0, 0));
    let mut units = vec![(19, unit.clone())];
    unit.fram[59] ^= 1;
    units.push((12, unit.clone()));
    unit.fram[12] ^= 0x80;
    units.push((11, unit.clone()));
    unit.ring[12] ^= 0x80;
    units.push((7, unit.clone()));
    unit.ring.fill(0xFF);
    units.push((6, unit));
    for (number, unit) in units {
        assert_eq!(unit.checked(), number);
        for length in (0..=64).filter(|length| ![16, 32].contains(length)) {
            assert_eq!(unit.changed(|u| u.key.resize(length, 0)), 3, "a key of {length} bytes before {number}");
        }
        for key_too in [false, true] {
            for length in [0, 80, 84, 127, 129, 262_152] {
                let answer = unit.changed(|u| {
                    u.fram.resize(length, 0);
                    u.key.truncate(if key_too { 15 } else { key_length });
                });
                assert_eq!(answer, 2, "a FRAM of {length} bytes before {number}");
            }
        }
        // 2^60 + 3 pages of 2 slots are 96 bytes to whoever takes them at 64 bits.
        let others = [
            (2, 2),
            (33, 2),
            (3, 1),
            (3, 513),
            (0, 0),
            (2, 3),
            (4, 2),
            (3, usize::MAX),
            ((1 << 60) + 3, 2),
            (3, (1 << 60) + 2),
        ];
        for (pages, slots) in others {
            for fram_too in [false, true] {
                let answer = unit.changed(|u| {
                    (u.pages, u.slots) = (pages, slots);
                    u.fram.truncate(if fram_too { 127 } else { 128 });
                });
                assert_eq!(answer, 1, "{pages} by {slots} before {number}");
            }
        }
        for length in [0, 95, 97, 112] {
            assert_eq!(unit.changed(|u| u.ring.resize(length, 0xFF)), 1, "a ring of {length} bytes before {number}");
        }
    }
}

/// Some fields of a first save's memories made wrong, together.
fn memories_changed_at_random(key_length: usize) {
    let mut random = Random::new(77);
    let mut answers = Vec::new();
    for _ in 0..4000 {
        let size = random.pick(&SMALL);
        let key = random.bytes(key_length);
        let packet = random.pick(&[0, 1, LARGEST_PACKET]);
        let mut checkpoint = first_checkpoint(&mut random, size, packet);
        checkpoint.restarts = if random.chance(1, 6) { random.below(10) as u32 } else { 0 };
        if random.chance(1, 6) {
            (checkpoint.form, checkpoint.packet) = (Form::Older, 0);
        }
        let page = if random.chance(1, 6) { random.below(size.pages) } else { 0 };
        let slot = if random.chance(1, 6) { random.below(size.slots) } else { 0 };
        let half = random.chance(1, 6) as usize;
        let mut unit = Unit::with(size, &key, &checkpoint, (page, slot, half));
        if random.chance(1, 6) {
            let at = random.below(unit.ring.len());
            unit.ring[at] = random.pick(&[0, 1, 0x40, 0xFF]);
        }
        if random.chance(1, 6) {
            let at = random.below(unit.fram.len());
            unit.fram[at] ^= 1 << random.below(8);
        }
        if random.chance(1, 20) {
            unit.ring.fill(0xFF);
        }
        answers.push(unit.checked());
    }
    for answer in [DONE, 6, 7, 11, 12, 19] {
        assert!(answers.contains(&answer), "{answer} was not seen");
    }
}

// The program.

/// A folder for the files of one test.
fn folder(name: &str) -> PathBuf {
    let folder = Path::new(env!("CARGO_TARGET_TMPDIR")).join(name);
    fs::create_dir_all(&folder).unwrap();
    folder
}

/// What `factory_view` writes to standard output and to standard error, with these arguments.
fn viewed(words: &[&str]) -> (String, String) {
    let program = program("factory_view");
    let ran = Command::new(&program).args(words).stdin(Stdio::null()).output();
    let ran = ran.unwrap_or_else(|why| panic!("{}: {why}", program.display()));
    assert!(ran.status.success(), "{ran:?}");
    (String::from_utf8(ran.stdout).unwrap(), String::from_utf8(ran.stderr).unwrap())
}

/// The same of a unit whose memories and key are in files.
fn viewed_unit(folder: &Path, unit: &Unit) -> (String, String) {
    let file = |name: &str, bytes: &[u8]| {
        let path = folder.join(name);
        fs::write(&path, bytes).unwrap();
        path.to_str().unwrap().to_string()
    };
    let (ring, fram, key) = (file("ring", &unit.ring), file("fram", &unit.fram), file("key", &unit.key));
    viewed(&[&unit.pages.to_string(), &unit.slots.to_string(), &ring, &fram, &key])
}

/// The program's line for files of bytes.
#[test]
fn the_programs_lines() {
    let folder = folder("factory_lines");
    let size = size(3, 2, 128, 8, 4);
    for key_length in [16, 32] {
        let unit = own_first_save(key_length, size, 5);
        let line = |change: &dyn Fn(&mut Unit)| {
            let mut copy = unit.clone();
            change(&mut copy);
            let line = match copy.checked() {
                DONE => "accepted\n".to_string(),
                stop => format!("refused {stop}\n"),
            };
            assert_eq!(viewed_unit(&folder, &copy), (line.clone(), String::new()));
            line
        };
        assert_eq!(line(&|_| ()), "accepted\n");
        assert_eq!(line(&|u| u.fram[60] ^= 1), "accepted\n");
        assert_eq!(line(&|u| u.ring.truncate(95)), "refused 1\n");
        assert_eq!(line(&|u| u.ring.push(0xFF)), "refused 1\n");
        assert_eq!(line(&|u| u.pages = 33), "refused 1\n");
        assert_eq!(line(&|u| u.fram.truncate(127)), "refused 2\n");
        assert_eq!(line(&|u| u.key.resize(24, 0)), "refused 3\n");
        assert_eq!(line(&|u| u.key.clear()), "refused 3\n");
        assert_eq!(line(&|u| u.ring.fill(0xFF)), "refused 6\n");
        assert_eq!(line(&|u| u.ring[12] = 0), "refused 7\n");
        assert_eq!(line(&|u| u.fram[4] = 0), "refused 11\n");
        assert_eq!(line(&|u| u.fram[59] ^= 1), "refused 12\n");
        assert_eq!(line(&|u| u.ring[95] = 0), "refused 19\n");
    }
    // The largest of each, and files that begin with these and are longer.
    let unit = own_first_save(32, self::size(32, 512, 262_144, 32_768, 32_768), 0);
    assert_eq!(viewed_unit(&folder, &unit), ("accepted\n".to_string(), String::new()));
    for more in [1, 8, 300_000] {
        let refused = |number: u32, change: &dyn Fn(&mut Unit)| {
            let mut copy = unit.clone();
            change(&mut copy);
            assert_eq!(
                viewed_unit(&folder, &copy),
                (format!("refused {number}\n"), String::new()),
                "{more} bytes more"
            );
        };
        refused(1, &|u| u.ring.extend(vec![0xFF; more]));
        refused(2, &|u| u.fram.extend(vec![0; more]));
        refused(3, &|u| u.key.extend(vec![0; more]));
    }
}

/// Files of other kinds: a pipe that is written in pieces, and one that is always empty.
#[test]
fn the_programs_other_files() {
    let folder = folder("factory_pipes");
    let unit = own_first_save(16, size(3, 2, 128, 8, 4), 5);
    viewed_unit(&folder, &unit);
    let path = |name: &str| folder.join(name).to_str().unwrap().to_string();
    let run = |ring: &str, piped: &[u8]| {
        let mut ran = Command::new(program("factory_view"))
            .args(["3", "2", ring, &path("fram"), &path("key")])
            .stdin(Stdio::piped())
            .stdout(Stdio::piped())
            .spawn()
            .unwrap();
        let mut input = ran.stdin.take().unwrap();
        for piece in piped.chunks(7) {
            input.write_all(piece).unwrap();
            input.flush().unwrap();
        }
        drop(input);
        String::from_utf8(ran.wait_with_output().unwrap().stdout).unwrap()
    };
    assert_eq!(run("/dev/stdin", &unit.ring), "accepted\n");
    assert_eq!(run("/dev/stdin", &unit.ring[1..]), "refused 1\n");
    assert_eq!(run("/dev/null", &[]), "refused 1\n");
    // A name of bytes that are no text: the library opens none, so the file counts as one that cannot be read.
    let odd = folder.join(OsStr::from_bytes(b"ring \xFF\n"));
    fs::write(&odd, &unit.ring).unwrap();
    let ran =
        Command::new(program("factory_view")).args(["3", "2"]).arg(&odd).args([path("fram"), path("key")]).output();
    let ran = ran.unwrap();
    assert_eq!(ran.stdout, b"");
    let why = &b": Invalid or incomplete multibyte or wide character\n"[..];
    assert_eq!(ran.stderr, [b"ring: ", odd.as_os_str().as_bytes(), why].concat());
}

/// The files that the gate runs the program on.
#[test]
fn the_files_of_the_gate() {
    let data = Path::new(env!("CARGO_MANIFEST_DIR")).join("../../crates/factory_view/data");
    let read = |name: &str| fs::read(data.join(name)).unwrap();
    let unit = Unit { pages: 3, slots: 2, ring: read("ring"), fram: read("fram"), key: read("key") };
    assert_eq!(unit.checked(), DONE);
}

/// Files that cannot be read are named with why, and nothing is checked; other arguments are answered with the usage.
#[test]
fn files_that_cannot_be_read() {
    let folder = folder("factory_errors");
    let unit = own_first_save(32, size(3, 2, 128, 8, 4), 5);
    viewed_unit(&folder, &unit);
    let path = |name: &str| folder.join(name).to_str().unwrap().to_string();
    let files = [path("ring"), path("fram"), path("key")];
    let with = |at: usize, other: &str| {
        let mut words = ["3", "2", &files[0], &files[1], &files[2]];
        words[2 + at] = other;
        viewed(&words)
    };
    for at in 0..3 {
        let what = ["ring", "FRAM", "key"][at];
        let complaint = |name: &str, why: &str| (String::new(), format!("{what}: {name}: {why}\n"));
        let missing = path("missing");
        assert_eq!(with(at, &missing), complaint(&missing, "No such file or directory"));
        let directory = folder.to_str().unwrap();
        assert_eq!(with(at, directory), complaint(directory, "Is a directory"));
        let through = path("ring/file");
        assert_eq!(with(at, &through), complaint(&through, "Not a directory"));
        assert_eq!(with(at, ""), complaint("", "No such file or directory"));
        let long = "x".repeat(4095);
        assert_eq!(with(at, &long), complaint(&long, "File name too long"));
        assert_eq!(with(at, &"x".repeat(5000)), complaint("name", "File name too long"));
    }
    // Of two, the first is named.
    let missing = [path("missing ring"), path("missing key")];
    let complaint = format!("ring: {}: No such file or directory\n", missing[0]);
    assert_eq!(viewed(&["3", "2", &missing[0], &files[1], &missing[1]]), (String::new(), complaint));
    for words in [
        &[][..],
        &["3", "2"],
        &["3", "2", &files[0], &files[1]],
        &["3", "2", &files[0], &files[1], &files[2], "more"],
        &["3", "x", &files[0], &files[1], &files[2]],
        &["", "2", &files[0], &files[1], &files[2]],
        &["-3", "2", &files[0], &files[1], &files[2]],
    ] {
        let (output, complaint) = viewed(words);
        assert!(output.is_empty() && complaint.starts_with("usage: factory_view"), "{words:?}: {complaint}");
    }
    // 3 by 2 to whoever takes them at 32 or at 64 bits.
    for (pages, slots) in [("4294967299", "2"), ("18446744073709551619", "2"), ("3", "18446744073709551618")] {
        let refused = ("refused 1\n".to_string(), String::new());
        assert_eq!(viewed(&[pages, slots, &files[0], &files[1], &files[2]]), refused);
    }
}
