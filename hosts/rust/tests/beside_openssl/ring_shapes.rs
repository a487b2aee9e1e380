//! Document 02, A.9: "I want each shape of readable ring of a small size to feed to units." The rings are worked out here
//! from its words, and each is fed to look, power-up and save.

use crate::by_hand::*;
use crate::layout::{half_of, read_ring, record, Checkpoint, Form, Reading};
use crate::operations::*;
use crate::program::program;
use godwitshelf::{calls, Sizes};
use std::fmt::Write as _;
use std::process::{Command, Stdio};

for_each_key_length!(every_ring_fed_to_a_unit, every_ring_with_wrong_arguments);

/// A ring of the bench: the page and slot of its newest record, and the page that is pending.
struct Shape {
    newest: Option<(usize, usize)>,
    pending: Option<usize>,
    ring: Vec<u8>,
}

/// "For 3 or 4 pages and 2 to 4 slots".
fn sizes() -> impl Iterator<Item = Sizes> {
    (3..=4).flat_map(|pages| (2..=4).map(move |slots| Sizes { pages, slots }))
}

/// A ring with R in these slots, each a page and a slot, and blank elsewhere. "Records are R of document 01": "a record of
/// twelve zero bytes and 0x40000000".
fn with_records(sizes: Sizes, records: impl IntoIterator<Item = (usize, usize)>) -> Vec<u8> {
    let mut ring = vec![0xFF; 16 * sizes.pages * sizes.slots];
    for (page, slot) in records {
        let r = slot_at(page, slot, sizes.slots).of(&mut ring);
        r.fill(0);
        r[12] = 0x40;
    }
    ring
}

/// "Number 0 is blank. Then page by page: slot 0 newest with the page before pending and full of records; slot 0 newest
/// alone; then slots 1, 2 and so on."
fn shapes(sizes: Sizes) -> Vec<Shape> {
    let mut shapes = vec![Shape { newest: None, pending: None, ring: with_records(sizes, []) }];
    for page in 0..sizes.pages {
        let before = if page == 0 { sizes.pages - 1 } else { page - 1 };
        let full = (0..sizes.slots).map(|slot| (before, slot));
        shapes.push(Shape {
            newest: Some((page, 0)),
            pending: Some(before),
            ring: with_records(sizes, full.chain([(page, 0)])),
        });
        for newest in 0..sizes.slots {
            shapes.push(Shape {
                newest: Some((page, newest)),
                pending: None,
                ring: with_records(sizes, (0..=newest).map(|slot| (page, slot))),
            });
        }
    }
    shapes
}

/// The call's answer, and what it leaves in a buffer of this length, which held `before` everywhere.
fn called(sizes: Sizes, number: usize, length: usize, before: u8) -> (u32, Vec<u8>) {
    let mut ring = vec![before; length];
    let answer = calls::ring_shape(sizes, number, &mut ring);
    (answer, ring)
}

/// "There are 1 + P × S + P, so 10 for 3 by 2. Each newest place appears once with no page pending, and each at slot 0 once
/// more with one; every ring but number 0 is readable." "26 number past the last".
#[test]
fn every_ring_of_every_size() {
    for size in sizes() {
        let shapes = shapes(size);
        let length = 16 * size.pages * size.slots;
        assert_eq!(shapes.len(), 1 + size.pages * size.slots + size.pages);
        for (number, shape) in shapes.iter().enumerate() {
            for before in [0, 0x55, 0xFF] {
                assert!(called(size, number, length, before) == (DONE, shape.ring.clone()), "{size:?}: ring {number}");
            }
            let read = match read_ring(size.pages, size.slots, &shape.ring) {
                Reading::WhollyBlank => (None, None),
                Reading::NotReadable => panic!("{size:?}: ring {number} is not readable"),
                Reading::Newest(newest) => (Some((newest.page, newest.slot)), newest.pending),
            };
            assert_eq!(read, (shape.newest, shape.pending), "{size:?}: ring {number}");
            let alike = shapes.iter().filter(|other| (other.newest, other.pending) == read);
            assert_eq!(alike.count(), 1, "{size:?}: ring {number} appears again");
        }
        let last = shapes.len() - 1;
        for number in [last + 1, last + 2, 100, 1 << 32, (1 << 32) + 1, usize::MAX - 1, usize::MAX] {
            assert_eq!(called(size, number, length, 0x55), (26, vec![0x55; length]), "{size:?}: ring {number}");
        }
    }
}

/// Nothing around a lent buffer changes.
#[test]
fn what_stands_around_the_buffer() {
    for size in sizes() {
        let length = 16 * size.pages * size.slots;
        for (number, shape) in shapes(size).iter().enumerate() {
            let mut memory = vec![0x55; length + 32];
            assert_eq!(calls::ring_shape(size, number, &mut memory[16..16 + length]), DONE);
            let around = [&[0x55; 16], &shape.ring[..], &[0x55; 16]].concat();
            assert!(memory == around, "{size:?}: ring {number}");
        }
    }
}

/// "other sizes give 1": rings of more or fewer pages and slots, those that a unit takes among them, and buffers of another
/// length; before 26, and without a byte written.
#[test]
fn other_sizes() {
    let some = [0, 1, 2, 3, 4, 5, 6, 8, 32, 33, 512, 513];
    for (pages, slots) in some.iter().flat_map(|pages| some.map(|slots| (*pages, slots))) {
        let size = Sizes { pages, slots };
        let taken = sizes().any(|small| small == size);
        let length = 16 * pages * slots;
        for number in [0, 1, 9, 10, 21, usize::MAX] {
            if !taken {
                assert!(called(size, number, length, 0x55) == (1, vec![0x55; length]), "{size:?}: ring {number}");
            }
            for other in [0, 16, length.wrapping_sub(1), length + 1, length + 16, 2 * length] {
                if other != length && other < 1 << 24 {
                    let (answer, left) = called(size, number, other, 0x55);
                    assert!(answer == 1 && left == vec![0x55; other], "{size:?} in {other} bytes: ring {number}");
                }
            }
        }
    }
    // Sizes whose bytes, worked out in 64 bits, would come out at 96.
    for (pages, slots) in
        [((1 << 63) + 3, 2), (3, (1 << 62) + 2), ((1 << 60) + 3, 2), (3, (1 << 60) + 2), (6, (1 << 60) + 1)]
    {
        assert_eq!(16usize.wrapping_mul(pages).wrapping_mul(slots), 96);
        for number in [0, 10] {
            assert_eq!(called(Sizes { pages, slots }, number, 96, 0x55), (1, vec![0x55; 96]), "{pages} by {slots}");
        }
    }
}

/// A unit with this ring. Half A of its FRAM holds the checkpoint of the nonce that every record of the ring has.
fn unit(key_length: usize, size: Sizes, shape: &Shape) -> (Lent, Checkpoint) {
    let mut unit = lent(key_length, size.pages, size.slots, 128);
    unit.ring = shape.ring.clone();
    let checkpoint = Checkpoint {
        form: Form::Longer,
        packet: 7,
        open_part: unit.open_part.clone(),
        secret: unit.secret.clone(),
        restarts: 2,
        previous_tag: unit.starting_tag[..].try_into().unwrap(),
        nonce: [0; 12],
    };
    let sealed = checkpoint.sealed(&unit.key);
    unit.fram[..sealed.len()].copy_from_slice(&sealed);
    if let Some((page, slot)) = shape.newest {
        let session =
            Session { page, slot, record: record(&[0; 12], 0), tag: checkpoint.tag(&unit.key), restarts: 2, packet: 7 };
        unit.session = session.to_bytes(Form::Longer);
    }
    // What a save brings, and a nonce that no record has.
    unit.secret = vec![0xA5; 8];
    unit.nonce = vec![1; 12];
    (unit, checkpoint)
}

/// Of a unit whose job ended: no page is pending, and the newest record is in this place and names half B.
fn ended_at(unit: &Lent, target: (usize, usize)) {
    let Reading::Newest(newest) = read_ring(unit.pages, unit.slots, &unit.ring) else { panic!("no newest record") };
    assert_eq!((newest.page, newest.slot), target);
    assert_eq!((newest.half, newest.pending), (1, None));
    assert_eq!(newest.record[..12], unit.nonce);
}

/// Each ring of each size through look, power-up and save. Every call is held against the documents, byte for byte, and the
/// answers that the shape decides are written out here: 6 for number 0; a save with a starting tag gives 5 on all others, one
/// with a session 9 where a page is pending; a power-up erases that page first. The job goes to its end from wherever it starts.
fn every_ring_fed_to_a_unit(key_length: usize) {
    for size in sizes() {
        for (number, shape) in shapes(size).iter().enumerate() {
            let (unit, checkpoint) = unit(key_length, size, shape);
            let first = |operation| answer(operation, &mut unit.clone());
            let Some((page, slot)) = shape.newest else {
                let all = [Operation::Look, Operation::PowerUp, Operation::Save, Operation::FirstSave];
                assert_eq!(all.map(first), [6, 6, 6, DONE], "{size:?}: ring {number}");
                continue;
            };
            let pending = shape.pending.is_some();
            let saved = if pending { 9 } else { DONE };
            let all = [Operation::Look, Operation::FirstSave, Operation::Save];
            assert_eq!(all.map(first), [DONE, 5, saved], "{size:?}: ring {number}");

            // "The next target is the following slot, or slot 0 of the following page."
            let (target, opens) =
                if slot + 1 < size.slots { ((page, slot + 1), false) } else { (((page + 1) % size.pages, 0), true) };
            let mut up = unit.clone();
            assert_eq!(answer(Operation::PowerUp, &mut up), DONE, "{size:?}: ring {number}");
            assert_eq!(up.state[..up.secret_len], checkpoint.secret);
            // A word for each 4 bytes, the record, and an erase of the pending page first or of the page before last.
            let stores = checkpoint.length() / 4 + 1;
            assert_eq!(finished(&mut up), stores + usize::from(pending || opens), "{size:?}: ring {number}");
            ended_at(&up, target);
            let restarted = Checkpoint {
                restarts: 3,
                previous_tag: checkpoint.tag(&unit.key),
                nonce: [1; 12],
                ..checkpoint.clone()
            };
            assert!(half_of(&up.fram, 1).starts_with(&restarted.sealed(&unit.key)), "{size:?}: ring {number}");
            // The session that it handed out serves the next save.
            made(Operation::Save, &mut up, 8);

            if !pending {
                let mut save = unit.clone();
                assert_eq!(answer(Operation::Save, &mut save), DONE, "{size:?}: ring {number}");
                // Its secret part has a word more than the checkpoint before.
                assert_eq!(finished(&mut save), stores + 1 + usize::from(opens), "{size:?}: ring {number}");
                ended_at(&save, target);
            }
        }
    }
}

/// The same rings with a nonce that their records have, a session of another place, a FRAM without a checkpoint and another
/// key.
fn every_ring_with_wrong_arguments(key_length: usize) {
    for size in sizes() {
        for (number, shape) in shapes(size).iter().enumerate() {
            let (unit, _) = unit(key_length, size, shape);
            let used = |c: &mut Lent| c.nonce = vec![0; 12];
            let blank = |on_blank: u32, otherwise: u32| if number == 0 { on_blank } else { otherwise };
            let saved = if shape.pending.is_some() { 9 } else { 10 };
            assert_eq!(tried(Operation::Save, &unit, used), blank(6, saved), "{size:?}: ring {number}");
            assert_eq!(tried(Operation::PowerUp, &unit, used), blank(6, 10), "{size:?}: ring {number}");
            for byte in [3, 7] {
                let elsewhere = |c: &mut Lent| c.session[byte] += 1;
                assert_eq!(tried(Operation::Save, &unit, elsewhere), blank(6, 8), "{size:?}: ring {number}");
            }
            for operation in [Operation::Look, Operation::PowerUp] {
                let erased = |c: &mut Lent| c.fram.fill(0xFF);
                assert_eq!(tried(operation, &unit, erased), blank(6, 11), "{size:?}: ring {number}");
                let another = |c: &mut Lent| c.key[0] ^= 1;
                assert_eq!(tried(operation, &unit, another), blank(6, 12), "{size:?}: ring {number}");
            }
        }
    }
}

// The program.

/// What `ring_shapes_view` writes to standard output and to standard error.
fn viewed(words: &[&str]) -> (Vec<u8>, String) {
    let program = program("ring_shapes_view");
    let ran = Command::new(&program).args(words).stdin(Stdio::null()).output();
    let ran = ran.unwrap_or_else(|why| panic!("{}: {why}", program.display()));
    assert!(ran.status.success(), "{ran:?}");
    (ran.stdout, String::from_utf8(ran.stderr).unwrap())
}

/// "A program prints ringview's lines for 3 by 2", and those of another size if it is told one.
#[test]
fn the_programs_lines() {
    for size in sizes() {
        let mut lines = String::new();
        for shape in shapes(size) {
            let pending = shape.pending.map_or("none".to_string(), |page| page.to_string());
            match shape.newest {
                None => writeln!(lines, "blank").unwrap(),
                Some((page, slot)) => writeln!(lines, "page {page} slot {slot} half A pending {pending}").unwrap(),
            }
        }
        let (pages, slots) = (size.pages.to_string(), size.slots.to_string());
        assert_eq!(viewed(&[&pages, &slots]), (lines.clone().into_bytes(), String::new()));
        if (size.pages, size.slots) == (3, 2) {
            assert_eq!(viewed(&[]), (lines.into_bytes(), String::new()));
        }
    }
}

/// The program's images.
#[test]
fn the_programs_rings() {
    for size in sizes() {
        let (pages, slots) = (size.pages.to_string(), size.slots.to_string());
        let shapes = shapes(size);
        for (number, shape) in shapes.iter().enumerate() {
            let image = viewed(&[&pages, &slots, &number.to_string()]);
            assert!(image == (shape.ring.clone(), String::new()), "{size:?}: ring {number}");
        }
        // 2^64 + 1 is ring 1 to whoever takes it at 64 bits.
        for past in [&shapes.len().to_string(), "100", "18446744073709551615", "18446744073709551617"] {
            assert_eq!(viewed(&[&pages, &slots, past]), (vec![], "refused 26\n".to_string()), "{size:?}: ring {past}");
        }
    }
}

#[test]
fn the_programs_refusals() {
    let refused = (vec![], "refused 1\n".to_string());
    let others = [["2", "2"], ["5", "2"], ["3", "1"], ["4", "5"], ["0", "0"], ["32", "512"]];
    // 3 by 2 to whoever takes them at 32 or at 64 bits.
    let larger = [["4294967299", "2"], ["18446744073709551619", "2"], ["3", "18446744073709551618"]];
    for [pages, slots] in others.into_iter().chain(larger) {
        assert_eq!(viewed(&[pages, slots]), refused, "{pages} by {slots}");
        assert_eq!(viewed(&[pages, slots, "0"]), refused, "{pages} by {slots}");
        assert_eq!(viewed(&[pages, slots, "99"]), refused, "{pages} by {slots}");
    }
    for words in
        [&["3"][..], &["3", "2", "1", "0"], &["3", ""], &["", "2", "1"], &["3", "2", "-1"], &["3", "x"], &["+3", "2"]]
    {
        let (output, complaint) = viewed(words);
        assert!(output.is_empty() && complaint.starts_with("usage: ring_shapes_view"), "{words:?}: {complaint}");
    }
}
