//! Damaged texts.

use crate::compare::{import, PATTERN};
use crate::intel_hex::{line, written, END, LARGEST};
use crate::random::Random;
use std::collections::BTreeMap;

/// The lines of a text that an image of this size accepts: data with and without gaps, type 04 lines where they are
/// needed and where not.
fn lines(random: &mut Random, size: usize) -> Vec<Vec<u8>> {
    let mut lines = vec![];
    let (mut address, mut upper) = (0_usize, 0);
    for _ in 0..random.below(10) {
        // Mostly no gap; else a few bytes, or up to a few bytes before the next boundary.
        let (gap, to_boundary) = (random.below(40), 0xFFFF - address % 0x1_0000);
        address += random.pick(&[0, 0, 0, gap, to_boundary.saturating_sub(gap)]);
        if address >= size {
            break;
        }
        if random.chance(1, 8) {
            upper = random.below(0x1_0000);
            lines.push(line(0, 4, &(upper as u16).to_be_bytes()));
        }
        if upper != address >> 16 || random.chance(1, 8) {
            upper = address >> 16;
            lines.push(line(0, 4, &(upper as u16).to_be_bytes()));
        }
        let room = (size - address).min(0x1_0000 - address % 0x1_0000);
        let longest = random.pick(&[1, 4, 16, 16, 255]);
        let length = 1 + random.below(room.min(longest));
        lines.push(line(address as u16, 0, &random.bytes(length)));
        address += length;
    }
    lines.push(END.to_vec());
    lines
}

/// The same lines, in either letter case and with both line ends.
fn dress(random: &mut Random, lines: &mut [Vec<u8>]) {
    let (lower, returns) = (random.below(3), random.below(3));
    for line in lines {
        if random.below(2) < lower {
            line.make_ascii_lowercase();
        }
        if random.below(2) < returns {
            line.insert(line.len() - 1, b'\r');
        }
    }
}

/// Lines exchanged, doubled, dropped or put in, or one with another length, address, type or byte and a right checksum.
fn damage_lines(random: &mut Random, lines: &mut Vec<Vec<u8>>) {
    let at = random.below(lines.len());
    match random.below(7) {
        0 => {
            let other = random.below(lines.len());
            lines.swap(at, other);
        }
        1 => lines.insert(at, lines[at].clone()),
        2 => drop(lines.remove(at)),
        3 => lines.insert(at, line(0, 4, &[0, random.below(5) as u8])),
        kind => {
            let digits = String::from_utf8(lines[at].clone()).unwrap();
            let digits = digits.trim_start_matches(':').trim_end();
            let mut bytes: Vec<u8> =
                (0..digits.len()).step_by(2).map(|at| u8::from_str_radix(&digits[at..at + 2], 16).unwrap()).collect();
            bytes.pop();
            let changed = random.below(bytes.len().min(if kind == 4 { 300 } else { 4 }));
            bytes[changed] = if random.chance(1, 2) { random.below(6) as u8 } else { random.next() as u8 };
            if kind == 6 {
                // As many bytes as the length says.
                bytes.resize(4 + usize::from(bytes[0]), PATTERN);
            }
            lines[at] = written(&bytes);
        }
    }
}

/// A byte changed, removed or inserted, or the end cut off.
fn damage_bytes(random: &mut Random, text: &mut Vec<u8>) {
    if text.is_empty() {
        return;
    }
    let at = random.below(text.len());
    let any = random.next() as u8;
    let byte = random.pick(&[b'0', b'1', b'7', b'F', b'a', b'g', b':', b' ', b'\r', b'\n', any]);
    match random.below(5) {
        0 => text[at] = byte,
        1 => text[at] = random.pick(b"0123456789ABCDEFabcdef"),
        2 => drop(text.remove(at)),
        3 => text.insert(random.below(text.len() + 1), byte),
        _ => text.truncate(at),
    }
}

#[test]
fn damaged_texts() {
    let mut random = Random::new(51);
    let mut answers: BTreeMap<u32, usize> = BTreeMap::new();
    for _ in 0..20_000 {
        let any = 1 + random.below(LARGEST);
        let size = random.pick(&[1, 16, 88, 300, 65_536, 65_537, 131_072, any, LARGEST]);
        let mut lines = lines(&mut random, size);
        dress(&mut random, &mut lines);
        let damage = random.below(10);
        if damage < 5 {
            damage_lines(&mut random, &mut lines);
        }
        let mut text = lines.concat();
        if (4..9).contains(&damage) {
            damage_bytes(&mut random, &mut text);
        }
        let less = random.below(size.min(40));
        let lent = random.pick(&[size, size, size, size, size, size, size - less, 0, LARGEST + 1]);
        let (answer, _) = import(&text, &vec![PATTERN; lent]);
        if damage == 9 && lent == size {
            assert_eq!(answer, 0);
        }
        *answers.entry(answer).or_default() += 1;
    }
    // Each answer was given, many times.
    assert_eq!(answers.keys().copied().collect::<Vec<u32>>(), [0, 2, 15, 16, 17], "{answers:?}");
    assert!(answers.values().all(|times| *times >= 500), "{answers:?}");
}

/// One place of a text changed to, or preceded by, each byte that there is, or dropped, or the text cut off there.
#[test]
fn every_byte_in_every_place() {
    let data = [line(0, 0, &[0xAA]), line(9, 0, &[0, 0xBF, 0x10])].concat();
    let good = [line(0, 4, &[0, 0]), data, END.to_vec()].concat();
    let mut returns = good.to_ascii_lowercase();
    returns.insert(good.len() - 1, b'\r');
    let mut answers: BTreeMap<u32, usize> = BTreeMap::new();
    for text in [good, returns] {
        assert_eq!(import(&text, &[PATTERN; 12]).0, 0);
        for at in 0..text.len() {
            let (front, back) = text.split_at(at);
            let mut texts = vec![front.to_vec(), [front, &back[1..]].concat()];
            for byte in 0..=255 {
                texts.push([front, &[byte], back].concat());
                texts.push([front, &[byte], &back[1..]].concat());
            }
            for text in texts {
                *answers.entry(import(&text, &[PATTERN; 12]).0).or_default() += 1;
            }
        }
    }
    assert_eq!(answers.keys().copied().collect::<Vec<u32>>(), [0, 15, 16], "{answers:?}");
}
