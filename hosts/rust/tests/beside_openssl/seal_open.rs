//! Sealing and opening alone: "associated data and text of 0 to 65,536 bytes each and an output at least as long as the
//! text. They write the text's length and nothing after it."

use crate::firmware::KEEPER;
use crate::openssl;
use crate::random::Random;
use godwitshelf::calls;

/// What buffers hold before a call.
const PATTERN: u8 = 0x5A;

struct Sealed {
    key: Vec<u8>,
    nonce: Vec<u8>,
    aad: Vec<u8>,
    text: Vec<u8>,
    sealed: Vec<u8>,
    tag: Vec<u8>,
}

fn by_openssl(random: &mut Random, key: usize, aad: usize, text: usize) -> Sealed {
    let (key, nonce, aad, text) = (random.bytes(key), random.bytes(12), random.bytes(aad), random.bytes(text));
    let (sealed, tag) = openssl::seal(&key, &nonce, &aad, &text);
    Sealed { key, nonce, aad, text, sealed, tag: tag.to_vec() }
}

/// An output of `length` bytes that begins with `front`.
fn output(front: &[u8], length: usize) -> Vec<u8> {
    let mut bytes = front.to_vec();
    bytes.resize(length, PATTERN);
    bytes
}

/// Seals and opens with an output that is `more` bytes longer than the text.
fn compare(random: &mut Random, key: usize, aad: usize, text: usize, more: usize) {
    let s = by_openssl(random, key, aad, text);
    let mut out = vec![PATTERN; text + more];
    let mut tag = [PATTERN; 16];
    assert_eq!(calls::seal(&s.key, &s.nonce, &s.aad, &s.text, &mut out, &mut tag), 0, "aad {aad}, text {text}");
    assert!(out == output(&s.sealed, text + more), "sealed text: aad {aad}, text {text}");
    assert!(tag[..] == s.tag, "tag: aad {aad}, text {text}");
    let mut out = vec![PATTERN; text + more];
    assert_eq!(calls::open(&s.key, &s.nonce, &s.aad, &s.sealed, &s.tag, &mut out), 0, "aad {aad}, text {text}");
    assert!(out == output(&s.text, text + more), "opened text: aad {aad}, text {text}");
}

for_each_key_length!(every_length_to_100, lengths_to_65536, damaged);

fn every_length_to_100(key_length: usize) {
    let mut random = Random::new(1);
    for aad in 0..=100 {
        for text in 0..=100 {
            let more = random.below(40);
            compare(&mut random, key_length, aad, text, more);
        }
    }
}

fn lengths_to_65536(key_length: usize) {
    let mut random = Random::new(2);
    let limits = [0, 1, 15, 16, 17, 4095, 4096, 65_519, 65_520, 65_521, 65_535, 65_536];
    for aad in limits {
        for text in limits {
            compare(&mut random, key_length, aad, text, 0);
        }
    }
    for _ in 0..400 {
        // Shorter ones more often than longer.
        let (bits, more) = (random.below(17), random.below(100));
        let (aad, text) = (random.below((1 << bits) + 1), random.below((1 << (16 - bits.min(6))) + 1));
        compare(&mut random, key_length, aad, text, more);
    }
}

/// A bit turned, or a byte dropped or added, in one place: 12, as OpenSSL finds too, and no byte of the output written.
fn damaged(key_length: usize) {
    let mut random = Random::new(3);
    for round in 0..10_000 {
        let (aad, text) = (random.below(120), random.below(120));
        let mut s = by_openssl(&mut random, key_length, aad, text);
        let longer = round % 7;
        let place = match round % 5 {
            0 => &mut s.key,
            1 => &mut s.nonce,
            2 => &mut s.tag,
            3 => &mut s.aad,
            _ => &mut s.sealed,
        };
        if round % 5 >= 3 && (place.is_empty() || longer == 0) {
            place.push(random.next() as u8);
        } else if round % 5 >= 3 && longer == 1 {
            place.pop();
        } else {
            let at = random.below(place.len());
            place[at] ^= 1 << random.below(8);
        }
        let mut out = vec![PATTERN; s.sealed.len() + longer];
        assert_eq!(openssl::open(&s.key, &s.nonce, &s.aad, &s.sealed, &s.tag), None);
        assert_eq!(calls::open(&s.key, &s.nonce, &s.aad, &s.sealed, &s.tag, &mut out), 12, "round {round}");
        assert!(out.iter().all(|byte| *byte == PATTERN), "round {round}");
    }
}

/// 3 before 4, 4 before 12, and nothing written.
#[test]
fn wrong_lengths() {
    let mut random = Random::new(4);
    let bytes = random.bytes(65_537);
    for key in [0, 16, 24, 31, 32, 33] {
        for nonce in [0, 11, 12, 13] {
            for tag in [0, 15, 16, 17] {
                for aad in [0, 20, 65_536, 65_537] {
                    for text in [1, 20, 65_536, 65_537] {
                        for out in [0, text - 1, text, text + 9] {
                            let right = KEEPER.takes_key_of(key) && [nonce, tag] == [12, 16];
                            let fits = aad <= 65_536 && text <= 65_536 && out >= text;
                            let lengths = [key, nonce, tag, aad, text, out];
                            refused(&bytes, lengths, if !right { 3 } else { 4 * u32::from(!fits) });
                        }
                    }
                }
            }
        }
    }
}

/// A.8: "A key of 24 bytes is still refused", and so is every other that is neither 16 nor 32, whatever else is wrong.
#[test]
fn every_length_of_a_key() {
    let mut random = Random::new(5);
    let bytes = random.bytes(65_537);
    for key in (0..=100).chain([128, 192, 256, 4096]) {
        let taken = key == 16 || key == 32;
        for (others, stop) in [
            ([12, 16, 0, 0, 0], 0),
            ([12, 16, 20, 33, 40], 0),
            ([11, 16, 20, 33, 40], 3),
            ([12, 17, 20, 33, 40], 3),
            ([12, 16, 65_537, 33, 40], 4),
            ([12, 16, 20, 33, 32], 4),
        ] {
            let [nonce, tag, aad, text, out] = others;
            refused(&bytes, [key, nonce, tag, aad, text, out], if taken { stop } else { 3 });
        }
    }
}

/// A key of 16 bytes beside those of 32 that are made of it: neither opens what the other sealed.
#[test]
fn a_key_of_the_other_length() {
    let mut random = Random::new(6);
    for round in 0..200 {
        let short = if round == 0 { vec![0; 16] } else { random.bytes(16) };
        let behind = [short.clone(), vec![0; 16], random.bytes(16), short.iter().map(|byte| !byte).collect()];
        let made_of_it = behind.iter().flat_map(|other| [[&short[..], other].concat(), [other, &short[..]].concat()]);
        let (nonce, aad, text) = (random.bytes(12), random.bytes(round % 40), random.bytes(16 + round));
        for long in made_of_it {
            for (key, other) in [(&short, &long), (&long, &short)] {
                let (mut sealed, mut tag) = (vec![PATTERN; text.len()], vec![PATTERN; 16]);
                assert_eq!(calls::seal(key, &nonce, &aad, &text, &mut sealed, &mut tag), 0);
                let mut out = vec![PATTERN; text.len()];
                assert_eq!(calls::open(other, &nonce, &aad, &sealed, &tag, &mut out), 12, "round {round}");
                assert!(out.iter().all(|byte| *byte == PATTERN), "round {round}");
                assert_eq!(calls::open(key, &nonce, &aad, &sealed, &tag, &mut out), 0, "round {round}");
                assert!(out == text, "round {round}");
                // Not even a block of the two sealed texts is the same.
                let (by_other, _) = openssl::seal(other, &nonce, &aad, &text);
                assert!(
                    sealed.chunks(16).zip(by_other.chunks(16)).all(|(a, b)| a.len() < 16 || a != b),
                    "round {round}"
                );
            }
        }
    }
}

/// Both calls, with buffers of these lengths: the stop, or 0 for a sealing and 12 for an opening with a wrong tag.
fn refused(bytes: &[u8], [key, nonce, tag, aad, text, out]: [usize; 6], stop: u32) {
    let (k, n, a, t) = (&bytes[..key], &bytes[..nonce], &bytes[..aad], &bytes[..text]);
    let mut written = vec![PATTERN; out];
    let mut made = vec![PATTERN; tag];
    assert_eq!(calls::open(k, n, a, t, &bytes[..tag], &mut written), if stop == 0 { 12 } else { stop });
    assert!(written.iter().all(|byte| *byte == PATTERN));
    assert_eq!(calls::seal(k, n, a, t, &mut written, &mut made), stop);
    if stop != 0 {
        assert!(written.iter().chain(&made).all(|byte| *byte == PATTERN));
    }
}

/// "Wipe: zeroes a lent buffer of any length", and nothing beside it.
#[test]
fn wiped() {
    for length in (0..=100).chain([4096, 65_537]) {
        let mut buffer = vec![PATTERN; length + 20];
        calls::wipe(&mut buffer[10..10 + length]);
        let (front, rest) = buffer.split_at(10);
        let (middle, back) = rest.split_at(length);
        assert!(front.iter().chain(back).all(|byte| *byte == PATTERN), "length {length}");
        assert!(middle.iter().all(|byte| *byte == 0), "length {length}");
    }
}
