//! Sealed checkpoints, byte for byte, as they stand in staging after each start and in the FRAM after the last store.

use crate::firmware::KEEPER;
use crate::layout::{half_of, tag_of, Checkpoint, Form, LARGEST_PACKET};
use crate::random::Random;
use godwitshelf::*;

const SIZES: Sizes = Sizes { pages: 3, slots: 2 };

fn checked(staging: &[u8], before: &[u8], key: &[u8], checkpoint: &Checkpoint) -> Vec<u8> {
    let sealed = checkpoint.sealed(key);
    let (open, secret) = (checkpoint.open_part.len(), checkpoint.secret.len());
    assert!(staging[..sealed.len()] == sealed, "open {open}, secret {secret}, restarts {}", checkpoint.restarts);
    assert!(staging[sealed.len()..] == before[sealed.len()..], "rest of staging: open {open}, secret {secret}");
    sealed
}

fn finished(ring: &mut [u8], fram: &mut [u8], staging: &[u8], mut job: Job) -> Session {
    loop {
        match advance(SIZES, ring, fram, staging, &mut job).unwrap() {
            Progress::GoingOn => (),
            Progress::Saved(session) | Progress::Restored(session) => return session,
        }
    }
}

/// A first save, a save, a power-up and a save that hears no newer packet, which carries the power-up's restart over: in
/// halves A, B, A and B.
fn four_checkpoints(random: &mut Random, key_length: usize, open: usize, secret: usize, spare: usize) {
    let half = (48 + open + secret + 4 * spare).div_ceil(4) * 4;
    let mut ring = vec![0xFF; 16 * 6];
    let mut fram = random.bytes(2 * half);
    let key = random.bytes(key_length);
    let before = random.bytes(half + spare);
    let nonces: [[u8; 12]; 4] = std::array::from_fn(|_| random.bytes(12).try_into().unwrap());
    let mut packets = [random.next(), random.next(), random.next()].map(|number| number as u32 & LARGEST_PACKET);
    packets.sort();
    let [stale, heard, newer] = packets;

    let starting_tag: [u8; 16] = random.bytes(16).try_into().unwrap();
    let (open_part, secret_part) = (random.bytes(open), random.bytes(secret));
    let mut staging = before.clone();
    #[rustfmt::skip]
    let job = save(SIZES, &ring, &fram, &key, &nonces[0], Follows::StartingTag(&starting_tag), heard, &open_part,
        &secret_part, &mut staging).unwrap();
    let first = Checkpoint {
        form: Form::Longer,
        packet: heard,
        open_part,
        secret: secret_part,
        restarts: 0,
        previous_tag: starting_tag,
        nonce: nonces[0],
    };
    let sealed = checked(&staging, &before, &key, &first);
    let session = finished(&mut ring, &mut fram, &staging, job);
    assert!(half_of(&fram, 0)[..sealed.len()] == sealed);

    let (open_part, secret_part) = (random.bytes(open), random.bytes(secret));
    let mut staging = before.clone();
    #[rustfmt::skip]
    let job = save(SIZES, &ring, &fram, &key, &nonces[1], Follows::Session(&session), newer, &open_part, &secret_part,
        &mut staging).unwrap();
    let previous_tag = tag_of(&sealed);
    let second = Checkpoint { packet: newer, open_part, secret: secret_part, previous_tag, nonce: nonces[1], ..first };
    let sealed = checked(&staging, &before, &key, &second);
    finished(&mut ring, &mut fram, &staging, job);
    assert!(half_of(&fram, 1)[..sealed.len()] == sealed);

    let mut staging = before.clone();
    let mut state = vec![0x5A; KEEPER.part_limit + spare];
    let up = power_up(SIZES, &ring, &fram, &key, &nonces[2], &mut staging, &mut state).unwrap();
    let third = Checkpoint { restarts: 1, previous_tag: tag_of(&sealed), nonce: nonces[2], ..second };
    let sealed = checked(&staging, &before, &key, &third);
    assert_eq!(up.secret_len, secret);
    assert!(state[..secret] == third.secret && state[secret..].iter().all(|byte| *byte == 0x5A));
    let session = finished(&mut ring, &mut fram, &staging, up.job);
    assert!(half_of(&fram, 0)[..sealed.len()] == sealed);

    let (open_part, secret_part) = (random.bytes(open), random.bytes(secret));
    let mut staging = before.clone();
    #[rustfmt::skip]
    let job = save(SIZES, &ring, &fram, &key, &nonces[3], Follows::Session(&session), stale, &open_part, &secret_part,
        &mut staging).unwrap();
    let previous_tag = tag_of(&sealed);
    let fourth = Checkpoint { open_part, secret: secret_part, previous_tag, nonce: nonces[3], ..third };
    assert_eq!((fourth.restarts, fourth.packet), (1, newer));
    let sealed = checked(&staging, &before, &key, &fourth);
    finished(&mut ring, &mut fram, &staging, job);
    assert!(half_of(&fram, 1)[..sealed.len()] == sealed);
}

for_each_key_length!(small_parts_of_every_size, parts_to_32768);

fn small_parts_of_every_size(key_length: usize) {
    let mut random = Random::new(5);
    for open in 0..=24 {
        for secret in 0..=24 {
            four_checkpoints(&mut random, key_length, 4 * open, 4 * secret, (open + secret) % 3);
        }
    }
}

fn parts_to_32768(key_length: usize) {
    let mut random = Random::new(6);
    let most = KEEPER.part_limit;
    let limits = [0, 4, 4096, 4100, most - 4, most];
    for open in limits {
        for secret in limits {
            four_checkpoints(&mut random, key_length, open, secret, 0);
        }
    }
    for _ in 0..100 {
        let [open, secret] = [0; 2].map(|_| 4 * random.below(most / 4 + 1));
        let spare = random.below(50);
        four_checkpoints(&mut random, key_length, open, secret, spare);
    }
}
