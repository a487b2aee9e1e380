//! Calls made one by one on a unit of the keeper's.

use crate::compare::{call, calls_in_a_row};
use crate::firmware::KEEPER;
use crate::layout::number;
use crate::operations::*;
use crate::random::Random;
use std::rc::Rc;

/// A unit with a key of this length, a blank ring and these sizes; both parts are 4 bytes.
pub fn lent(key_length: usize, pages: usize, slots: usize, fram: usize) -> Lent {
    let mut random = Random::new(17);
    Lent {
        pages,
        slots,
        ring: vec![0xFF; 16 * pages * slots],
        fram: random.bytes(fram),
        key: random.bytes(key_length),
        nonce: vec![0; 12],
        starting_tag: random.bytes(16),
        session: vec![0; 48],
        packet: 0,
        open_part: random.bytes(4),
        secret: random.bytes(4),
        staging: random.bytes(fram / 2),
        state: Rc::new(random.bytes(KEEPER.part_limit)),
        job: vec![0; 64],
        secret_len: 0,
        restarts: 0,
        open_start: 0,
        open_len: 0,
    }
}

/// The call's answer, which is also the documents'.
pub fn answer(operation: Operation, lent: &mut Lent) -> u32 {
    call(operation, lent).unwrap_or_else(|words| panic!("{words}"))
}

/// The answer of a call on copies.
pub fn tried(operation: Operation, lent: &Lent, change: impl FnOnce(&mut Lent)) -> u32 {
    let mut copy = lent.clone();
    change(&mut copy);
    answer(operation, &mut copy)
}

/// A start with a new nonce.
pub fn started(operation: Operation, lent: &mut Lent, packet: u32) -> u32 {
    lent.nonce[11] += 1;
    lent.packet = packet;
    answer(operation, lent)
}

/// Advances to the end; how many stores were made. The words of a long checkpoint are compared together.
pub fn finished(lent: &mut Lent) -> usize {
    let words = number(&lent.job[16..20]) as usize / 4;
    let at_once = if words > 100 { words } else { 0 };
    let answers = calls_in_a_row(Operation::Advance, at_once, lent).unwrap_or_else(|words| panic!("{words}"));
    assert!(answers.iter().all(|answer| *answer == GOING_ON));
    for stores in at_once + 1.. {
        match answer(Operation::Advance, lent) {
            GOING_ON => (),
            SAVED | RESTORED => return stores,
            stop => panic!("an advance stopped with {stop}"),
        }
    }
    unreachable!()
}

/// A start with a new nonce, run to its end.
pub fn made(operation: Operation, lent: &mut Lent, packet: u32) {
    assert_eq!(started(operation, lent, packet), DONE);
    finished(lent);
}
