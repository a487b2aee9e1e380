//! A call made by the keeper and by the documents, on the same bytes.

use crate::firmware::KEEPER;
use crate::operations::{perform, Lent, Operation};
use godwitshelf::{calls, Sizes};
use std::cell::RefCell;
use std::collections::{BTreeMap, BTreeSet};
use std::rc::Rc;

thread_local! {
    /// How often each call gave each answer to a key of each length, in this thread's test.
    pub static ANSWERS: RefCell<BTreeMap<(usize, Operation, u32), usize>> = const { RefCell::new(BTreeMap::new()) };
    /// What else was met with, with a unit's key of each length, in this thread's test.
    pub static SEEN: RefCell<BTreeSet<(usize, String)>> = const { RefCell::new(BTreeSet::new()) };
}

/// Notes that this was met with, in a unit with a key of this length.
pub fn saw(key_length: usize, what: impl Into<String>) {
    SEEN.with_borrow_mut(|seen| seen.insert((key_length, what.into())));
}

/// The keeper's own call.
fn keeper(operation: Operation, c: &mut Lent) -> u32 {
    let sizes = Sizes { pages: c.pages, slots: c.slots };
    #[rustfmt::skip]
    let answer = match operation {
        Operation::FirstSave => calls::save(sizes, &c.ring, &c.fram, &c.key, &c.nonce, &c.starting_tag,
            c.packet, &c.open_part, &c.secret, &mut c.staging, &mut c.job),
        Operation::Save => calls::save(sizes, &c.ring, &c.fram, &c.key, &c.nonce, &c.session,
            c.packet, &c.open_part, &c.secret, &mut c.staging, &mut c.job),
        Operation::PowerUp => calls::power_up(sizes, &c.ring, &c.fram, &c.key, &c.nonce,
            &mut c.staging, Rc::make_mut(&mut c.state).as_mut_slice(), &mut c.job, &mut c.secret_len),
        Operation::Look => calls::look(sizes, &c.ring, &c.fram, &c.key,
            &mut c.restarts, &mut c.open_start, &mut c.open_len),
        Operation::Advance => calls::advance(sizes, &mut c.ring, &mut c.fram, &c.staging, &mut c.job, &mut c.session),
    };
    answer
}

/// Makes the call on `lent`. An error says where the answer, a lent byte or a number behind a pointer differs from
/// the documents; nothing may change on a stop, and what is lent for reading never.
pub fn call(operation: Operation, lent: &mut Lent) -> Result<u32, String> {
    Ok(calls_in_a_row(operation, 1, lent)?[0])
}

/// So many calls; the bytes are compared after the last.
pub fn calls_in_a_row(operation: Operation, times: usize, lent: &mut Lent) -> Result<Vec<u32>, String> {
    let mut expected = lent.clone();
    let mut answers = Vec::with_capacity(times);
    for _ in 0..times {
        let expected_answer = perform(KEEPER, operation, &mut expected);
        let answer = keeper(operation, lent);
        if answer != expected_answer {
            return Err(format!("{operation:?} answers {answer}, not {expected_answer}"));
        }
        ANSWERS.with_borrow_mut(|answers| *answers.entry((lent.key.len(), operation, answer)).or_default() += 1);
        answers.push(answer);
    }
    if *lent != expected {
        let last = answers.last().copied().unwrap_or_default();
        return Err(format!("{operation:?} answers {last}, but {}", difference(lent, &expected)));
    }
    Ok(answers)
}

/// The first difference, in words.
fn difference(found: &Lent, expected: &Lent) -> String {
    let buffers = [
        ("ring", &found.ring, &expected.ring),
        ("FRAM", &found.fram, &expected.fram),
        ("key", &found.key, &expected.key),
        ("nonce", &found.nonce, &expected.nonce),
        ("starting tag", &found.starting_tag, &expected.starting_tag),
        ("session", &found.session, &expected.session),
        ("open part", &found.open_part, &expected.open_part),
        ("secret part", &found.secret, &expected.secret),
        ("staging", &found.staging, &expected.staging),
        ("state", &*found.state, &*expected.state),
        ("job", &found.job, &expected.job),
    ];
    for (name, found, expected) in buffers {
        if let Some(at) = (0..found.len()).find(|at| found[*at] != expected[*at]) {
            return format!("byte {at} of the {name} is {:#04x}, not {:#04x}", found[at], expected[at]);
        }
    }
    format!(
        "secret length, restarts and open part's start and length are {:?}, not {:?}",
        (found.secret_len, found.restarts, found.open_start, found.open_len),
        (expected.secret_len, expected.restarts, expected.open_start, expected.open_len)
    )
}
