//! Random histories under demand 3. `HISTORIES=n SEED=s cargo test histories` runs n of them from seed s on. One that
//! fails is made smaller, event by event and number by number, and printed. In some the unit begins with an older firmware,
//! which it has up to a cut, or to the end. A unit's key has 16 bytes or 32, by the seed.

use crate::compare::{ANSWERS, SEEN};
use crate::firmware::{Firmware, A_2, A_5, A_6, A_7, DOCUMENT_01, FIRMWARES, KEEPER};
use crate::history::{updated, Event, History, Twist};
use crate::layout::{Form, LARGEST_PACKET};
use crate::operations::Operation;
use crate::random::Random;
use crate::unit::{Heard, Left, Setup};
use std::collections::BTreeSet;
use std::env;

const HISTORIES: u64 = 1500;

#[test]
fn histories() {
    let number = |name: &str, otherwise: u64| match env::var(name) {
        Ok(text) => text.parse().unwrap_or_else(|_| panic!("{name} is a number")),
        Err(_) => otherwise,
    };
    let (first, count) = (number("SEED", 1), number("HISTORIES", HISTORIES));
    for seed in first..first + count {
        let history = generated(seed);
        if let Err(failure) = history.run() {
            let (history, (at, words)) = smaller(history, failure);
            panic!("\nSEED={seed} HISTORIES=1 fails; the smallest history found that does:\n{history}at event {at}: {words}\n");
        }
    }
    let answers: BTreeSet<(usize, Operation, u32)> = ANSWERS.with_borrow(|answers| answers.keys().copied().collect());
    let other: Vec<_> =
        answers.iter().filter(|(key, call, answer)| !every_answer(*key, *call).contains(answer)).collect();
    assert!(other.is_empty(), "answers that the documents do not have: {other:?}");
    // In fewer histories, or from other seeds, some may not occur.
    if (first, count) == (1, HISTORIES) {
        for key_length in KEEPER.key_lengths {
            for call in CALLS {
                let given: Vec<u32> = answers
                    .range((*key_length, call, 0)..=(*key_length, call, u32::MAX))
                    .map(|(_, _, answer)| *answer)
                    .collect();
                assert_eq!(given, every_answer(*key_length, call), "{call:?}, with a key of {key_length} bytes");
            }
        }
        SEEN.with_borrow(|seen| assert_eq!(*seen, to_be_seen()));
    }
}

/// What A.2 and A.5 to A.8 add and no answer shows by itself, in units with keys of these lengths.
fn to_be_seen() -> BTreeSet<(usize, String)> {
    let by_any_unit = [
        "12 for a key of the other length",
        "13 though the nonce is used",
        "a part of 32,768 bytes resumed",
        "restarts carried over",
        "restarts set to 0",
    ];
    // By units that older firmware wrote to, so with keys of 32 bytes.
    let by_older_units = [
        "13 before the resealing's 4",
        "13 for the older form",
        "3 for a session of the older form",
        "4 for a resealing that outgrows the half",
        "the older form resealed",
    ];
    let both = by_any_unit.into_iter().flat_map(|what| [(16, what.to_string()), (32, what.to_string())]);
    let older = by_older_units.into_iter().map(|what| (32, what.to_string()));
    let updates = FIRMWARES.into_iter().flat_map(|from| from.later().iter().map(move |to| (32, updated(from, *to))));
    let refused = [16, 24].map(|key_length| (key_length, "3 by firmware that does not take the key".to_string()));
    let refused_before = (16, "updated to firmware that takes the key".to_string());
    both.chain(older).chain(updates).chain(refused).chain([refused_before]).collect()
}

const CALLS: [Operation; 5] =
    [Operation::FirstSave, Operation::Save, Operation::PowerUp, Operation::Look, Operation::Advance];

/// Every answer that the documents have for a call with a key of this length, 14 for a job buffer of a wrong length included,
/// and those that a save gives whose starting tag is 48 bytes long, or whose session 16.
fn every_answer(key_length: usize, call: Operation) -> &'static [u32] {
    match call {
        Operation::Advance => &[1, 2, 4, 14, 256, 257, 258],
        _ if !KEEPER.takes_key_of(key_length) => &[1, 2, 3],
        Operation::FirstSave => &[0, 1, 2, 3, 4, 5, 6, 7, 8, 14, 18],
        Operation::Save => &[0, 1, 2, 3, 4, 5, 6, 7, 8, 9, 10, 14, 18],
        Operation::PowerUp => &[0, 1, 2, 3, 4, 6, 7, 10, 11, 12, 13, 14],
        // Its 3 is about the key alone.
        Operation::Look => &[0, 1, 2, 6, 7, 11, 12],
    }
}

// Making a history from a seed.

pub fn generated(seed: u64) -> History {
    let mut random = Random::new(seed);
    let key_length = random.pick(KEEPER.key_lengths);
    // Older firmware does nothing with a key of 16 bytes, so that few such units begin with it.
    let firmware = match key_length {
        16 if random.chance(7, 8) => KEEPER,
        _ => random.pick(&[DOCUMENT_01, DOCUMENT_01, A_2, A_5, A_6, A_7, KEEPER, KEEPER, KEEPER, KEEPER]),
    };
    let largest = firmware.form.empty() + 2 * firmware.part_limit;
    let setup = match random.below(60) {
        // Long checkpoints and memories of the largest size are slow, so they are few.
        0 => Setup { pages: 32, slots: 512, fram: 88 + 8 * random.below(10), firmware, key_length, seed },
        1 | 2 => Setup { pages: 3, slots: 2, fram: 2 * largest, firmware, key_length, seed },
        3 | 4 => Setup { pages: 3, slots: 2, fram: firmware.fram_limit, firmware, key_length, seed },
        _ => Setup {
            pages: random.pick(&[3, 3, 3, 4, 4, 5, 6, 8, 32]),
            slots: random.pick(&[2, 2, 2, 3, 3, 4, 5, 8]),
            // 88 holds no checkpoint of the longer form.
            fram: 88 + 8 * random.pick(&[0, 1, 1, 2, 3, 4, 5, 6, 9, 14, 22]),
            firmware,
            key_length,
            seed,
        },
    };
    let large = setup.fram > 1000 || setup.slots > 100;
    let (count, wrongs) = if large { (40, 16) } else { (10 + random.below(70), 4) };
    let mut running = firmware;
    let mut update = 2 + random.below(count);
    // How often a start is a save, of 100, and how often a save brings a number that it did not hear before.
    let saves = random.pick(&[3, 10, 40, 80]);
    let fresh = random.pick(&[5, 30, 90]);
    let mut events = Vec::new();
    if random.chance(9, 10) {
        events.push(first_save(&mut random, &setup, running));
        events.push(Event::AllBut(0));
    }
    while events.len() < count {
        if events.len() >= update && running != KEEPER {
            let took_key = running.takes_key_of(key_length);
            running = random.pick(running.later());
            events.push(Event::Update(running));
            update = events.len() + random.below(count);
            if !took_key && running.takes_key_of(key_length) {
                events.push(first_save(&mut random, &setup, running));
                events.push(Event::AllBut(0));
            }
        }
        match random.below(100) {
            0..40 => {
                events.push(start(&mut random, &setup, running, saves, fresh));
                events.push(Event::AllBut(0));
            }
            40..55 => {
                events.push(start(&mut random, &setup, running, saves, fresh));
                // Mostly near the end, where record and erase are.
                let stores = random.below(4);
                let times = random.below(setup.fram / 8 + 2);
                events.push(if random.chance(2, 3) { Event::AllBut(stores) } else { Event::Advance(times) });
                events.push(if random.chance(4, 5) { Event::CutInto(left(&mut random)) } else { Event::Cut });
            }
            55..60 => events.push(start(&mut random, &setup, running, saves, fresh)),
            60..65 => events.push(Event::Advance(1 + random.below(8))),
            65..68 => events.push(Event::Cut),
            68..71 => events.push(Event::CutInto(left(&mut random))),
            71..75 => events.push(Event::Look),
            _ => events.extend((0..wrongs).map(|_| wrong(&mut random, &setup))),
        }
    }
    History { setup, events }
}

/// Parts up to a limit that fit a half in this form; empty ones where none fit.
fn part_sizes(random: &mut Random, setup: &Setup, form: Form, limit: usize) -> (usize, usize) {
    let room = (setup.fram / 2).saturating_sub(form.empty()) / 4;
    let limit = limit / 4;
    // Long ones are slow: in the largest memories they are few.
    let few = setup.fram >= A_2.fram_limit && random.chance(7, 8);
    let most = if few { 20 } else { room.min(limit) };
    let open = if random.chance(1, 5) { most } else { random.below(most + 1) };
    let secret = most.min(room - open);
    // Some fill their half, where parts may be so long.
    match random.below(10) {
        0 | 1 if room - open <= limit => (4 * open, 4 * (room - open)),
        2 => (4 * open, 4 * secret),
        _ => (4 * open, 4 * random.below(secret + 1)),
    }
}

fn first_save(random: &mut Random, setup: &Setup, running: Firmware) -> Event {
    let (open, secret) = part_sizes(random, setup, running.form, running.part_limit);
    let heard = match random.below(8) {
        0 => Heard::Number(LARGEST_PACKET),
        1 => Heard::Number(LARGEST_PACKET - 1),
        2 => Heard::Number(LARGEST_PACKET + 1),
        3..6 => Heard::Number(random.below(1000) as u32),
        _ => Heard::Number(0),
    };
    Event::FirstSave { heard, open, secret, fill: random.next() }
}

/// The number that a save brings.
fn heard(random: &mut Random, fresh: usize) -> Heard {
    if random.chance(fresh, 100) {
        return Heard::More(random.pick(&[1, 1, 1, 2, 256, 1 << 24, LARGEST_PACKET]));
    }
    match random.below(12) {
        0 => Heard::Number(0),
        1 => Heard::Number(random.pick(&[LARGEST_PACKET, LARGEST_PACKET + 1, u32::MAX])),
        2..5 => Heard::Less(random.pick(&[1, 1, 2, 256])),
        _ => Heard::Same,
    }
}

fn start(random: &mut Random, setup: &Setup, running: Firmware, saves: usize, fresh: usize) -> Event {
    if random.chance(1, 12) {
        return first_save(random, setup, running);
    }
    if random.chance(saves, 100) {
        // After an update some outgrow their half, and are refused.
        let form = random.pick(&[setup.firmware.form, running.form]);
        let (open, secret) = part_sizes(random, setup, form, running.part_limit);
        let session_back = if random.chance(1, 6) { 1 + random.below(4) } else { 0 };
        return Event::Save { session_back, heard: heard(random, fresh), open, secret, fill: random.next() };
    }
    Event::PowerUp
}

fn left(random: &mut Random) -> Left {
    let seed = random.next();
    let every = [Left::Every(0), Left::Every(1), Left::Every(0xFF), Left::Torn(seed), Left::Any(seed)];
    match random.below(10) {
        0 => Left::Nothing,
        1..4 => Left::Whole,
        4..6 => Left::Records(seed),
        _ => random.pick(&every),
    }
}

fn wrong(random: &mut Random, setup: &Setup) -> Event {
    let operation = random.pick(&CALLS);
    let count = random.pick(&[1, 1, 1, 2, 2, 3, 4]);
    let twists = (0..count).map(|_| twist(random, setup, operation)).collect();
    Event::Wrong { operation, twists, fill: random.next() }
}

fn twist(random: &mut Random, setup: &Setup, operation: Operation) -> Twist {
    let Setup { pages, slots, fram, .. } = *setup;
    let (ring, half) = (16 * pages * slots, fram / 2);
    let room = half.saturating_sub(48);
    let words = {
        let [older, newer] = [A_2.part_limit as u32 / 4, KEEPER.part_limit as u32 / 4];
        [0, 1, room as u32 / 4, room as u32 / 4 + 1, room as u32 / 4 + 2, older, older + 1, newer, newer + 1]
    };
    let seed = random.next();
    let kind = random.below(4) as u32;
    match (operation, random.below(12)) {
        (Operation::Advance, 0..6) => match random.below(8) {
            0 => Twist::JobLength(random.pick(&[0, 48, 56, 63, 65, 72])),
            1 => Twist::OldJob(random.below(20)),
            2..5 => Twist::MadeUpJob(seed),
            _ => {
                let numbers = [
                    pages - 1,
                    pages,
                    slots - 1,
                    slots,
                    half - 4,
                    half,
                    half + 4,
                    half / 4 - 1,
                    half / 4,
                    40,
                    44,
                    48,
                    49,
                    50,
                    52,
                ];
                let few = random.below(7) as u32;
                let value = random.pick(&[few, few, random.clone().pick(&numbers) as u32, u32::MAX, 1 << 30, 1 << 31]);
                Twist::JobWord(random.pick(&[0, 1, 2, 3, 4, 5, 6, 14, 15]), value)
            }
        },
        (Operation::FirstSave, 0..7) => Twist::BlankRing,
        (Operation::FirstSave, 7) | (Operation::Save, 6) => Twist::Packet(packet(random)),
        (Operation::FirstSave, 8) | (Operation::Save, 7) => part_length(random, room),
        // 48 bytes are taken for a session, whose stops depend on the ring.
        (Operation::FirstSave, 9) => Twist::StartingTagLength(48),
        (Operation::FirstSave, 10) => Twist::RingByte(random.below(ring), 0),
        (Operation::Save, 0..5) => match random.below(11) {
            6 => Twist::PendingPage(random.pick(&[Left::Any(seed), Left::Records(seed)])),
            7..10 => Twist::NewestSession(random.pick(&[0, 1, 7, 8, 8, 9, 1 << 31]), packet(random)),
            10 => Twist::SessionWord(10 + random.below(2), random.pick(&[8, 9, random.clone().next() as u32])),
            0 => Twist::SessionLength(random.pick(&[0, 16, 24, 40, 47, 49, 64])),
            1 => Twist::SessionBit(random.below(384)),
            2 => {
                Twist::SessionWord(random.below(2), random.pick(&[0, 1, pages as u32, slots as u32, u32::MAX, 1 << 31]))
            }
            3 => Twist::OtherUnitsSession(seed),
            _ => Twist::OldSession(random.below(6)),
        },
        (Operation::Save | Operation::PowerUp, 5) => Twist::UsedNonce(random.below(slots + 1)),
        (Operation::Look | Operation::PowerUp, 0..5) => match random.below(8) {
            0 => Twist::HeadWord(0, random.pick(&[0, 0, kind]), random.pick(&[0, 1, 1 << 29, LARGEST_PACKET])),
            // Which of the next two words is which part's length depends on the form.
            1 | 2 => Twist::HeadWord(random.below(3), random.pick(&[1, 1, 2, 2, kind]), random.pick(&words)),
            3 => {
                Twist::HeadWord(2 + random.below(2), random.pick(&[3, 3, kind]), random.pick(&[0, 1, 7, 8, 9, 1 << 29]))
            }
            4 => Twist::LongerHead(random.pick(&[0, random.clone().pick(&words)]), random.pick(&words)),
            5 => Twist::FramByte(random.below(fram), seed as u8),
            _ => {
                let form = random.pick(&[Form::Older, Form::Longer]);
                // Some are larger than may be, by a word.
                let limit = KEEPER.part_limit + random.pick(&[0, 0, 0, 4]);
                let (open, secret) = part_sizes(random, setup, form, limit);
                let packet = match form {
                    Form::Older => 0,
                    Form::Longer => random.pick(&[0, 1, 1 << 29, LARGEST_PACKET]),
                };
                let restarts = random.pick(&[0, 1, 7, 8, 9]);
                Twist::OtherCheckpoint { form, packet, open, secret, restarts, fill: seed }
            }
        },
        _ => any_twist(random, setup, ring, half, room, seed),
    }
}

/// A packet number at a limit.
fn packet(random: &mut Random) -> u32 {
    random.pick(&[0, 1, LARGEST_PACKET - 1, LARGEST_PACKET, LARGEST_PACKET, LARGEST_PACKET + 1, 1 << 31, u32::MAX])
}

/// A length of a part at a limit.
fn part_length(random: &mut Random, room: usize) -> Twist {
    let [older, newer] = [A_2.part_limit, KEEPER.part_limit];
    let lengths = [1, 2, 3, 5, room, room + 4, older, older + 1, older + 4, newer - 4, newer, newer + 1, newer + 4];
    let length = random.pick(&lengths);
    random.pick(&[Twist::OpenLength(length), Twist::SecretLength(length)])
}

/// A twist that any call can be given.
fn any_twist(random: &mut Random, setup: &Setup, ring: usize, half: usize, room: usize, seed: u64) -> Twist {
    let Setup { pages, slots, fram, .. } = *setup;
    let [older, newer] = [A_2.part_limit, KEEPER.part_limit];
    match random.below(20) {
        0 => Twist::Pages(random.pick(&[0, 1, 2, 3, 32, 33, pages - 1, pages + 1, usize::MAX, 1 << 60])),
        1 => Twist::Slots(random.pick(&[0, 1, 2, 512, 513, slots - 1, slots + 1, usize::MAX, 1 << 60])),
        2 => Twist::PagesForSlots,
        3 => Twist::RingLength(random.pick(&[0, 1, ring - 16, ring - 1, ring + 1, ring + 16, 2 * ring])),
        4 => Twist::FramLength(random.pick(&[
            0,
            4,
            80,
            84,
            88,
            fram - 8,
            fram - 4,
            fram + 1,
            fram + 4,
            fram + 8,
            A_2.fram_limit,
            A_2.fram_limit + 8,
            KEEPER.fram_limit - 8,
            KEEPER.fram_limit,
            KEEPER.fram_limit + 8,
        ])),
        5 => Twist::KeyLength(random.pick(&[0, 15, 16, 17, 24, 31, 32, 33, 64])),
        6 => Twist::KeyBit(random.below(8 * setup.key_length)),
        7 => Twist::NonceLength(random.pick(&[0, 8, 11, 13, 16])),
        8 => Twist::StartingTagLength(random.pick(&[0, 12, 15, 17, 32, 48])),
        9 | 10 => part_length(random, room),
        11 => Twist::StagingLength(random.pick(&[0, 1, half - 4, half - 1, half, half + 1])),
        12 => Twist::StateLength(random.pick(&[0, 1, older, newer - 4, newer - 1, newer, newer + 1])),
        13 => Twist::JobLength(random.pick(&[0, 48, 56, 63, 64, 65])),
        14 => Twist::SessionLength(random.pick(&[0, 40, 47, 48, 49, 64])),
        15 => Twist::RingByte(random.below(ring), random.pick(&[0, 1, 0x40, 0x80, 0xFE, 0xFF])),
        16 => Twist::RingByte(
            16 * random.below(ring / 16) + 12 + random.below(4),
            random.pick(&[0, 1, 2, 0x40, 0x80, 0xFF]),
        ),
        17 => Twist::Packet(packet(random)),
        18 => Twist::KeyRepeated(random.pick(&[8, 16, 16, 24, 32, 32, 48])),
        _ => Twist::RingPage(random.below(pages), random.pick(&[Left::Whole, Left::Any(seed), Left::Records(seed)])),
    }
}

// Making a failing history smaller.

type Failure = (usize, String);

fn smaller(mut history: History, mut failure: Failure) -> (History, Failure) {
    loop {
        history.events.truncate(failure.0);
        let Some((found, why)) = candidates(&history).find_map(|h| h.run().err().map(|why| (h, why))) else {
            return (history, failure);
        };
        (history, failure) = (found, why);
    }
}

/// Histories that are smaller by one step: without a run of events, then with a smaller number in one place.
fn candidates(history: &History) -> impl Iterator<Item = History> + '_ {
    let n = history.events.len();
    let lengths = std::iter::successors(Some(n.div_ceil(2)), |length| (*length > 1).then_some(length / 2));
    let dropped = lengths.flat_map(move |length| {
        (0..n).step_by(length).map(move |at| {
            let mut less = history.clone();
            less.events.drain(at..n.min(at + length));
            less
        })
    });
    let simpler = (0..n).flat_map(move |i| {
        simpler_events(&history.events[i]).into_iter().map(move |event| {
            let mut less = history.clone();
            less.events[i] = event;
            less
        })
    });
    dropped.chain(simpler).chain(
        simpler_setups(&history.setup).into_iter().map(move |setup| History { setup, events: history.events.clone() }),
    )
}

fn simpler_events(event: &Event) -> Vec<Event> {
    let sizes = |open: usize, secret: usize| {
        let mut less = vec![];
        if open > 0 {
            less.extend([(0, secret), (open / 8 * 4, secret), (open - 4, secret)]);
        }
        if secret > 0 {
            less.extend([(open, 0), (open, secret / 8 * 4), (open, secret - 4)]);
        }
        less
    };
    match event.clone() {
        Event::FirstSave { heard, open, secret, fill } => {
            let mut less: Vec<Event> = sizes(open, secret)
                .into_iter()
                .map(|(open, secret)| Event::FirstSave { heard, open, secret, fill })
                .collect();
            if heard != Heard::Number(0) {
                less.push(Event::FirstSave { heard: Heard::Number(0), open, secret, fill });
            }
            less
        }
        Event::Save { session_back, heard, open, secret, fill } => {
            let mut less: Vec<Event> = sizes(open, secret)
                .into_iter()
                .map(|(open, secret)| Event::Save { session_back, heard, open, secret, fill })
                .collect();
            if session_back > 0 {
                less.push(Event::Save { session_back: session_back - 1, heard, open, secret, fill });
            }
            if !matches!(heard, Heard::Same | Heard::More(1)) {
                less.extend([Heard::Same, Heard::More(1)].map(|heard| Event::Save {
                    session_back,
                    heard,
                    open,
                    secret,
                    fill,
                }));
            }
            less
        }
        Event::AllBut(left) if left > 0 => vec![Event::AllBut(0), Event::AllBut(left - 1)],
        Event::Advance(times) if times > 1 => vec![Event::Advance(times / 2), Event::Advance(times - 1)],
        Event::CutInto(left) if !matches!(left, Left::Nothing | Left::Whole | Left::Every(_)) => {
            [Left::Nothing, Left::Whole, Left::Every(0)].map(Event::CutInto).to_vec()
        }
        Event::Wrong { operation, twists, fill } if twists.len() > 1 => (0..twists.len())
            .map(|i| {
                let mut fewer = twists.clone();
                fewer.remove(i);
                Event::Wrong { operation, twists: fewer, fill }
            })
            .collect(),
        _ => vec![],
    }
}

/// Smaller memories; a part that no longer fits is refused, which the history may bear.
fn simpler_setups(setup: &Setup) -> Vec<Setup> {
    let mut less = vec![];
    if setup.pages > 3 {
        less.extend([Setup { pages: 3, ..setup.clone() }, Setup { pages: setup.pages - 1, ..setup.clone() }]);
    }
    if setup.slots > 2 {
        less.extend([Setup { slots: 2, ..setup.clone() }, Setup { slots: setup.slots - 1, ..setup.clone() }]);
    }
    if setup.fram > 88 {
        less.extend([Setup { fram: 88, ..setup.clone() }, Setup { fram: setup.fram - 8, ..setup.clone() }]);
    }
    if setup.key_length != 32 {
        less.push(Setup { key_length: 32, ..setup.clone() });
    }
    less.extend(setup.firmware.later().iter().map(|firmware| Setup { firmware: *firmware, ..setup.clone() }));
    less
}
