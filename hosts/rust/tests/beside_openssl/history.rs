//! Histories: what happens to a unit, event by event, and calls with something wrong among them.

use crate::compare::call;
use crate::firmware::{Firmware, KEEPER};
use crate::layout::{half_of, read_ring, record, word, Checkpoint, Form, Newest, Reading};
use crate::operations::*;
use crate::random::Random;
use crate::unit::{stopped, Heard, Left, Setup, Unit};
use std::fmt;
use std::rc::Rc;

#[derive(Clone)]
pub struct History {
    pub setup: Setup,
    pub events: Vec<Event>,
}

#[derive(Clone, Debug)]
pub enum Event {
    FirstSave {
        heard: Heard,
        open: usize,
        secret: usize,
        fill: u64,
    },
    /// With the session handed out last, or `session_back` before it.
    Save {
        session_back: usize,
        heard: Heard,
        open: usize,
        secret: usize,
        fill: u64,
    },
    PowerUp,
    /// So many advances, or fewer where the job is done before.
    Advance(usize),
    /// Advances until so many stores are left.
    AllBut(usize),
    Look,
    Cut,
    CutInto(Left),
    /// A cut between two calls at which the unit gets this firmware, if it is later than its own.
    Update(Firmware),
    /// A call of the keeper's with something wrong, on copies. A stop leaves everything, so the list goes on from the same bytes; where
    /// document 01 has no stop for it the copies are dropped, for the list may not have such a call.
    Wrong {
        operation: Operation,
        twists: Vec<Twist>,
        fill: u64,
    },
}

/// What is wrong about a call.
#[derive(Clone, Copy, Debug, PartialEq)]
pub enum Twist {
    Pages(usize),
    Slots(usize),
    PagesForSlots,
    RingLength(usize),
    FramLength(usize),
    KeyLength(usize),
    /// The unit's key cut to this length, or repeated up to it.
    KeyRepeated(usize),
    KeyBit(usize),
    NonceLength(usize),
    UsedNonce(usize),
    StartingTagLength(usize),
    Packet(u32),
    OpenLength(usize),
    SecretLength(usize),
    StagingLength(usize),
    StateLength(usize),
    JobLength(usize),
    JobWord(usize, u32),
    OldJob(usize),
    MadeUpJob(u64),
    SessionLength(usize),
    SessionBit(usize),
    SessionWord(usize, u32),
    OldSession(usize),
    OtherUnitsSession(u64),
    /// As one for the newest record would be that was never handed out, with these restarts and this packet number.
    NewestSession(u32, u32),
    BlankRing,
    /// Something in the page before the newest.
    PendingPage(Left),
    RingByte(usize, u8),
    RingPage(usize, Left),
    FramByte(usize, u8),
    HeadWord(usize, u32, u32),
    /// The first four words of a longer head, whose parts have so many words.
    LongerHead(u32, u32),
    /// Another checkpoint, rightly sealed, in the newest record's half.
    OtherCheckpoint {
        form: Form,
        packet: u32,
        open: usize,
        secret: usize,
        restarts: u32,
        fill: u64,
    },
}

fn parts(open: usize, secret: usize, fill: u64) -> (Vec<u8>, Vec<u8>) {
    let mut random = Random::new(fill);
    (random.bytes(open), random.bytes(secret))
}

impl History {
    /// Runs the events. After each, and after each single advance, a power-up is tried on a copy. An error has the number
    /// of the event.
    pub fn run(&self) -> Result<(), (usize, String)> {
        self.run_seen(|_| ())
    }

    /// The same, with the unit shown after each event.
    pub fn run_seen(&self, mut see: impl FnMut(&Unit)) -> Result<(), (usize, String)> {
        let mut unit = Unit::new(&self.setup);
        for (i, event) in self.events.iter().enumerate() {
            event.happen(&mut unit).map_err(|words| (i + 1, words))?;
            see(&unit);
        }
        Ok(())
    }
}

impl Event {
    fn happen(&self, unit: &mut Unit) -> Result<(), String> {
        match self.clone() {
            Event::FirstSave { heard, open, secret, fill } => {
                let (open_part, secret) = parts(open, secret, fill);
                unit.first_save(heard, open_part, secret)?;
            }
            Event::Save { session_back, heard, open, secret, fill } => {
                let (open_part, secret) = parts(open, secret, fill);
                unit.save(session_back, heard, open_part, secret)?;
            }
            Event::PowerUp => {
                unit.power_up()?;
            }
            Event::Advance(times) => return advance(unit, times),
            Event::AllBut(left) => return advance(unit, unit.book.to_come().len().saturating_sub(left)),
            Event::Look => unit.look()?,
            Event::Cut => unit.cut(),
            Event::CutInto(left) => unit.cut_into(left)?,
            Event::Update(firmware) => {
                if unit.firmware.later().contains(&firmware) {
                    let (older, took_key) = (unit.firmware, unit.takes_key());
                    unit.update(firmware);
                    match (took_key, unit.takes_key()) {
                        (true, _) => unit.saw(updated(older, firmware)),
                        (false, true) => unit.saw("updated to firmware that takes the key"),
                        (false, false) => (),
                    }
                }
            }
            // The unit is as it was, so there is nothing to try.
            Event::Wrong { operation, twists, fill } => return wrong(unit, operation, &twists, fill),
        }
        unit.trial_of_other_keys()?;
        unit.trial()
    }
}

/// What is seen of an update between firmwares that both take the unit's key.
pub fn updated(older: Firmware, newer: Firmware) -> String {
    format!("updated from {} firmware to {}", older.name, newer.name)
}

/// A trial after each advance; in a long checkpoint or a large FRAM after each run of them, and after each of the last.
fn advance(unit: &mut Unit, times: usize) -> Result<(), String> {
    let stride = unit.stride();
    let mut left = times;
    while left > 0 {
        let before_the_last = unit.book.to_come().len().saturating_sub(3);
        let advances = stride.min(before_the_last).clamp(1, left);
        let answer = unit.advances(advances)?;
        unit.trial()?;
        if answer != GOING_ON {
            break;
        }
        left -= advances;
    }
    Ok(())
}

/// The call, and if it does not stop some advances of the job that it answers.
fn wrong(unit: &Unit, operation: Operation, twists: &[Twist], fill: u64) -> Result<(), String> {
    let mut lent = unit.lent.clone();
    let mut random = Random::new(fill);
    let room = (lent.fram.len() / 2).saturating_sub(48) / 4;
    let most = KEEPER.part_limit / 4;
    lent.nonce = unit.new_nonce();
    lent.session = match operation {
        Operation::Advance => random.bytes(session_length(KEEPER.form)),
        _ => unit.session(0),
    };
    lent.packet = random.pick(&[0, 1, unit.packet(Heard::Same), unit.packet(Heard::More(1))]);
    lent.open_part = random.bytes(4 * most.min(room / 3));
    lent.secret = random.bytes(4 * most.min(room / 2));
    // An older firmware's buffers are shorter.
    if lent.state.len() < KEEPER.part_limit {
        Twist::StateLength(KEEPER.part_limit).apply(&mut lent, unit);
    }
    if operation != Operation::Advance {
        lent.job = random.bytes(job_length(KEEPER.form));
    }
    for twist in twists {
        twist.apply(&mut lent, unit);
    }
    let answer = call(operation, &mut lent)?;
    if stopped(answer) || operation == Operation::Look {
        return Ok(());
    }
    lent.session = random.bytes(session_length(KEEPER.form));
    for _ in 0..60 {
        if call(Operation::Advance, &mut lent)? != GOING_ON {
            break;
        }
    }
    Ok(())
}

impl Twist {
    fn apply(self, c: &mut Lent, unit: &Unit) {
        match self {
            Twist::Pages(n) => c.pages = n,
            Twist::Slots(n) => c.slots = n,
            Twist::PagesForSlots => (c.pages, c.slots) = (c.slots, c.pages),
            Twist::RingLength(n) => c.ring.resize(n, 0xFF),
            Twist::FramLength(n) => c.fram.resize(n, 0xA5),
            Twist::KeyLength(n) => c.key.resize(n, 0xA5),
            Twist::KeyRepeated(n) => c.key = unit.lent.key.iter().copied().cycle().take(n).collect(),
            Twist::KeyBit(bit) => turn(&mut c.key, bit),
            Twist::NonceLength(n) => c.nonce.resize(n, 0xA5),
            Twist::UsedNonce(back) => c.nonce = unit.used_nonce(back),
            Twist::StartingTagLength(n) => c.starting_tag.resize(n, 0xA5),
            Twist::Packet(n) => c.packet = n,
            Twist::OpenLength(n) => c.open_part.resize(n, 0xA5),
            Twist::SecretLength(n) => c.secret.resize(n, 0xA5),
            Twist::StagingLength(n) => c.staging.resize(n, 0xA5),
            Twist::StateLength(n) => Rc::make_mut(&mut c.state).resize(n, 0xA5),
            Twist::JobLength(n) => c.job.resize(n, 0xA5),
            Twist::JobWord(i, value) => put(&mut c.job, 4 * i, &value.to_be_bytes()),
            Twist::OldJob(back) => {
                if let Some(job) = unit.jobs.iter().rev().nth(back) {
                    c.job = job.to_vec();
                }
            }
            Twist::MadeUpJob(seed) => c.job = made_up_job(c, seed).to_bytes(KEEPER.form),
            Twist::SessionLength(n) => c.session.resize(n, 0xA5),
            Twist::SessionBit(bit) => turn(&mut c.session, bit),
            Twist::SessionWord(i, value) => put(&mut c.session, 4 * i, &value.to_be_bytes()),
            Twist::OldSession(back) => c.session = unit.session(back),
            Twist::OtherUnitsSession(seed) => {
                let mut random = Random::new(seed);
                let nonce = random.bytes(12);
                put(&mut c.session, 8, &record(&nonce, random.below(2)));
                put(&mut c.session, 24, &random.bytes(16));
            }
            Twist::NewestSession(restarts, packet) => {
                if let Some(Newest { page, slot, record, .. }) = newest(unit) {
                    let session = Session { page, slot, record, tag: [0x66; 16], restarts, packet };
                    c.session = session.to_bytes(KEEPER.form);
                }
            }
            Twist::BlankRing => c.ring.fill(0xFF),
            Twist::PendingPage(left) => {
                if let Some(newest) = newest(unit) {
                    let pages = unit.lent.pages;
                    Twist::RingPage((newest.page + pages - 1) % pages, left).apply(c, unit);
                }
            }
            Twist::RingByte(at, byte) => put(&mut c.ring, at, &[byte]),
            Twist::RingPage(page, left) => {
                let length = 16 * unit.lent.slots;
                if let Some(page) = c.ring.get_mut(length * page..length * (page + 1)) {
                    page.copy_from_slice(&left.bytes(page, &vec![0xFF; length]));
                }
            }
            Twist::FramByte(at, byte) => put(&mut c.fram, at, &[byte]),
            Twist::HeadWord(i, kind, value) => {
                let half = newest(unit).map_or(0, |newest| newest.half);
                put(&mut c.fram, half * (unit.lent.fram.len() / 2) + 4 * i, &word(kind, value));
            }
            Twist::LongerHead(open, secret) => {
                let half = newest(unit).map_or(0, |newest| newest.half);
                let words = [word(0, 5), word(1, open), word(2, secret), word(3, 1)].concat();
                put(&mut c.fram, half * (unit.lent.fram.len() / 2), &words);
            }
            Twist::OtherCheckpoint { form, packet, open, secret, restarts, fill } => {
                let Some(newest) = newest(unit) else { return };
                let (open_part, secret) = parts(open, secret, fill);
                let other = Checkpoint {
                    form,
                    packet,
                    open_part,
                    secret,
                    restarts,
                    previous_tag: [0x77; 16],
                    nonce: newest.record[..12].try_into().unwrap(),
                };
                if other.length() <= half_of(&unit.lent.fram, 0).len() {
                    put(&mut c.fram, newest.half * (unit.lent.fram.len() / 2), &other.sealed(&unit.lent.key));
                }
            }
        }
    }
}

fn newest(unit: &Unit) -> Option<Newest> {
    match read_ring(unit.lent.pages, unit.lent.slots, &unit.lent.ring) {
        Reading::Newest(newest) => Some(newest),
        _ => None,
    }
}

/// Puts bytes into a buffer, as far as it reaches.
fn put(buffer: &mut [u8], at: usize, bytes: &[u8]) {
    for (i, byte) in bytes.iter().enumerate() {
        if let Some(place) = buffer.get_mut(at + i) {
            *place = *byte;
        }
    }
}

fn turn(buffer: &mut [u8], bit: usize) {
    if let Some(byte) = buffer.get_mut(bit / 8) {
        *byte ^= 1 << (bit % 8);
    }
}

/// A job that stop 14 has nothing against unless it is at a record whose slot is not blank; one in three has one number
/// that is just out of its range.
fn made_up_job(c: &Lent, seed: u64) -> Job {
    let mut random = Random::new(seed);
    let (pages, slots, half) = (c.pages.clamp(3, 32), c.slots.clamp(2, 512), c.fram.len() / 2);
    let words = 12 + random.below(half.saturating_sub(48) / 4 + 1);
    let mut job = Job {
        phase: match random.below(8) {
            0 => Phase::EraseFirst(random.below(pages)),
            1 | 2 => Phase::Words(words - 1 - random.below(4)),
            3 => Phase::Words(random.below(words)),
            4 => Phase::EraseAfter(random.below(pages)),
            _ => Phase::Record,
        },
        origin: random.pick(&[Origin::Save, Origin::PowerUp]),
        half: random.below(2),
        length: 4 * words,
        page: random.below(pages),
        slot: random.pick(&[0, slots - 1, random.clone().below(slots)]),
        nonce: random.bytes(12).try_into().unwrap(),
        tag: random.bytes(16).try_into().unwrap(),
        // No stop of an advance looks at these two.
        restarts: random.pick(&[0, 8, 9, u32::MAX]),
        packet: random.pick(&[0, 1 << 29, (1 << 30) - 1, 1 << 30, u32::MAX]),
    };
    match random.below(24) {
        0 => job.phase = Phase::Words(words),
        1 => job.phase = Phase::EraseFirst(pages),
        2 => job.phase = Phase::EraseAfter(pages),
        3 => job.half = 2,
        4 => job.page = pages,
        5 => job.slot = slots,
        6 => job.length = random.pick(&[40, 44, half + 4, 4 * words + 1, 4 * words + 2]),
        7 => job.phase = Phase::Done,
        _ => (),
    }
    job
}

impl fmt::Display for History {
    fn fmt(&self, f: &mut fmt::Formatter<'_>) -> fmt::Result {
        let Setup { pages, slots, fram, firmware, key_length, seed } = self.setup;
        writeln!(f, "a ring of {pages} pages of {slots} slots, a FRAM of {fram} bytes, bytes by seed {seed}")?;
        writeln!(f, "the key has {key_length} bytes")?;
        writeln!(f, "the firmware is {} at first", firmware.name)?;
        for (i, event) in self.events.iter().enumerate() {
            writeln!(f, "{:4}  {event}", i + 1)?;
        }
        Ok(())
    }
}

impl fmt::Display for Event {
    fn fmt(&self, f: &mut fmt::Formatter<'_>) -> fmt::Result {
        match self {
            Event::FirstSave { heard, open, secret, .. } => {
                write!(f, "first save, packet {heard:?}, open part {open} bytes, secret part {secret}")
            }
            Event::Save { session_back: 0, heard, open, secret, .. } => {
                write!(f, "save, packet {heard:?}, open part {open} bytes, secret part {secret}")
            }
            Event::Save { session_back, heard, open, secret, .. } => {
                write!(f, "save with the session {session_back} before the last, packet {heard:?}, ")?;
                write!(f, "open part {open} bytes, secret part {secret}")
            }
            Event::PowerUp => write!(f, "power-up"),
            Event::AllBut(0) => write!(f, "advances to the end"),
            Event::AllBut(left) => write!(f, "advances until {left} stores are left"),
            Event::Advance(times) => write!(f, "{times} advances"),
            Event::Look => write!(f, "look"),
            Event::Cut => write!(f, "cut between two calls"),
            Event::CutInto(left) => write!(f, "cut into the next store, leaving {left:?}"),
            Event::Update(firmware) => write!(f, "cut between two calls, and {} firmware", firmware.name),
            Event::Wrong { operation, twists, .. } => write!(f, "on copies: {operation:?} with {twists:?}"),
        }
    }
}
