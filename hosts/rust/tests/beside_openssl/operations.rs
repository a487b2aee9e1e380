//! Document 01, "What the unit calls" and "Stops, by the place of checking", with document 02's A.2 and A.5 to A.8: what each
//! call of a firmware answers and leaves. Jobs and sessions are the bytes that the calls for C lay down.

use crate::firmware::Firmware;
use crate::layout::*;
use std::rc::Rc;

/// All that a call can be lent. A call uses some of it; none changes on a stop.
#[derive(Clone, PartialEq)]
pub struct Lent {
    pub pages: usize,
    pub slots: usize,
    pub ring: Vec<u8>,
    pub fram: Vec<u8>,
    pub key: Vec<u8>,
    pub nonce: Vec<u8>,
    pub starting_tag: Vec<u8>,
    pub session: Vec<u8>,
    /// The calls of document 01's firmware have no such argument.
    pub packet: u32,
    pub open_part: Vec<u8>,
    pub secret: Vec<u8>,
    pub staging: Vec<u8>,
    /// Most calls are not lent it; shared, it costs them nothing.
    pub state: Rc<Vec<u8>>,
    pub job: Vec<u8>,
    pub secret_len: usize,
    pub restarts: u32,
    pub open_start: usize,
    pub open_len: usize,
}

/// From A.7 on the first two are one call, which is given `starting_tag` or `session`.
#[derive(Clone, Copy, Debug, PartialEq, Eq, PartialOrd, Ord)]
pub enum Operation {
    FirstSave,
    Save,
    PowerUp,
    Look,
    Advance,
}

pub const DONE: u32 = 0;
pub const GOING_ON: u32 = 256;
pub const SAVED: u32 = 257;
pub const RESTORED: u32 = 258;

/// What this firmware's call does: it answers 0 or the number of a stop, an advance 256, 257, 258 or the number of a stop.
pub fn perform(firmware: Firmware, operation: Operation, lent: &mut Lent) -> u32 {
    let answer = match operation {
        Operation::FirstSave if firmware.one_save => one_save(firmware, &lent.starting_tag.clone(), lent),
        Operation::Save if firmware.one_save => one_save(firmware, &lent.session.clone(), lent),
        Operation::FirstSave => first_save(firmware, &lent.starting_tag.clone(), lent),
        Operation::Save => save(firmware, &lent.session.clone(), lent),
        Operation::PowerUp => power_up(firmware, lent),
        Operation::Look => look(firmware, lent),
        Operation::Advance => advance(firmware, lent),
    };
    answer.unwrap_or_else(|stop| stop)
}

type Answer = Result<u32, u32>;

fn stop_if(condition: bool, number: u32) -> Result<(), u32> {
    if condition {
        Err(number)
    } else {
        Ok(())
    }
}

/// A.7: "With a starting tag a ring that is not blank gives 5; with a session the checks are those of save." For C 16 bytes
/// are a starting tag, 48 a session, and any other length gives 3.
fn one_save(firmware: Firmware, from: &[u8], c: &mut Lent) -> Answer {
    if from.len() == session_length(firmware.form) {
        save(firmware, from, c)
    } else {
        first_save(firmware, from, c)
    }
}

/// "First save: … Restarts 0, half A, page 0, slot 0." A.2: "A first save stores its number with restarts 0."
fn first_save(firmware: Firmware, starting_tag: &[u8], c: &mut Lent) -> Answer {
    stop_if(ring_size_wrong(c.pages, c.slots, &c.ring), 1)?;
    stop_if(fram_size_wrong(firmware, &c.fram), 2)?;
    stop_if(key_wrong(firmware, c) || c.nonce.len() != 12 || starting_tag.len() != 16, 3)?;
    stop_if(parts_wrong(firmware, c) || staging_short(c), 4)?;
    stop_if(packet_wrong(firmware, c), 18)?;
    stop_if(!blank(&c.ring), 5)?;
    stop_if(c.job.len() != job_length(firmware.form), 14)?;
    let checkpoint = Checkpoint {
        form: firmware.form,
        packet: if firmware.form == Form::Longer { c.packet } else { 0 },
        open_part: c.open_part.clone(),
        secret: c.secret.clone(),
        restarts: 0,
        previous_tag: starting_tag.try_into().unwrap(),
        nonce: c.nonce[..].try_into().unwrap(),
    };
    start(c, Origin::Save, &checkpoint, None, 0, (0, 0));
    Ok(DONE)
}

/// "Save: a session besides. Restarts 0; the half the newest record does not name; the next target; previous tag from
/// the session." A.2: "a save brings the packet number it last heard … Above the session's number it sets restarts to 0;
/// otherwise restarts carry over, and the larger number is stored."
fn save(firmware: Firmware, session: &[u8], c: &mut Lent) -> Answer {
    stop_if(ring_size_wrong(c.pages, c.slots, &c.ring), 1)?;
    stop_if(fram_size_wrong(firmware, &c.fram), 2)?;
    stop_if(key_wrong(firmware, c) || c.nonce.len() != 12, 3)?;
    stop_if(parts_wrong(firmware, c) || staging_short(c), 4)?;
    stop_if(packet_wrong(firmware, c), 18)?;
    let newest = newest_record(c)?;
    let session = Session::from_bytes(firmware.form, session).ok_or(8u32)?;
    stop_if((session.page, session.slot, session.record) != (newest.page, newest.slot, newest.record), 8)?;
    stop_if(session.restarts > 8 || session.packet > LARGEST_PACKET, 8)?;
    stop_if(newest.pending.is_some(), 9)?;
    stop_if(newest.nonces.iter().any(|used| used[..] == c.nonce), 10)?;
    stop_if(c.job.len() != job_length(firmware.form), 14)?;
    let (restarts, packet) = match firmware.form {
        Form::Older => (0, 0),
        Form::Longer if c.packet > session.packet => (0, c.packet),
        Form::Longer => (session.restarts, session.packet),
    };
    let checkpoint = Checkpoint {
        form: firmware.form,
        packet,
        open_part: c.open_part.clone(),
        secret: c.secret.clone(),
        restarts,
        previous_tag: session.tag,
        nonce: c.nonce[..].try_into().unwrap(),
    };
    start(c, Origin::Save, &checkpoint, None, 1 - newest.half, newest.target);
    Ok(DONE)
}

/// "Power-up: opens the newest checkpoint, puts the secret part at the front of a state buffer … and reseals both parts
/// under the new nonce, restarts one more, previous tag the opened one's, other half, next target." A.2: "A power-up keeps
/// the number."
fn power_up(firmware: Firmware, c: &mut Lent) -> Answer {
    stop_if(ring_size_wrong(c.pages, c.slots, &c.ring), 1)?;
    stop_if(fram_size_wrong(firmware, &c.fram), 2)?;
    stop_if(key_wrong(firmware, c) || c.nonce.len() != 12, 3)?;
    stop_if(staging_short(c) || c.state.len() < firmware.part_limit, 4)?;
    let newest = newest_record(c)?;
    let used = newest.nonces.iter().any(|used| used[..] == c.nonce);
    stop_if(used && !firmware.half_first, 10)?;
    let (opened, tag) = open_half(firmware, half_of(&c.fram, newest.half), &c.key, &newest.record[..12])?;
    stop_if(opened.restarts == 8, 13)?;
    stop_if(used, 10)?;
    // "a resealing that outgrows the half gives 4, after 13"; A.6: "the resealing's 4 goes after 10"
    stop_if(opened.length_in(firmware.form) > c.fram.len() / 2, 4)?;
    stop_if(c.job.len() != job_length(firmware.form), 14)?;
    Rc::make_mut(&mut c.state)[..opened.secret.len()].copy_from_slice(&opened.secret);
    c.secret_len = opened.secret.len();
    // "a power-up reseals it in the longer form"
    let checkpoint = Checkpoint {
        form: firmware.form,
        restarts: opened.restarts + 1,
        previous_tag: tag,
        nonce: c.nonce[..].try_into().unwrap(),
        ..opened
    };
    start(c, Origin::PowerUp, &checkpoint, newest.pending, 1 - newest.half, newest.target);
    Ok(DONE)
}

/// "Look: stores nothing and answers a stop or the restarts; a companion … hands back the open part itself."
fn look(firmware: Firmware, c: &mut Lent) -> Answer {
    stop_if(ring_size_wrong(c.pages, c.slots, &c.ring), 1)?;
    stop_if(fram_size_wrong(firmware, &c.fram), 2)?;
    stop_if(key_wrong(firmware, c), 3)?;
    let newest = newest_record(c)?;
    let (opened, _) = open_half(firmware, half_of(&c.fram, newest.half), &c.key, &newest.record[..12])?;
    c.restarts = opened.restarts;
    c.open_start = newest.half * c.fram.len() / 2 + opened.form.head();
    c.open_len = opened.open_part.len();
    Ok(DONE)
}

/// "An advance makes the one store its phase names: a page set to 0xFF, one word copied from staging to the half, or one
/// record."
fn advance(firmware: Firmware, c: &mut Lent) -> Answer {
    stop_if(ring_size_wrong(c.pages, c.slots, &c.ring), 1)?;
    stop_if(fram_size_wrong(firmware, &c.fram), 2)?;
    stop_if(staging_short(c) || c.session.len() != session_length(firmware.form), 4)?;
    let mut job = Job::from_bytes(firmware.form, &c.job).ok_or(14u32)?;
    stop_if(job_wrong(firmware, &job, c), 14)?;
    match next_store(&job, c.slots, c.fram.len()) {
        Store::Erase(page) => page.of(&mut c.ring).fill(0xFF),
        Store::Word(word) => word.of(&mut c.fram).copy_from_slice(job.staged(&c.staging)),
        Store::Record(slot) => slot.of(&mut c.ring).copy_from_slice(&job.record()),
    }
    job.phase = match job.phase {
        Phase::EraseFirst(_) => Phase::Words(0),
        // "Words go from front to back."
        Phase::Words(word) if 4 * (word + 1) < job.length => Phase::Words(word + 1),
        Phase::Words(_) => Phase::Record,
        // "After the record comes 'erase after' of the page before, if the target slot is 0 and that page is not blank;
        // otherwise done."
        Phase::Record => {
            let before = (job.page + c.pages - 1) % c.pages;
            if job.slot == 0 && !blank(page_at(before, c.slots).of(&mut c.ring)) {
                Phase::EraseAfter(before)
            } else {
                Phase::Done
            }
        }
        Phase::EraseAfter(_) | Phase::Done => Phase::Done,
    };
    c.job = job.to_bytes(firmware.form);
    // "The advance that reaches done says 'saved' or 'restored' with the new session: page, slot, record and tag; every
    // other one says 'going on'." A.2: "The session and the job also hold restarts and packet number."
    if job.phase != Phase::Done {
        return Ok(GOING_ON);
    }
    let session = Session {
        page: job.page,
        slot: job.slot,
        record: job.record(),
        tag: job.tag,
        restarts: job.restarts,
        packet: job.packet,
    };
    c.session = session.to_bytes(firmware.form);
    Ok(match job.origin {
        Origin::Save => SAVED,
        Origin::PowerUp => RESTORED,
    })
}

// Stops.

/// Of 3: "key not 32 … bytes"; A.8: "3's key condition is now neither 16 nor 32 bytes".
fn key_wrong(firmware: Firmware, c: &Lent) -> bool {
    !firmware.takes_key_of(c.key.len())
}

/// Of 4: "a part not a multiple of 4 bytes, above" the firmware's limit, "or the checkpoint longer than a half".
fn parts_wrong(firmware: Firmware, c: &Lent) -> bool {
    let wrong = |part: &[u8]| part.len() % 4 != 0 || part.len() > firmware.part_limit;
    let length = firmware.form.empty() + c.open_part.len() + c.secret.len();
    wrong(&c.open_part) || wrong(&c.secret) || length > c.fram.len() / 2
}

/// A.2: "18 packet number too large, after 4".
fn packet_wrong(firmware: Firmware, c: &Lent) -> bool {
    firmware.form == Form::Longer && c.packet > LARGEST_PACKET
}

/// Of 4: "staging … too short", for it is "at least one half".
fn staging_short(c: &Lent) -> bool {
    c.staging.len() < c.fram.len() / 2
}

/// 6: "wholly blank"; 7: "not readable".
fn newest_record(c: &Lent) -> Result<Newest, u32> {
    match read_ring(c.pages, c.slots, &c.ring) {
        Reading::WhollyBlank => Err(6),
        Reading::NotReadable => Err(7),
        Reading::Newest(newest) => Ok(newest),
    }
}

/// 14: "job done; length not a multiple of 4, below 44 or above the half; page, slot, half or word out of its range; or
/// at a record the target is not blank". A.2: "14 takes 48 for 44".
fn job_wrong(firmware: Firmware, job: &Job, c: &mut Lent) -> bool {
    let length_wrong = job.length % 4 != 0 || job.length < firmware.form.empty() || job.length > c.fram.len() / 2;
    let target_wrong = job.page >= c.pages || job.slot >= c.slots || job.half > 1;
    if length_wrong || target_wrong {
        return true;
    }
    match job.phase {
        Phase::EraseFirst(page) | Phase::EraseAfter(page) => page >= c.pages,
        Phase::Words(word) => word >= job.length / 4,
        Phase::Record => !blank(slot_at(job.page, job.slot, c.slots).of(&mut c.ring)),
        Phase::Done => true,
    }
}

// Jobs and sessions.

#[derive(Clone, Copy, Debug, PartialEq)]
pub enum Phase {
    EraseFirst(usize),
    Words(usize),
    Record,
    EraseAfter(usize),
    Done,
}

#[derive(Clone, Copy, Debug, PartialEq)]
pub enum Origin {
    Save,
    PowerUp,
}

/// "It also holds whether it is a save or a power-up, half, length, target, nonce and its checkpoint's own tag." A.2: and
/// restarts and packet number, which are 0 here for the older form's job.
#[derive(Clone, Debug, PartialEq)]
pub struct Job {
    pub phase: Phase,
    pub origin: Origin,
    pub half: usize,
    pub length: usize,
    pub page: usize,
    pub slot: usize,
    pub nonce: [u8; 12],
    pub tag: [u8; 16],
    pub restarts: u32,
    pub packet: u32,
}

/// How many bytes the calls for C take for a job, of firmware that writes this form.
pub fn job_length(form: Form) -> usize {
    match form {
        Form::Older => 56,
        Form::Longer => 64,
    }
}

/// How many bytes the calls for C take for a session.
pub fn session_length(form: Form) -> usize {
    match form {
        Form::Older => 40,
        Form::Longer => 48,
    }
}

/// The last words of a job and of a session.
fn restarts_and_packet(form: Form, restarts: u32, packet: u32) -> Vec<u8> {
    match form {
        Form::Older => vec![],
        Form::Longer => [restarts.to_be_bytes(), packet.to_be_bytes()].concat(),
    }
}

impl Job {
    pub fn to_bytes(&self, form: Form) -> Vec<u8> {
        let (phase, at) = match self.phase {
            Phase::EraseFirst(page) => (1, page),
            Phase::Words(word) => (2, word),
            Phase::Record => (3, 0),
            Phase::EraseAfter(page) => (4, page),
            Phase::Done => (5, 0),
        };
        let origin = match self.origin {
            Origin::Save => 1,
            Origin::PowerUp => 2,
        };
        let mut bytes = Vec::new();
        for number in [phase, at, origin, self.half, self.length, self.page, self.slot] {
            bytes.extend((number as u32).to_be_bytes());
        }
        bytes.extend(self.nonce);
        bytes.extend(self.tag);
        bytes.extend(restarts_and_packet(form, self.restarts, self.packet));
        bytes
    }

    /// None for bytes that are no job.
    pub fn from_bytes(form: Form, bytes: &[u8]) -> Option<Job> {
        if bytes.len() != job_length(form) {
            return None;
        }
        let field = |i: usize| number(&bytes[4 * i..4 * i + 4]) as usize;
        Some(Job {
            phase: match (field(0), field(1)) {
                (1, page) => Phase::EraseFirst(page),
                (2, word) => Phase::Words(word),
                (3, _) => Phase::Record,
                (4, page) => Phase::EraseAfter(page),
                (5, _) => Phase::Done,
                _ => return None,
            },
            origin: match field(2) {
                1 => Origin::Save,
                2 => Origin::PowerUp,
                _ => return None,
            },
            half: field(3),
            length: field(4),
            page: field(5),
            slot: field(6),
            nonce: bytes[28..40].try_into().unwrap(),
            tag: bytes[40..56].try_into().unwrap(),
            restarts: if form == Form::Longer { number(&bytes[56..60]) } else { 0 },
            packet: if form == Form::Longer { number(&bytes[60..64]) } else { 0 },
        })
    }

    pub fn record(&self) -> [u8; 16] {
        record(&self.nonce, self.half)
    }

    /// The word of staging that the phase names.
    pub fn staged<'a>(&self, staging: &'a [u8]) -> &'a [u8] {
        match self.phase {
            Phase::Words(word) => &staging[4 * word..4 * word + 4],
            _ => &[],
        }
    }
}

/// "the new session: page, slot, record and tag"; A.2: and restarts and packet number, which are 0 here for the older
/// form's session.
#[derive(Clone, Debug, PartialEq)]
pub struct Session {
    pub page: usize,
    pub slot: usize,
    pub record: [u8; 16],
    pub tag: [u8; 16],
    pub restarts: u32,
    pub packet: u32,
}

impl Session {
    pub fn to_bytes(&self, form: Form) -> Vec<u8> {
        let mut bytes = Vec::new();
        bytes.extend((self.page as u32).to_be_bytes());
        bytes.extend((self.slot as u32).to_be_bytes());
        bytes.extend(self.record);
        bytes.extend(self.tag);
        bytes.extend(restarts_and_packet(form, self.restarts, self.packet));
        bytes
    }

    /// None for bytes that are no session.
    pub fn from_bytes(form: Form, bytes: &[u8]) -> Option<Session> {
        if bytes.len() != session_length(form) {
            return None;
        }
        Some(Session {
            page: number(&bytes[0..4]) as usize,
            slot: number(&bytes[4..8]) as usize,
            record: bytes[8..24].try_into().unwrap(),
            tag: bytes[24..40].try_into().unwrap(),
            restarts: if form == Form::Longer { number(&bytes[40..44]) } else { 0 },
            packet: if form == Form::Longer { number(&bytes[44..48]) } else { 0 },
        })
    }
}

/// "A start seals into a staging buffer … and answers a job." "Bytes of staging … behind what is named keep their
/// contents." "Erase first occurs only in a power-up with a pending page."
fn start(
    c: &mut Lent,
    origin: Origin,
    checkpoint: &Checkpoint,
    pending: Option<usize>,
    half: usize,
    target: (usize, usize),
) {
    let sealed = checkpoint.sealed(&c.key);
    c.staging[..sealed.len()].copy_from_slice(&sealed);
    let job = Job {
        phase: match pending {
            Some(page) => Phase::EraseFirst(page),
            None => Phase::Words(0),
        },
        origin,
        half,
        length: sealed.len(),
        page: target.0,
        slot: target.1,
        nonce: checkpoint.nonce,
        tag: tag_of(&sealed),
        restarts: checkpoint.restarts,
        packet: checkpoint.packet,
    };
    c.job = job.to_bytes(checkpoint.form);
}

// Stores.

/// A stretch of a memory.
#[derive(Clone, Copy)]
pub struct Stretch {
    pub at: usize,
    pub length: usize,
}

impl Stretch {
    pub fn of<'a>(&self, memory: &'a mut [u8]) -> &'a mut [u8] {
        &mut memory[self.at..self.at + self.length]
    }
}

pub fn page_at(page: usize, slots: usize) -> Stretch {
    Stretch { at: 16 * slots * page, length: 16 * slots }
}

pub fn slot_at(page: usize, slot: usize, slots: usize) -> Stretch {
    Stretch { at: 16 * (slots * page + slot), length: 16 }
}

/// The one store that a job's phase names, and where: pages and slots of the ring, words of the FRAM.
pub enum Store {
    Erase(Stretch),
    Word(Stretch),
    Record(Stretch),
}

/// Of a job that is not done.
pub fn next_store(job: &Job, slots: usize, fram_length: usize) -> Store {
    match job.phase {
        Phase::EraseFirst(page) | Phase::EraseAfter(page) => Store::Erase(page_at(page, slots)),
        Phase::Words(word) => Store::Word(Stretch { at: job.half * fram_length / 2 + 4 * word, length: 4 }),
        Phase::Record => Store::Record(slot_at(job.page, job.slot, slots)),
        Phase::Done => panic!("a job that is done has no store"),
    }
}
