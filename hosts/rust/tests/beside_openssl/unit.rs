//! A unit under demand 3: its memories, what it was handed, and the book that is told of each call and cut. It has the
//! firmware of the keeper, or up to some cut an older one (document 02, A.2 and A.5). Its key has one length throughout its
//! life (A.8); firmware that does not take it stops every start and every look with 3.

use crate::book::{self, Book, Cut};
use crate::compare::{self, call, calls_in_a_row};
use crate::firmware::{Firmware, KEEPER};
use crate::layout::{blank, half_of, read_ring, Form, Reading, LARGEST_PACKET};
use crate::operations::*;
use crate::random::Random;
use std::rc::Rc;

#[derive(Clone, Debug)]
pub struct Setup {
    pub pages: usize,
    pub slots: usize,
    pub fram: usize,
    /// The firmware that the unit begins with.
    pub firmware: Firmware,
    pub key_length: usize,
    pub seed: u64,
}

/// How much longer than they must be the buffers are at the most.
const MOST_SPARE: usize = 20;

#[derive(Clone)]
pub struct Unit {
    pub firmware: Firmware,
    /// The memories, the key and the buffers, as the last call or cut left them.
    pub lent: Lent,
    pub book: Book,
    /// Every session handed out.
    pub sessions: Vec<Vec<u8>>,
    /// The last jobs handed out.
    pub jobs: Vec<Vec<u8>>,
    /// How many starts did not stop.
    starts: usize,
    nonces: Nonces,
    /// What state buffers hold at first.
    noise: Rc<Vec<u8>>,
    random: Random,
}

/// Nonces of one history: no two are equal, and any two differ in one or two bytes only.
#[derive(Clone)]
struct Nonces {
    base: [u8; 12],
    at: usize,
}

impl Nonces {
    fn new(random: &mut Random) -> Nonces {
        let base = match random.below(4) {
            0 => [0xFF; 12],
            1 => [0; 12],
            _ => random.bytes(12).try_into().unwrap(),
        };
        Nonces { base, at: random.below(11) }
    }

    fn numbered(&self, i: usize) -> Vec<u8> {
        let mut nonce = self.base.to_vec();
        nonce[self.at] ^= (i >> 8) as u8;
        nonce[self.at + 1] ^= i as u8;
        nonce
    }
}

/// The packet number that a save brings, beside the entry's.
#[derive(Clone, Copy, Debug, PartialEq)]
pub enum Heard {
    Same,
    More(u32),
    Less(u32),
    Number(u32),
}

/// What a cut leaves of the store cut into. Document 01: the word any bytes, the page any bytes, "a record's slot the
/// whole record or still blank". Of a record `Whole` leaves it whole, all others leave the slot blank.
#[derive(Clone, Copy, Debug, PartialEq)]
pub enum Left {
    Nothing,
    Whole,
    Every(u8),
    /// Each byte as it was or as it was to be.
    Torn(u64),
    Any(u64),
    /// Records from the front on, and any bytes behind them.
    Records(u64),
}

impl Left {
    pub fn bytes(self, old: &[u8], new: &[u8]) -> Vec<u8> {
        match self {
            Left::Nothing => old.to_vec(),
            Left::Whole => new.to_vec(),
            Left::Every(byte) => vec![byte; old.len()],
            Left::Torn(seed) => {
                let mut random = Random::new(seed);
                old.iter().zip(new).map(|(old, new)| if random.chance(1, 2) { *old } else { *new }).collect()
            }
            Left::Any(seed) => Random::new(seed).bytes(old.len()),
            Left::Records(seed) => {
                let mut random = Random::new(seed);
                let mut bytes = random.bytes(old.len());
                let records = random.below(old.len() / 16 + 1);
                for slot in bytes.chunks_exact_mut(16).take(records) {
                    slot[12..].copy_from_slice(&[0x40, 0, 0, random.below(2) as u8]);
                }
                bytes
            }
        }
    }
}

/// Fails the history with these words if the condition does not hold.
pub fn check(holds: bool, words: impl FnOnce() -> String) -> Result<(), String> {
    if holds {
        Ok(())
    } else {
        Err(words())
    }
}

pub fn stopped(answer: u32) -> bool {
    (1..=18).contains(&answer)
}

impl Unit {
    /// A blank ring and a FRAM of any bytes.
    pub fn new(setup: &Setup) -> Unit {
        let mut random = Random::new(setup.seed);
        let key = random.bytes(setup.key_length);
        let lent = Lent {
            pages: setup.pages,
            slots: setup.slots,
            ring: vec![0xFF; 16 * setup.pages * setup.slots],
            fram: random.bytes(setup.fram),
            key: key.clone(),
            nonce: vec![0; 12],
            starting_tag: random.bytes(16),
            session: random.bytes(session_length(setup.firmware.form)),
            packet: 0,
            open_part: vec![],
            secret: vec![],
            staging: vec![],
            state: Rc::default(),
            job: vec![],
            secret_len: random.below(5000),
            restarts: random.next() as u32,
            open_start: random.below(5000),
            open_len: random.below(5000),
        };
        let nonces = Nonces::new(&mut random);
        let book = Book::new(&key, setup.slots);
        let firmware = setup.firmware;
        let noise = Rc::new(random.bytes(KEEPER.part_limit + MOST_SPARE));
        let mut unit = Unit { firmware, lent, book, sessions: vec![], jobs: vec![], starts: 0, nonces, noise, random };
        unit.restarted();
        unit
    }

    /// A nonce that no start used that did not stop.
    pub fn new_nonce(&self) -> Vec<u8> {
        self.nonces.numbered(self.starts)
    }

    /// The nonce of the start before, or `back` starts before that.
    pub fn used_nonce(&self, back: usize) -> Vec<u8> {
        self.nonces.numbered(self.starts.saturating_sub(1 + back))
    }

    /// A session that was handed out, the last one or `back` before it; none at all is one of zeros.
    pub fn session(&self, back: usize) -> Vec<u8> {
        self.sessions.iter().rev().nth(back).cloned().unwrap_or(vec![0; session_length(self.firmware.form)])
    }

    /// The packet number that is so heard.
    pub fn packet(&self, heard: Heard) -> u32 {
        let last = self.book.entry.as_ref().map_or(0, |entry| entry.packet);
        match heard {
            Heard::Same => last,
            Heard::More(more) => last.saturating_add(more).min(LARGEST_PACKET),
            Heard::Less(less) => last.saturating_sub(less),
            Heard::Number(number) => number,
        }
    }

    /// The call, by the unit's firmware: the keeper's, compared with the documents, or an older one's, worked out here.
    fn call(&mut self, operation: Operation) -> Result<u32, String> {
        let answer = match self.firmware {
            KEEPER => call(operation, &mut self.lent)?,
            older => perform(older, operation, &mut self.lent),
        };
        if operation != Operation::Advance && !self.takes_key() {
            check(answer == 3, || format!("the firmware does not take the key, and {operation:?} answers {answer}"))?;
            self.saw("3 by firmware that does not take the key");
        }
        Ok(answer)
    }

    /// Notes that this was met with.
    pub fn saw(&self, what: impl Into<String>) {
        compare::saw(self.lent.key.len(), what);
    }

    /// Whether its firmware takes a key as long as its own.
    pub fn takes_key(&self) -> bool {
        self.firmware.takes_key_of(self.lent.key.len())
    }

    fn started(&mut self) {
        self.starts += 1;
        self.handed_out();
    }

    fn handed_out(&mut self) {
        self.jobs.push(self.lent.job.clone());
        if self.jobs.len() > 40 {
            self.jobs.remove(0);
        }
    }

    pub fn first_save(&mut self, heard: Heard, open_part: Vec<u8>, secret: Vec<u8>) -> Result<(), String> {
        self.lent.nonce = self.new_nonce();
        self.lent.starting_tag = self.random.bytes(16);
        self.lent.packet = self.packet(heard);
        (self.lent.open_part, self.lent.secret) = (open_part, secret);
        if !stopped(self.call(Operation::FirstSave)?) {
            let c = &self.lent;
            self.book.first_save(self.firmware.form, &c.nonce, &c.starting_tag, c.packet, &c.open_part, &c.secret);
            self.started();
        }
        Ok(())
    }

    pub fn save(
        &mut self,
        session_back: usize,
        heard: Heard,
        open_part: Vec<u8>,
        secret: Vec<u8>,
    ) -> Result<(), String> {
        self.lent.nonce = self.new_nonce();
        let session = self.session(session_back);
        let older_form = session.len() != session_length(self.firmware.form);
        let buffer = std::mem::replace(&mut self.lent.session, session);
        self.lent.packet = self.packet(heard);
        (self.lent.open_part, self.lent.secret) = (open_part, secret);
        let answer = self.call(Operation::Save)?;
        if older_form {
            check(stopped(answer), || format!("the session is of the older form, and a save answers {answer}"))?;
            self.lent.session = buffer;
            if answer == 3 {
                self.saw("3 for a session of the older form");
            }
        }
        if !stopped(answer) {
            let c = &self.lent;
            let entry = self.book.entry.as_ref().ok_or("a save that did not stop, and nothing was recorded")?;
            if self.firmware.form == Form::Longer && entry.restarts > 0 {
                self.saw(if c.packet > entry.packet { "restarts set to 0" } else { "restarts carried over" });
            }
            self.book.save(self.firmware.form, &c.nonce, c.packet, &c.open_part, &c.secret);
            self.started();
        }
        Ok(())
    }

    /// Demand 3: "stop 6 exactly if nothing was recorded, and 13 exactly if 8 power-ups were recorded", counted by A.2
    /// "since the last record that set restarts to 0"; "a resealing that outgrows the half gives 4, after 13, and the cut
    /// rule then promises that 4 instead of resuming". Otherwise the secret part of the entry is at the front of the state
    /// buffer.
    pub fn power_up(&mut self) -> Result<u32, String> {
        self.lent.nonce = self.new_nonce();
        let answer = self.call(Operation::PowerUp)?;
        if !self.takes_key() {
            return Ok(answer);
        }
        let Some(entry) = &self.book.entry else {
            check(answer == 6, || format!("nothing was recorded, and a power-up answers {answer}"))?;
            return Ok(answer);
        };
        let outgrows = entry.length_in(self.firmware.form) > self.lent.fram.len() / 2;
        let resealed = entry.form != self.firmware.form;
        if self.book.power_ups == 8 {
            check(answer == 13, || format!("8 power-ups were recorded, and a power-up answers {answer}"))?;
            if resealed {
                self.saw(if outgrows { "13 before the resealing's 4" } else { "13 for the older form" });
            }
        } else if outgrows {
            check(answer == 4, || format!("the entry outgrows its half, and a power-up answers {answer}"))?;
            self.saw("4 for a resealing that outgrows the half");
        } else {
            check(answer == DONE, || format!("a checkpoint was recorded, and a power-up answers {answer}"))?;
            let length = self.lent.secret_len;
            check(length == entry.secret.len(), || format!("the secret part's length is {length}"))?;
            check(self.lent.state[..length] == entry.secret, || "another secret part in the state buffer".into())?;
            if resealed {
                self.saw("the older form resealed");
            }
            if entry.open_part.len().max(length) == KEEPER.part_limit {
                self.saw("a part of 32,768 bytes resumed");
            }
            self.book.power_up(self.firmware.form, &self.lent.nonce);
            self.started();
        }
        Ok(answer)
    }

    /// One advance of the job handed out last.
    pub fn advance(&mut self) -> Result<u32, String> {
        self.advances(1)
    }

    /// So many advances of the job handed out last, at most those for its stores to come; the bytes are compared after the
    /// last. The last of the stores to come answers 'saved' or 'restored' with a session, every other 'going on'; where
    /// there are none an advance stops.
    pub fn advances(&mut self, times: usize) -> Result<u32, String> {
        let stores = self.book.to_come().len();
        if stores == 0 {
            let answer = self.call(Operation::Advance)?;
            check(stopped(answer), || format!("no store was to come, and an advance answers {answer}"))?;
            return Ok(answer);
        }
        let times = times.min(stores);
        let answers = match self.firmware {
            KEEPER => calls_in_a_row(Operation::Advance, times, &mut self.lent)?,
            older => (0..times).map(|_| perform(older, Operation::Advance, &mut self.lent)).collect(),
        };
        for answer in &answers {
            self.book.advance();
            let expected = match self.book.origin() {
                _ if !self.book.to_come().is_empty() => GOING_ON,
                Some(Origin::Save) => SAVED,
                _ => RESTORED,
            };
            let stores = self.book.to_come().len();
            check(*answer == expected, || {
                format!("{stores} stores are still to come, and an advance answers {answer}")
            })?;
        }
        if times == stores {
            self.sessions.push(self.lent.session.clone());
        }
        self.handed_out();
        Ok(answers[times - 1])
    }

    /// How many advances to make at a time: one, but more in a long checkpoint, whose words are much alike, and in a FRAM
    /// that takes long to compare.
    pub fn stride(&self) -> usize {
        1 + 8 * (self.book.to_come().len() / 128 + self.lent.fram.len() / 65_536)
    }

    /// Look stops with 6 exactly if nothing was recorded; otherwise it sees the entry.
    pub fn look(&mut self) -> Result<(), String> {
        let answer = self.call(Operation::Look)?;
        if !self.takes_key() {
            return Ok(());
        }
        let Some(entry) = &self.book.entry else {
            return check(answer == 6, || format!("nothing was recorded, and look answers {answer}"));
        };
        let c = &self.lent;
        check(answer == DONE && c.restarts == entry.restarts, || format!("look answers {answer}, {}", c.restarts))?;
        let seen = &c.fram[c.open_start..c.open_start + c.open_len];
        check(seen == entry.open_part, || "look shows another open part".into())
    }

    /// A cut between two calls.
    pub fn cut(&mut self) {
        self.book.cut(Cut::Between);
        self.restarted();
    }

    /// A cut into the next store of the job; between two calls where there is none.
    pub fn cut_into(&mut self, left: Left) -> Result<(), String> {
        let Some(to_come) = self.book.to_come().first().copied() else {
            self.cut();
            return Ok(());
        };
        let c = &mut self.lent;
        let job = Job::from_bytes(self.firmware.form, &c.job).ok_or("the job handed out last is none")?;
        let cut = match (to_come, next_store(&job, c.slots, c.fram.len())) {
            (book::Store::Word, Store::Word(word)) => {
                let word = word.of(&mut c.fram);
                word.copy_from_slice(&left.bytes(word, job.staged(&c.staging)));
                Cut::IntoWord
            }
            (book::Store::Record, Store::Record(slot)) => {
                if left == Left::Whole {
                    slot.of(&mut c.ring).copy_from_slice(&job.record());
                }
                Cut::IntoRecord { whole: left == Left::Whole }
            }
            (book::Store::Erase, Store::Erase(page)) => {
                let page = page.of(&mut c.ring);
                page.copy_from_slice(&left.bytes(page, &vec![0xFF; page.len()]));
                Cut::IntoErase { blank: blank(page) }
            }
            _ => return Err(format!("the book has a {to_come:?} to come, the job is at {:?}", job.phase)),
        };
        self.book.cut(cut);
        self.restarted();
        Ok(())
    }

    /// "The job is gone", and with it what the buffers held; they may have other lengths now.
    fn restarted(&mut self) {
        let more = self.random.pick(&[0, 0, 1, MOST_SPARE]);
        self.lent.job = self.random.bytes(job_length(self.firmware.form));
        self.lent.staging = self.random.bytes(self.lent.fram.len() / 2 + more);
        self.lent.state = Rc::new(self.noise[..self.firmware.part_limit + more].to_vec());
    }

    /// A cut between two calls, and a later firmware from there on: "up to some cut the list's calls may be those of the
    /// older one, whose sessions are not used after it". Those of the older form are kept, for a save that is given one of
    /// them is a refused call.
    pub fn update(&mut self, firmware: Firmware) {
        if firmware != self.firmware {
            self.sessions.retain(|session| session.len() != session_length(firmware.form));
        }
        self.firmware = firmware;
        self.lent.session = self.random.bytes(session_length(firmware.form));
        self.cut();
    }

    /// Demand 3 at the end of the list: a power-up of the keeper's on copies of the memories, with a new nonce and other
    /// buffers. Look shows what an older firmware left.
    pub fn trial(&self) -> Result<(), String> {
        let mut unit = self.clone();
        unit.update(KEEPER);
        if self.firmware != KEEPER {
            unit.look().map_err(|words| format!("a look at this point: {words}"))?;
        }
        unit.power_up_with_a_used_nonce().map_err(|words| format!("a power-up with a used nonce: {words}"))?;
        unit.power_up_to_the_end().map_err(|words| format!("a power-up at this point: {words}"))
    }

    /// A.6: a power-up with the nonce of the newest record. A unit that is worn answers 13 all the same.
    fn power_up_with_a_used_nonce(&mut self) -> Result<(), String> {
        let Some(entry) = &self.book.entry else { return Ok(()) };
        self.lent.nonce = entry.nonce.to_vec();
        let expected = if self.book.power_ups == 8 { 13 } else { 10 };
        let answer = self.call(Operation::PowerUp)?;
        check(answer == expected, || format!("it answers {answer}, not {expected}"))?;
        if answer == 13 {
            self.saw("13 though the nonce is used");
        }
        Ok(())
    }

    /// A.8: a power-up and a look of the keeper's on copies of the memories, with keys of other lengths that are made of the
    /// unit's: its front, or itself repeated.
    pub fn trial_of_other_keys(&self) -> Result<(), String> {
        let mut unit = self.clone();
        unit.update(KEEPER);
        unit.lent.nonce = unit.new_nonce();
        let where_taken = if self.book.entry.is_some() { 12 } else { 6 };
        for length in [16, 24, 32].into_iter().filter(|length| *length != self.lent.key.len()) {
            unit.lent.key = self.lent.key.iter().copied().cycle().take(length).collect();
            let expected = KEEPER.or_3(length, where_taken);
            for operation in [Operation::PowerUp, Operation::Look] {
                let answer = unit.call(operation)?;
                check(answer == expected, || {
                    format!("{operation:?} with a key of {length} bytes answers {answer}, not {expected}")
                })?;
            }
            if expected == 12 {
                self.saw("12 for a key of the other length");
            }
        }
        Ok(())
    }

    /// A power-up which, if it is not to stop, resumes the entry: "Of one advance for each store to come, with only
    /// refused calls between, the last answers 'restored' and every other 'going on'. The newest record then has the
    /// power-up's nonce, and the half which that record names begins with the book's new entry in its sealed layout, byte
    /// for byte."
    pub fn power_up_to_the_end(&mut self) -> Result<(), String> {
        if stopped(self.power_up()?) {
            return Ok(());
        }
        let nonce = self.lent.nonce.clone();
        while !self.book.to_come().is_empty() {
            if self.random.chance(1, 8) {
                self.lent.nonce = self.random.bytes(12);
                let answer = self.call(Operation::FirstSave)?;
                check(stopped(answer), || format!("the ring is in use, and a first save answers {answer}"))?;
            }
            // It compares the answers with 'going on' and 'restored'.
            self.advances(self.stride())?;
        }
        let c = &self.lent;
        let Reading::Newest(newest) = read_ring(c.pages, c.slots, &c.ring) else {
            return Err("restored, and the ring has no newest record".into());
        };
        check(newest.record[..12] == nonce, || "restored, and the newest record has another nonce".into())?;
        let entry = self.book.entry.as_ref().expect("recorded");
        let sealed = entry.sealed(&c.key);
        let found = &half_of(&c.fram, newest.half)[..sealed.len()];
        check(found == sealed, || "restored, and the half does not begin with the entry".into())?;
        check(c.state[..entry.secret.len()] == entry.secret, || "restored, and the state has changed".into())
    }
}
