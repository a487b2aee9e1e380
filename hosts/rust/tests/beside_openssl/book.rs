//! Document 01, "Runs, cuts and the book", with document 02's A.2: "The book's checkpoints also have the packet number (0
//! in the older form), and the head and length of the form that the calls which made them write". The book never sees the
//! memories.

use crate::layout::{Checkpoint, Form};
use crate::operations::Origin;

#[derive(Clone, Copy, Debug, PartialEq)]
pub enum Store {
    Erase,
    Word,
    Record,
}

/// Where a cut fell, and what it left of the store cut into.
#[derive(Clone, Copy, Debug, PartialEq)]
pub enum Cut {
    Between,
    IntoWord,
    IntoRecord { whole: bool },
    IntoErase { blank: bool },
}

#[derive(Clone)]
struct Draft {
    checkpoint: Checkpoint,
    origin: Origin,
    /// Whether its record sets restarts to 0.
    sets_to_0: bool,
    to_come: Vec<Store>,
}

/// "It holds an entry (at first none), the count n of records (0), whether an erase is owed (no) and a draft (none)."
#[derive(Clone)]
pub struct Book {
    key: Vec<u8>,
    slots: usize,
    pub entry: Option<Checkpoint>,
    pub n: usize,
    pub owed: bool,
    draft: Option<Draft>,
    /// For demand 3: how many power-ups were recorded; "It counts power-ups since the last record that set restarts to 0."
    pub power_ups: usize,
}

impl Book {
    pub fn new(key: &[u8], slots: usize) -> Book {
        Book { key: key.to_vec(), slots, entry: None, n: 0, owed: false, draft: None, power_ups: 0 }
    }

    // "A start that does not stop makes a new draft under its nonce". "A stop changes nothing": the book is told of
    // calls that did not stop only.

    /// "for a first save the starting tag instead"; A.2: "A first save stores its number with restarts 0."
    pub fn first_save(
        &mut self,
        form: Form,
        nonce: &[u8],
        starting_tag: &[u8],
        packet: u32,
        open_part: &[u8],
        secret: &[u8],
    ) {
        let checkpoint = Checkpoint {
            form,
            packet: if form == Form::Longer { packet } else { 0 },
            open_part: open_part.to_vec(),
            secret: secret.to_vec(),
            restarts: 0,
            previous_tag: starting_tag.try_into().unwrap(),
            nonce: nonce.try_into().unwrap(),
        };
        self.draft(checkpoint, Origin::Save, true);
    }

    /// "for a save its parts, restarts 0 and the entry's tag as previous one"; A.2: "a save's restarts and number in it are
    /// set as here": "Above the session's number it sets restarts to 0; otherwise restarts carry over, and the larger
    /// number is stored." The session's number is the entry's.
    pub fn save(&mut self, form: Form, nonce: &[u8], packet: u32, open_part: &[u8], secret: &[u8]) {
        let entry = self.entry.as_ref().expect("a save that did not stop, and no entry");
        let sets_to_0 = form == Form::Older || packet > entry.packet;
        let checkpoint = Checkpoint {
            form,
            packet: if form == Form::Longer { packet.max(entry.packet) } else { 0 },
            open_part: open_part.to_vec(),
            secret: secret.to_vec(),
            restarts: if sets_to_0 { 0 } else { entry.restarts },
            previous_tag: entry.tag(&self.key),
            nonce: nonce.try_into().unwrap(),
        };
        self.draft(checkpoint, Origin::Save, sets_to_0);
    }

    /// "for a power-up the entry's parts, restarts one more and the entry's tag"; A.2: "A power-up keeps the number."
    pub fn power_up(&mut self, form: Form, nonce: &[u8]) {
        let entry = self.entry.as_ref().expect("a power-up that did not stop, and no entry");
        let checkpoint = Checkpoint {
            form,
            restarts: entry.restarts + 1,
            previous_tag: entry.tag(&self.key),
            nonce: nonce.try_into().unwrap(),
            ..entry.clone()
        };
        self.draft(checkpoint, Origin::PowerUp, false);
    }

    /// "Its stores to come: an erase if owed, a word for each 4 bytes of length, the record, an erase if n is above 0 and
    /// a multiple of S."
    fn draft(&mut self, checkpoint: Checkpoint, origin: Origin, sets_to_0: bool) {
        let mut to_come = Vec::new();
        if self.owed {
            to_come.push(Store::Erase);
        }
        to_come.extend(vec![Store::Word; checkpoint.length() / 4]);
        to_come.push(Store::Record);
        if self.n > 0 && self.n % self.slots == 0 {
            to_come.push(Store::Erase);
        }
        self.draft = Some(Draft { checkpoint, origin, sets_to_0, to_come });
    }

    /// The stores that the draft has to come.
    pub fn to_come(&self) -> &[Store] {
        self.draft.as_ref().map_or(&[], |draft| &draft.to_come)
    }

    /// Whether the draft is a save's or a power-up's.
    pub fn origin(&self) -> Option<Origin> {
        self.draft.as_ref().map(|draft| draft.origin)
    }

    /// "An advance takes the first store off. After an erase none is owed. With the record the draft is recorded: it
    /// becomes the entry, n grows by 1, and an erase is owed if one is still to come."
    pub fn advance(&mut self) {
        let draft = self.draft.as_mut().expect("an advance that did not stop, and no draft");
        match draft.to_come.remove(0) {
            Store::Word => (),
            Store::Erase => self.owed = false,
            Store::Record => {
                self.entry = Some(draft.checkpoint.clone());
                self.n += 1;
                self.owed = draft.to_come.contains(&Store::Erase);
                if draft.sets_to_0 {
                    self.power_ups = 0;
                }
                if draft.origin == Origin::PowerUp {
                    self.power_ups += 1;
                }
            }
        }
    }

    /// "A cut into a record that left it whole counts as that record, one into an erase that left the page blank as that
    /// erase. Every cut then drops the draft and its stores."
    pub fn cut(&mut self, cut: Cut) {
        if matches!(cut, Cut::IntoRecord { whole: true } | Cut::IntoErase { blank: true }) {
            self.advance();
        }
        self.draft = None;
    }
}
