//! The firmwares that a unit may have: document 01's, those of document 02's A.2, A.5, A.6 and A.7, and that of A.8, which
//! is the keeper's.

use crate::layout::Form;

/// What tells them apart. Lengths are in bytes.
#[derive(Clone, Copy, Debug, PartialEq, Eq)]
pub struct Firmware {
    pub name: &'static str,
    /// The head that it writes.
    pub form: Form,
    /// The limit of each part, written or read, and the least state buffer.
    pub part_limit: usize,
    pub fram_limit: usize,
    /// The lengths of a key that it takes; stop 3 for any other.
    pub key_lengths: &'static [usize],
    /// At power-up 11, 12 and 13 go before 10.
    pub half_first: bool,
    /// One save, with a starting tag or a session, for first save and save.
    pub one_save: bool,
}

pub const DOCUMENT_01: Firmware = Firmware {
    name: "document 01's",
    form: Form::Older,
    part_limit: 4096,
    fram_limit: 131_072,
    key_lengths: &[32],
    half_first: false,
    one_save: false,
};

pub const A_2: Firmware = Firmware { name: "A.2's", form: Form::Longer, ..DOCUMENT_01 };

/// A.5: "Raise each part to 32,768 bytes (8,192 words) and the FRAM image to 262,144. The power-up's state buffer must be
/// at least 32,768."
pub const A_5: Firmware = Firmware { name: "A.5's", part_limit: 32_768, fram_limit: 262_144, ..A_2 };

/// A.6: "At power-up 11, 12 and 13 now go before 10, and the resealing's 4 goes after 10."
pub const A_6: Firmware = Firmware { name: "A.6's", half_first: true, ..A_5 };

/// A.7: "Merge first save and save: the caller gives either a starting tag or a session."
pub const A_7: Firmware = Firmware { name: "A.7's", one_save: true, ..A_6 };

/// A.8: "Key expansion, sealing, opening and all above them take 16 or 32 bytes".
pub const KEEPER: Firmware = Firmware { name: "A.8's", key_lengths: &[16, 32], ..A_7 };

/// In the order in which a unit gets them.
pub const FIRMWARES: [Firmware; 6] = [DOCUMENT_01, A_2, A_5, A_6, A_7, KEEPER];

impl Firmware {
    pub fn takes_key_of(self, length: usize) -> bool {
        self.key_lengths.contains(&length)
    }

    /// This answer, or 3 where it does not take a key of this length.
    pub fn or_3(self, key_length: usize, answer: u32) -> u32 {
        if self.takes_key_of(key_length) {
            answer
        } else {
            3
        }
    }

    /// Those that a unit with this one may be updated to.
    pub fn later(self) -> &'static [Firmware] {
        let at = FIRMWARES.iter().position(|firmware| *firmware == self).unwrap();
        &FIRMWARES[at + 1..]
    }
}
