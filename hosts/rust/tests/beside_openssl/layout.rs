//! Document 01, "The nonce ring (flash)" and "A half of the FRAM", and document 02, A.2: reading a ring, and the bytes of a
//! checkpoint in its older and its longer form.

use crate::firmware::Firmware;
use crate::openssl;

/// A word of 32 bits, most significant byte first: the top two bits are its kind, the low 30 its value.
pub fn word(kind: u32, value: u32) -> [u8; 4] {
    (kind << 30 | value).to_be_bytes()
}

pub fn kind_and_value(bytes: &[u8]) -> (u32, u32) {
    let word = number(bytes);
    (word >> 30, word & 0x3FFF_FFFF)
}

/// Four bytes as a number, most significant first.
pub fn number(bytes: &[u8]) -> u32 {
    u32::from_be_bytes(bytes.try_into().unwrap())
}

// The nonce ring.

/// "P pages, 3 to 32, of S slots, 2 to 512; … the image is 16 × P × S bytes."
pub fn ring_size_wrong(pages: usize, slots: usize, ring: &[u8]) -> bool {
    !(3..=32).contains(&pages) || !(2..=512).contains(&slots) || ring.len() != 16 * pages * slots
}

/// "A blank slot is sixteen 0xFF." "A page is blank if all its slots are."
pub fn blank(bytes: &[u8]) -> bool {
    bytes.iter().all(|byte| *byte == 0xFF)
}

/// "A record is a 12-byte nonce and a place word of kind 1, value 0 (half A of the FRAM) or 1 (half B)."
pub fn record(nonce: &[u8], half: usize) -> [u8; 16] {
    [nonce, &word(1, half as u32)].concat().try_into().unwrap()
}

fn is_record(slot: &[u8]) -> bool {
    matches!(kind_and_value(&slot[12..]), (1, 0 | 1))
}

pub enum Reading {
    WhollyBlank,
    NotReadable,
    Newest(Newest),
}

/// The newest record and what goes with it.
pub struct Newest {
    pub page: usize,
    pub slot: usize,
    pub record: [u8; 16],
    pub half: usize,
    pub pending: Option<usize>,
    pub target: (usize, usize),
    /// The nonces in the records of the newest page.
    pub nonces: Vec<[u8; 12]>,
}

/// "A ring that is not wholly blank is readable if one page is not blank, or two are and one directly follows the other."
pub fn read_ring(pages: usize, slots: usize, ring: &[u8]) -> Reading {
    let page = |p: usize| &ring[16 * slots * p..16 * slots * (p + 1)];
    // "After page P−1 comes page 0."
    let after = |p: usize| (p + 1) % pages;
    let used: Vec<usize> = (0..pages).filter(|p| !blank(page(*p))).collect();
    // "The newest page is that one, or the follower." "The other non-blank page is pending."
    let (newest, pending) = match used[..] {
        [] => return Reading::WhollyBlank,
        [one] => (one, None),
        [a, b] if after(a) == b => (b, Some(a)),
        [a, b] if after(b) == a => (a, Some(b)),
        _ => return Reading::NotReadable,
    };
    // "Its slots from 0 up to some slot are records and the rest are blank, with at least one record, and exactly one
    // where two pages are not blank."
    let slots_of_page: Vec<&[u8]> = page(newest).chunks(16).collect();
    let records = slots_of_page.iter().take_while(|slot| is_record(slot)).count();
    let rest_blank = slots_of_page[records..].iter().all(|slot| blank(slot));
    if !rest_blank || records == 0 || pending.is_some() && records != 1 {
        return Reading::NotReadable;
    }
    // "The last record is the newest." "The next target is the following slot, or slot 0 of the following page."
    let last = slots_of_page[records - 1];
    Reading::Newest(Newest {
        page: newest,
        slot: records - 1,
        record: last.try_into().unwrap(),
        half: kind_and_value(&last[12..]).1 as usize,
        pending,
        target: if records < slots { (newest, records) } else { (after(newest), 0) },
        nonces: slots_of_page[..records].iter().map(|slot| slot[..12].try_into().unwrap()).collect(),
    })
}

// A half of the FRAM.

/// "The FRAM image is a multiple of 8 bytes, from 88 to" the firmware's limit, "cut into halves A and B."
pub fn fram_size_wrong(firmware: Firmware, fram: &[u8]) -> bool {
    fram.len() % 8 != 0 || !(88..=firmware.fram_limit).contains(&fram.len())
}

pub fn half_of(fram: &[u8], half: usize) -> &[u8] {
    let length = fram.len() / 2;
    &fram[half * length..(half + 1) * length]
}

/// The head of a checkpoint: document 01's, or A.2's: "The checkpoint begins with one more word, kind 0, the packet
/// number".
#[derive(Clone, Copy, Debug, PartialEq, Eq)]
pub enum Form {
    Older,
    Longer,
}

impl Form {
    /// Where the open part starts. Document 01: "at byte 28 of the half"; A.2: "all 32 head bytes".
    pub fn head(self) -> usize {
        match self {
            Form::Older => 28,
            Form::Longer => 32,
        }
    }

    /// A checkpoint with empty parts. Document 01: "44 bytes plus both parts"; A.2: "the length is then 48 plus parts".
    pub fn empty(self) -> usize {
        match self {
            Form::Older => 44,
            Form::Longer => 48,
        }
    }
}

/// A.2: "the packet number it last heard, 0 to 2^30 − 1".
pub const LARGEST_PACKET: u32 = 0x3FFF_FFFF;

#[derive(Clone, Debug, PartialEq)]
pub struct Checkpoint {
    pub form: Form,
    /// "(0 in the older form)"
    pub packet: u32,
    pub open_part: Vec<u8>,
    pub secret: Vec<u8>,
    pub restarts: u32,
    pub previous_tag: [u8; 16],
    pub nonce: [u8; 12],
}

impl Checkpoint {
    pub fn length(&self) -> usize {
        self.length_in(self.form)
    }

    /// How long it is when it is sealed in this form.
    pub fn length_in(&self, form: Form) -> usize {
        form.empty() + self.open_part.len() + self.secret.len()
    }

    /// The bytes at the front of a half: the head words, the previous checkpoint's tag, open part, sealed secret part,
    /// tag. "Associated data is the first 28 bytes and the open part; the plaintext is the secret part"; of the longer form
    /// "all 32 head bytes are associated data".
    pub fn sealed(&self, key: &[u8]) -> Vec<u8> {
        let mut bytes = Vec::new();
        match self.form {
            Form::Older => assert_eq!(self.packet, 0, "the older form has no packet number"),
            Form::Longer => bytes.extend(word(0, self.packet)),
        }
        bytes.extend(word(1, self.open_part.len() as u32 / 4));
        bytes.extend(word(2, self.secret.len() as u32 / 4));
        bytes.extend(word(3, self.restarts));
        bytes.extend(self.previous_tag);
        bytes.extend(&self.open_part);
        let (secret, tag) = openssl::seal(key, &self.nonce, &bytes, &self.secret);
        bytes.extend(secret);
        bytes.extend(tag);
        bytes
    }

    /// The standard's tag.
    pub fn tag(&self, key: &[u8]) -> [u8; 16] {
        tag_of(&self.sealed(key))
    }
}

/// The tag of a sealed checkpoint: its last 16 bytes.
pub fn tag_of(sealed: &[u8]) -> [u8; 16] {
    sealed[sealed.len() - 16..].try_into().unwrap()
}

/// The checkpoint at the front of a half with its own tag, or stop 11 or 12, as this firmware reads it.
pub fn open_half(firmware: Firmware, half: &[u8], key: &[u8], nonce: &[u8]) -> Result<(Checkpoint, [u8; 16]), u32> {
    let (first_kind, first_value) = kind_and_value(&half[0..4]);
    // "A first word of kind 1 means the older head, number 0, still read". Document 01's firmware knows no other.
    let (form, packet, words) = match (firmware.form, first_kind) {
        (Form::Older, _) | (Form::Longer, 1) => (Form::Older, 0, &half[..12]),
        (Form::Longer, 0) => (Form::Longer, first_value, &half[4..16]),
        // 11: "a head word's kind or value wrong, or the checkpoint longer than the half"
        _ => return Err(11),
    };
    let (open_kind, open_words) = kind_and_value(&words[0..4]);
    let (secret_kind, secret_words) = kind_and_value(&words[4..8]);
    let (restarts_kind, restarts) = kind_and_value(&words[8..12]);
    let most_words = firmware.part_limit as u32 / 4;
    if open_kind != 1 || open_words > most_words {
        return Err(11);
    }
    if secret_kind != 2 || secret_words > most_words {
        return Err(11);
    }
    if restarts_kind != 3 || restarts > 8 {
        return Err(11);
    }
    let open_end = form.head() + 4 * open_words as usize;
    let secret_end = open_end + 4 * secret_words as usize;
    if secret_end + 16 > half.len() {
        return Err(11);
    }
    // 12: "tag differs"
    let tag = &half[secret_end..secret_end + 16];
    let Some(secret) = openssl::open(key, nonce, &half[..open_end], &half[open_end..secret_end], tag) else {
        return Err(12);
    };
    let checkpoint = Checkpoint {
        form,
        packet,
        open_part: half[form.head()..open_end].to_vec(),
        secret,
        restarts,
        previous_tag: half[form.head() - 16..form.head()].try_into().unwrap(),
        nonce: nonce.try_into().unwrap(),
    };
    Ok((checkpoint, tag.try_into().unwrap()))
}

/// Document 01's rings M1 to M11, and four pages of which 0 and 2 are not blank.
#[test]
fn rings_of_the_bench_values() {
    let r = record(&[0; 12], 0);
    let ring = |pages: usize, slots: &[(usize, usize, [u8; 16])]| {
        let mut bytes = vec![0xFF; 16 * pages * 2];
        for (page, slot, content) in slots {
            bytes[32 * page + 16 * slot..][..16].copy_from_slice(content);
        }
        match read_ring(pages, 2, &bytes) {
            Reading::WhollyBlank => "6".to_string(),
            Reading::NotReadable => "7".to_string(),
            Reading::Newest(n) => {
                format!("page {} slot {} half {} pending {:?} target {:?}", n.page, n.slot, n.half, n.pending, n.target)
            }
        }
    };
    let mut one_zero = [0xFF; 16];
    one_zero[5] = 0;
    let wrong_place: [u8; 16] = [&[0; 12][..], &word(2, 0)].concat().try_into().unwrap();
    assert_eq!(ring(3, &[]), "6");
    assert_eq!(ring(3, &[(0, 0, r)]), "page 0 slot 0 half 0 pending None target (0, 1)");
    assert_eq!(ring(3, &[(0, 0, r), (0, 1, r)]), "page 0 slot 1 half 0 pending None target (1, 0)");
    let m4 = ring(3, &[(0, 0, r), (0, 1, r), (1, 0, r)]);
    assert_eq!(m4, "page 1 slot 0 half 0 pending Some(0) target (1, 1)");
    assert_eq!(ring(3, &[(2, 0, r), (0, 0, r)]), "page 0 slot 0 half 0 pending Some(2) target (0, 1)");
    assert_eq!(ring(3, &[(1, 0, r), (0, 1, one_zero)]), "page 1 slot 0 half 0 pending Some(0) target (1, 1)");
    assert_eq!(ring(3, &[(0, 0, r), (1, 0, r), (1, 1, r)]), "7");
    assert_eq!(ring(3, &[(0, 0, r), (1, 0, r), (2, 0, r)]), "7");
    assert_eq!(ring(3, &[(0, 1, r)]), "7");
    assert_eq!(ring(3, &[(0, 0, wrong_place)]), "7");
    let m11 = ring(3, &[(0, 0, record(&[0xFF; 12], 1))]);
    assert_eq!(m11, "page 0 slot 0 half 1 pending None target (0, 1)");
    assert_eq!(ring(4, &[(0, 0, r), (2, 0, r)]), "7");
}
