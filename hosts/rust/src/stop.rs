use std::error::Error;
use std::fmt;

/// Why a call stopped. The conditions are tried in the order of their numbers, those that name the call only, but 18 right
/// after 4, 4 of a [`chain_order`](crate::chain_order) after 21, 15 to 17 line by line, and at power-up 10 after 13, and then
/// whether what it seals anew fits the half (4); the first that applies is answered, and no buffer changes.
#[derive(Clone, Copy, Debug, PartialEq, Eq, Hash, PartialOrd, Ord)]
#[repr(u32)]
pub enum Stop {
    /// 1: pages, slots or the ring's length wrong; of [`ring_shape`](crate::ring_shape), also more than 4 pages or 4 slots.
    RingSize = 1,
    /// 2: the length of the FRAM, or of an image to export or import, wrong.
    FramSize,
    /// 3: key neither 16 nor 32, nonce not 12 or tag not 16 bytes; of [`calls::save`](crate::calls::save), `from` neither
    /// 16 bytes nor 48.
    KeyNonceTagSize,
    /// 4: a part not a multiple of 4 bytes, above 32,768, or the checkpoint longer than a half; staging, state, output or
    /// an export's text buffer too short; fewer bytes for positions than entries; text or associated data above 65,536
    /// bytes; a checkpoint of the older form that does not fit its half in the longer one.
    BufferSize,
    /// 5: the ring is not blank, and the save has a starting tag.
    RingInUse,
    /// 6: the ring is wholly blank.
    RingBlank,
    /// 7: the ring is not readable.
    RingUnreadable,
    /// 8: the session's page, slot or record is not the newest, or its restarts or packet number are out of range.
    StaleSession,
    /// 9: a page is pending.
    PagePending,
    /// 10: the nonce equals one in a record of the newest page.
    NonceUsed,
    /// 11: a head word's kind or value wrong, or the checkpoint longer than the half.
    BadHead,
    /// 12: the tag differs.
    TagDiffers,
    /// 13: restarts are 8.
    RestartLimit,
    /// 14: the job is done; its length is not a multiple of 4, below 48 or above the half; its page, slot, half or word
    /// is out of its range; or at a record the target is not blank.
    BadJob,
    /// 15: a malformed line, another type than 00, 01 and 04, any line after the end line, or no end line.
    BadLine,
    /// 16: a line's checksum is wrong.
    BadChecksum,
    /// 17: data outside the image, past a 64 KiB boundary within a line, or not above the data before.
    DataMisplaced,
    /// 18: the packet number is above 2^30 − 1.
    PacketTooLarge,
    /// 19: the newest record is not at page 0, slot 0 or names half B, a page is pending, restarts are not 0, or the head is
    /// the older one.
    NotFirstSave,
    /// 21: no entries, more than 64, or a broken one.
    BadEntries = 21,
    /// 22: the entries have no chain order.
    NoOrder,
    /// 23: a list of settings is not whole words, or its first word is absent or not kind 15 with value 1 or 2.
    BadList,
    /// 24: kind 1 or 2 is missing from a list of settings, or a kind is not the version's or does not rise; of
    /// [`settings_write`](crate::settings_write), also kind 15, or one that is not in the list.
    BadKinds,
    /// 25: a volume above 15, or a delay not of 5 to 300 seconds, in a list of settings; of
    /// [`settings_write`](crate::settings_write), also the new value so, or above 2^28 − 1.
    BadValue,
    /// 26: the number is past the last ring of that size.
    PastLastShape = 26,
}

impl Stop {
    /// Every stop, by its number.
    pub const ALL: [Stop; 25] = [
        Stop::RingSize,
        Stop::FramSize,
        Stop::KeyNonceTagSize,
        Stop::BufferSize,
        Stop::RingInUse,
        Stop::RingBlank,
        Stop::RingUnreadable,
        Stop::StaleSession,
        Stop::PagePending,
        Stop::NonceUsed,
        Stop::BadHead,
        Stop::TagDiffers,
        Stop::RestartLimit,
        Stop::BadJob,
        Stop::BadLine,
        Stop::BadChecksum,
        Stop::DataMisplaced,
        Stop::PacketTooLarge,
        Stop::NotFirstSave,
        Stop::BadEntries,
        Stop::NoOrder,
        Stop::BadList,
        Stop::BadKinds,
        Stop::BadValue,
        Stop::PastLastShape,
    ];

    /// The stop's number, 1 to 19 or 21 to 26.
    pub const fn number(self) -> u32 {
        self as u32
    }

    /// The stop with this number, if there is one.
    pub fn from_number(number: u32) -> Option<Stop> {
        Stop::ALL.into_iter().find(|stop| stop.number() == number)
    }

    fn words(self) -> &'static str {
        match self {
            Stop::RingSize => "pages, slots or ring length wrong",
            Stop::FramSize => "FRAM or image length wrong",
            Stop::KeyNonceTagSize => {
                "key neither 16 nor 32, nonce not 12 or tag not 16 bytes; or a save that follows neither 16 nor 48"
            }
            Stop::BufferSize => {
                "a part not a multiple of 4 bytes, above 32,768, or the checkpoint longer than a half; \
                 staging, state, output, text or position buffer too short; text or associated data above 65,536"
            }
            Stop::RingInUse => "ring not blank",
            Stop::RingBlank => "ring wholly blank",
            Stop::RingUnreadable => "ring not readable",
            Stop::StaleSession => {
                "session's page, slot or record is not the newest, or its restarts or packet number are out of range"
            }
            Stop::PagePending => "a page is pending",
            Stop::NonceUsed => "nonce equals one in a record of the newest page",
            Stop::BadHead => "a head word's kind or value wrong, or the checkpoint longer than the half",
            Stop::TagDiffers => "tag differs",
            Stop::RestartLimit => "restarts are 8",
            Stop::BadJob => {
                "job done; length not a multiple of 4, below 48 or above the half; \
                 page, slot, half or word out of its range; or at a record the target is not blank"
            }
            Stop::BadLine => {
                "malformed line, another type than 00, 01 and 04, a line after the end line, or no end line"
            }
            Stop::BadChecksum => "line checksum wrong",
            Stop::DataMisplaced => {
                "data outside the image, past a 64 KiB boundary within a line, or not above the data before"
            }
            Stop::PacketTooLarge => "packet number too large",
            Stop::NotFirstSave => {
                "newest not page 0, slot 0, half A, a page pending, restarts not 0, or the older head"
            }
            Stop::BadEntries => "no entries, more than 64, or a broken one",
            Stop::NoOrder => "no chain order",
            Stop::BadList => "list of settings not whole words, or its first word absent or wrong",
            Stop::BadKinds => {
                "a kind of setting missing, not the version's or not rising; or the kind to be written is 15 or not in the list"
            }
            Stop::BadValue => "value of a setting out of range",
            Stop::PastLastShape => "number past the last ring of that size",
        }
    }
}

impl fmt::Display for Stop {
    fn fmt(&self, f: &mut fmt::Formatter<'_>) -> fmt::Result {
        write!(f, "stop {}: {}", self.number(), self.words())
    }
}

impl Error for Stop {}

#[cfg(test)]
mod tests {
    use super::*;

    #[test]
    fn numbers_are_the_documents_and_lead_back() {
        for number in 0..300 {
            let stop = Stop::from_number(number);
            assert_eq!(stop.map(Stop::number), matches!(number, 1..=19 | 21..=26).then_some(number));
        }
    }

    #[test]
    fn a_stop_is_shown_with_its_number_and_words() {
        assert_eq!(Stop::TagDiffers.to_string(), "stop 12: tag differs");
        assert_eq!(Stop::PacketTooLarge.to_string(), "stop 18: packet number too large");
    }
}
