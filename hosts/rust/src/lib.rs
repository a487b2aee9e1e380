//! The checkpoint keeper of a baby monitor's parent unit. It seals a unit's state by AES-GCM, stores it one store at a
//! time in two lent memory images, and finds it after a restart.
//!
//! A key is 16 bytes, for AES-128-GCM, or 32, for AES-256-GCM; any other length is [`Stop::KeyNonceTagSize`]. Which of the
//! two a unit has is not stored: a key of the other length is another key.
//!
//! The two images are the caller's:
//!
//! - the **nonce ring** in flash: 3 to 32 pages of 2 to 512 slots ([`Sizes`]), 16 bytes a slot, 0xFF where blank. Its
//!   newest record has the newest checkpoint's nonce and says in which half of the FRAM it stands;
//! - the **FRAM**: a multiple of 8 bytes, from 88 to 262,144, cut into two halves. A checkpoint is 48 bytes plus an open
//!   part and a secret part of up to 32,768 bytes each, and must fit a half.
//!
//! Checkpoints of the older form, which was 44 bytes plus the parts and had no packet number, are still read; a power-up
//! seals them anew in the longer form.
//!
//! A start ([`save`] or [`power_up`]) seals a checkpoint into a staging buffer, at least one half long,
//! and answers a [`Job`]; each [`advance`] then makes one store: a page erased, a word of 4 bytes, or a record. The last
//! one says 'saved' or 'restored' and hands out the [`Session`] that the next save needs. Wherever the power fails, a
//! power-up resumes the newest complete checkpoint and no other. A [`Stop`] says why a call was refused; then no buffer
//! has changed.
//!
//! Each power-up's checkpoint has one restart more, and at 8 restarts the next power-up stops. A save sets them to 0 if it
//! brings a packet number above the one stored before; hearing only repeats is not progress.
//!
//! What the keeper asks of a unit: one key and one set of sizes for its life, a nonce never used twice, one job at a
//! time, advanced with the staging buffer as its start left it, and nobody else writing to the memories.
//!
//! [`hex_export`] and [`hex_import`] carry an image of either memory to a programmer and back, as Intel HEX;
//! [`ring_shape`] makes every shape of a readable ring of a small size, for trying units at the bench; [`factory_check`]
//! accepts exactly the memories that a first save leaves, for checking what an assembly house programs; [`chain_order`]
//! tells in which order dumps of checkpoints were made. [`settings_read`] and [`settings_write`] are for units that keep
//! volume and alert delay in the open part.
//!
//! The code behind these calls is proved. This crate hands slices on as they are, and has no checks of its own.
//!
//! # A unit that saves, is restarted and resumes
//!
//! ```
//! use godwitshelf::*;
//!
//! /// Advances a job to its end.
//! fn finish(sizes: Sizes, ring: &mut [u8], fram: &mut [u8], staging: &[u8], mut job: Job) -> Result<Session, Stop> {
//!     loop {
//!         match advance(sizes, ring, fram, staging, &mut job)? {
//!             Progress::GoingOn => continue,
//!             Progress::Saved(session) | Progress::Restored(session) => return Ok(session),
//!         }
//!     }
//! }
//!
//! # fn main() -> Result<(), Stop> {
//! let sizes = Sizes { pages: 3, slots: 2 };
//! let mut ring = [0xFF; 16 * 3 * 2];
//! let mut fram = [0; 256];
//! let mut staging = [0; 128];
//! // On a unit the key is the device's, 16 bytes or 32, and the random generator makes each nonce and the starting tag.
//! let key = [7; 32];
//!
//! // No packet was heard yet; then packet 7.
//! let first = Follows::StartingTag(&[9; 16]);
//! let job = save(sizes, &ring, &fram, &key, &[1; 12], first, 0, b"volume 3", b"timer 00", &mut staging)?;
//! let session = finish(sizes, &mut ring, &mut fram, &staging, job)?;
//! let next = Follows::Session(&session);
//! let job = save(sizes, &ring, &fram, &key, &[2; 12], next, 7, b"volume 4", b"timer 09", &mut staging)?;
//! finish(sizes, &mut ring, &mut fram, &staging, job)?;
//!
//! // The supply dips: only ring and FRAM are left.
//! let mut state = [0; calls::STATE];
//! let up = power_up(sizes, &ring, &fram, &key, &[3; 12], &mut staging, &mut state)?;
//! let secret_len = up.secret_len;
//! let session = finish(sizes, &mut ring, &mut fram, &staging, up.job)?;
//! assert_eq!(&state[..secret_len], b"timer 09");
//! let seen = look(sizes, &ring, &fram, &key)?;
//! assert_eq!((seen.restarts, seen.open_part), (1, &b"volume 4"[..]));
//!
//! // The next save starts from the session that the power-up handed out. Packet 7 again: the restart is kept.
//! let next = Follows::Session(&session);
//! let job = save(sizes, &ring, &fram, &key, &[4; 12], next, 7, b"volume 4", b"timer 10", &mut staging)?;
//! let session = finish(sizes, &mut ring, &mut fram, &staging, job)?;
//! assert_eq!(look(sizes, &ring, &fram, &key)?.restarts, 1);
//!
//! // Packet 8 is progress.
//! let next = Follows::Session(&session);
//! let job = save(sizes, &ring, &fram, &key, &[5; 12], next, 8, b"volume 4", b"timer 11", &mut staging)?;
//! finish(sizes, &mut ring, &mut fram, &staging, job)?;
//! assert_eq!(look(sizes, &ring, &fram, &key)?.restarts, 0);
//! # Ok(())
//! # }
//! ```

#![deny(missing_docs)]
#![deny(unsafe_code)]

// Laid out by hand: a pointer and its length side by side.
#[rustfmt::skip]
#[allow(unsafe_code)]
pub mod calls;
mod stop;

pub use stop::Stop;

/// The ring's sizes: 3 to 32 pages of 2 to 512 slots. The ring image is 16 × pages × slots bytes.
#[derive(Clone, Copy, Debug, PartialEq, Eq)]
pub struct Sizes {
    /// How many pages the ring has.
    pub pages: usize,
    /// How many slots a page has.
    pub slots: usize,
}

/// What a start leaves to do: its phase, half, length, target, nonce, and its checkpoint's own tag, restarts and packet
/// number.
///
/// It can be kept as bytes. Advance the job that was handed out last, and no copy of an earlier one: the unit has one
/// job at a time.
#[derive(Clone, Debug, PartialEq, Eq)]
pub struct Job([u8; calls::JOB]);

impl Job {
    /// The job kept as these bytes. [`advance`] refuses bytes that are no job by [`Stop::BadJob`].
    pub fn from_bytes(bytes: [u8; calls::JOB]) -> Job {
        Job(bytes)
    }

    /// The job as bytes.
    pub fn as_bytes(&self) -> &[u8; calls::JOB] {
        &self.0
    }
}

/// The newest checkpoint's page, slot, record, tag, restarts and packet number, from which the next save starts.
///
/// It can be kept as bytes, and serves until a newer record exists.
#[derive(Clone, Copy, Debug, PartialEq, Eq)]
pub struct Session([u8; calls::SESSION]);

impl Session {
    /// The session kept as these bytes. [`save`] refuses one that is not the newest record's, or whose restarts or packet
    /// number are out of range, by [`Stop::StaleSession`].
    pub fn from_bytes(bytes: [u8; calls::SESSION]) -> Session {
        Session(bytes)
    }

    /// The session as bytes.
    pub fn as_bytes(&self) -> &[u8; calls::SESSION] {
        &self.0
    }
}

/// What a save's checkpoint follows.
#[derive(Clone, Copy, Debug, PartialEq, Eq)]
pub enum Follows<'a> {
    /// None: 16 random bytes stand for the tag of a checkpoint before. On a blank ring alone.
    StartingTag(&'a [u8; 16]),
    /// The newest one, of which this is the session.
    Session(&'a Session),
}

/// What a power-up answers.
#[derive(Clone, Debug, PartialEq, Eq)]
pub struct PoweredUp {
    /// What is left to do. The state may be used once [`Progress::Restored`] is answered.
    pub job: Job,
    /// How many bytes at the front of the state buffer are the secret part.
    pub secret_len: usize,
}

/// What look answers.
#[derive(Clone, Copy, Debug, PartialEq, Eq)]
pub struct Looked<'a> {
    /// Power-ups recorded since the last save that set restarts to 0, 0 to 8.
    pub restarts: u32,
    /// The open part itself, as that stretch of the FRAM image.
    pub open_part: &'a [u8],
}

/// What an advance answers.
#[derive(Clone, Copy, Debug, PartialEq, Eq)]
pub enum Progress {
    /// The store was made, and there are more to make.
    GoingOn,
    /// The last store of a save was made.
    Saved(Session),
    /// The last store of a power-up was made.
    Restored(Session),
}

/// Seals `text` of up to 65,536 bytes, with up to 65,536 bytes of associated data, into the front of `out` and answers
/// the tag: by AES-128-GCM with a key of 16 bytes, by AES-256-GCM with one of 32. The rest of `out` keeps its contents.
///
/// # Errors
///
/// [`Stop::KeyNonceTagSize`], [`Stop::BufferSize`].
///
/// # Keys of either length
///
/// ```
/// use godwitshelf::*;
///
/// # fn main() -> Result<(), Stop> {
/// // The first test cases of GCM's authors for both lengths: nothing, sealed under zeros.
/// let tag = seal(&[0; 16], &[0; 12], b"", b"", &mut [])?;
/// assert_eq!(u128::from_be_bytes(tag), 0x58e2fccefa7e3061367f1d57a4e7455a);
/// let tag = seal(&[0; 32], &[0; 12], b"", b"", &mut [])?;
/// assert_eq!(u128::from_be_bytes(tag), 0x530f8afbc74536b9a963b4f1c4cb738b);
///
/// assert_eq!(seal(&[0; 24], &[0; 12], b"", b"", &mut []), Err(Stop::KeyNonceTagSize));
/// # Ok(())
/// # }
/// ```
pub fn seal(key: &[u8], nonce: &[u8], aad: &[u8], text: &[u8], out: &mut [u8]) -> Result<[u8; 16], Stop> {
    let mut tag = [0; 16];
    done(calls::seal(key, nonce, aad, text, out, &mut tag))?;
    Ok(tag)
}

/// Opens `cipher` into the front of `out`, if `tag` is the standard's for associated data, text, nonce and key, which is
/// of either length. The rest of `out` keeps its contents.
///
/// # Errors
///
/// [`Stop::KeyNonceTagSize`], [`Stop::BufferSize`], [`Stop::TagDiffers`].
pub fn open(key: &[u8], nonce: &[u8], aad: &[u8], cipher: &[u8], tag: &[u8], out: &mut [u8]) -> Result<(), Stop> {
    done(calls::open(key, nonce, aad, cipher, tag, out))
}

/// Starts a save. `follows` says what the checkpoint follows:
///
/// - [`Follows::StartingTag`], on a blank ring alone: the unit's first checkpoint, with restarts 0, in half A, at page 0,
///   slot 0, and the starting tag as its previous tag;
/// - [`Follows::Session`]: the half that the newest record does not name, the next target, and the previous tag from the
///   session. Restarts are set to 0 if `packet` is above the session's number; otherwise restarts and number are the
///   session's.
///
/// `packet` is the packet number last heard, up to 2^30 − 1, and 0 where none was.
///
/// # Errors
///
/// [`Stop::RingSize`], [`Stop::FramSize`], [`Stop::KeyNonceTagSize`], [`Stop::BufferSize`], [`Stop::PacketTooLarge`]; with
/// a starting tag [`Stop::RingInUse`]; with a session [`Stop::RingBlank`], [`Stop::RingUnreadable`],
/// [`Stop::StaleSession`], [`Stop::PagePending`], [`Stop::NonceUsed`].
#[allow(clippy::too_many_arguments)]
pub fn save(
    sizes: Sizes,
    ring: &[u8],
    fram: &[u8],
    key: &[u8],
    nonce: &[u8],
    follows: Follows,
    packet: u32,
    open_part: &[u8],
    secret: &[u8],
    staging: &mut [u8],
) -> Result<Job, Stop> {
    let from: &[u8] = match follows {
        Follows::StartingTag(tag) => tag,
        Follows::Session(session) => &session.0,
    };
    let mut job = [0; calls::JOB];
    done(calls::save(sizes, ring, fram, key, nonce, from, packet, open_part, secret, staging, &mut job))?;
    Ok(Job(job))
}

/// Opens the newest checkpoint, puts its secret part at the front of the state buffer (at least [`calls::STATE`] bytes)
/// and starts a new checkpoint of both parts under the new nonce, with one restart more and the same packet number. A
/// checkpoint of the older form is sealed anew in the longer one, with packet number 0.
///
/// # Errors
///
/// [`Stop::RingSize`], [`Stop::FramSize`], [`Stop::KeyNonceTagSize`], [`Stop::BufferSize`], [`Stop::RingBlank`],
/// [`Stop::RingUnreadable`], [`Stop::BadHead`], [`Stop::TagDiffers`], [`Stop::RestartLimit`], [`Stop::NonceUsed`], and after
/// them [`Stop::BufferSize`] again, where a checkpoint of the older form does not fit the half in the longer one.
pub fn power_up(
    sizes: Sizes,
    ring: &[u8],
    fram: &[u8],
    key: &[u8],
    nonce: &[u8],
    staging: &mut [u8],
    state: &mut [u8],
) -> Result<PoweredUp, Stop> {
    let mut job = [0; calls::JOB];
    let mut secret_len = 0;
    done(calls::power_up(sizes, ring, fram, key, nonce, staging, state, &mut job, &mut secret_len))?;
    Ok(PoweredUp { job: Job(job), secret_len })
}

/// Looks at the newest checkpoint and stores nothing.
///
/// # Errors
///
/// [`Stop::RingSize`], [`Stop::FramSize`], [`Stop::KeyNonceTagSize`], [`Stop::RingBlank`], [`Stop::RingUnreadable`],
/// [`Stop::BadHead`], [`Stop::TagDiffers`].
pub fn look<'a>(sizes: Sizes, ring: &[u8], fram: &'a [u8], key: &[u8]) -> Result<Looked<'a>, Stop> {
    let (mut restarts, mut start, mut len) = (0, 0, 0);
    done(calls::look(sizes, ring, fram, key, &mut restarts, &mut start, &mut len))?;
    Ok(Looked { restarts, open_part: &fram[start..start + len] })
}

/// Makes the one store that the job's phase names, and moves the job on.
///
/// # Errors
///
/// [`Stop::RingSize`], [`Stop::FramSize`], [`Stop::BufferSize`] (staging shorter than a half), [`Stop::BadJob`].
pub fn advance(
    sizes: Sizes,
    ring: &mut [u8],
    fram: &mut [u8],
    staging: &[u8],
    job: &mut Job,
) -> Result<Progress, Stop> {
    let mut session = [0; calls::SESSION];
    match calls::advance(sizes, ring, fram, staging, &mut job.0, &mut session) {
        calls::GOING_ON => Ok(Progress::GoingOn),
        calls::SAVED => Ok(Progress::Saved(Session(session))),
        calls::RESTORED => Ok(Progress::Restored(Session(session))),
        number => Err(stop(number)),
    }
}

/// Writes an image of 1 to 262,144 bytes as Intel HEX to the front of `text`, and answers the text's length, which is
/// [`hex_len`]. The rest of `text` keeps its contents.
///
/// Lines are uppercase, of 16 data bytes (the last may be shorter). A type 04 line comes first and again whenever the
/// upper 16 address bits change; the end line closes.
///
/// # Errors
///
/// [`Stop::FramSize`], [`Stop::BufferSize`].
///
/// # An image to the programmer and back
///
/// ```
/// use godwitshelf::*;
///
/// # fn main() -> Result<(), Stop> {
/// let image = *b"volume 3, timer 09";
/// let mut text = [0; hex_len(18)];
/// hex_export(&image, &mut text)?;
/// let lines = [
///     ":020000040000FA\n",
///     ":10000000766F6C756D6520332C2074696D65722078\n",
///     ":02001000303985\n",
///     ":00000001FF\n",
/// ];
/// assert_eq!(text, lines.concat().as_bytes());
///
/// let mut back = [0; 18];
/// hex_import(&text, &mut back)?;
/// assert_eq!(back, image);
/// # Ok(())
/// # }
/// ```
pub fn hex_export(image: &[u8], text: &mut [u8]) -> Result<usize, Stop> {
    let mut written = 0;
    done(calls::hex_export(image, text, &mut written))?;
    Ok(written)
}

/// How long the export of an image of 1 to 262,144 bytes is; 720,972 at the most. Worked out here, for callers that
/// make the buffer; [`hex_export`] does not use it.
pub const fn hex_len(image_len: usize) -> usize {
    2 * image_len + 12 * image_len.div_ceil(16) + 16 * image_len.div_ceil(65_536) + 12
}

/// Reads Intel HEX into an image of 1 to 262,144 bytes. Bytes that no data line names keep their contents.
///
/// Digits are of either letter case, and a line feed may have one carriage return before it. Types are 00, 01 and 04;
/// the upper 16 address bits are 0 until a type 04 line; the addresses of data rise.
///
/// # Errors
///
/// [`Stop::FramSize`], [`Stop::BadLine`], [`Stop::BadChecksum`], [`Stop::DataMisplaced`].
pub fn hex_import(text: &[u8], image: &mut [u8]) -> Result<(), Stop> {
    done(calls::hex_import(text, image))
}

/// Writes ring number `number`, counted from 0, of 3 or 4 pages and 2 to 4 slots to a buffer of that ring's size.
///
/// Number 0 is blank. Then page by page: slot 0 newest with the page before pending and full of records; slot 0 newest
/// alone; then slots 1, 2 and so on. Each record has a nonce of twelve zero bytes and names half A. There are
/// 1 + pages × slots + pages: each shape of a readable ring once, and the blank one.
///
/// A power-up on such a ring opens what half A of the FRAM holds; where that is no checkpoint sealed under that nonce it
/// gives [`Stop::BadHead`] or [`Stop::TagDiffers`], and on number 0 always [`Stop::RingBlank`].
///
/// # Errors
///
/// [`Stop::RingSize`] (also for rings of more pages or slots), [`Stop::PastLastShape`].
///
/// # Every ring of 3 pages by 2 slots, tried
///
/// ```
/// use godwitshelf::*;
///
/// let sizes = Sizes { pages: 3, slots: 2 };
/// let mut ring = [0; 16 * 3 * 2];
/// for number in 0.. {
///     match ring_shape(sizes, number, &mut ring) {
///         Ok(()) => {
///             // A FRAM of zeros holds no checkpoint.
///             let expected = if number == 0 { Stop::RingBlank } else { Stop::BadHead };
///             assert_eq!(look(sizes, &ring, &[0; 96], &[7; 32]), Err(expected));
///         }
///         Err(stop) => {
///             assert_eq!((number, stop), (10, Stop::PastLastShape));
///             break;
///         }
///     }
/// }
/// ```
pub fn ring_shape(sizes: Sizes, number: usize, ring: &mut [u8]) -> Result<(), Stop> {
    done(calls::ring_shape(sizes, number, ring))
}

/// Checks what an assembly house programs: accepts exactly the memories that a [`save`] with a starting tag leaves on a
/// blank ring, advanced to its end, for some parts, nonce, packet number and starting tag.
///
/// The ring must be that save's to the byte, and so must half A of the FRAM in the checkpoint's length; all other bytes of
/// the FRAM are free. A unit so programmed starts by a [`power_up`]. That memories are accepted does not show that a unit
/// is unused: a later save leaves such ones too, where the ring has come around.
///
/// # Errors
///
/// [`Stop::RingSize`], [`Stop::FramSize`], [`Stop::KeyNonceTagSize`], [`Stop::RingBlank`], [`Stop::RingUnreadable`],
/// [`Stop::BadHead`] and [`Stop::TagDiffers`] as in a [`look`], then [`Stop::NotFirstSave`].
///
/// # A unit before and after its first save
///
/// ```
/// use godwitshelf::*;
///
/// # fn main() -> Result<(), Stop> {
/// let sizes = Sizes { pages: 3, slots: 2 };
/// let mut ring = [0xFF; 16 * 3 * 2];
/// let mut fram = [0; 256];
/// let mut staging = [0; 128];
/// let key = [7; 16];
/// assert_eq!(factory_check(sizes, &ring, &fram, &key), Err(Stop::RingBlank));
///
/// let first = Follows::StartingTag(&[9; 16]);
/// let mut job = save(sizes, &ring, &fram, &key, &[1; 12], first, 0, b"volume 3", b"timer 00", &mut staging)?;
/// while advance(sizes, &mut ring, &mut fram, &staging, &mut job)? == Progress::GoingOn {}
/// assert_eq!(factory_check(sizes, &ring, &fram, &key), Ok(()));
///
/// // The checkpoint is 64 bytes; those behind it are free.
/// fram[64] ^= 1;
/// assert_eq!(factory_check(sizes, &ring, &fram, &key), Ok(()));
/// fram[63] ^= 1;
/// assert_eq!(factory_check(sizes, &ring, &fram, &key), Err(Stop::TagDiffers));
/// # Ok(())
/// # }
/// ```
pub fn factory_check(sizes: Sizes, ring: &[u8], fram: &[u8], key: &[u8]) -> Result<(), Stop> {
    done(calls::factory_check(sizes, ring, fram, key))
}

/// Which dump came before which: the positions of checkpoints in the order in which they were made.
///
/// An entry is 32 bytes, a checkpoint's previous tag and then its own: of a checkpoint as it stands in its half, bytes 16 to
/// 31 (12 to 27 in the older form) and the last 16. Entries stand one behind the other, 1 to 64 of them, unsorted. Their
/// positions, counted from 0, one byte each, go in chain order to the front of `positions`; its bytes behind them keep their
/// contents. In a chain order all own tags differ, the first entry's previous tag is no entry's own tag, and each later one
/// names the entry before it. There is never more than one.
///
/// The time grows with the square of the number of entries: at most 2 n² + 2 n times two tags are compared.
///
/// # Errors
///
/// [`Stop::BadEntries`], then [`Stop::BufferSize`], then [`Stop::NoOrder`], which is given exactly if there is no such order.
///
/// # Three checkpoints of a unit, and two of them
///
/// ```
/// use godwitshelf::*;
///
/// # fn main() -> Result<(), Stop> {
/// let sizes = Sizes { pages: 3, slots: 2 };
/// let mut ring = [0xFF; 16 * 3 * 2];
/// let mut fram = [0; 256];
/// let mut staging = [0; 128];
/// let mut from = Follows::StartingTag(&[9; 16]);
/// let mut session;
/// let mut dumps = Vec::new();
/// for n in 1..=3 {
///     let mut job = save(sizes, &ring, &fram, &[7; 16], &[n; 12], from, n.into(), b"volume 3", b"timer 00", &mut staging)?;
///     session = loop {
///         if let Progress::Saved(session) = advance(sizes, &mut ring, &mut fram, &staging, &mut job)? {
///             break session;
///         }
///     };
///     from = Follows::Session(&session);
///     // The checkpoint is 64 bytes.
///     dumps.push([&staging[16..32], &staging[48..64]].concat());
/// }
///
/// let mut positions = [0xFF; 4];
/// let entries = [&dumps[1][..], &dumps[2], &dumps[0]].concat();
/// assert_eq!(chain_order(&entries, &mut positions), Ok(()));
/// assert_eq!(positions, [2, 0, 1, 0xFF]);
///
/// // One is missing between these two.
/// let entries = [&dumps[2][..], &dumps[0]].concat();
/// assert_eq!(chain_order(&entries, &mut positions), Err(Stop::NoOrder));
/// # Ok(())
/// # }
/// ```
pub fn chain_order(entries: &[u8], positions: &mut [u8]) -> Result<(), Stop> {
    done(calls::chain_order(entries, positions))
}

/// What a list of settings says.
#[derive(Clone, Copy, Debug, PartialEq, Eq)]
pub struct Settings {
    /// 0 to 15.
    pub volume: u32,
    /// The alert delay in seconds, 5 to 300.
    pub delay: u32,
}

/// The kind of the first word of a list of settings, whose value is the list's version, 1 or 2.
pub const LIST_VERSION: u32 = 15;
/// The kind of the volume.
pub const VOLUME: u32 = 1;
/// The kind of the alert delay.
pub const ALERT_DELAY: u32 = 2;

/// Volume and alert delay of a list of settings, which is a checkpoint's whole open part.
///
/// A list is words of 4 bytes, the most significant first, each with its kind in the top four bits and its value in the
/// other 28. The first has kind [`LIST_VERSION`]. Behind it kinds rise: [`VOLUME`] and [`ALERT_DELAY`], and in version 2 any of
/// kinds 3 to 14, with any value.
///
/// # Errors
///
/// [`Stop::BadList`], [`Stop::BadKinds`], [`Stop::BadValue`].
///
/// # Saved, looked up after a cut, changed and saved again
///
/// ```
/// use godwitshelf::*;
///
/// /// Advances a job to its end.
/// fn finish(sizes: Sizes, ring: &mut [u8], fram: &mut [u8], staging: &[u8], mut job: Job) -> Result<Session, Stop> {
///     loop {
///         match advance(sizes, ring, fram, staging, &mut job)? {
///             Progress::GoingOn => continue,
///             Progress::Saved(session) | Progress::Restored(session) => return Ok(session),
///         }
///     }
/// }
///
/// # fn main() -> Result<(), Stop> {
/// let sizes = Sizes { pages: 3, slots: 2 };
/// let mut ring = [0xFF; 16 * 3 * 2];
/// let mut fram = [0; 256];
/// let mut staging = [0; 128];
/// let mut state = [0; calls::STATE];
/// let key = [7; 32];
///
/// // A list of version 2: volume 3, a delay of 30 seconds, and a setting of kind 7 that this firmware does not know.
/// let words = [LIST_VERSION << 28 | 2, VOLUME << 28 | 3, ALERT_DELAY << 28 | 30, 7 << 28 | 4711];
/// let list: Vec<u8> = words.into_iter().flat_map(u32::to_be_bytes).collect();
/// let first = Follows::StartingTag(&[9; 16]);
/// let job = save(sizes, &ring, &fram, &key, &[1; 12], first, 0, &list, b"timer 00", &mut staging)?;
/// let session = finish(sizes, &mut ring, &mut fram, &staging, job)?;
///
/// // A save with volume 15 is cut after five of its stores.
/// let mut loud = list.clone();
/// settings_write(&mut loud, VOLUME, 15)?;
/// let follows = Follows::Session(&session);
/// let mut job = save(sizes, &ring, &fram, &key, &[2; 12], follows, 1, &loud, b"timer 01", &mut staging)?;
/// for _ in 0..5 {
///     advance(sizes, &mut ring, &mut fram, &staging, &mut job)?;
/// }
///
/// // What was recorded is still there. The secret part stays sealed.
/// let looked = look(sizes, &ring, &fram, &key)?;
/// assert_eq!(settings_read(looked.open_part)?, Settings { volume: 3, delay: 30 });
/// let mut list = looked.open_part.to_vec();
///
/// // The unit powers up, is set to volume 9, and saves.
/// let powered_up = power_up(sizes, &ring, &fram, &key, &[3; 12], &mut staging, &mut state)?;
/// let session = finish(sizes, &mut ring, &mut fram, &staging, powered_up.job)?;
/// settings_write(&mut list, VOLUME, 9)?;
/// let follows = Follows::Session(&session);
/// let job = save(sizes, &ring, &fram, &key, &[4; 12], follows, 2, &list, b"timer 02", &mut staging)?;
/// finish(sizes, &mut ring, &mut fram, &staging, job)?;
///
/// // Kind 7 is kept.
/// let looked = look(sizes, &ring, &fram, &key)?;
/// assert_eq!(settings_read(looked.open_part)?, Settings { volume: 9, delay: 30 });
/// assert_eq!(looked.open_part[12..], (7u32 << 28 | 4711).to_be_bytes());
/// # Ok(())
/// # }
/// ```
pub fn settings_read(list: &[u8]) -> Result<Settings, Stop> {
    let (mut volume, mut delay) = (0, 0);
    done(calls::settings_read(list, &mut volume, &mut delay))?;
    Ok(Settings { volume, delay })
}

/// Changes the value of one setting where it stands in a list, and no other word. The list can still be read afterwards.
///
/// A setting that is not in the list cannot be written, and a list with a stop is not mended by a write.
///
/// # Errors
///
/// [`Stop::BadList`], [`Stop::BadKinds`] (also for kind 15 and for one that is not in the list), [`Stop::BadValue`] (also for
/// the new value: of kinds 3 to 14, one of more than 28 bits).
pub fn settings_write(list: &mut [u8], kind: u32, value: u32) -> Result<(), Stop> {
    done(calls::settings_write(list, kind, value))
}

/// Zeroes a buffer of any length.
pub fn wipe(buffer: &mut [u8]) {
    calls::wipe(buffer);
}

fn done(answer: u32) -> Result<(), Stop> {
    match answer {
        calls::DONE => Ok(()),
        number => Err(stop(number)),
    }
}

fn stop(number: u32) -> Stop {
    Stop::from_number(number).expect("the calls answer no other number")
}
