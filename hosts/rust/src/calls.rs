//! The calls of `hosts/c/keeper.h` as they are: numbers and byte slices in, a number out.
//!
//! They are for a caller that keeps jobs and sessions as bytes: a job is 64 bytes, a session 48. Each call answers
//! [`DONE`] or the number of a [`Stop`](crate::Stop); [`advance`] answers [`GOING_ON`], [`SAVED`], [`RESTORED`] or the
//! number of a stop. A stop changes no buffer. Slices of any length may be given: lengths are checked by the calls.
//!
//! # Why the unsafe code here is sound
//!
//! The calls ask two things of their callers. Each pointer is good for as many bytes as the length behind it: every
//! pair here is a slice's own. And what is written overlaps nothing else that is lent: a `&mut` slice is the only way
//! to its bytes while the call runs. An empty slice's pointer is never read. Numbers are written through `&mut`
//! references. The calls keep no pointer, and each is proved to end, for all numbers and lengths, without reading or
//! writing outside what it is lent.

use crate::Sizes;

/// The answer of a call that did what it is for.
pub const DONE: u32 = 0;
/// 'Going on': the advance made its store, and the job has more to make.
pub const GOING_ON: u32 = 256;
/// 'Saved': the advance made the last store of a save.
pub const SAVED: u32 = 257;
/// 'Restored': the advance made the last store of a power-up.
pub const RESTORED: u32 = 258;

/// How many bytes a job is.
pub const JOB: usize = 64;
/// How many bytes a session is.
pub const SESSION: usize = 48;
/// The least length of a state buffer, in bytes.
pub const STATE: usize = 32_768;

extern "C" {
    fn keeper_seal(key: *const u8, key_len: usize, nonce: *const u8, nonce_len: usize,
        aad: *const u8, aad_len: usize, text: *const u8, text_len: usize,
        out: *mut u8, out_len: usize, tag: *mut u8, tag_len: usize) -> u32;
    fn keeper_open(key: *const u8, key_len: usize, nonce: *const u8, nonce_len: usize,
        aad: *const u8, aad_len: usize, cipher: *const u8, cipher_len: usize,
        tag: *const u8, tag_len: usize, out: *mut u8, out_len: usize) -> u32;
    fn keeper_save(pages: usize, slots: usize, ring: *const u8, ring_len: usize,
        fram: *const u8, fram_len: usize, key: *const u8, key_len: usize,
        nonce: *const u8, nonce_len: usize, from: *const u8, from_len: usize,
        packet: u32, open_part: *const u8, open_len: usize, secret: *const u8, secret_len: usize,
        staging: *mut u8, staging_len: usize, job: *mut u8, job_len: usize) -> u32;
    fn keeper_power_up(pages: usize, slots: usize, ring: *const u8, ring_len: usize,
        fram: *const u8, fram_len: usize, key: *const u8, key_len: usize,
        nonce: *const u8, nonce_len: usize, staging: *mut u8, staging_len: usize,
        state: *mut u8, state_len: usize, job: *mut u8, job_len: usize, secret_len: *mut usize) -> u32;
    fn keeper_look(pages: usize, slots: usize, ring: *const u8, ring_len: usize,
        fram: *const u8, fram_len: usize, key: *const u8, key_len: usize,
        restarts: *mut u32, open_start: *mut usize, open_len: *mut usize) -> u32;
    fn keeper_advance(pages: usize, slots: usize, ring: *mut u8, ring_len: usize,
        fram: *mut u8, fram_len: usize, staging: *const u8, staging_len: usize,
        job: *mut u8, job_len: usize, session: *mut u8, session_len: usize) -> u32;
    fn keeper_hex_export(image: *const u8, image_len: usize, text: *mut u8, text_len: usize,
        written: *mut usize) -> u32;
    fn keeper_hex_import(text: *const u8, text_len: usize, image: *mut u8, image_len: usize) -> u32;
    fn keeper_ring_shape(pages: usize, slots: usize, number: usize, ring: *mut u8, ring_len: usize) -> u32;
    fn keeper_factory_check(pages: usize, slots: usize, ring: *const u8, ring_len: usize,
        fram: *const u8, fram_len: usize, key: *const u8, key_len: usize) -> u32;
    fn keeper_chain_order(entries: *const u8, entries_len: usize, positions: *mut u8, positions_len: usize) -> u32;
    fn keeper_settings_read(list: *const u8, list_len: usize, volume: *mut u32, delay: *mut u32) -> u32;
    fn keeper_settings_write(list: *mut u8, list_len: usize, kind: u32, value: u32) -> u32;
    fn keeper_wipe(buffer: *mut u8, buffer_len: usize);
}

/// Seals `text` with `aad` beside it into the front of `out`, and its tag into `tag`: by AES-128-GCM or AES-256-GCM, as
/// `key` has 16 bytes or 32.
pub fn seal(key: &[u8], nonce: &[u8], aad: &[u8], text: &[u8], out: &mut [u8], tag: &mut [u8]) -> u32 {
    // Sound: see the top of this file.
    unsafe {
        keeper_seal(key.as_ptr(), key.len(), nonce.as_ptr(), nonce.len(), aad.as_ptr(), aad.len(),
            text.as_ptr(), text.len(), out.as_mut_ptr(), out.len(), tag.as_mut_ptr(), tag.len())
    }
}

/// Opens `cipher` into the front of `out`.
pub fn open(key: &[u8], nonce: &[u8], aad: &[u8], cipher: &[u8], tag: &[u8], out: &mut [u8]) -> u32 {
    // Sound: see the top of this file.
    unsafe {
        keeper_open(key.as_ptr(), key.len(), nonce.as_ptr(), nonce.len(), aad.as_ptr(), aad.len(),
            cipher.as_ptr(), cipher.len(), tag.as_ptr(), tag.len(), out.as_mut_ptr(), out.len())
    }
}

/// Starts a save: the checkpoint goes into `staging`, its job into `job`. `from` is what it follows: 16 bytes are a
/// starting tag, 48 a session, any other length is stop 3.
#[allow(clippy::too_many_arguments)]
pub fn save(
    sizes: Sizes, ring: &[u8], fram: &[u8], key: &[u8], nonce: &[u8], from: &[u8], packet: u32,
    open_part: &[u8], secret: &[u8], staging: &mut [u8], job: &mut [u8]
) -> u32 {
    // Sound: see the top of this file.
    unsafe {
        keeper_save(sizes.pages, sizes.slots, ring.as_ptr(), ring.len(), fram.as_ptr(), fram.len(),
            key.as_ptr(), key.len(), nonce.as_ptr(), nonce.len(), from.as_ptr(), from.len(),
            packet, open_part.as_ptr(), open_part.len(), secret.as_ptr(), secret.len(),
            staging.as_mut_ptr(), staging.len(), job.as_mut_ptr(), job.len())
    }
}

/// Starts a power-up: the secret part goes to the front of `state`, its length into `secret_len`, the checkpoint
/// sealed anew into `staging`, its job into `job`.
#[allow(clippy::too_many_arguments)]
pub fn power_up(
    sizes: Sizes, ring: &[u8], fram: &[u8], key: &[u8], nonce: &[u8], staging: &mut [u8], state: &mut [u8],
    job: &mut [u8], secret_len: &mut usize
) -> u32 {
    // Sound: see the top of this file.
    unsafe {
        keeper_power_up(sizes.pages, sizes.slots, ring.as_ptr(), ring.len(), fram.as_ptr(), fram.len(),
            key.as_ptr(), key.len(), nonce.as_ptr(), nonce.len(), staging.as_mut_ptr(), staging.len(),
            state.as_mut_ptr(), state.len(), job.as_mut_ptr(), job.len(), secret_len)
    }
}

/// Looks at the newest checkpoint: its restarts, and where in the FRAM image its open part stands.
#[allow(clippy::too_many_arguments)]
pub fn look(
    sizes: Sizes, ring: &[u8], fram: &[u8], key: &[u8], restarts: &mut u32, open_start: &mut usize,
    open_len: &mut usize
) -> u32 {
    // Sound: see the top of this file.
    unsafe {
        keeper_look(sizes.pages, sizes.slots, ring.as_ptr(), ring.len(), fram.as_ptr(), fram.len(),
            key.as_ptr(), key.len(), restarts, open_start, open_len)
    }
}

/// Makes the one store that the job's phase names and moves the job on; the last one writes the new session.
pub fn advance(
    sizes: Sizes, ring: &mut [u8], fram: &mut [u8], staging: &[u8], job: &mut [u8], session: &mut [u8]
) -> u32 {
    // Sound: see the top of this file.
    unsafe {
        keeper_advance(sizes.pages, sizes.slots, ring.as_mut_ptr(), ring.len(), fram.as_mut_ptr(), fram.len(),
            staging.as_ptr(), staging.len(), job.as_mut_ptr(), job.len(), session.as_mut_ptr(), session.len())
    }
}

/// Writes the image as Intel HEX to the front of `text`, and the text's length into `written`.
pub fn hex_export(image: &[u8], text: &mut [u8], written: &mut usize) -> u32 {
    // Sound: see the top of this file.
    unsafe { keeper_hex_export(image.as_ptr(), image.len(), text.as_mut_ptr(), text.len(), written) }
}

/// Reads Intel HEX into the image.
pub fn hex_import(text: &[u8], image: &mut [u8]) -> u32 {
    // Sound: see the top of this file.
    unsafe { keeper_hex_import(text.as_ptr(), text.len(), image.as_mut_ptr(), image.len()) }
}

/// Writes a ring of the bench into `ring`, by its number.
pub fn ring_shape(sizes: Sizes, number: usize, ring: &mut [u8]) -> u32 {
    // Sound: see the top of this file.
    unsafe { keeper_ring_shape(sizes.pages, sizes.slots, number, ring.as_mut_ptr(), ring.len()) }
}

/// Checks a ring and a FRAM image that should be what a first save leaves.
pub fn factory_check(sizes: Sizes, ring: &[u8], fram: &[u8], key: &[u8]) -> u32 {
    // Sound: see the top of this file.
    unsafe {
        keeper_factory_check(sizes.pages, sizes.slots, ring.as_ptr(), ring.len(), fram.as_ptr(), fram.len(),
            key.as_ptr(), key.len())
    }
}

/// Writes the positions of `entries` in chain order to the front of `positions`.
pub fn chain_order(entries: &[u8], positions: &mut [u8]) -> u32 {
    // Sound: see the top of this file.
    unsafe { keeper_chain_order(entries.as_ptr(), entries.len(), positions.as_mut_ptr(), positions.len()) }
}

/// Reads the volume and the alert delay of a list of settings.
pub fn settings_read(list: &[u8], volume: &mut u32, delay: &mut u32) -> u32 {
    // Sound: see the top of this file.
    unsafe { keeper_settings_read(list.as_ptr(), list.len(), volume, delay) }
}

/// Changes the setting of a kind where it stands in a list.
pub fn settings_write(list: &mut [u8], kind: u32, value: u32) -> u32 {
    // Sound: see the top of this file.
    unsafe { keeper_settings_write(list.as_mut_ptr(), list.len(), kind, value) }
}

/// Zeroes a buffer of any length.
pub fn wipe(buffer: &mut [u8]) {
    // Sound: see the top of this file.
    unsafe { keeper_wipe(buffer.as_mut_ptr(), buffer.len()) }
}
