/* The checkpoint keeper of a baby monitor's parent unit: the calls for C.
 *
 * Link target/staticlib/libkeeper_c.a, which `hosts/build keeper_c` makes for x86-64 Linux; size_t is 64 bits. The library is proved: every
 * call ends, and answers and leaves in the caller's memory what its contract in crates/keeper_c/src says, for all numbers and bytes that it
 * can be given. It keeps no state, has no heap, and calls nothing but memcpy and memset. Nothing checks this header against it; it was
 * written from the functions marked `extern "C"` there.
 *
 * What no call can check, and the caller owes
 * - Each pointer with the length after it is a buffer of at least that length. No pointer is null, not even that of an empty buffer.
 *   Pointers to numbers are aligned; byte buffers need no alignment.
 * - A buffer or number that a call writes overlaps no other argument of the call (so no sealing or opening in place), and nobody else, no
 *   interrupt and no DMA, touches an argument while the call runs.
 * - One key, one number of pages and slots and one FRAM length for the unit's life. The key is 16 bytes, for AES-128, or 32, for AES-256;
 *   which of the two is not stored, and a key of the other length is another key.
 * - A nonce is used up once a start or keeper_seal answered 0 with it, even if its job is never finished. It must never be used again under
 *   the same key, over all restarts.
 * - One job at a time: a start drops the job before it, which must not be advanced any more. Staging stays as the start left it until the
 *   job is done; key, nonce and parts need not be kept.
 * - Only ring and FRAM outlive a restart. Job, session, staging and state are made anew by a power-up.
 *
 * The memories
 * `ring` is the nonce ring in flash: pages x slots x 16 bytes, pages 3 to 32, slots 2 to 512; a page is what one erase of the chip clears.
 * `fram` is the FRAM: 88 to 262,144 bytes, a multiple of 8, in two halves. Only keeper_advance writes to a unit's memories, one store for
 * each call:
 *     phase 1 or 4   the page in bytes 4..8 of the job, set to 0xFF
 *     phase 2        4 bytes of the FRAM at half x fram_len / 2 + 4 x (the word in bytes 4..8 of the job)
 *     phase 3        the record, 16 bytes of the ring at 16 x (target page x slots + target slot)
 * as the job stood before the call. Where plain stores do not reach the chip (flash, as a rule), lend images in RAM and program that store
 * after each advance; in any case it must have reached the chip before the next call. If the chip refuses it, drop images and job, read the
 * chips again and power up.
 * The power may fail between two stores and in any of them. A word or page cut into may hold any bytes. A record must be whole or not there:
 * program its 16 bytes as one.
 * Every pages x slots saves and power-ups erase each page once.
 * A checkpoint is 48 bytes and both parts, so that a FRAM of 88 bytes holds none. Checkpoints of the older form, of 44 bytes and both parts
 * and without a packet number, are still read; a power-up seals them anew in the longer form. Firmware that takes parts of up to 4,096 bytes
 * only refuses a checkpoint with a larger one by 11.
 *
 * Restarts and packet numbers
 * A power-up's checkpoint has one restart more than the one it resumes; at 8 the next power-up stops. A save brings the number of the packet
 * last heard. Above the number stored before it sets restarts to 0; otherwise restarts carry over, so that a unit which hears only repeats
 * stops all the same.
 *
 * The answers
 * keeper_wipe answers nothing; keeper_advance answers 256 and up or a stop; every other call answers 0 or a stop. A stop changes nothing in
 * the caller's memory. The lowest number that applies is given, but 18 right after 4; at power-up 10 after 13, and after 10 the 4 for a
 * checkpoint that does not fit its half in the longer form; of a chain 4 after 21; of a text, the lowest that applies to its first bad line.
 *
 * Not proved: time (the costs below are those of the source), and what is left on the stack. Run under memcheck (hosts/constant_time), the
 * calls make no jump and use no address that depends on key, tags, parts or sealed text, but for AES's look-ups in its tables and one jump on
 * whether a tag is right. keeper_chain_order and the two calls on settings are not meant for secrets: they go by the tags in their entries and
 * by the words of a list, which the FRAM shows to anyone.
 */
#ifndef KEEPER_H
#define KEEPER_H

#include <stddef.h>
#include <stdint.h>

#ifdef __cplusplus
extern "C" {
#endif

enum keeper_answer {
    KEEPER_DONE = 0,
    KEEPER_RING_SIZE = 1,           /* pages, slots or the ring's length wrong; ring shape: also more than 4 pages or 4 slots */
    KEEPER_FRAM_SIZE = 2,           /* the length of the FRAM, or of an image to export or import, wrong */
    KEEPER_KEY_NONCE_TAG_SIZE = 3,  /* key neither 16 nor 32, nonce not 12 or tag not 16 bytes; save: `from` neither 16 bytes nor 48 */
    KEEPER_BUFFER_SIZE = 4,         /* a part not a multiple of 4 bytes, above 32,768, or the checkpoint longer than a half; staging, state,
                                       output, text or position buffer too short; a session buffer to be written not 48 bytes; text or
                                       associated data above 65,536; power-up, after 10: a checkpoint of the older form does not fit its half
                                       in the longer one */
    KEEPER_RING_IN_USE = 5,         /* save with a starting tag: the ring is not blank */
    KEEPER_RING_BLANK = 6,          /* the ring is wholly blank: a new unit, or an erased flash */
    KEEPER_RING_UNREADABLE = 7,     /* the ring is not readable */
    KEEPER_STALE_SESSION = 8,       /* the session's page, slot or record is not the newest, its restarts are above 8 or its packet number
                                       above KEEPER_LARGEST_PACKET: finish the job that is under way, or power up */
    KEEPER_PAGE_PENDING = 9,        /* save with a session: a page awaits erasing; power up */
    KEEPER_NONCE_USED = 10,         /* the nonce equals one in a record of the newest page: call again with a new one; power-up: after 13,
                                       so that a unit which must not go on says so whatever its nonce */
    KEEPER_BAD_HEAD = 11,           /* a word of the newest checkpoint's head is wrong, or the checkpoint is longer than the half */
    KEEPER_TAG_DIFFERS = 12,        /* the tag of the newest checkpoint, or the one given to keeper_open, differs: other bytes, key or nonce */
    KEEPER_RESTART_LIMIT = 13,      /* 8 restarts, and no save between that brought a newer packet number */
    KEEPER_BAD_JOB = 14,            /* the job is done; its length, half, page, slot or word is out of its range; at a record the target is not
                                       blank; or the job buffer is not 64 bytes or has an unknown phase or origin. An old copy of a job, or
                                       one of another unit, is not found out by this. */
    KEEPER_BAD_LINE = 15,           /* import: a malformed line, another type than 00, 01 and 04, a line after the end line, or no end line */
    KEEPER_BAD_CHECKSUM = 16,       /* import: a line's checksum is wrong */
    KEEPER_DATA_MISPLACED = 17,     /* import: data outside the image, past a 64 KiB boundary within a line, or not above the data before */
    KEEPER_PACKET_TOO_LARGE = 18,   /* save: the packet number is above KEEPER_LARGEST_PACKET; tried right after 4 */
    KEEPER_NOT_FIRST_SAVE = 19,     /* factory check: the newest record is not at page 0, slot 0 or names half B, a page is pending, restarts
                                       are not 0, or the head is the older one; tried after 12 */
    KEEPER_BAD_ENTRIES = 21,        /* chain order: no entries, more than KEEPER_ENTRIES_LIMIT, or a broken one; tried before 4 */
    KEEPER_NO_ORDER = 22,           /* chain order: the entries have none */
    KEEPER_BAD_LIST = 23,           /* settings: the list is not whole words, or its first word is absent or not kind 15 with value 1 or 2 */
    KEEPER_BAD_KINDS = 24,          /* settings: kind 1 or 2 is missing, or a kind is not the version's or does not rise; write: kind 15, or one
                                       that is not in the list */
    KEEPER_BAD_VALUE = 25,          /* settings: a volume above 15 or a delay not of 5 to 300 seconds; write: the new value so, or above 2^28 - 1 */
    KEEPER_PAST_LAST_SHAPE = 26,    /* ring shape: the number is past the last of that size */

    KEEPER_GOING_ON = 256,          /* keeper_advance: more stores to come */
    KEEPER_SAVED = 257,             /* keeper_advance: done; a save's checkpoint is the newest */
    KEEPER_RESTORED = 258           /* keeper_advance: done; the state may be used */
};

enum keeper_size {
    KEEPER_KEY_SIZE_128 = 16,       /* a key for AES-128 */
    KEEPER_KEY_SIZE_256 = 32,       /* a key for AES-256 */
    KEEPER_NONCE_SIZE = 12,
    KEEPER_TAG_SIZE = 16,
    KEEPER_SLOT_SIZE = 16,
    KEEPER_STATE_SIZE = 32768,      /* the least state buffer */
    KEEPER_JOB_SIZE = 64,
    KEEPER_SESSION_SIZE = 48,
    KEEPER_ENTRY_SIZE = 32,         /* an entry of a chain */
    KEEPER_ENTRIES_LIMIT = 64       /* the most of them */
};

/* Kinds of words in a list of settings; 3 to 14 are of version 2 alone, and have no names yet. */
enum keeper_kind {
    KEEPER_VOLUME = 1,              /* 0 to 15 */
    KEEPER_ALERT_DELAY = 2,         /* 5 to 300 seconds */
    KEEPER_LIST_VERSION = 15        /* the first word's: 1 or 2 */
};

/* The largest packet number: 2^30 - 1. */
#define KEEPER_LARGEST_PACKET UINT32_C(0x3FFFFFFF)

/* A job: 64 bytes. Numbers are words of 4 bytes, the most significant first.
 *    0  phase: 1 erase first, 2 words, 3 record, 4 erase after, 5 done      24  target slot
 *    4  the phase's page or word number, 0 where it has none                28  nonce, 12 bytes
 *    8  1 save, 2 power-up                                                  40  the checkpoint's tag, 16 bytes
 *   12  half: 0 A, 1 B                                                      56  the checkpoint's restarts
 *   16  length of the checkpoint in bytes                                   60  the checkpoint's packet number
 *   20  target page
 * A session: 48 bytes, of the newest record and its checkpoint.
 *    0  page                                                                24  the checkpoint's tag, 16 bytes
 *    4  slot                                                                40  its restarts
 *    8  the record, 16 bytes                                                44  its packet number
 */

/* Sealing: AES-128-GCM with a key of 16 bytes, AES-256-GCM with one of 32, a nonce of 12 bytes and a tag of 16. Text and associated data are 0
 * to 65,536 bytes each. Writes text_len bytes to `out`, which is at least as long, nothing after them, and the tag.
 * Stops: 3 (also a tag buffer that is not 16 bytes), 4. Cost: a key schedule and a set-up of GHASH, then each block of 16 bytes once, in 10
 * rounds with a key of 16 bytes and 14 with one of 32.
 */
uint32_t keeper_seal(const uint8_t *key, size_t key_len, const uint8_t *nonce, size_t nonce_len,
                     const uint8_t *aad, size_t aad_len, const uint8_t *text, size_t text_len,
                     uint8_t *out, size_t out_len, uint8_t *tag, size_t tag_len);

/* Opening: where the tag is right, writes cipher_len bytes to `out`, and nothing after them. Lengths as for keeper_seal.
 * Stops: 3, 4, 12. Cost: as sealing; where the tag differs, without the decryption.
 */
uint32_t keeper_open(const uint8_t *key, size_t key_len, const uint8_t *nonce, size_t nonce_len,
                     const uint8_t *aad, size_t aad_len, const uint8_t *cipher, size_t cipher_len,
                     const uint8_t *tag, size_t tag_len, uint8_t *out, size_t out_len);

/* A new checkpoint: seals both parts into staging and writes the job that stores it. Nothing is recorded until keeper_advance has made the
 * record. `from` says what the checkpoint follows, by its length:
 * - 16 bytes are a starting tag, random bytes that stand for the tag of a checkpoint before: the unit's first checkpoint, on a blank ring
 *   alone, with restarts 0, in half A, at page 0, slot 0;
 * - 48 bytes are the session that the last finished job left; its tag, restarts and packet number are taken as they are. If `packet` is above
 *   the session's number, it is stored with restarts 0; otherwise the session's number is, with the session's restarts;
 * - any other length is stop 3.
 * `packet` is the number of the packet last heard, 0 to KEEPER_LARGEST_PACKET; 0 where none was.
 * Parts: multiples of 4 bytes, 0 to 32,768 each; 48 bytes and both parts must fit half the FRAM. Staging: at least half the FRAM; its bytes
 * after the checkpoint keep their contents.
 * Stops: 1 to 4, 18, then 5 with a starting tag or 6 to 10 with a session, then 14 (the job buffer is not 64 bytes). Cost: one pass over the
 * ring, one sealing.
 */
uint32_t keeper_save(size_t pages, size_t slots, const uint8_t *ring, size_t ring_len,
                     const uint8_t *fram, size_t fram_len, const uint8_t *key, size_t key_len,
                     const uint8_t *nonce, size_t nonce_len, const uint8_t *from, size_t from_len,
                     uint32_t packet, const uint8_t *open_part, size_t open_len, const uint8_t *secret, size_t secret_len,
                     uint8_t *staging, size_t staging_len, uint8_t *job, size_t job_len);

/* After every restart: opens the newest checkpoint, puts its secret part at the front of `state` (at least 32,768 bytes; those after it keep
 * their contents) and its length into *secret_len, seals both parts anew, with one restart more and the same packet number, into staging, and
 * writes the job that stores it. `state` then holds plaintext; it may be used once keeper_advance has answered KEEPER_RESTORED, and is the
 * caller's to wipe. A checkpoint of the older form has packet number 0 and is sealed anew in the longer form, 4 bytes longer; where that does
 * not fit the half, the power-up gives 4 after 10.
 * On 6 save with a starting tag; on 10 call again with a new nonce, a few times at most; on any other stop sound the alert. After 7, 11, 12,
 * 13 and that 4 only erasing the whole ring and a save with a starting tag go on, and the state is lost.
 * Stops: 1 to 4, 6, 7, 11 to 13, 10, 4 again, 14 (the job buffer is not 64 bytes). Cost: one reading of the ring; the checkpoint is hashed
 * once, decrypted once and sealed once.
 */
uint32_t keeper_power_up(size_t pages, size_t slots, const uint8_t *ring, size_t ring_len,
                     const uint8_t *fram, size_t fram_len, const uint8_t *key, size_t key_len,
                     const uint8_t *nonce, size_t nonce_len, uint8_t *staging, size_t staging_len,
                     uint8_t *state, size_t state_len, uint8_t *job, size_t job_len, size_t *secret_len);

/* The restarts of the newest checkpoint, whose tag was compared, and where its open part lies: *open_len bytes at byte *open_start of `fram`,
 * until an advance stores to that half again.
 * Stops: 1 to 3, 6, 7, 11, 12. Cost: one reading of the ring; the checkpoint is hashed once.
 */
uint32_t keeper_look(size_t pages, size_t slots, const uint8_t *ring, size_t ring_len,
                     const uint8_t *fram, size_t fram_len, const uint8_t *key, size_t key_len,
                     uint32_t *restarts, size_t *open_start, size_t *open_len);

/* Makes the one store that the job's phase names, and moves the job on in its buffer. Give it staging as the start left it, and the job as
 * the start or the last advance left it. Answers KEEPER_GOING_ON; at the job's last store KEEPER_SAVED or KEEPER_RESTORED, and only then
 * `session` is written: the new session. A checkpoint of n bytes takes n / 4 words, a record and one erase at most: first, where a page was
 * pending, or last, where the record is the first of its page and the page before is not blank.
 * Stops: 1, 2, 4, 14. Cost: constant for a word; for a record, constant, and into slot 0 a test of the page before; for an erase one page.
 */
uint32_t keeper_advance(size_t pages, size_t slots, uint8_t *ring, size_t ring_len,
                     uint8_t *fram, size_t fram_len, const uint8_t *staging, size_t staging_len,
                     uint8_t *job, size_t job_len, uint8_t *session, size_t session_len);

/* An image as Intel HEX, for a programmer: uppercase lines of 16 data bytes (the last may be shorter), a type 04 line first and again
 * whenever the upper 16 address bits change, and the end line; a line feed closes each. The image is 1 to 262,144 bytes, of a FRAM or of
 * any other memory. *written is the text's length, KEEPER_HEX_SIZE(image_len); the bytes of `text` after it keep their contents.
 * Stops: 2, 4. Cost: one pass over the image.
 */
uint32_t keeper_hex_export(const uint8_t *image, size_t image_len, uint8_t *text, size_t text_len, size_t *written);

/* The length of the export of an image of 1 to 262,144 bytes; 720,972 at the most. */
#define KEEPER_HEX_SIZE(image_len) \
    (2 * (image_len) + 12 * (((image_len) + 15) / 16) + 16 * (((image_len) + 65535) / 65536) + 12)

/* Reads Intel HEX into an image of 1 to 262,144 bytes; bytes that no data line names keep their contents. The export of an image of the
 * same length restores that image.
 * Digits are of either letter case, and a line closes with a line feed, which may have one carriage return before it. Types: 00 with 1 to
 * 255 data bytes; 04 with two and 01, the end line, with none, both with address 0000. The upper 16 address bits are 0 until a type 04
 * line, and such lines may repeat them or go back; the addresses of data rise from line to line. An empty line is malformed.
 * Stops: 2, 15 to 17. Cost: one pass over the text to judge it and one to store.
 */
uint32_t keeper_hex_import(const uint8_t *text, size_t text_len, uint8_t *image, size_t image_len);

/* A ring for trying units at the bench: ring number `number`, counted from 0, of 3 or 4 pages and 2 to 4 slots, is written to `ring`, whose
 * length is that ring's. Number 0 is blank. Then page by page: slot 0 newest with the page before pending and full of records; slot 0 newest
 * alone; then slots 1, 2 and so on. Each record has a nonce of twelve zero bytes and names half A. There are KEEPER_RING_SHAPES(pages, slots):
 * each shape of a readable ring once, and the blank one. A power-up on such a ring opens what half A of the FRAM holds; where that is no
 * checkpoint sealed under that nonce it gives 11 or 12, and on number 0 always 6.
 * Stops: 1, 26. Cost: each byte of the ring is written once, those of records twice.
 */
uint32_t keeper_ring_shape(size_t pages, size_t slots, size_t number, uint8_t *ring, size_t ring_len);

/* How many rings keeper_ring_shape has of one size, 3 or 4 pages and 2 to 4 slots; 21 at the most. */
#define KEEPER_RING_SHAPES(pages, slots) (1 + (pages) * (slots) + (pages))

/* Checks what an assembly house programs: a new unit's ring and FRAM. Answers 0 exactly if they are what keeper_save with a starting tag
 * leaves on a blank ring, advanced to its end, with this key and these sizes, for some parts, nonce, packet number and starting tag: that ring,
 * and in the checkpoint's length of half A those bytes. All other bytes of the FRAM are free. A unit so programmed starts by a power-up.
 * An answer of 0 does not show that a unit is unused: a later save leaves such memories too, where the ring has come around.
 * Stops: 1 to 3, 6, 7, 11, 12, 19. Cost: one reading of the ring; the checkpoint is hashed once.
 */
uint32_t keeper_factory_check(size_t pages, size_t slots, const uint8_t *ring, size_t ring_len,
                     const uint8_t *fram, size_t fram_len, const uint8_t *key, size_t key_len);

/* Settings in the open part. A list is the whole part: words of 4 bytes, the most significant first, each with its kind in the top four bits
 * and its value in the other 28. The first word has kind 15 and the list's version, 1 or 2. Then kinds rise: 1, the volume, 0 to 15; 2, the
 * alert delay, 5 to 300 seconds; in version 2 also any of 3 to 14, with any value. keeper_settings_read hands out volume and delay of a list
 * of either version. keeper_settings_write changes the value of one setting where it stands, and no other word; the list can still be read.
 * keeper_look finds the list of the newest checkpoint; copy it out of the FRAM image, write to the copy, and save that. A setting that is not
 * in the list cannot be written, and a list with a stop is not mended by a write.
 * Stops: 23, 24, 25. Cost: one pass over the list, write two.
 */
uint32_t keeper_settings_read(const uint8_t *list, size_t list_len, uint32_t *volume, uint32_t *delay);
uint32_t keeper_settings_write(uint8_t *list, size_t list_len, uint32_t kind, uint32_t value);

/* Which dump came before which. An entry is 32 bytes, a checkpoint's previous tag and then its own: of a checkpoint as it stands in its half,
 * bytes 16 to 31 (12 to 27 in the older form) and the last 16. Entries stand one behind the other, 1 to 64 of them, unsorted. Writes their
 * positions, counted from 0, one byte each, in chain order to the front of `positions`; bytes behind them keep their contents. In a chain order
 * all own tags differ, the first entry's previous tag is no entry's own tag, and each later one names the entry before it. There is never more
 * than one; 22 is given exactly if there is none.
 * Stops: 21, 4, 22. Cost: at most 2 n x n + 2 n times two tags are compared, n being the number of entries.
 */
uint32_t keeper_chain_order(const uint8_t *entries, size_t entries_len, uint8_t *positions, size_t positions_len);

/* Zeroes a buffer of any length. Optimisation at link time may drop it where nothing reads the buffer any more. */
void keeper_wipe(uint8_t *buffer, size_t buffer_len);

#ifdef __cplusplus
}
#endif

#endif
