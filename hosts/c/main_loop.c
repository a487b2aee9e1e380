/* A firmware's main loop over the keeper: power up or save for the first time, make one store each turn, save when the state has changed,
 * and sound the alert on a stop. The board is simulated: its chips outlive a restart, its RAM does not, and the supply fails after a number
 * of turns that main() chooses. The radio hears packets, newer ones or repeats of the last.
 *
 * The board's chip holds a key of 32 bytes; compile with -DKEY_SIZE=16 for one that holds 16. A unit keeps the one it has.
 */
#include <stdbool.h>
#include <stdio.h>
#include <string.h>

#include "keeper.h"

#ifndef KEY_SIZE
#define KEY_SIZE KEEPER_KEY_SIZE_256
#endif
_Static_assert(KEY_SIZE == KEEPER_KEY_SIZE_128 || KEY_SIZE == KEEPER_KEY_SIZE_256, "a key that the keeper takes");

/* ---- the unit's state: the volume is open, the out-of-range timer is secret */

struct state {
    uint8_t volume[4];
    uint8_t timer[4]; /* this example counts in the last byte only */
};

enum {
    PAGES = 3,
    SLOTS = 2,
    PAGE = SLOTS * KEEPER_SLOT_SIZE,
    HALF = 64,
    CHECKPOINT = 48 + sizeof(struct state),
    STORES = CHECKPOINT / 4 + 1, /* its words and the record, where nothing is to be erased */
    NONCES = 4 /* so many used nonces in a row are the source's fault, and the alert sounds */
};
_Static_assert(CHECKPOINT <= HALF, "the checkpoint fits a half");

/* ---- the board */

/* What outlives a restart: flash, FRAM, and the source of fresh bytes, which may be stuck. */
static struct {
    uint8_t ring[PAGES * PAGE];
    uint8_t fram[2 * HALF];
    uint32_t drawn;
    bool stuck;
} chips;

/* What the nursery unit sends: the number of its last packet, and whether it sends that one again or a newer one. */
static struct {
    uint32_t packet;
    bool repeats;
} air;

/* What a restart loses. */
static struct {
    uint8_t ring[PAGES * PAGE]; /* images of the chips */
    uint8_t fram[2 * HALF];
    struct state state;
    uint32_t heard; /* the number of the packet last heard, 0 where none was since the restart */
    bool usable;  /* until then radio and sound must not look at the state */
    bool changed; /* since the last save began */
    bool storing; /* a job is under way */
    uint8_t staging[HALF];
    uint8_t opened[KEEPER_STATE_SIZE];
    size_t opened_len;
    uint8_t job[KEEPER_JOB_SIZE];
    uint8_t session[KEEPER_SESSION_SIZE];
} ram;

static void device_key(uint8_t key[KEY_SIZE]) { memset(key, 0x42, KEY_SIZE); }

/* Bytes that never come again, over all restarts. A unit draws them from its random generator; a counter in RAM would begin anew with every
 * restart. This board counts in a chip, so that the output is always the same.
 */
static void fresh_bytes(uint8_t *bytes, size_t n) {
    memset(bytes, 0, n);
    if (!chips.stuck) chips.drawn++;
    for (size_t i = 0; i < 4; i++) bytes[n - 1 - i] = (uint8_t)(chips.drawn >> (8 * i));
}

static size_t word_of(const uint8_t *job, size_t i) {
    return (size_t)job[i] << 24 | (size_t)job[i + 1] << 16 | (size_t)job[i + 2] << 8 | job[i + 3];
}

/* Programs the store that an advance of `job` has made in the images. */
static void make_durable(const uint8_t *job) {
    size_t at;
    switch (job[3]) {
    case 1:
    case 4:
        at = PAGE * word_of(job, 4);
        memcpy(chips.ring + at, ram.ring + at, PAGE);
        break;
    case 2:
        at = HALF * word_of(job, 12) + 4 * word_of(job, 4);
        memcpy(chips.fram + at, ram.fram + at, 4);
        break;
    case 3:
        at = KEEPER_SLOT_SIZE * (SLOTS * word_of(job, 20) + word_of(job, 24));
        memcpy(chips.ring + at, ram.ring + at, KEEPER_SLOT_SIZE);
        break;
    }
}

/* ---- the keeper's calls */

/* A save that follows a starting tag or a session. */
static uint32_t save_from(const uint8_t *from, size_t from_len) {
    uint8_t key[KEY_SIZE], nonce[KEEPER_NONCE_SIZE];
    uint32_t r;
    int nonces = 0;
    device_key(key);
    do {
        fresh_bytes(nonce, sizeof nonce);
        r = keeper_save(PAGES, SLOTS, ram.ring, sizeof ram.ring, ram.fram, sizeof ram.fram, key, sizeof key, nonce, sizeof nonce,
                        from, from_len, ram.heard, ram.state.volume, sizeof ram.state.volume, ram.state.timer, sizeof ram.state.timer,
                        ram.staging, sizeof ram.staging, ram.job, sizeof ram.job);
    } while (r == KEEPER_NONCE_USED && ++nonces < NONCES);
    keeper_wipe(key, sizeof key);
    ram.storing = r == KEEPER_DONE;
    return r;
}

static uint32_t first_save(void) {
    uint8_t starting_tag[KEEPER_TAG_SIZE];
    puts("  first save");
    memset(&ram.state, 0, sizeof ram.state);
    fresh_bytes(starting_tag, sizeof starting_tag);
    uint32_t r = save_from(starting_tag, sizeof starting_tag);
    ram.usable = r == KEEPER_DONE;
    return r;
}

static uint32_t save(void) {
    ram.changed = false;
    return save_from(ram.session, sizeof ram.session);
}

/* Every restart begins here. On a blank ring the unit saves for the first time. */
static uint32_t begin(void) {
    uint8_t key[KEY_SIZE], nonce[KEEPER_NONCE_SIZE];
    uint32_t r;
    int nonces = 0;
    memcpy(ram.ring, chips.ring, sizeof ram.ring);
    memcpy(ram.fram, chips.fram, sizeof ram.fram);
    device_key(key);
    do {
        fresh_bytes(nonce, sizeof nonce);
        r = keeper_power_up(PAGES, SLOTS, ram.ring, sizeof ram.ring, ram.fram, sizeof ram.fram, key, sizeof key, nonce, sizeof nonce,
                            ram.staging, sizeof ram.staging, ram.opened, sizeof ram.opened, ram.job, sizeof ram.job, &ram.opened_len);
    } while (r == KEEPER_NONCE_USED && ++nonces < NONCES);
    keeper_wipe(key, sizeof key);
    ram.storing = r == KEEPER_DONE;
    return r == KEEPER_RING_BLANK ? first_save() : r;
}

/* 'restored': takes the secret part from the buffer, and the open part from where it lies in the FRAM. Parts of other lengths are those of
 * another firmware.
 */
static uint32_t resume(void) {
    uint8_t key[KEY_SIZE];
    uint32_t restarts = 0;
    size_t open_start = 0, open_len = 0;
    device_key(key);
    uint32_t r = keeper_look(PAGES, SLOTS, ram.ring, sizeof ram.ring, ram.fram, sizeof ram.fram, key, sizeof key, &restarts,
                             &open_start, &open_len);
    keeper_wipe(key, sizeof key);
    if (r == KEEPER_DONE && (open_len != sizeof ram.state.volume || ram.opened_len != sizeof ram.state.timer)) r = KEEPER_BUFFER_SIZE;
    if (r == KEEPER_DONE) {
        memcpy(ram.state.volume, ram.fram + open_start, sizeof ram.state.volume);
        memcpy(ram.state.timer, ram.opened, sizeof ram.state.timer);
        ram.usable = true;
        printf("  restored: volume %d, timer %d, restarts %d\n", ram.state.volume[3], ram.state.timer[3], (int)restarts);
    }
    keeper_wipe(ram.opened, sizeof ram.opened);
    return r;
}

/* The one store of a turn. */
static uint32_t store(void) {
    uint8_t before[KEEPER_JOB_SIZE];
    memcpy(before, ram.job, sizeof before);
    uint32_t r = keeper_advance(PAGES, SLOTS, ram.ring, sizeof ram.ring, ram.fram, sizeof ram.fram, ram.staging, sizeof ram.staging,
                                ram.job, sizeof ram.job, ram.session, sizeof ram.session);
    if (r < KEEPER_GOING_ON) return r;
    make_durable(before);
    ram.storing = r == KEEPER_GOING_ON;
    if (r == KEEPER_SAVED) printf("  saved after packet %d\n", (int)ram.heard);
    if (r == KEEPER_RESTORED) return resume();
    return KEEPER_DONE;
}

/* ---- the main loop */

/* Answers the stop on which the alert sounds; a unit goes on sounding it. */
static uint32_t alert(uint32_t stop) {
    keeper_wipe(ram.opened, sizeof ram.opened);
    printf("  ALERT: the keeper stopped with %d\n", (int)stop);
    return stop;
}

/* Hears a packet, and has the knob moved: the state is to be saved. Whether that counts as progress is the keeper's to say. */
static void hear(void) {
    if (!air.repeats) air.packet++;
    ram.heard = air.packet;
    ram.state.volume[3]++;
    ram.state.timer[3]++;
    ram.changed = true;
}

/* A restart and its turns until the supply fails. In each of the first `packets` turns in which nothing is being stored one is heard. */
static uint32_t run(int turns, int packets) {
    memset(&ram, 0xA5, sizeof ram); /* what RAM holds after a restart means nothing */
    ram.usable = ram.changed = ram.storing = false;
    ram.heard = 0;
    uint32_t r = begin();
    if (r != KEEPER_DONE) return alert(r);
    for (int turn = 0; turn < turns; turn++) {
        if (ram.usable && !ram.storing && packets > 0) {
            packets--;
            hear();
        }
        if (ram.storing)
            r = store();
        else if (ram.changed)
            r = save();
        if (r != KEEPER_DONE) return alert(r);
        /* Radio and sound have the rest of the turn. */
    }
    printf("  the supply fails at volume %d, timer %d\n", ram.state.volume[3], ram.state.timer[3]);
    return KEEPER_DONE;
}

int main(void) {
    memset(chips.ring, 0xFF, sizeof chips.ring); /* as flash leaves the factory; the FRAM may hold anything */
    puts("a new unit: a first save, and four saves");
    if (run(100, 4) != KEEPER_DONE) return 1;
    puts("a restart; then the supply fails in a save, after five of its stores");
    if (run(STORES + 1 + 5, 1) != KEEPER_DONE) return 1;
    puts("a restart: the save before is resumed; and a save");
    if (run(100, 1) != KEEPER_DONE) return 1;
    for (int restart = 1; restart <= 4; restart++) {
        printf("restart %d with no save between\n", restart);
        if (run(2 * STORES, 0) != KEEPER_DONE) return 1;
    }
    air.repeats = true;
    for (int restart = 5; restart <= 8; restart++) {
        printf("restart %d, and a save after a repeated packet\n", restart);
        if (run(100, 1) != KEEPER_DONE) return 1;
    }
    chips.stuck = true;
    puts("restart 9, with the nonce of the last save again");
    if (run(2 * STORES, 0) != KEEPER_RESTART_LIMIT) return 1;
    chips.stuck = false;
    puts("restart 10, with a new nonce");
    return run(2 * STORES, 0) == KEEPER_RESTART_LIMIT ? 0 : 1;
}
