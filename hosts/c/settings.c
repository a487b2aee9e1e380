/* Settings in the open part: saved with a unit's first checkpoint, looked up after the supply failed in a save, changed and saved again. The list
 * is one of version 2, with a setting of a kind that this firmware does not know and keeps. */
#include "keeper.h"

#include <stdio.h>
#include <string.h>

enum { PAGES = 3, SLOTS = 2, FRAM_SIZE = 256, WORDS = 4, UNKNOWN_KIND = 7 };

static const uint8_t key[KEEPER_KEY_SIZE_256] = {7};
static uint8_t ring[KEEPER_SLOT_SIZE * PAGES * SLOTS], fram[FRAM_SIZE], staging[FRAM_SIZE / 2], state[KEEPER_STATE_SIZE];
static uint8_t job[KEEPER_JOB_SIZE], session[KEEPER_SESSION_SIZE];

/* Starts a save of the list, after a starting tag or a session; `number` serves for nonce and packet number. On a unit the random generator
 * makes each nonce. */
static uint32_t save(const uint8_t *from, size_t from_len, uint8_t number, const uint8_t *list, size_t list_len)
{
    static const uint8_t timer[4] = {'0', ':', '0', '0'};
    const uint8_t nonce[KEEPER_NONCE_SIZE] = {number};
    return keeper_save(PAGES, SLOTS, ring, sizeof ring, fram, sizeof fram, key, sizeof key, nonce, sizeof nonce, from, from_len, number,
                       list, list_len, timer, sizeof timer, staging, sizeof staging, job, sizeof job);
}

/* Makes so many stores of the job, or all where there are fewer. */
static uint32_t store(int stores)
{
    uint32_t answer = KEEPER_GOING_ON;
    for (int made = 0; made < stores && answer == KEEPER_GOING_ON; made++)
        answer = keeper_advance(PAGES, SLOTS, ring, sizeof ring, fram, sizeof fram, staging, sizeof staging, job, sizeof job,
                                session, sizeof session);
    return answer;
}

/* Looks the list up in the FRAM and copies it out; answers its length. The secret part stays sealed. On 23 to 25 the open part is no list of
 * this kind: a unit takes its defaults then, and makes a new one. */
static size_t look_up(const char *when, uint8_t *list, size_t room)
{
    uint32_t restarts = 0, volume = 0, delay = 0;
    size_t start = 0, len = 0;
    uint32_t answer = keeper_look(PAGES, SLOTS, ring, sizeof ring, fram, sizeof fram, key, sizeof key, &restarts, &start, &len);
    if (answer != KEEPER_DONE || len > room)
        return 0;
    answer = keeper_settings_read(fram + start, len, &volume, &delay);
    if (answer != KEEPER_DONE)
        return 0;
    printf("%s: volume %u, delay %u s, %u words, the last", when, (unsigned)volume, (unsigned)delay, (unsigned)(len / 4));
    for (size_t i = len - 4; i < len; i++)
        printf(" %02x", fram[start + i]);
    printf("\n");
    memcpy(list, fram + start, len);
    return len;
}

/* A write that is refused: its answer, and whether the list changed. */
static void refused(const char *what, const uint8_t *list, size_t len, uint32_t kind, uint32_t value)
{
    uint8_t copy[4 * WORDS];
    memcpy(copy, list, len);
    uint32_t answer = keeper_settings_write(copy, len, kind, value);
    printf("%s: %u%s\n", what, (unsigned)answer, memcmp(copy, list, len) == 0 ? "" : ", and written to");
}

int main(void)
{
    static const uint8_t starting_tag[KEEPER_TAG_SIZE] = {9};
    uint8_t list[4 * WORDS] = {KEEPER_LIST_VERSION << 4, 0, 0, 2, KEEPER_VOLUME << 4, 0, 0, 3, KEEPER_ALERT_DELAY << 4, 0, 0, 30,
                               UNKNOWN_KIND << 4, 0, 0x12, 0x67};
    size_t len = sizeof list;
    memset(ring, 0xFF, sizeof ring);
    if (save(starting_tag, sizeof starting_tag, 1, list, len) != KEEPER_DONE || store(100) != KEEPER_SAVED)
        return 1;
    len = look_up("saved", list, sizeof list);

    /* The supply fails in a save with volume 15, after five of its stores. */
    if (len == 0 || keeper_settings_write(list, len, KEEPER_VOLUME, 15) != KEEPER_DONE)
        return 1;
    if (save(session, sizeof session, 2, list, len) != KEEPER_DONE || store(5) != KEEPER_GOING_ON)
        return 1;
    memset(list, 0, sizeof list);
    len = look_up("after the cut", list, sizeof list);

    /* The unit powers up, is set to volume 9, and saves. */
    const uint8_t nonce[KEEPER_NONCE_SIZE] = {3};
    size_t secret_len = 0;
    if (keeper_power_up(PAGES, SLOTS, ring, sizeof ring, fram, sizeof fram, key, sizeof key, nonce, sizeof nonce, staging, sizeof staging,
                        state, sizeof state, job, sizeof job, &secret_len) != KEEPER_DONE || store(100) != KEEPER_RESTORED)
        return 1;
    if (len == 0 || keeper_settings_write(list, len, KEEPER_VOLUME, 9) != KEEPER_DONE)
        return 1;
    if (save(session, sizeof session, 4, list, len) != KEEPER_DONE || store(100) != KEEPER_SAVED)
        return 1;
    len = look_up("saved again", list, sizeof list);
    if (len == 0)
        return 1;

    refused("a delay of 301 s", list, len, KEEPER_ALERT_DELAY, 301);
    refused("a volume of 16", list, len, KEEPER_VOLUME, 16);
    refused("another version", list, len, KEEPER_LIST_VERSION, 1);
    refused("a kind that is not there", list, len, 3, 0);
    refused("a value of 29 bits", list, len, UNKNOWN_KIND, UINT32_C(1) << 28);
    refused("a broken word", list, len - 1, KEEPER_VOLUME, 1);
    return 0;
}
