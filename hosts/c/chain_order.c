/* The checkpoints of a unit that is saved and restarted in turn, collected as a bench would: one dump after each, kept in another order. A line
 * has the answer for each set of dumps, and their positions in the order in which they were made. */
#include "keeper.h"

#include <stdio.h>
#include <string.h>

enum { PAGES = 3, SLOTS = 2, FRAM_SIZE = 128, CHECKPOINT = 48 + 8 + 4, DUMPS = 5 };

static const uint8_t key[KEEPER_KEY_SIZE_128] = {7};
static uint8_t ring[KEEPER_SLOT_SIZE * PAGES * SLOTS], fram[FRAM_SIZE], staging[FRAM_SIZE / 2], state[KEEPER_STATE_SIZE];
static uint8_t dumps[DUMPS][KEEPER_ENTRY_SIZE];

/* Saves, at first with a starting tag, or restarts, and takes the entry of the checkpoint made. */
static int next_dump(int number)
{
    static const uint8_t starting_tag[KEEPER_TAG_SIZE] = {9};
    static const uint8_t volume[8] = {'v', 'o', 'l', 'u', 'm', 'e', ' ', '3'}, timer[4] = {'0', ':', '0', '0'};
    static uint8_t session[KEEPER_SESSION_SIZE];
    const uint8_t nonce[KEEPER_NONCE_SIZE] = {(uint8_t)(number + 1)};
    uint8_t job[KEEPER_JOB_SIZE];
    size_t secret_len;
    uint32_t answer;
    if (number % 2 == 1)
        answer = keeper_power_up(PAGES, SLOTS, ring, sizeof ring, fram, sizeof fram, key, sizeof key, nonce, sizeof nonce,
                                 staging, sizeof staging, state, sizeof state, job, sizeof job, &secret_len);
    else
        answer = keeper_save(PAGES, SLOTS, ring, sizeof ring, fram, sizeof fram, key, sizeof key, nonce, sizeof nonce,
                             number == 0 ? starting_tag : session, number == 0 ? sizeof starting_tag : sizeof session,
                             (uint32_t)number, volume, sizeof volume, timer, sizeof timer, staging, sizeof staging, job, sizeof job);
    if (answer != KEEPER_DONE)
        return 0;
    do
        answer = keeper_advance(PAGES, SLOTS, ring, sizeof ring, fram, sizeof fram, staging, sizeof staging,
                                job, sizeof job, session, sizeof session);
    while (answer == KEEPER_GOING_ON);
    memcpy(dumps[number], staging + 16, KEEPER_TAG_SIZE);
    memcpy(dumps[number] + KEEPER_TAG_SIZE, staging + CHECKPOINT - KEEPER_TAG_SIZE, KEEPER_TAG_SIZE);
    return answer == KEEPER_SAVED || answer == KEEPER_RESTORED;
}

/* The call on these dumps, each named by its number, with room for so many positions. */
static void sorted(const char *what, const char *numbers, size_t room)
{
    uint8_t entries[KEEPER_ENTRIES_LIMIT * KEEPER_ENTRY_SIZE], positions[KEEPER_ENTRIES_LIMIT];
    size_t count = strlen(numbers);
    for (size_t i = 0; i < count; i++)
        memcpy(entries + i * KEEPER_ENTRY_SIZE, dumps[numbers[i] - '0'], KEEPER_ENTRY_SIZE);
    memset(positions, 0xEE, sizeof positions);
    uint32_t answer = keeper_chain_order(entries, count * KEEPER_ENTRY_SIZE, positions, room);
    printf("%s, %s: %u", what, numbers, (unsigned)answer);
    for (size_t k = 0; k < sizeof positions && positions[k] != 0xEE; k++)
        printf(" %u", (unsigned)positions[k]);
    printf("\n");
}

int main(void)
{
    memset(ring, 0xFF, sizeof ring);
    for (int number = 0; number < DUMPS; number++)
        if (!next_dump(number))
            return 1;
    sorted("all dumps", "30412", KEEPER_ENTRIES_LIMIT);
    sorted("the last three", "243", 3);
    sorted("a single one", "2", 1);
    sorted("one missing", "3041", KEEPER_ENTRIES_LIMIT);
    sorted("one taken twice", "304120", KEEPER_ENTRIES_LIMIT);
    sorted("room for four", "30412", 4);
    sorted("none", "", KEEPER_ENTRIES_LIMIT);
    return 0;
}
