/* Our own first save, checked before, after, and with single bytes changed. A line has the answer of each. */
#include "keeper.h"

#include <stdio.h>
#include <string.h>

enum { PAGES = 3, SLOTS = 2, FRAM_SIZE = 128, CHECKPOINT = 48 + 8 + 4 };

static const uint8_t key[KEEPER_KEY_SIZE_256] = {7};
static uint8_t ring[KEEPER_SLOT_SIZE * PAGES * SLOTS], fram[FRAM_SIZE], staging[FRAM_SIZE / 2];

static uint32_t checked(void)
{
    return keeper_factory_check(PAGES, SLOTS, ring, sizeof ring, fram, sizeof fram, key, sizeof key);
}

static int first_save(void)
{
    static const uint8_t nonce[KEEPER_NONCE_SIZE] = {1}, starting_tag[KEEPER_TAG_SIZE] = {9};
    static const uint8_t volume[8] = {'v', 'o', 'l', 'u', 'm', 'e', ' ', '3'}, timer[4] = {'0', ':', '0', '0'};
    uint8_t job[KEEPER_JOB_SIZE], session[KEEPER_SESSION_SIZE];
    uint32_t answer = keeper_save(PAGES, SLOTS, ring, sizeof ring, fram, sizeof fram, key, sizeof key, nonce, sizeof nonce,
                                  starting_tag, sizeof starting_tag, 0, volume, sizeof volume, timer, sizeof timer,
                                  staging, sizeof staging, job, sizeof job);
    if (answer != KEEPER_DONE)
        return 0;
    do
        answer = keeper_advance(PAGES, SLOTS, ring, sizeof ring, fram, sizeof fram, staging, sizeof staging,
                                job, sizeof job, session, sizeof session);
    while (answer == KEEPER_GOING_ON);
    return answer == KEEPER_SAVED;
}

/* The answer where one byte is another. */
static uint32_t damaged(uint8_t *byte, uint8_t value)
{
    uint8_t before = *byte;
    *byte = value;
    uint32_t answer = checked();
    *byte = before;
    return answer;
}

int main(void)
{
    memset(ring, 0xFF, sizeof ring);
    printf("a blank ring: %u\n", (unsigned)checked());
    if (!first_save())
        return 1;
    printf("a first save: %u\n", (unsigned)checked());
    printf("a byte behind the checkpoint: %u\n", (unsigned)damaged(&fram[CHECKPOINT], 1));
    printf("a byte of half B: %u\n", (unsigned)damaged(&fram[FRAM_SIZE - 1], 1));
    printf("the tag's last byte: %u\n", (unsigned)damaged(&fram[CHECKPOINT - 1], (uint8_t)~fram[CHECKPOINT - 1]));
    printf("a wrong head word: %u\n", (unsigned)damaged(&fram[4], 0));
    printf("a byte in the last page: %u\n", (unsigned)damaged(&ring[sizeof ring - 1], 0));
    printf("a wrong place word: %u\n", (unsigned)damaged(&ring[KEEPER_NONCE_SIZE], 0));
    memcpy(fram + FRAM_SIZE / 2, fram, CHECKPOINT);
    printf("half B named, with the same checkpoint: %u\n", (unsigned)damaged(&ring[KEEPER_SLOT_SIZE - 1], 1));
    return 0;
}
