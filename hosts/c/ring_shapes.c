/* The rings of the bench, of every size, each fed to a power-up. The FRAM is erased, so that a power-up finds no checkpoint: it gives 6 on
 * number 0, which is blank, and 11 on every other, which is readable. A line for each size has the answers, and the one past the last ring.
 */
#include "keeper.h"

#include <stdio.h>
#include <string.h>

enum { LARGEST = 4, FRAM_SIZE = 96 };

static const uint8_t key[KEEPER_KEY_SIZE_128];
static const uint8_t nonce[KEEPER_NONCE_SIZE];
static uint8_t ring[KEEPER_SLOT_SIZE * LARGEST * LARGEST], fram[FRAM_SIZE], staging[FRAM_SIZE / 2], state[KEEPER_STATE_SIZE];

static uint32_t powered_up(size_t pages, size_t slots, size_t length)
{
    uint8_t job[KEEPER_JOB_SIZE];
    size_t secret_len;
    return keeper_power_up(pages, slots, ring, length, fram, sizeof fram, key, sizeof key, nonce, sizeof nonce,
                           staging, sizeof staging, state, sizeof state, job, sizeof job, &secret_len);
}

int main(void)
{
    memset(fram, 0xFF, sizeof fram);
    for (size_t pages = 3; pages <= LARGEST; pages++) {
        for (size_t slots = 2; slots <= LARGEST; slots++) {
            size_t length = KEEPER_SLOT_SIZE * pages * slots;
            size_t number = 0;
            uint32_t answer;
            printf("%zu by %zu:", pages, slots);
            while ((answer = keeper_ring_shape(pages, slots, number, ring, length)) == KEEPER_DONE) {
                printf(" %u", (unsigned)powered_up(pages, slots, length));
                number++;
            }
            printf("; %zu rings, then %u\n", number, (unsigned)answer);
            if (number != KEEPER_RING_SHAPES(pages, slots) || answer != KEEPER_PAST_LAST_SHAPE)
                return 1;
        }
    }
    return 0;
}
