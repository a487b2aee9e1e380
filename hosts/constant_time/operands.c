/*
 * Which jumps and addresses of the compiled code depend on secrets. Each function runs with operands that are marked as undefined, and
 * valgrind's memcheck reports every jump and every address that depends on an undefined bit:
 *
 * - of the product of blocks, GHASH and the comparison of tags nothing may be reported, whatever both operands hold;
 * - of the calls that take a key, with key, starting tag, parts and stored bytes undefined, nothing but the look-ups in AES's tables, which
 *   aes_tables.supp names, and where a text or a checkpoint is opened or looked at one jump: whether the tag is right, which the answer tells
 *   anyway; with keys of 16 bytes and of 32;
 * - of a multiplication whose fold is a branch, and of a comparison with an early way out, something must be, or this test could not fail.
 *
 * Numbers of bytes, the key's too, ring, nonce and the words of a head are no secrets. A conditional move is no jump, and memcheck does not
 * report it.
 */
#include <stdbool.h>
#include <stdint.h>
#include <stdio.h>
#include <string.h>
#include <valgrind/memcheck.h>

#include "keeper.h"

/* crates/constant_time */
void constant_time_product(const uint8_t *x, size_t x_len, const uint8_t *h, size_t h_len, uint64_t *hi, uint64_t *lo);
bool constant_time_ghash(const uint8_t *h, size_t h_len, const uint8_t *aad, size_t aad_len, const uint8_t *cipher, size_t cipher_len,
                         uint64_t *hi, uint64_t *lo);
bool constant_time_same(const uint8_t *a, size_t a_len, const uint8_t *b, size_t b_len);
void variable_time_halve(uint64_t *hi, uint64_t *lo);
bool variable_time_same(const uint8_t *a, size_t a_len, const uint8_t *b, size_t b_len);

static const char *running;
static bool failed;

static void need(bool ok, const char *what)
{
    if (!ok) {
        printf("%s: %s\n", running, what);
        failed = true;
    }
}

/* ---- marks */

static void undefined(void *p, size_t n)
{
    (void)VALGRIND_MAKE_MEM_UNDEFINED(p, n);
}

static void defined(void *p, size_t n)
{
    (void)VALGRIND_MAKE_MEM_DEFINED(p, n);
}

/* A result must depend on undefined operands in every byte: otherwise the marks did not reach it. It is then defined, to be looked at. */
static void result(void *p, size_t n)
{
    uint8_t marks[128];
    bool all = n <= sizeof marks && VALGRIND_GET_VBITS(p, marks, n) == 1;
    for (size_t i = 0; all && i < n; i++)
        all = marks[i] != 0;
    need(all, "the result does not depend on the operands");
    defined(p, n);
}

/* An answer, which may depend on undefined operands. */
static uint32_t answer(uint32_t r)
{
    defined(&r, sizeof r);
    return r;
}

/* ---- operands */

struct block {
    uint64_t hi, lo;
};

static bool equal(struct block a, struct block b)
{
    return a.hi == b.hi && a.lo == b.lo;
}

static void fill(uint8_t *p, size_t n)
{
    static uint64_t s = 0x9e3779b97f4a7c15;
    for (size_t i = 0; i < n; i++) {
        s ^= s << 13;
        s ^= s >> 7;
        s ^= s << 17;
        p[i] = (uint8_t)(s >> 32);
    }
}

enum { OPERANDS = 10 };

/* Zeros, ones, the first and the last bit alone, and others. */
static void operand(int k, uint8_t *p)
{
    fill(p, 16);
    if (k < 4)
        memset(p, k == 1 ? 0xff : 0, 16);
    if (k == 2)
        p[0] = 0x80;
    if (k == 3)
        p[15] = 0x01;
}

static struct block block_at(const uint8_t *p, size_t n)
{
    uint8_t b[16] = {0};
    struct block r = {0, 0};
    memcpy(b, p, n < 16 ? n : 16);
    for (int i = 0; i < 8; i++) {
        r.hi = r.hi << 8 | b[i];
        r.lo = r.lo << 8 | b[8 + i];
    }
    return r;
}

/* ---- products and hashes */

static struct block product(const uint8_t *x, const uint8_t *h)
{
    struct block r;
    constant_time_product(x, 16, h, 16, &r.hi, &r.lo);
    return r;
}

/* SP 800-38D, algorithm 1, with the fold as a branch. It has no other branch on its operands. */
static struct block multiplied(struct block x, struct block v)
{
    struct block z = {0, 0};
    for (int i = 0; i < 128; i++) {
        uint64_t mask = -((i < 64 ? x.hi : x.lo) >> (63 - i % 64) & 1);
        z.hi ^= mask & v.hi;
        z.lo ^= mask & v.lo;
        variable_time_halve(&v.hi, &v.lo);
    }
    return z;
}

static struct block branching_product(const uint8_t *x, const uint8_t *h)
{
    return multiplied(block_at(x, 16), block_at(h, 16));
}

static void multiply(struct block of(const uint8_t *x, const uint8_t *h))
{
    for (int j = 0; j < OPERANDS; j++)
        for (int k = 0; k < OPERANDS; k++) {
            uint8_t x[16], h[16];
            operand(j, x);
            operand(k, h);
            struct block right = branching_product(x, h);
            undefined(x, 16);
            undefined(h, 16);
            struct block r = of(x, h);
            result(&r, sizeof r);
            need(equal(r, right), "another product");
        }
}

static void products(void)
{
    multiply(product);
}

static void branching_products(void)
{
    multiply(branching_product);
}

static struct block hashed(struct block y, const uint8_t *h, const uint8_t *s, size_t n)
{
    for (size_t at = 0; at < n; at += 16) {
        struct block x = block_at(s + at, n - at);
        x.hi ^= y.hi;
        x.lo ^= y.lo;
        y = multiplied(x, block_at(h, 16));
    }
    return y;
}

static const struct {
    size_t aad, text;
} sizes[] = {{0, 1}, {16, 0}, {20, 60}, {31, 32}, {48, 33}, {100, 128}};

enum { SIZES = sizeof sizes / sizeof *sizes, LARGEST = 128 };

static void hashes(void)
{
    for (int k = 0; k < SIZES; k++) {
        uint8_t h[16], a[LARGEST], c[LARGEST], lengths[16] = {0};
        size_t an = sizes[k].aad, cn = sizes[k].text;
        fill(h, 16);
        fill(a, an);
        fill(c, cn);
        lengths[6] = (uint8_t)(8 * an >> 8);
        lengths[7] = (uint8_t)(8 * an);
        lengths[14] = (uint8_t)(8 * cn >> 8);
        lengths[15] = (uint8_t)(8 * cn);
        struct block right = hashed(hashed(hashed((struct block){0, 0}, h, a, an), h, c, cn), h, lengths, 16), r;
        undefined(h, 16);
        undefined(a, an);
        undefined(c, cn);
        need(constant_time_ghash(h, 16, a, an, c, cn, &r.hi, &r.lo), "refused");
        result(&r, sizeof r);
        need(equal(r, right), "another hash");
    }
}

/* ---- comparisons */

static void compare(bool same(const uint8_t *a, size_t a_len, const uint8_t *b, size_t b_len))
{
    for (int k = 0; k <= 16; k++) {
        uint8_t a[16], b[16];
        fill(a, 16);
        memcpy(b, a, 16);
        if (k < 16)
            b[k] ^= 1;
        undefined(a, 16);
        undefined(b, 16);
        bool r = same(a, 16, b, 16);
        defined(&r, sizeof r);
        need(r == (k == 16), "another answer");
    }
}

static void comparisons(void)
{
    compare(constant_time_same);
}

static void early_comparisons(void)
{
    compare(variable_time_same);
}

/* ---- the unit's calls */

enum { PAGES = 3, SLOTS = 2, RING = PAGES * SLOTS * KEEPER_SLOT_SIZE, HALF = 256, OPEN = 40, SECRET = 60, CHECKPOINT = 48 + OPEN + SECRET };

static size_t key_len;
static uint8_t key[KEEPER_KEY_SIZE_256], nonce[12], starting_tag[16], open_part[OPEN], secret[SECRET], right_secret[SECRET];
static uint8_t ring[RING], fram[2 * HALF], staging[HALF], state[KEEPER_STATE_SIZE], job[KEEPER_JOB_SIZE], session[KEEPER_SESSION_SIZE];

/* Runs the job to its end. */
static void advances(uint32_t end)
{
    uint32_t r;
    result(staging + CHECKPOINT - 16, 16); /* the tag */
    undefined(staging + CHECKPOINT - 16, 16);
    do
        r = answer(keeper_advance(PAGES, SLOTS, ring, RING, fram, sizeof fram, staging, HALF, job, sizeof job, session, sizeof session));
    while (r == KEEPER_GOING_ON);
    need(r == end, "another end");
}

static void first_save(void)
{
    memset(ring, 0xff, RING);
    memset(nonce, 0, 12);
    fill(key, key_len);
    fill(secret, SECRET);
    memcpy(right_secret, secret, SECRET);
    undefined(key, key_len);
    undefined(starting_tag, 16);
    undefined(open_part, OPEN);
    undefined(secret, SECRET);
    need(answer(keeper_save(PAGES, SLOTS, ring, RING, fram, sizeof fram, key, key_len, nonce, 12, starting_tag, 16, 1, open_part, OPEN,
                            secret, SECRET, staging, HALF, job, sizeof job)) == KEEPER_DONE,
         "stopped");
    advances(KEEPER_SAVED);
}

static void factory_check(void)
{
    uint32_t r = keeper_factory_check(PAGES, SLOTS, ring, RING, fram, sizeof fram, key, key_len), marks;
    need(VALGRIND_GET_VBITS(&r, &marks, sizeof r) == 1 && marks != 0, "the answer does not depend on the stored bytes");
    need(answer(r) == KEEPER_DONE, "refused");
}

static void save(void)
{
    nonce[0]++;
    need(answer(keeper_save(PAGES, SLOTS, ring, RING, fram, sizeof fram, key, key_len, nonce, 12, session, sizeof session, 2, open_part,
                            OPEN, secret, SECRET, staging, HALF, job, sizeof job)) == KEEPER_DONE,
         "stopped");
    advances(KEEPER_SAVED);
}

static void look(void)
{
    uint32_t restarts;
    size_t start, len;
    need(answer(keeper_look(PAGES, SLOTS, ring, RING, fram, sizeof fram, key, key_len, &restarts, &start, &len)) == KEEPER_DONE, "stopped");
    need(restarts == 0 && start == HALF + 32 && len == OPEN, "another checkpoint");
}

static void power_up(void)
{
    size_t len;
    nonce[0]++;
    need(answer(keeper_power_up(PAGES, SLOTS, ring, RING, fram, sizeof fram, key, key_len, nonce, 12, staging, HALF, state, sizeof state, job,
                                sizeof job, &len)) == KEEPER_DONE,
         "stopped");
    result(state, SECRET);
    need(len == SECRET && memcmp(state, right_secret, SECRET) == 0, "another state");
    advances(KEEPER_RESTORED);
}

static uint8_t aad[LARGEST], text[LARGEST], sealed[LARGEST], opened[LARGEST], tag[16];

static void seal(void)
{
    undefined(nonce, 12);
    undefined(aad, LARGEST);
    undefined(text, LARGEST);
    need(answer(keeper_seal(key, key_len, nonce, 12, aad, LARGEST, text, LARGEST, sealed, LARGEST, tag, 16)) == KEEPER_DONE, "stopped");
    result(sealed, LARGEST);
    result(tag, 16);
    undefined(sealed, LARGEST);
    undefined(tag, 16);
}

static void open_sealed(void)
{
    need(answer(keeper_open(key, key_len, nonce, 12, aad, LARGEST, sealed, LARGEST, tag, 16, opened, LARGEST)) == KEEPER_DONE, "stopped");
    result(opened, LARGEST);
    defined(text, LARGEST);
    need(memcmp(opened, text, LARGEST) == 0, "another text");
}

static void open_damaged(void)
{
    tag[15] ^= 1;
    need(answer(keeper_open(key, key_len, nonce, 12, aad, LARGEST, sealed, LARGEST, tag, 16, opened, LARGEST)) == KEEPER_TAG_DIFFERS,
         "another stop");
}

/* ---- the runs, in their order */

enum reports { NOTHING, ONE_JUMP, SOMETHING };

struct run {
    const char *name;
    void (*run)(void);
    enum reports reports;
};

static const struct run pieces[] = {
    {"constant_time_product", products, NOTHING},
    {"constant_time_ghash", hashes, NOTHING},
    {"constant_time_same", comparisons, NOTHING},
}, calls[] = {
    {"keeper_save with a starting tag", first_save, NOTHING},
    {"keeper_factory_check", factory_check, NOTHING},
    {"keeper_save with a session", save, NOTHING},
    {"keeper_look", look, ONE_JUMP},
    {"keeper_power_up", power_up, ONE_JUMP},
    {"keeper_seal", seal, NOTHING},
    {"keeper_open", open_sealed, ONE_JUMP},
    {"keeper_open, another tag", open_damaged, ONE_JUMP},
}, to_be_found[] = {
    {"variable_time_halve, in a product", branching_products, SOMETHING},
    {"variable_time_same", early_comparisons, SOMETHING},
};

static void run_all(const struct run *runs, size_t count, const char *with)
{
    for (size_t k = 0; k < count; k++) {
        running = runs[k].name;
        unsigned before = VALGRIND_COUNT_ERRORS;
        runs[k].run();
        unsigned n = VALGRIND_COUNT_ERRORS - before;
        switch (runs[k].reports) {
        case NOTHING: need(n == 0, "memcheck reports a jump or an address that depends on the operands"); break;
        case ONE_JUMP: need(n == 1, "memcheck does not report the jump on the tag alone"); break;
        case SOMETHING: need(n > 0, "memcheck does not report what is there to be found"); break;
        }
        printf("%s%s: %u reported\n", running, with, n);
    }
}

#define RUN_ALL(runs, with) run_all(runs, sizeof runs / sizeof *runs, with)

int main(void)
{
    if (!RUNNING_ON_VALGRIND) {
        puts("to be run under valgrind");
        return 2;
    }
    RUN_ALL(pieces, "");
    key_len = KEEPER_KEY_SIZE_128;
    RUN_ALL(calls, ", a key of 16 bytes");
    key_len = KEEPER_KEY_SIZE_256;
    RUN_ALL(calls, ", a key of 32 bytes");
    RUN_ALL(to_be_found, "");
    return failed;
}
