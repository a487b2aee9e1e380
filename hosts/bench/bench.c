/*
 * Times the keeper's calls, its sealing and opening beside BearSSL, mbedTLS and OpenSSL, its Intel HEX beside binutils and SRecord,
 * and its chains of dumps and lists of settings beside the same in C; measures the stack that its calls use; and writes
 * docs/PERFORMANCE.md. hosts/bench/run.sh builds and runs it:
 * bench PAGE FACTS SIZES SYMBOLS PROGRAMS FOLDER
 */
#define _GNU_SOURCE
#include "bench.h"
#include "keeper.h"
#include <fcntl.h>
#include <mbedtls/gcm.h>
#include <openssl/evp.h>
#include <sched.h>
#include <spawn.h>
#include <stdarg.h>
#include <stdio.h>
#include <stdlib.h>
#include <string.h>
#include <sys/resource.h>
#include <sys/utsname.h>
#include <sys/wait.h>
#include <time.h>
#include <ucontext.h>
#include <unistd.h>

#define COUNT(a) (sizeof(a) / sizeof *(a))

static void need(int ok, const char *what)
{
    if (!ok) {
        fprintf(stderr, "bench: %s\n", what);
        exit(1);
    }
}

/* ---- the implementations */

size_t key_len;
uint8_t key[32], nonce[12], aad[LARGEST_AAD], text[LARGEST_PART], sealed[LARGEST_PART], opened[LARGEST_PART], tag[16];

enum { AES_256, AES_128, CIPHERS };

static const char *const cipher_names[CIPHERS] = {"AES-256", "AES-128"};
static const size_t key_lens[CIPHERS] = {KEEPER_KEY_SIZE_256, KEEPER_KEY_SIZE_128};

static const struct size sizes[] = {
    {"64", 64, 0},
    {"1,024", 1024, 0},
    {"4,096", 4096, 0},
    {"4,096 + 1,056", 4096, 1056},
    {"32,768", LARGEST_PART, 0},
    {"32,768 + 32,800", LARGEST_PART, LARGEST_AAD},
};

enum { TARGET_SIZE = 3 };

static void our_seal(const struct size *s)
{
    need(keeper_seal(key, key_len, nonce, 12, aad, s->aad, text, s->text, sealed, sizeof sealed, tag, 16) == 0, "keeper_seal stopped");
}

static int our_open(const struct size *s)
{
    return keeper_open(key, key_len, nonce, 12, aad, s->aad, sealed, s->text, tag, 16, opened, sizeof opened) == 0;
}

/* mbedTLS asks this function what the processor has; the linker's --wrap puts ours in its place. */
int __real_mbedtls_aesni_has_support(unsigned what), __wrap_mbedtls_aesni_has_support(unsigned what);
static int mbed_hardware;
static mbedtls_gcm_context mbed;

int __wrap_mbedtls_aesni_has_support(unsigned what)
{
    return mbed_hardware && __real_mbedtls_aesni_has_support(what);
}

static void mbed_key(int hardware)
{
    mbed_hardware = hardware;
    need(mbedtls_gcm_setkey(&mbed, MBEDTLS_CIPHER_ID_AES, key, 8 * key_len) == 0, "mbedTLS failed");
}

static void mbed_soft(void)
{
    mbed_key(0);
}

static void mbed_hard(void)
{
    mbed_key(1);
}

static void mbed_seal(const struct size *s)
{
    need(mbedtls_gcm_crypt_and_tag(&mbed, MBEDTLS_GCM_ENCRYPT, s->text, nonce, 12, aad, s->aad, text, sealed, 16, tag) == 0,
         "mbedTLS failed");
}

static int mbed_open(const struct size *s)
{
    return mbedtls_gcm_auth_decrypt(&mbed, s->text, nonce, 12, aad, s->aad, tag, 16, sealed, opened) == 0;
}

/* What the processor has, as OpenSSL keeps it: the environment's OPENSSL_ia32cap masks these words. In [1] bit 25 is AES-NI, bit 1 PCLMUL. */
extern unsigned OPENSSL_ia32cap_P[4];
static EVP_CIPHER_CTX *ssl;

/* A context is kept for each cipher. */
static void ssl_key(unsigned masked, EVP_CIPHER_CTX *kept[CIPHERS])
{
    static unsigned found;
    EVP_CIPHER_CTX **c = &kept[key_len == key_lens[AES_128] ? AES_128 : AES_256];
    if (!found)
        found = OPENSSL_ia32cap_P[1];
    OPENSSL_ia32cap_P[1] = found & ~masked;
    if (*c)
        need(EVP_EncryptInit_ex(*c, NULL, NULL, key, NULL), "OpenSSL failed");
    else
        need((*c = EVP_CIPHER_CTX_new()) &&
                 EVP_EncryptInit_ex(*c, c == &kept[AES_128] ? EVP_aes_128_gcm() : EVP_aes_256_gcm(), NULL, key, NULL),
             "OpenSSL failed");
    ssl = *c;
}

static void ssl_soft(void)
{
    static EVP_CIPHER_CTX *soft[CIPHERS];
    ssl_key(1u << 25 | 1u << 1, soft);
}

static void ssl_hard(void)
{
    static EVP_CIPHER_CTX *hard[CIPHERS];
    ssl_key(0, hard);
}

static void ssl_seal(const struct size *s)
{
    int n;
    need(EVP_EncryptInit_ex(ssl, NULL, NULL, NULL, nonce) && EVP_EncryptUpdate(ssl, NULL, &n, aad, s->aad) &&
             EVP_EncryptUpdate(ssl, sealed, &n, text, s->text) && EVP_EncryptFinal_ex(ssl, sealed + s->text, &n) &&
             EVP_CIPHER_CTX_ctrl(ssl, EVP_CTRL_GCM_GET_TAG, 16, tag),
         "OpenSSL failed");
}

static int ssl_open(const struct size *s)
{
    int n;
    return EVP_DecryptInit_ex(ssl, NULL, NULL, NULL, nonce) && EVP_DecryptUpdate(ssl, NULL, &n, aad, s->aad) &&
           EVP_DecryptUpdate(ssl, opened, &n, sealed, s->text) && EVP_CIPHER_CTX_ctrl(ssl, EVP_CTRL_GCM_SET_TAG, 16, tag) &&
           EVP_DecryptFinal_ex(ssl, opened + s->text, &n);
}

/* key: the key schedule, where it can be called apart. */
static const struct implementation {
    const char *name;
    void (*key)(void);
    void (*seal)(const struct size *);
    int (*open)(const struct size *);
} all[] = {
    {"Godwitshelf", NULL, our_seal, our_open},
    {"BearSSL small + ctmul32", bear_small, bear_seal, bear_open},
    {"BearSSL ct64 + ctmul64", bear_ct64, bear_seal, bear_open},
    {"BearSSL big + ctmul32", bear_big32, bear_seal, bear_open},
    {"BearSSL big + ctmul64", bear_big64, bear_seal, bear_open},
    {"mbedTLS, hardware masked", mbed_soft, mbed_seal, mbed_open},
    {"mbedTLS", mbed_hard, mbed_seal, mbed_open},
    {"OpenSSL, hardware masked", ssl_soft, ssl_seal, ssl_open},
    {"OpenSSL", ssl_hard, ssl_seal, ssl_open},
#ifdef FAST
    {"BearSSL ct64 + ctmul64, -O3", fast_ct64, fast_seal, fast_open},
    {"BearSSL big + ctmul32, -O3", fast_big32, fast_seal, fast_open},
#endif
};

enum { OURS = 0, CT64 = 2, BIG32 = 3, FAST_CT64 = 9, FAST_BIG32 = 10 };

/* All must give the bytes that the first gives, open them, and refuse them if a bit of the tag is changed. */
static void compare(const struct size *s)
{
    static uint8_t first[LARGEST_PART], first_tag[16];
    for (size_t i = 0; i < COUNT(all); i++) {
        const struct implementation *m = &all[i];
        memset(sealed, 0, sizeof sealed);
        memset(tag, 0, sizeof tag);
        memset(opened, 0, sizeof opened);
        if (m->key)
            m->key();
        m->seal(s);
        if (i == 0) {
            memcpy(first, sealed, s->text);
            memcpy(first_tag, tag, 16);
        }
        need(memcmp(sealed, first, s->text) == 0 && memcmp(tag, first_tag, 16) == 0, m->name);
        if (m->key)
            m->key();
        need(m->open(s) && memcmp(opened, text, s->text) == 0, m->name);
        tag[15] ^= 1;
        if (m->key)
            m->key();
        need(!m->open(s), m->name);
        tag[15] ^= 1;
    }
}

/* ---- Intel HEX: an image, the text of its export, and what was imported from it */

uint8_t image[262144], imported[262144];
static uint8_t hex[KEEPER_HEX_SIZE(sizeof image)];

enum { EXPORT, IMPORT, WAYS };

static size_t our_export(const uint8_t **text)
{
    size_t n;
    *text = hex;
    return keeper_hex_export(image, sizeof image, hex, sizeof hex, &n) == 0 ? n : 0;
}

static int our_import(const uint8_t *text, size_t len)
{
    return keeper_hex_import(text, len, imported, sizeof imported) == 0;
}

static const struct converter {
    const char *name;
    size_t (*export)(const uint8_t **);
    int (*import)(const uint8_t *, size_t);
} converters[] = {
    {"Godwitshelf", our_export, our_import},
    {"libbfd", bfd_export, bfd_import},
};

/* The programs, run in FOLDER, where the image is image.bin and its text image.hex. Ours read standard input and write standard output. */
static char export_path[4096], import_path[4096];
static const char *folder;

static const struct program {
    const char *name;
    const char *words[WAYS][9];
} programs[] = {
    {"Godwitshelf's `hex_export`, `hex_import`", {{export_path}, {import_path, "262144"}}},
    {"SRecord's `srec_cat`",
     {{"srec_cat", "image.bin", "-binary", "-output", "out", "-intel", "-output-block-size=16"},
      {"srec_cat", "image.hex", "-intel", "-output", "out", "-binary"}}},
    {"binutils' `objcopy`",
     {{"objcopy", "-I", "binary", "-O", "ihex", "image.bin", "out"}, {"objcopy", "-I", "ihex", "-O", "binary", "image.hex", "out"}}},
    {"`cp`, a copy of the same input", {{"cp", "image.bin", "out"}, {"cp", "image.hex", "out"}}},
};

enum { COPY = COUNT(programs) - 1 };

static const char *in_folder(const char *name)
{
    static char path[4096];
    need(snprintf(path, sizeof path, "%s/%s", folder, name) < (int)sizeof path, folder);
    return path;
}

static void put_file(const char *name, const uint8_t *bytes, size_t n)
{
    FILE *f = fopen(in_folder(name), "w");
    need(f && fwrite(bytes, 1, n, f) == n && fclose(f) == 0, in_folder(name));
}

static size_t get_file(const char *name, uint8_t *bytes, size_t room)
{
    FILE *f = fopen(in_folder(name), "r");
    need(f != NULL, in_folder(name));
    size_t n = fread(bytes, 1, room, f);
    need(!ferror(f) && fgetc(f) == EOF, in_folder(name));
    fclose(f);
    return n;
}

/* Runs a program and waits for its end. */
static void run(const struct program *p, int way)
{
    extern char **environ;
    posix_spawn_file_actions_t a;
    pid_t child;
    int status;
    posix_spawn_file_actions_init(&a);
    posix_spawn_file_actions_addchdir_np(&a, folder);
    posix_spawn_file_actions_addopen(&a, 0, way == EXPORT ? "image.bin" : "image.hex", O_RDONLY, 0);
    posix_spawn_file_actions_addopen(&a, 1, p == programs ? "out" : "/dev/null", O_WRONLY | O_CREAT | O_TRUNC, 0600);
    need(posix_spawnp(&child, p->words[way][0], &a, NULL, (char **)p->words[way], environ) == 0, p->name);
    need(waitpid(child, &status, 0) == child && status == 0, p->name);
    posix_spawn_file_actions_destroy(&a);
}

/* The data lines of a text, without carriage returns: binutils writes these, and other lines for the upper address bits. */
static size_t data_lines(const uint8_t *text, size_t n, uint8_t *lines)
{
    size_t kept = 0, next;
    for (size_t start = 0; start < n; start = next) {
        for (next = start; next < n && text[next] != '\n'; next++)
            ;
        next += next < n;
        for (size_t i = start; i < next && next - start > 9 && memcmp(text + start + 7, "00", 2) == 0; i++)
            if (text[i] != '\r')
                lines[kept++] = text[i];
    }
    return kept;
}

static void same_lines(const uint8_t *text, size_t n, const char *name)
{
    static uint8_t ours[sizeof hex], theirs[4 * sizeof image];
    need(n <= sizeof theirs, name);
    size_t kept = data_lines(hex, sizeof hex, ours);
    need(data_lines(text, n, theirs) == kept && memcmp(theirs, ours, kept) == 0, name);
}

/* Whether a text with one digit changed is refused. libbfd says so on standard error, which is closed meanwhile. */
static int refuses(const struct converter *m)
{
    int kept = dup(2);
    need(kept >= 0 && close(2) == 0, "no standard error");
    hex[sizeof hex - 20] ^= 1;
    int taken = m->import(hex, sizeof hex);
    hex[sizeof hex - 20] ^= 1;
    need(dup2(kept, 2) == 2 && close(kept) == 0, "no standard error");
    return !taken;
}

/* All must export the same data lines and import the image; in memory, all must refuse a text with one digit changed. */
static void compare_hex(void)
{
    static uint8_t file[4 * sizeof image];
    const uint8_t *text;
    need(our_export(&text) == sizeof hex, "keeper_hex_export stopped");
    for (size_t i = 0; i < COUNT(converters); i++) {
        const struct converter *m = &converters[i];
        size_t n = m->export(&text);
        same_lines(text, n, m->name);
        memset(imported, 0, sizeof imported);
        need(m->import(hex, sizeof hex) && memcmp(imported, image, sizeof image) == 0, m->name);
        need(refuses(m), m->name);
    }
    put_file("image.bin", image, sizeof image);
    put_file("image.hex", hex, sizeof hex);
    for (size_t i = 0; i < COUNT(programs); i++) {
        run(&programs[i], EXPORT);
        size_t n = get_file("out", file, sizeof file);
        if (i != COPY)
            same_lines(file, n, programs[i].name);
        run(&programs[i], IMPORT);
        n = get_file("out", file, sizeof file);
        need(i == COPY || (n == sizeof image && memcmp(file, image, n) == 0), programs[i].name);
    }
}

/* ---- a unit, whose ring's newest page is full, and its calls */

static uint8_t ring[16 * 32 * 512], kept_ring[sizeof ring], fram[96 + 4 * LARGEST_PART], kept_fram[sizeof fram];
static uint8_t staging[sizeof fram / 2], state[KEEPER_STATE_SIZE], job[KEEPER_JOB_SIZE], fresh[12];
static uint8_t session[KEEPER_SESSION_SIZE], kept_session[sizeof session];
static size_t pages, slots, ring_len, fram_len, part, secret_len, open_start, open_len;
static uint32_t restarts, heard;

static void next_nonce(void)
{
    for (int i = 11; i >= 0 && ++fresh[i] == 0; i--)
        ;
}

static uint32_t first_save(void)
{
    next_nonce();
    return keeper_save(pages, slots, ring, ring_len, fram, fram_len, key, key_len, fresh, 12, tag, 16, ++heard, aad, part, text, part,
                       staging, fram_len / 2, job, sizeof job);
}

static uint32_t save(void)
{
    next_nonce();
    return keeper_save(pages, slots, ring, ring_len, fram, fram_len, key, key_len, fresh, 12, session, sizeof session, ++heard, aad, part,
                       text, part, staging, fram_len / 2, job, sizeof job);
}

static uint32_t power_up(void)
{
    next_nonce();
    return keeper_power_up(pages, slots, ring, ring_len, fram, fram_len, key, key_len, fresh, 12, staging, fram_len / 2, state,
                           sizeof state, job, sizeof job, &secret_len);
}

static uint32_t look(void)
{
    return keeper_look(pages, slots, ring, ring_len, fram, fram_len, key, key_len, &restarts, &open_start, &open_len);
}

static uint32_t factory_check(void)
{
    return keeper_factory_check(pages, slots, ring, ring_len, fram, fram_len, key, key_len);
}

static uint32_t advance(void)
{
    return keeper_advance(pages, slots, ring, ring_len, fram, fram_len, staging, fram_len / 2, job, sizeof job, session, sizeof session);
}

/* Phases of a job. */
enum { ERASE_FIRST = 1, ERASE_AFTER = 4 };

static uint32_t finish(void)
{
    uint32_t answer;
    do
        answer = advance();
    while (answer == KEEPER_GOING_ON);
    return answer;
}

static void blank(size_t p, size_t s, size_t n)
{
    pages = p, slots = s, part = n;
    ring_len = 16 * p * s;
    fram_len = 96 + 4 * n;
    memset(ring, 0xff, sizeof ring);
    memset(fram, 0, sizeof fram);
}

static void keep(void)
{
    memcpy(kept_ring, ring, ring_len);
    memcpy(kept_fram, fram, fram_len);
    memcpy(kept_session, session, sizeof session);
}

static void restore(void)
{
    memcpy(ring, kept_ring, ring_len);
    memcpy(fram, kept_fram, fram_len);
    memcpy(session, kept_session, sizeof session);
}

/* The checkpoint of the page's last record has parts of n bytes; those before it are not read any more, and have none. */
static void fill_page(size_t p, size_t s, size_t n)
{
    blank(p, s, n);
    part = 0;
    need(first_save() == 0 && finish() == KEEPER_SAVED, "a first save stopped");
    for (size_t i = 1; i < s; i++) {
        part = i == s - 1 ? n : 0;
        need(save() == 0 && finish() == KEEPER_SAVED, "a save stopped");
    }
    keep();
}

/* ---- times, in nanoseconds for a call: a sample for each round */

enum { ROUNDS = 31, TRIES = 50 };

struct times {
    double of[ROUNDS];
};

static double now(void)
{
    struct timespec t;
    clock_gettime(CLOCK_MONOTONIC, &t);
    return 1e9 * t.tv_sec + t.tv_nsec;
}

/* Whether another process had the core since this was asked last. */
static int preempted(void)
{
    static long last;
    struct rusage u;
    need(getrusage(RUSAGE_SELF, &u) == 0, "no count of preemptions");
    long since = u.ru_nivcsw - last;
    last = u.ru_nivcsw;
    return since > 0;
}

static int rising(const void *a, const void *b)
{
    double x = *(const double *)a, y = *(const double *)b;
    return (x > y) - (x < y);
}

static double best(const struct times *t)
{
    struct times s = *t;
    qsort(s.of, ROUNDS, sizeof *s.of, rising);
    return s.of[0];
}

static double median(const struct times *t)
{
    struct times s = *t;
    qsort(s.of, ROUNDS, sizeof *s.of, rising);
    return s.of[ROUNDS / 2];
}

enum { SEAL, OPEN, SEAL_ALONE, OPEN_ALONE, KINDS };

static double cipher_time(const struct implementation *m, int kind, const struct size *s, unsigned calls)
{
    int keyed = kind == SEAL || kind == OPEN, seals = kind == SEAL || kind == SEAL_ALONE, opens = 1;
    if (m->key)
        m->key();
    double start = now();
    for (unsigned i = 0; i < calls; i++) {
        if (m->key && keyed)
            m->key();
        if (seals)
            m->seal(s);
        else
            opens &= m->open(s);
    }
    double time = (now() - start) / calls;
    need(opens, m->name);
    return time;
}

static struct times cipher_times[CIPHERS][KINDS][COUNT(sizes)][COUNT(all)];

static int timed(int kind, size_t i)
{
    return kind == SEAL || kind == OPEN || all[i].key;
}

static void time_cipher(int cipher, int kind, size_t z, int round)
{
    key_len = key_lens[cipher];
    compare(&sizes[z]);
    for (size_t i = 0; i < COUNT(all); i++)
        for (int tries = 0; timed(kind, i) && tries < TRIES; tries++) {
            preempted();
            double once = cipher_time(&all[i], kind, &sizes[z], 3);
            cipher_times[cipher][kind][z][i].of[round] = cipher_time(&all[i], kind, &sizes[z], 1 + 1e6 / once);
            if (!preempted())
                break;
        }
}

static void time_ciphers(int round)
{
    for (int kind = 0; kind < KINDS; kind++)
        for (size_t z = 0; z < COUNT(sizes); z++)
            for (int cipher = 0; cipher < CIPHERS; cipher++)
                time_cipher(cipher, kind, z, round);
}

static const size_t shapes[][2] = {{3, 2}, {8, 64}, {32, 512}}, parts[] = {0, 64, 1024, 4096, LARGEST_PART};
static const char *const part_names[] = {"0", "64", "1,024", "4,096", "32,768"};

enum { SAVE_START, SAVE, POWER_UP_START, POWER_UP, LOOK, CALLS };

static struct times call_times[CIPHERS][COUNT(shapes)][COUNT(parts)][CALLS];

/* What the key's length changes does not depend on the ring, so AES-128 is timed with the smallest one alone. */
static int called(int cipher, size_t h)
{
    return cipher == AES_256 || h == 0;
}

static double call_time(int call, unsigned calls)
{
    double sum = 0;
    int saves = call == SAVE_START || call == SAVE, ups = call == POWER_UP_START || call == POWER_UP;
    for (unsigned i = 0; i < calls; i++) {
        restore();
        double start = now();
        int good = (saves ? save() : ups ? power_up() : look()) == 0;
        if (call == SAVE || call == POWER_UP)
            good = good && finish() == (saves ? KEEPER_SAVED : KEEPER_RESTORED);
        sum += now() - start;
        need(good && (!ups || (secret_len == part && memcmp(state, text, part) == 0)), "a call of the keeper stopped");
        need(call != LOOK || (open_len == part && memcmp(fram + open_start, aad, part) == 0), "look saw another open part");
    }
    return sum / calls;
}

static void time_unit(int cipher, size_t h, size_t n, int round)
{
    key_len = key_lens[cipher];
    fill_page(shapes[h][0], shapes[h][1], parts[n]);
    for (int call = 0; call < CALLS; call++)
        for (int tries = 0; tries < TRIES; tries++) {
            preempted();
            double once = call_time(call, 3);
            call_times[cipher][h][n][call].of[round] = call_time(call, 1 + 1e6 / once);
            if (!preempted())
                break;
        }
}

static void time_calls(int round)
{
    for (size_t h = 0; h < COUNT(shapes); h++)
        for (size_t n = 0; n < COUNT(parts); n++)
            for (int cipher = 0; cipher < CIPHERS; cipher++)
                if (called(cipher, h))
                    time_unit(cipher, h, n, round);
}

static struct times hex_times[WAYS][COUNT(converters)], program_times[WAYS][COUNT(programs)];

static double hex_time(const struct converter *m, int way, unsigned calls)
{
    const uint8_t *text;
    int good = 1;
    double start = now();
    for (unsigned i = 0; i < calls; i++)
        good &= way == EXPORT ? m->export(&text) > 0 : m->import(hex, sizeof hex);
    double time = (now() - start) / calls;
    need(good, m->name);
    return time;
}

static double program_time(const struct program *p, int way, unsigned runs)
{
    double sum = 0;
    for (unsigned i = 0; i < runs; i++) {
        unlink(in_folder("out"));
        double start = now();
        run(p, way);
        sum += now() - start;
    }
    return sum / runs;
}

/* A program has this core in turn with this process, so that its preemptions are not counted. */
static void time_hex(int round)
{
    compare_hex();
    for (int way = 0; way < WAYS; way++) {
        for (size_t i = 0; i < COUNT(converters); i++)
            for (int tries = 0; tries < TRIES; tries++) {
                preempted();
                double once = hex_time(&converters[i], way, 3);
                hex_times[way][i].of[round] = hex_time(&converters[i], way, 1 + 1e6 / once);
                if (!preempted())
                    break;
            }
        for (size_t i = 0; i < COUNT(programs); i++) {
            double once = program_time(&programs[i], way, 1);
            program_times[way][i].of[round] = program_time(&programs[i], way, 1 + 1e7 / once);
        }
    }
}

/* ---- chains of dumps */

static uint8_t entries[KEEPER_ENTRIES_LIMIT * KEEPER_ENTRY_SIZE];
static uint8_t places[KEEPER_ENTRIES_LIMIT];
static size_t entry_count;

/* As an engineer would write it in C: the same searches, by memcmp. */
static uint32_t plain_chain_order(void)
{
    uint8_t order[KEEPER_ENTRIES_LIMIT];
    size_t n = entry_count, first = n, i, j, k;
#define PREVIOUS(e) (entries + KEEPER_ENTRY_SIZE * (e))
#define OWN(e) (PREVIOUS(e) + KEEPER_TAG_SIZE)
    for (i = 0; i < n; i++)
        for (j = 0; j < i; j++)
            if (memcmp(OWN(i), OWN(j), KEEPER_TAG_SIZE) == 0)
                return KEEPER_NO_ORDER;
    for (i = 0; i < n && first == n; i++) {
        for (j = 0; j < n && memcmp(PREVIOUS(i), OWN(j), KEEPER_TAG_SIZE) != 0; j++)
            ;
        if (j == n)
            first = i;
    }
    for (i = first, k = 0; k < n; k++) {
        if (i == n)
            return KEEPER_NO_ORDER;
        order[k] = i;
        for (j = 0; j < n && memcmp(PREVIOUS(j), OWN(i), KEEPER_TAG_SIZE) != 0; j++)
            ;
        i = j;
    }
    memcpy(places, order, n);
    return 0;
}

static uint32_t chain_order(void)
{
    return keeper_chain_order(entries, entry_count * KEEPER_ENTRY_SIZE, places, sizeof places);
}

static const struct {
    const char *name;
    uint32_t (*call)(void);
} sorters[] = {{"Godwitshelf", chain_order}, {"the same searches in C, by `memcmp`", plain_chain_order}};

/* The tag of a checkpoint by its number. Tags differ in their last bytes alone. */
static void put_tag(uint8_t *to, uint32_t number)
{
    memset(to, 0x5a, KEEPER_TAG_SIZE);
    memcpy(to + KEEPER_TAG_SIZE - sizeof number, &number, sizeof number);
}

/* Entries that take long: a chain that stands the wrong way around; and all but the last name the last, so that there is no order. */
enum { BACKWARDS, ALL_NAME_ONE, CHAINS };

static const char *const chain_names[CHAINS] = {"a chain, the last dump first", "all others name the last entry: no order"};
static const size_t entry_counts[] = {8, 16, 32, KEEPER_ENTRIES_LIMIT};

static void fill_entries(int chain, size_t count)
{
    entry_count = count;
    for (size_t i = 0; i < count; i++) {
        size_t number = count - i;
        put_tag(PREVIOUS(i), number == 1 ? 0 : chain == BACKWARDS ? number - 1 : 1);
        put_tag(OWN(i), number);
    }
}

static struct times chain_times[CHAINS][COUNT(entry_counts)][COUNT(sorters)];

static double answer_time(uint32_t (*call)(void), uint32_t expected, unsigned calls)
{
    int good = 1;
    double start = now();
    for (unsigned i = 0; i < calls; i++)
        good &= call() == expected;
    double time = (now() - start) / calls;
    need(good, "another answer");
    return time;
}

static void time_chains(int round)
{
    for (int chain = 0; chain < CHAINS; chain++)
        for (size_t n = 0; n < COUNT(entry_counts); n++)
            for (size_t s = 0; s < COUNT(sorters); s++) {
                uint32_t expected = chain == BACKWARDS ? 0 : KEEPER_NO_ORDER;
                fill_entries(chain, entry_counts[n]);
                memset(places, 0, sizeof places);
                need(sorters[s].call() == expected, sorters[s].name);
                for (size_t k = 0; k < entry_count && chain == BACKWARDS; k++)
                    need(places[k] == entry_count - 1 - k, sorters[s].name);
                for (int tries = 0; tries < TRIES; tries++) {
                    preempted();
                    double once = answer_time(sorters[s].call, expected, 3);
                    chain_times[chain][n][s].of[round] = answer_time(sorters[s].call, expected, 1 + 1e6 / once);
                    if (!preempted())
                        break;
                }
            }
}

/* ---- settings */

static uint8_t list[4 * 15];
static size_t list_len;
static uint32_t read_volume, read_delay;

static uint32_t word_in(size_t i)
{
    const uint8_t *w = list + 4 * i;
    return (uint32_t)w[0] << 24 | (uint32_t)w[1] << 16 | (uint32_t)w[2] << 8 | w[3];
}

/* As an engineer would write it in C: one pass over the words. */
static uint32_t plain_settings_read(void)
{
    uint32_t first, volume, delay, before = 0;
    size_t n = list_len / 4;
    if (list_len % 4 != 0 || n == 0)
        return KEEPER_BAD_LIST;
    first = word_in(0);
    if (first != 0xF0000001 && first != 0xF0000002)
        return KEEPER_BAD_LIST;
    if (n < 3 || word_in(1) >> 28 != KEEPER_VOLUME || word_in(2) >> 28 != KEEPER_ALERT_DELAY)
        return KEEPER_BAD_KINDS;
    for (size_t i = 1; i < n; i++) {
        uint32_t kind = word_in(i) >> 28;
        if (kind <= before || kind > (first == 0xF0000001 ? 2 : 14))
            return KEEPER_BAD_KINDS;
        before = kind;
    }
    volume = word_in(1) & 0xFFFFFFF;
    delay = word_in(2) & 0xFFFFFFF;
    if (volume > 15 || delay < 5 || delay > 300)
        return KEEPER_BAD_VALUE;
    read_volume = volume;
    read_delay = delay;
    return 0;
}

/* Writes the last setting. */
static uint32_t last_kind(void)
{
    return word_in(list_len / 4 - 1) >> 28;
}

static uint32_t plain_settings_write(void)
{
    uint32_t kind = last_kind(), value = 77, stop = plain_settings_read();
    size_t i;
    if (stop == KEEPER_BAD_LIST || stop == KEEPER_BAD_KINDS)
        return stop;
    for (i = 1; i < list_len / 4 && word_in(i) >> 28 != kind; i++)
        ;
    if (i == list_len / 4)
        return KEEPER_BAD_KINDS;
    if (stop != 0 || (kind == KEEPER_VOLUME ? value > 15 : kind == KEEPER_ALERT_DELAY ? value < 5 || value > 300 : value > 0xFFFFFFF))
        return KEEPER_BAD_VALUE;
    uint8_t *w = list + 4 * i;
    w[0] = kind << 4 | value >> 24;
    w[1] = value >> 16;
    w[2] = value >> 8;
    w[3] = value;
    return 0;
}

static uint32_t settings_read(void)
{
    return keeper_settings_read(list, list_len, &read_volume, &read_delay);
}

static uint32_t settings_write(void)
{
    return keeper_settings_write(list, list_len, last_kind(), 77);
}

static const struct {
    const char *name;
    uint32_t (*call)(void);
} setters[] = {{"Godwitshelf, read", settings_read},
               {"one pass in C, read", plain_settings_read},
               {"Godwitshelf, write to the last setting", settings_write},
               {"one pass and a search in C, write to it", plain_settings_write}};

static const size_t list_words[] = {3, 6, 15};
static struct times setting_times[COUNT(list_words)][COUNT(setters)];

/* A list of so many words: of version 1 if it has three. */
static void fill_list(size_t words)
{
    memset(list, 0, sizeof list);
    for (size_t i = 1; i < words; i++)
        list[4 * i] = i << 4;
    list[0] = KEEPER_LIST_VERSION << 4;
    list[3] = words == 3 ? 1 : 2;
    list[7] = 3;
    list[11] = 30;
    list_len = 4 * words;
}

static void time_settings(int round)
{
    for (size_t n = 0; n < COUNT(list_words); n++)
        for (size_t s = 0; s < COUNT(setters); s++) {
            uint8_t left[sizeof list];
            fill_list(list_words[n]);
            need(setters[s & ~(size_t)1].call() == 0, "a list was refused");
            memcpy(left, list, sizeof list);
            fill_list(list_words[n]);
            read_volume = read_delay = 0;
            need(setters[s].call() == 0 && memcmp(left, list, sizeof list) == 0, "another list");
            need(s > 1 || (read_volume == 3 && read_delay == 30), "another volume or delay");
            for (int tries = 0; tries < TRIES; tries++) {
                preempted();
                double once = answer_time(setters[s].call, 0, 3);
                setting_times[n][s].of[round] = answer_time(setters[s].call, 0, 1 + 1e6 / once);
                if (!preempted())
                    break;
            }
        }
}

/* ---- the stack: each call runs on one of its own, which is painted first */

#define PAINT 0xa5a5a5a5a5a5a5a5u
static uint64_t stack[1 << 13];
static ucontext_t back, there;
static uint32_t (*on_stack)(void);
static uint32_t answered;

static void enter(void)
{
    answered = on_stack();
}

static size_t depth(uint32_t (*call)(void))
{
    size_t untouched = 0;
    for (size_t i = 0; i < COUNT(stack); i++)
        stack[i] = PAINT;
    on_stack = call;
    need(getcontext(&there) == 0, "no context");
    there.uc_stack.ss_sp = stack;
    there.uc_stack.ss_size = sizeof stack;
    there.uc_link = &back;
    makecontext(&there, enter, 0);
    need(swapcontext(&back, &there) == 0, "no context");
    while (untouched < COUNT(stack) && stack[untouched] == PAINT)
        untouched++;
    need(untouched > 0, "the stack was too short");
    return sizeof stack - 8 * untouched;
}

static uint32_t nothing(void)
{
    return 0;
}

static uint32_t seal_largest(void)
{
    our_seal(&sizes[COUNT(sizes) - 1]);
    return 0;
}

static uint32_t open_largest(void)
{
    return !our_open(&sizes[COUNT(sizes) - 1]);
}

static uint32_t wipe(void)
{
    keeper_wipe(opened, sizeof opened);
    return 0;
}

static uint32_t export_largest(void)
{
    const uint8_t *text;
    return our_export(&text) == 0;
}

static uint32_t import_largest(void)
{
    return !our_import(hex, sizeof hex);
}

/* Every ring of the largest size for the bench. */
static uint32_t make_rings(void)
{
    uint32_t answer = 0;
    for (size_t number = 0; number < KEEPER_RING_SHAPES(4, 4); number++)
        answer |= keeper_ring_shape(4, 4, number, opened, KEEPER_SLOT_SIZE * 4 * 4);
    return answer;
}

static struct {
    const char *name;
    uint32_t (*call)(void);
    size_t bytes;
} depths[] = {
    {"keeper_seal", seal_largest, 0},
    {"keeper_open", open_largest, 0},
    {"keeper_wipe", wipe, 0},
    {"keeper_save, starting tag", first_save, 0},
    {"keeper_save, session", save, 0},
    {"keeper_power_up", power_up, 0},
    {"keeper_advance", advance, 0},
    {"keeper_look", look, 0},
    {"keeper_settings_read", settings_read, 0},
    {"keeper_settings_write", settings_write, 0},
    {"keeper_hex_export", export_largest, 0},
    {"keeper_hex_import", import_largest, 0},
    {"keeper_ring_shape", make_rings, 0},
    {"keeper_factory_check", factory_check, 0},
    {"keeper_chain_order", chain_order, 0},
};

/* Notes how deep a call goes, and hands on its answer. */
static uint32_t measured(uint32_t (*call)(void))
{
    size_t base = depth(nothing), bytes = depth(call) - base, i = 0;
    while (depths[i].call != call)
        i++;
    if (bytes > depths[i].bytes)
        depths[i].bytes = bytes;
    return answered;
}

static void measure_job(uint32_t (*start)(void), uint32_t last)
{
    uint32_t answer;
    need(measured(start) == 0, "a start stopped");
    do
        answer = measured(advance);
    while (answer == KEEPER_GOING_ON);
    need(answer == last, "an advance stopped");
}

/* The largest parts, and every phase of a job: the save erases after its record; a second one does not get to its erasing, so that
   the power-up erases first. */
static void measure_stack(int cipher)
{
    key_len = key_lens[cipher];
    fill_page(3, 2, LARGEST_PART);
    compare(&sizes[COUNT(sizes) - 1]);
    need(measured(seal_largest) == 0 && measured(open_largest) == 0 && measured(wipe) == 0 && measured(look) == 0, "a call stopped");
    need(measured(export_largest) == 0 && measured(import_largest) == 0, "an export or import stopped");
    need(measured(make_rings) == 0, "a ring was refused");
    fill_entries(BACKWARDS, KEEPER_ENTRIES_LIMIT);
    need(measured(chain_order) == 0, "a chain was refused");
    fill_list(15);
    need(measured(settings_read) == 0 && measured(settings_write) == 0, "a list was refused");
    measure_job(save, KEEPER_SAVED);
    restore();
    need(save() == 0, "a save stopped");
    while (job[3] != ERASE_AFTER)
        need(advance() == KEEPER_GOING_ON, "an advance stopped");
    need(power_up() == 0 && job[3] == ERASE_FIRST, "no page was pending");
    measure_job(power_up, KEEPER_RESTORED);
    blank(3, 2, LARGEST_PART);
    measure_job(first_save, KEEPER_SAVED);
    need(measured(factory_check) == 0, "a first save was refused");
}

/* ---- the page */

static FILE *page;

static void out(const char *form, ...) __attribute__((format(printf, 1, 2)));
static void out(const char *form, ...)
{
    va_list a;
    va_start(a, form);
    vfprintf(page, form, a);
    va_end(a);
}

/* The line under a table's head: columns of words, and of numbers. */
static void columns(size_t words, size_t n)
{
    out("|");
    while (words--)
        out("---|");
    while (n--)
        out("---:|");
    out("\n");
}

static void print_ciphers(int kind, const char *title)
{
    out("\n### %s\n\n| | bytes of text (+ associated data) |", title);
    for (size_t z = 0; z < COUNT(sizes); z++)
        out(" %s |", sizes[z].name);
    out("\n");
    columns(2, COUNT(sizes));
    for (int cipher = 0; cipher < CIPHERS; cipher++)
        for (size_t i = 0; i < COUNT(all); i++) {
            if (!timed(kind, i))
                continue;
            out("| %s | %s |", cipher_names[cipher], all[i].name);
            for (size_t z = 0; z < COUNT(sizes); z++) {
                const struct times *t = &cipher_times[cipher][kind][z][i];
                const struct times *ours = &cipher_times[cipher][kind == SEAL || kind == SEAL_ALONE ? SEAL : OPEN][z][OURS];
                out(" %.2f · %.2f · **%.2f** |", best(t) / 1e3, median(t) / 1e3, best(t) / best(ours));
            }
            out("\n");
        }
}

/* What each implementation's AES-128 takes of its AES-256's time. */
static void print_shorter_keys(void)
{
    out("\n### AES-128 beside AES-256, sealing, the key schedule in each call\n\n"
        "The time of AES-128 as a part of the same implementation's AES-256: by the best · by the median. 10 rounds of 14 are 0.71, and GHASH\n"
        "takes the same with both.\n\n"
        "| bytes of text (+ associated data) |");
    for (size_t z = 0; z < COUNT(sizes); z++)
        out(" %s |", sizes[z].name);
    out("\n");
    columns(1, COUNT(sizes));
    for (size_t i = 0; i < COUNT(all); i++) {
        out("| %s |", all[i].name);
        for (size_t z = 0; z < COUNT(sizes); z++) {
            const struct times *shorter = &cipher_times[AES_128][SEAL][z][i], *longer = &cipher_times[AES_256][SEAL][z][i];
            out(" %.2f · %.2f |", best(shorter) / best(longer), median(shorter) / median(longer));
        }
        out("\n");
    }
}

static void print_calls(void)
{
    static const char *const names[CALLS] = {"save, start", "save, start and all advances", "power-up, start",
                                             "power-up, start and all advances", "look"};
    out("\n## Saving and powering up\n\n"
        "Microseconds, best · median. Both parts have the length named. The newest page of the ring is full: every nonce of it is compared,\n"
        "the record goes to slot 0 of the next page, and the page before is erased. The memories are arrays in RAM; a chip's own time for a\n"
        "store comes on top. A key of 16 bytes, AES-128's, is shown with the smallest ring: reading the ring, and storing, are the same.\n\n"
        "| ring, parts | |");
    for (int call = 0; call < CALLS; call++)
        out(" %s |", names[call]);
    out("\n");
    columns(2, CALLS);
    for (size_t h = 0; h < COUNT(shapes); h++)
        for (int cipher = 0; cipher < CIPHERS; cipher++)
            for (size_t n = 0; n < COUNT(parts) && called(cipher, h); n++) {
                const struct times *t = call_times[cipher][h][n];
                out("| %zu by %zu, %s | %s |", shapes[h][0], shapes[h][1], part_names[n], cipher_names[cipher]);
                for (int call = 0; call < CALLS; call++)
                    out(" %.2f · %.2f |", best(&t[call]) / 1e3, median(&t[call]) / 1e3);
                out("\n");
            }
}

static void print_hex(void)
{
    static const char *const names[WAYS] = {"export", "import"};
    out("\n## Intel HEX\n\n"
        "An image of 262,144 bytes to its text of 720,972 bytes, and back. In each round, before the clock starts, all must export the same\n"
        "data lines and import the image, and in memory refuse a text with one digit changed.\n\n"
        "What is not alike: Godwitshelf judges the whole text before it stores a byte. Godwitshelf and SRecord write type 04 lines and line\n"
        "feeds; binutils, at this size, writes type 02 lines, and a carriage return before each line feed. libbfd is binutils' library: its\n"
        "text is written to a file in memory and read from memory. SRecord and binutils take many formats, and images with gaps of any size.\n\n"
        "### In memory\n\n"
        "Nanoseconds for a byte of the image: best · median · **ratio of the best to ours**; and megabytes of the image in a second, at best.\n"
        "Turns as for sealing.\n\n"
        "| | export | MB/s | import | MB/s |\n");
    columns(1, 2 * WAYS);
    for (size_t i = 0; i < COUNT(converters); i++) {
        out("| %s |", converters[i].name);
        for (int way = 0; way < WAYS; way++) {
            const struct times *t = &hex_times[way][i];
            double b = best(t) / sizeof image;
            out(" %.2f · %.2f · **%.2f** | %.0f |", b, median(t) / sizeof image, best(t) / best(&hex_times[way][OURS]), 1e3 / b);
        }
        out("\n");
    }
    out("\n### As programs\n\n"
        "Milliseconds from a program's start to its end, best · median · **ratio of the best to ours**, each for ten milliseconds in a turn,\n"
        "with the files in one folder. The last row is what a process and its files take with no conversion.\n\n|");
    for (int way = 0; way < WAYS; way++)
        out(" | %s", names[way]);
    out(" |\n");
    columns(1, WAYS);
    for (size_t i = 0; i < COUNT(programs); i++) {
        out("| %s |", programs[i].name);
        for (int way = 0; way < WAYS; way++) {
            const struct times *t = &program_times[way][i];
            out(" %.2f · %.2f · **%.2f** |", best(t) / 1e6, median(t) / 1e6, best(t) / best(&program_times[way][OURS]));
        }
        out("\n");
    }
}

static void print_chains(void)
{
    out("\n## Chains of dumps\n\n"
        "Microseconds, best · median · **ratio of the best to ours**. Turns as for sealing; in each round, before the clock starts, both must give\n"
        "the answer, and the same order. Tags differ in their last bytes alone.\n\n"
        "| | entries |");
    for (size_t n = 0; n < COUNT(entry_counts); n++)
        out(" %zu |", entry_counts[n]);
    out("\n");
    columns(2, COUNT(entry_counts));
    for (int chain = 0; chain < CHAINS; chain++)
        for (size_t s = 0; s < COUNT(sorters); s++) {
            out("| %s | %s |", chain_names[chain], sorters[s].name);
            for (size_t n = 0; n < COUNT(entry_counts); n++) {
                const struct times *t = chain_times[chain][n];
                out(" %.2f · %.2f · **%.2f** |", best(&t[s]) / 1e3, median(&t[s]) / 1e3, best(&t[s]) / best(&t[OURS]));
            }
            out("\n");
        }
}

static void print_settings(void)
{
    out("\n## Settings\n\n"
        "Nanoseconds, best · median · **ratio of the best to ours**. Turns as for sealing; in each round, before the clock starts, both must give\n"
        "the same volume and delay, or leave the same list. The list of three words is of version 1, the others are of version 2.\n\n"
        "| words |");
    for (size_t n = 0; n < COUNT(list_words); n++)
        out(" %zu |", list_words[n]);
    out("\n");
    columns(1, COUNT(list_words));
    for (size_t s = 0; s < COUNT(setters); s++) {
        out("| %s |", setters[s].name);
        for (size_t n = 0; n < COUNT(list_words); n++) {
            const struct times *t = setting_times[n];
            out(" %.1f · %.1f · **%.2f** |", best(&t[s]), median(&t[s]), best(&t[s]) / best(&t[s & ~(size_t)1]));
        }
        out("\n");
    }
}

static void print_depths(void)
{
    out("\n## Stack\n\n"
        "Bytes that a call writes below its caller's frame, arguments and callees included, at parts of 32,768 bytes and in every phase of a\n"
        "job, with a key of either length, whichever goes deeper, with an image of 262,144, at every ring of 4 pages by 4 slots, with\n"
        "64 entries, or with a list of 15 words. Measured on a painted stack, not proved.\n\n"
        "| call | bytes |\n");
    columns(1, 1);
    for (size_t i = 0; i < COUNT(depths); i++)
        out("| `%s` | %zu |\n", depths[i].name, depths[i].bytes);
}

static struct {
    char name[80];
    long code, constants;
} linked[8];

static size_t linked_count;

/* A line of SIZES is a name, bytes of code and bytes of constants; the first is that of the unit's calls, the second that of every call. */
static void read_sizes(const char *path)
{
    FILE *f = fopen(path, "r");
    need(f != NULL, path);
    while (linked_count < COUNT(linked) && fscanf(f, " %79[^|]|%ld|%ld", linked[linked_count].name, &linked[linked_count].code,
                                                 &linked[linked_count].constants) == 3)
        linked_count++;
    need(linked_count > 1 && fscanf(f, " %*c") == EOF, path);
    fclose(f);
}

static void print_sizes(void)
{
    out("\n## Code\n\n"
        "Bytes for x86-64, linked with `--gc-sections`. The C library's functions are not counted. mbedTLS is left out: its GCM refers to\n"
        "its table of all ciphers, so that Debian's archive links far more than GCM needs. What two rows share is counted in both.\n\n"
        "| | code | constants |\n");
    columns(1, 2);
    for (size_t i = 0; i < linked_count; i++)
        out("| %s | %ld | %ld |\n", linked[i].name, linked[i].code, linked[i].constants);
}

static void print_ratio(const char *name, int cipher, size_t other, double limit)
{
    const struct times *t = cipher_times[cipher][SEAL][TARGET_SIZE];
    double b = best(&t[OURS]) / best(&t[other]), m = median(&t[OURS]) / median(&t[other]);
    out("| %s | %.2f (best), %.2f (median) | %s |\n", name, b, m, b <= limit && m <= limit ? "met" : "**not met**");
}

/* Whether an archive that asks for these symbols has no way to a heap. */
static int no_heap(const char *symbols)
{
    static const char *const harmless[] = {"memcpy", "memmove", "memset", "memcmp", "bcmp"};
    while (*symbols) {
        size_t n = strcspn(symbols, " "), i = 0;
        while (i < COUNT(harmless) && (strlen(harmless[i]) != n || memcmp(harmless[i], symbols, n)))
            i++;
        if (i == COUNT(harmless))
            return 0;
        symbols += n + strspn(symbols + n, " ");
    }
    return 1;
}

static void print_targets(const char *symbols)
{
    long units = linked[0].code + linked[0].constants, whole = linked[1].code + linked[1].constants;
    out("\n## Targets\n\nA target of time is met if the best and the median meet it.\n\n| target | measured | |\n|---|---|---|\n");
    print_ratio("sealing 4,096 + 1,056 bytes by AES-256: at most 0.50 of the time of BearSSL ct64 + ctmul64, Debian's build", AES_256, CT64,
                0.5);
    print_ratio("sealing 4,096 + 1,056 bytes by AES-256: less than the time of BearSSL big + ctmul32, Debian's build", AES_256, BIG32, 1);
    print_ratio("beyond the targets: the first, by AES-128", AES_128, CT64, 0.5);
    print_ratio("beyond the targets: the second, by AES-128", AES_128, BIG32, 1);
#ifdef FAST
    print_ratio("beyond the targets: the first, with BearSSL compiled with -O3", AES_256, FAST_CT64, 0.5);
    print_ratio("beyond the targets: the second, with BearSSL compiled with -O3", AES_256, FAST_BIG32, 1);
#endif
    out("| code and constants of the unit's own calls, all but those for the bench, Intel HEX's two, keeper_ring_shape, keeper_factory_check and keeper_chain_order: under 24 KiB (24,576 bytes) | %ld; "
        "with the bench's %ld | %s |\n",
        units, whole, units < 24576 ? "met" : "**not met**");
    out("| no heap | the archive's only undefined symbols: %s | %s |\n", symbols, no_heap(symbols) ? "met" : "**not met**");
}

static void print_facts(const char *path, const double *load)
{
    char line[256] = "?";
    struct utsname u;
    time_t t = time(NULL);
    FILE *f = fopen("/proc/cpuinfo", "r");
    while (f && fgets(line, sizeof line, f) && strncmp(line, "model name", 10))
        ;
    if (f)
        fclose(f);
    uname(&u);
    out("- Machine: %.*s, %ld cores, %s %s.\n", (int)strcspn(strchr(line, ':') ? strchr(line, ':') + 2 : line, "\n"),
        strchr(line, ':') ? strchr(line, ':') + 2 : line, sysconf(_SC_NPROCESSORS_ONLN), u.sysname, u.release);
    strftime(line, sizeof line, "%Y-%m-%d %H:%M UTC", gmtime(&t));
    out("- Date: %s. Load of the machine, this program included: %.2f at the start, %.2f at the end.\n", line, load[0], load[1]);
    need((f = fopen(path, "r")) != NULL, path);
    while (fgets(line, sizeof line, f))
        out("- %s", line);
    fclose(f);
}

int main(int argc, char **argv)
{
    double load[2];
    cpu_set_t one;
    need(argc == 7, "usage: bench PAGE FACTS SIZES SYMBOLS PROGRAMS FOLDER");
    read_sizes(argv[3]);
    snprintf(export_path, sizeof export_path, "%s/hex_export", argv[5]);
    snprintf(import_path, sizeof import_path, "%s/hex_import", argv[5]);
    folder = argv[6];
    for (size_t i = 0; i < sizeof key; i++)
        key[i] = i;
    for (size_t i = 0; i < sizeof aad; i++)
        aad[i] = 7 * i + 1;
    for (size_t i = 0; i < sizeof text; i++)
        text[i] = 5 * i + 3;
    for (uint32_t i = 0; i < sizeof image; i++)
        image[i] = i * 2654435761u >> 24;
    CPU_ZERO(&one);
    CPU_SET(sysconf(_SC_NPROCESSORS_ONLN) - 1, &one);
    need(sched_setaffinity(0, sizeof one, &one) == 0, "no core to pin to");
    mbedtls_gcm_init(&mbed);
    for (int cipher = 0; cipher < CIPHERS; cipher++)
        measure_stack(cipher);
    getloadavg(&load[0], 1);
    for (int round = 0; round < ROUNDS; round++) {
        time_ciphers(round);
        time_calls(round);
        time_hex(round);
        time_chains(round);
        time_settings(round);
    }
    getloadavg(&load[1], 1);

    need((page = fopen(argv[1], "w")) != NULL, argv[1]);
    out("# Performance\n\nWritten by `make bench`. Times on another machine differ; the ratios of one run are what it is for.\n\n");
    print_facts(argv[2], load);
    print_targets(argv[4]);
    out("\n## Sealing and opening\n\n"
        "AES-256-GCM and AES-128-GCM, by keys of 32 and of 16 bytes, with a nonce of 12 bytes and a tag of 16. Microseconds: best · median ·\n"
        "**ratio of the best to ours by the same cipher**. %d rounds in which all take turns on one core, each for a millisecond, after a few\n"
        "calls to warm up; a turn in which another process got the core is taken again. In each round, before the clock starts, all must give\n"
        "the same bytes, open them, and refuse them with one bit of the tag changed.\n\n"
        "1,056 bytes of associated data are the head and an open part of 1,024 bytes; 32,800 are those of the largest checkpoint.\n\n"
        "What is not alike:\n\n"
        "- **Tables and time.** Godwitshelf, BearSSL small and big, and mbedTLS with its hardware masked look up AES tables at places that\n"
        "  depend on key and data. BearSSL ct64 does not, by design, and pays for it.\n"
        "- **Compilers.** Debian compiles BearSSL for size (-Os), as its authors do, and Godwitshelf is compiled with -O3."
#ifdef FAST
        " Two\n  rows are Debian's source of BearSSL compiled with -O3 too.\n"
#else
        " Debian's\n  source of BearSSL could not be fetched, so no row has it compiled for speed.\n"
#endif
        "- **Hardware.** mbedTLS and OpenSSL use AES-NI and PCLMUL where these are not masked; where they are, OpenSSL still has code\n"
        "  written for SSSE3.\n"
        "- **Opening.** Godwitshelf compares the tag before it decrypts; the others decrypt before they compare it.\n"
        "- **Set-up.** The others' contexts are made before the clock starts; mbedTLS allocates memory in each key schedule. BearSSL works\n"
        "  in place, so its text is copied first.\n",
        ROUNDS);
    print_ciphers(SEAL, "Sealing, the key schedule in each call");
    print_ciphers(OPEN, "Opening, the key schedule in each call");
    print_shorter_keys();
    out("\nGodwitshelf has no call without the key schedule. The others without theirs, the ratio still to its whole call:\n");
    print_ciphers(SEAL_ALONE, "Sealing, without the key schedule");
    print_ciphers(OPEN_ALONE, "Opening, without the key schedule");
    print_calls();
    print_hex();
    print_chains();
    print_settings();
    print_depths();
    print_sizes();
    need(fclose(page) == 0, argv[1]);
    return 0;
}
