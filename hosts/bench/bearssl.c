/* AES-128-GCM and AES-256-GCM by BearSSL. run.sh compiles it twice, and with FAST_NAMES defined it takes the second set of names. */
#ifdef FAST_NAMES
#define bear_ct64 fast_ct64
#define bear_big32 fast_big32
#define bear_seal fast_seal
#define bear_open fast_open
#endif
#include "bench.h"
#include <bearssl.h>
#include <string.h>

static br_gcm_context gcm;
static br_aes_small_ctr_keys small;
static br_aes_ct64_ctr_keys ct64;
static br_aes_big_ctr_keys big;

void bear_small(void)
{
    br_aes_small_ctr_init(&small, key, key_len);
    br_gcm_init(&gcm, &small.vtable, br_ghash_ctmul32);
}

void bear_ct64(void)
{
    br_aes_ct64_ctr_init(&ct64, key, key_len);
    br_gcm_init(&gcm, &ct64.vtable, br_ghash_ctmul64);
}

void bear_big32(void)
{
    br_aes_big_ctr_init(&big, key, key_len);
    br_gcm_init(&gcm, &big.vtable, br_ghash_ctmul32);
}

void bear_big64(void)
{
    br_aes_big_ctr_init(&big, key, key_len);
    br_gcm_init(&gcm, &big.vtable, br_ghash_ctmul64);
}

/* BearSSL works in place, so the text is copied first. */
static void run(const struct size *s, int encrypt, const uint8_t *from, uint8_t *to)
{
    memcpy(to, from, s->text);
    br_gcm_reset(&gcm, nonce, 12);
    br_gcm_aad_inject(&gcm, aad, s->aad);
    br_gcm_flip(&gcm);
    br_gcm_run(&gcm, encrypt, to, s->text);
}

void bear_seal(const struct size *s)
{
    run(s, 1, text, sealed);
    br_gcm_get_tag(&gcm, tag);
}

int bear_open(const struct size *s)
{
    run(s, 0, sealed, opened);
    return br_gcm_check_tag(&gcm, tag) == 1;
}
