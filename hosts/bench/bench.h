/* What bench.c, bearssl.c and bfd.c share: the work, and how another library does it. */
#include <stddef.h>
#include <stdint.h>

/* Lengths of a text and of associated data. */
struct size {
    const char *name;
    size_t text, aad;
};

/* The largest part of a checkpoint, and the associated data of the largest checkpoint: its head and open part. */
enum { LARGEST_PART = 32768, LARGEST_AAD = 32 + LARGEST_PART };

/* Sealing turns text into sealed and tag, opening turns sealed into opened if the tag is right. The key's first key_len bytes are used: 16 for
   AES-128, 32 for AES-256. */
extern size_t key_len;
extern uint8_t key[32], nonce[12], aad[LARGEST_AAD], text[LARGEST_PART], sealed[LARGEST_PART], opened[LARGEST_PART], tag[16];

/* The pieces of bearssl.c, with BearSSL as Debian compiles it, and as run.sh does. */
void bear_small(void), bear_ct64(void), bear_big32(void), bear_big64(void), bear_seal(const struct size *);
void fast_ct64(void), fast_big32(void), fast_seal(const struct size *);
int bear_open(const struct size *), fast_open(const struct size *);

/* Exporting makes an Intel HEX text of image and answers its length, or 0; importing turns a text into imported. By libbfd, in bfd.c: */
extern uint8_t image[262144], imported[262144];
size_t bfd_export(const uint8_t **);
int bfd_import(const uint8_t *, size_t);
