/*
 * The sealed checkpoints that crates/checkpoint_values prints and reads, made by OpenSSL's AES-256-GCM, and AES-128-GCM for keys of 16
 * bytes, from the layouts of documents 01 and 02 alone.
 *
 *     cc -o checkpoints checkpoints.c -lcrypto
 *     ./checkpoints         document 02's form, as text: the first part of the file crates/checkpoint_values/stdout; what comes behind it
 *                           is the stops of documents 01 and 02, written by hand. Of the largest checkpoints head and end are printed
 *     ./checkpoints older   a checkpoint of document 01's form, as bytes: the file crates/checkpoint_values/stdin
 *
 * (Debian: libssl-dev).
 */
#include <openssl/evp.h>
#include <stdio.h>
#include <stdlib.h>
#include <string.h>

enum form { OLDER, LONGER };

enum {
    SHORT_KEY = 16,
    LONG_KEY = 32,
    LARGEST_PART = 32768,
    WHOLE = 10000, /* checkpoints up to this length are printed whole; of longer ones the head, two dots and the last LAST bytes */
    LAST = 64
};

static unsigned char c[48 + 2 * LARGEST_PART];

static void need(int ok)
{
    if (!ok) {
        fputs("OpenSSL failed\n", stderr);
        exit(1);
    }
}

static void word(unsigned char *at, unsigned kind, unsigned value)
{
    unsigned w = kind << 30 | value;
    for (int i = 0; i < 4; i++)
        at[i] = w >> (24 - 8 * i);
}

/* Seals a checkpoint into c and answers its length. The older form has no packet number. */
static int seal(int key_length, enum form form, unsigned packet, int open, int secret, unsigned restarts)
{
    static unsigned char plain[LARGEST_PART];
    unsigned char key[LONG_KEY], nonce[12];
    int at = form == LONGER ? 4 : 0, start = at + 28, n;
    for (int i = 0; i < key_length; i++)
        key[i] = i;
    for (int i = 0; i < 12; i++)
        nonce[i] = 16 * restarts + i;
    if (form == LONGER)
        word(c, 0, packet);
    word(c + at, 1, open / 4);
    word(c + at + 4, 2, secret / 4);
    word(c + at + 8, 3, restarts);
    for (int i = 0; i < 16; i++)
        c[at + 12 + i] = 0xa0 + i;
    for (int i = 0; i < open; i++)
        c[start + i] = 7 * i + 1;
    for (int i = 0; i < secret; i++)
        plain[i] = 5 * i + 3;
    EVP_CIPHER_CTX *x = EVP_CIPHER_CTX_new();
    need(x != NULL);
    need(EVP_EncryptInit_ex(x, key_length == SHORT_KEY ? EVP_aes_128_gcm() : EVP_aes_256_gcm(), NULL, key, nonce));
    need(EVP_EncryptUpdate(x, NULL, &n, c, start + open));
    need(EVP_EncryptUpdate(x, c + start + open, &n, plain, secret) && n == secret);
    need(EVP_EncryptFinal_ex(x, c + start + open + secret, &n) && n == 0);
    need(EVP_CIPHER_CTX_ctrl(x, EVP_CTRL_GCM_GET_TAG, 16, c + start + open + secret));
    EVP_CIPHER_CTX_free(x);
    return start + open + secret + 16;
}

static void bytes(int from, int to)
{
    for (int i = from; i < to; i++)
        printf("%02x", c[i]);
}

static void show(int key_length, int half, unsigned packet, int open, int secret, unsigned restarts)
{
    int n = seal(key_length, LONGER, packet, open, secret, restarts);
    printf("half %c packet %u open %d secret %d restarts %u\n", "AB"[half], packet, open, secret, restarts);
    if (n <= WHOLE) {
        bytes(0, n);
    } else {
        bytes(0, 32);
        fputs(" .. ", stdout);
        bytes(n - LAST, n);
    }
    putchar('\n');
}

/* Under the shorter key all but those whose parts have 4,096 bytes. */
static void show_all(int key_length)
{
    printf("a key of %d bytes\n", key_length);
    show(key_length, 0, 0, 0, 0, 0);
    show(key_length, 1, 1, 0, 0, 8);
    show(key_length, 0, 256, 4, 0, 1);
    show(key_length, 1, 65536, 0, 4, 2);
    show(key_length, 0, 5, 8, 4, 3);
    show(key_length, 1, 1073741823, 20, 36, 4);
    if (key_length == LONG_KEY) {
        show(key_length, 0, 16777216, 4096, 4096, 5);
        show(key_length, 1, 305419896, 4096, 4096, 6);
    }
    show(key_length, 0, 2, LARGEST_PART, LARGEST_PART, 7);
    show(key_length, 1, 3, LARGEST_PART, LARGEST_PART, 8);
}

int main(int argc, char **argv)
{
    if (argc == 2 && strcmp(argv[1], "older") == 0) {
        int n = seal(LONG_KEY, OLDER, 0, 8, 4, 3);
        fwrite(c, 1, n, stdout);
        return 0;
    }
    show_all(LONG_KEY);
    show_all(SHORT_KEY);
    return 0;
}
