/* Intel HEX by libbfd, the library of GNU binutils. It reads the text from memory, and writes it to a file in memory. */
#define _GNU_SOURCE
#define PACKAGE "bench" /* bfd.h asks for it */
#include "bench.h"
#include <bfd.h>
#include <string.h>
#include <sys/mman.h>
#include <sys/stat.h>
#include <unistd.h>

struct text {
    const uint8_t *bytes;
    size_t len;
};

static void *open_text(bfd *b, void *text)
{
    (void)b;
    return text;
}

static file_ptr read_text(bfd *b, void *text, void *to, file_ptr n, file_ptr at)
{
    const struct text *t = text;
    (void)b;
    if ((size_t)at > t->len)
        return 0;
    if ((size_t)n > t->len - at)
        n = t->len - at;
    memcpy(to, t->bytes + at, n);
    return n;
}

static int stat_text(bfd *b, void *text, struct stat *s)
{
    (void)b;
    memset(s, 0, sizeof *s);
    s->st_size = ((struct text *)text)->len;
    return 0;
}

int bfd_import(const uint8_t *text, size_t len)
{
    struct text t = {text, len};
    bfd *b = bfd_openr_iovec("text", "ihex", open_text, &t, read_text, NULL, stat_text);
    int good = b && bfd_check_format(b, bfd_object);
    for (asection *s = good ? b->sections : NULL; s; s = s->next)
        good = good && s->lma + s->size <= sizeof imported && bfd_get_section_contents(b, s, imported + s->lma, 0, s->size);
    if (b)
        bfd_close(b);
    return good;
}

size_t bfd_export(const uint8_t **text)
{
    static int file = -1;
    static void *mapped;
    struct stat about;
    asection *s;
    if (file < 0) {
        file = memfd_create("text", 0);
        mapped = mmap(NULL, 4 * sizeof image, PROT_READ, MAP_SHARED, file, 0);
        if (mapped == MAP_FAILED)
            return 0;
    }
    if (ftruncate(file, 0) || lseek(file, 0, SEEK_SET))
        return 0;
    bfd *b = bfd_fopen("text", "ihex", "w", dup(file));
    int good = b && bfd_set_format(b, bfd_object) &&
               (s = bfd_make_section_with_flags(b, ".data", SEC_ALLOC | SEC_LOAD | SEC_HAS_CONTENTS)) &&
               bfd_set_section_size(s, sizeof image) && bfd_set_section_contents(b, s, image, 0, sizeof image);
    good = b && bfd_close(b) && good && fstat(file, &about) == 0 && (size_t)about.st_size <= 4 * sizeof image;
    *text = mapped;
    return good ? about.st_size : 0;
}
