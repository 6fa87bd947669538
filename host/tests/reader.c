/* The library's reader at the borders that small files don't have: many blocks, a long DL, a file over 4 GiB, numbers around 2^64. Prints what
 * is wrong, and at the end the number of checks. */
#define _GNU_SOURCE
#include <stdio.h>
#include <string.h>
#include <sys/mman.h>

#include "sitaungo.h"

_Static_assert(sizeof(struct sitaungo_read) == 24 && sizeof(struct sitaungo_part) == 40, "the structs' sizes");

enum { GUARD = 0xA5, ROOM = 4096 };

static const size_t MOST = 5ull << 30;
static int checks, wrong;

/* A column: a DL that lists so many blocks, over and over where fewer are there; all have `bytes` bytes, the last that is there `last`. */
struct column {
    uint64_t records, width, listed, there, bytes, last;
};

/* The file under way: its bytes, its length, and where the first data of its last column stand. */
static uint8_t *file;
static uint64_t length, data;

static void check(int good, const char *what)
{
    checks++;
    if (!good) {
        wrong++;
        printf("wrong: %s\n", what);
    }
}

static void put(uint64_t at, uint64_t x)
{
    memcpy(file + at, &x, sizeof x);
}

static uint64_t block(const char *kind, uint64_t links, uint64_t bytes)
{
    uint64_t at = (length + 7) / 8 * 8;
    memcpy(file + at, kind, 4);
    put(at + 8, 24 + 8 * links + bytes);
    put(at + 16, links);
    length = at + 24 + 8 * links + bytes;
    return at;
}

/* The DL of a column and its blocks, each block's data beginning with its number. */
static uint64_t list_of(const struct column *c)
{
    uint64_t dl = block("##DL", c->listed + 1, 16), first = (length + 7) / 8 * 8, apart = (24 + c->bytes + 7) / 8 * 8;
    for (uint64_t i = 0; i < c->there; i++) {
        uint64_t bytes = i + 1 < c->there ? c->bytes : c->last, at = block("##DT", 0, bytes);
        if (bytes > 0)
            file[at + 24] = (uint8_t)i;
    }
    for (uint64_t i = 0; i < c->listed; i++)
        put(dl + 32 + 8 * i, first + i % c->there * apart);
    put(dl + 32 + 8 * c->listed, 1);
    put(dl + 40 + 8 * c->listed, c->bytes);
    data = first + 24;
    return dl;
}

static uint64_t add(uint64_t before, const struct column *c)
{
    uint64_t dg = block("##DG", 4, 8), cg = block("##CG", 6, 32), cn = block("##CN", 8, 72);
    put(before + 24, dg);
    put(dg + 32, cg);
    put(cg + 32, cn);
    put(cg + 80, c->records);
    put(cg + 96, c->width);
    if (c->there > 0)
        put(dg + 40, list_of(c));
    return dg;
}

/* A file of these columns in memory of its own; pages that nobody touches take none. */
static int make(const struct column *columns, int n)
{
    if (file)
        munmap(file, MOST);
    file = mmap(NULL, MOST, PROT_READ | PROT_WRITE, MAP_PRIVATE | MAP_ANONYMOUS | MAP_NORESERVE, -1, 0);
    check(file != MAP_FAILED, "no room for a file of 5 GiB");
    if (file == MAP_FAILED) {
        file = NULL;
        return 0;
    }
    length = 64;
    memcpy(file, "MDF     4.20    ", 16);
    uint64_t before = block("##HD", 6, 32);
    for (int i = 0; i < n; i++)
        before = add(before, &columns[i]);
    return 1;
}

static int stays(const uint8_t *buffer, size_t n)
{
    for (size_t i = 0; i < n; i++)
        if (buffer[i] != GUARD)
            return 0;
    return 1;
}

/* Both calls refuse so, and the buffer stays. */
static void refuses(uint64_t column, uint64_t first, uint64_t count, uint64_t number, const char *what)
{
    uint8_t buffer[ROOM];
    memset(buffer, GUARD, sizeof buffer);
    struct sitaungo_read r = sitaungo_read_range(file, length, column, first, count, buffer, 8);
    struct sitaungo_part p = sitaungo_range_part(file, length, column, first, count);
    check(!r.accepted && r.number == number && r.place == 0, what);
    check(!p.accepted && !p.split && p.number == number && p.place == 0 && p.offset == 0 && p.length == 0, what);
    check(stays(buffer, sizeof buffer), "the buffer after a refusal");
}

/* The bytes of records, copied; and handed back from `offset` on, or split for an offset of 0. Bytes past the buffer stay. */
static void reads(uint64_t first, uint64_t count, const void *bytes, size_t n, uint64_t offset, const char *what)
{
    uint8_t buffer[ROOM];
    memset(buffer, GUARD, sizeof buffer);
    struct sitaungo_read r = sitaungo_read_range(file, length, 0, first, count, buffer, n);
    struct sitaungo_part p = sitaungo_range_part(file, length, 0, first, count);
    check(r.accepted && r.number == 0 && r.place == 0 && memcmp(buffer, bytes, n) == 0 && stays(buffer + n, sizeof buffer - n), what);
    check(p.accepted && p.split == (offset == 0) && p.offset == offset && p.length == (p.split ? 0 : n), what);
    check(p.split || memcmp(file + p.offset, bytes, n) == 0, "the part's bytes");
}

/* More blocks than a recording may have. */
static void try_blocks(void)
{
    uint8_t all[1025];
    for (int i = 0; i < 1025; i++)
        all[i] = (uint8_t)i;
    if (!make(&(struct column){.records = 1025, .width = 1, .listed = 1025, .there = 1025, .bytes = 1, .last = 1}, 1))
        return;
    reads(0, 1025, all, 1025, 0, "1,025 blocks");
    reads(1024, 1, all + 1024, 1, data + 1024 * 32, "the last of them");
    refuses(0, 1024, 2, SITAUNGO_REFUSED_RECORDS, "a record past them");
}

/* A DL over 256 MiB: 34 million times the same block. */
static void try_long_list(void)
{
    uint64_t listed = 34000000;
    if (!make(&(struct column){.records = 8 * listed, .width = 1, .listed = listed, .there = 1, .bytes = 8, .last = 8}, 1))
        return;
    memcpy(file + data, "abcdefgh", 8);
    reads(8 * listed - 8, 8, "abcdefgh", 8, data, "the last block of a long DL");
    reads(8 * listed - 10, 4, "ghab", 4, 0, "over its beginning");
}

/* A file over 4 GiB. */
static void try_long_file(void)
{
    uint64_t bytes = 4 << 20, blocks = 1100, all = bytes * blocks;
    if (!make(&(struct column){.records = all / 4, .width = 4, .listed = blocks, .there = blocks, .bytes = bytes, .last = bytes}, 1))
        return;
    memcpy(file + length - 8, "ijklmnop", 8);
    check(length > 4294967296u, "over 4 GiB");
    reads(all / 4 - 2, 2, "ijklmnop", 8, length - 8, "the last records of a long file");
    refuses(0, all / 4, 1, SITAUNGO_REFUSED_RECORDS, "a record past them");
}

/* A DL of length 0, and a last block that is longer. */
static void try_length(void)
{
    if (!make(&(struct column){.records = 3, .width = 4, .listed = 3, .there = 3, .bytes = 0, .last = 12}, 1))
        return;
    memcpy(file + length - 12, "abcdefghijkl", 12);
    reads(1, 2, "efghijkl", 8, length - 8, "past empty blocks");
}

/* Lengths under a header's, which leave no data, whatever links such a block names; signal data is not looked at. */
static void try_headers(void)
{
    if (!make(&(struct column){.records = 2, .width = 4, .listed = 3, .there = 3, .bytes = 0, .last = 8}, 1))
        return;
    memcpy(file + length - 8, "abcdefgh", 8);
    for (uint64_t size = 0; size <= 24; size += 8) {
        put(data - 24 + 8, size);
        put(data - 24 + 16, size == 16 ? UINT64_MAX : 0);
        reads(0, 2, "abcdefgh", 8, length - 8, "a block that is shorter than its header");
    }
    put(data - 24 + 8, 25);
    refuses(0, 0, 2, SITAUNGO_REFUSED_FORM, "a byte of data in it");
    put(data - 24 + 8, 24);
    uint64_t dg = 0, cg = 0, cn = 0;
    memcpy(&dg, file + 64 + 24, 8);
    memcpy(&cg, file + dg + 32, 8);
    memcpy(&cn, file + cg + 32, 8);
    file[cn + 88] = 1;
    put(cn + 64, length + 8);
    reads(0, 2, "abcdefgh", 8, length - 8, "signal data past the file");
}

/* Sums and products that pass 2^64. */
static void try_numbers(void)
{
    if (!make(&(struct column){.records = 1ull << 62, .width = 4}, 1))
        return;
    refuses(0, 0, 2, SITAUNGO_REFUSED_FORM, "2^62 records of 4 bytes without data");
    if (!make(&(struct column){.records = UINT64_MAX, .width = 0}, 1))
        return;
    struct sitaungo_read r = sitaungo_read_range(file, length, 0, 1, UINT64_MAX - 1, NULL, 0);
    struct sitaungo_part p = sitaungo_range_part(file, length, 0, 1, UINT64_MAX - 1);
    check(r.accepted && p.accepted && !p.split && p.offset == 0 && p.length == 0, "records without bytes");
    refuses(0, UINT64_MAX, 2, SITAUNGO_REFUSED_RECORDS, "first and count past 2^64");
    refuses(1, 0, 0, SITAUNGO_REFUSED_COLUMN, "a column that isn't there");
}

/* The sixth column lacks the form, the first is asked for. */
static void try_other_column(void)
{
    struct column six[6];
    for (int i = 0; i < 6; i++)
        six[i] = (struct column){.records = 8 + (i == 5), .width = 1, .listed = 1, .there = 1, .bytes = 8, .last = 8};
    if (!make(six, 6))
        return;
    refuses(0, 0, 8, SITAUNGO_REFUSED_FORM, "another column out of form");
    six[5].records = 8;
    if (!make(six, 6))
        return;
    struct sitaungo_part p = sitaungo_range_part(file, length, 5, 0, 8);
    check(p.accepted && p.offset == data && p.length == 8, "all in the form");
}

int main(void)
{
    try_blocks();
    try_long_list();
    try_long_file();
    try_length();
    try_headers();
    try_numbers();
    try_other_column();
    printf("%d checks, %d wrong\n", checks, wrong);
    return wrong != 0;
}
