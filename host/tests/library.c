/* The library against its header: library RECORDING, the worked example. Tries the refusals that the command can't meet, each length of
 * include/sitaungo.h from both sides, and what a call leaves alone. Prints what is wrong, and at the end the number of checks. */
#include <inttypes.h>
#include <stdbool.h>
#include <stddef.h>
#include <stdio.h>
#include <stdlib.h>
#include <string.h>

#include "sitaungo.h"

_Static_assert(sizeof(struct sitaungo_outcome) == 80, "the struct's size");
_Static_assert(sizeof(struct sitaungo_options) == 16 && offsetof(struct sitaungo_options, share) == 8, "the choices' size");
_Static_assert(offsetof(struct sitaungo_options, photos) == 9, "the choice of references");
_Static_assert(sizeof(struct sitaungo_request) == 32 && sizeof(struct sitaungo_plotting) == 32, "a plot's structs");
_Static_assert(sizeof(struct sitaungo_conversion) == 224 && offsetof(struct sitaungo_conversion, items) == 32, "the state's size");
_Static_assert(offsetof(struct sitaungo_conversion, steps) == 136 && offsetof(struct sitaungo_conversion, next) == 144, "the state's steps");
_Static_assert(sizeof(struct sitaungo_begun) == 304 && sizeof(struct sitaungo_position) == 232, "structs with a state");
_Static_assert(sizeof(struct sitaungo_taken) == 32 && offsetof(struct sitaungo_taken, number) == 8, "what taking out answers");
_Static_assert(sizeof(struct sitaungo_eight) == 64 && sizeof(struct sitaungo_shares) == 72, "a pass's structs");

enum { ROOM = 4096, WIDE = 16384, GUARD = 0xA5 };

static uint8_t image[1 << 18], out[WIDE], lines[SITAUNGO_LISTING_BYTES], ident[SITAUNGO_IDENT_BYTES + 1], text[SITAUNGO_TEXT_BYTES + 1];
static uint64_t work[4][SITAUNGO_WORK_WORDS + 1], list[SITAUNGO_LIST_WORDS];
static int checks, wrong;

/* What one call is lent, and what it chooses where it does. */
struct call {
    size_t image, ident, text, work[4], out, list;
    uint64_t size, unit;
    bool chooses, share, photos;
    const uint8_t *types;
    size_t types_length;
};

static size_t image_length;

static struct call usual(void)
{
    return (struct call){
        .image = image_length, .ident = SITAUNGO_IDENT_BYTES, .text = 7,
        .work = {SITAUNGO_WORK_WORDS, SITAUNGO_WORK_WORDS, SITAUNGO_WORK_WORDS, SITAUNGO_WORK_WORDS},
        .out = ROOM, .list = SITAUNGO_LIST_WORDS, .size = 64,
    };
}

static void check(int good, const char *what)
{
    checks++;
    if (!good) {
        wrong++;
        printf("wrong: %s\n", what);
    }
}

static int all(const void *bytes, size_t length, uint8_t value)
{
    for (size_t i = 0; i < length; i++)
        if (((const uint8_t *)bytes)[i] != value)
            return 0;
    return 1;
}

static struct sitaungo_outcome run(struct call c)
{
    memset(out, GUARD, sizeof out);
    memset(list, GUARD, sizeof list);
    memset(work, GUARD, sizeof work);
    if (c.chooses)
        return sitaungo_convert_with(image, c.image, c.size, ident, c.ident, text, c.text, 0, (struct sitaungo_options){c.unit, c.share, c.photos},
            c.types, c.types_length, work[0], c.work[0], work[1], c.work[1], work[2], c.work[2], work[3], c.work[3], out, c.out, list, c.list);
    return sitaungo_convert(image, c.image, c.size, ident, c.ident, text, c.text, 0, work[0], c.work[0], work[1], c.work[1], work[2], c.work[2],
        work[3], c.work[3], out, c.out, list, c.list);
}

/* The call is refused so, the counts are 0, output and list are as they were. */
static void refuses(struct call c, uint64_t number, uint64_t place, const char *what)
{
    struct sitaungo_outcome a = run(c);
    check(!a.accepted && a.number == number && a.place == place, what);
    check(all(&a.source_groups, 7 * sizeof(uint64_t), 0), "counts of a refusal");
    check(all(out, sizeof out, GUARD) && all(list, sizeof list, GUARD), "output and list after a refusal");
    for (int i = 0; i < 4; i++) {
        size_t used = number == SITAUNGO_REFUSED_LENT ? 0 : c.work[i];
        check(all(work[i], 8 * used, 0), "work words after a refusal");
        check(all(work[i] + used, sizeof work[i] - 8 * used, GUARD), "work words that are left alone");
    }
}

static void accepts(struct call c, const char *what)
{
    check(run(c).accepted, what);
}

static void try_lent(void)
{
    struct call c;
    for (int i = 0; i < 4; i++) {
        c = usual();
        c.work[i]--;
        refuses(c, SITAUNGO_REFUSED_LENT, 0, "a work slice one word short");
        c.work[i] += 2;
        accepts(c, "a longer work slice");
    }
    c = usual();
    c.ident--;
    refuses(c, SITAUNGO_REFUSED_LENT, 0, "an identification of 63 bytes");
    c.ident += 2;
    refuses(c, SITAUNGO_REFUSED_LENT, 0, "an identification of 65 bytes");
    c = usual();
    ident[9] = '!';
    refuses(c, SITAUNGO_REFUSED_LENT, 0, "an identification of another version");
    ident[9] = '.';
    c.text = SITAUNGO_TEXT_BYTES + 1;
    refuses(c, SITAUNGO_REFUSED_LENT, 0, "a history text too long");
    c.text = SITAUNGO_TEXT_BYTES;
    refuses(c, SITAUNGO_REFUSED_OUTPUT, 1288 + 4096, "the longest history text");
    c = usual();
    c.size = 0;
    refuses(c, SITAUNGO_REFUSED_BLOCK_SIZE, 0, "block size 0");
}

static void try_output(void)
{
    struct call c = usual();
    c.out = 0;
    refuses(c, SITAUNGO_REFUSED_OUTPUT, 1288, "no output");
    c.out = 1287;
    refuses(c, SITAUNGO_REFUSED_OUTPUT, 1288, "an output one byte short");
    c.out = 1288;
    accepts(c, "an output of the bytes needed");
    c.list = 0;
    refuses(c, SITAUNGO_REFUSED_LIST, 1, "no list");
    c.list = 1;
    accepts(c, "a list of one word");
}

/* The worked example's report, and what lies past result and list. */
static void try_report(void)
{
    struct sitaungo_outcome a = run(usual());
    check(a.accepted && a.number == 0 && a.place == 0, "the worked example is accepted");
    check(a.source_groups == 1 && a.time_groups == 1 && a.signal_groups == 1 && a.shared_time_groups == 0, "its groups");
    check(a.data_blocks == 4 && a.metadata_size == 1048 && a.file_size == 1288, "its blocks and sizes");
    check(memcmp(out + 1048, "##DV", 4) == 0 && memcmp(out + 1176, "##DT", 4) == 0, "its columns' data");
    check(all(out + 1288, sizeof out - 1288, GUARD), "bytes past the result");
    check(list[0] == 0 && all(list + 1, sizeof list - 8, GUARD), "words past the list");
    for (int i = 0; i < 4; i++)
        check(all(work[i], 8 * SITAUNGO_WORK_WORDS, 0), "work words after a conversion");
}

static size_t list_into(size_t length, uint64_t room, uint64_t words)
{
    memset(lines, GUARD, sizeof lines);
    return sitaungo_list(image, image_length, 64, ident, SITAUNGO_IDENT_BYTES, text, 7, room, words, work[0], SITAUNGO_WORK_WORDS,
        work[1], SITAUNGO_WORK_WORDS, work[2], SITAUNGO_WORK_WORDS, work[3], SITAUNGO_WORK_WORDS, lines, length);
}

static void lists(uint64_t room, uint64_t words, const char *expected)
{
    size_t n = strlen(expected);
    check(list_into(sizeof lines, room, words) == n && memcmp(lines, expected, n) == 0, expected);
    check(all(lines + n, sizeof lines - n, GUARD), "bytes past the listing");
    check(list_into(10, room, words) == n && memcmp(lines, expected, 10) == 0, "a listing that is cut");
    check(all(lines + 10, sizeof lines - 10, GUARD), "bytes past the lines lent");
}

/* ---- units */

static struct call with_unit(uint64_t unit)
{
    struct call c = usual();
    c.chooses = true;
    c.unit = unit;
    c.out = WIDE;
    return c;
}

static size_t next_multiple(size_t at, size_t unit)
{
    return (at + unit - 1) / unit * unit;
}

/* A column's two blocks, which lie there as with unit 8, but for their place. */
static int same_blocks(const uint8_t *usual_bytes, size_t at, size_t length)
{
    return memcmp(out + at, usual_bytes, length) == 0;
}

/* Each of the ten: the worked example's metadata end at 1048, its columns have 128 and 112 bytes of blocks. */
static void try_units(void)
{
    static uint8_t usual_bytes[WIDE];
    struct sitaungo_outcome built_in = run(usual());
    memcpy(usual_bytes, out, sizeof out);
    for (size_t unit = 8; unit <= 4096; unit *= 2) {
        size_t first = next_multiple(1048, unit), second = next_multiple(first + 128, unit), end = second + 112;
        struct call c = with_unit(unit);
        struct sitaungo_outcome a = run(c);
        check(a.accepted && a.file_size == end, "the size with a unit");
        a.file_size = built_in.file_size;
        check(memcmp(&a.source_groups, &built_in.source_groups, 7 * sizeof(uint64_t)) == 0, "the report but for the size");
        check(same_blocks(usual_bytes + 1048, first, 128) && same_blocks(usual_bytes + 1176, second, 108), "blocks on their unit");
        check(all(out + 1048, first - 1048, 0) && all(out + first + 128, second - first - 128, 0) && all(out + second + 108, 4, 0), "gaps");
        check(all(out + end, sizeof out - end, GUARD), "bytes past the result");
        check(unit != 8 || memcmp(out, usual_bytes, sizeof out) == 0, "unit 8 is built in");
        for (int i = 0; i < 4; i++)
            check(all(work[i], 8 * SITAUNGO_WORK_WORDS, 0), "work words after a conversion");
        c.out = end - 1;
        refuses(c, SITAUNGO_REFUSED_OUTPUT, end, "an output one byte short for the unit");
    }
    check(next_multiple(1048, 16) == 1056 && next_multiple(1048, 64) == 1088 && run(with_unit(16)).file_size == 1296, "unit 16");
    check(run(with_unit(64)).file_size == 1328 && run(with_unit(4096)).file_size == 8304, "units 64 and 4096");
}

/* 26, after 1 and 2 and before 3. */
static void try_bad_units(void)
{
    static const uint64_t bad[] = {0, 1, 2, 4, 7, 9, 12, 24, 48, 4088, 4095, 4097, 8192, UINT64_C(1) << 32, (UINT64_C(1) << 32) + 8, UINT64_C(1) << 63, UINT64_MAX};
    for (size_t i = 0; i < sizeof bad / sizeof *bad; i++) {
        struct call c = with_unit(bad[i]);
        refuses(c, SITAUNGO_REFUSED_UNIT, 0, "a bad unit");
        c.out = c.list = c.image = 0;
        refuses(c, SITAUNGO_REFUSED_UNIT, 0, "a bad unit with nothing lent");
        c.size = 0;
        refuses(c, SITAUNGO_REFUSED_BLOCK_SIZE, 0, "block size 0 before the unit");
        c.work[i % 4]--;
        refuses(c, SITAUNGO_REFUSED_LENT, 0, "a short slice before the unit");
    }
}

/* ---- tables of treatments */

struct table {
    size_t length;
    uint8_t bytes[SITAUNGO_TYPES_BYTES + 2];
};

static struct call with_table(const struct table *t)
{
    struct call c = with_unit(8);
    c.types = t->bytes;
    c.types_length = t->length;
    return c;
}

/* Tables that change nothing of the worked example, whose channels have types 2 and 0. */
static const struct table none = {0, {0}};
static const struct table without_effect[] = {
    {3, {1, 0, 0}}, {3, {1, 0, 2}}, {3, {1, 1, 0}}, {3, {1, 1, 1}}, {3, {1, 1, 2}}, {3, {1, 2, 0}}, {3, {1, 3, 0}}, {3, {1, 4, 0}},
    {3, {1, 4, 1}}, {3, {1, 4, 2}}, {3, {1, 5, 1}}, {3, {1, 5, 2}}, {3, {1, 6, 0}}, {3, {1, 6, 1}}, {5, {2, 6, 0, 1, 2}},
    {13, {6, 6, 5, 4, 3, 2, 1, 1, 1, 0, 0, 0, 2}}, {15, {7, 0, 1, 2, 3, 4, 5, 6, 2, 2, 0, 0, 0, 2, 1}},
    {15, {7, 6, 5, 4, 3, 2, 1, 0, 0, 1, 2, 0, 0, 1, 0}},
};

/* Each condition of 27; their neighbours stand above. */
static const struct table bad_tables[] = {
    {1, {0}}, {1, {1}}, {2, {1, 0}}, {4, {1, 0, 0, 0}}, {3, {0, 0, 0}}, {3, {2, 0, 0}}, {5, {1, 0, 1, 0, 0}}, {15, {1, 0, 0}},
    {14, {7, 0, 1, 2, 3, 4, 5, 6, 2, 2, 0, 0, 0, 2}}, {16, {7, 0, 1, 2, 3, 4, 5, 6, 2, 2, 0, 0, 0, 2, 1, 0}},
    {17, {8, 0, 1, 2, 3, 4, 5, 6, 7, 2, 2, 0, 0, 0, 2, 1, 0}}, {3, {255, 0, 0}}, {3, {129, 0, 0}},
    {3, {1, 7, 0}}, {3, {1, 255, 0}}, {5, {2, 0, 0, 0, 0}}, {5, {2, 4, 4, 0, 1}}, {7, {3, 0, 1, 0, 0, 0, 0}}, {3, {1, 0, 3}}, {3, {1, 4, 255}},
    {3, {1, 2, 1}}, {3, {1, 2, 2}}, {3, {1, 3, 1}}, {3, {1, 3, 2}}, {3, {1, 5, 0}}, {3, {1, 6, 2}},
    {15, {7, 6, 5, 4, 3, 2, 1, 0, 0, 1, 2, 0, 1, 1, 0}},
};

static void try_tables(void)
{
    static uint8_t usual_bytes[WIDE];
    const struct table omitting = {3, {1, 0, 1}};
    check(run(usual()).accepted, "the worked example without a choice");
    memcpy(usual_bytes, out, sizeof out);
    check(run(with_table(&none)).accepted && memcmp(out, usual_bytes, sizeof out) == 0 && list[0] == 0, "a table without bytes");
    for (size_t i = 0; i < sizeof without_effect / sizeof *without_effect; i++)
        check(run(with_table(&without_effect[i])).accepted && memcmp(out, usual_bytes, sizeof out) == 0 && list[0] == 0, "a table without effect here");
    struct sitaungo_outcome a = run(with_table(&omitting));
    check(a.accepted && a.time_groups == 1 && a.signal_groups == 0 && a.data_blocks == 2, "a table that omits the signal");
    check(list[0] == 1 && list[2] == SITAUNGO_OMITTED_TYPE && all(list + 3, sizeof list - 24, GUARD), "its omission");
}

/* 27, after 1, 2 and 26. */
static void try_bad_tables(void)
{
    for (size_t i = 0; i < sizeof bad_tables / sizeof *bad_tables; i++) {
        struct call c = with_table(&bad_tables[i]);
        refuses(c, SITAUNGO_REFUSED_TYPES, 0, "a bad table");
        c.out = c.list = c.image = 0;
        refuses(c, SITAUNGO_REFUSED_TYPES, 0, "a bad table with nothing lent");
        c.unit = 12;
        refuses(c, SITAUNGO_REFUSED_UNIT, 0, "a bad unit before the table");
        c.size = 0;
        refuses(c, SITAUNGO_REFUSED_BLOCK_SIZE, 0, "block size 0 before the table");
        c.work[i % 4]--;
        refuses(c, SITAUNGO_REFUSED_LENT, 0, "a short slice before the table");
    }
}

/* ---- shared times */

/* The worked example has one group: nothing is shared, every byte is as without. */
static void try_shared(void)
{
    static uint8_t usual_bytes[WIDE];
    struct call c = with_unit(8);
    check(run(usual()).accepted, "the worked example without a choice");
    memcpy(usual_bytes, out, sizeof out);
    c.share = true;
    struct sitaungo_outcome a = run(c);
    check(a.accepted && a.shared_time_groups == 0 && memcmp(out, usual_bytes, sizeof out) == 0 && list[0] == 0, "shared times of one group");
    for (int i = 0; i < 4; i++)
        check(all(work[i], 8 * SITAUNGO_WORK_WORDS, 0), "work words after a conversion");
    c.out = 1287;
    refuses(c, SITAUNGO_REFUSED_OUTPUT, 1288, "an output one byte short");
    c.unit = 12;
    refuses(c, SITAUNGO_REFUSED_UNIT, 0, "a bad unit with shared times");
}

/* ---- listings by what is chosen */

static void lists_by(struct sitaungo_options o, const struct table *t, uint64_t room, const char *expected)
{
    size_t n = strlen(expected);
    memset(lines, GUARD, sizeof lines);
    size_t length = sitaungo_list_with(image, image_length, 64, ident, SITAUNGO_IDENT_BYTES, text, 7, o, t->bytes, t->length,
        room, 2049, work[0], SITAUNGO_WORK_WORDS, work[1], SITAUNGO_WORK_WORDS, work[2], SITAUNGO_WORK_WORDS, work[3], SITAUNGO_WORK_WORDS, lines,
        sizeof lines);
    check(length == n && memcmp(lines, expected, n) == 0 && all(lines + n, sizeof lines - n, GUARD), expected);
    for (int i = 0; i < 4; i++)
        check(all(work[i], 8 * SITAUNGO_WORK_WORDS, 0), "work words after a listing");
}

/* The worked example has no attachments and no references. */
static void lists_with(uint64_t unit, bool share, const struct table *t, uint64_t room, const char *expected)
{
    lists_by((struct sitaungo_options){unit, share, false}, t, room, expected);
    lists_by((struct sitaungo_options){unit, share, true}, t, room, expected);
}

static void try_listed(const char *listing)
{
    const struct table omitting = {3, {1, 0, 1}}, bad = {1, {0}};
    char due[100];
    lists_with(8, false, &none, 1288, listing);
    lists_with(8, true, &none, 1288, listing);
    lists_with(4096, true, &none, 8304, listing);
    lists_with(4096, false, &none, 8304, listing);
    lists_with(4096, false, &none, 8303, "refused 20 place 8304\n");
    lists_with(12, true, &none, 8304, "refused 26 place 0\n");
    lists_with(0, true, &bad, 0, "refused 26 place 0\n");
    lists_with(8, true, &bad, 0, "refused 27 place 0\n");
    check(run(with_table(&omitting)).accepted, "the omission's address");
    snprintf(due, sizeof due, "columns 1\n0 t 4 0 20 2 80 -\nomitted 1\n%" PRIu64 " 8\n", list[1]);
    lists_with(8, false, &omitting, 1288, due);
    lists_with(8, true, &omitting, 1288, due);
}

/* ---- plots */

/* A plot of the worked example's result: so many entries into so many bytes. */
static uint8_t drawn[256];
static struct sitaungo_request table[SITAUNGO_PLOT_ENTRIES + 1];

static struct sitaungo_plotting plot(size_t file, size_t entries, size_t length)
{
    memset(drawn, GUARD, sizeof drawn);
    return sitaungo_plot(out, file, table, entries, drawn, length);
}

static int ends(struct sitaungo_plotting p, uint64_t number, uint64_t place, uint64_t position)
{
    return !p.accepted && p.number == number && p.place == place && p.position == position;
}

static int served(struct sitaungo_plotting p)
{
    return p.accepted && p.number == 0 && p.place == 0 && p.position == 0;
}

static struct sitaungo_request entry(uint64_t column, uint64_t first, uint64_t count, uint64_t place)
{
    return (struct sitaungo_request){column, first, count, place};
}

/* One entry alone into 80 bytes. */
static struct sitaungo_plotting one(size_t file, struct sitaungo_request e)
{
    table[0] = e;
    return plot(file, 1, 80);
}

static void try_plot(void)
{
    uint8_t single[80];
    size_t file = 1288;
    check(run(usual()).accepted, "a result to plot");
    check(sitaungo_read_range(out, file, 0, 0, 20, single, 80).accepted, "a single read");
    check(served(one(file, entry(0, 0, 20, 0))) && memcmp(drawn, single, 80) == 0 && all(drawn + 80, sizeof drawn - 80, GUARD), "one entry");
    table[0] = entry(0, 4, 2, 8);
    table[1] = entry(0, 0, 2, 12);
    check(served(plot(file, 2, 80)) && memcmp(drawn + 8, single + 16, 4) == 0 && memcmp(drawn + 12, single, 8) == 0, "the later entry wins");
    check(all(drawn, 8, GUARD) && all(drawn + 20, sizeof drawn - 20, GUARD), "bytes beside the entries");
    for (int i = 0; i < 3; i++)
        table[i] = entry(0, (uint64_t)i, 1, 4 * (uint64_t)i);
    table[3] = entry(0, 20, 1, 12);
    table[4] = entry(0, 4, 1, 16);
    check(ends(plot(file, 5, 80), 23, 0, 3) && memcmp(drawn, single, 12) == 0 && all(drawn + 12, sizeof drawn - 12, GUARD), "a refusal at entry 3");
    check(ends(one(file, entry(2, 0, 1, 0)), 22, 0, 0) && ends(one(file, entry(2, 99, 1, 99)), 22, 0, 0), "22 before 23 and 25");
    check(ends(one(file, entry(0, 20, 1, 99)), 23, 0, 0) && ends(one(file, entry(0, 0, UINT64_MAX, 0)), 23, 0, 0), "23 before 25");
    check(served(one(file, entry(0, 0, 1, 76))) && ends(one(file, entry(0, 0, 1, 77)), 25, 0, 0), "the destination's end");
    check(ends(one(file, entry(0, 0, 1, UINT64_MAX)), 25, 0, 0) && all(drawn, sizeof drawn, GUARD), "a place that wraps");
    check(served(one(file, entry(0, 20, 0, 80))) && ends(one(file, entry(0, 20, 0, 81)), 25, 0, 0), "no bytes at the end and past it");
    for (int i = 0; i <= SITAUNGO_PLOT_ENTRIES; i++)
        table[i] = entry(0, (uint64_t)i % 20, 1, 4 * ((uint64_t)i % 20));
    check(served(plot(file, SITAUNGO_PLOT_ENTRIES, 80)) && memcmp(drawn, single, 80) == 0, "256 entries");
    check(ends(plot(file, SITAUNGO_PLOT_ENTRIES + 1, 80), 25, 0, 0) && all(drawn, sizeof drawn, GUARD), "257 entries");
    check(ends(plot(0, SITAUNGO_PLOT_ENTRIES + 1, 80), 25, 0, 0) && ends(plot(0, 1, 80), 4, 0, 0) && served(plot(0, 0, 80)), "no file");
    out[0] = 'X';
    check(ends(plot(file, 1, 80), 5, 0, 0) && served(plot(file, 0, 0)), "an image that is no file");
}

/* ---- sheets */

static size_t sheet_into(const uint8_t *file, size_t file_length, size_t length)
{
    memset(lines, GUARD, sizeof lines);
    return sitaungo_sheet(file, file_length, lines, length);
}

/* Whatever is lent, the whole length is answered, and what has room is there. */
static void shows(const uint8_t *file, size_t file_length, const char *expected)
{
    size_t n = strlen(expected), lent[] = {sizeof lines, n, n - 1, 81, 80, 10, 1, 0};
    for (size_t i = 0; i < sizeof lent / sizeof *lent; i++) {
        size_t kept = lent[i] < n ? lent[i] : n;
        check(sheet_into(file, file_length, lent[i]) == n && memcmp(lines, expected, kept) == 0, expected);
        check(all(lines + kept, sizeof lines - kept, GUARD), "bytes past the sheet or the lines lent");
    }
}

static void try_sheet(void)
{
    const char *expected =
        "page 1 of 1                                                                     \n"
        "       0 t -                                           4           20 -         \n"
        "       1 s -                                           2           20          0\n";
    check(run(usual()).accepted, "a result to show");
    shows(out, 1288, expected);
    shows(out, sizeof out, expected);
    shows(out, 0, "refused 4 place 0\n");
    shows(out, 1284, expected);
    shows(out, 1283, "refused 4 place 1272\n");
    shows(image, image_length, "refused 24 place 0\n");
    out[0] = 'X';
    shows(out, 1288, "refused 5 place 0\n");
}

/* ---- taking columns out */

static uint8_t taken[ROOM];

/* Takes columns out of the result in `out`, of 1288 bytes, into so many bytes of `taken`. */
static struct sitaungo_taken take(struct call c, const uint64_t *numbers, size_t count)
{
    memset(taken, GUARD, sizeof taken);
    memset(work, GUARD, sizeof work);
    return sitaungo_take_out(out, c.image, c.unit, numbers, count, work[0], c.work[0], work[1], c.work[1], work[2], c.work[2], work[3], c.work[3], taken, c.out);
}

static struct call of_result(void)
{
    struct call c = usual();
    c.image = 1288;
    c.unit = 8;
    return c;
}

/* The work words that were lent are zero, those behind them and the output past so many bytes as they were. */
static void leaves(struct call c, uint64_t number, size_t bytes)
{
    check(all(taken + bytes, sizeof taken - bytes, GUARD), "output past the new file, or of a refusal");
    for (int i = 0; i < 4; i++) {
        size_t used = number == SITAUNGO_REFUSED_LENT ? 0 : c.work[i];
        check(all(work[i], 8 * used, 0) && all(work[i] + used, sizeof work[i] - 8 * used, GUARD), "work words of taking out");
    }
}

static void takes(struct call c, const uint64_t *numbers, size_t count, uint64_t bytes, const char *what)
{
    struct sitaungo_taken a = take(c, numbers, count);
    check(a.accepted && a.number == 0 && a.place == 0 && a.bytes == bytes && memcmp(taken, out, 64) == 0, what);
    leaves(c, 0, bytes);
}

static void keeps(struct call c, const uint64_t *numbers, size_t count, uint64_t number, uint64_t place, const char *what)
{
    struct sitaungo_taken a = take(c, numbers, count);
    check(!a.accepted && a.number == number && a.place == place && a.bytes == 0, what);
    leaves(c, number, 0);
}

/* Of document 01's example: the whole, column 1 out, both out, in either order; 33 and 34, and what comes before them. */
static void try_taking(void)
{
    static const uint64_t first[] = {0}, second[] = {1}, both[] = {1, 0}, twice[] = {1, 1}, none[] = {2}, last[] = {UINT64_MAX}, named[] = {0, 0};
    check(run(usual()).accepted, "a result to take columns out of");
    struct call c = of_result();
    takes(c, NULL, 0, 1288, "nothing out");
    check(memcmp(taken, out, 1288) == 0, "the result itself");
    takes(c, second, 1, 776, "column 1 out");
    takes(c, both, 2, 256, "both out");
    keeps(c, first, 1, SITAUNGO_REFUSED_NAMED, 0, "a column that another names");
    keeps(c, twice, 2, SITAUNGO_REFUSED_NUMBERS, 0, "a number twice");
    keeps(c, none, 1, SITAUNGO_REFUSED_NUMBERS, 0, "no column");
    keeps(c, last, 1, SITAUNGO_REFUSED_NUMBERS, 0, "the last number");
    keeps(c, named, 2, SITAUNGO_REFUSED_NUMBERS, 0, "33 before 34");
    c.out = 776;
    takes(c, second, 1, 776, "just enough room");
    c.out = 775;
    keeps(c, second, 1, SITAUNGO_REFUSED_OUTPUT, 776, "a byte too little");
    c.out = 0;
    keeps(c, NULL, 0, SITAUNGO_REFUSED_OUTPUT, 1288, "no output");
    c.unit = 4096;
    keeps(c, second, 1, SITAUNGO_REFUSED_OUTPUT, 4224, "unit 4096, no output");
    c.unit = 12;
    c.image = 0;
    keeps(c, twice, 2, SITAUNGO_REFUSED_UNIT, 0, "26 before the file");
    c.work[2]--;
    keeps(c, twice, 2, SITAUNGO_REFUSED_LENT, 0, "1 before 26");
    c = of_result();
    c.work[1]++;
    takes(c, second, 1, 776, "a longer work slice");
    c.image = 63;
    keeps(c, twice, 2, SITAUNGO_REFUSED_PAST_END, 0, "a file of 63 bytes");
}

/* ---- references to attachments */

/* Where blocks of the recording below stand, and those of its result. */
enum { CHAINED = 168, OUTSIDE = 272, CHANNEL = 368, RESULT_CN = 424, RESULT_DL = 600, WITHOUT = 776, WITH = 792 };

static void put64(uint8_t *to, uint64_t number)
{
    for (int i = 0; i < 8; i++)
        to[i] = (uint8_t)(number >> 8 * i);
}

static uint64_t get64(const uint8_t *from)
{
    uint64_t number = 0;
    for (int i = 7; i >= 0; i--)
        number = number << 8 | from[i];
    return number;
}

static void put_link(size_t block, size_t number, uint64_t to)
{
    put64(image + block + 24 + 8 * number, to);
}

/* A block whose links and data are 0; the place behind it. */
static size_t put_block(size_t at, const char *kind, size_t links, size_t data)
{
    memset(image + at, 0, 24 + 8 * links + data);
    memcpy(image + at, kind, 4);
    put64(image + at + 8, 24 + 8 * links + data);
    put64(image + at + 16, links);
    return at + 24 + 8 * links + data;
}

/* A channel of this type with so many links and this count of references, of which the ninth and tenth link lead there. */
struct photographed {
    uint8_t type;
    size_t links, count;
    uint64_t references[2], signal;
};

/* One group of three records of a byte; the header's chain has the AT at 168, that at 272 stands outside. */
static void record(struct photographed p)
{
    memset(image, 0, sizeof image);
    memcpy(image, "MDF     4.10    ", 16);
    put_block(64, "##HD", 6, 32);
    put_block(CHAINED, "##AT", 4, 48);
    memcpy(image + CHAINED + 96, "a photo", 7);
    put_block(OUTSIDE, "##AT", 4, 40);
    size_t data = CHANNEL + 24 + 8 * p.links;
    size_t cg = put_block(CHANNEL, "##CN", p.links, 72);
    size_t dg = put_block(cg, "##CG", 6, 32);
    size_t dt = put_block(dg, "##DG", 4, 8);
    image_length = put_block(dt, "##DT", 0, 3);
    for (size_t i = 8; i < p.links && i < 10; i++)
        put_link(CHANNEL, i, p.references[i - 8]);
    put_link(CHANNEL, 5, p.signal);
    image[data] = p.type;
    image[data + 8] = 8;
    image[data + 22] = (uint8_t)p.count;
    image[data + 23] = (uint8_t)(p.count >> 8);
    image[cg + 24 + 48 + 24] = 1;
    put_link(cg, 1, CHANNEL);
    put_link(dg, 1, cg);
    put_link(dg, 2, dt);
    put_link(64, 0, dg);
    put_link(64, 3, CHAINED);
}

static struct call with_photos(void)
{
    struct call c = with_unit(8);
    c.photos = true;
    return c;
}

/* The CN of the result, that many references in it, and behind it a DL. */
static int has_references(size_t count)
{
    const uint8_t *cn = out + RESULT_CN, *data = cn + 24 + 8 * (8 + count);
    return memcmp(cn, "##CN", 4) == 0 && get64(cn + 8) == 160 + 8 * count && get64(cn + 16) == 8 + count && data[22] == count && data[23] == 0 &&
        memcmp(cn + 160 + 8 * count, "##DL", 4) == 0;
}

static const struct photographed two_references = {.links = 10, .count = 2, .references = {CHAINED, 0}};

/* A reference and a 0: 16 bytes more, a link to the moved AT; without the choice neither is looked at. */
static void try_references(void)
{
    static uint8_t usual_bytes[WIDE];
    record(two_references);
    struct sitaungo_outcome a = run(usual());
    check(a.accepted && a.metadata_size == 640 && a.file_size == WITHOUT && has_references(0), "references that aren't kept");
    memcpy(usual_bytes, out, sizeof out);
    check(run(with_unit(8)).accepted && memcmp(out, usual_bytes, sizeof out) == 0, "the choice off");
    struct sitaungo_outcome b = run(with_photos());
    check(b.accepted && b.metadata_size == 656 && b.file_size == WITH && has_references(2), "two references");
    check(get64(out + RESULT_CN + 88) == 688 && get64(out + RESULT_CN + 96) == 0, "a reference and a 0");
    check(memcmp(out + 688, image + CHAINED, 104) == 0 && get64(out + 64 + 24 + 24) == 688, "the moved attachment");
    check(get64(out + RESULT_DL + 32) == 656 && memcmp(out + 656, usual_bytes + 640, 32) == 0, "the column's data");
    check(all(out + WITH, sizeof out - WITH, GUARD) && list[0] == 0, "bytes past the result");
    a.metadata_size = b.metadata_size, a.file_size = b.file_size;
    check(memcmp(&a.source_groups, &b.source_groups, 7 * sizeof(uint64_t)) == 0, "the rest of the report");
    for (int i = 0; i < 4; i++)
        check(all(work[i], 8 * SITAUNGO_WORK_WORDS, 0), "work words after a conversion");
    uint8_t records[3];
    check(sitaungo_read_range(out, WITH, 0, 0, 3, records, 3).accepted && all(records, 3, 0), "records of a column with references");
    lists_by((struct sitaungo_options){8, false, true}, &none, WITH, "columns 1\n0 s 1 0 3 1 3 -\nomitted 0\n");
    lists_by((struct sitaungo_options){8, false, true}, &none, WITH - 1, "refused 20 place 792\n");
    struct call c = with_photos();
    c.out = WITH - 1;
    refuses(c, SITAUNGO_REFUSED_OUTPUT, WITH, "an output one byte short for the references");
    c = with_photos();
    c.unit = 4096;
    check(run(c).file_size == 4128 + 104 && get64(out + RESULT_CN + 88) == 4128 && memcmp(out + 4128, image + CHAINED, 104) == 0, "references with a unit");
    c.unit = 12;
    refuses(c, SITAUNGO_REFUSED_UNIT, 0, "a bad unit with references");
    record((struct photographed){.links = 11, .count = 2, .references = {CHAINED, CHAINED}});
    check(run(with_photos()).accepted && has_references(2), "a link more than the references");
    check(get64(out + RESULT_CN + 88) == 688 && get64(out + RESULT_CN + 96) == 688, "one attachment twice");
    record((struct photographed){.links = 10, .references = {OUTSIDE, 1 << 20}});
    check(run(with_photos()).accepted && has_references(0), "links behind a count of 0");
}

/* 28 of both kinds; the same recordings are accepted without the choice. */
static void try_bad_references(void)
{
    static const struct photographed bad[] = {
        {.links = 10, .count = 2, .references = {CHAINED, OUTSIDE}}, {.links = 10, .count = 2, .references = {1 << 20, 0}},
        {.links = 10, .count = 2, .references = {0, CHAINED + 8}}, {.links = 10, .count = 1, .references = {CHANNEL, CHAINED}},
        {.links = 9, .count = 1, .references = {UINT64_MAX, 0}}, {.links = 9, .count = 2, .references = {CHAINED, 0}}, {.links = 8, .count = 1},
        {.links = 10, .count = 3, .references = {0, 0}}, {.links = 10, .count = 65535}, {.links = 10, .count = 258, .references = {CHAINED, 0}},
    };
    for (size_t i = 0; i < sizeof bad / sizeof *bad; i++) {
        record(bad[i]);
        check(run(usual()).accepted && run(with_unit(8)).accepted && has_references(0), "bad references that aren't kept");
        refuses(with_photos(), SITAUNGO_REFUSED_REFERENCE, CHANNEL, "bad references");
        lists_by((struct sitaungo_options){8, false, true}, &none, WIDE, "refused 28 place 368\n");
    }
}

/* The header's attachments first, then of a column 28 before its signal data is followed. */
static void try_order_of_references(void)
{
    struct photographed p = two_references;
    p.type = 1, p.signal = 64;
    record(p);
    refuses(with_unit(8), SITAUNGO_REFUSED_DATA_KIND, 64, "signal data that is none");
    refuses(with_photos(), SITAUNGO_REFUSED_DATA_KIND, 64, "signal data that is none, references sound");
    put_link(CHANNEL, 9, OUTSIDE);
    refuses(with_photos(), SITAUNGO_REFUSED_REFERENCE, CHANNEL, "a reference before signal data");
    put64(image + CHAINED + 16, 3);
    refuses(with_unit(8), SITAUNGO_REFUSED_DATA_KIND, 64, "an attachment after signal data");
    refuses(with_photos(), SITAUNGO_REFUSED_ATTACHMENT, CHAINED, "an attachment before references");
    put64(image + CHAINED + 16, 4);
    put64(image + CHAINED + 8, 1 << 20);
    refuses(with_photos(), SITAUNGO_REFUSED_PAST_END, CHAINED, "an attachment past the end before references");
    put64(image + CHAINED + 8, UINT64_C(1) << 40);
    put64(image + CHAINED + 16, 33554429);
    refuses(with_photos(), SITAUNGO_REFUSED_PAST_END, CHAINED, "links of an attachment up to 268,435,456");
    put64(image + CHAINED + 16, 33554430);
    refuses(with_photos(), SITAUNGO_REFUSED_ATTACHMENT, CHAINED, "links of an attachment past 268,435,456");
    record(two_references);
    put_link(64, 3, 0);
    refuses(with_photos(), SITAUNGO_REFUSED_REFERENCE, CHANNEL, "no attachments");
    put_link(64, 3, OUTSIDE);
    put_link(OUTSIDE, 0, CHAINED);
    accepts(with_photos(), "the second attachment");
    put_link(OUTSIDE, 0, OUTSIDE);
    refuses(with_photos(), SITAUNGO_REFUSED_REFERENCE, CHANNEL, "behind a chain that returns");
}

/* ---- steps */

static uint64_t stretches[SITAUNGO_STRETCH_WORDS], offsets[5000];

static struct sitaungo_begun begin(struct call c, uint64_t room, uint64_t words)
{
    memset(work, GUARD, sizeof work);
    memset(stretches, GUARD, sizeof stretches);
    memset(offsets, GUARD, sizeof offsets);
    return sitaungo_begin(image, c.image, c.size, ident, c.ident, text, c.text, 0, (struct sitaungo_options){c.unit, c.share, c.photos},
        c.types, c.types_length, room, words, work[0], c.work[0], work[1], c.work[1], work[2], c.work[2], work[3], c.work[3],
        stretches, SITAUNGO_STRETCH_WORDS, offsets, 5000);
}

static struct sitaungo_conversion advance(struct call c, struct sitaungo_conversion s, uint64_t stores)
{
    return sitaungo_advance(s, stores, image, c.image, ident, c.ident, text, c.text, c.types, c.types_length, work[0], c.work[0], work[1], c.work[1],
        work[2], c.work[2], work[3], c.work[3], stretches, SITAUNGO_STRETCH_WORDS, offsets, 5000, out, c.out, list, c.list);
}

static struct sitaungo_conversion step(struct call c, struct sitaungo_conversion s)
{
    return sitaungo_step(s, image, c.image, ident, c.ident, text, c.text, c.types, c.types_length, work[0], c.work[0], work[1], c.work[1],
        work[2], c.work[2], work[3], c.work[3], stretches, SITAUNGO_STRETCH_WORDS, offsets, 5000, out, c.out, list, c.list);
}

/* Field by field: what lies between them doesn't count. */
static int same_state(struct sitaungo_conversion a, struct sitaungo_conversion b)
{
    return memcmp(&a, &b, offsetof(struct sitaungo_conversion, share)) == 0 && a.share == b.share && a.photos == b.photos &&
        memcmp(&a.items, &b.items, sizeof a - offsetof(struct sitaungo_conversion, items)) == 0;
}

static int same_outcome(struct sitaungo_outcome a, struct sitaungo_outcome b)
{
    return a.accepted == b.accepted && memcmp(&a.number, &b.number, sizeof a - offsetof(struct sitaungo_outcome, number)) == 0;
}

static void begins_not(struct call c, uint64_t room, uint64_t words, uint64_t number, uint64_t place, const char *what)
{
    struct sitaungo_begun b = begin(c, room, words);
    check(!b.outcome.accepted && b.outcome.number == number && b.outcome.place == place && all(&b.outcome.source_groups, 56, 0), what);
    check(same_state(b.conversion, (struct sitaungo_conversion){0}) && sitaungo_left(b.conversion) == 0, "the state of a refusal");
    for (int i = 0; i < 4; i++)
        check(all(work[i], 8 * c.work[i], number == SITAUNGO_REFUSED_LENT ? GUARD : 0), "work words after a refused beginning");
    check(all(stretches, sizeof stretches, 0) && all(offsets, sizeof offsets, 0), "words for places after a refused beginning");
}

/* The worked example in 5 stores on units of 4096: eight zeros, three pages but for these eight bytes, and these. */
static void try_steps(void)
{
    static uint8_t whole[WIDE];
    struct call c = with_unit(4096);
    struct sitaungo_outcome a = run(c);
    memcpy(whole, out, sizeof out);
    static const size_t from[] = {0, 8, 4096, 8192, 0}, to[] = {8, 4096, 8192, 8304, 8};
    for (int by_step = 0; by_step < 2; by_step++) {
        memset(out, GUARD, sizeof out);
        memset(list, GUARD, sizeof list);
        struct sitaungo_begun b = begin(c, 8304, 1);
        struct sitaungo_conversion s = b.conversion;
        check(same_outcome(b.outcome, a) && s.steps == 5 && s.next == 0 && s.file_size == 8304 && sitaungo_left(s) == 5, "the beginning");
        check(all(out, sizeof out, GUARD) && all(stretches, sizeof stretches, 0) && all(offsets, sizeof offsets, 0), "what beginning leaves");
        for (uint64_t k = 0; k < 5; k++) {
            check(all(list, sizeof list, GUARD), "the list before the last step");
            memset(out, GUARD, sizeof out);
            s = by_step ? step(c, s) : advance(c, s, 1);
            check(s.next == k + 1 && sitaungo_left(s) == 4 - k, "the position");
            check(k == 0 ? all(out, 8, 0) : memcmp(out + from[k], whole + from[k], to[k] - from[k]) == 0, "a store's bytes");
            check(all(out, from[k], GUARD) && all(out + to[k], sizeof out - to[k], GUARD), "bytes beside a store");
        }
        check(list[0] == 0 && all(list + 1, sizeof list - 8, GUARD), "the list after the last step");
        for (int i = 0; i < 4; i++)
            check(all(work[i], 8 * SITAUNGO_WORK_WORDS, 0), "work words after the last step");
        check(all(stretches, sizeof stretches, 0) && all(offsets, sizeof offsets, 0), "words for places after the last step");
        memset(out, GUARD, sizeof out);
        struct sitaungo_conversion further = advance(c, step(c, s), UINT64_MAX);
        check(same_state(further, s) && all(out, sizeof out, GUARD), "a further step");
    }
    advance(c, begin(c, 8304, 1).conversion, UINT64_MAX);
    check(memcmp(out, whole, 8304) == 0 && all(out + 8304, sizeof out - 8304, GUARD), "all steps in one call");
}

static void try_bad_steps(void)
{
    struct call c = with_unit(8);
    begins_not(c, 1287, 1, SITAUNGO_REFUSED_OUTPUT, 1288, "a file one byte short");
    begins_not(c, 1288, 0, SITAUNGO_REFUSED_LIST, 1, "no list");
    check(begin(c, 1288, 1).outcome.accepted && begin(c, UINT64_MAX, UINT64_MAX).outcome.accepted, "a file of the bytes needed, and a long one");
    c.unit = 12;
    begins_not(c, 0, 0, SITAUNGO_REFUSED_UNIT, 0, "a bad unit");
    c.size = 0;
    begins_not(c, 0, 0, SITAUNGO_REFUSED_BLOCK_SIZE, 0, "block size 0");
    c.work[2]--;
    begins_not(c, 0, 0, SITAUNGO_REFUSED_LENT, 0, "a short slice");
}

/* 29 and 30: positions and their order. */
static void try_positions(void)
{
    struct call c = with_unit(4096);
    struct sitaungo_conversion s = begin(c, WIDE, 1).conversion;
    struct sitaungo_position p = sitaungo_recall(s, 0);
    check(p.number == SITAUNGO_REFUSED_POSITION && same_state(p.conversion, s), "a position that was never named");
    static const uint64_t names[] = {0, UINT64_MAX, 1, UINT64_C(1) << 63};
    for (int i = 0; i < SITAUNGO_NAMES; i++) {
        p = sitaungo_name(s, names[i]);
        check(p.number == 0 && p.conversion.count == (uint64_t)i + 1, "four names");
        s = step(c, p.conversion);
    }
    p = sitaungo_name(s, 2);
    check(p.number == SITAUNGO_REFUSED_NAME && same_state(p.conversion, s), "a fifth name");
    p = sitaungo_name(s, UINT64_MAX);
    check(p.number == 0 && p.conversion.count == 4, "a name given again with four held");
    s = p.conversion;
    static const uint64_t places[] = {0, 4, 2, 3};
    for (int i = 0; i < SITAUNGO_NAMES; i++) {
        p = sitaungo_recall(s, names[i]);
        s = p.conversion;
        check(p.number == 0 && s.next == places[i] && s.count == 4 && sitaungo_left(s) == 5 - places[i], "a position recalled");
    }
    s = advance(c, s, UINT64_MAX);
    for (int i = 0; i < SITAUNGO_NAMES; i++)
        check(sitaungo_name(s, names[i]).number == 30 && sitaungo_recall(s, names[i]).number == 30, "after the last store");
    check(sitaungo_recall(s, 2).number == SITAUNGO_REFUSED_NAME, "30 before 29");
}

/* ---- shares */

static int shares(uint64_t stores, uint64_t jobs, struct sitaungo_eight caps, struct sitaungo_eight left, uint64_t number, struct sitaungo_eight due)
{
    struct sitaungo_shares s = sitaungo_share(stores, jobs, caps, left);
    return s.number == number && memcmp(&s.shares, &due, sizeof due) == 0;
}

static struct sitaungo_eight three(uint64_t a, uint64_t b, uint64_t c)
{
    return (struct sitaungo_eight){.a = a, .b = b, .c = c};
}

static void try_shares(void)
{
    const struct sitaungo_eight zeros = {0}, ones = {1, 1, 1, 1, 1, 1, 1, 1}, seven = {1, 1, 1, 1, 1, 1, 1, 0}, up = {1, 2, 3, 4, 5, 6, 7, 8},
        down = {8, 7, 6, 5, 4, 3, 2, 1};
    check(shares(10, 3, three(100, 100, 100), three(3, 100, 100), 0, three(3, 4, 3)), "10 among 3, 100 and 100");
    check(shares(12, 3, three(1, 4, 20), three(100, 100, 100), 0, three(1, 4, 7)), "caps of 1, 4 and 20");
    check(shares(10, 3, three(9, 9, 9), three(0, 7, 9), 0, three(0, 5, 5)), "a finished job");
    check(shares(2, 3, three(5, 5, 5), three(5, 5, 5), 0, three(2, 0, 0)), "fewer stores than jobs");
    check(shares(8, 8, up, down, 0, ones) && shares(7, 8, ones, zeros, 0, zeros), "eight jobs, and eight that are finished");
    check(shares(7, 0, ones, ones, SITAUNGO_REFUSED_JOBS, zeros) && shares(0, 9, zeros, ones, SITAUNGO_REFUSED_JOBS, zeros), "no job, and nine");
    check(shares(0, 8, ones, ones, SITAUNGO_REFUSED_CAP, zeros), "no store");
    check(shares(7, 8, seven, zeros, SITAUNGO_REFUSED_CAP, zeros) && shares(7, 7, seven, ones, 0, seven), "a cap of 0, and one behind the jobs");
}

/* So many columns without records; the length. */
static size_t many_columns(size_t columns)
{
    size_t at = 168;
    memset(image, 0, sizeof image);
    memcpy(image, "MDF     4.20    ", 16);
    put_block(64, "##HD", 6, 32);
    for (size_t k = 0, before = 64; k < columns; k++) {
        size_t dg = at, cg = put_block(dg, "##DG", 4, 8), cn = put_block(cg, "##CG", 6, 32);
        at = put_block(cn, "##CN", 8, 72);
        put_link(before, 0, dg);
        put_link(dg, 1, cg);
        put_link(cg, 1, cn);
        before = dg;
    }
    return at;
}

static void try_longest_sheet(void)
{
    size_t length = many_columns(SITAUNGO_DATA_GROUPS);
    check(sheet_into(image, length, sizeof lines) == SITAUNGO_SHEET_BYTES, "the longest sheet");
    check(lines[SITAUNGO_SHEET_BYTES - 1] == '\n' && all(lines + SITAUNGO_SHEET_BYTES, sizeof lines - SITAUNGO_SHEET_BYTES, GUARD), "its end");
    check(sheet_into(image, length, SITAUNGO_SHEET_BYTES - 1) == SITAUNGO_SHEET_BYTES && lines[SITAUNGO_SHEET_BYTES - 1] == GUARD, "one byte short");
    length = many_columns(SITAUNGO_DATA_GROUPS + 1);
    shows(image, length, "refused 19 place 168104\n");
    shows(image, many_columns(0), "page 1 of 1                                                                     \n");
}

int main(int count, char **arguments)
{
    FILE *file = count == 2 ? fopen(arguments[1], "rb") : NULL;
    if (!file)
        return 1;
    image_length = fread(image, 1, sizeof image, file);
    fclose(file);
    memcpy(ident, "MDF     4.20    sitaungo\0\0\0\0\xa4\x01", 30);
    memset(text, 'x', sizeof text);
    try_lent();
    try_output();
    try_report();
    const char *listing = "columns 2\n0 t 4 0 20 2 80 -\n1 s 2 1 20 2 60 0\nomitted 0\n";
    lists(1288, 2049, listing);
    lists(1287, 2049, "refused 20 place 1288\n");
    lists(1288, 0, "refused 21 place 1\n");
    try_units();
    try_bad_units();
    try_tables();
    try_bad_tables();
    try_shared();
    try_listed(listing);
    try_plot();
    try_sheet();
    try_taking();
    try_steps();
    try_bad_steps();
    try_positions();
    try_shares();
    try_references();
    try_bad_references();
    try_order_of_references();
    try_longest_sheet();
    printf("%d checks, %d wrong\n", checks, wrong);
    return wrong != 0;
}
