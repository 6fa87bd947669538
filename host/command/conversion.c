#define _GNU_SOURCE
#include "conversion.h"

#include <inttypes.h>
#include <stdio.h>
#include <stdlib.h>
#include <string.h>
#include <sys/mman.h>
#include <time.h>

#include "blocks.h"

/* Program identification of ours at 16, the version number 420 at 28; zero bytes to 64. */
static const uint8_t ident[SITAUNGO_IDENT_BYTES] = "MDF     4.20    sitaungo\0\0\0\0\xa4\x01";

#define VERSION_FRONT "<tool_version>"
static const char history[] =
    "<FHcomment xmlns=\"http://www.asam.net/mdf/v4\"><TX>Converted to column-oriented MDF 4.20, one signal per channel group, "
    "by mdf-columns %s at %s</TX><tool_id>mdf-columns</tool_id><tool_vendor>Sitaungo</tool_vendor>" VERSION_FRONT "%s</tool_version></FHcomment>";

/* What the conversion is lent besides recording and output. */
static uint64_t work[4][SITAUNGO_WORK_WORDS];
static uint64_t omissions[SITAUNGO_LIST_WORDS];
static uint8_t lines[SITAUNGO_LISTING_BYTES + 1];

/* ---- time and history text */

void write_time(char to[WHEN], uint64_t time)
{
    time_t seconds = (time_t)(time / 1000000000u);
    struct tm parts = {0};
    gmtime_r(&seconds, &parts);
    size_t n = strftime(to, WHEN, "%Y-%m-%dT%H:%M:%S", &parts);
    snprintf(to + n, WHEN - n, ".%09" PRIu64 "Z", time % 1000000000u);
}

uint64_t present_time(void)
{
    struct timespec now;
    if (clock_gettime(CLOCK_REALTIME, &now) != 0 || now.tv_sec < 0)
        return 0;
    return (uint64_t)now.tv_sec * 1000000000u + (uint64_t)now.tv_nsec;
}

struct lent lend(const struct choices *choices, const char *version, uint64_t time)
{
    struct lent l = {.choices = *choices, .time = time};
    char when[WHEN];
    write_time(when, time);
    l.text_length = (size_t)snprintf(l.text, sizeof l.text, history, version, when, version);
    return l;
}

/* The version that stands in a history text: letters, digits, points and hyphens. */
static bool find_version(struct text text, char version[VERSION_KEPT])
{
    const char *front = text.length ? memmem(text.bytes, text.length, VERSION_FRONT, strlen(VERSION_FRONT)) : NULL;
    if (!front)
        return false;
    const char *at = front + strlen(VERSION_FRONT), *end = (const char *)text.bytes + text.length;
    size_t n = 0;
    while (at + n < end && n < VERSION_KEPT - 1 && at[n] != '<')
        n++;
    memcpy(version, at, n);
    version[n] = '\0';
    return n > 0 && strspn(version, "0123456789.-abcdefghijklmnopqrstuvwxyz") == n;
}

bool read_lent(const uint8_t *result, size_t length, char version[VERSION_KEPT], uint64_t *time)
{
    struct image image = {result, length};
    struct block entry;
    if (!last_history(image, &entry))
        return false;
    *time = data_u64(image, &entry, 0);
    return find_version(text_at(image, link_of(image, &entry, 1)), version);
}

/* ---- the calls */

/* The conversion stores from front to back: reading ahead would bring pages that are overwritten, and in little memory drive out those in
 * use. */
uint8_t *map_output(int file, uint64_t size)
{
    void *bytes = mmap(NULL, (size_t)size, PROT_READ | PROT_WRITE, file < 0 ? MAP_PRIVATE | MAP_ANONYMOUS : MAP_SHARED, file, 0);
    if (bytes == MAP_FAILED)
        return NULL;
    madvise(bytes, (size_t)size, MADV_RANDOM);
    return bytes;
}

static struct sitaungo_options options_of(const struct choices *c)
{
    return (struct sitaungo_options){.unit = c->unit, .share = c->share_time, .photos = c->photos};
}

static struct sitaungo_outcome convert_with(
    const struct recording *r, const struct lent *l, uint64_t *fragments, size_t words, uint8_t *out, size_t length)
{
    const struct choices *c = &l->choices;
    return sitaungo_convert_with(
        r->bytes, r->length, c->block_size, ident, sizeof ident, (const uint8_t *)l->text, l->text_length, l->time, options_of(c),
        c->types, c->types_length,
        work[0], SITAUNGO_WORK_WORDS, fragments, words, work[2], SITAUNGO_WORK_WORDS, work[3], SITAUNGO_WORK_WORDS,
        out, length, omissions, SITAUNGO_LIST_WORDS);
}

struct sitaungo_outcome measure(const struct recording *r, const struct lent *l)
{
    return convert_with(r, l, work[1], SITAUNGO_WORK_WORDS, NULL, 0);
}

/* Words that may be needed for where records lie; those that there is no use for take no memory. NULL where they can't be had. */
static uint64_t *map_words(size_t words)
{
    void *mapped = mmap(NULL, words * sizeof(uint64_t), PROT_READ | PROT_WRITE, MAP_PRIVATE | MAP_ANONYMOUS | MAP_NORESERVE, -1, 0);
    return mapped == MAP_FAILED ? NULL : mapped;
}

/* A word more for each record that shares its DG with other groups: the conversion keeps there where these lie, if they follow each other in no
 * regular order. Without them it finds the same, in more time. */
struct sitaungo_outcome convert(const struct recording *r, const struct lent *l, uint8_t *out, size_t length)
{
    size_t words = SITAUNGO_WORK_WORDS + shared_records((struct image){r->bytes, r->length});
    uint64_t *fragments = map_words(words);
    if (!fragments)
        return convert_with(r, l, work[1], SITAUNGO_WORK_WORDS, out, length);
    struct sitaungo_outcome outcome = convert_with(r, l, fragments, words, out, length);
    munmap(fragments, words * sizeof *fragments);
    return outcome;
}

/* ---- the same in steps */

enum { OFFSET_WORDS = 2056 }; /* besides one a record */

static struct {
    struct sitaungo_conversion state;
    uint64_t stretches[SITAUNGO_STRETCH_WORDS], *offsets;
    size_t words; /* of offsets */
} steps;

struct sitaungo_outcome begin_stores(const struct recording *r, const struct lent *l, size_t length)
{
    const struct choices *c = &l->choices;
    steps.words = OFFSET_WORDS + shared_records((struct image){r->bytes, r->length});
    steps.offsets = map_words(steps.words);
    steps.words = steps.offsets ? steps.words : 0;
    struct sitaungo_begun begun = sitaungo_begin(
        r->bytes, r->length, c->block_size, ident, sizeof ident, (const uint8_t *)l->text, l->text_length, l->time, options_of(c),
        c->types, c->types_length, length, SITAUNGO_LIST_WORDS,
        work[0], SITAUNGO_WORK_WORDS, work[1], SITAUNGO_WORK_WORDS, work[2], SITAUNGO_WORK_WORDS, work[3], SITAUNGO_WORK_WORDS,
        steps.stretches, SITAUNGO_STRETCH_WORDS, steps.offsets, steps.words);
    steps.state = begun.conversion;
    return begun.outcome;
}

void make_stores(const struct recording *r, const struct lent *l, uint64_t stores, uint8_t *file, size_t length)
{
    const struct choices *c = &l->choices;
    steps.state = sitaungo_advance(
        steps.state, stores, r->bytes, r->length, ident, sizeof ident, (const uint8_t *)l->text, l->text_length, c->types, c->types_length,
        work[0], SITAUNGO_WORK_WORDS, work[1], SITAUNGO_WORK_WORDS, work[2], SITAUNGO_WORK_WORDS, work[3], SITAUNGO_WORK_WORDS,
        steps.stretches, SITAUNGO_STRETCH_WORDS, steps.offsets, steps.words, file, length, omissions, SITAUNGO_LIST_WORDS);
}

uint64_t stores_left(void)
{
    return sitaungo_left(steps.state);
}

/* ---- columns out of a file */

struct sitaungo_taken take_out(const struct recording *file, uint64_t unit, const uint64_t *numbers, size_t count, uint8_t *out, size_t length)
{
    return sitaungo_take_out(
        file->bytes, file->length, unit, numbers, count,
        work[0], SITAUNGO_WORK_WORDS, work[1], SITAUNGO_WORK_WORDS, work[2], SITAUNGO_WORK_WORDS, work[3], SITAUNGO_WORK_WORDS, out, length);
}

/* ---- listings and omissions */

/* The omission list from the end of a listing. */
static void take_omissions(const char *listing)
{
    const char *at = strstr(listing, "omitted ");
    uint64_t count = at ? strtoull(at + strlen("omitted "), NULL, 10) : 0;
    omissions[0] = count <= (SITAUNGO_LIST_WORDS - 1) / 2 ? count : 0;
    for (uint64_t k = 0; k < omissions[0] && (at = strchr(at, '\n')); k++) {
        char *blank;
        omissions[1 + k] = strtoull(++at, &blank, 10);
        omissions[1 + omissions[0] + k] = strtoull(blank, NULL, 10);
    }
}

const char *list_columns(const struct recording *r, const struct lent *l, uint64_t size)
{
    const struct choices *c = &l->choices;
    size_t length = sitaungo_list_with(
        r->bytes, r->length, c->block_size, ident, sizeof ident, (const uint8_t *)l->text, l->text_length, options_of(c),
        c->types, c->types_length, size, SITAUNGO_LIST_WORDS,
        work[0], SITAUNGO_WORK_WORDS, work[1], SITAUNGO_WORK_WORDS, work[2], SITAUNGO_WORK_WORDS, work[3], SITAUNGO_WORK_WORDS,
        lines, sizeof lines - 1);
    lines[length < sizeof lines ? length : sizeof lines - 1] = '\0';
    take_omissions((const char *)lines);
    return (const char *)lines;
}

uint64_t omission_count(void)
{
    return omissions[0];
}

struct omission omission_at(uint64_t number)
{
    return (struct omission){omissions[1 + number], omissions[1 + omissions[0] + number]};
}
