#define _GNU_SOURCE
#include "taking.h"

#include <inttypes.h>
#include <string.h>

#include "blocks.h"
#include "check.h"
#include "conversion.h"
#include "messages.h"
#include "recording.h"
#include "report.h"
#include "signals.h"
#include "storing.h"
#include "temporary.h"

/* A longer list has a number twice or one of no column: so many are enough to have it refused. */
enum { MOST_NUMBERS = SITAUNGO_CHANNELS + 1 };

/* Static, since signal handlers and the command's end look at the target. */
static struct taking {
    const struct options *o;
    struct recording file;
    struct target new;
    struct column columns[SITAUNGO_CHANNELS]; /* of the file, as its links show them */
    size_t columns_count;
    uint64_t numbers[MOST_NUMBERS]; /* of those to take out */
    size_t count;
    uint64_t size; /* of the new file */
    struct done done;
} taking;

/* ---- which columns */

static void add_number(struct taking *t, uint64_t number)
{
    if (t->count < MOST_NUMBERS)
        t->numbers[t->count++] = number;
}

/* The first column from `from` on that has this name; as many as there are where none has. */
static size_t named(const struct taking *t, struct text name, size_t from)
{
    while (from < t->columns_count && (t->columns[from].name.length != name.length || memcmp(t->columns[from].name.bytes, name.bytes, name.length) != 0))
        from++;
    return from;
}

/* A name stands for the one column that has it, else for a number that no column has, with which the file is refused. */
static void add_name(struct taking *t, struct text name)
{
    size_t number = named(t, name, 0);
    bool once = number < t->columns_count && named(t, name, number + 1) >= t->columns_count;
    add_number(t, once ? number : UINT64_MAX);
}

static void add_columns(struct taking *t)
{
    struct columns_word word = {0};
    t->columns_count = columns_of((struct image){t->file.bytes, t->file.length}, t->columns, SITAUNGO_CHANNELS);
    while (next_columns(t->o, &word)) {
        if (word.name.bytes) {
            add_name(t, word.name);
            continue;
        }
        for (uint64_t k = word.first; t->count < MOST_NUMBERS; k++) {
            add_number(t, k);
            if (k == word.last)
                break;
        }
    }
}

/* ---- why not */

/* Names that are to blame for 33: no column has them, or several. */
static void say_names(const struct taking *t)
{
    struct columns_word word = {0};
    while (next_columns(t->o, &word)) {
        size_t first = word.name.bytes ? named(t, word.name, 0) : 0, second = word.name.bytes ? named(t, word.name, first + 1) : t->columns_count;
        if (word.name.bytes && first >= t->columns_count)
            (void)say("no column is named \"%.*s\"", (int)word.name.length, word.name.bytes);
        else if (second < t->columns_count)
            (void)say("columns %zu and %zu are both named \"%.*s\"; say which by its number", first, second, (int)word.name.length, word.name.bytes);
    }
}

static bool is_out(const struct taking *t, size_t number)
{
    for (size_t k = 0; k < t->count; k++)
        if (t->numbers[k] == number)
            return true;
    return false;
}

/* The number of the column whose CG that of column k names; as many as there are where it names none. */
static size_t master_of(const struct taking *t, size_t k)
{
    size_t m = 0;
    while (m < t->columns_count && (t->columns[k].master == 0 || t->columns[m].group != t->columns[k].master))
        m++;
    return m;
}

/* The first column that is kept and names one that is to be taken out (34). */
static void say_master(const struct taking *t)
{
    for (size_t k = 0; k < t->columns_count; k++)
        if (!is_out(t, k) && is_out(t, master_of(t, k))) {
            (void)say("column %zu is the time column of column %zu, which is kept", master_of(t, k), k);
            return;
        }
}

/* ---- the new file */

static struct sitaungo_taken take(const struct taking *t, uint8_t *out, uint64_t length)
{
    return take_out(&t->file, t->o->choices.unit, t->numbers, t->count, out, (size_t)length);
}

/* A refusal is believed of a file that didn't change meanwhile. */
static int refused(const struct taking *t, struct sitaungo_taken answer)
{
    check_unchanged(&t->file);
    if (answer.number == SITAUNGO_REFUSED_NUMBERS)
        say_names(t);
    if (answer.number == SITAUNGO_REFUSED_NAMED)
        say_master(t);
    (void)say("%s: refused %" PRIu64 " place %" PRIu64 ": %s", t->file.path, answer.number, answer.place, words_of_taking(answer.number));
    return STATUS_REFUSED;
}

static void take_once_more(const struct taking *t, uint8_t *out)
{
    struct sitaungo_taken answer = take(t, out, t->size);
    check_unchanged(&t->file);
    if (!answer.accepted)
        fail("%s is refused once there is room", t->file.path);
}

static void write_new(struct taking *t)
{
    uint8_t *out = map_temporary(&t->new, t->size);
    say_phase("taking columns out into %s", temporary_place(&t->new));
    take_once_more(t, out);
    sync_temporary(&t->new, out, t->size);
}

/* With --verify what the disk has is held to the new file made once more; with --sha256 its digest is made. */
static bool holds(struct taking *t)
{
    struct reading reading = {.descriptor = t->new.descriptor, .path = temporary_place(&t->new), .digest = t->o->digest};
    struct image anew = {0};
    if (t->o->verify) {
        uint8_t *bytes = map_anew(&t->new, t->size);
        take_once_more(t, bytes);
        anew = made_anew(bytes, t->size);
    }
    if (t->o->verify || t->o->digest) {
        say_phase("reading %s back", reading.path);
        read_back(&reading, anew, &t->done);
    }
    if (t->o->verify)
        drop_anew(anew);
    return !t->done.difference.found;
}

static int different(struct taking *t)
{
    const struct difference *d = &t->done.difference;
    drop_temporary(&t->new);
    check_unchanged(&t->file);
    (void)say("what was stored for %s is not what was to be: it has %" PRIu64 " bytes of %" PRIu64 ", and first differs at %" PRIu64 ", %s", t->new.path,
        d->bytes, t->size, d->at, d->place);
    return STATUS_DIFFERENT;
}

static int finish(const struct taking *t)
{
    if (!t->o->quiet)
        print_line("%s: columns %zu, taken out %zu, bytes %" PRIu64, t->new.path, t->columns_count - t->count, t->count, t->size);
    if (*t->done.digest)
        print_digest(t->done.digest, t->new.path);
    return STATUS_DONE;
}

int run_taking(const struct options *o)
{
    struct taking *t = &taking;
    set_standing(STATUS_FAILED, "there is no new file %s", o->result);
    *t = (struct taking){.o = o, .file = open_column_file(o->recordings[0])};
    say_phase("reading %s, %" PRIu64 " bytes", t->file.path, (uint64_t)t->file.found.st_size);
    aim_at(&t->new, o->result, "new file", &t->file);
    t->new.replaces = o->force;
    check_target(&t->new);
    add_columns(t);
    struct sitaungo_taken answer = take(t, NULL, 0);
    if (answer.number != SITAUNGO_REFUSED_OUTPUT || answer.place == UINT64_MAX)
        return refused(t, answer);
    t->size = answer.place;
    write_new(t);
    if (!holds(t))
        return different(t);
    sync_folder_before(&t->new);
    check_unchanged(&t->file);
    name_and_sync(&t->new);
    return finish(t);
}
