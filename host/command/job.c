#define _GNU_SOURCE
#include "job.h"

#include <errno.h>
#include <fcntl.h>
#include <inttypes.h>
#include <signal.h>
#include <stdio.h>
#include <stdlib.h>
#include <string.h>
#include <sys/mman.h>
#include <unistd.h>

#include "check.h"
#include "messages.h"
#include "signals.h"
#include "storing.h"
#include "temporary.h"

/* Static, since signal handlers and the command's end look at the target. */
static struct job {
    const struct options *o;
    struct sink *sink;
    struct recording recording;
    struct target result;
    struct lent lent;
    uint64_t size; /* of the result */
    const char *listing;
    struct done done;
} job;

/* ---- the end of it */

enum { SHARED = 48 };

static bool listing_wanted(const struct job *j)
{
    return j->o->listing || j->sink->wanted || j->o->complete || j->o->in_place;
}

/* With --share-time the line of success has how many groups' time columns became an earlier group's. */
static void print_done(const struct job *j)
{
    const struct done *d = &j->done;
    bool success = d->status == STATUS_DONE && !j->o->quiet && !j->sink->standard_output;
    char shared[SHARED] = "";
    if (j->o->choices.share_time)
        snprintf(shared, sizeof shared, ", shared time columns %" PRIu64, d->answer.shared_time_groups);
    if (success && strcmp(d->outcome, "converted") == 0)
        print_line("%s: columns %" PRIu64 ", omissions %" PRIu64 ", bytes %" PRIu64 "%s", d->result,
            d->answer.time_groups + d->answer.signal_groups, omission_count(), d->answer.file_size, shared);
    else if (success)
        print_line("%s: is the conversion of %s, bytes %" PRIu64 "%s", d->result, d->recording->path, d->answer.file_size, shared);
    if (d->status == STATUS_DONE && *d->digest && !j->sink->standard_output)
        print_digest(d->digest, d->result);
    if (d->status == STATUS_DONE && j->o->listing)
        print(j->listing, strlen(j->listing));
}

static int finish(struct job *j, const char *outcome, int status)
{
    j->done.outcome = outcome;
    j->done.status = status;
    print_done(j);
    add_report(j->sink, &j->done);
    return status;
}

/* A refusal is believed of a recording that didn't change meanwhile. */
static int refused(struct job *j, const struct sitaungo_outcome *answer)
{
    check_unchanged(&j->recording);
    j->done.answer = *answer;
    (void)say("%s: refused %" PRIu64 " place %" PRIu64 ": %s", j->recording.path, answer->number, answer->place, words_of_refusal(answer->number));
    return finish(j, "refused", STATUS_REFUSED);
}

static int incomplete(struct job *j)
{
    check_unchanged(&j->recording);
    j->done.omissions = omissions_json(&j->recording);
    (void)say_omissions(&j->recording);
    (void)say("%s: channels would be left out, %" PRIu64 "; --complete doesn't permit that", j->recording.path, omission_count());
    return finish(j, "incomplete", STATUS_INCOMPLETE);
}

static void say_difference(const struct job *j, const char *path)
{
    const struct difference *d = &j->done.difference;
    check_unchanged(&j->recording);
    (void)say("%s is not the conversion of %s: it has %" PRIu64 " bytes of %" PRIu64 ", and first differs at %" PRIu64 ", %s", path,
        j->recording.path, d->bytes, j->size, d->at, d->place);
}

/* ---- parts of it */

/* The size, or why there is none: a status, STATUS_DONE where it goes on. */
static int plan(struct job *j)
{
    struct sitaungo_outcome answer = measure(&j->recording, &j->lent);
    if (answer.number != SITAUNGO_REFUSED_OUTPUT)
        return refused(j, &answer);
    j->size = answer.place;
    if (listing_wanted(j))
        j->listing = list_columns(&j->recording, &j->lent, j->size);
    if (j->o->complete && omission_count() > 0)
        return incomplete(j);
    return STATUS_DONE;
}

static void forget_report(struct job *j)
{
    free(j->done.columns);
    free(j->done.omissions);
    j->done.columns = j->done.omissions = NULL;
}

/* What is reported of a conversion, from its bytes while they are mapped. */
static void keep_report(struct job *j, struct image converted)
{
    if (!j->sink->wanted)
        return;
    forget_report(j);
    j->done.columns = columns_json(j->listing, converted.bytes, converted.length);
    j->done.omissions = omissions_json(&j->recording);
}

/* Channels left out are said before there is a result: who erases the recording must be able to know them. */
static void say_what_is_left_out(struct job *j)
{
    if (!say_omissions(&j->recording))
        fail("the channels left out can't be said on standard error: %s", strerror(errno));
}

/* Reads back what the descriptor has on the disk, and holds it to the conversion made anew. */
static bool holds(struct job *j, int descriptor, const char *path)
{
    struct reading reading = {.descriptor = descriptor, .path = path, .digest = j->o->digest};
    say_phase("converting %s anew", j->recording.path);
    uint8_t *bytes = map_anew(&j->result, j->size);
    struct sitaungo_outcome answer = convert(&j->recording, &j->lent, bytes, (size_t)j->size);
    struct image anew = made_anew(bytes, j->size);
    check_unchanged(&j->recording);
    if (!answer.accepted)
        fail("the conversion of %s anew is refused", j->recording.path);
    j->done.answer = answer;
    keep_report(j, anew);
    say_phase("reading %s back", path);
    read_back(&reading, anew, &j->done);
    drop_anew(anew);
    return !j->done.difference.found;
}

/* ---- converting */

/* The temporary file has the result, synced. */
static void write_result(struct job *j)
{
    struct target *t = &j->result;
    uint8_t *out = map_temporary(t, j->size);
    say_phase("converting into %s", temporary_place(t));
    j->done.answer = convert(&j->recording, &j->lent, out, (size_t)j->size);
    check_unchanged(&j->recording);
    if (!j->done.answer.accepted)
        fail("the conversion of %s is refused once it has room", j->recording.path);
    keep_report(j, (struct image){out, (size_t)j->size});
    sync_temporary(t, out, j->size);
}

static void give_result(struct job *j)
{
    sync_folder_before(&j->result);
    check_unchanged(&j->recording);
    say_what_is_left_out(j);
    name_and_sync(&j->result);
}

/* ---- converting in place */

/* The stores of a conversion over the mapped RESULT. */
static void store(struct job *j, uint64_t stores, uint8_t *out)
{
    make_stores(&j->recording, &j->lent, stores, out, (size_t)j->size);
}

static void sync_stores(const struct job *j, uint8_t *out, uint64_t length)
{
    if (msync(out, (size_t)length, MS_SYNC) != 0)
        fail("can't write the result %s to the disk: %s", j->result.path, strerror(errno));
}

static uint8_t *map_result(struct job *j)
{
    struct target *t = &j->result;
    say_phase("taking %" PRIu64 " bytes of disk for the result", j->size);
    open_in_place(t, j->size);
    uint8_t *out = map_output(t->descriptor, j->size);
    if (!out) {
        int error = errno;
        leave_in_place(t);
        fail("can't map the result %s: %s", t->path, strerror(error));
    }
    watch_mapping(MAPPED_OUTPUT, out, (size_t)j->size, "the result %s can't be written: its disk is full or failed%s", t->path,
        t->exists ? "; it may be cut off: it is refused (5) then" : "");
    return out;
}

/* The first store, on the disk before any other: from now on RESULT is refused. */
static void store_first(struct job *j, uint8_t *out, uint64_t front)
{
    struct target *t = &j->result;
    if (t->exists)
        set_cut_off(t->path);
    store(j, 1, out);
    sync_stores(j, out, front);
    if (!cut_in_place(t, j->size))
        fail("can't cut the result %s to its length: %s", t->path, strerror(errno));
}

/* The last store, once all others are on the disk; one that can't be synced is taken back. */
static void store_last(struct job *j, uint8_t *out, uint64_t front)
{
    struct target *t = &j->result;
    sigset_t before;
    hold_signals(&before);
    store(j, 1, out);
    bool synced = msync(out, (size_t)front, MS_SYNC) == 0 && fsync(t->descriptor) == 0;
    int error = errno;
    if (synced) {
        keep_in_place(t);
        set_standing(STATUS_STANDING, "%s is there and whole", t->path);
    } else {
        memset(out, 0, 8);
    }
    release_signals(&before);
    if (!synced)
        fail("can't write the result %s to the disk: %s", t->path, strerror(error));
}

/* RESULT has its name from the start. The omissions are those of the listing until the last store brings the same. */
static void store_in_place(struct job *j)
{
    struct target *t = &j->result;
    j->done.answer = begin_stores(&j->recording, &j->lent, (size_t)j->size);
    if (!j->done.answer.accepted)
        fail("the conversion of %s is refused once it has room", j->recording.path);
    uint8_t *out = map_result(j);
    uint64_t front = j->size < SITAUNGO_STORE_BYTES ? j->size : SITAUNGO_STORE_BYTES;
    say_phase("converting into %s, in %" PRIu64 " stores", t->path, stores_left());
    store_first(j, out, front);
    store(j, stores_left() - 1, out);
    keep_report(j, (struct image){out, (size_t)j->size});
    say_phase("syncing %" PRIu64 " bytes", j->size);
    sync_stores(j, out, j->size);
    sync_folder_before(t);
    check_unchanged(&j->recording);
    say_what_is_left_out(j);
    if (!is_in_place(t))
        fail("%s was replaced or removed meanwhile", t->path);
    store_last(j, out, front);
    forget_mapping(MAPPED_OUTPUT);
    munmap(out, (size_t)j->size);
}

/* ---- either way */

static bool differs(struct job *j)
{
    if (!j->o->verify || holds(j, j->result.descriptor, temporary_place(&j->result)))
        return false;
    drop_temporary(&j->result);
    say_difference(j, "what was stored");
    return true;
}

static int convert_recording(struct job *j)
{
    j->result.replaces = j->o->force;
    check_target(&j->result);
    j->lent = lend(&j->o->choices, SITAUNGO_VERSION, present_time());
    forget_report(j);
    j->done = (struct done){.recording = &j->recording, .result = j->result.path, .lent = &j->lent};
    int status = plan(j);
    if (status != STATUS_DONE)
        return status;
    if (j->o->in_place)
        store_in_place(j);
    else
        write_result(j);
    if (differs(j))
        return finish(j, "different", STATUS_DIFFERENT);
    if (j->o->digest && !j->o->verify)
        read_back(&(struct reading){j->result.descriptor, j->result.path, true}, (struct image){0}, &j->done);
    if (!j->o->in_place)
        give_result(j);
    return finish(j, "converted", STATUS_DONE);
}

/* ---- holding RESULT to its recording */

/* Time and version that stand in RESULT; without them any other will show the difference. */
static struct lent lent_of(const struct job *j, int descriptor, uint64_t length)
{
    char version[VERSION_KEPT];
    uint64_t time = 0;
    void *bytes = length == 0 ? MAP_FAILED : mmap(NULL, (size_t)length, PROT_READ, MAP_SHARED, descriptor, 0);
    if (bytes == MAP_FAILED)
        return lend(&j->o->choices, SITAUNGO_VERSION, 0);
    watch_mapping(MAPPED_RESULT, bytes, (size_t)length, "%s can't be read to its end: it was cut off meanwhile, or its disk failed", j->result.path);
    if (!read_lent(bytes, (size_t)length, version, &time))
        strcpy(version, SITAUNGO_VERSION);
    forget_mapping(MAPPED_RESULT);
    munmap(bytes, (size_t)length); /* pages that are mapped would stay in the cache */
    return lend(&j->o->choices, version, time);
}

static void check_result_unchanged(const struct job *j, int descriptor, const struct stat *before)
{
    struct stat now;
    if (fstat(descriptor, &now) != 0 || !same_state(&now, before))
        fail("%s was changed while it was read", j->result.path);
}

/* RESULT that is another is made anew with --force, and a status without. */
static int check_result(struct job *j)
{
    struct stat found;
    int file = openat(j->result.folder, j->result.name, O_RDONLY | O_NOFOLLOW | O_NONBLOCK | O_CLOEXEC);
    if (file < 0 || fstat(file, &found) != 0)
        fail("can't open %s: %s", j->result.path, strerror(errno));
    j->lent = lent_of(j, file, (uint64_t)found.st_size);
    int status = plan(j);
    if (status != STATUS_DONE)
        return status;
    bool same = holds(j, file, j->result.path);
    check_result_unchanged(j, file, &found);
    close(file);
    if (!same) {
        say_difference(j, j->result.path);
        return j->o->force ? convert_recording(j) : finish(j, "different", STATUS_DIFFERENT);
    }
    check_unchanged(&j->recording);
    say_what_is_left_out(j);
    sync_folder_before(&j->result);
    return finish(j, j->o->check ? "same" : "done already", STATUS_DONE);
}

int run_job(const struct options *o, const char *recording, const char *result, struct sink *sink)
{
    struct job *j = &job;
    if (!o->check)
        set_standing(STATUS_FAILED, "there is no new result %s", result);
    *j = (struct job){.o = o, .sink = sink, .recording = open_recording(recording)};
    say_phase("reading %s, %" PRIu64 " bytes", recording, (uint64_t)j->recording.found.st_size);
    aim_at(&j->result, result, "result", &j->recording);
    if (sink->wanted && !sink->standard_output && same_target(&sink->file, &j->result))
        fail("%s is both result and report", result);
    j->done = (struct done){.recording = &j->recording, .result = result, .lent = &j->lent};
    return o->check || (o->resume && j->result.exists) ? check_result(j) : convert_recording(j);
}
