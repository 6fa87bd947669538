#define _GNU_SOURCE
#include "check.h"

#include <errno.h>
#include <fcntl.h>
#include <inttypes.h>
#include <stdio.h>
#include <string.h>
#include <sys/mman.h>
#include <unistd.h>

#include "blocks.h"
#include "digest.h"
#include "messages.h"
#include "signals.h"
#include "temporary.h"

enum { CHUNK = 1 << 20, ALIGNED = 4096 };

/* ---- reading past the page cache */

/* What was written is synced and leaves the cache; then it is read from the device itself, where the file system can. */
static void pass_cache(const struct reading *r)
{
    int flags = fcntl(r->descriptor, F_GETFL);
    if (fsync(r->descriptor) != 0)
        fail("can't sync %s: %s", r->path, strerror(errno));
    posix_fadvise(r->descriptor, 0, 0, POSIX_FADV_DONTNEED);
    if (flags != -1)
        fcntl(r->descriptor, F_SETFL, flags | O_DIRECT);
}

/* True where direct reading was on and is off now. */
static bool leave_direct(int descriptor)
{
    int flags = fcntl(descriptor, F_GETFL);
    return flags != -1 && flags & O_DIRECT && fcntl(descriptor, F_SETFL, flags & ~O_DIRECT) == 0;
}

/* Up to a chunk; less only at the end. What a device can't read directly, such as an odd end, goes through the cache, which was dropped. */
static size_t read_chunk(const struct reading *r, uint8_t *to, uint64_t at)
{
    size_t got = 0;
    while (got < CHUNK) {
        ssize_t n = pread(r->descriptor, to + got, CHUNK - got, (off_t)(at + got));
        if (n == 0)
            break;
        if (n > 0)
            got += (size_t)n;
        else if (errno != EINTR && !(errno == EINVAL && leave_direct(r->descriptor)))
            fail("can't read %s back: %s", r->path, strerror(errno));
    }
    return got;
}

/* ---- comparing */

static void name_place(struct image anew, uint64_t at, char place[64])
{
    struct block block;
    if (block_around(anew, at, &block))
        snprintf(place, 64, "in or after the %s block at %" PRIu64, block.kind, block.at);
    else
        snprintf(place, 64, "in the identification");
}

static void find_difference(struct image anew, const uint8_t *found, size_t length, uint64_t at, struct difference *d)
{
    size_t room = at >= anew.length ? 0 : anew.length - at < length ? (size_t)(anew.length - at) : length, i = 0;
    if (d->found || (room == length && memcmp(anew.bytes + at, found, length) == 0))
        return;
    while (i < room && anew.bytes[at + i] == found[i])
        i++;
    d->found = true;
    d->at = at + i;
}

void read_back(const struct reading *r, struct image anew, struct done *done)
{
    static _Alignas(ALIGNED) uint8_t chunk[CHUNK];
    struct digest *digest = r->digest ? begin_digest() : NULL;
    struct difference *d = &done->difference;
    uint64_t at = 0;
    size_t n;
    pass_cache(r);
    do {
        n = read_chunk(r, chunk, at);
        if (digest)
            add_to_digest(digest, chunk, n);
        if (anew.bytes)
            find_difference(anew, chunk, n, at, d);
        at += n;
    } while (n == CHUNK);
    if (anew.bytes && !d->found && at < anew.length)
        *d = (struct difference){.found = true, .at = at};
    d->bytes = at;
    if (d->found)
        name_place(anew, d->at, d->place);
    if (digest)
        end_digest(digest, done->digest);
}

/* ---- what is made anew */

uint8_t *map_anew(const struct target *t, uint64_t size)
{
    int file = open_room(t, size);
    uint8_t *bytes = map_output(file, size);
    if (!bytes)
        fail("no room, on the disk of %s or in memory, to make the %s anew, %" PRIu64 " bytes: %s", t->folder_path, t->what, size, strerror(errno));
    if (file >= 0)
        close(file);
    watch_mapping(MAPPED_ANEW, bytes, (size_t)size, "the %s made anew can't be written in the folder %s: its disk is full or failed", t->what, t->folder_path);
    return bytes;
}

struct image made_anew(uint8_t *bytes, uint64_t size)
{
    madvise(bytes, (size_t)size, MADV_SEQUENTIAL);
    return (struct image){bytes, (size_t)size};
}

void drop_anew(struct image anew)
{
    forget_mapping(MAPPED_ANEW);
    munmap((void *)anew.bytes, anew.length);
}
