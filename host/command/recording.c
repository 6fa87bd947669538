#define _GNU_SOURCE
#include "recording.h"

#include <errno.h>
#include <fcntl.h>
#include <string.h>
#include <sys/mman.h>
#include <time.h>

#include "messages.h"
#include "signals.h"
#include "sitaungo.h"

static const char *kind_of(mode_t mode)
{
    if (S_ISDIR(mode))
        return "a folder";
    if (S_ISFIFO(mode))
        return "a pipe";
    return "a device";
}

static int64_t nanoseconds(struct timespec t)
{
    return (int64_t)t.tv_sec * 1000000000 + t.tv_nsec;
}

/* Nanoseconds until a further change would have another time: times of change go by ticks, on some file systems by seconds. */
static int64_t until_settled(const struct stat *found)
{
    struct timespec now;
    int64_t tick = found->st_ctim.tv_nsec == 0 && found->st_mtim.tv_nsec == 0 ? 2000000000 : 20000000;
    if (clock_gettime(CLOCK_REALTIME, &now) != 0)
        return 0;
    int64_t age = nanoseconds(now) - nanoseconds(found->st_ctim);
    return age >= 0 && age < tick ? tick - age : 0;
}

/* Its state once a change after this call can be told by its time. */
static bool look(struct recording *r)
{
    int64_t wait;
    if (fstat(r->descriptor, &r->found) != 0)
        return false;
    if (!S_ISREG(r->found.st_mode) || (wait = until_settled(&r->found)) == 0)
        return true;
    nanosleep(&(struct timespec){.tv_sec = wait / 1000000000, .tv_nsec = wait % 1000000000}, NULL);
    return fstat(r->descriptor, &r->found) == 0;
}

/* Its first `most` bytes are mapped. */
static struct recording open_and_map(const char *what, const char *path, uint64_t most)
{
    struct recording r = {.what = what, .path = path};
    /* without O_NONBLOCK a pipe that nobody writes to would be waited for */
    r.descriptor = open(path, O_RDONLY | O_CLOEXEC | O_NONBLOCK | O_NOCTTY);
    if (r.descriptor < 0 || !look(&r))
        fail("can't open the %s %s: %s", what, path, strerror(errno));
    if (!S_ISREG(r.found.st_mode))
        fail("the %s %s is %s; a file is needed", what, path, kind_of(r.found.st_mode));
    r.length = (size_t)((uint64_t)r.found.st_size < most ? (uint64_t)r.found.st_size : most);
    if (r.length == 0)
        return r;
    void *bytes = mmap(NULL, r.length, PROT_READ, MAP_SHARED, r.descriptor, 0);
    if (bytes == MAP_FAILED)
        fail("can't map the %s %s: %s", what, path, strerror(errno));
    r.bytes = bytes;
    watch_mapping(MAPPED_RECORDING, bytes, r.length, "the %s %s can't be read to its end: it was cut off meanwhile, or its disk failed", what, path);
    return r;
}

/* A recording over the limit is refused whatever it holds, so one byte past the limit is enough. */
struct recording open_recording(const char *path)
{
    return open_and_map("recording", path, (uint64_t)SITAUNGO_IMAGE_BYTES + 1);
}

struct recording open_column_file(const char *path)
{
    return open_and_map("column file", path, UINT64_MAX);
}

bool same_file(const struct stat *a, const struct stat *b)
{
    return a->st_dev == b->st_dev && a->st_ino == b->st_ino;
}

bool same_state(const struct stat *a, const struct stat *b)
{
    return same_file(a, b) && a->st_size == b->st_size && nanoseconds(a->st_mtim) == nanoseconds(b->st_mtim) &&
        nanoseconds(a->st_ctim) == nanoseconds(b->st_ctim);
}

void check_unchanged(const struct recording *r)
{
    struct stat opened, named;
    if (fstat(r->descriptor, &opened) != 0)
        fail("can't look at the %s %s: %s", r->what, r->path, strerror(errno));
    if (stat(r->path, &named) != 0)
        fail("the %s %s was moved or removed while it was read: %s", r->what, r->path, strerror(errno));
    if (!same_state(&opened, &r->found) || !same_state(&named, &r->found))
        fail("the %s %s was changed while it was read; call again when it is finished", r->what, r->path);
}
