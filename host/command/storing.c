#define _GNU_SOURCE
#include "storing.h"

#include <errno.h>
#include <inttypes.h>
#include <string.h>
#include <sys/mman.h>

#include "conversion.h"
#include "messages.h"
#include "signals.h"
#include "temporary.h"

uint8_t *map_temporary(struct target *t, uint64_t size)
{
    say_phase("taking %" PRIu64 " bytes of disk for the %s", size, t->what);
    make_temporary(t, size);
    uint8_t *out = map_output(t->descriptor, size);
    if (!out)
        fail("can't map the temporary file for %s: %s", t->path, strerror(errno));
    watch_mapping(MAPPED_OUTPUT, out, (size_t)size, "the %s %s can't be written: its disk is full or failed", t->what, t->path);
    return out;
}

void sync_temporary(struct target *t, uint8_t *out, uint64_t size)
{
    say_phase("syncing %" PRIu64 " bytes", size);
    if (msync(out, (size_t)size, MS_SYNC) != 0)
        fail("can't write the %s %s to the disk: %s", t->what, t->path, strerror(errno));
    forget_mapping(MAPPED_OUTPUT);
    munmap(out, (size_t)size);
    finish_temporary(t, size);
}

void sync_folder_before(const struct target *t)
{
    if (!sync_folder(t))
        fail("can't sync the folder %s: %s", t->folder_path, strerror(errno));
}

void name_and_sync(struct target *t)
{
    name_target(t, true);
    if (!sync_folder(t))
        fail("the folder %s can't be synced: %s; without power the name may be lost", t->folder_path, strerror(errno));
}
