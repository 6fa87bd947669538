/* A target's bytes: laid into its temporary file, synced, then named. */
#ifndef STORING_H
#define STORING_H

#include <stdint.h>

#include "recording.h"
#include "target.h"

/* The temporary file with room for so many bytes, mapped; fails where it can't be had. */
uint8_t *map_temporary(struct target *t, uint64_t size);

/* The bytes are there: they are synced, and the file has owner and mode of the one it replaces. The mapping ends. */
void sync_temporary(struct target *t, uint8_t *out, uint64_t size);

/* The folder is synced before, so that one that can't be is found while the target is as it was. */
void sync_folder_before(const struct target *t);

/* Gives the target its name and syncs its folder. */
void name_and_sync(struct target *t);

#endif
