/* Temporary files: a target's bytes until it takes its name.
 *
 * Where the file system can (O_TMPFILE), the file has no name: whatever ends the command, nothing is left. Else it is
 * .NAME.mdf-columns-RANDOM beside the target, locked by its writer and with a mark behind its end until it is whole; the mark is how the next
 * conversion to the same target knows one that a killed command left. A file without the mark is never removed. */
#ifndef TEMPORARY_H
#define TEMPORARY_H

#include <stdbool.h>
#include <stdint.h>

#include "target.h"

/* Makes the temporary file with room on the disk for so many bytes, or fails. What a killed conversion to this target left is removed; what may be
 * such a file but isn't marked is named. */
void make_temporary(struct target *t, uint64_t size);

/* A descriptor of another file without a name in the target's folder, with room for so many bytes; -1 where that can't be had. */
int open_room(const struct target *t, uint64_t size);

/* The file is whole: takes the mark away, gives it owner and mode of the file it replaces, and syncs it; fails where that can't be done. */
void finish_temporary(struct target *t, uint64_t size);

/* For stores in place: opens the target itself, or makes it, with room on the disk for so many bytes, or fails. One that is new counts as a temporary file
 * until keep_in_place. An old one keeps its bytes; where it is shorter, zeros are behind them. */
void open_in_place(struct target *t, uint64_t size);

/* An old one that is shorter than what was to be stored has its length again. */
void leave_in_place(const struct target *t);

/* Its first store is on the disk: an old one that is longer is cut to so many bytes. False with errno. */
bool cut_in_place(const struct target *t, uint64_t size);

/* Whether the target's name leads to the file that was opened. */
bool is_in_place(const struct target *t);

/* It is whole: nothing removes it any more. */
void keep_in_place(struct target *t);

/* A second name in the folder for a file that has none: 0, or -1 with errno. */
int link_unnamed(const struct target *t, const char *name);

/* Gives a file without a name a temporary one; false with errno. */
bool name_temporary(struct target *t);

/* Where the temporary file is, in words. */
const char *temporary_place(const struct target *t);

/* Removes the target's temporary file, if it has a name, or all there are; says where that fails. */
void drop_temporary(struct target *t);
void drop_temporaries(void);

/* The same for signal handlers: the path of a file that is still there, or NULL. */
const char *remove_temporaries(void);

/* For a child process: those of its parent are not its own. */
void forget_temporaries(void);

#endif
