/* A file that the command makes, RESULT or a report: written beside its name, and given the name once it is whole and synced. */
#ifndef TARGET_H
#define TARGET_H

#include <limits.h>
#include <signal.h>
#include <stdbool.h>
#include <sys/stat.h>

struct recording;

struct target {
    const char *path; /* as given */
    const char *what; /* what messages call it */
    const char *name; /* in its folder */
    char folder_path[PATH_MAX];
    int folder;
    bool replaces;             /* whether a file of that name may be replaced */
    bool exists;               /* whether there is one */
    struct stat old;           /* if so */
    const struct recording *source; /* what it is made of, which is neither replaced nor removed; NULL: nothing */

    /* the temporary file, see temporary.h */
    int descriptor; /* -1: there is none */
    char temporary[NAME_MAX + 1];
    char temporary_path[PATH_MAX + NAME_MAX + 2];
    volatile sig_atomic_t named; /* whether the temporary file stands under that name */
    bool marked;
};

/* Opens its folder and looks at its name; fails where that is the source, or something else than a file. */
void aim_at(struct target *t, const char *path, const char *what, const struct recording *source);

/* Fails if a file is there that may not be replaced. */
void check_target(struct target *t);

/* Gives the temporary file, which is synced, the target's name; from then on RESULT stands, if this is it. The folder is still to be synced. */
void name_target(struct target *t, bool is_result);

/* Whether both have one name. */
bool same_target(const struct target *a, const struct target *b);

/* False with errno where the folder can't be synced. */
bool sync_folder(const struct target *t);

#endif
