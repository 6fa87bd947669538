#define _GNU_SOURCE
#include "target.h"

#include <errno.h>
#include <fcntl.h>
#include <stdio.h>
#include <string.h>
#include <unistd.h>

#include "messages.h"
#include "recording.h"
#include "signals.h"
#include "temporary.h"

static void split_path(struct target *t)
{
    const char *slash = strrchr(t->path, '/');
    size_t n = slash ? (size_t)(slash - t->path) : 0;
    t->name = slash ? slash + 1 : t->path;
    if (*t->name == '\0' || strcmp(t->name, ".") == 0 || strcmp(t->name, "..") == 0)
        fail("%s names a folder; the %s needs the name of a file", t->path, t->what);
    if (n >= sizeof t->folder_path)
        fail("the name of the %s is too long", t->what);
    if (!slash)
        strcpy(t->folder_path, ".");
    else if (n == 0)
        strcpy(t->folder_path, "/");
    else
        memcpy(t->folder_path, t->path, n);
}

/* A symbolic link is never replaced; one to the source is called that. */
static bool leads_to_source(const struct target *t)
{
    struct stat led_to;
    return t->source && fstatat(t->folder, t->name, &led_to, 0) == 0 && same_file(&led_to, &t->source->found);
}

static void look_at_target(struct target *t)
{
    t->exists = fstatat(t->folder, t->name, &t->old, AT_SYMLINK_NOFOLLOW) == 0;
    if (!t->exists && errno != ENOENT)
        fail("can't look at %s: %s", t->path, strerror(errno));
    if (!t->exists)
        return;
    if (leads_to_source(t))
        fail("%s is the %s itself; the %s needs another name", t->path, t->source->what, t->what);
    if (S_ISLNK(t->old.st_mode))
        fail("%s is a symbolic link; name the file itself", t->path);
    if (S_ISDIR(t->old.st_mode))
        fail("%s is a folder; the %s needs the name of a file", t->path, t->what);
    if (!S_ISREG(t->old.st_mode))
        fail("%s is not a file and is not replaced", t->path);
}

void aim_at(struct target *t, const char *path, const char *what, const struct recording *source)
{
    *t = (struct target){.path = path, .what = what, .source = source, .descriptor = -1};
    split_path(t);
    t->folder = open(t->folder_path, O_RDONLY | O_DIRECTORY | O_CLOEXEC);
    if (t->folder < 0)
        fail("can't open the folder %s: %s", t->folder_path, strerror(errno));
    look_at_target(t);
}

void check_target(struct target *t)
{
    look_at_target(t);
    if (t->exists && !t->replaces)
        fail("%s exists; --force replaces it", t->path);
}

bool same_target(const struct target *a, const struct target *b)
{
    struct stat one, other;
    return strcmp(a->name, b->name) == 0 && fstat(a->folder, &one) == 0 && fstat(b->folder, &other) == 0 && same_file(&one, &other);
}

/* Some file systems can't sync a folder and say EINVAL. */
bool sync_folder(const struct target *t)
{
    return fsync(t->folder) == 0 || errno == EINVAL;
}

/* ---- the name */

static bool not_there(int error)
{
    return error == EINVAL || error == ENOSYS || error == EOPNOTSUPP || error == EPERM;
}

/* For file systems without RENAME_NOREPLACE: a second name fails where there is a RESULT. One without such names is left to check_target. */
static int link_or_rename(struct target *t)
{
    if (linkat(t->folder, t->temporary, t->folder, t->name, 0) == 0)
        return 0;
    return not_there(errno) ? renameat(t->folder, t->temporary, t->folder, t->name) : -1;
}

/* A temporary name that is left after a link is removed with the others. */
static int rename_temporary(struct target *t)
{
    if (t->replaces)
        return renameat(t->folder, t->temporary, t->folder, t->name);
    if (renameat2(t->folder, t->temporary, t->folder, t->name, RENAME_NOREPLACE) == 0)
        return 0;
    return not_there(errno) ? link_or_rename(t) : -1;
}

/* A file without a name takes the target's at once where nothing is to be replaced, else by way of a temporary one. */
static int give_name(struct target *t)
{
    if (!t->named && !t->exists) {
        int given = link_unnamed(t, t->name);
        if (given == 0 || errno != EEXIST || !t->replaces)
            return given;
    }
    if (!t->named && !name_temporary(t))
        return -1;
    return rename_temporary(t);
}

void name_target(struct target *t, bool is_result)
{
    check_target(t);
    sigset_t before;
    hold_signals(&before);
    int given = give_name(t), error = errno;
    if (given == 0 && is_result)
        set_standing(STATUS_STANDING, "%s is there and whole", t->path);
    drop_temporary(t);
    release_signals(&before);
    if (given != 0 && error == EEXIST)
        fail("%s exists; --force replaces it", t->path);
    if (given != 0)
        fail("can't give the %s its name %s: %s", t->what, t->path, strerror(error));
}
