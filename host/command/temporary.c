#define _GNU_SOURCE
#include "temporary.h"

#include <ctype.h>
#include <dirent.h>
#include <errno.h>
#include <fcntl.h>
#include <inttypes.h>
#include <stdio.h>
#include <stdlib.h>
#include <string.h>
#include <sys/file.h>
#include <sys/random.h>
#include <sys/statvfs.h>
#include <unistd.h>

#include "messages.h"
#include "recording.h"
#include "signals.h"

/* .NAME.mdf-columns-RANDOM: NAME the target's, or its first 200 bytes; RANDOM 16 hexadecimal digits. */
#define FRONT ".mdf-columns-"
#define MARK "\nmdf-columns: temporary file of a conversion that was cut off\n"
enum { NAME_KEPT = 200, DIGITS = 16, ATTEMPTS = 10, TARGETS = 2, MARK_BYTES = sizeof MARK - 1 };

/* Targets whose temporary file has a name, for whatever ends the command. */
static struct target *watched[TARGETS];

static void watch(struct target *t)
{
    for (int i = 0; i < TARGETS; i++)
        if (watched[i] == t || !watched[i]) {
            watched[i] = t;
            return;
        }
}

/* ---- names */

static void temporary_front(const struct target *t, char front[NAME_MAX + 1])
{
    snprintf(front, NAME_MAX + 1, ".%.*s" FRONT, NAME_KEPT, t->name);
}

static bool is_temporary(const char *name, const char *front)
{
    size_t n = strlen(front);
    if (strncmp(name, front, n) != 0 || strlen(name + n) != DIGITS)
        return false;
    for (const char *p = name + n; *p; p++)
        if (!isdigit((unsigned char)*p) && !(*p >= 'a' && *p <= 'f'))
            return false;
    return true;
}

static bool choose_name(struct target *t)
{
    char front[NAME_MAX + 1];
    uint64_t number;
    if (getrandom(&number, sizeof number, 0) != sizeof number)
        return false;
    temporary_front(t, front);
    snprintf(t->temporary, sizeof t->temporary, "%.*s%0*" PRIx64, NAME_MAX - DIGITS, front, DIGITS, number);
    snprintf(t->temporary_path, sizeof t->temporary_path, "%s/%s", t->folder_path, t->temporary);
    return true;
}

/* ---- files that a killed conversion left */

static bool has_mark(int file, const struct stat *found)
{
    char end[MARK_BYTES];
    return found->st_size >= MARK_BYTES && pread(file, end, MARK_BYTES, found->st_size - MARK_BYTES) == MARK_BYTES && memcmp(end, MARK, MARK_BYTES) == 0;
}

static bool is_named_so(const struct target *t, const char *name, const struct stat *found)
{
    struct stat now;
    return fstatat(t->folder, name, &now, AT_SYMLINK_NOFOLLOW) == 0 && same_file(&now, found);
}

/* Why a file with a temporary name stays, or NULL where it is gone: one that is locked belongs to a conversion that runs. */
static const char *leftover_stays(const struct target *t, const char *name, int file)
{
    struct stat found;
    if (file < 0 || fstat(file, &found) != 0 || flock(file, LOCK_EX | LOCK_NB) != 0)
        return strerror(errno);
    if (!S_ISREG(found.st_mode) || (t->source && same_file(&found, &t->source->found)) || !has_mark(file, &found))
        return "it is not marked so and stays";
    return is_named_so(t, name, &found) && unlinkat(t->folder, name, 0) == 0 ? NULL : strerror(errno);
}

static void remove_leftover(const struct target *t, const char *name)
{
    errno = 0;
    int file = openat(t->folder, name, O_RDWR | O_NOFOLLOW | O_NONBLOCK | O_NOCTTY | O_CLOEXEC);
    const char *why = leftover_stays(t, name, file);
    if (!why)
        (void)say("removed %s/%s, left by a conversion that was cut off", t->folder_path, name);
    else if (errno != EWOULDBLOCK && errno != ENOENT)
        (void)say("%s/%s may be left by a conversion that was cut off: %s", t->folder_path, name, why);
    if (file >= 0)
        close(file);
}

static void remove_leftovers(const struct target *t)
{
    char front[NAME_MAX + 1];
    temporary_front(t, front);
    int again = openat(t->folder, ".", O_RDONLY | O_DIRECTORY | O_CLOEXEC);
    DIR *entries = again < 0 ? NULL : fdopendir(again);
    if (!entries)
        fail("can't read the folder %s: %s", t->folder_path, strerror(errno));
    for (struct dirent *entry; (entry = readdir(entries));)
        if (is_temporary(entry->d_name, front))
            remove_leftover(t, entry->d_name);
    closedir(entries);
}

/* ---- a file without a name */

static void unnamed_path(int descriptor, char path[64])
{
    snprintf(path, 64, "/proc/self/fd/%d", descriptor);
}

/* It takes its name by way of /proc: without that a name is needed from the start. */
static bool can_be_linked(int descriptor)
{
    char path[64];
    struct stat itself, shown;
    unnamed_path(descriptor, path);
    return fstat(descriptor, &itself) == 0 && stat(path, &shown) == 0 && same_file(&itself, &shown);
}

static int open_unnamed(const struct target *t)
{
    return openat(t->folder, ".", O_TMPFILE | O_RDWR | O_CLOEXEC, 0666);
}

int link_unnamed(const struct target *t, const char *name)
{
    char path[64];
    unnamed_path(t->descriptor, path);
    return linkat(AT_FDCWD, path, t->folder, name, AT_SYMLINK_FOLLOW);
}

bool name_temporary(struct target *t)
{
    for (int attempt = 0; attempt < ATTEMPTS && choose_name(t); attempt++) {
        if (link_unnamed(t, t->temporary) == 0) {
            t->named = true;
            watch(t);
            return true;
        }
        if (errno != EEXIST)
            return false;
    }
    return false;
}

/* False where the file system has no such files. */
static bool create_unnamed(struct target *t)
{
    int file = open_unnamed(t);
    if (file < 0 && errno != EOPNOTSUPP && errno != EISDIR && errno != EINVAL && errno != ENOSYS)
        fail("can't make a temporary file in the folder %s: %s", t->folder_path, strerror(errno));
    if (file >= 0 && !can_be_linked(file)) {
        close(file);
        file = -1;
    }
    t->descriptor = file;
    snprintf(t->temporary_path, sizeof t->temporary_path, "a file without a name in %s", t->folder_path);
    return file >= 0;
}

/* ---- a file with a name */

static void create_named(struct target *t)
{
    sigset_t before;
    mode_t mode = t->exists ? 0600 : 0666; /* what it replaces may be closed to others */
    hold_signals(&before);
    for (int attempt = 0; t->descriptor < 0 && attempt < ATTEMPTS && choose_name(t); attempt++) {
        t->descriptor = openat(t->folder, t->temporary, O_RDWR | O_CREAT | O_EXCL | O_NOFOLLOW | O_CLOEXEC, mode);
        if (t->descriptor < 0 && errno != EEXIST)
            break;
    }
    int error = errno;
    t->named = t->descriptor >= 0;
    watch(t);
    release_signals(&before);
    if (t->descriptor < 0)
        fail("can't make the temporary file %s: %s", t->temporary_path, strerror(error));
}

/* Only what is locked is marked: another conversion could not tell it from one that was left. */
static void lock_and_mark(struct target *t, uint64_t size)
{
    int locked;
    do
        locked = flock(t->descriptor, LOCK_EX);
    while (locked != 0 && errno == EINTR);
    if (locked != 0)
        return;
    if (pwrite(t->descriptor, MARK, MARK_BYTES, (off_t)size) != MARK_BYTES)
        fail("can't write the temporary file %s: %s", t->temporary_path, strerror(errno));
    t->marked = true;
}

/* ---- room */

/* Whether the file system has so much room for this user; one that doesn't say is left to taking it. */
static bool is_free(const struct target *t, uint64_t size, uint64_t *left)
{
    struct statvfs disk;
    if (fstatvfs(t->folder, &disk) != 0 || disk.f_blocks == 0 || disk.f_frsize == 0)
        return true;
    *left = (uint64_t)disk.f_bavail * disk.f_frsize;
    return size <= *left;
}

static int write_zeros(int descriptor, uint64_t from, uint64_t size)
{
    static char zeros[1 << 20];
    for (uint64_t at = from; at < size;) {
        size_t left = size - at < sizeof zeros ? (size_t)(size - at) : sizeof zeros;
        ssize_t n = pwrite(descriptor, zeros, left, (off_t)at);
        if (n < 0 && errno != EINTR)
            return errno;
        at += n > 0 ? (uint64_t)n : 0;
    }
    return 0;
}

/* Room on the disk is taken before anything is written: a mapped file that finds no room would end the command. What a file has before `from` stays. */
static int take_room(int descriptor, uint64_t from, uint64_t size)
{
    int error;
    if (size <= from)
        return 0;
    do
        error = size > INT64_MAX ? EFBIG : posix_fallocate(descriptor, (off_t)from, (off_t)(size - from));
    while (error == EINTR);
    if (error == EOPNOTSUPP || error == ENOSYS || error == EINVAL)
        error = write_zeros(descriptor, from, size);
    return error;
}

__attribute__((noreturn)) static void no_room(const struct target *t, uint64_t size, int error)
{
    fail("no room for the %s, %" PRIu64 " bytes, in the folder %s: %s", t->what, size, t->folder_path, strerror(error));
}

/* Files can only be left where they have names. The file system is asked for room before any is taken, so that a result that doesn't fit takes
 * nothing from others. */
void make_temporary(struct target *t, uint64_t size)
{
    uint64_t left;
    bool unnamed = create_unnamed(t);
    if (!unnamed || t->replaces)
        remove_leftovers(t);
    if (!is_free(t, size, &left))
        fail("no room for the %s, %" PRIu64 " bytes, in the folder %s, which has %" PRIu64 ": %s", t->what, size, t->folder_path, left, strerror(ENOSPC));
    if (!unnamed) {
        create_named(t);
        if (size > 0)
            lock_and_mark(t, size);
    }
    int error = take_room(t->descriptor, 0, size);
    if (error)
        no_room(t, size, error);
}

int open_room(const struct target *t, uint64_t size)
{
    uint64_t left;
    int file = is_free(t, size, &left) ? open_unnamed(t) : -1;
    if (file >= 0 && take_room(file, 0, size) != 0) {
        close(file);
        file = -1;
    }
    return file;
}

/* ---- the target itself */

static void open_or_make(struct target *t)
{
    sigset_t before;
    hold_signals(&before);
    t->descriptor = openat(t->folder, t->name, O_RDWR | O_NOFOLLOW | O_NONBLOCK | O_CLOEXEC | (t->exists ? 0 : O_CREAT | O_EXCL), 0666);
    int error = errno;
    snprintf(t->temporary, sizeof t->temporary, "%s", t->name);
    snprintf(t->temporary_path, sizeof t->temporary_path, "%s", t->path);
    t->named = t->descriptor >= 0 && !t->exists;
    watch(t);
    release_signals(&before);
    if (t->descriptor < 0 && error == EEXIST)
        fail("%s exists; --force replaces it", t->path);
    if (t->descriptor < 0)
        fail("can't open the %s %s to store into it: %s", t->what, t->path, strerror(error));
}

/* Two conversions that store into one file would make a mixture. */
static void check_alone(const struct target *t)
{
    struct stat found;
    if (flock(t->descriptor, LOCK_EX | LOCK_NB) != 0 && errno == EWOULDBLOCK)
        fail("another conversion stores into %s", t->path);
    if (t->exists && (fstat(t->descriptor, &found) != 0 || !same_file(&found, &t->old)))
        fail("%s was replaced meanwhile", t->path);
}

void open_in_place(struct target *t, uint64_t size)
{
    uint64_t held = t->exists ? (uint64_t)t->old.st_size : 0, left;
    open_or_make(t);
    check_alone(t);
    int error = size > held && !is_free(t, size - held, &left) ? ENOSPC : take_room(t->descriptor, held, size);
    if (error) {
        leave_in_place(t);
        no_room(t, size, error);
    }
}

void leave_in_place(const struct target *t)
{
    struct stat now;
    if (t->exists && fstat(t->descriptor, &now) == 0 && now.st_size > t->old.st_size && ftruncate(t->descriptor, t->old.st_size) != 0)
        (void)say("zeros are behind the bytes of %s: %s", t->path, strerror(errno));
}

bool cut_in_place(const struct target *t, uint64_t size)
{
    return !t->exists || (uint64_t)t->old.st_size <= size || ftruncate(t->descriptor, (off_t)size) == 0;
}

bool is_in_place(const struct target *t)
{
    struct stat own;
    return fstat(t->descriptor, &own) == 0 && is_named_so(t, t->name, &own);
}

void keep_in_place(struct target *t)
{
    t->named = false;
}

/* ---- a file that is whole */

static void keep_owner_and_mode(const struct target *t)
{
    struct stat own;
    if (!t->exists)
        return;
    if (fstat(t->descriptor, &own) != 0)
        fail("can't look at the temporary file for %s: %s", t->path, strerror(errno));
    bool same = own.st_uid == t->old.st_uid && own.st_gid == t->old.st_gid;
    if (!same && fchown(t->descriptor, t->old.st_uid, t->old.st_gid) != 0) {
        int error = errno;
        bool group = fchown(t->descriptor, (uid_t)-1, t->old.st_gid) == 0;
        (void)say("the owner%s of %s can't be kept: %s", group ? "" : " and group", t->path, strerror(error));
    }
    if (fchmod(t->descriptor, t->old.st_mode & 0777) != 0)
        fail("the mode of %s can't be kept: %s", t->path, strerror(errno));
}

void finish_temporary(struct target *t, uint64_t size)
{
    if (t->marked && ftruncate(t->descriptor, (off_t)size) != 0)
        fail("can't write the temporary file %s: %s", t->temporary_path, strerror(errno));
    t->marked = false;
    keep_owner_and_mode(t);
    if (fsync(t->descriptor) != 0)
        fail("can't write the %s %s to the disk: %s", t->what, t->path, strerror(errno));
}

const char *temporary_place(const struct target *t)
{
    return t->temporary_path;
}

/* ---- removal */

/* Only the file that was made: another may have taken its name. */
static bool remove_temporary(struct target *t)
{
    struct stat own;
    if (t->named && fstat(t->descriptor, &own) != 0)
        return false;
    if (t->named && is_named_so(t, t->temporary, &own) && unlinkat(t->folder, t->temporary, 0) != 0)
        return false;
    t->named = false;
    return true;
}

void drop_temporary(struct target *t)
{
    if (!remove_temporary(t))
        (void)say("the temporary file %s can't be removed: %s", t->temporary_path, strerror(errno));
}

void drop_temporaries(void)
{
    for (int i = 0; i < TARGETS; i++)
        if (watched[i])
            drop_temporary(watched[i]);
}

const char *remove_temporaries(void)
{
    const char *left = NULL;
    for (int i = 0; i < TARGETS; i++)
        if (watched[i] && !remove_temporary(watched[i]))
            left = watched[i]->temporary_path;
    return left;
}

void forget_temporaries(void)
{
    memset(watched, 0, sizeof watched);
}
