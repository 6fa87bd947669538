/* Preloaded by the tests: FAULT=CALL:N:WHAT meets the Nth call of CALL. Several are parted by commas. WHAT is an error number that the call
 * fails with, or what happens before it: `before` the process is killed, `stop` it is stopped until it is continued, `term` it gets
 * SIGTERM; or after it: `after` the process is killed, `lose` a byte of the file is changed without an error (fsync); or instead of it:
 * `skip` nothing. `tmpfile` is openat with O_TMPFILE. N 0 is every call. */
#define _GNU_SOURCE
#include <dlfcn.h>
#include <errno.h>
#include <fcntl.h>
#include <signal.h>
#include <stdarg.h>
#include <stdio.h>
#include <stdlib.h>
#include <string.h>
#include <sys/file.h>
#include <sys/mman.h>
#include <sys/stat.h>
#include <sys/statvfs.h>
#include <unistd.h>

enum { NONE = 0, AFTER = -1, LOSE = -2, SKIP = -3 };

/* What FAULT says of this call: an error, NONE, AFTER, LOSE or SKIP; the rest is done here. */
static int fault(const char *call, int *calls)
{
    const char *all = getenv("FAULT");
    char name[32], what[16];
    int number;
    ++*calls;
    while (all && sscanf(all, "%31[^:]:%d:%15[^,]", name, &number, what) == 3) {
        if (strcmp(name, call) == 0 && (number == 0 || number == *calls)) {
            if (strcmp(what, "before") == 0)
                kill(getpid(), SIGKILL);
            if (strcmp(what, "stop") == 0)
                kill(getpid(), SIGSTOP);
            if (strcmp(what, "term") == 0)
                kill(getpid(), SIGTERM);
            return strcmp(what, "after") == 0 ? AFTER : strcmp(what, "lose") == 0 ? LOSE : strcmp(what, "skip") == 0 ? SKIP : atoi(what);
        }
        all = strchr(all, ',');
        all = all ? all + 1 : NULL;
    }
    return NONE;
}

static void lose(int file)
{
    unsigned char byte;
    int flags = fcntl(file, F_GETFL);
    if (pread(file, &byte, 1, 1000) == 1 && (byte ^= 1, pwrite(file, &byte, 1, 1000) != 1))
        fprintf(stderr, "faults: no byte lost, flags %d\n", flags);
}

#define CALL(name, type, parameters, arguments, failed, file) \
    type name parameters \
    { \
        static int calls; \
        type (*real) parameters = (type (*) parameters)dlsym(RTLD_NEXT, #name); \
        int what = fault(#name, &calls); \
        if (what > 0) { \
            errno = what; \
            return failed; \
        } \
        if (what == SKIP) \
            return 0; \
        type answer = real arguments; \
        if (what == LOSE) \
            lose(file); \
        if (what == AFTER) \
            kill(getpid(), SIGKILL); \
        return answer; \
    }

CALL(flock, int, (int file, int operation), (file, operation), -1, -1)
CALL(fsync, int, (int file), (file), -1, file)
CALL(msync, int, (void *at, size_t length, int flags), (at, length, flags), -1, -1)
CALL(mmap, void *, (void *at, size_t length, int access, int flags, int file, off_t from), (at, length, access, flags, file, from), MAP_FAILED, -1)
CALL(linkat, int, (int a, const char *from, int b, const char *to, int flags), (a, from, b, to, flags), -1, -1)
CALL(renameat, int, (int a, const char *from, int b, const char *to), (a, from, b, to), -1, -1)
CALL(renameat2, int, (int a, const char *from, int b, const char *to, unsigned flags), (a, from, b, to, flags), -1, -1)
CALL(unlinkat, int, (int folder, const char *name, int flags), (folder, name, flags), -1, -1)
CALL(fstatat, int, (int folder, const char *name, struct stat *found, int flags), (folder, name, found, flags), -1, -1)
CALL(fstatvfs, int, (int file, struct statvfs *found), (file, found), -1, -1)
CALL(fchown, int, (int file, uid_t user, gid_t group), (file, user, group), -1, -1)
CALL(dlopen, void *, (const char *name, int flags), (name, flags), NULL, -1)
/* this one hands back its error */
CALL(posix_fallocate, int, (int file, off_t from, off_t length), (file, from, length), what, -1)

int openat(int folder, const char *path, int flags, ...)
{
    static int calls;
    int (*real)(int, const char *, int, ...) = (int (*)(int, const char *, int, ...))dlsym(RTLD_NEXT, "openat");
    va_list more;
    va_start(more, flags);
    mode_t mode = flags & (O_CREAT | (O_TMPFILE & ~O_DIRECTORY)) ? va_arg(more, mode_t) : 0;
    va_end(more);
    int what = (flags & O_TMPFILE) == O_TMPFILE ? fault("tmpfile", &calls) : NONE;
    if (what > 0) {
        errno = what;
        return -1;
    }
    return real(folder, path, flags, mode);
}
