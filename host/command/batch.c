#define _GNU_SOURCE
#include "batch.h"

#include <errno.h>
#include <signal.h>
#include <stdio.h>
#include <stdlib.h>
#include <string.h>
#include <sys/prctl.h>
#include <sys/wait.h>
#include <unistd.h>

#include "job.h"
#include "messages.h"
#include "signals.h"
#include "temporary.h"

static const char *name_of(const char *path)
{
    const char *slash = strrchr(path, '/');
    return slash ? slash + 1 : path;
}

static int by_name(const void *a, const void *b)
{
    return strcmp(name_of(*(char *const *)a), name_of(*(char *const *)b));
}

/* Two recordings of one name would go into one file. */
static void check_names(const struct options *o)
{
    size_t count = (size_t)o->count;
    char **sorted = malloc(count * sizeof *sorted);
    if (!sorted)
        fail("no memory for the recordings");
    memcpy(sorted, o->recordings, count * sizeof *sorted);
    qsort(sorted, count, sizeof *sorted, by_name);
    for (size_t i = 1; i < count; i++)
        if (by_name(&sorted[i - 1], &sorted[i]) == 0)
            fail("%s and %s have one name and would go into one file", sorted[i - 1], sorted[i]);
    free(sorted);
}

/* From best to worst: what a repeat may cure comes after what it can't, and a disk that can't be trusted last. */
static int worse(int a, int b)
{
    static const int order[] = {STATUS_DONE, STATUS_INCOMPLETE, STATUS_REFUSED, STATUS_STANDING, STATUS_FAILED, STATUS_DIFFERENT};
    int worst = a;
    for (size_t i = 0; i < sizeof order / sizeof *order; i++)
        if (order[i] == a || order[i] == b)
            worst = order[i];
    return worst;
}

static int in_child(const struct options *o, const char *recording, struct sink *sink, pid_t parent)
{
    char *result;
    pass_signals_to(0);
    forget_temporaries();
    if (prctl(PR_SET_PDEATHSIG, SIGTERM) != 0 || getppid() != parent)
        fail("the command that began this conversion has ended");
    if (asprintf(&result, "%s/%s", o->folder, name_of(recording)) < 0)
        fail("no memory for a name");
    return run_job(o, recording, result, sink);
}

/* The status of a child; one that a signal ended has failed. */
static int wait_for(pid_t child, const char *recording)
{
    int how;
    while (waitpid(child, &how, 0) < 0)
        if (errno != EINTR)
            fail("can't wait for the conversion of %s: %s", recording, strerror(errno));
    if (WIFEXITED(how))
        return WEXITSTATUS(how);
    (void)say("the conversion of %s was ended by signal %d", recording, WTERMSIG(how));
    return STATUS_FAILED;
}

/* Signals are held until it is known whom they are passed to. */
static int run_one(const struct options *o, const char *recording, struct sink *sink)
{
    sigset_t before;
    pid_t parent = getpid();
    hold_signals(&before);
    pid_t child = fork();
    if (child != 0)
        pass_signals_to(child);
    release_signals(&before);
    if (child < 0)
        fail("can't begin the conversion of %s: %s", recording, strerror(errno));
    if (child == 0)
        exit(in_child(o, recording, sink, parent));
    int status = wait_for(child, recording);
    pass_signals_to(0);
    if (status == STATUS_FAILED || status == STATUS_STANDING)
        add_failure(sink, recording, status);
    return status;
}

int run_batch(const struct options *o, struct sink *sink)
{
    int status = STATUS_DONE;
    bool progress = isatty(STDERR_FILENO) && !o->quiet;
    check_names(o);
    keep_quiet();
    for (int i = 0; i < o->count; i++) {
        if (progress)
            (void)say("%d of %d: %s", i + 1, o->count, o->recordings[i]);
        set_standing(STATUS_FAILED, "%d of %d recordings were tried", i + 1, o->count);
        status = worse(status, run_one(o, o->recordings[i], sink));
        if (signal_passed())
            raise(signal_passed());
    }
    set_standing(worse(status, STATUS_STANDING), "the recordings were all tried");
    return status;
}
