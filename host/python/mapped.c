/* Mapped files of the module for Python: neither a fault in one of them nor another's writing ends the interpreter or keeps it.
 *
 * The library counts on bytes that stay the same during a call. Pages with blocks that it follows by links are held: the mapping gets a copy of
 * its own in their place, so that only sample bytes and headers of data blocks can change under it.
 *
 * Where a mapped file was cut off, or its disk fails, touching its bytes raises SIGBUS, in the library as in any view that was handed out. For a
 * fault inside a watched mapping the handler lays zeros over the mapping from there on, marks it as lost and goes on; the module asks for the mark
 * after every call. Any other fault goes to the handler that was there before. */
#define _GNU_SOURCE
#include <signal.h>
#include <stdatomic.h>
#include <stdbool.h>
#include <stddef.h>
#include <stdint.h>
#include <string.h>
#include <sys/mman.h>

enum { MAPPINGS = 4096 };

static struct {
    atomic_bool taken, lost;
    _Atomic uintptr_t from, to; /* the pages of the mapping; both 0: none */
} mappings[MAPPINGS];

static struct sigaction before;
static _Thread_local volatile sig_atomic_t passing;

/* To the handler of before; to the default one where there is none, or where that one leads back here. */
static void pass_on(int number, siginfo_t *about, void *context)
{
    if (!passing && before.sa_handler != SIG_DFL && before.sa_handler != SIG_IGN) {
        passing = 1;
        if (before.sa_flags & SA_SIGINFO)
            before.sa_sigaction(number, about, context);
        else
            before.sa_handler(number);
        passing = 0;
        return;
    }
    signal(number, SIG_DFL); /* it is raised again, and ends the process */
}

static void on_fault(int number, siginfo_t *about, void *context)
{
    uintptr_t at = (uintptr_t)about->si_addr;
    for (int k = 0; k < MAPPINGS; k++) {
        uintptr_t from = atomic_load(&mappings[k].from), to = atomic_load(&mappings[k].to);
        if (at < from || at >= to)
            continue;
        at -= (at - from) % 4096;
        atomic_store(&mappings[k].lost, true);
        if (mmap((void *)at, to - at, PROT_READ, MAP_PRIVATE | MAP_ANONYMOUS | MAP_NORESERVE | MAP_FIXED, -1, 0) != MAP_FAILED)
            return;
    }
    pass_on(number, about, context);
}

/* Faults come to the handler above, also after someone else has set one. */
static bool catch_faults(void)
{
    struct sigaction ours = {.sa_sigaction = on_fault, .sa_flags = SA_SIGINFO | SA_ONSTACK}, now;
    if (sigaction(SIGBUS, NULL, &now) != 0)
        return false;
    if ((now.sa_flags & SA_SIGINFO) && now.sa_sigaction == on_fault)
        return true;
    sigemptyset(&ours.sa_mask);
    before = now;
    return sigaction(SIGBUS, &ours, NULL) == 0;
}

/* Watches a mapping that begins at a page; its number, -1 where there are too many. */
int mapped_watch(const void *bytes, size_t length)
{
    if (!catch_faults())
        return -1;
    for (int k = 0; k < MAPPINGS; k++) {
        bool none = false;
        if (!atomic_compare_exchange_strong(&mappings[k].taken, &none, true))
            continue;
        atomic_store(&mappings[k].lost, false);
        atomic_store(&mappings[k].from, (uintptr_t)bytes);
        atomic_store(&mappings[k].to, (uintptr_t)bytes + (length + 4095) / 4096 * 4096);
        return k;
    }
    return -1;
}

/* Whether bytes of it were lost. */
bool mapped_lost(int mapping)
{
    (void)catch_faults();
    return atomic_load(&mappings[mapping].lost);
}

/* Lays a copy over pages of a mapping; false where there can be none. */
bool mapped_hold(void *pages, const void *copy, size_t length)
{
    if (mmap(pages, length, PROT_READ | PROT_WRITE, MAP_PRIVATE | MAP_ANONYMOUS | MAP_FIXED, -1, 0) == MAP_FAILED)
        return false;
    memcpy(pages, copy, length);
    return mprotect(pages, length, PROT_READ) == 0;
}

void mapped_forget(int mapping)
{
    atomic_store(&mappings[mapping].to, 0);
    atomic_store(&mappings[mapping].from, 0);
    atomic_store(&mappings[mapping].taken, false);
}
