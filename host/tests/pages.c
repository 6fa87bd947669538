/* The order in which the conversion stores the result: pages RECORDING BLOCK-SIZE. The output's pages are without access. The handler of the
 * fault that a store into such a page is gives access to it, and takes it back from the last but one: so each page's first store is seen, and
 * every store that goes two or more pages back. Prints the number of pages, of faults, and of those that were not at the next page. */
#define _GNU_SOURCE
#include <fcntl.h>
#include <inttypes.h>
#include <signal.h>
#include <stdio.h>
#include <stdlib.h>
#include <sys/mman.h>
#include <sys/stat.h>
#include <unistd.h>

#include "sitaungo.h"

/* Words for as many records in no regular order as any recording here has. */
enum { MORE_WORDS = SITAUNGO_WORK_WORDS + 100000 };

static uint64_t work[4][SITAUNGO_WORK_WORDS], fragments[MORE_WORDS], list[SITAUNGO_LIST_WORDS];
static uint8_t ident[SITAUNGO_IDENT_BYTES] = "MDF     4.20    tests   ", *out;
static size_t page, pages, next, faults, astray;

/* The library leaves copies and zeros of whole parts to these two. Those of the C library store a long part's first bytes last; in order it is
 * the conversion's own order that is seen. */
void *memcpy(void *restrict to, const void *restrict from, size_t length)
{
    for (size_t i = 0; i < length; i++)
        ((volatile uint8_t *)to)[i] = ((const volatile uint8_t *)from)[i];
    return to;
}

void *memset(void *to, int value, size_t length)
{
    for (size_t i = 0; i < length; i++)
        ((volatile uint8_t *)to)[i] = (uint8_t)value;
    return to;
}

static void stop(const char *what)
{
    perror(what);
    exit(1);
}

/* Signal handlers may call mprotect and _exit on Linux; all else here is plain stores. */
static void touched(int number, siginfo_t *told, void *context)
{
    (void)number, (void)context;
    uint8_t *at = told->si_addr;
    if (at < out || at >= out + pages * page)
        _exit(3);
    size_t k = (size_t)(at - out) / page;
    faults++;
    if (k != next)
        astray++;
    else
        next++;
    if (mprotect(out + k * page, page, PROT_READ | PROT_WRITE))
        _exit(4);
    if (k == next - 1 && k >= 2 && mprotect(out + (k - 2) * page, page, PROT_NONE))
        _exit(4);
}

static struct sitaungo_outcome convert(const uint8_t *image, size_t length, uint64_t size, size_t room)
{
    return sitaungo_convert(image, length, size, ident, sizeof ident, (const uint8_t *)"", 0, 0, work[0], SITAUNGO_WORK_WORDS, fragments,
        MORE_WORDS, work[2], SITAUNGO_WORK_WORDS, work[3], SITAUNGO_WORK_WORDS, out, room, list, SITAUNGO_LIST_WORDS);
}

int main(int argc, char **argv)
{
    if (argc != 3) {
        fprintf(stderr, "usage: pages RECORDING BLOCK-SIZE\n");
        return 1;
    }
    int file = open(argv[1], O_RDONLY);
    struct stat told;
    if (file < 0 || fstat(file, &told))
        stop(argv[1]);
    size_t length = (size_t)told.st_size;
    uint8_t *image = mmap(NULL, length, PROT_READ, MAP_PRIVATE | MAP_POPULATE, file, 0);
    if (image == MAP_FAILED)
        stop("mmap");
    uint64_t size = strtoull(argv[2], NULL, 10);
    struct sitaungo_outcome need = convert(image, length, size, 0);
    if (need.number != SITAUNGO_REFUSED_OUTPUT) {
        printf("refused %" PRIu64 " place %" PRIu64 "\n", need.number, need.place);
        return 1;
    }
    page = (size_t)sysconf(_SC_PAGESIZE);
    pages = (need.place + page - 1) / page;
    out = mmap(NULL, pages * page, PROT_NONE, MAP_PRIVATE | MAP_ANONYMOUS, -1, 0);
    if (out == MAP_FAILED)
        stop("mmap");
    struct sigaction action = {.sa_sigaction = touched, .sa_flags = SA_SIGINFO};
    if (sigaction(SIGSEGV, &action, NULL))
        stop("sigaction");
    struct sitaungo_outcome done = convert(image, length, size, need.place);
    printf("accepted %d pages %zu faults %zu astray %zu\n", done.accepted, pages, faults, astray);
    return !(done.accepted && faults == pages && astray == 0 && next == pages);
}
