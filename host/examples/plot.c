/* How a program in C fetches many ranges of a column file in one call with libsitaungo: plot FILE COLUMN FIRST COUNT WIDTH ..,
 * four words an entry, WIDTH the bytes of a record. The ranges go one after the other. Prints the bytes in hexadecimal, those before a refused entry too.
 *
 *   cc -Iinclude host/examples/plot.c target/staticlib/libsitaungo.a -o plot
 */
#include <fcntl.h>
#include <inttypes.h>
#include <stdio.h>
#include <stdlib.h>
#include <sys/mman.h>
#include <sys/stat.h>
#include <unistd.h>

#include "sitaungo.h"

struct bytes {
    const uint8_t *at;
    size_t length;
};

static struct bytes map_file(const char *path)
{
    struct bytes none = {0};
    struct stat about;
    int file = open(path, O_RDONLY);
    if (file < 0 || fstat(file, &about) != 0 || about.st_size == 0)
        return none;
    void *at = mmap(NULL, (size_t)about.st_size, PROT_READ, MAP_PRIVATE, file, 0);
    close(file);
    return at == MAP_FAILED ? none : (struct bytes){.at = at, .length = (size_t)about.st_size};
}

/* The entries of the words after FILE, each range behind the one before; answers the bytes of all. */
static size_t entries(struct sitaungo_request *table, size_t n, char **words)
{
    uint64_t place = 0;
    for (size_t i = 0; i < n; i++) {
        table[i].column = strtoull(words[4 * i], NULL, 10);
        table[i].first = strtoull(words[4 * i + 1], NULL, 10);
        table[i].count = strtoull(words[4 * i + 2], NULL, 10);
        table[i].place = place;
        place += table[i].count * strtoull(words[4 * i + 3], NULL, 10);
    }
    return place;
}

int main(int count, char **arguments)
{
    if (count < 2 || count % 4 != 2)
        return 1;
    struct bytes file = map_file(arguments[1]);
    if (!file.at) {
        fprintf(stderr, "plot: %s can't be read\n", arguments[1]);
        return 1;
    }
    size_t n = (size_t)count / 4;
    struct sitaungo_request *table = calloc(n + 1, sizeof *table);
    if (!table)
        return 1;
    size_t length = entries(table, n, arguments + 2);
    uint8_t *destination = calloc(length + 1, 1);
    if (!destination)
        return 1;
    struct sitaungo_plotting p = sitaungo_plot(file.at, file.length, table, n, destination, length);
    size_t fetched = p.accepted ? length : (size_t)table[p.position < n ? p.position : 0].place;
    for (size_t i = 0; i < fetched; i++)
        printf("%02x", destination[i]);
    putchar('\n');
    if (!p.accepted)
        printf("refused %" PRIu64 " place %" PRIu64 " position %" PRIu64 "\n", p.number, p.place, p.position);
    free(table);
    free(destination);
    return p.accepted ? 0 : 2;
}
