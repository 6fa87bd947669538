/* How a program in C reads records of a column file with libsitaungo: read FILE COLUMN FIRST COUNT. Prints the records' bytes in hexadecimal.
 *
 *   cc -Iinclude host/examples/read.c target/staticlib/libsitaungo.a -o read
 */
#include <fcntl.h>
#include <inttypes.h>
#include <stdio.h>
#include <stdlib.h>
#include <sys/mman.h>
#include <sys/stat.h>
#include <unistd.h>

#include "sitaungo.h"

struct bytes {
    const uint8_t *at;
    size_t length;
};

static struct bytes map_file(const char *path)
{
    struct bytes none = {0};
    struct stat about;
    int file = open(path, O_RDONLY);
    if (file < 0 || fstat(file, &about) != 0 || about.st_size == 0)
        return none;
    void *at = mmap(NULL, (size_t)about.st_size, PROT_READ, MAP_PRIVATE, file, 0);
    close(file);
    return at == MAP_FAILED ? none : (struct bytes){.at = at, .length = (size_t)about.st_size};
}

static int refused(uint64_t number, uint64_t place)
{
    printf("refused %" PRIu64 " place %" PRIu64 "\n", number, place);
    return 2;
}

static int print(struct bytes b)
{
    for (size_t i = 0; i < b.length; i++)
        printf("%02x", b.at[i]);
    return putchar('\n') == EOF;
}

/* Records over several blocks, copied together; `length` is their bytes. */
static int copied(struct bytes file, uint64_t column, uint64_t first, uint64_t count, size_t length)
{
    uint8_t *buffer = malloc(length);
    if (!buffer)
        return 1;
    struct sitaungo_read r = sitaungo_read_range(file.at, file.length, column, first, count, buffer, length);
    int status = r.accepted ? print((struct bytes){buffer, length}) : refused(r.number, r.place);
    free(buffer);
    return status;
}

/* A record's bytes: a part of one record, if its column has one in a block. */
static size_t width(struct bytes file, uint64_t column, uint64_t first)
{
    struct sitaungo_part one = sitaungo_range_part(file.at, file.length, column, first, 1);
    return one.accepted && !one.split ? one.length : 0;
}

int main(int count, char **arguments)
{
    if (count != 5)
        return 1;
    struct bytes file = map_file(arguments[1]);
    uint64_t column = strtoull(arguments[2], NULL, 10);
    uint64_t first = strtoull(arguments[3], NULL, 10);
    uint64_t records = strtoull(arguments[4], NULL, 10);
    if (!file.at) {
        fprintf(stderr, "read: %s can't be read\n", arguments[1]);
        return 1;
    }
    struct sitaungo_part part = sitaungo_range_part(file.at, file.length, column, first, records);
    if (!part.accepted)
        return refused(part.number, part.place);
    if (part.split)
        return copied(file, column, first, records, records * width(file, column, first));
    return print((struct bytes){file.at + part.offset, part.length});
}
