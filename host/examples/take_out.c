/* How a program in C takes columns out of a column file with libsitaungo: take_out FILE NEW NUMBER... Prints the bytes of the new file.
 *
 *   cc -Iinclude host/examples/take_out.c target/staticlib/libsitaungo.a -o take_out
 */
#include <inttypes.h>
#include <stdio.h>
#include <stdlib.h>

#include "sitaungo.h"

enum { UNIT = 8 };

static uint64_t work[4][SITAUNGO_WORK_WORDS];

struct bytes {
    uint8_t *at;
    size_t length;
};

struct numbers {
    uint64_t *at;
    size_t count;
};

static void fail(const char *path)
{
    perror(path);
    exit(1);
}

static struct bytes read_file(const char *path)
{
    FILE *file = fopen(path, "rb");
    if (!file || fseek(file, 0, SEEK_END) != 0)
        fail(path);
    long length = ftell(file);
    rewind(file);
    struct bytes b = {.at = length < 0 ? NULL : malloc((size_t)length + 1), .length = (size_t)length};
    if (!b.at || fread(b.at, 1, b.length, file) != b.length)
        fail(path);
    fclose(file);
    return b;
}

static void write_file(const char *path, struct bytes b)
{
    FILE *file = fopen(path, "wb");
    if (!file || fwrite(b.at, 1, b.length, file) != b.length || fclose(file) != 0)
        fail(path);
}

static struct sitaungo_taken take_out(struct bytes file, struct numbers numbers, struct bytes out)
{
    return sitaungo_take_out(file.at, file.length, UNIT, numbers.at, numbers.count, work[0], SITAUNGO_WORK_WORDS, work[1], SITAUNGO_WORK_WORDS,
        work[2], SITAUNGO_WORK_WORDS, work[3], SITAUNGO_WORK_WORDS, out.at, out.length);
}

static int refused(struct sitaungo_taken answer)
{
    printf("refused %" PRIu64 " place %" PRIu64 "\n", answer.number, answer.place);
    return 2;
}

int main(int count, char **arguments)
{
    if (count < 3) {
        fprintf(stderr, "usage: take_out FILE NEW NUMBER...\n");
        return 1;
    }
    struct bytes file = read_file(arguments[1]);
    struct numbers numbers = {.at = calloc((size_t)count, sizeof *numbers.at), .count = (size_t)count - 3};
    if (!numbers.at)
        fail(arguments[1]);
    for (size_t k = 0; k < numbers.count; k++)
        numbers.at[k] = strtoull(arguments[3 + k], NULL, 10);
    /* an empty output: refusal 20 has the bytes needed as its place */
    struct sitaungo_taken answer = take_out(file, numbers, (struct bytes){0});
    if (answer.number != SITAUNGO_REFUSED_OUTPUT)
        return refused(answer);
    struct bytes out = {.at = malloc(answer.place), .length = answer.place};
    if (!out.at)
        fail(arguments[2]);
    answer = take_out(file, numbers, out);
    if (!answer.accepted)
        return refused(answer);
    write_file(arguments[2], out);
    printf("bytes %" PRIu64 "\n", answer.bytes);
    return 0;
}
