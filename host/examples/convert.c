/* How a program in C converts a recording with libsitaungo: convert RECORDING [RESULT]. Prints the listing and where the parts of the result lie.
 *
 *   cc -Iinclude host/examples/convert.c target/staticlib/libsitaungo.a -o convert
 */
#include <inttypes.h>
#include <stdio.h>
#include <stdlib.h>

#include "sitaungo.h"

static uint64_t work[4][SITAUNGO_WORK_WORDS];
static uint64_t omissions[SITAUNGO_LIST_WORDS];
static uint8_t lines[SITAUNGO_LISTING_BYTES];

static const uint8_t ident[SITAUNGO_IDENT_BYTES] = "MDF     4.20    sitaungo\0\0\0\0\xa4\x01";
static const uint8_t text[] = "convert";

enum { BLOCK_SIZE = 4194304, TIME = 0, TEXT_LENGTH = sizeof text - 1 };

struct bytes {
    uint8_t *at;
    size_t length;
};

static void fail(const char *path)
{
    perror(path);
    exit(1);
}

static struct bytes read_file(const char *path)
{
    FILE *file = fopen(path, "rb");
    if (!file || fseek(file, 0, SEEK_END) != 0)
        fail(path);
    long length = ftell(file);
    rewind(file);
    struct bytes b = {.at = length < 0 ? NULL : malloc((size_t)length + 1), .length = (size_t)length};
    if (!b.at || fread(b.at, 1, b.length, file) != b.length)
        fail(path);
    fclose(file);
    return b;
}

static void write_file(const char *path, struct bytes b)
{
    FILE *file = fopen(path, "wb");
    if (!file || fwrite(b.at, 1, b.length, file) != b.length || fclose(file) != 0)
        fail(path);
}

static struct sitaungo_outcome convert(struct bytes image, struct bytes out)
{
    return sitaungo_convert(image.at, image.length, BLOCK_SIZE, ident, sizeof ident, text, TEXT_LENGTH, TIME, work[0], SITAUNGO_WORK_WORDS,
        work[1], SITAUNGO_WORK_WORDS, work[2], SITAUNGO_WORK_WORDS, work[3], SITAUNGO_WORK_WORDS, out.at, out.length, omissions, SITAUNGO_LIST_WORDS);
}

static size_t list(struct bytes image, uint64_t size)
{
    return sitaungo_list(image.at, image.length, BLOCK_SIZE, ident, sizeof ident, text, TEXT_LENGTH, size, SITAUNGO_LIST_WORDS,
        work[0], SITAUNGO_WORK_WORDS, work[1], SITAUNGO_WORK_WORDS, work[2], SITAUNGO_WORK_WORDS, work[3], SITAUNGO_WORK_WORDS, lines, sizeof lines);
}

static int refused(struct sitaungo_outcome answer)
{
    printf("refused %" PRIu64 " place %" PRIu64 "\n", answer.number, answer.place);
    return 2;
}

int main(int count, char **arguments)
{
    if (count < 2) {
        fprintf(stderr, "usage: convert RECORDING [RESULT]\n");
        return 1;
    }
    struct bytes image = read_file(arguments[1]);
    /* an empty output: refusal 20 has the bytes needed as its place */
    struct sitaungo_outcome answer = convert(image, (struct bytes){0});
    if (answer.number != SITAUNGO_REFUSED_OUTPUT)
        return refused(answer);
    struct bytes out = {.at = malloc(answer.place), .length = answer.place};
    if (!out.at)
        fail(arguments[1]);
    answer = convert(image, out);
    if (!answer.accepted)
        return refused(answer);
    fwrite(lines, 1, list(image, answer.file_size), stdout);
    printf("metadata %" PRIu64 " bytes %" PRIu64 "\n", answer.metadata_size, answer.file_size);
    if (count > 2)
        write_file(arguments[2], out);
    return 0;
}
