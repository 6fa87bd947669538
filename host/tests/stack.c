/* How much stack the library takes: stack RECORDING... converts each in one go and in steps, with words for places of records and without, and reads the
 * result and takes a column out of it, each in a thread whose stack was painted before. Prints the most bytes that each kind of call took. */
#define _GNU_SOURCE
#include <pthread.h>
#include <stdio.h>
#include <stdlib.h>
#include <string.h>
#include <sys/mman.h>

#include "sitaungo.h"

enum { PAINT = 0xA5, STACK = 1 << 20, OFFSETS = 1 << 20, KINDS = 4 };

static const uint8_t ident[SITAUNGO_IDENT_BYTES] = "MDF     4.20    sitaungo\0\0\0\0\xa4\x01", text[] = "stack";
static const struct sitaungo_options options = {.unit = 8, .share = true, .photos = true};
static uint64_t work[4][SITAUNGO_WORK_WORDS], list[SITAUNGO_LIST_WORDS], stretches[SITAUNGO_STRETCH_WORDS], offsets[OFFSETS];
static uint8_t *image, *out, *new, sheet[SITAUNGO_SHEET_BYTES];
static size_t length, size, kept; /* kept: 1 with words for places, else 0 */

#define SAME image, length, ident, sizeof ident, text, sizeof text, NULL, 0
#define WORK work[0], SITAUNGO_WORK_WORDS, work[1], SITAUNGO_WORK_WORDS, work[2], SITAUNGO_WORK_WORDS, work[3], SITAUNGO_WORK_WORDS
#define PLACES stretches, kept * SITAUNGO_STRETCH_WORDS, offsets, kept * OFFSETS

static void *nothing(void *none)
{
    return none;
}

static void *convert(void *none)
{
    struct sitaungo_outcome a = sitaungo_convert_with(
        image, length, 1000, ident, sizeof ident, text, sizeof text, 0, options, NULL, 0, WORK, out, size, list, SITAUNGO_LIST_WORDS);
    size = a.number == SITAUNGO_REFUSED_OUTPUT ? a.place : size;
    return none;
}

static void *step(void *none)
{
    struct sitaungo_conversion c = sitaungo_begin(
        image, length, 1000, ident, sizeof ident, text, sizeof text, 0, options, NULL, 0, size, SITAUNGO_LIST_WORDS, WORK, PLACES).conversion;
    while (sitaungo_left(c) > 0)
        c = sitaungo_advance(sitaungo_step(c, SAME, WORK, PLACES, out, size, list, SITAUNGO_LIST_WORDS), 2, SAME, WORK, PLACES, out, size, list,
            SITAUNGO_LIST_WORDS);
    return none;
}

static void *read_result(void *none)
{
    uint8_t byte;
    struct sitaungo_request entry = {0};
    (void)sitaungo_sheet(out, size, sheet, sizeof sheet);
    (void)sitaungo_plot(out, size, &entry, 1, &byte, 1);
    (void)sitaungo_read_range(out, size, 0, 0, 0, &byte, 0);
    return none;
}

/* Nothing out, and the last column, which none names; the new file has no more bytes than the result. */
static void *take_out(void *none)
{
    uint64_t number = 0;
    while (sitaungo_range_part(out, size, number + 1, 0, 0).accepted)
        number++;
    (void)sitaungo_take_out(out, size, 8, NULL, 0, WORK, new, size);
    (void)sitaungo_take_out(out, size, 8, &number, 1, WORK, new, size);
    return none;
}

/* Bytes of its stack that a thread took. */
static size_t taken_by(void *(*call)(void *))
{
    uint8_t *stack = mmap(NULL, STACK, PROT_READ | PROT_WRITE, MAP_PRIVATE | MAP_ANONYMOUS, -1, 0);
    pthread_attr_t own;
    pthread_t thread;
    size_t clean = 0;
    if (stack == MAP_FAILED)
        exit(1);
    memset(stack, PAINT, STACK);
    if (pthread_attr_init(&own) != 0 || pthread_attr_setstack(&own, stack, STACK) != 0 || pthread_create(&thread, &own, call, NULL) != 0)
        exit(1);
    pthread_join(thread, NULL);
    while (clean < STACK && stack[clean] == PAINT)
        clean++;
    munmap(stack, STACK);
    return STACK - clean;
}

static void take_image(const char *path)
{
    FILE *file = fopen(path, "rb");
    if (!file || fseek(file, 0, SEEK_END) != 0)
        exit(1);
    length = (size_t)ftell(file);
    rewind(file);
    image = malloc(length + 1);
    if (!image || fread(image, 1, length, file) != length)
        exit(1);
    fclose(file);
}

int main(int count, char **paths)
{
    static void *(*const calls[KINDS])(void *) = {convert, step, read_result, take_out};
    size_t most[KINDS] = {0}, bare = taken_by(nothing);
    for (int i = 1; i < count; i++) {
        take_image(paths[i]);
        size = 0;
        convert(NULL);
        out = malloc(size + 1);
        new = malloc(size + 1);
        for (int k = 0; k < KINDS; k++)
            for (kept = 0; kept < 2; kept++) {
                size_t taken = taken_by(calls[k]) - bare;
                most[k] = taken > most[k] ? taken : most[k];
            }
        free(out);
        free(new);
        free(image);
    }
    printf("conversion %zu, in steps %zu, reading %zu, taking out %zu\n", most[0], most[1], most[2], most[3]);
    return 0;
}
