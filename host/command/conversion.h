/* The proved conversion, its listing and taking columns out, with what they are lent. */
#ifndef CONVERSION_H
#define CONVERSION_H

#include <stdbool.h>
#include <stddef.h>
#include <stdint.h>

#include "recording.h"
#include "sitaungo.h"

/* One byte more than a table of treatments can have is enough to have it refused. */
enum { TYPES_KEPT = SITAUNGO_TYPES_BYTES + 1 };

/* What the words choose of a result. */
struct choices {
    uint64_t block_size, unit;
    bool share_time, photos;
    uint8_t types[TYPES_KEPT]; /* the table of treatments */
    size_t types_length;
};

/* What a result depends on besides the recording. */
struct lent {
    struct choices choices;
    uint64_t time; /* of the history entry, nanoseconds since 1970 */
    char text[SITAUNGO_TEXT_BYTES];
    size_t text_length;
};

enum { WHEN = 40, VERSION_KEPT = 32 };

/* The history text of a conversion by this version of the command (or another) at this time. The text has version and time a second time, so
 * that damage to either shows. */
struct lent lend(const struct choices *choices, const char *version, uint64_t time);

/* A time as 2026-11-16T01:35:00.123456789Z. */
void write_time(char to[WHEN], uint64_t time);

/* The clock's, nanoseconds since 1970. */
uint64_t present_time(void);

/* Version and time of the history entry that a result has from this command, by links; false where there is none. */
bool read_lent(const uint8_t *result, size_t length, char version[VERSION_KEPT], uint64_t *time);

/* Room for an output, of this file or, where it is -1, of memory; NULL with errno. */
uint8_t *map_output(int file, uint64_t size);

struct sitaungo_outcome convert(const struct recording *r, const struct lent *l, uint8_t *out, size_t length);

/* A conversion in steps, one in a process: begun for a file of so many bytes; so many stores more over it, by which no omission is changed before the last;
 * how many are left. Neither `measure` nor a listing may come between the first and the last. */
struct sitaungo_outcome begin_stores(const struct recording *r, const struct lent *l, size_t length);
void make_stores(const struct recording *r, const struct lent *l, uint64_t stores, uint8_t *file, size_t length);
uint64_t stores_left(void);

/* Takes columns out of a column file; without an output refusal 20 has the bytes needed as its place. */
struct sitaungo_taken take_out(const struct recording *file, uint64_t unit, const uint64_t *numbers, size_t count, uint8_t *out, size_t length);

/* Without an output: refusal 20 has the bytes needed as its place, any other refuses the recording. */
struct sitaungo_outcome measure(const struct recording *r, const struct lent *l);

/* The listing of a conversion with an output of so many bytes; it stays until the next. */
const char *list_columns(const struct recording *r, const struct lent *l, uint64_t size);

/* The channels that the last conversion or listing left out: address (for reason 1 the group's) and reason. */
struct omission {
    uint64_t address, reason;
};
uint64_t omission_count(void);
struct omission omission_at(uint64_t number);

#endif
