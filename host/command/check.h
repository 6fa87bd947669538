/* What stands on the disk, read back past the page cache and held to what was made anew. */
#ifndef CHECK_H
#define CHECK_H

#include <stdbool.h>
#include <stdint.h>

#include "blocks.h"
#include "conversion.h"
#include "report.h"
#include "target.h"

/* What to do with the bytes that are read back. */
struct reading {
    int descriptor;
    const char *path;
    bool digest; /* --sha256 */
};

/* Reads it back, and where `anew` is what should be there, holds it to that; digest and difference go to `done`. */
void read_back(const struct reading *r, struct image anew, struct done *done);

/* Room for what is made anew, mapped: in a file without a name in the target's folder, or in memory where that can't be had; the same once its bytes are
 * there, to be read from front to back; its end. */
uint8_t *map_anew(const struct target *t, uint64_t size);
struct image made_anew(uint8_t *bytes, uint64_t size);
void drop_anew(struct image anew);

#endif
