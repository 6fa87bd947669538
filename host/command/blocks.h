/* A small reader of MDF blocks by links: names of channels and groups, cycle counts, the history's last entry, the block that holds a byte. Whatever the
 * bytes are, it reads none outside the image and ends. It decides nothing about a conversion. */
#ifndef BLOCKS_H
#define BLOCKS_H

#include <stdbool.h>
#include <stddef.h>
#include <stdint.h>

struct image {
    const uint8_t *bytes;
    size_t length;
};

struct block {
    char kind[3]; /* as DG */
    uint64_t at, length, links;
};

struct text {
    const uint8_t *bytes;
    size_t length; /* 0: there is none */
};

/* Names of a channel and of its group. */
struct names {
    struct text channel, group;
};

/* The block at an offset, whole in the image; false where there is none. */
bool block_at(struct image image, uint64_t at, struct block *found);

/* A link of a block, 0 where it has no such link; 8 bytes of its data, 0 past its end. */
uint64_t link_of(struct image image, const struct block *block, uint64_t number);
uint64_t data_u64(struct image image, const struct block *block, uint64_t byte);

/* The text of the TX or MD at an offset, up to its first zero byte. */
struct text text_at(struct image image, uint64_t at);

/* The last block of the history chain; false where there is none, or it is no FH. */
bool last_history(struct image image, struct block *entry);

/* Names of the channel (CN) at this offset; or of the group, for one of a CG. */
struct names names_of(struct image image, uint64_t at);

/* Names of the next column of a result: *dg is the offset of its DG, 0 for the first one, and becomes that of the next. */
struct names next_column_names(struct image image, uint64_t *dg);

/* A column of a column file: name, its CG, and the CG that this names by its seventh link under flag bit 3, 0 for none. */
struct column {
    struct text name;
    uint64_t group, master;
};

/* The columns of a file, in order, at most `most`: how many. */
size_t columns_of(struct image image, struct column *columns, size_t most);

/* How many records there are in DG with ids, as cycle counts say; at most an eighth of the image's bytes, so that a word for each takes no more memory than
 * the image has. */
uint64_t shared_records(struct image image);

/* The written block of a result that holds this byte, or lies before it; false where there is none. */
bool block_around(struct image image, uint64_t byte, struct block *found);

#endif
