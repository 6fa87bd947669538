#define _GNU_SOURCE
#include "blocks.h"

#include <string.h>

/* Offset of the HD; blocks that are looked at before a chain is given up, more than any accepted recording has; bytes of a gap. */
enum { HEADER = 64, MOST_BLOCKS = 4096, MOST_GAP = 8192 };

static uint64_t u64_at(const uint8_t *at)
{
    uint64_t value = 0;
    for (int i = 7; i >= 0; i--)
        value = value << 8 | at[i];
    return value;
}

bool block_at(struct image image, uint64_t at, struct block *found)
{
    if (at == 0 || at > image.length || image.length - at < 24 || memcmp(image.bytes + at, "##", 2) != 0)
        return false;
    *found = (struct block){.at = at, .length = u64_at(image.bytes + at + 8), .links = u64_at(image.bytes + at + 16)};
    memcpy(found->kind, image.bytes + at + 2, 2);
    return found->length >= 24 && found->length <= image.length - at && found->links <= (found->length - 24) / 8;
}

static bool is(const struct block *block, const char *kind)
{
    return strcmp(block->kind, kind) == 0;
}

static bool kind_at(struct image image, uint64_t at, const char *kind, struct block *found)
{
    return block_at(image, at, found) && is(found, kind);
}

uint64_t link_of(struct image image, const struct block *block, uint64_t number)
{
    return number < block->links ? u64_at(image.bytes + block->at + 24 + 8 * number) : 0;
}

uint64_t data_u64(struct image image, const struct block *block, uint64_t byte)
{
    uint64_t room = block->length - 24 - 8 * block->links;
    return byte <= room && room - byte >= 8 ? u64_at(image.bytes + block->at + 24 + 8 * block->links + byte) : 0;
}

static uint8_t data_u8(struct image image, const struct block *block, uint64_t byte)
{
    uint64_t room = block->length - 24 - 8 * block->links;
    return byte < room ? image.bytes[block->at + 24 + 8 * block->links + byte] : 0;
}

struct text text_at(struct image image, uint64_t at)
{
    struct block block;
    if (!block_at(image, at, &block) || !(is(&block, "TX") || is(&block, "MD")))
        return (struct text){NULL, 0};
    uint64_t front = 24 + 8 * block.links;
    const uint8_t *bytes = image.bytes + at + front;
    return (struct text){bytes, strnlen((const char *)bytes, block.length - front)};
}

/* A recording's history may hold blocks of other kinds, which are copied as they are; the conversion's own entry is the chain's last. */
bool last_history(struct image image, struct block *entry)
{
    struct block header, next;
    bool found = false;
    if (!kind_at(image, HEADER, "HD", &header))
        return false;
    uint64_t at = link_of(image, &header, 1);
    for (int n = 0; n < MOST_BLOCKS && block_at(image, at, &next); n++) {
        *entry = next;
        found = true;
        at = link_of(image, entry, 0);
    }
    return found && is(entry, "FH");
}

/* ---- names */

/* The third link of CG and CN. */
static struct text name_of(struct image image, uint64_t at, const char *kind)
{
    struct block block;
    return kind_at(image, at, kind, &block) ? text_at(image, link_of(image, &block, 2)) : (struct text){NULL, 0};
}

/* Whether the chain of channels of a group has the one at `wanted`; `left` counts blocks down. */
static bool has_channel(struct image image, const struct block *group, uint64_t wanted, int *left)
{
    struct block channel;
    uint64_t at = link_of(image, group, 1);
    while (at != wanted && --*left > 0 && kind_at(image, at, "CN", &channel))
        at = link_of(image, &channel, 0);
    return at == wanted;
}

/* The group with the channel at `wanted`, 0 where there is none. */
static uint64_t group_of(struct image image, uint64_t wanted)
{
    struct block header, data_group, group;
    int left = MOST_BLOCKS;
    uint64_t dg = kind_at(image, HEADER, "HD", &header) ? link_of(image, &header, 0) : 0;
    for (; --left > 0 && kind_at(image, dg, "DG", &data_group); dg = link_of(image, &data_group, 0))
        for (uint64_t cg = link_of(image, &data_group, 1); --left > 0 && kind_at(image, cg, "CG", &group); cg = link_of(image, &group, 0))
            if (has_channel(image, &group, wanted, &left))
                return cg;
    return 0;
}

struct names names_of(struct image image, uint64_t at)
{
    struct block block;
    if (kind_at(image, at, "CG", &block))
        return (struct names){.group = name_of(image, at, "CG")};
    return (struct names){.channel = name_of(image, at, "CN"), .group = name_of(image, group_of(image, at), "CG")};
}

struct names next_column_names(struct image image, uint64_t *dg)
{
    struct block header, data_group, group;
    if (*dg == 0)
        *dg = kind_at(image, HEADER, "HD", &header) ? link_of(image, &header, 0) : 0;
    if (!kind_at(image, *dg, "DG", &data_group))
        return (struct names){0};
    *dg = link_of(image, &data_group, 0);
    uint64_t cg = link_of(image, &data_group, 1);
    struct names names = {.group = name_of(image, cg, "CG")};
    if (kind_at(image, cg, "CG", &group))
        names.channel = name_of(image, link_of(image, &group, 1), "CN");
    return names;
}

/* The seventh link of a CG, under bit 3 of its flags. */
static uint64_t master_of(struct image image, const struct block *group)
{
    return data_u64(image, group, 16) & 8 ? link_of(image, group, 6) : 0;
}

size_t columns_of(struct image image, struct column *columns, size_t most)
{
    struct block header, data_group, group;
    size_t count = 0;
    uint64_t dg = kind_at(image, HEADER, "HD", &header) ? link_of(image, &header, 0) : 0;
    for (; count < most && kind_at(image, dg, "DG", &data_group); dg = link_of(image, &data_group, 0)) {
        struct column *c = &columns[count++];
        *c = (struct column){.group = link_of(image, &data_group, 1)};
        if (!kind_at(image, c->group, "CG", &group))
            continue;
        c->name = name_of(image, link_of(image, &group, 1), "CN");
        c->master = master_of(image, &group);
    }
    return count;
}

/* ---- records */

uint64_t shared_records(struct image image)
{
    struct block header, data_group, group;
    int left = MOST_BLOCKS;
    uint64_t records = 0, most = image.length / 8;
    uint64_t dg = kind_at(image, HEADER, "HD", &header) ? link_of(image, &header, 0) : 0;
    for (; --left > 0 && kind_at(image, dg, "DG", &data_group); dg = link_of(image, &data_group, 0)) {
        uint64_t cg = data_u8(image, &data_group, 0) ? link_of(image, &data_group, 1) : 0;
        for (; --left > 0 && kind_at(image, cg, "CG", &group); cg = link_of(image, &group, 0)) {
            uint64_t cycles = data_u64(image, &group, 8);
            records = cycles < most - records ? records + cycles : most;
        }
    }
    return records;
}

/* ---- where a byte lies */

/* Blocks of a result lie one after another, with zeros between them. */
bool block_around(struct image image, uint64_t byte, struct block *found)
{
    struct block next;
    bool any = false;
    for (uint64_t at = HEADER; at <= byte; at = next.at + next.length) {
        for (int gap = 0; gap < MOST_GAP && at < image.length && image.bytes[at] == 0; gap++)
            at++;
        if (at > byte || !block_at(image, at, &next))
            break;
        *found = next;
        any = true;
    }
    return any;
}
