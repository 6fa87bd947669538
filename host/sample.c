/* Writes a sample recording of a rack: sample FILE [RECORDS].
 *
 * 300 channels in three groups of 100, each group in a DG of its own: RECORDS records (1,000 if not given), a tenth and a hundredth of them.
 * Channel 0 of a group is its time; 10, 20, .. 90 have an invalidation bit. Channel 99 of the second group is a synchronization
 * channel, which a conversion leaves out; channel 99 of the third holds texts in signal data. Channel k of group g has in record r
 *   v = (r (k + 1) + 1000 g + k) mod 2^20, cut to its bytes, or v / 8 as a float; invalid where (r + k) mod 7 is 0;
 *   the time r 10^g / 1000 s; the text "event r".
 * The data of a group lies in up to eight DT blocks. */
#include <stdint.h>
#include <stdio.h>
#include <stdlib.h>
#include <string.h>

enum { GROUPS = 3, CHANNELS = 100, FRAGMENTS = 8, UNITS = 5 };
enum { UNSIGNED = 0, FLOAT = 4, TEXT = 7 };           /* data types */
enum { VALUE = 0, VARIABLE = 1, MASTER = 2, SYNC = 4 }; /* channel types */

static struct {
    uint8_t *bytes;
    size_t used, room;
} file;

static uint64_t next_text; /* where it lies in the signal data */

/* ---- blocks */

static uint8_t *grow(size_t n)
{
    while (file.used + n > file.room) {
        file.room = file.room ? 2 * file.room : 1 << 20;
        file.bytes = realloc(file.bytes, file.room);
        if (!file.bytes) {
            fprintf(stderr, "sample: no memory\n");
            exit(1);
        }
    }
    uint8_t *at = file.bytes + file.used;
    memset(at, 0, n);
    file.used += n;
    return at;
}

static void put(uint8_t *at, uint64_t value, size_t n)
{
    for (size_t i = 0; i < n; i++)
        at[i] = (uint8_t)(value >> 8 * i);
}

static void put_at(uint64_t offset, uint64_t value, size_t n)
{
    put(file.bytes + offset, value, n);
}

/* A block at the next multiple of 8 with zeros for links and data; its offset. */
static uint64_t block(const char *kind, uint64_t links, uint64_t data)
{
    grow((8 - file.used % 8) % 8);
    uint64_t offset = file.used;
    uint8_t *at = grow(24 + 8 * links + data);
    memcpy(at, "##", 2);
    memcpy(at + 2, kind, 2);
    put(at + 8, 24 + 8 * links + data, 8);
    put(at + 16, links, 8);
    return offset;
}

static void link_to(uint64_t from, uint64_t k, uint64_t target)
{
    put_at(from + 24 + 8 * k, target, 8);
}

static uint64_t text_block(const char *kind, const char *text)
{
    uint64_t offset = block(kind, 0, strlen(text) / 8 * 8 + 8);
    memcpy(file.bytes + offset + 24, text, strlen(text));
    return offset;
}

/* ---- values */

/* Bytes and data type of a channel's values. */
static size_t width_of(int k)
{
    static const size_t widths[] = {8, 1, 2, 4, 4};
    return widths[k % 5];
}

static int type_of(int k)
{
    return k % 5 == 4 || k % 5 == 0 ? FLOAT : UNSIGNED;
}

static void put_float(uint8_t *at, double value, size_t n)
{
    float narrow = (float)value;
    if (n == 8)
        memcpy(at, &value, 8);
    else
        memcpy(at, &narrow, 4);
}

static int is_text(int g, int k)
{
    return g == 2 && k == 99;
}

static size_t bytes_of(int g, int k)
{
    return is_text(g, k) ? 8 : width_of(k);
}

static size_t event_text(char text[32], uint64_t r)
{
    return (size_t)snprintf(text, 32, "event %llu", (unsigned long long)r) + 1;
}

static void put_value(uint8_t *at, int g, int k, uint64_t r)
{
    static const double second[] = {1000, 100, 10};
    uint64_t v = (r * (uint64_t)(k + 1) + 1000 * (uint64_t)g + (uint64_t)k) % 1048576;
    char text[32];
    if (k == 0)
        put_float(at, (double)r / second[g], 8);
    else if (is_text(g, k)) {
        put(at, next_text, 8);
        next_text += 4 + event_text(text, r);
    } else if (type_of(k) == FLOAT)
        put_float(at, (double)v / 8, width_of(k));
    else
        put(at, v, width_of(k));
}

/* ---- a group */

static size_t samples_of(int g)
{
    size_t n = 0;
    for (int k = 0; k < CHANNELS; k++)
        n += bytes_of(g, k);
    return n;
}

static void put_record(uint8_t *at, int g, uint64_t r)
{
    uint8_t *inval = at + samples_of(g);
    for (int k = 0; k < CHANNELS; k++) {
        put_value(at, g, k, r);
        at += bytes_of(g, k);
        if (k % 10 == 0 && k > 0 && (r + (uint64_t)k) % 7 == 0)
            inval[k / 10 / 8] |= (uint8_t)(1 << k / 10 % 8);
    }
}

/* The DL over the DT blocks of a group's records. */
static uint64_t put_data(int g, uint64_t records)
{
    size_t size = samples_of(g) + 2;
    uint64_t fragments[FRAGMENTS], n = 0, each = records / FRAGMENTS + 1;
    for (uint64_t first = 0; first < records; first += each) {
        uint64_t count = records - first < each ? records - first : each;
        fragments[n] = block("DT", 0, count * size);
        for (uint64_t r = 0; r < count; r++)
            put_record(file.bytes + fragments[n] + 24 + r * size, g, first + r);
        n++;
    }
    uint64_t list = block("DL", 1 + n, 8 + 8 * n);
    for (uint64_t i = 0; i < n; i++) {
        link_to(list, 1 + i, fragments[i]);
        put_at(list + 24 + 8 * (1 + n) + 8 + 8 * i, i * each * size, 8);
    }
    put_at(list + 24 + 8 * (1 + n) + 4, n, 4);
    return list;
}

static uint64_t put_events(uint64_t records)
{
    char text[32];
    uint64_t length = 0;
    for (uint64_t r = 0; r < records; r++)
        length += 4 + event_text(text, r);
    uint64_t offset = block("SD", 0, length);
    uint8_t *at = file.bytes + offset + 24;
    for (uint64_t r = 0; r < records; r++) {
        size_t n = event_text(text, r);
        put(at, n, 4);
        memcpy(at + 4, text, n);
        at += 4 + n;
    }
    return offset;
}

static uint64_t put_channel(int g, int k, uint64_t next, size_t byte, const uint64_t units[UNITS], uint64_t conversion, uint64_t events)
{
    char name[32];
    snprintf(name, sizeof name, "rack.%d.%02d", g, k);
    uint64_t named = text_block("TX", name), cn = block("CN", 8, 72), data = cn + 24 + 64;
    int kind = k == 0 ? MASTER : is_text(g, k) ? VARIABLE : g == 1 && k == 99 ? SYNC : VALUE;
    link_to(cn, 0, next);
    link_to(cn, 2, named);
    link_to(cn, 4, k % 5 == 2 ? conversion : 0);
    link_to(cn, 5, is_text(g, k) ? events : 0);
    link_to(cn, 6, is_text(g, k) ? 0 : k == 0 ? units[0] : units[1 + k % (UNITS - 1)]);
    put_at(data, (uint64_t)kind, 1);
    put_at(data + 1, k == 0 || kind == SYNC, 1); /* synchronized with time */
    put_at(data + 2, (uint64_t)(is_text(g, k) ? TEXT : type_of(k)), 1);
    put_at(data + 4, byte, 4);
    put_at(data + 8, 8 * bytes_of(g, k), 4);
    if (k % 10 == 0 && k > 0) {
        put_at(data + 12, 2, 4);
        put_at(data + 16, (uint64_t)k / 10, 4);
    }
    return cn;
}

/* The DG of a group. */
static uint64_t put_group(int g, uint64_t records, uint64_t next, const uint64_t units[UNITS], uint64_t conversion, uint64_t source)
{
    static const char *const names[] = {"fast", "medium", "slow"};
    uint64_t data = put_data(g, records), events = g == 2 ? put_events(records) : 0, cn = 0;
    size_t byte = samples_of(g);
    for (int k = CHANNELS - 1; k >= 0; k--) {
        byte -= bytes_of(g, k);
        cn = put_channel(g, k, cn, byte, units, conversion, events);
    }
    uint64_t name = text_block("TX", names[g]), cg = block("CG", 6, 32), dg = block("DG", 4, 8);
    link_to(cg, 1, cn);
    link_to(cg, 2, name);
    link_to(cg, 3, source);
    put_at(cg + 24 + 48 + 8, records, 8);
    put_at(cg + 24 + 48 + 24, samples_of(g), 4);
    put_at(cg + 24 + 48 + 28, 2, 4);
    link_to(dg, 0, next);
    link_to(dg, 1, cg);
    link_to(dg, 2, data);
    return dg;
}

/* ---- the file */

static uint64_t put_source(void)
{
    uint64_t name = text_block("TX", "rack 1"), path = text_block("TX", "cell 4"), si = block("SI", 3, 8);
    link_to(si, 0, name);
    link_to(si, 1, path);
    put_at(si + 24 + 24, 4, 1); /* an I/O device */
    return si;
}

/* 0.5 + 0.25 x */
static uint64_t put_conversion(void)
{
    uint64_t cc = block("CC", 4, 24 + 16), data = cc + 24 + 32;
    put_at(data, 1, 1);
    put_at(data + 6, 2, 2);
    put_float(file.bytes + data + 24, 0.5, 8);
    put_float(file.bytes + data + 32, 0.25, 8);
    return cc;
}

static uint64_t put_history(void)
{
    uint64_t md = text_block("MD", "<FHcomment xmlns=\"http://www.asam.net/mdf/v4\"><TX>recorded</TX><tool_id>sample</tool_id>"
        "<tool_vendor>Sitaungo</tool_vendor><tool_version>1.0</tool_version></FHcomment>"), fh = block("FH", 2, 16);
    link_to(fh, 1, md);
    put_at(fh + 40, 1700000000000000000u, 8);
    return fh;
}

static uint64_t put_attachment(void)
{
    static const char content[] = "slot 1: amplifier\nslot 2: thermocouples\n";
    uint64_t name = text_block("TX", "rack.txt"), type = text_block("TX", "text/plain"), at = block("AT", 4, 40 + sizeof content - 1);
    link_to(at, 1, name);
    link_to(at, 2, type);
    put_at(at + 24 + 32, 1, 2); /* embedded */
    put_at(at + 24 + 32 + 24, sizeof content - 1, 8);
    put_at(at + 24 + 32 + 32, sizeof content - 1, 8);
    memcpy(file.bytes + at + 24 + 32 + 40, content, sizeof content - 1);
    return at;
}

static void put_recording(uint64_t records)
{
    static const char *const texts[UNITS] = {"s", "V", "A", "bar", "rpm"};
    uint64_t units[UNITS], counts[GROUPS] = {records, records / 10, records / 100}, dg = 0;
    memcpy(grow(64), "MDF     4.10    sample  ", 24);
    put_at(28, 410, 2);
    uint64_t hd = block("HD", 6, 32);
    for (int i = 0; i < UNITS; i++)
        units[i] = text_block("TX", texts[i]);
    uint64_t comment = text_block("MD", "<HDcomment><TX>sample recording of a rack</TX></HDcomment>");
    uint64_t source = put_source(), conversion = put_conversion(), history = put_history(), attachment = put_attachment();
    for (int g = GROUPS - 1; g >= 0; g--)
        dg = put_group(g, counts[g], dg, units, conversion, source);
    link_to(hd, 0, dg);
    link_to(hd, 1, history);
    link_to(hd, 3, attachment);
    link_to(hd, 5, comment);
    put_at(hd + 72, 1700000000000000000u, 8);
}

int main(int count, char **arguments)
{
    if (count < 2 || count > 3) {
        fprintf(stderr, "usage: sample FILE [RECORDS]\n");
        return 1;
    }
    put_recording(count == 3 ? strtoull(arguments[2], NULL, 10) : 1000);
    FILE *out = fopen(arguments[1], "wb");
    if (!out || fwrite(file.bytes, 1, file.used, out) != file.used || fclose(out) != 0) {
        perror(arguments[1]);
        return 1;
    }
    return 0;
}
