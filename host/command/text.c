#include "text.h"

#include <stdio.h>
#include <string.h>

/* Bytes that the first one announces, and the value bits that it holds. */
static size_t announced(uint8_t first, uint32_t *value)
{
    if (first < 0x80)
        return *value = first, 1;
    if (first >= 0xC2 && first < 0xE0)
        return *value = first & 0x1F, 2;
    if (first >= 0xE0 && first < 0xF0)
        return *value = first & 0x0F, 3;
    if (first >= 0xF0 && first < 0xF5)
        return *value = first & 0x07, 4;
    return 0;
}

size_t utf8_bytes(const uint8_t *at, size_t left)
{
    static const uint32_t least[] = {0, 0, 0x80, 0x800, 0x10000};
    uint32_t value = 0;
    size_t n = left > 0 ? announced(at[0], &value) : 0;
    if (n > left)
        return 0;
    for (size_t i = 1; i < n; i++) {
        if ((at[i] & 0xC0) != 0x80)
            return 0;
        value = value << 6 | (at[i] & 0x3F);
    }
    bool surrogate = value >= 0xD800 && value < 0xE000;
    return n > 1 && (value < least[n] || surrogate || value > 0x10FFFF) ? 0 : n;
}

static bool is_control(const uint8_t *at, size_t n)
{
    return n == 1 ? at[0] < 32 || at[0] == 127 : n == 2 && at[0] == 0xC2 && at[1] < 0xA0;
}

void make_plain(char *bytes, size_t length)
{
    for (size_t i = 0; i < length;) {
        const uint8_t *at = (const uint8_t *)bytes + i;
        size_t n = utf8_bytes(at, length - i), step = n > 0 ? n : 1;
        if (n == 0 || is_control(at, n))
            memset(bytes + i, '?', step);
        i += step;
    }
}

void copy_plain(char *to, size_t room, const char *from)
{
    snprintf(to, room, "%s", from);
    make_plain(to, strlen(to));
}
