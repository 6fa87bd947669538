#include "json.h"

#include <inttypes.h>
#include <string.h>

#include "text.h"

void json_string(FILE *to, const void *bytes, size_t length)
{
    const uint8_t *at = bytes;
    fputc('"', to);
    for (size_t i = 0; i < length;) {
        size_t n = utf8_bytes(at + i, length - i);
        if (n == 0)
            fputs("\\ufffd", to);
        else if (n == 1 && (at[i] == '"' || at[i] == '\\'))
            fprintf(to, "\\%c", at[i]);
        else if (n == 1 && (at[i] < 32 || at[i] == 127))
            fprintf(to, "\\u%04x", at[i]);
        else
            fwrite(at + i, 1, n, to);
        i += n > 0 ? n : 1;
    }
    fputc('"', to);
}

void json_name(FILE *to, const char *name)
{
    fprintf(to, ", \"%s\": ", name);
}

void json_number(FILE *to, const char *name, uint64_t value)
{
    json_name(to, name);
    fprintf(to, "%" PRIu64, value);
}

void json_bool(FILE *to, const char *name, bool value)
{
    json_name(to, name);
    fputs(value ? "true" : "false", to);
}

void json_text(FILE *to, const char *name, const char *text)
{
    json_name(to, name);
    if (text)
        json_string(to, text, strlen(text));
    else
        fputs("null", to);
}
