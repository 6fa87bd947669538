#define _GNU_SOURCE
#include "report.h"

#include <errno.h>
#include <fcntl.h>
#include <inttypes.h>
#include <stdarg.h>
#include <stdio.h>
#include <stdlib.h>
#include <string.h>
#include <unistd.h>

#include "blocks.h"
#include "json.h"
#include "messages.h"
#include "temporary.h"
#include "text.h"

/* How every report begins. */
#define FRONT "{\"mdf-columns\": \""

enum { NAME_SHOWN = 200 };

/* ---- channels left out */

static struct image image_of(const struct recording *r)
{
    return (struct image){r->bytes, r->length};
}

/* A name in quotes, cut to what a line should have. */
static const char *quoted(struct text t, char to[NAME_SHOWN + 3])
{
    snprintf(to, NAME_SHOWN + 3, "\"%.*s\"", t.length < NAME_SHOWN ? (int)t.length : NAME_SHOWN, t.bytes ? (const char *)t.bytes : "");
    return to;
}

/* Reason 1 is about a group: its columns name no time. */
static bool say_omission(struct omission o, struct names names)
{
    char channel[NAME_SHOWN + 3], group[NAME_SHOWN + 3];
    const char *what = o.reason == SITAUNGO_OMITTED_REMOTE_MASTER ? "the time" : quoted(names.channel, channel);
    return say("omitted %s of group %s at %" PRIu64 ": %s (reason %" PRIu64 ")", what, quoted(names.group, group), o.address,
        words_of_reason(o.reason), o.reason);
}

bool say_omissions(const struct recording *r)
{
    for (uint64_t k = 0; k < omission_count(); k++)
        if (!say_omission(omission_at(k), names_of(image_of(r), omission_at(k).address)))
            return false;
    return true;
}

/* ---- parts of the report */

static FILE *begin(char **text, size_t *length)
{
    FILE *to = open_memstream(text, length);
    if (!to)
        fail("no memory for the report: %s", strerror(errno));
    return to;
}

static void end(FILE *to)
{
    bool bad = ferror(to);
    if (fclose(to) != 0 || bad)
        fail("no memory for the report");
}

static void put_name(FILE *to, const char *name, struct text t)
{
    json_name(to, name);
    if (t.bytes)
        json_string(to, t.bytes, t.length);
    else
        fputs("null", to);
}

/* One line of the listing: number, t or s, data bytes, invalidation byte, records, blocks, bytes of payload and signal data, master column or -. */
static void put_column(FILE *to, const char *line, struct names names)
{
    static const char *const fields[] = {"data_bytes", "invalidation_bytes", "records", "blocks", "bytes"};
    char *at;
    fprintf(to, "{\"number\": %" PRIu64, (uint64_t)strtoull(line, &at, 10));
    put_name(to, "name", names.channel);
    put_name(to, "group", names.group);
    json_text(to, "kind", at[1] == 't' ? "time" : "signal");
    at += 2;
    for (size_t i = 0; i < sizeof fields / sizeof *fields; i++)
        json_number(to, fields[i], strtoull(at, &at, 10));
    json_name(to, "master");
    if (at[1] == '-')
        fputs("null}", to);
    else
        fprintf(to, "%" PRIu64 "}", (uint64_t)strtoull(at, NULL, 10));
}

char *columns_json(const char *listing, const uint8_t *result, uint64_t length)
{
    char *text, *rest;
    size_t size;
    struct image image = {result, length};
    uint64_t dg = 0, count = strtoull(listing + strlen("columns "), &rest, 10);
    FILE *to = begin(&text, &size);
    fputc('[', to);
    for (uint64_t k = 0; k < count && *rest == '\n'; k++) {
        const char *line = rest + 1;
        fputs(k > 0 ? ", " : "", to);
        put_column(to, line, next_column_names(image, &dg));
        rest = strchrnul(line, '\n');
    }
    fputc(']', to);
    end(to);
    return text;
}

char *omissions_json(const struct recording *r)
{
    char *text;
    size_t size;
    FILE *to = begin(&text, &size);
    fputc('[', to);
    for (uint64_t k = 0; k < omission_count(); k++) {
        struct omission o = omission_at(k);
        struct names names = names_of(image_of(r), o.address);
        fprintf(to, "%s{\"address\": %" PRIu64, k > 0 ? ", " : "", o.address);
        put_name(to, "name", names.channel);
        put_name(to, "group", names.group);
        json_number(to, "reason", o.reason);
        json_text(to, "words", words_of_reason(o.reason));
        fputc('}', to);
    }
    fputc(']', to);
    end(to);
    return text;
}

static void put_counts(FILE *to, const struct sitaungo_outcome *a)
{
    json_name(to, "report");
    fprintf(to, "{\"source_groups\": %" PRIu64, a->source_groups);
    json_number(to, "time_groups", a->time_groups);
    json_number(to, "signal_groups", a->signal_groups);
    json_number(to, "shared_time_groups", a->shared_time_groups);
    json_number(to, "data_blocks", a->data_blocks);
    json_number(to, "metadata_size", a->metadata_size);
    json_number(to, "file_size", a->file_size);
    fputc('}', to);
}

static void put_refusal(FILE *to, const struct sitaungo_outcome *a)
{
    json_name(to, "refusal");
    fprintf(to, "{\"number\": %" PRIu64, a->number);
    json_number(to, "place", a->place);
    json_text(to, "words", words_of_refusal(a->number));
    fputc('}', to);
}

static void put_difference(FILE *to, const struct difference *d)
{
    json_name(to, "difference");
    fprintf(to, "{\"at\": %" PRIu64, d->at);
    json_text(to, "place", d->place);
    json_number(to, "result_bytes", d->bytes);
    fputc('}', to);
}

/* The table of treatments as a list of its bytes, empty without one. */
static void put_choices(FILE *to, const struct choices *c)
{
    json_number(to, "block_size", c->block_size);
    json_number(to, "unit", c->unit);
    json_bool(to, "share_time", c->share_time);
    json_bool(to, "photos", c->photos);
    json_name(to, "types");
    fputc('[', to);
    for (size_t i = 0; i < c->types_length; i++)
        fprintf(to, "%s%u", i > 0 ? ", " : "", c->types[i]);
    fputc(']', to);
}

static void put_report(FILE *to, const struct done *d)
{
    char when[WHEN];
    write_time(when, d->lent->time);
    fputs(FRONT SITAUNGO_VERSION "\"", to);
    json_text(to, "outcome", d->outcome);
    json_number(to, "status", (uint64_t)d->status);
    json_text(to, "recording", d->recording->path);
    json_number(to, "recording_bytes", (uint64_t)d->recording->found.st_size);
    json_text(to, "result", d->result);
    put_choices(to, &d->lent->choices);
    json_text(to, "time", when);
    if (d->answer.accepted)
        put_counts(to, &d->answer);
    if (d->columns)
        json_name(to, "columns"), fputs(d->columns, to);
    if (d->omissions)
        json_name(to, "omissions"), fputs(d->omissions, to);
    if (d->status == STATUS_REFUSED)
        put_refusal(to, &d->answer);
    if (d->difference.found)
        put_difference(to, &d->difference);
    if (*d->digest)
        json_text(to, "sha256", d->digest);
    fputs("}\n", to);
}

/* ---- where it goes */

static bool is_report(const struct target *t)
{
    char front[sizeof FRONT - 1];
    int file = openat(t->folder, t->name, O_RDONLY | O_NOFOLLOW | O_NONBLOCK | O_CLOEXEC);
    ssize_t n = file < 0 ? -1 : read(file, front, sizeof front);
    if (file >= 0)
        close(file);
    return n == 0 || (n == sizeof front && memcmp(front, FRONT, sizeof front) == 0);
}

void open_sink(struct sink *s, const char *path, bool force)
{
    s->wanted = path;
    s->standard_output = path && strcmp(path, "-") == 0;
    if (!path || s->standard_output)
        return;
    aim_at(&s->file, path, "report", NULL);
    s->file.replaces = force || (s->file.exists && is_report(&s->file));
    check_target(&s->file);
    make_temporary(&s->file, 0);
}

static void write_report(struct sink *s, char *text, size_t length)
{
    if (!write_all(s->standard_output ? STDOUT_FILENO : s->file.descriptor, text, length))
        fail("the report can't be written to %s: %s", s->standard_output ? "standard output" : s->file.path, strerror(errno));
    free(text);
}

void add_report(struct sink *s, const struct done *d)
{
    char *text;
    size_t length;
    if (!s->wanted)
        return;
    FILE *to = begin(&text, &length);
    put_report(to, d);
    end(to);
    write_report(s, text, length);
}

void add_failure(struct sink *s, const char *recording, int status)
{
    char *text;
    size_t length;
    if (!s->wanted)
        return;
    FILE *to = begin(&text, &length);
    fputs(FRONT SITAUNGO_VERSION "\"", to);
    json_text(to, "outcome", "failed");
    json_number(to, "status", (uint64_t)status);
    json_text(to, "recording", recording);
    fputs("}\n", to);
    end(to);
    write_report(s, text, length);
}

void close_sink(struct sink *s)
{
    if (!s->wanted || s->standard_output)
        return;
    finish_temporary(&s->file, 0);
    name_target(&s->file, false);
    if (!sync_folder(&s->file))
        fail("can't sync the folder %s: %s", s->file.folder_path, strerror(errno));
}

/* ---- standard output */

void print(const char *bytes, size_t length)
{
    if (!write_all(STDOUT_FILENO, bytes, length))
        fail("standard output can't be written: %s", strerror(errno));
}

void print_line(const char *format, ...)
{
    char *text;
    va_list arguments;
    va_start(arguments, format);
    int n = vasprintf(&text, format, arguments);
    va_end(arguments);
    if (n < 0)
        fail("no memory for a line");
    make_plain(text, (size_t)n);
    text[n] = '\n'; /* in place of the zero byte */
    print(text, (size_t)n + 1);
    free(text);
}

void print_digest(const char *digest, const char *path)
{
    char *text;
    size_t length;
    FILE *to = begin(&text, &length);
    bool escaped = strpbrk(path, "\\\n\r");
    fprintf(to, "%s%s  ", escaped ? "\\" : "", digest);
    for (const char *at = path; *at; at++)
        if (*at == '\\')
            fputs("\\\\", to);
        else if (*at == '\n' || *at == '\r')
            fputs(*at == '\n' ? "\\n" : "\\r", to);
        else
            fputc(*at, to);
    fputc('\n', to);
    end(to);
    print(text, length);
    free(text);
}
