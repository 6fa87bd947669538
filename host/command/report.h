/* What was done: on standard output in lines, and as one line of JSON. */
#ifndef REPORT_H
#define REPORT_H

#include <stdbool.h>
#include <stdint.h>

#include "conversion.h"
#include "recording.h"
#include "target.h"

enum { DIGEST_TEXT = 65 };

/* Where RESULT first differs from the conversion. */
struct difference {
    bool found;
    uint64_t at;
    uint64_t bytes; /* that RESULT has */
    char place[64]; /* in words */
};

struct done {
    const char *outcome; /* in a word */
    int status;
    const struct recording *recording;
    const char *result;
    const struct lent *lent;
    struct sitaungo_outcome answer;
    struct difference difference;
    char digest[DIGEST_TEXT]; /* SHA-256 of what was read back, in hexadecimal digits; "" without --sha256 */
    char *columns;            /* their JSON, or NULL */
    char *omissions;
};

/* Where reports go: nowhere, to standard output, or into a file that is made as RESULT is. */
struct sink {
    bool wanted, standard_output;
    struct target file;
};

/* Says each channel that is left out, with names, address and reason; false where one can't be said. */
bool say_omissions(const struct recording *r);

/* The JSON of the columns that the listing has, with names read from the result; of the channels left out. */
char *columns_json(const char *listing, const uint8_t *result, uint64_t length);
char *omissions_json(const struct recording *r);

/* Aims the sink at a file (`-`: standard output; NULL: none). A file that is there is replaced if it is such a report, or with --force. */
void open_sink(struct sink *s, const char *path, bool force);

/* Adds a line to it. */
void add_report(struct sink *s, const struct done *d);

/* The same for one of several recordings of which no more is known than its status. */
void add_failure(struct sink *s, const char *recording, int status);

/* Syncs the file and gives it its name; fails where that can't be done. */
void close_sink(struct sink *s);

/* On standard output; where that can't be written, the command fails. A line is made plain. */
void print(const char *bytes, size_t length);
__attribute__((format(printf, 1, 2))) void print_line(const char *format, ...);

/* Digest and name as sha256sum prints them. */
void print_digest(const char *digest, const char *path);

#endif
