/* The command line. */
#ifndef OPTIONS_H
#define OPTIONS_H

#include <stdbool.h>

#include "blocks.h"
#include "conversion.h"

struct options {
    char **recordings; /* with --sheet and --take-out the column file */
    int count;
    const char *result; /* NULL: each goes into the folder under its own name */
    const char *folder;
    const char *json;
    const char *types; /* the file of the table of treatments, or NULL */
    struct choices choices;
    const char **columns; /* of --take-out, each as it was given */
    int columns_count;
    bool force, resume, check, verify, complete, digest, in_place, listing, quiet, sheet;
    bool of_conversion;   /* an option was given that is about conversions or taking out */
    bool only_conversion; /* one that is about conversions alone */
};

/* Columns that --take-out names: a range of numbers, one of which may be the only one, or a name. */
struct columns_word {
    struct text name; /* without bytes: numbers */
    uint64_t first, last;
    int word;       /* which of the words is next, */
    const char *at; /* and where in it, NULL at its front */
};

/* The next of them, from a word that is all zero on; false after the last. */
bool next_columns(const struct options *o, struct columns_word *word);

/* What the words say; ends the command where they say nothing that can be done, or ask for help or version. */
struct options parse(int count, char **words);

#endif
