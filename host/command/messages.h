/* What the command says, and how it ends. A line begins with the command's name. */
#ifndef MESSAGES_H
#define MESSAGES_H

#include <stdbool.h>
#include <stddef.h>
#include <stdint.h>

enum {
    STATUS_DONE = 0,
    STATUS_FAILED = 1,     /* nothing was made: RESULT is as it was; or, an old one with --in-place, cut off */
    STATUS_REFUSED = 2,    /* the recording, or with --sheet and --take-out the column file, is refused: RESULT is as it was */
    STATUS_STANDING = 3,   /* RESULT is there and whole, but something after that failed */
    STATUS_INCOMPLETE = 4, /* channels would be left out, with --complete: RESULT is as it was */
    STATUS_DIFFERENT = 5,  /* what was read back is not the conversion */
};

/* With --quiet, or for several recordings, no phase is said. */
void keep_quiet(void);

/* A phase, on standard error. */
__attribute__((format(printf, 1, 2))) void say_phase(const char *format, ...);

/* Something to know, on standard error, also with --quiet. False where it can't be written. */
__attribute__((format(printf, 1, 2))) bool say(const char *format, ...);

/* The message; temporary files are removed; status 1, or 3 with the word that RESULT stands. Of one that is cut off that is said. */
__attribute__((format(printf, 1, 2), noreturn)) void fail(const char *format, ...);

/* The refusals and reasons of documents 01 and 02 in plain words. */
const char *words_of_refusal(uint64_t number);
const char *words_of_reading(uint64_t number); /* of a column file that is read */
const char *words_of_taking(uint64_t number);  /* of one that columns are taken out of */
const char *words_of_reason(uint64_t reason);

/* Writes it all to a descriptor; false where that fails, with errno. */
bool write_all(int descriptor, const void *bytes, size_t length);

#endif
