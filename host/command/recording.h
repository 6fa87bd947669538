/* A recording, or a column file that is read as one is: mapped into memory, read only. */
#ifndef RECORDING_H
#define RECORDING_H

#include <stdbool.h>
#include <stddef.h>
#include <stdint.h>
#include <sys/stat.h>

struct recording {
    const char *what; /* "recording" or "column file" */
    const char *path;
    int descriptor;
    struct stat found; /* as it was when it was opened */
    const uint8_t *bytes;
    size_t length; /* the whole file; of a recording over the limit, one byte more than the limit */
};

/* Opens and maps it, or fails. */
struct recording open_recording(const char *path);
struct recording open_column_file(const char *path);

/* Fails if the file was written to, cut off or given another name since it was opened, or if its path leads to another one. */
void check_unchanged(const struct recording *recording);

/* One file, by device and file number; one file that was not changed, by size and times of change. */
bool same_file(const struct stat *a, const struct stat *b);
bool same_state(const struct stat *a, const struct stat *b);

#endif
