/* mdf-columns RECORDING RESULT: converts one row-oriented MDF 4 recording into one column-oriented MDF 4.20 file.
 *
 * The conversion is the proved one of libsitaungo. This program maps the recording, asks for the result's size, lends the conversion a
 * mapped temporary file of that size, syncs it and gives it RESULT's name (job.c); with --in-place it lends RESULT itself to a conversion
 * in steps. With --sheet it prints the sheet of a column file (sheet.c), with --take-out it writes one without some of its columns (taking.c). README.md has
 * options and statuses. */
#define _GNU_SOURCE
#include <fcntl.h>
#include <sys/stat.h>
#include <unistd.h>

#include "batch.h"
#include "job.h"
#include "messages.h"
#include "options.h"
#include "recording.h"
#include "sheet.h"
#include "signals.h"
#include "taking.h"

/* Static, since signal handlers look at the sink's target. */
static struct options o;
static struct sink sink;

/* A descriptor 0, 1 or 2 that is closed would become that of a file opened later, and messages would go there. */
static void hold_standard_descriptors(void)
{
    int file;
    do
        file = open("/dev/null", O_RDONLY);
    while (file >= 0 && file <= STDERR_FILENO);
    if (file >= 0)
        close(file);
}

/* A report never takes the place of a recording, by whatever name. */
static void check_report(void)
{
    struct stat found;
    for (int i = 0; sink.file.exists && i < o.count; i++)
        if (stat(o.recordings[i], &found) == 0 && same_file(&found, &sink.file.old))
            fail("%s is the recording itself; the report needs another name", o.json);
}

int main(int count, char **words)
{
    hold_standard_descriptors();
    catch_signals();
    o = parse(count, words);
    if (o.quiet)
        keep_quiet();
    if (o.sheet)
        return print_sheet(o.recordings[0]);
    if (o.columns_count > 0)
        return run_taking(&o);
    open_sink(&sink, o.json, o.force);
    check_report();
    int status = o.folder ? run_batch(&o, &sink) : run_job(&o, o.recordings[0], o.result, &sink);
    close_sink(&sink);
    return status;
}
