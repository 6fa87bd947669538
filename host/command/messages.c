#define _GNU_SOURCE
#include "messages.h"

#include <errno.h>
#include <poll.h>
#include <stdarg.h>
#include <stdio.h>
#include <stdlib.h>
#include <string.h>
#include <unistd.h>

#include "signals.h"
#include "sitaungo.h"
#include "temporary.h"
#include "text.h"

enum { LINE = 16384 };

static bool quiet;

/* The refusals of documents 01 and 02 in plain words. A place is a byte of the recording, where the number has one. */
static const char *const refusals[] = {
    [SITAUNGO_REFUSED_LENT] = "the converter was called wrongly: work words, identification or history text",
    [SITAUNGO_REFUSED_BLOCK_SIZE] = "the block size is 0",
    [SITAUNGO_REFUSED_TOO_LARGE] = "the recording is larger than 4 GiB (4294967296 bytes)",
    [SITAUNGO_REFUSED_PAST_END] = "the recording ends too early: a block, a name, an attachment or data runs past its end",
    [SITAUNGO_REFUSED_NOT_MDF] = "this is not an MDF recording: it does not begin with \"MDF\" and five blanks",
    [SITAUNGO_REFUSED_VERSION_UNREADABLE] = "the MDF version can't be read",
    [SITAUNGO_REFUSED_VERSION] = "the MDF version is not supported: 4.10 is the lowest",
    [SITAUNGO_REFUSED_LINKS] = "a block is damaged: its links don't fit into its length",
    [SITAUNGO_REFUSED_BLOCK_LENGTH] = "a block is longer than 256 MiB (268435456 bytes)",
    [SITAUNGO_REFUSED_BLOCK] = "a link leads to a block that is not the HD, DG, CG or CN it should be, or that lacks links or data",
    [SITAUNGO_REFUSED_CIRCLE] = "a chain of blocks comes back to a block it has passed",
    [SITAUNGO_REFUSED_DATA_KIND] = "a data chain holds a block of another kind; compressed data (DZ) is not supported",
    [SITAUNGO_REFUSED_ID_SIZE] = "a data group's record ids have a size other than 0, 1, 2, 4 or 8 bytes",
    [SITAUNGO_REFUSED_GROUPS] = "a data group's records can't be told apart: equal or missing record ids, or DV blocks where only DT can be",
    [SITAUNGO_REFUSED_RECORD] = "a record ends early, runs from a DT into a DV block, or has an unknown id",
    [SITAUNGO_REFUSED_COPY] = "comments, units or conversions link to each other in a circle or over 64 deep",
    [SITAUNGO_REFUSED_HISTORY] = "a block of the file history has no links",
    [SITAUNGO_REFUSED_ATTACHMENT] = "an attachment is damaged: it has under 4 links, or more than fit",
    [SITAUNGO_REFUSED_LIMIT] = "the recording passes a limit: 512 data groups, groups or channels, 1024 data blocks, 256 lists in a chain, "
        "2048 copied blocks, 64 attachments, or blocks of a column",
    [SITAUNGO_REFUSED_OUTPUT] = "the output is too short for the result",
    [SITAUNGO_REFUSED_LIST] = "the omission list is too short",
    [SITAUNGO_REFUSED_COLUMN] = "the file has no such column",
    [SITAUNGO_REFUSED_RECORDS] = "the column has fewer records",
    [SITAUNGO_REFUSED_FORM] = "the file lacks the form of a column file, or the buffer has another length",
    [SITAUNGO_REFUSED_PLOT] = "a plot has over 256 entries, or an entry's bytes leave the destination",
    [SITAUNGO_REFUSED_UNIT] = "the unit is no power of two from 8 to 4096",
    [SITAUNGO_REFUSED_TYPES] = "the table of treatments has a wrong count or length, a type over 6 or twice, a treatment over 2, or one that its type "
        "can't have",
    [SITAUNGO_REFUSED_REFERENCE] = "a channel's reference to an attachment leads to none of the recording's attachments, or the channel has fewer links than "
        "it has references",
    [SITAUNGO_REFUSED_POSITION] = "a position is recalled that was never named",
    [SITAUNGO_REFUSED_NAME] = "a fifth name is given to a position, or one is named or recalled after the last store",
    [SITAUNGO_REFUSED_JOBS] = "a pass has no job, or over eight",
    [SITAUNGO_REFUSED_CAP] = "a pass has no store to give, or a job's cap is 0",
    [SITAUNGO_REFUSED_NUMBERS] = "a column that is to be taken out is given twice, or there is no such column",
    [SITAUNGO_REFUSED_NAMED] = "a column is to be taken out that is the time column of one that is kept",
};

/* Those that say something else of a column file. */
static const char *const reading[] = {
    [SITAUNGO_REFUSED_PAST_END] = "the file ends too early: a block, a name or data runs past its end",
    [SITAUNGO_REFUSED_NOT_MDF] = "this is not an MDF file: it does not begin with \"MDF\" and five blanks",
    [SITAUNGO_REFUSED_LIMIT] = "the file passes a limit: 512 data groups, groups or channels, 256 lists in a chain",
    [SITAUNGO_REFUSED_FORM] = "the file lacks the form of a column file",
};

/* Those that say something else where columns are taken out. */
static const char *const taking[] = {
    [SITAUNGO_REFUSED_LENT] = "the library was called wrongly: work words",
    [SITAUNGO_REFUSED_TOO_LARGE] = "the file is larger than 128 TiB",
    [SITAUNGO_REFUSED_PAST_END] = "the file ends too early: a block, a name, an attachment or data runs past its end",
    [SITAUNGO_REFUSED_LIMIT] = "the file passes a limit: 512 data groups, groups or channels, 256 lists in a chain, 2050 copied blocks, 64 attachments",
    [SITAUNGO_REFUSED_OUTPUT] = "the new file would be larger than 2^59 bytes",
    [SITAUNGO_REFUSED_FORM] = "the file lacks the form of a column file, signal data is no SD block, or a time column is none of the file's",
    [SITAUNGO_REFUSED_REFERENCE] = "a channel's reference to an attachment leads to none of the file's attachments, or the channel has fewer links than it has "
        "references",
};

static const char *const reasons[] = {
    [SITAUNGO_OMITTED_REMOTE_MASTER] = "the group's time channel lies in a group with another number of records, so its columns name no time column",
    [SITAUNGO_OMITTED_NO_FIT] = "the channel does not fit into its record",
    [SITAUNGO_OMITTED_MASTER] = "the channel is a second time channel of its group",
    [SITAUNGO_OMITTED_SYNC] = "the channel is a synchronization channel",
    [SITAUNGO_OMITTED_ARRAY] = "the channel is an array",
    [SITAUNGO_OMITTED_STRUCTURE] = "the channel is a structure of other channels",
    [SITAUNGO_OMITTED_STORAGE] = "the channel's values of variable length lie in a group of their own",
    [SITAUNGO_OMITTED_TYPE] = "the table of treatments omits the channel's type",
};

const char *words_of_refusal(uint64_t number)
{
    return number < sizeof refusals / sizeof *refusals && refusals[number] ? refusals[number] : "unknown refusal";
}

const char *words_of_reading(uint64_t number)
{
    return number < sizeof reading / sizeof *reading && reading[number] ? reading[number] : words_of_refusal(number);
}

const char *words_of_taking(uint64_t number)
{
    return number < sizeof taking / sizeof *taking && taking[number] ? taking[number] : words_of_reading(number);
}

const char *words_of_reason(uint64_t reason)
{
    return reason < sizeof reasons / sizeof *reasons && reasons[reason] ? reasons[reason] : "unknown reason";
}

bool write_all(int descriptor, const void *bytes, size_t length)
{
    const char *at = bytes;
    while (length > 0) {
        ssize_t n = write(descriptor, at, length);
        if (n < 0 && errno == EAGAIN)
            (void)poll(&(struct pollfd){.fd = descriptor, .events = POLLOUT}, 1, -1); /* a pipe or terminal that another made non-blocking */
        else if (n < 0 && errno != EINTR)
            return false;
        if (n > 0) {
            at += n;
            length -= (size_t)n;
        }
    }
    return true;
}

/* Formats to the end of a line, and cuts it there. */
static size_t add(char *line, size_t used, const char *format, va_list arguments)
{
    size_t room = LINE - 1 - used;
    int n = vsnprintf(line + used, room, format, arguments);
    return used + (n < 0 ? 0 : (size_t)n < room ? (size_t)n : room - 1);
}

static bool say_line(const char *format, va_list arguments)
{
    char line[LINE] = "mdf-columns: ";
    size_t end = add(line, strlen(line), format, arguments);
    make_plain(line, end);
    line[end] = '\n';
    return write_all(STDERR_FILENO, line, end + 1);
}

void keep_quiet(void)
{
    quiet = true;
}

void say_phase(const char *format, ...)
{
    if (quiet)
        return;
    va_list arguments;
    va_start(arguments, format);
    (void)say_line(format, arguments);
    va_end(arguments);
}

bool say(const char *format, ...)
{
    va_list arguments;
    va_start(arguments, format);
    bool said = say_line(format, arguments);
    va_end(arguments);
    return said;
}

void fail(const char *format, ...)
{
    va_list arguments;
    va_start(arguments, format);
    (void)say_line(format, arguments);
    va_end(arguments);
    if (result_changed())
        (void)say("%s", standing_words());
    drop_temporaries();
    exit(standing_status());
}
