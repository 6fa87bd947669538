#define _GNU_SOURCE
#include "sheet.h"

#include <inttypes.h>
#include <stdio.h>

#include "messages.h"
#include "recording.h"
#include "report.h"
#include "sitaungo.h"

static char lines[SITAUNGO_SHEET_BYTES + 1]; /* the last byte stays 0 */

/* Sheet and refusal are believed of a file that didn't change meanwhile. */
int print_sheet(const char *path)
{
    uint64_t number, place;
    struct recording file = open_column_file(path);
    size_t length = sitaungo_sheet(file.bytes, file.length, (uint8_t *)lines, SITAUNGO_SHEET_BYTES);
    check_unchanged(&file);
    print(lines, length);
    if (sscanf(lines, "refused %" SCNu64 " place %" SCNu64, &number, &place) != 2)
        return STATUS_DONE;
    (void)say("%s: refused %" PRIu64 " place %" PRIu64 ": %s", path, number, place, words_of_reading(number));
    return STATUS_REFUSED;
}
