#define _GNU_SOURCE
#include "options.h"

#include <errno.h>
#include <getopt.h>
#include <stdio.h>
#include <stdlib.h>
#include <string.h>
#include <unistd.h>

#include "messages.h"
#include "report.h"
#include "sitaungo.h"

#define DEFAULT_BLOCK_SIZE 4194304
#define DEFAULT_UNIT 8

static const char usage[] =
    "usage: mdf-columns RECORDING RESULT [OPTION]...\n"
    "       mdf-columns -d FOLDER RECORDING... [OPTION]...\n"
    "       mdf-columns --check RECORDING RESULT [OPTION]...\n"
    "       mdf-columns --sheet FILE\n"
    "       mdf-columns --take-out COLUMNS FILE NEW [OPTION]...\n"
    "\n"
    "Converts the row-oriented MDF 4 file RECORDING into the column-oriented MDF 4.20 file RESULT, or each RECORDING into\n"
    "a file of its name in FOLDER; or holds RESULT to its RECORDING; or prints the inventory sheet of the column file FILE;\n"
    "or writes the column file FILE without some of its COLUMNS into NEW.\n"
    "\n"
    "  --block-size BYTES  payload of a data block, about; 4194304 if not given\n"
    "  --check             convert nothing: read RESULT back and hold it to the conversion of RECORDING made anew\n"
    "  --complete          refuse a recording of which a channel would be left out (status 4)\n"
    "  -d FOLDER           several recordings, each into a file of its name in FOLDER\n"
    "  --force             replace RESULT if it exists\n"
    "  --in-place          store RESULT under its name from the start: it is refused (5) as long as it isn't whole\n"
    "  --json FILE         write what was done, a line of JSON for each recording; - is standard output\n"
    "  --listing           print a line for each column and each channel left out\n"
    "  --photos            keep references of channels to attachments\n"
    "  --quiet             print neither phases nor the line of success\n"
    "  --resume            pass over a RESULT that is there and is the conversion of RECORDING\n"
    "  --sha256            print the digest of the stored bytes, read back, as sha256sum does\n"
    "  --share-time        groups with equal time channels get one time column\n"
    "  --sheet             convert nothing: print pages of 60 lines with a line for each column of FILE\n"
    "  --take-out COLUMNS  convert nothing: write NEW, which has the other columns of FILE; COLUMNS are numbers, ranges as 7-12\n"
    "                      and names, parted by commas, or = and one name; --unit, --force, --verify, --sha256 go with it\n"
    "  --types FILE        treat channel types as the table in FILE says: a count from 1 to 7, as many types, as many treatments,\n"
    "                      a byte each: 0 keep, 1 omit, 2 store as type 0; else type 4 is omitted, 5 stored as 0, any other kept\n"
    "  --unit BYTES        columns and signal data start on multiples of it, a power of two from 8 to 4096; 8 if not given\n"
    "  --verify            check before RESULT gets its name\n"
    "  --help, --version   print this, or the version\n"
    "\n"
    "Status: 0 done; 1 failed; 2 RECORDING or FILE is refused; 3 RESULT is there and whole, but something after that failed;\n"
    "4 channels would be left out; 5 what was read back is not the conversion. With 1, 2 and 4 RESULT is as it was, but for\n"
    "--in-place over an old one: with 1 that may be cut off, which is said. All of this goes for NEW too.\n";

__attribute__((noreturn)) static void misused(const char *why)
{
    if (why)
        (void)say("%s", why);
    (void)!write_all(STDERR_FILENO, usage, sizeof usage - 1);
    exit(STATUS_FAILED);
}

/* Decimal digits only. A number that can't be a block size or a unit is left to the conversion, which refuses it. */
static uint64_t parse_bytes(const char *option, const char *text)
{
    uint64_t bytes = 0;
    bool good = *text != '\0';
    for (; *text && good; text++) {
        uint64_t digit = (uint64_t)(*text - '0');
        good = *text >= '0' && *text <= '9' && bytes <= (UINT64_MAX - digit) / 10;
        bytes = 10 * bytes + digit;
    }
    if (!good) {
        (void)say("%s needs a number of bytes, in digits, below 2^64", option);
        misused(NULL);
    }
    return bytes;
}

/* The table's bytes as they are: a wrong one is left to the conversion. */
static void read_types(struct choices *c, const char *path)
{
    FILE *file = fopen(path, "re");
    if (file)
        c->types_length = fread(c->types, 1, sizeof c->types, file);
    if (!file || ferror(file))
        fail("can't read the table of treatments %s: %s", path, strerror(errno));
    fclose(file);
}

enum {
    WORD = 1, BLOCK_SIZE = 256, CHECK, COMPLETE, FORCE, IN_PLACE, JSON, LISTING, PHOTOS, QUIET, RESUME, SHA256, SHARE_TIME, SHEET, TAKE_OUT, TYPES, UNIT,
    VERIFY, HELP, VERSION
};

static const struct option known[] = {
    {"block-size", required_argument, NULL, BLOCK_SIZE}, {"check", no_argument, NULL, CHECK}, {"complete", no_argument, NULL, COMPLETE},
    {"folder", required_argument, NULL, 'd'}, {"force", no_argument, NULL, FORCE}, {"in-place", no_argument, NULL, IN_PLACE},
    {"json", required_argument, NULL, JSON}, {"listing", no_argument, NULL, LISTING}, {"photos", no_argument, NULL, PHOTOS},
    {"quiet", no_argument, NULL, QUIET}, {"resume", no_argument, NULL, RESUME}, {"sha256", no_argument, NULL, SHA256},
    {"share-time", no_argument, NULL, SHARE_TIME}, {"sheet", no_argument, NULL, SHEET}, {"take-out", required_argument, NULL, TAKE_OUT},
    {"types", required_argument, NULL, TYPES}, {"unit", required_argument, NULL, UNIT}, {"verify", no_argument, NULL, VERIFY}, {"help", no_argument, NULL, HELP},
    {"version", no_argument, NULL, VERSION}, {NULL, 0, NULL, 0},
};

/* The options that go with --take-out. */
static bool goes_with_taking(int option)
{
    return option == WORD || option == QUIET || option == TAKE_OUT || option == UNIT || option == FORCE || option == VERIFY || option == SHA256;
}

static void take(struct options *o, int option)
{
    o->of_conversion |= option != WORD && option != QUIET && option != SHEET;
    o->only_conversion |= !goes_with_taking(option);
    switch (option) {
    case WORD: o->recordings[o->count++] = optarg; break;
    case 'd': o->folder = optarg; break;
    case BLOCK_SIZE: o->choices.block_size = parse_bytes("--block-size", optarg); break;
    case CHECK: o->check = true; break;
    case COMPLETE: o->complete = true; break;
    case FORCE: o->force = true; break;
    case IN_PLACE: o->in_place = true; break;
    case JSON: o->json = optarg; break;
    case LISTING: o->listing = true; break;
    case PHOTOS: o->choices.photos = true; break;
    case QUIET: o->quiet = true; break;
    case RESUME: o->resume = true; break;
    case SHA256: o->digest = true; break;
    case SHARE_TIME: o->choices.share_time = true; break;
    case SHEET: o->sheet = true; break;
    case TAKE_OUT: o->columns[o->columns_count++] = optarg; break;
    case TYPES: o->types = optarg; break;
    case UNIT: o->choices.unit = parse_bytes("--unit", optarg); break;
    case VERIFY: o->verify = true; break;
    case HELP: print(usage, sizeof usage - 1); exit(0);
    case VERSION: print_line("mdf-columns %s", SITAUNGO_VERSION); exit(0);
    default: misused(NULL);
    }
}

static void check_options(const struct options *o)
{
    if (o->sheet && o->of_conversion)
        misused("--sheet converts nothing: only --quiet goes with it");
    if (o->sheet && o->count != 1)
        misused("--sheet needs one FILE");
    if (o->columns_count > 0 && o->only_conversion)
        misused("--take-out converts nothing: only --unit, --force, --verify, --sha256 and --quiet go with it");
    if (o->columns_count > 0 && o->count != 2)
        misused("--take-out needs a FILE and the name of a NEW one");
    if (o->check && (o->force || o->resume || o->verify || o->in_place))
        misused("--check converts nothing: --force, --resume, --verify and --in-place don't go with it");
    if (o->in_place && o->verify)
        misused("--in-place gives RESULT its name from the start: --verify doesn't go with it, --check does afterwards");
    if (o->listing && o->json && strcmp(o->json, "-") == 0)
        misused("--listing and --json - both need standard output");
    if (o->folder && o->count == 0)
        misused("a RECORDING is needed");
    if (!o->folder && !o->sheet && o->count != 2)
        misused("a RECORDING and a RESULT are needed");
}

/* ---- columns to take out */

/* Decimal digits up to `end`, below 2^64; false where there is something else. */
static bool parse_number(const char *at, const char *end, uint64_t *number)
{
    bool good = at < end;
    for (*number = 0; at < end && good; at++) {
        uint64_t digit = (uint64_t)(*at - '0');
        good = *at >= '0' && *at <= '9' && *number <= (UINT64_MAX - digit) / 10;
        *number = 10 * *number + digit;
    }
    return good;
}

/* A number, two with a - between them, else a name. */
static void parse_item(const char *at, const char *end, struct columns_word *word)
{
    const char *dash = memchr(at, '-', (size_t)(end - at));
    word->name = (struct text){NULL, 0};
    if (parse_number(at, end, &word->first))
        word->last = word->first;
    else if (!dash || !parse_number(at, dash, &word->first) || !parse_number(dash + 1, end, &word->last))
        word->name = (struct text){(const uint8_t *)at, (size_t)(end - at)};
}

bool next_columns(const struct options *o, struct columns_word *word)
{
    if (word->word >= o->columns_count)
        return false;
    const char *front = o->columns[word->word], *at = word->at ? word->at : front, *end = strchrnul(at, ',');
    if (*front == '=') {
        end = front + strlen(front);
        word->name = (struct text){(const uint8_t *)front + 1, (size_t)(end - front - 1)};
    } else {
        parse_item(at, end, word);
    }
    word->word += *end == '\0';
    word->at = *end == '\0' ? NULL : end + 1;
    return true;
}

static void check_columns(const struct options *o)
{
    struct columns_word word = {0};
    while (next_columns(o, &word))
        if (word.name.bytes ? word.name.length == 0 : word.first > word.last)
            misused("--take-out needs columns: numbers, ranges as 7-12 or names, parted by commas, or = and one name");
}

/* A leading - takes the words in their order, whether or not POSIXLY_CORRECT is set. */
struct options parse(int count, char **words)
{
    struct options o = {
        .choices = {.block_size = DEFAULT_BLOCK_SIZE, .unit = DEFAULT_UNIT}, .recordings = calloc((size_t)count + 1, sizeof *words),
        .columns = calloc((size_t)count + 1, sizeof *o.columns),
    };
    if (!o.recordings || !o.columns)
        fail("no memory for the words");
    for (int c; (c = getopt_long(count, words, "-d:", known, NULL)) != -1;)
        take(&o, c);
    for (; optind < count; optind++)
        o.recordings[o.count++] = words[optind];
    check_options(&o);
    check_columns(&o);
    if (o.types)
        read_types(&o.choices, o.types);
    if (!o.folder && !o.sheet)
        o.result = o.recordings[--o.count];
    return o;
}
