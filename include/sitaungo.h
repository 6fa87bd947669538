/* Sitaungo: one row-oriented MDF 4 recording into one column-oriented MDF 4.20 file; reading such files and taking columns out of them.
 *
 * Library libsitaungo.a (host/staticlib), x86-64 Linux. The functions are proved: for every input, numbers, output, list, lines,
 * buffer, destination and work words are those of the definitions in crates/result/specs, crates/listing/specs, crates/file/specs, crates/sheet/specs,
 * crates/stores/specs, crates/passes/specs and crates/thin/specs. They allocate nothing, keep nothing between calls but what a conversion in steps hands back and has in its
 * words, open no file and always return; several threads may call them, each with slices of its own.
 *
 * What the caller owes, since no proof can see it:
 * - Each slice is a pointer and its true length in elements. A slice of uint64_t or of struct sitaungo_request lies at a multiple of 8. A slice of length 0 may have any pointer.
 * - A slice that is written (work slices, out, file, list, lines, buffer, destination) shares no byte with another slice of the same call.
 * - Nobody else changes a slice during the call, a mapped file included.
 * - What a work slice, out, list or lines holds at entry doesn't matter: anything may stand there. Between the calls of a conversion in steps its slices stay
 *   as they were left, see there.
 * - Length times element size is below 2^63.
 * - The calling thread has 256 KiB of stack left: under 196,608 bytes were measured, whatever the recording, 114,688 in steps, 49,152 for reading, 159,744 for taking columns out.
 */
#ifndef SITAUNGO_H
#define SITAUNGO_H

#include <stdbool.h>
#include <stddef.h>
#include <stdint.h>

#ifdef __cplusplus
extern "C" {
#endif

/* Of library and command. The command writes it into the history entry of each result. */
#define SITAUNGO_VERSION "1.7.0"

/* ---- lengths of the slices */

#define SITAUNGO_WORK_WORDS 8192      /* words that each of the four work slices needs at least */
#define SITAUNGO_LIST_WORDS 2049      /* words that are enough for every omission list */
#define SITAUNGO_LISTING_BYTES 119354 /* bytes that are enough for every listing */
#define SITAUNGO_SHEET_BYTES 42201    /* bytes that are enough for every sheet */
#define SITAUNGO_IDENT_BYTES 64       /* bytes of the identification, exactly */
#define SITAUNGO_TEXT_BYTES 4096      /* bytes that the history text has at most */
#define SITAUNGO_TYPES_BYTES 15       /* bytes that a table of treatments has at most */
#define SITAUNGO_STRETCH_WORDS 4096   /* words of `stretches` that a conversion in steps has use for */
#define SITAUNGO_STORE_BYTES 4096     /* bytes that a store has at most */
#define SITAUNGO_NAMES 4              /* positions of a conversion in steps that have a name at a time (30) */
#define SITAUNGO_JOBS 8               /* jobs of a pass (31) */

/* ---- limits of a recording; past one of them it is refused */

#define SITAUNGO_IMAGE_BYTES 4294967296u   /* bytes of a recording (3) */
#define SITAUNGO_BLOCK_BYTES 268435456u    /* bytes of one block; not asked of DT, DV, SD and AT (9) */
#define SITAUNGO_DATA_GROUPS 512           /* DG blocks (19) */
#define SITAUNGO_CHANNEL_GROUPS 512        /* CG blocks (19) */
#define SITAUNGO_CHANNELS 512              /* CN blocks (19) */
#define SITAUNGO_FRAGMENTS 1024            /* DT, DV and SD blocks, one listed twice counted twice (19) */
#define SITAUNGO_CHAIN_BLOCKS 256          /* DL and HL blocks in one data chain (19) */
#define SITAUNGO_COPIED_BLOCKS 2048        /* TX, MD, CC, SI and FH blocks that are copied (19) */
#define SITAUNGO_ATTACHMENTS 64            /* AT blocks (19) */
#define SITAUNGO_COLUMN_BLOCKS 4294967295u /* data blocks of one column (19) */
#define SITAUNGO_COPY_DEPTH 64             /* links from a block that is copied down to the deepest copied with it (16) */
#define SITAUNGO_KEPT_BLOCKS 2050          /* TX, MD, CC, SI and FH blocks that are copied where columns are taken out (19) */
#define SITAUNGO_FIRST_VERSION 410         /* the lowest version: 4.10 (7) */

/* ---- refusals: number, sentence, and what the place is; an offset is one in the recording */

enum {
    /* A work slice is too short, the identification is not 64 bytes that begin as MDF 4.20 demands, or the history text is too long; 0. */
    SITAUNGO_REFUSED_LENT = 1,
    /* The block size is 0; 0. */
    SITAUNGO_REFUSED_BLOCK_SIZE = 2,
    /* The recording has over 4,294,967,296 bytes; 0. */
    SITAUNGO_REFUSED_TOO_LARGE = 3,
    /* A header, block, name, attachment or a fragment's data runs past the recording's end; offset of its start. */
    SITAUNGO_REFUSED_PAST_END = 4,
    /* The recording doesn't begin with `MDF` and five blanks; 0. */
    SITAUNGO_REFUSED_NOT_MDF = 5,
    /* The version can't be read or has a byte over 127; 0. */
    SITAUNGO_REFUSED_VERSION_UNREADABLE = 6,
    /* The version is below 4.10 or over 65,535; 0. */
    SITAUNGO_REFUSED_VERSION = 7,
    /* A block's links don't fit into its length; offset of the block. */
    SITAUNGO_REFUSED_LINKS = 8,
    /* A block is longer than 268,435,456 bytes; offset of the block. */
    SITAUNGO_REFUSED_BLOCK_LENGTH = 9,
    /* Where an HD, DG, CG or CN is due stands another block, or one with too few links or data; offset of the block. */
    SITAUNGO_REFUSED_BLOCK = 10,
    /* A chain comes back to a block met before; offset of the block. */
    SITAUNGO_REFUSED_CIRCLE = 11,
    /* A data chain holds a block of another kind, compressed ones (DZ) among them; offset of the block. */
    SITAUNGO_REFUSED_DATA_KIND = 12,
    /* The size of record ids is none of 0, 1, 2, 4, 8; offset of the DG. */
    SITAUNGO_REFUSED_ID_SIZE = 13,
    /* Groups of one DG have equal ids or none, or a DV stands with several groups or with invalidation bytes; offset of the DG. */
    SITAUNGO_REFUSED_GROUPS = 14,
    /* A record ends early, straddles DT and DV, or has an unknown id; offset of the record's first byte. */
    SITAUNGO_REFUSED_RECORD = 15,
    /* Metadata that is to be copied is linked too deep or in a circle; offset of the block. */
    SITAUNGO_REFUSED_COPY = 16,
    /* A history block has no links; offset of the block. */
    SITAUNGO_REFUSED_HISTORY = 17,
    /* An attachment has under 4 links or more than fit; offset of the AT. */
    SITAUNGO_REFUSED_ATTACHMENT = 18,
    /* A limit is passed, or a group's bytes or records don't fit 64 bits; offset of the item or its DG. */
    SITAUNGO_REFUSED_LIMIT = 19,
    /* The output is shorter than the result; bytes needed. */
    SITAUNGO_REFUSED_OUTPUT = 20,
    /* The omission list is too short; words needed. */
    SITAUNGO_REFUSED_LIST = 21,
    /* The file has no column of that number; 0. */
    SITAUNGO_REFUSED_COLUMN = 22,
    /* The column has fewer records; 0. */
    SITAUNGO_REFUSED_RECORDS = 23,
    /* The file lacks the form of a column file, or the buffer has another length than the records; 0. */
    SITAUNGO_REFUSED_FORM = 24,
    /* A plot has over 256 entries, or an entry's bytes leave the destination; 0. */
    SITAUNGO_REFUSED_PLOT = 25,
    /* The unit is no power of two from 8 to 4096; 0. Of a conversion, after 2 and before 27 and 3. */
    SITAUNGO_REFUSED_UNIT = 26,
    /* The table of treatments has a wrong count or length, a type over 6 or twice, a treatment over 2, or one that its type can't have; 0.
     * Of a conversion, after 26 and before 3. */
    SITAUNGO_REFUSED_TYPES = 27,
    /* A reference of a channel to an attachment leads to none of the header's, or the channel has fewer links than its count of references demands; offset
     * of the CN. Of a conversion that keeps references, where the channel's column is planned. */
    SITAUNGO_REFUSED_REFERENCE = 28,
    /* A position is recalled that was never named; 0. After 30. */
    SITAUNGO_REFUSED_POSITION = 29,
    /* A fifth name is given to a position, or one is named or recalled after the last store; 0. */
    SITAUNGO_REFUSED_NAME = 30,
    /* A pass has no job, or over eight; 0. */
    SITAUNGO_REFUSED_JOBS = 31,
    /* A pass has no store to give, or a job's cap is 0; 0. After 31. */
    SITAUNGO_REFUSED_CAP = 32,
    /* A number of a column that is to be taken out is given twice, or the file has no such column; 0. */
    SITAUNGO_REFUSED_NUMBERS = 33,
    /* A column is to be taken out that one which is kept names as its master; 0. After 33. */
    SITAUNGO_REFUSED_NAMED = 34
};

/* ---- why a channel is left out */

enum {
    SITAUNGO_OMITTED_REMOTE_MASTER = 1, /* its group's remote master has another count; the address is the CG's */
    SITAUNGO_OMITTED_NO_FIT = 2,        /* it doesn't fit into its record */
    SITAUNGO_OMITTED_MASTER = 3,        /* it is a further master of its group */
    SITAUNGO_OMITTED_SYNC = 4,          /* it is a synchronization channel (type 4), and no table lists that type */
    SITAUNGO_OMITTED_ARRAY = 5,         /* it is an array (CA) */
    SITAUNGO_OMITTED_STRUCTURE = 6,     /* it is a structure of channels */
    SITAUNGO_OMITTED_STORAGE = 7,       /* its values lie in a VLSD storage group (CG) */
    SITAUNGO_OMITTED_TYPE = 8           /* the table of treatments omits its type */
};

/* What a conversion answers: where accepted, the report's seven counts, number and place 0; else number and place, the counts 0. */
struct sitaungo_outcome {
    bool accepted;
    uint64_t number;             /* the refusal: 1 to 21, 26 to 28 */
    uint64_t place;              /* its place */
    uint64_t source_groups;      /* groups of the recording, those of VLSD storage not counted */
    uint64_t time_groups;        /* time columns */
    uint64_t signal_groups;      /* signal columns */
    uint64_t shared_time_groups; /* groups whose time column is an earlier group's, an equal one; 0 unless that is chosen */
    uint64_t data_blocks;        /* DT, DV and SD blocks written */
    uint64_t metadata_size;      /* where the metadata ends */
    uint64_t file_size;          /* bytes of the result */
};

/* Converts the recording `image` with data blocks of about `size` bytes into the front of `out`, and lays the omission list over `list`:
 * the number n, then n addresses, then n reasons.
 *
 * `ident` becomes the result's first 64 bytes and begins with `MDF`, five blanks, `4.20`, four blanks. `text` is the new history entry's
 * comment, `time` its time in nanoseconds since 1970. A refusal leaves out and list as they were; what lies past result and list stays too.
 * The work slices are zero afterwards, but as they were after refusal 1. An empty `out` gives refusal 20 with the bytes needed as its place,
 * once all else is decided.
 *
 * `fragments` may have more words than it needs: one more for each record of groups that share a DG is enough to keep where each of these lies. The result
 * doesn't depend on it; without, a recording whose groups follow each other in no regular order is gone through once for each column. */
struct sitaungo_outcome sitaungo_convert(
    const uint8_t *image, size_t image_length, uint64_t size,
    const uint8_t *ident, size_t ident_length, const uint8_t *text, size_t text_length, uint64_t time,
    uint64_t *source, size_t source_length, uint64_t *fragments, size_t fragments_length,
    uint64_t *columns, size_t columns_length, uint64_t *copies, size_t copies_length,
    uint8_t *out, size_t out_length, uint64_t *list, size_t list_length);

/* What a call chooses. */
struct sitaungo_options {
    uint64_t unit; /* each column's first data block and each SD start on the next multiple of it: a power of two from 8 to 4096 (26); built in is 8 */
    bool share;    /* equal time columns of several groups become one; built in is false */
    bool photos;   /* columns keep their channels' references to attachments, such as photos of a sensor (28); built in is false */
};

/* What a table of treatments says of a channel type. */
enum {
    SITAUNGO_KEEP = 0,      /* its channels become columns of their type */
    SITAUNGO_OMIT = 1,      /* they are left out, with reason 8 */
    SITAUNGO_STORE_AS_0 = 2 /* they become columns of type 0 with the same records, those of type 1 without their signal data */
};

/* The same by what is chosen: sitaungo_convert is this call with unit 8, nothing shared, no references kept and no table.
 *
 * Payloads, signal data, omissions and the report but for `file_size` don't depend on the unit. Blocks of one column stay 24 bytes plus payload apart,
 * metadata and what follows the last block stay at multiples of 8, a column without blocks and SD moves nothing; gaps have under `unit` bytes and are
 * zero.
 *
 * With `share` the first group in the recording's order stands for every later one whose own master has the same count of records, type, sync type, data
 * type, bit offset, bits, flags and conversion block, also keeps its invalidation bit or doesn't, has an equal unit (kind and bytes of the TX or MD; none is
 * equal to none) and the same bytes in every record. The later ones get no time column: signals that have or use their time name the first one's, and what is linked
 * only to their masters isn't copied. `shared_time_groups` counts them. Then the units of all such masters are read before anything is planned (4 for one past
 * the recording's end or under 24 bytes), and the data of groups with equal keys is checked (4, 14, 15) also where no column needs it.
 *
 * With `photos` the CN of a column has the references of its channel to attachments: as many as the 16-bit number at data byte 22 of the recording's CN
 * says, which stands at that byte of the result's too, and in the same order, from the ninth link on, each the place of the attachment in the result, 0
 * where the recording has 0. Such a CN has 160 bytes and 8 for each reference, which `metadata_size` and `file_size` count; the rest of the report, the
 * omissions and the listing are as without. Then the header's chain of attachments is looked through before anything is planned and before the units that
 * `share` reads (of each AT its header 4, 18, the whole 4, 19), and every column is checked when it is planned (28): a signal after what it is omitted for
 * and before its signal data is followed, a time column where it is first needed. Channels that are omitted or that another stands for aren't looked at; a
 * column that stands for others has its own channel's references.
 *
 * `types` is the table of treatments: a count n from 1 to 7, then n channel types, then n treatments, a byte each. Types that it doesn't list are treated
 * as built in, and with a length of 0 all are: type 4 is omitted (reason 4), type 5 stored as type 0, any other kept. Types 2 and 3 can only be kept, type 5
 * can't be kept, type 6 can't be stored as 0, and types over 6 can't be listed (27). Only a kept channel of type 1 has signal data: link 6 of one that is
 * stored as 0 isn't read, so it has no reason 7. A channel whose type is omitted has reason 4 or 8 and no other; its links 2 and 6 aren't read. */
struct sitaungo_outcome sitaungo_convert_with(
    const uint8_t *image, size_t image_length, uint64_t size,
    const uint8_t *ident, size_t ident_length, const uint8_t *text, size_t text_length, uint64_t time, struct sitaungo_options options,
    const uint8_t *types, size_t types_length,
    uint64_t *source, size_t source_length, uint64_t *fragments, size_t fragments_length,
    uint64_t *columns, size_t columns_length, uint64_t *copies, size_t copies_length,
    uint8_t *out, size_t out_length, uint64_t *list, size_t list_length);

/* Lays the listing of the conversion by sitaungo_convert, with an output of `out` bytes and a list of `list_words` words, over `lines`, and answers its length;
 * what passes the end of `lines` is lost. The listing is `columns N`, a line for each column (number, t time or s signal, data bytes,
 * invalidation byte, records, blocks, payload bytes plus the bytes of its joined signal data, master column or `-`), `omitted N`, a line
 * `address reason` for each omission; or only `refused N place P`. The work slices are left as by sitaungo_convert. */
size_t sitaungo_list(
    const uint8_t *image, size_t image_length, uint64_t size,
    const uint8_t *ident, size_t ident_length, const uint8_t *text, size_t text_length, uint64_t out, uint64_t list_words,
    uint64_t *source, size_t source_length, uint64_t *fragments, size_t fragments_length,
    uint64_t *columns, size_t columns_length, uint64_t *copies, size_t copies_length,
    uint8_t *lines, size_t lines_length);

/* The same of the conversion by what is chosen: sitaungo_list is this call with unit 8, nothing shared, no references kept and no table. */
size_t sitaungo_list_with(
    const uint8_t *image, size_t image_length, uint64_t size,
    const uint8_t *ident, size_t ident_length, const uint8_t *text, size_t text_length, struct sitaungo_options options,
    const uint8_t *types, size_t types_length,
    uint64_t out, uint64_t list_words,
    uint64_t *source, size_t source_length, uint64_t *fragments, size_t fragments_length,
    uint64_t *columns, size_t columns_length, uint64_t *copies, size_t copies_length,
    uint8_t *lines, size_t lines_length);

/* ---- a conversion in steps
 *
 * For machines that may be switched off meanwhile. sitaungo_begin decides all that a conversion decides and stores nothing; then each step makes one store,
 * a run of 1 to 4,096 bytes of the file. With p pages of 4,096 bytes that the result takes, the last one perhaps in part, the stores are: number 0 eight zeros
 * at the file's front; number k from 1 to p page k - 1 but for the file's first eight bytes; number p + 1 these eight. The step of the last store also lays
 * the omission list over `list`, which no other step changes. There are p + 2 steps; a further one changes nothing.
 *
 * The file has its final length beforehand: at least the bytes that refusal 20 tells; what lies past the result stays. From the first store up to the last it
 * doesn't begin with `MDF`: sitaungo_convert_with, sitaungo_list_with and sitaungo_begin refuse it with 5, whatever else stands in it, unless their own
 * arguments give 1, 2, 26, 27 or 3. After the last store file and list are those of sitaungo_convert_with.
 *
 * What the caller owes besides, until the last step: `image`, `ident`, `text` and `types` have the same bytes at each call, the six slices of words and the
 * file hold what the last call left in them, and each call gets the state that the last one returned. Who breaks this may get another file; but each call
 * returns, stays inside its slices, and a step changes at most one run of 4,096 bytes of the file. Two conversions share no slice that is written.
 *
 * In which order stores reach the disk is the caller's doing. Who wants the promise to hold when power goes syncs after store 0, before the last store
 * and after it; between these any order will do. */

/* What a conversion in steps holds between two calls, by value. Only the library makes and changes it; `steps`, `next` and `file_size` may be read. */
struct sitaungo_conversion {
    uint64_t block_size, time, unit;
    bool share, photos;
    uint64_t items, pieces, columns, omissions;
    uint64_t history, chain, md, fh, metadata, copies, attachments, metadata_end, file_size;
    uint64_t steps; /* how many steps there are */
    uint64_t next;  /* number of the next store, `steps` after the last */
    uint64_t count, name_a, name_b, name_c, name_d, place_a, place_b, place_c, place_d; /* names of positions, so many, and where these are */
};

/* What beginning answers: what sitaungo_convert_with would, the report included; of a refusal all of `conversion` is 0, so it has no step. */
struct sitaungo_begun {
    struct sitaungo_outcome outcome;
    struct sitaungo_conversion conversion;
};

/* Begins a conversion into a file of `out` bytes with a list of `list_words` words; neither is lent here. Refusals are those of sitaungo_convert_with in
 * their order, with 20 and 21 last, and leave the four work slices as that does: zero, but as they were after 1. Where it is accepted these four hold what was
 * decided until the last step, after which all six slices are zero.
 *
 * `stretches` and `offsets` keep where records lie from step to step. They may have any length, also none, and the result doesn't depend on them: without,
 * a step reads the data of its DG from the front. Enough are SITAUNGO_STRETCH_WORDS of the one, and of the other 2,056 words and one for each record of
 * groups that share a DG; `fragments` needs no more than SITAUNGO_WORK_WORDS here. Both are zero after this call, whatever it answers. */
struct sitaungo_begun sitaungo_begin(
    const uint8_t *image, size_t image_length, uint64_t size,
    const uint8_t *ident, size_t ident_length, const uint8_t *text, size_t text_length, uint64_t time, struct sitaungo_options options,
    const uint8_t *types, size_t types_length,
    uint64_t out, uint64_t list_words,
    uint64_t *source, size_t source_length, uint64_t *fragments, size_t fragments_length,
    uint64_t *columns, size_t columns_length, uint64_t *copies, size_t copies_length,
    uint64_t *stretches, size_t stretches_length, uint64_t *offsets, size_t offsets_length);

/* One step: the next store over `file`. `file` and `list` have at least the lengths that the conversion was begun with. */
struct sitaungo_conversion sitaungo_step(
    struct sitaungo_conversion conversion, const uint8_t *image, size_t image_length,
    const uint8_t *ident, size_t ident_length, const uint8_t *text, size_t text_length, const uint8_t *types, size_t types_length,
    uint64_t *source, size_t source_length, uint64_t *fragments, size_t fragments_length,
    uint64_t *columns, size_t columns_length, uint64_t *copies, size_t copies_length,
    uint64_t *stretches, size_t stretches_length, uint64_t *offsets, size_t offsets_length,
    uint8_t *file, size_t file_length, uint64_t *list, size_t list_length);

/* So many steps, or as many as are left. */
struct sitaungo_conversion sitaungo_advance(
    struct sitaungo_conversion conversion, uint64_t stores, const uint8_t *image, size_t image_length,
    const uint8_t *ident, size_t ident_length, const uint8_t *text, size_t text_length, const uint8_t *types, size_t types_length,
    uint64_t *source, size_t source_length, uint64_t *fragments, size_t fragments_length,
    uint64_t *columns, size_t columns_length, uint64_t *copies, size_t copies_length,
    uint64_t *stretches, size_t stretches_length, uint64_t *offsets, size_t offsets_length,
    uint8_t *file, size_t file_length, uint64_t *list, size_t list_length);

/* What naming or recalling answers: a refusal's number, 29 or 30, with the state as it was; else 0 and the state. */
struct sitaungo_position {
    uint64_t number;
    struct sitaungo_conversion conversion;
};

/* Gives the present position, the number of the next store, a name, any 64-bit number. Up to four names are held; one given again moves, also where four
 * are. 30 after the last store and for a fifth name. */
struct sitaungo_position sitaungo_name(struct sitaungo_conversion conversion, uint64_t name);

/* Goes to the position of that name, back or forth; going on from there makes stores again, with the same bytes, and ends with the same file. Names stay.
 * 30 after the last store, then 29 where that name was never given. */
struct sitaungo_position sitaungo_recall(struct sitaungo_conversion conversion, uint64_t name);

/* How many steps are left. */
uint64_t sitaungo_left(struct sitaungo_conversion conversion);

/* ---- up to eight conversions on one machine
 *
 * A pass has so many stores to give, and each job, a conversion in steps, has a cap for the pass. sitaungo_share says how many each gets, from what
 * sitaungo_left says of each; sitaungo_advance, called with that for each job, makes the pass. Every sequence of passes, each with stores and caps of its own,
 * gives a job that is finished by it the file it would have had alone. */

/* A number for each of eight jobs. */
struct sitaungo_eight {
    uint64_t a, b, c, d, e, f, g, h;
};

/* What sharing answers: a refusal's number, 31 or 32, with no shares; else 0 and the share of each job, 0 past the jobs. */
struct sitaungo_shares {
    uint64_t number;
    struct sitaungo_eight shares;
};

/* Shares `stores` among the first `jobs` of eight. A job that has stores left gets at least the least of its cap, what it has left, and `stores` divided by
 * the number of such jobs, rounded down; none gets more than its cap or than it has left. What is left over goes to the jobs in their order, to each as much
 * as it may take. 31 for no job or over eight, then 32 where `stores` or the cap of one of these jobs is 0, of a finished job too. */
struct sitaungo_shares sitaungo_share(uint64_t stores, uint64_t jobs, struct sitaungo_eight caps, struct sitaungo_eight left);

/* ---- reading a column file
 *
 * A column file is one in which each DG has id size 0, one CG with one CN, and a data link that is 0 or leads to one DL with the equal-length bit set
 * whose first link alone is 0; its blocks are all DT, or all DV without invalidation bytes, each but the last has the DL's length, and together they
 * hold exactly the records that the CG's cycle count names. Every result is one; read from it are the records that the archive was promised.
 * A record has the CG's data bytes and invalidation bytes. Files may have any length. Refusals 4 to 13 and 19 are as for a recording, but for 9 of a
 * DL and the limit on fragments; then 24 for the form, 22, 23, 24 for the buffer. Each call looks at every block's header of the file. */

/* What reading answers: where refused number and place, else 0. */
struct sitaungo_read {
    bool accepted;
    uint64_t number; /* the refusal: 4 to 13, 19, 22 to 24 */
    uint64_t place;  /* its place: an offset in the file, 0 for 22 to 24 */
};

/* Copies `count` records of a column, beginning at record `first`, into `buffer`, which has exactly their length. A refusal leaves it as it was. */
struct sitaungo_read sitaungo_read_range(
    const uint8_t *image, size_t image_length, uint64_t column, uint64_t first, uint64_t count, uint8_t *buffer, size_t buffer_length);

/* Where records lie in the file: accepted and not split, `length` bytes at `offset`; split where they lie in several blocks. All else is 0. */
struct sitaungo_part {
    bool accepted;
    bool split;
    uint64_t number;
    uint64_t place;
    uint64_t offset;
    uint64_t length;
};

/* The same records as a part of the file's own bytes, those that sitaungo_read_range would copy; of no bytes at offset 0. */
struct sitaungo_part sitaungo_range_part(const uint8_t *image, size_t image_length, uint64_t column, uint64_t first, uint64_t count);

#define SITAUNGO_PLOT_ENTRIES 256 /* entries of one plot (25) */

/* An entry of a plot: `count` records of a column, beginning at record `first`, go to destination[place ..]. */
struct sitaungo_request {
    uint64_t column;
    uint64_t first;
    uint64_t count;
    uint64_t place;
};

/* What a plot answers: where an entry was refused its number, place and position in the table, from 0, else 0. */
struct sitaungo_plotting {
    bool accepted;
    uint64_t number; /* the refusal: 4 to 13, 19, 22 to 25 */
    uint64_t place;  /* its place: an offset in the file, 0 for 22 to 25 */
    uint64_t position;
};

/* Fetches the ranges of a table of at most 256 entries in one call: what single reads in table order would copy, each into its part of the destination.
 * The first refused entry ends the call: bytes of the entries before it stand, its own and later ones' are untouched. Entries may overlap; the later
 * one wins. An empty table succeeds, whatever the image is. The file's block headers are looked at once. Over 256 entries are 25 before all else, with
 * position 0; the image's refusals come with position 0, and of each entry 22, 23, then 25 where place plus length passes the destination. */
struct sitaungo_plotting sitaungo_plot(
    const uint8_t *image, size_t image_length, const struct sitaungo_request *table, size_t entries, uint8_t *destination, size_t destination_length);

/* Lays the inventory sheet of a column file over `lines` and answers its length; what passes the end of `lines` is lost. The sheet has pages of at most 60
 * lines: `page P of N`, then a line for each of 59 columns, on the last page of those left; without columns one page with its heading. A column's line has
 * its number, `t` for channel type 2 or 3 or `s` for any other, the first 32 bytes of its channel's name up to a zero byte, its data bytes, its records, and
 * its master column or `-`, in fields of 8, 1, 32, 12, 12 and 10 characters with a blank between them: numbers right, one too wide as `#` all over, texts
 * left; bytes outside 32 to 126 as `?`, no name as `-`. Each line has 80 characters and a newline. Of a file that is refused (4 to 13, 19, 24) the sheet is
 * only `refused N place P`. */
size_t sitaungo_sheet(const uint8_t *image, size_t image_length, uint8_t *lines, size_t lines_length);

/* ---- taking columns out of a column file
 *
 * The new file has the other columns in order, each with its payload, signal data, master, references to attachments and metadata as they were: names,
 * units, conversions, sources, comments. The first 64 bytes, the data of HD, DG, CG and CN, kinds and lengths of data blocks, history and attachments stay;
 * there is no new history entry. Of the metadata only what a link of the new file leads to is copied, each block once. Blocks stand closely: between one and
 * the next lie fewer bytes than the unit has, all zero. With unit 8 the new file is no longer than the old one, if that was made by a conversion or by this
 * call, with whatever unit. */

/* What taking out answers: where accepted the bytes of the new file, number and place 0; else number and place, bytes 0. */
struct sitaungo_taken {
    bool accepted;
    uint64_t number; /* the refusal: 1, 3 to 13, 16 to 20, 24, 26, 28, 33, 34 */
    uint64_t place;  /* its place: an offset in the file; the bytes needed for 20; 0 for 1, 3, 5 to 7, 24, 26, 33, 34 */
    uint64_t bytes;  /* of the new file */
};

/* Takes the columns with these numbers, from 0 and in any order, out of the column file `image` and lays the new file over the front of `out`. Without
 * numbers the file is written anew, with all of them it has no column left.
 *
 * `unit` is a power of two from 8 to 4096 (26): each column's first data block and each SD start on the next multiple of it, all else stands on multiples
 * of 8. References to attachments are always kept.
 *
 * Refusals come in this order: 1 for a work slice under SITAUNGO_WORK_WORDS; 26; 3 for a file over 2^47 bytes, more than can be mapped; those of reading a
 * column file, 24 for its form last; then column by column, also of columns that are taken out, 4 and 8 of the block at link 6 of a type 1 channel (place
 * the block) and 24 where that is no SD, and 24 where the seventh link of a CG under flag bit 3 is neither 0 nor a column's CG; 33; 34; of the attachments 4,
 * 18 and 19; 28 for columns that are kept; of what is copied 4, 8, 9, 16, 17 and 19; 20. An empty `out` gives refusal 20 with the bytes needed as its place,
 * once all else is decided; over 2^59 bytes it is 2^64 - 1.
 *
 * A refusal leaves `out` as it was; what lies past the new file stays too. The work slices are zero afterwards, but as they were after refusal 1. */
struct sitaungo_taken sitaungo_take_out(
    const uint8_t *image, size_t image_length, uint64_t unit, const uint64_t *numbers, size_t numbers_length,
    uint64_t *source, size_t source_length, uint64_t *fragments, size_t fragments_length,
    uint64_t *columns, size_t columns_length, uint64_t *copies, size_t copies_length,
    uint8_t *out, size_t out_length);

#ifdef __cplusplus
}
#endif

#endif
