/* adtg.h: a proved reader and writer of ADTG tablegrams, as C calls.
 *
 * Link libadtg_c.a, which `tools/prove.sh --archive` builds. docs/FORMAT.md says the format, byte by byte. adtg_text.h puts errors into
 * words. Every call takes any bytes and any values, and keeps nothing.
 *
 * Words:
 *     schema file    says which columns there are. It has one schema or more, numbered from 0 in the order in which they start.
 *                    Schema 0 has the columns of parent rows.
 *     chapter        a column that stands for child rows. It has no field, but a child id, and a schema with the columns of the
 *                    child rows.
 *     original row   a presence map, with one bit for each nullable column, and then the fields.
 *     update data    what is new in a row: an update map and a force-null map, with one bit for each column, and then the new fields.
 *     row section    rows one after the other. It is made of elements, and each starts with a token: 07 is a parent row, 87 a child
 *                    row, 8A the change of a child row, 8C its deletion. The done token, 0F, ends the section. (Tokens are in hex.)
 *     prefix         the length in front of a field of variable length.
 *     plan           what a look-up needs to know about a schema, prepared once.
 *
 * Inputs: you pass an array as a pointer and a length. A length or capacity counts the elements of its array: bytes of a uint8_t array,
 * numbers of a uint32_t array. The pointer must not be null, even if the length is 0. Last comes `out`, an array of sixteen numbers, all
 * of which the call fills.
 *
 * Answers: a call returns 0, and `out` starts with the values that the comment of the call lists. Or it returns the number of an error.
 * Then out[0] is the offset (the place of the error), and out[1] is the input that the error is about. All other numbers of `out` are
 * 0. Some calls return a struct and have no `out`. `adtg_failure` below gives you the error of either kind of call.
 *
 * Outputs: a writer writes at the start of its output or table, and a row writer at a place in its output. It changes nothing but the
 * bytes or numbers that it writes. After an error the whole output or table is as it was.
 *
 * Memory: a call may write to its output, table, spans, reader and `out`, anywhere in their full length. None of these may overlap
 * anything else that you pass to the call, neither an input nor other memory that it writes to. Every promise depends on this. Inputs
 * may overlap each other.
 *
 * Threads: a call has no state and keeps no pointer. Any number of threads may call at once, if each has its own memory to write to.
 * They may share inputs, as long as nobody writes to these while a call runs.
 *
 * Stack: measured on x86-64 by c/stack.c and rounded up. Arguments are included, and a KB has 1,024 bytes. If the C library's memcpy
 * and memset are bound only when they are first called, that first call takes about 3 KB more.
 *     adtg_list_section: at most 96 KB
 *     adtg_check_section: at most 31 KB
 *     adtg_feed: at most 32 KB
 *     every other call: at most 11 KB
 */
#ifndef ADTG_H
#define ADTG_H

#include <stddef.h>
#include <stdint.h>

#ifdef __cplusplus
extern "C" {
#endif

/* ---- Version ---- */

/* The version of this header, 0.2.0: 10,000 times the major number, 100 times the minor number, and the patch. */
#define ADTG_VERSION 200

/* The layout of plans: it changes when the numbers of a plan change their meaning. If you keep a plan on disk, keep this number with
 * it, and throw the plan away if the number differs. */
#define ADTG_PLAN_LAYOUT 1

/* Asks the linked archive for its version. Always returns 0.
 * out: version, plan layout. */
uint32_t adtg_version(uint64_t out[16]);

/* 1 if the linked archive has the version and the plan layout of this header, else 0. */
static inline int adtg_archive_matches(void)
{
    uint64_t out[16];
    return adtg_version(out) == 0 && out[0] == ADTG_VERSION && out[1] == ADTG_PLAN_LAYOUT;
}

/* ---- Errors ---- */

/* What is wrong, and what the offset is. */
enum adtg_error {
    ADTG_SHORT = 1,          /* the input ends inside what is read; offset: its length */
    ADTG_CONSTANT = 2,       /* a constant byte differs; offset: that byte */
    ADTG_VALUE = 3,          /* a byte order, unicode flag or async option is not allowed; offset: the field */
    ADTG_OPTIONS_SIZE = 4,   /* the size of the handler options is wrong; offset: 1 */
    ADTG_NUMBER_FORM = 5,    /* a number is too long or not in its shortest form; offset: its start */
    ADTG_RANGE = 6,          /* a count, type, flags or maximum is out of range; offset: its start */
    ADTG_LIMIT = 7,          /* a schema at depth 5, or more than 256 columns in a file; offset: the count */
    ADTG_REPEATED_ID = 8,    /* a child id is repeated; offset: its start */
    ADTG_UNKNOWN_TOKEN = 9,  /* no element has this token; offset: the token */
    ADTG_UNKNOWN_ID = 10,    /* a child row has an id that no schema has; offset: its token */
    ADTG_UNPAIRED = 11,      /* a change or deletion does not come directly after its child row; offset: its token */
    ADTG_CHAPTER_BIT = 12,   /* the bit of a chapter is set in a map; offset: the byte of the first such bit */
    ADTG_FORCE_NULL = 13,    /* null is forced without an update, or in a column that is not nullable; offset: the byte of the bit */
    ADTG_LENGTH = 14,        /* a length is over the maximum, or odd in wide text; offset: its prefix */
    ADTG_TRAILING = 15,      /* bytes follow the end; offset: the first of them */
    ADTG_CAPACITY = 16,      /* the output or table is too small; offset: how many bytes, numbers or rows it needs room for */
    ADTG_PLAN_MISMATCH = 17, /* the plan is not that of the schema; offset: 0 */
    ADTG_MISSING = 18,       /* there is no such schema, column, child id, place, entry or reader, or the table has fewer rows;
                              * offset: 0 */
    ADTG_TOO_LARGE = 19,     /* an input, or all fragments together, have more than 16,777,216 bytes; offset: 0 */
    ADTG_ENTRY = 20          /* an entry does not fit its column; offset: the column */
};

/* The inputs that an error can be about. */
enum adtg_input {
    ADTG_SINGLE = 0,         /* the call's one input */
    ADTG_SCHEMA = 1,         /* the schema file */
    ADTG_SCHEMA_NUMBER = 2,
    ADTG_ROW = 3,            /* the original row */
    ADTG_UPDATE = 4,         /* the update data */
    ADTG_COLUMN = 5,         /* the column number */
    ADTG_SECTION = 6,        /* the row section */
    ADTG_TABLE = 7,
    ADTG_OUTPUT = 8,
    ADTG_PLAN = 9,
    ADTG_ENTRIES = 10,
    ADTG_VALUES = 11,
    ADTG_PLACE = 12,         /* where to start: a row writer in its output, a page in its table */
    ADTG_NUMBERS = 13,       /* the numbers of a schema file */
    ADTG_ORDER = 14,         /* the byte order */
    ADTG_UNICODE = 15,       /* the unicode flag */
    ADTG_FIRST_STRING = 16,
    ADTG_SECOND_STRING = 17,
    ADTG_THIRD_STRING = 18,
    ADTG_ASYNC = 19,         /* the async option */
    ADTG_CHILD_ID = 20,
    ADTG_READER = 21         /* the record of a reader */
};

/* Why a call failed: the error, its offset and its input. All three are 0 if the call succeeded.
 *
 * adtg_failure_out(code, out) makes it from what a call with `out` returned, and from that `out`. adtg_failure_of(answer) makes it from
 * a variable that holds the struct of any other call. It needs C11 or C++; C99 has one function for each struct. All of these are at the
 * end of this header. */
typedef struct adtg_failure {
    uint32_t code;
    uint64_t offset;
    uint64_t input;
} adtg_failure;

/* ---- Header and handler options ---- */

/* Reads the header at the start of `bytes`. Bytes after it do not matter.
 * out: major version, minor version, byte order, unicode flag, end. */
uint32_t adtg_read_header(const uint8_t *bytes, size_t length, uint64_t out[16]);

/* Writes a header. The byte order is 0, the unicode flag is 0 or 1.
 * out: bytes written. */
uint32_t adtg_write_header(uint8_t major, uint8_t minor, uint8_t order, uint8_t unicode,
                           uint8_t *output, size_t capacity, uint64_t out[16]);

/* Writes a header with these two versions, byte order 0 and unicode flag 0.
 * out: bytes written. */
uint32_t adtg_write_header_short(uint8_t major, uint8_t minor,
                                 uint8_t *output, size_t capacity, uint64_t out[16]);

/* Reads the handler options at the start of `bytes`. Bytes after them do not matter.
 * out: update type, start and end of each of the three strings, async option, end. */
uint32_t adtg_read_options(const uint8_t *bytes, size_t length, uint64_t out[16]);

/* Writes handler options with update type 1 and three strings, which may have any bytes. The async option is 1, 2 or 3.
 * out: bytes written. */
uint32_t adtg_write_options(const uint8_t *first, size_t first_length,
                            const uint8_t *second, size_t second_length,
                            const uint8_t *third, size_t third_length,
                            uint16_t async_option,
                            uint8_t *output, size_t capacity, uint64_t out[16]);

/* ---- Schema files ---- */

/* Reads a whole schema file. An error names input 0, the call's one input; all other calls name the schema file.
 * out: how many schemas it has, how many columns all of them have together. */
uint32_t adtg_read_schema(const uint8_t *file, size_t length, uint64_t out[16]);

/* Asks for schema `number` of a file.
 * out: how many columns it has. */
uint32_t adtg_schema_columns(const uint8_t *file, size_t length, size_t number, uint64_t out[16]);

/* Asks for column `column` of schema `number`. Columns are numbered from 0.
 * out: type code, flags, maximum (0 if the type has none), child id and schema number of a chapter (0 for others). */
uint32_t adtg_schema_column(const uint8_t *file, size_t length, size_t number, size_t column, uint64_t out[16]);

/* Asks for the schema of the rows with this child id.
 * out: its number. */
uint32_t adtg_schema_of_child(const uint8_t *file, size_t length, uint32_t id, uint64_t out[16]);

/* Writes a schema file from the numbers that it is made of. A schema is its count of columns, 1 to 64, and then the columns. A column is
 * its type code, its flags (1 if it is nullable, else 0), and then, depending on the type:
 *     128 bytes, 129 text, 130 wide text    a maximum, 1 to 32,767: bytes, or in wide text characters of two bytes
 *     136 chapter                           a child id, and then the numbers of the schema of its child rows
 *     any other                             nothing
 * For example, {2, 3, 0, 130, 1, 40} is an integer of four bytes, and nullable wide text of up to 40 characters. docs/FORMAT.md says
 * the format and lists the type codes. No number may be greater than 2,097,151. The offset of an error is counted in the bytes that
 * would be written.
 * out: bytes written. */
uint32_t adtg_write_schema(const uint32_t *numbers, size_t count,
                           uint8_t *output, size_t capacity, uint64_t out[16]);

/* Lists the numbers that a schema file is made of, at the start of a table. The rest of the table stays as it was.
 * out: how many numbers. */
uint32_t adtg_schema_numbers(const uint8_t *file, size_t length,
                             uint32_t *table, size_t capacity, uint64_t out[16]);

/* ---- Row sections ---- */

/* Checks a whole row section and counts its rows.
 * out: rows. */
uint32_t adtg_check_section(const uint8_t *file, size_t file_length,
                            const uint8_t *section, size_t section_length, uint64_t out[16]);

/* Kinds of rows in a table of rows. */
enum adtg_row {
    ADTG_PARENT = 1,
    ADTG_CHILD = 2,
    ADTG_CHILD_CHANGED = 3,
    ADTG_CHILD_DELETED = 4
};

/* How many numbers a row has in a table of rows. */
#define ADTG_ROW_NUMBERS 4

/* Checks a whole row section and lists its rows in a table, four numbers a row:
 *     its kind
 *     its child id, 0 for a parent
 *     where its original row starts in the section
 *     where its update data start in the section, 0 unless the row is changed
 * Numbers after the last row stay as they were. After an error the whole table is as it was. This call refuses what
 * `adtg_check_section` refuses, with the same error. It checks the room last: error 16 names the table, and its offset is how many rows
 * the table needs room for. This call takes by far the most stack of all.
 *
 * Tell parents by the kind and not by the id: a child may have id 0. Once a section is listed, look-ups in its rows do not fail, if you ask
 * for a column that there is, with the row's schema or its plan.
 * out: rows. */
uint32_t adtg_list_section(const uint8_t *file, size_t file_length,
                           const uint8_t *section, size_t section_length,
                           uint32_t *table, size_t table_length, uint64_t out[16]);

/* ---- Row sections that arrive in fragments ---- */

/* A reader of a row section that arrives in fragments. It is all that is remembered between calls. It belongs to you, has 120 bytes and
 * does not grow. A reader checks and counts; it hands out no field. If you want fields, keep the bytes and list the section when it is
 * complete. A reader of zeros is the first one. You may copy a reader; each copy then goes on
 * by itself. Only the calls need to know what its numbers mean. You may pass numbers that no call makes: the answer is then error 18,
 * which names the reader, or something else. */
typedef struct adtg_reader {
    uint32_t stage;          /* 0 between elements, 1 id of an 87, 2 id of an 8A, 3 id of an 8C, 4 maps, 5 prefix,
                              * 6 bytes of a field, 7 complete, 8 refused, 9 closed and complete */
    uint32_t code;           /* number of an error that stands, else 0 */
    uint64_t kind;           /* whose data are read: 1 of a 07, 2 of an 87, 3 of an 8A */
    uint64_t id;             /* child id of these, or of an 87 directly before */
    uint64_t paired;         /* 1 if an 87 comes directly before, else 0 */
    uint64_t rows;           /* whole 07 and 87 elements so far */
    uint64_t at;             /* where a piece starts that is not whole yet, else the bytes so far; offset of an error that stands */
    uint64_t more;           /* how many bytes the piece or the field lacks, minus one */
    uint64_t column;         /* column of a prefix; in a field the next column */
    uint64_t input;          /* input of an error that stands, else 0 */
    uint64_t filled;         /* how many bytes are held */
    uint64_t mapped;         /* how many bytes the maps have */
    uint8_t held[16];        /* bytes of a piece that is not whole yet */
    uint8_t map[16];         /* maps of the row in progress */
} adtg_reader;

/* How far a section has come. */
enum adtg_progress {
    ADTG_GOING = 1,          /* more bytes are needed */
    ADTG_COMPLETE = 2        /* the section ends in its done token */
};

/* What a reader answers. */
typedef struct adtg_fed {
    uint32_t code;           /* 0, or the number of the error */
    uint32_t progress;       /* going or complete; 0 beside an error */
    uint64_t first;          /* whole 07 and 87 elements so far (going), or rows (complete); offset of an error */
    uint64_t second;         /* input of an error, else 0 */
} adtg_fed;

/* The first reader, which has seen no byte. */
adtg_reader adtg_first_reader(void);

/* Reads the next fragment of a section, which may be empty. Pass the same schema file to every call.
 *
 * The answer is what `adtg_check_section` would say about all bytes so far: their error, or `complete` and the rows. There is one
 * difference: instead of error 1 of the section it is `going`, and how many 07 and 87 elements are whole. An 87 counts once its own data
 * are whole. Any byte after the done token is error 15 at its place. Offsets count from the first byte of the first fragment.
 *
 * An error stands: all later calls answer it too, whatever you pass to them. Error 19 names the section once all fragments together have
 * more than 16,777,216 bytes, unless the first 16,777,216 bytes have another error, or the schema file has one. */
adtg_fed adtg_feed(const uint8_t *file, size_t file_length, adtg_reader *reader,
                   const uint8_t *fragment, size_t fragment_length);

/* Tells a reader that no more bytes come. The answer is what `adtg_check_section` says about all of them: `complete` and the rows, or
 * the error, which may be error 1. The answer stands: all later calls answer it too. */
adtg_fed adtg_close(const uint8_t *file, size_t file_length, adtg_reader *reader);

/* ---- Rows, with the schema file ---- */

/* These calls take a schema file and the number of the schema that has the columns of the row. They check all sizes first, then the
 * file, then the schema number, then the rest.
 *
 * For a field they answer where it starts and where it ends in its input, and its prefixes: how many prefixes were read on the way to
 * it, with its own. All three are 0 if there is no field. */

/* What a look-up answers. */
enum adtg_kind {
    ADTG_FIELD = 1,          /* a field, from its start to its end */
    ADTG_NULL = 2,
    ADTG_CHAPTER = 3,        /* the column is a chapter and has no field */
    ADTG_UNCHANGED = 4       /* the update data leave the column as it is */
};

/* Looks up a column in the original row that starts at `row`. Bytes after the field do not matter.
 * out: kind (field, null, chapter), start, end, prefixes. */
uint32_t adtg_look_up(const uint8_t *file, size_t file_length, size_t number,
                      const uint8_t *row, size_t row_length, size_t column, uint64_t out[16]);

/* Counts the fields of an original row by its presence map.
 * out: number of fields. */
uint32_t adtg_field_count(const uint8_t *file, size_t file_length, size_t number,
                          const uint8_t *row, size_t row_length, uint64_t out[16]);

/* Reads the original row at offset `at` of `row` in full. If `at` is past the end, that is error 1.
 * out: where it ends, an offset in `row`. */
uint32_t adtg_row_end(const uint8_t *file, size_t file_length, size_t number,
                      const uint8_t *row, size_t row_length, size_t at, uint64_t out[16]);

/* Looks up a column in the update data that start at `update`. It reads all of the update data. Bytes after them do not matter.
 * out: kind (field, null, chapter, unchanged), start, end, prefixes. */
uint32_t adtg_look_update(const uint8_t *file, size_t file_length, size_t number,
                          const uint8_t *update, size_t update_length, size_t column, uint64_t out[16]);

/* Reads the update data at offset `at` of `update` in full.
 * out: where they end, an offset in `update`. */
uint32_t adtg_update_end(const uint8_t *file, size_t file_length, size_t number,
                         const uint8_t *update, size_t update_length, size_t at, uint64_t out[16]);

/* Where the current value comes from. */
enum adtg_side {
    ADTG_FROM_ROW = 1,
    ADTG_FROM_UPDATE = 2
};

/* Looks up the current value of a column: what the update data say, or what the original row says if the update data leave the column
 * as it is. It reads all of the update data.
 * out: kind (field, null, chapter), side that answers, start, end, prefixes. */
uint32_t adtg_current(const uint8_t *file, size_t file_length, size_t number,
                      const uint8_t *row, size_t row_length,
                      const uint8_t *update, size_t update_length, size_t column, uint64_t out[16]);

/* What a row writer is to write for a column. */
enum adtg_entry {
    ADTG_ENTRY_NULL = 0,     /* in an original row also for a chapter */
    ADTG_ENTRY_VALUE = 1,    /* a value: the bytes of `values` from a start to an end */
    ADTG_ENTRY_UNCHANGED = 2 /* in update data only, there also for a chapter */
};

/* Writes an original row into `output`, starting at offset `place`. `entries` has three numbers for each column of the schema: the kind
 * of the entry, and where a value starts and ends in `values`. For the other kinds start and end may be anything. `count` is how many
 * numbers `entries` has.
 *
 * It writes row data alone: no token, no child id, no done token. If there is no room, the offset of error 16 is the bytes of the row,
 * `place` left aside.
 * out: bytes written. */
uint32_t adtg_write_original(const uint8_t *file, size_t file_length, size_t number,
                             const uint32_t *entries, size_t count,
                             const uint8_t *values, size_t values_length,
                             size_t place, uint8_t *output, size_t capacity, uint64_t out[16]);

/* Writes update data in the same way.
 * out: bytes written. */
uint32_t adtg_write_update(const uint8_t *file, size_t file_length, size_t number,
                           const uint32_t *entries, size_t count,
                           const uint8_t *values, size_t values_length,
                           size_t place, uint8_t *output, size_t capacity, uint64_t out[16]);

/* ---- Plans ---- */

/* A plan holds the columns of one schema, and how far apart their fields are. A look-up through a plan visits only the stops before the
 * column that it asks for. A stop is a column that is not a chapter, and is nullable or of variable length. The places of fields after
 * a stop depend on the row.
 *
 * A plan is a value: you can keep it, copy it and pass it on. Two plans are equal if all their numbers are. Two schemas have equal plans
 * exactly if they have the same count of columns, and the same type, flags and maximum for each column.
 *
 * `adtg_make_plan` makes plans. You may also pass any other numbers. A look-up still answers then, and a field that it finds lies in the
 * row. If no earlier column is a stop by the plan's own codes and flags, the field starts at the plan's gap, plus the bytes of its
 * prefix. */
typedef struct adtg_plan {
    /* Number i, for each column i under 64: its type code in the lowest 8 bits, and above it its flags in 8, its maximum in 16
     * (0 if the type has none), its gap in 12 (the bytes from the end of the last earlier stop, or from the row's start, up
     * to its prefix or field; 0 for a chapter), its bit in the presence map in 6 (how many nullable columns come before it),
     * how many stops come before it in 6, and its width in 8 (0 if the type has none).
     * Number 64 + j, for stop j: its gap in the lowest 16 bits, and above it 63 minus its bit in the presence map in 6 (0 if
     * it is not nullable), a bit each for a type of variable length, a prefix of four bytes, lengths that must be even, and
     * nullable, a bit that is 0, the bytes of its prefix or else its width in 5, and the greatest length in bytes in 32.
     * Number 128: how many columns there are in the lowest 8 bits, and above it the column number of the first stop.
     * 129: the bytes of the presence map. 130: the bits of the nullable chapters, the map's first bit on top.
     * All numbers and bits without a column, stop or chapter are 0. */
    uint64_t numbers[131];
} adtg_plan;

/* A plan, or why there is none. */
typedef struct adtg_plan_answer {
    uint32_t code;           /* 0, or the number of the error; then all numbers of the plan are 0 */
    uint64_t offset;         /* offset of an error, else 0 */
    uint64_t input;          /* input of an error, else 0 */
    adtg_plan plan;
} adtg_plan_answer;

/* Makes the plan of schema `number`. */
adtg_plan_answer adtg_make_plan(const uint8_t *file, size_t file_length, size_t number);

/* Checks that a plan is the one that `adtg_make_plan` would make of schema `number`. If not, error 17 names the plan. The file and the
 * schema number are checked first, so any other error is about these. The child ids of chapters are no part of a plan.
 * out: nothing. */
uint32_t adtg_check_plan(adtg_plan plan, const uint8_t *file, size_t file_length, size_t number, uint64_t out[16]);

/* What a plan says about the place of a column. */
enum adtg_place {
    ADTG_FIXED = 1,          /* the column's field starts at this place in every row that has it */
    ADTG_NOT_FIXED = 2       /* its place depends on the row, or the column is a chapter */
};

/* Asks a plan, without any row, for the place of a column's field, counted from the start of the row.
 * out: fixed or not fixed, place (0 if it is not fixed). */
uint32_t adtg_fixed_place(adtg_plan plan, size_t column, uint64_t out[16]);

/* Opens an original row by a plan. It checks the size of the row, that the presence map is whole, and that no bit of a chapter is set.
 * Every look-up checks the same, and answers the same error for each column that the plan has.
 * out: where the data after the map start. */
uint32_t adtg_open_row(adtg_plan plan, const uint8_t *row, size_t row_length, uint64_t out[16]);

/* What a look-up through a plan answers. */
typedef struct adtg_found {
    uint32_t code;           /* 0, or the number of the error */
    uint32_t kind;           /* field, null or chapter; 0 beside an error */
    uint64_t first;          /* start of a field; offset of an error; else 0 */
    uint64_t second;         /* end of a field; input of an error; else 0 */
    uint64_t prefixes;       /* of a field, else 0 */
} adtg_found;

/* Looks up a column in the original row that starts at `row`, through the numbers of a plan. With the plan of a schema it answers what
 * `adtg_look_up` answers with that schema. */
adtg_found adtg_planned_look_up(const uint64_t numbers[131], const uint8_t *row, size_t row_length, size_t column);

/* The same with a plan, which is not copied. */
static inline adtg_found adtg_find(const adtg_plan *plan, const uint8_t *row, size_t row_length, size_t column)
{
    return adtg_planned_look_up(plan->numbers, row, row_length, column);
}

/* ---- One column of many rows ---- */

/* The owner of the parent's rows. A child's rows have the child id as their owner. */
#define ADTG_PARENTS SIZE_MAX

/* How many numbers a span of `adtg_find_column` has, and how many a span of a page has. */
#define ADTG_SPAN_NUMBERS 2
#define ADTG_PAGE_SPAN_NUMBERS 3

/* What start and end of a span both are if the row has null, and if the column is a chapter. */
#define ADTG_NULL_SPAN UINT32_C(4294967295)
#define ADTG_CHAPTER_SPAN UINT32_C(4294967294)

/* Looks up one column in the original data of every row of one owner, all in one call, through the numbers of a plan.
 *
 * `numbers` are those of the plan of the owner's schema. `rows` is a table as `adtg_list_section` fills it, of the same section: four
 * numbers a row, with only as many rows as it answered. Each look-up is that of `adtg_planned_look_up` on the section from the row's
 * start on. `spans` then has two numbers a row, in the rows' order: start and end of the field in the section, or twice ADTG_NULL_SPAN,
 * or twice ADTG_CHAPTER_SPAN. Numbers behind the last stay as they were; an error leaves them all.
 *
 * The first row that is refused refuses the call, and the offset is the place in the section. Last comes the room: error 16 names the
 * output, and the offset is the rows that it needs room for.
 * out: rows of this owner. */
uint32_t adtg_find_column(const uint64_t numbers[131],
                          const uint8_t *section, size_t section_length,
                          const uint32_t *rows, size_t rows_length,
                          size_t owner, size_t column,
                          uint32_t *spans, size_t spans_length, uint64_t out[16]);

/* What a page answers. */
typedef struct adtg_page {
    uint32_t code;           /* 0, or the number of the error */
    uint64_t first;          /* the row that comes next; offset of an error */
    uint64_t second;         /* input of an error, else 0 */
    uint64_t spans;          /* how many spans were found; 0 beside an error */
} adtg_page;

/* Looks up one column in the original rows of one owner, page by page, through the numbers of a plan.
 *
 * `numbers` are those of the plan of the owner's schema. `table` is what `adtg_list_section` filled for the same section, and `rows` is
 * what it answered, so that nothing after the last row is taken for a row. `from` is the row to start at. `owner` is ADTG_PARENTS or a
 * child id.
 *
 * The call fills a span for each row of the owner, in the order of the rows, for as many rows as `spans` has room for. A span is three
 * numbers:
 *     the number of the row in the table
 *     where the field starts in the section
 *     where the field ends in the section
 * If there is no field, the last two are both ADTG_NULL_SPAN or both ADTG_CHAPTER_SPAN. A span says what `adtg_planned_look_up` finds in
 * the section from the start of the row on.
 *
 * The answer's `first` is the row that comes next: the next row of this owner, or `rows` if there is none. Call again from there:
 *
 *     for (size_t from = 0; from < rows;) {
 *         adtg_page page = adtg_find_page(plan.numbers, section, section_length, table, table_length, rows, from,
 *                                         ADTG_PARENTS, column, spans, spans_length);
 *         if (page.code != 0) return refuse(adtg_failure_of(page));
 *         for (size_t i = 0; i < page.spans; i++) use(spans + ADTG_PAGE_SPAN_NUMBERS * i);
 *         from = page.first; }
 *
 * `spans` needs room for at least one span, three numbers. With less the answer is 0 spans and no progress. There is no error 16.
 *
 * A row that is refused ends the page before it. If it is the first row of the page, it refuses the call. The error is then about the
 * section, and its offset is counted there; only an error about the column stays an error about the column. After an error `spans` is as
 * it was. Numbers after the last span always stay as they were.
 *
 * It reads original rows. Of a changed row it finds the old value (`adtg_current` has the new one), and deleted rows are found like any
 * other. An owner without rows is no error, and then the column is not looked at.
 *
 * The checks come in this order: the section is over the limit (19, the section); `rows` is over table_length / 4 or over 16,777,216
 * (18, the table); `from` is over `rows` (18, the place); then the first row. */
adtg_page adtg_find_page(const uint64_t numbers[131],
                         const uint8_t *section, size_t section_length,
                         const uint32_t *table, size_t table_length, size_t rows, size_t from,
                         size_t owner, size_t column,
                         uint32_t *spans, size_t spans_length);

/* ---- Why a call failed ---- */

/* A failure with this code, or no failure if the code is 0. */
static inline adtg_failure adtg_failure_at(uint32_t code, uint64_t offset, uint64_t input)
{
    adtg_failure failure = {0, 0, 0};
    if (code != 0) {
        failure.code = code;
        failure.offset = offset;
        failure.input = input;
    }
    return failure;
}

/* The failure of a call with `out`, from what it returned and that `out`. */
static inline adtg_failure adtg_failure_out(uint32_t code, const uint64_t out[16])
{
    return adtg_failure_at(code, out[0], out[1]);
}

/* The failure of a call that returned this struct. */
static inline adtg_failure adtg_failure_plan(const adtg_plan_answer *answer)
{
    return adtg_failure_at(answer->code, answer->offset, answer->input);
}

static inline adtg_failure adtg_failure_found(const adtg_found *answer)
{
    return adtg_failure_at(answer->code, answer->first, answer->second);
}

static inline adtg_failure adtg_failure_fed(const adtg_fed *answer)
{
    return adtg_failure_at(answer->code, answer->first, answer->second);
}

static inline adtg_failure adtg_failure_page(const adtg_page *answer)
{
    return adtg_failure_at(answer->code, answer->first, answer->second);
}

#ifdef __cplusplus
}
#endif

/* One name for all of these structs. `answer` is a variable. */
#if defined(__cplusplus)
static inline adtg_failure adtg_failure_of(const adtg_plan_answer &answer) { return adtg_failure_plan(&answer); }
static inline adtg_failure adtg_failure_of(const adtg_found &answer) { return adtg_failure_found(&answer); }
static inline adtg_failure adtg_failure_of(const adtg_fed &answer) { return adtg_failure_fed(&answer); }
static inline adtg_failure adtg_failure_of(const adtg_page &answer) { return adtg_failure_page(&answer); }
#elif defined(__STDC_VERSION__) && __STDC_VERSION__ >= 201112L
#define adtg_failure_of(answer)              \
    _Generic((answer),                       \
        adtg_plan_answer: adtg_failure_plan, \
        adtg_found: adtg_failure_found,      \
        adtg_fed: adtg_failure_fed,          \
        adtg_page: adtg_failure_page)(&(answer))
#endif

#endif
