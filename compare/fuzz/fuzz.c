/* A fuzz target over the C calls of the archive: any bytes, any numbers, any plan, any reader.
 *
 * An input is eight bytes of numbers, a schema file and data: schema number and side of the guard page, column, offset (two
 * bytes), space (two bytes), length of the file (two bytes), then the file and the data. Every call is made with them. What is
 * lent lies directly at a page that may not be touched, so a byte too far ends the run.
 *
 * Checked are the form of each reply, that memory outside a piece is left alone, that fields lie in the row, and that calls
 * about the same thing agree. The archive is not instrumented. What its calls answer is counted instead, so that inputs with
 * new answers are kept. */
#include <stdint.h>
#include <stdio.h>
#include <stdlib.h>
#include <string.h>
#include <sys/mman.h>

#include "adtg.h"

#define PAGE 4096u
#define AREA (64u * PAGE)     /* of a lent piece */
#define MAX_SIZE 65536u       /* of an input */
#define MAX_SPACE 8192u       /* numbers of a table or bytes of an output */
#define HEAD 8u               /* bytes of numbers */
#define ROW_NUMBERS 4u        /* numbers of a row in a table */
#define ENTRY_NUMBERS 3u      /* numbers of an entry for a row writer */
#define SPAN_NUMBERS 2u       /* numbers of a row in the spans of a batch */
#define PAGE_SPAN_NUMBERS 3u  /* numbers of a span of a page: row, start, end */
#define FRAGMENTS 32u         /* of a section at most */
#define LAST_ERROR 20u
#define LAST_INPUT 21u

enum token { PARENT = 0x07, CHILD = 0x87, CHANGE = 0x8A, DELETE = 0x8C, END = 0x0F };
enum row_kind { PARENT_ROW = 1, CHILD_ROW = 2, CHANGED_ROW = 3, DELETED_ROW = 4 };

/* Places for what is lent. */
enum slot { FILE_SLOT, DATA_SLOT, FIRST_SLOT, SECOND_SLOT, TABLE_SLOT, OUTPUT_SLOT, SPANS_SLOT, READER_SLOT, SLOTS };

/* The calls, as the counters know them. */
enum call {
    READ_HEADER, WRITE_HEADER, WRITE_HEADER_SHORT, READ_OPTIONS, WRITE_OPTIONS, READ_SCHEMA, SCHEMA_COLUMNS, SCHEMA_COLUMN,
    SCHEMA_OF_CHILD, WRITE_SCHEMA, SCHEMA_NUMBERS, LOOK_UP, FIELD_COUNT, ROW_END, LOOK_UPDATE, UPDATE_END, CURRENT,
    WRITE_ORIGINAL, WRITE_UPDATE, CHECK_SECTION, LIST_SECTION, MAKE_PLAN, CHECK_PLAN, FIXED_PLACE, FIND, OPEN_ROW,
    FORGED_PLACE, FORGED_FIND, FORGED_OPEN, FIND_COLUMN, FORGED_FIND_COLUMN, FIND_PAGE, FORGED_FIND_PAGE, FEED, CLOSE,
    FORGED_FEED, FORGED_CLOSE, VERSION
};

/* What the answers were, for the fuzzer. */
#define COUNTERS 32768u
__attribute__((used, section("__libfuzzer_extra_counters"))) static uint8_t counters[COUNTERS];

/* A run of bytes that is lent. */
struct bytes {
    const uint8_t *at;
    size_t length;
};

/* An input, taken apart. */
struct input {
    size_t number;
    size_t column;
    size_t offset;
    size_t space;
    int guard_in_front;
    struct bytes file;
    struct bytes data;
};

static uint8_t *areas[SLOTS];

/* What a table or an output holds before a call. */
static uint32_t before[AREA / sizeof(uint32_t)];

int LLVMFuzzerInitialize(int *count, char ***words);
int LLVMFuzzerTestOneInput(const uint8_t *bytes, size_t size);

_Noreturn static void fail(const char *what)
{
    fprintf(stderr, "fuzz: %s\n", what);
    abort();
}

static void need(int holds, const char *what)
{
    if (!holds) {
        fail(what);
    }
}

/* Makes areas between two pages that may not be touched, and what they hold before a call. */
int LLVMFuzzerInitialize(int *count, char ***words)
{
    (void)count;
    (void)words;
    for (int slot = 0; slot < SLOTS; slot++) {
        uint8_t *all = mmap(NULL, AREA + 2 * PAGE, PROT_NONE, MAP_PRIVATE | MAP_ANONYMOUS, -1, 0);
        need(all != MAP_FAILED, "no memory");
        need(mprotect(all + PAGE, AREA, PROT_READ | PROT_WRITE) == 0, "no access");
        areas[slot] = all + PAGE;
    }
    for (size_t at = 0; at < AREA / sizeof(uint32_t); at++) {
        before[at] = (uint32_t)at * 2654435761u ^ 0xA5A5A5A5u;
    }
    return 0;
}

/* Where a piece of this size lies: directly behind a guard page or directly in front of one. */
static uint8_t *place(enum slot slot, size_t size, int guard_in_front)
{
    return guard_in_front ? areas[slot] : areas[slot] + AREA - size;
}

static struct bytes lend(enum slot slot, const uint8_t *from, size_t length, int guard_in_front)
{
    uint8_t *at = place(slot, length, guard_in_front);
    if (length > 0) {
        memcpy(at, from, length);
    }
    return (struct bytes){at, length};
}

static uint32_t *lend_numbers(enum slot slot, size_t count, int guard_in_front)
{
    uint8_t *numbers = place(slot, count * sizeof(uint32_t), guard_in_front);
    memcpy(numbers, before, count * sizeof(uint32_t));
    return (uint32_t *)(void *)numbers;
}

static uint32_t *lend_table(size_t count, int guard_in_front) { return lend_numbers(TABLE_SLOT, count, guard_in_front); }

static uint8_t *lend_output(size_t size, int guard_in_front)
{
    uint8_t *output = place(OUTPUT_SLOT, size, guard_in_front);
    memcpy(output, before, size);
    return output;
}

static void table_is_kept(const uint32_t *table, size_t from, size_t to)
{
    need(memcmp(table + from, before + from, (to - from) * sizeof(uint32_t)) == 0, "numbers outside the piece changed");
}

static void output_is_kept(const uint8_t *output, size_t from, size_t to)
{
    need(memcmp(output + from, (const uint8_t *)before + from, to - from) == 0, "bytes outside the piece changed");
}

/* Small numbers as they are, others by their size. */
static uint32_t bucket(uint64_t number)
{
    uint32_t bits = 0;
    if (number < 48) {
        return (uint32_t)number;
    }
    while (number > 0) {
        number >>= 1;
        bits++;
    }
    return 48 + bits;
}

static void count(enum call call, uint32_t code, uint64_t first, uint64_t second)
{
    uint32_t mixed = (uint32_t)call;
    mixed = mixed * 31 + code;
    mixed = mixed * 127 + bucket(first);
    mixed = mixed * 127 + bucket(second);
    counters[mixed * 2654435761u >> 17] = 1;
}

/* What `out` holds before a call, so that numbers left alone are noticed. */
static void spoil(uint64_t out[16]) { memset(out, 0xA5, 16 * sizeof(uint64_t)); }

/* The form of a reply; `used` numbers belong to an answer. */
static void check_reply(enum call call, uint32_t code, const uint64_t out[16], size_t used)
{
    need(code <= LAST_ERROR, "an unknown error");
    need(code == 0 || out[1] <= LAST_INPUT, "an unknown input");
    for (size_t at = code == 0 ? used : 2; at < 16; at++) {
        need(out[at] == 0, "a number behind the reply");
    }
    count(call, code, out[0], out[1]);
}

/* The field of an answer (kind, start, end, prefixes) lies in its input; other kinds have none. */
static void check_field(const uint64_t field[4], uint64_t last_kind, size_t length)
{
    need(field[0] >= ADTG_FIELD && field[0] <= last_kind, "an unknown kind");
    if (field[0] == ADTG_FIELD) {
        need(field[1] <= field[2] && field[2] <= length, "a field outside the row");
    } else {
        need(field[1] == 0 && field[2] == 0 && field[3] == 0, "numbers beside no field");
    }
}

static void check_found(enum call call, adtg_found found, size_t length)
{
    need(found.code <= LAST_ERROR, "an unknown error");
    if (found.code == 0) {
        uint64_t field[4] = {found.kind, found.first, found.second, found.prefixes};
        check_field(field, ADTG_CHAPTER, length);
    } else {
        need(found.kind == 0 && found.prefixes == 0, "an answer beside an error");
        need(found.second <= LAST_INPUT, "an unknown input");
    }
    count(call, found.code, found.first, found.second);
}

/* The archive is that of the header. */
static void version(void)
{
    uint64_t out[16];
    spoil(out);
    uint32_t code = adtg_version(out);
    check_reply(VERSION, code, out, 2);
    need(code == 0 && out[0] == ADTG_VERSION && out[1] == ADTG_PLAN_LAYOUT, "another version");
}

static void header_and_options(const struct input *in)
{
    uint64_t out[16], written[16];
    spoil(out);
    uint32_t code = adtg_read_header(in->data.at, in->data.length, out);
    check_reply(READ_HEADER, code, out, 5);
    if (code == 0) {
        uint8_t *output = lend_output(in->space, in->guard_in_front);
        spoil(written);
        code = adtg_write_header((uint8_t)out[0], (uint8_t)out[1], (uint8_t)out[2], (uint8_t)out[3], output, in->space,
                                 written);
        check_reply(WRITE_HEADER, code, written, 1);
        need(code == 0 || code == ADTG_CAPACITY, "a header that was read can't be written");
        size_t size = code == 0 ? written[0] : 0;
        need(size <= in->space && memcmp(output, in->data.at, size) == 0, "another header is written");
        output_is_kept(output, size, in->space);
    }
    uint8_t *output = lend_output(in->space, in->guard_in_front);
    spoil(out);
    code = adtg_write_header((uint8_t)in->number, (uint8_t)in->column, (uint8_t)in->offset, (uint8_t)(in->offset >> 8), output,
                             in->space, out);
    check_reply(WRITE_HEADER, code, out, 1);
    output_is_kept(output, code == 0 ? out[0] : 0, in->space);

    output = lend_output(in->space, in->guard_in_front);
    spoil(out);
    code = adtg_write_header_short((uint8_t)in->number, (uint8_t)in->column, output, in->space, out);
    check_reply(WRITE_HEADER_SHORT, code, out, 1);
    output_is_kept(output, code == 0 ? out[0] : 0, in->space);

    spoil(out);
    code = adtg_read_options(in->data.at, in->data.length, out);
    check_reply(READ_OPTIONS, code, out, 9);
    if (code == 0) {
        for (size_t at = 1; at < 6; at++) {
            need(out[at] <= out[at + 1], "strings of the options overlap");
        }
        need(out[6] <= out[8] && out[8] <= in->data.length, "a string outside the options");
    }
    struct bytes first = lend(FIRST_SLOT, in->data.at, in->data.length / 2, in->guard_in_front);
    struct bytes second = lend(SECOND_SLOT, in->data.at, in->data.length / 3, in->guard_in_front);
    output = lend_output(in->space, in->guard_in_front);
    spoil(out);
    code = adtg_write_options(first.at, first.length, second.at, second.length, in->file.at, in->file.length,
                              (uint16_t)in->column, output, in->space, out);
    check_reply(WRITE_OPTIONS, code, out, 1);
    output_is_kept(output, code == 0 ? out[0] : 0, in->space);
}

static void schemas(const struct input *in)
{
    const uint8_t *file = in->file.at;
    size_t length = in->file.length;
    uint64_t out[16], more[16];
    spoil(out);
    uint32_t code = adtg_read_schema(file, length, out);
    check_reply(READ_SCHEMA, code, out, 2);
    if (code == 0) {
        /* All columns of all schemas, and the way back from a chapter's id. */
        uint64_t columns = 0;
        for (size_t number = 0; number < out[0]; number++) {
            spoil(more);
            need(adtg_schema_columns(file, length, number, more) == 0, "a schema is missing");
            check_reply(SCHEMA_COLUMNS, 0, more, 1);
            uint64_t of_schema = more[0];
            columns += of_schema;
            for (size_t column = 0; column < of_schema; column++) {
                spoil(more);
                need(adtg_schema_column(file, length, number, column, more) == 0, "a column is missing");
                check_reply(SCHEMA_COLUMN, 0, more, 5);
                if (more[0] == 0x88) {
                    uint64_t nested = more[4];
                    need(adtg_schema_of_child(file, length, (uint32_t)more[3], more) == 0, "a child is missing");
                    need(more[0] == nested, "a child has another number");
                }
            }
        }
        need(columns == out[1], "columns are missing");
    }
    spoil(more);
    check_reply(SCHEMA_COLUMNS, adtg_schema_columns(file, length, in->number, more), more, 1);
    spoil(more);
    check_reply(SCHEMA_COLUMN, adtg_schema_column(file, length, in->number, in->column, more), more, 5);
    spoil(more);
    check_reply(SCHEMA_OF_CHILD, adtg_schema_of_child(file, length, (uint32_t)in->offset, more), more, 1);

    uint32_t *table = lend_table(in->space, in->guard_in_front);
    spoil(more);
    uint32_t listed = adtg_schema_numbers(file, length, table, in->space, more);
    check_reply(SCHEMA_NUMBERS, listed, more, 1);
    need((code == 0) == (listed == 0 || listed == ADTG_CAPACITY), "a file is read in two ways");
    size_t numbers = listed == 0 ? more[0] : 0;
    table_is_kept(table, numbers, in->space);
    if (listed == 0) {
        uint8_t *output = lend_output(length, in->guard_in_front);
        spoil(more);
        need(adtg_write_schema(table, numbers, output, length, more) == 0, "a file is not written back");
        need(more[0] == length && memcmp(output, file, length) == 0, "another file is written back");
    }
    /* Any numbers for the writer. */
    size_t words = in->data.length / sizeof(uint32_t);
    table = (uint32_t *)(void *)place(TABLE_SLOT, words * sizeof(uint32_t), in->guard_in_front);
    memcpy(table, in->data.at, words * sizeof(uint32_t));
    uint8_t *output = lend_output(in->space, in->guard_in_front);
    spoil(more);
    code = adtg_write_schema(table, words, output, in->space, more);
    check_reply(WRITE_SCHEMA, code, more, 1);
    output_is_kept(output, code == 0 ? more[0] : 0, in->space);
}

static void rows(const struct input *in)
{
    const uint8_t *file = in->file.at, *data = in->data.at;
    size_t file_length = in->file.length, length = in->data.length;
    uint64_t out[16];
    spoil(out);
    uint32_t code = adtg_look_up(file, file_length, in->number, data, length, in->column, out);
    check_reply(LOOK_UP, code, out, 4);
    if (code == 0) {
        check_field(out, ADTG_CHAPTER, length);
    }
    spoil(out);
    check_reply(FIELD_COUNT, adtg_field_count(file, file_length, in->number, data, length, out), out, 1);
    spoil(out);
    code = adtg_row_end(file, file_length, in->number, data, length, in->offset, out);
    check_reply(ROW_END, code, out, 1);
    need(code != 0 || (in->offset <= out[0] && out[0] <= length), "a row ends elsewhere");
    spoil(out);
    code = adtg_look_update(file, file_length, in->number, data, length, in->column, out);
    check_reply(LOOK_UPDATE, code, out, 4);
    if (code == 0) {
        check_field(out, ADTG_UNCHANGED, length);
    }
    spoil(out);
    code = adtg_update_end(file, file_length, in->number, data, length, in->offset, out);
    check_reply(UPDATE_END, code, out, 1);
    need(code != 0 || (in->offset <= out[0] && out[0] <= length), "update data end elsewhere");

    size_t cut = in->offset % (length + 1);
    struct bytes row = lend(FIRST_SLOT, data, cut, in->guard_in_front);
    struct bytes update = lend(SECOND_SLOT, data + cut, length - cut, in->guard_in_front);
    spoil(out);
    code = adtg_current(file, file_length, in->number, row.at, row.length, update.at, update.length, in->column, out);
    check_reply(CURRENT, code, out, 5);
    if (code == 0) {
        need(out[1] == ADTG_FROM_ROW || out[1] == ADTG_FROM_UPDATE, "a value from nowhere");
        uint64_t field[4] = {out[0], out[2], out[3], out[4]};
        check_field(field, ADTG_CHAPTER, out[1] == ADTG_FROM_ROW ? row.length : update.length);
    }
}

typedef uint32_t row_writer(const uint8_t *file, size_t file_length, size_t number, const uint32_t *entries, size_t count,
                            const uint8_t *values, size_t values_length, size_t place, uint8_t *output, size_t capacity,
                            uint64_t out[16]);

/* One entry for each six bytes of the data: kind, and two ends in the values. */
static void write_rows(const struct input *in, enum call call, row_writer *writer)
{
    size_t entries = in->data.length / 6;
    size_t numbers = entries * ENTRY_NUMBERS;
    uint32_t *table = (uint32_t *)(void *)place(TABLE_SLOT, numbers * sizeof(uint32_t), in->guard_in_front);
    for (size_t at = 0; at < entries; at++) {
        const uint8_t *six = in->data.at + 6 * at;
        uint32_t start = six[1] | (uint32_t)six[2] << 8, length = six[3] | (uint32_t)six[4] << 8;
        table[ENTRY_NUMBERS * at] = six[0] < 250 ? six[0] % 3 : six[0];
        table[ENTRY_NUMBERS * at + 1] = start;
        table[ENTRY_NUMBERS * at + 2] = six[5] < 250 ? start + length : length;
    }
    size_t at = in->offset % (in->space + 2);
    uint8_t *output = lend_output(in->space, in->guard_in_front);
    uint64_t out[16];
    spoil(out);
    uint32_t code = writer(in->file.at, in->file.length, in->number, table, numbers, in->data.at, in->data.length, at, output,
                           in->space, out);
    check_reply(call, code, out, 1);
    size_t size = code == 0 ? out[0] : 0;
    need(code != 0 || (at <= in->space && size <= in->space - at), "a row outside the output");
    output_is_kept(output, 0, code == 0 ? at : in->space);
    output_is_kept(output, code == 0 ? at + size : in->space, in->space);
    if (code == 0) {
        uint64_t end[16];
        uint32_t (*reader)(const uint8_t *, size_t, size_t, const uint8_t *, size_t, size_t, uint64_t *) =
            call == WRITE_ORIGINAL ? adtg_row_end : adtg_update_end;
        need(reader(in->file.at, in->file.length, in->number, output, at + size, at, end) == 0, "a row is not read back");
        need(end[0] == at + size, "a row is read back to another end");
    }
}

static uint32_t four_bytes(const uint8_t *at)
{
    return at[0] | (uint32_t)at[1] << 8 | (uint32_t)at[2] << 16 | (uint32_t)at[3] << 24;
}

/* A token and a child id at `at`, which must be those. */
static void check_token(const struct input *in, size_t at, uint8_t token, uint32_t id)
{
    need(in->data.length - at >= 5 && in->data.at[at] == token && four_bytes(in->data.at + at + 1) == id,
         "a row without its element");
}

/* The rows of a table are the elements of the section, from its first byte to its last. */
static void check_rows(const struct input *in, const uint32_t *table, size_t rows)
{
    const uint8_t *file = in->file.at, *data = in->data.at;
    size_t file_length = in->file.length, length = in->data.length, at = 0;
    uint64_t out[16];
    for (size_t row = 0; row < rows; row++) {
        const uint32_t *numbers = table + ROW_NUMBERS * row;
        uint32_t kind = numbers[0], id = numbers[1];
        size_t number = 0;
        need(kind >= PARENT_ROW && kind <= DELETED_ROW, "an unknown kind of row");
        need(at < length, "more rows than elements");
        if (kind == PARENT_ROW) {
            need(data[at] == PARENT && id == 0, "a parent without its element");
            at += 1;
        } else {
            check_token(in, at, CHILD, id);
            need(adtg_schema_of_child(file, file_length, id, out) == 0, "a child without its schema");
            number = out[0];
            at += 5;
        }
        need(numbers[2] == at, "a row starts elsewhere");
        need(adtg_row_end(file, file_length, number, data, length, at, out) == 0, "a row that is refused");
        at = out[0];
        if (kind == CHANGED_ROW || kind == DELETED_ROW) {
            check_token(in, at, kind == CHANGED_ROW ? CHANGE : DELETE, id);
            at += 5;
        }
        need(numbers[3] == (kind == CHANGED_ROW ? at : 0), "update data start elsewhere");
        if (kind == CHANGED_ROW) {
            need(adtg_update_end(file, file_length, number, data, length, at, out) == 0, "update data that are refused");
            at = out[0];
        }
        count(LIST_SECTION, kind, row, id);
    }
    need(at + 1 == length && data[at] == END, "elements without a row");
}

/* A section is listed as it is checked, with the same count or the same error, but for the room of the table. */
static void section(const struct input *in)
{
    uint64_t out[16], checked_out[16];
    size_t space = in->space;
    spoil(checked_out);
    uint32_t checked = adtg_check_section(in->file.at, in->file.length, in->data.at, in->data.length, checked_out);
    check_reply(CHECK_SECTION, checked, checked_out, 1);
    need(checked != ADTG_CAPACITY, "a check is refused for its room");
    uint32_t *table = lend_table(space, in->guard_in_front);
    spoil(out);
    uint32_t code = adtg_list_section(in->file.at, in->file.length, in->data.at, in->data.length, table, space, out);
    check_reply(LIST_SECTION, code, out, 1);
    if (code == ADTG_CAPACITY) {
        table_is_kept(table, 0, space);
        need(checked == 0 && checked_out[0] == out[0], "a table is refused for rows that are not there");
        need(out[0] > space / ROW_NUMBERS && out[0] <= in->data.length, "a table is refused that has room");
        uint64_t rows = out[0];
        space = ROW_NUMBERS * rows;
        if (space * sizeof(uint32_t) > AREA) {
            return;
        }
        table = lend_table(space, in->guard_in_front);
        code = adtg_list_section(in->file.at, in->file.length, in->data.at, in->data.length, table, space, out);
        need(code == 0 && out[0] == rows, "a table is refused that has the room asked for");
    }
    need(code == checked && memcmp(out, checked_out, sizeof out) == 0, "a section is checked and listed in two ways");
    if (code == 0) {
        need(out[0] <= space / ROW_NUMBERS, "rows outside the table");
        check_rows(in, table, out[0]);
        table_is_kept(table, ROW_NUMBERS * out[0], space);
    } else {
        table_is_kept(table, 0, space);
    }
}

/* A reader, directly at a guard page. */
static adtg_reader *lend_reader(enum slot slot, const adtg_reader *from, int guard_in_front)
{
    struct bytes lent = lend(slot, (const uint8_t *)from, sizeof *from, guard_in_front);
    return (adtg_reader *)(uintptr_t)lent.at;
}

/* The form of what a reader answers. */
static void check_fed(enum call call, adtg_fed fed)
{
    need(fed.code <= LAST_ERROR, "an unknown error");
    if (fed.code == 0) {
        need(fed.progress == ADTG_GOING || fed.progress == ADTG_COMPLETE, "an unknown progress");
        need(fed.second == 0, "a number beside the progress");
    } else {
        need(fed.progress == 0, "a progress beside an error");
        need(fed.second <= LAST_INPUT, "an unknown input");
    }
    need(fed.progress != ADTG_GOING || (call != CLOSE && call != FORGED_CLOSE), "a close that goes on");
    count(call, 3 * fed.code + fed.progress, fed.first, fed.second);
}

static int same_fed(adtg_fed one, adtg_fed other)
{
    return one.code == other.code && one.progress == other.progress && one.first == other.first && one.second == other.second;
}

/* A section is gone over from element to element, as far as they are whole. */
struct way {
    size_t at;
    uint64_t rows;
};

/* The number of the schema of the child element at `at`; 0 where it is not whole or there is none. */
static size_t child_at(const struct input *in, size_t at, size_t length)
{
    uint64_t out[16];
    int known = length - at >= 5 &&
                adtg_schema_of_child(in->file.at, in->file.length, four_bytes(in->data.at + at + 1), out) == 0;
    return known ? out[0] : 0;
}

/* Goes on over whole elements within so many bytes, and counts the rows that start with one. */
static void go_on(const struct input *in, struct way *way, size_t length)
{
    const uint8_t *file = in->file.at, *data = in->data.at;
    size_t file_length = in->file.length;
    uint64_t out[16];
    while (way->at < length) {
        uint8_t token = data[way->at];
        size_t number = token == PARENT ? 0 : child_at(in, way->at, length), start = way->at + (token == PARENT ? 1 : 5);
        if (token == DELETE && start <= length) {
            way->at = start;
            continue;
        }
        if (token != PARENT && (number == 0 || (token != CHILD && token != CHANGE))) {
            return;
        }
        uint32_t code = token == CHANGE ? adtg_update_end(file, file_length, number, data, length, start, out)
                                        : adtg_row_end(file, file_length, number, data, length, start, out);
        if (code != 0) {
            return;
        }
        way->at = out[0];
        way->rows += token != CHANGE;
    }
}

/* What a reader has to answer by what the check of the same bytes says: whole rows in place of the section's own 1. */
static adtg_fed wanted_fed(const struct input *in, struct way *way, size_t length, int closed)
{
    uint64_t out[16];
    uint32_t code = adtg_check_section(in->file.at, in->file.length, in->data.at, length, out);
    if (code == ADTG_SHORT && out[1] == ADTG_SECTION && !closed) {
        go_on(in, way, length);
        return (adtg_fed){0, ADTG_GOING, way->rows, 0};
    }
    return code == 0 ? (adtg_fed){0, ADTG_COMPLETE, out[0], 0} : (adtg_fed){code, 0, out[0], out[1]};
}

/* The size of the next fragment: by a byte of the file, at times none. */
static size_t next_size(const struct input *in, size_t turn, size_t left)
{
    size_t byte = in->file.length > 0 ? in->file.at[turn % in->file.length] : turn;
    size_t size = byte % (in->column % 64 + 2);
    return turn + 1 == FRAGMENTS || size > left ? left : size;
}

/* A section that arrives in fragments is answered as it is checked, after each of them and at the end; a refusal stands, and so
 * does the answer of the close. */
static void arrival(const struct input *in)
{
    adtg_reader first = adtg_first_reader(), zeros;
    memset(&zeros, 0, sizeof zeros);
    need(memcmp(&first, &zeros, sizeof first) == 0, "the first reader has seen something");
    adtg_reader *reader = lend_reader(READER_SLOT, &first, in->guard_in_front);
    struct way way = {0, 0};
    adtg_fed stands = {0, 0, 0, 0};
    for (size_t turn = 0, at = 0; turn < FRAGMENTS && (at < in->data.length || turn == 0); turn++) {
        size_t size = next_size(in, turn, in->data.length - at);
        struct bytes fragment = lend(FIRST_SLOT, in->data.at + at, size, in->guard_in_front);
        at += size;
        adtg_fed fed = adtg_feed(in->file.at, in->file.length, reader, fragment.at, fragment.length);
        check_fed(FEED, fed);
        if (stands.code != 0) {
            need(same_fed(fed, stands), "a refusal does not stand");
            continue;
        }
        need(same_fed(fed, wanted_fed(in, &way, at, 0)), "a fragment is answered in another way");
        if (fed.code != 0) {
            stands = fed;
        }
        /* A copy that is closed here. */
        adtg_reader *copy = lend_reader(SECOND_SLOT, reader, in->guard_in_front);
        adtg_fed closed = adtg_close(in->file.at, in->file.length, copy);
        check_fed(CLOSE, closed);
        need(same_fed(closed, stands.code != 0 ? stands : wanted_fed(in, &way, at, 1)), "a close is answered in another way");
        adtg_fed later = adtg_feed(in->data.at, in->data.length, copy, in->file.at, in->file.length);
        need(same_fed(later, closed), "the answer of a close does not stand");
    }
    adtg_fed closed = adtg_close(in->file.at, in->file.length, reader);
    check_fed(CLOSE, closed);
    need(stands.code == 0 || same_fed(closed, stands), "a refusal does not stand");
    need(same_fed(closed, adtg_close(in->data.at, in->data.length, reader)), "the answer of a close does not stand");
}

/* Calls with a reader of any bytes answer something. */
static void forged_calls(const struct input *in, const adtg_reader *forged)
{
    adtg_reader *reader = lend_reader(READER_SLOT, forged, in->guard_in_front);
    for (size_t turn = 0, at = 0; turn < 3; turn++) {
        size_t size = next_size(in, turn, in->data.length - at);
        struct bytes fragment = lend(FIRST_SLOT, in->data.at + at, size, in->guard_in_front);
        at += size;
        check_fed(FORGED_FEED, adtg_feed(in->file.at, in->file.length, reader, fragment.at, fragment.length));
    }
    check_fed(FORGED_FEED, adtg_feed(in->file.at, in->file.length, reader, in->data.at, in->data.length));
    reader = lend_reader(READER_SLOT, forged, in->guard_in_front);
    check_fed(FORGED_CLOSE, adtg_close(in->file.at, in->file.length, reader));
}

/* A reader of any bytes, and one that was fed a part of the section and then changed in a few. */
static void forged_reader(const struct input *in)
{
    adtg_reader reader;
    memset(&reader, 0, sizeof reader);
    memcpy(&reader, in->file.at, in->file.length < sizeof reader ? in->file.length : sizeof reader);
    forged_calls(in, &reader);

    reader = adtg_first_reader();
    size_t part = in->offset % (in->data.length + 1);
    (void)adtg_feed(in->file.at, in->file.length, &reader, in->data.at, part);
    uint8_t *bytes = (uint8_t *)&reader;
    for (size_t at = 0; at + 1 < in->data.length && at < 6; at += 2) {
        bytes[in->data.at[at] % sizeof reader] ^= in->data.at[at + 1];
    }
    forged_calls(in, &reader);
}

static int same(adtg_found found, uint32_t code, const uint64_t out[16])
{
    if (code != 0) {
        return found.code == code && found.first == out[0] && found.second == out[1];
    }
    return found.code == 0 && found.kind == out[0] && found.first == out[1] && found.second == out[2] &&
           found.prefixes == out[3];
}

/* A row that is refused at opening is refused so by a look-up too, unless the plan lacks the column; one that opens is not
 * refused for its size or its map. */
static void opened_alike(adtg_found found, uint32_t opened, const uint64_t out[16])
{
    if (opened == 0) {
        need(found.code != ADTG_TOO_LARGE && found.code != ADTG_CHAPTER_BIT, "a row that opens is refused");
    } else {
        need(found.code == ADTG_MISSING || same(found, opened, out), "a row that does not open answers in another way");
    }
}

/* A plan that is made answers as the schema does. */
static void made_plan(const struct input *in)
{
    const uint8_t *data = in->data.at;
    size_t length = in->data.length;
    uint64_t out[16], place[16];
    adtg_plan_answer made = adtg_make_plan(in->file.at, in->file.length, in->number);
    need(made.code <= LAST_ERROR && made.input <= LAST_INPUT, "an unknown error");
    count(MAKE_PLAN, made.code, made.offset, made.input);
    if (made.code != 0) {
        return;
    }
    spoil(out);
    check_reply(CHECK_PLAN, adtg_check_plan(made.plan, in->file.at, in->file.length, in->number, out), out, 0);
    need(adtg_check_plan(made.plan, in->file.at, in->file.length, in->number, out) == 0, "a plan that was made is refused");

    uint32_t code = adtg_look_up(in->file.at, in->file.length, in->number, data, length, in->column, out);
    adtg_found found = adtg_find(&made.plan, data, length, in->column);
    check_found(FIND, found, length);
    need(same(found, code, out), "a plan answers in another way");
    spoil(place);
    uint32_t placed = adtg_fixed_place(made.plan, in->column, place);
    check_reply(FIXED_PLACE, placed, place, 2);
    if (placed == 0 && place[0] == ADTG_FIXED && found.code == 0 && found.kind == ADTG_FIELD) {
        need(found.first == place[1], "a field is not in its fixed place");
    }
    spoil(place);
    uint32_t opened = adtg_open_row(made.plan, data, length, place);
    check_reply(OPEN_ROW, opened, place, 1);
    opened_alike(found, opened, place);
}

/* A plan of any bytes still answers, and its fields lie in the row. */
static void forged_plan(const struct input *in)
{
    const uint8_t *data = in->data.at;
    size_t length = in->data.length;
    uint64_t out[16];
    adtg_plan plan;
    memset(&plan, 0, sizeof plan);
    memcpy(&plan, in->file.at, in->file.length < sizeof plan ? in->file.length : sizeof plan);
    spoil(out);
    check_reply(FORGED_PLACE, adtg_fixed_place(plan, in->column, out), out, 2);
    spoil(out);
    check_reply(CHECK_PLAN, adtg_check_plan(plan, data, length, in->number, out), out, 0);
    adtg_found found = adtg_find(&plan, data, length, in->column);
    check_found(FORGED_FIND, found, length);
    spoil(out);
    uint32_t opened = adtg_open_row(plan, data, length, out);
    check_reply(FORGED_OPEN, opened, out, 1);
    opened_alike(found, opened, out);
}

/* A plan that is made, and then changed in a few bytes. */
static void changed_plan(const struct input *in)
{
    adtg_plan_answer made = adtg_make_plan(in->file.at, in->file.length, in->number);
    uint8_t plan[sizeof made.plan];
    memcpy(plan, &made.plan, sizeof plan);
    for (size_t at = 0; at + 2 < in->data.length && at < 12; at += 3) {
        plan[(in->data.at[at] | (size_t)in->data.at[at + 1] << 8) % sizeof plan] ^= in->data.at[at + 2];
    }
    struct input forged = *in;
    forged.file = lend(FIRST_SLOT, plan, sizeof plan, in->guard_in_front);
    forged_plan(&forged);
}

/* What a batch is held against: one look-up for each row of the owner. Fills spans that there is room for, and answers the
 * error or 0, with what a batch says in `out`. */
static uint32_t one_by_one(const adtg_plan *plan, const struct input *in, const uint32_t *rows, size_t count, size_t owner,
                           uint32_t *spans, size_t space, uint64_t out[16])
{
    size_t length = in->data.length, found_rows = 0;
    memset(out, 0, 16 * sizeof(uint64_t));
    for (size_t row = 0; row < count / ROW_NUMBERS; row++) {
        const uint32_t *numbers = rows + ROW_NUMBERS * row;
        if ((numbers[0] == PARENT_ROW ? ADTG_PARENTS : numbers[1]) != owner) {
            continue;
        }
        size_t start = numbers[2] < length ? numbers[2] : length;
        adtg_found found = adtg_find(plan, in->data.at + start, length - start, in->column);
        if (found.code != 0) {
            int in_row = found.second == ADTG_ROW;
            out[0] = in_row ? start + found.first : found.first;
            out[1] = in_row ? ADTG_SECTION : found.second;
            return found.code;
        }
        if (found_rows < space / SPAN_NUMBERS) {
            uint32_t mark = found.kind == ADTG_NULL ? ADTG_NULL_SPAN : ADTG_CHAPTER_SPAN;
            int is_field = found.kind == ADTG_FIELD;
            spans[SPAN_NUMBERS * found_rows] = is_field ? (uint32_t)(start + found.first) : mark;
            spans[SPAN_NUMBERS * found_rows + 1] = is_field ? (uint32_t)(start + found.second) : mark;
        }
        found_rows++;
    }
    out[0] = found_rows;
    if (found_rows > space / SPAN_NUMBERS) {
        out[1] = ADTG_OUTPUT;
        return ADTG_CAPACITY;
    }
    return 0;
}

/* A batch answers what look-ups answer row by row, and leaves the spans behind it; after an error all of them. */
static void batch(enum call call, const adtg_plan *plan, const struct input *in, const uint32_t *rows, size_t count,
                  size_t owner)
{
    static uint32_t wanted[MAX_SPACE];
    uint64_t out[16], wanted_out[16];
    uint32_t *spans = lend_numbers(SPANS_SLOT, in->space, in->guard_in_front);
    spoil(out);
    uint32_t code = adtg_find_column(plan->numbers, in->data.at, in->data.length, rows, count, owner, in->column, spans,
                                     in->space, out);
    check_reply(call, code, out, 1);
    uint32_t wanted_code = one_by_one(plan, in, rows, count, owner, wanted, in->space, wanted_out);
    need(code == wanted_code && memcmp(out, wanted_out, sizeof out) == 0, "a batch answers in another way");
    size_t filled = code == 0 ? SPAN_NUMBERS * out[0] : 0;
    need(filled <= in->space && memcmp(spans, wanted, filled * sizeof(uint32_t)) == 0, "a batch finds something else");
    table_is_kept(spans, filled, in->space);
    for (size_t at = 0; at < filled; at += SPAN_NUMBERS) {
        int is_mark = spans[at] == spans[at + 1] && spans[at] >= ADTG_CHAPTER_SPAN;
        need(is_mark || (spans[at] <= spans[at + 1] && spans[at + 1] <= in->data.length), "a span outside the section");
    }
}

/* What a page is asked for, but for section and column. */
struct asked {
    enum call call;
    const adtg_plan *plan;
    const uint32_t *table;
    size_t length;
    size_t rows;
    size_t from;
    size_t owner;
};

static adtg_page refused_page(uint32_t code, uint64_t offset, uint64_t input)
{
    return (adtg_page){.code = code, .first = offset, .second = input};
}

/* What a page is held against: one look-up for each row of the owner. Fills the spans that there is room for. */
static adtg_page page_one_by_one(const struct input *in, const struct asked *asked, uint32_t *spans, size_t space)
{
    size_t length = in->data.length;
    if (asked->rows > asked->length / ROW_NUMBERS) {
        return refused_page(ADTG_MISSING, 0, ADTG_TABLE);
    }
    if (asked->from > asked->rows) {
        return refused_page(ADTG_MISSING, 0, ADTG_PLACE);
    }
    adtg_page page = {.first = asked->rows};
    for (size_t row = asked->from; row < asked->rows; row++) {
        const uint32_t *numbers = asked->table + ROW_NUMBERS * row;
        if ((numbers[0] == PARENT_ROW ? ADTG_PARENTS : numbers[1]) != asked->owner) {
            continue;
        }
        page.first = row;
        if (page.spans == space / PAGE_SPAN_NUMBERS) {
            return page;
        }
        size_t start = numbers[2] < length ? numbers[2] : length;
        adtg_found found = adtg_find(asked->plan, in->data.at + start, length - start, in->column);
        if (found.code != 0 && page.spans > 0) {
            return page;
        }
        if (found.code != 0) {
            int in_row = found.second == ADTG_ROW;
            return refused_page(found.code, in_row ? start + found.first : found.first, in_row ? ADTG_SECTION : found.second);
        }
        uint32_t *span = spans + PAGE_SPAN_NUMBERS * page.spans++;
        uint32_t mark = found.kind == ADTG_NULL ? ADTG_NULL_SPAN : ADTG_CHAPTER_SPAN;
        int is_field = found.kind == ADTG_FIELD;
        span[0] = (uint32_t)row;
        span[1] = is_field ? (uint32_t)(start + found.first) : mark;
        span[2] = is_field ? (uint32_t)(start + found.second) : mark;
    }
    page.first = asked->rows;
    return page;
}

static int same_page(adtg_page one, adtg_page other)
{
    return one.code == other.code && one.first == other.first && one.second == other.second && one.spans == other.spans;
}

/* A page answers what look-ups answer row by row, and leaves the spans behind it; after an error all of them. */
static adtg_page find_page(const struct input *in, const struct asked *asked, uint32_t **spans, size_t space)
{
    static uint32_t wanted[AREA / sizeof(uint32_t)];
    *spans = lend_numbers(SPANS_SLOT, space, in->guard_in_front);
    adtg_page page = adtg_find_page(asked->plan->numbers, in->data.at, in->data.length, asked->table, asked->length,
                                    asked->rows, asked->from, asked->owner, in->column, *spans, space);
    need(page.code <= LAST_ERROR && page.code != ADTG_CAPACITY, "an unknown error");
    need(page.code == 0 ? page.second == 0 : page.second <= LAST_INPUT, "an unknown input");
    need(page.code == 0 || page.spans == 0, "spans beside an error");
    count(asked->call, page.code, page.first, page.code == 0 ? page.spans : page.second);
    need(same_page(page, page_one_by_one(in, asked, wanted, space)), "a page answers in another way");
    size_t filled = PAGE_SPAN_NUMBERS * page.spans;
    need(filled <= space && memcmp(*spans, wanted, filled * sizeof(uint32_t)) == 0, "a page finds something else");
    table_is_kept(*spans, filled, space);
    for (size_t at = 0; at < filled; at += PAGE_SPAN_NUMBERS) {
        uint32_t start = (*spans)[at + 1], end = (*spans)[at + 2];
        int is_mark = start == end && start >= ADTG_CHAPTER_SPAN;
        need(is_mark || (start <= end && end <= in->data.length), "a span outside the section");
    }
    return page;
}

/* All pages, each with other room: together they have what look-ups find row by row, up to the first that is refused. */
static void all_pages(const struct input *in, struct asked asked)
{
    static uint32_t wanted[AREA / sizeof(uint32_t)];
    adtg_page all = page_one_by_one(in, &asked, wanted, AREA / sizeof(uint32_t));
    size_t found = 0;
    for (size_t turn = 0; asked.from < asked.rows; turn++) {
        uint32_t *spans;
        adtg_page page = find_page(in, &asked, &spans, PAGE_SPAN_NUMBERS + (in->space + 5 * turn) % 17);
        if (page.code != 0) {
            need(found == 0 ? same_page(page, all) : asked.from == all.first, "the pages end with another error");
            break;
        }
        need(page.first > asked.from, "a page does not get on");
        need(found + page.spans <= all.spans, "the pages have more spans");
        need(memcmp(spans, wanted + PAGE_SPAN_NUMBERS * found, PAGE_SPAN_NUMBERS * page.spans * sizeof(uint32_t)) == 0,
             "the pages find something else");
        found += page.spans;
        asked.from = page.first;
    }
    need(found == all.spans, "the pages have fewer spans");
}

/* A page from any row on, one of any number of rows, and all pages. */
static void pages(enum call call, const adtg_plan *plan, const struct input *in, const uint32_t *table, size_t length,
                  size_t owner)
{
    struct asked asked = {call, plan, table, length, length / ROW_NUMBERS, 0, owner};
    uint32_t *spans;
    all_pages(in, asked);
    struct asked later = asked;
    later.from = in->offset % (asked.rows + 2);
    find_page(in, &later, &spans, in->space);
    asked.rows = (in->offset + in->space) % (asked.rows + 2);
    find_page(in, &asked, &spans, in->space);
}

/* Batches over the table of the section, where it has one, and over rows of any numbers: by the plan that is made, and by one
 * that is then changed in a few bytes. */
static void batches(const struct input *in)
{
    uint64_t out[16];
    adtg_plan_answer made = adtg_make_plan(in->file.at, in->file.length, in->number);
    adtg_plan forged = made.plan;
    uint8_t *bytes = (uint8_t *)forged.numbers;
    for (size_t at = 0; at + 2 < in->data.length && at < 12; at += 3) {
        bytes[(in->data.at[at] | (size_t)in->data.at[at + 1] << 8) % sizeof forged.numbers] ^= in->data.at[at + 2];
    }
    size_t id = in->offset;

    size_t space = in->data.length * ROW_NUMBERS;
    if (space * sizeof(uint32_t) <= AREA) {
        uint32_t *table = lend_table(space, in->guard_in_front);
        uint32_t code = adtg_list_section(in->file.at, in->file.length, in->data.at, in->data.length, table, space, out);
        if (code == 0) {
            size_t count = ROW_NUMBERS * out[0];
            /* Only as many numbers as there are rows, again at the guard page. */
            struct bytes rows = lend(SECOND_SLOT, (const uint8_t *)table, count * sizeof(uint32_t), in->guard_in_front);
            const uint32_t *numbers = (const uint32_t *)(const void *)rows.at;
            if (count > 0 && numbers[0] != PARENT_ROW) {
                id = numbers[1];
            }
            for (int child = 0; child < 2; child++) {
                size_t owner = child ? id : ADTG_PARENTS;
                batch(FIND_COLUMN, &made.plan, in, numbers, count, owner);
                pages(FIND_PAGE, &made.plan, in, numbers, count, owner);
                batch(FORGED_FIND_COLUMN, &forged, in, numbers, count, owner);
                pages(FORGED_FIND_PAGE, &forged, in, numbers, count, owner);
            }
        }
    }

    /* Rows of any numbers: kind, id and start from four bytes of the file, and at its end fewer than a row. */
    size_t count = in->file.length % ROW_NUMBERS + in->file.length / 4 * ROW_NUMBERS;
    if (count * sizeof(uint32_t) > AREA) {
        return;
    }
    uint32_t *rows = lend_table(count, in->guard_in_front);
    for (size_t row = 0; row < in->file.length / 4; row++) {
        const uint8_t *four = in->file.at + 4 * row;
        uint32_t *numbers = rows + ROW_NUMBERS * row;
        numbers[0] = four[0] % 6;
        numbers[1] = four[1] < 250 ? four[1] % 4 : (uint32_t)in->offset;
        uint32_t start = (four[2] | (uint32_t)four[3] << 8) % ((uint32_t)in->data.length + 2);
        numbers[2] = four[3] < 250 ? start : UINT32_MAX - four[2];
        numbers[3] = four[3];
    }
    batch(FIND_COLUMN, &made.plan, in, rows, count, ADTG_PARENTS);
    pages(FIND_PAGE, &made.plan, in, rows, count, ADTG_PARENTS);
    batch(FORGED_FIND_COLUMN, &forged, in, rows, count, ADTG_PARENTS);
    pages(FORGED_FIND_PAGE, &forged, in, rows, count, ADTG_PARENTS);
    batch(FORGED_FIND_COLUMN, &forged, in, rows, count, in->offset % 5);
    pages(FORGED_FIND_PAGE, &forged, in, rows, count, in->offset % 5);
    batch(FORGED_FIND_COLUMN, &forged, in, rows, count, ((size_t)1 << 32) + in->offset % 5);
    pages(FORGED_FIND_PAGE, &forged, in, rows, count, ((size_t)1 << 32) + in->offset % 5);
}

/* Small numbers as they are, two others far over any count. */
static size_t any_size(uint8_t byte, uint8_t top)
{
    return byte == top ? SIZE_MAX : byte == top - 1 ? (size_t)1 << 32 : byte;
}

int LLVMFuzzerTestOneInput(const uint8_t *bytes, size_t size)
{
    if (size < HEAD || size > MAX_SIZE) {
        return -1;
    }
    struct input in = {
        .number = any_size(bytes[0] & 0x7F, 0x7F),
        .guard_in_front = bytes[0] >> 7,
        .column = any_size(bytes[1], 0xFF),
        .offset = bytes[2] | (size_t)bytes[3] << 8,
        .space = (bytes[4] | (size_t)bytes[5] << 8) % MAX_SPACE,
    };
    size_t rest = size - HEAD, file = bytes[6] | (size_t)bytes[7] << 8;
    file = file < rest ? file : rest;
    in.file = lend(FILE_SLOT, bytes + HEAD, file, in.guard_in_front);
    in.data = lend(DATA_SLOT, bytes + HEAD + file, rest - file, in.guard_in_front);
    version();
    header_and_options(&in);
    schemas(&in);
    rows(&in);
    write_rows(&in, WRITE_ORIGINAL, adtg_write_original);
    write_rows(&in, WRITE_UPDATE, adtg_write_update);
    section(&in);
    made_plan(&in);
    forged_plan(&in);
    changed_plan(&in);
    batches(&in);
    arrival(&in);
    forged_reader(&in);
    return 0;
}
