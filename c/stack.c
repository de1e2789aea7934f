/* stack.c: measures how much stack each call takes, and fails where one takes more than adtg.h says.
 *
 *     stack ../include/adtg.h
 *
 * The calls are made on a thread whose stack is an array. Before a call the array is filled with a pattern, from its start up to the
 * frame of the measuring function; the first word that the call changed says how far down it went. Every call is made with every mix of
 * the inputs below: schema files up to the greatest depth and beyond, rows, update data, sections short and long, and each as what it is
 * not. For each call the most that it took is printed, in bytes, arguments included. */
#define _POSIX_C_SOURCE 200809L
#include <pthread.h>
#include <stdio.h>
#include <stdlib.h>
#include <string.h>

#include "adtg.h"

enum {
    STACK = 384 * 1024,      /* bytes of the thread's stack */
    FRAME = 256,             /* bytes that the measuring function's own frame may have */
    KNOWN = 100000,          /* bytes that the trial of the measure takes */
    MOST = 96 * 1024,        /* bytes that adtg.h may allow any call */
    LAID = 1 << 20,          /* bytes of all inputs together */
    ROOM = 1 << 21,          /* bytes of an output, numbers of a table */
    WIDE = 64,               /* columns of a wide schema */
    TEXT = 100,              /* the greatest length of its texts, in characters */
    ENTRIES = 3 * WIDE,      /* numbers of its entries */
    ELEMENTS = 300000        /* parents of a long run */
};

static _Alignas(4096) unsigned char stack[STACK];

struct input {
    const uint8_t *bytes;
    size_t length;
};

static uint8_t laid[LAID];
static size_t laid_length;
static struct input files[8], datas[16];
static size_t file_count, data_count;

/* What the calls are made with. */
static struct input file, data;
static size_t number, column, owner, numbers_length, rows_length;
static uint32_t numbers[ROOM], rows[ROOM], entries[ENTRIES];
static adtg_plan plan;
static size_t begun_length;
static adtg_reader begun;   /* a reader that was fed so many bytes of the data */

/* What they write. */
static uint64_t out[16];
static uint8_t output[ROOM];
static uint32_t table[ROOM];
static adtg_plan_answer made;
static adtg_reader reader;

static void fail(const char *why, const char *what)
{
    fprintf(stderr, "stack: %s%s\n", why, what);
    exit(1);
}

/* The calls: 0, or the number of the error. Nothing that they are lent lies on the stack. */
static uint32_t version(void) { return adtg_version(out); }

static uint32_t read_header(void) { return adtg_read_header(data.bytes, data.length, out); }

static uint32_t write_header(void) { return adtg_write_header(1, 0, 0, (uint8_t)column, output, ROOM, out); }

static uint32_t write_header_short(void) { return adtg_write_header_short(1, 0, output, data.length, out); }

static uint32_t read_options(void) { return adtg_read_options(data.bytes, data.length, out); }

static uint32_t write_options(void)
{
    return adtg_write_options(data.bytes, data.length, file.bytes, file.length, file.bytes, file.length, (uint16_t)column,
                              output, ROOM, out);
}

static uint32_t read_schema(void) { return adtg_read_schema(file.bytes, file.length, out); }

static uint32_t schema_columns(void) { return adtg_schema_columns(file.bytes, file.length, number, out); }

static uint32_t schema_column(void) { return adtg_schema_column(file.bytes, file.length, number, column, out); }

static uint32_t schema_of_child(void) { return adtg_schema_of_child(file.bytes, file.length, (uint32_t)number, out); }

static uint32_t write_schema(void) { return adtg_write_schema(numbers, numbers_length, output, ROOM, out); }

static uint32_t schema_numbers(void) { return adtg_schema_numbers(file.bytes, file.length, table, ROOM, out); }

static uint32_t check_section(void)
{
    return adtg_check_section(file.bytes, file.length, data.bytes, data.length, out);
}

static uint32_t list_section(void)
{
    return adtg_list_section(file.bytes, file.length, data.bytes, data.length, table, ROOM, out);
}

static uint32_t first_reader(void)
{
    reader = adtg_first_reader();
    return 0;
}

static uint32_t feed(void)
{
    reader = begun;
    return adtg_feed(file.bytes, file.length, &reader, data.bytes + begun_length, data.length - begun_length).code;
}

static uint32_t close_reader(void)
{
    reader = begun;
    return adtg_close(file.bytes, file.length, &reader).code;
}

static uint32_t look_up(void)
{
    return adtg_look_up(file.bytes, file.length, number, data.bytes, data.length, column, out);
}

static uint32_t field_count(void)
{
    return adtg_field_count(file.bytes, file.length, number, data.bytes, data.length, out);
}

static uint32_t row_end(void) { return adtg_row_end(file.bytes, file.length, number, data.bytes, data.length, 0, out); }

static uint32_t look_update(void)
{
    return adtg_look_update(file.bytes, file.length, number, data.bytes, data.length, column, out);
}

static uint32_t update_end(void)
{
    return adtg_update_end(file.bytes, file.length, number, data.bytes, data.length, 0, out);
}

static uint32_t current(void)
{
    return adtg_current(file.bytes, file.length, number, data.bytes, data.length, data.bytes, data.length, column, out);
}

static uint32_t write_original(void)
{
    return adtg_write_original(file.bytes, file.length, number, entries, ENTRIES, data.bytes, data.length, 1, output, ROOM,
                               out);
}

static uint32_t write_update(void)
{
    return adtg_write_update(file.bytes, file.length, number, entries, ENTRIES, data.bytes, data.length, 1, output, ROOM,
                             out);
}

static uint32_t make_plan(void)
{
    made = adtg_make_plan(file.bytes, file.length, number);
    return made.code;
}

static uint32_t check_plan(void) { return adtg_check_plan(plan, file.bytes, file.length, number, out); }

static uint32_t fixed_place(void) { return adtg_fixed_place(plan, column, out); }

static uint32_t open_row(void) { return adtg_open_row(plan, data.bytes, data.length, out); }

static uint32_t planned_look_up(void) { return adtg_find(&plan, data.bytes, data.length, column).code; }

static uint32_t find_column(void)
{
    return adtg_find_column(plan.numbers, data.bytes, data.length, rows, rows_length, owner, column, table, ROOM, out);
}

static uint32_t find_page(void)
{
    return adtg_find_page(plan.numbers, data.bytes, data.length, rows, rows_length, rows_length / ADTG_ROW_NUMBERS, 0, owner,
                          column, table, ROOM).code;
}

static struct call {
    const char *name;
    uint32_t (*make)(void);
    size_t taken;
    int answered;
} calls[] = {
    {"adtg_version", version, 0, 0},
    {"adtg_read_header", read_header, 0, 0},
    {"adtg_write_header", write_header, 0, 0},
    {"adtg_write_header_short", write_header_short, 0, 0},
    {"adtg_read_options", read_options, 0, 0},
    {"adtg_write_options", write_options, 0, 0},
    {"adtg_read_schema", read_schema, 0, 0},
    {"adtg_schema_columns", schema_columns, 0, 0},
    {"adtg_schema_column", schema_column, 0, 0},
    {"adtg_schema_of_child", schema_of_child, 0, 0},
    {"adtg_write_schema", write_schema, 0, 0},
    {"adtg_schema_numbers", schema_numbers, 0, 0},
    {"adtg_check_section", check_section, 0, 0},
    {"adtg_list_section", list_section, 0, 0},
    {"adtg_first_reader", first_reader, 0, 0},
    {"adtg_feed", feed, 0, 0},
    {"adtg_close", close_reader, 0, 0},
    {"adtg_look_up", look_up, 0, 0},
    {"adtg_field_count", field_count, 0, 0},
    {"adtg_row_end", row_end, 0, 0},
    {"adtg_look_update", look_update, 0, 0},
    {"adtg_update_end", update_end, 0, 0},
    {"adtg_current", current, 0, 0},
    {"adtg_write_original", write_original, 0, 0},
    {"adtg_write_update", write_update, 0, 0},
    {"adtg_make_plan", make_plan, 0, 0},
    {"adtg_check_plan", check_plan, 0, 0},
    {"adtg_fixed_place", fixed_place, 0, 0},
    {"adtg_open_row", open_row, 0, 0},
    {"adtg_planned_look_up", planned_look_up, 0, 0},
    {"adtg_find_column", find_column, 0, 0},
    {"adtg_find_page", find_page, 0, 0},
};

enum { CALLS = sizeof calls / sizeof calls[0] };

/* Makes a call, and says how far below this frame it went. By `volatile` the compiler neither makes calls of the loops nor draws the
 * function that is called into this one. */
static size_t measure(uint32_t (*call)(void), uint32_t *code)
{
    uint32_t (*volatile make)(void) = call;
    volatile unsigned char here = 0;
    uintptr_t top = (uintptr_t)&here;
    volatile uint64_t *end = (volatile uint64_t *)((top - FRAME) & ~(uintptr_t)7);
    volatile uint64_t *word;
    for (word = (volatile uint64_t *)stack; word < end; word++)
        *word = ~(uint64_t)(uintptr_t)word;
    *code = make();
    for (word = (volatile uint64_t *)stack; word < end; word++)
        if (*word != ~(uint64_t)(uintptr_t)word)
            break;
    return top - (uintptr_t)word;
}

/* The trial of the measure: a function that takes what is known. */
static volatile size_t lowest;

static uint32_t known(void)
{
    volatile unsigned char taken[KNOWN];
    taken[lowest] = 1;
    return taken[lowest];
}

/* Makes every call once with what is set. */
static void *measure_all(void *unused)
{
    uint32_t code;
    size_t trial = measure(known, &code);
    if (trial < KNOWN || trial > KNOWN + 2 * FRAME)
        fail("the measure is wrong", "");
    for (size_t i = 0; i < CALLS; i++) {
        size_t taken = measure(calls[i].make, &code);
        if (taken > calls[i].taken)
            calls[i].taken = taken;
        if (code == 0)
            calls[i].answered = 1;
    }
    return unused;
}

static void on_the_stack(void *(*run)(void *))
{
    pthread_attr_t attributes;
    pthread_t thread;
    if (pthread_attr_init(&attributes) != 0 || pthread_attr_setstack(&attributes, stack, STACK) != 0 ||
        pthread_create(&thread, &attributes, run, NULL) != 0 || pthread_join(thread, NULL) != 0)
        fail("there is no thread with this stack", "");
    pthread_attr_destroy(&attributes);
}

/* Inputs are laid one behind the other. */
static void lay(int byte)
{
    if (laid_length == LAID)
        fail("the inputs are too long", "");
    laid[laid_length++] = (uint8_t)byte;
}

static void lay_many(int byte, size_t count)
{
    for (size_t i = 0; i < count; i++)
        lay(byte);
}

static void lay_element(int token, size_t bytes)
{
    lay(token);
    lay(1);
    lay_many(0, 3 + bytes);
}

static struct input since(size_t start)
{
    struct input input = {laid + start, laid_length - start};
    return input;
}

static struct input cut(struct input input)
{
    input.length--;
    return input;
}

/* Schemas nested to a depth: nullable wide texts, and as the last column of all but the innermost a nullable chapter. */
static void lay_schema(int depth, int id)
{
    lay(WIDE);
    for (int i = 1; i <= WIDE; i++) {
        int chapter = i == WIDE && depth > 1;
        lay(chapter ? 0x88 : 0x82);
        lay(0x01);
        lay(0x01);
        lay(chapter ? id : TEXT);
    }
    if (depth > 1)
        lay_schema(depth - 1, id + 1);
}

static void lay_files(void)
{
    static const uint8_t chapter[] = {0x01, 0x88, 0x01, 0x00, 0x01, 0x01, 0x11, 0x00};
    for (int depth = 1; depth <= 5; depth++) {
        size_t start = laid_length;
        lay_schema(depth, 1);
        files[file_count++] = since(start);
    }
    /* The one of depth 4 that ends in its innermost schema; a chapter alone, whose parent rows have no bytes. */
    files[file_count++] = cut(files[3]);
    files[file_count++] = (struct input){chapter, sizeof chapter};
}

/* A row with all fields but the last, with one map or two. */
static void lay_row(int maps)
{
    lay_many(0xFF, WIDE / 8 - 1);
    lay(0xFE);
    lay_many(0, WIDE / 8 * (maps - 1));
    for (int i = 1; i < WIDE; i++) {
        lay(2 * TEXT);
        lay_many(0, 2 * TEXT);
    }
}

/* Parent rows, children and their changes, all without fields. */
static void lay_section(size_t parents)
{
    for (size_t i = 0; i < parents; i++) {
        lay(0x07);
        lay_many(0, WIDE / 8);
        lay_element(0x87, WIDE / 8);
        lay_element(0x8A, WIDE / 8 * 2);
    }
    lay(0x0F);
}

static void lay_datas(void)
{
    static const uint8_t header[] = {0x01, 0x07, 0x54, 0x47, 0x21, 0x01, 0x00, 0x00, 0x00};
    static const uint8_t options[] = {0x02, 0x19, 0x00, 0xB6, 0x92, 0xF2, 0x3F, 0x04, 0xB2, 0xCF, 0x11, 0x8D, 0x23, 0x00,
                                      0xAA, 0x00, 0x5F, 0xFE, 0x58, 0x01, 0x00, 0x00, 0x00, 0x00, 0x00, 0x00, 0x01, 0x00};
    datas[data_count++] = (struct input){header, sizeof header};
    datas[data_count++] = (struct input){options, sizeof options};
    datas[data_count++] = (struct input){header, 0};
    for (int maps = 1; maps <= 2; maps++) {
        size_t start = laid_length;
        lay_row(maps);
        datas[data_count++] = since(start);
        datas[data_count++] = cut(since(start));
    }
    /* Every bit of both maps. */
    size_t start = laid_length;
    lay_many(0xFF, WIDE / 4);
    datas[data_count++] = since(start);
    /* A short section, and one that is long enough for the larger array of notes. */
    for (size_t parents = 1; parents <= 1000; parents *= 1000) {
        start = laid_length;
        lay_section(parents);
        datas[data_count++] = since(start);
    }
    start = laid_length;
    lay_many(0x07, ELEMENTS);
    lay(0x0F);
    datas[data_count++] = since(start);
}

/* Sets what a schema file, data, a schema number and a column bring with them. */
static void set(struct input of_file, struct input of_data, size_t of_number, size_t of_column)
{
    file = of_file;
    data = of_data;
    number = of_number;
    column = of_column;
    owner = number == 0 ? ADTG_PARENTS : number;
    plan = adtg_make_plan(file.bytes, file.length, number).plan;
    numbers_length = adtg_schema_numbers(file.bytes, file.length, numbers, ROOM, out) == 0 ? out[0] : WIDE;
    /* Where the data are no section they are one row, as far as a table says. */
    memcpy(rows, (uint32_t[]){ADTG_PARENT, 0, 0, 0}, ADTG_ROW_NUMBERS * sizeof rows[0]);
    int listed = adtg_list_section(file.bytes, file.length, data.bytes, data.length, rows, ROOM, out) == 0;
    rows_length = ADTG_ROW_NUMBERS * (listed ? out[0] : 1);
    /* Nothing of the data, one third, two, or all, as the column is one or another. */
    begun_length = data.length * (column % 4) / 3;
    begun = adtg_first_reader();
    (void)adtg_feed(file.bytes, file.length, &begun, data.bytes, begun_length);
    for (size_t i = 0; i < WIDE; i++) {
        entries[3 * i] = i + 1 < WIDE ? ADTG_ENTRY_VALUE : column % 3;
        entries[3 * i + 1] = 0;
        entries[3 * i + 2] = 2 * TEXT;
    }
}

/* The bytes that the header allows a call: by a line of its own, else by that of every other call. */
static size_t allowed(FILE *header, const char *call)
{
    char line[512], name[64];
    unsigned kilobytes;
    size_t own = 0, other = 0;
    rewind(header);
    while (fgets(line, sizeof line, header) != NULL) {
        if (sscanf(line, " * %63[a-z_ ]: at most %u KB", name, &kilobytes) != 2)
            continue;
        if (strcmp(name, call) == 0)
            own = 1024 * (size_t)kilobytes;
        if (strcmp(name, "every other call") == 0)
            other = 1024 * (size_t)kilobytes;
    }
    return own != 0 ? own : other;
}

int main(int count, char **words)
{
    static const size_t some_numbers[] = {0, 1, 3, 4}, some_columns[] = {1, 2, WIDE - 1, WIDE};
    FILE *header = count == 2 ? fopen(words[1], "r") : NULL;
    if (header == NULL)
        fail("it takes the path of adtg.h", "");
    lay_files();
    lay_datas();
    for (size_t f = 0; f < file_count; f++)
        for (size_t d = 0; d < data_count; d++)
            for (size_t n = 0; n < sizeof some_numbers / sizeof some_numbers[0]; n++)
                for (size_t c = 0; c < sizeof some_columns / sizeof some_columns[0]; c++) {
                    set(files[f], datas[d], some_numbers[n], some_columns[c]);
                    on_the_stack(measure_all);
                }
    for (size_t i = 0; i < CALLS; i++) {
        const struct call *call = &calls[i];
        printf("%s %zu\n", call->name, call->taken);
        if (!call->answered)
            fail("no input was taken by ", call->name);
        if (allowed(header, call->name) > MOST)
            fail("adtg.h allows too much to ", call->name);
        if (call->taken > allowed(header, call->name))
            fail("more than adtg.h allows is taken by ", call->name);
    }
    fclose(header);
    return 0;
}
