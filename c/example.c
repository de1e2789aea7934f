/* example.c: checks a row section, lists its rows, and looks up a column of its parent rows through a plan, row by row and all in
 * one call.
 *
 * The bytes stand in the program, so that it runs without files; c/run.sh builds it and compares what it prints. */
#include <stdio.h>
#include <stdlib.h>

#include "adtg.h"

enum { ROW_NUMBERS = 4, SPAN_NUMBERS = 2, COLUMN = 0 };

/* A four-byte integer, and a chapter with child id 7 whose rows have one byte. */
static const uint8_t schema[] = {0x02, 0x03, 0x00, 0x88, 0x01, 0x00, 0x07, 0x01, 0x11, 0x00};

/* The same with an unsigned integer: as many columns of the same widths, and yet another schema. */
static const uint8_t changed_schema[] = {0x02, 0x13, 0x00, 0x88, 0x01, 0x00, 0x07, 0x01, 0x11, 0x00};

static const uint8_t section[] = {
    0x07, 0x05, 0x00, 0x00, 0x00,                   /* a parent row */
    0x87, 0x07, 0x00, 0x00, 0x00, 0x2A,             /* a child row */
    0x8A, 0x07, 0x00, 0x00, 0x00, 0x80, 0x00, 0x2B, /* and its change */
    0x07, 0x06, 0x00, 0x00, 0x00,                   /* another parent row */
    0x0F,
};

static const char *const kinds[] = {"", "parent", "child", "child changed", "child deleted"};

/* Ends the program where a call that must succeed is refused. */
static void must(const char *call, uint32_t code, uint64_t offset, uint64_t input)
{
    if (code != 0) {
        printf("%s refused %u at %llu of input %llu\n", call, (unsigned)code, (unsigned long long)offset,
               (unsigned long long)input);
        exit(1);
    }
}

/* Room for so many rows of a table or of spans, and for one more: a pointer that is lent is never null. */
static uint32_t *room(uint64_t rows, size_t numbers)
{
    uint32_t *made = calloc(rows + 1, numbers * sizeof *made);
    if (made == NULL) {
        printf("no memory\n");
        exit(1);
    }
    return made;
}

static void print_bytes(const uint8_t *bytes, uint64_t start, uint64_t end)
{
    for (uint64_t at = start; at < end; at++)
        printf(" %02X", bytes[at]);
}

/* Prints one column of a row, found through the plan. */
static void print_column(const adtg_plan *plan, const uint8_t *row, size_t length)
{
    adtg_found found = adtg_find(plan, row, length, COLUMN);
    must("look-up", found.code, found.first, found.second);
    printf("column %d:", COLUMN);
    switch (found.kind) {
    case ADTG_FIELD:
        print_bytes(row, found.first, found.second);
        break;
    case ADTG_NULL:
        printf(" null");
        break;
    case ADTG_CHAPTER:
        printf(" a chapter");
        break;
    }
    printf("\n");
}

/* Prints the same column of all parent rows of a table, found in one call. */
static void print_batch(const adtg_plan *plan, const uint32_t *table, size_t rows)
{
    uint64_t out[16];
    uint32_t *spans = room(rows, SPAN_NUMBERS);
    uint32_t code = adtg_find_column(plan->numbers, section, sizeof section, table, rows * ROW_NUMBERS, ADTG_PARENTS,
                                     COLUMN, spans, rows * SPAN_NUMBERS, out);
    must("batch", code, out[0], out[1]);
    printf("column %d of %llu parent rows:", COLUMN, (unsigned long long)out[0]);
    for (uint64_t number = 0; number < out[0]; number++) {
        const uint32_t *span = spans + SPAN_NUMBERS * number;
        if (number > 0)
            printf(",");
        if (span[0] == ADTG_NULL_SPAN)
            printf(" null");
        else if (span[0] == ADTG_CHAPTER_SPAN)
            printf(" a chapter");
        else
            print_bytes(section, span[0], span[1]);
    }
    printf("\n");
    free(spans);
}

int main(void)
{
    uint64_t out[16];

    /* The plan of schema 0 is made once and can be kept. */
    adtg_plan_answer made = adtg_make_plan(schema, sizeof schema, 0);
    must("plan", made.code, made.offset, made.input);

    /* It is checked where the schema comes anew. */
    uint32_t code = adtg_check_plan(made.plan, schema, sizeof schema, 0, out);
    must("check", code, out[0], out[1]);
    printf("the plan is that of the schema\n");

    /* The section is checked whole: where this succeeds, every row of it is sound. */
    code = adtg_check_section(schema, sizeof schema, section, sizeof section, out);
    must("section", code, out[0], out[1]);
    uint64_t rows = out[0];
    printf("%llu rows\n", (unsigned long long)rows);

    /* Its rows are listed in a table that has just the room. */
    uint32_t *table = room(rows, ROW_NUMBERS);
    code = adtg_list_section(schema, sizeof schema, section, sizeof section, table, rows * ROW_NUMBERS, out);
    must("table", code, out[0], out[1]);

    for (uint64_t number = 0; number < rows; number++) {
        const uint32_t *row = table + ROW_NUMBERS * number;
        size_t start = row[2];
        printf("row %llu, %s, at %zu\n", (unsigned long long)number, kinds[row[0]], start);
        /* Parent rows have the columns of schema 0. Bytes behind a row don't matter. */
        if (row[0] == ADTG_PARENT)
            print_column(&made.plan, section + start, sizeof section - start);
    }

    /* The same column of all parent rows: the fields are told by where they stand in the section. */
    print_batch(&made.plan, table, rows);
    free(table);

    /* Against another schema the plan is refused. */
    code = adtg_check_plan(made.plan, changed_schema, sizeof changed_schema, 0, out);
    printf("against the changed schema the plan is refused %u at %llu of input %llu\n", (unsigned)code,
           (unsigned long long)out[0], (unsigned long long)out[1]);
    return code == ADTG_PLAN_MISMATCH ? 0 : 1;
}
