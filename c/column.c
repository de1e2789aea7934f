/* column.c: prints two columns of a few orders, page by page, and keeps its plan for the next run.
 *
 *     column [FOLDER]         keeps the plan in FOLDER/orders.plan
 *     column FOLDER before    does the same with the schema of before
 *
 * The orders stand in the program. c/run.sh builds it and compares what it prints. */
#include <stdio.h>
#include <stdlib.h>
#include <string.h>

#include "adtg.h"
#include "adtg_text.h"

/* The columns of an order, as the numbers that a schema file is made of: a count, then type, flags and maximum of each column. */
enum { ID, CUSTOMER, QUANTITY };

static const uint32_t columns[] = {
    3,          /* columns */
    3, 0,       /* id: an integer of four bytes */
    130, 1, 40, /* customer: nullable wide text of up to 40 characters */
    18, 0,      /* quantity: an unsigned integer of two bytes */
};

/* Before, a customer had up to 20 characters. */
static const uint32_t columns_before[] = {3, 3, 0, 130, 1, 20, 18, 0};

/* With one more column, a nullable byte. */
static const uint32_t columns_gained[] = {4, 3, 0, 130, 1, 40, 18, 0, 17, 1};

#define COUNT(array) (sizeof(array) / sizeof((array)[0]))

/* Five orders. A row is its token, its presence map, the id, the customer with the length in bytes before it, and the quantity. */
static const uint8_t section[] = {
    0x07, 0x80, 0xE9, 0x03, 0x00, 0x00, 8, 'A', 0, 'n', 0, 'n', 0, 'a', 0, 0x0C, 0x00, /* 1001, Anna, 12 */
    0x07, 0x00, 0xEA, 0x03, 0x00, 0x00, 0x03, 0x00,                                    /* 1002, null, 3 */
    0x07, 0x80, 0xEB, 0x03, 0x00, 0x00, 6, 'Z', 0, 'o', 0, 0xEB, 0, 0x2C, 0x01,        /* 1003, Zoë, 300 */
    0x07, 0x80, 0xEC, 0x03, 0x00, 0x00, 0, 0x01, 0x00,                                 /* 1004, an empty text, 1 */
    0x07, 0x80, 0xED, 0x03, 0x00, 0x00, 4, 'L', 0, 'i', 0, 0x28, 0x00,                 /* 1005, Li, 40 */
    0x0F,
};

struct schema {
    uint8_t bytes[64];
    size_t length;
};

/* What the file of a kept plan holds. */
struct kept {
    uint64_t layout; /* the ADTG_PLAN_LAYOUT that the plan was made with */
    adtg_plan plan;
};

static void print_failure(const char *what, adtg_failure failure)
{
    char text[ADTG_TEXT_SIZE];
    adtg_describe(failure, text, sizeof text);
    printf("%s: %s\n", what, text);
}

/* Ends the program where a call that must succeed fails. */
static void must(const char *what, adtg_failure failure)
{
    if (failure.code != 0) {
        print_failure(what, failure);
        exit(1);
    }
}

static void must_do(int done, const char *what)
{
    if (!done) {
        printf("cannot %s\n", what);
        exit(1);
    }
}

static struct schema make_schema(const uint32_t *numbers, size_t count)
{
    struct schema schema;
    uint64_t out[16];
    uint32_t code = adtg_write_schema(numbers, count, schema.bytes, sizeof schema.bytes, out);
    must("the schema", adtg_failure_out(code, out));
    schema.length = out[0];
    return schema;
}

/* Makes the plan of the schema and keeps it. A file that is written only in part does no harm: the next run refuses it. */
static adtg_plan make_plan(const struct schema *schema, const char *path)
{
    adtg_plan_answer made = adtg_make_plan(schema->bytes, schema->length, 0);
    must("the plan", adtg_failure_of(made));
    struct kept kept = {ADTG_PLAN_LAYOUT, made.plan};
    FILE *file = fopen(path, "wb");
    must_do(file != NULL, "open the file of the plan");
    size_t written = fwrite(&kept, sizeof kept, 1, file);
    must_do(fclose(file) == 0 && written == 1, "write the plan");
    return made.plan;
}

/* Loads what was kept: 1, or 0 where there is no file. */
static int load_kept(const char *path, struct kept *kept)
{
    FILE *file = fopen(path, "rb");
    if (file == NULL)
        return 0;
    if (fread(kept, sizeof *kept, 1, file) != 1)
        kept->layout = 0; /* that of no plan */
    fclose(file);
    return 1;
}

/* The plan of the schema: the kept one where it is still right, else a new one. Whatever the file holds, the check accepts only the
 * plan that would be made. */
static adtg_plan find_plan(const struct schema *schema, const char *path)
{
    struct kept kept;
    if (!load_kept(path, &kept)) {
        printf("plan: none was kept\n");
    } else if (kept.layout != ADTG_PLAN_LAYOUT) {
        printf("plan: what was kept is no plan of this layout\n");
    } else {
        uint64_t out[16];
        uint32_t code = adtg_check_plan(kept.plan, schema->bytes, schema->length, 0, out);
        if (code == 0) {
            printf("plan: the kept one is right\n");
            return kept.plan;
        }
        print_failure("plan: the kept one is refused", adtg_failure_out(code, out));
    }
    printf("plan: a new one is made\n");
    return make_plan(schema, path);
}

/* Prints wide text: characters of two bytes, low byte first. One that is not ASCII is printed as \u and its number. */
static void print_text(const uint8_t *field, size_t length)
{
    printf("\"");
    for (size_t at = 0; at < length; at += 2) {
        unsigned c = field[at] | (unsigned)field[at + 1] << 8;
        if (c >= ' ' && c <= '~')
            printf("%c", (int)c);
        else
            printf("\\u%04X", c);
    }
    printf("\"\n");
}

/* Prints an integer, low byte first. */
static void print_integer(const uint8_t *field, size_t length)
{
    uint64_t value = 0;
    for (size_t at = length; at > 0; at--)
        value = value << 8 | field[at - 1];
    printf("%llu\n", (unsigned long long)value);
}

/* Prints a column of every row. Here a page has room for two rows, so that the loop is seen. Some hundreds are better. */
static void print_column(const adtg_plan *plan, const uint32_t *table, size_t rows, const char *name, size_t column,
                         void (*print)(const uint8_t *field, size_t length))
{
    uint32_t spans[2 * ADTG_PAGE_SPAN_NUMBERS];
    size_t from = 0;
    while (from < rows) {
        adtg_page page = adtg_find_page(plan->numbers, section, sizeof section, table, rows * ADTG_ROW_NUMBERS, rows, from,
                                        ADTG_PARENTS, column, spans, COUNT(spans));
        must(name, adtg_failure_of(page));
        printf("%s, a page from row %zu on\n", name, from);
        for (size_t i = 0; i < page.spans; i++) {
            const uint32_t *span = spans + ADTG_PAGE_SPAN_NUMBERS * i;
            printf("  row %u: ", (unsigned)span[0]);
            if (span[1] == ADTG_NULL_SPAN)
                printf("null\n");
            else
                print(section + span[1], span[2] - span[1]);
        }
        from = page.first;
    }
}

int main(int count, char **words)
{
    char path[1024];
    int length = snprintf(path, sizeof path, "%s/orders.plan", count > 1 ? words[1] : ".");
    must_do(length > 0 && (size_t)length < sizeof path, "name the file of the plan");
    must_do(adtg_archive_matches(), "use this archive: it is not that of the header");
    int before = count > 2 && strcmp(words[2], "before") == 0;
    struct schema schema = before ? make_schema(columns_before, COUNT(columns_before)) : make_schema(columns, COUNT(columns));
    adtg_plan plan = find_plan(&schema, path);

    /* Check the whole section, which counts its rows, and then list these in a table that has the room. */
    uint64_t out[16];
    uint32_t code = adtg_check_section(schema.bytes, schema.length, section, sizeof section, out);
    must("the section", adtg_failure_out(code, out));
    size_t rows = out[0];
    uint32_t *table = malloc((rows + 1) * ADTG_ROW_NUMBERS * sizeof *table); /* one more: lend no null, not even for no rows */
    must_do(table != NULL, "get memory");
    code = adtg_list_section(schema.bytes, schema.length, section, sizeof section, table, rows * ADTG_ROW_NUMBERS, out);
    must("the table", adtg_failure_out(code, out));
    printf("orders: %zu\n", rows);
    print_column(&plan, table, rows, "customer", CUSTOMER, print_text);
    print_column(&plan, table, rows, "quantity", QUANTITY, print_integer);
    free(table);

    /* Two refusals: a section that is cut short, and a schema that gained a column. */
    code = adtg_check_section(schema.bytes, schema.length, section, sizeof section - 3, out);
    print_failure("a section cut short", adtg_failure_out(code, out));
    struct schema gained = make_schema(columns_gained, COUNT(columns_gained));
    code = adtg_check_plan(plan, gained.bytes, gained.length, 0, out);
    print_failure("the plan against a schema that gained a column", adtg_failure_out(code, out));
    return 0;
}
