/* capture.c: reads the row that a server of Microsoft's sent, and prints its five fields.
 *
 * The bytes are the row section of captures/pubs.adtg; they stand in the program, so that it runs in any folder. c/run.sh builds it
 * and compares what it prints. */
#include <stdio.h>

#include "adtg.h"
#include "adtg_text.h"

/* The columns: four bytes, nullable text up to 40 and up to 20, two bytes or null, nullable text up to 30. */
static const uint8_t schema[] = {
    0x05, 0x13, 0x00, 0x81, 0x01, 0x01, 0x28, 0x81, 0x01, 0x01, 0x14, 0x12, 0x01, 0x81, 0x01, 0x01, 0x1E,
};

/* A parent row, its presence map with reserved bits set, five fields, and the done token. */
static const uint8_t section[] = {
    0x07, 0xFF,
    0x30, 0x37, 0x33, 0x36,
    0x0E, 0x4E, 0x65, 0x77, 0x20, 0x4D, 0x6F, 0x6F, 0x6E, 0x20, 0x42, 0x6F, 0x6F, 0x6B, 0x73,
    0x08, 0x4E, 0x65, 0x77, 0x20, 0x59, 0x6F, 0x72, 0x6B,
    0x4D, 0x41,
    0x03, 0x55, 0x53, 0x41,
    0x0F,
};

enum { COLUMNS = 5 };

static int refused(const char *call, adtg_failure failure)
{
    char text[ADTG_TEXT_SIZE];
    adtg_describe(failure, text, sizeof text);
    printf("%s: %s\n", call, text);
    return 1;
}

int main(void)
{
    uint64_t out[16];
    uint32_t table[ADTG_ROW_NUMBERS];

    /* The section is read whole: where this succeeds, every row of it is sound. */
    uint32_t code = adtg_list_section(schema, sizeof schema, section, sizeof section, table, ADTG_ROW_NUMBERS, out);
    if (code != 0)
        return refused("section", adtg_failure_out(code, out));
    printf("rows: %llu\n", (unsigned long long)out[0]);

    /* The row starts where the table says. Bytes behind it don't matter. */
    const uint8_t *row = section + table[2];
    size_t length = sizeof section - table[2];

    adtg_plan_answer made = adtg_make_plan(schema, sizeof schema, 0);
    if (made.code != 0)
        return refused("plan", adtg_failure_of(made));
    for (size_t column = 0; column < COLUMNS; column++) {
        adtg_found found = adtg_find(&made.plan, row, length, column);
        if (found.code != 0)
            return refused("look-up", adtg_failure_of(found));
        if (found.kind == ADTG_FIELD)
            printf("%zu: %.*s\n", column, (int)(found.second - found.first), (const char *)row + found.first);
        else
            printf("%zu: null\n", column);
    }
    return 0;
}
