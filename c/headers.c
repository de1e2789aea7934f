/* headers.c: uses both headers in each language that they are for. c/run.sh builds this file as C99, as C11 and as C++, and runs it. It
 * prints what does not hold. */
#include <stdio.h>
#include <string.h>

#include "adtg_text.h"

/* In C99 each struct has a function of its own. */
#if defined(__cplusplus) || __STDC_VERSION__ >= 201112L
#define PLAN_FAILURE adtg_failure_of(made)
#define FOUND_FAILURE adtg_failure_of(found)
#define FED_FAILURE adtg_failure_of(fed)
#define PAGE_FAILURE adtg_failure_of(page)
#else
#ifdef adtg_failure_of
#error "C99 has no such macro"
#endif
#define PLAN_FAILURE adtg_failure_plan(&made)
#define FOUND_FAILURE adtg_failure_found(&found)
#define FED_FAILURE adtg_failure_fed(&fed)
#define PAGE_FAILURE adtg_failure_page(&page)
#endif

static int wrong;

static void must(int holds, const char *what)
{
    if (!holds) {
        printf("%s\n", what);
        wrong = 1;
    }
}

static void must_be(adtg_failure failure, uint32_t code, uint64_t offset, uint64_t input, const char *what)
{
    must(failure.code == code && failure.offset == offset && failure.input == input, what);
}

static void must_say(uint32_t code, uint64_t offset, uint64_t input, const char *expected)
{
    char text[ADTG_TEXT_SIZE];
    adtg_failure failure = {code, offset, input};
    int length = adtg_describe(failure, text, sizeof text);
    must(length == (int)strlen(expected) && strcmp(text, expected) == 0, expected);
}

/* A four-byte integer, and a nullable byte. */
static const uint8_t schema[] = {0x02, 0x03, 0x00, 0x11, 0x01};

/* A row with both, and the done token. */
static const uint8_t section[] = {0x07, 0x80, 0x05, 0x00, 0x00, 0x00, 0x2A, 0x0F};

/* Each kind of answer, where the call succeeds and where it fails. */
static void ask_answers(void)
{
    uint64_t out[16];
    uint32_t table[ADTG_ROW_NUMBERS], spans[ADTG_PAGE_SPAN_NUMBERS];
    uint32_t code = adtg_list_section(schema, sizeof schema, section, sizeof section, table, ADTG_ROW_NUMBERS, out);
    must_be(adtg_failure_out(code, out), 0, 0, 0, "listed");
    code = adtg_list_section(schema, sizeof schema, section, 3, table, ADTG_ROW_NUMBERS, out);
    must_be(adtg_failure_out(code, out), ADTG_SHORT, 3, ADTG_SECTION, "not listed");

    adtg_plan_answer made = adtg_make_plan(schema, sizeof schema, 1);
    must_be(PLAN_FAILURE, ADTG_MISSING, 0, ADTG_SCHEMA_NUMBER, "no plan");
    made = adtg_make_plan(schema, sizeof schema, 0);
    must_be(PLAN_FAILURE, 0, 0, 0, "plan");

    const uint8_t *row = section + table[2];
    size_t length = sizeof section - table[2];
    adtg_found found = adtg_find(&made.plan, row, length, 1);
    must(found.first == 5 && found.second == 6, "field");
    must_be(FOUND_FAILURE, 0, 0, 0, "found");
    found = adtg_find(&made.plan, row, 3, 1);
    must_be(FOUND_FAILURE, ADTG_SHORT, 3, ADTG_ROW, "not found");

    code = adtg_find_column(made.plan.numbers, section, sizeof section, table, ADTG_ROW_NUMBERS, ADTG_PARENTS, 1, spans,
                            ADTG_SPAN_NUMBERS, out);
    must(out[0] == 1 && spans[0] == 6 && spans[1] == 7, "span of two numbers");
    must_be(adtg_failure_out(code, out), 0, 0, 0, "all rows");
    code = adtg_find_column(made.plan.numbers, section, sizeof section, table, ADTG_ROW_NUMBERS, ADTG_PARENTS, 1, spans,
                            ADTG_SPAN_NUMBERS - 1, out);
    must_be(adtg_failure_out(code, out), ADTG_CAPACITY, 1, ADTG_OUTPUT, "no room");

    adtg_page page = adtg_find_page(made.plan.numbers, section, sizeof section, table, ADTG_ROW_NUMBERS, 1, 0, ADTG_PARENTS, 1,
                                    spans, ADTG_PAGE_SPAN_NUMBERS);
    must(page.spans == 1 && page.first == 1 && spans[0] == 0 && spans[1] == 6 && spans[2] == 7, "span");
    must_be(PAGE_FAILURE, 0, 0, 0, "page");
    page = adtg_find_page(made.plan.numbers, section, 3, table, ADTG_ROW_NUMBERS, 1, 0, ADTG_PARENTS, 1, spans, ADTG_PAGE_SPAN_NUMBERS);
    must_be(PAGE_FAILURE, ADTG_SHORT, 3, ADTG_SECTION, "no page");
    page = adtg_find_page(made.plan.numbers, section, sizeof section, table, ADTG_ROW_NUMBERS, 2, 0, ADTG_PARENTS, 1, spans,
                          ADTG_PAGE_SPAN_NUMBERS);
    must_be(PAGE_FAILURE, ADTG_MISSING, 0, ADTG_TABLE, "no table");
    page = adtg_find_page(made.plan.numbers, section, sizeof section, table, ADTG_ROW_NUMBERS, 1, 2, ADTG_PARENTS, 1, spans,
                          ADTG_PAGE_SPAN_NUMBERS);
    must_be(PAGE_FAILURE, ADTG_MISSING, 0, ADTG_PLACE, "no place");
    page = adtg_find_page(made.plan.numbers, section, sizeof section, table, ADTG_ROW_NUMBERS, 1, 0, ADTG_PARENTS, 2, spans,
                          ADTG_PAGE_SPAN_NUMBERS);
    must_be(PAGE_FAILURE, ADTG_MISSING, 0, ADTG_COLUMN, "no column");

    adtg_reader reader = adtg_first_reader();
    adtg_fed fed = adtg_feed(schema, sizeof schema, &reader, section, 3);
    must_be(FED_FAILURE, 0, 0, 0, "fed");
    fed = adtg_close(schema, sizeof schema, &reader);
    must_be(FED_FAILURE, ADTG_SHORT, 3, ADTG_SECTION, "closed");
}

/* What texts.c does not print, the room for a text, and a text that is cut. */
static void ask_texts(void)
{
    char text[ADTG_TEXT_SIZE];
    adtg_failure none = {0, 0, 0};
    must_say(0, 0, 0, "no error");
    must_say(14, 5, ADTG_ROW, "error 14 at 5 of the row: a length is not allowed");
    must_say(21, 0, 22, "error 21 at 0 of an unknown input: an unknown error");
    for (uint32_t code = 0; code <= 21; code++)
        for (uint64_t input = 0; input <= 22; input++) {
            adtg_failure failure = {code, UINT64_MAX, input};
            must(adtg_describe(failure, text, sizeof text) < ADTG_TEXT_SIZE, "room");
        }
    must(adtg_describe(none, text, 3) == 8 && strcmp(text, "no") == 0, "cut");
    must(adtg_describe(none, NULL, 0) == 8, "measured");
}

int main(void)
{
    must(adtg_archive_matches(), "the archive is not that of the header");
    ask_answers();
    ask_texts();
    return wrong;
}
