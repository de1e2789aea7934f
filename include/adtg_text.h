/* adtg_text.h: the errors of adtg.h in words. The Rust crate prints the same words. */
#ifndef ADTG_TEXT_H
#define ADTG_TEXT_H

#include <stdio.h>

#include "adtg.h"

#ifdef __cplusplus
extern "C" {
#endif

/* Room for every text that `adtg_describe` writes. */
#define ADTG_TEXT_SIZE 128

/* What an error is. */
static inline const char *adtg_error_text(uint32_t code)
{
    static const char *const texts[] = {
        "no error",
        "the input ends too soon",
        "a constant byte differs",
        "a value is not allowed",
        "the size of the handler options is wrong",
        "a number is too long or not in its shortest form",
        "a number is out of range",
        "the schema nests too deep or has too many columns",
        "a child id is repeated",
        "the token is unknown",
        "no schema has this child id",
        "a change or deletion does not follow its child row",
        "the bit of a chapter is set",
        "null is forced where it may not be",
        "a length is not allowed",
        "bytes follow the end",
        "more room is needed",
        "the plan is not that of the schema",
        "it names nothing that exists",
        "the input is too large",
        "an entry does not fit its column",
    };
    return code < sizeof texts / sizeof texts[0] ? texts[code] : "an unknown error";
}

/* What an input is. */
static inline const char *adtg_input_text(uint64_t input)
{
    static const char *const texts[] = {
        "the input",
        "the schema file",
        "the schema number",
        "the row",
        "the update data",
        "the column number",
        "the row section",
        "the table",
        "the output",
        "the plan",
        "the entries",
        "the values",
        "the place",
        "the file of these numbers",
        "the byte order",
        "the unicode flag",
        "the first string",
        "the second string",
        "the third string",
        "the async option",
        "the child id",
        "the reader",
    };
    return input < sizeof texts / sizeof texts[0] ? texts[input] : "an unknown input";
}

/* What is missing if error 18 is about this input. */
static inline const char *adtg_missing_text(uint64_t input)
{
    switch (input) {
    case ADTG_SCHEMA_NUMBER:
        return "there is no such schema";
    case ADTG_COLUMN:
        return "there is no such column";
    case ADTG_TABLE:
        return "the table has fewer rows";
    case ADTG_ENTRIES:
        return "they are not one for each column, or one lies outside the values";
    case ADTG_PLACE:
        return "there is no such place";
    case ADTG_CHILD_ID:
        return "no schema has this child id";
    case ADTG_READER:
        return "no call makes such a reader";
    default:
        return adtg_error_text(ADTG_MISSING);
    }
}

/* What error 16 counts if it is about this input. */
static inline const char *adtg_room_text(uint64_t input)
{
    return input == ADTG_TABLE ? "rows, or numbers of a schema file" : "bytes";
}

/* Writes a failure in words, for example "error 14 at 5 of the row: a length is not allowed". The rules are those of snprintf: a text
 * that is too long for `size` bytes is cut, and the result is the length of the whole text. */
static inline int adtg_describe(adtg_failure failure, char *text, size_t size)
{
    const char *input = adtg_input_text(failure.input);
    const char *error = adtg_error_text(failure.code);
    unsigned code = failure.code;
    unsigned long long offset = failure.offset;
    switch (failure.code) {
    case 0:
        return snprintf(text, size, "%s", error);
    case ADTG_CAPACITY:
        return snprintf(text, size, "error %u of %s: it needs room for %llu %s", code, input, offset,
                        adtg_room_text(failure.input));
    case ADTG_PLAN_MISMATCH:
    case ADTG_TOO_LARGE:
        return snprintf(text, size, "error %u of %s: %s", code, input, error);
    case ADTG_MISSING:
        return snprintf(text, size, "error %u of %s: %s", code, input, adtg_missing_text(failure.input));
    case ADTG_ENTRY:
        return snprintf(text, size, "error %u of %s, column %llu: %s", code, input, offset, error);
    default:
        return snprintf(text, size, "error %u at %llu of %s: %s", code, offset, input, error);
    }
}

#ifdef __cplusplus
}
#endif

#endif
