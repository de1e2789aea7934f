/* texts.c: prints the words of adtg_text.h: every error, every input, and failures of each kind.
 *
 * c/run.sh compares what it prints with texts.expected, and a test of the Rust crate compares the same file with what the crate prints. */
#include <stdio.h>

#include "adtg_text.h"

enum { LAST_CODE = ADTG_ENTRY, LAST_INPUT = ADTG_READER };

static void print_failure(uint32_t code, uint64_t offset, uint64_t input)
{
    char text[ADTG_TEXT_SIZE];
    adtg_failure failure = {code, offset, input};
    adtg_describe(failure, text, sizeof text);
    printf("%s\n", text);
}

int main(void)
{
    for (unsigned code = 1; code <= LAST_CODE; code++)
        printf("code %u: %s\n", code, adtg_error_text(code));
    for (unsigned input = 0; input <= LAST_INPUT; input++)
        printf("input %u: %s\n", input, adtg_input_text(input));
    for (unsigned code = 1; code <= LAST_CODE; code++)
        print_failure(code, 5, ADTG_SINGLE);
    for (unsigned input = 0; input <= LAST_INPUT; input++)
        print_failure(ADTG_MISSING, 0, input);
    print_failure(ADTG_CAPACITY, 8, ADTG_TABLE);
    print_failure(ADTG_CAPACITY, 8, ADTG_OUTPUT);
    return 0;
}
