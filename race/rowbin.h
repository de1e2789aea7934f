/* The C interface that both sides of the race have.
   An answer is 0, the number of a refusal (1 to 20), or 100 (null), 101 (chapter). */
#include <stddef.h>
#include <stdint.h>

/* Bytes of memory (aligned to 8) that a plan needs. */
size_t rb_plan_size(void);
/* Reads a sheet file of n bytes and makes the plan of sheet `number`. */
uint32_t rb_plan_make(const uint8_t *sheet, size_t n, uint32_t number, void *plan);
/* Optional: compares a plan with sheet `number` of a file. */
uint32_t rb_plan_check(const void *plan, const uint8_t *sheet, size_t n, uint32_t number);
/* Planned look-up. out: start, end, prefixes of a field; out[0]: the place of a refusal. */
uint32_t rb_look_up(const void *plan, const uint8_t *row, size_t n, uint32_t column, uint32_t out[3]);
/* The walk, from the sheet file's bytes. */
uint32_t rb_walk(const uint8_t *sheet, size_t sheet_n, uint32_t number,
                 const uint8_t *row, size_t n, uint32_t column, uint32_t out[3]);
/* Reads a section into a table of `numbers` 32-bit numbers. out: the rows, or the place of a refusal. */
uint32_t rb_read_section(const uint8_t *sheet, size_t sheet_n, const uint8_t *section, size_t n,
                         uint32_t *table, size_t numbers, uint32_t *out);
/* Optional: the same by another way, of which the faster counts. */
uint32_t rb_read_section_journal(const uint8_t *sheet, size_t sheet_n, const uint8_t *section, size_t n,
                                 uint32_t *table, size_t numbers, uint32_t *out);
/* Optional: checks a section. out: the rows, or the place of a refusal. */
uint32_t rb_check_section(const uint8_t *sheet, size_t sheet_n, const uint8_t *section, size_t n, uint32_t *out);
