/* rowbin.h over adtg.h: the archive's side of the race. */
#include "adtg.h"
#include <string.h>

size_t rb_plan_size(void) { return sizeof(adtg_plan); }

uint32_t rb_plan_make(const uint8_t *sheet, size_t n, uint32_t number, void *plan)
{
    adtg_plan_answer a = adtg_make_plan(sheet, n, number);
    memcpy(plan, &a.plan, sizeof a.plan);
    return a.code;
}

uint32_t rb_plan_check(const void *plan, const uint8_t *sheet, size_t n, uint32_t number)
{
    uint64_t o[16];
    return adtg_check_plan(*(const adtg_plan *)plan, sheet, n, number, o);
}

uint32_t rb_look_up(const void *plan, const uint8_t *row, size_t n, uint32_t column, uint32_t out[3])
{
    adtg_found f = adtg_find((const adtg_plan *)plan, row, n, column);
    if (f.code) { out[0] = (uint32_t)f.first; return f.code; }
    out[0] = (uint32_t)f.first; out[1] = (uint32_t)f.second; out[2] = (uint32_t)f.prefixes;
    return f.kind == ADTG_FIELD ? 0 : f.kind == ADTG_NULL ? 100 : 101;
}

uint32_t rb_walk(const uint8_t *sheet, size_t sheet_n, uint32_t number,
                 const uint8_t *row, size_t n, uint32_t column, uint32_t out[3])
{
    uint64_t o[16];
    uint32_t code = adtg_look_up(sheet, sheet_n, number, row, n, column, o);
    if (code) { out[0] = (uint32_t)o[0]; return code; }
    out[0] = (uint32_t)o[1]; out[1] = (uint32_t)o[2]; out[2] = (uint32_t)o[3];
    return o[0] == ADTG_FIELD ? 0 : o[0] == ADTG_NULL ? 100 : 101;
}

uint32_t rb_read_section(const uint8_t *sheet, size_t sheet_n, const uint8_t *section, size_t n,
                         uint32_t *table, size_t numbers, uint32_t *out)
{
    uint64_t o[16];
    uint32_t code = adtg_list_section(sheet, sheet_n, section, n, table, numbers, o);
    *out = (uint32_t)o[0];
    return code;
}

uint32_t rb_check_section(const uint8_t *sheet, size_t sheet_n, const uint8_t *section, size_t n, uint32_t *out)
{
    uint64_t o[16];
    uint32_t code = adtg_check_section(sheet, sheet_n, section, n, o);
    *out = (uint32_t)o[0];
    return code;
}
