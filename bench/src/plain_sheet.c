/* A margin sheet read in plain C, for the benchmark: one pass, numbers digit by digit, with every cause of
 * lta_sheet_branches. */
#include "lta_judgement.h"

#include <stdbool.h>
#include <string.h>

#define ZONES_MOST 16
#define LINES_MOST 64
/* A whole part from here on is out of every range, and its further digits are not added, so that nothing
 * overflows. */
#define WHOLE_ENOUGH 1000000

/* Reads a number in units of its last decimal; returns the byte after it, or null if there is no number. */
static const uint8_t *read_number(const uint8_t *at, const uint8_t *end, int decimals, int64_t *units, bool *past)
{
    bool negative = at < end && *at == '-';
    if (negative)
        at++;
    const uint8_t *first = at;
    int64_t size = 0;
    for (; at < end && *at >= '0' && *at <= '9'; at++)
        if (size < WHOLE_ENOUGH)
            size = 10 * size + (*at - '0');
    if (at == first)
        return NULL;
    if (at < end && *at == '.') {
        first = ++at;
        for (; at < end && *at >= '0' && *at <= '9'; at++) {
            if (decimals > 0) {
                size = 10 * size + (*at - '0');
                decimals--;
            } else if (*at != '0') {
                *past = true;
            }
        }
        if (at == first)
            return NULL;
    }
    for (; decimals > 0; decimals--)
        size *= 10;
    *units = negative ? -size : size;
    return at;
}

static void put(uint8_t *at, int32_t number)
{
    uint32_t bits = (uint32_t)number;
    for (int k = 0; k < 4; k++)
        at[k] = (uint8_t)(bits >> 8 * k);
}

static struct lta_written refused(uint32_t number, uint64_t line) { return (struct lta_written){number, line, 0}; }

struct lta_written plain_sheet_branches(const uint8_t *sheet, size_t sheet_len, size_t zones, uint8_t *out, size_t out_len)
{
    if (zones == 0 || zones > ZONES_MOST)
        return refused(LTA_SHEET_ZONES, 0);
    uint8_t branches[4 * (1 + ZONES_MOST) * LINES_MOST], *next = branches;
    const uint8_t *at = sheet, *end = sheet + sheet_len;
    /* The first line of 52 and of 53; a later line may still have 51. */
    uint64_t lines = 0, past_line = UINT64_MAX, range_line = UINT64_MAX;
    while (at < end) {
        bool past = false, out_of_range = false;
        for (size_t field = 0; field <= zones; field++) {
            int64_t units = 0, most = field == 0 ? 500000 : 200000;
            at = read_number(at, end, field == 0 ? 1 : 5, &units, &past);
            if (at == NULL)
                return refused(LTA_SHEET_FIELD, lines);
            if (units < -most || units > most)
                out_of_range = true;
            if (lines < LINES_MOST) {
                put(next, (int32_t)(field == 0 ? units : -units));
                next += 4;
            }
            if (field < zones && (at == end || *at++ != ','))
                return refused(LTA_SHEET_FIELD, lines);
        }
        if (at < end && *at++ != '\n')
            return refused(LTA_SHEET_FIELD, lines);
        if (past && past_line == UINT64_MAX)
            past_line = lines;
        if (out_of_range && range_line == UINT64_MAX)
            range_line = lines;
        lines++;
    }
    if (past_line != UINT64_MAX)
        return refused(LTA_SHEET_DECIMAL, past_line);
    if (range_line != UINT64_MAX)
        return refused(LTA_SHEET_RANGE, range_line);
    if (lines > LINES_MOST)
        return refused(LTA_SHEET_LINES, 0);
    size_t length = (size_t)(next - branches);
    if (out_len < length)
        return refused(LTA_SHEET_NO_ROOM, 0);
    if (length > 0)
        memcpy(out, branches, length);
    return (struct lta_written){0, 0, length};
}
