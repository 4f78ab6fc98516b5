/* The desk's lines in plain C, by lta_judge and snprintf, for the benchmark. Case and proposal are separate, so
 * nothing is cut. */
#include "lta_judgement.h"

#include <inttypes.h>
#include <stdio.h>

static uint64_t size(int64_t x) { return x < 0 ? -(uint64_t)x : (uint64_t)x; }

static const char *sign(int64_t x) { return x < 0 ? "-" : ""; }

static int money(char *out, size_t room, const char *name, int64_t x)
{
    uint64_t n = size(x);
    return snprintf(out, room, "%s %s%" PRIu64 ".%08" PRIu64 "\n", name, sign(x), n / 100000000, n % 100000000);
}

static int price(char *out, size_t room, uint32_t zone, int64_t x)
{
    uint64_t n = size(x);
    return snprintf(out, room, "price %" PRIu32 " %s%" PRIu64 ".%07" PRIu64 "\n", zone, sign(x), n / 10000000, n % 10000000);
}

size_t plain_desk_lines(const uint8_t *case_bytes, size_t case_len, const uint8_t *proposal, size_t proposal_len, char *out, size_t room)
{
    uint8_t report[LTA_REPORT_ROOM];
    uint64_t verdict = lta_judge(case_bytes, case_len, proposal, proposal_len, report, sizeof report);
    uint32_t number = LTA_NUMBER(verdict);
    int at = snprintf(out, room, "verdict %" PRIu32 " %" PRIu32 "\n", number, LTA_INDEX(verdict));
    if (number != LTA_ACCEPTED && number != LTA_GAP_ABOVE_TOLERANCE)
        return (size_t)at;
    at += money(out + at, room - (size_t)at, "welfare", lta_report_welfare(report));
    at += money(out + at, room - (size_t)at, "bound", lta_report_bound(report));
    at += money(out + at, room - (size_t)at, "gap", lta_report_gap(report));
    at += money(out + at, room - (size_t)at, "rent", lta_report_rent(report));
    at += money(out + at, room - (size_t)at, "owed", lta_report_owed(report));
    for (uint32_t z = 0; z < lta_report_zones(report); z++)
        at += price(out + at, room - (size_t)at, z, lta_report_price(report, z));
    return (size_t)at;
}
