/* A dump turned into a proposal in plain C, with doubles, for the benchmark: the case is read field by field, then
 * two passes go over the dump, with every cause of lta_dump_proposal. */
#include "lta_judgement.h"

#include <math.h>
#include <stdbool.h>
#include <string.h>

struct counts {
    size_t zones, branches, links, orders, orders_at;
};

static uint32_t u32_at(const uint8_t *at)
{
    uint32_t bits;
    memcpy(&bits, at, sizeof bits);
    return bits;
}

static double f64_at(const uint8_t *at)
{
    double value;
    memcpy(&value, at, sizeof value);
    return value;
}

static void put(uint8_t *at, uint32_t bits) { memcpy(at, &bits, sizeof bits); }

static bool outside(const uint8_t *at, int32_t least, int32_t greatest)
{
    int32_t number = (int32_t)u32_at(at);
    return number < least || number > greatest;
}

/* The number by which a case is refused, or 0, and its counts. */
static uint32_t read_case(const uint8_t *bytes, size_t length, struct counts *c)
{
    if (length < 14)
        return LTA_CASE_SHORT;
    if (memcmp(bytes, "LTC", 3) != 0)
        return LTA_CASE_MARK;
    unsigned version = bytes[3] + 256u * bytes[4];
    if (version != 1 && version != 2)
        return LTA_CASE_VERSION;
    c->zones = bytes[5];
    c->branches = bytes[6];
    c->links = bytes[7];
    c->orders = bytes[8] + 256u * bytes[9];
    if (c->zones < 1 || c->zones > 16 || c->branches > 64 || c->links > 64 || c->orders > 512 || u32_at(bytes + 10) > 1000000000)
        return LTA_CASE_HEADER;
    size_t link_size = version == 2 ? 10 : 6, links_at = 14 + c->branches * (4 + 4 * c->zones);
    c->orders_at = links_at + link_size * c->links;
    if (length != c->orders_at + 10 * c->orders)
        return LTA_CASE_LENGTH;
    for (const uint8_t *at = bytes + 14; at < bytes + links_at; at += 4 + 4 * c->zones) {
        if (outside(at, -500000, 500000))
            return LTA_CASE_BRANCH;
        for (size_t z = 1; z <= c->zones; z++)
            if (outside(at + 4 * z, -200000, 200000))
                return LTA_CASE_BRANCH;
    }
    uint16_t seen[16] = {0};
    for (const uint8_t *at = bytes + links_at; at < bytes + c->orders_at; at += link_size) {
        if (at[0] >= c->zones || at[1] >= c->zones || at[0] == at[1] || (seen[at[0]] >> at[1] & 1) != 0 || u32_at(at + 2) > 100000)
            return LTA_CASE_LINK;
        if (version == 2 && u32_at(at + 6) > u32_at(at + 2))
            return LTA_CASE_LINK;
        seen[at[0]] |= (uint16_t)(1u << at[1]);
    }
    for (const uint8_t *at = bytes + c->orders_at; at < bytes + length; at += 10)
        if (at[0] >= c->zones || at[1] > 1 || u32_at(at + 2) < 1 || u32_at(at + 2) > 100000 || outside(at + 6, -50000, 400000))
            return LTA_CASE_ORDER;
    return 0;
}

static struct lta_written refused(uint32_t number, uint64_t index) { return (struct lta_written){number, index, 0}; }

struct lta_written plain_dump_proposal(const uint8_t *case_bytes, size_t case_len, const uint8_t *dump, size_t dump_len, uint8_t *out,
                                       size_t out_len)
{
    struct counts c;
    uint32_t number = read_case(case_bytes, case_len, &c);
    if (number != 0)
        return refused(LTA_DUMP_CASE, number);
    size_t rows = c.orders + c.links + c.branches;
    if (dump_len != 8 * (2 + rows))
        return refused(LTA_DUMP_LENGTH, 0);
    for (size_t k = 0; k < 2 + rows; k++)
        if (!isfinite(f64_at(dump + 8 * k)))
            return refused(LTA_DUMP_NOT_FINITE, k);
    uint8_t proposal[LTA_PROPOSAL_ROOM] = {'L', 'T', 'P', 1, 0}, *next = proposal + 5;
    for (size_t k = 0; k < 2 + rows; k++, next += 4) {
        double value = f64_at(dump + 8 * k);
        if (k == 1) {
            double cents = round(value * 100);
            if (!(cents >= INT32_MIN && cents <= INT32_MAX))
                return refused(LTA_DUMP_RANGE, k);
            put(next, (uint32_t)(int32_t)cents);
        } else if (k < 2 + c.orders) {
            if (!(value >= 0 && value <= 1))
                return refused(LTA_DUMP_RANGE, k);
            put(next, (uint32_t)(value * (k == 0 ? 100000 : u32_at(case_bytes + c.orders_at + 10 * (k - 2) + 2))));
        } else if (k < 2 + c.orders + c.links) {
            double tenths = value * 10;
            if (!(value >= 0 && tenths < 4294967296.0))
                return refused(LTA_DUMP_RANGE, k);
            put(next, (uint32_t)tenths);
        } else {
            double cents = round(value * 100);
            if (!(value >= 0 && cents <= 1000000))
                return refused(LTA_DUMP_RANGE, k);
            put(next, (uint32_t)cents);
        }
    }
    size_t length = (size_t)(next - proposal);
    if (out_len < length)
        return refused(LTA_DUMP_NO_ROOM, 0);
    memcpy(out, proposal, length);
    return (struct lta_written){0, 0, length};
}
