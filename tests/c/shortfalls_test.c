/* lta_shortfalls through the library: P1 and P2; P1's hour a 125th as large, with an order, a branch, a link and a
 * flow against the spread whose shortfalls were found by hand; a part of a microcent; contracted volumes; no link;
 * hours that the judgement refuses; outputs of every length; null pointers; the largest hour. Calls are made with
 * every argument at both places between unreadable pages, the files unwritable, and every number of the output is
 * compared afterwards. Each answer is compared with the gap that lta_judge reports. */
#include "harness.h"
#include "hours.h"
#include "lta_judgement.h"

#include <inttypes.h>
#include <stdio.h>
#include <string.h>

#define ROOM (LTA_SHORTFALL_ROOM + 24)
#define PARTS LTA_SHORTFALLS_PER_MICROCENT

/* The numbers expected for an hour, and how many. */
struct due {
    size_t count;
    int64_t number[LTA_SHORTFALL_ROOM];
};

static struct arena case_arena, proposal_arena, out_arena;

/* The answer, and every number of the output, with all arguments at each of their places. */
static void asked(const struct file *c, const struct file *p, size_t room, uint32_t number, uint64_t index, const struct due *due)
{
    bool ok = true;
    for (unsigned way = 0; way < WAYS(3) && ok; way++) {
        enum place place = place_of(way, 2);
        const uint8_t *case_bytes = lend(case_arena, place_of(way, 0), c->bytes, c->length);
        const uint8_t *proposal = lend(proposal_arena, place_of(way, 1), p->bytes, p->length);
        int64_t *out = (int64_t *)(void *)lend_room(out_arena, place, 8 * room);
        ok = is_written(lta_shortfalls(case_bytes, c->length, proposal, p->length, out, room), number, index, due->count);
        ok = holds(out_arena, place, 8 * room, (const uint8_t *)due->number, 8 * due->count) && ok;
    }
    check(ok);
}

static void refused_in(size_t room, const struct hour *h, uint32_t number, uint64_t index)
{
    struct file c = case_file(h), p = proposal_file(h);
    asked(&c, &p, room, number, index, &(struct due){0});
}

/* With enough room and with none: the judgement's number. */
static void refused(const struct hour *h, uint32_t number, uint64_t index)
{
    refused_in(ROOM, h, number, index);
    refused_in(0, h, number, index);
}

/* An hour without shortfalls: all its numbers are zero. */
static struct due nothing(const struct hour *h) { return (struct due){.count = LTA_SHORTFALL_COUNT((size_t)h->orders, h->branches, h->links)}; }

/* One shortfall, by its place among all: orders, branches, links. */
static void falls_short(struct due *due, size_t place, int64_t microcents, int64_t parts)
{
    due->number[2 * place] = microcents;
    due->number[2 * place + 1] = parts;
}

/* The expected numbers, with just enough room and with more, and none with one too few; and their relation to the
 * gap. */
static void answered(const struct hour *h, const struct due *due)
{
    struct file c = case_file(h), p = proposal_file(h);
    asked(&c, &p, due->count, 0, 0, due);
    asked(&c, &p, ROOM, 0, 0, due);
    if (due->count > 0)
        refused_in(due->count - 1, h, LTA_SHORTFALL_NO_ROOM, 0);

    uint8_t report[LTA_REPORT_ROOM] = {0};
    bool ok = lta_judge(c.bytes, c.length, p.bytes, p.length, report, sizeof report) == 0;
    int64_t gap = lta_report_gap(report), whole = 0, parts = 0;
    for (size_t k = 0; k < due->count; k += 2) {
        ok = due->number[k] >= 0 && due->number[k + 1] >= 0 && due->number[k + 1] < PARTS && ok;
        whole += due->number[k];
        parts += due->number[k + 1];
    }
    ok = whole + (parts + PARTS - 1) / PARTS <= gap && ok;
    ok = (gap > 0 || (whole == 0 && parts == 0)) && ok;
    check(ok);
}

/* P1's hour with every volume, margin, capacity and flow divided by 125. Prices 20, 63.75 and 50 euros; a tolerance of
 * 100 euros. */
static struct hour small_hour(void)
{
    struct hour h = divided(three_zone_hour(), 125);
    h.tolerance = 10000;
    return h;
}

/* P3's hour in the same way: nothing flows, and the LTA share is 0. */
static struct hour small_unused_link_hour(void)
{
    struct hour h = divided(unused_link_hour(), 125);
    h.tolerance = 10000;
    return h;
}

/* Microcents of a price in cents per MWh on this many tenths. */
static int64_t on(int64_t tenths, int64_t price) { return tenths * price * LTA_GRAINS_PER_CENT; }

static void layout(void)
{
    about("the number and the sizes that the header names");
    check(LTA_SHORTFALL_NO_ROOM == 86 && LTA_SHORTFALL_ROOM == LTA_SHORTFALL_COUNT(512, 64, 64) && LTA_SHORTFALLS_PER_MICROCENT == 100000);
}

static void gap_zero(void)
{
    struct hour all[] = {three_zone_hour(), contracted_hour(), flow_based_hour(), one_zone_hour(), small_hour()};
    for (size_t n = 0; n < COUNT(all); n++) {
        struct due due = nothing(&all[n]);
        about("hour %zu of gap zero", n);
        answered(&all[n], &due);
    }
}

static void orders(void)
{
    struct hour h = small_hour();
    struct due due = nothing(&h);
    h.volume[0] = 22;
    h.volume[1] = 21;
    falls_short(&due, 0, on(10, 1000), 0);
    about("ten tenths at 10 euros left to a sell at 20, the zone price");
    answered(&h, &due);

    h = small_hour();
    due = nothing(&h);
    h.volume[2] = 7;
    h.volume[3] = 1;
    falls_short(&due, 2, on(1, 625), 0);
    falls_short(&due, 3, on(1, 375), 0);
    about("a tenth at 70 euros left to a buy at 60, which loses at 63.75");
    answered(&h, &due);

    h = negative_hour();
    due = nothing(&h);
    falls_short(&due, 0, on(1, 2), 0);
    about("a sell at 1 cent, at a zone price of -1");
    answered(&h, &due);
}

static void branches(void)
{
    struct hour h = small_unused_link_hour();
    h.links = 0;
    h.branch[0].ram += 5;
    struct due due = nothing(&h);
    falls_short(&due, 5, on(5, 6000), 0);
    about("five tenths of a margin free at 60 euros, without links");
    answered(&h, &due);

    h = small_hour();
    h.branch[0].ram++;
    due = nothing(&h);
    falls_short(&due, 5, on(1, 5500) / 8, 0);
    about("an eighth of a tenth free at 55 euros, the flow-based share");
    answered(&h, &due);

    h = small_hour();
    h.branch[1].ram += 8;
    due = nothing(&h);
    falls_short(&due, 6, on(1, 250), 0);
    about("the second branch");
    answered(&h, &due);

    /* a margin that makes zone 1 import nine tenths from 50 euros to 40; it imports ten */
    h = (struct hour){.version = 1, .zones = 2, .branches = 1, .orders = 2, .tolerance = 100, .branch = {{-9, {0, -100000}}},
                      .order = {{0, LTA_SELLS, 10, 5000}, {1, LTA_BUYS, 10, 4000}}, .system = 5000, .volume = {10, 10}, .shadow = {1000}};
    due = nothing(&h);
    falls_short(&due, 2, on(1, 1000), 0);
    about("a negative margin");
    answered(&h, &due);
}

static void links(void)
{
    struct hour h = small_hour();
    h.link[0].capacity += 2;
    struct due due = nothing(&h);
    falls_short(&due, 7, on(2, 4375) / 8 * 7, 0);
    about("seven eighths of two tenths not used, the LTA share, at 43.75 euros");
    answered(&h, &due);
    h.version = 2;
    for (uint32_t contracted = 0; contracted <= 34; contracted += 17) {
        h.link[0].contracted = contracted;
        about("the same with %" PRIu32 " contracted", contracted);
        answered(&h, &due);
    }

    h = small_hour();
    h.links = 2;
    h.link[1] = (struct link){1, 0, 8, 8};
    h.flow[1] = 1;
    h.volume[1] = 10;
    h.volume[2] = 7;
    due = nothing(&h);
    falls_short(&due, 2, on(1, 625), 0);
    falls_short(&due, 8, on(1, 4375), 0);
    about("a tenth that flows against a spread of 43.75 euros");
    answered(&h, &due);

    h = (struct hour){.version = 1, .zones = 2, .branches = 1, .links = 1, .tolerance = 1, .branch = {{0, {0, 1}}}, .link = {{0, 1, 1, 1}},
                      .share = 1, .shadow = {1}};
    due = nothing(&h);
    falls_short(&due, 1, 0, 1);
    about("a hundred-thousandth of a microcent");
    answered(&h, &due);
    h.link[0].capacity = 99999;
    h.share = 99999;
    due = nothing(&h);
    falls_short(&due, 1, 99998, 1);
    about("99,999 * 99,999 of them");
    answered(&h, &due);
    h.shadow[0] = 99999;
    falls_short(&due, 1, INT64_C(9999700002), 99999);
    h.tolerance = 10000;
    about("99,999 * 99,999 * 99,999 of them");
    answered(&h, &due);

    h = small_unused_link_hour();
    due = nothing(&h);
    about("P3's hour a 125th as large: the gap of 24 euros is the larger total's lead, and nothing falls short");
    answered(&h, &due);
}

/* An hour that is not accepted has the judgement's number and index, for any room. */
static void refusals(void)
{
    struct hour h = unused_link_hour();
    about("P3, a gap above the tolerance");
    refused(&h, LTA_GAP_ABOVE_TOLERANCE, 0);
    h = small_hour();
    h.branch[0].ram++;
    h.tolerance = 54;
    about("a gap of 55 cents, and a tolerance of 54");
    refused(&h, LTA_GAP_ABOVE_TOLERANCE, 0);
    h = three_zone_hour();
    h.volume[1] = 6001;
    about("P5, a volume");
    refused(&h, LTA_VOLUME, 1);
    h = three_zone_hour();
    h.volume[4]++;
    about("P6, the balance");
    refused(&h, LTA_BALANCE, 0);
    h = three_zone_hour();
    h.flow[0]++;
    about("P7, a flow");
    refused(&h, LTA_LINK_RULE, 0);
    h = three_zone_hour();
    h.share = 87501;
    about("P9, a branch");
    refused(&h, LTA_BRANCH_RULE, 0);
    h = one_zone_hour();
    h.system = 400001;
    about("P11, a zone price");
    refused(&h, LTA_ZONE_PRICE, 0);
    h = one_zone_hour();
    h.share = 1;
    about("a share without links");
    refused(&h, LTA_SHARE_WITHOUT_LINK, 0);
    h = three_zone_hour();
    h.share = 100001;
    about("a share above 100,000");
    refused(&h, LTA_SHARE, 0);
    h = three_zone_hour();
    h.shadow[1] = 1000001;
    about("a shadow price, by its offset");
    refused(&h, LTA_SHADOW_PRICE, 41);
    h = three_zone_hour();
    h.link[0].capacity = 100001;
    about("a capacity, by its offset");
    refused(&h, LTA_CASE_LINK, 48);
    h = contracted_hour();
    h.link[0].contracted = 4001;
    about("more contracted than offered, by its offset");
    refused(&h, LTA_CASE_LINK, 52);
    h = three_zone_hour();
    h.order[4].quantity = 0;
    about("an order's quantity, by its offset");
    refused(&h, LTA_CASE_ORDER, 94);
}

/* Both files cut at every length: the judgement's answer. */
static void lengths(void)
{
    struct hour h = small_hour();
    struct due due = nothing(&h);
    struct file c = case_file(&h), p = proposal_file(&h);
    for (size_t length = 0; length <= c.length + 8; length++) {
        struct file cut = c;
        cut.length = length;
        about("a case of %zu bytes", length);
        if (length == c.length)
            asked(&cut, &p, ROOM, 0, 0, &due);
        else
            asked(&cut, &p, ROOM, length < 14 ? LTA_CASE_SHORT : LTA_CASE_LENGTH, 0, &(struct due){0});
    }
    for (size_t length = 0; length <= p.length + 8; length++) {
        struct file cut = p;
        cut.length = length;
        about("a proposal of %zu bytes", length);
        if (length == p.length)
            asked(&c, &cut, ROOM, 0, 0, &due);
        else
            asked(&c, &cut, ROOM, length < 13 ? LTA_PROPOSAL_SHORT : LTA_PROPOSAL_LENGTH, 0, &(struct due){0});
    }
    for (size_t room = 0; room <= due.count + 4; room++) {
        about("an output of %zu numbers", room);
        if (room < due.count)
            refused_in(room, &h, LTA_SHORTFALL_NO_ROOM, 0);
        else
            asked(&c, &p, room, 0, 0, &due);
    }
}

/* A null pointer where the length or count is 0. */
static void nulls(void)
{
    struct hour h = three_zone_hour(), bare = one_zone_hour();
    struct file c = case_file(&h), p = proposal_file(&h), bare_case = case_file(&bare), bare_proposal = proposal_file(&bare);
    for (unsigned k = 0; k < PLACES; k++) {
        const uint8_t *case_bytes = lend(case_arena, k, c.bytes, c.length), *proposal = lend(proposal_arena, k, p.bytes, p.length);
        int64_t *out = (int64_t *)(void *)lend_room(out_arena, k, (size_t)8 * ROOM);
        about("null for all");
        check(is_written(lta_shortfalls(NULL, 0, NULL, 0, NULL, 0), LTA_CASE_SHORT, 0, 0));
        about("null for the case");
        check(is_written(lta_shortfalls(NULL, 0, proposal, p.length, out, ROOM), LTA_CASE_SHORT, 0, 0));
        about("null for the proposal");
        check(is_written(lta_shortfalls(case_bytes, c.length, NULL, 0, out, ROOM), LTA_PROPOSAL_SHORT, 0, 0));
        about("null for the output");
        check(is_written(lta_shortfalls(case_bytes, c.length, proposal, p.length, NULL, 0), LTA_SHORTFALL_NO_ROOM, 0, 0));
        about("null, and something was written");
        check(holds(out_arena, k, (size_t)8 * ROOM, NULL, 0));
        case_bytes = lend(case_arena, k, bare_case.bytes, bare_case.length);
        proposal = lend(proposal_arena, k, bare_proposal.bytes, bare_proposal.length);
        about("null for the output of an hour of no rows");
        check(is_written(lta_shortfalls(case_bytes, bare_case.length, proposal, bare_proposal.length, NULL, 0), 0, 0, 0));
    }
}

static struct {
    struct file hour, proposal;
    int64_t out[LTA_SHORTFALL_ROOM];
    struct lta_written answer;
} call;

static void call_entry(void)
{
    call.answer = lta_shortfalls(call.hour.bytes, call.hour.length, call.proposal.bytes, call.proposal.length, call.out, LTA_SHORTFALL_ROOM);
}

/* The largest hour with share 99,999: a sell and a buy of zone 0 are a tenth short, the last branch has a margin
 * of 5 free at a cent, and the price of zone 3 is a grain higher. Four links lead to zone 3 and four from it; the
 * last link to it has a tenth less capacity. */
static void largest(void)
{
    for (uint16_t version = 1; version <= 2; version++) {
        struct hour h = largest_hour(version, 0);
        struct due due = nothing(&h);
        about("the largest hour of version %u", version);
        answered(&h, &due);
        h.tolerance = 41;
        h.share = 99999;
        h.order[0].price = -100;
        h.order[256].price = 300;
        h.volume[0] = h.volume[256] = 99999;
        h.branch[63].ram = 5;
        h.branch[63].ptdf[3] = 1;
        h.shadow[63] = 1;
        for (size_t l = 0; l < 64; l++)
            h.flow[l] = 99998;
        h.link[63].capacity = 99999;
        falls_short(&due, 0, on(1, 100), 0);
        falls_short(&due, 256, on(1, 300), 0);
        falls_short(&due, 512 + 63, 5, 0);
        for (size_t l = 0; l < 64; l++) {
            if (h.link[l].to == 3)
                falls_short(&due, 576 + l, l == 63 ? 0 : 1, l == 63 ? 1 : 0);
            if (h.link[l].from == 3)
                falls_short(&due, 576 + l, 99998, 0);
        }
        about("the largest hour of version %u, off at its first and its last", version);
        answered(&h, &due);
        call.hour = case_file(&h);
        call.proposal = proposal_file(&h);
        about("the largest hour of version %u on a stack of %d bytes", version, STACK_ENOUGH);
        on_stack(STACK_ENOUGH, call_entry);
        check(is_written(call.answer, 0, 0, LTA_SHORTFALL_ROOM) && memcmp(call.out, due.number, sizeof call.out) == 0);
    }
}

int main(void)
{
    case_arena = arena(sizeof((struct file *)0)->bytes);
    proposal_arena = arena(sizeof((struct file *)0)->bytes);
    out_arena = arena((size_t)8 * ROOM);

    group("numbers and sizes are the header's", layout);
    group("at gap zero nothing falls short", gap_zero);
    group("orders fall short by surplus forgone or lost", orders);
    group("branches fall short by margin left free", branches);
    group("links fall short by capacity left free", links);
    group("a refused hour has the judgement's answer alone", refusals);
    group("a case, proposal or output of wrong length is refused", lengths);
    group("null is taken with length 0", nulls);
    group("the largest hour is answered on a small stack", largest);
    return closing();
}
