/* lta_judge_families through the library: the sample, each cause of a family list and its order among the others,
 * fractions that are equal and a tenth off, circles of every size and what leads into them, lists of every length,
 * report buffers, null pointers, and the largest hour in one chain and one circle. Every call is made with each
 * argument at both places between unreadable pages, case, proposal and list unwritable, and every byte of the report
 * buffer is compared afterwards. lta_judge answers the same files as before.
 *
 *     families_test CASE PROPOSAL FAMILIES     the three-zone hour's files, and a family list for it
 */
#include "harness.h"
#include "hours.h"
#include "lta_judgement.h"

#include <inttypes.h>
#include <stdio.h>
#include <string.h>

/* Room for a report, and bytes past it. */
#define ROOM 200
#define ORDERS 512
#define NONE LTA_NO_PARENT

static struct arena case_arena, proposal_arena, list_arena, report_arena;
static const char *sample_case, *sample_proposal, *sample_families;

/* P1's five orders without parents, and with those of the sample list. */
static const uint16_t none[5] = {NONE, NONE, NONE, NONE, NONE}, sample_parents[5] = {NONE, 0, NONE, 2, 2};

/* The verdict, and the report buffer's bytes, with the four arguments at each of their places. */
static void judged(const struct file *c, const struct file *p, const struct file *f, size_t room, uint32_t number, uint32_t index,
                   const struct file *report)
{
    bool ok = true;
    for (unsigned way = 0; way < WAYS(4) && ok; way++) {
        enum place place = place_of(way, 3);
        const uint8_t *case_bytes = lend(case_arena, place_of(way, 0), c->bytes, c->length);
        const uint8_t *proposal = lend(proposal_arena, place_of(way, 1), p->bytes, p->length);
        const uint8_t *list = lend(list_arena, place_of(way, 2), f->bytes, f->length);
        uint8_t *buffer = lend_room(report_arena, place, room);
        uint64_t verdict = lta_judge_families(case_bytes, c->length, proposal, p->length, list, f->length, buffer, room);
        ok = is_verdict(verdict, number, index);
        ok = holds(report_arena, place, room, report->bytes, report->length) && ok;
    }
    check(ok);
}

/* A family list, from the parent of each order. */
static struct file list_file(const uint16_t *parent, size_t orders)
{
    struct file f = {.length = LTA_FAMILIES_SIZE(orders), .bytes = {'L', 'T', 'F', 1, 0}};
    for (size_t i = 0; i < orders; i++)
        put(&f, LTA_FAMILIES_SIZE(i), 2, parent[i]);
    return f;
}

/* A refusal that leaves the buffer unchanged. */
static void refused_list(const struct hour *h, const struct file *f, uint32_t number, uint32_t index)
{
    struct file c = case_file(h), p = proposal_file(h);
    judged(&c, &p, f, ROOM, number, index, &(struct file){0});
}

static void refused(const struct hour *h, const uint16_t *parent, uint32_t number, uint32_t index)
{
    struct file f = list_file(parent, h->orders);
    refused_list(h, &f, number, index);
}

/* A verdict that writes the report. */
static void reported(const struct hour *h, const uint16_t *parent, uint8_t number, struct totals t)
{
    struct file c = case_file(h), p = proposal_file(h), f = list_file(parent, h->orders), report = report_file(number, h->zones, t);
    judged(&c, &p, &f, ROOM, number, 0, &report);
}

static void constants(void)
{
    about("the numbers that the header names");
    check(LTA_FAMILY_LIST == 16 && LTA_FAMILY_PARENT == 17 && LTA_FAMILY_CIRCLE == 18 && LTA_FAMILY_FRACTION == 28);
    about("the sizes that it names");
    check(LTA_FAMILIES_SIZE(0) == 5 && LTA_FAMILIES_SIZE(5) == 15 && LTA_FAMILIES_ROOM == LTA_FAMILIES_SIZE(ORDERS)
          && LTA_NO_PARENT == UINT16_MAX);
}

static void sample(void)
{
    struct hour h = three_zone_hour();
    struct file c = read_file(sample_case), p = read_file(sample_proposal), f = read_file(sample_families), due = list_file(sample_parents, 5);
    about("the sample's family list is the one described");
    check(same_file(&f, &due));
    struct file report = report_file(LTA_ACCEPTED, h.zones, three_zone_totals());
    about("the sample hour with its families");
    judged(&c, &p, &f, ROOM, LTA_ACCEPTED, 0, &report);
}

/* P1 accepts 4,000 of 4,000, 1,375 of 6,000, 1,000 of 1,000, 0 of 9,000 and 4,375 of 10,000. Each order in turn is
 * the child of each other, alone. */
static void each_parent(void)
{
    /* the orders by fraction, two of them equal */
    static const int fraction[5] = {100000, 22917, 100000, 0, 43750};
    struct hour h = three_zone_hour();
    for (uint16_t child = 0; child < 5; child++)
        for (uint16_t up = 0; up < 5; up++) {
            uint16_t parent[5] = {NONE, NONE, NONE, NONE, NONE};
            parent[child] = up;
            about("order %u under order %u", child, up);
            if (child == up)
                refused(&h, parent, LTA_FAMILY_CIRCLE, child);
            else if (fraction[child] > fraction[up])
                refused(&h, parent, LTA_FAMILY_FRACTION, child);
            else
                reported(&h, parent, LTA_ACCEPTED, three_zone_totals());
        }
    const uint16_t two[5] = {NONE, NONE, 1, NONE, 1};
    about("two children ahead of their parent: the first is named");
    refused(&h, two, LTA_FAMILY_FRACTION, 2);
    struct hour over = unused_link_hour();
    about("P3 with a list without parents");
    reported(&over, none, LTA_GAP_ABOVE_TOLERANCE, unused_link_totals());
    const uint16_t chain[5] = {NONE, 4, 0, 1, 2};
    about("P1 in one chain by fraction");
    reported(&h, chain, LTA_ACCEPTED, three_zone_totals());
}

/* A buy whose parent is another buy, and a sell that balances them, all at the zone's price. */
static struct hour two_buys(uint32_t volume, uint32_t quantity, uint32_t parent_volume, uint32_t parent_quantity)
{
    return (struct hour){
        .version = 1,
        .zones = 1,
        .orders = 4,
        .order = {{0, LTA_BUYS, quantity, 5}, {0, LTA_BUYS, parent_quantity, 5}, {0, LTA_SELLS, 100000, 5}, {0, LTA_SELLS, 100000, 5}},
        .system = 5,
        .volume = {volume, parent_volume, volume, parent_volume},
    };
}

static void fractions(void)
{
    static const struct {
        uint32_t volume, quantity, parent_volume, parent_quantity;
        bool ahead;
    } all[] = {
        {1, 2, 2, 4, false},
        {2, 4, 1, 2, false},
        {50000, 100000, 1, 2, false},
        {50001, 100000, 1, 2, true},
        {1, 2, 50000, 100000, false},
        {1, 2, 49999, 100000, true},
        {1, 3, 33333, 100000, true},
        {1, 3, 33334, 100000, false},
        {33333, 100000, 1, 3, false},
        {0, 1, 0, 100000, false},
        {1, 100000, 0, 1, true},
        {1, 100000, 0, 100000, true},
        {100000, 100000, 1, 1, false},
        {100000, 100000, 99999, 100000, true},
        {99999, 100000, 99998, 99999, true},
        {99998, 99999, 99999, 100000, false},
        {5, 10, 4, 5, false},
        {4, 5, 5, 10, true},
        {100000, 100000, 100000, 100000, false},
    };
    const uint16_t parent[4] = {1, NONE, NONE, NONE};
    for (size_t k = 0; k < COUNT(all); k++) {
        struct hour h = two_buys(all[k].volume, all[k].quantity, all[k].parent_volume, all[k].parent_quantity);
        about("%" PRIu32 " of %" PRIu32 " under %" PRIu32 " of %" PRIu32, all[k].volume, all[k].quantity, all[k].parent_volume,
              all[k].parent_quantity);
        if (all[k].ahead) {
            refused(&h, parent, LTA_FAMILY_FRACTION, 0);
        } else {
            int64_t price = cents(5);
            reported(&h, parent, LTA_ACCEPTED, (struct totals){.price = {price}});
        }
    }
}

/* Mark, version and length, each wrong in a list that is otherwise good. */
static void lists(void)
{
    struct hour h = three_zone_hour();
    struct file good = list_file(none, 5), f;
    for (size_t at = 0; at < 3; at++) {
        f = good;
        f.bytes[at] ^= 0x20;
        about("byte %zu of the mark", at);
        refused_list(&h, &f, LTA_FAMILY_LIST, 0);
    }
    static const uint16_t versions[] = {0, 2, 256, 257, 65535};
    for (size_t k = 0; k < COUNT(versions); k++) {
        f = good;
        put(&f, 3, 2, versions[k]);
        about("version %u", versions[k]);
        refused_list(&h, &f, LTA_FAMILY_LIST, 0);
    }
    struct file c = case_file(&h), p = proposal_file(&h), report = report_file(LTA_ACCEPTED, h.zones, three_zone_totals());
    f = good;
    memset(f.bytes + good.length, 255, 100);
    for (f.length = 0; f.length <= 100; f.length++) {
        about("a list of %zu bytes", f.length);
        if (f.length == good.length)
            judged(&c, &p, &f, ROOM, LTA_ACCEPTED, 0, &report);
        else
            refused_list(&h, &f, LTA_FAMILY_LIST, 0);
    }
    struct hour alone = one_zone_hour();
    f = list_file(none, 0);
    c = case_file(&alone);
    p = proposal_file(&alone);
    report = report_file(LTA_ACCEPTED, 1, (struct totals){.price = {cents(400000)}});
    about("no orders, and a list of none");
    judged(&c, &p, &f, ROOM, LTA_ACCEPTED, 0, &report);
    about("no orders, and an empty list");
    refused_list(&alone, &(struct file){0}, LTA_FAMILY_LIST, 0);
}

static void parents(void)
{
    static const uint16_t past[] = {5, 6, 255, 256, 260, 512, 32768, 65534};
    struct hour h = three_zone_hour();
    for (size_t k = 0; k < COUNT(past); k++)
        for (uint32_t child = 0; child < 5; child++) {
            uint16_t parent[5] = {NONE, NONE, NONE, NONE, NONE};
            parent[child] = past[k];
            about("order %" PRIu32 " under order %u, which does not exist", child, past[k]);
            refused(&h, parent, LTA_FAMILY_PARENT, child);
        }
    const uint16_t two[5] = {0, NONE, 5, 5, 4};
    about("two parents that do not exist, and circles: the first of 17");
    refused(&h, two, LTA_FAMILY_PARENT, 2);
}

/* Circles of P1's orders, as lists; larger ones by their size. */
static void circles(void)
{
    static const struct {
        const char *name;
        uint16_t parent[5];
        uint32_t index;
    } all[] = {
        {"the last order its own parent", {NONE, NONE, NONE, NONE, 4}, 4},
        {"two", {NONE, 2, 1, NONE, NONE}, 1},
        {"all five", {1, 2, 3, 4, 0}, 0},
        {"all five, downwards", {4, 0, 1, 2, 3}, 0},
        {"one that leads into a circle, and stands before it", {3, NONE, NONE, 4, 3}, 3},
        {"a tail of three before the circle", {1, 2, 3, 4, 4}, 4},
        {"two circles", {2, 4, 0, 3, 1}, 0},
        {"two circles, with one that leads into the second before both", {4, 2, 1, 4, 3}, 1},
        {"every order its own parent", {0, 1, 2, 3, 4}, 0},
        {"everything leads to one that is its own parent", {2, 2, 2, 2, 2}, 2},
    };
    struct hour h = three_zone_hour();
    for (size_t k = 0; k < COUNT(all); k++) {
        about("%s", all[k].name);
        refused(&h, all[k].parent, LTA_FAMILY_CIRCLE, all[k].index);
    }
    h = largest_hour(1, 0);
    static const uint16_t sizes[] = {1, 2, 3, 255, 256, 257, 511, 512};
    for (size_t k = 0; k < COUNT(sizes); k++) {
        /* the last orders are the circle, and each earlier order leads to the next */
        uint16_t parent[ORDERS], first = (uint16_t)(ORDERS - sizes[k]);
        for (uint16_t i = 0; i < ORDERS; i++)
            parent[i] = i < ORDERS - 1 ? (uint16_t)(i + 1) : first;
        about("a circle of %u, and a tail of %u before it", sizes[k], first);
        refused(&h, parent, LTA_FAMILY_CIRCLE, first);
    }
}

/* Of several causes the one asked first is answered. */
static void order_of_causes(void)
{
    const uint16_t circle[5] = {0, NONE, NONE, NONE, NONE}, ahead[5] = {NONE, NONE, NONE, NONE, 1};
    const uint16_t stray[5] = {NONE, 5, NONE, NONE, NONE};
    struct file empty = {0};
    struct hour h = three_zone_hour();
    h.shadow[1] = 1000001;
    about("14 before 16, 17, 18 and 28");
    refused_list(&h, &empty, LTA_SHADOW_PRICE, 41);
    refused(&h, stray, LTA_SHADOW_PRICE, 41);
    refused(&h, circle, LTA_SHADOW_PRICE, 41);
    refused(&h, ahead, LTA_SHADOW_PRICE, 41);
    about("15 before 16, 17, 18 and 28, and after 14");
    h.tolerance = 10001;
    refused_list(&h, &empty, LTA_SHADOW_PRICE, 41);
    h.shadow[1] = 250;
    refused_list(&h, &empty, LTA_WIDE_TOLERANCE, 0);
    refused(&h, stray, LTA_WIDE_TOLERANCE, 0);
    refused(&h, circle, LTA_WIDE_TOLERANCE, 0);
    refused(&h, ahead, LTA_WIDE_TOLERANCE, 0);
    refused(&h, none, LTA_WIDE_TOLERANCE, 0);
    h.tolerance = 10000;
    about("the widest tolerance with a list");
    reported(&h, none, LTA_ACCEPTED, three_zone_totals());
    h = three_zone_hour();
    h.order[4].price = 400001;
    about("8 before 16");
    refused_list(&h, &empty, LTA_CASE_ORDER, 98);
    h = three_zone_hour();
    h.volume[2] = 1001;
    about("16, 17 and 18 before 21");
    refused_list(&h, &empty, LTA_FAMILY_LIST, 0);
    refused(&h, stray, LTA_FAMILY_PARENT, 1);
    refused(&h, circle, LTA_FAMILY_CIRCLE, 0);
    about("21 before 28, though the child stands before it");
    const uint16_t first[5] = {1, NONE, NONE, NONE, NONE};
    refused(&h, first, LTA_VOLUME, 2);
    refused(&h, ahead, LTA_VOLUME, 2);
    h = three_zone_hour();
    h.volume[4] = 4376;
    about("28 before 22");
    refused(&h, ahead, LTA_FAMILY_FRACTION, 4);
    refused(&h, none, LTA_BALANCE, 0);
    h = three_zone_hour();
    h.flow[0] = 3501;
    about("28 before 23");
    refused(&h, ahead, LTA_FAMILY_FRACTION, 4);
    refused(&h, none, LTA_LINK_RULE, 0);
    h = flow_based_hour();
    h.share = 1;
    about("28 before 27");
    refused(&h, first, LTA_FAMILY_FRACTION, 0);
    refused(&h, none, LTA_SHARE_WITHOUT_LINK, 0);
    h = unused_link_hour();
    about("28 before 26");
    refused(&h, first, LTA_FAMILY_FRACTION, 0);
}

/* Report buffers around the required room, which is asked before all else. */
static void rooms(void)
{
    static const size_t lengths[] = {0, 1, 71, 72, LTA_REPORT_ROOM - 1, LTA_REPORT_ROOM, LTA_REPORT_ROOM + 1, 300};
    struct hour h = three_zone_hour();
    struct file c = case_file(&h), p = proposal_file(&h), f = list_file(sample_parents, 5), empty = {0};
    struct file report = report_file(LTA_ACCEPTED, h.zones, three_zone_totals());
    for (size_t k = 0; k < COUNT(lengths); k++) {
        size_t room = lengths[k];
        bool enough = room >= LTA_REPORT_ROOM;
        about("the sample with a report buffer of %zu bytes", room);
        judged(&c, &p, &f, room, enough ? LTA_ACCEPTED : LTA_NO_ROOM, 0, enough ? &report : &empty);
        about("an empty list with a report buffer of %zu bytes", room);
        judged(&c, &p, &empty, room, enough ? LTA_FAMILY_LIST : LTA_NO_ROOM, 0, &empty);
        about("empty files with a report buffer of %zu bytes", room);
        judged(&empty, &empty, &empty, room, enough ? LTA_CASE_SHORT : LTA_NO_ROOM, 0, &empty);
    }
}

/* A null pointer where the length is 0. */
static void nulls(void)
{
    struct hour h = three_zone_hour();
    struct file c = case_file(&h), p = proposal_file(&h), f = list_file(sample_parents, 5);
    for (unsigned k = 0; k < PLACES; k++) {
        enum place place = k;
        const uint8_t *case_bytes = lend(case_arena, place, c.bytes, c.length);
        const uint8_t *proposal = lend(proposal_arena, place, p.bytes, p.length);
        const uint8_t *list = lend(list_arena, place, f.bytes, f.length);
        uint8_t *report = lend_room(report_arena, place, ROOM);
        about("null for the case");
        check(lta_judge_families(NULL, 0, proposal, p.length, list, f.length, report, ROOM) == LTA_CASE_SHORT);
        about("null for the proposal");
        check(lta_judge_families(case_bytes, c.length, NULL, 0, list, f.length, report, ROOM) == LTA_PROPOSAL_SHORT);
        about("null for the list");
        check(lta_judge_families(case_bytes, c.length, proposal, p.length, NULL, 0, report, ROOM) == LTA_FAMILY_LIST);
        about("null for all files");
        check(lta_judge_families(NULL, 0, NULL, 0, NULL, 0, report, ROOM) == LTA_CASE_SHORT);
        about("null for the report");
        check(lta_judge_families(case_bytes, c.length, proposal, p.length, list, f.length, NULL, 0) == LTA_NO_ROOM);
        about("null for all");
        check(lta_judge_families(NULL, 0, NULL, 0, NULL, 0, NULL, 0) == LTA_NO_ROOM);
        about("a null pointer changes the report");
        check(holds(report_arena, place, ROOM, NULL, 0));
    }
}

/* The entry without a list knows of none. */
static void without_a_list(void)
{
    struct hour h = three_zone_hour();
    struct file c = case_file(&h), p = proposal_file(&h), report = report_file(LTA_ACCEPTED, h.zones, three_zone_totals());
    uint8_t buffer[LTA_REPORT_ROOM] = {0};
    about("lta_judge after a refusal by 16, 17, 18 and 28");
    const uint16_t refused_lists[3][5] = {{5, NONE, NONE, NONE, NONE}, {0, NONE, NONE, NONE, NONE}, {1, NONE, NONE, NONE, NONE}};
    for (size_t k = 0; k < 3; k++) {
        struct file f = list_file(refused_lists[k], 5);
        check(lta_judge_families(c.bytes, c.length, p.bytes, p.length, f.bytes, f.length, buffer, sizeof buffer) != LTA_ACCEPTED);
        check(lta_judge(c.bytes, c.length, p.bytes, p.length, buffer, sizeof buffer) == LTA_ACCEPTED);
        check(memcmp(buffer, report.bytes, report.length) == 0);
        memset(buffer, 0, sizeof buffer);
    }
}

static struct {
    struct file case_file, proposal, list;
    uint8_t report[LTA_REPORT_ROOM];
    uint64_t verdict;
} call;

static void call_entry(void)
{
    const struct file *c = &call.case_file, *p = &call.proposal, *f = &call.list;
    call.verdict = lta_judge_families(c->bytes, c->length, p->bytes, p->length, f->bytes, f->length, call.report, sizeof call.report);
}

/* 512 orders in one chain and in one circle, of either version, on a small stack too. */
static void largest(void)
{
    uint16_t chain[ORDERS], circle[ORDERS];
    for (uint16_t i = 0; i < ORDERS; i++) {
        circle[i] = (uint16_t)((i + 1) % ORDERS);
        chain[i] = i < ORDERS - 1 ? circle[i] : NONE;
    }
    struct totals t = {.welfare = 1152000000000000000, .bound = 1152000000000000000};
    for (uint16_t version = 1; version <= 2; version++) {
        struct hour h = largest_hour(version, 0);
        about("512 orders in one chain, version %u", version);
        reported(&h, chain, LTA_ACCEPTED, t);
        about("512 orders in one circle, version %u", version);
        refused(&h, circle, LTA_FAMILY_CIRCLE, 0);
        chain[511] = 512;
        about("the last of 512 orders under one that does not exist, version %u", version);
        refused(&h, chain, LTA_FAMILY_PARENT, 511);
        chain[511] = NONE;
        h.volume[511]--;
        h.volume[0]--;
        about("the last but one of 512 orders ahead of the last, version %u", version);
        refused(&h, chain, LTA_FAMILY_FRACTION, 510);

        h = largest_hour(version, 1000000);
        call.case_file = case_file(&h);
        call.proposal = proposal_file(&h);
        call.list = list_file(chain, ORDERS);
        about("512 orders in one chain, version %u, on a stack of %d bytes", version, STACK_ENOUGH);
        on_stack(STACK_ENOUGH, call_entry);
        check(call.verdict == LTA_GAP_ABOVE_TOLERANCE);
        call.list = list_file(circle, ORDERS);
        about("512 orders in one circle, version %u, on a stack of %d bytes", version, STACK_ENOUGH);
        on_stack(STACK_ENOUGH, call_entry);
        check(call.verdict == LTA_FAMILY_CIRCLE);
    }
}

int main(int count, char **words)
{
    if (count != 4) {
        fprintf(stderr, "usage: families_test CASE PROPOSAL FAMILIES\n");
        return 2;
    }
    sample_case = words[1];
    sample_proposal = words[2];
    sample_families = words[3];
    case_arena = arena(CASE_ROOM);
    proposal_arena = arena(PROPOSAL_ROOM);
    list_arena = arena(LTA_FAMILIES_ROOM);
    report_arena = arena(300);

    group("numbers and sizes are the header's", constants);
    group("the sample list refuses nothing", sample);
    group("each parent of each order is answered by its fraction", each_parent);
    group("fractions are compared, not volumes", fractions);
    group("a list of wrong mark, version or length is refused by 16", lists);
    group("the first parent that does not exist is refused by 17", parents);
    group("the first order on a circle is refused by 18", circles);
    group("16 to 18 and 28 are asked in their turn", order_of_causes);
    group("a short report buffer is refused first", rooms);
    group("null is taken with length 0", nulls);
    group("lta_judge answers as before after a refused list", without_a_list);
    group("the largest hours are answered on a small stack", largest);
    return closing();
}
