/* lta_judge through the library: P1 to P12 and the run cases of document 01, each cause of its verdict table, files
 * of every length up to 200 bytes, report buffers of several lengths, null pointers, and the largest hour. Every call
 * is made with each argument at both places between unreadable pages, case and proposal unwritable, and every byte of
 * the report buffer is compared afterwards.
 *
 *     judge_test CASE PROPOSAL CONTRACTED     the three-zone hour's files, which must be P1's bytes, and its case with
 *                                             2,500 contracted
 */
#include "harness.h"
#include "hours.h"
#include "lta_judgement.h"

#include <inttypes.h>
#include <stdio.h>
#include <string.h>

/* Room for a report, and bytes past it. */
#define ROOM 200

static struct arena case_arena, proposal_arena, report_arena;
static const char *sample_case, *sample_proposal, *sample_contracted;

/* The verdict, and the report buffer's bytes, with the three arguments at each of their places. */
static void judged(const struct file *c, const struct file *p, size_t room, uint32_t number, uint32_t index, const struct file *report)
{
    bool ok = true;
    for (unsigned way = 0; way < WAYS(3) && ok; way++) {
        enum place place = place_of(way, 2);
        const uint8_t *case_bytes = lend(case_arena, place_of(way, 0), c->bytes, c->length);
        const uint8_t *proposal = lend(proposal_arena, place_of(way, 1), p->bytes, p->length);
        uint8_t *buffer = lend_room(report_arena, place, room);
        ok = is_verdict(lta_judge(case_bytes, c->length, proposal, p->length, buffer, room), number, index);
        ok = holds(report_arena, place, room, report->bytes, report->length) && ok;
    }
    check(ok);
}

/* A refusal that leaves the buffer unchanged. */
static void refused_files(const struct file *c, const struct file *p, uint32_t number, uint32_t index)
{
    judged(c, p, ROOM, number, index, &(struct file){0});
}

static void refused(const struct hour *h, uint32_t number, uint32_t index)
{
    struct file c = case_file(h), p = proposal_file(h);
    refused_files(&c, &p, number, index);
}

/* A verdict that writes the report. */
static void reported(const struct hour *h, uint8_t number, struct totals t)
{
    struct file c = case_file(h), p = proposal_file(h), report = report_file(number, h->zones, t);
    judged(&c, &p, ROOM, number, 0, &report);
}

/* The guard pages do end a process; else the tests below would mean nothing. */
static void memory(void)
{
    const uint8_t two[2] = {1, 2};
    about("a byte before lent bytes can be read");
    check(unreadable((const uint8_t *)lend(case_arena, AT_START, two, 2) - 1));
    about("a byte past lent bytes can be read");
    check(unreadable((const uint8_t *)lend(case_arena, AT_END, two, 2) + 2));
    about("an empty array's first byte can be read");
    check(unreadable(lend(case_arena, AT_START, two, 0)) && unreadable(lend(case_arena, AT_END, two, 0)));
    about("bytes that are not to be written can be");
    check(unwritable((uint8_t *)lend(case_arena, AT_START, two, 2)));
    about("lent room cannot be used");
    uint8_t *room = lend_room(report_arena, AT_END, 2);
    check(!unreadable(room + 1) && !unwritable(room) && unwritable(room + 2));
    about("a changed byte is not told");
    bool before = only_these_written(report_arena, AT_END, 2, two, 0);
    room[1] ^= 1;
    check(before && !only_these_written(report_arena, AT_END, 2, two, 0));
}

/* Marked P in document 01. */
static void paper(void)
{
    struct hour h = three_zone_hour();
    about("P1, the three-zone hour");
    reported(&h, LTA_ACCEPTED, three_zone_totals());

    h = flow_based_hour();
    about("P2, no link");
    reported(&h, LTA_ACCEPTED, flow_based_totals());

    h = unused_link_hour();
    about("P3, the link unused");
    reported(&h, LTA_GAP_ABOVE_TOLERANCE, unused_link_totals());
    h.tolerance = 299999;
    about("P3, tolerance 299,999");
    refused(&h, LTA_WIDE_TOLERANCE, 0);
    h.tolerance = 300000;
    about("P4, tolerance 300,000");
    refused(&h, LTA_WIDE_TOLERANCE, 0);

    h = three_zone_hour();
    h.volume[1] = 6001;
    about("P5, second volume 6,001");
    refused(&h, LTA_VOLUME, 1);

    h = three_zone_hour();
    h.volume[4] = 4376;
    about("P6, last volume 4,376");
    refused(&h, LTA_BALANCE, 0);

    h = three_zone_hour();
    h.flow[0] = 3501;
    about("P7, flow 3,501");
    refused(&h, LTA_LINK_RULE, 0);

    h = three_zone_hour();
    h.share = 87499;
    about("P8, share 87,499");
    refused(&h, LTA_LINK_RULE, 0);
    h.share = 87501;
    about("P9, share 87,501");
    refused(&h, LTA_BRANCH_RULE, 0);

    h = one_zone_hour();
    about("P10, one zone at 400,000 cents");
    reported(&h, LTA_ACCEPTED, (struct totals){.price = {cents(400000)}});
    h.system = 400001;
    about("P11, one zone at 400,001 cents");
    refused(&h, LTA_ZONE_PRICE, 0);

    h = (struct hour){.version = 1, .zones = 1, .branches = 1, .branch = {{-1, {0}}}, .shadow = {1000000}, .share = 100000};
    about("P12, margin -1 and share 100,000");
    refused(&h, LTA_SHARE_WITHOUT_LINK, 0);
    h.share = 0;
    about("P12, margin -1 and share 0");
    refused(&h, LTA_BRANCH_RULE, 0);
}

/* Document 01's cases that are run only. */
static void run_only(void)
{
    struct hour h = three_zone_hour();
    struct file c = case_file(&h), p = proposal_file(&h), none = {0};
    about("empty input");
    refused_files(&none, &none, LTA_CASE_SHORT, 0);
    about("shadow price 1,000,001 of the first branch");
    h.shadow[0] = 1000001;
    refused(&h, LTA_SHADOW_PRICE, 37);
    about("shadow price 1,000,001 of the second branch");
    h.shadow[0] = 5500;
    h.shadow[1] = 1000001;
    refused(&h, LTA_SHADOW_PRICE, 41);
    about("a proposal one byte too long");
    p.length++;
    refused_files(&c, &p, LTA_PROPOSAL_LENGTH, 0);
    about("a proposal one byte too short");
    p.length -= 2;
    refused_files(&c, &p, LTA_PROPOSAL_LENGTH, 0);
}

/* P1's files with one field damaged, for each cause in the table that one field can give. */
static void one_field(void)
{
    enum { CASE, PROPOSAL };
    static const struct {
        const char *name;
        int file;
        size_t offset, width;
        int64_t value;
        uint32_t number, index;
    } damages[] = {
        {"case mark, first byte", CASE, 0, 1, 'l', LTA_CASE_MARK, 0},
        {"case mark, second byte", CASE, 1, 1, 't', LTA_CASE_MARK, 0},
        {"case mark, third byte", CASE, 2, 1, 'K', LTA_CASE_MARK, 0},
        {"case version 0", CASE, 3, 2, 0, LTA_CASE_VERSION, 0},
        {"case version 3", CASE, 3, 2, 3, LTA_CASE_VERSION, 0},
        {"case version 257", CASE, 3, 2, 257, LTA_CASE_VERSION, 0},
        {"case version 258", CASE, 3, 2, 258, LTA_CASE_VERSION, 0},
        {"case version of all bits", CASE, 3, 2, -1, LTA_CASE_VERSION, 0},
        {"case version 2 with a link of six bytes", CASE, 3, 2, 2, LTA_CASE_LENGTH, 0},
        {"no zones", CASE, 5, 1, 0, LTA_CASE_HEADER, 5},
        {"17 zones", CASE, 5, 1, 17, LTA_CASE_HEADER, 5},
        {"65 branches", CASE, 6, 1, 65, LTA_CASE_HEADER, 6},
        {"65 links", CASE, 7, 1, 65, LTA_CASE_HEADER, 7},
        {"513 orders", CASE, 8, 2, 513, LTA_CASE_HEADER, 8},
        {"tolerance 1,000,000,001", CASE, 10, 4, 1000000001, LTA_CASE_HEADER, 10},
        {"tolerance of all bits", CASE, 10, 4, -1, LTA_CASE_HEADER, 10},
        {"a zone more than fields", CASE, 5, 1, 4, LTA_CASE_LENGTH, 0},
        {"a branch less than fields", CASE, 6, 1, 1, LTA_CASE_LENGTH, 0},
        {"a link more than fields", CASE, 7, 1, 2, LTA_CASE_LENGTH, 0},
        {"an order less than fields", CASE, 8, 2, 4, LTA_CASE_LENGTH, 0},
        {"512 orders of 5", CASE, 8, 2, 512, LTA_CASE_LENGTH, 0},
        {"first margin 500,001", CASE, 14, 4, 500001, LTA_CASE_BRANCH, 14},
        {"first margin -500,001", CASE, 14, 4, -500001, LTA_CASE_BRANCH, 14},
        {"second margin 500,001", CASE, 30, 4, 500001, LTA_CASE_BRANCH, 30},
        {"first branch, last PTDF 200,001", CASE, 26, 4, 200001, LTA_CASE_BRANCH, 26},
        {"second branch, last PTDF -200,001", CASE, 42, 4, -200001, LTA_CASE_BRANCH, 42},
        {"link from an unknown zone", CASE, 46, 1, 3, LTA_CASE_LINK, 46},
        {"link to an unknown zone", CASE, 47, 1, 3, LTA_CASE_LINK, 47},
        {"link from a zone to itself", CASE, 46, 1, 1, LTA_CASE_LINK, 47},
        {"capacity 100,001", CASE, 48, 4, 100001, LTA_CASE_LINK, 48},
        {"capacity of all bits", CASE, 48, 4, -1, LTA_CASE_LINK, 48},
        {"last order in an unknown zone", CASE, 92, 1, 3, LTA_CASE_ORDER, 92},
        {"first order on side 2", CASE, 53, 1, 2, LTA_CASE_ORDER, 53},
        {"second quantity 0", CASE, 64, 4, 0, LTA_CASE_ORDER, 64},
        {"third quantity 100,001", CASE, 74, 4, 100001, LTA_CASE_ORDER, 74},
        {"fourth price 400,001", CASE, 88, 4, 400001, LTA_CASE_ORDER, 88},
        {"last price -50,001", CASE, 98, 4, -50001, LTA_CASE_ORDER, 98},
        {"proposal mark, first byte", PROPOSAL, 0, 1, 'l', LTA_PROPOSAL_MARK, 0},
        {"proposal mark, second byte", PROPOSAL, 1, 1, 't', LTA_PROPOSAL_MARK, 0},
        {"proposal mark, third byte", PROPOSAL, 2, 1, 'C', LTA_PROPOSAL_MARK, 0},
        {"proposal version 0", PROPOSAL, 3, 2, 0, LTA_PROPOSAL_VERSION, 0},
        {"proposal version 257", PROPOSAL, 3, 2, 257, LTA_PROPOSAL_VERSION, 0},
        {"share 100,001", PROPOSAL, 5, 4, 100001, LTA_SHARE, 0},
        {"share of all bits", PROPOSAL, 5, 4, -1, LTA_SHARE, 0},
        {"second shadow price of all bits", PROPOSAL, 41, 4, -1, LTA_SHADOW_PRICE, 41},
        {"last volume of all bits", PROPOSAL, 29, 4, -1, LTA_VOLUME, 4},
        {"flow of all bits", PROPOSAL, 33, 4, -1, LTA_LINK_RULE, 0},
        {"share 100,000, so that no margin is left", PROPOSAL, 5, 4, 100000, LTA_BRANCH_RULE, 0},
        {"system price of the least value", PROPOSAL, 9, 4, INT32_MIN, LTA_ZONE_PRICE, 0},
        {"system price of the greatest value", PROPOSAL, 9, 4, INT32_MAX, LTA_ZONE_PRICE, 0},
        {"first shadow price 1,000,000, which prices zone 1 out", PROPOSAL, 37, 4, 1000000, LTA_ZONE_PRICE, 1},
    };
    struct hour h = three_zone_hour();
    for (size_t k = 0; k < COUNT(damages); k++) {
        struct file c = case_file(&h), p = proposal_file(&h);
        put(damages[k].file == CASE ? &c : &p, damages[k].offset, damages[k].width, (uint64_t)damages[k].value);
        about("%s", damages[k].name);
        refused_files(&c, &p, damages[k].number, damages[k].index);
    }
}

/* One field at an offset of an hour's case (0) or proposal (1), set one past either limit (under 0 means all bits
 * set) and to its highest bit alone: the refusal names its offset. Returns the offset of the next field. */
static size_t field_damaged(const struct hour *h, int file, size_t offset, size_t width, int64_t least, int64_t greatest, uint32_t number)
{
    const int64_t values[] = {least - 1, greatest + 1, INT64_C(1) << (8 * width - 1)};
    for (size_t k = 0; k < COUNT(values); k++) {
        struct file files[2] = {case_file(h), proposal_file(h)};
        put(&files[file], offset, width, (uint64_t)values[k]);
        about("%" PRId64 " at offset %zu of the %s", values[k], offset, file == 0 ? "case" : "proposal");
        refused_files(&files[0], &files[1], number, (uint32_t)offset);
    }
    return offset + width;
}

/* Every field of the rows that can be at fault, in file order. */
static void fields_damaged(const struct hour *h, size_t case_length)
{
    size_t at = 14;
    for (size_t b = 0; b < h->branches; b++) {
        at = field_damaged(h, 0, at, 4, -500000, 500000, LTA_CASE_BRANCH);
        for (size_t z = 0; z < h->zones; z++)
            at = field_damaged(h, 0, at, 4, -200000, 200000, LTA_CASE_BRANCH);
    }
    for (size_t l = 0; l < h->links; l++) {
        at = field_damaged(h, 0, at, 1, 0, h->zones - 1, LTA_CASE_LINK);
        at = field_damaged(h, 0, at, 1, 0, h->zones - 1, LTA_CASE_LINK);
        at = field_damaged(h, 0, at, 4, 0, 100000, LTA_CASE_LINK);
        if (h->version == 2)
            at = field_damaged(h, 0, at, 4, 0, h->link[l].capacity, LTA_CASE_LINK);
    }
    for (size_t i = 0; i < h->orders; i++) {
        at = field_damaged(h, 0, at, 1, 0, h->zones - 1, LTA_CASE_ORDER);
        at = field_damaged(h, 0, at, 1, 0, 1, LTA_CASE_ORDER);
        at = field_damaged(h, 0, at, 4, 1, 100000, LTA_CASE_ORDER);
        at = field_damaged(h, 0, at, 4, -50000, 400000, LTA_CASE_ORDER);
    }
    about("the walk ends with the case");
    check(at == case_length);
    at = 13 + 4 * ((size_t)h->orders + h->links);
    for (size_t b = 0; b < h->branches; b++)
        at = field_damaged(h, 1, at, 4, 0, 1000000, LTA_SHADOW_PRICE);
    about("the walk ends with the proposal");
    check(at == 45);
}

static void each_field(void)
{
    struct hour one = three_zone_hour(), two = contracted_hour();
    fields_damaged(&one, 102);
    fields_damaged(&two, 106);
}

/* Request S-4: owed uses contracted volumes, the bound capacities. */
static void contracted(void)
{
    struct hour h = contracted_hour();
    about("P1 with 2,500 of 4,000 contracted");
    reported(&h, LTA_ACCEPTED, contracted_totals());
    h.link[0].contracted = 4000;
    about("P1 of version 2 with all contracted: what version 1 says");
    reported(&h, LTA_ACCEPTED, three_zone_totals());
    h.link[0].contracted = 0;
    struct totals t = three_zone_totals();
    t.owed = 0;
    about("P1 with nothing contracted, and a flow none the less");
    reported(&h, LTA_ACCEPTED, t);

    h = unused_link_hour();
    h.version = 2;
    t = unused_link_totals();
    about("P3 of version 2 with all contracted");
    reported(&h, LTA_GAP_ABOVE_TOLERANCE, t);
    h.link[0].contracted = 0;
    t.owed = 0;
    about("P3 with nothing contracted: the gap of 3,000 euros is missed where the bound is by contracted volumes");
    reported(&h, LTA_GAP_ABOVE_TOLERANCE, t);
    /* at a hundredth of its size, so that the gap is 30 euros */
    h = divided(h, 100);
    h.tolerance = 3000;
    h.link[0].contracted = 30;
    t = (struct totals){euros(195), euros(225), euros(30), euros(150), euros(135), {0}};
    memcpy(t.price, unused_link_totals().price, sizeof t.price);
    about("P4 at a hundredth, with 30 of 40 contracted: the rent covers what is owed, and not what is offered");
    reported(&h, LTA_ACCEPTED, t);

    h = flow_based_hour();
    h.version = 2;
    about("P2 of version 2, which has no link");
    reported(&h, LTA_ACCEPTED, flow_based_totals());
}

/* A contracted volume above its capacity is refused, by its own offset, after the fields before it. The links of
 * P1 in version 2 begin at 46, 56 and 66, and the first contracted volume is at 52. */
static void contracted_refused(void)
{
    struct hour h = contracted_hour();
    h.link[0].contracted = 4001;
    about("contracted one above the capacity");
    refused(&h, LTA_CASE_LINK, 52);
    h.link[0].contracted = UINT32_MAX;
    about("contracted of all bits");
    refused(&h, LTA_CASE_LINK, 52);
    h.link[0].capacity = 100001;
    about("contracted and capacity: the capacity is named");
    refused(&h, LTA_CASE_LINK, 48);
    h.link[0].contracted = 100001;
    about("a capacity above its limit, all of it contracted: the capacity is named");
    refused(&h, LTA_CASE_LINK, 48);
    h.link[0].to = 0;
    about("equal zones and both: the second of the two is named");
    refused(&h, LTA_CASE_LINK, 47);

    h = contracted_hour();
    h.links = 3;
    h.link[1] = (struct link){1, 0, 0, 0};
    h.link[2] = (struct link){0, 1, 4000, 4001};
    about("a repeated pair and contracted: the later link's first byte is named");
    refused(&h, LTA_CASE_LINK, 66);
    h.link[1].contracted = 1;
    about("contracted before a repeated pair: row by row");
    refused(&h, LTA_CASE_LINK, 62);
    h.links = 2;
    h.link[1].contracted = 0;
    about("nothing contracted of no capacity");
    struct totals t = contracted_totals();
    reported(&h, LTA_ACCEPTED, t);

    h = contracted_hour();
    h.order[4].price = 400001;
    about("an order behind a link of ten bytes");
    refused(&h, LTA_CASE_ORDER, 102);
    h = contracted_hour();
    h.shadow[1] = 1000001;
    about("a shadow price: the proposal is laid out as before");
    refused(&h, LTA_SHADOW_PRICE, 41);
    h = contracted_hour();
    struct file c = case_file(&h), p = proposal_file(&h);
    put(&c, 3, 2, 1);
    about("version 1 with a link of ten bytes");
    refused_files(&c, &p, LTA_CASE_LENGTH, 0);
    put(&c, 3, 2, 3);
    about("version 3");
    refused_files(&c, &p, LTA_CASE_VERSION, 0);
    put(&c, 3, 2, 258);
    about("version 258");
    refused_files(&c, &p, LTA_CASE_VERSION, 0);
}

/* Rows with two faults, or the same fault in two rows: the refusal names the first field in file order. P1's
 * branches begin at 14 and 30, its links at 46, 52 and 58 if there are that many, the orders after one link at 52,
 * 62, 72, 82 and 92, the shadow prices at 37 and 41. */
static void first_in_file_order(void)
{
    struct hour h = three_zone_hour();
    h.shadow[0] = h.shadow[1] = 1000001;
    about("two shadow prices: the first is named, in the proposal");
    refused(&h, LTA_SHADOW_PRICE, 37);

    h.order[1] = (struct order){0, 1, 6000, 400001};
    h.order[2].zone = 3;
    about("a price, and a zone in the next order: row by row");
    refused(&h, LTA_CASE_ORDER, 68);
    h.order[1].quantity = 0;
    about("price and quantity: the quantity is named");
    refused(&h, LTA_CASE_ORDER, 64);
    h.order[1].side = 2;
    about("price, quantity and side: the side is named");
    refused(&h, LTA_CASE_ORDER, 63);
    h.order[1].zone = 3;
    about("all four: the zone is named");
    refused(&h, LTA_CASE_ORDER, 62);

    h.links = 3;
    h.link[1] = (struct link){1, 0, 100001, 0};
    h.link[2] = (struct link){0, 1, 4000, 0};
    about("a capacity before a repeated pair: row by row");
    refused(&h, LTA_CASE_LINK, 54);
    h.link[1].to = 1;
    about("equal zones and the capacity: the second of the two is named");
    refused(&h, LTA_CASE_LINK, 53);
    h.link[1].to = 3;
    about("an unknown zone and the capacity: the zone is named");
    refused(&h, LTA_CASE_LINK, 53);
    h.link[1].from = 3;
    about("equal zones that are unknown: the first of the two is named");
    refused(&h, LTA_CASE_LINK, 52);
    h.link[1] = (struct link){1, 0, 4000, 0};
    h.link[2].capacity = 100001;
    about("a repeated pair and the capacity: the later link's first byte is named");
    refused(&h, LTA_CASE_LINK, 58);

    h.branch[0].ptdf[2] = 200001;
    h.branch[1].ram = 500001;
    about("a PTDF, and the margin of the next branch: row by row");
    refused(&h, LTA_CASE_BRANCH, 26);
    h.branch[0].ptdf[0] = -200001;
    about("two PTDFs: the first is named");
    refused(&h, LTA_CASE_BRANCH, 18);
    h.branch[0].ram = -500001;
    about("margin and PTDFs: the margin is named");
    refused(&h, LTA_CASE_BRANCH, 14);
}

/* Hours with two causes, or with an index that is not the first. */
static void causes(void)
{
    struct hour h = three_zone_hour();
    h.links = 2;
    h.link[1] = h.link[0];
    about("a repeated pair names the later link's first byte");
    refused(&h, LTA_CASE_LINK, 52);

    h.link[1] = (struct link){1, 0, 4000, 0};
    h.flow[1] = 3501;
    about("the second link's flow; the reverse pair is another link");
    refused(&h, LTA_LINK_RULE, 1);

    h.flow[0] = 3501;
    about("two flows too large: the first link is named");
    refused(&h, LTA_LINK_RULE, 0);

    h = three_zone_hour();
    h.order[3].side = 2;
    h.order[1].quantity = 0;
    h.branch[1].ram = 500001;
    about("two orders and a branch out of range: the branch's margin is named");
    refused(&h, LTA_CASE_BRANCH, 30);
    h.branch[1].ram = 15000;
    about("two orders out of range: the first one's quantity is named");
    refused(&h, LTA_CASE_ORDER, 64);

    h = three_zone_hour();
    h.volume[0] = 4001;
    about("volume, balance and branch rule fail: the volume is named");
    refused(&h, LTA_VOLUME, 0);

    h = three_zone_hour();
    h.volume[1]--;
    h.flow[0] = 3501;
    h.system = 400001;
    about("balance, link rule and zone price fail: the balance is named");
    refused(&h, LTA_BALANCE, 0);

    h = three_zone_hour();
    h.branch[1].ram = -1;
    about("the second branch's rule");
    refused(&h, LTA_BRANCH_RULE, 1);

    struct file c = case_file(&h), p = proposal_file(&h), none = {0};
    put(&c, 3, 2, 3);
    about("case version and no proposal: the version is named");
    refused_files(&c, &none, LTA_CASE_VERSION, 0);
    put(&p, 0, 1, 0);
    about("both marks wrong: the case's is named");
    put(&c, 0, 1, 0);
    refused_files(&c, &p, LTA_CASE_MARK, 0);

    h = negative_hour();
    struct totals t = {.welfare = -100000, .bound = 100000, .gap = 200000, .price = {cents(-1)}};
    about("a negative welfare and a negative price");
    reported(&h, LTA_ACCEPTED, t);
    h.tolerance = 0;
    about("the same at tolerance 0");
    reported(&h, LTA_GAP_ABOVE_TOLERANCE, t);
}

/* A link's spread left unused: the gap is its capacity times the spread, which is a PTDF times a shadow price in
 * grains. */
static struct hour unused_spread(uint32_t tolerance, uint32_t capacity, int32_t ptdf, uint32_t shadow)
{
    return (struct hour){
        .version = 1,
        .zones = 2,
        .tolerance = tolerance,
        .branches = 1,
        .branch = {{0, {ptdf, 0}}},
        .links = 1,
        .link = {{1, 0, capacity, capacity}},
        .shadow = {shadow},
    };
}

/* Request S-12: 15 above 10,000 cents, asked directly after 14. */
static void wide_tolerances(void)
{
    const int64_t widest = INT64_C(10000) * LTA_MICROCENTS_PER_CENT;
    struct hour h = unused_spread(10000, 100000, 100000, 1);
    about("the widest tolerance, and a gap of 10,000 cents");
    reported(&h, LTA_ACCEPTED, (struct totals){.bound = widest, .gap = widest, .owed = widest, .price = {cents(1)}});
    h.tolerance = 10001;
    about("a tolerance of 10,001 cents, and the same gap");
    refused(&h, LTA_WIDE_TOLERANCE, 0);
    h = unused_spread(10000, 27961, 3541, 101);
    about("the widest tolerance, and a gap a microcent above it");
    struct totals t = {.bound = widest + 1, .gap = widest + 1, .owed = widest + 1, .price = {3541 * (int64_t)101}};
    reported(&h, LTA_GAP_ABOVE_TOLERANCE, t);
    h.tolerance = 9999;
    about("a tolerance of 9,999 cents");
    reported(&h, LTA_GAP_ABOVE_TOLERANCE, t);

    static const uint32_t wide[] = {10001, 65536, 300000, 16777216, 999999999, 1000000000};
    for (size_t k = 0; k < COUNT(wide); k++) {
        h = three_zone_hour();
        h.tolerance = wide[k];
        about("P1 at a tolerance of %" PRIu32, wide[k]);
        refused(&h, LTA_WIDE_TOLERANCE, 0);
        h.shadow[1] = 1000001;
        about("14 before 15, at a tolerance of %" PRIu32, wide[k]);
        refused(&h, LTA_SHADOW_PRICE, 41);
    }
    static const uint32_t narrow[] = {0, 1, 255, 256, 9999, 10000};
    for (size_t k = 0; k < COUNT(narrow); k++) {
        h = three_zone_hour();
        h.tolerance = narrow[k];
        about("P1 at a tolerance of %" PRIu32, narrow[k]);
        reported(&h, LTA_ACCEPTED, three_zone_totals());
    }
    h = three_zone_hour();
    h.tolerance = 1000000001;
    about("P1 at a tolerance of 1,000,000,001: row 4");
    refused(&h, LTA_CASE_HEADER, 10);
    h.tolerance = 10001;
    h.volume[1] = 6001;
    about("15 before 21");
    refused(&h, LTA_WIDE_TOLERANCE, 0);
    h = three_zone_hour();
    h.tolerance = 10001;
    h.volume[4]++;
    about("15 before 22");
    refused(&h, LTA_WIDE_TOLERANCE, 0);
    h = flow_based_hour();
    h.tolerance = 10001;
    h.share = 1;
    about("15 before 27");
    refused(&h, LTA_WIDE_TOLERANCE, 0);
    struct file c = case_file(&h), p = proposal_file(&h);
    p.length--;
    about("12 before 15");
    refused_files(&c, &p, LTA_PROPOSAL_LENGTH, 0);
    about("30 before 15");
    judged(&c, &p, LTA_REPORT_ROOM - 1, LTA_NO_ROOM, 0, &(struct file){0});
}

/* S-6: no link, and a margin of -1,000 tenths that makes the second zone buy for 40 euros what the first sells for
 * 50. */
static void without_links(void)
{
    const struct hour forced = {
        .version = 1,
        .zones = 2,
        .branches = 1,
        .branch = {{-1000, {0, -100000}}},
        .orders = 2,
        .order = {{0, LTA_SELLS, 1000, 5000}, {1, LTA_BUYS, 1000, 4000}},
        .system = 5000,
        .volume = {1000, 1000},
        .shadow = {1000},
    };
    struct totals t = {.price = {cents(5000), cents(4000)}};
    t.welfare = t.bound = t.rent = euros(-1000);
    for (uint16_t version = 1; version <= 2; version++) {
        struct hour h = forced;
        h.version = version;
        about("version %d: a negative bound, and a rent below what is owed", version);
        reported(&h, LTA_ACCEPTED, t);
        h.share = 1;
        about("version %d: a share of 1", version);
        refused(&h, LTA_SHARE_WITHOUT_LINK, 0);
        h.branch[0].ram = -1001;
        h.system = 400001;
        about("version %d: share, branch rule and zone price fail: the share is named", version);
        refused(&h, LTA_SHARE_WITHOUT_LINK, 0);
        h.share = 0;
        about("version %d: branch rule and zone price fail", version);
        refused(&h, LTA_BRANCH_RULE, 0);
        h.share = 100000;
        h.volume[1]--;
        about("version %d: balance and share fail: the balance is named", version);
        refused(&h, LTA_BALANCE, 0);

        h = forced;
        h.version = version;
        h.links = 1;
        h.link[0] = (struct link){0, 1, 0, 0};
        about("version %d: a link of no capacity, and the larger of branch total and zero", version);
        reported(&h, LTA_GAP_ABOVE_TOLERANCE, (struct totals){t.welfare, 0, euros(1000), t.rent, 0, {t.price[0], t.price[1]}});
        h.share = 100000;
        h.volume[0] = h.volume[1] = 0;
        about("version %d: with that link the whole share", version);
        reported(&h, LTA_ACCEPTED, (struct totals){.price = {t.price[0], t.price[1]}});
    }
}

/* An accepted hour's case cut short at each length, and lengthened by zero bytes: the length is refused, and
 * nothing past it is read. */
static void each_case_length(const struct hour *h, struct totals t, size_t whole)
{
    struct file c = case_file(h), p = proposal_file(h), report = report_file(LTA_ACCEPTED, h->zones, t);
    about("the three-zone case of version %u has %zu bytes", h->version, whole);
    check(c.length == whole);
    for (c.length = 0; c.length <= 200; c.length++) {
        about("case of version %u, of %zu bytes", h->version, c.length);
        if (c.length == whole)
            judged(&c, &p, ROOM, LTA_ACCEPTED, 0, &report);
        else
            refused_files(&c, &p, c.length < 14 ? LTA_CASE_SHORT : LTA_CASE_LENGTH, 0);
    }
}

static void case_lengths(void)
{
    struct hour h = three_zone_hour();
    each_case_length(&h, three_zone_totals(), 102);
}

static void contracted_case_lengths(void)
{
    struct hour h = contracted_hour();
    each_case_length(&h, contracted_totals(), 106);
}

/* The same for a proposal. */
static void proposal_lengths(void)
{
    struct hour h = three_zone_hour();
    struct file c = case_file(&h), p = proposal_file(&h), report = report_file(LTA_ACCEPTED, h.zones, three_zone_totals());
    about("the three-zone proposal has 45 bytes");
    check(p.length == 45);
    for (p.length = 0; p.length <= 200; p.length++) {
        about("proposal of %zu bytes", p.length);
        if (p.length == 45)
            judged(&c, &p, ROOM, LTA_ACCEPTED, 0, &report);
        else
            refused_files(&c, &p, p.length < 13 ? LTA_PROPOSAL_SHORT : LTA_PROPOSAL_LENGTH, 0);
    }
}

/* Report buffers around the required room. */
static void rooms(void)
{
    static const size_t lengths[] = {0, 1, 71, 72, LTA_REPORT_ROOM - 1, LTA_REPORT_ROOM, LTA_REPORT_ROOM + 1, 300};
    struct hour h = three_zone_hour(), over = unused_link_hour();
    struct file c = case_file(&h), p = proposal_file(&h), report = report_file(LTA_ACCEPTED, h.zones, three_zone_totals()), none = {0};
    struct file over_case = case_file(&over), over_proposal = proposal_file(&over);
    struct file over_report = report_file(LTA_GAP_ABOVE_TOLERANCE, over.zones, unused_link_totals());
    for (size_t k = 0; k < COUNT(lengths); k++) {
        size_t room = lengths[k];
        bool enough = room >= LTA_REPORT_ROOM;
        about("P1 with a report buffer of %zu bytes", room);
        judged(&c, &p, room, enough ? LTA_ACCEPTED : LTA_NO_ROOM, 0, enough ? &report : &none);
        about("P3 with a report buffer of %zu bytes", room);
        judged(&over_case, &over_proposal, room, enough ? LTA_GAP_ABOVE_TOLERANCE : LTA_NO_ROOM, 0, enough ? &over_report : &none);
        about("empty files with a report buffer of %zu bytes", room);
        judged(&none, &none, room, enough ? LTA_CASE_SHORT : LTA_NO_ROOM, 0, &none);
    }
}

/* A null pointer where the length is 0. */
static void nulls(void)
{
    struct hour h = three_zone_hour();
    struct file c = case_file(&h), p = proposal_file(&h);
    for (unsigned k = 0; k < PLACES; k++) {
        enum place place = k;
        const uint8_t *case_bytes = lend(case_arena, place, c.bytes, c.length);
        const uint8_t *proposal = lend(proposal_arena, place, p.bytes, p.length);
        uint8_t *report = lend_room(report_arena, place, ROOM);
        about("null for the case");
        check(lta_judge(NULL, 0, proposal, p.length, report, ROOM) == LTA_CASE_SHORT);
        about("null for the proposal");
        check(lta_judge(case_bytes, c.length, NULL, 0, report, ROOM) == LTA_PROPOSAL_SHORT);
        about("null for both files");
        check(lta_judge(NULL, 0, NULL, 0, report, ROOM) == LTA_CASE_SHORT);
        about("null for the report");
        check(lta_judge(case_bytes, c.length, proposal, p.length, NULL, 0) == LTA_NO_ROOM);
        about("null for all");
        check(lta_judge(NULL, 0, NULL, 0, NULL, 0) == LTA_NO_ROOM);
        about("a null pointer changes the report");
        check(holds(report_arena, place, ROOM, NULL, 0));
    }
}

/* The largest hour, with the last zone's price a cent above the others'. */
static struct hour ceiling_hour(uint16_t version)
{
    struct hour h = largest_hour(version, 0);
    h.system = 399999;
    h.branch[63].ptdf[15] = 1;
    h.shadow[63] = 100000;
    return h;
}

/* A buy gains less by what a sell gains more. One branch of 500,000 at a shadow price of 100,000 has 5e15. Four
 * links lead to the zone, each with this much contracted. */
static struct totals ceiling_totals(int64_t contracted)
{
    struct totals t = {.welfare = 1152000000000000000, .bound = 1157000000000000000, .gap = 5000000000000000};
    t.owed = 4 * contracted * cents(1);
    for (size_t z = 0; z < 16; z++)
        t.price[z] = cents(z < 15 ? 399999 : 400000);
    return t;
}

/* The greatest count of everything. Each order is served at 450,000 cents between its price and the other side's:
 * 256 pairs of 100,000 tenths have a welfare of 1.152e18 microcents. The 64 branches, at their greatest margin and
 * shadow price, have a total of 3.2e18. */
static void largest(void)
{
    struct hour h = largest_hour(1, 0);
    struct totals t = {.welfare = 1152000000000000000, .bound = 1152000000000000000};
    about("the largest hour");
    reported(&h, LTA_ACCEPTED, t);

    struct file c = case_file(&h), p = proposal_file(&h), none = {0};
    about("the largest case has 9,870 bytes, its proposal 2,573");
    check(c.length == 9870 && p.length == 2573);
    about("the largest hour with a report buffer of 176 bytes, which it fills");
    struct file report = report_file(LTA_ACCEPTED, 16, t);
    judged(&c, &p, report.length, LTA_ACCEPTED, 0, &report);
    about("the largest case without its last byte");
    c.length--;
    judged(&c, &p, ROOM, LTA_CASE_LENGTH, 0, &none);

    h = largest_hour(1, 1000000);
    t.bound += 3200000000000000000;
    t.gap = 3200000000000000000;
    about("the largest hour with the largest branch total");
    reported(&h, LTA_GAP_ABOVE_TOLERANCE, t);

    h = largest_hour(1, 0);
    h.order[511].price = 400001;
    about("the last of 512 orders out of range");
    refused(&h, LTA_CASE_ORDER, 9866);
    h = largest_hour(1, 0);
    h.volume[511]++;
    about("the last of 512 volumes too large");
    refused(&h, LTA_VOLUME, 511);
    h = largest_hour(1, 0);
    h.link[63] = h.link[0];
    about("the last of 64 links repeats the first");
    refused(&h, LTA_CASE_LINK, 4744);
    h = largest_hour(1, 0);
    h.flow[63]++;
    about("the last of 64 flows too large");
    refused(&h, LTA_LINK_RULE, 63);
    h = largest_hour(1, 0);
    h.branch[63].ptdf[15] = -200001;
    about("the last of 64 times 16 PTDFs out of range");
    refused(&h, LTA_CASE_BRANCH, 4362);
    h = largest_hour(1, 0);
    h.shadow[63] = 1000001;
    about("the last of 64 shadow prices too large");
    refused(&h, LTA_SHADOW_PRICE, 2569);

    h = ceiling_hour(1);
    t = ceiling_totals(100000);
    about("the last of 16 prices at the ceiling");
    reported(&h, LTA_GAP_ABOVE_TOLERANCE, t);
    h.shadow[63]++;
    about("the last of 16 prices a grain above the ceiling");
    refused(&h, LTA_ZONE_PRICE, 15);
}

/* The same in version 2, the longest of all cases. */
static void largest_contracted(void)
{
    struct hour h = largest_hour(2, 0);
    struct totals t = {.welfare = 1152000000000000000, .bound = 1152000000000000000};
    about("the largest hour of version 2");
    reported(&h, LTA_ACCEPTED, t);
    struct file c = case_file(&h), p = proposal_file(&h), none = {0};
    about("the largest case of version 2 has 10,126 bytes, its proposal 2,573");
    check(c.length == CASE_ROOM && p.length == PROPOSAL_ROOM);
    about("the largest case of version 2 without its last byte");
    c.length--;
    judged(&c, &p, ROOM, LTA_CASE_LENGTH, 0, &none);

    h.link[63].contracted = 100001;
    about("the last of 64 contracted volumes above its capacity");
    refused(&h, LTA_CASE_LINK, 5002);
    h = largest_hour(2, 0);
    h.link[63] = h.link[0];
    about("the last of 64 links of version 2 repeats the first");
    refused(&h, LTA_CASE_LINK, 4996);
    h = largest_hour(2, 0);
    h.order[511].price = 400001;
    about("the last of 512 orders out of range, behind 64 links of ten bytes");
    refused(&h, LTA_CASE_ORDER, 10122);

    h = ceiling_hour(2);
    t = ceiling_totals(50000);
    about("half of four links is contracted");
    reported(&h, LTA_GAP_ABOVE_TOLERANCE, t);
    h.shadow[63] = 100000;
    h.branch[63].ram = 0;
    t.bound = 1152000000000000000 + 400000 * cents(1);
    t.gap = 400000 * cents(1);
    about("the link total of all their capacity is the larger one in the bound");
    reported(&h, LTA_GAP_ABOVE_TOLERANCE, t);
}

static struct {
    struct file case_file, proposal;
    uint8_t report[LTA_REPORT_ROOM];
    uint64_t verdict;
} call;

static void call_judge(void)
{
    const struct file *c = &call.case_file, *p = &call.proposal;
    call.verdict = lta_judge(c->bytes, c->length, p->bytes, p->length, call.report, sizeof call.report);
}

static void small_stack(void)
{
    for (uint16_t version = 1; version <= 2; version++) {
        struct hour h = largest_hour(version, 1000000);
        call.case_file = case_file(&h);
        call.proposal = proposal_file(&h);
        call.verdict = 0;
        about("the largest hour of version %d on a stack of %d bytes", version, STACK_ENOUGH);
        on_stack(STACK_ENOUGH, call_judge);
        check(call.verdict == LTA_GAP_ABOVE_TOLERANCE);
    }
}

static int64_t number_at(const struct file *f, size_t offset)
{
    uint64_t bits = 0;
    for (size_t k = 0; k < 8; k++)
        bits |= (uint64_t)f->bytes[offset + k] << 8 * k;
    int64_t number;
    memcpy(&number, &bits, sizeof number);
    return number;
}

/* The header's offsets and sizes, against reports laid out from the paper. */
static void header(void)
{
    struct totals t = {.welfare = -1, .bound = 2, .gap = -3, .rent = 4, .owed = -5};
    for (size_t z = 0; z < 16; z++)
        t.price[z] = (int64_t)z - 8;
    struct file report = report_file(26, 16, t);
    about("mark, version, number and zones");
    check(memcmp(report.bytes + LTA_REPORT_MARK, "LTR", 3) == 0
          && memcmp(report.bytes + LTA_REPORT_VERSION, "\1\0", 2) == 0
          && report.bytes[LTA_REPORT_NUMBER] == LTA_GAP_ABOVE_TOLERANCE
          && memcmp(report.bytes + LTA_REPORT_ZONES, "\20\0", 2) == 0);
    about("totals");
    check(number_at(&report, LTA_REPORT_WELFARE) == t.welfare
          && number_at(&report, LTA_REPORT_BOUND) == t.bound
          && number_at(&report, LTA_REPORT_GAP) == t.gap
          && number_at(&report, LTA_REPORT_RENT) == t.rent
          && number_at(&report, LTA_REPORT_OWED) == t.owed);
    about("prices");
    bool prices = true;
    for (size_t z = 0; z < 16; z++)
        prices = prices && number_at(&report, LTA_REPORT_PRICE(z)) == t.price[z];
    check(prices);
    about("sizes");
    check(LTA_REPORT_SIZE(16) == report.length && LTA_REPORT_ROOM == report.length && LTA_REPORT_SIZE(1) == 56);
    about("number and index of a verdict");
    uint64_t verdict = 25 + 256 * UINT64_C(15);
    check(LTA_NUMBER(verdict) == LTA_ZONE_PRICE && LTA_INDEX(verdict) == 15 && LTA_INDEX(8 + 256 * UINT64_C(9866)) == 9866);
}

static bool is_stored(const char *name, const struct file *f)
{
    struct file stored = {0};
    return append_stored(&stored, name) && same_file(&stored, f);
}

static void samples(void)
{
    struct hour h = three_zone_hour();
    struct file c = case_file(&h), p = proposal_file(&h);
    about("the sample case is P1's");
    check(is_stored(sample_case, &c));
    about("the sample proposal is P1's");
    check(is_stored(sample_proposal, &p));
    h = contracted_hour();
    c = case_file(&h);
    about("the sample case of version 2 is P1's with 2,500 contracted");
    check(is_stored(sample_contracted, &c));
}

int main(int count, char **words)
{
    if (count != 4) {
        fprintf(stderr, "usage: judge_test CASE PROPOSAL CONTRACTED\n");
        return 2;
    }
    sample_case = words[1];
    sample_proposal = words[2];
    sample_contracted = words[3];
    case_arena = arena(CASE_ROOM);
    proposal_arena = arena(PROPOSAL_ROOM);
    report_arena = arena(300);

    group("a byte past a lent array ends the process", memory);
    group("the header's constants are the papers'", header);
    group("the sample files are the bytes made here", samples);
    group("P1 to P12 are answered as document 01 says", paper);
    group("inputs that only a run can show are refused", run_only);
    group("one damaged field is refused by its number and offset", one_field);
    group("each field of each row is refused at its own offset", each_field);
    group("owed is by contracted volumes", contracted);
    group("a contracted volume above its capacity is refused", contracted_refused);
    group("the first field in file order is named", first_in_file_order);
    group("the first cause and its first index are named", causes);
    group("a tolerance above 10,000 cents is refused by 15", wide_tolerances);
    group("without links the share is 0 and the bound by branches", without_links);
    group("cases of 0 to 200 bytes are refused but for their own length", case_lengths);
    group("cases of version 2 are refused but for their own length", contracted_case_lengths);
    group("proposals of 0 to 200 bytes are refused but for their own length", proposal_lengths);
    group("a report buffer under 176 bytes is refused first", rooms);
    group("null is taken with length 0", nulls);
    group("the largest hours do not overflow", largest);
    group("the largest hours of version 2 do not overflow", largest_contracted);
    group("the stack that the header names is enough", small_stack);
    return closing();
}
