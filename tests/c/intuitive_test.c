/* lta_intuitive and lta_hour_intuitive through the library, and both with the smaller scratch: annex 5.1's two
 * price sets, which pairs count, exports that make way for each other, each limit and one past it, each cause and
 * their order, hours accepted and refused, null pointers. Calls are made with every argument at both places
 * between unreadable pages, all except the scratch unwritable, and every number of the scratch is compared. */
#include "harness.h"
#include "hours.h"
#include "lta_judgement.h"

#include <inttypes.h>
#include <stddef.h>
#include <stdio.h>
#include <string.h>

#define ZONES_MOST 16
#define EXPORT_MOST 51200000
#define PAIR_BYTES_MOST 600
/* Numbers past those that an answer clears. */
#define PAST 40
#define ROOM (entries->scratch + PAST)

/* The wide scratch and the smaller: how many numbers they have, and the entries that take them. */
struct entries {
    const char *name;
    size_t scratch;
    struct lta_carried (*intuitive)(const int64_t *, size_t, const int64_t *, size_t, const uint8_t *, size_t, int64_t *, size_t);
    struct lta_carried (*hour)(const uint8_t *, size_t, const uint8_t *, size_t, const uint8_t *, size_t, int64_t *, size_t);
};
static const struct entries sizes[] = {
    {"the wide scratch", LTA_INTUITIVE_SCRATCH, lta_intuitive, lta_hour_intuitive},
    {"the smaller scratch", LTA_INTUITIVE_SMALL_SCRATCH, lta_intuitive_small, lta_hour_intuitive_small},
};
static const struct entries *entries = sizes;

/* The arguments, with room for some zones and many pairs too many. */
struct exchange {
    size_t zones, prices, bytes;
    int64_t net[ZONES_MOST + 2], price[ZONES_MOST + 2];
    uint8_t pair[PAIR_BYTES_MOST];
};

static struct arena net_arena, price_arena, pair_arena, scratch_arena, case_arena, proposal_arena;
static const uint8_t zeros[8 * LTA_INTUITIVE_SCRATCH];

static bool is(struct lta_carried a, uint32_t number, uint32_t index, uint32_t intuitive, int64_t total)
{
    bool ok = a.number == number && a.index == index && a.intuitive == intuitive && a.total == total;
    if (!ok)
        wrong("number %" PRIu32 " index %" PRIu32 " intuitive %" PRIu32 " total %" PRId64 ", and should be %" PRIu32 ", %" PRIu32
              ", %" PRIu32 " and %" PRId64, a.number, a.index, a.intuitive, a.total, number, index, intuitive, total);
    return ok;
}

/* The scratch afterwards: zeros after an answer, else unchanged. */
static bool scratch_is(enum place place, size_t room, uint32_t number)
{
    return holds(scratch_arena, place, 8 * room, zeros, number == 0 ? 8 * entries->scratch : 0);
}

/* The answer, and the scratch, with all arguments at each of their places. */
static void asked(const struct exchange *e, size_t room, uint32_t number, uint32_t index, uint32_t intuitive, int64_t total)
{
    bool ok = true;
    for (unsigned way = 0; way < WAYS(4) && ok; way++) {
        enum place place = place_of(way, 3);
        const int64_t *net = lend(net_arena, place_of(way, 0), e->net, 8 * e->zones);
        const int64_t *price = lend(price_arena, place_of(way, 1), e->price, 8 * e->prices);
        const uint8_t *pair = lend(pair_arena, place_of(way, 2), e->pair, e->bytes);
        int64_t *scratch = (int64_t *)(void *)lend_room(scratch_arena, place, 8 * room);
        struct lta_carried a = entries->intuitive(net, e->zones, price, e->prices, pair, e->bytes, scratch, room);
        ok = is(a, number, index, intuitive, total);
        ok = scratch_is(place, room, number) && ok;
    }
    check(ok);
}

static void yes(const struct exchange *e, int64_t total) { asked(e, ROOM, 0, 0, 1, total); }
static void no(const struct exchange *e, int64_t total) { asked(e, ROOM, 0, 0, 0, total); }
static void refused(const struct exchange *e, uint32_t number, uint32_t index) { asked(e, ROOM, number, index, 0, 0); }

/* Zones that neither export nor import, all at price 0, without pairs. */
static struct exchange idle(size_t zones) { return (struct exchange){.zones = zones, .prices = zones}; }

static void add(struct exchange *e, uint8_t from, uint8_t to)
{
    e->pair[e->bytes++] = from;
    e->pair[e->bytes++] = to;
}

/* As many different pairs as are asked for, from the first zone on. */
static void add_pairs(struct exchange *e, size_t count)
{
    for (size_t from = 0; from < e->zones; from++)
        for (size_t to = 0; to < e->zones; to++)
            if (from != to && e->bytes < 2 * count)
                add(e, (uint8_t)from, (uint8_t)to);
}

/* Zone 0 exports a tenth, which zone 1 imports, at these prices and along one pair. */
static struct exchange one_tenth(int64_t first, int64_t second, uint8_t from, uint8_t to)
{
    struct exchange e = {.zones = 2, .prices = 2, .net = {1, -1}, .price = {first, second}};
    add(&e, from, to);
    return e;
}

static void layout(void)
{
    about("struct lta_carried has 24 bytes");
    check(sizeof(struct lta_carried) == 24 && offsetof(struct lta_carried, number) == 0 && offsetof(struct lta_carried, index) == 4
          && offsetof(struct lta_carried, intuitive) == 8 && offsetof(struct lta_carried, total) == 16);
    about("the numbers, the pairs and the scratch that the header names");
    check(LTA_INTUITIVE_ZONES == 81 && LTA_INTUITIVE_POSITION == 82 && LTA_INTUITIVE_PRICE == 83 && LTA_INTUITIVE_PAIR == 84
          && LTA_INTUITIVE_NO_ROOM == 85 && LTA_INTUITIVE_PAIRS == 64 && LTA_INTUITIVE_SCRATCH == 324 && LTA_INTUITIVE_SMALL_SCRATCH == 96);
}

/* Zones A to E of annex 5.1: of 1,400 MW 800 can be carried, and all of them after the prices of A and B are
 * exchanged. */
static void annex(void)
{
    struct exchange e = {.zones = 5, .prices = 5, .net = {1000, 13000, -7000, -3000, -4000}};
    const uint8_t lines[] = {0, 1, 0, 2, 1, 4, 2, 3, 3, 4};
    const int64_t price[] = {10, 20, 40, 50, 30};
    for (size_t k = 0; k < sizeof lines; k += 2) {
        add(&e, lines[k], lines[k + 1]);
        add(&e, lines[k + 1], lines[k]);
    }
    for (size_t z = 0; z < 5; z++)
        e.price[z] = price[z] * LTA_GRAINS_PER_EURO;
    about("annex 5.1, the first price set");
    no(&e, 8000);
    e.price[0] = 20 * (int64_t)LTA_GRAINS_PER_EURO;
    e.price[1] = 10 * (int64_t)LTA_GRAINS_PER_EURO;
    about("annex 5.1, the second price set");
    yes(&e, 14000);
    for (size_t z = 0; z < 5; z++)
        e.net[z] = -e.net[z];
    about("annex 5.1, net positions not turned");
    no(&e, 0);
}

static void counted_pairs(void)
{
    struct exchange e = one_tenth(-1, 0, 0, 1);
    about("a pair from the lower price to the higher");
    yes(&e, 1);
    e = one_tenth(7, 7, 0, 1);
    about("a pair between equal prices");
    yes(&e, 1);
    e = one_tenth(0, -1, 0, 1);
    about("a pair whose first price is a grain above its second");
    no(&e, 0);
    e = one_tenth(cents(-50000), cents(400000), 1, 0);
    about("a pair the other way, down");
    no(&e, 0);
    e = one_tenth(3, 3, 1, 0);
    about("a pair the other way, between equal prices");
    no(&e, 0);
    e.bytes = 0;
    about("no pair");
    no(&e, 0);
    e.net[0] = e.net[1] = 0;
    about("no pair, and nothing to carry");
    yes(&e, 0);
    e = idle(1);
    about("one zone");
    yes(&e, 0);
}

static void carried(void)
{
    /* zone 0 reaches both imports, zone 1 only one: whichever comes first, zone 1 must get that one */
    for (uint8_t first = 2; first <= 3; first++) {
        struct exchange e = {.zones = 4, .prices = 4, .net = {5, 7}};
        uint8_t second = 5 - first;
        e.net[first] = -7;
        e.net[second] = -5;
        add(&e, 0, 2);
        add(&e, 0, 3);
        add(&e, 1, first);
        about("exports that make way for each other, by zone %u", first);
        yes(&e, 12);
        e.pair[5] = second;
        about("the same with the pair to the smaller import, by zone %u", second);
        no(&e, 10);
    }
    for (unsigned back = 0; back < 2; back++) {
        struct exchange e = idle(ZONES_MOST);
        e.net[0] = EXPORT_MOST;
        e.net[ZONES_MOST - 1] = -EXPORT_MOST;
        for (uint8_t z = 1; z < ZONES_MOST; z++)
            add(&e, (uint8_t)(z - 1), z);
        if (back == 1) {
            e.pair[14] = 8;
            e.pair[15] = 7;
        }
        about("a chain of 16 zones%s", back == 1 ? ", one pair of it turned" : "");
        asked(&e, ROOM, 0, 0, back == 0, back == 0 ? EXPORT_MOST : 0);
    }
    struct exchange e = idle(ZONES_MOST);
    for (uint8_t z = 0; z < 8; z++) {
        e.net[z] = EXPORT_MOST;
        e.net[8 + z] = -EXPORT_MOST;
        e.price[z] = cents(-50000);
        e.price[8 + z] = cents(400000);
        for (uint8_t to = 8; to < ZONES_MOST; to++)
            add(&e, z, to);
    }
    about("the widest total, 16 zones and 64 pairs");
    yes(&e, 8 * (int64_t)EXPORT_MOST);
    e.bytes -= 16;
    about("the same without the pairs of one zone");
    no(&e, 7 * (int64_t)EXPORT_MOST);
}

static void zone_counts(void)
{
    for (size_t zones = 0; zones <= ZONES_MOST + 2; zones++) {
        for (size_t count = 0; count <= ZONES_MOST + 2; count++) {
            struct exchange e = idle(zones);
            e.prices = count;
            about("%zu net positions and %zu prices", zones, count);
            if (zones == count && zones >= 1 && zones <= ZONES_MOST)
                yes(&e, 0);
            else
                refused(&e, LTA_INTUITIVE_ZONES, 0);
        }
    }
}

static void positions(void)
{
    static const struct {
        const char *name;
        int64_t net;
        bool taken;
    } nets[] = {
        {"an export at its limit", EXPORT_MOST, true},
        {"an export a tenth past its limit", EXPORT_MOST + 1, false},
        {"the greatest export", INT64_MAX, false},
        {"an import at its limit", -EXPORT_MOST, true},
        {"an import a tenth past its limit", -EXPORT_MOST - 1, false},
        {"the least number as an import", INT64_MIN, false},
    };
    for (size_t k = 0; k < COUNT(nets); k++) {
        for (size_t zone = 0; zone < 3; zone++) {
            struct exchange e = idle(3);
            e.net[zone] = nets[k].net;
            about("%s, at zone %zu, without its other side", nets[k].name, zone);
            refused(&e, LTA_INTUITIVE_POSITION, nets[k].taken ? 0 : (uint32_t)zone);
            if (nets[k].taken) {
                e.net[(zone + 1) % 3] = -nets[k].net;
                about("%s, at zone %zu", nets[k].name, zone);
                no(&e, 0);
            }
        }
    }
    struct exchange e = idle(ZONES_MOST);
    for (size_t z = 0; z < ZONES_MOST; z++)
        e.net[z] = INT64_C(1) << 60;
    about("16 net positions whose sum is 2^64");
    refused(&e, LTA_INTUITIVE_POSITION, 0);
    for (size_t z = 0; z < ZONES_MOST; z++)
        e.net[z] = EXPORT_MOST;
    about("16 exports at their limit");
    refused(&e, LTA_INTUITIVE_POSITION, 0);
    e = idle(4);
    e.net[3] = 1;
    about("net positions that sum to a tenth name no zone");
    refused(&e, LTA_INTUITIVE_POSITION, 0);
    e.net[2] = EXPORT_MOST + 1;
    about("a range is asked before the sum");
    refused(&e, LTA_INTUITIVE_POSITION, 2);
}

static void prices(void)
{
    for (const struct price_limit *limit = price_limits; limit < price_limits + PRICE_LIMITS; limit++) {
        for (size_t zone = 0; zone < 3; zone++) {
            struct exchange e = idle(3);
            e.price[zone] = limit->price;
            about("%s, at zone %zu", limit->name, zone);
            if (limit->taken)
                yes(&e, 0);
            else
                refused(&e, LTA_INTUITIVE_PRICE, (uint32_t)zone);
        }
    }
}

static void pairs(void)
{
    static const struct {
        const char *name;
        size_t bytes;
        uint8_t pair[8];
        int32_t fault;
    } rows[] = {
        {"both ways", 4, {0, 1, 1, 0}, -1},
        {"an unknown first zone", 4, {0, 1, 3, 0}, 1},
        {"an unknown second zone", 4, {0, 1, 0, 3}, 1},
        {"zones of all bits", 2, {255, 255}, 0},
        {"equal zones", 6, {0, 1, 1, 2, 2, 2}, 2},
        {"a pair repeated at once", 4, {2, 0, 2, 0}, 1},
        {"a pair repeated later", 8, {2, 0, 0, 2, 1, 0, 2, 0}, 3},
        {"a byte alone", 1, {0}, 0},
        {"a last byte alone", 5, {0, 1, 1, 2, 0}, 2},
        {"a last byte alone, of an unknown zone", 3, {0, 1, 9}, 1},
        {"a fault before a last byte alone", 3, {1, 1, 0}, 0},
        {"two faults", 6, {0, 1, 0, 0, 7, 7}, 1},
    };
    for (size_t k = 0; k < COUNT(rows); k++) {
        struct exchange e = idle(3);
        e.bytes = rows[k].bytes;
        memcpy(e.pair, rows[k].pair, e.bytes);
        about("%s", rows[k].name);
        if (rows[k].fault < 0)
            yes(&e, 0);
        else
            refused(&e, LTA_INTUITIVE_PAIR, (uint32_t)rows[k].fault);
    }
    static const size_t counts[] = {0, 1, 63, 64, 65, 66, 128, 240};
    for (size_t k = 0; k < COUNT(counts); k++) {
        struct exchange e = idle(ZONES_MOST);
        add_pairs(&e, counts[k]);
        about("%zu pairs", counts[k]);
        if (counts[k] <= LTA_INTUITIVE_PAIRS)
            yes(&e, 0);
        else
            refused(&e, LTA_INTUITIVE_PAIR, LTA_INTUITIVE_PAIRS);
        e.pair[e.bytes++] = 0;
        about("%zu pairs and a byte", counts[k]);
        refused(&e, LTA_INTUITIVE_PAIR, counts[k] < LTA_INTUITIVE_PAIRS ? (uint32_t)counts[k] : LTA_INTUITIVE_PAIRS);
    }
    struct exchange e = idle(ZONES_MOST);
    add_pairs(&e, 66);
    memcpy(e.pair + 126, e.pair, 2);
    about("the 64th pair repeats the first, and two stand past it");
    refused(&e, LTA_INTUITIVE_PAIR, 63);
}

static void scratches(void)
{
    static const size_t rooms[] = {0, 1, 2, 80, 95, 96, 97, 256, 323, 324, 325, 364};
    struct exchange e = one_tenth(0, 0, 0, 1);
    for (size_t k = 0; k < COUNT(rooms); k++) {
        about("a scratch of %zu numbers", rooms[k]);
        if (rooms[k] < entries->scratch)
            asked(&e, rooms[k], LTA_INTUITIVE_NO_ROOM, 0, 0, 0);
        else
            asked(&e, rooms[k], 0, 0, 1, 1);
    }
}

/* Several causes together: the one asked first, over the whole input, is named with its first place. */
static void causes(void)
{
    struct exchange e = {.zones = 3, .prices = 4, .bytes = 3, .net = {0, 1, INT64_MAX}, .price = {0, 0, INT64_MIN}, .pair = {1, 1, 9}};
    about("all of 81 to 85");
    asked(&e, 0, LTA_INTUITIVE_ZONES, 0, 0, 0);
    e.prices = 3;
    about("all of 82 to 85");
    asked(&e, 0, LTA_INTUITIVE_POSITION, 2, 0, 0);
    e.net[2] = 0;
    about("82 by the sum, and 83 to 85");
    asked(&e, 0, LTA_INTUITIVE_POSITION, 0, 0, 0);
    e.net[2] = -1;
    about("all of 83 to 85");
    asked(&e, 0, LTA_INTUITIVE_PRICE, 2, 0, 0);
    e.price[2] = 0;
    about("84 and 85");
    asked(&e, 0, LTA_INTUITIVE_PAIR, 0, 0, 0);
    e.bytes = 0;
    about("85 alone");
    asked(&e, 0, LTA_INTUITIVE_NO_ROOM, 0, 0, 0);
    e = idle(3);
    e.price[0] = INT64_MAX;
    e.net[2] = EXPORT_MOST + 1;
    about("83 at the first zone, 82 at the last");
    refused(&e, LTA_INTUITIVE_POSITION, 2);
}

/* An hour, with all arguments at each of their places. */
static void asked_hour(const struct file *c, const struct file *p, size_t bytes, const uint8_t *pair, size_t room, struct lta_carried due)
{
    bool ok = true;
    for (unsigned way = 0; way < WAYS(4) && ok; way++) {
        enum place place = place_of(way, 3);
        const uint8_t *case_bytes = lend(case_arena, place_of(way, 0), c->bytes, c->length);
        const uint8_t *proposal = lend(proposal_arena, place_of(way, 1), p->bytes, p->length);
        const uint8_t *pairs_lent = lend(pair_arena, place_of(way, 2), pair, bytes);
        int64_t *scratch = (int64_t *)(void *)lend_room(scratch_arena, place, 8 * room);
        struct lta_carried a = entries->hour(case_bytes, c->length, proposal, p->length, pairs_lent, bytes, scratch, room);
        ok = is(a, due.number, due.index, due.intuitive, due.total);
        ok = scratch_is(place, room, due.number) && ok;
    }
    check(ok);
}

static void hour_is(const struct hour *h, size_t bytes, const uint8_t *pair, size_t room, struct lta_carried due)
{
    struct file c = case_file(h), p = proposal_file(h);
    asked_hour(&c, &p, bytes, pair, room, due);
}

/* The largest hour with every sell in zones 0 to 7 and every buy in 8 to 15: at equal prices each link counts, and
 * each zone has links to the next four. */
static struct hour sold_across(uint16_t version)
{
    struct hour h = largest_hour(version, 0);
    for (uint16_t i = 0; i < 512; i++)
        h.order[i].zone = (uint8_t)(i % 8 + (i < 256 ? 0 : 8));
    return h;
}

static size_t links_of(const struct hour *h, uint8_t *pair)
{
    for (size_t l = 0; l < h->links; l++) {
        pair[2 * l] = h->link[l].from;
        pair[2 * l + 1] = h->link[l].to;
    }
    return 2 * (size_t)h->links;
}

static void hours(void)
{
    const struct lta_carried all = {0, 0, 1, 5375}, part = {0, 0, 0, 1000}, none = {0, 0, 0, 0};
    /* A sells 537.5 MW at 20 euros; B buys 100 at 63.75 and C 437.5 at 50 */
    struct hour h = three_zone_hour();
    about("P1 with its link");
    hour_is(&h, 2, (uint8_t[]){0, 1}, ROOM, part);
    about("P1 with a pair to each buyer");
    hour_is(&h, 4, (uint8_t[]){0, 1, 0, 2}, ROOM, all);
    about("P1 by way of C");
    hour_is(&h, 4, (uint8_t[]){0, 2, 2, 1}, ROOM, all);
    about("P1 by way of B, which has the higher price");
    hour_is(&h, 4, (uint8_t[]){0, 1, 1, 2}, ROOM, part);
    about("P1 with pairs to the seller, as if net positions were not turned");
    hour_is(&h, 4, (uint8_t[]){1, 0, 2, 0}, ROOM, none);
    about("P1 without a pair");
    hour_is(&h, 0, NULL, ROOM, none);
    about("P1 with a pair of an unknown zone");
    hour_is(&h, 4, (uint8_t[]){0, 1, 0, 3}, ROOM, (struct lta_carried){LTA_INTUITIVE_PAIR, 1, 0, 0});
    static const size_t rooms[] = {95, 96, 97, 323, 324};
    for (size_t k = 0; k < COUNT(rooms); k++) {
        about("P1 with a scratch of %zu numbers", rooms[k]);
        if (rooms[k] < entries->scratch)
            hour_is(&h, 2, (uint8_t[]){0, 1}, rooms[k], (struct lta_carried){LTA_INTUITIVE_NO_ROOM, 0, 0, 0});
        else
            hour_is(&h, 2, (uint8_t[]){0, 1}, rooms[k], part);
    }

    for (uint16_t version = 1; version <= 2; version++) {
        h = sold_across(version);
        uint8_t pair[2 * LTA_INTUITIVE_PAIRS];
        size_t bytes = links_of(&h, pair);
        about("the largest hour of version %d, sold across", version);
        hour_is(&h, bytes, pair, ROOM, (struct lta_carried){0, 0, 1, 25600000});
    }
    h = contracted_hour();
    about("P1 of version 2 with a pair to each buyer");
    hour_is(&h, 4, (uint8_t[]){0, 1, 0, 2}, ROOM, all);
    about("P1 of version 2 with its link");
    hour_is(&h, 2, (uint8_t[]){0, 1}, ROOM, part);
    h = one_zone_hour();
    about("one zone and nothing else");
    hour_is(&h, 0, NULL, ROOM, (struct lta_carried){0, 0, 1, 0});
}

/* An hour that is not accepted has the judgement's number and index, whatever the pairs and the scratch. */
static void refused_hours(void)
{
    const uint8_t bad[] = {0, 0, 9};
    struct hour h = unused_link_hour();
    about("P3, a gap above the tolerance");
    hour_is(&h, 2, (uint8_t[]){0, 1}, ROOM, (struct lta_carried){LTA_GAP_ABOVE_TOLERANCE, 0, 0, 0});
    about("P3 with bad pairs and no scratch");
    hour_is(&h, sizeof bad, bad, 0, (struct lta_carried){LTA_GAP_ABOVE_TOLERANCE, 0, 0, 0});
    h.tolerance = 300000;
    about("P4, whose tolerance is wide, with bad pairs and no scratch");
    hour_is(&h, 2, (uint8_t[]){0, 1}, ROOM, (struct lta_carried){LTA_WIDE_TOLERANCE, 0, 0, 0});
    hour_is(&h, sizeof bad, bad, 0, (struct lta_carried){LTA_WIDE_TOLERANCE, 0, 0, 0});
    h = three_zone_hour();
    h.volume[1] = 6001;
    about("P5, with bad pairs and no scratch");
    hour_is(&h, sizeof bad, bad, 0, (struct lta_carried){LTA_VOLUME, 1, 0, 0});
    h = three_zone_hour();
    h.volume[4]++;
    about("P6, the balance");
    hour_is(&h, 2, (uint8_t[]){0, 1}, ROOM, (struct lta_carried){LTA_BALANCE, 0, 0, 0});
    h = one_zone_hour();
    h.share = 1;
    about("a share without links");
    hour_is(&h, 0, NULL, ROOM, (struct lta_carried){LTA_SHARE_WITHOUT_LINK, 0, 0, 0});
    h = three_zone_hour();
    h.link[0].capacity = 100001;
    about("a capacity above its limit, by its offset");
    hour_is(&h, 2, (uint8_t[]){0, 1}, ROOM, (struct lta_carried){LTA_CASE_LINK, 48, 0, 0});
    struct file empty = {0};
    about("no case");
    asked_hour(&empty, &empty, 0, NULL, ROOM, (struct lta_carried){LTA_CASE_SHORT, 0, 0, 0});
    h = three_zone_hour();
    struct file c = case_file(&h);
    about("no proposal");
    asked_hour(&c, &empty, 0, NULL, ROOM, (struct lta_carried){LTA_PROPOSAL_SHORT, 0, 0, 0});
    h = one_zone_hour();
    h.system = 400001;
    about("P11, a zone price");
    hour_is(&h, 0, NULL, ROOM, (struct lta_carried){LTA_ZONE_PRICE, 0, 0, 0});
}

/* A null pointer where the length or count is 0. */
static void nulls(void)
{
    struct exchange e = idle(2);
    struct hour h = three_zone_hour();
    struct file c = case_file(&h), p = proposal_file(&h);
    for (unsigned k = 0; k < PLACES; k++) {
        const int64_t *net = lend(net_arena, k, e.net, 16), *price = lend(price_arena, k, e.price, 16);
        const uint8_t *pair = lend(pair_arena, k, (uint8_t[]){0, 1}, 2);
        int64_t *scratch = (int64_t *)(void *)lend_room(scratch_arena, k, 8 * ROOM);
        about("null for all");
        check(is(entries->intuitive(NULL, 0, NULL, 0, NULL, 0, NULL, 0), LTA_INTUITIVE_ZONES, 0, 0, 0));
        about("null for the net positions");
        check(is(entries->intuitive(NULL, 0, price, 2, pair, 2, scratch, ROOM), LTA_INTUITIVE_ZONES, 0, 0, 0));
        about("null for the prices");
        check(is(entries->intuitive(net, 2, NULL, 0, pair, 2, scratch, ROOM), LTA_INTUITIVE_ZONES, 0, 0, 0));
        about("null for the scratch");
        check(is(entries->intuitive(net, 2, price, 2, pair, 2, NULL, 0), LTA_INTUITIVE_NO_ROOM, 0, 0, 0));
        about("no refusal wrote to the scratch");
        check(scratch_is(k, ROOM, LTA_INTUITIVE_ZONES));
        about("null for the pairs");
        check(is(entries->intuitive(net, 2, price, 2, NULL, 0, scratch, ROOM), 0, 0, 1, 0) && scratch_is(k, ROOM, 0));

        const uint8_t *case_bytes = lend(case_arena, k, c.bytes, c.length), *proposal = lend(proposal_arena, k, p.bytes, p.length);
        scratch = (int64_t *)(void *)lend_room(scratch_arena, k, 8 * ROOM);
        about("an hour, null for all");
        check(is(entries->hour(NULL, 0, NULL, 0, NULL, 0, NULL, 0), LTA_CASE_SHORT, 0, 0, 0));
        about("an hour, null for the proposal");
        check(is(entries->hour(case_bytes, c.length, NULL, 0, pair, 2, scratch, ROOM), LTA_PROPOSAL_SHORT, 0, 0, 0));
        about("an hour, null for the scratch");
        check(is(entries->hour(case_bytes, c.length, proposal, p.length, pair, 2, NULL, 0), LTA_INTUITIVE_NO_ROOM, 0, 0, 0));
        about("an hour, null for the pairs");
        check(is(entries->hour(case_bytes, c.length, proposal, p.length, NULL, 0, scratch, ROOM), 0, 0, 0, 0)
              && scratch_is(k, ROOM, 0));
    }
}

static struct {
    struct exchange exchange;
    struct file hour, proposal;
    int64_t scratch[LTA_INTUITIVE_SCRATCH];
    struct lta_carried answer;
} call;

static void call_intuitive(void)
{
    const struct exchange *e = &call.exchange;
    call.answer = entries->intuitive(e->net, e->zones, e->price, e->prices, e->pair, e->bytes, call.scratch, entries->scratch);
}

static void call_hour(void)
{
    call.answer = entries->hour(call.hour.bytes, call.hour.length, call.proposal.bytes, call.proposal.length, call.exchange.pair,
                                call.exchange.bytes, call.scratch, entries->scratch);
}

static void small_stack(void)
{
    struct hour h = sold_across(2);
    call.exchange = idle(ZONES_MOST);
    call.exchange.bytes = links_of(&h, call.exchange.pair);
    for (size_t z = 0; z < ZONES_MOST; z++)
        call.exchange.net[z] = z < 8 ? EXPORT_MOST : -EXPORT_MOST;
    about("16 zones and 64 pairs on a stack of %d bytes", STACK_ENOUGH);
    on_stack(STACK_ENOUGH, call_intuitive);
    check(is(call.answer, 0, 0, 1, 8 * (int64_t)EXPORT_MOST));
    call.hour = case_file(&h);
    call.proposal = proposal_file(&h);
    about("the largest hour on a stack of %d bytes", STACK_ENOUGH);
    on_stack(STACK_ENOUGH, call_hour);
    check(is(call.answer, 0, 0, 1, 25600000));
}

static void with_scratch(const char *name, void (*tests)(void))
{
    char text[80];
    snprintf(text, sizeof text, "%s, with %s", name, entries->name);
    group(text, tests);
}

int main(void)
{
    net_arena = arena(sizeof((struct exchange *)0)->net);
    price_arena = arena(sizeof((struct exchange *)0)->price);
    pair_arena = arena(PAIR_BYTES_MOST);
    scratch_arena = arena((size_t)8 * (LTA_INTUITIVE_SCRATCH + PAST));
    case_arena = arena(sizeof((struct file *)0)->bytes);
    proposal_arena = arena(sizeof((struct file *)0)->bytes);

    group("the struct is laid out as the header says", layout);
    for (size_t k = 0; k < COUNT(sizes); k++) {
        entries = sizes + k;
        with_scratch("annex 5.1 is answered as it says", annex);
        with_scratch("a pair counts from a lower or equal price up", counted_pairs);
        with_scratch("as much is carried as can be", carried);
        with_scratch("a wrong count of zones is refused", zone_counts);
        with_scratch("a wrong net position or sum is refused", positions);
        with_scratch("a price out of range is refused", prices);
        with_scratch("the first wrong pair is named", pairs);
        with_scratch("a short scratch is refused and stays", scratches);
        with_scratch("the first cause and its place are named", causes);
        with_scratch("an hour is answered by its positions", hours);
        with_scratch("a refused hour has its verdict", refused_hours);
        with_scratch("null is taken with length 0", nulls);
        with_scratch("the header's stack is enough", small_stack);
    }
    return closing();
}
