/* See hours.h. Nothing here is taken from the judge: offsets and values are those of document 01. */
#include "hours.h"

#include "harness.h"

#include <stdio.h>
#include <stdlib.h>
#include <string.h>

enum { BUYS, SELLS };

struct hour three_zone_hour(void)
{
    return (struct hour){
        .version = 1,
        .zones = 3,
        .tolerance = 0,
        .branches = 2,
        .branch = {{2500, {0, 75000, 50000}}, {15000, {-100000, 0, 0}}},
        .links = 1,
        .link = {{0, 1, 4000, 4000}},
        .orders = 5,
        .order = {{0, SELLS, 4000, 1000}, {0, SELLS, 6000, 2000}, {1, BUYS, 1000, 7000}, {1, BUYS, 9000, 6000}, {2, BUYS, 10000, 5000}},
        .share = 87500,
        .system = 2250,
        .volume = {4000, 1375, 1000, 0, 4375},
        .flow = {3500},
        .shadow = {5500, 250},
    };
}

struct hour contracted_hour(void)
{
    struct hour h = three_zone_hour();
    h.version = 2;
    h.link[0].contracted = 2500;
    return h;
}

struct hour flow_based_hour(void)
{
    struct hour h = three_zone_hour();
    const uint32_t volume[5] = {4000, 500, 1000, 0, 3500};
    memcpy(h.volume, volume, sizeof volume);
    h.links = 0;
    h.share = 0;
    h.system = 2000;
    h.shadow[0] = 6000;
    h.shadow[1] = 0;
    return h;
}

struct hour unused_link_hour(void)
{
    struct hour h = flow_based_hour();
    h.links = 1;
    h.flow[0] = 0;
    return h;
}

struct hour divided(struct hour h, uint8_t by)
{
    for (size_t m = 0; m < h.branches; m++)
        h.branch[m].ram /= by;
    for (size_t l = 0; l < h.links; l++) {
        h.link[l].capacity /= by;
        h.link[l].contracted /= by;
        h.flow[l] /= by;
    }
    for (size_t i = 0; i < h.orders; i++) {
        h.order[i].quantity /= by;
        h.volume[i] /= by;
    }
    return h;
}

struct hour one_zone_hour(void) { return (struct hour){.version = 1, .zones = 1, .system = 400000}; }

struct hour negative_hour(void)
{
    return (struct hour){
        .version = 1,
        .zones = 1,
        .tolerance = 1,
        .orders = 2,
        .order = {{0, SELLS, 1, 1}, {0, BUYS, 1, 0}},
        .system = -1,
        .volume = {1, 1},
    };
}

struct hour largest_hour(uint16_t version, uint32_t shadow)
{
    struct hour h = {.version = version, .zones = 16, .branches = 64, .links = 64, .orders = 512, .share = 100000};
    for (uint8_t m = 0; m < 64; m++) {
        h.branch[m].ram = 500000;
        h.shadow[m] = shadow;
    }
    /* each zone has links to the next four */
    for (uint8_t l = 0; l < 64; l++) {
        h.link[l] = (struct link){l / 4, (uint8_t)((l / 4 + l % 4 + 1) % 16), 100000, 50000};
        h.flow[l] = 100000;
    }
    for (uint16_t i = 0; i < 512; i++) {
        h.order[i] = i < 256 ? (struct order){i % 16, SELLS, 100000, -50000} : (struct order){i % 16, BUYS, 100000, 400000};
        h.volume[i] = 100000;
    }
    return h;
}

bool same_file(const struct file *one, const struct file *other)
{
    return one->length == other->length && memcmp(one->bytes, other->bytes, one->length) == 0;
}

bool append_stored(struct file *f, const char *name)
{
    FILE *file = fopen(name, "rb");
    if (file == NULL) {
        wrong("no file %s", name);
        return false;
    }
    f->length += fread(f->bytes + f->length, 1, sizeof f->bytes - f->length, file);
    fclose(file);
    return true;
}

struct file read_file(const char *name)
{
    struct file f = {0};
    about("%s can be read", name);
    check(append_stored(&f, name));
    return f;
}

void put(struct file *f, size_t offset, size_t width, uint64_t number)
{
    if (offset + width > sizeof f->bytes)
        abort();
    for (size_t k = 0; k < width; k++)
        f->bytes[offset + k] = (uint8_t)(number >> 8 * k);
}

static void append(struct file *f, size_t width, uint64_t number)
{
    put(f, f->length, width, number);
    f->length += width;
}

static void append_mark(struct file *f, const char *mark, uint16_t version)
{
    for (size_t k = 0; k < 3; k++)
        append(f, 1, (uint8_t)mark[k]);
    append(f, 2, version);
}

struct file case_file(const struct hour *h)
{
    struct file f = {0};
    append_mark(&f, "LTC", h->version);
    append(&f, 1, h->zones);
    append(&f, 1, h->branches);
    append(&f, 1, h->links);
    append(&f, 2, h->orders);
    append(&f, 4, h->tolerance);
    for (size_t m = 0; m < h->branches; m++) {
        append(&f, 4, (uint32_t)h->branch[m].ram);
        for (size_t z = 0; z < h->zones; z++)
            append(&f, 4, (uint32_t)h->branch[m].ptdf[z]);
    }
    for (size_t l = 0; l < h->links; l++) {
        append(&f, 1, h->link[l].from);
        append(&f, 1, h->link[l].to);
        append(&f, 4, h->link[l].capacity);
        if (h->version == 2)
            append(&f, 4, h->link[l].contracted);
    }
    for (size_t i = 0; i < h->orders; i++) {
        append(&f, 1, h->order[i].zone);
        append(&f, 1, h->order[i].side);
        append(&f, 4, h->order[i].quantity);
        append(&f, 4, (uint32_t)h->order[i].price);
    }
    return f;
}

struct file proposal_file(const struct hour *h)
{
    struct file f = {0};
    append_mark(&f, "LTP", 1);
    append(&f, 4, h->share);
    append(&f, 4, (uint32_t)h->system);
    for (size_t i = 0; i < h->orders; i++)
        append(&f, 4, h->volume[i]);
    for (size_t l = 0; l < h->links; l++)
        append(&f, 4, h->flow[l]);
    for (size_t m = 0; m < h->branches; m++)
        append(&f, 4, h->shadow[m]);
    return f;
}

struct file report_file(uint8_t number, uint8_t zones, struct totals t)
{
    struct file f = {0};
    append_mark(&f, "LTR", 1);
    append(&f, 1, number);
    append(&f, 1, zones);
    append(&f, 1, 0);
    append(&f, 8, (uint64_t)t.welfare);
    append(&f, 8, (uint64_t)t.bound);
    append(&f, 8, (uint64_t)t.gap);
    append(&f, 8, (uint64_t)t.rent);
    append(&f, 8, (uint64_t)t.owed);
    for (size_t z = 0; z < zones; z++)
        append(&f, 8, (uint64_t)t.price[z]);
    return f;
}

int64_t euros(int64_t amount) { return amount * 100000000; }
int64_t cents(int64_t price) { return price * 100000; }

const struct price_limit price_limits[PRICE_LIMITS] = {
    {"a zone price at its ceiling", INT64_C(40000000000), true},
    {"a zone price a grain above its ceiling", INT64_C(40000000001), false},
    {"the greatest zone price", INT64_MAX, false},
    {"a zone price at its floor", INT64_C(-5000000000), true},
    {"a zone price a grain below its floor", INT64_C(-5000000001), false},
    {"the least zone price", INT64_MIN, false},
};

struct totals three_zone_totals(void)
{
    return (struct totals){
        .welfare = euros(22125),
        .bound = euros(22125),
        .gap = 0,
        .rent = euros(17500),
        .owed = euros(17500),
        .price = {cents(2000), cents(6375), cents(5000)},
    };
}

/* 2,500 tenths at a spread of 43.75 euros. */
struct totals contracted_totals(void)
{
    struct totals t = three_zone_totals();
    t.owed = euros(10937) + euros(1) / 2;
    return t;
}

struct totals flow_based_totals(void)
{
    return (struct totals){
        .welfare = euros(19500),
        .bound = euros(19500),
        .gap = 0,
        .rent = euros(15000),
        .owed = 0,
        .price = {cents(2000), cents(6500), cents(5000)},
    };
}

struct totals unused_link_totals(void)
{
    struct totals t = flow_based_totals();
    t.bound = euros(22500);
    t.gap = euros(3000);
    t.owed = euros(18000);
    return t;
}
