/* lta_case_columned and lta_case_restored through the library: the sample and its columns, every byte of a case of
 * either version at its place, cases and columned files with each cause and their order, files and outputs of every
 * length, null pointers, the largest case. Calls are made with both arguments at both places between unreadable
 * pages, the file unwritable, and every byte of the output is compared afterwards. Each entry gets what the other
 * wrote, and the columned file is judged.
 *
 *     columns_test CASE COLUMNED     the three-zone hour's case, and the columned file that it gives
 */
#include "harness.h"
#include "hours.h"
#include "lta_judgement.h"

#include <inttypes.h>
#include <stdio.h>
#include <string.h>

/* Room for every file, and bytes past it. */
#define ROOM (LTA_CASE_ROOM + 40)
#define ORDER_SIZE 10

typedef struct lta_written entry(const uint8_t *, size_t, uint8_t *, size_t);

static struct arena file_arena, out_arena;
static const char *sample_case, *sample_columned;

/* Neither entry names an index. */
static bool is(struct lta_written a, uint32_t number, uint64_t length) { return is_written(a, number, 0, length); }

/* The answer, and the output's bytes, with both arguments at each of their places. */
static void answered(entry *call, const struct file *f, size_t room, uint32_t number, const struct file *due)
{
    bool ok = true;
    for (unsigned way = 0; way < WAYS(2) && ok; way++) {
        enum place place = place_of(way, 1);
        const uint8_t *bytes = lend(file_arena, place_of(way, 0), f->bytes, f->length);
        uint8_t *out = lend_room(out_arena, place, room);
        ok = is(call(bytes, f->length, out, room), number, due->length);
        ok = holds(out_arena, place, room, due->bytes, due->length) && ok;
    }
    check(ok);
}

static void refused_in(size_t room, entry *call, const struct file *f, uint32_t number)
{
    answered(call, f, room, number, &(struct file){0});
}

static void refused(entry *call, const struct file *f) { refused_in(ROOM, call, f, LTA_COLUMN_FILE); }

/* The columns of an hour's orders, from the hour itself and not from the order part of its case. */
static struct file columned_file(const struct hour *h)
{
    struct file f = case_file(h);
    size_t n = h->orders, at = f.length - ORDER_SIZE * n;
    f.bytes[2] = 'K';
    for (size_t i = 0; i < n; i++) {
        const struct order *o = &h->order[i];
        put(&f, at + i, 1, o->zone);
        put(&f, at + n + i, 1, o->side);
        for (size_t k = 0; k < 4; k++) {
            put(&f, at + (2 + k) * n + i, 1, o->quantity >> 8 * k & 255);
            put(&f, at + (6 + k) * n + i, 1, (uint32_t)o->price >> 8 * k & 255);
        }
    }
    return f;
}

/* There and back, with just enough room and with more. Neither entry takes what it writes itself. */
static void there_and_back(const struct hour *h)
{
    struct file c = case_file(h), k = columned_file(h);
    answered(lta_case_columned, &c, ROOM, 0, &k);
    answered(lta_case_columned, &c, c.length, 0, &k);
    answered(lta_case_restored, &k, ROOM, 0, &c);
    answered(lta_case_restored, &k, k.length, 0, &c);
    refused(lta_case_columned, &k);
    refused(lta_case_restored, &c);

    uint8_t report[LTA_REPORT_ROOM] = {0};
    check(lta_judge(k.bytes, k.length, NULL, 0, report, sizeof report) == LTA_CASE_MARK);
    struct file p = proposal_file(h);
    check(lta_judge(k.bytes, k.length, p.bytes, p.length, report, sizeof report) == LTA_CASE_MARK);
}

static void layout(void)
{
    about("the numbers and sizes that the header names");
    check(LTA_COLUMN_FILE == 71 && LTA_COLUMN_NO_ROOM == 72 && LTA_CASE_ROOM == CASE_ROOM);
}

static void samples(void)
{
    struct hour h = three_zone_hour();
    struct file c = case_file(&h), k = columned_file(&h), sample = read_file(sample_case), columns = read_file(sample_columned);
    about("the sample's case is P1's");
    check(same_file(&sample, &c));
    about("the sample's columned file is its columns");
    check(same_file(&columns, &k));
    /* its first column is the zones of its five orders, its second their sides */
    size_t at = k.length - (size_t)ORDER_SIZE * h.orders;
    about("the sample's zones and sides");
    for (size_t i = 0; i < h.orders; i++)
        check(columns.bytes[at + i] == h.order[i].zone && columns.bytes[at + h.orders + i] == h.order[i].side);
}

static void hours(void)
{
    struct hour all[] = {three_zone_hour(), contracted_hour(), flow_based_hour(), unused_link_hour(), one_zone_hour(), negative_hour()};
    for (size_t n = 0; n < COUNT(all); n++) {
        about("hour %zu and back", n);
        there_and_back(&all[n]);
    }
    /* request S-12: a wide tolerance is columned and restored, and no longer judged */
    static const uint32_t tolerances[] = {10000, 10001, 1000000000};
    for (size_t n = 0; n < COUNT(tolerances); n++) {
        struct hour h = three_zone_hour();
        h.tolerance = tolerances[n];
        about("a tolerance of %" PRIu32, tolerances[n]);
        there_and_back(&h);
    }
    /* every byte of an order differs, so that none is right by luck; one order, two and three */
    for (uint16_t version = 1; version <= 2; version++)
        for (uint16_t orders = 1; orders <= 3; orders++) {
            struct hour h = {.version = version, .zones = 16, .links = 1, .link = {{0, 1, 7, 7}}, .orders = orders};
            for (uint16_t i = 0; i < orders; i++)
                h.order[i] = (struct order){(uint8_t)(2 + i), 1, 0x010a20 + i, i == 1 ? -0x00a1b2 : 0x050c30 + i};
            about("%u orders, version %u", orders, version);
            there_and_back(&h);
        }
}

/* Each cause of 71, with room enough and with none, and 72. */
static void causes(void)
{
    struct hour h = contracted_hour();
    struct file c = case_file(&h), k = columned_file(&h), other;
    for (size_t at = 0; at < 3; at++) {
        other = k;
        other.bytes[at] ^= 1;
        about("the way back, byte %zu of the mark", at);
        refused(lta_case_restored, &other);
        refused_in(0, lta_case_restored, &other, LTA_COLUMN_FILE);
        other = c;
        other.bytes[at] ^= 1;
        about("columning, byte %zu of the mark", at);
        refused(lta_case_columned, &other);
        refused_in(0, lta_case_columned, &other, LTA_COLUMN_FILE);
    }
    /* a header field, and one that demands another length */
    static const struct {
        size_t at, width;
        uint64_t value;
    } header[] = {{3, 2, 0}, {3, 2, 3}, {3, 2, 1}, {5, 1, 0}, {5, 1, 17}, {5, 1, 4}, {6, 1, 65}, {7, 1, 65}, {7, 1, 2},
                  {8, 2, 513}, {8, 2, 65535}, {8, 2, 4}, {8, 2, 0}, {10, 4, 1000000001}};
    for (size_t n = 0; n < COUNT(header); n++) {
        about("%" PRIu64 " at %zu", header[n].value, header[n].at);
        other = c;
        put(&other, header[n].at, header[n].width, header[n].value);
        refused(lta_case_columned, &other);
        other = k;
        put(&other, header[n].at, header[n].width, header[n].value);
        refused(lta_case_restored, &other);
    }
    /* a field of a branch, a link and an order */
    struct hour wrong_hour[6];
    for (size_t n = 0; n < 6; n++)
        wrong_hour[n] = h;
    wrong_hour[0].branch[1].ptdf[2] = 200001;
    wrong_hour[1].link[0].contracted = h.link[0].capacity + 1;
    wrong_hour[2].order[4].zone = 3;
    wrong_hour[3].order[0].side = 2;
    wrong_hour[4].order[4].quantity = 0;
    wrong_hour[5].order[2].price = -50001;
    for (size_t n = 0; n < 6; n++) {
        about("field %zu out of range", n);
        other = case_file(&wrong_hour[n]);
        refused(lta_case_columned, &other);
        other = columned_file(&wrong_hour[n]);
        refused(lta_case_restored, &other);
        refused_in(0, lta_case_restored, &other, LTA_COLUMN_FILE);
    }
    about("a byte of the columns, which no row has out of range");
    other = k;
    other.bytes[k.length - 1] = 255;
    refused(lta_case_restored, &other);
    about("a byte too few in the output");
    refused_in(c.length - 1, lta_case_columned, &c, LTA_COLUMN_NO_ROOM);
    refused_in(k.length - 1, lta_case_restored, &k, LTA_COLUMN_NO_ROOM);
}

static void lengths(void)
{
    struct hour h = three_zone_hour();
    struct file c = case_file(&h), k = columned_file(&h);
    for (size_t length = 0; length <= c.length + 20; length++) {
        struct file short_case = c, short_file = k;
        short_case.length = short_file.length = length;
        about("files of %zu bytes", length);
        if (length == c.length) {
            answered(lta_case_columned, &short_case, ROOM, 0, &k);
            answered(lta_case_restored, &short_file, ROOM, 0, &c);
        } else {
            refused(lta_case_columned, &short_case);
            refused(lta_case_restored, &short_file);
        }
    }
    for (size_t room = 0; room <= c.length + 4; room++) {
        about("outputs of %zu bytes", room);
        if (room < c.length) {
            refused_in(room, lta_case_columned, &c, LTA_COLUMN_NO_ROOM);
            refused_in(room, lta_case_restored, &k, LTA_COLUMN_NO_ROOM);
        } else {
            answered(lta_case_columned, &c, room, 0, &k);
            answered(lta_case_restored, &k, room, 0, &c);
        }
    }
}

/* A null pointer where the length is 0. */
static void nulls(void)
{
    struct hour h = three_zone_hour();
    struct file c = case_file(&h), k = columned_file(&h);
    for (unsigned p = 0; p < PLACES; p++) {
        uint8_t *out = lend_room(out_arena, p, ROOM);
        about("null for the file");
        check(is(lta_case_columned(NULL, 0, out, ROOM), LTA_COLUMN_FILE, 0));
        check(is(lta_case_restored(NULL, 0, out, ROOM), LTA_COLUMN_FILE, 0));
        about("null for both");
        check(is(lta_case_columned(NULL, 0, NULL, 0), LTA_COLUMN_FILE, 0));
        check(is(lta_case_restored(NULL, 0, NULL, 0), LTA_COLUMN_FILE, 0));
        about("null for the output");
        check(is(lta_case_columned(lend(file_arena, p, c.bytes, c.length), c.length, NULL, 0), LTA_COLUMN_NO_ROOM, 0));
        check(is(lta_case_restored(lend(file_arena, p, k.bytes, k.length), k.length, NULL, 0), LTA_COLUMN_NO_ROOM, 0));
        about("null, and something was written");
        check(holds(out_arena, p, ROOM, NULL, 0));
    }
}

static struct {
    entry *call;
    struct file given;
    uint8_t out[LTA_CASE_ROOM];
    struct lta_written answer;
} call;

static void call_entry(void) { call.answer = call.call(call.given.bytes, call.given.length, call.out, sizeof call.out); }

static void largest(void)
{
    for (uint16_t version = 1; version <= 2; version++) {
        struct hour h = largest_hour(version, 0);
        struct file c = case_file(&h), k = columned_file(&h);
        about("the largest case of version %u", version);
        check(c.length == (version == 1 ? 9870 : LTA_CASE_ROOM));
        there_and_back(&h);
        about("the largest case of version %u, with an output a byte too short", version);
        refused_in(c.length - 1, lta_case_columned, &c, LTA_COLUMN_NO_ROOM);
        refused_in(c.length - 1, lta_case_restored, &k, LTA_COLUMN_NO_ROOM);
        about("the largest case of version %u, and a byte", version);
        c.length++;
        k.length++;
        refused(lta_case_columned, &c);
        refused(lta_case_restored, &k);
    }
    struct hour h = largest_hour(2, 0);
    struct file c = case_file(&h), k = columned_file(&h);
    call.call = lta_case_columned;
    call.given = c;
    about("the largest case on a stack of %d bytes", STACK_ENOUGH);
    on_stack(STACK_ENOUGH, call_entry);
    check(is(call.answer, 0, LTA_CASE_ROOM) && memcmp(call.out, k.bytes, k.length) == 0);
    call.call = lta_case_restored;
    call.given = k;
    about("the largest case's columns on a stack of %d bytes", STACK_ENOUGH);
    on_stack(STACK_ENOUGH, call_entry);
    check(is(call.answer, 0, LTA_CASE_ROOM) && memcmp(call.out, c.bytes, c.length) == 0);
}

int main(int count, char **words)
{
    if (count != 3) {
        fprintf(stderr, "usage: columns_test CASE COLUMNED\n");
        return 2;
    }
    sample_case = words[1];
    sample_columned = words[2];
    file_arena = arena(CASE_ROOM + 1);
    out_arena = arena(ROOM);

    group("numbers and sizes are the header's", layout);
    group("the sample is columned to its file", samples);
    group("a columned case comes back and is not judged", hours);
    group("each cause is refused and writes nothing", causes);
    group("a file or an output of wrong length is refused", lengths);
    group("null is taken with length 0", nulls);
    group("the largest case comes back on a small stack", largest);
    return closing();
}
