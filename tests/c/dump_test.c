/* lta_dump_proposal through the library: the sample dump, what each kind of value becomes, each limit and the value
 * past it, patterns that are no finite value, the floating-point flags, each cause and their order, dumps and outputs
 * of every length, null pointers, the largest hour. Calls are made with every argument at both places between
 * unreadable pages, case and dump unwritable, and every byte of the output is compared afterwards. What is written is
 * judged.
 *
 *     dump_test CASE DUMP PROPOSAL     the three-zone hour, its dump, and the proposal that it gives
 */
#include "harness.h"
#include "hours.h"
#include "lta_judgement.h"

#include <inttypes.h>
#include <stdio.h>
#include <string.h>
#include <xmmintrin.h>

/* Room for every proposal, and bytes past it. */
#define ROOM (LTA_PROPOSAL_ROOM + 40)
/* The most values, and bytes, that a dump for a case has. */
#define VALUES_MOST 642
#define DUMP_ROOM (8 * VALUES_MOST)

/* The places of an hour with one of each. */
enum { LTA_SHARE_AT, SYSTEM_AT, SHARE_AT, FLOW_AT, SHADOW_AT, PLACES_OF_EACH };

static struct arena case_arena, dump_arena, out_arena;
static const char *sample_case, *sample_dump, *sample_proposal;

static uint64_t bits_of(double value)
{
    uint64_t bits = 0;
    memcpy(&bits, &value, sizeof bits);
    return bits;
}

/* The value this many steps further from zero. */
static double stepped(double value, int64_t steps)
{
    uint64_t bits = bits_of(value) + (uint64_t)steps;
    memcpy(&value, &bits, sizeof bits);
    return value;
}

static struct file dump_of(size_t count, const double *value)
{
    struct file f = {.length = 8 * count};
    for (size_t k = 0; k < count; k++)
        put(&f, 8 * k, 8, bits_of(value[k]));
    return f;
}

/* The answer, and the output's bytes, with all arguments at each of their places. */
static void answered(const struct file *c, const struct file *d, size_t room, uint32_t number, uint64_t index, const struct file *proposal)
{
    bool ok = true;
    for (unsigned way = 0; way < WAYS(3) && ok; way++) {
        enum place place = place_of(way, 2);
        const uint8_t *case_bytes = lend(case_arena, place_of(way, 0), c->bytes, c->length);
        const uint8_t *dump = lend(dump_arena, place_of(way, 1), d->bytes, d->length);
        uint8_t *out = lend_room(out_arena, place, room);
        ok = is_written(lta_dump_proposal(case_bytes, c->length, dump, d->length, out, room), number, index, proposal->length);
        ok = holds(out_arena, place, room, proposal->bytes, proposal->length) && ok;
    }
    check(ok);
}

static void refused_in(size_t room, const struct file *c, const struct file *d, uint32_t number, uint64_t index)
{
    answered(c, d, room, number, index, &(struct file){0});
}

static void refused(const struct file *c, const struct file *d, uint32_t number, uint64_t index) { refused_in(ROOM, c, d, number, index); }

/* An hour with one of each, whose order has this quantity. All is zero in its proposal, and its dump. */
static struct hour one_of_each(uint16_t version, uint32_t quantity)
{
    return (struct hour){
        .version = version,
        .zones = 2,
        .branches = 1,
        .branch = {{0, {0, 0}}},
        .links = 1,
        .link = {{0, 1, 100000, 7}},
        .orders = 1,
        .order = {{1, LTA_SELLS, quantity, 0}},
    };
}

/* A value at a place, all others zero, gives this number there. */
static void becomes(size_t place, uint32_t quantity, double value, int64_t number)
{
    for (uint16_t version = 1; version <= 2; version++) {
        double values[PLACES_OF_EACH] = {0};
        struct hour h = one_of_each(version, quantity);
        values[place] = value;
        switch (place) {
        case LTA_SHARE_AT: h.share = (uint32_t)number; break;
        case SYSTEM_AT: h.system = (int32_t)number; break;
        case SHARE_AT: h.volume[0] = (uint32_t)number; break;
        case FLOW_AT: h.flow[0] = (uint32_t)number; break;
        default: h.shadow[0] = (uint32_t)number; break;
        }
        struct file c = case_file(&h), d = dump_of(PLACES_OF_EACH, values), p = proposal_file(&h);
        about("%.17g at %zu, quantity %" PRIu32 ", version %u", value, place, quantity, version);
        answered(&c, &d, ROOM, 0, 0, &p);
    }
}

/* The same is refused by this number, with the value's place. */
static void is_refused(size_t place, uint64_t bits, uint32_t number)
{
    struct hour h = one_of_each(1, 77);
    struct file c = case_file(&h), d = dump_of(PLACES_OF_EACH, (double[PLACES_OF_EACH]){0});
    put(&d, 8 * place, 8, bits);
    about("%016" PRIx64 " at %zu", bits, place);
    refused(&c, &d, number, place);
}

static void layout(void)
{
    about("the numbers and sizes that the header names");
    check(LTA_DUMP_CASE == 56 && LTA_DUMP_LENGTH == 57 && LTA_DUMP_NOT_FINITE == 58 && LTA_DUMP_RANGE == 59 && LTA_DUMP_NO_ROOM == 60
          && LTA_DUMP_SIZE(5, 1, 2) == 80 && LTA_PROPOSAL_SIZE(5, 1, 2) == 45 && LTA_PROPOSAL_SIZE(512, 64, 64) == LTA_PROPOSAL_ROOM
          && LTA_DUMP_SIZE(512, 64, 64) == DUMP_ROOM);
}

/* The three-zone hour as a dump gives P1's proposal, which is accepted. */
static void three_zones(void)
{
    struct hour h = three_zone_hour(), two = contracted_hour();
    struct file c = case_file(&h), c2 = case_file(&two), p = proposal_file(&h);
    struct file sample = read_file(sample_case), d = read_file(sample_dump), given = read_file(sample_proposal);
    about("the sample's case and proposal are P1's");
    check(same_file(&sample, &c) && same_file(&given, &p));
    about("the sample dump");
    answered(&c, &d, ROOM, 0, 0, &p);
    about("the sample dump, for the case of version 2");
    answered(&c2, &d, ROOM, 0, 0, &p);
    about("the sample dump, with just enough room");
    answered(&c, &d, p.length, 0, 0, &p);

    uint8_t out[LTA_PROPOSAL_ROOM], report[LTA_REPORT_ROOM];
    struct lta_written a = lta_dump_proposal(c.bytes, c.length, d.bytes, d.length, out, sizeof out);
    about("what is written of it is not accepted");
    check(a.number == 0 && lta_judge(c.bytes, c.length, out, a.length, report, sizeof report) == LTA_ACCEPTED
          && lta_report_welfare(report) == euros(22125));
}

/* One product, rounded once, and cut. */
static void cut(void)
{
    /* 0.1 is above a tenth, and each product is rounded down to a whole number */
    becomes(SHARE_AT, 30, 0.1, 3);
    becomes(FLOW_AT, 1, 0.1, 1);
    becomes(LTA_SHARE_AT, 1, 0.1, 10000);
    /* 0.3 and 0.7 are below, and are rounded up to one: cut from the exact product they would be one less */
    becomes(SHARE_AT, 10, 0.3, 3);
    becomes(FLOW_AT, 1, 0.3, 3);
    becomes(SHARE_AT, 10, 0.7, 7);
    /* 28.999999999999996 */
    becomes(SHARE_AT, 100, 0.29, 28);
    becomes(LTA_SHARE_AT, 1, 0.999999, 99999);
    becomes(FLOW_AT, 1, 0.19, 1);
    /* 1 - 2^-53 */
    becomes(SHARE_AT, 100000, stepped(1.0, -1), 99999);
    becomes(SHARE_AT, 1, stepped(1.0, -1), 0);
    becomes(LTA_SHARE_AT, 1, stepped(1.0, -1), 99999);
}

/* One product, rounded once, then to the nearest, halves away from zero. */
static void nearest(void)
{
    becomes(SHADOW_AT, 1, 0.285, 28);
    becomes(SHADOW_AT, 1, 1.005, 100);
    becomes(SYSTEM_AT, 1, 1.115, 112);
    /* 14.499999999999998; as ten times ten it would be 14.5 */
    becomes(SHADOW_AT, 1, 0.145, 14);
    /* below 45 thousandths, and rounded to the half */
    becomes(SHADOW_AT, 1, 0.045, 5);
    static const double halves[] = {0.125, 0.375, 0.625, 0.005};
    static const int64_t rounded[] = {13, 38, 63, 1};
    for (size_t k = 0; k < 4; k++) {
        becomes(SHADOW_AT, 1, halves[k], rounded[k]);
        becomes(SYSTEM_AT, 1, halves[k], rounded[k]);
        becomes(SYSTEM_AT, 1, -halves[k], -rounded[k]);
    }
    becomes(SYSTEM_AT, 1, -22.5, -2250);
    becomes(SYSTEM_AT, 1, -1e-300, 0);
    becomes(SHADOW_AT, 1, 0.0049999999999999, 0);
}

static void limits(void)
{
    for (size_t place = 0; place < PLACES_OF_EACH; place++) {
        becomes(place, 77, -0.0, 0);
        becomes(place, 77, stepped(0.0, 1), 0);
        if (place != SYSTEM_AT) {
            is_refused(place, bits_of(-1e-300), LTA_DUMP_RANGE);
            is_refused(place, bits_of(stepped(-0.0, 1)), LTA_DUMP_RANGE);
            is_refused(place, bits_of(-1.0), LTA_DUMP_RANGE);
        }
        /* the largest finite value */
        is_refused(place, 0x7fefffffffffffff, LTA_DUMP_RANGE);
        is_refused(place, 0xffefffffffffffff, LTA_DUMP_RANGE);
    }
    becomes(SYSTEM_AT, 1, stepped(-0.0, 1), 0);
    becomes(LTA_SHARE_AT, 1, 1.0, 100000);
    is_refused(LTA_SHARE_AT, bits_of(stepped(1.0, 1)), LTA_DUMP_RANGE);
    becomes(SHARE_AT, 77, 1.0, 77);
    becomes(SHARE_AT, 100000, 1.0, 100000);
    is_refused(SHARE_AT, bits_of(stepped(1.0, 1)), LTA_DUMP_RANGE);
    becomes(FLOW_AT, 1, 429496729.5, UINT32_MAX);
    becomes(FLOW_AT, 1, stepped(429496729.6, -1), UINT32_MAX);
    is_refused(FLOW_AT, bits_of(429496729.6), LTA_DUMP_RANGE);
    becomes(SHADOW_AT, 1, 10000.0, 1000000);
    /* 1,000,000.4999999999, and 1,000,000.5000000001 */
    becomes(SHADOW_AT, 1, 10000.005, 1000000);
    is_refused(SHADOW_AT, bits_of(stepped(10000.005, 1)), LTA_DUMP_RANGE);
    becomes(SYSTEM_AT, 1, 21474836.47, INT32_MAX);
    becomes(SYSTEM_AT, 1, stepped(21474836.475, -1), INT32_MAX);
    is_refused(SYSTEM_AT, bits_of(21474836.475), LTA_DUMP_RANGE);
    becomes(SYSTEM_AT, 1, -21474836.48, INT32_MIN);
    becomes(SYSTEM_AT, 1, stepped(-21474836.485, -1), INT32_MIN);
    is_refused(SYSTEM_AT, bits_of(-21474836.485), LTA_DUMP_RANGE);
    /* their products are finite, and far past every field */
    is_refused(FLOW_AT, bits_of(1e307), LTA_DUMP_RANGE);
    is_refused(SHADOW_AT, bits_of(1e19), LTA_DUMP_RANGE);
    is_refused(SYSTEM_AT, bits_of(-1e19), LTA_DUMP_RANGE);
}

static void not_finite(void)
{
    static const uint64_t patterns[] = {
        0x7ff0000000000000, 0xfff0000000000000, 0x7ff0000000000001, 0xfff0000000000001, 0x7ff7ffffffffffff, 0x7ff8000000000000,
        0xfff8000000000000, 0x7ffdeadbeef00000, 0x7fffffffffffffff, 0xffffffffffffffff,
    };
    for (size_t k = 0; k < COUNT(patterns); k++)
        for (size_t place = 0; place < PLACES_OF_EACH; place++)
            is_refused(place, patterns[k], LTA_DUMP_NOT_FINITE);
}

/* The floating-point flags after a call with a value at a place, with these flags raised before it. */
static unsigned flags_after(size_t place, uint64_t bits, unsigned before)
{
    struct hour h = one_of_each(1, 77);
    struct file c = case_file(&h), d = dump_of(PLACES_OF_EACH, (double[PLACES_OF_EACH]){0});
    uint8_t out[LTA_PROPOSAL_ROOM];
    put(&d, 8 * place, 8, bits);
    _mm_setcsr((_mm_getcsr() & ~(unsigned)_MM_EXCEPT_MASK) | before);
    struct lta_written answer = lta_dump_proposal(c.bytes, c.length, d.bytes, d.length, out, sizeof out);
    unsigned after = _mm_getcsr() & _MM_EXCEPT_MASK;
    about("%016" PRIx64 " at %zu, number %" PRIu32 ": flags %#x before, %#x after", bits, place, answer.number, before, after);
    return after;
}

/* Whether an inexact quotient raises a flag; every processor does this, valgrind does not. */
static bool raises_flags(void)
{
    volatile double three = 3;
    _mm_setcsr(_mm_getcsr() & ~(unsigned)_MM_EXCEPT_MASK);
    three = 1 / three;
    return (_mm_getcsr() & _MM_EXCEPT_INEXACT) != 0;
}

/* Inexact, overflow and a subnormal operand are raised where expected; no other flag is, and none is cleared. */
static void flags(void)
{
    const unsigned may = _MM_EXCEPT_INEXACT | _MM_EXCEPT_OVERFLOW | _MM_EXCEPT_DENORM;
    check(flags_after(SHARE_AT, bits_of(1), 0) == 0);
    check(flags_after(SHARE_AT, bits_of(0.5), 0) == _MM_EXCEPT_INEXACT);
    check(flags_after(FLOW_AT, bits_of(1e308), 0) == (_MM_EXCEPT_INEXACT | _MM_EXCEPT_OVERFLOW));
    check(flags_after(FLOW_AT, 1, 0) == (_MM_EXCEPT_INEXACT | _MM_EXCEPT_DENORM));
    check(flags_after(FLOW_AT, 0x7ff0000000000001, 0) == 0);
    check(flags_after(SHARE_AT, bits_of(1), _MM_EXCEPT_MASK) == _MM_EXCEPT_MASK);
    uint64_t bits = 1;
    unsigned raised = 0;
    for (unsigned round = 0; round < 20000; round++)
        for (size_t place = 0; place < PLACES_OF_EACH; place++) {
            bits = bits * 6364136223846793005 + 1442695040888963407;
            raised |= flags_after(place, bits, 0) | flags_after(place, bits >> round % 64, 0);
        }
    about("flags %#x are raised in many calls", raised);
    check(raised == may);
}

/* Which cause is asked first, of the whole dump, and which value is named. */
static void causes(void)
{
    struct hour h = three_zone_hour();
    struct file c = case_file(&h), p = proposal_file(&h), none = {0}, d = read_file(sample_dump), other = d;
    about("60");
    refused_in(p.length - 1, &c, &d, LTA_DUMP_NO_ROOM, 0);
    put(&other, 72, 8, bits_of(-1.0));
    about("59 at the last value and 60");
    refused_in(0, &c, &other, LTA_DUMP_RANGE, 9);
    put(&other, 24, 8, bits_of(2.0));
    about("59 twice");
    refused_in(0, &c, &other, LTA_DUMP_RANGE, 3);
    put(&other, 64, 8, 0x7ff8000000000000);
    about("59 twice, 58 between them");
    refused_in(0, &c, &other, LTA_DUMP_NOT_FINITE, 8);
    put(&other, 0, 8, 0xfff0000000000000);
    about("58 at the first value too");
    refused_in(0, &c, &other, LTA_DUMP_NOT_FINITE, 0);
    other.length--;
    about("57 before all of these");
    refused_in(0, &c, &other, LTA_DUMP_LENGTH, 0);

    /* the case before all, by the number that refuses it */
    about("56, an empty case");
    refused_in(0, &none, &other, LTA_DUMP_CASE, 1);
    struct file wrong_case = c;
    wrong_case.bytes[2] = 'K';
    about("56, the mark");
    refused(&wrong_case, &d, LTA_DUMP_CASE, 2);
    wrong_case = c;
    put(&wrong_case, 3, 2, 3);
    about("56, the version");
    refused(&wrong_case, &d, LTA_DUMP_CASE, 3);
    wrong_case = c;
    put(&wrong_case, 5, 1, 17);
    about("56, seventeen zones");
    refused(&wrong_case, &d, LTA_DUMP_CASE, 4);
    wrong_case = c;
    wrong_case.length--;
    about("56, a byte less");
    refused(&wrong_case, &d, LTA_DUMP_CASE, 5);
    h.branch[1].ram = 500001;
    wrong_case = case_file(&h);
    about("56, a margin");
    refused(&wrong_case, &d, LTA_DUMP_CASE, 6);
    h = three_zone_hour();
    h.link[0].capacity = 100001;
    wrong_case = case_file(&h);
    about("56, a capacity");
    refused(&wrong_case, &d, LTA_DUMP_CASE, 7);
    h = three_zone_hour();
    h.order[4].quantity = 0;
    wrong_case = case_file(&h);
    about("56, a quantity");
    refused(&wrong_case, &d, LTA_DUMP_CASE, 8);
}

static void lengths(void)
{
    struct hour h = three_zone_hour();
    struct file c = case_file(&h), p = proposal_file(&h), d = read_file(sample_dump);
    for (size_t length = 0; length <= 2 * d.length; length++) {
        struct file other = d;
        other.length = length;
        about("a dump of %zu bytes", length);
        if (length == d.length)
            answered(&c, &other, ROOM, 0, 0, &p);
        else
            refused(&c, &other, LTA_DUMP_LENGTH, 0);
    }
    for (size_t room = 0; room <= p.length + 4; room++) {
        about("an output of %zu bytes", room);
        if (room < p.length)
            refused_in(room, &c, &d, LTA_DUMP_NO_ROOM, 0);
        else
            answered(&c, &d, room, 0, 0, &p);
    }
    h = one_zone_hour();
    c = case_file(&h);
    p = proposal_file(&h);
    d = dump_of(2, (double[]){0.0, 4000.0});
    about("an hour of no rows");
    answered(&c, &d, ROOM, 0, 0, &p);
    about("an hour of no rows, with just enough room");
    answered(&c, &d, 13, 0, 0, &p);
    about("an hour of no rows, with a byte less");
    refused_in(12, &c, &d, LTA_DUMP_NO_ROOM, 0);
}

/* The case and the dump are only read: they may be in one array, at any offset, and overlap. */
static void one_array(void)
{
    struct hour h = three_zone_hour();
    struct file c = case_file(&h), p = proposal_file(&h), d = read_file(sample_dump), joined = {0};
    for (size_t offset = 0; offset < 9; offset++) {
        joined.length = offset + c.length + d.length;
        memset(joined.bytes, 0xff, offset);
        memcpy(joined.bytes + offset, c.bytes, c.length);
        memcpy(joined.bytes + offset + c.length, d.bytes, d.length);
        const uint8_t *all = lend(case_arena, AT_START, joined.bytes, joined.length);
        uint8_t *out = lend_room(out_arena, AT_END, ROOM);
        about("case and dump in one array, from byte %zu on", offset);
        check(is_written(lta_dump_proposal(all + offset, c.length, all + offset + c.length, d.length, out, ROOM), 0, 0, p.length)
              && holds(out_arena, AT_END, ROOM, p.bytes, p.length));
    }
    /* the last two bytes of a case of no rows, which are zero, are the first of its dump */
    struct hour one = one_zone_hour();
    c = case_file(&one);
    memcpy(joined.bytes, c.bytes, c.length);
    memset(joined.bytes + c.length, 0, 14);
    const uint8_t *all = lend(case_arena, AT_END, joined.bytes, c.length + 14);
    uint8_t *out = lend_room(out_arena, AT_END, ROOM);
    about("a dump that begins within the case");
    p = proposal_file(&(struct hour){.version = 1, .zones = 1});
    check(is_written(lta_dump_proposal(all, c.length, all + c.length - 2, 16, out, ROOM), 0, 0, 13) && holds(out_arena, AT_END, ROOM, p.bytes, 13));
}

/* A null pointer where the length is 0. */
static void nulls(void)
{
    struct hour h = three_zone_hour();
    struct file c = case_file(&h), d = read_file(sample_dump);
    for (unsigned k = 0; k < PLACES; k++) {
        const uint8_t *case_bytes = lend(case_arena, k, c.bytes, c.length), *dump = lend(dump_arena, k, d.bytes, d.length);
        uint8_t *out = lend_room(out_arena, k, ROOM);
        about("null for the case");
        check(is_written(lta_dump_proposal(NULL, 0, dump, d.length, out, ROOM), LTA_DUMP_CASE, LTA_CASE_SHORT, 0));
        about("null for the dump");
        check(is_written(lta_dump_proposal(case_bytes, c.length, NULL, 0, out, ROOM), LTA_DUMP_LENGTH, 0, 0));
        about("null for the output");
        check(is_written(lta_dump_proposal(case_bytes, c.length, dump, d.length, NULL, 0), LTA_DUMP_NO_ROOM, 0, 0));
        about("null for all");
        check(is_written(lta_dump_proposal(NULL, 0, NULL, 0, NULL, 0), LTA_DUMP_CASE, LTA_CASE_SHORT, 0));
        about("null, and something was written");
        check(holds(out_arena, k, ROOM, NULL, 0));
    }
}

/* A dump that gives the largest hour's proposal. */
static struct file largest_dump(const struct hour *h)
{
    static double values[VALUES_MOST];
    size_t count = 0;
    values[count++] = h->share / 100000.0;
    values[count++] = h->system / 100.0;
    for (size_t i = 0; i < h->orders; i++)
        values[count++] = (double)h->volume[i] / h->order[i].quantity;
    for (size_t l = 0; l < h->links; l++)
        values[count++] = h->flow[l] / 10.0;
    for (size_t m = 0; m < h->branches; m++)
        values[count++] = h->shadow[m] / 100.0;
    return dump_of(count, values);
}

static struct {
    struct file hour, dump;
    uint8_t out[LTA_PROPOSAL_ROOM];
    struct lta_written answer;
} call;

static void call_proposal(void)
{
    call.answer = lta_dump_proposal(call.hour.bytes, call.hour.length, call.dump.bytes, call.dump.length, call.out, sizeof call.out);
}

static void largest(void)
{
    for (uint16_t version = 1; version <= 2; version++) {
        struct hour h = largest_hour(version, 1000000);
        struct file c = case_file(&h), d = largest_dump(&h), p = proposal_file(&h);
        about("the largest hour of version %u", version);
        answered(&c, &d, ROOM, 0, 0, &p);
        about("the largest hour of version %u, with an output a byte too short", version);
        refused_in(LTA_PROPOSAL_ROOM - 1, &c, &d, LTA_DUMP_NO_ROOM, 0);
        put(&d, DUMP_ROOM - 8, 8, 0x7ff0000000000001);
        about("the largest hour of version %u, its last value no number", version);
        refused(&c, &d, LTA_DUMP_NOT_FINITE, VALUES_MOST - 1);
        put(&d, DUMP_ROOM - 8, 8, bits_of(10000.01));
        about("the largest hour of version %u, its last value out of range", version);
        refused(&c, &d, LTA_DUMP_RANGE, VALUES_MOST - 1);
    }
    struct hour h = largest_hour(2, 1000000);
    struct file p = proposal_file(&h);
    call.hour = case_file(&h);
    call.dump = largest_dump(&h);
    about("the largest hour on a stack of %d bytes", STACK_ENOUGH);
    on_stack(STACK_ENOUGH, call_proposal);
    check(is_written(call.answer, 0, 0, LTA_PROPOSAL_ROOM) && memcmp(call.out, p.bytes, p.length) == 0);
}

int main(int count, char **words)
{
    if (count != 4) {
        fprintf(stderr, "usage: dump_test CASE DUMP PROPOSAL\n");
        return 2;
    }
    sample_case = words[1];
    sample_dump = words[2];
    sample_proposal = words[3];
    case_arena = arena(CASE_ROOM);
    dump_arena = arena((size_t)DUMP_ROOM);
    out_arena = arena(ROOM);

    group("numbers and sizes are the header's", layout);
    group("the three-zone dump gives its proposal", three_zones);
    group("products are rounded once and cut", cut);
    group("prices go to the nearest cent, halves away from zero", nearest);
    group("a limit is taken and the next value refused", limits);
    group("a value that is not finite is refused", not_finite);
    if (raises_flags())
        group("only the flags that the header names are raised", flags);
    else
        puts("floating-point flags left out: none is raised here, as under valgrind");
    group("the first cause and its first value are named", causes);
    group("a dump or an output of wrong length is refused", lengths);
    group("case and dump may share an array, at any alignment", one_array);
    group("null is taken with length 0", nulls);
    group("the largest hour is written on a small stack", largest);
    return closing();
}
