/* lta_desk_lines through the library: document 01's nine lines, hours that end after the first line, where the input
 * is cut, and outputs that are too short. Every call is made with input and output at both places between unreadable
 * pages, the input unwritable, and every byte of the output is compared afterwards.
 *
 *     desk_test CASE PROPOSAL     the three-zone hour's files
 */
#include "harness.h"
#include "hours.h"
#include "lta_judgement.h"

#include <stdio.h>
#include <string.h>

/* Room for the text, and bytes past it. */
#define ROOM 1100

static struct arena input_arena, out_arena;
static struct file sample;

static const char three_zone_lines[] =
    "verdict 0 0\n"
    "welfare 22125.00000000\n"
    "bound 22125.00000000\n"
    "gap 0.00000000\n"
    "rent 17500.00000000\n"
    "owed 17500.00000000\n"
    "price 0 20.0000000\n"
    "price 1 63.7500000\n"
    "price 2 50.0000000\n";

/* See judge_test for its totals. */
static const char largest_lines[] =
    "verdict 26 0\n"
    "welfare 11520000000.00000000\n"
    "bound 43520000000.00000000\n"
    "gap 32000000000.00000000\n"
    "rent 0.00000000\n"
    "owed 0.00000000\n"
    "price 0 0.0000000\n"
    "price 1 0.0000000\n"
    "price 2 0.0000000\n"
    "price 3 0.0000000\n"
    "price 4 0.0000000\n"
    "price 5 0.0000000\n"
    "price 6 0.0000000\n"
    "price 7 0.0000000\n"
    "price 8 0.0000000\n"
    "price 9 0.0000000\n"
    "price 10 0.0000000\n"
    "price 11 0.0000000\n"
    "price 12 0.0000000\n"
    "price 13 0.0000000\n"
    "price 14 0.0000000\n"
    "price 15 0.0000000\n";

/* The entry names no index. */
static bool is(struct lta_written answer, uint32_t number, size_t length) { return is_written(answer, number, 0, length); }

/* The answer, and the output's bytes, with both arguments at each of their places. */
static void answered_in(size_t room, const struct file *input, uint32_t number, const char *text)
{
    bool ok = true;
    for (unsigned way = 0; way < WAYS(2) && ok; way++) {
        enum place place = place_of(way, 1);
        const uint8_t *bytes = lend(input_arena, place_of(way, 0), input->bytes, input->length);
        uint8_t *out = lend_room(out_arena, place, room);
        struct lta_written answer = lta_desk_lines(bytes, input->length, out, room);
        ok = is(answer, number, strlen(text));
        ok = holds(out_arena, place, room, (const uint8_t *)text, strlen(text)) && ok;
        if (!ok)
            wrong("it is: %.*s", (int)(answer.length < room ? answer.length : room), (const char *)out);
    }
    check(ok);
}

static void printed(const struct file *input, const char *text) { answered_in(ROOM, input, 0, text); }

/* A text where there is room, else the refusal: 31, index 0, length 0, and every byte unchanged. */
static void printed_or_refused(size_t room, const struct file *input, const char *text)
{
    if (room < 1024)
        answered_in(room, input, 31, "");
    else
        answered_in(room, input, 0, text);
}

/* A case directly followed by its proposal. */
static struct file input_of(const struct hour *h)
{
    struct file input = case_file(h), p = proposal_file(h);
    memcpy(input.bytes + input.length, p.bytes, p.length);
    input.length += p.length;
    return input;
}

static void hours(void)
{
    about("the sample files");
    printed(&sample, three_zone_lines);
    struct hour h = three_zone_hour();
    struct file input = input_of(&h);
    about("P1");
    printed(&input, three_zone_lines);

    h = unused_link_hour();
    input = input_of(&h);
    about("P3, which is refused and has a report");
    printed(&input,
            "verdict 26 0\n"
            "welfare 19500.00000000\n"
            "bound 22500.00000000\n"
            "gap 3000.00000000\n"
            "rent 15000.00000000\n"
            "owed 18000.00000000\n"
            "price 0 20.0000000\n"
            "price 1 65.0000000\n"
            "price 2 50.0000000\n");

    h.tolerance = 300000;
    input = input_of(&h);
    about("P4, whose tolerance is wide, cut at the length that its header demands");
    printed(&input, "verdict 15 0\n");

    h = negative_hour();
    input = input_of(&h);
    about("negative amounts");
    printed(&input,
            "verdict 0 0\n"
            "welfare -0.00100000\n"
            "bound 0.00100000\n"
            "gap 0.00200000\n"
            "rent 0.00000000\n"
            "owed 0.00000000\n"
            "price 0 -0.0100000\n");

    h = one_zone_hour();
    h.zones = 16;
    h.system = -50000;
    input = input_of(&h);
    about("sixteen zones");
    printed(&input,
            "verdict 0 0\n"
            "welfare 0.00000000\n"
            "bound 0.00000000\n"
            "gap 0.00000000\n"
            "rent 0.00000000\n"
            "owed 0.00000000\n"
            "price 0 -500.0000000\n"
            "price 1 -500.0000000\n"
            "price 2 -500.0000000\n"
            "price 3 -500.0000000\n"
            "price 4 -500.0000000\n"
            "price 5 -500.0000000\n"
            "price 6 -500.0000000\n"
            "price 7 -500.0000000\n"
            "price 8 -500.0000000\n"
            "price 9 -500.0000000\n"
            "price 10 -500.0000000\n"
            "price 11 -500.0000000\n"
            "price 12 -500.0000000\n"
            "price 13 -500.0000000\n"
            "price 14 -500.0000000\n"
            "price 15 -500.0000000\n");

    for (uint16_t version = 1; version <= 2; version++) {
        h = largest_hour(version, 1000000);
        input = input_of(&h);
        about("the largest hour of version %d", version);
        printed(&input, largest_lines);
    }
    about("the longest hour fills its room");
    check(input.length == sizeof input.bytes);

    h = contracted_hour();
    input = input_of(&h);
    about("P1 with 2,500 of 4,000 contracted");
    printed(&input,
            "verdict 0 0\n"
            "welfare 22125.00000000\n"
            "bound 22125.00000000\n"
            "gap 0.00000000\n"
            "rent 17500.00000000\n"
            "owed 10937.50000000\n"
            "price 0 20.0000000\n"
            "price 1 63.7500000\n"
            "price 2 50.0000000\n");
}

static void refused(void)
{
    struct hour h = three_zone_hour();
    struct file input = {0};
    about("empty input");
    printed(&input, "verdict 1 0\n");
    h.volume[1] = 6001;
    input = input_of(&h);
    about("P5");
    printed(&input, "verdict 21 1\n");
    h = one_zone_hour();
    h.system = 400001;
    input = input_of(&h);
    about("P11");
    printed(&input, "verdict 25 0\n");
    input = sample;
    put(&input, 37 + 102, 4, 1000001);
    about("the first shadow price: its offset is counted in the proposal");
    printed(&input, "verdict 14 37\n");
    h = largest_hour(1, 0);
    h.order[511].price = 400001;
    input = input_of(&h);
    about("the largest offset, of the last of 512 prices");
    printed(&input, "verdict 8 9866\n");
    h = largest_hour(2, 0);
    h.order[511].price = 400001;
    input = input_of(&h);
    about("the same of version 2, the largest offset of all");
    printed(&input, "verdict 8 10122\n");
    input = sample;
    put(&input, 3, 2, 2);
    about("version 2 with a link of six bytes: the case takes four of the proposal's, and an order's zone and side are contracted");
    printed(&input, "verdict 7 52\n");
    h = contracted_hour();
    input = input_of(&h);
    put(&input, 3, 2, 1);
    about("version 1 with a link of ten bytes: what is contracted stands where the first order does");
    printed(&input, "verdict 8 52\n");
    put(&input, 3, 2, 3);
    about("version 3: all is the case");
    printed(&input, "verdict 3 0\n");
    input = sample;
    put(&input, 10, 4, 1000000001);
    about("a header that is not good: all is the case");
    printed(&input, "verdict 4 10\n");
}

/* The input cut short at each length, and lengthened by zero bytes. */
static void lengths(void)
{
    struct file input = sample;
    about("the sample has 147 bytes");
    check(input.length == 147);
    for (input.length = 0; input.length <= 200; input.length++) {
        size_t n = input.length;
        about("input of %zu bytes", n);
        if (n == 147)
            printed(&input, three_zone_lines);
        else
            printed(&input, n < 14 ? "verdict 1 0\n" : n < 102 ? "verdict 5 0\n" : n < 102 + 13 ? "verdict 9 0\n" : "verdict 12 0\n");
    }
}

static void contracted_lengths(void)
{
    struct hour h = contracted_hour();
    struct file input = input_of(&h);
    size_t whole = input.length;
    about("P1 of version 2 has 151 bytes");
    check(whole == 151);
    for (input.length = 0; input.length < whole; input.length++) {
        size_t n = input.length;
        about("input of version 2, of %zu bytes", n);
        printed(&input, n < 14 ? "verdict 1 0\n" : n < 106 ? "verdict 5 0\n" : n < 106 + 13 ? "verdict 9 0\n" : "verdict 12 0\n");
    }
}

static void rooms(void)
{
    static const size_t rooms[] = {0, 1, 11, 12, LTA_REPORT_ROOM, LTA_DESK_ROOM - 1, LTA_DESK_ROOM, LTA_DESK_ROOM + 1, 4096};
    struct file none = {0};
    for (size_t k = 0; k < COUNT(rooms); k++) {
        about("the sample, with an output of %zu bytes", rooms[k]);
        printed_or_refused(rooms[k], &sample, three_zone_lines);
        about("empty input, with an output of %zu bytes", rooms[k]);
        printed_or_refused(rooms[k], &none, "verdict 1 0\n");
    }
    about("the room and the number that the header names");
    check(LTA_DESK_ROOM == 1024 && LTA_DESK_NO_ROOM == 31);
}

static void nulls(void)
{
    const uint8_t *bytes = lend(input_arena, AT_END, sample.bytes, sample.length);
    uint8_t *out = lend_room(out_arena, AT_END, ROOM);
    about("null for the output");
    check(is(lta_desk_lines(bytes, sample.length, NULL, 0), 31, 0));
    about("null for both");
    check(is(lta_desk_lines(NULL, 0, NULL, 0), 31, 0));
    about("null for the input");
    check(is(lta_desk_lines(NULL, 0, out, ROOM), 0, 12) && holds(out_arena, AT_END, ROOM, (const uint8_t *)"verdict 1 0\n", 12));
}

static struct {
    struct file input;
    uint8_t out[LTA_DESK_ROOM];
    struct lta_written answer;
} call;

static void call_lines(void) { call.answer = lta_desk_lines(call.input.bytes, call.input.length, call.out, sizeof call.out); }

static void small_stack(void)
{
    struct hour h = largest_hour(2, 1000000);
    call.input = input_of(&h);
    about("the largest hour on a stack of %d bytes", STACK_ENOUGH);
    on_stack(STACK_ENOUGH, call_lines);
    check(is(call.answer, 0, strlen(largest_lines)) && memcmp(call.out, largest_lines, strlen(largest_lines)) == 0);
}

int main(int count, char **words)
{
    if (count != 3) {
        fprintf(stderr, "usage: desk_test CASE PROPOSAL\n");
        return 2;
    }
    append_stored(&sample, words[1]);
    append_stored(&sample, words[2]);
    input_arena = arena(sizeof sample.bytes);
    out_arena = arena(4096);

    group("totals and prices have every decimal", hours);
    group("a refused hour has its verdict alone", refused);
    group("inputs of 0 to 200 bytes are cut at the length demanded", lengths);
    group("inputs of version 2 are cut at their own length", contracted_lengths);
    group("an output under 1024 bytes is refused", rooms);
    group("null is taken with length 0", nulls);
    group("the stack that the header names is enough", small_stack);
    return closing();
}
