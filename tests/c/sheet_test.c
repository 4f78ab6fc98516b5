/* lta_sheet_branches through the library: the sample sheet, which texts are numbers and which are not, each limit and
 * one past it, each cause and their order, outputs of several lengths, null pointers. Calls are made with sheet and
 * output at both places between unreadable pages, the sheet unwritable, and every byte of the output is compared
 * afterwards.
 *
 *     sheet_test SHEET     the three-zone hour's sheet
 */
#include "harness.h"
#include "hours.h"
#include "lta_judgement.h"

#include <inttypes.h>
#include <stdio.h>
#include <string.h>

/* Room for every sheet, and bytes past it. */
#define ROOM (LTA_SHEET_ROOM + 40)
#define SHEET_MOST 16384
#define LINES_MOST 64
#define ZONES_MOST 16

struct sheet {
    size_t length;
    char text[SHEET_MOST];
};

static struct arena sheet_arena, out_arena;
static const char *sample;

static void add(struct sheet *s, const char *text)
{
    size_t length = strlen(text);
    if (s->length + length > SHEET_MOST) {
        wrong("a sheet of over %d bytes", SHEET_MOST);
        check(false);
        return;
    }
    memcpy(s->text + s->length, text, length);
    s->length += length;
}

static void add_times(struct sheet *s, size_t times, const char *text)
{
    for (size_t k = 0; k < times; k++)
        add(s, text);
}

static struct sheet sheet_of(const char *text)
{
    struct sheet s = {0};
    add(&s, text);
    return s;
}

/* A line with a text in one field, and zeros in the others. */
static void add_line(struct sheet *s, size_t zones, size_t place, const char *field)
{
    for (size_t k = 0; k <= zones; k++) {
        add(s, k == 0 ? "" : ",");
        add(s, k == place ? field : "0");
    }
    add(s, "\n");
}

/* The answer, and the output's bytes, with both arguments at each of their places. */
static void answered(const struct sheet *s, size_t zones, size_t room, uint32_t number, uint64_t index, const struct file *branches)
{
    bool ok = true;
    for (unsigned way = 0; way < WAYS(2) && ok; way++) {
        enum place place = place_of(way, 1);
        const uint8_t *sheet = lend(sheet_arena, place_of(way, 0), s->text, s->length);
        uint8_t *out = lend_room(out_arena, place, room);
        ok = is_written(lta_sheet_branches(sheet, s->length, zones, out, room), number, index, branches->length);
        ok = holds(out_arena, place, room, branches->bytes, branches->length) && ok;
    }
    check(ok);
}

static void refused_in(size_t room, const struct sheet *s, size_t zones, uint32_t number, uint64_t index)
{
    answered(s, zones, room, number, index, &(struct file){0});
}

static void refused(const struct sheet *s, size_t zones, uint32_t number, uint64_t index) { refused_in(ROOM, s, zones, number, index); }

static void refused_text(const char *text, size_t zones, uint32_t number, uint64_t index)
{
    struct sheet s = sheet_of(text);
    refused(&s, zones, number, index);
}

static struct file numbers(size_t count, const int32_t *number)
{
    struct file f = {.length = 4 * count};
    for (size_t k = 0; k < count; k++)
        put(&f, 4 * k, 4, (uint32_t)number[k]);
    return f;
}

static void written(const struct sheet *s, size_t zones, size_t count, const int32_t *number)
{
    struct file branches = numbers(count, number);
    answered(s, zones, ROOM, 0, 0, &branches);
}

/* A sheet of one zone and one line. */
static void read_as(const char *text, int32_t margin, int32_t ptdf)
{
    struct sheet s = sheet_of(text);
    about("%.60s", text);
    written(&s, 1, 2, (int32_t[]){margin, ptdf});
}

static void layout(void)
{
    about("struct lta_written has 24 bytes");
    check(sizeof(struct lta_written) == 24 && offsetof(struct lta_written, number) == 0 && offsetof(struct lta_written, index) == 8
          && offsetof(struct lta_written, length) == 16);
    about("the numbers and the room that the header names");
    check(LTA_SHEET_ZONES == 50 && LTA_SHEET_FIELD == 51 && LTA_SHEET_DECIMAL == 52 && LTA_SHEET_RANGE == 53 && LTA_SHEET_LINES == 54
          && LTA_SHEET_NO_ROOM == 55 && LTA_SHEET_ROOM == LTA_SHEET_SIZE(ZONES_MOST, LINES_MOST) && LTA_SHEET_SIZE(3, 2) == 32);
}

/* The branches of P1's case, from byte 14 on. */
static void three_zones(void)
{
    struct hour h = three_zone_hour();
    struct file c = case_file(&h), branches = {.length = LTA_SHEET_SIZE((size_t)3, 2)}, given = read_file(sample);
    memcpy(branches.bytes, c.bytes + 14, branches.length);
    struct sheet s = {.length = given.length};
    memcpy(s.text, given.bytes, given.length);
    about("the sample sheet");
    answered(&s, 3, ROOM, 0, 0, &branches);
    s = sheet_of("250,0,-0.75,-0.5\n1500,1,-0,0");
    about("the sample sheet in other words");
    answered(&s, 3, ROOM, 0, 0, &branches);
}

static void lines(void)
{
    struct sheet s = {0};
    about("an empty sheet");
    written(&s, 1, 0, NULL);
    s = sheet_of("1,-1");
    about("a line without its newline");
    written(&s, 1, 2, (int32_t[]){10, 100000});
    s = sheet_of("1,-1\n2,1");
    about("a last line without its newline");
    written(&s, 1, 4, (int32_t[]){10, 100000, 20, -100000});
    add(&s, "\n");
    about("a last line with its newline");
    written(&s, 1, 4, (int32_t[]){10, 100000, 20, -100000});
    about("a newline alone");
    refused_text("\n", 1, LTA_SHEET_FIELD, 0);
    about("an empty line at the end");
    refused_text("1,-1\n\n", 1, LTA_SHEET_FIELD, 1);
    about("an empty line between two");
    refused_text("1,-1\n\n2,1\n", 1, LTA_SHEET_FIELD, 1);

    static int32_t zeros[LINES_MOST * (1 + ZONES_MOST)];
    s = (struct sheet){0};
    for (size_t k = 0; k < LINES_MOST; k++)
        add_line(&s, ZONES_MOST, 0, "0");
    about("64 lines of 16 zones");
    written(&s, ZONES_MOST, (size_t)LINES_MOST * (1 + ZONES_MOST), zeros);
    s.length--;
    about("64 lines, the last without its newline");
    written(&s, ZONES_MOST, (size_t)LINES_MOST * (1 + ZONES_MOST), zeros);
    add(&s, "\n");
    add_line(&s, ZONES_MOST, 0, "0");
    about("65 lines");
    refused(&s, ZONES_MOST, LTA_SHEET_LINES, 0);
    s.length--;
    about("65 lines, the last without its newline");
    refused(&s, ZONES_MOST, LTA_SHEET_LINES, 0);
}

static void taken(void)
{
    read_as("0,0", 0, 0);
    read_as("-0,-0.0", 0, 0);
    read_as("0.1,0.00001", 1, -1);
    read_as("-0.1,-0.00001", -1, 1);
    read_as("12.3,1.23456", 123, -123456);
    read_as("-12.30,-1.234560", -123, 123456);
    read_as("0012,000.5", 120, -50000);
    read_as("50000,2", 500000, -200000);
    read_as("-50000.0,-2.00000", -500000, 200000);
    read_as("50000.000000000000000000000,-2.0000000000000000000000", 500000, 200000);

    struct sheet s = {0};
    add(&s, "-");
    add_times(&s, 1000, "0");
    add(&s, "7.5");
    add_times(&s, 1000, "0");
    add(&s, ",");
    add_times(&s, 1000, "0");
    add(&s, ".00009");
    add_times(&s, 1000, "0");
    about("a thousand zeros before and behind");
    written(&s, 1, 2, (int32_t[]){-75, -9});
}

static void no_numbers(void)
{
    static const char *const texts[] = {
        "", "-", "+1", ".5", "1.", "-.5", "-1.", "--1", "1-", "1e3", "1E3", " 1", "1 ", "1\r", "1\t", "1.2.3", "1..2", ".", "-.", "0x1",
        "1_0", "NaN", "inf", "\"1\"", "1;0", "\xd9\xa1", "\xff",
    };
    for (size_t k = 0; k < COUNT(texts); k++) {
        for (size_t place = 0; place <= 2; place++) {
            struct sheet s = {0};
            add_line(&s, 2, place, "1");
            add_line(&s, 2, place, texts[k]);
            about("'%s' as field %zu", texts[k], place);
            refused(&s, 2, LTA_SHEET_FIELD, 1);
        }
    }
    struct sheet s = sheet_of("0,1?\n");
    s.text[3] = '\0';
    about("a zero byte after a digit");
    refused(&s, 1, LTA_SHEET_FIELD, 0);
    about("a field missing");
    refused_text("0,0,0\n0,0\n", 2, LTA_SHEET_FIELD, 1);
    about("a field too many");
    refused_text("0,0,0\n0,0,0,0\n", 2, LTA_SHEET_FIELD, 1);
    about("a comma at the end of a line");
    refused_text("0,0,0,\n", 2, LTA_SHEET_FIELD, 0);
    about("a line break of two bytes");
    refused_text("0,0\r\n0,0\r\n", 1, LTA_SHEET_FIELD, 0);
}

/* Texts refused by one number, each as the margin or as the last PTDF of the second line. */
static void refused_fields(uint32_t number, const char *const *texts, size_t count, size_t place)
{
    for (size_t k = 0; k < count; k++) {
        struct sheet s = {0};
        add_line(&s, 3, place, "1");
        add_line(&s, 3, place, texts[k]);
        add_line(&s, 3, place, texts[k]);
        about("%s as field %zu", texts[k], place);
        refused(&s, 3, number, 1);
    }
}

static void measures(void)
{
    static const char *const margin_decimals[] = {"0.01", "-0.01", "1.11", "0.0000000000001", "50000.01", "99999999999.01"};
    refused_fields(LTA_SHEET_DECIMAL, margin_decimals, COUNT(margin_decimals), 0);
    static const char *const ptdf_decimals[] = {"0.000001", "-0.000001", "1.1234567", "0.00000000000000001", "2.000001", "99999.000001"};
    refused_fields(LTA_SHEET_DECIMAL, ptdf_decimals, COUNT(ptdf_decimals), 3);
    /* among them 2^31, 2^32, 2^63 and 2^64 in tenths or hundred-thousandths, which narrower numbers would wrap
     * into the range */
    static const char *const margins[] = {"50000.1", "-50000.1", "500000", "214748364.8", "429496729.6", "-429496729.6",
                                          "922337203685477580.8", "1844674407370955161.6", "340282366920938463463374607431768211456"};
    refused_fields(LTA_SHEET_RANGE, margins, COUNT(margins), 0);
    static const char *const ptdfs[] = {"2.00001", "-2.00001", "3", "42949.67296", "-42949.67296", "184467440737095.51616",
                                        "340282366920938463463374607431768211456"};
    refused_fields(LTA_SHEET_RANGE, ptdfs, COUNT(ptdfs), 3);

    struct sheet s = {0};
    add_times(&s, 1000, "9");
    add(&s, ",0");
    about("a margin of a thousand digits");
    refused(&s, 1, LTA_SHEET_RANGE, 0);
    s = sheet_of("0,-1");
    add_times(&s, 1000, "0");
    about("a PTDF of a thousand digits");
    refused(&s, 1, LTA_SHEET_RANGE, 0);
    s = sheet_of("0.");
    add_times(&s, 1000, "0");
    add(&s, "1,0");
    about("a decimal past a thousand zeros");
    refused(&s, 1, LTA_SHEET_DECIMAL, 0);
}

static void zone_counts(void)
{
    for (size_t zones = 1; zones <= ZONES_MOST; zones++) {
        struct sheet s = {0};
        int32_t number[1 + ZONES_MOST] = {0};
        number[zones] = -100000;
        add_line(&s, zones, zones, "1");
        about("%zu zones", zones);
        written(&s, zones, 1 + zones, number);
        about("%zu zones, and a field less", zones - 1);
        refused(&s, zones - 1, zones == 1 ? LTA_SHEET_ZONES : LTA_SHEET_FIELD, 0);
    }
    static const size_t wrong_zones[] = {0, 17, 18, 255, 256, 257, 65537, SIZE_MAX / 4, SIZE_MAX / 4 + 1, SIZE_MAX - 1, SIZE_MAX};
    for (size_t k = 0; k < COUNT(wrong_zones); k++) {
        about("%zu zones, no line", wrong_zones[k]);
        refused_text("", wrong_zones[k], LTA_SHEET_ZONES, 0);
        about("%zu zones, a line that is none", wrong_zones[k]);
        refused_text("x\n", wrong_zones[k], LTA_SHEET_ZONES, 0);
    }
}

static void rooms(void)
{
    struct sheet s = sheet_of("1,0.1,0.2\n-2,0.3,-0.4\n");
    const int32_t number[] = {10, -10000, -20000, -20, -30000, 40000};
    struct file branches = numbers(6, number);
    static const size_t rooms[] = {0, 1, 4, 11, 12, 20, 23, 24, 25, 100};
    for (size_t k = 0; k < COUNT(rooms); k++) {
        about("two lines of two zones, with an output of %zu bytes", rooms[k]);
        if (rooms[k] < 24)
            refused_in(rooms[k], &s, 2, LTA_SHEET_NO_ROOM, 0);
        else
            answered(&s, 2, rooms[k], 0, 0, &branches);
    }
    struct sheet none = {0};
    about("an empty sheet, with an output of no bytes");
    answered(&none, 16, 0, 0, 0, &(struct file){0});
    s = none;
    for (size_t k = 0; k < LINES_MOST; k++)
        add_line(&s, ZONES_MOST, 0, "0");
    about("the largest sheet, with an output a byte too short");
    refused_in(LTA_SHEET_ROOM - 1, &s, ZONES_MOST, LTA_SHEET_NO_ROOM, 0);
}

/* Several causes together: the one asked first, over the whole sheet, and its first line. */
static void causes(void)
{
    const char *const all = "1,3\n1.01,1\n1,1\n1,x\n\n1.01,3\n";
    struct sheet s = sheet_of(all);
    add_times(&s, 70, "1,1\n");
    about("all of 50 to 55");
    refused_in(0, &s, 17, LTA_SHEET_ZONES, 0);
    about("all of 51 to 55");
    refused_in(0, &s, 1, LTA_SHEET_FIELD, 3);
    s = sheet_of("1,3\n1.01,1\n1,1\n1.01,3\n");
    add_times(&s, 70, "1,1\n");
    about("all of 52 to 55");
    refused_in(0, &s, 1, LTA_SHEET_DECIMAL, 1);
    s = sheet_of("1,1\n1,3\n50001,1\n");
    add_times(&s, 70, "1,1\n");
    about("all of 53 to 55");
    refused_in(0, &s, 1, LTA_SHEET_RANGE, 1);
    s = (struct sheet){0};
    add_times(&s, 65, "1,1\n");
    about("54 and 55");
    refused_in(0, &s, 1, LTA_SHEET_LINES, 0);

    about("52 in the first line, 51 in the sixth");
    refused_text("1.01,1\n1,1\n1,1\n1,1\n1,1\n1\n", 1, LTA_SHEET_FIELD, 5);
    about("53 in the first line, 52 in the second");
    refused_text("1,3\n1,0.000001\n", 1, LTA_SHEET_DECIMAL, 1);
    about("52 and 53 in one number");
    refused_text("1,3.000001\n", 1, LTA_SHEET_DECIMAL, 0);
    about("51 in one field, 52 and 53 in those before it");
    refused_text("1.01,3,x\n", 2, LTA_SHEET_FIELD, 0);

    static const struct {
        const char *line;
        uint32_t number;
    } late[] = {{"1,x", LTA_SHEET_FIELD}, {"1.01,1", LTA_SHEET_DECIMAL}, {"1,3", LTA_SHEET_RANGE}};
    for (size_t k = 0; k < COUNT(late); k++) {
        s = (struct sheet){0};
        add_times(&s, 300, "1,1\n");
        add(&s, late[k].line);
        about("%" PRIu32 " in the last of 301 lines", late[k].number);
        refused(&s, 1, late[k].number, 300);
    }
}

/* A null pointer where the length is 0. */
static void nulls(void)
{
    for (unsigned k = 0; k < PLACES; k++) {
        const uint8_t *sheet = lend(sheet_arena, k, "1,1\n", 4);
        uint8_t *out = lend_room(out_arena, k, ROOM);
        about("null for the sheet");
        check(is_written(lta_sheet_branches(NULL, 0, 1, out, ROOM), 0, 0, 0) && holds(out_arena, k, ROOM, NULL, 0));
        about("null for the output");
        check(is_written(lta_sheet_branches(sheet, 4, 1, NULL, 0), LTA_SHEET_NO_ROOM, 0, 0));
        about("null for both");
        check(is_written(lta_sheet_branches(NULL, 0, 16, NULL, 0), 0, 0, 0));
        about("null for both, and no zones");
        check(is_written(lta_sheet_branches(NULL, 0, 0, NULL, 0), LTA_SHEET_ZONES, 0, 0));
    }
}

static struct {
    struct sheet sheet;
    uint8_t out[LTA_SHEET_ROOM];
    struct lta_written answer;
} call;

static void call_branches(void)
{
    call.answer = lta_sheet_branches((const uint8_t *)call.sheet.text, call.sheet.length, ZONES_MOST, call.out, sizeof call.out);
}

static void small_stack(void)
{
    for (size_t k = 0; k < LINES_MOST; k++)
        add_line(&call.sheet, ZONES_MOST, 16, "-2.00000");
    about("the largest sheet on a stack of %d bytes", STACK_ENOUGH);
    on_stack(STACK_ENOUGH, call_branches);
    struct file last = numbers(1, (int32_t[]){200000});
    check(is_written(call.answer, 0, 0, LTA_SHEET_ROOM) && memcmp(call.out + LTA_SHEET_ROOM - 4, last.bytes, 4) == 0);
}

int main(int count, char **words)
{
    if (count != 2) {
        fprintf(stderr, "usage: sheet_test SHEET\n");
        return 2;
    }
    sample = words[1];
    sheet_arena = arena(SHEET_MOST);
    out_arena = arena(ROOM);

    group("the struct is laid out as the header says", layout);
    group("the three-zone sheet gives the branches of its case", three_zones);
    group("a newline ends a line, and the last may lack it", lines);
    group("every legal number is read", taken);
    group("what is no number is refused by 51", no_numbers);
    group("further decimals and numbers out of range are refused", measures);
    group("zone counts of 0 and over 16 are refused", zone_counts);
    group("an output that is too short is refused and stays", rooms);
    group("the first cause and its first line are named", causes);
    group("null is taken with length 0", nulls);
    group("the stack that the header names is enough", small_stack);
    return closing();
}
