/* See entries.h. The records' layout is that of tools/records. */
#include "entries.h"

#include "harness.h"

#include <stdio.h>
#include <stdlib.h>
#include <string.h>

/* A file's bytes and their length, or an array's, as two arguments. */
#define LENT(file) (file).bytes, (file).length
#define ROOM(array) (array), COUNT(array)

static void put_written(struct answer *a, struct lta_written w)
{
    a->word[0] = w.number;
    a->word[1] = w.index;
    a->word[2] = w.length;
}

static void put_carried(struct answer *a, struct lta_carried c)
{
    a->word[0] = c.number;
    a->word[1] = c.index;
    a->word[2] = c.intuitive;
    a->word[3] = (uint64_t)c.total;
}

static void judge(const struct input *in, struct answer *a)
{
    a->word[0] = lta_judge(LENT(in->hour), LENT(in->proposal), a->out.byte, LTA_REPORT_ROOM);
}

static void judge_families(const struct input *in, struct answer *a)
{
    a->word[0] = lta_judge_families(LENT(in->hour), LENT(in->proposal), LENT(in->families), a->out.byte, LTA_REPORT_ROOM);
}

static void book_surplus(const struct input *in, struct answer *a)
{
    struct lta_surplus s = lta_book_surplus(in->order, in->orders, in->price, in->prices);
    a->word[0] = s.number;
    a->word[1] = s.index;
    a->word[2] = (uint64_t)s.sum;
}

static void desk_lines(const struct input *in, struct answer *a) { put_written(a, lta_desk_lines(LENT(in->joined), ROOM(a->out.byte))); }

static void sheet_branches(const struct input *in, struct answer *a)
{
    put_written(a, lta_sheet_branches(LENT(in->sheet), in->zones, ROOM(a->out.byte)));
}

static void intuitive(const struct input *in, struct answer *a)
{
    put_carried(a, lta_intuitive(in->net, in->nets, in->price, in->prices, LENT(in->pairs), ROOM(a->out.number)));
}

static void intuitive_small(const struct input *in, struct answer *a)
{
    put_carried(a, lta_intuitive_small(in->net, in->nets, in->price, in->prices, LENT(in->pairs), ROOM(a->out.number)));
}

static void hour_intuitive(const struct input *in, struct answer *a)
{
    put_carried(a, lta_hour_intuitive(LENT(in->hour), LENT(in->proposal), LENT(in->pairs), ROOM(a->out.number)));
}

static void hour_intuitive_small(const struct input *in, struct answer *a)
{
    put_carried(a, lta_hour_intuitive_small(LENT(in->hour), LENT(in->proposal), LENT(in->pairs), ROOM(a->out.number)));
}

static void dump_proposal(const struct input *in, struct answer *a)
{
    put_written(a, lta_dump_proposal(LENT(in->hour), LENT(in->dump), ROOM(a->out.byte)));
}

static void case_columned(const struct input *in, struct answer *a) { put_written(a, lta_case_columned(LENT(in->hour), ROOM(a->out.byte))); }

static void case_restored(const struct input *in, struct answer *a)
{
    put_written(a, lta_case_restored(LENT(in->columned), ROOM(a->out.byte)));
}

static void shortfalls(const struct input *in, struct answer *a)
{
    put_written(a, lta_shortfalls(LENT(in->hour), LENT(in->proposal), ROOM(a->out.number)));
}

static void queue_post(const struct input *in, struct answer *a)
{
    memcpy(a->out.byte, in->queue, sizeof in->queue);
    a->word[0] = lta_queue_post(a->out.byte, in->area, in->hour_of_day);
}

static void queue_serve(const struct input *in, struct answer *a)
{
    memcpy(a->out.byte, in->queue, sizeof in->queue);
    struct lta_served s = lta_queue_serve(a->out.byte);
    a->word[0] = s.number;
    a->word[1] = s.index;
    a->word[2] = s.area;
    a->word[3] = s.hour;
}

static void version(const struct input *in, struct answer *a)
{
    (void)in;
    a->word[0] = lta_version();
}

const struct entry every_entry[ENTRIES] = {
    {"lta_judge", judge, false},
    {"lta_judge_families", judge_families, false},
    {"lta_book_surplus", book_surplus, false},
    {"lta_desk_lines", desk_lines, false},
    {"lta_sheet_branches", sheet_branches, false},
    {"lta_intuitive", intuitive, false},
    {"lta_hour_intuitive", hour_intuitive, false},
    {"lta_intuitive_small", intuitive_small, false},
    {"lta_hour_intuitive_small", hour_intuitive_small, false},
    {"lta_dump_proposal", dump_proposal, false},
    {"lta_case_columned", case_columned, false},
    {"lta_case_restored", case_restored, false},
    {"lta_shortfalls", shortfalls, false},
    {"lta_queue_post", queue_post, false},
    {"lta_queue_serve", queue_serve, false},
    {"lta_version", version, true},
};

static void ask_over_zeros(void (*entry)(const struct input *, struct answer *), const struct input *in, struct answer *a)
{
    memset(a, 0, sizeof *a);
    entry(in, a);
}

void ask(const struct entry *entry, const struct input *in, struct answer *a) { ask_over_zeros(entry->ask, in, a); }

/* THE RECORDS: a letter, two numbers and the lengths of three parts, 32 bits each, and then the parts. */
#define PARTS 3
#define OPENING 21
#define RECORDS_MOST 2000

static struct {
    uint8_t bytes[1 << 20];
    size_t length, count, at[RECORDS_MOST];
} records;

static uint32_t number_at(const uint8_t *bytes, size_t width)
{
    uint32_t number = 0;
    for (size_t k = width; k-- > 0;)
        number = number << 8 | bytes[k];
    return number;
}

static void give_up(const char *name, const char *why)
{
    fprintf(stderr, "%s: %s\n", name, why);
    exit(2);
}

/* Texts and runs of the queue are no inputs here; the shortfalls are asked of the hours. */
size_t read_inputs(const char *name)
{
    FILE *file = fopen(name, "rb");
    if (file == NULL)
        give_up(name, "cannot be opened");
    records.length = fread(records.bytes, 1, sizeof records.bytes, file);
    fclose(file);
    for (size_t at = 0; at < records.length;) {
        size_t end = at + OPENING;
        for (size_t k = 0; k < PARTS && end <= records.length; k++)
            end += number_at(records.bytes + at + 9 + 4 * k, 4);
        if (end > records.length || records.count == RECORDS_MOST)
            give_up(name, "too long, or its last record is cut short");
        if (strchr("hfdcmi", records.bytes[at]) != NULL)
            records.at[records.count++] = at;
        at = end;
    }
    return records.count;
}

static struct file file_of(const uint8_t *bytes, size_t length)
{
    struct file f = {.length = length};
    if (length > sizeof f.bytes)
        give_up("a record", "has a part that is longer than any file");
    memcpy(f.bytes, bytes, length);
    return f;
}

/* The numbers of an exchange have their sign in the highest bit. */
static size_t signed_numbers(const struct file *f, int64_t *numbers, size_t room)
{
    size_t count = f->length / 8;
    if (count > room)
        give_up("a record", "has more zones than an input has room for");
    for (size_t k = 0; k < count; k++) {
        const uint8_t *bytes = f->bytes + 8 * k;
        uint64_t high = number_at(bytes + 4, 4), size = (high & 0x7fffffff) << 32 | number_at(bytes, 4);
        numbers[k] = high >> 31 != 0 ? -(int64_t)size : (int64_t)size;
    }
    return count;
}

/* Where a case's links and orders begin and where it ends, from its header. */
struct shape {
    size_t links, link_size, link_count, orders, order_count, end;
};

static struct shape shape_of(const struct file *f)
{
    struct shape s = {0};
    if (f->length >= 14) {
        s.link_size = f->bytes[3] == 2 ? 10 : 6;
        s.links = 14 + (size_t)4 * f->bytes[6] * (f->bytes[5] + (size_t)1);
        s.link_count = f->bytes[7];
        s.orders = s.links + s.link_count * s.link_size;
        s.order_count = number_at(f->bytes + 8, 2);
        s.end = s.orders + 10 * s.order_count;
    }
    return s;
}

/* The case and the proposal of a joined file: cut as document 01 says, uncut where it is too short for that. */
static void cut(struct input *in)
{
    size_t end = shape_of(&in->joined).end;
    if (end == 0 || end > in->joined.length)
        end = in->joined.length;
    in->hour = file_of(in->joined.bytes, end);
    in->proposal = file_of(in->joined.bytes + end, in->joined.length - end);
}

/* What a host makes of a case and its proposal: columns, the links as pairs, the orders as a lent book, zone
 * prices. */
static void add_what_follows(struct input *in)
{
    struct answer a;
    struct shape s = shape_of(&in->hour);
    if (s.end == 0 || s.end != in->hour.length || s.order_count > COUNT(in->order))
        return;
    ask_over_zeros(case_columned, in, &a);
    in->columned = file_of(a.out.byte, a.word[2]);
    for (size_t l = 0; l < s.link_count; l++)
        for (size_t k = 0; k < 2; k++)
            in->pairs.bytes[in->pairs.length++] = in->hour.bytes[s.links + l * s.link_size + k];
    for (; in->orders < s.order_count; in->orders++) {
        const uint8_t *row = in->hour.bytes + s.orders + 10 * in->orders;
        in->order[in->orders] = (struct lta_order){row[0], row[1], number_at(row + 2, 4), (int32_t)number_at(row + 6, 4)};
    }
    ask_over_zeros(judge, in, &a);
    if (LTA_NUMBER(a.word[0]) == LTA_ACCEPTED || LTA_NUMBER(a.word[0]) == LTA_GAP_ABOVE_TOLERANCE)
        for (; in->prices < lta_report_zones(a.out.byte); in->prices++)
            in->price[in->prices] = lta_report_price(a.out.byte, in->prices);
}

/* Any bytes are a queue: these differ from input to input, and half of the cells have an hour waiting. */
static void fill_queue(struct input *in, size_t number)
{
    for (size_t k = 0; k < sizeof in->queue; k++)
        in->queue[k] = (uint8_t)((number * 31 + k * 7) % 51);
    in->area = (uint32_t)(number % 5);
    in->hour_of_day = (uint32_t)(number % 26);
}

void make_input(size_t number, struct input *in)
{
    const uint8_t *record = records.bytes + records.at[number], *next = record + OPENING;
    struct file part[PARTS];
    for (size_t k = 0; k < PARTS; k++) {
        size_t length = number_at(record + 9 + 4 * k, 4);
        part[k] = file_of(next, length);
        next += length;
    }
    memset(in, 0, sizeof *in);
    fill_queue(in, number);
    in->zones = number_at(record + 1, 4);
    switch (record[0]) {
    case 'h':
        in->joined = part[0];
        cut(in);
        break;
    case 'f':
        in->hour = part[0];
        in->proposal = part[1];
        in->families = part[2];
        break;
    case 'd':
        in->hour = part[0];
        in->dump = part[1];
        break;
    case 'c':
        in->columned = part[0];
        break;
    case 'm':
        in->sheet = part[0];
        break;
    default:
        in->nets = signed_numbers(&part[0], ROOM(in->net));
        in->prices = signed_numbers(&part[1], ROOM(in->price));
        in->pairs = part[2];
    }
    if (in->columned.length == 0)
        add_what_follows(in);
}
