/* lta_book_surplus through the library: P1's book, each refusal at its limits, several causes together, the widest
 * books, null pointers, and rows that the answer does not need. Every call is made with rows and prices at both
 * places between unreadable pages, and unwritable. */
#include "harness.h"
#include "hours.h"
#include "lta_judgement.h"

#include <inttypes.h>
#include <stddef.h>
#include <stdio.h>
#include <string.h>

#define ROWS_MOST 512
#define PRICES_MOST 16

/* A book with room for one row and one price too many. */
struct book {
    size_t rows, prices;
    struct lta_order row[ROWS_MOST + 1];
    int64_t price[PRICES_MOST + 1];
};

static struct arena row_arena, price_arena;

static bool is(struct lta_surplus a, uint32_t number, uint32_t index, int64_t sum)
{
    bool ok = a.number == number && a.index == index && a.sum == sum;
    if (!ok)
        wrong("number %" PRIu32 " index %" PRIu32 " sum %" PRId64 ", and should be %" PRIu32 ", %" PRIu32 " and %" PRId64,
              a.number, a.index, a.sum, number, index, sum);
    return ok;
}

/* The answer, with rows and prices at each of their places. */
static void answered(const struct book *b, uint32_t number, uint32_t index, int64_t sum)
{
    bool ok = true;
    for (unsigned way = 0; way < WAYS(2) && ok; way++) {
        const struct lta_order *rows = lend(row_arena, place_of(way, 0), b->row, b->rows * sizeof *b->row);
        const int64_t *prices = lend(price_arena, place_of(way, 1), b->price, b->prices * sizeof *b->price);
        ok = is(lta_book_surplus(rows, b->rows, prices, b->prices), number, index, sum);
    }
    check(ok);
}

static void refused(const struct book *b, uint32_t number, uint32_t index) { answered(b, number, index, 0); }

/* P1's orders at P1's zone prices. */
static struct book three_zone_book(void)
{
    struct hour h = three_zone_hour();
    struct totals t = three_zone_totals();
    struct book b = {.rows = h.orders, .prices = h.zones};
    for (size_t i = 0; i < b.rows; i++)
        b.row[i] = (struct lta_order){h.order[i].zone, h.order[i].side, h.order[i].quantity, h.order[i].price};
    memcpy(b.price, t.price, h.zones * sizeof *b.price);
    return b;
}

/* Equal rows in one zone. */
static struct book rows_alike(size_t rows, struct lta_order row, int64_t price)
{
    struct book b = {.rows = rows, .prices = 1, .price = {price}};
    for (size_t i = 0; i < rows; i++)
        b.row[i] = row;
    return b;
}

static void layout(void)
{
    about("struct lta_order has 12 bytes");
    check(sizeof(struct lta_order) == 12 && offsetof(struct lta_order, zone) == 0 && offsetof(struct lta_order, side) == 1
          && offsetof(struct lta_order, quantity) == 4 && offsetof(struct lta_order, price) == 8);
    about("struct lta_surplus has 16 bytes");
    check(sizeof(struct lta_surplus) == 16 && offsetof(struct lta_surplus, number) == 0 && offsetof(struct lta_surplus, index) == 4
          && offsetof(struct lta_surplus, sum) == 8);
}

static void sums(void)
{
    /* A's first sell gains 1,000 cents on 4,000 tenths, B's first buy 625 cents on 1,000 */
    struct book b = three_zone_book();
    about("P1's book");
    answered(&b, 0, 0, 462500000000);

    about("P1's book with what lies between the fields changed");
    memset(b.row, 0xa5, sizeof b.row);
    struct book fields = three_zone_book();
    for (size_t i = 0; i < b.rows; i++) {
        b.row[i].zone = fields.row[i].zone;
        b.row[i].side = fields.row[i].side;
        b.row[i].quantity = fields.row[i].quantity;
        b.row[i].price = fields.row[i].price;
    }
    answered(&b, 0, 0, 462500000000);

    b.rows = 0;
    about("no rows");
    answered(&b, 0, 0, 0);

    b = rows_alike(1, (struct lta_order){0, LTA_BUYS, 1, 0}, -1);
    about("a buy of a tenth, a grain above the price");
    answered(&b, 0, 0, 1);
    b.price[0] = 1;
    about("a buy of a tenth, a grain below the price");
    answered(&b, 0, 0, 0);
    b.row[0].side = LTA_SELLS;
    about("a sell of a tenth, a grain below the price");
    answered(&b, 0, 0, 1);
    b.price[0] = -1;
    about("a sell of a tenth, a grain above the price");
    answered(&b, 0, 0, 0);
    b.price[0] = 0;
    about("a sell at its price");
    answered(&b, 0, 0, 0);

    b = (struct book){.rows = 1, .prices = 16, .row = {{15, LTA_BUYS, 3, 2}}, .price = {[15] = -7}};
    about("a row in the last of 16 zones");
    answered(&b, 0, 0, 3 * (cents(2) + 7));
}

static void widest(void)
{
    struct book b = rows_alike(ROWS_MOST, (struct lta_order){0, LTA_BUYS, 100000, 400000}, cents(-50000));
    about("512 buys, each 450,000 cents above the price");
    answered(&b, 0, 0, 2304000000000000000);
    b.price[0] = cents(400000);
    about("512 buys at their price");
    answered(&b, 0, 0, 0);
    b = rows_alike(ROWS_MOST, (struct lta_order){0, LTA_SELLS, 100000, -50000}, cents(400000));
    about("512 sells, each 450,000 cents below the price");
    answered(&b, 0, 0, 2304000000000000000);
    b.price[0] = cents(-50000);
    about("512 sells at their price");
    answered(&b, 0, 0, 0);
    b.row[511].price = 400001;
    about("the last of 512 rows out of range");
    refused(&b, LTA_CASE_ORDER, 511);
}

static void refusals(void)
{
    struct book b = three_zone_book();
    b.prices = 0;
    about("no prices");
    refused(&b, LTA_CASE_HEADER, 5);
    b.prices = 17;
    about("17 prices");
    refused(&b, LTA_CASE_HEADER, 5);
    b.prices = 16;
    about("16 prices");
    answered(&b, 0, 0, 462500000000);

    b = rows_alike(ROWS_MOST + 1, (struct lta_order){0, LTA_BUYS, 1, 0}, 0);
    about("513 rows");
    refused(&b, LTA_CASE_HEADER, 8);
    b.rows = ROWS_MOST;
    about("512 rows");
    answered(&b, 0, 0, 0);

    static const struct {
        const char *name;
        size_t row;
        struct lta_order order;
        bool taken;
    } rows[] = {
        {"a zone without a price", 4, {3, LTA_BUYS, 1, 0}, false},
        {"a zone of all bits", 4, {255, LTA_BUYS, 1, 0}, false},
        {"side 2", 0, {0, 2, 1, 0}, false},
        {"a side of all bits", 0, {0, 255, 1, 0}, false},
        {"quantity 0", 1, {0, LTA_BUYS, 0, 0}, false},
        {"quantity 100,000", 1, {0, LTA_BUYS, 100000, 0}, true},
        {"quantity 100,001", 1, {0, LTA_BUYS, 100001, 0}, false},
        {"quantity of all bits", 1, {0, LTA_BUYS, UINT32_MAX, 0}, false},
        {"price 400,000", 2, {0, LTA_SELLS, 1, 400000}, true},
        {"price 400,001", 2, {0, LTA_SELLS, 1, 400001}, false},
        {"the greatest price", 2, {0, LTA_SELLS, 1, INT32_MAX}, false},
        {"price -50,000", 3, {0, LTA_BUYS, 1, -50000}, true},
        {"price -50,001", 3, {0, LTA_BUYS, 1, -50001}, false},
        {"the least price", 3, {0, LTA_BUYS, 1, INT32_MIN}, false},
    };
    for (size_t k = 0; k < COUNT(rows); k++) {
        /* rows without a surplus at a price of 2,000 cents */
        b = rows_alike(5, (struct lta_order){0, LTA_BUYS, 1, 0}, cents(2000));
        b.prices = 3;
        b.row[rows[k].row] = rows[k].order;
        about("%s", rows[k].name);
        answered(&b, rows[k].taken ? 0 : LTA_CASE_ORDER, rows[k].taken ? 0 : (uint32_t)rows[k].row, 0);
    }

    for (const struct price_limit *limit = price_limits; limit < price_limits + PRICE_LIMITS; limit++) {
        b = three_zone_book();
        b.rows = 0;
        b.price[1] = limit->price;
        about("%s, with no row", limit->name);
        answered(&b, limit->taken ? 0 : LTA_ZONE_PRICE, limit->taken ? 0 : 1, 0);
        b = rows_alike(1, (struct lta_order){0, LTA_SELLS, 1, 400000}, limit->price);
        about("%s, at a row's zone", limit->name);
        answered(&b, limit->taken ? 0 : LTA_ZONE_PRICE, 0, 0);
    }
}

/* Two causes together: the one asked first is named, and for one number the smallest index. */
static void causes(void)
{
    struct book b = rows_alike(ROWS_MOST + 1, (struct lta_order){0, 2, 1, 0}, INT64_MAX);
    b.prices = 17;
    about("17 prices, 513 rows, all of them out of range");
    refused(&b, LTA_CASE_HEADER, 5);
    b.prices = 0;
    about("no prices, 513 rows, all of them out of range");
    refused(&b, LTA_CASE_HEADER, 5);
    b.prices = 1;
    about("513 rows and a price, all of them out of range");
    refused(&b, LTA_CASE_HEADER, 8);
    b.rows = ROWS_MOST;
    about("512 rows and a price, all of them out of range");
    refused(&b, LTA_CASE_ORDER, 0);

    b = three_zone_book();
    b.row[4].quantity = 0;
    b.row[3].side = 2;
    about("two rows out of range");
    refused(&b, LTA_CASE_ORDER, 3);
    b.price[0] = INT64_MAX;
    about("two rows and the first price out of range");
    refused(&b, LTA_CASE_ORDER, 3);

    b = three_zone_book();
    b.price[2] = INT64_MIN;
    b.price[1] = INT64_MAX;
    about("two prices out of range");
    refused(&b, LTA_ZONE_PRICE, 1);
    b.prices = 2;
    about("a row whose zone has no price, and a price out of range");
    refused(&b, LTA_CASE_ORDER, 4);
}

/* A null pointer where the count is 0. */
static void nulls(void)
{
    struct book b = three_zone_book();
    for (unsigned k = 0; k < PLACES; k++) {
        const struct lta_order *rows = lend(row_arena, k, b.row, b.rows * sizeof *b.row);
        const int64_t *prices = lend(price_arena, k, b.price, b.prices * sizeof *b.price);
        about("null for the rows");
        check(is(lta_book_surplus(NULL, 0, prices, b.prices), 0, 0, 0));
        about("null for the prices");
        check(is(lta_book_surplus(rows, b.rows, NULL, 0), LTA_CASE_HEADER, 5, 0));
        about("null for both");
        check(is(lta_book_surplus(NULL, 0, NULL, 0), LTA_CASE_HEADER, 5, 0));
    }
}

/* A refusal by a count, with every row in an unreadable page. */
static void refused_unread(size_t rows, size_t prices, uint32_t index)
{
    struct book b = three_zone_book();
    bool ok = true;
    for (unsigned way = 0; way < WAYS(2) && ok; way++) {
        const struct lta_order *nowhere = lend(row_arena, place_of(way, 0), b.row, 0);
        const int64_t *lent = lend(price_arena, place_of(way, 1), b.price, prices * sizeof *b.price);
        ok = unreadable((const uint8_t *)nowhere) && is(lta_book_surplus(nowhere, rows, lent, prices), LTA_CASE_HEADER, index, 0);
    }
    check(ok);
}

/* Each of 512 rows refused in turn, with an unreadable page behind it. */
static void row_refused_unread(const char *name, int64_t price)
{
    struct book b = rows_alike(ROWS_MOST, (struct lta_order){0, LTA_BUYS, 1, 0}, price);
    bool ok = unreadable(row_arena.start + row_arena.size);
    for (uint32_t row = 0; row < ROWS_MOST && ok; row++) {
        about("row %" PRIu32 " out of range, none after it readable, %s", row, name);
        b.row[row].quantity = 0;
        const struct lta_order *rows = lend(row_arena, AT_END, b.row, (row + 1) * sizeof *b.row);
        ok = is(lta_book_surplus(rows, ROWS_MOST, b.price, b.prices), LTA_CASE_ORDER, row, 0);
        b.row[row].quantity = 1; /* cppcheck-suppress unreadVariable ; the next turn lends this row too */
    }
    check(ok);
}

/* A refused book is read up to the cause: no row where a count is refused, and none past the first row that is. */
static void unread(void)
{
    about("513 rows, none readable");
    refused_unread(ROWS_MOST + 1, 3, 8);
    about("50,000,000 rows, none readable");
    refused_unread(50000000, 3, 8);
    about("no prices, and no row readable");
    refused_unread(ROWS_MOST, 0, 5);
    about("17 prices, and no row readable");
    refused_unread(ROWS_MOST, PRICES_MOST + 1, 5);
    row_refused_unread("price in range", 0);
    row_refused_unread("price out of range", INT64_MAX);
}

static struct {
    struct book book;
    struct lta_surplus answer;
} call;

static void call_surplus(void) { call.answer = lta_book_surplus(call.book.row, call.book.rows, call.book.price, call.book.prices); }

static void small_stack(void)
{
    call.book = rows_alike(ROWS_MOST, (struct lta_order){0, LTA_BUYS, 100000, 400000}, cents(-50000));
    about("512 rows on a stack of %d bytes", STACK_ENOUGH);
    on_stack(STACK_ENOUGH, call_surplus);
    check(is(call.answer, 0, 0, 2304000000000000000));
}

int main(void)
{
    row_arena = arena(sizeof((struct book *)0)->row);
    price_arena = arena(sizeof((struct book *)0)->price);

    group("structs are laid out as the header says", layout);
    group("the sum is that of rule 8", sums);
    group("the widest books do not overflow", widest);
    group("each wrong count, row and price is refused", refusals);
    group("the first cause and its first index are named", causes);
    group("null is taken with count 0", nulls);
    group("rows that no answer needs are not read", unread);
    group("the stack that the header names is enough", small_stack);
    return closing();
}
