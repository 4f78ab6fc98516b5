/* The judgement of one day-ahead hour, for C and C++. `pkg-config lta_judgement` has the flags to compile and link.
 *
 * You need C99 or C++98, or a later version of either, on x86-64 Linux. The library is built for no other platform.
 *
 * An hour is a case (zones, branches, links and orders) and a proposal for its clearing (volumes, flows and prices).
 *
 *   entry                       what it does
 *   lta_judge                   accepts the proposal, or gives the first cause for which it is refused
 *   lta_judge_families          the same with a family list: an order may depend on another, its parent
 *   lta_book_surplus            values an order book in memory
 *   lta_desk_lines              gives a judgement as text
 *   lta_sheet_branches          turns a published margin sheet into the branches of a case
 *   lta_hour_intuitive          says whether all exchanges of an accepted hour can go from a lower or equal price to
 *                               a higher one
 *   lta_intuitive               says the same for net positions and zone prices
 *   lta_hour_intuitive_small,   the same two with less scratch
 *   lta_intuitive_small
 *   lta_dump_proposal           turns a solver's dump into a proposal for a case
 *   lta_case_columned           rearranges a case for the archive
 *   lta_case_restored           gives it back
 *   lta_shortfalls              says by how much each order, branch and link of an accepted hour may be out
 *   lta_queue_post,             keep the queue of a desk that serves four areas
 *   lta_queue_serve
 *   lta_version                 says which library answers
 *
 * Where a promise comes from. A word in brackets, such as [outcome], is a clause of the entry's contract. The library
 * is built only if every function in it is proved to meet its contract; lta_book_surplus and lta_version have one
 * clause each, without a name. The clauses cite definitions, which say what a number, a rule or a field is. "Proved
 * of the definitions" marks a promise that is in no clause and follows from the definitions. The document GUARANTEE
 * names the theorems and all that they assume.
 *
 * What the caller must ensure in every call:
 *   - A pointer and the length or count after it are one array: all of it may be read, and all of `report`, `out` or
 *     `scratch` may be written. A null pointer is allowed where the length or count is 0. A queue has no length: it
 *     is LTA_QUEUE_SIZE bytes that may be read and written, never null.
 *   - `report`, `out` and `scratch` overlap no other argument, and nothing else writes to an argument during the
 *     call.
 *   - `orders`, `zone_prices`, `net_exports`, `scratch`, and the `out` of lta_shortfalls are aligned as their types
 *     demand.
 *   - There is enough stack. The proofs assume a machine that cannot run out of it; by test, 16 KiB are enough.
 *   - During lta_dump_proposal the floating-point environment is the one with which a C program starts: rounding to
 *     the nearest, and subnormals neither read nor written as zero. A program linked with -ffast-math starts with
 *     another. No other entry uses it.
 *   - During lta_dump_proposal floating-point traps are masked, as they are when a C program starts. The call may
 *     raise the flags inexact and overflow, and the processor's flag for a subnormal operand, which C has no name
 *     for; it raises no other flag and clears none. That is tested, not proved.
 *
 * What then holds of every call, for any bytes. No clause says this; it comes from the language. There a contract is
 * proved only of code that ends, and a function reaches nothing that it is not given.
 *   - It returns.
 *   - It reads nothing of the caller's except its arguments. The answer and what is written depend on nothing else.
 *   - It writes only what is said below of `report`, `out`, `scratch` and `queue`. The case, the proposal, the family
 *     list, the input, the orders, the prices, the sheet, the net positions, the pairs, the dump and the columned
 *     file are unchanged, and no file is read or written.
 *   - It is reentrant: it keeps nothing between calls except in the caller's queue. So several threads may call any
 *     entry at the same time, but one queue only by one thread at a time.
 *
 * For other languages, share/mbirukaze/numbers.tsv has every number with its name, what its index counts and its
 * words, and share/mbirukaze/report.tsv has the fields of a report. The first line of each names the columns; a tab
 * stands between cells. They are tested, not proved.
 *
 * Measures:
 *   tenth      0.1 MW, for one hour 0.1 MWh     margins, capacities, contracted volumes, quantities, volumes, flows,
 *                                               net positions, what is carried
 *   cent       0.01 euro per MWh                prices of orders, system price, shadow prices
 *   grain      1 / 100,000 cent per MWh         zone prices
 *   microcent  1 / 1,000,000 cent               money. One tenth at one grain is one microcent.
 *   In PTDFs and in the LTA share 100,000 means 1. The tolerance is in cents of money. A margin sheet is text, with MW
 *   and PTDFs as published. A dump has shares of 1, MW and euros per MWh, as the solver has them.
 */
#ifndef LTA_JUDGEMENT_H
#define LTA_JUDGEMENT_H

#include <stddef.h>
#include <stdint.h>

#ifdef __clang__
#pragma clang diagnostic push
#pragma clang diagnostic ignored "-Wgcc-compat" /* GCC has not all of its attributes */
#endif

#ifdef __cplusplus
#define LTA_CAST(type, value) (static_cast<type>(value))
extern "C" {
#else
#define LTA_CAST(type, value) ((type)(value))
#endif

/* CHECKED BY THE COMPILER. GCC and Clang warn if
 *   - an answer is not used;
 *   - an array is smaller than the length passed with it (GCC from 10 on);
 *   - an array is null and its length is not 0 (GCC from 10 on, with -Wall);
 *   - a queue or a report to be read is null (GCC with -Wall), or in C a queue is too small.
 * Define LTA_NO_ATTRIBUTES before the include to leave the attributes out. */
#if defined(__GNUC__) && !defined(LTA_NO_ATTRIBUTES)
#define LTA_USE_ANSWER __attribute__((__warn_unused_result__))
#define LTA_NOT_NULL(at) __attribute__((__nonnull__(at)))
#else
#define LTA_USE_ANSWER
#define LTA_NOT_NULL(at)
#endif

/* Parameter `at`, counted from 1, is an array, and the next parameter is its number of elements. */
#if defined(LTA_NO_ATTRIBUTES)
#define LTA_LENT(mode, at, array, count)
#elif defined(__clang__)
#define LTA_LENT(mode, at, array, count) \
    __attribute__((__diagnose_if__(__builtin_object_size(array, 0) / sizeof *(array) < (count), \
                                   #array " is smaller than " #count " says", "warning")))
#elif defined(__GNUC__) && __GNUC__ >= 10
#define LTA_LENT(mode, at, array, count) __attribute__((__access__(mode, at, at + 1)))
#else
#define LTA_LENT(mode, at, array, count)
#endif
#define LTA_READS(at, array, count) LTA_LENT(__read_only__, at, array, count)
#define LTA_WRITES(at, array, count) LTA_LENT(__write_only__, at, array, count)

/* An array parameter with at least `count` elements. C++ cannot say this. */
#ifdef __cplusplus
#define LTA_AT_LEAST(count) count
#else
#define LTA_AT_LEAST(count) static count
#endif

/* The version of this header and of what it declares. The first number rises when a correct program may stop being
 * correct, the second when something is added. Compare LTA_VERSION_NUMBER: 1.2.3 is 10203. */
#define LTA_VERSION "4.3.0"
#define LTA_VERSION_NUMBER 40300

/* The version of the library that answers: LTA_VERSION_NUMBER of its own header. Since 4.3.0. */
LTA_USE_ANSWER
uint32_t lta_version(void);

#define LTA_GRAINS_PER_CENT 100000
#define LTA_GRAINS_PER_EURO 10000000
#define LTA_MICROCENTS_PER_CENT 1000000
#define LTA_MICROCENTS_PER_EURO 100000000

/* THE VERDICT. Number and index of what lta_judge and lta_judge_families return. [number] [index] */
#define LTA_NUMBER(verdict) LTA_CAST(uint32_t, (verdict) % 256)
#define LTA_INDEX(verdict) LTA_CAST(uint32_t, (verdict) / 256)

/* The numbers. LTA_NO_ROOM is asked first. Among the others the smallest number with a cause wins, and then the
 * smallest index. Two numbers are out of turn: 28 is asked between 21 and 22, and 27 between 22 and 23, so the order
 * is 21, 28, 22, 27, 23. A number is returned for its own cause only. 16, 17, 18 and 28 are about family lists: only
 * lta_judge_families asks them.
 *
 * The index is 0 where none is named, else a place counted from 0. For 4, 6, 7, 8 and 14 it is the offset in bytes of
 * the refused field, in the case or for 14 in the proposal. That is the first field at fault in file order: row by
 * row, and within a row in the order named here. For 17, 18, 21, 28 and 23 to 25 it is the row or the zone. */
enum lta_number {
    LTA_ACCEPTED = 0,               /* none of these causes */
    LTA_CASE_SHORT = 1,             /* case shorter than 14 bytes */
    LTA_CASE_MARK = 2,              /* case does not begin with LTC */
    LTA_CASE_VERSION = 3,           /* case version is neither 1 nor 2 */
    LTA_CASE_HEADER = 4,            /* header field outside its range; index: its offset, 5, 6, 7, 8 or 10 */
    LTA_CASE_LENGTH = 5,            /* case length is not what the header demands */
    LTA_CASE_BRANCH = 6,            /* branch field out of range; index: its offset; margin, then each PTDF */
    LTA_CASE_LINK = 7,              /* link field at fault; index: its offset; from zone (unknown, or the pair repeats
                                     * an earlier link's), to zone (unknown, or equal to the from zone), capacity (out
                                     * of range), in version 2 contracted (above the capacity) */
    LTA_CASE_ORDER = 8,             /* order field out of range; index: its offset; zone, side, quantity, price */
    LTA_PROPOSAL_SHORT = 9,         /* proposal shorter than 13 bytes */
    LTA_PROPOSAL_MARK = 10,         /* proposal does not begin with LTP */
    LTA_PROPOSAL_VERSION = 11,      /* proposal version is not 1 */
    LTA_PROPOSAL_LENGTH = 12,       /* proposal length is wrong for this case */
    LTA_SHARE = 13,                 /* LTA share above 100,000 */
    LTA_SHADOW_PRICE = 14,          /* shadow price above 1,000,000; index: its offset in the proposal */
    LTA_WIDE_TOLERANCE = 15,        /* tolerance above LTA_WIDEST_TOLERANCE, 10,000 cents */
    LTA_FAMILY_LIST = 16,           /* family list: its mark is not LTF, its version not 1, or its length not
                                     * LTA_FAMILIES_SIZE(orders); an empty list too */
    LTA_FAMILY_PARENT = 17,         /* a parent that does not exist: not below the case's orders, and not
                                     * LTA_NO_PARENT; index: the order */
    LTA_FAMILY_CIRCLE = 18,         /* an order leads back to itself: one or more steps up end where they began; index:
                                     * the order. An order that leads into a circle without being on it is not named */
    LTA_VOLUME = 21,                /* volume above its order's quantity; index: the order */
    LTA_FAMILY_FRACTION = 28,       /* a child's fraction exceeds its parent's: volume * parent's quantity > parent's
                                     * volume * quantity; index: the child; asked here, between 21 and 22 */
    LTA_BALANCE = 22,               /* rule 3 fails: the net positions do not sum to zero */
    LTA_SHARE_WITHOUT_LINK = 27,    /* the case has no link, and the LTA share is above 0; asked here, between 22 and
                                     * 23 */
    LTA_LINK_RULE = 23,             /* rule 4 fails: flow * 100,000 > share * capacity; index: the link */
    LTA_BRANCH_RULE = 24,           /* rule 5 fails: load > (100,000 - share) * margin; index: the branch */
    LTA_ZONE_PRICE = 25,            /* zone price under -50,000 or over 400,000 cents; index: the zone */
    LTA_GAP_ABOVE_TOLERANCE = 26,   /* gap above the tolerance */
    LTA_NO_ROOM = 30                /* report buffer under LTA_REPORT_ROOM bytes */
};

#define LTA_WIDEST_TOLERANCE 10000  /* cents; every entry reads a case with a wider tolerance, and none judges it */

/* THE REPORT, written for LTA_ACCEPTED and LTA_GAP_ABOVE_TOLERANCE: the offset of each field. Numbers are
 * little-endian. */
#define LTA_REPORT_MARK 0           /* 3 bytes, LTR */
#define LTA_REPORT_VERSION 3        /* 16 bits, 1 */
#define LTA_REPORT_NUMBER 5         /* 8 bits, the verdict's number: 0 or 26 */
#define LTA_REPORT_ZONES 6          /* 8 bits, the case's zones; the byte after it is zero */
#define LTA_REPORT_WELFARE 8        /* signed 64 bits, microcents, like the next four */
#define LTA_REPORT_BOUND 16         /* may be negative where the case has no link */
#define LTA_REPORT_GAP 24           /* bound - welfare */
#define LTA_REPORT_RENT 32
#define LTA_REPORT_OWED 40
#define LTA_REPORT_PRICE(zone) (48 + 8 * (zone)) /* signed 64 bits, grains */

#define LTA_REPORT_SIZE(zones) (48 + 8 * (zones)) /* bytes of a report */
#define LTA_REPORT_ROOM 176         /* bytes that a report buffer must have for any number of zones: a report of 16 */

/* Readers of a report that lta_judge or lta_judge_families wrote. They are C in this header and no part of the
 * library: tested, not proved. */

/* The signed number of 64 bits, little-endian, at an offset of the report. */
LTA_NOT_NULL(1) static inline int64_t lta_report_amount(const uint8_t *report, size_t offset)
{
    uint64_t bits = 0;
    size_t k;
    for (k = 8; k-- > 0;)
        bits = bits << 8 | report[offset + k];
    return bits <= LTA_CAST(uint64_t, INT64_MAX) ? LTA_CAST(int64_t, bits) : -LTA_CAST(int64_t, UINT64_MAX - bits) - 1;
}

LTA_NOT_NULL(1) static inline uint32_t lta_report_number(const uint8_t *report) { return report[LTA_REPORT_NUMBER]; }
LTA_NOT_NULL(1) static inline uint32_t lta_report_zones(const uint8_t *report) { return report[LTA_REPORT_ZONES]; }

/* microcents */
LTA_NOT_NULL(1) static inline int64_t lta_report_welfare(const uint8_t *report) { return lta_report_amount(report, LTA_REPORT_WELFARE); }
LTA_NOT_NULL(1) static inline int64_t lta_report_bound(const uint8_t *report) { return lta_report_amount(report, LTA_REPORT_BOUND); }
LTA_NOT_NULL(1) static inline int64_t lta_report_gap(const uint8_t *report) { return lta_report_amount(report, LTA_REPORT_GAP); }
LTA_NOT_NULL(1) static inline int64_t lta_report_rent(const uint8_t *report) { return lta_report_amount(report, LTA_REPORT_RENT); }
LTA_NOT_NULL(1) static inline int64_t lta_report_owed(const uint8_t *report) { return lta_report_amount(report, LTA_REPORT_OWED); }

/* grains; the zone is below lta_report_zones */
LTA_NOT_NULL(1) static inline int64_t lta_report_price(const uint8_t *report, size_t zone)
{
    return lta_report_amount(report, LTA_REPORT_PRICE(zone));
}

/* Judges a proposal for a case, and returns number + 256 * index. [outcome]
 *
 *   case_bytes, case_len       a case, as laid out below
 *   proposal, proposal_len     a proposal for it, as laid out below
 *   report, report_len         room for the report, at least LTA_REPORT_ROOM bytes
 *
 * The report buffer afterwards [report]: if the number is 0 or 26, its first LTA_REPORT_SIZE(zones) bytes are the
 * report, and all bytes past them are unchanged. For any other number every byte is unchanged. [bytes] gives each
 * byte of the report in plain numbers.
 *
 * For an hour that is accepted or refused by 26 [totals]: each total and each zone price in the report is the integer
 * that its rule below gives.
 *
 * For an accepted hour, that is if lta_judge returns 0, in the numbers of the report:
 *   [allowed]   The proposal is a clearing of the case.
 *   [accuracy]  No clearing of the case has a welfare above welfare + gap. [best] At gap 0 none has more than the
 *               proposal. WITHOUT LINKS only the flow-based clearings count, those of LTA share 0.
 *   [gap]       The gap is from 0 to 1,000,000 * tolerance, and the tolerance is at most LTA_WIDEST_TOLERANCE cents.
 *   [coverage]  IF THE CASE HAS A LINK the rent is at least owed - gap; owed is by contracted volumes.
 *               [covered_in_full] At gap 0 it then covers all that is owed. Without links nothing is promised of the
 *               rent: it may be below owed, which is 0.
 *   [annex]     In the terms of Annex 14.29: the proposal solves (60) to (72) with welfare as its objective (59), and
 *               no solution has an objective above welfare + gap. The zone prices, with the proposal's system and
 *               shadow prices, meet (73) to (76), (78) and (79), AT GAP 0 also (77). The rent is the left side of
 *               (81). IF THE CASE HAS A LINK it is at least the right side, which is by the offered capacities, less
 *               the gap. Owed, by contracted volumes, is at most the right side, and equal to it where all capacity
 *               is contracted. At these prices no exchange that the network allows earns more than rent + gap (82).
 *               Without links it is the formulation without its LTA part: (65) with the second weight 0.
 * A clearing is any choice of volumes (each from zero to its order's quantity), flows (none negative) and LTA share
 * (from 0 to 100,000, and 0 if the case has no link) that meets rules 3, 4 and 5. Fractions of any denominator are
 * allowed.
 *
 * The rules, with import positive:
 *    1  net position of a zone = accepted buys - accepted sells
 *    2  LTA part of a zone = flows in - flows out over its links; flow-based part = net position - LTA part
 *    3  balance: the net positions sum to zero
 *    4  each link: flow * 100,000 <= share * capacity
 *    5  each branch: load = sum over zones of PTDF * flow-based part <= (100,000 - share) * margin
 *    6  zone price = 100,000 * system price + sum over branches of PTDF * shadow price
 *    7  welfare = 100,000 * sum of volume * order price, buys counted positive and sells negative
 *    8  order surplus = quantity * (order price - zone price) for a buy, quantity * (zone price - order price) for a
 *       sell, with both prices in grains, and never below zero
 *    9  branch total = 100,000 * sum of margin * shadow price;
 *       link total = sum over links of capacity * (price at `to` - price at `from`), where positive, else zero;
 *       owed = the same sum with the contracted volume instead of the capacity
 *   10  bound = all order surpluses + the larger of branch total and link total; if the case has no link, + the
 *       branch total alone, even a negative one
 *   11  gap = bound - welfare; rent = sum over zones of net position * zone price
 *
 * The case, little-endian, each field with its least and greatest value:
 *   header, 14 bytes   mark LTC; version, 16 bits, 1 or 2; zones, 8 bits, 1 to 16; branches, 8 bits, 0 to 64; links,
 *                      8 bits, 0 to 64; orders, 16 bits, 0 to 512; tolerance in cents, 32 bits, 0 to 1,000,000,000,
 *                      above LTA_WIDEST_TOLERANCE refused by 15 once the proposal is read
 *   each branch        margin, signed 32 bits, -500,000 to 500,000; a PTDF per zone, signed 32 bits each, -200,000 to
 *                      200,000
 *   each link          from zone, to zone, 8 bits each, not equal, each ordered pair once; capacity, 32 bits, 0 to
 *                      100,000; then, in version 2 only, contracted, 32 bits, 0 to the capacity. So a link has 10
 *                      bytes in version 2 and 6 in version 1. Version 1 is read with contracted equal to capacity.
 *   each order         zone, 8 bits; side, 8 bits, 0 buys, 1 sells; quantity, 32 bits, 1 to 100,000; price, signed 32
 *                      bits, -50,000 to 400,000
 * The proposal, little-endian:
 *   header, 13 bytes   mark LTP; version, 16 bits, 1; LTA share, 32 bits, 0 to 100,000, and 0 if the case has no
 *                      link; system price, signed 32 bits, any value
 *   then               a volume per order, a flow per link, a shadow price per branch (0 to 1,000,000), 32 bits each
 */
LTA_USE_ANSWER
uint64_t lta_judge(const uint8_t *case_bytes, size_t case_len,
                   const uint8_t *proposal, size_t proposal_len,
                   uint8_t *report, size_t report_len)
    LTA_READS(1, case_bytes, case_len) LTA_READS(3, proposal, proposal_len) LTA_WRITES(5, report, report_len);

/* FAMILIES. An order may name another as its parent, which must be accepted in at least the same fraction. The family
 * list is LTA_FAMILIES_SIZE(orders) bytes, little-endian: mark LTF; version, 16 bits, 1; then for each order of the
 * case, in file order, the number of its parent, counted from 0, 16 bits, or LTA_NO_PARENT. */
#define LTA_NO_PARENT 65535
#define LTA_FAMILIES_SIZE(orders) (5 + 2 * (orders)) /* bytes of a family list for a case */
#define LTA_FAMILIES_ROOM 1029      /* bytes of the longest, that of 512 orders */

/* Judges a proposal for a case with families, and returns number + 256 * index. [outcome]
 *
 *   case_bytes, case_len       a case, as lta_judge takes it, of either version
 *   proposal, proposal_len     a proposal for it
 *   families, families_len     the family list for the case's orders. An empty one is refused by 16: if there are no
 *                              families, give every order LTA_NO_PARENT, or call lta_judge
 *   report, report_len         room for the report, at least LTA_REPORT_ROOM bytes
 *
 * The numbers are those of lta_judge and four more. 16, 17 and 18 are asked after 15, in this order, each over the
 * whole list before the next; 28 is asked after 21. If the answer is none of the four, the answer and every byte of
 * the report buffer are those of lta_judge for the same case and proposal; that is proved of the definitions.
 *
 * The report buffer afterwards [report] [bytes], and the numbers of a report [totals]: as with lta_judge.
 *
 * For an accepted hour, that is if lta_judge_families returns 0: all that holds of an hour that lta_judge accepts, and
 *   [families]  Every parent is an order of the case, no order leads back to itself, and each order that has a parent
 *               is accepted in no larger fraction than its parent: volume * parent's quantity <= parent's volume *
 *               quantity.
 * THE BOUND IS NOT TIGHTENED: [accuracy] compares with all clearings of the case, including those in which a child
 * has a larger fraction than its parent. So the best clearing with families may have less welfare than welfare + gap.
 * An hour whose families cost more than the tolerance is never accepted: if nothing before refuses it, 26 does.
 */
LTA_USE_ANSWER
uint64_t lta_judge_families(const uint8_t *case_bytes, size_t case_len,
                            const uint8_t *proposal, size_t proposal_len,
                            const uint8_t *families, size_t families_len,
                            uint8_t *report, size_t report_len)
    LTA_READS(1, case_bytes, case_len) LTA_READS(3, proposal, proposal_len)
    LTA_READS(5, families, families_len) LTA_WRITES(7, report, report_len);

/* THE LENT ORDER BOOK. A row; its fields have the ranges of an order of a case. */
#define LTA_BUYS 0
#define LTA_SELLS 1

struct lta_order {
    uint8_t zone;      /* below the number of prices */
    uint8_t side;      /* LTA_BUYS or LTA_SELLS */
    uint32_t quantity; /* tenths, 1 to 100,000 */
    int32_t price;     /* cents, -50,000 to 400,000 */
};

/* The answer. */
struct lta_surplus {
    uint32_t number; /* 0, or that of the refusal */
    uint32_t index;
    int64_t sum;     /* microcents; 0 in a refusal */
};

/* The sum of rule 8 over the rows of a book: number 0, index 0 and the sum.
 *
 *   orders, order_count        the rows, at most 512
 *   zone_prices, price_count   the price of each zone in grains, for 1 to 16 zones, each from -50,000 to 400,000 cents
 *
 * It refuses with sum 0, asked in this order, and then by the smallest index:
 *   LTA_CASE_HEADER, index 5   no prices, or over 16
 *   LTA_CASE_HEADER, index 8   over 512 rows
 *   LTA_CASE_ORDER             a row with a field out of range; index: the row
 *   LTA_ZONE_PRICE             a price out of range; index: the zone
 *
 * It stops at a refusal: for LTA_CASE_HEADER it reads no row, for LTA_CASE_ORDER none past the row named. That is
 * tested, not proved. All lent rows must be readable all the same.
 */
LTA_USE_ANSWER
struct lta_surplus lta_book_surplus(const struct lta_order *orders, size_t order_count,
                                    const int64_t *zone_prices, size_t price_count)
    LTA_READS(1, orders, order_count) LTA_READS(3, zone_prices, price_count);

/* WRITTEN INTO AN OUTPUT: the answer of lta_desk_lines, lta_sheet_branches, lta_dump_proposal, lta_case_columned,
 * lta_case_restored and lta_shortfalls. */
struct lta_written {
    uint32_t number; /* 0, or that of the refusal */
    uint64_t index;
    uint64_t length; /* bytes written, for lta_shortfalls numbers; 0 in a refusal */
};

/* THE DESK'S TEXT. The number by which lta_desk_lines refuses. It is about the call, not the hour: the hour's verdict
 * is the first line of the text. */
enum lta_desk_number {
    LTA_DESK_NO_ROOM = 31           /* out_len is under LTA_DESK_ROOM; index 0 */
};

#define LTA_DESK_ROOM 1024          /* bytes that an output must have; enough for the text of any input */

/* Writes the lines that the desk program prints for an input, and answers with number 0, index 0 [outcome] and their
 * length in bytes [length]; or it refuses, with length 0.
 *
 *   input, input_len           a case directly followed by its proposal. If the header is good and the input has as
 *                              many bytes as it demands, the case is cut at that length and the rest is the proposal;
 *                              else all is the case, and the proposal is empty.
 *   out, out_len               room for the text, at least LTA_DESK_ROOM bytes
 *
 * The text is `verdict NUMBER INDEX`, as lta_judge answers with room for the report. For 0 and 26 lines follow with
 * welfare, bound, gap, rent and owed, in euros with eight decimals, and a line `price ZONE PRICE` for each zone, in
 * euros per MWh with seven. A newline ends each line; no zero byte ends the text. [text] says where the input is cut,
 * and gives each line byte by byte.
 *
 * The bytes of `out` afterwards [output]: the text, then the unchanged rest. In a refusal every byte is unchanged.
 */
LTA_USE_ANSWER
struct lta_written lta_desk_lines(const uint8_t *input, size_t input_len, uint8_t *out, size_t out_len)
    LTA_READS(1, input, input_len) LTA_WRITES(3, out, out_len);

/* THE MARGIN SHEET. The numbers of lta_sheet_branches, in the order in which they are asked, each over the whole
 * sheet before the next. 51 to 53 name the first such line; the index of the others is 0. A number is returned for
 * its own cause only. */
enum lta_sheet_number {
    LTA_SHEET_ZONES = 50,           /* zones is 0 or over 16 */
    LTA_SHEET_FIELD = 51,           /* a line does not have 1 + zones fields, or one is no number; index: the line */
    LTA_SHEET_DECIMAL = 52,         /* a margin has a decimal after the first that is not zero, or a PTDF one after the
                                     * fifth; index: the line */
    LTA_SHEET_RANGE = 53,           /* a number is out of its range; index: the line */
    LTA_SHEET_LINES = 54,           /* over 64 lines */
    LTA_SHEET_NO_ROOM = 55          /* out_len is under LTA_SHEET_SIZE(zones, lines) */
};

#define LTA_SHEET_SIZE(zones, lines) (4 * ((zones) + 1) * (lines)) /* bytes of the branches of a sheet */
#define LTA_SHEET_ROOM 4352         /* enough for every sheet: 64 lines of 16 zones */

/* Writes the branches of a published margin sheet in the layout of a case, and answers with number 0, index 0
 * [outcome] and their length, LTA_SHEET_SIZE(zones, lines) [length]; or it refuses, with length 0.
 *
 *   sheet, sheet_len           the sheet, as laid out below
 *   zones                      the zones of the case, 1 to 16
 *   out, out_len               room for the branches, at least LTA_SHEET_SIZE(zones, lines) bytes
 *
 * The sheet has a line for each branch, at most 64, counted from 0. A newline (byte 10) ends a line, and the last
 * line may lack it; an empty sheet has no line. A line is fields separated by commas: the margin in MW, then a PTDF
 * for each zone, with export counted positive. A field is an optional minus sign, one or more digits, and optionally
 * a point with one or more digits. Nothing else is allowed: no plus sign, no exponent, no space, no carriage return.
 * Any number of leading zeros and of zeros at the end of the decimals is allowed; -0 is zero.
 *   margin             -50,000 to 50,000 MW, to one decimal
 *   PTDF               -2 to 2, to five decimals
 *
 * For each line it writes, little-endian, signed 32 bits each: the margin in tenths, -500,000 to 500,000, and for
 * each zone the PTDF in hundred-thousandths, -200,000 to 200,000, with its sign turned, since a case counts import
 * positive.
 *
 * The bytes of `out` afterwards [output]: the branches, then the unchanged rest. In a refusal every byte is
 * unchanged.
 *
 * Put the branches after a case header with these zones and as many branches as the sheet has lines, and before
 * anything: the branches of the case are these numbers, and LTA_CASE_BRANCH has no cause [branches]. [bytes] says
 * where each number of an answered sheet stands, byte by byte. [causes] says in plain numbers which sheet gives which
 * number and line, both ways.
 */
LTA_USE_ANSWER
struct lta_written lta_sheet_branches(const uint8_t *sheet, size_t sheet_len, size_t zones, uint8_t *out, size_t out_len)
    LTA_READS(1, sheet, sheet_len) LTA_WRITES(4, out, out_len);

/* INTUITIVE HOURS, by annex 5.1 of Annex 16.18. The numbers by which lta_intuitive refuses, in the order in which
 * they are asked, each over the whole input before the next. 82 (except for the sum), 83 and 84 name the first such
 * zone or pair, counted from 0; the index of the others is 0. A number is returned for its own cause only. */
enum lta_intuitive_number {
    LTA_INTUITIVE_ZONES = 81,       /* no zone or over 16, or not as many prices as net positions */
    LTA_INTUITIVE_POSITION = 82,    /* a net position is out of its range; index: the zone. Asked next: they do not sum
                                     * to zero; index 0 */
    LTA_INTUITIVE_PRICE = 83,       /* a price is out of its range, which is LTA_ZONE_PRICE's; index: the zone */
    LTA_INTUITIVE_PAIR = 84,        /* a pair has an unknown zone or equal ones, repeats an earlier one or is past the
                                     * 64th; index: the pair */
    LTA_INTUITIVE_NO_ROOM = 85      /* scratch_count is under LTA_INTUITIVE_SCRATCH, for the small entries under
                                     * LTA_INTUITIVE_SMALL_SCRATCH */
};

#define LTA_INTUITIVE_PAIRS 64      /* pairs at most */
#define LTA_INTUITIVE_SCRATCH 324   /* numbers that a scratch must have, for any number of zones */
#define LTA_INTUITIVE_SMALL_SCRATCH 96 /* the same for the small entries: one per pair, one per zone for export used,
                                        * one per zone for import used */

/* The answer. */
struct lta_carried {
    uint32_t number;    /* 0, or that of the refusal */
    uint32_t index;
    uint32_t intuitive; /* 1 for yes; 0 for no, and in a refusal */
    int64_t total;      /* tenths, the most that can be carried; 0 in a refusal */
};

/* Whether flows can carry every export to imports, each from a zone to one whose price is not lower, and the most
 * that flows can carry: number 0, index 0 [outcome], yes or no, and the total; or it refuses, with intuitive 0 and
 * total 0.
 *
 *   net_exports, net_count     the net position of each zone in tenths, export positive, for 1 to 16 zones, each from
 *                              -51,200,000 to 51,200,000; they sum to zero. lta_judge counts import positive: turn
 *                              the sign of its net positions.
 *   zone_prices, price_count   the price of each zone in grains, each from -50,000 to 400,000 cents; as many as net
 *                              positions
 *   pairs, pairs_len           two bytes for each ordered pair along which flow may go, its first zone and its
 *                              second, at most LTA_INTUITIVE_PAIRS pairs. Both zones are below net_count and differ,
 *                              and each ordered pair occurs once; the reverse pair is another. If the length is odd,
 *                              the last byte is a pair whose second zone is unknown.
 *   scratch, scratch_count     room to work in, at least LTA_INTUITIVE_SCRATCH numbers, with any content
 *
 * A pair counts if the price of its first zone is at most that of its second. Flows are a number of tenths for each
 * counted pair, none negative. They are within the exports and imports if, for every zone, what leaves it less what
 * enters it is from 0 to its export if it exports, from minus its import to 0 if it imports, and 0 otherwise. What
 * they carry is the sum over the zones that export.
 *
 * For an answer:
 *   [largest]    Some flows within the exports and imports carry the total. None carry more, not even in fractions of
 *                any denominator.
 *   [yes]        If intuitive is 1, some flows within the exports and imports carry every export.
 *   [yes_rent]   If intuitive is 1, the sum of import times price over the zones is at least zero.
 *   [no]         If intuitive is 0, there is a set of zones that no counted pair leaves and whose exports exceed its
 *                imports.
 *   [yes_or_no]  intuitive is 1 or 0, in a refusal too.
 * For a refusal [refused]: intuitive and total are 0.
 *
 * Proved of the definitions: a yes and a no exclude each other, and both the yes or no and the total depend on the
 * input alone. The total of a yes is the sum of all exports, that of a no is less. For the flows of [yes], the sum of
 * [yes_rent] is the sum over counted pairs of flow * (price of the second zone - price of the first).
 *
 * The numbers of `scratch` afterwards [scratch]: the first LTA_INTUITIVE_SCRATCH are zero, and all past them
 * unchanged. In a refusal every number is unchanged.
 */
LTA_USE_ANSWER
struct lta_carried lta_intuitive(const int64_t *net_exports, size_t net_count,
                                 const int64_t *zone_prices, size_t price_count,
                                 const uint8_t *pairs, size_t pairs_len,
                                 int64_t *scratch, size_t scratch_count)
    LTA_READS(1, net_exports, net_count) LTA_READS(3, zone_prices, price_count) LTA_READS(5, pairs, pairs_len)
    LTA_WRITES(7, scratch, scratch_count);

/* The same for an hour. The hour is judged first, as lta_judge does with room for the report. If it is not accepted
 * (LTA_GAP_ABOVE_TOLERANCE included), the answer has the judgement's number and index, with intuitive 0 and total 0,
 * and every number of `scratch` is unchanged. Else the answer and the scratch are those of lta_intuitive for its zone
 * prices and its net positions, turned to export positive [outcome] [yes] [no] [yes_or_no] [largest] [scratch]
 * [refused]. For a yes the rent that lta_judge reports is at least 0 [yes_rent].
 *
 * Proved of the definitions: of 81 to 85 only LTA_INTUITIVE_PAIR and LTA_INTUITIVE_NO_ROOM can occur.
 *
 *   case_bytes, case_len       a case, as lta_judge takes it
 *   proposal, proposal_len     a proposal for it
 *   pairs, pairs_len           ordered pairs of the case's zones, as lta_intuitive takes them
 *   scratch, scratch_count     room to work in, at least LTA_INTUITIVE_SCRATCH numbers
 */
LTA_USE_ANSWER
struct lta_carried lta_hour_intuitive(const uint8_t *case_bytes, size_t case_len,
                                      const uint8_t *proposal, size_t proposal_len,
                                      const uint8_t *pairs, size_t pairs_len,
                                      int64_t *scratch, size_t scratch_count)
    LTA_READS(1, case_bytes, case_len) LTA_READS(3, proposal, proposal_len) LTA_READS(5, pairs, pairs_len)
    LTA_WRITES(7, scratch, scratch_count);

/* The same two with a smaller scratch. Arguments, answers, numbers and their order are those of lta_intuitive and
 * lta_hour_intuitive, with LTA_INTUITIVE_SMALL_SCRATCH instead of LTA_INTUITIVE_SCRATCH: LTA_INTUITIVE_NO_ROOM is
 * given for a scratch under 96 numbers, and after an answer the first 96 are zero and all past them unchanged
 * [outcome] [yes] [yes_rent] [no] [yes_or_no] [largest] [scratch] [refused].
 *
 * Proved of the definitions: on each input that both take, intuitive and total are those of the wide entry. What the
 * wide entry takes, the small one takes too, and every refusal except LTA_INTUITIVE_NO_ROOM is the same, number and
 * index.
 */
LTA_USE_ANSWER
struct lta_carried lta_intuitive_small(const int64_t *net_exports, size_t net_count,
                                       const int64_t *zone_prices, size_t price_count,
                                       const uint8_t *pairs, size_t pairs_len,
                                       int64_t *scratch, size_t scratch_count)
    LTA_READS(1, net_exports, net_count) LTA_READS(3, zone_prices, price_count) LTA_READS(5, pairs, pairs_len)
    LTA_WRITES(7, scratch, scratch_count);

LTA_USE_ANSWER
struct lta_carried lta_hour_intuitive_small(const uint8_t *case_bytes, size_t case_len,
                                            const uint8_t *proposal, size_t proposal_len,
                                            const uint8_t *pairs, size_t pairs_len,
                                            int64_t *scratch, size_t scratch_count)
    LTA_READS(1, case_bytes, case_len) LTA_READS(3, proposal, proposal_len) LTA_READS(5, pairs, pairs_len)
    LTA_WRITES(7, scratch, scratch_count);

/* THE SOLVER'S DUMP. The numbers of lta_dump_proposal, in the order in which they are asked, each over the whole dump
 * before the next. 56 names the number by which the case is refused. 58 and 59 name the first such value, counted in
 * values from 0, so it stands 8 * index bytes into the dump. The index of the others is 0. A number is returned for
 * its own cause only. */
enum lta_dump_number {
    LTA_DUMP_CASE = 56,             /* the case is refused by one of 1 to 8; index: that number */
    LTA_DUMP_LENGTH = 57,           /* dump_len is not LTA_DUMP_SIZE of the case's orders, links and branches */
    LTA_DUMP_NOT_FINITE = 58,       /* a value is infinite or no number; index: the value */
    LTA_DUMP_RANGE = 59,            /* a share is outside 0 to 1, a flow or a shadow price is negative, or a result is
                                     * infinite or outside its field's range; index: the value */
    LTA_DUMP_NO_ROOM = 60           /* out_len is under LTA_PROPOSAL_SIZE of the case's orders, links and branches */
};

#define LTA_DUMP_SIZE(orders, links, branches) (8 * (2 + (orders) + (links) + (branches))) /* bytes for a case */
#define LTA_PROPOSAL_SIZE(orders, links, branches) (13 + 4 * ((orders) + (links) + (branches))) /* bytes for a case */
#define LTA_PROPOSAL_ROOM 2573      /* enough for every proposal: 512 orders, 64 links and 64 branches */

/* Writes a proposal for a case from a solver's dump, and answers with number 0, index 0 [outcome] and its length in
 * bytes [length]; or it refuses, with length 0.
 *
 *   case_bytes, case_len       a case, as lta_judge takes it, of either version
 *   dump, dump_len             the dump, as laid out below
 *   out, out_len               room for the proposal, at least LTA_PROPOSAL_SIZE(orders, links, branches) bytes
 *
 * The dump is LTA_DUMP_SIZE(orders, links, branches) bytes: values of 64 bits, IEEE 754 binary64, little-endian, with
 * nothing before, between or after them. The table has them in file order, with what is written for each. There `*`
 * is one binary64 product: the exact one, rounded once to the nearest, ties to even, and infinite if it is above the
 * largest binary64.
 *
 *   place                value                     written                          range of what is written
 *   0                    LTA share, 0 to 1         value * 100,000, cut             0 to 100,000
 *   1                    system price, euros       value * 100, to the nearest,     signed 32 bits
 *                        per MWh                   in cents per MWh
 *   2 on, one per order  share accepted, 0 to 1    value * quantity, cut, in        0 to the quantity
 *                                                  tenths
 *   then one per link    flow in MW, not negative  value * 10, cut, in tenths       unsigned 32 bits
 *   then one per branch  shadow price, euros per   value * 100, to the nearest,     0 to 1,000,000
 *                        MWh, not negative         in cents per MWh
 *
 * Cut is the greatest whole number that is not above the product. To the nearest is the whole number nearest to the
 * rounded product, halves away from zero: 0.285 euros are 28 cents, since the product is 28.499999999999996, and
 * -0.125 euros are -13. Minus zero is zero, and is neither negative nor outside 0 to 1; any other finite value with
 * its sign set is negative, however small. Nothing is rebalanced: what is written for a value depends on that value
 * alone, and for an order's share also on the order's quantity.
 *
 * The bytes of `out` afterwards [output]: if the number is 0, the first `length` bytes are the proposal, that is mark
 * LTP, version 1, the LTA share, the system price, the volumes, the flows and the shadow prices, laid out as
 * lta_judge takes them, and all bytes past them are unchanged. In a refusal every byte is unchanged. [bytes] gives
 * each byte in plain numbers.
 *
 * For an answer:
 *   [volumes]    Each volume differs from the exact product of its share and its quantity by less than one tenth, and
 *                is never above the quantity.
 *   [read_back]  lta_judge reads the proposal for this case: none of its numbers 9 to 14 has a cause. Each field that
 *                it reads is the number of its own value.
 */
LTA_USE_ANSWER
struct lta_written lta_dump_proposal(const uint8_t *case_bytes, size_t case_len,
                                     const uint8_t *dump, size_t dump_len,
                                     uint8_t *out, size_t out_len)
    LTA_READS(1, case_bytes, case_len) LTA_READS(3, dump, dump_len) LTA_WRITES(5, out, out_len);

/* THE ARCHIVE. The numbers of lta_case_columned and lta_case_restored, in the order in which they are asked; their
 * index is 0. A number is returned for its own cause only. */
enum lta_column_number {
    LTA_COLUMN_FILE = 71,           /* columning: the case is refused by one of 1 to 8. The way back: the file does not
                                     * begin with LTK, or no readable case results, because the file is too short, has
                                     * another length than its header demands, or has a field out of range */
    LTA_COLUMN_NO_ROOM = 72         /* out_len is under the length of the file */
};

#define LTA_CASE_ROOM 10126         /* enough for every case, and for every columned file */

/* Writes a readable case with its order part column by column, which compresses better, and answers with number 0,
 * index 0 [outcome] and the length in bytes, case_len [length]; or it refuses, with length 0.
 *
 *   case_bytes, case_len       a case, as lta_judge takes it, of either version
 *   out, out_len               room for the columned file, at least case_len bytes; it may not overlap the case
 *
 * The columned file has the mark LTK. Its length is the case's, and so are all bytes after the mark up to the orders,
 * that is the rest of the header, the branches and the links. Where the case then has n orders of ten bytes each, the
 * columned file has ten columns of n bytes, each with a byte for each order in file order: the zones, the sides,
 * bytes 0 to 3 of the quantities and bytes 0 to 3 of the prices, byte 0 the least significant. If the first order is
 * at `orders`, byte k of order i is at
 *   orders + 10 * i + k     in the case
 *   orders + n * k + i      in the columned file
 *
 * The bytes of `out` afterwards [output]: if the number is 0, the first `length` bytes are the columned file, and all
 * bytes past them are unchanged. In a refusal every byte is unchanged.
 *
 * For an answer:
 *   [columns]     The columned file is as said here.
 *   [back]        With room for it, lta_case_restored takes it and gives the case again, byte for byte.
 *   [not_judged]  lta_judge refuses it by LTA_CASE_MARK, whatever the proposal, if there is room for a report.
 * Proved of the definitions: no other file is as said here; and which case gives which number, both ways.
 */
LTA_USE_ANSWER
struct lta_written lta_case_columned(const uint8_t *case_bytes, size_t case_len, uint8_t *out, size_t out_len)
    LTA_READS(1, case_bytes, case_len) LTA_WRITES(3, out, out_len);

/* The way back: writes the case that a columned file was made of, and answers with number 0, index 0 [outcome] and
 * the length in bytes, columned_len [length]; or it refuses, with length 0.
 *
 *   columned, columned_len     a file with the mark LTK, as lta_case_columned writes it
 *   out, out_len               room for the case, at least columned_len bytes; it may not overlap the file
 *
 * The bytes of `out` afterwards [output]: if the number is 0, the first `length` bytes are the case, and all bytes
 * past them are unchanged. In a refusal every byte is unchanged.
 *
 * For an answer [restored]: none of LTA_CASE_SHORT to LTA_CASE_ORDER has a cause in the case; the file is this case
 * in columns as said above; and lta_case_columned of the case, with room for it, gives the file again, byte for byte.
 */
LTA_USE_ANSWER
struct lta_written lta_case_restored(const uint8_t *columned, size_t columned_len, uint8_t *out, size_t out_len)
    LTA_READS(1, columned, columned_len) LTA_WRITES(3, out, out_len);

/* SHORTFALLS of an accepted hour. The number by which lta_shortfalls refuses, besides those of the judgement. */
enum lta_shortfall_number {
    LTA_SHORTFALL_NO_ROOM = 86      /* out_count is under LTA_SHORTFALL_COUNT of the case's orders, branches and links;
                                     * index 0. It is asked last, of an accepted hour */
};

#define LTA_SHORTFALL_COUNT(orders, branches, links) (2 * ((orders) + (branches) + (links))) /* numbers for a case */
#define LTA_SHORTFALL_ROOM 1280     /* numbers, enough for every case: 512 orders, 64 branches and 64 links */
#define LTA_SHORTFALLS_PER_MICROCENT 100000

/* Writes by how much each order, branch and link of an accepted hour falls short of its best at the zone prices, two
 * numbers for each, and answers with number 0, index 0 [outcome] and how many numbers are written,
 * LTA_SHORTFALL_COUNT(orders, branches, links) [length]; or it refuses, with length 0.
 *
 *   case_bytes, case_len       a case, as lta_judge takes it, of either version
 *   proposal, proposal_len     a proposal for it
 *   out, out_count             room for the numbers, at least LTA_SHORTFALL_COUNT(orders, branches, links) of them
 *
 * The hour is judged first, as lta_judge does with room for the report. If it is not accepted
 * (LTA_GAP_ABOVE_TOLERANCE included), the answer has the judgement's number and index. LTA_NO_ROOM cannot occur.
 *
 * The shortfalls, in whole hundred-thousandths of a microcent, in the terms of the rules above:
 *   an order    100,000 * (order surplus - volume * (order price - zone price)) for a buy,
 *               100,000 * (order surplus - volume * (zone price - order price)) for a sell, prices in grains
 *   a branch    100,000 * shadow price * ((100,000 - share) * margin - load)
 *   a link      capacity * share * spread where the spread is positive, else 0, less 100,000 * flow * spread; the
 *               spread is the price at `to` - the price at `from`
 * A link's contracted volume does not enter. On P1, link 0 to 1:
 *   4,000 * 87,500 * 437,500,000 - 100,000 * 3,500 * 437,500,000 = 0
 *
 * The numbers of `out` afterwards [output]: if the number is 0, the first `length` are two for each order, then for
 * each branch, then for each link, in file order: whole microcents, and hundred-thousandths of a microcent, 0 to
 * 99,999. All past them are unchanged. In a refusal every number is unchanged.
 *
 * For an answer, with and without links [shortfalls]: each two numbers are the shortfall as said here, and for an
 * order or a branch the second is 0; no shortfall is negative; all together are at most 100,000 times the gap that
 * lta_judge reports, so none is more than the gap; at gap 0 each is 0.
 *
 * Proved of the definitions: what is left, 100,000 times the gap less all shortfalls, is
 *   (100,000 - share) * (larger - branch total) + share * (larger - link total)
 * where larger is the larger of the two totals; without links it is 0.
 */
LTA_USE_ANSWER
struct lta_written lta_shortfalls(const uint8_t *case_bytes, size_t case_len,
                                  const uint8_t *proposal, size_t proposal_len,
                                  int64_t *out, size_t out_count)
    LTA_READS(1, case_bytes, case_len) LTA_READS(3, proposal, proposal_len) LTA_WRITES(5, out, out_count);

/* THE DESK QUEUE, for a desk that judges the hours of four areas, up to 25 a day, as their solvers finish. The
 * numbers by which lta_queue_post (61 to 63) and lta_queue_serve (64) refuse, in the order in which they are asked. A
 * number is returned for its own cause only. */
enum lta_queue_number {
    LTA_QUEUE_AREA = 61,            /* area over 3 */
    LTA_QUEUE_HOUR = 62,            /* hour over 24 */
    LTA_QUEUE_WAITING = 63,         /* that area has the hour waiting already */
    LTA_QUEUE_NOTHING = 64          /* no area has an hour waiting */
};

/* THE QUEUE is 101 bytes of the host's, which it may copy, store and load: `uint8_t queue[LTA_QUEUE_SIZE] = {0};` is
 * the empty queue.
 *
 *   25 * area to 25 * area + 24   the cells of an area: its waiting hours, each plus 1, the earliest posted first,
 *                                 then zeros
 *   LTA_QUEUE_TURN                the area whose turn it is: the one after the area last served, modulo 4; 0 before
 *                                 any was served
 *
 * Any bytes are a queue, so no call has a condition: a cell over 25, and one that repeats an earlier cell of its
 * area, count as free, and the turn is taken modulo 4. */
#define LTA_QUEUE_SIZE 101
#define LTA_QUEUE_TURN 100
#define LTA_QUEUE_AREAS 4
#define LTA_QUEUE_HOURS 25

/* Posts an hour of an area: it waits behind those that the area has waiting, and 0 is returned; or it is refused by
 * 61, 62 or 63 [number].
 *
 *   queue                      LTA_QUEUE_SIZE bytes
 *   area                       0 to 3
 *   hour                       0 to 24
 *
 * The bytes of `queue` afterwards [bytes]: the cells of the area hold its waiting hours and then zeros, and all
 * others are unchanged. In a refusal every byte is unchanged; that nothing is written then is tested, not proved.
 * [queue] says the same of the queue that the bytes mean.
 */
LTA_USE_ANSWER
uint32_t lta_queue_post(uint8_t queue[LTA_AT_LEAST(LTA_QUEUE_SIZE)], uint32_t area, uint32_t hour)
    LTA_NOT_NULL(1);

/* The answer of a serve. */
struct lta_served {
    uint32_t number; /* 0, or LTA_QUEUE_NOTHING */
    uint32_t index;  /* 0 */
    uint32_t area;   /* of the hour served; 0 in a refusal */
    uint32_t hour;   /* 0 in a refusal */
};

/* Serves an hour: the earliest posted of the next area in turn that has one waiting. The turn goes on from the area
 * last served; area 0 is first of all [answer]. The served hour waits no more. LTA_QUEUE_NOTHING is returned if and
 * only if no hour waits.
 *
 *   queue                      LTA_QUEUE_SIZE bytes
 *
 * The bytes of `queue` afterwards [bytes]: the cells of the served area hold what still waits there and then zeros,
 * LTA_QUEUE_TURN has the area after it, and all others are unchanged. In a refusal every byte is unchanged; that
 * nothing is written then is tested, not proved. [queue] says the same of the queue that the bytes mean.
 *
 * For all calls on a queue together, from the empty one on and in any order, refused ones included. This is proved of
 * the definitions, from what [number], [answer] and [bytes] say of each call:
 *   - If an area has an hour waiting, one of the next four serves serves it. After an hour is posted, one of the next
 *     hundred serves serves it, whatever else is posted. Both hold from any other bytes too, and both bounds are
 *     tight.
 *   - An area's hours are served in the order posted; none is lost, and none is served that was not posted.
 *   - There is always room: at most 25 hours wait in an area. A served hour may be posted again at once.
 */
LTA_USE_ANSWER
struct lta_served lta_queue_serve(uint8_t queue[LTA_AT_LEAST(LTA_QUEUE_SIZE)])
    LTA_NOT_NULL(1);

/* THE LAYOUT of the structs in the library. If a compiler lays one out differently, as under #pragma pack, the header
 * does not compile. */
#if defined(__cplusplus) && __cplusplus >= 201103L
#define LTA_ASSERT(name, condition) static_assert(condition, #name ": not as the library has it")
#elif !defined(__cplusplus) && __STDC_VERSION__ >= 201112L
#define LTA_ASSERT(name, condition) _Static_assert(condition, #name ": not as the library has it")
#else
/* NOLINTNEXTLINE(bugprone-macro-parentheses): it declares the name */
#define LTA_ASSERT(name, condition) typedef char name[(condition) ? 1 : -1]
#endif
#define LTA_SIZE(type, bytes) LTA_ASSERT(type##_size, sizeof(struct type) == (bytes))
#define LTA_OFFSET(type, field, offset) LTA_ASSERT(type##_##field, offsetof(struct type, field) == (offset))

LTA_ASSERT(lta_lengths_have_64_bits, sizeof(size_t) == 8);

LTA_OFFSET(lta_order, zone, 0);
LTA_OFFSET(lta_order, side, 1);
LTA_OFFSET(lta_order, quantity, 4);
LTA_OFFSET(lta_order, price, 8);
LTA_SIZE(lta_order, 12);

LTA_OFFSET(lta_surplus, number, 0);
LTA_OFFSET(lta_surplus, index, 4);
LTA_OFFSET(lta_surplus, sum, 8);
LTA_SIZE(lta_surplus, 16);

LTA_OFFSET(lta_written, number, 0);
LTA_OFFSET(lta_written, index, 8);
LTA_OFFSET(lta_written, length, 16);
LTA_SIZE(lta_written, 24);

LTA_OFFSET(lta_carried, number, 0);
LTA_OFFSET(lta_carried, index, 4);
LTA_OFFSET(lta_carried, intuitive, 8);
LTA_OFFSET(lta_carried, total, 16);
LTA_SIZE(lta_carried, 24);

LTA_OFFSET(lta_served, number, 0);
LTA_OFFSET(lta_served, index, 4);
LTA_OFFSET(lta_served, area, 8);
LTA_OFFSET(lta_served, hour, 12);
LTA_SIZE(lta_served, 16);

/* What a number that an entry returns means, in a few words, and "unknown number" for any other. Like the readers of
 * a report it is C in this header: tested, not proved. */
static inline const char *lta_number_text(uint32_t number)
{
    switch (number) {
    case LTA_ACCEPTED: return "accepted";
    case LTA_CASE_SHORT: return "case shorter than 14 bytes";
    case LTA_CASE_MARK: return "case does not begin with LTC";
    case LTA_CASE_VERSION: return "case version is neither 1 nor 2";
    case LTA_CASE_HEADER: return "header field outside its range";
    case LTA_CASE_LENGTH: return "case length is not what the header demands";
    case LTA_CASE_BRANCH: return "branch field out of range";
    case LTA_CASE_LINK: return "link field at fault";
    case LTA_CASE_ORDER: return "order field out of range";
    case LTA_PROPOSAL_SHORT: return "proposal shorter than 13 bytes";
    case LTA_PROPOSAL_MARK: return "proposal does not begin with LTP";
    case LTA_PROPOSAL_VERSION: return "proposal version is not 1";
    case LTA_PROPOSAL_LENGTH: return "proposal length is wrong for this case";
    case LTA_SHARE: return "LTA share above 100,000";
    case LTA_SHADOW_PRICE: return "shadow price above 1,000,000";
    case LTA_WIDE_TOLERANCE: return "tolerance above 10,000 cents";
    case LTA_FAMILY_LIST: return "family list of wrong mark, version or length";
    case LTA_FAMILY_PARENT: return "parent that does not exist";
    case LTA_FAMILY_CIRCLE: return "order that leads back to itself";
    case LTA_VOLUME: return "volume above its order's quantity";
    case LTA_FAMILY_FRACTION: return "fraction above its parent's";
    case LTA_BALANCE: return "net positions do not sum to zero";
    case LTA_SHARE_WITHOUT_LINK: return "no link, and an LTA share above 0";
    case LTA_LINK_RULE: return "flow above the link's share of its capacity";
    case LTA_BRANCH_RULE: return "load above the branch's share of its margin";
    case LTA_ZONE_PRICE: return "zone price out of range";
    case LTA_GAP_ABOVE_TOLERANCE: return "gap above the tolerance";
    case LTA_NO_ROOM: return "report buffer under 176 bytes";
    case LTA_DESK_NO_ROOM: return "output too short for the desk's lines";
    case LTA_SHEET_ZONES: return "zone count is 0 or over 16";
    case LTA_SHEET_FIELD: return "sheet line with the wrong fields or no number";
    case LTA_SHEET_DECIMAL: return "decimal past ours is not zero";
    case LTA_SHEET_RANGE: return "number on the sheet out of range";
    case LTA_SHEET_LINES: return "sheet of over 64 lines";
    case LTA_SHEET_NO_ROOM: return "output too short for the branches";
    case LTA_DUMP_CASE: return "case refused by 1 to 8";
    case LTA_DUMP_LENGTH: return "dump length is wrong for this case";
    case LTA_DUMP_NOT_FINITE: return "value of the dump is not finite";
    case LTA_DUMP_RANGE: return "value of the dump, or its result, out of range";
    case LTA_DUMP_NO_ROOM: return "output too short for the proposal";
    case LTA_QUEUE_AREA: return "area over 3";
    case LTA_QUEUE_HOUR: return "hour over 24";
    case LTA_QUEUE_WAITING: return "hour waits in that area already";
    case LTA_QUEUE_NOTHING: return "no hour waits";
    case LTA_COLUMN_FILE: return "case not readable, or no columned file of one";
    case LTA_COLUMN_NO_ROOM: return "output shorter than the file";
    case LTA_INTUITIVE_ZONES: return "no zone, over 16, or lists of two lengths";
    case LTA_INTUITIVE_POSITION: return "net position out of range, or their sum is not zero";
    case LTA_INTUITIVE_PRICE: return "price of a zone out of range";
    case LTA_INTUITIVE_PAIR: return "pair with an unknown zone, equal zones, repeated or past the 64th";
    case LTA_INTUITIVE_NO_ROOM: return "scratch under 324 numbers, or under 96 for the small entries";
    case LTA_SHORTFALL_NO_ROOM: return "output too short for the shortfalls";
    default: return "unknown number";
    }
}

#ifdef __cplusplus
}
#endif

#ifdef __clang__
#pragma clang diagnostic pop
#endif

#endif
