/* Hours as document 01 writes them, and their files and reports as bytes. */
#ifndef HOURS_H
#define HOURS_H

#include <stdbool.h>
#include <stddef.h>
#include <stdint.h>

struct branch {
    int32_t ram, ptdf[16];
};

/* Only a case of version 2 has contracted volumes. */
struct link {
    uint8_t from, to;
    uint32_t capacity, contracted;
};

struct order {
    uint8_t zone, side;
    uint32_t quantity;
    int32_t price;
};

struct hour {
    uint16_t version;
    uint8_t zones, branches, links;
    uint16_t orders;
    uint32_t tolerance;
    struct branch branch[64];
    struct link link[64];
    struct order order[512];
    uint32_t share;
    int32_t system;
    uint32_t volume[512], flow[64], shadow[64];
};

/* The three-zone hour, which is P1; P2's hour, and P3's at tolerance 0; P10's, with one zone and nothing else. */
struct hour three_zone_hour(void);
struct hour flow_based_hour(void);
struct hour unused_link_hour(void);
struct hour one_zone_hour(void);

/* P1 as a case of version 2, with 2,500 of its link's 4,000 contracted. */
struct hour contracted_hour(void);

/* An hour with every margin, capacity, flow, quantity and volume divided by a number. */
struct hour divided(struct hour h, uint8_t by);

/* A sell at 1 cent and a buy at 0 cents, both of a tenth, at a zone price of -1 cent: welfare -0.001 euros, bound
 * 0.001, gap 0.002. The tolerance is a cent. */
struct hour negative_hour(void);

/* The largest hour of a version: the greatest count of everything, every order accepted, every link fully used and
 * half contracted. All net positions, LTA parts and PTDFs are zero, and so are the zone prices. Every branch has
 * the given shadow price. */
struct hour largest_hour(uint16_t version, uint32_t shadow);

/* The largest case, which is of version 2, and its proposal. */
#define CASE_ROOM 10126
#define PROPOSAL_ROOM 2573

/* A file, or a part of one; room for the largest case joined with its proposal. */
struct file {
    size_t length;
    uint8_t bytes[CASE_ROOM + PROPOSAL_ROOM];
};

struct file case_file(const struct hour *h);
struct file proposal_file(const struct hour *h);

bool same_file(const struct file *one, const struct file *other);

/* Appends the bytes of a stored file; false if it cannot be opened. */
bool append_stored(struct file *f, const char *name);

/* A stored file. A check fails if it cannot be read. */
struct file read_file(const char *name);

/* A number of some bytes, little-endian, at an offset of a file. */
void put(struct file *f, size_t offset, size_t width, uint64_t number);

/* The totals in microcents, the zone prices in grains. */
struct totals {
    int64_t welfare, bound, gap, rent, owed, price[16];
};

struct file report_file(uint8_t number, uint8_t zones, struct totals t);

/* Microcents of some euros; grains of some cents per MWh. */
int64_t euros(int64_t amount);
int64_t cents(int64_t price);

/* Zone prices at their limits, a grain past them, and at the ends of what a number holds. */
struct price_limit {
    const char *name;
    int64_t price;
    bool taken;
};
#define PRICE_LIMITS 6
extern const struct price_limit price_limits[PRICE_LIMITS];

/* The paper's values for P1, P2, and P3 and P4. */
struct totals three_zone_totals(void);
struct totals contracted_totals(void);
struct totals flow_based_totals(void);
struct totals unused_link_totals(void);

#endif
