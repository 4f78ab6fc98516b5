/* Every entry of the header, called in one way over the stored inputs, for tests of all entries. */
#ifndef ENTRIES_H
#define ENTRIES_H

#include "hours.h"
#include "lta_judgement.h"

#include <stdbool.h>
#include <stddef.h>
#include <stdint.h>

/* The arguments of the entries. A stored input fills some and leaves the rest empty; every entry answers that too. */
struct input {
    struct file hour, proposal, families, joined, dump, columned, sheet, pairs;
    size_t zones, orders, nets, prices;
    struct lta_order order[512];
    int64_t net[17], price[17];
    uint32_t area, hour_of_day;
    uint8_t queue[LTA_QUEUE_SIZE];
};

/* The answer of an entry, and all that it may write: the report, the output, the scratch or the queue. */
struct answer {
    uint64_t word[4];
    union {
        int64_t number[LTA_SHORTFALL_ROOM];
        uint8_t byte[LTA_CASE_ROOM];
    } out;
};

struct entry {
    const char *name;
    void (*ask)(const struct input *in, struct answer *a);
    bool constant; /* it takes no argument */
};

#define ENTRIES 16
extern const struct entry every_entry[ENTRIES];

/* Reads the records that tools/build_records.py wrote, and returns how many of them are inputs here. */
size_t read_inputs(const char *records);

/* An input, by its number. */
void make_input(size_t number, struct input *in);

/* The answer of an entry, with memory that held zeros before. */
void ask(const struct entry *entry, const struct input *in, struct answer *a);

#endif
