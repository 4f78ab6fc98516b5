/* lta_queue_post and lta_queue_serve through the library: turns and the order posted, each limit and one past it,
 * each cause and their order, the longest waits, bytes that no call left, and the stored runs. Calls are made with
 * the queue at both places between unreadable pages, and every byte is compared; a refused call is also made on an
 * unwritable queue.
 *
 *     queue_test EVENTS ANSWERS          the stored runs, and what they print
 */
#include "harness.h"
#include "lta_judgement.h"

#include <inttypes.h>
#include <stddef.h>
#include <stdio.h>
#include <string.h>

#define LINE 200

static struct arena queue_arena;
static const char *events_name, *answers_name;

struct queue {
    uint8_t bytes[LTA_QUEUE_SIZE];
};

static const struct queue empty;

static bool is(struct lta_served s, uint32_t number, uint32_t area, uint32_t hour)
{
    bool ok = s.number == number && s.index == 0 && s.area == area && s.hour == hour;
    if (!ok)
        wrong("number %" PRIu32 " index %" PRIu32 " area %" PRIu32 " hour %" PRIu32 ", and should be %" PRIu32 ", 0, %" PRIu32
              " and %" PRIu32, s.number, s.index, s.area, s.hour, number, area, hour);
    return ok;
}

static bool is_number(uint32_t got, uint32_t number)
{
    if (got != number)
        wrong("number %" PRIu32 ", and should be %" PRIu32, got, number);
    return got == number;
}

/* The queue at a place, writable or not. */
static uint8_t *written(enum place place, const struct queue *q)
{
    return memcpy(lend_room(queue_arena, place, sizeof q->bytes), q->bytes, sizeof q->bytes);
}

static uint8_t *unwritten(enum place place, const struct queue *q)
{
    return (uint8_t *)lend(queue_arena, place, q->bytes, sizeof q->bytes);
}

static bool left(enum place place, const struct queue *after)
{
    return holds(queue_arena, place, sizeof after->bytes, after->bytes, sizeof after->bytes);
}

/* A post has this answer and leaves these bytes. */
static bool post_leaves(const struct queue *q, uint32_t area, uint32_t hour, uint32_t number, const struct queue *after)
{
    bool ok = true;
    for (enum place place = 0; place < PLACES && ok; place++) {
        ok = is_number(lta_queue_post(written(place, q), area, hour), number) && left(place, after);
        if (ok && number != 0)
            ok = is_number(lta_queue_post(unwritten(place, q), area, hour), number);
    }
    return ok;
}

static bool serve_leaves(const struct queue *q, uint32_t number, uint32_t area, uint32_t hour, const struct queue *after)
{
    bool ok = true;
    for (enum place place = 0; place < PLACES && ok; place++) {
        ok = is(lta_queue_serve(written(place, q)), number, area, hour) && left(place, after);
        if (ok && number != 0)
            ok = is(lta_queue_serve(unwritten(place, q)), number, area, hour);
    }
    return ok;
}

/* Where an area's cells begin. */
static size_t cells_of(uint32_t area) { return (size_t)LTA_QUEUE_HOURS * area; }

/* What waits in an area, then zeros. */
static size_t waiting(const struct queue *q, uint32_t area)
{
    size_t count = 0;
    while (count < LTA_QUEUE_HOURS && q->bytes[cells_of(area) + count] != 0)
        count++;
    return count;
}

/* Checks a post, taken or refused, on a queue that calls left; then makes it. */
static void posted(struct queue *q, uint32_t area, uint32_t hour)
{
    struct queue after = *q;
    after.bytes[cells_of(area) + waiting(q, area)] = (uint8_t)(hour + 1);
    check(post_leaves(q, area, hour, 0, &after));
    *q = after;
}

static void refused(const struct queue *q, uint32_t area, uint32_t hour, uint32_t number)
{
    check(post_leaves(q, area, hour, number, q));
}

static void served(struct queue *q, uint32_t area, uint32_t hour)
{
    struct queue after = *q;
    uint8_t *cells = after.bytes + cells_of(area);
    memmove(cells, cells + 1, LTA_QUEUE_HOURS - 1);
    cells[LTA_QUEUE_HOURS - 1] = 0;
    after.bytes[LTA_QUEUE_TURN] = (uint8_t)((area + 1) % LTA_QUEUE_AREAS);
    check(serve_leaves(q, 0, area, hour, &after));
    *q = after;
}

static void nothing_served(const struct queue *q) { check(serve_leaves(q, LTA_QUEUE_NOTHING, 0, 0, q)); }

static void layout(void)
{
    about("struct lta_served has 16 bytes");
    check(sizeof(struct lta_served) == 16 && offsetof(struct lta_served, number) == 0 && offsetof(struct lta_served, index) == 4
          && offsetof(struct lta_served, area) == 8 && offsetof(struct lta_served, hour) == 12);
    about("cells of each area and the turn are all of a queue");
    check(LTA_QUEUE_SIZE == LTA_QUEUE_TURN + 1 && LTA_QUEUE_TURN == LTA_QUEUE_AREAS * LTA_QUEUE_HOURS);
    about("a lent queue has unreadable pages beside it");
    const uint8_t *at_end = written(AT_END, &empty);
    check(unreadable(at_end + LTA_QUEUE_SIZE));
    const uint8_t *at_start = written(AT_START, &empty);
    check(unreadable(at_start - 1));
    about("a queue lent as unwritable is");
    check(unwritable(unwritten(AT_END, &empty)));
}

static void turns(void)
{
    struct queue q = empty;
    about("a serve of the empty queue");
    nothing_served(&q);
    about("posts that are taken");
    posted(&q, 2, 7);
    posted(&q, 1, 5);
    posted(&q, 1, 3);
    posted(&q, 0, 24);
    about("area 0 first of all");
    served(&q, 0, 24);
    about("posted again at once");
    posted(&q, 0, 24);
    about("the next area in turn, and its earliest posted");
    served(&q, 1, 5);
    served(&q, 2, 7);
    about("past an area that has nothing waiting");
    served(&q, 0, 24);
    served(&q, 1, 3);
    about("a queue that serves emptied");
    nothing_served(&q);
    about("the turn is kept where nothing was found");
    posted(&q, 1, 0);
    posted(&q, 3, 0);
    served(&q, 3, 0);
    served(&q, 1, 0);
}

static void limits(void)
{
    struct queue q = empty;
    about("area 3 and hour 24 are taken");
    posted(&q, 3, 24);
    about("area and hour 0 are taken");
    posted(&q, 0, 0);
    const uint32_t areas[] = {4, 5, 255, 256, 65536, INT32_MAX, UINT32_C(1) << 31, UINT32_MAX};
    const uint32_t hours[] = {25, 26, 255, 256, 65536, INT32_MAX, UINT32_C(1) << 31, UINT32_MAX};
    for (size_t k = 0; k < COUNT(areas); k++) {
        about("area %" PRIu32, areas[k]);
        refused(&q, areas[k], 1, LTA_QUEUE_AREA);
        about("hour %" PRIu32, hours[k]);
        refused(&q, 1, hours[k], LTA_QUEUE_HOUR);
        about("area %" PRIu32 " and hour %" PRIu32, areas[k], hours[k]);
        refused(&q, areas[k], hours[k], LTA_QUEUE_AREA);
    }
    about("an hour that waits in its area");
    refused(&q, 3, 24, LTA_QUEUE_WAITING);
    refused(&q, 0, 0, LTA_QUEUE_WAITING);
    about("an hour that waits in another area");
    posted(&q, 0, 24);
    about("an area over 3, with an hour that others have waiting");
    refused(&q, 4, 24, LTA_QUEUE_AREA);
}

/* All hours of the long day wait: no post is taken, and the hundredth serve serves the last one. */
static void longest(void)
{
    struct queue q = empty;
    for (uint32_t place = 0; place < 100; place++) {
        about("hour %" PRIu32 " of area %" PRIu32, place % 25, place / 25);
        posted(&q, place / 25, place % 25);
    }
    for (uint32_t place = 0; place < 100; place++) {
        about("hour %" PRIu32 " of area %" PRIu32 " once more", place % 25, place / 25);
        refused(&q, place / 25, place % 25, LTA_QUEUE_WAITING);
    }
    struct queue again = q;
    for (uint32_t serve = 0; serve < 100; serve++) {
        about("serve %" PRIu32 " of all hours", serve + 1);
        served(&q, serve % 4, serve / 4);
    }
    about("all were served");
    nothing_served(&q);
    /* the same if every other hour is posted again as soon as it is served */
    for (uint32_t serve = 0; serve < 99; serve++) {
        about("serve %" PRIu32 ", and posted again", serve + 1);
        served(&again, serve % 4, serve / 4);
        posted(&again, serve % 4, serve / 4);
    }
    about("the hundredth serve, the others posted again");
    served(&again, 3, 24);
}

/* Bytes that no call left. */
static void any_bytes(void)
{
    struct queue q, after;
    memset(q.bytes, 255, sizeof q.bytes);
    about("bytes of all bits are an empty queue");
    nothing_served(&q);
    about("a post to them writes its area's cells alone");
    after = q;
    memset(after.bytes + 50, 0, LTA_QUEUE_HOURS);
    after.bytes[50] = 10;
    check(post_leaves(&q, 2, 9, 0, &after));
    about("a serve then writes them and the turn");
    q = after;
    after.bytes[50] = 0;
    after.bytes[LTA_QUEUE_TURN] = 3;
    check(serve_leaves(&q, 0, 2, 9, &after));

    q = empty;
    q.bytes[0] = 26;
    q.bytes[3] = 9;
    q.bytes[5] = 9;
    q.bytes[24] = 25;
    q.bytes[LTA_QUEUE_TURN] = 254;
    about("hours between free cells wait");
    refused(&q, 0, 8, LTA_QUEUE_WAITING);
    refused(&q, 0, 24, LTA_QUEUE_WAITING);
    about("a post closes what is free between them");
    after = empty;
    memcpy(after.bytes, (const uint8_t[]){9, 25, 1}, 3);
    after.bytes[LTA_QUEUE_TURN] = 254;
    check(post_leaves(&q, 0, 0, 0, &after));
    about("a turn is taken modulo 4");
    q = after;
    q.bytes[75] = 2;
    after = q;
    after.bytes[75] = 0;
    after.bytes[LTA_QUEUE_TURN] = 0;
    check(serve_leaves(&q, 0, 3, 1, &after));
}

/* THE STORED RUNS: one event per line, with its answer after it. */
static bool same_line(FILE *answers, const char *expected)
{
    char line[LINE];
    if (fgets(line, sizeof line, answers) == NULL || strcmp(line, expected) != 0) {
        wrong("the archive gives '%s'", expected);
        return false;
    }
    return true;
}

static void stored_runs(void)
{
    FILE *events = fopen(events_name, "r"), *answers = fopen(answers_name, "r");
    about("the stored runs can be read");
    check(events != NULL && answers != NULL);
    if (events == NULL || answers == NULL)
        return;
    uint8_t *queue = written(AT_END, &empty);
    char line[LINE], answered[2 * LINE];
    unsigned long count = 0;
    bool ok = true;
    while (ok && fgets(line, sizeof line, events) != NULL) {
        uint32_t one = 0, other = 0;
        line[strcspn(line, "\n")] = '\0';
        about("event %lu of the stored runs, '%.100s'", ++count, line);
        if (line[0] == '#') {
            memset(queue, 0, LTA_QUEUE_SIZE);
            snprintf(answered, sizeof answered, "%s\n", line);
        } else if (sscanf(line, "byte %" SCNu32 " %" SCNu32, &one, &other) == 2) {
            queue[one] = (uint8_t)other;
            snprintf(answered, sizeof answered, "%s\n", line);
        } else if (sscanf(line, "post %" SCNu32 " %" SCNu32, &one, &other) == 2) {
            snprintf(answered, sizeof answered, "%s: %" PRIu32 "\n", line, lta_queue_post(queue, one, other));
        } else {
            struct lta_served s = lta_queue_serve(queue);
            snprintf(answered, sizeof answered, "%s: %" PRIu32 " %" PRIu32 " %" PRIu32 " %" PRIu32 "\n", line, s.number, s.index, s.area,
                     s.hour);
        }
        ok = same_line(answers, answered);
        if (!ok)
            check(false);
    }
    about("the stored runs have %lu events, and no answer more", count);
    check(ok && count > 500 && fgets(line, sizeof line, answers) == NULL);
    fclose(events);
    fclose(answers);
}

static struct {
    struct queue queue;
    uint32_t number;
    struct lta_served served;
} call;

static void call_post(void) { call.number = lta_queue_post(call.queue.bytes, 3, 24); }
static void call_serve(void) { call.served = lta_queue_serve(call.queue.bytes); }

static void small_stack(void)
{
    for (uint8_t k = 0; k < LTA_QUEUE_HOURS - 1; k++)
        call.queue.bytes[75 + k] = (uint8_t)(k + 1);
    about("a post on a stack of %d bytes", STACK_ENOUGH);
    on_stack(STACK_ENOUGH, call_post);
    check(call.number == 0 && call.queue.bytes[99] == 25);
    about("a serve on a stack of %d bytes", STACK_ENOUGH);
    on_stack(STACK_ENOUGH, call_serve);
    check(is(call.served, 0, 3, 0));
}

int main(int count, char **words)
{
    if (count != 3) {
        fprintf(stderr, "usage: queue_test EVENTS ANSWERS\n");
        return 2;
    }
    events_name = words[1];
    answers_name = words[2];
    queue_arena = arena(LTA_QUEUE_SIZE);

    group("struct and queue have the header's sizes", layout);
    group("areas are served by turns, hours in the order posted", turns);
    group("a wrong area, a wrong hour and a second post are refused", limits);
    group("the longest waits are 4 and 100 serves", longest);
    group("any bytes are a queue", any_bytes);
    group("stored runs are answered as stored", stored_runs);
    group("the stack that the header names is enough", small_stack);
    return closing();
}
