/* What the C tests share: named checks that are counted; groups of checks in processes of their own; answers
 * compared with the expected ones; memory between unreadable pages. */
#ifndef HARNESS_H
#define HARNESS_H

#include "lta_judgement.h"

#include <stdbool.h>
#include <stddef.h>
#include <stdint.h>

/* CHECKS. `about` names what is tried next; `check` counts it under that name, passed or failed, and a crash is
 * reported under it too. `wrong` prints a detail of a failure and leaves the counting to `check`. */
void about(const char *format, ...) __attribute__((format(printf, 1, 2)));
void check(bool ok);
void wrong(const char *format, ...) __attribute__((format(printf, 1, 2)));

/* Runs checks in a child process. If they end it, by a guard page or otherwise, that counts as one failed check,
 * and the next group runs. */
void group(const char *name, void (*checks)(void));

/* Prints 'N passed, M failed' and returns the program's status: 0 only if some passed and none failed. */
int closing(void);

/* ANSWERS. Whether an entry gives the expected answer; if not, both are printed. */
bool is_verdict(uint64_t verdict, uint32_t number, uint32_t index);
bool is_written(struct lta_written answer, uint32_t number, uint64_t index, uint64_t length);

/* The number of elements of an array. */
#define COUNT(list) (sizeof(list) / sizeof *(list))

/* MEMORY between two pages that can be neither read nor written. */
struct arena {
    uint8_t *start; /* the first byte that can be used */
    size_t size;    /* whole pages */
};

/* Where the lent bytes are: they end at the page behind, or begin at the page in front. Bytes that are not lent
 * hold a fill, and so does a writable array before the call; the two places have complementary fills. */
enum place { AT_END, AT_START };
#define PLACES 2

/* Every way to place the arguments of a call, counted from 0. */
#define WAYS(arguments) (1u << (arguments))
enum place place_of(unsigned way, unsigned argument);

struct arena arena(size_t least);

/* Lends bytes that can be read and not written. An empty array points into an unreadable page. */
const void *lend(struct arena a, enum place place, const void *bytes, size_t length);

/* Lends bytes to be written. */
uint8_t *lend_room(struct arena a, enum place place, size_t length);

/* Whether the lent room begins with these bytes, and all else in the arena still has its fill. `holds` also prints
 * the first byte that differs. */
bool holds(struct arena a, enum place place, size_t length, const uint8_t *bytes, size_t count);
bool only_these_written(struct arena a, enum place place, size_t length, const uint8_t *bytes, size_t count);

/* Whether reading this byte, or writing it, ends the process. */
bool unreadable(const volatile uint8_t *at);
bool unwritable(volatile uint8_t *at);

/* Calls a function on a stack of this many bytes between unreadable pages. */
void on_stack(size_t size, void (*call)(void));

/* A painted stack. `paint` fills the arena for a place, `call_on` calls a function with the arena as its stack,
 * and `touched` returns how many bytes lie from the top of the stack down to the deepest one that changed. A byte
 * overwritten with its own fill shows with the other fill. */
void paint(struct arena a, enum place place);
void call_on(struct arena a, void (*call)(void));
size_t touched(struct arena a, enum place place);

/* The stack that is enough for every entry, by the header. */
#define STACK_ENOUGH 16384

#endif
