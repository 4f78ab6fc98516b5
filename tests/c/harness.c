/* See harness.h. The counts are in memory that the children share with their parent. */
#define _DEFAULT_SOURCE /* NOLINT(bugprone-reserved-identifier): the C library asks for this name */
#include "harness.h"

#include <inttypes.h>
#include <signal.h>
#include <stdarg.h>
#include <stdio.h>
#include <stdlib.h>
#include <string.h>
#include <sys/mman.h>
#include <sys/wait.h>
#include <ucontext.h>
#include <unistd.h>

struct counts {
    unsigned passed, failed;
    char name[200];
};

static void give_up(const char *what)
{
    perror(what);
    exit(2);
}

static struct counts *counts(void)
{
    static struct counts *shared = NULL;
    if (shared == NULL) {
        void *page = mmap(NULL, sizeof *shared, PROT_READ | PROT_WRITE, MAP_SHARED | MAP_ANONYMOUS, -1, 0);
        if (page == MAP_FAILED)
            give_up("mmap");
        shared = page;
    }
    return shared;
}

void about(const char *format, ...)
{
    va_list values;
    va_start(values, format);
    vsnprintf(counts()->name, sizeof counts()->name, format, values);
    va_end(values);
}

void check(bool ok)
{
    if (ok) {
        counts()->passed++;
    } else {
        counts()->failed++;
        printf("FAILED: %s\n", counts()->name);
    }
}

void wrong(const char *format, ...)
{
    va_list values;
    va_start(values, format);
    printf("  ");
    vprintf(format, values);
    printf("\n");
    va_end(values);
}

void group(const char *name, void (*checks)(void))
{
    struct counts before = *counts();
    about("%s", name);
    fflush(stdout);
    pid_t child = fork();
    if (child < 0)
        give_up("fork");
    if (child == 0) {
        checks();
        fflush(stdout);
        _exit(0);
    }
    int status = 0;
    if (waitpid(child, &status, 0) != child)
        give_up("waitpid");
    if (WIFSIGNALED(status)) {
        wrong("ended by signal %d", WTERMSIG(status));
        check(false);
    } else if (WEXITSTATUS(status) != 0) {
        wrong("ended with status %d", WEXITSTATUS(status));
        check(false);
    } else if (counts()->passed + counts()->failed == before.passed + before.failed) {
        wrong("checked nothing");
        check(false);
    }
    printf("%-72s %5u passed %3u failed\n", name, counts()->passed - before.passed, counts()->failed - before.failed);
}

bool is_verdict(uint64_t verdict, uint32_t number, uint32_t index)
{
    bool ok = verdict == number + 256 * (uint64_t)index;
    if (!ok)
        wrong("verdict %" PRIu32 " index %" PRIu32 ", and should be %" PRIu32 " index %" PRIu32, LTA_NUMBER(verdict), LTA_INDEX(verdict),
              number, index);
    return ok;
}

bool is_written(struct lta_written answer, uint32_t number, uint64_t index, uint64_t length)
{
    bool ok = answer.number == number && answer.index == index && answer.length == length;
    if (!ok)
        wrong("number %" PRIu32 " index %" PRIu64 " length %" PRIu64 ", and should be %" PRIu32 ", %" PRIu64 " and %" PRIu64, answer.number,
              answer.index, answer.length, number, index, length);
    return ok;
}

int closing(void)
{
    printf("%u passed, %u failed\n", counts()->passed, counts()->failed);
    return counts()->failed == 0 && counts()->passed > 0 ? 0 : 1;
}

static size_t page_size(void) { return (size_t)sysconf(_SC_PAGESIZE); }

struct arena arena(size_t least)
{
    size_t page = page_size(), size = (least + page - 1) / page * page;
    uint8_t *all = mmap(NULL, size + 2 * page, PROT_NONE, MAP_PRIVATE | MAP_ANONYMOUS, -1, 0);
    if (all == MAP_FAILED)
        give_up("mmap");
    return (struct arena){all + page, size};
}

static void protect(struct arena a, int allowed)
{
    if (mprotect(a.start, a.size, allowed) != 0)
        give_up("mprotect");
}

static uint8_t fill(enum place place, size_t at)
{
    uint8_t byte = (uint8_t)(at * 167 + at / 256 + 90);
    return place == AT_END ? byte : (uint8_t)~byte;
}

enum place place_of(unsigned way, unsigned argument) { return way >> argument & 1 ? AT_START : AT_END; }

/* Where the lent bytes begin. An empty array has such a place too, with nothing to read there. */
static uint8_t *lent(struct arena a, enum place place, size_t length)
{
    if (length > a.size) {
        fprintf(stderr, "an arena of %zu bytes lends no %zu\n", a.size, length);
        exit(2);
    }
    if (place == AT_END)
        return a.start + a.size - length;
    return length == 0 ? a.start - page_size() : a.start;
}

static void fill_all(struct arena a, enum place place)
{
    protect(a, PROT_READ | PROT_WRITE);
    for (size_t k = 0; k < a.size; k++)
        a.start[k] = fill(place, k);
}

const void *lend(struct arena a, enum place place, const void *bytes, size_t length)
{
    uint8_t *first = lent(a, place, length);
    fill_all(a, place);
    if (length > 0)
        memcpy(first, bytes, length);
    protect(a, PROT_READ);
    return first;
}

uint8_t *lend_room(struct arena a, enum place place, size_t length)
{
    fill_all(a, place);
    return lent(a, place, length);
}

/* The first byte of the arena that is not as it should be, or the arena's size. */
static size_t differs(struct arena a, enum place place, size_t length, const uint8_t *bytes, size_t count, uint8_t *expected)
{
    size_t first = length == 0 ? 0 : (size_t)(lent(a, place, length) - a.start), k = 0;
    for (; k < a.size; k++) {
        bool written = k >= first && k - first < count;
        *expected = written ? bytes[k - first] : fill(place, k);
        if (a.start[k] != *expected)
            break;
    }
    return k;
}

bool holds(struct arena a, enum place place, size_t length, const uint8_t *bytes, size_t count)
{
    uint8_t expected = 0;
    size_t k = differs(a, place, length, bytes, count, &expected);
    if (k == a.size)
        return true;
    ptrdiff_t at = a.start + k - lent(a, place, length);
    wrong("byte %td of %zu lent is %u and should be %u", at, length, a.start[k], expected);
    return false;
}

bool only_these_written(struct arena a, enum place place, size_t length, const uint8_t *bytes, size_t count)
{
    uint8_t expected = 0;
    return differs(a, place, length, bytes, count, &expected) == a.size;
}

static bool ended_at(volatile uint8_t *at, bool write)
{
    fflush(stdout);
    pid_t child = fork();
    if (child < 0)
        give_up("fork");
    if (child == 0) {
        signal(SIGSEGV, SIG_DFL);
        uint8_t byte = write ? 0 : *at;
        if (write)
            *at = byte;
        _exit(0);
    }
    int status = 0;
    if (waitpid(child, &status, 0) != child)
        give_up("waitpid");
    return WIFSIGNALED(status) && WTERMSIG(status) == SIGSEGV;
}

bool unreadable(const volatile uint8_t *at) { return ended_at((volatile uint8_t *)at, false); }
bool unwritable(volatile uint8_t *at) { return ended_at(at, true); }

void call_on(struct arena a, void (*call)(void))
{
    ucontext_t here, there;
    if (getcontext(&there) != 0)
        give_up("getcontext");
    there.uc_stack.ss_sp = a.start;
    there.uc_stack.ss_size = a.size;
    there.uc_link = &here;
    makecontext(&there, call, 0);
    if (swapcontext(&here, &there) != 0)
        give_up("swapcontext");
}

void on_stack(size_t size, void (*call)(void))
{
    struct arena a = arena(size);
    protect(a, PROT_READ | PROT_WRITE);
    call_on(a, call);
}

void paint(struct arena a, enum place place) { fill_all(a, place); }

size_t touched(struct arena a, enum place place)
{
    size_t k = 0;
    while (k < a.size && a.start[k] == fill(place, k))
        k++;
    return a.size - k;
}
