/* Faults that valgrind must refuse, and a program without one, in a group as the tests have them.
 *
 *     faults KIND
 *
 * none; unset: a value is used that was never set; past: a byte is read behind its array; lost: memory is not freed.
 */
#include "harness.h"

#include <stdio.h>
#include <stdlib.h>
#include <string.h>

static const char *kind;

static bool is(const char *name) { return strcmp(kind, name) == 0; }

static void fault(void)
{
    volatile uint8_t *bytes = malloc(8);
    if (bytes == NULL)
        exit(2);
    if (!is("unset"))
        bytes[7] = 1;
    uint8_t read = bytes[is("past") ? 8 : 7]; /* NOLINT(clang-analyzer-core.uninitialized.Assign): that is the fault */
    about("a byte that was set is another");
    check(read == 1 || is("unset") || is("past"));
    if (!is("lost"))
        free((void *)bytes);
} /* NOLINT(clang-analyzer-unix.Malloc): that is the fault */

int main(int count, char **words)
{
    if (count != 2) {
        fprintf(stderr, "usage: faults KIND\n");
        return 2;
    }
    kind = words[1];
    group("valgrind finds the fault and nothing else", fault);
    return closing();
}
