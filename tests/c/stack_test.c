/* How much stack each entry takes over every stored input, including the largest hours, measured on a painted stack:
 * no more than the header says is enough. A line for each entry has its bytes, which include some hundred of the
 * caller.
 *
 *     stack_test RECORDS          the records of the stored inputs
 */
#include "entries.h"
#include "harness.h"
#include "lta_judgement.h"

#include <stdio.h>

static struct {
    const struct entry *entry;
    struct input in;
    struct answer answer;
} call;

static size_t inputs;

static void call_entry(void) { call.entry->ask(&call.in, &call.answer); }

/* An entry that takes more than this stops at the page below it, or writes past it. */
#define STACK_MOST ((size_t)64 * STACK_ENOUGH)

static void depths(void)
{
    struct arena stack[ENTRIES];
    size_t deepest[ENTRIES] = {0};
    for (size_t k = 0; k < ENTRIES; k++)
        stack[k] = arena(STACK_MOST);
    for (enum place place = 0; place < PLACES; place++) {
        for (size_t k = 0; k < ENTRIES; k++)
            paint(stack[k], place);
        for (size_t number = 0; number < inputs; number++) {
            make_input(number, &call.in);
            for (size_t k = 0; k < ENTRIES; k++) {
                call.entry = &every_entry[k];
                about("%s over input %zu on a stack of %zu bytes", call.entry->name, number, STACK_MOST);
                call_on(stack[k], call_entry);
            }
        }
        for (size_t k = 0; k < ENTRIES; k++) {
            size_t taken = touched(stack[k], place);
            deepest[k] = taken > deepest[k] ? taken : deepest[k];
        }
    }
    for (size_t k = 0; k < ENTRIES; k++) {
        printf("%s %zu bytes\n", every_entry[k].name, deepest[k]);
        about("%s takes %zu bytes of stack, and the header says that %d are enough", every_entry[k].name, deepest[k], STACK_ENOUGH);
        check(deepest[k] > 0 && deepest[k] <= STACK_ENOUGH);
    }
}

int main(int count, char **words)
{
    if (count != 2) {
        fprintf(stderr, "usage: stack_test RECORDS\n");
        return 2;
    }
    inputs = read_inputs(words[1]);
    group("no entry takes more stack than the header says", depths);
    return closing();
}
