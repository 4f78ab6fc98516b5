/* Every entry from eight threads at the same time. Over every stored input each thread must get exactly what a single
 * caller gets, in every byte. The threads begin at different inputs, so that different entries and hours run
 * together.
 *
 *     threads_test RECORDS ROUNDS          the records of the stored inputs, and how often each thread asks them all
 */
#include "entries.h"
#include "harness.h"
#include "lta_judgement.h"

#include <pthread.h>
#include <stdio.h>
#include <stdlib.h>

#define THREADS 8
#define INPUTS_MOST 2000

static size_t inputs, rounds;
static uint64_t alone[INPUTS_MOST][ENTRIES];

/* What a thread has of its own, and the first answer that differed. */
struct caller {
    size_t first, differing, input;
    const struct entry *entry;
    struct input in;
    struct answer answer;
};

/* FNV-1a by words: all of an answer, with what was written, in one number. */
static uint64_t digest(const struct answer *a)
{
    uint64_t sum = 14695981039346656037u;
    for (size_t k = 0; k < COUNT(a->word); k++)
        sum = (sum ^ a->word[k]) * 1099511628211u;
    for (size_t k = 0; k < COUNT(a->out.number); k++)
        sum = (sum ^ (uint64_t)a->out.number[k]) * 1099511628211u;
    return sum;
}

static void *ask_all(void *given)
{
    struct caller *c = given;
    for (size_t k = 0; k < rounds * inputs; k++) {
        size_t number = (c->first + k) % inputs;
        make_input(number, &c->in);
        for (size_t e = 0; e < ENTRIES; e++) {
            ask(&every_entry[e], &c->in, &c->answer);
            if (digest(&c->answer) != alone[number][e] && c->differing++ == 0) {
                c->input = number;
                c->entry = &every_entry[e];
            }
        }
    }
    return NULL;
}

static void ask_alone(void)
{
    static struct caller c;
    for (size_t number = 0; number < inputs; number++) {
        make_input(number, &c.in);
        for (size_t e = 0; e < ENTRIES; e++) {
            ask(&every_entry[e], &c.in, &c.answer);
            alone[number][e] = digest(&c.answer);
        }
    }
}

/* An entry that gives every input the same answer would not be tested, unless it takes no argument. */
static void several_answers(void)
{
    for (size_t e = 0; e < ENTRIES; e++) {
        size_t changes = 0;
        for (size_t number = 1; number < inputs; number++)
            changes += alone[number][e] != alone[number - 1][e];
        about("%s answers %zu inputs otherwise than the one before", every_entry[e].name, changes);
        check(every_entry[e].constant ? changes == 0 : changes >= 20);
    }
}

static void at_once(void)
{
    static struct caller callers[THREADS];
    pthread_t running[THREADS];
    size_t started = 0;
    for (; started < THREADS; started++) {
        callers[started].first = started * inputs / THREADS;
        if (pthread_create(&running[started], NULL, ask_all, &callers[started]) != 0)
            break;
    }
    about("only %zu of %d threads can be started", started, THREADS);
    check(started == THREADS);
    for (size_t k = 0; k < started; k++) {
        pthread_join(running[k], NULL);
        const struct caller *c = &callers[k];
        about("thread %zu was answered otherwise than one alone %zu times, first by %s over input %zu", k, c->differing,
              c->differing > 0 ? c->entry->name : "none", c->input);
        check(c->differing == 0);
    }
}

int main(int count, char **words)
{
    if (count != 3) {
        fprintf(stderr, "usage: threads_test RECORDS ROUNDS\n");
        return 2;
    }
    inputs = read_inputs(words[1]);
    rounds = strtoul(words[2], NULL, 10);
    if (inputs > INPUTS_MOST || rounds == 0) {
        fprintf(stderr, "threads_test: at most %d inputs, and at least a round\n", INPUTS_MOST);
        return 2;
    }
    printf("%zu inputs, %zu rounds\n", inputs, rounds);
    ask_alone();
    group("each entry answers different inputs differently", several_answers);
    group("eight threads at once get the answers of one", at_once);
    return closing();
}
