/* measure ROUNDS [FIRST]: times the library and the baselines, in turn in each round, and prints a line of words for each
 * result. FIRST is the number of the first round, 0 where it is not given: who is first in a round depends on its number.
 * measure once WORKER OPERATION SCHEME Q: one call, for a count of its instructions. report.py says what the lines mean. */
#include <stdio.h>
#include <stdlib.h>
#include <string.h>

#include "agree.h"
#include "marked.h"
#include "repeated.h"
#include "rounds.h"
#include "subject.h"

enum { LARGEST = 60000, MOST_FIRST = 1000000 };

enum operation { CHECK, GARBLE, EVALUATE };
static const char *const operation_names[] = {"check", "garble", "evaluate"};

static void run(const struct worker *w, struct subject *s, enum operation operation, uint8_t scheme)
{
    if (operation == CHECK)
        run_check(w, s);
    else if (operation == GARBLE)
        run_garble(w, s, scheme);
    else
        run_evaluate(w, s);
}

static int can(const struct worker *w, enum operation operation)
{
    return operation != EVALUATE || w->evaluate != NULL;
}

/* The time of one call; of a small circuit, the mean of as many calls as make up a large one. */
static double time_of(const struct worker *w, struct subject *s, enum operation operation, uint8_t scheme)
{
    size_t calls = LARGEST / s->q;
    double start = now();
    for (size_t i = 0; i < calls; i++)
        run(w, s, operation, scheme);
    return (now() - start) / (double)calls;
}

/* What is measured of one circuit, in this order: evaluate takes the material of the garbling before it. */
static const struct job {
    enum operation operation;
    uint8_t scheme;
} jobs[] = {{CHECK, 3}, {GARBLE, 1}, {EVALUATE, 1}, {GARBLE, 2}, {EVALUATE, 2}, {GARBLE, 3}, {EVALUATE, 3}, {GARBLE, 4}, {EVALUATE, 4}};

enum { JOBS = sizeof jobs / sizeof jobs[0], SIZES = 4 };

static const size_t sizes[SIZES] = {1000, 4000, 16000, LARGEST};

/* Nanoseconds for a charged gate, or for a gate of check: by size, job, worker and round. */
static double times[SIZES][JOBS][MOST_WORKERS][MOST_ROUNDS];

/* Every job of a circuit once by each worker, one worker right after the other. The first of them finds what another job left
 * in the caches, so `leader` is first, which is another worker in the next round. */
static void measure(struct subject *s, double (*of_size)[MOST_WORKERS][MOST_ROUNDS], unsigned round, unsigned leader)
{
    for (int job = 0; job < JOBS; job++) {
        enum operation operation = jobs[job].operation;
        double gates = (double)(operation == CHECK ? s->q : s->p);
        for (unsigned turn = 0; turn < worker_count; turn++) {
            unsigned i = (leader + turn) % worker_count;
            if (!can(&workers[i], operation))
                continue;
            of_size[job][i][round] = time_of(&workers[i], s, operation, jobs[job].scheme) / gates;
        }
    }
}

static void print_all(unsigned rounds)
{
    for (int size = 0; size < SIZES; size++)
        for (int job = 0; job < JOBS; job++)
            for (unsigned i = 0; i < worker_count; i++)
                if (can(&workers[i], jobs[job].operation))
                    print_rounds(operation_names[jobs[job].operation], jobs[job].scheme, sizes[size], workers[i].name,
                                 times[size][job][i], rounds);
}

/* A round goes over all circuits and jobs, so that a busy moment of the machine falls on few rounds of each. */
static void measure_all(unsigned rounds, unsigned first)
{
    struct subject subjects[SIZES];
    agree_on_damage(600);
    for (int size = 0; size < SIZES; size++) {
        subjects[size] = make_subject(sizes[size]);
        agree_on(&subjects[size]);
    }
    agree_on_one_operand(600);
    agree_on_runs(75);
    agree_on_named(600);
    for (unsigned round = 0; round < rounds; round++)
        for (int size = 0; size < SIZES; size++)
            measure(&subjects[size], times[size], round, (first + round) % worker_count);
    print_all(rounds);
    for (uint8_t scheme = 1; scheme <= 4; scheme++) {
        measure_repeated(&subjects[1], scheme, rounds, first);
        measure_marked(&subjects[1], scheme, rounds, first);
    }
    for (int size = 0; size < SIZES; size++)
        free_subject(&subjects[size]);
}

static int run_once(char **words)
{
    struct subject s = make_subject(strtoul(words[5], NULL, 10));
    uint8_t scheme = (uint8_t)strtoul(words[4], NULL, 10);
    for (unsigned i = 0; i < worker_count; i++) {
        for (int operation = CHECK; operation <= EVALUATE; operation++) {
            if (strcmp(words[2], workers[i].name) != 0 || strcmp(words[3], operation_names[operation]) != 0 ||
                !can(&workers[i], (enum operation)operation))
                continue;
            /* Evaluate needs a garbling: another worker's, so that it does not count. */
            run_garble(&workers[i == 0 ? 1 : 0], &s, scheme);
            run(&workers[i], &s, (enum operation)operation, scheme);
            free_subject(&s);
            return 0;
        }
    }
    return 2;
}

int main(int count, char **words)
{
    find_workers();
    if (count == 6 && strcmp(words[1], "once") == 0)
        return run_once(words);
    unsigned long rounds = count == 2 || count == 3 ? strtoul(words[1], NULL, 10) : 0;
    unsigned long first = count == 3 ? strtoul(words[2], NULL, 10) : 0;
    if (rounds < 1 || rounds > MOST_ROUNDS || first > MOST_FIRST) {
        fputs("usage: measure ROUNDS [FIRST] | measure once WORKER OPERATION SCHEME Q\n", stderr);
        return 2;
    }
    measure_all((unsigned)rounds, (unsigned)first);
    return 0;
}
