/* memory PLACE FILE [STEP]: calls the archive on the cases of the file, every STEPth of them, in exact buffers at a place
 * (lend.h: end, start or heap), and compares what comes back. memory PLACE try: tries the watch at that place.
 * Ends with status 0 if all is right. */
#include <stdio.h>
#include <stdlib.h>
#include <string.h>

#include "cases.h"
#include "enter.h"
#include "lend.h"
#include "watch.h"

/* Whether a lent buffer has these bytes. */
static int same(const struct lent *lent, const uint8_t *bytes)
{
    return lent->length == 0 || memcmp(lent->at, bytes, lent->length) == 0;
}

/* Runs one case at a place; 1 if the answer, the lists and the whole output buffers are as they must be. */
static int run_case(const struct call *call, enum place place)
{
    struct lent in[MOST_LISTS], out[MOST_OUTPUTS];
    uint64_t words[4];
    memset(words, 0xA5, sizeof words);
    for (size_t i = 0; i < call->lists; i++)
        in[i] = lend(place, call->list[i].at, call->list[i].length, 0);
    for (size_t i = 0; i < call->outputs; i++)
        out[i] = lend(place, call->before[i].at, call->before[i].length, 1);
    struct lent answer = lend(place, (const uint8_t *)words, sizeof words, 1);
    uint8_t number = enter(call, in, out, (uint64_t *)(void *)answer.at);
    int fine = number == call->number && same(&answer, (const uint8_t *)call->words);
    for (size_t i = 0; i < call->lists; i++) {
        fine = fine && same(&in[i], call->list[i].at);
        take_back(&in[i]);
    }
    for (size_t i = 0; i < call->outputs; i++) {
        fine = fine && same(&out[i], call->after[i].at);
        take_back(&out[i]);
    }
    take_back(&answer);
    return fine;
}

/* The operations of which no call was worked through, or none refused. */
static unsigned long not_met(unsigned long met[OPERATIONS][2])
{
    unsigned long missing = 0;
    for (int operation = 0; operation < OPERATIONS; operation++) {
        if (met[operation][0] > 0 && met[operation][1] > 0)
            continue;
        fprintf(stderr, "memory: operation %d: %lu calls worked through, %lu refused\n", operation, met[operation][0],
                met[operation][1]);
        missing++;
    }
    return missing;
}

/* Runs the cases of a file; the number of those that went wrong, and of the operations that they do not try. */
static unsigned long run_file(FILE *file, enum place place, unsigned long step)
{
    struct call call;
    unsigned long wrong = 0, done = 0, refused = 0, met[OPERATIONS][2] = {{0}};
    for (case_under_way = 0; read_case(file, &call); case_under_way++) {
        if (case_under_way % step == 0) {
            int fine = run_case(&call, place);
            if (!fine)
                fprintf(stderr, "memory: case %lu, operation %d, differs\n", case_under_way, call.operation);
            wrong += !fine;
            done++;
            refused += call.number != 0;
            met[call.operation][call.number != 0]++;
        }
        free_case(&call);
    }
    printf("%lu calls, %lu of them refused, %lu wrong\n", done, refused, wrong);
    return wrong + not_met(met);
}

static enum place place_of(const char *word)
{
    static const char *const names[PLACES] = {"end", "start", "heap"};
    int place = 0;
    while (place < PLACES && strcmp(word, names[place]) != 0)
        place++;
    return (enum place)place;
}

int main(int count, char **words)
{
    enum place place = count >= 3 ? place_of(words[1]) : PLACES;
    if (place == PLACES) {
        fputs("usage: memory end|start|heap FILE|try [STEP]\n", stderr);
        return 2;
    }
    if (place != ON_THE_HEAP)
        watch();
    if (strcmp(words[2], "try") == 0) {
        int works = watch_works(place);
        puts(works ? "a touch outside is noticed" : "a touch outside is NOT noticed");
        return works ? 0 : 1;
    }
    FILE *file = fopen(words[2], "rb");
    if (file == NULL) {
        perror(words[2]);
        return 2;
    }
    unsigned long step = count > 3 ? strtoul(words[3], NULL, 10) : 1;
    unsigned long wrong = run_file(file, place, step > 0 ? step : 1);
    fclose(file);
    return wrong == 0 ? 0 : 1;
}
