/* The clock, and the lines that are printed. */
#include "rounds.h"

#include <stdio.h>
#include <time.h>

double now(void)
{
    struct timespec time;
    clock_gettime(CLOCK_PROCESS_CPUTIME_ID, &time);
    return 1e9 * (double)time.tv_sec + (double)time.tv_nsec;
}

void print_rounds(const char *operation, int scheme, size_t q, const char *worker, const double *times, unsigned rounds)
{
    printf("time %s %d %zu %s", operation, scheme, q, worker);
    for (unsigned round = 0; round < rounds; round++)
        printf(" %.3f", times[round]);
    putchar('\n');
    fflush(stdout);
}
