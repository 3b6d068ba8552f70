/* Exact buffers between pages that nobody may touch, or on the heap. */
#include "lend.h"

#include <stdio.h>
#include <stdlib.h>
#include <string.h>
#include <sys/mman.h>
#include <unistd.h>

static void must(int fine)
{
    if (!fine) {
        fputs("memory: no memory for a buffer\n", stderr);
        exit(2);
    }
}

static struct lent on_the_heap(const uint8_t *bytes, size_t length)
{
    struct lent lent = {.length = length, .place = ON_THE_HEAP};
    lent.memory = malloc(length);
    must(lent.memory != NULL || length == 0);
    lent.at = lent.memory;
    if (length > 0)
        memcpy(lent.at, bytes, length);
    return lent;
}

struct lent lend(enum place place, const uint8_t *bytes, size_t length, int writable)
{
    if (place == ON_THE_HEAP)
        return on_the_heap(bytes, length);
    size_t page = (size_t)sysconf(_SC_PAGESIZE);
    size_t inner = (length + page) / page * page; /* at least one page */
    struct lent lent = {.length = length, .taken = inner + 2 * page, .place = place};
    lent.memory = mmap(NULL, lent.taken, PROT_NONE, MAP_PRIVATE | MAP_ANONYMOUS, -1, 0);
    must(lent.memory != MAP_FAILED);
    uint8_t *first = lent.memory + page;
    must(mprotect(first, inner, PROT_READ | PROT_WRITE) == 0);
    lent.at = place == BEFORE_A_WALL ? first + inner - length : first;
    if (length > 0)
        memcpy(lent.at, bytes, length);
    if (!writable)
        must(mprotect(first, inner, PROT_READ) == 0);
    return lent;
}

void take_back(struct lent *lent)
{
    if (lent->place == ON_THE_HEAP)
        free(lent->memory);
    else
        must(munmap(lent->memory, lent->taken) == 0);
}
