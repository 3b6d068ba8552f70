/* Reading a file of cases. */
#include "cases.h"

#include <stdlib.h>
#include <string.h>

static void read_exactly(FILE *file, void *to, size_t length)
{
    if (fread(to, 1, length, file) != length) {
        fputs("memory: the file of cases ends within a case\n", stderr);
        exit(2);
    }
}

/* Bytes of a length, with one to spare: an empty list has an address too. */
static struct bytes read_bytes(FILE *file, size_t length)
{
    struct bytes bytes = {malloc(length + 1), length};
    if (bytes.at == NULL)
        exit(2);
    read_exactly(file, bytes.at, length);
    return bytes;
}

static size_t read_length(FILE *file)
{
    uint64_t length;
    read_exactly(file, &length, sizeof length);
    return length;
}

int read_case(FILE *file, struct call *call)
{
    uint8_t head[4];
    uint16_t numbers[6];
    memset(call, 0, sizeof *call);
    if (fread(head, 1, 1, file) != 1)
        return 0;
    read_exactly(file, head + 1, 3);
    read_exactly(file, numbers, sizeof numbers);
    read_exactly(file, &call->run, sizeof call->run);
    read_exactly(file, &call->width, sizeof call->width);
    read_exactly(file, call->words, sizeof call->words);
    call->operation = head[0], call->scheme = head[1], call->bit = head[2], call->number = head[3];
    call->wire = numbers[0], call->n = numbers[1], call->m = numbers[2], call->mark = numbers[3];
    if (call->operation >= OPERATIONS || numbers[4] > MOST_LISTS || numbers[5] > MOST_OUTPUTS)
        exit(2);
    for (; call->lists < numbers[4]; call->lists++)
        call->list[call->lists] = read_bytes(file, read_length(file));
    for (; call->outputs < numbers[5]; call->outputs++) {
        size_t length = read_length(file);
        call->before[call->outputs] = read_bytes(file, length);
        call->after[call->outputs] = read_bytes(file, length);
    }
    return 1;
}

void free_case(struct call *call)
{
    for (size_t i = 0; i < call->lists; i++)
        free(call->list[i].at);
    for (size_t i = 0; i < call->outputs; i++) {
        free(call->before[i].at);
        free(call->after[i].at);
    }
}
