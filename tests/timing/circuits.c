/* The circuits, drawn gate by gate. */
#include "circuits.h"

#include <stdio.h>
#include <stdlib.h>

#include "weighhare.h"

enum { LONGEST = 720879, LAST_WIRE = 65535 };

static const uint8_t charged[8] = {1, 2, 4, 7, 8, 11, 13, 14}, unpaid[6] = {3, 5, 6, 9, 10, 12};

/* A circuit under way: its records so far, the wire that was drawn last, and its counts. */
struct drawing {
    uint8_t *bytes;
    size_t length, n, wire, m;
};

static void put16(uint8_t *at, size_t number)
{
    at[0] = (uint8_t)(number >> 8), at[1] = (uint8_t)number;
}

static void inputs(struct drawing *d, size_t n)
{
    d->n = d->wire = n;
    d->length = 8;
}

static void gate(struct drawing *d, size_t a, size_t b, unsigned code)
{
    uint8_t *record = d->bytes + d->length;
    record[0] = 0x43, record[1] = 0x47, record[6] = (uint8_t)code;
    put16(record + 2, a);
    put16(record + 4, b);
    d->length += 7;
    d->wire++;
}

/* An output by name: these come after all gates. */
static void output(struct drawing *d, size_t wire)
{
    uint8_t *record = d->bytes + d->length;
    record[0] = 0x43, record[1] = 0x4F;
    put16(record + 2, wire);
    d->length += 4;
    d->m++;
}

/* The last m wires as outputs. */
static void last_outputs(struct drawing *d, size_t m)
{
    d->m = m;
    d->bytes[0] = 0x43, d->bytes[1] = 0x48;
}

/* The first and the last wire, the middle, an input and a gate's wire again: named in no order. */
static void named_outputs(struct drawing *d)
{
    const size_t wires[] = {d->wire, 1, (d->wire + 1) / 2, d->n, d->n + 1, d->wire, 2};
    for (size_t i = 0; i < sizeof wires / sizeof wires[0]; i++)
        output(d, wires[i]);
    d->bytes[0] = 0x43, d->bytes[1] = 0x49;
}

static void one_charged(struct drawing *d)
{
    inputs(d, 2);
    gate(d, 1, 2, 8);
    last_outputs(d, 1);
}

static void one_free(struct drawing *d)
{
    inputs(d, 2);
    gate(d, 1, 2, 9);
    last_outputs(d, 1);
}

/* Each of these codes on the first two wires, the last two, the first and the last, and two in the middle. */
static void each_code(struct drawing *d, const uint8_t *codes, size_t count)
{
    for (size_t i = 0; i < count; i++) {
        gate(d, 1, 2, codes[i]);
        gate(d, d->wire - 1, d->wire, codes[i]);
        gate(d, 1, d->wire, codes[i]);
        gate(d, d->wire / 3 + 1, d->wire / 2 + 1, codes[i]);
    }
}

static void every_code(struct drawing *d)
{
    inputs(d, 5);
    each_code(d, charged, 8);
    each_code(d, unpaid, 6);
    each_code(d, charged, 8);
    last_outputs(d, d->wire - d->n);
}

static void every_code_named(struct drawing *d)
{
    inputs(d, 6);
    each_code(d, unpaid, 6);
    each_code(d, charged, 8);
    named_outputs(d);
}

static void free_alone(struct drawing *d)
{
    inputs(d, 3);
    each_code(d, unpaid, 6);
    last_outputs(d, 20);
}

static void free_alone_named(struct drawing *d)
{
    inputs(d, 4);
    each_code(d, unpaid, 6);
    named_outputs(d);
}

/* So many inputs, each with those before it, and two charged gates fewer than inputs. */
static void few(struct drawing *d, size_t n)
{
    inputs(d, n);
    for (size_t i = 2; i < n; i++)
        gate(d, i - 1, d->wire, charged[(n + i) % 8]);
    last_outputs(d, 1);
}

static void three(struct drawing *d) { few(d, 3); }
static void four(struct drawing *d) { few(d, 4); }
static void five(struct drawing *d) { few(d, 5); }
static void six(struct drawing *d) { few(d, 6); }
static void seven(struct drawing *d) { few(d, 7); }
static void eight(struct drawing *d) { few(d, 8); }
static void nine(struct drawing *d) { few(d, 9); }

/* Codes and operands in an order that follows a rule and looks like none. */
static void mixed(struct drawing *d)
{
    uint32_t state = 1;
    inputs(d, 130);
    for (int i = 0; i < 300; i++) {
        state = state * 1664525 + 1013904223;
        size_t b = 2 + (state >> 8) % (d->wire - 1), a = 1 + (state >> 4) % (b - 1);
        gate(d, a, b, 1 + (state >> 20) % 14);
    }
    named_outputs(d);
}

/* All wires that there can be. Charged are the first gate, the last, and those where a wire number, or four times it, or twice,
 * gets longer by a byte. */
static void longest(struct drawing *d)
{
    inputs(d, 2);
    while (d->wire < LAST_WIRE) {
        size_t g = d->wire + 1;
        int paid = g == 3 || (g & (g - 1)) == 0 || (g & (g + 1)) == 0 || g == LAST_WIRE - 1;
        gate(d, g / 3, g - 1, paid ? charged[g % 8] : unpaid[g % 6]);
    }
    last_outputs(d, 9);
}

static void drawn_comparator(struct drawing *d)
{
    uint64_t answer[4];
    if (weighhare_comparator(64, d->bytes, LONGEST, answer) != 0)
        exit(2);
    inputs(d, 128);
    d->length = answer[0];
    d->wire = 381;
    last_outputs(d, 1);
}

static const struct {
    const char *name;
    void (*draw)(struct drawing *);
} drawings[] = {
    {"one charged gate", one_charged},
    {"one free gate", one_free},
    {"every code", every_code},
    {"every code, outputs by name", every_code_named},
    {"free gates alone", free_alone},
    {"free gates alone, outputs by name", free_alone_named},
    {"3 inputs, 1 charged gate", three},
    {"4 inputs, 2 charged gates", four},
    {"5 inputs, 3 charged gates", five},
    {"6 inputs, 4 charged gates", six},
    {"7 inputs, 5 charged gates", seven},
    {"8 inputs, 6 charged gates", eight},
    {"9 inputs, 7 charged gates", nine},
    {"130 inputs, 300 gates of any code, outputs by name", mixed},
    {"the comparator of 64 bits", drawn_comparator},
    {"as many wires as there can be", longest},
};

const size_t circuit_count = sizeof drawings / sizeof drawings[0];

struct circuit make_circuit(size_t i)
{
    struct drawing d = {.bytes = calloc(LONGEST, 1)};
    struct circuit c = {.name = drawings[i].name};
    if (d.bytes == NULL)
        exit(2);
    drawings[i].draw(&d);
    put16(d.bytes + 2, d.n);
    put16(d.bytes + 4, d.m);
    put16(d.bytes + 6, d.wire - d.n);
    c.bytes = d.bytes;
    c.length = d.length;
    uint8_t number = weighhare_check(c.bytes, c.length, c.sizes);
    if (number != 0) {
        fprintf(stderr, "constant_time: %s: refused %d at %lu\n", c.name, number, (unsigned long)c.sizes[0]);
        exit(2);
    }
    return c;
}

void free_circuit(struct circuit *c)
{
    free(c->bytes);
}
