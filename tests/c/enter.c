/* The archive's functions, by the operation's number. */
#include "enter.h"

#include <stdlib.h>

#include "weighhare.h"

#define LIST(lent) (lent).at, (lent).length

uint8_t enter(const struct call *call, const struct lent *in, const struct lent *out, uint64_t answer[4])
{
    switch (call->operation) {
    case CHECK:
        return weighhare_check(LIST(in[0]), answer);
    case PLAIN:
        return weighhare_plain(LIST(in[0]), LIST(in[1]), LIST(out[0]), answer);
    case GARBLE:
        return weighhare_garble(LIST(in[0]), LIST(in[1]), call->run, call->scheme, call->mark, LIST(out[0]), LIST(out[1]),
                                LIST(out[2]), answer);
    case ENCODE:
        return weighhare_encode(LIST(in[0]), LIST(in[1]), LIST(in[2]), LIST(in[3]), LIST(out[0]), answer);
    case EVALUATE:
        return weighhare_evaluate(LIST(in[0]), LIST(in[1]), LIST(in[2]), LIST(out[0]), answer);
    case EVALUATE_GATES: {
        const weighhare_gate *gates = (const weighhare_gate *)(const void *)in[0].at;
        size_t q = in[0].length / sizeof *gates;
        return weighhare_evaluate_gates(call->n, call->m, gates, q, LIST(in[1]), LIST(in[2]), LIST(out[0]), answer);
    }
    case OUTPUT_TOKENS:
        return weighhare_output_tokens(LIST(in[0]), LIST(in[1]), LIST(out[0]), answer);
    case DECODE:
        return weighhare_decode(LIST(in[0]), LIST(in[1]), LIST(in[2]), LIST(out[0]), answer);
    case PICK:
        return weighhare_pick(LIST(in[0]), LIST(in[1]), call->wire, call->bit, answer);
    case COMPARATOR:
        return weighhare_comparator(call->width, LIST(out[0]), answer);
    default:
        abort();
    }
}
