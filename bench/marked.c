/* What the hashes of the outputs' tokens cost. */
#include "marked.h"

#include "rounds.h"
#include "weighhare.h"

enum { CALLS = 20, MARKS = 2 };

static const uint16_t marks[MARKS] = {WEIGHHARE_COLOURS, WEIGHHARE_HASHES};
static const char *const mark_names[MARKS] = {"colours", "hashes"};

/* The time of one garbling with the subject's mark, for a charged gate. */
static double time_of_garble(struct subject *s, uint8_t scheme)
{
    double start = now();
    for (int i = 0; i < CALLS; i++)
        run_garble(&workers[0], s, scheme);
    return (now() - start) / CALLS / (double)s->p;
}

/* The time of decoding what was garbled last, for an output, with all that is checked before. */
static double time_of_decode(struct subject *s)
{
    find_outputs(s);
    double start = now();
    for (int i = 0; i < CALLS; i++)
        run_decode(&workers[0], s);
    return (now() - start) / CALLS / OUTPUTS;
}

void measure_marked(struct subject *s, uint8_t scheme, unsigned rounds, unsigned first)
{
    static double garble[MARKS][MOST_ROUNDS], decode[MARKS][MOST_ROUNDS];
    for (unsigned round = 0; round < rounds; round++) {
        for (unsigned turn = 0; turn < MARKS; turn++) {
            unsigned mark = (first + round + turn) % MARKS;
            s->mark = marks[mark];
            garble[mark][round] = time_of_garble(s, scheme);
            decode[mark][round] = time_of_decode(s);
        }
    }
    s->mark = WEIGHHARE_COLOURS;
    for (int mark = 0; mark < MARKS; mark++) {
        print_rounds("garble-marked", scheme, s->q, mark_names[mark], garble[mark], rounds);
        print_rounds("decode-marked", scheme, s->q, mark_names[mark], decode[mark], rounds);
    }
}
