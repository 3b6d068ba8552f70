/* The cases and the controls, under valgrind's memcheck. Ends with status 0 if all is right. */
#include <stdio.h>

#include "marks.h"
#include "trials.h"
#include "weighhare.h"

static void controls(void)
{
    struct outcome o = try_look_up();
    report_control(&o, "control: a look-up by a secret byte is noticed");
    o = try_branch();
    report_control(&o, "control: a branch by a secret bit is noticed");
    struct circuit c = make_circuit(0);
    for (uint8_t scheme = 1; scheme <= 4; scheme++) {
        o = try_evaluate(&c, scheme);
        report_control(&o, "control: evaluate, scheme %d, is noticed", scheme);
    }
    free_circuit(&c);
}

static void cases(const struct circuit *c)
{
    static const uint16_t marks[2] = {WEIGHHARE_COLOURS, WEIGHHARE_HASHES};
    struct outcome o;
    for (int i = 0; i < 8; i++) {
        uint8_t scheme = (uint8_t)(1 + i % 4);
        o = try_garble(c, scheme, marks[i / 4]);
        report_case(&o, "garble, scheme %d, mark %04X, %s", scheme, marks[i / 4], c->name);
        o = try_decode(c, scheme, marks[i / 4]);
        report_case(&o, "decode, scheme %d, mark %04X, %s", scheme, marks[i / 4], c->name);
    }
    o = try_encode(c);
    report_case(&o, "encode, %s", c->name);
}

int main(void)
{
    if (!is_watched()) {
        fputs("constant_time: this is to be run under valgrind\n", stderr);
        return 2;
    }
    controls();
    for (size_t i = 0; i < circuit_count; i++) {
        struct circuit c = make_circuit(i);
        cases(&c);
        free_circuit(&c);
    }
    struct outcome o = try_pick();
    report_case(&o, "pick");
    return report_all();
}
