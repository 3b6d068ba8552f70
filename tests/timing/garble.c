/* Garble with a secret seed. */
#include <string.h>

#include "garbling.h"
#include "marks.h"
#include "trials.h"
#include "weighhare.h"

/* What everybody may know: whether it refused, and lengths and counts; what depends on the seed: every byte of a token. */
static void expect_marks(struct outcome *o, const struct garbling *g)
{
    expect(o, is_public(&g->number, 1) && is_public(g->answer, sizeof g->answer), "the answer depends on the seed");
    expect(o, is_public(g->material, 9), "the material's header depends on the seed");
    expect(o, is_secret(g->zeros, g->zeros_length) && is_secret(g->ones, g->ones_length),
           "a byte of a token does not depend on the seed");
}

static void expect_same(struct outcome *o, const struct garbling *plain, struct garbling *g)
{
    mark_public(&g->number, 1);
    mark_public(g->answer, sizeof g->answer);
    mark_public(g->material, g->material_length);
    mark_public(g->zeros, g->zeros_length);
    mark_public(g->ones, g->ones_length);
    expect(o, plain->number == 0 && g->number == 0 && memcmp(plain->answer, g->answer, sizeof g->answer) == 0,
           "it refuses, or answers something else than without marks");
    expect(o, memcmp(plain->material, g->material, g->material_length) == 0 &&
                  memcmp(plain->zeros, g->zeros, g->zeros_length) == 0 && memcmp(plain->ones, g->ones, g->ones_length) == 0,
           "it writes something else than without marks");
}

struct outcome try_garble(const struct circuit *c, uint8_t scheme, uint16_t mark)
{
    static const uint64_t runs[] = {0, 1, 65535, UINT64_MAX};
    struct outcome o = {0, 0, NULL};
    for (size_t i = 0; i < sizeof runs / sizeof runs[0]; i++) {
        uint8_t seed[16];
        write_seed(seed);
        struct garbling plain = make_garbling(c, scheme, mark, seed, runs[i]);
        mark_secret(seed, sizeof seed);
        unsigned long before = complaints();
        struct garbling marked = make_garbling(c, scheme, mark, seed, runs[i]);
        /* With hashes one branch: whether two of them are equal, which is refusal 30. */
        count(&o, complaints() - before, mark == WEIGHHARE_HASHES);
        expect_marks(&o, &marked);
        expect_same(&o, &plain, &marked);
        free_garbling(&plain);
        free_garbling(&marked);
    }
    return o;
}
