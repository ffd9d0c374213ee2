/* The four codings of a block against the reference. */
#include "tests.h"

#include "tazhikko.h"

enum { CALLS = 4 };

/* In the order of cases.py. */
static call_on_slices *const calls[CALLS] = {tazhikko_encode_input, tazhikko_decode_input, tazhikko_encode_output, tazhikko_decode_output};
static const char *const names[CALLS] = {"encode_input", "decode_input", "encode_output", "decode_output"};

static void one_call(struct tests *t, struct group *g, const struct coding *c, struct shapes shapes)
{
    uint64_t judgement;
    struct slices s = {
        .first = lend_bundle(&t->cases, &t->cases.bundles[c->bundle], shapes.first, &t->chance, &judgement),
        .second = lend(c->block, TAZHIKKO_BLOCK_BYTES, shapes.second, &t->chance),
        .out = lend_to_write(TAZHIKKO_BLOCK_BYTES, shapes.third, &t->chance),
    };
    bool blocks = s.second.len == TAZHIKKO_BLOCK_BYTES && s.out.len == TAZHIKKO_BLOCK_BYTES;
    uint64_t due = lowest(judgement, unless(blocks, TAZHIKKO_BLOCK_LENGTH));
    check(g, &s, call(calls[c->call], &s), due, c->coded);
}

static void test_coding(struct tests *t, size_t which)
{
    struct group g = {.name = names[which]};
    size_t count = t->cases.coding_count;
    for (size_t n = 0; n < COMBINATIONS + t->calls; n++) {
        const struct coding *c = &t->cases.codings[below(&t->chance, count)];
        while (c->call != which)
            c = &t->cases.codings[below(&t->chance, count)];
        one_call(t, &g, c, shapes_of_call(n, &t->chance));
    }
    close_group(&g, &t->totals);
}

void test_codings(struct tests *t)
{
    for (size_t which = 0; which < CALLS; which++)
        test_coding(t, which);
}
