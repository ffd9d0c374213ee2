/* walk for both ciphers against the reference, over made sets of either cipher and over memory that no maker filled. */
#include "tests.h"

#include "tazhikko.h"

static void one_walk(struct tests *t, struct group *g, const struct string *memory, const struct walk *walk, struct shapes shapes)
{
    struct slices s = {
        .first = lend(memory->bytes, TAZHIKKO_SET_BYTES, shapes.first, &t->chance),
        .second = lend(walk->block, TAZHIKKO_BLOCK_BYTES, shapes.second, &t->chance),
        .out = lend_to_write(TAZHIKKO_BLOCK_BYTES, shapes.third, &t->chance),
    };
    bool blocks = s.second.len == TAZHIKKO_BLOCK_BYTES && s.out.len == TAZHIKKO_BLOCK_BYTES;
    uint64_t due = lowest(unless(s.first.len == TAZHIKKO_SET_BYTES, TAZHIKKO_SET_LENGTH), unless(blocks, TAZHIKKO_BLOCK_LENGTH));
    check(g, &s, call_for(tazhikko_walk, walk->inverse, &s, &t->chance), due, walk->answer);
}

void test_walk(struct tests *t)
{
    struct group g = {.name = "walk"};
    for (size_t n = 0; n < COMBINATIONS + t->calls; n++) {
        const struct walks *w = &t->cases.walks[n % t->cases.walks_count];
        one_walk(t, &g, &w->memory, &w->walks[below(&t->chance, w->count)], shapes_of_call(n, &t->chance));
    }
    close_group(&g, &t->totals);
}
