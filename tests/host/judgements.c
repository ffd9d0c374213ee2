/* judge_bundle against the reference. */
#include "tests.h"

#include "tazhikko.h"

static void judge(struct group *g, struct lent bundle, uint64_t due)
{
    struct slices slices = {.first = bundle};
    check(g, &slices, tazhikko_judge_bundle(bundle.bytes, bundle.len), due, NULL);
}

static void given_cases(struct tests *t, struct group *g)
{
    size_t count = t->cases.judgement_count;
    for (size_t n = 0; n < tries(t, count); n++) {
        const struct judgement *j = &t->cases.judgements[tried(t, count, n)];
        judge(g, lend(j->bundle.bytes, j->bundle.len, RIGHT, &t->chance), j->number);
    }
}

static void all_shapes(struct tests *t, struct group *g)
{
    for (size_t n = 0; n < t->cases.bundle_count * SHAPES; n++) {
        uint64_t due;
        struct lent bundle = lend_bundle(&t->cases, &t->cases.bundles[n / SHAPES], n % SHAPES, &t->chance, &due);
        judge(g, bundle, due);
    }
}

/* Lengths out of bounds, over bytes that are otherwise a right bundle's. Of lengths in bounds the reference judges those of the cases. */
static void out_of_bounds(struct tests *t, struct group *g)
{
    for (size_t n = 0; n < t->calls; n++) {
        const struct string *content = &t->cases.bundles[below(&t->chance, t->cases.bundle_count)].content;
        struct lent bundle = lend(content->bytes, content->len, ANY_LENGTH, &t->chance);
        if (bundle.len < TAZHIKKO_BUNDLE_MIN_BYTES || bundle.len > TAZHIKKO_BUNDLE_MAX_BYTES)
            judge(g, bundle, unless(false, TAZHIKKO_BUNDLE_LENGTH));
        else
            take_back(&bundle);
    }
}

void test_judgements(struct tests *t)
{
    struct group g = {.name = "judge_bundle"};
    all_shapes(t, &g);
    given_cases(t, &g);
    out_of_bounds(t, &g);
    close_group(&g, &t->totals);
}
