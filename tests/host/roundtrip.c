/* There and back: a forward and an inverse set of one key, where the input coding of each is the output coding of the other, give back any
 * presented block. */
#include "made.h"

#include <string.h>

enum { BLOCKS_OF_A_PAIR = 100 };

static void one_block(struct tests *t, struct group *g, const struct made_set *there, const struct made_set *back)
{
    uint8_t block[16], middle[16] = {0}, again[16] = {0};
    fill(&t->chance, block, sizeof block);
    uint64_t refusal = walk_over(t, there, block, middle);
    refusal |= walk_over(t, back, middle, again);
    check_that(g, refusal == 0, "a walk is refused");
    check_that(g, memcmp(middle, block, 16) != 0, "the block is left as it was");
    check_that(g, memcmp(again, block, 16) == 0, "not the block again");
}

/* Either bundle may be the forward set's, and either set may be walked first. */
static void one_pair(struct tests *t, struct group *g, const struct string *forward_bundle, const struct string *inverse_bundle)
{
    uint8_t key[16];
    fill(&t->chance, key, sizeof key);
    struct made_set forward = make_for(t, g, false, key, forward_bundle);
    struct made_set inverse = make_for(t, g, true, key, inverse_bundle);
    for (size_t n = 0; n < tries(t, BLOCKS_OF_A_PAIR); n++) {
        one_block(t, g, &forward, &inverse);
        one_block(t, g, &inverse, &forward);
    }
    free_made(&forward);
    free_made(&inverse);
}

void test_round_trip(struct tests *t)
{
    struct group g = {.name = "round trip"};
    for (size_t n = 0; n < t->cases.crossed_count; n++) {
        const struct string *bundles = t->cases.crossed[n].bundles;
        one_pair(t, &g, &bundles[0], &bundles[1]);
        one_pair(t, &g, &bundles[1], &bundles[0]);
    }
    close_group(&g, &t->totals);
}
