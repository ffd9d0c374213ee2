/* From block to answer and back, over sets that the library makes for either cipher, against libcrypto. */
#include "libcrypto.h"
#include "made.h"

#include "tazhikko.h"

#include <string.h>

enum { BLOCKS_OF_A_SET = 100 };

/* A block coded, walked and uncoded is what libcrypto's cipher makes of it; the cipher taken off, it is the block again. */
static void one_block(struct tests *t, struct group *g, const struct made_set *made)
{
    const struct string *bundle = made->bundle;
    uint8_t block[16], coded[16] = {0}, answer[16] = {0}, uncoded[16] = {0}, again[16] = {0}, expected[16];
    fill(&t->chance, block, sizeof block);
    libcrypto_aes(made->inverse ? DECIPHER : ENCIPHER, made->key, block, expected);
    uint64_t refusal = tazhikko_encode_input(bundle->bytes, bundle->len, block, 16, coded, 16);
    refusal |= walk_over(t, made, coded, answer);
    refusal |= tazhikko_decode_output(bundle->bytes, bundle->len, answer, 16, uncoded, 16);
    refusal |= (made->inverse ? tazhikko_encipher : tazhikko_decipher)(made->key, 16, uncoded, 16, again, 16);
    check_that(g, refusal == 0, "a call is refused");
    check_that(g, memcmp(uncoded, expected, 16) == 0, "not what the cipher makes of the block");
    check_that(g, memcmp(again, block, 16) == 0, "the cipher taken off, not the block");
}

/* Every bundle with either cipher. */
void test_demand2(struct tests *t)
{
    struct group g = {.name = "demand 2"};
    uint8_t key[16];
    size_t count = t->cases.bundle_count, sets = 2 * count + t->calls / BLOCKS_OF_A_SET;
    for (size_t n = 0; n < sets; n++) {
        fill(&t->chance, key, sizeof key);
        struct made_set made = make_for(t, &g, n / count % 2 != 0, key, &t->cases.bundles[n % count].content);
        for (size_t k = 0; k < 1 + t->calls / sets; k++)
            one_block(t, &g, &made);
        free_made(&made);
    }
    close_group(&g, &t->totals);
}
