/* encipher and decipher against libcrypto. */
#include "libcrypto.h"
#include "tests.h"

#include "tazhikko.h"

static void one_call(struct tests *t, struct group *g, enum direction direction, struct shapes shapes)
{
    uint8_t key[16], block[16], expected[16];
    fill(&t->chance, key, sizeof key);
    fill(&t->chance, block, sizeof block);
    libcrypto_aes(direction, key, block, expected);
    struct slices s = {
        .first = lend(key, TAZHIKKO_KEY_BYTES, shapes.first, &t->chance),
        .second = lend(block, TAZHIKKO_BLOCK_BYTES, shapes.second, &t->chance),
        .out = lend_to_write(TAZHIKKO_BLOCK_BYTES, shapes.third, &t->chance),
    };
    bool blocks = s.second.len == TAZHIKKO_BLOCK_BYTES && s.out.len == TAZHIKKO_BLOCK_BYTES;
    uint64_t due = lowest(unless(s.first.len == TAZHIKKO_KEY_BYTES, TAZHIKKO_KEY_LENGTH), unless(blocks, TAZHIKKO_BLOCK_LENGTH));
    check(g, &s, call(direction == ENCIPHER ? tazhikko_encipher : tazhikko_decipher, &s), due, expected);
}

static void test_direction(struct tests *t, enum direction direction)
{
    struct group g = {.name = direction == ENCIPHER ? "encipher" : "decipher"};
    for (size_t n = 0; n < COMBINATIONS + t->calls; n++)
        one_call(t, &g, direction, shapes_of_call(n, &t->chance));
    close_group(&g, &t->totals);
}

void test_aes(struct tests *t)
{
    test_direction(t, ENCIPHER);
    test_direction(t, DECIPHER);
}
