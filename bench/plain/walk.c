#include "plain.h"
#include "walk.h"

enum { LOOKUPS = 3008 };

INLINED bool ignore(void *state, reading r)
{
    (void)state, (void)r;
    return true;
}

uint64_t plain_walk(uint64_t cipher, const uint8_t *set, size_t set_len, const uint8_t *block, size_t block_len, uint8_t *answer, size_t answer_len)
{
    uint64_t refusal = judged(set_len, block_len);
    if (refusal != 0 || answer_len != BLOCK_BYTES)
        return refusal != 0 ? refusal : refused(10);
    held w = started(block);
    walk(cipher, set, &w, (visitor){ignore, NULL, set});
    if (w.count != LOOKUPS || w.offset == SET_BYTES)
        return refused(12);
    memcpy(answer, w.standing, BLOCK_BYTES);
    return 0;
}
