#include "plain.h"
#include "walk.h"

typedef struct {
    size_t from, bit;
} search;

/* Lookups read rising bits, so the first that reads one at or after `from` has the smallest. */
INLINED bool below(void *state, reading r)
{
    search *s = state;
    if (r.first_bit + r.bits <= s->from)
        return true;
    s->bit = r.first_bit < s->from ? s->from : r.first_bit;
    return false;
}

uint64_t plain_next_bit(uint64_t cipher, const uint8_t *set, size_t set_len, const uint8_t *block, size_t block_len, size_t from, size_t *bit)
{
    uint64_t refusal = judged(set_len, block_len);
    if (refusal != 0)
        return refusal;
    search s = {from, SIZE_MAX};
    held w = started(block);
    walk(cipher, set, &w, (visitor){below, &s, set});
    *bit = s.bit;
    return 0;
}
