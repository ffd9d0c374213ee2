#include "chance.h"

#include <string.h>

/* Splitmix64. */
static uint64_t drawn(struct chance *chance)
{
    uint64_t x = chance->state += 0x9e3779b97f4a7c15u;
    x = (x ^ (x >> 30)) * 0xbf58476d1ce4e5b9u;
    x = (x ^ (x >> 27)) * 0x94d049bb133111ebu;
    return x ^ (x >> 31);
}

size_t below(struct chance *chance, size_t bound)
{
    return drawn(chance) % bound;
}

void fill(struct chance *chance, uint8_t *out, size_t len)
{
    while (len > 0) {
        uint64_t word = drawn(chance);
        size_t part = len < sizeof word ? len : sizeof word;
        memcpy(out, &word, part);
        out += part;
        len -= part;
    }
}
