#include "cipher.h"

#include "tazhikko.h"

uint64_t cipher_number(bool inverse, struct chance *chance)
{
    static const uint64_t edges[] = {1, 2, 7, UINT8_MAX, UINT32_MAX, 1ull << 32, (1ull << 32) + 1, UINT64_MAX - UINT32_MAX, UINT64_MAX - 1, UINT64_MAX};
    uint64_t number = 0;
    if (!inverse)
        return TAZHIKKO_FORWARD;
    switch (below(chance, 3)) {
    case 0:
        return edges[below(chance, sizeof edges / sizeof *edges)];
    case 1:
        return (uint64_t)1 << below(chance, 64);
    default:
        fill(chance, (uint8_t *)&number, sizeof number);
        return number != 0 ? number : TAZHIKKO_INVERSE;
    }
}
