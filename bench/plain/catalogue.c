#include "plain.h"

enum { SIDE = 4, MATRICES = 20160, CATALOGUE_POSITION = 14 };

/* How many matrices begin with the same rows, up to row 0, 1, 2 and 3. */
static const size_t EACH[SIDE] = {14 * 12 * 8, 12 * 8, 8, 1};

/* The vector of this place, from 0, among those that are not in a set: bit v of the set tells of v. */
static unsigned outside(unsigned set, size_t place)
{
    unsigned v = 0;
    for (;; v++)
        if (!(set >> v & 1) && place-- == 0)
            return v;
}

/* Row by row, each outside the span of those before it. */
uint64_t plain_catalogue_entry(size_t position, size_t *matrix)
{
    unsigned span[1 << SIDE] = {0}, set = 1;
    size_t number = 0;
    if (position >= MATRICES)
        return (uint64_t)CATALOGUE_POSITION << 32;
    for (unsigned i = 0; i < SIDE; i++) {
        unsigned row = outside(set, position / EACH[i]);
        position %= EACH[i];
        number = number << SIDE | row;
        for (unsigned k = 0; k < 1u << i; k++) {
            span[(1u << i) + k] = span[k] ^ row;
            set |= 1u << (span[k] ^ row);
        }
    }
    *matrix = number;
    return 0;
}
