/* Random numbers that a seed repeats. */
#ifndef CHANCE_H
#define CHANCE_H

#include <stddef.h>
#include <stdint.h>

struct chance {
    uint64_t state;
};

/* A number below bound, which is not 0. */
size_t below(struct chance *chance, size_t bound);

void fill(struct chance *chance, uint8_t *out, size_t len);

#endif
