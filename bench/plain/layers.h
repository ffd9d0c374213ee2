/* The layers of the lookup network: the entry, two for each of nine rounds, the exit. */
#ifndef LAYERS_H
#define LAYERS_H

#include <stdbool.h>
#include <stddef.h>

enum { ROUNDS = 10, LAYERS = 2 * ROUNDS };

typedef enum { ENTRY, FIRST, SECOND, EXIT } kind;

typedef struct {
    kind kind;
    size_t round;
    size_t word;  /* bytes of a spread word, and words summed in a group */
    size_t table; /* number of its first table */
    size_t list;  /* number of its first result's first list */
} layer;

static inline layer layer_at(size_t n)
{
    if (n == 0)
        return (layer){ENTRY, 0, 16, 0, 32};
    if (n == LAYERS - 1)
        return (layer){EXIT, ROUNDS, 16, 2512, 5056};
    return (layer){n % 2 ? FIRST : SECOND, (n + 1) / 2, 4, 496 + 112 * (n - 1), 1024 + 224 * (n - 1)};
}

/* The number of the layer that a table belongs to. */
static inline size_t layer_of_table(size_t number)
{
    if (number < 496)
        return 0;
    return number < 2512 ? 1 + (number - 496) / 112 : LAYERS - 1;
}

/* List of nibble h of spread word p, and of the sum of a group's words 0 to t. */
static inline size_t spread_list(const layer *l, size_t p, size_t h)
{
    return l->list + 2 * l->word * p + h;
}

static inline size_t sum_list(const layer *l, size_t group, size_t t, size_t h)
{
    if (t == 0)
        return spread_list(l, l->word * group, h);
    return l->list + 32 * l->word + 2 * l->word * ((l->word - 1) * group + t - 1) + h;
}

/* List of a standing nibble before layer n. */
static inline size_t standing_list(size_t n, size_t nibble)
{
    if (n == 0)
        return nibble;
    layer before = layer_at(n - 1);
    return sum_list(&before, nibble / (2 * before.word), before.word - 1, nibble % (2 * before.word));
}

/* The standing byte that spread lookup p reads: by the row shift, or the inverse one. */
static inline size_t source(bool inverse, kind k, size_t p)
{
    size_t row = p % 4;
    return k == FIRST || k == EXIT ? (p + (inverse ? 12 : 4) * row) % 16 : p;
}

#endif
