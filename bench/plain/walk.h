/* The walk over a set, in one pass. Each lookup is told to a visitor as it is made; the compiler makes a walk for each visitor. */
#ifndef WALK_H
#define WALK_H

#include "layers.h"

#include <stdint.h>
#include <string.h>

#define INLINED static inline __attribute__((always_inline))

enum { SET_BYTES = 770048, BLOCK_BYTES = 16 };

/* A walk's bytes, its count, and the offset within the set of the entry that its last lookup read. */
typedef struct {
    uint8_t standing[BLOCK_BYTES];
    size_t count, offset;
} held;

INLINED uint64_t refused(uint64_t cause) { return cause << 32; }

/* Causes 9 and 10. */
INLINED uint64_t judged(size_t set_len, size_t block_len)
{
    return set_len != SET_BYTES ? refused(9) : block_len != BLOCK_BYTES ? refused(10) : 0;
}

INLINED held started(const uint8_t *block)
{
    held w = {.count = 0, .offset = SET_BYTES};
    memcpy(w.standing, block, BLOCK_BYTES);
    return w;
}

/* What a lookup read: the offset within the set of the entry, its first byte or, of an XOR table's entry, its half-byte, and which bits of the set,
 * from the top bit of byte 0. */
typedef struct {
    size_t offset;
    uint8_t value;
    size_t first_bit, bits;
} reading;

typedef struct {
    bool (*visit)(void *state, reading r); /* false ends the walk */
    void *state;
    const uint8_t *set;
} visitor;

INLINED bool told_word(visitor v, const uint8_t *entry, size_t word)
{
    size_t offset = (size_t)(entry - v.set);
    return v.visit(v.state, (reading){offset, *entry, 8 * offset, 8 * word});
}

INLINED bool told_half(visitor v, const uint8_t *byte, unsigned half, uint8_t value)
{
    size_t offset = (size_t)(byte - v.set);
    return v.visit(v.state, (reading){offset, value, 8 * offset + 4 * half, 4});
}

/* One layer over its tables. The tables behind, or null where the visitor ends the walk. */
INLINED const uint8_t *walk_layer(size_t word, bool inverse, kind k, const uint8_t *tables, held *w, visitor v)
{
    uint8_t area[256], *standing = w->standing;
    const uint8_t *last = tables;
    for (size_t p = 0; p < 16; p++) {
        const uint8_t *entry = tables + word * standing[source(inverse, k, p)];
        memcpy(area + word * p, entry, word);
        if (!told_word(v, entry, word))
            return NULL;
        tables += 256 * word;
    }
    for (size_t group = 0; group < 16 / word; group++) {
        uint8_t *sum = area + word * word * group;
        for (size_t t = 1; t < word; t++)
            for (size_t i = 0; i < word; i++) {
                uint8_t a = sum[i], b = sum[word * t + i];
                unsigned high = (a & 0xf0u) | b >> 4, low = (a & 15u) << 4 | (b & 15u);
                const uint8_t *h = tables + high / 2, *l = tables + 128 + low / 2;
                uint8_t x = *h >> (high % 2 ? 0 : 4) & 15, y = *l >> (low % 2 ? 0 : 4) & 15;
                if (!told_half(v, h, high % 2, x) || !told_half(v, l, low % 2, y))
                    return NULL;
                sum[i] = (uint8_t)(x << 4 | y);
                last = l;
                tables += 256;
            }
        memcpy(standing + word * group, sum, word);
    }
    w->count += 16 + 16 / word * (word - 1) * 2 * word;
    w->offset = (size_t)(last - v.set);
    return tables;
}

INLINED bool walk_layers(bool inverse, const uint8_t *set, held *w, visitor v)
{
    set = walk_layer(16, inverse, ENTRY, set, w, v);
    for (int r = 1; set != NULL && r < ROUNDS; r++) {
        set = walk_layer(4, inverse, FIRST, set, w, v);
        if (set != NULL)
            set = walk_layer(4, inverse, SECOND, set, w, v);
    }
    return set != NULL && walk_layer(16, inverse, EXIT, set, w, v) != NULL;
}

/* Whether the visitor let it reach its end. The cipher is asked for once, so that the compiler makes a walk for each with the row shift worked out. */
INLINED bool walk(uint64_t cipher, const uint8_t *set, held *w, visitor v)
{
    return cipher == 0 ? walk_layers(false, set, w, v) : walk_layers(true, set, w, v);
}

#endif
