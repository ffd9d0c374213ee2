/* next_bit for both ciphers against the reference, over made sets of either cipher and over memory that no maker filled, and against walks over
 * memory of which one bit is turned over. */
#include "tests.h"

#include "tazhikko.h"

#include <stdlib.h>
#include <string.h>

enum { SET_BITS = 8 * TAZHIKKO_SET_BYTES, WHOLE = 5, MANY = 20 };

/* How many bits the list has below a number. */
static size_t count_below(const struct bits *b, size_t number)
{
    size_t low = 0, high = b->count;
    while (low < high) {
        size_t middle = low + (high - low) / 2;
        if (b->list[middle] < number)
            low = middle + 1;
        else
            high = middle;
    }
    return low;
}

static size_t due_from(const struct bits *b, size_t from)
{
    size_t place = count_below(b, from);
    return place < b->count ? b->list[place] : TAZHIKKO_NONE;
}

static bool is_read(const struct bits *b, size_t bit)
{
    return bit < SET_BITS && due_from(b, bit) == bit;
}

static const struct string *memory_of(const struct tests *t, const struct bits *b)
{
    return &t->cases.walks[b->memory].memory;
}

static size_t any_number(struct chance *chance)
{
    size_t number;
    fill(chance, (uint8_t *)&number, sizeof number);
    return number >> below(chance, 64);
}

/* A bit of the list, the numbers on both sides of it, any number of a bit, any number at all. */
static size_t any_from(struct tests *t, const struct bits *b)
{
    size_t kind = below(&t->chance, 5);
    if (kind == 3)
        return below(&t->chance, SET_BITS);
    if (kind == 4)
        return any_number(&t->chance);
    return b->list[below(&t->chance, b->count)] + kind - 1;
}

static void one_call(struct tests *t, struct group *g, const struct bits *b, size_t from, struct shapes shapes)
{
    struct slices s = {
        .first = lend(memory_of(t, b)->bytes, TAZHIKKO_SET_BYTES, shapes.first, &t->chance),
        .second = lend(b->block, TAZHIKKO_BLOCK_BYTES, shapes.second, &t->chance),
        .out = lend_number(&t->chance),
    };
    size_t bit = due_from(b, from);
    uint64_t set = unless(s.first.len == TAZHIKKO_SET_BYTES, TAZHIKKO_SET_LENGTH);
    uint64_t due = lowest(set, unless(s.second.len == TAZHIKKO_BLOCK_BYTES, TAZHIKKO_BLOCK_LENGTH));
    uint64_t cipher = cipher_number(b->inverse, &t->chance);
    uint64_t returned =
        tazhikko_next_bit(cipher, s.first.bytes, s.first.len, s.second.bytes, s.second.len, from, (size_t *)(void *)s.out.bytes);
    check(g, &s, returned, due, (const uint8_t *)&bit);
}

void test_next_bit(struct tests *t)
{
    struct group g = {.name = "next_bit"};
    for (size_t n = 0; n < COMBINATIONS + t->calls; n++) {
        const struct bits *b = &t->cases.bits[n % t->cases.bits_count];
        one_call(t, &g, b, any_from(t, b), shapes_of_call(n, &t->chance));
    }
    close_group(&g, &t->totals);
}

/* How many bits of a list are tried. A call that is lent no copies is short: one list in WHOLE has MANY for each call, and that is all of it but where
 * the calls are few. For each cipher one of these is over a forward set, one over an inverse set and one over memory that no maker filled. */
static size_t bits_tried(const struct tests *t, const struct bits *b)
{
    size_t calls = (size_t)(b - t->cases.bits) % WHOLE == 0 ? MANY * t->calls : t->calls;
    return calls < b->count ? calls : b->count;
}

static void ask(struct tests *t, struct group *g, const struct bits *b, size_t from)
{
    const struct string *memory = memory_of(t, b);
    size_t bit = SET_BITS;
    uint64_t cipher = cipher_number(b->inverse, &t->chance);
    check_that(g, tazhikko_next_bit(cipher, memory->bytes, memory->len, b->block, TAZHIKKO_BLOCK_BYTES, from, &bit) == 0, "refused");
    check_that(g, bit == due_from(b, from), "another bit is due");
}

/* Numbers behind the last bit of a set, and those of which a part of the bits is the number of a bit that is read. */
static void ask_behind(struct tests *t, struct group *g, const struct bits *b)
{
    static const size_t edges[] = {
        SET_BITS - 1, SET_BITS, SET_BITS + 1, UINT32_MAX, SIZE_MAX / 8, SIZE_MAX / 8 + 1, SIZE_MAX / 2, SIZE_MAX - 7, SIZE_MAX - 1, SIZE_MAX,
    };
    for (size_t i = 0; i < sizeof edges / sizeof *edges; i++)
        ask(t, g, b, edges[i]);
    for (size_t k = 23; k < 64; k++) {
        ask(t, g, b, (size_t)1 << k);
        ask(t, g, b, ((size_t)1 << k) + b->list[below(&t->chance, b->count)]);
    }
}

/* The whole list or a part of it, each time from the number behind the bit before; where another number stands before a bit, from that and from the
 * bit's own too. So each bit is asked for by its number and by those on both sides. */
static void follow(struct tests *t, struct group *g, const struct bits *b)
{
    size_t count = bits_tried(t, b), start = below(&t->chance, b->count - count + 1);
    size_t from = start == 0 ? 0 : b->list[start - 1] + 1;
    for (size_t n = start; n < start + count; n++) {
        size_t bit = b->list[n];
        ask(t, g, b, from);
        if (!is_read(b, bit - 1)) {
            ask(t, g, b, bit - 1);
            ask(t, g, b, bit);
        }
        from = bit + 1;
    }
    ask(t, g, b, from);
}

void test_bits(struct tests *t)
{
    struct group g = {.name = "bits that a walk reads"};
    for (size_t n = 0; n < t->cases.bits_count; n++) {
        const struct bits *b = &t->cases.bits[n];
        check_that(&g, b->count == TAZHIKKO_BITS_READ, "another number of bits is due");
        follow(t, &g, b);
        ask_behind(t, &g, b);
    }
    close_group(&g, &t->totals);
}

/* A copy of a memory in which bits are turned over, and the answer of the walk before that. */
struct copy {
    const struct bits *bits;
    bool made; /* a made set, walked for its own cipher */
    uint8_t *memory;
    uint8_t answer[16];
};

static void walk_copy(struct tests *t, struct group *g, const struct copy *c, uint8_t answer[16])
{
    uint64_t cipher = cipher_number(c->bits->inverse, &t->chance);
    uint64_t refusal = tazhikko_walk(cipher, c->memory, TAZHIKKO_SET_BYTES, c->bits->block, TAZHIKKO_BLOCK_BYTES, answer, 16);
    check_that(g, refusal == 0, "walk is refused");
}

/* A bit that is not read changes nothing in any memory. One that is read has to change the answer only in a made set. */
static void turn_over(struct tests *t, struct group *g, const struct copy *c, size_t bit)
{
    uint8_t answer[16] = {0};
    bool read = is_read(c->bits, bit);
    if (bit >= SET_BITS || (read && !c->made))
        return;
    c->memory[bit / 8] ^= (uint8_t)(0x80 >> bit % 8);
    walk_copy(t, g, c, answer);
    c->memory[bit / 8] ^= (uint8_t)(0x80 >> bit % 8);
    bool changed = memcmp(answer, c->answer, 16) != 0;
    check_that(g, changed == read, read ? "a bit that is read changes nothing" : "a bit that is not read changes the answer");
}

/* A bit that is read and, if they are not read, those beside it and the one in the other half of its byte. */
static void turn_around(struct tests *t, struct group *g, const struct copy *c, size_t bit)
{
    const size_t near[] = {bit - 1, bit + 1, bit ^ 4};
    turn_over(t, g, c, bit);
    for (size_t i = 0; i < sizeof near / sizeof *near; i++)
        if (!is_read(c->bits, near[i]))
            turn_over(t, g, c, near[i]);
}

/* The bit of try n: all in order, or random ones. */
static size_t bit_tried(struct tests *t, const struct bits *b, size_t n)
{
    return b->list[bits_tried(t, b) < b->count ? below(&t->chance, b->count) : n];
}

/* The bits of the list with those around, the first and the last bit of each table, random ones. */
static void turn_many(struct tests *t, struct group *g, const struct copy *c)
{
    const struct bits *b = c->bits;
    for (size_t n = 0; n < bits_tried(t, b); n++)
        turn_around(t, g, c, bit_tried(t, b, n));
    for (size_t n = 0; n < tries(t, t->cases.place_count); n++) {
        const struct place *p = &t->cases.places[tried(t, t->cases.place_count, n)];
        turn_over(t, g, c, 8 * p->offset);
        turn_over(t, g, c, 8 * (p->offset + p->len) - 1);
    }
    for (size_t n = 0; n < t->calls; n++)
        turn_over(t, g, c, below(&t->chance, SET_BITS));
}

/* The walks' first memories are the sets. */
static bool made_for(const struct cases *cases, const struct bits *b)
{
    return b->memory < cases->set_count && cases->sets[b->memory].inverse == b->inverse;
}

void test_turned_bits(struct tests *t)
{
    struct group g = {.name = "one bit turned over"};
    struct copy c = {.memory = room(TAZHIKKO_SET_BYTES)};
    for (size_t n = 0; n < t->cases.bits_count; n++) {
        c.bits = &t->cases.bits[n];
        c.made = made_for(&t->cases, c.bits);
        memcpy(c.memory, memory_of(t, c.bits)->bytes, TAZHIKKO_SET_BYTES);
        walk_copy(t, &g, &c, c.answer);
        turn_many(t, &g, &c);
    }
    free(c.memory);
    close_group(&g, &t->totals);
}
