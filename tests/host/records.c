/* record and replay for both ciphers against the reference, over made sets of either cipher and over memory that no maker filled. */
#include "tests.h"

#include "tazhikko.h"

#include <string.h>

enum { ENTRY_BYTES = TAZHIKKO_RECORD_BYTES / TAZHIKKO_TABLES, ALTERED = 3 };

static struct lent lend_memory(struct tests *t, const struct record *r, enum shape shape)
{
    return lend(t->cases.walks[r->memory].memory.bytes, TAZHIKKO_SET_BYTES, shape, &t->chance);
}

static uint64_t due_for(const struct slices *s, size_t record_len)
{
    uint64_t block = unless(s->second.len == TAZHIKKO_BLOCK_BYTES, TAZHIKKO_BLOCK_LENGTH);
    uint64_t record = unless(record_len == TAZHIKKO_RECORD_BYTES, TAZHIKKO_RECORD_LENGTH);
    return lowest(unless(s->first.len == TAZHIKKO_SET_BYTES, TAZHIKKO_SET_LENGTH), lowest(block, record));
}

static void one_record(struct tests *t, struct group *g, const struct record *r, struct shapes shapes)
{
    struct slices s = {
        .first = lend_memory(t, r, shapes.first),
        .second = lend(r->block, TAZHIKKO_BLOCK_BYTES, shapes.second, &t->chance),
        .out = lend_to_write(TAZHIKKO_RECORD_BYTES, shapes.third, &t->chance),
    };
    check(g, &s, call_for(tazhikko_record, r->inverse, &s, &t->chance), due_for(&s, s.out.len), r->bytes);
}

void test_record(struct tests *t)
{
    struct group g = {.name = "record"};
    size_t count = t->cases.record_count;
    for (size_t n = 0; n < tries(t, count); n++)
        one_record(t, &g, &t->cases.records[tried(t, count, n)], all_right);
    for (size_t n = 0; n < COMBINATIONS + t->calls; n++)
        one_record(t, &g, &t->cases.records[below(&t->chance, count)], shapes_of_call(n, &t->chance));
    close_group(&g, &t->totals);
}

static void one_replay(struct tests *t, struct group *g, const struct replay *r, struct shapes shapes)
{
    const struct record *walk = &t->cases.records[r->walk];
    uint8_t record[TAZHIKKO_RECORD_BYTES];
    memcpy(record, t->cases.records[r->from].bytes, sizeof record);
    for (size_t i = 0; i < r->count; i++)
        memcpy(record + r->changes[i].start, r->changes[i].part.bytes, r->changes[i].part.len);
    struct slices s = {
        .first = lend_memory(t, walk, shapes.first),
        .second = lend(walk->block, TAZHIKKO_BLOCK_BYTES, shapes.second, &t->chance),
        .third = lend(record, TAZHIKKO_RECORD_BYTES, shapes.third, &t->chance),
        .out = lend_number(&t->chance),
    };
    uint64_t cipher = cipher_number(walk->inverse, &t->chance);
    uint64_t returned = tazhikko_replay(cipher, s.first.bytes, s.first.len, s.second.bytes, s.second.len, s.third.bytes, s.third.len,
                                        (size_t *)(void *)s.out.bytes);
    check(g, &s, returned, due_for(&s, s.third.len), (const uint8_t *)&r->differs);
}

void test_replay(struct tests *t)
{
    struct group g = {.name = "replay"};
    size_t count = t->cases.replay_count;
    for (size_t n = 0; n < tries(t, count); n++)
        one_replay(t, &g, &t->cases.replays[tried(t, count, n)], all_right);
    for (size_t n = 0; n < COMBINATIONS + t->calls; n++)
        one_replay(t, &g, &t->cases.replays[below(&t->chance, count)], shapes_of_call(n, &t->chance));
    close_group(&g, &t->totals);
}

/* What record wrote is the walk's own; with one byte after the other altered, the least of their lookups is the first that differs. */
static void one_walk(struct tests *t, struct group *g, const struct string *memory)
{
    uint8_t block[16], own[TAZHIKKO_RECORD_BYTES], altered[TAZHIKKO_RECORD_BYTES];
    bool inverse = below(&t->chance, 2) != 0;
    size_t least = TAZHIKKO_NONE;
    fill(&t->chance, block, sizeof block);
    uint64_t refusal = tazhikko_record(cipher_number(inverse, &t->chance), memory->bytes, memory->len, block, sizeof block, own, sizeof own);
    check_that(g, refusal == 0, "record is refused");
    memcpy(altered, own, sizeof own);
    for (size_t n = 0; n <= ALTERED; n++) {
        size_t differs = TAZHIKKO_TABLES, at = below(&t->chance, sizeof own);
        uint64_t cipher = cipher_number(inverse, &t->chance);
        refusal = tazhikko_replay(cipher, memory->bytes, memory->len, block, sizeof block, altered, sizeof altered, &differs);
        check_that(g, refusal == 0, "replay is refused");
        check_that(g, differs == least, n == 0 ? "what record wrote is not the walk's own" : "not the first altered lookup");
        altered[at] = own[at] ^ (uint8_t)(1 + below(&t->chance, 255));
        least = at / ENTRY_BYTES < least ? at / ENTRY_BYTES : least;
    }
}

/* Of blocks that no case has, so nothing is held against the reference here: the two calls against each other. */
void test_record_and_replay(struct tests *t)
{
    struct group g = {.name = "record and replay"};
    for (size_t n = 0; n < t->calls; n++)
        one_walk(t, &g, &t->cases.walks[n % t->cases.walks_count].memory);
    close_group(&g, &t->totals);
}
