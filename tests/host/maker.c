/* make_set and make_table of both ciphers against the reference. */
#include "tests.h"

#include "tazhikko.h"

/* A set takes as long as a hundred calls of other kinds. */
enum { CALLS_FOR_A_SET = 100 };

/* A bundle of the cases that are refused, and all else right. */
static const struct shapes refused_bundle = {RIGHT, ANY_LENGTH, RIGHT};

static uint64_t key_and_bundle(const struct slices *s, uint64_t judgement)
{
    return lowest(unless(s->first.len == TAZHIKKO_KEY_BYTES, TAZHIKKO_KEY_LENGTH), judgement);
}

static void one_set(struct tests *t, struct group *g, const struct set *set, struct shapes shapes)
{
    uint64_t judgement;
    struct slices s = {
        .first = lend(set->key, TAZHIKKO_KEY_BYTES, shapes.first, &t->chance),
        .second = lend_bundle(&t->cases, &t->cases.bundles[set->bundle], shapes.second, &t->chance, &judgement),
        .out = lend_to_write(TAZHIKKO_SET_BYTES, shapes.third, &t->chance),
    };
    uint64_t due = lowest(key_and_bundle(&s, judgement), unless(s.out.len == TAZHIKKO_SET_BYTES, TAZHIKKO_SET_LENGTH));
    check(g, &s, call_for(tazhikko_make_set, set->inverse, &s, &t->chance), due, set->content.bytes);
}

void test_make_set(struct tests *t)
{
    struct group g = {.name = "make_set"};
    for (size_t n = 0; n < t->cases.set_count; n++)
        one_set(t, &g, &t->cases.sets[n], all_right);
    for (size_t n = 0; n < COMBINATIONS + t->calls / CALLS_FOR_A_SET; n++)
        one_set(t, &g, &t->cases.sets[below(&t->chance, t->cases.set_count)], shapes_of_call(n, &t->chance));
    for (size_t n = 0; n < t->calls; n++)
        one_set(t, &g, &t->cases.sets[n % t->cases.set_count], refused_bundle);
    close_group(&g, &t->totals);
}

/* One table, or none for a number that no table has: then memory of some other length is lent. */
static void one_table(struct tests *t, struct group *g, const struct table *table, struct shapes shapes)
{
    uint64_t judgement;
    bool exists = table->number < TAZHIKKO_TABLES;
    struct slices s = {
        .first = lend(table->key, TAZHIKKO_KEY_BYTES, shapes.first, &t->chance),
        .second = lend_bundle(&t->cases, &t->cases.bundles[table->bundle], shapes.second, &t->chance, &judgement),
        .out = lend_to_write(exists ? table->content.len : 128, shapes.third, &t->chance),
    };
    uint64_t due = lowest(key_and_bundle(&s, judgement), unless(exists, TAZHIKKO_TABLE_NUMBER));
    due = lowest(due, unless(s.out.len == table->content.len, TAZHIKKO_SET_LENGTH));
    uint64_t cipher = cipher_number(table->inverse, &t->chance);
    uint64_t returned = tazhikko_make_table(cipher, s.first.bytes, s.first.len, s.second.bytes, s.second.len, table->number, s.out.bytes, s.out.len);
    check(g, &s, returned, due, table->content.bytes);
}

/* Table n of a whole set. */
static struct table part(const struct tests *t, const struct set *set, size_t n)
{
    const struct place *place = &t->cases.places[n];
    return (struct table){set->bundle, set->inverse, set->key, n, {set->content.bytes + place->offset, place->len}};
}

static void tables_of_sets(struct tests *t, struct group *g)
{
    size_t count = t->cases.place_count;
    for (size_t k = 0; k < t->cases.set_count; k++) {
        for (size_t n = 0; n < tries(t, count); n++) {
            struct table table = part(t, &t->cases.sets[k], tried(t, count, n));
            one_table(t, g, &table, all_right);
        }
    }
}

static void given_tables(struct tests *t, struct group *g)
{
    size_t count = t->cases.table_count;
    for (size_t n = 0; n < tries(t, count); n++)
        one_table(t, g, &t->cases.tables[tried(t, count, n)], all_right);
}

/* Numbers that no table has, the greatest among them. */
static void no_table(struct tests *t, struct group *g, struct shapes shapes)
{
    const size_t numbers[] = {TAZHIKKO_TABLES, TAZHIKKO_TABLES + 1 + below(&t->chance, 1u << 30), SIZE_MAX, SIZE_MAX / 128 + 1};
    struct table table = part(t, &t->cases.sets[below(&t->chance, t->cases.set_count)], 0);
    table.number = numbers[below(&t->chance, 4)];
    one_table(t, g, &table, shapes);
}

void test_make_table(struct tests *t)
{
    struct group g = {.name = "make_table"};
    tables_of_sets(t, &g);
    given_tables(t, &g);
    for (size_t n = 0; n < COMBINATIONS + t->calls; n++) {
        struct shapes shapes = shapes_of_call(n, &t->chance);
        one_table(t, &g, &t->cases.tables[below(&t->chance, t->cases.table_count)], shapes);
        no_table(t, &g, shapes);
    }
    for (size_t n = 0; n < t->calls; n++)
        one_table(t, &g, &t->cases.tables[n % t->cases.table_count], refused_bundle);
    close_group(&g, &t->totals);
}
