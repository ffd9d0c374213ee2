/* catalogue_entry against the reference, and the catalogue against a rule of its own. */
#include "tests.h"

#include "tazhikko.h"

enum { NUMBERS = 1 << 16, COMBINATIONS_OF_ROWS = 1 << 4 };

static void one_entry(struct group *g, const struct entry *e, struct lent matrix)
{
    struct slices s = {.out = matrix};
    check(g, &s, tazhikko_catalogue_entry(e->position, (size_t *)(void *)matrix.bytes), e->number, (const uint8_t *)&e->matrix);
}

/* All positions in order, in each run: a call is short. With ones before, an accepted call that stores less than the whole number shows. */
static void in_order(struct tests *t, struct group *g)
{
    for (size_t n = 0; n < t->cases.entry_count; n++)
        one_entry(g, &t->cases.entries[n], lend_number_that_holds(SIZE_MAX, &t->chance));
}

/* The refused ones over numbers that a call could have told or been given: nothing, a matrix, one without an inverse, a number that is no matrix, the position. */
static void refused_over(struct tests *t, struct group *g)
{
    for (size_t n = TAZHIKKO_CATALOGUE_MATRICES; n < t->cases.entry_count; n++) {
        const struct entry *e = &t->cases.entries[n];
        const size_t held[] = {0, 0x1248, 0xffff, NUMBERS, e->position};
        for (size_t i = 0; i < sizeof held / sizeof *held; i++)
            one_entry(g, e, lend_number_that_holds(held[i], &t->chance));
    }
}

void test_catalogue_entry(struct tests *t)
{
    struct group g = {.name = "catalogue_entry"};
    in_order(t, &g);
    refused_over(t, &g);
    for (size_t n = 0; n < t->calls; n++)
        one_entry(&g, &t->cases.entries[below(&t->chance, t->cases.entry_count)], lend_number(&t->chance));
    close_group(&g, &t->totals);
}

/* Rows are independent where no choice of some of them adds up to 0. */
static bool independent(size_t matrix)
{
    for (unsigned choice = 1; choice < COMBINATIONS_OF_ROWS; choice++) {
        size_t sum = 0;
        for (unsigned i = 0; i < 4; i++)
            sum ^= choice >> i & 1 ? matrix >> 4 * i & 15 : 0;
        if (sum == 0)
            return false;
    }
    return true;
}

/* Without the reference: the rows of every answer are independent, and the answers rise. So they are all such matrices, if there are as many. */
void test_catalogue(struct tests *t)
{
    struct group g = {.name = "catalogue"};
    size_t count = 0, last = 0;
    for (size_t position = 0; position < TAZHIKKO_CATALOGUE_MATRICES; position++) {
        size_t matrix = 0;
        check_that(&g, tazhikko_catalogue_entry(position, &matrix) == 0, "refused");
        check_that(&g, last < matrix, "not above the one before");
        check_that(&g, matrix < NUMBERS && independent(matrix), "a matrix without an inverse");
        last = matrix;
    }
    for (size_t matrix = 0; matrix < NUMBERS; matrix++)
        count += independent(matrix);
    check_that(&g, count == TAZHIKKO_CATALOGUE_MATRICES, "another number of matrices has an inverse");
    close_group(&g, &t->totals);
}
