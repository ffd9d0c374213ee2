/* The groups of tests, one function for each subject. */
#ifndef TESTS_H
#define TESTS_H

#include "check.h"
#include "cipher.h"

struct tests {
    struct cases cases;
    struct chance chance;
    struct totals totals;
    size_t calls; /* random calls of each function; of longer rows of cases, so many are tried */
};

/* A call for C on three slices. */
typedef uint64_t call_on_slices(const uint8_t *, size_t, const uint8_t *, size_t, uint8_t *, size_t);

uint64_t call(call_on_slices *f, const struct slices *slices);

/* One that names a cipher first. */
typedef uint64_t call_for_cipher(uint64_t, const uint8_t *, size_t, const uint8_t *, size_t, uint8_t *, size_t);

uint64_t call_for(call_for_cipher *f, bool inverse, const struct slices *slices, struct chance *chance);

/* How many cases of a row are tried, and the place of try n: all in order, or random ones. */
size_t tries(const struct tests *t, size_t count);
size_t tried(struct tests *t, size_t count, size_t n);

void test_judgements(struct tests *t);
void test_codings(struct tests *t);
void test_aes(struct tests *t);
void test_make_set(struct tests *t);
void test_make_table(struct tests *t);
void test_walk(struct tests *t);
void test_record(struct tests *t);
void test_replay(struct tests *t);
void test_record_and_replay(struct tests *t);
void test_next_bit(struct tests *t);
void test_bits(struct tests *t);
void test_turned_bits(struct tests *t);
void test_demand2(struct tests *t);
void test_round_trip(struct tests *t);
void test_catalogue_entry(struct tests *t);
void test_catalogue(struct tests *t);

#endif
