/* Checked calls, counted in groups. */
#ifndef CHECK_H
#define CHECK_H

#include "lent.h"

struct group {
    const char *name;
    unsigned long calls;
    unsigned long failures;
};

struct totals {
    unsigned long calls;
    unsigned long passed; /* groups */
    unsigned long failed;
};

/* What a call is lent: up to three slices that it reads, and a slice or a number that it writes. Those it has not are null slices. */
struct slices {
    struct lent first;
    struct lent second;
    struct lent third;
    struct lent out;
};

/* The shapes of a call's three slices, in the order of its arguments. */
struct shapes {
    enum shape first;
    enum shape second;
    enum shape third;
};

extern const struct shapes all_right;

enum { COMBINATIONS = SHAPES * SHAPES * SHAPES };

/* Call n of a group: the first calls have every combination of shapes, later ones a random one or, two in three, all shapes right. */
struct shapes shapes_of_call(size_t n, struct chance *chance);

/* The refusal of a cause without a second number, or 0 where what it asks for is right. */
uint64_t unless(bool right, uint32_t cause);

/* Document 01: the lowest number that applies is given. */
uint64_t lowest(uint64_t a, uint64_t b);

/* Holds what a call returned and left against what is due: written where the call is accepted, all memory as it was elsewhere. Takes the
 * slices back. */
void check(struct group *group, struct slices *slices, uint64_t returned, uint64_t due, const uint8_t *written);

/* A check of another kind. */
void check_that(struct group *group, bool holds, const char *what);

/* Prints the group's line, and counts it. */
void close_group(const struct group *group, struct totals *totals);

#endif
