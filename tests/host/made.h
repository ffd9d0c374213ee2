/* Sets that the library makes, with what they are made from. */
#ifndef MADE_H
#define MADE_H

#include "tests.h"

struct made_set {
    bool inverse;
    uint8_t key[16];
    const struct string *bundle;
    uint8_t *set;
};

/* A refused making is a failure of the group. */
struct made_set make_for(struct tests *t, struct group *group, bool inverse, const uint8_t key[16], const struct string *bundle);

/* The walk of its set by its own cipher, which each call names by another number. */
uint64_t walk_over(struct tests *t, const struct made_set *made, const uint8_t block[16], uint8_t answer[16]);

void free_made(struct made_set *made);

#endif
