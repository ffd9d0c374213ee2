/* Memory lent to a call, in right and wrong shapes and at any address, with guard bytes on both sides.
 *
 * Under memcheck the guards and a bundle's free bytes may not be touched at all, memory that a call writes counts as never written before it,
 * and an accepted call has to write all of it. */
#ifndef LENT_H
#define LENT_H

#include "cases.h"
#include "chance.h"

#include <stdbool.h>

/* Memory of so many bytes. Ends the program where there is none. */
uint8_t *room(size_t len);

struct lent {
    uint8_t *bytes;
    size_t len;
    uint8_t *held;  /* what it held when it was lent */
    uint8_t *whole; /* the bytes and both guards; null for a null slice */
    size_t whole_len;
};

enum shape { RIGHT, NULL_SLICE, EMPTY, ONE_SHORT, ONE_LONG, ANY_LENGTH, SHAPES };

/* A copy of the content, which has the right length; bytes behind it are random. */
struct lent lend(const uint8_t *content, size_t right, enum shape shape, struct chance *chance);

/* The same for memory that a call is to write: the content is random. */
struct lent lend_to_write(size_t right, enum shape shape, struct chance *chance);

/* Memory for a number that a call is to write through a pointer: it stands where a size_t may stand. Before the call it holds this number, or a
 * random one. */
struct lent lend_number_that_holds(size_t held, struct chance *chance);
struct lent lend_number(struct chance *chance);

/* A bundle, and the judgement due. Its free bytes are random; in the shape ANY_LENGTH it is one of the cases that are refused. */
struct lent lend_bundle(const struct cases *cases, const struct bundle *bundle, enum shape shape, struct chance *chance, uint64_t *judgement);

/* To be asked behind a call: whether the guards are whole, and the bytes these, or those that were lent. */
bool holds(const struct lent *lent, const uint8_t *expected);
bool as_it_was(const struct lent *lent);

void take_back(struct lent *lent);

#endif
