#include "made.h"

#include "tazhikko.h"

#include <stdlib.h>
#include <string.h>

struct made_set make_for(struct tests *t, struct group *group, bool inverse, const uint8_t key[16], const struct string *bundle)
{
    struct made_set made = {.inverse = inverse, .bundle = bundle, .set = room(TAZHIKKO_SET_BYTES)};
    memcpy(made.key, key, sizeof made.key);
    uint64_t cipher = cipher_number(inverse, &t->chance);
    uint64_t refusal = tazhikko_make_set(cipher, key, 16, bundle->bytes, bundle->len, made.set, TAZHIKKO_SET_BYTES);
    check_that(group, refusal == 0, "make_set is refused");
    return made;
}

uint64_t walk_over(struct tests *t, const struct made_set *made, const uint8_t block[16], uint8_t answer[16])
{
    return tazhikko_walk(cipher_number(made->inverse, &t->chance), made->set, TAZHIKKO_SET_BYTES, block, 16, answer, 16);
}

void free_made(struct made_set *made)
{
    free(made->set);
    *made = (struct made_set){0};
}
