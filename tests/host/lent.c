#include "lent.h"

#include "tazhikko.h"

#include <stdio.h>
#include <stdlib.h>
#include <string.h>
#include <valgrind/memcheck.h>

enum { GUARD = 64, GUARD_BYTE = 0xc3 };

uint8_t *room(size_t len)
{
    uint8_t *bytes = malloc(len);
    if (bytes == NULL) {
        fputs("memory exhausted\n", stderr);
        exit(2);
    }
    return bytes;
}

static size_t shaped_length(size_t right, enum shape shape, struct chance *chance)
{
    switch (shape) {
    case RIGHT:
        return right;
    case ONE_SHORT:
        return right - 1;
    case ONE_LONG:
        return right + 1;
    case ANY_LENGTH:
        return below(chance, 2 * right + 1);
    default:
        return 0;
    }
}

/* Takes note of what the memory holds, and closes the guards. */
static void closed(struct lent *lent)
{
    memcpy(lent->held, lent->bytes, lent->len);
    VALGRIND_MAKE_MEM_NOACCESS(lent->whole, lent->bytes - lent->whole);
    VALGRIND_MAKE_MEM_NOACCESS(lent->bytes + lent->len, GUARD);
}

/* The bytes stand at a random multiple of the step, counted from an address that suits every type. */
static struct lent made(const uint8_t *content, size_t content_len, size_t len, size_t step, struct chance *chance)
{
    size_t front = GUARD + step * below(chance, 16);
    struct lent lent = {.len = len, .held = room(len + 1), .whole = room(front + len + GUARD), .whole_len = front + len + GUARD};
    size_t copied = content_len < len ? content_len : len;
    lent.bytes = lent.whole + front;
    memset(lent.whole, GUARD_BYTE, lent.whole_len);
    memcpy(lent.bytes, content, copied);
    fill(chance, lent.bytes + copied, len - copied);
    closed(&lent);
    return lent;
}

struct lent lend(const uint8_t *content, size_t right, enum shape shape, struct chance *chance)
{
    if (shape == NULL_SLICE)
        return (struct lent){0};
    return made(content, right, shaped_length(right, shape, chance), 1, chance);
}

static struct lent unwritten(struct lent lent)
{
    VALGRIND_MAKE_MEM_UNDEFINED(lent.bytes, lent.len);
    return lent;
}

struct lent lend_to_write(size_t right, enum shape shape, struct chance *chance)
{
    static const uint8_t none[1];
    if (shape == NULL_SLICE)
        return (struct lent){0};
    return unwritten(made(none, 0, shaped_length(right, shape, chance), 1, chance));
}

struct lent lend_number_that_holds(size_t held, struct chance *chance)
{
    return unwritten(made((const uint8_t *)&held, sizeof held, sizeof held, sizeof held, chance));
}

struct lent lend_number(struct chance *chance)
{
    size_t any;
    fill(chance, (uint8_t *)&any, sizeof any);
    return lend_number_that_holds(any, chance);
}

static const struct judgement *refused(const struct cases *cases, struct chance *chance)
{
    for (;;) {
        const struct judgement *j = &cases->judgements[below(chance, cases->judgement_count)];
        if (j->number != 0)
            return j;
    }
}

static void free_bytes(struct lent *lent, const struct bundle *bundle, struct chance *chance)
{
    for (size_t i = 0; i < 6; i++)
        fill(chance, lent->bytes + bundle->gaps[i].start, bundle->gaps[i].len);
    closed(lent);
    for (size_t i = 0; i < 6; i++)
        VALGRIND_MAKE_MEM_NOACCESS(lent->bytes + bundle->gaps[i].start, bundle->gaps[i].len);
}

struct lent lend_bundle(const struct cases *cases, const struct bundle *bundle, enum shape shape, struct chance *chance, uint64_t *judgement)
{
    if (shape == ANY_LENGTH) {
        const struct judgement *j = refused(cases, chance);
        *judgement = j->number;
        return lend(j->bundle.bytes, j->bundle.len, RIGHT, chance);
    }
    struct lent lent = lend(bundle->content.bytes, bundle->content.len, shape, chance);
    *judgement = (uint64_t)TAZHIKKO_BUNDLE_LENGTH << 32;
    if (shape == ONE_SHORT)
        *judgement = bundle->one_short;
    if (shape == ONE_LONG)
        *judgement = bundle->one_long;
    if (shape == RIGHT) {
        *judgement = 0;
        free_bytes(&lent, bundle, chance);
    }
    return lent;
}

static bool all_guard(const uint8_t *from, const uint8_t *to)
{
    while (from < to && *from == GUARD_BYTE)
        from++;
    return from == to;
}

static bool guarded(const struct lent *lent)
{
    return all_guard(lent->whole, lent->bytes) && all_guard(lent->bytes + lent->len, lent->whole + lent->whole_len);
}

/* memcheck reports what the call left unwritten. */
bool holds(const struct lent *lent, const uint8_t *expected)
{
    VALGRIND_CHECK_MEM_IS_DEFINED(lent->bytes, lent->len);
    VALGRIND_MAKE_MEM_DEFINED(lent->whole, lent->whole_len);
    return memcmp(lent->bytes, expected, lent->len) == 0 && guarded(lent);
}

bool as_it_was(const struct lent *lent)
{
    if (lent->whole == NULL)
        return true;
    VALGRIND_MAKE_MEM_DEFINED(lent->whole, lent->whole_len);
    return memcmp(lent->bytes, lent->held, lent->len) == 0 && guarded(lent);
}

void take_back(struct lent *lent)
{
    free(lent->held);
    free(lent->whole);
    *lent = (struct lent){0};
}
