#include "check.h"

#include "tazhikko.h"

#include <stdio.h>

const struct shapes all_right = {RIGHT, RIGHT, RIGHT};

struct shapes shapes_of_call(size_t n, struct chance *chance)
{
    if (n >= COMBINATIONS)
        n = below(chance, 3) == 0 ? below(chance, COMBINATIONS) : 0;
    return (struct shapes){n % SHAPES, n / SHAPES % SHAPES, n / SHAPES / SHAPES};
}

uint64_t unless(bool right, uint32_t cause)
{
    return right ? 0 : (uint64_t)cause << 32;
}

uint64_t lowest(uint64_t a, uint64_t b)
{
    return a == 0 || (b != 0 && b < a) ? b : a;
}

/* Counts a failure; whether it is among the few that are shown. */
static bool shown(struct group *group)
{
    return group->failures++ < 5;
}

static const char *fault(const struct slices *s, uint64_t returned, uint64_t due, const uint8_t *written)
{
    bool left = due == 0 && written != NULL ? holds(&s->out, written) : as_it_was(&s->out);
    if (returned != due)
        return "another number is due";
    if (!left)
        return due == 0 ? "other bytes are due" : "refused, and lent memory is changed";
    if (!as_it_was(&s->first) || !as_it_was(&s->second) || !as_it_was(&s->third))
        return "memory that is only read is changed";
    return NULL;
}

void check(struct group *group, struct slices *slices, uint64_t returned, uint64_t due, const uint8_t *written)
{
    const char *what = fault(slices, returned, due, written);
    if (what != NULL && shown(group))
        printf("  %s, call %lu, lengths %zu %zu %zu, written %zu: %s; returned %u %u, due %u %u\n", group->name, group->calls, slices->first.len,
               slices->second.len, slices->third.len, slices->out.len, what, TAZHIKKO_CAUSE(returned), TAZHIKKO_SECOND(returned),
               TAZHIKKO_CAUSE(due), TAZHIKKO_SECOND(due));
    group->calls++;
    take_back(&slices->first);
    take_back(&slices->second);
    take_back(&slices->third);
    take_back(&slices->out);
}

void check_that(struct group *group, bool holds, const char *what)
{
    if (!holds && shown(group))
        printf("  %s, call %lu: %s\n", group->name, group->calls, what);
    group->calls++;
}

/* A group without calls has tested nothing. */
void close_group(const struct group *group, struct totals *totals)
{
    totals->calls += group->calls;
    if (group->failures == 0 && group->calls != 0) {
        totals->passed++;
        printf("ok %s (%lu)\n", group->name, group->calls);
    } else {
        totals->failed++;
        printf("FAILED %s (%lu of %lu)\n", group->name, group->failures, group->calls);
    }
    fflush(stdout);
}
