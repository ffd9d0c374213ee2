/* Random calls of every function of include/tazhikko.h, held against libcrypto and the reference's cases.
 *
 * usage: host CASES SEED CALLS     CASES is the folder that cases.py wrote, CALLS the number of random calls of each function */
#include "tests.h"

#include <stdio.h>
#include <stdlib.h>

uint64_t call(call_on_slices *f, const struct slices *s)
{
    return f(s->first.bytes, s->first.len, s->second.bytes, s->second.len, s->out.bytes, s->out.len);
}

uint64_t call_for(call_for_cipher *f, bool inverse, const struct slices *s, struct chance *chance)
{
    uint64_t cipher = cipher_number(inverse, chance);
    return f(cipher, s->first.bytes, s->first.len, s->second.bytes, s->second.len, s->out.bytes, s->out.len);
}

size_t tries(const struct tests *t, size_t count)
{
    return t->calls < count ? t->calls : count;
}

size_t tried(struct tests *t, size_t count, size_t n)
{
    return t->calls < count ? below(&t->chance, count) : n;
}

int main(int argc, char **argv)
{
    if (argc != 4) {
        fputs("usage: host CASES SEED CALLS\n", stderr);
        return 2;
    }
    struct tests t = {.cases = read_cases(argv[1]), .chance = {strtoull(argv[2], NULL, 10)}, .calls = strtoull(argv[3], NULL, 10)};
    printf("seed %s, %s random calls of each function\n", argv[2], argv[3]);
    test_aes(&t);
    test_judgements(&t);
    test_codings(&t);
    test_make_set(&t);
    test_make_table(&t);
    test_walk(&t);
    test_record(&t);
    test_replay(&t);
    test_record_and_replay(&t);
    test_next_bit(&t);
    test_bits(&t);
    test_turned_bits(&t);
    test_demand2(&t);
    test_round_trip(&t);
    test_catalogue_entry(&t);
    test_catalogue(&t);
    printf("%lu checks; %lu groups passed, %lu failed\n", t.totals.calls, t.totals.passed, t.totals.failed);
    return t.totals.failed == 0 ? 0 : 1;
}
