/* An example bench: records a walk, and replays a record.
 *
 *     tools/build host
 *     cc -std=c99 -I include examples/c/bench.c target/staticlib/libhost.a -o bench
 *     ./bench record CIPHER SET BLOCK > RECORD
 *     ./bench replay CIPHER SET BLOCK RECORD
 *
 * CIPHER is forward or inverse. SET is a file as long as a set, made or not, and BLOCK one of 16 bytes, the block that is presented. A record has
 * 5 bytes for each lookup of the walk: where in the set it read, and the entry's first byte or half-byte (include/tazhikko.h). A replay prints `own`
 * where the record is that of the walk from the block over the set, else `differs at lookup N`, the first that differs. Lookups count from 0.
 * Where a call is refused, `refused N I` is printed: the cause, and the number returned with it. The status is 0 where a record is written or is
 * the walk's own. */
#include "input.h"

#include <string.h>

#if TAZHIKKO_VERSION / 10000 != 3
#error "this program is written for version 3 of the calls"
#endif

static int record(uint64_t cipher, const struct input *set, const struct input *block)
{
    static uint8_t out[TAZHIKKO_RECORD_BYTES];
    uint64_t refusal = tazhikko_record(cipher, set->bytes, set->len, block->bytes, block->len, out, sizeof out);
    if (refusal != 0)
        return print_refusal(refusal);
    if (fwrite(out, 1, sizeof out, stdout) != sizeof out || fflush(stdout) != 0) {
        perror("record");
        return 2;
    }
    return 0;
}

static int replay(uint64_t cipher, const struct input *set, const struct input *block, const struct input *recorded)
{
    size_t differs;
    uint64_t refusal =
        tazhikko_replay(cipher, set->bytes, set->len, block->bytes, block->len, recorded->bytes, recorded->len, &differs);
    if (refusal != 0)
        return print_refusal(refusal);
    if (differs == TAZHIKKO_NONE)
        puts("own");
    else
        printf("differs at lookup %zu\n", differs);
    if (fflush(stdout) != 0) {
        perror("replay");
        return 2;
    }
    return differs == TAZHIKKO_NONE ? 0 : 1;
}

int main(int argc, char **argv)
{
    static struct input set, block, recorded;
    int records = argc == 5 && strcmp(argv[1], "record") == 0, replays = argc == 6 && strcmp(argv[1], "replay") == 0;
    int inverse = argc > 2 && strcmp(argv[2], "inverse") == 0, forward = argc > 2 && strcmp(argv[2], "forward") == 0;
    if (!(records || replays) || !(inverse || forward) || !read_input(argv[3], &set) || !read_input(argv[4], &block)
        || (replays && !read_input(argv[5], &recorded))) {
        fputs("usage: bench record CIPHER SET BLOCK > RECORD\n       bench replay CIPHER SET BLOCK RECORD\n", stderr);
        return 2;
    }
    uint64_t cipher = inverse ? TAZHIKKO_INVERSE : TAZHIKKO_FORWARD;
    return records ? record(cipher, &set, &block) : replay(cipher, &set, &block, &recorded);
}
