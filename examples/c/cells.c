/* An example of a house's list: the flash cells that a ticket rests on.
 *
 *     tools/build host
 *     cc -std=c99 -I include examples/c/cells.c target/staticlib/libhost.a -o cells
 *     ./cells CIPHER SET BLOCK > CELLS
 *
 * CIPHER is forward or inverse. SET is a file as long as a set, made or not, and BLOCK one of 16 bytes, the block that the ticket presents. Each
 * line is one bit of the set that the walk reads: the offset of its byte, and its number in that byte, 7 for the top bit. There are 24,064, in the
 * order of the set. If one bit of a set made for that cipher turns over, the ticket's answer changes exactly if the bit is in the list. The list is that of the set
 * as it is: one that has faded already may have another. Where a call is refused, `refused N I` is printed: the cause, and the number returned with
 * it. The status is 0 where the list is written. */
#include "input.h"

#include <string.h>

#if TAZHIKKO_VERSION / 10000 != 3 || TAZHIKKO_VERSION < 30100
#error "this program is written for version 3 of the calls, from 3.1 on"
#endif

/* The bits by rising number, each found behind the one before. */
static int list(uint64_t cipher, const struct input *set, const struct input *block)
{
    size_t bit = 0;
    for (size_t from = 0; bit != TAZHIKKO_NONE; from = bit + 1) {
        uint64_t refusal = tazhikko_next_bit(cipher, set->bytes, set->len, block->bytes, block->len, from, &bit);
        if (refusal != 0)
            return print_refusal(refusal);
        if (bit != TAZHIKKO_NONE)
            printf("%zu %zu\n", bit / 8, 7 - bit % 8);
    }
    if (fflush(stdout) != 0 || ferror(stdout)) {
        perror("cells");
        return 2;
    }
    return 0;
}

int main(int argc, char **argv)
{
    static struct input set, block;
    int inverse = argc == 4 && strcmp(argv[1], "inverse") == 0, forward = argc == 4 && strcmp(argv[1], "forward") == 0;
    if (!(inverse || forward) || !read_input(argv[2], &set) || !read_input(argv[3], &block)) {
        fputs("usage: cells CIPHER SET BLOCK > CELLS\n", stderr);
        return 2;
    }
    return list(inverse ? TAZHIKKO_INVERSE : TAZHIKKO_FORWARD, &set, &block);
}
