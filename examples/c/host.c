/* An example host: enciphers a block by a table set, and reads it back by another.
 *
 *     tools/build host
 *     cc -std=c99 -I include examples/c/host.c target/staticlib/libhost.a -o host
 *     ./host KEY BUNDLE BLOCK
 *
 * KEY and BLOCK are files of 16 bytes. The desk makes the set of the key and the bundle, and codes the block. A reader, which has the set
 * and neither key nor bundle, walks the coded block. The desk uncodes the answer: the cipher block, printed as 32 hex digits. OpenSSL gives
 * the same: openssl enc -aes-128-ecb -nopad -K (the key in hex) -in BLOCK | xxd -p
 * A door that reads the block back has a set of the inverse cipher. The cipher block goes the same way over it, and the second line is the block.
 * Where a call is refused, `refused N I` is printed: the cause, and the number returned with it. */
#include "input.h"

#if TAZHIKKO_VERSION / 10000 != 3
#error "this program is written for version 3 of the calls"
#endif

/* What the cipher makes of a block, by a set of the key and the bundle. */
static uint64_t by_set(uint64_t cipher, const struct input *key, const struct input *bundle, const uint8_t *block, size_t len, uint8_t out[16])
{
    static uint8_t set[TAZHIKKO_SET_BYTES];
    uint8_t coded[16], answer[16];
    uint64_t refusal = tazhikko_make_set(cipher, key->bytes, key->len, bundle->bytes, bundle->len, set, sizeof set);
    if (refusal == 0)
        refusal = tazhikko_encode_input(bundle->bytes, bundle->len, block, len, coded, sizeof coded);
    if (refusal == 0)
        refusal = tazhikko_walk(cipher, set, sizeof set, coded, sizeof coded, answer, sizeof answer);
    if (refusal == 0)
        refusal = tazhikko_decode_output(bundle->bytes, bundle->len, answer, sizeof answer, out, 16);
    return refusal;
}

static void print_block(const uint8_t block[16])
{
    for (int i = 0; i < 16; i++)
        printf("%02x", block[i]);
    putchar('\n');
}

int main(int argc, char **argv)
{
    static struct input key, bundle, block;
    uint8_t cipher_block[16], again[16];
    if (argc != 4 || !read_input(argv[1], &key) || !read_input(argv[2], &bundle) || !read_input(argv[3], &block)) {
        fputs("usage: host KEY BUNDLE BLOCK\n", stderr);
        return 2;
    }
    uint64_t refusal = by_set(TAZHIKKO_FORWARD, &key, &bundle, block.bytes, block.len, cipher_block);
    if (refusal == 0)
        refusal = by_set(TAZHIKKO_INVERSE, &key, &bundle, cipher_block, sizeof cipher_block, again);
    if (refusal != 0)
        return print_refusal(refusal);
    print_block(cipher_block);
    print_block(again);
    return 0;
}
