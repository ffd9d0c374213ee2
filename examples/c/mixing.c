/* An example of a house's draw: the mixing matrices of a bundle, of blocks from the catalogue.
 *
 *     tools/build host
 *     cc -std=c99 -I include examples/c/mixing.c target/staticlib/libhost.a -o mixing
 *     ./mixing < /dev/urandom > MATRICES
 *
 * Standard input is the house's source of random bytes. What is written are 160 byte matrices and 36 column matrices, 5,888 bytes: sections 1 and 2 of a
 * bundle, one behind the other (docs/bundle-format.md). A bundle is refused where such a matrix, or an aligned 4 by 4 block of one, has no inverse. So each block is
 * the matrix at a random position of the catalogue, and a matrix whose blocks are drawn is kept where the whole has an inverse too: 29 in 100 are. That
 * takes some 22,000 bytes. The status is 0 where the matrices are written, and 2 where the bytes end before that. */
#include "tazhikko.h"

#include <stdio.h>
#include <string.h>

#if TAZHIKKO_VERSION / 10000 != 3
#error "this program is written for version 3 of the calls"
#endif

enum { BLOCK = 4, NARROW = 8, WIDE = 32, BYTE_MATRICES = 160, COLUMN_MATRICES = 36, MATRICES = BYTE_MATRICES + COLUMN_MATRICES };
enum { BYTES = BYTE_MATRICES * NARROW * NARROW / 8 + COLUMN_MATRICES * WIDE * WIDE / 8 };

/* Any position is as likely as any other: 16-bit numbers from the last whole multiple of the catalogue's length on are drawn again. */
static int draw_position(size_t *position)
{
    const size_t bound = 65536 / TAZHIKKO_CATALOGUE_MATRICES * TAZHIKKO_CATALOGUE_MATRICES;
    size_t number;
    do {
        int high = getchar(), low = getchar();
        if (high == EOF || low == EOF)
            return 0;
        number = (size_t)high << 8 | (size_t)low;
    } while (number >= bound);
    *position = number % TAZHIKKO_CATALOGUE_MATRICES;
    return 1;
}

/* Row 0 of a block is the highest 4 bits of its number; column 0 of a matrix of n rows is bit n - 1 of each. */
static void put_block(size_t block, int n, int top, int left, uint32_t rows[WIDE])
{
    for (int i = 0; i < BLOCK; i++)
        rows[top + i] |= (uint32_t)(block >> BLOCK * (BLOCK - 1 - i) & ((1 << BLOCK) - 1)) << (n - BLOCK - left);
}

static int draw_blocks(int n, uint32_t rows[WIDE])
{
    memset(rows, 0, WIDE * sizeof *rows);
    for (int top = 0; top < n; top += BLOCK)
        for (int left = 0; left < n; left += BLOCK) {
            size_t position, block;
            if (!draw_position(&position) || tazhikko_catalogue_entry(position, &block) != 0)
                return 0;
            put_block(block, n, top, left, rows);
        }
    return 1;
}

/* Each row is reduced by those before it; a row that comes to 0 is a sum of them. */
static int has_inverse(int n, const uint32_t rows[WIDE])
{
    uint32_t reduced[WIDE];
    for (int i = 0; i < n; i++) {
        uint32_t row = rows[i];
        for (int k = 0; k < i; k++)
            if ((row ^ reduced[k]) < row) /* it has the top bit of that row */
                row ^= reduced[k];
        if (row == 0)
            return 0;
        reduced[i] = row;
    }
    return 1;
}

/* By rows, the most significant byte first. */
static int draw_matrix(int n, uint8_t *out)
{
    uint32_t rows[WIDE];
    do {
        if (!draw_blocks(n, rows))
            return 0;
    } while (!has_inverse(n, rows));
    for (int i = 0; i < n; i++)
        for (int shift = n - 8; shift >= 0; shift -= 8)
            *out++ = (uint8_t)(rows[i] >> shift);
    return 1;
}

int main(void)
{
    static uint8_t matrices[BYTES];
    uint8_t *next = matrices;
    for (int k = 0; k < MATRICES; k++) {
        int n = k < BYTE_MATRICES ? NARROW : WIDE;
        if (!draw_matrix(n, next)) {
            fputs("mixing: the random bytes ended before all matrices were drawn\n", stderr);
            return 2;
        }
        next += n * n / 8;
    }
    if (fwrite(matrices, 1, sizeof matrices, stdout) != sizeof matrices || fflush(stdout) != 0) {
        perror("mixing");
        return 2;
    }
    return 0;
}
