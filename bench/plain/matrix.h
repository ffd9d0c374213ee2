/* Matrices over bits, by rows, column 0 as top bit. */
#ifndef MATRIX_H
#define MATRIX_H

#include <stdbool.h>
#include <stdint.h>
#include <string.h>

typedef struct {
    uint64_t high, low;
} vector128;

static inline uint32_t load32(const uint8_t *p)
{
    return (uint32_t)p[0] << 24 | (uint32_t)p[1] << 16 | (uint32_t)p[2] << 8 | p[3];
}

static inline uint64_t load64(const uint8_t *p)
{
    return (uint64_t)load32(p) << 32 | load32(p + 4);
}

static inline void store32(uint8_t *p, uint32_t v)
{
    p[0] = (uint8_t)(v >> 24);
    p[1] = (uint8_t)(v >> 16);
    p[2] = (uint8_t)(v >> 8);
    p[3] = (uint8_t)v;
}

static inline uint8_t product8(const uint8_t *rows, uint8_t v)
{
    unsigned r = 0;
    for (int i = 0; i < 8; i++)
        r = r << 1 | (unsigned)__builtin_parity(rows[i] & v);
    return (uint8_t)r;
}

static inline uint32_t product32(const uint32_t *rows, uint32_t v)
{
    uint32_t r = 0;
    for (int i = 0; i < 32; i++)
        r = r << 1 | (uint32_t)__builtin_parity(rows[i] & v);
    return r;
}

/* Gauss-Jordan on rows of matrix and inverse side by side: false for a matrix that has no inverse. A matrix of n <= 32 rows. */
static inline bool invert32(int n, const uint32_t *matrix, uint32_t *inverse)
{
    uint64_t rows[32];
    for (int i = 0; i < n; i++)
        rows[i] = (uint64_t)matrix[i] << 32 | (uint64_t)1 << (n - 1 - i);
    for (int k = 0; k < n; k++) {
        uint64_t bit = (uint64_t)1 << (32 + n - 1 - k);
        int p = k;
        while (p < n && !(rows[p] & bit))
            p++;
        if (p == n)
            return false;
        uint64_t pivot = rows[p];
        rows[p] = rows[k];
        for (int i = 0; i < n; i++)
            rows[i] ^= rows[i] & bit ? pivot : 0;
        rows[k] = pivot;
    }
    for (int i = 0; i < n; i++)
        inverse[i] = (uint32_t)rows[i];
    return true;
}

static inline void load_matrix128(const uint8_t *matrix, vector128 rows[128])
{
    for (int i = 0; i < 128; i++)
        rows[i] = (vector128){load64(matrix + 16 * i), load64(matrix + 16 * i + 8)};
}

static inline bool has_bit(vector128 v, int k)
{
    return (k < 64 ? v.high >> (63 - k) : v.low >> (127 - k)) & 1;
}

static inline bool invert128(const uint8_t *matrix, vector128 inverse[128])
{
    uint64_t rows[128][4] = {0}; /* two words of the matrix, two of the inverse */
    for (int i = 0; i < 128; i++) {
        rows[i][0] = load64(matrix + 16 * i);
        rows[i][1] = load64(matrix + 16 * i + 8);
        rows[i][2 + i / 64] = (uint64_t)1 << (63 - i % 64);
    }
    for (int k = 0; k < 128; k++) {
        int word = k / 64, shift = 63 - k % 64, p = k;
        uint64_t pivot[4];
        while (p < 128 && !(rows[p][word] >> shift & 1))
            p++;
        if (p == 128)
            return false;
        memcpy(pivot, rows[p], sizeof pivot);
        memcpy(rows[p], rows[k], sizeof pivot);
        for (int i = 0; i < 128; i++) {
            uint64_t mask = -(rows[i][word] >> shift & 1); /* no branch: it could not be foretold */
            for (int w = 0; w < 4; w++)
                rows[i][w] ^= pivot[w] & mask;
        }
        memcpy(rows[k], pivot, sizeof pivot);
    }
    for (int i = 0; i < 128; i++)
        inverse[i] = (vector128){rows[i][2], rows[i][3]};
    return true;
}

/* Column k, as 16 bytes. */
static inline void column128(const vector128 rows[128], int k, uint8_t column[16])
{
    for (int j = 0; j < 16; j++) {
        unsigned byte = 0;
        for (int i = 0; i < 8; i++)
            byte = byte << 1 | has_bit(rows[8 * j + i], k);
        column[j] = (uint8_t)byte;
    }
}

static inline uint32_t column32(const uint32_t rows[32], int k)
{
    uint32_t column = 0;
    for (int i = 0; i < 32; i++)
        column = column << 1 | (rows[i] >> (31 - k) & 1);
    return column;
}

static inline void load_matrix32(const uint8_t *matrix, uint32_t rows[32])
{
    for (int i = 0; i < 32; i++)
        rows[i] = load32(matrix + 4 * i);
}

static inline void load_matrix8(const uint8_t *matrix, uint32_t rows[8])
{
    for (int i = 0; i < 8; i++)
        rows[i] = matrix[i];
}

static inline bool invert8(const uint8_t *matrix, uint32_t inverse[8])
{
    uint32_t rows[8];
    load_matrix8(matrix, rows);
    return invert32(8, rows, inverse);
}

/* Whether a matrix of n <= 32 rows has an inverse: the elimination on the matrix alone, in column k only of the rows behind row k. The rows are used up. */
static inline bool is_invertible32(int n, uint32_t *rows)
{
    for (int k = 0; k < n; k++) {
        uint32_t bit = (uint32_t)1 << (n - 1 - k);
        int p = k;
        while (p < n && !(rows[p] & bit))
            p++;
        if (p == n)
            return false;
        uint32_t pivot = rows[p];
        rows[p] = rows[k];
        for (int i = k + 1; i < n; i++)
            rows[i] ^= rows[i] & bit ? pivot : 0;
    }
    return true;
}

static inline bool is_invertible128(const uint8_t *matrix)
{
    vector128 rows[128];
    load_matrix128(matrix, rows);
    for (int k = 0; k < 128; k++) {
        int p = k;
        while (p < 128 && !has_bit(rows[p], k))
            p++;
        if (p == 128)
            return false;
        vector128 pivot = rows[p];
        rows[p] = rows[k];
        for (int i = k + 1; i < 128; i++) {
            uint64_t mask = -(uint64_t)has_bit(rows[i], k);
            rows[i].high ^= pivot.high & mask;
            rows[i].low ^= pivot.low & mask;
        }
    }
    return true;
}

/* A 4 by 4 matrix of these rows: each is outside the span of those before it. */
static inline bool is_invertible4(uint32_t a, uint32_t b, uint32_t c, uint32_t d)
{
    uint32_t ab = a ^ b, ac = a ^ c, bc = b ^ c, abc = ab ^ c;
    return a && b && ab && c && ac && bc && abc && d && d != a && d != b && d != ab && d != c && d != ac && d != bc && d != abc;
}

#endif
