#include "aes.h"
#include "bundle.h"
#include "layers.h"
#include "matrix.h"
#include "plain.h"

typedef struct {
    bool inverse;
    const uint8_t *lists, *byte_matrices, *column_matrices, *input_matrix, *output_matrix;
    uint8_t round_keys[176];
    vector128 block[128]; /* the input matrix's inverse in the entry, the output matrix in the exit */
    uint32_t column[32];  /* in a round: the column matrix of the group at hand, its inverse in the second half */
} maker;

static const uint8_t *byte_matrix(const maker *m, size_t round, size_t j)
{
    return m->byte_matrices + 8 * (16 * (round - 1) + j);
}

static void unpack(const uint8_t *list, uint8_t images[16])
{
    for (int i = 0; i < 8; i++) {
        images[2 * i] = list[i] >> 4;
        images[2 * i + 1] = list[i] & 15;
    }
}

static void unpack_inverse(const uint8_t *list, uint8_t inverse[16])
{
    for (int i = 0; i < 8; i++) {
        inverse[list[i] >> 4] = (uint8_t)(2 * i);
        inverse[list[i] & 15] = (uint8_t)(2 * i + 1);
    }
}

/* The words of the bytes with one nibble, from those of the bytes 128, 64 .. 1: of the low nibbles 0 to 15, then of the high ones. */
static inline void span(size_t word, uint8_t columns[8][16], uint8_t words[2][16][16])
{
    for (size_t h = 0; h < 2; h++) {
        memset(words[h][0], 0, word);
        for (size_t k = 0; k < 4; k++)
            for (size_t x = 0; x < (size_t)1 << k; x++)
                for (size_t t = 0; t < word; t++)
                    words[h][(1u << k) + x][t] = words[h][x][t] ^ columns[7 - 4 * h - k][t];
    }
}

static uint8_t key_byte(const maker *m, size_t round, size_t j)
{
    return m->round_keys[16 * round + j];
}

/* The key byte before the S-box of a round, that of the byte j that is read. */
static uint8_t key_before(const maker *m, size_t round, size_t j)
{
    if (!m->inverse)
        return key_byte(m, round - 1, j);
    return round == 1 ? key_byte(m, ROUNDS, j) : 0;
}

/* The key byte behind it, that of position p. */
static uint8_t key_behind(const maker *m, size_t round, size_t p)
{
    if (m->inverse)
        return key_byte(m, ROUNDS - round, p);
    return round == ROUNDS ? key_byte(m, ROUNDS, p) : 0;
}

/* What the S-box answers in round r for a byte under matrix (r, j). */
static void sbox_under_matrix(const maker *m, size_t round, size_t j, uint8_t bytes[256])
{
    uint32_t inverse[8];
    uint8_t key = key_before(m, round, j);
    const uint8_t *sbox = m->inverse ? INV_SBOX : SBOX;
    uint8_t columns[8][16], products[2][16][16];
    invert8(byte_matrix(m, round, j), inverse);
    for (int k = 0; k < 8; k++) {
        unsigned column = 0;
        for (int i = 0; i < 8; i++)
            column = column << 1 | (inverse[i] >> (7 - k) & 1);
        columns[k][0] = (uint8_t)column;
    }
    span(1, columns, products);
    for (int x = 0; x < 256; x++)
        bytes[x] = sbox[products[0][x & 15][0] ^ products[1][x >> 4][0] ^ key];
}

/* Column k of the linear map that makes the words of spread table p: for bytes, or in FIRST and EXIT for what the S-box answers. */
static void word_column(const maker *m, const layer *l, size_t p, int k, uint8_t column[16])
{
    size_t q = p % 4, bit = 8 * p + (size_t)k;
    const uint8_t *mix = m->inverse ? INV_MIX_COLUMN : MIX_COLUMN;
    uint8_t byte = (uint8_t)(0x80 >> k), mixed[4];
    switch (l->kind) {
    case ENTRY:
        column128(m->block, (int)bit, column);
        for (size_t j = 0; j < 16; j++)
            column[j] = product8(byte_matrix(m, 1, j), column[j]);
        break;
    case FIRST:
        for (size_t t = 0; t < 4; t++)
            mixed[t] = times(mix[(t + 4 - q) % 4], byte);
        store32(column, product32(m->column, load32(mixed)));
        break;
    case SECOND:
        store32(column, column32(m->column, (int)(8 * q) + k));
        for (size_t t = 0; t < 4; t++)
            column[t] = product8(byte_matrix(m, l->round + 1, p - q + t), column[t]);
        break;
    case EXIT:
        column128(m->block, (int)bit, column);
        break;
    }
}

/* The matrix that serves a whole group of spread tables. */
static void prepare_group(maker *m, const layer *l, size_t group)
{
    switch (l->kind) {
    case ENTRY:
        invert128(m->input_matrix, m->block);
        break;
    case FIRST:
    case SECOND:
        load_matrix32(m->column_matrices + 128 * (4 * (l->round - 1) + group), m->column);
        if (l->kind == SECOND)
            invert32(32, m->column, m->column);
        break;
    case EXIT:
        load_matrix128(m->output_matrix, m->block);
        break;
    }
}

/* Word after word under its lists, nibble by nibble: a byte of the table is the images of two nibbles, joined. */
static inline void encode_words(size_t word, const uint8_t *lists, uint8_t words[2][16][16], const uint8_t order[256], uint8_t *table)
{
    uint8_t images[32][16];
    for (size_t h = 0; h < 2 * word; h++)
        unpack(lists + 8 * h, images[h]);
    for (size_t e = 0; e < 256; e++)
        for (size_t t = 0; t < word; t++) {
            uint8_t byte = words[0][order[e] & 15][t] ^ words[1][order[e] >> 4][t];
            table[word * e + t] = (uint8_t)(images[2 * t][byte >> 4] << 4 | images[2 * t + 1][byte & 15]);
        }
}

static void spread_table(const maker *m, size_t n, const layer *l, size_t p, uint8_t *table)
{
    uint8_t columns[8][16], words[2][16][16], order[256], high[16], low[16];
    size_t j = source(m->inverse, l->kind, p);
    for (int k = 0; k < 8; k++)
        word_column(m, l, p, k, columns[k]);
    unpack_inverse(m->lists + 8 * standing_list(n, 2 * j), high);
    unpack_inverse(m->lists + 8 * standing_list(n, 2 * j + 1), low);
    for (int e = 0; e < 256; e++)
        order[e] = (uint8_t)(high[e >> 4] << 4 | low[e & 15]);
    if (l->kind == FIRST || l->kind == EXIT) {
        uint8_t bytes[256], key = key_behind(m, l->round, p);
        sbox_under_matrix(m, l->round, j, bytes);
        for (int e = 0; e < 256; e++)
            order[e] = bytes[order[e]] ^ key;
    }
    const uint8_t *lists = m->lists + 8 * spread_list(l, p, 0);
    if (l->word == 16) {
        span(16, columns, words);
        encode_words(16, lists, words, order, table);
    } else {
        span(4, columns, words);
        encode_words(4, lists, words, order, table);
    }
}

static void xor_table(const maker *m, const layer *l, size_t group, size_t t, size_t h, uint8_t *table)
{
    uint8_t sum[16], next[16], images[16];
    unpack_inverse(m->lists + 8 * sum_list(l, group, t - 1, h), sum);
    unpack_inverse(m->lists + 8 * spread_list(l, l->word * group + t, h), next);
    unpack(m->lists + 8 * sum_list(l, group, t, h), images);
    for (int a = 0; a < 16; a++)
        for (int b = 0; b < 8; b++)
            table[8 * a + b] = (uint8_t)(images[sum[a] ^ next[2 * b]] << 4 | images[sum[a] ^ next[2 * b + 1]]);
}

static uint64_t start_maker(maker *m, uint64_t cipher, const uint8_t *key, const uint8_t *bundle, size_t bundle_len)
{
    const uint8_t *sections[SECTIONS];
    uint64_t refusal = plain_judge_bundle(bundle, bundle_len);
    if (refusal != 0)
        return refusal;
    find_sections(bundle, bundle_len, sections);
    m->inverse = cipher != 0;
    m->lists = sections[0];
    m->byte_matrices = sections[1];
    m->column_matrices = sections[2];
    m->input_matrix = sections[3];
    m->output_matrix = sections[4];
    expand_key(key, m->round_keys);
    return 0;
}

uint64_t plain_make_set(uint64_t cipher, const uint8_t *key, const uint8_t *bundle, size_t bundle_len, uint8_t *set)
{
    maker m;
    uint64_t refusal = start_maker(&m, cipher, key, bundle, bundle_len);
    if (refusal != 0)
        return refusal;
    for (size_t n = 0; n < LAYERS; n++) {
        layer l = layer_at(n);
        for (size_t p = 0; p < 16; p++) {
            if (p % l.word == 0)
                prepare_group(&m, &l, p / l.word);
            spread_table(&m, n, &l, p, set);
            set += 256 * l.word;
        }
        for (size_t group = 0; group < 16 / l.word; group++)
            for (size_t t = 1; t < l.word; t++)
                for (size_t h = 0; h < 2 * l.word; h++) {
                    xor_table(&m, &l, group, t, h, set);
                    set += 128;
                }
    }
    return 0;
}

uint64_t plain_make_table(uint64_t cipher, const uint8_t *key, const uint8_t *bundle, size_t bundle_len, size_t number, uint8_t *table)
{
    maker m;
    uint64_t refusal = start_maker(&m, cipher, key, bundle, bundle_len);
    if (refusal != 0)
        return refusal;
    size_t n = layer_of_table(number);
    layer l = layer_at(n);
    size_t i = number - l.table;
    if (i < 16) {
        prepare_group(&m, &l, i / l.word);
        spread_table(&m, n, &l, i, table);
    } else {
        size_t nibbles = 2 * l.word, step = (i - 16) / nibbles;
        xor_table(&m, &l, step / (l.word - 1), step % (l.word - 1) + 1, (i - 16) % nibbles, table);
    }
    return 0;
}
