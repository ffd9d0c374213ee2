#include "bundle.h"

#include "matrix.h"
#include "plain.h"

static const uint32_t SECTION_BYTES[SECTIONS] = {48384, 1280, 4608, 2048, 2048};

static uint64_t refused(uint32_t cause, uint32_t second)
{
    return (uint64_t)cause << 32 | second;
}

/* The first list that repeats an image; LISTS where none does. */
static uint32_t first_bad_list(const uint8_t *lists)
{
    for (uint32_t n = 0; n < LISTS; n++) {
        unsigned met = 0;
        for (uint32_t i = 0; i < 16; i++) {
            uint8_t pair = lists[8 * n + i / 2];
            unsigned mark = 1u << (i % 2 == 0 ? pair >> 4 : pair & 15);
            if (met & mark)
                return n;
            met ^= mark;
        }
    }
    return LISTS;
}

uint64_t find_sections(const uint8_t *bundle, size_t len, const uint8_t *sections[SECTIONS])
{
    uint64_t end = 40;
    if (len < 58408 || len > 65536)
        return refused(2, 0);
    for (uint32_t i = 0; i < SECTIONS; i++) {
        uint64_t start = load32(bundle + 8 * i), bytes = load32(bundle + 8 * i + 4);
        if (bytes != SECTION_BYTES[i] || start < end || start + bytes > len)
            return refused(3, i);
        sections[i] = bundle + start;
        end = start + bytes;
    }
    return 0;
}

/* Whether each aligned 4 by 4 block of an n by n matrix has an inverse. */
static bool blocks_invertible(int n, const uint32_t *matrix)
{
    for (int i = 0; i < n; i += 4)
        for (int shift = 0; shift < n; shift += 4)
            if (!is_invertible4(matrix[i] >> shift & 15, matrix[i + 1] >> shift & 15, matrix[i + 2] >> shift & 15, matrix[i + 3] >> shift & 15))
                return false;
    return true;
}

uint64_t plain_judge_bundle(const uint8_t *bundle, size_t bundle_len)
{
    const uint8_t *sections[SECTIONS];
    uint32_t rows[32];
    uint64_t refusal = find_sections(bundle, bundle_len, sections);
    if (refusal != 0)
        return refusal;
    uint32_t bad = first_bad_list(sections[0]);
    if (bad < LISTS)
        return refused(4, bad);
    for (uint32_t i = 0; i < BYTE_MATRICES; i++) {
        load_matrix8(sections[1] + 8 * i, rows);
        if (!blocks_invertible(8, rows) || !is_invertible32(8, rows))
            return refused(5, i);
    }
    for (uint32_t i = 0; i < COLUMN_MATRICES; i++) {
        load_matrix32(sections[2] + 128 * i, rows);
        if (!blocks_invertible(32, rows) || !is_invertible32(32, rows))
            return refused(6, i);
    }
    for (uint32_t i = 0; i < 2; i++)
        if (!is_invertible128(sections[3 + i]))
            return refused(7, i);
    return 0;
}
