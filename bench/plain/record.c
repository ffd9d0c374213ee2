#include "plain.h"
#include "walk.h"

enum { ENTRY_BYTES = 5, RECORD_BYTES = 15040 };

/* An offset is turned round as one word, which is right where the machine has the least significant byte first. */

/* The state is the place of the next entry, here and below. */
INLINED bool note(void *state, reading r)
{
    uint8_t **next = state;
    uint32_t most_significant_first = __builtin_bswap32((uint32_t)r.offset);
    memcpy(*next, &most_significant_first, 4);
    (*next)[4] = r.value;
    *next += ENTRY_BYTES;
    return true;
}

INLINED bool compare(void *state, reading r)
{
    const uint8_t **next = state;
    uint32_t most_significant_first;
    memcpy(&most_significant_first, *next, 4);
    if (__builtin_bswap32(most_significant_first) != r.offset || (*next)[4] != r.value)
        return false;
    *next += ENTRY_BYTES;
    return true;
}

static uint64_t judged_record(size_t set_len, size_t block_len, size_t record_len)
{
    uint64_t refusal = judged(set_len, block_len);
    return refusal != 0 ? refusal : record_len != RECORD_BYTES ? refused(13) : 0;
}

uint64_t plain_record(uint64_t cipher, const uint8_t *set, size_t set_len, const uint8_t *block, size_t block_len, uint8_t *record, size_t record_len)
{
    uint64_t refusal = judged_record(set_len, block_len, record_len);
    if (refusal != 0)
        return refusal;
    held w = started(block);
    walk(cipher, set, &w, (visitor){note, &record, set});
    return 0;
}

uint64_t plain_replay(uint64_t cipher, const uint8_t *set, size_t set_len, const uint8_t *block, size_t block_len, const uint8_t *record, size_t record_len,
    size_t *differs)
{
    uint64_t refusal = judged_record(set_len, block_len, record_len);
    if (refusal != 0)
        return refusal;
    const uint8_t *next = record;
    held w = started(block);
    bool own = walk(cipher, set, &w, (visitor){compare, &next, set});
    *differs = own ? SIZE_MAX : (size_t)(next - record) / ENTRY_BYTES;
    return 0;
}
