/* Documents 01 and 02 in plain C, unproved: what tazhikko's calls are measured against. The cipher is named as in tazhikko's calls: 0 forward, any other number
 * inverse. The calls that walk test the lengths of set, block, answer and record, as tazhikko's do, and keep the count and the place of the last lookup. What they do
 * not do: no walk is handed on by value between start, move and fetch, and no area is zeroed behind a stage, since none is held. The maker's calls leave the lengths
 * of key and set to the caller. */
#ifndef PLAIN_H
#define PLAIN_H

#include <stddef.h>
#include <stdint.h>

/* 0 for an accepted bundle, else cause * 2^32 + the number returned with it. */
uint64_t plain_judge_bundle(const uint8_t *bundle, size_t bundle_len);

/* Both judge the bundle first and return what the judgement returns. */
uint64_t plain_make_set(uint64_t cipher, const uint8_t *key, const uint8_t *bundle, size_t bundle_len, uint8_t *set);
uint64_t plain_make_table(uint64_t cipher, const uint8_t *key, const uint8_t *bundle, size_t bundle_len, size_t number, uint8_t *table);

/* Each returns 0, or the refusal, which leaves what it was lent. */
uint64_t plain_walk(uint64_t cipher, const uint8_t *set, size_t set_len, const uint8_t *block, size_t block_len, uint8_t *answer, size_t answer_len);

/* The record of that walk; the replay of one, to the first lookup that differs or SIZE_MAX for none. */
uint64_t plain_record(uint64_t cipher, const uint8_t *set, size_t set_len, const uint8_t *block, size_t block_len, uint8_t *record, size_t record_len);
uint64_t plain_replay(uint64_t cipher, const uint8_t *set, size_t set_len, const uint8_t *block, size_t block_len, const uint8_t *record, size_t record_len,
    size_t *differs);

/* The smallest bit at or after a number that the walk reads, or SIZE_MAX where none is left. */
uint64_t plain_next_bit(uint64_t cipher, const uint8_t *set, size_t set_len, const uint8_t *block, size_t block_len, size_t from, size_t *bit);

/* The entry of the catalogue at a position: 0, or the refusal, which leaves *matrix. */
uint64_t plain_catalogue_entry(size_t position, size_t *matrix);

#endif
