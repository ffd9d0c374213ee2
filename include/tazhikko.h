/* Tazhikko: white-box AES-128 table sets, for programs in C.
 *
 * Every call takes slices as a pointer and a length, of any length. A pointer may be null where its length is 0. Lent memory that a
 * call writes must not overlap what it reads. A call returns 0 where it is accepted, else a refusal: TAZHIKKO_CAUSE and TAZHIKKO_SECOND read
 * its two numbers. A refused call leaves the lent memory as it was. */
#ifndef TAZHIKKO_H
#define TAZHIKKO_H

#include <stddef.h>
#include <stdint.h>

#ifdef __cplusplus
extern "C" {
#endif

/* The version of these calls: 10,000 times the major number, 100 times the minor one, and the patch. Where the major number is another, a
 * call takes or answers something else. Since version 2, make_set, make_table and walk name a cipher as their first argument; since 2.1 there are
 * record and replay, since 2.2 catalogue_entry. Since version 3, a bundle is refused also where an aligned 4 by 4 block of a byte or column matrix
 * has no inverse; since 3.1 there is next_bit. */
#define TAZHIKKO_VERSION 30100

/* The ciphers of a set and of a walk: 0 is the forward one and any other number the inverse one. No number is refused. */
#define TAZHIKKO_FORWARD 0
#define TAZHIKKO_INVERSE 1

/* Lengths in bytes. */
#define TAZHIKKO_KEY_BYTES 16
#define TAZHIKKO_BLOCK_BYTES 16
#define TAZHIKKO_BUNDLE_MIN_BYTES 58408
#define TAZHIKKO_BUNDLE_MAX_BYTES 65536
#define TAZHIKKO_SET_BYTES 770048
#define TAZHIKKO_RECORD_BYTES 15040

/* Bits of a set that a walk over a block reads. */
#define TAZHIKKO_BITS_READ 24064

/* Tables in a set. Tables 0 to 15 and 2512 to 2527 have 4096 bytes; of the 112 tables of a half round the first 16 have 1024; all others 128. */
#define TAZHIKKO_TABLES 3008

/* Matrices in the catalogue. */
#define TAZHIKKO_CATALOGUE_MATRICES 20160

/* What stands for none where a call tells a number through a pointer. */
#define TAZHIKKO_NONE SIZE_MAX

/* Why a call is refused; the lowest number that applies is given. */
#define TAZHIKKO_KEY_LENGTH 1          /* the key is not of 16 bytes */
#define TAZHIKKO_BUNDLE_LENGTH 2       /* the bundle is too short or too long */
#define TAZHIKKO_SECTION 3             /* second number: the first bad pair, 0 to 4 */
#define TAZHIKKO_ENCODING 4            /* second number: the first list that is no permutation */
#define TAZHIKKO_BYTE_MATRIX 5         /* second number: the first byte matrix that has no inverse, or one of whose aligned 4 by 4 blocks has none */
#define TAZHIKKO_COLUMN_MATRIX 6       /* second number: the first column matrix that has no inverse, or one of whose aligned 4 by 4 blocks has none */
#define TAZHIKKO_BLOCK_MATRIX 7        /* the input or the output matrix has no inverse; second number: 0 input or both, 1 output only */
#define TAZHIKKO_TABLE_NUMBER 8        /* the table number is above TAZHIKKO_TABLES - 1 */
#define TAZHIKKO_SET_LENGTH 9          /* the set, or the single table, has the wrong length */
#define TAZHIKKO_BLOCK_LENGTH 10       /* a block, in or out, is not of 16 bytes */
#define TAZHIKKO_RECORD_LENGTH 13      /* a record is not of TAZHIKKO_RECORD_BYTES bytes */
#define TAZHIKKO_CATALOGUE_POSITION 14 /* the position is above TAZHIKKO_CATALOGUE_MATRICES - 1 */

#define TAZHIKKO_CAUSE(refusal) ((uint32_t)((refusal) >> 32))
#define TAZHIKKO_SECOND(refusal) ((uint32_t)(refusal))

/* The judgement of a bundle. */
uint64_t tazhikko_judge_bundle(const uint8_t *bundle, size_t bundle_len);

/* The input and the output coding of a block under a bundle, and both taken off again. */
uint64_t tazhikko_encode_input(const uint8_t *bundle, size_t bundle_len, const uint8_t *block, size_t block_len, uint8_t *out, size_t out_len);
uint64_t tazhikko_decode_input(const uint8_t *bundle, size_t bundle_len, const uint8_t *block, size_t block_len, uint8_t *out, size_t out_len);
uint64_t tazhikko_encode_output(const uint8_t *bundle, size_t bundle_len, const uint8_t *block, size_t block_len, uint8_t *out, size_t out_len);
uint64_t tazhikko_decode_output(const uint8_t *bundle, size_t bundle_len, const uint8_t *block, size_t block_len, uint8_t *out, size_t out_len);

/* FIPS 197's AES-128. */
uint64_t tazhikko_encipher(const uint8_t *key, size_t key_len, const uint8_t *block, size_t block_len, uint8_t *out, size_t out_len);
uint64_t tazhikko_decipher(const uint8_t *key, size_t key_len, const uint8_t *block, size_t block_len, uint8_t *out, size_t out_len);

/* The table set of a cipher, a key and a bundle, or one table of it, into the lent memory. */
uint64_t tazhikko_make_set(
    uint64_t cipher, const uint8_t *key, size_t key_len, const uint8_t *bundle, size_t bundle_len, uint8_t *set, size_t set_len);
uint64_t tazhikko_make_table(
    uint64_t cipher, const uint8_t *key, size_t key_len, const uint8_t *bundle, size_t bundle_len, size_t number, uint8_t *table, size_t table_len);

/* The walk of a set over a block under the input coding, for the cipher that the set was made for: the answer is what the cipher makes of the
 * block, under the output coding. A set has no mark of its cipher, so a walk that names the other one is not refused; its answer means nothing. */
uint64_t tazhikko_walk(
    uint64_t cipher, const uint8_t *set, size_t set_len, const uint8_t *block, size_t block_len, uint8_t *answer, size_t answer_len);

/* The record of that walk, over any memory as long as a set, made or not: for each of its lookups, in order, 5 bytes. They are the offset within the set
 * of the table's entry that it read, in 4 bytes, the most significant first, then the entry's first byte or, of an XOR table's entry, its half-byte
 * as a number 0 to 15. */
uint64_t tazhikko_record(
    uint64_t cipher, const uint8_t *set, size_t set_len, const uint8_t *block, size_t block_len, uint8_t *record, size_t record_len);

/* The replay of a record over a set: *differs becomes TAZHIKKO_NONE where the record is the walk's own, else the number, from 0, of the first lookup
 * one of whose 5 bytes differs. `differs` must not be null; a refused call leaves *differs as it was. */
uint64_t tazhikko_replay(
    uint64_t cipher, const uint8_t *set, size_t set_len, const uint8_t *block, size_t block_len, const uint8_t *record, size_t record_len,
    size_t *differs);

/* The bits of the set that the walk reads, one by one: *bit becomes the smallest at or after `from`, which may be any number, or TAZHIKKO_NONE where none
 * is left. Bits count from the top bit of byte 0 of the set: bit n is 0x80 >> n % 8 of byte n / 8. Over any memory as long as a set, made or not, a walk
 * reads TAZHIKKO_BITS_READ of them. Where one bit of a made set is turned over, the answer of the walk for its cipher changes exactly if the bit is one
 * of them. `bit` must not be null; a refused call leaves *bit as it was. */
uint64_t tazhikko_next_bit(
    uint64_t cipher, const uint8_t *set, size_t set_len, const uint8_t *block, size_t block_len, size_t from, size_t *bit);

/* The entry of the catalogue at a position, from 0. The catalogue has every 4 by 4 bit matrix that has an inverse, each once, in rising order of the
 * 16-bit number that its rows make, row 0 highest, column 0 the top bit of a row: *matrix becomes that number. `matrix` must not be null; a refused
 * call leaves *matrix as it was. */
uint64_t tazhikko_catalogue_entry(size_t position, size_t *matrix);

#ifdef __cplusplus
}
#endif

#endif
