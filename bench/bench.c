/* Measures tazhikko's calls against bench/plain/ on the same input, for both ciphers, after a check that both sides give the same bytes.
 *
 * usage: bench < KEY_AND_BUNDLE      16 bytes of a key, then a good bundle
 *
 * Each line has the least processor time of several rounds. In a round the two sides take turns, so that both meet the same machine. */
#include "plain/plain.h"
#include "tazhikko.h"

#include <math.h>
#include <stdio.h>
#include <stdlib.h>
#include <string.h>
#include <time.h>

enum { ROUNDS = 101, CIPHERS = 2, ENTRY_TABLE = 0, SPREAD_TABLE = 496, XOR_TABLE = 512, EXIT_TABLE = 2512, RECORDS = 25, ENTRY_BYTES = 5, STRIDE = 7919 };
enum { SET_BITS = 8 * TAZHIKKO_SET_BYTES, SEARCHES = TAZHIKKO_BITS_READ / 16 };

static uint8_t key[TAZHIKKO_KEY_BYTES];
static uint8_t bundle[TAZHIKKO_BUNDLE_MAX_BYTES];
static size_t bundle_len;
static uint8_t our_set[CIPHERS][TAZHIKKO_SET_BYTES], plain_set[CIPHERS][TAZHIKKO_SET_BYTES];
static uint8_t our_table[4096], plain_table[4096];
static uint8_t our_block[TAZHIKKO_BLOCK_BYTES], plain_block[TAZHIKKO_BLOCK_BYTES];

/* For each cipher some blocks, and the records of the walks from them. */
static struct recorded {
    uint8_t block[TAZHIKKO_BLOCK_BYTES], ours[TAZHIKKO_RECORD_BYTES], plain[TAZHIKKO_RECORD_BYTES];
} recorded[CIPHERS][RECORDS];

/* For each cipher the bits that the walk from the first of these blocks reads. */
static size_t bits[CIPHERS][TAZHIKKO_BITS_READ];

/* The cipher at hand, TAZHIKKO_FORWARD or TAZHIKKO_INVERSE. */
static uint64_t cipher;

static void judge_ours(void) { tazhikko_judge_bundle(bundle, bundle_len); }
static void judge_plain(void) { plain_judge_bundle(bundle, bundle_len); }
static void set_ours(void) { tazhikko_make_set(cipher, key, sizeof key, bundle, bundle_len, our_set[cipher], TAZHIKKO_SET_BYTES); }
static void set_plain(void) { plain_make_set(cipher, key, bundle, bundle_len, plain_set[cipher]); }

static size_t table_bytes(size_t number)
{
    if (number < 16 || (number >= 2512 && number < 2528))
        return 4096;
    return number >= 496 && number < 2512 && (number - 496) % 112 < 16 ? 1024 : 128;
}

static void make_ours(size_t number)
{
    tazhikko_make_table(cipher, key, sizeof key, bundle, bundle_len, number, our_table, table_bytes(number));
}

static void make_plain(size_t number) { plain_make_table(cipher, key, bundle, bundle_len, number, plain_table); }
static void entry_table_ours(void) { make_ours(ENTRY_TABLE); }
static void entry_table_plain(void) { make_plain(ENTRY_TABLE); }
static void exit_table_ours(void) { make_ours(EXIT_TABLE); }
static void exit_table_plain(void) { make_plain(EXIT_TABLE); }
static void spread_ours(void) { make_ours(SPREAD_TABLE); }
static void spread_plain(void) { make_plain(SPREAD_TABLE); }
static void xor_ours(void) { make_ours(XOR_TABLE); }
static void xor_plain(void) { make_plain(XOR_TABLE); }

/* Each answer is the next block, so that a walk reads other entries than the one before. */
static void walk_ours(void)
{
    uint8_t answer[TAZHIKKO_BLOCK_BYTES];
    tazhikko_walk(cipher, our_set[cipher], TAZHIKKO_SET_BYTES, our_block, sizeof our_block, answer, sizeof answer);
    memcpy(our_block, answer, sizeof answer);
}

static void walk_plain(void)
{
    uint8_t answer[TAZHIKKO_BLOCK_BYTES];
    plain_walk(cipher, plain_set[cipher], TAZHIKKO_SET_BYTES, plain_block, sizeof plain_block, answer, sizeof answer);
    memcpy(plain_block, answer, sizeof answer);
}

static void record_ours(struct recorded *r)
{
    tazhikko_record(cipher, our_set[cipher], TAZHIKKO_SET_BYTES, r->block, sizeof r->block, r->ours, sizeof r->ours);
}

static size_t replay_ours(const struct recorded *r)
{
    size_t differs = 0;
    tazhikko_replay(cipher, our_set[cipher], TAZHIKKO_SET_BYTES, r->block, sizeof r->block, r->ours, sizeof r->ours, &differs);
    return differs;
}

static void record_plain(struct recorded *r)
{
    plain_record(cipher, plain_set[cipher], TAZHIKKO_SET_BYTES, r->block, sizeof r->block, r->plain, sizeof r->plain);
}

static size_t replay_plain(const struct recorded *r)
{
    size_t differs = 0;
    plain_replay(cipher, plain_set[cipher], TAZHIKKO_SET_BYTES, r->block, sizeof r->block, r->plain, sizeof r->plain, &differs);
    return differs;
}

/* In turn, so that a call reads other entries than the one before. */
static struct recorded *next(void)
{
    static size_t turn;
    return &recorded[cipher][turn++ % RECORDS];
}

static void record_next_ours(void) { record_ours(next()); }
static void record_next_plain(void) { record_plain(next()); }
static void replay_next_ours(void) { replay_ours(next()); }
static void replay_next_plain(void) { replay_plain(next()); }

static size_t bit_ours(const struct recorded *r, size_t from)
{
    size_t bit = SET_BITS;
    tazhikko_next_bit(cipher, our_set[cipher], TAZHIKKO_SET_BYTES, r->block, sizeof r->block, from, &bit);
    return bit;
}

static size_t bit_plain(const struct recorded *r, size_t from)
{
    size_t bit = SET_BITS;
    plain_next_bit(cipher, plain_set[cipher], TAZHIKKO_SET_BYTES, r->block, sizeof r->block, from, &bit);
    return bit;
}

/* Behind every 16th bit of the list in turn: the searches of a round take a sixteenth of the time of the whole list. */
static size_t next_from(void)
{
    static size_t turn;
    return bits[cipher][16 * (turn++ % SEARCHES)] + 1;
}

static void bit_next_ours(void) { bit_ours(recorded[cipher], next_from()); }
static void bit_next_plain(void) { bit_plain(recorded[cipher], next_from()); }

/* In strides, so that a call finds other rows than the one before; they share no factor with the catalogue's length, so every position has its turn. */
static size_t next_position(void)
{
    static size_t position;
    return position = (position + STRIDE) % TAZHIKKO_CATALOGUE_MATRICES;
}

static void entry_ours(void)
{
    size_t matrix;
    tazhikko_catalogue_entry(next_position(), &matrix);
}

static void entry_plain(void)
{
    size_t matrix;
    plain_catalogue_entry(next_position(), &matrix);
}

static const struct task {
    const char *what;
    uint64_t cipher;
    void (*ours)(void), (*plain)(void);
    int calls; /* in one round */
} TASKS[] = {
    {"judge a bundle", TAZHIKKO_FORWARD, judge_ours, judge_plain, 2},
    {"make a set", TAZHIKKO_FORWARD, set_ours, set_plain, 1},
    {"make one spread table", TAZHIKKO_FORWARD, spread_ours, spread_plain, 2},
    {"make one entry table", TAZHIKKO_FORWARD, entry_table_ours, entry_table_plain, 2},
    {"make one exit table", TAZHIKKO_FORWARD, exit_table_ours, exit_table_plain, 2},
    {"make one XOR table", TAZHIKKO_FORWARD, xor_ours, xor_plain, 2},
    {"walk a block", TAZHIKKO_FORWARD, walk_ours, walk_plain, 50},
    {"record a walk", TAZHIKKO_FORWARD, record_next_ours, record_next_plain, 2 * RECORDS},
    {"replay a record", TAZHIKKO_FORWARD, replay_next_ours, replay_next_plain, 2 * RECORDS},
    {"the next bit that is read", TAZHIKKO_FORWARD, bit_next_ours, bit_next_plain, SEARCHES},
    {"an entry of the catalogue", TAZHIKKO_FORWARD, entry_ours, entry_plain, TAZHIKKO_CATALOGUE_MATRICES},
    {"inverse: make a set", TAZHIKKO_INVERSE, set_ours, set_plain, 1},
    {"inverse: one spread table", TAZHIKKO_INVERSE, spread_ours, spread_plain, 2},
    {"inverse: one entry table", TAZHIKKO_INVERSE, entry_table_ours, entry_table_plain, 2},
    {"inverse: one exit table", TAZHIKKO_INVERSE, exit_table_ours, exit_table_plain, 2},
    {"inverse: one XOR table", TAZHIKKO_INVERSE, xor_ours, xor_plain, 2},
    {"inverse: walk a block", TAZHIKKO_INVERSE, walk_ours, walk_plain, 50},
    {"inverse: record a walk", TAZHIKKO_INVERSE, record_next_ours, record_next_plain, 2 * RECORDS},
    {"inverse: replay a record", TAZHIKKO_INVERSE, replay_next_ours, replay_next_plain, 2 * RECORDS},
    {"inverse: the next bit", TAZHIKKO_INVERSE, bit_next_ours, bit_next_plain, SEARCHES},
};

enum { COUNT = sizeof TASKS / sizeof *TASKS };

static void require(int same, const char *what)
{
    if (!same) {
        fprintf(stderr, "bench: the two sides differ: %s\n", what);
        exit(1);
    }
}

static int judged(uint64_t due) { return tazhikko_judge_bundle(bundle, bundle_len) == due && plain_judge_bundle(bundle, bundle_len) == due; }

static size_t section_start(size_t section)
{
    const uint8_t *pair = bundle + 8 * section;
    return (size_t)pair[0] << 24 | (size_t)pair[1] << 16 | (size_t)pair[2] << 8 | pair[3];
}

/* The good bundle with the identity, of n rows, as byte or column matrix of a number: it has an inverse, its blocks beside the diagonal have none. */
static void check_identity(size_t section, uint32_t number, size_t n, uint64_t cause)
{
    uint8_t kept[32 * 32 / 8];
    size_t bytes = n * n / 8;
    uint8_t *matrix = bundle + section_start(section) + bytes * number;
    memcpy(kept, matrix, bytes);
    memset(matrix, 0, bytes);
    for (size_t i = 0; i < n; i++)
        matrix[n / 8 * i + i / 8] = (uint8_t)(0x80 >> i % 8);
    require(judged(cause << 32 | number), "judgement of a bad block");
    memcpy(matrix, kept, bytes);
}

/* A good bundle, that bundle with a bad block, and with one bit turned over: in each byte of the five pairs, then in every 97th byte. */
static void check_judgements(void)
{
    require(judged(0), "a good bundle");
    check_identity(1, 159, 8, TAZHIKKO_BYTE_MATRIX);
    check_identity(2, 35, 32, TAZHIKKO_COLUMN_MATRIX);
    for (size_t at = 0; at < bundle_len; at += at < 48 ? 1 : 97) {
        uint8_t kept = bundle[at];
        bundle[at] ^= 0x10;
        require(tazhikko_judge_bundle(bundle, bundle_len) == plain_judge_bundle(bundle, bundle_len), "judgement");
        bundle[at] = kept;
    }
}

static void check_tables(void)
{
    size_t offset = 0;
    set_ours();
    set_plain();
    require(memcmp(our_set[cipher], plain_set[cipher], TAZHIKKO_SET_BYTES) == 0, "set");
    for (size_t n = 0; n < TAZHIKKO_TABLES; n++) {
        size_t bytes = table_bytes(n);
        make_ours(n);
        make_plain(n);
        require(memcmp(our_table, our_set[cipher] + offset, bytes) == 0, "our table");
        require(memcmp(plain_table, plain_set[cipher] + offset, bytes) == 0, "plain table");
        offset += bytes;
    }
}

static void check_walks(void)
{
    for (int i = 0; i < 1000; i++) {
        walk_ours();
        walk_plain();
        require(memcmp(our_block, plain_block, sizeof our_block) == 0, "walk");
    }
}

/* A walk's own record, and that record with one bit turned over in every 97th byte: the first and the last lookup are among them. */
static void check_replays(struct recorded *r)
{
    require(replay_ours(r) == TAZHIKKO_NONE && replay_plain(r) == SIZE_MAX, "replay of a walk's own record");
    for (size_t at = 0; at < TAZHIKKO_RECORD_BYTES; at += 97) {
        r->ours[at] ^= 0x10;
        r->plain[at] ^= 0x10;
        require(replay_ours(r) == at / ENTRY_BYTES && replay_plain(r) == at / ENTRY_BYTES, "replay");
        r->ours[at] ^= 0x10;
        r->plain[at] ^= 0x10;
    }
}

static void check_records(void)
{
    for (size_t k = 0; k < RECORDS; k++) {
        struct recorded *r = &recorded[cipher][k];
        walk_ours();
        walk_plain();
        memcpy(r->block, our_block, sizeof our_block);
        record_ours(r);
        record_plain(r);
        require(memcmp(r->ours, r->plain, TAZHIKKO_RECORD_BYTES) == 0, "record");
        check_replays(r);
    }
}

static void check_from(const struct recorded *r, size_t from)
{
    require(bit_ours(r, from) == bit_plain(r, from), "next bit");
}

/* The whole list of the first block; of each block, bits from numbers in strides on, and none behind the set. */
static void check_bits(void)
{
    size_t from = 0;
    for (size_t n = 0; n < TAZHIKKO_BITS_READ; n++, from++) {
        check_from(recorded[cipher], from);
        from = bits[cipher][n] = bit_ours(recorded[cipher], from);
    }
    require(bit_ours(recorded[cipher], from) == TAZHIKKO_NONE, "number of bits");
    for (size_t k = 0; k < RECORDS; k++) {
        for (from = k; from < SET_BITS; from += STRIDE)
            check_from(&recorded[cipher][k], from);
        check_from(&recorded[cipher][k], SET_BITS);
        check_from(&recorded[cipher][k], SIZE_MAX);
    }
}

/* What a refused call leaves too. */
static void check_entry(size_t position)
{
    size_t ours = SIZE_MAX, plain = SIZE_MAX;
    uint64_t refusal = tazhikko_catalogue_entry(position, &ours);
    require(refusal == plain_catalogue_entry(position, &plain) && ours == plain, "entry of the catalogue");
}

/* Every position, and the first and the last that no matrix has. */
static void check_entries(void)
{
    for (size_t position = 0; position <= TAZHIKKO_CATALOGUE_MATRICES; position++)
        check_entry(position);
    check_entry(SIZE_MAX);
}

static double seconds(void (*call)(void), int calls)
{
    struct timespec from, to;
    clock_gettime(CLOCK_PROCESS_CPUTIME_ID, &from);
    for (int i = 0; i < calls; i++)
        call();
    clock_gettime(CLOCK_PROCESS_CPUTIME_ID, &to);
    return ((double)(to.tv_sec - from.tv_sec) + 1e-9 * (double)(to.tv_nsec - from.tv_nsec)) / calls;
}

static double lesser(double a, double b) { return a < b ? a : b; }

/* All tasks in every round: a busy moment of the machine then spoils one round of each, not one task. */
static void measure(void)
{
    double ours[COUNT], plain[COUNT];
    for (size_t i = 0; i < COUNT; i++)
        ours[i] = plain[i] = INFINITY;
    for (int round = 0; round < ROUNDS; round++)
        for (size_t i = 0; i < COUNT; i++) {
            cipher = TASKS[i].cipher;
            ours[i] = lesser(ours[i], seconds(TASKS[i].ours, TASKS[i].calls));
            plain[i] = lesser(plain[i], seconds(TASKS[i].plain, TASKS[i].calls));
        }
    printf("%-26s %12s %12s %8s\n", "microseconds", "ours", "plain C", "ratio");
    for (size_t i = 0; i < COUNT; i++)
        printf("%-26s %12.2f %12.2f %8.2f\n", TASKS[i].what, 1e6 * ours[i], 1e6 * plain[i], ours[i] / plain[i]);
}

int main(void)
{
    if (fread(key, 1, sizeof key, stdin) != sizeof key)
        return 2;
    bundle_len = fread(bundle, 1, sizeof bundle, stdin);
    check_judgements();
    check_entries();
    for (cipher = 0; cipher < CIPHERS; cipher++) {
        check_tables();
        check_walks();
        check_records();
        check_bits();
    }
    measure();
    return 0;
}
