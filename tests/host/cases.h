/* The cases that cases.py makes from the reference; the file formats stand there. All strings point into the files as they were read. */
#ifndef CASES_H
#define CASES_H

#include <stdbool.h>
#include <stddef.h>
#include <stdint.h>

struct string {
    const uint8_t *bytes;
    size_t len;
};

struct gap {
    size_t start;
    size_t len;
};

struct bundle {
    struct string content;
    struct gap gaps[6];
    uint64_t one_short; /* the judgements of the bundle with one byte less and with one more */
    uint64_t one_long;
};

struct judgement {
    struct string bundle;
    uint64_t number;
};

struct place {
    size_t offset;
    size_t len;
};

struct coding {
    size_t bundle;
    size_t call;
    const uint8_t *block;
    const uint8_t *coded;
};

struct set {
    size_t bundle;
    bool inverse; /* which cipher it is made for */
    const uint8_t *key;
    struct string content;
};

struct table {
    size_t bundle;
    bool inverse;
    const uint8_t *key;
    size_t number;
    struct string content;
};

struct walk {
    bool inverse; /* which cipher the walk is for, whatever the memory is */
    const uint8_t *block;
    const uint8_t *answer;
};

struct walks {
    struct string memory;
    size_t count;
    struct walk *walks;
};

/* The record of a walk. */
struct record {
    size_t memory; /* a number of the walks' memories */
    bool inverse;
    const uint8_t *block;
    const uint8_t *bytes;
};

struct change {
    size_t start;
    struct string part;
};

struct replay {
    size_t walk; /* a number of a record: its walk is replayed */
    size_t from; /* a number of a record: with the changes, it is what the call is lent */
    size_t count;
    struct change *changes;
    size_t differs; /* as the call tells it */
};

/* The bits that a walk reads, rising. */
struct bits {
    size_t memory; /* a number of the walks' memories */
    bool inverse;
    const uint8_t *block;
    size_t count;
    size_t *list;
};

/* Two accepted bundles: the input coding of each is the output coding of the other. */
struct crossed {
    struct string bundles[2];
};

/* A position of the catalogue, the judgement of it, and the matrix there as the call tells it. */
struct entry {
    size_t position;
    uint64_t number;
    size_t matrix;
};

struct cases {
    struct bundle *bundles;
    struct judgement *judgements;
    struct place *places;
    struct coding *codings;
    struct set *sets;
    struct table *tables;
    struct walks *walks;
    struct record *records;
    struct replay *replays;
    struct bits *bits;
    struct crossed *crossed;
    struct entry *entries;
    size_t bundle_count, judgement_count, place_count, coding_count, set_count, table_count, walks_count, record_count, replay_count, crossed_count;
    size_t bits_count, entry_count;
};

/* Ends the program where a file is missing or cut short. */
struct cases read_cases(const char *folder);

#endif
