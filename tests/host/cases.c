#include "cases.h"

#include "tazhikko.h"

#include <stdio.h>
#include <stdlib.h>

struct file {
    const char *name;
    uint8_t *bytes;
    size_t len;
    size_t at;
};

static _Noreturn void stop(const char *name, const char *why)
{
    fprintf(stderr, "cases: %s: %s\n", name, why);
    exit(2);
}

static struct file opened(const char *folder, const char *name)
{
    char path[4096];
    if (snprintf(path, sizeof path, "%s/%s", folder, name) >= (int)sizeof path)
        stop(name, "the path is too long");
    FILE *stream = fopen(path, "rb");
    if (stream == NULL || fseek(stream, 0, SEEK_END) != 0)
        stop(name, "cannot be read");
    long size = ftell(stream);
    rewind(stream);
    struct file file = {.name = name, .bytes = malloc((size_t)size + 1), .len = (size_t)size};
    if (size <= 0 || file.bytes == NULL || fread(file.bytes, 1, file.len, stream) != file.len)
        stop(name, "cannot be read");
    fclose(stream);
    return file;
}

static int more(const struct file *file)
{
    return file->at < file->len;
}

static const uint8_t *taken(struct file *file, size_t len)
{
    if (len > file->len - file->at)
        stop(file->name, "cut short");
    const uint8_t *bytes = file->bytes + file->at;
    file->at += len;
    return bytes;
}

static uint32_t number(struct file *file)
{
    const uint8_t *b = taken(file, 4);
    return (uint32_t)b[0] << 24 | (uint32_t)b[1] << 16 | (uint32_t)b[2] << 8 | b[3];
}

/* Two numbers as one, the higher half first. */
static uint64_t wide(struct file *file)
{
    uint64_t high = number(file);
    return high << 32 | number(file);
}

/* The number that a call returns: the cause, then the number returned with it. */
static uint64_t returned(struct file *file)
{
    return wide(file);
}

static struct string string(struct file *file)
{
    size_t len = number(file);
    return (struct string){taken(file, len), len};
}

/* Room for one more record behind those that are counted. */
static void *grown(void *records, size_t count, size_t size)
{
    void *room = realloc(records, (count + 1) * size);
    if (room == NULL)
        stop("memory", "exhausted");
    return room;
}

static void read_bundles(struct file file, struct cases *c)
{
    for (; more(&file); c->bundle_count++) {
        c->bundles = grown(c->bundles, c->bundle_count, sizeof *c->bundles);
        struct bundle *b = &c->bundles[c->bundle_count];
        b->content = string(&file);
        for (size_t i = 0; i < 6; i++) {
            b->gaps[i].start = number(&file);
            b->gaps[i].len = number(&file);
        }
        b->one_short = returned(&file);
        b->one_long = returned(&file);
    }
}

static void read_judgements(struct file file, struct cases *c)
{
    for (; more(&file); c->judgement_count++) {
        c->judgements = grown(c->judgements, c->judgement_count, sizeof *c->judgements);
        struct judgement *j = &c->judgements[c->judgement_count];
        j->bundle = string(&file);
        j->number = returned(&file);
    }
}

static void read_places(struct file file, struct cases *c)
{
    for (; more(&file); c->place_count++) {
        c->places = grown(c->places, c->place_count, sizeof *c->places);
        struct place *p = &c->places[c->place_count];
        p->offset = number(&file);
        p->len = number(&file);
    }
}

static void read_codings(struct file file, struct cases *c)
{
    for (; more(&file); c->coding_count++) {
        c->codings = grown(c->codings, c->coding_count, sizeof *c->codings);
        struct coding *k = &c->codings[c->coding_count];
        k->bundle = number(&file);
        k->call = number(&file);
        k->block = taken(&file, 16);
        k->coded = taken(&file, 16);
    }
}

static void read_sets(struct file file, struct cases *c)
{
    for (; more(&file); c->set_count++) {
        c->sets = grown(c->sets, c->set_count, sizeof *c->sets);
        struct set *s = &c->sets[c->set_count];
        s->bundle = number(&file);
        s->inverse = number(&file) != 0;
        s->key = taken(&file, 16);
        s->content = string(&file);
    }
}

static void read_tables(struct file file, struct cases *c)
{
    for (; more(&file); c->table_count++) {
        c->tables = grown(c->tables, c->table_count, sizeof *c->tables);
        struct table *t = &c->tables[c->table_count];
        t->bundle = number(&file);
        t->inverse = number(&file) != 0;
        t->key = taken(&file, 16);
        t->number = number(&file);
        t->content = string(&file);
    }
}

static void read_walks(struct file file, struct cases *c)
{
    for (; more(&file); c->walks_count++) {
        c->walks = grown(c->walks, c->walks_count, sizeof *c->walks);
        struct walks *w = &c->walks[c->walks_count];
        *w = (struct walks){.memory = string(&file)};
        for (size_t left = number(&file); left > 0; left--) {
            w->walks = grown(w->walks, w->count, sizeof *w->walks);
            struct walk *walk = &w->walks[w->count++];
            walk->inverse = number(&file) != 0;
            walk->block = taken(&file, 16);
            walk->answer = taken(&file, 16);
        }
    }
}

static void read_records(struct file file, struct cases *c)
{
    for (; more(&file); c->record_count++) {
        c->records = grown(c->records, c->record_count, sizeof *c->records);
        struct record *r = &c->records[c->record_count];
        r->memory = number(&file);
        r->inverse = number(&file) != 0;
        r->block = taken(&file, 16);
        r->bytes = taken(&file, TAZHIKKO_RECORD_BYTES);
    }
}

static void read_replays(struct file file, struct cases *c)
{
    for (; more(&file); c->replay_count++) {
        c->replays = grown(c->replays, c->replay_count, sizeof *c->replays);
        struct replay *r = &c->replays[c->replay_count];
        *r = (struct replay){.walk = number(&file)};
        r->from = number(&file);
        for (size_t left = number(&file); left > 0; left--) {
            r->changes = grown(r->changes, r->count, sizeof *r->changes);
            struct change *change = &r->changes[r->count++];
            change->start = number(&file);
            change->part = string(&file);
        }
        uint32_t differs = number(&file);
        r->differs = differs == UINT32_MAX ? TAZHIKKO_NONE : differs;
    }
}

static void read_bits(struct file file, struct cases *c)
{
    for (; more(&file); c->bits_count++) {
        c->bits = grown(c->bits, c->bits_count, sizeof *c->bits);
        struct bits *b = &c->bits[c->bits_count];
        *b = (struct bits){.memory = number(&file)};
        b->inverse = number(&file) != 0;
        b->block = taken(&file, 16);
        b->count = number(&file);
        b->list = grown(NULL, b->count, sizeof *b->list);
        for (size_t i = 0; i < b->count; i++)
            b->list[i] = number(&file);
    }
}

static void read_crossed(struct file file, struct cases *c)
{
    for (; more(&file); c->crossed_count++) {
        c->crossed = grown(c->crossed, c->crossed_count, sizeof *c->crossed);
        for (size_t i = 0; i < 2; i++)
            c->crossed[c->crossed_count].bundles[i] = string(&file);
    }
}

static void read_entries(struct file file, struct cases *c)
{
    for (; more(&file); c->entry_count++) {
        c->entries = grown(c->entries, c->entry_count, sizeof *c->entries);
        struct entry *e = &c->entries[c->entry_count];
        e->position = wide(&file);
        e->number = returned(&file);
        e->matrix = number(&file);
    }
}

struct cases read_cases(const char *folder)
{
    struct cases c = {0};
    read_bundles(opened(folder, "bundles"), &c);
    read_judgements(opened(folder, "judgements"), &c);
    read_places(opened(folder, "places"), &c);
    read_codings(opened(folder, "codings"), &c);
    read_sets(opened(folder, "sets"), &c);
    read_tables(opened(folder, "tables"), &c);
    read_walks(opened(folder, "walks"), &c);
    read_records(opened(folder, "records"), &c);
    read_replays(opened(folder, "replays"), &c);
    read_bits(opened(folder, "bits"), &c);
    read_crossed(opened(folder, "crossed"), &c);
    read_entries(opened(folder, "entries"), &c);
    return c;
}
