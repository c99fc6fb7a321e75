/* A record of both ends in one process, as `ivshm replay` reads it. It has the scenario with the
 * calls that were made, and a line for each access and note. docs/FORMATS.md has the format. */
#ifndef RECORD_H
#define RECORD_H
#include <inttypes.h>
#include <stdio.h>
#include <stdlib.h>

#include "ivshm_c.h"

struct record {
    FILE *acts, *lines;
    uint64_t count;
    uint32_t version; /* of the link */
    int hostile;      /* peer 0 is hostile: what it does is recorded by record_poke and record_set */
};

static inline void record_begin(struct record *r) {
    *r = (struct record){.acts = tmpfile(), .lines = tmpfile(), .version = 1};
    if (!r->acts || !r->lines) {
        perror("tmpfile");
        exit(1);
    }
}

static inline void record_hex(FILE *file, const uint8_t *bytes, size_t length) {
    for (size_t i = 0; i < length; i++) fprintf(file, "%02x", bytes[i]);
    fputc('\n', file);
}

static inline void record_call(struct record *r, uint32_t me, const char *name) { fprintf(r->acts, "%s %u\n", name, me); }

static inline void record_offer(struct record *r, uint32_t me, const uint8_t *frame, size_t length) {
    fprintf(r->acts, "offer %u ", me);
    record_hex(r->acts, frame, length);
}

static inline void record_turn(struct record *r, uint32_t me, uint64_t steps) { fprintf(r->acts, "turn %u %" PRIu64 "\n", me, steps); }

static inline void record_access(struct record *r, uint32_t me, const ivshm_access *access, uint32_t read) {
    switch (access->kind) {
    case IVSHM_READ:
        fprintf(r->lines, "r %u %u %u\n", me, access->word, read);
        break;
    case IVSHM_WRITE:
        fprintf(r->lines, "w %u %u %u\n", me, access->word, access->value);
        break;
    case IVSHM_STATE:
        fprintf(r->lines, "s %u %u\n", me, access->value);
        break;
    case IVSHM_RING:
        fprintf(r->lines, "d %u %u %u\n", me, access->word, access->value);
        break;
    default:
        return; /* a step without an access has the line of its mark alone */
    }
    r->count++;
}

/* `frame` is the one offered, at an accept, and the one delivered, at a deliver. */
static inline void record_note(struct record *r, uint32_t me, const ivshm_note *note, const uint8_t *frame, size_t length) {
    static const char *const fields[] = {"", "AvailIndex", "AvailEntry", "DescAddress", "DescLength", "DescFlags", "UsedIndex", "UsedId"};
    static const char *const words[] = {"over", "saw", "reclaim", "full", "accept", "look", "deliver", "return", "done", "down", "refuse"};
    fprintf(r->lines, "%s %u", words[note->kind], me);
    switch (note->kind) {
    case IVSHM_SAW:
    case IVSHM_RECLAIM:
    case IVSHM_LOOK:
        fprintf(r->lines, " %" PRIu64 "\n", note->value);
        break;
    case IVSHM_ACCEPT:
    case IVSHM_DELIVER:
        fputc(' ', r->lines);
        record_hex(r->lines, frame, length);
        break;
    case IVSHM_REFUSE:
        fprintf(r->lines, " %s %" PRIu64 "\n", fields[note->field], note->value);
        break;
    default:
        fputc('\n', r->lines);
    }
    r->count++;
}

/* What a hostile peer stores: a word, or its State. */
static inline void record_poke(struct record *r, uint32_t me, uint32_t word, uint32_t value) {
    fprintf(r->acts, "poke %u %u %u\n", me, word, value);
    fprintf(r->lines, "w %u %u %u\n", me, word, value);
    r->count++;
}

static inline void record_set(struct record *r, uint32_t me, uint32_t state) {
    fprintf(r->acts, "set %u %u\n", me, state);
    fprintf(r->lines, "s %u %u\n", me, state);
    r->count++;
}

static inline void record_append(FILE *to, FILE *from) {
    char room[65536];
    size_t length;
    rewind(from);
    while ((length = fread(room, 1, sizeof room, from)) > 0) fwrite(room, 1, length, to);
    fclose(from);
}

/* Writes the record, of a region without a common section whose State Table has 4,096 bytes. */
static inline void record_end(struct record *r, const char *path, uint64_t out, uint32_t mtu) {
    FILE *file = fopen(path, "w");
    if (!file) {
        perror(path);
        exit(1);
    }
    fprintf(file, "record 1\nivshm %u\npeers 2\ntable 4096\ncommon 0\nout %" PRIu64 "\nmtu %u\nirq msix 2\n", r->version, out, mtu);
    fprintf(file, "peer 0 %s\npeer 1 honest\nbegin\n", r->hostile ? "hostile" : "honest");
    record_append(file, r->acts);
    fprintf(file, "end\n");
    record_append(file, r->lines);
    fprintf(file, "end %" PRIu64 "\n", r->count);
    if (fclose(file)) {
        perror(path);
        exit(1);
    }
}
#endif
