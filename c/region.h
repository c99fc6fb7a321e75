/* A link over a region in a file, as /dev/shm/NAME: a State Table of one page, and the output
 * sections of peers 0 and 1. It shows what a driver in user space does around ivshm_link.h: only
 * its own section and State are mapped writable. There is no device: the State is a word that each
 * end stores itself, so that it needn't be read back, and a doorbell is a function of the program.
 *
 * WAY says how the accesses are made (cc -DWAY=1):
 *   0, the default: each word by itself, sequentially consistent, as in the proofs
 *   1: each word by itself, in the order that it needs (docs/ORDERS.md)
 *   2: the same, and bursts by accesses of one word or two
 *   3: the same, and bursts by memcpy
 *
 * VERSION is the version of the link, 1 by default. Both ends have the same one. PIECE bounds the
 * words of a burst, by default by those of the longest frame. */
#ifndef REGION_H
#define REGION_H
#ifndef _GNU_SOURCE
#define _GNU_SOURCE
#endif
#include <errno.h>
#include <fcntl.h>
#include <inttypes.h>
#include <stdbool.h>
#include <stdio.h>
#include <stdlib.h>
#include <string.h>
#include <sys/mman.h>
#include <time.h>
#include <unistd.h>

#ifndef WAY
#define WAY 0
#endif
#ifndef VERSION
#define VERSION 1
#endif
#if WAY == 0
#define IVSHM_LINK_SEQ_CST
#endif
#if WAY < 2
#define IVSHM_LINK_SINGLE
#endif
#if WAY == 3
#define IVSHM_LINK_MEMCPY
#endif

#include "ivshm_link.h"
#include "record.h"

enum { TABLE = 4096 };

struct region {
    ivshm_link link;
    const uint32_t *words;  /* all of them, to read */
    uint32_t *state;        /* the own State */
    struct record *record;  /* NULL: nothing is recorded */
    uint64_t steps;         /* of the calls that are recorded */
    void *context;          /* of the program */
    void (*deliver)(struct region *, const uint8_t *frame, size_t length);
    void (*ring)(struct region *);
    uint32_t room[(IVSHM_LONGEST + 3) / 4];
};

static inline double now(void) {
    struct timespec time;
    clock_gettime(CLOCK_MONOTONIC, &time);
    return (double)time.tv_sec + (double)time.tv_nsec / 1e9;
}

/* The processor time of this process, which doesn't count while others run. */
static inline double spent(void) {
    struct timespec time;
    clock_gettime(CLOCK_PROCESS_CPUTIME_ID, &time);
    return (double)time.tv_sec + (double)time.tv_nsec / 1e9;
}

static inline void fail(const char *what) {
    perror(what);
    exit(1);
}

/* A call that is to be done. */
static inline void must(uint32_t answer, const char *what) {
    if (answer == IVSHM_DONE) return;
    fprintf(stderr, "%s: answer %u\n", what, answer);
    exit(1);
}

static inline void *map(int file, size_t size, int protection, off_t at) {
    void *place = mmap(NULL, size, protection, MAP_SHARED, file, at);
    if (place == MAP_FAILED) fail("mmap");
    return place;
}

static inline uint32_t load_word(const uint32_t *word) { return __atomic_load_n(word, __ATOMIC_SEQ_CST); }
static inline void store_word(uint32_t *word, uint32_t value) { __atomic_store_n(word, value, __ATOMIC_SEQ_CST); }

static inline void region_writes_state(void *context, uint32_t state) {
    struct region *r = context;
    store_word(r->state, state);
}

static inline void region_rings(void *context, uint32_t peer, uint32_t vector) {
    struct region *r = context;
    (void)peer, (void)vector;
    if (r->ring) r->ring(r);
}

static inline void region_delivers(void *context, const uint8_t *frame, size_t length) {
    struct region *r = context;
    if (r->deliver) r->deliver(r, frame, length);
}

static inline void region_records_access(void *context, const ivshm_access *access, uint32_t value) {
    struct region *r = context;
    r->steps++;
    record_access(r->record, r->link.setup.me, access, value);
}

static inline void region_records_note(void *context, const ivshm_note *note, const uint8_t *frame, size_t length) {
    struct region *r = context;
    record_note(r->record, r->link.setup.me, note, frame, length);
}

/* The steps of the call that was recorded last are made. */
static inline void record_steps(struct region *r) {
    if (r->record && r->steps > 0) record_turn(r->record, r->link.setup.me, r->steps);
    r->steps = 0;
}

static inline void record_called(struct region *r, const char *name) {
    if (r->record) record_call(r->record, r->link.setup.me, name);
}

static inline void tick(struct region *r) {
    record_called(r, "tick");
    must(ivshm_link_tick(&r->link), "tick");
    record_steps(r);
}

/* Takes all frames that a poll finds, and returns their number. */
static inline uint32_t take_frames(struct region *r) {
    record_called(r, "poll");
    uint32_t delivered = ivshm_link_poll(&r->link, IVSHM_LINK_ALL);
    record_steps(r);
    return delivered;
}

/* Offers a frame, and returns the outcome. */
static inline uint32_t offer(struct region *r, const uint8_t *frame, size_t length) {
    uint32_t outcome;
    if (r->record) record_offer(r->record, r->link.setup.me, frame, length);
    must(ivshm_link_send(&r->link, frame, length, &outcome), "send");
    record_steps(r);
    return outcome;
}

/* The call that a new end and a reset leave open writes State 0. */
static inline void reset(struct region *r) {
    record_called(r, "stop");
    must(ivshm_link_reset(&r->link), "reset");
    record_steps(r);
}

static inline bool is_running(const struct region *r) { return r->link.state == IVSHM_RUN; }

/* Makes an empty file with a name that no other file has, in place of the last six X. */
static inline void make_file(char *path) {
    int file = mkstemp(path);
    if (file < 0) fail(path);
    close(file);
}

/* Maps the region in this file, which is made if it isn't there, for peer `me`. */
static inline void map_region(struct region *r, ivshm_link_setup *setup, const ivshm_words *layout, const char *path) {
    size_t out = (size_t)setup->found.out, size = TABLE + 2 * out;
    uint32_t own = layout->first + setup->me * layout->words, other = layout->first + (1 - setup->me) * layout->words;
    int file = open(path, O_RDWR | O_CREAT, 0600);
    if (file < 0 || ftruncate(file, (off_t)size)) fail(path);
    r->words = map(file, size, PROT_READ, 0);
    r->state = (uint32_t *)map(file, TABLE, PROT_READ | PROT_WRITE, 0) + setup->me;
    setup->other_state = r->words + 1 - setup->me;
    setup->other_section = r->words + other;
    setup->own_section = map(file, out, PROT_READ | PROT_WRITE, 4 * (off_t)own);
    close(file);
}

/* Opens the link of peer `me` over the region in this file. */
static inline void attach(struct region *r, const char *path, uint32_t me, uint64_t out, uint32_t mtu, struct record *record) {
    ivshm_link_setup setup = {.peers = 2, .me = me, .mtu = mtu, .vector = 1, .version = VERSION};
    ivshm_words layout;
    setup.found = (ivshm_found){.table = TABLE, .out = out, .protocol = IVSHM_PROTOCOL};
    memset(r, 0, sizeof *r);
    must(ivshm_layout(&setup.found, 2, mtu, &layout), "layout");
    if (me > 1) must(IVSHM_BAD_PEER, "peer");
    map_region(r, &setup, &layout, path);
    setup.room = r->room;
    setup.room_size = sizeof r->room;
    setup.context = r;
    setup.write_state = region_writes_state;
    setup.ring = region_rings;
    setup.deliver = region_delivers;
    r->record = record;
    if (record) {
        setup.accessed = region_records_access;
        setup.noted = region_records_note;
        record_call(record, me, "stop");
    }
    must(ivshm_link_open(&r->link, &setup), "open");
#ifdef PIECE
    r->link.burst = PIECE;
#endif
    record_steps(r);
}

/* Leaves the link and frees the end. */
static inline void detach(struct region *r) {
    record_called(r, "stop");
    must(ivshm_link_close(&r->link), "close");
    record_steps(r);
}
#endif
