/* In place of the library, for speed.c: an end that returns its accesses from a list and completes
 * each step, without state, checks and frames. The lists are those of a Tick, of an offer that
 * finds one frame returned, and of a poll of 8 frames. The program measures the interface itself,
 * one call for each step, without the library's work in it: cc -O2 -o empty speed.c empty.c */
#include <stdlib.h>
#include <string.h>

#include "ivshm_c.h"

enum { MOST = 1 << 18, BATCH = 8, SLOT = 600, DATA = 25000 }; /* SLOT: words of a frame of at most
                                                               * 2,400 bytes; DATA: the first word
                                                               * of the data */

struct list {
    uint32_t count;
    ivshm_access access[MOST];
    uint8_t delivers[MOST]; /* 1: the step has that note */
};

struct empty {
    uint32_t me, own, theirs, at;
    size_t length; /* of the frames that the lists are for */
    struct list *now, first, tick, offer, poll;
};

static void add(struct list *l, uint32_t kind, uint32_t word, uint32_t count, uint32_t order) {
    l->access[l->count++] = (ivshm_access){.kind = kind, .word = word, .count = count, .order = order};
}

static void add_several(struct list *l, uint32_t kind, uint32_t word, uint32_t count) {
    for (uint32_t i = 0; i < count; i++) add(l, kind, word + i, count - i, IVSHM_RELAXED);
}

static void lay_out(struct empty *e, size_t length) {
    uint32_t words = (uint32_t)(length + 3) / 4;
    if (words > SLOT) exit(1);
    e->length = length;
    e->tick.count = e->offer.count = e->poll.count = 0;
    memset(e->poll.delivers, 0, sizeof e->poll.delivers);
    add(&e->tick, IVSHM_READ, 1 - e->me, 0, IVSHM_ACQUIRE);
    struct list *l = &e->offer;
    add(l, IVSHM_READ, e->theirs + 18500, 0, IVSHM_ACQUIRE);
    add(l, IVSHM_READ, e->theirs + 18501, 0, IVSHM_RELAXED);
    add_several(l, IVSHM_WRITE, e->own + DATA, words);
    add_several(l, IVSHM_WRITE, e->own, 4);
    add(l, IVSHM_WRITE, e->own + 16385, 0, IVSHM_RELAXED);
    add(l, IVSHM_WRITE, e->own + 16384, 0, IVSHM_RELEASE);
    add(l, IVSHM_RING, 1 - e->me, 0, IVSHM_RELAXED);
    l = &e->poll;
    add(l, IVSHM_READ, e->theirs + 16384, 0, IVSHM_ACQUIRE);
    for (uint32_t i = 0; i < BATCH; i++) {
        add(l, IVSHM_READ, e->theirs + 16385 + i / 2, 0, IVSHM_RELAXED);
        for (uint32_t k = 0; k < 4; k++) add(l, IVSHM_READ, e->theirs + 4 * i + k, 0, IVSHM_RELAXED);
        add_several(l, IVSHM_READ, e->theirs + DATA + SLOT * i, words);
        l->delivers[l->count - 1] = 1;
        add_several(l, IVSHM_WRITE, e->own + 18501 + 2 * i, 2);
        add(l, IVSHM_WRITE, e->own + 18500, 0, IVSHM_RELEASE);
    }
    add(l, IVSHM_RING, 1 - e->me, 0, IVSHM_RELAXED);
}

uint32_t ivshm_layout(const ivshm_found *found, uint32_t peers, uint32_t mtu, ivshm_words *layout) {
    (void)peers, (void)mtu;
    *layout = (ivshm_words){.first = found->table / 4, .words = (uint32_t)(found->out / 4), .data_area = 4 * DATA, .longest_delivery = IVSHM_LONGEST};
    return IVSHM_DONE;
}

uint32_t ivshm_end_new_version(ivshm_end *end, const ivshm_found *found, uint32_t peers, uint32_t me, uint32_t mtu, uint32_t vector, uint32_t version) {
    (void)peers, (void)mtu, (void)vector, (void)version;
    struct empty *e = calloc(1, sizeof *e);
    if (!e || found->out < 520192) return IVSHM_NO_MEMORY;
    e->me = me;
    e->own = found->table / 4 + me * (uint32_t)(found->out / 4);
    e->theirs = found->table / 4 + (1 - me) * (uint32_t)(found->out / 4);
    lay_out(e, 64);
    add(&e->first, IVSHM_STATE, 0, 0, IVSHM_RELEASE);
    e->first.access[0].value = IVSHM_RUN;
    e->now = &e->first;
    end->at = e;
    return IVSHM_DONE;
}

uint32_t ivshm_end_new(ivshm_end *end, const ivshm_found *found, uint32_t peers, uint32_t me, uint32_t mtu, uint32_t vector) {
    return ivshm_end_new_version(end, found, peers, me, mtu, vector, 1);
}

uint32_t ivshm_end_free(ivshm_end *end) {
    free(end->at);
    end->at = NULL;
    return IVSHM_DONE;
}

uint32_t ivshm_end_begin(ivshm_end *end, uint32_t call) {
    struct empty *e = end->at;
    e->at = 0;
    e->now = call == IVSHM_POLL ? &e->poll : &e->tick;
    return IVSHM_DONE;
}

uint32_t ivshm_end_offer(ivshm_end *end, const uint8_t *frame, size_t length) {
    struct empty *e = end->at;
    (void)frame;
    if (e->length != length) lay_out(e, length);
    e->at = 0;
    e->now = &e->offer;
    return IVSHM_DONE;
}

uint32_t ivshm_end_offer_again(ivshm_end *end) {
    struct empty *e = end->at;
    e->at = 0;
    e->now = &e->offer;
    return IVSHM_DONE;
}

uint32_t ivshm_end_next(ivshm_end *end, ivshm_access *access) {
    struct empty *e = end->at;
    if (!e) return IVSHM_NO_END;
    if (e->at == e->now->count) return IVSHM_NO_CALL;
    *access = e->now->access[e->at];
    return IVSHM_DONE;
}

/* Completes `count` steps, and returns the notes of the last. */
static uint32_t go_on(struct empty *e, uint32_t count, ivshm_notes *notes) {
    if (!e) return IVSHM_NO_END;
    e->at += count;
    *notes = (ivshm_notes){.count = e->now->delivers[e->at - 1]};
    if (notes->count > 0) notes->note[0].kind = IVSHM_DELIVER;
    return IVSHM_DONE;
}

uint32_t ivshm_end_took(ivshm_end *end, uint32_t value, ivshm_notes *notes) {
    (void)value;
    return go_on(end->at, 1, notes);
}

uint32_t ivshm_end_step(ivshm_end *end, uint32_t value, ivshm_notes *notes, ivshm_access *next) {
    (void)value;
    uint32_t answer = go_on(end->at, 1, notes);
    return answer == IVSHM_DONE ? ivshm_end_next(end, next) : answer;
}

uint32_t ivshm_end_took_reads(ivshm_end *end, const uint8_t *words, size_t size, ivshm_notes *notes) {
    (void)words;
    return go_on(end->at, (uint32_t)(size / 4), notes);
}

uint32_t ivshm_end_words(ivshm_end *end, uint8_t *into, size_t size) {
    (void)end, (void)into, (void)size;
    return IVSHM_DONE;
}

uint32_t ivshm_end_took_writes(ivshm_end *end, uint32_t count) {
    struct empty *e = end->at;
    e->at += count;
    return IVSHM_DONE;
}

uint32_t ivshm_end_took_field(ivshm_end *end, uint32_t value, ivshm_burst *next) {
    struct empty *e = end->at;
    const ivshm_access *read = &e->now->access[e->at];
    (void)value;
    if (e->now != &e->poll || read->kind != IVSHM_READ || read->order != IVSHM_RELAXED || read->count > 0) return IVSHM_OTHER_ACCESS;
    e->at++;
    *next = (ivshm_burst){read[1].word, read[1].count};
    return IVSHM_DONE;
}

/* Returns the access after a frame. A doorbell is completed. */
static ivshm_access after_frame(struct empty *e) {
    ivshm_access next = e->now->access[e->at];
    if (next.kind == IVSHM_RING) e->at++;
    return next;
}

uint32_t ivshm_end_took_frame(ivshm_end *end, const uint8_t *words, size_t size, ivshm_frame_return *made, ivshm_access *next) {
    struct empty *e = end->at;
    (void)words;
    const ivshm_access *element = &e->now->access[e->at + size / 4];
    *made = (ivshm_frame_return){.length = (uint32_t)e->length, .element = element->word, .index = element[2].word};
    e->at += (uint32_t)(size / 4) + 3;
    *next = after_frame(e);
    return IVSHM_DONE;
}

/* An offer reads two words first. */
uint32_t ivshm_end_publish(ivshm_end *end, ivshm_publication *made, uint8_t *room, size_t size, ivshm_access *next) {
    struct empty *e = end->at;
    (void)room, (void)size;
    if (!e) return IVSHM_NO_END;
    if (e->now != &e->offer || e->at != 2) return IVSHM_OTHER_ACCESS;
    const ivshm_access *frame = &e->offer.access[2], *descriptor = frame + frame->count;
    made->bursts[0] = (ivshm_burst){frame->word, frame->count};
    made->bursts[1] = (ivshm_burst){descriptor->word, 4};
    made->bursts[2] = (ivshm_burst){descriptor[4].word, 1};
    made->index = descriptor[5].word;
    made->accepted = 0;
    e->at += frame->count + 6;
    *next = after_frame(e);
    return IVSHM_DONE;
}

uint32_t ivshm_end_frame(ivshm_end *end, uint8_t *room, size_t size, size_t *length) {
    (void)end, (void)room, (void)size;
    *length = 0;
    return IVSHM_DONE;
}

uint32_t ivshm_end_view(ivshm_end *end, ivshm_view *view) {
    (void)end;
    *view = (ivshm_view){.state = IVSHM_RUN};
    return IVSHM_DONE;
}

uint32_t ivshm_end_counts(ivshm_end *end, ivshm_counts *counts) {
    (void)end;
    *counts = (ivshm_counts){.sessions = 1};
    return IVSHM_DONE;
}
