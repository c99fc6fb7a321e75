/* The rings of a link in plain C, over the library's layout, without an end and without a check
 * other than a frame's length. They are the floor of the programs that measure the library: the
 * same copies and index words by themselves. A frame is copied as often as with the library:
 * into the end and the section, and then into a room and the other end. Each frame is published,
 * and returned, by one index word. VERSION is that of the link (region.h). From 2 on sections
 * have the event words, and in 3 a frame takes its own length (docs/LINK.md). */
#ifndef PLAIN_RINGS_H
#define PLAIN_RINGS_H
#include "region.h"

#include <stdatomic.h>

struct side {
    _Atomic uint32_t *own, *theirs;
    ivshm_words at;
    uint32_t accepted, freed, next, taken, entries[4096], inner[IVSHM_LONGEST / 4 + 1], room[IVSHM_LONGEST / 4 + 1];
    uint32_t starts[4096]; /* version 3: the bytes where the frames in flight begin */
    uint32_t end;          /* and where the newest one ends */
    int armed;             /* its event asks at the next frame */
    uint64_t delivered, rings;
    uint64_t bad; /* frames that `check` refused */
    /* the program's; NULL: no frame is compared */
    int (*check)(const struct side *s, const uint8_t *frame, size_t length);
};

static inline uint32_t get(const _Atomic uint32_t *word) { return atomic_load_explicit(word, memory_order_relaxed); }
static inline void put(_Atomic uint32_t *word, uint32_t value) { atomic_store_explicit(word, value, memory_order_relaxed); }

/* Returns the descriptor of the next frame, and its byte of the section; false if it doesn't
 * fit. */
static inline bool find_slot(struct side *s, size_t length, uint32_t *descriptor, uint32_t *place) {
    uint32_t in_flight = s->accepted - s->freed, size = (uint32_t)(length + 63) / 64 * 64, area = 4 * s->at.words - s->at.data_area;
    if (VERSION < 3) {
        if (in_flight >= s->at.limit) return false;
        *descriptor = s->next;
        *place = s->at.data_area + s->next * s->at.slot;
        s->next = s->next + 1 == s->at.limit ? 0 : s->next + 1;
        return true;
    }
    uint32_t oldest = in_flight ? s->starts[s->freed % s->at.queue_size] : s->end, start = s->end;
    bool is_free = !in_flight || start > oldest; /* to the area's end, and otherwise to the oldest frame */
    if (is_free && start + size > area) {
        start = 0;
        is_free = !in_flight;
    }
    if (in_flight >= s->at.queue_size || (!is_free && start + size > oldest)) return false;
    *descriptor = s->accepted % s->at.queue_size;
    *place = s->at.data_area + start;
    s->starts[*descriptor] = start;
    s->end = start + size;
    return true;
}

/* Frees the frames that came back. Then publishes a frame and returns 1, or 0 if it doesn't fit. */
static inline int send_plain(struct side *s, const uint8_t *frame, size_t length) {
    uint32_t size = s->at.queue_size, index = atomic_load_explicit(&s->theirs[s->at.used_index], memory_order_acquire) >> 16;
    while ((s->freed & 0xffff) != index) {
        (void)get(&s->theirs[s->at.used_elements + 2 * (s->freed % size)]);
        s->freed++;
    }
    uint32_t i, place, k = s->accepted % size;
    if (!find_slot(s, length, &i, &place)) return 0;
    memcpy(s->inner, frame, length);
    memcpy((void *)&s->own[place / 4], frame, (length + 3) / 4 * 4);
    put(&s->own[4 * i], place);
    put(&s->own[4 * i + 1], 0);
    put(&s->own[4 * i + 2], (uint32_t)length);
    put(&s->own[4 * i + 3], 0);
    uint32_t beside = s->entries[k / 2];
    s->entries[k / 2] = k % 2 ? (beside & 0xffff) | i << 16 : (beside & 0xffff0000) | i;
    put(&s->own[s->at.available_entries + k / 2], s->entries[k / 2]);
    s->accepted++;
    atomic_store_explicit(&s->own[s->at.available_index], s->accepted << 16, memory_order_release);
    if (VERSION > 1) {
        atomic_thread_fence(memory_order_seq_cst);
        s->rings += (get(&s->theirs[s->at.available_event]) & 0xffff) == ((s->accepted - 1) & 0xffff);
    }
    return 1;
}

/* Returns the other's index. From version 2 on an end that finds no frame writes its event, once,
 * and looks again. */
static inline uint32_t look_plain(struct side *s) {
    uint32_t index = atomic_load_explicit(&s->theirs[s->at.available_index], memory_order_acquire) >> 16;
    if (VERSION > 1 && (s->taken & 0xffff) == index && !s->armed) {
        put(&s->own[s->at.available_event], s->taken & 0xffff);
        atomic_thread_fence(memory_order_seq_cst);
        s->armed = 1;
        index = atomic_load_explicit(&s->theirs[s->at.available_index], memory_order_acquire) >> 16;
    }
    return index;
}

/* Takes each frame that was published. */
static inline void take_plain(struct side *s) {
    uint32_t size = s->at.queue_size, index = look_plain(s);
    if ((s->taken & 0xffff) != index) s->armed = 0;
    while ((s->taken & 0xffff) != index) {
        uint32_t k = s->taken % size, word = get(&s->theirs[s->at.available_entries + k / 2]), i = (k % 2 ? word >> 16 : word) % size;
        uint32_t place = get(&s->theirs[4 * i]), high = get(&s->theirs[4 * i + 1]), length = get(&s->theirs[4 * i + 2]), flags = get(&s->theirs[4 * i + 3]);
        if (high || flags || length > IVSHM_LONGEST || place > 4 * s->at.words - length) exit(1);
        size_t bytes = (length + 3) / 4 * 4;
        memcpy(s->room, (const void *)&s->theirs[place / 4], bytes);
        memcpy(s->inner, s->room, bytes);
        if (s->check && !s->check(s, (const uint8_t *)s->room, length)) s->bad++;
        s->delivered++;
        put(&s->own[s->at.used_elements + 2 * k], i);
        put(&s->own[s->at.used_elements + 2 * k + 1], 1);
        s->taken++;
        atomic_store_explicit(&s->own[s->at.used_index], s->taken << 16, memory_order_release);
    }
}

/* Lays out both sides over memory that processes share: sections of `out` bytes, for this MTU. */
static inline void open_sides(struct side sides[2], uint64_t out, uint32_t mtu) {
    ivshm_found found = {.table = TABLE, .out = out};
    size_t bytes = TABLE + 2 * (size_t)out;
    _Atomic uint32_t *words = mmap(NULL, bytes, PROT_READ | PROT_WRITE, MAP_SHARED | MAP_ANONYMOUS, -1, 0);
    if (words == MAP_FAILED) fail("mmap");
    memset((void *)words, 0, bytes);
    for (uint32_t me = 0; me < 2; me++) {
        must(ivshm_layout(&found, 2, mtu, &sides[me].at), "layout");
        sides[me].own = words + sides[me].at.first + me * sides[me].at.words;
        sides[me].theirs = words + sides[me].at.first + (1 - me) * sides[me].at.words;
    }
}
#endif
