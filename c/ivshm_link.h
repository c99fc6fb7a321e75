/* A driver's loop over the end of the link (ivshm_c.h): copy it and start from here. It makes the
 * next accesses of the library with their orders, in bursts if the library allows them, and counts
 * what happened. It runs in user space, in C and C++, and in a kernel.
 *
 *     ivshm_link_open(&link, &setup)            makes the end and writes State 0
 *     ivshm_link_tick(&link)                    every 10 ms, and when vector 0 comes
 *     ivshm_link_poll(&link, budget)            when the other vector comes, and every 10 ms
 *     ivshm_link_send(&link, frame, length, &outcome)
 *     ivshm_link_reset(&link)                   the device was reset; or a refusal is forgiven
 *     ivshm_link_list(&link, list)              the counts, for `ethtool -S`
 *     ivshm_link_close(&link)                   leaves the link and frees the end
 *
 * One call at a time uses a link. None of them waits.
 *
 * A SEND FROM `deliver`. A poll returns a frame to the other peer, and rings if that was its last
 * one, before it passes the frame to `deliver`. So `deliver` may answer by ivshm_link_send, with
 * the frame itself too. After a poll's last frame the answer is offered. Before, the poll is open,
 * and the send returns IVSHM_CALL_OPEN: queue the answer. Every other call of the link returns
 * IVSHM_CALL_OPEN in `deliver`, or no frame, and changes nothing. The other functions of the setup
 * call nothing of the link.
 *
 * A BUDGET FOR POLLS. The other peer decides how many frames a poll finds: up to queue_size of
 * them, each up to the length of its section. So ivshm_link_poll stops after `budget` frames. The
 * poll is open then, and the next ivshm_link_poll continues it. Until the poll is over a tick and a
 * send return IVSHM_CALL_OPEN and change nothing. The wait is bounded, since a poll takes no frame
 * that was published after its look. The poll is over after queue_size / budget + 1 calls at most.
 * So queue the sends while ivshm_link_is_open, and make them before the next poll begins: then the
 * other peer can't keep the driver from sending. In Linux this is the budget of NAPI: the poll is
 * over if it delivered fewer frames than the budget.
 *
 * These may be defined before the header is included:
 *     IVSHM_LINK_SEQ_CST   each single access is sequentially consistent. The theorems of the
 *                          repository are about such accesses; by default each access has the
 *                          order that it needs (docs/ORDERS.md)
 *     IVSHM_LINK_SINGLE    no bursts: each word is accessed by itself
 *     IVSHM_LINK_MEMCPY    a burst is one memcpy; by default it is accesses of one word or, on a
 *                          processor with registers of 64 bits, of two. A word that memcpy tears is
 *                          one more value that the other peer might store */
#ifndef IVSHM_LINK_H
#define IVSHM_LINK_H

#include "ivshm_c.h"

#ifdef __KERNEL__
#include <asm/barrier.h>
#include <linux/compiler.h>
#include <linux/string.h>
#else
#include <string.h>
#endif

#define IVSHM_LINK_ALL 0xffffffffu /* the budget of a poll that takes all frames */

/* The values and functions that the program provides. A function that isn't needed is NULL. */
typedef struct ivshm_link_setup {
    ivshm_found found; /* what ivshm_walk found */
    uint32_t peers;    /* the Maximum Peers register */
    uint32_t me;       /* the ID register: 0 or 1 */
    uint32_t mtu;      /* the same at both ends, as the version */
    uint32_t vector;   /* by which the other peer is rung */
    uint32_t version;  /* 1 to IVSHM_VERSION */

    /* the region, mapped: the other peer's word in the State Table, its output section, and the
     * own output section, which alone needs to be writable */
    const uint32_t *other_state;
    const uint32_t *other_section;
    uint32_t *own_section;

    /* memory of the program's own: ivshm_words.longest_delivery bytes, up to whole words */
    uint32_t *room;
    size_t room_size;

    void *context; /* the first argument of each function */
    /* writes the State register, and reads it back: the write may be posted, and the read is
     * answered once the State Table has the value (docs/ORDERS.md) */
    void (*write_state)(void *context, uint32_t state);
    /* writes the Doorbell register: peer << 16 | vector */
    void (*ring)(void *context, uint32_t peer, uint32_t vector);
    /* takes a delivered frame, whose bytes are valid during the call only. It may send */
    void (*deliver)(void *context, const uint8_t *frame, size_t length);
    /* for records: after each step, and for each note of it, with the frame if the note is
     * IVSHM_ACCEPT or IVSHM_DELIVER */
    void (*accessed)(void *context, const ivshm_access *access, uint32_t value);
    void (*noted)(void *context, const ivshm_note *note, const uint8_t *frame, size_t length);
} ivshm_link_setup;

/* Counts since ivshm_link_open. The library counts frames, offers and refusals too
 * (ivshm_end_counts), with equal numbers. A poll with a budget compares `delivered` after each
 * step, and a call there would cost more than the step. The library counts no bytes, accesses
 * and doorbells, and no refusals by field. */
typedef struct ivshm_link_counts {
    uint64_t accesses;        /* words, States and doorbells */
    uint64_t steps;           /* turns of the loop: an access, a burst, an item, or the reads and writes of an offer */
    uint64_t sessions;        /* times that the end came to RUN */
    uint64_t accepted;        /* frames that were published */
    uint64_t accepted_bytes;
    uint64_t full;            /* offers that found no room */
    uint64_t down;            /* calls outside RUN */
    uint64_t delivered;       /* frames delivered */
    uint64_t delivered_bytes;
    uint64_t rings;           /* doorbells rung */
    uint64_t refusals;        /* values refused */
    uint64_t refused[8];      /* the same by field: IVSHM_AVAIL_INDEX to IVSHM_USED_ID */
    uint64_t stray;           /* accesses outside the link, which aren't made: always 0 */
} ivshm_link_counts;

/* One of the counts with its name, for a list as that of `ethtool -S`. */
typedef struct ivshm_link_count {
    const char *name; /* at most 31 characters */
    uint64_t value;
} ivshm_link_count;

#define IVSHM_LINK_LIST 18 /* the counts of ivshm_link_list */

typedef struct ivshm_link {
    ivshm_end end;
    ivshm_link_setup setup;
    ivshm_link_counts counts;
    ivshm_words layout;
    ivshm_note refusal;       /* the last one */
    uint32_t own, other;      /* the first words of both output sections */
    uint32_t state;           /* the State that was written last */
    uint32_t burst;           /* words of a burst at most: those of the room */
    uint32_t outcome;         /* of the last offer */
    uint32_t polling;         /* 1: a poll is open that stopped at its budget */
    uint32_t left;            /* words of a frame that aren't read yet */
    uint32_t whole;           /* 1: the room has the whole frame that was read last */
    uint32_t delivering;      /* 1: `deliver` is called */
    size_t due;               /* bytes of the frame in the room that `deliver` gets next; 0: none */
    const uint8_t *frame;     /* the frame of the open offer */
    size_t length;
    ivshm_access first;       /* the first access of each offer in RUN, once it is known */
} ivshm_link;

/* Accesses of a word, and the full fence. The other end runs on another processor, also if this
 * kernel was built for one alone. There smp_mb() is no fence, and virt_mb() is one. */
#ifdef __KERNEL__
#define IVSHM_LINK_LOAD(word) READ_ONCE(*(word))
#define IVSHM_LINK_STORE(word, value) WRITE_ONCE(*(word), value)
#define IVSHM_LINK_LOAD_ACQUIRE(word) virt_load_acquire(word)
#define IVSHM_LINK_STORE_RELEASE(word, value) virt_store_release(word, value)
#define IVSHM_LINK_FENCE() virt_mb()
#else
#define IVSHM_LINK_LOAD(word) __atomic_load_n(word, __ATOMIC_RELAXED)
#define IVSHM_LINK_STORE(word, value) __atomic_store_n(word, value, __ATOMIC_RELAXED)
#define IVSHM_LINK_LOAD_ACQUIRE(word) __atomic_load_n(word, __ATOMIC_ACQUIRE)
#define IVSHM_LINK_STORE_RELEASE(word, value) __atomic_store_n(word, value, __ATOMIC_RELEASE)
#define IVSHM_LINK_FENCE() __atomic_thread_fence(__ATOMIC_SEQ_CST)
#endif

static inline void ivshm_link_fence(void) { IVSHM_LINK_FENCE(); }

/* On x86 each load is an acquire and each store a release, so the order needs no test. */
#if defined __x86_64__ || defined __i386__
#define IVSHM_LINK_TSO 1
#else
#define IVSHM_LINK_TSO 0
#endif

/* A load and a store in this order. */
static inline uint32_t ivshm_link_load_in(const uint32_t *word, uint32_t order) {
#ifdef IVSHM_LINK_SEQ_CST
    (void)order;
    return __atomic_load_n(word, __ATOMIC_SEQ_CST);
#else
    if (IVSHM_LINK_TSO || order == IVSHM_ACQUIRE) return IVSHM_LINK_LOAD_ACQUIRE(word);
    return IVSHM_LINK_LOAD(word);
#endif
}

static inline void ivshm_link_store_in(uint32_t *word, uint32_t value, uint32_t order) {
#ifdef IVSHM_LINK_SEQ_CST
    (void)order;
    __atomic_store_n(word, value, __ATOMIC_SEQ_CST);
#else
    if (IVSHM_LINK_TSO || order == IVSHM_RELEASE) IVSHM_LINK_STORE_RELEASE(word, value);
    else IVSHM_LINK_STORE(word, value);
#endif
}

/* The same with the fences of the access, which sequentially consistent accesses don't need. */
static inline void ivshm_link_fence_if(uint32_t wanted) {
#ifdef IVSHM_LINK_SEQ_CST
    (void)wanted;
#else
    if (wanted) ivshm_link_fence();
#endif
}

static inline uint32_t ivshm_link_load(const uint32_t *word, const ivshm_access *access) {
    uint32_t value;
    if (!(access->fence_before | access->fence_after)) return ivshm_link_load_in(word, access->order);
    ivshm_link_fence_if(access->fence_before);
    value = ivshm_link_load_in(word, access->order);
    ivshm_link_fence_if(access->fence_after);
    return value;
}

static inline void ivshm_link_store(uint32_t *word, const ivshm_access *access) {
    ivshm_link_fence_if(access->fence_before);
    ivshm_link_store_in(word, access->value, access->order);
    ivshm_link_fence_if(access->fence_after);
}

/* Two words in one access. It is aligned to 8 bytes, so neither word is torn. */
#if defined __SIZEOF_LONG__ && __SIZEOF_LONG__ >= 8
#define IVSHM_LINK_PAIRS 1
#else
#define IVSHM_LINK_PAIRS 0
#endif
typedef uint64_t __attribute__((may_alias)) ivshm_link_pair;

/* Copies `count` words out of the other section. */
static inline void ivshm_link_copy_out(uint32_t *to, const uint32_t *from, uint32_t count) {
#ifdef IVSHM_LINK_MEMCPY
    memcpy(to, from, 4 * (size_t)count);
#else
    uint32_t i = 0;
    if (IVSHM_LINK_PAIRS) {
        if (count > 0 && (size_t)from % 8 != 0) to[i++] = IVSHM_LINK_LOAD(from);
        for (; count - i >= 2; i += 2) {
            uint64_t pair = IVSHM_LINK_LOAD((const ivshm_link_pair *)(const void *)&from[i]);
            __builtin_memcpy(&to[i], &pair, 8);
        }
    }
    for (; i < count; i++) to[i] = IVSHM_LINK_LOAD(&from[i]);
#endif
}

/* Copies `count` words into the own section, from bytes of any alignment. */
static inline void ivshm_link_copy_in(uint32_t *to, const uint8_t *from, uint32_t count) {
#ifdef IVSHM_LINK_MEMCPY
    memcpy(to, from, 4 * (size_t)count);
#else
    uint32_t i = 0, word;
    if (IVSHM_LINK_PAIRS) {
        uint64_t pair;
        if (count > 0 && (size_t)to % 8 != 0) {
            __builtin_memcpy(&word, from, 4);
            IVSHM_LINK_STORE(to, word);
            i = 1;
        }
        for (; count - i >= 2; i += 2) {
            __builtin_memcpy(&pair, from + 4 * (size_t)i, 8);
            IVSHM_LINK_STORE((ivshm_link_pair *)(void *)&to[i], pair);
        }
    }
    for (; i < count; i++) {
        __builtin_memcpy(&word, from + 4 * (size_t)i, 4);
        IVSHM_LINK_STORE(&to[i], word);
    }
#endif
}

/* Whether `count` words from `word` on are in the section that begins at the word `first`. */
static inline int ivshm_link_has(const ivshm_link *link, uint32_t first, uint32_t word, uint32_t count) {
    uint32_t at = word - first;
    return at < link->layout.words && count <= link->layout.words - at;
}

/* Whether one word is. */
static inline int ivshm_link_has_word(const ivshm_link *link, uint32_t first, uint32_t word) { return word - first < link->layout.words; }

/* Reports the words of a burst, which were read into `values`, or written. */
static inline void ivshm_link_report(ivshm_link *link, uint32_t kind, const ivshm_burst *burst, const uint32_t *values) {
    ivshm_access one;
    memset(&one, 0, sizeof one);
    one.kind = kind;
    for (uint32_t i = 0; i < burst->count; i++) {
        one.word = burst->word + i;
        if (kind == IVSHM_WRITE) one.value = link->setup.own_section[one.word - link->own];
        link->setup.accessed(link->setup.context, &one, values ? values[i] : 0);
    }
}

/* Writes the State register. It is no word of the region: fences order it with the words before
 * and after, once the device has stored it. */
static inline void ivshm_link_set_state(ivshm_link *link, uint32_t state) {
    ivshm_link_fence();
    link->setup.write_state(link->setup.context, state);
    ivshm_link_fence();
    link->counts.sessions += state == IVSHM_RUN;
    link->state = state;
}

/* Rings, after all stores before. */
static inline void ivshm_link_ring(ivshm_link *link, uint32_t peer, uint32_t vector) {
    ivshm_link_fence();
    link->counts.rings++;
    if (link->setup.ring) link->setup.ring(link->setup.context, peer, vector);
}

/* Makes a read by itself, and returns the value. */
static inline uint32_t ivshm_link_read(ivshm_link *link, const ivshm_access *access) {
    const ivshm_link_setup *setup = &link->setup;
    if (ivshm_link_has_word(link, link->other, access->word)) return ivshm_link_load(&setup->other_section[access->word - link->other], access);
    if (access->word == 1 - setup->me) return ivshm_link_load(setup->other_state, access);
    link->counts.stray++;
    return 0;
}

/* Makes an access by itself, and returns the value read. */
static inline uint32_t ivshm_link_single(ivshm_link *link, const ivshm_access *access) {
    const ivshm_link_setup *setup = &link->setup;
    if (access->kind == IVSHM_READ) {
        return ivshm_link_read(link, access);
    } else if (access->kind == IVSHM_RING) {
        ivshm_link_ring(link, access->word, access->value);
    } else if (access->kind == IVSHM_WRITE) {
        if (ivshm_link_has_word(link, link->own, access->word)) ivshm_link_store(&setup->own_section[access->word - link->own], access);
        else link->counts.stray++;
    } else if (access->kind == IVSHM_STATE) {
        ivshm_link_set_state(link, access->value);
    } else if (access->kind != IVSHM_NOTHING) {
        link->counts.stray++;
    }
    return 0;
}

/* Writes the last `count` words of the frame that is offered, with 0 after its last byte. */
static inline void ivshm_link_copy_frame(ivshm_link *link, uint32_t *to, uint32_t count) {
    size_t at = 4 * ((link->length + 3) / 4 - count), bytes = link->length - at;
    uint32_t whole = (uint32_t)(bytes / 4), last = 0;
    ivshm_link_copy_in(to, link->frame + at, whole);
    if (whole == count) return;
    memcpy(&last, link->frame + at + 4 * (size_t)whole, bytes % 4);
    ivshm_link_copy_in(to + whole, (const uint8_t *)&last, 1);
}

static inline uint32_t ivshm_link_write_burst(ivshm_link *link, const ivshm_burst *burst) {
    uint8_t *room = (uint8_t *)link->setup.room;
    size_t bytes = 4 * (size_t)burst->count;
    if (!ivshm_link_has(link, link->own, burst->word, burst->count)) return 0;
    if (ivshm_end_words(&link->end, room, bytes) != IVSHM_DONE) return 0;
    ivshm_link_copy_in(&link->setup.own_section[burst->word - link->own], room, burst->count);
    if (link->setup.accessed) ivshm_link_report(link, IVSHM_WRITE, burst, NULL);
    return ivshm_end_took_writes(&link->end, burst->count) == IVSHM_DONE ? burst->count : 0;
}

/* Reads a burst into the room, and returns the number of its words, or 0. A read that leaves no
 * word of a frame, and before which none was read, is of the whole frame. */
static inline uint32_t ivshm_link_read_burst(ivshm_link *link, const ivshm_burst *burst, uint32_t ahead, ivshm_notes *notes) {
    uint32_t *room = link->setup.room;
    if (!ivshm_link_has(link, link->other, burst->word, burst->count)) return 0;
    ivshm_link_copy_out(room, &link->setup.other_section[burst->word - link->other], burst->count);
    if (link->setup.accessed) ivshm_link_report(link, IVSHM_READ, burst, room);
    if (ivshm_end_took_reads(&link->end, (const uint8_t *)room, 4 * (size_t)burst->count, notes) != IVSHM_DONE) return 0;
    link->whole = link->left == 0 && burst->count == ahead;
    link->left = ahead - burst->count;
    return burst->count;
}

/* Makes the burst that the access begins, or a part of it, and returns the number of its words. 0:
 * its first word is to be made by itself. So is each write while the room has a frame that isn't
 * delivered yet. */
static inline uint32_t ivshm_link_burst(ivshm_link *link, const ivshm_access *access, ivshm_notes *notes) {
    ivshm_burst burst;
    link->whole = 0;
#ifdef IVSHM_LINK_SINGLE
    (void)access, (void)notes;
    return 0;
#endif
    burst.word = access->word;
    burst.count = access->count < link->burst ? access->count : link->burst;
    if (burst.count < 2) {
        if (access->kind == IVSHM_READ) link->left = access->count - 1;
        return 0;
    }
    if (access->kind == IVSHM_READ) return ivshm_link_read_burst(link, &burst, access->count, notes);
    return link->due > 0 || link->delivering ? 0 : ivshm_link_write_burst(link, &burst);
}

/* Counts a frame that was read whole. It is in the room, and due once it is returned. */
static inline void ivshm_link_was_read(ivshm_link *link, size_t length) {
    link->counts.delivered++;
    link->counts.delivered_bytes += length;
    link->due = length;
}

/* Passes the frame that is due to the program. */
static inline void ivshm_link_deliver(ivshm_link *link) {
    size_t length = link->due;
    link->due = 0;
    if (!link->setup.deliver) return;
    link->delivering = 1;
    link->setup.deliver(link->setup.context, (const uint8_t *)link->setup.room, length);
    link->delivering = 0;
}

/* Takes a frame that was read whole into the room, if it isn't there yet. */
static inline void ivshm_link_delivered(ivshm_link *link, const ivshm_note *note) {
    ivshm_link_setup *setup = &link->setup;
    ivshm_view view;
    size_t length = 0;
    if (!link->whole) {
        if (ivshm_end_frame(&link->end, (uint8_t *)setup->room, setup->room_size, &length) != IVSHM_DONE) return;
    } else if (ivshm_end_view(&link->end, &view) == IVSHM_DONE) {
        length = (size_t)view.delivered;
    }
    ivshm_link_was_read(link, length);
    if (setup->noted) setup->noted(setup->context, note, (const uint8_t *)setup->room, length);
}

/* Counts the frame that is offered as published. */
static inline void ivshm_link_accepted(ivshm_link *link) {
    link->outcome = IVSHM_ACCEPTED;
    link->counts.accepted++;
    link->counts.accepted_bytes += link->length;
}

/* Handles a note. */
static inline void ivshm_link_heed(ivshm_link *link, const ivshm_note *note) {
    ivshm_link_setup *setup = &link->setup;
    switch (note->kind) {
    case IVSHM_DELIVER:
        ivshm_link_delivered(link, note);
        return;
    case IVSHM_ACCEPT:
        ivshm_link_accepted(link);
        break;
    case IVSHM_FULL:
        link->outcome = IVSHM_WAS_FULL;
        link->counts.full++;
        break;
    case IVSHM_DOWN:
        link->outcome = IVSHM_WAS_DOWN;
        link->counts.down++;
        break;
    case IVSHM_REFUSE:
        link->outcome = IVSHM_REFUSED;
        link->counts.refusals++;
        link->counts.refused[note->field % 8]++;
        link->refusal = *note;
        break;
    default:
        break;
    }
    if (setup->noted) setup->noted(setup->context, note, link->frame, link->length);
}

/* Reports a note that the library implies. */
static inline void ivshm_link_note(ivshm_link *link, uint32_t kind, const uint8_t *frame, size_t length) {
    ivshm_note note;
    note.kind = kind;
    note.field = 0;
    note.value = 0;
    link->setup.noted(link->setup.context, &note, frame, length);
}

/* Reports an access of one word. `read` is the value of a read. */
static inline void ivshm_link_report_word(ivshm_link *link, uint32_t kind, uint32_t word, uint32_t written, uint32_t order, uint32_t read) {
    ivshm_access access;
    memset(&access, 0, sizeof access);
    access.kind = kind;
    access.word = word;
    access.value = written;
    access.order = order;
    link->setup.accessed(link->setup.context, &access, read);
}

/* Reads a field of an item, and reports the read if it is `recorded`. */
static inline uint32_t ivshm_link_read_field(ivshm_link *link, uint32_t word, int recorded) {
    uint32_t value;
    if (!ivshm_link_has_word(link, link->other, word)) {
        link->counts.stray++;
        return 0;
    }
    value = ivshm_link_load_in(&link->setup.other_section[word - link->other], IVSHM_RELAXED);
    link->counts.accesses++;
    if (recorded) ivshm_link_report_word(link, IVSHM_READ, word, 0, IVSHM_RELAXED, value);
    return value;
}

/* Rings if the access after a frame is the doorbell, whose step the library has completed. Then the
 * call is over: IVSHM_NO_CALL. Otherwise IVSHM_DONE: the access is next. */
static inline uint32_t ivshm_link_ring_after(ivshm_link *link, const ivshm_access *access, uint32_t note) {
    if (access->kind != IVSHM_RING) return IVSHM_DONE;
    link->counts.accesses++;
    ivshm_link_ring(link, access->word, access->value);
    if (link->setup.accessed) link->setup.accessed(link->setup.context, access, 0);
    if (link->setup.noted) ivshm_link_note(link, note, link->frame, link->length);
    return IVSHM_NO_CALL;
}

/* Makes the writes that return a frame. */
static inline void ivshm_link_return(ivshm_link *link, const ivshm_frame_return *made) {
    uint32_t *own = link->setup.own_section;
    ivshm_burst element;
    element.word = made->element;
    element.count = 2;
    if (!ivshm_link_has(link, link->own, element.word, 2) || !ivshm_link_has_word(link, link->own, made->index)) {
        link->counts.stray++;
        return;
    }
    ivshm_link_store_in(&own[element.word - link->own], made->id, IVSHM_RELAXED);
    ivshm_link_store_in(&own[element.word - link->own + 1], 1, IVSHM_RELAXED);
    ivshm_link_store_in(&own[made->index - link->own], made->returned, IVSHM_RELEASE);
    link->counts.accesses += 3;
    if (!link->setup.accessed) return;
    ivshm_link_report(link, IVSHM_WRITE, &element, NULL);
    ivshm_link_report_word(link, IVSHM_WRITE, made->index, made->returned, IVSHM_RELEASE, 0);
}

/* Reads the words of a frame and returns it, and has the access after it in *next. Returns 0 if
 * nothing was made. */
static inline uint32_t ivshm_link_take_frame(ivshm_link *link, const ivshm_burst *words, ivshm_access *next) {
    const ivshm_link_setup *setup = &link->setup;
    const uint8_t *frame = (const uint8_t *)setup->room;
    ivshm_frame_return made;
    if (words->count > link->burst || !ivshm_link_has(link, link->other, words->word, words->count)) return 0;
    ivshm_link_copy_out(setup->room, &setup->other_section[words->word - link->other], words->count);
    if (setup->accessed) ivshm_link_report(link, IVSHM_READ, words, setup->room);
    if (ivshm_end_took_frame(&link->end, frame, 4 * (size_t)words->count, &made, next) != IVSHM_DONE) return 0;
    link->counts.accesses += words->count;
    ivshm_link_was_read(link, made.length);
    if (setup->noted) ivshm_link_note(link, IVSHM_DELIVER, frame, made.length);
    ivshm_link_return(link, &made);
    if (setup->noted) ivshm_link_note(link, IVSHM_RETURN, frame, 0);
    return 1;
}

/* Makes the writes of an offer up to its index, and has the access after it in *next. Returns 0 if
 * no word of a frame is next. */
static inline uint32_t ivshm_link_publish(ivshm_link *link, ivshm_access *next) {
    uint8_t tail[20];
    ivshm_publication made;
    uint32_t *own = link->setup.own_section;
    const ivshm_burst *bursts = made.bursts;
    if (ivshm_end_publish(&link->end, &made, tail, sizeof tail, next) != IVSHM_DONE) return 0;
    if (!ivshm_link_has(link, link->own, bursts[0].word, bursts[0].count) || !ivshm_link_has(link, link->own, bursts[1].word, 4) ||
        !ivshm_link_has_word(link, link->own, bursts[2].word) || !ivshm_link_has_word(link, link->own, made.index)) {
        link->counts.stray++;
        return 1;
    }
    ivshm_link_copy_frame(link, own + (bursts[0].word - link->own), bursts[0].count);
    ivshm_link_copy_in(own + (bursts[1].word - link->own), tail, 4);
    ivshm_link_copy_in(own + (bursts[2].word - link->own), tail + 16, 1);
    ivshm_link_store_in(own + (made.index - link->own), made.accepted, IVSHM_RELEASE);
    link->counts.accesses += bursts[0].count + 6;
    if (link->setup.accessed) {
        for (int i = 0; i < 3; i++) ivshm_link_report(link, IVSHM_WRITE, &bursts[i], NULL);
        ivshm_link_report_word(link, IVSHM_WRITE, made.index, made.accepted, IVSHM_RELEASE, 0);
    }
    ivshm_link_accepted(link);
    if (link->setup.noted) ivshm_link_note(link, IVSHM_ACCEPT, link->frame, link->length);
    return 1;
}

/* Makes the access by itself, or the burst that begins with it. *next is the next access if the
 * answer is IVSHM_DONE; otherwise the call is over. Sets *returns if the step returned a frame. */
static inline uint32_t ivshm_link_step(ivshm_link *link, ivshm_access *next, uint32_t *returns) {
    ivshm_notes notes;
    uint32_t answer, made;
    notes.count = 0;
    made = next->count > 0 ? ivshm_link_burst(link, next, &notes) : 0;
    if (made > 0) {
        link->counts.accesses += made;
        answer = ivshm_end_next(&link->end, next);
    } else {
        uint32_t value = ivshm_link_single(link, next);
        link->counts.accesses += next->kind != IVSHM_NOTHING;
        if (link->setup.accessed) link->setup.accessed(link->setup.context, next, value);
        answer = ivshm_end_step(&link->end, value, &notes, next);
    }
    for (uint32_t i = 0; i < notes.count; i++) ivshm_link_heed(link, &notes.note[i]);
    *returns = notes.count > 0 && notes.note[0].kind == IVSHM_RETURN;
    return answer;
}

/* Takes an item of a poll from the read of next->word on, one of its fields. Otherwise the same. */
static inline uint32_t ivshm_link_take_item(ivshm_link *link, ivshm_access *next, uint32_t *returns) {
    const int recorded = link->setup.accessed != NULL;
    ivshm_burst read;
    for (read.word = next->word;;) {
        uint32_t value = ivshm_link_read_field(link, read.word, recorded);
        if (ivshm_end_took_field(&link->end, value, &read) != IVSHM_DONE) {
            ivshm_notes notes;
            uint32_t answer;
            notes.count = 0;
            answer = ivshm_end_step(&link->end, value, &notes, next);
            for (uint32_t i = 0; i < notes.count; i++) ivshm_link_heed(link, &notes.note[i]);
            return answer;
        }
        if (read.count == 0) continue;
        *returns = ivshm_link_take_frame(link, &read, next);
        return *returns ? ivshm_link_ring_after(link, next, IVSHM_FINISH) : ivshm_end_next(&link->end, next);
    }
}

/* Makes the reads of an offer by single steps: the used index, and the ids of the frames that came
 * back, or the other's event. *next is the access after them if the answer is IVSHM_DONE. */
static inline uint32_t ivshm_link_read_used(ivshm_link *link, ivshm_access *next) {
    uint32_t answer;
    do {
        ivshm_notes notes;
        uint32_t value = ivshm_link_read(link, next);
        link->counts.accesses++;
        if (link->setup.accessed) link->setup.accessed(link->setup.context, next, value);
        notes.count = 0;
        answer = ivshm_end_step(&link->end, value, &notes, next);
        for (uint32_t i = 0; i < notes.count; i++) ivshm_link_heed(link, &notes.note[i]);
    } while (answer == IVSHM_DONE && next->kind == IVSHM_READ);
    return answer;
}

/* Makes the next steps of an offer: its reads, and all writes up to its index, or else one access
 * or burst. */
static inline uint32_t ivshm_link_go_on_offer(ivshm_link *link, ivshm_access *next, uint32_t *returns) {
    if (next->kind == IVSHM_READ) {
        uint32_t answer = ivshm_link_read_used(link, next);
        if (answer != IVSHM_DONE) return answer;
    }
    if (next->kind == IVSHM_WRITE && next->count > 0 && ivshm_link_publish(link, next)) return ivshm_link_ring_after(link, next, IVSHM_OVER);
    return ivshm_link_step(link, next, returns);
}

/* Makes the next steps of the open call: in a poll an item, from the read of one of its fields on,
 * or else one access or burst. */
static inline uint32_t ivshm_link_go_on(ivshm_link *link, ivshm_access *next, uint32_t *returns) {
#ifndef IVSHM_LINK_SINGLE
    if (link->frame) return ivshm_link_go_on_offer(link, next, returns);
    if (next->kind == IVSHM_READ && next->order == IVSHM_RELAXED && next->count == 0) return ivshm_link_take_item(link, next, returns);
#endif
    return ivshm_link_step(link, next, returns);
}

/* Makes the steps of the open call from the access *next on, if `answer` is IVSHM_DONE, until it is
 * over or until the poll has delivered `budget` frames and returned the last of them. IVSHM_DONE:
 * the call is over. IVSHM_CALL_OPEN: it isn't. A frame is delivered once it is returned, and once
 * the doorbell is rung if that is next. */
static inline uint32_t ivshm_link_run_from(ivshm_link *link, uint32_t answer, ivshm_access *next, uint32_t budget) {
    uint64_t last = link->counts.delivered + budget;
    while (answer == IVSHM_DONE) {
        uint32_t returns = 0;
        link->counts.steps++;
        answer = ivshm_link_go_on(link, next, &returns);
        if (link->due == 0) continue;
        if (answer == IVSHM_DONE && (!returns || next->kind == IVSHM_RING)) continue;
        ivshm_link_deliver(link);
        if (answer == IVSHM_DONE && link->counts.delivered == last) return IVSHM_CALL_OPEN;
    }
    return IVSHM_DONE;
}

/* Makes the steps of the open call from its next access on. */
static inline uint32_t ivshm_link_run(ivshm_link *link, uint32_t budget) {
    ivshm_access next;
    uint32_t answer = ivshm_end_next(&link->end, &next);
    return ivshm_link_run_from(link, answer, &next, budget);
}

/* Makes the steps of the open offer. In RUN each offer begins with the same access, the read of the
 * used index, so the library is asked for it once. */
static inline uint32_t ivshm_link_run_offer(ivshm_link *link) {
    ivshm_access next;
    if (link->state != IVSHM_RUN) return ivshm_link_run(link, IVSHM_LINK_ALL);
    if (link->first.kind == IVSHM_NOTHING && ivshm_end_next(&link->end, &link->first) != IVSHM_DONE) return IVSHM_DONE;
    next = link->first;
    return ivshm_link_run_from(link, IVSHM_DONE, &next, IVSHM_LINK_ALL);
}

/* Begins a call and makes its steps. */
static inline uint32_t ivshm_link_call(ivshm_link *link, uint32_t which) {
    uint32_t answer = ivshm_end_begin(&link->end, which);
    return answer == IVSHM_DONE ? ivshm_link_run(link, IVSHM_LINK_ALL) : answer;
}

/* Makes the end of a mapped region, and writes State 0. Afterwards tick until the state is
 * IVSHM_RUN. *setup is copied. Returns IVSHM_DONE, IVSHM_SHORT_ROOM if a frame of the other peer
 * doesn't fit into the room, or IVSHM_OTHER_DEVICE if the device's protocol is another one. Else
 * it returns a result of ivshm_end_new_version. Without PCI the protocol must be IVSHM_PROTOCOL
 * too. */
static inline uint32_t ivshm_link_open(ivshm_link *link, const ivshm_link_setup *setup) {
    uint32_t answer;
    memset(link, 0, sizeof *link);
    link->setup = *setup;
    if (setup->found.protocol != IVSHM_PROTOCOL) return IVSHM_OTHER_DEVICE;
    answer = ivshm_layout(&setup->found, setup->peers, setup->mtu, &link->layout);
    if (answer != IVSHM_DONE) return answer;
    if (setup->room_size / 4 < (link->layout.longest_delivery + 3) / 4) return IVSHM_SHORT_ROOM;
    link->burst = (uint32_t)(setup->room_size / 4);
    link->own = link->layout.first + setup->me * link->layout.words;
    link->other = link->layout.first + (1 - setup->me) * link->layout.words;
    answer = ivshm_end_new_version(&link->end, &setup->found, setup->peers, setup->me, setup->mtu, setup->vector, setup->version);
    return answer == IVSHM_DONE ? ivshm_link_run(link, IVSHM_LINK_ALL) : answer;
}

/* Whether a poll that stopped at its budget is open still. */
static inline int ivshm_link_is_open(const ivshm_link *link) { return link->polling != 0; }

/* Reads the other's State. Returns IVSHM_DONE, or IVSHM_CALL_OPEN if a poll is open. */
static inline uint32_t ivshm_link_tick(ivshm_link *link) {
    if (link->delivering) return IVSHM_CALL_OPEN;
    return ivshm_link_call(link, IVSHM_TICK);
}

/* Delivers at most `budget` frames, and returns their number. If it is less than the budget the
 * poll is over. */
static inline uint32_t ivshm_link_poll(ivshm_link *link, uint32_t budget) {
    uint64_t before = link->counts.delivered;
    if (budget == 0 || link->delivering) return 0;
    if (!link->polling && ivshm_end_begin(&link->end, IVSHM_POLL) != IVSHM_DONE) return 0;
    link->polling = ivshm_link_run(link, budget) == IVSHM_CALL_OPEN;
    return (uint32_t)(link->counts.delivered - before);
}

/* Offers a frame. *outcome is IVSHM_ACCEPTED, IVSHM_WAS_FULL (send it again after the other peer
 * had time to poll), IVSHM_WAS_DOWN or IVSHM_REFUSED. Returns IVSHM_DONE, or a result of
 * ivshm_end_offer: IVSHM_CALL_OPEN if a poll is open, IVSHM_SHORT_FRAME, IVSHM_LONG_FRAME. */
static inline uint32_t ivshm_link_send(ivshm_link *link, const uint8_t *frame, size_t length, uint32_t *outcome) {
    uint32_t answer = ivshm_end_offer(&link->end, frame, length);
    if (answer != IVSHM_DONE) return answer;
    link->frame = frame;
    link->length = length;
    link->outcome = IVSHM_OPEN;
    answer = ivshm_link_run_offer(link);
    *outcome = link->outcome;
    link->frame = NULL;
    return answer;
}

/* Writes the counts of the link with their names, in a fixed order. Those of the library are
 * first. `sessions` counts the times that the end set READY. IVSHM_DONE, or IVSHM_NO_END after
 * ivshm_link_close. */
static inline uint32_t ivshm_link_list(ivshm_link *link, ivshm_link_count list[IVSHM_LINK_LIST]) {
    static const char *const names[IVSHM_LINK_LIST] = {
        "sessions", "tx_frames", "tx_full", "down", "rx_frames", "refused", "tx_bytes", "rx_bytes", "sessions_running", "doorbells", "accesses",
        "refused_avail_index", "refused_avail_entry", "refused_desc_address", "refused_desc_length", "refused_desc_flags", "refused_used_index",
        "refused_used_id",
    };
    const ivshm_link_counts *own = &link->counts;
    ivshm_counts end;
    uint32_t answer = ivshm_end_counts(&link->end, &end);
    if (answer != IVSHM_DONE) return answer;
    for (uint32_t i = 0; i < IVSHM_LINK_LIST; i++) list[i].name = names[i];
    list[0].value = end.sessions;
    list[1].value = end.accepted;
    list[2].value = end.full;
    list[3].value = end.down;
    list[4].value = end.delivered;
    list[5].value = end.refused;
    list[6].value = own->accepted_bytes;
    list[7].value = own->delivered_bytes;
    list[8].value = own->sessions;
    list[9].value = own->rings;
    list[10].value = own->accesses;
    for (uint32_t field = IVSHM_AVAIL_INDEX; field <= IVSHM_USED_ID; field++) list[10 + field].value = own->refused[field];
    return IVSHM_DONE;
}

/* Begins anew after a reset of the device, or after a refusal. A poll that is open is cut. */
static inline uint32_t ivshm_link_reset(ivshm_link *link) {
    uint32_t answer;
    if (link->delivering) return IVSHM_CALL_OPEN;
    answer = ivshm_end_reset(&link->end);
    if (answer != IVSHM_DONE) return answer;
    link->polling = 0;
    link->left = 0;
    return ivshm_link_run(link, IVSHM_LINK_ALL);
}

/* Leaves the link and frees the end. A poll that is open is finished first, and delivers. */
static inline uint32_t ivshm_link_close(ivshm_link *link) {
    if (link->delivering) return IVSHM_CALL_OPEN;
    if (link->polling) ivshm_link_run(link, IVSHM_LINK_ALL);
    link->polling = 0;
    ivshm_link_call(link, IVSHM_STOP);
    return ivshm_end_free(&link->end);
}
#endif
