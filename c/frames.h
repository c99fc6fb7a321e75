/* The frames of the programs in which each end compares what it takes with what the other sent:
 * pair.c and pair_floor.c. */
#ifndef FRAMES_H
#define FRAMES_H
#include <stdint.h>
#include <stdlib.h>
#include <string.h>

enum { KEPT = 16, COMPARED = 22 };

/* Makes frame `number` of this peer: an Ethernet header to all, the number, and bytes that depend
 * on both. The first COMPARED bytes differ from those of the peer's other frames. */
static inline void make_frame(uint8_t *frame, uint32_t from, uint64_t number, size_t size) {
    uint64_t x = number * 2 + from + 1;
    memset(frame, 0xff, 6);
    memset(frame + 6, 0, 6);
    frame[6] = 2;
    frame[11] = (uint8_t)from;
    frame[12] = 0x88;
    frame[13] = 0xb5;
    for (size_t i = 14; i < size; i++) {
        if (i % 8 == 6) {
            x ^= x << 13;
            x ^= x >> 7;
            x ^= x << 17;
        }
        frame[i] = (uint8_t)(x >> 8 * ((i - 6) % 8));
    }
}

/* The frames of a measurement. KEPT frames of each peer are made before it, and sent in turn. A
 * frame that is taken is compared by its length and its first bytes. */
struct kept_frames {
    size_t size, stride; /* the stride is in whole words */
    uint8_t *frames;     /* NULL: none are kept */
};

static inline const uint8_t *kept_frame(const struct kept_frames *kept, uint32_t from, uint64_t number) {
    return kept->frames + kept->stride * (KEPT * from + number % KEPT);
}

static inline void keep_frames(struct kept_frames *kept, size_t size) {
    kept->size = size;
    kept->stride = (size + 63) / 64 * 64;
    kept->frames = aligned_alloc(64, 2 * KEPT * kept->stride);
    if (!kept->frames) exit(1);
    memset(kept->frames, 0, 2 * KEPT * kept->stride);
    for (uint32_t from = 0; from < 2; from++)
        for (uint64_t number = 0; number < KEPT; number++) make_frame(kept->frames + kept->stride * (KEPT * from + number), from, number, size);
}

/* Whether this is frame `number` of the peer `from`, by its length and its first bytes. */
static inline int is_kept(const struct kept_frames *kept, uint32_t from, uint64_t number, const uint8_t *frame, size_t length) {
    return length == kept->size && memcmp(frame, kept_frame(kept, from, number), length < COMPARED ? length : COMPARED) == 0;
}
#endif
