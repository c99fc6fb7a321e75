/* A hostile peer 1. It plays the handshake. Then it stores words in its own section and its own
 * State: random ones, or the fields of frames with one wrong field. It knows nothing of the
 * library. A program includes this file once, and sets the words. */
#ifndef HOSTILE_H
#define HOSTILE_H
#include <sched.h>
#include <stdatomic.h>
#include <stdint.h>
#include <time.h>

enum { RANDOM, AVAIL_INDEX, AVAIL_ENTRY, DESC_ADDRESS, DESC_LENGTH, DESC_FLAGS, USED_INDEX, USED_ID, KINDS };

static uint64_t generator;

static uint32_t draw(void) {
    generator ^= generator << 13;
    generator ^= generator >> 7;
    generator ^= generator << 17;
    return (uint32_t)(generator >> 16);
}

static double time_now(void) {
    struct timespec time;
    clock_gettime(CLOCK_MONOTONIC, &time);
    return (double)time.tv_sec + (double)time.tv_nsec / 1e9;
}

static uint32_t up(uint32_t bytes) { return (bytes + 63) / 64 * 64; }

/* The States, the sections, and the words of the own queue. */
static _Atomic uint32_t *own_state, *own;
static const _Atomic uint32_t *his_state, *his;
static uint32_t words, size, used, data;
static uint64_t stores, sessions;

/* The offsets of a queue's parts in a section of `out` bytes. */
static void lay_out(uint32_t out) {
    words = out / 4;
    for (size = 4096; 8 * up(up(18 * size + 6) + 6 + 8 * size) >= out; size /= 2) {}
    used = up(18 * size + 6) / 4;
    data = up(up(18 * size + 6) + 6 + 8 * size);
}

static uint32_t avail(void) { return 4 * size; }

/* Half k of the words from `first` on. */
static void store_half(uint32_t first, uint32_t k, uint32_t value) {
    uint32_t word = atomic_load(&own[first + k / 2]);
    atomic_store(&own[first + k / 2], k % 2 ? (word & 0xffff) | value << 16 : (word & 0xffff0000) | (value & 0xffff));
}

static void store_random(void) {
    atomic_store(&own[draw() % (draw() % 2 ? data / 4 : words)], draw() % 3 ? draw() : draw() % 64);
    if (draw() % 1000 == 0) atomic_store(own_state, draw() % 5);
}

/* Publishes a frame, with this field wrong, if the other peer can take one. */
static uint32_t publish(uint32_t published, int wrong) {
    uint32_t d = published % 64, address = data + 64 * d, length = 14 + draw() % 50;
    atomic_store(&own[4 * d], wrong == DESC_ADDRESS ? (draw() % 2 ? address + 1 : draw()) : address);
    atomic_store(&own[4 * d + 1], wrong == DESC_ADDRESS && draw() % 2 ? 1 : 0);
    atomic_store(&own[4 * d + 2], wrong == DESC_LENGTH ? (draw() % 2 ? draw() % 14 : 65554 + draw() % 1000) : length);
    atomic_store(&own[4 * d + 3], wrong == DESC_FLAGS ? 1 + draw() % 3 : 0);
    store_half(avail() + 1, published % size, wrong == AVAIL_ENTRY ? size + draw() % 100 : d);
    uint32_t returned = atomic_load(&his[used]) >> 16;
    if ((uint16_t)(published - returned) >= 60) return published;
    published++;
    atomic_store(&own[avail()], ((published + (wrong == AVAIL_INDEX ? size + 1 : 0)) & 0xffff) << 16);
    return published;
}

/* Returns a frame that the other peer published, with this field wrong. */
static void hand_back(int wrong) {
    uint32_t index = atomic_load(&own[used]) >> 16;
    if (index == atomic_load(&his[avail()]) >> 16) return;
    uint32_t entry = atomic_load(&his[avail() + 1 + index % size / 2]);
    uint32_t id = index % 2 ? entry >> 16 : entry & 0xffff;
    atomic_store(&own[used + 1 + 2 * (index % size)], wrong == USED_ID ? id + 1 : id);
    atomic_store(&own[used + 2 + 2 * (index % size)], 1);
    atomic_store(&own[used], ((index + 1 + (wrong == USED_INDEX ? 1000 : 0)) & 0xffff) << 16);
}

/* Waits until the other's State is in this range, `most_seconds` at most. */
static void wait_for(uint32_t least, uint32_t most, double end, double most_seconds) {
    double soon = time_now() + most_seconds;
    for (;;) {
        uint32_t state = atomic_load(his_state);
        double time = time_now();
        if ((least <= state && state <= most) || time >= end || time >= soon) return;
        sched_yield();
    }
}

/* A session of at most `rounds` rounds in which one kind of field is wrong now and then, or in
 * which all stores are random. Every other return is wrong, since the other peer may publish only a
 * few frames. */
static void session(double end, int kind, int rounds) {
    atomic_store(own_state, 1);
    wait_for(1, 2, end, 2);
    for (uint32_t i = 0; i < data / 4; i++) atomic_store(&own[i], 0);
    atomic_store(own_state, 2);
    wait_for(2, 3, end, 2);
    atomic_store(own_state, 3);
    sessions++;
    uint32_t published = 0;
    for (; atomic_load(his_state) >= 2 && rounds > 0 && time_now() < end; rounds--) {
        stores++;
        if (kind == RANDOM) {
            store_random();
            continue;
        }
        int wrong = draw() % (kind < USED_INDEX ? 50 : 2) == 0 ? kind : RANDOM;
        published = publish(published, wrong);
        hand_back(wrong);
    }
    atomic_store(own_state, 0);
    wait_for(0, 1, end, 0.05);
}
#endif
