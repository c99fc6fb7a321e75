/* The cost of a call of a device (device_play.h), in nanoseconds: the best of ten rounds of each
 * call. bench/device links it with c/device_library.c and with c/device_plain.c. */
#define _POSIX_C_SOURCE 200809L
#include <inttypes.h>
#include <stdio.h>
#include <time.h>

#include "device_play.h"

enum { ROUNDS = 10, CALLS = 20000 };

static void *device;
static volatile uint32_t sink;
static struct device_effect effect;

static void config_read(uint32_t n) { sink = device_calls.config_read(device, n % 2, 0x44, 4); }
static void config_write(uint32_t n) { device_calls.config_write(device, n % 2, 0x04, 2, 4); }
static void register_read(uint32_t n) { sink = device_calls.register_read(device, n % 2, 0x10); }
static void interrupt_control(uint32_t n) { device_calls.register_write(device, n % 2, 0x08, 1, &effect); }
static void state(uint32_t n) { device_calls.register_write(device, 0, 0x10, n, &effect); }
static void doorbell(uint32_t n) { device_calls.register_write(device, n % 2, 0x0C, 1 << 16, &effect); }
static void msix_read(uint32_t n) { sink = device_calls.msix_read(device, n % 2, 0x08); }
static void msix_write(uint32_t n) { device_calls.msix_write(device, n % 2, 0x0C, 0); }
static void reset(uint32_t n) { device_calls.reset(device, n % 2, &effect); }

/* Lets interrupts reach each peer. */
static void enable(uint32_t peers) {
    uint32_t p;
    for (p = 0; p < peers; p++) {
        device_calls.config_write(device, p, 0x04, 2, 4);
        device_calls.config_write(device, p, 0x62, 2, 0x8000);
        device_calls.msix_write(device, p, 0x0C, 0);
        device_calls.register_write(device, p, 0x08, 1, &effect);
    }
}

static double nanoseconds(void) {
    struct timespec now;
    clock_gettime(CLOCK_PROCESS_CPUTIME_ID, &now);
    return 1e9 * (double)now.tv_sec + (double)now.tv_nsec;
}

static void measure(const char *name, uint32_t peers, void (*call)(uint32_t), uint32_t calls) {
    double best = 1e18;
    uint32_t round, n;
    for (round = 0; round < ROUNDS; round++) {
        double start = nanoseconds(), took;
        for (n = 0; n < calls; n++) call(n);
        took = (nanoseconds() - start) / calls;
        if (took < best) best = took;
    }
    printf("%s, %" PRIu32 " peers\t%.1f\n", name, peers, best);
}

int main(void) {
    static const uint32_t sizes[] = {2, 8};
    size_t i;
    for (i = 0; i < 2; i++) {
        struct device_world world = {sizes[i], 4096, 0, 16384, 2};
        device = device_calls.make(&world);
        if (device == NULL) return 1;
        enable(sizes[i]);
        measure("config_read", sizes[i], config_read, CALLS);
        measure("config_write", sizes[i], config_write, CALLS);
        measure("register_read", sizes[i], register_read, CALLS);
        measure("register_write, Interrupt Control", sizes[i], interrupt_control, CALLS);
        measure("register_write, State that changes", sizes[i], state, CALLS);
        measure("register_write, Doorbell", sizes[i], doorbell, CALLS);
        measure("msix_read", sizes[i], msix_read, CALLS);
        measure("msix_write", sizes[i], msix_write, CALLS);
        measure("reset", sizes[i], reset, CALLS / 100);
        device_calls.unmake(device);
    }
    return 0;
}
