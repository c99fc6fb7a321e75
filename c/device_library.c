/* The calls of device_play.h over libivshm_device. WRONG, if it is defined, changes one rule. The
 * test vectors must find the changed rule: checks/c_device tries each of them. HOSTILE, if it is
 * defined, is a number of calls with a wrong peer, width, offset or window. They are made before
 * each call and must do nothing. */
#include <inttypes.h>
#include <stdio.h>
#include <stdlib.h>

#include "device_play.h"
#include "ivshm_device.h"

#ifndef WRONG
#define WRONG 0
#endif

#ifndef HOSTILE
#define HOSTILE 0
#endif

static uint64_t hostile_calls, hostile_seed = 1;

static uint32_t drawn(void) {
    hostile_seed ^= hostile_seed << 13;
    hostile_seed ^= hostile_seed >> 7;
    hostile_seed ^= hostile_seed << 17;
    return (uint32_t)(hostile_seed >> 16);
}

/* Ends the program if a call that is to do nothing does something else. */
static void must(int holds, const char *what) {
    if (!holds) {
        printf("device_library: %s\n", what);
        exit(1);
    }
}

/* An access of a window that it doesn't have: it reads 0, and its write has no effect. */
static void hostile_access(ivshm_device *device, uint32_t peer) {
    static const uint32_t widths[] = {1, 2, 4, 8};
    ivshm_window_access access = {(uint64_t)drawn() << 32 | drawn(), drawn() % 3, drawn() % 2 ? drawn() % 5000 : drawn(), 0};
    ivshm_effect effect;
    uint32_t width = access.width = widths[drawn() % 4];
    if (access.window == IVSHM_WINDOW_CONFIG && width != 8) access.offset |= width == 1 ? 256 : 1;
    if (access.window == IVSHM_WINDOW_REGISTERS && width == 4) access.offset |= 1;
    if (access.window == IVSHM_WINDOW_MSIX && width >= 4) access.offset |= 1;
    if (drawn() % 2) {
        must(ivshm_device_mmio_read(device, peer, &access) == IVSHM_DEVICE_DONE && access.value == 0, "a window reads another value than 0");
    } else {
        must(ivshm_device_mmio_write(device, peer, &access, &effect) == IVSHM_DEVICE_DONE, "a window refuses an access");
        must(effect.writes_state == 0 && effect.count == 0, "a write that is none has an effect");
    }
}

/* A call with a wrong peer, width, offset or window, by a peer of the world. */
static void hostile_call(ivshm_device *device, uint32_t peer) {
    ivshm_effect effect = {.count = 99};
    ivshm_window_access access = {0, 3 + drawn(), drawn(), 4};
    uint32_t value = 99, stranger = 8 + (drawn() >> 1), status = 0;
    uint32_t offset = drawn(), width = drawn() % 2 ? drawn() : 3;
    hostile_calls++;
    switch (drawn() % 9) {
    case 0: status = ivshm_device_config_read(device, peer, offset | 256, width, &value); break;
    case 1: status = ivshm_device_config_write(device, peer, offset, width % 4 == 0 ? 3 : width | 4, drawn()); break;
    case 2: status = ivshm_device_register_write(device, stranger, drawn() % 20, drawn(), &effect); break;
    case 3: status = ivshm_device_reset(device, stranger, &effect); break;
    case 4: status = ivshm_device_disconnect(device, stranger, &effect); break;
    case 5: status = ivshm_device_connect(device, stranger); break;
    case 6: status = access.window < 3 ? 1 : ivshm_device_mmio_write(device, peer, &access, &effect); break;
    case 7: status = ivshm_device_msix_write(device, stranger, drawn() % 1024, drawn()); break;
    default: hostile_access(device, peer); return;
    }
    must(status != IVSHM_DEVICE_DONE && value == 99 && effect.count == 99, "a wrong call is done");
}

static void hostile(ivshm_device *device, uint32_t peer) {
    int n;
    for (n = 0; n < HOSTILE; n++) hostile_call(device, peer);
}

static void *make(const struct device_world *world) {
    ivshm_device *device = malloc(sizeof *device);
    if (device == NULL) return NULL;
    device->at = NULL;
    if (ivshm_device_new(device, world->peers, world->table, world->common, world->out, world->vectors) == IVSHM_DEVICE_DONE)
        return device;
    free(device);
    return NULL;
}

static void unmake(void *device) {
    if (HOSTILE) printf("device_library: %" PRIu64 " wrong calls did nothing\n", hostile_calls);
    ivshm_device_free(device);
    free(device);
}

static void copy(const ivshm_effect *from, struct device_effect *to) {
    uint32_t i;
    to->writes_state = from->writes_state;
    to->state = from->state;
    to->count = from->count;
    for (i = 0; i < from->count; i++) {
        to->peer[i] = from->deliveries[i].peer;
        to->vector[i] = from->deliveries[i].vector;
    }
    if (WRONG == 1 && to->count > 1) to->count--;               /* the last of several deliveries is lost */
    if (WRONG == 2) to->writes_state = 0;                       /* State is not written to the State Table */
    if (WRONG == 3 && to->count > 0) to->vector[0] %= 2;        /* one bit of the vector is left */
}

static uint32_t config_read(void *device, uint32_t peer, uint32_t offset, uint32_t width) {
    uint32_t value = 0;
    hostile(device, peer);
    ivshm_device_config_read(device, peer, offset, width, &value);
    return value;
}

static void config_write(void *device, uint32_t peer, uint32_t offset, uint32_t width, uint32_t value) {
    hostile(device, peer);
    if (WRONG == 4 && offset == 0x43) return;                   /* one-shot mode can't be set */
    ivshm_device_config_write(device, peer, offset, width, value);
}

static uint32_t register_read(void *device, uint32_t peer, uint32_t offset) {
    uint32_t value = 0;
    hostile(device, peer);
    ivshm_device_register_read(device, peer, offset, &value);
    return value;
}

static void register_write(void *device, uint32_t peer, uint32_t offset, uint32_t value, struct device_effect *effect) {
    ivshm_effect found;
    uint32_t old = WRONG == 5 ? register_read(device, peer, offset) : value;
    hostile(device, peer);
    ivshm_device_register_write(device, peer, offset, value, &found);
    copy(&found, effect);
    if (WRONG == 5 && offset == 0x10 && old != value && effect->count > 0 && effect->count < DEVICE_PLAY_PEERS) {
        effect->peer[effect->count] = peer; /* a State write rings its own peer */
        effect->vector[effect->count++] = 0;
    }
}

static uint32_t msix_read(void *device, uint32_t peer, uint32_t offset) {
    uint32_t value = 0;
    hostile(device, peer);
    ivshm_device_msix_read(device, peer, offset, &value);
    return value;
}

static void msix_write(void *device, uint32_t peer, uint32_t offset, uint32_t value) {
    hostile(device, peer);
    if (WRONG == 6 && offset % 16 == 0x0C) value = 0;           /* the mask bit is ignored */
    ivshm_device_msix_write(device, peer, offset, value);
}

static void reset(void *device, uint32_t peer, struct device_effect *effect) {
    ivshm_effect found;
    hostile(device, peer);
    ivshm_device_reset(device, peer, &found);
    if (WRONG == 7) ivshm_device_disconnect(device, peer, &found); /* a reset disconnects, and the effect is lost */
    copy(&found, effect);
}

const struct device_calls device_calls = {make,          unmake,         config_read, config_write, register_read,
                                          register_write, msix_read, msix_write,  reset};
