/* The calls by which c/device_play.c drives a device. A device under test defines `device_calls`.
 * Each call is of one world. Values are of 32 bits; offsets and widths are in bytes. */
#ifndef DEVICE_PLAY_H
#define DEVICE_PLAY_H

#include <stdint.h>

/* The most peers of a world. */
#define DEVICE_PLAY_PEERS 8

/* The sizes of a world. `vectors` is 0 with INTx. */
struct device_world {
    uint32_t peers;
    uint32_t table;
    uint64_t common;
    uint64_t out;
    uint32_t vectors;
};

/* The effect of a write to the register page or of a reset. */
struct device_effect {
    uint32_t writes_state; /* 1: the peer's word of the State Table becomes `state` */
    uint32_t state;
    uint32_t count; /* of deliveries, in ascending order of peer */
    uint32_t peer[DEVICE_PLAY_PEERS];
    uint32_t vector[DEVICE_PLAY_PEERS];
};

struct device_calls {
    /* Makes the devices of a world, all peers connected and at reset. Returns NULL if it can't. */
    void *(*make)(const struct device_world *world);
    void (*unmake)(void *device);
    uint32_t (*config_read)(void *device, uint32_t peer, uint32_t offset, uint32_t width);
    void (*config_write)(void *device, uint32_t peer, uint32_t offset, uint32_t width, uint32_t value);
    uint32_t (*register_read)(void *device, uint32_t peer, uint32_t offset);
    void (*register_write)(void *device, uint32_t peer, uint32_t offset, uint32_t value, struct device_effect *effect);
    uint32_t (*msix_read)(void *device, uint32_t peer, uint32_t offset);
    void (*msix_write)(void *device, uint32_t peer, uint32_t offset, uint32_t value);
    void (*reset)(void *device, uint32_t peer, struct device_effect *effect);
};

extern const struct device_calls device_calls;

#endif
