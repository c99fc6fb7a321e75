/* The calls of device_play.h in plain C: the devices of a world by the same field tables as the
 * proved device (docs/DEVICE.md). They serve bench/device, and as a second device the test
 * vectors. */
#include <stdlib.h>
#include <string.h>

#include "device_play.h"

enum { CONFIG_BYTES = 256, PAGE_BYTES = 20, ENTRY_BYTES = 16, CONFIG_ROWS = 25, PAGE_ROWS = 5, ENTRY_ROWS = 4 };
enum { COMMAND = 0x04, PRIVILEGED_CONTROL = 0x43, MESSAGE_CONTROL = 0x62 };
enum { INTERRUPT_CONTROL = 0x08, DOORBELL = 0x0C, STATE = 0x10, VECTOR_CONTROL = 0x0C };

/* A field of a space: its first byte, its bytes, its reset value, and the bits a write changes. */
struct row {
    uint32_t place, width;
    uint64_t reset, mask;
};

struct peer {
    uint8_t config[CONFIG_BYTES], page[PAGE_BYTES];
    struct row page_rows[PAGE_ROWS];
    uint8_t (*entries)[ENTRY_BYTES];
};

struct plain {
    struct device_world world;
    struct row config_rows[CONFIG_ROWS];
    struct peer peers[DEVICE_PLAY_PEERS];
};

static const struct row entry_rows[ENTRY_ROWS] = {
    {0, 4, 0, 0xFFFFFFFF}, {4, 4, 0, 0xFFFFFFFF}, {8, 4, 0, 0xFFFFFFFF}, {VECTOR_CONTROL, 4, 1, 1}};

static void clear_space(uint8_t *bytes, uint32_t size, const struct row *rows, uint32_t count) {
    uint32_t i, k;
    memset(bytes, 0, size);
    for (i = 0; i < count; i++)
        for (k = 0; k < rows[i].width; k++) bytes[rows[i].place + k] = (uint8_t)(rows[i].reset >> (8 * k));
}

static uint32_t get(const uint8_t *bytes, uint32_t offset, uint32_t width) {
    uint32_t value = 0, k;
    for (k = 0; k < width; k++) value |= (uint32_t)bytes[offset + k] << (8 * k);
    return value;
}

/* The bits of byte k that a write changes. */
static uint8_t mask_at(const struct row *rows, uint32_t count, uint32_t k) {
    uint32_t i;
    for (i = 0; i < count; i++)
        if (rows[i].place <= k && k < rows[i].place + rows[i].width) return (uint8_t)(rows[i].mask >> (8 * (k - rows[i].place)));
    return 0;
}

static void put(uint8_t *bytes, const struct row *rows, uint32_t count, uint32_t offset, uint32_t width, uint32_t value) {
    uint32_t k;
    for (k = 0; k < width; k++) {
        uint8_t mask = mask_at(rows, count, offset + k);
        bytes[offset + k] = (uint8_t)((bytes[offset + k] & ~mask) | ((uint8_t)(value >> (8 * k)) & mask));
    }
}

static int is_access(uint32_t offset, uint32_t width) {
    return (width == 1 || width == 2 || width == 4) && offset % width == 0 && offset + width <= CONFIG_BYTES;
}

static void clear_peer(struct plain *plain, struct peer *peer) {
    uint32_t n;
    clear_space(peer->config, CONFIG_BYTES, plain->config_rows, CONFIG_ROWS);
    clear_space(peer->page, PAGE_BYTES, peer->page_rows, PAGE_ROWS);
    for (n = 0; n < plain->world.vectors; n++) clear_space(peer->entries[n], ENTRY_BYTES, entry_rows, ENTRY_ROWS);
}

static void unmake(void *device) {
    struct plain *plain = device;
    uint32_t p;
    for (p = 0; p < plain->world.peers; p++) free(plain->peers[p].entries);
    free(plain);
}

static void *make(const struct device_world *world) {
    struct plain *plain = calloc(1, sizeof *plain);
    uint32_t msix = world->vectors > 0, last = msix ? world->vectors - 1 : 0, p;
    struct row rows[CONFIG_ROWS] = {
        {0x00, 2, 0x110A, 0},      {0x02, 2, 0x4106, 0},
        {0x04, 2, 0, 0x040E},      {0x06, 2, 0x0010, 0},
        {0x08, 1, 0, 0},           {0x09, 1, 1, 0},
        {0x0A, 1, 0, 0},           {0x0B, 1, 0xFF, 0},
        {0x10, 4, 0, 0xFFFFF000},  {0x14, 4, 0, msix ? 0xFFFFF000 : 0},
        {0x34, 1, 0x40, 0},        {0x3D, 1, msix ? 0 : 1, 0},
        {0x40, 1, 0x09, 0},        {0x41, 1, msix ? 0x60 : 0, 0},
        {0x42, 1, 0x20, 0},        {0x43, 1, 0, 1},
        {0x44, 4, world->table, 0}, {0x48, 8, world->common, 0},
        {0x50, 8, world->out, 0},  {0x58, 8, 0x100000000, 0},
        {0x60, 1, msix ? 0x11 : 0, 0}, {0x61, 1, 0, 0},
        {0x62, 2, last, msix ? 0xC000 : 0}, {0x64, 4, msix ? 0x001 : 0, 0},
        {0x68, 4, msix ? 0x801 : 0, 0}};
    if (plain == NULL) return NULL;
    plain->world = *world;
    memcpy(plain->config_rows, rows, sizeof rows);
    for (p = 0; p < world->peers; p++) {
        struct peer *peer = &plain->peers[p];
        struct row page[PAGE_ROWS] = {
            {0, 4, p, 0}, {4, 4, world->peers, 0}, {INTERRUPT_CONTROL, 4, 0, 1}, {DOORBELL, 4, 0, 0}, {STATE, 4, 0, 0xFFFFFFFF}};
        memcpy(peer->page_rows, page, sizeof page);
        peer->entries = calloc(world->vectors + 1, sizeof *peer->entries);
        if (peer->entries == NULL) {
            unmake(plain);
            return NULL;
        }
        clear_peer(plain, peer);
    }
    return plain;
}

/* Whether a peer's registers let a trigger with this vector through. */
static int lets_through(const struct plain *plain, const struct peer *peer, uint32_t vector) {
    const uint8_t *config = peer->config;
    if ((peer->page[INTERRUPT_CONTROL] & 1) == 0) return 0;
    if (plain->world.vectors == 0) return (config[COMMAND + 1] & 4) == 0;
    return (config[COMMAND] & 0x0C) != 0 && (config[MESSAGE_CONTROL + 1] & 0xC0) == 0x80 && vector < plain->world.vectors &&
           (peer->entries[vector][VECTOR_CONTROL] & 1) == 0;
}

static void trigger(struct plain *plain, uint32_t target, uint32_t vector, struct device_effect *effect) {
    struct peer *peer = &plain->peers[target];
    if (!lets_through(plain, peer, vector)) return;
    if (peer->config[PRIVILEGED_CONTROL] & 1) put(peer->page, peer->page_rows, PAGE_ROWS, INTERRUPT_CONTROL, 4, 0);
    effect->peer[effect->count] = target;
    effect->vector[effect->count++] = plain->world.vectors > 0 ? vector : 0;
}

/* A State that changes triggers all other peers. */
static void state_changes(struct plain *plain, uint32_t source, uint32_t old, uint32_t value, struct device_effect *effect) {
    uint32_t p;
    effect->writes_state = 1;
    effect->state = value;
    if (old == value) return;
    for (p = 0; p < plain->world.peers; p++)
        if (p != source) trigger(plain, p, 0, effect);
}

static uint32_t config_read(void *device, uint32_t peer, uint32_t offset, uint32_t width) {
    const struct plain *plain = device;
    return is_access(offset, width) ? get(plain->peers[peer].config, offset, width) : 0;
}

static void config_write(void *device, uint32_t peer, uint32_t offset, uint32_t width, uint32_t value) {
    struct plain *plain = device;
    if (is_access(offset, width)) put(plain->peers[peer].config, plain->config_rows, CONFIG_ROWS, offset, width, value);
}

static uint32_t register_read(void *device, uint32_t peer, uint32_t offset) {
    const struct plain *plain = device;
    return offset % 4 == 0 && offset < PAGE_BYTES ? get(plain->peers[peer].page, offset, 4) : 0;
}

static void register_write(void *device, uint32_t peer, uint32_t offset, uint32_t value, struct device_effect *effect) {
    struct plain *plain = device;
    struct peer *source = &plain->peers[peer];
    uint32_t old = get(source->page, STATE, 4);
    effect->writes_state = effect->state = effect->count = 0;
    if (offset == INTERRUPT_CONTROL || offset == STATE) put(source->page, source->page_rows, PAGE_ROWS, offset, 4, value);
    if (offset == DOORBELL && value >> 16 < plain->world.peers) trigger(plain, value >> 16, value & 0xFFFF, effect);
    if (offset == STATE) state_changes(plain, peer, old, value, effect);
}

static uint32_t msix_read(void *device, uint32_t peer, uint32_t offset) {
    const struct plain *plain = device;
    return offset % 4 == 0 && offset / 16 < plain->world.vectors ? get(plain->peers[peer].entries[offset / 16], offset % 16, 4) : 0;
}

static void msix_write(void *device, uint32_t peer, uint32_t offset, uint32_t value) {
    struct plain *plain = device;
    if (offset % 4 == 0 && offset / 16 < plain->world.vectors)
        put(plain->peers[peer].entries[offset / 16], entry_rows, ENTRY_ROWS, offset % 16, 4, value);
}

static void reset(void *device, uint32_t peer, struct device_effect *effect) {
    struct plain *plain = device;
    uint32_t old = get(plain->peers[peer].page, STATE, 4);
    effect->count = 0;
    clear_peer(plain, &plain->peers[peer]);
    state_changes(plain, peer, old, 0, effect);
}

const struct device_calls device_calls = {make,          unmake,         config_read, config_write, register_read,
                                          register_write, msix_read, msix_write,  reset};
