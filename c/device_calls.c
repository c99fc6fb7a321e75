/* Tries each call of libivshm_device: its statuses, the memory for exactly the peers and
 * vectors, and the stack that each call uses. A refused call must change nothing. The exit
 * status is 0 exactly if all is right. */
#define _XOPEN_SOURCE 700
#include <inttypes.h>
#include <stdio.h>
#include <stdlib.h>
#include <string.h>
#include <ucontext.h>

#include "ivshm_device.h"

enum { ARENA = 1 << 20, PAINTED = 1 << 16, PAINT = 0xA5 };

static unsigned failures;

#define EXPECT(condition)                                               \
    do {                                                                \
        if (!(condition)) {                                             \
            failures++;                                                 \
            printf("device_calls: line %d: %s\n", __LINE__, #condition); \
        }                                                               \
    } while (0)

/* ---- memory: an arena whose blocks are counted ---- */

static _Alignas(16) unsigned char arena[ARENA];
static size_t used, blocks, blocks_left = SIZE_MAX;

struct rattle_block rattle_alloc(size_t size, size_t align) {
    size_t at = (used + align - 1) / align * align;
    if (blocks_left == 0 || at + size > sizeof arena) return (struct rattle_block){0, arena};
    blocks_left--;
    used = at + size;
    blocks++;
    return (struct rattle_block){1, arena + at};
}

/* The arena is empty again after the last block. */
void rattle_dealloc(void *at) {
    (void)at;
    if (--blocks == 0) used = 0;
}

/* ---- what a peer can see ---- */

struct sight {
    uint64_t vectors;
    uint32_t config[256], page[8], msix[256], flags[4];
};

static void look(ivshm_device *device, uint32_t peers, struct sight *sights) {
    uint32_t p, i;
    ivshm_route route;
    memset(sights, 0, peers * sizeof *sights);
    for (p = 0; p < peers; p++) {
        for (i = 0; i < 256; i++) ivshm_device_config_read(device, p, i, 1, &sights[p].config[i]);
        for (i = 0; i < 8; i++) ivshm_device_register_read(device, p, 4 * i, &sights[p].page[i]);
        for (i = 0; i < 256; i++) ivshm_device_msix_read(device, p, 4 * i, &sights[p].msix[i]);
        if (ivshm_device_route(device, p, &route) != IVSHM_DEVICE_DONE) continue;
        sights[p].vectors = route.vectors;
        sights[p].flags[0] = route.intx, sights[p].flags[1] = route.one_shot, sights[p].flags[2] = route.enabled;
    }
}

/* Whether a status comes from a call that changes nothing. */
#define REFUSED(status, call)                                                    \
    do {                                                                         \
        look(&device, 3, before);                                                \
        EXPECT((call) == (status));                                              \
        look(&device, 3, after);                                                 \
        EXPECT(memcmp(before, after, sizeof before) == 0);                       \
        EXPECT(value == 77 && memcmp(&effect, &same_effect, sizeof effect) == 0); \
    } while (0)

static void fill(ivshm_device *device) {
    uint32_t p;
    ivshm_effect effect;
    for (p = 0; p < 3; p++) {
        EXPECT(ivshm_device_config_write(device, p, 0x04, 2, 4) == IVSHM_DEVICE_DONE);
        EXPECT(ivshm_device_config_write(device, p, 0x62, 2, 0x8000) == IVSHM_DEVICE_DONE);
        EXPECT(ivshm_device_msix_write(device, p, 0x0C, 0) == IVSHM_DEVICE_DONE);
        EXPECT(ivshm_device_msix_write(device, p, 0x10, 0xFEE01000 + p) == IVSHM_DEVICE_DONE);
        EXPECT(ivshm_device_msix_write(device, p, 0x14, 5) == IVSHM_DEVICE_DONE);
        EXPECT(ivshm_device_msix_write(device, p, 0x18, 40 + p) == IVSHM_DEVICE_DONE);
        EXPECT(ivshm_device_msix_write(device, p, 0x1C, 0) == IVSHM_DEVICE_DONE);
        EXPECT(ivshm_device_register_write(device, p, 0x08, 1, &effect) == IVSHM_DEVICE_DONE);
        EXPECT(effect.writes_state == 0 && effect.count == 0);
    }
}

/* ---- the calls ---- */

static void sizes(void) {
    ivshm_device device = IVSHM_DEVICE_NONE;
    static const struct {
        uint32_t peers, table;
        uint64_t common, out;
        uint32_t vectors, status;
    } rows[] = {
        {9, 1, 1, 1, 65, IVSHM_DEVICE_BAD_VECTORS},
        {9, 1, 1, 1, 2, IVSHM_DEVICE_BAD_PEERS},
        {0xFFFFFFFF, 4096, 0, 4096, 2, IVSHM_DEVICE_BAD_PEERS},
        {1, 4096, 0, 4096, 2, IVSHM_DEVICE_BAD_PEERS},
        {0, 4096, 0, 4096, 2, IVSHM_DEVICE_BAD_PEERS},
        {2, 0, 0, 4096, 2, IVSHM_DEVICE_BAD_TABLE},
        {2, 4097, 0, 4096, 2, IVSHM_DEVICE_BAD_TABLE},
        {2, 4096, 1, 4096, 2, IVSHM_DEVICE_BAD_COMMON},
        {2, 4096, 0, 0, 2, IVSHM_DEVICE_BAD_OUT},
        {2, 4096, 0, 100, 2, IVSHM_DEVICE_BAD_OUT},
        {2, 4096, 0, 8 << 20, 2, IVSHM_DEVICE_LARGE_REGION},
        {2, 4096, UINT64_MAX - 4095, 4096, 2, IVSHM_DEVICE_LARGE_REGION},
        {8, 4096, 4096, 4096, 64, IVSHM_DEVICE_DONE},
        {2, 4096, 0, 16384, 0, IVSHM_DEVICE_DONE},
    };
    size_t i;
    for (i = 0; i < sizeof rows / sizeof *rows; i++) {
        uint32_t status = ivshm_device_new(&device, rows[i].peers, rows[i].table, rows[i].common, rows[i].out, rows[i].vectors);
        if (status != rows[i].status) {
            failures++;
            printf("device_calls: row %zu of the sizes: %" PRIu32 "\n", i, status);
        }
        EXPECT((device.at != NULL) == (status == IVSHM_DEVICE_DONE));
        if (device.at != NULL) {
            EXPECT(ivshm_device_new(&device, 2, 4096, 0, 4096, 2) == IVSHM_DEVICE_FULL);
            EXPECT(ivshm_device_free(&device) == IVSHM_DEVICE_DONE);
        }
        EXPECT(device.at == NULL && blocks == 0);
    }
}

/* The place of the region: at a base, or in the window of Base Address Register 2. */
static void places(void) {
    static const struct {
        uint64_t out, base;
        uint32_t status, length, low, high; /* of the capability, and of its Base Address */
        uint32_t window_low, window_high;   /* Base Address Register 2 after all ones */
    } rows[] = {
        {16384, 0x100000000, IVSHM_DEVICE_DONE, 0x20, 0, 1, 0, 0},
        {16384, 0xFC000000, IVSHM_DEVICE_DONE, 0x20, 0xFC000000, 0, 0, 0},
        {16384, 0x7FFFFFF000, IVSHM_DEVICE_DONE, 0x20, 0xFFFFF000, 0x7F, 0, 0},
        {16384, 0, IVSHM_DEVICE_DONE, 0x18, 0, 0, 0xFFFF000C, 0xFFFFFFFF}, /* 36,864 bytes: 65,536 */
        {2 * 4096, 0, IVSHM_DEVICE_DONE, 0x18, 0, 0, 0xFFFF800C, 0xFFFFFFFF}, /* 20,480 bytes: 32,768 */
        {8384512, 0, IVSHM_DEVICE_DONE, 0x18, 0, 0, 0xFF00000C, 0xFFFFFFFF}, /* the largest */
        {16384, 0x100000800, IVSHM_DEVICE_BAD_BASE, 0, 0, 0, 0, 0},
        {16384, 1, IVSHM_DEVICE_BAD_BASE, 0, 0, 0, 0, 0},
        {16384, UINT64_MAX - 36863, IVSHM_DEVICE_DONE, 0x20, 0xFFFF7000, 0xFFFFFFFF, 0, 0}, /* ends at 2^64 */
        {16384, UINT64_MAX - 32767, IVSHM_DEVICE_BAD_BASE, 0, 0, 0, 0, 0},
        {100, 1, IVSHM_DEVICE_BAD_OUT, 0, 0, 0, 0, 0},
    };
    ivshm_device device = IVSHM_DEVICE_NONE;
    size_t i;
    for (i = 0; i < sizeof rows / sizeof *rows; i++) {
        ivshm_device_world world = {.out = rows[i].out, .base = rows[i].base, .peers = 2, .table = 4096, .vectors = 2};
        uint32_t length, low, high, window_low, window_high;
        EXPECT(ivshm_device_new_at(&device, &world) == rows[i].status);
        EXPECT((device.at != NULL) == (rows[i].status == IVSHM_DEVICE_DONE));
        if (device.at == NULL) continue;
        EXPECT(ivshm_device_new_at(&device, &world) == IVSHM_DEVICE_FULL);
        EXPECT(ivshm_device_config_read(&device, 1, 0x42, 1, &length) == IVSHM_DEVICE_DONE && length == rows[i].length);
        EXPECT(ivshm_device_config_read(&device, 1, 0x58, 4, &low) == IVSHM_DEVICE_DONE && low == rows[i].low);
        EXPECT(ivshm_device_config_read(&device, 1, 0x5C, 4, &high) == IVSHM_DEVICE_DONE && high == rows[i].high);
        EXPECT(ivshm_device_config_read(&device, 1, 0x18, 4, &window_low) == IVSHM_DEVICE_DONE && window_low == (rows[i].window_low & 15));
        EXPECT(ivshm_device_config_write(&device, 1, 0x18, 4, 0xFFFFFFFF) == IVSHM_DEVICE_DONE);
        EXPECT(ivshm_device_config_write(&device, 1, 0x1C, 4, 0xFFFFFFFF) == IVSHM_DEVICE_DONE);
        EXPECT(ivshm_device_config_read(&device, 1, 0x18, 4, &window_low) == IVSHM_DEVICE_DONE && window_low == rows[i].window_low);
        EXPECT(ivshm_device_config_read(&device, 1, 0x1C, 4, &window_high) == IVSHM_DEVICE_DONE && window_high == rows[i].window_high);
        EXPECT(ivshm_device_free(&device) == IVSHM_DEVICE_DONE && blocks == 0);
    }
}

/* The bytes and the blocks of a world. */
static size_t memory_of(uint32_t peers, uint32_t vectors) {
    ivshm_device device = IVSHM_DEVICE_NONE;
    size_t bytes, count, left;
    EXPECT(ivshm_device_new(&device, peers, 4096, 0, 4096, vectors) == IVSHM_DEVICE_DONE);
    bytes = used, count = blocks;
    EXPECT(count == 2 + (vectors > 0 ? peers : 0));
    EXPECT(ivshm_device_free(&device) == IVSHM_DEVICE_DONE && blocks == 0);
    for (left = 0; left < count; left++) { /* each block is missing once */
        blocks_left = left;
        EXPECT(ivshm_device_new(&device, peers, 4096, 0, 4096, vectors) == IVSHM_DEVICE_NO_MEMORY);
        EXPECT(device.at == NULL && blocks == 0);
    }
    blocks_left = SIZE_MAX;
    return bytes;
}

static void memory(void) {
    size_t two = memory_of(2, 2), eight = memory_of(8, 64), intx = memory_of(2, 0);
    printf("device_calls: memory of 2 peers with 2 vectors %zu bytes, with INTx %zu, of 8 peers with 64 vectors %zu\n", two, intx, eight);
    EXPECT(two < 4096 && intx < two && two < eight);
}

static void empty_handle(void) {
    ivshm_device device = IVSHM_DEVICE_NONE;
    ivshm_effect effect = {.count = 7};
    ivshm_route route = {.enabled = 7};
    ivshm_message message = {.data = 7};
    ivshm_window_access access = {.width = 4};
    uint32_t value = 77;
    EXPECT(ivshm_device_free(&device) == IVSHM_DEVICE_EMPTY);
    EXPECT(ivshm_device_config_read(&device, 0, 0, 4, &value) == IVSHM_DEVICE_EMPTY);
    EXPECT(ivshm_device_config_write(&device, 0, 0, 4, 1) == IVSHM_DEVICE_EMPTY);
    EXPECT(ivshm_device_register_read(&device, 0, 0, &value) == IVSHM_DEVICE_EMPTY);
    EXPECT(ivshm_device_register_write(&device, 0, 0, 1, &effect) == IVSHM_DEVICE_EMPTY);
    EXPECT(ivshm_device_msix_read(&device, 0, 0, &value) == IVSHM_DEVICE_EMPTY);
    EXPECT(ivshm_device_msix_write(&device, 0, 0, 1) == IVSHM_DEVICE_EMPTY);
    EXPECT(ivshm_device_mmio_read(&device, 0, &access) == IVSHM_DEVICE_EMPTY);
    EXPECT(ivshm_device_mmio_write(&device, 0, &access, &effect) == IVSHM_DEVICE_EMPTY);
    EXPECT(ivshm_device_reset(&device, 0, &effect) == IVSHM_DEVICE_EMPTY);
    EXPECT(ivshm_device_disconnect(&device, 0, &effect) == IVSHM_DEVICE_EMPTY);
    EXPECT(ivshm_device_connect(&device, 0) == IVSHM_DEVICE_EMPTY);
    EXPECT(ivshm_device_route(&device, 0, &route) == IVSHM_DEVICE_EMPTY);
    EXPECT(ivshm_device_message(&device, 0, 0, &message) == IVSHM_DEVICE_EMPTY);
    EXPECT(value == 77 && effect.count == 7 && route.enabled == 7 && message.data == 7 && access.value == 0);
}

static void refusals(void) {
    ivshm_device device = IVSHM_DEVICE_NONE;
    ivshm_effect effect, same_effect;
    ivshm_route route = {.enabled = 7};
    ivshm_message message = {.data = 7};
    ivshm_window_access access = {.width = 4};
    static struct sight before[3], after[3];
    uint32_t value = 77, peer;
    uint32_t offset, width;
    static const uint32_t strangers[] = {3, 8, 65536, 0xFFFFFFFF};
    size_t i;
    memset(&effect, 0x5A, sizeof effect);
    same_effect = effect;
    EXPECT(ivshm_device_new(&device, 3, 4096, 0, 16384, 2) == IVSHM_DEVICE_DONE);
    fill(&device);
    for (i = 0; i < sizeof strangers / sizeof *strangers; i++) {
        peer = strangers[i];
        REFUSED(IVSHM_DEVICE_BAD_PEER, ivshm_device_config_read(&device, peer, 0, 4, &value));
        REFUSED(IVSHM_DEVICE_BAD_PEER, ivshm_device_config_write(&device, peer, 4, 2, 0));
        REFUSED(IVSHM_DEVICE_BAD_PEER, ivshm_device_register_read(&device, peer, 0, &value));
        REFUSED(IVSHM_DEVICE_BAD_PEER, ivshm_device_register_write(&device, peer, 0x10, 9, &effect));
        REFUSED(IVSHM_DEVICE_BAD_PEER, ivshm_device_msix_read(&device, peer, 0, &value));
        REFUSED(IVSHM_DEVICE_BAD_PEER, ivshm_device_msix_write(&device, peer, 0, 9));
        REFUSED(IVSHM_DEVICE_BAD_PEER, ivshm_device_mmio_read(&device, peer, &access));
        REFUSED(IVSHM_DEVICE_BAD_PEER, ivshm_device_mmio_write(&device, peer, &access, &effect));
        REFUSED(IVSHM_DEVICE_BAD_PEER, ivshm_device_reset(&device, peer, &effect));
        REFUSED(IVSHM_DEVICE_BAD_PEER, ivshm_device_disconnect(&device, peer, &effect));
        REFUSED(IVSHM_DEVICE_BAD_PEER, ivshm_device_connect(&device, peer));
        REFUSED(IVSHM_DEVICE_BAD_PEER, ivshm_device_route(&device, peer, &route));
        REFUSED(IVSHM_DEVICE_BAD_PEER, ivshm_device_message(&device, peer, 0, &message));
    }
    for (offset = 0; offset < 300; offset++)
        for (width = 0; width < 10; width++)
            if (!((width == 1 || width == 2 || width == 4) && offset % width == 0 && offset + width <= 256)) {
                EXPECT(ivshm_device_config_read(&device, 0, offset, width, &value) == IVSHM_DEVICE_BAD_ACCESS);
                EXPECT(ivshm_device_config_write(&device, 0, offset, width, 0xFFFFFFFF) == IVSHM_DEVICE_BAD_ACCESS);
            }
    REFUSED(IVSHM_DEVICE_BAD_ACCESS, ivshm_device_config_write(&device, 1, 0xFFFF, 1, 0));
    REFUSED(IVSHM_DEVICE_BAD_ACCESS, ivshm_device_config_read(&device, 1, 0x10010, 4, &value));
    REFUSED(IVSHM_DEVICE_BAD_ACCESS, ivshm_device_config_read(&device, 1, 0x10, 0x10004, &value));
    REFUSED(IVSHM_DEVICE_BAD_ACCESS, ivshm_device_config_write(&device, 1, 0x10004, 2, 0));
    REFUSED(IVSHM_DEVICE_BAD_ACCESS, ivshm_device_config_write(&device, 1, 0x04, 0x10002, 0));
    REFUSED(IVSHM_DEVICE_BAD_ACCESS, ivshm_device_config_write(&device, 1, 0xFFFFFFFF, 4, 0));
    REFUSED(IVSHM_DEVICE_BAD_VECTOR, ivshm_device_message(&device, 0, 2, &message));
    REFUSED(IVSHM_DEVICE_BAD_VECTOR, ivshm_device_message(&device, 0, 0xFFFFFFFF, &message));
    access.window = 3;
    REFUSED(IVSHM_DEVICE_BAD_WINDOW, ivshm_device_mmio_read(&device, 0, &access));
    REFUSED(IVSHM_DEVICE_BAD_WINDOW, ivshm_device_mmio_write(&device, 0, &access, &effect));
    access.window = IVSHM_WINDOW_REGISTERS;
    access.offset = 0x10;
    access.value = 9;
    for (access.width = 0; access.width < 20; access.width++)
        if (access.width != 1 && access.width != 2 && access.width != 4 && access.width != 8) {
            REFUSED(IVSHM_DEVICE_BAD_ACCESS, ivshm_device_mmio_read(&device, 0, &access));
            REFUSED(IVSHM_DEVICE_BAD_ACCESS, ivshm_device_mmio_write(&device, 0, &access, &effect));
        }
    EXPECT(route.enabled == 7 && message.data == 7 && access.value == 9);
    EXPECT(ivshm_device_free(&device) == IVSHM_DEVICE_DONE);
}

static int one_delivery(const ivshm_effect *effect, uint32_t peer, uint32_t vector) {
    return effect->count == 1 && effect->deliveries[0].peer == peer && effect->deliveries[0].vector == vector;
}

static void answers(void) {
    ivshm_device device = IVSHM_DEVICE_NONE;
    ivshm_effect effect;
    ivshm_route route;
    ivshm_message message;
    uint32_t value;
    EXPECT(ivshm_device_new(&device, 3, 4096, 8192, 16384, 2) == IVSHM_DEVICE_DONE);
    EXPECT(ivshm_device_config_read(&device, 2, 0, 4, &value) == IVSHM_DEVICE_DONE && value == 0x4106110A);
    EXPECT(ivshm_device_config_read(&device, 2, 0x44, 4, &value) == IVSHM_DEVICE_DONE && value == 4096);
    EXPECT(ivshm_device_config_read(&device, 2, 0x48, 4, &value) == IVSHM_DEVICE_DONE && value == 8192);
    EXPECT(ivshm_device_register_read(&device, 2, 0, &value) == IVSHM_DEVICE_DONE && value == 2);
    EXPECT(ivshm_device_register_read(&device, 2, 4, &value) == IVSHM_DEVICE_DONE && value == 3);
    /* nothing comes before the peers' registers let it through */
    EXPECT(ivshm_device_register_write(&device, 0, 0x0C, 1 << 16 | 1, &effect) == IVSHM_DEVICE_DONE && effect.count == 0);
    fill(&device);
    EXPECT(ivshm_device_register_write(&device, 0, 0x0C, 1 << 16 | 1, &effect) == IVSHM_DEVICE_DONE);
    EXPECT(effect.writes_state == 0 && one_delivery(&effect, 1, 1));
    EXPECT(ivshm_device_message(&device, 1, 1, &message) == IVSHM_DEVICE_DONE && message.address == 0x5FEE01001 && message.data == 41);
    EXPECT(ivshm_device_register_write(&device, 0, 0x0C, 1 << 16 | 257, &effect) == IVSHM_DEVICE_DONE && effect.count == 0);
    EXPECT(ivshm_device_register_write(&device, 0, 0x0C, 257 << 16, &effect) == IVSHM_DEVICE_DONE && effect.count == 0);
    /* a new State triggers the others, the same one nobody */
    EXPECT(ivshm_device_register_write(&device, 1, 0x10, 6, &effect) == IVSHM_DEVICE_DONE && effect.writes_state == 1 && effect.state == 6);
    EXPECT(effect.count == 2 && effect.deliveries[0].peer == 0 && effect.deliveries[1].peer == 2 && effect.deliveries[1].vector == 0);
    EXPECT(ivshm_device_register_write(&device, 1, 0x10, 6, &effect) == IVSHM_DEVICE_DONE && effect.writes_state == 1 && effect.count == 0);
    /* a mask and one-shot mode */
    EXPECT(ivshm_device_msix_write(&device, 2, 0x1C, 1) == IVSHM_DEVICE_DONE);
    EXPECT(ivshm_device_register_write(&device, 0, 0x0C, 2 << 16 | 1, &effect) == IVSHM_DEVICE_DONE && effect.count == 0);
    EXPECT(ivshm_device_config_write(&device, 2, 0x43, 1, 1) == IVSHM_DEVICE_DONE);
    EXPECT(ivshm_device_route(&device, 2, &route) == IVSHM_DEVICE_DONE && route.vectors == 1 && route.intx == 0);
    EXPECT(route.one_shot == 1 && route.enabled == 1);
    EXPECT(ivshm_device_register_write(&device, 0, 0x0C, 2 << 16, &effect) == IVSHM_DEVICE_DONE && one_delivery(&effect, 2, 0));
    EXPECT(ivshm_device_register_read(&device, 2, 8, &value) == IVSHM_DEVICE_DONE && value == 0);
    /* a reset, a disconnection, a connection */
    EXPECT(ivshm_device_disconnect(&device, 1, &effect) == IVSHM_DEVICE_DONE && effect.writes_state == 1 && effect.state == 0);
    EXPECT(one_delivery(&effect, 0, 0));
    EXPECT(ivshm_device_config_read(&device, 1, 4, 2, &value) == IVSHM_DEVICE_DONE && value == 0);
    fill(&device);
    EXPECT(ivshm_device_register_write(&device, 0, 0x0C, 1 << 16, &effect) == IVSHM_DEVICE_DONE && effect.count == 0);
    EXPECT(ivshm_device_connect(&device, 1) == IVSHM_DEVICE_DONE);
    fill(&device);
    EXPECT(ivshm_device_register_write(&device, 0, 0x0C, 1 << 16, &effect) == IVSHM_DEVICE_DONE && one_delivery(&effect, 1, 0));
    EXPECT(ivshm_device_reset(&device, 1, &effect) == IVSHM_DEVICE_DONE && effect.writes_state == 1 && effect.state == 0 && effect.count == 0);
    EXPECT(ivshm_device_free(&device) == IVSHM_DEVICE_DONE && device.at == NULL);
    /* INTx */
    EXPECT(ivshm_device_new(&device, 2, 4096, 0, 16384, 0) == IVSHM_DEVICE_DONE);
    EXPECT(ivshm_device_register_write(&device, 1, 8, 1, &effect) == IVSHM_DEVICE_DONE);
    EXPECT(ivshm_device_register_write(&device, 0, 0x0C, 1 << 16 | 9, &effect) == IVSHM_DEVICE_DONE && one_delivery(&effect, 1, 0));
    EXPECT(ivshm_device_route(&device, 1, &route) == IVSHM_DEVICE_DONE && route.vectors == UINT64_MAX && route.intx == 1);
    EXPECT(ivshm_device_message(&device, 1, 0, &message) == IVSHM_DEVICE_BAD_VECTOR);
    EXPECT(ivshm_device_free(&device) == IVSHM_DEVICE_DONE);
}

/* Accesses of any width and offset: only those that the header lists do anything. */
static void windows(void) {
    ivshm_device device = IVSHM_DEVICE_NONE, twin = IVSHM_DEVICE_NONE;
    static struct sight one[3], two[3];
    ivshm_effect effect, due;
    uint32_t window, offset, index, low, high;
    static const uint32_t widths[] = {1, 2, 4, 8};
    EXPECT(ivshm_device_new(&device, 3, 4096, 0, 16384, 2) == IVSHM_DEVICE_DONE);
    EXPECT(ivshm_device_new(&twin, 3, 4096, 0, 16384, 2) == IVSHM_DEVICE_DONE);
    fill(&device);
    fill(&twin);
    for (window = 0; window < 3; window++)
        for (offset = 0; offset < 264; offset++)
            for (index = 0; index < 4; index++) {
                uint32_t width = widths[index];
                ivshm_window_access access = {0x0000000300010001u + offset, window, offset, width};
                ivshm_window_access read = access;
                uint64_t value = 0;
                int aligned = offset % width == 0;
                memset(&due, 0, sizeof due);
                EXPECT(ivshm_device_mmio_write(&device, 1, &access, &effect) == IVSHM_DEVICE_DONE);
                if (window == IVSHM_WINDOW_CONFIG && aligned && width <= 4 && offset < 256)
                    ivshm_device_config_write(&twin, 1, offset, width, (uint32_t)access.value);
                if (window == IVSHM_WINDOW_REGISTERS && width == 4)
                    ivshm_device_register_write(&twin, 1, offset, (uint32_t)access.value, &due);
                if (window == IVSHM_WINDOW_MSIX && width >= 4 && aligned)
                    ivshm_device_msix_write(&twin, 1, offset, (uint32_t)access.value);
                if (window == IVSHM_WINDOW_MSIX && width == 8 && aligned)
                    ivshm_device_msix_write(&twin, 1, offset + 4, (uint32_t)(access.value >> 32));
                EXPECT(effect.writes_state == due.writes_state && effect.state == due.state && effect.count == due.count);
                EXPECT(memcmp(effect.deliveries, due.deliveries, effect.count * sizeof *effect.deliveries) == 0);
                read.value = 99;
                EXPECT(ivshm_device_mmio_read(&device, 1, &read) == IVSHM_DEVICE_DONE);
                low = high = 0;
                if (window == IVSHM_WINDOW_CONFIG && aligned && width <= 4 && offset < 256)
                    ivshm_device_config_read(&twin, 1, offset, width, &low);
                if (window == IVSHM_WINDOW_REGISTERS && width == 4) ivshm_device_register_read(&twin, 1, offset, &low);
                if (window == IVSHM_WINDOW_MSIX && width >= 4 && aligned) ivshm_device_msix_read(&twin, 1, offset, &low);
                if (window == IVSHM_WINDOW_MSIX && width == 8 && aligned) ivshm_device_msix_read(&twin, 1, offset + 4, &high);
                value = (uint64_t)high << 32 | low;
                EXPECT(read.value == value && read.window == window && read.offset == offset && read.width == width);
            }
    look(&device, 3, one);
    look(&twin, 3, two);
    EXPECT(memcmp(one, two, sizeof one) == 0);
    EXPECT(ivshm_device_free(&device) == IVSHM_DEVICE_DONE && ivshm_device_free(&twin) == IVSHM_DEVICE_DONE && blocks == 0);
}

/* ---- stack: each call on a painted stack of its own ---- */

static _Alignas(16) unsigned char painted[PAINTED];
static ucontext_t main_context, call_context;
static ivshm_device held = IVSHM_DEVICE_NONE;
static unsigned call_number;
static const char *const call_names[] = {"none",          "new",        "config_read", "config_write", "register_read",
                                         "register_write", "msix_read",  "msix_write",  "mmio_read",    "mmio_write",
                                         "reset",          "disconnect", "connect",     "route",        "message",
                                         "free"};

static void one_call(void) {
    static uint32_t value;
    static ivshm_effect effect;
    static ivshm_route route;
    static ivshm_message message;
    static ivshm_window_access access = {7, IVSHM_WINDOW_REGISTERS, 0x10, 4};
    switch (call_number) {
    case 1: ivshm_device_new(&held, 8, 4096, 0, 16384, 64); break;
    case 2: ivshm_device_config_read(&held, 7, 0, 4, &value); break;
    case 3: ivshm_device_config_write(&held, 7, 0x04, 4, 4); break;
    case 4: ivshm_device_register_read(&held, 7, 0, &value); break;
    case 5: ivshm_device_register_write(&held, 7, 0x10, 5, &effect); break;
    case 6: ivshm_device_msix_read(&held, 7, 0, &value); break;
    case 7: ivshm_device_msix_write(&held, 7, 0x0C, 0); break;
    case 8: ivshm_device_mmio_read(&held, 7, &access); break;
    case 9: ivshm_device_mmio_write(&held, 7, &access, &effect); break;
    case 10: ivshm_device_reset(&held, 7, &effect); break;
    case 11: ivshm_device_disconnect(&held, 7, &effect); break;
    case 12: ivshm_device_connect(&held, 7); break;
    case 13: ivshm_device_route(&held, 7, &route); break;
    case 14: ivshm_device_message(&held, 7, 63, &message); break;
    case 15: ivshm_device_free(&held); break;
    default: break;
    }
}

static size_t stack_of(unsigned number) {
    size_t clean = 0;
    memset(painted, PAINT, sizeof painted);
    call_number = number;
    getcontext(&call_context);
    call_context.uc_stack.ss_sp = painted;
    call_context.uc_stack.ss_size = sizeof painted;
    call_context.uc_link = &main_context;
    makecontext(&call_context, one_call, 0);
    swapcontext(&main_context, &call_context);
    while (clean < sizeof painted && painted[clean] == PAINT) clean++;
    return sizeof painted - clean;
}

static void stack(void) {
    size_t none = stack_of(0), most = 0, which = 0;
    unsigned number;
    for (number = 1; number < sizeof call_names / sizeof *call_names; number++) {
        size_t bytes = stack_of(number) - none;
        if (bytes > most) most = bytes, which = number;
        if (bytes > IVSHM_DEVICE_STACK) {
            failures++;
            printf("device_calls: ivshm_device_%s uses %zu bytes of stack\n", call_names[number], bytes);
        }
    }
    printf("device_calls: the most stack, %zu bytes, is that of ivshm_device_%s\n", most, call_names[which]);
}

int main(void) {
    sizes();
    places();
    memory();
    empty_handle();
    refusals();
    answers();
    windows();
    stack();
    if (failures == 0) printf("device_calls: all as expected\n");
    return failures > 0;
}
