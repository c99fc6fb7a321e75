/* device_random PEERS VECTORS CALLS SEED RECORD: guests access their devices at random, over the
 * device library. RECORD has all answers of the library (device_record.h). Windows, offsets, widths
 * and peers may be any. An access that the device ignores or refuses is no line of a record. So
 * this program checks that such a read gives 0, and that such a write changes nothing and has no
 * effect. Some deliveries are lost in flight. `ivshm replay` says `same` of each such record: one
 * proved program judges the answers of another.
 *
 *     cc -O2 -o device_random device_random.c heap.c LIB    with tools/c_library --device */
#include <stdlib.h>
#include <string.h>

#include "device_record.h"
#include "ivshm_device.h"

enum { TABLE = 4096, OUT = 16384 };

static uint64_t generator, calls;
static ivshm_device device = IVSHM_DEVICE_NONE;
static struct device_record record;

static uint32_t draw(void) {
    generator ^= generator << 13;
    generator ^= generator >> 7;
    generator ^= generator << 17;
    return (uint32_t)(generator >> 16);
}

static void fail(const char *what, uint32_t status) {
    fprintf(stderr, "device_random: call %llu: %s: status %u\n", (unsigned long long)calls, what, status);
    exit(1);
}

static void must(uint32_t status, const char *what) {
    calls++;
    if (status != IVSHM_DEVICE_DONE) fail(what, status);
}

static void record_effect(const ivshm_effect *effect) {
    for (uint32_t k = 0; k < effect->count; k++) {
        const ivshm_delivery *delivery = &effect->deliveries[k];
        if (draw() % 16) device_record_interrupt(&record, delivery->peer, delivery->vector);
        else device_record_lost(&record, delivery->peer, delivery->vector);
    }
}

/* An offset that has something, most of the time. */
static uint32_t draw_offset(uint32_t window, uint32_t vectors) {
    static const uint8_t fields[] = {0, 4, 6, 0x10, 0x14, 0x34, 0x3c, 0x3d, 0x40, 0x43, 0x44, 0x58, 0x5c, 0x60, 0x62, 0x64};
    if (draw() % 8 == 0) return draw() % 2 ? draw() : draw() % 4200;
    switch (window) {
    case IVSHM_WINDOW_CONFIG: return fields[draw() % sizeof fields];
    case IVSHM_WINDOW_REGISTERS: return draw() % 6 * 4;
    default: return draw() % (16 * vectors + 16) & ~3u;
    }
}

/* Two numbers, in one order for every compiler. */
static uint64_t draw_pair(uint32_t high_below, uint32_t low_below, unsigned shift) {
    uint64_t high = draw() % high_below;
    return high << shift | draw() % low_below;
}

/* Numbers of peers and vectors, States, bits that are enabled, and others. */
static uint64_t draw_value(uint32_t window, uint32_t offset, uint32_t peers, uint32_t vectors) {
    if (draw() % 6 == 0) return draw_pair(UINT32_MAX, UINT32_MAX, 32);
    if (window == IVSHM_WINDOW_MSIX) return draw() % 2;
    if (window == IVSHM_WINDOW_REGISTERS && offset == 12) return draw_pair(peers + 1, vectors + 1, 16);
    if (window == IVSHM_WINDOW_REGISTERS) return draw() % 4;
    return offset == 4 ? draw() % 8 : offset == 0x62 ? 0x8000 : draw() & 0xffff;
}

static ivshm_window_access draw_access(uint32_t peers, uint32_t vectors) {
    static const uint32_t widths[] = {4, 4, 4, 2, 1, 8};
    ivshm_window_access access = {.window = draw() % 3};
    access.offset = draw_offset(access.window, vectors);
    access.width = draw() % 4 ? (access.offset == 0x62 || access.offset == 4) && access.window == IVSHM_WINDOW_CONFIG ? 2 : 4 : widths[draw() % 6];
    access.value = draw_value(access.window, access.offset, peers, vectors);
    return access;
}

/* Whether the device ignores an access. */
static bool is_ignored(const ivshm_window_access *access) {
    return device_record_unit(access->window, access->offset, access->width) == 0;
}

static void make_write(uint32_t peer, ivshm_window_access access) {
    ivshm_effect effect;
    must(ivshm_device_mmio_write(&device, peer, &access, &effect), "write");
    if (is_ignored(&access) && (effect.writes_state || effect.count)) fail("an ignored write has an effect", 0);
    device_record_write(&record, peer, access.window, access.offset, access.width, access.value);
    record_effect(&effect);
}

static void make_access(uint32_t peer, ivshm_window_access access) {
    if (draw() % 4) {
        make_write(peer, access);
        return;
    }
    must(ivshm_device_mmio_read(&device, peer, &access), "read");
    if (is_ignored(&access) && access.value) fail("an ignored read is not 0", 0);
    device_record_read(&record, peer, access.window, access.offset, access.width, access.value);
}

/* An access with a peer, a window or a width that isn't there. */
static void make_refused(uint32_t peer, uint32_t peers, ivshm_window_access access) {
    const uint64_t value = access.value;
    ivshm_effect effect = {.count = 99};
    uint32_t status, due = IVSHM_DEVICE_BAD_ACCESS;
    switch (draw() % 3) {
    case 0: peer = peers + draw() % (UINT32_MAX - peers), due = IVSHM_DEVICE_BAD_PEER; break;
    case 1: access.window = 3 + draw() % (UINT32_MAX - 3), due = IVSHM_DEVICE_BAD_WINDOW; break;
    default: access.width = draw() % 2 ? 8 + draw() % 1000 * 8 + 1 : draw() % 3 * 3;
    }
    calls++;
    status = draw() % 2 ? ivshm_device_mmio_read(&device, peer, &access) : ivshm_device_mmio_write(&device, peer, &access, &effect);
    if (status != due || access.value != value || effect.count != 99) fail("a wrong access isn't refused", status);
}

/* The accesses of a driver that enable its interrupts. Each is left out as often as made. */
static void enable(uint32_t peer, uint32_t vectors) {
    const ivshm_window_access writes[] = {
        {.window = IVSHM_WINDOW_CONFIG, .offset = 4, .width = 2, .value = 6},
        {.window = IVSHM_WINDOW_CONFIG, .offset = 0x62, .width = 2, .value = 0x8000},
        {.window = IVSHM_WINDOW_CONFIG, .offset = 0x43, .width = 1, .value = draw() % 2},
        {.window = IVSHM_WINDOW_REGISTERS, .offset = 8, .width = 4, .value = 1},
    };
    for (size_t k = 0; k < sizeof writes / sizeof *writes; k++)
        if (draw() % 8) make_write(peer, writes[k]);
    for (uint32_t v = 0; v < vectors; v++)
        if (draw() % 8) make_write(peer, (ivshm_window_access){.window = IVSHM_WINDOW_MSIX, .offset = 16 * v + 12, .width = 4});
}

/* A reset, or a guest that goes and comes. */
static void begin_anew(uint32_t peer) {
    ivshm_effect effect;
    bool goes = draw() % 2;
    must(goes ? ivshm_device_disconnect(&device, peer, &effect) : ivshm_device_reset(&device, peer, &effect), "reset");
    device_record_reset(&record, peer);
    record_effect(&effect);
    if (goes) must(ivshm_device_connect(&device, peer), "connect");
}

int main(int argc, char **argv) {
    if (argc != 6) return 2;
    uint32_t peers = (uint32_t)strtoul(argv[1], NULL, 10), vectors = (uint32_t)strtoul(argv[2], NULL, 10);
    struct device_record_world world = {.peers = peers, .table = TABLE, .out = OUT, .vectors = vectors};
    generator = strtoull(argv[4], NULL, 10) * 0x9e3779b97f4a7c15u + 1;
    must(ivshm_device_new(&device, peers, world.table, world.common, world.out, vectors), "new");
    if (!device_record_begin(&record)) return 1;
    for (const uint64_t most = strtoull(argv[3], NULL, 10); calls < most;) {
        uint32_t peer = draw() % peers;
        if (draw() % 500 == 0) begin_anew(peer);
        else if (draw() % 50 == 0) enable(peer, vectors);
        else if (draw() % 16 == 0) make_refused(peer, peers, draw_access(peers, vectors));
        else make_access(peer, draw_access(peers, vectors));
    }
    must(ivshm_device_free(&device), "free");
    if (record.full) fail("the record is full", 0);
    return device_record_end(&record, argv[5], &world) ? 0 : 1;
}
