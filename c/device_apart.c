/* One process for each guest (docs/DEVICE_C.md), in worlds of 2 to 8 peers.
 *
 * One handle has the devices of all peers and gets every event. Each process has a handle of its
 * own, which gets the events of its own peer. Of the other peers it gets what duty 10 of
 * ivshm_device.h names, and now and then another event, which must do no harm. After each event the
 * status, the delivery to the peer, the State word and a read are those of the handle of all peers.
 * Every 64 events all that the peer can read is compared, with its route, its messages and every
 * State. Events are random, from a fixed seed: writes with any window, offset and width, resets,
 * disconnections and connections, also of peers that aren't there. At a connection the process of
 * the peer may be a new one.
 *
 *     cc -O2 -o apart device_apart.c heap.c LIB    with tools/c_library --device
 *
 * It prints one line. The status is 0 exactly if all agree. WRONG, if it is defined, leaves out
 * something that a process needs, and must be found: checks/c_device tries 1 to 6. */
#include <inttypes.h>
#include <stdbool.h>
#include <stdio.h>
#include <stdlib.h>
#include <string.h>

#include "ivshm_device.h"

#ifndef WRONG
#define WRONG 0
#endif

enum { PEERS = IVSHM_DEVICE_PEERS, TABLE = 4096, OUT = 16384 };
enum { EVENTS = 8000, WHOLE_LOOK = 64 }; /* of one world; between two comparisons of all */
enum { COMMAND = 0x04, PRIVILEGED_CONTROL = 0x43, MESSAGE_CONTROL = 0x62 };
enum { INTERRUPT_CONTROL = 0x08, DOORBELL = 0x0C, STATE = 0x10, VECTOR_CONTROL = 0x0C };

static const uint32_t NONE = UINT32_MAX; /* no delivery */

enum kind { WRITES, RESETS, DISCONNECTS, CONNECTS };

struct event {
    enum kind kind;
    uint32_t peer;
    ivshm_window_access access; /* of a write */
};

struct apart {
    ivshm_device_world world;
    ivshm_device all;            /* the devices of all peers, with every event */
    ivshm_device process[PEERS]; /* the handle of each peer's process */
    uint32_t state_table[PEERS];
    bool connected[PEERS];
};

static uint64_t events, sent, left_out, interrupts, begun;
static uint64_t generator = 0x9E3779B97F4A7C15u;

static uint32_t drawn(void) {
    generator ^= generator << 13;
    generator ^= generator >> 7;
    generator ^= generator << 17;
    return (uint32_t)(generator >> 16);
}

/* Two numbers, in one order for every compiler. */
static uint64_t drawn_pair(uint32_t high_below, uint32_t low_below, unsigned shift) {
    uint64_t high = drawn() % high_below;
    return high << shift | drawn() % low_below;
}

/* Ends the program if the process of a peer and the device of all peers differ. */
static void must(bool agrees, const struct apart *apart, uint32_t peer, const char *what) {
    if (agrees) return;
    printf("device_apart: %" PRIu32 " peers with %" PRIu32 " vectors, event %" PRIu64 ", the process of peer %" PRIu32 ": %s\n",
           apart->world.peers, apart->world.vectors, events, peer, what);
    exit(1);
}

/* ---- events ---- */

/* Whether the process of a peer needs an event: duty 10. */
static bool needs(uint32_t peer, const struct event *event) {
    const ivshm_window_access *access = &event->access;
    if (event->peer == peer) return true;
    switch (event->kind) {
    case RESETS: return WRONG != 3;
    case DISCONNECTS: return WRONG != 4;
    case CONNECTS: return WRONG != 5;
    case WRITES: break;
    }
    if (access->window != IVSHM_WINDOW_REGISTERS || access->width != 4) return false;
    if (access->offset == STATE) return WRONG != 1;
    return access->offset == DOORBELL && (uint32_t)access->value >> 16 == peer && WRONG != 2;
}

/* Whether the call of its window has an access as ivshm_device_mmio_write has it. */
static bool is_direct(const ivshm_window_access *access) {
    uint32_t width = access->width;
    if (access->window == IVSHM_WINDOW_CONFIG)
        return (width == 1 || width == 2 || width == 4) && access->offset % width == 0 && access->offset < IVSHM_DEVICE_CONFIG_BYTES;
    return access->window <= IVSHM_WINDOW_MSIX && width == 4;
}

static uint32_t write_directly(ivshm_device *device, uint32_t peer, const ivshm_window_access *access, ivshm_effect *effect) {
    uint32_t value = (uint32_t)access->value;
    switch (access->window) {
    case IVSHM_WINDOW_CONFIG:
        return ivshm_device_config_write(device, peer, access->offset, access->width, value);
    case IVSHM_WINDOW_REGISTERS: return ivshm_device_register_write(device, peer, access->offset, value, effect);
    default: return ivshm_device_msix_write(device, peer, access->offset, value);
    }
}

/* Makes the call of an event; a write may have two calls, and either is made. */
static uint32_t apply(ivshm_device *device, const struct event *event, ivshm_effect *effect) {
    memset(effect, 0, sizeof *effect);
    switch (event->kind) {
    case RESETS: return ivshm_device_reset(device, event->peer, effect);
    case DISCONNECTS: return ivshm_device_disconnect(device, event->peer, effect);
    case CONNECTS: return ivshm_device_connect(device, event->peer);
    case WRITES: break;
    }
    if (is_direct(&event->access) && drawn() % 2) return write_directly(device, event->peer, &event->access, effect);
    return ivshm_device_mmio_write(device, event->peer, &event->access, effect);
}

/* The vector that an event delivers to a peer, or NONE. */
static uint32_t vector_for(uint32_t peer, const ivshm_effect *effect) {
    for (uint32_t i = 0; i < effect->count; i++)
        if (effect->deliveries[i].peer == peer) return effect->deliveries[i].vector;
    return NONE;
}

/* The hypervisor's notes of an event: the State Table, and the guests that are connected. */
static void note(struct apart *apart, const struct event *event, const ivshm_effect *effect) {
    if (event->peer >= apart->world.peers) return;
    if (effect->writes_state) apart->state_table[event->peer] = effect->state;
    if (event->kind == CONNECTS) apart->state_table[event->peer] = 0;
    if (event->kind == CONNECTS || event->kind == DISCONNECTS) apart->connected[event->peer] = event->kind == CONNECTS;
}

/* ---- what a peer can see ---- */

static void compare_read(struct apart *apart, uint32_t peer, ivshm_window_access access) {
    ivshm_window_access due = access;
    uint32_t status = ivshm_device_mmio_read(&apart->all, peer, &due);
    must(ivshm_device_mmio_read(&apart->process[peer], peer, &access) == status, apart, peer, "another status of a read");
    must(access.value == due.value, apart, peer, "another value");
}

static void compare_window(struct apart *apart, uint32_t peer, uint32_t window, uint32_t bytes) {
    for (uint32_t offset = 0; offset < bytes; offset += 4) compare_read(apart, peer, (ivshm_window_access){99, window, offset, 4});
}

static void compare_route(struct apart *apart, uint32_t peer) {
    ivshm_route route = {0}, due = {0};
    uint32_t status = ivshm_device_route(&apart->all, peer, &due);
    must(ivshm_device_route(&apart->process[peer], peer, &route) == status, apart, peer, "another status of a route");
    must(route.vectors == due.vectors && route.intx == due.intx && route.one_shot == due.one_shot && route.enabled == due.enabled,
         apart, peer, "another route");
}

static void compare_message(struct apart *apart, uint32_t peer, uint32_t vector) {
    ivshm_message message = {0}, due = {0};
    uint32_t status = ivshm_device_message(&apart->all, peer, vector, &due);
    must(ivshm_device_message(&apart->process[peer], peer, vector, &message) == status, apart, peer, "another status of a message");
    must(message.address == due.address && message.data == due.data, apart, peer, "another message");
}

static void compare_states(struct apart *apart, uint32_t peer) {
    for (uint32_t other = 0; other < apart->world.peers; other++) {
        uint32_t state = 0;
        uint32_t status = ivshm_device_register_read(&apart->process[peer], other, STATE, &state);
        must(status == IVSHM_DEVICE_DONE && state == apart->state_table[other], apart, peer, "another State");
    }
}

static void compare_all(struct apart *apart, uint32_t peer) {
    compare_window(apart, peer, IVSHM_WINDOW_CONFIG, IVSHM_DEVICE_CONFIG_BYTES);
    compare_window(apart, peer, IVSHM_WINDOW_REGISTERS, STATE + 8);
    compare_window(apart, peer, IVSHM_WINDOW_MSIX, 16 * apart->world.vectors + 16);
    compare_route(apart, peer);
    for (uint32_t vector = 0; vector <= apart->world.vectors; vector++) compare_message(apart, peer, vector);
    compare_states(apart, peer);
}

/* ---- random accesses ---- */

/* An offset that has something, most of the time. */
static uint32_t drawn_offset(uint32_t window, uint32_t vectors) {
    static const uint32_t fields[] = {COMMAND, 0x06, 0x10, 0x14, 0x18, 0x1C, 0x40, 0x42, PRIVILEGED_CONTROL, MESSAGE_CONTROL};
    uint32_t kind = drawn() % 8;
    if (kind == 0) return drawn();
    if (kind == 1) return drawn() % 4200;
    if (window == IVSHM_WINDOW_CONFIG) return fields[drawn() % (sizeof fields / sizeof *fields)];
    return 4 * (drawn() % (window == IVSHM_WINDOW_REGISTERS ? 6 : 4 * vectors + 4));
}

static uint64_t drawn_value(const ivshm_device_world *world, uint32_t window, uint32_t offset) {
    uint64_t any = drawn_pair(UINT32_MAX, UINT32_MAX, 32);
    if (drawn() % 8 == 0) return any;
    if (window != IVSHM_WINDOW_REGISTERS) return any & 0x8007;
    if (offset == DOORBELL) return drawn_pair(world->peers + 1, world->vectors + 1, 16);
    return any % 4;
}

/* A window, at times none. Most accesses are to the register page, which has what is sent. */
static uint32_t drawn_window(void) {
    static const uint32_t windows[] = {IVSHM_WINDOW_REGISTERS, IVSHM_WINDOW_REGISTERS, IVSHM_WINDOW_REGISTERS,
                                       IVSHM_WINDOW_CONFIG, IVSHM_WINDOW_MSIX};
    return drawn() % 32 ? windows[drawn() % (sizeof windows / sizeof *windows)] : drawn();
}

static ivshm_window_access drawn_access(const ivshm_device_world *world) {
    static const uint32_t widths[] = {1, 2, 4, 8, 3, 0};
    ivshm_window_access access = {.window = drawn_window()};
    access.offset = drawn_offset(access.window, world->vectors);
    access.width = drawn() % 8 ? 4 : widths[drawn() % (sizeof widths / sizeof *widths)];
    access.value = drawn_value(world, access.window, access.offset);
    return access;
}

/* ---- the play ---- */

/* A new process for a guest. Its handle gets the connections and the States of the other peers. */
static void begin_process(struct apart *apart, uint32_t peer) {
    ivshm_device *device = &apart->process[peer];
    ivshm_effect none;
    must(ivshm_device_free(device) == IVSHM_DEVICE_DONE, apart, peer, "no handle");
    must(ivshm_device_new_at(device, &apart->world) == IVSHM_DEVICE_DONE, apart, peer, "no new handle");
    begun++;
    for (uint32_t other = 0; other < apart->world.peers && WRONG != 6; other++) {
        if (other == peer) continue;
        if (!apart->connected[other]) ivshm_device_disconnect(device, other, &none);
        ivshm_device_register_write(device, other, STATE, apart->state_table[other], &none);
    }
}

/* An event in the process of a peer; `due` is its effect in the device of all peers. */
static void play_apart(struct apart *apart, uint32_t peer, const struct event *event, uint32_t status, const ivshm_effect *due) {
    ivshm_effect effect;
    uint32_t vector = vector_for(peer, due);
    if (vector != NONE) interrupts++;
    if (!needs(peer, event) && drawn() % 8) {
        left_out++;
        must(vector == NONE, apart, peer, "an interrupt is missed");
        return;
    }
    sent += event->peer != peer;
    must(apply(&apart->process[peer], event, &effect) == status, apart, peer, "another status of an event");
    must(vector_for(peer, &effect) == vector, apart, peer, "another delivery");
    must(effect.writes_state == due->writes_state && effect.state == due->state, apart, peer, "another State word");
}

static void play(struct apart *apart, const struct event *event) {
    ivshm_effect effect;
    uint32_t status, peers = apart->world.peers;
    if (event->kind == CONNECTS && event->peer < peers && drawn() % 2) begin_process(apart, event->peer);
    events++;
    status = apply(&apart->all, event, &effect);
    note(apart, event, &effect);
    for (uint32_t peer = 0; peer < peers; peer++) {
        play_apart(apart, peer, event, status, &effect);
        compare_read(apart, peer, drawn_access(&apart->world));
        if (events % WHOLE_LOOK == 0) compare_all(apart, peer);
    }
}

/* The first accesses of a driver, which enable its interrupts. Each write is left out now and then.
 */
static void set_up(struct apart *apart, uint32_t peer) {
    const ivshm_window_access writes[] = {
        {6, IVSHM_WINDOW_CONFIG, COMMAND, 2},
        {0x8000, IVSHM_WINDOW_CONFIG, MESSAGE_CONTROL, 2},
        {drawn() % 2, IVSHM_WINDOW_CONFIG, PRIVILEGED_CONTROL, 1},
        {1, IVSHM_WINDOW_REGISTERS, INTERRUPT_CONTROL, 4},
    };
    for (size_t i = 0; i < sizeof writes / sizeof *writes; i++)
        if (drawn() % 16) play(apart, &(struct event){WRITES, peer, writes[i]});
    for (uint32_t vector = 0; vector < apart->world.vectors; vector++)
        if (drawn() % 8) play(apart, &(struct event){WRITES, peer, {0, IVSHM_WINDOW_MSIX, 16 * vector + VECTOR_CONTROL, 4}});
}

static void play_world(uint32_t peers, uint32_t vectors) {
    struct apart apart = {.world = {.out = OUT, .base = drawn() % 2 ? 0x100000000u : 0, .peers = peers, .table = TABLE, .vectors = vectors}};
    must(ivshm_device_new_at(&apart.all, &apart.world) == IVSHM_DEVICE_DONE, &apart, 0, "no devices");
    for (uint32_t peer = 0; peer < peers; peer++) {
        must(ivshm_device_new_at(&apart.process[peer], &apart.world) == IVSHM_DEVICE_DONE, &apart, peer, "no devices");
        apart.connected[peer] = true;
    }
    for (uint32_t n = 0; n < EVENTS; n++) {
        static const enum kind lives[] = {RESETS, DISCONNECTS, CONNECTS, CONNECTS};
        struct event event = {.kind = WRITES, .access = drawn_access(&apart.world)};
        event.peer = drawn() % 32 ? drawn() % peers : drawn();
        if (drawn() % 64 == 0) event.kind = lives[drawn() % 4];
        play(&apart, &event);
        if (drawn() % 16 == 0) set_up(&apart, drawn() % peers);
    }
    must(ivshm_device_free(&apart.all) == IVSHM_DEVICE_DONE, &apart, 0, "no handle");
    for (uint32_t peer = 0; peer < peers; peer++) must(ivshm_device_free(&apart.process[peer]) == IVSHM_DEVICE_DONE, &apart, peer, "no handle");
}

int main(void) {
    static const uint32_t vectors[] = {0, 1, 2, 8, 64};
    for (uint32_t peers = 2; peers <= PEERS; peers++)
        for (size_t i = 0; i < sizeof vectors / sizeof *vectors; i++) play_world(peers, vectors[i]);
    printf("device_apart: %" PRIu64 " events, %" PRIu64 " sent to another process and %" PRIu64 " not, %" PRIu64 " interrupts, %" PRIu64
           " new processes: each process has the device of all peers\n",
           events, sent, left_out, interrupts, begun);
    return 0;
}
