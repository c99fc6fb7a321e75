/* A link over the words of QEMU's own devices (ivshm_link.h). Here the program takes the place
 * of a device of version 2. It sets State 0 first, and restores the own State if something else
 * changed it. c/region.h is the same over a file, whose State Table no other guest can write.
 * version2.h has the same functions for a device of version 2. */
#ifndef LINK_H
#define LINK_H
#include "doorbell.h"

#define IVSHM_LINK_SEQ_CST
#include "../ivshm_link.h"

struct guest {
    ivshm_link link;
    struct doorbell bell;
    struct peer_words peers[2];
    uint32_t said; /* the own State, as it was stored last */
    uint64_t mended; /* times that the own State was restored */
    void (*ring)(struct guest *, uint32_t peer, uint32_t vector); /* NULL: there are no doorbells */
    void (*deliver)(struct guest *, const uint8_t *frame, size_t length);
    void *context; /* of the program */
    uint32_t room[(IVSHM_LONGEST + 3) / 4];
};

/* Ends the program unless the answer of a call is IVSHM_DONE. */
static inline void must(uint32_t answer, const char *what) {
    if (answer == IVSHM_DONE) return;
    fprintf(stderr, "%s: answer %u\n", what, answer);
    exit(1);
}

/* Sets the own State. A device of version 2 then interrupts the other peers by vector 0; here the
 * doorbell does that. */
static inline void say(struct guest *g, uint32_t state) {
    g->said = state;
    atomic_store(g->peers[g->link.setup.me].state, state);
    if (g->ring) g->ring(g, 1 - g->link.setup.me, 0);
}

/* Corrects the own State. If the other guest can write the table its value may be spoiled, and the
 * library writes it only when it changes. */
static inline void mend(struct guest *g) {
    if (atomic_load(g->peers[g->link.setup.me].state) == g->said) return;
    g->mended++;
    say(g, g->said);
}

/* The three functions of the link: a write of State, a doorbell, and a delivered frame. */
static inline void guest_writes_state(void *context, uint32_t state) {
    struct guest *g = context;
    say(g, state);
}

static inline void guest_rings(void *context, uint32_t peer, uint32_t vector) {
    struct guest *g = context;
    if (g->ring) g->ring(g, peer, vector);
}

static inline void guest_delivers(void *context, const uint8_t *frame, size_t length) {
    struct guest *g = context;
    g->deliver(g, frame, length);
}

/* Writes the Doorbell register of QEMU's device. */
static inline void ring_doorbell(struct guest *g, uint32_t peer, uint32_t vector) {
    g->bell.registers[DOORBELL] = peer << 16 | vector;
}

/* QEMU's device keeps interrupts enabled. */
static inline void enable_interrupts(struct guest *g) { (void)g; }

/* Opens the link of peer `me`, whose words are mapped. No device set the State to 0 when this
 * guest, or this program, died before. The word still has the value from then, and the other end
 * would wait for its end for ever. The first access of an end writes it. */
static inline void attach(struct guest *g, uint32_t me, uint64_t out, uint32_t mtu) {
    ivshm_link_setup setup = {.peers = 2, .me = me, .mtu = mtu, .vector = 1, .version = 1};
    setup.found = (ivshm_found){.table = TABLE, .out = out, .protocol = IVSHM_PROTOCOL};
    setup.other_state = (const uint32_t *)g->peers[1 - me].state;
    setup.other_section = (const uint32_t *)g->peers[1 - me].section;
    setup.own_section = (uint32_t *)g->peers[me].section;
    setup.room = g->room;
    setup.room_size = sizeof g->room;
    setup.context = g;
    setup.write_state = guest_writes_state;
    setup.ring = guest_rings;
    setup.deliver = guest_delivers;
    must(ivshm_link_open(&g->link, &setup), "open");
}

/* Maps the words, and opens the link over them. If there is no plain device, the one with doorbells
 * has the memory too. */
static inline void join(struct guest *g, uint32_t me, size_t out, uint32_t mtu) {
    struct devices found = find_devices();
    struct bar bars[MOST_PLAIN];
    int count = found.count;
    if (me > 1) give_up("the peer isn't 0 or 1");
    for (int i = 0; i < count; i++) bars[i] = open_bar(found.plain[i]);
    g->bell.events = -1;
    if (found.doorbell[0]) {
        struct bar memory = open_doorbell(&g->bell, found.doorbell);
        if (g->bell.registers[OWN_NUMBER] != me) give_up("the doorbell is another peer's");
        if (count == 0) bars[count++] = memory;
        g->ring = ring_doorbell;
    }
    map_peers(g->peers, bars, count, out, (bool[2]){me == 0, me == 1});
    attach(g, me, out, mtu);
    fprintf(stderr, "bridge %u: %s%s\n", me, count == 2 ? "apart" : "shared", found.doorbell[0] ? ", doorbells" : "");
}

/* ---- for a hostile guest ---- */

enum { MOST_AREAS = MOST_PLAIN };

/* All memory of the devices, and the words of both peers, to be written. If the host keeps a file
 * read-only QEMU drops the stores. */
static inline int open_areas(struct bar areas[MOST_AREAS], struct peer_words peers[2], size_t out) {
    struct devices found = find_devices();
    for (int i = 0; i < found.count; i++) areas[i] = open_bar(found.plain[i]);
    map_peers(peers, areas, found.count, out, (bool[2]){true, true});
    return found.count;
}

/* Opens the device with doorbells. */
static inline void open_bell(struct doorbell *bell) { open_doorbell(bell, find_devices().doorbell); }
#endif
