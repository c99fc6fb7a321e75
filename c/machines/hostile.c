/* hostile KIND OUT SECONDS SEED: the program of a hostile guest 1.
 *
 * fields   plays the handshake, and publishes frames that are right but for one field now and then
 * own      plays the handshake, and stores random words in its own section and its own State
 * whole    stores random words all over the memory that its devices have
 * state    stores random States, its own and the other's
 * half     sets its State to 1, and does nothing else
 * rings    rings doorbells, anybody's and all the time */
#ifdef DEVICE_OF_VERSION_2
#include "version2.h"
#else
#include "link.h"
#endif

#include "../hostile.h"

static struct bar areas[MOST_AREAS];
static _Atomic uint32_t *whole[MOST_AREAS];
static uint64_t stayed[MOST_AREAS]; /* stores that changed a word */
static struct peer_words peers[2];

/* The guest may map memory for writing that the host keeps read-only. QEMU then drops the
 * stores. */
static int map_all(uint32_t out) {
    int count = open_areas(areas, peers, out);
    for (int i = 0; i < count; i++) whole[i] = map_part(&areas[i], 0, areas[i].size, true);
    his_state = peers[0].state;
    his = peers[0].section;
    own_state = peers[1].state;
    own = peers[1].section;
    lay_out(out);
    return count;
}

/* Stores 1,000 words anywhere. If there is one file, one word in 50 is a State. A small value may
 * be the other guest's own. */
static void store_anywhere(int count) {
    for (int i = 0; i < 1000; i++, stores++) {
        int area = (int)(draw() % (uint32_t)count);
        uint32_t at = draw() % 50 ? draw() % (uint32_t)(areas[area].size / 4) : draw() % 2;
        uint32_t value = draw() % 3 ? draw() : draw() % 5, before = atomic_load(&whole[area][at]);
        atomic_store(&whole[area][at], value);
        if (value > 65536 && before != value && atomic_load(&whole[area][at]) == value) stayed[area]++;
    }
}

static void print_stayed(int count) {
    printf("hostile: stores that stayed, by area:");
    for (int i = 0; i < count; i++) printf(" %" PRIu64, stayed[i]);
    printf("\n");
}

static void store_state(void) {
    atomic_store(draw() % 2 ? peers[0].state : peers[1].state, draw() % 5);
    stores++;
    usleep(draw() % 2000);
}

static int half_until(double end) {
    atomic_store(own_state, 1);
    while (now() < end) sleep(1);
    return 0;
}

/* Peers and vectors that there are, and some that there aren't. */
static int ring_until(double end) {
    struct doorbell bell;
    open_bell(&bell);
    for (; now() < end; stores++) bell.registers[DOORBELL] = draw() % 4 << 16 | draw() % 4;
    printf("hostile: rings, %" PRIu64 "\n", stores);
    return 0;
}

int main(int argc, char **argv) {
    if (argc != 5) return 2;
    const char *kind = argv[1];
    generator = strtoull(argv[4], NULL, 10) * 0x9e3779b97f4a7c15u + 1;
    double end = now() + strtod(argv[3], NULL);
    if (!strcmp(kind, "rings")) return ring_until(end);
    int count = map_all((uint32_t)strtoul(argv[2], NULL, 10));
    if (!strcmp(kind, "half")) return half_until(end);
    while (now() < end) {
        if (!strcmp(kind, "whole")) store_anywhere(count);
        else if (!strcmp(kind, "state")) store_state();
        else if (!strcmp(kind, "own")) session(end, RANDOM, 200000);
        else session(end, 1 + (int)(draw() % (KINDS - 1)), 200000);
    }
    if (!strcmp(kind, "whole")) print_stayed(count);
    printf("hostile: %s, %" PRIu64 " sessions, %" PRIu64 " rounds of stores; States %u %u\n", kind, sessions, stores, atomic_load(peers[0].state),
           atomic_load(peers[1].state));
    return 0;
}
