/* speed OUT MTU SIZE ROUNDS: the cost of the library, with both ends in one thread. In a round each
 * end offers 8 frames of SIZE bytes and polls. The program prints the turns of the driver's loop
 * for a frame, and frames a second. Built with WAY 0 (single steps) it also prints the time of an
 * access, and the floor of that time. For the floor a loop repeats the accesses of a round from a
 * list, without an end.
 */
#include "region.h"

enum { BATCH = 8 };

struct listed_access {
    ivshm_access access;
    struct region *region;
};

static struct listed_access *list;
static size_t count, room;
static uint8_t frame[IVSHM_LONGEST];
static volatile uint32_t sink; /* keeps the reads of `repeat_accesses` */

/* Appends an access to the list. */
static void append(void *context, const ivshm_access *access, uint32_t value) {
    (void)value;
    if (count == room) {
        struct listed_access *grown = realloc(list, (2 * room + 1024) * sizeof *list);
        if (!grown) fail("realloc");
        list = grown;
        room = 2 * room + 1024;
    }
    list[count++] = (struct listed_access){*access, context};
}

static void send(struct region *r, size_t size) {
    uint32_t outcome;
    must(ivshm_link_send(&r->link, frame, size, &outcome), "send");
}

static void round_of(struct region *a, struct region *b, size_t size) {
    for (int i = 0; i < BATCH; i++) {
        send(a, size);
        send(b, size);
    }
    ivshm_link_poll(&a->link, IVSHM_LINK_ALL);
    ivshm_link_poll(&b->link, IVSHM_LINK_ALL);
}

/* Plays a round and records its accesses in the list. */
static void record_round(struct region *a, struct region *b, size_t size) {
    a->link.setup.accessed = b->link.setup.accessed = append;
    round_of(a, b, size);
    a->link.setup.accessed = b->link.setup.accessed = NULL;
}

/* Repeats the accesses of the list once. Returns the sum of the values read. */
static uint32_t repeat_accesses(void) {
    uint32_t sum = 0;
    for (size_t i = 0; i < count; i++) {
        struct region *r = list[i].region;
        const ivshm_access *access = &list[i].access;
        switch (access->kind) {
        case IVSHM_READ:
            sum += load_word(&r->words[access->word]);
            break;
        case IVSHM_WRITE:
            store_word(&r->link.setup.own_section[access->word - r->link.own], access->value);
            break;
        case IVSHM_STATE:
            store_word(r->state, access->value);
            break;
        default:
            break;
        }
    }
    return sum;
}

/* Prints the time of an access, and of the same access without an end. */
static void print_floor(double seconds, uint64_t rounds, size_t size) {
    double start = spent(), accesses = (double)(rounds * count);
    for (uint64_t i = 0; i < rounds; i++) sink = repeat_accesses();
    double floor_ns = (spent() - start) * 1e9 / accesses, ends_ns = seconds * 1e9 / accesses;
    printf("%zu bytes: %.1f ns an access; floor %.1f ns an access; %.2f times the floor\n", size, ends_ns, floor_ns, ends_ns / floor_ns);
}

int main(int argc, char **argv) {
    static struct region a, b;
    char path[] = "/dev/shm/ivshm-speed-XXXXXX";
    if (argc != 5) return 2;
    uint64_t out = strtoull(argv[1], NULL, 10), rounds = strtoull(argv[4], NULL, 10);
    uint32_t mtu = (uint32_t)strtoul(argv[2], NULL, 10);
    size_t size = strtoull(argv[3], NULL, 10);
    memset(frame, 0x5a, sizeof frame);
    make_file(path);
    attach(&a, path, 0, out, mtu, NULL);
    attach(&b, path, 1, out, mtu, NULL);
    unlink(path);
    while (!is_running(&a) || !is_running(&b)) {
        tick(&a);
        tick(&b);
    }
    for (int i = 0; i < 3; i++) round_of(&a, &b, size);
    if (WAY == 0) record_round(&a, &b, size);
    uint64_t steps = a.link.counts.steps + b.link.counts.steps;
    double start = spent();
    for (uint64_t i = 0; i < rounds; i++) round_of(&a, &b, size);
    double frames = 2.0 * BATCH * (double)rounds, seconds = spent() - start;
    steps = a.link.counts.steps + b.link.counts.steps - steps;
    printf("%zu bytes, way %d: %.1f turns a frame, %.0f frames a second\n", size, WAY, (double)steps / frames, frames / seconds);
    if (WAY == 0) print_floor(seconds, rounds, size);
    return 0;
}
