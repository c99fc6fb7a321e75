/* pair REGION ME OUT MTU FRAMES SIZE [BURST]        one end; run it twice, with ME 0 and 1
 * pair --both OUT MTU FRAMES SIZE [--record FILE]   both ends in this process, in turn
 * pair --counts OUT MTU FRAMES SIZE                 the same, and prints all counts of each end
 *
 * Each end sends FRAMES frames of SIZE bytes, and compares each frame that it takes with the one
 * that the other sent at that place. An end has exit number 1 if it lost, changed or refused
 * anything, or if the library's counts differ from the link's. With --record the record of both
 * ends is written to FILE: see record.h. With BURST an end measures, on a processor of its own: it
 * polls after that many offers, in place of 16. Its frames are made beforehand, and the comparison
 * is short: frames.h. */
#include "region.h" /* first: it asks for POSIX */

#include "frames.h"
#include "processor.h"

struct side {
    struct region region;
    size_t size;
    uint64_t frames, sent, taken, bad;
    const uint8_t *next; /* the frame to be sent */
    uint8_t made[IVSHM_LONGEST], expected[IVSHM_LONGEST];
    struct kept_frames kept; /* of a measurement */
    ivshm_link_count list[IVSHM_LINK_LIST];
};

static bool is_right(struct side *s, uint32_t from, uint64_t number, const uint8_t *frame, size_t length) {
    if (s->kept.frames) return is_kept(&s->kept, from, number, frame, length);
    make_frame(s->expected, from, number, s->size);
    return length == s->size && memcmp(frame, s->expected, length) == 0;
}

static void take(struct region *r, const uint8_t *frame, size_t length) {
    struct side *s = r->context;
    if (!is_right(s, 1 - r->link.setup.me, s->taken++, frame, length)) s->bad++;
}

/* Makes the frame that is sent next, or takes it from those that are kept. */
static void prepare(struct side *s) {
    uint32_t me = s->region.link.setup.me;
    if (s->kept.frames) s->next = kept_frame(&s->kept, me, s->sent);
    else make_frame(s->made, me, s->sent, s->size);
}

static void begin(struct side *s, const char *path, uint32_t me, char **sizes, struct record *record) {
    attach(&s->region, path, me, strtoull(sizes[0], NULL, 10), (uint32_t)strtoul(sizes[1], NULL, 10), record);
    s->region.context = s;
    s->region.deliver = take;
    s->frames = strtoull(sizes[2], NULL, 10);
    s->size = strtoull(sizes[3], NULL, 10);
    s->next = s->made;
    prepare(s);
}

/* Offers up to `most` frames, and polls once. */
static void exchange(struct side *s, uint64_t most) {
    for (uint64_t i = 0; i < most && s->sent < s->frames; i++) {
        if (offer(&s->region, s->next, s->size) != IVSHM_ACCEPTED) break;
        s->sent++;
        prepare(s);
    }
    take_frames(&s->region);
}

/* Reads the counts, and leaves the link. */
static void leave(struct side *s) {
    must(ivshm_link_list(&s->region.link, s->list), "list");
    detach(&s->region);
}

/* Whether the counts of the library from `tx_frames` to `refused` are those of the link. */
static bool counts_agree(const struct side *s) {
    const ivshm_link_counts *counts = &s->region.link.counts;
    const uint64_t due[5] = {counts->accepted, counts->full, counts->down, counts->delivered, counts->refusals};
    for (int i = 0; i < 5; i++)
        if (s->list[1 + i].value != due[i]) return false;
    return true;
}

/* Prints the counts in the form of `ethtool -S`. */
static void print_counts(const struct side *s) {
    printf("counts of peer %u:\n", s->region.link.setup.me);
    for (int i = 0; i < IVSHM_LINK_LIST; i++) printf("     %s: %" PRIu64 "\n", s->list[i].name, s->list[i].value);
}

static bool is_done(const struct side *s) { return s->sent == s->frames && s->taken == s->frames; }

/* Prints what the side did, and returns 0 if all of it was right. */
static int report(const struct side *s, double seconds) {
    const ivshm_link_counts *counts = &s->region.link.counts;
    printf("peer %u: %" PRIu64 " frames of %zu bytes sent, %" PRIu64 " taken, %" PRIu64 " changed, %" PRIu64 " refusals, %" PRIu64
           " stray accesses; %" PRIu64 " accesses, %.0f frames a second each way\n",
           s->region.link.setup.me, s->sent, s->size, s->taken, s->bad, counts->refusals, counts->stray, counts->accesses, (double)s->taken / seconds);
    return s->bad || counts->refusals || counts->stray || !counts_agree(s) || !is_done(s);
}

/* One end. With `burst` above 0 it measures. */
static int one(const char *path, uint32_t me, char **sizes, uint64_t burst) {
    static struct side s;
    if (burst > 0) {
        take_processor(me);
        keep_frames(&s.kept, strtoull(sizes[3], NULL, 10));
    }
    begin(&s, path, me, sizes, NULL);
    double started = now();
    while (!is_running(&s.region) && now() - started < 20) {
        tick(&s.region);
        sched_yield();
    }
    double start = now(), last = start;
    for (uint64_t idle = 0; !is_done(&s) && is_running(&s.region) && now() - last < 20;) {
        uint64_t before = s.taken;
        exchange(&s, burst > 0 ? burst : 16);
        if (s.taken != before) {
            last = now();
            idle = 0;
        } else if (++idle % 64 == 0) {
            sched_yield();
        }
    }
    double seconds = now() - start;
    /* the other may not have polled the last frames: the session continues until it leaves */
    const uint32_t *used_index = &s.region.link.setup.other_section[s.region.link.layout.used_index];
    for (last = now(); is_running(&s.region) && now() - last < 2;) {
        take_frames(&s.region);
        tick(&s.region);
        if (load_word(used_index) >> 16 == (s.sent & 0xffff)) break;
        usleep(100);
    }
    leave(&s);
    return report(&s, seconds);
}

static int both(char **sizes, const char *record, bool prints) {
    static struct side a, b;
    struct record lines;
    char path[] = "/dev/shm/ivshm-pair-XXXXXX";
    if (record) record_begin(&lines);
    make_file(path);
    begin(&a, path, 0, sizes, record ? &lines : NULL);
    begin(&b, path, 1, sizes, record ? &lines : NULL);
    unlink(path);
    while (!is_running(&a.region) || !is_running(&b.region)) {
        tick(&a.region);
        tick(&b.region);
    }
    double start = now();
    while ((!is_done(&a) || !is_done(&b)) && is_running(&a.region) && is_running(&b.region)) {
        exchange(&a, 8);
        exchange(&b, 8);
    }
    double seconds = now() - start;
    leave(&a);
    leave(&b);
    if (record) record_end(&lines, record, strtoull(sizes[0], NULL, 10), (uint32_t)strtoul(sizes[1], NULL, 10));
    if (prints) {
        print_counts(&a);
        print_counts(&b);
    }
    int failed = report(&a, seconds);
    return report(&b, seconds) || failed;
}

int main(int argc, char **argv) {
    if ((argc == 7 || argc == 8) && argv[1][0] != '-')
        return one(argv[1], (uint32_t)strtoul(argv[2], NULL, 10), argv + 3, argc == 8 ? strtoull(argv[7], NULL, 10) : 0);
    if (argc == 6 && !strcmp(argv[1], "--both")) return both(argv + 2, NULL, false);
    if (argc == 6 && !strcmp(argv[1], "--counts")) return both(argv + 2, NULL, true);
    if (argc == 8 && !strcmp(argv[1], "--both") && !strcmp(argv[6], "--record")) return both(argv + 2, argv[7], false);
    fprintf(stderr, "usage: pair REGION ME OUT MTU FRAMES SIZE [BURST] | pair --both OUT MTU FRAMES SIZE [--record FILE] | pair --counts OUT MTU FRAMES SIZE\n");
    return 2;
}
