/* honest REGION OUT MTU SECONDS: peer 0 opposite a hostile peer 1. It ticks, offers and polls,
 * counts what it refused by field, and resets its end after each refusal. It checks the library's
 * report of a refusal, the words of the State Table without a peer, and that it may make each
 * access. It ends with 0 if all of that was right and a value was refused. */
#include "region.h"

static uint64_t wrong;

static void expect(bool right) {
    if (!right) wrong++;
}

static uint32_t ticked(struct region *r) {
    tick(r);
    return r->link.state;
}

/* An end that refused a value is in RESET and stays there until it is reset. */
static void refused(struct region *r) {
    ivshm_view view;
    const ivshm_note *refusal = &r->link.refusal;
    must(ivshm_end_view(&r->link.end, &view), "view");
    expect(view.refused_field == refusal->field && view.refused_value == refusal->value && view.state == IVSHM_RESET);
    expect(load_word(r->state) == IVSHM_RESET && r->link.state == IVSHM_RESET);
    expect(ticked(r) == IVSHM_RESET && ticked(r) == IVSHM_RESET);
    reset(r);
    must(ivshm_end_view(&r->link.end, &view), "view");
    expect(view.refused_field == 0);
}

/* The library counts as the link does, through all sessions and resets. */
static void check_counts(struct region *r) {
    const ivshm_link_counts *own = &r->link.counts;
    ivshm_counts counts;
    must(ivshm_end_counts(&r->link.end, &counts), "counts");
    expect(counts.accepted == own->accepted && counts.full == own->full && counts.down == own->down);
    expect(counts.delivered == own->delivered && counts.refused == own->refusals && counts.sessions >= own->sessions);
}

static void print(const struct region *r, const uint64_t *outcomes, uint64_t changed) {
    static const char *const fields[] = {"-", "AvailIndex", "AvailEntry", "DescAddress", "DescLength", "DescFlags", "UsedIndex", "UsedId"};
    const ivshm_link_counts *counts = &r->link.counts;
    printf("honest: %" PRIu64 " accesses, %" PRIu64 " sessions, %" PRIu64 " frames taken; offers accepted %" PRIu64 ", full %" PRIu64
           ", refused %" PRIu64 "; stray accesses %" PRIu64 ", words of the table changed %" PRIu64 ", wrong answers %" PRIu64 "; refused",
           counts->accesses, counts->sessions, counts->delivered, outcomes[IVSHM_ACCEPTED], outcomes[IVSHM_WAS_FULL],
           outcomes[IVSHM_REFUSED], counts->stray, changed, wrong);
    for (int i = 1; i < 8; i++) printf(" %s %" PRIu64, fields[i], counts->refused[i]);
    printf("\n");
}

int main(int argc, char **argv) {
    static struct region r;
    uint64_t outcomes[7] = {0}, changed = 0;
    uint8_t frame[64] = {255, 255, 255, 255, 255, 255, 2};
    if (argc != 5) return 2;
    attach(&r, argv[1], 0, strtoull(argv[2], NULL, 10), (uint32_t)strtoul(argv[3], NULL, 10), NULL);
    for (uint32_t i = 2; i < TABLE / 4; i++) store_word(&r.state[i], 0xdead0000u + i);
    double end = now() + strtod(argv[4], NULL);
    for (uint64_t turn = 0; now() < end; turn++) {
        tick(&r);
        for (int i = 0; i < 4; i++) {
            uint64_t refusals = r.link.counts.refusals;
            if (i % 2 && is_running(&r)) outcomes[offer(&r, frame, 14 + turn % 50)]++;
            else take_frames(&r);
            if (r.link.counts.refusals == refusals) continue;
            refused(&r);
            break;
        }
    }
    for (uint32_t i = 2; i < TABLE / 4; i++) changed += load_word(&r.words[i]) != 0xdead0000u + i;
    check_counts(&r);
    detach(&r);
    print(&r, outcomes, changed);
    return r.link.counts.stray || changed || wrong || !r.link.counts.refusals;
}
