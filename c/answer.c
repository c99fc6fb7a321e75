/* answer [--record FILE]             two ends in this process; end 1 answers from `deliver`
 * answer --refused [--record FILE]   end 1 opposite a hostile peer, whose used index is wrong
 *
 * End 1 answers each frame by that frame, from inside `deliver`. After a poll's last frame the
 * answer has to be accepted. Before, and to each other call, the link has to return
 * IVSHM_CALL_OPEN. In the second form the answer reads a used index out of range. So end 1 refuses,
 * and then it has to store nothing more. The program ends with 0 if all of that holds. The record
 * is that of record.h. */
#include "region.h" /* first: it asks for POSIX */

enum { OUT = 16384, MTU = 256, LENGTH = 60, ROUNDS = 6 };

struct answers {
    struct region ends[2];
    uint64_t open, accepted, refused; /* sends from `deliver`, by what came of them */
    uint8_t last[LENGTH];             /* the frame that end 1 got last */
    uint64_t came;                    /* answers that came to end 0 */
    uint64_t late;                    /* stores and doorbells of end 1 after its last State */
    uint32_t *words;                  /* all of them, for a hostile peer 0 */
    struct record record;
};

static void expect(bool right, const char *what) {
    if (right) return;
    printf("answer: %s\n", what);
    exit(1);
}

/* No call but a send does anything in `deliver`. */
static void try_other_calls(ivshm_link *link) {
    expect(ivshm_link_tick(link) == IVSHM_CALL_OPEN, "a tick in deliver");
    expect(ivshm_link_poll(link, IVSHM_LINK_ALL) == 0, "a poll in deliver");
    expect(ivshm_link_reset(link) == IVSHM_CALL_OPEN, "a reset in deliver");
    expect(ivshm_link_close(link) == IVSHM_CALL_OPEN, "a close in deliver");
}

/* End 1 answers. If its poll is over the answer is a call of its own in the record. */
static void answer(struct region *r, const uint8_t *frame, size_t length) {
    struct answers *a = r->context;
    ivshm_view view;
    uint32_t outcome = IVSHM_NEVER;
    expect(length == LENGTH, "the length of a frame");
    memcpy(a->last, frame, LENGTH);
    try_other_calls(&r->link);
    must(ivshm_end_view(&r->link.end, &view), "view");
    if (view.busy) {
        expect(ivshm_link_send(&r->link, frame, length, &outcome) == IVSHM_CALL_OPEN, "a send in an open poll");
        a->open++;
        return;
    }
    record_steps(r);
    outcome = offer(r, frame, length);
    a->accepted += outcome == IVSHM_ACCEPTED;
    a->refused += outcome == IVSHM_REFUSED;
    expect(!memcmp(a->last, frame, LENGTH), "the send changed the frame in deliver");
}

static void take(struct region *r, const uint8_t *frame, size_t length) {
    struct answers *a = r->context;
    expect(length == LENGTH && !memcmp(a->last, frame, LENGTH), "another answer");
    a->came++;
}

/* Counts what end 1 stores after its last State. */
static void watch(void *context, const ivshm_access *access, uint32_t value) {
    struct answers *a = ((struct region *)context)->context;
    if (access->kind == IVSHM_STATE) a->late = 0;
    else a->late += access->kind == IVSHM_WRITE || access->kind == IVSHM_RING;
    region_records_access(context, access, value);
}

static void open_end(struct answers *a, const char *path, uint32_t me) {
    struct region *r = &a->ends[me];
    attach(r, path, me, OUT, MTU, &a->record);
    r->context = a;
    r->deliver = me ? answer : take;
    if (me) r->link.setup.accessed = watch;
}

/* Polls to the end of the poll, with this budget in each call. */
static uint32_t poll_by(struct region *r, uint32_t budget) {
    uint32_t delivered = 0;
    record_called(r, "poll");
    do {
        delivered += ivshm_link_poll(&r->link, budget);
        record_steps(r);
    } while (ivshm_link_is_open(&r->link));
    return delivered;
}

/* End 0 sends 1 frame, then 2, and so on. Each time end 1 polls once, and end 0 gets one answer. */
static void play_honest(struct answers *a, const char *path) {
    static const uint32_t budgets[] = {IVSHM_LINK_ALL, 1, 2};
    struct region *ends = a->ends;
    uint8_t frame[LENGTH] = {0};
    uint64_t open = 0;
    open_end(a, path, 0);
    open_end(a, path, 1);
    while (!is_running(&ends[0]) || !is_running(&ends[1])) {
        tick(&ends[0]);
        tick(&ends[1]);
    }
    for (uint32_t round = 1; round <= ROUNDS; round++) {
        for (uint32_t k = 0; k < round; k++) {
            memset(frame, (int)(16 * round + k), LENGTH);
            expect(offer(&ends[0], frame, LENGTH) == IVSHM_ACCEPTED, "an offer of end 0");
        }
        expect(poll_by(&ends[1], budgets[round % 3]) == round, "the frames of a poll");
        open += round - 1;
        expect(a->open == open && a->accepted == round, "the answers of a poll");
        expect(take_frames(&ends[0]) == 1 && a->came == round, "the answer that came");
    }
    expect(ends[0].link.counts.refusals == 0 && ends[1].link.counts.refusals == 0, "a value was refused");
    detach(&ends[0]);
}

static void poke(struct answers *a, uint32_t word, uint32_t value) {
    store_word(&a->words[word], value);
    record_poke(&a->record, 0, word, value);
}

static void set_state(struct answers *a, uint32_t state) {
    store_word(&a->words[0], state);
    record_set(&a->record, 0, state);
}

/* Peer 0 publishes one frame. Its used index says that it returned 9, and end 1 sent none. */
static void play_hostile(struct answers *a, const char *path) {
    struct region *end = &a->ends[1];
    const ivshm_words *layout = &end->link.layout;
    open_end(a, path, 1);
    int file = open(path, O_RDWR);
    if (file < 0) fail(path);
    a->words = map(file, TABLE + 2 * OUT, PROT_READ | PROT_WRITE, 0);
    close(file);
    tick(end);
    set_state(a, IVSHM_READY);
    tick(end);
    tick(end);
    expect(is_running(end), "end 1 isn't in RUN");
    for (uint32_t i = 0; i < LENGTH / 4; i++) poke(a, layout->first + layout->data_area / 4 + i, i);
    poke(a, layout->first, layout->data_area);
    poke(a, layout->first + 2, LENGTH);
    poke(a, layout->first + layout->available_index, 1 << 16);
    poke(a, layout->first + layout->used_index, 9 << 16);
    expect(take_frames(end) == 1, "the frame of peer 0");
    expect(a->refused == 1 && end->link.state == IVSHM_RESET, "the answer wasn't refused");
    expect(a->late == 0, "end 1 stored after it refused");
}

int main(int argc, char **argv) {
    static struct answers a;
    char path[64];
    bool hostile = argc > 1 && !strcmp(argv[1], "--refused");
    const char *file = argc == 3 + hostile && !strcmp(argv[1 + hostile], "--record") ? argv[2 + hostile] : NULL;
    if (argc != 1 + hostile + (file ? 2 : 0)) return 2;
    snprintf(path, sizeof path, "/dev/shm/ivshm-answer-%ld", (long)getpid());
    unlink(path);
    record_begin(&a.record);
    a.record.version = VERSION;
    a.record.hostile = hostile;
    if (hostile) play_hostile(&a, path);
    else play_honest(&a, path);
    unlink(path);
    detach(&a.ends[1]);
    if (file) record_end(&a.record, file, OUT, MTU);
    printf("answer: %" PRIu64 " accepted, %" PRIu64 " refused, %" PRIu64 " in an open poll\n", a.accepted, a.refused, a.open);
    return 0;
}
