/* orders RUNS STEPS SEED [--version 2] [--state-late N] [--without ROW]: random runs of two ends
 * over a memory that is weaker than sequentially consistent. Each access has the order that the
 * library gives it. ROW removes one order: state-release, state-fence, state-acquire,
 * available-release, available-acquire, used-release, used-acquire, doorbell-release, and in a link
 * of version 2 event-store-fence or event-load-fence. The program ends with 0 if each run was as
 * expected, and with 1 at the first that wasn't.
 *
 * With --state-late a device stores State, up to N steps after the end wrote its register. It
 * stores State before it takes the end's next State or doorbell. The end reads State back before
 * its fence. The ROW read-back removes that.
 *
 * The memory: each word has a list of messages. A store adds one. A load may return any message
 * that its thread's view allows, and moves the view to it. A releasing store has its thread's view,
 * and an acquiring load joins the view of its message. A full fence joins the thread's view with
 * that of all fences before it. Loads don't see later stores. Each word has one writer and one
 * reader. A doorbell is a store too. A releasing one has its thread's view, which the interrupt
 * joins at any later step of the rung peer. Doorbells rung until then are delivered as one. In most
 * runs no interrupt is delivered, so that its view hides nothing else.
 *
 * The conditions of each run: nothing is refused. In each of its sessions an end delivers a
 * prefix of what the other accepted in one session, whole and in order. It delivers from each
 * session of the other at most once, and from rising ones. After the interrupt of a doorbell, a
 * look finds the frames accepted before the doorbell, and an offer finds the frames returned
 * before it. In a link of version 2 no doorbell is lost. If the last look of a poll found
 * nothing, the other's next frame in that session rings. */
#include <inttypes.h>
#include <stdbool.h>
#include <stdio.h>
#include <stdlib.h>
#include <string.h>

#include "ivshm_c.h"

enum { OUT = 16384, MTU = 256, WORDS = 1024 + 2 * OUT / 4, SESSIONS = 4096, FLIGHT = 256 };
enum row { NONE, STATE_RELEASE, STATE_FENCE, STATE_ACQUIRE, AVAILABLE_RELEASE, AVAILABLE_ACQUIRE, USED_RELEASE, USED_ACQUIRE,
           DOORBELL_RELEASE, READ_BACK, EVENT_STORE_FENCE, EVENT_LOAD_FENCE, ROWS };

static const char *const rows[ROWS] = {"none", "state-release", "state-fence", "state-acquire", "available-release", "available-acquire",
                                       "used-release", "used-acquire", "doorbell-release", "read-back", "event-store-fence", "event-load-fence"};

struct view { uint32_t at[WORDS]; }; /* the oldest message of each word that may be read */

struct message {
    uint32_t value;
    struct view *carried;
};

struct word {
    uint32_t first, count, room; /* the number of the first message stored, and how many there
                                  * are */
    struct message *list;
};

/* The announcement of a doorbell: the frames accepted in the peer's session, and the frames
 * returned of the session to which the peer is attached. */
struct announcement { uint32_t session, accepted, attached, returned; };

/* A State whose register the end wrote. */
struct posted {
    bool due, unread, release; /* the device hasn't stored it yet; the end hasn't read it back */
    uint32_t value, steps;     /* the device stores it after this many steps at most */
    struct view view;          /* of the end as it wrote the register; with the store, once it is made */
};

struct peer {
    ivshm_end end;
    struct view view;
    struct posted posted;
    struct view carried;        /* by the doorbells whose interrupt isn't delivered yet */
    struct announcement sent, received; /* by the last doorbell rung, and by the last delivered */
    bool due;                   /* an interrupt is due */
    uint32_t freed, returned;   /* its frames found returned; the other's frames returned */
    uint32_t me, own, theirs, ready, accepted[SESSIONS]; /* sessions of its own so far; frames in
                                                          * each */
    uint32_t attached, taken, last;                      /* the other's session, its frames
                                                          * delivered, the one before */
    uint8_t offered[300];                                /* the frame of its open offer, and its length */
    size_t length;
    bool reading;                                        /* its last step read words of a frame */
    bool fencing, fenced;                                /* a full fence is due after its last
                                                          * access, or was made before the next */
    bool idle, no_doorbell[FLIGHT];                      /* its last poll found nothing; the frames
                                                          * that didn't ring */
    ivshm_publication made;                              /* its last publication, and what is left
                                                          * of it */
    enum { NOTHING, INDEX, INDEX_AND_DOORBELL, DOORBELL } left;
};

static struct word region[WORDS];
static struct view fences;
static struct peer peers[2];
static ivshm_words layout;
static enum row without;
static uint32_t version = 1, late_by; /* steps by which a State is late at most */
static uint64_t generator, delivered, sessions, idle_polls, skipped, rings;
static uint32_t reset_every, tick_every; /* one step of this number is a reset, or one call a Tick:
                                          * drawn for each run */
static uint32_t interrupt_every;         /* one step of this number delivers a due interrupt; 0
                                          * means none */
static const char *wrong;

static uint32_t draw(uint32_t below) {
    generator ^= generator << 13;
    generator ^= generator >> 7;
    generator ^= generator << 17;
    return (uint32_t)((generator >> 16) % below);
}

static void join(struct view *into, const struct view *from) {
    for (size_t i = 0; i < WORDS; i++) into->at[i] = into->at[i] > from->at[i] ? into->at[i] : from->at[i];
}

static void forget(struct word *w, uint32_t before) {
    uint32_t gone = before - w->first;
    for (uint32_t i = 0; i < gone; i++) free(w->list[i].carried);
    memmove(w->list, w->list + gone, (w->count - gone) * sizeof *w->list);
    w->first = before;
    w->count -= gone;
}

/* Stores a word for the thread of this view. */
static void store_by(struct view *view, uint32_t at, uint32_t value, bool release) {
    struct word *w = &region[at];
    if (w->count == w->room) w->list = realloc(w->list, (w->room = 2 * w->room + 2) * sizeof *w->list);
    struct message *m = &w->list[w->count];
    *m = (struct message){value, NULL};
    view->at[at] = w->first + w->count++;
    if (!release) return;
    m->carried = malloc(sizeof *view);
    *m->carried = *view;
}

static void store(struct peer *p, uint32_t at, uint32_t value, bool release) { store_by(&p->view, at, value, release); }

/* Returns the newest message in half of all loads, and otherwise any message. */
static uint32_t load(struct peer *p, uint32_t at, bool acquire) {
    struct word *w = &region[at];
    uint32_t oldest = p->view.at[at] > w->first ? p->view.at[at] : w->first, newest = w->first + w->count - 1;
    uint32_t picked = draw(2) ? newest : oldest + draw(newest - oldest + 1);
    p->view.at[at] = picked;
    struct message *m = &w->list[picked - w->first];
    if (acquire && m->carried) join(&p->view, m->carried);
    uint32_t value = m->value;
    forget(w, picked);
    return value;
}

static void fence(struct peer *p) {
    join(&p->view, &fences);
    fences = p->view;
}

/* Makes frame `number` of peer `from` in this session of its own: 14 to 123 bytes that depend on
 * the three. */
static size_t make(uint8_t *frame, uint32_t from, uint32_t session, uint32_t number) {
    uint32_t x = session * 2654435761u ^ number * 40503u ^ from << 7;
    size_t length = 14 + x % 110;
    memset(frame, (int)from, 6);
    memcpy(frame + 6, &session, 4);
    memcpy(frame + 10, &number, 4);
    for (size_t i = 14; i < length; i++) frame[i] = (uint8_t)(x = x * 1664525u + 1013904223u, x >> 24);
    return length;
}

/* Checks a delivered frame. `room` has all its words, if these were read at once. */
static void check_delivered(struct peer *p, const uint32_t *room) {
    uint8_t frame[300], expected[300];
    size_t length = 0;
    uint32_t session, number;
    ivshm_view view;
    if (ivshm_end_frame(&p->end, frame, sizeof frame, &length) != IVSHM_DONE) { wrong = "a frame that is too long was delivered"; return; }
    if (ivshm_end_view(&p->end, &view) != IVSHM_DONE || view.delivered != length || (room && memcmp(room, frame, length))) wrong = "the words read at once aren't the frame";
    memcpy(&session, frame + 6, 4);
    memcpy(&number, frame + 10, 4);
    delivered++;
    if (p->taken == 0) p->attached = session;
    if (length != make(expected, 1 - p->me, session, number) || memcmp(frame, expected, length)) wrong = "a frame was delivered that was never offered";
    else if (session != p->attached || session <= p->last) wrong = "a frame of another session was delivered";
    else if (number != p->taken) wrong = "a frame was lost, or delivered again";
    else if (session > peers[1 - p->me].ready || number >= peers[1 - p->me].accepted[session]) wrong = "a frame was delivered before it was accepted";
    p->taken++;
}

/* Rings the doorbell: an interrupt is due at the other. */
static void ring(const struct peer *p, bool release) {
    struct peer *other = &peers[1 - p->me];
    if (release) join(&other->carried, &p->view);
    other->sent = (struct announcement){p->ready, p->ready ? p->accepted[p->ready] : 0, p->taken ? p->attached : 0, p->returned};
    other->due = true;
}

/* Delivers the interrupt, in a step of its own. */
static void interrupt(struct peer *p) {
    join(&p->view, &p->carried);
    p->received = p->sent;
    p->due = false;
    rings++;
}

/* Checks a look that found `found` frames: it must find those that a doorbell announced, if the
 * doorbell's session is the attached one. */
static void look(struct peer *p, uint64_t found) {
    p->idle = false;
    if (p->taken && p->received.session == p->attached && p->taken + found < p->received.accepted) wrong = "a doorbell came before the frame that it announces";
}

/* Counts `found` more returned frames of an offer. */
static void reclaim(struct peer *p, uint64_t found) {
    p->freed += (uint32_t)found;
    if (p->ready && p->received.attached == p->ready && p->freed < p->received.returned) wrong = "a doorbell came before the slot that it announces";
}

/* Checks a peer that is idle at this frame of the other's session: the frame must ring. The session
 * to which the peer is attached is known after its first frame. */
static void wake(const struct peer *waiting, const struct peer *other, uint32_t number) {
    bool same = waiting->idle && waiting->taken == number && number > 0 && waiting->attached == other->ready;
    if (same && number < other->accepted[other->ready] && other->no_doorbell[number % FLIGHT]) wrong = "a doorbell was lost";
}

/* Ends a poll that found nothing. */
static void end_idle_poll(struct peer *p) {
    p->idle = true;
    idle_polls++;
    wake(p, &peers[1 - p->me], p->taken);
}

/* Ends an offer that didn't ring. */
static void skip_doorbell(struct peer *p) {
    uint32_t number = p->accepted[p->ready] - 1;
    p->no_doorbell[number % FLIGHT] = true;
    skipped++;
    wake(&peers[1 - p->me], p, number);
}

/* Counts the frame of the open offer, which may ring still. */
static void accept(struct peer *p) {
    p->no_doorbell[p->accepted[p->ready] % FLIGHT] = false;
    p->accepted[p->ready]++;
}

/* Stores State in the place of the device. */
static void store_posted(struct peer *p) {
    if (p->posted.due) store_by(&p->posted.view, p->me, p->posted.value, p->posted.release);
    p->posted.due = false;
}

/* Reads State back: then the end knows of its store. */
static void read_back(struct peer *p) {
    store_posted(p);
    join(&p->view, &p->posted.view);
    p->posted.unread = false;
}

/* Writes State: at READY a session begins. */
static void write_state(struct peer *p, uint32_t state, bool release) {
    if (late_by > 0) p->posted = (struct posted){true, true, release, state, 1 + draw(late_by), p->view};
    else store(p, p->me, state, release);
    p->idle = false;
    if (state != IVSHM_READY) return;
    if (p->taken) p->last = p->attached;
    p->taken = p->freed = p->returned = 0;
    p->accepted[++p->ready] = 0;
    sessions++;
}

static enum row row_of(const struct peer *p, const ivshm_access *access) {
    bool stores = access->kind == IVSHM_WRITE;
    if (access->kind == IVSHM_STATE) return STATE_RELEASE;
    if (access->kind == IVSHM_RING) return DOORBELL_RELEASE;
    if (access->kind == IVSHM_READ && access->word == 1 - p->me) return STATE_ACQUIRE;
    uint32_t at = access->word - (stores ? p->own : p->theirs);
    if (at == layout.available_index) return stores ? AVAILABLE_RELEASE : AVAILABLE_ACQUIRE;
    if (at == layout.used_index) return stores ? USED_RELEASE : USED_ACQUIRE;
    return NONE;
}

static bool fences_at(const ivshm_access *access) {
    enum row row = access->kind == IVSHM_STATE ? STATE_FENCE : access->kind == IVSHM_WRITE ? EVENT_STORE_FENCE : EVENT_LOAD_FENCE;
    return row != without;
}

/* Handles the notes of a step. */
static void follow_notes(struct peer *p, const ivshm_access *access, const ivshm_notes *notes, const uint32_t *room) {
    bool at_event = access->kind == IVSHM_READ && access->word == p->theirs + layout.available_event;
    for (uint32_t i = 0; i < notes->count; i++) {
        uint32_t kind = notes->note[i].kind;
        if (kind == IVSHM_REFUSE) wrong = "an honest peer was refused";
        if (kind == IVSHM_DELIVER) check_delivered(p, room);
        if (kind == IVSHM_LOOK) look(p, notes->note[i].value);
        if (kind == IVSHM_RECLAIM) reclaim(p, notes->note[i].value);
        if (kind == IVSHM_RETURN) p->returned++;
        if (kind == IVSHM_FINISH && access->kind == IVSHM_READ) end_idle_poll(p);
        if (kind == IVSHM_OVER && at_event) skip_doorbell(p);
        if (kind == IVSHM_ACCEPT) accept(p);
    }
}

/* Makes all writes of a publication before its index, in one of two orders: from the last to the
 * first, or the frame first. The words of the frame are those of the frame offered. */
static void store_before_index(struct peer *p, const ivshm_burst bursts[3], const uint8_t tail[20]) {
    static uint32_t room[OUT / 4];
    uint32_t first[3] = {0, bursts[0].count, bursts[0].count + bursts[1].count};
    size_t at = 4 * ((p->length + 3) / 4 - bursts[0].count);
    memset(room, 0, 4 * (size_t)bursts[0].count);
    memcpy(room, p->offered + at, p->length - at);
    memcpy(room + bursts[0].count, tail, 20);
    bool backwards = draw(2);
    for (int k = 0; k < 3; k++) {
        const ivshm_burst *s = &bursts[backwards ? 2 - k : k];
        for (uint32_t i = 0; i < s->count; i++) store(p, s->word + i, room[first[backwards ? 2 - k : k] + i], false);
    }
}

/* Publishes the frame of the open offer if a word of it is next. The writes before the index are
 * made; that of the index, and the doorbell, are left for steps of their own. */
static bool publish(struct peer *p) {
    ivshm_access next;
    uint8_t tail[20];
    if (ivshm_end_publish(&p->end, &p->made, tail, sizeof tail, &next) != IVSHM_DONE) return false;
    store_before_index(p, p->made.bursts, tail);
    p->left = next.kind == IVSHM_RING ? INDEX_AND_DOORBELL : INDEX;
    return true;
}

/* Makes the next access that is left of a publication. */
static void step_publication(struct peer *p) {
    if (p->left == DOORBELL) {
        ring(p, without != DOORBELL_RELEASE);
        p->left = NOTHING;
        return;
    }
    store(p, p->made.index, p->made.accepted, without != AVAILABLE_RELEASE);
    accept(p);
    p->left = p->left == INDEX ? NOTHING : DOORBELL;
}

/* Makes one access of the open call, a burst of them, all writes before an index, or the full
 * fence before it. */
static void step(struct peer *p) {
    static uint32_t room[OUT / 4];
    ivshm_access access;
    ivshm_notes notes = {.count = 0};
    if (ivshm_end_next(&p->end, &access) != IVSHM_DONE) abort();
    enum row row = row_of(p, &access);
    bool ordered = access.order != IVSHM_RELAXED && (without == NONE || row != without);
    uint32_t value = 0, count = access.count;
    bool first = !p->reading, whole = false;
    if (access.fence_before && !p->fenced && fences_at(&access)) {
        fence(p);
        p->fenced = true;
        return;
    }
    p->fenced = false;
    p->reading = access.kind == IVSHM_READ && count > 0;
    if (count > 1 && draw(4)) {
        count = access.kind == IVSHM_READ || draw(2) ? count : 1 + draw(count);
        if (access.kind == IVSHM_READ) {
            for (uint32_t i = 0; i < count; i++) room[i] = load(p, access.word + i, false);
            ivshm_end_took_reads(&p->end, (const uint8_t *)room, 4 * (size_t)count, &notes);
            whole = first;
        } else if (draw(2) || !publish(p)) {
            ivshm_end_words(&p->end, (uint8_t *)room, 4 * (size_t)count);
            for (uint32_t i = count; i-- > 0;) store(p, access.word + i, room[i], false);
            ivshm_end_took_writes(&p->end, count);
        }
    } else {
        if (access.kind == IVSHM_READ) value = load(p, access.word, ordered);
        if (access.kind == IVSHM_WRITE) store(p, access.word, access.value, ordered);
        if (access.kind == IVSHM_STATE) write_state(p, access.value, ordered);
        if (access.kind == IVSHM_RING) ring(p, ordered);
        ivshm_end_took(&p->end, value, &notes);
    }
    p->fencing = access.fence_after && fences_at(&access);
    follow_notes(p, &access, &notes, whole ? room : NULL);
}

static void offer(struct peer *p) {
    p->length = make(p->offered, p->me, p->ready, p->ready ? p->accepted[p->ready] : 0);
    ivshm_end_offer(&p->end, p->offered, p->length);
}

/* The device takes a step before one of peer `p`. It stores a State whose time has come, or whose
 * end reads it back or accesses the device again. */
static void step_device(struct peer *p) {
    ivshm_access access;
    for (uint32_t me = 0; me < 2; me++)
        if (peers[me].posted.due && --peers[me].posted.steps == 0) store_posted(&peers[me]);
    if (p->posted.unread && without != READ_BACK) read_back(p);
    if (!p->posted.due) return;
    bool accesses = ivshm_end_next(&p->end, &access) == IVSHM_DONE && access.kind >= IVSHM_STATE;
    if (accesses || p->left == DOORBELL) store_posted(p);
}

static void begin(struct peer *p) {
    uint32_t which = draw(100);
    if (draw(tick_every) == 0) ivshm_end_begin(&p->end, IVSHM_TICK);
    else if (which < 50) ivshm_end_begin(&p->end, IVSHM_POLL);
    else if (which < 99) offer(p);
    else ivshm_end_begin(&p->end, IVSHM_STOP);
}

static void run(uint32_t steps) {
    ivshm_found found = {.table = 4096, .out = OUT};
    fences = (struct view){{0}};
    for (uint32_t i = 0; i < WORDS; i++) {
        if (region[i].count) forget(&region[i], region[i].first + region[i].count);
        region[i].first = 0;
        store(&peers[0], i, 0, false);
    }
    for (uint32_t me = 0; me < 2; me++) {
        struct peer *p = &peers[me];
        *p = (struct peer){.me = me, .own = layout.first + me * layout.words, .theirs = layout.first + (1 - me) * layout.words};
        if (ivshm_end_new_version(&p->end, &found, 2, me, MTU, 1, version) != IVSHM_DONE) abort();
    }
    reset_every = 20u << draw(6);
    tick_every = 1 + draw(4);
    interrupt_every = draw(4) ? 0 : 2u << draw(6);
    for (uint32_t i = 0; i < steps && !wrong; i++) {
        struct peer *p = &peers[draw(2)];
        ivshm_access access;
        step_device(p);
        if (p->fencing) {
            fence(p);
            p->fencing = false;
        } else if (interrupt_every && p->due && draw(interrupt_every) == 0) {
            interrupt(p);
        } else if (draw(reset_every) == 0) {
            ivshm_end_reset(&p->end);
            p->fenced = p->idle = false;
            p->left = NOTHING;
        } else if (p->left != NOTHING) step_publication(p);
        else if (ivshm_end_next(&p->end, &access) == IVSHM_DONE) step(p);
        else begin(p);
    }
    for (uint32_t me = 0; me < 2; me++) ivshm_end_free(&peers[me].end);
}

static enum row row_named(const char *name) {
    for (enum row row = STATE_RELEASE; row < ROWS; row++) if (!strcmp(name, rows[row])) return row;
    return NONE;
}

int main(int argc, char **argv) {
    ivshm_found found = {.table = 4096, .out = OUT};
    bool good = argc >= 4 && argc % 2 == 0;
    for (int i = 4; good && i < argc; i += 2) {
        if (!strcmp(argv[i], "--version")) good = !strcmp(argv[i + 1], "2") && (version = 2);
        else if (!strcmp(argv[i], "--state-late")) good = (late_by = (uint32_t)strtoul(argv[i + 1], NULL, 10)) > 0;
        else good = !strcmp(argv[i], "--without") && (without = row_named(argv[i + 1])) != NONE;
    }
    if (!good || (version == 1 && without >= EVENT_STORE_FENCE) || (late_by == 0 && without == READ_BACK)) {
        fprintf(stderr, "usage: orders RUNS STEPS SEED [--version 2] [--state-late N] [--without ROW]\n");
        return 2;
    }
    if (ivshm_layout(&found, 2, MTU, &layout) != IVSHM_DONE) return 2;
    uint64_t runs = strtoull(argv[1], NULL, 10);
    uint32_t steps = (uint32_t)strtoul(argv[2], NULL, 10);
    generator = strtoull(argv[3], NULL, 10) * 0x9e3779b97f4a7c15u + 1;
    for (uint64_t i = 1; i <= runs; i++) {
        run(steps);
        if (!wrong) continue;
        printf("without %s, run %" PRIu64 ": %s\n", rows[without], i, wrong);
        return 1;
    }
    printf("without %s: %" PRIu64 " runs, %" PRIu64 " sessions, %" PRIu64 " frames delivered, %" PRIu64 " polls that found nothing, %" PRIu64
           " frames that didn't ring, %" PRIu64 " interrupts, nothing wrong\n", rows[without], runs, sessions, delivered, idle_polls, skipped, rings);
    return 0;
}
