/* bare: a program without a C library, like a guest that has none. It has its own memory and its
 * own memcpy, memmove and memset, and tries each call of the header with its results. It ends with
 * the number of the first line that isn't as expected, or with 0. */
#include "ivshm_c.h"

static _Alignas(16) unsigned char arena[1 << 19];
static size_t top;

int check(void);

struct rattle_block rattle_alloc(size_t size, size_t align) {
    (void)align;
    size = (size + 15) & ~(size_t)15;
    if (size > sizeof arena - top) return (struct rattle_block){0, arena};
    void *at = arena + top;
    top += size;
    return (struct rattle_block){1, at};
}

void rattle_dealloc(void *at) { (void)at; }

void *memcpy(void *restrict to, const void *restrict from, size_t n) {
    unsigned char *t = to;
    for (const unsigned char *f = from; n > 0; n--) *t++ = *f++;
    return to;
}

void *memmove(void *to, const void *from, size_t n) {
    unsigned char *t = to;
    const unsigned char *f = from;
    if (t <= f) return memcpy(to, from, n);
    while (n-- > 0) t[n] = f[n];
    return to;
}

void *memset(void *to, int byte, size_t n) {
    for (unsigned char *t = to; n > 0; n--) *t++ = (unsigned char)byte;
    return to;
}

static uint32_t words[1024 + 2 * 4096];

/* Makes this access, and returns the value of a read. */
static uint32_t made(uint32_t me, const ivshm_access *access) {
    if (access->kind == IVSHM_WRITE) words[access->word] = access->value;
    if (access->kind == IVSHM_STATE) words[me] = access->value;
    return access->kind == IVSHM_READ ? words[access->word] : 0;
}

/* Makes the accesses of the open call, and returns the number of frames delivered. */
static int run(ivshm_end *end, uint32_t me) {
    ivshm_access access;
    ivshm_notes notes;
    int delivered = 0;
    while (ivshm_end_next(end, &access) == IVSHM_DONE) {
        if (ivshm_end_took(end, made(me, &access), &notes) != IVSHM_DONE) return -1;
        for (uint32_t i = 0; i < notes.count; i++) delivered += notes.note[i].kind == IVSHM_DELIVER;
    }
    return delivered;
}

static void tick(ivshm_end *end, uint32_t me) {
    ivshm_end_begin(end, IVSHM_TICK);
    run(end, me);
}

#define WANT(right) \
    if (!(right)) return __LINE__ % 256

/* The sizes of structs on both sides of the header. */
_Static_assert(sizeof(ivshm_end) == 8 && sizeof(ivshm_access) == 28 && sizeof(ivshm_note) == 16 && sizeof(ivshm_notes) == 40, "sizes");
_Static_assert(sizeof(ivshm_counts) == 48, "sizes");
_Static_assert(sizeof(ivshm_view) == 40 && sizeof(ivshm_found) == 64 && sizeof(ivshm_words) == 56 && sizeof(ivshm_limit_values) == 24 && sizeof(ivshm_burst) == 8, "sizes");

static int check_tables(void) {
    static uint8_t space[256];
    ivshm_limit_values limits;
    ivshm_found found = {0};
    ivshm_words layout;
    ivshm_limits(&limits);
    WANT(limits.version == IVSHM_VERSION && limits.least_mtu == IVSHM_LEAST_MTU && limits.most_mtu == IVSHM_MOST_MTU);
    WANT(ivshm_abi_version() == IVSHM_ABI_VERSION && ivshm_library_version() == IVSHM_LIBRARY_NUMBER);
    WANT(limits.shortest_frame == IVSHM_SHORTEST && limits.longest_frame == IVSHM_LONGEST && limits.largest_region == IVSHM_LARGEST_REGION);
    /* a vendor capability at 40h with a base, then MSI-X at 60h with 4 vectors */
    static const uint8_t head[] = {0x0a, 0x11, 0x06, 0x41, 0, 0, 0x10, 0, 0, 1, 0, 0xff};
    static const uint8_t vendor[] = {9, 0x60, 0x20, 1, 0, 0x10, 0, 0, 0, 0, 0, 0, 0, 0, 0, 0, 0, 0x40, 0, 0, 0, 0, 0, 0, 0, 0, 0, 0, 1};
    static const uint8_t msix[] = {0x11, 0, 3, 0, 1, 0, 0, 0, 1, 8, 0, 0};
    WANT(ivshm_walk(space, &found) == IVSHM_OTHER_DEVICE && found.table == 0);
    memcpy(space, head, sizeof head);
    WANT(ivshm_walk(space, &found) == IVSHM_NO_VENDOR);
    space[0x34] = 0x40;
    memcpy(space + 0x40, vendor, sizeof vendor);
    memcpy(space + 0x60, msix, sizeof msix);
    WANT(ivshm_walk(space, &found) == IVSHM_DONE);
    WANT(found.table == 4096 && found.common == 0 && found.out == 16384 && found.has_base == 1 && found.base == 0x100000000);
    WANT(found.protocol == 1 && found.one_shot == 1 && found.vectors == 4);
    WANT(found.vectors_bar == 1 && found.vectors_offset == 0 && found.pending_bar == 1 && found.pending_offset == 0x800);
    space[0x42] = 0x1c;
    WANT(ivshm_walk(space, &found) == IVSHM_BAD_VENDOR_LENGTH);
    space[0x34] = 0x3c;
    WANT(ivshm_walk(space, &found) == IVSHM_OUT_OF_SPACE);
    space[0x34] = 0x80;
    space[0x81] = 0x80;
    WANT(ivshm_walk(space, &found) == IVSHM_LOOP);
    space[0x0b] = 0x02;
    WANT(ivshm_walk(space, &found) == IVSHM_BAD_CLASS);
    /* a section of 16,384 bytes has a queue of 64 */
    WANT(ivshm_layout(&found, 2, 256, &layout) == IVSHM_DONE && layout.first == 1024 && layout.words == 4096 && layout.queue_size == 64);
    WANT(layout.available_index == 256 && layout.available_entries == 257 && layout.used_event == 289 && layout.longest_offer == 274);
    WANT(ivshm_layout(&found, 1, 256, &layout) == IVSHM_BAD_PEERS && ivshm_layout(&found, 2, 255, &layout) == IVSHM_BAD_MTU);
    WANT(ivshm_layout(&found, 2, 65535, &layout) == IVSHM_NO_SLOT && ivshm_layout(&found, 2000, 256, &layout) == IVSHM_SMALL_TABLE);
    WANT(ivshm_layout(&found, 1024, 256, &layout) == IVSHM_LARGE_REGION);
    found.common = 1;
    WANT(ivshm_layout(&found, 2, 256, &layout) == IVSHM_BAD_COMMON);
    found = (ivshm_found){.table = 4096, .out = 4096};
    WANT(ivshm_layout(&found, 2, 256, &layout) == IVSHM_SMALL_OUT);
    found.out = 0;
    WANT(ivshm_layout(&found, 2, 256, &layout) == IVSHM_BAD_OUT);
    found.table = 100;
    WANT(ivshm_layout(&found, 2, 256, &layout) == IVSHM_BAD_TABLE && layout.words == 4096);
    return 0;
}

static int check_handles(void) {
    ivshm_end none = IVSHM_END_NONE;
    ivshm_access access;
    ivshm_notes notes;
    ivshm_view view;
    ivshm_burst next = {7, 7};
    ivshm_frame_return made;
    ivshm_publication published;
    ivshm_counts counts = {.down = 7};
    uint8_t frame[14] = {0};
    size_t length;
    WANT(ivshm_end_counts(&none, &counts) == IVSHM_NO_END && counts.down == 7);
    WANT(ivshm_end_begin(&none, IVSHM_TICK) == IVSHM_NO_END && ivshm_end_offer(&none, frame, 14) == IVSHM_NO_END);
    WANT(ivshm_end_offer_again(&none) == IVSHM_NO_END);
    WANT(ivshm_end_next(&none, &access) == IVSHM_NO_END && ivshm_end_took(&none, 0, &notes) == IVSHM_NO_END);
    WANT(ivshm_end_took_reads(&none, frame, 4, &notes) == IVSHM_NO_END && ivshm_end_words(&none, frame, 4) == IVSHM_NO_END);
    WANT(ivshm_end_took_writes(&none, 1) == IVSHM_NO_END && ivshm_end_took_field(&none, 0, &next) == IVSHM_NO_END);
    WANT(next.word == 7 && ivshm_end_took_frame(&none, frame, 12, &made, &access) == IVSHM_NO_END);
    WANT(ivshm_end_publish(&none, &published, frame, 14, &access) == IVSHM_NO_END && ivshm_end_step(&none, 0, &notes, &access) == IVSHM_NO_END);
    WANT(ivshm_end_view(&none, &view) == IVSHM_NO_END && ivshm_end_frame(&none, frame, 14, &length) == IVSHM_NO_END);
    WANT(ivshm_end_reset(&none) == IVSHM_NO_END && ivshm_end_free(&none) == IVSHM_NO_END && none.at == NULL);
    return 0;
}

/* Offers the last frame of 38 bytes again, and publishes it after its first word is written by
 * itself. The words that are left are written from this copy of the frame. The frame is delivered
 * from the words that the other read at once. */
static int check_after_a_word(ivshm_end *a, ivshm_end *b, const uint8_t *frame) {
    static uint8_t room[64];
    ivshm_publication made = {.index = 7};
    ivshm_access access, next;
    ivshm_notes notes;
    ivshm_view view;
    WANT(ivshm_end_publish(a, &made, room, 64, &next) == IVSHM_NO_CALL && ivshm_end_offer_again(a) == IVSHM_DONE);
    while (ivshm_end_publish(a, &made, room, 19, &next) == IVSHM_OTHER_ACCESS)
        WANT(ivshm_end_next(a, &access) == IVSHM_DONE && ivshm_end_took(a, words[access.word], &notes) == IVSHM_DONE);
    WANT(ivshm_end_next(a, &access) == IVSHM_DONE && access.kind == IVSHM_WRITE && access.count == 10);
    words[access.word] = access.value;
    WANT(ivshm_end_took(a, 0, &notes) == IVSHM_DONE && ivshm_end_publish(a, &made, room, 19, &next) == IVSHM_SHORT_ROOM);
    WANT(made.index == 7 && room[8] == 0 && ivshm_end_publish(a, &made, room, 20, &next) == IVSHM_DONE && next.kind == IVSHM_RING);
    WANT(made.bursts[0].word == access.word + 1 && made.bursts[0].count == 9 && room[8] == 38 && room[20] == 0);
    WANT(made.bursts[1].word == 1028 && made.bursts[1].count == 4 && made.bursts[2].word == 1281 && made.bursts[2].count == 1);
    words[made.bursts[0].word + 8] = 0;
    memcpy(words + made.bursts[0].word, frame + 4, 34);
    memcpy(words + made.bursts[1].word, room, 16);
    memcpy(words + made.bursts[2].word, room + 16, 4);
    words[made.index] = made.accepted;
    WANT(ivshm_end_begin(b, IVSHM_POLL) == IVSHM_DONE);
    do WANT(ivshm_end_next(b, &access) == IVSHM_DONE && (access.count || ivshm_end_took(b, words[access.word], &notes) == IVSHM_DONE));
    while (access.count == 0);
    memcpy(room, words + access.word, 40);
    WANT(access.count == 10 && ivshm_end_took_reads(b, room, 40, &notes) == IVSHM_DONE && notes.note[0].kind == IVSHM_DELIVER);
    WANT(ivshm_end_view(b, &view) == IVSHM_DONE && view.delivered == 38);
    for (int i = 0; i < 38; i++) WANT(frame[i] == room[i]);
    WANT(run(b, 1) == 0);
    return 0;
}

/* Once more: the frame is published at once, with the doorbell. The other takes the item by its
 * fields and its words, returns it and rings. */
static int check_item(ivshm_end *a, ivshm_end *b, const uint8_t *frame) {
    static uint8_t room[20];
    ivshm_publication published;
    ivshm_access access;
    ivshm_notes notes;
    ivshm_burst next;
    ivshm_frame_return made;
    WANT(ivshm_end_publish(a, &published, room, 20, &access) == IVSHM_NO_CALL && ivshm_end_offer_again(a) == IVSHM_DONE);
    WANT(ivshm_end_next(a, &access) == IVSHM_DONE && access.kind == IVSHM_READ);
    while (ivshm_end_publish(a, &published, room, 19, &access) == IVSHM_OTHER_ACCESS)
        WANT(ivshm_end_step(a, words[access.word], &notes, &access) == IVSHM_DONE);
    WANT(access.kind == IVSHM_WRITE && access.count == 10 && ivshm_end_publish(a, &published, room, 19, &access) == IVSHM_SHORT_ROOM);
    WANT(ivshm_end_publish(a, &published, room, 20, &access) == IVSHM_DONE && access.kind == IVSHM_RING);
    WANT(published.bursts[0].count == 10 && ivshm_end_publish(a, &published, room, 20, &access) == IVSHM_NO_CALL);
    words[published.bursts[0].word + 9] = 0;
    memcpy(words + published.bursts[0].word, frame, 38);
    memcpy(words + published.bursts[1].word, room, 16);
    memcpy(words + published.bursts[2].word, room + 16, 4);
    words[published.index] = published.accepted;
    WANT(ivshm_end_took_field(b, 0, &next) == IVSHM_NO_CALL && ivshm_end_begin(b, IVSHM_POLL) == IVSHM_DONE);
    WANT(ivshm_end_next(b, &access) == IVSHM_DONE && ivshm_end_took_field(b, words[access.word], &next) == IVSHM_OTHER_ACCESS);
    WANT(ivshm_end_took(b, words[access.word], &notes) == IVSHM_DONE && ivshm_end_next(b, &access) == IVSHM_DONE);
    next = (ivshm_burst){access.word, 0};
    for (int i = 0; i < 5; i++) WANT(next.count == 0 && ivshm_end_took_field(b, words[next.word], &next) == IVSHM_DONE);
    const uint8_t *read = (const uint8_t *)(words + next.word);
    WANT(next.count == 10 && ivshm_end_took_frame(b, read, 36, &made, &access) == IVSHM_OTHER_ACCESS);
    WANT(ivshm_end_took_frame(b, read, 40, &made, &access) == IVSHM_DONE && made.length == 38 && access.kind == IVSHM_RING);
    for (int i = 0; i < 38; i++) WANT(frame[i] == read[i]);
    words[made.element] = made.id;
    words[made.element + 1] = 1;
    words[made.index] = made.returned;
    notes.count = 7;
    WANT(ivshm_end_step(b, 0, &notes, &access) == IVSHM_NO_CALL && notes.count == 7 && ivshm_end_took_field(b, 0, &next) == IVSHM_NO_CALL);
    return 0;
}

/* Bursts: a section that is cleared, and a whole frame of 40 bytes. */
static int check_bursts(void) {
    static ivshm_end a = IVSHM_END_NONE, b = IVSHM_END_NONE;
    static uint8_t frame[40] = {255, 255, 255, 255, 255, 255, 2}, room[64];
    ivshm_found found = {.table = 4096, .out = 16384};
    ivshm_access access;
    ivshm_publication published;
    ivshm_notes notes = {.count = 7};
    size_t length;
    WANT(ivshm_end_new(&a, &found, 2, 0, 256, 1) == IVSHM_DONE && ivshm_end_new(&b, &found, 2, 1, 256, 1) == IVSHM_DONE);
    WANT(ivshm_end_next(&a, &access) == IVSHM_DONE && access.order == IVSHM_RELEASE && access.fence_before == 0 && access.fence_after == 1);
    WANT(ivshm_end_took_reads(&a, room, 4, &notes) == IVSHM_OTHER_ACCESS && notes.count == 7);
    WANT(run(&a, 0) == 0 && run(&b, 1) == 0 && ivshm_end_took_writes(&a, 1) == IVSHM_NO_CALL);
    WANT(ivshm_end_took_reads(&a, room, 4, &notes) == IVSHM_NO_CALL && ivshm_end_words(&a, room, 4) == IVSHM_NO_CALL);
    tick(&a, 0);
    tick(&b, 1);
    WANT(ivshm_end_begin(&a, IVSHM_TICK) == IVSHM_DONE && ivshm_end_next(&a, &access) == IVSHM_DONE && access.order == IVSHM_ACQUIRE);
    WANT(ivshm_end_took(&a, IVSHM_INIT, &notes) == IVSHM_DONE && ivshm_end_next(&a, &access) == IVSHM_DONE);
    WANT(access.kind == IVSHM_WRITE && access.count == 4096 && access.order == IVSHM_RELAXED);
    memset(room, 1, sizeof room);
    WANT(ivshm_end_words(&a, room, 64) == IVSHM_DONE && room[0] == 0 && room[63] == 0 && ivshm_end_took_reads(&a, room, 4, &notes) == IVSHM_OTHER_ACCESS);
    WANT(ivshm_end_took_writes(&a, 0) == IVSHM_BAD_COUNT && ivshm_end_took_writes(&a, 4097) == IVSHM_BAD_COUNT);
    memset(words + 1024, 0, (size_t)4 * 4096);
    WANT(ivshm_end_took_writes(&a, 4096) == IVSHM_DONE && run(&a, 0) == 0 && words[0] == IVSHM_READY);
    for (int i = 0; i < 10; i++) {
        tick(&b, 1);
        tick(&a, 0);
    }
    for (int i = 14; i < 40; i++) frame[i] = (uint8_t)i;
    WANT(ivshm_end_offer(&a, frame, 38) == IVSHM_DONE && ivshm_end_took(&a, words[5120 + 304], &notes) == IVSHM_DONE);
    WANT(ivshm_end_next(&a, &access) == IVSHM_DONE && access.word == 1024 + 448 && access.count == 10 && ivshm_end_words(&a, room, 40) == IVSHM_DONE);
    WANT(room[37] == 37 && room[38] == 0 && room[39] == 0 && ivshm_end_words(&a, room, 44) == IVSHM_BAD_COUNT);
    WANT(ivshm_end_words(&a, room, 6) == IVSHM_BAD_COUNT);
    memcpy(words + access.word, room, 40);
    WANT(ivshm_end_took_writes(&a, 10) == IVSHM_DONE && ivshm_end_next(&a, &access) == IVSHM_DONE && access.word == 1024 && access.count == 4);
    WANT(ivshm_end_publish(&a, &published, room, 64, &access) == IVSHM_OTHER_ACCESS);
    WANT(run(&a, 0) == 0 && ivshm_end_begin(&b, IVSHM_POLL) == IVSHM_DONE);
    for (int i = 0; i < 6; i++) WANT(ivshm_end_next(&b, &access) == IVSHM_DONE && ivshm_end_took(&b, words[access.word], &notes) == IVSHM_DONE);
    WANT(ivshm_end_next(&b, &access) == IVSHM_DONE && access.kind == IVSHM_READ && access.count == 10 && access.word == 1024 + 448);
    WANT(ivshm_end_took_reads(&b, frame, 0, &notes) == IVSHM_BAD_COUNT && ivshm_end_took_reads(&b, frame, 44, &notes) == IVSHM_BAD_COUNT);
    WANT(ivshm_end_took_reads(&b, (const uint8_t *)(words + access.word), 40, &notes) == IVSHM_DONE && notes.count == 1 && notes.note[0].kind == IVSHM_DELIVER);
    WANT(ivshm_end_frame(&b, room, 64, &length) == IVSHM_DONE && length == 38);
    for (int i = 0; i < 38; i++) WANT(frame[i] == room[i]);
    WANT(run(&b, 1) == 0);
    int line = check_after_a_word(&a, &b, frame);
    if (!line) line = check_item(&a, &b, frame);
    if (line) return line;
    WANT(ivshm_end_free(&a) == IVSHM_DONE && ivshm_end_free(&b) == IVSHM_DONE);
    return 0;
}

/* A link of version 2: after a poll that finds nothing the next frame rings, and the one after it
 * doesn't. */
static int check_events(void) {
    static ivshm_end a = IVSHM_END_NONE, b = IVSHM_END_NONE;
    static uint8_t frame[14] = {255, 255, 255, 255, 255, 255, 2};
    ivshm_found found = {.table = 4096, .out = 16384};
    ivshm_access access;
    ivshm_notes notes;
    WANT(ivshm_end_new_version(&a, &found, 2, 0, 256, 1, 0) == IVSHM_BAD_VERSION && ivshm_end_new_version(&a, &found, 2, 2, 256, 1, 2) == IVSHM_BAD_PEER);
    WANT(ivshm_end_new_version(&a, &found, 2, 0, 256, 1, IVSHM_VERSION + 1) == IVSHM_BAD_VERSION && a.at == NULL);
    WANT(ivshm_end_new_version(&a, &found, 2, 0, 256, 65536, 0) == IVSHM_BAD_VERSION && ivshm_end_new(&a, &found, 1, 0, 256, 65536) == IVSHM_BAD_VECTOR);
    WANT(ivshm_end_new_version(&a, &found, 2, 0, 256, 1, 2) == IVSHM_DONE && ivshm_end_new_version(&b, &found, 2, 1, 256, 1, 2) == IVSHM_DONE);
    WANT(ivshm_end_new_version(&a, &found, 2, 0, 256, 1, 2) == IVSHM_HAS_END && run(&a, 0) == 0 && run(&b, 1) == 0);
    for (int i = 0; i < 10; i++) {
        tick(&a, 0);
        tick(&b, 1);
    }
    for (int frames = 0; frames < 3; frames += 2) {
        /* the poll looks, writes its event index, with a full fence after it, and looks again */
        WANT(ivshm_end_begin(&b, IVSHM_POLL) == IVSHM_DONE);
        if (frames > 0) WANT(run(&b, 1) == frames && ivshm_end_begin(&b, IVSHM_POLL) == IVSHM_DONE);
        WANT(ivshm_end_took(&b, words[1024 + 256], &notes) == IVSHM_DONE && notes.count == 1 && notes.note[0].kind == IVSHM_LOOK && notes.note[0].value == 0);
        WANT(ivshm_end_next(&b, &access) == IVSHM_DONE && access.kind == IVSHM_WRITE && access.word == 5120 + 433 && access.value == (uint32_t)frames);
        WANT(access.count < 2 && access.order == IVSHM_RELAXED && access.fence_before == 0 && access.fence_after == 1 && run(&b, 1) == 0);
        /* after that, a poll that finds nothing is one look */
        WANT(ivshm_end_begin(&b, IVSHM_POLL) == IVSHM_DONE && ivshm_end_took(&b, words[1024 + 256], &notes) == IVSHM_DONE && notes.count == 2);
        WANT(notes.note[1].kind == IVSHM_FINISH);
        /* an offer ends with the read of that event index, with a full fence before it, and with
         * the doorbell if it is wanted */
        for (int asked = 1; asked >= 0; asked--) {
            WANT(ivshm_end_offer(&a, frame, 14) == IVSHM_DONE);
            do WANT(ivshm_end_next(&a, &access) == IVSHM_DONE && ivshm_end_took(&a, made(0, &access), &notes) == IVSHM_DONE);
            while (notes.count == 0 || notes.note[0].kind != IVSHM_ACCEPT);
            WANT(ivshm_end_next(&a, &access) == IVSHM_DONE && access.kind == IVSHM_READ && access.word == 5120 + 433);
            WANT(access.count < 2 && access.order == IVSHM_RELAXED && access.fence_before == 1 && access.fence_after == 0);
            WANT(ivshm_end_took(&a, words[access.word], &notes) == IVSHM_DONE);
            if (asked) WANT(ivshm_end_next(&a, &access) == IVSHM_DONE && access.kind == IVSHM_RING && ivshm_end_took(&a, 0, &notes) == IVSHM_DONE);
            WANT(notes.count == 1 && notes.note[0].kind == IVSHM_OVER && ivshm_end_next(&a, &access) == IVSHM_NO_CALL);
        }
    }
    WANT(ivshm_end_free(&a) == IVSHM_DONE && ivshm_end_free(&b) == IVSHM_DONE);
    return 0;
}

/* A link of version 3: after 45 frames of the longest length a short one fits, and the next one
 * begins at the start again. */
static int check_bytes(void) {
    static ivshm_end a = IVSHM_END_NONE, b = IVSHM_END_NONE;
    static uint8_t frame[274] = {255, 255, 255, 255, 255, 255, 2}, room[300];
    ivshm_found found = {.table = 4096, .out = 16384};
    ivshm_view view = {0};
    size_t length;
    WANT(ivshm_end_new_version(&a, &found, 2, 0, 256, 1, 3) == IVSHM_DONE && ivshm_end_new_version(&b, &found, 2, 1, 256, 1, 3) == IVSHM_DONE);
    WANT(run(&a, 0) == 0 && run(&b, 1) == 0);
    for (int i = 0; i < 10; i++) {
        tick(&a, 0);
        tick(&b, 1);
    }
    for (int i = 0; i < 46; i++) {
        WANT(view.outcome != IVSHM_WAS_FULL && ivshm_end_offer(&a, frame, 274) == IVSHM_DONE && run(&a, 0) == 0);
        WANT(ivshm_end_view(&a, &view) == IVSHM_DONE);
    }
    WANT(view.outcome == IVSHM_WAS_FULL && ivshm_end_offer(&a, frame, 14) == IVSHM_DONE && run(&a, 0) == 0);
    WANT(ivshm_end_view(&a, &view) == IVSHM_DONE && view.outcome == IVSHM_ACCEPTED && words[1024 + 4 * 45] == 16192);
    WANT(ivshm_end_begin(&b, IVSHM_POLL) == IVSHM_DONE && run(&b, 1) == 46);
    for (int i = 14; i < 274; i++) frame[i] = (uint8_t)i;
    WANT(ivshm_end_offer(&a, frame, 274) == IVSHM_DONE && run(&a, 0) == 0 && words[1024 + 4 * 46] == 1792);
    WANT(ivshm_end_begin(&b, IVSHM_POLL) == IVSHM_DONE && run(&b, 1) == 1);
    WANT(ivshm_end_frame(&b, room, 300, &length) == IVSHM_DONE && length == 274);
    for (int i = 0; i < 274; i++) WANT(frame[i] == room[i]);
    WANT(ivshm_end_free(&a) == IVSHM_DONE && ivshm_end_free(&b) == IVSHM_DONE);
    return 0;
}

/* Whether the end has these counts. */
static int has_counts(ivshm_end *end, ivshm_counts due) {
    ivshm_counts found;
    return ivshm_end_counts(end, &found) == IVSHM_DONE && found.sessions == due.sessions && found.accepted == due.accepted && found.full == due.full
        && found.down == due.down && found.delivered == due.delivered && found.refused == due.refused;
}

static int check_ends(void) {
    static ivshm_end a = IVSHM_END_NONE, b = IVSHM_END_NONE;
    static uint8_t frame[300] = {255, 255, 255, 255, 255, 255, 2}, room[300];
    ivshm_found found = {.table = 4096, .out = 16384};
    ivshm_access access;
    ivshm_notes notes;
    ivshm_view view;
    size_t length;
    WANT(ivshm_end_new(&a, &found, 2, 2, 256, 1) == IVSHM_BAD_PEER && ivshm_end_new(&a, &found, 2, 0, 255, 1) == IVSHM_BAD_MTU);
    WANT(ivshm_end_new(&a, &found, 2, 0, 256, 1) == IVSHM_DONE && ivshm_end_new(&b, &found, 2, 1, 256, 1) == IVSHM_DONE);
    WANT(ivshm_end_new(&a, &found, 2, 0, 256, 1) == IVSHM_HAS_END);
    /* State 0 comes first */
    WANT(ivshm_end_begin(&a, IVSHM_TICK) == IVSHM_CALL_OPEN);
    WANT(ivshm_end_next(&a, &access) == IVSHM_DONE && access.kind == IVSHM_STATE && access.value == IVSHM_RESET);
    words[0] = words[1] = 7;
    WANT(run(&a, 0) == 0 && run(&b, 1) == 0 && words[0] == 0 && words[1] == 0);
    WANT(ivshm_end_next(&a, &access) == IVSHM_NO_CALL && ivshm_end_took(&a, 0, &notes) == IVSHM_NO_CALL);
    WANT(ivshm_end_view(&a, &view) == IVSHM_DONE && view.outcome == IVSHM_NEVER && view.longest == 274 && view.delivered == 0);
    WANT(has_counts(&a, (ivshm_counts){0}));
    /* outside RUN an offer is down */
    WANT(ivshm_end_offer(&a, frame, 14) == IVSHM_DONE && run(&a, 0) == 0 && ivshm_end_view(&a, &view) == IVSHM_DONE && view.outcome == IVSHM_WAS_DOWN);
    WANT(has_counts(&a, (ivshm_counts){.down = 1}) && ivshm_end_begin(&b, IVSHM_POLL) == IVSHM_DONE && run(&b, 1) == 0);
    WANT(has_counts(&b, (ivshm_counts){.down = 1}));
    for (int i = 0; i < 10; i++) {
        tick(&a, 0);
        tick(&b, 1);
    }
    WANT(ivshm_end_view(&a, &view) == IVSHM_DONE && view.state == IVSHM_RUN && view.busy == 0);
    WANT(ivshm_end_offer(&a, frame, 13) == IVSHM_SHORT_FRAME && ivshm_end_offer(&a, frame, 275) == IVSHM_LONG_FRAME);
    WANT(ivshm_end_begin(&a, 3) == IVSHM_BAD_CALL);
    for (int i = 14; i < 274; i++) frame[i] = (uint8_t)i;
    WANT(ivshm_end_offer(&a, frame, 274) == IVSHM_DONE && ivshm_end_offer(&a, frame, 274) == IVSHM_CALL_OPEN);
    WANT(ivshm_end_view(&a, &view) == IVSHM_DONE && view.outcome == IVSHM_OPEN && view.busy == 1);
    WANT(run(&a, 0) == 0 && ivshm_end_view(&a, &view) == IVSHM_DONE && view.outcome == IVSHM_ACCEPTED);
    WANT(ivshm_end_begin(&b, IVSHM_POLL) == IVSHM_DONE && run(&b, 1) == 1);
    WANT(ivshm_end_frame(&b, room, 273, &length) == IVSHM_SHORT_ROOM && length == 274 && room[0] == 0);
    WANT(ivshm_end_frame(&b, room, 300, &length) == IVSHM_DONE && length == 274);
    for (int i = 0; i < 274; i++) WANT(frame[i] == room[i]);
    /* at last the link is full, and an offer that is cut has that outcome */
    view.outcome = IVSHM_ACCEPTED;
    for (int i = 0; i < 100 && view.outcome == IVSHM_ACCEPTED; i++) {
        WANT(ivshm_end_offer(&a, frame, 14) == IVSHM_DONE && run(&a, 0) == 0 && ivshm_end_view(&a, &view) == IVSHM_DONE);
    }
    WANT(view.outcome == IVSHM_WAS_FULL);
    /* the frame is still there, and fits once the other has polled */
    WANT(ivshm_end_offer_again(&a) == IVSHM_DONE && ivshm_end_offer_again(&a) == IVSHM_CALL_OPEN);
    WANT(run(&a, 0) == 0 && ivshm_end_view(&a, &view) == IVSHM_DONE && view.outcome == IVSHM_WAS_FULL);
    WANT(ivshm_end_begin(&b, IVSHM_POLL) == IVSHM_DONE && run(&b, 1) == 45);
    WANT(ivshm_end_offer_again(&a) == IVSHM_DONE && run(&a, 0) == 0 && ivshm_end_view(&a, &view) == IVSHM_DONE && view.outcome == IVSHM_ACCEPTED);
    WANT(ivshm_end_begin(&b, IVSHM_POLL) == IVSHM_DONE && run(&b, 1) == 1);
    WANT(ivshm_end_frame(&b, room, 300, &length) == IVSHM_DONE && length == 14);
    for (int i = 0; i < 14; i++) WANT(frame[i] == room[i]);
    WANT(ivshm_end_offer(&a, frame, 14) == IVSHM_DONE && ivshm_end_reset(&a) == IVSHM_DONE);
    WANT(ivshm_end_view(&a, &view) == IVSHM_DONE && view.outcome == IVSHM_CUT);
    WANT(view.state == IVSHM_RESET && run(&a, 0) == 0 && words[0] == 0);
    /* the other's index is out of range: its end refuses it, and stays in RESET */
    words[1024 + 256] = 200 << 16;
    WANT(ivshm_end_begin(&b, IVSHM_POLL) == IVSHM_DONE && run(&b, 1) == 0 && ivshm_end_view(&b, &view) == IVSHM_DONE);
    WANT(view.refused_field == IVSHM_AVAIL_INDEX && view.refused_value == 200 && view.state == IVSHM_RESET && words[1] == 0);
    /* 1 + 45 + 1 frames came, and two offers between them were full. A reset keeps the counts,
     * and a new end has none. */
    WANT(has_counts(&a, (ivshm_counts){.sessions = 1, .accepted = 47, .full = 2, .down = 1}));
    WANT(has_counts(&b, (ivshm_counts){.sessions = 1, .down = 1, .delivered = 47, .refused = 1}));
    WANT(ivshm_end_reset(&b) == IVSHM_DONE && has_counts(&b, (ivshm_counts){.sessions = 1, .down = 1, .delivered = 47, .refused = 1}));
    WANT(ivshm_end_free(&b) == IVSHM_DONE && ivshm_end_new(&b, &found, 2, 1, 256, 1) == IVSHM_DONE && has_counts(&b, (ivshm_counts){0}));
    WANT(ivshm_end_free(&a) == IVSHM_DONE && ivshm_end_free(&a) == IVSHM_NO_END && ivshm_end_free(&b) == IVSHM_DONE && a.at == NULL);
    return 0;
}

int check(void) {
    int line = check_tables();
    if (!line) line = check_handles();
    if (!line) line = check_bursts();
    if (!line) line = check_events();
    if (!line) line = check_bytes();
    return line ? line : check_ends();
}

#ifdef HOSTED
int main(void) { return check(); }
#else
/* Calls check on an aligned stack, and ends with its result. */
#ifdef __aarch64__
__asm__(".globl _start\n_start:\n bl check\n mov x8, #93\n svc #0");
#else
__asm__(".globl _start\n_start:\n and $-16, %rsp\n call check\n mov %eax, %edi\n mov $60, %eax\n syscall");
#endif
#endif
