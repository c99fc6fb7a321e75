/* budget FRAMES: a hostile peer fills its queue with the longest frames that exist, again and
 * again. An end takes at most FRAMES of them in each call, as in NAPI. The program checks what
 * ivshm_link.h says of a budget:
 * - no call delivers more frames;
 * - the poll is over after a bounded number of calls;
 * - until then a send and a tick change nothing;
 * - a send that waited is accepted before the next poll begins;
 * - the frames are those that one poll delivers.
 * It ends with 0 if all of that holds. */
#include <inttypes.h>
#include <stdbool.h>
#include <stdio.h>
#include <stdlib.h>

#include "ivshm_link.h"

enum { OUT = 520192, MTU = 1500, WORDS = 1024 + 2 * OUT / 4, ROUNDS = 20 };

static uint32_t words[WORDS], room[(IVSHM_LONGEST + 3) / 4];
static uint64_t digest; /* of the frames delivered */
static ivshm_link link;

static void write_state(void *context, uint32_t state) {
    (void)context;
    words[0] = state;
}

static void deliver(void *context, const uint8_t *frame, size_t length) {
    (void)context;
    digest = (digest ^ length ^ frame[length - 1]) * 0x9e3779b97f4a7c15u;
}

static void expect(bool right, const char *what) {
    if (right) return;
    printf("budget: %s\n", what);
    exit(1);
}

static void open_link(void) {
    ivshm_link_setup setup = {.peers = 2, .mtu = MTU, .vector = 1, .version = 2};
    setup.found = (ivshm_found){.table = 4096, .out = OUT, .protocol = IVSHM_PROTOCOL};
    setup.other_state = words + 1;
    setup.own_section = words + 1024;
    setup.other_section = words + 1024 + OUT / 4;
    setup.room = room;
    setup.room_size = sizeof room;
    setup.write_state = write_state;
    setup.deliver = deliver;
    expect(ivshm_link_open(&link, &setup) == IVSHM_DONE, "the link isn't open");
}

/* The hostile peer: a handshake, and then a full queue whose entries all name descriptor 0. */
static void play_handshake(void) {
    uint32_t *own = words + 1024 + OUT / 4;
    for (uint32_t state = IVSHM_INIT; state <= IVSHM_RUN; state++) {
        words[1] = state;
        ivshm_link_tick(&link);
    }
    expect(link.state == IVSHM_RUN, "the end isn't in RUN");
    own[0] = link.layout.data_area;
    own[2] = link.layout.longest_delivery;
    own[link.layout.available_index] = 0;
}

static void fill_queue(void) {
    uint32_t *index = words + 1024 + OUT / 4 + link.layout.available_index;
    *index = ((*index >> 16) + link.layout.queue_size) << 16;
}

/* Takes a full queue with this budget, and returns the accesses of its longest call. */
static uint64_t take_with(uint32_t budget) {
    static const uint8_t frame[64] = {255, 255, 255, 255, 255, 255, 2};
    uint32_t outcome = IVSHM_NEVER, delivered, calls = 0;
    uint64_t longest = 0, all = link.counts.delivered + link.layout.queue_size, accepted = link.counts.accepted;
    do {
        uint64_t accesses = link.counts.accesses;
        delivered = ivshm_link_poll(&link, budget);
        expect(delivered <= budget, "more frames than the budget");
        accesses = link.counts.accesses - accesses;
        if (accesses > longest) longest = accesses;
        calls++;
        if (!ivshm_link_is_open(&link)) break;
        expect(delivered == budget, "the poll is open, and has fewer frames than the budget");
        expect(ivshm_link_send(&link, frame, sizeof frame, &outcome) == IVSHM_CALL_OPEN, "a send in an open poll");
        expect(ivshm_link_tick(&link) == IVSHM_CALL_OPEN, "a tick in an open poll");
        expect(link.counts.accepted == accepted, "a send in an open poll was accepted");
    } while (delivered > 0);
    expect(link.counts.delivered == all, "not all frames of the queue");
    expect(calls <= link.layout.queue_size / budget + 1, "more calls than the bound");
    expect(ivshm_link_send(&link, frame, sizeof frame, &outcome) == IVSHM_DONE, "the send that waited");
    expect(outcome == IVSHM_ACCEPTED, "the send that waited wasn't accepted");
    return longest;
}

int main(int argc, char **argv) {
    uint64_t longest = 0, whole, at_once;
    if (argc != 2) return 2;
    uint32_t budget = (uint32_t)strtoul(argv[1], NULL, 10);
    if (budget == 0) return 2;
    for (uint32_t i = 0; i < OUT / 4; i++) words[1024 + OUT / 4 + i] = i * 2654435761u;
    open_link();
    expect(ivshm_link_poll(&link, 0) == 0 && !ivshm_link_is_open(&link), "a budget of 0");
    memset(words + 1024 + OUT / 4, 0, link.layout.data_area);
    play_handshake();
    fill_queue();
    whole = take_with(IVSHM_LINK_ALL);
    at_once = digest;
    for (int round = 0; round < ROUNDS; round++) {
        digest = 0;
        fill_queue();
        uint64_t accesses = take_with(budget);
        if (accesses > longest) longest = accesses;
        expect(digest == at_once, "other frames than by one poll");
    }
    expect(link.counts.refusals == 0 && link.counts.stray == 0, "a refusal or a stray access");
    expect(ivshm_link_close(&link) == IVSHM_DONE, "the link isn't closed");
    printf("budget: %u frames a call; %" PRIu64 " accesses at most in a call, %" PRIu64 " without a budget; %u polls of %u frames, %" PRIu64
           " sends that waited were accepted\n",
           budget, longest, whole, ROUNDS, link.layout.queue_size, link.counts.accepted);
    return 0;
}
