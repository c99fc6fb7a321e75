/* A fuzz target for a driver of peer 0 (driver.h), for libFuzzer and AFL++:
 *
 *     clang -g -O1 -fsanitize=fuzzer,address fuzz.c DRIVER.c -o fuzz && ./fuzz CORPUS
 *     afl-clang-fast -O1 -fsanitize=fuzzer fuzz.c DRIVER.c -o fuzz
 *     afl-fuzz -i CORPUS -o FOUND ./fuzz
 *     cc -DSTANDALONE fuzz.c DRIVER.c -o fuzz && ./fuzz FILE..     these once, without a fuzzer
 *
 * The bytes of the input choose the calls and the value of each read. So the fuzzer decides the
 * other peer and the words between two reads. After each access the laws below are tested; the
 * first that is broken is printed, and the target aborts. tools/attack writes a corpus. */
#include "driver.h"

#include <inttypes.h>
#include <stdio.h>
#include <stdlib.h>

#ifndef VERSION
#define VERSION 1
#endif

enum { TABLE = 4096, OUT = 16384, MTU = 256, VECTOR = 1, RUN = 3 };
enum { FIRST = TABLE / 4, WORDS = OUT / 4, OTHER = FIRST + WORDS, REGION = FIRST + 2 * WORDS };
enum { SHORTEST = 14, LONGEST = 65553, MOST_ACCESSES = 300000 };
enum call { TICK, POLL, STOP, OFFER, RESET, CALLS };

static const uint8_t *input, *input_end;

/* The actions of the driver in the open call, and since its reset. */
static struct {
    enum call call;
    uint32_t accesses;          /* of the call */
    uint32_t state;             /* that was written last */
    bool refused;               /* State 0 was written in an offer or a poll, and no reset came since */
    uint64_t span;              /* a number for the reads between two stores, of all inputs so far */
    uint64_t read_in[REGION];   /* in which span a word was read last */
    uint32_t values[LONGEST];   /* that the reads of this span gave, in turn */
    uint32_t reads;             /* of the span */
} seen;

/* ---- the input ---- */

static uint8_t take_byte(void) { return input < input_end ? *input++ : 0; }

/* A value of a read: a byte that says how it is written, and the value. */
static uint32_t take_value(void)
{
    uint32_t value = 0;

    switch (take_byte() % 5) {
    case 0:
        return 0;
    case 1:
        return take_byte();
    case 2:
        return (uint32_t)take_byte() << 16;
    case 3:
        value = take_byte();
        return value | (uint32_t)take_byte() << 8;
    default:
        for (int i = 0; i < 4; i++)
            value |= (uint32_t)take_byte() << 8 * i;
        return value;
    }
}

/* ---- the laws ---- */

static void law(bool holds, const char *what)
{
    static const char *const names[] = {"tick", "poll", "stop", "offer", "reset"};

    if (holds)
        return;
    fprintf(stderr, "fuzz: a law is broken in a %s, at access %" PRIu32 ": %s\n", names[seen.call], seen.accesses, what);
    abort();
}

static void count_access(void)
{
    law(++seen.accesses <= MOST_ACCESSES, "the call ends");
    law(seen.call != RESET, "a reset makes no access");
}

static bool is_offer_or_poll(void) { return seen.call == OFFER || seen.call == POLL; }

uint32_t world_load(uint32_t word)
{
    uint32_t value = take_value();

    count_access();
    law(word == 1 || (word >= OTHER && word < REGION), "a read is of the other's State or section");
    law(seen.read_in[word] != seen.span, "a word is read once");
    law(!seen.refused || !is_offer_or_poll(), "a refusal stays: no read of an offer or a poll");
    seen.read_in[word] = seen.span;
    if (seen.reads < LONGEST)
        seen.values[seen.reads++] = value;
    return value;
}

void world_store(uint32_t word, uint32_t value)
{
    (void)value;
    count_access();
    law(word >= FIRST && word < OTHER, "a write is in the own section");
    law(!seen.refused, "a refusal stays: no write");
    seen.span++;
    seen.reads = 0;
}

void world_state(uint32_t value)
{
    count_access();
    law(value <= RUN, "a State is 0 to 3");
    law(!seen.refused || value == 0, "a refusal stays: State 0");
    law(!is_offer_or_poll() || value == 0, "an offer or a poll writes no State but 0");
    if (is_offer_or_poll())
        seen.refused = true;
    seen.state = value;
}

void world_ring(uint32_t peer, uint32_t vector)
{
    count_access();
    law(peer == 1 && vector == VECTOR, "a doorbell is the other's, with the vector of the link");
    law(!seen.refused, "a refusal stays: no doorbell");
}

void world_deliver(const uint8_t *frame, size_t length)
{
    uint32_t words = (uint32_t)((length + 3) / 4);

    law(seen.call == POLL && seen.state == RUN, "a frame is delivered by a poll in RUN");
    law(length >= SHORTEST && length <= LONGEST, "a frame has 14 to 65,553 bytes");
    law(words <= seen.reads, "a frame is what was read");
    for (size_t i = 0; i < length; i++)
        law(frame[i] == (uint8_t)(seen.values[seen.reads - words + i / 4] >> 8 * (i % 4)), "a frame is what was read last");
}

/* ---- the calls ---- */

static void offer(void)
{
    static uint8_t frame[MTU + 18];
    size_t length = take_byte();

    for (size_t i = 0; i < sizeof frame; i++)
        frame[i] = (uint8_t)i;
    driver_offer(frame, length < SHORTEST ? SHORTEST : length);
}

static void begin(enum call call)
{
    seen.call = call;
    seen.accesses = 0;
    seen.reads = 0;
    seen.span++;
}

static void make(enum call call)
{
    begin(call);
    switch (call) {
    case TICK:
        driver_tick();
        break;
    case POLL:
        driver_poll();
        break;
    case STOP:
        driver_stop();
        break;
    case OFFER:
        offer();
        break;
    default:
        driver_reset();
        seen.refused = false;
        seen.state = 0;
    }
}

int LLVMFuzzerTestOneInput(const uint8_t *data, size_t size);

int LLVMFuzzerTestOneInput(const uint8_t *data, size_t size)
{
    static const struct driver_config config = {.peers = 2, .mtu = MTU, .vector = VECTOR, .version = VERSION, .table = TABLE, .out = OUT};

    input = data;
    input_end = data + size;
    begin(RESET);
    if (!driver_new(&config))
        return 0;
    seen.refused = false;
    seen.state = 0;
    while (input < input_end)
        make((enum call)(take_byte() % CALLS));
    return 0;
}

#ifdef STANDALONE
/* The inputs of these files, once. */
int main(int argc, char **argv)
{
    static uint8_t data[1 << 20];

    for (int i = 1; i < argc; i++) {
        FILE *file = fopen(argv[i], "rb");

        if (!file) {
            perror(argv[i]);
            return 2;
        }
        LLVMFuzzerTestOneInput(data, fread(data, 1, sizeof data, file));
        fclose(file);
    }
    printf("fuzz: %d inputs keep the laws\n", argc - 1);
    return 0;
}
#endif
