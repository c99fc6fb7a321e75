/* The baseline of `sim` and `load` in plain C, for bench/all. Two honest peers choose their calls,
 * in version 1 of the link, with MSI-X of two vectors or more. It writes the record that `ivshm
 * sim` writes, byte for byte, and what `ivshm load N` writes. It believes its scenario, and checks
 * no value that it reads from the other's section.
 *
 *   plain sim < SCENARIO
 *   plain load N
 */
#include <stdbool.h>
#include <stdint.h>
#include <stdio.h>
#include <stdlib.h>
#include <string.h>

enum { RESET, INIT, READY, RUN };
enum round { ANEW, AFTER_OFFER, AFTER_POLL };

struct frame {
    uint8_t *bytes;
    uint32_t length;
};

struct peer {
    uint32_t me, own, other; /* its number, and the first words of the sections */
    uint32_t phase, sessions;
    uint16_t accepted, freed, taken;
    enum round round;
    struct frame *frames;
    uint32_t count, next; /* of its frames, how many, and the first that isn't accepted */
    uint64_t delivered, expected;
    uint16_t entry_halves[4096];
    int at; /* the step at which its open call goes on, or 0 */
    uint32_t i, left, descriptor, address, length;
    uint8_t *into; /* the frame that is read */
};

static struct peer peers[2];
static uint32_t *region, words, queue, limit, slot, data, available, used;
static bool writes;
static uint64_t lines, accepts, deliveries, last_index;
static char *text, *end_of_text;
static size_t room;

static uint32_t up64(uint32_t value) { return (value + 63) / 64 * 64; }

static void *claim(size_t size)
{
    void *found = calloc(size ? size : 1, 1);

    if (!found)
        exit(6);
    return found;
}

/* Makes room for more bytes of text. */
static void need(size_t count)
{
    size_t length = (size_t)(end_of_text - text);

    if (length + count <= room)
        return;
    room = 2 * room + count;
    text = realloc(text, room);
    if (!text)
        exit(6);
    end_of_text = text + length;
}

static void put_number(uint64_t value)
{
    char digits[20];
    int k = 20;

    do
        digits[--k] = (char)('0' + value % 10);
    while (value /= 10);
    memcpy(end_of_text, digits + k, (size_t)(20 - k));
    end_of_text += 20 - k;
}

static void put_word(const char *word)
{
    size_t length = strlen(word);

    memcpy(end_of_text, word, length);
    end_of_text += length;
}

/* A line: its word and its numbers. */
static void line(const char *word, int count, uint64_t a, uint64_t b, uint64_t c)
{
    lines++;
    if (!writes)
        return;
    need(100);
    put_word(word);
    for (int k = 0; k < count; k++) {
        *end_of_text++ = ' ';
        put_number(k == 0 ? a : k == 1 ? b : c);
    }
    *end_of_text++ = '\n';
}

/* A line with a frame. */
static void frame_line(const char *word, uint32_t me, const uint8_t *bytes, uint32_t length)
{
    static const char hex[] = "0123456789abcdef";

    lines++;
    if (!writes)
        return;
    need(100 + 2 * (size_t)length);
    put_word(word);
    *end_of_text++ = ' ';
    put_number(me);
    *end_of_text++ = ' ';
    for (uint32_t k = 0; k < length; k++) {
        *end_of_text++ = hex[bytes[k] >> 4];
        *end_of_text++ = hex[bytes[k] & 15];
    }
    *end_of_text++ = '\n';
}

static uint32_t load(const struct peer *p, uint32_t word)
{
    line("r", 3, p->me, word, region[word]);
    return region[word];
}

static void store(const struct peer *p, uint32_t word, uint32_t value)
{
    region[p->own + word] = value;
    line("w", 3, p->me, p->own + word, value);
}

static void set_state(struct peer *p, uint32_t state)
{
    p->phase = state;
    region[p->me] = state;
    line("s", 2, p->me, state, 0);
}

static uint32_t word_of(const struct frame *frame, uint32_t i)
{
    uint32_t value = 0;

    for (uint32_t k = 0; k < 4 && 4 * i + k < frame->length; k++)
        value |= (uint32_t)frame->bytes[4 * i + k] << 8 * k;
    return value;
}

static uint32_t entry_word(const struct peer *p, uint32_t position)
{
    uint32_t first = position / 2 * 2;

    return (uint32_t)p->entry_halves[first + 1] << 16 | p->entry_halves[first];
}

/* The state that a look leads to, or the same. */
static uint32_t next_phase(uint32_t phase, uint32_t seen)
{
    switch (phase) {
    case RESET: return seen <= INIT ? INIT : RESET;
    case INIT: return seen >= INIT ? READY : INIT;
    case READY: return seen == RESET ? RESET : seen >= READY ? RUN : READY;
    default: return seen == RESET ? RESET : RUN;
    }
}

/* The state of an open call between two steps. */
#define STEP(number) p->at = number; return; case number:

/* A step of the peer: an access of its open call, or of the call that it chooses. */
static void step(struct peer *p)
{
    const struct frame *f = p->next < p->count ? &p->frames[p->next] : NULL;
    uint32_t seen;

    switch (p->at) {
    case 0:
        if (!f && p->delivered >= p->expected) {
            line("idle", 1, p->me, 0, 0);
            return;
        }
        if (p->phase == RUN && p->round == ANEW && f)
            goto offer;
        if (p->phase == RUN && p->round != AFTER_POLL)
            goto poll;
        p->round = ANEW;
        seen = load(p, 1 - p->me);
        line("saw", 2, p->me, seen, 0);
        p->i = next_phase(p->phase, seen);
        if (p->i == p->phase)
            goto over;
        if (p->i == READY) {
            for (p->left = 0; p->left < words; p->left++) {
                STEP(1)
                store(p, p->left, 0);
            }
            p->accepted = p->freed = p->taken = 0;
            memset(p->entry_halves, 0, sizeof p->entry_halves);
            p->sessions++;
            p->i = READY;
        }
        STEP(2)
        set_state(p, p->i);
        if (p->i == RUN)
            line("session", 3, p->me, p->sessions, peers[1 - p->me].sessions);
        goto over;

    offer:
        p->round = AFTER_OFFER;
        p->left = (uint16_t)((load(p, p->other + used) >> 16) - p->freed);
        line("reclaim", 2, p->me, p->left, 0);
        for (; p->left > 0; p->left--) {
            STEP(3)
            (void)load(p, p->other + used + 1 + 2 * (p->freed % queue));
            p->freed++;
        }
        if ((uint16_t)(p->accepted - p->freed) >= limit) {
            line("full", 1, p->me, 0, 0);
            p->at = 0;
            return;
        }
        p->descriptor = p->accepted % limit;
        p->address = data + slot * p->descriptor;
        for (p->i = 0; p->i < (f->length + 3) / 4; p->i++) {
            STEP(4)
            store(p, p->address / 4 + p->i, word_of(f, p->i));
        }
        STEP(5)
        store(p, 4 * p->descriptor, p->address);
        STEP(6)
        store(p, 4 * p->descriptor + 1, 0);
        STEP(7)
        store(p, 4 * p->descriptor + 2, f->length);
        STEP(8)
        store(p, 4 * p->descriptor + 3, 0);
        STEP(9)
        p->entry_halves[p->accepted % queue] = (uint16_t)p->descriptor;
        store(p, available + 1 + p->accepted % queue / 2, entry_word(p, p->accepted % queue));
        STEP(10)
        p->accepted++;
        last_index = p->me == 0 ? p->accepted : last_index;
        store(p, available, (uint32_t)p->accepted << 16);
        frame_line("accept", p->me, f->bytes, f->length);
        accepts++;
        p->next++;
        STEP(11)
        line("d", 3, p->me, 1 - p->me, 1);
        goto over;

    poll:
        p->round = AFTER_POLL;
        p->left = (uint16_t)((load(p, p->other + available) >> 16) - p->taken);
        line("look", 2, p->me, p->left, 0);
        if (p->left == 0)
            goto done;
        for (; p->left > 0; p->left--) {
            STEP(12)
            seen = load(p, p->other + available + 1 + p->taken % queue / 2);
            p->descriptor = p->taken % 2 ? seen >> 16 : seen & 0xffff;
            STEP(13)
            p->address = load(p, p->other + 4 * p->descriptor);
            STEP(14)
            (void)load(p, p->other + 4 * p->descriptor + 1);
            STEP(15)
            p->length = load(p, p->other + 4 * p->descriptor + 2);
            STEP(16)
            (void)load(p, p->other + 4 * p->descriptor + 3);
            for (p->i = 0; p->i < (p->length + 3) / 4; p->i++) {
                STEP(17)
                seen = load(p, p->other + p->address / 4 + p->i);
                memcpy(p->into + 4 * (size_t)p->i, &seen, 4);
            }
            frame_line("deliver", p->me, p->into, p->length);
            p->delivered++;
            deliveries++;
            STEP(18)
            store(p, used + 1 + 2 * (p->taken % queue), p->descriptor);
            STEP(19)
            store(p, used + 2 + 2 * (p->taken % queue), 1);
            STEP(20)
            p->taken++;
            store(p, used, (uint32_t)p->taken << 16);
            line("return", 1, p->me, 0, 0);
        }
        STEP(21)
        line("d", 3, p->me, 1 - p->me, 1);
    done:
        line("done", 1, p->me, 0, 0);
        p->at = 0;
        return;
    }
over:
    line("over", 1, p->me, 0, 0);
    p->at = 0;
}

/* ---- the world ---- */

static bool lay_out(uint32_t table, uint32_t common, uint32_t out, uint32_t mtu)
{
    for (queue = 4096; queue >= 64; queue /= 2) {
        used = up64(18 * queue + 6);
        data = up64(used + 6 + 8 * queue);
        if (8 * data < out)
            break;
    }
    if (queue < 64)
        return false;
    slot = up64(mtu + 18);
    limit = (out - data) / slot < queue ? (out - data) / slot : queue;
    words = out / 4;
    available = 4 * queue;
    used /= 4;
    region = claim((size_t)table + common + 2 * (size_t)out);
    for (uint32_t me = 0; me < 2; me++) {
        struct peer *p = &peers[me];

        p->me = me;
        p->own = (table + common) / 4 + me * words;
        p->other = (table + common) / 4 + (1 - me) * words;
        p->into = claim(65556);
    }
    return limit > 0;
}

static void turn(uint32_t me, uint64_t steps)
{
    for (; steps > 0; steps--)
        step(&peers[me]);
}

static uint8_t *bytes_of(const char *digits, uint32_t length)
{
    uint8_t *bytes = claim(length);

    for (uint32_t k = 0; k < length; k++) {
        char pair[3] = {digits[2 * k], digits[2 * k + 1], 0};

        bytes[k] = (uint8_t)strtoul(pair, NULL, 16);
    }
    return bytes;
}

static void add_frame(struct peer *p, uint8_t *bytes, uint32_t length)
{
    if ((p->count & (p->count + 1)) == 0) {
        p->frames = realloc(p->frames, (2 * (size_t)p->count + 2) * sizeof *p->frames);
        if (!p->frames)
            exit(6);
    }
    p->frames[p->count++] = (struct frame){.bytes = bytes, .length = length};
}

static char *all_input(size_t *length)
{
    size_t size = 1 << 16;
    char *input = claim(size + 1);

    *length = 0;
    for (size_t got; (got = fread(input + *length, 1, size - *length, stdin)) > 0;) {
        *length += got;
        if (*length == size) {
            size *= 2;
            input = realloc(input, size + 1);
            if (!input)
                exit(6);
        }
    }
    input[*length] = 0;
    return input;
}

static uint64_t number_after(const char *input, const char *word)
{
    const char *found = strstr(input, word);

    return found ? strtoull(found + strlen(word), NULL, 10) : 0;
}

static int sim(void)
{
    size_t length;
    char *input = all_input(&length), *act = strstr(input, "begin\n");

    writes = true;
    if (!act || !lay_out((uint32_t)number_after(input, "\ntable "), (uint32_t)number_after(input, "\ncommon "),
                         (uint32_t)number_after(input, "\nout "), (uint32_t)number_after(input, "\nmtu ")))
        return 3;
    need(length + 100);
    put_word("record 2\n");
    memcpy(end_of_text, input, length);
    end_of_text += length;
    for (act = strchr(act, '\n') + 1; strncmp(act, "end\n", 4) != 0; act = strchr(act, '\n') + 1) {
        char *place;
        uint32_t me = (uint32_t)strtoul(strchr(act, ' ') + 1, &place, 10);

        if (*act == 't')
            turn(me, strtoull(place, NULL, 10));
        else if (*act == 'a')
            peers[me].expected = strtoull(place, NULL, 10);
        else {
            uint32_t size = (uint32_t)(strchr(place, '\n') - place - 1) / 2;

            add_frame(&peers[me], bytes_of(place + 1, size), size);
        }
    }
    need(100);
    put_word("end ");
    put_number(lines);
    *end_of_text++ = '\n';
    return fwrite(text, 1, (size_t)(end_of_text - text), stdout) == (size_t)(end_of_text - text) ? 0 : 5;
}

static int load_of(uint32_t count)
{
    if (!lay_out(4096, 0, 16384, 256))
        return 3;
    peers[1].expected = count;
    for (uint32_t k = 0; k < count; k++) {
        uint32_t length = 14 + k % 3;
        uint8_t *bytes = claim(length);

        for (uint32_t j = 0; j < length; j++)
            bytes[j] = (uint8_t)(31 * k + 7 * j);
        add_frame(&peers[0], bytes, length);
    }
    for (uint32_t k = 0; k < 200 + (count + 2) / 3; k++) {
        turn(0, 64);
        turn(1, 64);
    }
    printf("load %u\naccepted %llu\ndelivered %llu\nrefused 0\nindex %llu\n", count, (unsigned long long)accepts,
           (unsigned long long)deliveries, (unsigned long long)last_index);
    return 0;
}

int main(int count, char **given)
{
    if (count == 2 && strcmp(given[1], "sim") == 0)
        return sim();
    if (count == 3 && strcmp(given[1], "load") == 0)
        return load_of((uint32_t)strtoul(given[2], NULL, 10));
    fputs("usage: plain sim < SCENARIO | plain load N\n", stderr);
    return 2;
}
