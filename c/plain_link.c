/* An end of the link in plain C, version 1: a second driver (driver.h), written from
 * docs/LINK.md, without the library. It is here for play.c and fuzz.c
 * to find its faults, and isn't proved. FAULT takes one of its checks away:
 *   0, the default: none;
 *   1: a frame may end past the section (the other's length alone is tested);
 *   2: the length is read again when it is used;
 *   3: a refusal is forgotten at once, so that the end comes back by itself. */
#include "driver.h"

#include <string.h>

#ifndef FAULT
#define FAULT 0
#endif

enum { RESET, INIT, READY, RUN };
enum { SHORTEST = 14, LONGEST = 65553, LEAST_QUEUE = 64, MOST_QUEUE = 4096 };

/* The words of a section, from its start. */
struct layout {
    uint32_t words;      /* of the section */
    uint32_t size;       /* of the queue: descriptors, entries, used elements */
    uint32_t limit;      /* frames in flight */
    uint32_t slot;       /* bytes of a slot */
    uint32_t data;       /* byte at which the data area begins */
    uint32_t available;  /* the available index, in the high half */
    uint32_t entries;    /* two in a word */
    uint32_t used;       /* the used index, in the high half */
    uint32_t elements;   /* two words each */
};

static struct plain_link {
    struct driver_config config;
    struct layout layout;
    uint32_t own, other; /* first words of the sections */
    uint32_t phase;
    bool refused;
    uint16_t accepted;   /* frames published in this session */
    uint16_t freed;      /* of these, those that came back */
    uint16_t taken;      /* frames taken from the other */
    uint32_t entry_words[MOST_QUEUE / 2];
    uint8_t frame[LONGEST + 3];
} link_end;

static uint32_t up64(uint32_t value) { return (value + 63) / 64 * 64; }

static uint32_t used_start(uint32_t n) { return up64(18 * n + 6); }

static uint32_t rings_len(uint32_t n) { return up64(used_start(n) + 6 + 8 * n); }

static bool lay_out(struct layout *l, const struct driver_config *c)
{
    uint32_t n = MOST_QUEUE, out = (uint32_t)c->out;

    while (n >= LEAST_QUEUE && 8 * rings_len(n) >= out)
        n /= 2;
    if (n < LEAST_QUEUE)
        return false;
    l->words = out / 4;
    l->size = n;
    l->slot = up64(c->mtu + 18);
    l->data = rings_len(n);
    l->limit = (out - l->data) / l->slot;
    if (l->limit > n)
        l->limit = n;
    l->available = 4 * n;
    l->entries = l->available + 1;
    l->used = used_start(n) / 4;
    l->elements = l->used + 1;
    return l->limit > 0;
}

/* Ends the link at a value out of range. */
static void refuse(struct plain_link *p)
{
    p->phase = RESET;
    p->refused = FAULT != 3;
    world_state(RESET);
}

static uint32_t load(const struct plain_link *p, uint32_t word) { return world_load(p->other + word); }

static void store(const struct plain_link *p, uint32_t word, uint32_t value) { world_store(p->own + word, value); }

static uint32_t index_of(uint32_t word) { return word >> 16; }

/* ---- the handshake ---- */

static void set_phase(struct plain_link *p, uint32_t phase)
{
    p->phase = phase;
    world_state(phase);
}

/* Clears the own section, and begins a session. */
static void begin_session(struct plain_link *p)
{
    for (uint32_t i = 0; i < p->layout.words; i++)
        store(p, i, 0);
    p->accepted = p->freed = p->taken = 0;
    memset(p->entry_words, 0, sizeof p->entry_words);
    set_phase(p, READY);
}

void driver_tick(void)
{
    struct plain_link *p = &link_end;
    uint32_t seen = world_load(1 - p->config.me);

    if (p->refused)
        return;
    switch (p->phase) {
    case RESET:
        if (seen <= INIT)
            set_phase(p, INIT);
        break;
    case INIT:
        if (seen >= INIT)
            begin_session(p);
        break;
    case READY:
        if (seen == RESET)
            set_phase(p, RESET);
        else if (seen >= READY)
            set_phase(p, RUN);
        break;
    default:
        if (seen == RESET)
            set_phase(p, RESET);
    }
}

void driver_stop(void) { set_phase(&link_end, RESET); }

/* ---- sending ---- */

/* Frees the frames that came back, in their order. Returns false if a value was refused. */
static bool reclaim(struct plain_link *p)
{
    const struct layout *l = &p->layout;
    uint16_t in_flight = (uint16_t)(p->accepted - p->freed);
    uint16_t count = (uint16_t)(index_of(load(p, l->used)) - p->freed);

    if (count > in_flight) {
        refuse(p);
        return false;
    }
    for (; count > 0; count--) {
        uint32_t id = load(p, l->elements + 2 * (p->freed % l->size));

        if (id != p->freed % l->limit) {
            refuse(p);
            return false;
        }
        p->freed++;
    }
    return true;
}

static void store_frame(const struct plain_link *p, uint32_t at, const uint8_t *frame, size_t length)
{
    for (size_t i = 0; i < length; i += 4) {
        uint32_t value = 0;

        for (size_t k = 0; k < 4 && i + k < length; k++)
            value |= (uint32_t)frame[i + k] << 8 * k;
        store(p, at / 4 + (uint32_t)(i / 4), value);
    }
}

/* The entry of the frame in its half of the word; the other half is as it was written last. */
static void store_entry(struct plain_link *p, uint32_t position, uint32_t descriptor)
{
    uint32_t *word = &p->entry_words[position / 2];
    uint32_t shift = 16 * (position % 2);

    *word = (*word & ~(0xffffu << shift)) | descriptor << shift;
    store(p, p->layout.entries + position / 2, *word);
}

void driver_offer(const uint8_t *frame, size_t length)
{
    struct plain_link *p = &link_end;
    const struct layout *l = &p->layout;
    uint32_t descriptor, at;

    if (p->phase != RUN || length < SHORTEST || length > p->config.mtu + 18 || !reclaim(p))
        return;
    if ((uint16_t)(p->accepted - p->freed) >= l->limit)
        return;
    descriptor = p->accepted % l->limit;
    at = l->data + l->slot * descriptor;
    store_frame(p, at, frame, length);
    store(p, 4 * descriptor, at);
    store(p, 4 * descriptor + 1, 0);
    store(p, 4 * descriptor + 2, (uint32_t)length);
    store(p, 4 * descriptor + 3, 0);
    store_entry(p, p->accepted % l->size, descriptor);
    p->accepted++;
    store(p, l->available, (uint32_t)p->accepted << 16);
    world_ring(1 - p->config.me, p->config.vector);
}

/* ---- receiving ---- */

static bool fits_data(const struct layout *l, uint64_t address)
{
    return address >= l->data && address < 4 * (uint64_t)l->words && address % 4 == 0;
}

static bool fits_length(const struct layout *l, uint64_t address, uint32_t length)
{
    if (length < SHORTEST || length > LONGEST)
        return false;
    return FAULT == 1 || address + length <= 4 * (uint64_t)l->words;
}

/* Takes the frame of a descriptor. Returns false if a value was refused. */
static bool take_frame(struct plain_link *p, uint32_t descriptor)
{
    const struct layout *l = &p->layout;
    uint64_t address = load(p, 4 * descriptor);
    uint32_t length;

    address |= (uint64_t)load(p, 4 * descriptor + 1) << 32;
    if (!fits_data(l, address))
        return false;
    length = load(p, 4 * descriptor + 2);
    if (!fits_length(l, address, length))
        return false;
    if (load(p, 4 * descriptor + 3) & 0xffff)
        return false;
    if (FAULT == 2 && (length = load(p, 4 * descriptor + 2)) > LONGEST)
        return false;
    for (uint32_t i = 0; i < (length + 3) / 4; i++) {
        uint32_t value = load(p, (uint32_t)(address / 4) + i);

        for (uint32_t k = 0; k < 4; k++)
            p->frame[4 * i + k] = (uint8_t)(value >> 8 * k);
    }
    world_deliver(p->frame, length);
    return true;
}

/* Takes the next frame and returns its slot. Returns false if a value was refused. */
static bool take_item(struct plain_link *p)
{
    const struct layout *l = &p->layout;
    uint32_t position = p->taken % l->size;
    uint32_t descriptor = load(p, l->entries + position / 2) >> 16 * (position % 2) & 0xffff;

    if (descriptor >= l->size || !take_frame(p, descriptor)) {
        refuse(p);
        return false;
    }
    store(p, l->elements + 2 * position, descriptor);
    store(p, l->elements + 2 * position + 1, 1);
    p->taken++;
    store(p, l->used, (uint32_t)p->taken << 16);
    return true;
}

void driver_poll(void)
{
    struct plain_link *p = &link_end;
    uint16_t count;

    if (p->phase != RUN)
        return;
    count = (uint16_t)(index_of(load(p, p->layout.available)) - p->taken);
    if (count > p->layout.size) {
        refuse(p);
        return;
    }
    if (count == 0)
        return;
    for (; count > 0; count--)
        if (!take_item(p))
            return;
    world_ring(1 - p->config.me, p->config.vector);
}

/* ---- beginnings ---- */

bool driver_new(const struct driver_config *config)
{
    struct plain_link *p = &link_end;

    memset(p, 0, sizeof *p);
    p->config = *config;
    if (config->version != 1 || config->me > 1 || !lay_out(&p->layout, config))
        return false;
    p->own = (uint32_t)((config->table + config->common + config->me * config->out) / 4);
    p->other = (uint32_t)((config->table + config->common + (1 - config->me) * config->out) / 4);
    return true;
}

void driver_reset(void)
{
    link_end.phase = RESET;
    link_end.refused = false;
}
