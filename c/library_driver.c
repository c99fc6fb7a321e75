/* The C library as a driver (driver.h). The calls of the library run to their end, access by
 * access. */
#include "driver.h"
#include "ivshm_c.h"

#include <stdlib.h>

static ivshm_end end = IVSHM_END_NONE;
static struct driver_config config;

/* An answer that can't come here. */
static void must(uint32_t answer)
{
    if (answer != IVSHM_DONE)
        abort();
}

static uint32_t make(const ivshm_access *access)
{
    switch (access->kind) {
    case IVSHM_READ:
        return world_load(access->word);
    case IVSHM_WRITE:
        world_store(access->word, access->value);
        return 0;
    case IVSHM_STATE:
        world_state(access->value);
        return 0;
    case IVSHM_RING:
        world_ring(access->word, access->value);
        return 0;
    default:
        return 0;
    }
}

static void deliver(void)
{
    static uint8_t frame[IVSHM_LONGEST];
    size_t length = 0;

    must(ivshm_end_frame(&end, frame, sizeof frame, &length));
    world_deliver(frame, length);
}

/* Makes the accesses of the open call. */
static void finish(void)
{
    ivshm_access access;
    ivshm_notes notes;

    while (ivshm_end_next(&end, &access) == IVSHM_DONE) {
        must(ivshm_end_took(&end, make(&access), &notes));
        for (uint32_t i = 0; i < notes.count; i++)
            if (notes.note[i].kind == IVSHM_DELIVER)
                deliver();
    }
}

/* The call that a new end and a reset leave open writes State 0, which the State is already. */
static void pass_state(void)
{
    ivshm_access access;
    ivshm_notes notes;

    must(ivshm_end_next(&end, &access));
    if (access.kind != IVSHM_STATE || access.value != IVSHM_RESET)
        abort();
    must(ivshm_end_took(&end, 0, &notes));
}

bool driver_new(const struct driver_config *with)
{
    ivshm_found found = {.table = with->table, .common = with->common, .out = with->out};

    config = *with;
    if (end.at)
        must(ivshm_end_free(&end));
    if (ivshm_end_new_version(&end, &found, config.peers, config.me, config.mtu, config.vector, config.version) != IVSHM_DONE)
        return false;
    pass_state();
    return true;
}

static void call(uint32_t which)
{
    must(ivshm_end_begin(&end, which));
    finish();
}

void driver_tick(void) { call(IVSHM_TICK); }

void driver_poll(void) { call(IVSHM_POLL); }

void driver_stop(void) { call(IVSHM_STOP); }

void driver_offer(const uint8_t *frame, size_t length)
{
    if (ivshm_end_offer(&end, frame, length) == IVSHM_DONE)
        finish();
}

void driver_reset(void)
{
    must(ivshm_end_reset(&end));
    pass_state();
}
