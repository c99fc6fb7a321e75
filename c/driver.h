/* A driver of the link, as play.c and fuzz.c see it: what a driver under test offers, and the
 * four accesses that it makes.
 *
 * To try a driver of your own, replace its load, store, State register and Doorbell register by the
 * four functions world_load to world_ring. A few lines offer its calls as the functions driver_new
 * to driver_reset. library_driver.c does this for the C library, and plain_link.c is a driver
 * without it. docs/DRIVERS.md has more.
 */
#ifndef DRIVER_H
#define DRIVER_H
#include <stdbool.h>
#include <stddef.h>
#include <stdint.h>

/* A peer of the link and its region. Sizes are in bytes; words are counted from the base of the
 * region. */
struct driver_config {
    uint32_t me;      /* the peer, 0 or 1 */
    uint32_t peers;   /* the Maximum Peers register */
    uint32_t mtu;
    uint32_t vector;  /* by which the other peer is rung */
    uint32_t version; /* of the link */
    uint32_t table;   /* the State Table */
    uint64_t common;  /* the common section */
    uint64_t out;     /* each output section */
};

/* ---- what the driver offers ---- */

/* Begins with this peer, whose State is 0 already. Returns false if the driver can't have these
 * sizes or this version. It makes no access. */
bool driver_new(const struct driver_config *config);

/* The calls, each to its end: a look at the other's State, the frames that came, leaving the
 * link, and a frame to be sent. */
void driver_tick(void);
void driver_poll(void);
void driver_stop(void);
void driver_offer(const uint8_t *frame, size_t length);

/* The device of the peer was reset, and its State is 0 already. A call that was open is gone: it
 * doesn't return. It makes no access. */
void driver_reset(void);

/* ---- what the driver calls ---- */

uint32_t world_load(uint32_t word);                          /* reads a word */
void world_store(uint32_t word, uint32_t value);             /* writes a word */
void world_state(uint32_t value);                            /* writes the State register */
void world_ring(uint32_t peer, uint32_t vector);             /* writes the Doorbell register */
void world_deliver(const uint8_t *frame, size_t length);     /* hands over a frame that came; no access */
#endif
