/* The devices of an Inter-VM Shared Memory world, version 2, for hypervisors.
 *
 * A hypervisor (a VMM, a device server, a partitioner) gives 2 to 8 guests one region of shared
 * memory, and each guest a PCI device. The device has a configuration space, a register page and an
 * MSI-X table. This library is those devices. docs/DEVICE.md of the repository has their rules,
 * docs/DEVICE_C.md the way from nothing to a device in a VMM.
 *
 * The library maps nothing, writes no shared memory and raises no interrupt. Each call returns what
 * the hypervisor has to do:
 *
 *     ivshm_device device = IVSHM_DEVICE_NONE;
 *     ivshm_effect effect;
 *     uint32_t i;
 *     if (ivshm_device_new(&device, peers, table, common, out, vectors) != IVSHM_DEVICE_DONE) ..
 *     // guest `peer` stores a word in its register page:
 *     if (ivshm_device_register_write(&device, peer, offset, value, &effect) ==
 *         IVSHM_DEVICE_DONE) {
 *         if (effect.writes_state) store_release(&state_table[peer], effect.state);
 *         for (i = 0; i < effect.count; i++) {
 *             ivshm_message message;
 *             uint32_t to = effect.deliveries[i].peer, vector = effect.deliveries[i].vector;
 *             if (ivshm_device_message(&device, to, vector, &message) == IVSHM_DEVICE_DONE)
 *                 inject(to, message.address, message.data); // as KVM_SIGNAL_MSI does
 *         }
 *     }
 *
 * DUTIES OF THE CALLER. Nothing checks these; what is proved holds if they are kept.
 *
 *  1. A handle is IVSHM_DEVICE_NONE, or what a call left in it. The handle is never copied, and one
 *     call at a time uses it: calls on one handle are ordered by a lock, or by one thread. During a
 *     call the handle is null. Calls on different handles may overlap if rattle_alloc and
 *     rattle_dealloc may.
 *  2. Every other pointer is valid, aligned, and to memory that nothing else touches during the
 *     call. In particular no struct of a call is in memory that a guest can write.
 *  3. The hypervisor maps the region: the State Table read-only for every guest, the common section
 *     writable for every guest, and each output section writable for its own peer and read-only for
 *     the others. ivshm_device_new says that the region is at guest-physical address 4 GiB,
 *     ivshm_device_new_at that it is at another address, or at the start of the window of Base
 *     Address Register 2, wherever the guest puts that. The library never touches the region.
 *  4. Only the hypervisor writes the State Table. After a call with `writes_state` 1 it stores
 *     `state` to the word of the calling peer, before the write of the guest completes. A write
 *     that the hypervisor posts completes before the guest's next read of the register is
 *     answered. The store comes before the hypervisor injects the deliveries of this call, and
 *     before it makes another call. If it is late, honest ends may refuse each other, and deliver
 *     frames that were never offered. At the start all words are 0.
 *  5. The hypervisor injects the deliveries of a call in any order, each once, before it makes the
 *     next call on the handle or at any later time. A delivery is a pulse. With MSI-X it is the
 *     message that ivshm_device_message returns right after the call; with INTx it is the line of
 *     the peer (docs/DEVICE.md says what INTx lacks).
 *  6. Each access of a guest is one call, in the order in which the guest makes the accesses. An
 *     access to a Base Address Register's window is an offset in that window. The hypervisor reads
 *     the Base Address Registers, Command bit 1 (memory space) and the MSI-X enable bit with
 *     ivshm_device_config_read, and places the windows. The library answers an access to a window
 *     whatever Command says.
 *  7. When a guest is reset, the hypervisor calls ivshm_device_reset. When a guest leaves, it calls
 *     ivshm_device_disconnect, and ivshm_device_connect when a successor starts. Each of the first
 *     two sets State to 0: duty 4.
 *  8. rattle_alloc and rattle_dealloc do what their declarations say, and memcpy, memmove and
 *     memset do what C says.
 *  9. The archive fits the code that calls it: a kernel or a hypervisor in ring 0 links the form of
 *     tools/c_library --device --kernel, which uses neither the red zone nor vector registers.
 * 10. With one process for each guest, each process has a handle of its own, made with the same
 *     arguments, and makes all calls of its guest. Of each other guest it makes at least
 *     ivshm_device_reset, _disconnect and _connect, and the writes of a word to State, or to the
 *     Doorbell with its own guest as the target. It makes these calls in that guest's order. Of an
 *     effect it carries out the deliveries to its own guest, and the State word of its own guest.
 *     The handle answers for its own guest only. docs/DEVICE_C.md says how a process begins later.
 *
 * STACK. A call uses at most IVSHM_DEVICE_STACK bytes of stack, without what memcpy, memmove,
 * memset, rattle_alloc and rattle_dealloc use. checks/c_device measures each call.
 *
 * MEMORY. ivshm_device_new and ivshm_device_new_at allocate one block for the peers, one for each
 * peer's MSI-X table if `vectors` is not 0, and one small block. No other call allocates memory.
 *
 * WHAT IS PROVED, for all arguments, if the duties are kept:
 *
 *  - Each status has exactly the cause that is written here. The exception is
 *    IVSHM_DEVICE_NO_MEMORY, which any call that makes devices may return.
 *  - A status other than IVSHM_DEVICE_DONE changes neither the devices nor what a pointer leads to.
 *  - Every value that is read, every effect and every state of the devices is that of the device's
 *    rules after all calls since that one.
 *  - With one process for each guest, all this holds of a handle and its own guest as if the handle
 *    had every event of every guest, in the order of its calls (duty 10).
 *  - Every call ends.
 *
 * WHAT IS TRUSTED: this header's match with the library, what the hypervisor does with an effect,
 * rattle_alloc and rattle_dealloc, the compiler and the proof checker. No proof says that the rules
 * are those of the device's specification: docs/DEVICE.md has them for a reader to compare.
 */
#ifndef IVSHM_DEVICE_H
#define IVSHM_DEVICE_H

#ifdef __KERNEL__
#include <linux/stddef.h>
#include <linux/types.h>
#else
#include <stddef.h>
#include <stdint.h>
#endif

#ifdef __cplusplus
extern "C" {
#endif

/* The version of the library, and of its binary interface: the same number, the same functions,
 * constants and structs. */
#define IVSHM_DEVICE_LIBRARY_VERSION "1.0"
#define IVSHM_DEVICE_ABI_VERSION 1

/* Bounds. */
#define IVSHM_DEVICE_PEERS 8         /* the most peers of a world */
#define IVSHM_DEVICE_VECTORS 64      /* the most MSI-X vectors of a peer */
#define IVSHM_DEVICE_CONFIG_BYTES 256 /* the bytes of a configuration space */
#define IVSHM_DEVICE_STACK 4096      /* the bytes of stack that a call uses at most */

/* The handle of the devices of a world. Its one field belongs to the library. */
typedef struct ivshm_device {
    void *at;
} ivshm_device;

/* The empty handle. */
#define IVSHM_DEVICE_NONE { NULL }

/* The statuses. The statuses of ivshm_c.h with the same meaning have the same numbers. */
enum {
    IVSHM_DEVICE_DONE = 0,
    IVSHM_DEVICE_EMPTY = 1,         /* the handle is empty: freed, or never filled */
    IVSHM_DEVICE_FULL = 2,          /* ivshm_device_new: the handle holds devices already */
    IVSHM_DEVICE_NO_MEMORY = 5,     /* ivshm_device_new: rattle_alloc has no block */
    IVSHM_DEVICE_BAD_PEER = 10,     /* the peer is not below the number of peers */
    IVSHM_DEVICE_BAD_PEERS = 11,    /* the peers are not 2 to IVSHM_DEVICE_PEERS */
    IVSHM_DEVICE_BAD_TABLE = 12,    /* the State Table is not 1 or more whole pages of 4,096 bytes */
    IVSHM_DEVICE_BAD_COMMON = 13,   /* the common section is not whole pages */
    IVSHM_DEVICE_BAD_OUT = 14,      /* the output section is not whole pages, at least one */
    IVSHM_DEVICE_SMALL_TABLE = 15,  /* the State Table has no word for each peer */
    IVSHM_DEVICE_LARGE_REGION = 16, /* the region has more than 16,777,216 bytes */
    IVSHM_DEVICE_BAD_VECTOR = 29,   /* ivshm_device_message: vector not below the number of vectors */
    IVSHM_DEVICE_BAD_VECTORS = 40,  /* the vectors are more than IVSHM_DEVICE_VECTORS */
    IVSHM_DEVICE_BAD_ACCESS = 41,   /* the width or the offset is none of such an access */
    IVSHM_DEVICE_BAD_WINDOW = 42,   /* the window is none of the three */
    IVSHM_DEVICE_BAD_BASE = 43      /* the base is not whole pages, or the region ends after 64 bits */
};

/* ---- memory ---- */

#ifndef IVSHM_C_H
/* A block of memory, or none. */
struct rattle_block {
    uint64_t ok; /* 1: `at` is the block. 0: there is no memory, and `at` is any pointer but NULL */
    void *at;
};

/* The program defines these two functions, or links heap.c. rattle_alloc returns a new block of
 * `size` bytes, at least 1, at a multiple of `align`: 1, 2, 4, 8 or 16. Only ivshm_device_new calls
 * it. Only ivshm_device_free calls rattle_dealloc, once for each block, and ivshm_device_new if a
 * later block is missing. */
struct rattle_block rattle_alloc(size_t size, size_t align);
void rattle_dealloc(void *at);
#endif

/* ---- a world ---- */

/* Makes the devices of a world of `peers` peers. The sizes of the region are in bytes: the State
 * Table, the common section, which may be 0, and each output section. Each peer has `vectors` MSI-X
 * vectors, or INTx if `vectors` is 0. All peers are connected and at reset.
 * The status is IVSHM_DEVICE_DONE, or the first of these that has its cause; then the handle is as
 * it was:
 *   IVSHM_DEVICE_FULL, _BAD_VECTORS
 *   _BAD_PEERS    9 peers or more
 *   _BAD_PEERS, _BAD_TABLE, _BAD_COMMON, _BAD_OUT, _SMALL_TABLE, _LARGE_REGION
 *                 the first fault of the sizes
 *   _NO_MEMORY */
uint32_t ivshm_device_new(ivshm_device *device, uint32_t peers, uint32_t table, uint64_t common, uint64_t out,
                          uint32_t vectors);

/* A world of which devices are made. Sizes are in bytes. */
typedef struct ivshm_device_world {
    uint64_t common;
    uint64_t out;
    uint64_t base; /* the guest-physical address of the region, or 0: in the window of BAR 2 */
    uint32_t peers;
    uint32_t table;
    uint32_t vectors;
} ivshm_device_world;

/* As ivshm_device_new, with the region at `base`, a multiple of 4,096. With base 0 the vendor
 * capability has its short form, without a Base Address. Base Address Register 2 is then a
 * prefetchable register of 64 bits. Its window has the smallest power of two of bytes that holds
 * the region, which is at its start. The hypervisor reads the register at offset 18h to place
 * it. The statuses of ivshm_device_new; IVSHM_DEVICE_BAD_BASE comes after those of the sizes. */
uint32_t ivshm_device_new_at(ivshm_device *device, const ivshm_device_world *world);

/* Frees the devices. The handle is empty then. IVSHM_DEVICE_DONE, IVSHM_DEVICE_EMPTY. */
uint32_t ivshm_device_free(ivshm_device *device);

/* ---- the accesses of a guest ---- */

/* An interrupt that reaches a peer. */
typedef struct ivshm_delivery {
    uint32_t peer;
    uint32_t vector; /* 0 with INTx */
} ivshm_delivery;

/* The work of the hypervisor after a call: duties 4 and 5. */
typedef struct ivshm_effect {
    uint32_t writes_state; /* 1: the calling peer's word of the State Table becomes `state` */
    uint32_t state;        /* 0 if writes_state is 0 */
    uint32_t count;        /* the number of deliveries */
    ivshm_delivery deliveries[IVSHM_DEVICE_PEERS]; /* the first `count` are valid, by ascending peer */
} ivshm_effect;

/* Reads `width` bytes of a peer's configuration space, lowest byte first. IVSHM_DEVICE_DONE,
 * _EMPTY, _BAD_PEER, _BAD_ACCESS: the width isn't 1, 2 or 4, the offset is no multiple, or the
 * access ends after byte 256. */
uint32_t ivshm_device_config_read(ivshm_device *device, uint32_t peer, uint32_t offset, uint32_t width,
                                  uint32_t *value);

/* Writes `width` bytes of a peer's configuration space. Read-only bits keep their values.
 * The statuses of ivshm_device_config_read. */
uint32_t ivshm_device_config_write(ivshm_device *device, uint32_t peer, uint32_t offset, uint32_t width,
                                   uint32_t value);

/* Reads an aligned word of a peer's register page. Every other offset reads 0.
 * IVSHM_DEVICE_DONE, _EMPTY, _BAD_PEER. */
uint32_t ivshm_device_register_read(ivshm_device *device, uint32_t peer, uint32_t offset, uint32_t *value);

/* Writes an aligned word of a peer's register page. A write at any other offset is ignored.
 *   0x00 ID, 0x04 Maximum Peers   read-only
 *   0x08 Interrupt Control        bit 0 enables interrupts; a delivery in one-shot mode clears it
 *   0x0C Doorbell                 triggers the target in the high 16 bits, vector in the low 16
 *   0x10 State                    a changed value triggers all other peers with vector 0
 * IVSHM_DEVICE_DONE, _EMPTY, _BAD_PEER. */
uint32_t ivshm_device_register_write(ivshm_device *device, uint32_t peer, uint32_t offset, uint32_t value,
                                     ivshm_effect *effect);

/* Reads an aligned word of a peer's MSI-X table. Every other offset reads 0, also the Pending Bit
 * Array. IVSHM_DEVICE_DONE, _EMPTY, _BAD_PEER. */
uint32_t ivshm_device_msix_read(ivshm_device *device, uint32_t peer, uint32_t offset, uint32_t *value);

/* Writes an aligned word of a peer's MSI-X table. A write at any other offset is ignored. A trigger
 * that a mask stops is dropped: no write delivers it later.
 * IVSHM_DEVICE_DONE, _EMPTY, _BAD_PEER. */
uint32_t ivshm_device_msix_write(ivshm_device *device, uint32_t peer, uint32_t offset, uint32_t value);

/* The windows of a peer's device, for accesses of any width. */
enum {
    IVSHM_WINDOW_CONFIG = 0,    /* the configuration space */
    IVSHM_WINDOW_REGISTERS = 1, /* the register page, Base Address Register 0 */
    IVSHM_WINDOW_MSIX = 2       /* the MSI-X region, Base Address Register 1 */
};

/* An access as a VMM receives it. */
typedef struct ivshm_window_access {
    uint64_t value;  /* the value to write in the low `width` bytes, or the value that was read */
    uint32_t window;
    uint32_t offset; /* in bytes, any */
    uint32_t width;  /* in bytes: 1, 2, 4 or 8 */
} ivshm_window_access;

/* Reads or writes a window with any offset and a width of 1, 2, 4 or 8 bytes.
 *   configuration space   an aligned access of 1, 2 or 4 bytes within 256 bytes
 *   register page         an aligned word
 *   MSI-X region          an aligned word, or 8 aligned bytes as two words, the lower one first
 * Every other access reads 0, or its write is ignored. The status is IVSHM_DEVICE_DONE then too,
 * and `effect` has neither a State nor a delivery.
 * IVSHM_DEVICE_DONE, _EMPTY, _BAD_PEER, _BAD_WINDOW, _BAD_ACCESS (another width). */
uint32_t ivshm_device_mmio_read(ivshm_device *device, uint32_t peer, ivshm_window_access *access);
uint32_t ivshm_device_mmio_write(ivshm_device *device, uint32_t peer, const ivshm_window_access *access,
                                 ivshm_effect *effect);

/* ---- the life of a guest ---- */

/* Sets all registers of a peer to their reset values. State becomes 0 (duty 4). If State was
 * another value, all other peers are triggered with vector 0. A disconnected peer stays
 * disconnected. IVSHM_DEVICE_DONE, _EMPTY, _BAD_PEER. */
uint32_t ivshm_device_reset(ivshm_device *device, uint32_t peer, ivshm_effect *effect);

/* Resets a peer and disconnects it: nothing is delivered to it until ivshm_device_connect.
 * IVSHM_DEVICE_DONE, _EMPTY, _BAD_PEER. */
uint32_t ivshm_device_disconnect(ivshm_device *device, uint32_t peer, ivshm_effect *effect);

/* Connects a peer again, at reset. Call it after ivshm_device_disconnect: at a connected peer it is
 * a reset that triggers no other peer. IVSHM_DEVICE_DONE, _EMPTY, _BAD_PEER. */
uint32_t ivshm_device_connect(ivshm_device *device, uint32_t peer);

/* ---- how interrupts reach a peer ---- */

/* The doorbells that a peer's registers let through now. */
typedef struct ivshm_route {
    uint64_t vectors;  /* bit n: a doorbell with vector n would be delivered if `enabled` were 1 */
    uint32_t intx;     /* 1: interrupts are raised by INTx, and the reported vector is 0 */
    uint32_t one_shot; /* 1: a delivery clears Interrupt Control */
    uint32_t enabled;  /* Interrupt Control bit 0 */
} ivshm_route;

/* Reports a peer's route, as for an ioeventfd that is wired to an irqfd: the route holds until the
 * next call that changes the peer. IVSHM_DEVICE_DONE, _EMPTY, _BAD_PEER. */
uint32_t ivshm_device_route(ivshm_device *device, uint32_t peer, ivshm_route *route);

/* The message of an MSI-X vector. */
typedef struct ivshm_message {
    uint64_t address; /* Message Address, with Message Upper Address in the high 32 bits */
    uint32_t data;    /* Message Data */
} ivshm_message;

/* Reports the message in the MSI-X table for a vector of a peer, masked or not.
 * IVSHM_DEVICE_DONE, _EMPTY, _BAD_PEER, _BAD_VECTOR: the vector is not below the number of vectors,
 * which is 0 with INTx. */
uint32_t ivshm_device_message(ivshm_device *device, uint32_t peer, uint32_t vector, ivshm_message *message);

#ifdef __cplusplus
}
#endif

#endif
