/* An end of the virtual Ethernet link over an Inter-VM Shared Memory device, version 2.
 *
 * A region of shared memory has a State Table, a common section and an output section for each
 * peer. Peers 0 and 1 exchange Ethernet frames over it. Each writes its own output section and its
 * own State alone, and reads those of the other peer, which it needn't trust. docs/LINK.md of the
 * repository has the layout, docs/DEVICE.md the device.
 *
 * The library performs no access to the region. It returns the next access; the caller performs it
 * and passes on the value read:
 *
 *     ivshm_end end = IVSHM_END_NONE;
 *     ivshm_access access;
 *     ivshm_notes notes;
 *     if (ivshm_end_new(&end, &found, peers, me, mtu, vector) != IVSHM_DONE) ..
 *     for (;;) {
 *         while (ivshm_end_next(&end, &access) == IVSHM_DONE) {     // the open call, to its end
 *             uint32_t value = 0;
 *             switch (access.kind) {
 *             case IVSHM_NOTHING: break;
 *             case IVSHM_READ:    value = load(access.word); break;
 *             case IVSHM_WRITE:   store(access.word, access.value); break;
 *             case IVSHM_STATE:   write the State register: access.value; break;
 *             case IVSHM_RING:    write Doorbell: access.word << 16 | access.value; break;
 *             }
 *             ivshm_end_took(&end, value, &notes);
 *         }
 *         ivshm_end_begin(&end, IVSHM_TICK), or _POLL, or ivshm_end_offer(&end, frame, length)
 *     }
 *
 * DUTIES OF THE CALLER. Nothing checks these. The promises of the library hold if they are kept.
 *
 *  1. State 0 comes first. After ivshm_end_new and ivshm_end_reset a call is open whose one access
 *     is State 0. Make its step, as of any other call, before you begin another call. Until then
 *     ivshm_end_begin and ivshm_end_offer return IVSHM_CALL_OPEN.
 *  2. An access is one load or one store of an aligned 32-bit word. Perform each access once, and
 *     in the order in which the library returns them: a store is visible before each later access.
 *     On x86 and ARM that is a sequentially consistent atomic access. A word has its lowest byte
 *     first. Pass on the value of a read without a change, and never read a word again. Bursts of
 *     words may be read or written at once (ivshm_end_took_reads). `order` gives a weaker order
 *     that suffices: docs/ORDERS.md has what is proved of it, and over which memory.
 *  3. A handle is IVSHM_END_NONE, or what a call left there. It is never copied, and used by one
 *     call at a time. During a call it is null. Calls may be made on different threads if a lock or
 *     the like orders them.
 *  4. Every other pointer is valid and aligned, and to memory that nothing else accesses during the
 *     call. A pointer that comes with a length isn't null, even at length 0. Frames are in memory
 *     of your own, never in the region: the library reads them more than once.
 *  5. Your State in the State Table is the value of the last IVSHM_STATE access, before you perform
 *     the next access. The write of the register may be posted, so read the register back: that is
 *     answered once the device has stored State (docs/ORDERS.md). If something else changed the
 *     register or the word, for example a device reset, call ivshm_end_reset.
 *  6. A refusal is final. An end that read a value out of range writes State 0 and stays in RESET
 *     until ivshm_end_reset. You decide when to call that: at once, to give the other peer another
 *     chance; after its State was 0 for a while; or never.
 *  7. A peer that resets its end again and again makes yours clear its section each time (out / 4
 *     accesses). Bound the rate of ticks in INIT if that is too costly.
 *  8. Poll until a poll delivers nothing before you stop: frames that the other peer published and
 *     you didn't poll are lost with the session. The other peer rings for its frames; from version
 *     2 on, for the first one after a poll that found nothing. Poll too if no doorbell came:
 *     interrupts may be lost.
 *  9. rattle_alloc and rattle_dealloc do what their declarations say, and memcpy, memmove and
 *     memset do what C says.
 * 10. The archive fits the code that calls it. For x86-64 there are two forms:
 *
 *                                            tools/c_library       tools/c_library --kernel
 *       the 128 bytes below the stack        hold values           are not used
 *       pointer (the red zone)
 *       the stack at a call is aligned to    16 bytes              8 bytes
 *       the vector registers                 are used              are not used
 *       the program is linked                anywhere              in the lowest 2 GB, or in the
 *                                                                  highest 2 GB
 *
 *     Code in ring 0 links the second form. There an interrupt overwrites the red zone: a valid
 *     configuration space is then answered by IVSHM_LOOP, and two honest ends refuse each other.
 *     And Linux aligns its stack to 8 bytes, where the first form faults. kernel_fpu_begin saves
 *     registers alone, so it doesn't make the first form safe. ARM64 has no red zone; there the
 *     second form is the one without vector registers.
 *
 * THREADS. The library has no data of its own: the state of an end is in the blocks that its handle
 * leads to. Calls on different handles may overlap if rattle_alloc and rattle_dealloc may. Calls on
 * one handle don't overlap (duty 3). No call waits.
 *
 * STACK. A call uses at most IVSHM_STACK bytes of stack, without what memcpy, memmove, memset,
 * rattle_alloc and rattle_dealloc use.
 *
 * ALIGNMENT. A pointer to a struct is aligned as C aligns that struct. A pointer to bytes, to a
 * frame or a room, has any alignment.
 *
 * BOTH ENDS of a link have the same version, the same MTU and the same vector. Nothing in the
 * region says which: the two programs agree on them. The proof about two ends is of such a pair.
 * checks/c_library tries ends that differ in version and MTU. No value is refused and no frame is
 * lost, and each end bounds the frames that it offers itself. But a doorbell may be missing. An end
 * of version 1 never writes its event index, so an end of version 2 or 3 rings it for one frame in
 * 65,536. It finds the other frames when it polls.
 *
 * WHAT IS PROVED of the library, for all values that a program passes, if those duties are kept:
 *
 * - Each result has exactly the cause that this header gives, except IVSHM_NO_MEMORY, which may be
 *   returned at any time.
 * - A result other than IVSHM_DONE changes neither the end nor what a pointer leads to, except
 *   where this header says so.
 * - Each access is the next one of the link's call grammar, inside the region. It is a read of the
 *   other's section or State, or a write of your own section, State or Doorbell.
 * - Each field of a delivered frame was read once and was in its range.
 * - Between two such ends the frames delivered in a session are a prefix of those accepted.
 * - Every call ends.
 *
 * WHAT IS TRUSTED: this header's match with the library, the accesses that you perform, heap.c, the
 * compiler and the proof checker.
 */
#ifndef IVSHM_C_H
#define IVSHM_C_H

#ifdef __KERNEL__
#include <linux/stddef.h>
#include <linux/types.h>
#else
#include <stddef.h>
#include <stdint.h>
#endif

#ifdef __cplusplus
extern "C" {
#endif

/* The version of the library, the same as a number, and the version of its binary interface. The
 * number is 1,000 times the first number of the version, plus the second. A program compiled
 * with this header works with each archive of the same IVSHM_ABI_VERSION and of this library
 * version or a later one. In later versions no function leaves, no constant changes and no
 * struct grows. c/ivshm_c.abi lists them, and checks/c_style compares the list with this header
 * and with the archive. */
#define IVSHM_LIBRARY_VERSION "1.0"
#define IVSHM_LIBRARY_NUMBER 1000
#define IVSHM_ABI_VERSION 1

/* The version of the binary interface of the archive that is linked, and its library version as a
 * number. A program compares them with what it was compiled with:
 *     if (ivshm_abi_version() != IVSHM_ABI_VERSION) ..
 *     if (ivshm_library_version() < IVSHM_LIBRARY_NUMBER) .. */
uint32_t ivshm_abi_version(void);
uint32_t ivshm_library_version(void);

/* The handle of an end. Its one field is the library's. */
typedef struct ivshm_end {
    void *at;
} ivshm_end;

/* The handle of no end. */
#define IVSHM_END_NONE { NULL }

/* The results. */
enum {
    IVSHM_DONE = 0,
    IVSHM_NO_END = 1,     /* the handle has no end: it was freed, or no end was made */
    IVSHM_HAS_END = 2,    /* ivshm_end_new, ivshm_end_new_version: the handle has an end */
    IVSHM_CALL_OPEN = 3,  /* a call is open: make its steps first */
    IVSHM_NO_CALL = 4,    /* no call is open, so there is no access: begin another call */
    IVSHM_NO_MEMORY = 5,  /* an allocation failed */
    IVSHM_BAD_CALL = 6,   /* ivshm_end_begin: none of the three calls */
    IVSHM_SHORT_FRAME = 7,/* ivshm_end_offer: too short; _again: no frame was offered yet */
    IVSHM_LONG_FRAME = 8, /* ivshm_end_offer: more than the MTU and 18 bytes */
    IVSHM_SHORT_ROOM = 9, /* the destination is too small for the copy */
    /* why sizes make no end: the first fault, after IVSHM_BAD_PEER, IVSHM_BAD_VERSION and
     * IVSHM_BAD_VECTOR, in this order */
    IVSHM_BAD_PEER = 10,     /* the peer isn't 0 or 1 */
    IVSHM_BAD_PEERS = 11,    /* the peers aren't 2 to 65,536 */
    IVSHM_BAD_TABLE = 12,    /* the State Table isn't whole pages of 4,096 bytes, one at least */
    IVSHM_BAD_COMMON = 13,   /* the common section isn't whole pages */
    IVSHM_BAD_OUT = 14,      /* the output section isn't whole pages, one at least */
    IVSHM_SMALL_TABLE = 15,  /* the State Table has no word for each peer */
    IVSHM_LARGE_REGION = 16, /* the region has more than IVSHM_LARGEST_REGION bytes */
    IVSHM_BAD_MTU = 17,      /* the MTU isn't IVSHM_LEAST_MTU to IVSHM_MOST_MTU */
    IVSHM_SMALL_OUT = 18,    /* no queue fits the output section */
    IVSHM_NO_SLOT = 19,      /* no frame of this MTU fits the output section */
    /* why a walk found no device: the first fault in the order of the list */
    IVSHM_OTHER_DEVICE = 20,      /* Vendor and Device ID are another device's */
    IVSHM_BAD_CLASS = 21,         /* the Base Class isn't FFh */
    IVSHM_OUT_OF_SPACE = 22,      /* a capability is below 40h, or goes past the space */
    IVSHM_LOOP = 23,              /* the list returns to a capability */
    IVSHM_BAD_VENDOR_LENGTH = 24, /* the vendor capability has a wrong length */
    IVSHM_NO_VENDOR = 25,         /* there is no vendor capability */
    /* why a burst isn't made */
    IVSHM_OTHER_ACCESS = 26, /* no such burst comes next */
    IVSHM_BAD_COUNT = 27,    /* no word, not whole words, or more than the burst has */
    /* why a version or a vector makes no end */
    IVSHM_BAD_VERSION = 28,  /* ivshm_end_new_version: the version isn't 1 to IVSHM_VERSION */
    IVSHM_BAD_VECTOR = 29    /* ivshm_end_new, _new_version: the vector has over 16 bits */
};

/* The highest version of the link, and bounds. ivshm_limits returns those of the linked library. */
#define IVSHM_VERSION 3
#define IVSHM_PROTOCOL 1     /* ivshm_found.protocol of the link */
#define IVSHM_LEAST_MTU 256
#define IVSHM_MOST_MTU 65535
#define IVSHM_SHORTEST 14    /* bytes of the shortest frame: an Ethernet header */
#define IVSHM_LONGEST 65553  /* bytes of the longest frame; such a room fits any delivery */
#define IVSHM_LARGEST_REGION 16777216
#define IVSHM_STACK 1024     /* bytes of stack that a call uses at most */

typedef struct ivshm_limit_values {
    uint32_t version;
    uint32_t least_mtu;
    uint32_t most_mtu;
    uint32_t shortest_frame;
    uint32_t longest_frame;
    uint32_t largest_region;
} ivshm_limit_values;

/* Writes the highest version and the bounds to *limits. */
void ivshm_limits(ivshm_limit_values *limits);

/* ---- the device and the region ---- */

/* The result of a walk over the configuration space. Sizes are in bytes. Without PCI, set common,
 * out and table, and leave the rest 0. */
typedef struct ivshm_found {
    uint64_t common;         /* the common section, which every peer may write; often 0 */
    uint64_t out;            /* each output section */
    uint64_t base;           /* where the region is in guest-physical memory, if has_base */
    uint32_t table;          /* the State Table */
    uint32_t protocol;       /* Sub-Class << 8 | Interface: IVSHM_PROTOCOL (*) */
    uint32_t one_shot;       /* 1 if Privileged Control sets one-shot mode */
    uint32_t has_base;       /* 0: the region is at Base Address Register 2 */
    uint32_t vectors;        /* of MSI-X; 0: no such capability, so INTx */
    uint32_t vectors_bar;    /* the vectors' Base Address Register */
    uint32_t vectors_offset;
    uint32_t pending_bar;    /* the pending bits: the same */
    uint32_t pending_offset;
} ivshm_found;

/* Finds the device in the 256 bytes of an untrusted configuration space. The registers are at Base
 * Address Register 0. Returns IVSHM_DONE and fills *found, or returns one of IVSHM_OTHER_DEVICE to
 * IVSHM_NO_VENDOR. (*) No call checks the protocol: don't use a device if its protocol isn't
 * IVSHM_PROTOCOL. */
uint32_t ivshm_walk(const uint8_t space[256], ivshm_found *found);

/* The words of a region by name. Words have 4 bytes and are numbered from the base of the
 * region. The State of peer p is word p. The output section of peer p begins at word first + p *
 * words. The words from available_index on count from the start of a section. Descriptor i is
 * the four words from 4 * i: two of the address, the length, then flags and next. In version 3 a
 * frame has no slot. Its footprint is its length, rounded up to a multiple of 64, and frames are
 * in flight up to queue_size if their bytes fit. */
typedef struct ivshm_words {
    uint32_t first;
    uint32_t words;
    uint32_t queue_size;        /* descriptors, available entries, used elements */
    uint32_t limit;             /* frames that may be in flight */
    uint32_t slot;              /* bytes of a slot, which holds a frame */
    uint32_t data_area;         /* byte of the section where slots or byte ring begin */
    uint32_t available_index;   /* flags in the low half, index in the high one */
    uint32_t available_entries; /* two entries a word, the even one in the low half */
    uint32_t used_event;        /* in the low half */
    uint32_t used_index;        /* flags in the low half, index in the high one */
    uint32_t used_elements;     /* two words an element: its id, its length */
    uint32_t available_event;   /* in the low half */
    uint32_t longest_offer;     /* most bytes of an offered frame: the MTU and 18 */
    uint32_t longest_delivery;  /* most bytes of a delivered frame */
} ivshm_words;

/* Returns the words of a region of these sizes. They are the same in each version, except for the
 * slots. Returns IVSHM_DONE, or one of IVSHM_BAD_PEERS to IVSHM_NO_SLOT. */
uint32_t ivshm_layout(const ivshm_found *found, uint32_t peers, uint32_t mtu, ivshm_words *layout);

/* ---- memory ---- */

#ifndef IVSHM_DEVICE_H
/* A block of memory, or none. */
struct rattle_block {
    uint64_t ok; /* 1: `at` is the block. 0: there is no memory, and `at` is any pointer but NULL */
    void *at;
};

/* The program defines these two functions, or links heap.c or storage.c. The library calls
 * rattle_alloc in ivshm_end_new and ivshm_end_new_version alone, for six blocks. Two have the
 * longest frame that may come, one the longest frame that may be offered, and one two bytes for
 * each descriptor. One has four bytes for each frame that may be in flight, and one some hundred
 * bytes. rattle_alloc returns a new block of `size` bytes, at least 1, at a multiple of `align`: 1,
 * 2, 4, 8 or 16. The library calls rattle_dealloc once for each block: in ivshm_end_free, and in
 * ivshm_end_new and ivshm_end_new_version if a later block is missing. That each block is freed is
 * tested by c/sizes.c, not proved. */
struct rattle_block rattle_alloc(size_t size, size_t align);
void rattle_dealloc(void *at);
#endif

/* MEMORY OF THE PROGRAM'S OWN. c/storage.c has the two functions over a static array, for programs
 * without malloc. An end of any version needs at most IVSHM_END_BYTES of it, with the `words` that
 * ivshm_layout wrote for its sizes. For the largest sizes that is IVSHM_LARGEST_END. Both have room
 * for six blocks at multiples of 16 with 16 bytes in front of each. The six blocks alone have, in
 * version 3, for an output section and an MTU:
 *
 *     bytes of the section      MTU 256    MTU 1,500    MTU 9,000    MTU 65,535
 *                   16,384       30,290       31,534       39,034          none
 *                   65,536      119,762      121,006      128,506          none
 *                  520,192      144,116      145,360      152,860       209,395
 *                8,384,512      156,404      157,648      165,148       221,683
 *
 * c/sizes.c measures these numbers on the machine that it runs on, and checks/c_library runs it. */
#define IVSHM_END_BYTES(words) \
    (2 * (size_t)(words)->longest_delivery + (words)->longest_offer + 6 * (size_t)(words)->queue_size + 1024)
#define IVSHM_LARGEST_END 222259

/* ---- an end ---- */

/* Makes the end of peer `me`, 0 or 1, of a region of these sizes: those that a walk found. `peers`
 * is the Maximum Peers register. `mtu` bounds the frames that this end offers. `vector` is the one
 * by which the other peer is rung: 1 if it has two MSI-X vectors or more, else 0. Afterwards the
 * call is open whose one access is State 0. The link is of version 1.
 *
 * Returns IVSHM_DONE. Otherwise the handle doesn't change, and the result is the first of these
 * that applies: IVSHM_HAS_END, IVSHM_BAD_PEER, IVSHM_BAD_VECTOR, one of IVSHM_BAD_PEERS to
 * IVSHM_NO_SLOT, IVSHM_NO_MEMORY. */
uint32_t ivshm_end_new(ivshm_end *end, const ivshm_found *found, uint32_t peers, uint32_t me, uint32_t mtu, uint32_t vector);

/* The same in a link of this version. Both ends have the same version; nothing in the region says
 * which.
 *   1: an offer that publishes a frame rings.
 *   2: an offer rings if the other's event index wants the doorbell. A poll that finds nothing, the
 *      first after frames or in a session, writes its event index and looks again. If the second
 *      look finds nothing, the next frame rings. Both need the full fences that an access requests.
 *   3: as 2, but a frame occupies its length in bytes of the section, rounded up to a multiple of
 *      64. So more short frames are in flight at once.
 *
 * The results of ivshm_end_new, and IVSHM_BAD_VERSION, which comes before IVSHM_BAD_VECTOR. */
uint32_t ivshm_end_new_version(ivshm_end *end, const ivshm_found *found, uint32_t peers, uint32_t me, uint32_t mtu, uint32_t vector, uint32_t version);

/* Frees the end. The handle is IVSHM_END_NONE then. Stop first, or write State 0 yourself. Returns
 * IVSHM_DONE or IVSHM_NO_END. */
uint32_t ivshm_end_free(ivshm_end *end);

/* The calls. */
enum {
    IVSHM_TICK = 0, /* reads the other's State: every 10 ms, say, and on vector 0 */
    IVSHM_POLL = 1, /* delivers the frames that the other published */
    IVSHM_STOP = 2  /* leaves the link: State 0 */
};

/* Begins a call. Returns IVSHM_DONE, IVSHM_NO_END, IVSHM_BAD_CALL or IVSHM_CALL_OPEN. */
uint32_t ivshm_end_begin(ivshm_end *end, uint32_t call);

/* Begins an offer of this frame, which is copied at once, in any State. The notes and
 * ivshm_end_view give its outcome. If the link is full, an offer costs one access: offer the frame
 * again by ivshm_end_offer_again after the other peer had time to poll. If the end wasn't in RUN,
 * offer it again in RUN. Returns IVSHM_DONE, IVSHM_NO_END, IVSHM_SHORT_FRAME, IVSHM_LONG_FRAME or
 * IVSHM_CALL_OPEN. */
uint32_t ivshm_end_offer(ivshm_end *end, const uint8_t *frame, size_t length);

/* Begins an offer of the last frame for which ivshm_end_offer returned IVSHM_DONE, in any State and
 * with any outcome. The library still has that frame, and doesn't copy it again. It has it until
 * another frame is offered: through all other calls, refusals, sessions and resets. Returns
 * IVSHM_DONE, IVSHM_NO_END, IVSHM_SHORT_FRAME (no frame was offered yet) or IVSHM_CALL_OPEN. */
uint32_t ivshm_end_offer_again(ivshm_end *end);

/* An access of an open call. */
enum {
    IVSHM_NOTHING = 0, /* none: the one step of an offer or poll outside RUN */
    IVSHM_READ = 1,    /* read `word`. `value` is 0 */
    IVSHM_WRITE = 2,   /* write `value` to `word`, which is in your section */
    IVSHM_STATE = 3,   /* write `value` to your State. `word` is 0 */
    IVSHM_RING = 4     /* ring peer `word` by vector `value`, after all stores before */
};

/* The order of an access relative to those before and after it, for a caller that performs accesses
 * weaker than sequentially consistent ones (docs/ORDERS.md). IVSHM_ACQUIRE is the order of loads of
 * the other's State and of indices. IVSHM_RELEASE is that of stores of your State, of indices and
 * of the doorbell. */
enum {
    IVSHM_RELAXED = 0, /* it may move before or after its neighbours */
    IVSHM_ACQUIRE = 1, /* a load before all accesses that follow it */
    IVSHM_RELEASE = 2  /* a store after all accesses before it */
};

typedef struct ivshm_access {
    uint32_t kind;
    uint32_t word;
    uint32_t value;
    uint32_t count;        /* of IVSHM_READ, IVSHM_WRITE: length of the burst; 0: no burst */
    uint32_t order;        /* IVSHM_RELAXED, _ACQUIRE or _RELEASE */
    uint32_t fence_before; /* 1: a full fence comes right before the access */
    uint32_t fence_after;  /* 1: a full fence comes right after it */
} ivshm_access;

/* Returns the next access of the open call, any number of times. A burst begins at `word` and has
 * `count` words, which may be read or written at once. Returns IVSHM_DONE, IVSHM_NO_END or
 * IVSHM_NO_CALL. */
uint32_t ivshm_end_next(ivshm_end *end, ivshm_access *access);

/* The notes of a step, by the words of a record (docs/FORMATS.md). */
enum {
    IVSHM_OVER = 0,    /* over: the call has ended */
    IVSHM_SAW = 1,     /* saw: the other's State was `value` */
    IVSHM_RECLAIM = 2, /* reclaim: an offer found `value` frames returned */
    IVSHM_FULL = 3,    /* full: the frame offered doesn't fit; the offer has ended */
    IVSHM_ACCEPT = 4,  /* accept: the frame offered is published */
    IVSHM_LOOK = 5,    /* look: a poll found `value` frames */
    IVSHM_DELIVER = 6, /* deliver: a frame was read whole (ivshm_end_frame) */
    IVSHM_RETURN = 7,  /* return: a frame was returned to the other */
    IVSHM_FINISH = 8,  /* done: the poll has ended */
    IVSHM_DOWN = 9,    /* down: the call was made outside RUN; it has ended */
    IVSHM_REFUSE = 10  /* refuse: `field` had `value`, out of range; State 0 is next */
};

/* The field of a refusal, by the names of a record. */
enum {
    IVSHM_AVAIL_INDEX = 1,
    IVSHM_AVAIL_ENTRY = 2,
    IVSHM_DESC_ADDRESS = 3,
    IVSHM_DESC_LENGTH = 4,
    IVSHM_DESC_FLAGS = 5,
    IVSHM_USED_INDEX = 6,
    IVSHM_USED_ID = 7
};

typedef struct ivshm_note {
    uint32_t kind;
    uint32_t field;
    uint64_t value;
} ivshm_note;

typedef struct ivshm_notes {
    uint32_t count; /* 0 to 2 */
    ivshm_note note[2];
} ivshm_notes;

/* Completes the access that ivshm_end_next returned. `value` is the value of a read. For any other
 * access it is 0, and ignored. Returns IVSHM_DONE, IVSHM_NO_END or IVSHM_NO_CALL. */
uint32_t ivshm_end_took(ivshm_end *end, uint32_t value, ivshm_notes *notes);

/* Completes the access and returns the one after it: the same as ivshm_end_took and then
 * ivshm_end_next, by one call. Returns what ivshm_end_next returns then: IVSHM_DONE, or
 * IVSHM_NO_CALL, and *next doesn't change, if the call is over. IVSHM_NO_END or IVSHM_NO_CALL, and
 * *notes doesn't change either, if there was no access. */
uint32_t ivshm_end_step(ivshm_end *end, uint32_t value, ivshm_notes *notes, ivshm_access *next);

/* BURSTS. If the access has a count, the next accesses are reads, or writes, of `word` and the
 * words after it. All are relaxed, and none before the last has a note. They are the words of a
 * frame, of a descriptor, of a used element, or those that a Tick clears. Complete all of them
 * at once, or a part, or make single steps: the result is the same. Each word is still read
 * once, into memory of your own, and written once. */

/* Completes size / 4 reads. `words` has the value of each, as four bytes, the lowest first. The
 * notes are those of the last read.
 *
 * A read with a count after an access without one, the last of a descriptor, is that of the first
 * word of a frame. Its `count` is all the frame's words. If these are passed at once, their first
 * view.delivered bytes (ivshm_end_view) are the frame delivered, and ivshm_end_frame needn't be
 * called.
 *
 * Returns IVSHM_DONE. Otherwise the end and the notes don't change: IVSHM_NO_END, IVSHM_NO_CALL,
 * IVSHM_OTHER_ACCESS, IVSHM_BAD_COUNT. */
uint32_t ivshm_end_took_reads(ivshm_end *end, const uint8_t *words, size_t size, ivshm_notes *notes);

/* Writes the next size / 4 words to `into`, as four bytes each, the lowest first. Write them to the
 * region, and then call ivshm_end_took_writes. Returns IVSHM_DONE. Otherwise `into` doesn't change:
 * IVSHM_NO_END, IVSHM_NO_CALL, IVSHM_OTHER_ACCESS, IVSHM_BAD_COUNT. */
uint32_t ivshm_end_words(ivshm_end *end, uint8_t *into, size_t size);

/* Completes `count` writes, which have no notes. Returns IVSHM_DONE. Otherwise the end doesn't
 * change: IVSHM_NO_END, IVSHM_NO_CALL, IVSHM_OTHER_ACCESS, IVSHM_BAD_COUNT. */
uint32_t ivshm_end_took_writes(ivshm_end *end, uint32_t count);

/* PUBLICATION OF A FRAME. The writes of an offer before its index have no notes. They are the
 * words of the frame, the four of its descriptor and the one with its available entry. They may
 * be made at once, in any order: all are relaxed, and the index releases them. */

/* Consecutive words: the number of the first, and their count. */
typedef struct ivshm_burst {
    uint32_t word;
    uint32_t count;
} ivshm_burst;

/* A publication: the writes of an offer up to its index, from a word of its frame on. */
typedef struct ivshm_publication {
    ivshm_burst bursts[3]; /* the rest of the frame, its descriptor and its entry, all relaxed */
    uint32_t index;        /* the available index: this word .. */
    uint32_t accepted;     /* .. is `accepted`, released */
} ivshm_publication;

/* Completes the writes of an offer before its index, and that of its index. Make these writes now,
 * the index last. The first 20 bytes of `room` are the words of the descriptor and of the entry.
 * The frame's words are the last bursts[0].count ones of the frame that ivshm_end_offer got last:
 * write them from your own copy. Each word has four bytes, the lowest first, with 0 after the
 * frame's last byte. The note, which isn't reported, is IVSHM_ACCEPT.
 *
 * *next is the access after these writes. If it is IVSHM_RING it is completed too: ring now, and
 * the call is over. Its note, which isn't reported, is IVSHM_OVER. Otherwise the call is open
 * still, and *next is to be made and completed.
 *
 * Returns IVSHM_DONE. Otherwise the end, *made, *next and the room don't change: IVSHM_NO_END,
 * IVSHM_NO_CALL, IVSHM_OTHER_ACCESS (no word of a frame is next), IVSHM_SHORT_ROOM (size < 20). */
uint32_t ivshm_end_publish(ivshm_end *end, ivshm_publication *made, uint8_t *room, size_t size, ivshm_access *next);

/* AN ITEM OF A POLL. In a poll each frame is an item: the reads of its entry and of the four words
 * of its descriptor, each relaxed and by itself, then the words of the frame, and the writes that
 * return it. These two calls make the same steps with fewer calls. They may be mixed with the
 * single calls at any step. */

/* Completes the access, if it is the read of a field of an item, and if `value` passes its check:
 * the same as ivshm_end_took, without a note, and ivshm_end_next. The next access is a relaxed read
 * of next->word. If next->count is 0, it is the next field. Otherwise it is the first of
 * next->count words, which are all words of the frame.
 *
 * Returns IVSHM_DONE. Otherwise the end and *next don't change: IVSHM_NO_END, IVSHM_NO_CALL,
 * IVSHM_OTHER_ACCESS. The last means that no field of an item is next, or that the value is
 * refused: then pass it to ivshm_end_took. */
uint32_t ivshm_end_took_field(ivshm_end *end, uint32_t value, ivshm_burst *next);

/* The writes that return a frame. */
typedef struct ivshm_frame_return {
    uint32_t length;   /* bytes of the frame */
    uint32_t element;  /* the used element: this word and the one after it .. */
    uint32_t id;       /* .. are `id` and 1, relaxed */
    uint32_t index;    /* the used index: this word .. */
    uint32_t returned; /* .. is `returned`, released */
} ivshm_frame_return;

/* Completes the reads of all words of a frame, passed as to ivshm_end_took_reads, and the three
 * writes that return the frame. Make these writes now, in this order, before any other call of the
 * library. The notes, which aren't
 * reported, are IVSHM_DELIVER after the reads and IVSHM_RETURN after the used index. The frame is
 * the first made->length bytes of `words`. *next is the access after these writes. If it is
 * IVSHM_RING it is completed too: ring now, and the call is over. Its note, which isn't reported,
 * is IVSHM_FINISH. Otherwise the call is open still, and *next is to be made and completed.
 *
 * Returns IVSHM_DONE. Otherwise the end, *made and *next don't change: IVSHM_NO_END, IVSHM_NO_CALL,
 * IVSHM_OTHER_ACCESS (the first word of a frame isn't next, or these aren't all its words). */
uint32_t ivshm_end_took_frame(ivshm_end *end, const uint8_t *words, size_t size, ivshm_frame_return *made, ivshm_access *next);

/* The states, as in the State Table. */
enum {
    IVSHM_RESET = 0, /* no link */
    IVSHM_INIT = 1,  /* waits for the other */
    IVSHM_READY = 2, /* its section is clear */
    IVSHM_RUN = 3    /* frames are exchanged */
};

/* The outcome of the last offer. */
enum {
    IVSHM_NEVER = 0,    /* nothing was offered yet */
    IVSHM_OPEN = 1,     /* its call is open, and the frame isn't published yet */
    IVSHM_ACCEPTED = 2, /* the frame is published */
    IVSHM_WAS_FULL = 3, /* the frame doesn't fit: offer it again later */
    IVSHM_REFUSED = 4,  /* a value of the other was refused meanwhile */
    IVSHM_WAS_DOWN = 5, /* the end wasn't in RUN */
    IVSHM_CUT = 6       /* ivshm_end_reset came before the publication */
};

typedef struct ivshm_view {
    uint64_t refused_value; /* the value refused since the end's reset */
    uint64_t delivered;     /* bytes of the frame delivered last; 0 before the first */
    uint32_t refused_field; /* 0: nothing */
    uint32_t state;         /* the State that the end wrote last, apart from an open call */
    uint32_t busy;          /* 1: a call is open */
    uint32_t outcome;       /* of the last offer */
    uint32_t longest;       /* bytes of the longest frame that may be offered */
} ivshm_view;

/* Returns the state of the end. Returns IVSHM_DONE or IVSHM_NO_END. */
uint32_t ivshm_end_view(ivshm_end *end, ivshm_view *view);

/* The counts of an end since it was made, through sessions, refusals and resets. Each is modulo
 * 2^64. They count the notes of the steps, so a step counts as soon as it is made. */
typedef struct ivshm_counts {
    uint64_t sessions;  /* times that its State became IVSHM_READY, by which a session opens */
    uint64_t accepted;  /* IVSHM_ACCEPT: frames that it published */
    uint64_t full;      /* IVSHM_FULL: offers that found no room */
    uint64_t down;      /* IVSHM_DOWN: offers and polls outside RUN */
    uint64_t delivered; /* IVSHM_DELIVER: frames that it delivered */
    uint64_t refused;   /* IVSHM_REFUSE: values that it refused */
} ivshm_counts;

/* Writes the counts of the end into *counts, in an open call too.
 * IVSHM_DONE; or *counts is as it was: IVSHM_NO_END. */
uint32_t ivshm_end_counts(ivshm_end *end, ivshm_counts *counts);

/* Copies the frame delivered last to the front of `room`, which has `size` bytes, if it fits, and
 * sets `length` to its length. The frame stays until the next IVSHM_DELIVER, through resets too.
 * IVSHM_DONE, IVSHM_NO_END, IVSHM_SHORT_ROOM (the length is set, nothing is copied). */
uint32_t ivshm_end_frame(ivshm_end *end, uint8_t *room, size_t size, size_t *length);

/* Resets the end after a reset of its own device: the open call ends, and the refused value is
 * forgotten. The frames offered last and delivered last remain. Afterwards the call is open whose
 * one access is State 0. Returns IVSHM_DONE or IVSHM_NO_END. */
uint32_t ivshm_end_reset(ivshm_end *end);

#ifdef __cplusplus
}
#endif

#endif
