/* The server of QEMU's x-pci-proxy-dev: one device of version 2 for each of the guests of a
 * world. main.c has the guests' life, messages.c the messages of QEMU, device.c the calls of the
 * proved library. memory.c has the region, interrupts.c the interrupts of a guest. */
#ifndef VMM_H
#define VMM_H
#include <stdatomic.h>
#include <stdbool.h>
#include <stdint.h>
#include <sys/socket.h>
#include <sys/un.h>

#include "../device_record.h"
#include "../ivshm_device.h"

enum { MOST_PEERS = 8, NONE = -1 };

struct peer {
    int door;  /* the socket at which its QEMU connects */
    int line;  /* that QEMU, or NONE */
    int qtest; /* its own socket for messages of MSI-X, or NONE */
    int irq;   /* its eventfd for INTx, or NONE */
};

/* Counts of the accesses and of their effects. */
struct counts {
    uint64_t reads[3], writes[3]; /* by window */
    uint64_t elsewhere;           /* accesses to the window of no Base Address Register */
    uint64_t resets, states, sent, lost;
};

struct vmm {
    ivshm_device device;
    struct device_record_world world;
    struct peer peers[MOST_PEERS];
    const char *folder;
    _Atomic uint32_t *table; /* the State Table, which no guest can write */
    struct counts counts;
    struct device_record record;
    const char *record_path; /* NULL: nothing is recorded */
};

/* memory.c */
void memory_open(struct vmm *v);
void memory_set_state(struct vmm *v, uint32_t peer, uint32_t state);

/* interrupts.c */
bool interrupt_send(struct vmm *v, uint32_t peer, uint32_t vector);
void interrupt_read_answers(struct vmm *v, uint32_t peer);
void interrupt_close(struct vmm *v, uint32_t peer);

/* device.c */
void device_open(struct vmm *v);
void device_connect(struct vmm *v, uint32_t peer);
void device_disconnect(struct vmm *v, uint32_t peer);
void device_reset(struct vmm *v, uint32_t peer);
bool device_window_at(struct vmm *v, uint32_t peer, uint64_t address, uint32_t *window);
uint64_t device_read(struct vmm *v, uint32_t peer, ivshm_window_access access);
void device_write(struct vmm *v, uint32_t peer, ivshm_window_access access);

/* messages.c: answers the next message of a QEMU; false: the connection is over */
bool message_serve(struct vmm *v, uint32_t peer);

/* main.c: ends the program */
_Noreturn void fail(const char *what);
int unix_socket(const struct vmm *v, const char *name, uint32_t peer, struct sockaddr_un *address);
#endif
