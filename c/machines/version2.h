/* A link over a device of version 2 (ivshm_link.h), as c/vmm gives it to a guest. The device is
 * found by ivshm_walk over its configuration space. Its registers and interrupts come by
 * vfio-pci, to which the device is bound already. Its region comes by /dev/mem, since Linux has
 * no driver for it. The functions are those of link.h. */
#ifndef VERSION2_H
#define VERSION2_H
#include "doorbell.h"

#define IVSHM_LINK_SEQ_CST
#include "../ivshm_link.h"

/* The words of the register page, but for DOORBELL. */
enum { ID = 0 / 4, MAXIMUM_PEERS = 4 / 4, INTERRUPT_CONTROL = 8 / 4, STATE_REGISTER = 16 / 4 };
enum { SPACE = 256, REGISTER_PAGE = 4096, PRIVILEGED_CONTROL = 0x43 };

struct guest {
    ivshm_link link;
    struct doorbell bell;
    uint64_t mended; /* 0: nothing but the device can change the own State */
    void (*deliver)(struct guest *, const uint8_t *frame, size_t length);
    void *context; /* of the program */
    uint32_t room[(IVSHM_LONGEST + 3) / 4];
};

/* The device's folder in sysfs, and what is in its configuration space. */
struct version2 {
    char path[256];
    ivshm_found found;
};

/* A call that is to be done. */
static inline void must(uint32_t answer, const char *what) {
    if (answer == IVSHM_DONE) return;
    fprintf(stderr, "%s: answer %u\n", what, answer);
    exit(1);
}

static inline bool is_version2(const char *path, ivshm_found *found) {
    uint8_t space[SPACE];
    char name[300];
    snprintf(name, sizeof name, "%s/config", path);
    int file = open(name, O_RDONLY);
    if (file < 0) return false;
    ssize_t length = pread(file, space, sizeof space, 0);
    close(file);
    return length == sizeof space && ivshm_walk(space, found) == IVSHM_DONE;
}

static inline struct version2 find_version2(void) {
    struct version2 device = {.path = ""};
    glob_t all;
    if (glob("/sys/bus/pci/devices/*", 0, NULL, &all)) give_up("there is no PCI device");
    for (size_t i = 0; i < all.gl_pathc && !device.path[0]; i++)
        if (is_version2(all.gl_pathv[i], &device.found)) snprintf(device.path, sizeof device.path, "%s", all.gl_pathv[i]);
    globfree(&all);
    if (!device.path[0]) give_up("there is no device of version 2");
    if (!device.found.has_base) give_up("the device has no Base Address");
    return device;
}

/* The parts of the region, as parts of /dev/mem: the State Table with the common section, and the
 * output section of each link peer. */
static inline void open_region(const ivshm_found *found, struct bar *table, struct bar sections[2]) {
    int memory = open("/dev/mem", O_RDWR);
    if (memory < 0) fail("/dev/mem");
    *table = (struct bar){.file = memory, .start = (off_t)found->base, .size = found->table + found->common};
    for (uint64_t p = 0; p < 2; p++)
        sections[p] = (struct bar){.file = memory, .start = (off_t)(found->base + table->size + p * found->out), .size = found->out};
}

/* The register page by sysfs, without interrupts: for a device that no driver has. */
static inline volatile uint32_t *open_registers(const char *path, const char *resource) {
    char name[300];
    snprintf(name, sizeof name, "%s/enable", path);
    int enable = open(name, O_WRONLY);
    if (enable < 0 || write(enable, "1", 1) != 1) perror(name);
    close(enable);
    snprintf(name, sizeof name, "%s/%s", path, resource);
    struct bar registers = {.file = open(name, O_RDWR), .size = REGISTER_PAGE};
    if (registers.file < 0) fail(name);
    return map_part(&registers, 0, REGISTER_PAGE, true);
}

/* ---- the registers ---- */

static inline void write_register(struct guest *g, uint32_t word, uint32_t value) {
    atomic_thread_fence(memory_order_seq_cst);
    g->bell.registers[word] = value;
    atomic_thread_fence(memory_order_seq_cst);
}

/* In one-shot mode each interrupt clears Interrupt Control. */
static inline void enable_interrupts(struct guest *g) { write_register(g, INTERRUPT_CONTROL, 1); }

/* The device alone writes the State Table. */
static inline void mend(struct guest *g) { (void)g; }

/* The read is answered once the State Table has the value. */
static inline void guest_writes_state(void *context, uint32_t state) {
    struct guest *g = context;
    write_register(g, STATE_REGISTER, state);
    (void)g->bell.registers[STATE_REGISTER];
    atomic_thread_fence(memory_order_seq_cst);
}

static inline void guest_rings(void *context, uint32_t peer, uint32_t vector) {
    write_register(context, DOORBELL, peer << 16 | vector);
}

static inline void guest_delivers(void *context, const uint8_t *frame, size_t length) {
    struct guest *g = context;
    g->deliver(g, frame, length);
}

/* Opens the registers, and the interrupts in one-shot mode: the vendor capability says so. */
static inline void open_device(struct guest *g, const struct version2 *v) {
    int device = open_vfio(v->path);
    uint8_t one_shot = 1;
    struct bar registers = vfio_bar(device, VFIO_PCI_BAR0_REGION_INDEX), space = vfio_bar(device, VFIO_PCI_CONFIG_REGION_INDEX);
    g->bell.registers = map_part(&registers, 0, REGISTER_PAGE, true);
    master_the_bus(device);
    if (pwrite(device, &one_shot, sizeof one_shot, space.start + PRIVILEGED_CONTROL) != sizeof one_shot) fail("Privileged Control");
    g->bell.events = v->found.vectors >= VECTORS ? take_interrupts(device) : -1;
    if (g->bell.events >= 0) enable_interrupts(g);
}

/* Opens the link. The peer and the size of the sections are the device's, and have to be these. */
static inline void join(struct guest *g, uint32_t me, size_t out, uint32_t mtu) {
    struct version2 v = find_version2();
    struct bar table, sections[2];
    open_device(g, &v);
    if (me > 1 || g->bell.registers[ID] != me) give_up("the device is another peer's");
    if (v.found.out != out) give_up("the sections have another size");
    open_region(&v.found, &table, sections);
    ivshm_link_setup setup = {.peers = g->bell.registers[MAXIMUM_PEERS], .me = me, .mtu = mtu, .version = 1};
    setup.found = v.found;
    setup.vector = v.found.vectors > 1;
    setup.other_state = (const uint32_t *)map_part(&table, 0, v.found.table, false) + 1 - me;
    setup.other_section = map_part(&sections[1 - me], 0, out, false);
    setup.own_section = map_part(&sections[me], 0, out, true);
    setup.room = g->room;
    setup.room_size = sizeof g->room;
    setup.context = g;
    setup.write_state = guest_writes_state;
    setup.ring = guest_rings;
    setup.deliver = guest_delivers;
    must(ivshm_link_open(&g->link, &setup), "open");
    fprintf(stderr, "bridge %u: device of version 2, %s\n", me, g->bell.events < 0 ? "no interrupts" : "MSI-X, one-shot");
}

/* ---- for a hostile guest, whose device no driver has ---- */

enum { MOST_AREAS = 3 };

/* The whole region, and the words of both peers. The own State is the register. */
static inline int open_areas(struct bar areas[MOST_AREAS], struct peer_words peers[2], size_t out) {
    struct version2 v = find_version2();
    volatile uint32_t *registers = open_registers(v.path, "resource0");
    uint32_t me = registers[ID];
    if (me > 1 || v.found.out != out) give_up("the device is another one");
    open_region(&v.found, &areas[0], &areas[1]);
    for (uint32_t p = 0; p < 2; p++) {
        peers[p].state = (_Atomic uint32_t *)map_part(&areas[0], 0, v.found.table, true) + p;
        peers[p].section = map_part(&areas[1 + p], 0, out, true);
    }
    peers[me].state = (_Atomic uint32_t *)(uintptr_t)&registers[STATE_REGISTER];
    return MOST_AREAS;
}

static inline void open_bell(struct doorbell *bell) {
    bell->registers = open_registers(find_version2().path, "resource0");
    bell->events = -1;
}
#endif
