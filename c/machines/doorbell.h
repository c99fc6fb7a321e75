/* QEMU's device ivshmem-doorbell in a guest, by vfio-pci, to which the device is bound already.
 * A program gets its registers, its shared memory, and one eventfd for its MSI-X vectors. The
 * guest needs an IOMMU, or a kernel that has VFIO without one. */
#ifndef DOORBELL_H
#define DOORBELL_H
#include "device.h"

#include <linux/vfio.h>
#include <sys/eventfd.h>
#include <sys/ioctl.h>

enum { VECTORS = 2, OWN_NUMBER = 8 / 4, DOORBELL = 12 / 4 };
enum { COMMAND = 4, MEMORY_SPACE = 2, BUS_MASTER = 4 };

struct doorbell {
    volatile uint32_t *registers;
    int events; /* readable after the other rang; -1: there is no doorbell */
};

/* Opens the group of a device whose folder in sysfs is `path`, and in it the device. */
static inline int open_vfio(const char *path) {
    char name[512], link[256] = {0};
    snprintf(name, sizeof name, "%s/iommu_group", path);
    if (readlink(name, link, sizeof link - 1) < 0 || !strrchr(link, '/')) fail(name);
    snprintf(name, sizeof name, "/dev/vfio/%s", strrchr(link, '/') + 1);
    int container = open("/dev/vfio/vfio", O_RDWR), group = open(name, O_RDWR);
    if (container < 0 || group < 0) fail(name);
    if (ioctl(group, VFIO_GROUP_SET_CONTAINER, &container)) fail("VFIO_GROUP_SET_CONTAINER");
    if (ioctl(container, VFIO_SET_IOMMU, VFIO_TYPE1_IOMMU)) fail("VFIO_SET_IOMMU");
    int device = ioctl(group, VFIO_GROUP_GET_DEVICE_FD, strrchr(path, '/') + 1);
    if (device < 0) fail("VFIO_GROUP_GET_DEVICE_FD");
    return device;
}

static inline struct bar vfio_bar(int device, uint32_t index) {
    struct vfio_region_info info = {.argsz = sizeof info, .index = index};
    if (ioctl(device, VFIO_DEVICE_GET_REGION_INFO, &info)) fail("VFIO_DEVICE_GET_REGION_INFO");
    return (struct bar){.file = device, .start = (off_t)info.offset, .size = info.size};
}

/* vfio-pci switches bus mastering off when it opens the device. Without it no MSI-X message is
 * sent: every doorbell is lost, without an error. */
static inline void master_the_bus(int device) {
    struct bar space = vfio_bar(device, VFIO_PCI_CONFIG_REGION_INDEX);
    uint16_t command;
    if (pread(device, &command, sizeof command, space.start + COMMAND) != sizeof command) fail("the configuration space");
    command |= MEMORY_SPACE | BUS_MASTER;
    if (pwrite(device, &command, sizeof command, space.start + COMMAND) != sizeof command) fail("the configuration space");
}

/* One eventfd for all vectors: the bridge ticks and polls after any doorbell. */
static inline int take_interrupts(int device) {
    int events = eventfd(0, EFD_NONBLOCK);
    union {
        struct vfio_irq_set set;
        char room[sizeof(struct vfio_irq_set) + VECTORS * sizeof(int32_t)];
    } irqs = {.set = {.argsz = sizeof irqs,
                      .flags = VFIO_IRQ_SET_DATA_EVENTFD | VFIO_IRQ_SET_ACTION_TRIGGER,
                      .index = VFIO_PCI_MSIX_IRQ_INDEX,
                      .count = VECTORS}};
    if (events < 0) fail("eventfd");
    for (size_t i = 0; i < VECTORS; i++) memcpy(irqs.room + sizeof irqs.set + i * sizeof events, &events, sizeof events);
    if (ioctl(device, VFIO_DEVICE_SET_IRQS, &irqs)) fail("VFIO_DEVICE_SET_IRQS");
    return events;
}

/* Opens the device whose folder in sysfs is `path`, and returns its shared memory. */
static inline struct bar open_doorbell(struct doorbell *bell, const char *path) {
    int device = open_vfio(path);
    struct bar registers = vfio_bar(device, VFIO_PCI_BAR0_REGION_INDEX);
    bell->registers = map_part(&registers, 0, registers.size, true);
    master_the_bus(device);
    bell->events = take_interrupts(device);
    return vfio_bar(device, VFIO_PCI_BAR2_REGION_INDEX);
}
#endif
