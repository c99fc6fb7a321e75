/* A record of the accesses of guests to the devices of one world, for a hypervisor in C. `ivshm
 * replay` reads it and answers `same` exactly if each answer and each interrupt is that of the
 * device's rules (docs/DEVICE.md, docs/FORMATS.md).
 *
 *     struct device_record record;
 *     device_record_begin(&record)
 *     for each access, reset and disconnection, in the order in which the device answered:
 *         device_record_read, device_record_write or device_record_reset
 *         device_record_interrupt or device_record_lost, for each delivery that it brought
 *     device_record_end(&record, "FILE", &world)
 *
 * All peers of the record are hostile: the record claims nothing of their drivers. Words of the
 * region aren't in it: a guest's loads and stores there don't pass the hypervisor. A peer that is
 * disconnected is at reset, so the event of a disconnection is device_record_reset, and a
 * connection is none.
 *
 * An access is one of ivshm_device_mmio_read or _write, with its window, offset and width. An
 * access that its window does not have is ignored by the device. It is no event, and has no line.
 * An access of 8 bytes to the MSI-X region has two.
 *
 * A record has DEVICE_RECORD_MOST acts at most. Later events are left out, so the record is that of
 * the run up to there. */
#ifndef DEVICE_RECORD_H
#define DEVICE_RECORD_H
#include <stdbool.h>
#include <stdint.h>
#include <stdio.h>

#define DEVICE_RECORD_MOST 3999999

struct device_record {
    FILE *acts, *lines;
    char act[64];         /* of the last event: not written yet, since a `lose` may come before it */
    uint64_t act_count;
    uint64_t line_count;
    bool full;            /* events are left out */
};

/* The sizes of the world, in bytes. `vectors` 0: interrupts by INTx. */
struct device_record_world {
    uint32_t peers;
    uint32_t table;
    uint64_t common;
    uint64_t out;
    uint32_t vectors;
};

/* Returns whether the two temporary files are there. */
static inline bool device_record_begin(struct device_record *r) {
    *r = (struct device_record){.acts = tmpfile(), .lines = tmpfile()};
    return r->acts && r->lines;
}

static inline void device_record_flush(struct device_record *r) {
    fputs(r->act, r->acts);
    r->act[0] = 0;
}

/* Begins an event, and returns whether it is recorded. An event may need a `lose` for each peer. */
static inline bool device_record_event(struct device_record *r) {
    device_record_flush(r);
    if (r->act_count + 9 > DEVICE_RECORD_MOST) r->full = true;
    if (r->full) return false;
    r->act_count++;
    r->line_count++;
    return true;
}

/* The windows of a peer, by the numbers of ivshm_device.h. */
enum { DEVICE_RECORD_CONFIG = 0, DEVICE_RECORD_REGISTERS = 1, DEVICE_RECORD_MSIX = 2 };

/* The bytes of each of the accesses that the device makes of one: 0 if it ignores the access. */
static inline uint32_t device_record_unit(uint32_t window, uint32_t offset, uint32_t width) {
    bool is_word = width == 4 || (width == 8 && window == DEVICE_RECORD_MSIX);
    if (width == 0 || width > 8 || offset % width != 0) return 0;
    if (window == DEVICE_RECORD_CONFIG) return offset < 256 && width <= 4 && width != 3 ? width : 0;
    return offset < 4096 && is_word ? 4 : 0;
}

static inline void device_record_read_one(struct device_record *r, uint32_t peer, uint32_t window, uint32_t offset, uint32_t width, uint32_t value) {
    if (!device_record_event(r)) return;
    if (window == DEVICE_RECORD_CONFIG) {
        snprintf(r->act, sizeof r->act, "cfg %u r %u %u\n", peer, offset, width);
        fprintf(r->lines, "cr %u %u %u %u\n", peer, offset, width, value);
        return;
    }
    snprintf(r->act, sizeof r->act, "%s %u r %u\n", window == DEVICE_RECORD_MSIX ? "msix" : "mmio", peer, offset);
    fprintf(r->lines, "%s %u %u %u\n", window == DEVICE_RECORD_MSIX ? "tr" : "mr", peer, offset, value);
}

/* A write of the Doorbell, at 12, and one of State, at 16, have lines of their own. */
static inline void device_record_register_line(struct device_record *r, uint32_t peer, uint32_t offset, uint32_t value) {
    if (offset == 12) fprintf(r->lines, "d %u %u %u\n", peer, value >> 16, value & 0xffff);
    else if (offset == 16) fprintf(r->lines, "s %u %u\n", peer, value);
    else fprintf(r->lines, "mw %u %u %u\n", peer, offset, value);
}

static inline void device_record_write_one(struct device_record *r, uint32_t peer, uint32_t window, uint32_t offset, uint32_t width, uint32_t value) {
    if (!device_record_event(r)) return;
    switch (window) {
    case DEVICE_RECORD_CONFIG:
        snprintf(r->act, sizeof r->act, "cfg %u w %u %u %u\n", peer, offset, width, value);
        fprintf(r->lines, "cw %u %u %u %u\n", peer, offset, width, value);
        break;
    case DEVICE_RECORD_REGISTERS:
        snprintf(r->act, sizeof r->act, "mmio %u w %u %u\n", peer, offset, value);
        device_record_register_line(r, peer, offset, value);
        break;
    default:
        snprintf(r->act, sizeof r->act, "msix %u w %u %u\n", peer, offset, value);
        fprintf(r->lines, "tw %u %u %u\n", peer, offset, value);
    }
}

/* The device answered a read by `value`. */
static inline void device_record_read(struct device_record *r, uint32_t peer, uint32_t window, uint32_t offset, uint32_t width, uint64_t value) {
    uint32_t unit = device_record_unit(window, offset, width);
    for (uint32_t at = 0; unit && at < width; at += unit) device_record_read_one(r, peer, window, offset + at, unit, (uint32_t)(value >> 8 * at));
}

/* The device took a write, of the low `width` bytes of `value`. */
static inline void device_record_write(struct device_record *r, uint32_t peer, uint32_t window, uint32_t offset, uint32_t width, uint64_t value) {
    uint32_t unit = device_record_unit(window, offset, width);
    for (uint32_t at = 0; unit && at < width; at += unit) device_record_write_one(r, peer, window, offset + at, unit, (uint32_t)(value >> 8 * at));
}

/* A device reset, or a disconnection. */
static inline void device_record_reset(struct device_record *r, uint32_t peer) {
    if (!device_record_event(r)) return;
    snprintf(r->act, sizeof r->act, "reset %u\n", peer);
    fprintf(r->lines, "x %u\n", peer);
}

/* A delivery that the last event brought, which was sent to the guest. */
static inline void device_record_interrupt(struct device_record *r, uint32_t peer, uint32_t vector) {
    if (r->full) return;
    r->line_count++;
    fprintf(r->lines, "i %u %u\n", peer, vector);
}

/* A delivery that the last event brought, which the hypervisor couldn't send. */
static inline void device_record_lost(struct device_record *r, uint32_t peer, uint32_t vector) {
    if (r->full) return;
    r->act_count++;
    r->line_count++;
    fprintf(r->acts, "lose %u\n", peer);
    fprintf(r->lines, "lost %u %u\n", peer, vector);
}

static inline void device_record_append(FILE *to, FILE *from) {
    char room[65536];
    size_t length;
    rewind(from);
    while ((length = fread(room, 1, sizeof room, from)) > 0) fwrite(room, 1, length, to);
    fclose(from);
}

static inline void device_record_head(FILE *file, const struct device_record_world *world) {
    fprintf(file, "record 2\nivshm 1\npeers %u\ntable %u\n", world->peers, world->table);
    fprintf(file, "common %llu\nout %llu\nmtu 256\n", (unsigned long long)world->common, (unsigned long long)world->out);
    if (world->vectors > 0) fprintf(file, "irq msix %u\n", world->vectors);
    else fprintf(file, "irq intx\n");
    for (uint32_t p = 0; p < world->peers; p++) fprintf(file, "peer %u hostile\n", p);
    fprintf(file, "begin\n");
}

/* Writes the record to a file and ends it. Returns whether the file was written. */
static inline bool device_record_end(struct device_record *r, const char *path, const struct device_record_world *world) {
    FILE *file = fopen(path, "w");
    if (!file) return false;
    device_record_flush(r);
    device_record_head(file, world);
    device_record_append(file, r->acts);
    fprintf(file, "end\n");
    device_record_append(file, r->lines);
    fprintf(file, "end %llu\n", (unsigned long long)r->line_count);
    r->acts = r->lines = NULL;
    return fclose(file) == 0;
}
#endif
