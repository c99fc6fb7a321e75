/* QEMU's devices ivshmem-plain and ivshmem-doorbell in a guest: they are found by their PCI numbers
 * in sysfs. The shared memory, at Base Address Register 2, is mapped part by part. So a word that
 * this peer may not write can't be written by mistake. There are two layouts:
 *
 * apart   Two plain devices. Device p, in the order of the slots, is the file of peer p: its State
 *         is the first word, and its section comes after the first page. The host hands each guest
 *         the other's file read-only.
 * shared  One device. Its file has the State Table in its first page and both sections after it,
 *         and each guest can write all of it. */
#ifndef DEVICE_H
#define DEVICE_H
#ifndef _GNU_SOURCE
#define _GNU_SOURCE
#endif
#include <fcntl.h>
#include <glob.h>
#include <inttypes.h>
#include <stdatomic.h>
#include <stdbool.h>
#include <stdint.h>
#include <stdio.h>
#include <stdlib.h>
#include <string.h>
#include <sys/mman.h>
#include <sys/stat.h>
#include <time.h>
#include <unistd.h>

enum { TABLE = 4096, VENDOR = 0x1af4, DEVICE = 0x1110, MOST_PLAIN = 2 };

/* The memory of a device: a file, and the offset at which it begins. */
struct bar {
    int file;
    off_t start;
    size_t size;
};

struct peer_words {
    _Atomic uint32_t *state, *section;
};

/* The folders of the devices in sysfs: the plain ones in the order of their slots, and the one
 * with doorbells, or an empty word. */
struct devices {
    int count;
    char plain[MOST_PLAIN][256], doorbell[256];
};

static inline double now(void) {
    struct timespec time;
    clock_gettime(CLOCK_MONOTONIC, &time);
    return (double)time.tv_sec + (double)time.tv_nsec / 1e9;
}

static inline void fail(const char *what) {
    perror(what);
    exit(1);
}

static inline void give_up(const char *why) {
    fprintf(stderr, "%s\n", why);
    exit(1);
}

static inline unsigned sysfs_number(const char *device, const char *name) {
    char path[512], text[32];
    unsigned long number = 0;
    snprintf(path, sizeof path, "%s/%s", device, name);
    FILE *file = fopen(path, "r");
    if (!file) return 0;
    if (fgets(text, sizeof text, file)) number = strtoul(text, NULL, 16);
    fclose(file);
    return (unsigned)number;
}

/* Both devices have the same numbers, but only the one with doorbells has a Base Address Register
 * 1, which has its vectors. */
static inline struct devices find_devices(void) {
    struct devices found = {0};
    char vectors[512];
    glob_t all;
    if (glob("/sys/bus/pci/devices/*", 0, NULL, &all)) return found;
    for (size_t i = 0; i < all.gl_pathc; i++) {
        const char *path = all.gl_pathv[i];
        if (sysfs_number(path, "vendor") != VENDOR || sysfs_number(path, "device") != DEVICE) continue;
        snprintf(vectors, sizeof vectors, "%s/resource1", path);
        if (!access(vectors, F_OK)) snprintf(found.doorbell, sizeof found.doorbell, "%s", path);
        else if (found.count < MOST_PLAIN) snprintf(found.plain[found.count++], sizeof found.plain[0], "%s", path);
    }
    globfree(&all);
    return found;
}

/* Opens Base Address Register 2 of a plain device. resource2 is mapped uncached. resource2_wc would
 * combine writes, and so break their order. */
static inline struct bar open_bar(const char *device) {
    char path[512];
    struct stat status;
    /* lets the device decode its addresses, which no driver did */
    snprintf(path, sizeof path, "%s/enable", device);
    int enable = open(path, O_WRONLY);
    if (enable >= 0) {
        if (write(enable, "1", 1) != 1) perror(path);
        close(enable);
    }
    snprintf(path, sizeof path, "%s/resource2", device);
    struct bar bar = {.file = open(path, O_RDWR)};
    if (bar.file < 0 || fstat(bar.file, &status)) fail(path);
    bar.size = (size_t)status.st_size;
    return bar;
}

/* Each part is a mapping of its own: after an mprotect inside one mapping the kernel complains of
 * memory types when the program ends. */
static inline void *map_part(const struct bar *bar, size_t from, size_t size, bool write) {
    if (from + size > bar->size) give_up("Base Address Register 2 is too small");
    void *place = mmap(NULL, size, write ? PROT_READ | PROT_WRITE : PROT_READ, MAP_SHARED, bar->file, bar->start + (off_t)from);
    if (place == MAP_FAILED) fail("mmap");
    return place;
}

/* Maps the words of both peers, writable if `may_write` says so. */
static inline void map_peers(struct peer_words peers[2], const struct bar *bars, int count, size_t out, const bool may_write[2]) {
    if (count < 1) give_up("there is no ivshmem device");
    if (out == 0 || out % TABLE) give_up("a section has whole pages");
    bool apart = count == 2;
    for (int p = 0; p < 2; p++) {
        const struct bar *bar = &bars[apart ? p : 0];
        peers[p].state = (_Atomic uint32_t *)map_part(bar, 0, TABLE, may_write[p]) + (apart ? 0 : p);
        peers[p].section = map_part(bar, TABLE + (apart ? 0 : (size_t)p * out), out, may_write[p]);
    }
}
#endif
