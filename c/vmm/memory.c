/* The region: a file for the State Table and the common section, and one for each output section.
 * A guest has all of them mapped by its QEMU, read-only but for its own output section and the
 * common section, if there is one. The State Table is written here alone. */
#define _GNU_SOURCE
#include <fcntl.h>
#include <stdio.h>
#include <sys/mman.h>
#include <unistd.h>

#include "vmm.h"

/* Opens a file of the folder, of this size, which is made if it isn't there. */
static int open_file(const struct vmm *v, const char *name, uint64_t size) {
    char path[256];
    snprintf(path, sizeof path, "%s/%s", v->folder, name);
    int file = open(path, O_RDWR | O_CREAT | O_CLOEXEC, 0600);
    if (file < 0 || ftruncate(file, (off_t)size)) fail(path);
    return file;
}

void memory_open(struct vmm *v) {
    char name[16];
    int file = open_file(v, "table", v->world.table + v->world.common);
    void *place = mmap(NULL, v->world.table, PROT_READ | PROT_WRITE, MAP_SHARED, file, 0);
    if (place == MAP_FAILED) fail("mmap");
    v->table = place;
    close(file);
    for (uint32_t p = 0; p < v->world.peers; p++) {
        snprintf(name, sizeof name, "out%u", p);
        close(open_file(v, name, v->world.out));
        memory_set_state(v, p, 0);
    }
}

void memory_set_state(struct vmm *v, uint32_t peer, uint32_t state) { atomic_store(&v->table[peer], state); }
