/* The requests of QEMU's x-pci-proxy-dev, in the messages of its multi-process protocol (QEMU
 * 7.2, hw/remote). A message is a head and `size` bytes; files come with it. A reply is a head
 * and a number of 64 bits. All numbers have the byte order of this machine. */
#define _GNU_SOURCE
#include <stdio.h>
#include <string.h>
#include <unistd.h>

#include "vmm.h"

enum { SYNC_SYSMEM, RETURN, CONFIG_WRITE, CONFIG_READ, BAR_WRITE, BAR_READ, SET_IRQFD, DEVICE_RESET };
enum { MOST_FILES = 8, MOST_BYTES = 256 };

struct head {
    int32_t command;
    uint32_t padding;
    uint64_t size;
};

struct config_access {
    uint32_t offset, value;
    int32_t width;
};

struct bar_access {
    uint64_t address, value;
    uint32_t width;
    uint8_t is_memory;
};

struct message {
    struct head head;
    union {
        uint8_t bytes[MOST_BYTES];
        struct config_access config;
        struct bar_access bar;
    } data;
    int files[MOST_FILES];
    int file_count;
};

/* Reads all bytes; false if the connection is over before. */
static bool read_whole(int line, void *to, size_t size) {
    for (size_t done = 0; done < size;) {
        ssize_t length = read(line, (char *)to + done, size - done);
        if (length <= 0) return false;
        done += (size_t)length;
    }
    return true;
}

/* Reads the head, with the files that come with it. */
static bool read_head(int line, struct message *m) {
    union {
        char room[CMSG_SPACE(sizeof m->files)];
        struct cmsghdr aligned;
    } control;
    struct iovec part = {&m->head, sizeof m->head};
    struct msghdr parts = {.msg_iov = &part, .msg_iovlen = 1, .msg_control = control.room, .msg_controllen = sizeof control.room};
    ssize_t length = recvmsg(line, &parts, MSG_CMSG_CLOEXEC | MSG_WAITALL);
    for (struct cmsghdr *c = length > 0 ? CMSG_FIRSTHDR(&parts) : NULL; c; c = CMSG_NXTHDR(&parts, c)) {
        if (c->cmsg_level != SOL_SOCKET || c->cmsg_type != SCM_RIGHTS) continue;
        m->file_count = (int)((c->cmsg_len - CMSG_LEN(0)) / sizeof(int));
        memcpy(m->files, CMSG_DATA(c), (size_t)m->file_count * sizeof(int));
    }
    return length == sizeof m->head;
}

static bool read_message(int line, struct message *m) {
    return read_head(line, m) && m->head.size <= sizeof m->data && read_whole(line, &m->data, m->head.size);
}

static void close_files(struct message *m) {
    for (int i = 0; i < m->file_count; i++)
        if (m->files[i] != NONE) close(m->files[i]);
}

static bool reply(int line, uint64_t value) {
    struct {
        struct head head;
        uint64_t value;
    } answer = {{.command = RETURN, .size = sizeof value}, value};
    return write(line, &answer, sizeof answer) == sizeof answer;
}

/* The first of the two files is KVM's eventfd for INTx; the second signals that a level is over. */
static void keep_irqfd(struct peer *p, struct message *m) {
    if (m->file_count < 1) return;
    if (p->irq != NONE) close(p->irq);
    p->irq = m->files[0];
    m->files[0] = NONE;
}

static bool has_width(uint32_t width) { return width == 1 || width == 2 || width == 4 || width == 8; }

/* An access of the configuration space. */
static bool answer_config(struct vmm *v, uint32_t peer, const struct message *m) {
    const struct config_access *config = &m->data.config;
    ivshm_window_access access = {.value = config->value, .window = IVSHM_WINDOW_CONFIG, .offset = config->offset, .width = (uint32_t)config->width};
    uint64_t value = 0;
    if (!has_width(access.width)) return false;
    if (m->head.command == CONFIG_READ) value = device_read(v, peer, access);
    else device_write(v, peer, access);
    return reply(v->peers[peer].line, value);
}

/* An access to the window of a Base Address Register. An access elsewhere reads ones. */
static bool answer_bar(struct vmm *v, uint32_t peer, const struct message *m) {
    const struct bar_access *bar = &m->data.bar;
    ivshm_window_access access = {.value = bar->value, .offset = (uint32_t)(bar->address % 4096), .width = bar->width};
    uint64_t value = UINT64_MAX;
    if (!has_width(access.width)) return false;
    if (device_window_at(v, peer, bar->address, &access.window)) {
        if (m->head.command == BAR_READ) value = device_read(v, peer, access);
        else device_write(v, peer, access);
    }
    return reply(v->peers[peer].line, value);
}

/* Answers a message; false if it makes no sense. */
static bool answer(struct vmm *v, uint32_t peer, struct message *m) {
    switch (m->head.command) {
    case CONFIG_READ:
    case CONFIG_WRITE:
        return answer_config(v, peer, m);
    case BAR_READ:
    case BAR_WRITE:
        return answer_bar(v, peer, m);
    case DEVICE_RESET:
        device_reset(v, peer);
        return reply(v->peers[peer].line, 0);
    case SET_IRQFD:
        keep_irqfd(&v->peers[peer], m);
        return true;
    case SYNC_SYSMEM: /* the guest's memory, which the device never accesses */
        return true;
    default:
        fprintf(stderr, "vmm: peer %u: unknown message %d\n", peer, m->head.command);
        return false;
    }
}

bool message_serve(struct vmm *v, uint32_t peer) {
    struct message m = {.file_count = 0};
    bool served = read_message(v->peers[peer].line, &m) && answer(v, peer, &m);
    close_files(&m);
    return served;
}
