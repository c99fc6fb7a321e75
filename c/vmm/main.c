/* vmm [-p PEERS] [-v VECTORS] [-t TABLE] [-c COMMON] [-o OUT] [-r RECORD] FOLDER
 *
 * The devices of two to eight guests. The QEMU of peer P connects to the socket FOLDER/doorP, and
 * hands that connection to its x-pci-proxy-dev; its -qtest socket is FOLDER/qtestP. The region is
 * in the files FOLDER/table, FOLDER/out0, FOLDER/out1, ..: see memory.c.
 *
 *     -v   vectors of MSI-X (2); 0: INTx, which needs KVM
 *     -t -c -o   bytes of the State Table (4096), of the common section, and of an output section:
 *          so that each file has 2 MiB, the unit of QEMU's pc-dimm, by default
 *     -r   the file to which what was asked is written as a record, at the end
 *
 * At SIGUSR1 the counts go to standard error. At SIGTERM or SIGINT the record is written, and the
 * program ends. */
#define _GNU_SOURCE
#include <errno.h>
#include <inttypes.h>
#include <poll.h>
#include <signal.h>
#include <stdio.h>
#include <stdlib.h>
#include <sys/time.h>
#include <unistd.h>

#include "vmm.h"

enum { PART = 2 << 20, MESSAGE_SECONDS = 10 };

static volatile sig_atomic_t is_over, is_asked;

static void stop(int number) {
    (void)number;
    is_over = 1;
}

static void ask(int number) {
    (void)number;
    is_asked = 1;
}

void fail(const char *what) {
    perror(what);
    exit(1);
}

int unix_socket(const struct vmm *v, const char *name, uint32_t peer, struct sockaddr_un *address) {
    int made = socket(AF_UNIX, SOCK_STREAM | SOCK_CLOEXEC, 0);
    *address = (struct sockaddr_un){.sun_family = AF_UNIX};
    int length = snprintf(address->sun_path, sizeof address->sun_path, "%s/%s%u", v->folder, name, peer);
    if (made < 0) fail("socket");
    if (length >= (int)sizeof address->sun_path) {
        errno = ENAMETOOLONG;
        fail(v->folder);
    }
    return made;
}

static void print_counts(const struct vmm *v) {
    static const char *const windows[] = {"config", "registers", "msix"};
    const struct counts *c = &v->counts;
    fprintf(stderr, "vmm:");
    for (int w = 0; w < 3; w++) fprintf(stderr, " %s %" PRIu64 " reads %" PRIu64 " writes,", windows[w], c->reads[w], c->writes[w]);
    fprintf(stderr, " elsewhere %" PRIu64 ", resets %" PRIu64 ", states %" PRIu64, c->elsewhere, c->resets, c->states);
    fprintf(stderr, ", sent %" PRIu64 ", lost %" PRIu64 "; State", c->sent, c->lost);
    for (uint32_t p = 0; p < v->world.peers; p++) fprintf(stderr, " %" PRIu32, atomic_load(&v->table[p]));
    fprintf(stderr, "\n");
}

static void open_door(struct vmm *v, uint32_t peer) {
    struct sockaddr_un address;
    int door = unix_socket(v, "door", peer, &address);
    unlink(address.sun_path);
    if (bind(door, (const struct sockaddr *)&address, sizeof address) || listen(door, 1)) fail(address.sun_path);
    v->peers[peer] = (struct peer){.door = door, .line = NONE, .qtest = NONE, .irq = NONE};
}

/* A message that doesn't come whole in some seconds ends the connection: others are waiting. */
static void welcome(struct vmm *v, uint32_t peer) {
    struct peer *p = &v->peers[peer];
    struct timeval most = {.tv_sec = MESSAGE_SECONDS};
    p->line = accept4(p->door, NULL, NULL, SOCK_CLOEXEC);
    if (p->line < 0) {
        p->line = NONE;
        return;
    }
    setsockopt(p->line, SOL_SOCKET, SO_RCVTIMEO, &most, sizeof most);
    setsockopt(p->line, SOL_SOCKET, SO_SNDTIMEO, &most, sizeof most);
    device_connect(v, peer);
}

static void part(struct vmm *v, uint32_t peer) {
    close(v->peers[peer].line);
    v->peers[peer].line = NONE;
    interrupt_close(v, peer);
    device_disconnect(v, peer);
    fprintf(stderr, "vmm: peer %u is gone\n", peer);
}

/* Waits for the next event: a guest that connects, sends a message or leaves. */
static void serve(struct vmm *v, const sigset_t *unblocked) {
    struct pollfd files[2 * MOST_PEERS];
    uint32_t peers = v->world.peers;
    for (uint32_t p = 0; p < peers; p++) {
        const struct peer *peer = &v->peers[p];
        files[2 * p] = (struct pollfd){peer->line == NONE ? peer->door : peer->line, POLLIN, 0};
        files[2 * p + 1] = (struct pollfd){peer->qtest, POLLIN, 0};
    }
    if (ppoll(files, 2 * peers, NULL, unblocked) < 0) return;
    for (uint32_t p = 0; p < peers; p++) {
        if (files[2 * p + 1].revents) interrupt_read_answers(v, p);
        if (!files[2 * p].revents) continue;
        if (v->peers[p].line == NONE) welcome(v, p);
        else if (!message_serve(v, p)) part(v, p);
    }
}

static uint64_t number(const char *text) {
    char *end;
    uint64_t value = strtoull(text, &end, 0);
    if (!*text || *end) {
        errno = EINVAL;
        fail(text);
    }
    return value;
}

/* Reads the words of the command line; false if they make no sense. */
static bool read_words(struct vmm *v, int count, char **words) {
    struct device_record_world *w = &v->world;
    *w = (struct device_record_world){.peers = 2, .table = 4096, .common = PART - 4096, .out = PART, .vectors = 2};
    for (int option; (option = getopt(count, words, "p:v:t:c:o:r:")) != -1;) {
        switch (option) {
        case 'p': w->peers = (uint32_t)number(optarg); break;
        case 'v': w->vectors = (uint32_t)number(optarg); break;
        case 't': w->table = (uint32_t)number(optarg); break;
        case 'c': w->common = number(optarg); break;
        case 'o': w->out = number(optarg); break;
        case 'r': v->record_path = optarg; break;
        default: return false;
        }
    }
    v->folder = words[optind];
    return optind == count - 1 && w->peers >= 2 && w->peers <= MOST_PEERS;
}

/* Signals come while the program waits, and at no other time. */
static void take_signals(sigset_t *unblocked) {
    sigset_t all;
    sigemptyset(&all);
    for (const int *s = (const int[]){SIGTERM, SIGINT, SIGUSR1, 0}; *s; s++) {
        struct sigaction action = {.sa_handler = *s == SIGUSR1 ? ask : stop};
        sigaction(*s, &action, NULL);
        sigaddset(&all, *s);
    }
    sigprocmask(SIG_BLOCK, &all, unblocked);
    signal(SIGPIPE, SIG_IGN);
}

int main(int argc, char **argv) {
    static struct vmm v;
    sigset_t unblocked;
    if (!read_words(&v, argc, argv)) {
        fprintf(stderr, "usage: vmm [-p PEERS] [-v VECTORS] [-t TABLE] [-c COMMON] [-o OUT] [-r RECORD] FOLDER\n");
        return 2;
    }
    if (v.record_path && !device_record_begin(&v.record)) fail("tmpfile");
    device_open(&v);
    memory_open(&v);
    take_signals(&unblocked);
    for (uint32_t p = 0; p < v.world.peers; p++) open_door(&v, p);
    fprintf(stderr, "vmm: ready\n");
    while (!is_over) {
        serve(&v, &unblocked);
        if (is_asked) print_counts(&v);
        is_asked = 0;
    }
    print_counts(&v);
    if (v.record_path && !device_record_end(&v.record, v.record_path, &v.world)) fail(v.record_path);
    return 0;
}
