/* tap REGION ME OUT MTU TAP: frames between a TAP device and the link. A doorbell is a byte in the
 * FIFO REGION.bellN of peer N. The program ends at SIGTERM. */
#include "region.h"

#include <linux/if.h>
#include <linux/if_tun.h>
#include <poll.h>
#include <signal.h>
#include <sys/ioctl.h>
#include <sys/stat.h>

static volatile sig_atomic_t over;
static int tap, own_bell, other_bell;
static uint64_t from_tap, to_tap, lost;

static void stop(int number) {
    (void)number;
    over = 1;
}

static void take(struct region *r, const uint8_t *frame, size_t length) {
    (void)r;
    if (write(tap, frame, length) == (ssize_t)length) to_tap++;
    else lost++;
}

static void ring(struct region *r) {
    (void)r;
    if (write(other_bell, "", 1) < 0 && errno != EAGAIN) perror("bell");
}

static int bell(const char *region, uint32_t peer) {
    char name[256];
    snprintf(name, sizeof name, "%s.bell%u", region, peer);
    if (mkfifo(name, 0600) && errno != EEXIST) fail(name);
    int file = open(name, O_RDWR | O_NONBLOCK);
    if (file < 0) fail(name);
    return file;
}

static int open_tap(const char *name) {
    struct ifreq request;
    memset(&request, 0, sizeof request);
    request.ifr_flags = IFF_TAP | IFF_NO_PI;
    snprintf(request.ifr_name, sizeof request.ifr_name, "%s", name);
    int file = open("/dev/net/tun", O_RDWR | O_NONBLOCK);
    if (file < 0 || ioctl(file, TUNSETIFF, &request)) fail(name);
    return file;
}

/* Passes frames of the TAP device to the link: at most 32, and none after the link is full. A frame
 * that doesn't fit waits. */
static bool send_some(ivshm_link *link, uint8_t *frame, ssize_t *waiting) {
    uint32_t outcome;
    bool moved = false;
    for (int i = 0; i < 32; i++) {
        if (*waiting == 0) {
            ssize_t length = read(tap, frame, IVSHM_LONGEST);
            if (length <= 0) break;
            from_tap++;
            if (length < IVSHM_SHORTEST || length > link->layout.longest_offer) {
                lost++;
                continue;
            }
            *waiting = length;
        }
        must(ivshm_link_send(link, frame, (size_t)*waiting, &outcome), "send");
        if (outcome != IVSHM_ACCEPTED) break;
        *waiting = 0;
        moved = true;
    }
    return moved;
}

static void wait_for_work(bool waiting) {
    char drain[4096];
    struct pollfd files[2] = {{own_bell, POLLIN, 0}, {tap, waiting ? 0 : POLLIN, 0}};
    poll(files, 2, 10);
    while (read(own_bell, drain, sizeof drain) == sizeof drain) {}
}

static void report(const ivshm_link *link) {
    const ivshm_link_counts *counts = &link->counts;
    printf("peer %u: %" PRIu64 " frames from the tap, %" PRIu64 " accepted, %" PRIu64 " delivered, %" PRIu64 " to the tap, %" PRIu64 " lost, %" PRIu64
           " times full, %" PRIu64 " refusals, %" PRIu64 " stray accesses, %" PRIu64 " doorbells\n",
           link->setup.me, from_tap, counts->accepted, counts->delivered, to_tap, lost, counts->full, counts->refusals, counts->stray, counts->rings);
}

/* Moves frames both ways until SIGTERM, or until a value is refused. */
static void run(ivshm_link *link) {
    static uint8_t frame[IVSHM_LONGEST];
    ssize_t waiting = 0;
    double ticked = 0;
    while (!over && !link->counts.refusals) {
        if (now() - ticked > 0.01) {
            must(ivshm_link_tick(link), "tick");
            ticked = now();
        }
        if (link->state != IVSHM_RUN) {
            usleep(1000);
            continue;
        }
        uint32_t delivered = ivshm_link_poll(link, IVSHM_LINK_ALL);
        bool moved = send_some(link, frame, &waiting);
        if (!moved && delivered == 0) wait_for_work(waiting > 0);
    }
}

int main(int argc, char **argv) {
    static struct region r;
    if (argc != 6) return 2;
    attach(&r, argv[1], (uint32_t)strtoul(argv[2], NULL, 10), strtoull(argv[3], NULL, 10), (uint32_t)strtoul(argv[4], NULL, 10), NULL);
    r.deliver = take;
    r.ring = ring;
    own_bell = bell(argv[1], r.link.setup.me);
    other_bell = bell(argv[1], 1 - r.link.setup.me);
    tap = open_tap(argv[5]);
    signal(SIGTERM, stop);
    signal(SIGINT, stop);
    run(&r.link);
    detach(&r);
    report(&r.link);
    return r.link.counts.refusals || r.link.counts.stray;
}
