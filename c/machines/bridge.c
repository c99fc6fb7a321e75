/* bridge ME OUT MTU TAP [SPIN [IDLE]]: frames between a TAP device and the link, in a guest. The
 * bridge ticks each 5 milliseconds. It polls at full speed until SPIN rounds had no frame. Then it
 * sleeps at most IDLE microseconds between two rounds. A frame from the TAP device ends that sleep.
 * A doorbell ends it too, if there is a device with doorbells. The TAP device has its carrier while
 * the link is in RUN. At SIGUSR1 the bridge writes the counts to /tmp/counts. At SIGTERM it leaves
 * the link and ends. */
#ifdef DEVICE_OF_VERSION_2
#include "version2.h"
#else
#include "link.h"
#endif

#include <errno.h>
#include <linux/if.h>
#include <linux/if_tun.h>
#include <poll.h>
#include <signal.h>

/* A refusal is forgiven after half a second, so a refused peer gets two sessions a second. A
 * peer that isn't refused, and only plays with its State, may open eight sessions at once, and
 * then two a second. A program that is started again and again does so. Each session costs a
 * store for each word of the own section. Without a bound a hostile peer could keep this guest
 * busy with nothing else. */
static const double tick_time = 0.005, forgiven_after = 0.5, sessions_a_second = 2, sessions_at_once = 8;

static const char *const fields[] = {"-", "AvailIndex", "AvailEntry", "DescAddress", "DescLength", "DescFlags", "UsedIndex", "UsedId"};
static const char *const states[] = {"RESET", "INIT", "READY", "RUN"};
static volatile sig_atomic_t over, asked;

struct bridge {
    struct guest guest;
    int tap;
    uint32_t spin, idle, quiet, state;
    bool refused;
    double ticked, refused_at, allowed, counted_at;
    uint64_t ticks, held, resets, forgiven, from_tap, dropped, to_tap, lost, interrupts;
    size_t waiting; /* bytes of the frame that doesn't fit yet */
    uint8_t frame[IVSHM_LONGEST];
};

static void stop(int number) {
    (void)number;
    over = 1;
}

static void ask(int number) {
    (void)number;
    asked = 1;
}

static void take(struct guest *g, const uint8_t *frame, size_t length) {
    struct bridge *b = g->context;
    if (write(b->tap, frame, length) == (ssize_t)length) b->to_tap++;
    else b->lost++;
}

static void write_counts(struct bridge *b, FILE *to) {
    const ivshm_link *link = &b->guest.link;
    const ivshm_link_counts *counts = &link->counts;
    fprintf(to, "bridge %u: %s; sessions %" PRIu64 ", accepted %" PRIu64 ", delivered %" PRIu64 ", full %" PRIu64 ", stray %" PRIu64, link->setup.me,
            states[b->state], counts->sessions, counts->accepted, counts->delivered, counts->full, counts->stray);
    fprintf(to, ", from the tap %" PRIu64 ", to the tap %" PRIu64 ", lost there %" PRIu64 ", dropped while down %" PRIu64, b->from_tap, b->to_tap, b->lost,
            b->dropped);
    fprintf(to, ", ticks %" PRIu64 ", held back %" PRIu64 ", accesses %" PRIu64 ", rings %" PRIu64 ", interrupts %" PRIu64, b->ticks, b->held, counts->accesses,
            counts->rings, b->interrupts);
    fprintf(to, ", mended %" PRIu64 ", resets %" PRIu64 ", refused %" PRIu64 ":", b->guest.mended, b->resets, counts->refusals);
    for (int i = 1; i < 8; i++) fprintf(to, " %s %" PRIu64, fields[i], counts->refused[i]);
    fprintf(to, "\n");
}

static void save_counts(struct bridge *b) {
    asked = 0;
    FILE *file = fopen("/tmp/counts.new", "w");
    if (!file) return;
    write_counts(b, file);
    fclose(file);
    rename("/tmp/counts.new", "/tmp/counts");
}

static int open_tap(const char *name) {
    struct ifreq request;
    memset(&request, 0, sizeof request);
    request.ifr_flags = IFF_TAP | IFF_NO_PI;
    snprintf(request.ifr_name, sizeof request.ifr_name, "%s", name);
    int file = open("/dev/net/tun", O_RDWR | O_NONBLOCK);
    if (file < 0 || ioctl(file, TUNSETIFF, &request)) fail(name);
    return file;
}

static void set_carrier(struct bridge *b, int on) {
    if (ioctl(b->tap, TUNSETCARRIER, &on)) perror("TUNSETCARRIER");
}

/* Handles a change of the end's State. */
static void follow(struct bridge *b) {
    uint32_t state = b->guest.link.state, before = b->state;
    b->state = state;
    if (before == IVSHM_INIT && state != IVSHM_INIT) b->allowed -= 1;
    if ((state == IVSHM_RUN) == (before == IVSHM_RUN)) return;
    set_carrier(b, state == IVSHM_RUN);
    fprintf(stderr, "bridge %u: %s at %.3f\n", b->guest.link.setup.me, states[state], now());
}

/* Whether another session may begin. */
static bool is_allowed(struct bridge *b, double time) {
    b->allowed += (time - b->counted_at) * sessions_a_second;
    if (b->allowed > sessions_at_once) b->allowed = sessions_at_once;
    b->counted_at = time;
    return b->allowed >= 1;
}

/* An end in INIT begins a session with its next Tick, if the other is there. That Tick is delayed
 * if there were too many sessions. */
static void tick(struct bridge *b, double time) {
    b->ticked = time;
    mend(&b->guest);
    if (!is_allowed(b, time) && b->state == IVSHM_INIT) {
        b->held++;
        return;
    }
    must(ivshm_link_tick(&b->guest.link), "tick");
    b->ticks++;
    follow(b);
}

/* Delivers what the other published, and returns whether a frame was delivered. */
static bool receive(struct bridge *b) {
    if (b->state != IVSHM_RUN) return false;
    uint32_t delivered = ivshm_link_poll(&b->guest.link, IVSHM_LINK_ALL);
    follow(b);
    return delivered > 0;
}

/* Whether there is a frame to offer next. Frames that can't be sent at all are dropped. */
static bool has_frame(struct bridge *b) {
    while (!b->waiting) {
        ssize_t length = read(b->tap, b->frame, sizeof b->frame);
        if (length <= 0) return false;
        b->from_tap++;
        if (b->state != IVSHM_RUN || length < IVSHM_SHORTEST || length > b->guest.link.layout.longest_offer) b->dropped++;
        else b->waiting = (size_t)length;
    }
    return true;
}

/* Offers frames of the TAP device, at most 32 and none after the link is full. Returns whether one
 * was accepted. A frame that doesn't fit waits, unless its session ends: the next session has only
 * new frames. */
static bool send_some(struct bridge *b) {
    bool moved = false;
    for (int i = 0; i < 32 && has_frame(b); i++) {
        uint32_t outcome;
        must(ivshm_link_send(&b->guest.link, b->frame, b->waiting, &outcome), "send");
        if (outcome == IVSHM_WAS_FULL) break;
        b->waiting = 0;
        if (outcome != IVSHM_ACCEPTED) {
            b->dropped++;
            follow(b);
            break;
        }
        moved = true;
    }
    return moved;
}

/* Resets an end that refused a value, after a while. */
static void forgive(struct bridge *b, double time) {
    ivshm_link *link = &b->guest.link;
    if (link->counts.refusals == b->forgiven) return;
    if (!b->refused) {
        b->refused = true;
        b->refused_at = time;
        fprintf(stderr, "bridge %u: refused %s %" PRIu64 " at %.3f\n", link->setup.me, fields[link->refusal.field % 8], link->refusal.value, time);
    }
    if (time - b->refused_at < forgiven_after) return;
    b->refused = false;
    b->forgiven = link->counts.refusals;
    b->resets++;
    must(ivshm_link_reset(link), "reset");
    follow(b);
}

/* Sleeps until a frame comes from the TAP device, a doorbell is rung, or the time is over. */
static void rest(struct bridge *b) {
    struct pollfd files[2] = {{b->tap, b->waiting ? 0 : POLLIN, 0}, {b->guest.bell.events, POLLIN, 0}};
    uint32_t idle = b->state == IVSHM_RUN ? b->idle : 1000;
    struct timespec time = {idle / 1000000, idle % 1000000 * 1000L};
    uint64_t rung;
    ppoll(files, 2, &time, NULL);
    if (!files[1].revents || read(b->guest.bell.events, &rung, sizeof rung) != sizeof rung) return;
    b->interrupts++;
    enable_interrupts(&b->guest);
    b->ticked = 0;
}

static void run(struct bridge *b) {
    while (!over) {
        double time = now();
        if (asked) save_counts(b);
        if (time - b->ticked > tick_time) tick(b, time);
        bool moved = receive(b);
        if (b->state != IVSHM_RUN) b->waiting = 0;
        if (send_some(b)) moved = true;
        forgive(b, time);
        b->quiet = moved ? 0 : b->quiet + 1;
        if (b->quiet > b->spin || b->state != IVSHM_RUN) rest(b);
    }
}

int main(int argc, char **argv) {
    static struct bridge b;
    if (argc < 5 || argc > 7) return 2;
    b.guest.context = &b;
    b.guest.deliver = take;
    join(&b.guest, (uint32_t)strtoul(argv[1], NULL, 10), strtoul(argv[2], NULL, 10), (uint32_t)strtoul(argv[3], NULL, 10));
    b.spin = argc > 5 ? (uint32_t)strtoul(argv[5], NULL, 10) : 200;
    b.idle = argc > 6 ? (uint32_t)strtoul(argv[6], NULL, 10) : 100;
    b.allowed = sessions_at_once;
    b.counted_at = now();
    signal(SIGTERM, stop);
    signal(SIGUSR1, ask);
    b.tap = open_tap(argv[4]);
    set_carrier(&b, 0);
    run(&b);
    receive(&b);
    write_counts(&b, stderr);
    must(ivshm_link_close(&b.guest.link), "close");
    return b.guest.link.counts.stray != 0;
}
