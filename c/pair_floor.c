/* pair_floor OUT MTU FRAMES SIZE BURST: the floor of pair.c between two processes. Each sends
 * FRAMES frames of SIZE bytes in plain C (plain_rings.h), without an end, and polls after BURST of
 * them. The frames are made before the start, and compared as in pair.c. The program prints
 * frames a second each way. It has exit number 1 if a frame was lost or changed. */
#include "plain_rings.h"

#include "frames.h"
#include "processor.h"

#include <sys/wait.h>

static struct kept_frames kept;
static struct side sides[2];

/* Whether a delivered frame is the next one that the other peer sent. */
static int is_right(const struct side *s, const uint8_t *frame, size_t length) { return is_kept(&kept, s == sides, s->delivered, frame, length); }

/* Sends and receives all frames of this peer, and returns the time in seconds. */
static double run(uint32_t me, uint64_t frames, uint64_t burst) {
    struct side *s = &sides[me];
    take_processor(me);
    uint64_t sent = 0, idle = 0;
    double start = now();
    while (sent < frames || s->delivered < frames) {
        uint64_t before = s->delivered;
        for (uint64_t i = 0; i < burst && sent < frames && send_plain(s, kept_frame(&kept, me, sent), kept.size); i++) sent++;
        take_plain(s);
        if (s->delivered != before) idle = 0;
        else if (++idle % 64 == 0) sched_yield();
    }
    return now() - start;
}

int main(int argc, char **argv) {
    if (argc != 6) return 2;
    uint64_t frames = strtoull(argv[3], NULL, 10), burst = strtoull(argv[5], NULL, 10);
    int status = 1;
    if (burst == 0) return 2;
    keep_frames(&kept, strtoull(argv[4], NULL, 10));
    open_sides(sides, strtoull(argv[1], NULL, 10), (uint32_t)strtoul(argv[2], NULL, 10));
    sides[0].check = sides[1].check = is_right;
    pid_t child = fork();
    if (child < 0) fail("fork");
    double seconds = run(child == 0, frames, burst);
    if (child == 0) return sides[1].bad > 0;
    if (waitpid(child, &status, 0) != child) fail("waitpid");
    printf("%zu bytes, plain C, bursts of %" PRIu64 ": %.0f frames a second each way\n", kept.size, burst, (double)frames / seconds);
    return status != 0 || sides[0].bad > 0;
}
