/* floor OUT MTU SIZE ROUNDS: the rounds of speed.c in plain C (plain_rings.h), without an end. It
 * prints frames a second. */
#include "plain_rings.h"

enum { BATCH = 8 };

int main(int argc, char **argv) {
    static struct side sides[2];
    static uint8_t frame[IVSHM_LONGEST + 3]; /* whole words */
    if (argc != 5) return 2;
    size_t size = strtoull(argv[3], NULL, 10);
    uint64_t rounds = strtoull(argv[4], NULL, 10);
    memset(frame, 0x5a, sizeof frame);
    open_sides(sides, strtoull(argv[1], NULL, 10), (uint32_t)strtoul(argv[2], NULL, 10));
    double start = spent();
    for (uint64_t round = 0; round < rounds; round++) {
        for (int i = 0; i < BATCH; i++) {
            send_plain(&sides[0], frame, size);
            send_plain(&sides[1], frame, size);
        }
        take_plain(&sides[0]);
        take_plain(&sides[1]);
    }
    uint64_t frames = sides[0].delivered + sides[1].delivered;
    printf("%zu bytes, plain C: %.0f frames a second\n", size, (double)frames / (spent() - start));
    if (memcmp(sides[0].inner, frame, size) || memcmp(sides[1].inner, frame, size)) return 1;
    return frames != 2 * BATCH * rounds;
}
