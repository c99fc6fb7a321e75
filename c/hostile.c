/* hostile REGION OUT SECONDS SEED: peer 1, hostile, over the region in a file (hostile.h). */
#define _GNU_SOURCE
#include "hostile.h"

#include <fcntl.h>
#include <stdio.h>
#include <stdlib.h>
#include <sys/mman.h>
#include <unistd.h>

enum { TABLE = 4096 };

int main(int argc, char **argv) {
    if (argc != 5) return 2;
    uint32_t out = (uint32_t)strtoul(argv[2], NULL, 10);
    generator = strtoull(argv[4], NULL, 10) * 0x9e3779b97f4a7c15u + 1;
    int file = open(argv[1], O_RDWR | O_CREAT, 0600);
    if (file < 0 || ftruncate(file, TABLE + 2 * (off_t)out)) return 1;
    _Atomic uint32_t *states = mmap(NULL, TABLE + 2 * (size_t)out, PROT_READ | PROT_WRITE, MAP_SHARED, file, 0);
    if (states == MAP_FAILED) return 1;
    lay_out(out);
    his_state = states;
    own_state = states + 1;
    his = states + TABLE / 4;
    own = states + TABLE / 4 + words;
    double end = time_now() + strtod(argv[3], NULL);
    while (time_now() < end) session(end, (int)(draw() % KINDS), 20000);
    printf("hostile: %llu sessions, %llu rounds of stores\n", (unsigned long long)sessions, (unsigned long long)stores);
    return 0;
}
