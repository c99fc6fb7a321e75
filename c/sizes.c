/* sizes ROUNDS: the memory of the ends. It calls storage.c by other names:
 *
 *     cc -O2 -Drattle_alloc=storage_alloc -Drattle_dealloc=storage_dealloc \
 *         -DIVSHM_STORAGE='(3 * IVSHM_LARGEST_END)' -c storage.c
 *     cc -O2 -o sizes sizes.c storage.o LIB
 *
 * For sections and MTUs of many sizes and each version, a new end allocates six blocks, and none
 * later. They fit IVSHM_END_BYTES, and all six are freed with the end. The number of bytes is
 * printed as in ivshm_c.h. Then ends are made and freed ROUNDS times over storage.c. An array for
 * three ends of equal sizes serves three ends, and their blocks don't overlap. */
#include <inttypes.h>
#include <stdio.h>
#include <stdlib.h>
#include <string.h>

#include "ivshm_c.h"

enum { STORAGE = 3 * IVSHM_LARGEST_END };

/* storage.c, with room for three ends */
struct rattle_block storage_alloc(size_t size, size_t align);
void storage_dealloc(void *at);

static size_t blocks, held, bytes;

/* Measures a block, and fills it, so that blocks that overlap are seen by the ends. */
struct rattle_block rattle_alloc(size_t size, size_t align) {
    struct rattle_block block = storage_alloc(size, align);
    blocks++;
    held += block.ok;
    bytes += size;
    if (block.ok) memset(block.at, (int)(blocks % 255) + 1, size);
    return block;
}

void rattle_dealloc(void *at) {
    held--;
    storage_dealloc(at);
}

#ifdef LEAK /* as if the library freed no block */
#define ivshm_end_free(end) ((end)->at == NULL ? IVSHM_NO_END : ((end)->at = NULL, IVSHM_DONE))
#endif

/* Ends the program with a message unless the test was right. */
static void expect(int right, const char *what) {
    if (right) return;
    printf("sizes: wrong: %s\n", what);
    exit(1);
}

/* Makes an end of these sizes. The program ends if it can't. */
static void make(ivshm_end *end, uint64_t out, uint32_t mtu, uint32_t version) {
    ivshm_found found = {.table = 4096, .out = out, .protocol = IVSHM_PROTOCOL};
    expect(ivshm_end_new_version(end, &found, 2, 0, mtu, 1, version) == IVSHM_DONE, "no end is made");
}

/* Makes and frees an end of these sizes, and returns its bytes, or 0 if no end has these sizes. */
static size_t measured(uint64_t out, uint32_t mtu, uint32_t version) {
    static const uint8_t frame[14] = {255, 255, 255, 255, 255, 255, 2};
    ivshm_found found = {.table = 4096, .out = out, .protocol = IVSHM_PROTOCOL};
    ivshm_end end = IVSHM_END_NONE;
    ivshm_words words;
    ivshm_notes notes;
    if (ivshm_layout(&found, 2, mtu, &words) != IVSHM_DONE) return 0;
    blocks = bytes = 0;
    make(&end, out, mtu, version);
    expect(blocks == 6, "not six blocks");
    expect(bytes + (size_t)6 * 31 <= IVSHM_END_BYTES(&words), "more bytes than IVSHM_END_BYTES");
    expect(IVSHM_END_BYTES(&words) <= IVSHM_LARGEST_END, "more bytes than IVSHM_LARGEST_END");
    while (ivshm_end_took(&end, 0, &notes) == IVSHM_DONE) continue;
    expect(ivshm_end_offer(&end, frame, sizeof frame) == IVSHM_DONE && ivshm_end_reset(&end) == IVSHM_DONE, "no offer or no reset");
    expect(blocks == 6, "a block that isn't asked for by a new end");
    expect(ivshm_end_free(&end) == IVSHM_DONE, "the end isn't freed");
    expect(held == 0, "a block isn't freed");
    return bytes;
}

static void check_sizes(void) {
    static const uint64_t sections[] = {16384, 65536, 520192, 8384512};
    static const uint32_t mtus[] = {256, 1500, 9000, 65535};
    for (int s = 0; s < 4; s++) {
        printf("sizes: %" PRIu64 ":", sections[s]);
        for (int m = 0; m < 4; m++) printf(" %zu", measured(sections[s], mtus[m], 3));
        printf("\n");
    }
    for (uint64_t out = 4096; out <= 8384512; out += out / 32768 * 4096 + 4096)
        for (uint32_t mtu = IVSHM_LEAST_MTU; mtu <= IVSHM_MOST_MTU; mtu += mtu / 2)
            for (uint32_t version = 1; version <= IVSHM_VERSION; version++) measured(out, mtu, version);
}

/* Three ends over the array. Each round frees one and makes it anew. */
static void check_storage(uint32_t rounds) {
    ivshm_end ends[3] = {IVSHM_END_NONE, IVSHM_END_NONE, IVSHM_END_NONE}, more = IVSHM_END_NONE;
    ivshm_found found = {.table = 4096, .out = 8384512, .protocol = IVSHM_PROTOCOL};
    ivshm_access access;
    uint32_t drawn = 1;
    for (int i = 0; i < 3; i++) make(&ends[i], found.out, IVSHM_MOST_MTU, 3);
    for (uint32_t round = 0; round < rounds; round++) {
        drawn = drawn * 1664525 + 1013904223;
        ivshm_end *end = &ends[(drawn >> 16) % 3];
        expect(ivshm_end_new_version(&more, &found, 2, 0, IVSHM_MOST_MTU, 1, 3) == IVSHM_NO_MEMORY && more.at == NULL, "a fourth end");
        expect(ivshm_end_free(end) == IVSHM_DONE, "an end isn't freed");
        make(end, found.out, IVSHM_MOST_MTU, 3);
        for (int i = 0; i < 3; i++)
            expect(ivshm_end_next(&ends[i], &access) == IVSHM_DONE && access.kind == IVSHM_STATE && access.value == IVSHM_RESET, "blocks overlap");
    }
    for (int i = 0; i < 3; i++) expect(ivshm_end_free(&ends[i]) == IVSHM_DONE, "an end isn't freed");
    struct rattle_block whole = storage_alloc(STORAGE - 32, 16);
    expect(whole.ok == 1, "a block is left");
    storage_dealloc(whole.at);
}

int main(int argc, char **argv) {
    if (argc != 2) return 2;
    uint32_t rounds = (uint32_t)strtoul(argv[1], NULL, 10);
    check_sizes();
    check_storage(rounds);
    printf("sizes: %u ends made and freed over an array for three\n", rounds);
    return 0;
}
