/* ring0 RUNS OFF: calls the library as code in ring 0 does, in user space on x86-64. An interrupt
 * comes after every instruction: the processor traps. A handler on a stack of its own overwrites
 * the 128 bytes below the stack pointer, as an interrupt on the same stack does. At each call the
 * stack is OFF bytes, 0 or 8, off its alignment to 16 bytes.
 *
 * Each run is made by two pairs of ends, with interrupts and without. The two must agree in
 * every answer and in every word of their regions. The program ends with 1 at the first run in
 * which they differ. It is compiled like a kernel: -fno-builtin -mno-red-zone
 * -mgeneral-regs-only. */
#define _GNU_SOURCE
#include <signal.h>
#include <stdbool.h>
#include <stdio.h>
#include <stdlib.h>
#include <ucontext.h>

#include "ivshm_c.h"

enum { OUT = 16384, WORDS = 1024 + 2 * OUT / 4, LIFE = 50, RED_ZONE = 128, TRAP_FLAG = 0x100 };

struct pair {
    ivshm_end ends[2];
    uint32_t words[WORDS];
    uint64_t digest; /* of all answers */
};

static struct pair pairs[2], *now;
static _Alignas(16) unsigned char stack[65536], handler_stack[65536];
static uint64_t run, interrupts;
static uint8_t frame[274]; /* the frame of the run, and its length */
static size_t length;

/* Memory functions without the red zone and without vector registers, from any source. */
void *memcpy(void *restrict to, const void *restrict from, size_t count);
void *memmove(void *to, const void *from, size_t count);
void *memset(void *to, int byte, size_t count);

typedef uint64_t __attribute__((may_alias, aligned(1))) eight;

void *memcpy(void *restrict to, const void *restrict from, size_t count) {
    unsigned char *t = to;
    const unsigned char *f = from;
    for (; count >= 8; count -= 8, t += 8, f += 8) *(eight *)t = *(const eight *)f;
    for (; count > 0; count--) *t++ = *f++;
    return to;
}

void *memmove(void *to, const void *from, size_t count) {
    unsigned char *t = to;
    const unsigned char *f = from;
    if (t <= f) return memcpy(to, from, count);
    while (count-- > 0) t[count] = f[count];
    return to;
}

void *memset(void *to, int byte, size_t count) {
    unsigned char *t = to;
    uint64_t eight_bytes = (unsigned char)byte * 0x0101010101010101u;
    for (; count >= 8; count -= 8, t += 8) *(eight *)t = eight_bytes;
    for (; count > 0; count--) *t++ = (unsigned char)byte;
    return to;
}

/* Blocks come from an arena for each pair, which begins again with each pair of ends. */
static _Alignas(16) unsigned char arenas[2][1 << 17];
static size_t tops[2];

struct rattle_block rattle_alloc(size_t size, size_t align) {
    size_t which = (size_t)(now - pairs), at = (tops[which] + align - 1) / align * align;
    if (size > sizeof arenas[0] - at) return (struct rattle_block){0, stack};
    tops[which] = at + size;
    return (struct rattle_block){1, arenas[which] + at};
}

void rattle_dealloc(void *at) { (void)at; }

static void mix(uint64_t value) { now->digest = (now->digest ^ value) * 0x9e3779b97f4a7c15u; }

static void mix_notes(const ivshm_notes *notes) {
    for (uint32_t i = 0; i < notes->count; i++) {
        mix(notes->note[i].kind);
        if (notes->note[i].kind != IVSHM_DELIVER) mix(notes->note[i].value);
    }
}

/* Completes the read of a field of an item, or the words of a frame and the writes that return it,
 * if such a read comes next. */
static bool step_item(ivshm_end *end, const ivshm_access *access) {
    const uint32_t *from = now->words + access->word % WORDS;
    ivshm_frame_return made;
    ivshm_access after;
    ivshm_burst next;
    if (access->count == 0) {
        if (ivshm_end_took_field(end, *from, &next) != IVSHM_DONE) return false;
        mix(next.word);
        mix(next.count);
        return true;
    }
    if (ivshm_end_took_frame(end, (const uint8_t *)from, 4 * (size_t)access->count, &made, &after) != IVSHM_DONE) return false;
    now->words[made.element % WORDS] = made.id;
    now->words[(made.element + 1) % WORDS] = 1;
    now->words[made.index % WORDS] = made.returned;
    mix(made.length);
    mix(after.word);
    return true;
}

/* Makes a single access, or the reads of a burst, and reports its values to the end. */
static void step(ivshm_end *end, uint32_t me, const ivshm_access *access) {
    ivshm_notes notes = {.count = 0};
    uint32_t value = 0;
    if (access->kind == IVSHM_WRITE && access->count > 1000) {
        /* the section that a tick clears is clear already */
        mix(ivshm_end_took_writes(end, access->count));
        return;
    }
    if (access->kind == IVSHM_READ && access->count > 1) {
        const uint8_t *words = (const uint8_t *)(now->words + access->word);
        mix(ivshm_end_took_reads(end, words, 4 * (size_t)access->count, &notes));
        mix_notes(&notes);
        return;
    }
    if (access->kind == IVSHM_READ) value = now->words[access->word % WORDS];
    if (access->kind == IVSHM_WRITE) now->words[access->word % WORDS] = access->value;
    if (access->kind == IVSHM_STATE) now->words[me] = access->value;
    mix(ivshm_end_took(end, value, &notes));
    mix_notes(&notes);
}

/* Publishes the frame of an offer, if a word of it comes next. */
static bool step_offer(ivshm_end *end) {
    static uint8_t room[20];
    ivshm_publication made;
    ivshm_access next;
    if (ivshm_end_publish(end, &made, room, sizeof room, &next) != IVSHM_DONE) return false;
    for (int i = 0; i < 3; i++) mix(made.bursts[i].word);
    uint32_t *words = now->words + made.bursts[0].word % WORDS;
    size_t at = 4 * ((length + 3) / 4 - made.bursts[0].count);
    words[made.bursts[0].count - 1] = 0;
    memcpy(words, frame + at, length - at);
    memcpy(now->words + made.bursts[1].word % WORDS, room, 16);
    memcpy(now->words + made.bursts[2].word % WORDS, room + 16, 4);
    now->words[made.index % WORDS] = made.accepted;
    mix(made.accepted);
    mix(next.word);
    return true;
}

static void finish(uint32_t me) {
    ivshm_end *end = &now->ends[me];
    ivshm_access access;
    while (ivshm_end_next(end, &access) == IVSHM_DONE) {
        mix(access.kind);
        mix(access.word);
        mix(access.value);
        mix(access.count);
        if (access.kind == IVSHM_WRITE && run % 2 == 0 && step_offer(end)) continue;
        if (access.kind == IVSHM_READ && run % 2 == 0 && step_item(end, &access)) continue;
        step(end, me, &access);
    }
}

static void call(uint32_t me, uint32_t which) {
    mix(ivshm_end_begin(&now->ends[me], which));
    finish(me);
}

/* A configuration space: a vendor capability at 40h, MSI-X at 60h, and a list that continues at
 * another place in each run. */
static void walk(void) {
    static uint8_t space[256];
    static const uint8_t head[] = {0x0a, 0x11, 0x06, 0x41, 0, 0, 0x10, 0, 0, 1, 0, 0xff};
    static const uint8_t vendor[] = {9, 0x60, 0x20, 1, 0, 0x10, 0, 0, 0, 0, 0, 0, 0, 0, 0, 0,
                                     0, 0x40, 0, 0, 0, 0, 0, 0, 0, 0, 0, 0, 1};
    static const uint8_t msix[] = {0x11, 0, 3, 0, 1, 0, 0, 0, 1, 8, 0, 0};
    static const uint8_t nexts[] = {0, 0x70, 0x40, 0x3c, 0x61};
    ivshm_found found = {.table = 7};
    ivshm_words layout = {.first = 7};
    memcpy(space, head, sizeof head);
    memcpy(space + 0x40, vendor, sizeof vendor);
    memcpy(space + 0x60, msix, sizeof msix);
    space[0x34] = 0x40;
    space[0x61] = nexts[run % 5];
    mix(ivshm_walk(space, &found));
    mix(found.table + found.out + found.base + found.vectors);
    mix(ivshm_layout(&found, 2, 256, &layout));
    mix(layout.first + layout.words + layout.data_area + layout.longest_delivery);
}

static void make_ends(void) {
    ivshm_found found = {.table = 4096, .out = OUT};
    tops[now - pairs] = 0;
    for (uint32_t me = 0; me < 2; me++) {
        uint32_t version = 1 + (uint32_t)(run / LIFE % IVSHM_VERSION);
        mix(ivshm_end_free(&now->ends[me]));
        mix(ivshm_end_new_version(&now->ends[me], &found, 2, me, 256, 1, version));
        finish(me);
    }
    memset(now->words, 0, sizeof now->words);
    for (int i = 0; i < 3; i++) {
        call(0, IVSHM_TICK);
        call(1, IVSHM_TICK);
    }
}

/* One run: a frame goes from one end to the other, and its bytes are compared. */
static void make_run(void) {
    static uint8_t room[300];
    size_t copied = 0;
    ivshm_view view;
    ivshm_counts counts;
    walk();
    if (run % LIFE == 0) make_ends();
    length = 14 + run * 7 % 50;
    for (size_t i = 0; i < length; i++) frame[i] = (uint8_t)(run + i * 31);
    uint32_t from = (uint32_t)(run % 2);
    mix(ivshm_end_offer(&now->ends[from], frame, length));
    finish(from);
    call(1 - from, IVSHM_POLL);
    mix(ivshm_end_frame(&now->ends[1 - from], room, sizeof room, &copied));
    mix(copied);
    for (size_t i = 0; i < copied && i < length; i++) mix(room[i]);
    mix(ivshm_end_view(&now->ends[from], &view));
    mix(view.outcome + view.state);
    mix(ivshm_end_counts(&now->ends[from], &counts));
    mix(counts.sessions + counts.accepted + counts.delivered + counts.full + counts.down + counts.refused);
}

/* The same, with the trap flag set: the processor traps after each instruction from here on. */
static void make_interrupted_run(void) {
    __asm__ volatile("pushf\n orq %0, (%%rsp)\n popf" : : "i"(TRAP_FLAG) : "memory", "cc");
    make_run();
    __asm__ volatile("pushf\n andq %0, (%%rsp)\n popf" : : "i"(~TRAP_FLAG) : "memory", "cc");
}

static void interrupt(int signal, siginfo_t *info, void *context) {
    const ucontext_t *at = context;
    uint64_t *below = (uint64_t *)(at->uc_mcontext.gregs[REG_RSP] - RED_ZONE);
    (void)signal, (void)info;
    for (int i = 0; i < RED_ZONE / 8; i++) below[i] = 0xffff888012345678u + interrupts;
    interrupts++;
}

/* Calls a function with the stack pointer at `top`. */
void call_on(unsigned char *top, void (*function)(void));
__asm__(".text\ncall_on:\n push %rbx\n mov %rsp, %rbx\n mov %rdi, %rsp\n call *%rsi\n"
        " mov %rbx, %rsp\n pop %rbx\n ret\n");

static void made(struct pair *pair, size_t off, void (*function)(void)) {
    now = pair;
    call_on(stack + sizeof stack - off, function);
}

static bool agree(void) {
    for (size_t i = 0; i < WORDS; i++)
        if (pairs[0].words[i] != pairs[1].words[i]) return false;
    return pairs[0].digest == pairs[1].digest;
}

int main(int argc, char **argv) {
    stack_t own = {.ss_sp = handler_stack, .ss_size = sizeof handler_stack};
    struct sigaction action = {.sa_sigaction = interrupt, .sa_flags = SA_SIGINFO | SA_ONSTACK};
    if (argc != 3 || sigaltstack(&own, NULL) || sigaction(SIGTRAP, &action, NULL)) return 2;
    uint64_t runs = strtoull(argv[1], NULL, 10);
    size_t off = strtoull(argv[2], NULL, 10);
    for (run = 0; run < runs; run++) {
        made(&pairs[0], off, make_run);
        made(&pairs[1], off, make_interrupted_run);
        if (agree()) continue;
        printf("ring0: run %llu differs\n", (unsigned long long)run);
        return 1;
    }
    printf("ring0: %llu runs, %llu interrupts, the stack off by %zu: nothing differs\n",
           (unsigned long long)runs, (unsigned long long)interrupts, off);
    return 0;
}
