/* running: the accesses of two ends of the link in C, by two threads over sequentially consistent
 * words, with a record of them. `ivshm run` is compared with it. Each end clears its section,
 * offers its frames and polls the other's, as docs/LINK.md says. Of the
 * handshake there is nothing else.
 *
 *   running FRAMES BYTES BOTH [VERSION]     FRAMES frames of BYTES bytes from peer 0, and back if
 *                                           BOTH is 1; VERSION of the link: 1 by default
 *
 * It writes the lines of both ends' accesses, and on standard error the nanoseconds that the
 * threads took. */
#define _GNU_SOURCE
#include <pthread.h>
#include <stdatomic.h>
#include <stdint.h>
#include <stdio.h>
#include <stdlib.h>
#include <string.h>
#include <time.h>

/* The words of a section have the kinds of the link's layout, and other offsets: one entry has a
 * word of its own. */
enum { MOST = 2048, DESCRIPTORS = 0, AVAILABLE = 4 * MOST, ENTRIES = AVAILABLE + 1, USED = ENTRIES + MOST, IDS = USED + 1, EVENT = IDS + 2 * MOST,
       DATA = EVENT + 1, DATA_WORDS = 1 << 17, WORDS = DATA + DATA_WORDS };

/* The queue of a section of 16,384 bytes with an MTU of 256. For frames of more than 256 bytes,
 * one of 520,192 bytes with an MTU of 1,536. In version 3 a frame takes its own length. */
struct queue { uint32_t size, slots, slot, area, section; };
static const struct queue queues[2] = {{64, 45, 320, 14592, 16384}, {2048, 291, 1600, 466816, 520192}};

static _Atomic uint32_t words[2][WORDS];
static struct queue queue;
static uint32_t frames, bytes, both, version;
static pthread_barrier_t cleared;

struct access { uint32_t kind, word, value; };

struct end {
  uint32_t me;
  uint32_t offered, freed, taken, offers, expects, rings;
  int armed; /* its event asks at the next frame */
  struct access *list;
  size_t count, room;
};

static void note(struct end *end, uint32_t kind, uint32_t word, uint32_t value) {
  if (end->count == end->room) {
    end->room = end->room ? 2 * end->room : 1 << 16;
    end->list = realloc(end->list, end->room * sizeof *end->list);
    if (!end->list) abort();
  }
  end->list[end->count++] = (struct access){kind, word, value};
}

static uint32_t look(uint32_t section, uint32_t word) { return atomic_load(&words[section][word]); }

static uint32_t load(struct end *end, uint32_t section, uint32_t word) {
  uint32_t value = look(section, word);
  note(end, 'r', section * WORDS + word, value);
  return value;
}

static void store(struct end *end, uint32_t word, uint32_t value) {
  atomic_store(&words[end->me][word], value);
  note(end, 'w', end->me * WORDS + word, value);
}

static void ring(struct end *end) {
  end->rings++;
  note(end, 'd', 1 - end->me, 1);
}

/* Offers one frame: frees what the other returned, then writes the data words, the descriptor, the
 * entry and the index. It rings, from version 2 on if the other's event asks at this frame. Returns
 * 0 if the frame doesn't fit. */
static int offer(struct end *end) {
  uint32_t other = 1 - end->me, returned = look(other, USED);
  if (end->offered - end->freed == queue.slots && returned == end->freed) return 0;
  note(end, 'r', other * WORDS + USED, returned);
  for (; end->freed != returned; end->freed++) load(end, other, IDS + 2 * (end->freed % queue.size));
  uint32_t place = end->offered % queue.slots, descriptor = end->offered % queue.size, slot = DATA + place * (queue.slot / 4);
  for (uint32_t k = 0; k < (bytes + 3) / 4; k++) store(end, slot + k, end->offered ^ k);
  store(end, DESCRIPTORS + 4 * descriptor, 4 * slot);
  store(end, DESCRIPTORS + 4 * descriptor + 1, 0);
  store(end, DESCRIPTORS + 4 * descriptor + 2, bytes);
  store(end, DESCRIPTORS + 4 * descriptor + 3, 0);
  store(end, ENTRIES + descriptor, descriptor);
  store(end, AVAILABLE, ++end->offered);
  if (version == 1 || load(end, other, EVENT) == end->offered - 1) ring(end);
  return 1;
}

/* Takes one frame: reads its entry, its descriptor and its words, and returns it. */
static void take(struct end *end) {
  uint32_t other = 1 - end->me, place = end->taken % queue.size;
  uint32_t entry = load(end, other, ENTRIES + place) % queue.size;
  uint32_t address = load(end, other, DESCRIPTORS + 4 * entry);
  load(end, other, DESCRIPTORS + 4 * entry + 1);
  uint32_t length = load(end, other, DESCRIPTORS + 4 * entry + 2);
  load(end, other, DESCRIPTORS + 4 * entry + 3);
  for (uint32_t k = 0; k < (length + 3) / 4 && k < DATA_WORDS; k++) load(end, other, (address / 4 + k) % WORDS);
  store(end, IDS + 2 * place, entry);
  store(end, IDS + 2 * place + 1, 1);
  store(end, USED, ++end->taken);
}

/* Takes the new frames and rings. From version 2 on an end that finds none writes its event, once,
 * and looks again. */
static void poll(struct end *end) {
  uint32_t other = 1 - end->me, index = look(other, AVAILABLE);
  if (index == end->taken && (version == 1 || end->armed)) return;
  note(end, 'r', other * WORDS + AVAILABLE, index);
  if (index == end->taken) {
    store(end, EVENT, end->taken);
    end->armed = 1;
    index = load(end, other, AVAILABLE);
    if (index == end->taken) return;
  }
  end->armed = 0;
  while (end->taken != index) take(end);
  ring(end);
}

static void *drive(void *argument) {
  struct end *end = argument;
  for (uint32_t k = 0; k < queue.section / 4; k++) store(end, k, 0);
  pthread_barrier_wait(&cleared);
  while (end->offered < end->offers || end->taken < end->expects) {
    if (end->offered < end->offers) offer(end);
    poll(end);
  }
  return NULL;
}

static void print(struct end *end) {
  for (size_t k = 0; k < end->count; k++)
    printf("%c %u %u %u\n", (int)end->list[k].kind, end->me, end->list[k].word, end->list[k].value);
}

/* The queue of these frames, in the version. */
static struct queue queue_of(void) {
  struct queue found = queues[bytes > 256];
  if (version < 3) {
    found.size = found.slots; /* frame k has descriptor k mod the limit */
    return found;
  }
  found.slot = (bytes + 63) / 64 * 64;
  found.slots = found.area / found.slot < found.size ? found.area / found.slot : found.size;
  return found;
}

static uint32_t number(const char *text) { return (uint32_t)strtoul(text, NULL, 10); }

int main(int argc, char **argv) {
  if (argc < 4 || argc > 5) return 2;
  frames = number(argv[1]);
  bytes = number(argv[2]);
  both = number(argv[3]);
  version = argc > 4 ? number(argv[4]) : 1;
  if (!frames || bytes < 14 || bytes > 1554 || version < 1 || version > 3) return 2;
  queue = queue_of();
  struct end first = {.me = 0, .offers = frames, .expects = both ? frames : 0};
  struct end second = {.me = 1, .offers = both ? frames : 0, .expects = frames};
  struct timespec start, stop;
  clock_gettime(CLOCK_MONOTONIC, &start);
  pthread_t thread;
  if (pthread_barrier_init(&cleared, NULL, 2)) return 1;
  if (pthread_create(&thread, NULL, drive, &second)) return 1;
  drive(&first);
  pthread_join(thread, NULL);
  clock_gettime(CLOCK_MONOTONIC, &stop);
  print(&first);
  print(&second);
  fprintf(stderr, "%lld\n", (stop.tv_sec - start.tv_sec) * 1000000000LL + stop.tv_nsec - start.tv_nsec);
  return 0;
}
