/* Plays test vectors of tools/device_vectors against a device: device_play < vectors
 *
 * It reads JSON lines of the form that tools/device_vectors writes. They are a world, then
 * accesses of its peers with the value or the effect of the device's rules. Any number of worlds
 * follow each other. It writes each line that differs, at most ten, and the number of lines that
 * agree. The status is 0 if all agree, 1 if one differs, 2 if a line can't be read. Link it with
 * the calls of a device (device_play.h); c/device_library.c has those of libivshm_device. */
#include "device_play.h"

#include <inttypes.h>
#include <stdio.h>
#include <string.h>

enum { LINE = 1024, SHOWN = 10 };

struct play {
    void *device;
    uint64_t line;
    uint64_t agree;
    uint64_t differ;
};

/* Finds a number after `"name":` in a line. Returns 1 if there is one. */
static int number(const char *line, const char *name, uint64_t *value) {
    char key[32];
    const char *at;
    snprintf(key, sizeof key, "\"%s\":", name);
    at = strstr(line, key);
    return at != NULL && sscanf(at + strlen(key), "%" SCNu64, value) == 1;
}

/* Whether a line has `"do":"word"`. */
static int does(const char *line, const char *word) {
    char key[40];
    snprintf(key, sizeof key, "\"do\":\"%s\"", word);
    return strstr(line, key) != NULL;
}

/* Reads the State word and the deliveries of a line. */
static int effect_of(const char *line, struct device_effect *effect) {
    const char *at = strstr(line, "\"deliveries\":[");
    uint64_t state = 0;
    int length = 0;
    memset(effect, 0, sizeof *effect);
    effect->writes_state = number(line, "state", &state) ? 1 : 0;
    effect->state = (uint32_t)state;
    if (at == NULL) return 0;
    at += strlen("\"deliveries\":[");
    while (effect->count < DEVICE_PLAY_PEERS &&
           sscanf(at, "[%" SCNu32 ",%" SCNu32 "]%n", &effect->peer[effect->count], &effect->vector[effect->count], &length) == 2) {
        at += length;
        if (*at == ',') at++;
        effect->count++;
    }
    return *at == ']';
}

static void print_effect(const char *whose, const struct device_effect *effect) {
    uint32_t i;
    printf("  %s:", whose);
    if (effect->writes_state) printf(" State %" PRIu32, effect->state);
    for (i = 0; i < effect->count; i++) printf(" peer %" PRIu32 " vector %" PRIu32 ",", effect->peer[i], effect->vector[i]);
    printf(" %" PRIu32 " deliveries\n", effect->count);
}

static int same_effect(const struct device_effect *a, const struct device_effect *b) {
    uint32_t i;
    if (a->writes_state != b->writes_state || (a->writes_state && a->state != b->state) || a->count != b->count) return 0;
    for (i = 0; i < a->count; i++)
        if (a->peer[i] != b->peer[i] || a->vector[i] != b->vector[i]) return 0;
    return 1;
}

/* Counts a line, and shows it if it differs and few have been shown. Returns 1 to show more. */
static int count(struct play *play, const char *line, int agrees) {
    if (agrees) {
        play->agree++;
        return 0;
    }
    if (play->differ++ >= SHOWN) return 0;
    printf("line %" PRIu64 " differs: %s", play->line, line);
    return 1;
}

static int play_effect(struct play *play, const char *line, const struct device_effect *found) {
    struct device_effect due;
    if (!effect_of(line, &due)) return 0;
    if (count(play, line, same_effect(&due, found))) print_effect("the device", found);
    return 1;
}

static int play_value(struct play *play, const char *line, uint32_t found) {
    uint64_t due;
    if (!number(line, "value", &due)) return 0;
    if (count(play, line, due == found)) printf("  the device: %" PRIu32 "\n", found);
    return 1;
}

static int play_world(struct play *play, const char *line) {
    struct device_world world;
    uint64_t peers, table, vectors;
    if (!number(line, "peers", &peers) || !number(line, "table", &table) || !number(line, "common", &world.common) ||
        !number(line, "out", &world.out) || !number(line, "vectors", &vectors))
        return 0;
    world.peers = (uint32_t)peers;
    world.table = (uint32_t)table;
    world.vectors = (uint32_t)vectors;
    if (play->device != NULL) device_calls.unmake(play->device);
    play->device = device_calls.make(&world);
    count(play, line, play->device != NULL);
    return 1;
}

static int play_access(struct play *play, const char *line) {
    struct device_effect effect;
    uint64_t peer = 0, offset = 0, width = 0, value = 0;
    uint32_t p, o, w, v;
    if (play->device == NULL || !number(line, "peer", &peer)) return 0;
    number(line, "offset", &offset);
    number(line, "width", &width);
    number(line, "value", &value);
    p = (uint32_t)peer, o = (uint32_t)offset, w = (uint32_t)width, v = (uint32_t)value;
    memset(&effect, 0, sizeof effect);
    if (does(line, "config_read")) return play_value(play, line, device_calls.config_read(play->device, p, o, w));
    if (does(line, "register_read")) return play_value(play, line, device_calls.register_read(play->device, p, o));
    if (does(line, "msix_read")) return play_value(play, line, device_calls.msix_read(play->device, p, o));
    if (does(line, "config_write")) {
        device_calls.config_write(play->device, p, o, w, v);
        count(play, line, 1);
        return 1;
    }
    if (does(line, "msix_write")) {
        device_calls.msix_write(play->device, p, o, v);
        count(play, line, 1);
        return 1;
    }
    if (does(line, "register_write")) {
        device_calls.register_write(play->device, p, o, v, &effect);
        return play_effect(play, line, &effect);
    }
    if (does(line, "reset")) {
        device_calls.reset(play->device, p, &effect);
        return play_effect(play, line, &effect);
    }
    return 0;
}

int main(void) {
    struct play play = {NULL, 0, 0, 0};
    char line[LINE];
    while (fgets(line, sizeof line, stdin) != NULL) {
        play.line++;
        if (!(strstr(line, "\"world\":") != NULL ? play_world(&play, line) : play_access(&play, line))) {
            printf("line %" PRIu64 " can't be read: %s", play.line, line);
            return 2;
        }
    }
    if (play.device != NULL) device_calls.unmake(play.device);
    printf("%" PRIu64 " lines agree, %" PRIu64 " differ\n", play.agree, play.differ);
    return play.differ > 0 || play.agree == 0;
}
