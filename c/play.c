/* play PEER [CORPUS] < RECORD: plays the world's side of a record towards the driver of one peer,
 * with which it is linked (driver.h).
 *
 * The driver gets the calls of that peer. Each access that it makes has to be the next one of the
 * record, and a read gets the value of the record's line. Each frame that it hands over has to be
 * the one delivered there. A call that the record cuts, by a reset or at its end, is cut here too.
 * The answer is `same`, or the line of the history that was due and what the driver did in its
 * place, with exit number 1. With CORPUS the calls and the values read are written there, as input
 * of fuzz.c. */
#include "driver.h"

#include <inttypes.h>
#include <setjmp.h>
#include <stdarg.h>
#include <stdio.h>
#include <stdlib.h>
#include <string.h>

enum kind { ACCESS, DELIVER, OVER, CUT };

/* A line of the history that the driver has to meet. */
struct event {
    enum kind kind;
    uint64_t line;       /* its number in the history, from 1 */
    const char *text;
};

struct call {
    const char *text;    /* the act; a reset is one too */
};

static struct driver_config config;
static struct event *events;
static struct call *calls;
static size_t event_count, call_count, at;
static size_t handed, passed; /* frames that the driver handed over, and that the record delivered so far */
static uint64_t accesses;
static FILE *corpus;
static jmp_buf cut;

static _Noreturn void fail(const char *what)
{
    fprintf(stderr, "play: %s\n", what);
    exit(2);
}

static void *more(void *list, size_t count, size_t size)
{
    void *grown = count & (count - 1) ? list : realloc(list, (count ? 2 * count : 1) * size);

    if (!grown)
        fail("out of memory");
    return grown;
}

/* ---- the record ---- */

static char *read_all(void)
{
    size_t size = 0, room = 1 << 16;
    char *text = malloc(room);

    while (text) {
        size += fread(text + size, 1, room - size - 1, stdin);
        if (size < room - 1)
            break;
        text = more(text, room, 1);
        room *= 2;
    }
    if (!text)
        fail("out of memory");
    text[size] = 0;
    return text;
}

/* The line that begins here, without its newline; *next is the one after it. */
static char *cut_line(char **next)
{
    char *line = *next, *end = strchr(line, '\n');

    if (!end)
        return NULL;
    *end = 0;
    *next = end + 1;
    return line;
}

static bool begins(const char *line, const char *word)
{
    size_t length = strlen(word);

    return !strncmp(line, word, length) && (line[length] == ' ' || !line[length]);
}

/* The number after the first word of a line, and whether there is one. */
static bool number_of(const char *line, uint64_t *number)
{
    const char *field = strchr(line, ' ');

    return field && sscanf(field, "%" SCNu64, number) == 1;
}

static bool is_mine(const char *line)
{
    uint64_t peer;

    return number_of(line, &peer) && peer == config.me;
}

static void take_head(const char *line)
{
    uint64_t number = 0;

    if (begins(line, "irq"))
        config.vector = !strncmp(line, "irq msix ", 9) && strtoul(line + 9, NULL, 10) >= 2;
    else if (!number_of(line, &number))
        return;
    else if (begins(line, "ivshm"))
        config.version = (uint32_t)number;
    else if (begins(line, "peers"))
        config.peers = (uint32_t)number;
    else if (begins(line, "table"))
        config.table = (uint32_t)number;
    else if (begins(line, "common"))
        config.common = number;
    else if (begins(line, "out"))
        config.out = number;
    else if (begins(line, "mtu"))
        config.mtu = (uint32_t)number;
}

static void take_act(const char *line)
{
    static const char *const words[] = {"tick", "poll", "stop", "offer", "reset"};

    if (!is_mine(line))
        return;
    if (begins(line, "auto") || begins(line, "storm"))
        fail("the peer chooses its calls itself: a record without `auto` or `storm` is due");
    for (size_t i = 0; i < sizeof words / sizeof *words; i++)
        if (begins(line, words[i])) {
            calls = more(calls, call_count, sizeof *calls);
            calls[call_count++].text = line;
        }
}

static void take_line(const char *line, uint64_t number)
{
    static const struct {
        const char *word;
        enum kind kind;
    } words[] = {{"r", ACCESS}, {"w", ACCESS}, {"s", ACCESS}, {"d", ACCESS}, {"deliver", DELIVER}, {"over", OVER}, {"done", OVER},
                 {"down", OVER}, {"full", OVER}, {"x", CUT}};

    if (!is_mine(line))
        return;
    for (size_t i = 0; i < sizeof words / sizeof *words; i++)
        if (begins(line, words[i].word)) {
            events = more(events, event_count, sizeof *events);
            events[event_count++] = (struct event){words[i].kind, number, line};
        }
}

static void take_record(char *text)
{
    char *line = cut_line(&text);
    uint64_t number = 0;

    if (!line || !begins(line, "record"))
        fail("the input is no record");
    while ((line = cut_line(&text)) && strcmp(line, "begin"))
        take_head(line);
    while ((line = cut_line(&text)) && strcmp(line, "end"))
        take_act(line);
    while ((line = cut_line(&text)) && !begins(line, "end"))
        take_line(line, ++number);
    if (!line)
        fail("the record has no end");
}

/* ---- the world's side ---- */

static _Noreturn void differs(const struct event *due, const char *format, ...)
{
    va_list values;

    va_start(values, format);
    if (due)
        printf("differs: history line %" PRIu64 ": due `%s`, found `", due->line, due->text);
    else
        printf("differs: the history is over, found `");
    vprintf(format, values);
    printf("`\n");
    va_end(values);
    exit(1);
}

/* The next event that isn't a delivered frame: those are counted, and compared when the driver
 * hands them over. */
static const struct event *next_event(void)
{
    while (at < event_count && events[at].kind == DELIVER) {
        passed++;
        at++;
    }
    return at < event_count ? &events[at] : NULL;
}

/* The line of the access that is due. A call without further lines in the record is cut here. */
static const struct event *due_access(void)
{
    const struct event *event = next_event();

    if (!event || event->kind == CUT)
        longjmp(cut, 1);
    accesses++;
    at++;
    return event;
}

static void put_byte(unsigned byte)
{
    if (corpus)
        fputc((int)byte, corpus);
}

/* A value as fuzz.c reads it: a byte that says how it is written, and the value. */
static void put_value(uint32_t value)
{
    if (value == 0)
        put_byte(0);
    else if (value < 256) {
        put_byte(1);
        put_byte(value);
    } else if (value % 65536 == 0 && value >> 16 < 256) {
        put_byte(2);
        put_byte(value >> 16);
    } else if (value < 65536) {
        put_byte(3);
        put_byte(value & 255);
        put_byte(value >> 8);
    } else {
        put_byte(4);
        for (int i = 0; i < 4; i++)
            put_byte(value >> 8 * i & 255);
    }
}

uint32_t world_load(uint32_t word)
{
    const struct event *event = due_access();
    uint32_t peer, due, value;

    if (sscanf(event->text, "r %" SCNu32 " %" SCNu32 " %" SCNu32, &peer, &due, &value) != 3 || due != word)
        differs(event, "r %" PRIu32 " %" PRIu32 " ..", config.me, word);
    put_value(value);
    return value;
}

/* The access has to be the line that is due. */
static void meet(const char *format, ...)
{
    const struct event *event = due_access();
    char found[64];
    va_list values;

    va_start(values, format);
    vsnprintf(found, sizeof found, format, values);
    va_end(values);
    if (strcmp(event->text, found))
        differs(event, "%s", found);
}

void world_store(uint32_t word, uint32_t value) { meet("w %" PRIu32 " %" PRIu32 " %" PRIu32, config.me, word, value); }

void world_state(uint32_t value) { meet("s %" PRIu32 " %" PRIu32, config.me, value); }

void world_ring(uint32_t peer, uint32_t vector) { meet("d %" PRIu32 " %" PRIu32 " %" PRIu32, config.me, peer, vector); }

/* The delivered frame with this number, from 0. */
static const struct event *delivered(size_t number)
{
    for (size_t i = 0; i < event_count; i++)
        if (events[i].kind == DELIVER && number-- == 0)
            return &events[i];
    return NULL;
}

void world_deliver(const uint8_t *frame, size_t length)
{
    const struct event *due;
    const char *digits;
    char byte[3];

    next_event();
    due = handed < passed ? delivered(handed) : NULL;
    if (!due)
        differs(at < event_count ? &events[at] : NULL, "a frame of %zu bytes", length);
    digits = strrchr(due->text, ' ') + 1;
    if (strlen(digits) != 2 * length)
        differs(due, "a frame of %zu bytes", length);
    for (size_t i = 0; i < length; i++) {
        snprintf(byte, sizeof byte, "%02x", frame[i]);
        if (strncmp(digits + 2 * i, byte, 2))
            differs(due, "a frame whose byte %zu is %s", i, byte);
    }
    handed++;
}

/* ---- the calls ---- */

static void offer(const char *digits)
{
    static uint8_t frame[65554];
    size_t length = strlen(digits) / 2;

    for (size_t i = 0; i < length && i < sizeof frame; i++) {
        unsigned byte = 0;

        sscanf(digits + 2 * i, "%2x", &byte);
        frame[i] = (uint8_t)byte;
    }
    put_byte(3);
    put_byte((unsigned)(length > 255 ? 255 : length));
    driver_offer(frame, length);
}

static void begin(const char *act)
{
    if (begins(act, "tick")) {
        put_byte(0);
        driver_tick();
    } else if (begins(act, "poll")) {
        put_byte(1);
        driver_poll();
    } else if (begins(act, "stop")) {
        put_byte(2);
        driver_stop();
    } else {
        offer(strrchr(act, ' ') + 1);
    }
}

/* Makes a call to its end, which has to be the record's. */
static void make(const char *act)
{
    const struct event *event;

    if (setjmp(cut)) {
        next_event();
        handed = passed;
        return;
    }
    begin(act);
    event = next_event();
    if (event && event->kind == ACCESS)
        differs(event, "the end of the call");
    if (handed < passed)
        differs(delivered(handed), "no frame");
    if (event && event->kind == OVER)
        at++;
}

/* Makes the calls up to the next reset, then resets the driver. The record may have fewer calls. */
static void play(void)
{
    for (size_t i = 0; i < call_count; i++) {
        const struct event *event = next_event();

        if (!begins(calls[i].text, "reset")) {
            if (event && event->kind != CUT)
                make(calls[i].text);
            continue;
        }
        if (!event || event->kind != CUT)
            differs(event, "a reset");
        at++;
        put_byte(4);
        driver_reset();
    }
    if (next_event())
        differs(&events[at], "nothing");
}

int main(int argc, char **argv)
{
    if (argc < 2 || argc > 3 || (strcmp(argv[1], "0") && strcmp(argv[1], "1"))) {
        fprintf(stderr, "usage: play 0 | play 1 [CORPUS] < RECORD\n");
        return 2;
    }
    config.me = argv[1][0] == '1';
    take_record(read_all());
    if (argc == 3 && !(corpus = fopen(argv[2], "wb")))
        fail("the corpus can't be written");
    if (!driver_new(&config))
        fail("the driver refuses these sizes or this version");
    play();
    if (corpus && fclose(corpus))
        fail("the corpus can't be written");
    printf("same: %" PRIu64 " accesses, %zu frames\n", accesses, handed);
    return 0;
}
