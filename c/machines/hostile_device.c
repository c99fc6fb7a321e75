/* hostile_device KIND SECONDS SEED: a guest that accesses a device of version 2 as it likes, and
 * whose device no driver has.
 *
 * registers   loads and stores of 1, 2, 4 and 8 bytes, aligned or not, in the register page and
 *             the MSI-X region; State, Doorbell and Interrupt Control most of all
 * config      the same, and writes all over the configuration space, but for the Base Address
 *             Registers: Linux keeps its own idea of these */
#include "version2.h"

enum { PAGES = 2, BARS_END = 0x28, ROUND = 50 };

static volatile uint8_t *pages[PAGES];
static uint64_t generator, stores, loads, writes;

static uint32_t draw(void) {
    generator ^= generator << 13;
    generator ^= generator >> 7;
    generator ^= generator << 17;
    return (uint32_t)(generator >> 16);
}

/* Half of the offsets are those of a register or of an entry of the table. */
static uint32_t draw_offset(void) { return draw() % 2 ? draw() % 8 * 4 : draw() % (REGISTER_PAGE - 8); }

/* Numbers of peers and vectors, States, and others. */
static uint64_t draw_value(void) {
    switch (draw() % 4) {
    case 0: return draw() % 5;
    case 1: return (uint64_t)(draw() % 3) << 16 | draw() % 3;
    case 2: return 1;
    default: return (uint64_t)draw() << 32 | draw();
    }
}

static void access_page(void) {
    volatile uint8_t *at = pages[draw() % 8 == 0] + draw_offset();
    uint64_t value = draw_value();
    uint32_t kind = draw() % 12;
    if (kind < 3) loads++;
    else stores++;
    switch (kind) {
    case 0: (void)*(volatile uint32_t *)at; break;
    case 1: (void)*(volatile uint64_t *)at; break;
    case 2: (void)*at; break;
    case 3: *at = (uint8_t)value; break;
    case 4: *(volatile uint16_t *)at = (uint16_t)value; break;
    case 5: *(volatile uint64_t *)at = value; break;
    default: *(volatile uint32_t *)at = (uint32_t)value;
    }
}

static void write_config(int space) {
    uint32_t value = draw(), at = draw() % 4 ? BARS_END + draw() % (SPACE - BARS_END - 4) : 4;
    if (pwrite(space, &value, 1 + draw() % 4, at) > 0) writes++;
}

int main(int argc, char **argv) {
    char name[300];
    if (argc != 4) return 2;
    struct version2 v = find_version2();
    bool configures = !strcmp(argv[1], "config");
    double end = now() + strtod(argv[2], NULL);
    generator = strtoull(argv[3], NULL, 10) * 0x9e3779b97f4a7c15u + 1;
    pages[0] = (volatile uint8_t *)open_registers(v.path, "resource0");
    pages[1] = (volatile uint8_t *)open_registers(v.path, "resource1");
    snprintf(name, sizeof name, "%s/config", v.path);
    int space = open(name, O_RDWR);
    if (space < 0) fail(name);
    while (now() < end) {
        for (int i = 0; i < ROUND; i++) access_page();
        if (configures) write_config(space);
    }
    printf("hostile_device: %s, %" PRIu64 " stores, %" PRIu64 " loads, %" PRIu64 " writes of the configuration space\n", argv[1], stores, loads, writes);
    return 0;
}
