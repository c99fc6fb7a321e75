/* The calls of the proved library. Their effects are made and recorded. Each answer to a guest
 * is the library's. */
#include <stdio.h>
#include <stdlib.h>

#include "vmm.h"

enum { BAR_0 = 0x10, BAR_1 = 0x14, PAGE = 4096 };

static void must(uint32_t status, const char *what) {
    if (status == IVSHM_DEVICE_DONE) return;
    fprintf(stderr, "vmm: %s: status %u\n", what, status);
    exit(1);
}

static void send_delivery(struct vmm *v, const ivshm_delivery *delivery) {
    bool sent = interrupt_send(v, delivery->peer, delivery->vector);
    if (!v->record_path) return;
    if (sent) device_record_interrupt(&v->record, delivery->peer, delivery->vector);
    else device_record_lost(&v->record, delivery->peer, delivery->vector);
}

/* Applies the effect of a call: the word of the State Table first, and then the deliveries. */
static void carry_out(struct vmm *v, uint32_t peer, const ivshm_effect *effect) {
    if (effect->writes_state) {
        v->counts.states++;
        memory_set_state(v, peer, effect->state);
    }
    for (uint32_t k = 0; k < effect->count; k++) send_delivery(v, &effect->deliveries[k]);
}

/* All peers are disconnected at first. */
void device_open(struct vmm *v) {
    const struct device_record_world *w = &v->world;
    ivshm_effect effect;
    must(ivshm_device_new(&v->device, w->peers, w->table, w->common, w->out, w->vectors), "new");
    for (uint32_t p = 0; p < w->peers; p++) must(ivshm_device_disconnect(&v->device, p, &effect), "disconnect");
}

void device_connect(struct vmm *v, uint32_t peer) { must(ivshm_device_connect(&v->device, peer), "connect"); }

void device_disconnect(struct vmm *v, uint32_t peer) {
    ivshm_effect effect;
    must(ivshm_device_disconnect(&v->device, peer, &effect), "disconnect");
    if (v->record_path) device_record_reset(&v->record, peer);
    carry_out(v, peer, &effect);
}

void device_reset(struct vmm *v, uint32_t peer) {
    ivshm_effect effect;
    v->counts.resets++;
    must(ivshm_device_reset(&v->device, peer, &effect), "reset");
    if (v->record_path) device_record_reset(&v->record, peer);
    carry_out(v, peer, &effect);
}

/* The window at an address of the guest. The device itself keeps its Base Address Registers. */
bool device_window_at(struct vmm *v, uint32_t peer, uint64_t address, uint32_t *window) {
    uint32_t bases[2];
    must(ivshm_device_config_read(&v->device, peer, BAR_0, sizeof bases[0], &bases[0]), "Base Address Register 0");
    must(ivshm_device_config_read(&v->device, peer, BAR_1, sizeof bases[1], &bases[1]), "Base Address Register 1");
    bool is_registers = address / PAGE == bases[0] / PAGE, is_msix = v->world.vectors > 0 && address / PAGE == bases[1] / PAGE;
    *window = is_registers ? IVSHM_WINDOW_REGISTERS : IVSHM_WINDOW_MSIX;
    if (!is_registers && !is_msix) v->counts.elsewhere++;
    return is_registers || is_msix;
}

uint64_t device_read(struct vmm *v, uint32_t peer, ivshm_window_access access) {
    must(ivshm_device_mmio_read(&v->device, peer, &access), "read");
    v->counts.reads[access.window]++;
    if (v->record_path) device_record_read(&v->record, peer, access.window, access.offset, access.width, access.value);
    return access.value;
}

void device_write(struct vmm *v, uint32_t peer, ivshm_window_access access) {
    ivshm_effect effect;
    must(ivshm_device_mmio_write(&v->device, peer, &access, &effect), "write");
    v->counts.writes[access.window]++;
    if (v->record_path) device_record_write(&v->record, peer, access.window, access.offset, access.width, access.value);
    carry_out(v, peer, &effect);
}
