/* The path of an interrupt to a guest. The protocol has INTx alone, as an eventfd for KVM. With
 * MSI-X an interrupt is a store of 32 bits, the message that the guest wrote into its table of
 * vectors. QEMU's -qtest socket makes that store, as KVM_SIGNAL_MSI would: FOLDER/qtestP of peer
 * P. */
#define _GNU_SOURCE
#include <errno.h>
#include <fcntl.h>
#include <stdio.h>
#include <unistd.h>

#include "vmm.h"

/* Connects to the socket that QEMU made, at the first interrupt: the guest runs already then. */
static int qtest_of(struct vmm *v, uint32_t peer) {
    struct peer *p = &v->peers[peer];
    struct sockaddr_un address;
    if (p->qtest != NONE) return p->qtest;
    int qtest = unix_socket(v, "qtest", peer, &address);
    if (connect(qtest, (const struct sockaddr *)&address, sizeof address)) {
        close(qtest);
        return NONE;
    }
    fcntl(qtest, F_SETFL, O_NONBLOCK);
    return p->qtest = qtest;
}

static bool send_intx(const struct peer *p) {
    uint64_t one = 1;
    return p->irq != NONE && write(p->irq, &one, sizeof one) == sizeof one;
}

static bool send_message(struct vmm *v, uint32_t peer, uint32_t vector) {
    char text[64];
    ivshm_message message;
    if (ivshm_device_message(&v->device, peer, vector, &message) != IVSHM_DEVICE_DONE) return false;
    int length = snprintf(text, sizeof text, "writel 0x%llx 0x%x\n", (unsigned long long)message.address, message.data);
    int qtest = qtest_of(v, peer);
    return qtest != NONE && write(qtest, text, (size_t)length) == length;
}

/* Sends an interrupt that the device delivers. Returns false if it is lost on its way. */
bool interrupt_send(struct vmm *v, uint32_t peer, uint32_t vector) {
    bool sent = v->world.vectors == 0 ? send_intx(&v->peers[peer]) : send_message(v, peer, vector);
    if (sent) v->counts.sent++;
    else v->counts.lost++;
    return sent;
}

/* QEMU answers each store by a line, of no use here. */
void interrupt_read_answers(struct vmm *v, uint32_t peer) {
    char waste[4096];
    struct peer *p = &v->peers[peer];
    if (p->qtest == NONE) return;
    if (read(p->qtest, waste, sizeof waste) > 0 || errno == EAGAIN) return;
    close(p->qtest);
    p->qtest = NONE;
}

void interrupt_close(struct vmm *v, uint32_t peer) {
    struct peer *p = &v->peers[peer];
    if (p->qtest != NONE) close(p->qtest);
    if (p->irq != NONE) close(p->irq);
    p->qtest = p->irq = NONE;
}
