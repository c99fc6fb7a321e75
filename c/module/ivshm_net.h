/* SPDX-License-Identifier: GPL-2.0 */
/*
 * A network device over the ivshmem device of version 2. The end of the link is
 * the proved one, libivshm_c.a for kernels; ivshm_link.h makes its accesses.
 */
#ifndef IVSHM_NET_H
#define IVSHM_NET_H

#include <linux/netdevice.h>
#include <linux/pci.h>
#include <linux/skbuff.h>
#include <linux/spinlock.h>
#include <linux/workqueue.h>

#include "ivshm_link.h"

/* The register page, in the window of Base Address Register 0. */
#define IVSHM_ID		0x00
#define IVSHM_MAXIMUM_PEERS	0x04
#define IVSHM_INTERRUPT_CONTROL	0x08
#define IVSHM_DOORBELL		0x0c
#define IVSHM_STATE_REGISTER	0x10

/* Privileged Control, in the configuration space. Bit 0 is one-shot mode. */
#define IVSHM_PRIVILEGED_CONTROL 0x43

#define IVSHM_MOST_VECTORS	2
#define IVSHM_MOST_WAITING	64

/* Counts that the link itself doesn't keep. */
struct ivshm_net_counts {
	u64 dropped;		/* frames of the stack that weren't sent */
	u64 no_memory;		/* frames of the other end without a buffer */
	u64 interrupts;
	u64 polls;
	u64 ticks;
	u64 held_back;		/* ticks, by the bound on sessions */
	u64 forgiven;		/* refusals after which the end was reset */
};

/*
 * Calls of the link: while `running` is set, each call is made under `lock`.
 * Otherwise the tick alone makes them, without the lock, since the tick that
 * begins a session stores each word of the own section.
 */
struct ivshm_net {
	struct pci_dev *pci;
	struct net_device *net;
	void __iomem *registers;
	int vectors;			/* of MSI-X; 0: the tick polls */
	bool unarmed;			/* an interrupt came since the last arming */

	spinlock_t lock;		/* of the link while running, and the queues */
	bool running;			/* the end is in RUN: the carrier */
	struct ivshm_link link;
	struct sk_buff_head waiting;	/* frames to be sent */
	struct sk_buff_head came;	/* frames of the open poll */

	struct napi_struct napi;
	struct delayed_work tick;
	u64 refusals;			/* those that are forgiven, or are being */
	unsigned long refused_at;	/* in jiffies; 0: nothing is refused */
	unsigned long credited_at;	/* in jiffies */
	u32 credit;			/* thousandths of a session */

	struct ivshm_net_counts counts;
};

/* net.c */
void ivshm_net_init(struct ivshm_net *n);
int ivshm_net_up(struct ivshm_net *n);
void ivshm_net_down(struct ivshm_net *n);

/* ethtool.c */
extern const struct ethtool_ops ivshm_net_ethtool_ops;

#endif
