// SPDX-License-Identifier: GPL-2.0
/* The network side: NAPI, the transmit queue, and the tick that follows the other end. */
#include <linux/etherdevice.h>
#include <linux/interrupt.h>
#include <linux/module.h>

#include "ivshm_net.h"

#define TICK_MS 10

static unsigned int forgive_ms = 500;
module_param(forgive_ms, uint, 0644);
MODULE_PARM_DESC(forgive_ms, "milliseconds after which a refused value is forgiven; 0: never (500)");

static unsigned int sessions_at_once = 8;
module_param(sessions_at_once, uint, 0644);
MODULE_PARM_DESC(sessions_at_once, "sessions that may begin one after the other (8)");

static unsigned int sessions_per_second = 2;
module_param(sessions_per_second, uint, 0644);
MODULE_PARM_DESC(sessions_per_second, "sessions that may begin afterwards, in a second (2)");

static const char * const field_names[] = {
	"none", "AvailIndex", "AvailEntry", "DescAddress",
	"DescLength", "DescFlags", "UsedIndex", "UsedId"
};

/* ---- what the link asks for ---- */

static void ivshm_net_write_state(void *context, u32 state)
{
	struct ivshm_net *n = context;

	writel(state, n->registers + IVSHM_STATE_REGISTER);
}

static void ivshm_net_ring(void *context, u32 peer, u32 vector)
{
	struct ivshm_net *n = context;

	writel(peer << 16 | vector, n->registers + IVSHM_DOORBELL);
}

/* The stack may send from inside of napi_gro_receive, which takes the lock. */
static void ivshm_net_deliver(void *context, const u8 *frame, size_t length)
{
	struct ivshm_net *n = context;
	struct sk_buff *skb = napi_alloc_skb(&n->napi, length);

	if (!skb) {
		n->counts.no_memory++;
		return;
	}
	skb_put_data(skb, frame, length);
	__skb_queue_tail(&n->came, skb);
}

/* ---- the carrier ---- */

static void ivshm_net_drop_waiting(struct ivshm_net *n)
{
	n->counts.dropped += skb_queue_len(&n->waiting);
	__skb_queue_purge(&n->waiting);
}

/* The carrier is on exactly if the end is in RUN. */
static void ivshm_net_follow(struct ivshm_net *n)
{
	bool running = n->link.state == IVSHM_RUN;

	if (running == n->running)
		return;
	WRITE_ONCE(n->running, running);
	if (running) {
		netif_carrier_on(n->net);
		netif_wake_queue(n->net);
	} else {
		netif_carrier_off(n->net);
		ivshm_net_drop_waiting(n);
	}
}

/*
 * In one-shot mode each interrupt clears Interrupt Control, and later ones are dropped until it is
 * set again. So a poll follows, which finds what arrived meanwhile.
 */
static void ivshm_net_arm(struct ivshm_net *n)
{
	if (n->vectors)
		writel(1, n->registers + IVSHM_INTERRUPT_CONTROL);
}

/* ---- frames ---- */

/* Sends the frames that wait, until the link is full or a poll is open. */
static void ivshm_net_send_waiting(struct ivshm_net *n)
{
	struct sk_buff *skb;

	while (n->running && !ivshm_link_is_open(&n->link)) {
		u32 answer, outcome = IVSHM_OPEN;

		skb = skb_peek(&n->waiting);
		if (!skb)
			break;
		answer = ivshm_link_send(&n->link, skb->data, skb->len, &outcome);
		if (answer == IVSHM_DONE && outcome == IVSHM_WAS_FULL)
			break;
		__skb_unlink(skb, &n->waiting);
		if (answer == IVSHM_DONE && outcome == IVSHM_ACCEPTED) {
			dev_consume_skb_any(skb);
		} else {
			n->counts.dropped++;
			dev_kfree_skb_any(skb);
		}
		ivshm_net_follow(n);
	}
	if (netif_queue_stopped(n->net) &&
	    skb_queue_len(&n->waiting) <= IVSHM_MOST_WAITING / 2)
		netif_wake_queue(n->net);
}

static netdev_tx_t ivshm_net_xmit(struct sk_buff *skb, struct net_device *net)
{
	struct ivshm_net *n = netdev_priv(net);

	if (skb_linearize(skb)) {
		dev_kfree_skb_any(skb);
		spin_lock(&n->lock);
		n->counts.dropped++;
		spin_unlock(&n->lock);
		return NETDEV_TX_OK;
	}
	skb_tx_timestamp(skb);
	spin_lock(&n->lock);
	__skb_queue_tail(&n->waiting, skb);
	if (n->running)
		ivshm_net_send_waiting(n);
	else
		ivshm_net_drop_waiting(n);
	if (skb_queue_len(&n->waiting) >= IVSHM_MOST_WAITING)
		netif_stop_queue(net);
	spin_unlock(&n->lock);
	return NETDEV_TX_OK;
}

/*
 * Polls until a poll finds nothing: in versions 2 and 3 such a poll asks for
 * the next doorbell. An open poll continues with the next call.
 */
static int ivshm_net_receive(struct ivshm_net *n, int budget)
{
	int done = 0, found;

	while (n->running && done < budget) {
		found = ivshm_link_poll(&n->link, budget - done);
		n->counts.polls++;
		ivshm_net_follow(n);
		if (!found)
			break;
		done += found;
	}
	return done;
}

/*
 * Interrupts stay off until NAPI is done with polling, by its timer too
 * (napi_defer_hard_irqs, gro_flush_timeout).
 */
static int ivshm_net_poll(struct napi_struct *napi, int budget)
{
	struct ivshm_net *n = container_of(napi, struct ivshm_net, napi);
	struct sk_buff_head came;
	struct sk_buff *skb;
	int done;

	__skb_queue_head_init(&came);
	spin_lock(&n->lock);
	done = ivshm_net_receive(n, budget);
	ivshm_net_send_waiting(n);
	skb_queue_splice_init(&n->came, &came);
	spin_unlock(&n->lock);
	while ((skb = __skb_dequeue(&came)) != NULL) {
		skb->protocol = eth_type_trans(skb, n->net);
		napi_gro_receive(napi, skb);
	}
	if (done < budget && napi_complete_done(napi, done) && xchg(&n->unarmed, false)) {
		ivshm_net_arm(n);
		napi_schedule(napi);
	}
	return done;
}

/* ---- the tick ---- */

/* Whether another session may begin. */
static bool ivshm_net_has_credit(struct ivshm_net *n)
{
	u64 credit = n->credit;

	credit += (u64)jiffies_to_msecs(jiffies - n->credited_at) * sessions_per_second;
	n->credit = min_t(u64, credit, 1000ULL * sessions_at_once);
	n->credited_at = jiffies;
	return n->credit >= 1000;
}

/* An end that refused a value stays in RESET until it is reset. */
static void ivshm_net_forgive(struct ivshm_net *n)
{
	const struct ivshm_note *refusal = &n->link.refusal;

	if (n->link.counts.refusals == n->refusals)
		return;
	if (!n->refused_at) {
		n->refused_at = jiffies ?: 1;
		if (net_ratelimit())
			netdev_warn(n->net, "refused %s %llu\n",
				    field_names[refusal->field % 8], refusal->value);
	}
	if (!forgive_ms || time_before(jiffies, n->refused_at + msecs_to_jiffies(forgive_ms)))
		return;
	n->refused_at = 0;
	n->refusals = n->link.counts.refusals;
	n->counts.forgiven++;
	ivshm_link_reset(&n->link);
}

/* The tick outside of RUN. The tick in INIT begins a session, if the other end is there. */
static void ivshm_net_tick_down(struct ivshm_net *n)
{
	u32 before = n->link.state;

	ivshm_net_forgive(n);
	if (!ivshm_net_has_credit(n) && before == IVSHM_INIT) {
		n->counts.held_back++;
		return;
	}
	ivshm_link_tick(&n->link);
	if (before == IVSHM_INIT && n->link.state != IVSHM_INIT)
		n->credit -= min(n->credit, 1000U);
	spin_lock_bh(&n->lock);
	ivshm_net_follow(n);
	spin_unlock_bh(&n->lock);
}

/* A tick that finds a poll open changes nothing. */
static void ivshm_net_tick_running(struct ivshm_net *n)
{
	spin_lock_bh(&n->lock);
	if (n->running) {
		ivshm_link_tick(&n->link);
		ivshm_net_follow(n);
	}
	spin_unlock_bh(&n->lock);
	local_bh_disable();
	napi_schedule(&n->napi);
	local_bh_enable();
}

static void ivshm_net_tick(struct work_struct *work)
{
	struct ivshm_net *n = container_of(work, struct ivshm_net, tick.work);

	n->counts.ticks++;
	ivshm_net_arm(n); /* an interrupt may be lost */
	if (READ_ONCE(n->running))
		ivshm_net_tick_running(n);
	else
		ivshm_net_tick_down(n);
	queue_delayed_work(system_wq, &n->tick, n->vectors ? msecs_to_jiffies(TICK_MS) : 1);
}

/* ---- interrupts ---- */

static irqreturn_t ivshm_net_on_frames(int irq, void *data)
{
	struct ivshm_net *n = data;

	n->counts.interrupts++;
	WRITE_ONCE(n->unarmed, true);
	napi_schedule(&n->napi);
	return IRQ_HANDLED;
}

/* Vector 0: a State changed. It is the only vector if the device has one. */
static irqreturn_t ivshm_net_on_state(int irq, void *data)
{
	struct ivshm_net *n = data;

	mod_delayed_work(system_wq, &n->tick, 0);
	return ivshm_net_on_frames(irq, data);
}

static void ivshm_net_free_irqs(struct ivshm_net *n, int count)
{
	while (count-- > 0)
		free_irq(pci_irq_vector(n->pci, count), n);
}

static int ivshm_net_request_irqs(struct ivshm_net *n)
{
	int k, error;

	for (k = 0; k < n->vectors; k++) {
		error = request_irq(pci_irq_vector(n->pci, k),
				    k ? ivshm_net_on_frames : ivshm_net_on_state,
				    0, n->net->name, n);
		if (error) {
			ivshm_net_free_irqs(n, k);
			return error;
		}
	}
	return 0;
}

/* ---- up and down ---- */

/* Joins the link. Values that an earlier driver left in the registers are overwritten. */
int ivshm_net_up(struct ivshm_net *n)
{
	int error;

	writel(0, n->registers + IVSHM_INTERRUPT_CONTROL);
	error = ivshm_net_request_irqs(n);
	if (error)
		return error;
	n->refusals = n->link.counts.refusals;
	n->refused_at = 0;
	ivshm_link_reset(&n->link); /* State 0 */
	pci_write_config_byte(n->pci, IVSHM_PRIVILEGED_CONTROL, n->vectors ? 1 : 0);
	napi_enable(&n->napi);
	ivshm_net_arm(n);
	queue_delayed_work(system_wq, &n->tick, 0);
	return 0;
}

/* Leaves the link. */
void ivshm_net_down(struct ivshm_net *n)
{
	writel(0, n->registers + IVSHM_INTERRUPT_CONTROL);
	ivshm_net_free_irqs(n, n->vectors);
	cancel_delayed_work_sync(&n->tick);
	napi_disable(&n->napi);
	writel(0, n->registers + IVSHM_INTERRUPT_CONTROL); /* the poll may have armed it */
	spin_lock_bh(&n->lock);
	ivshm_link_reset(&n->link); /* State 0 */
	ivshm_net_follow(n);
	ivshm_net_drop_waiting(n);
	__skb_queue_purge(&n->came);
	spin_unlock_bh(&n->lock);
}

static int ivshm_net_open(struct net_device *net)
{
	int error = ivshm_net_up(netdev_priv(net));

	if (!error)
		netif_start_queue(net);
	return error;
}

/* A device that is detached is down already: it sleeps, or couldn't be resumed. */
static int ivshm_net_stop(struct net_device *net)
{
	netif_stop_queue(net);
	if (netif_device_present(net))
		ivshm_net_down(netdev_priv(net));
	return 0;
}

static void ivshm_net_stats(struct net_device *net, struct rtnl_link_stats64 *stats)
{
	struct ivshm_net *n = netdev_priv(net);
	const ivshm_link_counts *counts = &n->link.counts;

	spin_lock_bh(&n->lock);
	stats->rx_packets = counts->delivered - n->counts.no_memory;
	stats->rx_bytes = counts->delivered_bytes;
	stats->rx_dropped = n->counts.no_memory;
	stats->rx_errors = counts->refusals;
	stats->tx_packets = counts->accepted;
	stats->tx_bytes = counts->accepted_bytes;
	stats->tx_dropped = n->counts.dropped;
	spin_unlock_bh(&n->lock);
}

static const struct net_device_ops ivshm_net_ops = {
	.ndo_open		= ivshm_net_open,
	.ndo_stop		= ivshm_net_stop,
	.ndo_start_xmit		= ivshm_net_xmit,
	.ndo_get_stats64	= ivshm_net_stats,
	.ndo_set_mac_address	= eth_mac_addr,
	.ndo_validate_addr	= eth_validate_addr,
};

/* Fills in what the link and the network's core call, before the link is opened. */
void ivshm_net_init(struct ivshm_net *n)
{
	ivshm_link_setup *setup = &n->link.setup;

	spin_lock_init(&n->lock);
	__skb_queue_head_init(&n->waiting);
	__skb_queue_head_init(&n->came);
	INIT_DELAYED_WORK(&n->tick, ivshm_net_tick);
	n->credited_at = jiffies;
	n->credit = 1000 * sessions_at_once;
	setup->context = n;
	setup->write_state = ivshm_net_write_state;
	setup->ring = ivshm_net_ring;
	setup->deliver = ivshm_net_deliver;
	n->net->netdev_ops = &ivshm_net_ops;
	n->net->ethtool_ops = &ivshm_net_ethtool_ops;
	netif_napi_add(n->net, &n->napi, ivshm_net_poll);
	netif_carrier_off(n->net);
}
