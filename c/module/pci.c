// SPDX-License-Identifier: GPL-2.0
/* The device: where its parts are, what the guest may map of them, and its life. */
#include <linux/etherdevice.h>
#include <linux/io.h>
#include <linux/module.h>
#include <linux/pm.h>
#include <linux/rtnetlink.h>

#include "ivshm_net.h"

static unsigned int version = 1;
module_param(version, uint, 0444);
MODULE_PARM_DESC(version, "version of the link, 1 to 3; the same at both ends (1)");

static unsigned int link_mtu = 9000;
module_param(link_mtu, uint, 0444);
MODULE_PARM_DESC(link_mtu, "largest MTU of the link; the same at both ends (9000)");

/* Walks over the configuration space, of which nothing is trusted. */
static int ivshm_net_find(struct ivshm_net *n, struct ivshm_found *found)
{
	u8 space[256];
	u32 k, value, answer;
	__le32 word;

	for (k = 0; k < sizeof(space); k += sizeof(word)) {
		pci_read_config_dword(n->pci, k, &value);
		word = cpu_to_le32(value);
		memcpy(space + k, &word, sizeof(word));
	}
	answer = ivshm_walk(space, found);
	if (answer != IVSHM_DONE) {
		pci_err(n->pci, "no device of version 2: answer %u\n", answer);
		return -ENODEV;
	}
	return 0;
}

/* Maps `size` bytes of the region, from `at` on. */
static void *ivshm_net_map(struct ivshm_net *n, u64 base, u64 at, u64 size)
{
	return devm_memremap(&n->pci->dev, base + at, size, MEMREMAP_WB);
}

/* The guest-physical address of the region, or 0. */
static u64 ivshm_net_region(struct ivshm_net *n, const struct ivshm_found *found, u64 size)
{
	u64 base = found->has_base ? found->base : pci_resource_start(n->pci, 2);

	if (!found->has_base && pci_resource_len(n->pci, 2) < size)
		return 0;
	if (base > U64_MAX - size)
		return 0;
	/* Linux may have taken a region for memory of its own */
	if (region_intersects(base, size, IORESOURCE_SYSTEM_RAM, IORES_DESC_NONE) !=
	    REGION_DISJOINT) {
		pci_err(n->pci, "the region at %#llx is the system's memory\n", base);
		return 0;
	}
	return base;
}

/* Maps the State Table and both output sections: the common section isn't used. */
static int ivshm_net_map_region(struct ivshm_net *n)
{
	ivshm_link_setup *setup = &n->link.setup;
	const struct ivshm_found *found = &setup->found;
	u64 first = found->table + found->common, base;
	void *table, *own, *other;

	base = ivshm_net_region(n, found, first + setup->peers * found->out);
	if (!base)
		return -ENODEV;
	table = ivshm_net_map(n, base, 0, found->table);
	own = ivshm_net_map(n, base, first + setup->me * found->out, found->out);
	other = ivshm_net_map(n, base, first + (1 - setup->me) * found->out, found->out);
	if (IS_ERR(table) || IS_ERR(own) || IS_ERR(other))
		return -ENOMEM;
	setup->other_state = (const u32 *)table + (1 - setup->me);
	setup->own_section = own;
	setup->other_section = other;
	return 0;
}

/* Opens the link; the first access of its end is State 0. */
static int ivshm_net_open_link(struct ivshm_net *n)
{
	ivshm_link_setup setup = n->link.setup;
	ivshm_words layout;
	u32 answer;
	int error;

	error = ivshm_net_find(n, &setup.found);
	if (error)
		return error;
	setup.me = readl(n->registers + IVSHM_ID);
	setup.peers = readl(n->registers + IVSHM_MAXIMUM_PEERS);
	setup.mtu = link_mtu;
	setup.version = version;
	setup.vector = setup.found.vectors > 1 ? 1 : 0;
	answer = ivshm_layout(&setup.found, setup.peers, setup.mtu, &layout);
	if (answer != IVSHM_DONE || setup.me > 1) {
		pci_err(n->pci, "no link for peer %u of %u: answer %u\n",
			setup.me, setup.peers, answer);
		return -ENODEV;
	}
	setup.room_size = round_up(layout.longest_delivery, sizeof(u32));
	setup.room = devm_kmalloc(&n->pci->dev, setup.room_size, GFP_KERNEL);
	if (!setup.room)
		return -ENOMEM;
	n->link.setup = setup;
	error = ivshm_net_map_region(n);
	if (error)
		return error;
	setup = n->link.setup;
	answer = ivshm_link_open(&n->link, &setup);
	if (answer == IVSHM_DONE)
		return 0;
	pci_err(n->pci, "the link isn't opened: answer %u\n", answer);
	return answer == IVSHM_NO_MEMORY ? -ENOMEM : -ENODEV;
}

/* Sizes and address of the network device: the same address after each start of the guest. */
static void ivshm_net_name(struct ivshm_net *n)
{
	u8 address[ETH_ALEN] = { 0x02, 0x11, 0x0a, 0x41, 0x06, n->link.setup.me };

	n->net->min_mtu = ETH_MIN_MTU;
	n->net->max_mtu = n->link.setup.mtu;
	n->net->mtu = min_t(u32, ETH_DATA_LEN, n->net->max_mtu);
	eth_hw_addr_set(n->net, address);
}

static int ivshm_net_enable(struct ivshm_net *n)
{
	int error = pcim_enable_device(n->pci);

	if (error)
		return error;
	error = pcim_iomap_regions(n->pci, BIT(0), KBUILD_MODNAME);
	if (error)
		return error;
	n->registers = pcim_iomap_table(n->pci)[0];
	pci_set_master(n->pci);
	error = pci_alloc_irq_vectors(n->pci, 1, IVSHM_MOST_VECTORS, PCI_IRQ_MSIX);
	/* without MSI-X the tick polls: INTx has nothing that a driver could acknowledge */
	n->vectors = max(error, 0);
	return 0;
}

static int ivshm_net_probe(struct pci_dev *pci, const struct pci_device_id *id)
{
	struct net_device *net = alloc_etherdev(sizeof(struct ivshm_net));
	struct ivshm_net *n;
	int error;

	if (!net)
		return -ENOMEM;
	n = netdev_priv(net);
	n->pci = pci;
	n->net = net;
	SET_NETDEV_DEV(net, &pci->dev);
	pci_set_drvdata(pci, n);
	ivshm_net_init(n);
	error = ivshm_net_enable(n);
	if (error)
		goto no_device;
	error = ivshm_net_open_link(n);
	if (error)
		goto no_link;
	ivshm_net_name(n);
	error = register_netdev(net);
	if (error)
		goto no_net;
	netdev_info(net, "peer %u of %u, %d vectors, link of version %u with an MTU of %u\n",
		    n->link.setup.me, n->link.setup.peers, n->vectors, version, link_mtu);
	return 0;
no_net:
	ivshm_link_close(&n->link);
no_link:
	pci_free_irq_vectors(pci);
no_device:
	free_netdev(net);
	return error;
}

static void ivshm_net_remove(struct pci_dev *pci)
{
	struct ivshm_net *n = pci_get_drvdata(pci);
	const ivshm_link_counts *counts = &n->link.counts;

	unregister_netdev(n->net);
	ivshm_link_close(&n->link);
	pci_free_irq_vectors(pci);
	pci_info(pci, "sessions %llu, accepted %llu, delivered %llu, refused %llu, stray %llu\n",
		 counts->sessions, counts->accepted, counts->delivered, counts->refusals,
		 counts->stray);
	free_netdev(n->net);
}

/* Before the machine goes down: the other end is not to wait for this one. */
static void ivshm_net_shutdown(struct pci_dev *pci)
{
	struct ivshm_net *n = pci_get_drvdata(pci);

	rtnl_lock();
	dev_close(n->net);
	rtnl_unlock();
}

static int ivshm_net_suspend(struct device *device)
{
	struct ivshm_net *n = dev_get_drvdata(device);

	rtnl_lock();
	netif_device_detach(n->net);
	if (netif_running(n->net))
		ivshm_net_down(n);
	rtnl_unlock();
	return 0;
}

static int ivshm_net_resume(struct device *device)
{
	struct ivshm_net *n = dev_get_drvdata(device);
	int error = 0;

	rtnl_lock();
	if (netif_running(n->net))
		error = ivshm_net_up(n);
	if (!error)
		netif_device_attach(n->net);
	rtnl_unlock();
	return error;
}

static DEFINE_SIMPLE_DEV_PM_OPS(ivshm_net_pm, ivshm_net_suspend, ivshm_net_resume);

/* Class FFh, protocol 1: the virtual Ethernet link. */
static const struct pci_device_id ivshm_net_ids[] = {
	{ PCI_DEVICE(0x110a, 0x4106), .class = 0xff0001, .class_mask = 0xffffff },
	{ }
};
MODULE_DEVICE_TABLE(pci, ivshm_net_ids);

static struct pci_driver ivshm_net_driver = {
	.name		= KBUILD_MODNAME,
	.id_table	= ivshm_net_ids,
	.probe		= ivshm_net_probe,
	.remove		= ivshm_net_remove,
	.shutdown	= ivshm_net_shutdown,
	.driver.pm	= pm_sleep_ptr(&ivshm_net_pm),
};
module_pci_driver(ivshm_net_driver);

MODULE_LICENSE("GPL");
MODULE_DESCRIPTION("Virtual Ethernet link over ivshmem of version 2");
