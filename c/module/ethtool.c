// SPDX-License-Identifier: GPL-2.0
/* What ethtool shows: the link state, and the counts of the link and of the driver. */
#include <linux/ethtool.h>

#include "ivshm_net.h"

struct ivshm_net_stat {
	char name[ETH_GSTRING_LEN];
	size_t at; /* in struct ivshm_net */
};

#define LINK_STAT(name) { #name, offsetof(struct ivshm_net, link.counts.name) }
#define REFUSED_STAT(name, field) \
	{ "refused_" #name, offsetof(struct ivshm_net, link.counts.refused[field]) }
#define DRIVER_STAT(name) { #name, offsetof(struct ivshm_net, counts.name) }

static const struct ivshm_net_stat stats[] = {
	LINK_STAT(sessions),
	LINK_STAT(accepted),
	LINK_STAT(delivered),
	LINK_STAT(full),
	LINK_STAT(rings),
	LINK_STAT(accesses),
	LINK_STAT(steps),
	LINK_STAT(stray),
	LINK_STAT(refusals),
	REFUSED_STAT(avail_index, IVSHM_AVAIL_INDEX),
	REFUSED_STAT(avail_entry, IVSHM_AVAIL_ENTRY),
	REFUSED_STAT(desc_address, IVSHM_DESC_ADDRESS),
	REFUSED_STAT(desc_length, IVSHM_DESC_LENGTH),
	REFUSED_STAT(desc_flags, IVSHM_DESC_FLAGS),
	REFUSED_STAT(used_index, IVSHM_USED_INDEX),
	REFUSED_STAT(used_id, IVSHM_USED_ID),
	DRIVER_STAT(dropped),
	DRIVER_STAT(no_memory),
	DRIVER_STAT(interrupts),
	DRIVER_STAT(polls),
	DRIVER_STAT(ticks),
	DRIVER_STAT(held_back),
	DRIVER_STAT(forgiven),
};

static int ivshm_net_stat_count(struct net_device *net, int set)
{
	return set == ETH_SS_STATS ? ARRAY_SIZE(stats) : -EOPNOTSUPP;
}

static void ivshm_net_stat_names(struct net_device *net, u32 set, u8 *names)
{
	size_t k;

	if (set != ETH_SS_STATS)
		return;
	for (k = 0; k < ARRAY_SIZE(stats); k++)
		memcpy(names + k * ETH_GSTRING_LEN, stats[k].name, ETH_GSTRING_LEN);
}

static void ivshm_net_stat_values(struct net_device *net, struct ethtool_stats *request,
				  u64 *values)
{
	struct ivshm_net *n = netdev_priv(net);
	size_t k;

	spin_lock_bh(&n->lock);
	for (k = 0; k < ARRAY_SIZE(stats); k++)
		values[k] = *(const u64 *)((const u8 *)n + stats[k].at);
	spin_unlock_bh(&n->lock);
}

static void ivshm_net_drvinfo(struct net_device *net, struct ethtool_drvinfo *info)
{
	struct ivshm_net *n = netdev_priv(net);

	strscpy(info->driver, KBUILD_MODNAME, sizeof(info->driver));
	snprintf(info->fw_version, sizeof(info->fw_version), "link %u, library %s",
		 n->link.setup.version, IVSHM_LIBRARY_VERSION);
}

static int ivshm_net_link_settings(struct net_device *net,
				   struct ethtool_link_ksettings *settings)
{
	settings->base.speed = SPEED_UNKNOWN;
	settings->base.duplex = DUPLEX_FULL;
	settings->base.port = PORT_OTHER;
	settings->base.autoneg = AUTONEG_DISABLE;
	return 0;
}

const struct ethtool_ops ivshm_net_ethtool_ops = {
	.get_link		= ethtool_op_get_link,
	.get_link_ksettings	= ivshm_net_link_settings,
	.get_drvinfo		= ivshm_net_drvinfo,
	.get_sset_count		= ivshm_net_stat_count,
	.get_strings		= ivshm_net_stat_names,
	.get_ethtool_stats	= ivshm_net_stat_values,
	.get_ts_info		= ethtool_op_get_ts_info,
};
