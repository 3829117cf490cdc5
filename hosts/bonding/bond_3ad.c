// SPDX-License-Identifier: GPL-2.0-or-later
/*
 * LACP of the bonding driver (mode 802.3ad) by the functions of lag.h, in the place of the machines
 * that Linux has here: what the rest of the driver calls. The names of this interface, and the
 * texts and statistics that it shows, are those of the file before:
 * Copyright(c) 1999 - 2004 Intel Corporation. All rights reserved.
 *
 * All calls of the library are made by work of bond->wq, which runs one at a time (bond_lacp.c). A
 * frame that comes waits on its port, and the work is woken. What the rest of the driver reads,
 * struct port and struct aggregator of each slave, is a copy: it is written with bond->mode_lock.
 *
 * The work takes RTNL by rtnl_trylock alone: who has RTNL waits for it.
 */

#include <linux/etherdevice.h>
#include <linux/ethtool.h>
#include <linux/if_bonding.h>
#include <linux/netdevice.h>
#include <linux/rtnetlink.h>
#include <linux/skbuff.h>
#include <net/netlink.h>

#include "bond_lacp.h"

#define LACP_KEY_USER_SHIFT 6
#define LACP_KEY_DUPLEX 1

const u8 lacpdu_mcast_addr[ETH_ALEN + 2] __long_aligned = {
	0x01, 0x80, 0xC2, 0x00, 0x00, 0x02
};

/* ---- of a slave ---- */

s64 lacp_now(void)
{
	return ktime_to_ms(ktime_get());
}

/* The number of a speed in a key. */
static u16 lacp_speed(const struct slave *slave)
{
	static const u32 speeds[] = {
		1, SPEED_10, SPEED_100, SPEED_1000, SPEED_2500, SPEED_5000, SPEED_10000,
		SPEED_14000, SPEED_20000, SPEED_25000, SPEED_40000, SPEED_50000, SPEED_56000,
		SPEED_100000, SPEED_200000, SPEED_400000,
#ifdef SPEED_800000
		SPEED_800000,
#endif
	};
	u16 i;

	for (i = 1; i < ARRAY_SIZE(speeds); i++)
		if (slave->speed == speeds[i])
			return i + 1;
	if (slave->speed != SPEED_UNKNOWN)
		pr_err_once("%s: (slave %s): unknown ethtool speed (%d) for port %d (set it to 0)\n",
			    slave->bond->dev->name, slave->dev->name, slave->speed,
			    SLAVE_AD_INFO(slave)->port.actor_port_number);
	return 0;
}

/* Whether the link of a slave is up. One in its downdelay is, one in its updelay is not. */
bool lacp_is_up(const struct slave *slave)
{
	char link = READ_ONCE(slave->link);

	return (link == BOND_LINK_UP || link == BOND_LINK_FAIL) && netif_running(slave->dev);
}

/* The key of a slave: user key, speed and duplex. While its link is down it stays what it was. */
u16 lacp_key(const struct slave *slave, u16 was)
{
	u16 user = slave->bond->params.ad_user_port_key << LACP_KEY_USER_SHIFT;

	if (slave->link != BOND_LINK_UP)
		return user | (was & GENMASK(LACP_KEY_USER_SHIFT - 1, 0));
	return user | lacp_speed(slave) << 1 |
	       (slave->duplex == DUPLEX_FULL ? LACP_KEY_DUPLEX : 0);
}

/* A link of half duplex is individual. */
bool lacp_aggregates(u16 key)
{
	return key & LACP_KEY_DUPLEX;
}

/* Has the work run now. A bond that is down has none. */
static void lacp_wake(struct bonding *bond)
{
	if (netif_running(bond->dev))
		mod_delayed_work(bond->wq, &bond->ad_work, 0);
}

/* ---- the work ---- */

/*
 * Has the list of slaves that are sent on made anew before a partner is told: no frame goes out any
 * more where it does not look for one.
 */
static void lacp_update_slaves(struct bonding *bond)
{
	bool done = false;

	if (rtnl_trylock()) {
		done = !bond_update_slave_arr(bond, NULL);
		bond_slave_state_notify(bond);
		rtnl_unlock();
	}
	if (!done)
		bond_slave_arr_work_rearm(bond, 0);
}

static void lacp_notify(struct bonding *bond)
{
	struct list_head *iter;
	struct slave *slave;
	bool notify = false;

	rcu_read_lock();
	bond_for_each_slave_rcu(bond, slave, iter)
		notify |= slave->should_notify;
	rcu_read_unlock();
	if (notify && rtnl_trylock()) {
		bond_slave_state_notify(bond);
		rtnl_unlock();
	}
}

void bond_3ad_state_machine_handler(struct work_struct *work)
{
	struct bonding *bond = container_of(work, struct bonding, ad_work.work);
	unsigned long delay = msecs_to_jiffies(NIW_TICK_MILLISECONDS);
	struct lacp_bond *system;
	bool waits;

	if (!netif_running(bond->dev))
		return;
	system = lacp_system_of(bond, &waits);
	if (system) {
		if (lacp_turn(system))
			lacp_update_slaves(bond);
		lacp_send_all(system);
		delay = lacp_until_next(system);
	}
	lacp_notify(bond);
	queue_delayed_work(bond->wq, &bond->ad_work, waits ? 1 : delay);
}

/* ---- slaves come and go ---- */

void bond_3ad_initiate_agg_selection(struct bonding *bond, int timeout)
{
	atomic_set(&BOND_AD_INFO(bond).agg_select_timer, timeout);
}

static void lacp_set_system(struct bonding *bond)
{
	struct ad_system *system = &BOND_AD_INFO(bond).system;
	const u8 *given = bond->params.ad_actor_system;

	system->sys_priority = bond->params.ad_actor_sys_prio;
	ether_addr_copy(system->sys_mac_addr.mac_addr_value,
			is_zero_ether_addr(given) ? bond->dev->dev_addr : given);
}

void bond_3ad_initialize(struct bonding *bond)
{
	pr_info_once("bonding: LACP by liblag (%s)\n", lag_library());
	BOND_AD_INFO(bond).aggregator_identifier = 0;
	lacp_set_system(bond);
	if (!bond->params.coupled_control)
		netdev_warn(bond->dev, "LACP: coupled_control off does nothing: a port collects and distributes at once\n");
}

void bond_3ad_bind_slave(struct slave *slave)
{
	struct bonding *bond = bond_get_bond_by_slave(slave);
	struct ad_slave_info *info = SLAVE_AD_INFO(slave);
	struct port *port = &info->port;
	struct aggregator *agg = &info->aggregator;

	if (port->slave == slave)
		return;
	if (bond->slave_cnt >= NIW_MOST_PORTS)
		slave_err(bond->dev, slave->dev, "LACP leaves it out: a bond has %d ports at most\n",
			  NIW_MOST_PORTS);
	memset(port, 0, sizeof(*port));
	memset(agg, 0, sizeof(*agg));
	info->lacp = NULL;
	info->port_priority = 0xff;
	port->actor_port_number = info->id;
	port->actor_port_priority = info->port_priority;
	port->actor_system = BOND_AD_INFO(bond).system.sys_mac_addr;
	port->actor_system_priority = BOND_AD_INFO(bond).system.sys_priority;
	port->actor_admin_port_key = lacp_key(slave, 0);
	port->actor_oper_port_key = port->actor_admin_port_key;
	port->actor_oper_port_state = LACP_STATE_AGGREGATION |
				      (bond->params.lacp_active ? LACP_STATE_LACP_ACTIVITY : 0) |
				      (bond->params.lacp_fast ? LACP_STATE_LACP_TIMEOUT : 0);
	bond_set_slave_inactive_flags(slave, BOND_SLAVE_NOTIFY_LATER);
	ether_addr_copy(agg->aggregator_mac_address.mac_addr_value, bond->dev->dev_addr);
	agg->aggregator_identifier = ++BOND_AD_INFO(bond).aggregator_identifier;
	agg->slave = slave;
	WRITE_ONCE(port->slave, slave);
	lacp_wake(bond);
}

/* A slave that leaves. */
struct lacp_leaver {
	struct work_struct work;
	struct slave *slave;
};

static void lacp_leave_work(struct work_struct *work)
{
	struct slave *slave = container_of(work, struct lacp_leaver, work)->slave;

	WRITE_ONCE(SLAVE_AD_INFO(slave)->port.slave, NULL);
	if (SLAVE_AD_INFO(slave)->lacp)
		lacp_leave(SLAVE_AD_INFO(slave)->lacp);
}

void bond_3ad_unbind_slave(struct slave *slave)
{
	struct lacp_leaver it = { .slave = slave };

	if (!SLAVE_AD_INFO(slave)->port.slave) {
		slave_warn(slave->bond->dev, slave->dev, "Trying to unbind an uninitialized port\n");
		return;
	}
	/* with RTNL, for which no work of bond->wq waits */
	INIT_WORK_ONSTACK(&it.work, lacp_leave_work);
	queue_work(slave->bond->wq, &it.work);
	flush_work(&it.work);
	destroy_work_on_stack(&it.work);
}

/* ---- what the driver tells ---- */

void bond_3ad_update_ad_actor_settings(struct bonding *bond)
{
	ASSERT_RTNL();
	lacp_set_system(bond);
	lacp_wake(bond);
}

void bond_3ad_adapter_speed_duplex_changed(struct slave *slave)
{
	const struct port *port = &SLAVE_AD_INFO(slave)->port;

	if (!port->slave)
		slave_warn(slave->bond->dev, slave->dev, "speed/duplex changed for uninitialized port\n");
	else if (lacp_key(slave, port->actor_oper_port_key) != port->actor_oper_port_key)
		lacp_wake(slave->bond);
}

void bond_3ad_handle_link_change(struct slave *slave, char link)
{
	struct ad_slave_info *info = SLAVE_AD_INFO(slave);

	if (!info->port.slave) {
		slave_warn(slave->bond->dev, slave->dev, "link status changed for uninitialized port\n");
		return;
	}
	if (link != BOND_LINK_UP && info->lacp)
		WRITE_ONCE(info->lacp->fell, true); /* also where it is up again at the next turn */
	slave_dbg(slave->bond->dev, slave->dev, "Port %d changed link status to %s\n",
		  info->port.actor_port_number, link == BOND_LINK_UP ? "UP" : "DOWN");
	/* RTNL is held, and no lock of the driver */
	bond_update_slave_arr(slave->bond, NULL);
	lacp_wake(slave->bond);
}

/* The work looks at lacp_rate and lacp_active at each turn. A bond that is down shows them, too. */
static void lacp_show_mode(struct bonding *bond, u8 bit, bool is)
{
	struct list_head *iter;
	struct slave *slave;

	spin_lock_bh(&bond->mode_lock);
	bond_for_each_slave(bond, slave, iter) {
		struct port *port = &SLAVE_AD_INFO(slave)->port;

		if (is)
			port->actor_oper_port_state |= bit;
		else
			port->actor_oper_port_state &= ~bit;
	}
	spin_unlock_bh(&bond->mode_lock);
	lacp_wake(bond);
}

void bond_3ad_update_lacp_rate(struct bonding *bond)
{
	lacp_show_mode(bond, LACP_STATE_LACP_TIMEOUT, bond->params.lacp_fast);
}

void bond_3ad_update_lacp_active(struct bonding *bond)
{
	lacp_show_mode(bond, LACP_STATE_LACP_ACTIVITY, bond->params.lacp_active);
}

/* ---- what the driver asks ---- */

static struct aggregator *lacp_active_aggregator(struct bonding *bond)
{
	struct list_head *iter;
	struct slave *slave;

	bond_for_each_slave_rcu(bond, slave, iter)
		if (SLAVE_AD_INFO(slave)->aggregator.is_active)
			return &SLAVE_AD_INFO(slave)->aggregator;
	return NULL;
}

/* The carrier of a bond: its frames pass, on min_links ports or more. */
int bond_3ad_set_carrier(struct bonding *bond)
{
	struct aggregator *active;
	int ret;

	rcu_read_lock();
	ret = bond_has_slaves(bond);
	active = lacp_active_aggregator(bond);
	if (active && active->num_of_ports &&
	    active->num_of_ports >= bond->params.min_links)
		netif_carrier_on(bond->dev);
	else
		netif_carrier_off(bond->dev);
	rcu_read_unlock();
	return ret;
}

int __bond_3ad_get_active_agg_info(struct bonding *bond, struct ad_info *ad_info)
{
	struct aggregator *active = lacp_active_aggregator(bond);

	if (!active)
		return -1;
	ad_info->aggregator_id = active->aggregator_identifier;
	ad_info->ports = active->num_of_ports;
	ad_info->actor_key = active->actor_oper_aggregator_key;
	ad_info->partner_key = active->partner_oper_aggregator_key;
	ether_addr_copy(ad_info->partner_system, active->partner_system.mac_addr_value);
	return 0;
}

int bond_3ad_get_active_agg_info(struct bonding *bond, struct ad_info *ad_info)
{
	int ret;

	rcu_read_lock();
	ret = __bond_3ad_get_active_agg_info(bond, ad_info);
	rcu_read_unlock();
	return ret;
}

/* A frame came, in softirq. */
int bond_3ad_lacpdu_recv(const struct sk_buff *skb, struct bonding *bond, struct slave *slave)
{
	struct lacp_port *port;
	const u8 *subtype;
	u8 octet = 0;

	if (skb->protocol != PKT_TYPE_LACPDU)
		return RX_HANDLER_ANOTHER;
	if (!ether_addr_equal_64bits(eth_hdr(skb)->h_dest, lacpdu_mcast_addr))
		return RX_HANDLER_ANOTHER;
	subtype = skb_header_pointer(skb, 0, 1, &octet);
	if (!subtype || (*subtype != AD_TYPE_LACPDU && *subtype != AD_TYPE_MARKER)) {
		atomic64_inc(&SLAVE_AD_INFO(slave)->stats.lacpdu_unknown_rx);
		atomic64_inc(&BOND_AD_INFO(bond).stats.lacpdu_unknown_rx);
		return RX_HANDLER_ANOTHER;
	}
	port = READ_ONCE(SLAVE_AD_INFO(slave)->lacp);
	if (!port)
		return RX_HANDLER_ANOTHER;
	lacp_keep(port, skb, *subtype);
	lacp_wake(bond);
	return RX_HANDLER_CONSUMED;
}

/* ---- counts ---- */

size_t bond_3ad_stats_size(void)
{
	return nla_total_size_64bit(sizeof(u64)) * BOND_3AD_STAT_PAD;
}

int bond_3ad_stats_fill(struct sk_buff *skb, struct bond_3ad_stats *stats)
{
	const struct {
		int name;
		const atomic64_t *value;
	} counts[] = {
		{ BOND_3AD_STAT_LACPDU_RX, &stats->lacpdu_rx },
		{ BOND_3AD_STAT_LACPDU_TX, &stats->lacpdu_tx },
		{ BOND_3AD_STAT_LACPDU_UNKNOWN_RX, &stats->lacpdu_unknown_rx },
		{ BOND_3AD_STAT_LACPDU_ILLEGAL_RX, &stats->lacpdu_illegal_rx },
		{ BOND_3AD_STAT_MARKER_RX, &stats->marker_rx },
		{ BOND_3AD_STAT_MARKER_TX, &stats->marker_tx },
		{ BOND_3AD_STAT_MARKER_RESP_RX, &stats->marker_resp_rx },
		{ BOND_3AD_STAT_MARKER_RESP_TX, &stats->marker_resp_tx },
		{ BOND_3AD_STAT_MARKER_UNKNOWN_RX, &stats->marker_unknown_rx },
	};
	int i;

	for (i = 0; i < ARRAY_SIZE(counts); i++)
		if (nla_put_u64_64bit(skb, counts[i].name, atomic64_read(counts[i].value),
				      BOND_3AD_STAT_PAD))
			return -EMSGSIZE;
	return 0;
}
