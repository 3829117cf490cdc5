/* SPDX-License-Identifier: BSD-3-Clause
 * Copyright(c) 2010-2015 Intel Corporation
 */

/* Mode 4 (802.3ad) over lag.h: the public and the internal functions are those of
 * the file of this name of DPDK 22.11; the machines are those of lag.c.
 *
 * The data path is as it was. A burst that reads a frame of the slow protocols
 * puts it into rx_ring; a burst that writes takes what is due from tx_ring, and
 * looks at two bits of actor_state of each member. No lock is there. All calls of
 * lag.h are in the alarm and in the control functions, under lag_lock: one lock for
 * all bonded devices, as they share the memory of -DNIW_POOL.
 *
 * actor_state of struct port has COLLECTING and DISTRIBUTING for the data path:
 * they are set for the members of one aggregator alone, the one that carries.
 * What a member tells its partner is in `view` of struct lag_member, and
 * rte_eth_bond_8023ad_slave_info() shows that.
 */

#include <pthread.h>
#include <stddef.h>
#include <string.h>
#include <stdbool.h>

#include <rte_alarm.h>
#include <rte_malloc.h>
#include <rte_errno.h>
#include <rte_cycles.h>

#include "eth_bond_private.h"
#include "lag_names.h"
#include "lag_end.h"

/* How many frames of a member may wait between two alarms, and how many wait to be
 * sent: one LACPDU, and responses to markers.
 */
#define LAG_RX_FRAMES 256
#define LAG_TX_FRAMES 32
/* What is read of a frame of the slow protocols. */
#define LAG_LOOKED_AT 128
/* Until a system that was refused is tried again. */
#define LAG_RETRY_MS 1000
/* How long a member that is removed waits at most until its partner has stopped, how
 * often it looks, and what the frames of other queues get then.
 */
#define LAG_LEAVES_MS 1000
#define LAG_LOOKS_MS 10
/* Of each member, were it alone in its bonded device, and as much again for what
 * lies between blocks when devices come and go.
 */
#define LAG_POOL_OCTETS ((size_t)2 * RTE_MAX_ETHPORTS * \
		(NIW_MEMORY(1, 1, NIW_ONE_CONVERSATION) + 1024))

#define LAG_USED (STATE_COLLECTING | STATE_DISTRIBUTING)

/* What there is of a member beside its struct port. Under lag_lock. */
struct lag_member {
	struct lag_heard heard;
	struct lag_limit limit;
	struct lag_wake wake;
	struct niw_view view;	/* As the system showed it last. */
	uint16_t key;		/* Of the last link that was up, or 0. */
	uint32_t speed;
	bool up;
	bool leaves;		/* It is removed: it takes what comes, and sends nothing. */
};

/* What there is of a bonded device. Under lag_lock. */
struct lag_bond {
	struct lag_end end;
	uint16_t ids[NIW_MOST_PORTS];	/* The members of the system, ascending. */
	uint16_t keys[NIW_MOST_PORTS];	/* Of them, when it was made. */
	uint16_t count;
	bool fast;			/* Whether it asks for short timeouts. */
	struct rte_ether_addr mac;	/* Its system identifier. */
	uint16_t carries;		/* The aggregator that carries, or 0. */
	uint16_t shown;			/* The one that the data path has, or 0. */
	int64_t retry_at;		/* Its system was refused; or 0. */
};

static void bond_mode_8023ad_periodic_cb(void *arg);
static void bond_mode_8023ad_ext_periodic_cb(void *arg);

static const struct rte_ether_addr lacp_mac_addr = {
	.addr_bytes = { 0x01, 0x80, 0xC2, 0x00, 0x00, 0x02 }
};

struct port bond_mode_8023ad_ports[RTE_MAX_ETHPORTS];

static pthread_mutex_t lag_lock = PTHREAD_MUTEX_INITIALIZER;
static struct lag_member lag_members[RTE_MAX_ETHPORTS];
static struct lag_bond lag_bonds[RTE_MAX_ETHPORTS];
static void *lag_room;

/* Milliseconds of a clock that is not set back. */
static int64_t
lag_now(void)
{
	return (int64_t)(rte_rdtsc() / (rte_get_tsc_hz() / 1000));
}

static uint16_t
lag_number(uint16_t slave_id)
{
	return slave_id + 1;
}

static void
timer_cancel(uint64_t *timer)
{
	*timer = 0;
}

static void
timer_set(uint64_t *timer, uint64_t timeout)
{
	*timer = rte_rdtsc() + timeout;
}

static bool
timer_is_expired(uint64_t *timer)
{
	return *timer < rte_rdtsc();
}

static void
set_warning_flags(struct port *port, uint16_t flags)
{
	int retval;
	uint16_t old;
	uint16_t new_flag = 0;

	do {
		old = port->warnings_to_show;
		new_flag = old | flags;
		retval = rte_atomic16_cmpset(&port->warnings_to_show, old, new_flag);
	} while (unlikely(retval == 0));
}

static void
show_warnings(uint16_t slave_id)
{
	struct port *port = &bond_mode_8023ad_ports[slave_id];
	uint8_t warnings;

	do {
		warnings = port->warnings_to_show;
	} while (rte_atomic16_cmpset(&port->warnings_to_show, warnings, 0) == 0);

	if (!warnings)
		return;

	if (!timer_is_expired(&port->warning_timer))
		return;

	timer_set(&port->warning_timer, BOND_8023AD_WARNINGS_PERIOD_MS *
			rte_get_tsc_hz() / 1000);

	if (warnings & WRN_RX_QUEUE_FULL)
		RTE_BOND_LOG(DEBUG,
			     "Slave %u: failed to enqueue LACP packet into RX ring.\n"
			     "Receive and transmit functions must be invoked on bonded"
			     "interface at least 10 times per second or LACP will notwork correctly",
			     slave_id);
	if (warnings & WRN_TX_QUEUE_FULL)
		RTE_BOND_LOG(DEBUG,
			     "Slave %u: failed to enqueue LACP packet into TX ring.\n"
			     "Receive and transmit functions must be invoked on bonded"
			     "interface at least 10 times per second or LACP will not work correctly",
			     slave_id);
	if (warnings & WRN_RX_MARKER_TO_FAST)
		RTE_BOND_LOG(INFO, "Slave %u: marker to early - ignoring.",
			     slave_id);
	if (warnings & WRN_UNKNOWN_SLOW_TYPE)
		RTE_BOND_LOG(INFO,
			"Slave %u: ignoring unknown slow protocol frame type",
			     slave_id);
	if (warnings & WRN_UNKNOWN_MARKER_TYPE)
		RTE_BOND_LOG(INFO, "Slave %u: ignoring unknown marker type",
			     slave_id);
}

/* Function maps DPDK speed to bonding speed stored in key field */
static uint16_t
link_speed_key(uint32_t speed)
{
	switch (speed) {
	case RTE_ETH_SPEED_NUM_NONE:
		return 0x00;
	case RTE_ETH_SPEED_NUM_10M:
		return BOND_LINK_SPEED_KEY_10M;
	case RTE_ETH_SPEED_NUM_100M:
		return BOND_LINK_SPEED_KEY_100M;
	case RTE_ETH_SPEED_NUM_1G:
		return BOND_LINK_SPEED_KEY_1000M;
	case RTE_ETH_SPEED_NUM_10G:
		return BOND_LINK_SPEED_KEY_10G;
	case RTE_ETH_SPEED_NUM_20G:
		return BOND_LINK_SPEED_KEY_20G;
	case RTE_ETH_SPEED_NUM_40G:
		return BOND_LINK_SPEED_KEY_40G;
	default:
		/* Unknown speed*/
		return 0xFFFF;
	}
}

/* ---- Frames ---- */

/* Takes the LACPDU out that still waits to be sent: the next one says what is so
 * now. Responses to markers stay.
 */
static void
drop_waiting_lacpdu(struct port *port)
{
	unsigned int waiting = rte_ring_count(port->tx_ring);
	void *pkt = NULL;

	while (waiting-- && rte_ring_dequeue(port->tx_ring, &pkt) == 0) {
		struct rte_mbuf *it = pkt;

		if (rte_pktmbuf_mtod(it, struct slow_protocol_frame *)->slow_protocol.subtype ==
				SLOW_SUBTYPE_LACP ||
				rte_ring_enqueue(port->tx_ring, it) != 0)
			rte_pktmbuf_free(it);
	}
}

/* Sends a frame of the library on a member: by its dedicated queue at once, else
 * with the next burst. One that can't go counts as lost on the wire.
 */
static void
send_frame(struct bond_dev_private *internals, uint16_t slave_id,
		const uint8_t *frame)
{
	struct port *port = &bond_mode_8023ad_ports[slave_id];
	struct slow_protocol_frame *hdr;
	struct rte_mbuf *pkt;
	uint16_t sent;

	if (port->mbuf_pool == NULL)
		return;
	pkt = rte_pktmbuf_alloc(port->mbuf_pool);
	if (pkt == NULL) {
		RTE_BOND_LOG(ERR, "Failed to allocate LACP packet from pool");
		return;
	}
	pkt->data_len = NIW_FRAME;
	pkt->pkt_len = NIW_FRAME;
	hdr = rte_pktmbuf_mtod(pkt, struct slow_protocol_frame *);
	memcpy(hdr, frame, NIW_FRAME);
	rte_eth_macaddr_get(slave_id, &hdr->eth_hdr.src_addr);

	if (internals->mode4.dedicated_queues.enabled) {
		sent = rte_eth_tx_prepare(slave_id,
				internals->mode4.dedicated_queues.tx_qid, &pkt, 1);
		sent = rte_eth_tx_burst(slave_id,
				internals->mode4.dedicated_queues.tx_qid, &pkt, sent);
	} else {
		if (hdr->slow_protocol.subtype == SLOW_SUBTYPE_LACP)
			drop_waiting_lacpdu(port);
		sent = rte_ring_enqueue(port->tx_ring, pkt) == 0;
	}
	if (sent != 1) {
		rte_pktmbuf_free(pkt);
		set_warning_flags(port, WRN_TX_QUEUE_FULL);
	}
}

/* Whether a frame is for the library: to the group address, without a VLAN. */
static bool
is_slow_frame(struct rte_mbuf *pkt)
{
	const struct slow_protocol_frame *hdr =
		rte_pktmbuf_mtod(pkt, struct slow_protocol_frame *);

	return rte_pktmbuf_pkt_len(pkt) > sizeof(hdr->eth_hdr) &&
		hdr->eth_hdr.ether_type == rte_cpu_to_be_16(RTE_ETHER_TYPE_SLOW) &&
		rte_is_same_ether_addr(&hdr->eth_hdr.dst_addr, &lacp_mac_addr) &&
		!((pkt->ol_flags & RTE_MBUF_F_RX_VLAN) && pkt->vlan_tci) &&
		(hdr->slow_protocol.subtype == SLOW_SUBTYPE_LACP ||
		 hdr->slow_protocol.subtype == SLOW_SUBTYPE_MARKER);
}

/* Hands a frame to the library, and answers a marker. */
static void
take_frame(struct bond_dev_private *internals, struct lag_bond *bond,
		uint16_t slave_id, struct rte_mbuf *pkt, int64_t now)
{
	struct lag_member *member = &lag_members[slave_id];
	uint8_t room[LAG_LOOKED_AT], response[NIW_FRAME];
	uint32_t length = RTE_MIN(rte_pktmbuf_pkt_len(pkt), (uint32_t)LAG_LOOKED_AT);
	const uint8_t *frame = rte_pktmbuf_read(pkt, 0, length, room);
	struct niw_received got;

	if (frame == NULL)
		return;
	got = niw_receive(&bond->end.system, lag_number(slave_id), frame, length,
			response, sizeof(response));
	if (got.status != NIW_OK)
		return;
	if (got.what == NIW_RECEIVED_TOOK_LACPDU)
		lag_hear(&member->heard, frame, now);
	else if (got.what == NIW_RECEIVED_RESPOND) {
		if (lag_may_respond(&member->limit, now))
			send_frame(internals, slave_id, response);
		else
			set_warning_flags(&bond_mode_8023ad_ports[slave_id],
					WRN_RX_MARKER_TO_FAST);
	}
}

/* All frames that wait: those of the dedicated queue, and those that the data path
 * met.
 */
static void
take_frames(struct bond_dev_private *internals, struct lag_bond *bond,
		uint16_t slave_id, int64_t now)
{
#define DEDICATED_QUEUE_BURST_SIZE 32
	struct rte_mbuf *pkts[DEDICATED_QUEUE_BURST_SIZE];
	struct port *port = &bond_mode_8023ad_ports[slave_id];
	unsigned int left = LAG_RX_FRAMES;
	void *pkt = NULL;
	uint16_t i, count;

	if (internals->mode4.dedicated_queues.enabled) {
		count = rte_eth_rx_burst(slave_id,
				internals->mode4.dedicated_queues.rx_qid, pkts,
				DEDICATED_QUEUE_BURST_SIZE);
		for (i = 0; i < count; i++) {
			if (is_slow_frame(pkts[i]))
				take_frame(internals, bond, slave_id, pkts[i], now);
			rte_pktmbuf_free(pkts[i]);
		}
	}
	while (port->rx_ring != NULL && left-- &&
			rte_ring_dequeue(port->rx_ring, &pkt) == 0) {
		take_frame(internals, bond, slave_id, pkt, now);
		rte_pktmbuf_free(pkt);
	}
}

/* ---- The system ---- */

static bool
lag_has(const struct lag_bond *bond, uint16_t slave_id)
{
	return find_slave_by_id((uint16_t *)(uintptr_t)bond->ids, bond->count,
			slave_id) < bond->count;
}

/* Looks at the link of a member. */
static void
poll_link(struct bond_dev_private *internals, uint16_t slave_id)
{
	struct lag_member *member = &lag_members[slave_id];
	struct rte_eth_link link;
	int ret;

	member->up = false;
	if (find_slave_by_id(internals->active_slaves, internals->active_slave_count,
			slave_id) == internals->active_slave_count)
		return;
	ret = rte_eth_link_get_nowait(slave_id, &link);
	if (ret < 0) {
		RTE_BOND_LOG(ERR, "Slave (port %u) link get failed: %s\n", slave_id,
			rte_strerror(-ret));
		return;
	}
	/* LACP is disabled on half duplex or link is down */
	if (!link.link_status || link.link_duplex != RTE_ETH_LINK_FULL_DUPLEX)
		return;
	member->up = true;
	member->speed = link.link_speed;
	member->key = link_speed_key(link.link_speed) << 1 | BOND_LINK_FULL_DUPLEX_KEY;
}

/* Whether frames may pass on a member: not without a partner. */
static bool
distributes(const struct niw_view *view)
{
	return (view->state & NIW_STATE_DISTRIBUTING) && !view->defaulted;
}

/* Whether the system is of these members. */
static bool
is_of(const struct lag_bond *bond, const struct rte_ether_addr *mac,
		const struct lag_port *ports, size_t count)
{
	size_t i;

	if (count != bond->count || bond->end.system.live != (count > 0) ||
			(count && ports[0].port.short_timeout != bond->fast) ||
			!rte_is_same_ether_addr(mac, &bond->mac))
		return false;
	for (i = 0; i < count; i++)
		if (ports[i].port.number != lag_number(bond->ids[i]) ||
				ports[i].port.key != bond->keys[i])
			return false;
	return true;
}

/* Where the members, a key or the system identifier changed, makes the system anew:
 * each member that carried goes on, if its partner need not be told anything new.
 */
static void
make_system(struct bond_dev_private *internals, struct lag_bond *bond, int64_t now)
{
	struct lag_port ports[NIW_MOST_PORTS];
	struct niw_config config = {
		.priority = 0xFFFF,
		.conversations = NIW_ONE_CONVERSATION,
	};
	struct rte_ether_addr mac = internals->mode4.mac_addr;
	struct niw_made made;
	uint16_t ids[NIW_MOST_PORTS], carries = 0, shown = 0;
	size_t i, count = 0;

	/* A member comes or goes just now: the next alarm will see it. */
	if (!rte_spinlock_trylock(&internals->lock))
		return;
	for (i = 0; i < internals->slave_count && i < NIW_MOST_PORTS; i++)
		ids[count++] = internals->slaves[i].port_id;
	rte_spinlock_unlock(&internals->lock);

	for (i = 0; i < count; i++) {
		struct lag_member *member = &lag_members[ids[i]];

		poll_link(internals, ids[i]);
		ports[i] = (struct lag_port) {
			.port = {
				.number = lag_number(ids[i]), .priority = 0x00FF,
				.key = member->key ? member->key : BOND_LINK_FULL_DUPLEX_KEY,
				.aggregatable = true, .active = true,
				.short_timeout = internals->mode4.fast,
			},
			.up = member->up,
			.carried = lag_has(bond, ids[i]) && distributes(&member->view),
			.aggregator = member->view.aggregator,
			.heard = &member->heard,
		};
		memcpy(ports[i].port.mac, mac.addr_bytes, RTE_ETHER_ADDR_LEN);
	}
	qsort(ports, count, sizeof(*ports), lag_port_order);
	if (is_of(bond, &mac, ports, count) || now < bond->retry_at)
		return;

	if (lag_room == NULL) {
		lag_room = rte_zmalloc("bond_lag", LAG_POOL_OCTETS, 16);
		if (lag_room != NULL)
			niw_give_memory(lag_room, LAG_POOL_OCTETS);
	}
	memcpy(config.mac, mac.addr_bytes, sizeof(config.mac));
	made = lag_end_remake(&bond->end, &config, ports, count, now);
	bond->retry_at = 0;
	bond->count = 0;
	if (made.status != NIW_OK) {
		RTE_BOND_LOG(ERR, "Bond %u: no LACP: %s", internals->port_id,
			niw_status_text(made.status));
		bond->retry_at = now + LAG_RETRY_MS;
	}
	bond->mac = mac;
	bond->fast = internals->mode4.fast;
	for (i = 0; i < count; i++) {
		uint16_t slave_id = ports[i].port.number - 1;
		uint16_t was = ports[i].aggregator;

		if (made.status != NIW_OK) {
			memset(&lag_members[slave_id].view, 0, sizeof(struct niw_view));
			continue;
		}
		bond->ids[i] = slave_id;
		bond->keys[i] = ports[i].port.key;
		bond->count++;
		if (ports[i].begins) {
			RTE_BOND_LOG(INFO, "Bond %u: slave id %u negotiates anew: %s",
				internals->port_id, slave_id, lag_why_text(ports[i].why));
		} else if (ports[i].carried) {
			uint16_t is = niw_choice(&bond->end.system, ports[i].port.number).number;

			carries = was == bond->carries ? is : carries;
			shown = was == bond->shown ? is : shown;
		}
	}
	bond->carries = carries;
	bond->shown = shown;
}

/* Tells the system which links are up. */
static void
set_links(struct lag_bond *bond)
{
	uint16_t i;

	for (i = 0; i < bond->count; i++) {
		struct lag_member *member = &lag_members[bond->ids[i]];
		uint16_t number = lag_number(bond->ids[i]);

		if (niw_is_up(&bond->end.system, number).is != member->up) {
			niw_set_link(&bond->end.system, number, member->up);
			if (!member->up)
				member->heard.is = false;
		}
	}
}

/* The aggregator whose members the data path uses, by the policy of the device. */
static uint16_t
choose(struct bond_dev_private *internals, struct lag_bond *bond,
		const struct niw_view *views)
{
	uint64_t speeds[NIW_MOST_PORTS];
	uint16_t i;

	for (i = 0; i < bond->count; i++)
		speeds[i] = lag_members[bond->ids[i]].speed;
	switch (internals->mode4.agg_selection) {
	case AGG_BANDWIDTH:
		return lag_end_choose(views, speeds, LAG_STAYS_UNLESS_MORE, bond->carries);
	case AGG_COUNT:
		return lag_end_choose(views, NULL, LAG_STAYS_UNLESS_MORE, bond->carries);
	case AGG_STABLE:
	default:
		return lag_end_choose(views, NULL, LAG_STAYS_WHILE_READY, bond->carries);
	}
}

/* What a member shows. */
static void
show_member(struct lag_bond *bond, uint16_t slave_id, uint16_t key)
{
	struct port *port = &bond_mode_8023ad_ports[slave_id];
	const struct niw_view *view = &lag_members[slave_id].view;

	port->actor.system = bond->mac;
	port->actor.key = rte_cpu_to_be_16(view->up ? key : 0);
	port->partner.system_priority = rte_cpu_to_be_16(view->partner_priority);
	memcpy(&port->partner.system, view->partner_mac, RTE_ETHER_ADDR_LEN);
	port->partner.key = rte_cpu_to_be_16(view->partner_key);
	port->partner.port_priority = rte_cpu_to_be_16(view->partner_port_priority);
	port->partner.port_number = rte_cpu_to_be_16(view->partner_port);
	port->partner_state = view->partner_state;
	port->selected = !view->aggregator ? UNSELECTED :
		view->standby ? STANDBY : SELECTED;
	port->aggregator_port_id = view->aggregator ?
		bond->ids[view->aggregator - 1] : slave_id;
}

/* Chooses what carries, and wakes the members that are long on defaults; puts what the
 * members show then into `views`.
 */
static void
settle(struct bond_dev_private *internals, struct lag_bond *bond,
		struct niw_view *views, int64_t now)
{
	bool changed;
	uint16_t i;

	lag_end_views(&bond->end, views);
	bond->carries = choose(internals, bond, views);
	changed = lag_end_use(&bond->end, bond->carries);
	for (i = 0; i < bond->count; i++)
		changed |= lag_end_wake(&bond->end, &views[i],
				&lag_members[bond->ids[i]].wake, true, now);
	if (changed)
		lag_end_views(&bond->end, views);
}

/* What the data path does on a member. */
static uint8_t
used(const struct lag_bond *bond, const struct lag_member *member, uint8_t was)
{
	if (member->leaves)
		return was & STATE_COLLECTING;
	return member->view.aggregator == bond->shown && distributes(&member->view) ?
		LAG_USED : 0;
}

/* Shows the data path which members it uses: those of one aggregator, which has one
 * partner. Where another aggregator carries now, the members of the one before
 * stop at this alarm, and those of the next one begin at the next alarm: no burst
 * has members of both.
 */
static void
publish(struct bond_dev_private *internals, struct lag_bond *bond, int64_t now)
{
	struct niw_view views[NIW_MOST_PORTS];
	bool any = false;
	uint16_t i;

	settle(internals, bond, views, now);
	for (i = 0; i < bond->count; i++) {
		lag_members[bond->ids[i]].view = views[i];
		any |= !!(bond_mode_8023ad_ports[bond->ids[i]].actor_state & LAG_USED);
	}
	bond->shown = any && bond->shown != bond->carries ? 0 : bond->carries;
	for (i = 0; i < bond->count; i++) {
		const struct lag_member *member = &lag_members[bond->ids[i]];
		struct port *port = &bond_mode_8023ad_ports[bond->ids[i]];
		uint8_t was = port->actor_state;
		uint8_t state = (views[i].state & ~LAG_USED) | used(bond, member, was);

		__atomic_store_n(&port->actor_state, state, __ATOMIC_RELEASE);
		if ((state ^ was) & STATE_DISTRIBUTING)
			RTE_BOND_LOG(INFO, "Bond %u: slave id %u distributing %s.",
				internals->port_id, bond->ids[i],
				state & STATE_DISTRIBUTING ? "started" : "stopped");
		show_member(bond, bond->ids[i], bond->keys[i]);
	}
}

/* Sends what is due, behind publish(): a partner is told what is so already. What may
 * not be sent now stays due.
 */
static void
transmit(struct bond_dev_private *internals, struct lag_bond *bond, int64_t now)
{
	uint8_t frame[NIW_FRAME];
	uint16_t i;

	for (i = 0; i < bond->count; i++)
		while (lag_end_transmit(&bond->end, lag_number(bond->ids[i]),
				&lag_members[bond->ids[i]].limit, frame, now).is)
			send_frame(internals, bond->ids[i], frame);
}

static void
bond_mode_8023ad_periodic_cb(void *arg)
{
	struct rte_eth_dev *bond_dev = arg;
	struct bond_dev_private *internals = bond_dev->data->dev_private;
	struct lag_bond *bond = &lag_bonds[internals->port_id];
	int64_t now = lag_now();
	uint16_t i;

	pthread_mutex_lock(&lag_lock);
	lag_end_advance(&bond->end, now);
	make_system(internals, bond, now);
	if (bond->end.system.live) {
		set_links(bond);
		for (i = 0; i < bond->count; i++)
			take_frames(internals, bond, bond->ids[i], now);
		publish(internals, bond, now);
		transmit(internals, bond, now);
	}
	pthread_mutex_unlock(&lag_lock);

	for (i = 0; i < internals->active_slave_count; i++)
		show_warnings(internals->active_slaves[i]);

	rte_eal_alarm_set(internals->mode4.update_timeout_us,
			bond_mode_8023ad_periodic_cb, arg);
}

/* ---- Members ---- */

static int
bond_mode_8023ad_register_lacp_mac(uint16_t slave_id)
{
	int ret;

	ret = rte_eth_allmulticast_enable(slave_id);
	if (ret != 0) {
		RTE_BOND_LOG(ERR,
			"failed to enable allmulti mode for port %u: %s",
			slave_id, rte_strerror(-ret));
	}
	if (rte_eth_allmulticast_get(slave_id)) {
		RTE_BOND_LOG(DEBUG, "forced allmulti for port %u",
			     slave_id);
		bond_mode_8023ad_ports[slave_id].forced_rx_flags =
				BOND_8023AD_FORCED_ALLMULTI;
		return 0;
	}

	ret = rte_eth_promiscuous_enable(slave_id);
	if (ret != 0) {
		RTE_BOND_LOG(ERR,
			"failed to enable promiscuous mode for port %u: %s",
			slave_id, rte_strerror(-ret));
	}
	if (rte_eth_promiscuous_get(slave_id)) {
		RTE_BOND_LOG(DEBUG, "forced promiscuous for port %u",
			     slave_id);
		bond_mode_8023ad_ports[slave_id].forced_rx_flags =
				BOND_8023AD_FORCED_PROMISC;
		return 0;
	}

	return -1;
}

static void
bond_mode_8023ad_unregister_lacp_mac(uint16_t slave_id)
{
	int ret;

	switch (bond_mode_8023ad_ports[slave_id].forced_rx_flags) {
	case BOND_8023AD_FORCED_ALLMULTI:
		RTE_BOND_LOG(DEBUG, "unset allmulti for port %u", slave_id);
		ret = rte_eth_allmulticast_disable(slave_id);
		if (ret != 0)
			RTE_BOND_LOG(ERR,
				"failed to disable allmulti mode for port %u: %s",
				slave_id, rte_strerror(-ret));
		break;

	case BOND_8023AD_FORCED_PROMISC:
		RTE_BOND_LOG(DEBUG, "unset promisc for port %u", slave_id);
		ret = rte_eth_promiscuous_disable(slave_id);
		if (ret != 0)
			RTE_BOND_LOG(ERR,
				"failed to disable promiscuous mode for port %u: %s",
				slave_id, rte_strerror(-ret));
		break;

	default:
		break;
	}
}

void
bond_mode_8023ad_activate_slave(struct rte_eth_dev *bond_dev,
				uint16_t slave_id)
{
	struct bond_dev_private *internals = bond_dev->data->dev_private;

	struct port *port = &bond_mode_8023ad_ports[slave_id];
	struct port_params initial = {
			.system = { { 0 } },
			.system_priority = rte_cpu_to_be_16(0xFFFF),
			.key = rte_cpu_to_be_16(BOND_LINK_FULL_DUPLEX_KEY),
			.port_priority = rte_cpu_to_be_16(0x00FF),
			.port_number = 0,
	};

	char mem_name[RTE_ETH_NAME_MAX_LEN];
	int socket_id;
	unsigned element_size;
	uint32_t total_tx_desc;
	struct bond_tx_queue *bd_tx_q;
	uint16_t q_id;

	/* Given slave mus not be in active list */
	RTE_ASSERT(find_slave_by_id(internals->active_slaves,
	internals->active_slave_count, slave_id) == internals->active_slave_count);
	RTE_SET_USED(internals); /* used only for assert when enabled */

	pthread_mutex_lock(&lag_lock);
	memcpy(&port->actor, &initial, sizeof(struct port_params));
	/* Standard requires that port ID must be grater than 0.
	 * Add 1 do get corresponding port_number */
	port->actor.port_number = rte_cpu_to_be_16(lag_number(slave_id));

	memcpy(&port->partner, &initial, sizeof(struct port_params));
	memcpy(&port->partner_admin, &initial, sizeof(struct port_params));

	/* default states */
	port->actor_state = STATE_AGGREGATION | STATE_LACP_ACTIVE | STATE_DEFAULTED;
	port->partner_state = STATE_LACP_ACTIVE | STATE_AGGREGATION;
	port->sm_flags = SM_FLAGS_BEGIN;
	port->selected = UNSELECTED;

	/* use this port as aggregator */
	port->aggregator_port_id = slave_id;
	lag_members[slave_id].view.state = port->actor_state;
	pthread_mutex_unlock(&lag_lock);

	if (bond_mode_8023ad_register_lacp_mac(slave_id) < 0) {
		RTE_BOND_LOG(WARNING, "slave %u is most likely broken and won't receive LACP packets",
			     slave_id);
	}

	timer_cancel(&port->warning_timer);

	if (port->mbuf_pool != NULL)
		return;

	RTE_ASSERT(port->rx_ring == NULL);
	RTE_ASSERT(port->tx_ring == NULL);

	socket_id = rte_eth_dev_socket_id(slave_id);
	if (socket_id == -1)
		socket_id = rte_socket_id();

	element_size = sizeof(struct slow_protocol_frame) +
				RTE_PKTMBUF_HEADROOM;

	/* The size of the mempool should be at least:
	 * the sum of the TX descriptors + LAG_TX_FRAMES */
	total_tx_desc = LAG_TX_FRAMES;
	for (q_id = 0; q_id < bond_dev->data->nb_tx_queues; q_id++) {
		bd_tx_q = (struct bond_tx_queue*)bond_dev->data->tx_queues[q_id];
		total_tx_desc += bd_tx_q->nb_tx_desc;
	}

	snprintf(mem_name, RTE_DIM(mem_name), "slave_port%u_pool", slave_id);
	port->mbuf_pool = rte_pktmbuf_pool_create(mem_name, total_tx_desc,
		RTE_MEMPOOL_CACHE_MAX_SIZE >= 32 ?
			32 : RTE_MEMPOOL_CACHE_MAX_SIZE,
		0, element_size, socket_id);

	/* Any memory allocation failure in initialization is critical because
	 * resources can't be free, so reinitialization is impossible. */
	if (port->mbuf_pool == NULL) {
		rte_panic("Slave %u: Failed to create memory pool '%s': %s\n",
			slave_id, mem_name, rte_strerror(rte_errno));
	}

	snprintf(mem_name, RTE_DIM(mem_name), "slave_%u_tx", slave_id);
	port->tx_ring = rte_ring_create(mem_name,
			rte_align32pow2(LAG_TX_FRAMES), socket_id, 0);

	if (port->tx_ring == NULL) {
		rte_panic("Slave %u: Failed to create tx ring '%s': %s\n", slave_id,
			mem_name, rte_strerror(rte_errno));
	}

	snprintf(mem_name, RTE_DIM(mem_name), "slave_%u_rx", slave_id);
	port->rx_ring = rte_ring_create(mem_name,
			rte_align32pow2(LAG_RX_FRAMES), socket_id, 0);

	if (port->rx_ring == NULL) {
		rte_panic("Slave %u: Failed to create rx ring '%s': %s\n", slave_id,
			mem_name, rte_strerror(rte_errno));
	}
}

/* Whether the partner of a member that leaves sends there still, as it told. */
static bool
is_waited_for(struct lag_bond *bond, uint16_t slave_id)
{
	bool it;

	pthread_mutex_lock(&lag_lock);
	it = lag_has(bond, slave_id) && lag_members[slave_id].leaves &&
		(lag_members[slave_id].view.partner_state & STATE_DISTRIBUTING);
	pthread_mutex_unlock(&lag_lock);
	return it;
}

void
bond_mode_8023ad_leave_slave(struct rte_eth_dev *bond_dev, uint16_t slave_id)
{
	struct bond_dev_private *internals = bond_dev->data->dev_private;
	struct lag_bond *bond = &lag_bonds[internals->port_id];
	unsigned int left = LAG_LEAVES_MS / LAG_LOOKS_MS;
	int64_t now = lag_now();
	bool leaves;

	/* The alarm, which hears the partner, runs in that thread. */
	if (internals->mode != BONDING_MODE_8023AD || !bond_dev->data->dev_started ||
			internals->mode4.slowrx_cb != NULL || rte_thread_is_intr())
		return;
	pthread_mutex_lock(&lag_lock);
	leaves = lag_has(bond, slave_id) && distributes(&lag_members[slave_id].view);
	if (leaves) {
		lag_members[slave_id].leaves = true;
		lag_end_advance(&bond->end, now);
		niw_hold(&bond->end.system, lag_number(slave_id), true);
		publish(internals, bond, now);
		transmit(internals, bond, now);
	}
	pthread_mutex_unlock(&lag_lock);
	if (!leaves)
		return;
	do
		rte_delay_us_sleep(LAG_LOOKS_MS * 1000);
	while (is_waited_for(bond, slave_id) && --left);
	rte_delay_us_sleep(LAG_LOOKS_MS * 1000);
}

int
bond_mode_8023ad_deactivate_slave(struct rte_eth_dev *bond_dev,
		uint16_t slave_id)
{
	struct bond_dev_private *internals = bond_dev->data->dev_private;
	struct lag_bond *bond = &lag_bonds[internals->port_id];
	struct lag_member *member = &lag_members[slave_id];
	void *pkt = NULL;
	struct port *port = NULL;

	port = &bond_mode_8023ad_ports[slave_id];

	pthread_mutex_lock(&lag_lock);
	__atomic_store_n(&port->actor_state,
			port->actor_state & ~(LAG_USED | STATE_AGGREGATION), __ATOMIC_RELEASE);
	port->selected = UNSELECTED;
	member->up = false;
	member->heard.is = false;
	if (lag_has(bond, slave_id)) {
		lag_end_advance(&bond->end, lag_now());
		niw_set_link(&bond->end.system, lag_number(slave_id), false);
		if (member->leaves)
			niw_hold(&bond->end.system, lag_number(slave_id), false);
	}
	member->leaves = false;
	memset(&member->view, 0, sizeof(member->view));
	/* The device is stopped, and this is its last one. */
	if (!bond_dev->data->dev_started && internals->active_slave_count <= 1) {
		lag_end_free(&bond->end);
		bond->count = 0;
		bond->carries = bond->shown = 0;
	}
	pthread_mutex_unlock(&lag_lock);

	bond_mode_8023ad_unregister_lacp_mac(slave_id);

	/* flush rx/tx rings */
	while (rte_ring_dequeue(port->rx_ring, &pkt) == 0)
		rte_pktmbuf_free((struct rte_mbuf *)pkt);

	while (rte_ring_dequeue(port->tx_ring, &pkt) == 0)
			rte_pktmbuf_free((struct rte_mbuf *)pkt);
	return 0;
}

void
bond_mode_8023ad_mac_address_update(struct rte_eth_dev *bond_dev)
{
	struct bond_dev_private *internals = bond_dev->data->dev_private;
	struct rte_ether_addr mac;
	uint16_t slave_id, i;

	bond_mode_8023ad_stop(bond_dev);

	rte_eth_macaddr_get(internals->port_id, &internals->mode4.mac_addr);
	for (i = 0; i < internals->active_slave_count; i++) {
		slave_id = internals->active_slaves[i];

		if (rte_eth_macaddr_get(slave_id, &mac) == 0 &&
				rte_is_same_ether_addr(&internals->mode4.mac_addr, &mac))
			continue;

		/* Update physical NIC hardware MAC address to match bonding device. */
		if (rte_eth_dev_default_mac_addr_set(slave_id, &internals->mode4.mac_addr) != 0) {
			RTE_BOND_LOG(ERR,
				"Failed to update MAC address on member port %u",
				slave_id);
		}
	}

	if (bond_dev->data->dev_started)
		bond_mode_8023ad_start(bond_dev);
}

/* ---- Configuration ---- */

static void
bond_mode_8023ad_conf_get(struct rte_eth_dev *dev,
		struct rte_eth_bond_8023ad_conf *conf)
{
	struct bond_dev_private *internals = dev->data->dev_private;
	struct mode8023ad_private *mode4 = &internals->mode4;
	uint64_t ms_ticks = rte_get_tsc_hz() / 1000;

	conf->fast_periodic_ms = mode4->fast_periodic_timeout / ms_ticks;
	conf->slow_periodic_ms = mode4->slow_periodic_timeout / ms_ticks;
	conf->short_timeout_ms = mode4->short_timeout / ms_ticks;
	conf->long_timeout_ms = mode4->long_timeout / ms_ticks;
	conf->aggregate_wait_timeout_ms = mode4->aggregate_wait_timeout / ms_ticks;
	conf->tx_period_ms = mode4->tx_period_timeout / ms_ticks;
	conf->update_timeout_ms = mode4->update_timeout_us / 1000;
	conf->rx_marker_period_ms = mode4->rx_marker_timeout / ms_ticks;
	conf->slowrx_cb = mode4->slowrx_cb;
	conf->agg_selection = mode4->agg_selection;
}

static void
bond_mode_8023ad_conf_get_default(struct rte_eth_bond_8023ad_conf *conf)
{
	conf->fast_periodic_ms = BOND_8023AD_FAST_PERIODIC_MS;
	conf->slow_periodic_ms = BOND_8023AD_SLOW_PERIODIC_MS;
	conf->short_timeout_ms = BOND_8023AD_SHORT_TIMEOUT_MS;
	conf->long_timeout_ms = BOND_8023AD_LONG_TIMEOUT_MS;
	conf->aggregate_wait_timeout_ms = BOND_8023AD_AGGREGATE_WAIT_TIMEOUT_MS;
	conf->tx_period_ms = BOND_8023AD_TX_MACHINE_PERIOD_MS;
	conf->rx_marker_period_ms = BOND_8023AD_RX_MARKER_PERIOD_MS;
	conf->update_timeout_ms = BOND_MODE_8023AX_UPDATE_TIMEOUT_MS;
	conf->slowrx_cb = NULL;
	conf->agg_selection = AGG_STABLE;
}

/* The times of the protocol are those of the standard: what is set of them is kept
 * for rte_eth_bond_8023ad_conf_get(), and changes nothing.
 */
static void
warn_of_times(const struct rte_eth_bond_8023ad_conf *conf)
{
	struct rte_eth_bond_8023ad_conf def;

	bond_mode_8023ad_conf_get_default(&def);
	if (conf->fast_periodic_ms != def.fast_periodic_ms ||
			conf->slow_periodic_ms != def.slow_periodic_ms ||
			conf->short_timeout_ms != def.short_timeout_ms ||
			conf->long_timeout_ms != def.long_timeout_ms ||
			conf->aggregate_wait_timeout_ms != def.aggregate_wait_timeout_ms ||
			conf->tx_period_ms != def.tx_period_ms)
		RTE_BOND_LOG(NOTICE, "mode 4 keeps the times of IEEE 802.1AX, whatever is set");
}

static void
bond_mode_8023ad_conf_assign(struct mode8023ad_private *mode4,
		struct rte_eth_bond_8023ad_conf *conf)
{
	uint64_t ms_ticks = rte_get_tsc_hz() / 1000;

	mode4->fast_periodic_timeout = conf->fast_periodic_ms * ms_ticks;
	mode4->slow_periodic_timeout = conf->slow_periodic_ms * ms_ticks;
	mode4->short_timeout = conf->short_timeout_ms * ms_ticks;
	mode4->long_timeout = conf->long_timeout_ms * ms_ticks;
	mode4->aggregate_wait_timeout = conf->aggregate_wait_timeout_ms * ms_ticks;
	mode4->tx_period_timeout = conf->tx_period_ms * ms_ticks;
	mode4->rx_marker_timeout = conf->rx_marker_period_ms * ms_ticks;
	mode4->update_timeout_us = conf->update_timeout_ms * 1000;

	mode4->dedicated_queues.enabled = 0;
	mode4->dedicated_queues.rx_qid = UINT16_MAX;
	mode4->dedicated_queues.tx_qid = UINT16_MAX;
}

int
bond_mode_8023ad_parse_lacp_rate_kvarg(const char *key __rte_unused,
		const char *value, void *fast)
{
	bool *it = fast;

	*it = value != NULL && strcmp(value, "fast") == 0;
	return *it || (value != NULL && strcmp(value, "slow") == 0) ? 0 : -1;
}

void
bond_mode_8023ad_setup(struct rte_eth_dev *dev,
		struct rte_eth_bond_8023ad_conf *conf)
{
	struct rte_eth_bond_8023ad_conf def_conf;
	struct bond_dev_private *internals = dev->data->dev_private;
	struct mode8023ad_private *mode4 = &internals->mode4;

	if (conf == NULL) {
		conf = &def_conf;
		bond_mode_8023ad_conf_get_default(conf);
	}
	warn_of_times(conf);

	bond_mode_8023ad_stop(dev);
	bond_mode_8023ad_conf_assign(mode4, conf);
	mode4->slowrx_cb = conf->slowrx_cb;
	mode4->agg_selection = AGG_STABLE;

	/* A new device, or one that is stopped: what another one of this number left. */
	if (!dev->data->dev_started) {
		struct lag_bond *bond = &lag_bonds[internals->port_id];

		pthread_mutex_lock(&lag_lock);
		lag_end_free(&bond->end);
		bond->count = 0;
		bond->carries = bond->shown = 0;
		bond->retry_at = 0;
		pthread_mutex_unlock(&lag_lock);
	}

	if (dev->data->dev_started)
		bond_mode_8023ad_start(dev);
}

int
bond_mode_8023ad_enable(struct rte_eth_dev *bond_dev)
{
	struct bond_dev_private *internals = bond_dev->data->dev_private;
	uint16_t i;

	for (i = 0; i < internals->active_slave_count; i++)
		bond_mode_8023ad_activate_slave(bond_dev,
				internals->active_slaves[i]);

	return 0;
}

int
bond_mode_8023ad_start(struct rte_eth_dev *bond_dev)
{
	struct bond_dev_private *internals = bond_dev->data->dev_private;
	struct mode8023ad_private *mode4 = &internals->mode4;
	static const uint64_t us = BOND_MODE_8023AX_UPDATE_TIMEOUT_MS * 1000;

	rte_eth_macaddr_get(internals->port_id, &mode4->mac_addr);
	if (mode4->slowrx_cb)
		return rte_eal_alarm_set(us, &bond_mode_8023ad_ext_periodic_cb,
					 bond_dev);

	return rte_eal_alarm_set(us, &bond_mode_8023ad_periodic_cb, bond_dev);
}

void
bond_mode_8023ad_stop(struct rte_eth_dev *bond_dev)
{
	struct bond_dev_private *internals = bond_dev->data->dev_private;
	struct mode8023ad_private *mode4 = &internals->mode4;

	if (mode4->slowrx_cb) {
		rte_eal_alarm_cancel(&bond_mode_8023ad_ext_periodic_cb,
				     bond_dev);
		return;
	}
	rte_eal_alarm_cancel(&bond_mode_8023ad_periodic_cb, bond_dev);
}

/* ---- From the data path ---- */

/* A marker, where an external machine takes the LACPDUs: answered at once, by the
 * same frame. Returns what to warn of, or 0.
 */
static uint8_t
ext_answer_marker(struct bond_dev_private *internals, uint16_t slave_id,
		struct rte_mbuf *pkt)
{
	struct mode8023ad_private *mode4 = &internals->mode4;
	struct port *port = &bond_mode_8023ad_ports[slave_id];
	struct marker_header *m_hdr = rte_pktmbuf_mtod(pkt, struct marker_header *);
	uint64_t marker_timer, old_marker_timer;
	uint16_t sent;
	int retval;

	if (m_hdr->marker.tlv_type_marker != MARKER_TLV_TYPE_INFO)
		return WRN_UNKNOWN_MARKER_TYPE;

	/* Setup marker timer. Do it in loop in case concurrent access. */
	do {
		old_marker_timer = port->rx_marker_timer;
		if (!timer_is_expired(&old_marker_timer))
			return WRN_RX_MARKER_TO_FAST;

		timer_set(&marker_timer, mode4->rx_marker_timeout);
		retval = rte_atomic64_cmpset(&port->rx_marker_timer,
			old_marker_timer, marker_timer);
	} while (unlikely(retval == 0));

	m_hdr->marker.tlv_type_marker = MARKER_TLV_TYPE_RESP;
	rte_eth_macaddr_get(slave_id, &m_hdr->eth_hdr.src_addr);

	if (internals->mode4.dedicated_queues.enabled == 0) {
		sent = rte_ring_enqueue(port->tx_ring, pkt) == 0;
	} else {
		/* Send packet directly to the slow queue */
		sent = rte_eth_tx_prepare(slave_id,
				internals->mode4.dedicated_queues.tx_qid, &pkt, 1);
		sent = rte_eth_tx_burst(slave_id,
				internals->mode4.dedicated_queues.tx_qid, &pkt, sent);
	}
	if (sent != 1) {
		/* reset timer */
		port->rx_marker_timer = 0;
		return WRN_TX_QUEUE_FULL;
	}
	return 0;
}

void
bond_mode_8023ad_handle_slow_pkt(struct bond_dev_private *internals,
				  uint16_t slave_id, struct rte_mbuf *pkt)
{
	struct port *port = &bond_mode_8023ad_ports[slave_id];
	uint8_t wrn = 0;

	if (!is_slow_frame(pkt)) {
		wrn = WRN_UNKNOWN_SLOW_TYPE;
	} else if (internals->mode4.slowrx_cb != NULL &&
			rte_pktmbuf_mtod(pkt, struct slow_protocol_frame *)->
				slow_protocol.subtype == SLOW_SUBTYPE_MARKER) {
		wrn = ext_answer_marker(internals, slave_id, pkt);
	} else if (rte_ring_enqueue(port->rx_ring, pkt) != 0) {
		/* If RX ring full free lacpdu message and drop packet */
		wrn = WRN_RX_QUEUE_FULL;
	}
	if (wrn) {
		set_warning_flags(port, wrn);
		rte_pktmbuf_free(pkt);
	}
}

/* ---- The public functions ---- */

int
rte_eth_bond_8023ad_conf_get(uint16_t port_id,
		struct rte_eth_bond_8023ad_conf *conf)
{
	struct rte_eth_dev *bond_dev;

	if (valid_bonded_port_id(port_id) != 0)
		return -EINVAL;

	if (conf == NULL)
		return -EINVAL;

	bond_dev = &rte_eth_devices[port_id];
	bond_mode_8023ad_conf_get(bond_dev, conf);
	return 0;
}

int
rte_eth_bond_8023ad_agg_selection_set(uint16_t port_id,
		enum rte_bond_8023ad_agg_selection agg_selection)
{
	struct rte_eth_dev *bond_dev;
	struct bond_dev_private *internals;
	struct mode8023ad_private *mode4;

	if (valid_bonded_port_id(port_id) != 0)
		return -EINVAL;

	bond_dev = &rte_eth_devices[port_id];
	internals = bond_dev->data->dev_private;

	if (internals->mode != 4)
		return -EINVAL;

	mode4 = &internals->mode4;
	if (agg_selection == AGG_COUNT || agg_selection == AGG_BANDWIDTH
			|| agg_selection == AGG_STABLE)
		mode4->agg_selection = agg_selection;
	return 0;
}

int rte_eth_bond_8023ad_agg_selection_get(uint16_t port_id)
{
	struct rte_eth_dev *bond_dev;
	struct bond_dev_private *internals;
	struct mode8023ad_private *mode4;

	if (valid_bonded_port_id(port_id) != 0)
		return -EINVAL;

	bond_dev = &rte_eth_devices[port_id];
	internals = bond_dev->data->dev_private;

	if (internals->mode != 4)
		return -EINVAL;
	mode4 = &internals->mode4;

	return mode4->agg_selection;
}

static int
bond_8023ad_setup_validate(uint16_t port_id,
		struct rte_eth_bond_8023ad_conf *conf)
{
	if (valid_bonded_port_id(port_id) != 0)
		return -EINVAL;

	if (conf != NULL) {
		/* Basic sanity check */
		if (conf->slow_periodic_ms == 0 ||
				conf->fast_periodic_ms >= conf->slow_periodic_ms ||
				conf->long_timeout_ms == 0 ||
				conf->short_timeout_ms >= conf->long_timeout_ms ||
				conf->aggregate_wait_timeout_ms == 0 ||
				conf->tx_period_ms == 0 ||
				conf->rx_marker_period_ms == 0 ||
				conf->update_timeout_ms == 0) {
			RTE_BOND_LOG(ERR, "given mode 4 configuration is invalid");
			return -EINVAL;
		}
	}

	return 0;
}

int
rte_eth_bond_8023ad_setup(uint16_t port_id,
		struct rte_eth_bond_8023ad_conf *conf)
{
	struct rte_eth_dev *bond_dev;
	int err;

	err = bond_8023ad_setup_validate(port_id, conf);
	if (err != 0)
		return err;

	bond_dev = &rte_eth_devices[port_id];
	bond_mode_8023ad_setup(bond_dev, conf);

	return 0;
}

int
rte_eth_bond_8023ad_slave_info(uint16_t port_id, uint16_t slave_id,
		struct rte_eth_bond_8023ad_slave_info *info)
{
	struct rte_eth_dev *bond_dev;
	struct bond_dev_private *internals;
	struct port *port;

	if (info == NULL || valid_bonded_port_id(port_id) != 0 ||
			rte_eth_bond_mode_get(port_id) != BONDING_MODE_8023AD)
		return -EINVAL;

	bond_dev = &rte_eth_devices[port_id];

	internals = bond_dev->data->dev_private;
	if (find_slave_by_id(internals->active_slaves,
			internals->active_slave_count, slave_id) ==
				internals->active_slave_count)
		return -EINVAL;

	pthread_mutex_lock(&lag_lock);
	port = &bond_mode_8023ad_ports[slave_id];
	info->selected = port->selected;

	/* What its partner is told; the data path may leave it out. */
	info->actor_state = internals->mode4.slowrx_cb != NULL ?
		port->actor_state : lag_members[slave_id].view.state;
	rte_memcpy(&info->actor, &port->actor, sizeof(port->actor));

	info->partner_state = port->partner_state;
	rte_memcpy(&info->partner, &port->partner, sizeof(port->partner));

	info->agg_port_id = port->aggregator_port_id;
	pthread_mutex_unlock(&lag_lock);
	return 0;
}

static int
bond_8023ad_ext_validate(uint16_t port_id, uint16_t slave_id)
{
	struct rte_eth_dev *bond_dev;
	struct bond_dev_private *internals;
	struct mode8023ad_private *mode4;

	if (rte_eth_bond_mode_get(port_id) != BONDING_MODE_8023AD)
		return -EINVAL;

	bond_dev = &rte_eth_devices[port_id];

	if (!bond_dev->data->dev_started)
		return -EINVAL;

	internals = bond_dev->data->dev_private;
	if (find_slave_by_id(internals->active_slaves,
			internals->active_slave_count, slave_id) ==
				internals->active_slave_count)
		return -EINVAL;

	mode4 = &internals->mode4;
	if (mode4->slowrx_cb == NULL)
		return -EINVAL;

	return 0;
}

int
rte_eth_bond_8023ad_ext_collect(uint16_t port_id, uint16_t slave_id,
				int enabled)
{
	struct port *port;
	int res;

	res = bond_8023ad_ext_validate(port_id, slave_id);
	if (res != 0)
		return res;

	port = &bond_mode_8023ad_ports[slave_id];

	if (enabled)
		ACTOR_STATE_SET(port, COLLECTING);
	else
		ACTOR_STATE_CLR(port, COLLECTING);

	return 0;
}

int
rte_eth_bond_8023ad_ext_distrib(uint16_t port_id, uint16_t slave_id,
				int enabled)
{
	struct port *port;
	int res;

	res = bond_8023ad_ext_validate(port_id, slave_id);
	if (res != 0)
		return res;

	port = &bond_mode_8023ad_ports[slave_id];

	if (enabled)
		ACTOR_STATE_SET(port, DISTRIBUTING);
	else
		ACTOR_STATE_CLR(port, DISTRIBUTING);

	return 0;
}

int
rte_eth_bond_8023ad_ext_distrib_get(uint16_t port_id, uint16_t slave_id)
{
	struct port *port;
	int err;

	err = bond_8023ad_ext_validate(port_id, slave_id);
	if (err != 0)
		return err;

	port = &bond_mode_8023ad_ports[slave_id];
	return ACTOR_STATE(port, DISTRIBUTING);
}

int
rte_eth_bond_8023ad_ext_collect_get(uint16_t port_id, uint16_t slave_id)
{
	struct port *port;
	int err;

	err = bond_8023ad_ext_validate(port_id, slave_id);
	if (err != 0)
		return err;

	port = &bond_mode_8023ad_ports[slave_id];
	return ACTOR_STATE(port, COLLECTING);
}

int
rte_eth_bond_8023ad_ext_slowtx(uint16_t port_id, uint16_t slave_id,
		struct rte_mbuf *lacp_pkt)
{
	struct port *port;
	int res;

	res = bond_8023ad_ext_validate(port_id, slave_id);
	if (res != 0)
		return res;

	port = &bond_mode_8023ad_ports[slave_id];

	if (rte_pktmbuf_pkt_len(lacp_pkt) < sizeof(struct lacpdu_header))
		return -EINVAL;

	struct lacpdu_header *lacp;

	/* only enqueue LACPDUs */
	lacp = rte_pktmbuf_mtod(lacp_pkt, struct lacpdu_header *);
	if (lacp->lacpdu.subtype != SLOW_SUBTYPE_LACP)
		return -EINVAL;

	return rte_ring_enqueue(port->tx_ring, lacp_pkt);
}

static void
bond_mode_8023ad_ext_periodic_cb(void *arg)
{
	struct rte_eth_dev *bond_dev = arg;
	struct bond_dev_private *internals = bond_dev->data->dev_private;
	struct mode8023ad_private *mode4 = &internals->mode4;
	struct port *port;
	void *pkt = NULL;
	uint16_t i, slave_id;

	for (i = 0; i < internals->active_slave_count; i++) {
		slave_id = internals->active_slaves[i];
		port = &bond_mode_8023ad_ports[slave_id];

		if (rte_ring_dequeue(port->rx_ring, &pkt) == 0) {
			struct rte_mbuf *lacp_pkt = pkt;
			struct lacpdu_header *lacp;

			lacp = rte_pktmbuf_mtod(lacp_pkt,
						struct lacpdu_header *);
			RTE_VERIFY(lacp->lacpdu.subtype == SLOW_SUBTYPE_LACP);

			/* This is LACP frame so pass it to rx callback.
			 * Callback is responsible for freeing mbuf.
			 */
			mode4->slowrx_cb(slave_id, lacp_pkt);
		}
	}

	rte_eal_alarm_set(internals->mode4.update_timeout_us,
			bond_mode_8023ad_ext_periodic_cb, arg);
}

int
rte_eth_bond_8023ad_dedicated_queues_enable(uint16_t port)
{
	int retval = 0;
	struct rte_eth_dev *dev;
	struct bond_dev_private *internals;

	if (valid_bonded_port_id(port) != 0)
		return -EINVAL;

	dev = &rte_eth_devices[port];
	internals = dev->data->dev_private;

	if (bond_8023ad_slow_pkt_hw_filter_supported(port) != 0)
		return -1;

	/* Device must be stopped to set up slow queue */
	if (dev->data->dev_started)
		return -1;

	internals->mode4.dedicated_queues.enabled = 1;

	bond_ethdev_mode_set(dev, internals->mode);
	return retval;
}

int
rte_eth_bond_8023ad_dedicated_queues_disable(uint16_t port)
{
	int retval = 0;
	struct rte_eth_dev *dev;
	struct bond_dev_private *internals;

	if (valid_bonded_port_id(port) != 0)
		return -EINVAL;

	dev = &rte_eth_devices[port];
	internals = dev->data->dev_private;

	/* Device must be stopped to set up slow queue */
	if (dev->data->dev_started)
		return -1;

	internals->mode4.dedicated_queues.enabled = 0;

	bond_ethdev_mode_set(dev, internals->mode);

	return retval;
}
