// SPDX-License-Identifier: GPL-2.0-or-later
/* LACP of the bonding driver over lag.h: frames of the slow protocols, and the memory of lag.c. */

#include <linux/etherdevice.h>
#include <linux/log2.h>
#include <linux/netdevice.h>
#include <linux/pkt_sched.h>
#include <linux/skbuff.h>
#include <linux/slab.h>

#include "bond_lacp.h"

#define LACP_GFP (GFP_KERNEL | __GFP_NOWARN)

/* Blocks of a power of two are aligned to their size. */
static size_t lacp_block(size_t size)
{
	return roundup_pow_of_two(max_t(size_t, size, 16));
}

void *niw_host_malloc(size_t size)
{
	return size > KMALLOC_MAX_SIZE / 2 ? NULL : kmalloc(lacp_block(size), LACP_GFP);
}

void *niw_host_realloc(void *at, size_t size)
{
	return size > KMALLOC_MAX_SIZE / 2 ? NULL : krealloc(at, lacp_block(size), LACP_GFP);
}

void niw_host_free(void *at)
{
	kfree(at);
}

#define LACP_COUNT(name) offsetof(struct bond_3ad_stats, name)

/* Counts a frame, by LACP_COUNT, of a slave and of its bond. */
static void lacp_count(struct slave *slave, size_t which)
{
	atomic64_inc((void *)&SLAVE_AD_INFO(slave)->stats + which);
	atomic64_inc((void *)&BOND_AD_INFO(slave->bond).stats + which);
}

static void lacp_count_sent(struct slave *slave, const u8 *frame)
{
	if (frame[ETH_HLEN] == AD_TYPE_LACPDU)
		lacp_count(slave, LACP_COUNT(lacpdu_tx));
	else if (frame[ETH_HLEN + 2] == AD_MARKER_RESPONSE_SUBTYPE)
		lacp_count(slave, LACP_COUNT(marker_resp_tx));
	else
		lacp_count(slave, LACP_COUNT(marker_tx));
}

static void lacp_send(struct slave *slave, const u8 *frame, unsigned int length)
{
	struct sk_buff *skb = dev_alloc_skb(length + NET_IP_ALIGN);

	if (!skb)
		return;
	skb_reserve(skb, NET_IP_ALIGN);
	skb->dev = slave->dev;
	skb_reset_mac_header(skb);
	skb->network_header = skb->mac_header + ETH_HLEN;
	skb->protocol = PKT_TYPE_LACPDU;
	skb->priority = TC_PRIO_CONTROL;
	skb_put_data(skb, frame, length);
	lacp_count_sent(slave, frame);
	dev_queue_xmit(skb);
}

/* Sends what is due on a port. */
void lacp_send_due(struct lacp_port *port, s64 now)
{
	struct lag_end *end = &port->system->end;
	u8 frame[NIW_FRAME];

	while (port->placed && lag_end_transmit(end, port->number, &port->limit, frame, now).is)
		lacp_send(port->slave, frame, sizeof(frame));
}

void lacp_send_all(struct lacp_bond *system)
{
	s64 now = lacp_now();
	u8 i;

	for (i = 0; i < system->placed; i++)
		lacp_send_due(system->keys[i], now);
}

static void lacp_take(struct lacp_port *port, const struct lacp_frame *frame, s64 now)
{
	u8 response[NIW_FRAME];
	struct niw_received it = niw_receive(&port->system->end.system, port->number, frame->octets,
					     frame->length, response, sizeof(response));

	switch (it.what) {
	case NIW_RECEIVED_TOOK_LACPDU:
		lacp_count(port->slave, LACP_COUNT(lacpdu_rx));
		lag_hear(&port->heard, frame->octets, now);
		break;
	case NIW_RECEIVED_RESPOND:
		lacp_count(port->slave, LACP_COUNT(marker_rx));
		if (lag_may_respond(&port->limit, now))
			lacp_send(port->slave, response, it.number);
		break;
	case NIW_RECEIVED_RELEASED:
		lacp_count(port->slave, LACP_COUNT(marker_resp_rx));
		break;
	case NIW_RECEIVED_IGNORED:
		if (it.number == NIW_FAULT_MARKER_TLV)
			lacp_count(port->slave, LACP_COUNT(marker_unknown_rx));
		else
			lacp_count(port->slave, LACP_COUNT(lacpdu_illegal_rx));
		break;
	}
}

/* Takes the frames out that wait on a port; one for which the system has no port is dropped. */
static void lacp_take_waiting(struct lacp_port *port, s64 now)
{
	struct lacp_frame frame;
	bool is;

	do {
		spin_lock_bh(&port->lock);
		is = port->waiting;
		if (is) {
			frame = port->frames[port->first];
			port->first = (port->first + 1) % LACP_WAITING;
			port->waiting--;
		}
		spin_unlock_bh(&port->lock);
		if (is && port->placed)
			lacp_take(port, &frame, now);
	} while (is);
}

void lacp_take_all(struct lacp_bond *system, s64 now)
{
	u8 i;

	for (i = 0; i < system->count; i++)
		lacp_take_waiting(system->ports[i], now);
}

/*
 * Keeps a frame that came for the next turn, in softirq. One for which there is no room is dropped,
 * and a partner sends again. Markers leave half of the room to LACPDUs.
 */
void lacp_keep(struct lacp_port *port, const struct sk_buff *skb, u8 subtype)
{
	unsigned int kept = min_t(unsigned int, skb->len, LACP_KEPT - ETH_HLEN);
	unsigned int room = subtype == AD_TYPE_LACPDU ? LACP_WAITING : LACP_WAITING / 2;

	spin_lock(&port->lock);
	if (port->waiting < room) {
		u16 at = (port->first + port->waiting) % LACP_WAITING;
		struct lacp_frame *frame = &port->frames[at];

		memcpy(frame->octets, eth_hdr(skb), ETH_HLEN);
		frame->length = ETH_HLEN + kept;
		if (!skb_copy_bits(skb, 0, frame->octets + ETH_HLEN, kept))
			port->waiting++;
	}
	spin_unlock(&port->lock);
}
