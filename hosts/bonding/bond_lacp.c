// SPDX-License-Identifier: GPL-2.0-or-later
/*
 * LACP of the bonding driver over lag.h: the system of a bond, whose ports are its slaves.
 *
 * All of it runs as work of bond->wq, which runs one at a time: that of the bond (bond->ad_work)
 * and that of a slave that leaves. So the calls of the library have a kernel stack of their own,
 * may sleep, and want no lock.
 */

#include <linux/etherdevice.h>
#include <linux/netdevice.h>
#include <linux/rtnetlink.h>
#include <linux/slab.h>

#include "bond_lacp.h"

/* A bond whose work did not run for so many ms, as it was down, begins anew with all ports. */
#define LACP_STOOD_MS 2000
#define LACP_CHURN_TICKS 600

/* Puts a port at its place by number. The numbers of slaves rise, and wrap behind 65,535. */
static void lacp_place(struct lacp_bond *system, struct lacp_port *port, u16 number)
{
	u8 at = system->count;

	while (at && system->ports[at - 1]->number > number)
		at--;
	if (!number || (at && system->ports[at - 1]->number == number)) {
		/* the first one that is free */
		for (at = 0; at < system->count && system->ports[at]->number == at + 1; at++)
			;
		number = at + 1;
	}
	port->number = number;
	memmove(&system->ports[at + 1], &system->ports[at],
		(system->count - at) * sizeof(system->ports[0]));
	system->ports[at] = port;
	system->count++;
	system->stale = true;
}

static void lacp_new_port(struct lacp_bond *system, struct slave *slave)
{
	struct lacp_port *port;

	port = kzalloc(sizeof(*port), GFP_KERNEL);
	if (!port)
		return;
	spin_lock_init(&port->lock);
	port->slave = slave;
	port->system = system;
	lacp_place(system, port, SLAVE_AD_INFO(slave)->id);
	/* a frame that comes finds the whole of it */
	smp_store_release(&SLAVE_AD_INFO(slave)->lacp, port);
}

/* Gives each slave that has none a port. With RTNL no slave is half enslaved, and none leaves. */
static struct lacp_bond *lacp_adopt(struct bonding *bond, struct lacp_bond *system)
{
	struct list_head *iter;
	struct slave *slave;

	ASSERT_RTNL();
	if (!system) {
		system = kvzalloc(sizeof(*system), GFP_KERNEL);
		if (!system)
			return NULL;
		system->bond = bond;
	}
	bond_for_each_slave(bond, slave, iter)
		if (!SLAVE_AD_INFO(slave)->lacp && SLAVE_AD_INFO(slave)->port.slave == slave &&
		    system->count < NIW_MOST_PORTS)
			lacp_new_port(system, slave);
	if (!system->count) {
		kvfree(system);
		return NULL;
	}
	return system;
}

/* The system of a bond, or NULL. `waits`: a slave has no port yet, as RTNL is not free. */
struct lacp_bond *lacp_system_of(struct bonding *bond, bool *waits)
{
	struct lacp_bond *system = NULL;
	struct list_head *iter;
	struct slave *slave;
	bool lacks = false;

	rcu_read_lock();
	bond_for_each_slave_rcu(bond, slave, iter) {
		struct lacp_port *port = READ_ONCE(SLAVE_AD_INFO(slave)->lacp);

		if (port)
			system = port->system;
		else
			lacks |= READ_ONCE(SLAVE_AD_INFO(slave)->port.slave) == slave;
	}
	rcu_read_unlock();
	lacks &= !system || system->count < NIW_MOST_PORTS;
	*waits = lacks && !rtnl_trylock();
	if (lacks && !*waits) {
		system = lacp_adopt(bond, system);
		rtnl_unlock();
	}
	return system;
}

void lacp_read_views(struct lacp_bond *system)
{
	u8 i;

	lag_end_views(&system->end, system->views);
	for (i = 0; i < system->placed; i++) {
		const struct niw_view *view = lag_view_of(system->views, system->keys[i]->number);

		if (view)
			system->keys[i]->view = *view;
	}
}

/* Whether a port goes on in a system that is made anew. Another key is another group. */
static bool lacp_goes_on(struct lacp_bond *system, const struct lacp_port *port)
{
	return port->placed && !system->other && port->up && !port->view.defaulted &&
	       (port->view.state & NIW_STATE_DISTRIBUTING) &&
	       niw_party(&system->end.system, port->number).key == port->key;
}

/* Lists the ports for a system that is made anew. */
static void lacp_list(struct lacp_bond *system)
{
	const struct bond_params *params = &system->bond->params;
	u8 i;

	memset(&system->lists, 0, sizeof(system->lists));
	for (i = 0; i < system->count; i++) {
		struct lacp_port *port = system->ports[i];
		struct lag_port *it = &system->lists.ports[i];

		port->was_in = port->view.aggregator;
		port->carried = lacp_goes_on(system, port);
		it->port.number = port->number;
		it->port.priority = port->priority;
		it->port.key = port->key;
		it->port.aggregatable = lacp_aggregates(port->key);
		it->port.active = params->lacp_active;
		it->port.short_timeout = params->lacp_fast;
		ether_addr_copy(it->port.mac, port->slave->perm_hwaddr);
		it->up = port->up;
		it->carried = port->carried;
		it->aggregator = port->was_in;
		it->heard = &port->heard;
	}
}

/* What lag_end_resume does, with the lists of the system. */
static struct niw_made lacp_resume(struct lag_end *end, const struct niw_config *config,
				   struct lacp_lists *it, size_t count, size_t kept)
{
	struct niw_made made;
	size_t i, next = 0;

	for (i = 0; i < count; i++) {
		it->known[i] = it->ports[i].port;
		it->keys[i] = it->known[i].key;
		if (next < kept && it->saved[next].port == it->known[i].number) {
			lag_take_known_mode(&it->known[i], it->saved[next].frame);
			lag_ask(&it->saved[next++]);
		}
	}
	for (;;) {
		made = niw_resume(&end->system, config, it->keys, count, it->known, count,
				  it->saved, kept);
		if (made.status != NIW_STALE && made.status != NIW_NOT_DISTRIBUTING)
			return made;
		/* that port begins anew, and the others go on */
		for (i = 0; i < kept && it->saved[i].port != made.place; i++)
			;
		if (i == kept)
			return made;
		memmove(&it->saved[i], &it->saved[i + 1], (--kept - i) * sizeof(it->saved[0]));
	}
}

/* Lets the system that was made take the place of the one before. */
static void lacp_exchange(struct lacp_bond *system, struct lag_end *made, s64 now)
{
	u16 was_in = lacp_active_number(system);
	u8 i;

	niw_free(&system->end.system);
	system->end = *made;
	system->end.ticked = now;
	system->stale = false;
	system->other = false;
	system->placed = system->count;
	for (i = 0; i < system->count; i++) {
		struct lacp_port *port = system->ports[i];
		const struct lag_port *it = &system->lists.ports[i];

		system->keys[i] = port;
		port->placed = true;
		lag_end_set_mode(&system->end, port->number, it->port.active,
				 it->port.short_timeout, &port->heard);
		niw_set_link(&system->end.system, port->number, port->up);
	}
	lacp_read_views(system);
	/* the aggregator that carried may have the key of another port now */
	system->active = NULL;
	for (i = 0; was_in && i < system->count && !system->active; i++) {
		const struct lacp_port *port = system->ports[i];

		if (port->carried && port->was_in == was_in && port->view.aggregator)
			system->active = system->keys[port->view.aggregator - 1];
	}
	if (lag_end_use(&system->end, lacp_active_number(system)))
		lacp_read_views(system);
}

/* Nothing is there any more: all ports begin anew at a next turn. */
static void lacp_drop(struct lacp_bond *system)
{
	u8 i;

	lag_end_free(&system->end);
	system->placed = 0;
	system->active = NULL;
	for (i = 0; i < system->count; i++)
		system->ports[i]->placed = false;
}

/*
 * Makes the system anew of the ports that there are now; those that carried go on. Where memory is
 * refused that of before goes on, and it is tried again at the next turn. Returns whether it was
 * made.
 */
static bool lacp_remake(struct lacp_bond *system, s64 now)
{
	struct niw_config config = { .priority = system->priority,
				     .conversations = NIW_FEW_CONVERSATIONS };
	struct niw_marker next = { .left = false };
	struct lag_end end = { .system = NIW_EMPTY };
	struct niw_made made;
	size_t kept;

	if (!system->count)
		return false;
	lacp_list(system);
	ether_addr_copy(config.mac, system->mac);
	if (system->end.system.live)
		next = niw_next_marker(&system->end.system);
	config.first_marker = next.left ? next.id : 1;
	kept = lag_end_save(system->lists.ports, system->count, system->lists.saved, now);
	made = lacp_resume(&end, &config, &system->lists, system->count, kept);
	if (made.status != NIW_OK) {
		net_err_ratelimited("%s: LACP: no system is made: %s\n", system->bond->dev->name,
				    niw_status_text(made.status));
		return false;
	}
	lacp_exchange(system, &end, now);
	return true;
}

/* Gives the system what is new of the link of a port. */
static void lacp_settle_link(struct lacp_port *port, bool same_key)
{
	struct niw_system *handle = &port->system->end.system;
	bool up;

	if (READ_ONCE(port->fell)) {
		WRITE_ONCE(port->fell, false);
		if (port->placed && port->up)
			niw_set_link(handle, port->number, false);
		port->up = false;
	}
	up = lacp_is_up(port->slave);
	if (port->up == up)
		return;
	port->up = up;
	if (port->placed && same_key)
		niw_set_link(handle, port->number, up);
}

/* Gives the system what is new of a port. */
static void lacp_settle_port(struct lacp_port *port)
{
	const struct bond_params *params = &port->system->bond->params;
	struct lag_end *end = &port->system->end;
	struct niw_change change = {
		.key = lacp_key(port->slave, port->key),
		.priority = SLAVE_AD_INFO(port->slave)->port_priority,
	};

	lacp_settle_link(port, change.key == port->key);
	if (change.key != port->key) {
		port->system->stale = true;
	} else if (port->placed && change.priority != port->priority) {
		change.aggregatable = lacp_aggregates(change.key);
		niw_configure(&end->system, port->number, &change);
	}
	port->key = change.key;
	port->priority = change.priority;
	if (port->placed)
		lag_end_set_mode(end, port->number, params->lacp_active, params->lacp_fast,
				 &port->heard);
}

/* Has all that the driver knows of the slaves reach the system. */
static void lacp_settle(struct lacp_bond *system, s64 now)
{
	const struct ad_system *given = &BOND_AD_INFO(system->bond).system;
	u8 i;

	if (system->priority != given->sys_priority ||
	    !ether_addr_equal(system->mac, given->sys_mac_addr.mac_addr_value)) {
		system->other = true;
		system->priority = given->sys_priority;
		ether_addr_copy(system->mac, given->sys_mac_addr.mac_addr_value);
	}
	for (i = 0; i < system->count; i++)
		lacp_settle_port(system->ports[i]);
	if (!system->stale && !system->other && system->end.system.live)
		return;
	if (system->end.system.live)
		lacp_read_views(system);
	lacp_remake(system, now);
}

/* Lets the time pass that passed. A churn machine is at its end after LACP_CHURN_TICKS. */
static void lacp_pass(struct lacp_bond *system, s64 now)
{
	s64 was = system->end.ticked, ticks;
	u8 i;

	if (!system->end.system.live)
		return;
	lag_end_advance(&system->end, now);
	if (system->end.ticked == was)
		return;
	lacp_read_views(system);
	ticks = (system->end.ticked - was) / NIW_TICK_MILLISECONDS;
	for (ticks = min_t(s64, ticks, LACP_CHURN_TICKS); ticks > 0; ticks--)
		for (i = 0; i < system->placed; i++) {
			struct lacp_port *port = system->keys[i];

			niw_churn_tick(&port->churn, port->view.up, port->view.state,
				       port->view.partner_state);
		}
}

/* Wakes the ports that are on defaults and carry nothing. */
static void lacp_wake_ports(struct lacp_bond *system, s64 now)
{
	bool woken = false;
	u8 i;

	for (i = 0; i < system->placed; i++) {
		struct lacp_port *port = system->keys[i];
		bool idle = !bond_is_active_slave(port->slave);

		woken |= lag_end_wake(&system->end, &port->view, &port->wake, idle, now);
	}
	if (woken)
		lacp_read_views(system);
}

/*
 * One turn of the work of a bond; returns whether the list of the slaves that are sent on has to be
 * made anew.
 */
bool lacp_turn(struct lacp_bond *system)
{
	s64 now = lacp_now();
	bool changed;
	u8 i;

	/* bond_open has set it: what was known before is too old */
	if (atomic_xchg(&BOND_AD_INFO(system->bond).agg_select_timer, 0) == 1 &&
	    system->end.system.live && now - system->end.ticked > LACP_STOOD_MS)
		for (i = 0; i < system->count; i++)
			WRITE_ONCE(system->ports[i]->fell, true);
	lacp_pass(system, now);
	lacp_settle(system, now);
	lacp_take_all(system, now);
	lacp_read_views(system);
	lacp_choose(system);
	changed = lacp_show(system);
	lacp_wake_ports(system, now);
	return changed;
}

/* In how many jiffies the next tick is due. */
unsigned long lacp_until_next(const struct lacp_bond *system)
{
	s64 left = system->end.ticked + NIW_TICK_MILLISECONDS - lacp_now();

	if (!system->end.system.live)
		return msecs_to_jiffies(NIW_TICK_MILLISECONDS);
	return left > 0 ? msecs_to_jiffies(left) : 0;
}

/* Tells the partner of a port that it does not aggregate any more. */
static void lacp_say_farewell(struct lacp_port *port, s64 now)
{
	struct niw_change change = { .key = port->key, .priority = port->priority };

	lacp_pass(port->system, now);
	niw_configure(&port->system->end.system, port->number, &change);
	lacp_send_due(port, now);
}

/* Takes a port out, and the others go on; with the last one the system goes. */
void lacp_leave(struct lacp_port *port)
{
	struct lacp_bond *system = port->system;
	struct aggregator *agg = &SLAVE_AD_INFO(port->slave)->aggregator;
	s64 now = lacp_now();
	u8 i;

	if (port->placed && netif_running(port->slave->dev))
		lacp_say_farewell(port, now);
	lacp_read_views(system);
	for (i = 0; system->ports[i] != port; i++)
		;
	system->count--;
	memmove(&system->ports[i], &system->ports[i + 1],
		(system->count - i) * sizeof(system->ports[0]));
	system->stale = true;
	/* the system before has the port: it does not go on */
	if (!lacp_remake(system, now))
		lacp_drop(system);
	spin_lock_bh(&system->bond->mode_lock);
	RCU_INIT_POINTER(SLAVE_AD_INFO(port->slave)->port.aggregator, NULL);
	agg->is_active = 0;
	spin_unlock_bh(&system->bond->mode_lock);
	lacp_choose(system);
	lacp_show(system);
	if (netif_running(system->bond->dev))
		lacp_send_all(system);
	WRITE_ONCE(SLAVE_AD_INFO(port->slave)->lacp, NULL);
	kfree(port);
	if (!system->count)
		kvfree(system);
}
