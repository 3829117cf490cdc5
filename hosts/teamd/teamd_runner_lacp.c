/* The lacp runner of teamd over liblag: the protocol is a system of liblag, the rest (configuration, links, ports of the kernel, state) is teamd's.
 *
 * One struct lacp is one end. Ports come and go: then lag_end_remake makes its system anew, of as many aggregators as ports. Marker PDUs
 * are answered. What each port last heard stands in a file, TEAMD_RUN_DIR DEVICE.lacp, so that a teamd that takes the device over (-o),
 * after a crash or after a stop that left the ports in it, goes on where the one before it was, and its peers notice nothing. */
#include <errno.h>
#include <netinet/in.h>
#include <sys/ioctl.h>
#include <sys/socket.h>
#include <unistd.h>

#include <linux/ethtool.h>
#include <linux/if_packet.h>
#include <linux/sockios.h>

#include "lacp_config.h"
#include "lacp_file.h"
#include "lacp_groups.h"
#include "lacp_team.h"
#include "lacp_values.h"

#define TICK_NAME "lacp_tick"
#define SOCKET_NAME "lacp_socket"
#define TELLING_MS 1200	/* while the device goes down: how long the peers are told, before the links fall silent */
#define RETRY_MS 1000	/* until what was refused is tried again: a system, or a port by the kernel */

static const uint8_t slow_address[ETH_ALEN] = { 0x01, 0x80, 0xC2, 0x00, 0x00, 0x02 };

static bool is_up(const struct lacp_port *port)
{
	struct team_port *link = port->tdport->team_port;
	uint32_t speed = team_get_port_speed(link);
	uint8_t duplex = team_get_port_duplex(link);

	/* Some drivers tell neither speed nor duplex. */
	return team_is_port_link_up(link) && !duplex == !speed &&
	       (!port->watched || teamd_link_watch_port_up(port->ctx, port->tdport));
}

static int set_carrier(struct lacp *lacp, bool up)
{
	int err;

	if (lacp->carrier_up == up)
		return 0;
	err = team_carrier_set(lacp->ctx->th, up);
	if (err && err != -EOPNOTSUPP)
		return err; /* the next tick tries again */
	lacp->carrier_up = up;
	if (!err)
		teamd_log_info("carrier changed to %s", up ? "UP" : "DOWN");
	return 0;
}

/* Whether no link of the device speaks: it is down, and its peers were told. */
static bool is_silent(const struct lacp *lacp)
{
	return lacp->silent_at && lag_now() >= lacp->silent_at;
}

static void send_port(struct lacp_port *port)
{
	uint8_t frame[NIW_FRAME];

	while (lag_end_transmit(&port->lacp->end, port->number, &port->limit, frame, lag_now()).is)
		teamd_send(port->sock, frame, sizeof(frame), 0);
}

static void send_due(struct lacp *lacp)
{
	for_each_port(port, lacp)
		send_port(port);
}

/* The kernel tells of a port, and that it is in the device, one after the other: whether a port waits for that, or for the system that has it. */
static bool is_port_missing(struct lacp *lacp, bool *ready)
{
	unsigned int count = 0;

	*ready = false;
	for_each_port(port, lacp) {
		*ready |= !port->view.port && !lacp->full;
		count++;
	}
	return *ready || count < teamd_port_count(lacp->ctx);
}

/* Sleeps until something is due: of LACP, of the device that falls silent, of the file, or of the configuration of the ports. */
static void sleep_until_due(struct lacp *lacp)
{
	int64_t now = lag_now(), at = lacp->config_at + CONFIG_MS, due = INT64_MAX;
	bool ready;

	if (lacp->to_remake && lacp->try_at < at)
		at = lacp->try_at;
	if (lacp->silent_at > now && lacp->silent_at < at)
		at = lacp->silent_at;
	for_each_port(port, lacp)
		if (port->wake.at && port->wake.at < at)
			at = port->wake.at;
	if (lacp->end.system.live)
		due = lag_end_due(&lacp->end);
	if (due <= now) /* what was not sent is of a port that leaves */
		due = now + NIW_TICK_MILLISECONDS;
	if (due < at)
		at = due;
	if (((lacp->dirty && !lacp->unsaved) || is_port_missing(lacp, &ready)) && at > now + NIW_TICK_MILLISECONDS)
		at = now + NIW_TICK_MILLISECONDS;
	wake_at(lacp, at);
}

static void note_view(struct lacp_port *port, const struct niw_view *view, const char *before)
{
	struct niw_view was = port->view;
	bool had = port->selected, began;

	port->view = *view;
	if (state_name(port) != before)
		teamd_log_info("%s: Changed port state: \"%s\" -> \"%s\"", port->tdport->ifname, before, state_name(port));
	if (view->port_status == NIW_PORT_STATUS_OWN_SYSTEM && was.port_status != NIW_PORT_STATUS_OWN_SYSTEM)
		teamd_log_warn("%s: Port seems to be loopbacked to the same team device.", port->tdport->ifname);
	/* A partner that falls silent is one until the port runs on defaults. */
	port->selected = view->port_status != NIW_PORT_STATUS_OWN_SYSTEM &&
			 (view->receive_state == NIW_RECEIVE_CURRENT || (view->receive_state == NIW_RECEIVE_EXPIRED && had));
	began = (view->state ^ was.state) & NIW_STATE_DISTRIBUTING;
	if (port->selected != had || view->receive_state != was.receive_state || view->partner_key != was.partner_key ||
	    view->partner_priority != was.partner_priority || memcmp(view->partner_mac, was.partner_mac, ETH_ALEN) ||
	    view->partner_port != was.partner_port || view->partner_port_priority != was.partner_port_priority ||
	    ((view->partner_state ^ was.partner_state) & NIW_STATE_AGGREGATION) || (began && !port->lacp->cfg.hold_unselected))
		port->lacp->changed = true; /* with hold the ports begin and stop as they are chosen */
	port->lacp->dirty |= port->lacp->changed || began;
}

/* Holds the ports that are to leave their aggregators, and lets the others go. */
static void hold_ports(struct lacp *lacp)
{
	for_each_port(port, lacp) {
		bool it = lacp->silent_at || port->refused_until > lag_now() ||
			  (lacp->cfg.hold_unselected && port->selected && !port->chosen);

		if (it != port->held && niw_hold(&lacp->end.system, port->number, it) == NIW_OK)
			port->held = it;
	}
}

/* What each port is now; where memory for a system was refused it is disabled. One that goes on stays as it is until the system has it. Returns whether a port
 * was woken. */
static bool read_views(struct lacp *lacp)
{
	static const struct niw_view none;
	struct niw_view views[NIW_MOST_PORTS];
	bool woken = false;

	if (lacp->end.system.live)
		lag_end_views(&lacp->end, views);
	for_each_port(port, lacp) {
		const struct niw_view *view = lacp->end.system.live ? lag_view_of(views, port->number) : &none;
		const char *before = state_name(port);

		if (!view || port->resumes)
			continue;
		woken |= view->port && lag_end_wake(&lacp->end, view, &port->wake, !lacp->silent_at, lag_now());
		note_view(port, view, before);
	}
	return woken;
}

/* Has the library use the aggregator of the group that carries, and of the others none; returns whether that changed. */
static bool use_group(struct lacp *lacp)
{
	uint16_t aggregator = 0;

	if (!lacp->end.system.live)
		return false;
	for_each_port(port, lacp)
		if (port->chosen && !port->resumes && !aggregator)
			aggregator = port->view.aggregator;
	return lag_end_use(&lacp->end, aggregator);
}

static int set_address(struct teamd_context *ctx, struct teamd_port *tdport)
{
	int err = team_hwaddr_set(ctx->th, tdport->ifindex, ctx->hwaddr, ctx->hwaddr_len);

	if (err)
		teamd_log_err("%s: Failed to set hardware address. ", tdport->ifname);
	return err;
}

/* Has the driver pass frames on a port, or stops them there. */
static int set_enabled(struct lacp_port *port)
{
	struct teamd_context *ctx = port->ctx;
	bool it = port->resumes || may_carry(port), is;
	int err = 0;

	if (it && memcmp(team_get_ifinfo_hwaddr(port->tdport->team_ifinfo), ctx->hwaddr, ETH_ALEN))
		err = set_address(ctx, port->tdport);
	if (!err && (teamd_port_enabled_check(ctx, port->tdport, &is) || is != it))
		err = teamd_port_check_enable(ctx, port->tdport, it, !it);
	if (err && it) /* the peer is told that the port does not carry */
		port->refused_until = lag_now() + RETRY_MS;
	return err;
}

/* Takes over what the system shows now: which ports may carry, and the carrier of the team. What the kernel refuses is tried again. */
static int refresh(struct lacp *lacp)
{
	int carry = 0, failed = 0, err;

	if (read_views(lacp))
		read_views(lacp);
	choose(lacp);
	if (use_group(lacp)) {
		read_views(lacp);
		choose(lacp);
	}
	for_each_port(port, lacp) {
		err = set_enabled(port);
		if (!err)
			carry += port->resumes || may_carry(port);
		else if (!TEAMD_ENOENT(err))
			failed = err; /* the other ports, and the peers, do not wait for this one */
	}
	hold_ports(lacp);
	write_state(lacp);
	err = set_carrier(lacp, carry >= lacp->cfg.min_ports);
	send_due(lacp);
	sleep_until_due(lacp);
	return err ? err : failed;
}

static bool is_free(struct lacp *lacp, const struct lacp_port *port, uint32_t number)
{
	for_each_port(other, lacp)
		if (other != port && other->number == number)
			return false;
	return true;
}

/* Gives a port its number: that of its interface, if it is one of LACP and no other port's, else the highest that is free. */
static void give_number(struct lacp *lacp, struct lacp_port *port)
{
	uint32_t it = port->tdport->ifindex, next = UINT16_MAX;

	while (it > UINT16_MAX || !is_free(lacp, port, it))
		it = next--;
	if (it != port->tdport->ifindex)
		teamd_log_info("%s: LACP has port numbers up to 65535: it is port %" PRIu32 ".", port->tdport->ifname, it);
	port->number = (uint16_t) it;
}

/* Puts the ports into a list, but one; returns how many. Those that are in already stay in, when there are too many. */
static size_t list_ports(struct lacp *lacp, const struct lacp_port *but, struct lag_port *ports)
{
	size_t count = 0;

	lacp->full = false;
	for (int in = 1; in >= 0; in--)
		for_each_port(port, lacp) {
			if (port == but || port->listed || (port->number != 0) != in)
				continue;
			if (count == NIW_MOST_PORTS) {
				lacp->full = true;
				teamd_log_err("%s: left out: a team has %d ports at most with LACP.", port->tdport->ifname, NIW_MOST_PORTS);
				continue;
			}
			if (!in)
				give_number(lacp, port);
			port->listed = true;
			ports[count] = (struct lag_port) {
				.port = { .number = port->number, .priority = port->cfg.prio, .key = port->cfg.key, .aggregatable = true,
					  .active = lacp->cfg.active, .short_timeout = lacp->cfg.fast_rate },
				.up = is_up(port), .carried = port->resumes || distributes(port), .aggregator = port->view.aggregator,
				.heard = &port->heard, .owner = port,
			};
			memcpy(ports[count++].port.mac, port->mac, ETH_ALEN);
		}
	return count;
}

/* Makes the system anew, of the ports that are there, but one. */
static int remake(struct lacp *lacp, const struct lacp_port *but)
{
	struct lag_port ports[NIW_MOST_PORTS];
	struct niw_config config = { .priority = lacp->cfg.sys_prio, .conversations = NIW_ONE_CONVERSATION };
	bool silent = is_silent(lacp);
	size_t count = list_ports(lacp, but, ports);
	struct niw_made made;

	lacp->to_remake = false;
	lacp->changed = lacp->dirty = true;
	memcpy(config.mac, lacp->ctx->hwaddr, ETH_ALEN);
	for (size_t i = 0; i < count; i++)
		ports[i].up = ports[i].up && !silent;
	made = lag_end_remake(&lacp->end, &config, ports, count, lag_now());
	for (size_t i = 0; i < count; i++) {
		struct lacp_port *port = ports[i].owner;

		port->listed = port->held = false;
		if (!ports[i].carried || ports[i].begins)
			port->chosen = port->selected = false;
		if (port->resumes || ports[i].begins)
			teamd_log_info("%s: %s%s", port->tdport->ifname, ports[i].begins ? "negotiates anew: " : "taken over.",
				       ports[i].begins ? lag_why_text(ports[i].why) : "");
		port->resumes = false;
	}
	if (made.status != NIW_OK) {
		teamd_log_err("No LACP: %s", niw_status_text(made.status));
		lacp->to_remake = true;
		lacp->try_at = lag_now() + RETRY_MS;
	}
	return refresh(lacp);
}

/* The next tick makes the system anew, with what else comes until then. */
static void remake_soon(struct lacp *lacp)
{
	if (lacp->to_remake)
		return;
	lacp->to_remake = true;
	lacp->try_at = lag_now() + NIW_TICK_MILLISECONDS;
	sleep_until_due(lacp);
}

static void advance(struct lacp *lacp)
{
	lag_end_advance(&lacp->end, lag_now());
}

static void set_links(struct lacp *lacp)
{
	bool silent = is_silent(lacp);

	for_each_port(port, lacp) {
		bool up = !silent && is_up(port);

		if (!port->number || !lacp->end.system.live || niw_is_up(&lacp->end.system, port->number).is == up)
			continue;
		niw_set_link(&lacp->end.system, port->number, up);
		lacp->changed = lacp->dirty = true;
		if (!up)
			port->heard.is = false;
	}
}

static int tick(struct teamd_context *ctx, int events, void *priv)
{
	struct lacp *lacp = priv;
	uint64_t times;
	bool ready;

	if (read(lacp->clock, &times, sizeof(times)) < 0 && errno != EAGAIN && errno != EINTR)
		return -errno;
	advance(lacp);
	read_ports_again(lacp);
	is_port_missing(lacp, &ready);
	if ((lacp->to_remake || ready) && lag_now() >= lacp->try_at)
		return remake(lacp, NULL);
	if (lacp->silent_at)
		set_links(lacp);
	return refresh(lacp);
}

static int receive(struct teamd_context *ctx, int events, void *priv)
{
	struct lacp_port *port = priv;
	struct lacp *lacp = port->lacp;
	uint8_t frame[ETH_FRAME_LEN], response[NIW_FRAME];
	struct sockaddr_ll from;
	struct niw_received got;
	int length;

	length = teamd_recvfrom(port->sock, frame, sizeof(frame), 0, (struct sockaddr *) &from, sizeof(from));
	if (length <= 0)
		return length;
	/* One that has the tag of a VLAN is of another host (PACKET_OTHERHOST). */
	if (!teamd_port_present(ctx, port->tdport) || !lacp->end.system.live || !port->number || length < ETH_HLEN ||
	    from.sll_pkttype != PACKET_MULTICAST || memcmp(frame, slow_address, ETH_ALEN))
		return 0;
	advance(lacp);
	got = niw_receive(&lacp->end.system, port->number, frame, (size_t) length, response, sizeof(response));
	if (got.status != NIW_OK)
		return 0;
	if (got.what == NIW_RECEIVED_RESPOND && lag_may_respond(&port->limit, lag_now()))
		teamd_send(port->sock, response, got.number, 0);
	if (got.what == NIW_RECEIVED_TOOK_LACPDU) {
		lacp->dirty = true;
		/* Nothing is sent before the driver has what it says. */
		if (lag_hear(&port->heard, frame, lag_now()) || niw_due(&lacp->end.system).number)
			return refresh(lacp);
		sleep_until_due(lacp); /* without news the next tick sees to the rest */
	}
	return 0;
}

/* Has the interface take what is sent to the slow protocols, while the socket is open. */
static int join_slow(const struct lacp_port *port)
{
	struct packet_mreq group = { .mr_ifindex = (int) port->tdport->ifindex, .mr_type = PACKET_MR_MULTICAST, .mr_alen = ETH_ALEN };
	int err;

	memcpy(group.mr_address, slow_address, ETH_ALEN);
	if (!setsockopt(port->sock, SOL_PACKET, PACKET_ADD_MEMBERSHIP, &group, sizeof(group)))
		return 0;
	err = -errno;
	teamd_log_err("%s: no membership of the slow protocols: %s", port->tdport->ifname, strerror(-err));
	return err;
}

/* The source address of a port: as it was before the port was in a team, if teamd saw it so, or as the file has it, or the permanent one. */
static void find_mac(struct lacp_port *port)
{
	union { struct ethtool_perm_addr head; uint8_t octets[sizeof(struct ethtool_perm_addr) + ETH_ALEN]; } permanent = {
		.head = { .cmd = ETHTOOL_GPERMADDR, .size = ETH_ALEN },
	};
	struct team_ifinfo *ifinfo = port->tdport->team_ifinfo;
	const struct lag_state_port *kept = kept_of(port->lacp, port->tdport);
	static const uint8_t none[ETH_ALEN];
	struct ifreq ifr;

	if (team_get_ifinfo_orig_hwaddr_len(ifinfo) == ETH_ALEN && memcmp(team_get_ifinfo_orig_hwaddr(ifinfo), none, ETH_ALEN)) {
		memcpy(port->mac, team_get_ifinfo_orig_hwaddr(ifinfo), ETH_ALEN);
		return;
	}
	if (kept) {
		memcpy(port->mac, kept->mac, ETH_ALEN);
		return;
	}
	memset(&ifr, 0, sizeof(ifr));
	strncpy(ifr.ifr_name, port->tdport->ifname, sizeof(ifr.ifr_name) - 1);
	ifr.ifr_data = (void *) &permanent;
	if (!ioctl(port->sock, SIOCETHTOOL, &ifr) && permanent.head.size == ETH_ALEN && memcmp(permanent.head.data, none, ETH_ALEN)) {
		memcpy(port->mac, permanent.head.data, ETH_ALEN);
		return;
	}
	/* That of the team, which every port has now: two ports may send from one address. */
	memcpy(port->mac, port->ctx->hwaddr, ETH_ALEN);
}

/* A port that was in the device before teamd started keeps its number, and goes on if it distributed for the teamd before. */
static void find_state(struct lacp_port *port)
{
	const struct lag_state_port *kept = kept_of(port->lacp, port->tdport);

	port->carrier_changes = carrier_changes_of(port);
	if (!port->ctx->pre_add_ports || !kept || !is_free(port->lacp, port, kept->number))
		return;
	port->number = kept->number;
	if (!kept->carried || kept->carrier_changes != port->carrier_changes)
		return;
	port->heard = kept->heard;
	port->resumes = true;
	port->view.aggregator = kept->aggregator;
	port->chosen = kept->chosen;
}

static int port_init(struct teamd_context *ctx, struct teamd_port *tdport, void *priv, void *creator)
{
	struct lacp_port *port = priv;
	int err;

	port->ctx = ctx;
	port->tdport = tdport;
	port->lacp = creator;
	if ((err = load_port_config(ctx, port)) ||
	    (err = teamd_packet_sock_open_type(SOCK_RAW, &port->sock, tdport->ifindex, htons(ETH_P_SLOW), NULL, NULL)))
		goto none;
	if ((err = join_slow(port)) ||
	    (err = teamd_loop_callback_fd_add(ctx, SOCKET_NAME, port, receive, port->sock, TEAMD_LOOP_FD_EVENT_READ)))
		goto close_sock;
	find_mac(port);
	find_state(port);
	if (!port->resumes) {
		err = team_set_port_enabled(ctx->th, tdport->ifindex, false);
		if (err && !TEAMD_ENOENT(err))
			goto callback_del;
	}
	if ((err = set_address(ctx, tdport)))
		goto callback_del;
	teamd_loop_callback_enable(ctx, SOCKET_NAME, port);
	remake_soon(port->lacp);
	return 0;

callback_del:
	teamd_loop_callback_del(ctx, SOCKET_NAME, port);
close_sock:
	close(port->sock);
none:
	port->tdport = NULL;
	return err;
}

/* Whether the interface is in the device, as the kernel has it now. */
static bool is_in_device(const struct lacp_port *port)
{
	char path[64 + IFNAMSIZ], master[PATH_MAX];
	const char *name;
	ssize_t length;

	snprintf(path, sizeof(path), "/sys/class/net/%s/master", port->tdport->ifname);
	length = readlink(path, master, sizeof(master) - 1);
	if (length < 0)
		return false;
	master[length] = 0;
	name = strrchr(master, '/');
	return name && !strcmp(name + 1, port->ctx->team_devname);
}

/* teamd ends and leaves the port in the device: a last LACPDU, from which the time of the peer counts. It is due where the peer seems to have another
 * timeout of this end, and nothing else follows from that. None is sent without a partner, nor where three went out just now. */
static void send_last(struct lacp_port *port)
{
	struct niw_system *system = &port->lacp->end.system;
	uint8_t frame[NIW_FRAME], response[NIW_FRAME];

	if (!port->heard.is || niw_receive_state(system, port->number).number != NIW_RECEIVE_CURRENT)
		return;
	memcpy(frame, port->heard.frame, NIW_FRAME);
	frame[LAG_PARTNER_STATE] ^= NIW_STATE_TIMEOUT;
	niw_receive(system, port->number, frame, sizeof(frame), response, sizeof(response));
	send_port(port);
}

static void port_fini(struct teamd_context *ctx, struct teamd_port *tdport, void *priv, void *creator)
{
	struct lacp_port *port = priv;
	struct lacp *lacp = creator;

	if (!port->tdport)
		return;
	if (ctx->no_quit_destroy && !lacp->stays && is_in_device(port)) {
		/* teamd ends and leaves the ports as they are, which the next one takes over. */
		lacp->stays = true;
		teamd_loop_callback_disable(ctx, TICK_NAME, lacp);
	}
	advance(lacp);
	if (lacp->stays)
		send_last(port);
	else if (niw_hold(&lacp->end.system, port->number, true) == NIW_OK) /* the peer is told that the link leaves */
		send_port(port);
	if (lacp->carries == port)
		lacp->carries = NULL;
	if (!lacp->stays)
		remake(lacp, port);
	teamd_loop_callback_del(ctx, SOCKET_NAME, port);
	close(port->sock);
	port->tdport = NULL;
}

static const struct teamd_port_priv port_priv = {
	.init = port_init,
	.fini = port_fini,
	.priv_size = sizeof(struct lacp_port),
};

/* Where one of these answers an error, teamd forgets what else the kernel told with it, and a port that left stays in its list. What was refused here the
 * next tick tries again. */
static void links_changed(struct lacp *lacp)
{
	if (lacp->to_remake || !lacp->end.system.live)
		return;
	advance(lacp);
	set_links(lacp);
	refresh(lacp);
}

static int watch_hwaddr(struct teamd_context *ctx, void *priv)
{
	struct teamd_port *tdport;

	teamd_for_each_tdport(tdport, ctx)
		set_address(ctx, tdport);
	remake_soon(priv);
	return 0;
}

static int watch_port_hwaddr(struct teamd_context *ctx, struct teamd_port *tdport, void *priv)
{
	if (teamd_port_present(ctx, tdport) && memcmp(team_get_ifinfo_hwaddr(tdport->team_ifinfo), ctx->hwaddr, ctx->hwaddr_len))
		set_address(ctx, tdport);
	return 0;
}

/* A device that goes down tells its peers first, and falls silent then. */
static int watch_admin_state(struct teamd_context *ctx, void *priv)
{
	struct lacp *lacp = priv;

	if (team_get_ifinfo_admin_state(ctx->ifinfo))
		lacp->silent_at = 0;
	else if (!lacp->silent_at)
		lacp->silent_at = lag_now() + TELLING_MS;
	links_changed(lacp);
	return 0;
}

static int watch_port_added(struct teamd_context *ctx, struct teamd_port *tdport, void *priv)
{
	struct lacp *lacp = priv;
	int err = teamd_port_priv_create(tdport, &port_priv, lacp);

	return err ? err : teamd_balancer_port_added(lacp->tb, tdport);
}

static void watch_port_removed(struct teamd_context *ctx, struct teamd_port *tdport, void *priv)
{
	struct lacp *lacp = priv;

	teamd_balancer_port_removed(lacp->tb, tdport);
}

static int watch_port_changed(struct teamd_context *ctx, struct teamd_port *tdport, void *priv)
{
	struct lacp_port *port = port_of(priv, tdport);
	struct lacp *lacp = priv;

	if (!port)
		return 0;
	port->carrier_changes = carrier_changes_of(port);
	lacp->changed = lacp->dirty = true;
	links_changed(lacp);
	return 0;
}

static const struct teamd_event_watch_ops watch = {
	.hwaddr_changed = watch_hwaddr,
	.port_hwaddr_changed = watch_port_hwaddr,
	.port_added = watch_port_added,
	.port_removed = watch_port_removed,
	.port_changed = watch_port_changed,
	.port_link_changed = watch_port_changed,
	.admin_state_changed = watch_admin_state,
};

/* Takes over what the teamd before left, and lets the carrier of a device that goes on be: the first tick tells whether it does. */
static int take_over(struct lacp *lacp)
{
	bool goes_on = false, up;
	int err;

	if (lacp->ctx->take_over)
		read_state(lacp);
	for (size_t i = 0; i < lacp->kept.count; i++) {
		/* Before link watches name each port that is in the device. */
		lacp->named[i] = teamd_config_path_exists(lacp->ctx, "$.ports.%s", lacp->kept.ports[i].name);
		goes_on |= lacp->kept.ports[i].carried && lacp->kept.ports[i].chosen;
	}
	lacp->carrier_up = goes_on && !team_carrier_get(lacp->ctx->th, &up) && up;
	if (!team_get_ifinfo_admin_state(lacp->ctx->ifinfo))
		lacp->silent_at = lag_now();
	err = lacp->carrier_up ? 0 : team_carrier_set(lacp->ctx->th, false);
	return err == -EOPNOTSUPP ? 0 : err;
}

static int start_clock(struct lacp *lacp)
{
	int err;

	lacp->clock = timerfd_create(CLOCK_MONOTONIC, TFD_NONBLOCK | TFD_CLOEXEC);
	if (lacp->clock < 0)
		return -errno;
	err = teamd_loop_callback_fd_add(lacp->ctx, TICK_NAME, lacp, tick, lacp->clock, TEAMD_LOOP_FD_EVENT_READ);
	if (err) {
		close(lacp->clock);
		return err;
	}
	teamd_loop_callback_enable(lacp->ctx, TICK_NAME, lacp);
	lacp->config_at = lag_now(); /* the first tick takes the ports over, and does not only look */
	sleep_until_due(lacp);
	return 0;
}

static int lacp_init(struct teamd_context *ctx, void *priv)
{
	struct lacp *lacp = priv;
	int err;

	if (ctx->hwaddr_len != ETH_ALEN) {
		teamd_log_err("Unsupported device type.");
		return -EINVAL;
	}
	teamd_log_info("LACP by liblag (%s).", lag_library());
	lacp->ctx = ctx;
	if ((err = teamd_hash_func_set(ctx)) || (err = load_config(ctx, lacp)) || (err = take_over(lacp)) ||
	    (err = teamd_event_watch_register(ctx, &watch, lacp)))
		return err;
	if ((err = teamd_balancer_init(ctx, &lacp->tb)))
		goto watch_unregister;
	if ((err = teamd_state_val_register(ctx, &values, lacp)))
		goto balancer_fini;
	if ((err = start_clock(lacp)))
		goto values_unregister;
	return 0;

values_unregister:
	teamd_state_val_unregister(ctx, &values, lacp);
balancer_fini:
	teamd_balancer_fini(lacp->tb);
watch_unregister:
	teamd_event_watch_unregister(ctx, &watch, lacp);
	return err;
}

static void lacp_fini(struct teamd_context *ctx, void *priv)
{
	struct lacp *lacp = priv;
	char path[PATH_MAX];

	teamd_loop_callback_del(ctx, TICK_NAME, lacp);
	close(lacp->clock);
	teamd_state_val_unregister(ctx, &values, lacp);
	teamd_balancer_fini(lacp->tb);
	teamd_event_watch_unregister(ctx, &watch, lacp);
	lag_end_free(&lacp->end);
	if (lacp->stays)
		return;
	state_path(lacp, path, sizeof(path));
	unlink(path);
	set_carrier(lacp, false);
}

const struct teamd_runner teamd_runner_lacp = {
	.name = "lacp",
	.team_mode_name = "loadbalance",
	.priv_size = sizeof(struct lacp),
	.init = lacp_init,
	.fini = lacp_fini,
};
