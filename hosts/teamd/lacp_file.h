/* The file by which a teamd goes on where the one before it was. */
#ifndef LACP_FILE_H
#define LACP_FILE_H

#include "lacp_team.h"

static void state_path(const struct lacp *lacp, char *path, size_t room)
{
	snprintf(path, room, TEAMD_RUN_DIR "%s.lacp", lacp->ctx->team_devname);
}

static uint64_t carrier_changes_of(const struct lacp_port *port)
{
	char path[64 + IFNAMSIZ];
	uint64_t changes = 0;
	FILE *file;

	snprintf(path, sizeof(path), "/sys/class/net/%s/carrier_changes", port->tdport->ifname);
	file = fopen(path, "re");
	if (!file)
		return 0;
	if (fscanf(file, "%" SCNu64, &changes) != 1)
		changes = 0;
	fclose(file);
	return changes;
}

/* What there is to tell of the ports. */
static void fill_state(struct lacp *lacp, struct lag_state *state)
{
	*state = (struct lag_state) { .ifindex = lacp->ctx->ifindex };
	snprintf(state->device, sizeof(state->device), "%s", lacp->ctx->team_devname);
	memcpy(state->mac, lacp->ctx->hwaddr, ETH_ALEN);
	if (lacp->end.system.live) {
		struct niw_marker next = niw_next_marker(&lacp->end.system);

		state->next_marker = next.left ? next.id : 1;
	}
	for_each_port(port, lacp) {
		struct lag_state_port *it = &state->ports[state->count];

		if (!port->number || state->count == NIW_MOST_PORTS)
			continue;
		*it = (struct lag_state_port) {
			.ifindex = port->tdport->ifindex, .number = port->number, .priority = port->cfg.prio, .key = port->cfg.key,
			.carrier_changes = port->carrier_changes, .carried = distributes(port) && !lacp->silent_at, .chosen = port->chosen,
			.aggregator = port->view.aggregator, .heard = port->heard,
		};
		snprintf(it->name, sizeof(it->name), "%s", port->tdport->ifname);
		memcpy(it->mac, port->mac, ETH_ALEN);
		state->count++;
	}
}

/* Writes the file, if it is older than what it tells. What is refused is tried again each second, and told once. */
static void write_state(struct lacp *lacp)
{
	struct lag_state state;
	char path[PATH_MAX];
	int err;

	if (!lacp->dirty)
		return;
	fill_state(lacp, &state);
	state_path(lacp, path, sizeof(path));
	err = lag_state_write(path, &state);
	if (err && !lacp->unsaved)
		teamd_log_warn("No state saved, so nothing is taken over from here: %s", strerror(-err));
	if (!err && lacp->unsaved)
		teamd_log_info("State saved again.");
	lacp->dirty = lacp->unsaved = err != 0;
}

/* Reads the file. One of another device tells nothing. */
static void read_state(struct lacp *lacp)
{
	char path[PATH_MAX];

	state_path(lacp, path, sizeof(path));
	if (!lag_state_read(path, &lacp->kept))
		return;
	if (strcmp(lacp->kept.device, lacp->ctx->team_devname) || lacp->kept.ifindex != lacp->ctx->ifindex)
		lacp->kept.count = 0;
	else
		lacp->end.next_marker = lacp->kept.next_marker;
}

static const struct lag_state_port *kept_of(struct lacp *lacp, const struct teamd_port *tdport)
{
	return lag_state_find(&lacp->kept, tdport->ifname, tdport->ifindex);
}

#endif
