/* What teamd.conf(5) has for lacp, and what changes of it while teamd runs. */
#ifndef LACP_CONFIG_H
#define LACP_CONFIG_H

#include "lacp_file.h"

#define PRIO 255	/* of a port, where its configuration tells none */
#define CONFIG_MS 1000	/* how often the configuration of the ports is read again */

static int number_of(struct teamd_context *ctx, uint16_t *value, uint16_t other, int least, int most, const char *path, const char *name)
{
	int it, err = name ? teamd_config_int_get(ctx, &it, path, name) : teamd_config_int_get(ctx, &it, path);

	if (err)
		it = other;
	else if (it < least || it > most) {
		teamd_log_err("\"%s\" value is out of its limits.", path);
		return -EINVAL;
	}
	*value = (uint16_t) it;
	return 0;
}

/* A link watch is obeyed that waits after the link came up. Those that ping can't pass before LACP has taken the link into use. */
static bool is_watched(struct teamd_context *ctx, const char *port)
{
	const char *name;
	int delay;

	/* Of a port that was in the device teamd 1.31 often has a watch that tells no link until it comes up again. */
	if (ctx->pre_add_ports)
		return false;
	if (!teamd_config_string_get(ctx, &name, "$.ports.%s.link_watch.name", port))
		return !strcmp(name, "ethtool") && !teamd_config_int_get(ctx, &delay, "$.ports.%s.link_watch.delay_up", port) && delay > 0;
	return !teamd_config_string_get(ctx, &name, "$.link_watch.name") && !strcmp(name, "ethtool") &&
	       !teamd_config_int_get(ctx, &delay, "$.link_watch.delay_up") && delay > 0;
}

/* The configuration of a port changed while it is in, as by `teamdctl port config update`: what the peer sees of it changes, too. */
static void read_ports_again(struct lacp *lacp)
{
	if (lag_now() - lacp->config_at < CONFIG_MS)
		return;
	lacp->config_at = lag_now();
	for_each_port(port, lacp) {
		int prio, key;

		if (teamd_config_int_get(lacp->ctx, &prio, "$.ports.%s.lacp_prio", port->tdport->ifname))
			prio = PRIO;
		if (teamd_config_int_get(lacp->ctx, &key, "$.ports.%s.lacp_key", port->tdport->ifname))
			key = 0;
		if (prio < 0 || prio > USHRT_MAX || key < 0 || key > USHRT_MAX)
			continue;
		if (prio != port->cfg.prio || key != port->cfg.key)
			lacp->to_remake = true;
		port->cfg.prio = (uint16_t) prio;
		port->cfg.key = (uint16_t) key;
	}
}

/* Who configures each port by teamdctl as it is added says nothing of those that are in: NetworkManager, which starts teamd with -n, and others, whose
 * configuration names no such port. What the teamd before had of the port becomes its configuration, which `port config update` replaces. */
static int keep_port_config(struct teamd_context *ctx, struct lacp *lacp, const struct teamd_port *tdport)
{
	const struct lag_state_port *kept = kept_of(lacp, tdport);
	int err = 0;

	if (!ctx->pre_add_ports || !kept || (!ctx->init_no_ports && lacp->named[kept - lacp->kept.ports]))
		return 0;
	if (kept->priority != PRIO && !teamd_config_path_exists(ctx, "$.ports.%s.lacp_prio", tdport->ifname))
		err = teamd_config_int_set(ctx, kept->priority, "$.ports.%s.lacp_prio", tdport->ifname);
	if (!err && kept->key && !teamd_config_path_exists(ctx, "$.ports.%s.lacp_key", tdport->ifname))
		err = teamd_config_int_set(ctx, kept->key, "$.ports.%s.lacp_key", tdport->ifname);
	return err;
}

static int load_port_config(struct teamd_context *ctx, struct lacp_port *port)
{
	const char *name = port->tdport->ifname;
	int err;

	if ((err = keep_port_config(ctx, port->lacp, port->tdport)) ||
	    (err = number_of(ctx, &port->cfg.prio, PRIO, 0, USHRT_MAX, "$.ports.%s.lacp_prio", name)) ||
	    (err = number_of(ctx, &port->cfg.key, 0, 0, USHRT_MAX, "$.ports.%s.lacp_key", name)))
		return err;
	if (teamd_config_bool_get(ctx, &port->cfg.sticky, "$.ports.%s.sticky", name))
		port->cfg.sticky = false;
	port->watched = is_watched(ctx, name);
	return 0;
}

static int load_config(struct teamd_context *ctx, struct lacp *lacp)
{
	const char *policy;
	int err;

	if (teamd_config_bool_get(ctx, &lacp->cfg.active, "$.runner.active"))
		lacp->cfg.active = true;
	if (teamd_config_bool_get(ctx, &lacp->cfg.fast_rate, "$.runner.fast_rate"))
		lacp->cfg.fast_rate = false;
	if (teamd_config_bool_get(ctx, &lacp->cfg.hold_unselected, "$.runner.hold_unselected"))
		lacp->cfg.hold_unselected = false;
	if ((err = number_of(ctx, &lacp->cfg.sys_prio, USHRT_MAX, 0, USHRT_MAX, "$.runner.sys_prio", NULL)) ||
	    (err = number_of(ctx, &lacp->cfg.min_ports, 1, 1, UCHAR_MAX, "$.runner.min_ports", NULL)))
		return err;
	if (teamd_config_string_get(ctx, &policy, "$.runner.agg_select_policy"))
		policy = policies[LACP_PRIO];
	for (lacp->cfg.policy = 0; lacp->cfg.policy < ARRAY_SIZE(policies); lacp->cfg.policy++)
		if (!strcmp(policies[lacp->cfg.policy], policy))
			return 0;
	teamd_log_err("Unknown \"agg_select_policy\" named \"%s\" passed.", policy);
	return -ENOENT;
}

#endif
