/* What teamdctl reads and sets of a team with LACP. */
#ifndef LACP_VALUES_H
#define LACP_VALUES_H

#include "lacp_groups.h"

#define GETTER(name, type, field, value)					\
static int get_##name(struct teamd_context *ctx, struct team_state_gsc *gsc, void *priv)	\
{										\
	type it = TYPE_OF_##type(gsc, priv);					\
	if (!it)								\
		return -ENOENT;							\
	gsc->data.field = value;						\
	return 0;								\
}
typedef struct lacp *team_t;
typedef struct lacp_port *port_t;
#define TYPE_OF_team_t(gsc, priv) (priv)
#define TYPE_OF_port_t(gsc, priv) port_of(priv, (gsc)->info.tdport)

/* The aggregator of a port has the number of the interface of its best port. */
static int aggregator_id(struct lacp_port *port)
{
	return port->lead && port->lead->tdport ? (int) port->lead->tdport->ifindex : 0;
}

GETTER(active, team_t, bool_val, it->cfg.active)
GETTER(sys_prio, team_t, int_val, it->cfg.sys_prio)
GETTER(fast_rate, team_t, bool_val, it->cfg.fast_rate)
GETTER(policy, team_t, str_val.ptr, policies[it->cfg.policy])
GETTER(selected, port_t, bool_val, it->selected)
GETTER(agg_id, port_t, int_val, aggregator_id(it))
GETTER(agg_selected, port_t, bool_val, it->chosen)
GETTER(state, port_t, str_val.ptr, state_name(it))
GETTER(key, port_t, int_val, it->cfg.key)
GETTER(prio, port_t, int_val, it->cfg.prio)
GETTER(actor_system_priority, port_t, int_val, it->lacp->cfg.sys_prio)
GETTER(actor_key, port_t, int_val, it->cfg.key)
GETTER(actor_port_priority, port_t, int_val, it->cfg.prio)
GETTER(actor_port, port_t, int_val, it->number)
GETTER(actor_state, port_t, int_val, it->view.state)
GETTER(partner_system_priority, port_t, int_val, it->view.partner_priority)
GETTER(partner_key, port_t, int_val, it->view.partner_key)
GETTER(partner_port_priority, port_t, int_val, it->view.partner_port_priority)
GETTER(partner_port, port_t, int_val, it->view.partner_port)
GETTER(partner_state, port_t, int_val, it->view.partner_state)

static int get_address(struct team_state_gsc *gsc, const void *address)
{
	char *text = a_hwaddr_str((char *) address, ETH_ALEN);

	if (!text)
		return -ENOMEM;
	gsc->data.str_val.ptr = text;
	gsc->data.str_val.free = true;
	return 0;
}

static int get_actor_system(struct teamd_context *ctx, struct team_state_gsc *gsc, void *priv)
{
	return get_address(gsc, ctx->hwaddr);
}

static int get_partner_system(struct teamd_context *ctx, struct team_state_gsc *gsc, void *priv)
{
	const struct lacp_port *port = port_of(priv, gsc->info.tdport);

	if (!port)
		return -ENOENT;
	return get_address(gsc, port->view.partner_mac);
}

/* The group carries until something changes. */
static int set_agg_selected(struct teamd_context *ctx, struct team_state_gsc *gsc, void *priv)
{
	struct lacp_port *port = port_of(priv, gsc->info.tdport);
	struct lacp *lacp = priv;

	if (!gsc->data.bool_val)
		return -EOPNOTSUPP;
	if (!port || !port->selected)
		return -EINVAL;
	choose(lacp);
	take_group(lacp, port->lead);
	lacp->dirty = true;
	wake_at(lacp, 0);	/* the tick enables its ports */
	return 0;
}

#define VALUE(path, kind, name) { .subpath = path, .type = TEAMD_STATE_ITEM_TYPE_##kind, .getter = get_##name }
static const struct teamd_state_val team_values[] = {
	VALUE("active", BOOL, active), VALUE("sys_prio", INT, sys_prio), VALUE("fast_rate", BOOL, fast_rate),
	VALUE("select_policy", STRING, policy),
};
static const struct teamd_state_val actor_values[] = {
	VALUE("system_priority", INT, actor_system_priority), VALUE("system", STRING, actor_system), VALUE("key", INT, actor_key),
	VALUE("port_priority", INT, actor_port_priority), VALUE("port", INT, actor_port), VALUE("state", INT, actor_state),
};
static const struct teamd_state_val partner_values[] = {
	VALUE("system_priority", INT, partner_system_priority), VALUE("system", STRING, partner_system), VALUE("key", INT, partner_key),
	VALUE("port_priority", INT, partner_port_priority), VALUE("port", INT, partner_port), VALUE("state", INT, partner_state),
};
static const struct teamd_state_val port_values[] = {
	VALUE("selected", BOOL, selected), VALUE("aggregator.id", INT, agg_id),
	{ .subpath = "aggregator.selected", .type = TEAMD_STATE_ITEM_TYPE_BOOL, .getter = get_agg_selected, .setter = set_agg_selected },
	VALUE("state", STRING, state), VALUE("key", INT, key), VALUE("prio", INT, prio),
	{ .subpath = "actor_lacpdu_info", .vals = actor_values, .vals_count = ARRAY_SIZE(actor_values) },
	{ .subpath = "partner_lacpdu_info", .vals = partner_values, .vals_count = ARRAY_SIZE(partner_values) },
};
static const struct teamd_state_val groups[] = {
	{ .subpath = "runner", .vals = team_values, .vals_count = ARRAY_SIZE(team_values) },
	{ .subpath = "runner", .vals = port_values, .vals_count = ARRAY_SIZE(port_values), .per_port = true },
};
static const struct teamd_state_val values = { .vals = groups, .vals_count = ARRAY_SIZE(groups) };

#endif
