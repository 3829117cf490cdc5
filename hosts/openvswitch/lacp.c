/* LACP of Open vSwitch over liblag: what lib/lacp.h declares, with the protocol in systems of liblag.
 *
 * One struct lacp is one end. Its members come and go, and its system identifier may change: then lag_end_remake makes it anew. There are as many
 * aggregators as members, and the one that carries is niw_active_aggregator's. Ticks are made up from time_msec(), so a test may
 * stop and warp the clock. One lock is around every call of liblag. */
#include <config.h>
#include "lacp.h"

#include <stdlib.h>

#include "connectivity.h"
#include "dp-packet.h"
#include "hash.h"
#include "openvswitch/dynamic-string.h"
#include "openvswitch/hmap.h"
#include "openvswitch/poll-loop.h"
#include "openvswitch/shash.h"
#include "openvswitch/vlog.h"
#include "ovs-atomic.h"
#include "ovs-thread.h"
#include "seq.h"
#include "timeval.h"
#include "unixctl.h"
#include "util.h"

#include "lag_end.h"

VLOG_DEFINE_THIS_MODULE(lacp);

#define RETRY_MSEC 1000    /* Until a system that was refused is tried again. */

struct lacp {
    struct ovs_list node;       /* In all_lacps. */
    char *name;
    struct lacp_settings set;   /* Its name is not used. */
    struct hmap members;
    struct member *first;       /* Whose key all have; NULL if there is no member. */
    uint16_t key;               /* That key. It stays if the first one leaves and the next one has none of its own. */
    struct lag_end end;
    uint16_t carries;           /* The aggregator that carries, or would; or 0. */
    lacp_send_pdu *send_pdu;    /* That lacp_run() was given. */
    bool to_remake;             /* Whether the system has to be made anew, */
    long long int try_at;       /* and when, if it was refused; or 0. */
    struct ovs_refcount ref_cnt;
};

struct member {
    struct hmap_node node;      /* In `members`. */
    void *aux;
    struct lacp *lacp;
    char *name;
    uint16_t port_id, port_priority, key;
    bool carrier_up;
    bool in;                    /* Whether the system has the port. */
    struct niw_view view;       /* As niw_views told it last. */
    struct lag_heard heard;
    struct lag_limit limit;
    struct lag_wake wake;
    uint8_t responses[LAG_RESPONSES][NIW_FRAME];
    unsigned int n_responses;   /* That the next lacp_run() sends. */
    struct niw_counters counts;
    uint32_t received, expired, defaulted, carrier_changed;
};

static struct ovs_mutex mutex;
static struct ovs_list all_lacps OVS_GUARDED_BY(mutex) = OVS_LIST_INITIALIZER(&all_lacps);
static struct vlog_rate_limit rl = VLOG_RATE_LIMIT_INIT(1, 5);

static void
lock(void) OVS_ACQUIRES(mutex)
{
    static struct ovsthread_once once = OVSTHREAD_ONCE_INITIALIZER;

    if (ovsthread_once_start(&once)) {
        ovs_mutex_init_recursive(&mutex);
        ovsthread_once_done(&once);
    }
    ovs_mutex_lock(&mutex);
}

static void
unlock(void) OVS_RELEASES(mutex)
{
    ovs_mutex_unlock(&mutex);
}

static struct member *
find(const struct lacp *lacp, const void *aux)
{
    struct member *member;

    HMAP_FOR_EACH_IN_BUCKET (member, node, hash_pointer(aux, 0), &lacp->members) {
        if (member->aux == aux) {
            return member;
        }
    }
    return NULL;
}

static bool
is_current(const struct member *member)
{
    return member->in && member->view.receive_state == NIW_RECEIVE_CURRENT;
}

static bool
on_defaults(const struct member *member)
{
    uint8_t state = member->view.receive_state;

    return member->in && (state == NIW_RECEIVE_DEFAULTED || (state == NIW_RECEIVE_EXPIRED && member->wake.woken));
}

static bool
distributes(const struct member *member)
{
    return member->in && member->view.state & NIW_STATE_DISTRIBUTING && !member->view.defaulted;
}

/* Whether the member has a carrier and a partner, and is in the aggregator that carries. */
static bool
has_partner(const struct member *member)
{
    return (member->in && member->carrier_up && member->view.state & NIW_STATE_SYNCHRONIZATION && !member->view.defaulted
            && (!member->lacp->carries || member->view.aggregator == member->lacp->carries));
}

static bool
is_negotiated(const struct lacp *lacp)
{
    struct member *member;

    HMAP_FOR_EACH (member, node, &lacp->members) {
        if (has_partner(member)) {
            return true;
        }
    }
    return false;
}

/* Whether the members that hear nothing are in use: lacp-fallback-ab, and no member has a partner. */
static bool
falls_back(const struct lacp *lacp)
{
    return lacp->set.fallback_ab_cfg && !is_negotiated(lacp);
}

static bool
is_attached(const struct member *member)
{
    return has_partner(member) || (on_defaults(member) && falls_back(member->lacp));
}

static bool
may_enable(const struct member *member)
{
    return is_attached(member) && member->carrier_up && member->view.state & NIW_STATE_DISTRIBUTING;
}

/* The main thread is to run: something is due, or what it shows has changed. */
static void
wake(void)
{
    seq_change(connectivity_seq_get());
}

/* Counts what a change of the view of a member means. */
static void
count_change(struct member *member, const struct niw_view *now)
{
    uint8_t was = member->view.receive_state;

    if (member->view.port && now->receive_state != was) {
        member->expired += now->receive_state == NIW_RECEIVE_EXPIRED && was == NIW_RECEIVE_CURRENT;
        member->defaulted += now->receive_state == NIW_RECEIVE_DEFAULTED && !member->wake.woken;
    }
}

/* Takes the views over; returns whether one changed. */
static bool
read_views(struct lacp *lacp, struct niw_view views[NIW_MOST_PORTS])
{
    struct member *member;
    bool changed = false;

    lag_end_views(&lacp->end, views);
    HMAP_FOR_EACH (member, node, &lacp->members) {
        const struct niw_view *view = member->in ? lag_view_of(views, member->port_id) : NULL;

        if (view) {
            count_change(member, view);
            changed = changed || memcmp(view, &member->view, sizeof *view);
            member->view = *view;
        }
    }
    return changed;
}

/* Wakes the members that run on defaults and are in no use; returns whether it did. */
static bool
wake_members(struct lacp *lacp)
{
    bool idle = !falls_back(lacp), woken = false;
    struct member *member;

    HMAP_FOR_EACH (member, node, &lacp->members) {
        woken |= member->in && member->view.port
                 && lag_end_wake(&lacp->end, &member->view, &member->wake, idle, time_msec());
    }
    return woken;
}

/* Takes over what the system shows now, and has it use the aggregator that carries. */
static void
refresh(struct lacp *lacp)
{
    struct niw_view views[NIW_MOST_PORTS];
    uint16_t before = lacp->carries;
    bool changed;

    if (!lacp->end.system.live) {
        return;
    }
    changed = read_views(lacp, views);
    lacp->carries = lag_end_choose(views, NULL, LAG_STAYS_WHILE_READY, before);
    bool others = lag_end_use(&lacp->end, lacp->carries);
    others |= wake_members(lacp);
    if (others) {
        changed = read_views(lacp, views) || changed;
    }
    if (changed || before != lacp->carries || lag_end_is_due(&lacp->end)) {
        wake();
    }
}

/* Puts a member into `ports`, if there is room, and no other one has its port identifier. */
static bool
list_port(struct member *member, struct lag_port *ports, size_t *count)
{
    struct lacp *lacp = member->lacp;

    if (*count == NIW_MOST_PORTS) {
        return false;
    }
    for (size_t i = 0; i < *count; i++) {
        if (ports[i].port.number == member->port_id) {
            return false;
        }
    }
    ports[*count] = (struct lag_port) {
        .port = {
            .number = member->port_id, .priority = member->port_priority, .key = lacp->key,
            .aggregatable = hmap_count(&lacp->members) > 1, .active = lacp->set.active, .short_timeout = lacp->set.fast,
        },
        .up = member->carrier_up, .carried = distributes(member), .aggregator = member->view.aggregator,
        .heard = &member->heard, .owner = member,
    };
    memcpy(ports[*count].port.mac, lacp->set.id.ea, sizeof ports->port.mac);
    ++*count;
    return true;
}

/* Has the system no port of a member: it is in no use, and shows nothing. */
static void
leave_out(struct member *member)
{
    member->in = false;
    memset(&member->view, 0, sizeof member->view);
}

/* Puts the members into `ports`, as many as a system has; returns how many. Those that are in it come first. */
static size_t
list_ports(struct lacp *lacp, struct lag_port *ports)
{
    struct member *member;
    size_t count = 0;

    HMAP_FOR_EACH (member, node, &lacp->members) {
        member->in = member->in && list_port(member, ports, &count);
    }
    HMAP_FOR_EACH (member, node, &lacp->members) {
        if (!member->in) {
            member->in = list_port(member, ports, &count);
            if (!member->in) {
                leave_out(member);
                VLOG_ERR_RL(&rl, "%s: %s is left out: %s", lacp->name, member->name, count < NIW_MOST_PORTS
                            ? "another member has its port identifier" : "a bond has 64 members at most with LACP");
            }
        }
    }
    return count;
}

/* Makes the system anew, of the members that are there. */
static void
remake(struct lacp *lacp)
{
    struct lag_port ports[NIW_MOST_PORTS];
    struct niw_config config = { .priority = lacp->set.priority, .conversations = NIW_ONE_CONVERSATION };
    size_t count = list_ports(lacp, ports);
    uint16_t before = lacp->carries;

    memcpy(config.mac, lacp->set.id.ea, sizeof config.mac);
    lacp->carries = 0;
    lacp->to_remake = false;
    lacp->try_at = 0;
    struct niw_made made = lag_end_remake(&lacp->end, &config, ports, count, time_msec());
    if (made.status != NIW_OK) {
        struct member *member;

        VLOG_ERR_RL(&rl, "%s: no LACP: %s", lacp->name, niw_status_text(made.status));
        HMAP_FOR_EACH (member, node, &lacp->members) {
            leave_out(member);
        }
        lacp->to_remake = true;
        lacp->try_at = time_msec() + RETRY_MSEC;
        wake();
        return;
    }
    for (size_t i = 0; i < count; i++) {
        const struct member *member = ports[i].owner;

        if (ports[i].begins) {
            VLOG_INFO("%s: %s negotiates anew: %s", lacp->name, member->name, lag_why_text(ports[i].why));
        } else if (ports[i].carried && ports[i].aggregator == before) {
            lacp->carries = (uint16_t) niw_choice(&lacp->end.system, member->port_id).number;
        }
    }
    refresh(lacp);
}

/* Makes up what has passed since the last call. */
static void
advance(struct lacp *lacp)
{
    if (lacp->to_remake && time_msec() >= lacp->try_at) {
        remake(lacp);
    }
    lag_end_advance(&lacp->end, time_msec());
}

static void
set_carrier(struct member *member, bool up)
{
    if (member->carrier_up != up) {
        member->carrier_up = up;
        member->carrier_changed++;
        if (!up) {
            member->heard.is = false;
        }
        if (member->in && !member->lacp->to_remake) {
            lag_end_advance(&member->lacp->end, time_msec());
            niw_set_link(&member->lacp->end.system, member->port_id, up);
            refresh(member->lacp);
        }
    }
}

static void
find_key(struct lacp *lacp)
{
    uint16_t was = lacp->key;

    if (lacp->first && lacp->first->key) {
        lacp->key = lacp->first->key;
    } else if (lacp->first && !lacp->key) {
        lacp->key = lacp->first->port_id;
    }
    lacp->to_remake = lacp->to_remake || lacp->key != was;
}

/* Sends what is due on a member, in this order: responses to markers, and LACPDUs. */
static void
send_due(struct member *member)
{
    struct lacp *lacp = member->lacp;
    uint8_t frame[NIW_FRAME];

    for (unsigned int i = 0; i < member->n_responses; i++) {
        if (lag_may_respond(&member->limit, time_msec())) {
            niw_count_sent(&member->counts, member->responses[i], NIW_FRAME);
            lacp->send_pdu(member->aux, member->responses[i] + ETH_HEADER_LEN, NIW_PAYLOAD_LENGTH);
        }
    }
    member->n_responses = 0;
    while (member->in && lag_end_transmit(&lacp->end, member->port_id, &member->limit, frame, time_msec()).is) {
        niw_count_sent(&member->counts, frame, NIW_FRAME);
        lacp->send_pdu(member->aux, frame + ETH_HEADER_LEN, NIW_PAYLOAD_LENGTH);
        wake();
    }
}

/* The member leaves: its partner is told that it is in no use. */
static void
take_leave(struct member *member)
{
    struct lacp *lacp = member->lacp;

    if (member->in && member->carrier_up && lacp->send_pdu && !lacp->to_remake) {
        lag_end_advance(&lacp->end, time_msec());
        niw_hold(&lacp->end.system, member->port_id, true);
        send_due(member);
    }
}

static void
destroy(struct member *member)
{
    struct lacp *lacp = member->lacp;

    hmap_remove(&lacp->members, &member->node);
    if (lacp->first == member) {
        struct hmap_node *first = hmap_first(&lacp->members);

        lacp->first = first ? CONTAINER_OF(first, struct member, node) : NULL;
        if (!first) {
            lacp->key = 0;
        }
        find_key(lacp);
    }
    lacp->to_remake = true;
    free(member->name);
    free(member);
}

struct lacp *
lacp_create(void)
{
    struct lacp *lacp = xzalloc(sizeof *lacp);

    VLOG_INFO_ONCE("LACP by liblag (%s).", lag_library());
    hmap_init(&lacp->members);
    ovs_refcount_init(&lacp->ref_cnt);
    lock();
    ovs_list_push_back(&all_lacps, &lacp->node);
    unlock();
    return lacp;
}

struct lacp *
lacp_ref(const struct lacp *lacp_)
{
    struct lacp *lacp = CONST_CAST(struct lacp *, lacp_);

    if (lacp) {
        ovs_refcount_ref(&lacp->ref_cnt);
    }
    return lacp;
}

void
lacp_unref(struct lacp *lacp)
{
    if (lacp && ovs_refcount_unref_relaxed(&lacp->ref_cnt) == 1) {
        struct member *member;

        lock();
        HMAP_FOR_EACH_SAFE (member, node, &lacp->members) {
            destroy(member);
        }
        hmap_destroy(&lacp->members);
        ovs_list_remove(&lacp->node);
        lag_end_free(&lacp->end);
        free(lacp->name);
        free(lacp);
        unlock();
    }
}

void
lacp_configure(struct lacp *lacp, const struct lacp_settings *s)
{
    struct member *member;

    ovs_assert(!eth_addr_is_zero(s->id));
    lock();
    if (!lacp->name || strcmp(s->name, lacp->name)) {
        free(lacp->name);
        lacp->name = xstrdup(s->name);
    }
    if (!eth_addr_equals(lacp->set.id, s->id) || lacp->set.priority != s->priority) {
        lacp->to_remake = true;
    }
    if (lacp->set.fallback_ab_cfg != s->fallback_ab_cfg) {
        wake();
    }
    bool mode = lacp->set.active != s->active || lacp->set.fast != s->fast;
    lacp->set = *s;
    lacp->set.name = NULL;
    if (mode && !lacp->to_remake) {
        lag_end_advance(&lacp->end, time_msec());
        HMAP_FOR_EACH (member, node, &lacp->members) {
            if (member->in) {
                lag_end_set_mode(&lacp->end, member->port_id, s->active, s->fast, &member->heard);
            }
        }
        refresh(lacp);
    }
    unlock();
}

bool
lacp_is_active(const struct lacp *lacp)
{
    lock();
    bool active = lacp->set.active;
    unlock();
    return active;
}

/* A frame of the slow protocols came on a member. */
static void
process(struct member *member, const uint8_t *frame, size_t length)
{
    struct lacp *lacp = member->lacp;
    uint8_t response[NIW_FRAME];
    struct niw_received got = niw_receive(&lacp->end.system, member->port_id, frame, length, response, sizeof response);

    niw_count_received(&member->counts, frame, length, got.what);
    switch (got.what) {
    case NIW_RECEIVED_TOOK_LACPDU:
        lag_hear(&member->heard, frame, time_msec());
        refresh(lacp);
        break;
    case NIW_RECEIVED_RESPOND:
        if (member->n_responses < LAG_RESPONSES) {
            memcpy(member->responses[member->n_responses++], response, sizeof response);
            wake();
        }
        break;
    case NIW_RECEIVED_IGNORED:
        VLOG_WARN_RL(&rl, "%s: %s: received a frame that is neither an LACPDU nor a Marker PDU.", lacp->name, member->name);
        break;
    }
}

bool
lacp_process_packet(struct lacp *lacp, const void *aux, const struct dp_packet *packet)
{
    bool enable = false;

    lock();
    struct member *member = find(lacp, aux);
    if (member) {
        member->received++;
        if (!member->carrier_up) {
            VLOG_INFO_RL(&rl, "%s: carrier state is DOWN, dropping received LACP PDU.", member->name);
            wake();
        } else {
            advance(lacp);
            if (member->in) {
                process(member, dp_packet_data(packet), dp_packet_size(packet));
            }
            enable = may_enable(member);
        }
    }
    unlock();
    return enable;
}

enum lacp_status
lacp_status(const struct lacp *lacp)
{
    if (!lacp) {
        return LACP_DISABLED;
    }
    lock();
    enum lacp_status status = is_negotiated(lacp) ? LACP_NEGOTIATED : LACP_CONFIGURED;
    unlock();
    return status;
}

const char *
lacp_status_description(enum lacp_status status)
{
    switch (status) {
    case LACP_NEGOTIATED:
        return "negotiated";
    case LACP_CONFIGURED:
        return "configured";
    case LACP_DISABLED:
        return "off";
    default:
        return "<unknown>";
    }
}

void
lacp_member_register(struct lacp *lacp, void *aux, const struct lacp_member_settings *s)
{
    lock();
    struct member *member = find(lacp, aux);
    if (!member) {
        member = xzalloc(sizeof *member);
        member->lacp = lacp;
        member->aux = aux;
        hmap_insert(&lacp->members, &member->node, hash_pointer(aux, 0));
        if (!lacp->first) {
            lacp->first = member;
        }
        lacp->to_remake = true;
    }
    if (!member->name || strcmp(s->name, member->name)) {
        free(member->name);
        member->name = xstrdup(s->name);
    }
    if (member->port_id != s->id || member->port_priority != s->priority || member->key != s->key) {
        bool had_key = member->key;

        member->port_id = s->id;
        member->port_priority = s->priority;
        member->key = s->key;
        if (lacp->first == member && had_key && !s->key) {
            lacp->key = 0;
        }
        lacp->to_remake = true;
    }
    find_key(lacp);
    unlock();
}

void
lacp_member_unregister(struct lacp *lacp, const void *aux)
{
    lock();
    struct member *member = find(lacp, aux);
    if (member) {
        take_leave(member);
        destroy(member);
    }
    unlock();
}

void
lacp_member_carrier_changed(const struct lacp *lacp, const void *aux, bool up)
{
    if (lacp) {
        lock();
        struct member *member = find(lacp, aux);
        if (member) {
            set_carrier(member, up);
        }
        unlock();
    }
}

bool
lacp_member_may_enable(const struct lacp *lacp, const void *aux)
{
    bool enable = true;

    if (lacp) {
        lock();
        struct member *member = find(lacp, aux);
        if (member) {
            set_carrier(member, true); /* It is asked only while the carrier is up. */
        }
        enable = member && may_enable(member);
        unlock();
    }
    return enable;
}

bool
lacp_member_is_current(const struct lacp *lacp, const void *aux)
{
    lock();
    struct member *member = find(lacp, aux);
    bool current = member && is_current(member);
    unlock();
    return current;
}

void
lacp_run(struct lacp *lacp, lacp_send_pdu *send_pdu)
{
    struct member *member;

    lock();
    lacp->send_pdu = send_pdu;
    advance(lacp);
    refresh(lacp);
    HMAP_FOR_EACH (member, node, &lacp->members) {
        send_due(member);
    }
    unlock();
}

void
lacp_wait(struct lacp *lacp)
{
    struct member *member;

    lock();
    if (lacp->to_remake) {
        poll_timer_wait_until(lacp->try_at);
    } else if (lacp->end.system.live) {
        poll_timer_wait_until(lag_end_due(&lacp->end));
    }
    HMAP_FOR_EACH (member, node, &lacp->members) {
        if (member->n_responses) {
            poll_immediate_wake();
        }
        if (member->wake.at) {
            poll_timer_wait_until(member->wake.at);
        }
    }
    unlock();
}

static const char *const state_names[8] = {
    "activity", "timeout", "aggregation", "synchronized", "collecting", "distributing", "defaulted", "expired",
};

static void
put_end(struct ds *ds, const char *who, const uint8_t mac[6], unsigned int priority, unsigned int port,
        unsigned int port_priority, unsigned int key, uint8_t state)
{
    ds_put_format(ds, "\n  %s sys_id: %02x:%02x:%02x:%02x:%02x:%02x\n", who, mac[0], mac[1], mac[2], mac[3], mac[4], mac[5]);
    ds_put_format(ds, "  %s sys_priority: %u\n  %s port_id: %u\n", who, priority, who, port);
    ds_put_format(ds, "  %s port_priority: %u\n  %s key: %u\n  %s state:", who, port_priority, who, key, who);
    for (int bit = 0; bit < 8; bit++) {
        if (state >> bit & 1) {
            ds_put_format(ds, " %s", state_names[bit]);
        }
    }
    ds_put_cstr(ds, "\n");
}

static void
put_member(struct ds *ds, const struct member *member)
{
    const struct niw_view *view = &member->view;
    const struct lacp *lacp = member->lacp;

    ds_put_format(ds, "\nmember: %s: %s %s\n", member->name,
                  is_current(member) ? "current" : on_defaults(member) || !member->carrier_up ? "defaulted" : "expired",
                  is_attached(member) ? "attached" : "detached");
    ds_put_format(ds, "  port_id: %u\n  port_priority: %u\n  may_enable: %s\n", member->port_id, member->port_priority,
                  may_enable(member) ? "true" : "false");
    put_end(ds, "actor", lacp->set.id.ea, lacp->set.priority, member->port_id, member->port_priority, lacp->key, view->state);
    put_end(ds, "partner", view->partner_mac, view->partner_priority, view->partner_port, view->partner_port_priority,
            view->partner_key, view->partner_state);
}

static void
put_stats(struct ds *ds, const struct member *member)
{
    const struct niw_counters *counts = &member->counts;

    ds_put_format(ds, "\nmember: %s:\n  TX PDUs: %"PRIu64"\n  RX PDUs: %"PRIu32"\n  RX Bad PDUs: %"PRIu64"\n", member->name,
                  counts->lacpdus_sent, member->received, counts->illegal_received + counts->unknown_received);
    ds_put_format(ds, "  RX Marker Request PDUs: %"PRIu64"\n  Link Expired: %"PRIu32"\n  Link Defaulted: %"PRIu32"\n"
                  "  Carrier Status Changed: %"PRIu32"\n", counts->markers_received, member->expired, member->defaulted,
                  member->carrier_changed);
}

static void
put_each(struct ds *ds, const struct lacp *lacp, void (*put)(struct ds *, const struct member *))
{
    struct shash names = SHASH_INITIALIZER(&names);
    struct member *member;

    HMAP_FOR_EACH (member, node, &lacp->members) {
        shash_add(&names, member->name, member);
    }
    const struct shash_node **sorted = shash_sort(&names);
    for (size_t i = 0; i < shash_count(&names); i++) {
        put(ds, sorted[i]->data);
    }
    shash_destroy(&names);
    free(sorted);
}

static void
put_lacp(struct ds *ds, const struct lacp *lacp)
{
    ds_put_format(ds, "---- %s ----\n  status: %s%s\n", lacp->name, lacp->set.active ? "active" : "passive",
                  is_negotiated(lacp) ? " negotiated" : "");
    ds_put_format(ds, "  sys_id: "ETH_ADDR_FMT"\n  sys_priority: %u\n  aggregation key: ", ETH_ADDR_ARGS(lacp->set.id),
                  lacp->set.priority);
    if (lacp->first) {
        ds_put_format(ds, "%u", lacp->key);
    } else {
        ds_put_cstr(ds, "none");
    }
    ds_put_format(ds, "\n  lacp_time: %s\n", lacp->set.fast ? "fast" : "slow");
    put_each(ds, lacp, put_member);
}

static void
put_lacp_stats(struct ds *ds, const struct lacp *lacp)
{
    ds_put_format(ds, "---- %s statistics ----\n", lacp->name);
    put_each(ds, lacp, put_stats);
}

static void
show(struct unixctl_conn *conn, int argc, const char *argv[], void *put_)
{
    void (*put)(struct ds *, const struct lacp *) = put_;
    struct ds ds = DS_EMPTY_INITIALIZER;
    struct lacp *lacp;
    bool found = false;

    lock();
    LIST_FOR_EACH (lacp, node, &all_lacps) {
        if (argc < 2 || !strcmp(lacp->name, argv[1])) {
            found = true;
            advance(lacp);
            refresh(lacp);
            put(&ds, lacp);
        }
    }
    unlock();
    if (argc > 1 && !found) {
        unixctl_command_reply_error(conn, "no such lacp object");
    } else {
        unixctl_command_reply(conn, ds_cstr(&ds));
    }
    ds_destroy(&ds);
}

void
lacp_init(void)
{
    unixctl_command_register("lacp/show", "[port]", 0, 1, show, put_lacp);
    unixctl_command_register("lacp/show-stats", "[port]", 0, 1, show, put_lacp_stats);
}

/* What sFlow tells of a member: the objects of IEEE 802.1AX-2014, 7.3.2 and 7.3.3. */
bool
lacp_get_member_stats(const struct lacp *lacp, const void *aux, struct lacp_member_stats *stats)
{
    lock();
    struct member *member = find(lacp, aux);
    if (member) {
        const struct niw_counters *counts = &member->counts;

        memset(stats, 0, sizeof *stats);
        stats->dot3adAggPortActorSystemID = lacp->set.id;
        memcpy(stats->dot3adAggPortPartnerOperSystemID.ea, member->view.partner_mac, ETH_ADDR_LEN);
        stats->dot3adAggPortAttachedAggID = lacp->key;
        stats->dot3adAggPortActorAdminState = NIW_STATE_AGGREGATION | (lacp->set.active ? NIW_STATE_ACTIVITY : 0)
                                              | (lacp->set.fast ? NIW_STATE_TIMEOUT : 0);
        stats->dot3adAggPortActorOperState = member->view.state;
        stats->dot3adAggPortPartnerOperState = member->view.partner_state;
        stats->dot3adAggPortStatsLACPDUsRx = (uint32_t) counts->lacpdus_received;
        stats->dot3adAggPortStatsIllegalRx = (uint32_t) counts->illegal_received;
        stats->dot3adAggPortStatsLACPDUsTx = (uint32_t) counts->lacpdus_sent;
    }
    unlock();
    return member != NULL;
}
