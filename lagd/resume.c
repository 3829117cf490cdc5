/* How a daemon goes on where the last one was: the peer hears of no other state, and each conversation stays on its link. */
#include "carry.h"

/* For how long LACPDUs of an end hold, in milliseconds, by its or its peer's LACP_Timeout (IEEE 802.1AX-2014, 6.4.4). */
#define SHORT_TIMEOUT 3000
#define LONG_TIMEOUT 90000
/* How often a peer sends that is asked for short or long timeouts, in ticks (Fast_Periodic_Time, Slow_Periodic_Time, IEEE 802.1AX-2014, 6.4.4). */
#define FAST_PERIODIC 10
#define SLOW_PERIODIC 300

/* What the last daemon left of a link. An interface that was made anew is another one. */
static const struct inherited_link *inherited_of(const struct inherited *inherited, const struct link *link) {
    for (unsigned i = 0; i < inherited->link_count; i++)
        if (inherited->links[i].index == link->index && memcmp(inherited->links[i].mac, link->mac, sizeof link->mac) == 0)
            return &inherited->links[i];
    return NULL;
}

/* Whether an LACPDU of then still holds. What is of later than now is of another clock; what is of before this boot wraps around, and still
 * counts right. */
bool lacpdu_holds(uint64_t now, uint64_t then, bool short_timeout) {
    return now - then < (uint64_t)(short_timeout ? SHORT_TIMEOUT : LONG_TIMEOUT);
}

/* Whether a port goes on: its carrier did not go, neither end has given the other one up, and its partner may be that. */
static bool goes_on(const struct inherited *inherited, const struct link *link, uint64_t now) {
    const struct inherited_link *was = link->up && !link->held ? inherited_of(inherited, link) : NULL;
    struct system_id actor;
    return was && was->carried && (was->losses == link->kernel_losses || inherited->ahead != 0)
        && lacpdu_holds(now, was->heard, link->settings.short_timeout)
        && lacpdu_holds(now, was->spoken, (was->lacpdu[ACTOR_STATE] & NIW_STATE_TIMEOUT) != 0)
        && may_be_partner(link, was->lacpdu, &actor);
}

/* Where an LACPDU of the peer was missed, the next one may come too late. A peer that reads its LACP_Timeout or LACP_Activity wrong sends at once
 * (update_NTT, IEEE 802.1AX-2014, 6.4.9), and until it has, an LACPDU goes to it each second: so a long timeout of it is read as short, and beside a
 * short one its LACP_Activity is read wrong. A passive port would not carry without that: there a short timeout is read as long, if the peer sends
 * each second itself. */
static void ask_peer(struct niw_saved *saved) {
    uint8_t own = saved->frame[PARTNER_STATE], *peer = &saved->frame[ACTOR_STATE];
    bool each_second = own & NIW_STATE_TIMEOUT;
    if (saved->age <= (each_second ? FAST_PERIODIC : SLOW_PERIODIC)) return;
    if (!(*peer & NIW_STATE_TIMEOUT) || (each_second && !(own & NIW_STATE_ACTIVITY)))
        *peer ^= NIW_STATE_TIMEOUT;
    else if (own & NIW_STATE_ACTIVITY)
        *peer ^= NIW_STATE_ACTIVITY;
}

/* What the library goes on from. */
static struct niw_saved saved_of(const struct inherited *inherited, const struct link *link, uint64_t now) {
    const struct inherited_link *was = inherited_of(inherited, link);
    struct niw_saved saved = {.port = link->settings.number, .aggregator = was->aggregator};
    saved.age = (uint32_t)((now - was->heard) / NIW_TICK_MILLISECONDS);
    memcpy(saved.frame, was->lacpdu, sizeof saved.frame);
    ask_peer(&saved);
    return saved;
}

/* The partner of a link is that of the last daemon. */
static void recall_partner(const struct process *process, struct link *link) {
    const struct inherited_link *was = inherited_of(process->inherited, link);
    struct system_id actor;
    if (may_be_partner(link, was->lacpdu, &actor)) note_lacpdu_and_pin_partner(process->settings, link, &actor, was->lacpdu);
    link->lacpdu_at = was->heard - process->inherited->ahead;
    link->lacpdus_at[MOST_LACPDUS - 1] = was->spoken - process->inherited->ahead;
}

/* Whether there is something to go on with. */
bool has_carried_links(const struct inherited *inherited) {
    bool found = false;
    for (unsigned i = 0; i < inherited->link_count; i++) found = found || inherited->links[i].carried;
    return found;
}

/* Tells what became of the links of the last daemon, if some are there. */
static void tell_links(struct printer *printer, const struct ports *ports, bool device_down, unsigned count) {
    unsigned known = 0;
    EACH_LINK_AS_IS(link, ports) known += link->socket >= 0 && inherited_of(printer->process->inherited, link) != NULL;
    if (known > 0 && printer->process->inherited->others)
        (void)say(printer, LOG_WARNING | ABOUT_HANDOVER, "the state that the last daemon left is not used: it belongs to other settings");
    else if (known > 0 && count > 0 && device_down)
        (void)say(printer, LOG_WARNING | ABOUT_HANDOVER, "no link goes on where the last daemon left it: the device is down, and the peers of %u are told",
            count);
    else if (known > 0)
        (void)say(printer, LOG_NOTICE | ABOUT_HANDOVER, "%u of %u links go on where the last daemon left them", count, count_links(ports));
}

/* Once the interfaces are taken up: the ports that distributed do so again. Answers how many went on. Nothing but conversations that stay where they
 * were comes before bring_up_others_and_send: so the system goes on from the last one as a warm start does. */
unsigned resume(struct core *core, const struct protocol *protocol, struct ports *ports) {
    struct niw_saved saved[NIW_MOST_PORTS];
    size_t count = 0;
    const struct inherited *inherited = protocol->process->inherited;
    const uint64_t now = boottime() + inherited->ahead; /* as the last daemon had it */
    EACH_LINK_AS_IS(link, ports)
        if (protocol->process->resuming && goes_on(inherited, link, now)) saved[count++] = saved_of(inherited, link, now);
    count = resume_system(core, protocol, saved, count);
    for (size_t i = 0; i < count; i++) recall_partner(protocol->process, &ports->links[saved[i].port - 1]);
    tell_links(core->printer, ports, protocol->halt.down, (unsigned)count);
    return (unsigned)count;
}

/* Behind the conversations that stay: the settings hold ports, and the links that are up come up for the library, too. Those that went on were up
 * before, so none of the others takes the place of one where links are limited. */
void bring_up_others_and_send(struct protocol *protocol) {
    apply_holds(protocol->core, protocol->ports, false);
    EACH_LINK(link, protocol->ports)
        if (protocol->process->resuming && link->up
            && !is_done(protocol->core, niw_set_link(&protocol->core->system, link->settings.number, true), "niw_set_link"))
            break;
    protocol->process->resuming = false;
    send_due_and_read_views(protocol);
}

static void stay_on_port(struct niw_system *system, const struct carry *carry, struct conversation *conversation, uint16_t port) {
    if (niw_adopt(system, carry->active, (uint16_t)(conversation - carry->conversations), port) != NIW_OK) return;
    conversation->home = carry->active;
    conversation->port = port;
    conversation->last = carry->time;
}

/* The port of an interface that carries in the active aggregator, or 0. */
static uint16_t port_carrying_on(struct core *core, const struct carry *carry, int index) {
    EACH_LINK_AS_IS(link, carry->ports)
        if (index != 0 && link->socket >= 0 && link->index == index && link->view.aggregator == carry->active
            && is_told_distributing(core, link->settings.number, true))
            return link->settings.number;
    return 0;
}

/* After the ports: data goes on where it was, as far as some ports do. What the kernel passes on knows best where it goes. The team driver has each
 * bucket where it was: it is told of none before it is known where its conversation goes on. */
void resume_conversations_or_end(struct plane *plane, bool goes_on) {
    struct carry *carry = plane->carry;
    if (goes_on) {
        recall_active_aggregator(carry, carry->process->inherited->bundle.aggregator);
        CALL(plane->carrying->go_on, plane);
        recall_answering(&carry->probe, carry, (enum answering)carry->process->inherited->answering);
    }
    for (uint16_t number = 0; goes_on && number < CONVERSATIONS; number++) {
        int member = ASK(plane->carrying->member_of, 0, plane, number);
        uint16_t port = port_carrying_on(carry->core, carry, member != 0 ? member : carry->process->inherited->members[number]);
        if (port != 0) stay_on_port(&carry->core->system, carry, &carry->conversations[number], port);
    }
    CALL(plane->passing->resume, plane->tap);
}

void resume_data(struct protocol *protocol, unsigned count) {
    const struct inherited *inherited = protocol->process->inherited;
    bool goes_on = count > 0 && inherited->bundle.aggregator <= protocol->aggregator_count;
    read_views_and_count(protocol->core, protocol->ports);
    if (goes_on) { /* which is no change of the bundle */
        protocol->bundle.state = inherited->bundle.state;
        protocol->bundle.changed_at = inherited->bundle.changed_at;
        protocol->choice = (struct choice){inherited->bundle.aggregator, inherited->follows ? inherited->bundle.aggregator : 0};
    }
    CALL(protocol->plane->carrying->resume, protocol->plane, goes_on);
}
