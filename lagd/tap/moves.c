/* Moves of conversations behind markers: so that each port has as many busy ones, and those that are asked for. */
#include "carry.h"

/* Whether it is known that no conversation is held on a port that carries. */
static bool none_moves(struct core *core, const struct carry *carry) {
    uint64_t held;
    for (uint16_t i = 0; i < carry->active_count; i++)
        if (!is_told(core, niw_held(&core->system, carry->active_ports[i]), "niw_held", &held) || held > 0) return false;
    return true;
}

static bool move_conversation(struct carry *carry, uint16_t number, uint16_t port) {
    uint32_t status = niw_move_conversation(&carry->core->system, carry->active, number, port);
    if (status >= NIW_HELD && status <= NIW_MARKERS_SPENT) return false;
    if (!is_done(carry->core, status, "niw_move_conversation")) return false;
    carry->conversations[number].port = port;
    carry->counts[MOVES]++;
    return ask_ports(carry->core, carry->active, carry->port_of);
}

static uint16_t port_behind(const struct carry *carry, uint16_t port) {
    for (uint16_t i = 0; i < carry->active_count; i++)
        if (carry->active_ports[i] > port) return carry->active_ports[i];
    return carry->active_ports[0];
}

static bool move_asked(struct carry *carry) {
    bool any = false;
    for (uint16_t number = 0; number < CONVERSATIONS; number++) {
        struct conversation *conversation = &carry->conversations[number];
        uint16_t port = carry->port_of[number];
        bool wanted = conversation->asked && is_busy(carry, conversation) && port != 0;
        conversation->asked = false;
        any = (wanted && move_conversation(carry, number, port_behind(carry, port))) || any;
    }
    return any;
}

/* Moves busy conversations from ports that have most of them to one that has fewest, until the numbers differ by one at most. The
 * library tells each move. A conversation that is on no port counts for none, until its next frame. */
static bool level_loads(struct carry *carry) {
    struct niw_carried carried[CONVERSATIONS];
    bool any = false;
    for (uint16_t number = 0; number < CONVERSATIONS; number++)
        carried[number] = (struct niw_carried){carry->port_of[number], is_busy(carry, &carry->conversations[number])};
    for (;;) {
        struct niw_move next = niw_next_move(carry->active_ports, carry->active_count, carried, CONVERSATIONS);
        if (!is_done(carry->core, next.status, "niw_next_move") || !next.is || !move_conversation(carry, next.conversation, next.port)) return any;
        carried[next.conversation].port = next.port;
        any = true;
    }
}

bool can_empty(const struct plane *plane, const struct link *link) {
    const struct carry *carry = plane->carry;
    unsigned others = 0;
    for (uint16_t i = 0; i < carry->active_count; i++) others += carry->active_ports[i] != link->settings.number;
    return others > 0 && carry->probe.peer == ANSWERS && carry->active != 0 && link->view.aggregator == carry->active;
}

bool empty_port_and_send(struct plane *plane, const struct link *link) {
    struct carry *carry = plane->carry;
    uint16_t port = link->settings.number;
    unsigned loads[NIW_MOST_PORTS + 1] = {0};
    uint64_t load, held;
    if (!can_empty(plane, link) || !ask_ports(carry->core, carry->active, carry->port_of)) return true;
    for (uint16_t number = 0; number < CONVERSATIONS; number++) loads[carry->port_of[number]]++;
    for (uint16_t number = 0; number < CONVERSATIONS; number++) {
        if (carry->port_of[number] != port) continue;
        uint16_t other = carry->active_ports[0];
        for (uint16_t i = 1; i < carry->active_count; i++)
            if (loads[carry->active_ports[i]] < loads[other]) other = carry->active_ports[i];
        if (move_conversation(carry, number, other)) loads[other]++;
    }
    send_due(carry->protocol);
    return is_told(carry->core, niw_load(&carry->core->system, port), "niw_load", &load) && load == 0
        && is_told(carry->core, niw_held(&carry->core->system, port), "niw_held", &held) && held == 0;
}

/* Moves what has to move, once a tick, towards a peer that answers markers: one marker of a port tells of all that leave it. */
void balance_and_send(struct carry *carry) {
    EACH_LINK_AS_IS(link, carry->ports)
        if (link->emptying || awaits_collecting(carry, link->settings.number)) return;
    if (carry->active_count < 2 || carry->probe.peer != ANSWERS || !none_moves(carry->core, carry)
        || !ask_ports(carry->core, carry->active, carry->port_of))
        return;
    if (move_asked(carry) || level_loads(carry)) send_due(carry->protocol);
}

void mark_busy_to_move(struct carry *carry) {
    EACH_CONVERSATION(conversation, carry) conversation->asked = is_busy(carry, conversation);
}
