/* What is held for longer than a frame can be on its way, and ports that sleep. */
#include "tap.h"

/* After how many ticks without a response the same marker is sent again. */
#define AGAIN_TICKS 2
/* How long a marker may have no answer while its port distributes, in milliseconds: as a partner of short timeouts is waited for. */
#define UNANSWERED 3000

/* Whether the library tells that a port distributes, or that it does not. */
bool is_told_distributing(struct core *core, uint16_t port, bool wanted) {
    struct niw_truth answer = niw_distributes(&core->system, port);
    return is_done(core, answer.status, "niw_distributes") && answer.is == wanted;
}

/* Frees what is held on a port that does not distribute with a partner, and had no frame, for longer than frames can be on their way. A link that
 * fell silent distributes again, on defaults, 5 s after it stopped, and nobody answers its markers. */
static void force_silent_port(struct carry *carry, uint16_t port, uint64_t *since) {
    const struct link *link = &carry->ports->links[port - 1];
    uint64_t held, freed;
    bool holds = (link->view.defaulted || is_told_distributing(carry->core, port, false))
        && is_told(carry->core, niw_held(&carry->core->system, port), "niw_held", &held) && held > 0;
    if (!holds || *since == 0) *since = holds ? carry->time : 0;
    if (!holds || carry->time - *since < carry->settings->flight) return;
    *since = 0;
    if (!is_told(carry->core, niw_force_port(&carry->core->system, port), "niw_force_port", &freed)) return;
    carry->counts[FORCED] += freed;
    (void)say(carry->core->printer, LOG_WARNING | ABOUT_DATA, "port %u %s: it carries no more, and %" PRIu64 " conversations leave it", port,
        link->name, freed);
}

/* Frees a conversation from the port that it is on, or that holds it since nobody answered its marker (`held`): nothing of it was sent for a
 * flight, so its next frame overtakes none. */
static void free_conversation(struct carry *carry, struct conversation *conversation, uint16_t number, bool held) {
    struct niw_system *system = &carry->core->system;
    uint32_t status = held ? niw_force(system, conversation->home, number) : niw_rest(system, conversation->home, number);
    if (!is_done(carry->core, status, held ? "niw_force" : "niw_rest")) return;
    if (held && conversation->home == carry->active && carry->probe.peer == ANSWERS) carry->probe.peer = NOT_ASKED; /* it did not answer in time */
    carry->counts[held ? FORCED : RESTED]++;
    carry->plane->changed = true;
    conversation->since = 0;
}

/* A conversation that is held for long goes on: nothing of it was sent since. It waits for a peer that answers markers, which may have
 * been stopped for a while, and for a flight else. What is held on a port that does not distribute is for force_silent_port. */
static void force_or_rest_after_wait(struct carry *carry, struct conversation *conversation, uint16_t number, const struct niw_assignment *state) {
    bool held = is_held(state), answered = held && carry->probe.peer != MUTE && carry->settings->flight < UNANSWERED;
    if (conversation->since == 0) conversation->since = carry->time;
    if (carry->time - conversation->since < (answered ? UNANSWERED : carry->settings->flight)) return;
    if (held && !is_told_distributing(carry->core, state->port, true)) return;
    free_conversation(carry, conversation, number, held);
}

static void drop_old_force_or_rest(struct carry *carry, struct held *held, uint16_t number, uint64_t *again) {
    struct conversation *conversation = &carry->conversations[number];
    struct niw_assignment state;
    uint64_t came, longest = carry->settings->flight + 1000u;
    while (oldest_held(carry->core, held, number, &came) && carry->time - came >= longest
        && drop_held(carry->core, held, number))
        carry->counts[HELD_TOO_LONG]++;
    if (conversation->used) conversation->last = carry->time;
    conversation->used = false;
    if (conversation->home == 0 || !ask_state(carry->core, conversation->home, number, &state)) return;
    bool away = conversation->home != carry->active && carry->active != 0 && state.what == NIW_CONVERSATION_ON;
    if (state.what == NIW_CONVERSATION_FLUSHING && state.age > 0 && state.age % AGAIN_TICKS == 0)
        *again |= (uint64_t)1 << (state.port - 1);
    if (is_held(&state) || (away && !none_held(carry->core, held, number))) {
        force_or_rest_after_wait(carry, conversation, number, &state);
        return;
    }
    conversation->since = 0;
    /* Towards a peer that answers no markers, what is still for a flight may go elsewhere, once the kernel passes nothing of it. */
    if (carry->probe.peer == MUTE && state.what == NIW_CONVERSATION_ON && conversation->fast.port == 0
        && carry->time - conversation->last >= carry->settings->flight)
        free_conversation(carry, conversation, number, false);
}

void pass_flight_tick_and_send_markers(struct tap_plane *tap) {
    uint64_t again = 0;
    for (uint16_t number = 0; !tap->core->broken && number < CONVERSATIONS; number++) drop_old_force_or_rest(tap->carry, &tap->held, number, &again);
    if (tap->core->broken) return;
    pass_probe_tick(tap);
    for (uint16_t port = 1; port <= tap->ports->count; port++) {
        force_silent_port(tap->carry, port, &tap->silent_since[port - 1]);
        if (again >> (port - 1) & 1 && withdraw_and_repeat_marker(tap, port)) tap->carry->counts[MARKERS_AGAIN]++;
    }
}
