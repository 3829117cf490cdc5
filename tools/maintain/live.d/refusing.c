/* A library that refuses one function, named by the variable REFUSED without its lagffi_: once SIGURG came, or, with REFUSED_AT_ONCE, from
 * the start. It is linked into a daemon by a --wrap of each function that is named here. */
#include <signal.h>
#include <stdlib.h>

#include "lag.h"

static volatile sig_atomic_t refuses;

static void refuse_from_now(int number) {
    (void)number;
    refuses = 1;
}

static bool is_refused(const char *name) {
    static const char *chosen;
    if (!chosen) {
        chosen = getenv("REFUSED");
        if (!chosen) chosen = "";
        if (getenv("REFUSED_AT_ONCE")) refuses = 1;
        signal(SIGURG, refuse_from_now);
    }
    return refuses && strcmp(name, chosen) == 0;
}

/* A function, and what it answers where it is refused: the status, which stands first, and else zeros. */
#define REFUSING(type, name, parameters, arguments) \
    type __real_lagffi_##name parameters; \
    type __wrap_lagffi_##name parameters; \
    type __wrap_lagffi_##name parameters { \
        uint32_t status = NIW_NO_SYSTEM; \
        type refused; \
        if (!is_refused(#name)) return __real_lagffi_##name arguments; \
        memset(&refused, 0, sizeof refused); \
        memcpy(&refused, &status, sizeof status); \
        return refused; \
    }

#define SYSTEM struct niw_system *handle
#define QUEUE struct niw_queue *handle

REFUSING(struct niw_made, new, (SYSTEM, const struct niw_config *config, const uint16_t *keys, size_t key_count, const struct niw_port *ports,
    size_t port_count), (handle, config, keys, key_count, ports, port_count))
REFUSING(struct niw_made, resume, (SYSTEM, const struct niw_config *config, const uint16_t *keys, size_t key_count, const struct niw_port *ports,
    size_t port_count, const struct niw_saved *saved, size_t saved_count), (handle, config, keys, key_count, ports, port_count, saved, saved_count))
REFUSING(uint32_t, free, (SYSTEM), (handle))
REFUSING(struct niw_received, receive, (SYSTEM, uint16_t port, const uint8_t *frame, size_t length, uint8_t *response, size_t room),
    (handle, port, frame, length, response, room))
REFUSING(uint32_t, tick, (SYSTEM), (handle))
REFUSING(uint32_t, set_link, (SYSTEM, uint16_t port, bool up), (handle, port, up))
REFUSING(struct niw_truth, configure, (SYSTEM, uint16_t port, const struct niw_change *change), (handle, port, change))
REFUSING(uint32_t, hold, (SYSTEM, uint16_t port, bool hold), (handle, port, hold))
REFUSING(uint32_t, set_mode, (SYSTEM, uint16_t port, bool active, bool short_timeout), (handle, port, active, short_timeout))
REFUSING(uint32_t, set_max_links, (SYSTEM, uint16_t max_links), (handle, max_links))
REFUSING(struct niw_sent, transmit, (SYSTEM, uint16_t port, uint8_t *frame, size_t room), (handle, port, frame, room))
REFUSING(struct niw_number, due, (SYSTEM), (handle))
REFUSING(struct niw_number, views, (SYSTEM, struct niw_view *views, size_t room), (handle, views, room))
REFUSING(struct niw_number, active_aggregator, (SYSTEM, uint16_t now), (handle, now))
REFUSING(struct niw_actor, party, (SYSTEM, uint16_t port), (handle, port))
REFUSING(struct niw_number, current_while, (SYSTEM, uint16_t port), (handle, port))
REFUSING(struct niw_number, wait_while, (SYSTEM, uint16_t port), (handle, port))
REFUSING(struct niw_truth, distributes, (SYSTEM, uint16_t port), (handle, port))
REFUSING(struct niw_number, load, (SYSTEM, uint16_t port), (handle, port))
REFUSING(struct niw_number, held, (SYSTEM, uint16_t port), (handle, port))
REFUSING(struct niw_number, conversation, (SYSTEM, const uint8_t *frame, size_t length), (handle, frame, length))
REFUSING(struct niw_marker, next_marker, (SYSTEM), (handle))
REFUSING(struct niw_assignment, conversation_state, (SYSTEM, uint16_t agg, uint16_t conv), (handle, agg, conv))
REFUSING(struct niw_number, conversation_ports, (SYSTEM, uint16_t agg, uint16_t *ports, size_t port_count, bool *changed, size_t changed_count),
    (handle, agg, ports, port_count, changed, changed_count))
REFUSING(struct niw_number, offer_conversation, (SYSTEM, uint16_t agg, uint16_t conv), (handle, agg, conv))
REFUSING(struct niw_number, offer_conversation_in_active_aggregator, (SYSTEM, uint16_t agg, uint16_t conv), (handle, agg, conv))
REFUSING(uint32_t, adopt, (SYSTEM, uint16_t agg, uint16_t conv, uint16_t port), (handle, agg, conv, port))
REFUSING(struct niw_number, answers, (SYSTEM, uint16_t port), (handle, port))
REFUSING(uint32_t, move_conversation, (SYSTEM, uint16_t agg, uint16_t conv, uint16_t port), (handle, agg, conv, port))
REFUSING(uint32_t, leave_conversation, (SYSTEM, uint16_t agg, uint16_t conv), (handle, agg, conv))
REFUSING(uint32_t, rest, (SYSTEM, uint16_t agg, uint16_t conv), (handle, agg, conv))
REFUSING(uint32_t, force, (SYSTEM, uint16_t agg, uint16_t conv), (handle, agg, conv))
REFUSING(struct niw_number, force_port, (SYSTEM, uint16_t port), (handle, port))
REFUSING(struct niw_sent, probe, (SYSTEM, uint16_t port, uint8_t *frame, size_t room), (handle, port, frame, room))
REFUSING(struct niw_decoded, decode, (const uint8_t *payload, size_t length, struct niw_pdu *pdu), (payload, length, pdu))
REFUSING(struct niw_move, next_move, (const uint16_t *ports, size_t port_count, const struct niw_carried *carried, size_t carried_count),
    (ports, port_count, carried, carried_count))
REFUSING(uint32_t, churn_tick, (struct niw_churn *churn, bool up, uint8_t actor_state, uint8_t partner_state), (churn, up, actor_state, partner_state))
REFUSING(uint32_t, count_received, (struct niw_counters *counters, const uint8_t *frame, size_t length, uint32_t what),
    (counters, frame, length, what))
REFUSING(uint32_t, count_sent, (struct niw_counters *counters, const uint8_t *frame, size_t length), (counters, frame, length))
REFUSING(uint32_t, queue_new, (QUEUE, uint16_t conversations, size_t in_all, size_t each), (handle, conversations, in_all, each))
REFUSING(uint32_t, queue_free, (QUEUE), (handle))
REFUSING(uint32_t, queue_put, (QUEUE, uint16_t conv, uint64_t frame), (handle, conv, frame))
REFUSING(struct niw_queued, queue_next, (QUEUE, uint16_t conv), (handle, conv))
REFUSING(struct niw_queued, queue_drop, (QUEUE, uint16_t conv), (handle, conv))
REFUSING(struct niw_queued, queue_oldest, (QUEUE, uint16_t conv), (handle, conv))
REFUSING(struct niw_number, queue_waiting, (QUEUE, uint16_t conv), (handle, conv))
REFUSING(struct niw_counts, queue_counts, (QUEUE), (handle))
