/* The system of the library: time and links go in, frames come out. */
#include "lagd.h"

#include <sys/random.h>

uint64_t milliseconds_of(clockid_t clock) {
    struct timespec now;
    clock_gettime(clock, &now);
    return (uint64_t)now.tv_sec * 1000 + (uint64_t)now.tv_nsec / 1000000;
}

uint64_t milliseconds(void) {
    return milliseconds_of(CLOCK_MONOTONIC);
}

/* Also while the daemon was stopped. */
uint64_t seconds_since(uint64_t began) {
    return (milliseconds() - began) / 1000;
}

/* An identifier for the first marker that nobody can guess. More than two thousand million are above it, of which none comes twice. */
static uint32_t random_marker(void) {
    uint32_t random;
    struct timespec now;
    if (getrandom(&random, sizeof random, GRND_NONBLOCK) == sizeof random) return random % INT32_MAX + 1;
    clock_gettime(CLOCK_REALTIME, &now); /* so soon after the start of the machine */
    return ((uint32_t)now.tv_nsec ^ (uint32_t)now.tv_sec ^ (uint32_t)getpid() << 16) % INT32_MAX + 1;
}

/* Holds a port that nothing may use, whatever its link does, or lets it go; answers whether that is done. */
bool apply_hold(struct core *core, const struct link *link, bool down) {
    bool hold = ((link->held || link->leaving) && !link->emptying) || down;
    return is_done(core, niw_hold(&core->system, link->settings.number, hold), "niw_hold");
}

/* Puts a system into the empty handle, whose ports have their settings and keys of now: a warm one, where some of them were saved. */
static struct niw_made put_system(struct niw_system *own, const struct protocol *protocol, const struct niw_saved *saved, size_t count) {
    const struct niw_config *config = &protocol->settings->config;
    struct niw_port ports[NIW_MOST_PORTS];
    uint16_t slots = protocol->ports->slots;
    for (uint16_t i = 0; i < slots; i++) ports[i] = protocol->ports->links[i].settings;
    if (count == 0) return niw_new(own, config, protocol->aggregator_keys, protocol->aggregator_count, ports, slots);
    return niw_resume(own, config, protocol->aggregator_keys, protocol->aggregator_count, ports, slots, saved, count);
}

void apply_holds(struct core *core, const struct ports *ports, bool down) {
    EACH_LINK_AS_IS(link, ports)
        if (!apply_hold(core, link, down)) return;
}

/* Makes the system anew, with these ports as they were. One that the library refuses comes up as the others do. Answers how many are back. */
size_t resume_system(struct core *core, const struct protocol *protocol, struct niw_saved *saved, size_t count) {
    if (count == 0 || !is_done(core, niw_free(&core->system), "niw_free")) return 0;
    struct niw_made made = put_system(&core->system, protocol, saved, count);
    while (made.status == NIW_STALE || made.status == NIW_NOT_DISTRIBUTING) {
        size_t at = 0;
        while (at < count && saved[at].port != made.place) at++;
        if (at < count) memmove(saved + at, saved + at + 1, (count - at - 1) * sizeof *saved);
        count = at < count ? count - 1 : 0;
        made = put_system(&core->system, protocol, saved, count);
    }
    return is_done(core, made.status, "niw_resume") ? count : 0;
}

void make_ports_and_system_or_stop(struct protocol *protocol) {
    protocol->began = milliseconds();
    protocol->settings->config.first_marker = first_marker_left(protocol->process->inherited);
    if (protocol->settings->config.first_marker == 0) protocol->settings->config.first_marker = random_marker();
    choose_slots(&protocol->keys, protocol->ports, protocol->settings);
    if (!place_ports(protocol->process, protocol->ports, protocol->settings)) stop(WRONG_WORD, "too many interfaces", protocol->settings->name);
    for (uint16_t port = 1; port <= NIW_MOST_PORTS; port++) begin_link(protocol->settings, &protocol->ports->links[port - 1], port);
    keep_left_ports(protocol->process->inherited, protocol->ports, protocol->settings);
    protocol->ports->count = protocol->settings->port_count;
    protocol->aggregator_count = make_keys(&protocol->keys, protocol->ports, protocol->aggregator_keys);
    if (!is_done(protocol->core, put_system(&protocol->core->system, protocol, NULL, 0).status, "niw_new")) return;
    apply_holds(protocol->core, protocol->ports, false);
    read_views_and_count(protocol->core, protocol->ports);
}

static void send_due_of(struct protocol *protocol, struct link *link) {
    uint8_t frame[NIW_FRAME];
    for (;;) {
        struct niw_sent due = niw_transmit(&protocol->core->system, link->settings.number, frame, sizeof frame);
        if (!is_done(protocol->core, due.status, "niw_transmit") || !due.is) return;
        if (due.what == NIW_SENT_MARKER)
            CALL(protocol->plane->carrying->send_marker, protocol->plane, link, frame);
        else
            send_frame(protocol->core, &protocol->changes.suspected, link, frame);
    }
}

/* Sends what is due: after each call that may change anything, since one about a port may make a frame due on another. */
void send_due(struct protocol *protocol) {
    uint64_t due;
    if (protocol->process->resuming || !is_told(protocol->core, niw_due(&protocol->core->system), "niw_due", &due)) return;
    for (uint16_t i = 0; i < protocol->ports->count; i++)
        if (due >> i & 1) send_due_of(protocol, &protocol->ports->links[i]);
}

/* After calls that may have changed ports: what is due goes out, their views are read, and the plane looks at them again. */
void send_due_and_read_views(struct protocol *protocol) {
    send_due(protocol);
    read_views_and_count(protocol->core, protocol->ports);
    protocol->plane->changed = true;
}

/* Sends again what did not go before this tick, if nothing newer was due since. */
void send_again(struct core *core, bool *carrier_suspected, struct ports *ports) {
    EACH_LINK(link, ports)
        if (link->unsent && !link->tried) send_frame(core, carrier_suspected, link, link->frame);
}

void set_link_send_and_tell(struct protocol *protocol, struct link *link, bool up) {
    if (link->up == up) return;
    link->up = up;
    link->unsent = false;
    link->changed = true;
    if (!up) {
        if (!protocol->halt.silent && !link->away) link->counts[LOSSES]++;
        link->away = false;
        forget_partner(protocol->settings, link);
        CALL(protocol->plane->carrying->lose, protocol->plane, link);
    }
    if (protocol->process->resuming
        || !is_done(protocol->core, niw_set_link(&protocol->core->system, link->settings.number, up), "niw_set_link"))
        return;
    send_due_and_read_views(protocol);
    (void)print_change(protocol->core, protocol, link);
}

void lose_and_release_link(struct protocol *protocol, struct link *link) {
    set_waiting(link, false);
    set_link_send_and_tell(protocol, link, false);
    withdraw_and_release_interface_or_end(protocol->plane, &protocol->process->store, link);
    (void)print_change(protocol->core, protocol, link);
}

/* 100 ms passed; answers whether the library took that. Churn detection goes by what it tells of the ports then. The partner of a port that
 * runs on defaults is forgotten, and so is, after a while, what failed of a link. */
bool pass_system_tick(struct core *core, struct ports *ports) {
    bool taken = is_done(core, niw_tick(&core->system), "niw_tick");
    if (!taken) return false;
    read_views_and_count(core, ports);
    EACH_LINK(link, ports) {
        const struct niw_view *view = &link->view;
        uint32_t status = niw_churn_tick(&link->churn, view->up, view->state, view->partner_state);
        taken = is_done(core, status, "niw_churn_tick") && taken;
        if (view->receive_state == NIW_RECEIVE_DEFAULTED) forget_partner(core->settings, link);
        link->tried = false;
        if (link->trouble_ticks == 0 || --link->trouble_ticks > 0) continue;
        link->trouble = 0;
        link->changed = true;
    }
    return taken;
}

/* A port is about to leave its aggregator: its peer has to be told, if it has one. */
void note_peer_to_tell(struct link *link) {
    link->to_tell = link->up && link->view.mux_state >= NIW_MUX_ATTACHED;
    link->sent_before_end = link->counters.lacpdus_sent;
}

/* Takes each port out of its aggregator, by a key that none has, and so tells the peers that they have to stop. */
void leave_aggregators_and_tell_peers(struct protocol *protocol) {
    uint16_t key = free_key(&protocol->keys, protocol->ports, 0, NULL);
    EACH_LINK(link, protocol->ports) {
        struct niw_change leave = {.key = key, .priority = link->settings.priority, .aggregatable = link->settings.aggregatable};
        uint32_t status = niw_configure(&protocol->core->system, link->settings.number, &leave).status;
        note_peer_to_tell(link);
        link->to_tell = is_done(protocol->core, status, "niw_configure") && link->to_tell;
    }
    send_due(protocol);
}

/* Whether each peer was told. Where three LACPDUs were sent within a second, the next one waits. */
bool end_is_told(const struct ports *ports) {
    EACH_LINK_AS_IS(link, ports)
        if (link->to_tell && link->up && link->counters.lacpdus_sent == link->sent_before_end) return false;
    return true;
}

/* Says of each port that the daemon has ended, and frees the system; answers whether the library never refused a call. */
bool end_bundle_and_system(struct core *core, struct bundle *own, const struct ports *ports, const struct control *control) {
    EACH_LINK_AS_IS(link, ports)
        if (link->used) (void)say(core->printer, LOG_NOTICE | ABOUT_END, "port %u %s: ended", link->settings.number, link->name);
    enter_down_state_run_hook_and_tell_all(core, own, control);
    return is_done(core, niw_free(&core->system), "niw_free") && !core->broken;
}
