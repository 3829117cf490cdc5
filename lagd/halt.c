/* LACP ends while the device is down: nothing of the host goes there, and what comes is lost. Each peer is told that its port is out of use, the
 * ports fall silent, and all begins again once the device is up. */
#include "device.h"

/* How many ticks peers are told at most. Where three LACPDUs went within a second, the next one waits. */
#define MOST_TICKS 15

static void set_all_links_down_and_tell(struct protocol *protocol) {
    protocol->halt.silent = true;
    EACH_LINK(link, protocol->ports) set_link_send_and_tell(protocol, link, false);
}

/* Tells each peer that its port is out of use, and then nothing more. */
static void hold_ports_and_tell_peers(struct protocol *protocol) {
    EACH_LINK(link, protocol->ports) note_peer_to_tell(link);
    apply_holds(protocol->core, protocol->ports, protocol->halt.down);
    send_due(protocol);
    read_views_and_count(protocol->core, protocol->ports);
    protocol->halt.ticks = 0;
    if (end_is_told(protocol->ports)) set_all_links_down_and_tell(protocol);
}

/* The ports go on as new ones, once the kernel told of their interfaces. */
static void end_halt_and_ask_links(struct protocol *protocol) {
    apply_holds(protocol->core, protocol->ports, protocol->halt.down);
    protocol->halt.silent = false;
    ask_links(&protocol->changes, protocol->ports);
}

/* The kernel told of the device, which is up or down. At the start the ports of the last daemon go on first, so that their peers can be told. */
void halt_or_go_on_with_device(struct protocol *protocol, bool up) {
    struct halt *own = &protocol->halt;
    if (own->down == !up) return;
    own->down = !up;
    if (!protocol->process->has_started) return;
    (void)say(protocol->core->printer, LOG_WARNING | ABOUT_CARRIER, "carry %s: the device is %s", protocol->settings->carry,
        up ? "up: LACP begins" : "down: LACP ends, and begins again once it is up");
    EACH_LINK(link, protocol->ports) link->changed = true;
    if (up)
        end_halt_and_ask_links(protocol);
    else
        hold_ports_and_tell_peers(protocol);
    protocol->plane->changed = true;
    choose_and_tell_bundle(protocol);
}

/* The device was opened. Where no port goes on, no peer has to be told. */
void note_halt_at_start(struct halt *own, bool down, bool resuming) {
    own->down = down;
    own->silent = own->down && !resuming;
}

/* The ports of the last daemon went on. */
void halt_or_begin_lacp_at_start(struct protocol *protocol) {
    if (protocol->halt.down)
        (void)say(protocol->core->printer, LOG_NOTICE | ABOUT_CARRIER, "carry %s: the device is down: LACP begins once it is up",
            protocol->settings->carry);
    if (protocol->halt.down && !protocol->halt.silent) hold_ports_and_tell_peers(protocol);
    if (!protocol->halt.down && protocol->halt.silent) end_halt_and_ask_links(protocol);
}

void pass_halt_tick(struct protocol *protocol) {
    struct halt *own = &protocol->halt;
    if (!own->down || own->silent) return;
    if (++own->ticks >= MOST_TICKS || end_is_told(protocol->ports)) set_all_links_down_and_tell(protocol);
}
