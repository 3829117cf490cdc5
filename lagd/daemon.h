/* What one daemon is: its parts, and which of them each of them knows. */
#ifndef LAGD_DAEMON_H
#define LAGD_DAEMON_H

#include "control.h"

struct lagd {
    struct process process;
    struct core core;
    struct settings settings; /* those that hold now */
    struct inherited inherited;
    struct ports ports;
    struct device device;
    struct plane plane;
    struct protocol protocol;
    struct carry carry;
    struct tap_plane tap;
    struct team_plane team;
    struct state state;
    struct control control;
};

/* Joins the parts of a daemon that has nothing yet, and is zeros. What is large is set by its fields: what nobody uses takes no memory. */
#define JOIN(part, lagd) \
    ((part)->process = &(lagd)->process, (part)->core = &(lagd)->core, (part)->settings = &(lagd)->settings, (part)->ports = &(lagd)->ports, \
        (part)->protocol = &(lagd)->protocol, (part)->device = &(lagd)->device, (part)->plane = &(lagd)->plane)
static inline void join_parts(struct lagd *lagd) {
    lagd->process = (struct process){.settings = &lagd->settings, .inherited = &lagd->inherited, .epoll_file = -1, .status.listener = -1,
        .printer = {.process = &lagd->process, .watchers = &lagd->process.status, .output = -1, .journal = -1}};
    lagd->core.printer = &lagd->process.printer;
    lagd->core.settings = &lagd->settings;
    lagd->device = (struct device){.process = &lagd->process, .plane = &lagd->plane, .tap = -1, .asker = -1, .most_mtu = ETH_DATA_LEN};
    lagd->state = (struct state){.carry = &lagd->carry, .copy_folder = -1, .lock = -1, .copied = -1};
    lagd->plane = (struct plane){.device = &lagd->device, .carry = &lagd->carry, .tap = &lagd->tap, .team = &lagd->team, .changed = true};
    lagd->protocol = (struct protocol){.process = &lagd->process, .core = &lagd->core, .settings = &lagd->settings, .ports = &lagd->ports,
        .device = &lagd->device, .plane = &lagd->plane, .control = &lagd->control, .bundle.lines_left = MOST_LINES};
    JOIN(&lagd->carry, lagd);
    JOIN(&lagd->tap, lagd);
    JOIN(&lagd->team, lagd);
    JOIN(&lagd->control, lagd);
    lagd->carry.state = &lagd->state;
    lagd->tap.carry = lagd->team.carry = lagd->control.carry = &lagd->carry;
    lagd->tap.dropper = lagd->tap.answer_timer = lagd->tap.host.tap = lagd->tap.fast.sender = lagd->tap.fast.handover = lagd->team.lock = -1;
    for (unsigned i = 0; i < NIW_MOST_PORTS; i++)
        for (enum socket_kind kind = DATA; kind < SOCKETS; kind++) lagd->tap.members[i].sockets[kind] = -1;
}

/* A daemon is made: its memory goes with the program. */
static inline struct lagd *make_lagd_or_stop(void) {
    struct lagd *lagd = allocate_or_stop(sizeof *lagd);
    join_parts(lagd);
    lagd->process.printer.report = allocate_or_stop(sizeof *lagd->process.printer.report);
    choose_no_plane(&lagd->plane);
    return lagd;
}

#endif
