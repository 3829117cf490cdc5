/* Which tables of what carries the data hold. */
#include "control.h"

#define TEAM_WAY "team"

static const struct carrying NO_DEVICE = {.nameless = "-"};

static const struct passing BY_DAEMON = {.run_programs = keep_from_stack};

/* What carry, plane, offload, fast and queues choose. But for the check of a file (settings.c) their tests stand here, and nowhere else. */
void choose_plane(struct plane *plane, const struct settings *settings) {
    bool has_device = settings->carry[0] != 0, by_tap = has_device && settings->plane == PLANE_TAP;
    bool fast = by_tap && settings->fast, all_queues = by_tap && settings->all_queues;
    plane->carrying = by_tap ? &TAP_DEVICE : has_device ? &TEAM_DEVICE : &NO_DEVICE;
    plane->passing = fast ? &BY_KERNEL : &BY_DAEMON;
    plane->queueing = all_queues ? &ALL_QUEUES : &ONE_QUEUE;
    plane->way = fast ? "fast" : by_tap && settings->offload ? "offload" : by_tap || !has_device ? "plain" : TEAM_WAY;
    plane->segments = fast || (by_tap && settings->offload);
    plane->wants_fifo = plane->segments || all_queues;
    plane->renews = fast || all_queues;
}

void choose_no_plane(struct plane *plane) {
    static const struct settings none;
    choose_plane(plane, &none);
}

/* By other settings nothing goes on: what the last daemon left of its device is free, or goes. `way` is what its state called its plane. */
void leave_device(struct plane *plane, const char *way, int index, bool owned) {
    (strcmp(way, TEAM_WAY) == 0 ? TEAM_DEVICE : TAP_DEVICE).leave(plane, index, owned);
}

/* What were members of the last daemon, in whichever way it carried, and are no more, get what they had. */
void release_former_members(struct plane *plane) {
    const struct inherited *inherited = plane->carry->process->inherited;
    for (const struct inherited_link *was = inherited->links; was < inherited->links + inherited->link_count; was++) {
        bool stays = false;
        EACH_LINK(link, plane->carry->ports) stays = stays || (link->socket >= 0 && link->index == was->index);
        if (stays) continue;
        take_out_of_team_and_bring_up(plane->team, was->index);
        put_back_former(&plane->carry->process->store, inherited, plane->carry->process->folder, &plane->tap->fast, was);
    }
}
