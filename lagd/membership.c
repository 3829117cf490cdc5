/* Ports that come and go while the daemon runs. The system of the library has room for more ports than there are interfaces, so that none negotiates
 * anew: a port that comes takes a free number, and one that goes leaves it free. Its peer is told first: the port is held until its conversations
 * have left it and the peer sends nothing more there, or for a while. */
#include "state.h"
#include "device.h"
#include "netlink.h"

#include <net/if_arp.h>

/* For how long a port that goes still answers the markers of its peer, once nothing is on its way any more, in milliseconds. */
#define LINGERS 1000
/* For how long a conversation may wait for a marker, as flight.c has it, and the peer for an LACPDU. */
#define MOST_WAIT 3000
/* For how long a lock may be one that is on its way to be free, as a manager of services closes what it kept a moment later, in milliseconds. */
#define LOCK_WAIT 1000

static const char LOCKED[] = "another lagd has it";

uint16_t count_links(const struct ports *ports) {
    uint16_t count = 0;
    EACH_LINK_AS_IS(link, ports)
        if (link->used && !link->leaving) count++;
    return count;
}

static struct link *link_named(struct ports *ports, const char *name) {
    EACH_LINK(link, ports)
        if (link->used && strcmp(link->name, name) == 0) return link;
    return NULL;
}

/* The number that a port has, or had in the last daemon; 0 for none. */
static uint16_t known_port_number(const struct process *process, const struct ports *ports, const char *name) {
    const struct inherited *inherited = process->inherited;
    EACH_LINK_AS_IS(link, ports)
        if (link->used && strcmp(link->name, name) == 0) return link->settings.number;
    for (unsigned i = 0; !process->has_started && i < inherited->port_count; i++)
        if (strcmp(inherited->ports[i].name, name) == 0 && inherited->ports[i].number <= ports->slots) return inherited->ports[i].number;
    return 0;
}

/* Whether the last daemon left a port whose peer takes it for one of the bundle. */
static bool was_carrying(const struct inherited *inherited, const struct inherited_port *port) {
    for (unsigned i = 0; i < inherited->link_count; i++)
        if (port->index != 0 && inherited->links[i].index == port->index) return inherited->links[i].carried;
    return false;
}

/* Numbers these ports. One that is there, or was in the last daemon, keeps its number, and a new one has the lowest that is free: that of no port
 * that is there or, where so asked, is still to leave. Answers whether each found one. */
static bool number_ports(const struct process *process, const struct ports *ports, const struct port_settings *given,
    uint16_t count, uint16_t *numbers, bool with_left) {
    const struct inherited *inherited = process->inherited;
    bool taken[NIW_MOST_PORTS + 1] = {true}; /* by number: there is no port 0 */
    EACH_LINK_AS_IS(link, ports) taken[link->settings.number] = link->used;
    for (unsigned i = 0; with_left && i < inherited->port_count; i++)
        if (inherited->ports[i].number <= ports->slots && was_carrying(inherited, &inherited->ports[i]))
            taken[inherited->ports[i].number] = true;
    for (uint16_t i = 0; i < count; i++) {
        numbers[i] = known_port_number(process, ports, given[i].name);
        taken[numbers[i]] = true;
    }
    for (uint16_t i = 0, lowest = 0; i < count; i++) {
        if (numbers[i] != 0) continue;
        while (lowest <= ports->slots && taken[lowest]) lowest++;
        if (lowest > ports->slots) return false;
        numbers[i] = lowest++;
    }
    return true;
}

/* Puts the ports of settings into the places of their numbers; answers whether each found one. Where there is no room beside ports that the last
 * daemon left, these give way at the start. */
bool place_ports(const struct process *process, const struct ports *ports, struct settings *settings) {
    struct port_settings given[NIW_MOST_PORTS];
    uint16_t numbers[NIW_MOST_PORTS], count = settings->port_count;
    memcpy(given, settings->ports, sizeof given);
    bool fits = !process->has_started && number_ports(process, ports, given, count, numbers, true);
    if (!fits && !number_ports(process, ports, given, count, numbers, false)) return false;
    for (uint16_t i = 0; i < NIW_MOST_PORTS; i++) settings->ports[i] = unset_port();
    settings->port_count = 0;
    for (uint16_t i = 0; i < count; i++) {
        settings->ports[numbers[i] - 1] = given[i];
        if (numbers[i] > settings->port_count) settings->port_count = numbers[i];
    }
    return true;
}

/* Ports of the last daemon that the file has no more go on, so that their peers can be told, or as long as they are in the device. */
void keep_left_ports(const struct inherited *inherited, struct ports *ports, struct settings *settings) {
    for (const struct inherited_port *port = inherited->ports; port < inherited->ports + inherited->port_count; port++) {
        struct link *link = &ports->links[port->number - 1];
        if (port->number > ports->slots || link->used || !was_carrying(inherited, port)) continue;
        memcpy(settings->ports[port->number - 1].name, port->name, sizeof port->name);
        if (port->number > settings->port_count) settings->port_count = port->number;
        begin_link(settings, link, port->number);
        link->left_over = !settings->follow;
        link->followed = settings->follow;
    }
}

/* A port begins, as the settings have it. What the library tells of it stays. */
void begin_link(const struct settings *settings, struct link *link, uint16_t port) {
    *link = (struct link){.name = settings->ports[port - 1].name, .settings = port_of(settings, port), .socket = -1, .lock = -1,
        .carrier_file = -1, .lines_left = MOST_LINES, .changed = true, .view = link->view};
    link->key = link->settings.key;
    link->used = link->name[0] != 0;
    link->held = wants_hold(settings, port);
    forget_partner(settings, link);
}

/* Gives the library what the settings have of a port; answers whether it took that. */
static bool set_key_mode_and_hold(struct core *core, struct keys *keys, const struct ports *ports, struct link *link, bool down) {
    struct niw_change change = {.key = choose_key(keys, ports, core->settings, link),
        .priority = link->settings.priority, .aggregatable = link->settings.aggregatable};
    uint16_t port = link->settings.number;
    link->settings.key = change.key;
    return is_done(core, niw_configure(&core->system, port, &change).status, "niw_configure")
        && is_done(core, niw_set_mode(&core->system, port, link->settings.active, link->settings.short_timeout), "niw_set_mode")
        && apply_hold(core, link, down);
}

void join_port_and_ask_now(struct protocol *protocol, struct link *link, const struct port_settings *settings) {
    uint16_t port = link->settings.number;
    protocol->settings->ports[port - 1] = *settings;
    if (port > protocol->ports->count) protocol->settings->port_count = protocol->ports->count = port;
    begin_link(protocol->settings, link, port);
    link->puts_in = true;
    CALL(protocol->plane->carrying->forget, protocol->plane, link);
    if (!set_key_mode_and_hold(protocol->core, &protocol->keys, protocol->ports, link, protocol->halt.down)) return;
    (void)say(protocol->core->printer, LOG_NOTICE | ABOUT_PORT, "port %u %s: it joins the bundle", port, link->name);
    ask_now(&protocol->changes, protocol->ports);
}

/* The number of a port is free. Its interface is as it was before it was a member. */
static void release_port_and_number(struct protocol *protocol, struct link *link) {
    uint16_t port = link->settings.number;
    link->used = false; /* no line tells that its interface is missing */
    if (link->socket >= 0) lose_and_release_link(protocol, link);
    (void)say(protocol->core->printer, LOG_NOTICE | ABOUT_PORT, "port %u %s: it left the bundle", port, link->name);
    protocol->settings->ports[port - 1] = unset_port();
    begin_link(protocol->settings, link, port);
    protocol->plane->changed = true;
    choose_and_tell_bundle(protocol);
}

/* A port is to be out of use, or to be used again; answers whether that is done. First its conversations move to others, behind markers, so that
 * nothing of ours is on its way there once the peer takes nothing more. */
bool begin_emptying_or_apply_hold(struct protocol *protocol, struct link *link) {
    bool out_of_use = link->held || link->leaving;
    link->leaves_since = milliseconds();
    link->left_at = 0;
    link->emptying = out_of_use && ASK(protocol->plane->carrying->can_empty, false, protocol->plane, link);
    protocol->plane->changed = true;
    if (link->emptying) return true;
    if (out_of_use) CALL(protocol->plane->carrying->drain, protocol->plane, link);
    return apply_hold(protocol->core, link, protocol->halt.down);
}

/* A port that is emptied is held, once it is empty, or after a while. */
static void go_on_emptying_or_hold(struct protocol *protocol, struct link *link) {
    if (link->up && milliseconds() - link->leaves_since < MOST_WAIT && !ASK(protocol->plane->carrying->empty, true, protocol->plane, link)) return;
    link->emptying = false;
    link->leaves_since = milliseconds();
    CALL(protocol->plane->carrying->drain, protocol->plane, link);
    if (apply_hold(protocol->core, link, protocol->halt.down)) send_due_and_read_views(protocol);
}

/* A port goes: its peer is told, and its conversations leave it. One whose link is down is gone at once. */
void leave_port(struct protocol *protocol, struct link *link) {
    if (link->leaving) return;
    link->leaving = link->changed = true;
    if (!link->up) {
        release_port_and_number(protocol, link);
        return;
    }
    (void)say(protocol->core->printer, LOG_NOTICE | ABOUT_PORT, "port %u %s: it leaves the bundle", link->settings.number, link->name);
    if (begin_emptying_or_apply_hold(protocol, link)) send_due_and_read_views(protocol);
}

void stay_port(struct protocol *protocol, struct link *link) {
    if (!link->leaving) return;
    link->leaving = false;
    link->changed = true;
    (void)say(protocol->core->printer, LOG_NOTICE | ABOUT_PORT, "port %u %s: it stays in the bundle", link->settings.number, link->name);
    if (begin_emptying_or_apply_hold(protocol, link)) send_due_and_read_views(protocol);
}

/* Whether nothing of ours is on a link that is held, and its partner sends nothing more there, as far as it tells. */
static bool has_nothing_under_way(struct core *core, const struct link *link) {
    uint64_t load = 0, held = 0;
    bool stopped = link->view.defaulted || !(link->view.partner_state & (NIW_STATE_COLLECTING | NIW_STATE_DISTRIBUTING));
    return stopped && is_told(core, niw_load(&core->system, link->settings.number), "niw_load", &load) && load == 0
        && is_told(core, niw_held(&core->system, link->settings.number), "niw_held", &held) && held == 0;
}

/* Notes whether a port has left: nothing is under way there, and was so while its peer may ask for responses to its markers, or it was waited for
 * long enough. */
static bool note_whether_left(struct core *core, struct link *link) {
    uint64_t now = milliseconds(), most = core->settings->flight > MOST_WAIT ? core->settings->flight : MOST_WAIT;
    if (!link->up) return true;
    if (link->emptying) return false;
    if (link->left_at == 0 && (has_nothing_under_way(core, link) || now - link->leaves_since >= most)) link->left_at = now;
    return link->left_at != 0 && now - link->left_at >= LINGERS;
}

/* 100 ms passed. A port that the device alone had, and has no more, leaves. */
void pass_leaving_tick(struct protocol *protocol) {
    EACH_LINK(link, protocol->ports) {
        if (protocol->core->broken) return;
        if (protocol->settings->follow && link->used && link->followed && link->outside) leave_port(protocol, link);
        if (link->emptying) go_on_emptying_or_hold(protocol, link);
        if (link->leaving && note_whether_left(protocol->core, link)) release_port_and_number(protocol, link);
    }
}

/* The ports of the last daemon went on: those that the file has no more leave. */
void leave_left_ports(struct protocol *protocol) {
    EACH_LINK(link, protocol->ports)
        if (link->used && link->left_over) leave_port(protocol, link);
}

/* Whether the daemon puts an interface into the device: where others choose its ports, only what the administrator asked for, and what a file has as
 * the device is made. */
bool may_put_in(const struct protocol *protocol, const struct link *link) {
    return !protocol->settings->follow || link->puts_in || (!protocol->process->has_started && protocol->plane->is_new);
}

/* Notes whether an interface is no port, as others choose the ports of the device and it is not in there. */
bool note_whether_outside(const struct protocol *protocol, struct link *link, int master) {
    bool outside = !may_put_in(protocol, link) && master != protocol->device->index;
    link->changed = link->changed || link->outside != outside;
    link->outside = outside;
    return outside;
}

/* Others took a port out of the device: its peer is told, as far as the interface still sends. */
void hold_once_to_tell_peer(struct protocol *protocol, const struct link *link) {
    if (!protocol->settings->follow || !protocol->process->has_started) return;
    if (!is_done(protocol->core, niw_hold(&protocol->core->system, link->settings.number, true), "niw_hold")) return;
    send_due(protocol);
    (void)!apply_hold(protocol->core, link, protocol->halt.down);
}

/* A number that no port has, as its place, or NULL. */
static struct link *find_free_place(struct ports *ports) {
    for (struct link *link = ports->links; link < ports->links + ports->slots; link++)
        if (!link->used) return link;
    return NULL;
}

/* The kernel told of an interface that is no port. Where it is in a device whose ports others choose, it becomes one. That may be older than what was
 * done since, as one that leaves is taken out: it is asked. */
void join_followed_port(struct protocol *protocol, const struct interface *interface) {
    struct port_settings settings = unset_port();
    struct interface now;
    struct link *link = find_free_place(protocol->ports);
    if (!protocol->settings->follow || interface->master == 0 || interface->master != protocol->device->index || interface->type != ARPHRD_ETHER)
        return;
    if (!link || !ask_interface(interface->index, NULL, &now) || now.master != interface->master) return;
    memcpy(settings.name, interface->name, sizeof interface->name);
    join_port_and_ask_now(protocol, link, &settings);
    link->followed = link->present = true;
    link->puts_in = false; /* others did, and may have taken it out since */
}

/* The interface of a port that the device alone has was given another name: it is the same port. Answers whether it is. */
bool take_and_tell_new_name(struct protocol *protocol, const struct link *link, const struct interface *interface) {
    char *name = protocol->settings->ports[link->settings.number - 1].name;
    if (!link->followed || link->leaving || interface->master != protocol->device->index || link_named(protocol->ports, interface->name))
        return false;
    (void)say(protocol->core->printer, LOG_NOTICE | ABOUT_PORT, "port %u %s: its name is %s now", link->settings.number, name, interface->name);
    memcpy(name, interface->name, sizeof interface->name);
    write_report_and_tell_watchers(protocol->core, protocol->control, link);
    return true;
}

/* Tries the lock of an interface that is to be a port; answers why it can be none now, or NULL. */
static const char *try_lock_of_interface(struct process *process, const struct ports *ports, const char *name) {
    struct interface interface;
    if (strcmp(name, process->settings->carry) == 0) return "it is the device itself";
    if (!ask_interface(0, name, &interface)) return "there is no such interface";
    if (interface.type != ARPHRD_ETHER) return "it is no Ethernet interface";
    EACH_LINK_AS_IS(link, ports)
        if (link->used && link->socket >= 0 && link->index == interface.index) return "it is a port by another name";
    int lock = lock_interface(&process->store, process->inherited, interface.index);
    if (lock < 0) return lock == -EADDRINUSE ? LOCKED : strerror(-lock);
    close_stored(&process->store, "lock", interface.index, lock);
    return NULL;
}

/* Adds a port by INTERFACE[:WORD,..], or keeps one that leaves; answers what is wrong, of which some is written into `room`, or NULL, and its number. */
static const char *add_or_keep_by_words(struct protocol *protocol, char *text, uint16_t *port, char room[static ORDER_ROOM]) {
    struct settings wanted = {.port_count = 0};
    struct port_settings *settings = &wanted.ports[0];
    const char *found, *expected = add_port_by_words(&protocol->process->words, text, &wanted, &found);
    text[strcspn(text, ":")] = 0;
    if (expected) {
        snprintf(room, ORDER_ROOM, "%.32s%sexpected %s", found == text ? "" : found, found == text ? "" : ": ", expected);
        return room;
    }
    struct link *known = link_named(protocol->ports, settings->name), *link = known ? known : find_free_place(protocol->ports);
    const char *fault = known ? NULL : try_lock_of_interface(protocol->process, protocol->ports, settings->name);
    if (known && !known->leaving) return "it is a port already";
    if (fault) return fault;
    if (settings->key != AS_BUNDLE && !has_aggregator(&protocol->keys, (uint16_t)settings->key))
        return "no port had this key at the start: a restart of this bundle makes aggregators of it";
    if (!link) return "there is no room for one more port: a restart of this bundle makes it";
    *port = link->settings.number;
    if (known) {
        stay_port(protocol, known);
        protocol->settings->ports[*port - 1] = *settings;
        if (change_port(protocol, known, protocol->settings)) send_due_and_read_views(protocol);
    } else {
        join_port_and_ask_now(protocol, link, settings);
    }
    return NULL;
}

/* Puts a port out of use, or lets it be used again; answers whether it is done, as far as anything is on its way. */
static bool hold_by_word(struct protocol *protocol, struct link *link, bool hold) {
    if (link->held != hold) {
        (void)say(protocol->core->printer, LOG_NOTICE | ABOUT_PORT, "port %u %s: it is %s", link->settings.number, link->name,
            hold ? "held" : "used again");
        link->held = hold;
        if (!begin_emptying_or_apply_hold(protocol, link)) return true;
        protocol->settings->ports[link->settings.number - 1].hold = hold;
        send_due_and_read_views(protocol);
    }
    return !hold || note_whether_left(protocol->core, link);
}

/* Whether the lock of an interface may be free soon: it is waited for a second, and whoever asks later begins anew. */
static bool note_wanted_and_may_be_free_soon(struct wanted_lock *own, const char *name) {
    uint64_t now = milliseconds();
    if (strcmp(own->name, name) != 0 || now - own->since >= (uint64_t)2 * LOCK_WAIT) {
        snprintf(own->name, sizeof own->name, "%s", name);
        own->since = now;
    }
    return now - own->since < LOCK_WAIT;
}

/* Does what somebody asks for, `add`, `remove`, `hold` or `release` of an interface, and answers: `done`, `wait` where it is to be asked again, as
 * `removed` is, or a refusal, and a line end. */
void obey_order_and_answer(struct protocol *protocol, char *order, char answer[static ORDER_ROOM]) {
    char *name = strchr(order, ' ') + 1, room[ORDER_ROOM];
    bool removes = strncmp(order, "remove ", 7) == 0, done = true;
    struct link *link = link_named(protocol->ports, name);
    const char *fault = NULL;
    uint16_t port = link ? link->settings.number : 0;
    if (strncmp(order, "add ", 4) == 0) {
        fault = add_or_keep_by_words(protocol, name, &port, room);
        done = fault != LOCKED || !note_wanted_and_may_be_free_soon(&protocol->wanted_lock, name);
        if (!done) fault = NULL;
    } else if (strncmp(order, "removed ", 8) == 0) {
        done = link == NULL;
        if (link && !link->leaving) fault = "it stays in the bundle";
    } else if (!link || (link->leaving && !removes)) {
        fault = "it is no port of this bundle";
    } else if (removes) {
        leave_port(protocol, link);
        done = !link->used;
    } else {
        done = hold_by_word(protocol, link, strncmp(order, "hold ", 5) == 0);
    }
    if (fault)
        snprintf(answer, ORDER_ROOM, REFUSAL "%.127s: %.180s\n", name, fault);
    else if (port > 0)
        snprintf(answer, ORDER_ROOM, "%s: port %u %.127s\n", done ? "done" : "wait", port, name);
    else
        snprintf(answer, ORDER_ROOM, "%s: %.127s\n", done ? "done" : "wait", name);
}
