/* Data that the kernel passes on by itself, by what the library answered. Each conversation has a row in a table that the programs of
 * kernel/programs.bpf.c read: the member on which its frames go, or none, and how many are on their way to the daemon. The daemon names a
 * member only while none is, and takes the name back before a marker goes: then it waits until each frame for which the old row was
 * read is with the member. All that the kernel runs is held by files of this process, and ends with it. */
#include "control.h"

#include <linux/membarrier.h>
#include <sys/syscall.h>

/* How long the conversations of a link that went down wait, in milliseconds: the peer's kernel may still have frames to hand up. */
#define DOWN_WAIT 100
/* With more frames left than this, while none waits, frames were lost on their way to the daemon. */
#define MOST_BETWEEN 64
/* For how long frames of the host are taken without a word of the daemon, in milliseconds: as long as the peer waits for an LACPDU. */
#define OPEN_FOR 3000

/* Waits until each program that runs now, and what it does with its frame, is done; answers whether the kernel can. */
static bool wait_for_programs(void) {
    return syscall(SYS_membarrier, MEMBARRIER_CMD_GLOBAL, 0, 0) == 0;
}

static int load_or_stop(const struct settings *settings, const char *name, const struct fast_maps *maps) {
    char reason[REASON_ROOM];
    int program = load_program_or_stop(settings, name, maps, reason);
    if (program < 0) stop(REFUSED, "fast: the kernel takes no program", reason);
    return program;
}

/* Has a program run at the TAP device; answers what keeps it there. */
static int run_program_or_stop(struct store *store, const struct settings *settings, int index, const char *name, const struct fast_maps *maps,
    bool egress) {
    CLOSED_FILE int program = load_or_stop(settings, name, maps);
    int opened = attach_stored(store, name, program, index, egress);
    if (opened < 0) stop(REFUSED, "fast: no program of an interface, which Linux has from 6.6 on", strerror(-opened));
    return opened;
}

/* A table that the programs share with the daemon: that of the last daemon, where that left one and its device goes on, or a new one. */
static void *open_map_or_stop(struct store *store, bool goes_on, int number, uint32_t size, uint32_t count, int *map) {
    *map = claim_stored(store, "map", number);
    void *at = *map >= 0 && goes_on ? map_again(size, count, *map) : NULL;
    if (at) return at;
    if (*map >= 0) close_stored(store, "map", number, *map);
    at = make_map(size, count, map);
    need(at != NULL, "fast: no table of the kernel");
    put_stored(store, "map", number, *map);
    return at;
}

/* What a count of the kernel has since it was taken last. */
static uint64_t take_count(uint64_t *count) {
    return __atomic_exchange_n(count, 0, __ATOMIC_SEQ_CST);
}

/* What the kernel did for the last daemon is no count of this one, and ports that are no more collect nothing. */
static void begin_tables(struct fast_programs *own, uint16_t ports) {
    for (uint16_t number = 0; number < CONVERSATIONS; number++) own->rows[number].passed = own->rows[number].overflowed = 0;
    for (uint16_t i = 0; i < NIW_MOST_PORTS; i++) {
        struct fast_member *entry = &own->entries[i];
        entry->passed_up = entry->uncollected = entry->wrong_length = 0;
        if (i >= ports) __atomic_store_n(&entry->up_to, 0, __ATOMIC_SEQ_CST);
    }
    own->host->overflowed = own->host->unfit = 0;
}

static void start_fast_or_stop(struct tap_plane *tap) {
    struct fast_programs *own = &tap->fast;
    struct fast_maps maps;
    int device = tap->device->index;
    bool goes_on = tap->process->inherited->tap != 0 && tap->process->inherited->tap == device;
    need(wait_for_programs(), "fast: the kernel cannot wait for its programs (membarrier)");
    own->rows = open_map_or_stop(&tap->process->store, goes_on, 0, sizeof *own->rows, CONVERSATIONS, &maps.rows);
    own->entries = open_map_or_stop(&tap->process->store, goes_on, 1, sizeof *own->entries, NIW_MOST_PORTS, &maps.members);
    own->host = open_map_or_stop(&tap->process->store, goes_on, 2, sizeof *own->host, 1, &maps.host);
    own->places = open_map_or_stop(&tap->process->store, goes_on, 3, sizeof *own->places, PLACES, &maps.places);
    begin_tables(own, tap->ports->count);
    if (own->host->mac == 0) memcpy(&own->host->mac, tap->settings->config.mac, ETH_ALEN);
    own->receiver = load_or_stop(tap->settings, "receiver", &maps);
    own->handover = run_program_or_stop(&tap->process->store, tap->settings, device, "handover", &maps, false);
    own->sender = run_program_or_stop(&tap->process->store, tap->settings, device, "sender", &maps, true);
}

/* The kernel passes nothing on any more by this row. */
static void drop_row_member(struct fast_row *row) {
    (void)__atomic_and_fetch(&row->word, ~(uint64_t)UINT32_MAX, __ATOMIC_SEQ_CST);
}

/* Frames of the host are taken for a while from here on, or no longer. Where its device has no carrier, the queue behind the program loses
 * each frame, and a row that counted it would keep it; so they are lost before they are counted. Those of a host whose daemon is stopped go
 * nowhere once the peer may have given the links up. */
static void open_host(struct tap_plane *tap, bool open) {
    if (!tap->fast.host) return; /* its tables are still to be made */
    __atomic_store_n(&tap->fast.host->open_until, open ? (milliseconds() + OPEN_FOR) * 1000000 : 0, __ATOMIC_SEQ_CST);
}

/* Nothing is passed on any more, from the first line on. */
static void end_fast(struct tap_plane *tap) {
    struct fast_programs *own = &tap->fast;
    open_host(tap, false);
    for (uint16_t number = 0; number < CONVERSATIONS; number++) drop_row_member(&own->rows[number]);
    for (uint16_t i = 0; i < tap->ports->count; i++) __atomic_store_n(&own->entries[i].up_to, 0, __ATOMIC_SEQ_CST);
    if (own->sender >= 0) detach_stored(&tap->process->store, "sender", tap->device->index, own->sender);
    if (own->handover >= 0) detach_stored(&tap->process->store, "handover", tap->device->index, own->handover);
    own->sender = own->handover = -1;
}

static uint64_t *place_at(const struct fast_programs *own, const struct link *link) {
    return &own->places[member_place((uint32_t)link->index)].word;
}

/* What stands in the place of a member. */
static uint64_t place_word(const struct link *link) {
    return (uint64_t)(uint32_t)link->index << 32 | link->settings.number;
}

/* Has what comes at a member go up by the kernel, as long as the answer is open; or -errno, as where another member has its place. */
int open_fast_receiver(struct store *store, struct fast_programs *own, const struct ports *ports, const struct link *wanted) {
    uint64_t *place = place_at(own, wanted), taken = __atomic_load_n(place, __ATOMIC_SEQ_CST);
    EACH_LINK_AS_IS(link, ports)
        if (link != wanted && link->socket >= 0 && place_word(link) == taken) return -EBUSY;
    __atomic_store_n(place, place_word(wanted), __ATOMIC_SEQ_CST);
    return attach_stored(store, "guard", own->receiver, wanted->index, false);
}

void clear_fast_place(struct fast_programs *own, const struct link *link) {
    __atomic_store_n(place_at(own, link), 0, __ATOMIC_SEQ_CST);
}

static uint16_t number_in(const struct carry *carry, const struct conversation *conversation) {
    return (uint16_t)(conversation - carry->conversations);
}

static struct fast_row *row_of(const struct tap_plane *tap, const struct conversation *conversation) {
    return &tap->fast.rows[number_in(tap->carry, conversation)];
}

static uint64_t word_of(const struct fast_row *row) {
    return __atomic_load_n(&row->word, __ATOMIC_SEQ_CST);
}

/* So many segments that were left to the daemon are dealt with. What counts less was of segments that nobody had counted. */
static void subtract_segments(struct fast_row *row, uint64_t segments, bool *suspected) {
    uint64_t before = word_of(row), after;
    if (segments == 0) return;
    do {
        uint64_t left = before >> 32;
        after = before - ((left < segments ? left : segments) << 32);
    } while (!__atomic_compare_exchange_n(&row->word, &before, after, false, __ATOMIC_SEQ_CST, __ATOMIC_SEQ_CST));
    *suspected = false;
}

/* Counts what the kernel passed on of a conversation on its port; answers how many frames that were. */
static uint64_t count_passed(struct fast_row *row, uint16_t port, struct member *members, bool *used) {
    uint64_t passed = take_count(&row->passed);
    if (passed == 0 || port == 0) return 0;
    *used = true;
    members[port - 1].counts[DATA_SENT] += passed;
    members[port - 1].counts[PASSED_ON] += passed;
    return passed;
}

/* Counts what the kernel handed up, or lost, of what came on a port. */
static void count_handed_up_and_follow_peer(struct carry *carry, struct fast_member *entry, uint64_t counts[static MEMBER_COUNTS],
    uint32_t aggregator) {
    uint64_t passed_up = take_count(&entry->passed_up), uncollected = take_count(&entry->uncollected), wrong_length = take_count(&entry->wrong_length);
    counts[DATA_RECEIVED] += passed_up + uncollected + wrong_length;
    counts[PASSED_UP] += passed_up;
    counts[UNCOLLECTED] += uncollected;
    counts[WRONG_LENGTH] += wrong_length;
    carry->counts[HANDED_UP] += passed_up;
    if (uncollected > 0) doubt_active_or_follow_peer(carry, aggregator);
}

static void count_fast_frames_and_follow_peer(struct tap_plane *tap) {
    uint64_t overflowed = take_count(&tap->fast.host->overflowed), unfit = take_count(&tap->fast.host->unfit), passed = overflowed + unfit;
    EACH_CONVERSATION(conversation, tap->carry)
        passed += count_passed(row_of(tap, conversation), conversation->fast.port, tap->members, &conversation->used);
    for (uint16_t i = 0; i < tap->ports->count; i++)
        count_handed_up_and_follow_peer(tap->carry, &tap->fast.entries[i], tap->members[i].counts, tap->ports->links[i].view.aggregator);
    tap->carry->counts[FROM_HOST] += passed;
    tap->carry->counts[OVERFLOWED] += overflowed;
    tap->carry->counts[UNFIT] += unfit;
}

/* Whether the kernel may pass a conversation on at its port. */
static bool may_pass(struct core *core, const struct tap_plane *tap, const struct conversation *conversation) {
    uint16_t port = conversation->port;
    struct niw_assignment state;
    return tap->fast.sender >= 0 && !tap->fast.queue_holds && tap->carry->active != 0 && conversation->home == tap->carry->active
        && is_fast(&tap->members[port - 1]) && ask_state(core, conversation->home, number_in(tap->carry, conversation), &state)
        && state.what == NIW_CONVERSATION_ON && state.port == port;
}

/* Waits for the programs. Where the kernel does so no longer, the peers are told, and the daemon ends. */
static void wait_or_detach_and_end(struct tap_plane *tap) {
    if (wait_for_programs()) return;
    (void)say(tap->core->printer, LOG_ERR | ABOUT_DATA, "fast: the kernel waits no longer for its programs: %s; "
        "the peers are told, and the daemon ends",
        strerror(errno));
    tap->core->broken = true;
    end_fast(tap);
}

/* Waits until all that rows without a member passed on is with the members, and counts it: their conversations are withdrawn from the kernel. */
static void wait_and_withdraw_or_end(struct tap_plane *tap) {
    bool waited = false;
    EACH_CONVERSATION(conversation, tap->carry) {
        struct fast_row *row = row_of(tap, conversation);
        if (conversation->fast.port == 0 || (uint32_t)word_of(row) != 0) continue;
        if (!waited) wait_or_detach_and_end(tap);
        waited = true;
        tap->carry->counts[FROM_HOST] += count_passed(row, conversation->fast.port, tap->members, &conversation->used);
        conversation->fast.port = 0;
        tap->carry->counts[WITHDRAWN]++;
    }
}

int fast_member_of(const struct plane *plane, uint16_t number) {
    const struct fast_row *rows = plane->tap->fast.rows;
    return rows ? (int)(uint32_t)word_of(&rows[number]) : 0;
}

/* The kernel goes on passing what stays on its port, and nothing else of what it passed on for the last daemon. */
static void resume_fast_or_end(struct tap_plane *tap) {
    bool any = false;
    EACH_CONVERSATION(conversation, tap->carry) {
        struct fast_row *row = row_of(tap, conversation);
        uint32_t member = (uint32_t)word_of(row);
        if (member == 0) continue;
        if (conversation->port != 0 && member == (uint32_t)tap->ports->links[conversation->port - 1].index
            && may_pass(tap->core, tap, conversation)) {
            conversation->fast.port = conversation->port;
        } else {
            drop_row_member(row);
            any = true;
        }
    }
    if (any) wait_or_detach_and_end(tap);
}

/* Takes back what is no longer on the port where the kernel passes it on, before a marker goes there; all, where the library does not tell. */
static void withdraw_moved_or_end(struct tap_plane *tap) {
    bool told = ask_ports(tap->core, tap->carry->active, tap->carry->port_of);
    EACH_CONVERSATION(conversation, tap->carry) {
        uint16_t port = conversation->fast.port, now = told ? tap->carry->port_of[number_in(tap->carry, conversation)] : 0;
        if (port != 0 && (port != now || !is_fast(&tap->members[port - 1]))) drop_row_member(row_of(tap, conversation));
    }
    wait_and_withdraw_or_end(tap);
}

/* The link of a port goes down, or its interface: before the library hears of it. */
static void withdraw_port_or_end(struct tap_plane *tap, uint16_t port) {
    __atomic_store_n(&tap->fast.entries[port - 1].up_to, 0, __ATOMIC_SEQ_CST);
    EACH_CONVERSATION(conversation, tap->carry)
        if (conversation->fast.port == port) drop_row_member(row_of(tap, conversation));
    wait_and_withdraw_or_end(tap);
    EACH_CONVERSATION(conversation, tap->carry)
        if (conversation->port == port && conversation->home != 0) conversation->fast.not_before = milliseconds() + DOWN_WAIT;
}

/* The TAP device has this queueing discipline now. One that may hold frames holds them behind the program that counts them, where nobody
 * sees them, and would not have what the kernel passes on: with it the daemon has all data. */
static void withdraw_by_discipline_or_end(struct tap_plane *tap, const char *discipline) {
    struct fast_programs *own = &tap->fast;
    bool holds = !keeps_order(discipline) && strcmp(discipline, "pfifo_fast") != 0
        && strcmp(discipline, "noop") != 0; /* it has that one until it is up */
    if (!discipline[0] || holds == own->queue_holds) return;
    own->queue_holds = holds;
    EACH_CONVERSATION(conversation, tap->carry)
        if (holds && conversation->fast.port != 0) drop_row_member(row_of(tap, conversation));
    wait_and_withdraw_or_end(tap);
    (void)say(tap->core->printer, LOG_WARNING | ABOUT_DATA, "carry %s: its queueing discipline is %s: its data %s", tap->settings->carry,
        discipline, holds ? "stays with the daemon, since that discipline may hold frames" : "may go by the kernel");
}

/* Frames go up by the kernel from the ports that collect in the active aggregator, while the TAP device is up: else the kernel would lose
 * markers, too, which go up behind the data. */
static void set_collecting(struct tap_plane *tap) {
    struct fast_programs *own = &tap->fast;
    bool any_up = own->sender >= 0 && tap->carry->active != 0 && is_tap_up(tap->device);
    EACH_LINK_AS_IS(link, tap->ports) {
        bool up = any_up && link->view.aggregator == tap->carry->active && (link->view.state & NIW_STATE_COLLECTING) != 0
            && is_fast(&tap->members[link->settings.number - 1]);
        __atomic_store_n(&own->entries[link - tap->ports->links].up_to, up ? (uint64_t)tap->device->index : 0, __ATOMIC_SEQ_CST);
    }
}

/* Lets the kernel pass on a conversation of which nothing waits here, if nothing is on its way here. */
static void name_member(struct fast_row *row, struct fast *fast, uint16_t port, int index) {
    uint64_t none = 0;
    if (__atomic_load_n(&row->opaque, __ATOMIC_SEQ_CST) == 0
        && __atomic_compare_exchange_n(&row->word, &none, (uint32_t)index, false, __ATOMIC_SEQ_CST, __ATOMIC_SEQ_CST))
        fast->port = port;
}

/* After all that was put was sent: what was taken counts no more, and the kernel gets what it may pass on. */
static void pass_on(struct tap_plane *tap) {
    EACH_CONVERSATION(conversation, tap->carry) {
        struct fast_row *row = row_of(tap, conversation);
        if (!conversation->fast.touched) continue;
        conversation->fast.touched = false;
        subtract_segments(row, take_count(&row->overflowed) + conversation->fast.taken, &conversation->fast.suspected);
        conversation->fast.taken = 0;
        if (conversation->port != 0 && conversation->fast.port == 0
            && none_held(tap->core, &tap->held, number_in(tap->carry, conversation)) && may_pass(tap->core, tap, conversation))
            name_member(row, &conversation->fast, conversation->port, tap->ports->links[conversation->port - 1].index);
    }
}

/* Counts no more what was lost on its way to the daemon: since it was suspected, no frame of it came and none was left (programs only ever
 * raise the count of a row without a member), all programs ended, and the TAP device had nothing more. */
static void confirm_loss(struct fast_row *row, struct fast *fast) {
    uint64_t word = fast->suspected_word, overflowed = __atomic_load_n(&row->overflowed, __ATOMIC_SEQ_CST);
    fast->suspected = false;
    if (__atomic_load_n(&row->opaque, __ATOMIC_SEQ_CST) != fast->suspected_opaque) return;
    if (!__atomic_compare_exchange_n(&row->word, &word, 0, false, __ATOMIC_SEQ_CST, __ATOMIC_SEQ_CST)) return;
    (void)__atomic_sub_fetch(&row->overflowed, overflowed, __ATOMIC_SEQ_CST);
    (void)__atomic_sub_fetch(&row->opaque, fast->suspected_opaque, __ATOMIC_SEQ_CST);
    fast->touched = true;
}

/* So many packets were read of the TAP device, in a batch that had room for more if it is drained: nothing is on its way then but what a
 * program counts just now. More of `left` was lost behind the program that counted it, by a queue without a carrier or without room, and
 * no read takes it off: with MOST_LEFT of it no frame would ever come here again. What is taken off too early makes it less than 0, and is
 * put back. It only tells how many may wait, so a frame too many is lost by the kernel, which counts it. The order rests on the rows. */
static void subtract_read_and_lost(struct tap_plane *tap, unsigned packets, bool drained) {
    struct fast_programs *own = &tap->fast;
    if (tap->core->broken) return;
    int64_t left = __atomic_sub_fetch(&own->host->left, packets, __ATOMIC_SEQ_CST);
    if (drained && (left > MOST_BETWEEN || left < 0)) (void)__atomic_sub_fetch(&own->host->left, left, __ATOMIC_SEQ_CST);
    if (!drained || own->queue_holds) return;
    EACH_CONVERSATION(conversation, tap->carry)
        if (conversation->fast.suspected && conversation->fast.taken == 0) confirm_loss(row_of(tap, conversation), &conversation->fast);
}

/* Suspects a row with frames that do not come: none came since the last tick. */
static bool suspect_row(const struct fast_row *row, bool used, struct fast *fast) {
    uint64_t word = word_of(row), opaque = __atomic_load_n(&row->opaque, __ATOMIC_SEQ_CST);
    if (fast->port > 0 || used || fast->suspected || (word == 0 && opaque == 0)) return false;
    fast->suspected = true;
    fast->suspected_word = word;
    fast->suspected_opaque = opaque;
    return true;
}

/* Takes back what rests for a flight: towards a peer that answers no markers it is free then, and no frame of it may pass meanwhile. */
static void withdraw_resting_or_end(struct tap_plane *tap) {
    EACH_CONVERSATION(conversation, tap->carry)
        if (conversation->fast.port != 0 && !conversation->used && tap->carry->time - conversation->last >= tap->settings->flight)
            drop_row_member(row_of(tap, conversation));
    wait_and_withdraw_or_end(tap);
}

static void pass_fast_tick_or_end(struct tap_plane *tap) {
    bool any = false;
    (void)read_tap_mac(tap->device, (uint8_t *)&tap->fast.host->mac);
    withdraw_moved_or_end(tap);
    open_host(tap, has_carrier(tap->device));
    count_fast_frames_and_follow_peer(tap);
    if (tap->carry->probe.peer == MUTE) withdraw_resting_or_end(tap);
    EACH_CONVERSATION(conversation, tap->carry) {
        struct fast_row *row = row_of(tap, conversation);
        subtract_segments(row, take_count(&row->overflowed), &conversation->fast.suspected);
        any = suspect_row(row, conversation->used, &conversation->fast) || any;
    }
    if (any) wait_or_detach_and_end(tap);
}

static int check_fast_or_stop(struct printer *printer, struct plane *plane UNUSED, const struct options *options) {
    return check_programs_or_stop(printer, options, "fast", true);
}

const struct passing BY_KERNEL = {
    .check = check_fast_or_stop, .start = start_fast_or_stop, .end = end_fast, .set_up_device = give_no_queue, .run_programs = run_fast_programs,
    .count = count_fast_frames_and_follow_peer, .withdraw = withdraw_moved_or_end, .withdraw_port_or_end = withdraw_port_or_end, .pass_on = pass_on,
    .note_read = subtract_read_and_lost, .open_host = open_host, .follow_discipline = withdraw_by_discipline_or_end,
    .set_collecting = set_collecting, .read_host = read_host_and_send, .tick = pass_fast_tick_or_end, .resume = resume_fast_or_end, .steers = true,
};
