/* lagd: a LACP daemon for Linux over lag.h. One process serves one bundle.
 *
 *     lagd --config /etc/lagd/NAME.conf
 *     lagd 7 32768,02:00:00:00:00:01 eth1 eth2
 *     lagd --status
 *
 * It ticks every 100 ms, carries the control frames of the interfaces, follows what the kernel tells of them, and prints each
 * change of a port in one line. Data frames stay with the kernel, or go by a device of its own (carry). `lagd --help` tells the options. */
#include "daemon.h"

#include <cap-ng.h>
#include <signal.h>
#include <sys/epoll.h>
#include <sys/prctl.h>
#include <sys/signalfd.h>
#include <sys/timerfd.h>

#define MOST_EVENTS TAGS /* of a turn */
#define MOST_TICKS 10    /* that are made up after a stall: what comes in then is new, and time goes on from there */
#define MANY 32          /* frames of a turn, after which the next ones gather */
#define GATHERS 50000    /* nanoseconds for which they do */
#define END_TICKS 15     /* for which the peers are told of the end at most */

/* Waits for a file descriptor, too; answers whether the kernel takes it. */
bool await_input(int epoll_file, int fd, uint32_t tag) {
    struct epoll_event event = {.events = EPOLLIN, .data = {.u32 = tag}};
    return epoll_ctl(epoll_file, EPOLL_CTL_ADD, fd, &event) == 0;
}

bool await_output(int epoll_file, int fd, uint32_t tag) {
    struct epoll_event event = {.events = EPOLLOUT, .data = {.u32 = tag}};
    return epoll_ctl(epoll_file, EPOLL_CTL_MOD, fd, &event) == 0;
}

void await_no_more(int epoll_file, int fd) {
    (void)epoll_ctl(epoll_file, EPOLL_CTL_DEL, fd, NULL);
}

static int open_clock_or_stop(void) {
    struct itimerspec every = {{0, 100000000}, {0, 100000000}};
    int fd = timerfd_create(CLOCK_MONOTONIC, TFD_NONBLOCK | TFD_CLOEXEC);
    need(fd >= 0 && timerfd_settime(fd, 0, &every, NULL) == 0, "no clock");
    return fd;
}

/* Whether the starting program had a signal ignored, as nohup does: then it stays so. */
static bool is_ignored(int signal) {
    struct sigaction action;
    return sigaction(signal, NULL, &action) == 0 && action.sa_handler == SIG_IGN;
}

/* Opens the signals that end the daemon, SIGUSR1 too, SIGHUP, and SIGUSR2. A log that may not grow (SIGXFSZ), a reader that is gone (SIGPIPE)
 * and a hook that ends (SIGCHLD) do not disturb it. */
static int block_ignore_and_open_signals_or_stop(void) {
    /* These would end the program at once, beside those of a fault in it. */
    static const int ends[] = {SIGHUP, SIGINT, SIGQUIT, SIGALRM, SIGVTALRM, SIGPROF, SIGIO, SIGPWR, SIGXCPU, SIGSTKFLT};
    sigset_t taken;
    sigemptyset(&taken);
    sigaddset(&taken, SIGTERM);
    sigaddset(&taken, SIGUSR1);
    sigaddset(&taken, SIGUSR2);
    for (size_t i = 0; i < sizeof ends / sizeof *ends; i++)
        if (!is_ignored(ends[i])) sigaddset(&taken, ends[i]);
    for (int it = SIGRTMIN; it <= SIGRTMAX; it++)
        if (!is_ignored(it)) sigaddset(&taken, it);
    sigprocmask(SIG_BLOCK, &taken, NULL);
    signal(SIGPIPE, SIG_IGN);
    signal(SIGXFSZ, SIG_IGN);
    signal(SIGCHLD, SIG_IGN);
    int fd = signalfd(-1, &taken, SFD_CLOEXEC);
    need(fd >= 0, "no signals");
    return fd;
}

/* Drops what is not needed once the sockets are open, for good: no program that it starts gets more, or has any. CAP_NET_RAW stays, for an
 * interface that comes later, and CAP_NET_ADMIN beside it where it carries data, as far as they are there. Its user stays who he was: who is
 * root may set files of /sys back, and runs the hooks. The unit has another one. */
static void drop_privileges(struct printer *printer, bool administers) {
    (void)prctl(PR_SET_NO_NEW_PRIVS, 1, 0, 0, 0);
    (void)prctl(PR_CAP_AMBIENT, PR_CAP_AMBIENT_CLEAR_ALL, 0, 0, 0);
    bool known = capng_get_caps_process() == 0;
    bool raw = known && capng_have_capability(CAPNG_EFFECTIVE, CAP_NET_RAW);
    bool admin = known && administers && capng_have_capability(CAPNG_EFFECTIVE, CAP_NET_ADMIN);
    capng_clear(CAPNG_SELECT_BOTH);
    if (raw) (void)capng_update(CAPNG_ADD, CAPNG_EFFECTIVE | CAPNG_PERMITTED, CAP_NET_RAW);
    if (admin) (void)capng_update(CAPNG_ADD, CAPNG_EFFECTIVE | CAPNG_PERMITTED, CAP_NET_ADMIN);
    /* Whoever may not change the bounding set has it bounded, or not, by who started the daemon. */
    if (capng_apply(CAPNG_SELECT_BOTH) != 0 && capng_apply(CAPNG_SELECT_CAPS) != 0)
        (void)say(printer, LOG_WARNING | ABOUT_RIGHTS, "the capabilities stay as they are");
}

static void read_and_tell_ports_and_bundle(struct protocol *protocol) {
    read_views_and_count(protocol->core, protocol->ports);
    print_changes_strangers_and_markers(protocol->core, protocol, protocol->ports);
    choose_and_tell_bundle(protocol);
}

static void pass_second_save_and_notify(struct lagd *lagd) {
    EACH_LINK(link, &lagd->ports) {
        if (link->lines_left < MOST_LINES) link->lines_left++;
    }
    note_twins_and_tell_new(&lagd->process.printer, &lagd->ports);
    if (lagd->protocol.bundle.lines_left < MOST_LINES) lagd->protocol.bundle.lines_left++;
    pass_revert_second(&lagd->protocol);
    ask_again_if_due(&lagd->protocol.changes, &lagd->ports);
    (void)save_state(&lagd->state, false);
    notify("WATCHDOG=1");
}

static void pass_tick(struct lagd *lagd) {
    lagd->protocol.ticks++;
    if (!pass_system_tick(&lagd->core, &lagd->ports)) return;
    pass_halt_tick(&lagd->protocol);
    pass_leaving_tick(&lagd->protocol);
    if (!lagd->core.broken) CALL(lagd->plane.carrying->tick, &lagd->plane);
    if (lagd->protocol.ticks % SECOND == 0) pass_second_save_and_notify(lagd);
}

/* Makes up the ticks that passed, and then sends once. */
static void make_up_ticks_send_and_tell(struct lagd *lagd, int clock_fd) {
    uint64_t passed = 0;
    if (read(clock_fd, &passed, sizeof passed) != sizeof passed) return;
    if (passed > MOST_TICKS) passed = MOST_TICKS;
    for (; passed > 0; passed--) pass_tick(lagd);
    send_due(&lagd->protocol);
    send_again(&lagd->core, &lagd->protocol.changes.suspected, &lagd->ports);
    pass_tick_of_callers(&lagd->process.status, lagd->process.epoll_file);
    read_and_tell_ports_and_bundle(&lagd->protocol);
}

static bool is_ready(const struct epoll_event *events, int count, uint32_t tag) {
    for (int i = 0; i < count; i++)
        if (events[i].data.u32 == tag) return true;
    return false;
}

/* Takes the frames of all ports, and sends once what they made due. */
static void serve_all_frames(struct protocol *protocol, const struct epoll_event *events, int count) {
    bool taken = false;
    for (int i = 0; i < count; i++) {
        uint32_t port = events[i].data.u32;
        if (port > NIW_MOST_PORTS || protocol->ports->links[port - 1].socket < 0) continue;
        receive_frames(protocol, (uint16_t)port);
        taken = true;
    }
    if (!taken) return;
    send_due(protocol);
    protocol->plane->changed = true;
}

/* Takes the data of all members, and then that of the host. */
static void serve_all_data(struct tap_plane *tap, const struct epoll_event *events, int count) {
    bool host = is_cutting(tap->core, &tap->host) || is_ready(events, count, HOST);
    for (int i = 0; i < count; i++)
        if (events[i].data.u32 >= MEMBERS) serve_settle_and_send(tap, events[i].data.u32);
    settle_carry_or_lose_member(tap->plane);
    if (host) serve_settle_and_send(tap, HOST);
}

/* The next daemon is to go on, if it can. */
static void keep_device_and_hand_over(struct lagd *lagd) {
    CALL(lagd->plane.carrying->keep_device, &lagd->plane, true);
    lagd->process.has_left = save_state(&lagd->state, true);
    if (!lagd->process.has_left) {
        CALL(lagd->plane.carrying->keep_device, &lagd->plane, false);
        return;
    }
    (void)say(&lagd->process.printer, LOG_NOTICE | ABOUT_HANDOVER, "the next daemon may go on from here; %u frames that waited are lost",
        ASK(lagd->plane.carrying->frames_waiting, 0, &lagd->plane));
}

/* Serves a signal; answers whether it ends the daemon. */
static bool serve_signal(struct lagd *lagd, int signals_fd, const char *file) {
    struct signalfd_siginfo signal;
    if (read(signals_fd, &signal, sizeof signal) != sizeof signal) return true;
    switch (signal.ssi_signo) {
    case SIGUSR2: mark_busy_to_move(&lagd->carry); return false;
    case SIGUSR1: keep_device_and_hand_over(lagd); return !lagd->process.has_left;
    case SIGHUP:
        if (file) reload(&lagd->protocol, file);
        return !file;
    default: return true;
    }
}

/* What came in a turn, the clock after the frames that waited. */
static void serve(struct lagd *lagd, const struct epoll_event *events, int count, int clock_fd) {
    bool tick = is_ready(events, count, CLOCK);
    if (is_ready(events, count, CHANGES)) receive_changes_or_stop(&lagd->protocol);
    serve_all_frames(&lagd->protocol, events, count);
    serve_all_data(&lagd->tap, events, count);
    for (int i = 0; i < count; i++)
        if (events[i].data.u32 >= CALLERS && events[i].data.u32 < HOST) serve_caller(&lagd->control, events[i].data.u32 - CALLERS);
    if (is_ready(events, count, STATUS)) accept_callers(&lagd->process.status, lagd->process.epoll_file);
    read_and_follow_carriers(&lagd->protocol, tick);
    if (tick) make_up_ticks_send_and_tell(lagd, clock_fd);
    settle_carry_or_lose_member(&lagd->plane);
}

/* Waits for events, or while the host's packets are cut only takes what is there. While many frames come, and none is left, it lets some gather
 * before they are taken: each wake-up costs whoever sends them, too. */
static int await_events_and_reset_turn(struct carry *carry, bool cuts, struct epoll_event *events) {
    if (carry->taken >= MANY && !carry->more_waits) (void)nanosleep(&(struct timespec){0, GATHERS}, NULL);
    carry->taken = 0;
    carry->more_waits = false;
    return epoll_wait(carry->process->epoll_file, events, MOST_EVENTS, cuts ? 0 : -1);
}

/* Waits, and serves what comes. The first signal that ends it, or a refusal of the library, makes it tell the peers; it ends when they
 * are told, or by a second signal; or at once, where the next daemon goes on. */
static void run(struct lagd *lagd, int signals_fd, int clock_fd, const char *file) {
    struct epoll_event events[MOST_EVENTS];
    bool ends = false;
    for (unsigned end_ticks = 0; !ends || (end_ticks < END_TICKS && !end_is_told(&lagd->ports));) {
        int count = await_events_and_reset_turn(&lagd->carry, is_cutting(&lagd->core, &lagd->tap.host), events);
        bool ends_now = count < 0 && errno != EINTR;
        serve(lagd, events, count, clock_fd);
        if (lagd->core.broken) end_carry(&lagd->plane);
        if (ends && is_ready(events, count, CLOCK)) end_ticks++;
        if (is_ready(events, count, SIGNALS)) ends_now = serve_signal(lagd, signals_fd, ends ? NULL : file);
        if (lagd->process.has_left || (ends && ends_now)) return;
        if (ends || !(ends_now || lagd->core.broken)) continue;
        ends = true;
        notify("STOPPING=1");
        remove_state(&lagd->state);
        leave_aggregators_and_tell_peers(&lagd->protocol);
    }
}

/* Where a standard file is closed, what is opened next would take its number. */
static void open_closed_standard_files(void) {
    int opened;
    do opened = open("/dev/null", O_RDWR);
    while (opened >= 0 && opened <= STDERR_FILENO);
    if (opened >= 0) close(opened);
}

static int run_daemon(struct lagd *lagd, const struct options *options) {
    lagd->settings = options->settings;
    (void)prctl(PR_SET_TIMERSLACK, TIMER_SLACK);
    int signals = block_ignore_and_open_signals_or_stop();
    lagd->process.epoll_file = epoll_create1(EPOLL_CLOEXEC);
    need(lagd->process.epoll_file >= 0, "epoll");
    if (lagd->settings.system_auto) read_auto_system_mac_or_stop(&lagd->settings);
    lagd->process.folder = open_or_make_status_folder_or_stop(options->folder);
    receive_stored_or_stop(&lagd->process);
    choose_plane(&lagd->plane, &lagd->settings);
    recall_state_and_leave_other_device(&lagd->state);
    make_ports_and_system_or_stop(&lagd->protocol);
    lagd->process.resuming = has_carried_links(&lagd->inherited);
    if (lagd->process.inherited->others && !lagd->plane.carrying->keeps_members) release_former_members(&lagd->plane);
    CALL(lagd->plane.carrying->open, &lagd->plane);
    note_halt_at_start(&lagd->protocol.halt, lagd->device.index != 0 && !is_tap_up(&lagd->device), lagd->process.resuming);
    need(await_input(lagd->process.epoll_file, open_and_follow_changes_or_stop(&lagd->protocol), CHANGES), "epoll");
    open_status_or_stop(&lagd->process, options->folder);
    int clock = open_clock_or_stop();
    need(await_input(lagd->process.epoll_file, signals, SIGNALS) && await_input(lagd->process.epoll_file, clock, CLOCK), "epoll");
    drop_privileges(&lagd->process.printer, lagd->plane.carrying->administers);
    unsigned resumed = resume(&lagd->core, &lagd->protocol, &lagd->ports);
    lagd->process.has_started = true;
    resume_data(&lagd->protocol, resumed);
    bring_up_others_and_send(&lagd->protocol);
    halt_or_begin_lacp_at_start(&lagd->protocol);
    leave_left_ports(&lagd->protocol);
    CALL(lagd->plane.carrying->end_resuming, &lagd->plane);
    detach_and_drop_unclaimed(&lagd->process.store);
    (void)save_state(&lagd->state, false);
    read_and_tell_ports_and_bundle(&lagd->protocol);
    settle_carry_or_lose_member(&lagd->plane);
    notify_bundle(&lagd->protocol.bundle, READY);
    run(lagd, signals, clock, options->file);
    if (lagd->process.has_left) return DONE;
    end_carry(&lagd->plane);
    return end_bundle_and_system(&lagd->core, &lagd->protocol.bundle, &lagd->ports, &lagd->control) ? DONE : REFUSED;
}

int main(int argc, char **argv) {
    static struct lagd *lagd; /* until the program ends */
    struct options options;
    lagd = make_lagd_or_stop();
    open_closed_standard_files();
    read_options_and_file_or_stop(&lagd->process, argc, argv, &options);
    if (options.action == RUN_BUNDLE) return run_daemon(lagd, &options);
    if (options.action == CHECK) return choose_plane_unshare_and_check_or_stop(&lagd->process.printer, &lagd->plane, &options);
    return ask_daemons_or_stop(&lagd->process.printer, lagd->process.printer.report, &options);
}
