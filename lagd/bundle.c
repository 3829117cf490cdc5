/* The bundle as a whole: up where all its links carry, degraded where some do, down where fewer than min-links do, or the carrier of its device was
 * taken; and the program that is run where that changes. */
#include "device.h"

#include <signal.h>
#include <spawn.h>
#include <sys/prctl.h>

/* Starts a program in a session of its own, which has no signal blocked or ignored, reads nothing, and prints to standard error. It has the timer
 * slack that the daemon was started with: a child inherits what holds at its start. Answers 0, or -errno. */
static int spawn_with_usual_timer_slack(const char *path, char *const *environment) {
    char *words[] = {(char *)(uintptr_t)path, NULL};
    posix_spawnattr_t attributes;
    posix_spawn_file_actions_t files;
    sigset_t none, all;
    pid_t child;
    sigemptyset(&none);
    sigfillset(&all);
    posix_spawnattr_init(&attributes);
    posix_spawnattr_setsigmask(&attributes, &none);
    posix_spawnattr_setsigdefault(&attributes, &all);
    posix_spawnattr_setflags(&attributes, POSIX_SPAWN_SETSIGMASK | POSIX_SPAWN_SETSIGDEF | POSIX_SPAWN_SETSID);
    posix_spawn_file_actions_init(&files);
    posix_spawn_file_actions_addopen(&files, STDIN_FILENO, "/dev/null", O_RDONLY, 0);
    posix_spawn_file_actions_adddup2(&files, STDERR_FILENO, STDOUT_FILENO);
    (void)prctl(PR_SET_TIMERSLACK, 0); /* the one that it began with */
    int fault = posix_spawn(&child, path, &files, &attributes, words, environment);
    (void)prctl(PR_SET_TIMERSLACK, TIMER_SLACK);
    posix_spawn_file_actions_destroy(&files);
    posix_spawnattr_destroy(&attributes);
    return -fault;
}

/* Runs the program. Nobody waits for it. */
static void run_hook(struct printer *printer, const struct bundle *now, enum bundle_state before) {
    char name[NAME_ROOM + 16], state[32], previous[32], links_text[32], carrying[32], aggregator[32];
    char *environment[] = {"PATH=/usr/sbin:/usr/bin:/sbin:/bin", name, state, previous, links_text, carrying, aggregator, NULL};
    snprintf(name, sizeof name, "LAGD_BUNDLE=%s", printer->process->settings->name);
    snprintf(state, sizeof state, "LAGD_STATE=%s", BUNDLE_STATE_TEXTS[now->state]);
    snprintf(previous, sizeof previous, "LAGD_PREVIOUS=%s", BUNDLE_STATE_TEXTS[before]);
    snprintf(links_text, sizeof links_text, "LAGD_LINKS=%u", now->links);
    snprintf(carrying, sizeof carrying, "LAGD_CARRYING=%u", now->carrying);
    snprintf(aggregator, sizeof aggregator, "LAGD_AGGREGATOR=%u", now->aggregator);
    int fault = spawn_with_usual_timer_slack(printer->process->settings->hook, environment);
    if (fault < 0) (void)say(printer, LOG_WARNING | ABOUT_HOOK, "hook %s: %s", printer->process->settings->hook, strerror(-fault));
}

static void enter_state_run_hook_and_tell_all(struct core *core, struct bundle *own, const struct bundle *now, const struct control *control) {
    const struct settings *settings = core->settings;
    enum bundle_state before = own->state;
    *own = *now;
    if (now->state != before) {
        own->changed_at = time(NULL);
        own->counts[now->state]++;
    }
    (void)say(core->printer, (now->state == BUNDLE_UP ? LOG_NOTICE : LOG_WARNING) | ABOUT_BUNDLE,
        "bundle %s: %s, %u of %u links carry, aggregator %u", settings->name, BUNDLE_STATE_TEXTS[now->state], now->carrying, now->links,
        now->aggregator);
    write_report_and_tell_watchers(core, control, NULL);
    notify_bundle(own, "");
    if (now->state != before && settings->hook[0]) run_hook(core->printer, own, before);
}

/* Looks at the ports, and tells what became of the bundle. What changes too often is told later, but not that its device is down. */
void choose_and_tell_bundle(struct protocol *protocol) {
    struct bundle now = protocol->bundle;
    if (!protocol->process->has_started || (now.lines_left == 0 && !protocol->halt.down)) return;
    choose_aggregator(protocol->core, &protocol->choice, protocol, &now);
    now.links = count_links(protocol->ports);
    uint16_t limit = protocol->settings->config.max_links, most = limit > 0 && limit < now.links ? limit : now.links;
    bool is_down = now.carrying < protocol->settings->min_links || is_carrier_taken(protocol->device);
    now.state = is_down ? BUNDLE_DOWN : now.carrying < most ? BUNDLE_DEGRADED : BUNDLE_UP;
    if (now.reported && now.state == protocol->bundle.state && now.links == protocol->bundle.links && now.carrying == protocol->bundle.carrying
        && now.aggregator == protocol->bundle.aggregator)
        return;
    if (now.changed_at == 0) now.changed_at = time(NULL);
    now.reported = true;
    if (now.lines_left > 0) now.lines_left--;
    enter_state_run_hook_and_tell_all(protocol->core, &protocol->bundle, &now, protocol->control);
}

void enter_down_state_run_hook_and_tell_all(struct core *core, struct bundle *own, const struct control *control) {
    struct bundle now = *own;
    now.state = BUNDLE_DOWN;
    now.aggregator = now.carrying = 0;
    if (own->state != BUNDLE_DOWN) enter_state_run_hook_and_tell_all(core, own, &now, control);
}
