/* Whoever asks: a Unix socket, of which each connection has one question, a line, and one answer; or it watches. */
#include "control.h"

#include <sys/un.h>

#define MOST_OF_USER 24  /* connections of one user, so that none takes all of them */
#define MOST_WATCHERS 16 /* connections of one user that watch, so that the others can ask */
#define ROOTS_OWN 24     /* connections of all are for root alone */
#define MOST_IN_TICK 20  /* connections are taken between two ticks, so that no flood takes the processor; the others wait in their order */
#define LONGEST_NAME 64  /* of a bundle in the name of its socket: an address has no more room */
#define PATIENCE 20      /* ticks that a question may take, and that each part of an answer may wait for whoever asked */

#define EACH_CALLER(it, own) for (struct caller *it = (own)->callers; it < (own)->callers + MOST_CALLERS; it++)

static void close_caller(struct caller *caller) {
    close(caller->fd);
    free(caller->rest);
    *caller = (struct caller){.fd = -1};
}

/* The number of a free place for a user, or -1, and why there is none. */
static int find_caller_place(const struct status *own, uid_t user, const char **why) {
    int found = -1;
    unsigned free_ones = 0, of_user = 0;
    for (int i = 0; i < MOST_CALLERS; i++) {
        if (own->callers[i].fd < 0) found = i;
        free_ones += own->callers[i].fd < 0;
        of_user += own->callers[i].fd >= 0 && own->callers[i].user == user;
    }
    if (of_user >= MOST_OF_USER)
        *why = "this user has too many connections";
    else if (found < 0 || (user != 0 && free_ones <= ROOTS_OWN))
        *why = "all connections are taken";
    else
        return found;
    return -1;
}

/* Gives a caller a short answer, and lets him go. */
static void end_with(struct caller *caller, const char *text) {
    (void)send(caller->fd, text, strlen(text), MSG_NOSIGNAL | MSG_DONTWAIT);
    close_caller(caller);
}

static void accept_one(struct status *own, int epoll_file, int fd) {
    struct ucred who = {0};
    socklen_t length = sizeof who;
    const char *why = NULL;
    int place = getsockopt(fd, SOL_SOCKET, SO_PEERCRED, &who, &length) == 0 ? find_caller_place(own, who.uid, &why) : -1;
    struct caller caller = {.fd = fd, .tag = place < 0 ? 0 : CALLERS + (uint32_t)place, .user = who.uid, .ticks = PATIENCE};
    if (place >= 0 && await_input(epoll_file, fd, caller.tag)) {
        own->callers[place] = caller;
        return;
    }
    char text[128];
    snprintf(text, sizeof text, REFUSAL "%s\n", why ? why : strerror(errno));
    end_with(&caller, text);
}

/* Takes connections, in the order in which they came. Those for which there is no room now are taken at the next tick. */
void accept_callers(struct status *own, int epoll_file) {
    while (own->left_in_tick > 0) {
        int fd = accept4(own->listener, NULL, NULL, SOCK_NONBLOCK | SOCK_CLOEXEC);
        if (fd < 0 && (errno == EAGAIN || errno == EINTR || errno == ECONNABORTED)) return;
        if (fd < 0) break; /* without a file for it, it waits for the next tick */
        own->left_in_tick--;
        accept_one(own, epoll_file, fd);
    }
    if (own->listens) await_no_more(epoll_file, own->listener);
    own->listens = false;
}

/* Sends what is left of an answer, as far as the socket has room, and closes the connection behind it. */
static void send_rest(struct caller *caller, int epoll_file) {
    ssize_t sent = send(caller->fd, caller->rest + caller->sent, caller->answer_length - caller->sent, MSG_NOSIGNAL | MSG_DONTWAIT);
    bool waits = sent >= 0 || errno == EAGAIN || errno == EINTR;
    if (sent > 0) {
        caller->sent += (size_t)sent;
        caller->ticks = PATIENCE;
    }
    if (!waits || caller->sent == caller->answer_length || !await_output(epoll_file, caller->fd, caller->tag)) close_caller(caller);
}

static bool is_order(const char *asked) {
    static const char *const orders[] = {"add ", "remove ", "removed ", "hold ", "release "};
    for (size_t i = 0; i < sizeof orders / sizeof *orders; i++)
        if (strncmp(asked, orders[i], strlen(orders[i])) == 0) return true;
    return false;
}

/* Lets a caller watch, if his user does not watch too often. */
static void let_watch(const struct status *own, struct caller *caller) {
    unsigned watching = 0;
    for (size_t i = 0; i < MOST_CALLERS; i++) watching += own->callers[i].watches && own->callers[i].user == caller->user;
    caller->json = strcmp(caller->question, "watch-json") == 0;
    caller->watches = watching < MOST_WATCHERS;
    if (!caller->watches) end_with(caller, REFUSAL "this user watches too often\n");
}

/* Answers a question by the report of the printer; one that is not known has none. */
static void write_and_send_report(struct core *core, const struct control *control, struct caller *caller) {
    const char *asked = caller->question;
    struct report *report = core->printer->report;
    report->length = 0;
    report->refusal = NIW_OK;
    if (strcmp(asked, "text") == 0) write_text(report, control);
    if (strcmp(asked, "config") == 0) write_config(report, control);
    if (strcmp(asked, "json") == 0) write_json(report, control);
    if (strcmp(asked, "metrics") == 0) write_metrics(report, control);
    if (!is_done(core, report->refusal, report->refused) || core->broken) report->length = 0;
    caller->rest = report->length > 0 ? malloc(report->length) : NULL;
    caller->answer_length = report->length;
    if (!caller->rest) {
        close_caller(caller);
        return;
    }
    memcpy(caller->rest, report->text, report->length);
    send_rest(caller, control->process->epoll_file);
}

static void serve_question(struct control *control, struct caller *caller) {
    ssize_t got = recv(caller->fd, caller->question + caller->length, sizeof caller->question - 1 - caller->length, MSG_DONTWAIT);
    if (got < 0 && (errno == EAGAIN || errno == EINTR)) return;
    if (got > 0) caller->length += (size_t)got;
    caller->question[caller->length] = 0;
    char *end = strchr(caller->question, '\n');
    if (!end) {
        if (got <= 0 || caller->length == sizeof caller->question - 1) close_caller(caller);
        return;
    }
    *end = 0;
    if (strcmp(caller->question, "watch") == 0 || strcmp(caller->question, "watch-json") == 0) {
        let_watch(&control->process->status, caller);
    } else if (is_order(caller->question)) {
        char answer[ORDER_ROOM] = REFUSAL "root alone may change a bundle\n";
        if (caller->user == 0) obey_order_and_answer(control->protocol, caller->question, answer);
        end_with(caller, answer);
    } else {
        read_views_and_count(control->core, control->ports);
        CALL(control->plane->passing->count, control->plane->tap);
        write_and_send_report(control->core, control, caller);
    }
}

/* Takes what somebody sends, or goes on with an answer. Who watches sends nothing more, but for the end. */
void serve_caller(struct control *control, uint32_t number) {
    struct caller *caller = &control->process->status.callers[number];
    char scrap[64];
    if (caller->fd < 0) return;
    if (caller->rest)
        send_rest(caller, control->process->epoll_file);
    else if (!caller->watches)
        serve_question(control, caller);
    else if (recv(caller->fd, scrap, sizeof scrap, MSG_DONTWAIT) <= 0)
        close_caller(caller);
}

/* 100 ms passed: who asked nothing for 2 s is let go, and more may come. */
void pass_tick_of_callers(struct status *own, int epoll_file) {
    EACH_CALLER(caller, own)
        if (caller->fd >= 0 && !caller->watches && --caller->ticks == 0) close_caller(caller);
    own->left_in_tick = MOST_IN_TICK;
    if (!own->listens) own->listens = await_input(epoll_file, own->listener, STATUS);
}

/* Tells those who watch, by lines or in JSON; who does not keep up is let go. */
void tell_watchers(struct status *own, const char *text, size_t length, bool json) {
    EACH_CALLER(caller, own)
        if (caller->watches && caller->json == json && send(caller->fd, text, length, MSG_NOSIGNAL | MSG_DONTWAIT) != (ssize_t)length)
            close_caller(caller);
}

/* Tells those who watch in JSON how a port is now, or the bundle, where `link` is null, by the report of the printer. */
void write_report_and_tell_watchers(struct core *core, const struct control *control, const struct link *link) {
    struct status *own = core->printer->watchers;
    struct report *report = core->printer->report;
    bool any = false;
    EACH_CALLER(caller, own) any = any || (caller->watches && caller->json);
    if (!any) return;
    report->length = 0;
    report->refusal = NIW_OK;
    write_json_event(report, control, link);
    if (is_done(core, report->refusal, report->refused) && !core->broken)
        tell_watchers(own, report->text, report->length, true);
}

static void remove_socket(int status UNUSED, void *given) {
    const struct process *process = given;
    (void)unlinkat(process->folder, process->status.own_name, 0);
}

static bool is_taken(const struct sockaddr_un *address) {
    CLOSED_FILE int asker = socket(AF_UNIX, SOCK_STREAM | SOCK_NONBLOCK | SOCK_CLOEXEC, 0);
    return asker >= 0 && (connect(asker, (const struct sockaddr *)address, sizeof *address) == 0 || errno == EAGAIN);
}

/* The status socket, named for the namespace and the bundle: one that is left there, at which nobody listens, is nobody's. Its user and
 * group may ask, whatever the umask is. */
void open_status_or_stop(struct process *process, const char *folder) {
    struct status *own = &process->status;
    struct sockaddr_un address = {.sun_family = AF_UNIX};
    own->left_in_tick = MOST_IN_TICK;
    EACH_CALLER(caller, own) caller->fd = -1;
    snprintf(own->own_name, sizeof own->own_name, "%lu.%.*s.sock", network_namespace(), LONGEST_NAME, process->settings->name);
    int length = snprintf(address.sun_path, sizeof address.sun_path, "/proc/self/fd/%d/%s", process->folder, own->own_name);
    if (length >= (int)sizeof address.sun_path) stop(WRONG_WORD, "too long", own->own_name);
    if (is_taken(&address)) stop(REFUSED, "another lagd has this bundle", process->settings->name);
    (void)unlinkat(process->folder, own->own_name, 0);
    own->listener = socket(AF_UNIX, SOCK_STREAM | SOCK_NONBLOCK | SOCK_CLOEXEC, 0);
    mode_t mask = umask(0117);
    bool listens = own->listener >= 0 && bind(own->listener, (struct sockaddr *)&address, sizeof address) == 0 && listen(own->listener, 64) == 0;
    umask(mask);
    need(listens, folder);
    need(on_exit(remove_socket, process) == 0, "on_exit");
    own->listens = await_input(process->epoll_file, own->listener, STATUS);
}
