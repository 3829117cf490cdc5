/* Asks the daemons of this network namespace: for their status, for their counts, or for each change. */
#include "control.h"

#include <poll.h>

#define PATIENCE 2000 /* milliseconds that a daemon may take for its answer */
#define MOST_ANSWERED 8388608 /* octets of the answer of each */
#define PART_OF_ANSWER 65536  /* for which room is made at a time */

struct daemon {
    const char *path, *bundle;
    int fd;
    bool may_ask;
    char *answer; /* whole, with a zero behind it */
};

struct asking {
    struct printer *printer;
    const struct options *options;
    struct found found;
    struct daemon daemons[MOST_DAEMONS];
    unsigned count;
    const char *denied; /* what may not be looked at, if there is something */
};

#define EACH_DAEMON(it, own) for (struct daemon *it = (own)->daemons; it < (own)->daemons + (own)->count; it++)
#define EACH_DAEMON_AS_IS(it, own) for (const struct daemon *it = (own)->daemons; it < (own)->daemons + (own)->count; it++)

/* Connects with a daemon and asks it; or -errno. It waits no longer than PATIENCE: one that is stopped may answer nobody. */
static int ask_socket(const char *path, const char *question) {
    struct timeval patience = {PATIENCE / 1000, 0};
    CLOSED_FILE int opened = socket(AF_UNIX, SOCK_STREAM | SOCK_CLOEXEC, 0);
    if (opened < 0 || setsockopt(opened, SOL_SOCKET, SO_SNDTIMEO, &patience, sizeof patience) < 0) return last_fault();
    int fault = connect_to(opened, path);
    if (fault < 0) return fault;
    /* One that refuses may have closed the connection already, and said why. */
    (void)send(opened, question, strlen(question), MSG_NOSIGNAL);
    return kept_open(&opened);
}

static bool tell_refusal(struct printer *printer, const char *path, const char *text) {
    if (strncmp(text, REFUSAL, strlen(REFUSAL)) != 0) return false;
    complain(printer, "%s: %.*s", path, (int)strcspn(text, "\n"), text);
    return true;
}

/* Reads until the daemon ends the connection; NULL where it does not in time, or refuses, as a line says. */
static char *read_whole_answer_or_stop(struct printer *printer, int fd, const char *path) {
    size_t size = PART_OF_ANSWER, used = 0;
    char *whole = malloc(size + 1);
    ssize_t got = 1;
    while (whole && got > 0 && used < MOST_ANSWERED && poll(&(struct pollfd){fd, POLLIN, 0}, 1, PATIENCE) == 1) {
        got = recv(fd, whole + used, size - used, 0);
        if (got > 0) used += (size_t)got;
        if (used == size) whole = realloc(whole, (size += PART_OF_ANSWER) + 1);
    }
    if (!whole) stop(REFUSED, "no memory", "for an answer");
    whole[used] = 0;
    bool refused = tell_refusal(printer, path, whole);
    if (!refused && got == 0 && used > 0) return whole;
    if (!refused) complain(printer, "%s: its daemon does not answer", path);
    free(whole);
    return NULL;
}

/* Prints text of a daemon. Whoever made a socket in the folder may be no daemon: a terminal only shows what it says. */
static void print_shown(const char *text, size_t length) {
    char shown[4096];
    for (size_t part; length > 0; text += part, length -= part) {
        part = length < 1000 ? length : 1000;
        fwrite(shown, 1, escape(shown, sizeof shown, text, part, true), stdout);
    }
}

/* Prints the metrics of all: each metric has one head, and the values of all daemons below it. */
static void print_metrics(const struct asking *own) {
    const char *at[MOST_DAEMONS];
    for (unsigned i = 0; i < own->count; i++) at[i] = own->daemons[i].answer ? own->daemons[i].answer : "";
    for (bool more = true; more;) {
        more = false;
        for (unsigned i = 0; i < own->count; i++) {
            bool first = !more && *at[i];
            const char *next;
            for (unsigned line = 0; *at[i] && (line < 2 || *at[i] != '#'); line++, at[i] = *next ? next + 1 : next) {
                next = at[i] + strcspn(at[i], "\n");
                if (line >= 2 || first) print_shown(at[i], (size_t)(next - at[i]) + (*next != 0));
            }
            more = more || first;
        }
    }
}

/* Prints which bundles have a daemon that answers, and when that was. */
static void print_who_answers(struct report *report, const struct asking *own) {
    report->length = 0;
    add_head(report, "up", "gauge", "whether the daemon of the bundle answers");
    EACH_DAEMON_AS_IS(it, own)
        if (it->may_ask) add_value_of(report, "up", it->bundle, it->answer != NULL);
    add_head(report, "time_seconds", "gauge", "when this was asked");
    add(report, "lagd_time_seconds %llu\n", (unsigned long long)time(NULL));
    print_shown(report->text, report->length);
}

static _Noreturn void refuse_all_and_stop(const char *denied, const char *folder) {
    if (denied) stop(REFUSED, "permission denied", denied);
    stop(REFUSED, "no lagd answers in", folder);
}

/* Prints what the daemons say, one after the other as each has a line, until they end. */
static int print_changes_of_all(struct printer *printer, const struct asking *own) {
    struct pollfd waits[MOST_DAEMONS];
    char text[4096 + 1];
    unsigned left = 0;
    for (unsigned i = 0; i < own->count; i++) {
        waits[i] = (struct pollfd){own->daemons[i].fd, POLLIN, 0};
        left += own->daemons[i].fd >= 0;
    }
    while (left > 0 && poll(waits, own->count, -1) > 0) {
        for (unsigned i = 0; i < own->count; i++) {
            if (!waits[i].revents) continue;
            ssize_t got = recv(waits[i].fd, text, sizeof text - 1, 0);
            text[got > 0 ? got : 0] = 0;
            if (got > 0 && !tell_refusal(printer, own->daemons[i].path, text)) print_shown(text, (size_t)got);
            if (got <= 0) waits[i].fd = -1;
            left -= got <= 0;
        }
        if (fflush(stdout) != 0) return REFUSED;
    }
    return DONE;
}

static const char *status_question(const struct options *options) {
    if (options->action == METRICS) return "metrics\n";
    if (options->action == SHOW_CONFIG) return "config\n";
    return options->json ? "json\n" : "text\n";
}

/* Asks a daemon, and whether it answers before it is watched. One that does not has a line. */
static bool ask_one_or_stop(struct asking *own, struct daemon *daemon) {
    bool watched = own->options->action == WATCH;
    CLOSED_FILE int fd = ask_socket(daemon->path, status_question(own->options));
    daemon->may_ask = fd != -EACCES && fd != -EPERM;
    if (!daemon->may_ask) own->denied = daemon->path;
    if (fd < 0) complain(own->printer, "%s: its daemon does not answer: %s", daemon->path, strerror(-fd));
    if (fd >= 0) daemon->answer = read_whole_answer_or_stop(own->printer, fd, daemon->path);
    daemon->fd = watched && fd >= 0 ? ask_socket(daemon->path, own->options->json ? "watch-json\n" : "watch\n") : -1;
    return watched ? daemon->fd >= 0 : daemon->answer != NULL;
}

/* Tells a daemon an order; answers what it said, without the line end. */
static char *tell_order_or_stop(struct printer *printer, const char *interface, const char *path, const char *what) {
    char order[QUESTION_ROOM], *answer;
    if (snprintf(order, sizeof order, "%s %s\n", what, interface) >= (int)sizeof order || strchr(interface, '\n'))
        stop(WRONG_WORD, "expected the name of an interface", interface);
    CLOSED_FILE int fd = ask_socket(path, order);
    if (fd < 0) stop(REFUSED, path, strerror(-fd));
    answer = read_whole_answer_or_stop(printer, fd, path);
    if (answer) answer[strcspn(answer, "\n")] = 0;
    return answer;
}

/* The socket of the one daemon of a folder: one that was killed may have left another there. */
static const char *find_daemon_or_stop(const struct asking *own) {
    const char *found = NULL, *denied = own->denied;
    EACH_DAEMON_AS_IS(it, own) {
        CLOSED_FILE int fd = ask_socket(it->path, "");
        if (fd == -EACCES) denied = it->path;
        if (fd < 0) continue;
        if (found) stop(WRONG_WORD, "more than one lagd is here: give the folder of one by --folder", own->options->folder);
        found = it->path;
    }
    if (!found) refuse_all_and_stop(denied, own->options->folder);
    return found;
}

/* Has the one daemon of a folder change its bundle, and waits until that is done; answers how the program ends. */
static int order_daemon_or_stop(struct printer *printer, const struct asking *own) {
    const char *what = own->options->order, *path = find_daemon_or_stop(own);
    bool waits = true;
    while (waits) {
        char *answer = tell_order_or_stop(printer, own->options->interface, path, what);
        if (!answer) return REFUSED;
        waits = strncmp(answer, "wait: ", 6) == 0;
        if (!waits) print_shown(answer, strlen(answer));
        free(answer);
        if (waits && strcmp(what, "remove") == 0) what = "removed"; /* another one may add it anew meanwhile */
        if (waits) (void)poll(NULL, 0, NIW_TICK_MILLISECONDS);
    }
    puts("");
    return fflush(stdout) == 0 ? DONE : REFUSED;
}

int ask_daemons_or_stop(struct printer *printer, struct report *report, const struct options *options) {
    static struct asking own; /* its answers stay until the program ends */
    unsigned answers = 0;
    own = (struct asking){.printer = printer, .options = options};
    find_sockets(&own.found, options->folder, true);
    own.denied = own.found.denied;
    for (; own.count < own.found.count; own.count++)
        own.daemons[own.count] = (struct daemon){.path = own.found.sockets[own.count].path, .bundle = own.found.sockets[own.count].bundle};
    if (options->action == ORDER) return order_daemon_or_stop(printer, &own);
    if (options->action == SHOW_CONFIG) (void)find_daemon_or_stop(&own); /* a file has one bundle */
    EACH_DAEMON(it, &own) answers += ask_one_or_stop(&own, it);
    if (answers == 0 && (options->action != METRICS || own.count == 0 || own.denied)) refuse_all_and_stop(own.denied, options->folder);
    if (options->action == WATCH) return print_changes_of_all(printer, &own);
    if (options->action == METRICS) {
        print_metrics(&own);
        print_who_answers(report, &own);
    } else
        EACH_DAEMON(it, &own)
            if (it->answer) print_shown(it->answer, strlen(it->answer));
    return fflush(stdout) == 0 ? DONE : REFUSED;
}
