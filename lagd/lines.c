/* Lines for whoever reads them, printed only where that cannot stop the daemon. */
#include "lagd.h"

#include <poll.h>
#include <stdarg.h>
#include <sys/un.h>

#define LONGEST_LINE 512 /* a pipe with room has at least so many octets of it */
#define LONGEST_TEXT 400 /* octets of the text of a line */

#define KIND_ID(kind, value, id) [(value) / ABOUT_PORT] = id,
static const char *const MESSAGE_IDS[KINDS / ABOUT_PORT + 1] = {EACH_KIND(KIND_ID)};

/* Writes `length` octets of text so that a terminal only shows them: each one that is not printable ASCII as \xHH, but for the ends of
 * lines where there may be `lines`. Answers how many octets that are. */
size_t escape(char *text, size_t room, const char *from, size_t length, bool lines) {
    size_t used = 0;
    for (size_t i = 0; i < length && used + 5 < room; i++) {
        unsigned char octet = (unsigned char)from[i];
        bool plain = (octet >= 0x20 && octet < 0x7f) || (lines && (octet == '\n' || octet == '\t'));
        used += (size_t)snprintf(text + used, room - used, plain ? "%c" : "\\x%02x", octet);
    }
    text[used] = 0;
    return used;
}

/* Opens standard output; of a pipe or a terminal an opening of our own, at which no write waits. */
static int open_output(int *opened) {
    struct stat file;
    if (*opened >= 0) return *opened;
    if (isatty(STDOUT_FILENO) || (fstat(STDOUT_FILENO, &file) == 0 && S_ISFIFO(file.st_mode)))
        *opened = open("/proc/self/fd/1", O_WRONLY | O_NONBLOCK | O_NOCTTY | O_CLOEXEC);
    if (*opened < 0) *opened = STDOUT_FILENO;
    return *opened;
}

/* Whether the journal reads standard output: then a line begins with its priority, and has no time of its own. */
static bool in_journal(void) {
    const char *stream = getenv("JOURNAL_STREAM");
    struct stat file;
    uintmax_t device, inode;
    return stream && fstat(STDOUT_FILENO, &file) == 0 && sscanf(stream, "%ju:%ju", &device, &inode) == 2
        && device == (uintmax_t)file.st_dev && inode == (uintmax_t)file.st_ino;
}

static bool write_line(int fd, const char *line, size_t length) {
    struct pollfd out = {fd, POLLOUT, 0};
    bool may_wait = fd == STDOUT_FILENO || fd == STDERR_FILENO;
    if (may_wait && (poll(&out, 1, 0) != 1 || !(out.revents & POLLOUT))) return false;
    return write(fd, line, length) == (ssize_t)length;
}

/* Writes a line on standard error, under the name of the program. */
static void write_error(const char *text) {
    char line[LONGEST_LINE];
    size_t used = (size_t)snprintf(line, sizeof line, "%slagd: ", in_journal() ? "<3>" : "");
    used += escape(line + used, sizeof line - used - 1, text, strlen(text), false);
    line[used] = '\n';
    (void)write_line(STDERR_FILENO, line, used + 1);
}

/* Ends the program with a line on standard error. No peer knows of it: it is called before there are any. */
_Noreturn void stop(int status, const char *what, const char *which) {
    char text[LONGEST_TEXT];
    snprintf(text, sizeof text, "%s: %s", what, which);
    write_error(text);
    exit(status);
}

/* Ends the program, unless something that it starts with was done: errno tells why not. */
void need(bool done, const char *what) {
    if (!done) stop(REFUSED, what, strerror(errno));
}

/* The library refuses only what this program should not ask: then the loop tells the peers, and ends; before the loop the program ends at once. */
bool is_done(struct core *core, uint32_t status, const char *call) {
    char why[64];
    if (status == NIW_OK || core->broken) return status == NIW_OK;
    snprintf(why, sizeof why, "refused with %" PRIu32, status);
    if (!core->printer->process->has_started) stop(REFUSED, call, why);
    core->broken = true;
    (void)say(core->printer, LOG_ERR | ABOUT_REFUSAL, "%s: %s; the peers are told, and the daemon ends", call, why);
    return false;
}

bool is_told(struct core *core, struct niw_number answer, const char *call, uint64_t *number) {
    *number = answer.number;
    return is_done(core, answer.status, call);
}

/* Hands the journal a line of printable text of the bundle of this name, by its own protocol; answers 0, or -errno. */
static int tell_journal(int *journal, const char *name, int level, const char *text) {
    static const struct sockaddr_un to = {.sun_family = AF_UNIX, .sun_path = "/run/systemd/journal/socket"};
    char entry[2048], bundle[4 * NAME_ROOM];
    const char *id = MESSAGE_IDS[(level & KINDS) / ABOUT_PORT];
    if (*journal < 0) *journal = socket(AF_UNIX, SOCK_DGRAM | SOCK_NONBLOCK | SOCK_CLOEXEC, 0);
    if (*journal < 0) return last_fault();
    (void)escape(bundle, sizeof bundle, name, strlen(name), false);
    int used = snprintf(entry, sizeof entry, "MESSAGE=%s\nPRIORITY=%d\nSYSLOG_IDENTIFIER=lagd\nLAGD_BUNDLE=%s\n", text, level & LOG_PRIMASK, bundle);
    if (id) used += snprintf(entry + used, sizeof entry - (size_t)used, "MESSAGE_ID=%s\n", id);
    return sendto(*journal, entry, (size_t)used, MSG_NOSIGNAL, (const struct sockaddr *)&to, sizeof to) == used ? 0 : last_fault();
}

/* Prints a text with the time, in UTC, or for the journal with its priority; watchers get it, too. Answers whether it was printed. */
static bool say_text(struct printer *printer, int level, const char *text) {
    char line[LONGEST_LINE], time[32];
    struct timespec now;
    clock_gettime(CLOCK_REALTIME, &now);
    int used = snprintf(line, sizeof line, "%s.%03ldZ %s\n", time_text(now.tv_sec, time), now.tv_nsec / 1000000, text);
    if (!(level & WATCHED)) tell_watchers(printer->watchers, line, (size_t)used, false);
    if (in_journal()) {
        int fault = tell_journal(&printer->journal, printer->process->settings->name, level, text);
        if (fault == 0 || fault == -EAGAIN) return fault == 0; /* one that is elsewhere reads standard output */
        used = snprintf(line, sizeof line, "<%d>%s\n", level & LOG_PRIMASK, text);
    }
    return write_line(open_output(&printer->output), line, (size_t)used);
}

/* Prints a text as a line that a terminal only shows; what is wrong with a file stands on standard error at the start. Answers whether it was
 * printed. */
bool say(struct printer *printer, int level, const char *format, ...) {
    char raw[LONGEST_TEXT], text[LONGEST_TEXT];
    va_list given;
    va_start(given, format);
    int length = vsnprintf(raw, sizeof raw, format, given);
    va_end(given);
    (void)escape(text, sizeof text, raw, length < (int)sizeof raw ? (size_t)length : sizeof raw - 1, false);
    if (printer->process->has_started || (level & KINDS) != ABOUT_FILE) return say_text(printer, level, text);
    write_error(text);
    return true;
}
