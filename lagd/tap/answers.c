/* Responses to markers, where data comes by several queues: what came on another one before the marker may still be on its way up. So a
 * response waits for `answer-after`, and then until the socket of its member has nothing more that came before. */
#include "tap.h"

#include <sys/timerfd.h>

/* More packets than the socket of a member has room for. */
#define MOST_UNREAD 32768

int open_answer_timer_or_stop(int epoll_file) {
    int timer = timerfd_create(CLOCK_MONOTONIC, TFD_NONBLOCK | TFD_CLOEXEC);
    if (timer < 0 || !await_input(epoll_file, timer, RESPONSES)) stop(REFUSED, "no clock", strerror(errno));
    return timer;
}

/* Has the timer wake the daemon for the first response of so many ports that is due: one that waits for its socket is looked at again in a
 * millisecond. */
static void set_timer(int timer, const struct answers *of_ports, uint16_t count) {
    uint64_t now = milliseconds(), next = UINT64_MAX;
    struct itimerspec at = {{0, 0}, {0, 0}};
    for (const struct answers *answers = of_ports; answers < of_ports + count; answers++)
        if (answers->count > 0 && answers->waiting[answers->first].due < next) next = answers->waiting[answers->first].due;
    if (next <= now) next = now + 1;
    if (next != UINT64_MAX) at.it_value = (struct timespec){(time_t)(next / 1000), (long)(next % 1000) * 1000000};
    (void)timerfd_settime(timer, TFD_TIMER_ABSTIME, &at, NULL);
}

bool answer_at_once(struct tap_plane *tap, struct link *link, const uint8_t *response) {
    send_frame(tap->core, &tap->protocol->changes.suspected, link, response);
    return true;
}

bool answer_later(struct tap_plane *tap, struct link *link, const uint8_t *response) {
    struct answers *answers = &tap->answers[link->settings.number - 1];
    if (answers->count == MOST_ANSWERS) return false;
    struct answer *answer = &answers->waiting[(answers->first + answers->count++) % MOST_ANSWERS];
    *answer = (struct answer){.due = milliseconds() + tap->settings->answer_after + 1, .unread = MOST_UNREAD};
    memcpy(answer->frame, response, sizeof answer->frame);
    if (answers->count == 1) set_timer(tap->answer_timer, tap->answers, tap->ports->count);
    return true;
}

/* So many packets were read of the socket of a member, or all that it had. */
void note_unread(struct answers *answers, unsigned packets, bool drained) {
    uint64_t now = answers->count > 0 ? milliseconds() : 0;
    for (unsigned i = 0; i < answers->count; i++) {
        struct answer *answer = &answers->waiting[(answers->first + i) % MOST_ANSWERS];
        if (answer->due > now) return;
        answer->unread = drained || answer->unread < packets ? 0 : answer->unread - packets;
    }
}

/* Sends what is due on a port, behind the data that came before. */
static void receive_data_and_changes_then_answer(struct tap_plane *tap, struct link *link) {
    struct answers *answers = &tap->answers[link - tap->ports->links];
    const struct member *member = &tap->members[link - tap->ports->links];
    uint64_t now = milliseconds();
    if (answers->count == 0 || answers->waiting[answers->first].due > now) return;
    if (!is_fast(member)) receive_data_and_changes(tap, link);
    bool fast = is_fast(member);
    while (answers->count > 0) {
        const struct answer *answer = &answers->waiting[answers->first];
        if (answer->due > now || (answer->unread > 0 && !fast)) return;
        send_frame(tap->core, &tap->protocol->changes.suspected, link, answer->frame);
        answers->first = (answers->first + 1) % MOST_ANSWERS;
        answers->count--;
    }
}

void serve_answer_timer_data_and_changes(struct tap_plane *tap) {
    uint64_t passed;
    (void)!read(tap->answer_timer, &passed, sizeof passed);
    EACH_LINK(link, tap->ports) receive_data_and_changes_then_answer(tap, link);
    set_timer(tap->answer_timer, tap->answers, tap->ports->count);
}
