/* The markers of each queue, and the responses that wait (lagd/tap/queues.c, lagd/tap/answers.c), alone, over members and a clock in memory: a marker
 * goes by each queue that has frames which no response has told of, and counts as answered once each of these queues is.
 *
 * It prints a line for each check that fails, and then 'flights: N passed, M failed'; status 1 if one failed. */
#define _GNU_SOURCE
#include <stdio.h>
#include <stdlib.h>
#include <string.h>
#include <sys/socket.h>

#include "alone.h"
#include "checks.h"
#include "daemon.h"

/* Where a Marker PDU has its identifier: behind 14 octets of Ethernet and 12 of its own (IEEE 802.1AX-2014, 6.5.3.3). */
#define AT 26
#define PORT 3
#define AFTER 50

/* The daemon, as far as it is here. */
static struct lagd tested, *lagd = &tested;

const char *const program = "flights";

static uint64_t now = 1000;
static bool is_fast_member;
static unsigned sent, by_mark, answered, entries = 4;
static uint32_t ids[64], marks[64];

ANSWERS(uint64_t milliseconds, now, void)
ANSWERS(bool is_fast, is_fast_member, const struct member *member)
ANSWERS(unsigned count_sending_queues, entries, int index)
ANSWERS(bool await_input, fd >= 0 && tag == RESPONSES, int epoll_file, int fd, uint32_t tag)
NOTHING(receive_data_and_changes, struct tap_plane *tap, struct link *link)
void send_frame(struct core *core, bool *carrier_suspected, struct link *link, const uint8_t *frame) {
    answered++;
}

static uint32_t mark_of(struct msghdr *message) {
    uint32_t mark = 0;
    struct cmsghdr *head = CMSG_FIRSTHDR(message);
    if (head && head->cmsg_level == SOL_SOCKET && head->cmsg_type == SO_MARK) memcpy(&mark, CMSG_DATA(head), sizeof mark);
    return mark;
}

bool give_marker(struct core *core, const struct member *member, struct link *link, const uint8_t *marker, struct msghdr *message) {
    const uint8_t *at = marker + AT;
    ids[sent % 64] = (uint32_t)at[0] << 24 | (uint32_t)at[1] << 16 | (uint32_t)at[2] << 8 | at[3];
    marks[sent++ % 64] = mark_of(message);
    by_mark += mark_of(message) != 0;
    return true;
}

/* A frame of a conversation goes; answers the mark that it has. */
static uint32_t go(uint16_t number) {
    struct msghdr message = {0};
    mark_conversation(&lagd->tap.queues[PORT - 1], number, &message);
    return mark_of(&message);
}

/* A marker is due, with this identifier; answers by how many queues it went. */
static unsigned ask(uint32_t id, bool again) {
    uint8_t frame[NIW_FRAME] = {0};
    set_identifier(frame, id);
    sent = by_mark = 0;
    lagd->carry.time = now;
    (void)send_by_queues(&lagd->tap, &lagd->ports.links[PORT - 1], frame, again);
    return sent;
}

/* A response comes; answers the identifier that the library gets, or 0 where it gets none. */
static uint32_t hear(uint32_t id) {
    return note_queue_response(&lagd->tap.queues[PORT - 1], &id) ? id : 0;
}

static void try_one_flight(void) {
    begin_queues(&lagd->tap.queues[PORT - 1], 4);
    check(ask(0x51234567, false) == 4, __func__, "nobody knows what a new member has in its queues: a marker goes by each");
    check(ids[0] == 0x01234567 && ids[1] == 0x11234567 && ids[3] == 0x31234567, __func__, "its identifier has the queue");
    check(marks[0] == (QUEUE_MARK | 1) && marks[3] == (QUEUE_MARK | 4), __func__, "its mark has the queue, from 1 on");
    check(hear(0x11234567) == 0 && hear(0x11234567) == 0 && hear(0x31234567) == 0, __func__, "a response of one queue is not that of all");
    check(hear(0x21234568) == 0 && hear(0x41234567) == 0, __func__, "nor is that to another marker, or of a queue that there is not");
    check(ask(0x51234567, true) == 2 && ids[0] == 0x01234567 && ids[1] == 0x21234567, __func__, "what has no response goes again");
    check(hear(0x21234567) == 0 && hear(0x01234567) == 0x51234567, __func__, "the last one gives back the identifier");
    check(hear(0x01234567) == 0 && ask(0x51234567, true) == 0, __func__, "nothing of it is left");
}

static void try_dirty(void) {
    check(go(5) == (QUEUE_MARK | 2) && go(5 + 16) == (QUEUE_MARK | 2) && go(255) == (QUEUE_MARK | 4), __func__,
        "a conversation has its queue");
    check(ask(7, false) == 2 && ids[0] == 0x10000007 && ids[1] == 0x30000007, __func__, "a marker goes by the queues that had frames");
    check(go(2) == (QUEUE_MARK | 3) && ask(8, false) == 3, __func__, "the next one by those that are not answered for, too");
    check(hear(0x10000008) == 0 && hear(0x20000008) == 0 && hear(0x30000008) == 8, __func__, "it may be answered before the first one");
    check(hear(0x10000007) == 0 && hear(0x30000007) == 7, __func__, "and then that one");
    check(ask(9, false) == 1 && hear(9) == 9, __func__, "where no queue had frames a marker goes all the same");
    is_fast_member = true;
    check(ask(10, false) == 4, __func__, "where the kernel passes frames on, by each queue");
    entries = 6;
    check(ask(11, false) == 6, __func__, "and by those that were made meanwhile");
    is_fast_member = false;
    entries = 4;
    now += 3600;
    check(ask(11, true) == 0, __func__, "one that is old does not go again");
    check(hear(0x00000011) == 0 && ask(12, false) == 6, __func__, "its queues are not answered for");
}

static void try_many(void) {
    begin_queues(&lagd->tap.queues[PORT - 1], 1);
    for (uint32_t id = 21; id < 27; id++) check(ask(id, false) == 1 && by_mark == 0, __func__, "by one queue a marker has no mark");
    check(hear(21) == 0 && hear(22) == 0 && hear(23) == 23 && hear(26) == 26, __func__, "the last four markers may be answered");
    begin_queues(&lagd->tap.queues[PORT - 1], 16);
    check(ask(30, false) == 16 && ids[15] == 0xf000001e, __func__, "there are sixteen queues at most");
}

static void try_answers(void) {
    uint8_t frame[NIW_FRAME] = {0};
    unsigned taken = 0;
    lagd->tap.answer_timer = open_answer_timer_or_stop(lagd->process.epoll_file);
    while (taken < 100 && answer_later(&lagd->tap, &lagd->ports.links[PORT - 1], frame)) taken++;
    check(taken == 64, __func__, "sixty-four responses wait, and no more");
    serve_answer_timer_data_and_changes(&lagd->tap);
    check(answered == 0, __func__, "none goes before its time");
    now += AFTER + 1;
    serve_answer_timer_data_and_changes(&lagd->tap);
    check(answered == 0, __func__, "nor while its socket may have what came before");
    note_unread(&lagd->tap.answers[PORT - 1], 64, false);
    serve_answer_timer_data_and_changes(&lagd->tap);
    check(answered == 0, __func__, "or was not read to its end");
    note_unread(&lagd->tap.answers[PORT - 1], 3, true);
    serve_answer_timer_data_and_changes(&lagd->tap);
    check(answered == 64, __func__, "then all go");
    check(answer_later(&lagd->tap, &lagd->ports.links[PORT - 1], frame), __func__, "there is room again");
    lagd->tap.answers[PORT - 1].count = 0;
    now += 10 * AFTER;
    note_unread(&lagd->tap.answers[PORT - 1], 0, true);
    serve_answer_timer_data_and_changes(&lagd->tap);
    check(answered == 64, __func__, "with the link down none goes");
    check(answer_later(&lagd->tap, &lagd->ports.links[PORT - 1], frame), __func__, "there is room then");
    now += AFTER + 1;
    for (unsigned read = 0; read < 32768; read += 64) note_unread(&lagd->tap.answers[PORT - 1], 64, false);
    serve_answer_timer_data_and_changes(&lagd->tap);
    check(answered == 65, __func__, "a flood of data does not hold a response for ever");
}

int main(void) {
    join_parts(lagd);
    lagd->settings.answer_after = AFTER;
    lagd->ports.count = PORT;
    for (uint16_t i = 0; i < lagd->ports.count; i++) lagd->ports.links[i].settings.number = (uint16_t)(i + 1);
    try_one_flight();
    try_dirty();
    try_many();
    try_answers();
    return tell_checks();
}
