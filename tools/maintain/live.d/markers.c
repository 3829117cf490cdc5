/* What the daemon makes of Marker PDUs (lagd/markers.c, lagd/probe.c), alone, with a clock of its own: how many markers it answers, whose
 * responses it takes, and what it says of a peer that answers late, or never.
 *
 * It prints a line for each check that fails, and then 'markers: N passed, M failed'; status 1 if one failed. */
#define _GNU_SOURCE
#include <net/ethernet.h>
#include <stdio.h>
#include <stdlib.h>
#include <string.h>

#include "alone.h"
#include "checks.h"
#include "daemon.h"

#define TICK 100u
#define MINUTE 60000u
#define FIRST_ID 0x12345678u

/* The daemon, as far as it is here. */
static struct lagd tested, *lagd = &tested;

const char *const program = "markers";

/* Its members have one queue. */
static const struct queueing OF_ONE_QUEUE = {.markers_at_once = 1};

static uint64_t now = 5 * MINUTE;
static unsigned said; /* lines */
static uint32_t last_id = FIRST_ID - 1;
static unsigned sent, again;
static bool answered; /* whether the response to the last marker came */

static const uint8_t OWN[6] = {2, 0, 0, 0, 0, 0xaa}, PARTNER[6] = {2, 0, 0, 0, 0, 0xbb}, STRANGER[6] = {2, 0, 0, 0, 0, 0xcc};

ANSWERS(uint64_t milliseconds, now, void)
bool say(struct printer *printer, int level, const char *format, ...) {
    said++;
    return true;
}

const char *mac_text(const uint8_t *mac, char room[static 32]) {
    return room[0] = 0, room;
}

void withdraw_and_send_new_marker(struct plane *plane, struct link *link, const uint8_t *frame) {
    sent++;
}

bool withdraw_and_repeat_marker(struct tap_plane *tap, uint16_t port) {
    return again++, true;
}

/* Writes a Marker PDU of this port behind an Ethernet header. */
static void write_frame(uint8_t *frame, const uint8_t source[static ETH_ALEN], uint8_t kind, uint16_t port, uint32_t id) {
    struct niw_pdu pdu = {.subtype = NIW_SUBTYPE_MARKER, .tlv_type = kind, .requester_port = port, .transaction_id = id};
    memcpy(pdu.requester_system, OWN, sizeof OWN);
    memset(frame, 0, NIW_FRAME);
    for (size_t i = 0; i < ETH_ALEN; i++) frame[ETH_ALEN + i] = source[i];
    CHECK(niw_encode(&pdu, frame + ETH_HLEN, NIW_PAYLOAD_LENGTH) == NIW_OK);
}

struct niw_sent __wrap_lagffi_probe(struct niw_system *handle, uint16_t port, uint8_t *frame, size_t room);
struct niw_sent __wrap_lagffi_probe(struct niw_system *handle, uint16_t port, uint8_t *frame, size_t room) {
    write_frame(frame, OWN, NIW_MARKER_INFORMATION, port, ++last_id);
    answered = false;
    return (struct niw_sent){.is = true, .what = NIW_SENT_MARKER, .octets = NIW_FRAME};
}

/* As the library notes it of this port. */
struct niw_number __wrap_lagffi_answers(struct niw_system *handle, uint16_t port);
struct niw_number __wrap_lagffi_answers(struct niw_system *handle, uint16_t port) {
    return (struct niw_number){.number = answered ? NIW_ANSWERS_ANSWERED : NIW_ANSWERS_ASKED};
}

/* A response comes on port 1; answers whether it is taken. */
static bool respond(const uint8_t *source, uint16_t port, uint32_t id) {
    uint8_t frame[NIW_FRAME];
    struct arrival arrival = {.frame = frame, .length = sizeof frame};
    struct niw_pdu response;
    write_frame(frame, source, NIW_MARKER_RESPONSE, port, id);
    CHECK(read_response(&lagd->core, &arrival, &response));
    if (!is_partners_response(&lagd->settings, &lagd->ports.links[0], &arrival, &response)) {
        note_odd_marker(&lagd->ports.links[0], &arrival, FOREIGN_RESPONSES);
        return false;
    }
    answered = answered || (port == 1 && id == last_id);
    note_response(&lagd->plane, &lagd->ports.links[0]);
    return true;
}

static void pass(unsigned ticks) {
    for (; ticks > 0; ticks--) {
        now += TICK;
        lagd->carry.time = now;
        pass_probe_tick(&lagd->tap);
    }
}

/* A peer that nobody asked yet, on a link whose partner is known. */
static void begin(void) {
    memset(lagd->ports.links, 0, sizeof lagd->ports.links);
    lagd->ports.links[0].settings.number = 1;
    lagd->ports.links[0].heard = true;
    memcpy(lagd->ports.links[0].source, PARTNER, sizeof PARTNER);
    lagd->carry.active = lagd->carry.active_count = lagd->carry.active_ports[0] = 1;
    lagd->ports.links[0].view.partner_key++;
    now += MINUTE;
    lagd->carry.time = now;
    reset_if_other_partner(&lagd->carry.probe, &lagd->carry);
    lagd->ports.links[0].view.partner_key = (uint16_t)now;
    reset_if_other_partner(&lagd->carry.probe, &lagd->carry);
    sent = again = said = 0;
    CHECK(lagd->carry.probe.peer == NOT_ASKED);
}

/* A peer that answers after three ticks answers markers, and nothing else is said meanwhile. */
static void check_slow(void) {
    begin();
    pass(4);
    CHECK(lagd->carry.probe.peer == ASKED && said == 0 && sent == 1 && again == 1);
    CHECK(respond(PARTNER, 1, last_id) && lagd->carry.probe.peer == ANSWERS && said == 1);
    pass(1200);
    CHECK(lagd->carry.probe.peer == ANSWERS && said == 1 && sent == 1);
}

/* A peer that never answers is told of once, and is not taken for another one while it is asked again, each minute. */
static void check_mute(void) {
    begin();
    pass(12);
    CHECK(lagd->carry.probe.peer == MUTE && said == 1 && sent == 1);
    for (unsigned tick = 0; tick < 2400; tick++) {
        pass(1);
        CHECK(lagd->carry.probe.peer == MUTE);
    }
    CHECK(said == 1 && sent == 4 + 1);
    CHECK(respond(PARTNER, 1, last_id) && lagd->carry.probe.peer == ANSWERS && said == 2);
}

/* No response of another one, of another port or of another number makes a mute peer one that answers; a late one does. */
static void check_forged(void) {
    begin();
    pass(12);
    CHECK(!respond(STRANGER, 1, last_id) && !respond(PARTNER, 2, last_id) && !respond(STRANGER, 0, 0) && lagd->carry.probe.peer == MUTE);
    for (uint32_t id = 0; id < 1000; id++) CHECK(respond(PARTNER, 1, id) && lagd->carry.probe.peer == MUTE);
    CHECK(said == 1 && lagd->ports.links[0].counts[FOREIGN_RESPONSES] == 3);
    tell_markers(&lagd->process.printer, lagd->protocol.ticks, &lagd->ports.links[0]);
    tell_markers(&lagd->process.printer, lagd->protocol.ticks, &lagd->ports.links[0]);
    CHECK(said == 2);
    CHECK(respond(PARTNER, 1, last_id) && lagd->carry.probe.peer == ANSWERS);
}

/* A marker comes on port 1; answers whether one more is answered. */
static bool spends(const struct arrival *arrival) {
    return spend_answer(&lagd->ports.links[0], arrival, lagd->settings.marker_responses * lagd->plane.queueing->markers_at_once);
}

/* Markers come each `step` milliseconds for a minute; the most that were answered within any second, and how many in all. */
static unsigned most_answered(const uint8_t *source, unsigned step, unsigned *all) {
    static uint64_t times[2 * MINUTE];
    uint8_t frame[NIW_FRAME];
    struct arrival arrival = {.frame = frame, .length = sizeof frame};
    unsigned most = 0, count = 0;
    write_frame(frame, source, NIW_MARKER_INFORMATION, 1, 1);
    for (unsigned passed = 0; passed < MINUTE; passed += step) {
        now += step;
        if (spends(&arrival)) times[count++] = now;
    }
    for (unsigned first = 0; first < count; first++) {
        unsigned end = first;
        while (end < count && times[end] - times[first] < 1000) end++;
        if (end - first > most) most = end - first;
    }
    *all = count;
    return most;
}

/* Any second has ten responses at most, and two of them for others, of whom the partner notices nothing. */
static void check_budgets(void) {
    static const unsigned STEPS[] = {1, 3, 7, 83, 99, 101, 130, 1000};
    unsigned all, most;
    uint8_t frame[NIW_FRAME];
    struct arrival strange = {.frame = frame, .length = sizeof frame};
    lagd->settings.marker_responses = 10;
    for (size_t i = 0; i < sizeof STEPS / sizeof *STEPS; i++) {
        begin();
        most = most_answered(PARTNER, STEPS[i], &all);
        CHECK(most <= 10 && all >= (STEPS[i] < 110 ? 540u : MINUTE / STEPS[i]));
        most = most_answered(STRANGER, STEPS[i], &all);
        CHECK(most <= 2);
    }
    begin();
    write_frame(frame, STRANGER, NIW_MARKER_INFORMATION, 1, 1);
    for (unsigned turn = 0; turn < 600; turn++) {
        uint8_t marker[NIW_FRAME];
        struct arrival arrival = {.frame = marker, .length = sizeof marker};
        write_frame(marker, PARTNER, NIW_MARKER_INFORMATION, 1, turn);
        for (unsigned forged = 0; forged < 30; forged++, now += 5) (void)spends(&strange);
        CHECK(spends(&arrival));
    }
    lagd->ports.links[0].heard = false;
    now += MINUTE;
    CHECK(most_answered(STRANGER, 3, &all) == 10);
}

int main(void) {
    join_parts(lagd);
    lagd->plane.queueing = &OF_ONE_QUEUE;
    memcpy(lagd->settings.config.mac, OWN, sizeof OWN);
    check_slow();
    check_mute();
    check_forged();
    check_budgets();
    return tell_checks();
}
