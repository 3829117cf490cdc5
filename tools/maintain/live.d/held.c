/* Fills the queues in which the daemon holds frames (lagd/tap/held.c), in place of lagd/tap/data.c. A frame that is refused keeps no slot: a
 * conversation that gets many more frames than it may hold leaves room for the others. Each frame comes out with its octets and its time.
 *
 * It prints a line for each check that fails, and then 'held: N passed, M failed'; status 1 if one failed. */
#define _GNU_SOURCE
#include <stdio.h>
#include <stdlib.h>
#include <string.h>

#include "alone.h"
#include "checks.h"
#include "daemon.h"

#define EACH 2048u          /* frames that may wait in a conversation */
#define ALL 32768u          /* and in all */
#define LARGE_FRAMES 1024u  /* those of them that may be large */
#define MANY (2 * ALL)      /* more than there are slots */
#define SMALL_OCTETS 60
#define LARGE_OCTETS 9000

/* The daemon, as far as it is here. */
static struct lagd tested, *lagd = &tested;

const char *const program = "held";

ANSWERS(size_t packet_room, LARGE_OCTETS, void)
/* Whether so many frames of a conversation wait. */
static bool waits(uint16_t conversation, uint64_t wanted) {
    uint64_t waiting;
    return count_held(&lagd->core, &lagd->tap.held, conversation, &waiting) && waiting == wanted && none_held(&lagd->core, &lagd->tap.held, conversation) == (wanted == 0);
}

/* Whether so many wait in all. */
static bool all_wait(uint64_t wanted) {
    uint64_t waiting;
    return count_all_held(&lagd->core, &lagd->tap.held, &waiting) && waiting == wanted;
}

/* Puts a frame with this number into its first octets. */
static bool put(uint16_t conversation, uint32_t number, size_t length) {
    static uint8_t packet[LARGE_OCTETS];
    memcpy(packet, &number, sizeof number);
    return put_held(&lagd->core, &lagd->tap.held, conversation, lagd->carry.time, packet, length);
}

/* Takes the oldest frame out; answers its number, or UINT32_MAX where none waits. */
static uint32_t take(uint16_t conversation, size_t wanted) {
    size_t length;
    const uint8_t *packet;
    uint32_t number;
    packet = remove_held(&lagd->core, &lagd->tap.held, conversation, &length);
    if (!packet) return UINT32_MAX;
    memcpy(&number, packet, sizeof number);
    CHECK(length == wanted);
    return number;
}

/* Puts so many frames, numbered from 0; answers how many had room. */
static uint32_t put_many(uint16_t conversation, uint32_t count, size_t length) {
    uint32_t kept = 0;
    for (uint32_t number = 0; number < count; number++) kept += put(conversation, number, length);
    return kept;
}

/* Loses all frames of the first so many conversations; answers how many there were. */
static uint32_t lose(uint16_t conversations) {
    uint32_t lost = 0;
    for (uint16_t number = 0; number < conversations; number++)
        while (drop_held(&lagd->core, &lagd->tap.held, number)) lost++;
    return lost;
}

/* Frames leave in their order, each with its time. */
static void check_order(void) {
    uint64_t came = 0;
    CHECK(!oldest_held(&lagd->core, &lagd->tap.held, 7, &came) && came == 0 && waits(7, 0) && !drop_held(&lagd->core, &lagd->tap.held, 7));
    for (uint32_t number = 0; number < 4; number++) {
        lagd->carry.time = 1000 + number;
        CHECK(put(7, number, SMALL_OCTETS + number) && waits(7, number + 1) && waits(8, 0));
    }
    for (uint32_t number = 0; number < 4; number++) {
        CHECK(oldest_held(&lagd->core, &lagd->tap.held, 7, &came) && came == 1000 + number && waits(7, 4 - number) && all_wait(4 - number));
        if (number % 2 == 0)
            CHECK(take(7, SMALL_OCTETS + number) == number);
        else
            CHECK(drop_held(&lagd->core, &lagd->tap.held, 7));
    }
    CHECK(waits(7, 0));
    free_left(&lagd->tap.held);
}

/* A full conversation gets many frames more: each is refused, or the oldest one is lost for it. Then there is room for as many frames of
 * the others as may wait in all. */
static void check_refused(bool loses) {
    uint32_t kept = 0, others = 0;
    CHECK(put_many(0, EACH, SMALL_OCTETS) == EACH);
    for (uint32_t number = EACH; number < EACH + MANY; number++) {
        kept += put(0, number, SMALL_OCTETS);
        if (loses) kept += drop_held(&lagd->core, &lagd->tap.held, 0) && put(0, number, SMALL_OCTETS);
    }
    CHECK(kept == (loses ? MANY : 0) && waits(0, EACH) && all_wait(EACH));
    for (uint16_t number = 1; number < ALL / EACH; number++) others += put_many(number, EACH + 1, SMALL_OCTETS);
    CHECK(others == ALL - EACH && all_wait(ALL) && put_many(ALL / EACH, MANY, SMALL_OCTETS) == 0);
    CHECK(take(0, SMALL_OCTETS) == (loses ? MANY : 0));
    free_left(&lagd->tap.held);
    CHECK(put(0, 0, SMALL_OCTETS) && lose(CONVERSATIONS) == ALL && all_wait(0));
}

/* The same of large frames, which are refused where small ones fill their conversation. */
static void check_large(void) {
    CHECK(put_many(0, EACH, SMALL_OCTETS) == EACH && put_many(0, MANY, LARGE_OCTETS) == 0);
    CHECK(put_many(1, EACH, LARGE_OCTETS) == LARGE_FRAMES && put_many(2, 1, LARGE_OCTETS) == 0 && put_many(2, 1, SMALL_OCTETS) == 1);
    CHECK(take(1, LARGE_OCTETS) == 0 && put_many(2, 1, LARGE_OCTETS) == 0);
    free_left(&lagd->tap.held);
    CHECK(put_many(2, 2, LARGE_OCTETS) == 1 && lose(CONVERSATIONS) == EACH + LARGE_FRAMES + 1);
}

int main(void) {
    join_parts(lagd);
    start_held_or_stop(&lagd->core, &lagd->tap.held);
    check_order();
    for (unsigned times = 0; times < 2; times++) {
        check_refused(false);
        check_refused(true);
        check_large();
    }
    end_held(&lagd->core, &lagd->tap.held);
    return tell_checks();
}
