/* loop.h for a chip that looks up the port of a frame in a table, with a row for each hash bucket of each LAG. Frames of a bucket stay in order when the ports
 * of the trunk change, behind markers, if the peer answers them. A program includes this file in place of loop.h, and gives two functions more. One aggregator
 * a LAG will do, as there. hash_buckets.c is such a program, and so are hash_buckets_64.c and restarts_rows.c.
 *
 * `chip_send` sends behind the data that rows sent on its port: it waits until each queue of the port is empty, or takes the same queue. */
#ifndef ROWS_H
#define ROWS_H

#define HAS_ROWS
#include "loop.h"

/* The rows of a LAG: -DROWS=64 for a chip with that many. The library has 256 conversations at least; those beyond the rows stay free. */
#ifndef ROWS
#define ROWS NIW_FEW_CONVERSATIONS
#endif
_Static_assert(ROWS >= 16 && ROWS <= NIW_FEW_CONVERSATIONS && (ROWS & (ROWS - 1)) == 0, "ROWS is a power of two from 16 to 256");

#define WORST_DELAY 50 /* ticks that a frame can be on its way at most */

struct rows {
    uint16_t port[LAGS][ROWS];  /* what the chip has: the port of each row, or 0, with which it drops the frames */
    uint16_t since[LAGS][ROWS]; /* the tick at which a row was cleared, its low 16 bits */
    uint32_t level[LAGS];       /* the ports that have their shares, or 0; a warm start takes nothing of what follows */
    uint32_t asked[PORTS + 1];  /* the tick of the last probe */
    uint16_t adopted;           /* the tick of a warm start, its low 16 bits; and whether a row was clear then, whose frames may be on their way */
    bool waits;
    union {                   /* of one call, as is `changed` */
        struct niw_carried carried[ROWS];
        uint16_t all[NIW_FEW_CONVERSATIONS];
    };
    bool changed[NIW_FEW_CONVERSATIONS];
};

/* What the program gives besides. */
static struct rows *rows_of(struct loop *here);
static void chip_set_row(struct loop *here, uint16_t lag, uint16_t row, uint16_t port);

static void set_row(struct loop *here, uint16_t lag, uint16_t row, uint16_t port) {
    rows_of(here)->port[lag - 1][row] = port;
    rows_of(here)->since[lag - 1][row] = (uint16_t)here->ticks;
    chip_set_row(here, lag, row, port);
}

/* Whether the peer answers markers on each port; one that did not is asked each second. */
static bool all_answer(struct loop *here, const uint16_t *ports, size_t count) {
    uint32_t *asked = rows_of(here)->asked;
    uint8_t frame[NIW_FRAME];
    bool all = true;
    for (size_t i = 0; i < count; i++) {
        if (niw_answers(&here->system, ports[i]).number == NIW_ANSWERS_ANSWERED) continue;
        all = false;
        if (here->ticks - asked[ports[i]] < SECOND || !niw_probe(&here->system, ports[i], frame, sizeof frame).is) continue;
        asked[ports[i]] = here->ticks;
        chip_send(here, ports[i], frame, sizeof frame);
    }
    return all;
}

/* Moves rows until each port of the trunk has its share. While a row is clear nothing moves: it counts for no port in `carried`. */
static void level(struct loop *here, uint16_t lag) {
    struct rows *rows = rows_of(here);
    uint16_t ports[PORTS], count = 0;
    for (uint16_t row = 0; row < ROWS; row++) {
        if (rows->port[lag - 1][row] == 0) return;
        rows->carried[row] = (struct niw_carried){.port = rows->port[lag - 1][row], .load = 1};
    }
    for (uint16_t port = 1; port <= PORTS; port++)
        if (here->trunk[lag - 1] & bit_of(port)) ports[count++] = port;
    struct niw_move move = niw_next_move(ports, count, rows->carried, ROWS);
    if (move.status == NIW_OK && !move.is) rows->level[lag - 1] = here->trunk[lag - 1];
    if (!move.is || !all_answer(here, ports, count)) return;
    while (move.is && niw_move_conversation(&here->system, lag, move.conversation, move.port) == NIW_OK) {
        rows->carried[move.conversation].port = move.port;
        set_row(here, lag, move.conversation, 0);
        move = niw_next_move(ports, count, rows->carried, ROWS);
    }
}

/* The library is asked with a list that has a place for each conversation: that of the rows, or a copy. */
#if ROWS < NIW_FEW_CONVERSATIONS
#define LIST(rows, lag) (rows)->all
static void copy_rows(struct rows *rows, uint16_t lag) {
    for (uint16_t row = 0; row < ROWS; row++) rows->all[row] = rows->port[lag - 1][row];
}
#else
#define LIST(rows, lag) (rows)->port[(lag) - 1]
static void copy_rows(struct rows *rows, uint16_t lag) { (void)rows, (void)lag; }
#endif

/* Before anything is sent: `port` is what the chip's rows hold, also those that were offered. */
static void clear_rows(struct loop *here) {
    struct rows *rows = rows_of(here);
    for (uint16_t lag = 1; lag <= LAGS; lag++) {
        copy_rows(rows, lag);
        niw_conversation_ports(&here->system, lag, LIST(rows, lag), NIW_FEW_CONVERSATIONS, rows->changed, NIW_FEW_CONVERSATIONS);
        for (uint16_t row = 0; row < ROWS; row++)
            if (rows->changed[row]) set_row(here, lag, row, LIST(rows, lag)[row]);
        if (rows->level[lag - 1] != here->trunk[lag - 1]) level(here, lag);
    }
}

/* Clears each row of a chip that has nobody knows what. `clear_rows` writes those anew whose conversation stays on its port. */
static void forget_rows(struct loop *here) {
    for (uint16_t lag = 1; lag <= LAGS; lag++) {
        rows_of(here)->level[lag - 1] = 0;
        for (uint16_t row = 0; row < ROWS; row++) set_row(here, lag, row, 0);
    }
}

static inline void begin_rows(struct loop *here) {
    rows_of(here)->adopted = (uint16_t)here->ticks;
    rows_of(here)->waits = false;
    for (uint16_t port = 1; port <= PORTS; port++) rows_of(here)->asked[port] = 0;
}

/* Behind niw_resume, and before the first `settle`: the rows go on as the list has them. */
static inline void adopt_rows(struct loop *here) {
    struct rows *rows = rows_of(here);
    begin_rows(here);
    for (uint16_t lag = 1; lag <= LAGS; lag++)
        for (uint16_t row = 0; row < ROWS; row++)
            if (niw_adopt(&here->system, lag, row, rows->port[lag - 1][row]) != NIW_OK && here->trunk[lag - 1]) rows->waits = true;
}

static inline uint32_t sum_rows(struct loop *here, uint32_t sum) {
    return sum_octets(rows_of(here), offsetof(struct rows, asked), sum);
}

/* Offers a bucket. One that waits for longer than its frames can be on their way is freed without a response: its link died silently, or its peer answers
 * none. */
static struct niw_number offer(struct loop *here, uint16_t lag, uint16_t row) {
    struct niw_number port = niw_offer_conversation(&here->system, lag, row);
    if (port.status != NIW_HELD || (uint16_t)(here->ticks - rows_of(here)->since[lag - 1][row]) <= WORST_DELAY) return port;
    niw_force(&here->system, lag, row);
    return niw_offer_conversation(&here->system, lag, row);
}

/* Offers each bucket whose row is clear; the answered port goes into the row. */
static void fill_rows(struct loop *here) {
    struct rows *rows = rows_of(here);
    if (rows->waits && (uint16_t)(here->ticks - rows->adopted) <= WORST_DELAY) return;
    rows->waits = false;
    for (uint16_t lag = 1; lag <= LAGS; lag++) {
        if (here->trunk[lag - 1] == 0) continue;
        for (uint16_t row = 0; row < ROWS; row++) {
            if (rows->port[lag - 1][row] != 0) continue;
            struct niw_number port = offer(here, lag, row);
            if (port.status != NIW_OK) continue;
            set_row(here, lag, row, (uint16_t)port.number);
            rows->level[lag - 1] = 0;
        }
    }
}

#endif
