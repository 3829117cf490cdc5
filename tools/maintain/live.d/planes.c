/* Hosts that carry data, as docs/USING.md has them under 'A data plane' and 'A switch chip': end 0 sends and end 1 receives, over
 * two links of unlike speed that are cut now and then, while conversations move. What a host sends waits in its queue, on the cable
 * and in the socket of the other end. At a right host no frame overtakes another one of its flow. Each of the others does one thing
 * otherwise, and frames do.
 *
 * It prints a line for each host of which that is not so, and then 'planes: N passed, M failed'; status 1 if one failed. */
#include <stdio.h>
#include <stdlib.h>

#include "lag.h"

#define LINKS 2
#define FLOWS 8
#define ROOM 8192
#define PLAYS 4     /* of a host */
#define STEPS 40000 /* of a play, each of 10 ms */
#define TICK 10     /* in steps, as all that follow */
#define FIRST 600   /* until the first frame */
#define BREAK 2000  /* from one cut to the next */
#define BROKEN 150  /* for which the link is cut */

enum way {
    RIGHT,
    MARKERS_FIRST, /* a marker goes by the data in the queue */
    NEW_FIRST,     /* a new frame goes by those that are held */
    TWO_SOCKETS,   /* control frames have a socket of their own */
    LINKS_LAST,    /* the receiving end takes the data in a socket before the change of its link */
    QUEUE_KEPT,    /* what waits in the queue of a link that goes down is sent once its port distributes again */
    FORCED,        /* a conversation that is to be moved is forced */
    CHIP,
    CHIP_UNFLUSHED, /* a marker goes out before the data in the queue */
    CHIP_ROWS_LATE, /* a marker goes out before the rows of its port are cleared */
    CHIP_HASTY,     /* a marker is answered before the data before it was handed up */
    WAYS
};

static const char *const SAYS[WAYS] = {"a host that keeps to the page", "markers before data",
    "new frames before those that are held", "two sockets", "data before changes of links", "a queue that outlives its link",
    "force in place of markers", "a chip that is programmed as the page says", "a chip that is not flushed",
    "a chip whose rows are cleared late", "a chip that answers markers at once"};

struct frame {
    uint8_t octets[NIW_FRAME];
    uint32_t length, flow, serial;
    bool control;
};

struct queue {
    struct frame frames[ROOM];
    size_t first, count;
};

/* One direction of a link: the queue of the sending host, the cable, the socket of the receiving host, and what goes up there. */
struct path {
    struct queue queue, cable, socket, upward;
};

static enum way way;
static struct niw_system ends[2];
static struct path paths[2][LINKS]; /* from each end */
static struct queue held[FLOWS], kept[LINKS];
static uint16_t rows[FLOWS]; /* of the chip: the port of each flow, or 0 */
static uint32_t sent[FLOWS], next[FLOWS], overtaken, arrived, moves;
static uint64_t seed;

static bool is_chip(void) {
    return way >= CHIP;
}

static unsigned below(unsigned most) {
    seed = seed * 6364136223846793005u + 1442695040888963407u;
    return (unsigned)(seed >> 33) % most;
}

static struct frame *at(struct queue *queue, size_t index) {
    return &queue->frames[(queue->first + index) % ROOM];
}

static void put(struct queue *queue, const struct frame *frame) {
    if (queue->count < ROOM) *at(queue, queue->count++) = *frame;
}

static struct frame take(struct queue *queue) {
    struct frame frame = *at(queue, 0);
    queue->first = (queue->first + 1) % ROOM;
    queue->count--;
    return frame;
}

static void put_first(struct queue *queue, const struct frame *frame) {
    if (queue->count == ROOM) return;
    queue->first = (queue->first + ROOM - 1) % ROOM;
    queue->count++;
    *at(queue, 0) = *frame;
}

static void pass_on(struct queue *from, struct queue *to, size_t most) {
    for (; most > 0 && from->count > 0; most--) {
        struct frame frame = take(from);
        put(to, &frame);
    }
}

/* The client of end 1 takes a frame. */
static void hand_up(const struct frame *frame) {
    if (frame->serial < next[frame->flow]) overtaken++;
    if (frame->serial >= next[frame->flow]) next[frame->flow] = frame->serial + 1;
    arrived++;
}

/* A control frame goes out. The processor of a chip has a queue of its own, before that of the data. */
static void send_control(unsigned end, uint16_t port, const uint8_t *octets, bool marker) {
    struct frame frame = {.length = NIW_FRAME, .control = true};
    struct path *path = &paths[end][port - 1];
    memcpy(frame.octets, octets, NIW_FRAME);
    if (marker && way != CHIP_UNFLUSHED && is_chip()) pass_on(&path->queue, &path->cable, ROOM); /* the flush */
    if (is_chip() || (way == MARKERS_FIRST && marker))
        put_first(&path->queue, &frame);
    else
        put(&path->queue, &frame);
}

/* The rows of the chip that name a port without being On it are cleared. */
static void clear_rows(void) {
    for (uint16_t flow = 0; flow < FLOWS; flow++) {
        struct niw_assignment now = niw_conversation_state(&ends[0], 1, flow);
        if (now.what != NIW_CONVERSATION_ON || now.port != rows[flow]) rows[flow] = 0;
    }
}

/* The rows of the chip that are clear get the port of a frame that stands for their flow. */
static void fill_rows(void) {
    for (uint16_t flow = 0; flow < FLOWS; flow++) {
        uint8_t stand_in[NIW_SHORTEST_FRAME] = {0};
        struct niw_number port;
        stand_in[5] = (uint8_t)flow;
        if (rows[flow] != 0) continue;
        port = niw_offer(&ends[0], 1, stand_in, sizeof stand_in);
        rows[flow] = port.status == NIW_OK ? (uint16_t)port.number : 0;
    }
}

/* Offers a frame; answers whether it went. */
static bool offer(const struct frame *frame) {
    struct niw_number port = niw_offer(&ends[0], 1, frame->octets, frame->length);
    if (port.status != NIW_OK) return false;
    put(&paths[0][port.number - 1].queue, frame);
    return true;
}

static void release(void) {
    for (unsigned flow = 0; flow < FLOWS; flow++)
        while (held[flow].count > 0 && offer(at(&held[flow], 0))) (void)take(&held[flow]);
}

/* After each call: rows are cleared, what is due goes out, and what is free goes on. */
static void follow(unsigned end) {
    uint8_t frame[NIW_FRAME];
    if (end == 0 && is_chip() && way != CHIP_ROWS_LATE) clear_rows();
    for (uint16_t port = 1; port <= LINKS; port++) {
        struct niw_sent due = niw_transmit(&ends[end], port, frame, sizeof frame);
        for (; due.is; due = niw_transmit(&ends[end], port, frame, sizeof frame))
            send_control(end, port, frame, due.what == NIW_SENT_MARKER);
    }
    if (end == 0 && is_chip() && way != CHIP_ROWS_LATE) fill_rows();
    if (end == 0 && way != NEW_FIRST) release();
}

/* The library takes a frame. A chip hands up data by itself, where the port collects. */
static void receive(unsigned end, uint16_t port, const struct frame *frame) {
    struct path *path = &paths[1 - end][port - 1];
    uint8_t response[NIW_FRAME];
    struct niw_received received;
    if (is_chip() && !frame->control) {
        if (niw_state(&ends[end], port).number & NIW_STATE_COLLECTING) put(&path->upward, frame);
        return;
    }
    received = niw_receive(&ends[end], port, frame->octets, frame->length, response, sizeof response);
    if (received.what == NIW_RECEIVED_HANDED_UP) hand_up(frame);
    if (received.what == NIW_RECEIVED_RESPOND) {
        while (way != CHIP_HASTY && path->upward.count > 0) {
            struct frame first = take(&path->upward);
            hand_up(&first);
        }
        send_control(end, port, response, false);
    }
    follow(end);
}

/* What comes next from a socket: of two sockets, a control frame first. */
static struct frame next_of(struct queue *socket) {
    struct frame first;
    size_t place = 0;
    while (way == TWO_SOCKETS && place < socket->count && !at(socket, place)->control) place++;
    if (place == socket->count) place = 0;
    first = *at(socket, place);
    for (; place > 0; place--) *at(socket, place) = *at(socket, place - 1);
    (void)take(socket);
    return first;
}

/* How many frames go on in a step. Link 1 is slow, link 2 fast. */
static size_t pace(unsigned link) {
    return link == 0 ? below(4) / 2 : below(16);
}

/* How many frames a host takes from a socket in a step. It looks after link 1 seldom. */
static size_t patience(unsigned link) {
    return link == 1 ? below(16) : below(16) == 0 ? 16 : 0;
}

static void move_frames(unsigned end, unsigned link, bool cut) {
    struct path *path = &paths[end][link];
    size_t most = patience(link);
    if (!cut) {
        pass_on(&path->cable, &path->socket, pace(link));
        pass_on(&path->queue, &path->cable, pace(link));
    }
    for (; most > 0 && path->socket.count > 0; most--) {
        struct frame frame = next_of(&path->socket);
        receive(1 - end, (uint16_t)(link + 1), &frame);
    }
    for (most = patience(link); most > 0 && path->upward.count > 0; most--) {
        struct frame frame = take(&path->upward);
        hand_up(&frame);
    }
}

/* A new frame of the client. Its addresses name the flow; those of a chip need not. */
static void send_new(void) {
    struct frame frame = {.length = 60, .flow = below(FLOWS)};
    frame.serial = sent[frame.flow]++;
    frame.octets[5] = (uint8_t)(is_chip() ? below(256) : frame.flow);
    if (is_chip()) {
        if (rows[frame.flow] != 0) put(&paths[0][rows[frame.flow] - 1].queue, &frame);
        return;
    }
    if ((way != NEW_FIRST && held[frame.flow].count > 0) || !offer(&frame)) put(&held[frame.flow], &frame);
}

/* Moves a conversation to the other port. */
static void move_one(void) {
    uint16_t flow = (uint16_t)below(FLOWS);
    struct niw_assignment now = niw_conversation_state(&ends[0], 1, flow);
    if (now.what != NIW_CONVERSATION_ON) return;
    if (niw_move_conversation(&ends[0], 1, flow, (uint16_t)(LINKS + 1 - now.port)) != NIW_OK) return;
    moves++;
    if (way == FORCED) niw_force(&ends[0], 1, flow);
    follow(0);
}

/* A link is cut or joined, and both ends take its change before data. What was on it is lost, and what waits in its queues. */
static void change_link(unsigned link, bool up) {
    for (unsigned end = 0; end < 2; end++) {
        struct path *path = &paths[end][link];
        if (!up) path->cable.count = 0;
        while (!up && path->queue.count > 0) {
            struct frame frame = take(&path->queue);
            if (way == QUEUE_KEPT && !frame.control) put(&kept[link], &frame);
        }
        while (!up && path->upward.count > 0) {
            struct frame frame = take(&path->upward);
            hand_up(&frame);
        }
        if (end == 1 && !up && way == LINKS_LAST) continue;
        niw_set_link(&ends[end], (uint16_t)(link + 1), up);
        follow(end);
    }
}

static void make_ends(void) {
    struct niw_config config = {.priority = 32768, .mac = {2}, .first_marker = 1, .conversations = NIW_FEW_CONVERSATIONS};
    struct niw_port ports[LINKS] = {{.key = 1, .aggregatable = true, .active = true, .short_timeout = true}};
    uint16_t keys[LINKS] = {1, 1};
    for (uint8_t end = 0; end < 2; end++) {
        config.mac[5] = end;
        for (uint8_t link = 0; link < LINKS; link++) {
            ports[link] = ports[0];
            ports[link].number = (uint16_t)(link + 1);
            memcpy(ports[link].mac, config.mac, sizeof config.mac);
        }
        ends[end] = (struct niw_system)NIW_EMPTY;
        if (niw_new(&ends[end], &config, keys, LINKS, ports, LINKS).status != NIW_OK) abort();
    }
}

static void pass_tick(void) {
    for (unsigned end = 0; end < 2; end++) {
        niw_tick(&ends[end]);
        if (end == 0 && way == CHIP_ROWS_LATE) {
            clear_rows();
            fill_rows();
        }
        follow(end);
    }
    if (way == NEW_FIRST) release();
}

/* One step. Where data comes before changes of links, end 1 takes the change once the socket is empty. */
static void pass_step(unsigned step) {
    unsigned link = step / BREAK % LINKS, since = step % BREAK;
    bool cut = step >= BREAK && since < BROKEN;
    for (unsigned other = 0; step == 0 && other < LINKS; other++) change_link(other, true);
    if (step >= BREAK && since == 0) change_link(link, false);
    if (step >= BREAK && since == BROKEN) change_link(link, true);
    if (way == LINKS_LAST && cut && paths[0][link].socket.count == 0 && niw_is_up(&ends[1], (uint16_t)(link + 1)).is) {
        niw_set_link(&ends[1], (uint16_t)(link + 1), false);
        follow(1);
    }
    if (step % TICK == 0) pass_tick();
    for (unsigned port = 1; port <= LINKS; port++)
        if (niw_distributes(&ends[0], (uint16_t)port).is) pass_on(&kept[port - 1], &paths[0][port - 1].queue, ROOM);
    if (step > FIRST && below(16) == 0)
        for (unsigned burst = 8; burst > 0; burst--) send_new();
    if (step > FIRST && below(20) == 0) move_one();
    for (unsigned end = 0; end < 2; end++)
        for (unsigned other = 0; other < LINKS; other++) move_frames(end, other, cut && other == link);
}

/* Plays a host once. */
static void play(void) {
    memset(paths, 0, sizeof paths);
    memset(held, 0, sizeof held);
    memset(kept, 0, sizeof kept);
    memset(rows, 0, sizeof rows);
    memset(sent, 0, sizeof sent);
    memset(next, 0, sizeof next);
    make_ends();
    for (unsigned step = 0; step < STEPS; step++) pass_step(step);
    niw_free(&ends[0]);
    niw_free(&ends[1]);
}

/* Plays a host several times; answers whether frames overtook just if it is no right one, and many arrived. */
static bool is_as_told(enum way which) {
    bool right = which == RIGHT || which == CHIP;
    way = which;
    overtaken = arrived = moves = 0;
    for (unsigned number = 1; number <= PLAYS; number++) {
        seed = number;
        play();
    }
    return (overtaken == 0) == right && arrived > PLAYS * STEPS / 4 && moves > PLAYS * STEPS / 50;
}

int main(void) {
    unsigned failed = 0;
    for (enum way which = RIGHT; which < WAYS; which++) {
        if (is_as_told(which)) continue;
        failed++;
        printf("planes: failed: %s: %u frames overtaken, %u arrived, %u moves\n", SAYS[which], overtaken, arrived, moves);
    }
    printf("planes: %u passed, %u failed\n", WAYS - failed, failed);
    return failed > 0;
}
