/* Handles that one thread makes and others call: one handle under a lock, and a handle for each thread without one. valgrind looks for races
 * (tools/maintain/live): it has to find none in these two, and some in `./threads races`, which takes no lock. */
#include <pthread.h>
#include <string.h>

#include "lag.h"

#define TICKS 100
#define OFFERS 1000
#define PORTS 2

/* Two ends on two cables, and what their callers lock. */
struct pair {
    struct niw_system ends[2];
    pthread_mutex_t *lock;
};

static bool make(struct niw_system *end, uint8_t number) {
    struct niw_config config = {.priority = 32768, .mac = {2, 0, 0, 0, 0, number}, .first_marker = 1, .conversations = NIW_FEW_CONVERSATIONS};
    struct niw_port ports[PORTS] = {0};
    const uint16_t key = 1;
    for (uint16_t i = 0; i < PORTS; i++)
        ports[i] = (struct niw_port){(uint16_t)(i + 1), 128, {2, 0, 0, 0, 1, number}, key, true, true, false};
    *end = (struct niw_system)NIW_EMPTY;
    return niw_new(end, &config, &key, 1, ports, PORTS).status == NIW_OK && niw_set_link(end, 1, true) == NIW_OK
        && niw_set_link(end, 2, true) == NIW_OK;
}

static void begin(struct pair *pair) {
    if (pair->lock) pthread_mutex_lock(pair->lock);
}

static void end(struct pair *pair) {
    if (pair->lock) pthread_mutex_unlock(pair->lock);
}

/* The control plane: ticks, and what is due. */
static void *control(void *given) {
    struct pair *pair = given;
    uint8_t frame[NIW_FRAME], response[NIW_FRAME];
    for (int tick = 0; tick < 2 * TICKS; tick++) {
        struct niw_system *from = &pair->ends[tick % 2], *to = &pair->ends[1 - tick % 2];
        begin(pair);
        niw_tick(from);
        for (uint16_t port = 1; port <= PORTS; port++)
            while (niw_transmit(from, port, frame, sizeof frame).is)
                if (niw_receive(to, port, frame, sizeof frame, response, sizeof response).what == NIW_RECEIVED_RESPOND)
                    niw_receive(from, port, response, sizeof response, frame, sizeof frame);
        end(pair);
    }
    return NULL;
}

/* The data plane: offers, moves and readers. */
static void *data(void *given) {
    struct pair *pair = given;
    for (int offer = 0; offer < OFFERS; offer++) {
        uint16_t flow = (uint16_t)(offer % NIW_FEW_CONVERSATIONS);
        struct niw_number port;
        begin(pair);
        port = niw_offer_conversation(&pair->ends[0], 1, flow);
        if (port.status == NIW_OK && offer % 7 == 0) niw_move_conversation(&pair->ends[0], 1, flow, (uint16_t)(PORTS + 1 - port.number));
        (void)niw_load(&pair->ends[0], 1);
        end(pair);
    }
    return NULL;
}

static bool holds(struct pair *pair) {
    return niw_distributes(&pair->ends[0], 1).is && niw_distributes(&pair->ends[1], 2).is;
}

/* Runs both planes over one pair, or a control plane over each. */
static bool run(pthread_mutex_t *lock, bool apart) {
    struct pair pairs[2] = {{.lock = lock}, {.lock = lock}};
    pthread_t threads[2];
    bool right = true;
    for (int i = 0; i < 2; i++)
        if (!make(&pairs[i].ends[0], 1) || !make(&pairs[i].ends[1], 2)) return false;
    if (pthread_create(&threads[0], NULL, control, &pairs[0]) || pthread_create(&threads[1], NULL, apart ? control : data, &pairs[apart]))
        return false;
    for (int i = 0; i < 2; i++) pthread_join(threads[i], NULL);
    for (int i = 0; i <= apart; i++) right = right && holds(&pairs[i]);
    for (int i = 0; i < 2; i++)
        for (int side = 0; side < 2; side++) niw_free(&pairs[i].ends[side]);
    return right;
}

int main(int argc, char **argv) {
    pthread_mutex_t lock = PTHREAD_MUTEX_INITIALIZER;
    (void)argv;
    if (argc > 1) return run(NULL, false), 0;
    return run(&lock, false) && run(NULL, true) ? 0 : 1;
}
