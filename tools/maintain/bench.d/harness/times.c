/* Times calls of lag.h on one system, and its codec beside plain C, all in one run, for so many seconds: `times SECONDS [WORDS]`; with words only the calls
 * whose lines begin with them. Each line that it prints is one measurement, its words parted by tabs; tools/maintain/bench makes a table of them. A
 * time is the least of many repeats, in nanoseconds. Each answer is looked at. */
#define _POSIX_C_SOURCE 199309L
#ifdef BESIDE
#include <malloc.h>
#endif
#ifdef INSTRUCTIONS
#include <valgrind/callgrind.h>
#else
#define CALLGRIND_ZERO_STATS (void)0
#define CALLGRIND_TOGGLE_COLLECT (void)0
#define CALLGRIND_DUMP_STATS_AT(words) (void)(words)
#endif
#include <stdio.h>
#include <stdlib.h>
#include <time.h>

#include "lag.h"

#define LENGTH(list) (sizeof(list) / sizeof *(list))
#define FLUSHING 29       /* ticks between a marker and its response */
#define WINDOW 11         /* ticks, in which a port may send three LACPDUs */
#define MOST_TICKS 780    /* then the partners' long timeouts end */
#define MOST_MOVES 4      /* of FLUSHING ticks there and back; then an LACPDU is due, which goes before a marker */
#define MOST (1u << 20)
#define STATE 16          /* octets of the state of a conversation */
#define FEW 8             /* rounds at the least, where there may be so many: the first one finds the caches cold */
#define MOST_JOBS 400
#define PAYLOADS 1024
#define EACH 40           /* how often a run decodes and encodes each payload, and plays a round of a bond */

/* What is made before the calls: ports and aggregators of one key; how many partners the ports have in turn, each of which takes an aggregator of its
 * own; whether the higher half of the ports comes up first; how many conversations are in use, in how many aggregators, of how many; and how many
 * members an aggregator may have, or 0. */
struct scene {
    uint16_t ports, aggregators, partners;
    bool high_first;
    uint16_t in_use, aggregators_in_use, conversations, limit;
};

/* How many ports distribute, and how many are in no aggregator. */
struct look {
    uint16_t distributing, alone;
};

static struct niw_system lag = NIW_EMPTY;
static struct scene scene;
static uint64_t calls, right;
static uint8_t frames[2][NIW_MOST_PORTS][NIW_FRAME], data[NIW_MANY_CONVERSATIONS][64], response[NIW_FRAME];

static double left_out; /* the time of what stands between the calls */

static double now(void) {
    struct timespec it;
    clock_gettime(CLOCK_MONOTONIC, &it);
    return (double)it.tv_sec * 1e9 + (double)it.tv_nsec;
}

/* Leaves out what stands between the calls, and ends that. */
static void leave_out(bool is) {
    if (!is) CALLGRIND_TOGGLE_COLLECT;
    left_out += is ? -now() : now();
    if (is) CALLGRIND_TOGGLE_COLLECT;
}

static void wait_window(void) {
    leave_out(true);
    niw_ticks(&lag, WINDOW);
    leave_out(false);
}

static void add(bool is_right) {
    calls++;
    right += is_right;
}

static uint16_t aggregator_of(uint16_t port) {
    return (uint16_t)((port - 1) % scene.partners + 1);
}

/* The port that a conversation of an aggregator goes on. */
static uint16_t port_for(uint16_t agg, uint16_t conv) {
    return scene.partners > 1 ? agg : (uint16_t)(conv % scene.ports + 1);
}

/* A control frame of the peer with this number. */
static void put(uint8_t *frame, uint8_t of, const struct niw_pdu *pdu) {
    const uint8_t head[14] = {1, 0x80, 0xc2, 0, 0, 2, 2, 0, 0, 0, 0, of, 0x88, 0x09};
    memcpy(frame, head, sizeof head);
    if (niw_encode(pdu, frame + sizeof head, NIW_PAYLOAD_LENGTH) != NIW_OK) abort();
}

/* The LACPDU of each port's peer, and what it tells of the port. */
static void put_lacpdus(int which, uint16_t key, uint8_t state, uint8_t told) {
    for (uint16_t port = 1; port <= scene.ports; port++) {
        const uint8_t peer = (uint8_t)(aggregator_of(port) + 100);
        struct niw_pdu pdu = {.subtype = NIW_SUBTYPE_LACPDU};
        pdu.actor = (struct niw_participant){32768, {2, 0, 0, 0, 0, peer}, key, 128, port, state};
        pdu.partner = (struct niw_participant){32768, {2, 0, 0, 0, 0, 1}, 1, 128, port, told};
        put(frames[which][port - 1], peer, &pdu);
    }
}

static void put_markers(uint8_t kind, uint8_t of) {
    for (uint16_t port = 1; port <= scene.ports; port++) {
        const struct niw_pdu pdu = {.subtype = NIW_SUBTYPE_MARKER, .tlv_type = kind, .requester_port = port, .requester_system = {2, 0, 0, 0, 0, of}, .transaction_id = 5};
        put(frames[0][port - 1], 9, &pdu);
    }
}

static struct niw_received receive(int which, uint16_t port) {
    return niw_receive(&lag, port, frames[which][port - 1], NIW_FRAME, response, sizeof response);
}

static bool hears(int which, uint16_t port) {
    return receive(which, port).what == NIW_RECEIVED_TOOK_LACPDU;
}

static void hear(uint16_t first, uint16_t last, uint8_t told) {
    put_lacpdus(0, 1, 0x3d, told);
    for (uint16_t port = first; port <= last; port++) (void)hears(0, port);
}

/* The ports come up, each hears its partner, they wait, and send what is due; the transmit windows are empty then. */
static void come_up(uint16_t first, uint16_t last) {
    for (uint16_t port = first; port <= last; port++) niw_set_link(&lag, port, true);
    hear(first, last, 0x05);
    niw_ticks(&lag, 21);
    hear(first, last, 0x3d);
    niw_ticks(&lag, 11);
    for (uint16_t port = first; port <= last; port++) (void)niw_transmit(&lag, port, response, sizeof response);
    niw_ticks(&lag, 11);
}

static void set_scene(void) {
    const struct niw_config config = {32768, {2, 0, 0, 0, 0, 1}, 0, 1, scene.conversations, scene.limit, NIW_BY_NUMBER};
    const uint16_t half = scene.ports / 2;
    struct niw_port ports[NIW_MOST_PORTS];
    uint16_t keys[NIW_MOST_PORTS];
    for (uint16_t at = 0; at < NIW_MOST_PORTS; at++) {
        ports[at] = (struct niw_port){(uint16_t)(at + 1), 128, {2, 0, 0, 0, 0, (uint8_t)(at + 1)}, 1, true, true, false};
        keys[at] = 1;
    }
    if (niw_new(&lag, &config, keys, scene.aggregators, ports, scene.ports).status != NIW_OK) abort();
    if (scene.high_first) come_up((uint16_t)(half + 1), scene.ports);
    come_up(1, scene.high_first ? half : scene.ports);
    for (uint16_t conv = 0; conv < scene.in_use; conv++) {
        memcpy(data[conv], (const uint8_t[14]){2, 0, 0, 0, (uint8_t)(conv >> 8), (uint8_t)conv, 2, 0, 0, 0, 0, 0, 8}, 14);
        for (uint16_t agg = 1; agg <= scene.aggregators_in_use; agg++) niw_offer(&lag, agg, data[conv], sizeof data[conv]);
    }
}

static struct look looked(void) {
    struct look found = {0, 0};
    for (uint16_t port = 1; port <= scene.ports; port++) {
        found.distributing = (uint16_t)(found.distributing + niw_distributes(&lag, port).is);
        found.alone = (uint16_t)(found.alone + (niw_choice(&lag, port).number == 0));
    }
    return found;
}

/* Rounds: each makes its calls once. */

static void take(int count) {
    for (int which = 0; which < count; which++)
        for (uint16_t port = 1; port <= scene.ports; port++) add(hears(which, port));
}

/* Three LACPDUs of each port that ask for an answer, which is given or not, in each window. */
static void ask(int is_answered) {
    for (int times = 0; times < 3; times++) {
        for (uint16_t port = 1; port <= scene.ports; port++) {
            const bool took = hears(0, port);
            add(took && (!is_answered || (niw_transmit(&lag, port, response, sizeof response).what == NIW_SENT_LACPDU && response[32] == 0x3d)));
        }
    }
    wait_window();
}

/* A frame that is no LACPDU, to which this is the reply. */
static void take_other(int what) {
    for (uint16_t port = 1; port <= scene.ports; port++) {
        const struct niw_received got = receive(0, port);
        add(got.what == (uint32_t)what && (what != NIW_RECEIVED_HANDED_UP || got.number == aggregator_of(port)) && (what != NIW_RECEIVED_RELEASED || got.number == 0));
    }
}

static void tick(int unused) {
    (void)unused;
    add(niw_tick(&lag) == NIW_OK);
}

static void transmit(int unused) {
    (void)unused;
    for (uint16_t port = 1; port <= scene.ports; port++) add(!niw_transmit(&lag, port, response, sizeof response).is);
}

static void is_due(int unused) {
    (void)unused;
    for (uint16_t port = 1; port <= scene.ports; port++) add(!niw_is_due(&lag, port).is);
}

static void set_link(int flips) {
    for (uint16_t port = 1; port <= scene.ports; port++) {
        if (flips) add(niw_set_link(&lag, port, false) == NIW_OK);
        add(niw_set_link(&lag, port, true) == NIW_OK);
    }
}

static void configure(int key) {
    for (uint16_t port = 1; port <= scene.ports; port++) {
        add(niw_configure(&lag, port, &(struct niw_change){(uint16_t)key, 128, true}).is == (key != 1));
        add(niw_configure(&lag, port, &(struct niw_change){1, 128, true}).is == (key != 1));
    }
}

/* A conversation may be freed before; the two calls count once. */
static void offer(int is_forced) {
    for (uint16_t agg = 1; agg <= scene.aggregators_in_use; agg++) {
        for (uint16_t conv = 0; conv < scene.in_use; conv++) {
            const bool freed = !is_forced || niw_force(&lag, agg, conv) == NIW_OK;
            add(niw_offer(&lag, agg, data[conv], sizeof data[conv]).number == port_for(agg, conv) && freed);
        }
    }
}

static void offer_conversation(int unused) {
    (void)unused;
    for (uint16_t agg = 1; agg <= scene.aggregators_in_use; agg++)
        for (uint16_t conv = 0; conv < scene.in_use; conv++) add(niw_offer_conversation(&lag, agg, conv).number == port_for(agg, conv));
}

/* Conversation 0 moves to port 2 and back: move, marker, response and the next frame count once; or the ticks between, alone. */
static void move(int ticks) {
    for (uint16_t from = 1; from <= 2; from++) {
        uint8_t marker[NIW_FRAME];
        if (ticks) leave_out(true);
        bool done = niw_move_conversation(&lag, 1, 0, 3 - from) == NIW_OK && niw_transmit(&lag, from, marker, sizeof marker).what == NIW_SENT_MARKER;
        if (ticks) leave_out(false);
        for (int at = 0; at < ticks; at++) niw_tick(&lag);
        if (ticks) leave_out(true);
        marker[16] = NIW_MARKER_RESPONSE;
        done = niw_receive(&lag, from, marker, sizeof marker, response, sizeof response).number == 1 && done;
        done = niw_offer(&lag, 1, data[0], sizeof data[0]).number == 3u - from && done;
        for (int at = 0; at < (ticks ? ticks : 1); at++) add(done);
        if (ticks) leave_out(false);
    }
}

static void force_port(int unused) {
    (void)unused;
    for (uint16_t port = 1; port <= scene.ports; port++) add(niw_force_port(&lag, port).number == 0);
}

static void restart(int unused) {
    (void)unused;
    add(niw_restart(&lag) == NIW_OK);
}

/* What a restart writes at the least, by libc: the states of all conversations. */
static void fill(int unused) {
    static uint8_t states[NIW_MOST_PORTS * NIW_MANY_CONVERSATIONS * STATE];
    uint8_t *volatile at = states;
    (void)unused;
    memset(at, (int)(calls % 100), (size_t)STATE * scene.aggregators * scene.conversations);
    add(at[0] == (calls % 100));
}

/* What the ports are after the calls: as before; in no aggregator; in one, and none distributes. */
enum after { AS_BEFORE, ALONE, NONE };

/* A kind of calls: its round, the frames that it gives, and in which tables it stands. */
static const struct kind {
    const char *name;
    void (*round)(int of);
    int of;
    uint16_t key;
    uint8_t state, told;
    enum after after;
    unsigned most;
    bool in_wide, in_limits, in_crowded;
} kinds[] = {
    {"receive, LACPDU that changes nothing", take, 1, 1, 0x3d, 0x3d, AS_BEFORE, MOST, false, true, true},
    {"receive, LACPDU whose Sync flips", take, 2, 1, 0x35, 0x3d, AS_BEFORE, MOST, false, true, true},
    {"receive, LACPDU whose key flips", take, 2, 2, 0x3d, 0x3d, NONE, MOST, false, false, true},
    {"receive, LACPDU that asks for one", ask, false, 1, 0x3d, 0x3c, .most = MOST},
    {"the same, and transmit of it", ask, true, 1, 0x3d, 0x3c, .most = MOST},
    {"receive, data frame", take_other, NIW_RECEIVED_HANDED_UP, .most = MOST},
    {"receive, marker", take_other, NIW_RECEIVED_RESPOND, .most = MOST},
    {"receive, response for nobody", take_other, NIW_RECEIVED_RELEASED, .most = MOST, .in_wide = true},
    {"receive, faulty control frame", take_other, NIW_RECEIVED_IGNORED, .most = MOST},
    {"tick", tick, 0, .most = MOST_TICKS, .in_wide = true, .in_limits = true, .in_crowded = true},
    {"tick, one conversation Flushing", move, FLUSHING, .most = MOST_MOVES, .in_wide = true},
    {"transmit, nothing due", transmit, 0, .most = MOST, .in_wide = true},
    {"is_due, nothing due", is_due, 0, .most = MOST, .in_wide = true},
    {"set_link, as it is", set_link, false, .most = MOST, .in_crowded = true},
    {"set_link, down and up", set_link, true, .after = NONE, .most = MOST, .in_crowded = true},
    {"configure, as it is", configure, 1, .most = MOST},
    {"configure, key flips", configure, 2, .after = ALONE, .most = MOST, .in_crowded = true},
    {"offer", offer, false, .most = MOST, .in_wide = true},
    {"offer_conversation", offer_conversation, 0, .most = MOST},
    {"force and offer", offer, true, .most = MOST},
    {"move_conversation, transmit, receive, offer", move, 0, .most = MOST},
    {"force_port, nothing held", force_port, 0, .most = MOST, .in_wide = true},
    {"restart", restart, 0, .after = ALONE, .most = MOST, .in_wide = true},
    {"memset of 16 octets for each conversation", fill, 0, .most = MOST, .in_wide = true},
};

static void put_frames(const struct kind *it) {
    if (it->state) {
        put_lacpdus(0, it->key, it->state, it->told);
        put_lacpdus(1, 1, 0x3d, it->told);
    }
    if (it->round != take_other) return;
    put_markers(it->of == NIW_RECEIVED_RELEASED ? NIW_MARKER_RESPONSE : NIW_MARKER_INFORMATION, it->of == NIW_RECEIVED_RELEASED ? 1 : 9);
    for (uint16_t at = 0; at < scene.ports; at++) {
        if (it->of == NIW_RECEIVED_IGNORED) frames[0][at][17] = 17;
        if (it->of == NIW_RECEIVED_HANDED_UP) memcpy(frames[0][at], (const uint8_t[14]){2, 0, 0, 0, 0, (uint8_t)at, 2, 0, 0, 0, 0, 0, 8}, 14);
    }
}

/* A kind of calls in a scene, with the words of its line; so many rounds, their least time, and the answers. */
struct job {
    const struct kind *kind;
    struct scene scene;
    char words[100];
    unsigned rounds;
    double least;
    uint64_t calls, wrong; /* of a run, and of all */
};

static bool is_look(struct look it, unsigned distributing, unsigned alone) {
    return it.distributing == distributing && it.alone == alone;
}

/* Whether the ports are as they should be before the calls and after them. */
static bool stands(const struct job *job, struct look before, struct look after) {
    const unsigned ports = scene.ports, members = scene.limit ? scene.partners * scene.limit : ports;
    const bool is_crowded = scene.aggregators < scene.partners;
    const enum after wanted = job->kind->after;
    if (!(is_crowded ? is_look(before, ports / 2, ports / 2) : is_look(before, members < ports ? members : ports, 0))) return false;
    if (wanted == AS_BEFORE) return is_look(after, before.distributing, before.alone);
    return is_crowded || is_look(after, 0, wanted == ALONE ? ports : 0);
}

/* Sets the scene, and answers the time of the rounds. */
static double ran(struct job *job) {
    double took;
    struct look before;
    scene = job->scene;
    calls = right = 0;
    left_out = 0;
    set_scene();
    before = looked();
    put_frames(job->kind);
    CALLGRIND_ZERO_STATS;
    took = -now();
    for (unsigned at = 0; at < job->rounds; at++) job->kind->round(job->kind->of);
    took += now() - left_out;
    CALLGRIND_DUMP_STATS_AT(job->words);
    job->calls = calls;
    job->wrong += calls - right + !stands(job, before, looked());
    niw_free(&lag);
    return took;
}

static struct job jobs[MOST_JOBS];
static size_t job_count;

static const char *chosen = "";
static double seconds = 30; /* below 0: one run of few calls, whose instructions are counted */

/* Finds how many rounds take 0.3 ms or more, from a few on. */
static void plan(const struct kind *kind, struct scene of, const char *table, const char *words) {
    struct job *job = &jobs[job_count];
    *job = (struct job){.kind = kind, .scene = of, .rounds = kind->most > FEW ? FEW : 1, .least = 1e18};
    snprintf(job->words, sizeof job->words, "%s\t%s\t%s", table, kind->name, words);
    if (strncmp(job->words, chosen, strlen(chosen)) != 0) return;
    while (seconds >= 0 && ran(job) < 3e5 && job->rounds < kind->most) job->rounds = job->rounds * 4 < kind->most ? job->rounds * 4 : kind->most;
    job_count++;
}

/* A kind of calls with one conversation, all of one aggregator and all of all in use. A conversation moves only where two ports share an aggregator. */
static void plan_in_use(const struct kind *kind, const char *table, uint16_t conversations) {
    static const uint16_t PORTS[] = {2, 8, 64};
    for (size_t at = 0; at < LENGTH(PORTS); at++) {
        const uint16_t ports = PORTS[at];
        char words[40];
        for (int all = 0; all < 2; all++) {
            const uint16_t in_use = all ? conversations : 1;
            snprintf(words, sizeof words, "%u\t%u", ports, in_use);
            plan(kind, (struct scene){ports, ports, 1, false, in_use, 1, conversations, 0}, table, words);
        }
        snprintf(words, sizeof words, "%u\tall", ports);
        if (kind->round != move) plan(kind, (struct scene){ports, ports, ports, false, conversations, ports, conversations, 0}, table, words);
    }
}

static void plan_all(void) {
    static const uint16_t LIMITS[][2] = {{1, 0}, {1, 64}, {1, 32}, {2, 0}, {2, 16}};
    char words[40];
    for (const struct kind *it = kinds; it < kinds + LENGTH(kinds); it++) {
        plan_in_use(it, "call", NIW_FEW_CONVERSATIONS);
        if (it->in_wide) plan_in_use(it, "wide", NIW_MANY_CONVERSATIONS);
        for (size_t at = 0; it->in_limits && at < LENGTH(LIMITS); at++) {
            snprintf(words, sizeof words, "%u\t%u", LIMITS[at][0], LIMITS[at][1]);
            plan(it, (struct scene){64, 64, LIMITS[at][0], false, 0, 0, NIW_FEW_CONVERSATIONS, LIMITS[at][1]}, "limit", words);
        }
        if (it->round == offer && !it->of) plan(it, (struct scene){64, 64, 64, false, 1, 1, NIW_FEW_CONVERSATIONS, 0}, "alone", "64\t1");
        for (int high = 0; it->in_crowded && high < 2; high++)
            plan(it, (struct scene){64, 32, 64, high, 0, 0, NIW_FEW_CONVERSATIONS, 0}, "crowded", high ? "64\thigh" : "64\tlow");
    }
}

#ifdef BESIDE
/* A bond of lib/lacp.c of Open vSwitch, in embedded/ovs.c, beside a LAG of one aggregator. */
enum { THEIRS_SAME, THEIRS_RUN, THEIRS_FLIPS };
int ovs_setup(int which, int ports);
long ovs_calls(int which, int kind, long rounds);

static void theirs(int kind) {
    right += (uint64_t)ovs_calls(scene.ports == 2 ? 0 : scene.ports == 8 ? 1 : 2, kind, EACH);
    calls += (uint64_t)EACH * (kind == THEIRS_RUN ? 1 : scene.ports);
}

/* Each port hears that its partner is out of Sync, and then that it is in it, and both times sends until nothing is due. */
static void flip(int unused) {
    (void)unused;
    for (int which = 0; which < 2; which++) {
        for (uint16_t port = 1; port <= scene.ports; port++) add(hears(which, port));
        for (uint16_t port = 1; port <= scene.ports; port++) {
            right -= niw_transmit(&lag, port, response, sizeof response).what != NIW_SENT_LACPDU;
            right -= niw_transmit(&lag, port, response, sizeof response).is;
        }
        wait_window();
    }
}

/* Each behind the other: ours, and theirs. */
static const struct kind pairs[] = {
    {"an LACPDU that changes nothing", take, 1, 1, 0x3d, 0x3d, .most = MOST},
    {"an LACPDU that changes nothing", theirs, THEIRS_SAME, .most = MOST},
    {"an LACPDU whose Sync flips, and the answer", flip, 0, 1, 0x35, 0x3c, .most = MOST},
    {"an LACPDU whose Sync flips, and the answer", theirs, THEIRS_FLIPS, .most = MOST},
    {"a tick, nothing due", tick, 0, .most = MOST_TICKS},
    {"a tick, nothing due", theirs, THEIRS_RUN, .most = MOST},
};

static size_t heap(void) {
    return mallinfo2().uordblks + mallinfo2().hblkhd;
}

static void plan_beside(void) {
    static const uint16_t PORTS[] = {2, 8, 64};
    void *volatile first = malloc(1); /* malloc takes memory of its own then */
    free(first);
    for (size_t at = 0; at < LENGTH(PORTS); at++) {
        const struct scene one = {PORTS[at], 1, 1, false, 0, 0, NIW_FEW_CONVERSATIONS, 0};
        size_t before = heap(), ours;
        char words[40];
        scene = one;
        set_scene();
        ours = heap() - before;
        niw_free(&lag);
        before = heap();
        if (ovs_setup((int)at, one.ports) != one.ports) abort();
        printf("heap\t%u\t%zu\t%zu\n", one.ports, ours, heap() - before);
        for (size_t it = 0; it < LENGTH(pairs); it++) {
            snprintf(words, sizeof words, "%u\t%s", one.ports, it % 2 ? "theirs" : "ours");
            plan(&pairs[it], one, "beside", words);
        }
    }
}
#endif

/* The codecs: ours, and plain C of two compilers. */
int gcc_decode(const uint8_t *payload, size_t length, void *out);
int gcc_encode(const void *parts, uint8_t *out, size_t length);
int gcc_again(const uint8_t *payload, size_t length, uint8_t *out, size_t room);
int clang_decode(const uint8_t *payload, size_t length, void *out);
int clang_encode(const void *parts, uint8_t *out, size_t length);
int clang_again(const uint8_t *payload, size_t length, uint8_t *out, size_t room);

enum { DECODE, ENCODE, AGAIN, OURS = 0, GCC, CLANG, CODECS };
static const char *const WHAT[] = {"decode", "encode", "decode and encode"}, *const NAMES[] = {"ours", "gcc", "clang"};
static uint8_t payloads[PAYLOADS][NIW_PAYLOAD_LENGTH], octets[CODECS][2][PAYLOADS][NIW_PAYLOAD_LENGTH];
static struct niw_pdu pdus[PAYLOADS];
static uint64_t parts[CODECS][PAYLOADS][6]; /* room for what plain C reads */
static double least[3][CODECS];
static uint64_t codec_calls, codec_right;

static void dump(int what, int by) {
    char words[40];
    snprintf(words, sizeof words, "codec\t%s\t%s", WHAT[what], NAMES[by]);
    CALLGRIND_DUMP_STATS_AT(words);
}

/* Times a call for the payload `at`; each call is direct. */
#define TIME(what, by, call) do { \
    double began = now(); \
    CALLGRIND_ZERO_STATS; \
    for (unsigned n = 0; n < EACH * PAYLOADS; n++) { \
        const unsigned at = n % PAYLOADS; \
        codec_right += (call); \
    } \
    began = (now() - began) / (EACH * PAYLOADS); \
    dump(what, by); \
    codec_calls += EACH * PAYLOADS; \
    if (least[what][by] == 0 || began < least[what][by]) least[what][by] = began; \
} while (0)
#define TIME_PLAIN(by, name) do { \
    TIME(DECODE, by, name##_decode(payloads[at], NIW_PAYLOAD_LENGTH, parts[by][at]) != 0); \
    TIME(ENCODE, by, name##_encode(parts[by][at], octets[by][0][at], NIW_PAYLOAD_LENGTH) != 0); \
    TIME(AGAIN, by, name##_again(payloads[at], NIW_PAYLOAD_LENGTH, octets[by][1][at], NIW_PAYLOAD_LENGTH) != 0); \
} while (0)

static bool both(unsigned at) {
    struct niw_pdu pdu;
    return niw_decode(payloads[at], NIW_PAYLOAD_LENGTH, &pdu).status == NIW_OK && niw_encode(&pdu, octets[OURS][1][at], NIW_PAYLOAD_LENGTH) == NIW_OK;
}

static void time_codecs(void) {
    TIME(DECODE, OURS, niw_decode(payloads[at], NIW_PAYLOAD_LENGTH, &pdus[at]).status == NIW_OK);
    TIME(ENCODE, OURS, niw_encode(&pdus[at], octets[OURS][0][at], NIW_PAYLOAD_LENGTH) == NIW_OK);
    TIME(AGAIN, OURS, both(at));
    TIME_PLAIN(GCC, gcc);
    TIME_PLAIN(CLANG, clang);
}

/* Payloads of LACPDUs whose other octets are those of a congruence. */
static void make_payloads(void) {
    uint64_t seed = 1;
    for (int at = 0; at < PAYLOADS; at++) {
        for (int octet = 0; octet < NIW_PAYLOAD_LENGTH; octet++) payloads[at][octet] = (uint8_t)((seed = seed * 6364136223846793005u + 1) >> 56);
        payloads[at][0] = 1;
        payloads[at][3] = payloads[at][23] = 20;
        payloads[at][43] = 16;
    }
}

static void print_codecs(void) {
    uint64_t unequal = codec_calls - codec_right;
    for (int what = 0; what < 3; what++)
        for (int by = 0; by < CODECS; by++) printf("codec\t%s\t%s\t%f\t%d\n", WHAT[what], NAMES[by], least[what][by], EACH * PAYLOADS);
    for (int by = 0; by < 2 * CODECS; by++) unequal += memcmp(octets[OURS][0], octets[by / 2][by % 2], sizeof octets[OURS][0]) != 0;
    printf("answers\tcodec\t%llu\t%llu\n", (unsigned long long)codec_calls, (unsigned long long)unequal);
}

int main(int argc, char **argv) {
    const time_t began = time(NULL);
    unsigned rounds = 0;
    seconds = argc > 1 ? atof(argv[1]) : seconds;
    chosen = argc > 2 ? argv[2] : "";
    make_payloads();
    plan_all();
#ifdef BESIDE
    plan_beside();
#endif
    for (; rounds < (seconds < 0 ? 1 : 3) || difftime(time(NULL), began) < seconds; rounds++) {
        for (int times = 0; times < (seconds < 0 ? 1 : 8); times++) time_codecs();
        for (struct job *it = jobs; it < jobs + job_count; it++) {
            const double took = ran(it);
            it->least = took < it->least ? took : it->least;
        }
    }
    printf("rounds\t%u\t%.0f\n", rounds, difftime(time(NULL), began));
    print_codecs();
    for (const struct job *it = jobs; it < jobs + job_count; it++)
        printf("%s\t%f\t%llu\t%llu\n", it->words, it->least / (double)it->calls, (unsigned long long)it->calls, (unsigned long long)it->wrong);
    return 0;
}
