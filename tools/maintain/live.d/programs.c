/* Runs the programs of the kernel (lagd/kernel) for frames, by BPF_PROG_TEST_RUN.
 *
 *     programs INTERFACE
 *
 * tries each verdict and count, beside an interface of MTU 1500: a line for each check that fails, and 'programs: N passed, M failed'.
 *
 *     programs HASH SEED
 *
 * reads frames in hexadecimal, one a line, and prints two conversations for each: that of hash.c, and that whose row the sender counted it in.
 * The latter is -1 where the kernel takes no test frame of that form. A frame with a tag is sent a second time with it beside the frame,
 * where -2 says that this was another conversation. The status is 3 where the kernel takes no program. */
#define _GNU_SOURCE
#include <bpf/bpf.h>
#include <errno.h>
#include <linux/if_packet.h>
#include <linux/pkt_cls.h>
#include <net/if.h>
#include <netinet/in.h>
#include <stdio.h>
#include <stdlib.h>
#include <string.h>

#include "checks.h"
#include "daemon.h"
#include "tagging.skel.h"

#define ROOM 3200
#define LONGEST_OUTPUT 8192
#define MOST_LEFT (HOST_QUEUE - 96)
#define MTU 1500
#define PORT 3
#define GO_ON TC_ACT_UNSPEC
#define LOSE TC_ACT_SHOT
#define ELSEWHERE TC_ACT_REDIRECT
#define REFUSED_FRAME (-99)
#define SEGMENTS(count) ((uint64_t)(count) << 32)

/* The daemon, as far as it is here. */
static struct lagd tested, *lagd = &tested;

const char *const program = "programs";

static struct fast_row *rows;
static struct fast_member *members;
static struct fast_host *host;
static struct fast_place *places;
static struct fast_maps maps;
static struct tagging *tagging;
static int sender;
static struct __sk_buff context; /* what the kernel is told of a frame, and tells of it */

/* Has the kernel run a program for a frame; answers its verdict, or REFUSED_FRAME. */
static int run(int tried, const uint8_t *frame, size_t length) {
    static uint8_t after[ROOM + 64];
    struct __sk_buff told = {0};
    struct bpf_test_run_opts options = {.sz = sizeof options, .data_in = frame, .data_size_in = (uint32_t)length, .data_out = after,
        .data_size_out = sizeof after, .ctx_in = &context, .ctx_size_in = sizeof context, .ctx_out = &told, .ctx_size_out = sizeof told};
    if (bpf_prog_test_run_opts(tried, &options) != 0) return REFUSED_FRAME;
    context.mark = told.mark;
    context.priority = told.priority;
    return (int)options.retval;
}

/* Has the sender run for a frame whose outer tag stands beside it. */
static int run_beside(const uint8_t *frame, size_t length) {
    static uint8_t rest[ROOM];
    int verdict;
    memcpy(rest, frame, 2 * ETH_ALEN);
    memcpy(rest + 2 * ETH_ALEN, frame + 2 * ETH_ALEN + TAG_OCTETS, length - 2 * ETH_ALEN - TAG_OCTETS);
    context.cb[0] = (uint32_t)(frame[14] << 8 | frame[15]);
    context.cb[1] = htons((uint16_t)(frame[12] << 8 | frame[13]));
    verdict = run(bpf_program__fd(tagging->progs.tagging), rest, length - TAG_OCTETS);
    memset(context.cb, 0, sizeof context.cb);
    return verdict;
}

/* The row that counted a frame, which is clear then; or -2 where that is none, or another one too. */
static int counted_row(void) {
    int found = -2, count = 0;
    for (int number = 0; number < CONVERSATIONS; number++) {
        if (rows[number].word == 0) continue;
        found = number;
        count++;
        rows[number].word = 0;
    }
    host->left = 0;
    return count == 1 ? found : -2;
}

static void print_conversations(const uint8_t *frame, size_t length) {
    bool is_tagged = length >= ETH_HLEN + TAG_OCTETS && ((frame[12] == 0x81 && frame[13] == 0) || (frame[12] == 0x88 && frame[13] == 0xa8));
    int found = run(sender, frame, length) == REFUSED_FRAME ? -1 : counted_row();
    if (is_tagged && run_beside(frame, length) != REFUSED_FRAME && counted_row() != found && found >= 0) found = -2;
    printf("%u %d\n", (unsigned)conversation_of(&lagd->core, frame, length).number, found);
}

static int print_all(void) {
    static char line[LONGEST_OUTPUT];
    static uint8_t frame[ROOM];
    while (fgets(line, sizeof line, stdin)) {
        size_t length = 0;
        while (length < ROOM && sscanf(line + 2 * length, "%2hhx", &frame[length]) == 1) length++;
        print_conversations(frame, length);
    }
    return 0;
}

#define SLOW_GROUP "01:80:c2:00:00:02"
#define OTHER 0x88b5 /* a type of no protocol */
#define LONG 3000    /* octets of a frame of several segments */

/* A frame to an address, of a type; its conversation is 0 by layer2 where that address is of broadcast. */
static uint8_t *frame_of(const char *to, uint16_t type) {
    static uint8_t frame[ROOM];
    memset(frame, 0, sizeof frame);
    for (unsigned i = 0; i < ETH_ALEN; i++) (void)sscanf(to + 3 * i, "%2hhx", &frame[i]);
    frame[ETH_ALEN] = 2;
    frame[2 * ETH_ALEN - 1] = 0xff;
    frame[2 * ETH_ALEN] = (uint8_t)(type >> 8);
    frame[2 * ETH_ALEN + 1] = (uint8_t)type;
    return frame;
}

/* The host sends a frame of a type, of so many segments that somebody counted, or of segments of so many octets. */
static int send_frame_of(uint16_t type, size_t length, uint32_t segments, uint32_t octets) {
    context.priority = 7;
    context.gso_segs = segments;
    context.gso_size = octets;
    return run(sender, frame_of("ff:ff:ff:ff:ff:ff", type), length);
}

/* All tables as a daemon begins with them, with a word in the row of that frame. */
static void clear(uint64_t word) {
    memset(rows, 0, CONVERSATIONS * sizeof *rows);
    memset(members, 0, NIW_MOST_PORTS * sizeof *members);
    memset(host, 0, sizeof *host);
    memset(&context, 0, sizeof context);
    host->open_until = UINT64_MAX;
    rows[0].word = word;
}

static void check_left(void) {
    clear(0);
    host->open_until = 0;
    CHECK(send_frame_of(OTHER, 60, 0, 0) == LOSE && rows[0].word == 0 && host->left == 0);
    clear(0);
    CHECK(send_frame_of(OTHER, 60, 0, 0) == GO_ON && rows[0].word == SEGMENTS(1) && host->left == 1 && rows[0].passed == 0);
    CHECK(send_frame_of(OTHER, LONG, 3, 1000) == GO_ON && rows[0].word == SEGMENTS(4) && rows[0].opaque == 0);
    CHECK(send_frame_of(OTHER, LONG, 0, 1000) == GO_ON && rows[0].word == SEGMENTS(5) && rows[0].opaque == 1 && host->left == 3);
    CHECK(context.priority == 7);
}

static void check_overflow(void) {
    clear(0);
    host->left = MOST_LEFT - 1;
    CHECK(send_frame_of(OTHER, 60, 0, 0) == GO_ON && host->left == MOST_LEFT && host->overflowed == 0);
    CHECK(send_frame_of(OTHER, LONG, 5, 1000) == LOSE && host->left == MOST_LEFT && host->overflowed == 1);
    CHECK(rows[0].word == SEGMENTS(6) && rows[0].overflowed == 5 && rows[0].opaque == 0);
    CHECK(send_frame_of(OTHER, LONG, 0, 1000) == LOSE && rows[0].opaque == 0 && rows[0].overflowed == 6 && host->overflowed == 2);
}

static void check_passed(uint64_t member) {
    clear(member);
    CHECK(send_frame_of(OTHER, 60, 0, 0) == ELSEWHERE && rows[0].word == member && rows[0].passed == 1 && context.priority == 0);
    CHECK(send_frame_of(OTHER, ETH_HLEN + MTU, 0, 0) == ELSEWHERE && rows[0].passed == 2 && host->left == 0);
    CHECK(send_frame_of(ETH_P_8021Q, ETH_HLEN + MTU + TAG_OCTETS, 0, 0) == ELSEWHERE && rows[0].passed == 3 && host->unfit == 0);
    clear(SEGMENTS(2) | member);
    CHECK(send_frame_of(OTHER, MTU, 0, 1000) == ELSEWHERE && rows[0].word == (SEGMENTS(2) | member) && rows[0].opaque == 0);
    CHECK(send_frame_of(OTHER, MTU, 3, 1000) == ELSEWHERE && rows[0].word == (SEGMENTS(2) | member) && rows[0].passed == 2);
}

static void check_unfit(uint64_t member) {
    clear(member);
    CHECK(send_frame_of(ETH_P_SLOW, 60, 0, 0) == LOSE && host->unfit == 1);
    CHECK(send_frame_of(OTHER, ETH_HLEN + MTU + 1, 0, 0) == LOSE && host->unfit == 2);
    CHECK(send_frame_of(ETH_P_8021AD, ETH_HLEN + MTU + TAG_OCTETS + 1, 0, 0) == LOSE && host->unfit == 3);
    CHECK(send_frame_of(OTHER, LONG, 2, MTU + 1) == LOSE && host->unfit == 4);
    CHECK(rows[0].word == member && rows[0].passed == 0 && host->left == 0 && rows[0].opaque == 0);
}

/* A frame of the slow protocols with a tag. */
static uint8_t *tagged_frame(void) {
    uint8_t *frame = frame_of("ff:ff:ff:ff:ff:ff", ETH_P_8021Q);
    frame[15] = 7;
    frame[16] = ETH_P_SLOW >> 8;
    frame[17] = ETH_P_SLOW & 0xff;
    return frame;
}

/* A frame of the slow protocols with a tag beside it is data. */
static void check_beside(uint64_t member) {
    clear(member);
    CHECK(run_beside(tagged_frame(), 64) == ELSEWHERE && rows[0].passed == 1 && host->unfit == 0);
}

/* The member of PORT receives a frame to an address, of a type, with an octet behind that. */
static int receive(int tried, const char *to, uint16_t type, uint8_t subtype, size_t length) {
    uint8_t *frame = frame_of(to, type);
    frame[SUBTYPE_AT] = subtype;
    return run(tried, frame, length);
}

static void check_control(int receiver, uint32_t at) {
    clear(0);
    context.ifindex = at;
    CHECK(receive(receiver, SLOW_GROUP, ETH_P_SLOW, SUBTYPE_MARKER, 60) == GO_ON && context.mark == 0);
    members[PORT - 1].up_to = at;
    CHECK(receive(receiver, SLOW_GROUP, ETH_P_SLOW, SUBTYPE_LACP, 60) == GO_ON && context.mark == 0);
    CHECK(receive(receiver, SLOW_GROUP, ETH_P_SLOW, SUBTYPE_MARKER, 60) == ELSEWHERE && context.mark == PORT);
    CHECK(members[PORT - 1].passed_up == 0 && members[PORT - 1].uncollected == 0);
}

static void check_data(int receiver, uint32_t at) {
    struct fast_member *member = &members[PORT - 1];
    clear(0);
    context.ifindex = at;
    CHECK(receive(receiver, "02:00:00:00:00:01", OTHER, 0, 60) == LOSE && member->uncollected == 1);
    member->up_to = at;
    CHECK(receive(receiver, "02:00:00:00:00:01", OTHER, 0, ETH_HLEN + MTU) == ELSEWHERE && member->passed_up == 1);
    CHECK(receive(receiver, "02:00:00:00:00:01", OTHER, 0, ETH_HLEN + MTU + 1) == LOSE && member->wrong_length == 1);
    CHECK(receive(receiver, "02:00:00:00:00:01", ETH_P_8021Q, 0, ETH_HLEN + MTU + TAG_OCTETS) == ELSEWHERE && member->passed_up == 2);
    context.gso_size = 1000;
    CHECK(receive(receiver, "02:00:00:00:00:01", OTHER, 0, LONG) == ELSEWHERE && member->passed_up == 3);
    member->passed_up = member->uncollected = member->wrong_length = member->up_to = 0;
    for (unsigned i = 0; i < NIW_MOST_PORTS; i++) CHECK(memcmp(&members[i], &(struct fast_member){0}, sizeof *members) == 0);
}

/* An interface that has no place, since another one has it, is no member. */
static void check_place(int receiver, uint32_t at) {
    uint64_t own = places[member_place(at)].word;
    clear(0);
    context.ifindex = at;
    members[PORT - 1].up_to = at;
    for (unsigned i = 0; i < 2; i++) {
        places[member_place(at)].word = i == 0 ? 0 : (uint64_t)(at + PLACES) << 32 | PORT;
        CHECK(receive(receiver, SLOW_GROUP, ETH_P_SLOW, SUBTYPE_MARKER, 60) == GO_ON && context.mark == 0);
        CHECK(receive(receiver, "02:00:00:00:00:01", OTHER, 0, 60) == LOSE);
    }
    CHECK(members[PORT - 1].passed_up == 0 && members[PORT - 1].uncollected == 0 && members[PORT - 1].wrong_length == 0);
    places[member_place(at)].word = own;
}

/* Frames to groups of the link are of the member alone, but for those of bridges. */
static void check_groups(int tried, int verdict_of_data, uint32_t at) {
    clear(0);
    context.ifindex = at;
    members[PORT - 1].up_to = at;
    for (unsigned group = 0; group <= 0x20; group++) {
        bool is_local = group <= 0x0f && group != 0x00 && group != 0x08 && group != 0x0d;
        char to[] = "01:80:c2:00:00:xx";
        snprintf(to + 15, sizeof to - 15, "%02x", group);
        CHECK(receive(tried, to, OTHER, 0, 60) == (is_local ? GO_ON : verdict_of_data));
    }
    CHECK(receive(tried, "01:80:c2:00:01:0e", OTHER, 0, 60) == verdict_of_data);
    CHECK(receive(tried, "03:80:c2:00:00:0e", OTHER, 0, 60) == verdict_of_data);
}

/* A marker that came up ends at the device, and all else goes on, a frame of the slow protocols with a tag, too. */
static void check_handover(int handover) {
    const uint32_t first = 0;
    int beside = bpf_map__fd(tagging->maps.sender);
    clear(0);
    CHECK(receive(handover, "02:00:00:00:00:01", OTHER, 0, 60) == GO_ON);
    CHECK(receive(handover, SLOW_GROUP, ETH_P_SLOW, SUBTYPE_MARKER, 60) == LOSE);
    CHECK(bpf_map_update_elem(beside, &first, &handover, BPF_ANY) == 0);
    CHECK(run_beside(tagged_frame(), 64) == GO_ON);
    CHECK(bpf_map_update_elem(beside, &first, &sender, BPF_ANY) == 0);
}

static void check_dropper(int dropper) {
    clear(0);
    CHECK(receive(dropper, SLOW_GROUP, ETH_P_SLOW, SUBTYPE_LACP, 60) == GO_ON);
    CHECK(receive(dropper, SLOW_GROUP, ETH_P_SLOW, SUBTYPE_MARKER, 60) == GO_ON);
    CHECK(receive(dropper, "ff:ff:ff:ff:ff:ff", ETH_P_ARP, 0, 60) == LOSE);
    CHECK(receive(dropper, "02:00:00:00:00:01", OTHER, 0, 60) == LOSE);
}

/* A table of another form is not taken, and for a program that is not taken there is a reason. */
static void check_refusals(void) {
    struct fast_maps wrong = maps;
    char reason[REASON_ROOM] = "";
    CHECK(map_again(sizeof *rows, CONVERSATIONS, maps.rows) != NULL && map_again(sizeof *rows, CONVERSATIONS, maps.members) == NULL);
    CHECK(map_again(sizeof *rows + 8, CONVERSATIONS, maps.rows) == NULL && map_again(sizeof *rows, CONVERSATIONS, 0) == NULL);
    CHECK(make_map(8, CONVERSATIONS, &wrong.rows) != NULL);
    CHECK(load_program_or_stop(&lagd->settings, "sender", &wrong, reason) == -EACCES);
    CHECK(strstr(reason, "outside of the allowed memory range") || strstr(reason, "invalid access to map value"));
}

static int loaded(const char *name, const struct fast_maps *of) {
    char reason[REASON_ROOM];
    int fd = load_program_or_stop(&lagd->settings, name, of, reason);
    if (fd < 0) printf("%s: failed: %s: %s\n", program, name, reason);
    CHECK(fd >= 0);
    return fd;
}

static int check_all(const char *name) {
    uint32_t at = if_nametoindex(name);
    int receiver = loaded("receiver", &maps), handover = loaded("handover", &maps), dropper = loaded("dropper", NULL);
    CHECK(at != 0);
    places[member_place(at)].word = (uint64_t)at << 32 | PORT;
    check_left();
    check_overflow();
    check_passed(at);
    check_unfit(at);
    check_beside(at);
    check_control(receiver, at);
    check_data(receiver, at);
    check_place(receiver, at);
    check_groups(receiver, ELSEWHERE, at);
    check_groups(dropper, LOSE, at);
    check_dropper(dropper);
    check_handover(handover);
    check_refusals();
    return tell_checks();
}

/* Makes a system, which knows the conversations of layer2. */
static bool make_own_system(void) {
    struct settings usual = usual_settings();
    struct niw_port port = {.number = 1, .key = 1, .aggregatable = true, .active = true};
    usual.config.mac[0] = 2;
    return niw_new(&lagd->core.system, &usual.config, &port.key, 1, &port, 1).status == NIW_OK;
}

static bool load_all(void) {
    const uint32_t first = 0;
    rows = make_map(sizeof *rows, CONVERSATIONS, &maps.rows);
    members = make_map(sizeof *members, NIW_MOST_PORTS, &maps.members);
    host = make_map(sizeof *host, 1, &maps.host);
    places = make_map(sizeof *places, PLACES, &maps.places);
    sender = rows && members && host && places ? loaded("sender", &maps) : -1;
    tagging = tagging__open_and_load();
    return sender >= 0 && tagging && bpf_map_update_elem(bpf_map__fd(tagging->maps.sender), &first, &sender, BPF_ANY) == 0;
}

int main(int argc, char **argv) {
    int status = 3;
    join_parts(lagd);
    if (argc != 2 && argc != 3) return 2;
    if (argc == 3) {
        lagd->settings.hash_seed = (uint16_t)atoi(argv[2]);
        for (lagd->settings.hash = HASH_LAYER2; strcmp(HASHES[lagd->settings.hash], argv[1]) != 0; lagd->settings.hash++) continue;
    }
    if (make_own_system() && load_all()) {
        host->open_until = UINT64_MAX;
        status = argc == 3 ? print_all() : check_all(argv[1]);
    }
    tagging__destroy(tagging);
    (void)niw_free(&lagd->core.system);
    return status;
}
