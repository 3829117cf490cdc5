/* The plane of a TAP device: the daemon takes each frame of the host and hands up what comes, or programs of the kernel do. */
#ifndef LAGD_TAP_H
#define LAGD_TAP_H

#include "carry.h"

#include <linux/ethtool.h>
#include <net/ethernet.h>
#include <sys/uio.h>

/* The library takes a frame of so many octets at most: of a longer one it is shown the beginning. */
#define LONGEST_SHOWN (ETH_HLEN + ETH_DATA_LEN + TAG_OCTETS)
/* Frames that are sent by one call of the kernel, or taken of a socket in a turn: a marker on another one waits for no more. */
#define BATCH 64
/* What an interface had before it was a member. */
#define PROCESSORS_LENGTH "2399" /* of the mask of the 8192 processors that Linux knows */
#define PROCESSORS_ROOM 2400
struct kept {
    unsigned joins;                 /* what of GRO and LRO was wanted, as guard.c has it */
    char steered[PROCESSORS_ROOM];  /* the processors that RPS named, or empty where that was one, or is not changed */
    struct ethtool_channels queues; /* what there was; all 0 where there was one queue */
};

/* What keeps the data of a member from the stack of its interface. */
enum classifier { NO_CLASSIFIER, CLASSIFIER_ALONE, CLASSIFIER_BEHIND_OTHERS };
struct guard {
    int opened;                 /* what keeps data from the stack of the interface, or below 0 */
    enum classifier classifier; /* what does so where the kernel has no TCX */
    bool in_order;      /* whether the queueing discipline of the interface keeps the order */
    bool fast;          /* whether the kernel may pass on what goes and comes there */
    bool unusual;       /* whether it may not, as it has another number of queues than those where it may */
    struct kept before; /* what the interface had */
    bool spread;        /* whether it keeps all its queues */
    unsigned queues;    /* by how many of them data goes */
    unsigned channels;  /* how many it has, as guard.c has it */
    int chooser;        /* what keeps the program there by which a frame of the daemon goes by its queue, or -1 */
};

/* The sockets of a member: for data and its markers, of which it only sends where the kernel hands up what comes; and there one for the markers
 * that it hands up to the TAP device behind the data, and one for those that come while no data goes up. */
enum socket_kind { DATA, MARKERS, DIRECT, SOCKETS };
struct member {
    int sockets[SOCKETS]; /* -1 where there is none, as while the interface is missing */
    struct guard guard;
    uint32_t mtu;      /* 0: not known */
    uint32_t megabits; /* a second, or 0: not known */
    bool has_marker;   /* whether one was sent */
    uint8_t marker[NIW_FRAME];
    uint64_t counts[MEMBER_COUNTS];
    unsigned out; /* frames that wait to be sent */
    struct iovec parts[BATCH];
    struct mmsghdr messages[BATCH];
};

/* The most markers of a port whose responses are waited for: the library sends another one in the place of one that is 3 s old. */
#define MOST_FLIGHTS 4
/* The queues of a member by which its data goes. */
struct queues {
    unsigned count;
    uint32_t dirty; /* those that have frames behind which no marker went, a bit for each */
    struct flight { /* a marker whose responses are waited for */
        uint32_t id;      /* that the library gave it */
        uint32_t waiting; /* the queues of which none came, a bit for each; 0: there is no marker */
        uint64_t since;
        uint64_t place; /* which one it is of all that were sent */
    } flights[MOST_FLIGHTS];
    uint64_t sent; /* markers */
    _Alignas(struct cmsghdr) uint8_t marks[MOST_QUEUES][CMSG_SPACE(sizeof(uint32_t))]; /* of set_mark */
};

/* The most responses that wait for a port. */
#define MOST_ANSWERS 64
/* Responses of a port that wait, in a ring, in the order in which they came. */
struct answers {
    unsigned first, count;
    struct answer {
        uint64_t due;    /* the milliseconds at which it may go */
        unsigned unread; /* how many packets its socket may have that came before that */
        uint8_t frame[NIW_FRAME];
    } waiting[MOST_ANSWERS];
};

/* Where a packet of TCP has its headers of IP and TCP, and the payload behind them; and how long it is. */
struct tcp_packet {
    size_t network, transport, payload, length;
};

/* A packet that is cut into `count` segments, each with so many octets of payload but for the last one. */
struct cut {
    const uint8_t *packet;
    struct tcp_packet whole;
    size_t size;
    uint32_t count;
};

/* Packets of one stream that wait to go up. */
struct gro {
    unsigned count;
    struct iovec packets[BATCH]; /* they stay where they are */
    struct tcp_packet all;       /* what they are together, with the headers of the first one */
    uint32_t next;               /* the number of the octet of the stream that follows */
    bool open;                   /* whether one more may follow */
};

struct host {
    int tap;
    uint8_t *packets;  /* for the packets of a batch */
    uint8_t *segments; /* for those into which one of them is cut */
    uint8_t *rooms;    /* for those that wait, from `first` on round and round */
    struct uncut { /* a packet that waits to be cut, or behind such a one of its conversation */
        uint16_t number; /* of its conversation */
        size_t length;
        struct cut cut; /* of no segments where it is whole */
        uint32_t next;  /* the segment that follows */
    } waiting[BATCH];
    unsigned first, count;
    unsigned of_one[CONVERSATIONS]; /* how many of each conversation wait */
};

/* Frames of conversations that are held. */
struct held {
    struct pool {
        uint8_t *slots;
        size_t octets;       /* of a slot */
        uint32_t idle;       /* the first slot that was used and is not in use */
        uint32_t used, most; /* how many were ever used, and how many there are */
    } small, large;
    uint32_t leaving; /* the first of those that are in use until they were sent */
    struct niw_queue queues;
    size_t octets;  /* of all slots, while the queues are there */
    bool any_waits; /* false only where no frame waits */
};

/* The programs of the kernel, and the tables that they share with the daemon. */
struct fast_programs {
    struct fast_row *rows;
    struct fast_member *entries;
    struct fast_host *host;
    struct fast_place *places;
    int receiver;         /* the program of the members */
    int sender, handover; /* what keeps its programs at the TAP device, or -1 */
    bool queue_holds;     /* whether its queueing discipline may hold frames */
};

struct tap_plane {
    PARTS
    struct carry *carry;
    int dropper; /* the program that keeps data from the stack of a member, or -1 */
    int chooser; /* with all queues, the program by which a frame of the daemon goes by its queue */
    unsigned usual_queues; /* by how many the kernel passes data on, while it does so of any member */
    uint8_t *rooms; /* for the packets of a batch that members receive */
    uint64_t silent_since[NIW_MOST_PORTS]; /* the time since which a port holds conversations and does not distribute, or 0 */
    struct member members[NIW_MOST_PORTS];
    struct queues queues[NIW_MOST_PORTS];
    struct answers answers[NIW_MOST_PORTS];
    int answer_timer;
    struct gro gro;
    struct host host;
    struct held held;
    struct fast_programs fast;
};

/* data.c */
uint64_t sum_frames_heard_and_follow_peer(struct plane *plane, bool counts_now);
void set_speed_and_carrier(struct plane *plane);
void choose_move_and_send(struct plane *plane);
void pass_data_tick_and_wake_ports(struct plane *plane);
void accept_from_host(struct tap_plane *tap, uint8_t *packet, size_t length);
void hand_up_or_follow_peer_and_tell(struct tap_plane *tap, uint32_t aggregator, uint8_t *packet, size_t length);

/* probe.c */
void pass_probe_tick(struct tap_plane *tap);

/* flight.c */
void pass_flight_tick_and_send_markers(struct tap_plane *tap);

/* queues.c: by which queue of its member a conversation goes, and the markers of each queue */
bool note_queue_response(struct queues *queues, uint32_t *id);
void set_identifier(uint8_t *frame, uint32_t id);
void begin_queues(struct queues *queues, unsigned count);
void mark_conversation(struct queues *queues, uint16_t number, struct msghdr *message);
bool send_by_queues(struct tap_plane *tap, struct link *link, const uint8_t *marker, bool again);

/* answers.c: responses to markers that wait */
bool answer_at_once(struct tap_plane *tap, struct link *link, const uint8_t *response);
bool answer_later(struct tap_plane *tap, struct link *link, const uint8_t *response);
int open_answer_timer_or_stop(int epoll_file);
void serve_answer_timer_data_and_changes(struct tap_plane *tap);
void note_unread(struct answers *answers, unsigned packets, bool drained);

/* kept.c */
FILE *read_kept(int folder, const struct link *link, const char *kind);
FILE *begin_kept(int folder, const struct link *link, const char *kind);
bool end_kept(int folder, const struct link *link, const char *kind, FILE *file, bool done);
void drop_kept(int folder, const struct link *link, const char *kind);
void write_kept_member(struct printer *printer, int folder, const struct link *link, const struct kept *kept);
void merge_kept_member(struct printer *printer, int folder, const struct link *link, struct kept *kept);
void recall_kept_member(int folder, const struct link *link, struct kept *kept);

/* host.c */
void lose_device_and_end(struct plane *plane);
void serve_settle_and_send(struct tap_plane *tap, uint32_t tag);
void withdraw_and_drop_answers(struct plane *plane, const struct link *link);
void open_tap_plane_or_stop(struct plane *plane);
void end_tap_plane(struct plane *plane);
void read_host_and_send(struct tap_plane *tap);
bool is_cutting(const struct core *core, const struct host *host);
bool give_host(const struct core *core, int fd, const struct iovec *parts, unsigned count, size_t length);

/* traffic.c: queueing disciplines and classifiers of members */
bool keeps_order(const char *discipline);
bool read_discipline(int index, char name[static DISCIPLINE_ROOM]);
bool all_queues_keep_order(int index);
bool may_all_queues_keep_order(int index);
bool give_each_fifo(int index, unsigned queues, uint32_t megabits);
void make_or_fit_each_fifo(int index, unsigned queues, uint32_t megabits);
void drop_fifo(int index);
void give_no_queue(int index);
enum classifier set_classifier(int program, int index);
void drop_classifier(int index);

/* guard.c */
unsigned count_sending_queues(int index);
void stop_device_rps(struct printer *printer, int index);
void start_all_queues_or_stop(struct tap_plane *tap);
bool choose_usual_queues(unsigned *usual, const struct member *members, uint16_t count, unsigned queues);
bool is_changed_by_others(uint64_t seconds, const struct link *link, const struct guard *guard);
void move_kept_queues(struct printer *printer, int folder, struct link *link, const uint8_t *mac);
void open_guard(struct tap_plane *tap, struct link *link, struct guard *guard);
void keep_from_stack(struct tap_plane *tap, const struct link *link, struct guard *guard);
void run_fast_programs(struct tap_plane *tap, const struct link *link, struct guard *guard);
bool set_one_queue(struct tap_plane *tap, struct link *link, struct guard *guard, bool again);
bool set_all_queues(struct tap_plane *tap, struct link *link, struct guard *guard, bool again);
void give_fifos_and_note_order(struct printer *printer, const struct plane *plane, struct link *link, struct guard *guard);
void renew_guard(struct tap_plane *tap, struct link *link, struct guard *guard);
void close_guard(struct store *store, int folder, struct fast_programs *fast, const struct link *link, struct guard *guard);
void put_back_former(struct store *store, const struct inherited *inherited, int folder, struct fast_programs *fast,
    const struct inherited_link *was);

/* members.c */
extern const struct carrying TAP_DEVICE;
extern const struct queueing ONE_QUEUE, ALL_QUEUES;
void withdraw_and_send_new_marker(struct plane *plane, struct link *link, const uint8_t *frame);
bool give_marker(struct core *core, const struct member *member, struct link *link, const uint8_t *marker, struct msghdr *message);
unsigned member_queues(const struct member *member);
void put_back_members(int status, void *given);
bool is_fast(const struct member *member);
uint32_t sum_speeds(const struct carry *carry, const struct member *members);
void put_data(struct tap_plane *tap, uint16_t port, uint16_t number, uint8_t *packet, size_t length);
void flush_data(struct tap_plane *tap);
void receive_data_and_changes(struct tap_plane *tap, struct link *link);
bool withdraw_and_repeat_marker(struct tap_plane *tap, uint16_t port);
void count_full_sockets(struct member *members, uint16_t count);

/* hash.c */
struct niw_number conversation_of(struct core *core, const uint8_t *frame, size_t length);

/* packets.c: a packet is a frame, and what the kernel tells before it */
#define USUAL_TAGS 2 /* that of a customer, and that of a provider (IEEE 802.1Q) */
#define ALL_TAGS SIZE_MAX
size_t head_octets(void);
size_t packet_room(void);
uint8_t *make_rooms_or_stop(void);
uint8_t *room_at(uint8_t *rooms, unsigned number);
bool has_segments(const uint8_t *packet);
uint32_t count_segments(const uint8_t *packet, size_t length);
size_t tag_octets(const uint8_t *frame, size_t length, size_t most);
bool has_right_length(const uint8_t *packet, size_t length, uint32_t mtu);
uint8_t *put_tag(uint8_t *packet, uint16_t type, uint16_t tag);

/* sums.c */
uint64_t add_to_sum(uint64_t sum, const uint8_t *octets, size_t length);
uint16_t fold_sum(uint64_t sum);
void put_sum(uint8_t *octets, size_t length, size_t field);

/* segments.c */
bool read_cut(const uint8_t *packet, size_t length, struct cut *cut);
size_t put_segment(const struct cut *cut, uint32_t number, uint8_t *packet);
void finish_sum(uint8_t *packet, size_t length);
void put_host(struct tap_plane *tap, uint8_t *packet, size_t length);
void flush_host(struct tap_plane *tap);

/* programs.c: what the kernel runs for frames */
#define REASON_ROOM 160 /* of why the kernel does not take a program */
struct fast_maps {
    int rows, members, host, places;
};
int load_program_or_stop(const struct settings *settings, const char *name, const struct fast_maps *maps, char *reason);

/* fast.c */
extern const struct passing BY_KERNEL;
int open_fast_receiver(struct store *store, struct fast_programs *own, const struct ports *ports, const struct link *wanted);
void clear_fast_place(struct fast_programs *own, const struct link *link);
int fast_member_of(const struct plane *plane, uint16_t number);

/* held.c */
void start_held_or_stop(struct core *core, struct held *own);
void end_held(struct core *core, struct held *own);
bool count_held(struct core *core, struct held *own, uint16_t number, uint64_t *waiting) MUST_USE;
bool none_held(struct core *core, struct held *own, uint16_t number);
bool count_all_held(struct core *core, struct held *own, uint64_t *waiting) MUST_USE;
unsigned count_frames_waiting(struct plane *plane);
bool oldest_held(struct core *core, struct held *own, uint16_t number, uint64_t *came);
bool put_held(struct core *core, struct held *own, uint16_t number, uint64_t came, const uint8_t *packet, size_t length);
bool drop_held(struct core *core, struct held *own, uint16_t number) MUST_USE;
uint8_t *remove_held(struct core *core, struct held *own, uint16_t number, size_t *length);
void free_left(struct held *own);

#endif
