/* LACP and the Marker protocol (IEEE 802.1AX-2014) for programs in C: one system, its calls and its readers, and payloads as numbers.
 *
 * Bytes and ticks go in, frames come out. The library has no clock, no socket and no thread of its own: the caller hands it
 * every frame that comes, calls niw_tick every 100 ms, and after each call sends what niw_transmit gives for each port.
 *
 * What a program uses has a name that begins with niw_ or NIW_, for Niwhopera, the name of the project. The names that begin with lagffi_
 * are those that the library exports.
 *
 * What the caller owes, and nothing checks. A program that does not keep to it may get a wrong answer, write where it should not, or
 * end by SIGILL or SIGSEGV:
 * - A handle is NIW_EMPTY before its first call, and only the functions below write it. It is not copied while it holds a system: a
 *   copy that is used after niw_free points to memory that is freed.
 * - A pointer that is not null points to what its type says, and a buffer or frame has as many octets as its length says.
 *   What a call may write overlaps nothing else that the call is given.
 * - One call of a handle runs at a time, readers too, since each call writes the handle: from any thread, under the program's lock. Two
 *   handles share nothing, but by NIW_POOL their memory: then one call of all handles runs at a time. No signal handler calls, and no
 *   forked child of a program with threads.
 * - The program's malloc, realloc and free belong together, and align to 16 octets.
 * - A bool is false or true. One that is read from octets, as from a file, may hold 2: the state octet of a port is wrong then.
 * - A program that calls `lagffi_` functions itself, without those below, gives them no null pointer.
 *
 * Every call and reader tells a status: NIW_OK, or why it refused. One that refuses changes nothing and writes to no buffer. A null
 * pointer, a handle with no system, a wrong length and an unknown port are refused so. */
#ifndef NIW_LAG_H
#define NIW_LAG_H

#include <stdbool.h>
#include <stddef.h>
#include <stdint.h>
/* For programs: nothing of this header wants it, so -ffreestanding leaves it out. */
#if __STDC_HOSTED__
#include <string.h>
#endif

#ifdef __cplusplus
extern "C" {
#endif

/* A handle. NIW_EMPTY holds no system; niw_new puts one in, and niw_free takes it out again. */
struct niw_system {
    bool live;
    void *at;
};

/* A handle for frames that wait. NIW_EMPTY holds no queues; niw_queue_new puts them in, and niw_queue_free takes them out again. */
struct niw_queue {
    bool live;
    void *at;
};
#define NIW_EMPTY {false, NULL}

/* The version of this header: it goes up by one with each change of the interface. */
#define NIW_VERSION 13
/* The version of the release that the header is of. */
#define NIW_VERSION_TEXT "0.3.0"
/* The octets of a frame that the library answers. */
#define NIW_FRAME 124
/* The octets of a payload: what follows the 14 octets of addresses and EtherType. */
#define NIW_PAYLOAD_LENGTH 110
/* The fewest and the most octets of a frame that is offered. */
#define NIW_SHORTEST_FRAME 14
#define NIW_LONGEST_FRAME 1518
/* The most ports and the most aggregators of a system. */
#define NIW_MOST_PORTS 64
/* The most ticks of one niw_ticks: 6553.5 s. */
#define NIW_MOST_TICKS 65535
/* How many conversations an aggregator may have: 1 where something else picks the port of a frame, as the hash of hardware does, since
 * each conversation takes memory. */
#define NIW_ONE_CONVERSATION 1
#define NIW_FEW_CONVERSATIONS 256
#define NIW_MANY_CONVERSATIONS 4096
/* The most conversations that niw_next_move and niw_queue_next_released are given. */
#define NIW_MOST_CONVERSATIONS 65536
/* The milliseconds of a tick. */
#define NIW_TICK_MILLISECONDS 100
/* The most octets that niw_new and niw_resume ask malloc for, with 32 more of each block for a malloc of the program's own: for so many ports
 * and aggregators, and conversations of each aggregator. A test compares it with what they ask for. */
#define NIW_MEMORY(ports, aggregators, conversations) \
    ((size_t)4096 + (size_t)128 * (ports) + ((size_t)24 * (conversations) + 8) * (aggregators))
#ifdef NIW_POOL
/* Of lag.c alone, and compiled by -DNIW_POOL: the memory that it takes in the place of malloc's, octets that the program keeps for it. NIW_MEMORY says how much
 * of it a system takes. No handle holds anything at this call. */
void niw_give_memory(void *at, size_t octets);
#endif

/* The names and numbers of the next three enums, and the texts of niw_status_text and niw_reason_text, are written by
 * tools/maintain/interface from the enums of the sources. The comments behind the names are by hand. */

/* The statuses. 1 to 12 and 24 are the refusals of a system. */
enum {
    NIW_OK = 0,
    NIW_NO_PORT = 1,            /* the system has no port of this number */
    NIW_NO_AGGREGATOR = 2,      /* the system has no such aggregator */
    NIW_FRAME_LENGTH = 3,       /* an offered frame has not 14 to 1518 octets; niw_conversation: fewer than 14 */
    NIW_SLOW_FRAME = 4,         /* an offered frame is one of the slow protocols, EtherType 0x8809 */
    NIW_HELD = 5,               /* the conversation is wanted or flushing, so its frames are held: until the marker's response comes,
                                   the link of its port goes down, or niw_force or niw_force_port frees it. A link that falls
                                   silent and stays up holds them for ever: once its port has neither carried a frame nor
                                   distributed with a partner for longer than frames can take through the network,
                                   niw_force_port. niw_offer_in_active_aggregator and
                                   niw_offer_conversation_in_active_aggregator: the same, or it is on a port or held in another aggregator;
                                   niw_adopt: the same, or it is on another port */
    NIW_NONE_DISTRIBUTING = 6,  /* the conversation is free, and no port distributes in the aggregator */
    NIW_NOT_DISTRIBUTING = 7,   /* the port to move to does not distribute in the aggregator, nor that of niw_adopt; niw_resume: a
                                   saved port does not come to distribute as it was saved */
    NIW_SAME_PORT = 8,          /* the port to move to is the one that the conversation is on */
    NIW_NOT_ASSIGNED = 9,       /* the conversation is free, or there is no such conversation or aggregator, or a list of
                                   conversations has more than 65536 */
    NIW_MARKERS_SPENT = 10,     /* no marker identifier is left */
    NIW_BAD_CONFIG = 11,        /* the configuration is refused */
    NIW_NO_MEMORY = 12,         /* memory was refused; only niw_new and niw_resume, of a configuration that is not refused, and
                                   niw_queue_new answer it; of lag.c, where the high octet of a number comes first, niw_next_move and
                                   niw_queue_next_released, too */
    NIW_NO_SYSTEM = 13,         /* the handle holds no system */
    NIW_HAS_SYSTEM = 14,        /* niw_new, niw_resume: the handle holds a system already */
    NIW_BUFFER = 15,            /* a buffer has less room than the function asks */
    NIW_NULL = 16,              /* a pointer is null */
    NIW_BAD_PAYLOAD = 17,       /* niw_decode: the payload is refused */
    NIW_NO_PDU = 18,            /* niw_encode: neither an LACPDU nor a Marker PDU */
    NIW_NO_QUEUE = 19,          /* the handle holds no queues */
    NIW_HAS_QUEUE = 20,         /* niw_queue_new: the handle holds queues already */
    NIW_CONVERSATION_FULL = 21, /* niw_queue_put: as many frames of the conversation wait as may */
    NIW_ALL_FULL = 22,          /* niw_queue_put: as many frames wait as may in all */
    NIW_STALE = 23,             /* niw_resume: the LACPDU that was saved of a port is as old as the port's timeout, or older */
    NIW_OVER_LIMIT = 24,        /* niw_set_max_links: an aggregator has more members whose links are up. Hold ports first */
    NIW_MANY_TICKS = 25         /* niw_ticks: more than NIW_MOST_TICKS */
};

/* Of NIW_BAD_CONFIG: the reason. */
enum {
    NIW_REASON_PORTS = 1,         /* not 1 to 64 ports */
    NIW_REASON_AGGREGATORS = 2,   /* not 1 to 64 aggregators */
    NIW_REASON_PORT_NUMBER = 3,   /* a port number is 0, or not above the one before it */
    NIW_REASON_MAX_LINKS = 4,     /* a limit of links is above 64 */
    NIW_REASON_CONVERSATIONS = 5, /* not 1, 256 or 4096 conversations */
    NIW_REASON_ALGORITHM = 6      /* an algorithm that is not 0 to 2 */
};

/* Of NIW_RECEIVED_IGNORED and of NIW_BAD_PAYLOAD: what is wrong with the payload. */
enum {
    NIW_FAULT_SHORT = 1,         /* fewer than 110 octets */
    NIW_FAULT_OTHER_SUBTYPE = 2, /* octet 0 is neither 1 nor 2 */
    NIW_FAULT_BAD_LENGTH = 3,    /* a length of a TLV is wrong */
    NIW_FAULT_MARKER_TLV = 4     /* octet 2 of a Marker PDU is neither 1 nor 2 */
};

/* The bits of a state octet. */
enum {
    NIW_STATE_ACTIVITY = 1,
    NIW_STATE_TIMEOUT = 2,
    NIW_STATE_AGGREGATION = 4,
    NIW_STATE_SYNCHRONIZATION = 8,
    NIW_STATE_COLLECTING = 16,
    NIW_STATE_DISTRIBUTING = 32,
    NIW_STATE_DEFAULTED = 64,
    NIW_STATE_EXPIRED = 128
};

/* What niw_new is given beside keys and ports. */
struct niw_config {
    uint16_t priority;      /* the system priority */
    uint8_t mac[6];         /* the MAC address of the system */
    uint16_t max_delay;     /* CollectorMaxDelay in tens of microseconds */
    uint32_t first_marker;  /* the identifier of the first marker */
    uint16_t conversations; /* of each aggregator: 256, 4096, or 1 where something else picks the port of a frame */
    uint16_t max_links;     /* the most members of each aggregator, 1 to 64; 0: any number */
    uint16_t algorithm;     /* how a conversation picks its port: NIW_BY_.. */
};

/* How a conversation picks its port, in the list of the ports that distribute: the index in it, from 0. */
enum {
    NIW_BY_NUMBER = 0, /* the number of the conversation, modulo the count of these ports */
    NIW_BY_SUM = 1,    /* that number, plus it divided by 16, plus it divided by 256, modulo the count */
    NIW_BY_FIRST = 2   /* 0: the first port carries all, and the others stand in reserve */
};

/* One port of a configuration. */
struct niw_port {
    uint16_t number;    /* 1 to 65535 */
    uint16_t priority;  /* the port priority, 0 to 65535 */
    uint8_t mac[6];     /* the source of what the port sends */
    uint16_t key;       /* the operational key, 0 to 65535 */
    bool aggregatable;  /* false for a port whose link is individual */
    bool active;        /* LACP_Activity */
    bool short_timeout; /* LACP_Timeout: whether the port asks for short timeouts */
};

/* What a host saves of a port that distributes, for niw_resume. */
struct niw_saved {
    uint16_t port;
    uint16_t aggregator; /* the number of the aggregator that the port was in; 0: the port may come into any */
    uint32_t age;        /* the ticks since the LACPDU came */
    uint8_t frame[124];  /* NIW_FRAME: the first octets of the frame of the last LACPDU that came on the port */
};

/* What niw_configure gives a port. */
struct niw_change {
    uint16_t key;
    uint16_t priority;
    bool aggregatable;
};

/* In each answer `status` is NIW_OK or the number of the refusal. After a refusal every other field
 * is 0, except `reason` and `place` of niw_made and `fault`, `at` and `found` of niw_decoded. */

struct niw_made {
    uint32_t status;
    uint32_t reason; /* of NIW_BAD_CONFIG: NIW_REASON_.. */
    size_t place;    /* of NIW_REASON_PORT_NUMBER: the place of the port, from 1; of NIW_STALE and NIW_NOT_DISTRIBUTING: the port */
};

struct niw_truth {
    uint32_t status;
    bool is;
};

struct niw_number {
    uint32_t status;
    uint64_t number;
};

/* What became of a frame that came. */
enum {
    NIW_RECEIVED_DISABLED = 0,    /* the link of the port is down */
    NIW_RECEIVED_DROPPED = 1,     /* fewer than 14 octets, or a data frame on a port that is not collecting */
    NIW_RECEIVED_IGNORED = 2,     /* a control frame whose payload is refused; `number` is NIW_FAULT_.. */
    NIW_RECEIVED_TOOK_LACPDU = 3, /* an LACPDU was taken */
    NIW_RECEIVED_RESPOND = 4,     /* a marker came: its answer stands in the buffer, `number` octets, to be sent on the same port */
    NIW_RECEIVED_RELEASED = 5,    /* a marker response came; `number` is how many conversations it released */
    NIW_RECEIVED_HANDED_UP = 6    /* a data frame, which is handed up in the aggregator `number` */
};

struct niw_received {
    uint32_t status;
    uint32_t what;
    uint32_t number;
};

/* Which frame was due: the subtype of its PDU. */
enum { NIW_SENT_NOTHING = 0, NIW_SENT_LACPDU = 1, NIW_SENT_MARKER = 2 };

struct niw_sent {
    uint32_t status;
    bool is;         /* whether a frame is due, which stands in the buffer then */
    uint8_t what;    /* NIW_SENT_.. */
    uint32_t octets; /* of the frame: NIW_FRAME, or 0 */
};

struct niw_actor {
    uint32_t status;
    uint16_t system_priority;
    uint8_t system_mac[6];
    uint16_t key;
    uint16_t port_priority;
    uint16_t port;
    bool aggregatable;
};

struct niw_info {
    uint32_t status;
    uint16_t system_priority;
    uint8_t system_mac[6];
    uint16_t key;
    uint16_t port_priority;
    uint16_t port;
    uint8_t state; /* the state octet: NIW_STATE_.. */
};

/* One end of a group. Its port is named only where the link is individual. */
struct niw_end {
    uint16_t system_priority;
    uint8_t system_mac[6];
    uint16_t key;
    bool individual;
    uint16_t port_priority;
    uint16_t port;
};

struct niw_group_id {
    uint32_t status;
    struct niw_end lower;
    struct niw_end upper;
};

/* The states of the receive machine and of the mux machine. */
enum { NIW_RECEIVE_INITIALIZE, NIW_RECEIVE_PORT_DISABLED, NIW_RECEIVE_EXPIRED, NIW_RECEIVE_DEFAULTED, NIW_RECEIVE_CURRENT };
enum { NIW_MUX_DETACHED, NIW_MUX_WAITING, NIW_MUX_ATTACHED, NIW_MUX_COLLECTING_DISTRIBUTING };

/* Whether a port distributes, and else the first reason why not. */
enum {
    NIW_PORT_STATUS_DISTRIBUTING = 0,             /* the mux machine is in COLLECTING_DISTRIBUTING */
    NIW_PORT_STATUS_LINK_DOWN = 1,                /* niw_is_up tells false */
    NIW_PORT_STATUS_NO_LACPDU = 2,                /* the receive machine is EXPIRED: none came in time, or since the link came up */
    NIW_PORT_STATUS_ON_DEFAULTS = 3,              /* so long that the port runs on defaults */
    NIW_PORT_STATUS_OWN_SYSTEM = 4,               /* the partner is this very system */
    NIW_PORT_STATUS_NO_AGGREGATOR = 5,            /* none has its key, or each that has it has ports of another group; for a port
                                                     whose link is individual: or each that has it has any port */
    NIW_PORT_STATUS_STANDBY = 6,                  /* niw_choice tells the aggregator, which has no room for one more link */
    NIW_PORT_STATUS_WAITING = 7,                  /* niw_wait_while tells for how many ticks */
    NIW_PORT_STATUS_WAITING_FOR_MEMBERS = 8,      /* the others of its aggregator are not ready */
    NIW_PORT_STATUS_PARTNER_NOT_SYNCHRONIZED = 9, /* the mux machine is in ATTACHED */
    NIW_PORT_STATUS_HELD = 10                     /* the program holds it by niw_hold; a port whose link is down is told as down */
};

/* Whether the peer of a port answers markers. */
enum {
    NIW_ANSWERS_NEVER_ASKED = 0, /* no marker went out on the port since its link was down */
    NIW_ANSWERS_ASKED = 1,       /* one went out, and no response to the last one came */
    NIW_ANSWERS_ANSWERED = 2     /* the response to a marker came */
};

/* What a conversation is doing. */
enum { NIW_CONVERSATION_FREE, NIW_CONVERSATION_ON, NIW_CONVERSATION_WANTED, NIW_CONVERSATION_FLUSHING };

struct niw_assignment {
    uint32_t status;
    uint32_t what;
    uint16_t port;      /* of NIW_CONVERSATION_ON, NIW_CONVERSATION_WANTED and NIW_CONVERSATION_FLUSHING */
    bool prefers;       /* whether there is a preferred port */
    uint16_t preferred; /* that port */
    uint32_t id;        /* of NIW_CONVERSATION_FLUSHING: the identifier of its marker */
    uint8_t age;        /* of NIW_CONVERSATION_FLUSHING: ticks since that marker, 0 to 29 */
};

struct niw_marker {
    uint32_t status;
    bool left;   /* whether an identifier is left */
    uint32_t id; /* the next one, or 0 */
};

struct niw_wait {
    uint32_t status;
    bool ever;      /* whether something ever happens by itself */
    uint16_t ticks; /* in how many ticks, 0 to 900; 0 where `ever` is false */
};

/* What there is to show of a port: no timer, and nothing that changes from tick to tick. */
struct niw_view {
    uint16_t port;
    uint16_t aggregator; /* as niw_choice tells it, or 0 */
    bool up;             /* whether the link is up */
    bool standby;
    bool defaulted;        /* as niw_defaulted tells it */
    uint8_t state;         /* the state octet of the own side */
    uint8_t receive_state; /* as niw_receive_state tells it */
    uint8_t mux_state;     /* as niw_mux_state tells it */
    uint8_t port_status;   /* as niw_port_status tells it */
    uint8_t partner_state; /* the state octet of the recorded partner */
    uint8_t partner_mac[6];
    uint16_t partner_priority;
    uint16_t partner_key;
    uint16_t partner_port_priority;
    uint16_t partner_port;
};

/* The subtypes of PDUs (6.4.2.3, 6.5.3.3), and the two kinds of Marker PDU, by their TLV type. */
enum { NIW_SUBTYPE_LACPDU = 1, NIW_SUBTYPE_MARKER = 2 };
enum { NIW_MARKER_INFORMATION = 1, NIW_MARKER_RESPONSE = 2 };

/* The values of one end of a link in an LACPDU. */
struct niw_participant {
    uint16_t system_priority;
    uint8_t system_mac[6];
    uint16_t key;
    uint16_t port_priority;
    uint16_t port;
    uint8_t state; /* the state octet: NIW_STATE_.. */
};

/* The numbers of a PDU. niw_decode writes 0 where a field is of the other subtype, and niw_encode doesn't look at it there. */
struct niw_pdu {
    uint8_t subtype;                /* NIW_SUBTYPE_.. */
    uint8_t tlv_type;               /* of a Marker PDU: NIW_MARKER_.. */
    uint16_t max_delay;             /* of an LACPDU: CollectorMaxDelay in tens of microseconds */
    struct niw_participant actor;   /* of an LACPDU: the end that sends it */
    struct niw_participant partner; /* of an LACPDU: the other end, as the sender has recorded it */
    uint16_t requester_port;        /* of a Marker PDU: the port that sent the marker, and so below */
    uint8_t requester_system[6];
    uint32_t transaction_id;
};

/* `at` and `found` are of NIW_BAD_PAYLOAD: the offset of the octet that is wrong, and what stands there; of NIW_FAULT_SHORT the
 * offset of the first octet that is missing, which is the length, and 0. */
struct niw_decoded {
    uint32_t status;
    uint32_t fault; /* of NIW_BAD_PAYLOAD: NIW_FAULT_.. */
    size_t at;
    uint8_t found;
};

/* What a conversation is for niw_next_move. */
struct niw_carried {
    uint16_t port; /* the port that it is on; 0 if it is on none */
    uint32_t load; /* in a unit of the program's: octets a second, frames, or 1 for each conversation */
};

struct niw_move {
    uint32_t status;
    bool is;               /* whether there is a move */
    uint16_t conversation; /* that is to move; 0 where `is` is false */
    uint16_t port;         /* to move to; 0 where `is` is false */
};

/* A frame of a queue. */
struct niw_queued {
    uint32_t status;
    bool is;               /* whether there is one */
    uint16_t conversation; /* of the frame; 0 where `is` is false */
    uint16_t port;         /* of niw_queue_next_released: to send the frame on; else 0 */
    uint64_t frame;        /* as niw_queue_put was given it; 0 where `is` is false */
};

struct niw_counts {
    uint32_t status;
    uint64_t waiting; /* the frames that wait now */
    uint64_t dropped; /* those that niw_queue_drop took out, up to UINT64_MAX */
    uint64_t refused; /* those that niw_queue_put refused, up to UINT64_MAX */
};

/* The states of a churn detection machine (6.4.17). NIW_CHURN_CHURN: the link is up, and for 60 s the end has not been synchronized. */
enum { NIW_CHURN_MONITOR, NIW_CHURN_NO_CHURN, NIW_CHURN_CHURN };

/* A churn detection machine; its counts stay at UINT64_MAX. */
struct niw_churn_machine {
    uint32_t state;            /* NIW_CHURN_..; another number is as NIW_CHURN_MONITOR */
    uint16_t waited;           /* for how many ticks its timer has run, 0 to 599 */
    uint64_t churns;           /* how often the state became NIW_CHURN_CHURN */
    uint64_t synchronizations; /* how often it became NIW_CHURN_NO_CHURN */
};

/* Churn detection of a port: the program's own value, zeros at first. */
struct niw_churn {
    struct niw_churn_machine actor;
    struct niw_churn_machine partner;
};

/* The frames of the slow protocols on a port, by kind (7.3.3): the program's own value, zeros at first. Each stays at UINT64_MAX. */
struct niw_counters {
    uint64_t lacpdus_received; /* of these three, those that were taken */
    uint64_t markers_received;
    uint64_t marker_responses_received;
    uint64_t unknown_received; /* of subtype 3 to 10; or to 01-80-C2-00-00-02, and of another EtherType */
    uint64_t illegal_received; /* a badly formed PDU, or subtype 0 or 11 to 255 */
    uint64_t lacpdus_sent;
    uint64_t markers_sent;
    uint64_t marker_responses_sent;
};

/* The library itself. No pointer given to these is null. */
struct niw_made lagffi_new(struct niw_system *handle, const struct niw_config *config, const uint16_t *keys,
    size_t key_count, const struct niw_port *ports, size_t port_count);
uint32_t lagffi_free(struct niw_system *handle);
struct niw_received lagffi_receive(struct niw_system *handle, uint16_t port, const uint8_t *frame, size_t length,
    uint8_t *response, size_t room);
uint32_t lagffi_tick(struct niw_system *handle);
uint32_t lagffi_ticks(struct niw_system *handle, uint32_t count);
uint32_t lagffi_set_link(struct niw_system *handle, uint16_t port, bool up);
struct niw_truth lagffi_configure(struct niw_system *handle, uint16_t port, const struct niw_change *change);
uint32_t lagffi_restart(struct niw_system *handle);
struct niw_sent lagffi_transmit(struct niw_system *handle, uint16_t port, uint8_t *frame, size_t room);
struct niw_number lagffi_offer(struct niw_system *handle, uint16_t agg, const uint8_t *frame, size_t length);
uint32_t lagffi_move_conversation(struct niw_system *handle, uint16_t agg, uint16_t conv, uint16_t port);
uint32_t lagffi_force(struct niw_system *handle, uint16_t agg, uint16_t conv);
struct niw_number lagffi_force_port(struct niw_system *handle, uint16_t port);
struct niw_number lagffi_offer_conversation(struct niw_system *handle, uint16_t agg, uint16_t conv);
uint32_t lagffi_leave_conversation(struct niw_system *handle, uint16_t agg, uint16_t conv);
uint32_t lagffi_rest(struct niw_system *handle, uint16_t agg, uint16_t conv);
uint32_t lagffi_adopt(struct niw_system *handle, uint16_t agg, uint16_t conv, uint16_t port);
struct niw_sent lagffi_probe(struct niw_system *handle, uint16_t port, uint8_t *frame, size_t room);
struct niw_number lagffi_offer_in_active_aggregator(struct niw_system *handle, uint16_t agg, const uint8_t *frame,
    size_t length);
struct niw_number lagffi_offer_conversation_in_active_aggregator(struct niw_system *handle, uint16_t agg,
    uint16_t conv);
struct niw_number lagffi_ports(struct niw_system *handle, uint16_t *numbers, size_t room);
struct niw_number lagffi_views(struct niw_system *handle, struct niw_view *views, size_t room);
struct niw_number lagffi_due(struct niw_system *handle);
struct niw_number lagffi_aggregators(struct niw_system *handle);
struct niw_number lagffi_load(struct niw_system *handle, uint16_t port);
struct niw_number lagffi_held(struct niw_system *handle, uint16_t port);
struct niw_number lagffi_answers(struct niw_system *handle, uint16_t port);
struct niw_truth lagffi_is_up(struct niw_system *handle, uint16_t port);
struct niw_number lagffi_state(struct niw_system *handle, uint16_t port);
struct niw_number lagffi_receive_state(struct niw_system *handle, uint16_t port);
struct niw_truth lagffi_is_due(struct niw_system *handle, uint16_t port);
struct niw_actor lagffi_party(struct niw_system *handle, uint16_t port);
struct niw_info lagffi_partner(struct niw_system *handle, uint16_t port);
struct niw_group_id lagffi_group(struct niw_system *handle, uint16_t port);
struct niw_truth lagffi_defaulted(struct niw_system *handle, uint16_t port);
struct niw_truth lagffi_distributes(struct niw_system *handle, uint16_t port);
struct niw_number lagffi_choice(struct niw_system *handle, uint16_t port);
struct niw_truth lagffi_is_standby(struct niw_system *handle, uint16_t port);
struct niw_number lagffi_mux_state(struct niw_system *handle, uint16_t port);
struct niw_number lagffi_port_status(struct niw_system *handle, uint16_t port);
struct niw_number lagffi_current_while(struct niw_system *handle, uint16_t port);
struct niw_number lagffi_wait_while(struct niw_system *handle, uint16_t port);
struct niw_truth lagffi_ntt(struct niw_system *handle, uint16_t port);
struct niw_number lagffi_distributing(struct niw_system *handle, uint16_t agg, uint16_t *numbers, size_t room);
struct niw_made lagffi_resume(struct niw_system *handle, const struct niw_config *config, const uint16_t *keys,
    size_t key_count, const struct niw_port *ports, size_t port_count, const struct niw_saved *saved, size_t saved_count);
uint32_t lagffi_hold(struct niw_system *handle, uint16_t port, bool hold);
uint32_t lagffi_set_mode(struct niw_system *handle, uint16_t port, bool active, bool short_timeout);
uint32_t lagffi_set_max_delay(struct niw_system *handle, uint16_t max_delay);
uint32_t lagffi_set_max_links(struct niw_system *handle, uint16_t max_links);
uint32_t lagffi_set_in_use(struct niw_system *handle, uint16_t agg, bool in_use);
struct niw_number lagffi_active_aggregator(struct niw_system *handle, uint16_t now);
struct niw_number lagffi_conversation(struct niw_system *handle, const uint8_t *frame, size_t length);
struct niw_assignment lagffi_conversation_state(struct niw_system *handle, uint16_t agg, uint16_t conv);
struct niw_number lagffi_conversation_ports(struct niw_system *handle, uint16_t agg, uint16_t *ports, size_t port_count,
    bool *changed, size_t changed_count);
struct niw_number lagffi_released(struct niw_system *handle, uint16_t agg, bool *busy, size_t busy_count, bool *freed,
    size_t freed_count);
struct niw_marker lagffi_next_marker(struct niw_system *handle);
struct niw_wait lagffi_ticks_until_due(struct niw_system *handle);
struct niw_decoded lagffi_decode(const uint8_t *payload, size_t length, struct niw_pdu *pdu);
uint32_t lagffi_encode(const struct niw_pdu *pdu, uint8_t *payload, size_t room);
struct niw_move lagffi_next_move(const uint16_t *ports, size_t port_count, const struct niw_carried *carried,
    size_t carried_count);
uint32_t lagffi_churn_tick(struct niw_churn *churn, bool up, uint8_t actor_state, uint8_t partner_state);
uint32_t lagffi_count_received(struct niw_counters *counters, const uint8_t *frame, size_t length, uint32_t what);
uint32_t lagffi_count_sent(struct niw_counters *counters, const uint8_t *frame, size_t length);
uint32_t lagffi_queue_new(struct niw_queue *handle, uint16_t conversations, size_t in_all, size_t each);
uint32_t lagffi_queue_free(struct niw_queue *handle);
uint32_t lagffi_queue_put(struct niw_queue *handle, uint16_t conv, uint64_t frame);
struct niw_queued lagffi_queue_next(struct niw_queue *handle, uint16_t conv);
struct niw_queued lagffi_queue_drop(struct niw_queue *handle, uint16_t conv);
struct niw_queued lagffi_queue_oldest(struct niw_queue *handle, uint16_t conv);
struct niw_queued lagffi_queue_next_released(struct niw_queue *handle, const uint16_t *ports, size_t port_count);
struct niw_number lagffi_queue_waiting(struct niw_queue *handle, uint16_t conv);
struct niw_counts lagffi_queue_counts(struct niw_queue *handle);

/* The functions to call: they refuse a null pointer, and else pass on. */

#ifdef __cplusplus
#define NIW_ZEROS {}
#else
#define NIW_ZEROS {0}
#endif

static inline uint32_t niw_null_status(void) {
    return NIW_NULL;
}

static inline struct niw_number niw_null_number(void) {
    struct niw_number refused = NIW_ZEROS;
    refused.status = NIW_NULL;
    return refused;
}

static inline struct niw_truth niw_null_truth(void) {
    struct niw_truth refused = NIW_ZEROS;
    refused.status = NIW_NULL;
    return refused;
}

/* Makes a system with all links down and puts it into an empty handle. The keys are those of aggregators 1, 2 and on; the
 * port numbers rise. */
static inline struct niw_made niw_new(struct niw_system *handle, const struct niw_config *config, const uint16_t *keys,
    size_t key_count, const struct niw_port *ports, size_t port_count) {
    struct niw_made refused = NIW_ZEROS;
    if (handle && config && keys && ports) return lagffi_new(handle, config, keys, key_count, ports, port_count);
    refused.status = NIW_NULL;
    return refused;
}

/* Frees the system of a handle, which is empty then. */
static inline uint32_t niw_free(struct niw_system *handle) {
    return handle ? lagffi_free(handle) : niw_null_status();
}

/* A frame comes on a port: of control frames hand over those to 01-80-C2-00-00-02 alone. `response` has NIW_FRAME octets or more, and
 * is written only for NIW_RECEIVED_RESPOND, at its front. */
static inline struct niw_received niw_receive(struct niw_system *handle, uint16_t port, const uint8_t *frame, size_t length,
    uint8_t *response, size_t room) {
    struct niw_received refused = NIW_ZEROS;
    if (handle && frame && response) return lagffi_receive(handle, port, frame, length, response, room);
    refused.status = NIW_NULL;
    return refused;
}

/* 100 ms have passed. */
static inline uint32_t niw_tick(struct niw_system *handle) {
    return handle ? lagffi_tick(handle) : niw_null_status();
}

/* `count` times 100 ms have passed: like `count` calls of niw_tick, and as long as they take. Nothing is sent between them: with more
 * ticks than niw_ticks_until_due tells, a frame that becomes due waits for the end of the call, so a program makes few up at once. */
static inline uint32_t niw_ticks(struct niw_system *handle, uint32_t count) {
    return handle ? lagffi_ticks(handle, count) : niw_null_status();
}

/* The link of a port is up or down now. */
static inline uint32_t niw_set_link(struct niw_system *handle, uint16_t port, bool up) {
    return handle ? lagffi_set_link(handle, port, up) : niw_null_status();
}

/* Gives a port this key, priority and Aggregation bit. Returns false, and changes nothing, if the port has them already. */
static inline struct niw_truth niw_configure(struct niw_system *handle, uint16_t port, const struct niw_change *change) {
    return (handle && change) ? lagffi_configure(handle, port, change) : niw_null_truth();
}

/* Starts the system again as niw_new left it, but niw_set_max_delay and niw_set_max_links stay: all links are down, no port is held, and what
 * niw_configure and niw_set_mode changed is lost. */
static inline uint32_t niw_restart(struct niw_system *handle) {
    return handle ? lagffi_restart(handle) : niw_null_status();
}

/* The frame that is due on a port, if `is` is true: it is written at the front of `frame` then, which has NIW_FRAME octets or more. To
 * be called until `is` is false. */
static inline struct niw_sent niw_transmit(struct niw_system *handle, uint16_t port, uint8_t *frame, size_t room) {
    struct niw_sent refused = NIW_ZEROS;
    if (handle && frame) return lagffi_transmit(handle, port, frame, room);
    refused.status = NIW_NULL;
    return refused;
}

/* The port to send a frame on, in an aggregator: that of its conversation, which picks one by the algorithm of the configuration. */
static inline struct niw_number niw_offer(struct niw_system *handle, uint16_t agg, const uint8_t *frame, size_t length) {
    return (handle && frame) ? lagffi_offer(handle, agg, frame, length) : niw_null_number();
}

/* Moves a conversation to a port, behind a marker on the port that it is on. */
static inline uint32_t niw_move_conversation(struct niw_system *handle, uint16_t agg, uint16_t conv, uint16_t port) {
    return handle ? lagffi_move_conversation(handle, agg, conv, port) : niw_null_status();
}

/* Frees a conversation at once. Its next frames may overtake those that are on their way. */
static inline uint32_t niw_force(struct niw_system *handle, uint16_t agg, uint16_t conv) {
    return handle ? lagffi_force(handle, agg, conv) : niw_null_status();
}

/* Frees each conversation that is held on a port, as niw_force does; returns how many. */
static inline struct niw_number niw_force_port(struct niw_system *handle, uint16_t port) {
    return handle ? lagffi_force_port(handle, port) : niw_null_number();
}

/* The port to send a frame of a conversation on, whatever its octets: what niw_offer does and returns for a frame of it. For a program
 * that has a hash of its own, which gives each flow one conversation for ever. */
static inline struct niw_number niw_offer_conversation(struct niw_system *handle, uint16_t agg, uint16_t conv) {
    return handle ? lagffi_offer_conversation(handle, agg, conv) : niw_null_number();
}

/* Takes a conversation off its port, behind a marker, without another port to go to: it prefers none. */
static inline uint32_t niw_leave_conversation(struct niw_system *handle, uint16_t agg, uint16_t conv) {
    return handle ? lagffi_leave_conversation(handle, agg, conv) : niw_null_status();
}

/* Frees a conversation that is on a port, on the word of the program that none of its frames is on its way: else they may arrive out of
 * order. */
static inline uint32_t niw_rest(struct niw_system *handle, uint16_t agg, uint16_t conv) {
    return handle ? lagffi_rest(handle, agg, conv) : niw_null_status();
}

/* Puts a conversation on the port on which the program's chip has it, whichever port the algorithm picks: after niw_resume, before
 * another frame of it is offered. No frame and no marker is sent. One that is on the port already stays. */
static inline uint32_t niw_adopt(struct niw_system *handle, uint16_t agg, uint16_t conv, uint16_t port) {
    return handle ? lagffi_adopt(handle, agg, conv, port) : niw_null_status();
}

/* A marker that asks whether the peer of a port answers markers, to be sent now, if `is` is true: it is written at the front of `frame`
 * then, which has NIW_FRAME octets or more. `is` is false while the link is down, and where no identifier is left. */
static inline struct niw_sent niw_probe(struct niw_system *handle, uint16_t port, uint8_t *frame, size_t room) {
    struct niw_sent refused = NIW_ZEROS;
    if (handle && frame) return lagffi_probe(handle, port, frame, room);
    refused.status = NIW_NULL;
    return refused;
}

/* Where ports distribute in several aggregators, each frame of the client is offered by one of the next two, in the aggregator that
 * niw_active_aggregator tells, and none by niw_offer or niw_offer_conversation. Then a conversation number is on a port or held in one aggregator
 * at most. */

/* The port to send a frame on, in the aggregator that carries. NIW_HELD, before every other refusal, while the conversation of the frame
 * is on a port or held in another aggregator; else what niw_offer does and returns. niw_leave_conversation takes it off its port there. */
static inline struct niw_number niw_offer_in_active_aggregator(struct niw_system *handle, uint16_t agg, const uint8_t *frame,
    size_t length) {
    return (handle && frame) ? lagffi_offer_in_active_aggregator(handle, agg, frame, length) : niw_null_number();
}

/* As niw_offer_in_active_aggregator, for a frame of a conversation, whatever its octets: NIW_HELD as there, else what niw_offer_conversation does. */
static inline struct niw_number niw_offer_conversation_in_active_aggregator(struct niw_system *handle, uint16_t agg,
    uint16_t conv) {
    return handle ? lagffi_offer_conversation_in_active_aggregator(handle, agg, conv) : niw_null_number();
}

/* How many ports there are. `numbers` has room for NIW_MOST_PORTS numbers or more, which `room` counts; those of the ports are written
 * at its front, ascending. */
static inline struct niw_number niw_ports(struct niw_system *handle, uint16_t *numbers, size_t room) {
    return (handle && numbers) ? lagffi_ports(handle, numbers, room) : niw_null_number();
}

/* What changed: writes what there is to show of each port into `views`, which has room for NIW_MOST_PORTS views or more, in the order
 * of port numbers, and returns a mask of those that differ from what stood there. Bit 0, of the value 1, tells of the first port. The
 * first time, `views` may hold zeros. */
static inline struct niw_number niw_views(struct niw_system *handle, struct niw_view *views, size_t room) {
    return (handle && views) ? lagffi_views(handle, views, room) : niw_null_number();
}

/* A mask of the ports on which niw_transmit would return a frame now. Bit 0, of the value 1, tells of the first port. */
static inline struct niw_number niw_due(struct niw_system *handle) {
    return handle ? lagffi_due(handle) : niw_null_number();
}

/* How many aggregators there are. They are numbered from 1. */
static inline struct niw_number niw_aggregators(struct niw_system *handle) {
    return handle ? lagffi_aggregators(handle) : niw_null_number();
}

/* Whether the link of a port is up. */
static inline struct niw_truth niw_is_up(struct niw_system *handle, uint16_t port) {
    return handle ? lagffi_is_up(handle, port) : niw_null_truth();
}

/* The state octet of a port's own side. */
static inline struct niw_number niw_state(struct niw_system *handle, uint16_t port) {
    return handle ? lagffi_state(handle, port) : niw_null_number();
}

/* The state of the receive machine of a port. */
static inline struct niw_number niw_receive_state(struct niw_system *handle, uint16_t port) {
    return handle ? lagffi_receive_state(handle, port) : niw_null_number();
}

/* Whether niw_transmit would return a frame now. */
static inline struct niw_truth niw_is_due(struct niw_system *handle, uint16_t port) {
    return handle ? lagffi_is_due(handle, port) : niw_null_truth();
}

/* The own parameters of a port. */
static inline struct niw_actor niw_party(struct niw_system *handle, uint16_t port) {
    struct niw_actor refused = NIW_ZEROS;
    if (handle) return lagffi_party(handle, port);
    refused.status = NIW_NULL;
    return refused;
}

/* The recorded partner of a port. */
static inline struct niw_info niw_partner(struct niw_system *handle, uint16_t port) {
    struct niw_info refused = NIW_ZEROS;
    if (handle) return lagffi_partner(handle, port);
    refused.status = NIW_NULL;
    return refused;
}

/* The Link Aggregation Group of a port. */
static inline struct niw_group_id niw_group(struct niw_system *handle, uint16_t port) {
    struct niw_group_id refused = NIW_ZEROS;
    if (handle) return lagffi_group(handle, port);
    refused.status = NIW_NULL;
    return refused;
}

/* Actor_State.Defaulted: whether recordDefault set the recorded partner, and no LACPDU since. */
static inline struct niw_truth niw_defaulted(struct niw_system *handle, uint16_t port) {
    return handle ? lagffi_defaulted(handle, port) : niw_null_truth();
}

/* Whether a port distributes. */
static inline struct niw_truth niw_distributes(struct niw_system *handle, uint16_t port) {
    return handle ? lagffi_distributes(handle, port) : niw_null_truth();
}

/* The aggregator that a port is given, or 0. The port is SELECTED or STANDBY with it. */
static inline struct niw_number niw_choice(struct niw_system *handle, uint16_t port) {
    return handle ? lagffi_choice(handle, port) : niw_null_number();
}

/* Whether a port is STANDBY: its aggregator had no room for one more link. */
static inline struct niw_truth niw_is_standby(struct niw_system *handle, uint16_t port) {
    return handle ? lagffi_is_standby(handle, port) : niw_null_truth();
}

/* The state of the mux machine of a port. */
static inline struct niw_number niw_mux_state(struct niw_system *handle, uint16_t port) {
    return handle ? lagffi_mux_state(handle, port) : niw_null_number();
}

/* Whether a port distributes, and else the first reason why not: NIW_PORT_STATUS_.. */
static inline struct niw_number niw_port_status(struct niw_system *handle, uint16_t port) {
    return handle ? lagffi_port_status(handle, port) : niw_null_number();
}

/* How many ticks current_while of a port has left, 0 to 900. */
static inline struct niw_number niw_current_while(struct niw_system *handle, uint16_t port) {
    return handle ? lagffi_current_while(handle, port) : niw_null_number();
}

/* How many ticks wait_while of a port has left, 0 to 20. */
static inline struct niw_number niw_wait_while(struct niw_system *handle, uint16_t port) {
    return handle ? lagffi_wait_while(handle, port) : niw_null_number();
}

/* Whether an LACPDU is to be sent on a port. It is not due yet where three went in the last eleven ticks; niw_is_due tells of markers
 * too. */
static inline struct niw_truth niw_ntt(struct niw_system *handle, uint16_t port) {
    return handle ? lagffi_ntt(handle, port) : niw_null_truth();
}

/* How many conversations are on a port, those that are held among them. */
static inline struct niw_number niw_load(struct niw_system *handle, uint16_t port) {
    return handle ? lagffi_load(handle, port) : niw_null_number();
}

/* How many conversations are held on a port, wanted or flushing there; niw_load counts those that are on it, too. It says nothing
 * of niw_hold, which keeps a port out. */
static inline struct niw_number niw_held(struct niw_system *handle, uint16_t port) {
    return handle ? lagffi_held(handle, port) : niw_null_number();
}

/* Whether the peer of a port answers markers: NIW_ANSWERS_.. A marker that niw_transmit or niw_probe wrote asks it. A response that
 * niw_receive takes on the port answers, if it has the port, system and identifier of the last such marker. When the link goes down, and
 * after niw_restart, it is as never asked. */
static inline struct niw_number niw_answers(struct niw_system *handle, uint16_t port) {
    return handle ? lagffi_answers(handle, port) : niw_null_number();
}

/* How many ports distribute in an aggregator; 0 if there is none. `numbers` has room for NIW_MOST_PORTS numbers or more;
 * those of the ports are written at its front, ascending. */
static inline struct niw_number niw_distributing(struct niw_system *handle, uint16_t agg, uint16_t *numbers, size_t room) {
    return (handle && numbers) ? lagffi_distributing(handle, agg, numbers, room) : niw_null_number();
}

/* A warm start: puts a system into an empty handle whose saved ports distribute in their aggregators, as their peers know them, and have
 * what is left of their timeouts. `saved` has the aggregator and the last LACPDU of each port that distributed in the system before it.
 * `first_marker` is niw_next_marker of that one, or higher. The ports send nothing between the two systems; every conversation is free.
 * `place` of the answer has the port that is refused. */
static inline struct niw_made niw_resume(struct niw_system *handle, const struct niw_config *config, const uint16_t *keys,
    size_t key_count, const struct niw_port *ports, size_t port_count, const struct niw_saved *saved, size_t saved_count) {
    struct niw_made refused = NIW_ZEROS;
    if (handle && config && keys && ports && saved) return lagffi_resume(handle, config, keys, key_count, ports, port_count, saved, saved_count);
    refused.status = NIW_NULL;
    return refused;
}

/* Holds a port, or lets it go. A held port leaves its aggregator, and chooses none until it is let go: its conversations leave it behind a
 * marker, and its peer takes it out of use, too. It goes on sending and processing LACPDUs, and answers markers. */
static inline uint32_t niw_hold(struct niw_system *handle, uint16_t port, bool hold) {
    return handle ? lagffi_hold(handle, port, hold) : niw_null_status();
}

/* Gives a port LACP_Activity, false for a passive one, and LACP_Timeout, true for the short one. niw_restart goes back to those of niw_new. */
static inline uint32_t niw_set_mode(struct niw_system *handle, uint16_t port, bool active, bool short_timeout) {
    return handle ? lagffi_set_mode(handle, port, active, short_timeout) : niw_null_status();
}

/* Sets CollectorMaxDelay, in tens of microseconds, of the LACPDUs from now on. */
static inline uint32_t niw_set_max_delay(struct niw_system *handle, uint16_t max_delay) {
    return handle ? lagffi_set_max_delay(handle, max_delay) : niw_null_status();
}

/* Sets how many links an aggregator may have, 1 to 64; 0 for no limit. Ports that stand by come up where there is room now. */
static inline uint32_t niw_set_max_links(struct niw_system *handle, uint16_t max_links) {
    return handle ? lagffi_set_max_links(handle, max_links) : niw_null_status();
}

/* Puts an aggregator in use, or out of use; each is in use at first. Ports of one that is not in use stand by: they wait, carry nothing, and
 * tell their peers so. Once it is in use again, a port that has waited 2 s attaches at once. A program that uses one aggregator at a time
 * puts the old one out of use and then the new one in use: nothing is sent between two calls. niw_restart keeps what was set. */
static inline uint32_t niw_set_in_use(struct niw_system *handle, uint16_t agg, bool in_use) {
    return handle ? lagffi_set_in_use(handle, agg, in_use) : niw_null_status();
}

/* The aggregator that carries the frames of the client, or 0 if no port distributes. `now` is the one that carried them before, or 0 for
 * none. An aggregator with a partner is before one that runs on defaults, and of those the one with the most ports. `now` stays unless
 * another has strictly more; of several others it is the one with the least LAG ID, then the lowest number. To be asked after each call
 * that may change which ports distribute; its answer is `now` the next time. */
static inline struct niw_number niw_active_aggregator(struct niw_system *handle, uint16_t now) {
    return handle ? lagffi_active_aggregator(handle, now) : niw_null_number();
}

/* The number of the conversation of a frame, the same in every aggregator. */
static inline struct niw_number niw_conversation(struct niw_system *handle, const uint8_t *frame, size_t length) {
    return (handle && frame) ? lagffi_conversation(handle, frame, length) : niw_null_number();
}

/* What a conversation of an aggregator is doing. */
static inline struct niw_assignment niw_conversation_state(struct niw_system *handle, uint16_t agg, uint16_t conv) {
    struct niw_assignment refused = NIW_ZEROS;
    if (handle) return lagffi_conversation_state(handle, agg, conv);
    refused.status = NIW_NULL;
    return refused;
}

/* What changed of the conversations of an aggregator: writes into `ports`, for each of them by its number, the port that it is on, or 0
 * if it is free or held; and into `changed` whether `ports` had another number there. Both have a place or more for each conversation.
 * Answers how many changed. The first time, `ports` may hold zeros. */
static inline struct niw_number niw_conversation_ports(struct niw_system *handle, uint16_t agg, uint16_t *ports, size_t port_count,
    bool *changed, size_t changed_count) {
    if (handle && ports && changed) return lagffi_conversation_ports(handle, agg, ports, port_count, changed, changed_count);
    return niw_null_number();
}

/* What was released: writes into `busy`, for each conversation of an aggregator by its number, whether it is on a port or held now, and
 * into `freed` whether `busy` told so before and it is free now. `busy` is the program's own list, at first all false: the program sets
 * a place of it when an offer answers a port. Both have a place or more for each conversation. Answers how many became free. */
static inline struct niw_number niw_released(struct niw_system *handle, uint16_t agg, bool *busy, size_t busy_count, bool *freed,
    size_t freed_count) {
    if (handle && busy && freed) return lagffi_released(handle, agg, busy, busy_count, freed, freed_count);
    return niw_null_number();
}

/* The identifier of the next marker. */
static inline struct niw_marker niw_next_marker(struct niw_system *handle) {
    struct niw_marker refused = NIW_ZEROS;
    if (handle) return lagffi_next_marker(handle);
    refused.status = NIW_NULL;
    return refused;
}

/* In how many ticks something happens by itself: 0 if a frame is due on some port. Until then a tick only counts: a program may
 * sleep, and make the ticks up by niw_ticks before it hands over a frame or makes another call. `ever` is false if nothing happens
 * without another call. */
static inline struct niw_wait niw_ticks_until_due(struct niw_system *handle) {
    struct niw_wait refused = NIW_ZEROS;
    if (handle) return lagffi_ticks_until_due(handle);
    refused.status = NIW_NULL;
    return refused;
}

/* Payloads, for which no handle is wanted. */

/* Reads the payload of a control frame, what follows its EtherType 0x8809, and writes its numbers into `pdu`. Octets after the first
 * NIW_PAYLOAD_LENGTH are not looked at. A payload that is refused leaves `pdu` as it was. */
static inline struct niw_decoded niw_decode(const uint8_t *payload, size_t length, struct niw_pdu *pdu) {
    struct niw_decoded refused = NIW_ZEROS;
    if (payload && pdu) return lagffi_decode(payload, length, pdu);
    refused.status = NIW_NULL;
    return refused;
}

/* Writes the payload of a PDU at the front of `payload`, which has NIW_PAYLOAD_LENGTH octets or more: version 1, and 0 in each
 * reserved octet. */
static inline uint32_t niw_encode(const struct niw_pdu *pdu, uint8_t *payload, size_t room) {
    return (pdu && payload) ? lagffi_encode(pdu, payload, room) : niw_null_status();
}

/* The spread of the load over the ports, for which no handle is wanted. */

/* The next move that makes the loads of these ports more alike: from a port with the most load to one with the least, of a conversation
 * whose load is less than the difference. Each conversation stands at its number in `carried`, which has NIW_MOST_CONVERSATIONS or
 * fewer: a longer list is refused with NIW_NOT_ASSIGNED. `is` is false if there is no such move. */
static inline struct niw_move niw_next_move(const uint16_t *ports, size_t port_count, const struct niw_carried *carried,
    size_t carried_count) {
    struct niw_move refused = NIW_ZEROS;
    if (ports && carried) return lagffi_next_move(ports, port_count, carried, carried_count);
    refused.status = NIW_NULL;
    return refused;
}

/* Churn detection and the counters of a port, for which no handle is wanted. */

/* A tick of 100 ms for churn detection of a port (6.4.17), after niw_tick. `up`: whether its link is up. `actor_state` is its state
 * octet, `partner_state` that of its recorded partner, as in niw_view. `churn` is the program's own: zeros at first and after
 * niw_restart. At the 600th tick in a row that finds the link up and the Synchronization bit of an end 0, the state of this end becomes
 * NIW_CHURN_CHURN. */
static inline uint32_t niw_churn_tick(struct niw_churn *churn, bool up, uint8_t actor_state, uint8_t partner_state) {
    return churn ? lagffi_churn_tick(churn, up, actor_state, partner_state) : niw_null_status();
}

/* Counts a frame that came on a port (7.3.3) by `what` niw_receive answered, NIW_RECEIVED_..; its first 15 octets will do. `counters`
 * is the program's own: zeros at first. Adds one to one count, or to none: none for data, and for a link that is down. */
static inline uint32_t niw_count_received(struct niw_counters *counters, const uint8_t *frame, size_t length, uint32_t what) {
    return (counters && frame) ? lagffi_count_received(counters, frame, length, what) : niw_null_status();
}

/* Counts a frame that was sent on a port (7.3.3): one of niw_transmit or niw_probe, or a response of niw_receive. Any other adds nothing. */
static inline uint32_t niw_count_sent(struct niw_counters *counters, const uint8_t *frame, size_t length) {
    return (counters && frame) ? lagffi_count_sent(counters, frame, length) : niw_null_status();
}

/* Queues of frames that wait, as while their conversation is held. The program keeps the frames: a queue has the number that the program
 * gives each. */

static inline struct niw_queued niw_null_queued(void) {
    struct niw_queued refused = NIW_ZEROS;
    refused.status = NIW_NULL;
    return refused;
}

/* Makes empty queues and puts them into an empty handle: one for each conversation, numbered from 0. At most `in_all`
 * frames wait in all, and at most `each` in each. All memory is taken here: 2,048 octets at most, and for each conversation 32, and 8
 * for each frame that may wait in it, which is the lesser of `in_all` and `each`. By NIW_POOL it is 1,200 and 48 in their place. */
static inline uint32_t niw_queue_new(struct niw_queue *handle, uint16_t conversations, size_t in_all, size_t each) {
    return handle ? lagffi_queue_new(handle, conversations, in_all, each) : niw_null_status();
}

/* Frees the queues of a handle, which is empty then. It does not tell which frames still waited. */
static inline uint32_t niw_queue_free(struct niw_queue *handle) {
    return handle ? lagffi_queue_free(handle) : niw_null_status();
}

/* Puts a frame behind those that wait in its conversation. One that is refused is counted, and not put: by NIW_NOT_ASSIGNED where there
 * is no such conversation, NIW_CONVERSATION_FULL or NIW_ALL_FULL. */
static inline uint32_t niw_queue_put(struct niw_queue *handle, uint16_t conv, uint64_t frame) {
    return handle ? lagffi_queue_put(handle, conv, frame) : niw_null_status();
}

/* Takes the oldest frame of a conversation out, to be sent. `is` is false if none waits. */
static inline struct niw_queued niw_queue_next(struct niw_queue *handle, uint16_t conv) {
    return handle ? lagffi_queue_next(handle, conv) : niw_null_queued();
}

/* Takes the oldest frame of a conversation out, not to be sent, and counts it. `is` is false if none waits. */
static inline struct niw_queued niw_queue_drop(struct niw_queue *handle, uint16_t conv) {
    return handle ? lagffi_queue_drop(handle, conv) : niw_null_queued();
}

/* The oldest frame of a conversation, the one that niw_queue_next would take out. It stays. `is` is false if none waits. */
static inline struct niw_queued niw_queue_oldest(struct niw_queue *handle, uint16_t conv) {
    return handle ? lagffi_queue_oldest(handle, conv) : niw_null_queued();
}

/* Takes out the oldest frame of the first conversation that is on a port and has one waiting, and tells the port. `ports` has for each
 * conversation, by its number, the port that it is on, or 0, as niw_conversation_ports writes it. A list of more than
 * NIW_MOST_CONVERSATIONS is refused with NIW_NOT_ASSIGNED. */
static inline struct niw_queued niw_queue_next_released(struct niw_queue *handle, const uint16_t *ports, size_t port_count) {
    return (handle && ports) ? lagffi_queue_next_released(handle, ports, port_count) : niw_null_queued();
}

/* How many frames of a conversation wait; 0 if there is no such conversation. */
static inline struct niw_number niw_queue_waiting(struct niw_queue *handle, uint16_t conv) {
    return handle ? lagffi_queue_waiting(handle, conv) : niw_null_number();
}

/* How many frames wait, were dropped and were refused. */
static inline struct niw_counts niw_queue_counts(struct niw_queue *handle) {
    struct niw_counts refused = NIW_ZEROS;
    if (handle) return lagffi_queue_counts(handle);
    refused.status = NIW_NULL;
    return refused;
}

/* Texts. */

/* What a status means. */
static inline const char *niw_status_text(uint32_t status) {
    static const char *const texts[] = {
        "done",
        "the system has no port of this number",
        "the system has no such aggregator",
        "an offered frame has not 14 to 1518 octets",
        "an offered frame is one of the slow protocols",
        "the conversation is Wanted or Flushing",
        "the conversation is free, and no port distributes in the aggregator",
        "the port to move to does not distribute in the aggregator",
        "the port to move to is the one that the conversation is on",
        "the conversation is free, or there is no such conversation",
        "no marker identifier is left",
        "the configuration is refused",
        "out of memory",
        "the handle holds no system",
        "the handle holds a system already",
        "a buffer has less room than the function asks",
        "a pointer is null",
        "the payload is refused",
        "it is neither an LACPDU nor a Marker PDU",
        "the handle holds no queues",
        "the handle holds queues already",
        "as many frames of the conversation wait as may",
        "as many frames wait as may in all",
        "the LACPDU that was saved of a port is as old as its timeout",
        "an aggregator has more links than this limit",
        "more than 65535 ticks in one call"};
    return status < sizeof texts / sizeof *texts ? texts[status] : "unknown";
}

/* What a reason to refuse a configuration means. */
static inline const char *niw_reason_text(uint32_t reason) {
    static const char *const texts[] = {
        "unknown",
        "the configuration has not 1 to 64 ports",
        "the configuration has not 1 to 64 aggregators",
        "a port has the number 0 or one that is not above the number before it",
        "the limit of links of an aggregator is above 64",
        "the configuration has not 1, 256 or 4096 conversations",
        "the distribution algorithm is not 0 to 2"};
    return texts[reason < sizeof texts / sizeof *texts ? reason : 0];
}

/* Whether a port distributes, and else why not. */
static inline const char *niw_port_status_text(uint64_t port_status) {
    static const char *const texts[] = {
        "it distributes",
        "the link is down",
        "no LACPDU came in time",
        "it runs on defaults",
        "the partner is this very system",
        "no aggregator has its key, or each that has it has ports of another group",
        "its aggregator has no room for one more link",
        "it waits for wait_while",
        "it waits for other ports of its aggregator",
        "the partner is not synchronized",
        "the host holds it"};
    return port_status < sizeof texts / sizeof *texts ? texts[port_status] : "unknown";
}

/* The name of a state of the receive machine. */
static inline const char *niw_receive_state_text(uint64_t receive_state) {
    static const char *const texts[] = {"INITIALIZE", "PORT_DISABLED", "EXPIRED", "DEFAULTED", "CURRENT"};
    return receive_state <= NIW_RECEIVE_CURRENT ? texts[receive_state] : "unknown";
}

/* The name of a state of the mux machine. */
static inline const char *niw_mux_state_text(uint64_t mux_state) {
    static const char *const texts[] = {"DETACHED", "WAITING", "ATTACHED", "COLLECTING_DISTRIBUTING"};
    return mux_state <= NIW_MUX_COLLECTING_DISTRIBUTING ? texts[mux_state] : "unknown";
}

/* The name of a state of a churn detection machine. */
static inline const char *niw_churn_state_text(uint64_t churn_state) {
    static const char *const texts[] = {"CHURN_MONITOR", "NO_CHURN", "CHURN"};
    return churn_state <= NIW_CHURN_CHURN ? texts[churn_state] : "unknown";
}

/* The name of a bit of a state octet, from 0 for the least significant on. */
static inline const char *niw_state_name(unsigned bit) {
    static const char *const names[] = {"ACTIVITY", "TIMEOUT", "AGGREGATION", "SYNCHRONIZATION", "COLLECTING", "DISTRIBUTING",
        "DEFAULTED", "EXPIRED"};
    return bit < 8 ? names[bit] : "unknown";
}

/* The room that niw_state_text needs at most. */
#define NIW_STATE_TEXT_ROOM 87

/* Writes the names of the bits of a state octet that are 1, with a blank between them and a 0 octet at the end, where `text` has
 * room for them. Answers how many octets they need. */
static inline size_t niw_state_text(uint8_t state, char *text, size_t room) {
    size_t length = 0, needed = 0;
    for (unsigned bit = 0; bit < 8; bit++) {
        if (!(state >> bit & 1)) continue;
        for (const char *name = niw_state_name(bit); *name; name++) needed++;
        needed++;
    }
    if (needed == 0) needed = 1;
    if (!text || room < needed) return needed;
    for (unsigned bit = 0; bit < 8; bit++) {
        if (!(state >> bit & 1)) continue;
        if (length > 0) text[length++] = ' ';
        for (const char *name = niw_state_name(bit); *name; name++) text[length++] = *name;
    }
    text[length] = 0;
    return needed;
}

#ifdef __cplusplus
}
#endif

#endif
