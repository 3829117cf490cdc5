/* What an administrator gives for a bundle and its ports, by the command line or by a file. */
#ifndef LAGD_SETTINGS_H
#define LAGD_SETTINGS_H

#include <stdbool.h>
#include <stddef.h>
#include <stdint.h>

#include "lag.h"
#include "shared.h"

#define NAME_ROOM 128  /* of a name of an interface, of its alternative names too: ALTIFNAMSIZ of linux/if.h */
#define DEVICE_ROOM 16 /* of the name of a device that is made, with a zero: IFNAMSIZ of linux/if.h */
#define PATH_ROOM 176  /* of the path of a hook or a folder: with its key it fits into a line of a file */
#define MOST_BUNDLE_KEYS 28

struct system_id {
    uint16_t priority;
    uint8_t mac[6];
};

enum partner_policy { /* whose LACPDUs are taken */
    PARTNER_ANY,
    PARTNER_FIRST, /* those of the system that speaks first, until the link goes down */
    PARTNER_GIVEN, /* those of one given system */
};

enum { AS_BUNDLE = -1 }; /* a port has no value of its own */

struct port_settings {
    char name[NAME_ROOM];      /* of the interface */
    int key, priority;         /* 0 to 65535, or AS_BUNDLE */
    int active, short_timeout, individual, hold; /* 0 or 1, or AS_BUNDLE */
};

enum plane_kind { /* what carries the data */
    PLANE_TAP,  /* a TAP device, and the daemon or programs of the kernel */
    PLANE_TEAM, /* the team driver of the kernel */
};

enum selection { /* which aggregator carries, of several that have ports which may */
    SELECT_COUNT,     /* that of most ports, as the library has it */
    SELECT_BANDWIDTH, /* the fastest one */
    SELECT_PRIORITY,  /* that of the port with the lowest identifier, at the end with the lower system */
    SELECT_PRIORITY_STABLE, /* the same, but one that carries stays */
};

struct settings {
    char name[NAME_ROOM]; /* of the bundle */
    unsigned lines[MOST_BUNDLE_KEYS]; /* those that give the keys, from 1; 0: none does */
    bool system_auto;                 /* whether the MAC address of the system is that of the first interface */
    struct niw_config config;
    uint16_t key, port_priority;
    bool active, short_timeout;
    enum partner_policy policy;
    struct system_id partner; /* of PARTNER_GIVEN */
    bool partner_required;    /* whether a port without a partner does not carry */
    bool key_by_speed;        /* whether links of another speed or duplex have another key */
    uint16_t min_links;       /* a bundle of fewer is down */
    enum selection select;
    uint16_t marker_responses;
    char hook[PATH_ROOM]; /* the program that is run where the bundle changes, or empty */
    char state_dir[PATH_ROOM]; /* a folder of a state that outlives a reboot, or empty */
    char carry[DEVICE_ROOM]; /* the device whose data is carried, or empty */
    enum plane_kind plane;        /* what that is */
    unsigned follow;         /* 1: its ports are those that the device has, whoever put them there; 0: those that are given */
    enum hash hash;          /* of that data */
    uint16_t hash_seed;      /* by which bundles with the same hash differ; not of layer2 */
    uint16_t flight;         /* how long a frame of it can be on its way, in milliseconds */
    bool offload;            /* whether frames of several segments are passed */
    bool fast;               /* whether the kernel passes data on by itself, of several segments too */
    unsigned all_queues;     /* 1: members keep all their queues; 0: one */
    uint16_t answer_after;   /* how long a response to a marker waits then, in milliseconds */
    bool revert;              /* whether a port that stands by takes the place of one with a higher identifier */
    uint16_t wait_to_restore; /* for how many seconds the carrier of a link that comes back has to be steady */
    uint16_t delay_down;      /* for how many milliseconds it may be away while the link stays up */
    uint16_t port_count;
    struct port_settings ports[NIW_MOST_PORTS];
};

static inline struct system_id own_system(const struct settings *settings) {
    const uint8_t *mac = settings->config.mac;
    return (struct system_id){settings->config.priority, {mac[0], mac[1], mac[2], mac[3], mac[4], mac[5]}};
}

enum kind { /* what a key has for a value */
    A_NUMBER, /* a uint16_t from `least` to `most` */
    A_SWITCH, /* a bool: whether it is the first one of two words */
    A_WORD,   /* an enum: the place of the word */
    A_TEXT,   /* char[] that `is_right` takes */
    A_SYSTEM, /* that of the bundle */
    A_PARTNER,
};

enum change { /* how a reload takes a new value */
    NOT_COPIED, /* reload.c applies it to each port, or it takes a restart */
    AT_ONCE,
    WITH_DATA, /* at once if data is carried in the same way, */
    WAY_OF_DATA, /* which these tell: they take a restart */
};

/* A key of a bundle or of a port: the file has its name, and so has the long option of a bundle. */
struct key {
    const char *name;
    char letter; /* of its option; 0: it is none */
    enum kind kind;
    size_t at, size;             /* of its value in struct settings, or in struct port_settings, where it is an int */
    uint16_t least, most, usual; /* `usual`: the number, or the bool, if nothing is given */
    const char *const *words;    /* up to NULL */
    bool (*is_right)(const char *text);
    const char *expected;        /* of its value, if that has no words */
    const char *restart;         /* what a line calls its change, for which a restart is needed, or NULL */
    enum change change;
    const char *value, *help;    /* in the help: the word for its value, if that has no words; and its lines */
};

/* The keys of a bundle, in the order of the help, up to one without a name. */
extern const struct key BUNDLE_KEYS[], PORT_KEYS[];
/* The words of a hash, and of a selection. */
extern const char *const HASHES[], *const SELECTIONS[];

/* What is wrong with all of it: what was expected, and the key that says otherwise; NULL where nothing is, or no key does. */
struct lack {
    const char *expected, *key;
};

/* Room for a short text, for the block in which this stands. */
#define TEXT_ROOM (char[32]){0}

struct words { /* in a row */
    char text[512];
};

struct settings usual_settings(void);
const char *partner_text(const struct settings *settings, char room[static 32]);
void add_word(struct words *words, const char *joint, const char *word);
const char *list_choice(struct words *words, const struct key *key, const char *joint, const char *last_joint);
const char *set_bundle(struct words *words, struct settings *settings, const char *name, const char *text, unsigned line);
unsigned line_of_key(const struct settings *settings, const char *name);
const char *set_port(struct words *words, struct port_settings *port, const char *name, const char *text);
bool is_same_value(const struct key *key, const struct settings *one, const struct settings *other);
void copy_setting(const struct key *key, const struct settings *from, struct settings *to);
const char *value_to_give(const struct key *key, const struct settings *settings, char room[static 32]);
const char *value_of_own(const struct key *key, const struct port_settings *port, char room[static 32]);
struct port_settings unset_port(void);
const char *add_port(struct settings *settings, const char *name, size_t length);
struct lack lack_of(const struct settings *settings);
struct niw_port port_of(const struct settings *settings, uint16_t port);
bool wants_hold(const struct settings *settings, uint16_t port);

/* file.c */
struct printer;
bool check_whole_bundle(struct printer *printer, const char *path, const struct settings *settings);
bool read_bundle_file(struct printer *printer, struct words *words, const char *path, struct settings *wanted);

#endif
