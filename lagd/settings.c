/* The keys of a bundle and of a port, and their values. The command line and the file have the same ones. */
#include "lagd.h"
#include "settings.h"

#include <ctype.h>

#define EACH_KEY_ONCE "each key once"
#define A_MAC_SYSTEM "PRIORITY,MAC, as 32768,02:00:00:00:00:01, whose MAC address is neither zero nor one of a group"
/* The priority of a system by `auto`, and of a port if nothing else is given: the one in the middle. */
#define USUAL_PRIORITY 32768

/* The number that `length` digits stand for, if it is one of these; else -1. */
static int read_number(const char *text, size_t length, int least, int most) {
    bool right = length > 0 && length < 6 && strspn(text, "0123456789") == length;
    int found = right ? (int)strtol(text, NULL, 10) : -1;
    return found >= least && found <= most ? found : -1;
}

/* Twelve hexadecimal digits: in pairs joined by colons or by hyphens, in fours joined by points, or alone. */
static bool read_mac(const char *text, uint8_t *mac) {
    static const uint8_t none[6];
    size_t size = strlen(text), group = size == 17 ? 2 : size == 14 ? 4 : 12, found = 0;
    char digits[12], joint;
    if (size != 17 && size != 14 && size != 12) return false;
    joint = size == 14 ? '.' : text[2] == '-' ? '-' : ':';
    for (size_t i = 0; i < size; i++) {
        if (i % (group + 1) == group ? text[i] != joint : !isxdigit((unsigned char)text[i])) return false;
        if (i % (group + 1) != group) digits[found++] = text[i];
    }
    for (size_t i = 0; i < 6; i++) mac[i] = (uint8_t)strtoul((char[]){digits[2 * i], digits[2 * i + 1], 0}, NULL, 16);
    return !(mac[0] & 1) && memcmp(mac, none, sizeof none) != 0;
}

static bool read_system(const char *text, struct system_id *into) {
    size_t digits = strcspn(text, ",");
    int priority = read_number(text, digits, 0, UINT16_MAX);
    into->priority = (uint16_t)priority;
    return priority >= 0 && text[digits] && read_mac(text + digits + 1, into->mac);
}

/* PRIORITY,MAC; or auto, where the address comes later. */
static bool read_system_or_auto(const char *text, struct settings *settings) {
    struct system_id own = {.priority = USUAL_PRIORITY};
    settings->system_auto = strcmp(text, "auto") == 0;
    if (!settings->system_auto && !read_system(text, &own)) return false;
    settings->config.priority = own.priority;
    memcpy(settings->config.mac, own.mac, sizeof own.mac);
    return true;
}

static bool read_partner(const char *text, struct settings *settings) {
    bool any = strcmp(text, "any") == 0, named = !any && strcmp(text, "first") != 0;
    settings->policy = named ? PARTNER_GIVEN : any ? PARTNER_ANY : PARTNER_FIRST;
    return !named || read_system(text, &settings->partner);
}

static bool is_path(const char *text) {
    return text[0] == '/' && strlen(text) < PATH_ROOM;
}

static bool is_program_in_file_system(const char *text) {
    struct stat found;
    return is_path(text) && stat(text, &found) == 0 && S_ISREG(found.st_mode) && access(text, X_OK) == 0;
}

/* Whether the kernel would take a name of an interface. */
static bool is_interface_name(const char *text, size_t length) {
    bool right = length > 0 && length < NAME_ROOM && !(length == 1 && text[0] == '.') && !(length == 2 && memcmp(text, "..", 2) == 0);
    for (size_t i = 0; i < length; i++) right = right && text[i] && text[i] != '/' && text[i] != ':' && !isspace((unsigned char)text[i]);
    return right;
}

static bool is_name_of_device(const char *text) {
    return strlen(text) < DEVICE_ROOM && !strchr(text, '%') && is_interface_name(text, strlen(text));
}

const char *const HASHES[] = {[HASH_LAYER2] = "layer2", [HASH_LAYER2_3] = "layer2+3", [HASH_LAYER3_4] = "layer3+4",
    [HASH_ENCAP3_4] = "encap3+4", [HASH_VLAN_SRCMAC] = "vlan+srcmac", NULL};
const char *const SELECTIONS[] = {[SELECT_COUNT] = "count", [SELECT_BANDWIDTH] = "bandwidth", [SELECT_PRIORITY] = "priority",
    [SELECT_PRIORITY_STABLE] = "priority-stable", NULL};

/* Parts of a row: the place of a value in a struct, and what else its kind wants. */
#define IN(type, field) .at = offsetof(struct type, field), .size = sizeof ((struct type *)NULL)->field
#define FROM(from, to, of) .least = from, .most = to, .expected = "a number " of "from " #from " to " #to
#define NUMBER(field, from, to) A_NUMBER, IN(settings, field), FROM(from, to, ""), .value = "N"
#define SECONDS(field, from, to) A_NUMBER, IN(settings, field), FROM(from, to, "of seconds "), .value = "SECONDS"
#define MILLISECONDS(field, from, to) A_NUMBER, IN(settings, field), FROM(from, to, "of milliseconds "), .value = "MILLISECONDS"
#define ONE_OF(...) .words = (const char *const[]){__VA_ARGS__, NULL}
#define SWITCH(field, on, off) A_SWITCH, IN(settings, field), ONE_OF(on, off)
#define WORD(field, ...) A_WORD, IN(settings, field), __VA_ARGS__
#define TEXT(field, of, check) A_TEXT, IN(settings, field), .expected = of, .is_right = check
const struct key BUNDLE_KEYS[] = {
    {"key", 0, NUMBER(key, 0, 65535)},
    {"system", 0, A_SYSTEM, .expected = "auto or " A_MAC_SYSTEM, .restart = "another system"},
    {"port-priority", 'p', NUMBER(port_priority, 0, 65535), .usual = USUAL_PRIORITY, .help = "0 to 65535 (32768)"},
    {"timeout", 't', SWITCH(short_timeout, "short", "long"), .usual = true, .help = "how often peers are to send: each second (short), or each 30"},
    {"activity", 'a', SWITCH(active, "active", "passive"), .usual = true, .help = "whether it speaks first (active)"},
    {"max-links", 'm', NUMBER(config.max_links, 0, 64), .help = "the most links of an aggregator, 1 to 64 (0: no limit)"},
    {"min-links", 'n', NUMBER(min_links, 1, 64), .usual = 1, .change = AT_ONCE, .help = "with fewer links that carry the bundle is down (1)"},
    {"select", 'e', WORD(select, .words = SELECTIONS), .change = AT_ONCE,
        .help = "which aggregator carries: of most links (count), the fastest, or of the best port"},
    {"revert", 'R', SWITCH(revert, "yes", "no"), .change = AT_ONCE, .help = "of more than max-links the best ports are used, not the first"},
    {"wait-to-restore", 'W', SECONDS(wait_to_restore, 0, 3600), .change = AT_ONCE,
        .help = "for how long a carrier that comes back has to be steady (0)"},
    {"delay-down", 'd', MILLISECONDS(delay_down, 0, 3000), .change = AT_ONCE, .help = "for how long it may be away (0)"},
    {"partner", 'r', A_PARTNER, .expected = "any, first or " A_MAC_SYSTEM, .value = "any|first|PRIORITY,MAC",
        .help = "whose LACPDUs are taken (any)"},
    {"partner-required", 'q', SWITCH(partner_required, "yes", "no"), .change = AT_ONCE, .help = "a port without a partner does not carry"},
    {"key-by-speed", 'b', SWITCH(key_by_speed, "yes", "no"), .restart = "another key-by-speed", .help = "links of another speed share no group"},
    /* As often as IEEE 802.3, annex 57A, lets one of the slow protocols send. */
    {"marker-responses", 'o', NUMBER(marker_responses, 0, 10000), .usual = 10, .change = AT_ONCE,
        .help = "the most that a port sends in a second (10)"},
    {"hook", 'x', TEXT(hook, "a path that begins with /, of at most 175 characters, of a program that may be run", is_program_in_file_system),
        .change = AT_ONCE, .value = "PROGRAM", .help = "is run when the bundle becomes up, degraded or down"},
    {"state-dir", 'T', TEXT(state_dir, "a path that begins with /, of at most 175 characters", is_path), .restart = "another state-dir",
        .value = "FOLDER", .help = "keeps what a start after a reboot goes on from"},
    {"carry", 'C', TEXT(carry, "a name of an interface of at most 15 characters", is_name_of_device), .restart = "another carry", .change = WAY_OF_DATA,
        .value = "NAME", .help = "carries the data of this device, which it makes"},
    {"plane", 'P', WORD(plane, ONE_OF([PLANE_TAP] = "tap", [PLANE_TEAM] = "team")), .restart = "another plane", .change = WAY_OF_DATA,
        .help = "what that is: a TAP device (tap), or one of the team driver"},
    {"members", 'B', WORD(follow, ONE_OF("given", "follow")), .change = WITH_DATA, .help = "who says what are ports of a team device (given)"},
    {"hash", 'H', WORD(hash, .words = HASHES), .restart = "another hash or hash-seed", .help = "what frames of one conversation share (layer2)"},
    {"hash-seed", 'S', NUMBER(hash_seed, 0, 65535), .restart = "another hash or hash-seed",
        .help = "another number spreads conversations in another way (0)"},
    /* On a direct cable a frame is on its way for far less. */
    {"flight", 'F', MILLISECONDS(flight, 1, 60000), .usual = 500, .change = WITH_DATA, .help = "how long a frame can be on its way (500)"},
    {"offload", 'O', SWITCH(offload, "yes", "no"), .restart = "another offload or fast", .help = "passes frames of several segments"},
    {"fast", 'K', SWITCH(fast, "yes", "no"), .restart = "another offload or fast", .help = "the kernel passes data on by itself (Linux 6.6)"},
    {"queues", 'Q', WORD(all_queues, ONE_OF("one", "all")), .restart = "another queues", .change = WAY_OF_DATA,
        .help = "by how many queues of a member data goes (one)"},
    /* A processor takes what its card gave it within a few milliseconds; this is more than ten programs on it have in turn, of 4 ms each. */
    {"answer-after", 'A', MILLISECONDS(answer_after, 1, 500), .usual = 50, .change = WITH_DATA,
        .help = "how long a response waits with --queues all (50)"},
    {0},
};
_Static_assert(sizeof BUNDLE_KEYS / sizeof *BUNDLE_KEYS - 1 <= MOST_BUNDLE_KEYS, "each key has room for its line");

const struct key PORT_KEYS[] = {
    {"key", 0, A_NUMBER, IN(port_settings, key), FROM(0, 65535, "")},
    {"priority", 0, A_NUMBER, IN(port_settings, priority), FROM(0, 65535, "")},
    {"timeout", 0, A_SWITCH, IN(port_settings, short_timeout), ONE_OF("short", "long")},
    {"activity", 0, A_SWITCH, IN(port_settings, active), ONE_OF("active", "passive")},
    {"individual", 0, A_SWITCH, IN(port_settings, individual), ONE_OF("yes", "no")},
    {"hold", 0, A_SWITCH, IN(port_settings, hold), ONE_OF("yes", "no")},
    {0},
};

static void *value_in(const struct key *key, const struct settings *settings) {
    return (char *)settings + key->at;
}

static int *value_of_port(const struct key *key, const struct port_settings *port) {
    return (int *)(void *)((char *)port + key->at);
}

/* What a text stands for, if that is a number, a switch or a word: else -1. */
static int number_for_text(const struct key *key, const char *text) {
    if (key->kind == A_NUMBER) return read_number(text, strlen(text), key->least, key->most);
    for (int i = 0; key->words[i]; i++)
        if (strcmp(text, key->words[i]) == 0) return key->kind == A_SWITCH ? i == 0 : i;
    return -1;
}

/* Answers whether there is a number, of 0 or more. */
static bool put_number(const struct key *key, int number, struct settings *settings) {
    void *into = value_in(key, settings);
    if (number < 0) return false;
    if (key->kind == A_NUMBER) *(uint16_t *)into = (uint16_t)number;
    if (key->kind == A_SWITCH) *(bool *)into = number != 0;
    if (key->kind == A_WORD) *(unsigned *)into = (unsigned)number;
    return true;
}

/* Gives a key of the bundle the value that a text has for it; answers whether it has one. */
static bool read_value(const struct key *key, const char *text, struct settings *settings) {
    switch (key->kind) {
    case A_SYSTEM: return read_system_or_auto(text, settings);
    case A_PARTNER: return read_partner(text, settings);
    case A_TEXT:
        if (!key->is_right(text)) return false;
        strncpy(value_in(key, settings), text, key->size); /* which has room for a zero, as is_right knows */
        return true;
    default: return put_number(key, number_for_text(key, text), settings);
    }
}

const char *partner_text(const struct settings *settings, char room[static 32]) {
    if (settings->policy == PARTNER_GIVEN) return system_text(&settings->partner, room);
    return settings->policy == PARTNER_FIRST ? "first" : "any";
}

/* The value that a key of the bundle has, as it is read. */
static const char *value_text(const struct key *key, const struct settings *settings, char room[static 32]) {
    const void *value = value_in(key, settings);
    struct system_id own = own_system(settings);
    switch (key->kind) {
    case A_NUMBER: snprintf(room, 32, "%u", *(const uint16_t *)value); return room;
    case A_SWITCH: return key->words[*(const bool *)value ? 0 : 1];
    case A_WORD: return key->words[*(const unsigned *)value];
    case A_SYSTEM: return system_text(&own, room);
    case A_PARTNER: return partner_text(settings, room);
    default: return value;
    }
}

bool is_same_value(const struct key *key, const struct settings *one, const struct settings *other) {
    return strcmp(value_text(key, one, TEXT_ROOM), value_text(key, other, TEXT_ROOM)) == 0;
}

/* Copies a value, but for a system or a partner, which stand in several places. */
void copy_setting(const struct key *key, const struct settings *from, struct settings *to) {
    memcpy(value_in(key, to), value_in(key, from), key->size);
}

/* The value of a key where it has to be given, or is not as it is if nothing is given; else NULL. */
const char *value_to_give(const struct key *key, const struct settings *settings, char room[static 32]) {
    const struct settings usual = usual_settings();
    return key->letter == 0 || !is_same_value(key, settings, &usual) ? value_text(key, settings, room) : NULL;
}

/* The value of a key that a port has of its own, or NULL. */
const char *value_of_own(const struct key *key, const struct port_settings *port, char room[static 32]) {
    int value = *value_of_port(key, port);
    snprintf(room, 32, "%d", value);
    return value == AS_BUNDLE ? NULL : key->words ? key->words[value ? 0 : 1] : room;
}

/* Adds a word to a row of them, behind `joint` if it is not the first one. */
void add_word(struct words *words, const char *joint, const char *word) {
    size_t length = strlen(words->text);
    snprintf(words->text + length, sizeof words->text - length, "%s%s", length > 0 ? joint : "", word);
}

/* The words of a key in a row. They stand until words are put into a row again. */
const char *list_choice(struct words *words, const struct key *key, const char *joint, const char *last_joint) {
    words->text[0] = 0;
    for (size_t i = 0; key->words[i]; i++) add_word(words, key->words[i + 1] ? joint : last_joint, key->words[i]);
    return words->text;
}

static const struct key *find_key(const struct key *keys, const char *name) {
    while (keys->name && strcmp(name, keys->name) != 0) keys++;
    return keys->name ? keys : NULL;
}

static const char *list_keys(struct words *words, const struct key *keys, const char *section) {
    words->text[0] = 0;
    for (; keys->name; keys++) add_word(words, keys[1].name ? ", " : " or ", keys->name);
    add_word(words, " as a key of ", section);
    return words->text;
}

static const char *expected_of(struct words *words, const struct key *key) {
    return key->words ? list_choice(words, key, ", ", " or ") : key->expected;
}

/* Gives a key of the bundle a value, in a line from 1; answers NULL, or what was expected. A command line is one line: of a key that
 * stands there twice the last value holds. */
const char *set_bundle(struct words *words, struct settings *settings, const char *name, const char *text, unsigned line) {
    const struct key *key = find_key(BUNDLE_KEYS, name);
    if (!key) return list_keys(words, BUNDLE_KEYS, "[Bundle]");
    unsigned *last = &settings->lines[key - BUNDLE_KEYS];
    if (*last && *last < line) return EACH_KEY_ONCE;
    *last = line;
    return read_value(key, text, settings) ? NULL : expected_of(words, key);
}

unsigned line_of_key(const struct settings *settings, const char *name) {
    const struct key *key = find_key(BUNDLE_KEYS, name);
    return key ? settings->lines[key - BUNDLE_KEYS] : 0;
}

/* Gives a key of a port a value; answers NULL, or what was expected. */
const char *set_port(struct words *words, struct port_settings *port, const char *name, const char *text) {
    const struct key *key = find_key(PORT_KEYS, name);
    if (!key) return list_keys(words, PORT_KEYS, "[Port]");
    int *value = value_of_port(key, port), number = number_for_text(key, text);
    if (*value != AS_BUNDLE) return EACH_KEY_ONCE;
    if (number < 0) return expected_of(words, key);
    *value = number;
    return NULL;
}

struct port_settings unset_port(void) {
    struct port_settings port = {.name = ""};
    for (const struct key *key = PORT_KEYS; key->name; key++) *value_of_port(key, &port) = AS_BUNDLE;
    return port;
}

static bool has_port(const struct settings *settings, const char *name, size_t length) {
    for (uint16_t i = 0; i < settings->port_count; i++)
        if (strlen(settings->ports[i].name) == length && memcmp(settings->ports[i].name, name, length) == 0) return true;
    return false;
}

/* Answers NULL, or what was expected. */
const char *add_port(struct settings *settings, const char *name, size_t length) {
    struct port_settings *port = &settings->ports[settings->port_count];
    if (!is_interface_name(name, length)) return "the name of an interface";
    if (has_port(settings, name, length)) return "each interface once";
    if (settings->port_count == NIW_MOST_PORTS) return "at most 64 interfaces";
    *port = unset_port();
    memcpy(port->name, name, length);
    settings->port_count++;
    return NULL;
}

/* What holds where nothing else is given. */
struct settings usual_settings(void) {
    struct settings settings = {.config = {.conversations = 256}};
    for (const struct key *key = BUNDLE_KEYS; key->name; key++)
        if (key->usual) (void)put_number(key, key->usual, &settings);
    return settings;
}

/* A key that says something of data, or NULL. */
static const char *key_of_data(const struct settings *settings) {
    static const char *const keys[] = {"hash", "hash-seed", "plane", "members", "queues", "answer-after", "flight"};
    if (settings->fast) return "fast";
    if (settings->offload) return "offload";
    for (size_t i = 0; i < sizeof keys / sizeof *keys; i++)
        if (line_of_key(settings, keys[i])) return keys[i];
    return NULL;
}

/* What has to be given and is not, or what contradicts itself: the first of these. Which keys go together is data of this table: what the daemon
 * does goes by the tables that plane.c chooses. */
struct lack lack_of(const struct settings *settings) {
    const char *data = key_of_data(settings), *carry = settings->carry;
    const uint16_t most = settings->config.max_links;
    const bool team = settings->plane == PLANE_TEAM;
    const struct system_id own = own_system(settings);
    const struct {
        bool is_so;
        struct lack lack;
    } rules[] = {
        {!line_of_key(settings, "key"), {"key=NUMBER in [Bundle]", NULL}},
        {!line_of_key(settings, "system"), {"system=auto or system=PRIORITY,MAC in [Bundle]", NULL}},
        {settings->port_count == 0 && settings->system_auto,
            {"system=PRIORITY,MAC beside no section [Port INTERFACE]: by auto it is the address of the first one", "system"}},
        {carry[0] && has_port(settings, carry, strlen(carry)), {"carry=NAME that is not the interface of a port", "carry"}},
        {data && !carry[0], {"carry=NAME beside plane, members, hash, hash-seed, flight, offload, fast, queues or answer-after", data}},
        {settings->hash_seed && settings->hash == HASH_LAYER2, {"another hash than layer2 beside hash-seed", "hash-seed"}},
        {team && (settings->offload || settings->fast), {"neither offload nor fast beside plane=team, by which the kernel carries all", "plane"}},
        {team && settings->select != SELECT_COUNT, {"select=count beside plane=team, which does not see in which group the peer sends", "select"}},
        {settings->follow && !team, {"plane=team beside members=follow", "members"}},
        {team && settings->all_queues, {"no queues=all beside plane=team, which leaves queues as they are", "queues"}},
        {line_of_key(settings, "answer-after") && !settings->all_queues, {"queues=all beside answer-after", "answer-after"}},
        {team && settings->hash == HASH_ENCAP3_4, {"another hash than encap3+4 beside plane=team", "hash"}},
        {most && settings->min_links > most, {"min-links that is at most max-links", "min-links"}},
        {settings->revert && !most, {"max-links=N beside revert", "revert"}},
        /* LACPDUs of its own system are not taken. */
        {settings->policy == PARTNER_GIVEN && is_same_system(&settings->partner, &own), {"a partner that is not this system", "partner"}},
        {true, {NULL, NULL}},
    };
    size_t first = 0;
    while (!rules[first].is_so) first++;
    return rules[first].lack;
}

static int own_or_bundle(int own, int all) {
    return own == AS_BUNDLE ? all : own;
}

struct niw_port port_of(const struct settings *settings, uint16_t port) {
    const struct port_settings *own = &settings->ports[port - 1];
    return (struct niw_port){
        .number = port,
        .priority = (uint16_t)own_or_bundle(own->priority, settings->port_priority),
        .key = (uint16_t)own_or_bundle(own->key, settings->key),
        .aggregatable = own_or_bundle(own->individual, false) == 0,
        .active = own_or_bundle(own->active, settings->active) != 0,
        .short_timeout = own_or_bundle(own->short_timeout, settings->short_timeout) != 0,
    };
}

bool wants_hold(const struct settings *settings, uint16_t port) {
    return own_or_bundle(settings->ports[port - 1].hold, false) != 0;
}
