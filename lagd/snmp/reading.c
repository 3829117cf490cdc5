/* What a daemon tells of its status, as rows. An answer that is not as docs/LAGD.md has it gives none. */
#define _GNU_SOURCE
#include <net/if.h>
#include <stdio.h>
#include <stdlib.h>
#include <string.h>
#include <sys/ioctl.h>
#include <sys/socket.h>
#include <unistd.h>

#include <jansson.h>

#include "snmp.h"

/* TruthValue (RFC 2579). */
enum { TRUE_VALUE = 1, FALSE_VALUE = 2 };
/* The most octets of a PortList: an index above has no place in it. */
#define MOST_LISTED 32768
/* The bits of a state, in the order of LacpState. */
static const char *const BITS[8] = {"activity", "timeout", "aggregation", "synchronized", "collecting", "distributing", "defaulted", "expired"};
enum { ACTIVITY = 0x80, TIMEOUT = 0x40, AGGREGATION = 0x20 };
/* The counts of a port, in the order of the columns. */
static const char *const COUNT_NAMES[COUNTS] = {"lacpdus_received", "markers_received", "marker_responses_received", "unknown_received",
    "illegal_received", "lacpdus_sent", "markers_sent", "marker_responses_sent"};

/* How an answer begins to who gets none, in a line of so many octets at most. */
#define REFUSAL "refused: "
#define LONGEST_REFUSAL 128

/* A bundle, as its daemon tells it. */
struct bundle {
    const char *path;
    uint32_t key, max_delay, system_priority;
    uint32_t aggregator; /* that the device stands for, or 0 */
    uint32_t device;     /* its ifIndex; 0: there is none */
    uint8_t system[6], address[6];
    json_t *ports;
};

/* A port, with what is no column. */
struct reading {
    struct port port;
    uint32_t aggregator;
    bool attached, present;
};

static bool is_number(const json_t *object, const char *name, uint32_t most, uint32_t *number) {
    const json_t *value = json_object_get(object, name);
    json_int_t told = json_integer_value(value);
    if (!json_is_integer(value) || told < 0 || told > (json_int_t)most) return false;
    *number = (uint32_t)told;
    return true;
}

static bool is_mac(const json_t *object, const char *name, uint8_t mac[static 6]) {
    const char *text = json_string_value(json_object_get(object, name));
    int length = 0;
    return text && strlen(text) == 17
        && sscanf(text, "%2hhx:%2hhx:%2hhx:%2hhx:%2hhx:%2hhx%n", &mac[0], &mac[1], &mac[2], &mac[3], &mac[4], &mac[5], &length) == 6
        && length == 17;
}

/* Reads an array of names of bits. */
static bool is_state(const json_t *object, uint8_t *state) {
    const json_t *names = json_object_get(object, "state"), *name;
    size_t place;
    if (!json_is_array(names)) return false;
    *state = 0;
    json_array_foreach(names, place, name) {
        unsigned bit = 0;
        while (bit < 8 && (!json_is_string(name) || strcmp(BITS[bit], json_string_value(name)) != 0)) bit++;
        if (bit == 8) return false;
        *state = (uint8_t)(*state | 0x80u >> bit);
    }
    return true;
}

static bool is_end(const json_t *object, struct end *end) {
    return is_number(object, "key", UINT16_MAX, &end->key) && is_number(object, "port_priority", UINT16_MAX, &end->port_priority)
        && is_number(object, "port", UINT16_MAX, &end->port) && is_state(object, &end->state);
}

static bool are_counts(const json_t *port, uint32_t counts[static COUNTS]) {
    const json_t *object = json_object_get(port, "counters");
    for (unsigned i = 0; i < COUNTS; i++) {
        const json_t *value = json_object_get(object, COUNT_NAMES[i]);
        if (!json_is_integer(value) || json_integer_value(value) < 0) return false;
        counts[i] = (uint32_t)json_integer_value(value); /* a Counter32 begins again at 0 */
    }
    return true;
}

/* Reads where a port is attached: from the state ATTACHED of the mux machine on. */
static bool is_attachment(const json_t *port, bool *attached) {
    const char *mux = json_string_value(json_object_get(port, "mux"));
    *attached = mux && (strcmp(mux, "ATTACHED") == 0 || strcmp(mux, "COLLECTING_DISTRIBUTING") == 0);
    return *attached || (mux && (strcmp(mux, "DETACHED") == 0 || strcmp(mux, "WAITING") == 0));
}

/* Reads a port. One whose interface is missing has no index. */
static bool is_port(const json_t *object, const struct bundle *bundle, struct reading *to) {
    struct port *port = &to->port;
    const json_t *partner = json_object_get(object, "partner");
    memset(to, 0, sizeof *to);
    to->present = !json_is_null(json_object_get(object, "index"));
    if ((to->present && (!is_number(object, "index", INT32_MAX, &port->index) || port->index == 0))
        || !is_number(object, "key", UINT16_MAX, &port->admin_key) || !is_number(object, "aggregator", UINT16_MAX, &to->aggregator)
        || !is_attachment(object, &to->attached) || !is_end(json_object_get(object, "actor"), &port->actor) || !is_end(partner, &port->partner)
        || !is_number(partner, "system_priority", UINT16_MAX, &port->partner.system_priority)
        || !is_mac(partner, "system", port->partner.system) || !are_counts(object, port->counts))
        return false;
    port->actor.system_priority = bundle->system_priority;
    memcpy(port->actor.system, bundle->system, sizeof port->actor.system);
    port->admin_state = port->actor.state & (ACTIVITY | TIMEOUT | AGGREGATION);
    port->aggregatable = port->actor.state & AGGREGATION ? TRUE_VALUE : FALSE_VALUE;
    return true;
}

/* Reads the name of a device, whose octets are characters up to U+00FF in JSON: those above U+007F are two octets of UTF-8. */
static bool is_name(const char *text, char name[static IFNAMSIZ]) {
    const unsigned char *at = (const unsigned char *)text;
    size_t length = 0;
    while (*at && length < IFNAMSIZ - 1) {
        if (*at > 0xc3) return false;
        if (*at >= 0xc2) {
            name[length++] = (char)((at[0] & 3) << 6 | (at[1] & 0x3f));
            at += 2;
        } else
            name[length++] = (char)*at++;
    }
    name[length] = 0;
    return *at == 0 && length > 0;
}

/* Asks the kernel for index and MAC address of a device; one that is gone has no index. */
static void look_at_device(const char *name, uint32_t *index, uint8_t address[static 6]) {
    struct ifreq asked = {0};
    int fd = socket(AF_INET, SOCK_DGRAM | SOCK_CLOEXEC, 0);
    if (fd < 0) fd = socket(AF_UNIX, SOCK_DGRAM | SOCK_CLOEXEC, 0);
    memcpy(asked.ifr_name, name, IFNAMSIZ);
    if (fd >= 0 && ioctl(fd, SIOCGIFHWADDR, &asked) == 0) {
        memcpy(address, asked.ifr_hwaddr.sa_data, 6);
        if (ioctl(fd, SIOCGIFINDEX, &asked) == 0) *index = (uint32_t)asked.ifr_ifindex;
    }
    if (fd >= 0) close(fd);
}

/* Reads what is told of the bundle itself, and looks at its device. */
static bool is_bundle_and_look_at_device(const json_t *root, struct bundle *bundle) {
    const json_t *carry = json_object_get(root, "carry");
    const char *device = json_string_value(json_object_get(carry, "device"));
    char name[IFNAMSIZ] = {0};
    bundle->ports = json_object_get(root, "ports");
    if (!is_number(root, "key", UINT16_MAX, &bundle->key) || !is_number(root, "collector_max_delay", UINT16_MAX, &bundle->max_delay)
        || !is_number(root, "system_priority", UINT16_MAX, &bundle->system_priority) || !is_mac(root, "system", bundle->system)
        || !is_number(root, "aggregator", UINT16_MAX, &bundle->aggregator) || !json_is_array(bundle->ports))
        return false;
    if (!carry) return true;
    if (!device || !is_name(device, name)) return false;
    look_at_device(name, &bundle->device, bundle->address);
    return true;
}

/* The device stands for the active aggregator; where none is active, for the lowest one that a port has chosen. */
static uint32_t aggregator_of_device(const struct bundle *bundle, const struct reading *readings, size_t count) {
    uint32_t lowest = bundle->aggregator;
    for (size_t i = 0; i < count && !bundle->aggregator; i++)
        if (readings[i].aggregator && (!lowest || readings[i].aggregator < lowest)) lowest = readings[i].aggregator;
    return lowest;
}

/* Sets the bits of the attached ports: that of index 1 is the most significant one of the first octet. Answers false where one has no
 * place, or there is no memory. */
static bool list_ports(struct aggregator *to, const struct reading *readings, size_t count) {
    size_t length = 1;
    for (size_t i = 0; i < count; i++) {
        size_t place = (readings[i].port.index - 1) / 8;
        if (readings[i].port.attached && place + 1 > length) length = place + 1;
    }
    if (length > MOST_LISTED || !(to->list = calloc(length, 1))) return false;
    to->list_length = length;
    for (size_t i = 0; i < count; i++) {
        uint32_t place = readings[i].port.index - 1;
        if (readings[i].port.attached) to->list[place / 8] = (uint8_t)(to->list[place / 8] | 0x80u >> place % 8);
    }
    return true;
}

/* Adds the row of the device: key and partner are those of its ports, which have the same. */
static void add_aggregator(struct rows *aggregators, const struct bundle *bundle, const struct reading *readings, size_t count) {
    struct aggregator row;
    bool first = true;
    memset(&row, 0, sizeof row);
    row.index = bundle->device;
    row.aggregate = TRUE_VALUE;
    row.admin_key = row.actor.key = bundle->key;
    row.max_delay = bundle->max_delay;
    row.actor.system_priority = bundle->system_priority;
    memcpy(row.actor.system, bundle->system, sizeof row.actor.system);
    memcpy(row.address, bundle->address, sizeof row.address);
    for (size_t i = 0; i < count; i++) {
        const struct port *port = &readings[i].port;
        if (port->selected && (first || port->attached)) row.actor.key = port->actor.key;
        if (!port->attached || !first) continue;
        first = false;
        row.aggregate = port->actor.state & port->partner.state & AGGREGATION ? TRUE_VALUE : FALSE_VALUE;
        row.partner.key = port->partner.key;
        row.partner.system_priority = port->partner.system_priority;
        memcpy(row.partner.system, port->partner.system, sizeof row.partner.system);
    }
    (void)list_ports(&row, readings, count);
    if (!add_row(aggregators, &row)) free(row.list);
}

/* Adds the rows of a bundle. */
static void add_bundle_or_complain(struct told *told, const struct bundle *bundle, struct reading *readings, size_t count) {
    uint32_t aggregator = aggregator_of_device(bundle, readings, count);
    for (size_t i = 0; i < count; i++) {
        struct port *port = &readings[i].port;
        bool chosen = aggregator && readings[i].aggregator == aggregator && readings[i].present;
        port->selected = chosen ? bundle->device : 0;
        port->attached = chosen && readings[i].attached ? bundle->device : 0;
        if (readings[i].present && !add_row(&told->ports, port))
            complain("%s: another daemon has its interface %u", bundle->path, port->index);
    }
    if (bundle->device) add_aggregator(&told->aggregators, bundle, readings, count);
}

/* Reads the ports of a bundle, and adds its rows only if all can be read. */
static bool read_bundle_look_at_device_or_complain(struct told *told, const json_t *root, const char *path) {
    struct bundle bundle = {.path = path};
    struct reading *readings = NULL;
    size_t count, read = 0;
    if (!is_bundle_and_look_at_device(root, &bundle)) return false;
    count = json_array_size(bundle.ports);
    readings = calloc(count + 1, sizeof *readings);
    while (readings && read < count && is_port(json_array_get(bundle.ports, read), &bundle, &readings[read])) read++;
    if (readings && read == count) add_bundle_or_complain(told, &bundle, readings, count);
    free(readings);
    return readings && read == count;
}

/* Adds what an answer says. A refusal is told; what is no status is left out. */
void read_status_look_at_device_or_complain(struct told *told, const char *path, const char *text, size_t length) {
    json_error_t why;
    json_t *root = json_loadb(text, length, JSON_REJECT_DUPLICATES, &why);
    const char *end = memchr(text, '\n', length);
    if (!root && end && end - text < LONGEST_REFUSAL && strncmp(text, REFUSAL, strlen(REFUSAL)) == 0)
        complain("%s: %.*s", path, (int)(end - text), text);
    else if (!root || !read_bundle_look_at_device_or_complain(told, root, path))
        complain("%s: no status of lagd: %s", path, root ? "a field is missing or wrong" : why.text);
    json_decref(root);
}
