/* What one end of link aggregation (struct lag_end) leaves in a file for the program that comes after it, which goes on from there: after a
 * crash, or after a stop that left the ports in use.
 *
 * Lines of words:
 *
 *     niwhopera-lacp VERSION
 *     clocks BOOT-ID MS-OF-THE-BOOT MS-OF-THE-WALL
 *     device NAME IFINDEX ADDRESS NEXT-MARKER
 *     port NAME IFINDEX NUMBER PRIORITY KEY ADDRESS CARRIER-CHANGES CARRIED CHOSEN AGGREGATOR AGE-MS LACPDU
 *     end SUM
 *
 * LACPDU are the first octets of its frame, of which lag_end_set_mode may have changed a bit, or "-" with an age of -1. SUM is what cksum (POSIX) prints first
 * of all lines before: a script that changes a word makes it anew. A file that is not, octet by octet, what is written of the values that it has tells
 * nothing. */
#ifndef LAG_STATE_H
#define LAG_STATE_H

#include <errno.h>
#include <fcntl.h>
#include <inttypes.h>
#include <stdio.h>
#include <time.h>
#include <unistd.h>

#include "lag_end.h"

#define LAG_STATE_VERSION 2
#define LAG_STATE_MOST 32768 /* The most octets of a file: each line of a port has fewer than 400. */
#define LAG_ADDRESS 6
#define LAG_NAME 16 /* As IFNAMSIZ: hosts differ in which header has it. */

struct lag_state_port {
    char name[LAG_NAME];
    uint32_t ifindex;
    uint16_t number, priority, key;
    uint8_t mac[LAG_ADDRESS]; /* The source of what it sends. */
    uint64_t carrier_changes; /* As the kernel counts them. */
    bool carried;
    bool chosen;              /* Its group carried. */
    uint16_t aggregator;
    struct lag_heard heard;   /* In ms of the clock of this boot. */
};

struct lag_state {
    char device[LAG_NAME];
    uint32_t ifindex;
    uint8_t mac[LAG_ADDRESS];
    uint32_t next_marker;
    size_t count;
    struct lag_state_port ports[NIW_MOST_PORTS];
};

static inline int64_t
lag_clock(clockid_t clock)
{
    struct timespec now;

    clock_gettime(clock, &now);
    return (int64_t) now.tv_sec * 1000 + now.tv_nsec / 1000000;
}

/* The clock of the boot, which goes on while the machine sleeps, in ms. */
static inline int64_t
lag_now(void)
{
    return lag_clock(CLOCK_BOOTTIME);
}

/* Of which boot this is: a word, "-" if the kernel tells none. */
static inline const char *
lag_boot_id(void)
{
    static char id[64];
    FILE *file = *id ? NULL : fopen("/proc/sys/kernel/random/boot_id", "re");

    if (!*id && (!file || !fgets(id, sizeof id, file) || id[0] == '\n')) {
        strcpy(id, "-");
    }
    if (file) {
        fclose(file);
    }
    id[strcspn(id, "\n ")] = '\0';
    return id;
}

/* When a state was written: the boot, and the time of its clock and of that on the wall, in ms. */
struct lag_written {
    char boot[64];
    int64_t of_boot, of_wall;
};

/* The sum of a file, as cksum has it: the CRC of its octets, and of how many there are. */
static inline uint32_t
lag_state_sum(const char *text, size_t length)
{
    static const uint32_t rests[16] = { 0x00000000, 0x04c11db7, 0x09823b6e, 0x0d4326d9, 0x130476dc, 0x17c56b6b, 0x1a864db2, 0x1e475005,
                                        0x2608edb8, 0x22c9f00f, 0x2f8ad6d6, 0x2b4bcb61, 0x350c9b64, 0x31cd86d3, 0x3c8ea00a, 0x384fbdbd };
    uint32_t sum = 0;

    for (size_t i = 0, left = length; i < length || left; i++) {
        uint32_t octet = i < length ? (uint8_t) text[i] : left & 0xff;

        left = i < length ? left : left >> 8;
        sum = sum << 4 ^ rests[(sum >> 28) ^ (octet >> 4)];
        sum = sum << 4 ^ rests[(sum >> 28) ^ (octet & 15)];
    }
    return ~sum;
}

static inline void
lag_put_octets(FILE *file, const uint8_t *octets, size_t count)
{
    for (size_t i = 0; i < count; i++) {
        fprintf(file, "%02x", octets[i]);
    }
}

static inline bool
lag_get_octets(const char *text, uint8_t *octets, size_t count)
{
    static const char digits[] = "0123456789abcdef";

    if (strlen(text) != 2 * count) {
        return false;
    }
    for (size_t i = 0; i < count; i++) {
        const char *high = strchr(digits, text[2 * i]), *low = strchr(digits, text[2 * i + 1]);

        if (!high || !low) {
            return false;
        }
        octets[i] = (uint8_t) ((high - digits) << 4 | (low - digits));
    }
    return true;
}

static inline void
lag_state_print(FILE *file, const struct lag_state *state, const struct lag_written *written)
{
    fprintf(file, "niwhopera-lacp %d\nclocks %s %" PRId64 " %" PRId64 "\ndevice %s %" PRIu32 " ", LAG_STATE_VERSION, written->boot, written->of_boot,
            written->of_wall, state->device, state->ifindex);
    lag_put_octets(file, state->mac, LAG_ADDRESS);
    fprintf(file, " %" PRIu32 "\n", state->next_marker);
    for (size_t i = 0; i < state->count; i++) {
        const struct lag_state_port *it = &state->ports[i];

        fprintf(file, "port %s %" PRIu32 " %u %u %u ", it->name, it->ifindex, it->number, it->priority, it->key);
        lag_put_octets(file, it->mac, LAG_ADDRESS);
        fprintf(file, " %" PRIu64 " %d %d %u %" PRId64 " ", it->carrier_changes, it->carried, it->chosen, it->aggregator,
                it->heard.is ? written->of_boot - it->heard.at : -1);
        if (it->heard.is) {
            lag_put_octets(file, it->heard.frame, NIW_FRAME);
        } else {
            fputc('-', file);
        }
        fputc('\n', file);
    }
}

/* The text of a state that is written then, which the caller frees; or NULL where memory is refused. */
static inline char *
lag_state_text(const struct lag_state *state, const struct lag_written *written, size_t *length)
{
    char *text = NULL;
    FILE *file = open_memstream(&text, length);
    bool bad = !file;

    if (file) {
        lag_state_print(file, state, written);
        bad = fflush(file) != 0;
        fprintf(file, "end %" PRIu32 "\n", bad ? 0 : lag_state_sum(text, *length));
        bad |= ferror(file) != 0;
        bad |= fclose(file) != 0;
    }
    if (bad) {
        free(text);
        return NULL;
    }
    return text;
}

/* Writes a state into a new file. Returns 0, or a negative number of errno. A link in the place of the file is not followed. */
static inline int
lag_state_write_new(const char *path, const struct lag_state *state)
{
    struct lag_written written = { .of_boot = lag_now(), .of_wall = lag_clock(CLOCK_REALTIME) };
    size_t length = 0, done = 0;
    char *text;
    int fd, err = 0;

    snprintf(written.boot, sizeof written.boot, "%s", lag_boot_id());
    text = lag_state_text(state, &written, &length);
    if (!text) {
        return -ENOMEM;
    }
    unlink(path);
    fd = open(path, O_WRONLY | O_CREAT | O_EXCL | O_NOFOLLOW | O_CLOEXEC, 0600);
    err = fd < 0 ? -errno : 0;
    while (!err && done < length) {
        ssize_t octets = write(fd, text + done, length - done);

        if (octets > 0) {
            done += (size_t) octets;
        } else {
            err = octets < 0 ? -errno : -EIO;
        }
    }
    if (fd >= 0 && close(fd) && !err) {
        err = -errno;
    }
    free(text);
    return err;
}

/* Writes the file beside, and renames it. Returns 0, or a negative number of errno: then there is no file, since an older state would tell of ports
 * what is so no more. */
static inline int
lag_state_write(const char *path, const struct lag_state *state)
{
    char fresh[256];
    int err = -ENAMETOOLONG;

    if (snprintf(fresh, sizeof fresh, "%s.new", path) < (int) sizeof fresh) {
        err = lag_state_write_new(fresh, state);
        if (err == -ENOSPC) {
            unlink(path); /* The room of the older state may do. */
            err = lag_state_write_new(fresh, state);
        }
        if (!err && rename(fresh, path)) {
            err = -errno;
        }
        if (err) {
            unlink(fresh);
        }
    }
    if (err) {
        unlink(path);
    }
    return err;
}

/* Reads the line of a port; its LACPDU came at a time of the clock of the boot that wrote it. */
static inline bool
lag_state_scan_port(const char *line, struct lag_state_port *it, int64_t written)
{
    unsigned int number, priority, key, carried, chosen, aggregator;
    char mac[16], frame[2 * NIW_FRAME + 1];
    int64_t age;

    memset(it, 0, sizeof *it);
    if (sscanf(line, "port %15s %10" SCNu32 " %6u %6u %6u %15s %20" SCNu64 " %1u %1u %6u %18" SCNd64 " %248s", it->name, &it->ifindex,
               &number, &priority, &key, mac, &it->carrier_changes, &carried, &chosen, &aggregator, &age, frame) != 12
        || !number || number > UINT16_MAX || priority > UINT16_MAX || key > UINT16_MAX || carried > 1 || chosen > 1
        || aggregator > NIW_MOST_PORTS || !lag_get_octets(mac, it->mac, LAG_ADDRESS)) {
        return false;
    }
    it->number = (uint16_t) number;
    it->priority = (uint16_t) priority;
    it->key = (uint16_t) key;
    it->carried = carried;
    it->chosen = chosen;
    it->aggregator = (uint16_t) aggregator;
    if (age < 0) {
        return !strcmp(frame, "-");
    }
    it->heard.is = true;
    it->heard.at = written - age;
    return lag_get_octets(frame, it->heard.frame, NIW_FRAME);
}

/* Reads the values of a text, which ends with a 0 octet, as far as they have places. */
static inline bool
lag_state_scan_lines(const char *text, struct lag_state *state, struct lag_written *written)
{
    char mac[16];
    int version;

    memset(state, 0, sizeof *state);
    if (sscanf(text, "niwhopera-lacp %9d clocks %63s %18" SCNd64 " %18" SCNd64 " device %15s %10" SCNu32 " %15s %10" SCNu32, &version, written->boot,
               &written->of_boot, &written->of_wall, state->device, &state->ifindex, mac, &state->next_marker) != 8
        || version != LAG_STATE_VERSION || !lag_get_octets(mac, state->mac, LAG_ADDRESS)) {
        return false;
    }
    for (const char *line = strstr(text, "\nport "); line; line = strstr(line, "\nport ")) {
        if (state->count == NIW_MOST_PORTS || !lag_state_scan_port(++line, &state->ports[state->count], written->of_boot)) {
            return false;
        }
        for (size_t i = 0; i < state->count; i++) {
            if (state->ports[i].number == state->ports[state->count].number) {
                return false;
            }
        }
        state->count++;
    }
    return true;
}

/* Reads a text of so many octets, behind which a 0 octet stands: it is a state if the same is written of what was read. */
static inline bool
lag_state_scan(const char *text, size_t length, struct lag_state *state)
{
    struct lag_written written;
    int64_t now = lag_now(), since;
    size_t again = 0;
    char *same;
    bool good;

    if (!lag_state_scan_lines(text, state, &written)) {
        return false;
    }
    same = lag_state_text(state, &written, &again);
    good = same && again == length && !memcmp(same, text, length);
    free(same);
    /* Within one boot its clock is right; the clock on the wall may be set. */
    since = strcmp(lag_boot_id(), written.boot) || !strcmp(written.boot, "-") ? lag_clock(CLOCK_REALTIME) - written.of_wall : now - written.of_boot;
    for (size_t i = 0; i < state->count; i++) {
        state->ports[i].heard.at += state->ports[i].heard.is ? now - since - written.of_boot : 0;
    }
    return good && since >= 0;
}

/* Reads the file. Where it tells nothing, false is the answer and `state` is empty. One on a file system that became read-only tells nothing: who
 * wrote it could not take it away when it grew too old. */
static inline bool
lag_state_read(const char *path, struct lag_state *state)
{
    char *text = malloc(LAG_STATE_MOST + 1);
    FILE *file = text && !access(path, W_OK) ? fopen(path, "re") : NULL;
    size_t length = file ? fread(text, 1, LAG_STATE_MOST, file) : 0;
    bool good = false;

    if (length) {
        text[length] = '\0';
        good = lag_state_scan(text, length, state);
    }
    if (!good) {
        memset(state, 0, sizeof *state);
    }
    if (file) {
        fclose(file);
    }
    free(text);
    return good;
}

/* The port of this name and ifIndex, or NULL. */
static inline const struct lag_state_port *
lag_state_find(const struct lag_state *state, const char *name, uint32_t ifindex)
{
    for (size_t i = 0; i < state->count; i++) {
        if (state->ports[i].ifindex == ifindex && !strcmp(state->ports[i].name, name)) {
            return &state->ports[i];
        }
    }
    return NULL;
}

#endif
