/* What members had before they became members, in a file of each beside the status socket until they have it again: of a daemon that was
 * killed the next one knows it. A file of another boot, or of another interface with that number, counts for nothing. */
#include "tap/tap.h"

/* The name of a file, or with `.new` behind it that of the one that is to take its place. */
static const char *name_in_namespace(int index, const char *kind, const char *behind, char room[static 64]) {
    snprintf(room, 64, "%lu.%d.%s%s", network_namespace(), index, kind, behind);
    return room;
}

/* The number of this boot; "unknown" where it may not be read, as under the unit, whose folder does not outlive a boot. */
const char *boot_id(char room[static BOOT_ROOM]) {
    CLOSED_STREAM FILE *file = fopen("/proc/sys/kernel/random/boot_id", "re");
    if (!file || fscanf(file, "%63s", room) != 1) snprintf(room, BOOT_ROOM, "unknown");
    return room;
}

/* Opens what is kept of an interface, behind the head; or answers NULL. What is of another boot, or another interface, counts for nothing. */
FILE *read_kept(int folder, const struct link *link, const char *kind) {
    char name[64], boot[BOOT_ROOM], now[BOOT_ROOM], mac[32], own[32];
    FILE *file = open_in(folder, name_in_namespace(link->index, kind, "", name), O_RDONLY, "r");
    if (!file) return NULL;
    if (fscanf(file, "boot=%63s mac=%31s", boot, mac) == 2 && strcmp(boot, boot_id(now)) == 0 && strcmp(mac, mac_text(link->mac, own)) == 0)
        return file;
    fclose(file);
    return NULL;
}

/* Begins a file that end_kept puts in the place of the one that is there; or answers NULL, and errno tells why not. */
FILE *begin_kept(int folder, const struct link *link, const char *kind) {
    char next[64], boot[BOOT_ROOM], mac[32];
    FILE *file = open_in(folder, name_in_namespace(link->index, kind, ".new", next), O_WRONLY | O_CREAT | O_TRUNC, "w");
    if (file) fprintf(file, "boot=%s\nmac=%s\n", boot_id(boot), mac_text(link->mac, mac));
    return file;
}

/* Ends it; answers whether it is there, and else what was there before still is, and errno tells why. */
bool end_kept(int folder, const struct link *link, const char *kind, FILE *file, bool done) {
    char next[64], name[64];
    done = done && !ferror(file);
    (void)name_in_namespace(link->index, kind, ".new", next);
    (void)name_in_namespace(link->index, kind, "", name);
    done = fclose(file) == 0 && done && renameat(folder, next, folder, name) == 0;
    int fault = errno;
    if (!done) (void)unlinkat(folder, next, 0);
    errno = fault;
    return done;
}

/* Removes what is kept of an interface, and what a daemon that was killed began of it. */
void drop_kept(int folder, const struct link *link, const char *kind) {
    char name[64];
    (void)unlinkat(folder, name_in_namespace(link->index, kind, ".new", name), 0);
    (void)unlinkat(folder, name_in_namespace(link->index, kind, "", name), 0);
}

/* What an interface had before an earlier daemon changed it; zeros, where nobody knows. */
void recall_kept_member(int folder, const struct link *link, struct kept *kept) {
    struct ethtool_channels *queues = &kept->queues;
    char end[8] = "";
    CLOSED_STREAM FILE *file = read_kept(folder, link, "member");
    *kept = (struct kept){0};
    if (!file) return;
    int found = fscanf(file, " joins=%u queues=%u %u %u %u rps=%" PROCESSORS_LENGTH "s %7s", &kept->joins, &queues->rx_count, &queues->tx_count,
        &queues->other_count, &queues->combined_count, kept->steered, end); /* the last line says that the file is whole */
    if (found != 7 || strcmp(end, "end") != 0) *kept = (struct kept){0};
    if (strcmp(kept->steered, "-") == 0) kept->steered[0] = 0;
}

/* Keeps what an interface has to get back, for the next daemon, where this one is killed. */
void write_kept_member(struct printer *printer, int folder, const struct link *link, const struct kept *kept) {
    const struct ethtool_channels *queues = &kept->queues;
    FILE *file = begin_kept(folder, link, "member");
    if (file)
        fprintf(file, "joins=%u\nqueues=%u %u %u %u\nrps=%s\nend\n", kept->joins, queues->rx_count, queues->tx_count, queues->other_count,
            queues->combined_count, kept->steered[0] ? kept->steered : "-");
    if (!file || !end_kept(folder, link, "member", file, true))
        (void)say(printer, LOG_WARNING | ABOUT_DATA, "port %u %s: if this daemon is killed, nobody knows what the interface had: %s",
            link->settings.number, link->name, strerror(errno));
}

/* Keeps what an interface has now, before it is changed, and adds to it what it had before an earlier daemon changed it. */
void merge_kept_member(struct printer *printer, int folder, const struct link *link, struct kept *kept) {
    struct kept first;
    recall_kept_member(folder, link, &first);
    kept->joins |= first.joins;
    if (first.queues.combined_count + first.queues.rx_count + first.queues.tx_count > 0) kept->queues = first.queues;
    if (first.steered[0]) memcpy(kept->steered, first.steered, sizeof kept->steered);
    write_kept_member(printer, folder, link, kept);
}

/* The interface is gone for good. One that went to another namespace may come back, and is what it was made then. */
void forget_interface(int folder, const struct link *link) {
    drop_kept(folder, link, "member");
    drop_kept(folder, link, "queues");
}
