/* Tests of lag_state.h: what is written is read again, octets that are no state tell nothing, and a file system that refuses leaves none. With
 * -DFUZZ it is a fuzzer of libFuzzer. */
#define _GNU_SOURCE
#include "lag_state.h"

#include <sched.h>
#include <sys/mount.h>
#include <sys/stat.h>

/* What was read is a state as one that is written, whatever the octets were. */
static bool
is_sound(const struct lag_state *state)
{
    if (state->count > NIW_MOST_PORTS || !memchr(state->device, '\0', sizeof state->device)) {
        return false;
    }
    for (size_t i = 0; i < state->count; i++) {
        const struct lag_state_port *it = &state->ports[i];

        if (!it->number || it->aggregator > NIW_MOST_PORTS || !memchr(it->name, '\0', sizeof it->name)) {
            return false;
        }
        for (size_t j = 0; j < i; j++) {
            if (state->ports[j].number == it->number) {
                return false;
            }
        }
    }
    return true;
}

static bool
scan(const uint8_t *octets, size_t length, struct lag_state *state)
{
    char *text = malloc(length + 1);
    bool good;

    memcpy(text, octets, length);
    text[length] = '\0';
    good = lag_state_scan(text, length, state);
    free(text);
    if (good && !is_sound(state)) {
        abort();
    }
    return good;
}

#ifdef FUZZ
int LLVMFuzzerTestOneInput(const uint8_t *octets, size_t length);

int
LLVMFuzzerTestOneInput(const uint8_t *octets, size_t length)
{
    static struct lag_state state, again;

    /* The sum is made right: no octets that come by chance have it. */
    const char *end = memmem(octets, length, "\nend ", 5);
    size_t lines = end ? (size_t) (end + 1 - (const char *) octets) : length, whole = 0;
    char *text = NULL;
    FILE *file = open_memstream(&text, &whole);

    fwrite(octets, 1, lines, file);
    fprintf(file, "end %" PRIu32 "\n", lag_state_sum((const char *) octets, lines));
    fclose(file);
    memset(&state, 0, sizeof state);
    if (scan((uint8_t *) text, whole, &state)) {
        struct lag_written written = { .boot = "-", .of_boot = lag_now(), .of_wall = lag_clock(CLOCK_REALTIME) };
        size_t size = 0;
        char *other = lag_state_text(&state, &written, &size);

        if (!scan((uint8_t *) other, size, &again) || again.count != state.count) {
            abort();
        }
        free(other);
    }
    free(text);
    return 0;
}
#else
static int passed, failed;

static void
check(bool holds, const char *what)
{
    *(holds ? &passed : &failed) += 1;
    printf("%s: %s\n", holds ? "passed" : "FAILED", what);
}

static void
fill(struct lag_state *state)
{
    memset(state, 0, sizeof *state);
    strcpy(state->device, "team0");
    state->ifindex = 77;
    state->next_marker = 4000000001u;
    memcpy(state->mac, "\x02\x11\x22\x33\x44\x55", LAG_ADDRESS);
    state->count = 2;
    for (size_t i = 0; i < state->count; i++) {
        struct lag_state_port *it = &state->ports[i];

        strcpy(it->name, i ? "interface-name1" : "eth0");
        it->ifindex = 70001 + (uint32_t) i;
        it->number = (uint16_t) (65535 - i);
        it->priority = (uint16_t) (3 + i);
        it->key = (uint16_t) (5 + 2 * i);
        memcpy(it->mac, "\x52\x54\x00\xfe\xdc\xba", LAG_ADDRESS);
        it->carrier_changes = 12345678901u + i;
        it->carried = !i;
        it->chosen = i;
        it->aggregator = (uint16_t) (64 - i);
    }
    state->ports[0].heard.is = true;
    state->ports[0].heard.at = lag_now() - 2500;
    for (size_t i = 0; i < NIW_FRAME; i++) {
        state->ports[0].heard.frame[i] = (uint8_t) (i * 37 + 1);
    }
}

/* Each octet of a file is changed in turn, and the file is cut at each. Returns how many of these are taken. */
static int
spoil(const char *path)
{
    static uint8_t octets[4096];
    static struct lag_state state;
    FILE *file = fopen(path, "r");
    size_t length = fread(octets, 1, sizeof octets, file);
    int taken = 0;

    fclose(file);
    for (size_t i = 0; i < length; i++) {
        static const char other[] = "\0\n -9zf\xff";
        uint8_t was = octets[i];

        taken += scan(octets, i, &state);
        for (size_t j = 0; j < sizeof other - 1; j++) {
            octets[i] = (uint8_t) other[j];
            taken += octets[i] != was && scan(octets, length, &state);
        }
        octets[i] = was;
    }
    return taken;
}

/* Lines that are none of the form, with a sum that is right; the first row is one that is. */
static const struct {
    const char *what, *text;
} forms[] = {
#define HEAD "niwhopera-lacp 2\nclocks - 1 1\n"
#define DEVICE "device team0 7 020000000000 9\n"
#define PORT "port eth0 10 1 255 0 020000000001 2 0 0 0 "
    { "the form", HEAD DEVICE PORT "-1 -\n" },
    { "a version with letters behind it", "niwhopera-lacp 2x\nclocks - 1 1\n" DEVICE },
    { "the version before", "niwhopera-lacp 1\nclocks - 1 1\n" DEVICE },
    { "words behind a line", HEAD "device team0 7 020000000000 9 more words\n" },
    { "a number below 0 for the next marker", HEAD "device team0 7 020000000000 -5\n" },
    { "an ifIndex above 32 bits", HEAD "device team0 4294967306 020000000000 9\n" },
    { "no blank between device and its name", HEAD "device$team0 7 020000000000 9\n" },
    { "two blanks", HEAD "device  team0 7 020000000000 9\n" },
    { "a zero before a number", HEAD "device team0 07 020000000000 9\n" },
    { "an age of -77", HEAD DEVICE PORT "-77 -\n" },
    { "an age without an LACPDU", HEAD DEVICE PORT "77 -\n" },
    { "a line between", HEAD DEVICE "more\n" PORT "-1 -\n" },
    { "no end of a line", HEAD "device team0 7 020000000000 9" },
};

static char *
with_sum(const char *lines)
{
    char *text = NULL;

    if (asprintf(&text, "%send %" PRIu32 "\n", lines, lag_state_sum(lines, strlen(lines))) < 0) {
        abort();
    }
    return text;
}

static void
try_forms(void)
{
    static struct lag_state state;
    char *text = with_sum(forms[0].text), *more = NULL;

    for (size_t i = 0; i < sizeof forms / sizeof *forms; i++) {
        char *it = with_sum(forms[i].text);

        check(scan((uint8_t *) it, strlen(it), &state) == !i, forms[i].what);
        free(it);
    }
    if (asprintf(&more, "%sport eth0 10 0 0\n", text) < 0) {
        abort();
    }
    check(!scan((uint8_t *) more, strlen(more), &state), "octets behind the end");
    free(more);
    free(text);
}

/* The sum is the one that cksum prints. */
static void
try_sum(void)
{
    FILE *file = popen("printf 123456789 | cksum; printf 'niwhopera-lacp 2\\n' | cksum; printf '' | cksum", "r");
    uint32_t sums[3] = { 0 };
    size_t count = 0;

    while (count < 3 && file && fscanf(file, "%" SCNu32 "%*[^\n]", &sums[count]) == 1) {
        count++;
    }
    if (file) {
        pclose(file);
    }
    /* POSIX names the algorithm; 930766865 is its value of these nine digits. */
    check(lag_state_sum("123456789", 9) == 930766865, "the sum of nine digits is that of POSIX");
    check(count == 3 && sums[0] == lag_state_sum("123456789", 9) && sums[1] == lag_state_sum("niwhopera-lacp 2\n", 17) && sums[2] == lag_state_sum("", 0),
          "the sums are those of the command cksum");
}

/* As many ports as there may be, with the longest words: the file is read again. */
static void
try_most(const char *path)
{
    static struct lag_state state, again;
    struct stat told;

    memset(&state, 0xff, sizeof state);
    memset(state.device, 'x', sizeof state.device - 1);
    state.device[sizeof state.device - 1] = '\0';
    state.count = NIW_MOST_PORTS;
    for (size_t i = 0; i < NIW_MOST_PORTS; i++) {
        struct lag_state_port *it = &state.ports[i];

        memcpy(it->name, state.device, sizeof it->name);
        it->number = (uint16_t) (UINT16_MAX - i);
        it->aggregator = NIW_MOST_PORTS;
        it->carried = it->chosen = it->heard.is = true;
        it->heard.at = lag_now() - INT64_C(100000000000);
    }
    check(!lag_state_write(path, &state) && !stat(path, &told) && told.st_size < LAG_STATE_MOST && lag_state_read(path, &again)
          && again.count == NIW_MOST_PORTS,
          "64 ports with the longest words are written and read");
}

/* Begins a file system of these options, with a state; `path` is where that stands. */
static bool
begin(const char *options, char *folder, char *path, size_t room)
{
    static struct lag_state state, again;

    fill(&state);
    snprintf(path, room, "%s/state", mkdtemp(folder));
    return !mount("state", folder, "tmpfs", 0, options) && !lag_state_write(path, &state) && lag_state_read(path, &again);
}

/* A file system of these options has room for one state: the next one takes its place; and where that is taken, too, none is read. */
static void
fill_up(const char *options, const char *what)
{
    static struct lag_state state, again;
    char folder[] = "/tmp/lag-state.XXXXXX", path[64], other[64];
    FILE *file;

    fill(&state);
    check(begin(options, folder, path, sizeof path) && !lag_state_write(path, &state) && lag_state_read(path, &again), what);
    snprintf(other, sizeof other, "%s/other", folder);
    unlink(path);
    file = fopen(other, "w");
    check(file && fputs("full", file) >= 0 && !fclose(file) && lag_state_write(path, &state) == -ENOSPC && !lag_state_read(path, &again),
          "  and where there is no room at all, it is told, and no state is read");
    umount(folder);
    rmdir(folder);
}

/* The file system refuses what is written. */
static void
try_refusals(void)
{
    static struct lag_state state, again;
    char folder[] = "/tmp/lag-state.XXXXXX", path[64];

    if (unshare(CLONE_NEWNS) || mount("none", "/", NULL, MS_REC | MS_PRIVATE, NULL)) {
        printf("skipped: file systems that refuse: no root\n");
        return;
    }
    fill_up("size=4096", "a file system that is full keeps the newest state");
    fill_up("nr_inodes=2", "so does one that has no further file");
    fill(&state);
    check(begin("size=1m", folder, path, sizeof path) && !mount("state", folder, "tmpfs", MS_REMOUNT | MS_RDONLY, "size=1m")
          && lag_state_write(path, &state) == -EROFS, "one that becomes read-only refuses a state, and tells it");
    check(!lag_state_read(path, &again), "  and no state is read, which would be older than the ports");
    umount(folder);
    rmdir(folder);
}

/* With the name of a file it writes a state there, for a fuzzer to begin with. */
int
main(int count, char **words)
{
    static struct lag_state state, again;
    char path[] = "/tmp/lag-state.XXXXXX", fresh[64];
    struct stat told;
    int fd = mkstemp(path);

    snprintf(fresh, sizeof fresh, "%s.new", path);
    fill(&state);
    if (count > 1) {
        return lag_state_write(words[1], &state) != 0;
    }
    check(!lag_state_write(path, &state), "a state is written");
    check(!stat(path, &told) && (told.st_mode & 0777) == 0600, "the file is its owner's alone");
    check(lag_state_read(path, &again), "it is read again");
    check(again.ports[0].heard.at <= state.ports[0].heard.at && again.ports[0].heard.at + 1000 > state.ports[0].heard.at, "an LACPDU ages while nobody runs");
    again.ports[0].heard.at = state.ports[0].heard.at;
    check(!memcmp(&again, &state, sizeof state), "each value is as it was");
    check(lag_state_find(&again, "interface-name1", 70002) == &again.ports[1], "a port is found by its name and ifIndex");
    check(!lag_state_find(&again, "interface-name1", 70001), "another ifIndex is none");
    check(!spoil(path), "no file that is cut is taken, and none of which an octet is changed");
    try_forms();
    try_sum();
    try_most(path);
    state.ports[1].number = state.ports[0].number;
    lag_state_write(path, &state);
    check(!lag_state_read(path, &again) && !again.count, "two ports of one number are none");
    unlink(fresh);
    check(!symlink("/nowhere/at-all", fresh) && !lag_state_write(path, &state), "a link in the place of the new file is taken away");
    check(lag_state_write("/nowhere/file", &state) == -ENOENT, "a folder that is not there is told");
    try_refusals();
    close(fd);
    unlink(path);
    check(!lag_state_read(path, &again), "no file is no state");
    printf("%d passed, %d failed\n", passed, failed);
    return failed != 0;
}
#endif
