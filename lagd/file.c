/* A file of a bundle, in the form of systemd's units: a section [Bundle] and a section [Port INTERFACE] for each port. */
#include "lagd.h"

#include <ini.h>

/* The most octets of a file and of a line. The library takes lines of 197 octets. */
#define LONGEST_FILE 65536
#define LONGEST_FILE_LINE 190

_Static_assert(sizeof "state-dir=" - 1 + PATH_ROOM - 1 <= LONGEST_FILE_LINE, "a line of --show-config is one of a file");

enum section { NO_SECTION, WRONG_SECTION, BUNDLE_SECTION, PORT_SECTION };

/* A file that is being read. */
struct reading {
    struct printer *printer;
    struct words *words;
    FILE *file;
    const char *path;
    unsigned line; /* from 1 */
    unsigned faults;
    enum section section;
    bool has_bundle; /* whether [Bundle] came */
    struct settings *settings;
};

/* In the line that was read last. */
static void count_and_tell_fault(struct reading *reading, const char *expected, const char *found) {
    reading->faults++;
    complain(reading->printer, "%s:%u: expected %s: %s", reading->path, reading->line, expected, found);
}

/* Takes the head of a section: `line` begins with a bracket. Answers what was expected, or NULL. */
static const char *parse_section(struct reading *reading, const char *line) {
    const char *end = strrchr(line, ']'), *fault = "[Bundle] or [Port INTERFACE]";
    bool is_bundle = strcmp(line, "[Bundle]") == 0, is_port = end && !end[1] && strncmp(line, "[Port ", 6) == 0;
    if (is_bundle) fault = reading->has_bundle ? "one section [Bundle]" : NULL;
    if (is_port) fault = add_port(reading->settings, line + 6, (size_t)(end - line) - 6);
    reading->section = fault ? WRONG_SECTION : is_port ? PORT_SECTION : BUNDLE_SECTION;
    reading->has_bundle = reading->has_bundle || is_bundle;
    return fault;
}

/* What is wrong with a line, before its key and value are looked at, or NULL. The library would cut a line that is too long, take one
 * that begins with a space as the rest of the one before, and take a colon for '='. */
static const char *fault_of(const char *line, size_t length) {
    if (length > LONGEST_FILE_LINE) return "a line of at most 190 octets";
    if (strlen(line) != length) return "no octet of zero in a line";
    if (line[0] == ' ' || line[0] == '\t') return line[strspn(line, " \t")] ? "a line that does not begin with a space" : NULL;
    if (!line[0] || strchr("[#;", line[0]) || strchr(line, '=')) return NULL;
    return "KEY=VALUE";
}

/* Hands the library the next line; an empty one in place of the head of a section, and of one that is wrong. */
static char *take_line_add_port_or_tell_fault(char *into, int room, void *given) {
    struct reading *reading = given;
    char *line = NULL;
    size_t size = 0;
    ssize_t got = getline(&line, &size, reading->file);
    const char *fault;
    if (got >= 0) {
        reading->line++;
        while (got > 0 && (line[got - 1] == '\n' || line[got - 1] == '\r' || line[got - 1] == ' ')) line[--got] = 0;
        fault = fault_of(line, (size_t)got);
        if (!fault && line[0] == '[') fault = parse_section(reading, line);
        if (fault) count_and_tell_fault(reading, fault, line);
        snprintf(into, (size_t)room, "%s\n", fault || line[0] == '[' ? "" : line);
    }
    free(line);
    return got >= 0 ? into : NULL;
}

/* Takes a key and its value, of the section that came last. */
static int parse_pair_or_tell_fault(void *given, const char *section UNUSED, const char *name, const char *value) {
    struct reading *reading = given;
    struct settings *wanted = reading->settings;
    const char *expected = NULL;
    switch (reading->section) {
    case BUNDLE_SECTION: expected = set_bundle(reading->words, wanted, name, value, reading->line); break;
    case PORT_SECTION: expected = set_port(reading->words, &wanted->ports[wanted->port_count - 1], name, value); break;
    case WRONG_SECTION: break;
    default: expected = "[Bundle] or [Port INTERFACE] before keys"; break;
    }
    if (expected) {
        char found[2 * LONGEST_FILE_LINE];
        snprintf(found, sizeof found, "%s=%s", name, value);
        count_and_tell_fault(reading, expected, found);
    }
    return expected == NULL;
}

/* Names the bundle for its file: what stands before .conf. */
static void name_bundle(const char *path, char name[static NAME_ROOM]) {
    const char *slash = strrchr(path, '/'), *file = slash ? slash + 1 : path;
    size_t length = strlen(file);
    if (length > 5 && strcmp(file + length - 5, ".conf") == 0) length -= 5;
    snprintf(name, NAME_ROOM, "%.*s", (int)length, file);
}

/* Opens a file, if it is a regular one of no more than LONGEST_FILE octets; else NULL, and a line. */
static FILE *open_file(struct printer *printer, const char *path) {
    struct stat found;
    CLOSED_FILE int opened = open(path, O_RDONLY | O_CLOEXEC | O_NONBLOCK | O_NOCTTY);
    bool is_there = opened >= 0 && fstat(opened, &found) == 0, is_right = is_there && S_ISREG(found.st_mode) && found.st_size <= LONGEST_FILE;
    FILE *file = is_right ? fdopen(opened, "r") : NULL;
    if (file) (void)kept_open(&opened);
    else complain(printer, "%s: %s", path, is_there && !is_right ? "expected a regular file of at most 65536 octets" : strerror(errno));
    return file;
}

/* Looks at what only all lines say together; answers whether that is right. */
bool check_whole_bundle(struct printer *printer, const char *path, const struct settings *settings) {
    struct lack lack = lack_of(settings);
    if (lack.key)
        complain(printer, "%s:%u: expected %s: %s", path, line_of_key(settings, lack.key), lack.expected, lack.key);
    else if (lack.expected)
        complain(printer, "%s: expected %s", path, lack.expected);
    return !lack.expected;
}

/* Reads a file; answers whether it is right. There is a line for each fault. */
bool read_bundle_file(struct printer *printer, struct words *words, const char *path, struct settings *wanted) {
    CLOSED_STREAM FILE *file = open_file(printer, path);
    struct reading reading = {.printer = printer, .words = words, .file = file, .path = path, .settings = wanted};
    *wanted = usual_settings();
    name_bundle(path, wanted->name);
    if (!file) return false;
    ini_allow_multiline = false;
    ini_allow_inline_comments = false;
    (void)ini_parse_stream(take_line_add_port_or_tell_fault, &reading, parse_pair_or_tell_fault, &reading);
    return reading.faults == 0 && check_whole_bundle(printer, path, wanted);
}
