/* The command line. Its options have the names of the keys of a bundle. */
#include "control.h"

#include <getopt.h>

static const char HELP_BEGINS[] = "lagd: Link Aggregation Control Protocol for interfaces of Linux\n"
    "  lagd --config FILE [--folder FOLDER] | --check FILE\n"
    "  lagd [OPTION..] KEY PRIORITY,MAC INTERFACE[:WORD,..]..\n"
    "  lagd --status | --show-config | --watch [--json] | --metrics [--folder FOLDER]\n"
    "KEY is 0 to 65535; PRIORITY,MAC the system, as 32768,02:00:00:00:00:01, or auto. Interfaces are ports 1, 2 and on. SIGTERM, SIGINT,\n"
    "SIGQUIT, SIGHUP tell the peers and end it; with --config SIGHUP reads the file again. SIGUSR1 has the next lagd go on from here.\n";

static const char HELP_ENDS[] = "  -j, --json      -h, --help      -V, --version\n"
    "\n"
    "In brackets: what holds if not given. Words of an interface stand over the options: %s.\n"
    "Status: 0; 1: the kernel or another lagd is in the way, or none answers; 2: a wrong word or file. docs/LAGD.md says more.\n";

/* An option that no file has. */
struct option_text {
    char letter;
    const char *name, *value, *help; /* `value`: the word for it in the help; NULL: it has none */
    enum action action;              /* RUN_BUNDLE: it does not choose what the program does */
};

/* In the order of the help, which has the keys of a bundle behind LAST_BEFORE_KEYS. */
#define LAST_BEFORE_KEYS 'k'
static const struct option_text OPTIONS[] = {
    {'c', "config", "FILE", "runs the bundle of this file", RUN_BUNDLE},
    {'k', "check", "FILE", "says what is wrong with a file, or what is missing here", CHECK},
    {'f', "folder", "FOLDER", "of status sockets (/run/lagd)", RUN_BUNDLE},
    {'s', "status", NULL, "prints the state of each lagd of the folder", SHOW},
    {'D', "show-config", NULL, "prints its settings, as a file has them", SHOW_CONFIG},
    {'w', "watch", NULL, "prints each change, as it happens", WATCH},
    {'j', "json", NULL, NULL, RUN_BUNDLE},
    {'M', "metrics", NULL, "prints counts and states for Prometheus", METRICS},
    {'I', "add", "IFACE[:WORD,..]", "has it join the bundle until a reload or restart; root alone may, as the next three", ORDER},
    {'E', "remove", "IFACE", "has it leave, and ends then", ORDER},
    {'L', "hold", "IFACE", "has its data leave it, and ends then", ORDER},
    {'G', "release", "IFACE", "has it used again", ORDER},
    {'h', "help", NULL, NULL, RUN_BUNDLE},
    {'V', "version", NULL, NULL, RUN_BUNDLE},
    {0},
};

/* The words of an interface: the key of a port that each gives, and its value; NULL: that is the number behind `=`. */
static const struct {
    const char *word, *key, *value;
} PORT_WORDS[] = {
    {"key=N", "key", NULL},
    {"priority=N", "priority", NULL},
    {"short", "timeout", "short"},
    {"long", "timeout", "long"},
    {"active", "activity", "active"},
    {"passive", "activity", "passive"},
    {"individual", "individual", "yes"},
};

enum { PORT_WORD_COUNT = sizeof PORT_WORDS / sizeof *PORT_WORDS, OPTION_ROOM = MOST_BUNDLE_KEYS + sizeof OPTIONS / sizeof *OPTIONS };

/* The column of the help in which texts begin, if there is room before it. */
enum { TEXT_AT = 30, LEAST_GAP = 3 };

/* An option of the help; its text begins in the same column, but behind a long word. */
static void print_row(char letter, const char *name, const char *value, const char *help) {
    int width = printf("  -%c, --%s%s%s", letter, name, value ? " " : "", value ? value : "");
    printf("%*s%s\n", width + LEAST_GAP > TEXT_AT ? LEAST_GAP : TEXT_AT - width, "", help);
}

static const char *list_port_words(struct words *words, const char *last_joint) {
    words->text[0] = 0;
    for (size_t i = 0; i < PORT_WORD_COUNT; i++) add_word(words, i + 1 < PORT_WORD_COUNT ? ", " : last_joint, PORT_WORDS[i].word);
    return words->text;
}

/* The word for the value of a key in the help; NULL where the option alone says yes. */
static const char *value_word(struct words *words, const struct key *key) {
    if (!key->words) return key->value;
    return strcmp(key->words[0], "yes") == 0 ? NULL : list_choice(words, key, "|", "|");
}

static void print_help(struct words *words) {
    fputs(HELP_BEGINS, stdout);
    for (const struct option_text *row = OPTIONS; row->name; row++) {
        if (row->help) print_row(row->letter, row->name, row->value, row->help);
        for (const struct key *key = BUNDLE_KEYS; row->letter == LAST_BEFORE_KEYS && key->name; key++)
            if (key->letter) print_row(key->letter, key->name, value_word(words, key), key->help);
    }
    printf(HELP_ENDS, list_port_words(words, ", "));
}

static void stop_at_fault(const char *expected, const char *name, const char *value) {
    char found[256];
    if (!expected) return;
    snprintf(found, sizeof found, "%s%sexpected %s", name ? name : "", name ? ": " : "", expected);
    stop(WRONG_WORD, found, value);
}

/* Gives a key of the bundle a value; `shown` is what a refusal calls it. A command line is one line. */
static void set_bundle_key_or_stop(struct words *words, struct options *options, const char *key, const char *shown, const char *text) {
    stop_at_fault(set_bundle(words, &options->settings, key, text, 1), shown, text);
}

/* A text that the library of c/lag.c has, and the native one has not. */
extern const char niw_lag_c[] __attribute__((weak));

static void print_version(void) {
    const char *portable = niw_lag_c;
    puts("lagd " VERSION);
    printf("with %s%s\n", portable ? "liblag of " : "native liblag, for lag.h of ", portable ? portable : VERSION);
}

/* One option. --help and --version end the program. */
static void act_on_letter_or_stop(struct words *words, struct options *options, int letter, const char *last) {
    const struct option_text *row = OPTIONS;
    const struct key *key = BUNDLE_KEYS;
    while (row->name && row->letter != letter) row++;
    while (key->name && key->letter != letter) key++;
    if (row->action != RUN_BUNDLE) {
        if (options->action != RUN_BUNDLE)
            stop(WRONG_WORD, "usage", "one of --check, --status, --watch, --metrics, --add, --remove, --hold and --release; lagd --help tells more");
        options->action = row->action;
        options->order = row->name;
        options->interface = optarg;
    }
    switch (letter) {
    case 'c': case 'k':
        if (options->file) stop(WRONG_WORD, "usage", "one file, by --config or by --check; lagd --help tells more");
        options->file = optarg;
        break;
    case 'f': options->folder = optarg; break;
    case 'j': options->json = true; break;
    case 'h': print_help(words); exit(fflush(stdout) ? REFUSED : DONE);
    case 'V': print_version(); exit(fflush(stdout) ? REFUSED : DONE);
    case '?': case ':': stop(WRONG_WORD, "not an option, or its word is missing", optopt ? (const char[]){'-', (char)optopt, 0} : last);
    default: if (key->name) set_bundle_key_or_stop(words, options, key->name, key->name, optarg ? optarg : "yes");
    }
}

/* A word of an interface; answers NULL, or what was expected. */
static const char *read_port_word(struct words *words, const char *word, struct port_settings *port) {
    for (size_t i = 0; i < PORT_WORD_COUNT; i++) {
        const char *value = PORT_WORDS[i].value;
        size_t begin = strlen(PORT_WORDS[i].word) - 1; /* up to N */
        if (value ? strcmp(word, PORT_WORDS[i].word) == 0 : strncmp(word, PORT_WORDS[i].word, begin) == 0)
            return set_port(words, port, PORT_WORDS[i].key, value ? value : word + begin);
    }
    return list_port_words(words, " or ");
}

/* INTERFACE[:WORD,..], for the next port of settings, which ends the name there; answers NULL, or what was expected in the place of `found`. */
const char *add_port_by_words(struct words *words, char *text, struct settings *settings, const char **found) {
    size_t length = strcspn(text, ":");
    char *rest = text[length] ? text + length + 1 : NULL;
    const char *expected = add_port(settings, text, length);
    *found = text;
    if (!expected) text[length] = 0;
    while (!expected && (*found = strsep(&rest, ","))) expected = read_port_word(words, *found, &settings->ports[settings->port_count - 1]);
    return expected;
}

/* KEY PRIORITY,MAC INTERFACE[:WORD,..].. */
static void read_operands_or_stop(struct words *words, struct options *options, int count, char **given) {
    struct settings *settings = &options->settings;
    if (count < 3) stop(WRONG_WORD, "usage", "lagd [OPTION..] KEY PRIORITY,MAC INTERFACE.., or lagd --config FILE; lagd --help tells more");
    set_bundle_key_or_stop(words, options, "key", "KEY", given[0]);
    set_bundle_key_or_stop(words, options, "system", "system", given[1]);
    for (int i = 2; i < count; i++) {
        const char *found, *expected = add_port_by_words(words, given[i], settings, &found);
        stop_at_fault(expected, NULL, found);
    }
    struct lack lack = lack_of(settings);
    stop_at_fault(lack.expected, NULL, lack.key);
    strcpy(settings->name, settings->ports[0].name);
}

static void read_letters_look_for_hook_or_stop(struct words *words, struct options *options, int argc, char **argv) {
    struct option names[OPTION_ROOM + 1] = {{NULL, 0, NULL, 0}};
    char letters[2 * OPTION_ROOM + 1] = "";
    size_t count = 0, length = 0;
    for (const struct option_text *row = OPTIONS; row->name; row++) names[count++] = (struct option){row->name, row->value != NULL, NULL, row->letter};
    for (const struct key *key = BUNDLE_KEYS; key->name; key++)
        if (key->letter) names[count++] = (struct option){key->name, value_word(words, key) != NULL, NULL, key->letter};
    for (size_t i = 0; i < count; i++) {
        letters[length++] = (char)names[i].val;
        if (names[i].has_arg) letters[length++] = ':';
    }
    opterr = 0;
    for (int letter; (letter = getopt_long(argc, argv, letters, names, NULL)) >= 0;) act_on_letter_or_stop(words, options, letter, argv[optind - 1]);
}

/* Reads the command line, and the file that it names. */
void read_options_and_file_or_stop(struct process *process, int argc, char **argv, struct options *options) {
    static const unsigned no_lines[MOST_BUNDLE_KEYS];
    *options = (struct options){.folder = "/run/lagd", .settings = usual_settings()};
    read_letters_look_for_hook_or_stop(&process->words, options, argc, argv);
    bool has_keys = memcmp(options->settings.lines, no_lines, sizeof no_lines) != 0;
    if (options->json && options->action != SHOW && options->action != WATCH)
        stop(WRONG_WORD, "usage", "lagd --status --json, or lagd --watch --json");
    if ((options->action != RUN_BUNDLE || options->file) && (optind < argc || has_keys))
        stop(WRONG_WORD, "usage", "a file has all of its bundle, and a question has none of it; lagd --help tells more");
    if (options->file && !read_bundle_file(&process->printer, &process->words, options->file, &options->settings)) exit(WRONG_WORD);
    if (options->action == RUN_BUNDLE && !options->file) read_operands_or_stop(&process->words, options, argc - optind, argv + optind);
}
