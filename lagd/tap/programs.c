/* Loads the programs that the kernel runs for frames (kernel/programs.bpf.c), by libbpf. */
#include "tap.h"
#include "programs.skel.h"

/* The room of what the verifier of the kernel writes. */
#define LOG_ROOM (1 << 20)

static char first_warning[REASON_ROOM]; /* static: libbpf_set_print hands its function no data */

static void copy_line(char reason[static REASON_ROOM], const char *line) {
    snprintf(reason, REASON_ROOM, "%.*s", (int)strcspn(line, "\n"), line);
}

/* What libbpf tells first is the reason, where the verifier has none. */
static int keep_first_warning(enum libbpf_print_level level, const char *format, va_list values) {
    char text[2 * REASON_ROOM];
    if (level != LIBBPF_WARN || first_warning[0]) return 0;
    vsnprintf(text, sizeof text, format, values);
    copy_line(first_warning, text);
    return 0;
}

/* Copies what the verifier wrote last, but for the lines of what it did. */
static void copy_last(char reason[static REASON_ROOM], char *log) {
    char *rest = log;
    for (char *line; (line = strsep(&rest, "\n"));)
        if (line[0] && strncmp(line, "processed ", 10) != 0 && strncmp(line, "verification time", 17) != 0 && strncmp(line, "stack depth", 11) != 0)
            copy_line(reason, line);
}

static bool reuse_map(struct bpf_map *map, const int *table) {
    return (table ? bpf_map__reuse_fd(map, *table) : bpf_map__set_autocreate(map, false)) == 0;
}

/* Says which program is loaded, what it has of the settings, and its tables, if it has some; answers whether all of it can be. */
static bool prepare_programs(const struct settings *settings, struct programs *made, const char *name, const struct fast_maps *maps) {
    struct bpf_program *program;
    bpf_object__for_each_program(program, made->obj) (void)bpf_program__set_autoload(program, strcmp(bpf_program__name(program), name) == 0);
    made->rodata->way = settings->hash;
    made->rodata->hash_seed = settings->hash_seed;
    made->rodata->all_queues = settings->all_queues;
    return reuse_map(made->maps.rows, maps ? &maps->rows : NULL) && reuse_map(made->maps.members, maps ? &maps->members : NULL)
        && reuse_map(made->maps.hosts, maps ? &maps->host : NULL) && reuse_map(made->maps.places, maps ? &maps->places : NULL);
}

/* Loads one program, with the tables that it has, if it has some; answers its file, or -errno, and a reason, unless that is NULL. */
int load_program_or_stop(const struct settings *settings, const char *name, const struct fast_maps *maps, char *reason) {
    char *log = allocate_or_stop(LOG_ROOM); /* the kernel fills what it needs of it */
    const struct bpf_object_open_opts options = {.sz = sizeof options, .kernel_log_buf = log, .kernel_log_size = LOG_ROOM};
    first_warning[0] = 0;
    (void)libbpf_set_print(keep_first_warning);
    struct programs *made = programs__open_opts(&options);
    int loaded = -1;
    if (made && prepare_programs(settings, made, name, maps) && programs__load(made) == 0)
        loaded = fcntl(bpf_program__fd(bpf_object__find_program_by_name(made->obj, name)), F_DUPFD_CLOEXEC, 0);
    if (loaded < 0) loaded = last_fault();
    programs__destroy(made);
    if (loaded < 0 && reason) {
        copy_line(reason, first_warning[0] ? first_warning : strerror(-loaded));
        copy_last(reason, log);
    }
    free(log);
    return loaded;
}
