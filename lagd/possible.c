/* Whether this machine has what carries the data of a file, as far as whoever asks may know. */
#include "control.h"

#include <limits.h>
#include <linux/membarrier.h>
#include <sys/syscall.h>

/* No interface has this index. */
#define NO_INDEX INT_MAX

/* Tells what is lacking, or not known, for a key of the file; answers how the program ends. */
int tell_lack(struct printer *printer, const struct options *options, const char *key, const char *what, int status) {
    complain(printer, "%s:%u: %s: %s", options->file, line_of_key(&options->settings, key), key, what);
    return status;
}

/* Whether the kernel has a program run at an interface, as Linux does from 6.6 on: then it misses the interface alone. 0, or -errno. */
int try_to_attach_program_or_stop(const struct settings *settings) {
    CLOSED_FILE int program = load_program_or_stop(settings, "dropper", NULL, NULL);
    if (program < 0) return program;
    int attached = attach_program(program, NO_INDEX, false);
    return attached == -ENODEV ? 0 : attached;
}

/* Whether the kernel has what a key wants: programs of an interface, and for `fast` to wait for them. Answers how the program ends. */
int check_programs_or_stop(struct printer *printer, const struct options *options, const char *key, bool waits) {
    int fault = try_to_attach_program_or_stop(&options->settings);
    if (fault == -EPERM) return tell_lack(printer, options, key, "not known without CAP_BPF and CAP_NET_ADMIN", DONE);
    if (fault != 0) return tell_lack(printer, options, key, "the kernel has no program of an interface, which Linux has from 6.6 on", REFUSED);
    if (!waits || syscall(SYS_membarrier, MEMBARRIER_CMD_GLOBAL, 0, 0) == 0) return DONE;
    return tell_lack(printer, options, key, "the kernel cannot wait for its programs (membarrier)", REFUSED);
}

/* Says what this machine lacks for a file that is right: answers how the program ends. */
int choose_plane_unshare_and_check_or_stop(struct printer *printer, struct plane *plane, const struct options *options) {
    choose_plane(plane, &options->settings);
    int status = ASK(plane->carrying->check, DONE, printer, plane, options);
    if (status == DONE) status = ASK(plane->passing->check, DONE, printer, plane, options);
    return status == DONE ? ASK(plane->queueing->check, DONE, printer, plane, options) : status;
}
