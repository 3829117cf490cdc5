/* Whoever asks: the command line, the status socket, and what is told there. */
#ifndef LAGD_CONTROL_H
#define LAGD_CONTROL_H

#include "tap/tap.h"
#include "team/team.h"

/* What is written for whoever asks. What 64 ports of the longest names have to tell has less than 2 MiB. */
#define REPORT_ROOM 4194304
struct report {
    char text[REPORT_ROOM];
    size_t length;
    uint32_t refusal; /* the status of the first call that the library refused, or NIW_OK; */
    const char *refused; /* and that call: what it refuses to tell is not told half */
};

/* What is told of a daemon, and what is done for who asks. */
struct control {
    PARTS
    struct carry *carry;
};

/* options.c */
void read_options_and_file_or_stop(struct process *process, int argc, char **argv, struct options *options);

/* possible.c */
int choose_plane_unshare_and_check_or_stop(struct printer *printer, struct plane *plane, const struct options *options);
int tell_lack(struct printer *printer, const struct options *options, const char *key, const char *what, int status);
int check_programs_or_stop(struct printer *printer, const struct options *options, const char *key, bool waits);

/* status.c */
void serve_caller(struct control *control, uint32_t caller);

/* carry_show.c */
void show_carry(struct report *report, const struct control *control, enum form form);
void show_member(struct report *report, const struct control *control, const struct link *link, enum form form);
void show_markers(struct report *report, const struct control *control);
void show_queues(struct report *report, const struct control *control, const struct link *link, enum form form);
void show_frames_waiting(struct report *report, const struct control *control, enum form form);
void show_waiting_buckets(struct report *report, const struct control *control, enum form form);

/* show.c, metrics.c */
void add(struct report *report, const char *format, ...) __attribute__((format(printf, 2, 3)));
void add_string(struct report *report, const char *text);
bool note_answer(struct report *report, uint32_t status, const char *call);
void write_text(struct report *report, const struct control *control);
void write_config(struct report *report, const struct control *control);
void write_json(struct report *report, const struct control *control);
void write_json_event(struct report *report, const struct control *control, const struct link *link);
void write_metrics(struct report *report, const struct control *control);
void add_head(struct report *report, const char *name, const char *kind, const char *help);
void add_bundle_value(struct report *report, const char *bundle, const char *name, const char *kind, const char *help, uint64_t value);
void add_value_of(struct report *report, const char *name, const char *bundle, uint64_t value);
void add_port_value(struct report *report, const char *bundle, const char *name, const struct link *link, uint64_t value);

/* asking.c */
int ask_daemons_or_stop(struct printer *printer, struct report *report, const struct options *options);

#endif
