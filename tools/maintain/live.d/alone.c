/* What stands in for lagd/lines.c where sources of the daemon run alone: what the library refuses, and whatever stops a daemon, ends the program. */
#define _GNU_SOURCE
#include <stdio.h>
#include <stdlib.h>

#include "checks.h"
#include "daemon.h"

void stop(int status, const char *what, const char *which) {
    printf("%s: %s: %s\n", program, what, which);
    exit(status);
}

bool is_done(struct core *core, uint32_t status, const char *call) {
    if (status != NIW_OK) stop(1, call, niw_status_text(status));
    return true;
}

bool is_told(struct core *core, struct niw_number answer, const char *call, uint64_t *number) {
    *number = answer.number;
    return is_done(core, answer.status, call);
}
