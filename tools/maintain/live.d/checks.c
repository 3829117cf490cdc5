/* Counts the checks of a program. */
#include "checks.h"

#include <stdio.h>

static unsigned passed, failed;

void check(bool holds, const char *where, const char *what) {
    if (holds) {
        passed++;
        return;
    }
    failed++;
    printf("%s: failed: %s: %s\n", program, where, what);
}

int tell_checks(void) {
    printf("%s: %u passed, %u failed\n", program, passed, failed);
    return failed > 0;
}
