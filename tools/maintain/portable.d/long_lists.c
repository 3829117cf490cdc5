/* Lists that are longer than a configuration may have: they are refused, as lag.h has it, before any memory is asked for, on each processor. A handle that
 * holds a system, too, says so first. The program prints what was answered, and how many octets were asked for; none is given, but where it says so. */
#include <stdio.h>

#include "lag.h"

#define MANY 100000

void *__real_malloc(size_t size);
void *__wrap_malloc(size_t size);
void *__real_realloc(void *at, size_t size);
void *__wrap_realloc(void *at, size_t size);

static bool refused;
static size_t asked;

void *__wrap_malloc(size_t size) {
    asked += size;
    return refused ? NULL : __real_malloc(size);
}

void *__wrap_realloc(void *at, size_t size) {
    asked += size;
    return refused ? NULL : __real_realloc(at, size);
}

static uint16_t keys[MANY];
static struct niw_port ports[100];
static struct niw_saved saved[65];

static void tell(const char *what, struct niw_made made) {
    printf("%s: %s", what, niw_status_text(made.status));
    if (made.status == NIW_BAD_CONFIG) printf(", %s", niw_reason_text(made.reason));
    printf("; %u octets asked for\n", (unsigned)asked);
    asked = 0;
}

int main(void) {
    struct niw_config config = {.priority = 1, .conversations = NIW_FEW_CONVERSATIONS}, other = {.conversations = 2};
    struct niw_system held = NIW_EMPTY, empty = NIW_EMPTY;
    static char line[1000]; /* printf asks malloc for none */
    refused = true;
    asked = 0;
    setvbuf(stdout, line, _IOLBF, sizeof line);
    for (unsigned i = 0; i < sizeof ports / sizeof *ports; i++) ports[i].number = (uint16_t)(i + 1);
    tell("100 ports", niw_new(&empty, &config, keys, 1, ports, 100));
    tell("100000 aggregators", niw_new(&empty, &config, keys, MANY, ports, 1));
    tell("a warm start with 100 ports", niw_resume(&empty, &config, keys, 1, ports, 100, saved, 1));
    tell("65 saved ports, 2 conversations", niw_resume(&empty, &other, keys, 1, ports, 1, saved, 65));
    refused = false;
    printf("65 saved ports that are none, with memory: %s\n", niw_status_text(niw_resume(&empty, &config, keys, 1, ports, 1, saved, 65).status));
    if (niw_new(&held, &config, keys, 1, ports, 1).status != NIW_OK) return 1;
    refused = true;
    asked = 0;
    tell("a handle that holds a system, 100 ports", niw_new(&held, &config, keys, 1, ports, 100));
    tell("so by a warm start with 65 saved ports", niw_resume(&held, &config, keys, 1, ports, 1, saved, 65));
    refused = false;
    niw_free(&held);
    return 0;
}
