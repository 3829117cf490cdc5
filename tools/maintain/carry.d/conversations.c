/* Prints the conversations of frames: `conversations HASH SEED`, by the number of a hash of settings.h, 1 is layer2+3. Standard input has a
 * frame in each line, in hexadecimal digits. */
#define _GNU_SOURCE
#include <stdio.h>
#include <stdlib.h>
#include <string.h>

#include "daemon.h"

/* The daemon, as far as it is here. */
static struct lagd tested, *lagd = &tested;

int main(int argc, char **argv) {
    char line[4096];
    if (argc != 3) return 2;
    join_parts(lagd);
    lagd->settings.hash = (enum hash)atoi(argv[1]);
    lagd->settings.hash_seed = (uint16_t)atoi(argv[2]);
    while (fgets(line, sizeof line, stdin)) {
        size_t length = strcspn(line, "\n") / 2;
        uint8_t *frame = malloc(length + 1);
        for (size_t i = 0; frame && i < length; i++) {
            const char digits[] = {line[2 * i], line[2 * i + 1], 0};
            frame[i] = (uint8_t)strtoul(digits, NULL, 16);
        }
        if (frame) printf("%u\n", (unsigned)conversation_of(&lagd->core, frame, length).number);
        free(frame);
    }
    return 0;
}
