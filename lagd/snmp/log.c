/* Lines on standard error. */
#define _GNU_SOURCE
#include <stdarg.h>
#include <stdio.h>

#include "snmp.h"

/* The most lines within so many milliseconds: a socket that always tells nonsense fills no journal. */
#define MOST_LINES 10
#define WHILE 60000

/* Counts a line; answers whether it may be written. */
static bool spend_line(void) {
    static uint64_t began;
    static unsigned lines;
    uint64_t time = milliseconds();
    if (lines == 0 || time - began >= WHILE) {
        began = time;
        lines = 0;
    }
    return lines++ < MOST_LINES;
}

/* Writes a line, in which what is not printable ASCII is shown as \xHH. */
void complain(const char *format, ...) {
    char raw[1024];
    va_list given;
    if (!spend_line()) return;
    va_start(given, format);
    (void)vsnprintf(raw, sizeof raw, format, given);
    va_end(given);
    fputs("lagd-snmp: ", stderr);
    for (const char *at = raw; *at; at++) {
        unsigned char octet = (unsigned char)*at;
        fprintf(stderr, octet >= 0x20 && octet < 0x7f ? "%c" : "\\x%02x", octet);
    }
    fputc('\n', stderr);
}
