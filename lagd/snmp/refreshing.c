/* What is answered: no older than a second. */
#define _GNU_SOURCE
#include <net-snmp/net-snmp-config.h>

#include <net-snmp/net-snmp-includes.h>

#include <net-snmp/agent/net-snmp-agent-includes.h>

#include <time.h>

#include "snmp.h"

/* How old what is answered may be, in milliseconds. */
#define OLDEST 1000
/* The hundredths of a second by which sysUpTime may go back without a new start of snmpd: it is told anew now and then. */
#define JITTER 100

const char *status_folder = "/run/lagd";
struct told now;

static uint64_t asked_at;
static unsigned long changed, up;

uint64_t milliseconds(void) {
    struct timespec time;
    clock_gettime(CLOCK_BOOTTIME, &time);
    return (uint64_t)time.tv_sec * 1000 + (uint64_t)time.tv_nsec / 1000000;
}

/* When rows came, went or changed last, as far as it was seen, in hundredths of a second of sysUpTime; 0: before snmpd started. */
unsigned long changed_at(void) {
    return changed;
}

/* Asks the daemons, if what they told is too old. */
void refresh_from_daemons_or_complain(void) {
    struct told next = {0};
    unsigned long before = up;
    up = netsnmp_get_agent_uptime();
    if (up + JITTER < before) changed = 0;
    if (asked_at && milliseconds() - asked_at < OLDEST) return;
    forget(&next);
    ask_all_daemons_or_complain(status_folder, read_status_look_at_device_or_complain, &next);
    if (!is_same(&now, &next)) changed = up;
    forget(&now);
    now = next;
    asked_at = milliseconds();
}
