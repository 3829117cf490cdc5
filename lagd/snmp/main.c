/* lagd-snmp: a subagent of snmpd (AgentX, RFC 2741) that tells of the bundles of this network namespace by IEEE8023-LAG-MIB. It asks each
 * daemon as `lagd --status --json` does. In C, since Debian 12 has no AgentX library for Python. */
#define _GNU_SOURCE
#include <net-snmp/net-snmp-config.h>

#include <net-snmp/net-snmp-includes.h>

#include <net-snmp/agent/net-snmp-agent-includes.h>

#include <getopt.h>
#include <signal.h>
#include <stdio.h>
#include <stdlib.h>

#include "lag.h"
#include "snmp.h"

/* In seconds: how often the daemons are asked where no manager does, for dot3adTablesLastChanged; and how often snmpd is looked for. */
#define EVERY 5
#define WRONG_WORD 2

static const char HELP[] =
    "usage: lagd-snmp [--agentx ADDRESS] [--folder FOLDER]\n"
    "\n"
    "Tells SNMP managers of the bundles of this network namespace, by IEEE8023-LAG-MIB (IEEE 802.1AX-2014, annex D). It is a subagent of\n"
    "snmpd (AgentX), and asks each daemon for its status, as lagd --status does. Nothing can be written. What is answered is a second old at\n"
    "most; a daemon that does not answer within 0.7 s has no rows.\n"
    "\n"
    "There are dot3adAggTable, dot3adAggPortListTable, dot3adAggPortTable, dot3adAggPortStatsTable and dot3adTablesLastChanged. An index is\n"
    "the ifIndex of the kernel, and a bit of a list stands for it. The aggregator of a bundle is the device of its key carry, which stands for the\n"
    "active aggregator, or else for the lowest one that a port has chosen. A bundle without carry has rows of ports alone, which are\n"
    "attached to none. A port whose link is down stays attached, and neither collects nor distributes.\n"
    "\n"
    "With lagd-snmp.service, snmpd needs these lines in /etc/snmp/snmpd.conf, and a view with the last object:\n"
    "\n"
    "    master agentx\n"
    "    agentXPerms 0660 0755 Debian-snmp lagd\n"
    "    view systemonly included .1.2.840.10006.300.43\n"
    "\n"
    "options:\n"
    "  -x, --agentx ADDRESS  of snmpd, as tcp:localhost:705; /var/agentx/master if not given\n"
    "  -f, --folder FOLDER   of status sockets; /run/lagd if not given\n"
    "  -h, --help            prints this\n"
    "  -V, --version         prints the version\n";

static volatile sig_atomic_t ended;

static void end(int signal) {
    (void)signal;
    ended = 1;
}

static void refresh_at_alarm(unsigned number, void *nothing) {
    (void)number;
    (void)nothing;
    refresh_from_daemons_or_complain();
}

/* Reads the command line; answers the status with which the program ends at once, or -1. */
static int set_options_or_print(int count, char **words) {
    static const struct option options[] = {{"agentx", required_argument, NULL, 'x'}, {"folder", required_argument, NULL, 'f'},
        {"help", no_argument, NULL, 'h'}, {"version", no_argument, NULL, 'V'}, {0}};
    for (int letter; (letter = getopt_long(count, words, "x:f:hV", options, NULL)) != -1;) {
        if (letter == 'x') netsnmp_ds_set_string(NETSNMP_DS_APPLICATION_ID, NETSNMP_DS_AGENT_X_SOCKET, optarg);
        if (letter == 'f') status_folder = optarg;
        if (letter == 'h') fputs(HELP, stdout);
        if (letter == 'V') printf("lagd-snmp %s\n", NIW_VERSION_TEXT);
        if (letter == 'h' || letter == 'V') return fflush(stdout) == 0 ? 0 : 1;
        if (letter == '?') return WRONG_WORD;
    }
    if (optind < count) fprintf(stderr, "lagd-snmp: it takes no word: %s\n", words[optind]);
    return optind < count ? WRONG_WORD : -1;
}

/* Makes it a subagent, which reads and keeps no file: no names of objects either. */
static void set_up_net_snmp_and_environment(void) {
    (void)setenv("MIBS", "", 1);
    netsnmp_ds_set_boolean(NETSNMP_DS_APPLICATION_ID, NETSNMP_DS_AGENT_ROLE, 1);
    netsnmp_ds_set_boolean(NETSNMP_DS_LIBRARY_ID, NETSNMP_DS_LIB_DONT_READ_CONFIGS, 1);
    netsnmp_ds_set_boolean(NETSNMP_DS_LIBRARY_ID, NETSNMP_DS_LIB_DONT_PERSIST_STATE, 1);
    snmp_enable_stderrlog();
}

int main(int count, char **words) {
    struct sigaction on_end = {.sa_handler = end};
    int status;
    set_up_net_snmp_and_environment();
    status = set_options_or_print(count, words);
    if (status >= 0) return status;
    if (init_agent("lagd-snmp") != 0) return 1;
    netsnmp_ds_set_int(NETSNMP_DS_APPLICATION_ID, NETSNMP_DS_AGENT_AGENTX_PING_INTERVAL, EVERY);
    register_all_or_stop();
    init_snmp("lagd-snmp");
    (void)sigaction(SIGTERM, &on_end, NULL);
    (void)sigaction(SIGINT, &on_end, NULL);
    (void)signal(SIGPIPE, SIG_IGN); /* snmpd may go at any time */
    (void)snmp_alarm_register(EVERY, SA_REPEAT, refresh_at_alarm, NULL);
    refresh_from_daemons_or_complain();
    while (!ended) (void)agent_check_and_process(1);
    snmp_shutdown("lagd-snmp");
    return 0;
}
