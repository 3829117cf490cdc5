/* The MAC address of the first interface: `system=auto` makes it that of the system. */
#include "netlink.h"

#include <net/if_arp.h>

/* Takes the address of the first interface for the system. Where that is not possible, or it is that of the wanted partner, the
 * program ends. */
void read_auto_system_mac_or_stop(struct settings *settings) {
    const char *name = settings->ports[0].name;
    static const uint8_t no_address[6];
    char what[NAME_ROOM + 16];
    struct interface interface;
    snprintf(what, sizeof what, "system=auto: %s", name);
    if (!ask_interface(0, name, &interface)) stop(REFUSED, what, strerror(errno));
    if (interface.type != ARPHRD_ETHER) stop(WRONG_WORD, "not an Ethernet interface", name);
    if (!interface.has_mac || (interface.mac[0] & 1) || memcmp(interface.mac, no_address, sizeof no_address) == 0)
        stop(REFUSED, what, "it has no MAC address that a system may have");
    memcpy(settings->config.mac, interface.mac, sizeof interface.mac);
    struct lack lack = lack_of(settings);
    snprintf(what, sizeof what, "expected %s", lack.expected ? lack.expected : "");
    if (lack.expected) stop(WRONG_WORD, what, lack.key);
}
