/* The status sockets of daemons, for whoever asks: the command line, and lagd-snmp. */
#ifndef LAGD_SOCKETS_H
#define LAGD_SOCKETS_H

#include <stdbool.h>

#define MOST_DAEMONS 256
#define SOCKET_PATH_ROOM 512 /* of the path of a socket */

/* The sockets of the daemons of this network namespace. */
struct found {
    unsigned count;
    char *denied; /* the last folder that may not be looked at, or NULL */
    struct found_socket {
        char path[SOCKET_PATH_ROOM], bundle[128];
    } sockets[MOST_DAEMONS];
};

unsigned long network_namespace(void);
void find_sockets(struct found *found, const char *folder, bool deeper);
int connect_to(int fd, const char *path);

#endif
