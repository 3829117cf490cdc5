/* Finds the status sockets of daemons, and connects with them. */
#ifndef _GNU_SOURCE
#define _GNU_SOURCE
#endif
#include "sockets.h"

#include <dirent.h>
#include <errno.h>
#include <fcntl.h>
#include <stdio.h>
#include <stdlib.h>
#include <string.h>
#include <sys/socket.h>
#include <sys/stat.h>
#include <sys/un.h>
#include <unistd.h>

unsigned long network_namespace(void) {
    struct stat file;
    return stat("/proc/self/ns/net", &file) == 0 ? (unsigned long)file.st_ino : 0;
}

/* Whether a file is the status socket of a daemon of this network namespace, and of which bundle. */
static bool read_socket_name(unsigned long space, const char *name, char bundle[static 128]) {
    char head[32];
    size_t length = (size_t)snprintf(head, sizeof head, "%lu.", space), whole = strlen(name);
    if (strncmp(name, head, length) != 0 || whole <= length + 5 || strcmp(name + whole - 5, ".sock") != 0) return false;
    snprintf(bundle, 128, "%.*s", (int)(whole - length - 5), name + length);
    return true;
}

/* Finds the status sockets in a folder, and in the folders in it. */
void find_sockets(struct found *found, const char *folder, bool deeper) {
    unsigned long space = network_namespace();
    struct dirent **entries = NULL;
    int count = scandir(folder, &entries, NULL, alphasort);
    if (count < 0 && errno == EACCES) {
        free(found->denied);
        found->denied = strdup(folder);
    }
    for (int i = 0; i < count; i++) {
        char path[SOCKET_PATH_ROOM];
        const char *name = entries[i]->d_name;
        bool fits = name[0] != '.' && snprintf(path, sizeof path, "%s/%s", folder, name) < (int)sizeof path;
        struct stat file;
        if (fits && found->count < MOST_DAEMONS && read_socket_name(space, name, found->sockets[found->count].bundle))
            memcpy(found->sockets[found->count++].path, path, sizeof path);
        else if (fits && deeper && lstat(path, &file) == 0 && S_ISDIR(file.st_mode))
            find_sockets(found, path, false);
        free(entries[i]);
    }
    free(entries);
}

/* Connects with a socket whose whole path may be longer than an address: by its folder. Answers 0, or -errno. */
int connect_to(int fd, const char *path) {
    char folder[SOCKET_PATH_ROOM];
    const char *name = strrchr(path, '/') + 1;
    struct sockaddr_un to = {.sun_family = AF_UNIX};
    snprintf(folder, sizeof folder, "%.*s", (int)(name - path), path);
    int opened = open(folder, O_PATH | O_DIRECTORY | O_CLOEXEC);
    if (opened < 0) return -errno;
    int length = snprintf(to.sun_path, sizeof to.sun_path, "/proc/self/fd/%d/%s", opened, name);
    int fault = length >= (int)sizeof to.sun_path ? -ENAMETOOLONG : connect(fd, (const struct sockaddr *)&to, sizeof to) < 0 ? -errno : 0;
    close(opened);
    return fault;
}
