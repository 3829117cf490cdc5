/* The folder of the status socket, and of what members had. */
#include "lagd.h"

/* Of Linux 5.14, and not in older headers. */
#ifndef SO_NETNS_COOKIE
#define SO_NETNS_COOKIE 71
#endif

/* A number that this network namespace alone ever has on this machine, or 0 where the kernel tells none: that of network_namespace may be another
 * one's once it is gone. */
uint64_t namespace_cookie(void) {
    uint64_t cookie = 0;
    socklen_t length = sizeof cookie;
    CLOSED_FILE int asker = socket(AF_UNIX, SOCK_DGRAM | SOCK_CLOEXEC, 0);
    return getsockopt(asker, SOL_SOCKET, SO_NETNS_COOKIE, &cookie, &length) == 0 ? cookie : 0;
}

/* Opens a regular file of a folder, for who owns it alone; or answers NULL, and errno tells why not. It follows no link, and waits for nobody at the
 * other end of a FIFO. */
FILE *open_in(int folder, const char *name, int flags, const char *mode) {
    struct stat found = {0};
    CLOSED_FILE int opened = openat(folder, name, flags | O_NOFOLLOW | O_NONBLOCK | O_CLOEXEC, 0600);
    if (opened >= 0 && fstat(opened, &found) == 0 && !S_ISREG(found.st_mode)) errno = EINVAL;
    FILE *file = S_ISREG(found.st_mode) ? fdopen(opened, mode) : NULL;
    if (file) (void)kept_open(&opened);
    return file;
}

/* Why a folder that is open, or a file in it, is refused, or NULL: others may have written it. */
const char *fault_of_owner(int opened) {
    struct stat found;
    if (fstat(opened, &found) < 0) return strerror(errno);
    if (found.st_uid != 0 && found.st_uid != geteuid()) return "the folder belongs to another user";
    return found.st_mode & (S_IWGRP | S_IWOTH) ? "other users may write the folder" : NULL;
}

/* Opens the folder, and makes it where it is missing; or answers -1, and why not, which errno tells where `fault` is NULL. One of another user,
 * one that others may write, and a symbolic link to one are refused: whoever has it could put a link or a socket of his own in it. */
int open_or_make_folder(const char *folder, const char **fault) {
    const int flags = O_RDONLY | O_DIRECTORY | O_NOFOLLOW | O_CLOEXEC;
    CLOSED_FILE int opened = open(folder, flags); /* one that is there needs nothing of its disk */
    bool made = opened < 0 && errno == ENOENT && mkdir(folder, 0755) == 0;
    if (made || (opened < 0 && errno == EEXIST)) opened = open(folder, flags);
    *fault = errno == ELOOP || errno == ENOTDIR ? "a symbolic link, or no folder" : NULL;
    if (opened < 0) return -1;
    if (made) (void)fchmod(opened, 0755); /* whatever the umask is */
    *fault = fault_of_owner(opened);
    return *fault ? -1 : kept_open(&opened);
}

/* Opens the folder, without which there is no daemon. */
int open_or_make_status_folder_or_stop(const char *folder) {
    const char *fault;
    int opened = open_or_make_folder(folder, &fault);
    if (opened < 0 && fault) stop(REFUSED, fault, folder);
    if (opened < 0) stop(REFUSED, folder, strerror(errno));
    return opened;
}
