/* A kernel that has no memory for a packet of several segments that goes up: linked into a daemon by --wrap=writev. */
#define _GNU_SOURCE
#include <errno.h>
#include <sys/uio.h>

#define MOST 4096

ssize_t __real_writev(int fd, const struct iovec *parts, int count);
ssize_t __wrap_writev(int fd, const struct iovec *parts, int count);

ssize_t __wrap_writev(int fd, const struct iovec *parts, int count) {
    size_t octets = 0;
    for (int i = 0; i < count; i++) octets += parts[i].iov_len;
    errno = ENOMEM;
    return octets > MOST ? -1 : __real_writev(fd, parts, count);
}
