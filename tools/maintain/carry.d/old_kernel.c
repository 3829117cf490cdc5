/* A kernel without TCX, as Linux before 6.6 is, and which gives a device a carrier as it is opened, as one before 6.0 does: linked into a
 * daemon by --wrap=attach_program and --wrap=ioctl. */
#define _GNU_SOURCE
#include <errno.h>
#include <linux/if_tun.h>
#include <net/if.h>
#include <stdarg.h>
#include <stdbool.h>
#include <sys/ioctl.h>

#define NO_CARRIER 0x40

int __real_ioctl(int fd, unsigned long what, ...);
int __wrap_ioctl(int fd, unsigned long what, ...);
int __wrap_attach_program(int program, int index, bool egress);

int __wrap_ioctl(int fd, unsigned long what, ...) {
    va_list more;
    void *value;
    va_start(more, what);
    value = va_arg(more, void *);
    va_end(more);
    if (what == TUNSETIFF) {
        struct ifreq *device = value;
        device->ifr_flags = (short)(device->ifr_flags & ~NO_CARRIER);
    }
    return __real_ioctl(fd, what, value);
}

int __wrap_attach_program(int program, int index, bool egress) {
    (void)program;
    (void)index;
    (void)egress;
    return -EINVAL;
}
