/* A kernel that waits for no program once the daemon has started: linked into a daemon by --wrap=syscall. */
#include <errno.h>
#include <stdarg.h>
#include <sys/syscall.h>

long __real_syscall(long number, ...);
long __wrap_syscall(long number, ...);

long __wrap_syscall(long number, ...) {
    static unsigned waits;
    long words[5];
    va_list given;
    va_start(given, number);
    for (unsigned i = 0; i < sizeof words / sizeof *words; i++) words[i] = va_arg(given, long);
    va_end(given);
    if (number != SYS_membarrier || waits++ == 0) return __real_syscall(number, words[0], words[1], words[2], words[3], words[4]);
    errno = EPERM;
    return -1;
}
