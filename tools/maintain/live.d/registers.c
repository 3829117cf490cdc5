/* Loaded before User-mode Linux 6.1: it hands the kernel of the machine the registers of a process without those of AMX, which that refuses where the processor
 * has them (EFAULT). The rest is as the process has it. */
#define _GNU_SOURCE
#include <dlfcn.h>
#include <elf.h>
#include <stdarg.h>
#include <string.h>
#include <sys/ptrace.h>
#include <sys/syscall.h>
#include <sys/uio.h>
#include <unistd.h>

long
ptrace(enum __ptrace_request request, ...)
{
    static _Thread_local unsigned char whole[1 << 16];
    long (*it)(enum __ptrace_request, ...) = (long (*)(enum __ptrace_request, ...)) dlsym(RTLD_NEXT, "ptrace");
    struct iovec all = { whole, sizeof whole };
    const struct iovec *part;
    va_list words;
    pid_t process;
    void *at, *data;

    va_start(words, request);
    process = va_arg(words, pid_t);
    at = va_arg(words, void *);
    data = va_arg(words, void *);
    va_end(words);
    part = data;
    if (request == PTRACE_SETREGSET && at == (void *) NT_X86_XSTATE && !syscall(SYS_ptrace, PTRACE_GETREGSET, process, at, &all)
        && all.iov_len > part->iov_len) {
        memcpy(whole, part->iov_base, part->iov_len);
        data = &all;
    }
    return it(request, process, at, data);
}
