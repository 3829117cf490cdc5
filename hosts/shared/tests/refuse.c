/* Loaded before a host, so that what it asks for is refused while the folder REFUSE has a file of that name: "memory" that the library asks for; and of
 * libteam "enabled", a port that is to pass frames, the "carrier" of the device and "address" of a port.
 *
 * LIBRARY_AT is "PROGRAM:FROM:TO": where the library stands in a program, as nm tells it. */
#define _GNU_SOURCE
#include <dlfcn.h>
#include <errno.h>
#include <link.h>
#include <stdbool.h>
#include <stdint.h>
#include <stdio.h>
#include <stdlib.h>
#include <string.h>
#include <unistd.h>

void *__libc_malloc(size_t size);
int team_set_port_enabled(void *team, uint32_t port, bool enabled);
int team_carrier_set(void *team, bool up);
int team_hwaddr_set(void *team, uint32_t port, const char *address, unsigned length);

static uintptr_t first, last;

static bool
is_refused(const char *what)
{
    const char *folder = getenv("REFUSE");
    char path[256];

    return folder && snprintf(path, sizeof path, "%s/%s", folder, what) < (int) sizeof path && !access(path, F_OK);
}

static int
note_start(struct dl_phdr_info *program, size_t size, void *unused)
{
    const char *at = getenv("LIBRARY_AT"), *name = program_invocation_short_name;
    size_t length = strlen(name);

    (void) size;
    (void) unused;
    if (at && !strncmp(at, name, length) && sscanf(at + length, ":%zx:%zx", &first, &last) == 2) {
        first += program->dlpi_addr;
        last += program->dlpi_addr;
    }
    return 1; /* The first one is the program. */
}

__attribute__((constructor)) static void
begin(void)
{
    dl_iterate_phdr(note_start, NULL);
}

void *
malloc(size_t size)
{
    uintptr_t caller = (uintptr_t) __builtin_return_address(0);

    if (caller >= first && caller < last && is_refused("memory")) {
        errno = ENOMEM;
        return NULL;
    }
    return __libc_malloc(size);
}

int
team_set_port_enabled(void *team, uint32_t port, bool enabled)
{
    int (*it)(void *, uint32_t, bool) = (int (*)(void *, uint32_t, bool)) dlsym(RTLD_NEXT, "team_set_port_enabled");

    return enabled && is_refused("enabled") ? -ENOBUFS : it(team, port, enabled);
}

int
team_carrier_set(void *team, bool up)
{
    int (*it)(void *, bool) = (int (*)(void *, bool)) dlsym(RTLD_NEXT, "team_carrier_set");

    return up && is_refused("carrier") ? -ENOBUFS : it(team, up);
}

int
team_hwaddr_set(void *team, uint32_t port, const char *address, unsigned length)
{
    int (*it)(void *, uint32_t, const char *, unsigned) = (int (*)(void *, uint32_t, const char *, unsigned)) dlsym(RTLD_NEXT, "team_hwaddr_set");

    return is_refused("address") ? -EBUSY : it(team, port, address, length);
}
