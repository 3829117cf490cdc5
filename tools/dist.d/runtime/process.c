/* What a program asks of its process, for a processor that the toolchain has no C for: what its crate `os` declares, as far as lagtool
 * calls it. */
#include <errno.h>
#include <stddef.h>
#include <stdint.h>
#include <string.h>
#include <sys/types.h>

#define NONE (-1)  /* there is no such word */
#define SHORT (-2) /* the buffer has no room for it */

ssize_t rattle_arg(size_t place, uint8_t *word, size_t room);
int rattle_errno(void);
void rattle_set_errno(int number);

static size_t count;
static char **words;

/* glibc calls what stands in .init_array with the arguments of main. */
static void keep(int argc, char **argv) {
    count = (size_t)argc;
    words = argv;
}

__attribute__((section(".init_array"), used)) static void (*const keeps)(int, char **) = keep;

/* Writes a word of the command line, without its end; answers its length. */
ssize_t rattle_arg(size_t place, uint8_t *word, size_t room) {
    size_t length;
    if (place >= count || !words[place]) return NONE;
    length = strlen(words[place]);
    if (length > room) return SHORT;
    memcpy(word, words[place], length);
    return (ssize_t)length;
}

int rattle_errno(void) {
    return errno;
}

void rattle_set_errno(int number) {
    errno = number;
}
