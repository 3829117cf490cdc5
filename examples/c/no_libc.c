/* Two ends without a C library and without a heap: the six functions that liblag.a imports stand here, over a buffer of the program's, which is as
 * large as NIW_MEMORY says for two systems.
 *
 * cc -ffreestanding -nostdlib -static -Iout/lib -o no_libc examples/c/no_libc.c out/lib/liblag.a && ./no_libc
 * It is for Linux on x86-64 and arm64, since it ends by a call of that kernel.
 * No header of a C library is wanted.
 *
 * Only niw_new asks for memory, and what it got goes back by niw_free alone: so nothing is kept of a block but its length. */
#include "lag.h"

#define ROOM (2 * NIW_MEMORY(1, 1, NIW_FEW_CONVERSATIONS))

static _Alignas(16) uint8_t room[ROOM];
static size_t taken;

void *malloc(size_t size);
void *realloc(void *at, size_t size);
void free(void *at);
void *memcpy(void *restrict to, const void *restrict from, size_t length);
void *memmove(void *to, const void *from, size_t length);
void *memset(void *to, int value, size_t length);

/* Each block stands behind 16 octets that have its length. */
void *malloc(size_t size) {
    size_t whole = 16 + ((size + 15) & ~(size_t)15);
    uint8_t *at = room + taken;
    if (size > ROOM || whole > ROOM - taken) return NULL;
    taken += whole;
    memcpy(at, &size, sizeof size);
    return at + 16;
}

void *realloc(void *at, size_t size) {
    size_t old = 0;
    void *made = malloc(size);
    if (!made || !at) return made;
    memcpy(&old, (uint8_t *)at - 16, sizeof old);
    return memcpy(made, at, old < size ? old : size);
}

/* What is freed is not used again. */
void free(void *at) {
    (void)at;
}

void *memcpy(void *restrict to, const void *restrict from, size_t length) {
    return memmove(to, from, length);
}

/* Octet by octet; volatile keeps the compiler from calling memmove for it. */
void *memmove(void *to, const void *from, size_t length) {
    volatile uint8_t *out = to;
    const volatile uint8_t *in = from;
    for (size_t at = 0; at < length; at++) {
        size_t place = (uintptr_t)to < (uintptr_t)from ? at : length - 1 - at;
        out[place] = in[place];
    }
    return to;
}

void *memset(void *to, int value, size_t length) {
    volatile uint8_t *out = to;
    for (size_t at = 0; at < length; at++) out[at] = (uint8_t)value;
    return to;
}

static bool make_end(struct niw_system *end, uint8_t number) {
    struct niw_config config = {.priority = 32768, .mac = {2, 0, 0, 0, 0, number}, .conversations = NIW_FEW_CONVERSATIONS};
    struct niw_port port = {.number = 1, .mac = {2, 0, 0, 0, 0, number}, .key = 1, .aggregatable = true, .active = true};
    return niw_new(end, &config, &port.key, 1, &port, 1).status == NIW_OK && niw_set_link(end, 1, true) == NIW_OK;
}

static void pass(struct niw_system *from, struct niw_system *to) {
    uint8_t frame[NIW_FRAME], response[NIW_FRAME];
    niw_tick(from);
    while (niw_transmit(from, 1, frame, sizeof frame).is) niw_receive(to, 1, frame, sizeof frame, response, sizeof response);
}

/* Whether both ends distribute within 10 s. */
static bool come_up(void) {
    struct niw_system one = NIW_EMPTY, two = NIW_EMPTY;
    if (!make_end(&one, 1) || !make_end(&two, 2)) return false;
    for (int tick = 0; tick < 100 && !(niw_distributes(&one, 1).is && niw_distributes(&two, 1).is); tick++) {
        pass(&one, &two);
        pass(&two, &one);
    }
    return niw_distributes(&one, 1).is && niw_distributes(&two, 1).is;
}

/* Where the kernel begins the program; a bare machine has its own way in. The status is 0 if both ends came up. */
_Noreturn void _start(void);
#ifdef __x86_64__
__attribute__((force_align_arg_pointer))
#endif
_Noreturn void _start(void) {
    long status = come_up() ? 0 : 1;
    for (;;) {
#ifdef __x86_64__
        __asm__ volatile("syscall" : : "a"(60L), "D"(status) : "rcx", "r11", "memory");
#else
        register long call __asm__("x8") = 93, value __asm__("x0") = status;
        __asm__ volatile("svc 0" : : "r"(call), "r"(value) : "memory");
#endif
    }
}
