/* memcpy, memmove and memset that move words of 32 bits where both places are aligned alike: for a C library whose own move octet by octet. Compile it by
 * -fno-tree-loop-distribute-patterns, lest the compiler make calls of these functions of their loops. */
#include <stddef.h>
#include <stdint.h>

typedef uint32_t __attribute__((may_alias)) word;
enum { WORD = sizeof(word) };

void *memcpy(void *restrict to, const void *restrict from, size_t length);
void *memmove(void *to, const void *from, size_t length);
void *memset(void *to, int value, size_t length);

static void forward(uint8_t *target, const uint8_t *source, size_t length) {
    if (((uintptr_t)target ^ (uintptr_t)source) % WORD == 0) {
        for (; length > 0 && (uintptr_t)target % WORD != 0; length--) *target++ = *source++;
        for (; length >= WORD; length -= WORD, target += WORD, source += WORD) *(word *)(void *)target = *(const word *)(const void *)source;
    }
    while (length-- > 0) *target++ = *source++;
}

static void backward(uint8_t *target, const uint8_t *source, size_t length) {
    target += length, source += length;
    if (((uintptr_t)target ^ (uintptr_t)source) % WORD == 0) {
        for (; length > 0 && (uintptr_t)target % WORD != 0; length--) *--target = *--source;
        for (; length >= WORD; length -= WORD) target -= WORD, source -= WORD, *(word *)(void *)target = *(const word *)(const void *)source;
    }
    while (length-- > 0) *--target = *--source;
}

void *memcpy(void *restrict to, const void *restrict from, size_t length) {
    forward(to, from, length);
    return to;
}

void *memmove(void *to, const void *from, size_t length) {
    if ((uintptr_t)to - (uintptr_t)from < length) backward(to, from, length); /* it begins within what it moves */
    else forward(to, from, length);
    return to;
}

void *memset(void *to, int value, size_t length) {
    uint8_t *target = to;
    word all = (uint8_t)value * UINT32_C(0x01010101);
    for (; length > 0 && (uintptr_t)target % WORD != 0; length--) *target++ = (uint8_t)value;
    for (; length >= WORD; length -= WORD, target += WORD) *(word *)(void *)target = all;
    while (length-- > 0) *target++ = (uint8_t)value;
    return to;
}
