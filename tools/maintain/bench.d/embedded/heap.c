/* Counts the octets that are held of malloc, calloc and realloc; the program is linked with --wrap for each name. Compilers make calloc of a malloc
 * that is cleared. */
#include <stddef.h>
#include <string.h>

void *__real_malloc(size_t size);
void *__real_realloc(void *old, size_t size);
void __real_free(void *old);
void *__wrap_malloc(size_t size);
void *__wrap_calloc(size_t count, size_t size);
void *__wrap_realloc(void *old, size_t size);
void __wrap_free(void *old);
extern unsigned long heap_held;

unsigned long heap_held;

/* Each block stands behind as many octets as malloc aligns to, which have its size. */
#define HEAD 16

static void *took(void *block, size_t size)
{
    if (!block)
        return NULL;
    memcpy(block, &size, sizeof size);
    heap_held += size;
    return (char *)block + HEAD;
}

static void *gave(void *old)
{
    size_t size;
    if (!old)
        return NULL;
    memcpy(&size, (char *)old - HEAD, sizeof size);
    heap_held -= size;
    return (char *)old - HEAD;
}

void *__wrap_malloc(size_t size)
{
    return took(__real_malloc(size + HEAD), size);
}

void *__wrap_calloc(size_t count, size_t size)
{
    void *made = __wrap_malloc(count * size);
    return made ? memset(made, 0, count * size) : NULL;
}

void *__wrap_realloc(void *old, size_t size)
{
    return took(__real_realloc(gave(old), size + HEAD), size);
}

void __wrap_free(void *old)
{
    __real_free(gave(old));
}
