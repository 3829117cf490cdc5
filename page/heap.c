/* The heap of the module: blocks of 2^k octets behind 16 octets that say k, and a list of free blocks for each k. The page takes room
 * for what it gives and gets by the same functions. */
typedef unsigned long size_t;
typedef unsigned long uintptr_t;
typedef unsigned long uint64_t;
#define bool _Bool
#define true 1
#define false 0
#define NULL ((void *)0)

extern unsigned char __heap_base;

struct tried {
    bool ok;
    void *at;
};

struct block {
    uint64_t class;
    struct block *next;
};

static struct block *lists[40];
static uintptr_t next;

static void *take(size_t octets) {
    unsigned class = octets <= 16 ? 4 : 64 - (unsigned)__builtin_clzll(octets - 1);
    struct block *block;
    uintptr_t end;
    if (class >= 40) return NULL;
    block = lists[class];
    if (block) {
        lists[class] = block->next;
        return (unsigned char *)block + 16;
    }
    if (!next) next = ((uintptr_t)&__heap_base + 15) & ~(uintptr_t)15;
    end = next + 16 + ((uintptr_t)1 << class);
    if (end > __builtin_wasm_memory_size(0) << 16) {
        uintptr_t pages = (end - (__builtin_wasm_memory_size(0) << 16) + 65535) >> 16;
        uintptr_t grown = __builtin_wasm_memory_grow(0, pages < 16 ? 16 : pages);
        /* Once memory has 32 bits, a refusal is the second of these. */
        if (grown == (uintptr_t)-1 || grown == 0xffffffff) return NULL;
    }
    block = (struct block *)next;
    next = end;
    block->class = class;
    return (unsigned char *)block + 16;
}

static struct block *of(void *at) { return (struct block *)((unsigned char *)at - 16); }

struct tried rattle_alloc(size_t octets, size_t align) {
    void *at = take(octets ? octets : align);
    return (struct tried){at != NULL, at ? at : (void *)16};
}

void rattle_dealloc(void *at) {
    struct block *block = of(at);
    block->next = lists[block->class];
    lists[block->class] = block;
}

struct tried rattle_realloc(void *at, size_t kept, size_t octets, size_t align) {
    void *to;
    if (octets <= (size_t)1 << of(at)->class) return (struct tried){true, at};
    to = take(octets ? octets : align);
    if (!to) return (struct tried){false, (void *)16};
    __builtin_memcpy(to, at, kept);
    rattle_dealloc(at);
    return (struct tried){true, to};
}

/* For the page: 0 where there is no memory. It frees nothing: each job has an instance of its own. */
void *page_alloc(size_t octets) { return take(octets); }
