#if defined __has_include
#if __has_include("lag.h")
#include "lag.h"
#else
#include "../crates/lagffi/include/lag.h"
#endif
#else
#include "lag.h"
#endif

typedef uint8_t u8;
typedef uint16_t u16;
typedef uint32_t u32;
typedef uint64_t u64;
typedef int8_t s8;
typedef int16_t s16;
typedef int32_t s32;
typedef int64_t s64;

#if __STDC_HOSTED__
#include <stdlib.h>
#include <string.h>
#else
void *memcpy(void *restrict to, const void *restrict from, size_t length);
void *memmove(void *to, const void *from, size_t length);
void *memset(void *to, int value, size_t length);
#ifndef NIW_POOL
void *malloc(size_t size);
void *realloc(void *at, size_t size);
void free(void *at);
#endif
#endif

/* An address as the functions below have it: 64 bits on each processor. */
#define AT(pointer) ((u64)(uintptr_t)(pointer))
#define P(address) ((void *)(uintptr_t)(address))

/* Memory has the octets of a number from low to high, on each processor: ld and st where the address is a multiple of the size, ud and us anywhere. */
#if defined NIW_BIG_ENDIAN
#define IS_BIG NIW_BIG_ENDIAN
#elif defined __BYTE_ORDER__ && defined __ORDER_BIG_ENDIAN__
#define IS_BIG (__BYTE_ORDER__ == __ORDER_BIG_ENDIAN__)
#elif defined _WIN32
#define IS_BIG 0
#else
#error "this compiler does not tell which octet of a number comes first: say -DNIW_BIG_ENDIAN=1 if it is the highest, else =0"
#endif
#ifdef __GNUC__
#define INLINE static inline __attribute__((unused))
#define COPY __builtin_memcpy
#define NEVER __builtin_trap()
#define TURN16 __builtin_bswap16
#define TURN32 __builtin_bswap32
#define TURN64 __builtin_bswap64
#define ARRAY(name, octets) u8 name[octets] __attribute__((aligned(16)))
#define LOADED(bits) typedef u##bits its##bits __attribute__((may_alias));
#define LOAD(bits) u##bits value = *(const its##bits *)at
#define STORE(bits) *(its##bits *)at = value
#else
#define INLINE static inline
#define COPY memcpy
#define NEVER for (;;) {}
#define TURN16(it) ((u16)((it) << 8 | (it) >> 8))
#define TURN32(it) ((it) << 24 | ((it) & 0xff00u) << 8 | ((it) >> 8 & 0xff00u) | (it) >> 24)
#define TURN64(it) ((u64)TURN32((u32)(it)) << 32 | TURN32((u32)((it) >> 32)))
#define ARRAY(name, octets) _Alignas(16) u8 name[octets]
#define LOADED(bits)
#define LOAD(bits) u##bits value; COPY(&value, at, bits / 8)
#define STORE(bits) COPY(at, &value, bits / 8)
#endif

/* Those with `_in` are given a place in an array of the function, so that a compiler sees what else may change it. */
INLINE u32 ld8_in(const void *at) { return *(const u8 *)at; }
INLINE void st8_in(void *at, u8 value) { *(u8 *)at = value; }
INLINE u32 ld8(u64 at) { return ld8_in(P(at)); }
INLINE void st8(u64 at, u8 value) { st8_in(P(at), value); }
#define NUMBERS(bits, told) \
    LOADED(bits) \
    INLINE told ld##bits##_in(const void *at) { LOAD(bits); return IS_BIG ? TURN##bits(value) : value; } \
    INLINE told ud##bits##_in(const void *at) { u##bits value; COPY(&value, at, bits / 8); return IS_BIG ? TURN##bits(value) : value; } \
    INLINE void st##bits##_in(void *at, u##bits value) { if (IS_BIG) value = TURN##bits(value); STORE(bits); } \
    INLINE void us##bits##_in(void *at, u##bits value) { if (IS_BIG) value = TURN##bits(value); COPY(at, &value, bits / 8); } \
    INLINE told ld##bits(u64 at) { return ld##bits##_in(P(at)); } \
    INLINE told ud##bits(u64 at) { return ud##bits##_in(P(at)); } \
    INLINE void st##bits(u64 at, u##bits value) { st##bits##_in(P(at), value); } \
    INLINE void us##bits(u64 at, u##bits value) { us##bits##_in(P(at), value); }
NUMBERS(16, u32)
NUMBERS(32, u32)
NUMBERS(64, u64)

INLINE u32 rotl32(u32 it, u32 by) { return it << (by & 31u) | it >> (-by & 31u); }
INLINE u32 rotr32(u32 it, u32 by) { return it >> (by & 31u) | it << (-by & 31u); }
INLINE u64 rotl64(u64 it, u64 by) { return it << (by & 63u) | it >> (-by & 63u); }
INLINE u64 rotr64(u64 it, u64 by) { return it >> (by & 63u) | it << (-by & 63u); }
INLINE u32 popcnt64(u64 it) {
    it -= it >> 1 & 0x5555555555555555ull;
    it = (it & 0x3333333333333333ull) + (it >> 2 & 0x3333333333333333ull);
    return (u32)(((it + (it >> 4)) & 0x0f0f0f0f0f0f0f0full) * 0x0101010101010101ull >> 56);
}
INLINE u32 popcnt32(u32 it) { return popcnt64(it); }
#ifdef __GNUC__
INLINE u32 clz32(u32 it) { return it ? (u32)__builtin_clzll(it) - 32 : 32; }
INLINE u32 clz64(u64 it) { return it ? (u32)__builtin_clzll(it) : 64; }
INLINE u32 ctz32(u32 it) { return it ? (u32)__builtin_ctzll(it) : 32; }
INLINE u32 ctz64(u64 it) { return it ? (u32)__builtin_ctzll(it) : 64; }
#else
INLINE u32 clz64(u64 it) { u32 count = 0; for (; count < 64 && !(it >> (63 - count)); count++); return count; }
INLINE u32 ctz64(u64 it) { u32 count = 0; for (; count < 64 && !(it >> count & 1); count++); return count; }
INLINE u32 clz32(u32 it) { return clz64(it) - 32; }
INLINE u32 ctz32(u32 it) { return it ? ctz64(it) : 32; }
#endif
/* What no call comes to. */
INLINE _Noreturn void trap(void) { NEVER; }

#ifdef NIW_POOL
/* Memory that the program gives, in blocks behind their lengths. Each length is a multiple of 16; the lowest bit says that the block is taken. Blocks
 * that are free and stand side by side are one. */
struct block { _Alignas(16) size_t length; };
static u8 *pool_at, *pool_end;

static struct block *behind(struct block *it) { return (struct block *)(void *)((u8 *)it + (it->length & ~(size_t)1)); }

void niw_give_memory(void *at, size_t octets) {
    size_t lost = -(uintptr_t)at & 15;
    struct block *first = (struct block *)(void *)((u8 *)at + lost);
    pool_at = pool_end = NULL;
    if (octets < lost + 2 * sizeof *first) return;
    first->length = (octets - lost) & ~(size_t)15;
    pool_at = (u8 *)first;
    pool_end = pool_at + first->length;
}

static void *malloc_of(size_t size) {
    size_t whole = sizeof(struct block) + ((size + 15) & ~(size_t)15);
    if (whole < size) return NULL;
    for (u8 *at = pool_at; at != pool_end;) {
        struct block *it = (struct block *)(void *)at, *next;
        if (it->length & 1) {
            at = (u8 *)behind(it);
            continue;
        }
        while ((u8 *)(next = behind(it)) != pool_end && !(next->length & 1)) it->length += next->length;
        if (it->length >= whole) {
            size_t left = it->length - whole;
            it->length = whole;
            if (left) behind(it)->length = left;
            it->length |= 1;
            return it + 1;
        }
        at = (u8 *)behind(it);
    }
    return NULL;
}

static void free_of(void *at) {
    if (at) ((struct block *)at - 1)->length &= ~(size_t)1;
}

static void *realloc_of(void *at, size_t size) {
    size_t room = ((((struct block *)at - 1)->length) & ~(size_t)1) - sizeof(struct block);
    void *made;
    if (size <= room) return at;
    made = malloc_of(size);
    if (!made) return NULL;
    memcpy(made, at, room);
    free_of(at);
    return made;
}
#else
#define malloc_of malloc
#define realloc_of realloc
#define free_of free
#endif

/* Whether there is memory, and where: never null. A size of 0 asks for a block of the alignment, which is that of a 64-bit number at most. */
static void answer_memory(u64 answer, void *at) {
    st8(answer, at != NULL);
    st64(answer + 8, at ? AT(at) : 16);
}

static void rattle_alloc(u64 answer, u64 size, u64 aligned) {
    u64 wanted = size ? size : aligned;
    answer_memory(answer, wanted <= SIZE_MAX ? malloc_of((size_t)wanted) : NULL);
}

static void rattle_realloc(u64 answer, u64 at, u64 kept, u64 size, u64 aligned) {
    u64 wanted = size ? size : aligned;
    (void)kept;
    answer_memory(answer, wanted <= SIZE_MAX ? realloc_of(P(at), (size_t)wanted) : NULL);
}

static void rattle_dealloc(u64 at) { free_of(P(at)); }

