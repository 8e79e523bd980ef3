/* The USB disk of usbdisk.h as one file of C99, for a compiler of 32 or of 64 bits whose bytes are
 * little endian. It is made of the module that the toolchain proves: do not change it by hand.
 * Compile it with the header in the path, and link it with rattle_alloc and rattle_dealloc:
 *
 *     cc -std=c99 -Os -ffunction-sections -c usbdisk.c
 *
 * USBDISK_WIDE   addresses are numbers of 64 bits in registers too, as they are in memory: slower,
 *                and nothing is left to argue about their arithmetic
 * USBDISK_WATCH  the same, and each address that is used is compared with what it is in the width
 *                of the processor; where it differs the program ends
 * USBDISK_PLAIN  no word that is not of C99 (of GCC's, where the compiler has them)
 * USBDISK_TRAP   what a place does that no life can come to */
#include "usbdisk.h"
#include <stddef.h>
#include <string.h>

#if defined __GNUC__ && !defined USBDISK_PLAIN
#define ANY __attribute__((may_alias))
#define APART __attribute__((noinline))
#define KEPT __attribute__((unused))
#define LINED(p, n) __builtin_assume_aligned(p, n)
#ifndef USBDISK_TRAP
#define USBDISK_TRAP __builtin_trap()
#endif
#else
#define APART
#define KEPT
#define LINED(p, n) (p)
#ifndef USBDISK_TRAP
#define USBDISK_TRAP for (;;)
#endif
#endif
/* Without these words GCC warns of a place that no life can come to, and of bytes that it takes for
 * words. */
#if defined USBDISK_PLAIN && defined __GNUC__ && !defined __clang__ && __GNUC__ >= 7
#pragma GCC diagnostic ignored "-Warray-bounds"
#pragma GCC diagnostic ignored "-Wmemset-elt-size"
#endif
#if defined __BYTE_ORDER__ && __BYTE_ORDER__ != 1234
#error "the bytes of this processor are not little endian"
#endif

typedef uint8_t u8;
typedef uint16_t u16;
typedef uint32_t u32;
typedef uint64_t u64;
/* C and the module agree on where a call has its numbers: each has the size of its type before. */
typedef char lies_as_proved[offsetof(struct usbdisk_call, sector) == 8 ? 1 : -1];

#ifdef USBDISK_WATCH
#define USBDISK_WIDE
static inline KEPT void *watched(u64 p)
{
    if (p > UINTPTR_MAX)
        USBDISK_TRAP;
    return (void *)(uintptr_t)p;
}
#else
#define watched(p) ((void *)(uintptr_t)(p))
#endif
#ifdef USBDISK_WIDE
typedef u64 ptr;
#define AT(p) watched(p)
#define TO(p) ((u64)(uintptr_t)(p))
#define GEP(p, n) ((p) + (u64)(n))
#define PTR(n) (n)
#else
typedef u8 *ptr;
#define AT(p) ((void *)(p))
#define TO(p) ((u8 *)(uintptr_t)(p))
#define GEP(p, n) ((p) + (ptrdiff_t)(n))
#define PTR(n) ((u8 *)(uintptr_t)(n))
#endif
#define NUMBER(p) ((u64)(uintptr_t)AT(p))

/* Reads and writes: where the address is that of a whole word, and where it may be any. */
#define ACCESS(n, name, of) \
    static inline KEPT u##n LD##name(ptr p) \
    { \
        u##n v; \
        memcpy(&v, of(p), sizeof v); \
        return v; \
    } \
    static inline KEPT void ST##name(ptr p, u##n v) { memcpy(of(p), &v, sizeof v); }
#ifdef ANY
typedef u16 ANY a16;
typedef u32 ANY a32;
typedef u64 ANY a64;
#define LD16(p) (*(const a16 *)AT(p))
#define LD32(p) (*(const a32 *)AT(p))
#define LD64(p) (*(const a64 *)AT(p))
#define ST16(p, v) (*(a16 *)AT(p) = (v))
#define ST32(p, v) (*(a32 *)AT(p) = (v))
#define ST64(p, v) (*(a64 *)AT(p) = (v))
#else
ACCESS(16, 16, AT)
ACCESS(32, 32, AT)
ACCESS(64, 64, AT)
#endif
ACCESS(16, 16U, AT)
ACCESS(32, 32U, AT)
ACCESS(64, 64U, AT)
#define LD8(p) (*(const u8 *)AT(p))
#define ST8(p, v) (*(u8 *)AT(p) = (v))
static inline KEPT u64 LDN(ptr p, size_t n)
{
    u64 v = 0;
    memcpy(&v, AT(p), n);
    return v;
}
static inline KEPT void STN(ptr p, u64 v, size_t n) { memcpy(AT(p), &v, n); }
#define COPY(to, from, n, to_align, align) \
    memcpy(LINED(AT(to), to_align), LINED(AT(from), align), (size_t)(n))
#define MOVE(to, from, n, to_align, align) \
    memmove(LINED(AT(to), to_align), LINED(AT(from), align), (size_t)(n))
#define FILL(to, byte, n, align) memset(LINED(AT(to), align), (int)(byte), (size_t)(n))
#define NEVER() USBDISK_TRAP

static inline KEPT u64 leading_zeros(u64 n, unsigned bits)
{
    u64 count = bits;
    for (; n; n >>= 1)
        count--;
    return count;
}
static inline KEPT u16 swapped16(u16 n) { return (u16)((u32)n << 8 | (u32)n >> 8); }
static inline KEPT u32 swapped32(u32 n)
{
    return n << 24 | (n & 0xFF00u) << 8 | (n >> 8 & 0xFF00u) | n >> 24;
}
static inline KEPT u64 swapped64(u64 n)
{
    return (u64)swapped32((u32)n) << 32 | swapped32((u32)(n >> 32));
}

typedef struct { u64 a, b; } p_i64_i64;
/* A request that no 32 bits can hold is refused. */
static p_i64_i64 rattle_alloc_(u64 size, u64 alignment)
{
    p_i64_i64 got = { 0, 0 };
    if (size <= SIZE_MAX) {
        struct rattle_tried it = rattle_alloc((size_t)size, (size_t)alignment);
        got.a = it.ok;
        got.b = it.ok ? (u64)(uintptr_t)it.at : 0;
    }
    return got;
}
