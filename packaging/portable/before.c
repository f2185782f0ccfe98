/* libmars: the proved library for C, as portable C99.
 *
 * dev/portable wrote this file from the module that the prover makes, instruction by instruction. Do not change it. It needs no
 * library but malloc, realloc, free, memset, memcpy, memmove and abort, keeps nothing between calls, and shares nothing. */
#include "mars.h"
#include <stdlib.h>
#include <string.h>

typedef uint8_t u8;
typedef uint16_t u16;
typedef uint32_t u32;
typedef uint64_t u64;
typedef struct { u64 low, high; } u128;
typedef struct { u128 low, high; } u256;
typedef struct { u8 b[16]; } vector_16;
typedef struct { u8 b[64]; } vector_64;

#if defined(__GNUC__) && !defined(__TINYC__)
#define ALWAYS_INLINE inline __attribute__((always_inline))
#define NEVER_INLINE __attribute__((noinline))
#elif defined(_MSC_VER)
#define ALWAYS_INLINE __forceinline
#define NEVER_INLINE __declspec(noinline)
#else
#define ALWAYS_INLINE inline
#define NEVER_INLINE
#endif

/* Reached only if the library is not what was proved. */
#define NOT_REACHED abort()

/* ---- Memory: the bytes of a little-endian machine with addresses of 64 bits, on every machine. */

#if !defined(MARS_LITTLE_ENDIAN) && !defined(MARS_ANY_ENDIAN)
#if defined(_WIN32) || (defined(__BYTE_ORDER__) && __BYTE_ORDER__ == __ORDER_LITTLE_ENDIAN__) || defined(__x86_64__) || defined(__i386__)
#define MARS_LITTLE_ENDIAN
#endif
#endif

#if defined(__TINYC__) && (defined(__x86_64__) || defined(__i386__) || defined(__aarch64__))
/* A compiler that calls memcpy for each access, and assumes nothing of types, on a machine that needs no alignment. */
static ALWAYS_INLINE u16 ld16(const u8 *p) { return *(const u16 *)p; }
static ALWAYS_INLINE u32 ld32(const u8 *p) { return *(const u32 *)p; }
static ALWAYS_INLINE u64 ld64(const u8 *p) { return *(const u64 *)p; }
static ALWAYS_INLINE void st16(u8 *p, u16 v) { *(u16 *)p = v; }
static ALWAYS_INLINE void st32(u8 *p, u32 v) { *(u32 *)p = v; }
static ALWAYS_INLINE void st64(u8 *p, u64 v) { *(u64 *)p = v; }
#elif defined(MARS_LITTLE_ENDIAN)
static ALWAYS_INLINE u16 ld16(const u8 *p) { u16 v; memcpy(&v, p, 2); return v; }
static ALWAYS_INLINE u32 ld32(const u8 *p) { u32 v; memcpy(&v, p, 4); return v; }
static ALWAYS_INLINE u64 ld64(const u8 *p) { u64 v; memcpy(&v, p, 8); return v; }
static ALWAYS_INLINE void st16(u8 *p, u16 v) { memcpy(p, &v, 2); }
static ALWAYS_INLINE void st32(u8 *p, u32 v) { memcpy(p, &v, 4); }
static ALWAYS_INLINE void st64(u8 *p, u64 v) { memcpy(p, &v, 8); }
#else
static ALWAYS_INLINE u16 ld16(const u8 *p) { return (u16)(p[0] | p[1] << 8); }
static ALWAYS_INLINE u32 ld32(const u8 *p) { return p[0] | (u32)p[1] << 8 | (u32)p[2] << 16 | (u32)p[3] << 24; }
static ALWAYS_INLINE u64 ld64(const u8 *p) { return ld32(p) | (u64)ld32(p + 4) << 32; }
static ALWAYS_INLINE void st16(u8 *p, u16 v) { p[0] = (u8)v; p[1] = (u8)(v >> 8); }
static ALWAYS_INLINE void st32(u8 *p, u32 v) { p[0] = (u8)v; p[1] = (u8)(v >> 8); p[2] = (u8)(v >> 16); p[3] = (u8)(v >> 24); }
static ALWAYS_INLINE void st64(u8 *p, u64 v) { st32(p, (u32)v); st32(p + 4, (u32)(v >> 32)); }
#endif
/* An address has 8 bytes in memory: its own, in the order of this machine, then zeros. */
static ALWAYS_INLINE u8 *ldp(const u8 *p) { u8 *v; memcpy(&v, p, sizeof v); return v; }
static ALWAYS_INLINE void stp(u8 *p, u8 *v)
{
#if UINTPTR_MAX != UINT64_MAX
    memset(p, 0, 8);
#endif
    memcpy(p, &v, sizeof v);
}
/* Addresses in constants. */
#if UINTPTR_MAX == UINT64_MAX
#define ADDRESS(n) const u8 *p##n;
#define TO(place, offset) (const u8 *)&place + offset
#else
#define ADDRESS(n) const u8 *p##n; u8 z##n[8 - sizeof(u8 *)];
#define TO(place, offset) (const u8 *)&place + offset, {0}
#endif
/* An address that may be outside of what the base points to, as only integers may be in C. */
static ALWAYS_INLINE u8 *shifted(u8 *p, u64 n) { return (u8 *)((uintptr_t)p + (uintptr_t)n); }

/* Copies and clears memory of a fixed size. GCC can keep a variable in registers if it is assigned, but not if memmove or memset gets it. */
#if defined(__GNUC__) && !defined(__TINYC__)
#define BLOCK(N)                                                                                                                \
    typedef struct { u8 b[N]; } __attribute__((may_alias)) block_##N;                                                           \
    static ALWAYS_INLINE void copy_##N(u8 *to, const u8 *from) { block_##N v = *(const block_##N *)from; *(block_##N *)to = v; } \
    static ALWAYS_INLINE void clear_##N(u8 *to) { block_##N v = {{0}}; *(block_##N *)to = v; }
#else
#define BLOCK(N)                                                                                                                \
    static ALWAYS_INLINE void copy_##N(u8 *to, const u8 *from) { memmove(to, from, N); }                                        \
    static ALWAYS_INLINE void clear_##N(u8 *to) { memset(to, 0, N); }
#endif

/* ---- Integers of 128 bits */

static ALWAYS_INLINE u128 wide(u64 high, u64 low) { u128 v; v.low = low; v.high = high; return v; }
static ALWAYS_INLINE u128 ld128(const u8 *p) { return wide(ld64(p + 8), ld64(p)); }
static ALWAYS_INLINE void st128(u8 *p, u128 v) { st64(p, v.low); st64(p + 8, v.high); }
static ALWAYS_INLINE int eq128(u128 a, u128 b) { return a.low == b.low && a.high == b.high; }
static ALWAYS_INLINE int ult128(u128 a, u128 b) { return a.high < b.high || (a.high == b.high && a.low < b.low); }
static ALWAYS_INLINE int slt128(u128 a, u128 b)
{
    u64 top = (u64)1 << 63;
    return (a.high ^ top) < (b.high ^ top) || (a.high == b.high && a.low < b.low);
}
static ALWAYS_INLINE u128 add128(u128 a, u128 b) { u64 low = a.low + b.low; return wide(a.high + b.high + (low < a.low), low); }
static ALWAYS_INLINE u128 sub128(u128 a, u128 b) { return wide(a.high - b.high - (a.low < b.low), a.low - b.low); }
static ALWAYS_INLINE u128 and128(u128 a, u128 b) { return wide(a.high & b.high, a.low & b.low); }
static ALWAYS_INLINE u128 lshr128(u128 a) { return wide(0, a.high); }                  /* by 64 */
static ALWAYS_INLINE u128 ashr128(u128 a) { return wide(0 - (a.high >> 63), a.high); } /* by 64 */
static u128 mul128(u128 a, u128 b)
{
    u64 mask = 0xffffffff, al = a.low & mask, ah = a.low >> 32, bl = b.low & mask, bh = b.low >> 32;
    u64 ll = al * bl, lh = al * bh, hl = ah * bl, hh = ah * bh;
    u64 middle = (ll >> 32) + (lh & mask) + (hl & mask);
    u64 high = hh + (lh >> 32) + (hl >> 32) + (middle >> 32);
    return wide(high + a.high * b.low + a.low * b.high, (middle << 32) | (ll & mask));
}

/* ---- Integers of 256 bits, in which the module tests whether a result fits in 128 */

static ALWAYS_INLINE u256 widest(u128 high, u128 low) { u256 v; v.low = low; v.high = high; return v; }
static ALWAYS_INLINE u256 zext256(u128 a) { return widest(wide(0, 0), a); }
static ALWAYS_INLINE u256 sext256(u128 a) { u64 sign = 0 - (a.high >> 63); return widest(wide(sign, sign), a); }
static ALWAYS_INLINE int eq256(u256 a, u256 b) { return eq128(a.low, b.low) && eq128(a.high, b.high); }
static u256 add256(u256 a, u256 b)
{
    u128 low = add128(a.low, b.low), carry = wide(0, ult128(low, a.low));
    return widest(add128(add128(a.high, b.high), carry), low);
}
static u256 sub256(u256 a, u256 b)
{
    u128 borrow = wide(0, ult128(a.low, b.low));
    return widest(sub128(sub128(a.high, b.high), borrow), sub128(a.low, b.low));
}
static u256 mul256(u256 a, u256 b)
{
    u64 x[4] = {a.low.low, a.low.high, a.high.low, a.high.high}, y[4] = {b.low.low, b.low.high, b.high.low, b.high.high}, r[4] = {0};
    int i, j;
    for (i = 0; i < 4; i++) {
        u64 carry = 0;
        for (j = 0; i + j < 4; j++) {
            u128 sum = add128(mul128(wide(0, x[i]), wide(0, y[j])), add128(wide(0, r[i + j]), wide(0, carry)));
            r[i + j] = sum.low;
            carry = sum.high;
        }
    }
    return widest(wide(r[3], r[2]), wide(r[1], r[0]));
}

/* ---- Bits, and vectors of bytes */

#if defined(__GNUC__) && !defined(__TINYC__)
static ALWAYS_INLINE u32 cttz32(u32 v) { return v ? (u32)__builtin_ctz(v) : 32; }
static ALWAYS_INLINE u64 cttz64(u64 v) { return v ? (u64)__builtin_ctzll(v) : 64; }
static ALWAYS_INLINE u64 ctlz64(u64 v) { return v ? (u64)__builtin_clzll(v) : 64; }
#else
static u64 cttz64(u64 v)
{
    u64 n = 0;
    if (!v) return 64;
    for (; !(v & 1); v >>= 1) n++;
    return n;
}
static u32 cttz32(u32 v) { return v ? (u32)cttz64(v) : 32; }
static u64 ctlz64(u64 v)
{
    u64 n = 64;
    for (; v; v >>= 1) n--;
    return n;
}
#endif

#define VECTOR(V, N)                                                                                                            \
    static const V zero_##V = {{0}};                                                                                            \
    static ALWAYS_INLINE V ld_##V(const u8 *p) { V v; memcpy(v.b, p, N); return v; }                                            \
    static ALWAYS_INLINE V insert_##V(V v, u8 x, int i) { v.b[i] = x; return v; }                                               \
    static ALWAYS_INLINE V splat_##V(V v) { int i; V r; for (i = 0; i < N; i++) r.b[i] = v.b[0]; return r; }                    \
    static ALWAYS_INLINE V sext_##V(V v) { int i; for (i = 0; i < N; i++) v.b[i] = (u8)(0 - v.b[i]); return v; }                \
    static ALWAYS_INLINE V eq_##V(V v, V w) { int i; for (i = 0; i < N; i++) v.b[i] = v.b[i] == w.b[i]; return v; }             \
    static ALWAYS_INLINE V ne_##V(V v, V w) { int i; for (i = 0; i < N; i++) v.b[i] = v.b[i] != w.b[i]; return v; }             \
    static ALWAYS_INLINE V slt_##V(V v, V w)                                                                                    \
    {                                                                                                                           \
        int i;                                                                                                                  \
        for (i = 0; i < N; i++) v.b[i] = (u8)(v.b[i] ^ 128) < (u8)(w.b[i] ^ 128);                                               \
        return v;                                                                                                               \
    }
VECTOR(vector_16, 16)
VECTOR(vector_64, 64)
static ALWAYS_INLINE vector_16 part_vector_64(vector_64 v, int at) { vector_16 r; memcpy(r.b, v.b + at, 16); return r; }
static ALWAYS_INLINE u16 bits_vector_16(vector_16 v)
{
    u32 r = 0;
    int i;
    for (i = 0; i < 16; i++) r |= (u32)v.b[i] << i;
    return (u16)r;
}

/* ---- What the module uses and defines */
