/* Numbers, and what WebAssembly has of them. */
#include <stddef.h>
#include <stdint.h>
#include <stdlib.h>
#include <string.h>

typedef uint8_t u8;
typedef uint16_t u16;
typedef uint32_t u32;
typedef uint64_t u64;
typedef int8_t s8;
typedef int16_t s16;
typedef int32_t s32;
typedef int64_t s64;

/* The lines for _MSC_VER were never compiled: no such compiler was at hand. */
#if defined(__GNUC__) || defined(__clang__)
#define INLINE static inline __attribute__((always_inline, unused))
#define UNREACHABLE __builtin_trap()
#elif defined(_MSC_VER)
#define INLINE static __forceinline
#define UNREACHABLE abort()
#else
#define INLINE static inline
#define UNREACHABLE abort()
#endif

/* Whether this machine has the least significant byte first, or last. If that is not known, the bytes are put together one by one. */
#if defined(__BYTE_ORDER__) && defined(__ORDER_LITTLE_ENDIAN__)
#if __BYTE_ORDER__ == __ORDER_LITTLE_ENDIAN__
#define IN_ORDER(bits, v) (v)
#elif __BYTE_ORDER__ == __ORDER_BIG_ENDIAN__ && (defined(__GNUC__) || defined(__clang__))
#define IN_ORDER(bits, v) __builtin_bswap##bits(v)
#endif
#elif defined(_MSC_VER)
#define IN_ORDER(bits, v) (v)
#endif

INLINE u32 get8(const u8 *p) { return *p; }
INLINE void put8(u8 *p, u8 v) { *p = v; }
#ifdef IN_ORDER
INLINE u32 get16(const u8 *p) { u16 v; memcpy(&v, p, 2); return IN_ORDER(16, v); }
INLINE u32 get32(const u8 *p) { u32 v; memcpy(&v, p, 4); return IN_ORDER(32, v); }
INLINE u64 get64(const u8 *p) { u64 v; memcpy(&v, p, 8); return IN_ORDER(64, v); }
INLINE void put16(u8 *p, u16 v) { v = IN_ORDER(16, v); memcpy(p, &v, 2); }
INLINE void put32(u8 *p, u32 v) { v = IN_ORDER(32, v); memcpy(p, &v, 4); }
INLINE void put64(u8 *p, u64 v) { v = IN_ORDER(64, v); memcpy(p, &v, 8); }
#else
INLINE u32 get16(const u8 *p) { return (u32)p[0] | (u32)p[1] << 8; }
INLINE u32 get32(const u8 *p) { return (u32)p[0] | (u32)p[1] << 8 | (u32)p[2] << 16 | (u32)p[3] << 24; }
INLINE u64 get64(const u8 *p) { return (u64)get32(p) | (u64)get32(p + 4) << 32; }
INLINE void put16(u8 *p, u16 v) { p[0] = (u8)v; p[1] = (u8)(v >> 8); }
INLINE void put32(u8 *p, u32 v) { p[0] = (u8)v; p[1] = (u8)(v >> 8); p[2] = (u8)(v >> 16); p[3] = (u8)(v >> 24); }
INLINE void put64(u8 *p, u64 v) { put32(p, (u32)v); put32(p + 4, (u32)(v >> 32)); }
#endif

INLINE u32 rotl32(u32 a, u32 b) { b &= 31; return a << b | a >> ((32 - b) & 31); }
INLINE u64 rotl64(u64 a, u64 b) { b &= 63; return a << b | a >> ((64 - b) & 63); }
INLINE u32 rotr32(u32 a, u32 b) { b &= 31; return a >> b | a << ((32 - b) & 31); }
INLINE u64 rotr64(u64 a, u64 b) { b &= 63; return a >> b | a << ((64 - b) & 63); }
#if defined(__GNUC__) || defined(__clang__)
INLINE u32 clz32(u32 a) { return a ? (u32)__builtin_clz(a) : 32; }
INLINE u64 clz64(u64 a) { return a ? (u64)__builtin_clzll(a) : 64; }
INLINE u32 ctz32(u32 a) { return a ? (u32)__builtin_ctz(a) : 32; }
INLINE u64 ctz64(u64 a) { return a ? (u64)__builtin_ctzll(a) : 64; }
INLINE u32 popcnt32(u32 a) { return (u32)__builtin_popcount(a); }
INLINE u64 popcnt64(u64 a) { return (u64)__builtin_popcountll(a); }
#else
INLINE u32 popcnt32(u32 a)
{
    a -= a >> 1 & 0x55555555u;
    a = (a & 0x33333333u) + (a >> 2 & 0x33333333u);
    return ((a + (a >> 4)) & 0x0f0f0f0fu) * 0x01010101u >> 24;
}
INLINE u64 popcnt64(u64 a) { return (u64)popcnt32((u32)a) + popcnt32((u32)(a >> 32)); }
INLINE u32 clz32(u32 a) { a |= a >> 1; a |= a >> 2; a |= a >> 4; a |= a >> 8; a |= a >> 16; return 32 - popcnt32(a); }
INLINE u64 clz64(u64 a) { return a >> 32 ? clz32((u32)(a >> 32)) : 32 + (u64)clz32((u32)a); }
INLINE u32 ctz32(u32 a) { return a ? popcnt32((a & (0u - a)) - 1) : 32; }
INLINE u64 ctz64(u64 a) { return (u32)a ? ctz32((u32)a) : 32 + (u64)ctz32((u32)(a >> 32)); }
#endif

/* An address is a pointer of the process. */
#define ADDRESS(p) ((u64)(size_t)(p))
#define AT(address) ((u8 *)(size_t)(address))
#define load8(a) get8(AT(a))
#define load16(a) get16(AT(a))
#define load32(a) get32(AT(a))
#define load64(a) get64(AT(a))
#define store8(a, v) put8(AT(a), v)
#define store16(a, v) put16(AT(a), v)
#define store32(a, v) put32(AT(a), v)
#define store64(a, v) put64(AT(a), v)
#define move(to, from, size) memmove(AT(to), AT(from), (size_t)(size))
#define fill(to, byte, size) memset(AT(to), (int)(byte), (size_t)(size))

/* Alignment at a multiple of 16, of the data and of each frame. For a compiler that may not align its variables, space is added. */
#if defined(__GNUC__) || defined(__clang__)
#define SIXTEEN __attribute__((aligned(16)))
#elif defined(_MSC_VER)
#define SIXTEEN __declspec(align(16))
#endif
#ifdef SIXTEEN
#define FRAME_OF(words) SIXTEEN u64 in_frame[words]; const u64 frame = ADDRESS(in_frame)
#else
#define FRAME_OF(words) u64 in_frame[(words) + 2]; const u64 frame = (ADDRESS(in_frame) + 15) & ~(u64)15
#define SIXTEEN _Alignas(16)
#endif
#define DATA(at) (ADDRESS(data) + (u64)(at))
