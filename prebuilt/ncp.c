/* SPDX-License-Identifier: MIT AND BSD-3-Clause */
/* ncp.c: a host of the ARPANET with its peers, and a subnet between hosts, as one C file beside ncp.h. Version 2.0.0.
 *
 *     cc -O2 -Iinclude my_emulator.c ncp.c
 *
 * ncp.h says what each function does. This file is made, not written: of the sources with the sum
 * 84a621f3bdfd11cddbb07c9c7190decdcd39be57519ae06425def750f2b79970,
 * by rattle-kit-13b logic dac8208d650f15bf. Whoever wants to read how it works reads crates/ncp_embed there, and what it stands on.
 *
 * The library is proved: each function of the module below was proved to do what its contract says, before it was compiled. Between the
 * proof and this file stand a compiler for WebAssembly and a translation into C, which are trusted and tested, not proved. So are the C
 * by hand around the module, and your compiler. docs/EMBEDDING.md has the whole list. The memory of the module is not fenced in.
 *
 * It is C99, for machines with 8-bit bytes, 32 or 64-bit pointers that keep their value as a number, either order of bytes, negative
 * numbers in two's complement, and shifts of these to the right that keep the sign. It calls malloc, free, memcpy, memmove, memset, strlen,
 * and abort, which never happens. Nothing static is written.
 *
 * When it is compiled these may be defined:
 *     NCP_MALLOC, NCP_FREE    what is called in place of malloc and free
 *     NCP_IN                  ncp_new_in, which makes a host in memory that its caller lends, and ncp_size
 */

/* The licence of this file, and of what it is compiled from beside the library, with the copyright lines:
 *
 * the library: MIT, Copyright (c) 2026 the Yaszkevo authors
 * arrayvec 0.7.8: MIT or Apache 2.0, Copyright (c) Ulrik Sverdrup "bluss" 2015-2023
 * byteorder 1.5.0: MIT, Copyright (c) 2015 Andrew Gallant
 * circular-buffer 2.0.1: BSD-3-Clause, Copyright (c) 2023, 2024 Andrea Corbellini and contributors
 * slab 0.4.12: MIT, Copyright (c) 2019 Carl Lerche
 * thiserror 2.0.21: MIT or Apache 2.0
 *
 * MIT
 *
 * Permission is hereby granted, free of charge, to any person obtaining a copy
 * of this software and associated documentation files (the "Software"), to deal
 * in the Software without restriction, including without limitation the rights
 * to use, copy, modify, merge, publish, distribute, sublicense, and/or sell
 * copies of the Software, and to permit persons to whom the Software is
 * furnished to do so, subject to the following conditions:
 *
 * The above copyright notice and this permission notice shall be included in all
 * copies or substantial portions of the Software.
 *
 * THE SOFTWARE IS PROVIDED "AS IS", WITHOUT WARRANTY OF ANY KIND, EXPRESS OR
 * IMPLIED, INCLUDING BUT NOT LIMITED TO THE WARRANTIES OF MERCHANTABILITY,
 * FITNESS FOR A PARTICULAR PURPOSE AND NONINFRINGEMENT. IN NO EVENT SHALL THE
 * AUTHORS OR COPYRIGHT HOLDERS BE LIABLE FOR ANY CLAIM, DAMAGES OR OTHER
 * LIABILITY, WHETHER IN AN ACTION OF CONTRACT, TORT OR OTHERWISE, ARISING FROM,
 * OUT OF OR IN CONNECTION WITH THE SOFTWARE OR THE USE OR OTHER DEALINGS IN THE
 * SOFTWARE.
 *
 * BSD-3-Clause
 *
 * Copyright (c) 2023, 2024 Andrea Corbellini and contributors
 * All rights reserved.
 *
 * Redistribution and use in source and binary forms, with or without
 * modification, are permitted provided that the following conditions are met:
 *
 * 1. Redistributions of source code must retain the above copyright notice, this
 *    list of conditions and the following disclaimer.
 *
 * 2. Redistributions in binary form must reproduce the above copyright notice,
 *    this list of conditions and the following disclaimer in the documentation
 *    and/or other materials provided with the distribution.
 *
 * 3. Neither the name of the copyright holder nor the names of its contributors
 *    may be used to endorse or promote products derived from this software
 *    without specific prior written permission.
 *
 * THIS SOFTWARE IS PROVIDED BY THE COPYRIGHT HOLDERS AND CONTRIBUTORS "AS IS" AND
 * ANY EXPRESS OR IMPLIED WARRANTIES, INCLUDING, BUT NOT LIMITED TO, THE IMPLIED
 * WARRANTIES OF MERCHANTABILITY AND FITNESS FOR A PARTICULAR PURPOSE ARE
 * DISCLAIMED. IN NO EVENT SHALL THE COPYRIGHT HOLDER OR CONTRIBUTORS BE LIABLE
 * FOR ANY DIRECT, INDIRECT, INCIDENTAL, SPECIAL, EXEMPLARY, OR CONSEQUENTIAL
 * DAMAGES (INCLUDING, BUT NOT LIMITED TO, PROCUREMENT OF SUBSTITUTE GOODS OR
 * SERVICES; LOSS OF USE, DATA, OR PROFITS; OR BUSINESS INTERRUPTION) HOWEVER
 * CAUSED AND ON ANY THEORY OF LIABILITY, WHETHER IN CONTRACT, STRICT LIABILITY,
 * OR TORT (INCLUDING NEGLIGENCE OR OTHERWISE) ARISING IN ANY WAY OUT OF THE USE
 * OF THIS SOFTWARE, EVEN IF ADVISED OF THE POSSIBILITY OF SUCH DAMAGE.
 */

#include "ncp.h"

/* Numbers, and what WebAssembly has of them. */
#include <stddef.h>
#include <stdint.h>
#include <stdlib.h>
#include <string.h>

typedef uint8_t u8;
typedef uint16_t u16;
typedef uint32_t u32;
typedef uint64_t u64;
typedef int8_t s8;
typedef int16_t s16;
typedef int32_t s32;
typedef int64_t s64;

/* The lines for _MSC_VER were never compiled: no such compiler was at hand. */
#if defined(__GNUC__) || defined(__clang__)
#define INLINE static inline __attribute__((always_inline, unused))
#define UNREACHABLE __builtin_trap()
#elif defined(_MSC_VER)
#define INLINE static __forceinline
#define UNREACHABLE abort()
#else
#define INLINE static inline
#define UNREACHABLE abort()
#endif

/* Whether this machine has the least significant byte first, or last. If that is not known, the bytes are put together one by one. */
#if defined(__BYTE_ORDER__) && defined(__ORDER_LITTLE_ENDIAN__)
#if __BYTE_ORDER__ == __ORDER_LITTLE_ENDIAN__
#define IN_ORDER(bits, v) (v)
#elif __BYTE_ORDER__ == __ORDER_BIG_ENDIAN__ && (defined(__GNUC__) || defined(__clang__))
#define IN_ORDER(bits, v) __builtin_bswap##bits(v)
#endif
#elif defined(_MSC_VER)
#define IN_ORDER(bits, v) (v)
#endif

INLINE u32 get8(const u8 *p) { return *p; }
INLINE void put8(u8 *p, u8 v) { *p = v; }
#ifdef IN_ORDER
INLINE u32 get16(const u8 *p) { u16 v; memcpy(&v, p, 2); return IN_ORDER(16, v); }
INLINE u32 get32(const u8 *p) { u32 v; memcpy(&v, p, 4); return IN_ORDER(32, v); }
INLINE u64 get64(const u8 *p) { u64 v; memcpy(&v, p, 8); return IN_ORDER(64, v); }
INLINE void put16(u8 *p, u16 v) { v = IN_ORDER(16, v); memcpy(p, &v, 2); }
INLINE void put32(u8 *p, u32 v) { v = IN_ORDER(32, v); memcpy(p, &v, 4); }
INLINE void put64(u8 *p, u64 v) { v = IN_ORDER(64, v); memcpy(p, &v, 8); }
#else
INLINE u32 get16(const u8 *p) { return (u32)p[0] | (u32)p[1] << 8; }
INLINE u32 get32(const u8 *p) { return (u32)p[0] | (u32)p[1] << 8 | (u32)p[2] << 16 | (u32)p[3] << 24; }
INLINE u64 get64(const u8 *p) { return (u64)get32(p) | (u64)get32(p + 4) << 32; }
INLINE void put16(u8 *p, u16 v) { p[0] = (u8)v; p[1] = (u8)(v >> 8); }
INLINE void put32(u8 *p, u32 v) { p[0] = (u8)v; p[1] = (u8)(v >> 8); p[2] = (u8)(v >> 16); p[3] = (u8)(v >> 24); }
INLINE void put64(u8 *p, u64 v) { put32(p, (u32)v); put32(p + 4, (u32)(v >> 32)); }
#endif

INLINE u32 rotl32(u32 a, u32 b) { b &= 31; return a << b | a >> ((32 - b) & 31); }
INLINE u64 rotl64(u64 a, u64 b) { b &= 63; return a << b | a >> ((64 - b) & 63); }
INLINE u32 rotr32(u32 a, u32 b) { b &= 31; return a >> b | a << ((32 - b) & 31); }
INLINE u64 rotr64(u64 a, u64 b) { b &= 63; return a >> b | a << ((64 - b) & 63); }
#if defined(__GNUC__) || defined(__clang__)
INLINE u32 clz32(u32 a) { return a ? (u32)__builtin_clz(a) : 32; }
INLINE u64 clz64(u64 a) { return a ? (u64)__builtin_clzll(a) : 64; }
INLINE u32 ctz32(u32 a) { return a ? (u32)__builtin_ctz(a) : 32; }
INLINE u64 ctz64(u64 a) { return a ? (u64)__builtin_ctzll(a) : 64; }
INLINE u32 popcnt32(u32 a) { return (u32)__builtin_popcount(a); }
INLINE u64 popcnt64(u64 a) { return (u64)__builtin_popcountll(a); }
#else
INLINE u32 popcnt32(u32 a)
{
    a -= a >> 1 & 0x55555555u;
    a = (a & 0x33333333u) + (a >> 2 & 0x33333333u);
    return ((a + (a >> 4)) & 0x0f0f0f0fu) * 0x01010101u >> 24;
}
INLINE u64 popcnt64(u64 a) { return (u64)popcnt32((u32)a) + popcnt32((u32)(a >> 32)); }
INLINE u32 clz32(u32 a) { a |= a >> 1; a |= a >> 2; a |= a >> 4; a |= a >> 8; a |= a >> 16; return 32 - popcnt32(a); }
INLINE u64 clz64(u64 a) { return a >> 32 ? clz32((u32)(a >> 32)) : 32 + (u64)clz32((u32)a); }
INLINE u32 ctz32(u32 a) { return a ? popcnt32((a & (0u - a)) - 1) : 32; }
INLINE u64 ctz64(u64 a) { return (u32)a ? ctz32((u32)a) : 32 + (u64)ctz32((u32)(a >> 32)); }
#endif

/* An address is a pointer of the process. */
#define ADDRESS(p) ((u64)(size_t)(p))
#define AT(address) ((u8 *)(size_t)(address))
#define load8(a) get8(AT(a))
#define load16(a) get16(AT(a))
#define load32(a) get32(AT(a))
#define load64(a) get64(AT(a))
#define store8(a, v) put8(AT(a), v)
#define store16(a, v) put16(AT(a), v)
#define store32(a, v) put32(AT(a), v)
#define store64(a, v) put64(AT(a), v)
#define move(to, from, size) memmove(AT(to), AT(from), (size_t)(size))
#define fill(to, byte, size) memset(AT(to), (int)(byte), (size_t)(size))

/* Alignment at a multiple of 16, of the data and of each frame. For a compiler that may not align its variables, space is added. */
#if defined(__GNUC__) || defined(__clang__)
#define SIXTEEN __attribute__((aligned(16)))
#elif defined(_MSC_VER)
#define SIXTEEN __declspec(align(16))
#endif
#ifdef SIXTEEN
#define FRAME_OF(words) SIXTEEN u64 in_frame[words]; const u64 frame = ADDRESS(in_frame)
#else
#define FRAME_OF(words) u64 in_frame[(words) + 2]; const u64 frame = (ADDRESS(in_frame) + 15) & ~(u64)15
#define SIXTEEN _Alignas(16)
#endif
#define DATA(at) (ADDRESS(data) + (u64)(at))

/* The heap of the proved library, over NCP_MALLOC and NCP_FREE, which may be defined when this file is compiled. A block begins at a
 * multiple of 16, after a note of where it is from. */
#ifndef NCP_MALLOC
#define NCP_MALLOC malloc
#define NCP_FREE free
#endif

struct note {
    u8 *start; /* what was allocated */
#ifdef NCP_IN
    struct heap *heap; /* the lent memory that it is of, or null */
#endif
};

enum { UNIT = 16, BEFORE_BLOCK = 2 * UNIT };

#ifdef NCP_IN
/* Memory that a caller lends. Free pieces are listed in the order of addresses; an allocated piece has its size before it. */
struct piece {
    size_t size;
    struct piece *next;
};

struct heap {
    struct piece *first;
};

/* The lent memory of a host is passed with each call on it. */
#define HEAP_IS struct heap *heap,
#define HEAP_IS_ALONE struct heap *heap
#define HEAP heap,
#define HEAP_ALONE heap

static size_t up_to_unit(size_t bytes)
{
    return (bytes + UNIT - 1) / UNIT * UNIT;
}

static u8 *end_of(struct piece *piece)
{
    return (u8 *)piece + piece->size;
}

/* The first piece that is large enough; what is left of it stays free. */
static u8 *take_piece(struct heap *heap, size_t bytes)
{
    size_t size = up_to_unit(bytes);
    struct piece **at = &heap->first, *piece;
    while (*at != NULL && (*at)->size < size) at = &(*at)->next;
    piece = *at;
    if (piece == NULL) return NULL;
    *at = piece->next;
    if (piece->size > size) {
        struct piece *rest = (struct piece *)((u8 *)piece + size);
        rest->size = piece->size - size;
        rest->next = piece->next;
        *at = rest;
        piece->size = size;
    }
    return (u8 *)piece;
}

/* Joins a free piece with the next one, if that begins where it ends. */
static void join_next(struct piece *piece)
{
    struct piece *next = piece->next;
    if (next == NULL || end_of(piece) != (u8 *)next) return;
    piece->size += next->size;
    piece->next = next->next;
}

static void give_piece(struct heap *heap, u8 *start)
{
    struct piece *piece = (struct piece *)start, *before = NULL, *after = heap->first;
    while (after != NULL && after < piece) before = after, after = after->next;
    piece->next = after;
    if (before == NULL) heap->first = piece;
    else before->next = piece;
    join_next(piece);
    if (before != NULL) join_next(before);
}
#else
#define HEAP_IS
#define HEAP_IS_ALONE void
#define HEAP
#define HEAP_ALONE
#endif

static SIXTEEN const u8 no_block[UNIT] = {0};

static struct note note_of(u64 block)
{
    struct note note;
    memcpy(&note, AT(block) - UNIT, sizeof note);
    return note;
}

/* Returns whether there is a block, and which. */
static void answer_block(u64 answer, u8 *block)
{
    store64(answer, block != NULL);
    store64(answer + 8, block != NULL ? ADDRESS(block) : ADDRESS(no_block));
}

static u8 *block_of(HEAP_IS u64 bytes)
{
    struct note note;
    u8 *block;
    if (bytes > SIZE_MAX / 2 - BEFORE_BLOCK) return NULL;
#ifdef NCP_IN
    note.heap = heap;
    if (heap != NULL) note.start = take_piece(heap, (size_t)bytes + BEFORE_BLOCK);
    else
#endif
    note.start = (u8 *)NCP_MALLOC((size_t)bytes + BEFORE_BLOCK);
    if (note.start == NULL) return NULL;
    block = note.start + BEFORE_BLOCK - ((size_t)note.start & (UNIT - 1));
    memcpy(block - UNIT, &note, sizeof note);
    return block;
}

static void import_rattle_alloc(HEAP_IS u64 answer, u64 bytes, u64 alignment)
{
    answer_block(answer, block_of(HEAP bytes != 0 ? bytes : alignment));
}

static void import_rattle_dealloc(u64 block)
{
    struct note note = note_of(block);
#ifdef NCP_IN
    if (note.heap != NULL) {
        give_piece(note.heap, note.start);
        return;
    }
#endif
    NCP_FREE(note.start);
}

/* Reallocates in the same memory, and copies the bytes. */
static void import_rattle_realloc(u64 answer, u64 block, u64 kept, u64 bytes, u64 alignment)
{
#ifdef NCP_IN
    struct heap *heap = note_of(block).heap;
#endif
    u8 *other = block_of(HEAP bytes != 0 ? bytes : alignment);
    if (other != NULL) {
        memcpy(other, AT(block), (size_t)(kept < bytes ? kept : bytes));
        import_rattle_dealloc(block);
    }
    answer_block(answer, other);
}

/* The module. */
static SIXTEEN const u8 data[] = {
 78,67,80,32,104,111,115,116,1,0,0,0,0,0,0,0,10,0,0,0,0,0,0,0,10,0,0,0,0,0,0,0,
 9,0,0,0,0,0,0,0,8,0,0,0,0,0,0,0,4,0,0,0,0,0,0,0,8,0,0,0,0,0,0,0,
 2,0,0,0,0,0,0,0,2,0,0,0,0,0,0,0,2,0,0,0,0,0,0,0,2,0,0,0,0,0,0,0,
 12,0,0,0,0,0,0,0,1,0,0,0,0,0,0,0,1,0,0,0,0,0,0,0,0,0,0,0,0,0,0,0,
 0,0,0,0,0,0,0,0,0,0,0,0,0,0,0,0,0,0,0,0,0,0,0,0,0,0,0,0,0,0,0,0,
 0,0,0,0,0,0,0,0,0,0,0,0,0,0,0,0,0,0,0,0,0,0,0,0,0,0,0,0,0,0,0,0,
 0,0,0,0,0,0,0,0,0,0,0,0,0,0,0,0,0,0,0,0,0,0,0,0,0,0,0,0,0,0,0,0,
 0,0,0,0,0,0,0,0,0,0,0,0,0,0,0,0,0,0,0,0,0,0,0,0,0,0,0,0,0,0,0,0,
 0,0,0,0,0,0,0,0,0,0,0,0,0,0,0,0,0,0,0,0,0,0,0,0,0,0,0,0,0,0,0,0,
 0,0,0,0,0,0,0,0,0,0,0,0,0,0,0,0,0,0,0,0,0,0,0,0,0,0,0,0,0,0,0,0,
 0,0,0,0,0,0,0,0,0,0,0,0,0,0,0,0,0,0,0,0,0,0,0,0,0,0,0,0,0,0,0,0,
 0,0,0,0,0,0,0,0,0,0,0,0,0,0,0,0,0,0,0,0,0,0,0,0,0,0,0,0,0,0,0,0,
 0,0,0,0,0,0,0,0,0,0,0,0,0,0,0,0,0,0,0,0,0,0,0,0,0,0,0,0,0,0,0,0,
 0,0,0,0,0,0,0,0,0,0,0,0,0,0,0,0,0,0,0,0,0,0,0,0,0,0,0,0,0,0,0,0,
 0,0,0,0,0,0,0,0,0,0,0,0,0,0,0,0,0,0,0,0,0,0,0,0,0,0,0,0,0,0,0,0,
 0,0,0,0,0,0,0,0,0,0,0,0,0,0,0,0,0,0,0,0,0,0,0,0,0,0,0,0,0,0,0,0,
 0,0,0,0,0,0,0,0,0,0,0,0,0,0,0,0,0,0,0,0,0,0,0,0,0,0,0,0,0,0,0,0,
 0,0,0,0,0,0,0,0,0,0,0,0,0,0,0,0,0,0,0,0,0,0,0,0,0,0,0,0,0,0,0,0,
 0,0,0,0,0,0,0,0,0,0,0,0,0,0,0,0,0,0,0,0,0,0,0,0,0,0,0,0,0,0,0,0,
 0,0,0,0,0,0,0,0,0,0,0,0,0,0,0,0,0,0,0,0,0,0,0,0,0,0,0,0,0,0,0,0,
 0,0,0,0,0,0,0,0,0,0,0,0,0,0,0,0,0,0,0,0,0,0,0,0,0,0,0,0,0,0,0,0,
 0,0,0,0,0,0,0,0,0,0,0,0,0,0,0,0,0,0,0,0,0,0,0,0,0,0,0,0,0,0,0,0,
 0,0,0,0,0,0,0,0,0,0,0,0,0,0,0,0,0,0,0,0,0,0,0,0,0,0,0,0,0,0,0,0,
 0,0,0,0,0,0,0,0,0,0,0,0,0,0,0,0,0,0,0,0,0,0,0,0,0,0,0,0,0,0,0,0,
 0,0,0,0,0,0,0,0,0,0,0,0,0,0,0,0,0,0,0,0,0,0,0,0,0,0,0,0,0,0,0,0,
 0,0,0,0,0,0,0,0,0,0,0,0,0,0,0,0,0,0,0,0,0,0,0,0,0,0,0,0,0,0,0,0,
 0,0,0,0,0,0,0,0,0,0,0,0,0,0,0,0,0,0,0,0,0,0,0,0,0,0,0,0,0,0,0,0,
 0,0,0,0,0,0,0,0,0,0,0,0,0,0,0,0,0,0,0,0,0,0,0,0,0,0,0,0,0,0,0,0,
 0,0,0,0,0,0,0,0,0,0,0,0,0,0,0,0,0,0,0,0,0,0,0,0,0,0,0,0,0,0,0,0,
 0,0,0,0,0,0,0,0,0,0,0,0,0,0,0,0,0,0,0,0,0,0,0,0,0,0,0,0,0,0,0,0,
 0,0,0,0,0,0,0,0,0,0,0,0,0,0,0,0,0,0,0,0,0,0,0,0,0,0,0,0,0,0,0,0,
 0,0,0,0,0,0,0,0,0,0,0,0,0,0,0,0,0,0,0,0,0,0,0,0,0,0,0,0,0,0,0,0,
 0,0,0,0,0,0,0,0,0,0,0,0,0,0,0,0,0,0,0,0,0,0,0,0,0,0,0,0,0,0,0,0,
 0,0,0,0,0,0,0,0,0,0,0,0,0,0,0,0,0,0,0,0,0,0,0,0,0,0,0,0,0,0,0,0,
 0,0,0,0,0,0,0,0,0,0,0,0,0,0,0,0,0,0,0,0,0,0,0,0,0,0,0,0,0,0,0,0,
 0,0,0,0,0,0,0,0,0,0,0,0,0,0,0,0,0,0,0,0,0,0,0,0
};

static void f3(u64 p0);
static u64 f4(u64 p0, u64 p1, u64 p2);
static void f5(u64 p0, u64 p1);
static u64 f6(u64 p0, u64 p1);
static void f7(u64 p0, u64 p1);
static void f8(u64 p0);
static void f9(u64 p0, u64 p1);
static void f10(u64 p0, u64 p1, u64 p2, u64 p3);
static void f11(u64 p0, u64 p1);
static void f12(u64 p0, u64 p1, u64 p2, u32 p3);
static u32 f13(HEAP_IS u64 p0);
static u32 f14(u64 p0, u64 p1, u64 p2);
static void f15(HEAP_IS u64 p0, u64 p1);
static u32 f16(HEAP_IS u64 p0, u64 p1);
static u32 f17(HEAP_IS u64 p0, u32 p1);
static u32 f18(HEAP_IS u64 p0, u32 p1);
static u32 f19(HEAP_IS u64 p0, u64 p1);
static u32 f20(HEAP_IS u64 p0, u32 p1, u32 p2, u32 p3, u32 p4);
static u32 f21(HEAP_IS u64 p0, u64 p1, u32 p2);
static u32 f22(u64 p0, u64 p1, u64 p2);
static void f23(u64 p0);
static u32 f24(HEAP_IS u64 p0);
static void f25(u64 p0, u64 p1);
static void f26(u64 p0, u64 p1);
static void f27(u64 p0, u64 p1, u64 p2);
static void f28(u64 p0, u32 p1);
static void f29(u64 p0, u64 p1);
static void f30(u64 p0, u64 p1);
static void f31(u64 p0, u64 p1);
static u32 f32(u64 p0, u64 p1, u64 p2);
static u32 f33(u64 p0, u32 p1, u32 p2);
static void module_ncp_embed_free(u64 p0);
static void module_ncp_embed_subnet_free(u64 p0);
static u32 module_ncp_embed_load(HEAP_IS u64 p0, u64 p1, u64 p2);
static u32 module_ncp_embed_new(HEAP_IS u64 p0, u32 p1, u64 p2, u64 p3);
static u32 module_ncp_embed_subnet_new(HEAP_IS u64 p0, u64 p1, u64 p2);
static u32 module_ncp_embed_allocate(u64 p0, u64 p1, u32 p2, u32 p3);
static u32 module_ncp_embed_ask_receive(HEAP_IS u64 p0, u64 p1, u32 p2);
static u32 module_ncp_embed_ask_send(HEAP_IS u64 p0, u64 p1, u32 p2, u32 p3);
static u32 module_ncp_embed_call_back(u64 p0, u64 p1, u32 p2, u32 p3);
static u32 module_ncp_embed_changes(u64 p0, u64 p1, u64 p2, u64 p3);
static u32 module_ncp_embed_close(u64 p0, u64 p1);
static u32 module_ncp_embed_connection_at(u64 p0, u32 p1, u64 p2, u64 p3);
static u32 module_ncp_embed_copy(HEAP_IS u64 p0, u64 p1);
static u32 module_ncp_embed_counts(u64 p0, u32 p1, u64 p2);
static u32 module_ncp_embed_echo(u64 p0, u32 p1, u32 p2);
static u32 module_ncp_embed_echoed(u64 p0, u32 p1, u64 p2);
static u32 module_ncp_embed_error(u64 p0, u32 p1, u32 p2, u64 p3);
static u32 module_ncp_embed_give(u64 p0, u64 p1, u64 p2, u64 p3, u64 p4);
static u32 module_ncp_embed_ignored(u64 p0, u64 p1);
static u32 module_ncp_embed_interrupt(u64 p0, u64 p1);
static u32 module_ncp_embed_is_held(u64 p0, u32 p1, u32 p2);
static u32 module_ncp_embed_is_open(u64 p0, u64 p1);
static u32 module_ncp_embed_is_up(u64 p0, u32 p1);
static u32 module_ncp_embed_pair_on(u64 p0, u32 p1, u32 p2, u64 p3);
static u32 module_ncp_embed_phase(u64 p0, u32 p1, u64 p2);
static u32 module_ncp_embed_receive(u64 p0, u64 p1, u64 p2, u64 p3, u64 p4);
static u32 module_ncp_embed_reset(u64 p0, u32 p1);
static u32 module_ncp_embed_restart(u64 p0, u32 p1);
static u32 module_ncp_embed_room(u64 p0, u64 p1, u64 p2);
static u32 module_ncp_embed_state(u64 p0, u64 p1, u64 p2);
static u32 module_ncp_embed_unacknowledged(u64 p0, u32 p1, u64 p2);
static u32 module_ncp_embed_wake(u64 p0, u32 p1);
static u32 module_ncp_embed_subnet_accept(u64 p0, u32 p1, u64 p2, u64 p3, u64 p4);
static u32 module_ncp_embed_subnet_dead(u64 p0, u64 p1);
static u32 module_ncp_embed_subnet_lose(u64 p0, u64 p1);
static u32 module_ncp_embed_save(HEAP_IS u64 p0, u64 p1, u64 p2, u64 p3);
static u32 module_ncp_embed_command(u64 p0, u64 p1, u64 p2, u32 p3, u64 p4, u64 p5, u64 p6);
static u32 module_ncp_embed_waiting(u64 p0, u32 p1, u32 p2, u64 p3, u64 p4, u64 p5);
static u32 module_ncp_embed_kept(u64 p0, u32 p1, u32 p2, u64 p3, u64 p4, u64 p5);
static u32 module_ncp_embed_subnet_answer(u64 p0, u64 p1, u64 p2, u64 p3, u64 p4);
static u32 module_ncp_embed_subnet_deliver(u64 p0, u64 p1, u64 p2, u64 p3, u64 p4);
static u32 module_ncp_embed_take(u64 p0, u64 p1, u32 p2, u64 p3, u64 p4, u64 p5);
static u32 module_ncp_embed_next_output(u64 p0, u64 p1, u64 p2, u64 p3);
static void f77(u64 p0, u64 p1, u64 p2, u32 p3);
static void f78(u64 p0, u64 p1, u64 p2, u32 p3);

static void f3(u64 p0)
{
 u64 v1 = 0, v2 = 0, v3 = 0, v4 = 0, v5 = 0, v6 = 0, v7 = 0, v8 = 0, v9 = 0, v10 = 0;
 v1 = load64(p0 + 16);
 v2 = load64(p0);
 v3 = load64(p0 + 8);
 if (!v3) {
  goto L1e;
 }
 v4 = 0ull;
 L2:;
 p0 = v2 + (v4 * 2560ull);
 v5 = load64(p0 + 2480);
 v6 = load64(p0 + 2464);
 v7 = load64(p0 + 2424);
 v8 = load64(p0 + 64);
 v9 = load64(p0 + 48);
 v10 = load64(p0 + 56);
 import_rattle_dealloc(load64(p0 + 8));
 if (!v10) {
  goto L3e;
 }
 p0 = v9;
 L4:;
 if (load8(p0) == 0) {
  goto L5e;
 }
 if (load8(p0 + 32ull) == 0) {
  goto L5e;
 }
 if (load64(p0 + 56ull) == 0) {
  goto L5e;
 }
 import_rattle_dealloc(load64(p0 + 40ull));
 L5e:;
 p0 = p0 + 96ull;
 v10 = v10 - 1ull;
 if (v10 != 0ull) {
  goto L4;
 }
 L3e:;
 if (!v8) {
  goto L6e;
 }
 import_rattle_dealloc(v9);
 L6e:;
 import_rattle_dealloc(v7);
 if (!v5) {
  goto L7e;
 }
 import_rattle_dealloc(v6);
 L7e:;
 v4 = v4 + 1ull;
 if (v4 != v3) {
  goto L2;
 }
 L1e:;
 if (!v1) {
  goto L8e;
 }
 import_rattle_dealloc(v2);
 L8e:;
 return;
}

static u64 f4(u64 p0, u64 p1, u64 p2)
{
 u64 v3 = 0, v4 = 0, v5 = 0, v6 = 0, v7 = 0, v8 = 0;
 v3 = 0ull;
 if (!p2) {
  goto L1e;
 }
 v4 = 0ull;
 L2:;
 v5 = p2 - v4;
 v6 = v4 + p1;
 v7 = v6 & 7ull;
 v8 = 8ull - v7;
 v5 = v5 < v8 ? v5 : v8;
 v3 = (v3 << (v5 & 63)) | (u64)(((load8(p0 + (v6 >> 3)) << ((u32)(v7) & 31)) & 255u) >> (((8u - (u32)(v5)) & 255u) & 31));
 v4 = v5 + v4;
 if (v4 < p2) {
  goto L2;
 }
 L1e:;
 return v3;
}

static void f5(u64 p0, u64 p1)
{
 u32 v12 = 0, v13 = 0;
 u64 v2 = 0, v3 = 0, v4 = 0, v5 = 0, v6 = 0, v7 = 0, v8 = 0, v9 = 0, v10 = 0, v11 = 0, b0 = 0;
 FRAME_OF(8);
 (void)b0;
 v2 = frame;
 v3 = load64(p1);
 v4 = load64(p1 + 16ull);
 v5 = v4 & 7ull;
 if (!v5) {
  goto L2e;
 }
 v6 = 0ull;
 v7 = 0ull;
 L3:;
 v8 = 8ull - v7;
 v9 = v7 + v4;
 v10 = v9 & 7ull;
 v11 = 8ull - v10;
 v8 = v8 < v11 ? v8 : v11;
 v6 = (v6 << (v8 & 63)) | (u64)(((load8(v3 + (v9 >> 3)) << ((u32)(v10) & 31)) & 255u) >> (((8u - (u32)(v8)) & 255u) & 31));
 v7 = v8 + v7;
 if (v7 < 8ull) {
  goto L3;
 }
 v7 = v4 >> 3;
 v12 = (u32)(v6);
 goto L1e;
 L2e:;
 v7 = v4 >> 3;
 v12 = load8(v3 + v7);
 L1e:;
 store64(v2 + 48, 0ull);
 store16(v2 + 56, (u16)(0u));
 store64(v2 + 32, v5);
 store64(v2 + 16, v3 + v7);
 store64(v2 + 24, load64(p1 + 8) - v7);
 v7 = load64(p1 + 24ull);
 store64(v2 + 40, v7 < 80ull ? v7 : 80ull);
 b0 = f6((v2 + 16ull), (v2 + 48ull));
 v13 = load16(v2 + 56);
 store16(v2 + 8, (u16)(v13));
 v7 = load64(v2 + 48);
 store64(v2, v7);
 store8(p0, (u8)((v12 & 255u) < 14u ? 2u : 1u));
 store64(p0 + 1, v7);
 store16(p0 + 9, (u16)(v13));
 return;
}

static u64 f6(u64 p0, u64 p1)
{
 u32 v7 = 0, v8 = 0, v14 = 0, v15 = 0;
 u64 v2 = 0, v3 = 0, v4 = 0, v5 = 0, v6 = 0, v9 = 0, v10 = 0, v11 = 0, v12 = 0, v13 = 0, b0 = 0;
 v2 = load64(p0 + 24ull);
 v3 = v2 & 7ull;
 v4 = v2 >> 3;
 v5 = load64(p0);
 v6 = load64(p0 + 16ull);
 if (!v6) {
  goto L2e;
 }
 if (!v4) {
  goto L1e;
 }
 v7 = (u32)(v6);
 v8 = 8u - v7;
 p0 = 0ull;
 if (v4 == 1ull) {
  goto L3e;
 }
 v9 = v4 & 1ull;
 v10 = v4 & 0x1ffffffffffffffeull;
 p0 = 0ull;
 L4:;
 v11 = p1 + p0;
 v12 = v5 + p0;
 v13 = v12 + 1ull;
 v14 = v8 & 255u;
 v15 = v7 & 255u;
 store8(v11, (u8)((load8(v13) >> (v14 & 31)) | (load8(v12) << (v15 & 31))));
 store8(v11 + 1ull, (u8)((load8(v12 + 2ull) >> (v14 & 31)) | (load8(v13) << (v15 & 31))));
 p0 = p0 + 2ull;
 if (v10 != p0) {
  goto L4;
 }
 if (!v9) {
  goto L1e;
 }
 L3e:;
 b0 = p1 + p0;
 p0 = v5 + p0;
 store8(b0, (u8)((load8(p0 + 1) >> ((v8 & 255u) & 31)) | (load8(p0) << ((v7 & 255u) & 31))));
 goto L1e;
 L2e:;
 if ((p1 - v5) >= v4) {
  goto L5e;
 }
 v13 = v4 & 3ull;
 v12 = 0ull;
 if (v2 < 32ull) {
  goto L6e;
 }
 v10 = v4 & 0x1ffffffffffffffcull;
 v12 = 0ull;
 L7:;
 p0 = p1 + v12;
 v11 = v5 + v12;
 store8(p0, (u8)(load8(v11)));
 store8(p0 + 1ull, (u8)(load8(v11 + 1ull)));
 store8(p0 + 2ull, (u8)(load8(v11 + 2ull)));
 store8(p0 + 3ull, (u8)(load8(v11 + 3ull)));
 v12 = v12 + 4ull;
 if (v10 != v12) {
  goto L7;
 }
 if (!v13) {
  goto L1e;
 }
 L6e:;
 p0 = p1 + v12;
 v12 = v5 + v12;
 L8:;
 store8(p0, (u8)(load8(v12)));
 p0 = p0 + 1ull;
 v12 = v12 + 1ull;
 v13 = v13 - 1ull;
 if (!(!v13)) {
  goto L8;
 }
 goto L1e;
 L5e:;
 if (!v4) {
  goto L1e;
 }
 move(p1, v5, v4);
 L1e:;
 if (!v3) {
  goto L9e;
 }
 v6 = (v2 & 0xfffffffffffffff8ull) + v6;
 v11 = 0ull;
 p0 = 0ull;
 L10:;
 v12 = v3 - p0;
 v13 = v6 + p0;
 v10 = v13 & 7ull;
 v2 = 8ull - v10;
 v12 = v12 < v2 ? v12 : v2;
 v11 = (v11 << (v12 & 63)) | (u64)(((load8(v5 + (v13 >> 3)) << ((u32)(v10) & 31)) & 255u) >> ((8u - (u32)(v12)) & 31));
 p0 = v12 + p0;
 if (p0 < v3) {
  goto L10;
 }
 store8(p1 + v4, (u8)(v11 << ((8ull - v3) & 63)));
 v4 = v4 + 1ull;
 L9e:;
 return v4;
}

static void f7(u64 p0, u64 p1)
{
 u32 v2 = 0, v4 = 0, v8 = 0;
 u64 v3 = 0, v5 = 0, v6 = 0, v7 = 0, b0 = 0, b1 = 0, b2 = 0, b3 = 0, b4 = 0, b5 = 0, b6 = 0, b7 = 0;
 FRAME_OF(2);
 v2 = 0u;
 v3 = frame;
 store16(v3 + 14, (u16)(0u));
 v4 = load8(p1);
 switch ((u32)((u64)(v4) & 255ull)) {
 case 1:
  goto L14e;
 case 2:
  goto L13e;
 case 3:
  goto L12e;
 case 4:
  goto L11e;
 case 5:
  goto L10e;
 case 6:
  goto L9e;
 case 7:
  goto L8e;
 case 8:
  goto L7e;
 case 9:
  goto L6e;
 case 10:
  goto L5e;
 case 11:
  goto L4e;
 case 13:
  goto L2e;
 default:
  goto L3e;
 }
 L14e:;
 store16(v3 + 14, (u16)(0u));
 v5 = (u64)load32(p1 + 8ull);
 v6 = (u64)load32(p1 + 4ull);
 v7 = v6 << 32;
 b0 = (v5 << 56) | ((v5 & 65280ull) << 40);
 v5 = v7 | v5;
 b1 = (b0 | (((v5 & 16711680ull) << 24) | ((v5 & 0xff000000ull) << 8))) | ((((v6 << 24) & 0xff000000ull) | ((v6 << 8) & 16711680ull)) | (((v6 >> 8) & 65280ull) | (v7 >> 56)));
 v6 = b1;
 v2 = load8(p1 + 12ull);
 v5 = 10ull;
 goto L1e;
 L13e:;
 store16(v3 + 14, (u16)(0u));
 v5 = (u64)load32(p1 + 8ull);
 v6 = (u64)load32(p1 + 4ull);
 v7 = v6 << 32;
 b2 = (v5 << 56) | ((v5 & 65280ull) << 40);
 v5 = v7 | v5;
 b3 = (b2 | (((v5 & 16711680ull) << 24) | ((v5 & 0xff000000ull) << 8))) | ((((v6 << 24) & 0xff000000ull) | ((v6 << 8) & 16711680ull)) | (((v6 >> 8) & 65280ull) | (v7 >> 56)));
 v6 = b3;
 v2 = load8(p1 + 12ull);
 v5 = 10ull;
 goto L1e;
 L12e:;
 v2 = 0u;
 store16(v3 + 14, (u16)(0u));
 v6 = (u64)load32(p1 + 8ull);
 p1 = (u64)load32(p1 + 4ull);
 v5 = p1 << 32;
 b4 = (v6 << 56) | ((v6 & 65280ull) << 40);
 v6 = v5 | v6;
 b5 = (b4 | (((v6 & 16711680ull) << 24) | ((v6 & 0xff000000ull) << 8))) | ((((p1 << 24) & 0xff000000ull) | ((p1 << 8) & 16711680ull)) | (((p1 >> 8) & 65280ull) | (v5 >> 56)));
 v6 = b5;
 v5 = 9ull;
 goto L1e;
 L11e:;
 v5 = 8ull;
 v8 = load16(p1 + 2ull);
 b6 = (((u64)((v8 << 8) | (v8 >> 8)) & 65535ull) << 8) | (u64)load8(p1 + 1ull);
 v8 = load32(p1 + 4ull);
 v6 = b6 | ((u64)(rotr32(v8 & 16711935u, 8) | (rotr32(v8, 24) & 16711935u)) << 24);
 goto L1e;
 L10e:;
 v2 = 0u;
 store16(v3 + 14, (u16)(0u));
 v6 = (u64)load16(p1 + 1ull) | ((u64)load8(p1 + 3ull) << 16);
 v5 = 4ull;
 goto L1e;
 L9e:;
 v5 = 8ull;
 v8 = load16(p1 + 2ull);
 b7 = (((u64)((v8 << 8) | (v8 >> 8)) & 65535ull) << 8) | (u64)load8(p1 + 1ull);
 v8 = load32(p1 + 4ull);
 v6 = b7 | ((u64)(rotr32(v8 & 16711935u, 8) | (rotr32(v8, 24) & 16711935u)) << 24);
 goto L1e;
 L8e:;
 v2 = 0u;
 store16(v3 + 14, (u16)(0u));
 v6 = (u64)load8(p1 + 1ull);
 v5 = 2ull;
 goto L1e;
 L7e:;
 v2 = 0u;
 store16(v3 + 14, (u16)(0u));
 v6 = (u64)load8(p1 + 1ull);
 v5 = 2ull;
 goto L1e;
 L6e:;
 v2 = 0u;
 store16(v3 + 14, (u16)(0u));
 v6 = (u64)load8(p1 + 1ull);
 v5 = 2ull;
 goto L1e;
 L5e:;
 v2 = 0u;
 store16(v3 + 14, (u16)(0u));
 v6 = (u64)load8(p1 + 1ull);
 v5 = 2ull;
 goto L1e;
 L4e:;
 store16(v3 + 14, (u16)(load16(p1 + 10ull)));
 v6 = load64(p1 + 1ull);
 v2 = load8(p1 + 9ull);
 v5 = 12ull;
 goto L1e;
 L3e:;
 v2 = 0u;
 L2e:;
 store16(v3 + 14, (u16)(v2));
 v5 = 1ull;
 v6 = 0ull;
 L1e:;
 store8(p0 + 9, (u8)(v2));
 store64(p0 + 1, v6);
 store8(p0, (u8)(v4));
 store64(p0 + 16, v5);
 store32(p0 + 12, 0u);
 store16(p0 + 10, (u16)(load16(v3 + 14)));
 return;
}

static void f8(u64 p0)
{
 u32 v9 = 0, v10 = 0, v11 = 0;
 u64 v1 = 0, v2 = 0, v3 = 0, v4 = 0, v5 = 0, v6 = 0, v7 = 0, v8 = 0, b0 = 0, b1 = 0;
 FRAME_OF(2);
 v1 = frame;
 v2 = load64(p0 + 16ull);
 if (!v2) {
  goto L1e;
 }
 v3 = v2;
 L2:;
 v4 = v2;
 v2 = 0ull;
 if (!v4) {
  goto L3e;
 }
 v2 = v4 - 1ull;
 store64(p0 + 16ull, v2);
 v5 = p0 + 24ull;
 v6 = load64(v5);
 v7 = v6 + 1ull;
 b0 = v5;
 v5 = load64(p0 + 8ull);
 v7 = v7 - (v7 < v5 ? 0ull : v5);
 store64(b0, v7);
 v8 = load64(p0);
 v6 = v8 + (v6 << 4);
 v9 = load8(v6);
 if ((v9 & 254u) != 12u) {
  goto L3e;
 }
 v10 = load8(v6 + 12ull);
 v11 = load8(v6 + 1ull);
 v6 = v6 + 2ull;
 store16(v1 + 8, (u16)(load16(v6 + 8)));
 store64(v1, load64(v6));
 if (v5 == 0ull) {
  goto L3e;
 }
 if (v5 > v2) {
  goto L4e;
 }
 v6 = p0 + 16ull;
 v2 = v4 - 2ull;
 store64(v6, v2);
 v4 = v7 + 1ull;
 v4 = v4 - (v4 < v5 ? 0ull : v5);
 store64(p0 + 24ull, v4);
 v2 = v4 + v2;
 v2 = v8 + ((v2 - (v2 < v5 ? 0ull : v5)) << 4);
 store8(v2, (u8)(v9));
 store8(v2 + 1ull, (u8)(v11));
 store64(v2 + 2ull, load64(v1));
 store16(v2 + 10ull, (u16)(load16(v1 + 8)));
 store8(v2 + 12ull, (u8)(v10));
 v2 = load64(v6) + 1ull;
 store64(v6, v2);
 goto L3e;
 L4e:;
 v2 = v7 + v2;
 v2 = v8 + ((v2 - (v2 < v5 ? 0ull : v5)) << 4);
 store8(v2, (u8)(v9));
 store8(v2 + 1ull, (u8)(v11));
 v9 = load16(v6 + 8);
 store64(v2 + 2ull, load64(v6));
 store16(v2 + 10ull, (u16)(v9));
 store8(v2 + 12ull, (u8)(v10));
 v2 = p0 + 16ull;
 b1 = v2;
 v2 = load64(v2) + 1ull;
 store64(b1, v2);
 L3e:;
 v3 = v3 - 1ull;
 if (v3 != 0ull) {
  goto L2;
 }
 L1e:;
 return;
}

static void f9(u64 p0, u64 p1)
{
 u32 v6 = 0, v7 = 0, v8 = 0, v9 = 0, v10 = 0, v11 = 0, v12 = 0, v13 = 0, v14 = 0, v15 = 0, v16 = 0, v17 = 0;
 u64 v2 = 0, v3 = 0, v4 = 0, v5 = 0;
 v2 = load64(p1 + 8);
 if (!v2) {
  goto L2e;
 }
 v3 = v2 - 1ull;
 store64(p1 + 8, v3);
 v4 = load64(p1);
 v5 = v4 + 1ull;
 store64(p1, v5);
 if (!v3) {
  goto L2e;
 }
 v6 = load8(v4);
 v3 = v2 - 2ull;
 store64(p1 + 8, v3);
 store64(p1, v4 + 2ull);
 if (!v3) {
  goto L2e;
 }
 v7 = load8(v5);
 v3 = v2 - 3ull;
 store64(p1 + 8, v3);
 v5 = v4 + 3ull;
 store64(p1, v5);
 if (!v3) {
  goto L2e;
 }
 v8 = load8(v4 + 2ull);
 v3 = v2 - 4ull;
 store64(p1 + 8, v3);
 store64(p1, v4 + 4ull);
 if (!v3) {
  goto L1e;
 }
 v9 = load8(v5);
 v3 = v2 - 5ull;
 store64(p1 + 8, v3);
 v5 = v4 + 5ull;
 store64(p1, v5);
 if (!v3) {
  goto L1e;
 }
 v10 = load8(v4 + 4ull);
 v3 = v2 - 6ull;
 store64(p1 + 8, v3);
 store64(p1, v4 + 6ull);
 if (!v3) {
  goto L1e;
 }
 v11 = load8(v5);
 v3 = v2 - 7ull;
 store64(p1 + 8, v3);
 v5 = v4 + 7ull;
 store64(p1, v5);
 if (!v3) {
  goto L1e;
 }
 v12 = load8(v4 + 6ull);
 v3 = v2 - 8ull;
 store64(p1 + 8, v3);
 store64(p1, v4 + 8ull);
 if (!v3) {
  goto L3e;
 }
 v13 = load8(v5);
 v3 = v2 - 9ull;
 store64(p1 + 8, v3);
 v5 = v4 + 9ull;
 store64(p1, v5);
 if (!v3) {
  goto L3e;
 }
 v14 = load8(v4 + 8ull);
 v3 = v2 - 10ull;
 store64(p1 + 8, v3);
 store64(p1, v4 + 10ull);
 if (!v3) {
  goto L3e;
 }
 v15 = load8(v5);
 v3 = v2 - 11ull;
 store64(p1 + 8, v3);
 v5 = v4 + 11ull;
 store64(p1, v5);
 if (!v3) {
  goto L3e;
 }
 v16 = load8(v4 + 10ull);
 store64(p1 + 8, v2 - 12ull);
 store64(p1, v4 + 12ull);
 v17 = load8(v5);
 store32(p0 + 8ull, (((v11 << 16) | (v10 << 24)) | (v12 << 8)) | v13);
 store32(p0 + 4ull, (((v7 << 16) | (v6 << 24)) | (v8 << 8)) | v9);
 store16(p0, (u16)(0u));
 store32(p0 + 12ull, v17 | (((v15 << 16) | (v14 << 24)) | (v16 << 8)));
 return;
 L3e:;
 store16(p0, (u16)(1u));
 store32(p0 + 12ull, 0u);
 store64(p0 + 4ull, 0ull);
 return;
 L2e:;
 store16(p0, (u16)(1u));
 store32(p0 + 12ull, 0u);
 store64(p0 + 4ull, 0ull);
 return;
 L1e:;
 store16(p0, (u16)(1u));
 store32(p0 + 12ull, 0u);
 store64(p0 + 4ull, 0ull);
 return;
}

static void f10(u64 p0, u64 p1, u64 p2, u64 p3)
{
 u32 v11 = 0, v12 = 0;
 u64 v4 = 0, v5 = 0, v6 = 0, v7 = 0, v8 = 0, v9 = 0, v10 = 0, v13 = 0, v14 = 0, v15 = 0, v16 = 0, v17 = 0, b0 = 0, b1 = 0;
 FRAME_OF(4);
 (void)p1;
 (void)b0;
 (void)b1;
 v4 = frame;
 v5 = p2 >> 3;
 p2 = p2 & 7ull;
 if (!(!p2)) {
  goto L2e;
 }
 b0 = f6(p3, (p0 + v5));
 goto L1e;
 L2e:;
 v6 = 8ull - p2;
 v7 = p3 + 24ull;
 p2 = load64(v7);
 v8 = v6 < p2 ? v6 : p2;
 v9 = p3 + 16ull;
 v10 = p0 + v5;
 v11 = load8(v10);
 v12 = 0u;
 if (!p2) {
  goto L3e;
 }
 v13 = load64(v9);
 if (((v13 & 7ull) | p2) == 0) {
  goto L3e;
 }
 v14 = load64(p3);
 v5 = 0ull;
 p2 = 0ull;
 L4:;
 p0 = v8 - p2;
 v15 = p2 + v13;
 v16 = v15 & 7ull;
 v17 = 8ull - v16;
 p0 = p0 < v17 ? p0 : v17;
 v5 = (v5 << (p0 & 63)) | (u64)(((load8(v14 + (v15 >> 3)) << ((u32)(v16) & 31)) & 255u) >> (((8u - (u32)(p0)) & 255u) & 31));
 p2 = p0 + p2;
 if (p2 < v8) {
  goto L4;
 }
 v12 = (u32)(v5);
 L3e:;
 store8(v10, (u8)((v12 << (((u32)(v6 - v8) & 255u) & 31)) | (v11 & (4294967295u << ((u32)(v6) & 31)))));
 store64(v4 + 24, load64(v7) - v8);
 p2 = load64(v9) + v8;
 store64(v4 + 16, p2 & 7ull);
 p2 = p2 >> 3;
 store64(v4 + 8, load64(p3 + 8) - p2);
 store64(v4, load64(p3) + p2);
 b1 = f6(v4, (v10 + 1ull));
 L1e:;
 return;
}

static void f11(u64 p0, u64 p1)
{
 u32 v4 = 0, v6 = 0;
 u64 v2 = 0, v3 = 0, v5 = 0, v7 = 0;
 FRAME_OF(4);
 v2 = frame;
 if (p1 >= load64(p0 + 8ull)) {
  goto L1e;
 }
 v3 = load64(p0) + (p1 * 96ull);
 if (load8(v3) != 1u) {
  goto L1e;
 }
 v4 = load8(v3 + 22ull);
 v5 = (u64)(v4) & 255ull;
 v6 = load32(v3 + 8ull);
 if ((v6 & 1u) == 0) {
  goto L2e;
 }
 if ((load32(v3 + 12ull) & 1u) != 0) {
  goto L2e;
 }
 if (load8(v3 + 17ull) != 1u) {
  goto L2e;
 }
 v7 = (p0 + 40ull) + (v5 << 4);
 store64(v7, 1ull);
 store64(v7 + 8ull, p1);
 v6 = load32(v3 + 8ull);
 L2e:;
 if ((v6 & 1u) != 0) {
  goto L3e;
 }
 if ((load32(v3 + 12ull) & 1u) == 0) {
  goto L3e;
 }
 if (load8(v3 + 16ull) != 1u) {
  goto L3e;
 }
 if (load8(v3 + 22ull) != (v4 & 255u)) {
  goto L3e;
 }
 v5 = (p0 + 1192ull) + (v5 << 4);
 store64(v5, 1ull);
 store64(v5 + 8ull, p1);
 L3e:;
 if (load8(v3) != 1u) {
  goto L1e;
 }
 if ((load8(v3 + 8ull) & 1u) == 0) {
  goto L4e;
 }
 if ((load32(v3 + 12ull) & 1u) != 0) {
  goto L4e;
 }
 if (load8(v3 + 17ull) != 1u) {
  goto L4e;
 }
 v6 = load8(v3 + 22ull);
 if (load8(v3 + 16ull) != 1u) {
  goto L5e;
 }
 if (load8(v3 + 19ull) != 0) {
  goto L5e;
 }
 if (load8(v3 + 20ull) != 0) {
  goto L5e;
 }
 if (load8(v3 + 88ull) != 0) {
  goto L5e;
 }
 p1 = 0ull;
 if (load8(v3 + 32ull) != 1u) {
  goto L6e;
 }
 p1 = load64(v3 + 72ull);
 L6e:;
 v4 = load8(v3 + 23ull);
 if (!v4) {
  goto L5e;
 }
 v5 = (u64)(7928u / v4);
 v7 = (u64)(load32(v3 + 28ull) / v4);
 v5 = v5 < v7 ? v5 : v7;
 p1 = p1 / (u64)(v4);
 if ((v5 < p1 ? v5 : p1) == 0) {
  goto L5e;
 }
 if (load16(v3 + 24ull) == 0) {
  goto L5e;
 }
 f77((v2 + 16ull), 1ull, 0ull, (v6 & 255u));
 v3 = p0 + 2352ull;
 store64(v3, load64(v3) | load64(v2 + 16));
 v3 = p0 + 2360ull;
 store64(v3, load64(v3) | load64(v2 + 24));
 goto L4e;
 L5e:;
 f77(v2, 1ull, 0ull, (v6 & 255u));
 v3 = p0 + 2352ull;
 store64(v3, load64(v3) & (load64(v2) ^ 0xffffffffffffffffull));
 v3 = p0 + 2360ull;
 store64(v3, load64(v3) & (load64(v2 + 8) ^ 0xffffffffffffffffull));
 L4e:;
 return;
 L1e:;
 UNREACHABLE;
}

static void f12(u64 p0, u64 p1, u64 p2, u32 p3)
{
 u32 v8 = 0, v9 = 0;
 u64 v4 = 0, v5 = 0, v6 = 0, v7 = 0, v10 = 0, v11 = 0, v12 = 0, v13 = 0, v14 = 0;
 FRAME_OF(522);
 v4 = frame;
 fill((v4 + 1048ull), 0u, 1040ull);
 fill((v4 + 2ull), 0u, 1046ull);
 v5 = load64(p1 + 8);
 if (!v5) {
  goto L3e;
 }
 v6 = v5 - 1ull;
 store64(p1 + 8, v6);
 v7 = load64(p1);
 store64(p1, v7 + 1ull);
 v8 = 0u;
 if ((p3 & 255u) == 1u) {
  goto L2e;
 }
 v8 = 0u;
 v9 = load8(v7);
 if ((v9 & 255u) == 0) {
  goto L2e;
 }
 if (!v6) {
  goto L3e;
 }
 v6 = v5 - 2ull;
 store64(p1 + 8, v6);
 v10 = v7 + 2ull;
 store64(p1, v10);
 if (!v6) {
  goto L3e;
 }
 v11 = (u64)load8(v7 + 1ull);
 v6 = v5 - 3ull;
 store64(p1 + 8, v6);
 store64(p1, v7 + 3ull);
 if (!v6) {
  goto L3e;
 }
 v10 = (u64)load8(v10);
 v6 = v5 - 4ull;
 store64(p1 + 8, v6);
 v12 = v7 + 4ull;
 store64(p1, v12);
 if (!v6) {
  goto L3e;
 }
 v13 = (u64)load8(v7 + 3ull);
 v6 = v5 - 5ull;
 store64(p1 + 8, v6);
 v14 = v7 + 5ull;
 store64(p1, v14);
 v8 = load8(v12);
 v5 = (u64)(v8);
 v7 = (((v10 << 16) | (v11 << 24)) | (v13 << 8)) | (v5 & 255ull);
 v10 = v7 >> 3;
 v5 = v10 + (u64)((u32)(((v5 & 7ull) != 0ull)));
 if (v6 < v5) {
  goto L3e;
 }
 store64(p1 + 8, v6 - v5);
 store64(p1, v14 + v5);
 fill((v4 + 3136ull), 0u, 1032ull);
 if (v7 > 8192ull) {
  goto L3e;
 }
 p1 = v5 << 3;
 if (p1 == v7) {
  goto L4e;
 }
 if ((((load8(v14 + v10) << ((v8 & 7u) & 31)) & 255u) >> ((((v8 - (u32)(p1)) + 8u) & 255u) & 31)) != 0) {
  goto L3e;
 }
 L4e:;
 v8 = (u32)((!v5));
 if (v8) {
  goto L5e;
 }
 if (v5 >= 1025ull) {
  goto L1e;
 }
 if (v8) {
  goto L6e;
 }
 fill((v4 + 3136ull), 0u, v5);
 L6e:;
 store64(v4 + 4160, v5);
 L5e:;
 if (v8) {
  goto L7e;
 }
 move((v4 + 3136ull), v14, v5);
 L7e:;
 store64(v4 + 4168, v7);
 p1 = (v4 + 2088ull) + 6ull;
 move(p1, (v4 + 3136ull), 1040ull);
 v5 = (v4 + 2ull) + 6ull;
 move(v5, p1, 1040ull);
 move((v4 + 1048ull), v5, 1040ull);
 v8 = 0u;
 p3 = p3 & 255u;
 v7 = (u64)(p3 - (u32)((p3 != 0u))) * 1048ull;
 p1 = load64(p2) + v7;
 if (load8(p1) != 0) {
  goto L8e;
 }
 v5 = load64(v4 + 2080);
 v6 = load64(v4 + 2072);
 v10 = 0ull;
 store64(p1 + 1040ull, 0ull);
 store64(v4 + 2104, 0ull);
 store64(v4 + 2096, v6);
 store64(v4 + 2112, v5);
 store64(v4 + 2088, v4 + 1048ull);
 if (v5 > 8192ull) {
  goto L1e;
 }
 v11 = p1 + 8ull;
 v6 = (v5 + 7ull) >> 3;
 v12 = load64(p1 + 1032ull);
 if (v6 > v12) {
  goto L10e;
 }
 v6 = v12;
 goto L9e;
 L10e:;
 v10 = v6 - v12;
 if (!v10) {
  goto L11e;
 }
 fill((v11 + v12), 0u, v10);
 L11e:;
 store64(p1 + 1032ull, v6);
 v10 = load64(p1 + 1040ull);
 L9e:;
 f10(v11, v6, v10, (v4 + 2088ull));
 store64(p1 + 1040ull, v5);
 store8(p1, (u8)(1u));
 L8e:;
 if ((v9 & 255u) < 2u) {
  goto L2e;
 }
 p1 = load64(p2) + v7;
 p3 = load8(p1);
 store8(p1, (u8)(p3 == 1u ? 2u : p3));
 if (p3 != 1u) {
  goto L12e;
 }
 v10 = load64(p1 + 1032ull);
 v5 = load64(p1 + 1040ull);
 fill((v4 + 2088ull), 0u, 1040ull);
 store64(v4 + 3160, v5);
 v6 = 0ull;
 store64(v4 + 3152, 0ull);
 store64(v4 + 3144, v10);
 store64(v4 + 3136, p1 + 8ull);
 if (v5 > 8192ull) {
  goto L1e;
 }
 p1 = (v5 + 7ull) >> 3;
 p3 = (u32)((!p1));
 if (p3) {
  goto L13e;
 }
 if (p3) {
  goto L14e;
 }
 fill((v4 + 2088ull), 0u, p1);
 L14e:;
 store64(v4 + 3112, p1);
 v6 = load64(v4 + 3120);
 L13e:;
 f10((v4 + 2088ull), p1, v6, (v4 + 3136ull));
 L12e:;
 if ((v9 & 255u) != 3u) {
  goto L2e;
 }
 p1 = load64(p2) + v7;
 if (load8(p1) != 2u) {
  goto L2e;
 }
 store8(p1, (u8)(3u));
 goto L2e;
 L3e:;
 v8 = 1u;
 L2e:;
 store8(p0 + 1, (u8)(0u));
 store8(p0, (u8)(v8));
 return;
 L1e:;
 UNREACHABLE;
}

static u32 f13(HEAP_IS u64 p0)
{
 u32 v2 = 0;
 u64 v1 = 0, v3 = 0, v4 = 0, v5 = 0, v6 = 0;
 FRAME_OF(4);
 v1 = frame;
 v2 = 0u;
 v3 = load64(p0 + 8ull);
 if (v3 == 0xffffffffffffffffull) {
  goto L1e;
 }
 v4 = v3 + 1ull;
 v5 = load64(p0 + 16ull);
 v6 = v5 << 1;
 v6 = v4 > v6 ? v4 : v6;
 v4 = v5 < 0x4000000000000000ull ? v6 : v4;
 if (v4 > 0xcccccccccccccull) {
  goto L1e;
 }
 if (!v5) {
  goto L3e;
 }
 import_rattle_realloc((v1 + 16ull), load64(p0), (v3 * 2560ull), (v4 * 2560ull), 16ull);
 if (((u32)(load64(v1 + 16)) & 1u) == 0) {
  goto L1e;
 }
 v3 = load64(v1 + 24);
 goto L2e;
 L3e:;
 import_rattle_alloc(HEAP v1, (v6 * 2560ull), 16ull);
 if (((u32)(load64(v1)) & 1u) == 0) {
  goto L1e;
 }
 v3 = load64(v1 + 8);
 L2e:;
 store64(p0 + 16ull, v4);
 store64(p0, v3);
 v2 = 1u;
 L1e:;
 return v2;
}

static u32 f14(u64 p0, u64 p1, u64 p2)
{
 u32 v3 = 0, v6 = 0, v10 = 0, a0 = 0, a1 = 0, a2 = 0, a3 = 0, a4 = 0, a5 = 0, a6 = 0, a7 = 0, a8 = 0, a9 = 0, a10 = 0, a11 = 0, a12 = 0;
 u32 a13 = 0, a14 = 0, a15 = 0, a16 = 0, a17 = 0, a18 = 0, a19 = 0, a20 = 0, a21 = 0, a22 = 0, a23 = 0, a24 = 0;
 u64 v4 = 0, v5 = 0, v7 = 0, v8 = 0, v9 = 0;
 if (p1 > 3ull) {
  goto L2e;
 }
 if (!(!p1)) {
  goto L3e;
 }
 v3 = 0u;
 goto L1e;
 L3e:;
 v3 = load8(p2);
 v3 = ((u32)((load8(p0) == v3)) | (u32)((load8(p0 + (p1 >> 1)) == v3))) | (u32)((load8((p0 + p1) - 1ull) == v3));
 goto L1e;
 L2e:;
 if (p1 > 8ull) {
  goto L4e;
 }
 v3 = load8(p2);
 v4 = p0 + p1;
 a0 = ((((u32)((load8(p0) == v3)) | (u32)((load8(p0 + 1ull) == v3))) | (u32)((load8(p0 + 2ull) == v3))) | (u32)((load8(p0 + 3ull) == v3))) | ((((u32)((load8(v4 - 4ull) == v3)) | (u32)((load8(v4 - 3ull) == v3))) | (u32)((load8(v4 - 2ull) == v3))) | (u32)((load8(v4 - 1ull) == v3)));
 v3 = a0;
 goto L1e;
 L4e:;
 if (p1 > 32ull) {
  goto L5e;
 }
 v3 = load8(p2);
 a1 = ((((u32)((load8(p0) == v3)) | (u32)((load8(p0 + 1ull) == v3))) | (u32)((load8(p0 + 2ull) == v3))) | (u32)((load8(p0 + 3ull) == v3))) | (u32)((load8(p0 + 4ull) == v3));
 v5 = p1 - 8ull;
 v4 = p0 + (v5 < 8ull ? v5 : 8ull);
 a2 = ((((u32)((load8(v4) == v3)) | (u32)((load8(v4 + 1ull) == v3))) | (u32)((load8(v4 + 2ull) == v3))) | (u32)((load8(v4 + 3ull) == v3))) | (u32)((load8(v4 + 4ull) == v3));
 a3 = (((a1 | (u32)((load8(p0 + 5ull) == v3))) | (u32)((load8(p0 + 6ull) == v3))) | (u32)((load8(p0 + 7ull) == v3))) | (((a2 | (u32)((load8(v4 + 5ull) == v3))) | (u32)((load8(v4 + 6ull) == v3))) | (u32)((load8(v4 + 7ull) == v3)));
 v4 = p0 + (v5 < 16ull ? v5 : 16ull);
 a4 = ((((u32)((load8(v4) == v3)) | (u32)((load8(v4 + 1ull) == v3))) | (u32)((load8(v4 + 2ull) == v3))) | (u32)((load8(v4 + 3ull) == v3))) | (u32)((load8(v4 + 4ull) == v3));
 a5 = a3 | (((a4 | (u32)((load8(v4 + 5ull) == v3))) | (u32)((load8(v4 + 6ull) == v3))) | (u32)((load8(v4 + 7ull) == v3)));
 v4 = p0 + v5;
 a6 = ((((u32)((load8(v4) == v3)) | (u32)((load8(v4 + 1ull) == v3))) | (u32)((load8(v4 + 2ull) == v3))) | (u32)((load8(v4 + 3ull) == v3))) | (u32)((load8(v4 + 4ull) == v3));
 v3 = a5 | (((a6 | (u32)((load8(v4 + 5ull) == v3))) | (u32)((load8(v4 + 6ull) == v3))) | (u32)((load8(v4 + 7ull) == v3)));
 goto L1e;
 L5e:;
 v6 = load8(p2);
 if (p1 > 64ull) {
  goto L6e;
 }
 v3 = v6 & 255u;
 a7 = ((((u32)((load8(p0) == v3)) | (u32)((load8(p0 + 1ull) == v3))) | (u32)((load8(p0 + 2ull) == v3))) | (u32)((load8(p0 + 3ull) == v3))) | (u32)((load8(p0 + 4ull) == v3));
 a8 = ((((a7 | (u32)((load8(p0 + 5ull) == v3))) | (u32)((load8(p0 + 6ull) == v3))) | (u32)((load8(p0 + 7ull) == v3))) | (u32)((load8(p0 + 8ull) == v3))) | (u32)((load8(p0 + 9ull) == v3));
 a9 = ((((a8 | (u32)((load8(p0 + 10ull) == v3))) | (u32)((load8(p0 + 11ull) == v3))) | (u32)((load8(p0 + 12ull) == v3))) | (u32)((load8(p0 + 13ull) == v3))) | (u32)((load8(p0 + 14ull) == v3));
 a10 = ((((a9 | (u32)((load8(p0 + 15ull) == v3))) | (u32)((load8(p0 + 16ull) == v3))) | (u32)((load8(p0 + 17ull) == v3))) | (u32)((load8(p0 + 18ull) == v3))) | (u32)((load8(p0 + 19ull) == v3));
 a11 = ((((a10 | (u32)((load8(p0 + 20ull) == v3))) | (u32)((load8(p0 + 21ull) == v3))) | (u32)((load8(p0 + 22ull) == v3))) | (u32)((load8(p0 + 23ull) == v3))) | (u32)((load8(p0 + 24ull) == v3));
 a12 = ((((a11 | (u32)((load8(p0 + 25ull) == v3))) | (u32)((load8(p0 + 26ull) == v3))) | (u32)((load8(p0 + 27ull) == v3))) | (u32)((load8(p0 + 28ull) == v3))) | (u32)((load8(p0 + 29ull) == v3));
 v4 = p0 + p1;
 a13 = ((((u32)((load8(v4 - 32ull) == v3)) | (u32)((load8(v4 - 31ull) == v3))) | (u32)((load8(v4 - 30ull) == v3))) | (u32)((load8(v4 - 29ull) == v3))) | (u32)((load8(v4 - 28ull) == v3));
 a14 = ((((a13 | (u32)((load8(v4 - 27ull) == v3))) | (u32)((load8(v4 - 26ull) == v3))) | (u32)((load8(v4 - 25ull) == v3))) | (u32)((load8(v4 - 24ull) == v3))) | (u32)((load8(v4 - 23ull) == v3));
 a15 = ((((a14 | (u32)((load8(v4 - 22ull) == v3))) | (u32)((load8(v4 - 21ull) == v3))) | (u32)((load8(v4 - 20ull) == v3))) | (u32)((load8(v4 - 19ull) == v3))) | (u32)((load8(v4 - 18ull) == v3));
 a16 = ((((a15 | (u32)((load8(v4 - 17ull) == v3))) | (u32)((load8(v4 - 16ull) == v3))) | (u32)((load8(v4 - 15ull) == v3))) | (u32)((load8(v4 - 14ull) == v3))) | (u32)((load8(v4 - 13ull) == v3));
 a17 = ((((a16 | (u32)((load8(v4 - 12ull) == v3))) | (u32)((load8(v4 - 11ull) == v3))) | (u32)((load8(v4 - 10ull) == v3))) | (u32)((load8(v4 - 9ull) == v3))) | (u32)((load8(v4 - 8ull) == v3));
 a18 = ((((a17 | (u32)((load8(v4 - 7ull) == v3))) | (u32)((load8(v4 - 6ull) == v3))) | (u32)((load8(v4 - 5ull) == v3))) | (u32)((load8(v4 - 4ull) == v3))) | (u32)((load8(v4 - 3ull) == v3));
 v3 = ((a12 | (u32)((load8(p0 + 30ull) == v3))) | (u32)((load8(p0 + 31ull) == v3))) | ((a18 | (u32)((load8(v4 - 2ull) == v3))) | (u32)((load8(v4 - 1ull) == v3)));
 goto L1e;
 L6e:;
 v7 = p1 & 0xffffffffffffffc0ull;
 v8 = 0ull;
 v9 = p0;
 L8:;
 v10 = 0u;
 v5 = 0ull;
 L9:;
 v4 = v9 + v5;
 v3 = v6 & 255u;
 v10 = (((v10 | (u32)((load8(v4) == v3))) | (u32)((load8(v4 + 1ull) == v3))) | (u32)((load8(v4 + 2ull) == v3))) | (u32)((load8(v4 + 3ull) == v3));
 v5 = v5 + 4ull;
 if (v5 != 64ull) {
  goto L9;
 }
 if ((v10 & 1u) != 0) {
  goto L7e;
 }
 v9 = v9 + 64ull;
 v8 = v8 + 64ull;
 if ((p1 - v8) > 63ull) {
  goto L8;
 }
 v8 = v7;
 L7e:;
 v5 = p1 - v8;
 if (v5 < 32ull) {
  goto L10e;
 }
 v4 = p0 + v8;
 L12:;
 v3 = v6 & 255u;
 if (load8(v4) == v3) {
  goto L11e;
 }
 if ((load8(v4 + 1ull) & 255u) == v3) {
  goto L11e;
 }
 v3 = v6 & 255u;
 if ((load8(v4 + 2ull) & 255u) == v3) {
  goto L11e;
 }
 if ((load8(v4 + 3ull) & 255u) == v3) {
  goto L11e;
 }
 v3 = v6 & 255u;
 if ((load8(v4 + 4ull) & 255u) == v3) {
  goto L11e;
 }
 if ((load8(v4 + 5ull) & 255u) == v3) {
  goto L11e;
 }
 v3 = v6 & 255u;
 if ((load8(v4 + 6ull) & 255u) == v3) {
  goto L11e;
 }
 if ((load8(v4 + 7ull) & 255u) == v3) {
  goto L11e;
 }
 v3 = v6 & 255u;
 if ((load8(v4 + 8ull) & 255u) == v3) {
  goto L11e;
 }
 if ((load8(v4 + 9ull) & 255u) == v3) {
  goto L11e;
 }
 v3 = v6 & 255u;
 if ((load8(v4 + 10ull) & 255u) == v3) {
  goto L11e;
 }
 if ((load8(v4 + 11ull) & 255u) == v3) {
  goto L11e;
 }
 v3 = v6 & 255u;
 if ((load8(v4 + 12ull) & 255u) == v3) {
  goto L11e;
 }
 if ((load8(v4 + 13ull) & 255u) == v3) {
  goto L11e;
 }
 v3 = v6 & 255u;
 if ((load8(v4 + 14ull) & 255u) == v3) {
  goto L11e;
 }
 if ((load8(v4 + 15ull) & 255u) == v3) {
  goto L11e;
 }
 v3 = v6 & 255u;
 if ((load8(v4 + 16ull) & 255u) == v3) {
  goto L11e;
 }
 if ((load8(v4 + 17ull) & 255u) == v3) {
  goto L11e;
 }
 v3 = v6 & 255u;
 if ((load8(v4 + 18ull) & 255u) == v3) {
  goto L11e;
 }
 if ((load8(v4 + 19ull) & 255u) == v3) {
  goto L11e;
 }
 v3 = v6 & 255u;
 if ((load8(v4 + 20ull) & 255u) == v3) {
  goto L11e;
 }
 if ((load8(v4 + 21ull) & 255u) == v3) {
  goto L11e;
 }
 v3 = v6 & 255u;
 if ((load8(v4 + 22ull) & 255u) == v3) {
  goto L11e;
 }
 if ((load8(v4 + 23ull) & 255u) == v3) {
  goto L11e;
 }
 v3 = v6 & 255u;
 if ((load8(v4 + 24ull) & 255u) == v3) {
  goto L11e;
 }
 if ((load8(v4 + 25ull) & 255u) == v3) {
  goto L11e;
 }
 v3 = v6 & 255u;
 if ((load8(v4 + 26ull) & 255u) == v3) {
  goto L11e;
 }
 if ((load8(v4 + 27ull) & 255u) == v3) {
  goto L11e;
 }
 v3 = v6 & 255u;
 if ((load8(v4 + 28ull) & 255u) == v3) {
  goto L11e;
 }
 if ((load8(v4 + 29ull) & 255u) == v3) {
  goto L11e;
 }
 v3 = v6 & 255u;
 if ((load8(v4 + 30ull) & 255u) == v3) {
  goto L11e;
 }
 if ((load8(v4 + 31ull) & 255u) == v3) {
  goto L11e;
 }
 v4 = v4 + 32ull;
 v5 = v5 - 32ull;
 if (v5 > 31ull) {
  goto L12;
 }
 goto L10e;
 L11e:;
 if (v5 <= 31ull) {
  goto L10e;
 }
 v3 = 1u;
 goto L1e;
 L10e:;
 v4 = p0 + p1;
 v3 = load8(p2);
 a19 = ((((u32)((load8(v4 - 32ull) == v3)) | (u32)((load8(v4 - 31ull) == v3))) | (u32)((load8(v4 - 30ull) == v3))) | (u32)((load8(v4 - 29ull) == v3))) | (u32)((load8(v4 - 28ull) == v3));
 a20 = ((((a19 | (u32)((load8(v4 - 27ull) == v3))) | (u32)((load8(v4 - 26ull) == v3))) | (u32)((load8(v4 - 25ull) == v3))) | (u32)((load8(v4 - 24ull) == v3))) | (u32)((load8(v4 - 23ull) == v3));
 a21 = ((((a20 | (u32)((load8(v4 - 22ull) == v3))) | (u32)((load8(v4 - 21ull) == v3))) | (u32)((load8(v4 - 20ull) == v3))) | (u32)((load8(v4 - 19ull) == v3))) | (u32)((load8(v4 - 18ull) == v3));
 a22 = ((((a21 | (u32)((load8(v4 - 17ull) == v3))) | (u32)((load8(v4 - 16ull) == v3))) | (u32)((load8(v4 - 15ull) == v3))) | (u32)((load8(v4 - 14ull) == v3))) | (u32)((load8(v4 - 13ull) == v3));
 a23 = ((((a22 | (u32)((load8(v4 - 12ull) == v3))) | (u32)((load8(v4 - 11ull) == v3))) | (u32)((load8(v4 - 10ull) == v3))) | (u32)((load8(v4 - 9ull) == v3))) | (u32)((load8(v4 - 8ull) == v3));
 a24 = ((((a23 | (u32)((load8(v4 - 7ull) == v3))) | (u32)((load8(v4 - 6ull) == v3))) | (u32)((load8(v4 - 5ull) == v3))) | (u32)((load8(v4 - 4ull) == v3))) | (u32)((load8(v4 - 3ull) == v3));
 v3 = (a24 | (u32)((load8(v4 - 2ull) == v3))) | (u32)((load8(v4 - 1ull) == v3));
 L1e:;
 return v3 & 1u;
}

static void f15(HEAP_IS u64 p0, u64 p1)
{
 u32 v3 = 0, v8 = 0, v14 = 0, v15 = 0, v16 = 0, v17 = 0, v25 = 0, v26 = 0, v27 = 0, v28 = 0, v29 = 0, v30 = 0, v31 = 0, v32 = 0, a0 = 0, a1 = 0;
 u32 a2 = 0, a3 = 0, a4 = 0, a5 = 0, a6 = 0, a7 = 0, a8 = 0, a9 = 0, a10 = 0, a11 = 0, a12 = 0, a13 = 0, a14 = 0, a15 = 0, a16 = 0, a17 = 0;
 u32 a18 = 0, a19 = 0, a20 = 0, a21 = 0, a22 = 0, a23 = 0, a24 = 0, a25 = 0, a26 = 0, a27 = 0, a28 = 0, a29 = 0, a30 = 0, a31 = 0, a32 = 0, a33 = 0;
 u32 a34 = 0, a35 = 0, a36 = 0, a37 = 0, a38 = 0, a39 = 0, a40 = 0, a41 = 0, a42 = 0, a43 = 0, a46 = 0, a48 = 0, a49 = 0, a50 = 0, a51 = 0, a52 = 0;
 u32 a53 = 0, a54 = 0, a55 = 0, a56 = 0, a57 = 0, a58 = 0, a59 = 0, a60 = 0, a61 = 0, a62 = 0, a63 = 0, a64 = 0, a65 = 0, a66 = 0;
 u64 v2 = 0, v4 = 0, v5 = 0, v6 = 0, v7 = 0, v9 = 0, v10 = 0, v11 = 0, v12 = 0, v13 = 0, v18 = 0, v19 = 0, v20 = 0, v21 = 0, v22 = 0, v23 = 0;
 u64 v24 = 0, b44 = 0, b45 = 0, b47 = 0;
 FRAME_OF(528);
 (void)b44;
 v2 = frame;
 store64(v2 + 24, 0ull);
 store64(v2 + 32, 0ull);
 store64(v2 + 16, v2 + 4223ull);
 a0 = f16(HEAP (v2 + 16ull), 8ull);
 v3 = a0;
 v4 = load64(v2 + 32);
 if (!v3) {
  goto L7e;
 }
 v5 = load64(v2 + 24);
 v6 = v5 + 8ull;
 v7 = load64(v2 + 16);
 v5 = v7 + v5;
 if ((v5 - DATA(0)) > 7ull) {
  goto L9e;
 }
 store64(v5, 0x74736f682050434eull);
 goto L8e;
 L9e:;
 store64(v5, 0x74736f682050434eull);
 L8e:;
 store64(v2 + 16, v7);
 store64(v2 + 24, v6);
 store64(v2 + 32, v4);
 v3 = load8(p1);
 if ((v4 - v6) > 1ull) {
  goto L10e;
 }
 a1 = f16(HEAP (v2 + 16ull), 2ull);
 if (!a1) {
  goto L6e;
 }
 v7 = load64(v2 + 16);
 v4 = load64(v2 + 32);
 v6 = load64(v2 + 24);
 L10e:;
 store16(v7 + v6, (u16)((v3 << 8) | 1u));
 store64(v2 + 32, v4);
 store64(v2 + 24, v6 + 2ull);
 store64(v2 + 16, v7);
 v3 = load32(p1 + 52ull);
 v8 = load32(p1 + 56ull);
 a2 = f17(HEAP (v2 + 16ull), load32(p1 + 48ull));
 if ((a2 & 255u) != 0) {
  goto L2e;
 }
 a3 = f17(HEAP (v2 + 16ull), v3);
 if ((a3 & 255u) != 0) {
  goto L2e;
 }
 a4 = f17(HEAP (v2 + 16ull), v8);
 if ((a4 & 255u) != 0) {
  goto L2e;
 }
 v9 = load64(p1 + 16ull);
 if (!v9) {
  goto L4e;
 }
 v10 = p1 + 8ull;
 v11 = load64(p1 + 24ull);
 v12 = 0ull;
 goto L5e;
 L7e:;
 if (!v4) {
  goto L11e;
 }
 import_rattle_dealloc(load64(v2 + 16));
 L11e:;
 store8(p0, (u8)(1u));
 store64(p0 + 8ull, 0ull);
 store64(p0 + 16ull, 0ull);
 store64(p0 + 24ull, 0ull);
 goto L1e;
 L6e:;
 if (load64(v2 + 32) == 0) {
  goto L12e;
 }
 import_rattle_dealloc(load64(v2 + 16));
 L12e:;
 store8(p0, (u8)(1u));
 store64(p0 + 8ull, 0ull);
 store64(p0 + 16ull, 0ull);
 store64(p0 + 24ull, 0ull);
 goto L1e;
 L5e:;
 L13:;
 v3 = load8(v10 + v12);
 v4 = load64(v2 + 32);
 p1 = load64(v2 + 24);
 if ((v4 - p1) > 1ull) {
  goto L14e;
 }
 a5 = f16(HEAP (v2 + 16ull), 2ull);
 if (!a5) {
  goto L3e;
 }
 v4 = load64(v2 + 32);
 p1 = load64(v2 + 24);
 L14e:;
 v6 = load64(v2 + 16);
 store16(v6 + p1, (u16)((v3 << 8) | 1u));
 store64(v2 + 32, v4);
 store64(v2 + 24, p1 + 2ull);
 store64(v2 + 16, v6);
 v13 = v11 + (v12 * 2560ull);
 a6 = f18(HEAP (v2 + 16ull), load32(v13));
 if ((a6 & 255u) != 0) {
  goto L3e;
 }
 v7 = load64(v13 + 24ull);
 if (!v7) {
  goto L15e;
 }
 v4 = 0ull;
 L16:;
 if (load64(v13 + 24ull) <= v4) {
  goto L15e;
 }
 p1 = load64(v13 + 32ull);
 v6 = load64(v13 + 16ull);
 p1 = load64(v13 + 8ull) + ((v4 + (p1 - ((v4 + p1) < v6 ? 0ull : v6))) << 4);
 v3 = load8(p1);
 v14 = load32(p1 + 8ull);
 v15 = load32(p1 + 4ull);
 v16 = load16(p1 + 2ull);
 v17 = load8(p1 + 12ull);
 v8 = load8(p1 + 1ull);
 p1 = load64(v2 + 24);
 if (load64(v2 + 32) != p1) {
  goto L17e;
 }
 a7 = f16(HEAP (v2 + 16ull), 1ull);
 if (!a7) {
  goto L3e;
 }
 p1 = load64(v2 + 24);
 L17e:;
 store8(load64(v2 + 16) + p1, (u8)(1u));
 p1 = p1 + 1ull;
 store64(v2 + 24, p1);
 switch (v3) {
 case 1:
  goto L31e;
 case 2:
  goto L30e;
 case 3:
  goto L29e;
 case 4:
  goto L20e;
 case 5:
  goto L28e;
 case 6:
  goto L19e;
 case 7:
  goto L27e;
 case 8:
  goto L26e;
 case 9:
  goto L25e;
 case 10:
  goto L24e;
 case 11:
  goto L23e;
 case 12:
  goto L22e;
 case 13:
  goto L21e;
 default:
  goto L32e;
 }
 L32e:;
 if (load64(v2 + 32) != p1) {
  goto L33e;
 }
 a8 = f16(HEAP (v2 + 16ull), 1ull);
 if (!a8) {
  goto L3e;
 }
 p1 = load64(v2 + 24);
 L33e:;
 store8(load64(v2 + 16) + p1, (u8)(0u));
 store64(v2 + 24, p1 + 1ull);
 goto L18e;
 L31e:;
 if (load64(v2 + 32) != p1) {
  goto L34e;
 }
 a9 = f16(HEAP (v2 + 16ull), 1ull);
 if (!a9) {
  goto L3e;
 }
 p1 = load64(v2 + 24);
 L34e:;
 store8(load64(v2 + 16) + p1, (u8)(1u));
 store64(v2 + 24, p1 + 1ull);
 a10 = f17(HEAP (v2 + 16ull), v15);
 if ((a10 & 255u) != 0) {
  goto L3e;
 }
 a11 = f17(HEAP (v2 + 16ull), v14);
 if ((a11 & 255u) != 0) {
  goto L3e;
 }
 p1 = load64(v2 + 24);
 if (load64(v2 + 32) != p1) {
  goto L35e;
 }
 a12 = f16(HEAP (v2 + 16ull), 1ull);
 if (!a12) {
  goto L3e;
 }
 p1 = load64(v2 + 24);
 L35e:;
 store8(load64(v2 + 16) + p1, (u8)(v17));
 store64(v2 + 24, p1 + 1ull);
 goto L18e;
 L30e:;
 if (load64(v2 + 32) != p1) {
  goto L36e;
 }
 a13 = f16(HEAP (v2 + 16ull), 1ull);
 if (!a13) {
  goto L3e;
 }
 p1 = load64(v2 + 24);
 L36e:;
 store8(load64(v2 + 16) + p1, (u8)(2u));
 store64(v2 + 24, p1 + 1ull);
 a14 = f17(HEAP (v2 + 16ull), v15);
 if ((a14 & 255u) != 0) {
  goto L3e;
 }
 a15 = f17(HEAP (v2 + 16ull), v14);
 if ((a15 & 255u) != 0) {
  goto L3e;
 }
 p1 = load64(v2 + 24);
 if (load64(v2 + 32) != p1) {
  goto L37e;
 }
 a16 = f16(HEAP (v2 + 16ull), 1ull);
 if (!a16) {
  goto L3e;
 }
 p1 = load64(v2 + 24);
 L37e:;
 store8(load64(v2 + 16) + p1, (u8)(v17));
 store64(v2 + 24, p1 + 1ull);
 goto L18e;
 L29e:;
 if (load64(v2 + 32) != p1) {
  goto L38e;
 }
 a17 = f16(HEAP (v2 + 16ull), 1ull);
 if (!a17) {
  goto L3e;
 }
 p1 = load64(v2 + 24);
 L38e:;
 store8(load64(v2 + 16) + p1, (u8)(3u));
 store64(v2 + 24, p1 + 1ull);
 a18 = f17(HEAP (v2 + 16ull), v15);
 if ((a18 & 255u) != 0) {
  goto L3e;
 }
 a19 = f17(HEAP (v2 + 16ull), v14);
 if ((a19 & 255u) == 0) {
  goto L18e;
 }
 goto L3e;
 L28e:;
 v6 = load64(v2 + 32);
 if ((v6 - p1) > 3ull) {
  goto L39e;
 }
 a20 = f16(HEAP (v2 + 16ull), 4ull);
 if (!a20) {
  goto L3e;
 }
 v6 = load64(v2 + 32);
 p1 = load64(v2 + 24);
 L39e:;
 v5 = load64(v2 + 16);
 store32(v5 + p1, ((v8 << 8) | (v16 << 16)) | 5u);
 store64(v2 + 32, v6);
 store64(v2 + 24, p1 + 4ull);
 store64(v2 + 16, v5);
 goto L18e;
 L27e:;
 v6 = load64(v2 + 32);
 if ((v6 - p1) > 1ull) {
  goto L40e;
 }
 a21 = f16(HEAP (v2 + 16ull), 2ull);
 if (!a21) {
  goto L3e;
 }
 v6 = load64(v2 + 32);
 p1 = load64(v2 + 24);
 L40e:;
 v5 = load64(v2 + 16);
 store16(v5 + p1, (u16)((v8 << 8) | 7u));
 store64(v2 + 32, v6);
 store64(v2 + 24, p1 + 2ull);
 store64(v2 + 16, v5);
 goto L18e;
 L26e:;
 v6 = load64(v2 + 32);
 if ((v6 - p1) > 1ull) {
  goto L41e;
 }
 a22 = f16(HEAP (v2 + 16ull), 2ull);
 if (!a22) {
  goto L3e;
 }
 v6 = load64(v2 + 32);
 p1 = load64(v2 + 24);
 L41e:;
 v5 = load64(v2 + 16);
 store16(v5 + p1, (u16)((v8 << 8) | 8u));
 store64(v2 + 32, v6);
 store64(v2 + 24, p1 + 2ull);
 store64(v2 + 16, v5);
 goto L18e;
 L25e:;
 v6 = load64(v2 + 32);
 if ((v6 - p1) > 1ull) {
  goto L42e;
 }
 a23 = f16(HEAP (v2 + 16ull), 2ull);
 if (!a23) {
  goto L3e;
 }
 v6 = load64(v2 + 32);
 p1 = load64(v2 + 24);
 L42e:;
 v5 = load64(v2 + 16);
 store16(v5 + p1, (u16)((v8 << 8) | 9u));
 store64(v2 + 32, v6);
 store64(v2 + 24, p1 + 2ull);
 store64(v2 + 16, v5);
 goto L18e;
 L24e:;
 v6 = load64(v2 + 32);
 if ((v6 - p1) > 1ull) {
  goto L43e;
 }
 a24 = f16(HEAP (v2 + 16ull), 2ull);
 if (!a24) {
  goto L3e;
 }
 v6 = load64(v2 + 32);
 p1 = load64(v2 + 24);
 L43e:;
 v5 = load64(v2 + 16);
 store16(v5 + p1, (u16)((v8 << 8) | 10u));
 store64(v2 + 32, v6);
 store64(v2 + 24, p1 + 2ull);
 store64(v2 + 16, v5);
 goto L18e;
 L23e:;
 if (load64(v2 + 32) != p1) {
  goto L44e;
 }
 a25 = f16(HEAP (v2 + 16ull), 1ull);
 if (!a25) {
  goto L3e;
 }
 p1 = load64(v2 + 24);
 L44e:;
 store8(load64(v2 + 16) + p1, (u8)(11u));
 store32(v2 + 2127, v14);
 store32(v2 + 2123, v15);
 store16(v2 + 2121, (u16)(v16));
 store8(v2 + 2120, (u8)(v8));
 store64(v2 + 24, p1 + 1ull);
 a26 = f19(HEAP (v2 + 16ull), (v2 + 2120ull));
 if ((a26 & 255u) == 0) {
  goto L18e;
 }
 goto L3e;
 L22e:;
 if (load64(v2 + 32) != p1) {
  goto L45e;
 }
 a27 = f16(HEAP (v2 + 16ull), 1ull);
 if (!a27) {
  goto L3e;
 }
 p1 = load64(v2 + 24);
 L45e:;
 store8(load64(v2 + 16) + p1, (u8)(12u));
 store64(v2 + 24, p1 + 1ull);
 goto L18e;
 L21e:;
 if (load64(v2 + 32) != p1) {
  goto L46e;
 }
 a28 = f16(HEAP (v2 + 16ull), 1ull);
 if (!a28) {
  goto L3e;
 }
 p1 = load64(v2 + 24);
 L46e:;
 store8(load64(v2 + 16) + p1, (u8)(13u));
 store64(v2 + 24, p1 + 1ull);
 goto L18e;
 L20e:;
 a29 = f20(HEAP (v2 + 16ull), 4u, v8, v16, v15);
 if ((a29 & 255u) != 0) {
  goto L3e;
 }
 goto L18e;
 L19e:;
 a30 = f20(HEAP (v2 + 16ull), 6u, v8, v16, v15);
 if ((a30 & 255u) != 0) {
  goto L3e;
 }
 L18e:;
 v4 = v4 + 1ull;
 if (v7 != v4) {
  goto L16;
 }
 L15e:;
 p1 = load64(v2 + 24);
 if (load64(v2 + 32) != p1) {
  goto L47e;
 }
 a31 = f16(HEAP (v2 + 16ull), 1ull);
 if (!a31) {
  goto L3e;
 }
 p1 = load64(v2 + 24);
 L47e:;
 store8(load64(v2 + 16) + p1, (u8)(0u));
 store64(v2 + 24, p1 + 1ull);
 v18 = 0ull;
 L49:;
 v19 = 0ull;
 v20 = load64(v13 + 56ull);
 v5 = v20;
 v21 = load64(v13 + 48ull);
 v22 = v21;
 L50:;
 p1 = v22;
 v23 = v19;
 if (!v5) {
  goto L48e;
 }
 v19 = v23 + 1ull;
 v5 = v5 - 1ull;
 v22 = p1 + 96ull;
 if (load8(p1) != 1u) {
  goto L50;
 }
 v8 = load32(p1 + 12ull);
 v3 = load32(p1 + 8ull);
 p1 = v21;
 v4 = v20;
 v24 = 0ull;
 L51:;
 p1 = p1 - 88ull;
 v4 = 0ull - v4;
 L53:;
 v4 = v4 + 1ull;
 if (v4 == 1ull) {
  goto L52e;
 }
 v6 = p1 + 88ull;
 v7 = p1 + 96ull;
 p1 = v7;
 if (load8(v6) != 1u) {
  goto L53;
 }
 v15 = load32(v7);
 v24 = v24 + (u64)(v15 == v3 ? (u32)((load32(v7 + 4ull) < v8)) : (u32)((v15 < v3)));
 p1 = v7 + 88ull;
 v4 = 0ull - v4;
 goto L51;
 L52e:;
 if (v24 != v18) {
  goto L50;
 }
 if (v23 >= v20) {
  goto L54e;
 }
 p1 = v21 + (v23 * 96ull);
 if (load8(p1) != 1u) {
  goto L54e;
 }
 v4 = p1 + 28ull;
 v6 = p1 + 24ull;
 v7 = p1 + 23ull;
 v5 = p1 + 22ull;
 v19 = p1 + 21ull;
 v22 = p1 + 20ull;
 v23 = p1 + 16ull;
 v24 = p1 + 12ull;
 v20 = p1 + 8ull;
 v14 = 0u;
 if (load8(p1 + 32ull) != 1u) {
  goto L55e;
 }
 v14 = load32(p1 + 72ull);
 L55e:;
 v25 = load32(v4);
 v16 = load16(v6);
 v26 = load8(v7);
 v27 = load8(v5);
 v28 = load8(v19);
 v29 = load8(v22);
 v17 = load32(v23);
 v15 = load32(v24);
 v8 = load32(v20);
 v30 = load32(p1 + 92ull);
 v31 = load8(p1 + 89ull);
 v32 = load8(p1 + 88ull);
 p1 = load64(v2 + 24);
 if (load64(v2 + 32) != p1) {
  goto L56e;
 }
 a32 = f16(HEAP (v2 + 16ull), 1ull);
 if (!a32) {
  goto L3e;
 }
 p1 = load64(v2 + 24);
 L56e:;
 store8(load64(v2 + 16) + p1, (u8)(1u));
 store64(v2 + 24, p1 + 1ull);
 a33 = f17(HEAP (v2 + 16ull), v8);
 if ((a33 & 255u) != 0) {
  goto L3e;
 }
 a34 = f17(HEAP (v2 + 16ull), v15);
 if ((a34 & 255u) != 0) {
  goto L3e;
 }
 v6 = load64(v13 + 56ull);
 p1 = load64(v13 + 48ull);
 v4 = 0ull;
 L57:;
 v3 = 0u;
 if (v6 == v4) {
  goto L59e;
 }
 if (load8(p1) != 1u) {
  goto L58e;
 }
 if (load32(p1 + 8ull) != v8) {
  goto L58e;
 }
 if (load32(p1 + 12ull) != v15) {
  goto L58e;
 }
 if (v4 >= v6) {
  goto L54e;
 }
 if (load8(p1) != 1u) {
  goto L54e;
 }
 if (load8(p1 + 32ull) != 1u) {
  goto L59e;
 }
 v3 = load32(p1 + 80ull);
 L59e:;
 a35 = f18(HEAP (v2 + 16ull), v17);
 if ((a35 & 255u) != 0) {
  goto L3e;
 }
 a36 = f18(HEAP (v2 + 16ull), ((((v28 << 8) | v29) | (v32 << 16)) | (v31 << 24)));
 if ((a36 & 255u) != 0) {
  goto L3e;
 }
 v4 = load64(v2 + 32);
 p1 = load64(v2 + 24);
 if ((v4 - p1) > 1ull) {
  goto L60e;
 }
 a37 = f16(HEAP (v2 + 16ull), 2ull);
 if (!a37) {
  goto L3e;
 }
 v4 = load64(v2 + 32);
 p1 = load64(v2 + 24);
 L60e:;
 v6 = load64(v2 + 16);
 store16(v6 + p1, (u16)((v26 << 8) | v27));
 p1 = p1 + 2ull;
 store64(v2 + 24, p1);
 store64(v2 + 16, v6);
 store64(v2 + 32, v4);
 if (v4 != p1) {
  goto L61e;
 }
 a38 = f16(HEAP (v2 + 16ull), 1ull);
 if (!a38) {
  goto L3e;
 }
 v6 = load64(v2 + 16);
 p1 = load64(v2 + 24);
 L61e:;
 store8(v6 + p1, (u8)((v16 & 65280u) >> 8));
 p1 = p1 + 1ull;
 store64(v2 + 24, p1);
 if (load64(v2 + 32) != p1) {
  goto L62e;
 }
 a39 = f16(HEAP (v2 + 16ull), 1ull);
 if (!a39) {
  goto L3e;
 }
 p1 = load64(v2 + 24);
 L62e:;
 store8(load64(v2 + 16) + p1, (u8)(v16));
 store64(v2 + 24, p1 + 1ull);
 a40 = f17(HEAP (v2 + 16ull), v25);
 if ((a40 & 255u) != 0) {
  goto L3e;
 }
 a41 = f17(HEAP (v2 + 16ull), v3);
 if ((a41 & 255u) != 0) {
  goto L3e;
 }
 a42 = f17(HEAP (v2 + 16ull), v30);
 if ((a42 & 255u) != 0) {
  goto L3e;
 }
 a43 = f17(HEAP (v2 + 16ull), v14);
 if ((a43 & 255u) != 0) {
  goto L3e;
 }
 v6 = load64(v13 + 56ull);
 p1 = load64(v13 + 48ull);
 v4 = 0ull;
 L63:;
 if (v6 == v4) {
  goto L65e;
 }
 if (load8(p1) != 1u) {
  goto L64e;
 }
 if (load32(p1 + 8ull) != v8) {
  goto L64e;
 }
 if (load32(p1 + 12ull) != v15) {
  goto L64e;
 }
 if (v4 >= v6) {
  goto L54e;
 }
 if (load8(p1) != 1u) {
  goto L54e;
 }
 if (load8(p1 + 32ull) != 1u) {
  goto L65e;
 }
 v19 = load64(p1 + 40ull);
 v23 = load64(p1 + 48ull);
 v8 = (u32)((!v23));
 if (!v8) {
  goto L67e;
 }
 v22 = v2 + 4223ull;
 goto L66e;
 L67e:;
 if ((s64)v23 < (s64)0ull) {
  goto L3e;
 }
 import_rattle_alloc(HEAP v2, v23, 1ull);
 if (((u32)(load64(v2)) & 1u) == 0) {
  goto L3e;
 }
 v22 = load64(v2 + 8);
 L66e:;
 if ((v22 - v19) >= v23) {
  goto L69e;
 }
 v5 = v23 & 3ull;
 v6 = 0ull;
 if (v23 < 4ull) {
  goto L70e;
 }
 v24 = v23 & 0xfffffffffffffffcull;
 v6 = 0ull;
 L71:;
 v4 = v22 + v6;
 v7 = v19 + v6;
 store8(v4, (u8)(load8(v7)));
 store8(v4 + 1ull, (u8)(load8(v7 + 1ull)));
 store8(v4 + 2ull, (u8)(load8(v7 + 2ull)));
 store8(v4 + 3ull, (u8)(load8(v7 + 3ull)));
 v6 = v6 + 4ull;
 if (v24 != v6) {
  goto L71;
 }
 if (!v5) {
  goto L68e;
 }
 L70e:;
 v4 = v22 + v6;
 v6 = v19 + v6;
 L72:;
 store8(v4, (u8)(load8(v6)));
 v4 = v4 + 1ull;
 v6 = v6 + 1ull;
 v5 = v5 - 1ull;
 if (v5 != 0ull) {
  goto L72;
 }
 goto L68e;
 L69e:;
 if (v8) {
  goto L68e;
 }
 move(v22, v19, v23);
 L68e:;
 v6 = load64(p1 + 64ull);
 v4 = load64(p1 + 72ull);
 fill((v2 + 1080ull), 0u, 1040ull);
 if (v4 < 8193ull) {
  goto L75e;
 }
 v24 = v6 & 7ull;
 L76:;
 store64(v2 + 3152, 0ull);
 store64(v2 + 64, 8192ull);
 store64(v2 + 56, v24);
 p1 = v6 >> 3;
 store64(v2 + 48, v23 - p1);
 store64(v2 + 40, v22 + p1);
 fill((v2 + 2120ull), 0u, 1024ull);
 store64(v2 + 3144, 1024ull);
 b44 = f6((v2 + 40ull), (v2 + 2120ull));
 store64(v2 + 3152, 8192ull);
 move((v2 + 1080ull), (v2 + 2120ull), 1040ull);
 fill((v2 + 2120ull), 0u, 1024ull);
 store64(v2 + 64, load64(v2 + 2112));
 store64(v2 + 56, 0ull);
 store64(v2 + 48, load64(v2 + 2104));
 store64(v2 + 40, v2 + 1080ull);
 b45 = f6((v2 + 40ull), (v2 + 2120ull));
 p1 = b45;
 v19 = load64(v2 + 32);
 v7 = load64(v2 + 24);
 if (p1 <= (v19 - v7)) {
  goto L77e;
 }
 a46 = f16(HEAP (v2 + 16ull), p1);
 if (!a46) {
  goto L74e;
 }
 v19 = load64(v2 + 32);
 v7 = load64(v2 + 24);
 L77e:;
 v4 = v4 - 8192ull;
 v5 = load64(v2 + 16);
 if (!p1) {
  goto L78e;
 }
 move((v5 + v7), (v2 + 2120ull), p1);
 L78e:;
 store64(v2 + 32, v19);
 store64(v2 + 24, v7 + p1);
 store64(v2 + 16, v5);
 v6 = v6 + 8192ull;
 if (v4 > 8192ull) {
  goto L76;
 }
 L75e:;
 fill((v2 + 2120ull), 0u, 1040ull);
 store64(v2 + 56, v6 & 7ull);
 p1 = v6 >> 3;
 store64(v2 + 48, v23 - p1);
 store64(v2 + 40, v22 + p1);
 store64(v2 + 64, v4);
 v6 = 0ull;
 p1 = (v4 + 7ull) >> 3;
 v3 = (u32)((!p1));
 if (v3) {
  goto L79e;
 }
 if (v3) {
  goto L80e;
 }
 fill((v2 + 2120ull), 0u, p1);
 L80e:;
 store64(v2 + 3144, p1);
 v6 = load64(v2 + 3152);
 L79e:;
 f10((v2 + 2120ull), p1, v6, (v2 + 40ull));
 store64(v2 + 3152, v4);
 move((v2 + 40ull), (v2 + 2120ull), 1040ull);
 v3 = 0u;
 fill((v2 + 3160ull), 0u, 1024ull);
 store64(v2 + 4208, load64(v2 + 1072));
 store64(v2 + 4200, 0ull);
 store64(v2 + 4192, load64(v2 + 1064));
 store64(v2 + 4184, v2 + 40ull);
 b47 = f6((v2 + 4184ull), (v2 + 3160ull));
 p1 = b47;
 v7 = load64(v2 + 32);
 v4 = load64(v2 + 24);
 if (p1 <= (v7 - v4)) {
  goto L81e;
 }
 a48 = f16(HEAP (v2 + 16ull), p1);
 if (!a48) {
  goto L73e;
 }
 v7 = load64(v2 + 32);
 v4 = load64(v2 + 24);
 L81e:;
 v6 = load64(v2 + 16);
 if (!p1) {
  goto L82e;
 }
 move((v6 + v4), (v2 + 3160ull), p1);
 L82e:;
 store64(v2 + 32, v7);
 store64(v2 + 24, v4 + p1);
 store64(v2 + 16, v6);
 v3 = 1u;
 goto L73e;
 L74e:;
 v3 = 0u;
 L73e:;
 if (v8) {
  goto L83e;
 }
 import_rattle_dealloc(v22);
 L83e:;
 if (!v3) {
  goto L3e;
 }
 L65e:;
 v18 = v18 + 1ull;
 if (v18 != 128ull) {
  goto L49;
 }
 goto L48e;
 L64e:;
 p1 = p1 + 96ull;
 v4 = v4 + 1ull;
 goto L63;
 L58e:;
 p1 = p1 + 96ull;
 v4 = v4 + 1ull;
 goto L57;
 L54e:;
 UNREACHABLE;
 L48e:;
 p1 = load64(v2 + 24);
 if (load64(v2 + 32) != p1) {
  goto L84e;
 }
 a49 = f16(HEAP (v2 + 16ull), 1ull);
 if (!a49) {
  goto L3e;
 }
 p1 = load64(v2 + 24);
 L84e:;
 store8(load64(v2 + 16) + p1, (u8)(0u));
 p1 = p1 + 1ull;
 store64(v2 + 24, p1);
 v4 = load64(v2 + 32);
 if (load8(v13 + 2416ull) != 1u) {
  goto L86e;
 }
 if (v4 != p1) {
  goto L87e;
 }
 a50 = f16(HEAP (v2 + 16ull), 1ull);
 if (!a50) {
  goto L3e;
 }
 p1 = load64(v2 + 24);
 L87e:;
 store8(load64(v2 + 16) + p1, (u8)(1u));
 goto L85e;
 L86e:;
 if (v4 != p1) {
  goto L88e;
 }
 a51 = f16(HEAP (v2 + 16ull), 1ull);
 if (!a51) {
  goto L3e;
 }
 p1 = load64(v2 + 24);
 L88e:;
 store8(load64(v2 + 16) + p1, (u8)(0u));
 L85e:;
 p1 = p1 + 1ull;
 store64(v2 + 24, p1);
 v4 = load64(v2 + 32);
 if (load8(v13 + 2417ull) != 1u) {
  goto L90e;
 }
 v3 = load8(v13 + 2418ull);
 if ((v4 - p1) > 1ull) {
  goto L91e;
 }
 a52 = f16(HEAP (v2 + 16ull), 2ull);
 if (!a52) {
  goto L3e;
 }
 v4 = load64(v2 + 32);
 p1 = load64(v2 + 24);
 L91e:;
 v6 = load64(v2 + 16);
 store16(v6 + p1, (u16)((v3 << 8) | 1u));
 store64(v2 + 32, v4);
 v4 = p1 + 2ull;
 store64(v2 + 24, v4);
 store64(v2 + 16, v6);
 goto L89e;
 L90e:;
 if (v4 != p1) {
  goto L92e;
 }
 a53 = f16(HEAP (v2 + 16ull), 1ull);
 if (!a53) {
  goto L3e;
 }
 p1 = load64(v2 + 24);
 L92e:;
 store8(load64(v2 + 16) + p1, (u8)(0u));
 v4 = p1 + 1ull;
 store64(v2 + 24, v4);
 L89e:;
 v19 = load64(v13 + 2440ull);
 if (!v19) {
  goto L93e;
 }
 p1 = 0ull;
 L94:;
 v4 = load64(v2 + 24);
 if (load64(v13 + 2440ull) <= p1) {
  goto L93e;
 }
 v6 = load64(v13 + 2448ull);
 v7 = load64(v13 + 2432ull);
 v5 = load64(v13 + 2424ull);
 if (load64(v2 + 32) != v4) {
  goto L95e;
 }
 a54 = f16(HEAP (v2 + 16ull), 1ull);
 if (!a54) {
  goto L3e;
 }
 v4 = load64(v2 + 24);
 L95e:;
 store8(load64(v2 + 16) + v4, (u8)(1u));
 store64(v2 + 24, v4 + 1ull);
 a55 = f19(HEAP (v2 + 16ull), (v5 + ((p1 + (v6 - ((p1 + v6) < v7 ? 0ull : v7))) * 11ull)));
 if ((a55 & 255u) != 0) {
  goto L3e;
 }
 p1 = p1 + 1ull;
 if (v19 != p1) {
  goto L94;
 }
 v4 = load64(v2 + 24);
 L93e:;
 if (load64(v2 + 32) != v4) {
  goto L96e;
 }
 a56 = f16(HEAP (v2 + 16ull), 1ull);
 if (!a56) {
  goto L3e;
 }
 v4 = load64(v2 + 24);
 L96e:;
 store8(load64(v2 + 16) + v4, (u8)(0u));
 store64(v2 + 24, v4 + 1ull);
 p1 = v13 + 2464ull;
 a57 = f21(HEAP (v2 + 16ull), p1, 0u);
 if ((a57 & 255u) != 0) {
  goto L3e;
 }
 v3 = 2u;
 L97:;
 a58 = f21(HEAP (v2 + 16ull), p1, v3);
 if ((a58 & 255u) != 0) {
  goto L3e;
 }
 v8 = v3 & 255u;
 v3 = v3 + 1u;
 if (v8 <= 70u) {
  goto L97;
 }
 v8 = load32(v13 + 2536ull);
 v3 = load32(v13 + 2532ull);
 a59 = f17(HEAP (v2 + 16ull), load32(v13 + 2528ull));
 if ((a59 & 255u) != 0) {
  goto L3e;
 }
 a60 = f17(HEAP (v2 + 16ull), v3);
 if ((a60 & 255u) != 0) {
  goto L3e;
 }
 a61 = f17(HEAP (v2 + 16ull), v8);
 if ((a61 & 255u) != 0) {
  goto L3e;
 }
 v8 = load32(v13 + 2548ull);
 v3 = load32(v13 + 2544ull);
 a62 = f17(HEAP (v2 + 16ull), load32(v13 + 2540ull));
 if ((a62 & 255u) != 0) {
  goto L3e;
 }
 a63 = f17(HEAP (v2 + 16ull), v3);
 if ((a63 & 255u) != 0) {
  goto L3e;
 }
 a64 = f17(HEAP (v2 + 16ull), v8);
 if ((a64 & 255u) != 0) {
  goto L3e;
 }
 a65 = f17(HEAP (v2 + 16ull), load32(v13 + 2552ull));
 if ((a65 & 255u) != 0) {
  goto L3e;
 }
 v12 = v12 + 1ull;
 if (v12 != v9) {
  goto L13;
 }
 L4e:;
 p1 = load64(v2 + 24);
 if (load64(v2 + 32) != p1) {
  goto L98e;
 }
 a66 = f16(HEAP (v2 + 16ull), 1ull);
 if (!a66) {
  goto L3e;
 }
 p1 = load64(v2 + 24);
 L98e:;
 store8(load64(v2 + 16) + p1, (u8)(0u));
 store8(p0, (u8)(0u));
 p1 = p1 + 1ull;
 store64(p0 + 16ull, p1);
 store64(p0 + 8ull, load64(v2 + 16));
 store64(p0 + 24ull, load64(v2 + 32));
 store64(v2 + 24, p1);
 goto L1e;
 L3e:;
 if (load64(v2 + 32) == 0) {
  goto L99e;
 }
 import_rattle_dealloc(load64(v2 + 16));
 L99e:;
 store8(p0, (u8)(1u));
 store64(p0 + 8ull, 0ull);
 store64(p0 + 16ull, 0ull);
 store64(p0 + 24ull, 0ull);
 goto L1e;
 L2e:;
 if (load64(v2 + 32) == 0) {
  goto L100e;
 }
 import_rattle_dealloc(load64(v2 + 16));
 L100e:;
 store8(p0, (u8)(1u));
 store64(p0 + 8ull, 0ull);
 store64(p0 + 16ull, 0ull);
 store64(p0 + 24ull, 0ull);
 L1e:;
 return;
}

static u32 f16(HEAP_IS u64 p0, u64 p1)
{
 u32 v3 = 0;
 u64 v2 = 0, v4 = 0, v5 = 0, v6 = 0;
 FRAME_OF(4);
 v2 = frame;
 v3 = 0u;
 v4 = load64(p0 + 8ull);
 if (p1 > (v4 ^ 0xffffffffffffffffull)) {
  goto L1e;
 }
 p1 = v4 + p1;
 p1 = p1 > 8ull ? p1 : 8ull;
 v5 = load64(p0 + 16ull);
 v6 = v5 << 1;
 v6 = p1 > v6 ? p1 : v6;
 p1 = v5 < 0x4000000000000000ull ? v6 : p1;
 if ((s64)p1 < (s64)0ull) {
  goto L1e;
 }
 if (!v5) {
  goto L3e;
 }
 import_rattle_realloc((v2 + 16ull), load64(p0), v4, p1, 1ull);
 if (((u32)(load64(v2 + 16)) & 1u) == 0) {
  goto L1e;
 }
 v4 = load64(v2 + 24);
 goto L2e;
 L3e:;
 import_rattle_alloc(HEAP v2, v6, 1ull);
 if (((u32)(load64(v2)) & 1u) == 0) {
  goto L1e;
 }
 v4 = load64(v2 + 8);
 L2e:;
 store64(p0 + 16ull, p1);
 store64(p0, v4);
 v3 = 1u;
 L1e:;
 return v3;
}

static u32 f17(HEAP_IS u64 p0, u32 p1)
{
 u32 a0 = 0, a1 = 0, a2 = 0, a3 = 0;
 u64 v2 = 0, v3 = 0, v4 = 0;
 v2 = p0 + 16ull;
 v3 = p0 + 8ull;
 v4 = load64(v3);
 if (load64(v2) != v4) {
  goto L1e;
 }
 a0 = f16(HEAP p0, 1ull);
 if (a0) {
  goto L2e;
 }
 return 1u;
 L2e:;
 v4 = load64(p0 + 8ull);
 L1e:;
 store8(load64(p0) + v4, (u8)(p1 >> 24));
 v4 = v4 + 1ull;
 store64(v3, v4);
 if (load64(v2) != v4) {
  goto L3e;
 }
 a1 = f16(HEAP p0, 1ull);
 if (a1) {
  goto L4e;
 }
 return 1u;
 L4e:;
 v4 = load64(p0 + 8ull);
 L3e:;
 store8(load64(p0) + v4, (u8)(p1 >> 16));
 v2 = p0 + 8ull;
 v4 = v4 + 1ull;
 store64(v2, v4);
 v3 = p0 + 16ull;
 if (load64(v3) != v4) {
  goto L5e;
 }
 a2 = f16(HEAP p0, 1ull);
 if (a2) {
  goto L6e;
 }
 return 1u;
 L6e:;
 v4 = load64(p0 + 8ull);
 L5e:;
 store8(load64(p0) + v4, (u8)(p1 >> 8));
 v4 = v4 + 1ull;
 store64(v2, v4);
 if (load64(v3) != v4) {
  goto L7e;
 }
 a3 = f16(HEAP p0, 1ull);
 if (a3) {
  goto L8e;
 }
 return 1u;
 L8e:;
 v4 = load64(p0 + 8ull);
 L7e:;
 store8(load64(p0) + v4, (u8)(p1));
 store64(p0 + 8ull, v4 + 1ull);
 return 0u;
}

static u32 f18(HEAP_IS u64 p0, u32 p1)
{
 u32 a0 = 0, a1 = 0, a2 = 0, a3 = 0, a4 = 0, a5 = 0, a6 = 0, a7 = 0;
 u64 v2 = 0, v3 = 0;
 v2 = load64(p0 + 8ull);
 v3 = load64(p0 + 16ull);
 if ((p1 & 1u) == 0) {
  goto L2e;
 }
 if (v3 != v2) {
  goto L3e;
 }
 a0 = f16(HEAP p0, 1ull);
 if (a0) {
  goto L4e;
 }
 return 1u;
 L4e:;
 v2 = load64(p0 + 8ull);
 L3e:;
 store8(load64(p0) + v2, (u8)(1u));
 goto L1e;
 L2e:;
 if (v3 != v2) {
  goto L5e;
 }
 a1 = f16(HEAP p0, 1ull);
 if (a1) {
  goto L6e;
 }
 return 1u;
 L6e:;
 v2 = load64(p0 + 8ull);
 L5e:;
 store8(load64(p0) + v2, (u8)(0u));
 L1e:;
 v2 = v2 + 1ull;
 store64(p0 + 8ull, v2);
 v3 = load64(p0 + 16ull);
 if ((p1 & 256u) == 0) {
  goto L8e;
 }
 if (v3 != v2) {
  goto L9e;
 }
 a2 = f16(HEAP p0, 1ull);
 if (a2) {
  goto L10e;
 }
 return 1u;
 L10e:;
 v2 = load64(p0 + 8ull);
 L9e:;
 store8(load64(p0) + v2, (u8)(1u));
 goto L7e;
 L8e:;
 if (v3 != v2) {
  goto L11e;
 }
 a3 = f16(HEAP p0, 1ull);
 if (a3) {
  goto L12e;
 }
 return 1u;
 L12e:;
 v2 = load64(p0 + 8ull);
 L11e:;
 store8(load64(p0) + v2, (u8)(0u));
 L7e:;
 v2 = v2 + 1ull;
 store64(p0 + 8ull, v2);
 v3 = load64(p0 + 16ull);
 if ((p1 & 65536u) == 0) {
  goto L14e;
 }
 if (v3 != v2) {
  goto L15e;
 }
 a4 = f16(HEAP p0, 1ull);
 if (a4) {
  goto L16e;
 }
 return 1u;
 L16e:;
 v2 = load64(p0 + 8ull);
 L15e:;
 store8(load64(p0) + v2, (u8)(1u));
 goto L13e;
 L14e:;
 if (v3 != v2) {
  goto L17e;
 }
 a5 = f16(HEAP p0, 1ull);
 if (a5) {
  goto L18e;
 }
 return 1u;
 L18e:;
 v2 = load64(p0 + 8ull);
 L17e:;
 store8(load64(p0) + v2, (u8)(0u));
 L13e:;
 v2 = v2 + 1ull;
 store64(p0 + 8ull, v2);
 v3 = load64(p0 + 16ull);
 if ((p1 & 16777216u) == 0) {
  goto L19e;
 }
 if (v3 != v2) {
  goto L20e;
 }
 a6 = f16(HEAP p0, 1ull);
 if (a6) {
  goto L21e;
 }
 return 1u;
 L21e:;
 v2 = load64(p0 + 8ull);
 L20e:;
 store8(load64(p0) + v2, (u8)(1u));
 store64(p0 + 8ull, v2 + 1ull);
 return 0u;
 L19e:;
 if (v3 != v2) {
  goto L22e;
 }
 a7 = f16(HEAP p0, 1ull);
 if (a7) {
  goto L23e;
 }
 return 1u;
 L23e:;
 v2 = load64(p0 + 8ull);
 L22e:;
 store8(load64(p0) + v2, (u8)(0u));
 store64(p0 + 8ull, v2 + 1ull);
 return 0u;
}

static u32 f19(HEAP_IS u64 p0, u64 p1)
{
 u32 v2 = 0, a0 = 0, a1 = 0;
 u64 v3 = 0, v4 = 0, v5 = 0, v6 = 0, v7 = 0;
 v2 = load8(p1);
 v3 = p0 + 16ull;
 v4 = load64(v3);
 v5 = p0 + 8ull;
 v6 = load64(v5);
 if ((v4 - v6) > 1ull) {
  goto L1e;
 }
 a0 = f16(HEAP p0, 2ull);
 if (a0) {
  goto L2e;
 }
 return 1u;
 L2e:;
 v4 = load64(p0 + 16ull);
 v6 = load64(p0 + 8ull);
 L1e:;
 v7 = load64(p0);
 store16(v7 + v6, (u16)(v2 | 2560u));
 store64(v3, v4);
 v6 = v6 + 2ull;
 store64(v5, v6);
 store64(p0, v7);
 if ((v4 - v6) > 9ull) {
  goto L3e;
 }
 a1 = f16(HEAP p0, 10ull);
 if (a1) {
  goto L4e;
 }
 return 1u;
 L4e:;
 v4 = load64(p0 + 16ull);
 v6 = load64(p0 + 8ull);
 v7 = load64(p0);
 L3e:;
 store64(v5 + 8, 0ull);
 store64(v5, 0ull);
 v3 = v6 + 10ull;
 v5 = v7 + v6;
 v6 = p1 + 1ull;
 if ((v5 - v6) > 9ull) {
  goto L6e;
 }
 store8(v5, (u8)(load8(p1 + 1ull)));
 store8(v5 + 1, (u8)(load8(p1 + 2ull)));
 store8(v5 + 2, (u8)(load8(p1 + 3ull)));
 store8(v5 + 3, (u8)(load8(p1 + 4ull)));
 store8(v5 + 4, (u8)(load8(p1 + 5ull)));
 store8(v5 + 5, (u8)(load8(p1 + 6ull)));
 store8(v5 + 6, (u8)(load8(p1 + 7ull)));
 store8(v5 + 7, (u8)(load8(p1 + 8ull)));
 store8(v5 + 8, (u8)(load8(p1 + 9ull)));
 store8(v5 + 9, (u8)(load8(p1 + 10ull)));
 goto L5e;
 L6e:;
 p1 = load64(v6);
 store16(v5 + 8, (u16)(load16(v6 + 8)));
 store64(v5, p1);
 L5e:;
 store64(p0, v7);
 store64(p0 + 16ull, v4);
 store64(p0 + 8ull, v3);
 return 0u;
}

static u32 f20(HEAP_IS u64 p0, u32 p1, u32 p2, u32 p3, u32 p4)
{
 u32 a0 = 0, a1 = 0, a2 = 0, a3 = 0;
 u64 v5 = 0, v6 = 0, v7 = 0, v8 = 0, v9 = 0;
 v5 = p0 + 16ull;
 v6 = load64(v5);
 v7 = p0 + 8ull;
 v8 = load64(v7);
 if ((v6 - v8) > 1ull) {
  goto L1e;
 }
 a0 = f16(HEAP p0, 2ull);
 if (a0) {
  goto L2e;
 }
 return 1u;
 L2e:;
 v6 = load64(p0 + 16ull);
 v8 = load64(p0 + 8ull);
 L1e:;
 v9 = load64(p0);
 store16(v9 + v8, (u16)((p2 << 8) | (p1 & 255u)));
 store64(v5, v6);
 v8 = v8 + 2ull;
 store64(v7, v8);
 store64(p0, v9);
 if (v6 != v8) {
  goto L3e;
 }
 a1 = f16(HEAP p0, 1ull);
 if (a1) {
  goto L4e;
 }
 return 1u;
 L4e:;
 v8 = load64(p0 + 8ull);
 v9 = load64(p0);
 L3e:;
 store8(v9 + v8, (u8)((p3 & 65280u) >> 8));
 v6 = p0 + 8ull;
 v8 = v8 + 1ull;
 store64(v6, v8);
 if (load64(p0 + 16ull) != v8) {
  goto L5e;
 }
 a2 = f16(HEAP p0, 1ull);
 if (a2) {
  goto L6e;
 }
 return 1u;
 L6e:;
 v8 = load64(p0 + 8ull);
 L5e:;
 store8(load64(p0) + v8, (u8)(p3));
 store64(v6, v8 + 1ull);
 a3 = f17(HEAP p0, p4);
 return a3 & 255u;
}

static u32 f21(HEAP_IS u64 p0, u64 p1, u32 p2)
{
 u32 v4 = 0, a0 = 0, a1 = 0, a3 = 0, a4 = 0;
 u64 v3 = 0, v5 = 0, v6 = 0, v7 = 0, b2 = 0;
 FRAME_OF(132);
 v3 = frame;
 p2 = p2 & 255u;
 if (p2 == 1u) {
  goto L2e;
 }
 p1 = load64(p1) + ((u64)(p2 - (u32)((p2 != 0u))) * 1048ull);
 v4 = load8(p1);
 if (!v4) {
  goto L2e;
 }
 p2 = 1u;
 v5 = load64(p0 + 8ull);
 if (load64(p0 + 16ull) != v5) {
  goto L3e;
 }
 a0 = f16(HEAP p0, 1ull);
 if (!a0) {
  goto L1e;
 }
 v5 = load64(p0 + 8ull);
 L3e:;
 store8(load64(p0) + v5, (u8)(v4 == 1u ? 1u : (v4 == 3u ? 3u : 2u)));
 v6 = p0 + 8ull;
 store64(v6, v5 + 1ull);
 v5 = p1 + 1040ull;
 a1 = f17(HEAP p0, load32(v5));
 if ((a1 & 255u) != 0) {
  goto L1e;
 }
 fill(v3, 0u, 1024ull);
 store64(v3 + 1040, 0ull);
 store64(v3 + 1024, p1 + 8ull);
 store64(v3 + 1048, load64(v5));
 store64(v3 + 1032, load64(p1 + 1032ull));
 b2 = f6((v3 + 1024ull), v3);
 p1 = b2;
 v7 = load64(p0 + 16ull);
 v5 = load64(v6);
 if (p1 <= (v7 - v5)) {
  goto L4e;
 }
 p2 = 1u;
 a3 = f16(HEAP p0, p1);
 if (!a3) {
  goto L1e;
 }
 v7 = load64(p0 + 16ull);
 v5 = load64(p0 + 8ull);
 L4e:;
 v6 = load64(p0);
 if (!p1) {
  goto L5e;
 }
 move((v6 + v5), v3, p1);
 L5e:;
 store64(p0 + 16ull, v7);
 store64(p0 + 8ull, v5 + p1);
 store64(p0, v6);
 p2 = 0u;
 goto L1e;
 L2e:;
 v5 = p0 + 8ull;
 p1 = load64(v5);
 if (load64(p0 + 16ull) != p1) {
  goto L6e;
 }
 p2 = 1u;
 a4 = f16(HEAP p0, 1ull);
 if (!a4) {
  goto L1e;
 }
 p1 = load64(p0 + 8ull);
 L6e:;
 p2 = 0u;
 store8(load64(p0) + p1, (u8)(0u));
 store64(v5, p1 + 1ull);
 L1e:;
 return p2;
}

static u32 f22(u64 p0, u64 p1, u64 p2)
{
 u32 v4 = 0, a0 = 0, a1 = 0, a2 = 0, a3 = 0, a4 = 0, a5 = 0, a6 = 0, a7 = 0, a8 = 0, a9 = 0, a10 = 0, a11 = 0, a12 = 0, a13 = 0, a14 = 0;
 u32 a15 = 0, a16 = 0, a17 = 0, a18 = 0, a19 = 0, a20 = 0, a21 = 0, a22 = 0, a23 = 0, a24 = 0, a25 = 0, a26 = 0, a27 = 0, a28 = 0, a29 = 0, a30 = 0;
 u32 a31 = 0, a32 = 0, a33 = 0, a34 = 0, a35 = 0, a36 = 0, a37 = 0, a38 = 0, a39 = 0, a40 = 0, a41 = 0, a42 = 0;
 u64 v3 = 0, v5 = 0, v6 = 0, v7 = 0, v8 = 0, v9 = 0, v10 = 0;
 if (p1 > 8ull) {
  goto L2e;
 }
 a0 = (((u32)((load8(p0) != load8(p2))) | (u32)((load8(p0 + 1ull) != load8(p2 + 1ull)))) | (u32)((load8(p0 + 2ull) != load8(p2 + 2ull)))) | (u32)((load8(p0 + 3ull) != load8(p2 + 3ull)));
 v3 = p1 - 4ull;
 a1 = (u32)((load8(p0 + v3) != load8(p2 + v3)));
 v3 = p1 - 3ull;
 a2 = a1 | (u32)((load8(p0 + v3) != load8(p2 + v3)));
 v3 = p1 - 2ull;
 a3 = a2 | (u32)((load8(p0 + v3) != load8(p2 + v3)));
 v3 = p1 - 1ull;
 v4 = a0 | (a3 | (u32)((load8(p0 + v3) != load8(p2 + v3))));
 goto L1e;
 L2e:;
 if (p1 > 32ull) {
  goto L3e;
 }
 p1 = p1 - 8ull;
 v5 = p1 < 8ull ? p1 : 8ull;
 v3 = p0 + v5;
 v5 = p2 + v5;
 v6 = p1 < 16ull ? p1 : 16ull;
 v7 = p0 + v6;
 v6 = p2 + v6;
 v8 = p0 + p1;
 p1 = p2 + p1;
 a4 = (((u32)((load8(v3) != load8(v5))) | (u32)((load8(v7) != load8(v6)))) | (u32)((load8(v8) != load8(p1)))) | ((((u32)((load8(v3 + 1) != load8(v5 + 1))) | (u32)((load8(v7 + 1) != load8(v6 + 1)))) | (u32)((load8(v8 + 1) != load8(p1 + 1)))) << 1);
 a5 = ((((u32)((load8(v3 + 3) != load8(v5 + 3))) | (u32)((load8(v7 + 3) != load8(v6 + 3)))) | (u32)((load8(v8 + 3) != load8(p1 + 3)))) << 3) | ((((u32)((load8(v3 + 2) != load8(v5 + 2))) | (u32)((load8(v7 + 2) != load8(v6 + 2)))) | (u32)((load8(v8 + 2) != load8(p1 + 2)))) << 2);
 a6 = (((u32)((load8(v3 + 4) != load8(v5 + 4))) | (u32)((load8(v7 + 4) != load8(v6 + 4)))) | (u32)((load8(v8 + 4) != load8(p1 + 4)))) | ((((u32)((load8(v3 + 5) != load8(v5 + 5))) | (u32)((load8(v7 + 5) != load8(v6 + 5)))) | (u32)((load8(v8 + 5) != load8(p1 + 5)))) << 1);
 a7 = ((((u32)((load8(v3 + 7) != load8(v5 + 7))) | (u32)((load8(v7 + 7) != load8(v6 + 7)))) | (u32)((load8(v8 + 7) != load8(p1 + 7)))) << 3) | ((((u32)((load8(v3 + 6) != load8(v5 + 6))) | (u32)((load8(v7 + 6) != load8(v6 + 6)))) | (u32)((load8(v8 + 6) != load8(p1 + 6)))) << 2);
 a8 = ((u32)(((((a4 | a5) | ((a6 | a7) << 4)) & 255u) != 0u)) | (u32)((load8(p0) != load8(p2)))) | ((u32)((load8(p0 + 1ull) != load8(p2 + 1ull))) | (u32)((load8(p0 + 2ull) != load8(p2 + 2ull))));
 a9 = ((u32)((load8(p0 + 3ull) != load8(p2 + 3ull))) | (u32)((load8(p0 + 4ull) != load8(p2 + 4ull)))) | ((u32)((load8(p0 + 5ull) != load8(p2 + 5ull))) | (u32)((load8(p0 + 6ull) != load8(p2 + 6ull))));
 v4 = (a8 | a9) | (u32)((load8(p0 + 7ull) != load8(p2 + 7ull)));
 goto L1e;
 L3e:;
 if (p1 < 65ull) {
  goto L4e;
 }
 v9 = p1 & 0xffffffffffffffc0ull;
 v10 = 0ull;
 v6 = p0;
 v8 = p2;
 L6:;
 v4 = 0u;
 v3 = 0ull;
 L7:;
 v5 = v6 + v3;
 v7 = v8 + v3;
 v4 = (v4 | (u32)((load8(v5) != load8(v7)))) | (u32)((load8(v5 + 1ull) != load8(v7 + 1ull)));
 v3 = v3 + 2ull;
 if (v3 != 64ull) {
  goto L7;
 }
 if ((v4 & 1u) != 0) {
  goto L5e;
 }
 v6 = v6 + 64ull;
 v8 = v8 + 64ull;
 v10 = v10 + 64ull;
 if ((p1 - v10) > 63ull) {
  goto L6;
 }
 v10 = v9;
 L5e:;
 v7 = p1 - v10;
 if (v7 < 32ull) {
  goto L8e;
 }
 v3 = p2 + v10;
 v5 = p0 + v10;
 L10:;
 v4 = 1u;
 a10 = ((u32)((load8(v5) != load8(v3))) | ((u32)((load8(v5 + 1) != load8(v3 + 1))) << 1)) | (((u32)((load8(v5 + 3) != load8(v3 + 3))) << 3) | ((u32)((load8(v5 + 2) != load8(v3 + 2))) << 2));
 a11 = ((u32)((load8(v5 + 4) != load8(v3 + 4))) | ((u32)((load8(v5 + 5) != load8(v3 + 5))) << 1)) | (((u32)((load8(v5 + 7) != load8(v3 + 7))) << 3) | ((u32)((load8(v5 + 6) != load8(v3 + 6))) << 2));
 a12 = ((u32)((load8(v5 + 12) != load8(v3 + 12))) | ((u32)((load8(v5 + 13) != load8(v3 + 13))) << 1)) | (((u32)((load8(v5 + 15) != load8(v3 + 15))) << 3) | ((u32)((load8(v5 + 14) != load8(v3 + 14))) << 2));
 a13 = ((u32)((load8(v5 + 8) != load8(v3 + 8))) | ((u32)((load8(v5 + 9) != load8(v3 + 9))) << 1)) | (((u32)((load8(v5 + 11) != load8(v3 + 11))) << 3) | ((u32)((load8(v5 + 10) != load8(v3 + 10))) << 2));
 a14 = ((u32)((load8(v5 + 16) != load8(v3 + 16))) | ((u32)((load8(v5 + 17) != load8(v3 + 17))) << 1)) | (((u32)((load8(v5 + 19) != load8(v3 + 19))) << 3) | ((u32)((load8(v5 + 18) != load8(v3 + 18))) << 2));
 a15 = ((u32)((load8(v5 + 20) != load8(v3 + 20))) | ((u32)((load8(v5 + 21) != load8(v3 + 21))) << 1)) | (((u32)((load8(v5 + 23) != load8(v3 + 23))) << 3) | ((u32)((load8(v5 + 22) != load8(v3 + 22))) << 2));
 a16 = ((u32)((load8(v5 + 28) != load8(v3 + 28))) | ((u32)((load8(v5 + 29) != load8(v3 + 29))) << 1)) | (((u32)((load8(v5 + 31) != load8(v3 + 31))) << 3) | ((u32)((load8(v5 + 30) != load8(v3 + 30))) << 2));
 a17 = ((u32)((load8(v5 + 24) != load8(v3 + 24))) | ((u32)((load8(v5 + 25) != load8(v3 + 25))) << 1)) | (((u32)((load8(v5 + 27) != load8(v3 + 27))) << 3) | ((u32)((load8(v5 + 26) != load8(v3 + 26))) << 2));
 if (((((a10 | (a11 << 4)) | ((a12 << 12) | (a13 << 8))) | ((a14 | (a15 << 4)) | ((a16 << 12) | (a17 << 8)))) & 65535u) != 0) {
  goto L9e;
 }
 v3 = v3 + 32ull;
 v5 = v5 + 32ull;
 v7 = v7 - 32ull;
 if (v7 > 31ull) {
  goto L10;
 }
 goto L8e;
 L9e:;
 if (v7 > 31ull) {
  goto L1e;
 }
 L8e:;
 v5 = p1 - 32ull;
 v3 = p0 + v5;
 v5 = p2 + v5;
 a18 = ((u32)((load8(v3) != load8(v5))) | ((u32)((load8(v3 + 1) != load8(v5 + 1))) << 1)) | (((u32)((load8(v3 + 3) != load8(v5 + 3))) << 3) | ((u32)((load8(v3 + 2) != load8(v5 + 2))) << 2));
 a19 = ((u32)((load8(v3 + 4) != load8(v5 + 4))) | ((u32)((load8(v3 + 5) != load8(v5 + 5))) << 1)) | (((u32)((load8(v3 + 7) != load8(v5 + 7))) << 3) | ((u32)((load8(v3 + 6) != load8(v5 + 6))) << 2));
 a20 = ((u32)((load8(v3 + 12) != load8(v5 + 12))) | ((u32)((load8(v3 + 13) != load8(v5 + 13))) << 1)) | (((u32)((load8(v3 + 15) != load8(v5 + 15))) << 3) | ((u32)((load8(v3 + 14) != load8(v5 + 14))) << 2));
 a21 = ((u32)((load8(v3 + 8) != load8(v5 + 8))) | ((u32)((load8(v3 + 9) != load8(v5 + 9))) << 1)) | (((u32)((load8(v3 + 11) != load8(v5 + 11))) << 3) | ((u32)((load8(v3 + 10) != load8(v5 + 10))) << 2));
 a22 = ((u32)((load8(v3 + 16) != load8(v5 + 16))) | ((u32)((load8(v3 + 17) != load8(v5 + 17))) << 1)) | (((u32)((load8(v3 + 19) != load8(v5 + 19))) << 3) | ((u32)((load8(v3 + 18) != load8(v5 + 18))) << 2));
 a23 = ((u32)((load8(v3 + 20) != load8(v5 + 20))) | ((u32)((load8(v3 + 21) != load8(v5 + 21))) << 1)) | (((u32)((load8(v3 + 23) != load8(v5 + 23))) << 3) | ((u32)((load8(v3 + 22) != load8(v5 + 22))) << 2));
 a24 = ((u32)((load8(v3 + 28) != load8(v5 + 28))) | ((u32)((load8(v3 + 29) != load8(v5 + 29))) << 1)) | (((u32)((load8(v3 + 31) != load8(v5 + 31))) << 3) | ((u32)((load8(v3 + 30) != load8(v5 + 30))) << 2));
 a25 = ((u32)((load8(v3 + 24) != load8(v5 + 24))) | ((u32)((load8(v3 + 25) != load8(v5 + 25))) << 1)) | (((u32)((load8(v3 + 27) != load8(v5 + 27))) << 3) | ((u32)((load8(v3 + 26) != load8(v5 + 26))) << 2));
 v4 = (u32)((((((a18 | (a19 << 4)) | ((a20 << 12) | (a21 << 8))) | ((a22 | (a23 << 4)) | ((a24 << 12) | (a25 << 8)))) & 65535u) != 0u));
 goto L1e;
 L4e:;
 v5 = p1 - 32ull;
 v3 = p0 + v5;
 v5 = p2 + v5;
 a26 = ((u32)((load8(v3) != load8(v5))) | ((u32)((load8(v3 + 1) != load8(v5 + 1))) << 1)) | (((u32)((load8(v3 + 3) != load8(v5 + 3))) << 3) | ((u32)((load8(v3 + 2) != load8(v5 + 2))) << 2));
 a27 = ((u32)((load8(v3 + 4) != load8(v5 + 4))) | ((u32)((load8(v3 + 5) != load8(v5 + 5))) << 1)) | (((u32)((load8(v3 + 7) != load8(v5 + 7))) << 3) | ((u32)((load8(v3 + 6) != load8(v5 + 6))) << 2));
 a28 = ((u32)((load8(v3 + 12) != load8(v5 + 12))) | ((u32)((load8(v3 + 13) != load8(v5 + 13))) << 1)) | (((u32)((load8(v3 + 15) != load8(v5 + 15))) << 3) | ((u32)((load8(v3 + 14) != load8(v5 + 14))) << 2));
 a29 = ((u32)((load8(v3 + 8) != load8(v5 + 8))) | ((u32)((load8(v3 + 9) != load8(v5 + 9))) << 1)) | (((u32)((load8(v3 + 11) != load8(v5 + 11))) << 3) | ((u32)((load8(v3 + 10) != load8(v5 + 10))) << 2));
 a30 = ((u32)((load8(v3 + 16) != load8(v5 + 16))) | ((u32)((load8(v3 + 17) != load8(v5 + 17))) << 1)) | (((u32)((load8(v3 + 19) != load8(v5 + 19))) << 3) | ((u32)((load8(v3 + 18) != load8(v5 + 18))) << 2));
 a31 = ((u32)((load8(v3 + 20) != load8(v5 + 20))) | ((u32)((load8(v3 + 21) != load8(v5 + 21))) << 1)) | (((u32)((load8(v3 + 23) != load8(v5 + 23))) << 3) | ((u32)((load8(v3 + 22) != load8(v5 + 22))) << 2));
 a32 = ((u32)((load8(v3 + 28) != load8(v5 + 28))) | ((u32)((load8(v3 + 29) != load8(v5 + 29))) << 1)) | (((u32)((load8(v3 + 31) != load8(v5 + 31))) << 3) | ((u32)((load8(v3 + 30) != load8(v5 + 30))) << 2));
 a33 = ((u32)((load8(v3 + 24) != load8(v5 + 24))) | ((u32)((load8(v3 + 25) != load8(v5 + 25))) << 1)) | (((u32)((load8(v3 + 27) != load8(v5 + 27))) << 3) | ((u32)((load8(v3 + 26) != load8(v5 + 26))) << 2));
 a34 = (u32)((((((a26 | (a27 << 4)) | ((a28 << 12) | (a29 << 8))) | ((a30 | (a31 << 4)) | ((a32 << 12) | (a33 << 8)))) & 65535u) != 0u)) | (u32)((load8(p0) != load8(p2)));
 a35 = ((u32)((load8(p0 + 3ull) != load8(p2 + 3ull))) | (u32)((load8(p0 + 4ull) != load8(p2 + 4ull)))) | ((u32)((load8(p0 + 5ull) != load8(p2 + 5ull))) | (u32)((load8(p0 + 6ull) != load8(p2 + 6ull))));
 a36 = ((u32)((load8(p0 + 7ull) != load8(p2 + 7ull))) | (u32)((load8(p0 + 8ull) != load8(p2 + 8ull)))) | ((u32)((load8(p0 + 9ull) != load8(p2 + 9ull))) | (u32)((load8(p0 + 10ull) != load8(p2 + 10ull))));
 a37 = ((u32)((load8(p0 + 11ull) != load8(p2 + 11ull))) | (u32)((load8(p0 + 12ull) != load8(p2 + 12ull)))) | ((u32)((load8(p0 + 13ull) != load8(p2 + 13ull))) | (u32)((load8(p0 + 14ull) != load8(p2 + 14ull))));
 a38 = ((u32)((load8(p0 + 15ull) != load8(p2 + 15ull))) | (u32)((load8(p0 + 16ull) != load8(p2 + 16ull)))) | ((u32)((load8(p0 + 17ull) != load8(p2 + 17ull))) | (u32)((load8(p0 + 18ull) != load8(p2 + 18ull))));
 a39 = ((u32)((load8(p0 + 19ull) != load8(p2 + 19ull))) | (u32)((load8(p0 + 20ull) != load8(p2 + 20ull)))) | ((u32)((load8(p0 + 21ull) != load8(p2 + 21ull))) | (u32)((load8(p0 + 22ull) != load8(p2 + 22ull))));
 a40 = ((u32)((load8(p0 + 23ull) != load8(p2 + 23ull))) | (u32)((load8(p0 + 24ull) != load8(p2 + 24ull)))) | ((u32)((load8(p0 + 25ull) != load8(p2 + 25ull))) | (u32)((load8(p0 + 26ull) != load8(p2 + 26ull))));
 a41 = ((u32)((load8(p0 + 27ull) != load8(p2 + 27ull))) | (u32)((load8(p0 + 28ull) != load8(p2 + 28ull)))) | ((u32)((load8(p0 + 29ull) != load8(p2 + 29ull))) | (u32)((load8(p0 + 30ull) != load8(p2 + 30ull))));
 a42 = ((((a34 | ((u32)((load8(p0 + 1ull) != load8(p2 + 1ull))) | (u32)((load8(p0 + 2ull) != load8(p2 + 2ull))))) | a35) | (a36 | a37)) | ((a38 | a39) | (a40 | a41))) | (u32)((load8(p0 + 31ull) != load8(p2 + 31ull)));
 v4 = a42;
 L1e:;
 return (v4 ^ 4294967295u) & 1u;
}

static void f23(u64 p0)
{
 u64 v1 = 0, v2 = 0, v3 = 0, v4 = 0, v5 = 0, v6 = 0, v7 = 0, v8 = 0, v9 = 0, v10 = 0;
 v1 = load64(p0 + 16);
 v2 = load64(p0);
 v3 = load64(p0 + 8);
 if (!v3) {
  goto L1e;
 }
 v4 = 0ull;
 L2:;
 p0 = v2 + (v4 * 2560ull);
 v5 = load64(p0 + 2480);
 v6 = load64(p0 + 2464);
 v7 = load64(p0 + 2424);
 v8 = load64(p0 + 64);
 v9 = load64(p0 + 48);
 v10 = load64(p0 + 56);
 import_rattle_dealloc(load64(p0 + 8));
 if (!v10) {
  goto L3e;
 }
 p0 = v9;
 L4:;
 if (load8(p0) == 0) {
  goto L5e;
 }
 if (load8(p0 + 32ull) == 0) {
  goto L5e;
 }
 if (load64(p0 + 56ull) == 0) {
  goto L5e;
 }
 import_rattle_dealloc(load64(p0 + 40ull));
 L5e:;
 p0 = p0 + 96ull;
 v10 = v10 - 1ull;
 if (v10 != 0ull) {
  goto L4;
 }
 L3e:;
 if (!v8) {
  goto L6e;
 }
 import_rattle_dealloc(v9);
 L6e:;
 import_rattle_dealloc(v7);
 if (!v5) {
  goto L7e;
 }
 import_rattle_dealloc(v6);
 L7e:;
 v4 = v4 + 1ull;
 if (v4 != v3) {
  goto L2;
 }
 L1e:;
 if (!v1) {
  goto L8e;
 }
 import_rattle_dealloc(v2);
 L8e:;
 return;
}

static u32 f24(HEAP_IS u64 p0)
{
 u32 v2 = 0;
 u64 v1 = 0, v3 = 0, v4 = 0, v5 = 0, v6 = 0;
 FRAME_OF(4);
 v1 = frame;
 v2 = 0u;
 v3 = load64(p0 + 8ull);
 if (v3 == 0xffffffffffffffffull) {
  goto L1e;
 }
 v4 = (v3 > 3ull ? v3 : 3ull) + 1ull;
 v5 = load64(p0 + 16ull);
 v6 = v5 << 1;
 v6 = v4 > v6 ? v4 : v6;
 v4 = v5 < 0x4000000000000000ull ? v6 : v4;
 if (v4 > 0x3ffffffffffffffull) {
  goto L1e;
 }
 if (!v5) {
  goto L3e;
 }
 import_rattle_realloc((v1 + 16ull), load64(p0), (v3 << 5), (v4 << 5), 8ull);
 if (((u32)(load64(v1 + 16)) & 1u) == 0) {
  goto L1e;
 }
 v3 = load64(v1 + 24);
 goto L2e;
 L3e:;
 import_rattle_alloc(HEAP v1, (v6 << 5), 8ull);
 if (((u32)(load64(v1)) & 1u) == 0) {
  goto L1e;
 }
 v3 = load64(v1 + 8);
 L2e:;
 store64(p0 + 16ull, v4);
 store64(p0, v3);
 v2 = 1u;
 L1e:;
 return v2;
}

static void f25(u64 p0, u64 p1)
{
 u32 v4 = 0, v6 = 0, v9 = 0, v11 = 0, v12 = 0;
 u64 v2 = 0, v3 = 0, v5 = 0, v7 = 0, v8 = 0, v10 = 0;
 FRAME_OF(4);
 v2 = frame;
 if (p1 >= load64(p0 + 8ull)) {
  goto L1e;
 }
 v3 = load64(p0) + (p1 * 96ull);
 if (load8(v3) != 1u) {
  goto L1e;
 }
 if ((load8(v3 + 8ull) & 1u) == 0) {
  goto L2e;
 }
 if ((load32(v3 + 12ull) & 1u) != 0) {
  goto L2e;
 }
 if (load8(v3 + 17ull) != 1u) {
  goto L2e;
 }
 v4 = load8(v3 + 22ull);
 if (load8(v3 + 16ull) != 1u) {
  goto L3e;
 }
 if (load8(v3 + 19ull) != 0) {
  goto L3e;
 }
 if (load8(v3 + 20ull) != 0) {
  goto L3e;
 }
 if (load8(v3 + 88ull) != 0) {
  goto L3e;
 }
 v5 = 0ull;
 if (load8(v3 + 32ull) != 1u) {
  goto L4e;
 }
 v5 = load64(v3 + 72ull);
 L4e:;
 v6 = load8(v3 + 23ull);
 if (!v6) {
  goto L3e;
 }
 v7 = (u64)(7928u / v6);
 v8 = (u64)(load32(v3 + 28ull) / v6);
 v7 = v7 < v8 ? v7 : v8;
 v5 = v5 / (u64)(v6);
 if ((v7 < v5 ? v7 : v5) == 0) {
  goto L3e;
 }
 if (load16(v3 + 24ull) == 0) {
  goto L3e;
 }
 f77((v2 + 16ull), 1ull, 0ull, (v4 & 255u));
 v5 = p0 + 2352ull;
 store64(v5, load64(v5) | load64(v2 + 16));
 v5 = p0 + 2360ull;
 store64(v5, load64(v5) | load64(v2 + 24));
 goto L2e;
 L3e:;
 f77(v2, 1ull, 0ull, (v4 & 255u));
 v5 = p0 + 2352ull;
 store64(v5, load64(v5) & (load64(v2) ^ 0xffffffffffffffffull));
 v5 = p0 + 2360ull;
 store64(v5, load64(v5) & (load64(v2 + 8) ^ 0xffffffffffffffffull));
 L2e:;
 if (load8(v3) != 1u) {
  goto L1e;
 }
 if (load8(v3 + 20ull) != 1u) {
  goto L5e;
 }
 if (load8(v3 + 21ull) != 1u) {
  goto L5e;
 }
 v4 = load32(v3 + 12ull);
 v5 = v3 + 8ull;
 v6 = load32(v5);
 v7 = p0 + 32ull;
 store64(v5, load64(v7));
 store64(v3, 0ull);
 v5 = load64(v3 + 56ull);
 v8 = load64(v3 + 40ull);
 v9 = load8(v3 + 32ull);
 v10 = (u64)load8(v3 + 22ull);
 v11 = load8(v3 + 17ull);
 v3 = v3 + 16ull;
 v12 = load8(v3);
 fill(v3, 0u, 80ull);
 store64(v7, p1);
 v3 = p0 + 24ull;
 store64(v3, load64(v3) - 1ull);
 if ((v6 & 1u) == 0) {
  goto L7e;
 }
 if ((v4 & 1u) != 0) {
  goto L6e;
 }
 if ((v11 & 1u) == 0) {
  goto L6e;
 }
 v3 = (p0 + 40ull) + (v10 << 4);
 store64(v3 + 8, 0ull);
 store64(v3, 0ull);
 goto L6e;
 L7e:;
 if ((v4 & 1u) == 0) {
  goto L6e;
 }
 if ((v12 & 1u) == 0) {
  goto L6e;
 }
 v3 = (p0 + 1192ull) + (v10 << 4);
 store64(v3 + 8, 0ull);
 store64(v3, 0ull);
 L6e:;
 if ((v9 & 255u) != 1u) {
  goto L5e;
 }
 if (!v5) {
  goto L5e;
 }
 import_rattle_dealloc(v8);
 L5e:;
 return;
 L1e:;
 UNREACHABLE;
}

static void f26(u64 p0, u64 p1)
{
 u32 v3 = 0, v4 = 0, v7 = 0, v8 = 0;
 u64 v2 = 0, v5 = 0, v6 = 0, v9 = 0;
 FRAME_OF(2);
 (void)v2;
 v2 = frame;
 v3 = load8(p0);
 v4 = load8(p1);
 if ((v4 & 254u) == 12u) {
  goto L4e;
 }
 if ((v3 & 1u) != 0) {
  goto L2e;
 }
 if (load8(p0 + 1ull) != 0) {
  goto L3e;
 }
 if (load8(p0 + 2ull) != 0) {
  goto L3e;
 }
 if (load8(p0 + 3ull) != 0) {
  goto L3e;
 }
 v5 = load64(p0 + 24ull);
 if (v5 < 512ull) {
  goto L5e;
 }
 f8((p0 + 8ull));
 store8(p0, (u8)(1u));
 goto L2e;
 L5e:;
 v6 = load64(p0 + 16ull);
 if (v6 <= v5) {
  goto L3e;
 }
 v3 = load8(p1 + 12ull);
 v7 = load8(p1 + 1ull);
 p1 = p1 + 2ull;
 v8 = load16(p1 + 8);
 v9 = load64(p1);
 p1 = load64(p0 + 32ull) + v5;
 p1 = load64(p0 + 8ull) + ((p1 - (p1 < v6 ? 0ull : v6)) << 4);
 store8(p1, (u8)(v4));
 store8(p1 + 1ull, (u8)(v7));
 store64(p1 + 2ull, v9);
 store16(p1 + 10ull, (u16)(v8));
 store8(p1 + 12ull, (u8)(v3));
 p1 = p0 + 24ull;
 store64(p1, load64(p1) + 1ull);
 if (load8(p0) == 0) {
  goto L3e;
 }
 goto L2e;
 L4e:;
 if ((v3 & 1u) != 0) {
  goto L2e;
 }
 L3e:;
 if (load8(p0 + 1ull) != 0) {
  goto L2e;
 }
 if (load8(p0 + 2ull) != 0) {
  goto L2e;
 }
 if (load8(p0 + 3ull) != 1u) {
  goto L1e;
 }
 L2e:;
 p1 = p0 + 56ull;
 v5 = load64(p1);
 if (!v5) {
  goto L6e;
 }
 store64(p1, 0ull);
 v6 = load64(p0 + 64ull);
 store64(p1 + 8, 0ull);
 v9 = load64(p0 + 48ull);
 p1 = v9;
 L7:;
 if (load8(p1) == 0) {
  goto L8e;
 }
 if (load8(p1 + 32ull) == 0) {
  goto L8e;
 }
 if (load64(p1 + 56ull) == 0) {
  goto L8e;
 }
 import_rattle_dealloc(load64(p1 + 40ull));
 L8e:;
 p1 = p1 + 96ull;
 v5 = v5 - 1ull;
 if (v5 != 0ull) {
  goto L7;
 }
 store64(p0 + 64ull, v6);
 store64(p0 + 56ull, 0ull);
 store64(p0 + 48ull, v9);
 L6e:;
 fill((p0 + 72ull), 0u, 2320ull);
 store8(p0 + 2416ull, (u8)(0u));
 store64(p0 + 2408ull, 0ull);
 store64(p0 + 2400ull, 0ull);
 L1e:;
 return;
}

static void f27(u64 p0, u64 p1, u64 p2)
{
 u32 v15 = 0, v17 = 0, v19 = 0, v20 = 0, v21 = 0, v22 = 0, v27 = 0, v38 = 0, v39 = 0, v40 = 0, v42 = 0, a8 = 0;
 u64 v3 = 0, v4 = 0, v5 = 0, v6 = 0, v7 = 0, v8 = 0, v9 = 0, v10 = 0, v11 = 0, v12 = 0, v13 = 0, v14 = 0, v16 = 0, v18 = 0, v23 = 0, v24 = 0;
 u64 v25 = 0, v26 = 0, v28 = 0, v29 = 0, v30 = 0, v31 = 0, v32 = 0, v33 = 0, v34 = 0, v35 = 0, v36 = 0, v37 = 0, v41 = 0, b0 = 0, b1 = 0, b2 = 0;
 u64 b3 = 0, b4 = 0, b5 = 0, b6 = 0, b7 = 0, b9 = 0, b10 = 0, b11 = 0, b12 = 0, b13 = 0;
 FRAME_OF(276);
 (void)b1;
 (void)b2;
 (void)b3;
 (void)b4;
 (void)b7;
 (void)b9;
 (void)b10;
 (void)b12;
 (void)b13;
 v3 = frame;
 v4 = load64(p2 + 24ull);
 if (v4 < 32ull) {
  goto L14e;
 }
 v5 = load64(p2 + 16ull);
 v6 = load64(p2);
 v7 = 0ull;
 L15:;
 v8 = 4ull - v7;
 v9 = 8ull - ((v7 + v5) & 7ull);
 v7 = (v8 < v9 ? v8 : v9) + v7;
 if (v7 < 4ull) {
  goto L15;
 }
 v10 = v5 + 4ull;
 v9 = 0ull;
 v7 = 0ull;
 L16:;
 v8 = 4ull - v7;
 v11 = v10 + v7;
 v12 = v11 & 7ull;
 v13 = 8ull - v12;
 v8 = v8 < v13 ? v8 : v13;
 v9 = (v9 << (v8 & 63)) | (u64)(((load8(v6 + (v11 >> 3)) << ((u32)(v12) & 31)) & 255u) >> ((8u - (u32)(v8)) & 31));
 v7 = v8 + v7;
 if (v7 < 4ull) {
  goto L16;
 }
 v14 = v5 + 8ull;
 v15 = (u32)(v9);
 v16 = v5 & 7ull;
 v17 = (u32)((!v16));
 if (v17) {
  goto L13e;
 }
 v11 = 0ull;
 v7 = 0ull;
 L17:;
 v8 = 8ull - v7;
 v9 = v7 + v14;
 v12 = v9 & 7ull;
 v13 = 8ull - v12;
 v8 = v8 < v13 ? v8 : v13;
 v11 = (v11 << (v8 & 63)) | (u64)(((load8(v6 + (v9 >> 3)) << ((u32)(v12) & 31)) & 255u) >> (((8u - (u32)(v8)) & 255u) & 31));
 v7 = v8 + v7;
 if (v7 < 8ull) {
  goto L17;
 }
 v18 = v5 + 16ull;
 v9 = 0ull;
 v7 = 0ull;
 L18:;
 v8 = 8ull - v7;
 v12 = v7 + v18;
 v13 = v12 & 7ull;
 v10 = 8ull - v13;
 v8 = v8 < v10 ? v8 : v10;
 v9 = (v9 << (v8 & 63)) | (u64)(((load8(v6 + (v12 >> 3)) << ((u32)(v13) & 31)) & 255u) >> (((8u - (u32)(v8)) & 255u) & 31));
 v7 = v8 + v7;
 if (v7 < 8ull) {
  goto L18;
 }
 v7 = 0ull;
 L19:;
 v8 = 8ull - v7;
 v12 = 8ull - ((v7 + v5) & 7ull);
 v7 = (v8 < v12 ? v8 : v12) + v7;
 if (v7 < 8ull) {
  goto L19;
 }
 v19 = (u32)(v9);
 v20 = (u32)(v11);
 goto L12e;
 L14e:;
 v7 = p1 + 48ull;
 v20 = load32(v7) + 1u;
 store32(v7, v20 ? v20 : 4294967295u);
 v21 = 0u;
 v15 = 0u;
 v22 = 0u;
 goto L11e;
 L13e:;
 v18 = v5 + 16ull;
 v19 = load8(v6 + (v18 >> 3));
 v9 = (u64)(v19) & 255ull;
 v20 = load8(v6 + (v14 >> 3));
 L12e:;
 v21 = v15 & 255u;
 if (v21 > 9u) {
  goto L21e;
 }
 if (((1u << (v21 & 31)) & 673u) != 0) {
  goto L20e;
 }
 L21e:;
 v22 = 1u;
 v7 = p1 + 52ull;
 v20 = load32(v7) + 1u;
 store32(v7, v20 ? v20 : 4294967295u);
 v21 = 0u;
 goto L11e;
 L20e:;
 v11 = load64(p1 + 16ull);
 if (!v11) {
  goto L26e;
 }
 v23 = v5 + 24ull;
 v8 = load64(p1 + 24ull);
 v7 = p1 + 8ull;
 L27:;
 if (load8(v7) == (v20 & 255u)) {
  goto L25e;
 }
 v8 = v8 + 2560ull;
 v7 = v7 + 1ull;
 v11 = v11 - 1ull;
 if (!(!v11)) {
  goto L27;
 }
 L26e:;
 v7 = p1 + 56ull;
 v20 = load32(v7) + 1u;
 store32(v7, v20 ? v20 : 4294967295u);
 v22 = 2u;
 goto L24e;
 L25e:;
 if ((v15 & 255u) != 0) {
  goto L29e;
 }
 v21 = 0u;
 v15 = 0u;
 if (v4 < 72ull) {
  goto L22e;
 }
 v24 = v5 + 32ull;
 if (v17) {
  goto L34e;
 }
 v12 = 0ull;
 v7 = 0ull;
 L35:;
 v11 = 8ull - v7;
 v13 = v7 + v24;
 v10 = v13 & 7ull;
 v25 = 8ull - v10;
 v11 = v11 < v25 ? v11 : v25;
 v12 = (v12 << (v11 & 63)) | (u64)(((load8(v6 + (v13 >> 3)) << ((u32)(v10) & 31)) & 255u) >> (((8u - (u32)(v11)) & 255u) & 31));
 v7 = v11 + v7;
 if (v7 < 8ull) {
  goto L35;
 }
 v13 = 0ull;
 if (v12 == 0ull) {
  goto L33e;
 }
 goto L23e;
 L34e:;
 if (load8(v6 + (v24 >> 3)) != 0) {
  goto L23e;
 }
 v20 = load8(v6 + ((v5 + 40ull) >> 3));
 if (v20) {
  goto L32e;
 }
 v15 = 2u;
 goto L22e;
 L33e:;
 v24 = v5 + 40ull;
 v7 = 0ull;
 L36:;
 v11 = 8ull - v7;
 v12 = v24 + v7;
 v10 = v12 & 7ull;
 v25 = 8ull - v10;
 v11 = v11 < v25 ? v11 : v25;
 v13 = (v13 << (v11 & 63)) | (u64)(((load8(v6 + (v12 >> 3)) << ((u32)(v10) & 31)) & 255u) >> (((8u - (u32)(v11)) & 255u) & 31));
 v7 = v11 + v7;
 if (v7 < 8ull) {
  goto L36;
 }
 v20 = (u32)(v13);
 if ((v20 & 255u) != 0) {
  goto L37e;
 }
 v15 = 2u;
 goto L22e;
 L37e:;
 v26 = v5 + 64ull;
 v12 = 0ull;
 v7 = 0ull;
 L38:;
 v11 = 8ull - v7;
 v10 = v26 + v7;
 v25 = v10 & 7ull;
 v24 = 8ull - v25;
 v11 = v11 < v24 ? v11 : v24;
 v12 = (v12 << (v11 & 63)) | (u64)(((load8(v6 + (v10 >> 3)) << ((u32)(v25) & 31)) & 255u) >> (((8u - (u32)(v11)) & 255u) & 31));
 v7 = v11 + v7;
 if (v7 < 8ull) {
  goto L38;
 }
 v10 = 0ull;
 if (v12 == 0ull) {
  goto L31e;
 }
 v15 = 3u;
 goto L22e;
 L32e:;
 if (load8(v6 + ((v5 + 64ull) >> 3)) == 0) {
  goto L39e;
 }
 v15 = 3u;
 goto L22e;
 L39e:;
 v13 = (u64)(v20);
 v7 = v6 + ((v5 + 48ull) >> 3);
 v10 = ((u64)load8(v7) << 8) | (u64)load8(v7 + 1ull);
 goto L30e;
 L31e:;
 v26 = v5 + 48ull;
 v7 = 0ull;
 L40:;
 v11 = 16ull - v7;
 v12 = v26 + v7;
 v25 = v12 & 7ull;
 v24 = 8ull - v25;
 v11 = v11 < v24 ? v11 : v24;
 v10 = (v10 << (v11 & 63)) | (u64)(((load8(v6 + (v12 >> 3)) << ((u32)(v25) & 31)) & 255u) >> (((8u - (u32)(v11)) & 255u) & 31));
 v7 = v11 + v7;
 if (v7 < 16ull) {
  goto L40;
 }
 L30e:;
 v10 = v10 & 65535ull;
 b0 = v4 - 72ull;
 v4 = v10 * (v13 & 255ull);
 if (b0 >= v4) {
  goto L41e;
 }
 v15 = 4u;
 goto L22e;
 L41e:;
 v7 = 0ull;
 L42:;
 v11 = 4ull - v7;
 v12 = 8ull - ((v7 + v5) & 7ull);
 v7 = (v11 < v12 ? v11 : v12) + v7;
 if (v7 < 4ull) {
  goto L42;
 }
 v13 = v5 ^ 4ull;
 v7 = 0ull;
 L43:;
 v11 = 4ull - v7;
 v12 = 8ull - ((v7 + v13) & 7ull);
 v7 = (v11 < v12 ? v11 : v12) + v7;
 if (v7 < 4ull) {
  goto L43;
 }
 v7 = load64(p2 + 8);
 if (v17) {
  goto L44e;
 }
 b1 = f4(v6, v14, 8ull);
 b2 = f4(v6, v18, 8ull);
 b3 = f4(v6, v23, 8ull);
 L44e:;
 v21 = v19 & 255u;
 if (v21 == 1u) {
  goto L46e;
 }
 if (v21 <= 71u) {
  goto L45e;
 }
 L46e:;
 v7 = v8 + 2536ull;
 v20 = load32(v7) + 1u;
 store32(v7, v20 ? v20 : 4294967295u);
 v22 = 6u;
 goto L24e;
 L45e:;
 v11 = (v5 + 72ull) >> 3;
 v14 = v7 - v11;
 v18 = v6 + v11;
 if ((v19 & 255u) != 0) {
  goto L28e;
 }
 if ((v20 & 255u) == 8u) {
  goto L47e;
 }
 v7 = v8 + 2540ull;
 v20 = load32(v7) + 1u;
 store32(v7, v20 ? v20 : 4294967295u);
 v22 = 7u;
 goto L24e;
 L47e:;
 v6 = load64(v8 + 2504ull);
 v7 = (load64(v8 + 2496ull) >> 2) | (v6 << 62);
 v6 = v6 >> 2;
 if (!((v7 | v6) == 0)) {
  goto L49e;
 }
 v27 = 1u;
 goto L48e;
 L49e:;
 v9 = load64(v8 + 2464ull);
 if (load8((v9 + ((v7 != 0ull ? ctz64(v7) : (ctz64(v6) + 64ull)) * 1048ull)) + 1048ull) == 0) {
  goto L50e;
 }
 v27 = 0u;
 goto L48e;
 L50e:;
 v7 = v9 + 1048ull;
 v6 = load64(v8 + 2472ull);
 L51:;
 v6 = v6 - 1ull;
 v27 = (u32)((!v6));
 if (v27) {
  goto L48e;
 }
 v20 = load8(v7);
 v7 = v7 + 1048ull;
 if (!v20) {
  goto L51;
 }
 L48e:;
 store64(v3 + 152, v4);
 store64(v3 + 144, v16);
 store64(v3 + 136, v14);
 store64(v3 + 128, v18);
 store64(v3 + 40, 0ull);
 store64(v3 + 32, 0ull);
 v15 = 0u;
 v21 = 0u;
 if (!v10) {
  goto L52e;
 }
 v26 = v16 | 72ull;
 v23 = v16 | 40ull;
 v28 = v16 | 32ull;
 v29 = v16 | 24ull;
 v30 = v16 | 16ull;
 v10 = v16 | 8ull;
 v31 = v8 + 2400ull;
 v32 = v8 + 72ull;
 v33 = v8 + 56ull;
 v34 = v8 + 48ull;
 v35 = v8 + 8ull;
 v36 = (v3 + 32ull) | 2ull;
 v37 = (v3 + 32ull) | 1ull;
 v21 = 0u;
 L53:;
 v25 = v4;
 v5 = v18;
 v24 = v14;
 store32(v3 + 119, 0u);
 v9 = 0ull;
 store64(v3 + 112, 0ull);
 if (v17) {
  goto L55e;
 }
 v7 = 0ull;
 L56:;
 v6 = 8ull - v7;
 v11 = v7 + v16;
 v12 = v11 & 7ull;
 v13 = 8ull - v12;
 v6 = v6 < v13 ? v6 : v13;
 v9 = (v9 << (v6 & 63)) | (u64)(((load8(v5 + (v11 >> 3)) << ((u32)(v12) & 31)) & 255u) >> (((8u - (u32)(v6)) & 255u) & 31));
 v7 = v6 + v7;
 if (v7 < 8ull) {
  goto L56;
 }
 v20 = (u32)(v9);
 goto L54e;
 L55e:;
 v20 = load8(v5);
 L54e:;
 if ((v20 & 255u) > 13u) {
  goto L83e;
 }
 v6 = (u64)(v20) & 255ull;
 v7 = load64((v6 << 3) + DATA(8));
 if ((v25 >> 3) < v7) {
  goto L83e;
 }
 v14 = v24 - v7;
 v18 = v5 + v7;
 v4 = v25 - (v7 << 3);
 v19 = 0u;
 v38 = v20;
 v39 = v20 & 255u;
 v22 = v39;
 v40 = v20;
 switch ((u32)(v6)) {
 case 0:
  goto L59e;
 case 7:
  goto L91e;
 case 8:
  goto L90e;
 case 9:
  goto L89e;
 case 10:
  goto L88e;
 case 11:
  goto L87e;
 case 12:
  goto L85e;
 default:
  goto L86e;
 }
 L91e:;
 if (v17) {
  goto L82e;
 }
 v9 = 0ull;
 v7 = 0ull;
 L92:;
 v6 = 8ull - v7;
 v11 = v7 + v10;
 v12 = v11 & 7ull;
 v13 = 8ull - v12;
 v6 = v6 < v13 ? v6 : v13;
 v9 = (v9 << (v6 & 63)) | (u64)(((load8(v5 + (v11 >> 3)) << ((u32)(v12) & 31)) & 255u) >> (((8u - (u32)(v6)) & 255u) & 31));
 v7 = v6 + v7;
 if (v7 < 8ull) {
  goto L92;
 }
 v38 = (u32)(v9);
 goto L61e;
 L90e:;
 if (v17) {
  goto L81e;
 }
 v9 = 0ull;
 v7 = 0ull;
 L93:;
 v20 = 8u;
 v6 = 8ull - v7;
 v11 = v7 + v10;
 v12 = v11 & 7ull;
 v13 = 8ull - v12;
 v6 = v6 < v13 ? v6 : v13;
 v9 = (v9 << (v6 & 63)) | (u64)(((load8(v5 + (v11 >> 3)) << ((u32)(v12) & 31)) & 255u) >> (((8u - (u32)(v6)) & 255u) & 31));
 v7 = v6 + v7;
 if (v7 < 8ull) {
  goto L93;
 }
 v38 = (u32)(v9);
 v19 = 0u;
 goto L60e;
 L89e:;
 if (v17) {
  goto L80e;
 }
 v9 = 0ull;
 v7 = 0ull;
 L94:;
 v6 = 8ull - v7;
 v11 = v7 + v10;
 v12 = v11 & 7ull;
 v13 = 8ull - v12;
 v6 = v6 < v13 ? v6 : v13;
 v9 = (v9 << (v6 & 63)) | (u64)(((load8(v5 + (v11 >> 3)) << ((u32)(v12) & 31)) & 255u) >> (((8u - (u32)(v6)) & 255u) & 31));
 v7 = v6 + v7;
 if (v7 < 8ull) {
  goto L94;
 }
 v38 = (u32)(v9);
 goto L62e;
 L88e:;
 if (v17) {
  goto L79e;
 }
 v9 = 0ull;
 v7 = 0ull;
 L95:;
 v6 = 8ull - v7;
 v11 = v7 + v10;
 v12 = v11 & 7ull;
 v13 = 8ull - v12;
 v6 = v6 < v13 ? v6 : v13;
 v9 = (v9 << (v6 & 63)) | (u64)(((load8(v5 + (v11 >> 3)) << ((u32)(v12) & 31)) & 255u) >> (((8u - (u32)(v6)) & 255u) & 31));
 v7 = v6 + v7;
 if (v7 < 8ull) {
  goto L95;
 }
 v38 = (u32)(v9);
 goto L63e;
 L87e:;
 if (v17) {
  goto L78e;
 }
 v9 = 0ull;
 v7 = 0ull;
 L96:;
 v6 = 8ull - v7;
 v11 = v7 + v10;
 v12 = v11 & 7ull;
 v13 = 8ull - v12;
 v6 = v6 < v13 ? v6 : v13;
 v9 = (v9 << (v6 & 63)) | (u64)(((load8(v5 + (v11 >> 3)) << ((u32)(v12) & 31)) & 255u) >> (((8u - (u32)(v6)) & 255u) & 31));
 v7 = v6 + v7;
 if (v7 < 8ull) {
  goto L96;
 }
 v38 = (u32)(v9);
 goto L64e;
 L86e:;
 if ((v20 & 255u) > 3u) {
  goto L97e;
 }
 switch ((v20 & 255u) - 1u) {
 case 0:
  goto L100e;
 case 1:
  goto L99e;
 default:
  goto L98e;
 }
 L100e:;
 if (v17) {
  goto L77e;
 }
 v9 = 0ull;
 v7 = 0ull;
 L101:;
 v6 = 32ull - v7;
 v11 = v7 + v10;
 v12 = v11 & 7ull;
 v13 = 8ull - v12;
 v6 = v6 < v13 ? v6 : v13;
 v9 = (v9 << (v6 & 63)) | (u64)(((load8(v5 + (v11 >> 3)) << ((u32)(v12) & 31)) & 255u) >> (((8u - (u32)(v6)) & 255u) & 31));
 v7 = v6 + v7;
 if (v7 < 32ull) {
  goto L101;
 }
 v11 = 0ull;
 v7 = 0ull;
 L102:;
 v6 = 32ull - v7;
 v12 = v7 + v23;
 v13 = v12 & 7ull;
 v25 = 8ull - v13;
 v6 = v6 < v25 ? v6 : v25;
 v11 = (v11 << (v6 & 63)) | (u64)(((load8(v5 + (v12 >> 3)) << ((u32)(v13) & 31)) & 255u) >> (((8u - (u32)(v6)) & 255u) & 31));
 v7 = v6 + v7;
 if (v7 < 32ull) {
  goto L102;
 }
 v12 = 0ull;
 v7 = 0ull;
 L103:;
 v6 = 8ull - v7;
 v13 = v7 + v26;
 v25 = v13 & 7ull;
 v24 = 8ull - v25;
 v6 = v6 < v24 ? v6 : v24;
 v12 = (v12 << (v6 & 63)) | (u64)(((load8(v5 + (v13 >> 3)) << ((u32)(v25) & 31)) & 255u) >> (((8u - (u32)(v6)) & 255u) & 31));
 v7 = v6 + v7;
 if (v7 < 8ull) {
  goto L103;
 }
 v40 = (u32)(v12);
 v22 = (u32)(v11);
 v39 = (u32)(v9);
 goto L65e;
 L99e:;
 if (v17) {
  goto L76e;
 }
 v9 = 0ull;
 v7 = 0ull;
 L104:;
 v6 = 32ull - v7;
 v11 = v7 + v10;
 v12 = v11 & 7ull;
 v13 = 8ull - v12;
 v6 = v6 < v13 ? v6 : v13;
 v9 = (v9 << (v6 & 63)) | (u64)(((load8(v5 + (v11 >> 3)) << ((u32)(v12) & 31)) & 255u) >> (((8u - (u32)(v6)) & 255u) & 31));
 v7 = v6 + v7;
 if (v7 < 32ull) {
  goto L104;
 }
 v11 = 0ull;
 v7 = 0ull;
 L105:;
 v6 = 32ull - v7;
 v12 = v7 + v23;
 v13 = v12 & 7ull;
 v25 = 8ull - v13;
 v6 = v6 < v25 ? v6 : v25;
 v11 = (v11 << (v6 & 63)) | (u64)(((load8(v5 + (v12 >> 3)) << ((u32)(v13) & 31)) & 255u) >> (((8u - (u32)(v6)) & 255u) & 31));
 v7 = v6 + v7;
 if (v7 < 32ull) {
  goto L105;
 }
 v12 = 0ull;
 v7 = 0ull;
 L106:;
 v6 = 8ull - v7;
 v13 = v7 + v26;
 v25 = v13 & 7ull;
 v24 = 8ull - v25;
 v6 = v6 < v24 ? v6 : v24;
 v12 = (v12 << (v6 & 63)) | (u64)(((load8(v5 + (v13 >> 3)) << ((u32)(v25) & 31)) & 255u) >> (((8u - (u32)(v6)) & 255u) & 31));
 v7 = v6 + v7;
 if (v7 < 8ull) {
  goto L106;
 }
 v40 = (u32)(v12);
 v22 = (u32)(v11);
 v39 = (u32)(v9);
 goto L66e;
 L98e:;
 if (v17) {
  goto L75e;
 }
 v11 = 0ull;
 v7 = 0ull;
 L107:;
 v6 = 32ull - v7;
 v9 = v7 + v10;
 v12 = v9 & 7ull;
 v13 = 8ull - v12;
 v6 = v6 < v13 ? v6 : v13;
 v11 = (v11 << (v6 & 63)) | (u64)(((load8(v5 + (v9 >> 3)) << ((u32)(v12) & 31)) & 255u) >> (((8u - (u32)(v6)) & 255u) & 31));
 v7 = v6 + v7;
 if (v7 < 32ull) {
  goto L107;
 }
 v9 = 0ull;
 v7 = 0ull;
 L108:;
 v6 = 32ull - v7;
 v12 = v7 + v23;
 v13 = v12 & 7ull;
 v25 = 8ull - v13;
 v6 = v6 < v25 ? v6 : v25;
 v9 = (v9 << (v6 & 63)) | (u64)(((load8(v5 + (v12 >> 3)) << ((u32)(v13) & 31)) & 255u) >> (((8u - (u32)(v6)) & 255u) & 31));
 v7 = v6 + v7;
 if (v7 < 32ull) {
  goto L108;
 }
 v39 = (u32)(v11);
 goto L67e;
 L97e:;
 v20 = v20 & 255u;
 if (v20 > 6u) {
  goto L84e;
 }
 switch (v20 - 4u) {
 case 0:
  goto L111e;
 case 1:
  goto L110e;
 default:
  goto L109e;
 }
 L111e:;
 if (v17) {
  goto L74e;
 }
 v11 = 0ull;
 v7 = 0ull;
 L112:;
 v6 = 8ull - v7;
 v9 = v7 + v10;
 v12 = v9 & 7ull;
 v13 = 8ull - v12;
 v6 = v6 < v13 ? v6 : v13;
 v11 = (v11 << (v6 & 63)) | (u64)(((load8(v5 + (v9 >> 3)) << ((u32)(v12) & 31)) & 255u) >> (((8u - (u32)(v6)) & 255u) & 31));
 v7 = v6 + v7;
 if (v7 < 8ull) {
  goto L112;
 }
 v12 = 0ull;
 v7 = 0ull;
 L113:;
 v6 = 16ull - v7;
 v9 = v7 + v30;
 v13 = v9 & 7ull;
 v25 = 8ull - v13;
 v6 = v6 < v25 ? v6 : v25;
 v41 = v12 << (v6 & 63);
 v12 = v41 | (u64)(((load8(v5 + (v9 >> 3)) << ((u32)(v13) & 31)) & 255u) >> (((8u - (u32)(v6)) & 255u) & 31));
 v7 = v6 + v7;
 if (v7 < 16ull) {
  goto L113;
 }
 v9 = 0ull;
 v7 = 0ull;
 L114:;
 v6 = 32ull - v7;
 v13 = v7 + v28;
 v25 = v13 & 7ull;
 v24 = 8ull - v25;
 v6 = v6 < v24 ? v6 : v24;
 v9 = (v9 << (v6 & 63)) | (u64)(((load8(v5 + (v13 >> 3)) << ((u32)(v25) & 31)) & 255u) >> (((8u - (u32)(v6)) & 255u) & 31));
 v7 = v6 + v7;
 if (v7 < 32ull) {
  goto L114;
 }
 v22 = (u32)(v41 >> 8);
 v19 = (u32)(v12);
 v38 = (u32)(v11);
 goto L69e;
 L110e:;
 if (v17) {
  goto L73e;
 }
 v9 = 0ull;
 v7 = 0ull;
 L115:;
 v6 = 8ull - v7;
 v11 = v7 + v10;
 v12 = v11 & 7ull;
 v13 = 8ull - v12;
 v6 = v6 < v13 ? v6 : v13;
 v9 = (v9 << (v6 & 63)) | (u64)(((load8(v5 + (v11 >> 3)) << ((u32)(v12) & 31)) & 255u) >> (((8u - (u32)(v6)) & 255u) & 31));
 v7 = v6 + v7;
 if (v7 < 8ull) {
  goto L115;
 }
 v11 = 0ull;
 v7 = 0ull;
 L116:;
 v6 = 8ull - v7;
 v12 = v7 + v30;
 v13 = v12 & 7ull;
 v25 = 8ull - v13;
 v6 = v6 < v25 ? v6 : v25;
 v11 = (v11 << (v6 & 63)) | (u64)(((load8(v5 + (v12 >> 3)) << ((u32)(v13) & 31)) & 255u) >> (((8u - (u32)(v6)) & 255u) & 31));
 v7 = v6 + v7;
 if (v7 < 8ull) {
  goto L116;
 }
 v12 = 0ull;
 v7 = 0ull;
 L117:;
 v6 = 8ull - v7;
 v13 = v7 + v29;
 v25 = v13 & 7ull;
 v24 = 8ull - v25;
 v6 = v6 < v24 ? v6 : v24;
 v12 = (v12 << (v6 & 63)) | (u64)(((load8(v5 + (v13 >> 3)) << ((u32)(v25) & 31)) & 255u) >> (((8u - (u32)(v6)) & 255u) & 31));
 v7 = v6 + v7;
 if (v7 < 8ull) {
  goto L117;
 }
 v22 = (u32)(v12);
 v19 = (u32)(v11);
 v38 = (u32)(v9);
 goto L70e;
 L109e:;
 if (v17) {
  goto L72e;
 }
 v11 = 0ull;
 v7 = 0ull;
 L118:;
 v6 = 8ull - v7;
 v9 = v7 + v10;
 v12 = v9 & 7ull;
 v13 = 8ull - v12;
 v6 = v6 < v13 ? v6 : v13;
 v11 = (v11 << (v6 & 63)) | (u64)(((load8(v5 + (v9 >> 3)) << ((u32)(v12) & 31)) & 255u) >> (((8u - (u32)(v6)) & 255u) & 31));
 v7 = v6 + v7;
 if (v7 < 8ull) {
  goto L118;
 }
 v12 = 0ull;
 v7 = 0ull;
 L119:;
 v6 = 16ull - v7;
 v9 = v7 + v30;
 v13 = v9 & 7ull;
 v25 = 8ull - v13;
 v6 = v6 < v25 ? v6 : v25;
 v41 = v12 << (v6 & 63);
 v12 = v41 | (u64)(((load8(v5 + (v9 >> 3)) << ((u32)(v13) & 31)) & 255u) >> (((8u - (u32)(v6)) & 255u) & 31));
 v7 = v6 + v7;
 if (v7 < 16ull) {
  goto L119;
 }
 v9 = 0ull;
 v7 = 0ull;
 L120:;
 v6 = 32ull - v7;
 v13 = v7 + v28;
 v25 = v13 & 7ull;
 v24 = 8ull - v25;
 v6 = v6 < v24 ? v6 : v24;
 v9 = (v9 << (v6 & 63)) | (u64)(((load8(v5 + (v13 >> 3)) << ((u32)(v25) & 31)) & 255u) >> (((8u - (u32)(v6)) & 255u) & 31));
 v7 = v6 + v7;
 if (v7 < 32ull) {
  goto L120;
 }
 v22 = (u32)(v41 >> 8);
 v19 = (u32)(v12);
 v38 = (u32)(v11);
 goto L71e;
 L85e:;
 store64(v37, 0ull);
 store32(v37 + 8, 0u);
 store64(v3 + 152, v4);
 store64(v3 + 144, v16);
 store64(v3 + 136, v14);
 store64(v3 + 128, v18);
 store8(v3 + 32, (u8)(12u));
 f8(v35);
 store8(v8 + 2ull, (u8)(1u));
 f28(v8, v27);
 v6 = load64(v8 + 56ull);
 if (!v6) {
  goto L121e;
 }
 store64(v33, 0ull);
 v9 = load64(v8 + 64ull);
 store64(v33 + 8, 0ull);
 v11 = load64(v8 + 48ull);
 v7 = v11;
 L122:;
 if (load8(v7) == 0) {
  goto L123e;
 }
 if (load8(v7 + 32ull) == 0) {
  goto L123e;
 }
 if (load64(v7 + 56ull) == 0) {
  goto L123e;
 }
 import_rattle_dealloc(load64(v7 + 40ull));
 L123e:;
 v7 = v7 + 96ull;
 v6 = v6 - 1ull;
 if (v6 != 0ull) {
  goto L122;
 }
 store64(v8 + 64ull, v9);
 store64(v8 + 56ull, 0ull);
 store64(v8 + 48ull, v11);
 L121e:;
 fill(v32, 0u, 2320ull);
 store8(v31 + 16, (u8)(0u));
 store64(v31 + 8, 0ull);
 store64(v31, 0ull);
 goto L57e;
 L84e:;
 store64(v37, 0ull);
 store32(v37 + 8, 0u);
 v7 = v8 + 3ull;
 v20 = load8(v7);
 store8(v7, (u8)(0u));
 store64(v3 + 152, v4);
 store64(v3 + 144, v16);
 store64(v3 + 136, v14);
 store64(v3 + 128, v18);
 store8(v3 + 32, (u8)(13u));
 if (v20) {
  goto L57e;
 }
 v7 = v8 + 2528ull;
 v20 = load32(v7) + 1u;
 store32(v7, v20 ? v20 : 4294967295u);
 goto L57e;
 L83e:;
 f5((v3 + 112ull), (v3 + 128ull));
 v20 = load16(v3 + 121);
 v19 = load8(v3 + 120);
 v17 = load8(v3 + 119);
 v22 = load16(v3 + 117);
 v38 = load8(v3 + 116);
 v39 = load8(v3 + 115);
 v40 = load16(v3 + 113);
 v27 = load8(v3 + 112);
 store32(v3 + 1180, 0u);
 if (load8(v8) != 0) {
  goto L124e;
 }
 if (load8(v8 + 1ull) != 0) {
  goto L124e;
 }
 if (load8(v8 + 2ull) != 0) {
  goto L124e;
 }
 if (load8(v8 + 3ull) != 0) {
  goto L124e;
 }
 store16(v3 + 1178, (u16)(v20));
 store8(v3 + 1177, (u8)(v19));
 store8(v3 + 1176, (u8)(v17));
 store16(v3 + 1174, (u16)(v22));
 store8(v3 + 1173, (u8)(v38));
 store8(v3 + 1172, (u8)(v39));
 store16(v3 + 1170, (u16)(v40));
 store8(v3 + 1169, (u8)(v27));
 store8(v3 + 1168, (u8)(11u));
 f29(v8, (v3 + 1168ull));
 v22 = 8u;
 goto L11e;
 L124e:;
 v7 = v8 + 2544ull;
 v20 = load32(v7) + 1u;
 store32(v7, v20 ? v20 : 4294967295u);
 goto L52e;
 L82e:;
 v38 = load8(v5 + 1ull);
 goto L61e;
 L81e:;
 v38 = load8(v5 + 1ull);
 v19 = 0u;
 v20 = 8u;
 goto L60e;
 L80e:;
 v38 = load8(v5 + 1ull);
 goto L62e;
 L79e:;
 v38 = load8(v5 + 1ull);
 goto L63e;
 L78e:;
 v38 = load8(v5 + 1ull);
 goto L64e;
 L77e:;
 v20 = load32(v5 + 5ull);
 v22 = rotr32(v20 & 16711935u, 8) | (rotr32(v20, 24) & 16711935u);
 v20 = load32(v5 + 1ull);
 v39 = rotr32(v20 & 16711935u, 8) | (rotr32(v20, 24) & 16711935u);
 v40 = load8(v5 + 9ull);
 goto L65e;
 L76e:;
 v20 = load32(v5 + 5ull);
 v22 = rotr32(v20 & 16711935u, 8) | (rotr32(v20, 24) & 16711935u);
 v20 = load32(v5 + 1ull);
 v39 = rotr32(v20 & 16711935u, 8) | (rotr32(v20, 24) & 16711935u);
 v40 = load8(v5 + 9ull);
 goto L66e;
 L75e:;
 v20 = load32(v5 + 1ull);
 v39 = rotr32(v20 & 16711935u, 8) | (rotr32(v20, 24) & 16711935u);
 v9 = (((((u64)load8(v5 + 6ull) << 8) | ((u64)load8(v5 + 5ull) << 16)) | (u64)load8(v5 + 7ull)) << 8) | (u64)load8(v5 + 8ull);
 goto L67e;
 L74e:;
 v9 = (((((u64)load8(v5 + 5ull) << 8) | ((u64)load8(v5 + 4ull) << 16)) | (u64)load8(v5 + 6ull)) << 8) | (u64)load8(v5 + 7ull);
 v19 = load8(v5 + 3ull);
 v22 = load8(v5 + 2ull);
 v38 = load8(v5 + 1ull);
 goto L69e;
 L73e:;
 v22 = load8(v5 + 3ull);
 v19 = load8(v5 + 2ull);
 v38 = load8(v5 + 1ull);
 goto L70e;
 L72e:;
 v9 = (((((u64)load8(v5 + 5ull) << 8) | ((u64)load8(v5 + 4ull) << 16)) | (u64)load8(v5 + 6ull)) << 8) | (u64)load8(v5 + 7ull);
 v19 = load8(v5 + 3ull);
 v22 = load8(v5 + 2ull);
 v38 = load8(v5 + 1ull);
 L71e:;
 v39 = (u32)(v9);
 v20 = 6u;
 goto L68e;
 L70e:;
 v20 = 5u;
 v39 = 0u;
 goto L68e;
 L69e:;
 v39 = (u32)(v9);
 v20 = 4u;
 L68e:;
 store64(v3 + 152, v4);
 store64(v3 + 144, v16);
 store64(v3 + 136, v14);
 store64(v3 + 128, v18);
 v40 = 0u;
 store8(v3 + 44, (u8)(0u));
 store32(v3 + 40, 0u);
 store32(v3 + 36, v39);
 store8(v3 + 33, (u8)(v38));
 store8(v3 + 32, (u8)(v20));
 v19 = (v22 << 8) | (v19 & 255u);
 store16(v3 + 34, (u16)(v19));
 v7 = (u64)(v22) & 255ull;
 v22 = 0u;
 goto L58e;
 L67e:;
 v22 = (u32)(v9);
 v38 = 0u;
 v20 = 3u;
 v19 = 0u;
 v40 = 0u;
 goto L59e;
 L66e:;
 v38 = 0u;
 v20 = 2u;
 v19 = 0u;
 goto L59e;
 L65e:;
 v38 = 0u;
 v20 = 1u;
 v19 = 0u;
 goto L59e;
 L64e:;
 store64(v3 + 48, 0ull);
 v40 = 0u;
 store16(v3 + 56, (u16)(0u));
 store64(v3 + 1184, v16);
 store64(v3 + 1176, v24 - 2ull);
 store64(v3 + 1168, v5 + 2ull);
 v7 = v25 - 16ull;
 store64(v3 + 1192, v7 < 80ull ? v7 : 80ull);
 b4 = f6((v3 + 1168ull), (v3 + 48ull));
 v22 = load32(v3 + 54);
 v39 = load32(v3 + 50);
 v19 = load16(v3 + 48);
 v20 = 11u;
 goto L59e;
 L63e:;
 v19 = 0u;
 v20 = 10u;
 goto L60e;
 L62e:;
 v19 = 0u;
 v20 = 9u;
 goto L60e;
 L61e:;
 v19 = 0u;
 v20 = 7u;
 L60e:;
 v39 = 0u;
 v22 = 0u;
 v40 = 0u;
 L59e:;
 store64(v3 + 152, v4);
 store64(v3 + 144, v16);
 store64(v3 + 136, v14);
 store64(v3 + 128, v18);
 store8(v3 + 44, (u8)(v40));
 store32(v3 + 40, v22);
 store32(v3 + 36, v39);
 store8(v3 + 33, (u8)(v38));
 store8(v3 + 32, (u8)(v20));
 store16(v3 + 34, (u16)(v19));
 v7 = (u64)((v19 & 65280u) >> 8);
 L58e:;
 if (load8(v8) != 0) {
  goto L126e;
 }
 if (load8(v8 + 1ull) != 0) {
  goto L126e;
 }
 if (load8(v8 + 2ull) != 0) {
  goto L126e;
 }
 if (load8(v8 + 3ull) == 0) {
  goto L125e;
 }
 L126e:;
 v7 = v8 + 2544ull;
 v20 = load32(v7) + 1u;
 store32(v7, v20 ? v20 : 4294967295u);
 goto L57e;
 L125e:;
 store64(v3 + 56, 0ull);
 store64(v3 + 48, 0ull);
 v42 = v20 & 255u;
 if (v42 < 9u) {
  goto L127e;
 }
 switch (v42 - 9u) {
 case 1:
  goto L129e;
 case 2:
  goto L128e;
 default:
  goto L130e;
 }
 L130e:;
 store8(v3 + 49, (u8)(v38));
 store8(v3 + 48, (u8)(10u));
 f29(v8, (v3 + 48ull));
 goto L57e;
 L129e:;
 v7 = v8 + 2416ull;
 if (load8(v7) != 1u) {
  goto L131e;
 }
 store8(v8 + 2418ull, (u8)(v38));
 store16(v7, (u16)(256u));
 goto L57e;
 L131e:;
 v7 = v8 + 2528ull;
 v20 = load32(v7) + 1u;
 store32(v7, v20 ? v20 : 4294967295u);
 goto L57e;
 L128e:;
 v7 = load64(v8 + 2432ull);
 if (!v7) {
  goto L57e;
 }
 v12 = v8 + 2448ull;
 v9 = load64(v12);
 v6 = v8 + 2440ull;
 v11 = load64(v6);
 if (v7 > v11) {
  goto L132e;
 }
 v11 = v11 - 1ull;
 store64(v6, v11);
 v9 = v9 + 1ull;
 v9 = v9 - (v9 < v7 ? 0ull : v7);
 store64(v12, v9);
 v9 = v9 + v11;
 v7 = load64(v8 + 2424ull) + ((v9 - (v9 < v7 ? 0ull : v7)) * 11ull);
 store64(v7 + 1, load64(v36));
 store8(v7, (u8)(v38));
 store16(v7 + 9, (u16)(load16(v36 + 8)));
 store64(v6, load64(v6) + 1ull);
 goto L57e;
 L132e:;
 v9 = v9 + v11;
 v7 = load64(v8 + 2424ull) + ((v9 - (v9 < v7 ? 0ull : v7)) * 11ull);
 store64(v7 + 1, load64(v36));
 store8(v7, (u8)(v38));
 store16(v7 + 9, (u16)(load16(v36 + 8)));
 store64(v6, load64(v6) + 1ull);
 goto L57e;
 L127e:;
 store64(v3 + 120, 0ull);
 store64(v3 + 112, 0ull);
 switch ((u32)((u64)(v20) & 255ull)) {
 case 1:
  goto L148e;
 case 2:
  goto L137e;
 case 3:
  goto L139e;
 case 4:
  goto L143e;
 case 5:
  goto L144e;
 case 6:
  goto L145e;
 case 7:
  goto L146e;
 case 8:
  goto L147e;
 default:
  goto L57e;
 }
 L148e:;
 if (((v40 - 72u) & 255u) < 186u) {
  goto L135e;
 }
 if ((v22 & 1u) == 0) {
  goto L135e;
 }
 if ((v39 & 1u) != 0) {
  goto L135e;
 }
 v9 = load64(v33);
 v6 = 0ull;
 v12 = load64(v34);
 v7 = v12;
 L149:;
 if (v9 == v6) {
  goto L151e;
 }
 if (load8(v7) != 1u) {
  goto L150e;
 }
 if (load32(v7 + 8ull) != v22) {
  goto L150e;
 }
 if (load32(v7 + 12ull) != v39) {
  goto L150e;
 }
 if (v6 >= v9) {
  goto L10e;
 }
 if (load8(v7) != 1u) {
  goto L10e;
 }
 if (load8(v7 + 17ull) != 0) {
  goto L135e;
 }
 L151e:;
 if ((v40 & 255u) > 71u) {
  goto L152e;
 }
 if (load8((v8 + (((u64)(v40) & 255ull) << 4)) + 88ull) == 1u) {
  goto L135e;
 }
 L152e:;
 v6 = 0ull;
 v7 = 0ull;
 L153:;
 if (v9 == v7) {
  goto L155e;
 }
 v11 = v12 + v6;
 if (load8(v11) != 1u) {
  goto L154e;
 }
 if (load32(v11 + 8ull) != v22) {
  goto L154e;
 }
 if (load32(v11 + 12ull) != v39) {
  goto L154e;
 }
 v20 = 1u;
 if (load8(v11) != 1u) {
  goto L10e;
 }
 store8(v11 + 22ull, (u8)(v40));
 store8(v11 + 17ull, (u8)(1u));
 v6 = v11 + 18ull;
 if (load8(v6) != 0) {
  goto L156e;
 }
 v20 = 0u;
 if (load8(v11 + 16ull) != 1u) {
  goto L156e;
 }
 if (load8(v11 + 19ull) != 0) {
  goto L156e;
 }
 v20 = load8(v11 + 20ull) ^ 1u;
 L156e:;
 store8(v6, (u8)(v20 & 1u));
 f30(v34, v7);
 goto L57e;
 L155e:;
 v5 = load64(v32);
 v7 = v12;
 v6 = v9;
 v13 = 0ull;
 L157:;
 v6 = 0ull - v6;
 L159:;
 v6 = v6 + 1ull;
 if (v6 == 1ull) {
  goto L158e;
 }
 v20 = load8(v7);
 v11 = v7 + 96ull;
 v7 = v11;
 if (v20 != 1u) {
  goto L159;
 }
 v6 = 0ull - v6;
 v13 = v13 + (u64)load8(v11 - 80ull);
 v7 = v11;
 goto L157;
 L158e:;
 if ((v5 - v13) > 63ull) {
  goto L136e;
 }
 store64(v8 + 72ull, v5 + 1ull);
 v6 = load64(v8 + 80ull);
 v7 = v12 + (v6 * 96ull);
 if (v6 != v9) {
  goto L161e;
 }
 store64(v7, 1ull);
 store8(v7 + 22ull, (u8)(v40));
 store32(v7 + 18ull, 0u);
 store16(v7 + 16ull, (u16)(256u));
 store32(v7 + 12ull, v39);
 store32(v7 + 8ull, v22);
 fill((v7 + 23ull), 0u, 73ull);
 v9 = v9 + 1ull;
 store64(v33, v9);
 goto L160e;
 L161e:;
 store8(v7 + 22ull, (u8)(v40));
 store32(v7 + 18ull, 0u);
 store16(v7 + 16ull, (u16)(256u));
 v20 = load8(v7);
 store64(v7, 1ull);
 v11 = v7 + 8ull;
 v9 = load64(v11);
 store32(v7 + 12ull, v39);
 store32(v11, v22);
 fill((v7 + 23ull), 0u, 73ull);
 if (v20) {
  goto L10e;
 }
 L160e:;
 store64(v8 + 80ull, v9);
 f30(v34, v6);
 goto L57e;
 L154e:;
 v7 = v7 + 1ull;
 v6 = v6 + 96ull;
 goto L153;
 L150e:;
 v7 = v7 + 96ull;
 v6 = v6 + 1ull;
 goto L149;
 L147e:;
 if ((v38 & 255u) > 71u) {
  goto L163e;
 }
 v7 = v8 + (((u64)(v38) & 255ull) << 4);
 if (load8(v7 + 1240ull) != 1u) {
  goto L163e;
 }
 v6 = load64(v7 + 1248ull);
 v7 = load64(v34) + (v6 * 96ull);
 if (load8(v7) != 1u) {
  goto L10e;
 }
 v40 = 2u;
 if (load8(v7 + 19ull) != 0) {
  goto L162e;
 }
 if (load8(v7 + 20ull) != 0) {
  goto L162e;
 }
 if (load8(v7 + 18ull) != 0) {
  goto L164e;
 }
 store64(v3 + 1184, 0ull);
 store64(v3 + 1176, 0ull);
 store64(v3 + 1168, 0ull);
 store64(v3 + 80, 0ull);
 store16(v3 + 88, (u16)(0u));
 f7((v3 + 1168ull), (v3 + 32ull));
 v7 = load64(v3 + 1184);
 v7 = v7 < 10ull ? v7 : 10ull;
 if (!v7) {
  goto L165e;
 }
 move((v3 + 80ull), (v3 + 1168ull), v7);
 L165e:;
 v38 = 5u;
 v39 = 11u;
 v40 = 1u;
 v20 = load32(v3 + 86);
 v19 = load32(v3 + 82);
 v22 = load16(v3 + 80);
 f31(v34, v6);
 goto L138e;
 L164e:;
 v7 = v7 + 92ull;
 v20 = load32(v7) + 1u;
 store32(v7, v20 ? v20 : 4294967295u);
 v38 = 0u;
 v20 = 0u;
 v19 = 0u;
 v22 = 0u;
 v40 = 0u;
 v39 = 0u;
 f31(v34, v6);
 goto L138e;
 L163e:;
 store64(v3 + 96, 0ull);
 store16(v3 + 104, (u16)(0u));
 store64(v3 + 1184, 0ull);
 store64(v3 + 1176, 0ull);
 store64(v3 + 1168, 0ull);
 f7((v3 + 1168ull), (v3 + 32ull));
 v7 = load64(v3 + 1184);
 v7 = v7 < 10ull ? v7 : 10ull;
 if (!v7) {
  goto L142e;
 }
 move((v3 + 96ull), (v3 + 1168ull), v7);
 goto L142e;
 L162e:;
 v20 = 0u;
 v19 = 0u;
 v22 = 0u;
 v39 = 0u;
 v38 = 0u;
 f31(v34, v6);
 goto L138e;
 L146e:;
 if ((v38 & 255u) > 71u) {
  goto L168e;
 }
 v7 = v8 + (((u64)(v38) & 255ull) << 4);
 if (load8(v7 + 88ull) != 1u) {
  goto L168e;
 }
 v6 = load64(v7 + 96ull);
 v7 = load64(v34) + (v6 * 96ull);
 if (load8(v7) != 1u) {
  goto L10e;
 }
 v40 = 2u;
 if (load8(v7 + 19ull) != 0) {
  goto L167e;
 }
 if (load8(v7 + 20ull) != 0) {
  goto L167e;
 }
 if (load8(v7 + 18ull) != 0) {
  goto L169e;
 }
 store64(v3 + 1184, 0ull);
 store64(v3 + 1176, 0ull);
 store64(v3 + 1168, 0ull);
 store64(v3 + 80, 0ull);
 store16(v3 + 88, (u16)(0u));
 f7((v3 + 1168ull), (v3 + 32ull));
 v7 = load64(v3 + 1184);
 v7 = v7 < 10ull ? v7 : 10ull;
 if (!v7) {
  goto L170e;
 }
 move((v3 + 80ull), (v3 + 1168ull), v7);
 L170e:;
 v38 = 5u;
 v39 = 11u;
 v40 = 1u;
 v20 = load32(v3 + 86);
 v19 = load32(v3 + 82);
 v22 = load16(v3 + 80);
 f31(v34, v6);
 goto L138e;
 L169e:;
 v7 = v7 + 92ull;
 v20 = load32(v7) + 1u;
 store32(v7, v20 ? v20 : 4294967295u);
 v20 = 0u;
 v19 = 0u;
 v22 = 0u;
 v40 = 0u;
 goto L166e;
 L168e:;
 store64(v3 + 96, 0ull);
 store16(v3 + 104, (u16)(0u));
 store64(v3 + 1184, 0ull);
 store64(v3 + 1176, 0ull);
 store64(v3 + 1168, 0ull);
 f7((v3 + 1168ull), (v3 + 32ull));
 v7 = load64(v3 + 1184);
 v7 = v7 < 10ull ? v7 : 10ull;
 if (!v7) {
  goto L142e;
 }
 move((v3 + 96ull), (v3 + 1168ull), v7);
 goto L142e;
 L167e:;
 v20 = 0u;
 v19 = 0u;
 v22 = 0u;
 L166e:;
 v39 = 0u;
 v38 = 0u;
 f31(v34, v6);
 goto L138e;
 L145e:;
 if ((v38 & 255u) > 71u) {
  goto L173e;
 }
 v7 = v8 + (((u64)(v38) & 255ull) << 4);
 if (load8(v7 + 1240ull) != 1u) {
  goto L173e;
 }
 v6 = load64(v7 + 1248ull);
 v7 = load64(v34) + (v6 * 96ull);
 if (load8(v7) != 1u) {
  goto L10e;
 }
 v40 = 2u;
 if (load8(v7 + 19ull) != 0) {
  goto L172e;
 }
 if (load8(v7 + 20ull) != 0) {
  goto L172e;
 }
 if (load8(v7 + 18ull) != 0) {
  goto L174e;
 }
 store64(v3 + 1184, 0ull);
 store64(v3 + 1176, 0ull);
 store64(v3 + 1168, 0ull);
 store64(v3 + 64, 0ull);
 store16(v3 + 72, (u16)(0u));
 f7((v3 + 1168ull), (v3 + 32ull));
 v7 = load64(v3 + 1184);
 v7 = v7 < 10ull ? v7 : 10ull;
 if (!v7) {
  goto L175e;
 }
 move((v3 + 64ull), (v3 + 1168ull), v7);
 L175e:;
 v38 = 5u;
 v39 = 11u;
 v40 = 1u;
 v20 = load32(v3 + 70);
 v19 = load32(v3 + 66);
 v22 = load16(v3 + 64);
 f31(v34, v6);
 goto L138e;
 L174e:;
 v20 = load16(v7 + 24ull);
 if (v20 < (v19 & 65535u)) {
  goto L177e;
 }
 v9 = v7 + 28ull;
 v38 = load32(v9);
 if (v38 >= v39) {
  goto L176e;
 }
 L177e:;
 store64(v3 + 1184, 0ull);
 store64(v3 + 1176, 0ull);
 store64(v3 + 1168, 0ull);
 store64(v3 + 80, 0ull);
 store16(v3 + 88, (u16)(0u));
 f7((v3 + 1168ull), (v3 + 32ull));
 v7 = load64(v3 + 1184);
 v7 = v7 < 10ull ? v7 : 10ull;
 if (!v7) {
  goto L178e;
 }
 move((v3 + 80ull), (v3 + 1168ull), v7);
 L178e:;
 v38 = 3u;
 v39 = 11u;
 v40 = 1u;
 v20 = load32(v3 + 86);
 v19 = load32(v3 + 82);
 v22 = load16(v3 + 80);
 f31(v34, v6);
 goto L138e;
 L176e:;
 v22 = 0u;
 store8(v7 + 89ull, (u8)(0u));
 store32(v9, v38 - v39);
 store16(v7 + 24ull, (u16)(v20 - v19));
 v19 = 0u;
 v20 = 0u;
 v40 = 0u;
 goto L171e;
 L173e:;
 store64(v3 + 96, 0ull);
 store16(v3 + 104, (u16)(0u));
 store64(v3 + 1184, 0ull);
 store64(v3 + 1176, 0ull);
 store64(v3 + 1168, 0ull);
 f7((v3 + 1168ull), (v3 + 32ull));
 v7 = load64(v3 + 1184);
 v7 = v7 < 10ull ? v7 : 10ull;
 if (!v7) {
  goto L142e;
 }
 move((v3 + 96ull), (v3 + 1168ull), v7);
 goto L142e;
 L172e:;
 v22 = 0u;
 v19 = 0u;
 v20 = 0u;
 L171e:;
 v39 = 0u;
 v38 = 0u;
 f31(v34, v6);
 goto L138e;
 L144e:;
 if ((v38 & 255u) > 71u) {
  goto L180e;
 }
 v6 = v8 + (((u64)(v38) & 255ull) << 4);
 if (load8(v6 + 88ull) != 1u) {
  goto L180e;
 }
 v9 = load64(v6 + 96ull);
 v6 = load64(v34) + (v9 * 96ull);
 if (load8(v6) != 1u) {
  goto L10e;
 }
 v40 = 2u;
 if (load8(v6 + 19ull) != 0) {
  goto L179e;
 }
 if (load8(v6 + 20ull) != 0) {
  goto L179e;
 }
 if (load8(v6 + 18ull) != 0) {
  goto L182e;
 }
 store64(v3 + 96, 0ull);
 store16(v3 + 104, (u16)(0u));
 store64(v3 + 1184, 0ull);
 store64(v3 + 1176, 0ull);
 store64(v3 + 1168, 0ull);
 f7((v3 + 1168ull), (v3 + 32ull));
 v7 = load64(v3 + 1184);
 v7 = v7 < 10ull ? v7 : 10ull;
 if (!v7) {
  goto L183e;
 }
 move((v3 + 96ull), (v3 + 1168ull), v7);
 L183e:;
 v22 = load16(v3 + 96);
 v19 = load32(v3 + 98);
 v20 = load32(v3 + 102);
 v38 = 5u;
 v39 = 11u;
 goto L181e;
 L182e:;
 v20 = 0u;
 v11 = v6 + 28ull;
 v22 = load32(v11);
 b5 = v11;
 v11 = (u64)(v22);
 v7 = ((v7 * v11) + 127ull) >> 7;
 v39 = v22 - (u32)(v7 < 0xffffffffull ? v7 : 0xffffffffull);
 store32(b5, v39 > v22 ? 0u : v39);
 v6 = v6 + 24ull;
 v22 = load16(v6);
 v12 = (u64)(v22);
 b6 = v6;
 v6 = ((v12 * ((u64)(v19) & 255ull)) + 127ull) >> 7;
 v19 = v22 - (u32)(v6 < 65535ull ? v6 : 65535ull);
 store16(b6, (u16)(v19 > v22 ? 0u : v19));
 v22 = (u32)(v6 < v12 ? v6 : v12);
 v19 = (u32)(v7 < v11 ? v7 : v11);
 v39 = 6u;
 L181e:;
 v40 = 1u;
 f31(v34, v9);
 goto L138e;
 L180e:;
 store64(v3 + 96, 0ull);
 store16(v3 + 104, (u16)(0u));
 store64(v3 + 1184, 0ull);
 store64(v3 + 1176, 0ull);
 store64(v3 + 1168, 0ull);
 f7((v3 + 1168ull), (v3 + 32ull));
 v7 = load64(v3 + 1184);
 v7 = v7 < 10ull ? v7 : 10ull;
 if (!v7) {
  goto L184e;
 }
 move((v3 + 96ull), (v3 + 1168ull), v7);
 L184e:;
 v22 = load16(v3 + 96);
 v19 = load32(v3 + 98);
 v20 = load32(v3 + 102);
 v39 = 11u;
 v38 = 5u;
 goto L133e;
 L179e:;
 v39 = 0u;
 v38 = 0u;
 v22 = 0u;
 v19 = 0u;
 v20 = 0u;
 f31(v34, v9);
 goto L138e;
 L143e:;
 if ((v38 & 255u) > 71u) {
  goto L185e;
 }
 v7 = v8 + (((u64)(v38) & 255ull) << 4);
 if (load8(v7 + 88ull) != 1u) {
  goto L185e;
 }
 v6 = load64(v7 + 96ull);
 v7 = load64(v34) + (v6 * 96ull);
 if (load8(v7) != 1u) {
  goto L10e;
 }
 v40 = 2u;
 if (load8(v7 + 19ull) != 0) {
  goto L141e;
 }
 if (load8(v7 + 20ull) != 0) {
  goto L141e;
 }
 if (load8(v7 + 18ull) != 0) {
  goto L186e;
 }
 store64(v3 + 1184, 0ull);
 store64(v3 + 1176, 0ull);
 store64(v3 + 1168, 0ull);
 store64(v3 + 64, 0ull);
 store16(v3 + 72, (u16)(0u));
 f7((v3 + 1168ull), (v3 + 32ull));
 v7 = load64(v3 + 1184);
 v7 = v7 < 10ull ? v7 : 10ull;
 if (!v7) {
  goto L187e;
 }
 move((v3 + 64ull), (v3 + 1168ull), v7);
 L187e:;
 v38 = 5u;
 v39 = 11u;
 v40 = 1u;
 v20 = load32(v3 + 70);
 v19 = load32(v3 + 66);
 v22 = load16(v3 + 64);
 f31(v34, v6);
 goto L138e;
 L186e:;
 v20 = load16(v7 + 24ull);
 if ((v20 + (v19 & 65535u)) > 65535u) {
  goto L189e;
 }
 v9 = v7 + 28ull;
 v22 = load32(v9);
 if (((u64)(v22) + (u64)(v39)) < 0x100000000ull) {
  goto L188e;
 }
 L189e:;
 store64(v3 + 1184, 0ull);
 store64(v3 + 1176, 0ull);
 store64(v3 + 1168, 0ull);
 store64(v3 + 80, 0ull);
 store16(v3 + 88, (u16)(0u));
 f7((v3 + 1168ull), (v3 + 32ull));
 v7 = load64(v3 + 1184);
 v7 = v7 < 10ull ? v7 : 10ull;
 if (!v7) {
  goto L190e;
 }
 move((v3 + 80ull), (v3 + 1168ull), v7);
 L190e:;
 v38 = 3u;
 v39 = 11u;
 v40 = 1u;
 v20 = load32(v3 + 86);
 v19 = load32(v3 + 82);
 v22 = load16(v3 + 80);
 f31(v34, v6);
 goto L138e;
 L188e:;
 store32(v9, v22 + v39);
 store16(v7 + 24ull, (u16)(v20 + v19));
 v22 = 0u;
 v19 = 0u;
 v20 = 0u;
 v40 = 0u;
 goto L140e;
 L185e:;
 store64(v3 + 96, 0ull);
 store16(v3 + 104, (u16)(0u));
 store64(v3 + 1184, 0ull);
 store64(v3 + 1176, 0ull);
 store64(v3 + 1168, 0ull);
 f7((v3 + 1168ull), (v3 + 32ull));
 v7 = load64(v3 + 1184);
 v7 = v7 < 10ull ? v7 : 10ull;
 if (!v7) {
  goto L142e;
 }
 move((v3 + 96ull), (v3 + 1168ull), v7);
 L142e:;
 v22 = load16(v3 + 96);
 v19 = load32(v3 + 98);
 v20 = load32(v3 + 102);
 v38 = 5u;
 v39 = 11u;
 v40 = 1u;
 goto L138e;
 L141e:;
 v22 = 0u;
 v19 = 0u;
 v20 = 0u;
 L140e:;
 v39 = 0u;
 v38 = 0u;
 f31(v34, v6);
 goto L138e;
 L139e:;
 if (((v39 ^ v22) & 1u) != 0) {
  goto L191e;
 }
 store64(v3 + 96, 0ull);
 store16(v3 + 104, (u16)(0u));
 store64(v3 + 1184, 0ull);
 store64(v3 + 1176, 0ull);
 store64(v3 + 1168, 0ull);
 f7((v3 + 1168ull), (v3 + 32ull));
 v7 = load64(v3 + 1184);
 v7 = v7 < 10ull ? v7 : 10ull;
 if (!v7) {
  goto L134e;
 }
 move((v3 + 96ull), (v3 + 1168ull), v7);
 goto L134e;
 L191e:;
 v9 = load64(v33);
 v7 = load64(v34);
 v6 = 0ull;
 L192:;
 if (v9 == v6) {
  goto L195e;
 }
 if (load8(v7) != 1u) {
  goto L193e;
 }
 if (load32(v7 + 8ull) != v22) {
  goto L193e;
 }
 if (load32(v7 + 12ull) != v39) {
  goto L193e;
 }
 if (load8(v7) != 1u) {
  goto L10e;
 }
 v9 = v7 + 21ull;
 if (load8(v9) != 1u) {
  goto L196e;
 }
 store64(v3 + 96, 0ull);
 store16(v3 + 104, (u16)(0u));
 store64(v3 + 1184, 0ull);
 store64(v3 + 1176, 0ull);
 store64(v3 + 1168, 0ull);
 f7((v3 + 1168ull), (v3 + 32ull));
 v7 = load64(v3 + 1184);
 v7 = v7 < 10ull ? v7 : 10ull;
 if (!v7) {
  goto L197e;
 }
 move((v3 + 96ull), (v3 + 1168ull), v7);
 L197e:;
 v22 = load16(v3 + 96);
 v19 = load32(v3 + 98);
 v20 = load32(v3 + 102);
 v38 = 3u;
 v39 = 11u;
 v40 = 1u;
 f31(v34, v6);
 goto L138e;
 L196e:;
 store8(v9, (u8)(1u));
 if (load8(v7 + 20ull) != 0) {
  goto L194e;
 }
 if (load8(v7 + 19ull) != 0) {
  goto L194e;
 }
 v20 = load32(v7 + 12ull);
 v19 = load32(v7 + 8ull);
 if ((v19 & 1u) == 0) {
  goto L199e;
 }
 if ((v20 & 1u) != 0) {
  goto L198e;
 }
 if (load8(v7 + 88ull) != 1u) {
  goto L198e;
 }
 if (load8(v7 + 32ull) != 1u) {
  goto L200e;
 }
 store64(v7 + 72ull, 0ull);
 store64(v7 + 64ull, 0ull);
 L200e:;
 store8(v7 + 19ull, (u8)(1u));
 goto L194e;
 L199e:;
 if ((v20 & 1u) == 0) {
  goto L198e;
 }
 if (load8(v7 + 32ull) != 1u) {
  goto L198e;
 }
 if (load64(v7 + 72ull) == 0) {
  goto L198e;
 }
 store8(v7 + 19ull, (u8)(1u));
 goto L194e;
 L198e:;
 v40 = 1u;
 if (load8(v7 + 32ull) != 1u) {
  goto L201e;
 }
 store64(v7 + 72ull, 0ull);
 store64(v7 + 64ull, 0ull);
 L201e:;
 store16(v7 + 19ull, (u16)(256u));
 v38 = 0u;
 v39 = 3u;
 v22 = 0u;
 f31(v34, v6);
 goto L138e;
 L195e:;
 store64(v3 + 96, 0ull);
 store16(v3 + 104, (u16)(0u));
 store64(v3 + 1184, 0ull);
 store64(v3 + 1176, 0ull);
 store64(v3 + 1168, 0ull);
 f7((v3 + 1168ull), (v3 + 32ull));
 v7 = load64(v3 + 1184);
 v7 = v7 < 10ull ? v7 : 10ull;
 if (!v7) {
  goto L202e;
 }
 move((v3 + 96ull), (v3 + 1168ull), v7);
 L202e:;
 v22 = load16(v3 + 96);
 v19 = load32(v3 + 98);
 v20 = load32(v3 + 102);
 v39 = 11u;
 v38 = 4u;
 goto L133e;
 L194e:;
 v40 = 0u;
 v39 = 0u;
 v38 = 0u;
 v22 = 0u;
 v19 = 0u;
 v20 = 0u;
 f31(v34, v6);
 goto L138e;
 L193e:;
 v7 = v7 + 96ull;
 v6 = v6 + 1ull;
 goto L192;
 L138e:;
 switch (v40) {
 case 1:
  goto L133e;
 case 2:
  goto L203e;
 default:
  goto L57e;
 }
 L203e:;
 v7 = v8 + 2548ull;
 v20 = load32(v7) + 1u;
 store32(v7, v20 ? v20 : 4294967295u);
 goto L57e;
 L137e:;
 if ((v40 & 255u) == 0) {
  goto L205e;
 }
 if ((v22 & 1u) != 0) {
  goto L205e;
 }
 if ((v39 & 1u) == 0) {
  goto L205e;
 }
 v9 = load64(v33);
 v6 = 0ull;
 v12 = load64(v34);
 v7 = v12;
 L206:;
 if (v9 == v6) {
  goto L204e;
 }
 if (load8(v7) != 1u) {
  goto L207e;
 }
 if (load32(v7 + 8ull) != v22) {
  goto L207e;
 }
 if (load32(v7 + 12ull) != v39) {
  goto L207e;
 }
 if (v6 >= v9) {
  goto L10e;
 }
 if (load8(v7) != 1u) {
  goto L10e;
 }
 if (load8(v7 + 17ull) != 1u) {
  goto L204e;
 }
 goto L205e;
 L207e:;
 v7 = v7 + 96ull;
 v6 = v6 + 1ull;
 goto L206;
 L205e:;
 store64(v3 + 96, 0ull);
 store16(v3 + 104, (u16)(0u));
 store64(v3 + 1184, 0ull);
 store64(v3 + 1176, 0ull);
 store64(v3 + 1168, 0ull);
 f7((v3 + 1168ull), (v3 + 32ull));
 v7 = load64(v3 + 1184);
 v7 = v7 < 10ull ? v7 : 10ull;
 if (!v7) {
  goto L134e;
 }
 move((v3 + 96ull), (v3 + 1168ull), v7);
 goto L134e;
 L204e:;
 v6 = 0ull;
 v7 = 0ull;
 L208:;
 if (v9 == v7) {
  goto L210e;
 }
 v11 = v12 + v6;
 if (load8(v11) != 1u) {
  goto L209e;
 }
 if (load32(v11 + 8ull) != v22) {
  goto L209e;
 }
 if (load32(v11 + 12ull) != v39) {
  goto L209e;
 }
 v20 = 1u;
 if (load8(v11) != 1u) {
  goto L10e;
 }
 store8(v11 + 23ull, (u8)(v40));
 store8(v11 + 17ull, (u8)(1u));
 v6 = v11 + 18ull;
 if (load8(v6) != 0) {
  goto L211e;
 }
 v20 = 0u;
 if (load8(v11 + 16ull) != 1u) {
  goto L211e;
 }
 if (load8(v11 + 19ull) != 0) {
  goto L211e;
 }
 v20 = load8(v11 + 20ull) ^ 1u;
 L211e:;
 store8(v6, (u8)(v20 & 1u));
 f30(v34, v7);
 goto L57e;
 L210e:;
 v5 = load64(v32);
 v7 = v12;
 v6 = v9;
 v13 = 0ull;
 L212:;
 v6 = 0ull - v6;
 L214:;
 v6 = v6 + 1ull;
 if (v6 == 1ull) {
  goto L213e;
 }
 v20 = load8(v7);
 v11 = v7 + 96ull;
 v7 = v11;
 if (v20 != 1u) {
  goto L214;
 }
 v6 = 0ull - v6;
 v13 = v13 + (u64)load8(v11 - 80ull);
 v7 = v11;
 goto L212;
 L213e:;
 if ((v5 - v13) > 63ull) {
  goto L136e;
 }
 store64(v8 + 72ull, v5 + 1ull);
 v6 = load64(v8 + 80ull);
 v7 = v12 + (v6 * 96ull);
 if (v6 != v9) {
  goto L216e;
 }
 store64(v7, 1ull);
 store32(v7 + 18ull, 0u);
 store16(v7 + 16ull, (u16)(256u));
 store32(v7 + 12ull, v39);
 store32(v7 + 8ull, v22);
 store8(v7 + 22ull, (u8)(0u));
 store8(v7 + 23ull, (u8)(v40));
 fill((v7 + 24ull), 0u, 72ull);
 v9 = v9 + 1ull;
 store64(v33, v9);
 goto L215e;
 L216e:;
 store32(v7 + 18ull, 0u);
 store16(v7 + 16ull, (u16)(256u));
 v20 = load8(v7);
 store64(v7, 1ull);
 store8(v7 + 22ull, (u8)(0u));
 store8(v7 + 23ull, (u8)(v40));
 v11 = v7 + 8ull;
 v9 = load64(v11);
 store32(v7 + 12ull, v39);
 store32(v11, v22);
 fill((v7 + 24ull), 0u, 72ull);
 if (v20) {
  goto L10e;
 }
 L215e:;
 store64(v8 + 80ull, v9);
 f30(v34, v6);
 goto L57e;
 L209e:;
 v7 = v7 + 1ull;
 v6 = v6 + 96ull;
 goto L208;
 L136e:;
 f8(v35);
 store8(v8, (u8)(1u));
 v6 = load64(v8 + 56ull);
 if (!v6) {
  goto L217e;
 }
 store64(v33, 0ull);
 v9 = load64(v8 + 64ull);
 store64(v33 + 8, 0ull);
 v11 = load64(v8 + 48ull);
 v7 = v11;
 L218:;
 if (load8(v7) == 0) {
  goto L219e;
 }
 if (load8(v7 + 32ull) == 0) {
  goto L219e;
 }
 if (load64(v7 + 56ull) == 0) {
  goto L219e;
 }
 import_rattle_dealloc(load64(v7 + 40ull));
 L219e:;
 v7 = v7 + 96ull;
 v6 = v6 - 1ull;
 if (v6 != 0ull) {
  goto L218;
 }
 store64(v8 + 64ull, v9);
 store64(v8 + 56ull, 0ull);
 store64(v8 + 48ull, v11);
 L217e:;
 fill(v32, 0u, 2320ull);
 store8(v31 + 16, (u8)(0u));
 store64(v31 + 8, 0ull);
 store64(v31, 0ull);
 goto L57e;
 L135e:;
 store64(v3 + 96, 0ull);
 store16(v3 + 104, (u16)(0u));
 store64(v3 + 1184, 0ull);
 store64(v3 + 1176, 0ull);
 store64(v3 + 1168, 0ull);
 f7((v3 + 1168ull), (v3 + 32ull));
 v7 = load64(v3 + 1184);
 v7 = v7 < 10ull ? v7 : 10ull;
 if (!v7) {
  goto L134e;
 }
 move((v3 + 96ull), (v3 + 1168ull), v7);
 L134e:;
 v22 = load16(v3 + 96);
 v19 = load32(v3 + 98);
 v20 = load32(v3 + 102);
 v39 = 11u;
 v38 = 3u;
 L133e:;
 store8(v3 + 124, (u8)(0u));
 store32(v3 + 120, v20);
 store32(v3 + 116, v19);
 store16(v3 + 114, (u16)(v22));
 store8(v3 + 113, (u8)(v38));
 store8(v3 + 112, (u8)(v39));
 f29(v8, (v3 + 112ull));
 L57e:;
 v21 = v21 + 1u;
 if (v4 != 0ull) {
  goto L53;
 }
 L52e:;
 v22 = 8u;
 goto L11e;
 L29e:;
 v21 = 0u;
 v20 = v19 & 255u;
 if (v20 == 1u) {
  goto L226e;
 }
 if (v20 > 71u) {
  goto L226e;
 }
 v20 = v19 & 255u;
 v7 = load64(v8 + 2464ull) + ((u64)(v20 - (u32)((v20 != 0u))) * 1048ull);
 if (load8(v7) != 2u) {
  goto L226e;
 }
 v20 = v15 & 255u;
 switch (v20 == 5u ? 0u : (v20 == 7u ? 2u : 1u)) {
 case 1:
  goto L223e;
 case 2:
  goto L225e;
 default:
  goto L224e;
 }
 L226e:;
 v7 = v8 + 2528ull;
 v20 = load32(v7) + 1u;
 store32(v7, v20 ? v20 : 4294967295u);
 v22 = 3u;
 v15 = 0u;
 goto L11e;
 L225e:;
 store8(v7, (u8)(3u));
 goto L220e;
 L224e:;
 store8(v7, (u8)(0u));
 if ((v19 & 255u) == 0) {
  goto L221e;
 }
 f77(v3, 1ull, 0ull, ((u32)(v9) & 127u));
 v7 = v8 + 2496ull;
 store64(v7, load64(v7) & (load64(v3) ^ 0xffffffffffffffffull));
 v7 = v8 + 2504ull;
 store64(v7, load64(v7) & (load64(v3 + 8) ^ 0xffffffffffffffffull));
 if (load8(v8) != 0) {
  goto L221e;
 }
 if (load8(v8 + 1ull) != 0) {
  goto L221e;
 }
 if (load8(v8 + 2ull) != 0) {
  goto L221e;
 }
 if (load8(v8 + 3ull) != 0) {
  goto L221e;
 }
 v7 = v8 + ((v9 << 4) & 2032ull);
 if (load8(v7 + 88ull) != 1u) {
  goto L221e;
 }
 v6 = v8 + 48ull;
 v9 = load64(v7 + 96ull);
 v7 = load64(v6) + (v9 * 96ull);
 if (load8(v7) != 1u) {
  goto L10e;
 }
 store8(v7 + 88ull, (u8)(0u));
 if (load8(v7 + 19ull) != 1u) {
  goto L222e;
 }
 if (load8(v7 + 32ull) != 1u) {
  goto L227e;
 }
 store64(v7 + 72ull, 0ull);
 store64(v7 + 64ull, 0ull);
 L227e:;
 store16(v7 + 19ull, (u16)(256u));
 v7 = load64(v7 + 8ull);
 f31(v6, v9);
 store64(v3 + 1172, v7);
 store32(v3 + 1168, 3u);
 store32(v3 + 1180, 0u);
 f29(v8, (v3 + 1168ull));
 goto L221e;
 L223e:;
 store8(v7, (u8)(1u));
 f77((v3 + 16ull), 1ull, 0ull, ((u32)(v9) & 127u));
 v7 = v8 + 2512ull;
 store64(v7, load64(v7) | load64(v3 + 16));
 v7 = v8 + 2520ull;
 store64(v7, load64(v7) | load64(v3 + 24));
 goto L220e;
 L222e:;
 f31(v6, v9);
 L221e:;
 v6 = load64(v8 + 2504ull);
 v7 = (load64(v8 + 2496ull) >> 2) | (v6 << 62);
 v6 = v6 >> 2;
 if (!((v7 | v6) == 0)) {
  goto L228e;
 }
 f28(v8, 1u);
 goto L220e;
 L228e:;
 v9 = load64(v8 + 2464ull);
 if (load8((v9 + ((v7 != 0ull ? ctz64(v7) : (ctz64(v6) + 64ull)) * 1048ull)) + 1048ull) == 0) {
  goto L229e;
 }
 f28(v8, 0u);
 goto L220e;
 L229e:;
 v7 = v9 + 1048ull;
 v6 = load64(v8 + 2472ull);
 L231:;
 v6 = v6 - 1ull;
 v21 = (u32)((!v6));
 if (v21) {
  goto L230e;
 }
 v20 = load8(v7);
 v7 = v7 + 1048ull;
 if (!v20) {
  goto L231;
 }
 L230e:;
 f28(v8, v21);
 L220e:;
 v22 = 4u;
 goto L24e;
 L28e:;
 if (load8(v8) != 0) {
  goto L233e;
 }
 if (load8(v8 + 1ull) != 0) {
  goto L233e;
 }
 if (load8(v8 + 2ull) != 0) {
  goto L233e;
 }
 if (load8(v8 + 3ull) != 1u) {
  goto L232e;
 }
 L233e:;
 v7 = v8 + 2544ull;
 v20 = load32(v7) + 1u;
 store32(v7, v20 ? v20 : 4294967295u);
 v22 = 10u;
 goto L24e;
 L232e:;
 store64(v3 + 120, 0ull);
 store64(v3 + 112, 0ull);
 v9 = v8 + ((v9 << 4) & 2032ull);
 if (load8(v9 + 1240ull) != 1u) {
  goto L237e;
 }
 v11 = v8 + 48ull;
 v12 = load64(v9 + 1248ull);
 v9 = load64(v11) + (v12 * 96ull);
 if (load8(v9) != 1u) {
  goto L10e;
 }
 if (load8(v9 + 19ull) != 0) {
  goto L236e;
 }
 if (load8(v9 + 20ull) != 0) {
  goto L236e;
 }
 if (load8(v9 + 18ull) != 1u) {
  goto L238e;
 }
 if (load8(v9 + 23ull) != (v20 & 255u)) {
  goto L235e;
 }
 v20 = load16(v9 + 24ull);
 if (!v20) {
  goto L234e;
 }
 v7 = v9 + 28ull;
 v21 = load32(v7);
 if (v4 > (u64)(v21)) {
  goto L234e;
 }
 store16(v9 + 24ull, (u16)(v20 - 1u));
 store32(v7, v21 - (u32)(v4));
 if (load8(v9 + 32ull) != 1u) {
  goto L240e;
 }
 store64(v3 + 1184, v16);
 store64(v3 + 1176, v14);
 store64(v3 + 1168, v18);
 v25 = load64(v9 + 72ull);
 v7 = load64(v9 + 80ull);
 store64(v3 + 1192, v4);
 if ((v7 - v25) < v4) {
  goto L10e;
 }
 v10 = load64(v9 + 40ull);
 v24 = load64(v9 + 48ull);
 v23 = v9 + 64ull;
 v16 = load64(v23);
 v8 = v16 + v25;
 if (v4 <= ((v24 << 3) - v8)) {
  goto L241e;
 }
 v7 = 0ull;
 v8 = (v8 >> 3) + (u64)((u32)(((v8 & 7ull) != 0ull)));
 v5 = v16 >> 3;
 if (v8 == v5) {
  goto L242e;
 }
 v6 = v8 - v5;
 v13 = v6 & 3ull;
 if ((v5 - v8) > 0xfffffffffffffffcull) {
  goto L243e;
 }
 v14 = v10 + v5;
 v18 = v6 & 0xfffffffffffffffcull;
 v7 = 0ull;
 L244:;
 v8 = v10 + v7;
 v6 = v14 + v7;
 store8(v8, (u8)(load8(v6)));
 v20 = load8(v6 + 1ull);
 v21 = load8(v6 + 2ull);
 store8(v8 + 3ull, (u8)(load8(v6 + 3ull)));
 store8(v8 + 2ull, (u8)(v21));
 store8(v8 + 1ull, (u8)(v20));
 v7 = v7 + 4ull;
 if (v18 != v7) {
  goto L244;
 }
 if (!v13) {
  goto L242e;
 }
 L243e:;
 v7 = v10 + v7;
 L245:;
 store8(v7, (u8)(load8(v7 + v5)));
 v7 = v7 + 1ull;
 v13 = v13 - 1ull;
 if (v13 != 0ull) {
  goto L245;
 }
 L242e:;
 v16 = v16 & 7ull;
 v8 = v16 + v25;
 L241e:;
 f10(v10, v24, v8, (v3 + 1168ull));
 store64(v23, v16);
 v7 = v9 + 72ull;
 store64(v7, load64(v7) + v4);
 goto L239e;
 L240e:;
 if (!(!v4)) {
  goto L10e;
 }
 L239e:;
 f31(v11, v12);
 v22 = 9u;
 goto L24e;
 L238e:;
 f31(v11, v12);
 L237e:;
 store16(v3 + 56, (u16)(0u));
 store64(v3 + 48, 0ull);
 fill(((v3 + 1168ull) + 8ull), 0u, 1032ull);
 store64(v3 + 1168, 0ull);
 store8(v3 + 1176, (u8)(0u));
 store64(v3 + 2192, 9ull);
 store64(v3 + 152, 72ull);
 store64(v3 + 144, v16);
 v9 = v5 >> 3;
 store64(v3 + 136, v7 - v9);
 store64(v3 + 128, v6 + v9);
 b7 = f6((v3 + 128ull), (v3 + 1168ull));
 store64(v3 + 2200, 72ull);
 move((v3 + 128ull), (v3 + 1168ull), 1040ull);
 v7 = v4 < 8ull ? v4 : 8ull;
 store64(v3 + 1192, v7);
 store64(v3 + 1184, v16);
 store64(v3 + 1176, v14);
 store64(v3 + 1168, v18);
 v6 = load64(v3 + 1160);
 if ((8192ull - v6) < v7) {
  goto L10e;
 }
 v11 = v6 + v7;
 v9 = (v11 >> 3) + (u64)((u32)(((v11 & 7ull) != 0ull)));
 v12 = load64(v3 + 1152);
 if (v9 > v12) {
  goto L247e;
 }
 v9 = v12;
 goto L246e;
 L247e:;
 v6 = v9 - v12;
 if ((1024ull - v12) < v6) {
  goto L10e;
 }
 if (!v6) {
  goto L248e;
 }
 fill(((v3 + 128ull) + v12), 0u, v6);
 L248e:;
 store64(v3 + 1152, v9);
 v6 = load64(v3 + 1160);
 L246e:;
 f10((v3 + 128ull), v9, v6, (v3 + 1168ull));
 store64(v3 + 1160, v11);
 a8 = f32((v3 + 128ull), 0ull, (8ull - v7));
 if ((a8 & 1u) != 0) {
  goto L10e;
 }
 v21 = 0u;
 store16(v3 + 56, (u16)(0u));
 store64(v3 + 48, 0ull);
 store64(v3 + 1192, load64(v3 + 1160));
 store64(v3 + 1184, 0ull);
 store64(v3 + 1176, load64(v3 + 1152));
 store64(v3 + 1168, v3 + 128ull);
 b9 = f6((v3 + 1168ull), (v3 + 48ull));
 store16(v3 + 112, (u16)(1291u));
 store8(v3 + 124, (u8)(0u));
 store64(v3 + 114, load64(v3 + 48));
 store16(v3 + 122, (u16)(load16(v3 + 56)));
 f29(v8, (v3 + 112ull));
 v22 = 9u;
 v15 = 4u;
 goto L11e;
 L236e:;
 f31(v11, v12);
 v15 = 1u;
 v7 = v8 + 2548ull;
 v20 = load32(v7) + 1u;
 store32(v7, v20 ? v20 : 4294967295u);
 v22 = 9u;
 v21 = 0u;
 goto L11e;
 L235e:;
 f31(v11, v12);
 v7 = v8 + 2540ull;
 v20 = load32(v7) + 1u;
 store32(v7, v20 ? v20 : 4294967295u);
 v22 = 9u;
 v15 = 2u;
 v21 = 0u;
 goto L11e;
 L234e:;
 f31(v11, v12);
 v7 = v8 + 2552ull;
 v20 = load32(v7) + 1u;
 store32(v7, v20 ? v20 : 4294967295u);
 v22 = 9u;
 v15 = 3u;
 v21 = 0u;
 goto L11e;
 L24e:;
 v21 = 0u;
 v15 = 0u;
 goto L11e;
 L23e:;
 v15 = 1u;
 L22e:;
 v7 = v8 + 2532ull;
 v20 = load32(v7) + 1u;
 store32(v7, v20 ? v20 : 4294967295u);
 v22 = 5u;
 L11e:;
 v39 = 0u;
 v18 = load64(p2 + 24ull);
 if (v18 >= 32ull) {
  goto L250e;
 }
 v9 = 0ull;
 v19 = 0u;
 v20 = 0u;
 v17 = 0u;
 goto L249e;
 L250e:;
 v5 = load64(p2 + 16ull);
 v6 = load64(p2);
 v7 = 0ull;
 L251:;
 v8 = 4ull - v7;
 v9 = 8ull - ((v7 + v5) & 7ull);
 v7 = (v8 < v9 ? v8 : v9) + v7;
 if (v7 < 4ull) {
  goto L251;
 }
 v10 = v5 + 4ull;
 v9 = 0ull;
 v7 = 0ull;
 L252:;
 v8 = 4ull - v7;
 v11 = v10 + v7;
 v12 = v11 & 7ull;
 v13 = 8ull - v12;
 v8 = v8 < v13 ? v8 : v13;
 v9 = (v9 << (v8 & 63)) | (u64)(((load8(v6 + (v11 >> 3)) << ((u32)(v12) & 31)) & 255u) >> ((8u - (u32)(v8)) & 31));
 v7 = v8 + v7;
 if (v7 < 4ull) {
  goto L252;
 }
 v14 = v5 + 8ull;
 if ((v5 & 7ull) == 0) {
  goto L254e;
 }
 v11 = 0ull;
 v7 = 0ull;
 L255:;
 v8 = 8ull - v7;
 v12 = v7 + v14;
 v13 = v12 & 7ull;
 v10 = 8ull - v13;
 v8 = v8 < v10 ? v8 : v10;
 v11 = (v11 << (v8 & 63)) | (u64)(((load8(v6 + (v12 >> 3)) << ((u32)(v13) & 31)) & 255u) >> (((8u - (u32)(v8)) & 255u) & 31));
 v7 = v8 + v7;
 if (v7 < 8ull) {
  goto L255;
 }
 v14 = v5 + 16ull;
 v20 = (u32)(v11);
 v11 = 0ull;
 v7 = 0ull;
 L256:;
 v8 = 8ull - v7;
 v12 = v7 + v14;
 v13 = v12 & 7ull;
 v10 = 8ull - v13;
 v8 = v8 < v10 ? v8 : v10;
 v11 = (v11 << (v8 & 63)) | (u64)(((load8(v6 + (v12 >> 3)) << ((u32)(v13) & 31)) & 255u) >> (((8u - (u32)(v8)) & 255u) & 31));
 v7 = v8 + v7;
 if (v7 < 8ull) {
  goto L256;
 }
 v19 = (u32)(v11);
 v7 = 0ull;
 L257:;
 v8 = 8ull - v7;
 v6 = 8ull - ((v7 + v5) & 7ull);
 v7 = (v8 < v6 ? v8 : v6) + v7;
 if (v7 < 8ull) {
  goto L257;
 }
 goto L253e;
 L254e:;
 v19 = load8(v6 + ((v5 + 16ull) >> 3));
 v11 = (u64)(v19) & 255ull;
 v20 = load8(v6 + (v14 >> 3));
 L253e:;
 v17 = (u32)(v9);
 v9 = 0ull;
 v8 = load64(p1 + 16ull);
 if (!v8) {
  goto L249e;
 }
 v6 = load64(p1 + 24ull) + 1240ull;
 v7 = p1 + 8ull;
 L259:;
 if (load8(v7) == (v20 & 255u)) {
  goto L258e;
 }
 v6 = v6 + 2560ull;
 v7 = v7 + 1ull;
 v8 = v8 - 1ull;
 if (!(!v8)) {
  goto L259;
 }
 goto L249e;
 L258e:;
 if ((v19 & 255u) > 71u) {
  goto L249e;
 }
 v7 = v6 + ((v11 << 4) & 2032ull);
 if (load8(v7) != 1u) {
  goto L249e;
 }
 v7 = load64(v7 + 8ull);
 if (v7 >= load64(v6 - 1184ull)) {
  goto L10e;
 }
 v39 = 1u;
 v7 = load64(v6 - 1192ull) + (v7 * 96ull);
 if (load8(v7) != 1u) {
  goto L10e;
 }
 v9 = load64(v7 + 8ull);
 L249e:;
 switch (v22) {
 case 1:
  goto L267e;
 case 2:
  goto L266e;
 case 3:
  goto L265e;
 case 4:
  goto L264e;
 case 5:
  goto L263e;
 case 6:
  goto L262e;
 case 7:
  goto L261e;
 case 8:
  goto L260e;
 case 9:
  goto L7e;
 case 10:
  goto L9e;
 default:
  goto L268e;
 }
 L268e:;
 v15 = 0u;
 v40 = 1u;
 if (v18 >= 32ull) {
  goto L4e;
 }
 v21 = 0u;
 goto L6e;
 L267e:;
 v21 = v15 & 255u;
 v15 = 0u;
 v40 = 2u;
 if (v18 >= 32ull) {
  goto L3e;
 }
 goto L6e;
 L266e:;
 v21 = 0u;
 v40 = 3u;
 if (v18 < 32ull) {
  goto L8e;
 }
 goto L4e;
 L265e:;
 v21 = 0u;
 v40 = 4u;
 if (v18 >= 32ull) {
  goto L4e;
 }
 goto L8e;
 L264e:;
 v21 = v17 & 255u;
 v15 = 0u;
 v40 = 5u;
 if (v18 >= 32ull) {
  goto L3e;
 }
 goto L6e;
 L263e:;
 v21 = (v15 & 255u) + 1u;
 v15 = 0u;
 v40 = 6u;
 if (v18 >= 32ull) {
  goto L3e;
 }
 goto L6e;
 L262e:;
 v21 = 0u;
 v40 = 7u;
 if (v18 >= 32ull) {
  goto L4e;
 }
 goto L8e;
 L261e:;
 v21 = 0u;
 v40 = 8u;
 if (v18 >= 32ull) {
  goto L4e;
 }
 goto L8e;
 L260e:;
 v22 = 0u;
 v39 = 0u;
 v38 = 0u;
 if (v18 < 72ull) {
  goto L269e;
 }
 v10 = load64(p2 + 16ull);
 v5 = v10 + 32ull;
 v13 = load64(p2);
 v14 = v10 & 7ull;
 v27 = (u32)((!v14));
 if (v27) {
  goto L271e;
 }
 v6 = 0ull;
 v7 = 0ull;
 L272:;
 v8 = 8ull - v7;
 v9 = v7 + v5;
 v11 = v9 & 7ull;
 v12 = 8ull - v11;
 v8 = v8 < v12 ? v8 : v12;
 v6 = (v6 << (v8 & 63)) | (u64)(((load8(v13 + (v9 >> 3)) << ((u32)(v11) & 31)) & 255u) >> (((8u - (u32)(v8)) & 255u) & 31));
 v7 = v8 + v7;
 if (v7 < 8ull) {
  goto L272;
 }
 v9 = 0ull;
 v15 = 0u;
 v40 = 9u;
 if (v6 != 0ull) {
  goto L2e;
 }
 v5 = v10 + 40ull;
 v7 = 0ull;
 L273:;
 v8 = 8ull - v7;
 v6 = v5 + v7;
 v11 = v6 & 7ull;
 v12 = 8ull - v11;
 v8 = v8 < v12 ? v8 : v12;
 v9 = (v9 << (v8 & 63)) | (u64)(((load8(v13 + (v6 >> 3)) << ((u32)(v11) & 31)) & 255u) >> (((8u - (u32)(v8)) & 255u) & 31));
 v7 = v8 + v7;
 if (v7 < 8ull) {
  goto L273;
 }
 v38 = (u32)(v9);
 if ((v38 & 255u) == 0) {
  goto L2e;
 }
 p1 = v10 + 64ull;
 v6 = 0ull;
 v7 = 0ull;
 L274:;
 v8 = 8ull - v7;
 v11 = p1 + v7;
 v12 = v11 & 7ull;
 v5 = 8ull - v12;
 v8 = v8 < v5 ? v8 : v5;
 v6 = (v6 << (v8 & 63)) | (u64)(((load8(v13 + (v11 >> 3)) << ((u32)(v12) & 31)) & 255u) >> (((8u - (u32)(v8)) & 255u) & 31));
 v7 = v8 + v7;
 if (v7 < 8ull) {
  goto L274;
 }
 v11 = 0ull;
 if (v6 != 0ull) {
  goto L2e;
 }
 p1 = v10 + 48ull;
 v7 = 0ull;
 L275:;
 v8 = 16ull - v7;
 v6 = p1 + v7;
 v12 = v6 & 7ull;
 v5 = 8ull - v12;
 v8 = v8 < v5 ? v8 : v5;
 v11 = (v11 << (v8 & 63)) | (u64)(((load8(v13 + (v6 >> 3)) << ((u32)(v12) & 31)) & 255u) >> (((8u - (u32)(v8)) & 255u) & 31));
 v7 = v8 + v7;
 if (v7 < 16ull) {
  goto L275;
 }
 goto L270e;
 L271e:;
 v15 = 0u;
 v40 = 9u;
 if (load8(v13 + (v5 >> 3)) != 0) {
  goto L2e;
 }
 v38 = load8(v13 + ((v10 + 40ull) >> 3));
 if (!v38) {
  goto L2e;
 }
 if (load8(v13 + ((v10 + 64ull) >> 3)) != 0) {
  goto L2e;
 }
 v9 = (u64)(v38);
 v7 = v13 + ((v10 + 48ull) >> 3);
 v11 = ((u64)load8(v7) << 8) | (u64)load8(v7 + 1ull);
 L270e:;
 v15 = 0u;
 v40 = 9u;
 v4 = v11 & 65535ull;
 p1 = v4 * (v9 & 255ull);
 if ((v18 - 72ull) < p1) {
  goto L2e;
 }
 v7 = 0ull;
 L276:;
 v8 = 4ull - v7;
 v6 = 8ull - ((v7 + v10) & 7ull);
 v7 = (v8 < v6 ? v8 : v6) + v7;
 if (v7 < 4ull) {
  goto L276;
 }
 v5 = v10 + 4ull;
 v6 = 0ull;
 v7 = 0ull;
 L277:;
 v8 = 4ull - v7;
 v9 = v5 + v7;
 v11 = v9 & 7ull;
 v12 = 8ull - v11;
 v8 = v8 < v12 ? v8 : v12;
 v6 = (v6 << (v8 & 63)) | (u64)(((load8(v13 + (v9 >> 3)) << ((u32)(v11) & 31)) & 255u) >> ((8u - (u32)(v8)) & 31));
 v7 = v8 + v7;
 if (v7 < 4ull) {
  goto L277;
 }
 v8 = load64(p2 + 8);
 if (v14 != 0ull) {
  goto L279e;
 }
 v7 = (u64)load8(v13 + ((v10 + 16ull) >> 3));
 goto L278e;
 L279e:;
 b10 = f4(v13, (v10 + 8ull), 8ull);
 b11 = f4(v13, (v10 + 16ull), 8ull);
 v7 = b11;
 b12 = f4(v13, (v10 + 24ull), 8ull);
 L278e:;
 if ((v38 & 255u) != 8u) {
  goto L2e;
 }
 if (((v7 | v6) & 255ull) != 0ull) {
  goto L2e;
 }
 if (!(!v4)) {
  goto L280e;
 }
 v38 = 0u;
 v39 = 0u;
 goto L269e;
 L280e:;
 v7 = (v10 + 72ull) >> 3;
 p2 = v8 - v7;
 v13 = v13 + v7;
 v39 = 0u;
 v38 = 0u;
 L281:;
 v5 = p1;
 if (v27) {
  goto L283e;
 }
 v6 = 0ull;
 v7 = 0ull;
 L284:;
 v8 = 8ull - v7;
 v9 = v7 + v14;
 v11 = v9 & 7ull;
 v12 = 8ull - v11;
 v8 = v8 < v12 ? v8 : v12;
 v6 = (v6 << (v8 & 63)) | (u64)(((load8(v13 + (v9 >> 3)) << ((u32)(v11) & 31)) & 255u) >> (((8u - (u32)(v8)) & 255u) & 31));
 v7 = v8 + v7;
 if (v7 < 8ull) {
  goto L284;
 }
 v15 = (u32)(v6);
 goto L282e;
 L283e:;
 v15 = load8(v13);
 L282e:;
 if ((v15 & 255u) > 13u) {
  goto L287e;
 }
 v7 = (u64)(v15) & 255ull;
 v9 = load64((v7 << 3) + DATA(8));
 if ((v5 >> 3) < v9) {
  goto L287e;
 }
 p1 = v5 - (v9 << 3);
 switch ((u32)(v7)) {
 case 0:
  goto L285e;
 case 7:
  goto L293e;
 case 8:
  goto L292e;
 case 9:
  goto L291e;
 case 10:
  goto L290e;
 case 11:
  goto L289e;
 case 12:
  goto L286e;
 default:
  goto L288e;
 }
 L293e:;
 if (v27) {
  goto L285e;
 }
 v7 = 0ull;
 L294:;
 v8 = 8ull - v7;
 v6 = 8ull - ((v7 + v10) & 7ull);
 v7 = (v8 < v6 ? v8 : v6) + v7;
 if (v7 < 8ull) {
  goto L294;
 }
 goto L285e;
 L292e:;
 if (v27) {
  goto L285e;
 }
 v7 = 0ull;
 L295:;
 v8 = 8ull - v7;
 v6 = 8ull - ((v7 + v10) & 7ull);
 v7 = (v8 < v6 ? v8 : v6) + v7;
 if (v7 < 8ull) {
  goto L295;
 }
 goto L285e;
 L291e:;
 if (v27) {
  goto L285e;
 }
 v7 = 0ull;
 L296:;
 v8 = 8ull - v7;
 v6 = 8ull - ((v7 + v10) & 7ull);
 v7 = (v8 < v6 ? v8 : v6) + v7;
 if (v7 < 8ull) {
  goto L296;
 }
 goto L285e;
 L290e:;
 if (v27) {
  goto L285e;
 }
 v7 = 0ull;
 L297:;
 v8 = 8ull - v7;
 v6 = 8ull - ((v7 + v10) & 7ull);
 v7 = (v8 < v6 ? v8 : v6) + v7;
 if (v7 < 8ull) {
  goto L297;
 }
 goto L285e;
 L289e:;
 if (v27) {
  goto L298e;
 }
 v7 = 0ull;
 L299:;
 v8 = 8ull - v7;
 v6 = 8ull - ((v7 + v10) & 7ull);
 v7 = (v8 < v6 ? v8 : v6) + v7;
 if (v7 < 8ull) {
  goto L299;
 }
 L298e:;
 store64(v3 + 112, 0ull);
 store16(v3 + 120, (u16)(0u));
 store64(v3 + 1184, v14);
 store64(v3 + 1176, p2 - 2ull);
 store64(v3 + 1168, v13 + 2ull);
 v7 = v5 - 16ull;
 store64(v3 + 1192, v7 < 80ull ? v7 : 80ull);
 v15 = v38 + 1u;
 v38 = v15 ? v15 : 4294967295u;
 b13 = f6((v3 + 1168ull), (v3 + 112ull));
 goto L285e;
 L288e:;
 v40 = v15 & 255u;
 if (v40 > 3u) {
  goto L300e;
 }
 switch (v40 - 1u) {
 case 0:
  goto L303e;
 case 1:
  goto L302e;
 default:
  goto L301e;
 }
 L303e:;
 if (v27) {
  goto L285e;
 }
 v7 = 0ull;
 L304:;
 v8 = 32ull - v7;
 v6 = 8ull - ((v7 + v10) & 7ull);
 v7 = (v8 < v6 ? v8 : v6) + v7;
 if (v7 < 32ull) {
  goto L304;
 }
 v7 = 0ull;
 L305:;
 v8 = 32ull - v7;
 v6 = 8ull - ((v7 + v10) & 7ull);
 v7 = (v8 < v6 ? v8 : v6) + v7;
 if (v7 < 32ull) {
  goto L305;
 }
 v7 = 0ull;
 L306:;
 v8 = 8ull - v7;
 v6 = 8ull - ((v7 + v10) & 7ull);
 v7 = (v8 < v6 ? v8 : v6) + v7;
 if (v7 < 8ull) {
  goto L306;
 }
 goto L285e;
 L302e:;
 if (v27) {
  goto L285e;
 }
 v7 = 0ull;
 L307:;
 v8 = 32ull - v7;
 v6 = 8ull - ((v7 + v10) & 7ull);
 v7 = (v8 < v6 ? v8 : v6) + v7;
 if (v7 < 32ull) {
  goto L307;
 }
 v7 = 0ull;
 L308:;
 v8 = 32ull - v7;
 v6 = 8ull - ((v7 + v10) & 7ull);
 v7 = (v8 < v6 ? v8 : v6) + v7;
 if (v7 < 32ull) {
  goto L308;
 }
 v7 = 0ull;
 L309:;
 v8 = 8ull - v7;
 v6 = 8ull - ((v7 + v10) & 7ull);
 v7 = (v8 < v6 ? v8 : v6) + v7;
 if (v7 < 8ull) {
  goto L309;
 }
 goto L285e;
 L301e:;
 if (v27) {
  goto L285e;
 }
 v7 = 0ull;
 L310:;
 v8 = 32ull - v7;
 v6 = 8ull - ((v7 + v10) & 7ull);
 v7 = (v8 < v6 ? v8 : v6) + v7;
 if (v7 < 32ull) {
  goto L310;
 }
 v7 = 0ull;
 L311:;
 v8 = 32ull - v7;
 v6 = 8ull - ((v7 + v10) & 7ull);
 v7 = (v8 < v6 ? v8 : v6) + v7;
 if (v7 < 32ull) {
  goto L311;
 }
 goto L285e;
 L300e:;
 if (v40 > 6u) {
  goto L285e;
 }
 switch ((v15 & 255u) - 4u) {
 case 0:
  goto L314e;
 case 1:
  goto L313e;
 default:
  goto L312e;
 }
 L314e:;
 if (v27) {
  goto L285e;
 }
 v7 = 0ull;
 L315:;
 v8 = 8ull - v7;
 v6 = 8ull - ((v7 + v10) & 7ull);
 v7 = (v8 < v6 ? v8 : v6) + v7;
 if (v7 < 8ull) {
  goto L315;
 }
 v7 = 0ull;
 L316:;
 v8 = 16ull - v7;
 v6 = 8ull - ((v7 + v10) & 7ull);
 v7 = (v8 < v6 ? v8 : v6) + v7;
 if (v7 < 16ull) {
  goto L316;
 }
 v7 = 0ull;
 L317:;
 v8 = 32ull - v7;
 v6 = 8ull - ((v7 + v10) & 7ull);
 v7 = (v8 < v6 ? v8 : v6) + v7;
 if (v7 < 32ull) {
  goto L317;
 }
 goto L285e;
 L313e:;
 if (v27) {
  goto L285e;
 }
 v7 = 0ull;
 L318:;
 v8 = 8ull - v7;
 v6 = 8ull - ((v7 + v10) & 7ull);
 v7 = (v8 < v6 ? v8 : v6) + v7;
 if (v7 < 8ull) {
  goto L318;
 }
 v7 = 0ull;
 L319:;
 v8 = 8ull - v7;
 v6 = 8ull - ((v7 + v10) & 7ull);
 v7 = (v8 < v6 ? v8 : v6) + v7;
 if (v7 < 8ull) {
  goto L319;
 }
 v7 = 0ull;
 L320:;
 v8 = 8ull - v7;
 v6 = 8ull - ((v7 + v10) & 7ull);
 v7 = (v8 < v6 ? v8 : v6) + v7;
 if (v7 < 8ull) {
  goto L320;
 }
 goto L285e;
 L312e:;
 if (v27) {
  goto L285e;
 }
 v7 = 0ull;
 L321:;
 v8 = 8ull - v7;
 v6 = 8ull - ((v7 + v10) & 7ull);
 v7 = (v8 < v6 ? v8 : v6) + v7;
 if (v7 < 8ull) {
  goto L321;
 }
 v7 = 0ull;
 L322:;
 v8 = 16ull - v7;
 v6 = 8ull - ((v7 + v10) & 7ull);
 v7 = (v8 < v6 ? v8 : v6) + v7;
 if (v7 < 16ull) {
  goto L322;
 }
 v7 = 0ull;
 L323:;
 v8 = 32ull - v7;
 v6 = 8ull - ((v7 + v10) & 7ull);
 v7 = (v8 < v6 ? v8 : v6) + v7;
 if (v7 < 32ull) {
  goto L323;
 }
 goto L285e;
 L287e:;
 store64(v3 + 1192, v5);
 store64(v3 + 1184, v14);
 store64(v3 + 1176, p2);
 store64(v3 + 1168, v13);
 f5((v3 + 128ull), (v3 + 1168ull));
 goto L269e;
 L286e:;
 v15 = v39 + 1u;
 v39 = v15 ? v15 : 4294967295u;
 L285e:;
 p2 = p2 - v9;
 v13 = v13 + v9;
 if (p1 != 0ull) {
  goto L281;
 }
 L269e:;
 v40 = 9u;
 if (v18 >= 32ull) {
  goto L324e;
 }
 v15 = 0u;
 goto L5e;
 L324e:;
 v15 = 0u;
 v22 = 0u;
 goto L1e;
 L10e:;
 UNREACHABLE;
 L9e:;
 v21 = 0u;
 v40 = 11u;
 if (v18 >= 32ull) {
  goto L4e;
 }
 L8e:;
 v15 = 0u;
 goto L6e;
 L7e:;
 v21 = (v15 & 255u) + 1u;
 v38 = 0u;
 v40 = 10u;
 if (v39) {
  goto L325e;
 }
 v15 = 0u;
 v22 = 0u;
 v39 = 0u;
 goto L1e;
 L325e:;
 v22 = (u32)(v9 >> 32);
 v15 = (u32)(v9);
 v39 = 0u;
 goto L1e;
 L6e:;
 v22 = 0u;
 v38 = 0u;
 v39 = 0u;
 L5e:;
 v20 = 0u;
 v19 = 0u;
 v17 = 0u;
 goto L1e;
 L4e:;
 v21 = 0u;
 L3e:;
 v15 = 0u;
 L2e:;
 v22 = 0u;
 v38 = 0u;
 v39 = 0u;
 L1e:;
 store8(p0 + 27, (u8)(0u));
 store8(p0 + 26, (u8)(v17));
 store8(p0 + 25, (u8)(v19));
 store8(p0 + 24, (u8)(v20));
 store32(p0 + 20, v39);
 store32(p0 + 16, v38);
 store32(p0 + 12, v22);
 store32(p0 + 8, v15);
 store32(p0 + 4, v21);
 store32(p0, v40);
 return;
}

static void f28(u64 p0, u32 p1)
{
 u64 v2 = 0, v3 = 0, v4 = 0, v5 = 0, v6 = 0, v7 = 0, v8 = 0;
 FRAME_OF(2);
 v2 = frame;
 if (!p1) {
  goto L1e;
 }
 v3 = p0 + 2ull;
 if (load8(v3) != 1u) {
  goto L2e;
 }
 store8(p0, (u8)(0u));
 store8(v3, (u8)(0u));
 v4 = 0ull;
 v5 = load64(p0 + 24ull);
 if (!(!v5)) {
  goto L4e;
 }
 v6 = v2 + 12ull;
 v7 = v6;
 v3 = 0ull;
 goto L3e;
 L4e:;
 v7 = load64(p0 + 8ull);
 v3 = load64(p0 + 32ull);
 v6 = v7 + (v3 << 4);
 v8 = v2 + 12ull;
 v3 = load64(p0 + 16ull) - v3;
 if (v5 > v3) {
  goto L5e;
 }
 v7 = v8;
 v3 = v5;
 goto L3e;
 L5e:;
 v4 = v5 - v3;
 L3e:;
 L7:;
 if (!v3) {
  goto L9e;
 }
 v3 = v3 - 1ull;
 v8 = v6;
 v6 = v6 + 16ull;
 goto L8e;
 L9e:;
 if (!v4) {
  goto L6e;
 }
 v4 = v4 - 1ull;
 v3 = 0ull;
 v8 = v7;
 v7 = v7 + 16ull;
 L8e:;
 if (load8(v8) != 13u) {
  goto L7;
 }
 goto L2e;
 L6e:;
 v3 = load64(p0 + 16ull);
 if (v3 <= v5) {
  goto L2e;
 }
 v8 = load64(p0 + 32ull) + v5;
 v3 = load64(p0 + 8ull) + ((v8 - (v8 < v3 ? 0ull : v3)) << 4);
 store8(v3, (u8)(13u));
 store64(v3 + 1ull, 0ull);
 store32(v3 + 9ull, 0u);
 v3 = p0 + 24ull;
 store64(v3, load64(v3) + 1ull);
 L2e:;
 if (load8(p0 + 1ull) != 1u) {
  goto L1e;
 }
 store16(p0, (u16)(0u));
 store8(p0 + 3ull, (u8)(1u));
 v4 = 0ull;
 v5 = load64(p0 + 24ull);
 if (!(!v5)) {
  goto L11e;
 }
 v6 = v2 + 12ull;
 v7 = v6;
 v3 = 0ull;
 goto L10e;
 L11e:;
 v7 = load64(p0 + 8ull);
 v3 = load64(p0 + 32ull);
 v6 = v7 + (v3 << 4);
 v8 = v2 + 12ull;
 v3 = load64(p0 + 16ull) - v3;
 if (v5 > v3) {
  goto L12e;
 }
 v7 = v8;
 v3 = v5;
 goto L10e;
 L12e:;
 v4 = v5 - v3;
 L10e:;
 L14:;
 if (!v3) {
  goto L16e;
 }
 v3 = v3 - 1ull;
 v8 = v6;
 v6 = v6 + 16ull;
 goto L15e;
 L16e:;
 if (!v4) {
  goto L13e;
 }
 v4 = v4 - 1ull;
 v3 = 0ull;
 v8 = v7;
 v7 = v7 + 16ull;
 L15e:;
 if (load8(v8) != 12u) {
  goto L14;
 }
 goto L1e;
 L13e:;
 v3 = load64(p0 + 16ull);
 if (v3 <= v5) {
  goto L1e;
 }
 v8 = load64(p0 + 32ull) + v5;
 v3 = load64(p0 + 8ull) + ((v8 - (v8 < v3 ? 0ull : v3)) << 4);
 store8(v3, (u8)(12u));
 store64(v3 + 1ull, 0ull);
 store32(v3 + 9ull, 0u);
 v3 = p0 + 24ull;
 store64(v3, load64(v3) + 1ull);
 L1e:;
 return;
}

static void f29(u64 p0, u64 p1)
{
 u32 v3 = 0, v4 = 0, v7 = 0, v8 = 0;
 u64 v2 = 0, v5 = 0, v6 = 0, v9 = 0;
 FRAME_OF(2);
 (void)v2;
 v2 = frame;
 v3 = load8(p0);
 v4 = load8(p1);
 if ((v4 & 254u) == 12u) {
  goto L4e;
 }
 if ((v3 & 1u) != 0) {
  goto L2e;
 }
 if (load8(p0 + 1ull) != 0) {
  goto L3e;
 }
 if (load8(p0 + 2ull) != 0) {
  goto L3e;
 }
 if (load8(p0 + 3ull) != 0) {
  goto L3e;
 }
 v5 = load64(p0 + 24ull);
 if (v5 < 512ull) {
  goto L5e;
 }
 f8((p0 + 8ull));
 store8(p0, (u8)(1u));
 goto L2e;
 L5e:;
 v6 = load64(p0 + 16ull);
 if (v6 <= v5) {
  goto L3e;
 }
 v3 = load8(p1 + 12ull);
 v7 = load8(p1 + 1ull);
 p1 = p1 + 2ull;
 v8 = load16(p1 + 8);
 v9 = load64(p1);
 p1 = load64(p0 + 32ull) + v5;
 p1 = load64(p0 + 8ull) + ((p1 - (p1 < v6 ? 0ull : v6)) << 4);
 store8(p1, (u8)(v4));
 store8(p1 + 1ull, (u8)(v7));
 store64(p1 + 2ull, v9);
 store16(p1 + 10ull, (u16)(v8));
 store8(p1 + 12ull, (u8)(v3));
 p1 = p0 + 24ull;
 store64(p1, load64(p1) + 1ull);
 if (load8(p0) == 0) {
  goto L3e;
 }
 goto L2e;
 L4e:;
 if ((v3 & 1u) != 0) {
  goto L2e;
 }
 L3e:;
 if (load8(p0 + 1ull) != 0) {
  goto L2e;
 }
 if (load8(p0 + 2ull) != 0) {
  goto L2e;
 }
 if (load8(p0 + 3ull) != 1u) {
  goto L1e;
 }
 L2e:;
 p1 = p0 + 56ull;
 v5 = load64(p1);
 if (!v5) {
  goto L6e;
 }
 store64(p1, 0ull);
 v6 = load64(p0 + 64ull);
 store64(p1 + 8, 0ull);
 v9 = load64(p0 + 48ull);
 p1 = v9;
 L7:;
 if (load8(p1) == 0) {
  goto L8e;
 }
 if (load8(p1 + 32ull) == 0) {
  goto L8e;
 }
 if (load64(p1 + 56ull) == 0) {
  goto L8e;
 }
 import_rattle_dealloc(load64(p1 + 40ull));
 L8e:;
 p1 = p1 + 96ull;
 v5 = v5 - 1ull;
 if (v5 != 0ull) {
  goto L7;
 }
 store64(p0 + 64ull, v6);
 store64(p0 + 56ull, 0ull);
 store64(p0 + 48ull, v9);
 L6e:;
 fill((p0 + 72ull), 0u, 2320ull);
 store8(p0 + 2416ull, (u8)(0u));
 store64(p0 + 2408ull, 0ull);
 store64(p0 + 2400ull, 0ull);
 L1e:;
 return;
}

static void f30(u64 p0, u64 p1)
{
 u32 v4 = 0, v6 = 0;
 u64 v2 = 0, v3 = 0, v5 = 0, v7 = 0;
 FRAME_OF(4);
 v2 = frame;
 if (p1 >= load64(p0 + 8ull)) {
  goto L1e;
 }
 v3 = load64(p0) + (p1 * 96ull);
 if (load8(v3) != 1u) {
  goto L1e;
 }
 v4 = load8(v3 + 22ull);
 v5 = (u64)(v4) & 255ull;
 v6 = load32(v3 + 8ull);
 if ((v6 & 1u) == 0) {
  goto L2e;
 }
 if ((load32(v3 + 12ull) & 1u) != 0) {
  goto L2e;
 }
 if (load8(v3 + 17ull) != 1u) {
  goto L2e;
 }
 v7 = (p0 + 40ull) + (v5 << 4);
 store64(v7, 1ull);
 store64(v7 + 8ull, p1);
 v6 = load32(v3 + 8ull);
 L2e:;
 if ((v6 & 1u) != 0) {
  goto L3e;
 }
 if ((load32(v3 + 12ull) & 1u) == 0) {
  goto L3e;
 }
 if (load8(v3 + 16ull) != 1u) {
  goto L3e;
 }
 if (load8(v3 + 22ull) != (v4 & 255u)) {
  goto L3e;
 }
 v5 = (p0 + 1192ull) + (v5 << 4);
 store64(v5, 1ull);
 store64(v5 + 8ull, p1);
 L3e:;
 if (load8(v3) != 1u) {
  goto L1e;
 }
 if ((load8(v3 + 8ull) & 1u) == 0) {
  goto L4e;
 }
 if ((load32(v3 + 12ull) & 1u) != 0) {
  goto L4e;
 }
 if (load8(v3 + 17ull) != 1u) {
  goto L4e;
 }
 v6 = load8(v3 + 22ull);
 if (load8(v3 + 16ull) != 1u) {
  goto L5e;
 }
 if (load8(v3 + 19ull) != 0) {
  goto L5e;
 }
 if (load8(v3 + 20ull) != 0) {
  goto L5e;
 }
 if (load8(v3 + 88ull) != 0) {
  goto L5e;
 }
 p1 = 0ull;
 if (load8(v3 + 32ull) != 1u) {
  goto L6e;
 }
 p1 = load64(v3 + 72ull);
 L6e:;
 v4 = load8(v3 + 23ull);
 if (!v4) {
  goto L5e;
 }
 v5 = (u64)(7928u / v4);
 v7 = (u64)(load32(v3 + 28ull) / v4);
 v5 = v5 < v7 ? v5 : v7;
 p1 = p1 / (u64)(v4);
 if ((v5 < p1 ? v5 : p1) == 0) {
  goto L5e;
 }
 if (load16(v3 + 24ull) == 0) {
  goto L5e;
 }
 f77((v2 + 16ull), 1ull, 0ull, (v6 & 255u));
 v3 = p0 + 2352ull;
 store64(v3, load64(v3) | load64(v2 + 16));
 v3 = p0 + 2360ull;
 store64(v3, load64(v3) | load64(v2 + 24));
 goto L4e;
 L5e:;
 f77(v2, 1ull, 0ull, (v6 & 255u));
 v3 = p0 + 2352ull;
 store64(v3, load64(v3) & (load64(v2) ^ 0xffffffffffffffffull));
 v3 = p0 + 2360ull;
 store64(v3, load64(v3) & (load64(v2 + 8) ^ 0xffffffffffffffffull));
 L4e:;
 return;
 L1e:;
 UNREACHABLE;
}

static void f31(u64 p0, u64 p1)
{
 u32 v4 = 0, v6 = 0, v9 = 0, v11 = 0, v12 = 0;
 u64 v2 = 0, v3 = 0, v5 = 0, v7 = 0, v8 = 0, v10 = 0;
 FRAME_OF(4);
 v2 = frame;
 if (p1 >= load64(p0 + 8ull)) {
  goto L1e;
 }
 v3 = load64(p0) + (p1 * 96ull);
 if (load8(v3) != 1u) {
  goto L1e;
 }
 if ((load8(v3 + 8ull) & 1u) == 0) {
  goto L2e;
 }
 if ((load32(v3 + 12ull) & 1u) != 0) {
  goto L2e;
 }
 if (load8(v3 + 17ull) != 1u) {
  goto L2e;
 }
 v4 = load8(v3 + 22ull);
 if (load8(v3 + 16ull) != 1u) {
  goto L3e;
 }
 if (load8(v3 + 19ull) != 0) {
  goto L3e;
 }
 if (load8(v3 + 20ull) != 0) {
  goto L3e;
 }
 if (load8(v3 + 88ull) != 0) {
  goto L3e;
 }
 v5 = 0ull;
 if (load8(v3 + 32ull) != 1u) {
  goto L4e;
 }
 v5 = load64(v3 + 72ull);
 L4e:;
 v6 = load8(v3 + 23ull);
 if (!v6) {
  goto L3e;
 }
 v7 = (u64)(7928u / v6);
 v8 = (u64)(load32(v3 + 28ull) / v6);
 v7 = v7 < v8 ? v7 : v8;
 v5 = v5 / (u64)(v6);
 if ((v7 < v5 ? v7 : v5) == 0) {
  goto L3e;
 }
 if (load16(v3 + 24ull) == 0) {
  goto L3e;
 }
 f77((v2 + 16ull), 1ull, 0ull, (v4 & 255u));
 v5 = p0 + 2352ull;
 store64(v5, load64(v5) | load64(v2 + 16));
 v5 = p0 + 2360ull;
 store64(v5, load64(v5) | load64(v2 + 24));
 goto L2e;
 L3e:;
 f77(v2, 1ull, 0ull, (v4 & 255u));
 v5 = p0 + 2352ull;
 store64(v5, load64(v5) & (load64(v2) ^ 0xffffffffffffffffull));
 v5 = p0 + 2360ull;
 store64(v5, load64(v5) & (load64(v2 + 8) ^ 0xffffffffffffffffull));
 L2e:;
 if (load8(v3) != 1u) {
  goto L1e;
 }
 if (load8(v3 + 20ull) != 1u) {
  goto L5e;
 }
 if (load8(v3 + 21ull) != 1u) {
  goto L5e;
 }
 v4 = load32(v3 + 12ull);
 v5 = v3 + 8ull;
 v6 = load32(v5);
 v7 = p0 + 32ull;
 store64(v5, load64(v7));
 store64(v3, 0ull);
 v5 = load64(v3 + 56ull);
 v8 = load64(v3 + 40ull);
 v9 = load8(v3 + 32ull);
 v10 = (u64)load8(v3 + 22ull);
 v11 = load8(v3 + 17ull);
 v3 = v3 + 16ull;
 v12 = load8(v3);
 fill(v3, 0u, 80ull);
 store64(v7, p1);
 v3 = p0 + 24ull;
 store64(v3, load64(v3) - 1ull);
 if ((v6 & 1u) == 0) {
  goto L7e;
 }
 if ((v4 & 1u) != 0) {
  goto L6e;
 }
 if ((v11 & 1u) == 0) {
  goto L6e;
 }
 v3 = (p0 + 40ull) + (v10 << 4);
 store64(v3 + 8, 0ull);
 store64(v3, 0ull);
 goto L6e;
 L7e:;
 if ((v4 & 1u) == 0) {
  goto L6e;
 }
 if ((v12 & 1u) == 0) {
  goto L6e;
 }
 v3 = (p0 + 1192ull) + (v10 << 4);
 store64(v3 + 8, 0ull);
 store64(v3, 0ull);
 L6e:;
 if ((v9 & 255u) != 1u) {
  goto L5e;
 }
 if (!v5) {
  goto L5e;
 }
 import_rattle_dealloc(v8);
 L5e:;
 return;
 L1e:;
 UNREACHABLE;
}

static u32 f32(u64 p0, u64 p1, u64 p2)
{
 u32 v4 = 0;
 u64 v3 = 0, v5 = 0, v6 = 0, v7 = 0, v8 = 0, v9 = 0, v10 = 0;
 FRAME_OF(6);
 v3 = frame;
 v4 = 1u;
 v5 = load64(p0 + 1032ull);
 v6 = 8192ull - v5;
 if (v6 < p2) {
  goto L2e;
 }
 store64(v3 + 32, 0ull);
 store64(v3 + 24, 1024ull);
 store64(v3 + 16, DATA(120));
 v7 = p2 < 64ull ? p2 : 64ull;
 v8 = p2 - v7;
 store64(v3 + 40, v8);
 if (v6 < v8) {
  goto L1e;
 }
 v6 = v5 + v8;
 v8 = (v6 >> 3) + (u64)((u32)(((v6 & 7ull) != 0ull)));
 v9 = load64(p0 + 1024ull);
 if (v8 > v9) {
  goto L4e;
 }
 v10 = v5;
 v8 = v9;
 goto L3e;
 L4e:;
 v10 = v8 - v9;
 if ((1024ull - v9) < v10) {
  goto L1e;
 }
 if (!v10) {
  goto L5e;
 }
 fill((p0 + v9), 0u, v10);
 L5e:;
 store64(p0 + 1024ull, v8);
 v10 = load64(p0 + 1032ull);
 L3e:;
 f10(p0, v8, v10, (v3 + 16ull));
 store64(p0 + 1032ull, v6);
 store64(v3 + 8, p1 << 56);
 store64(v3 + 40, v7);
 v8 = 64ull - v7;
 store64(v3 + 32, v8 & 7ull);
 v8 = v8 >> 3;
 store64(v3 + 24, 8ull - v8);
 store64(v3 + 16, (v3 + 8ull) + v8);
 v4 = 1u;
 if ((8192ull - v6) < v7) {
  goto L2e;
 }
 v5 = v5 + p2;
 p2 = (v5 >> 3) + (u64)((u32)(((v5 & 7ull) != 0ull)));
 v7 = load64(p0 + 1024ull);
 if (p2 > v7) {
  goto L7e;
 }
 p2 = v7;
 goto L6e;
 L7e:;
 v6 = p2 - v7;
 if ((1024ull - v7) < v6) {
  goto L1e;
 }
 if (!v6) {
  goto L8e;
 }
 fill((p0 + v7), 0u, v6);
 L8e:;
 store64(p0 + 1024ull, p2);
 v6 = load64(p0 + 1032ull);
 L6e:;
 f10(p0, p2, v6, (v3 + 16ull));
 store64(p0 + 1032ull, v5);
 v4 = 0u;
 L2e:;
 return v4;
 L1e:;
 UNREACHABLE;
 UNREACHABLE;
 return 0;
}

static u32 f33(u64 p0, u32 p1, u32 p2)
{
 u32 v5 = 0, v13 = 0, v14 = 0, a0 = 0;
 u64 v3 = 0, v4 = 0, v6 = 0, v7 = 0, v8 = 0, v9 = 0, v10 = 0, v11 = 0, v12 = 0, v15 = 0, v16 = 0;
 FRAME_OF(92);
 v3 = frame;
 v4 = load64(p0 + 2464ull);
 v5 = p2 & 255u;
 v6 = v4 + ((u64)(v5 - (u32)((v5 != 0u))) * 1048ull);
 if (load8(v6) == 0) {
  goto L2e;
 }
 f77((v3 + 16ull), 1ull, 0ull, v5);
 v7 = p0 + 2512ull;
 store64(v7, load64(v7) & (load64(v3 + 16) ^ 0xffffffffffffffffull));
 p0 = p0 + 2520ull;
 store64(p0, load64(p0) & (load64(v3 + 24) ^ 0xffffffffffffffffull));
 v5 = load8(v6);
 a0 = v5;
 v5 = (u32)((v5 == 1u));
 store8(v6, (u8)(v5 ? 2u : a0));
 goto L1e;
 L2e:;
 if (v5) {
  goto L9e;
 }
 fill((v3 + 160ull), 0u, 128ull);
 fill((v3 + 32ull), 0u, 128ull);
 fill((v3 + 288ull), 0u, 128ull);
 store32(v3 + 604, 0u);
 v8 = 0ull;
 store64(v3 + 544, 0ull);
 store64(v3 + 552, 0ull);
 store64(v3 + 560, 0ull);
 fill((v3 + 608ull), 0u, 128ull);
 v6 = load64(p0 + 24ull);
 if (!v6) {
  goto L10e;
 }
 v7 = v6 - 1ull;
 v9 = load64(p0 + 32ull);
 v10 = load64(p0 + 8ull);
 v11 = load64(p0 + 16ull);
 v12 = (v3 + 592ull) | 2ull;
 L11:;
 if (v7 == 0xffffffffffffffffull) {
  goto L8e;
 }
 v6 = v10 + ((v9 - (v9 < v11 ? 0ull : v11)) << 4);
 store64(v12, load64(v6 + 2ull));
 store16(v12 + 8, (u16)(load16(v6 + 10ull)));
 store16(v3 + 592, (u16)(load16(v6)));
 store8(v3 + 604, (u8)(load8(v6 + 12ull)));
 f7((v3 + 544ull), (v3 + 592ull));
 v6 = load64(v3 + 560);
 store64(v3 + 584, v6);
 store64(v3 + 576, load64(v3 + 552));
 store64(v3 + 568, load64(v3 + 544));
 if ((120ull - v8) >= v6) {
  goto L12e;
 }
 move((v3 + 416ull), (v3 + 608ull), 128ull);
 goto L4e;
 L12e:;
 if (!v6) {
  goto L13e;
 }
 move(((v3 + 608ull) + v8), (v3 + 568ull), v6);
 L13e:;
 store64(p0 + 24ull, v7);
 v9 = v9 + 1ull;
 v9 = v9 - (v9 < v11 ? 0ull : v11);
 store64(p0 + 32ull, v9);
 v8 = v6 + v8;
 store64(v3 + 728, v8);
 v7 = v7 - 1ull;
 if (v7 != 0xffffffffffffffffull) {
  goto L11;
 }
 L10e:;
 move((v3 + 416ull), (v3 + 608ull), 128ull);
 goto L4e;
 L9e:;
 v5 = 0u;
 if ((p2 & 255u) > 71u) {
  goto L1e;
 }
 v6 = p0 + (((u64)(p2) & 255ull) << 4);
 v7 = v6 + 88ull;
 if (load8(v7) != 1u) {
  goto L1e;
 }
 v6 = load64(v6 + 96ull);
 if (v6 >= load64(p0 + 56ull)) {
  goto L3e;
 }
 v9 = p0 + 48ull;
 v6 = load64(v9) + (v6 * 96ull);
 if (load8(v6) != 1u) {
  goto L3e;
 }
 if ((load8(v6 + 8ull) & 1u) == 0) {
  goto L1e;
 }
 if ((load32(v6 + 12ull) & 1u) != 0) {
  goto L1e;
 }
 if (load8(v6 + 16ull) != 1u) {
  goto L1e;
 }
 if (load8(v6 + 17ull) != 1u) {
  goto L1e;
 }
 if (load8(v6 + 19ull) != 0) {
  goto L1e;
 }
 if (load8(v6 + 20ull) != 0) {
  goto L1e;
 }
 if (load8(v6 + 88ull) != 0) {
  goto L1e;
 }
 v11 = 0ull;
 v13 = load8(v6 + 32ull);
 if (v13 != 1u) {
  goto L14e;
 }
 v11 = load64(v6 + 72ull);
 L14e:;
 v14 = load8(v6 + 23ull);
 if (!v14) {
  goto L1e;
 }
 v8 = (u64)(7928u / v14);
 v12 = (u64)(load32(v6 + 28ull) / v14);
 v8 = v8 < v12 ? v8 : v12;
 v12 = (u64)(v14);
 v11 = v11 / v12;
 if ((v8 < v11 ? v8 : v11) == 0) {
  goto L1e;
 }
 if (load16(v6 + 24ull) == 0) {
  goto L1e;
 }
 v11 = 0ull;
 if (v13 != 1u) {
  goto L15e;
 }
 v11 = load64(v6 + 72ull);
 L15e:;
 v6 = v4 + (((u64)(p2 - 1u) & 255ull) * 1048ull);
 store8(v6, (u8)(2u));
 v11 = v11 / v12;
 v11 = v8 < v11 ? v8 : v11;
 v5 = (u32)(v11);
 v13 = (u32)(v11 >> 8);
 v11 = v6 + 8ull;
 v8 = load64(v6 + 1032ull);
 if (v8 > 8ull) {
  goto L16e;
 }
 v4 = 9ull - v8;
 if (!v4) {
  goto L17e;
 }
 fill((v11 + v8), 0u, v4);
 L17e:;
 store64(v6 + 1032ull, 9ull);
 L16e:;
 store64(v6 + 1040ull, 72ull);
 store8(v6 + 16ull, (u8)(0u));
 store8(v6 + 15ull, (u8)(v5));
 store8(v6 + 14ull, (u8)(v13));
 store8(v6 + 13ull, (u8)(v14));
 store16(v6 + 11ull, (u16)(0u));
 store8(v6 + 10ull, (u8)(p2));
 store8(v6 + 9ull, (u8)(p1));
 store8(v11, (u8)(0u));
 v5 = 1u;
 if (load8(v7) != 1u) {
  goto L5e;
 }
 v8 = load64(v7 + 8ull);
 v7 = load64(v9) + (v8 * 96ull);
 if (load8(v7) != 1u) {
  goto L3e;
 }
 if ((load8(v7 + 8ull) & 1u) == 0) {
  goto L6e;
 }
 if ((load32(v7 + 12ull) & 1u) != 0) {
  goto L6e;
 }
 if (load8(v7 + 16ull) != 1u) {
  goto L6e;
 }
 if (load8(v7 + 17ull) != 1u) {
  goto L6e;
 }
 if (load8(v7 + 19ull) != 0) {
  goto L6e;
 }
 if (load8(v7 + 20ull) != 0) {
  goto L6e;
 }
 if (load8(v7 + 88ull) != 0) {
  goto L6e;
 }
 v4 = 0ull;
 v14 = load8(v7 + 32ull);
 if (v14 != 1u) {
  goto L18e;
 }
 v4 = load64(v7 + 72ull);
 L18e:;
 p1 = load8(v7 + 23ull);
 if (!p1) {
  goto L6e;
 }
 v12 = (u64)(7928u / p1);
 v13 = load32(v7 + 28ull);
 v10 = (u64)(v13 / p1);
 v12 = v12 < v10 ? v12 : v10;
 v10 = (u64)(p1);
 v4 = v4 / v10;
 if ((v12 < v4 ? v12 : v4) == 0) {
  goto L6e;
 }
 p1 = load16(v7 + 24ull);
 if (!p1) {
  goto L6e;
 }
 if (v14 != 1u) {
  goto L7e;
 }
 store8(v7 + 88ull, (u8)(1u));
 store16(v7 + 24ull, (u16)(p1 - 1u));
 v4 = load64(v7 + 72ull) / v10;
 v4 = (v12 < v4 ? v12 : v4) * v10;
 store32(v7 + 28ull, v13 - (u32)(v4));
 v10 = load64(v7 + 40ull);
 v15 = load64(v7 + 48ull);
 v12 = load64(v7 + 64ull);
 store64(v3 + 632, v4);
 store64(v3 + 624, v12 & 7ull);
 v12 = v12 >> 3;
 store64(v3 + 616, v15 - v12);
 store64(v3 + 608, v10 + v12);
 v12 = load64(v6 + 1040ull);
 if ((8192ull - v12) < v4) {
  goto L3e;
 }
 v15 = v12 + v4;
 v10 = (v15 >> 3) + (u64)((u32)(((v15 & 7ull) != 0ull)));
 v16 = load64(v6 + 1032ull);
 if (v10 > v16) {
  goto L20e;
 }
 v10 = v16;
 goto L19e;
 L20e:;
 v12 = v10 - v16;
 if ((1024ull - v16) < v12) {
  goto L3e;
 }
 if (!v12) {
  goto L21e;
 }
 fill((v11 + v16), 0u, v12);
 L21e:;
 store64(v6 + 1032ull, v10);
 v12 = load64(v6 + 1040ull);
 L19e:;
 f10(v11, v10, v12, (v3 + 608ull));
 store64(v6 + 1040ull, v15);
 v6 = v7 + 64ull;
 store64(v6, load64(v6) + v4);
 v6 = v7 + 72ull;
 store64(v6, load64(v6) - v4);
 goto L6e;
 L8e:;
 move((v3 + 416ull), (v3 + 608ull), 128ull);
 goto L4e;
 L7e:;
 store8(v7 + 88ull, (u8)(1u));
 store16(v7 + 24ull, (u16)(p1 - 1u));
 L6e:;
 f25(v9, v8);
 L5e:;
 f77(v3, 1ull, 0ull, (p2 & 255u));
 v6 = p0 + 2496ull;
 store64(v6, load64(v6) | load64(v3));
 p0 = p0 + 2504ull;
 store64(p0, load64(p0) | load64(v3 + 8));
 goto L1e;
 L4e:;
 move((v3 + 288ull), (v3 + 416ull), 128ull);
 move((v3 + 32ull), (v3 + 288ull), 128ull);
 move((v3 + 160ull), (v3 + 32ull), 128ull);
 v6 = load64(v3 + 280);
 if (!v6) {
  goto L22e;
 }
 store8(v4, (u8)(2u));
 v9 = v4 + 8ull;
 v5 = (u32)(v6 >> 8);
 p2 = (u32)(v6);
 v7 = load64(v4 + 1032ull);
 if (v7 <= 8ull) {
  goto L24e;
 }
 v11 = v7;
 goto L23e;
 L24e:;
 v11 = 9ull;
 v8 = 9ull - v7;
 if (!v8) {
  goto L25e;
 }
 fill((v9 + v7), 0u, v8);
 L25e:;
 store64(v4 + 1032ull, 9ull);
 L23e:;
 store64(v4 + 1040ull, 72ull);
 store8(v4 + 16ull, (u8)(0u));
 store8(v4 + 15ull, (u8)(p2));
 store8(v4 + 14ull, (u8)(v5));
 store32(v4 + 10ull, 134217728u);
 store8(v4 + 9ull, (u8)(p1));
 store8(v9, (u8)(0u));
 v7 = v6 << 3;
 if (v7 > 8192ull) {
  goto L3e;
 }
 v8 = v6 & 0x1fffffffffffffffull;
 if (1) {
  goto L26e;
 }
 if (load8((v3 + 160ull) + v8) != 0) {
  goto L3e;
 }
 L26e:;
 store64(v3 + 624, 0ull);
 store64(v3 + 616, v8);
 store64(v3 + 632, v7);
 store64(v3 + 608, v3 + 160ull);
 if (v7 > 8120ull) {
  goto L3e;
 }
 v8 = 72ull;
 v12 = v7 + 72ull;
 v7 = v12 >> 3;
 if (v7 > v11) {
  goto L28e;
 }
 v7 = v11;
 goto L27e;
 L28e:;
 v8 = v7 - v11;
 if (!v8) {
  goto L29e;
 }
 fill((v9 + v11), 0u, v8);
 L29e:;
 store64(v4 + 1032ull, v7);
 v8 = load64(v4 + 1040ull);
 L27e:;
 f10(v9, v7, v8, (v3 + 608ull));
 store64(v4 + 1040ull, v12);
 p0 = p0 + 2496ull;
 store64(p0, load64(p0) | 1ull);
 L22e:;
 v5 = (u32)((v6 != 0ull));
 goto L1e;
 L3e:;
 UNREACHABLE;
 L1e:;
 return v5;
}

static void module_ncp_embed_free(u64 p0)
{
 u64 v1 = 0, v2 = 0;
 FRAME_OF(8);
 v1 = frame;
 v2 = load64(p0);
 store64(p0, 0ull);
 if (!v2) {
  goto L1e;
 }
 store64(v1 + 56, load64(v2 + 56));
 store64(v1 + 48, load64(v2 + 48));
 store64(v1 + 40, load64(v2 + 40));
 store64(v1 + 32, load64(v2 + 32));
 store64(v1 + 24, load64(v2 + 24));
 store64(v1 + 16, load64(v2 + 16));
 store64(v1 + 8, load64(v2 + 8));
 store64(v1, load64(v2));
 import_rattle_dealloc(v2);
 f3((v1 + 24ull));
 L1e:;
 return;
}

static void module_ncp_embed_subnet_free(u64 p0)
{
 u64 v1 = 0, v2 = 0, v3 = 0;
 v1 = load64(p0);
 store64(p0, 0ull);
 if (!v1) {
  goto L1e;
 }
 v2 = load64(v1 + 16);
 v3 = load64(v1);
 p0 = load64(v1 + 8);
 import_rattle_dealloc(v1);
 if (!p0) {
  goto L2e;
 }
 v1 = v3 + 24ull;
 L3:;
 if (load64(v1) == 0) {
  goto L4e;
 }
 import_rattle_dealloc(load64(v1 - 16ull));
 L4e:;
 v1 = v1 + 32ull;
 p0 = p0 - 1ull;
 if (p0 != 0ull) {
  goto L3;
 }
 L2e:;
 if (!v2) {
  goto L1e;
 }
 import_rattle_dealloc(v3);
 L1e:;
 return;
}

static u32 module_ncp_embed_load(HEAP_IS u64 p0, u64 p1, u64 p2)
{
 u32 v4 = 0, v5 = 0, v7 = 0, v8 = 0, v10 = 0, v23 = 0, v24 = 0, v26 = 0, v27 = 0, v28 = 0, v29 = 0, v31 = 0, v33 = 0, v35 = 0, v36 = 0, v37 = 0;
 u32 v38 = 0, v40 = 0, v41 = 0, v42 = 0, v43 = 0, v44 = 0, v45 = 0, v46 = 0, v47 = 0, v48 = 0, v49 = 0, v50 = 0, v51 = 0, v52 = 0, v53 = 0, v54 = 0;
 u32 v55 = 0, v61 = 0, v62 = 0, a3 = 0, a4 = 0, a5 = 0, a6 = 0;
 u64 v3 = 0, v6 = 0, v9 = 0, v11 = 0, v12 = 0, v13 = 0, v14 = 0, v15 = 0, v16 = 0, v17 = 0, v18 = 0, v19 = 0, v20 = 0, v21 = 0, v22 = 0, v25 = 0;
 u64 v30 = 0, v32 = 0, v34 = 0, v39 = 0, v56 = 0, v57 = 0, v58 = 0, v59 = 0, v60 = 0, v63 = 0, v64 = 0, v65 = 0, v66 = 0, v67 = 0, v68 = 0, v69 = 0;
 u64 b0 = 0, b1 = 0, b2 = 0;
 FRAME_OF(1556);
 (void)b0;
 (void)b1;
 v3 = frame;
 store64(v3 + 192, 0ull);
 store64(v3 + 184, 0ull);
 store64(v3 + 176, 0ull);
 store64(v3 + 168, 0ull);
 store64(v3 + 160, 0ull);
 store64(v3 + 152, 0ull);
 store64(v3 + 144, 0ull);
 store64(v3 + 248, 0ull);
 store64(v3 + 240, 0ull);
 store64(v3 + 232, 0ull);
 store64(v3 + 224, 0ull);
 store64(v3 + 216, 0ull);
 store64(v3 + 208, 0ull);
 store64(v3 + 200, 0ull);
 v4 = 0u;
 if (p2 < 8ull) {
  goto L3e;
 }
 if (p2 == 8ull) {
  goto L3e;
 }
 p1 = p1 + (!p1 ? 4096ull : 0ull);
 if ((load8(p1) & 255u) != 78u) {
  goto L3e;
 }
 if ((load8(p1 + 1ull) & 255u) != 67u) {
  goto L3e;
 }
 if ((load8(p1 + 2ull) & 255u) != 80u) {
  goto L3e;
 }
 if ((load8(p1 + 3ull) & 255u) != 32u) {
  goto L3e;
 }
 if ((load8(p1 + 4ull) & 255u) != 104u) {
  goto L3e;
 }
 if ((load8(p1 + 5ull) & 255u) != 111u) {
  goto L3e;
 }
 if ((load8(p1 + 6ull) & 255u) != 115u) {
  goto L3e;
 }
 if ((load8(p1 + 7ull) & 255u) != 116u) {
  goto L3e;
 }
 v4 = 1u;
 if (load8(p1 + 8ull) != 1u) {
  goto L3e;
 }
 store64(v3 + 336, 0ull);
 store64(v3 + 344, 0ull);
 store64(v3 + 352, 0ull);
 store64(v3 + 360, 0ull);
 store64(v3 + 368, 0ull);
 store64(v3 + 376, 0ull);
 store64(v3 + 384, 0ull);
 store64(v3 + 392, 0ull);
 store64(v3 + 312, 0ull);
 store64(v3 + 320, 0ull);
 store64(v3 + 327, 0ull);
 store64(v3 + 288, 0ull);
 store64(v3 + 296, 0ull);
 store64(v3 + 304, 0ull);
 store64(v3 + 256, 0ull);
 store64(v3 + 264, 0ull);
 store64(v3 + 272, 0ull);
 store64(v3 + 280, 0ull);
 store64(v3 + 440, 0ull);
 store64(v3 + 448, 0ull);
 store64(v3 + 456, 0ull);
 store64(v3 + 464, 0ull);
 store64(v3 + 472, 0ull);
 store64(v3 + 478, 0ull);
 store64(v3 + 416, 0ull);
 store64(v3 + 424, 0ull);
 store64(v3 + 431, 0ull);
 if (p2 == 9ull) {
  goto L7e;
 }
 if (p2 < 14ull) {
  goto L7e;
 }
 v5 = load8(p1 + 9ull);
 v4 = load32(p1 + 10ull);
 v6 = (p2 & 0xfffffffffffffffeull) - 14ull;
 if (v6 > 2ull) {
  goto L8e;
 }
 switch ((u32)(v6)) {
 case 1:
  goto L8e;
 default:
  goto L7e;
 }
 L8e:;
 if ((p2 - 18ull) < 4ull) {
  goto L7e;
 }
 v7 = rotr32(v4 & 16711935u, 8) | (rotr32(v4, 24) & 16711935u);
 v4 = load32(p1 + 14ull);
 v8 = rotr32(v4 & 16711935u, 8) | (rotr32(v4, 24) & 16711935u);
 store64(v3 + 408, p2 - 22ull);
 store64(v3 + 400, p1 + 22ull);
 v4 = load32(p1 + 18ull);
 v9 = 0ull;
 store64(v3 + 2808, 0ull);
 store64(v3 + 2816, 0ull);
 store64(v3 + 2824, 0ull);
 store64(v3 + 2832, 0ull);
 store64(v3 + 2840, 0ull);
 store64(v3 + 2792, 0ull);
 store64(v3 + 2800, 0ull);
 fill((v3 + 488ull), 0u, 2304ull);
 store64(v3 + 2880, 0ull);
 store64(v3 + 2872, 0ull);
 store64(v3 + 2856, 0ull);
 store64(v3 + 2864, 0ull);
 v10 = rotr32(v4 & 16711935u, 8) | (rotr32(v4, 24) & 16711935u);
 store64(v3 + 2848, v3 + 12432ull);
 v11 = v3 + 12387ull;
 v12 = v3 + 10056ull;
 v13 = v3 + 10040ull;
 v14 = v3 + 10000ull;
 v15 = v3 + 2904ull;
 v16 = v3 + 11160ull;
 v17 = v3 + 10008ull;
 v18 = v3 + 9992ull;
 v19 = (v3 + 9892ull) | 2ull;
 L13:;
 v20 = load64(v3 + 408);
 if (!v20) {
  goto L10e;
 }
 v21 = v20 - 1ull;
 store64(v3 + 408, v21);
 v6 = load64(v3 + 400);
 store64(v3 + 400, v6 + 1ull);
 if (load8(v6) != 1u) {
  goto L9e;
 }
 if (!v21) {
  goto L11e;
 }
 v22 = v6 + 2ull;
 store64(v3 + 400, v22);
 v21 = v20 - 2ull;
 store64(v3 + 408, v21);
 v23 = load8(v6 + 1ull);
 v24 = 0u;
 fill((v3 + 2888ull), 0u, 2320ull);
 fill((v3 + 7528ull), 0u, 2320ull);
 fill((v3 + 5208ull), 0u, 2320ull);
 if (!v21) {
  goto L12e;
 }
 v25 = v6 + 3ull;
 store64(v3 + 400, v25);
 v21 = v20 - 3ull;
 store64(v3 + 408, v21);
 if (!v21) {
  goto L12e;
 }
 v26 = load8(v22);
 store64(v3 + 400, v6 + 4ull);
 v21 = v20 - 4ull;
 store64(v3 + 408, v21);
 if (!v21) {
  goto L12e;
 }
 v27 = load8(v25);
 v22 = v6 + 5ull;
 store64(v3 + 400, v22);
 v21 = v20 - 5ull;
 store64(v3 + 408, v21);
 if (!v21) {
  goto L12e;
 }
 v28 = load8(v6 + 4ull);
 store64(v3 + 408, v20 - 6ull);
 store64(v3 + 400, v6 + 6ull);
 v29 = load8(v22);
 import_rattle_alloc(HEAP (v3 + 112ull), 8192ull, 4ull);
 v24 = 1u;
 if (((u32)(load64(v3 + 112)) & 1u) == 0) {
  goto L12e;
 }
 v30 = load64(v3 + 120);
 v31 = (u32)(((v26 & 255u) == 1u)) | ((u32)(((v27 & 255u) == 1u)) | ((u32)(((v28 & 255u) == 1u)) | (u32)(((v29 & 255u) == 1u))));
 v20 = 0ull;
 v32 = 0ull;
 L15:;
 v22 = load64(v3 + 408);
 if (!v22) {
  goto L14e;
 }
 v6 = v22 - 1ull;
 store64(v3 + 408, v6);
 v21 = load64(v3 + 400);
 v25 = v21 + 1ull;
 store64(v3 + 400, v25);
 v24 = 1u;
 if (load8(v21) != 1u) {
  goto L20e;
 }
 v4 = (u32)((!v6));
 if (v4) {
  goto L21e;
 }
 if (load8(v25) != 11u) {
  goto L21e;
 }
 v25 = v21 + 2ull;
 store64(v3 + 400, v25);
 v6 = v22 - 2ull;
 store64(v3 + 408, v6);
 if (!v6) {
  goto L14e;
 }
 store64(v3 + 400, v21 + 3ull);
 v6 = v22 - 3ull;
 store64(v3 + 408, v6);
 if (!v6) {
  goto L14e;
 }
 v24 = load8(v25);
 v6 = v21 + 4ull;
 store64(v3 + 400, v6);
 v25 = v22 - 4ull;
 store64(v3 + 408, v25);
 if (v25 < 10ull) {
  goto L14e;
 }
 store64(v3 + 408, v22 - 14ull);
 store64(v3 + 400, v21 + 14ull);
 store64(v3 + 9848, load64(v6));
 store16(v3 + 9856, (u16)(load16(v6 + 8)));
 v4 = 11u;
 v33 = 0u;
 goto L16e;
 L21e:;
 store32(v3 + 9904, 0u);
 store64(v3 + 9864, 0ull);
 store64(v3 + 9872, 0ull);
 store64(v3 + 9880, 0ull);
 v22 = v6 < 12ull ? v6 : 12ull;
 v34 = v22 << 3;
 store64(v3 + 9960, v34);
 store64(v3 + 9952, 0ull);
 store64(v3 + 9944, v22);
 store64(v3 + 9936, v25);
 if (v4) {
  goto L14e;
 }
 v4 = load8(v25);
 if (v4 > 13u) {
  goto L22e;
 }
 if (v22 < load64(((u64)(v4) << 3) + DATA(8))) {
  goto L22e;
 }
 v35 = 0u;
 v24 = v4;
 v36 = v4;
 v37 = v4;
 v33 = v4;
 switch (v4) {
 case 0:
  goto L17e;
 case 7:
  goto L29e;
 case 8:
  goto L28e;
 case 9:
  goto L27e;
 case 10:
  goto L26e;
 case 11:
  goto L23e;
 case 12:
  goto L25e;
 default:
  goto L24e;
 }
 L29e:;
 v24 = load8(v21 + 2ull);
 v35 = 0u;
 v4 = 7u;
 goto L18e;
 L28e:;
 v24 = load8(v21 + 2ull);
 v35 = 0u;
 v4 = 8u;
 goto L18e;
 L27e:;
 v24 = load8(v21 + 2ull);
 v35 = 0u;
 v4 = 9u;
 goto L18e;
 L26e:;
 v24 = load8(v21 + 2ull);
 v35 = 0u;
 v4 = 10u;
 goto L18e;
 L25e:;
 v24 = 0u;
 goto L19e;
 L24e:;
 if (v4 > 3u) {
  goto L30e;
 }
 v24 = load32(v21 + 6ull);
 v37 = rotr32(v24 & 16711935u, 8) | (rotr32(v24, 24) & 16711935u);
 v24 = load32(v21 + 2ull);
 v36 = rotr32(v24 & 16711935u, 8) | (rotr32(v24, 24) & 16711935u);
 v38 = v4 - 1u;
 v24 = 0u;
 v4 = 3u;
 v35 = 0u;
 v33 = 0u;
 switch (v38) {
 case 0:
  goto L32e;
 case 1:
  goto L31e;
 default:
  goto L17e;
 }
 L32e:;
 v33 = load8(v21 + 10ull);
 v24 = 0u;
 v4 = 1u;
 v35 = 0u;
 goto L17e;
 L31e:;
 v33 = load8(v21 + 10ull);
 v24 = 0u;
 v4 = 2u;
 v35 = 0u;
 goto L17e;
 L30e:;
 if (v4 <= 6u) {
  goto L33e;
 }
 v24 = 0u;
 v4 = 13u;
 goto L19e;
 L33e:;
 v22 = v21 + 3ull;
 v34 = v21 + 2ull;
 v37 = 0u;
 v39 = v21 + 4ull;
 v25 = v39;
 v36 = 0u;
 switch (v4 - 4u) {
 case 0:
  goto L37e;
 case 1:
  goto L34e;
 default:
  goto L36e;
 }
 L37e:;
 v4 = load32(v21 + 5ull);
 v36 = rotr32(v4 & 16711935u, 8) | (rotr32(v4, 24) & 16711935u);
 v4 = 4u;
 goto L35e;
 L36e:;
 v4 = load32(v21 + 5ull);
 v36 = rotr32(v4 & 16711935u, 8) | (rotr32(v4, 24) & 16711935u);
 v4 = 6u;
 L35e:;
 v25 = v22;
 v22 = v39;
 L34e:;
 v24 = load8(v34);
 v35 = (load8(v25) << 8) | load8(v22);
 v33 = 0u;
 goto L17e;
 L23e:;
 v24 = load8(v21 + 2ull);
 store64(v3 + 9920, 0ull);
 v33 = 0u;
 store16(v3 + 9928, (u16)(0u));
 v6 = v34 - 16ull;
 store64(v3 + 9992, v6 < 80ull ? v6 : 80ull);
 store64(v3 + 9984, 0ull);
 store64(v3 + 9976, v22 - 2ull);
 store64(v3 + 9968, v21 + 3ull);
 b0 = f6((v3 + 9968ull), (v3 + 9920ull));
 v37 = load32(v3 + 9926);
 v36 = load32(v3 + 9922);
 v35 = load16(v3 + 9920);
 v4 = 11u;
 v6 = load64(v3 + 408);
 goto L17e;
 L22e:;
 f5((v3 + 9909ull), (v3 + 9936ull));
 goto L14e;
 L20e:;
 import_rattle_alloc(HEAP (v3 + 96ull), 12288ull, 8ull);
 if (((u32)(load64(v3 + 96)) & 1u) == 0) {
  goto L38e;
 }
 v6 = load64(v3 + 104);
 store64(v3 + 9984, 128ull);
 v39 = 0ull;
 store64(v3 + 9976, 0ull);
 store64(v3 + 9968, v6);
 fill(v18, 0u, 2344ull);
 L48:;
 v21 = load64(v3 + 408);
 if (!(!v21)) {
  goto L49e;
 }
 v24 = 0u;
 goto L39e;
 L49e:;
 v22 = v21 - 1ull;
 store64(v3 + 408, v22);
 v6 = load64(v3 + 400);
 store64(v3 + 400, v6 + 1ull);
 v24 = 1u;
 if (load8(v6) != 1u) {
  goto L47e;
 }
 if (!(!v22)) {
  goto L50e;
 }
 v24 = 0u;
 goto L39e;
 L50e:;
 v25 = v6 + 2ull;
 store64(v3 + 400, v25);
 v22 = v21 - 2ull;
 store64(v3 + 408, v22);
 if (!(!v22)) {
  goto L51e;
 }
 v24 = 0u;
 goto L39e;
 L51e:;
 v33 = load8(v6 + 1ull);
 store64(v3 + 400, v6 + 3ull);
 v22 = v21 - 3ull;
 store64(v3 + 408, v22);
 if (!(!v22)) {
  goto L52e;
 }
 v24 = 0u;
 goto L39e;
 L52e:;
 v35 = load8(v25);
 v25 = v6 + 4ull;
 store64(v3 + 400, v25);
 v22 = v21 - 4ull;
 store64(v3 + 408, v22);
 if (!(!v22)) {
  goto L53e;
 }
 v24 = 0u;
 goto L39e;
 L53e:;
 v40 = load8(v6 + 3ull);
 store64(v3 + 400, v6 + 5ull);
 v22 = v21 - 5ull;
 store64(v3 + 408, v22);
 if (!(!v22)) {
  goto L54e;
 }
 v24 = 0u;
 goto L39e;
 L54e:;
 v4 = load8(v25);
 v25 = v6 + 6ull;
 store64(v3 + 400, v25);
 v22 = v21 - 6ull;
 store64(v3 + 408, v22);
 if (!(!v22)) {
  goto L55e;
 }
 v24 = 0u;
 goto L39e;
 L55e:;
 v41 = load8(v6 + 5ull);
 store64(v3 + 400, v6 + 7ull);
 v22 = v21 - 7ull;
 store64(v3 + 408, v22);
 if (!(!v22)) {
  goto L56e;
 }
 v24 = 0u;
 goto L39e;
 L56e:;
 v42 = load8(v25);
 v25 = v6 + 8ull;
 store64(v3 + 400, v25);
 v22 = v21 - 8ull;
 store64(v3 + 408, v22);
 if (!(!v22)) {
  goto L57e;
 }
 v24 = 0u;
 goto L39e;
 L57e:;
 v43 = load8(v6 + 7ull);
 v32 = v6 + 9ull;
 store64(v3 + 400, v32);
 v22 = v21 - 9ull;
 store64(v3 + 408, v22);
 v37 = load8(v25);
 store64(v3 + 9944, 0ull);
 store64(v3 + 9936, 0ull);
 v24 = 0u;
 if (!v22) {
  goto L39e;
 }
 v25 = v6 + 10ull;
 store64(v3 + 400, v25);
 v22 = v21 - 10ull;
 store64(v3 + 408, v22);
 if (!v22) {
  goto L39e;
 }
 v36 = load8(v32);
 store64(v3 + 400, v6 + 11ull);
 v22 = v21 - 11ull;
 store64(v3 + 408, v22);
 if (!v22) {
  goto L39e;
 }
 v44 = load8(v25);
 v25 = v6 + 12ull;
 store64(v3 + 400, v25);
 v22 = v21 - 12ull;
 store64(v3 + 408, v22);
 if (!v22) {
  goto L39e;
 }
 v45 = load8(v6 + 11ull);
 v32 = v6 + 13ull;
 store64(v3 + 400, v32);
 v22 = v21 - 13ull;
 store64(v3 + 408, v22);
 if (!v22) {
  goto L39e;
 }
 v46 = load8(v25);
 v25 = v6 + 14ull;
 store64(v3 + 400, v25);
 v22 = v21 - 14ull;
 store64(v3 + 408, v22);
 if (!v22) {
  goto L39e;
 }
 v38 = load8(v32);
 store64(v3 + 400, v6 + 15ull);
 v22 = v21 - 15ull;
 store64(v3 + 408, v22);
 if (!v22) {
  goto L39e;
 }
 v47 = load8(v25);
 v25 = v6 + 16ull;
 store64(v3 + 400, v25);
 v22 = v21 - 16ull;
 store64(v3 + 408, v22);
 if (!v22) {
  goto L39e;
 }
 v48 = load8(v6 + 15ull);
 v32 = v6 + 17ull;
 store64(v3 + 400, v32);
 v22 = v21 - 17ull;
 store64(v3 + 408, v22);
 if (!v22) {
  goto L39e;
 }
 v49 = load8(v25);
 v25 = v6 + 18ull;
 store64(v3 + 400, v25);
 v22 = v21 - 18ull;
 store64(v3 + 408, v22);
 if (!v22) {
  goto L39e;
 }
 v31 = load8(v32);
 store64(v3 + 400, v6 + 19ull);
 v22 = v21 - 19ull;
 store64(v3 + 408, v22);
 if (!v22) {
  goto L39e;
 }
 v50 = load8(v25);
 v25 = v6 + 20ull;
 store64(v3 + 400, v25);
 v22 = v21 - 20ull;
 store64(v3 + 408, v22);
 if (!v22) {
  goto L39e;
 }
 v51 = load8(v6 + 19ull);
 store64(v3 + 408, v21 - 21ull);
 store64(v3 + 400, v6 + 21ull);
 v52 = load8(v25);
 f9((v3 + 9936ull), (v3 + 400ull));
 if (load8(v3 + 9936) == 0) {
  goto L58e;
 }
 v24 = load8(v3 + 9937);
 goto L39e;
 L58e:;
 v53 = load32(v3 + 9948);
 v54 = load32(v3 + 9940);
 if (v36 != 1u) {
  goto L62e;
 }
 v55 = load32(v3 + 9944);
 if (v55 <= 65536u) {
  goto L63e;
 }
 v24 = 0u;
 goto L39e;
 L63e:;
 v34 = (u64)(v55);
 v6 = (v34 + 7ull) >> 3;
 v32 = v6 + 1ull;
 import_rattle_alloc(HEAP v3, v32, 1ull);
 v24 = 1u;
 if (((u32)(load64(v3)) & 1u) == 0) {
  goto L39e;
 }
 v25 = load64(v3 + 8);
 v24 = (u32)((!v6));
 if (v24) {
  goto L64e;
 }
 if (v24) {
  goto L64e;
 }
 fill(v25, 0u, v6);
 L64e:;
 v24 = 0u;
 store8(v25 + v6, (u8)(0u));
 v21 = load64(v3 + 408);
 if (!v21) {
  goto L65e;
 }
 v6 = load64(v3 + 400);
 v56 = v6 + 1ull;
 store64(v3 + 400, v56);
 v22 = v21 - 1ull;
 store64(v3 + 408, v22);
 if (!v22) {
  goto L65e;
 }
 v57 = (u64)load8(v6);
 store64(v3 + 400, v6 + 2ull);
 v22 = v21 - 2ull;
 store64(v3 + 408, v22);
 if (!v22) {
  goto L65e;
 }
 v58 = (u64)load8(v56);
 v59 = v6 + 3ull;
 store64(v3 + 400, v59);
 v22 = v21 - 3ull;
 store64(v3 + 408, v22);
 if (!v22) {
  goto L65e;
 }
 v22 = (u64)load8(v6 + 2ull);
 v56 = v21 - 4ull;
 store64(v3 + 408, v56);
 v60 = v6 + 4ull;
 store64(v3 + 400, v60);
 v22 = (((v58 << 16) | (v57 << 24)) | (v22 << 8)) | (u64)load8(v59);
 if (v22 >= 8193ull) {
  goto L67e;
 }
 v21 = 0ull;
 v6 = v22;
 goto L66e;
 L67e:;
 if (v56 < 1024ull) {
  goto L65e;
 }
 store64(v3 + 408, v21 - 1028ull);
 store64(v3 + 400, v6 + 1028ull);
 v21 = 8192ull;
 store64(v3 + 9960, 8192ull);
 store64(v3 + 9952, 0ull);
 store64(v3 + 9944, 1024ull);
 store64(v3 + 9936, v60);
 if (v55 < 8192u) {
  goto L65e;
 }
 b1 = f6((v3 + 9936ull), v25);
 v6 = v22 - 8192ull;
 if (v22 < 16385ull) {
  goto L68e;
 }
 v22 = v34 - 8192ull;
 v21 = 8192ull;
 L69:;
 v56 = load64(v3 + 408);
 if (v56 < 1024ull) {
  goto L65e;
 }
 store64(v3 + 408, v56 - 1024ull);
 v56 = load64(v3 + 400);
 store64(v3 + 400, v56 + 1024ull);
 store64(v3 + 9952, 0ull);
 store64(v3 + 9944, 1024ull);
 store64(v3 + 9936, v56);
 store64(v3 + 9960, 8192ull);
 if (v22 < 8192ull) {
  goto L65e;
 }
 f10(v25, v32, v21, (v3 + 9936ull));
 v22 = v22 - 8192ull;
 v21 = v21 + 8192ull;
 v6 = v6 - 8192ull;
 if (v6 > 8192ull) {
  goto L69;
 }
 L68e:;
 v56 = load64(v3 + 408);
 L66e:;
 v57 = v6 >> 3;
 v22 = v57 + (u64)((u32)(((v6 & 7ull) != 0ull)));
 if (v56 < v22) {
  goto L65e;
 }
 store64(v3 + 408, v56 - v22);
 v56 = load64(v3 + 400);
 store64(v3 + 400, v56 + v22);
 v58 = v22 << 3;
 if (v6 == v58) {
  goto L70e;
 }
 if ((((load8(v56 + v57) << (((u32)(v6) & 7u) & 31)) & 255u) >> ((((u32)(v6 - v58) + 8u) & 255u) & 31)) != 0) {
  goto L65e;
 }
 L70e:;
 store64(v3 + 9952, 0ull);
 store64(v3 + 9944, v22);
 store64(v3 + 9936, v56);
 store64(v3 + 9960, v6);
 if ((v34 - v21) >= v6) {
  goto L61e;
 }
 L65e:;
 import_rattle_dealloc(v25);
 goto L39e;
 L62e:;
 v24 = 0u;
 v6 = load64(v3 + 408);
 if (!v6) {
  goto L39e;
 }
 v21 = load64(v3 + 400);
 store64(v3 + 400, v21 + 1ull);
 v22 = v6 - 1ull;
 store64(v3 + 408, v22);
 if (!v22) {
  goto L39e;
 }
 store64(v3 + 400, v21 + 2ull);
 v22 = v6 - 2ull;
 store64(v3 + 408, v22);
 if (!v22) {
  goto L39e;
 }
 store64(v3 + 400, v21 + 3ull);
 v22 = v6 - 3ull;
 store64(v3 + 408, v22);
 if (!v22) {
  goto L39e;
 }
 store64(v3 + 408, v6 - 4ull);
 store64(v3 + 400, v21 + 4ull);
 v60 = 0ull;
 v34 = 0ull;
 v56 = 0ull;
 v32 = 0ull;
 v25 = 0ull;
 goto L60e;
 L61e:;
 f10(v25, v32, v21, (v3 + 9936ull));
 v56 = v6 + v21;
 if (v56 > 65536ull) {
  goto L59e;
 }
 if ((65536ull - v56) < (v34 - v56)) {
  goto L59e;
 }
 v60 = 1ull;
 L60e:;
 if ((v38 & 255u) != 1u) {
  goto L73e;
 }
 if ((v47 & 255u) == 1u) {
  goto L72e;
 }
 L73e:;
 v24 = 0u;
 if (v36 == 1u) {
  goto L74e;
 }
 if (v34 != 0ull) {
  goto L39e;
 }
 L74e:;
 if ((v31 & 255u) > 71u) {
  goto L72e;
 }
 v61 = v4 & 1u;
 v55 = (u32)((!v61)) | v37;
 if ((((v55 ^ 1u) | (u32)(((v56 + (u64)(v54)) <= v34))) & 1u) != 0) {
  goto L71e;
 }
 L72e:;
 v24 = 0u;
 if (v36 != 1u) {
  goto L39e;
 }
 if (!v32) {
  goto L39e;
 }
 import_rattle_dealloc(v25);
 goto L39e;
 L71e:;
 v33 = (((v35 << 16) | (v33 << 24)) | (v40 << 8)) | v4;
 v35 = (((v42 << 16) | (v41 << 24)) | (v43 << 8)) | v37;
 v62 = (u32)((v36 == 1u));
 v40 = (u32)((v36 == 1u));
 v41 = (u32)(((v44 & 255u) == 1u));
 v42 = (u32)((v45 == 1u));
 v43 = (u32)((v46 == 1u));
 v47 = (u32)(((v47 & 255u) == 1u));
 v38 = (u32)(((v38 & 255u) == 1u));
 v45 = (u32)((v48 == 1u));
 v46 = (u32)((v49 == 1u));
 v63 = (u64)(v31) & 255ull;
 v48 = (v51 << 8) | v52;
 v57 = load64(v3 + 9976);
 v21 = v57;
 v58 = load64(v3 + 9968);
 v6 = v58;
 L75:;
 if (!v21) {
  goto L79e;
 }
 if (load8(v6) != 1u) {
  goto L76e;
 }
 if (load32(v6 + 8ull) != v33) {
  goto L76e;
 }
 if (load32(v6 + 12ull) != v35) {
  goto L76e;
 }
 goto L78e;
 L79e:;
 if (v36 != 1u) {
  goto L81e;
 }
 v6 = v58;
 v21 = v57;
 v59 = 0ull;
 L82:;
 v21 = 0ull - v21;
 L83:;
 v21 = v21 + 1ull;
 if (v21 == 1ull) {
  goto L80e;
 }
 v4 = load8(v6);
 v22 = v6 + 96ull;
 v6 = v22;
 if (v4 != 1u) {
  goto L83;
 }
 v21 = 0ull - v21;
 v59 = v59 + (u64)load8(v22 - 80ull);
 v6 = v22;
 goto L82;
 L81e:;
 v64 = load64(v3 + 9992);
 v6 = v58;
 v21 = v57;
 v59 = 0ull;
 L84:;
 v21 = 0ull - v21;
 L86:;
 v21 = v21 + 1ull;
 if (v21 == 1ull) {
  goto L85e;
 }
 v4 = load8(v6);
 v22 = v6 + 96ull;
 v6 = v22;
 if (v4 != 1u) {
  goto L86;
 }
 v21 = 0ull - v21;
 v59 = v59 + (u64)load8(v22 - 80ull);
 v6 = v22;
 goto L84;
 L85e:;
 v59 = v64 - v59;
 L80e:;
 if (v59 > 63ull) {
  goto L78e;
 }
 if ((v55 & 1u) != 0) {
  goto L87e;
 }
 if ((v44 & 255u) != 1u) {
  goto L77e;
 }
 if (load8(v17 + (v63 << 4)) == 1u) {
  goto L78e;
 }
 goto L77e;
 L87e:;
 if (v61) {
  goto L77e;
 }
 if ((v37 & 1u) == 0) {
  goto L77e;
 }
 if (v36 != 1u) {
  goto L77e;
 }
 v62 = 1u;
 if (load8(v16 + (v63 << 4)) != 1u) {
  goto L77e;
 }
 L78e:;
 if (!v32) {
  goto L39e;
 }
 if (!v62) {
  goto L39e;
 }
 import_rattle_dealloc(v25);
 goto L39e;
 L77e:;
 store64(v3 + 9992, load64(v3 + 9992) + 1ull);
 v21 = load64(v3 + 10000);
 v6 = v58 + (v21 * 96ull);
 v22 = ((u64)(v35) << 32) | (u64)(v33);
 if (v21 != v57) {
  goto L89e;
 }
 store64(v6, 1ull);
 store32(v6 + 92ull, v53);
 store16(v6 + 90ull, (u16)(0u));
 store8(v6 + 89ull, (u8)(v46));
 store8(v6 + 88ull, (u8)(v45));
 store64(v6 + 80ull, v34);
 store64(v6 + 72ull, v56);
 store64(v6 + 64ull, 0ull);
 store64(v6 + 56ull, v32);
 store64(v6 + 48ull, v32);
 store64(v6 + 40ull, v25);
 store64(v6 + 32ull, v60);
 store32(v6 + 28ull, v54);
 store16(v6 + 26ull, (u16)(0u));
 store16(v6 + 24ull, (u16)(v48));
 store8(v6 + 23ull, (u8)(v50));
 store8(v6 + 22ull, (u8)(v31));
 store8(v6 + 21ull, (u8)(v47));
 store8(v6 + 20ull, (u8)(v38));
 store8(v6 + 19ull, (u8)(v43));
 store8(v6 + 18ull, (u8)(v42));
 store8(v6 + 17ull, (u8)(v41));
 store8(v6 + 16ull, (u8)(v40));
 store64(v6 + 8ull, v22);
 v6 = v57 + 1ull;
 store64(v3 + 9976, v6);
 goto L88e;
 L89e:;
 store32(v6 + 92ull, v53);
 store16(v6 + 90ull, (u16)(0u));
 store8(v6 + 89ull, (u8)(v46));
 store8(v6 + 88ull, (u8)(v45));
 store64(v6 + 80ull, v34);
 store64(v6 + 72ull, v56);
 store64(v6 + 64ull, 0ull);
 store64(v6 + 56ull, v32);
 store64(v6 + 48ull, v32);
 store64(v6 + 40ull, v25);
 store64(v6 + 32ull, v60);
 store32(v6 + 28ull, v54);
 store16(v6 + 26ull, (u16)(0u));
 store16(v6 + 24ull, (u16)(v48));
 store8(v6 + 23ull, (u8)(v50));
 store8(v6 + 22ull, (u8)(v31));
 store8(v6 + 21ull, (u8)(v47));
 store8(v6 + 20ull, (u8)(v38));
 store8(v6 + 19ull, (u8)(v43));
 store8(v6 + 18ull, (u8)(v42));
 store8(v6 + 17ull, (u8)(v41));
 store8(v6 + 16ull, (u8)(v40));
 v4 = load8(v6);
 store64(v6, 1ull);
 v25 = v6 + 8ull;
 v6 = load64(v25);
 store64(v25, v22);
 if (v4) {
  goto L46e;
 }
 L88e:;
 store64(v3 + 10000, v6);
 f11((v3 + 9968ull), v21);
 v39 = v39 + 1ull;
 if (v39 != 129ull) {
  goto L48;
 }
 goto L39e;
 L76e:;
 v6 = v6 + 96ull;
 v21 = v21 - 1ull;
 goto L75;
 L59e:;
 import_rattle_dealloc(v25);
 v24 = 0u;
 goto L39e;
 L47e:;
 v60 = load64(v3 + 9984);
 v21 = load64(v3 + 9976);
 v58 = load64(v3 + 9968);
 move((v3 + 7528ull), v18, 2320ull);
 v65 = load64(v3 + 12328);
 v66 = load64(v3 + 12320);
 v67 = load64(v3 + 12312);
 import_rattle_alloc(HEAP (v3 + 80ull), 176ull, 1ull);
 if (((u32)(load64(v3 + 80)) & 1u) == 0) {
  goto L91e;
 }
 v57 = load64(v3 + 88);
 v22 = load64(v3 + 408);
 if (!v22) {
  goto L92e;
 }
 v6 = load64(v3 + 400);
 v32 = v6 + 1ull;
 store64(v3 + 400, v32);
 v25 = v22 - 1ull;
 store64(v3 + 408, v25);
 if (!v25) {
  goto L92e;
 }
 v4 = load8(v6);
 v25 = v22 - 2ull;
 store64(v3 + 408, v25);
 store64(v3 + 400, v6 + 2ull);
 v35 = 0u;
 v36 = 0u;
 if (load8(v32) != 1u) {
  goto L93e;
 }
 if (!v25) {
  goto L92e;
 }
 store64(v3 + 408, v22 - 3ull);
 store64(v3 + 400, v6 + 3ull);
 v36 = load8(v6 + 2ull);
 v35 = 1u;
 L93e:;
 v37 = (u32)(((v4 & 255u) == 1u));
 v32 = 0ull;
 v34 = 17ull;
 v56 = 0ull;
 L94:;
 v22 = load64(v3 + 408);
 if (!v22) {
  goto L92e;
 }
 v25 = v22 - 1ull;
 store64(v3 + 408, v25);
 v6 = load64(v3 + 400);
 store64(v3 + 400, v6 + 1ull);
 if (load8(v6) != 1u) {
  goto L90e;
 }
 if (!v25) {
  goto L92e;
 }
 store64(v3 + 400, v6 + 2ull);
 v25 = v22 - 2ull;
 store64(v3 + 408, v25);
 if (!v25) {
  goto L92e;
 }
 v4 = load8(v6 + 1ull);
 v25 = v6 + 3ull;
 store64(v3 + 400, v25);
 v39 = v22 - 3ull;
 store64(v3 + 408, v39);
 if (v39 < 10ull) {
  goto L92e;
 }
 store64(v3 + 408, v22 - 13ull);
 store64(v3 + 400, v6 + 13ull);
 store64(v3 + 9936, load64(v25));
 store16(v3 + 9944, (u16)(load16(v25 + 8)));
 store16(v3 + 9976, (u16)(load16(v25 + 8)));
 store64(v3 + 9968, load64(v25));
 if (v32 < 16ull) {
  goto L96e;
 }
 v6 = v56 + 1ull;
 v56 = (v6 < 16ull ? 0ull : 0xfffffffffffffff0ull) + v6;
 v6 = (v32 + v56) - 1ull;
 v6 = v57 + (((v6 < 16ull ? 0ull : 0xfffffffffffffff0ull) + v6) * 11ull);
 store8(v6, (u8)(v4));
 store64(v6 + 1, load64(v3 + 9968));
 store16(v6 + 9, (u16)(load16(v3 + 9976)));
 goto L95e;
 L96e:;
 v6 = v56 + v32;
 v6 = v57 + (((v6 < 16ull ? 0ull : 0xfffffffffffffff0ull) + v6) * 11ull);
 store8(v6, (u8)(v4));
 store64(v6 + 1, load64(v3 + 9936));
 store16(v6 + 9, (u16)(load16(v3 + 9944)));
 v32 = v32 + 1ull;
 L95e:;
 v34 = v34 - 1ull;
 if (!(!v34)) {
  goto L94;
 }
 L92e:;
 import_rattle_dealloc(v57);
 v24 = 0u;
 L91e:;
 if (!v21) {
  goto L97e;
 }
 p1 = v58;
 L98:;
 if (load8(p1) == 0) {
  goto L99e;
 }
 if (load8(p1 + 32ull) == 0) {
  goto L99e;
 }
 if (load64(p1 + 56ull) == 0) {
  goto L99e;
 }
 import_rattle_dealloc(load64(p1 + 40ull));
 L99e:;
 p1 = p1 + 96ull;
 v21 = v21 - 1ull;
 if (v21 != 0ull) {
  goto L98;
 }
 L97e:;
 if (!v60) {
  goto L100e;
 }
 import_rattle_dealloc(v58);
 L100e:;
 import_rattle_dealloc(v30);
 goto L12e;
 L90e:;
 move((v3 + 9968ull), (v3 + 7528ull), 2320ull);
 if ((v26 & 255u) == 1u) {
  goto L102e;
 }
 if ((v27 & 255u) == 1u) {
  goto L102e;
 }
 if ((v28 & 255u) == 1u) {
  goto L102e;
 }
 if ((v29 & 255u) != 1u) {
  goto L101e;
 }
 L102e:;
 if (!v21) {
  goto L103e;
 }
 v6 = v58;
 L104:;
 if (load8(v6) == 0) {
  goto L105e;
 }
 if (load8(v6 + 32ull) == 0) {
  goto L105e;
 }
 if (load64(v6 + 56ull) == 0) {
  goto L105e;
 }
 import_rattle_dealloc(load64(v6 + 40ull));
 L105e:;
 v6 = v6 + 96ull;
 v21 = v21 - 1ull;
 if (v21 != 0ull) {
  goto L104;
 }
 L103e:;
 fill((v3 + 9968ull), 0u, 2320ull);
 v21 = 0ull;
 v66 = 0ull;
 v65 = 0ull;
 L101e:;
 move((v3 + 5208ull), (v3 + 9968ull), 2320ull);
 move((v3 + 2888ull), (v3 + 5208ull), 2320ull);
 import_rattle_alloc(HEAP (v3 + 64ull), 74408ull, 8ull);
 v24 = 1u;
 if ((load32(v3 + 64) & 1u) == 0) {
  goto L107e;
 }
 v68 = load64(v3 + 72);
 fill(v68, 0u, 74408ull);
 store64(v3 + 9984, 71ull);
 store64(v3 + 9976, 71ull);
 store64(v3 + 9968, v68);
 f12((v3 + 56ull), (v3 + 400ull), (v3 + 9968ull), 0u);
 if (load8(v3 + 56) == 0) {
  goto L109e;
 }
 v24 = load8(v3 + 57);
 goto L108e;
 L109e:;
 b2 = ((((v27 & 255u) == 1u ? 256ull : 0ull) | (u64)((u32)(((v26 & 255u) == 1u)))) | ((v28 & 255u) == 1u ? 65536ull : 0ull)) | ((v29 & 255u) == 1u ? 16777216ull : 0ull);
 v69 = b2;
 v4 = 2u;
 L111:;
 f12((v3 + 48ull), (v3 + 400ull), (v3 + 9968ull), v4);
 if (load8(v3 + 48) != 0) {
  goto L110e;
 }
 v24 = v4 & 255u;
 v4 = v4 + 1u;
 if (v24 > 70u) {
  goto L106e;
 }
 goto L111;
 L110e:;
 v24 = load8(v3 + 49);
 L108e:;
 import_rattle_dealloc(v68);
 L107e:;
 import_rattle_dealloc(v30);
 if (!v21) {
  goto L112e;
 }
 p1 = v58;
 L113:;
 if (load8(p1) == 0) {
  goto L114e;
 }
 if (load8(p1 + 32ull) == 0) {
  goto L114e;
 }
 if (load64(p1 + 56ull) == 0) {
  goto L114e;
 }
 import_rattle_dealloc(load64(p1 + 40ull));
 L114e:;
 p1 = p1 + 96ull;
 v21 = v21 - 1ull;
 if (v21 != 0ull) {
  goto L113;
 }
 L112e:;
 if (!v60) {
  goto L40e;
 }
 goto L41e;
 L106e:;
 store64(v3 + 9976, 0ull);
 store64(v3 + 9968, 0ull);
 f9((v3 + 9968ull), (v3 + 400ull));
 if (load8(v3 + 9968) != 0) {
  goto L45e;
 }
 v28 = load32(v3 + 9980);
 v29 = load32(v3 + 9976);
 v31 = load32(v3 + 9972);
 f9((v3 + 9968ull), (v3 + 400ull));
 if (load8(v3 + 9968) != 0) {
  goto L45e;
 }
 v24 = 0u;
 v22 = load64(v3 + 408);
 if (!v22) {
  goto L44e;
 }
 v38 = load32(v3 + 9980);
 v40 = load32(v3 + 9976);
 v44 = load32(v3 + 9972);
 v6 = load64(v3 + 400);
 v34 = v6 + 1ull;
 store64(v3 + 400, v34);
 v25 = v22 - 1ull;
 store64(v3 + 408, v25);
 if (!v25) {
  goto L44e;
 }
 v4 = load8(v6);
 store64(v3 + 400, v6 + 2ull);
 v25 = v22 - 2ull;
 store64(v3 + 408, v25);
 if (!v25) {
  goto L44e;
 }
 v33 = load8(v34);
 v34 = v6 + 3ull;
 store64(v3 + 400, v34);
 v25 = v22 - 3ull;
 store64(v3 + 408, v25);
 if (!v25) {
  goto L44e;
 }
 v24 = load8(v6 + 2ull);
 store64(v3 + 408, v22 - 4ull);
 store64(v3 + 400, v6 + 4ull);
 v26 = load8(v34);
 store64(v14, 0ull);
 store64(v14 + 8, 0ull);
 store64(v13, load64(v3 + 2888));
 store64(v13 + 8, load64(v3 + 2896));
 store64(v3 + 9992, v20);
 store64(v3 + 9984, 512ull);
 store64(v3 + 9976, v30);
 store64(v3 + 9968, v69);
 store64(v3 + 10032, v60);
 store64(v3 + 10024, v21);
 store64(v3 + 10016, v58);
 move(v12, v15, 2304ull);
 store32(v11, 0u);
 store8(v11 + 4, (u8)(0u));
 store64(v3 + 12376, v65);
 store64(v3 + 12368, v66);
 store8(v3 + 12386, (u8)(v36));
 store8(v3 + 12385, (u8)(v35));
 store8(v3 + 12384, (u8)(v37));
 store64(v3 + 12360, v67);
 store64(v3 + 12424, 0ull);
 store64(v3 + 12416, v56);
 store64(v3 + 12408, v32);
 store64(v3 + 12400, 16ull);
 store64(v3 + 12392, v57);
 v41 = v26 | (((v33 << 16) | (v4 << 24)) | (v24 << 8));
 v25 = v21;
 v34 = v58;
 L115:;
 v6 = v34;
 v33 = (u32)((!v25));
 if (v33) {
  goto L43e;
 }
 v25 = v25 - 1ull;
 v34 = v6 + 96ull;
 if (load8(v6) != 1u) {
  goto L115;
 }
 v6 = load64(v6 + 8ull);
 v4 = (u32)(v6);
 v24 = (u32)(v6 >> 32);
 v22 = 0ull;
 v6 = v58;
 L116:;
 if (v21 == v22) {
  goto L115;
 }
 if (load8(v6) != 1u) {
  goto L117e;
 }
 if (load32(v6 + 8ull) != v4) {
  goto L117e;
 }
 if (load32(v6 + 12ull) != v24) {
  goto L117e;
 }
 if (v22 >= v21) {
  goto L46e;
 }
 if (load8(v6) != 1u) {
  goto L46e;
 }
 v22 = v6 + 88ull;
 v26 = v4;
 if ((v4 & 1u) == 0) {
  goto L118e;
 }
 v26 = v24 ^ 1u;
 L118e:;
 v27 = load8(v22);
 if ((v26 & 1u) == 0) {
  goto L120e;
 }
 if ((load8(v6 + 17ull) & 1u) != 0) {
  goto L119e;
 }
 L120e:;
 if ((v27 & 1u) == 0) {
  goto L115;
 }
 goto L42e;
 L119e:;
 v26 = load8(v6 + 22ull);
 if ((v26 & 255u) > 71u) {
  goto L42e;
 }
 v6 = v12 + (((u64)(v26) & 255ull) << 4);
 if (load8(v6) != 1u) {
  goto L42e;
 }
 v6 = load64(v6 + 8ull);
 if (v6 >= v21) {
  goto L46e;
 }
 v6 = v58 + (v6 * 96ull);
 if (load8(v6) != 1u) {
  goto L46e;
 }
 if (load32(v6 + 8ull) != v4) {
  goto L42e;
 }
 if (load32(v6 + 12ull) != v24) {
  goto L42e;
 }
 if ((v27 & 1u) == 0) {
  goto L115;
 }
 if ((v26 & 255u) < 2u) {
  goto L42e;
 }
 if (load8(v68 + (((u64)(v26 - 1u) & 255ull) * 1048ull)) != 0) {
  goto L115;
 }
 goto L42e;
 L117e:;
 v6 = v6 + 96ull;
 v22 = v22 + 1ull;
 goto L116;
 L46e:;
 UNREACHABLE;
 L45e:;
 v24 = load8(v3 + 9969);
 L44e:;
 import_rattle_dealloc(v68);
 import_rattle_dealloc(v30);
 if (!v21) {
  goto L121e;
 }
 p1 = v58;
 L122:;
 if (load8(p1) == 0) {
  goto L123e;
 }
 if (load8(p1 + 32ull) == 0) {
  goto L123e;
 }
 if (load64(p1 + 56ull) == 0) {
  goto L123e;
 }
 import_rattle_dealloc(load64(p1 + 40ull));
 L123e:;
 p1 = p1 + 96ull;
 v21 = v21 - 1ull;
 if (v21 != 0ull) {
  goto L122;
 }
 L121e:;
 if (!(!v60)) {
  goto L41e;
 }
 goto L40e;
 L43e:;
 if (!(!v20)) {
  goto L125e;
 }
 v22 = 0ull;
 v6 = 0ull;
 goto L124e;
 L125e:;
 v6 = v20 - 512ull;
 v22 = v6 > v20 ? 0ull : v6;
 v6 = v20 < 512ull ? v20 : 512ull;
 L124e:;
 L126:;
 if (!v6) {
  goto L127e;
 }
 v6 = v6 - 1ull;
 goto L126;
 L127e:;
 if (!v22) {
  goto L42e;
 }
 v22 = v22 - 1ull;
 v6 = 0ull;
 goto L126;
 L42e:;
 if (v33) {
  goto L128e;
 }
 import_rattle_dealloc(v68);
 import_rattle_dealloc(v30);
 if (!v21) {
  goto L129e;
 }
 p1 = v58;
 L130:;
 if (load8(p1) == 0) {
  goto L131e;
 }
 if (load8(p1 + 32ull) == 0) {
  goto L131e;
 }
 if (load64(p1 + 56ull) == 0) {
  goto L131e;
 }
 import_rattle_dealloc(load64(p1 + 40ull));
 L131e:;
 p1 = p1 + 96ull;
 v21 = v21 - 1ull;
 if (v21 != 0ull) {
  goto L130;
 }
 L129e:;
 if (!v60) {
  goto L132e;
 }
 import_rattle_dealloc(v58);
 L132e:;
 import_rattle_dealloc(v57);
 f23((v3 + 2848ull));
 v4 = 0u;
 goto L3e;
 L128e:;
 v6 = v68 + 2096ull;
 v25 = 255ull;
 v22 = 3ull;
 v34 = load8(v68) != 0 ? 0xffffffffffffffffull : 0xfffffffffffffffeull;
 v39 = v34;
 v59 = 255ull;
 L133:;
 if (load8(v6 - 1048ull) != 0) {
  goto L134e;
 }
 f77((v3 + 32ull), 1ull, 0ull, (u32)(v22 - 1ull));
 v63 = load64(v3 + 40) ^ 0xffffffffffffffffull;
 v59 = v59 & v63;
 v64 = load64(v3 + 32) ^ 0xffffffffffffffffull;
 v39 = v39 & v64;
 v25 = v25 & v63;
 v34 = v34 & v64;
 L134e:;
 if (load8(v6) != 0) {
  goto L135e;
 }
 f77((v3 + 16ull), 1ull, 0ull, (u32)(v22));
 v63 = load64(v3 + 24) ^ 0xffffffffffffffffull;
 v59 = v59 & v63;
 v64 = load64(v3 + 16) ^ 0xffffffffffffffffull;
 v39 = v39 & v64;
 v25 = v25 & v63;
 v34 = v34 & v64;
 L135e:;
 v6 = v6 + 2096ull;
 v22 = v22 + 2ull;
 if (v22 != 73ull) {
  goto L133;
 }
 store64(v3 + 2800, load64(v3 + 2896));
 store64(v3 + 2792, load64(v3 + 2888));
 move((v3 + 488ull), v15, 2304ull);
 v6 = load64(v3 + 2880);
 if (v6 != 8ull) {
  goto L136e;
 }
 import_rattle_dealloc(v30);
 if (!v21) {
  goto L137e;
 }
 p1 = v58;
 L138:;
 if (load8(p1) == 0) {
  goto L139e;
 }
 if (load8(p1 + 32ull) == 0) {
  goto L139e;
 }
 if (load64(p1 + 56ull) == 0) {
  goto L139e;
 }
 import_rattle_dealloc(load64(p1 + 40ull));
 L139e:;
 p1 = p1 + 96ull;
 v21 = v21 - 1ull;
 if (v21 != 0ull) {
  goto L138;
 }
 L137e:;
 if (!v60) {
  goto L140e;
 }
 import_rattle_dealloc(v58);
 L140e:;
 import_rattle_dealloc(v57);
 import_rattle_dealloc(v68);
 f23((v3 + 2848ull));
 v4 = 0u;
 goto L3e;
 L136e:;
 store8((v3 + 2872ull) + v6, (u8)(v23));
 store64(v3 + 2880, v6 + 1ull);
 v22 = load64(v3 + 2856);
 if (load64(v3 + 2864) != v22) {
  goto L142e;
 }
 a3 = f13(HEAP (v3 + 2848ull));
 if (!a3) {
  goto L141e;
 }
 v22 = load64(v3 + 2856);
 L142e:;
 v6 = load64(v3 + 2848) + (v22 * 2560ull);
 store64(v6 + 32, 0ull);
 store64(v6 + 24, v20);
 store64(v6 + 16, 512ull);
 store64(v6 + 8, v30);
 store64(v6, v69);
 store64(v6 + 40, 0ull);
 store64(v6 + 64, v60);
 store64(v6 + 56, v21);
 store64(v6 + 48, v58);
 store64(v6 + 72, load64(v3 + 2792));
 store64(v6 + 80, load64(v3 + 2800));
 move((v6 + 88ull), (v3 + 488ull), 2304ull);
 store64(v6 + 2408, v65);
 store64(v6 + 2400, v66);
 store64(v6 + 2520, v59);
 store64(v6 + 2512, v39);
 store64(v6 + 2504, v25);
 store64(v6 + 2496, v34);
 store32(v6 + 2419, 0u);
 store8(v6 + 2418, (u8)(v36));
 store8(v6 + 2417, (u8)(v35));
 store8(v6 + 2416, (u8)(v37));
 store64(v6 + 2392, v67);
 store8(v6 + 2423, (u8)(0u));
 store32(v6 + 2556, 0u);
 store32(v6 + 2552, v41);
 store32(v6 + 2548, v38);
 store32(v6 + 2544, v40);
 store32(v6 + 2540, v44);
 store32(v6 + 2536, v28);
 store32(v6 + 2532, v29);
 store32(v6 + 2528, v31);
 store64(v6 + 2488, 0ull);
 store64(v6 + 2480, 71ull);
 store64(v6 + 2472, 71ull);
 store64(v6 + 2464, v68);
 store64(v6 + 2456, 0ull);
 store64(v6 + 2448, v56);
 store64(v6 + 2440, v32);
 store64(v6 + 2432, 16ull);
 store64(v6 + 2424, v57);
 store64(v3 + 2856, v22 + 1ull);
 v9 = v9 + 1ull;
 if (v9 != 9ull) {
  goto L13;
 }
 f23((v3 + 2848ull));
 v4 = 0u;
 goto L3e;
 L141e:;
 import_rattle_dealloc(v30);
 if (!v21) {
  goto L143e;
 }
 p1 = v58;
 L144:;
 if (load8(p1) == 0) {
  goto L145e;
 }
 if (load8(p1 + 32ull) == 0) {
  goto L145e;
 }
 if (load64(p1 + 56ull) == 0) {
  goto L145e;
 }
 import_rattle_dealloc(load64(p1 + 40ull));
 L145e:;
 p1 = p1 + 96ull;
 v21 = v21 - 1ull;
 if (v21 != 0ull) {
  goto L144;
 }
 L143e:;
 if (!v60) {
  goto L146e;
 }
 import_rattle_dealloc(v58);
 L146e:;
 import_rattle_dealloc(v57);
 import_rattle_dealloc(v68);
 f23((v3 + 2848ull));
 goto L4e;
 L41e:;
 import_rattle_dealloc(v58);
 L40e:;
 import_rattle_dealloc(v57);
 goto L12e;
 L39e:;
 v6 = load64(v3 + 9984);
 p0 = load64(v3 + 9968);
 p2 = load64(v3 + 9976);
 if (!p2) {
  goto L147e;
 }
 p1 = p0;
 L148:;
 if (load8(p1) == 0) {
  goto L149e;
 }
 if (load8(p1 + 32ull) == 0) {
  goto L149e;
 }
 if (load64(p1 + 56ull) == 0) {
  goto L149e;
 }
 import_rattle_dealloc(load64(p1 + 40ull));
 L149e:;
 p1 = p1 + 96ull;
 p2 = p2 - 1ull;
 if (p2 != 0ull) {
  goto L148;
 }
 L147e:;
 if (!v6) {
  goto L38e;
 }
 import_rattle_dealloc(p0);
 L38e:;
 import_rattle_dealloc(v30);
 goto L12e;
 L19e:;
 v35 = 0u;
 L18e:;
 v36 = 0u;
 v37 = 0u;
 v33 = 0u;
 L17e:;
 store8(v3 + 9904, (u8)(v33));
 store32(v3 + 9900, v37);
 store32(v3 + 9896, v36);
 store16(v3 + 9894, (u16)(v35));
 store8(v3 + 9893, (u8)(v24));
 store8(v3 + 9892, (u8)(v4));
 f7((v3 + 9864ull), (v3 + 9892ull));
 v21 = load64(v3 + 9880);
 if (v6 < v21) {
  goto L14e;
 }
 store64(v3 + 408, v6 - v21);
 store64(v3 + 400, load64(v3 + 400) + v21);
 store64(v3 + 9848, load64(v19));
 store16(v3 + 9856, (u16)(load16(v19 + 8)));
 L16e:;
 if (v20 > 511ull) {
  goto L150e;
 }
 switch (v4 - 12u) {
 case 0:
  goto L153e;
 case 1:
  goto L152e;
 default:
  goto L151e;
 }
 L153e:;
 v6 = !v20 ? (v3 + 12432ull) : v30;
 v21 = 0xffffffffffffffffull;
 L155:;
 v21 = v21 + 1ull;
 if (v20 == v21) {
  goto L154e;
 }
 v4 = load8(v6);
 v6 = v6 + 16ull;
 if (v4 != 12u) {
  goto L155;
 }
 goto L150e;
 L154e:;
 v6 = v30 + (v20 << 4);
 store8(v6, (u8)(12u));
 store64(v6 + 1ull, 0ull);
 store32(v6 + 9ull, 0u);
 v20 = v20 + 1ull;
 goto L150e;
 L152e:;
 v6 = !v20 ? (v3 + 12432ull) : v30;
 v21 = 0xffffffffffffffffull;
 L157:;
 v21 = v21 + 1ull;
 if (v20 == v21) {
  goto L156e;
 }
 v4 = load8(v6);
 v6 = v6 + 16ull;
 if (v4 != 13u) {
  goto L157;
 }
 goto L150e;
 L156e:;
 v6 = v30 + (v20 << 4);
 store8(v6, (u8)(13u));
 store64(v6 + 1ull, 0ull);
 store32(v6 + 9ull, 0u);
 v20 = v20 + 1ull;
 goto L150e;
 L151e:;
 if (v31) {
  goto L150e;
 }
 v6 = v30 + (v20 << 4);
 store8(v6, (u8)(v4));
 store8(v6 + 1ull, (u8)(v24));
 store64(v6 + 2ull, load64(v3 + 9848));
 store16(v6 + 10ull, (u16)(load16(v3 + 9856)));
 store8(v6 + 12ull, (u8)(v33));
 v20 = v20 + 1ull;
 L150e:;
 v32 = v32 + 1ull;
 if (v32 != 513ull) {
  goto L15;
 }
 L14e:;
 import_rattle_dealloc(v30);
 v24 = 0u;
 L12e:;
 f23((v3 + 2848ull));
 v4 = 2u;
 if ((v24 & 255u) == 0) {
  goto L7e;
 }
 goto L3e;
 L11e:;
 f23((v3 + 2848ull));
 v4 = 0u;
 goto L3e;
 L10e:;
 f23((v3 + 2848ull));
 v4 = 0u;
 goto L3e;
 L9e:;
 v6 = load64(v3 + 2880);
 store64(v3 + 2816, v6);
 v20 = load64(v3 + 2872);
 store64(v3 + 2808, v20);
 v21 = load64(v3 + 2848);
 store64(v3 + 2824, v21);
 store64(v3 + 446, v20);
 store64(v3 + 454, v6);
 store64(v3 + 462, v21);
 store64(v3 + 470, load64(v3 + 2856));
 store64(v3 + 478, load64(v3 + 2864));
 store32(v3 + 7528, 0u);
 store32(v3 + 7531, 0u);
 store64(v3 + 5208, load64(v3 + 446));
 v22 = load64(v3 + 454);
 store64(v3 + 5216, v22);
 store8(v3 + 2888, (u8)(v5));
 if ((v22 - 1ull) > 7ull) {
  goto L159e;
 }
 v25 = (v3 + 440ull) | 6ull;
 v20 = v3 + 5208ull;
 v6 = v22;
 L161:;
 if (!v6) {
  goto L160e;
 }
 v21 = v20 + 1ull;
 v6 = v6 - 1ull;
 a4 = f14(v21, v6, v20);
 v4 = a4;
 v20 = v21;
 if (!v4) {
  goto L161;
 }
 goto L159e;
 L160e:;
 a5 = f14((v3 + 5208ull), v22, (v3 + 2888ull));
 if (!a5) {
  goto L158e;
 }
 L159e:;
 store64(v3 + 9984, load64(v3 + 478));
 store64(v3 + 9976, load64(v3 + 470));
 store64(v3 + 9968, load64(v3 + 462));
 f23((v3 + 9968ull));
 v4 = 0u;
 goto L3e;
 L158e:;
 v6 = load64(v25 + 8);
 store64(v3 + 7543, v6);
 store64(v3 + 7535, load64(v25));
 store64(v3 + 431, v6);
 store64(v3 + 424, load64(v3 + 7536));
 v6 = load64(v3 + 7528);
 store64(v3 + 416, v6);
 store64(v3 + 312, v6);
 store64(v3 + 320, load64(v3 + 424));
 store64(v3 + 327, load64(v3 + 431));
 store64(v3 + 304, load64(v3 + 478));
 store64(v3 + 296, load64(v3 + 470));
 store64(v3 + 288, load64(v3 + 462));
 store8(v3 + 336, (u8)(v5));
 store64(v3 + 352, load64(v3 + 327));
 store64(v3 + 345, load64(v3 + 320));
 store64(v3 + 337, load64(v3 + 312));
 store64(v3 + 376, load64(v3 + 304));
 store64(v3 + 368, load64(v3 + 296));
 store64(v3 + 360, load64(v3 + 288));
 store32(v3 + 396, 0u);
 store32(v3 + 392, v10);
 store32(v3 + 388, v8);
 store32(v3 + 384, v7);
 f15(HEAP (v3 + 256ull), (v3 + 336ull));
 if (load8(v3 + 256) != 0) {
  goto L5e;
 }
 v20 = load64(v3 + 280);
 v6 = load64(v3 + 264);
 if (load64(v3 + 272) != p2) {
  goto L162e;
 }
 if (load8(v6) != load8(p1)) {
  goto L162e;
 }
 if ((load8(v6 + 1ull) & 255u) != (load8(p1 + 1ull) & 255u)) {
  goto L162e;
 }
 if ((load8(v6 + 2ull) & 255u) != (load8(p1 + 2ull) & 255u)) {
  goto L162e;
 }
 if ((load8(v6 + 3ull) & 255u) != (load8(p1 + 3ull) & 255u)) {
  goto L162e;
 }
 a6 = f22(v6, p2, p1);
 if (a6) {
  goto L6e;
 }
 L162e:;
 if (!v20) {
  goto L163e;
 }
 import_rattle_dealloc(v6);
 L163e:;
 f23((v3 + 288ull));
 L7e:;
 v4 = 0u;
 goto L3e;
 L6e:;
 if (!v20) {
  goto L164e;
 }
 import_rattle_dealloc(v6);
 L164e:;
 store64(v3 + 200, load64(v3 + 344));
 store64(v3 + 208, load64(v3 + 352));
 store64(v3 + 216, load64(v3 + 360));
 store64(v3 + 224, load64(v3 + 368));
 store64(v3 + 232, load64(v3 + 376));
 store64(v3 + 240, load64(v3 + 384));
 store64(v3 + 248, load64(v3 + 392));
 p2 = load64(v3 + 336);
 store64(v3 + 192, load64(v3 + 248));
 store64(v3 + 184, load64(v3 + 240));
 store64(v3 + 176, load64(v3 + 232));
 store64(v3 + 168, load64(v3 + 224));
 store64(v3 + 160, load64(v3 + 216));
 store64(v3 + 152, load64(v3 + 208));
 store64(v3 + 144, load64(v3 + 200));
 import_rattle_alloc(HEAP (v3 + 128ull), 64ull, 8ull);
 if (((u32)(load64(v3 + 128)) & 1u) == 0) {
  goto L2e;
 }
 p1 = load64(v3 + 136);
 store64(p1 + 8, load64(v3 + 144));
 store64(p1, p2);
 store64(p1 + 16, load64(v3 + 152));
 store64(p1 + 24, load64(v3 + 160));
 store64(p1 + 32, load64(v3 + 168));
 store64(p1 + 40, load64(v3 + 176));
 store64(p1 + 48, load64(v3 + 184));
 store64(p1 + 56, load64(v3 + 192));
 p2 = load64(p0);
 store64(p0, p1);
 v4 = 0u;
 if (!p2) {
  goto L1e;
 }
 store64(v3 + 10024, load64(p2 + 56));
 store64(v3 + 10016, load64(p2 + 48));
 store64(v3 + 10008, load64(p2 + 40));
 store64(v3 + 10000, load64(p2 + 32));
 store64(v3 + 9992, load64(p2 + 24));
 store64(v3 + 9984, load64(p2 + 16));
 store64(v3 + 9976, load64(p2 + 8));
 store64(v3 + 9968, load64(p2));
 import_rattle_dealloc(p2);
 f3((v3 + 9992ull));
 goto L1e;
 L5e:;
 f23((v3 + 288ull));
 L4e:;
 v4 = 2u;
 L3e:;
 v4 = v4 + 81u;
 goto L1e;
 L2e:;
 f3((v3 + 160ull));
 v4 = 83u;
 L1e:;
 return v4;
}

static u32 module_ncp_embed_new(HEAP_IS u64 p0, u32 p1, u64 p2, u64 p3)
{
 u32 v8 = 0, a0 = 0, a1 = 0;
 u64 v4 = 0, v5 = 0, v6 = 0, v7 = 0, v9 = 0, v10 = 0, v11 = 0, v12 = 0;
 FRAME_OF(26);
 v4 = frame;
 store8(v4 + 128, (u8)(p1));
 if ((p3 - 1ull) > 7ull) {
  goto L2e;
 }
 v5 = p2 + (!p2 ? 4096ull : 0ull);
 v6 = v5;
 p2 = p3;
 L4:;
 if (!p2) {
  goto L3e;
 }
 v7 = v6 + 1ull;
 p2 = p2 - 1ull;
 a0 = f14(v7, p2, v6);
 v8 = a0;
 v6 = v7;
 if (!v8) {
  goto L4;
 }
 goto L2e;
 L3e:;
 a1 = f14(v5, p3, (v4 + 128ull));
 if (a1) {
  goto L2e;
 }
 store64(v4 + 112, 0ull);
 if (p3 > 8ull) {
  goto L8e;
 }
 v8 = (u32)((!p3));
 if (v8) {
  goto L9e;
 }
 move((v4 + 112ull), v5, p3);
 L9e:;
 store64(v4 + 120, p3);
 store64(v4 + 144, 0ull);
 store64(v4 + 136, 0ull);
 store64(v4 + 128, 0ull);
 if (!v8) {
  goto L7e;
 }
 v9 = v4 + 192ull;
 goto L6e;
 L8e:;
 UNREACHABLE;
 L7e:;
 import_rattle_alloc(HEAP (v4 + 80ull), (p3 * 2560ull), 16ull);
 if (((u32)(load64(v4 + 80)) & 1u) == 0) {
  goto L5e;
 }
 v9 = load64(v4 + 88);
 v6 = 0ull;
 v7 = 0ull;
 L13:;
 import_rattle_alloc(HEAP (v4 + 64ull), 8192ull, 4ull);
 if (((u32)(load64(v4 + 64)) & 1u) == 0) {
  goto L10e;
 }
 v5 = load64(v4 + 72);
 import_rattle_alloc(HEAP (v4 + 48ull), 12288ull, 8ull);
 if (((u32)(load64(v4 + 48)) & 1u) == 0) {
  goto L11e;
 }
 v10 = load64(v4 + 56);
 import_rattle_alloc(HEAP (v4 + 32ull), 176ull, 1ull);
 if (((u32)(load64(v4 + 32)) & 1u) == 0) {
  goto L14e;
 }
 v11 = load64(v4 + 40);
 import_rattle_alloc(HEAP (v4 + 16ull), 74408ull, 8ull);
 if (((u32)(load64(v4 + 16)) & 1u) == 0) {
  goto L12e;
 }
 v12 = load64(v4 + 24);
 fill(v12, 0u, 74408ull);
 p2 = v9 + v6;
 store64(p2 + 24ull, 0ull);
 store64(p2 + 16ull, 512ull);
 store64(p2 + 8ull, v5);
 store64(p2, 1ull);
 store64(p2 + 32ull, 0ull);
 store64(p2 + 40ull, 0ull);
 store64(p2 + 64ull, 128ull);
 store64(p2 + 56ull, 0ull);
 store64(p2 + 48ull, v10);
 fill((p2 + 72ull), 0u, 2352ull);
 store64(p2 + 2440ull, 0ull);
 store64(p2 + 2432ull, 16ull);
 store64(p2 + 2424ull, v11);
 store64(p2 + 2448ull, 0ull);
 store64(p2 + 2456ull, 0ull);
 store64(p2 + 2480ull, 71ull);
 store64(p2 + 2472ull, 71ull);
 store64(p2 + 2464ull, v12);
 fill((p2 + 2488ull), 0u, 72ull);
 v6 = v6 + 2560ull;
 v7 = v7 + 1ull;
 if (p3 == v7) {
  goto L6e;
 }
 goto L13;
 L14e:;
 import_rattle_dealloc(v10);
 import_rattle_dealloc(v5);
 goto L10e;
 L12e:;
 import_rattle_dealloc(v5);
 import_rattle_dealloc(v10);
 import_rattle_dealloc(v11);
 goto L10e;
 L11e:;
 import_rattle_dealloc(v5);
 L10e:;
 store64(v4 + 144, p3);
 store64(v4 + 136, v7);
 store64(v4 + 128, v9);
 f23((v4 + 128ull));
 goto L5e;
 L6e:;
 store64(v4 + 96, load64(v4 + 112));
 store64(v4 + 104, load64(v4 + 120));
 import_rattle_alloc(HEAP v4, 64ull, 8ull);
 if (((u32)(load64(v4)) & 1u) == 0) {
  goto L15e;
 }
 p2 = load64(v4 + 8);
 store64(p2 + 8, load64(v4 + 96));
 store64(p2 + 16, load64(v4 + 104));
 store64(p2 + 48, 0ull);
 store64(p2 + 40, p3);
 store64(p2 + 32, p3);
 store64(p2 + 24, v9);
 store64(p2 + 56, 0ull);
 store64(p2, (u64)(p1) & 255ull);
 v6 = load64(p0);
 store64(p0, p2);
 v8 = 0u;
 if (!v6) {
  goto L1e;
 }
 store64(v4 + 184, load64(v6 + 56));
 store64(v4 + 176, load64(v6 + 48));
 store64(v4 + 168, load64(v6 + 40));
 store64(v4 + 160, load64(v6 + 32));
 store64(v4 + 152, load64(v6 + 24));
 store64(v4 + 144, load64(v6 + 16));
 store64(v4 + 136, load64(v6 + 8));
 store64(v4 + 128, load64(v6));
 import_rattle_dealloc(v6);
 f3((v4 + 152ull));
 goto L1e;
 L15e:;
 store64(v4 + 144, p3);
 store64(v4 + 136, p3);
 store64(v4 + 128, v9);
 f3((v4 + 128ull));
 L5e:;
 v8 = 66u;
 goto L1e;
 L2e:;
 v8 = 65u;
 L1e:;
 return v8;
}

static u32 module_ncp_embed_subnet_new(HEAP_IS u64 p0, u64 p1, u64 p2)
{
 u32 v8 = 0, v10 = 0, a0 = 0;
 u64 v3 = 0, v4 = 0, v5 = 0, v6 = 0, v7 = 0, v9 = 0, v11 = 0;
 FRAME_OF(10);
 v3 = frame;
 v4 = 0ull;
 store64(v3 + 56, 0ull);
 store64(v3 + 64, 0ull);
 store64(v3 + 48, v3 + 72ull);
 if (!p2) {
  goto L4e;
 }
 v5 = p1 + (!p1 ? 4096ull : 0ull);
 v6 = v3 + 72ull;
 v7 = 0ull;
 L7:;
 v8 = load8(v5 + v7);
 v9 = 0ull;
 L8:;
 v10 = load8(v5 + v9);
 if (v10 == (v8 & 255u)) {
  goto L9e;
 }
 import_rattle_alloc(HEAP (v3 + 32ull), 268288ull, 8ull);
 if ((load32(v3 + 32) & 1u) == 0) {
  goto L5e;
 }
 v11 = load64(v3 + 40);
 fill(v11, 0u, 268288ull);
 if (load64(v3 + 64) != v4) {
  goto L10e;
 }
 a0 = f24(HEAP (v3 + 48ull));
 if (!a0) {
  goto L6e;
 }
 v6 = load64(v3 + 48);
 v4 = load64(v3 + 56);
 L10e:;
 p1 = v6 + (v4 << 5);
 store64(p1 + 24, 256ull);
 store64(p1 + 16, 256ull);
 store64(p1 + 8, v11);
 store32(p1 + 2, (u32)(0ull));
 store8(p1 + 1, (u8)(v10));
 store8(p1, (u8)(v8));
 store16(p1 + 6ull, (u16)(0ull));
 v4 = v4 + 1ull;
 store64(v3 + 56, v4);
 L9e:;
 v9 = v9 + 1ull;
 if (p2 != v9) {
  goto L8;
 }
 v7 = v7 + 1ull;
 if (v7 != p2) {
  goto L7;
 }
 p2 = load64(v3 + 64);
 v9 = load64(v3 + 48);
 import_rattle_alloc(HEAP (v3 + 16ull), 24ull, 8ull);
 if (((u32)(load64(v3 + 16)) & 1u) == 0) {
  goto L2e;
 }
 p1 = load64(v3 + 24);
 goto L3e;
 L6e:;
 import_rattle_dealloc(v11);
 v4 = load64(v3 + 56);
 v6 = load64(v3 + 48);
 L5e:;
 v9 = load64(v3 + 64);
 if (!v4) {
  goto L11e;
 }
 p1 = v6 + 24ull;
 L12:;
 if (load64(p1) == 0) {
  goto L13e;
 }
 import_rattle_dealloc(load64(p1 - 16ull));
 L13e:;
 p1 = p1 + 32ull;
 v4 = v4 - 1ull;
 if (v4 != 0ull) {
  goto L12;
 }
 L11e:;
 if (!v9) {
  goto L14e;
 }
 import_rattle_dealloc(v6);
 L14e:;
 v8 = 66u;
 goto L1e;
 L4e:;
 import_rattle_alloc(HEAP v3, 24ull, 8ull);
 v8 = 66u;
 if (((u32)(load64(v3)) & 1u) == 0) {
  goto L1e;
 }
 v4 = 0ull;
 v9 = v3 + 72ull;
 p1 = load64(v3 + 8);
 p2 = 0ull;
 L3e:;
 store64(p1 + 16, p2);
 store64(p1 + 8, v4);
 store64(p1, v9);
 v4 = load64(p0);
 store64(p0, p1);
 v8 = 0u;
 if (!v4) {
  goto L1e;
 }
 v5 = load64(v4 + 16);
 p2 = load64(v4);
 v9 = load64(v4 + 8);
 import_rattle_dealloc(v4);
 if (!v9) {
  goto L15e;
 }
 p1 = p2 + 24ull;
 L16:;
 if (load64(p1) == 0) {
  goto L17e;
 }
 import_rattle_dealloc(load64(p1 - 16ull));
 L17e:;
 p1 = p1 + 32ull;
 v9 = v9 - 1ull;
 if (v9 != 0ull) {
  goto L16;
 }
 L15e:;
 if (!v5) {
  goto L1e;
 }
 import_rattle_dealloc(p2);
 goto L1e;
 L2e:;
 if (!v4) {
  goto L18e;
 }
 p1 = v9 + 24ull;
 L19:;
 if (load64(p1) == 0) {
  goto L20e;
 }
 import_rattle_dealloc(load64(p1 - 16ull));
 L20e:;
 p1 = p1 + 32ull;
 v4 = v4 - 1ull;
 if (v4 != 0ull) {
  goto L19;
 }
 L18e:;
 v8 = 66u;
 if (!p2) {
  goto L1e;
 }
 import_rattle_dealloc(v9);
 L1e:;
 return v8;
}

static u32 module_ncp_embed_allocate(u64 p0, u64 p1, u32 p2, u32 p3)
{
 u32 v6 = 0, v9 = 0, v10 = 0, v15 = 0;
 u64 v4 = 0, v5 = 0, v7 = 0, v8 = 0, v11 = 0, v12 = 0, v13 = 0, v14 = 0;
 FRAME_OF(8);
 v4 = frame;
 v5 = load64(p0);
 store64(p0, 0ull);
 if (!(!v5)) {
  goto L2e;
 }
 v6 = 32u;
 goto L1e;
 L2e:;
 v7 = load64(v5 + 16ull);
 if (!v7) {
  goto L4e;
 }
 v8 = load64(v5 + 24ull);
 v9 = load32(p1 + 8ull);
 v10 = load32(p1 + 4ull);
 v6 = load8(p1);
 v11 = v5 + 8ull;
 p1 = 0ull;
 L5:;
 if (load8(v11 + p1) == (v6 & 255u)) {
  goto L3e;
 }
 v8 = v8 + 2560ull;
 p1 = p1 + 1ull;
 if (v7 != p1) {
  goto L5;
 }
 L4e:;
 store64(p0, v5);
 v6 = 1u;
 goto L1e;
 L3e:;
 store64(v4 + 8, 0ull);
 store64(v4, 0ull);
 v6 = 2u;
 if (load8(v8) != 0) {
  goto L6e;
 }
 if (load8(v8 + 1ull) != 0) {
  goto L6e;
 }
 if (load8(v8 + 2ull) != 0) {
  goto L6e;
 }
 if (load8(v8 + 3ull) != 0) {
  goto L6e;
 }
 v11 = load64(v8 + 56ull);
 v12 = v8 + 48ull;
 p1 = load64(v12);
 v13 = load64(v8 + 24ull);
 v7 = 0ull;
 L7:;
 if (v11 != v7) {
  goto L8e;
 }
 v6 = 6u;
 goto L6e;
 L8e:;
 if (load8(p1) != 1u) {
  goto L9e;
 }
 if (load32(p1 + 8ull) != v10) {
  goto L9e;
 }
 if (load32(p1 + 12ull) != v9) {
  goto L9e;
 }
 if (load8(p1) != 1u) {
  goto L10e;
 }
 v6 = 7u;
 if (load8(p1 + 19ull) != 0) {
  goto L12e;
 }
 if (load8(p1 + 20ull) != 0) {
  goto L12e;
 }
 v6 = 8u;
 if (load8(p1 + 16ull) != 1u) {
  goto L12e;
 }
 if (load8(p1 + 17ull) != 1u) {
  goto L12e;
 }
 v6 = 9u;
 if ((load8(p1 + 8ull) & 1u) != 0) {
  goto L12e;
 }
 if ((load32(p1 + 12ull) & 1u) == 0) {
  goto L12e;
 }
 v10 = load32(p1 + 28ull);
 v11 = (u64)(v10);
 if (load8(p1 + 32ull) == 1u) {
  goto L14e;
 }
 v11 = v11 + (u64)(p3);
 v14 = 0ull;
 goto L13e;
 L14e:;
 v11 = (v11 + (u64)(p3)) + load64(p1 + 72ull);
 v14 = load64(p1 + 80ull);
 L13e:;
 v6 = 13u;
 if (v14 < v11) {
  goto L12e;
 }
 v15 = load16(p1 + 24ull);
 v9 = v15 + (p2 & 65535u);
 v6 = v9 > 65535u ? 13u : 15u;
 if (v13 > 255ull) {
  goto L12e;
 }
 if (v9 < 65536u) {
  goto L11e;
 }
 L12e:;
 f25(v12, v7);
 v6 = v6 + 1u;
 goto L6e;
 L11e:;
 store32(p1 + 28ull, v10 + p3);
 store16(p1 + 24ull, (u16)(v15 + p2));
 v10 = load8(p1 + 22ull);
 f25(v12, v7);
 v6 = 0u;
 store8(v4 + 12, (u8)(0u));
 store32(v4 + 8, 0u);
 store32(v4 + 4, p3);
 store16(v4 + 2, (u16)(p2));
 store8(v4 + 1, (u8)(v10));
 store8(v4, (u8)(4u));
 f26(v8, v4);
 goto L6e;
 L10e:;
 UNREACHABLE;
 L9e:;
 p1 = p1 + 96ull;
 v7 = v7 + 1ull;
 goto L7;
 L6e:;
 p1 = load64(p0);
 store64(p0, v5);
 if (!p1) {
  goto L1e;
 }
 store64(v4 + 56, load64(p1 + 56));
 store64(v4 + 48, load64(p1 + 48));
 store64(v4 + 40, load64(p1 + 40));
 store64(v4 + 32, load64(p1 + 32));
 store64(v4 + 24, load64(p1 + 24));
 store64(v4 + 16, load64(p1 + 16));
 store64(v4 + 8, load64(p1 + 8));
 store64(v4, load64(p1));
 import_rattle_dealloc(p1);
 f3((v4 + 24ull));
 L1e:;
 return v6;
}

static u32 module_ncp_embed_ask_receive(HEAP_IS u64 p0, u64 p1, u32 p2)
{
 u32 v5 = 0, v7 = 0, v8 = 0, v17 = 0;
 u64 v3 = 0, v4 = 0, v6 = 0, v9 = 0, v10 = 0, v11 = 0, v12 = 0, v13 = 0, v14 = 0, v15 = 0, v16 = 0, v18 = 0;
 FRAME_OF(10);
 v3 = frame;
 v4 = load64(p0);
 store64(p0, 0ull);
 if (!(!v4)) {
  goto L2e;
 }
 v5 = 32u;
 goto L1e;
 L2e:;
 v6 = load64(v4 + 16ull);
 if (!v6) {
  goto L4e;
 }
 v7 = load32(p1 + 8ull);
 v8 = load32(p1 + 4ull);
 v5 = load8(p1);
 v9 = load64(v4 + 24ull) + 1288ull;
 v10 = v4 + 8ull;
 p1 = 0ull;
 L5:;
 if (load8(v10 + p1) == (v5 & 255u)) {
  goto L3e;
 }
 v9 = v9 + 2560ull;
 p1 = p1 + 1ull;
 if (v6 != p1) {
  goto L5;
 }
 L4e:;
 store64(p0, v4);
 v5 = 1u;
 goto L1e;
 L3e:;
 store64(v3 + 24, 0ull);
 store64(v3 + 16, 0ull);
 v5 = 1u;
 v11 = v9 - 1288ull;
 if (load8(v11) != 0) {
  goto L7e;
 }
 v5 = 1u;
 if (load8(v9 - 1287ull) != 0) {
  goto L7e;
 }
 v5 = 1u;
 if (load8(v9 - 1286ull) != 0) {
  goto L7e;
 }
 v5 = 1u;
 if (load8(v9 - 1285ull) != 0) {
  goto L7e;
 }
 v5 = 2u;
 if ((v8 & 1u) != 0) {
  goto L7e;
 }
 if ((v7 & 1u) == 0) {
  goto L7e;
 }
 if ((p2 - 1u) <= 65535u) {
  goto L8e;
 }
 v5 = 4u;
 goto L7e;
 L8e:;
 v12 = load64(v9 - 1264ull);
 v13 = v9 - 1232ull;
 v14 = load64(v13);
 v15 = v9 - 1240ull;
 p1 = load64(v15);
 v10 = 0ull;
 v6 = 0ull;
 L9:;
 if (v14 == v6) {
  goto L15e;
 }
 v16 = p1 + v10;
 if (load8(v16) != 1u) {
  goto L10e;
 }
 if (load32(v16 + 8ull) != v8) {
  goto L10e;
 }
 if (load32(v16 + 12ull) != v7) {
  goto L10e;
 }
 if (v6 >= v14) {
  goto L11e;
 }
 if (load8(v16) != 1u) {
  goto L11e;
 }
 v17 = load8(v16 + 19ull);
 if (load8(v16 + 16ull) != 1u) {
  goto L16e;
 }
 if ((v17 & 1u) == 0) {
  goto L14e;
 }
 v5 = 7u;
 goto L7e;
 L16e:;
 v5 = 7u;
 if ((v17 & 1u) != 0) {
  goto L7e;
 }
 if (load8(v16 + 20ull) != 0) {
  goto L7e;
 }
 L15e:;
 v16 = 0ull;
 L17:;
 v6 = 0ull - v14;
 L19:;
 v6 = v6 + 1ull;
 if (v6 == 1ull) {
  goto L18e;
 }
 v5 = load8(p1);
 v10 = p1 + 96ull;
 p1 = v10;
 if (v5 != 1u) {
  goto L19;
 }
 v14 = 0ull - v6;
 v16 = v16 + (u64)load8(v10 - 80ull);
 p1 = v10;
 goto L17;
 L18e:;
 v17 = (u32)((v16 > 63ull));
 v5 = v17 ? 14u : 15u;
 if (v12 > 255ull) {
  goto L7e;
 }
 if (v17) {
  goto L7e;
 }
 v12 = (u64)(p2);
 p1 = (v12 + 7ull) >> 3;
 v16 = p1 + 1ull;
 import_rattle_alloc(HEAP v3, v16, 1ull);
 if (((u32)(load64(v3)) & 1u) != 0) {
  goto L20e;
 }
 v5 = 16u;
 goto L7e;
 L20e:;
 v14 = load64(v3 + 8);
 v5 = (u32)((!p1));
 if (v5) {
  goto L21e;
 }
 if (v5) {
  goto L21e;
 }
 fill(v14, 0u, p1);
 L21e:;
 store8(v14 + p1, (u8)(0u));
 v6 = 3ull;
 p1 = v9;
 L22:;
 if (load8(p1 - 16ull) == 1u) {
  goto L23e;
 }
 v6 = v6 - 1ull;
 goto L13e;
 L23e:;
 if (load8(p1) != 1u) {
  goto L13e;
 }
 p1 = p1 + 32ull;
 v6 = v6 + 2ull;
 if (v6 != 73ull) {
  goto L22;
 }
 v5 = 72u;
 goto L12e;
 L14e:;
 v5 = load8(v16 + 20ull) | 6u;
 goto L7e;
 L13e:;
 v5 = (u32)(v6);
 L12e:;
 v10 = load64(v13);
 v6 = 0ull;
 v18 = load64(v15);
 p1 = v18;
 L24:;
 if (v10 == v6) {
  goto L27e;
 }
 if (load8(p1) != 1u) {
  goto L25e;
 }
 if (load32(p1 + 8ull) != v8) {
  goto L25e;
 }
 if (load32(p1 + 12ull) != v7) {
  goto L25e;
 }
 if (load8(p1) != 1u) {
  goto L11e;
 }
 store8(p1 + 22ull, (u8)(v5));
 store8(p1 + 16ull, (u8)(1u));
 store64(p1 + 64ull, 0ull);
 store64(p1 + 48ull, v16);
 store64(p1 + 72ull, 0ull);
 store64(p1 + 80ull, v12);
 v9 = p1 + 32ull;
 p2 = load8(v9);
 store64(v9, 1ull);
 v9 = p1 + 40ull;
 v12 = load64(v9);
 store64(v9, v14);
 v9 = p1 + 56ull;
 v10 = load64(v9);
 store64(v9, v16);
 if (p2 != 1u) {
  goto L28e;
 }
 if (!v10) {
  goto L28e;
 }
 import_rattle_dealloc(v12);
 L28e:;
 p2 = 1u;
 v9 = p1 + 18ull;
 if (load8(v9) != 0) {
  goto L29e;
 }
 p2 = 0u;
 if (load8(p1 + 16ull) != 1u) {
  goto L29e;
 }
 if (load8(p1 + 17ull) != 1u) {
  goto L29e;
 }
 if (load8(p1 + 19ull) != 0) {
  goto L29e;
 }
 p2 = load8(p1 + 20ull) ^ 1u;
 L29e:;
 store8(v9, (u8)(p2 & 1u));
 f11(v15, v6);
 goto L26e;
 L27e:;
 p1 = v9 - 1216ull;
 store64(p1, load64(p1) + 1ull);
 v6 = v9 - 1208ull;
 v9 = load64(v6);
 p1 = v18 + (v9 * 96ull);
 if (v9 != v10) {
  goto L31e;
 }
 store64(p1, 1ull);
 store32(p1 + 17ull, 0u);
 store8(p1 + 16ull, (u8)(1u));
 store32(p1 + 12ull, v7);
 store32(p1 + 8ull, v8);
 store8(p1 + 21ull, (u8)(0u));
 store64(p1 + 23ull, 0ull);
 store8(p1 + 22ull, (u8)(v5));
 store8(p1 + 31ull, (u8)(0u));
 store64(p1 + 64ull, 0ull);
 store64(p1 + 56ull, v16);
 store64(p1 + 48ull, v16);
 store64(p1 + 40ull, v14);
 store64(p1 + 32ull, 1ull);
 store64(p1 + 72ull, 0ull);
 store64(p1 + 88ull, 0ull);
 store64(p1 + 80ull, v12);
 v10 = v10 + 1ull;
 store64(v13, v10);
 goto L30e;
 L31e:;
 store32(p1 + 17ull, 0u);
 store8(p1 + 16ull, (u8)(1u));
 p2 = load8(p1);
 store64(p1, 1ull);
 store8(p1 + 21ull, (u8)(0u));
 store64(p1 + 23ull, 0ull);
 store8(p1 + 22ull, (u8)(v5));
 store8(p1 + 31ull, (u8)(0u));
 store64(p1 + 64ull, 0ull);
 store64(p1 + 56ull, v16);
 store64(p1 + 48ull, v16);
 store64(p1 + 40ull, v14);
 store64(p1 + 32ull, 1ull);
 store64(p1 + 72ull, 0ull);
 store64(p1 + 88ull, 0ull);
 store64(p1 + 80ull, v12);
 v16 = p1 + 8ull;
 v10 = load64(v16);
 store32(p1 + 12ull, v7);
 store32(v16, v8);
 if (p2) {
  goto L11e;
 }
 L30e:;
 store64(v6, v10);
 f11(v15, v9);
 L26e:;
 store8(v3 + 28, (u8)(v5));
 store32(v3 + 24, v7);
 store32(v3 + 20, v8);
 store32(v3 + 16, 1u);
 f26(v11, (v3 + 16ull));
 v5 = 0u;
 goto L6e;
 L25e:;
 p1 = p1 + 96ull;
 v6 = v6 + 1ull;
 goto L24;
 L11e:;
 UNREACHABLE;
 L10e:;
 v6 = v6 + 1ull;
 v10 = v10 + 96ull;
 goto L9;
 L7e:;
 v5 = (v5 + 1u) & 255u;
 L6e:;
 p1 = load64(p0);
 store64(p0, v4);
 if (!p1) {
  goto L1e;
 }
 store64(v3 + 72, load64(p1 + 56));
 store64(v3 + 64, load64(p1 + 48));
 store64(v3 + 56, load64(p1 + 40));
 store64(v3 + 48, load64(p1 + 32));
 store64(v3 + 40, load64(p1 + 24));
 store64(v3 + 32, load64(p1 + 16));
 store64(v3 + 24, load64(p1 + 8));
 store64(v3 + 16, load64(p1));
 import_rattle_dealloc(p1);
 f3((v3 + 40ull));
 L1e:;
 return v5;
}

static u32 module_ncp_embed_ask_send(HEAP_IS u64 p0, u64 p1, u32 p2, u32 p3)
{
 u32 v6 = 0, v9 = 0, v10 = 0, v16 = 0;
 u64 v4 = 0, v5 = 0, v7 = 0, v8 = 0, v11 = 0, v12 = 0, v13 = 0, v14 = 0, v15 = 0, v17 = 0;
 FRAME_OF(10);
 v4 = frame;
 v5 = load64(p0);
 store64(p0, 0ull);
 if (!(!v5)) {
  goto L2e;
 }
 v6 = 32u;
 goto L1e;
 L2e:;
 v7 = load64(v5 + 16ull);
 if (!v7) {
  goto L4e;
 }
 v8 = load64(v5 + 24ull);
 v9 = load32(p1 + 8ull);
 v10 = load32(p1 + 4ull);
 v6 = load8(p1);
 v11 = v5 + 8ull;
 p1 = 0ull;
 L5:;
 if (load8(v11 + p1) == (v6 & 255u)) {
  goto L3e;
 }
 v8 = v8 + 2560ull;
 p1 = p1 + 1ull;
 if (v7 != p1) {
  goto L5;
 }
 L4e:;
 store64(p0, v5);
 v6 = 1u;
 goto L1e;
 L3e:;
 store64(v4 + 24, 0ull);
 store64(v4 + 16, 0ull);
 v6 = 1u;
 if (load8(v8) != 0) {
  goto L7e;
 }
 v6 = 1u;
 if (load8(v8 + 1ull) != 0) {
  goto L7e;
 }
 v6 = 1u;
 if (load8(v8 + 2ull) != 0) {
  goto L7e;
 }
 v6 = 1u;
 if (load8(v8 + 3ull) != 0) {
  goto L7e;
 }
 v6 = 2u;
 if ((v10 & 1u) == 0) {
  goto L7e;
 }
 if ((v9 & 1u) != 0) {
  goto L7e;
 }
 if ((p2 & 255u) != 0) {
  goto L8e;
 }
 v6 = 3u;
 goto L7e;
 L8e:;
 if ((p3 - 1u) <= 65535u) {
  goto L9e;
 }
 v6 = 4u;
 goto L7e;
 L9e:;
 v12 = v8 + 48ull;
 v13 = load64(v8 + 24ull);
 v14 = load64(v8 + 56ull);
 p1 = load64(v8 + 48ull);
 v11 = 0ull;
 v7 = 0ull;
 L10:;
 if (v14 == v7) {
  goto L14e;
 }
 v15 = p1 + v11;
 if (load8(v15) != 1u) {
  goto L11e;
 }
 if (load32(v15 + 8ull) != v10) {
  goto L11e;
 }
 if (load32(v15 + 12ull) != v9) {
  goto L11e;
 }
 if (v7 >= v14) {
  goto L13e;
 }
 if (load8(v15) != 1u) {
  goto L13e;
 }
 v16 = load8(v15 + 19ull);
 if (load8(v15 + 16ull) != 1u) {
  goto L15e;
 }
 if ((v16 & 1u) == 0) {
  goto L12e;
 }
 v6 = 7u;
 goto L7e;
 L15e:;
 v6 = 7u;
 if ((v16 & 1u) != 0) {
  goto L7e;
 }
 if (load8(v15 + 20ull) != 0) {
  goto L7e;
 }
 L14e:;
 v15 = 0ull;
 L16:;
 v7 = 0ull - v14;
 L18:;
 v7 = v7 + 1ull;
 if (v7 == 1ull) {
  goto L17e;
 }
 v6 = load8(p1);
 v11 = p1 + 96ull;
 p1 = v11;
 if (v6 != 1u) {
  goto L18;
 }
 v14 = 0ull - v7;
 v15 = v15 + (u64)load8(v11 - 80ull);
 p1 = v11;
 goto L16;
 L17e:;
 v16 = (u32)((v15 > 63ull));
 v6 = v16 ? 14u : 15u;
 if (v13 > 255ull) {
  goto L7e;
 }
 if (v16) {
  goto L7e;
 }
 v13 = (u64)(p3);
 p1 = (v13 + 7ull) >> 3;
 v15 = p1 + 1ull;
 import_rattle_alloc(HEAP v4, v15, 1ull);
 if (((u32)(load64(v4)) & 1u) != 0) {
  goto L19e;
 }
 v6 = 16u;
 goto L7e;
 L19e:;
 v14 = load64(v4 + 8);
 v6 = (u32)((!p1));
 if (v6) {
  goto L20e;
 }
 if (v6) {
  goto L20e;
 }
 fill(v14, 0u, p1);
 L20e:;
 store8(v14 + p1, (u8)(0u));
 v11 = load64(v8 + 56ull);
 v7 = 0ull;
 v17 = load64(v8 + 48ull);
 p1 = v17;
 L21:;
 if (v11 == v7) {
  goto L24e;
 }
 if (load8(p1) != 1u) {
  goto L22e;
 }
 if (load32(p1 + 8ull) != v10) {
  goto L22e;
 }
 if (load32(p1 + 12ull) != v9) {
  goto L22e;
 }
 if (load8(p1) != 1u) {
  goto L13e;
 }
 store8(p1 + 23ull, (u8)(p2));
 store8(p1 + 16ull, (u8)(1u));
 store64(p1 + 64ull, 0ull);
 store64(p1 + 48ull, v15);
 store64(p1 + 72ull, 0ull);
 store64(p1 + 80ull, v13);
 v11 = p1 + 32ull;
 v6 = load8(v11);
 store64(v11, 1ull);
 v11 = p1 + 40ull;
 v13 = load64(v11);
 store64(v11, v14);
 v11 = p1 + 56ull;
 v14 = load64(v11);
 store64(v11, v15);
 if (v6 != 1u) {
  goto L25e;
 }
 if (!v14) {
  goto L25e;
 }
 import_rattle_dealloc(v13);
 L25e:;
 v6 = 1u;
 v11 = p1 + 18ull;
 if (load8(v11) != 0) {
  goto L26e;
 }
 v6 = 0u;
 if (load8(p1 + 16ull) != 1u) {
  goto L26e;
 }
 if (load8(p1 + 17ull) != 1u) {
  goto L26e;
 }
 if (load8(p1 + 19ull) != 0) {
  goto L26e;
 }
 v6 = load8(p1 + 20ull) ^ 1u;
 L26e:;
 store8(v11, (u8)(v6 & 1u));
 f11(v12, v7);
 goto L23e;
 L24e:;
 p1 = v8 + 72ull;
 store64(p1, load64(p1) + 1ull);
 v7 = load64(v8 + 80ull);
 p1 = v17 + (v7 * 96ull);
 if (v7 != v11) {
  goto L28e;
 }
 store64(p1, 1ull);
 store32(p1 + 17ull, 0u);
 store8(p1 + 16ull, (u8)(1u));
 store32(p1 + 12ull, v9);
 store32(p1 + 8ull, v10);
 store16(p1 + 21ull, (u16)(0u));
 store64(p1 + 64ull, 0ull);
 store64(p1 + 56ull, v15);
 store64(p1 + 48ull, v15);
 store64(p1 + 40ull, v14);
 store64(p1 + 32ull, 1ull);
 store64(p1 + 24ull, 0ull);
 store8(p1 + 23ull, (u8)(p2));
 store64(p1 + 72ull, 0ull);
 store64(p1 + 88ull, 0ull);
 store64(p1 + 80ull, v13);
 v11 = v11 + 1ull;
 store64(v8 + 56ull, v11);
 goto L27e;
 L28e:;
 store32(p1 + 17ull, 0u);
 store8(p1 + 16ull, (u8)(1u));
 v6 = load8(p1);
 store64(p1, 1ull);
 store16(p1 + 21ull, (u16)(0u));
 store64(p1 + 64ull, 0ull);
 store64(p1 + 56ull, v15);
 store64(p1 + 48ull, v15);
 store64(p1 + 40ull, v14);
 store64(p1 + 32ull, 1ull);
 store64(p1 + 24ull, 0ull);
 store8(p1 + 23ull, (u8)(p2));
 store64(p1 + 72ull, 0ull);
 store64(p1 + 88ull, 0ull);
 store64(p1 + 80ull, v13);
 v15 = p1 + 8ull;
 v11 = load64(v15);
 store32(p1 + 12ull, v9);
 store32(v15, v10);
 if (v6) {
  goto L13e;
 }
 L27e:;
 store64(v8 + 80ull, v11);
 f11(v12, v7);
 L23e:;
 store8(v4 + 28, (u8)(p2));
 store32(v4 + 24, v9);
 store32(v4 + 20, v10);
 store32(v4 + 16, 2u);
 f26(v8, (v4 + 16ull));
 v6 = 0u;
 goto L6e;
 L22e:;
 p1 = p1 + 96ull;
 v7 = v7 + 1ull;
 goto L21;
 L13e:;
 UNREACHABLE;
 L12e:;
 v6 = load8(v15 + 20ull) | 6u;
 goto L7e;
 L11e:;
 v7 = v7 + 1ull;
 v11 = v11 + 96ull;
 goto L10;
 L7e:;
 v6 = (v6 + 1u) & 255u;
 L6e:;
 p1 = load64(p0);
 store64(p0, v5);
 if (!p1) {
  goto L1e;
 }
 store64(v4 + 72, load64(p1 + 56));
 store64(v4 + 64, load64(p1 + 48));
 store64(v4 + 56, load64(p1 + 40));
 store64(v4 + 48, load64(p1 + 32));
 store64(v4 + 40, load64(p1 + 24));
 store64(v4 + 32, load64(p1 + 16));
 store64(v4 + 24, load64(p1 + 8));
 store64(v4 + 16, load64(p1));
 import_rattle_dealloc(p1);
 f3((v4 + 40ull));
 L1e:;
 return v6;
}

static u32 module_ncp_embed_call_back(u64 p0, u64 p1, u32 p2, u32 p3)
{
 u32 v6 = 0, v9 = 0, v10 = 0;
 u64 v4 = 0, v5 = 0, v7 = 0, v8 = 0, v11 = 0, v12 = 0, v13 = 0;
 FRAME_OF(8);
 v4 = frame;
 v5 = load64(p0);
 store64(p0, 0ull);
 if (!(!v5)) {
  goto L2e;
 }
 v6 = 32u;
 goto L1e;
 L2e:;
 v7 = load64(v5 + 16ull);
 if (!v7) {
  goto L4e;
 }
 v8 = load64(v5 + 24ull);
 v9 = load32(p1 + 8ull);
 v10 = load32(p1 + 4ull);
 v6 = load8(p1);
 v11 = v5 + 8ull;
 p1 = 0ull;
 L5:;
 if (load8(v11 + p1) == (v6 & 255u)) {
  goto L3e;
 }
 v8 = v8 + 2560ull;
 p1 = p1 + 1ull;
 if (v7 != p1) {
  goto L5;
 }
 L4e:;
 store64(p0, v5);
 v6 = 1u;
 goto L1e;
 L3e:;
 store64(v4 + 8, 0ull);
 store64(v4, 0ull);
 v6 = 2u;
 if (load8(v8) != 0) {
  goto L6e;
 }
 if (load8(v8 + 1ull) != 0) {
  goto L6e;
 }
 if (load8(v8 + 2ull) != 0) {
  goto L6e;
 }
 if (load8(v8 + 3ull) != 0) {
  goto L6e;
 }
 v11 = load64(v8 + 56ull);
 v12 = v8 + 48ull;
 p1 = load64(v12);
 v13 = load64(v8 + 24ull);
 v7 = 0ull;
 L7:;
 if (v11 != v7) {
  goto L8e;
 }
 v6 = 6u;
 goto L6e;
 L8e:;
 if (load8(p1) != 1u) {
  goto L9e;
 }
 if (load32(p1 + 8ull) != v10) {
  goto L9e;
 }
 if (load32(p1 + 12ull) != v9) {
  goto L9e;
 }
 if (load8(p1) != 1u) {
  goto L10e;
 }
 v6 = 7u;
 if (load8(p1 + 19ull) != 0) {
  goto L12e;
 }
 if (load8(p1 + 20ull) != 0) {
  goto L12e;
 }
 v6 = 8u;
 if (load8(p1 + 16ull) != 1u) {
  goto L12e;
 }
 if (load8(p1 + 17ull) != 1u) {
  goto L12e;
 }
 v6 = 9u;
 if ((load8(p1 + 8ull) & 1u) != 0) {
  goto L12e;
 }
 if ((load32(p1 + 12ull) & 1u) == 0) {
  goto L12e;
 }
 v10 = load8(p1 + 89ull);
 v6 = v10 ? 11u : 15u;
 if (v13 > 255ull) {
  goto L12e;
 }
 if (!v10) {
  goto L11e;
 }
 L12e:;
 f25(v12, v7);
 v6 = v6 + 1u;
 goto L6e;
 L11e:;
 store8(p1 + 89ull, (u8)(1u));
 v10 = load8(p1 + 22ull);
 f25(v12, v7);
 v6 = 0u;
 store8(v4 + 12, (u8)(0u));
 store64(v4 + 4, 0ull);
 store8(v4 + 3, (u8)(p3));
 store8(v4 + 2, (u8)(p2));
 store8(v4 + 1, (u8)(v10));
 store8(v4, (u8)(5u));
 f26(v8, v4);
 goto L6e;
 L10e:;
 UNREACHABLE;
 L9e:;
 p1 = p1 + 96ull;
 v7 = v7 + 1ull;
 goto L7;
 L6e:;
 p1 = load64(p0);
 store64(p0, v5);
 if (!p1) {
  goto L1e;
 }
 store64(v4 + 56, load64(p1 + 56));
 store64(v4 + 48, load64(p1 + 48));
 store64(v4 + 40, load64(p1 + 40));
 store64(v4 + 32, load64(p1 + 32));
 store64(v4 + 24, load64(p1 + 24));
 store64(v4 + 16, load64(p1 + 16));
 store64(v4 + 8, load64(p1 + 8));
 store64(v4, load64(p1));
 import_rattle_dealloc(p1);
 f3((v4 + 24ull));
 L1e:;
 return v6;
}

static u32 module_ncp_embed_changes(u64 p0, u64 p1, u64 p2, u64 p3)
{
 u32 v6 = 0, v7 = 0, v8 = 0, v18 = 0, v19 = 0, v20 = 0, v21 = 0, v22 = 0, v23 = 0, v24 = 0, v25 = 0, v26 = 0, v27 = 0, v28 = 0, v29 = 0, v30 = 0;
 u32 v31 = 0, v32 = 0, v33 = 0, v34 = 0, v35 = 0, v36 = 0, v37 = 0, v38 = 0, v39 = 0, v40 = 0, v41 = 0, a1 = 0;
 u64 v4 = 0, v5 = 0, v9 = 0, v10 = 0, v11 = 0, v12 = 0, v13 = 0, v14 = 0, v15 = 0, v16 = 0, v17 = 0;
 v4 = load64(p0);
 store64(p0, 0ull);
 if (!(!v4)) {
  goto L1e;
 }
 return 32u;
 L1e:;
 v5 = load64(v4 + 16ull);
 if (!v5) {
  goto L3e;
 }
 v6 = load32(p1 + 8ull);
 v7 = load32(p1 + 4ull);
 v8 = load8(p1);
 v9 = load64(v4 + 24ull) + 56ull;
 p1 = 0ull;
 L4:;
 if (load8((v4 + p1) + 8ull) == (v8 & 255u)) {
  goto L2e;
 }
 v9 = v9 + 2560ull;
 p1 = p1 + 1ull;
 if (v5 != p1) {
  goto L4;
 }
 L3e:;
 store64(p0, v4);
 return 1u;
 L2e:;
 p1 = load64(v9 - 8ull);
 v5 = load64(v9);
 v9 = 0ull;
 L5:;
 v8 = (u32)((v5 == v9));
 if (v8) {
  goto L9e;
 }
 if (load8(p1) != 1u) {
  goto L6e;
 }
 if (load32(p1 + 8ull) != v7) {
  goto L6e;
 }
 if (load32(p1 + 12ull) != v6) {
  goto L6e;
 }
 if (v9 >= v5) {
  goto L7e;
 }
 if (load8(p1) != 1u) {
  goto L7e;
 }
 v9 = p1 + 28ull;
 v5 = p1 + 24ull;
 v10 = p1 + 23ull;
 v11 = p1 + 22ull;
 v12 = p1 + 21ull;
 v13 = p1 + 20ull;
 v14 = p1 + 19ull;
 v15 = p1 + 18ull;
 v16 = p1 + 17ull;
 v17 = p1 + 16ull;
 v7 = load32(p1 + 8ull);
 v18 = 0u;
 if (load8(p1 + 32ull) != 1u) {
  goto L10e;
 }
 v18 = load32(p1 + 72ull);
 L10e:;
 v19 = load32(v9);
 v20 = load16(v5);
 v21 = load8(v10);
 v22 = load8(v11);
 v23 = load8(v12);
 v24 = load8(v13);
 v25 = load8(v14);
 v26 = load8(v15);
 v6 = load8(v16);
 v27 = load8(v17);
 v28 = load32(p1 + 92ull);
 v29 = load8(p1 + 89ull);
 v30 = load8(p1 + 88ull);
 store64(p0, v4);
 v7 = v7 & 1u;
 goto L8e;
 L9e:;
 store64(p0, v4);
 v29 = 0u;
 v30 = 0u;
 v23 = 0u;
 v24 = 0u;
 v25 = 0u;
 v26 = 0u;
 v6 = 0u;
 v27 = 0u;
 v7 = 0u;
 v21 = 0u;
 v22 = 0u;
 v20 = 0u;
 v28 = 0u;
 v18 = 0u;
 v19 = 0u;
 L8e:;
 v31 = load8(p2 + 22);
 v32 = load8(p2 + 21);
 v33 = load8(p2 + 20);
 v34 = load8(p2 + 18);
 v35 = load8(p2 + 17);
 if (v8) {
  goto L12e;
 }
 v36 = v27 ^ 1u;
 if (((v36 & v35) & 1u) != 0) {
  goto L15e;
 }
 if ((((v6 ^ 1u) & v34) & 1u) != 0) {
  goto L15e;
 }
 v37 = load8(p2 + 19);
 if ((((v26 ^ 1u) & v37) & 1u) != 0) {
  goto L15e;
 }
 if ((((v24 ^ 1u) & v32) & 1u) != 0) {
  goto L15e;
 }
 if ((((v23 ^ 1u) & v31) & 1u) == 0) {
  goto L14e;
 }
 L15e:;
 v38 = 0u;
 v39 = 0u;
 if (!v7) {
  goto L16e;
 }
 v39 = (u32)((((v20 & 65535u) | v19) != 0u));
 L16e:;
 v40 = (u32)((v18 != 0u)) & (v7 ^ 1u);
 v31 = (v33 | v32) & (v31 ^ 1u);
 v32 = v31 & 1u;
 a1 = v35 & (v34 ^ 4294967295u);
 v35 = v31 ^ 1u;
 v31 = (a1 & v35) & 1u;
 v33 = (v34 & v35) & 1u;
 v35 = (u32)((v28 != 0u));
 v34 = v6 & v36;
 v36 = v26;
 v41 = v23;
 goto L13e;
 L14e:;
 v38 = load8(p2 + 23);
 v35 = load32(p2 + 8);
 v40 = load32(p2 + 4);
 v32 = 0u;
 v39 = 0u;
 if (!v7) {
  goto L17e;
 }
 v39 = (u32)(((load16(p2 + 12) & 65535u) < (v20 & 65535u))) | (u32)((load32(p2) < v19));
 L17e:;
 v40 = (u32)((v40 < v18)) & (v7 ^ 1u);
 v35 = (u32)((v35 < v28));
 v41 = (v23 & (v31 ^ 4294967295u)) & 1u;
 v38 = ((v30 ^ 4294967295u) & v38) & 1u;
 v36 = (v26 & (v37 ^ 4294967295u)) & 1u;
 v34 = v6 & (u32)(((((v34 & 1u) | v27) & 255u) == 0));
 v31 = 0u;
 v33 = 0u;
 L13e:;
 v34 = v34 & 1u;
 goto L11e;
 L12e:;
 v31 = (v33 | v32) & (v31 ^ 1u);
 v32 = v31 & 1u;
 v31 = v31 ^ 1u;
 v33 = (v34 & v31) & 1u;
 v31 = ((v35 & (v34 ^ 4294967295u)) & v31) & 1u;
 v36 = 0u;
 v34 = 0u;
 v40 = 0u;
 v39 = 0u;
 v38 = 0u;
 v35 = 0u;
 v41 = 0u;
 L11e:;
 store8(p3 + 9, (u8)(v41));
 store8(p3 + 8, (u8)(v35));
 store8(p3 + 7, (u8)(v38));
 store8(p3 + 6, (u8)(v39));
 store8(p3 + 5, (u8)(v40));
 store8(p3 + 4, (u8)(v36));
 store8(p3 + 3, (u8)(v34));
 store8(p3 + 2, (u8)(v33));
 store8(p3 + 1, (u8)(v31));
 store8(p3, (u8)(v32));
 if (!v8) {
  goto L18e;
 }
 v18 = 0u;
 v28 = 0u;
 v20 = 0u;
 v22 = 0u;
 v21 = 0u;
 v7 = 0u;
 v27 = 0u;
 v6 = 0u;
 v26 = 0u;
 v25 = 0u;
 v24 = 0u;
 v23 = 0u;
 v30 = 0u;
 v19 = 0u;
 v29 = 0u;
 L18e:;
 store32(p2 + 24, v29);
 store8(p2 + 23, (u8)(v30));
 store8(p2 + 22, (u8)(v23));
 store8(p2 + 21, (u8)(v24));
 store8(p2 + 20, (u8)(v25));
 store8(p2 + 19, (u8)(v26));
 store8(p2 + 18, (u8)(v6));
 store8(p2 + 17, (u8)(v27));
 store8(p2 + 16, (u8)(v7));
 store8(p2 + 15, (u8)(v21));
 store8(p2 + 14, (u8)(v22));
 store16(p2 + 12, (u16)(v20));
 store32(p2 + 8, v28);
 store32(p2 + 4, v18);
 store32(p2, v19);
 return 0u;
 L7e:;
 UNREACHABLE;
 L6e:;
 p1 = p1 + 96ull;
 v9 = v9 + 1ull;
 goto L5;
 UNREACHABLE;
 return 0;
}

static u32 module_ncp_embed_close(u64 p0, u64 p1)
{
 u32 v4 = 0, v7 = 0, v8 = 0, v9 = 0;
 u64 v2 = 0, v3 = 0, v5 = 0, v6 = 0, v10 = 0, v11 = 0, v12 = 0;
 FRAME_OF(8);
 v2 = frame;
 v3 = load64(p0);
 store64(p0, 0ull);
 if (!(!v3)) {
  goto L2e;
 }
 v4 = 32u;
 goto L1e;
 L2e:;
 v4 = 1u;
 v5 = load64(v3 + 16ull);
 if (!v5) {
  goto L3e;
 }
 v6 = load64(v3 + 24ull);
 v7 = load32(p1 + 8ull);
 v8 = load32(p1 + 4ull);
 v9 = load8(p1);
 p1 = v3 + 8ull;
 L5:;
 if (load8(p1) == (v9 & 255u)) {
  goto L4e;
 }
 v6 = v6 + 2560ull;
 p1 = p1 + 1ull;
 v5 = v5 - 1ull;
 if (!(!v5)) {
  goto L5;
 }
 goto L3e;
 L4e:;
 v4 = 2u;
 if (load8(v6) != 0) {
  goto L3e;
 }
 if (load8(v6 + 1ull) != 0) {
  goto L3e;
 }
 if (load8(v6 + 2ull) != 0) {
  goto L3e;
 }
 if (load8(v6 + 3ull) != 0) {
  goto L3e;
 }
 v10 = load64(v6 + 56ull);
 v11 = v6 + 48ull;
 p1 = load64(v11);
 v12 = load64(v6 + 24ull);
 v5 = 0ull;
 L6:;
 if (v10 != v5) {
  goto L7e;
 }
 v4 = 6u;
 goto L3e;
 L7e:;
 if (load8(p1) != 1u) {
  goto L8e;
 }
 if (load32(p1 + 8ull) != v8) {
  goto L8e;
 }
 if (load32(p1 + 12ull) != v7) {
  goto L8e;
 }
 if (load8(p1) != 1u) {
  goto L10e;
 }
 if (load8(p1 + 20ull) == 0) {
  goto L11e;
 }
 v9 = 7u;
 goto L9e;
 L11e:;
 if (load8(p1 + 19ull) != 1u) {
  goto L15e;
 }
 v4 = load32(p1 + 8ull);
 if ((v4 & 1u) == 0) {
  goto L15e;
 }
 v8 = load32(p1 + 12ull);
 v7 = v8 & 1u;
 v9 = v7 ? 15u : 7u;
 if (v12 > 255ull) {
  goto L9e;
 }
 if (v7) {
  goto L14e;
 }
 goto L9e;
 L15e:;
 if (v12 <= 255ull) {
  goto L16e;
 }
 v9 = 15u;
 goto L9e;
 L16e:;
 v4 = load32(p1 + 8ull);
 if ((v4 & 1u) == 0) {
  goto L13e;
 }
 v8 = load32(p1 + 12ull);
 L14e:;
 if ((v8 & 1u) != 0) {
  goto L13e;
 }
 if (load8(p1 + 88ull) != 1u) {
  goto L13e;
 }
 if (load8(p1 + 32ull) != 1u) {
  goto L17e;
 }
 store64(p1 + 72ull, 0ull);
 store64(p1 + 64ull, 0ull);
 L17e:;
 store8(p1 + 19ull, (u8)(1u));
 f25(v11, v5);
 goto L12e;
 L13e:;
 if (load8(p1 + 32ull) != 1u) {
  goto L18e;
 }
 store64(p1 + 72ull, 0ull);
 store64(p1 + 64ull, 0ull);
 L18e:;
 store16(p1 + 19ull, (u16)(256u));
 v9 = load32(p1 + 12ull);
 f25(v11, v5);
 store32(v2 + 8, v9);
 store32(v2 + 4, v4);
 store32(v2, 3u);
 store32(v2 + 12, 0u);
 f26(v6, v2);
 L12e:;
 v4 = 0u;
 goto L3e;
 L10e:;
 UNREACHABLE;
 L9e:;
 f25(v11, v5);
 v4 = v9 + 1u;
 goto L3e;
 L8e:;
 p1 = p1 + 96ull;
 v5 = v5 + 1ull;
 goto L6;
 L3e:;
 p1 = load64(p0);
 store64(p0, v3);
 if (!p1) {
  goto L1e;
 }
 store64(v2 + 56, load64(p1 + 56));
 store64(v2 + 48, load64(p1 + 48));
 store64(v2 + 40, load64(p1 + 40));
 store64(v2 + 32, load64(p1 + 32));
 store64(v2 + 24, load64(p1 + 24));
 store64(v2 + 16, load64(p1 + 16));
 store64(v2 + 8, load64(p1 + 8));
 store64(v2, load64(p1));
 import_rattle_dealloc(p1);
 f3((v2 + 24ull));
 L1e:;
 return v4;
}

static u32 module_ncp_embed_connection_at(u64 p0, u32 p1, u64 p2, u64 p3)
{
 u32 v6 = 0, v18 = 0, v19 = 0, v20 = 0, v21 = 0, v22 = 0, v23 = 0, v24 = 0, v25 = 0, v26 = 0, v27 = 0, v28 = 0, v29 = 0, v30 = 0;
 u64 v4 = 0, v5 = 0, v7 = 0, v8 = 0, v9 = 0, v10 = 0, v11 = 0, v12 = 0, v13 = 0, v14 = 0, v15 = 0, v16 = 0, v17 = 0;
 v4 = load64(p0);
 store64(p0, 0ull);
 if (!(!v4)) {
  goto L1e;
 }
 return 32u;
 L1e:;
 v5 = load64(v4 + 16ull);
 if (!v5) {
  goto L3e;
 }
 v6 = load8(p2);
 v7 = load64(v4 + 24ull) + 56ull;
 v8 = 0ull;
 L4:;
 if (load8((v4 + v8) + 8ull) == (v6 & 255u)) {
  goto L2e;
 }
 v7 = v7 + 2560ull;
 v8 = v8 + 1ull;
 if (v5 != v8) {
  goto L4;
 }
 L3e:;
 store64(p0, v4);
 return 1u;
 L2e:;
 v9 = (u64)(p1);
 v10 = 0ull;
 v11 = load64(v7);
 v12 = v11;
 v13 = load64(v7 - 8ull);
 v14 = v13;
 L5:;
 v8 = v14;
 v15 = v10;
 if (v12 != 0ull) {
  goto L6e;
 }
 store64(p0, v4);
 return 35u;
 L6e:;
 v10 = v15 + 1ull;
 v12 = v12 - 1ull;
 v14 = v8 + 96ull;
 if (load8(v8) != 1u) {
  goto L5;
 }
 p1 = load32(v8 + 12ull);
 v6 = load32(v8 + 8ull);
 v8 = v13;
 v7 = v11;
 v16 = 0ull;
 L7:;
 v8 = v8 - 88ull;
 v7 = 0ull - v7;
 L9:;
 v7 = v7 + 1ull;
 if (v7 == 1ull) {
  goto L8e;
 }
 v5 = v8 + 88ull;
 v17 = v8 + 96ull;
 v8 = v17;
 if (load8(v5) != 1u) {
  goto L9;
 }
 v18 = load32(v17);
 v16 = v16 + (u64)(v18 == v6 ? (u32)((load32(v17 + 4ull) < p1)) : (u32)((v18 < v6)));
 v8 = v17 + 88ull;
 v7 = 0ull - v7;
 goto L7;
 L8e:;
 if (v16 != v9) {
  goto L5;
 }
 if (v15 >= v11) {
  goto L10e;
 }
 v8 = v13 + (v15 * 96ull);
 if (load8(v8) != 1u) {
  goto L10e;
 }
 v18 = load32(v8 + 28ull);
 v19 = load16(v8 + 24ull);
 v20 = load8(v8 + 23ull);
 v21 = load8(v8 + 22ull);
 v22 = load8(v8 + 21ull);
 v23 = load8(v8 + 20ull);
 v24 = load8(v8 + 19ull);
 v25 = load8(v8 + 18ull);
 v26 = load8(v8 + 17ull);
 v27 = load8(v8 + 16ull);
 v28 = load32(v8 + 12ull);
 v6 = load32(v8 + 8ull);
 p1 = 0u;
 if (load8(v8 + 32ull) != 1u) {
  goto L11e;
 }
 p1 = load32(v8 + 72ull);
 L11e:;
 v29 = load32(v8 + 92ull);
 v30 = load16(v8 + 88ull);
 store64(p0, v4);
 store32(p2 + 8ull, v28);
 store32(p2 + 4ull, v6);
 store16(p3 + 25, (u16)(0u));
 store16(p3 + 23, (u16)(v30));
 store8(p3 + 22, (u8)(v22));
 store8(p3 + 21, (u8)(v23));
 store8(p3 + 20, (u8)(v24));
 store8(p3 + 19, (u8)(v25));
 store8(p3 + 18, (u8)(v26));
 store8(p3 + 17, (u8)(v27));
 store8(p3 + 16, (u8)(v6 & 1u));
 store8(p3 + 15, (u8)(v20));
 store8(p3 + 14, (u8)(v21));
 store16(p3 + 12, (u16)(v19));
 store32(p3 + 8, v29);
 store32(p3 + 4, p1);
 store32(p3, v18);
 store8(p3 + 27, (u8)(0u));
 return 0u;
 L10e:;
 UNREACHABLE;
 UNREACHABLE;
 return 0;
}

static u32 module_ncp_embed_copy(HEAP_IS u64 p0, u64 p1)
{
 u32 v4 = 0, v27 = 0, v28 = 0, v30 = 0, v31 = 0, v32 = 0, v33 = 0, v34 = 0, v35 = 0, v36 = 0, v41 = 0, v43 = 0, v44 = 0;
 u64 v2 = 0, v3 = 0, v5 = 0, v6 = 0, v7 = 0, v8 = 0, v9 = 0, v10 = 0, v11 = 0, v12 = 0, v13 = 0, v14 = 0, v15 = 0, v16 = 0, v17 = 0, v18 = 0;
 u64 v19 = 0, v20 = 0, v21 = 0, v22 = 0, v23 = 0, v24 = 0, v25 = 0, v26 = 0, v29 = 0, v37 = 0, v38 = 0, v39 = 0, v40 = 0, v42 = 0, v45 = 0, v46 = 0;
 FRAME_OF(1212);
 v2 = frame;
 v3 = load64(p0);
 store64(p0, 0ull);
 store64(v2 + 152, 0ull);
 store64(v2 + 160, 0ull);
 store64(v2 + 136, 0ull);
 store32(v2 + 144, 0u);
 store64(v2 + 112, 0ull);
 store64(v2 + 120, 0ull);
 store64(v2 + 128, 0ull);
 if (!(!v3)) {
  goto L2e;
 }
 v4 = 32u;
 goto L1e;
 L2e:;
 store64(v2 + 184, 0ull);
 v5 = load64(v3 + 16ull);
 if (v5 > 8ull) {
  goto L5e;
 }
 if (!v5) {
  goto L6e;
 }
 move((v2 + 184ull), (v3 + 8ull), v5);
 L6e:;
 store64(v2 + 192, v5);
 store64(v2 + 176, v5);
 store64(v2 + 168, load64(v2 + 184));
 v6 = load64(v3 + 24ull);
 v7 = load64(v3 + 32ull);
 v8 = (u64)load8(v3);
 store64(v2 + 2592, 0ull);
 store64(v2 + 2600, 0ull);
 fill((v2 + 264ull), 0u, 2328ull);
 store32(v2 + 248, 0u);
 store64(v2 + 240, 0ull);
 store64(v2 + 232, 0ull);
 store64(v2 + 224, 0ull);
 store64(v2 + 200, 0ull);
 store64(v2 + 208, 0ull);
 store64(v2 + 216, 0ull);
 if (!(!v7)) {
  goto L7e;
 }
 v9 = v2 + 9680ull;
 goto L4e;
 L7e:;
 if (v7 > 0xcccccccccccccull) {
  goto L8e;
 }
 import_rattle_alloc(HEAP (v2 + 96ull), (v7 * 2560ull), 16ull);
 if (((u32)(load64(v2 + 96)) & 1u) == 0) {
  goto L8e;
 }
 v9 = load64(v2 + 104);
 v10 = v2 + 7288ull;
 v11 = v2 + 7320ull;
 v12 = v2 + 7304ull;
 v13 = 0ull;
 L10:;
 store64(v2 + 4936, 0ull);
 store64(v2 + 4944, 0ull);
 fill((v2 + 2608ull), 0u, 2328ull);
 store64(v2 + 9648, 0ull);
 store64(v2 + 9656, 0ull);
 fill((v2 + 4952ull), 0u, 2328ull);
 v14 = v13 * 2560ull;
 v15 = v6 + v14;
 v16 = (u64)load32(v15);
 store16(v2 + 7288, (u16)(0u));
 store64(v2 + 7280, 0ull);
 v17 = load64(v15 + 16ull);
 if (v17 > 0x7ffffffffffffffull) {
  goto L9e;
 }
 import_rattle_alloc(HEAP (v2 + 80ull), (v17 << 4), 4ull);
 if (((u32)(load64(v2 + 80)) & 1u) == 0) {
  goto L9e;
 }
 v18 = 0ull;
 v19 = load64(v15 + 24ull);
 if (!(!v19)) {
  goto L12e;
 }
 v20 = 0ull;
 v5 = v2 + 9680ull;
 v21 = v5;
 goto L11e;
 L12e:;
 v21 = load64(v15 + 8ull);
 v20 = load64(v15 + 32ull);
 v5 = v21 + (v20 << 4);
 v22 = v2 + 9680ull;
 v20 = load64(v15 + 16ull) - v20;
 if (v19 > v20) {
  goto L13e;
 }
 v20 = v19;
 v21 = v22;
 goto L11e;
 L13e:;
 v18 = v19 - v20;
 L11e:;
 v23 = load64(v2 + 88);
 if (!v17) {
  goto L16e;
 }
 v24 = 0ull;
 v25 = 0ull;
 goto L15e;
 L16e:;
 L17:;
 if (!v20) {
  goto L19e;
 }
 v20 = v20 - 1ull;
 v19 = v5;
 v5 = v5 + 16ull;
 goto L18e;
 L19e:;
 if (!(!v18)) {
  goto L20e;
 }
 v24 = 0ull;
 v25 = 0ull;
 goto L14e;
 L20e:;
 v18 = v18 - 1ull;
 v20 = 0ull;
 v19 = v21;
 v21 = v21 + 16ull;
 L18e:;
 store16(v2 + 7288, (u16)(load16(v19 + 10ull)));
 store64(v2 + 7280, load64(v19 + 2ull));
 goto L17;
 L15e:;
 L21:;
 v26 = v24 - 1ull;
 L22:;
 if (!v20) {
  goto L24e;
 }
 v20 = v20 - 1ull;
 v19 = v5 + 16ull;
 v22 = v21;
 goto L23e;
 L24e:;
 if (!v18) {
  goto L14e;
 }
 v18 = v18 - 1ull;
 v22 = v21 + 16ull;
 v20 = 0ull;
 v19 = v5;
 v5 = v21;
 L23e:;
 v4 = load8(v5 + 1ull);
 v27 = load8(v5);
 store16(v2 + 7288, (u16)(load16(v5 + 10ull)));
 store64(v2 + 7280, load64(v5 + 2ull));
 v28 = load8(v5 + 12ull);
 if (v17 > v24) {
  goto L25e;
 }
 v5 = v25 + 1ull;
 v25 = v5 - (v5 < v17 ? 0ull : v17);
 v5 = v26 + v25;
 v5 = v23 + ((v5 - (v5 < v17 ? 0ull : v17)) << 4);
 store8(v5, (u8)(v27));
 store8(v5 + 1ull, (u8)(v4));
 store64(v5 + 2ull, load64(v2 + 7280));
 store16(v5 + 10ull, (u16)(load16(v2 + 7288)));
 store8(v5 + 12ull, (u8)(v28));
 v5 = v19;
 v21 = v22;
 goto L22;
 L25e:;
 v5 = v25 + v24;
 v5 = v23 + ((v5 - (v5 < v17 ? 0ull : v17)) << 4);
 store8(v5, (u8)(v27));
 store8(v5 + 1ull, (u8)(v4));
 store64(v5 + 2ull, load64(v2 + 7280));
 store16(v5 + 10ull, (u16)(load16(v2 + 7288)));
 store8(v5 + 12ull, (u8)(v28));
 v24 = v24 + 1ull;
 v5 = v19;
 v21 = v22;
 goto L21;
 L14e:;
 import_rattle_alloc(HEAP (v2 + 64ull), 12288ull, 8ull);
 if (((u32)(load64(v2 + 64)) & 1u) == 0) {
  goto L27e;
 }
 v5 = load64(v2 + 72);
 store64(v2 + 7296, 128ull);
 store64(v2 + 7288, 0ull);
 store64(v2 + 7280, v5);
 fill(v12, 0u, 2344ull);
 v26 = load64(v15 + 56ull);
 v29 = load64(v15 + 48ull);
 L28:;
 if (!v26) {
  goto L26e;
 }
 v26 = v26 - 1ull;
 v20 = v29 + (v26 * 96ull);
 if (load8(v20) != 1u) {
  goto L28;
 }
 v4 = load32(v20 + 28ull);
 v27 = load16(v20 + 24ull);
 v28 = load8(v20 + 23ull);
 v30 = load8(v20 + 22ull);
 v31 = load8(v20 + 21ull);
 v32 = load8(v20 + 20ull);
 v33 = load8(v20 + 19ull);
 v34 = load8(v20 + 18ull);
 v35 = load8(v20 + 17ull);
 v36 = load8(v20 + 16ull);
 v37 = load64(v20 + 8ull);
 v18 = 0ull;
 v38 = 0ull;
 v19 = 0ull;
 v22 = 0ull;
 v39 = 0ull;
 v40 = (u64)load8(v20 + 32ull);
 if (v40 != 1ull) {
  goto L30e;
 }
 v39 = load64(v20 + 40ull);
 v38 = load64(v20 + 48ull);
 v41 = (u32)((!v38));
 if (!v41) {
  goto L32e;
 }
 v18 = v2 + 9680ull;
 goto L31e;
 L32e:;
 if ((s64)v38 < (s64)0ull) {
  goto L29e;
 }
 import_rattle_alloc(HEAP (v2 + 48ull), v38, 1ull);
 if (((u32)(load64(v2 + 48)) & 1u) == 0) {
  goto L29e;
 }
 v18 = load64(v2 + 56);
 L31e:;
 if ((v18 - v39) >= v38) {
  goto L34e;
 }
 v22 = v38 & 3ull;
 v21 = 0ull;
 if (v38 < 4ull) {
  goto L35e;
 }
 v42 = v38 & 0xfffffffffffffffcull;
 v21 = 0ull;
 L36:;
 v5 = v18 + v21;
 v19 = v39 + v21;
 store8(v5, (u8)(load8(v19)));
 store8(v5 + 1ull, (u8)(load8(v19 + 1ull)));
 store8(v5 + 2ull, (u8)(load8(v19 + 2ull)));
 store8(v5 + 3ull, (u8)(load8(v19 + 3ull)));
 v21 = v21 + 4ull;
 if (v42 != v21) {
  goto L36;
 }
 if (!v22) {
  goto L33e;
 }
 L35e:;
 v5 = v18 + v21;
 v21 = v39 + v21;
 L37:;
 store8(v5, (u8)(load8(v21)));
 v5 = v5 + 1ull;
 v21 = v21 + 1ull;
 v22 = v22 - 1ull;
 if (v22 != 0ull) {
  goto L37;
 }
 goto L33e;
 L34e:;
 if (v41) {
  goto L33e;
 }
 move(v18, v39, v38);
 L33e:;
 v39 = load64(v20 + 80ull);
 v22 = load64(v20 + 72ull);
 v19 = load64(v20 + 64ull);
 L30e:;
 store64(v2 + 7304, load64(v2 + 7304) + 1ull);
 v21 = load64(v2 + 7312);
 v5 = load64(v2 + 7280) + (v21 * 96ull);
 v41 = load32(v20 + 92ull);
 v43 = load8(v20 + 89ull);
 v44 = load8(v20 + 88ull);
 if (v21 != load64(v2 + 7288)) {
  goto L39e;
 }
 store64(v5, 1ull);
 store32(v5 + 92ull, v41);
 store16(v5 + 90ull, (u16)(0u));
 store8(v5 + 89ull, (u8)(v43));
 store8(v5 + 88ull, (u8)(v44));
 store64(v5 + 80ull, v39);
 store64(v5 + 72ull, v22);
 store64(v5 + 64ull, v19);
 store64(v5 + 56ull, v38);
 store64(v5 + 48ull, v38);
 store64(v5 + 40ull, v18);
 store64(v5 + 32ull, v40);
 store32(v5 + 28ull, v4);
 store16(v5 + 26ull, (u16)(0u));
 store16(v5 + 24ull, (u16)(v27));
 store8(v5 + 23ull, (u8)(v28));
 store8(v5 + 22ull, (u8)(v30));
 store8(v5 + 21ull, (u8)(v31));
 store8(v5 + 20ull, (u8)(v32));
 store8(v5 + 19ull, (u8)(v33));
 store8(v5 + 18ull, (u8)(v34));
 store8(v5 + 17ull, (u8)(v35));
 store8(v5 + 16ull, (u8)(v36));
 store64(v5 + 8ull, v37);
 v5 = v21 + 1ull;
 store64(v2 + 7288, v5);
 goto L38e;
 L39e:;
 store32(v5 + 92ull, v41);
 store16(v5 + 90ull, (u16)(0u));
 store8(v5 + 89ull, (u8)(v43));
 store8(v5 + 88ull, (u8)(v44));
 store64(v5 + 80ull, v39);
 store64(v5 + 72ull, v22);
 store64(v5 + 64ull, v19);
 store64(v5 + 56ull, v38);
 store64(v5 + 48ull, v38);
 store64(v5 + 40ull, v18);
 store64(v5 + 32ull, v40);
 store32(v5 + 28ull, v4);
 store16(v5 + 26ull, (u16)(0u));
 store16(v5 + 24ull, (u16)(v27));
 store8(v5 + 23ull, (u8)(v28));
 store8(v5 + 22ull, (u8)(v30));
 store8(v5 + 21ull, (u8)(v31));
 store8(v5 + 20ull, (u8)(v32));
 store8(v5 + 19ull, (u8)(v33));
 store8(v5 + 18ull, (u8)(v34));
 store8(v5 + 17ull, (u8)(v35));
 store8(v5 + 16ull, (u8)(v36));
 v4 = load8(v5);
 store64(v5, 1ull);
 v20 = v5 + 8ull;
 v5 = load64(v20);
 store64(v20, v37);
 if (v4) {
  goto L5e;
 }
 L38e:;
 store64(v2 + 7312, v5);
 f11((v2 + 7280ull), v21);
 goto L28;
 L29e:;
 v21 = load64(v2 + 7296);
 v20 = load64(v2 + 7280);
 v17 = load64(v2 + 7288);
 if (!v17) {
  goto L40e;
 }
 v5 = v20;
 L41:;
 if (load8(v5) == 0) {
  goto L42e;
 }
 if (load8(v5 + 32ull) == 0) {
  goto L42e;
 }
 if (load64(v5 + 56ull) == 0) {
  goto L42e;
 }
 import_rattle_dealloc(load64(v5 + 40ull));
 L42e:;
 v5 = v5 + 96ull;
 v17 = v17 - 1ull;
 if (v17 != 0ull) {
  goto L41;
 }
 L40e:;
 if (!v21) {
  goto L27e;
 }
 import_rattle_dealloc(v20);
 L27e:;
 import_rattle_dealloc(v23);
 goto L9e;
 L26e:;
 store64(v2 + 9648, load64(v12));
 store64(v2 + 9656, load64(v12 + 8));
 v45 = load64(v2 + 7296);
 v37 = load64(v2 + 7288);
 v40 = load64(v2 + 7280);
 move((v2 + 4952ull), v11, 2328ull);
 v27 = load8(v15 + 2418ull);
 v28 = load8(v15 + 2417ull);
 v30 = load8(v15 + 2416ull);
 store32(v2 + 7287, 0u);
 store64(v2 + 7280, 0ull);
 v20 = load64(v15 + 2432ull);
 if (v20 > 0xba2e8ba2e8ba2e8ull) {
  goto L44e;
 }
 import_rattle_alloc(HEAP (v2 + 32ull), (v20 * 11ull), 1ull);
 if (((u32)(load64(v2 + 32)) & 1u) == 0) {
  goto L44e;
 }
 v38 = 0ull;
 v22 = load64(v15 + 2440ull);
 if (!(!v22)) {
  goto L46e;
 }
 v21 = 0ull;
 v5 = v2 + 9680ull;
 v19 = v5;
 goto L45e;
 L46e:;
 v19 = load64(v15 + 2424ull);
 v21 = load64(v15 + 2448ull);
 v5 = v19 + (v21 * 11ull);
 v18 = v2 + 9680ull;
 v21 = load64(v15 + 2432ull) - v21;
 if (v22 > v21) {
  goto L47e;
 }
 v21 = v22;
 v19 = v18;
 goto L45e;
 L47e:;
 v38 = v22 - v21;
 L45e:;
 v42 = load64(v2 + 40);
 if (!v20) {
  goto L49e;
 }
 v39 = 0ull;
 v22 = 0ull;
 goto L48e;
 L49e:;
 L50:;
 if (!v21) {
  goto L52e;
 }
 v21 = v21 - 1ull;
 v22 = v5;
 v5 = v5 + 11ull;
 goto L51e;
 L52e:;
 if (!(!v38)) {
  goto L53e;
 }
 v39 = 0ull;
 v22 = 0ull;
 goto L43e;
 L53e:;
 v38 = v38 - 1ull;
 v21 = 0ull;
 v22 = v19;
 v19 = v19 + 11ull;
 L51e:;
 v18 = load64(v22);
 v4 = load16(v22 + 8);
 store8(v2 + 7290, (u8)(load8(v22 + 10)));
 store16(v2 + 7288, (u16)(v4));
 store64(v2 + 7280, v18);
 goto L50;
 L48e:;
 L54:;
 v29 = v39 - 1ull;
 L55:;
 if (!v21) {
  goto L57e;
 }
 v21 = v21 - 1ull;
 v18 = v5 + 11ull;
 v26 = v19;
 goto L56e;
 L57e:;
 if (!v38) {
  goto L43e;
 }
 v38 = v38 - 1ull;
 v26 = v19 + 11ull;
 v21 = 0ull;
 v18 = v5;
 v5 = v19;
 L56e:;
 v19 = load64(v5);
 v4 = load16(v5 + 8);
 store8(v2 + 7290, (u8)(load8(v5 + 10)));
 store16(v2 + 7288, (u16)(v4));
 store64(v2 + 7280, v19);
 if (v20 > v39) {
  goto L58e;
 }
 v5 = v22 + 1ull;
 v22 = v5 - (v5 < v20 ? 0ull : v20);
 v5 = v29 + v22;
 v5 = v42 + ((v5 - (v5 < v20 ? 0ull : v20)) * 11ull);
 store32(v5 + 7, load32(v2 + 7287));
 store64(v5, load64(v2 + 7280));
 v5 = v18;
 v19 = v26;
 goto L55;
 L58e:;
 v5 = v22 + v39;
 v5 = v42 + ((v5 - (v5 < v20 ? 0ull : v20)) * 11ull);
 store32(v5 + 7, load32(v2 + 7287));
 store64(v5, load64(v2 + 7280));
 v39 = v39 + 1ull;
 v5 = v18;
 v19 = v26;
 goto L54;
 L44e:;
 if (!v37) {
  goto L59e;
 }
 v5 = v40;
 L60:;
 if (load8(v5) == 0) {
  goto L61e;
 }
 if (load8(v5 + 32ull) == 0) {
  goto L61e;
 }
 if (load64(v5 + 56ull) == 0) {
  goto L61e;
 }
 import_rattle_dealloc(load64(v5 + 40ull));
 L61e:;
 v5 = v5 + 96ull;
 v37 = v37 - 1ull;
 if (v37 != 0ull) {
  goto L60;
 }
 L59e:;
 if (!v45) {
  goto L62e;
 }
 import_rattle_dealloc(v40);
 L62e:;
 import_rattle_dealloc(v23);
 goto L9e;
 L43e:;
 store64(v2 + 4936, load64(v2 + 9648));
 store64(v2 + 4944, load64(v2 + 9656));
 move((v2 + 2608ull), (v2 + 4952ull), 2328ull);
 import_rattle_alloc(HEAP (v2 + 16ull), 74408ull, 8ull);
 v4 = load32(v2 + 16) & 1u;
 if (!v4) {
  goto L63e;
 }
 v5 = 0ull;
 v29 = v4 ? 71ull : 0ull;
 v38 = load64(v2 + 24);
 v46 = v4 ? v38 : 0ull;
 L64:;
 v21 = load64(v15 + 2464ull);
 v4 = 0u;
 fill((v2 + 7280ull), 0u, 1048ull);
 v21 = v21 + v5;
 if (load8(v21) == 0) {
  goto L65e;
 }
 v26 = 0ull;
 store64(v2 + 8320, 0ull);
 v19 = load64(v21 + 1040ull);
 v18 = load64(v21 + 1032ull);
 store64(v2 + 9664, 0ull);
 store64(v2 + 9656, v18);
 store64(v2 + 9648, v21 + 8ull);
 store64(v2 + 9672, v19);
 if (v19 > 8192ull) {
  goto L5e;
 }
 v18 = (v19 + 7ull) >> 3;
 v4 = (u32)((!v18));
 if (v4) {
  goto L66e;
 }
 if (v4) {
  goto L67e;
 }
 fill(v10, 0u, v18);
 L67e:;
 store64(v2 + 8312, v18);
 v26 = load64(v2 + 8320);
 L66e:;
 f10(v10, v18, v26, (v2 + 9648ull));
 store64(v2 + 8320, v19);
 v4 = load8(v21);
 L65e:;
 store8(v2 + 7280, (u8)(v4));
 move((v2 + 4952ull), (v2 + 7280ull), 1048ull);
 move((v38 + v5), (v2 + 4952ull), 1048ull);
 v5 = v5 + 1048ull;
 if (v5 != 74408ull) {
  goto L64;
 }
 store64(v2 + 2592, load64(v2 + 4936));
 store64(v2 + 2600, load64(v2 + 4944));
 v21 = load64(v15 + 2496ull);
 v19 = load64(v15 + 2504ull);
 v18 = load64(v15 + 2512ull);
 v26 = load64(v15 + 2520ull);
 move((v2 + 264ull), (v2 + 2608ull), 2328ull);
 store32(v2 + 248, load32(v15 + 2552ull));
 store64(v2 + 240, load64(v15 + 2544ull));
 store64(v2 + 232, load64(v15 + 2536ull));
 store64(v2 + 224, load64(v15 + 2528ull));
 v5 = v9 + v14;
 store64(v5 + 64, v45);
 store64(v5 + 56, v37);
 store64(v5 + 48, v40);
 store64(v5 + 40, 0ull);
 store64(v5 + 32, v25);
 store64(v5 + 24, v24);
 store64(v5 + 16, v17);
 store64(v5 + 8, v23);
 store64(v5, v16);
 store64(v5 + 72, load64(v2 + 2592));
 store64(v5 + 80, load64(v2 + 2600));
 move((v5 + 88ull), (v2 + 264ull), 2328ull);
 store64(v5 + 2520, v26);
 store64(v5 + 2512, v18);
 store64(v5 + 2504, v19);
 store64(v5 + 2496, v21);
 store32(v5 + 2419, 0u);
 store8(v5 + 2418, (u8)(v27));
 store8(v5 + 2417, (u8)(v28));
 store8(v5 + 2416, (u8)(v30));
 store8(v5 + 2423, (u8)(0u));
 store64(v5 + 2488, 0ull);
 store64(v5 + 2480, v29);
 store64(v5 + 2472, 71ull);
 store64(v5 + 2464, v46);
 store64(v5 + 2456, 0ull);
 store64(v5 + 2448, v22);
 store64(v5 + 2440, v39);
 store64(v5 + 2432, v20);
 store64(v5 + 2424, v42);
 store64(v5 + 2528, load64(v2 + 224));
 store64(v5 + 2536, load64(v2 + 232));
 store64(v5 + 2544, load64(v2 + 240));
 store32(v5 + 2552, load32(v2 + 248));
 store32(v5 + 2556, 0u);
 v13 = v13 + 1ull;
 if (v13 == v7) {
  goto L4e;
 }
 goto L10;
 L63e:;
 import_rattle_dealloc(v23);
 if (!v37) {
  goto L68e;
 }
 v5 = v40;
 L69:;
 if (load8(v5) == 0) {
  goto L70e;
 }
 if (load8(v5 + 32ull) == 0) {
  goto L70e;
 }
 if (load64(v5 + 56ull) == 0) {
  goto L70e;
 }
 import_rattle_dealloc(load64(v5 + 40ull));
 L70e:;
 v5 = v5 + 96ull;
 v37 = v37 - 1ull;
 if (v37 != 0ull) {
  goto L69;
 }
 L68e:;
 if (!v45) {
  goto L71e;
 }
 import_rattle_dealloc(v40);
 L71e:;
 import_rattle_dealloc(v42);
 L9e:;
 store64(v2 + 216, v7);
 store64(v2 + 208, v13);
 store64(v2 + 200, v9);
 f23((v2 + 200ull));
 L8e:;
 v8 = 0ull;
 store64(v2 + 152, 0ull);
 store64(v2 + 160, 0ull);
 store64(v2 + 136, 0ull);
 v27 = 0u;
 store32(v2 + 144, 0u);
 v9 = 0ull;
 v7 = 0ull;
 goto L3e;
 L5e:;
 UNREACHABLE;
 L4e:;
 store64(v2 + 152, load64(v2 + 168));
 store64(v2 + 160, load64(v2 + 176));
 store64(v2 + 136, load64(v3 + 48ull));
 store32(v2 + 144, load32(v3 + 56ull));
 v27 = 1u;
 L3e:;
 v5 = load64(p0);
 store64(p0, v3);
 if (!v5) {
  goto L72e;
 }
 store64(v2 + 7336, load64(v5 + 56));
 store64(v2 + 7328, load64(v5 + 48));
 store64(v2 + 7320, load64(v5 + 40));
 store64(v2 + 7312, load64(v5 + 32));
 store64(v2 + 7304, load64(v5 + 24));
 store64(v2 + 7296, load64(v5 + 16));
 store64(v2 + 7288, load64(v5 + 8));
 store64(v2 + 7280, load64(v5));
 import_rattle_dealloc(v5);
 f3((v2 + 7304ull));
 L72e:;
 v4 = 66u;
 if (!v27) {
  goto L1e;
 }
 import_rattle_alloc(HEAP v2, 64ull, 8ull);
 if (((u32)(load64(v2)) & 1u) == 0) {
  goto L73e;
 }
 v5 = load64(v2 + 8);
 store64(v5 + 8, load64(v2 + 152));
 store64(v5, v8);
 store64(v5 + 16, load64(v2 + 160));
 store64(v5 + 40, v7);
 store64(v5 + 32, v7);
 store64(v5 + 24, v9);
 store64(v5 + 48, load64(v2 + 136));
 store32(v5 + 56, load32(v2 + 144));
 v4 = 0u;
 store32(v5 + 60, 0u);
 v17 = load64(p1);
 store64(p1, v5);
 if (!v17) {
  goto L1e;
 }
 store64(v2 + 7336, load64(v17 + 56));
 store64(v2 + 7328, load64(v17 + 48));
 store64(v2 + 7320, load64(v17 + 40));
 store64(v2 + 7312, load64(v17 + 32));
 store64(v2 + 7304, load64(v17 + 24));
 store64(v2 + 7296, load64(v17 + 16));
 store64(v2 + 7288, load64(v17 + 8));
 store64(v2 + 7280, load64(v17));
 import_rattle_dealloc(v17);
 f3((v2 + 7304ull));
 goto L1e;
 L73e:;
 store64(v2 + 128, v7);
 store64(v2 + 120, v7);
 store64(v2 + 112, v9);
 f3((v2 + 112ull));
 L1e:;
 return v4;
}

static u32 module_ncp_embed_counts(u64 p0, u32 p1, u64 p2)
{
 u64 v3 = 0, v4 = 0, v5 = 0, v6 = 0, v7 = 0;
 v3 = load64(p0);
 store64(p0, 0ull);
 if (!(!v3)) {
  goto L1e;
 }
 return 32u;
 L1e:;
 v4 = load64(v3 + 16ull);
 if (!v4) {
  goto L3e;
 }
 v5 = load64(v3 + 24ull);
 v6 = v3 + 8ull;
 v7 = 0ull;
 L4:;
 if (load8(v6 + v7) == (p1 & 255u)) {
  goto L2e;
 }
 v5 = v5 + 2560ull;
 v7 = v7 + 1ull;
 if (v4 != v7) {
  goto L4;
 }
 L3e:;
 store64(p0, v3);
 return 1u;
 L2e:;
 v7 = load64(v5 + 2528ull);
 v4 = load64(v5 + 2536ull);
 v6 = load64(v5 + 2544ull);
 p1 = load32(v5 + 2552ull);
 store64(p0, v3);
 store32(p2 + 24, p1);
 store64(p2 + 16, v6);
 store64(p2 + 8, v4);
 store64(p2, v7);
 return 0u;
}

static u32 module_ncp_embed_echo(u64 p0, u32 p1, u32 p2)
{
 u64 v3 = 0, v4 = 0, v5 = 0, v6 = 0, v7 = 0, v8 = 0;
 FRAME_OF(8);
 v3 = frame;
 v4 = load64(p0);
 store64(p0, 0ull);
 if (!(!v4)) {
  goto L2e;
 }
 p1 = 32u;
 goto L1e;
 L2e:;
 v5 = load64(v4 + 16ull);
 if (!v5) {
  goto L4e;
 }
 v6 = load64(v4 + 24ull);
 v7 = v4 + 8ull;
 v8 = 0ull;
 L5:;
 if (load8(v7 + v8) == (p1 & 255u)) {
  goto L3e;
 }
 v6 = v6 + 2560ull;
 v8 = v8 + 1ull;
 if (v5 != v8) {
  goto L5;
 }
 L4e:;
 store64(p0, v4);
 p1 = 1u;
 goto L1e;
 L3e:;
 store64(v3 + 8, 0ull);
 store64(v3, 0ull);
 p1 = 2u;
 if (load8(v6) != 0) {
  goto L7e;
 }
 if (load8(v6 + 1ull) != 0) {
  goto L7e;
 }
 if (load8(v6 + 2ull) != 0) {
  goto L7e;
 }
 if (load8(v6 + 3ull) != 0) {
  goto L7e;
 }
 if (load8(v6 + 2416ull) == 0) {
  goto L8e;
 }
 p1 = 12u;
 store64(p0, v4);
 goto L1e;
 L8e:;
 if (load64(v6 + 24ull) <= 255ull) {
  goto L6e;
 }
 p1 = 16u;
 L7e:;
 store64(p0, v4);
 goto L1e;
 L6e:;
 store8(v6 + 2416ull, (u8)(1u));
 store8(v3 + 1, (u8)(p2));
 store8(v3, (u8)(9u));
 f26(v6, v3);
 v8 = load64(p0);
 store64(p0, v4);
 p1 = 0u;
 if (!v8) {
  goto L1e;
 }
 store64(v3 + 56, load64(v8 + 56));
 store64(v3 + 48, load64(v8 + 48));
 store64(v3 + 40, load64(v8 + 40));
 store64(v3 + 32, load64(v8 + 32));
 store64(v3 + 24, load64(v8 + 24));
 store64(v3 + 16, load64(v8 + 16));
 store64(v3 + 8, load64(v8 + 8));
 store64(v3, load64(v8));
 import_rattle_dealloc(v8);
 f3((v3 + 24ull));
 L1e:;
 return p1;
}

static u32 module_ncp_embed_echoed(u64 p0, u32 p1, u64 p2)
{
 u32 v7 = 0;
 u64 v3 = 0, v4 = 0, v5 = 0, v6 = 0;
 v3 = load64(p0);
 store64(p0, 0ull);
 if (!(!v3)) {
  goto L1e;
 }
 return 32u;
 L1e:;
 v4 = load64(v3 + 16ull);
 if (!v4) {
  goto L3e;
 }
 v5 = load64(v3 + 24ull) + 2418ull;
 v6 = 0ull;
 L4:;
 if (load8((v3 + v6) + 8ull) == (p1 & 255u)) {
  goto L2e;
 }
 v5 = v5 + 2560ull;
 v6 = v6 + 1ull;
 if (v4 != v6) {
  goto L4;
 }
 L3e:;
 store64(p0, v3);
 return 1u;
 L2e:;
 p1 = load8(v5 - 1ull);
 v7 = load8(v5);
 store64(p0, v3);
 if (p1 == 1u) {
  goto L5e;
 }
 return 35u;
 L5e:;
 store8(p2, (u8)(v7));
 return 0u;
}

static u32 module_ncp_embed_error(u64 p0, u32 p1, u32 p2, u64 p3)
{
 u64 v4 = 0, v5 = 0, v6 = 0, v7 = 0, v8 = 0, v9 = 0, v10 = 0, v11 = 0, v12 = 0;
 FRAME_OF(4);
 v4 = (frame + 32u);
 v5 = load64(p0);
 store64(p0, 0ull);
 v6 = frame;
 store16(v6 + 8, (u16)(0u));
 store64(v6, 0ull);
 if (!(!v5)) {
  goto L1e;
 }
 return 32u;
 L1e:;
 store16(v6 + 24, (u16)(0u));
 store64(v6 + 16, 0ull);
 v7 = load64(v5 + 16ull);
 if (!v7) {
  goto L3e;
 }
 v8 = load64(v5 + 24ull) + 2448ull;
 v4 = 0ull;
 L4:;
 if (load8((v5 + v4) + 8ull) == (p1 & 255u)) {
  goto L2e;
 }
 v8 = v8 + 2560ull;
 v4 = v4 + 1ull;
 if (v7 != v4) {
  goto L4;
 }
 L3e:;
 store64(p0, v5);
 return 1u;
 L2e:;
 v9 = 0ull;
 v10 = load64(v8 - 8ull);
 if (!(!v10)) {
  goto L6e;
 }
 v4 = 0ull;
 v7 = v6 + 31ull;
 v11 = v7;
 goto L5e;
 L6e:;
 v11 = load64(v8 - 24ull);
 v4 = load64(v8);
 v7 = v11 + (v4 * 11ull);
 v12 = v6 + 31ull;
 v4 = load64(v8 - 16ull) - v4;
 if (v10 > v4) {
  goto L7e;
 }
 v4 = v10;
 v11 = v12;
 goto L5e;
 L7e:;
 v9 = v10 - v4;
 L5e:;
 p1 = p2 + 1u;
 L9:;
 if (!v4) {
  goto L11e;
 }
 v4 = v4 - 1ull;
 v8 = v7;
 v7 = v7 + 11ull;
 goto L10e;
 L11e:;
 if (!v9) {
  goto L8e;
 }
 v9 = v9 - 1ull;
 v4 = 0ull;
 v8 = v11;
 v11 = v11 + 11ull;
 L10e:;
 p1 = p1 - 1u;
 if (p1) {
  goto L9;
 }
 p2 = load8(v8);
 p1 = load16(v8 + 9);
 v4 = load64(v8 + 1);
 store64(v6, v4);
 store16(v6 + 8, (u16)(p1));
 store64(p0, v5);
 store8(p3, (u8)(p2));
 store64(p3 + 1, v4);
 store16(p3 + 9, (u16)(p1));
 return 0u;
 L8e:;
 store64(p0, v5);
 return 35u;
}

static u32 module_ncp_embed_give(u64 p0, u64 p1, u64 p2, u64 p3, u64 p4)
{
 u32 v6 = 0, v11 = 0, v12 = 0, v13 = 0;
 u64 v5 = 0, v7 = 0, v8 = 0, v9 = 0, v10 = 0, v14 = 0, v15 = 0, v16 = 0, v17 = 0, v18 = 0, v19 = 0, v20 = 0, v21 = 0, v22 = 0;
 FRAME_OF(8);
 v5 = frame;
 if (p4 <= 8192ull) {
  goto L2e;
 }
 v6 = 41u;
 goto L1e;
 L2e:;
 v7 = p4 >> 3;
 v8 = v7 + (u64)((u32)(((p4 & 7ull) != 0ull)));
 if (p3 >= v8) {
  goto L3e;
 }
 v6 = 42u;
 goto L1e;
 L3e:;
 v9 = p2 + (!p2 ? 4096ull : 0ull);
 p2 = v8 << 3;
 if (p4 == p2) {
  goto L4e;
 }
 if ((((load8(v9 + v7) << (((u32)(p4) & 7u) & 31)) & 255u) >> ((((u32)(p4 - p2) + 8u) & 255u) & 31)) == 0) {
  goto L4e;
 }
 v6 = 43u;
 goto L1e;
 L4e:;
 v10 = load64(p0);
 store64(p0, 0ull);
 if (!(!v10)) {
  goto L5e;
 }
 v6 = 32u;
 goto L1e;
 L5e:;
 v6 = 1u;
 v7 = load64(v10 + 16ull);
 if (!v7) {
  goto L6e;
 }
 p3 = load64(v10 + 24ull);
 v11 = load32(p1 + 8ull);
 v12 = load32(p1 + 4ull);
 v13 = load8(p1);
 p1 = v10 + 8ull;
 p2 = 0ull;
 L8:;
 if (load8(p1 + p2) == (v13 & 255u)) {
  goto L7e;
 }
 p3 = p3 + 2560ull;
 p2 = p2 + 1ull;
 if (v7 != p2) {
  goto L8;
 }
 goto L6e;
 L7e:;
 v6 = 2u;
 if (load8(p3) != 0) {
  goto L6e;
 }
 if (load8(p3 + 1ull) != 0) {
  goto L6e;
 }
 if (load8(p3 + 2ull) != 0) {
  goto L6e;
 }
 if (load8(p3 + 3ull) != 0) {
  goto L6e;
 }
 p1 = load64(p3 + 56ull);
 v7 = p3 + 48ull;
 p2 = load64(v7);
 p3 = 0ull;
 L9:;
 if (p1 != p3) {
  goto L10e;
 }
 v6 = 6u;
 goto L6e;
 L10e:;
 if (load8(p2) != 1u) {
  goto L11e;
 }
 if (load32(p2 + 8ull) != v12) {
  goto L11e;
 }
 if (load32(p2 + 12ull) != v11) {
  goto L11e;
 }
 if (load8(p2) != 1u) {
  goto L12e;
 }
 v6 = 8u;
 if (load8(p2 + 19ull) != 0) {
  goto L14e;
 }
 if (load8(p2 + 20ull) != 0) {
  goto L14e;
 }
 v6 = 9u;
 if (load8(p2 + 16ull) != 1u) {
  goto L14e;
 }
 if (load8(p2 + 17ull) != 1u) {
  goto L14e;
 }
 v6 = 10u;
 if ((load8(p2 + 8ull) & 1u) == 0) {
  goto L14e;
 }
 if ((load32(p2 + 12ull) & 1u) != 0) {
  goto L14e;
 }
 p1 = p4;
 v14 = (u64)load8(p2 + 23ull);
 if (!v14) {
  goto L15e;
 }
 p1 = p4 % v14;
 L15e:;
 v6 = 11u;
 if (p1 != 0ull) {
  goto L14e;
 }
 if (load8(p2 + 32ull) != 1u) {
  goto L16e;
 }
 store64(v5 + 16, 0ull);
 store64(v5 + 8, v8);
 store64(v5, v9);
 v15 = load64(p2 + 72ull);
 p1 = load64(p2 + 80ull);
 store64(v5 + 24, p4);
 if ((p1 - v15) >= p4) {
  goto L17e;
 }
 f25(v7, p3);
 v6 = 13u;
 goto L13e;
 L17e:;
 v16 = load64(p2 + 40ull);
 v17 = load64(p2 + 48ull);
 v18 = p2 + 64ull;
 v19 = load64(v18);
 v8 = v19 + v15;
 if (p4 <= ((v17 << 3) - v8)) {
  goto L18e;
 }
 p1 = 0ull;
 v8 = (v8 >> 3) + (u64)((u32)(((v8 & 7ull) != 0ull)));
 v20 = v19 >> 3;
 if (v8 == v20) {
  goto L19e;
 }
 v9 = v8 - v20;
 v14 = v9 & 3ull;
 if ((v20 - v8) > 0xfffffffffffffffcull) {
  goto L20e;
 }
 v21 = v16 + v20;
 v22 = v9 & 0xfffffffffffffffcull;
 p1 = 0ull;
 L21:;
 v8 = v16 + p1;
 v9 = v21 + p1;
 store8(v8, (u8)(load8(v9)));
 v6 = load8(v9 + 1ull);
 v13 = load8(v9 + 2ull);
 store8(v8 + 3ull, (u8)(load8(v9 + 3ull)));
 store8(v8 + 2ull, (u8)(v13));
 store8(v8 + 1ull, (u8)(v6));
 p1 = p1 + 4ull;
 if (v22 != p1) {
  goto L21;
 }
 if (!v14) {
  goto L19e;
 }
 L20e:;
 p1 = v16 + p1;
 L22:;
 store8(p1, (u8)(load8(p1 + v20)));
 p1 = p1 + 1ull;
 v14 = v14 - 1ull;
 if (v14 != 0ull) {
  goto L22;
 }
 L19e:;
 v19 = v19 & 7ull;
 v8 = v19 + v15;
 L18e:;
 f10(v16, v17, v8, v5);
 store64(v18, v19);
 p2 = p2 + 72ull;
 store64(p2, load64(p2) + p4);
 f25(v7, p3);
 v6 = 0u;
 goto L13e;
 L16e:;
 f25(v7, p3);
 v6 = !p4 ? 0u : 13u;
 goto L13e;
 L14e:;
 f25(v7, p3);
 L13e:;
 p4 = load64(p0);
 store64(p0, v10);
 if (!p4) {
  goto L1e;
 }
 store64(v5 + 56, load64(p4 + 56));
 store64(v5 + 48, load64(p4 + 48));
 store64(v5 + 40, load64(p4 + 40));
 store64(v5 + 32, load64(p4 + 32));
 store64(v5 + 24, load64(p4 + 24));
 store64(v5 + 16, load64(p4 + 16));
 store64(v5 + 8, load64(p4 + 8));
 store64(v5, load64(p4));
 import_rattle_dealloc(p4);
 f3((v5 + 24ull));
 goto L1e;
 L12e:;
 UNREACHABLE;
 L11e:;
 p2 = p2 + 96ull;
 p3 = p3 + 1ull;
 goto L9;
 L6e:;
 store64(p0, v10);
 L1e:;
 return v6;
}

static u32 module_ncp_embed_ignored(u64 p0, u64 p1)
{
 u32 v4 = 0;
 u64 v2 = 0, v3 = 0;
 v2 = load64(p0);
 store64(p0, 0ull);
 if (!(!v2)) {
  goto L1e;
 }
 return 32u;
 L1e:;
 v3 = load64(v2 + 48ull);
 v4 = load32(v2 + 56ull);
 store64(p0, v2);
 store32(p1 + 8, v4);
 store64(p1, v3);
 return 0u;
}

static u32 module_ncp_embed_interrupt(u64 p0, u64 p1)
{
 u32 v4 = 0, v7 = 0, v8 = 0;
 u64 v2 = 0, v3 = 0, v5 = 0, v6 = 0, v9 = 0, v10 = 0, v11 = 0;
 FRAME_OF(8);
 v2 = frame;
 v3 = load64(p0);
 store64(p0, 0ull);
 if (!(!v3)) {
  goto L2e;
 }
 v4 = 32u;
 goto L1e;
 L2e:;
 v5 = load64(v3 + 16ull);
 if (!v5) {
  goto L4e;
 }
 v6 = load64(v3 + 24ull);
 v7 = load32(p1 + 8ull);
 v8 = load32(p1 + 4ull);
 v4 = load8(p1);
 v9 = v3 + 8ull;
 p1 = 0ull;
 L5:;
 if (load8(v9 + p1) == (v4 & 255u)) {
  goto L3e;
 }
 v6 = v6 + 2560ull;
 p1 = p1 + 1ull;
 if (v5 != p1) {
  goto L5;
 }
 L4e:;
 store64(p0, v3);
 v4 = 1u;
 goto L1e;
 L3e:;
 store64(v2 + 8, 0ull);
 store64(v2, 0ull);
 v4 = 2u;
 if (load8(v6) != 0) {
  goto L6e;
 }
 if (load8(v6 + 1ull) != 0) {
  goto L6e;
 }
 if (load8(v6 + 2ull) != 0) {
  goto L6e;
 }
 if (load8(v6 + 3ull) != 0) {
  goto L6e;
 }
 v9 = load64(v6 + 56ull);
 v10 = v6 + 48ull;
 p1 = load64(v10);
 v11 = load64(v6 + 24ull);
 v5 = 0ull;
 L7:;
 if (v9 != v5) {
  goto L8e;
 }
 v4 = 6u;
 goto L6e;
 L8e:;
 if (load8(p1) != 1u) {
  goto L9e;
 }
 if (load32(p1 + 8ull) != v8) {
  goto L9e;
 }
 if (load32(p1 + 12ull) != v7) {
  goto L9e;
 }
 if (load8(p1) != 1u) {
  goto L10e;
 }
 v4 = 7u;
 if (load8(p1 + 19ull) != 0) {
  goto L11e;
 }
 if (load8(p1 + 20ull) != 0) {
  goto L11e;
 }
 v4 = 8u;
 if (load8(p1 + 16ull) != 1u) {
  goto L11e;
 }
 v8 = load8(p1 + 17ull);
 v4 = v8 ? 15u : 8u;
 if (v11 > 255ull) {
  goto L11e;
 }
 if (!v8) {
  goto L11e;
 }
 if ((load8(p1 + 8ull) & 1u) == 0) {
  goto L13e;
 }
 v4 = 8u;
 if ((load32(p1 + 12ull) & 1u) == 0) {
  goto L12e;
 }
 L13e:;
 v4 = 7u;
 L12e:;
 v8 = load8(p1 + 22ull);
 f25(v10, v5);
 store64(v2 + 2, 0ull);
 store8(v2 + 1, (u8)(v8));
 store8(v2, (u8)(v4));
 v4 = 0u;
 store32(v2 + 9, 0u);
 f26(v6, v2);
 goto L6e;
 L11e:;
 f25(v10, v5);
 v4 = v4 + 1u;
 goto L6e;
 L10e:;
 UNREACHABLE;
 L9e:;
 p1 = p1 + 96ull;
 v5 = v5 + 1ull;
 goto L7;
 L6e:;
 p1 = load64(p0);
 store64(p0, v3);
 if (!p1) {
  goto L1e;
 }
 store64(v2 + 56, load64(p1 + 56));
 store64(v2 + 48, load64(p1 + 48));
 store64(v2 + 40, load64(p1 + 40));
 store64(v2 + 32, load64(p1 + 32));
 store64(v2 + 24, load64(p1 + 24));
 store64(v2 + 16, load64(p1 + 16));
 store64(v2 + 8, load64(p1 + 8));
 store64(v2, load64(p1));
 import_rattle_dealloc(p1);
 f3((v2 + 24ull));
 L1e:;
 return v4;
}

static u32 module_ncp_embed_is_held(u64 p0, u32 p1, u32 p2)
{
 u32 v4 = 0;
 u64 v3 = 0, v5 = 0, v6 = 0, v7 = 0;
 v3 = load64(p0);
 store64(p0, 0ull);
 if (!(!v3)) {
  goto L1e;
 }
 return 0u;
 L1e:;
 v4 = 0u;
 v5 = load64(v3 + 16ull);
 if (!v5) {
  goto L2e;
 }
 v6 = load64(v3 + 24ull) + 2464ull;
 v7 = v3 + 8ull;
 L4:;
 if (load8(v7) == (p1 & 255u)) {
  goto L3e;
 }
 v6 = v6 + 2560ull;
 v7 = v7 + 1ull;
 v5 = v5 - 1ull;
 if (!(!v5)) {
  goto L4;
 }
 goto L2e;
 L3e:;
 if ((p2 & 255u) == 1u) {
  goto L2e;
 }
 p1 = p2 & 255u;
 if (p1 > 71u) {
  goto L2e;
 }
 v4 = (u32)((load8(load64(v6) + ((u64)(p1 - (u32)((p1 != 0u))) * 1048ull)) == 3u));
 L2e:;
 store64(p0, v3);
 return v4;
}

static u32 module_ncp_embed_is_open(u64 p0, u64 p1)
{
 u32 v3 = 0, v5 = 0, v6 = 0, v7 = 0;
 u64 v2 = 0, v4 = 0, v8 = 0;
 v2 = load64(p0);
 store64(p0, 0ull);
 if (!(!v2)) {
  goto L1e;
 }
 return 0u;
 L1e:;
 v3 = 0u;
 v4 = load64(v2 + 16ull);
 if (!v4) {
  goto L2e;
 }
 v5 = load32(p1 + 8ull);
 v6 = load32(p1 + 4ull);
 v7 = load8(p1);
 v8 = load64(v2 + 24ull) + 56ull;
 p1 = v2 + 8ull;
 L4:;
 if (load8(p1) == (v7 & 255u)) {
  goto L3e;
 }
 v8 = v8 + 2560ull;
 p1 = p1 + 1ull;
 v4 = v4 - 1ull;
 if (!(!v4)) {
  goto L4;
 }
 goto L2e;
 L3e:;
 p1 = load64(v8 - 8ull);
 v4 = load64(v8);
 v8 = 0ull;
 L5:;
 if (v4 == v8) {
  goto L2e;
 }
 if (load8(p1) != 1u) {
  goto L6e;
 }
 if (load32(p1 + 8ull) != v6) {
  goto L6e;
 }
 if (load32(p1 + 12ull) != v5) {
  goto L6e;
 }
 if (v8 >= v4) {
  goto L7e;
 }
 if (load8(p1) != 1u) {
  goto L7e;
 }
 v3 = (load8(p1 + 17ull) & load8(p1 + 16ull)) & (u32)(((load8(p1 + 20ull) | load8(p1 + 19ull)) == 0));
 goto L2e;
 L7e:;
 UNREACHABLE;
 L6e:;
 p1 = p1 + 96ull;
 v8 = v8 + 1ull;
 goto L5;
 L2e:;
 store64(p0, v2);
 return v3;
}

static u32 module_ncp_embed_is_up(u64 p0, u32 p1)
{
 u32 v3 = 0;
 u64 v2 = 0, v4 = 0, v5 = 0, v6 = 0;
 v2 = load64(p0);
 store64(p0, 0ull);
 v3 = 0u;
 if (!v2) {
  goto L1e;
 }
 v4 = load64(v2 + 16ull);
 if (!v4) {
  goto L3e;
 }
 v5 = load64(v2 + 24ull);
 v6 = 0ull;
 L4:;
 if (load8((v2 + v6) + 8ull) == (p1 & 255u)) {
  goto L2e;
 }
 v5 = v5 + 2560ull;
 v6 = v6 + 1ull;
 if (v4 != v6) {
  goto L4;
 }
 L3e:;
 store64(p0, v2);
 return 0u;
 L2e:;
 p1 = load32(v5);
 store64(p0, v2);
 if ((p1 & 65793u) != 0) {
  goto L1e;
 }
 v3 = (u32)(((p1 & 16777216u) == 0));
 L1e:;
 return v3;
}

static u32 module_ncp_embed_pair_on(u64 p0, u32 p1, u32 p2, u64 p3)
{
 u32 v7 = 0;
 u64 v4 = 0, v5 = 0, v6 = 0, v8 = 0, v9 = 0;
 v4 = load64(p0);
 store64(p0, 0ull);
 if (!(!v4)) {
  goto L1e;
 }
 return 32u;
 L1e:;
 v5 = load64(v4 + 16ull);
 if (!v5) {
  goto L3e;
 }
 v6 = load64(v4 + 24ull);
 v7 = load8(p3);
 v8 = v4 + 8ull;
 v9 = 0ull;
 L4:;
 if (load8(v8 + v9) == (v7 & 255u)) {
  goto L2e;
 }
 v6 = v6 + 2560ull;
 v9 = v9 + 1ull;
 if (v5 != v9) {
  goto L4;
 }
 L3e:;
 store64(p0, v4);
 return 1u;
 L2e:;
 if ((p1 & 1u) == 0) {
  goto L8e;
 }
 if ((p2 & 255u) > 71u) {
  goto L6e;
 }
 v9 = v6 + (((u64)(p2) & 255ull) << 4);
 if (load8(v9 + 88ull) != 1u) {
  goto L6e;
 }
 v9 = load64(v9 + 96ull);
 if (v9 >= load64(v6 + 56ull)) {
  goto L5e;
 }
 v9 = load64(v6 + 48ull) + (v9 * 96ull);
 if (load8(v9) == 1u) {
  goto L7e;
 }
 goto L5e;
 L8e:;
 if ((p2 & 255u) > 71u) {
  goto L6e;
 }
 v9 = v6 + (((u64)(p2) & 255ull) << 4);
 if (load8(v9 + 1240ull) != 1u) {
  goto L6e;
 }
 v9 = load64(v9 + 1248ull);
 if (v9 >= load64(v6 + 56ull)) {
  goto L5e;
 }
 v9 = load64(v6 + 48ull) + (v9 * 96ull);
 if (load8(v9) != 1u) {
  goto L5e;
 }
 L7e:;
 v9 = load64(v9 + 8ull);
 store64(p0, v4);
 store64(p3 + 4ull, v9);
 return 0u;
 L6e:;
 store64(p0, v4);
 return 35u;
 L5e:;
 UNREACHABLE;
 UNREACHABLE;
 return 0;
}

static u32 module_ncp_embed_phase(u64 p0, u32 p1, u64 p2)
{
 u64 v3 = 0, v4 = 0, v5 = 0, v6 = 0;
 v3 = load64(p0);
 store64(p0, 0ull);
 if (!(!v3)) {
  goto L1e;
 }
 return 32u;
 L1e:;
 v4 = load64(v3 + 16ull);
 if (!v4) {
  goto L3e;
 }
 v5 = load64(v3 + 24ull);
 v6 = 0ull;
 L4:;
 if (load8((v3 + v6) + 8ull) == (p1 & 255u)) {
  goto L2e;
 }
 v5 = v5 + 2560ull;
 v6 = v6 + 1ull;
 if (v4 != v6) {
  goto L4;
 }
 L3e:;
 store64(p0, v3);
 return 1u;
 L2e:;
 p1 = load32(v5);
 store64(p0, v3);
 store32(p2, p1 & 16843009u);
 return 0u;
}

static u32 module_ncp_embed_receive(u64 p0, u64 p1, u64 p2, u64 p3, u64 p4)
{
 u32 v6 = 0;
 u64 v5 = 0, v7 = 0, v8 = 0;
 FRAME_OF(16);
 v5 = frame;
 store32(v5 + 24, 0u);
 store64(v5 + 16, 0ull);
 store64(v5 + 8, 0ull);
 store64(v5, 0ull);
 if (p3 <= 8192ull) {
  goto L2e;
 }
 v6 = 41u;
 goto L1e;
 L2e:;
 v7 = p3 >> 3;
 v8 = v7 + (u64)((u32)(((p3 & 7ull) != 0ull)));
 if (p2 >= v8) {
  goto L3e;
 }
 v6 = 42u;
 goto L1e;
 L3e:;
 p2 = p1 + (!p1 ? 4096ull : 0ull);
 p1 = v8 << 3;
 if (p3 == p1) {
  goto L4e;
 }
 if ((((load8(p2 + v7) << (((u32)(p3) & 7u) & 31)) & 255u) >> ((((u32)(p3 - p1) + 8u) & 255u) & 31)) == 0) {
  goto L4e;
 }
 v6 = 43u;
 goto L1e;
 L4e:;
 p1 = load64(p0);
 store64(p0, 0ull);
 store64(v5 + 56, p3);
 store64(v5 + 48, 0ull);
 store64(v5 + 40, v8);
 store64(v5 + 32, p2);
 if (!(!p1)) {
  goto L5e;
 }
 v6 = 32u;
 goto L1e;
 L5e:;
 f27(v5, p1, (v5 + 32ull));
 store32(p4 + 24, load32(v5 + 24));
 store64(p4 + 16, load64(v5 + 16));
 store64(p4 + 8, load64(v5 + 8));
 store64(p4, load64(v5));
 p3 = load64(p0);
 store64(p0, p1);
 v6 = 0u;
 if (!p3) {
  goto L1e;
 }
 store64(v5 + 120, load64(p3 + 56));
 store64(v5 + 112, load64(p3 + 48));
 store64(v5 + 104, load64(p3 + 40));
 store64(v5 + 96, load64(p3 + 32));
 store64(v5 + 88, load64(p3 + 24));
 store64(v5 + 80, load64(p3 + 16));
 store64(v5 + 72, load64(p3 + 8));
 store64(v5 + 64, load64(p3));
 import_rattle_dealloc(p3);
 f3((v5 + 88ull));
 L1e:;
 return v6;
}

static u32 module_ncp_embed_reset(u64 p0, u32 p1)
{
 u32 v4 = 0, v9 = 0;
 u64 v2 = 0, v3 = 0, v5 = 0, v6 = 0, v7 = 0, v8 = 0, v10 = 0;
 FRAME_OF(8);
 v2 = frame;
 v3 = load64(p0);
 store64(p0, 0ull);
 if (!(!v3)) {
  goto L2e;
 }
 v4 = 32u;
 goto L1e;
 L2e:;
 v4 = 1u;
 v5 = load64(v3 + 16ull);
 if (!v5) {
  goto L3e;
 }
 v6 = load64(v3 + 24ull);
 v7 = v3 + 8ull;
 v8 = 0ull;
 L5:;
 if (load8(v7 + v8) == (p1 & 255u)) {
  goto L4e;
 }
 v6 = v6 + 2560ull;
 v8 = v8 + 1ull;
 if (v5 != v8) {
  goto L5;
 }
 goto L3e;
 L4e:;
 v5 = load64(v6 + 2504ull);
 v8 = (load64(v6 + 2496ull) >> 2) | (v5 << 62);
 v5 = v5 >> 2;
 if (!((v8 | v5) == 0)) {
  goto L7e;
 }
 v9 = 1u;
 goto L6e;
 L7e:;
 v7 = load64(v6 + 2464ull);
 if (load8((v7 + ((v8 != 0ull ? ctz64(v8) : (ctz64(v5) + 64ull)) * 1048ull)) + 1048ull) == 0) {
  goto L8e;
 }
 v9 = 0u;
 goto L6e;
 L8e:;
 v8 = v7 + 1048ull;
 v5 = load64(v6 + 2472ull);
 L9:;
 v5 = v5 - 1ull;
 v9 = (u32)((!v5));
 if (v9) {
  goto L6e;
 }
 p1 = load8(v8);
 v8 = v8 + 1048ull;
 if (!p1) {
  goto L9;
 }
 L6e:;
 v4 = 12u;
 if (load8(v6 + 1ull) != 0) {
  goto L3e;
 }
 if (load8(v6 + 3ull) != 0) {
  goto L3e;
 }
 f8((v6 + 8ull));
 store8(v6 + 1ull, (u8)(1u));
 f28(v6, v9);
 v8 = v6 + 56ull;
 v5 = load64(v8);
 if (!v5) {
  goto L10e;
 }
 store64(v8, 0ull);
 v7 = load64(v6 + 64ull);
 store64(v8 + 8, 0ull);
 v10 = load64(v6 + 48ull);
 v8 = v10;
 L11:;
 if (load8(v8) == 0) {
  goto L12e;
 }
 if (load8(v8 + 32ull) == 0) {
  goto L12e;
 }
 if (load64(v8 + 56ull) == 0) {
  goto L12e;
 }
 import_rattle_dealloc(load64(v8 + 40ull));
 L12e:;
 v8 = v8 + 96ull;
 v5 = v5 - 1ull;
 if (v5 != 0ull) {
  goto L11;
 }
 store64(v6 + 64ull, v7);
 store64(v6 + 56ull, 0ull);
 store64(v6 + 48ull, v10);
 L10e:;
 v4 = 0u;
 fill((v6 + 72ull), 0u, 2320ull);
 store8(v6 + 2416ull, (u8)(0u));
 store64(v6 + 2408ull, 0ull);
 store64(v6 + 2400ull, 0ull);
 v8 = load64(p0);
 store64(p0, v3);
 if (!v8) {
  goto L1e;
 }
 store64(v2 + 56, load64(v8 + 56));
 store64(v2 + 48, load64(v8 + 48));
 store64(v2 + 40, load64(v8 + 40));
 store64(v2 + 32, load64(v8 + 32));
 store64(v2 + 24, load64(v8 + 24));
 store64(v2 + 16, load64(v8 + 16));
 store64(v2 + 8, load64(v8 + 8));
 store64(v2, load64(v8));
 import_rattle_dealloc(v8);
 f3((v2 + 24ull));
 goto L1e;
 L3e:;
 store64(p0, v3);
 L1e:;
 return v4;
}

static u32 module_ncp_embed_restart(u64 p0, u32 p1)
{
 u64 v2 = 0, v3 = 0, v4 = 0, v5 = 0, v6 = 0, v7 = 0, v8 = 0;
 FRAME_OF(10);
 v2 = frame;
 v3 = load64(p0);
 store64(p0, 0ull);
 if (!(!v3)) {
  goto L2e;
 }
 p1 = 32u;
 goto L1e;
 L2e:;
 v4 = load64(v3 + 16ull);
 if (!v4) {
  goto L4e;
 }
 v5 = load64(v3 + 24ull) + 2512ull;
 v6 = 0ull;
 L5:;
 if (load8((v3 + v6) + 8ull) == (p1 & 255u)) {
  goto L3e;
 }
 v5 = v5 + 2560ull;
 v6 = v6 + 1ull;
 if (v4 != v6) {
  goto L5;
 }
 L4e:;
 store64(p0, v3);
 p1 = 1u;
 goto L1e;
 L3e:;
 v7 = v5 - 48ull;
 v6 = load64(v7);
 if (load8(v6) != 2u) {
  goto L6e;
 }
 store8(v6, (u8)(1u));
 store64(v5, load64(v5) | 1ull);
 L6e:;
 v4 = 2ull;
 v6 = 1048ull;
 L7:;
 v8 = load64(v7) + v6;
 if (load8(v8) != 2u) {
  goto L8e;
 }
 store8(v8, (u8)(1u));
 f77(v2, 1ull, 0ull, (u32)(v4));
 store64(v5, load64(v5) | load64(v2));
 store64(v5 + 8, load64(v5 + 8) | load64(v2 + 8));
 L8e:;
 v6 = v6 + 1048ull;
 v4 = v4 + 1ull;
 if (v4 != 72ull) {
  goto L7;
 }
 v5 = load64(p0);
 store64(p0, v3);
 p1 = 0u;
 if (!v5) {
  goto L1e;
 }
 store64(v2 + 72, load64(v5 + 56));
 store64(v2 + 64, load64(v5 + 48));
 store64(v2 + 56, load64(v5 + 40));
 store64(v2 + 48, load64(v5 + 32));
 store64(v2 + 40, load64(v5 + 24));
 store64(v2 + 32, load64(v5 + 16));
 store64(v2 + 24, load64(v5 + 8));
 store64(v2 + 16, load64(v5));
 import_rattle_dealloc(v5);
 f3((v2 + 40ull));
 L1e:;
 return p1;
}

static u32 module_ncp_embed_room(u64 p0, u64 p1, u64 p2)
{
 u32 v4 = 0, v6 = 0, v7 = 0, v8 = 0;
 u64 v3 = 0, v5 = 0, v9 = 0;
 v3 = load64(p0);
 store64(p0, 0ull);
 if (!(!v3)) {
  goto L1e;
 }
 return 32u;
 L1e:;
 v4 = 1u;
 v5 = load64(v3 + 16ull);
 if (!v5) {
  goto L2e;
 }
 v6 = load32(p1 + 8ull);
 v7 = load32(p1 + 4ull);
 v8 = load8(p1);
 v9 = load64(v3 + 24ull) + 56ull;
 p1 = 0ull;
 L4:;
 if (load8((v3 + p1) + 8ull) == (v8 & 255u)) {
  goto L3e;
 }
 v9 = v9 + 2560ull;
 p1 = p1 + 1ull;
 if (v5 != p1) {
  goto L4;
 }
 goto L2e;
 L3e:;
 p1 = load64(v9 - 8ull);
 v5 = load64(v9);
 v9 = 0ull;
 L5:;
 if (v5 != v9) {
  goto L6e;
 }
 v4 = 6u;
 goto L2e;
 L6e:;
 if (load8(p1) != 1u) {
  goto L7e;
 }
 if (load32(p1 + 8ull) != v7) {
  goto L7e;
 }
 if (load32(p1 + 12ull) != v6) {
  goto L7e;
 }
 if (v9 >= v5) {
  goto L8e;
 }
 if (load8(p1) != 1u) {
  goto L8e;
 }
 v8 = 0u;
 if (load8(p1 + 32ull) != 1u) {
  goto L9e;
 }
 v8 = load32(p1 + 80ull);
 L9e:;
 store64(p0, v3);
 store32(p2, v8);
 return 0u;
 L8e:;
 UNREACHABLE;
 L7e:;
 p1 = p1 + 96ull;
 v9 = v9 + 1ull;
 goto L5;
 L2e:;
 store64(p0, v3);
 return v4;
}

static u32 module_ncp_embed_state(u64 p0, u64 p1, u64 p2)
{
 u32 v4 = 0, v6 = 0, v7 = 0, v8 = 0, v10 = 0, v11 = 0, v12 = 0, v13 = 0, v14 = 0, v15 = 0, v16 = 0, v17 = 0, v18 = 0, v19 = 0;
 u64 v3 = 0, v5 = 0, v9 = 0;
 v3 = load64(p0);
 store64(p0, 0ull);
 if (!(!v3)) {
  goto L1e;
 }
 return 32u;
 L1e:;
 v4 = 1u;
 v5 = load64(v3 + 16ull);
 if (!v5) {
  goto L2e;
 }
 v6 = load32(p1 + 8ull);
 v7 = load32(p1 + 4ull);
 v8 = load8(p1);
 v9 = load64(v3 + 24ull) + 56ull;
 p1 = 0ull;
 L4:;
 if (load8((v3 + p1) + 8ull) == (v8 & 255u)) {
  goto L3e;
 }
 v9 = v9 + 2560ull;
 p1 = p1 + 1ull;
 if (v5 != p1) {
  goto L4;
 }
 goto L2e;
 L3e:;
 p1 = load64(v9 - 8ull);
 v5 = load64(v9);
 v9 = 0ull;
 L5:;
 if (v5 != v9) {
  goto L6e;
 }
 v4 = 6u;
 goto L2e;
 L6e:;
 if (load8(p1) != 1u) {
  goto L7e;
 }
 if (load32(p1 + 8ull) != v7) {
  goto L7e;
 }
 if (load32(p1 + 12ull) != v6) {
  goto L7e;
 }
 if (v9 >= v5) {
  goto L8e;
 }
 if (load8(p1) != 1u) {
  goto L8e;
 }
 v7 = load32(p1 + 28ull);
 v6 = load16(p1 + 24ull);
 v4 = load8(p1 + 23ull);
 v10 = load8(p1 + 22ull);
 v11 = load8(p1 + 21ull);
 v12 = load8(p1 + 20ull);
 v13 = load8(p1 + 19ull);
 v14 = load8(p1 + 18ull);
 v15 = load8(p1 + 17ull);
 v16 = load8(p1 + 16ull);
 v17 = load32(p1 + 8ull);
 v8 = 0u;
 if (load8(p1 + 32ull) != 1u) {
  goto L9e;
 }
 v8 = load32(p1 + 72ull);
 L9e:;
 v18 = load32(p1 + 92ull);
 v19 = load16(p1 + 88ull);
 store64(p0, v3);
 store16(p2 + 25, (u16)(0u));
 store16(p2 + 23, (u16)(v19));
 store8(p2 + 22, (u8)(v11));
 store8(p2 + 21, (u8)(v12));
 store8(p2 + 20, (u8)(v13));
 store8(p2 + 19, (u8)(v14));
 store8(p2 + 18, (u8)(v15));
 store8(p2 + 17, (u8)(v16));
 store8(p2 + 16, (u8)(v17 & 1u));
 store8(p2 + 15, (u8)(v4));
 store8(p2 + 14, (u8)(v10));
 store16(p2 + 12, (u16)(v6));
 store32(p2 + 8, v18);
 store32(p2 + 4, v8);
 store32(p2, v7);
 store8(p2 + 27, (u8)(0u));
 return 0u;
 L8e:;
 UNREACHABLE;
 L7e:;
 p1 = p1 + 96ull;
 v9 = v9 + 1ull;
 goto L5;
 L2e:;
 store64(p0, v3);
 return v4;
}

static u32 module_ncp_embed_unacknowledged(u64 p0, u32 p1, u64 p2)
{
 u32 v11 = 0, v17 = 0, v18 = 0, v19 = 0;
 u64 v3 = 0, v4 = 0, v5 = 0, v6 = 0, v7 = 0, v8 = 0, v9 = 0, v10 = 0, v12 = 0, v13 = 0, v14 = 0, v15 = 0, v16 = 0, b0 = 0;
 FRAME_OF(16);
 (void)b0;
 v3 = frame;
 v4 = load64(p0);
 store64(p0, 0ull);
 if (!(!v4)) {
  goto L2e;
 }
 p1 = 32u;
 goto L1e;
 L2e:;
 v5 = load64(v4 + 16ull);
 if (!v5) {
  goto L4e;
 }
 v6 = load64(v4 + 24ull);
 v7 = v4 + 8ull;
 v8 = 0ull;
 L6:;
 if (load8(v7 + v8) != (p1 & 255u)) {
  goto L7e;
 }
 v9 = v6 + 2464ull;
 v8 = 0ull;
 L9:;
 if (load8(v7 + v8) == (p1 & 255u)) {
  goto L8e;
 }
 v9 = v9 + 2560ull;
 v8 = v8 + 1ull;
 if (v5 != v8) {
  goto L9;
 }
 goto L5e;
 L8e:;
 v10 = load64(v9);
 v11 = load8(v10);
 if (!v11) {
  goto L5e;
 }
 v8 = 0ull;
 v12 = v11 ? (v10 + 8ull) : 0ull;
 v9 = v6 + 2464ull;
 L11:;
 if (load8(v7 + v8) == (p1 & 255u)) {
  goto L10e;
 }
 v9 = v9 + 2560ull;
 v8 = v8 + 1ull;
 if (v5 != v8) {
  goto L11;
 }
 goto L5e;
 L10e:;
 v13 = v6 + 2464ull;
 v11 = load8(load64(v9));
 v8 = 0ull;
 L13:;
 if (load8(v7 + v8) == (p1 & 255u)) {
  goto L12e;
 }
 v13 = v13 + 2560ull;
 v8 = v8 + 1ull;
 if (v5 != v8) {
  goto L13;
 }
 goto L5e;
 L12e:;
 if ((v11 & 255u) == 3u) {
  goto L5e;
 }
 if ((load8(load64(v13)) & 255u) == 0) {
  goto L5e;
 }
 v8 = load64(v10 + 1040ull);
 if (v8 < 72ull) {
  goto L5e;
 }
 if (load8(v10 + 12ull) != 0) {
  goto L5e;
 }
 v11 = load8(v10 + 13ull);
 if (!v11) {
  goto L5e;
 }
 if (load8(v10 + 16ull) != 0) {
  goto L5e;
 }
 v14 = (((u64)load8(v10 + 14ull) << 8) | (u64)load8(v10 + 15ull)) * (u64)(v11);
 if ((v8 - 72ull) < v14) {
  goto L5e;
 }
 if (v11 != 8u) {
  goto L5e;
 }
 if (((load8(v10 + 10ull) | (load8(v10 + 8ull) & 15u)) & 255u) != 0) {
  goto L5e;
 }
 v8 = load64(v10 + 1032ull);
 store64(v3 + 24, v14);
 v15 = 0ull;
 store64(v3 + 16, 0ull);
 v16 = v8 - 9ull;
 store64(v3 + 8, v16);
 v12 = v12 + 9ull;
 store64(v3, v12);
 L14:;
 if (!v14) {
  goto L17e;
 }
 store32(v3 + 39, 0u);
 v13 = 0ull;
 store64(v3 + 32, 0ull);
 v17 = (u32)((!v15));
 if (v17) {
  goto L16e;
 }
 v8 = 0ull;
 L18:;
 v9 = 8ull - v8;
 v5 = v8 + v15;
 v6 = v5 & 7ull;
 v10 = 8ull - v6;
 v9 = v9 < v10 ? v9 : v10;
 v13 = (v13 << (v9 & 63)) | (u64)(((load8(v12 + (v5 >> 3)) << ((u32)(v6) & 31)) & 255u) >> (((8u - (u32)(v9)) & 255u) & 31));
 v8 = v9 + v8;
 if (v8 < 8ull) {
  goto L18;
 }
 v11 = (u32)(v13);
 goto L15e;
 L17e:;
 v6 = load64(v4 + 24ull);
 v5 = load64(v4 + 16ull);
 goto L5e;
 L16e:;
 v11 = load8(v12);
 L15e:;
 if ((v11 & 255u) > 13u) {
  goto L20e;
 }
 v9 = (u64)(v11) & 255ull;
 v8 = load64((v9 << 3) + DATA(8));
 if ((v14 >> 3) < v8) {
  goto L20e;
 }
 v5 = v16 - v8;
 v6 = v12 + v8;
 v10 = v8 << 3;
 v18 = v11;
 switch ((u32)(v9)) {
 case 0: case 12:
  goto L21e;
 case 7:
  goto L27e;
 case 8:
  goto L26e;
 case 9:
  goto L25e;
 case 10:
  goto L24e;
 case 11:
  goto L23e;
 default:
  goto L22e;
 }
 L27e:;
 v18 = 7u;
 if (v17) {
  goto L21e;
 }
 v8 = 0ull;
 L28:;
 v9 = 8ull - v8;
 v13 = 8ull - ((v8 + v15) & 7ull);
 v8 = (v9 < v13 ? v9 : v13) + v8;
 if (v8 < 8ull) {
  goto L28;
 }
 goto L21e;
 L26e:;
 v18 = 8u;
 if (v17) {
  goto L21e;
 }
 v8 = 0ull;
 L29:;
 v9 = 8ull - v8;
 v13 = 8ull - ((v8 + v15) & 7ull);
 v8 = (v9 < v13 ? v9 : v13) + v8;
 if (v8 < 8ull) {
  goto L29;
 }
 goto L21e;
 L25e:;
 v18 = 9u;
 if (v17) {
  goto L21e;
 }
 v8 = 0ull;
 L30:;
 v9 = 8ull - v8;
 v13 = 8ull - ((v8 + v15) & 7ull);
 v8 = (v9 < v13 ? v9 : v13) + v8;
 if (v8 < 8ull) {
  goto L30;
 }
 goto L21e;
 L24e:;
 v18 = 10u;
 if (v17) {
  goto L21e;
 }
 v8 = 0ull;
 L31:;
 v9 = 8ull - v8;
 v13 = 8ull - ((v8 + v15) & 7ull);
 v8 = (v9 < v13 ? v9 : v13) + v8;
 if (v8 < 8ull) {
  goto L31;
 }
 goto L21e;
 L23e:;
 if (v17) {
  goto L32e;
 }
 v8 = 0ull;
 L33:;
 v9 = 8ull - v8;
 v13 = 8ull - ((v8 + v15) & 7ull);
 v8 = (v9 < v13 ? v9 : v13) + v8;
 if (v8 < 8ull) {
  goto L33;
 }
 L32e:;
 store64(v3 + 48, 0ull);
 store16(v3 + 56, (u16)(0u));
 store64(v3 + 80, v15);
 store64(v3 + 72, v16 - 2ull);
 store64(v3 + 64, v12 + 2ull);
 v8 = v14 - 16ull;
 store64(v3 + 88, v8 < 80ull ? v8 : 80ull);
 b0 = f6((v3 + 64ull), (v3 + 48ull));
 v18 = 11u;
 goto L21e;
 L22e:;
 v19 = v11 & 255u;
 if (v19 > 3u) {
  goto L34e;
 }
 switch (v19 - 1u) {
 case 0:
  goto L37e;
 case 1:
  goto L36e;
 default:
  goto L35e;
 }
 L37e:;
 v18 = 1u;
 if (v17) {
  goto L21e;
 }
 v8 = 0ull;
 L38:;
 v9 = 32ull - v8;
 v13 = 8ull - ((v8 + v15) & 7ull);
 v8 = (v9 < v13 ? v9 : v13) + v8;
 if (v8 < 32ull) {
  goto L38;
 }
 v8 = 0ull;
 L39:;
 v9 = 32ull - v8;
 v13 = 8ull - ((v8 + v15) & 7ull);
 v8 = (v9 < v13 ? v9 : v13) + v8;
 if (v8 < 32ull) {
  goto L39;
 }
 v8 = 0ull;
 L40:;
 v9 = 8ull - v8;
 v13 = 8ull - ((v8 + v15) & 7ull);
 v8 = (v9 < v13 ? v9 : v13) + v8;
 if (v8 < 8ull) {
  goto L40;
 }
 goto L21e;
 L36e:;
 v18 = 2u;
 if (v17) {
  goto L21e;
 }
 v8 = 0ull;
 L41:;
 v9 = 32ull - v8;
 v13 = 8ull - ((v8 + v15) & 7ull);
 v8 = (v9 < v13 ? v9 : v13) + v8;
 if (v8 < 32ull) {
  goto L41;
 }
 v8 = 0ull;
 L42:;
 v9 = 32ull - v8;
 v13 = 8ull - ((v8 + v15) & 7ull);
 v8 = (v9 < v13 ? v9 : v13) + v8;
 if (v8 < 32ull) {
  goto L42;
 }
 v8 = 0ull;
 L43:;
 v9 = 8ull - v8;
 v13 = 8ull - ((v8 + v15) & 7ull);
 v8 = (v9 < v13 ? v9 : v13) + v8;
 if (v8 < 8ull) {
  goto L43;
 }
 goto L21e;
 L35e:;
 v18 = 3u;
 if (v17) {
  goto L21e;
 }
 v8 = 0ull;
 L44:;
 v9 = 32ull - v8;
 v13 = 8ull - ((v8 + v15) & 7ull);
 v8 = (v9 < v13 ? v9 : v13) + v8;
 if (v8 < 32ull) {
  goto L44;
 }
 v8 = 0ull;
 L45:;
 v9 = 32ull - v8;
 v13 = 8ull - ((v8 + v15) & 7ull);
 v8 = (v9 < v13 ? v9 : v13) + v8;
 if (v8 < 32ull) {
  goto L45;
 }
 goto L21e;
 L34e:;
 v18 = 13u;
 if (v19 > 6u) {
  goto L21e;
 }
 switch ((v11 & 255u) - 4u) {
 case 0:
  goto L48e;
 case 1:
  goto L47e;
 default:
  goto L46e;
 }
 L48e:;
 v18 = 4u;
 if (v17) {
  goto L21e;
 }
 v8 = 0ull;
 L49:;
 v9 = 8ull - v8;
 v13 = 8ull - ((v8 + v15) & 7ull);
 v8 = (v9 < v13 ? v9 : v13) + v8;
 if (v8 < 8ull) {
  goto L49;
 }
 v8 = 0ull;
 L50:;
 v9 = 16ull - v8;
 v13 = 8ull - ((v8 + v15) & 7ull);
 v8 = (v9 < v13 ? v9 : v13) + v8;
 if (v8 < 16ull) {
  goto L50;
 }
 v8 = 0ull;
 L51:;
 v9 = 32ull - v8;
 v13 = 8ull - ((v8 + v15) & 7ull);
 v8 = (v9 < v13 ? v9 : v13) + v8;
 if (v8 < 32ull) {
  goto L51;
 }
 goto L21e;
 L47e:;
 v18 = 5u;
 if (v17) {
  goto L21e;
 }
 v8 = 0ull;
 L52:;
 v9 = 8ull - v8;
 v13 = 8ull - ((v8 + v15) & 7ull);
 v8 = (v9 < v13 ? v9 : v13) + v8;
 if (v8 < 8ull) {
  goto L52;
 }
 v8 = 0ull;
 L53:;
 v9 = 8ull - v8;
 v13 = 8ull - ((v8 + v15) & 7ull);
 v8 = (v9 < v13 ? v9 : v13) + v8;
 if (v8 < 8ull) {
  goto L53;
 }
 v8 = 0ull;
 L54:;
 v9 = 8ull - v8;
 v13 = 8ull - ((v8 + v15) & 7ull);
 v8 = (v9 < v13 ? v9 : v13) + v8;
 if (v8 < 8ull) {
  goto L54;
 }
 goto L21e;
 L46e:;
 v18 = 6u;
 if (v17) {
  goto L21e;
 }
 v8 = 0ull;
 L55:;
 v9 = 8ull - v8;
 v13 = 8ull - ((v8 + v15) & 7ull);
 v8 = (v9 < v13 ? v9 : v13) + v8;
 if (v8 < 8ull) {
  goto L55;
 }
 v8 = 0ull;
 L56:;
 v9 = 16ull - v8;
 v13 = 8ull - ((v8 + v15) & 7ull);
 v8 = (v9 < v13 ? v9 : v13) + v8;
 if (v8 < 16ull) {
  goto L56;
 }
 v8 = 0ull;
 L57:;
 v9 = 32ull - v8;
 v13 = 8ull - ((v8 + v15) & 7ull);
 v8 = (v9 < v13 ? v9 : v13) + v8;
 if (v8 < 32ull) {
  goto L57;
 }
 L21e:;
 v14 = v14 - v10;
 store64(v3 + 8, v5);
 store64(v3, v6);
 v11 = 1u;
 goto L19e;
 L20e:;
 f5((v3 + 32ull), v3);
 v8 = v14 + v15;
 v9 = v8 >> 3;
 v5 = v16 - v9;
 store64(v3 + 8, v5);
 v6 = v12 + v9;
 store64(v3, v6);
 v15 = v8 & 7ull;
 v18 = load8(v3 + 35);
 v11 = 0u;
 v14 = 0ull;
 L19e:;
 store64(v3 + 24, v14);
 store64(v3 + 16, v15);
 v16 = v5;
 v12 = v6;
 if (!v11) {
  goto L14;
 }
 v16 = v5;
 v12 = v6;
 if ((v18 & 254u) != 12u) {
  goto L14;
 }
 v18 = 2u;
 v11 = 1u;
 goto L3e;
 L7e:;
 v8 = v8 + 1ull;
 if (v5 == v8) {
  goto L4e;
 }
 goto L6;
 L5e:;
 if (!v5) {
  goto L58e;
 }
 v9 = v6 + 2464ull;
 v8 = v7;
 v13 = v5;
 L61:;
 if (load8(v8) == (p1 & 255u)) {
  goto L60e;
 }
 v9 = v9 + 2560ull;
 v8 = v8 + 1ull;
 v13 = v13 - 1ull;
 if (!(!v13)) {
  goto L61;
 }
 goto L59e;
 L60e:;
 v13 = v6 + 2464ull;
 v11 = load8(load64(v9));
 v8 = v7;
 v9 = v5;
 L63:;
 if (load8(v8) == (p1 & 255u)) {
  goto L62e;
 }
 v13 = v13 + 2560ull;
 v8 = v8 + 1ull;
 v9 = v9 - 1ull;
 if (!(!v9)) {
  goto L63;
 }
 goto L59e;
 L62e:;
 if ((v11 & 255u) == 3u) {
  goto L59e;
 }
 v11 = 1u;
 v18 = 1u;
 if ((load8(load64(v13)) & 255u) != 0) {
  goto L3e;
 }
 L59e:;
 v10 = v6 + 2464ull;
 v6 = 2ull;
 L64:;
 v9 = v10;
 v8 = v7;
 v13 = v5;
 L67:;
 if (load8(v8) == (p1 & 255u)) {
  goto L66e;
 }
 v9 = v9 + 2560ull;
 v8 = v8 + 1ull;
 v13 = v13 - 1ull;
 if (!(!v13)) {
  goto L67;
 }
 goto L65e;
 L66e:;
 v12 = (v6 * 1048ull) - 1048ull;
 v11 = load8(load64(v9) + v12);
 v9 = v10;
 v8 = v7;
 v13 = v5;
 L69:;
 if (load8(v8) == (p1 & 255u)) {
  goto L68e;
 }
 v9 = v9 + 2560ull;
 v8 = v8 + 1ull;
 v13 = v13 - 1ull;
 if (!v13) {
  goto L65e;
 }
 goto L69;
 L68e:;
 if ((v11 & 255u) == 3u) {
  goto L65e;
 }
 if ((load8(load64(v9) + v12) & 255u) == 0) {
  goto L65e;
 }
 v11 = 1u;
 v18 = 1u;
 goto L3e;
 L65e:;
 v6 = v6 + 1ull;
 if (v6 != 72ull) {
  goto L64;
 }
 L58e:;
 v11 = 1u;
 v18 = 0u;
 goto L3e;
 L4e:;
 v11 = 0u;
 v18 = 0u;
 L3e:;
 v8 = load64(p0);
 store64(p0, v4);
 if (!v8) {
  goto L70e;
 }
 store64(v3 + 120, load64(v8 + 56));
 store64(v3 + 112, load64(v8 + 48));
 store64(v3 + 104, load64(v8 + 40));
 store64(v3 + 96, load64(v8 + 32));
 store64(v3 + 88, load64(v8 + 24));
 store64(v3 + 80, load64(v8 + 16));
 store64(v3 + 72, load64(v8 + 8));
 store64(v3 + 64, load64(v8));
 import_rattle_dealloc(v8);
 f3((v3 + 88ull));
 L70e:;
 if (!v11) {
  goto L71e;
 }
 store32(p2, v18);
 p1 = 0u;
 goto L1e;
 L71e:;
 p1 = v18 + 1u;
 L1e:;
 return p1;
}

static u32 module_ncp_embed_wake(u64 p0, u32 p1)
{
 u64 v2 = 0, v3 = 0, v4 = 0, v5 = 0, v6 = 0, v7 = 0, v8 = 0, v9 = 0, v10 = 0;
 FRAME_OF(8);
 v2 = frame;
 v3 = load64(p0);
 store64(p0, 0ull);
 if (!(!v3)) {
  goto L2e;
 }
 p1 = 32u;
 goto L1e;
 L2e:;
 v4 = load64(v3 + 16ull);
 if (!v4) {
  goto L4e;
 }
 v5 = load64(v3 + 24ull) + 2512ull;
 v6 = 0ull;
 L5:;
 if (load8((v3 + v6) + 8ull) == (p1 & 255u)) {
  goto L3e;
 }
 v5 = v5 + 2560ull;
 v6 = v6 + 1ull;
 if (v4 != v6) {
  goto L5;
 }
 L4e:;
 store64(p0, v3);
 p1 = 1u;
 goto L1e;
 L3e:;
 v6 = load64(v5 - 40ull);
 if (!v6) {
  goto L6e;
 }
 v7 = load64(v5 - 48ull);
 v4 = v6 & 3ull;
 v8 = 0ull;
 if (v6 < 4ull) {
  goto L7e;
 }
 v9 = v6 & 0xfffffffffffffffcull;
 v8 = 0ull;
 v6 = v7;
 L8:;
 p1 = load8(v6);
 store8(v6, (u8)(p1 == 3u ? 1u : p1));
 v10 = v6 + 1048ull;
 p1 = load8(v10);
 store8(v10, (u8)(p1 == 3u ? 1u : p1));
 v10 = v6 + 2096ull;
 p1 = load8(v10);
 store8(v10, (u8)(p1 == 3u ? 1u : p1));
 v10 = v6 + 3144ull;
 p1 = load8(v10);
 store8(v10, (u8)(p1 == 3u ? 1u : p1));
 v6 = v6 + 4192ull;
 v8 = v8 + 4ull;
 if (v9 != v8) {
  goto L8;
 }
 if (!v4) {
  goto L6e;
 }
 L7e:;
 v6 = v7 + (v8 * 1048ull);
 L9:;
 p1 = load8(v6);
 store8(v6, (u8)(p1 == 3u ? 1u : p1));
 v6 = v6 + 1048ull;
 v4 = v4 - 1ull;
 if (v4 != 0ull) {
  goto L9;
 }
 L6e:;
 store64(v5 + 8, 255ull);
 store64(v5, 0xffffffffffffffffull);
 v6 = load64(p0);
 store64(p0, v3);
 p1 = 0u;
 if (!v6) {
  goto L1e;
 }
 store64(v2 + 56, load64(v6 + 56));
 store64(v2 + 48, load64(v6 + 48));
 store64(v2 + 40, load64(v6 + 40));
 store64(v2 + 32, load64(v6 + 32));
 store64(v2 + 24, load64(v6 + 24));
 store64(v2 + 16, load64(v6 + 16));
 store64(v2 + 8, load64(v6 + 8));
 store64(v2, load64(v6));
 import_rattle_dealloc(v6);
 f3((v2 + 24ull));
 L1e:;
 return p1;
}

static u32 module_ncp_embed_subnet_accept(u64 p0, u32 p1, u64 p2, u64 p3, u64 p4)
{
 u32 v6 = 0, v11 = 0;
 u64 v5 = 0, v7 = 0, v8 = 0, v9 = 0, v10 = 0;
 FRAME_OF(134);
 v5 = frame;
 if (p4 <= 8192ull) {
  goto L2e;
 }
 v6 = 41u;
 goto L1e;
 L2e:;
 v7 = p4 >> 3;
 v8 = v7 + (u64)((u32)(((p4 & 7ull) != 0ull)));
 if (p3 >= v8) {
  goto L3e;
 }
 v6 = 42u;
 goto L1e;
 L3e:;
 v9 = p2 + (!p2 ? 4096ull : 0ull);
 p2 = v8 << 3;
 if (p4 == p2) {
  goto L4e;
 }
 if ((((load8(v9 + v7) << (((u32)(p4) & 7u) & 31)) & 255u) >> ((((u32)(p4 - p2) + 8u) & 255u) & 31)) == 0) {
  goto L4e;
 }
 v6 = 43u;
 goto L1e;
 L4e:;
 v7 = load64(p0);
 store64(p0, 0ull);
 if (!(!v7)) {
  goto L5e;
 }
 v6 = 36u;
 goto L1e;
 L5e:;
 v6 = 73u;
 if (p4 < 32ull) {
  goto L7e;
 }
 if ((load8(v9) & 15u) != 0) {
  goto L7e;
 }
 v6 = 74u;
 p3 = load64(v7 + 8ull);
 if (!p3) {
  goto L7e;
 }
 v10 = (u64)load8(v9 + 2ull);
 v11 = load8(v9 + 1ull);
 p2 = load64(v7);
 L9:;
 if (load8(p2) != (p1 & 255u)) {
  goto L10e;
 }
 if (load8(p2 + 1ull) == (v11 & 255u)) {
  goto L8e;
 }
 L10e:;
 p2 = p2 + 32ull;
 p3 = p3 - 1ull;
 if (!(!p3)) {
  goto L9;
 }
 goto L7e;
 L8e:;
 v6 = 75u;
 p2 = load64(p2 + 8ull) + (v10 * 1048ull);
 if (load8(p2) == 0) {
  goto L6e;
 }
 L7e:;
 store64(p0, v7);
 goto L1e;
 L6e:;
 v6 = 0u;
 fill(v5, 0u, 1040ull);
 store64(v5 + 1064, p4);
 store64(v5 + 1056, 0ull);
 store64(v5 + 1048, v8);
 store64(v5 + 1040, v9);
 p3 = (p4 + 7ull) >> 3;
 if (!p3) {
  goto L11e;
 }
 fill(v5, 0u, p3);
 L11e:;
 store64(v5 + 1024, p3);
 f10(v5, p3, load64(v5 + 1032), (v5 + 1040ull));
 store64(v5 + 1032, p4);
 store64(p2, 1ull);
 move((p2 + 8ull), v5, 1040ull);
 p4 = load64(p0);
 store64(p0, v7);
 if (!p4) {
  goto L1e;
 }
 p0 = load64(p4 + 16);
 p3 = load64(p4);
 p2 = load64(p4 + 8);
 import_rattle_dealloc(p4);
 if (!p2) {
  goto L12e;
 }
 p4 = p3 + 24ull;
 L13:;
 if (load64(p4) == 0) {
  goto L14e;
 }
 import_rattle_dealloc(load64(p4 - 16ull));
 L14e:;
 p4 = p4 + 32ull;
 p2 = p2 - 1ull;
 if (p2 != 0ull) {
  goto L13;
 }
 L12e:;
 if (!p0) {
  goto L1e;
 }
 import_rattle_dealloc(p3);
 L1e:;
 return v6;
}

static u32 module_ncp_embed_subnet_dead(u64 p0, u64 p1)
{
 u32 v5 = 0, v7 = 0;
 u64 v2 = 0, v3 = 0, v4 = 0, v6 = 0;
 v2 = load64(p0);
 store64(p0, 0ull);
 if (!(!v2)) {
  goto L1e;
 }
 return 36u;
 L1e:;
 v3 = load64(v2 + 8ull);
 if (!v3) {
  goto L3e;
 }
 v4 = (u64)load8(p1 + 2ull);
 v5 = load8(p1 + 1ull);
 v6 = load64(v2);
 v7 = load8(p1);
 L5:;
 if (load8(v6) != (v7 & 255u)) {
  goto L6e;
 }
 if (load8(v6 + 1ull) == (v5 & 255u)) {
  goto L4e;
 }
 L6e:;
 v6 = v6 + 32ull;
 v3 = v3 - 1ull;
 if (!(!v3)) {
  goto L5;
 }
 goto L3e;
 L4e:;
 v6 = load64(v6 + 8ull) + (v4 * 1048ull);
 if (load8(v6) == 1u) {
  goto L2e;
 }
 L3e:;
 store64(p0, v2);
 return 35u;
 L2e:;
 store64(v6, 4ull);
 fill((v6 + 8ull), 0u, 1040ull);
 v6 = load64(p0);
 store64(p0, v2);
 if (!v6) {
  goto L7e;
 }
 v2 = load64(v6 + 16);
 p0 = load64(v6);
 v3 = load64(v6 + 8);
 import_rattle_dealloc(v6);
 if (!v3) {
  goto L8e;
 }
 v6 = p0 + 24ull;
 L9:;
 if (load64(v6) == 0) {
  goto L10e;
 }
 import_rattle_dealloc(load64(v6 - 16ull));
 L10e:;
 v6 = v6 + 32ull;
 v3 = v3 - 1ull;
 if (v3 != 0ull) {
  goto L9;
 }
 L8e:;
 if (!v2) {
  goto L7e;
 }
 import_rattle_dealloc(p0);
 L7e:;
 return 0u;
}

static u32 module_ncp_embed_subnet_lose(u64 p0, u64 p1)
{
 u32 v5 = 0, v7 = 0;
 u64 v2 = 0, v3 = 0, v4 = 0, v6 = 0;
 v2 = load64(p0);
 store64(p0, 0ull);
 if (!(!v2)) {
  goto L1e;
 }
 return 36u;
 L1e:;
 v3 = load64(v2 + 8ull);
 if (!v3) {
  goto L3e;
 }
 v4 = (u64)load8(p1 + 2ull);
 v5 = load8(p1 + 1ull);
 v6 = load64(v2);
 v7 = load8(p1);
 L5:;
 if (load8(v6) != (v7 & 255u)) {
  goto L6e;
 }
 if (load8(v6 + 1ull) == (v5 & 255u)) {
  goto L4e;
 }
 L6e:;
 v6 = v6 + 32ull;
 v3 = v3 - 1ull;
 if (!(!v3)) {
  goto L5;
 }
 goto L3e;
 L4e:;
 v6 = load64(v6 + 8ull) + (v4 * 1048ull);
 if (load8(v6) == 1u) {
  goto L2e;
 }
 L3e:;
 store64(p0, v2);
 return 35u;
 L2e:;
 store64(v6, 3ull);
 fill((v6 + 8ull), 0u, 1040ull);
 v6 = load64(p0);
 store64(p0, v2);
 if (!v6) {
  goto L7e;
 }
 v2 = load64(v6 + 16);
 p0 = load64(v6);
 v3 = load64(v6 + 8);
 import_rattle_dealloc(v6);
 if (!v3) {
  goto L8e;
 }
 v6 = p0 + 24ull;
 L9:;
 if (load64(v6) == 0) {
  goto L10e;
 }
 import_rattle_dealloc(load64(v6 - 16ull));
 L10e:;
 v6 = v6 + 32ull;
 v3 = v3 - 1ull;
 if (v3 != 0ull) {
  goto L9;
 }
 L8e:;
 if (!v2) {
  goto L7e;
 }
 import_rattle_dealloc(p0);
 L7e:;
 return 0u;
}

static u32 module_ncp_embed_save(HEAP_IS u64 p0, u64 p1, u64 p2, u64 p3)
{
 u32 v6 = 0;
 u64 v4 = 0, v5 = 0, v7 = 0, v8 = 0, v9 = 0, v10 = 0, v11 = 0;
 FRAME_OF(12);
 v4 = frame;
 v5 = load64(p0);
 store64(p0, 0ull);
 store64(v4 + 24, 0ull);
 store64(v4 + 16, 0ull);
 store64(v4 + 8, 0ull);
 store64(v4, 0ull);
 if (!(!v5)) {
  goto L2e;
 }
 v6 = 32u;
 goto L1e;
 L2e:;
 f15(HEAP v4, v5);
 v7 = load64(p0);
 store64(p0, v5);
 if (!v7) {
  goto L3e;
 }
 store64(v4 + 88, load64(v7 + 56));
 store64(v4 + 80, load64(v7 + 48));
 store64(v4 + 72, load64(v7 + 40));
 store64(v4 + 64, load64(v7 + 32));
 store64(v4 + 56, load64(v7 + 24));
 store64(v4 + 48, load64(v7 + 16));
 store64(v4 + 40, load64(v7 + 8));
 store64(v4 + 32, load64(v7));
 import_rattle_dealloc(v7);
 f3((v4 + 56ull));
 L3e:;
 if (load8(v4) == 0) {
  goto L4e;
 }
 v6 = 17u;
 goto L1e;
 L4e:;
 v7 = load64(v4 + 16);
 store64(p3, v7);
 v8 = load64(v4 + 24);
 v9 = load64(v4 + 8);
 if (p2 >= v7) {
  goto L6e;
 }
 v6 = 34u;
 goto L5e;
 L6e:;
 v10 = !p1 ? 4096ull : 0ull;
 p2 = p1 + v10;
 if ((p2 - v9) >= v7) {
  goto L8e;
 }
 p3 = v7 & 3ull;
 p0 = 0ull;
 if (v7 < 4ull) {
  goto L9e;
 }
 v11 = v7 & 0xfffffffffffffffcull;
 p0 = 0ull;
 L10:;
 v7 = p2 + p0;
 v5 = v9 + p0;
 store8(v7, (u8)(load8(v5)));
 store8(v7 + 1ull, (u8)(load8(v5 + 1ull)));
 store8(v7 + 2ull, (u8)(load8(v5 + 2ull)));
 store8(v7 + 3ull, (u8)(load8(v5 + 3ull)));
 p0 = p0 + 4ull;
 if (v11 != p0) {
  goto L10;
 }
 if (!p3) {
  goto L7e;
 }
 L9e:;
 v7 = v9 + p0;
 p0 = p1 + (v10 + p0);
 L11:;
 store8(p0, (u8)(load8(v7)));
 p0 = p0 + 1ull;
 v7 = v7 + 1ull;
 p3 = p3 - 1ull;
 if (p3 != 0ull) {
  goto L11;
 }
 goto L7e;
 L8e:;
 if (!v7) {
  goto L7e;
 }
 move(p2, v9, v7);
 L7e:;
 v6 = 0u;
 L5e:;
 if (!v8) {
  goto L1e;
 }
 import_rattle_dealloc(v9);
 L1e:;
 return v6;
}

static u32 module_ncp_embed_command(u64 p0, u64 p1, u64 p2, u32 p3, u64 p4, u64 p5, u64 p6)
{
 u32 v8 = 0, v11 = 0, v12 = 0, v13 = 0, v14 = 0, v15 = 0, v16 = 0, v17 = 0;
 u64 v7 = 0, v9 = 0, v10 = 0, v18 = 0, b0 = 0, b1 = 0;
 FRAME_OF(14);
 (void)b1;
 v7 = frame;
 store64(v7 + 8, 0ull);
 store64(v7, 0ull);
 if (p2 <= 8192ull) {
  goto L2e;
 }
 v8 = 41u;
 goto L1e;
 L2e:;
 v9 = p2 >> 3;
 v10 = v9 + (u64)((u32)(((p2 & 7ull) != 0ull)));
 if (p1 >= v10) {
  goto L3e;
 }
 v8 = 42u;
 goto L1e;
 L3e:;
 p0 = p0 + (!p0 ? 4096ull : 0ull);
 p1 = v10 << 3;
 if (p2 == p1) {
  goto L4e;
 }
 if ((((load8(p0 + v9) << (((u32)(p2) & 7u) & 31)) & 255u) >> ((((u32)(p2 - p1) + 8u) & 255u) & 31)) == 0) {
  goto L4e;
 }
 v8 = 43u;
 goto L1e;
 L4e:;
 if (p5 >= 12ull) {
  goto L5e;
 }
 v8 = 34u;
 goto L1e;
 L5e:;
 v8 = 35u;
 if (p2 < 72ull) {
  goto L1e;
 }
 if (load8(p0 + 4ull) != 0) {
  goto L1e;
 }
 v11 = load8(p0 + 5ull);
 if (!v11) {
  goto L1e;
 }
 if (load8(p0 + 8ull) != 0) {
  goto L1e;
 }
 b0 = p2 - 72ull;
 p2 = ((u64)load8(p0 + 6ull) << 8) | (u64)load8(p0 + 7ull);
 p1 = p2 * (u64)(v11);
 if (b0 < p1) {
  goto L1e;
 }
 if (v11 != 8u) {
  goto L1e;
 }
 if (((load8(p0 + 2ull) | (load8(p0) & 15u)) & 255u) != 0) {
  goto L1e;
 }
 if (!p2) {
  goto L1e;
 }
 v9 = p4 + (!p4 ? 4096ull : 0ull);
 v11 = p3 + 1u;
 p5 = v10 - 9ull;
 p2 = p0 + 9ull;
 L6:;
 p3 = load8(p2);
 if (p3 > 13u) {
  goto L11e;
 }
 p0 = load64(((u64)(p3) << 3) + DATA(8));
 if ((p1 >> 3) < p0) {
  goto L11e;
 }
 v12 = 0u;
 v13 = p3;
 v14 = p3;
 v15 = p3;
 v16 = p3;
 switch (p3) {
 case 0:
  goto L7e;
 case 7:
  goto L18e;
 case 8:
  goto L17e;
 case 9:
  goto L16e;
 case 10:
  goto L15e;
 case 11:
  goto L14e;
 case 12:
  goto L13e;
 default:
  goto L12e;
 }
 L18e:;
 v13 = load8(p2 + 1ull);
 v12 = 0u;
 p3 = 7u;
 goto L9e;
 L17e:;
 v13 = load8(p2 + 1ull);
 v12 = 0u;
 p3 = 8u;
 goto L9e;
 L16e:;
 v13 = load8(p2 + 1ull);
 v12 = 0u;
 p3 = 9u;
 goto L9e;
 L15e:;
 v13 = load8(p2 + 1ull);
 v12 = 0u;
 p3 = 10u;
 goto L9e;
 L14e:;
 v13 = load8(p2 + 1ull);
 store64(v7 + 96, 0ull);
 v16 = 0u;
 store16(v7 + 104, (u16)(0u));
 p4 = p1 - 16ull;
 store64(v7 + 88, p4 < 80ull ? p4 : 80ull);
 store64(v7 + 80, 0ull);
 store64(v7 + 72, p5 - 2ull);
 store64(v7 + 64, p2 + 2ull);
 b1 = f6((v7 + 64ull), (v7 + 96ull));
 v15 = load32(v7 + 102);
 v14 = load32(v7 + 98);
 v12 = load16(v7 + 96);
 p3 = 11u;
 goto L7e;
 L13e:;
 v13 = 0u;
 goto L10e;
 L12e:;
 if (p3 > 3u) {
  goto L19e;
 }
 v13 = load32(p2 + 5ull);
 v15 = rotr32(v13 & 16711935u, 8) | (rotr32(v13, 24) & 16711935u);
 v13 = load32(p2 + 1ull);
 v14 = rotr32(v13 & 16711935u, 8) | (rotr32(v13, 24) & 16711935u);
 v17 = p3 - 1u;
 v13 = 0u;
 p3 = 3u;
 v12 = 0u;
 v16 = 0u;
 switch (v17) {
 case 0:
  goto L21e;
 case 1:
  goto L20e;
 default:
  goto L7e;
 }
 L21e:;
 v16 = load8(p2 + 9ull);
 v13 = 0u;
 p3 = 1u;
 v12 = 0u;
 goto L7e;
 L20e:;
 v16 = load8(p2 + 9ull);
 v13 = 0u;
 p3 = 2u;
 v12 = 0u;
 goto L7e;
 L19e:;
 if (p3 <= 6u) {
  goto L22e;
 }
 v13 = 0u;
 p3 = 13u;
 goto L10e;
 L22e:;
 p4 = p2 + 2ull;
 v15 = 0u;
 v18 = p2 + 3ull;
 v10 = v18;
 v14 = 0u;
 switch (p3 - 4u) {
 case 0:
  goto L26e;
 case 1:
  goto L23e;
 default:
  goto L25e;
 }
 L26e:;
 p3 = load32(p2 + 4ull);
 v14 = rotr32(p3 & 16711935u, 8) | (rotr32(p3, 24) & 16711935u);
 p3 = 4u;
 goto L24e;
 L25e:;
 p3 = load32(p2 + 4ull);
 v14 = rotr32(p3 & 16711935u, 8) | (rotr32(p3, 24) & 16711935u);
 p3 = 6u;
 L24e:;
 v10 = p4;
 p4 = v18;
 L23e:;
 v12 = (load8(v10) << 8) | load8(p4);
 v13 = load8(p2 + 1ull);
 goto L8e;
 L11e:;
 store64(v7 + 40, p1);
 store64(v7 + 32, 0ull);
 store64(v7 + 24, p5);
 store64(v7 + 16, p2);
 f5((v7 + 53ull), (v7 + 16ull));
 goto L1e;
 L10e:;
 v12 = 0u;
 L9e:;
 v14 = 0u;
 v15 = 0u;
 L8e:;
 v16 = 0u;
 L7e:;
 v11 = v11 - 1u;
 if (!v11) {
  goto L27e;
 }
 p5 = p5 - p0;
 p2 = p2 + p0;
 p1 = p1 - (p0 << 3);
 if (!p1) {
  goto L1e;
 }
 goto L6;
 L27e:;
 store8(v7 + 12, (u8)(v16));
 store32(v7 + 8, v15);
 store32(v7 + 4, v14);
 store16(v7 + 2, (u16)(v12));
 store8(v7 + 1, (u8)(v13));
 store8(v7, (u8)(p3));
 store64(v7 + 80, 0ull);
 store64(v7 + 72, 0ull);
 store64(v7 + 64, 0ull);
 f7((v7 + 64ull), v7);
 p2 = load64(v7 + 80);
 if (!p2) {
  goto L28e;
 }
 move(v9, (v7 + 64ull), p2);
 L28e:;
 store64(p6, p2);
 v8 = 0u;
 L1e:;
 return v8;
}

static u32 module_ncp_embed_waiting(u64 p0, u32 p1, u32 p2, u64 p3, u64 p4, u64 p5)
{
 u32 v10 = 0;
 u64 v6 = 0, v7 = 0, v8 = 0, v9 = 0, b0 = 0;
 FRAME_OF(6);
 v6 = frame;
 store32(v6 + 20, 0u);
 if (p4 >= 12ull) {
  goto L2e;
 }
 p1 = 34u;
 goto L1e;
 L2e:;
 v7 = load64(p0);
 store64(p0, 0ull);
 if (!(!v7)) {
  goto L3e;
 }
 p1 = 32u;
 goto L1e;
 L3e:;
 v8 = load64(v7 + 16ull);
 if (!v8) {
  goto L4e;
 }
 v9 = p3 + (!p3 ? 4096ull : 0ull);
 p3 = load64(v7 + 24ull) + 32ull;
 p4 = 0ull;
 L6:;
 if (load8((v7 + p4) + 8ull) == (p1 & 255u)) {
  goto L5e;
 }
 p3 = p3 + 2560ull;
 p4 = p4 + 1ull;
 if (v8 != p4) {
  goto L6;
 }
 goto L4e;
 L5e:;
 p4 = (u64)(p2);
 if (load64(p3 - 8ull) <= p4) {
  goto L4e;
 }
 p4 = load64(p3) + p4;
 b0 = load64(p3 - 24ull);
 p3 = load64(p3 - 16ull);
 p4 = b0 + ((p4 - (p4 < p3 ? 0ull : p3)) << 4);
 p1 = load8(p4 + 12ull);
 p2 = load16(p4 + 10ull);
 p3 = load64(p4 + 2ull);
 v10 = load16(p4);
 store64(p0, v7);
 store16(v6 + 8, (u16)(v10));
 store64(v6 + 10, p3);
 store16(v6 + 18, (u16)(p2));
 store8(v6 + 20, (u8)(p1));
 store64(v6 + 40, 0ull);
 store64(v6 + 32, 0ull);
 store64(v6 + 24, 0ull);
 f7((v6 + 24ull), (v6 + 8ull));
 p4 = load64(v6 + 40);
 if (!p4) {
  goto L7e;
 }
 move(v9, (v6 + 24ull), p4);
 L7e:;
 store64(p5, p4);
 p1 = 0u;
 goto L1e;
 L4e:;
 store64(p0, v7);
 p1 = 35u;
 L1e:;
 return p1;
}

static u32 module_ncp_embed_kept(u64 p0, u32 p1, u32 p2, u64 p3, u64 p4, u64 p5)
{
 u64 v6 = 0, v7 = 0, v8 = 0, v9 = 0, b0 = 0;
 FRAME_OF(8);
 (void)b0;
 v6 = frame;
 if (p4 >= 1024ull) {
  goto L2e;
 }
 p1 = 34u;
 goto L1e;
 L2e:;
 v7 = load64(p0);
 store64(p0, 0ull);
 if (!(!v7)) {
  goto L3e;
 }
 p1 = 32u;
 goto L1e;
 L3e:;
 v8 = load64(v7 + 16ull);
 if (!v8) {
  goto L5e;
 }
 v9 = p3 + (!p3 ? 4096ull : 0ull);
 p3 = load64(v7 + 24ull) + 2464ull;
 p4 = 0ull;
 L7:;
 if (load8((v7 + p4) + 8ull) == (p1 & 255u)) {
  goto L6e;
 }
 p3 = p3 + 2560ull;
 p4 = p4 + 1ull;
 if (v8 != p4) {
  goto L7;
 }
 goto L5e;
 L6e:;
 if ((p2 & 255u) == 1u) {
  goto L5e;
 }
 p2 = p2 & 255u;
 if (p2 > 71u) {
  goto L5e;
 }
 p1 = 0u;
 p4 = load64(p3) + ((u64)(p2 - (u32)((p2 != 0u))) * 1048ull);
 if (load8(p4) != 0) {
  goto L4e;
 }
 L5e:;
 store64(p0, v7);
 p1 = 35u;
 goto L1e;
 L4e:;
 p3 = load64(p4 + 1040ull);
 store64(v6 + 24, p3);
 store64(v6 + 16, 0ull);
 store64(v6, p4 + 8ull);
 store64(v6 + 8, load64(p4 + 1032ull));
 b0 = f6(v6, v9);
 store64(p5, p3);
 p4 = load64(p0);
 store64(p0, v7);
 if (!p4) {
  goto L1e;
 }
 store64(v6 + 56, load64(p4 + 56));
 store64(v6 + 48, load64(p4 + 48));
 store64(v6 + 40, load64(p4 + 40));
 store64(v6 + 32, load64(p4 + 32));
 store64(v6 + 24, load64(p4 + 24));
 store64(v6 + 16, load64(p4 + 16));
 store64(v6 + 8, load64(p4 + 8));
 store64(v6, load64(p4));
 import_rattle_dealloc(p4);
 f3((v6 + 24ull));
 L1e:;
 return p1;
}

static u32 module_ncp_embed_subnet_answer(u64 p0, u64 p1, u64 p2, u64 p3, u64 p4)
{
 u32 v6 = 0, v10 = 0, v11 = 0, v12 = 0;
 u64 v5 = 0, v7 = 0, v8 = 0, v9 = 0, b0 = 0;
 FRAME_OF(262);
 (void)b0;
 v5 = frame;
 fill(v5, 0u, 1040ull);
 if (p3 >= 1024ull) {
  goto L2e;
 }
 v6 = 34u;
 goto L1e;
 L2e:;
 v7 = load64(p0);
 store64(p0, 0ull);
 if (!(!v7)) {
  goto L3e;
 }
 v6 = 36u;
 goto L1e;
 L3e:;
 v8 = load64(v7 + 8ull);
 if (!v8) {
  goto L5e;
 }
 v9 = p2 + (!p2 ? 4096ull : 0ull);
 v10 = load8(p1 + 1ull);
 v11 = load8(p1 + 2ull);
 p2 = (u64)(v11);
 p3 = load64(v7);
 v6 = load8(p1);
 L6:;
 if (load8(p3) != (v6 & 255u)) {
  goto L7e;
 }
 if (load8(p3 + 1ull) == (v10 & 255u)) {
  goto L4e;
 }
 L7e:;
 p3 = p3 + 32ull;
 v8 = v8 - 1ull;
 if (!(!v8)) {
  goto L6;
 }
 L5e:;
 store64(p0, v7);
 v6 = 35u;
 goto L1e;
 L4e:;
 v6 = 0u;
 v12 = 5u;
 v10 = 0u;
 v8 = load64(p3 + 8ull) + (p2 * 1048ull);
 switch ((u32)((u64)load8(v8))) {
 case 2:
  goto L9e;
 case 3:
  goto L11e;
 case 4:
  goto L10e;
 default:
  goto L8e;
 }
 L11e:;
 v12 = 9u;
 goto L9e;
 L10e:;
 v12 = 7u;
 L9e:;
 fill(v8, 0u, 1048ull);
 v6 = 1u;
 v10 = v12;
 L8e:;
 if ((v6 & 255u) != 1u) {
  goto L13e;
 }
 v12 = load8(p3 + 1ull);
 fill((v5 + 1044ull), 0u, 1020ull);
 v10 = ((v12 << 8) | (v10 & 255u)) | (v11 << 16);
 p1 = 32ull;
 p2 = 4ull;
 goto L12e;
 L13e:;
 v10 = 0u;
 fill((v5 + 1044ull), 0u, 1020ull);
 p2 = 0ull;
 p1 = 0ull;
 L12e:;
 p3 = load64(p0);
 store64(p0, v7);
 if (!p3) {
  goto L15e;
 }
 v7 = load64(p3 + 16);
 p0 = load64(p3);
 v8 = load64(p3 + 8);
 import_rattle_dealloc(p3);
 if (!v8) {
  goto L16e;
 }
 p3 = p0 + 24ull;
 L17:;
 if (load64(p3) == 0) {
  goto L18e;
 }
 import_rattle_dealloc(load64(p3 - 16ull));
 L18e:;
 p3 = p3 + 32ull;
 v8 = v8 - 1ull;
 if (v8 != 0ull) {
  goto L17;
 }
 L16e:;
 if (!v7) {
  goto L15e;
 }
 import_rattle_dealloc(p0);
 if ((v6 & 255u) == 1u) {
  goto L14e;
 }
 v6 = 35u;
 goto L1e;
 L15e:;
 if ((v6 & 255u) == 1u) {
  goto L14e;
 }
 v6 = 35u;
 goto L1e;
 L14e:;
 store32(v5, v10);
 move((v5 | 4ull), (v5 + 1044ull), 1020ull);
 store64(v5 + 1032, p1);
 store64(v5 + 1024, p2);
 store64(v5 + 2088, p1);
 store64(v5 + 2080, 0ull);
 store64(v5 + 2072, p2);
 store64(v5 + 2064, v5);
 b0 = f6((v5 + 2064ull), v9);
 store64(p4, p1);
 v6 = 0u;
 L1e:;
 return v6;
}

static u32 module_ncp_embed_subnet_deliver(u64 p0, u64 p1, u64 p2, u64 p3, u64 p4)
{
 u32 v6 = 0, v10 = 0, a1 = 0;
 u64 v5 = 0, v7 = 0, v8 = 0, v9 = 0, b0 = 0, b2 = 0;
 FRAME_OF(524);
 (void)b0;
 (void)b2;
 v5 = frame;
 if (p3 >= 1024ull) {
  goto L3e;
 }
 v6 = 34u;
 goto L2e;
 L3e:;
 v7 = load64(p0);
 store64(p0, 0ull);
 if (!(!v7)) {
  goto L4e;
 }
 v6 = 36u;
 goto L2e;
 L4e:;
 v8 = load64(v7 + 8ull);
 if (!v8) {
  goto L6e;
 }
 v9 = p2 + (!p2 ? 4096ull : 0ull);
 p2 = (u64)load8(p1 + 2ull);
 v10 = load8(p1 + 1ull);
 p3 = load64(v7);
 v6 = load8(p1);
 L7:;
 if (load8(p3) != (v6 & 255u)) {
  goto L8e;
 }
 if (load8(p3 + 1ull) == (v10 & 255u)) {
  goto L5e;
 }
 L8e:;
 p3 = p3 + 32ull;
 v8 = v8 - 1ull;
 if (!(!v8)) {
  goto L7;
 }
 L6e:;
 store64(p0, v7);
 v6 = 35u;
 goto L2e;
 L5e:;
 v8 = load64(p3 + 8ull) + (p2 * 1048ull);
 v6 = load8(v8);
 p1 = v8 + 8ull;
 move((v5 + 3120ull), p1, 1040ull);
 if (v6 != 1u) {
  goto L10e;
 }
 fill(p1, 0u, 1040ull);
 store64(v8, 2ull);
 move((v5 + 1040ull), (v5 + 3120ull), 1040ull);
 p3 = (u64)load8(p3);
 p1 = load64(v5 + 2072);
 v8 = load64(v5 + 2064);
 fill((v5 + 3120ull), 0u, 1040ull);
 store64(v5 + 4144, 1ull);
 store8(v5 + 3120, (u8)(0u));
 store64(v5 + 2104, 8ull);
 store64(v5 + 2096, 0ull);
 store64(v5 + 2088, v8);
 store64(v5 + 2080, v5 + 1040ull);
 b0 = f6((v5 + 2080ull), (v5 + 3120ull));
 store64(v5 + 4152, 8ull);
 move((v5 + 2080ull), (v5 + 3120ull), 1040ull);
 a1 = f32((v5 + 2080ull), p3, 8ull);
 if ((a1 & 1u) != 0) {
  goto L1e;
 }
 p3 = load64(v5 + 2064);
 store64(v5 + 4176, 0ull);
 store64(v5 + 4168, p3 - 2ull);
 store64(v5 + 4160, (v5 + 1040ull) | 2ull);
 p3 = load64(v5 + 3112);
 v8 = p1 - 16ull;
 store64(v5 + 4184, v8);
 if ((8192ull - p3) < v8) {
  goto L1e;
 }
 p1 = p3 + v8;
 v8 = (p1 >> 3) + (u64)((u32)(((p1 & 7ull) != 0ull)));
 p2 = load64(v5 + 3104);
 if (v8 > p2) {
  goto L12e;
 }
 v8 = p2;
 goto L11e;
 L12e:;
 p3 = v8 - p2;
 if ((1024ull - p2) < p3) {
  goto L1e;
 }
 if (!p3) {
  goto L13e;
 }
 fill(((v5 + 2080ull) + p2), 0u, p3);
 L13e:;
 store64(v5 + 3104, v8);
 p3 = load64(v5 + 3112);
 L11e:;
 f10((v5 + 2080ull), v8, p3, (v5 + 4160ull));
 store64(v5 + 3112, p1);
 move(v5, (v5 + 2080ull), 1040ull);
 goto L9e;
 L10e:;
 store64(v8, (u64)(v6));
 fill(v5, 0u, 1040ull);
 L9e:;
 p3 = load64(p0);
 store64(p0, v7);
 if (!p3) {
  goto L15e;
 }
 v7 = load64(p3 + 16);
 p0 = load64(p3);
 v8 = load64(p3 + 8);
 import_rattle_dealloc(p3);
 if (!v8) {
  goto L16e;
 }
 p3 = p0 + 24ull;
 L17:;
 if (load64(p3) == 0) {
  goto L18e;
 }
 import_rattle_dealloc(load64(p3 - 16ull));
 L18e:;
 p3 = p3 + 32ull;
 v8 = v8 - 1ull;
 if (v8 != 0ull) {
  goto L17;
 }
 L16e:;
 if (!v7) {
  goto L15e;
 }
 import_rattle_dealloc(p0);
 if (v6 == 1u) {
  goto L14e;
 }
 v6 = 35u;
 goto L2e;
 L15e:;
 if (v6 == 1u) {
  goto L14e;
 }
 v6 = 35u;
 goto L2e;
 L14e:;
 move((v5 + 3120ull), v5, 1040ull);
 p3 = load64(v5 + 4152);
 store64(v5 + 2104, p3);
 store64(v5 + 2096, 0ull);
 store64(v5 + 2088, load64(v5 + 4144));
 store64(v5 + 2080, v5 + 3120ull);
 b2 = f6((v5 + 2080ull), v9);
 store64(p4, p3);
 v6 = 0u;
 L2e:;
 return v6;
 L1e:;
 UNREACHABLE;
 UNREACHABLE;
 return 0;
}

static u32 module_ncp_embed_take(u64 p0, u64 p1, u32 p2, u64 p3, u64 p4, u64 p5)
{
 u32 v7 = 0, v9 = 0, v10 = 0, v13 = 0;
 u64 v6 = 0, v8 = 0, v11 = 0, v12 = 0, v14 = 0, v15 = 0, v16 = 0, v17 = 0, v18 = 0, b0 = 0;
 FRAME_OF(1048);
 (void)b0;
 v6 = frame;
 fill((v6 + 1040ull), 0u, 1046ull);
 fill(v6, 0u, 1040ull);
 if (p4 >= 1024ull) {
  goto L2e;
 }
 v7 = 34u;
 goto L1e;
 L2e:;
 v8 = load64(p0);
 store64(p0, 0ull);
 if (!(!v8)) {
  goto L3e;
 }
 v7 = 32u;
 goto L1e;
 L3e:;
 v9 = load32(p1 + 8ull);
 v10 = load32(p1 + 4ull);
 v7 = load8(p1);
 fill((v6 + 2086ull), 0u, 1046ull);
 v11 = load64(v8 + 16ull);
 if (!v11) {
  goto L5e;
 }
 v12 = p3 + (!p3 ? 4096ull : 0ull);
 p1 = load64(v8 + 24ull);
 p3 = v8 + 8ull;
 p4 = 0ull;
 L6:;
 if (load8(p3 + p4) == (v7 & 255u)) {
  goto L4e;
 }
 p1 = p1 + 2560ull;
 p4 = p4 + 1ull;
 if (v11 != p4) {
  goto L6;
 }
 L5e:;
 store64(p0, v8);
 v7 = 1u;
 goto L1e;
 L4e:;
 v13 = 0u;
 fill((v6 + 3132ull), 0u, 1046ull);
 fill((v6 + 4178ull), 0u, 1046ull);
 if (load8(p1) != 0) {
  goto L9e;
 }
 if (load8(p1 + 1ull) != 0) {
  goto L9e;
 }
 if (load8(p1 + 2ull) != 0) {
  goto L9e;
 }
 if (load8(p1 + 3ull) != 1u) {
  goto L8e;
 }
 L9e:;
 fill((v6 + 3138ull), 0u, 1040ull);
 v7 = 2u;
 goto L7e;
 L8e:;
 fill((v6 + 5224ull), 0u, 1046ull);
 p3 = load64(p1 + 56ull);
 v14 = p1 + 48ull;
 p4 = load64(v14);
 v11 = 0ull;
 L10:;
 if (p3 == v11) {
  goto L15e;
 }
 if (load8(p4) != 1u) {
  goto L11e;
 }
 if (load32(p4 + 8ull) != v10) {
  goto L11e;
 }
 if (load32(p4 + 12ull) != v9) {
  goto L11e;
 }
 if (load8(p4) != 1u) {
  goto L14e;
 }
 if (load8(p4 + 20ull) == 0) {
  goto L16e;
 }
 v7 = 8u;
 f25(v14, v11);
 goto L12e;
 L16e:;
 if (load8(p4 + 18ull) == 1u) {
  goto L17e;
 }
 v7 = 9u;
 goto L13e;
 L17e:;
 v7 = 10u;
 if ((load8(p4 + 8ull) & 1u) != 0) {
  goto L13e;
 }
 if ((load32(p4 + 12ull) & 1u) == 0) {
  goto L13e;
 }
 v15 = 0ull;
 v16 = 0ull;
 v10 = load8(p4 + 32ull);
 if (v10 != 1u) {
  goto L18e;
 }
 v16 = load64(p4 + 72ull);
 L18e:;
 p3 = 0ull;
 v7 = load8(p4 + 23ull);
 if (!v7) {
  goto L19e;
 }
 p3 = (u64)(7928u / v7);
 v15 = (u64)(v7);
 v16 = v16 / v15;
 p3 = p3 < v16 ? p3 : v16;
 L19e:;
 if (v10 != 1u) {
  goto L21e;
 }
 fill((v6 + 7312ull), 0u, 1040ull);
 v16 = load64(p4 + 40ull);
 v17 = load64(p4 + 48ull);
 v18 = load64(p4 + 64ull);
 store64(v6 + 8368, v18 & 7ull);
 v18 = v18 >> 3;
 store64(v6 + 8360, v17 - v18);
 store64(v6 + 8352, v16 + v18);
 v16 = (u64)(p2);
 p3 = (p3 < v16 ? p3 : v16) * v15;
 store64(v6 + 8376, p3);
 if (p3 > 8192ull) {
  goto L14e;
 }
 v15 = (p3 + 7ull) >> 3;
 v7 = (u32)((!v15));
 if (!v7) {
  goto L23e;
 }
 v16 = 0ull;
 goto L22e;
 L23e:;
 if (v7) {
  goto L24e;
 }
 fill((v6 + 7312ull), 0u, v15);
 L24e:;
 store64(v6 + 8336, v15);
 v16 = load64(v6 + 8344);
 L22e:;
 f10((v6 + 7312ull), v15, v16, (v6 + 8352ull));
 store64(v6 + 8344, p3);
 v15 = p4 + 64ull;
 store64(v15, load64(v15) + p3);
 v15 = p4 + 72ull;
 store64(v15, load64(v15) - p3);
 move((v6 + 6272ull), (v6 + 7312ull), 1040ull);
 goto L20e;
 L21e:;
 fill((v6 + 6272ull), 0u, 1040ull);
 L20e:;
 v7 = 1u;
 if (load8(p4 + 19ull) != 1u) {
  goto L26e;
 }
 p2 = 1u;
 if (load8(p4 + 32ull) != 1u) {
  goto L27e;
 }
 p3 = p4 + 72ull;
 if (load64(p3) != 0ull) {
  goto L26e;
 }
 store64(p3, 0ull);
 store64(p4 + 64ull, 0ull);
 L27e:;
 store16(p4 + 19ull, (u16)(256u));
 v9 = load32(p4 + 8ull);
 v13 = load32(p4 + 12ull);
 move((v6 + 5230ull), (v6 + 6272ull), 1040ull);
 v10 = 3u;
 v7 = 0u;
 goto L25e;
 L26e:;
 move((v6 + 5230ull), (v6 + 6272ull), 1040ull);
 v9 = 0u;
 p2 = 0u;
 v10 = 0u;
 v13 = 0u;
 L25e:;
 f25(v14, v11);
 p4 = (v6 + 4178ull) + 6ull;
 move(p4, ((v6 + 5224ull) + 6ull), 1040ull);
 store8(v6 + 5228, (u8)(v10));
 store32(v6 + 5224, p2);
 p2 = load32(v6 + 5225);
 store32(v6 + 5236, 0u);
 if (v7) {
  goto L28e;
 }
 store32(v6 + 5232, v13);
 store32(v6 + 5228, v9);
 store16(v6 + 5226, (u16)(0u));
 store8(v6 + 5225, (u8)(0u));
 store8(v6 + 5224, (u8)(p2 >> 24));
 f26(p1, (v6 + 5224ull));
 L28e:;
 move(((v6 + 3132ull) + 6ull), p4, 1040ull);
 v13 = 1u;
 v7 = 1u;
 goto L7e;
 L15e:;
 v7 = 6u;
 goto L12e;
 L14e:;
 UNREACHABLE;
 L13e:;
 f25(v14, v11);
 L12e:;
 v13 = 0u;
 fill((v6 + 3138ull), 0u, 1040ull);
 goto L7e;
 L11e:;
 p4 = p4 + 96ull;
 v11 = v11 + 1ull;
 goto L10;
 L7e:;
 p4 = (v6 + 2086ull) + 6ull;
 move(p4, ((v6 + 3132ull) + 6ull), 1040ull);
 p1 = (v6 + 1040ull) + 6ull;
 move(p1, p4, 1040ull);
 p4 = load64(p0);
 store64(p0, v8);
 if (!p4) {
  goto L29e;
 }
 store64(v6 + 5280, load64(p4 + 56));
 store64(v6 + 5272, load64(p4 + 48));
 store64(v6 + 5264, load64(p4 + 40));
 store64(v6 + 5256, load64(p4 + 32));
 store64(v6 + 5248, load64(p4 + 24));
 store64(v6 + 5240, load64(p4 + 16));
 store64(v6 + 5232, load64(p4 + 8));
 store64(v6 + 5224, load64(p4));
 import_rattle_dealloc(p4);
 f3((v6 + 5248ull));
 L29e:;
 if (!v13) {
  goto L1e;
 }
 move(v6, p1, 1040ull);
 p4 = load64(v6 + 1032);
 store64(v6 + 5248, p4);
 store64(v6 + 5240, 0ull);
 store64(v6 + 5232, load64(v6 + 1024));
 store64(v6 + 5224, v6);
 b0 = f6((v6 + 5224ull), v12);
 store64(p5, p4);
 v7 = 0u;
 L1e:;
 return v7;
}

static u32 module_ncp_embed_next_output(u64 p0, u64 p1, u64 p2, u64 p3)
{
 u32 v5 = 0, v14 = 0, v15 = 0, v16 = 0, a0 = 0, a1 = 0, a2 = 0;
 u64 v4 = 0, v6 = 0, v7 = 0, v8 = 0, v9 = 0, v10 = 0, v11 = 0, v12 = 0, v13 = 0, v17 = 0, v18 = 0, b3 = 0;
 FRAME_OF(12);
 (void)b3;
 v4 = frame;
 if (p2 >= 1024ull) {
  goto L2e;
 }
 v5 = 34u;
 goto L1e;
 L2e:;
 v6 = load64(p0);
 store64(p0, 0ull);
 if (!(!v6)) {
  goto L3e;
 }
 v5 = 32u;
 goto L1e;
 L3e:;
 v7 = load64(v6 + 24ull);
 v8 = load64(v6 + 32ull);
 if (!(!v8)) {
  goto L6e;
 }
 v9 = 0ull;
 goto L5e;
 L6e:;
 p2 = v7 + 2512ull;
 v9 = 0ull;
 L7:;
 if ((load64(p2) | load64(p2 + 8)) != 0ull) {
  goto L5e;
 }
 v10 = p2 - 112ull;
 if ((load64(v10) | load64(v10 + 8)) != 0ull) {
  goto L5e;
 }
 if (load64(p2 - 2488ull) != 0ull) {
  goto L5e;
 }
 p2 = p2 + 2560ull;
 v9 = v9 + 1ull;
 if (v8 != v9) {
  goto L7;
 }
 v5 = 35u;
 goto L4e;
 L5e:;
 v5 = 35u;
 if (v9 >= v8) {
  goto L4e;
 }
 v11 = p1 + (!p1 ? 4096ull : 0ull);
 v12 = v6 + 8ull;
 L9:;
 v13 = v12 + v9;
 v14 = load8(v13);
 p2 = v7 + (v9 * 2560ull);
 if (load8(load64(p2 + 2464ull)) == 0) {
  goto L12e;
 }
 if ((load8(p2 + 2512ull) & 1u) != 0) {
  goto L11e;
 }
 goto L10e;
 L12e:;
 if (load64(p2 + 24ull) == 0) {
  goto L10e;
 }
 L11e:;
 v15 = 0u;
 a0 = f33(p2, v14, 0u);
 if (a0) {
  goto L8e;
 }
 L10e:;
 v16 = 2u;
 L14:;
 v15 = v16 & 255u;
 f78(v4, load64(p2 + 2512ull), load64(p2 + 2520ull), v15);
 f78((v4 + 16ull), load64(p2 + 2400ull), load64(p2 + 2408ull), v15);
 v10 = load64(v4);
 v17 = load64(v4 + 8);
 v15 = v16 + (u32)(v10 != 0ull ? ctz64(v10) : (ctz64(v17) + 64ull));
 p1 = load64(v4 + 16);
 v18 = load64(v4 + 24);
 if ((p1 | v18) == 0) {
  goto L16e;
 }
 v16 = v16 + (u32)(p1 != 0ull ? ctz64(p1) : (ctz64(v18) + 64ull));
 a1 = v16;
 v16 = v16 & 255u;
 v15 = v15 & 255u;
 v15 = (v10 | v17) == 0 ? a1 : (v16 < v15 ? v16 : v15);
 goto L15e;
 L16e:;
 if ((v10 | v17) == 0) {
  goto L13e;
 }
 L15e:;
 a2 = f33(p2, v14, v15);
 if (a2) {
  goto L8e;
 }
 v16 = v15 + 1u;
 if ((v15 & 255u) < 71u) {
  goto L14;
 }
 L13e:;
 v10 = v9 + 1ull;
 if (v10 >= v8) {
  goto L4e;
 }
 p2 = v7 + (v9 * 2560ull);
 v9 = v10;
 L18:;
 if ((load64(p2 + 5072ull) | load64(p2 + 5080ull)) != 0ull) {
  goto L17e;
 }
 if ((load64(p2 + 4960ull) | load64(p2 + 4968ull)) != 0ull) {
  goto L17e;
 }
 if (load64(p2 + 2584ull) != 0ull) {
  goto L17e;
 }
 p2 = p2 + 2560ull;
 v9 = v9 + 1ull;
 if (v8 != v9) {
  goto L18;
 }
 goto L4e;
 L17e:;
 if (v9 < v8) {
  goto L9;
 }
 goto L4e;
 L8e:;
 p2 = load64(v6 + 16ull);
 if (!p2) {
  goto L4e;
 }
 v16 = load8(v13);
 v10 = load64(v6 + 24ull) + 2464ull;
 L20:;
 if (load8(v12) == (v16 & 255u)) {
  goto L19e;
 }
 v10 = v10 + 2560ull;
 v12 = v12 + 1ull;
 p2 = p2 - 1ull;
 if (!(!p2)) {
  goto L20;
 }
 goto L4e;
 L19e:;
 if ((v15 & 255u) > 71u) {
  goto L4e;
 }
 v15 = v15 & 255u;
 p2 = load64(v10) + ((u64)(v15 - (u32)((v15 != 0u))) * 1048ull);
 if (load8(p2) == 0) {
  goto L4e;
 }
 v10 = load64(p2 + 1040ull);
 store64(v4 + 56, v10);
 store64(v4 + 48, 0ull);
 store64(v4 + 32, p2 + 8ull);
 store64(v4 + 40, load64(p2 + 1032ull));
 b3 = f6((v4 + 32ull), v11);
 store64(p3, v10);
 v5 = 0u;
 L4e:;
 p2 = load64(p0);
 store64(p0, v6);
 if (!p2) {
  goto L1e;
 }
 store64(v4 + 88, load64(p2 + 56));
 store64(v4 + 80, load64(p2 + 48));
 store64(v4 + 72, load64(p2 + 40));
 store64(v4 + 64, load64(p2 + 32));
 store64(v4 + 56, load64(p2 + 24));
 store64(v4 + 48, load64(p2 + 16));
 store64(v4 + 40, load64(p2 + 8));
 store64(v4 + 32, load64(p2));
 import_rattle_dealloc(p2);
 f3((v4 + 56ull));
 L1e:;
 return v5;
}

static void f77(u64 p0, u64 p1, u64 p2, u32 p3)
{
 u64 v4 = 0;
 if (!p3) {
  goto L1e;
 }
 if ((p3 & 64u) == 0) {
  goto L2e;
 }
 p2 = p1 << ((u64)(p3) & 63);
 p1 = 0ull;
 goto L1e;
 L2e:;
 v4 = (u64)(p3);
 p2 = (p1 >> ((u64)(64u - p3) & 63)) | (p2 << (v4 & 63));
 p1 = p1 << (v4 & 63);
 L1e:;
 store64(p0, p1);
 store64(p0 + 8, p2);
 return;
}

static void f78(u64 p0, u64 p1, u64 p2, u32 p3)
{
 u64 v4 = 0;
 if (!p3) {
  goto L1e;
 }
 if ((p3 & 64u) == 0) {
  goto L2e;
 }
 p1 = p2 >> ((u64)(p3) & 63);
 p2 = 0ull;
 goto L1e;
 L2e:;
 v4 = (u64)(p3);
 p1 = (p2 << ((u64)(64u - p3) & 63)) | (p1 >> (v4 & 63));
 p2 = p2 >> (v4 & 63);
 L1e:;
 store64(p0, p1);
 store64(p0 + 8, p2);
 return;
}

/* The functions of ncp.h: each looks for null pointers, and calls the one of the proved library that is named as it.
 * include/library joins both in one archive, out of which no name of the library is seen. */

/* The structs that the library alone takes: which connection is meant, and which link from one host to another. They have the fields
 * of the `repr(C)` structs of the library that are named as they are, in their order and of their types: include/compare looks. */
struct which {
    uint8_t peer;
    uint32_t local;
    uint32_t remote;
};

struct lane {
    uint8_t from;
    uint8_t to;
    uint8_t link;
};

/* The functions of the library, in the sources of crates/ncp_embed. No pointer of theirs may be null. A `handle` whose
 * `at` is null has no host, and is answered NCP_NO_HOST by these too, behind what they say of bits and buffers; so a `net`
 * NCP_NO_SUBNET. */
/* A size that the module did not set. */
#define UNSET 0xffffffffffffffffull

/* The memory in which a call allocates: that of its host, or the process's. */
#ifdef NCP_IN
#define HEAP_OF(host) ((host)->at != NULL ? note_of(ADDRESS((host)->at)).heap : NULL),
#define NO_HEAP NULL,
#else
#define HEAP_OF(host)
#define NO_HEAP
#endif

static uint32_t new_with(HEAP_IS struct ncp_host *handle, uint8_t me, const uint8_t *peers, size_t peers_len)
{
    FRAME_OF(2);
    u32 answer;
    store64(frame + 0, ADDRESS(handle->at));
    answer = module_ncp_embed_new(HEAP frame + 0, me, ADDRESS(peers), peers_len);
    handle->at = AT(load64(frame + 0));
    return answer;
}

static uint32_t ncp_embed_copy(struct ncp_host *handle, struct ncp_host *copy)
{
    FRAME_OF(4);
    u32 answer;
    store64(frame + 0, ADDRESS(handle->at));
    store64(frame + 16, ADDRESS(copy->at));
    answer = module_ncp_embed_copy(HEAP_OF(handle) frame + 0, frame + 16);
    handle->at = AT(load64(frame + 0));
    copy->at = AT(load64(frame + 16));
    return answer;
}

static uint32_t ncp_embed_save(struct ncp_host *handle, uint8_t *out, size_t out_len, size_t *size)
{
    FRAME_OF(4);
    u32 answer;
    store64(frame + 0, ADDRESS(handle->at));
    store64(frame + 16, UNSET);
    answer = module_ncp_embed_save(HEAP_OF(handle) frame + 0, ADDRESS(out), out_len, frame + 16);
    handle->at = AT(load64(frame + 0));
    if (load64(frame + 16) != UNSET) *size = (size_t)load64(frame + 16);
    return answer;
}

static uint32_t ncp_embed_load(struct ncp_host *handle, const uint8_t *bytes, size_t bytes_len)
{
    FRAME_OF(2);
    u32 answer;
    store64(frame + 0, ADDRESS(handle->at));
    answer = module_ncp_embed_load(HEAP_OF(handle) frame + 0, ADDRESS(bytes), bytes_len);
    handle->at = AT(load64(frame + 0));
    return answer;
}

static void ncp_embed_free(struct ncp_host *handle)
{
    FRAME_OF(2);
    store64(frame + 0, ADDRESS(handle->at));
    module_ncp_embed_free(frame + 0);
    handle->at = AT(load64(frame + 0));
}

static uint32_t ncp_embed_receive(struct ncp_host *handle, const uint8_t *bytes, size_t bytes_len, size_t bits, struct ncp_arrived *arrived)
{
    FRAME_OF(6);
    u32 answer;
    store64(frame + 0, ADDRESS(handle->at));
    answer = module_ncp_embed_receive(frame + 0, ADDRESS(bytes), bytes_len, bits, frame + 16);
    handle->at = AT(load64(frame + 0));
    if (answer == NCP_DONE) {
        arrived->what = (uint32_t)load32(frame + 16);
        arrived->detail = (uint32_t)load32(frame + 20);
        arrived->local = (uint32_t)load32(frame + 24);
        arrived->remote = (uint32_t)load32(frame + 28);
        arrived->errors = (uint32_t)load32(frame + 32);
        arrived->resets = (uint32_t)load32(frame + 36);
        arrived->peer = (uint8_t)load8(frame + 40);
        arrived->link = (uint8_t)load8(frame + 41);
        arrived->kind = (uint8_t)load8(frame + 42);
    }
    return answer;
}

static uint32_t ncp_embed_next_output(struct ncp_host *handle, uint8_t *out, size_t out_len, size_t *bits)
{
    FRAME_OF(4);
    u32 answer;
    store64(frame + 0, ADDRESS(handle->at));
    store64(frame + 16, UNSET);
    answer = module_ncp_embed_next_output(frame + 0, ADDRESS(out), out_len, frame + 16);
    handle->at = AT(load64(frame + 0));
    if (load64(frame + 16) != UNSET) *bits = (size_t)load64(frame + 16);
    return answer;
}

static uint32_t ncp_embed_reset(struct ncp_host *handle, uint8_t peer)
{
    FRAME_OF(2);
    u32 answer;
    store64(frame + 0, ADDRESS(handle->at));
    answer = module_ncp_embed_reset(frame + 0, peer);
    handle->at = AT(load64(frame + 0));
    return answer;
}

static uint32_t ncp_embed_ask_send(struct ncp_host *handle, const struct which *which, uint8_t size, uint32_t room)
{
    FRAME_OF(4);
    u32 answer;
    store64(frame + 0, ADDRESS(handle->at));
    store8(frame + 16, which->peer);
    store32(frame + 20, which->local);
    store32(frame + 24, which->remote);
    answer = module_ncp_embed_ask_send(HEAP_OF(handle) frame + 0, frame + 16, size, room);
    handle->at = AT(load64(frame + 0));
    return answer;
}

static uint32_t ncp_embed_ask_receive(struct ncp_host *handle, const struct which *which, uint32_t room)
{
    FRAME_OF(4);
    u32 answer;
    store64(frame + 0, ADDRESS(handle->at));
    store8(frame + 16, which->peer);
    store32(frame + 20, which->local);
    store32(frame + 24, which->remote);
    answer = module_ncp_embed_ask_receive(HEAP_OF(handle) frame + 0, frame + 16, room);
    handle->at = AT(load64(frame + 0));
    return answer;
}

static uint32_t ncp_embed_give(struct ncp_host *handle, const struct which *which, const uint8_t *bytes, size_t bytes_len, size_t bits)
{
    FRAME_OF(4);
    u32 answer;
    store64(frame + 0, ADDRESS(handle->at));
    store8(frame + 16, which->peer);
    store32(frame + 20, which->local);
    store32(frame + 24, which->remote);
    answer = module_ncp_embed_give(frame + 0, frame + 16, ADDRESS(bytes), bytes_len, bits);
    handle->at = AT(load64(frame + 0));
    return answer;
}

static uint32_t ncp_embed_take(struct ncp_host *handle, const struct which *which, uint32_t bytes, uint8_t *out, size_t out_len, size_t *bits)
{
    FRAME_OF(6);
    u32 answer;
    store64(frame + 0, ADDRESS(handle->at));
    store8(frame + 16, which->peer);
    store32(frame + 20, which->local);
    store32(frame + 24, which->remote);
    store64(frame + 32, UNSET);
    answer = module_ncp_embed_take(frame + 0, frame + 16, bytes, ADDRESS(out), out_len, frame + 32);
    handle->at = AT(load64(frame + 0));
    if (load64(frame + 32) != UNSET) *bits = (size_t)load64(frame + 32);
    return answer;
}

static uint32_t ncp_embed_allocate(struct ncp_host *handle, const struct which *which, uint16_t messages, uint32_t bits)
{
    FRAME_OF(4);
    u32 answer;
    store64(frame + 0, ADDRESS(handle->at));
    store8(frame + 16, which->peer);
    store32(frame + 20, which->local);
    store32(frame + 24, which->remote);
    answer = module_ncp_embed_allocate(frame + 0, frame + 16, messages, bits);
    handle->at = AT(load64(frame + 0));
    return answer;
}

static uint32_t ncp_embed_call_back(struct ncp_host *handle, const struct which *which, uint8_t fm, uint8_t fb)
{
    FRAME_OF(4);
    u32 answer;
    store64(frame + 0, ADDRESS(handle->at));
    store8(frame + 16, which->peer);
    store32(frame + 20, which->local);
    store32(frame + 24, which->remote);
    answer = module_ncp_embed_call_back(frame + 0, frame + 16, fm, fb);
    handle->at = AT(load64(frame + 0));
    return answer;
}

static uint32_t ncp_embed_interrupt(struct ncp_host *handle, const struct which *which)
{
    FRAME_OF(4);
    u32 answer;
    store64(frame + 0, ADDRESS(handle->at));
    store8(frame + 16, which->peer);
    store32(frame + 20, which->local);
    store32(frame + 24, which->remote);
    answer = module_ncp_embed_interrupt(frame + 0, frame + 16);
    handle->at = AT(load64(frame + 0));
    return answer;
}

static uint32_t ncp_embed_close(struct ncp_host *handle, const struct which *which)
{
    FRAME_OF(4);
    u32 answer;
    store64(frame + 0, ADDRESS(handle->at));
    store8(frame + 16, which->peer);
    store32(frame + 20, which->local);
    store32(frame + 24, which->remote);
    answer = module_ncp_embed_close(frame + 0, frame + 16);
    handle->at = AT(load64(frame + 0));
    return answer;
}

static uint32_t ncp_embed_echo(struct ncp_host *handle, uint8_t peer, uint8_t byte)
{
    FRAME_OF(2);
    u32 answer;
    store64(frame + 0, ADDRESS(handle->at));
    answer = module_ncp_embed_echo(frame + 0, peer, byte);
    handle->at = AT(load64(frame + 0));
    return answer;
}

static uint32_t ncp_embed_wake(struct ncp_host *handle, uint8_t peer)
{
    FRAME_OF(2);
    u32 answer;
    store64(frame + 0, ADDRESS(handle->at));
    answer = module_ncp_embed_wake(frame + 0, peer);
    handle->at = AT(load64(frame + 0));
    return answer;
}

static uint32_t ncp_embed_restart(struct ncp_host *handle, uint8_t peer)
{
    FRAME_OF(2);
    u32 answer;
    store64(frame + 0, ADDRESS(handle->at));
    answer = module_ncp_embed_restart(frame + 0, peer);
    handle->at = AT(load64(frame + 0));
    return answer;
}

static uint32_t ncp_embed_state(struct ncp_host *handle, const struct which *which, struct ncp_connection *out)
{
    FRAME_OF(8);
    u32 answer;
    store64(frame + 0, ADDRESS(handle->at));
    store8(frame + 16, which->peer);
    store32(frame + 20, which->local);
    store32(frame + 24, which->remote);
    answer = module_ncp_embed_state(frame + 0, frame + 16, frame + 32);
    handle->at = AT(load64(frame + 0));
    if (answer == NCP_DONE) {
        out->bits = (uint32_t)load32(frame + 32);
        out->stored = (uint32_t)load32(frame + 36);
        out->interrupts = (uint32_t)load32(frame + 40);
        out->messages = (uint16_t)load16(frame + 44);
        out->link = (uint8_t)load8(frame + 46);
        out->size = (uint8_t)load8(frame + 47);
        out->sends = load8(frame + 48) != 0;
        out->asked = load8(frame + 49) != 0;
        out->heard = load8(frame + 50) != 0;
        out->opened = load8(frame + 51) != 0;
        out->leaving = load8(frame + 52) != 0;
        out->left = load8(frame + 53) != 0;
        out->cls = load8(frame + 54) != 0;
        out->busy = load8(frame + 55) != 0;
        out->recall = load8(frame + 56) != 0;
    }
    return answer;
}

static uint32_t ncp_embed_changes(struct ncp_host *handle, const struct which *which, struct ncp_connection *seen, struct ncp_changes *out)
{
    FRAME_OF(10);
    u32 answer;
    store64(frame + 0, ADDRESS(handle->at));
    store8(frame + 16, which->peer);
    store32(frame + 20, which->local);
    store32(frame + 24, which->remote);
    store32(frame + 32, seen->bits);
    store32(frame + 36, seen->stored);
    store32(frame + 40, seen->interrupts);
    store16(frame + 44, seen->messages);
    store8(frame + 46, seen->link);
    store8(frame + 47, seen->size);
    store8(frame + 48, seen->sends);
    store8(frame + 49, seen->asked);
    store8(frame + 50, seen->heard);
    store8(frame + 51, seen->opened);
    store8(frame + 52, seen->leaving);
    store8(frame + 53, seen->left);
    store8(frame + 54, seen->cls);
    store8(frame + 55, seen->busy);
    store8(frame + 56, seen->recall);
    answer = module_ncp_embed_changes(frame + 0, frame + 16, frame + 32, frame + 64);
    handle->at = AT(load64(frame + 0));
    if (answer == NCP_DONE) {
        seen->bits = (uint32_t)load32(frame + 32);
        seen->stored = (uint32_t)load32(frame + 36);
        seen->interrupts = (uint32_t)load32(frame + 40);
        seen->messages = (uint16_t)load16(frame + 44);
        seen->link = (uint8_t)load8(frame + 46);
        seen->size = (uint8_t)load8(frame + 47);
        seen->sends = load8(frame + 48) != 0;
        seen->asked = load8(frame + 49) != 0;
        seen->heard = load8(frame + 50) != 0;
        seen->opened = load8(frame + 51) != 0;
        seen->leaving = load8(frame + 52) != 0;
        seen->left = load8(frame + 53) != 0;
        seen->cls = load8(frame + 54) != 0;
        seen->busy = load8(frame + 55) != 0;
        seen->recall = load8(frame + 56) != 0;
        out->closed = load8(frame + 64) != 0;
        out->refused = load8(frame + 65) != 0;
        out->ended = load8(frame + 66) != 0;
        out->asks = load8(frame + 67) != 0;
        out->opened = load8(frame + 68) != 0;
        out->text = load8(frame + 69) != 0;
        out->allowed = load8(frame + 70) != 0;
        out->delivered = load8(frame + 71) != 0;
        out->interrupted = load8(frame + 72) != 0;
        out->closes = load8(frame + 73) != 0;
    }
    return answer;
}

static uint32_t ncp_embed_connection_at(struct ncp_host *handle, uint32_t place, struct which *which, struct ncp_connection *out)
{
    FRAME_OF(8);
    u32 answer;
    store64(frame + 0, ADDRESS(handle->at));
    store8(frame + 16, which->peer);
    store32(frame + 20, which->local);
    store32(frame + 24, which->remote);
    answer = module_ncp_embed_connection_at(frame + 0, place, frame + 16, frame + 32);
    handle->at = AT(load64(frame + 0));
    if (answer == NCP_DONE) {
        which->peer = (uint8_t)load8(frame + 16);
        which->local = (uint32_t)load32(frame + 20);
        which->remote = (uint32_t)load32(frame + 24);
        out->bits = (uint32_t)load32(frame + 32);
        out->stored = (uint32_t)load32(frame + 36);
        out->interrupts = (uint32_t)load32(frame + 40);
        out->messages = (uint16_t)load16(frame + 44);
        out->link = (uint8_t)load8(frame + 46);
        out->size = (uint8_t)load8(frame + 47);
        out->sends = load8(frame + 48) != 0;
        out->asked = load8(frame + 49) != 0;
        out->heard = load8(frame + 50) != 0;
        out->opened = load8(frame + 51) != 0;
        out->leaving = load8(frame + 52) != 0;
        out->left = load8(frame + 53) != 0;
        out->cls = load8(frame + 54) != 0;
        out->busy = load8(frame + 55) != 0;
        out->recall = load8(frame + 56) != 0;
    }
    return answer;
}

static uint32_t ncp_embed_room(struct ncp_host *handle, const struct which *which, uint32_t *bits)
{
    FRAME_OF(6);
    u32 answer;
    store64(frame + 0, ADDRESS(handle->at));
    store8(frame + 16, which->peer);
    store32(frame + 20, which->local);
    store32(frame + 24, which->remote);
    answer = module_ncp_embed_room(frame + 0, frame + 16, frame + 32);
    handle->at = AT(load64(frame + 0));
    if (answer == NCP_DONE) {
        *bits = (uint32_t)load32(frame + 32);
    }
    return answer;
}

static uint32_t ncp_embed_pair_on(struct ncp_host *handle, bool sends, uint8_t link, struct which *which)
{
    FRAME_OF(4);
    u32 answer;
    store64(frame + 0, ADDRESS(handle->at));
    store8(frame + 16, which->peer);
    store32(frame + 20, which->local);
    store32(frame + 24, which->remote);
    answer = module_ncp_embed_pair_on(frame + 0, sends, link, frame + 16);
    handle->at = AT(load64(frame + 0));
    if (answer == NCP_DONE) {
        which->peer = (uint8_t)load8(frame + 16);
        which->local = (uint32_t)load32(frame + 20);
        which->remote = (uint32_t)load32(frame + 24);
    }
    return answer;
}

static bool ncp_embed_is_held(struct ncp_host *handle, uint8_t peer, uint8_t link)
{
    FRAME_OF(2);
    u32 answer;
    store64(frame + 0, ADDRESS(handle->at));
    answer = module_ncp_embed_is_held(frame + 0, peer, link);
    handle->at = AT(load64(frame + 0));
    return answer != 0;
}

static bool ncp_embed_is_open(struct ncp_host *handle, const struct which *which)
{
    FRAME_OF(4);
    u32 answer;
    store64(frame + 0, ADDRESS(handle->at));
    store8(frame + 16, which->peer);
    store32(frame + 20, which->local);
    store32(frame + 24, which->remote);
    answer = module_ncp_embed_is_open(frame + 0, frame + 16);
    handle->at = AT(load64(frame + 0));
    return answer != 0;
}

static bool ncp_embed_is_up(struct ncp_host *handle, uint8_t peer)
{
    FRAME_OF(2);
    u32 answer;
    store64(frame + 0, ADDRESS(handle->at));
    answer = module_ncp_embed_is_up(frame + 0, peer);
    handle->at = AT(load64(frame + 0));
    return answer != 0;
}

static uint32_t ncp_embed_phase(struct ncp_host *handle, uint8_t peer, struct ncp_flags *out)
{
    FRAME_OF(4);
    u32 answer;
    store64(frame + 0, ADDRESS(handle->at));
    answer = module_ncp_embed_phase(frame + 0, peer, frame + 16);
    handle->at = AT(load64(frame + 0));
    if (answer == NCP_DONE) {
        out->down = load8(frame + 16) != 0;
        out->want = load8(frame + 17) != 0;
        out->owe = load8(frame + 18) != 0;
        out->wait = load8(frame + 19) != 0;
    }
    return answer;
}

static uint32_t ncp_embed_echoed(struct ncp_host *handle, uint8_t peer, uint8_t *byte)
{
    FRAME_OF(4);
    u32 answer;
    store64(frame + 0, ADDRESS(handle->at));
    answer = module_ncp_embed_echoed(frame + 0, peer, frame + 16);
    handle->at = AT(load64(frame + 0));
    if (answer == NCP_DONE) {
        *byte = (uint8_t)load8(frame + 16);
    }
    return answer;
}

static uint32_t ncp_embed_error(struct ncp_host *handle, uint8_t peer, uint32_t place, struct ncp_err_command *out)
{
    FRAME_OF(4);
    u32 answer;
    store64(frame + 0, ADDRESS(handle->at));
    answer = module_ncp_embed_error(frame + 0, peer, place, frame + 16);
    handle->at = AT(load64(frame + 0));
    if (answer == NCP_DONE) {
        out->code = (uint8_t)load8(frame + 16);
        out->bytes[0] = (uint8_t)load8(frame + 17);
        out->bytes[1] = (uint8_t)load8(frame + 18);
        out->bytes[2] = (uint8_t)load8(frame + 19);
        out->bytes[3] = (uint8_t)load8(frame + 20);
        out->bytes[4] = (uint8_t)load8(frame + 21);
        out->bytes[5] = (uint8_t)load8(frame + 22);
        out->bytes[6] = (uint8_t)load8(frame + 23);
        out->bytes[7] = (uint8_t)load8(frame + 24);
        out->bytes[8] = (uint8_t)load8(frame + 25);
        out->bytes[9] = (uint8_t)load8(frame + 26);
    }
    return answer;
}

static uint32_t ncp_embed_counts(struct ncp_host *handle, uint8_t peer, struct ncp_peer_counts *out)
{
    FRAME_OF(6);
    u32 answer;
    store64(frame + 0, ADDRESS(handle->at));
    answer = module_ncp_embed_counts(frame + 0, peer, frame + 16);
    handle->at = AT(load64(frame + 0));
    if (answer == NCP_DONE) {
        out->stray = (uint32_t)load32(frame + 16);
        out->faults = (uint32_t)load32(frame + 20);
        out->wrong_link = (uint32_t)load32(frame + 24);
        out->wrong_size = (uint32_t)load32(frame + 28);
        out->not_up = (uint32_t)load32(frame + 32);
        out->late = (uint32_t)load32(frame + 36);
        out->over = (uint32_t)load32(frame + 40);
    }
    return answer;
}

static uint32_t ncp_embed_ignored(struct ncp_host *handle, struct ncp_ignored_counts *out)
{
    FRAME_OF(4);
    u32 answer;
    store64(frame + 0, ADDRESS(handle->at));
    answer = module_ncp_embed_ignored(frame + 0, frame + 16);
    handle->at = AT(load64(frame + 0));
    if (answer == NCP_DONE) {
        out->short_bits = (uint32_t)load32(frame + 16);
        out->other = (uint32_t)load32(frame + 20);
        out->unknown = (uint32_t)load32(frame + 24);
    }
    return answer;
}

static uint32_t ncp_embed_waiting(struct ncp_host *handle, uint8_t peer, uint32_t place, uint8_t *out, size_t out_len, size_t *bytes)
{
    FRAME_OF(4);
    u32 answer;
    store64(frame + 0, ADDRESS(handle->at));
    store64(frame + 16, UNSET);
    answer = module_ncp_embed_waiting(frame + 0, peer, place, ADDRESS(out), out_len, frame + 16);
    handle->at = AT(load64(frame + 0));
    if (load64(frame + 16) != UNSET) *bytes = (size_t)load64(frame + 16);
    return answer;
}

static uint32_t ncp_embed_kept(struct ncp_host *handle, uint8_t peer, uint8_t link, uint8_t *out, size_t out_len, size_t *bits)
{
    FRAME_OF(4);
    u32 answer;
    store64(frame + 0, ADDRESS(handle->at));
    store64(frame + 16, UNSET);
    answer = module_ncp_embed_kept(frame + 0, peer, link, ADDRESS(out), out_len, frame + 16);
    handle->at = AT(load64(frame + 0));
    if (load64(frame + 16) != UNSET) *bits = (size_t)load64(frame + 16);
    return answer;
}

static uint32_t ncp_embed_unacknowledged(struct ncp_host *handle, uint8_t peer, uint32_t *what)
{
    FRAME_OF(4);
    u32 answer;
    store64(frame + 0, ADDRESS(handle->at));
    answer = module_ncp_embed_unacknowledged(frame + 0, peer, frame + 16);
    handle->at = AT(load64(frame + 0));
    if (answer == NCP_DONE) {
        *what = (uint32_t)load32(frame + 16);
    }
    return answer;
}

static uint32_t ncp_embed_command(const uint8_t *bytes, size_t bytes_len, size_t bits, uint32_t place, uint8_t *out, size_t out_len, size_t *size)
{
    FRAME_OF(2);
    u32 answer;
    store64(frame + 0, UNSET);
    answer = module_ncp_embed_command(ADDRESS(bytes), bytes_len, bits, place, ADDRESS(out), out_len, frame + 0);
    if (load64(frame + 0) != UNSET) *size = (size_t)load64(frame + 0);
    return answer;
}

static uint32_t ncp_embed_subnet_new(struct ncp_subnet *net, const uint8_t *hosts, size_t hosts_len)
{
    FRAME_OF(2);
    u32 answer;
    store64(frame + 0, ADDRESS(net->at));
    answer = module_ncp_embed_subnet_new(NO_HEAP frame + 0, ADDRESS(hosts), hosts_len);
    net->at = AT(load64(frame + 0));
    return answer;
}

static void ncp_embed_subnet_free(struct ncp_subnet *net)
{
    FRAME_OF(2);
    store64(frame + 0, ADDRESS(net->at));
    module_ncp_embed_subnet_free(frame + 0);
    net->at = AT(load64(frame + 0));
}

static uint32_t ncp_embed_subnet_accept(struct ncp_subnet *net, uint8_t from, const uint8_t *bytes, size_t bytes_len, size_t bits)
{
    FRAME_OF(2);
    u32 answer;
    store64(frame + 0, ADDRESS(net->at));
    answer = module_ncp_embed_subnet_accept(frame + 0, from, ADDRESS(bytes), bytes_len, bits);
    net->at = AT(load64(frame + 0));
    return answer;
}

static uint32_t ncp_embed_subnet_deliver(struct ncp_subnet *net, const struct lane *lane, uint8_t *out, size_t out_len, size_t *bits)
{
    FRAME_OF(6);
    u32 answer;
    store64(frame + 0, ADDRESS(net->at));
    store8(frame + 16, lane->from);
    store8(frame + 17, lane->to);
    store8(frame + 18, lane->link);
    store64(frame + 32, UNSET);
    answer = module_ncp_embed_subnet_deliver(frame + 0, frame + 16, ADDRESS(out), out_len, frame + 32);
    net->at = AT(load64(frame + 0));
    if (load64(frame + 32) != UNSET) *bits = (size_t)load64(frame + 32);
    return answer;
}

static uint32_t ncp_embed_subnet_lose(struct ncp_subnet *net, const struct lane *lane)
{
    FRAME_OF(4);
    u32 answer;
    store64(frame + 0, ADDRESS(net->at));
    store8(frame + 16, lane->from);
    store8(frame + 17, lane->to);
    store8(frame + 18, lane->link);
    answer = module_ncp_embed_subnet_lose(frame + 0, frame + 16);
    net->at = AT(load64(frame + 0));
    return answer;
}

static uint32_t ncp_embed_subnet_dead(struct ncp_subnet *net, const struct lane *lane)
{
    FRAME_OF(4);
    u32 answer;
    store64(frame + 0, ADDRESS(net->at));
    store8(frame + 16, lane->from);
    store8(frame + 17, lane->to);
    store8(frame + 18, lane->link);
    answer = module_ncp_embed_subnet_dead(frame + 0, frame + 16);
    net->at = AT(load64(frame + 0));
    return answer;
}

static uint32_t ncp_embed_subnet_answer(struct ncp_subnet *net, const struct lane *lane, uint8_t *out, size_t out_len, size_t *bits)
{
    FRAME_OF(6);
    u32 answer;
    store64(frame + 0, ADDRESS(net->at));
    store8(frame + 16, lane->from);
    store8(frame + 17, lane->to);
    store8(frame + 18, lane->link);
    store64(frame + 32, UNSET);
    answer = module_ncp_embed_subnet_answer(frame + 0, frame + 16, ADDRESS(out), out_len, frame + 32);
    net->at = AT(load64(frame + 0));
    if (load64(frame + 32) != UNSET) *bits = (size_t)load64(frame + 32);
    return answer;
}

/* A host that is made so is in the process's memory. */
static uint32_t ncp_embed_new(struct ncp_host *handle, uint8_t me, const uint8_t *peers, size_t peers_len)
{
    return new_with(NO_HEAP handle, me, peers, peers_len);
}

/* The names of ncp_name are those of ncp_word: the library's table of them would have addresses inside. */
static uint32_t ncp_embed_name(uint32_t code, uint8_t *out, size_t len, size_t *bytes)
{
    const char *word = ncp_word(code);
    size_t count = strlen(word);
    if (count == 0) return NCP_NOTHING;
    if (len < count) return NCP_SHORT_BUFFER;
    memcpy(out, word, count);
    *bytes = count;
    return NCP_DONE;
}

/* A function that returns an error is written as its head, as in ncp.h, and below that a row:
 *     KIND(pointers, call)
 * The kind is what the function needs first, and so the first error. Then none of these pointers may be null, and the call is made.
 * tools/tests/test_checks.py passes null for each pointer of each function, and compares the errors with those of ncp.h. */
#define ON_HOST(pointers, call) CHECKED(ncp_is_made(host), NCP_NO_HOST, pointers, call)
#define ON_SUBNET(pointers, call) CHECKED(has_subnet(subnet), NCP_NO_SUBNET, pointers, call)
#define INTO_HOST(pointers, call) CHECKED(host, NCP_NO_HOST, pointers, call) /* it may be empty */
#define INTO_SUBNET(pointers, call) CHECKED(subnet, NCP_NO_SUBNET, pointers, call)
#define ON_NEITHER(pointers, call) CHECKED(pointers, NCP_NO_POINTER, NO_OTHERS, call)
#define NO_OTHERS true

#define CHECKED(needed, or_else, pointers, call) \
    { \
        if (!(needed)) return or_else; \
        if (!(pointers)) return NCP_NO_POINTER; \
        return call; \
    }

/* Of a host too, but the call finds a connection with `peer`, whose sockets are then returned. */
#define FINDS(pointers, call) \
    { \
        struct which found = {peer, 0, 0}; \
        ON_HOST(pointers, with_sockets(call, &found, local, remote)) \
    }

/* The connection, or the link from one host to another, that the parameters name. */
#define WHICH &(struct which){peer, local, remote}
#define LANE &(struct lane){from, to, link}

bool ncp_is_made(const struct ncp_host *host)
{
    return host != NULL && host->at != NULL;
}

static bool has_subnet(const struct ncp_subnet *subnet)
{
    return subnet != NULL && subnet->at != NULL;
}

/* What a call returned, and the sockets of the connection, if it found one. */
static uint32_t with_sockets(uint32_t code, const struct which *found, uint32_t *local, uint32_t *remote)
{
    if (code != NCP_DONE) return code;
    *local = found->local;
    *remote = found->remote;
    return NCP_DONE;
}

/* A host as a whole. A copy into itself is there already. To ask for the size of a save, `out` may be null, which the library's may not. */
uint32_t ncp_new(struct ncp_host *host, uint8_t me, const uint8_t *peers, size_t count)
    INTO_HOST(peers, ncp_embed_new(host, me, peers, count))
uint32_t ncp_copy(struct ncp_host *host, struct ncp_host *copy)
    ON_HOST(copy, host == copy ? NCP_DONE : ncp_embed_copy(host, copy))
uint32_t ncp_save(struct ncp_host *host, uint8_t *out, size_t len, size_t *size)
    ON_HOST(size && (out || len == 0), ncp_embed_save(host, out ? out : (uint8_t[1]){0}, len, size))
uint32_t ncp_load(struct ncp_host *host, const uint8_t *bytes, size_t len)
    INTO_HOST(bytes, ncp_embed_load(host, bytes, len))

/* Messages. */
uint32_t ncp_receive(struct ncp_host *host, const uint8_t *bytes, size_t len, size_t bits, struct ncp_arrived *arrived)
    ON_HOST(bytes && arrived, ncp_embed_receive(host, bytes, len, bits, arrived))
uint32_t ncp_next_output(struct ncp_host *host, uint8_t *out, size_t len, size_t *bits)
    ON_HOST(out && bits, ncp_embed_next_output(host, out, len, bits))

/* Requests of its user. */
uint32_t ncp_reset(struct ncp_host *host, uint8_t peer)
    ON_HOST(NO_OTHERS, ncp_embed_reset(host, peer))
uint32_t ncp_ask_send(struct ncp_host *host, uint8_t peer, uint32_t local, uint32_t remote, uint8_t size, uint32_t room)
    ON_HOST(NO_OTHERS, ncp_embed_ask_send(host, WHICH, size, room))
uint32_t ncp_ask_receive(struct ncp_host *host, uint8_t peer, uint32_t local, uint32_t remote, uint32_t room)
    ON_HOST(NO_OTHERS, ncp_embed_ask_receive(host, WHICH, room))
uint32_t ncp_give(struct ncp_host *host, uint8_t peer, uint32_t local, uint32_t remote, const uint8_t *bytes, size_t len, size_t bits)
    ON_HOST(bytes, ncp_embed_give(host, WHICH, bytes, len, bits))
uint32_t ncp_take(struct ncp_host *host, uint8_t peer, uint32_t local, uint32_t remote, uint32_t bytes, uint8_t *out, size_t len, size_t *bits)
    ON_HOST(out && bits, ncp_embed_take(host, WHICH, bytes, out, len, bits))
uint32_t ncp_allocate(struct ncp_host *host, uint8_t peer, uint32_t local, uint32_t remote, uint16_t messages, uint32_t bits)
    ON_HOST(NO_OTHERS, ncp_embed_allocate(host, WHICH, messages, bits))
uint32_t ncp_call_back(struct ncp_host *host, uint8_t peer, uint32_t local, uint32_t remote, uint8_t fm, uint8_t fb)
    ON_HOST(NO_OTHERS, ncp_embed_call_back(host, WHICH, fm, fb))
uint32_t ncp_interrupt(struct ncp_host *host, uint8_t peer, uint32_t local, uint32_t remote)
    ON_HOST(NO_OTHERS, ncp_embed_interrupt(host, WHICH))
uint32_t ncp_close(struct ncp_host *host, uint8_t peer, uint32_t local, uint32_t remote)
    ON_HOST(NO_OTHERS, ncp_embed_close(host, WHICH))
uint32_t ncp_echo(struct ncp_host *host, uint8_t peer, uint8_t byte)
    ON_HOST(NO_OTHERS, ncp_embed_echo(host, peer, byte))
uint32_t ncp_wake(struct ncp_host *host, uint8_t peer)
    ON_HOST(NO_OTHERS, ncp_embed_wake(host, peer))
uint32_t ncp_restart(struct ncp_host *host, uint8_t peer)
    ON_HOST(NO_OTHERS, ncp_embed_restart(host, peer))

/* Readings. */
uint32_t ncp_state(struct ncp_host *host, uint8_t peer, uint32_t local, uint32_t remote, struct ncp_connection *out)
    ON_HOST(out, ncp_embed_state(host, WHICH, out))
uint32_t ncp_changes(struct ncp_host *host, uint8_t peer, uint32_t local, uint32_t remote, struct ncp_connection *seen, struct ncp_changes *out)
    ON_HOST(seen && out, ncp_embed_changes(host, WHICH, seen, out))
uint32_t ncp_connection_at(struct ncp_host *host, uint8_t peer, uint32_t place, uint32_t *local, uint32_t *remote, struct ncp_connection *out)
    FINDS(local && remote && out, ncp_embed_connection_at(host, place, &found, out))
uint32_t ncp_room(struct ncp_host *host, uint8_t peer, uint32_t local, uint32_t remote, uint32_t *bits)
    ON_HOST(bits, ncp_embed_room(host, WHICH, bits))
uint32_t ncp_pair_on(struct ncp_host *host, uint8_t peer, bool sends, uint8_t link, uint32_t *local, uint32_t *remote)
    FINDS(local && remote, ncp_embed_pair_on(host, sends, link, &found))
uint32_t ncp_phase(struct ncp_host *host, uint8_t peer, struct ncp_flags *out)
    ON_HOST(out, ncp_embed_phase(host, peer, out))
uint32_t ncp_echoed(struct ncp_host *host, uint8_t peer, uint8_t *byte)
    ON_HOST(byte, ncp_embed_echoed(host, peer, byte))
uint32_t ncp_error(struct ncp_host *host, uint8_t peer, uint32_t place, struct ncp_err_command *out)
    ON_HOST(out, ncp_embed_error(host, peer, place, out))
uint32_t ncp_counts(struct ncp_host *host, uint8_t peer, struct ncp_peer_counts *out)
    ON_HOST(out, ncp_embed_counts(host, peer, out))
uint32_t ncp_ignored(struct ncp_host *host, struct ncp_ignored_counts *out)
    ON_HOST(out, ncp_embed_ignored(host, out))
uint32_t ncp_waiting(struct ncp_host *host, uint8_t peer, uint32_t place, uint8_t *out, size_t len, size_t *bytes)
    ON_HOST(out && bytes, ncp_embed_waiting(host, peer, place, out, len, bytes))
uint32_t ncp_kept(struct ncp_host *host, uint8_t peer, uint8_t link, uint8_t *out, size_t len, size_t *bits)
    ON_HOST(out && bits, ncp_embed_kept(host, peer, link, out, len, bits))
uint32_t ncp_unacknowledged(struct ncp_host *host, uint8_t peer, uint32_t *what)
    ON_HOST(what, ncp_embed_unacknowledged(host, peer, what))

/* No host is needed. */
uint32_t ncp_command(const uint8_t *bytes, size_t len, size_t bits, uint32_t place, uint8_t *out, size_t room, size_t *size)
    ON_NEITHER(bytes && out && size, ncp_embed_command(bytes, len, bits, place, out, room, size))
uint32_t ncp_name(uint32_t code, char *out, size_t len, size_t *bytes)
    ON_NEITHER(out && bytes, ncp_embed_name(code, (uint8_t *)out, len, bytes))

/* A subnet. */
uint32_t ncp_subnet_new(struct ncp_subnet *subnet, const uint8_t *hosts, size_t count)
    INTO_SUBNET(hosts, ncp_embed_subnet_new(subnet, hosts, count))
uint32_t ncp_subnet_accept(struct ncp_subnet *subnet, uint8_t from, const uint8_t *bytes, size_t len, size_t bits)
    ON_SUBNET(bytes, ncp_embed_subnet_accept(subnet, from, bytes, len, bits))
uint32_t ncp_subnet_deliver(struct ncp_subnet *subnet, uint8_t from, uint8_t to, uint8_t link, uint8_t *out, size_t len, size_t *bits)
    ON_SUBNET(out && bits, ncp_embed_subnet_deliver(subnet, LANE, out, len, bits))
uint32_t ncp_subnet_lose(struct ncp_subnet *subnet, uint8_t from, uint8_t to, uint8_t link)
    ON_SUBNET(NO_OTHERS, ncp_embed_subnet_lose(subnet, LANE))
uint32_t ncp_subnet_dead(struct ncp_subnet *subnet, uint8_t from, uint8_t to, uint8_t link)
    ON_SUBNET(NO_OTHERS, ncp_embed_subnet_dead(subnet, LANE))
uint32_t ncp_subnet_answer(struct ncp_subnet *subnet, uint8_t from, uint8_t to, uint8_t link, uint8_t *out, size_t len, size_t *bits)
    ON_SUBNET(out && bits, ncp_embed_subnet_answer(subnet, LANE, out, len, bits))

/* By hand, since they return no error. */
void ncp_free(struct ncp_host *host)
{
    if (ncp_is_made(host)) ncp_embed_free(host);
}

bool ncp_is_held(struct ncp_host *host, uint8_t peer, uint8_t link)
{
    return ncp_is_made(host) && ncp_embed_is_held(host, peer, link);
}

bool ncp_is_open(struct ncp_host *host, uint8_t peer, uint32_t local, uint32_t remote)
{
    return ncp_is_made(host) && ncp_embed_is_open(host, WHICH);
}

bool ncp_is_up(struct ncp_host *host, uint8_t peer)
{
    return ncp_is_made(host) && ncp_embed_is_up(host, peer);
}

void ncp_subnet_free(struct ncp_subnet *subnet)
{
    if (has_subnet(subnet)) ncp_embed_subnet_free(subnet);
}

const char *ncp_word(uint32_t code)
{
    switch (code) {
    case NCP_DONE: return "Done";
    case NCP_UNKNOWN_PEER: return "UnknownPeer";
    case NCP_NOT_UP: return "NotUp";
    case NCP_BAD_SEX: return "BadSex";
    case NCP_BAD_SIZE: return "BadSize";
    case NCP_BAD_ROOM: return "BadRoom";
    case NCP_NO_ENTRY: return "NoEntry";
    case NCP_ALREADY_ASKED: return "AlreadyAsked";
    case NCP_CLOSING: return "Closing";
    case NCP_NOT_OPEN: return "NotOpen";
    case NCP_WRONG_END: return "WrongEnd";
    case NCP_NOT_WHOLE: return "NotWhole";
    case NCP_BUSY: return "Busy";
    case NCP_NO_ROOM: return "NoRoom";
    case NCP_TOO_MUCH: return "TooMuch";
    case NCP_TABLE_FULL: return "TableFull";
    case NCP_QUEUE_FULL: return "QueueFull";
    case NCP_OUT_OF_MEMORY: return "OutOfMemory";
    case NCP_NO_HOST: return "NoHost";
    case NCP_NO_POINTER: return "NoPointer";
    case NCP_SHORT_BUFFER: return "ShortBuffer";
    case NCP_NOTHING: return "Nothing";
    case NCP_NO_SUBNET: return "NoSubnet";
    case NCP_TOO_LONG: return "TooLong";
    case NCP_SHORT_BYTES: return "ShortBytes";
    case NCP_SPARE_NOT_ZERO: return "SpareNotZero";
    case NCP_NEW_BAD_PEERS: return "BadPeers";
    case NCP_NEW_OUT_OF_MEMORY: return "OutOfMemory";
    case NCP_SUBNET_NOT_REGULAR: return "NotRegular";
    case NCP_SUBNET_NO_HOST: return "NoHost";
    case NCP_SUBNET_OCCUPIED: return "Occupied";
    case NCP_LOAD_NOT_A_HOST: return "NotAHost";
    case NCP_LOAD_OTHER_VERSION: return "OtherVersion";
    case NCP_LOAD_OUT_OF_MEMORY: return "OutOfMemory";
    default: return "";
    }
}

const char *ncp_version(void)
{
    return NCP_VERSION;
}

#define SIZE_OF(name) sizeof(struct name),

const uint32_t *ncp_sizes(void)
{
    static const uint32_t sizes[] = {NCP_STRUCTS(SIZE_OF) 0};
    return sizes;
}

#ifdef NCP_IN
/* What the library allocates for a host in all, in bytes and blocks: once, and for each peer; for each connection a block for its room,
 * with one byte more. onefile/lent.c looks whether that is enough. */
enum { MOST_PEERS = 8, OF_HOST = 64, BLOCKS_OF_HOST = 2, OF_PEER = 97624, BLOCKS_OF_PEER = 4 };
/* The overhead of a block, and of lent memory. */
enum { OF_BLOCK = BEFORE_BLOCK + UNIT - 1, OF_MEMORY = 2 * UNIT };

size_t ncp_size(size_t count, size_t connections, uint32_t room)
{
    if (count == 0 || count > MOST_PEERS) return 0;
    return OF_MEMORY + OF_HOST + BLOCKS_OF_HOST * OF_BLOCK + count * (OF_PEER + BLOCKS_OF_PEER * OF_BLOCK) + connections * ((size_t)room / 8 + 2 + OF_BLOCK);
}

uint32_t ncp_new_in(struct ncp_host *host, uint8_t me, const uint8_t *peers, size_t count, void *memory, size_t size)
{
    struct heap none = {NULL}, *heap = &none;
    size_t before;
    if (host == NULL) return NCP_NO_HOST;
    if (peers == NULL || memory == NULL) return NCP_NO_POINTER;
    if (host->at != NULL) return NCP_BUSY;
    before = up_to_unit((size_t)memory) - (size_t)memory;
    if (size >= before + OF_MEMORY) {
        heap = (struct heap *)((u8 *)memory + before);
        heap->first = (struct piece *)((u8 *)heap + UNIT);
        heap->first->size = (size - before) / UNIT * UNIT - UNIT;
        heap->first->next = NULL;
    }
    return new_with(heap, host, me, peers, count);
}
#endif
