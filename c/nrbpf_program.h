/* What a store gives a program that is written in C. docs/C.md says how to write one. A host includes nrbpf.h, not this. */
#ifndef NRBPF_PROGRAM_H
#define NRBPF_PROGRAM_H

#include <stdint.h>

/* The types of <stdint.h> by short names. A header that hosts share has the long ones. */
typedef uint8_t u8;
typedef uint16_t u16;
typedef uint32_t u32;
typedef uint64_t u64;
typedef int8_t s8;
typedef int16_t s16;
typedef int32_t s32;
typedef int64_t s64;

/* Each function that isn't static is a program of its own. What it calls is inlined into it. */
#define NRBPF_INLINE static inline __attribute__((always_inline))

/* The store's map N, counted from 0 in the order of the manifest. N is a constant. */
struct nrbpf_map;
u64 nrbpf_pseudo(u64, u64) __asm__("llvm.bpf.pseudo");
#define NRBPF_MAP(n) ((struct nrbpf_map *)nrbpf_pseudo(5, (n)))

/* Helper 1: answers a pointer to the key's value, or 0 if the key is absent. Test the pointer before you use it. */
#define nrbpf_map_lookup(map, key) (((void *(*)(struct nrbpf_map *, const void *))1)((map), (key)))

/* Helper 2: gives the key this value. Answers 0, or minus an error. */
#define nrbpf_map_update(map, key, value, flags) \
	(((s64(*)(struct nrbpf_map *, const void *, const void *, u64))2)((map), (key), (value), (flags)))

/* Helper 3: removes the key. Answers 0, or minus an error. */
#define nrbpf_map_delete(map, key) (((s64(*)(struct nrbpf_map *, const void *))3)((map), (key)))

/* The flags of an update. */
#define NRBPF_ANY 0     /* whether the key is there or not */
#define NRBPF_NOEXIST 1 /* only if it isn't there */
#define NRBPF_EXIST 2   /* only if it is there */

/* The errors. */
#define NRBPF_ENOENT 2  /* there is no such key */
#define NRBPF_E2BIG 7   /* the map is full, or the array has no such index */
#define NRBPF_EEXIST 17 /* the key is there already */
#define NRBPF_EINVAL 22 /* the flags are others than these, or a delete is in an array */

/* After the test of a looked-up pointer: the compiler no longer knows how it got the pointer. docs/C.md says when (V6, V14). */
#define NRBPF_TESTED(pointer) __asm__ volatile("" : "+r"(pointer) : : "memory")

/* The compiler moves no load or store across this, and merges none before it with one after it. docs/C.md says when (V8). */
#define NRBPF_APART() __asm__ volatile("" : : : "memory")

/* The number of the lowest 1 bit, counted from 0; 64 if there is none. (clang makes a table for __builtin_ctzll; a program has none.) */
NRBPF_INLINE u64 nrbpf_lowest(u64 bits)
{
	u64 at = 0;
	if (!(bits & 0xffffffff)) {
		at += 32;
		bits >>= 32;
	}
	if (!(bits & 0xffff)) {
		at += 16;
		bits >>= 16;
	}
	if (!(bits & 0xff)) {
		at += 8;
		bits >>= 8;
	}
	if (!(bits & 0xf)) {
		at += 4;
		bits >>= 4;
	}
	if (!(bits & 3)) {
		at += 2;
		bits >>= 2;
	}
	if (!(bits & 1))
		at += bits ? 1 : 2;
	return at;
}

#endif
