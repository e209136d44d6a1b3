// What docs/C.md says of programs in C, a trial for each row: `//: ANSWER WHICH`, and a program. `.ci/trials` compiles each with what stands before the first.
// ANSWER is `ok`, a refusal of `nrbpf check`, or `stops` for c2hex and clang; `14:` before one is for that version alone. The manifest has
// `map hash 4 16 8`, `map array 32 8`, and the program with 32 bytes of argument.
#include "nrbpf_program.h"

struct call {
	u32 item, owner, which, left;
	u64 a, b;
};

struct row {
	u64 a, b;
};

struct wide {
	u64 at[4];
};

#define LOOK(key) nrbpf_map_lookup(NRBPF_MAP(0), (key))
#define WIDE(key) nrbpf_map_lookup(NRBPF_MAP(1), (key))

//: V14 untested pointer
s64 trial(const struct call *call)
{
	return *(u64 *)LOOK(&call->item);
}

//: ok tested pointer
s64 trial(const struct call *call)
{
	struct row *row = LOOK(&call->item);
	return row ? row->a : -NRBPF_ENOENT;
}

//: V14 five pointers
s64 trial(const struct call *call)
{
	struct row *p = LOOK(&call->item);
	if (!p)
		return -NRBPF_ENOENT;
	struct row *q = LOOK(&call->owner);
	if (!q)
		return -NRBPF_ENOENT;
	struct row *r = LOOK(&call->which);
	if (!r)
		return -NRBPF_ENOENT;
	struct row *s = LOOK(&call->left);
	if (!s)
		return -NRBPF_ENOENT;
	struct row *t = LOOK(&call->a);
	if (!t)
		return -NRBPF_ENOENT;
	return p->a + q->a + r->a + s->a + t->a;
}

//: ok five pointers, each marked as tested
s64 trial(const struct call *call)
{
	struct row *p = LOOK(&call->item);
	if (!p)
		return -NRBPF_ENOENT;
	NRBPF_TESTED(p);
	struct row *q = LOOK(&call->owner);
	if (!q)
		return -NRBPF_ENOENT;
	NRBPF_TESTED(q);
	struct row *r = LOOK(&call->which);
	if (!r)
		return -NRBPF_ENOENT;
	NRBPF_TESTED(r);
	struct row *s = LOOK(&call->left);
	if (!s)
		return -NRBPF_ENOENT;
	NRBPF_TESTED(s);
	struct row *t = LOOK(&call->a);
	if (!t)
		return -NRBPF_ENOENT;
	NRBPF_TESTED(t);
	return p->a + q->a + r->a + s->a + t->a;
}

//: V6, 14:ok test as a number
s64 trial(const struct call *call)
{
	struct row *v = LOOK(&call->item);
	u64 n = call->a;
	s64 error = v ? 0 : -NRBPF_ENOENT;
	n += v ? 5 : 9;
	if (error)
		return error + n;
	return v->a + n;
}

//: ok test as a test
s64 trial(const struct call *call)
{
	struct row *v = LOOK(&call->item);
	if (!v)
		return -NRBPF_ENOENT;
	NRBPF_TESTED(v);
	return v->a + call->a + 5;
}

//: V6 pointer kept over an update
s64 trial(const struct call *call)
{
	struct row *v = LOOK(&call->item);
	if (!v)
		return -NRBPF_ENOENT;
	nrbpf_map_update(NRBPF_MAP(0), &call->owner, v, NRBPF_ANY);
	return v->a;
}

//: ok value read before the update
s64 trial(const struct call *call)
{
	struct row *v = LOOK(&call->item);
	if (!v)
		return -NRBPF_ENOENT;
	u64 a = v->a;
	nrbpf_map_update(NRBPF_MAP(0), &call->owner, v, NRBPF_ANY);
	return a;
}

//: V6 chosen map
s64 trial(const struct call *call)
{
	return nrbpf_map_lookup(call->which ? NRBPF_MAP(0) : NRBPF_MAP(1), &call->item) != 0;
}

//: ok lookup in each branch
s64 trial(const struct call *call)
{
	if (call->which) {
		struct row *row = LOOK(&call->item);
		return row ? row->a : 0;
	}
	struct wide *row = WIDE(&call->item);
	return row ? row->at[2] : 0;
}

//: V8 chosen pointer
s64 trial(const struct call *call)
{
	struct row *row = LOOK(&call->item);
	if (!row)
		return -NRBPF_ENOENT;
	u64 *p = call->which ? &row->a : &row->b;
	*p += 1;
	return *p;
}

//: ok branch for each pointer
s64 trial(const struct call *call)
{
	struct row *row = LOOK(&call->item);
	if (!row)
		return -NRBPF_ENOENT;
	if (call->which)
		return row->a += 1;
	return row->b += 1;
}

//: V8 merged loads
s64 trial(const struct call *call)
{
	if (call->a > 7)
		return call->item;
	return call->left;
}

//: ok loads kept apart
s64 trial(const struct call *call)
{
	u64 a = call->item, d = call->left;
	NRBPF_APART();
	if (call->a > 7)
		return a;
	return d;
}

//: V8 variable index
s64 trial(const struct call *call)
{
	struct wide *row = WIDE(&call->item);
	return row ? row->at[call->which & 3] : 0;
}

//: ok choice among numbers
s64 trial(const struct call *call)
{
	struct wide *row = WIDE(&call->item);
	if (!row)
		return 0;
	u64 a = row->at[0];
	NRBPF_APART();
	u64 b = row->at[1];
	NRBPF_APART();
	u64 c = row->at[2];
	NRBPF_APART();
	u64 d = row->at[3];
	NRBPF_APART();
	u32 which = call->which & 3;
	return which == 0 ? a : which == 1 ? b : which == 2 ? c : d;
}

//: ok write at a variable index
s64 trial(const struct call *call)
{
	struct wide *row = WIDE(&call->item);
	if (!row)
		return 0;
#pragma unroll
	for (u32 k = 0; k < 4; k++) {
		if (call->which == k)
			row->at[k] += 1;
		NRBPF_APART();
	}
	return 0;
}

//: V8 compared pointers
s64 trial(const struct call *call)
{
	struct row *v = LOOK(&call->item), *w = LOOK(&call->owner);
	return v == w;
}

//: V2 loop with a variable bound
s64 trial(const struct call *call)
{
	u64 sum = 0;
	for (u32 k = 0; k < call->left; k++) {
		u32 key = k;
		struct row *row = LOOK(&key);
		if (row)
			sum += row->a;
	}
	return sum;
}

//: ok loop with a constant bound
s64 trial(const struct call *call)
{
	u64 sum = 0;
#pragma unroll
	for (u32 k = 0; k < 8; k++) {
		if (k == call->left)
			break;
		u32 key = k;
		struct row *row = LOOK(&key);
		if (row)
			sum += row->a;
	}
	return sum;
}

//: V5 key that is the loop's variable
s64 trial(const struct call *call)
{
	u64 sum = 0;
#pragma unroll
	for (u32 k = 0; k < 8; k++) {
		struct row *row = LOOK(&k);
		if (row)
			sum += row->a;
	}
	return sum;
}

//: ok, 14:V2 early exit with what was found
s64 trial(const struct call *call)
{
	u64 found = 8;
#pragma unroll
	for (u32 k = 0; k < 8; k++) {
		u32 key = k;
		struct row *row = LOOK(&key);
		if (row && row->a == call->owner) {
			found = k;
			break;
		}
	}
	return found;
}

//: ok no exit
s64 trial(const struct call *call)
{
	u64 found = 8;
#pragma unroll
	for (u32 k = 0; k < 8; k++) {
		u32 key = k;
		struct row *row = LOOK(&key);
		if (found == 8 && row && row->a == call->owner)
			found = k;
	}
	return found;
}

//: V6 exit from a loop over one row, with a write
s64 trial(const struct call *call)
{
	struct wide *row = WIDE(&call->item);
	if (!row)
		return 0;
#pragma unroll
	for (u32 k = 0; k < 4; k++)
		if (!row->at[k]) {
			row->at[k] = call->owner;
			return k;
		}
	return 4;
}

//: ok two loops over one row
s64 trial(const struct call *call)
{
	struct wide *row = WIDE(&call->item);
	if (!row)
		return 0;
	u64 found = 4;
#pragma unroll
	for (u32 k = 0; k < 4; k++)
		if (found == 4 && !row->at[k])
			found = k;
#pragma unroll
	for (u32 k = 0; k < 4; k++)
		if (k == found) {
			row->at[k] = call->owner;
			NRBPF_APART();
		}
	return found;
}

//: V11 struct with a hole
s64 trial(const struct call *call)
{
	struct {
		u64 a;
		u32 b;
	} row;
	row.a = call->a;
	row.b = call->item;
	return nrbpf_map_update(NRBPF_MAP(0), &call->item, &row, NRBPF_ANY);
}

//: ok struct with a hole, cleared
s64 trial(const struct call *call)
{
	struct {
		u64 a;
		u32 b;
	} row;
	__builtin_memset(&row, 0, sizeof row);
	row.a = call->a;
	row.b = call->item;
	return nrbpf_map_update(NRBPF_MAP(0), &call->item, &row, NRBPF_ANY);
}

//: ok, 14:V11 struct with a hole and an initializer
s64 trial(const struct call *call)
{
	struct {
		u64 a;
		u32 b;
	} row = {call->a, call->item};
	return nrbpf_map_update(NRBPF_MAP(0), &call->item, &row, NRBPF_ANY);
}

//: stops static table
static const u64 table[4] = {3, 1, 4, 1};
s64 trial(const struct call *call)
{
	return table[call->which & 3];
}

//: stops global variable
static u64 count;
s64 trial(const struct call *call)
{
	return count += call->a;
}

//: stops string as a key
s64 trial(const struct call *call)
{
	return LOOK("key") != 0;
}

//: ok local array as a key
s64 trial(const struct call *call)
{
	char key[4] = "key";
	return LOOK(&key) != 0;
}

//: ok, 14:stops array of constants
s64 trial(const struct call *call)
{
	u32 row[4] = {1, 2, 3, 4};
	return nrbpf_map_update(NRBPF_MAP(0), &call->item, &row, NRBPF_ANY);
}

//: ok constants assigned one by one
s64 trial(const struct call *call)
{
	u32 row[4];
	row[0] = 1;
	row[1] = 2;
	row[2] = 3;
	row[3] = 4;
	return nrbpf_map_update(NRBPF_MAP(0), &call->item, &row, NRBPF_ANY);
}

//: stops bit scan
s64 trial(const struct call *call)
{
	return __builtin_ctzll(call->a);
}

//: ok nrbpf_lowest
s64 trial(const struct call *call)
{
	return nrbpf_lowest(call->a);
}

//: ok, 14:stops leading zeros and the number of ones
s64 trial(const struct call *call)
{
	return call->a ? __builtin_clzll(call->a) + __builtin_popcountll(call->b) : 0;
}

//: D4 atomic addition
s64 trial(const struct call *call)
{
	struct row *row = LOOK(&call->item);
	return row ? __sync_fetch_and_add(&row->a, 1) : 0;
}

//: ok plain addition
s64 trial(const struct call *call)
{
	struct row *row = LOOK(&call->item);
	return row ? row->a += 1 : 0;
}

//: ok, 14:stops signed division
s64 trial(const struct call *call)
{
	return (s64)call->a / (s64)(call->b | 1);
}

//: V12 write to the argument
s64 trial(struct call *call)
{
	return call->item = 1;
}

//: V13 pointer in a value
s64 trial(const struct call *call)
{
	struct row *row = LOOK(&call->item), *other = LOOK(&call->owner);
	if (!row || !other)
		return 0;
	row->a = (u64)other;
	return 0;
}

//: V17 pointer as the reply
s64 trial(const struct call *call)
{
	return (u64)LOOK(&call->item);
}

//: stops float
s64 trial(const struct call *call)
{
	return (float)call->a * 1.5f;
}

//: V6 two parameters
s64 trial(const struct call *call, u64 more)
{
	return call->a + more;
}

//: stops call of a function
__attribute__((noinline)) static u64 twice(u64 x)
{
	__asm__ volatile("");
	return x + x;
}
s64 trial(const struct call *call)
{
	return twice(call->a);
}

//: ok inlined function
NRBPF_INLINE u64 twice(u64 x)
{
	return x + x;
}
s64 trial(const struct call *call)
{
	return twice(call->a);
}

//: stops memcmp
int memcmp(const void *, const void *, unsigned long);
s64 trial(const struct call *call)
{
	return memcmp(&call->item, &call->which, call->left);
}

//: stops memcpy of a variable length
s64 trial(const struct call *call)
{
	char room[32];
	__builtin_memcpy(room, call, call->left);
	return room[3];
}

//: stops int reply
int trial(const struct call *call)
{
	return call->item;
}

//: stops no reply
void trial(const struct call *call)
{
}

//: stops two functions in one section
__attribute__((section("ops"))) s64 other(const struct call *call)
{
	return call->a;
}
__attribute__((section("ops"))) s64 trial(const struct call *call)
{
	return call->b;
}

//: stops more than the stack
s64 trial(const struct call *call)
{
	char room[600];
	room[0] = call->item;
	__asm__ volatile("" : : "r"(room) : "memory");
	return room[0];
}

//: C1 name in capitals
s64 takeItem(const struct call *call)
{
	return call->a;
}

//: ok packed struct
struct __attribute__((packed)) packed {
	char first;
	u64 a;
};
s64 trial(const struct packed *call)
{
	return call->a;
}
