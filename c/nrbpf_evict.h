/* Maps that make room: if one is full, a new key takes the place of the key that has waited longest. All in C, over a hash and an array: the order of the keys
   is in their values, so each replica evicts the same key, and a dump keeps the order. embed/limiter uses it. */
#ifndef NRBPF_EVICT_H
#define NRBPF_EVICT_H

#include "nrbpf_program.h"

/* What a value of such a map begins with. The keys stand in a queue. A key that is touched while it stands there is spared once: it goes to the end. */
#define NRBPF_LINKS(key_type) \
	struct { \
		key_type older;   /* the key before it, if it isn't the first */ \
		key_type younger; /* the key after it, or itself */ \
		u64 touched;      /* 1 if it is to be spared */ \
	}

/* The value of the array, which has one entry. */
#define NRBPF_ENDS(key_type) \
	struct { \
		key_type oldest;   /* the first and the last key, if there are any */ \
		key_type youngest; \
		u64 count;         /* how many keys there are */ \
		u64 most;          /* how many there may be; 0 until the map was full once. Put 0 there if a dump goes on with more entries */ \
	}

/* How many keys a new one may spare. It takes the place of the next, touched or not. */
#ifndef NRBPF_SPARED
#define NRBPF_SPARED 2
#endif

/* A program may do without some of these. */
#define NRBPF_MAYBE NRBPF_INLINE __attribute__((unused))

/* Map `map` is a hash. Its keys are of key_type: 4 or 8 bytes, or a struct of such (not with clang 14). Its values are of value_type: a struct whose first
   member is `NRBPF_LINKS(key_type) links`. Map `ends` is an array of one NRBPF_ENDS(key_type), all 0 at first. This makes the functions

       value_type *NAME_at(const key_type *key)                    the value of a key, or 0 if it is absent
       void NAME_touch(value_type *value)                          spares the key of a looked-up value, once
       s64 NAME_put(const key_type *key, value_type *value)        gives a key that is absent this value, and sets its links; 0
       s64 NAME_take(const key_type *key)                          removes a key; 0, or -NRBPF_ENOENT if it is absent

   NAME_put and NAME_take answer -NRBPF_EINVAL if a program has put or deleted a key of the map without them. After both, values that were looked up before
   are gone. */
#define NRBPF_EVICTING(name, map, ends, key_type, value_type) \
	typedef NRBPF_ENDS(key_type) name##_ends; \
\
	NRBPF_INLINE value_type *name##_at(const key_type *key) \
	{ \
		return nrbpf_map_lookup(NRBPF_MAP(map), key); \
	} \
\
	NRBPF_MAYBE u64 name##_is(const key_type *a, const key_type *b) \
	{ \
		u32 differ = 0; \
		_Pragma("unroll") for (u32 k = 0; k < sizeof(key_type) / 4; k++) \
			differ |= ((const u32 *)a)[k] ^ ((const u32 *)b)[k]; \
		return !differ; \
	} \
\
	NRBPF_MAYBE void name##_touch(value_type *value) \
	{ \
		value->links.touched = 1; \
	} \
\
	/* The first key goes to the end. */ \
	NRBPF_MAYBE s64 name##_spare(name##_ends *of, value_type *first) \
	{ \
		key_type key = of->oldest, next = first->links.younger; \
		value_type *last = name##_at(&of->youngest); \
		if (!last) \
			return -NRBPF_EINVAL; \
		NRBPF_TESTED(last); \
		last->links.younger = key; \
		first->links.older = of->youngest; \
		first->links.younger = key; \
		first->links.touched = 0; \
		of->oldest = next; \
		of->youngest = key; \
		return 0; \
	} \
\
	/* Removes the first key, after those that are spared. */ \
	NRBPF_MAYBE s64 name##_evict(name##_ends *of) \
	{ \
		_Pragma("unroll") for (u32 k = 0; k < NRBPF_SPARED; k++) { \
			value_type *first = name##_at(&of->oldest); \
			if (!first) \
				return -NRBPF_EINVAL; \
			NRBPF_TESTED(first); \
			if (first->links.touched && name##_spare(of, first)) \
				return -NRBPF_EINVAL; \
		} \
		key_type key = of->oldest; \
		value_type *first = name##_at(&key); \
		if (!first) \
			return -NRBPF_EINVAL; \
		NRBPF_TESTED(first); \
		of->oldest = first->links.younger; \
		of->count -= 1; \
		return nrbpf_map_delete(NRBPF_MAP(map), &key); \
	} \
\
	NRBPF_MAYBE s64 name##_put(const key_type *key, value_type *value) \
	{ \
		u32 only = 0; \
		name##_ends *of = nrbpf_map_lookup(NRBPF_MAP(ends), &only); \
		if (!of) \
			return -NRBPF_EINVAL; \
		NRBPF_TESTED(of); \
		s64 error = -NRBPF_E2BIG; \
		value->links.older = of->youngest; \
		value->links.younger = *key; \
		value->links.touched = 0; \
		if (of->most == 0 || of->count < of->most) \
			error = nrbpf_map_update(NRBPF_MAP(map), key, value, NRBPF_NOEXIST); \
		if (error == -NRBPF_E2BIG && of->count > 0) { \
			of->most = of->count; \
			error = name##_evict(of); \
			value->links.older = of->youngest; \
			if (!error) \
				error = nrbpf_map_update(NRBPF_MAP(map), key, value, NRBPF_NOEXIST); \
		} \
		if (error) \
			return error; \
		if (of->count > 0) { \
			value_type *last = name##_at(&of->youngest); \
			if (!last) \
				return -NRBPF_EINVAL; \
			NRBPF_TESTED(last); \
			last->links.younger = *key; \
		} else { \
			of->oldest = *key; \
		} \
		of->youngest = *key; \
		of->count += 1; \
		return 0; \
	} \
\
	NRBPF_MAYBE s64 name##_take(const key_type *key) \
	{ \
		u32 only = 0; \
		name##_ends *of = nrbpf_map_lookup(NRBPF_MAP(ends), &only); \
		if (!of) \
			return -NRBPF_EINVAL; \
		NRBPF_TESTED(of); \
		value_type *value = name##_at(key); \
		if (!value) \
			return -NRBPF_ENOENT; \
		NRBPF_TESTED(value); \
		key_type before = value->links.older, after = value->links.younger; \
		u64 is_first = name##_is(key, &of->oldest), is_last = name##_is(key, &of->youngest); \
		if (is_first) { \
			of->oldest = after; \
		} else { \
			value_type *older = name##_at(&before); \
			if (!older) \
				return -NRBPF_EINVAL; \
			NRBPF_TESTED(older); \
			if (is_last) \
				older->links.younger = before; \
			else \
				older->links.younger = after; \
		} \
		if (is_last) { \
			of->youngest = before; \
		} else { \
			value_type *younger = name##_at(&after); \
			if (!younger) \
				return -NRBPF_EINVAL; \
			NRBPF_TESTED(younger); \
			younger->links.older = before; \
		} \
		of->count -= 1; \
		return nrbpf_map_delete(NRBPF_MAP(map), key); \
	}

#endif
