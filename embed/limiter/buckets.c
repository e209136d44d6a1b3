/* The limiter's own operations: `take` and `left` of examples/c/rate_limiter over a map that makes room. If it is full, a new user's bucket takes the place of
   the one that has waited longest and that nobody took from meanwhile. A user whose bucket is gone has a full one.

       c/c2hex embed/limiter/buckets.c -I examples/c/rate_limiter */
#include "nrbpf_evict.h"
#include "rate_limiter.h"

struct bucket {
	NRBPF_LINKS(u64) links;
	u64 tokens;
	u64 filled; /* up to which time tokens were put in */
};

NRBPF_EVICTING(buckets, 1, 2, u64, struct bucket)

NRBPF_INLINE struct settings *settings(void)
{
	u32 only = 0;
	return nrbpf_map_lookup(NRBPF_MAP(0), &only);
}

/* How many tokens have come back since the bucket was filled. */
NRBPF_INLINE u64 back_at(const struct bucket *bucket, u64 now, const struct settings *set)
{
	return now > bucket->filled ? (now - bucket->filled) / set->period : 0;
}

s64 take(const struct take *call)
{
	struct settings *set = settings();
	if (!set || set->period == 0)
		return -NRBPF_EINVAL;
	struct bucket *kept = buckets_at(&call->user);
	if (!kept) {
		u64 granted = call->tokens <= set->burst;
		struct bucket fresh = {.tokens = set->burst - (granted ? call->tokens : 0), .filled = call->now};
		s64 error = buckets_put(&call->user, &fresh);
		return error ? error : granted;
	}
	u64 back = back_at(kept, call->now, set);
	u64 tokens = kept->tokens + (back < set->burst ? back : set->burst);
	if (tokens < set->burst) {
		kept->filled += back * set->period;
	} else {
		tokens = set->burst;
		if (call->now > kept->filled)
			kept->filled = call->now;
	}
	u64 granted = call->tokens <= tokens;
	kept->tokens = granted ? tokens - call->tokens : tokens;
	buckets_touch(kept);
	return granted;
}

s64 left(const struct left *call)
{
	struct settings *set = settings();
	if (!set || set->period == 0)
		return -NRBPF_EINVAL;
	const struct bucket *kept = buckets_at(&call->user);
	if (!kept)
		return set->burst;
	u64 back = back_at(kept, call->now, set);
	u64 tokens = kept->tokens + (back < set->burst ? back : set->burst);
	return tokens < set->burst ? tokens : set->burst;
}
