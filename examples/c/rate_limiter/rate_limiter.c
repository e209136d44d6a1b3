/* A limit for each user: a bucket holds some tokens, a call takes some out, and one comes back every so many units of time. */
#include "nrbpf_program.h"
#include "rate_limiter.h"

/* Map 0 has one value, the settings, whose period is 0 while nothing is set. Map 1 has a bucket for each user. */
struct bucket {
	u64 tokens;
	u64 filled; /* up to which time tokens were put in */
};

NRBPF_INLINE struct settings *settings(void)
{
	u32 only = 0;
	return nrbpf_map_lookup(NRBPF_MAP(0), &only);
}

/* The bucket as it is at this time. An earlier time than the last brings no token. */
NRBPF_INLINE struct bucket refilled(struct bucket bucket, u64 now, const struct settings *set)
{
	if (now > bucket.filled) {
		u64 more = (now - bucket.filled) / set->period;
		bucket.tokens += more < set->burst ? more : set->burst;
		bucket.filled = bucket.tokens < set->burst ? bucket.filled + more * set->period : now;
	}
	if (bucket.tokens > set->burst)
		bucket.tokens = set->burst;
	return bucket;
}

s64 configure(const struct settings *call)
{
	struct settings *set = settings();
	if (!set || call->burst == 0 || call->period == 0)
		return -NRBPF_EINVAL;
	*set = *call;
	return 0;
}

s64 take(const struct take *call)
{
	struct settings *set = settings();
	if (!set || set->period == 0)
		return -NRBPF_EINVAL;
	struct bucket full = {set->burst, call->now};
	struct bucket *kept = nrbpf_map_lookup(NRBPF_MAP(1), &call->user);
	struct bucket bucket = kept ? refilled(*kept, call->now, set) : full;
	u64 granted = call->tokens <= bucket.tokens;
	if (granted)
		bucket.tokens -= call->tokens;
	s64 error = nrbpf_map_update(NRBPF_MAP(1), &call->user, &bucket, NRBPF_ANY);
	return error ? error : granted;
}

s64 left(const struct left *call)
{
	struct settings *set = settings();
	if (!set || set->period == 0)
		return -NRBPF_EINVAL;
	struct bucket *kept = nrbpf_map_lookup(NRBPF_MAP(1), &call->user);
	if (!kept)
		return set->burst;
	return refilled(*kept, call->now, set).tokens;
}

s64 forget(const struct forget *call)
{
	return nrbpf_map_delete(NRBPF_MAP(1), &call->user);
}
