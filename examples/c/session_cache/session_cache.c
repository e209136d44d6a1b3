/* Who is logged in: a session has a token of 16 bytes, belongs to a user, and lasts until some time. */
#include "nrbpf_program.h"
#include "session_cache.h"

/* Map 0 has one for each token. */
struct session {
	u64 user;
	u64 end; /* from this time on it is over */
};

/* Map 1 has one value: how many sessions are kept, those that are over too. */
NRBPF_INLINE u64 *kept(void)
{
	u32 only = 0;
	return nrbpf_map_lookup(NRBPF_MAP(1), &only);
}

/* A token that is in use is refused; one of a session that is over is taken again. */
s64 start(const struct start *call)
{
	struct session session = {call->user, call->now + call->lifetime};
	struct session *old = nrbpf_map_lookup(NRBPF_MAP(0), &call->token);
	if (old && call->now < old->end)
		return -NRBPF_EEXIST;
	if (old) {
		*old = session;
		return 0;
	}
	s64 error = nrbpf_map_update(NRBPF_MAP(0), &call->token, &session, NRBPF_NOEXIST);
	u64 *count = kept();
	if (count && !error)
		*count += 1;
	return error;
}

/* The user of a session that isn't over. */
s64 who(const struct who *call)
{
	const struct session *session = nrbpf_map_lookup(NRBPF_MAP(0), &call->token);
	if (!session || call->now >= session->end)
		return -NRBPF_ENOENT;
	return session->user;
}

/* Answers the time at which the session will be over. An end isn't moved to an earlier time. */
s64 extend(const struct extend *call)
{
	struct session *session = nrbpf_map_lookup(NRBPF_MAP(0), &call->token);
	if (!session || call->now >= session->end)
		return -NRBPF_ENOENT;
	u64 end = call->now + call->lifetime;
	if (session->end < end)
		session->end = end;
	return session->end;
}

s64 finish(const struct token *token)
{
	s64 error = nrbpf_map_delete(NRBPF_MAP(0), token);
	u64 *count = kept();
	if (count && !error)
		*count -= 1;
	return error;
}

s64 sessions(void)
{
	const u64 *count = kept();
	return count ? *count : 0;
}
