/* Sessions that keep data, up to 2,048 bytes each: more than an argument has. A host writes the pieces of its data into a row that nobody else
   writes meanwhile, and then saves that row, all by one list of updates. The programs of session_cache.c are here too, of the same bytes. */
#include "nrbpf_program.h"
#include "session_data.h"

/* A program can't call another one. These are parts of others too. */
__attribute__((always_inline)) s64 start(const struct start *call);
__attribute__((always_inline)) s64 finish(const struct token *token);
__attribute__((always_inline)) s64 end(const struct token *token);

#include "session_cache.c"

/* A place in a value is a constant, so each number has a copy of its own. */
s64 piece(const struct piece *call)
{
	u32 number = call->number;
	struct session_data *row = nrbpf_map_lookup(NRBPF_MAP(2), &call->row);
	if (!row || number >= PIECES)
		return -NRBPF_EINVAL;
#pragma unroll
	for (u32 k = 0; k < PIECES; k++) {
		if (number == k)
			__builtin_memcpy(&row->words[k * PIECE / 8], call->words, PIECE);
		NRBPF_APART();
	}
	return 0;
}

/* Pieces that the data doesn't reach become zeros: they may have data of another session. */
s64 save(const struct save *call)
{
	u32 length = call->length;
	struct session_data *row = nrbpf_map_lookup(NRBPF_MAP(2), &call->row);
	if (!row || length > MOST_DATA)
		return -NRBPF_EINVAL;
	const struct session *session = nrbpf_map_lookup(NRBPF_MAP(0), &call->token);
	if (!session || call->now >= session->end)
		return -NRBPF_ENOENT;
	row->length = length;
#pragma unroll
	for (u32 k = 0; k < PIECES; k++) {
		if (length <= k * PIECE)
			__builtin_memset(&row->words[k * PIECE / 8], 0, PIECE);
		NRBPF_APART();
	}
	return nrbpf_map_update(NRBPF_MAP(3), &call->token, row, NRBPF_ANY);
}

/* As `start`. A new session has no data of an earlier one. */
s64 begin(const struct start *call)
{
	const struct session *old = nrbpf_map_lookup(NRBPF_MAP(0), &call->token);
	if (!old || call->now >= old->end)
		nrbpf_map_delete(NRBPF_MAP(3), &call->token);
	return start(call);
}

/* As `finish`, and the data is gone. */
s64 end(const struct token *token)
{
	nrbpf_map_delete(NRBPF_MAP(3), token);
	return finish(token);
}

/* Takes away a session that is over. Answers whether there was one. */
s64 sweep(const struct who *call)
{
	const struct session *session = nrbpf_map_lookup(NRBPF_MAP(0), &call->token);
	return session && call->now >= session->end && end(&call->token) == 0;
}
