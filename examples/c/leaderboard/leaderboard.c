/* The five players with the best scores, each with the best that he had. */
#include "leaderboard.h"
#include "nrbpf_program.h"

/* Map 0 has one board. The best stand first; a place that nobody has has the score 0. */
struct board {
	struct place places[LEADERBOARD_PLACES];
};

NRBPF_INLINE struct board *board(void)
{
	u32 only = 0;
	return nrbpf_map_lookup(NRBPF_MAP(0), &only);
}

/* Answers the place that the player has then, from 1, or 0 for none. */
s64 submit(const struct place *call)
{
	struct board *best = board();
	struct place moved = *call;
	s64 place = 0;
	if (!best || moved.player == 0)
		return -NRBPF_EINVAL;
#pragma unroll
	for (int k = 0; k < LEADERBOARD_PLACES; k++) {
		struct place old = best->places[k];
		if (place == 0 && old.player == call->player && old.score >= call->score)
			return k + 1;
		if (moved.score > old.score) {
			best->places[k] = moved;
			if (place == 0)
				place = k + 1;
			if (old.player == call->player)
				return place;
			moved = old;
		}
	}
	return place;
}

/* The place that a player has, from 1, or 0 for none. */
s64 place_of(const struct place_of *call)
{
	const struct board *best = board();
	if (!best || call->player == 0)
		return -NRBPF_EINVAL;
#pragma unroll
	for (int k = 0; k < LEADERBOARD_PLACES; k++)
		if (best->places[k].player == call->player)
			return k + 1;
	return 0;
}

/* The score at a place, from 1. All are read: of a place that is counted out clang would make one read at a distance, which is V8. */
s64 score_at(const struct score_at *call)
{
	const struct board *best = board();
	if (!best || call->place == 0 || call->place > LEADERBOARD_PLACES)
		return -NRBPF_ENOENT;
	u64 score = 0;
#pragma unroll
	for (int k = 0; k < LEADERBOARD_PLACES; k++) {
		u64 here = best->places[k].score;
		NRBPF_APART();
		if (call->place == k + 1)
			score = here;
	}
	return score;
}

/* Nobody has a place any more. */
s64 clear(void)
{
	struct board *best = board();
	if (!best)
		return -NRBPF_EINVAL;
	*best = (struct board){};
	return 0;
}
