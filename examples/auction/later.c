/* An operation that comes while the store runs. */
#include "nrbpf_program.h"

/* As auction.c has it. */
struct best {
	u64 amount;
	u64 bidder;
};

/* Answers who made the highest bid for an item, or an error. */
s64 winner(const u64 *item)
{
	const struct best *best = nrbpf_map_lookup(NRBPF_MAP(0), item);
	if (!best)
		return -NRBPF_ENOENT;
	return best->bidder;
}
