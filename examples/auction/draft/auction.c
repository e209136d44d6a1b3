#include "../auction.h"
#include "nrbpf_program.h"

/* Map 0 has one for each item. */
struct best {
	u64 amount;
	u64 bidder;
};

/* Answers 1 if this is the highest bid so far, else 0. */
s64 bid(const struct bid *call)
{
	struct best this = {call->amount, call->bidder};
	struct best *best = nrbpf_map_lookup(NRBPF_MAP(0), &call->item);
	if (this.amount <= best->amount)
		return 0;
	*best = this;
	return 1;
}
