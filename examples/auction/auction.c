/* Bids for items: the highest is kept, with its bidder. */
#include "auction.h"
#include "nrbpf_program.h"

/* Map 0 has one for each item. */
struct best {
	u64 amount;
	u64 bidder;
};

/* Answers 1 if this is the highest bid so far, else 0, and an error if there is no room for another item. */
s64 bid(const struct bid *call)
{
	struct best this = {call->amount, call->bidder};
	struct best *best = nrbpf_map_lookup(NRBPF_MAP(0), &call->item);
	if (!best) {
		s64 error = nrbpf_map_update(NRBPF_MAP(0), &call->item, &this, NRBPF_NOEXIST);
		return error ? error : 1;
	}
	if (this.amount <= best->amount)
		return 0;
	*best = this;
	return 1;
}

/* Answers the highest bid for an item, or an error. */
s64 highest(const u64 *item)
{
	const struct best *best = nrbpf_map_lookup(NRBPF_MAP(0), item);
	if (!best)
		return -NRBPF_ENOENT;
	return best->amount;
}
