/* What a warehouse has of each item, and how much of that is promised to somebody. */
#include "inventory.h"
#include "nrbpf_program.h"

/* Map 0 has one for each item. What is free is what is there less what is promised. */
struct stock {
	u64 there;
	u64 promised;
};

/* More of an item has come; answers what is there. */
s64 receive(const struct some *call)
{
	struct stock first = {call->count, 0};
	struct stock *stock = nrbpf_map_lookup(NRBPF_MAP(0), &call->item);
	if (stock) {
		stock->there += call->count;
		return stock->there;
	}
	s64 error = nrbpf_map_update(NRBPF_MAP(0), &call->item, &first, NRBPF_NOEXIST);
	return error ? error : call->count;
}

/* Promises some of an item; answers what is free then. */
s64 reserve(const struct some *call)
{
	struct stock *stock = nrbpf_map_lookup(NRBPF_MAP(0), &call->item);
	if (!stock)
		return -NRBPF_ENOENT;
	u64 open = stock->there - stock->promised;
	if (open < call->count)
		return INVENTORY_NOT_ENOUGH;
	stock->promised += call->count;
	return open - call->count;
}

/* Promises some of two items, or of neither. */
s64 reserve_both(const struct both *call)
{
	if (call->one.item == call->other.item)
		return -NRBPF_EINVAL;
	struct stock *one = nrbpf_map_lookup(NRBPF_MAP(0), &call->one.item);
	struct stock *other = nrbpf_map_lookup(NRBPF_MAP(0), &call->other.item);
	if (!one || !other)
		return -NRBPF_ENOENT;
	if (one->there - one->promised < call->one.count || other->there - other->promised < call->other.count)
		return INVENTORY_NOT_ENOUGH;
	one->promised += call->one.count;
	other->promised += call->other.count;
	return 0;
}

/* Some of what was promised goes out; answers what is there then. */
s64 ship(const struct some *call)
{
	struct stock *stock = nrbpf_map_lookup(NRBPF_MAP(0), &call->item);
	if (!stock)
		return -NRBPF_ENOENT;
	if (stock->promised < call->count)
		return INVENTORY_NOT_ENOUGH;
	stock->promised -= call->count;
	stock->there -= call->count;
	return stock->there;
}

/* What is free of an item. */
s64 available(const struct available *call)
{
	const struct stock *stock = nrbpf_map_lookup(NRBPF_MAP(0), &call->item);
	if (!stock)
		return -NRBPF_ENOENT;
	return stock->there - stock->promised;
}
