/* Programs over a map that makes room, for tests/c/evicting. KEY is the type of its keys. */
#include "nrbpf_evict.h"

struct pair {
	u64 low, high;
};

struct value {
	NRBPF_LINKS(KEY) links;
	u64 uses;
};

NRBPF_EVICTING(values, 0, 1, KEY, struct value)

/* Answers how often the key was used since it came into the map. */
s64 use(const KEY *key)
{
	struct value *value = values_at(key);
	if (value) {
		values_touch(value);
		value->uses += 1;
		return value->uses;
	}
	struct value fresh = {.uses = 1};
	s64 error = values_put(key, &fresh);
	return error ? error : 1;
}

s64 drop(const KEY *key)
{
	return values_take(key);
}

s64 uses(const KEY *key)
{
	const struct value *value = values_at(key);
	return value ? value->uses : 0;
}
