/* The arguments of the session cache's programs: for the programs, and for hosts that call them. `sessions` has none. */
#ifndef SESSION_CACHE_H
#define SESSION_CACHE_H

#include <stdint.h>

/* Of `finish`, and a part of the others. */
struct token {
	uint64_t low, high;
};

struct start {
	struct token token;
	uint64_t user;
	uint64_t now;
	uint64_t lifetime;
};

struct who {
	struct token token;
	uint64_t now;
};

struct extend {
	struct token token;
	uint64_t now;
	uint64_t lifetime;
};

#endif
