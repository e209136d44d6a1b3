/* The arguments of the rate limiter's programs: for the programs, and for hosts that call them (embed/limiter). */
#ifndef RATE_LIMITER_H
#define RATE_LIMITER_H

#include <stdint.h>

/* Of `configure`. */
struct settings {
	uint32_t burst;  /* how many tokens a bucket holds */
	uint32_t period; /* how long a token takes to come back */
};

struct take {
	uint64_t user;
	uint64_t now;
	uint64_t tokens;
};

struct left {
	uint64_t user;
	uint64_t now;
};

struct forget {
	uint64_t user;
};

#endif
