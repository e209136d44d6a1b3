/* The arguments of the leaderboard's programs: for the programs, and for hosts that call them. `clear` has none. */
#ifndef LEADERBOARD_H
#define LEADERBOARD_H

#include <stdint.h>

#define LEADERBOARD_PLACES 5

/* Of `submit`. The board keeps such places too. */
struct place {
	uint64_t player; /* 0 is nobody */
	uint64_t score;
};

struct place_of {
	uint64_t player;
};

struct score_at {
	uint64_t place; /* from 1 */
};

#endif
