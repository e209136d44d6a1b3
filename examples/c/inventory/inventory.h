/* The arguments and replies of the inventory's programs: for the programs, and for hosts that call them. */
#ifndef INVENTORY_H
#define INVENTORY_H

#include <stdint.h>

/* Of `receive`, `reserve` and `ship`. */
struct some {
	uint32_t item;
	uint32_t count;
};

/* Of `reserve_both`. */
struct both {
	struct some one, other;
};

/* Of `available`. */
struct available {
	uint32_t item;
};

/* The reply of `reserve`, `reserve_both` and `ship` if there is not enough. */
#define INVENTORY_NOT_ENOUGH -1

#endif
