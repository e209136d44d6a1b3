/* The argument of `bid`, for the programs and for the service that calls them. */
#ifndef AUCTION_H
#define AUCTION_H

#include <stdint.h>

struct bid {
	uint64_t item;
	uint64_t bidder;
	uint64_t amount;
};

#endif
