/* The arguments of the programs of session_data.c, and the value in which data is kept: for the programs, and for hosts that call them. */
#ifndef SESSION_DATA_H
#define SESSION_DATA_H

#include "session_cache.h"

/* Data has at most 2,048 bytes. A piece fills an argument, with its row and its number. */
enum { MOST_DATA = 2048, PIECE = 184, PIECES = 12 };

/* A value of maps 2 and 3. After `length` bytes there are zeros. */
struct session_data {
	uint64_t length;
	uint64_t words[PIECES * PIECE / 8]; /* the bytes, eight a word */
};

struct piece {
	uint32_t row;
	uint32_t number;                    /* from 0 */
	uint64_t words[PIECE / 8];          /* zeros after the data's end */
};

struct save {
	struct token token;
	uint64_t now;
	uint32_t row;
	uint32_t length;
};

/* The argument of `begin` is a struct start, of `end` a struct token, of `sweep` a struct who. */

#endif
