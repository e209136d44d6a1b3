/* What each host of this folder has to be: a way to have a store with operations. rounds.c makes the calls and times them. */
#ifndef ROUNDS_H
#define ROUNDS_H

#include <stdint.h>
#include <stdio.h>
#include <stdlib.h>

enum { MOST_THREADS = 4, MOST_IN_FLIGHT = 100, MOST_VALUES = 3 };

/* The rate limiter of every rival: a bucket of 10 tokens, of which one comes back every 50 units of time. */
enum { BURST = 10, PERIOD = 50 };

enum { UPDATE, READ, OPERATIONS };

/* One of the three services, with its operations by name. */
struct service {
    const char *name;
    const char *manifest;
    const char *operations[OPERATIONS];
    int values[OPERATIONS];             /* of an argument, 64 bits each */
    int bytes[OPERATIONS];              /* of an argument as nrbpf has it */
};

/* A call of the update or of the read, with its argument. */
struct call {
    int operation;
    uint64_t values[MOST_VALUES];
};

/* The host's: opens the store of the service for so many threads, each of which has at most so many calls in flight. */
void rival_open(const struct service *service, int threads, int in_flight);

/* The host's: makes these calls of one thread, 1 to MOST_IN_FLIGHT, and takes their replies. Threads call it side by side. */
void rival_make(int thread, const struct call *calls, int count, int64_t *replies);

/* The host's: ends the store. */
void rival_close(void);

/* The host's: tries an operation with this fault beside calls that have none, and prints a line on what came of it. */
void rival_fault(const char *fault);

static inline _Noreturn void fail(const char *what) {
    fprintf(stderr, "rivals: %s\n", what);
    exit(1);
}

double now(void);                       /* in nanoseconds */
char *text_of(const char *path);        /* a file with a zero behind it */

#endif
