// check.h: what the files of this check share. A run makes calls of nrbpf.h on a stand-in for the proved library, and compares what both answer.
#ifndef CHECK_H
#define CHECK_H

#include "nrbpf.h"
#include "nrbpf_raw.h"
#include <pthread.h>
#include <stddef.h>
#include <stdint.h>
#include <stdio.h>

// ---- choices.c

// A number below `count`: in an exhaustive check each of them, in one run after another; in a random check any.
unsigned choose(unsigned count);
void choose_exhaustively(void);
void choose_by(uint64_t seed);
// Begins a run, and says whether there is one more to be done.
void begin_run(void);
int has_next_run(void);
extern unsigned long runs, host_calls;

// Notes a call of the host for the text of a failure.
void note(const char *format, ...) __attribute__((format(printf, 1, 2)));
void fail(const char *format, ...) __attribute__((noreturn, format(printf, 1, 2)));
#define NEED(holds, ...)                 \
    do {                                 \
        if (!(holds)) fail(__VA_ARGS__); \
    } while (0)
#define EXPECT(told, wanted, ...)                                                             \
    do {                                                                                      \
        const unsigned long long told_ = (told), wanted_ = (wanted);                          \
        if (told_ != wanted_) {                                                               \
            fprintf(stderr, "check: got %llx instead of %llx\n", told_, wanted_);             \
            fail(__VA_ARGS__);                                                                \
        }                                                                                     \
    } while (0)

// How many blocks of memory the C has, and whether one more may be refused to it.
extern int held, may_refuse;

// ---- threads.c

enum { MOST_THREADS = 3 };

// Runs these at once: one at a time, and another one in between at most `switches` times, besides where one waits.
void run_at_once(void (*const *bodies)(void), int switches);
// Another thread may go on here.
void step(void);
// How often a call let other threads run.
extern unsigned long yields;

// ---- contract.c

// What the stand-in was lent and answered, in the last call of this thread.
struct last {
    unsigned calls;                             // how often nrbpf_raw_call, nrbpf_raw_update_each, nrbpf_raw_get and the like were called
    unsigned busy;                              // how often BUSY is answered before anything else
    unsigned waits;                             // how often BUSY or AGAIN may still be answered after that
    uint64_t status, inner, slot, line, point, reply, count, next;
    const uint8_t *bytes;                       // what the host lent: it must arrive as it is
    size_t length;
    uint64_t call, program, mode, argument, maps, map, from; // and the words
    const struct nrbpf_raw_opening *opening;    // and what it opens or loads
    uint64_t limit;                             // what the stand-in said of a store
    unsigned full;                              // of a list: which outcomes are S4: none, the first, all
};
extern struct last last;
// Whether no opening is refused.
extern int is_willing;
// How many blocks of memory the stand-in has, and how often a call has come to it.
extern int blocks;
extern unsigned long entries;

enum { FILLED = 0x100 };                        // word k of what a map, a program or a store is has this and k
// Writes bytes that differ from their neighbours: byte k of a row is first + (from + k) % 251. The rows are the text of a dump, from 0, and what a scan gives.
enum { KEYS = 1, VALUES = 2 };
void number(uint8_t *out, uint8_t first, size_t from, size_t count);

// ---- host.c

extern nrbpf_store *store;
extern const nrbpf_config sizes;

// Says that a call follows, which may wait so often.
void ready(unsigned waits);
void lend(const void *bytes, size_t length);
// Opens a store, by this beginning or if it is below 0 by any, makes so many calls, and ends all.
void run_calls(unsigned count, int beginning);

// ---- openings.c

// Says that a call opens or loads this. Not more than 2 files.
void ask_to_open(const nrbpf_config *config, const char *manifest, size_t length, const nrbpf_file *files, size_t count);
// Opens and loads with each configuration, header and text of a list, and a store of 8 nodes with 16 sessions.
void run_openings(void);

// ---- nulls.c

// Makes each call with each null pointer, and asks for each text.
void run_nulls(void);

#endif
