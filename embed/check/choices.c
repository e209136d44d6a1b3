// choices.c: how a run comes about, what it says if it fails, and memory that may be refused.
#include "check.h"
#include <stdarg.h>
#include <stdlib.h>
#include <string.h>

// ---- Choices

// A run takes the choices of `path`, and then zeros. The next run takes another one where the last one can be another.
enum { MOST_CHOICES = 20000 };
static unsigned path[MOST_CHOICES], widths[MOST_CHOICES], length, taken;
static uint64_t random_state;                   // not 0 if choices are random
unsigned long runs, host_calls;

void choose_exhaustively(void) {
    length = 0;
    random_state = 0;
}

void choose_by(uint64_t seed) {
    random_state = seed * 0x9e3779b97f4a7c15u | 1;
}

static unsigned choose_randomly(unsigned count) {
    random_state ^= random_state << 13;
    random_state ^= random_state >> 7;
    random_state ^= random_state << 17;
    return (unsigned)((random_state >> 11) % count);
}

unsigned choose(unsigned count) {
    if (count <= 1) return 0;
    if (random_state) return choose_randomly(count);
    if (taken == length) {
        NEED(length < MOST_CHOICES, "too many choices");
        path[length] = 0;
        widths[length++] = count;
    }
    NEED(widths[taken] == count, "a run is not repeated: %u choices, and then %u", widths[taken], count);
    return path[taken++];
}

int has_next_run(void) {
    while (length > 0 && path[length - 1] + 1 == widths[length - 1]) length--;
    if (length == 0) return 0;
    path[length - 1]++;
    return 1;
}

// ---- What a run did

enum { MOST_SAID = 3000 };
static char trace[1 << 16];
static size_t traced;

void begin_run(void) {
    runs++;
    taken = 0;
    traced = 0;
    trace[0] = 0;
}

void note(const char *format, ...) {
    va_list words;
    va_start(words, format);
    host_calls++;
    if (traced > sizeof trace - 200) traced = 0;
    traced += (size_t)vsnprintf(trace + traced, 150, format, words);
    trace[traced++] = '\n';
    trace[traced] = 0;
    va_end(words);
}

void fail(const char *format, ...) {
    va_list words;
    va_start(words, format);
    fprintf(stderr, "check: ");
    vfprintf(stderr, format, words);
    fprintf(stderr, "\nthe last calls of run %lu:\n%s", runs, traced > MOST_SAID ? trace + traced - MOST_SAID : trace);
    exit(1);
}

// ---- Memory: one block of a run may be refused

int held, may_refuse;

static int is_refused(void) {
    if (!may_refuse || !choose(2)) return 0;
    may_refuse = 0;
    return 1;
}

static void *counted(void *block) {
    held++;
    return block;
}

void *check_malloc(size_t size) {
    return is_refused() ? NULL : counted(malloc(size));
}

void *check_calloc(size_t count, size_t size) {
    return is_refused() ? NULL : counted(calloc(count, size));
}

void *check_aligned_alloc(size_t alignment, size_t size) {
    return is_refused() ? NULL : counted(aligned_alloc(alignment, size));
}

void check_free(void *block) {
    held -= block != NULL;
    free(block);
}

// (a lock that can't be made is no memory either)
int check_init(pthread_mutex_t *mutex, const pthread_mutexattr_t *none) {
    (void)none;
    memset(mutex, 0, sizeof *mutex);
    return is_refused();
}
