// threads.c: threads that run one at a time, so that a run is repeated by its choices. Each has a stack of its own, and none is the system's.
#include "check.h"
#include <string.h>
#include <ucontext.h>

enum { STACK = 1 << 18, NOBODY = -1 };

static struct thread {
    ucontext_t context;
    char stack[STACK];
    struct last last;
    int has_ended;
    const void *wants, *has;                    // the lock that it waits for, and the one that it has
} threads[MOST_THREADS];
static ucontext_t caller;
static void (*const *bodies)(void);
static int count, switches_left, self = NOBODY;
unsigned long yields;

static int can_go_on(int at) {
    if (threads[at].has_ended) return 0;
    for (int other = 0; threads[at].wants && other < count; other++) {
        if (threads[other].has == threads[at].wants) return 0;
    }
    return 1;
}

static int is_other_ready(void) {
    for (int at = 0; at < count; at++) {
        if (at != self && can_go_on(at)) return 1;
    }
    return 0;
}

static void hand_to(int at) {
    const int me = self;
    threads[me].last = last;
    self = at;
    last = threads[at].last;
    swapcontext(&threads[me].context, &threads[at].context);
}

// Lets one that is chosen go on, this one too if `or_self`.
static void let_go_on(int or_self) {
    int ready[MOST_THREADS], of = 0;
    if (or_self) ready[of++] = self;
    for (int at = 0; at < count; at++) {
        if (at != self && can_go_on(at)) ready[of++] = at;
    }
    NEED(of > 0, "no thread can go on");
    const int to = ready[choose((unsigned)of)];
    if (to != self) {
        switches_left -= or_self;
        hand_to(to);
    }
}

void step(void) {
    if (self != NOBODY && switches_left > 0) let_go_on(1);
}

int check_yield(void) {
    yields++;
    if (self != NOBODY && is_other_ready()) let_go_on(0);
    return 0;
}

int check_lock(pthread_mutex_t *mutex) {
    step();
    if (self == NOBODY) return 0;
    NEED(!threads[self].has, "a second lock");
    threads[self].wants = mutex;
    while (!can_go_on(self)) let_go_on(0);
    threads[self].wants = NULL;
    threads[self].has = mutex;
    *(volatile char *)mutex = 1;                // (for AddressSanitizer: the memory must be there)
    return 0;
}

int check_unlock(pthread_mutex_t *mutex) {
    if (self != NOBODY) {
        NEED(threads[self].has == mutex, "unlocked by another");
        *(volatile char *)mutex = 0;
        threads[self].has = NULL;
    }
    step();
    return 0;
}

int check_destroy(pthread_mutex_t *mutex) {
    for (int at = 0; at < count; at++) NEED(threads[at].has != mutex && threads[at].wants != mutex, "a lock in use is ended");
    return 0;
}

static void run_body(void) {
    bodies[self]();
    threads[self].has_ended = 1;
    for (int at = 0; at < count; at++) {
        if (!threads[at].has_ended) let_go_on(0);
    }
    self = NOBODY;
    setcontext(&caller);
}

void run_at_once(void (*const *them)(void), int switches) {
    bodies = them;
    for (count = 0; count < MOST_THREADS && bodies[count]; count++) {
        struct thread *const it = &threads[count];
        it->has_ended = 0;
        it->wants = it->has = NULL;
        getcontext(&it->context);
        it->context.uc_stack.ss_sp = it->stack;
        it->context.uc_stack.ss_size = STACK;
        it->context.uc_link = NULL;
        makecontext(&it->context, run_body, 0);
    }
    host_calls += (unsigned long)count;
    switches_left = switches;
    self = (int)choose((unsigned)count);
    swapcontext(&caller, &threads[self].context);
    count = switches_left = 0;
}
