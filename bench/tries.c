/* What a few tries are worth before a call that doesn't wait answers BUSY or POSTED. Threads poll sessions as event loops do, eight each, which go
   round the nodes; a session's call is asked again up to so many times where it is answered so, before the next session's turn comes. Prints how
   many calls a second all threads complete, in millions, and of how many calls a second turn was needed, of 100. All threads begin at once. It runs
   in the top folder. */

#include "../embed/hosts/fixture.h"
#include <pthread.h>
#include <time.h>

enum { ROUNDS = 5, EACH = 8, MOST_THREADS = 4, CALLS = 400000, KINDS = 4 };

static const int tries_of[KINDS] = {1, 2, 4, 16};

/* Threads, nodes, and how many of 100 calls are reads. */
struct load {
    int threads, nodes, reads;
};

struct poller {
    pthread_t thread;
    nrbpf_session *sessions[EACH];
    int is_posted[EACH]; /* whether the session's update is, which is gone on with */
    struct load load;
    int tries;
    long turns;
    double from, to;
};

static pthread_barrier_t start;

static double now(void) {
    struct timespec t;
    clock_gettime(CLOCK_MONOTONIC, &t);
    return (double)t.tv_sec * 1e9 + (double)t.tv_nsec;
}

static nrbpf_status ask(struct poller *mine, int session, long call) {
    key counted = key_of((uint32_t)call % 16);
    nrbpf_answer answer;
    if (mine->is_posted[session]) return nrbpf_poll(mine->sessions[session], &answer);
    return call % 100 < mine->load.reads ? nrbpf_try_read(mine->sessions[session], peek, &counted, sizeof counted, &answer)
                                         : nrbpf_try_update(mine->sessions[session], bump, &counted, sizeof counted, &answer);
}

/* A session's turn. Whether its call is answered. */
static int turn(struct poller *mine, int session, long call) {
    for (int i = 0; i < mine->tries; i++) {
        nrbpf_status told = ask(mine, session, call);
        mine->is_posted[session] = told == NRBPF_POSTED;
        if (told == NRBPF_BUSY || told == NRBPF_POSTED) continue;
        EXPECT_STATUS(told, NRBPF_OK);
        return 1;
    }
    return 0;
}

static void *poll(void *of) {
    struct poller *mine = of;
    long made[EACH] = {0}, most = CALLS / mine->load.threads / EACH;
    long turns = 0; /* not in *mine, whose cache line another thread may have */
    pthread_barrier_wait(&start);
    mine->from = now();
    for (int left = EACH; left > 0;)
        for (int i = 0; i < EACH; i++) {
            if (made[i] == most) continue;
            turns++;
            made[i] += turn(mine, i, made[i]);
            left -= made[i] == most;
        }
    mine->to = now();
    mine->turns = turns;
    return NULL;
}

/* One round: how long it takes, in nanoseconds, and how many turns all calls take. */
static double round_of(struct load load, int tries, long *turns) {
    struct poller all[MOST_THREADS];
    int sessions = load.threads * EACH;
    nrbpf_config config = NRBPF_CONFIG((uint32_t)load.nodes, (uint32_t)(sessions / load.nodes));
    nrbpf_store *store = opened(&config);
    EXPECT(pthread_barrier_init(&start, NULL, (unsigned)load.threads) == 0);
    for (int t = 0; t < load.threads; t++) {
        all[t] = (struct poller){.load = load, .tries = tries};
        for (int i = 0; i < EACH; i++) EXPECT_STATUS(nrbpf_attach(store, (uint32_t)(t % load.nodes), &all[t].sessions[i]), NRBPF_OK);
    }
    for (int t = 0; t < load.threads; t++) EXPECT(pthread_create(&all[t].thread, NULL, poll, &all[t]) == 0);
    for (int t = 0; t < load.threads; t++) EXPECT(pthread_join(all[t].thread, NULL) == 0);
    pthread_barrier_destroy(&start);
    double from = all[0].from, to = all[0].to;
    *turns = 0;
    for (int t = 0; t < load.threads; t++) {
        from = all[t].from < from ? all[t].from : from;
        to = all[t].to > to ? all[t].to : to;
        *turns += all[t].turns;
        for (int i = 0; i < EACH; i++) EXPECT_STATUS(nrbpf_detach(all[t].sessions[i]), NRBPF_OK);
    }
    EXPECT_STATUS(nrbpf_close(store), NRBPF_OK);
    return to - from;
}

int main(void) {
    const struct load loads[] = {{1, 1, 0}, {2, 1, 0}, {2, 2, 0}, {4, 2, 0}, {2, 1, 90}, {2, 2, 90}, {4, 2, 90}};
    printf("Millions of calls a second, the best of %d rounds, and how many of 100 calls took a further turn\n%-8s%-8s%-8s", ROUNDS, "threads", "nodes",
           "reads");
    for (int k = 0; k < KINDS; k++) printf("%10d tries", tries_of[k]);
    printf("\n");
    for (size_t l = 0; l < sizeof loads / sizeof *loads; l++) {
        double best[KINDS] = {0};
        double further[KINDS] = {0};
        for (int round = 0; round < ROUNDS; round++)
            for (int k = 0; k < KINDS; k++) {
                long turns;
                double rate = CALLS / round_of(loads[l], tries_of[k], &turns) * 1e3;
                if (rate > best[k]) best[k] = rate, further[k] = 100.0 * (double)(turns - CALLS) / CALLS;
            }
        printf("%-8d%-8d%-8d", loads[l].threads, loads[l].nodes, loads[l].reads);
        for (int k = 0; k < KINDS; k++) printf("%9.2f (%3.0f)", best[k], further[k]);
        printf("\n");
        fflush(stdout);
    }
    return 0;
}
