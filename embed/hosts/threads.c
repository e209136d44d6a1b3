// threads.c: eight threads on two nodes count together. Each update has an index of its own, each read sees all that came before it, and the
// sum is right.
#include "fixture.h"
#include <pthread.h>

enum { NODES = 2, SLOTS = 4, THREADS = NODES * SLOTS, UPDATES = 10000, COUNTERS = 16 };

static nrbpf_store *store;
static pthread_barrier_t start;
static uint8_t given[THREADS * UPDATES];        // how often each index was given: by its owner alone, if they are given once

// Half of the calls are reads of another counter than the one that was just counted up.
static void *count(void *of_node) {
    nrbpf_session *session;
    nrbpf_answer answer;
    uint64_t seen = 0;
    EXPECT_STATUS(nrbpf_attach(store, *(uint32_t *)of_node, &session), NRBPF_OK);
    pthread_barrier_wait(&start);
    for (uint32_t i = 0; i < UPDATES; i++) {
        key counted = key_of(i % COUNTERS), read = key_of((i + 1) % COUNTERS);
        EXPECT_STATUS(nrbpf_update(session, bump, &counted, sizeof counted, &answer), NRBPF_OK);
        EXPECT(answer.point >= seen && answer.point < THREADS * UPDATES && answer.reply >= i / COUNTERS + 1);
        given[answer.point]++;
        seen = answer.point + 1;
        EXPECT_STATUS(nrbpf_read(session, peek, &read, sizeof read, &answer), NRBPF_OK);
        EXPECT(answer.point >= seen);
        seen = answer.point;
    }
    EXPECT_STATUS(nrbpf_detach(session), NRBPF_OK);
    return NULL;
}

int main(void) {
    nrbpf_config config = NRBPF_CONFIG(NODES, SLOTS);
    store = opened(&config);
    EXPECT(pthread_barrier_init(&start, NULL, THREADS) == 0);
    pthread_t threads[THREADS];
    uint32_t nodes[THREADS];
    for (uint32_t i = 0; i < THREADS; i++) {
        nodes[i] = i % NODES;
        EXPECT(pthread_create(&threads[i], NULL, count, &nodes[i]) == 0);
    }
    for (int i = 0; i < THREADS; i++) EXPECT(pthread_join(threads[i], NULL) == 0);
    pthread_barrier_destroy(&start);

    for (int index = 0; index < THREADS * UPDATES; index++) EXPECT(given[index] == 1);
    for (uint32_t node = 0; node < NODES; node++) {
        nrbpf_session *session;
        nrbpf_answer answer;
        uint64_t sum = 0;
        EXPECT_STATUS(nrbpf_attach(store, node, &session), NRBPF_OK);
        for (uint32_t i = 0; i < COUNTERS; i++) {
            key read = key_of(i);
            EXPECT_STATUS(nrbpf_read(session, peek, &read, sizeof read, &answer), NRBPF_OK);
            EXPECT(answer.point == THREADS * UPDATES);
            sum += answer.reply;
        }
        EXPECT(sum == THREADS * UPDATES);
        EXPECT_STATUS(nrbpf_detach(session), NRBPF_OK);
    }
    EXPECT_STATUS(nrbpf_close(store), NRBPF_OK);
    printf("%d threads on %d nodes: %d indices, each given once, and the sum is right\n", THREADS, NODES, THREADS * UPDATES);
    return 0;
}
