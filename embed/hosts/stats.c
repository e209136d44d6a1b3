// stats.c: what a store says of what it has done: how much is completed, how far a node has come, what the log keeps, and what a session was asked for; alone,
// and while eight threads count; by hosts with an older and a newer header; and what is refused.
#include "fixture.h"
#include <inttypes.h>
#include <pthread.h>
#include <stddef.h>

enum { NODES = 2, SLOTS = 4, THREADS = NODES * SLOTS, UPDATES = 5000, WINDOW = 16 };

static nrbpf_store *store;

static void open_store(void) {
    nrbpf_config config = NRBPF_CONFIG(NODES, SLOTS);
    config.window = WINDOW;
    store = opened(&config);
}

static void count(nrbpf_session *session, int times) {
    const key counted = key_of(3);
    nrbpf_answer answer;
    for (int i = 0; i < times; i++) EXPECT_STATUS(nrbpf_update(session, bump, &counted, sizeof counted, &answer), NRBPF_OK);
}

// Both calls say the same of a store in which nothing goes on.
static nrbpf_counts counts_of(nrbpf_session *session) {
    nrbpf_counts counts[2];
    EXPECT_STATUS(nrbpf_stats(session, &counts[0], sizeof counts[0]), NRBPF_OK);
    EXPECT_STATUS(nrbpf_try_stats(session, &counts[1], sizeof counts[1]), NRBPF_OK);
    EXPECT(memcmp(&counts[0].completed, &counts[1].completed, offsetof(nrbpf_counts, node)) == 0 && counts[0].node == counts[1].node);
    return counts[0];
}

static void alone(void) {
    static const uint8_t zeros[194];
    const key seen = key_of(3);
    nrbpf_answer answer;
    open_store();
    nrbpf_session *own = attached(store, 0), *other = attached(store, 1);
    nrbpf_counts told = counts_of(own);
    EXPECT(told.completed == 0 && told.appended == 0 && told.kept == 0 && told.tail == 0 && told.lag == 0 && told.updates == 0 && told.node == 0);
    count(own, 5);
    told = counts_of(own);
    EXPECT(told.completed == 5 && told.appended == 5 && told.kept == 5 && told.tail == 5 && told.lag == 0);
    EXPECT(told.updates == 5 && told.waits == 0 && told.batches == 0 && told.batched == 0 && told.largest == 0);
    told = counts_of(other); // the other node has applied nothing yet, and the call brings it no nearer
    EXPECT(told.completed == 5 && told.tail == 0 && told.lag == 5 && told.updates == 0 && told.node == 1);
    EXPECT_STATUS(nrbpf_read(other, peek, &seen, sizeof seen, &answer), NRBPF_OK);
    told = counts_of(other);
    EXPECT(told.completed == 5 && told.tail == 5 && told.lag == 0 && told.updates == 0);

    count(own, 1000);
    told = counts_of(own);
    EXPECT(told.completed == 1005 && told.appended == 1005 && told.kept <= WINDOW && told.updates == 1005);
    EXPECT_STATUS(nrbpf_update(own, peek, &seen, sizeof seen, &answer), NRBPF_S3); // refused, and asked for
    for (size_t len = 193; len < 195; len++) EXPECT_STATUS(nrbpf_install(own, NRBPF_MODE_READ, 0, zeros, len, &answer, NULL), NRBPF_S6);
    EXPECT_STATUS(nrbpf_update(own, bump, NULL, sizeof seen, &answer), NRBPF_H7); // and not asked for
    EXPECT(counts_of(own).updates == 1008);
    EXPECT_STATUS(nrbpf_detach(own), NRBPF_OK);
    own = attached(store, 0);
    told = counts_of(own);
    EXPECT(told.completed == 1005 && told.updates == 0);
    EXPECT_STATUS(nrbpf_detach(own), NRBPF_OK);
    EXPECT_STATUS(nrbpf_detach(other), NRBPF_OK);
    EXPECT_STATUS(nrbpf_close(store), NRBPF_OK);
}

// A host that was compiled with another header passes another size.
static void other_headers(void) {
    struct { nrbpf_counts known; uint64_t later; } newer;
    nrbpf_counts older;
    open_store();
    nrbpf_session *session = attached(store, 1);
    count(session, 2);
    memset(&newer, 0x77, sizeof newer);
    memset(&older, 0x77, sizeof older);
    EXPECT_STATUS(nrbpf_stats(session, &newer.known, sizeof newer), NRBPF_OK);
    EXPECT(newer.known.completed == 2 && newer.known.node == 1 && newer.later == 0);
    EXPECT_STATUS(nrbpf_stats(session, &older, offsetof(nrbpf_counts, kept)), NRBPF_OK);
    EXPECT(older.completed == 2 && older.appended == 2 && older.kept == 0x7777777777777777);

    EXPECT_STATUS(nrbpf_stats(NULL, &older, sizeof older), NRBPF_H7);
    EXPECT_STATUS(nrbpf_stats(session, NULL, sizeof older), NRBPF_H7);
    EXPECT_STATUS(nrbpf_try_stats(session, NULL, sizeof older), NRBPF_H7);
    EXPECT_STATUS(nrbpf_detach(session), NRBPF_OK);
    EXPECT_STATUS(nrbpf_stats(session, &older, sizeof older), NRBPF_H2);
    EXPECT_STATUS(nrbpf_try_stats(session, &older, sizeof older), NRBPF_H2);
    EXPECT_STATUS(nrbpf_close(store), NRBPF_OK);
}

static nrbpf_counts last[THREADS];

// Between its updates it asks, now and then: what it is told is of one moment.
static void *count_and_ask(void *at) {
    const size_t i = (size_t)((nrbpf_counts *)at - last);
    nrbpf_session *session = attached(store, (uint32_t)(i % NODES));
    for (int k = 0; k < UPDATES / 10; k++) {
        count(session, 10);
        EXPECT_STATUS(nrbpf_stats(session, &last[i], sizeof last[i]), NRBPF_OK);
        const nrbpf_counts *it = &last[i];
        EXPECT(it->tail + it->lag == it->completed && it->completed <= it->appended && it->kept <= WINDOW && it->kept <= it->appended);
        EXPECT(it->completed >= it->updates && it->updates == (uint64_t)(k + 1) * 10 && it->tail >= it->updates);
        EXPECT(it->batched >= 2 * it->batches && it->largest <= SLOTS && (it->batches == 0) == (it->largest == 0));
    }
    EXPECT_STATUS(nrbpf_detach(session), NRBPF_OK);
    return NULL;
}

static void among_others(void) {
    pthread_t threads[THREADS];
    uint64_t sum = 0, batched = 0;
    open_store();
    for (int i = 0; i < THREADS; i++) EXPECT(pthread_create(&threads[i], NULL, count_and_ask, &last[i]) == 0);
    for (int i = 0; i < THREADS; i++) EXPECT(pthread_join(threads[i], NULL) == 0);
    for (int i = 0; i < THREADS; i++) {
        sum += last[i].updates;
        batched += last[i].batched;
    }
    nrbpf_session *session = attached(store, 0);
    const nrbpf_counts told = counts_of(session);
    EXPECT(sum == THREADS * UPDATES && told.completed == sum && told.appended == sum && batched <= sum);
    EXPECT_STATUS(nrbpf_detach(session), NRBPF_OK);
    EXPECT_STATUS(nrbpf_close(store), NRBPF_OK);
    printf("stats: %d threads made %" PRIu64 " updates, %" PRIu64 " of them in batches of several\n", THREADS, sum, batched);
}

int main(void) {
    alone();
    other_headers();
    among_others();
    return 0;
}
