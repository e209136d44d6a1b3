// header.c: a service that reads no file when it starts. c/manifest2h makes auction_nrbpf.h of the manifest, with each operation as a function;
// docs/TUTORIAL.md says how. Two threads bid for one item, each on a node of its own.
#include "auction.h"
#include "auction_nrbpf.h"
#include <inttypes.h>
#include <pthread.h>
#include <stdio.h>
#include <stdlib.h>

enum { THREADS = 2, BIDS = 1000 };

static const uint64_t item = 7;
static nrbpf_store *store;

// Ends the service if a call is refused.
static void check(nrbpf_status status) {
    if (status == NRBPF_OK) return;
    fprintf(stderr, "%s\n", nrbpf_status_text(status));
    exit(1);
}

// A thread of the service: it has a session of its own, and bids with it.
static void *serve(void *number) {
    const uint64_t bidder = (uint64_t)(uintptr_t)number;
    nrbpf_session *session;
    nrbpf_answer answer;
    check(nrbpf_attach(store, (uint32_t)bidder, &session));
    for (uint64_t k = 1; k <= BIDS; k++) {
        const struct bid mine = {item, bidder, k * THREADS + bidder};
        check(auction_bid(session, &mine, &answer));
    }
    check(auction_highest(session, &item, &answer));
    check(nrbpf_detach(session));
    return NULL;
}

int main(void) {
    const nrbpf_config config = NRBPF_CONFIG(2, 1); // two nodes, one session of each
    nrbpf_session *session;
    nrbpf_answer answer;
    pthread_t threads[THREADS];
    check(auction_open(&config, &store, NULL));
    for (uintptr_t i = 0; i < THREADS; i++)
        if (pthread_create(&threads[i], NULL, serve, (void *)i)) return 1;
    for (int i = 0; i < THREADS; i++) pthread_join(threads[i], NULL);
    check(nrbpf_attach(store, 0, &session));
    check(auction_highest(session, &item, &answer));
    printf("the highest bid is %" PRIu64 "\n", answer.reply);
    check(nrbpf_detach(session));
    check(nrbpf_close(store));
    return 0;
}
