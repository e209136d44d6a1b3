// polling.c: one thread polls 32 sessions, as an event loop does: in each round every session takes its call a step on, and none is waited for. An
// update that is posted is gone on with by nrbpf_poll; a call that found another session in the way is made again.
#include "fixture.h"

enum { NODES = 2, SLOTS = 16, SESSIONS = NODES * SLOTS, CALLS = 200 };

// A client of the loop: whose turn it is to be asked, and what it has been told.
typedef struct client {
    nrbpf_session *session;
    int is_posted;                              // whether its update is
    uint32_t made;                              // calls that are answered; an even one is an update, an odd one a read
    uint64_t seen;                              // how many updates it knows of
} client;

// Asks for the client's call, or goes on with the update that it has posted.
static nrbpf_status ask(client *of, nrbpf_answer *answer) {
    const key counted = key_of(of->made % 16);
    if (of->is_posted) return nrbpf_poll(of->session, answer);
    if (of->made % 2 == 0) return nrbpf_try_update(of->session, bump, &counted, sizeof counted, answer);
    return nrbpf_try_read(of->session, peek, &counted, sizeof counted, answer);
}

// Takes the client's call a step on. Whether that was its last.
static int step(client *of) {
    nrbpf_answer answer;
    const nrbpf_status told = ask(of, &answer);
    of->is_posted = told == NRBPF_POSTED;
    if (told == NRBPF_BUSY || told == NRBPF_POSTED) return 0;
    EXPECT_STATUS(told, NRBPF_OK);
    EXPECT(answer.point >= of->seen);
    of->seen = answer.point + (of->made % 2 == 0 ? 1 : 0);
    of->made++;
    return of->made == CALLS;
}

int main(void) {
    nrbpf_config config = NRBPF_CONFIG(NODES, SLOTS);
    nrbpf_store *store = opened(&config);
    client clients[SESSIONS] = {0};
    for (uint32_t i = 0; i < SESSIONS; i++) EXPECT_STATUS(nrbpf_attach(store, i % NODES, &clients[i].session), NRBPF_OK);

    long rounds = 0;
    for (int left = SESSIONS; left > 0; rounds++)
        for (int i = 0; i < SESSIONS; i++)
            if (clients[i].made < CALLS) left -= step(&clients[i]);

    nrbpf_answer answer;
    uint64_t sum = 0;
    for (uint32_t i = 0; i < 16; i++) {
        key read = key_of(i);
        EXPECT_STATUS(nrbpf_read(clients[0].session, peek, &read, sizeof read, &answer), NRBPF_OK);
        sum += answer.reply;
    }
    EXPECT(sum == SESSIONS * CALLS / 2 && answer.point == sum);
    for (int i = 0; i < SESSIONS; i++) EXPECT_STATUS(nrbpf_detach(clients[i].session), NRBPF_OK);
    EXPECT_STATUS(nrbpf_close(store), NRBPF_OK);
    printf("one thread, %d sessions: %d calls in %ld rounds, and the sum is right\n", SESSIONS, SESSIONS * CALLS, rounds);
    return 0;
}
