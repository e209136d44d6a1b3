// handles.c: the handles of what was given back. No call takes them: after a lane that was refused, and next to a thread that attaches at the same place.
// For ThreadSanitizer no two threads touch the same memory then.
#include "fixture.h"
#include <pthread.h>
#include <stdatomic.h>

enum { OTHERS = 511, ROUNDS = 40 };             // so many sessions after one have other handles than it has

static const uint8_t argument[4] = {3};
static nrbpf_store *store;

static nrbpf_lane *attached_lane(uint32_t slots) {
    nrbpf_lane *lane = NULL;
    EXPECT_STATUS(nrbpf_attach_lane(store, 0, slots, &lane), NRBPF_OK);
    return lane;
}

// The handle of a session that was given back.
static nrbpf_session *late_session(void) {
    nrbpf_session *session = attached(store, 0);
    EXPECT_STATUS(nrbpf_detach(session), NRBPF_OK);
    return session;
}

static nrbpf_lane *late_lane(void) {
    nrbpf_lane *lane = attached_lane(1);
    EXPECT_STATUS(nrbpf_detach_lane(lane), NRBPF_OK);
    return lane;
}

// A lane that finds too few sessions has no handle, so it takes none of those that come before the same one again.
static void after_refusals(void) {
    const nrbpf_config config = NRBPF_CONFIG(1, 1);
    nrbpf_answer answer;
    nrbpf_lane *none = NULL;
    store = opened(&config);
    nrbpf_session *const late = late_session();
    for (int i = 0; i < OTHERS; i++) EXPECT_STATUS(nrbpf_attach_lane(store, 0, 2, &none), NRBPF_H1);
    nrbpf_session *const own = attached(store, 0);
    EXPECT(own != late && !none);
    EXPECT_STATUS(nrbpf_update(late, bump, argument, 4, &answer), NRBPF_H2);
    EXPECT_STATUS(nrbpf_detach(late), NRBPF_H2);
    EXPECT_STATUS(nrbpf_update(own, bump, argument, 4, &answer), NRBPF_OK);
    EXPECT(answer.point == 0);
    EXPECT_STATUS(nrbpf_detach(own), NRBPF_OK);
    EXPECT_STATUS(nrbpf_close(store), NRBPF_OK);
}

// ---- Next to a thread that attaches

static pthread_barrier_t both;
static atomic_int done;

static void *come_and_go(void *none) {
    for (int round = 0; round < ROUNDS; round++) {
        pthread_barrier_wait(&both);
        for (int i = 0; i < OTHERS / 2; i++) {
            late_session();
            late_lane();
        }
        done = 1;
        pthread_barrier_wait(&both);
    }
    return none;
}

static void call_late(nrbpf_session *session, nrbpf_lane *lane) {
    const nrbpf_question call = {argument, 4, bump};
    nrbpf_outcome outcome;
    nrbpf_answer answer;
    nrbpf_found found;
    EXPECT_STATUS(nrbpf_update(session, bump, argument, 4, &answer), NRBPF_H2);
    EXPECT_STATUS(nrbpf_poll(session, &answer), NRBPF_H2);
    EXPECT_STATUS(nrbpf_get(session, 0, argument, 4, NULL, 0, &found), NRBPF_H2);
    EXPECT_STATUS(nrbpf_detach(session), NRBPF_H2);
    EXPECT_STATUS(nrbpf_update_each(lane, &call, 1, &outcome, NULL), NRBPF_H2);
    EXPECT_STATUS(nrbpf_poll_each(lane, &outcome), NRBPF_H2);
    EXPECT_STATUS(nrbpf_detach_lane(lane), NRBPF_H2);
}

static void next_to_others(void) {
    const nrbpf_config config = NRBPF_CONFIG(1, 1);
    pthread_t other;
    unsigned long calls = 0;
    store = opened(&config);
    EXPECT(pthread_barrier_init(&both, NULL, 2) == 0);
    EXPECT(pthread_create(&other, NULL, come_and_go, NULL) == 0);
    for (int round = 0; round < ROUNDS; round++) {
        nrbpf_session *const session = late_session();
        nrbpf_lane *const lane = late_lane();
        done = 0;
        pthread_barrier_wait(&both);
        do {
            call_late(session, lane);
            calls++;
        } while (!done);
        pthread_barrier_wait(&both);
    }
    EXPECT(pthread_join(other, NULL) == 0);
    pthread_barrier_destroy(&both);
    EXPECT_STATUS(nrbpf_close(store), NRBPF_OK);
    EXPECT(calls >= ROUNDS);
}

int main(void) {
    after_refusals();
    next_to_others();
    printf("handles of what was given back were refused, after %d refused lanes and next to %d sessions and lanes\n", OTHERS, ROUNDS * (OTHERS / 2) * 2);
    return 0;
}
