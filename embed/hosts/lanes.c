// lanes.c: lists of updates by lanes. What they answer and refuse on one thread; lists of several threads on two nodes, and single calls among them; a list
// that is posted and not answered; a list in which the history ends; null pointers to no bytes.
#include "fixture.h"
#include <pthread.h>
#include <stdatomic.h>

enum { MOST = NRBPF_MOST_SLOTS, COUNTERS = 16 };

static nrbpf_store *store;
static key keys[COUNTERS];

static void make_keys(void) {
    for (uint32_t i = 0; i < COUNTERS; i++) keys[i] = key_of(i);
}

static nrbpf_question call_of(uint32_t counter) {
    return (nrbpf_question){&keys[counter % COUNTERS], sizeof keys[0], bump};
}

static nrbpf_lane *attached_lane(uint32_t node, uint32_t slots) {
    nrbpf_lane *lane = NULL;
    EXPECT_STATUS(nrbpf_attach_lane(store, node, slots, &lane), NRBPF_OK);
    return lane;
}

// Each update was done, and comes after those before it in the list.
static void expect_in_order(const nrbpf_outcome *outcomes, size_t count) {
    for (size_t i = 0; i < count; i++) {
        EXPECT_STATUS(outcomes[i].status, NRBPF_OK);
        if (i > 0) EXPECT(outcomes[i - 1].point < outcomes[i].point);
    }
}

// The number of all updates, and the sum of the counters, which is the same.
static uint64_t updates(void) {
    nrbpf_session *session = attached(store, 0);
    nrbpf_answer answer;
    uint64_t sum = 0;
    for (uint32_t i = 0; i < COUNTERS; i++) {
        EXPECT_STATUS(nrbpf_read(session, peek, &keys[i], sizeof keys[i], &answer), NRBPF_OK);
        sum += answer.reply;
    }
    EXPECT(sum == answer.point);
    EXPECT_STATUS(nrbpf_detach(session), NRBPF_OK);
    return sum;
}

// ---- One thread

// Lists of each length, with the same counter twice.
static void answers(void) {
    nrbpf_lane *lane = attached_lane(1, 4);
    const nrbpf_question calls[4] = {call_of(3), call_of(3), call_of(5), call_of(3)};
    nrbpf_outcome outcomes[4];
    uint64_t made = 0;
    for (size_t count = 0; count <= 4; count++) {
        EXPECT_STATUS(nrbpf_update_each(lane, calls, count, outcomes, NULL), NRBPF_OK);
        for (size_t i = 0; i < count; i++) EXPECT(outcomes[i].status == NRBPF_OK && outcomes[i].point == made + i);
        made += count;
    }
    EXPECT(outcomes[0].reply == 6 && outcomes[1].reply == 7 && outcomes[2].reply == 2 && outcomes[3].reply == 8);
    EXPECT_STATUS(nrbpf_try_update_each(lane, calls, 4, outcomes, NULL), NRBPF_OK); // nobody is in the way
    EXPECT(outcomes[3].point == 13 && outcomes[3].reply == 11);
    // outcomes may be where arguments and calls were: both are copied first
    union { nrbpf_question calls[4]; nrbpf_outcome outcomes[4]; } room = {{call_of(0), call_of(0), call_of(0), call_of(0)}};
    EXPECT_STATUS(nrbpf_update_each(lane, room.calls, 4, room.outcomes, NULL), NRBPF_OK);
    EXPECT(room.outcomes[3].point == 17 && room.outcomes[3].reply == 4);
    EXPECT_STATUS(nrbpf_detach_lane(lane), NRBPF_OK);
    EXPECT(updates() == 18);
}

// A lane takes free sessions only, and all or none.
static void attaches(void) {
    nrbpf_lane *lane = NULL, *all[2];
    nrbpf_session *session;
    EXPECT_STATUS(nrbpf_attach_lane(store, 0, 0, &lane), NRBPF_BAD_CALL);
    EXPECT_STATUS(nrbpf_attach_lane(store, 0, MOST + 1, &lane), NRBPF_H5);
    EXPECT_STATUS(nrbpf_attach_lane(store, 2, 1, &lane), NRBPF_NO_SESSION);
    EXPECT_STATUS(nrbpf_attach_lane(NULL, 0, 1, &lane), NRBPF_H7);
    EXPECT_STATUS(nrbpf_attach_lane(store, 0, 1, NULL), NRBPF_H7);
    session = attached(store, 0);
    EXPECT_STATUS(nrbpf_attach_lane(store, 0, MOST, &lane), NRBPF_H1);
    EXPECT(!lane);
    all[0] = attached_lane(0, MOST - 1);
    EXPECT_STATUS(nrbpf_attach_lane(store, 0, 1, &lane), NRBPF_H1);
    EXPECT_STATUS(nrbpf_attach(store, 0, &session), NRBPF_H1);
    EXPECT_STATUS(nrbpf_detach(session), NRBPF_OK);
    all[1] = attached_lane(0, 1);
    EXPECT_STATUS(nrbpf_close(store), NRBPF_ATTACHED);
    for (int i = 0; i < 2; i++) EXPECT_STATUS(nrbpf_detach_lane(all[i]), NRBPF_OK);
    EXPECT_STATUS(nrbpf_detach_lane(NULL), NRBPF_NULL_POINTER);
}

// What is refused posts nothing, and says which call it is.
static void refuses(void) {
    nrbpf_lane *lane = attached_lane(0, 3);
    nrbpf_question calls[4] = {call_of(0), call_of(1), call_of(2), call_of(3)};
    nrbpf_outcome outcomes[4] = {{77, 77, 77}};
    nrbpf_error why = {77, 77, 77, 77};
    const uint64_t before = updates();
    EXPECT_STATUS(nrbpf_update_each(lane, calls, 4, outcomes, &why), NRBPF_H5);
    EXPECT(why.status == NRBPF_H5 && why.inner == 0 && why.line == 0 && why.slot == 0);
    calls[2].program = 9;
    EXPECT_STATUS(nrbpf_update_each(lane, calls, 3, outcomes, &why), NRBPF_UNKNOWN_PROGRAM);
    EXPECT(why.status == NRBPF_S1 && why.inner == 0 && why.slot == 2);
    calls[1].len = 3;
    EXPECT_STATUS(nrbpf_try_update_each(lane, calls, 3, outcomes, &why), NRBPF_ARGUMENT_LENGTH);
    EXPECT(why.status == NRBPF_S2 && why.slot == 1);
    calls[0].program = peek;
    EXPECT_STATUS(nrbpf_update_each(lane, calls, 3, outcomes, &why), NRBPF_OTHER_MODE);
    EXPECT(why.status == NRBPF_S3 && why.slot == 0);
    EXPECT_STATUS(nrbpf_update_each(lane, calls, 3, outcomes, NULL), NRBPF_S3);
    calls[2].argument = NULL;
    EXPECT_STATUS(nrbpf_update_each(lane, calls, 3, outcomes, &why), NRBPF_H7);
    EXPECT_STATUS(nrbpf_update_each(NULL, calls, 1, outcomes, &why), NRBPF_H7);
    EXPECT_STATUS(nrbpf_update_each(lane, NULL, 1, outcomes, &why), NRBPF_H7);
    EXPECT_STATUS(nrbpf_update_each(lane, calls, 1, NULL, &why), NRBPF_H7);
    EXPECT_STATUS(nrbpf_update_each(lane, NULL, 0, NULL, &why), NRBPF_OK);
    EXPECT_STATUS(nrbpf_poll_each(lane, outcomes), NRBPF_NOTHING_POSTED);
    EXPECT_STATUS(nrbpf_poll_each(NULL, outcomes), NRBPF_H7);
    EXPECT_STATUS(nrbpf_poll_each(lane, NULL), NRBPF_H7);
    EXPECT(outcomes[0].point == 77 && outcomes[0].reply == 77 && outcomes[0].status == 77);
    EXPECT_STATUS(nrbpf_detach_lane(lane), NRBPF_OK);
    // The handle is a lane's no more, also where its place has another one.
    nrbpf_lane *other = attached_lane(0, 3);
    nrbpf_session *session = attached(store, 0);
    EXPECT(other != lane);
    EXPECT_STATUS(nrbpf_update_each(lane, calls, 0, outcomes, &why), NRBPF_DETACHED);
    EXPECT_STATUS(nrbpf_poll_each(lane, outcomes), NRBPF_H2);
    EXPECT_STATUS(nrbpf_detach_lane(lane), NRBPF_H2);
    EXPECT_STATUS(nrbpf_detach_lane(other), NRBPF_OK);
    EXPECT_STATUS(nrbpf_detach(session), NRBPF_OK);
    EXPECT(updates() == before);
}

// Of a list that ends the history some updates are in, and the others do nothing.
static void ends(void) {
    nrbpf_config config = NRBPF_CONFIG(1, 5);
    nrbpf_outcome outcomes[4];
    nrbpf_error why;
    nrbpf_question calls[4] = {call_of(0), call_of(1), call_of(2), call_of(3)};
    config.limit = 6;
    store = opened(&config);
    nrbpf_lane *lane = attached_lane(0, 4);
    EXPECT_STATUS(nrbpf_update_each(lane, calls, 4, outcomes, &why), NRBPF_OK);
    EXPECT_STATUS(nrbpf_update_each(lane, calls, 4, outcomes, &why), NRBPF_FULL);
    EXPECT(why.status == NRBPF_S4);
    expect_in_order(outcomes, 2);
    for (int i = 2; i < 4; i++) EXPECT(outcomes[i].status == NRBPF_S4 && outcomes[i].point == 0 && outcomes[i].reply == 0);
    EXPECT_STATUS(nrbpf_update_each(lane, calls, 4, outcomes, NULL), NRBPF_S4);
    for (int i = 0; i < 4; i++) EXPECT(outcomes[i].status == NRBPF_S4);
    EXPECT_STATUS(nrbpf_detach_lane(lane), NRBPF_OK);
    EXPECT(updates() == 6);
    EXPECT_STATUS(nrbpf_close(store), NRBPF_OK);
}

// A null pointer to no bytes is an empty argument, next to others: in a list, and in several reads.
static void takes_no_bytes(void) {
    const char *manifest = "map array 8 16\nprogram five update 0 five\nprogram bump update 4 bump\nprogram eight read 0 eight\n";
    const nrbpf_file files[] = {file_of("five", "b7000000050000009500000000000000"), file_of("bump", text_of(BUMP)),
                                file_of("eight", "b7000000080000009500000000000000")};
    const nrbpf_config config = NRBPF_CONFIG(1, 4);
    const nrbpf_question calls[] = {{NULL, 0, 0}, {&keys[1], sizeof keys[1], 1}, {NULL, 0, 0}}, reads[] = {{"", 0, 2}, {NULL, 0, 2}};
    const uint64_t wanted[] = {5, 1, 5};
    nrbpf_outcome outcomes[3];
    uint64_t replies[2], point;
    EXPECT_STATUS(nrbpf_open(&config, manifest, strlen(manifest), files, 3, &store, NULL), NRBPF_OK);
    nrbpf_lane *lane = attached_lane(0, 3);
    nrbpf_session *session = attached(store, 0);
    EXPECT_STATUS(nrbpf_update_each(lane, calls, 3, outcomes, NULL), NRBPF_OK);
    for (uint64_t i = 0; i < 3; i++) EXPECT(outcomes[i].point == i && outcomes[i].reply == wanted[i] && outcomes[i].status == NRBPF_OK);
    EXPECT_STATUS(nrbpf_read_each(session, reads, 2, replies, &point, NULL), NRBPF_OK);
    EXPECT(point == 3 && replies[0] == 8 && replies[1] == 8);
    EXPECT_STATUS(nrbpf_detach(session), NRBPF_OK);
    EXPECT_STATUS(nrbpf_detach_lane(lane), NRBPF_OK);
    EXPECT_STATUS(nrbpf_close(store), NRBPF_OK);
    free((char *)files[1].text);
}

// ---- Threads

enum { THREADS = 4, LISTS = 3000, SLOTS = 7 };
static pthread_barrier_t start;
static atomic_uint posted;                      // lists that were posted and not answered at once

// Goes on with a list that was tried, and finds that the lane takes nothing else meanwhile.
static void poll_until_answered(nrbpf_lane *lane, const nrbpf_question *calls, size_t count, nrbpf_outcome *outcomes) {
    nrbpf_outcome others[SLOTS];
    nrbpf_status told = NRBPF_POSTED;
    posted++;
    EXPECT_STATUS(nrbpf_update_each(lane, calls, count, others, NULL), NRBPF_UNANSWERED);
    EXPECT_STATUS(nrbpf_try_update_each(lane, calls, count, others, NULL), NRBPF_H3);
    EXPECT_STATUS(nrbpf_detach_lane(lane), NRBPF_H3);
    while (told == NRBPF_POSTED) told = nrbpf_poll_each(lane, outcomes);
    EXPECT_STATUS(told, NRBPF_OK);
}

// Lists of 1 to SLOTS calls, every other one tried.
static void *ask_lists(void *at) {
    const uint32_t own = *(const uint32_t *)at;
    nrbpf_lane *lane = attached_lane(own % 2, SLOTS);
    nrbpf_question calls[SLOTS];
    nrbpf_outcome outcomes[SLOTS];
    uint64_t seen = 0;
    pthread_barrier_wait(&start);
    for (uint32_t list = 0; list < LISTS; list++) {
        const size_t count = list % SLOTS + 1;
        for (uint32_t i = 0; i < count; i++) calls[i] = call_of(own + list + i);
        nrbpf_status told = list % 2 ? nrbpf_update_each(lane, calls, count, outcomes, NULL) : NRBPF_BUSY;
        while (told == NRBPF_BUSY) told = nrbpf_try_update_each(lane, calls, count, outcomes, NULL);
        if (told == NRBPF_POSTED) poll_until_answered(lane, calls, count, outcomes);
        else EXPECT_STATUS(told, NRBPF_OK);
        expect_in_order(outcomes, count);
        EXPECT(outcomes[0].point >= seen);
        seen = outcomes[count - 1].point + 1;
    }
    EXPECT_STATUS(nrbpf_detach_lane(lane), NRBPF_OK);
    return NULL;
}

static void *ask_singly(void *at) {
    nrbpf_session *session = attached(store, *(const uint32_t *)at % 2);
    nrbpf_answer answer;
    pthread_barrier_wait(&start);
    for (uint32_t i = 0; i < LISTS; i++) EXPECT_STATUS(nrbpf_update(session, bump, &keys[i % COUNTERS], sizeof keys[0], &answer), NRBPF_OK);
    EXPECT_STATUS(nrbpf_detach(session), NRBPF_OK);
    return NULL;
}

// Two lanes and a session on each node.
static void meet(void) {
    nrbpf_config config = NRBPF_CONFIG(2, MOST);
    pthread_t threads[THREADS + 2];
    uint32_t own[THREADS + 2];
    uint64_t asked = 2 * LISTS;
    store = opened(&config);
    EXPECT(pthread_barrier_init(&start, NULL, THREADS + 2) == 0);
    for (uint32_t i = 0; i < THREADS + 2; i++) {
        own[i] = i;
        EXPECT(pthread_create(&threads[i], NULL, i < THREADS ? ask_lists : ask_singly, &own[i]) == 0);
    }
    for (uint32_t i = 0; i < THREADS + 2; i++) EXPECT(pthread_join(threads[i], NULL) == 0);
    for (uint32_t list = 0; list < LISTS; list++) asked += THREADS * (list % SLOTS + 1);
    EXPECT(updates() == asked);
    pthread_barrier_destroy(&start);
    EXPECT_STATUS(nrbpf_close(store), NRBPF_OK);
}

int main(void) {
    nrbpf_config config = NRBPF_CONFIG(2, MOST);
    make_keys();
    store = opened(&config);
    answers();
    attaches();
    refuses();
    EXPECT_STATUS(nrbpf_close(store), NRBPF_OK);
    ends();
    takes_no_bytes();
    int turns = 0;
    do meet(); while (!posted && ++turns < 20);
    if (!posted) printf("no list was ever posted and not answered\n");
    else printf("lists of 1 to %d updates by %d threads: each is answered once and in its order, some after they were posted\n", SLOTS, THREADS);
    return 0;
}
