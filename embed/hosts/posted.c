// posted.c: an update that is posted and not answered, which takes threads that are in each other's way: meanwhile its session refuses every other call
// (H3), nrbpf_poll goes on with it, and the history has it once.
#include "fixture.h"
#include <pthread.h>
#include <stdatomic.h>

static nrbpf_store *store;
static const uint8_t argument[4] = {3};

enum { OTHERS = 3, MOST_TRIED = 50000, MOST_COUNTED = 300000 };
static pthread_barrier_t start;
static atomic_int stopped;
static uint64_t counted[OTHERS];

static void *count(void *at) {
    nrbpf_session *session;
    nrbpf_answer answer;
    EXPECT_STATUS(nrbpf_attach(store, 0, &session), NRBPF_OK);
    pthread_barrier_wait(&start);
    uint64_t made = 0;
    for (; !stopped && made < MOST_COUNTED; made++) EXPECT_STATUS(nrbpf_update(session, bump, argument, 4, &answer), NRBPF_OK);
    EXPECT_STATUS(nrbpf_detach(session), NRBPF_OK);
    *(uint64_t *)at = made;
    return NULL;
}

// Tries updates beside threads that are in the way, until one is posted and not answered. Adds how many were answered before.
static int is_posted(nrbpf_session *session, uint64_t *made) {
    nrbpf_answer answer;
    for (uint64_t tried = 0; tried < MOST_TRIED;) {
        nrbpf_status told = nrbpf_try_update(session, bump, argument, 4, &answer);
        if (told == NRBPF_POSTED) return 1;
        if (told == NRBPF_BUSY) continue;
        EXPECT_STATUS(told, NRBPF_OK);
        tried++;
        ++*made;
    }
    return 0;
}

// While its update is posted, the session takes no other call, and that update not again.
static void refuse_others(nrbpf_session *session) {
    static const uint8_t exits[] = {0x95, 0, 0, 0, 0, 0, 0, 0};
    uint8_t value[8];
    uint64_t point = 77, reply = 77;
    nrbpf_answer answer = {77, 77};
    nrbpf_found found;
    nrbpf_scanned scanned;
    nrbpf_map_facts map;
    nrbpf_program_facts program;
    nrbpf_counts counts;
    nrbpf_error why;
    nrbpf_state *state;
    EXPECT_STATUS(nrbpf_state_new(store, &state), NRBPF_OK);
    EXPECT_STATUS(nrbpf_try_read(session, peek, argument, 4, &answer), NRBPF_UNANSWERED);
    EXPECT_STATUS(nrbpf_read(session, peek, argument, 4, &answer), NRBPF_H3);
    EXPECT_STATUS(nrbpf_try_update(session, bump, argument, 4, &answer), NRBPF_H3);
    EXPECT_STATUS(nrbpf_update(session, bump, argument, 4, &answer), NRBPF_H3);
    EXPECT_STATUS(nrbpf_try_install(session, NRBPF_MODE_READ, 0, exits, 8, &answer, &why), NRBPF_H3);
    EXPECT_STATUS(nrbpf_install(session, NRBPF_MODE_READ, 0, exits, 8, &answer, &why), NRBPF_H3);
    EXPECT_STATUS(nrbpf_get(session, 0, argument, 4, value, 8, &found), NRBPF_H3);
    EXPECT_STATUS(nrbpf_scan(session, 0, 0, NULL, 0, NULL, 0, &scanned), NRBPF_H3);
    EXPECT_STATUS(nrbpf_map_info(session, 0, &map, sizeof map), NRBPF_H3);
    EXPECT_STATUS(nrbpf_program_info(session, bump, &program, sizeof program), NRBPF_H3);
    EXPECT_STATUS(nrbpf_stats(session, &counts, sizeof counts), NRBPF_H3);
    EXPECT_STATUS(nrbpf_read_each(session, NULL, 0, &reply, &point, &why), NRBPF_H3);
    EXPECT_STATUS(nrbpf_try_snapshot(session, state, &point), NRBPF_H3);
    EXPECT_STATUS(nrbpf_detach(session), NRBPF_H3);
    EXPECT(answer.point == 77 && answer.reply == 77 && point == 77 && why.status == NRBPF_H3);
    nrbpf_state_free(state);
}

// Whether an update was posted at all: that takes threads which are in each other's way.
static int while_posted(void) {
    nrbpf_config config = NRBPF_CONFIG(1, OTHERS + 1);
    nrbpf_session *session;
    nrbpf_answer answer;
    pthread_t threads[OTHERS];
    uint64_t made = 0;
    store = opened(&config);
    stopped = 0;
    EXPECT(pthread_barrier_init(&start, NULL, OTHERS + 1) == 0);
    EXPECT_STATUS(nrbpf_attach(store, 0, &session), NRBPF_OK);
    for (int i = 0; i < OTHERS; i++) EXPECT(pthread_create(&threads[i], NULL, count, &counted[i]) == 0);
    pthread_barrier_wait(&start);
    int posted = is_posted(session, &made);
    stopped = 1;
    if (posted) {
        refuse_others(session);
        nrbpf_status told = nrbpf_poll(session, &answer);
        while (told == NRBPF_POSTED) told = nrbpf_poll(session, &answer);
        EXPECT_STATUS(told, NRBPF_OK);
        EXPECT_STATUS(nrbpf_poll(session, &answer), NRBPF_H11);
        made++;
    }
    for (int i = 0; i < OTHERS; i++) {
        EXPECT(pthread_join(threads[i], NULL) == 0);
        made += counted[i];
    }
    pthread_barrier_destroy(&start);
    EXPECT_STATUS(nrbpf_read(session, peek, argument, 4, &answer), NRBPF_OK);
    EXPECT(answer.point == made && answer.reply == made);
    EXPECT_STATUS(nrbpf_detach(session), NRBPF_OK);
    EXPECT_STATUS(nrbpf_close(store), NRBPF_OK);
    return posted;
}

// ---- At the end of a history

enum { LIMIT = 200, MOST_STORES = 2000 };

static void *count_to_the_end(void *session) {
    nrbpf_answer answer;
    nrbpf_status told = NRBPF_OK;
    pthread_barrier_wait(&start);
    while (told == NRBPF_OK) told = nrbpf_update(session, bump, argument, 4, &answer);
    EXPECT_STATUS(told, NRBPF_FULL);
    return NULL;
}

// Updates until there is no room. Whether that was told of one that was posted.
static int is_ended_while_posted(nrbpf_session *session) {
    nrbpf_answer answer = {77, 77};
    int posted = 0;
    nrbpf_status told = NRBPF_OK;
    pthread_barrier_wait(&start);
    while (told != NRBPF_FULL) {
        told = nrbpf_try_update(session, bump, argument, 4, &answer);
        posted = told == NRBPF_POSTED;
        while (told == NRBPF_POSTED) told = nrbpf_poll(session, &answer);
        if (told != NRBPF_BUSY && told != NRBPF_FULL) EXPECT_STATUS(told, NRBPF_OK);
    }
    EXPECT_STATUS(nrbpf_poll(session, &answer), NRBPF_H11);
    return posted;
}

// The history has its records, and what was told that it ended did nothing.
static int at_the_end(void) {
    nrbpf_config config = NRBPF_CONFIG(1, OTHERS + 1);
    pthread_t threads[OTHERS];
    nrbpf_session *sessions[OTHERS];
    nrbpf_answer answer;
    config.limit = LIMIT;
    store = opened(&config);
    nrbpf_session *session = attached(store, 0);
    EXPECT(pthread_barrier_init(&start, NULL, OTHERS + 1) == 0);
    for (int i = 0; i < OTHERS; i++) {
        sessions[i] = attached(store, 0);
        EXPECT(pthread_create(&threads[i], NULL, count_to_the_end, sessions[i]) == 0);
    }
    int posted = is_ended_while_posted(session);
    for (int i = 0; i < OTHERS; i++) {
        EXPECT(pthread_join(threads[i], NULL) == 0);
        EXPECT_STATUS(nrbpf_detach(sessions[i]), NRBPF_OK);
    }
    pthread_barrier_destroy(&start);
    EXPECT_STATUS(nrbpf_read(session, peek, argument, 4, &answer), NRBPF_OK);
    EXPECT(answer.point == LIMIT && answer.reply == LIMIT);
    EXPECT_STATUS(nrbpf_detach(session), NRBPF_OK);
    EXPECT_STATUS(nrbpf_close(store), NRBPF_OK);
    return posted;
}

int main(void) {
    int turns = 0, stores = 0;
    while (!while_posted() && turns < 20) turns++;
    if (turns == 20) printf("no update was ever posted and not answered: H3 is not tried\n");
    else printf("an update that was posted was answered once, and 13 other calls were refused meanwhile\n");
    while (!at_the_end() && stores < MOST_STORES) stores++;
    if (stores == MOST_STORES) printf("no history ended while an update was posted\n");
    else printf("a history ended while an update was posted, which did nothing\n");
    return 0;
}
