// snapshots.c: four threads count on two nodes; meanwhile a session of a third node takes snapshots, scans, asks for all counters at once, and looks
// for single ones. Each update counts one, so of whatever is of one point the sum of all counters is that point. A store goes on from the last
// snapshot, which is loaded from its dump first.
#include "fixture.h"
#include <inttypes.h>
#include <pthread.h>

enum { NODES = 3, SLOTS = 2, THREADS = 4, UPDATES = 20000, COUNTERS = 16, SNAPSHOTS = 200 };

static nrbpf_store *store;
static pthread_barrier_t start;

static void *count(void *of_node) {
    nrbpf_session *session = attached(store, *(uint32_t *)of_node);
    nrbpf_answer answer;
    pthread_barrier_wait(&start);
    for (uint32_t i = 0; i < UPDATES; i++) {
        key counted = key_of(i % COUNTERS);
        EXPECT_STATUS(nrbpf_update(session, bump, &counted, sizeof counted, &answer), NRBPF_OK);
    }
    EXPECT_STATUS(nrbpf_detach(session), NRBPF_OK);
    return NULL;
}

// A number of eight bytes, the low one first.
static uint64_t number_at(const uint8_t *bytes) {
    uint64_t number = 0;
    for (int i = 7; i >= 0; i--) number = number << 8 | bytes[i];
    return number;
}

// The sum of the counters that a dump has, of which each line ends in one, its low byte first.
static uint64_t sum_of_dump(const nrbpf_state *state) {
    static dump into;
    uint64_t sum = 0;
    dump_state(state, &into);
    for (char *line = into.text; *line; line = strchr(line, '\n') + 1) {
        uint8_t bytes[8];
        unsigned counter, byte;
        EXPECT(sscanf(line, "0 %2x000000 ", &counter) == 1 && counter < COUNTERS && strchr(line, '\n') == line + 27);
        for (int i = 0; i < 8; i++) {
            EXPECT(sscanf(line + 11 + 2 * i, "%2x", &byte) == 1);
            bytes[i] = (uint8_t)byte;
        }
        sum += number_at(bytes);
    }
    return sum;
}

static uint64_t snapshot(nrbpf_session *session, nrbpf_state *state) {
    uint64_t point = 0;
    EXPECT_STATUS(nrbpf_snapshot(session, state, &point), NRBPF_OK);
    EXPECT(sum_of_dump(state) == point);
    return point;
}

static uint64_t scan(nrbpf_session *session) {
    uint8_t keys[COUNTERS][4], values[COUNTERS][8];
    nrbpf_scanned scanned;
    uint64_t sum = 0;
    EXPECT_STATUS(nrbpf_scan(session, 0, 0, keys, sizeof keys, values, sizeof values, &scanned), NRBPF_OK);
    EXPECT(scanned.count == COUNTERS && scanned.next == NRBPF_END);
    for (int i = 0; i < COUNTERS; i++) {
        EXPECT(keys[i][0] == i && keys[i][1] == 0 && keys[i][2] == 0 && keys[i][3] == 0);
        sum += number_at(values[i]);
    }
    EXPECT(sum == scanned.point);
    return scanned.point;
}

static uint64_t read_all(nrbpf_session *session) {
    key keys[COUNTERS];
    nrbpf_question questions[COUNTERS];
    uint64_t replies[COUNTERS], point, sum = 0;
    for (uint32_t i = 0; i < COUNTERS; i++) {
        keys[i] = key_of(i);
        questions[i] = (nrbpf_question){&keys[i], sizeof keys[i], peek};
    }
    EXPECT_STATUS(nrbpf_read_each(session, questions, COUNTERS, replies, &point, NULL), NRBPF_OK);
    for (int i = 0; i < COUNTERS; i++) sum += replies[i];
    EXPECT(sum == point);
    return point;
}

// One counter is not below a sixteenth of what it was part of before.
static uint64_t look(nrbpf_session *session, uint32_t which, uint64_t before) {
    uint8_t value[8];
    key looked_for = key_of(which);
    nrbpf_found found;
    EXPECT_STATUS(nrbpf_get(session, 0, &looked_for, sizeof looked_for, value, sizeof value, &found), NRBPF_OK);
    EXPECT(found.is_there == 1 && found.point >= before && number_at(value) <= found.point);
    return found.point;
}

static uint64_t tried_snapshot(nrbpf_session *session, nrbpf_state *state) {
    uint64_t point;
    nrbpf_status told = nrbpf_try_snapshot(session, state, &point);
    while (told == NRBPF_BUSY) told = nrbpf_try_snapshot(session, state, &point);
    EXPECT_STATUS(told, NRBPF_OK);
    EXPECT(sum_of_dump(state) == point);
    return point;
}

// Takes them until all is counted, and so often at least. What was taken last.
static void watch(nrbpf_session *session, nrbpf_state *state) {
    uint64_t point = 0;
    int taken = 0;
    for (; taken < SNAPSHOTS || point < THREADS * UPDATES; taken++) {
        const uint64_t before = point;
        if (taken % 5 == 0) point = snapshot(session, state);
        if (taken % 5 == 1) point = scan(session);
        if (taken % 5 == 2) point = read_all(session);
        if (taken % 5 == 3) point = look(session, (uint32_t)taken % COUNTERS, before);
        if (taken % 5 == 4) point = tried_snapshot(session, state);
        EXPECT(point >= before);
    }
    EXPECT(snapshot(session, state) == THREADS * UPDATES);
    printf("%d snapshots, scans, reads and looks beside %d threads, each of one point; ", taken, THREADS);
}

// A store on what a state's dump says has all that was counted, and counts on.
static void go_on(const nrbpf_state *state) {
    static dump into;
    const nrbpf_config config = NRBPF_CONFIG(1, 1);
    counter files = counter_files();
    nrbpf_state *loaded;
    nrbpf_answer answer;
    const key third = key_of(3);
    const size_t len = strlen(files.manifest);
    dump_state(state, &into);
    EXPECT_STATUS(nrbpf_state_load(&config, files.manifest, len, files.files, programs, into.text, into.len, &loaded, NULL), NRBPF_OK);
    EXPECT_STATUS(nrbpf_open_on(&config, files.manifest, len, files.files, programs, loaded, &store, NULL), NRBPF_OK);
    nrbpf_state_free(loaded);
    nrbpf_session *session = attached(store, 0);
    EXPECT_STATUS(nrbpf_update(session, bump, &third, sizeof third, &answer), NRBPF_OK);
    EXPECT(answer.point == 0 && answer.reply == THREADS * UPDATES / COUNTERS + 1);
    EXPECT_STATUS(nrbpf_detach(session), NRBPF_OK);
    EXPECT_STATUS(nrbpf_close(store), NRBPF_OK);
    give_back(&files);
    printf("counter 3 goes on to %" PRIu64 "\n", answer.reply);
}

int main(void) {
    const nrbpf_config config = NRBPF_CONFIG(NODES, SLOTS);
    store = opened(&config);
    nrbpf_session *session = attached(store, NODES - 1);
    nrbpf_state *state;
    pthread_t threads[THREADS];
    uint32_t nodes[THREADS];
    EXPECT_STATUS(nrbpf_state_new(store, &state), NRBPF_OK);
    EXPECT(pthread_barrier_init(&start, NULL, THREADS + 1) == 0);
    for (uint32_t i = 0; i < THREADS; i++) {
        nodes[i] = i % (NODES - 1);
        EXPECT(pthread_create(&threads[i], NULL, count, &nodes[i]) == 0);
    }
    pthread_barrier_wait(&start);
    watch(session, state);
    for (int i = 0; i < THREADS; i++) EXPECT(pthread_join(threads[i], NULL) == 0);
    pthread_barrier_destroy(&start);
    EXPECT_STATUS(nrbpf_detach(session), NRBPF_OK);
    EXPECT_STATUS(nrbpf_close(store), NRBPF_OK);
    go_on(state);
    nrbpf_state_free(state);
    return 0;
}
