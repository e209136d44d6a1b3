// arguments.c: programs of a manifest whose arguments have 16,384 bytes, the most that a host may allow, 1,001 and 12. They are put by one node and read on
// another, by each call that runs a program. The log has their updates where it had those of other lengths, also while threads of both nodes make updates of
// all three at once. What is longer is refused, and so is an installed program with more than 64.
#include "fixture.h"
#include <pthread.h>

enum { KEY = 4, LONG = 16384, MIDDLE = 1001, SHORT = 12, KEYS = 8, WINDOW = 16, THREADS = 4, TURNS = 2000 };
enum { PUT = 0, PUT_SHORT = 1, PUT_MIDDLE = 2, PUTS = 3, LAST = 3, PLACE = 4 };

static const char manifest[] =
    "map hash 4 16380 8\nmap hash 4 8 8\nmap hash 4 997 8\n"
    "program put update 16384 put\nprogram put-short update 12 short\nprogram put-middle update 1001 middle\nprogram last read 16384 last\n";

// The first three put all bytes of their argument but the first four under these four, each into a map of its own. The fourth replies the last eight bytes
// of its own argument.
static const char put[] = "bf12000000000000bf13000000000000070300000400000018510000000000000000000000000000b70400000000000085000000020000009500000000000000";
static const char put_short[] = "bf12000000000000bf13000000000000070300000400000018510000010000000000000000000000b70400000000000085000000020000009500000000000000";
static const char put_middle[] = "bf12000000000000bf13000000000000070300000400000018510000020000000000000000000000b70400000000000085000000020000009500000000000000";
static const char last[] = "7910f83f000000009500000000000000";

static nrbpf_store *store;
static nrbpf_session *own, *other;              // of node 0 and of node 1

// An argument of up to 16,386 bytes: a key, and bytes that differ from turn to turn.
typedef struct argument {
    uint8_t bytes[LONG + 2];
} argument;

static argument argument_of(uint32_t key, uint32_t turn) {
    argument it;
    memcpy(it.bytes, &key, KEY);
    for (uint32_t i = KEY; i < sizeof it.bytes; i++) it.bytes[i] = (uint8_t)(1 + 31 * turn + 7 * i + (i >> 8) + key);
    return it;
}

static uint64_t last_of(const argument *it) {
    uint64_t number = 0;
    for (int i = LONG - 1; i >= LONG - 8; i--) number = number << 8 | it->bytes[i];
    return number;
}

static size_t length_of(uint16_t program) { return program == PUT_SHORT ? SHORT : program == PUT_MIDDLE ? MIDDLE : LONG; }

static nrbpf_question call_of(const argument *it, uint16_t program) { return (nrbpf_question){it->bytes, length_of(program), program}; }

static void open_store(void) {
    nrbpf_config config = NRBPF_CONFIG(2, 8);
    const nrbpf_file files[] = {file_of("put", put), file_of("short", put_short), file_of("middle", put_middle), file_of("last", last)};
    config.window = WINDOW;
    config.spare = 1;
    config.limits.value = LONG;
    config.limits.argument = LONG;
    EXPECT_STATUS(nrbpf_open(&config, manifest, strlen(manifest), files, 4, &store, NULL), NRBPF_OK);
    own = attached(store, 0);
    other = attached(store, 1);
}

static void close_store(void) {
    EXPECT_STATUS(nrbpf_detach(own), NRBPF_OK);
    EXPECT_STATUS(nrbpf_detach(other), NRBPF_OK);
    EXPECT_STATUS(nrbpf_close(store), NRBPF_OK);
}

static void update(nrbpf_session *session, const argument *it, uint16_t program) {
    const nrbpf_question call = call_of(it, program);
    nrbpf_answer answer;
    EXPECT_STATUS(nrbpf_update(session, program, call.argument, call.len, &answer), NRBPF_OK);
    EXPECT(answer.reply == 0);
}

// The map of this program has this argument.
static void has(nrbpf_session *session, const argument *it, uint16_t program) {
    const size_t len = length_of(program) - KEY;
    uint8_t value[LONG - KEY];
    nrbpf_found found;
    EXPECT_STATUS(nrbpf_get(session, program, it->bytes, KEY, value, len, &found), NRBPF_OK);
    EXPECT(found.is_there && memcmp(value, it->bytes + KEY, len) == 0);
}

// ---- One thread

static void by_each_call(void) {
    const argument it = argument_of(1, 1), tried = argument_of(2, 2);
    nrbpf_answer answer;
    nrbpf_program_facts facts;
    open_store();
    update(own, &it, PUT);
    has(other, &it, PUT);
    EXPECT_STATUS(nrbpf_read(other, LAST, it.bytes, LONG, &answer), NRBPF_OK);
    EXPECT(answer.point == 1 && answer.reply == last_of(&it));
    EXPECT_STATUS(nrbpf_try_update(other, PUT, tried.bytes, LONG, &answer), NRBPF_OK); // nobody is in the way
    EXPECT(answer.point == 1 && answer.reply == 0);
    has(own, &tried, PUT);
    EXPECT_STATUS(nrbpf_try_read(own, LAST, tried.bytes, LONG, &answer), NRBPF_OK);
    EXPECT(answer.point == 2 && answer.reply == last_of(&tried));
    EXPECT_STATUS(nrbpf_program_info(own, PUT, &facts, sizeof facts), NRBPF_OK);
    EXPECT(facts.argument_len == LONG);
    close_store();
}

static void by_lists(void) {
    argument given[NRBPF_MOST_QUESTIONS];
    nrbpf_question questions[NRBPF_MOST_QUESTIONS], calls[5];
    nrbpf_outcome outcomes[5];
    nrbpf_lane *lane;
    uint64_t replies[NRBPF_MOST_QUESTIONS], point;
    open_store();
    for (uint32_t i = 0; i < NRBPF_MOST_QUESTIONS; i++) {
        given[i] = argument_of(i % KEYS, i);
        questions[i] = call_of(&given[i], LAST);
    }
    for (int i = 0; i < 5; i++) calls[i] = call_of(&given[i], (uint16_t)(i % PUTS));
    EXPECT_STATUS(nrbpf_attach_lane(store, 0, 5, &lane), NRBPF_OK);
    EXPECT_STATUS(nrbpf_update_each(lane, calls, 5, outcomes, NULL), NRBPF_OK);
    for (uint64_t i = 0; i < 5; i++) EXPECT(outcomes[i].status == NRBPF_OK && outcomes[i].point == i && outcomes[i].reply == 0);
    for (int i = 0; i < 5; i++) has(other, &given[i], calls[i].program);
    EXPECT_STATUS(nrbpf_detach_lane(lane), NRBPF_OK);
    EXPECT_STATUS(nrbpf_read_each(other, questions, NRBPF_MOST_QUESTIONS, replies, &point, NULL), NRBPF_OK);
    EXPECT(point == 5);
    for (int i = 0; i < NRBPF_MOST_QUESTIONS; i++) EXPECT(replies[i] == last_of(&given[i]));
    close_store();
}

// Each place of the log has arguments of all three lengths one after another.
static void by_turns(void) {
    static argument given[PUTS][KEYS];
    open_store();
    for (uint32_t turn = 0; turn < TURNS; turn++) {
        const uint32_t key = turn * 5 % KEYS;
        const uint16_t program = (uint16_t)(turn / 5 % PUTS);
        argument *const it = &given[program][key];
        *it = argument_of(key, turn);
        update(turn % 7 < 4 ? own : other, it, program);
        has(turn % 5 < 3 ? own : other, it, program);
    }
    for (uint32_t key = 0; key < KEYS; key++)
        for (uint16_t program = 0; program < PUTS; program++) has((key + program) % 2 ? own : other, &given[program][key], program);
    close_store();
}

// ---- What is refused

// What each call says of one byte too few or too many, and that nothing has happened.
static void refuses(void) {
    const argument it = argument_of(1, 1);
    const size_t lengths[] = {LONG - 1, LONG + 1, LONG + 2, SIZE_MAX};
    static const uint8_t five[] = {0xb7, 0, 0, 0, 5, 0, 0, 0, 0x95, 0, 0, 0, 0, 0, 0, 0};
    nrbpf_answer answer = {77, 77};
    nrbpf_outcome outcomes[2] = {{77, 77, 77}, {77, 77, 77}};
    nrbpf_error why;
    nrbpf_lane *lane;
    uint64_t replies[2] = {77, 77}, point = 77;
    open_store();
    EXPECT_STATUS(nrbpf_attach_lane(store, 0, 2, &lane), NRBPF_OK);
    for (int i = 0; i < 4; i++) {
        const nrbpf_question calls[] = {call_of(&it, PUT), {it.bytes, lengths[i], PUT}}, questions[] = {call_of(&it, LAST), {it.bytes, lengths[i], LAST}};
        EXPECT_STATUS(nrbpf_update(own, PUT, it.bytes, lengths[i], &answer), NRBPF_S2);
        EXPECT_STATUS(nrbpf_try_update(own, PUT, it.bytes, lengths[i], &answer), NRBPF_S2);
        EXPECT_STATUS(nrbpf_read(own, LAST, it.bytes, lengths[i], &answer), NRBPF_S2);
        EXPECT_STATUS(nrbpf_try_read(own, LAST, it.bytes, lengths[i], &answer), NRBPF_S2);
        EXPECT_STATUS(nrbpf_update_each(lane, calls, 2, outcomes, &why), NRBPF_S2);
        EXPECT(why.status == NRBPF_S2 && why.slot == 1);
        EXPECT_STATUS(nrbpf_read_each(own, questions, 2, replies, &point, &why), NRBPF_S2);
        EXPECT(why.status == NRBPF_S2 && why.slot == 1);
    }
    // a program that is installed has at most 64, whatever the manifest may have: `long_bytes` is 0 here
    EXPECT_STATUS(nrbpf_update(own, PLACE, it.bytes, 65, &answer), NRBPF_S2);
    EXPECT_STATUS(nrbpf_update(own, PLACE, it.bytes, LONG, &answer), NRBPF_S2);
    EXPECT_STATUS(nrbpf_read(own, PLACE, it.bytes, LONG + 1, &answer), NRBPF_S2);
    EXPECT_STATUS(nrbpf_install(own, NRBPF_MODE_READ, 65, five, sizeof five, &answer, NULL), NRBPF_S6);
    EXPECT_STATUS(nrbpf_install(own, NRBPF_MODE_READ, LONG, five, sizeof five, &answer, NULL), NRBPF_S6);
    EXPECT(answer.point == 77 && answer.reply == 77 && outcomes[0].status == 77 && outcomes[1].status == 77 && replies[0] == 77 && point == 77);
    EXPECT_STATUS(nrbpf_read(other, LAST, it.bytes, LONG, &answer), NRBPF_OK);
    EXPECT(answer.point == 0);
    EXPECT_STATUS(nrbpf_update(own, PLACE, it.bytes, 64, &answer), NRBPF_OK);
    EXPECT(answer.point == 0 && answer.reply == NRBPF_REPLY_INVALID);
    EXPECT_STATUS(nrbpf_detach_lane(lane), NRBPF_OK);
    close_store();
}

// ---- Threads

// An argument, and the answer in the same place.
typedef union room {
    argument given;
    nrbpf_answer answer;
} room;

// Updates, and waits for nobody. As soon as the update is posted, the host has its argument's memory again.
static nrbpf_status try_to_put(nrbpf_session *session, uint16_t program, room *in) {
    const nrbpf_question call = call_of(&in->given, program);
    nrbpf_status told = NRBPF_BUSY;
    while (told == NRBPF_BUSY) told = nrbpf_try_update(session, program, call.argument, call.len, &in->answer);
    while (told == NRBPF_POSTED) {
        memset(in, 0xee, sizeof *in);
        told = nrbpf_poll(session, &in->answer);
    }
    return told;
}

// Each has two keys of its own, and finds what it has put there, two arguments of each length in turn. Every other update waits for nobody.
static void *put_and_find(void *at) {
    const uint32_t key = *(const uint32_t *)at;
    nrbpf_session *session = attached(store, key % 2);
    for (uint32_t turn = 0; turn < TURNS; turn++) {
        const uint16_t program = (uint16_t)(turn / 2 % PUTS);
        const argument it = argument_of(key + THREADS * (turn % 2), turn);
        room in = {.given = it};
        const nrbpf_question call = call_of(&in.given, program);
        if (turn % 2) EXPECT_STATUS(nrbpf_update(session, program, call.argument, call.len, &in.answer), NRBPF_OK);
        else EXPECT_STATUS(try_to_put(session, program, &in), NRBPF_OK);
        EXPECT(in.answer.reply == 0);
        has(session, &it, program);
    }
    EXPECT_STATUS(nrbpf_detach(session), NRBPF_OK);
    return NULL;
}

static void at_once(void) {
    pthread_t threads[THREADS];
    uint32_t keys[THREADS];
    nrbpf_counts counts;
    open_store();
    for (uint32_t i = 0; i < THREADS; i++) {
        keys[i] = i;
        EXPECT(pthread_create(&threads[i], NULL, put_and_find, &keys[i]) == 0);
    }
    for (int i = 0; i < THREADS; i++) EXPECT(pthread_join(threads[i], NULL) == 0);
    EXPECT_STATUS(nrbpf_stats(own, &counts, sizeof counts), NRBPF_OK);
    EXPECT(counts.completed == THREADS * TURNS);
    for (uint32_t i = 0; i < 2 * PUTS * THREADS; i++) {
        const uint32_t key = i / PUTS, turn = TURNS - 2 * (1 + i % PUTS) + key / THREADS; // one of the last three of this key
        const uint16_t program = (uint16_t)(turn / 2 % PUTS);
        const argument it = argument_of(key, turn);
        has(own, &it, program);
        has(other, &it, program);
    }
    close_store();
}

int main(void) {
    by_each_call();
    by_lists();
    by_turns();
    refuses();
    at_once();
    printf("arguments of %d bytes go to the other node, and %d bytes are refused\n", LONG, LONG + 1);
    return 0;
}
