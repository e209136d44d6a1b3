// check.c: checks the C of embed/, which is trusted, in every way within bounds. It compiles that C as it is, and puts it on a stand-in for the proved library
// (contract.c), which compares each word and byte that arrives with what the host gave. A host makes calls (host.c, openings.c, nulls.c), and a model of
// nrbpf.h says what each must answer and write.
//
//     check calls COUNT [BEGINNING]  each sequence of so many calls, after each of nine beginnings or the one of this number, with each answer of the
//                                    stand-in; once in each of the shortest runs memory is refused
//     check random SEED RUNS COUNT   so many random sequences of at most so many calls
//     check threads SWITCHES MOST    at most so many interleavings of each scenario below, with at most so many forced switches
//     check once                     openings with each word, text and version of a list, a store of 8 nodes with 16 sessions, each null pointer, and each text
//
// A store has 2 sessions, except the large one of `once`. Of refusals that the C passes on alike the stand-in answers with one or some.
//
// A thread is switched at each lock, unlock and yield, and before and after each call of the stand-in. Where it waits, a switch is not forced. So a data race
// between two of these points is not seen: that is for ThreadSanitizer (embed/hosts/handles.c). Of a posted update the stand-in never answers BUSY, and of
// nrbpf_raw_detach never H6.
#include "check.h"
#include <stdlib.h>
#include <string.h>

// ---- Scenarios of threads. Each opens a store of one node with two sessions.

enum { PROGRAM = 40 };

static nrbpf_session *shared, *late;
static nrbpf_lane *shared_lane, *late_lane;
static int is_closed;

static void detach_shared(void) {
    EXPECT(nrbpf_detach(shared), 0, "detach");
}

static void update_and_detach(void) {
    nrbpf_answer answer;
    ready(2);
    lend("abc", 3);
    last.program = PROGRAM;
    const nrbpf_status told = nrbpf_update(shared, PROGRAM, "abc", 3, &answer);
    NEED(told == 0 || told == NRBPF_S2 || told == NRBPF_S4, "update answers %x", told);
    detach_shared();
}

static void update_each_and_detach(void) {
    const nrbpf_question calls[2] = {{"", 0, PROGRAM}, {"", 0, PROGRAM + 1}};
    nrbpf_outcome outcomes[2];
    ready(1);
    last.program = PROGRAM;
    const nrbpf_status told = nrbpf_update_each(shared_lane, calls, 2, outcomes, NULL);
    NEED(told == 0 || told == NRBPF_S2 || told == NRBPF_S4, "update_each answers %x", told);
    EXPECT(nrbpf_detach_lane(shared_lane), 0, "detach_lane");
}

int check_yield(void);

static void close_soon(void) {
    nrbpf_status told;
    ready(0);
    while ((told = nrbpf_close(store)) != 0) {
        EXPECT(told, NRBPF_S5, "close");
        check_yield();
    }
    is_closed = 1;
}

static void close_into_soon(void) {
    nrbpf_state *state = NULL;
    nrbpf_status told;
    ready(1);
    while ((told = nrbpf_close_into(store, &state)) != 0) {
        NEED(told == NRBPF_S5 || told == NRBPF_O2, "close_into answers %x", told);
        check_yield();
    }
    nrbpf_state_free(state);
    is_closed = 1;
}

static void come_and_go(void) {
    for (int i = 0; i < 2; i++) {
        nrbpf_session *session;
        nrbpf_answer answer;
        const nrbpf_status given = nrbpf_attach(store, 0, &session);
        if (given) {
            EXPECT(given, NRBPF_H1, "attach");
            continue;
        }
        ready(0);
        last.call = NRBPF_RAW_READ;
        last.program = PROGRAM;
        const nrbpf_status told = nrbpf_try_read(session, PROGRAM, NULL, 0, &answer);
        NEED(told != NRBPF_H2 && told != NRBPF_H3, "a new session answers %x", told);
        EXPECT(nrbpf_detach(session), 0, "detach");
        EXPECT(nrbpf_detach(session), NRBPF_H2, "a second detach");
    }
}

static void come_and_go_as_lane(void) {
    nrbpf_lane *lane;
    ready(0);
    const nrbpf_status given = nrbpf_attach_lane(store, 0, 2, &lane);
    if (given) {
        EXPECT(given, NRBPF_H1, "attach_lane");
        return;
    }
    EXPECT(nrbpf_detach_lane(lane), 0, "detach_lane");
    EXPECT(nrbpf_detach_lane(lane), NRBPF_H2, "a second detach_lane");
}

static void call_late(void) {
    nrbpf_answer answer;
    nrbpf_outcome outcome;
    ready(0);
    for (int i = 0; i < 3; i++) {
        EXPECT(nrbpf_update(late, PROGRAM, NULL, 0, &answer), NRBPF_H2, "an update on what was given back");
        EXPECT(nrbpf_poll_each(late_lane, &outcome), NRBPF_H2, "a poll on what was given back");
    }
    EXPECT(nrbpf_detach(late), NRBPF_H2, "a second detach");
    EXPECT(nrbpf_detach_lane(late_lane), NRBPF_H2, "a second detach_lane");
}

static void ask_store(void) {
    nrbpf_state *state;
    nrbpf_store_facts facts;
    uint16_t number;
    ready(0);
    lend("ab", 2);
    if (nrbpf_state_new(store, &state) == 0) nrbpf_state_free(state);
    EXPECT(nrbpf_store_info(store, &facts, sizeof facts), 0, "store_info");
    (void)!nrbpf_program_number(store, "ab", 2, &number);
}

static const struct scenario {
    const char *name;
    int has_session, has_lane, has_late;
    void (*bodies[MOST_THREADS + 1])(void);
} scenarios[] = {
    {"a detach next to close", 1, 0, 0, {detach_shared, close_soon}},
    {"an update and a detach next to close", 1, 0, 0, {update_and_detach, close_soon}},
    {"an update and a detach next to close_into", 1, 0, 0, {update_and_detach, close_into_soon}},
    {"a list and a detach next to close", 0, 1, 0, {update_each_and_detach, close_soon}},
    {"a list and a detach next to close_into", 0, 1, 0, {update_each_and_detach, close_into_soon}},
    {"sessions next to sessions", 0, 0, 0, {come_and_go, come_and_go}},
    {"sessions next to a lane", 0, 0, 0, {come_and_go, come_and_go_as_lane}},
    {"a lane next to a lane", 0, 0, 0, {come_and_go_as_lane, come_and_go_as_lane}},
    {"late calls next to sessions", 0, 0, 1, {call_late, come_and_go}},
    {"late calls next to a lane", 0, 0, 1, {call_late, come_and_go_as_lane}},
    {"questions next to sessions and a lane", 0, 0, 0, {ask_store, come_and_go, come_and_go_as_lane}},
};
enum { SCENARIOS = sizeof scenarios / sizeof scenarios[0] };

static void run_scenario(const struct scenario *it, int switches) {
    const nrbpf_file file = {"a", 1, "95", 2};
    ready(0);
    ask_to_open(&sizes, "m", 1, &file, 1);
    EXPECT(nrbpf_open(&sizes, "m", 1, &file, 1, &store, NULL), 0, "open");
    if (it->has_session) EXPECT(nrbpf_attach(store, 0, &shared), 0, "attach");
    if (it->has_lane) EXPECT(nrbpf_attach_lane(store, 0, 2, &shared_lane), 0, "attach_lane");
    if (it->has_late) {
        EXPECT(nrbpf_attach(store, 0, &late), 0, "attach");
        EXPECT(nrbpf_detach(late), 0, "detach");
        EXPECT(nrbpf_attach_lane(store, 0, 2, &late_lane), 0, "attach_lane");
        EXPECT(nrbpf_detach_lane(late_lane), 0, "detach_lane");
    }
    is_closed = 0;
    run_at_once(it->bodies, switches);
    if (!is_closed) EXPECT(nrbpf_close(store), 0, "close at the end");
    EXPECT(held, 0, "blocks of memory are left");
    EXPECT(blocks, 0, "blocks of the library's memory are left");
}

// ---- The three kinds of check

static void check_calls(unsigned count, int beginning) {
    choose_exhaustively();
    do {
        begin_run();
        run_calls(count, beginning);
    } while (has_next_run());
}

static void check_randomly(uint64_t seed, unsigned long most, unsigned count) {
    is_willing = 1;
    for (unsigned long k = 0; k < most; k++) {
        choose_by(seed * 1000003 + k);
        begin_run();
        run_calls(count, -1);
    }
}

static void check_once(void) {
    void (*const checks[])(void) = {run_openings, run_nulls};
    is_willing = 1;
    for (size_t k = 0; k < sizeof checks / sizeof checks[0]; k++) {
        choose_exhaustively();
        do {
            begin_run();
            checks[k]();
        } while (has_next_run());
    }
}

static void check_threads(int switches, unsigned long most) {
    is_willing = 1;
    for (size_t k = 0; k < SCENARIOS; k++) {
        const unsigned long before = runs;
        choose_exhaustively();
        do {
            begin_run();
            note("%s", scenarios[k].name);
            run_scenario(&scenarios[k], switches);
        } while (has_next_run() && runs - before < most);
    }
}

int main(int count, char **words) {
    if ((count == 3 || count == 4) && strcmp(words[1], "calls") == 0) {
        check_calls((unsigned)strtoul(words[2], NULL, 10), count == 3 ? -1 : (int)strtol(words[3], NULL, 10));
    } else if (count == 5 && strcmp(words[1], "random") == 0) {
        check_randomly(strtoull(words[2], NULL, 10), strtoul(words[3], NULL, 10), (unsigned)strtoul(words[4], NULL, 10));
    } else if (count == 4 && strcmp(words[1], "threads") == 0) {
        check_threads((int)strtol(words[2], NULL, 10), strtoul(words[3], NULL, 10));
    } else if (count == 2 && strcmp(words[1], "once") == 0) {
        check_once();
    } else {
        fprintf(stderr, "check calls COUNT [BEGINNING] | check random SEED RUNS COUNT | check threads SWITCHES MOST | check once\n");
        return 2;
    }
    printf("%s: %lu runs with %lu calls answer as nrbpf.h says\n", words[1], runs, host_calls);
    return 0;
}
