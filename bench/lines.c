/* Four sessions of one store take turns on one thread, or four lanes, each with a list. bench/run_lines follows which cache lines they take from each other, so
   each turn begins with a write to the session's number in `turns`, and ends with one to the last. The words are the number of nodes, the length of a list
   (0: single updates) and the number of rounds. It runs in the top folder. */

#include "../embed/hosts/fixture.h"

enum { SESSIONS = 4, ENTRIES = 16, APART = 128 };

volatile int turns[SESSIONS + 1];

static struct turn {
    char before[APART]; /* no two sessions share a cache line here */
    nrbpf_session *session;
    nrbpf_lane *lane;
    uint8_t arguments[NRBPF_MOST_SLOTS][4];
    nrbpf_question calls[NRBPF_MOST_SLOTS];
    nrbpf_outcome outcomes[NRBPF_MOST_SLOTS];
    char after[APART];
} all[SESSIONS];

static unsigned drawn = 1;

static uint8_t entry(void) {
    drawn = drawn * 1103515245 + 12345;
    return (uint8_t)(drawn >> 16) % ENTRIES;
}

static void attach(nrbpf_store *store, uint32_t node, uint32_t length, struct turn *it) {
    for (uint32_t k = 0; k < length; k++) it->calls[k] = (nrbpf_question){it->arguments[k], 4, bump};
    if (length == 0) {
        EXPECT_STATUS(nrbpf_attach(store, node, &it->session), NRBPF_OK);
    } else {
        EXPECT_STATUS(nrbpf_attach_lane(store, node, length, &it->lane), NRBPF_OK);
    }
}

static void take_turn(int number, uint32_t length) {
    struct turn *it = &all[number];
    nrbpf_answer answer;
    for (uint32_t k = 0; k < length || k == 0; k++) it->arguments[k][0] = entry();
    turns[number] = 1;
    if (length == 0) {
        EXPECT_STATUS(nrbpf_update(it->session, bump, it->arguments[0], 4, &answer), NRBPF_OK);
    } else {
        EXPECT_STATUS(nrbpf_update_each(it->lane, it->calls, length, it->outcomes, NULL), NRBPF_OK);
    }
    turns[SESSIONS] = 1;
}

int main(int count, char **words) {
    EXPECT(count == 4);
    const uint32_t nodes = (uint32_t)atoi(words[1]), length = (uint32_t)atoi(words[2]);
    const nrbpf_config config = NRBPF_CONFIG(nodes, length == 0 ? SESSIONS / nodes : NRBPF_MOST_SLOTS);
    nrbpf_store *store = opened(&config);
    for (int i = 0; i < SESSIONS; i++) attach(store, (uint32_t)i % nodes, length, &all[i]);
    for (int round = 0; round < atoi(words[3]); round++) {
        for (int i = 0; i < SESSIONS; i++) take_turn(i, length);
    }
    return 0;
}
