// reopening.c: closes a store into the state that it ends in, and opens others on that state: once, once more, with another manifest and with no
// place for a program that was installed; and what is refused meanwhile. The state is ended, and nothing is left over.
#include "fixture.h"

static const uint8_t five[] = {0xb7, 0, 0, 0, 5, 0, 0, 0, 0x95, 0, 0, 0, 0, 0, 0, 0}; // a program that replies 5
static const key third = {{3, 0, 0, 0}};
static counter files;

static nrbpf_status open_on(const nrbpf_config *config, const char *manifest, const nrbpf_state *state, nrbpf_store **store, nrbpf_error *why) {
    return nrbpf_open_on(config, manifest, strlen(manifest), files.files, programs, state, store, why);
}

// The state of a store that has counted twice and installed a program.
static nrbpf_state *counted_twice(const nrbpf_config *config) {
    nrbpf_store *store = opened(config);
    nrbpf_session *session = attached(store, 1);
    nrbpf_state *state = NULL;
    nrbpf_answer answer;
    for (uint64_t i = 0; i < 2; i++) {
        EXPECT_STATUS(nrbpf_update(session, bump, &third, sizeof third, &answer), NRBPF_OK);
        EXPECT(answer.point == i && answer.reply == i + 1);
    }
    EXPECT_STATUS(nrbpf_install(session, NRBPF_MODE_READ, 0, five, sizeof five, &answer, NULL), NRBPF_OK);
    EXPECT(answer.reply == programs);
    EXPECT_STATUS(nrbpf_close_into(store, &state), NRBPF_S5);
    EXPECT_STATUS(nrbpf_close_into(NULL, &state), NRBPF_H7);
    EXPECT_STATUS(nrbpf_close_into(store, NULL), NRBPF_H7);
    EXPECT(state == NULL);
    EXPECT_STATUS(nrbpf_read(session, peek, &third, sizeof third, &answer), NRBPF_OK);
    EXPECT(answer.point == 3 && answer.reply == 2);
    EXPECT_STATUS(nrbpf_detach(session), NRBPF_OK);
    EXPECT_STATUS(nrbpf_close_into(store, &state), NRBPF_OK);
    return state;
}

// A store on the state has the count and the program, on each of its nodes, and a history of its own.
static void goes_on(const nrbpf_config *config, const nrbpf_state *state) {
    nrbpf_store *store;
    nrbpf_answer answer;
    EXPECT_STATUS(open_on(config, files.manifest, state, &store, NULL), NRBPF_OK);
    for (uint32_t node = 0; node < config->nodes; node++) {
        nrbpf_session *session = attached(store, node);
        EXPECT_STATUS(nrbpf_read(session, peek, &third, sizeof third, &answer), NRBPF_OK);
        EXPECT(answer.point == node && answer.reply == 2 + node);
        EXPECT_STATUS(nrbpf_read(session, programs, NULL, 0, &answer), NRBPF_OK);
        EXPECT(answer.reply == 5);
        EXPECT_STATUS(nrbpf_update(session, bump, &third, sizeof third, &answer), NRBPF_OK);
        EXPECT(answer.point == node && answer.reply == 3 + node);
        EXPECT_STATUS(nrbpf_detach(session), NRBPF_OK);
    }
    EXPECT_STATUS(nrbpf_close(store), NRBPF_OK);
}

static void is_refused(nrbpf_config config, const char *manifest, const nrbpf_state *state, nrbpf_status wanted) {
    nrbpf_store *store = NULL;
    nrbpf_error why = {77, 77, 77, 77};
    EXPECT_STATUS(open_on(&config, manifest, state, &store, &why), wanted);
    EXPECT(store == NULL && why.status == wanted && why.inner == 0 && why.slot == 0);
}

int main(void) {
    nrbpf_config config = NRBPF_CONFIG(2, 2), wide = NRBPF_CONFIG(3, 1);
    config.spare = 1, wide.spare = 2;
    files = counter_files();
    nrbpf_state *state = counted_twice(&config);
    goes_on(&config, state);
    goes_on(&wide, state);

    nrbpf_config other = config;
    is_refused(other, "map array 8 15\n", state, NRBPF_O3);
    is_refused(other, "", state, NRBPF_C1);
    is_refused(other, files.manifest, NULL, NRBPF_H7);
    other.spare = 0;
    is_refused(other, files.manifest, state, NRBPF_O3);
    other.nodes = 9;
    is_refused(other, files.manifest, state, NRBPF_O1);
    other.version = 0;
    is_refused(other, files.manifest, state, NRBPF_H8);

    goes_on(&config, state);
    nrbpf_state_free(state);
    nrbpf_state_free(NULL);
    give_back(&files);
    printf("three stores went on from a state, and six were refused\n");
    return 0;
}
