// within.c: tenants. A store of three maps lets two tenants install programs, each for a map of its own and one that both may read and change; which
// programs are refused then, and at which slot; and that nothing of it is in the history: a refused program takes no index, and the state that the
// store ends in is that of the same installs without it.
#include "fixture.h"

enum { SPARE = 4, FIRST = 0, SECOND = 1, BOTH = 2 };

static const char manifest[] = "map array 8 4\nmap hash 4 8 16\nmap array 8 2\nprogram none read 0 none.hex\n";
static const char none[] = "b7000000000000009500000000000000";

// mov r0, 0; exit, behind a reference to each of two maps: the slots 0 and 2 name maps.
static void two_references(uint8_t *bytes, uint8_t first, uint8_t second) {
    static const uint8_t text[48] = {0x18, 0x51, 0, 0, 0, 0, 0, 0, 0, 0, 0, 0, 0, 0, 0, 0, 0x18, 0x52, 0, 0, 0, 0, 0, 0,
                                     0, 0, 0, 0, 0, 0, 0, 0, 0xb7, 0, 0, 0, 0, 0, 0, 0, 0x95, 0, 0, 0, 0, 0, 0, 0};
    memcpy(bytes, text, sizeof text);
    bytes[4] = first;
    bytes[20] = second;
}

typedef nrbpf_status install(nrbpf_session *, const nrbpf_confined *, nrbpf_answer *, nrbpf_error *);

// Goes on with an install that is posted.
static nrbpf_status done(nrbpf_session *session, nrbpf_status status, nrbpf_answer *answer) {
    while (status == NRBPF_POSTED) status = nrbpf_poll(session, answer);
    return status;
}

static void accepts(nrbpf_session *session, install *call, uint16_t maps, const uint8_t *bytes, size_t len, uint64_t number) {
    const nrbpf_confined program = {maps, NRBPF_MODE_UPDATE, 0, bytes, len};
    nrbpf_answer answer;
    EXPECT_STATUS(done(session, call(session, &program, &answer, NULL), &answer), NRBPF_OK);
    EXPECT(answer.reply == number);
}

static void refuses(nrbpf_session *session, install *call, uint16_t maps, const uint8_t *bytes, size_t len, uint32_t slot) {
    const nrbpf_confined program = {maps, NRBPF_MODE_UPDATE, 0, bytes, len};
    const nrbpf_answer before = {77, 78};
    nrbpf_answer answer = before;
    nrbpf_error why;
    EXPECT_STATUS(call(session, &program, &answer, &why), NRBPF_S8);
    EXPECT(why.status == NRBPF_S8 && why.inner == NRBPF_REFUSAL('V', 16) && why.line == 0 && why.slot == slot);
    EXPECT(memcmp(&answer, &before, sizeof answer) == 0);
}

static nrbpf_store *opened_for_tenants(void) {
    nrbpf_config config = NRBPF_CONFIG(1, 2);
    const nrbpf_file file = file_of("none.hex", none);
    nrbpf_store *store;
    config.spare = SPARE;
    EXPECT_STATUS(nrbpf_open(&config, manifest, strlen(manifest), &file, 1, &store, NULL), NRBPF_OK);
    return store;
}

static void tenants(install *call) {
    nrbpf_store *store = opened_for_tenants();
    nrbpf_session *session = attached(store, 0);
    uint8_t bytes[48];
    nrbpf_answer answer;
    nrbpf_error why;
    const uint16_t one = 1u << FIRST | 1u << BOTH, other = 1u << SECOND | 1u << BOTH;

    two_references(bytes, FIRST, BOTH);
    accepts(session, call, one, bytes, sizeof bytes, 1);
    refuses(session, call, other, bytes, sizeof bytes, 0);
    refuses(session, call, 1u << FIRST, bytes, sizeof bytes, 2);
    refuses(session, call, 0, bytes, sizeof bytes, 0);
    two_references(bytes, SECOND, BOTH);
    refuses(session, call, one, bytes, sizeof bytes, 0);
    accepts(session, call, other, bytes, sizeof bytes, 2);
    accepts(session, call, UINT16_MAX, bytes, sizeof bytes, 3);

    // a program that names no map, and what is refused before its maps are looked at
    accepts(session, call, 0, bytes + 32, 16, 4);
    two_references(bytes, 3, FIRST);
    refuses(session, call, 0, bytes, sizeof bytes, 0);
    const nrbpf_confined early[] = {{0, NRBPF_MODE_UPDATE, 65, bytes + 32, 16}, {0, NRBPF_MODE_READ, 0, bytes, 193}, {0, NRBPF_MODE_READ, 0, bytes + 40, 8},
                                    {0, NRBPF_MODE_READ, 0, bytes + 33, 8}, {0, 2, 0, bytes, 16}, {0, NRBPF_MODE_READ, 0, NULL, 8}};
    const nrbpf_status wanted[] = {NRBPF_S6, NRBPF_S6, NRBPF_S8, NRBPF_S7, NRBPF_H5, NRBPF_H7};
    for (size_t i = 0; i < sizeof early / sizeof *early; i++) EXPECT_STATUS(call(session, &early[i], &answer, &why), wanted[i]);

    // four installs are the whole history
    uint64_t point;
    EXPECT_STATUS(nrbpf_read_each(session, NULL, 0, NULL, &point, NULL), NRBPF_OK);
    EXPECT(point == 4);
    EXPECT_STATUS(nrbpf_detach(session), NRBPF_OK);
    EXPECT_STATUS(nrbpf_close(store), NRBPF_OK);
}

// The same installs, of which the second store knows no maps, leave the same state.
static void same_state(void) {
    static dump dumps[2];
    uint8_t bytes[48];
    two_references(bytes, FIRST, BOTH);
    for (int within = 0; within < 2; within++) {
        nrbpf_store *store = opened_for_tenants();
        nrbpf_session *session = attached(store, 0);
        const nrbpf_confined program = {1u << FIRST | 1u << BOTH, NRBPF_MODE_UPDATE, 0, bytes, sizeof bytes};
        nrbpf_answer answer;
        nrbpf_state *end;
        if (within) {
            refuses(session, nrbpf_install_within, 1u << SECOND, bytes, sizeof bytes, 0);
            EXPECT_STATUS(nrbpf_install_within(session, &program, &answer, NULL), NRBPF_OK);
        } else {
            EXPECT_STATUS(nrbpf_install(session, program.mode, program.argument_len, bytes, sizeof bytes, &answer, NULL), NRBPF_OK);
        }
        EXPECT(answer.point == 0 && answer.reply == 1);
        EXPECT_STATUS(nrbpf_detach(session), NRBPF_OK);
        EXPECT_STATUS(nrbpf_close_into(store, &end), NRBPF_OK);
        dump_state(end, &dumps[within]);
        nrbpf_state_free(end);
    }
    EXPECT(strcmp(dumps[0].text, dumps[1].text) == 0);
}

int main(void) {
    tenants(nrbpf_install_within);
    tenants(nrbpf_try_install_within);
    same_state();
    puts("two tenants, each with maps of its own");
    return 0;
}
