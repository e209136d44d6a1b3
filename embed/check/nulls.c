// nulls.c: each call with each null pointer that it refuses (H7), on handles that are attached and on earlier ones, and each text.
#include "check.h"
#include <stdlib.h>
#include <string.h>

// ---- Null pointers

enum { UNWRITTEN = 0x5a, PROGRAM = 40 };

// What the calls would write.
static struct {
    nrbpf_answer answer;
    nrbpf_found found;
    nrbpf_scanned scanned;
    nrbpf_map_facts map;
    nrbpf_program_facts program;
    nrbpf_store_facts facts;
    nrbpf_counts counts;
    nrbpf_outcome outcomes[2];
    uint64_t replies[2], point;
    uint16_t number;
    nrbpf_store *store;
    nrbpf_session *session;
    nrbpf_lane *lane;
    nrbpf_state *state;
    uint8_t bytes[8];
} out;

static nrbpf_session *session;
static nrbpf_lane *lane;
static nrbpf_state *state;
static nrbpf_error why;
static unsigned long before;

static void expect_null(nrbpf_status told, const char *call) {
    EXPECT(told, NRBPF_H7, "%s", call);
    EXPECT(entries, before, "%s reaches the library", call);
    for (size_t k = 0; k < sizeof out; k++) EXPECT(((const uint8_t *)&out)[k], UNWRITTEN, "%s writes", call);
}
#define NULL_IN(call) expect_null(call, #call)

// (the same of a call that says why)
static void expect_why(nrbpf_status told, const char *call) {
    static const nrbpf_error wanted = {NRBPF_H7, 0, 0, 0};
    expect_null(told, call);
    NEED(memcmp(&why, &wanted, sizeof why) == 0, "%s says another reason", call);
    memset(&why, UNWRITTEN, sizeof why);
}
#define NULL_WHY(call) expect_why(call, #call)

typedef nrbpf_status run_call(nrbpf_session *, uint16_t, const void *, size_t, nrbpf_answer *);
typedef nrbpf_status install_call(nrbpf_session *, uint32_t, uint32_t, const void *, size_t, nrbpf_answer *, nrbpf_error *);
typedef nrbpf_status confined_call(nrbpf_session *, const nrbpf_confined *, nrbpf_answer *, nrbpf_error *);
typedef nrbpf_status list_call(nrbpf_lane *, const nrbpf_question *, size_t, nrbpf_outcome *, nrbpf_error *);

static void null_runs(run_call *run) {
    NULL_IN(run(NULL, PROGRAM, "a", 1, &out.answer));
    NULL_IN(run(session, PROGRAM, NULL, 1, &out.answer));
    NULL_IN(run(session, PROGRAM, "a", 1, NULL));
}

static void null_installs(install_call *install, confined_call *within) {
    const nrbpf_confined program = {1, NRBPF_MODE_READ, 0, "a", 1}, none = {1, NRBPF_MODE_READ, 0, NULL, 1};
    NULL_WHY(install(NULL, 0, 0, "a", 1, &out.answer, &why));
    NULL_WHY(install(session, 0, 0, NULL, 1, &out.answer, &why));
    NULL_WHY(install(session, 0, 0, "a", 1, NULL, &why));
    NULL_IN(install(session, 0, 0, "a", 1, NULL, NULL));
    NULL_WHY(within(NULL, &program, &out.answer, &why));
    NULL_WHY(within(session, NULL, &out.answer, &why));
    NULL_WHY(within(session, &none, &out.answer, &why));
    NULL_WHY(within(session, &program, NULL, &why));
    NULL_IN(within(session, &program, NULL, NULL));
}

#define NULL_READS(get, scan, read_each, snapshot, map_info, program_info, stats)        \
    do {                                                                                 \
        NULL_IN(get(NULL, 0, "a", 1, out.bytes, 8, &out.found));                         \
        NULL_IN(get(session, 0, NULL, 1, out.bytes, 8, &out.found));                     \
        NULL_IN(get(session, 0, "a", 1, NULL, 8, &out.found));                           \
        NULL_IN(get(session, 0, "a", 1, out.bytes, 8, NULL));                            \
        NULL_IN(scan(NULL, 0, 0, out.bytes, 4, out.bytes + 4, 4, &out.scanned));         \
        NULL_IN(scan(session, 0, 0, NULL, 4, out.bytes + 4, 4, &out.scanned));           \
        NULL_IN(scan(session, 0, 0, out.bytes, 4, NULL, 4, &out.scanned));               \
        NULL_IN(scan(session, 0, 0, out.bytes, 4, out.bytes + 4, 4, NULL));              \
        NULL_WHY(read_each(NULL, questions, 1, out.replies, &out.point, &why));          \
        NULL_WHY(read_each(session, NULL, 1, out.replies, &out.point, &why));            \
        NULL_WHY(read_each(session, questions, 1, NULL, &out.point, &why));              \
        NULL_WHY(read_each(session, questions, 1, out.replies, NULL, &why));             \
        NULL_IN(read_each(session, questions, 1, out.replies, NULL, NULL));              \
        NULL_IN(snapshot(NULL, state, &out.point));                                      \
        NULL_IN(snapshot(session, NULL, &out.point));                                    \
        NULL_IN(snapshot(session, state, NULL));                                         \
        NULL_IN(map_info(NULL, 0, &out.map, sizeof out.map));                            \
        NULL_IN(map_info(session, 0, NULL, sizeof out.map));                             \
        NULL_IN(program_info(NULL, 0, &out.program, sizeof out.program));                \
        NULL_IN(program_info(session, 0, NULL, sizeof out.program));                     \
        NULL_IN(stats(NULL, &out.counts, sizeof out.counts));                            \
        NULL_IN(stats(session, NULL, sizeof out.counts));                                \
    } while (0)

static void null_lists(list_call *list) {
    const nrbpf_question calls[1] = {{"a", 1, PROGRAM}};
    NULL_WHY(list(NULL, calls, 1, out.outcomes, &why));
    NULL_WHY(list(lane, NULL, 1, out.outcomes, &why));
    NULL_WHY(list(lane, calls, 1, NULL, &why));
    NULL_IN(list(lane, calls, 1, NULL, NULL));
}

static void null_stores(void) {
    NULL_IN(nrbpf_program_number(NULL, "a", 1, &out.number));
    NULL_IN(nrbpf_program_number(store, NULL, 1, &out.number));
    NULL_IN(nrbpf_program_number(store, "a", 1, NULL));
    NULL_IN(nrbpf_attach(NULL, 0, &out.session));
    NULL_IN(nrbpf_attach(store, 0, NULL));
    NULL_IN(nrbpf_attach_lane(NULL, 0, 1, &out.lane));
    NULL_IN(nrbpf_attach_lane(store, 0, 1, NULL));
    NULL_IN(nrbpf_detach(NULL));
    NULL_IN(nrbpf_detach_lane(NULL));
    NULL_IN(nrbpf_state_new(NULL, &out.state));
    NULL_IN(nrbpf_state_new(store, NULL));
    NULL_IN(nrbpf_store_info(NULL, &out.facts, sizeof out.facts));
    NULL_IN(nrbpf_store_info(store, NULL, sizeof out.facts));
    NULL_IN(nrbpf_close(NULL));
    NULL_IN(nrbpf_close_into(NULL, &out.state));
    NULL_IN(nrbpf_close_into(store, NULL));
}

static void null_openings(void) {
    const nrbpf_file good[1] = {{"a", 1, "9", 1}}, no_name[1] = {{NULL, 1, "9", 1}}, no_text[1] = {{"a", 1, NULL, 1}};
    NULL_IN(nrbpf_config_init(NULL, NRBPF_VERSION, 1, 1));
    NULL_WHY(nrbpf_open(NULL, "m", 1, good, 1, &out.store, &why));
    NULL_WHY(nrbpf_open(&sizes, NULL, 1, good, 1, &out.store, &why));
    NULL_WHY(nrbpf_open(&sizes, "m", 1, NULL, 1, &out.store, &why));
    NULL_WHY(nrbpf_open(&sizes, "m", 1, no_name, 1, &out.store, &why));
    NULL_WHY(nrbpf_open(&sizes, "m", 1, no_text, 1, &out.store, &why));
    NULL_WHY(nrbpf_open(&sizes, "m", 1, good, 1, NULL, &why));
    NULL_IN(nrbpf_open(&sizes, "m", 1, good, 1, NULL, NULL));
    NULL_WHY(nrbpf_open_on(NULL, "m", 1, good, 1, state, &out.store, &why));
    NULL_WHY(nrbpf_open_on(&sizes, NULL, 1, good, 1, state, &out.store, &why));
    NULL_WHY(nrbpf_open_on(&sizes, "m", 1, NULL, 1, state, &out.store, &why));
    NULL_WHY(nrbpf_open_on(&sizes, "m", 1, good, 1, NULL, &out.store, &why));
    NULL_WHY(nrbpf_open_on(&sizes, "m", 1, good, 1, state, NULL, &why));
    NULL_WHY(nrbpf_state_load(NULL, "m", 1, good, 1, "1", 1, &out.state, &why));
    NULL_WHY(nrbpf_state_load(&sizes, NULL, 1, good, 1, "1", 1, &out.state, &why));
    NULL_WHY(nrbpf_state_load(&sizes, "m", 1, NULL, 1, "1", 1, &out.state, &why));
    NULL_WHY(nrbpf_state_load(&sizes, "m", 1, no_text, 1, "1", 1, &out.state, &why));
    NULL_WHY(nrbpf_state_load(&sizes, "m", 1, good, 1, NULL, 1, &out.state, &why));
    NULL_WHY(nrbpf_state_load(&sizes, "m", 1, good, 1, "1", 1, NULL, &why));
}

static int no_writer(void *to, const char *bytes, size_t length) {
    (void)to, (void)bytes, (void)length;
    return 1;
}

static void null_all(void) {
    const nrbpf_question questions[1] = {{"a", 1, PROGRAM}};
    before = entries;
    memset(&out, UNWRITTEN, sizeof out);
    memset(&why, UNWRITTEN, sizeof why);
    null_runs(nrbpf_update);
    null_runs(nrbpf_try_update);
    null_runs(nrbpf_read);
    null_runs(nrbpf_try_read);
    null_installs(nrbpf_install, nrbpf_install_within);
    null_installs(nrbpf_try_install, nrbpf_try_install_within);
    NULL_IN(nrbpf_poll(NULL, &out.answer));
    NULL_IN(nrbpf_poll(session, NULL));
    NULL_READS(nrbpf_get, nrbpf_scan, nrbpf_read_each, nrbpf_snapshot, nrbpf_map_info, nrbpf_program_info, nrbpf_stats);
    NULL_READS(nrbpf_try_get, nrbpf_try_scan, nrbpf_try_read_each, nrbpf_try_snapshot, nrbpf_try_map_info, nrbpf_try_program_info, nrbpf_try_stats);
    null_lists(nrbpf_update_each);
    null_lists(nrbpf_try_update_each);
    NULL_IN(nrbpf_poll_each(NULL, out.outcomes));
    NULL_IN(nrbpf_poll_each(lane, NULL));
    null_stores();
    null_openings();
    NULL_IN(nrbpf_state_dump(NULL, no_writer, NULL));
    NULL_IN(nrbpf_state_dump(state, NULL, NULL));
    nrbpf_state_free(NULL);
    EXPECT(entries, before, "state_free of no state reaches the library");
}

// ---- Texts

// How many statuses a letter has, from the first on.
static const struct { char letter; unsigned first, end; } letters[] = {
    {'C', 1, 7}, {'E', 0, 10}, {'O', 1, 4}, {'S', 1, 13}, {'H', 1, 12}, {'D', 0, 10}, {'V', 0, 19},
};

static void ask_statuses(void) {
    static const char unknown[] = "unknown status";
    char head[16];
    for (nrbpf_status status = 0; status < 256; status++) {
        EXPECT(strcmp(nrbpf_status_text(status), unknown) != 0, status <= NRBPF_POSTED, "the text of %u", status);
    }
    for (size_t k = 0; k < sizeof letters / sizeof letters[0]; k++) {
        for (unsigned number = 0; number < 256; number++) {
            const char *const text = nrbpf_status_text(NRBPF_REFUSAL(letters[k].letter, number));
            const int is_known = number >= letters[k].first && number < letters[k].end;
            snprintf(head, sizeof head, "%c%u: ", letters[k].letter, number);
            NEED(is_known ? strncmp(text, head, strlen(head)) == 0 : strcmp(text, unknown) == 0, "the text of %s%s", head, text);
        }
    }
}

// An error's text is whole, or cut to fit, with its zero, and no byte is written after that.
static void ask_error(const nrbpf_error *error, const char *wanted) {
    const size_t length = strlen(wanted);
    EXPECT(nrbpf_error_text(error, NULL, 0), length, "the length of an error's text");
    for (size_t room = 1; room <= length + 2; room++) {
        char *const text = malloc(room);
        const size_t told = room <= length ? room - 1 : length;
        EXPECT(nrbpf_error_text(error, text, room), length, "the length of an error's text");
        NEED(memcmp(text, wanted, told) == 0 && text[told] == 0, "the text of an error: %s, in %zu bytes", wanted, room);
        free(text);
    }
}

static void ask_errors(void) {
    static const nrbpf_error errors[] = {{NRBPF_C4, NRBPF_REFUSAL('V', 14), UINT32_MAX, UINT32_MAX}, {NRBPF_C1, 0, 7, 0}, {NRBPF_S1, 0, 0, 9},
                                         {NRBPF_S7, NRBPF_REFUSAL('D', 1), 0, 0}};
    char text[400];
    for (size_t k = 0; k < sizeof errors / sizeof errors[0]; k++) {
        const nrbpf_error *const it = &errors[k];
        size_t end = 0;
        if (it->line) end = (size_t)snprintf(text, sizeof text, "line %u: ", it->line);
        end += (size_t)snprintf(text + end, sizeof text - end, "%s", nrbpf_status_text(it->status));
        if (it->inner) snprintf(text + end, sizeof text - end, ": slot %u: %s", it->slot, nrbpf_status_text(it->inner));
        ask_error(it, text);
    }
    ask_error(NULL, nrbpf_status_text(NRBPF_H7));
}

void run_nulls(void) {
    static const nrbpf_file file = {"a", 1, "9", 1};
    ready(0);
    ask_to_open(&sizes, "m", 1, &file, 1);
    EXPECT(nrbpf_open(&sizes, "m", 1, &file, 1, &store, NULL), 0, "open");
    EXPECT(nrbpf_attach(store, 0, &session), 0, "attach");
    EXPECT(nrbpf_attach_lane(store, 0, 1, &lane), 0, "attach_lane");
    if (nrbpf_state_new(store, &state) == 0) {
        note("each call with each null pointer");
        null_all();
        EXPECT(nrbpf_detach(session), 0, "detach");
        EXPECT(nrbpf_detach_lane(lane), 0, "detach_lane");
        note("each call with each null pointer, on handles that were given back");
        null_all();
        nrbpf_state_free(state);
        note("each text");
        ask_statuses();
        ask_errors();
    } else {
        EXPECT(nrbpf_detach(session), 0, "detach");
        EXPECT(nrbpf_detach_lane(lane), 0, "detach_lane");
    }
    EXPECT(nrbpf_close(store), 0, "close");
    EXPECT(held, 0, "blocks of memory are left");
    EXPECT(blocks, 0, "blocks of the library's memory are left");
}
