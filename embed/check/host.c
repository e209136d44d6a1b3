// host.c: a host that makes calls in any order, and a model of nrbpf.h that says what each must answer: the status and its order (H7, H2, H3 or H11, H5, H7
// of a list), the error, the answer, and that a refused call writes nothing and does not reach the library.
#include "check.h"
#include <limits.h>
#include <setjmp.h>
#include <stdlib.h>
#include <string.h>

enum { MOST_HANDLES = 8, TURNS = 512, SESSIONS = 2, PROGRAM = 40, UNWRITTEN = 0x5a, SHORT_PAUSES = 8 };

// A session or a lane, which may be an earlier one.
struct handle {
    void *at;
    int is_lane, is_attached, is_posted;
    unsigned slots;
    size_t count;                               // of a posted list
    uint64_t updates, waits, pauses;            // since it was attached
};
static struct handle handles[MOST_HANDLES];     // the newest ones
static unsigned known;
static const void *given[TURNS];                // the sessions that were given last
static unsigned long givens;
static int is_dumped;                           // whether the state is in a dump that never ended
static nrbpf_state *state;

nrbpf_store *store;
// (no two numbers are the same: a word that arrives as another is found)
const nrbpf_config sizes = {NRBPF_VERSION, 1, SESSIONS, 0x31, 0x32, 0x33, {0x34, 0x35, 0x36, 0x37, 0x38}, 0x39};
static const nrbpf_error unwritten = {0xe1, 0xe2, 0xe3, 0xe4};

void ready(unsigned waits) {
    memset(&last, 0, sizeof last);
    last.waits = waits;
    last.bytes = (const uint8_t *)"";
    yields = 0;
}

void lend(const void *bytes, size_t length) {
    last.bytes = bytes;
    last.length = length;
}

// Of a refusal `why` says this. Else it is as it was.
static void expect_why(const nrbpf_error *why, nrbpf_status status, uint64_t inner, uint64_t line, uint64_t slot) {
    if (status >> 8 == 0) {
        NEED(memcmp(why, &unwritten, sizeof *why) == 0, "why is written without a refusal");
        return;
    }
    EXPECT(why->status, status, "why: status");
    EXPECT(why->inner, inner, "why: inner");
    EXPECT(why->line, line, "why: line");
    EXPECT(why->slot, slot, "why: slot");
}

// ---- Opening

// Whether it opened, on the state if `is_on`.
static int open_store(int is_on) {
    char *const manifest = malloc(5), *const text = malloc(3);
    memcpy(manifest, "maps\n", 5);
    memcpy(text, "95\n", 3);
    const nrbpf_file files[2] = {{"a", 1, text, 3}, {NULL, 0, NULL, 0}};
    nrbpf_error why = unwritten;
    nrbpf_store *const none = (nrbpf_store *)&why;
    store = none;
    ready(0);
    ask_to_open(&sizes, manifest, 5, files, 2);
    last.status = NRBPF_O2;
    note(is_on ? "open_on" : "open");
    const nrbpf_status told = is_on ? nrbpf_open_on(&sizes, manifest, 5, files, 2, state, &store, &why)
                                    : nrbpf_open(&sizes, manifest, 5, files, 2, &store, &why);
    free(manifest);
    free(text);
    // (no memory for what the C has)
    const nrbpf_status wanted = is_on && is_dumped ? NRBPF_H2 : told == NRBPF_O2 && last.status == 0 ? NRBPF_O2 : (nrbpf_status)last.status;
    EXPECT(told, wanted, "open");
    expect_why(&why, told, last.inner, last.line, last.slot);
    if (told) {
        NEED(store == none, "open writes a store");
        store = NULL;
    }
    known = 0;
    givens = 0;
    return told == 0;
}

// Whether it loaded.
static int load_state(void) {
    nrbpf_error why = unwritten;
    const nrbpf_file file = {"a", 1, "95", 2};
    char *const text = malloc(3);
    memcpy(text, "1 2", 3);
    nrbpf_state *out = NULL;
    ready(0);
    lend(text, 3);
    ask_to_open(&sizes, "m", 1, &file, 1);
    last.status = NRBPF_E0;
    note("load");
    const nrbpf_status told = nrbpf_state_load(&sizes, "m", 1, &file, 1, text, 3, &out, &why);
    EXPECT(told, told == NRBPF_O2 && last.status == NRBPF_E0 && last.line == 0 ? NRBPF_O2 : last.status, "load");
    expect_why(&why, told, last.inner, last.line, last.slot);
    NEED(!told == (out != NULL), "load writes a state, or none");
    state = out;
    free(text);
    return told == 0;
}

// ---- Sessions and lanes

static unsigned slots_attached(void) {
    unsigned slots = 0;
    for (unsigned k = 0; k < known; k++) slots += handles[k].is_attached ? handles[k].slots : 0;
    return slots;
}

// Room for one more: that of an earlier one with this handle, or if there are many, of any that is not attached.
static struct handle *room_for(const void *at, int is_lane) {
    struct handle *room = NULL;
    for (unsigned k = 0; k < known; k++) {
        if (!handles[k].is_attached && (known == MOST_HANDLES || handles[k].at == at) && (!room || handles[k].at == at) && handles[k].is_lane == is_lane) {
            room = &handles[k];
        }
    }
    for (unsigned k = 0; !room && known == MOST_HANDLES && k < known; k++) room = handles[k].is_attached ? NULL : &handles[k];
    if (room) return room;
    NEED(known < MOST_HANDLES, "too many handles");
    return &handles[known++];
}

static void remember(void *at, int is_lane, unsigned slots) {
    for (unsigned long ago = 1; !is_lane && ago < TURNS && ago <= givens; ago++) {
        NEED(given[(givens - ago) % TURNS] != at, "one of the last 511 sessions had this handle: %lu ago", ago);
    }
    for (unsigned k = 0; k < known; k++) NEED(!handles[k].is_attached || handles[k].at != at, "two have one handle");
    if (!is_lane) given[givens++ % TURNS] = at;
    *room_for(at, is_lane) = (struct handle){at, is_lane, 1, 0, slots, 0, 0, 0, 0};
}

static void attach(uint32_t node, int is_null) {
    nrbpf_session *session = NULL;
    ready(0);
    note("attach %u", node);
    const nrbpf_status told = nrbpf_attach(store, node, is_null ? NULL : &session);
    EXPECT(told, is_null ? NRBPF_H7 : node > 0 || slots_attached() == SESSIONS ? NRBPF_H1 : 0, "attach");
    NEED(!told == (session != NULL), "attach writes a session, or none");
    if (told == 0) remember(session, 0, 1);
}

static void attach_lane(uint32_t node, uint32_t slots) {
    nrbpf_lane *lane = NULL;
    ready(0);
    note("attach_lane %u %u", node, slots);
    const nrbpf_status told = nrbpf_attach_lane(store, node, slots, &lane);
    EXPECT(told, slots == 0 || slots > NRBPF_MOST_SLOTS ? NRBPF_H5 : node > 0 || slots_attached() + slots > SESSIONS ? NRBPF_H1 : 0, "attach_lane");
    NEED(!told == (lane != NULL), "attach_lane writes a lane, or none");
    if (told == 0) remember(lane, 1, slots);
}

static void detach(struct handle *of) {
    ready(0);
    note("detach %p", of->at);
    const nrbpf_status told = of->is_lane ? nrbpf_detach_lane(of->at) : nrbpf_detach(of->at);
    EXPECT(told, !of->is_attached ? NRBPF_H2 : of->is_posted ? NRBPF_H3 : 0, "detach");
    if (told == 0) of->is_attached = 0;
}

// ---- Calls on a session

union answers {
    nrbpf_answer answer;
    nrbpf_found found;
    nrbpf_scanned scanned;
    nrbpf_map_facts map;
    nrbpf_program_facts program;
    nrbpf_counts counts;
    uint8_t bytes[192];
};

// How a call passes its argument: none, bytes of its own, or those where its answer is written.
enum form { NO_BYTES, OWN_BYTES, BYTES_OF_ANSWER, FORMS };

// A call: what it is asked by and what it answered.
struct call {
    nrbpf_session *session;
    struct handle *of;
    int waits;                                  // whether it is the call that waits, or the one with `try_`
    enum form form;
    const void *bytes;
    size_t length;
    union answers out;
    nrbpf_error why;
    nrbpf_status wanted;                        // H2, H3, .., or 0 if the library answers
    nrbpf_status told;
    int is_posting, is_polling, has_why;
};

static void call_update(struct call *call) {
    call->is_posting = 1;
    last.call = NRBPF_RAW_UPDATE;
    call->told = (call->waits ? nrbpf_update : nrbpf_try_update)(call->session, PROGRAM, call->bytes, call->length, &call->out.answer);
}

static void call_read(struct call *call) {
    last.call = NRBPF_RAW_READ;
    call->told = (call->waits ? nrbpf_read : nrbpf_try_read)(call->session, PROGRAM, call->bytes, call->length, &call->out.answer);
}

static void call_install(struct call *call) {
    call->is_posting = call->has_why = 1;
    last.call = NRBPF_RAW_INSTALL;
    last.mode = choose(3);
    last.argument = UINT32_MAX;
    call->told = (call->waits ? nrbpf_install : nrbpf_try_install)(call->session, (uint32_t)last.mode, UINT32_MAX, call->bytes, call->length, &call->out.answer,
                                                                   &call->why);
}

static void call_install_within(struct call *call) {
    const nrbpf_confined program = {0x8001, NRBPF_MODE_READ, 9, call->bytes, call->length};
    call->is_posting = call->has_why = 1;
    last.call = NRBPF_RAW_INSTALL_WITHIN;
    last.maps = program.maps;
    last.mode = program.mode;
    last.argument = program.argument_len;
    call->told = (call->waits ? nrbpf_install_within : nrbpf_try_install_within)(call->session, &program, &call->out.answer, &call->why);
}

static void call_poll(struct call *call) {
    call->is_polling = 1;
    call->waits = 0;
    call->wanted = !call->of->is_attached ? NRBPF_H2 : call->of->is_posted ? 0 : NRBPF_H11;
    call->told = nrbpf_poll(call->session, &call->out.answer);
}

// (the value may be written where the key is; a key may be as long as the longest, longer, or very long)
static void call_get(struct call *call) {
    enum { LONGEST = 300 };
    static const size_t lengths[] = {3, 64, 65, LONGEST};
    static const uint8_t found[] = {0x77, 0x77, 0x77, 0x77}, before[] = {1, 2, 3, 4};
    uint8_t *const value = malloc(sizeof before), *const key = malloc(LONGEST);
    memcpy(value, before, sizeof before);
    number(key, KEYS, 0, LONGEST);
    if (call->form == OWN_BYTES) {
        call->bytes = value;
        lend(before, call->length);
    } else if (call->form == BYTES_OF_ANSWER && choose(2)) {
        call->length = lengths[choose(sizeof lengths / sizeof lengths[0])];
        call->bytes = key + LONGEST - call->length;
        lend(call->bytes, call->length);
    }
    const int has_room = call->form != NO_BYTES;
    call->told = (call->waits ? nrbpf_get : nrbpf_try_get)(call->session, (uint32_t)last.map, call->bytes, call->length, has_room ? value : NULL,
                                                           has_room ? sizeof before : 0, &call->out.found);
    const int is_found = call->told == 0 && last.count == 1 && has_room;
    NEED(memcmp(value, is_found ? found : before, sizeof before) == 0, "get: another value");
    if (call->told == 0) {
        EXPECT(call->out.found.point, last.point, "get: point");
        EXPECT(call->out.found.is_there, last.count, "get: is_there");
    }
    free(value);
    free(key);
}

// What a scan gave: numbered bytes, or those that were there before.
static void expect_row(const uint8_t *at, uint8_t first, size_t room, int is_given) {
    for (size_t k = 0; k < room; k++) EXPECT(at[k], is_given ? first + k : UNWRITTEN, "scan: byte %zu of the row from %d", k, (int)first);
}

static void call_scan(struct call *call) {
    enum { KEYS_ROOM = 8, VALUES_ROOM = 12 };
    uint8_t *const keys = malloc(KEYS_ROOM), *const values = malloc(VALUES_ROOM);
    const int has_keys = call->form != NO_BYTES, has_values = call->form == BYTES_OF_ANSWER;
    memset(keys, UNWRITTEN, KEYS_ROOM);
    memset(values, UNWRITTEN, VALUES_ROOM);
    last.from = 0xfffffffe;
    call->told = (call->waits ? nrbpf_scan : nrbpf_try_scan)(call->session, (uint32_t)last.map, (uint32_t)last.from, has_keys ? keys : NULL,
                                                             has_keys ? KEYS_ROOM : 0, has_values ? values : NULL, has_values ? VALUES_ROOM : 0,
                                                             &call->out.scanned);
    expect_row(keys, KEYS, KEYS_ROOM, has_keys && call->told == 0);
    expect_row(values, VALUES, VALUES_ROOM, has_values && call->told == 0);
    if (call->told == 0) {
        EXPECT(call->out.scanned.point, last.point, "scan: point");
        EXPECT(call->out.scanned.count, last.count, "scan: count");
        EXPECT(call->out.scanned.next, last.next == NRBPF_RAW_END ? NRBPF_END : last.next, "scan: next");
    }
    free(keys);
    free(values);
}

// (the replies may be written where the questions are)
static void call_read_each(struct call *call) {
    static const size_t counts[] = {0, 1, NRBPF_MOST_QUESTIONS, NRBPF_MOST_QUESTIONS + 1};
    const size_t count = counts[choose(4)];
    nrbpf_question *const questions = calloc(count + 1, sizeof *questions);
    uint64_t *const own = calloc(count + 1, sizeof *own);
    uint64_t *const replies = call->form == BYTES_OF_ANSWER && count == 1 ? (uint64_t *)(void *)questions : own;
    uint64_t point = UNWRITTEN;
    for (size_t i = 0; i < count; i++) questions[i] = (nrbpf_question){call->bytes, call->length, (uint16_t)(PROGRAM + i)};
    const int has_null = count == NRBPF_MOST_QUESTIONS && call->form == OWN_BYTES && choose(2);
    if (has_null) questions[count - 1].argument = NULL;
    if (call->wanted == 0) call->wanted = count > NRBPF_MOST_QUESTIONS ? NRBPF_H5 : has_null ? NRBPF_H7 : 0;
    call->has_why = 1;
    call->told = (call->waits ? nrbpf_read_each : nrbpf_try_read_each)(call->session, count ? questions : NULL, count, count ? replies : NULL, &point,
                                                                       &call->why);
    EXPECT(point, call->told ? UNWRITTEN : last.point, "read_each: point");
    for (size_t i = 0; call->told == 0 && i < count; i++) EXPECT(replies[i], 500 + i, "read_each: reply %zu", i);
    free(own);
    free(questions);
}

static void call_snapshot(struct call *call) {
    uint64_t point = UNWRITTEN;
    nrbpf_state *const into = state;
    if (!into) call->wanted = NRBPF_H7;
    else if (is_dumped) call->wanted = NRBPF_H2;
    call->told = (call->waits ? nrbpf_snapshot : nrbpf_try_snapshot)(call->session, into, &point);
    EXPECT(point, call->told ? UNWRITTEN : last.point, "snapshot: point");
}

// The size of a host's struct: as the header has it, shorter, or longer.
static size_t size_of(const struct call *call, size_t known_size) {
    return call->form == NO_BYTES ? known_size : call->form == OWN_BYTES ? sizeof(uint64_t) : sizeof call->out;
}

// Of what was written up to `size`, what comes after the last member is 0, and nothing is written after that.
static void expect_ends(const struct call *call, size_t end, size_t size) {
    if (call->told) return;
    for (size_t i = end; i < size; i++) EXPECT(call->out.bytes[i], 0, "byte %zu is no member's, and not 0", i);
    for (size_t i = size; i < sizeof call->out; i++) EXPECT(call->out.bytes[i], UNWRITTEN, "byte %zu of %zu is written", i, size);
}

#define END(type, member) (offsetof(type, member) + sizeof((type){0}.member))
// The word of what the library says that has this name.
#define WORD(type, member) (FILLED + offsetof(type, member) / sizeof(uint64_t))

static void call_map_info(struct call *call) {
    const size_t size = size_of(call, sizeof(nrbpf_map_facts));
    const nrbpf_map_facts *const it = &call->out.map;
    call->told = (call->waits ? nrbpf_map_info : nrbpf_try_map_info)(call->session, (uint32_t)last.map, &call->out.map, size);
    expect_ends(call, END(nrbpf_map_facts, value_len), size);
    if (call->told) return;
    EXPECT(it->point, WORD(struct nrbpf_raw_map, point), "map_info: point");
    if (size < sizeof *it) return;
    EXPECT(it->keys, WORD(struct nrbpf_raw_map, keys), "map_info: keys");
    EXPECT(it->entries, WORD(struct nrbpf_raw_map, entries), "map_info: entries");
    EXPECT(it->kind, WORD(struct nrbpf_raw_map, kind), "map_info: kind");
    EXPECT(it->key_len, WORD(struct nrbpf_raw_map, key), "map_info: key_len");
    EXPECT(it->value_len, WORD(struct nrbpf_raw_map, value), "map_info: value_len");
}

static void call_program_info(struct call *call) {
    const size_t size = size_of(call, sizeof(nrbpf_program_facts));
    const nrbpf_program_facts *const it = &call->out.program;
    uint64_t name[sizeof((struct nrbpf_raw_program){0}.name) / sizeof(uint64_t)];
    for (size_t k = 0; k < sizeof name / sizeof name[0]; k++) name[k] = WORD(struct nrbpf_raw_program, name) + k;
    call->told = (call->waits ? nrbpf_program_info : nrbpf_try_program_info)(call->session, PROGRAM, &call->out.program, size);
    expect_ends(call, offsetof(nrbpf_program_facts, name) + sizeof((struct nrbpf_raw_program){0}.name), size);
    if (call->told) return;
    EXPECT(it->point, WORD(struct nrbpf_raw_program, point), "program_info: point");
    if (size < sizeof *it) return;
    EXPECT(it->is_place, WORD(struct nrbpf_raw_program, place), "program_info: is_place");
    EXPECT(it->is_there, WORD(struct nrbpf_raw_program, present), "program_info: is_there");
    EXPECT(it->mode, WORD(struct nrbpf_raw_program, mode), "program_info: mode");
    EXPECT(it->argument_len, WORD(struct nrbpf_raw_program, argument), "program_info: argument_len");
    EXPECT(it->slots, WORD(struct nrbpf_raw_program, slots), "program_info: slots");
    EXPECT(it->maps, WORD(struct nrbpf_raw_program, maps), "program_info: maps");
    NEED(memcmp(it->name, name, sizeof name) == 0, "program_info: name");
}

static void call_stats(struct call *call) {
    const size_t size = size_of(call, sizeof(nrbpf_counts));
    const nrbpf_counts *const it = &call->out.counts;
    call->told = (call->waits ? nrbpf_stats : nrbpf_try_stats)(call->session, &call->out.counts, size);
    expect_ends(call, END(nrbpf_counts, node), size);
    if (call->told) return;
    EXPECT(it->completed, WORD(struct nrbpf_raw_counts, completed), "stats: completed");
    if (size < sizeof *it) return;
    EXPECT(it->appended, WORD(struct nrbpf_raw_counts, appended), "stats: appended");
    EXPECT(it->kept, WORD(struct nrbpf_raw_counts, kept), "stats: kept");
    EXPECT(it->tail, WORD(struct nrbpf_raw_counts, tail), "stats: tail");
    EXPECT(it->lag, WORD(struct nrbpf_raw_counts, lag), "stats: lag");
    EXPECT(it->batches, WORD(struct nrbpf_raw_counts, batches), "stats: batches");
    EXPECT(it->batched, WORD(struct nrbpf_raw_counts, batched), "stats: batched");
    EXPECT(it->largest, WORD(struct nrbpf_raw_counts, largest), "stats: largest");
    EXPECT(it->updates, call->of->updates, "stats: updates");
    EXPECT(it->waits, call->of->waits + (last.waits < 2 && call->waits), "stats: waits");
    EXPECT(it->node, 0, "stats: node");
}

static const struct {
    const char *name;
    void (*make)(struct call *call);
} calls[] = {
    {"update", call_update},
    {"read", call_read},
    {"install", call_install},
    {"install_within", call_install_within},
    {"poll", call_poll},
    {"get", call_get},
    {"scan", call_scan},
    {"read_each", call_read_each},
    {"snapshot", call_snapshot},
    {"map_info", call_map_info},
    {"program_info", call_program_info},
    {"stats", call_stats},
};
enum { CALLS = sizeof calls / sizeof calls[0] };

// What the library was asked, and what its answer makes of the session.
static void expect_answer(struct call *call, unsigned may_wait) {
    struct handle *const of = call->of;
    const unsigned waited = may_wait - last.waits;
    EXPECT(call->told, last.status, "another status than the library's");
    if (call->has_why) expect_why(&call->why, call->told, last.inner, 0, last.slot);
    if (call->is_posting) of->updates++;
    if (call->is_posting || call->is_polling) of->is_posted = call->told == NRBPF_POSTED;
    if (call->waits) {
        NEED(call->told != NRBPF_BUSY && call->told != NRBPF_POSTED, "a call that waits has no answer");
        of->waits += waited > 0;
        of->pauses += waited;
        NEED(yields == 0 || of->pauses > SHORT_PAUSES, "a session lets other threads run although it has waited only %lu times", (unsigned long)of->pauses);
    }
}

// A call on a session, which may be an earlier one, or have an update posted.
static void call_session(struct handle *of) {
    enum { MAY_WAIT = 2, LENGTH = 3 };
    const unsigned which = choose(CALLS);
    struct call call = {.session = of->at, .of = of, .why = unwritten};
    union answers before;
    uint8_t *const own = malloc(LENGTH);
    call.waits = (int)choose(2);
    call.form = (enum form)choose(FORMS);
    memcpy(own, "abc", LENGTH);
    memset(&call.out, UNWRITTEN, sizeof call.out);
    before = call.out;
    ready(MAY_WAIT);
    last.program = PROGRAM;
    last.map = 7;
    call.bytes = call.form == NO_BYTES ? NULL : call.form == OWN_BYTES ? own : call.out.bytes;
    call.length = call.form == NO_BYTES ? 0 : LENGTH;
    lend(call.form == BYTES_OF_ANSWER ? before.bytes : call.form == OWN_BYTES ? own : (const uint8_t *)"", call.length);
    call.wanted = !of->is_attached ? NRBPF_H2 : of->is_posted ? NRBPF_H3 : 0;
    note("session %p: %s, waits %d, form %d", of->at, calls[which].name, call.waits, (int)call.form);
    calls[which].make(&call);
    if (call.wanted) {
        EXPECT(call.told, call.wanted, "%s", calls[which].name);
        EXPECT(last.calls, 0, "a refused call reaches the library");
        if (call.has_why) expect_why(&call.why, call.told, 0, 0, 0);
    } else {
        expect_answer(&call, MAY_WAIT);
    }
    if (call.told == 0 && (call.is_posting || call.is_polling || calls[which].make == call_read)) {
        EXPECT(call.out.answer.point, last.point, "point");
        EXPECT(call.out.answer.reply, last.reply, "reply");
    }
    NEED(call.told == 0 || memcmp(&call.out, &before, sizeof before) == 0, "%s writes although it answers %x", calls[which].name, call.told);
    free(own);
}

// ---- Calls on a lane

enum list_call { TRY_UPDATE_EACH, UPDATE_EACH, POLL_EACH, LIST_CALLS };

// What the outcomes of a list must be, as the library gave them. (`is_lent` if the calls were where they are written.)
static void expect_outcomes(const nrbpf_outcome *outcomes, size_t count, int is_lent) {
    EXPECT(last.count, count, "another number of outcomes");
    for (size_t i = 0; i < count; i++) {
        const int is_full = last.full == 2 || (last.full == 1 && i == 0);
        EXPECT(outcomes[i].status, is_full ? NRBPF_S4 : 0, "outcome %zu: status", i);
        EXPECT(outcomes[i].point, is_full ? 0 : 70 + i, "outcome %zu: point", i);
        EXPECT(outcomes[i].reply, is_full ? 0 : 90 + i, "outcome %zu: reply", i);
    }
    NEED(is_lent || *(const uint8_t *)&outcomes[count] == UNWRITTEN, "an outcome too many");
}

// A call on a lane: what it is asked by and what it answered.
struct list {
    struct handle *of;
    enum list_call which;
    enum form form;
    size_t count;
    nrbpf_question *calls;                      // at the outcomes if the form is BYTES_OF_ANSWER
    nrbpf_outcome *outcomes;
    nrbpf_error why;
    nrbpf_status wanted, told;
};

static void make_list_call(struct list *list, int has_null) {
    struct handle *const of = list->of;
    if (list->which == POLL_EACH) {
        list->wanted = !of->is_attached ? NRBPF_H2 : of->is_posted ? 0 : NRBPF_H11;
        list->told = nrbpf_poll_each(of->at, list->outcomes);
        return;
    }
    list->wanted = !of->is_attached ? NRBPF_H2 : of->is_posted ? NRBPF_H3 : list->count > of->slots ? NRBPF_H5 : has_null ? NRBPF_H7 : 0;
    list->told = (list->which == UPDATE_EACH ? nrbpf_update_each : nrbpf_try_update_each)(of->at, list->count ? list->calls : NULL, list->count,
                                                                                          list->count ? list->outcomes : NULL, &list->why);
}

static void expect_list(struct list *list, unsigned may_wait) {
    struct handle *const of = list->of;
    const int is_poll = list->which == POLL_EACH;
    const int is_asked = list->wanted == 0 && (is_poll || list->count > 0);
    EXPECT(list->told, !is_asked ? list->wanted : last.status ? last.status : last.full ? NRBPF_S4 : 0, "a list");
    if (!is_poll) expect_why(&list->why, list->told, 0, 0, is_asked ? last.slot : 0);
    if (!is_asked) {
        EXPECT(last.calls, 0, "a refused list reaches the library");
        return;
    }
    if (last.status == 0) expect_outcomes(list->outcomes, is_poll ? of->count : list->count, list->form == BYTES_OF_ANSWER);
    if (list->which == UPDATE_EACH) {
        NEED(list->told != NRBPF_BUSY && list->told != NRBPF_POSTED, "a call that waits has no answer");
        of->pauses += may_wait - last.waits;
    }
    NEED(yields == 0 || of->pauses > SHORT_PAUSES, "a lane lets other threads run although it has waited only %lu times", (unsigned long)of->pauses);
    of->is_posted = list->told == NRBPF_POSTED;
    if (of->is_posted && !is_poll) of->count = list->count;
}

static void call_lane(struct handle *of) {
    enum { MOST_CALLS = 3, MAY_WAIT = 2, LENGTH = 3 };
    struct list list = {.of = of, .why = unwritten};
    nrbpf_question *const own = calloc(MOST_CALLS, sizeof *own);
    uint8_t *const argument = malloc(LENGTH);
    memcpy(argument, "abc", LENGTH);
    list.count = choose(MOST_CALLS + 1);
    list.which = (enum list_call)choose(LIST_CALLS);
    list.form = (enum form)choose(FORMS);
    const int has_bytes = list.form != NO_BYTES;
    list.outcomes = malloc((NRBPF_MOST_SLOTS + 1) * sizeof *list.outcomes);
    memset(list.outcomes, UNWRITTEN, (NRBPF_MOST_SLOTS + 1) * sizeof *list.outcomes);
    list.calls = list.form == BYTES_OF_ANSWER ? (nrbpf_question *)(void *)list.outcomes : own;
    ready(MAY_WAIT);
    lend(has_bytes ? argument : (const uint8_t *)"", has_bytes ? LENGTH : 0);
    last.program = PROGRAM;
    note("lane %p: call %d of %zu, form %d", of->at, (int)list.which, list.count, (int)list.form);
    for (size_t i = 0; i < list.count; i++) {
        list.calls[i] = (nrbpf_question){has_bytes ? argument : NULL, has_bytes ? LENGTH : 0, (uint16_t)(PROGRAM + i)};
    }
    const int has_null = list.form == OWN_BYTES && list.count == 2 && choose(2);
    if (has_null) list.calls[1].argument = NULL;
    make_list_call(&list, has_null);
    expect_list(&list, MAY_WAIT);
    free(argument);
    free(own);
    free(list.outcomes);
}

// ---- States and stores

// What a writer does after so many parts.
static enum ending { STOPS, NEVER_RETURNS, DUMPS_AGAIN, ENDINGS } ending;
static unsigned parts_before;
static size_t dumped;                           // how many bytes it has had
static jmp_buf before_dump;

static int write_part(void *to, const char *bytes, size_t length) {
    NEED(to == &parts_before, "the writer gets another pointer");
    static uint8_t wanted[16384];
    NEED(length > 0 && length <= sizeof wanted, "a part of %zu bytes", length);
    number(wanted, 0, dumped, length);
    NEED(memcmp(bytes, wanted, length) == 0, "other bytes than those of the text from %zu on", dumped);
    dumped += length;
    if (parts_before-- > 0) return 0;
    if (ending == NEVER_RETURNS) longjmp(before_dump, 1);
    if (ending == DUMPS_AGAIN) EXPECT(nrbpf_state_dump(state, write_part, to), NRBPF_H2, "a dump in a dump");
    return 1;
}

static void dump_state(void) {
    static const unsigned pieces[] = {0, 1, 2, 6}; // the longest text has five
    parts_before = pieces[choose(4)];
    ending = (enum ending)choose(ENDINGS);
    dumped = 0;
    last.status = NRBPF_E0;
    note("dump, ending %d after %u parts", (int)ending, parts_before);
    if (setjmp(before_dump) == 0) {
        const nrbpf_status told = nrbpf_state_dump(state, write_part, &parts_before);
        const int has_stopped = parts_before == UINT_MAX;
        EXPECT(told, is_dumped ? NRBPF_H2 : last.status ? last.status : has_stopped ? NRBPF_H10 : 0, "dump");
        if (told == 0) EXPECT(dumped, last.count, "the bytes of a dump");
    } else {
        is_dumped = 1;
    }
}

static void use_state(void) {
    ready(0);
    if (!state) {
        last.status = NRBPF_O2;
        note("state_new");
        const nrbpf_status told = nrbpf_state_new(store, &state);
        EXPECT(told, last.status, "state_new");
        NEED(!told == (state != NULL), "state_new writes a state, or none");
    } else if (choose(2)) {
        note("state_free");
        nrbpf_state_free(state);
        state = NULL;
        is_dumped = 0;
    } else {
        dump_state();
    }
}

static void ask_number(void) {
    const size_t length = choose(2) ? 32 : 33;
    char *const name = malloc(length);
    uint16_t number = UNWRITTEN;
    memset(name, 'n', length);
    lend(name, length);
    note("program_number");
    const nrbpf_status told = nrbpf_program_number(store, name, length, &number);
    EXPECT(told, last.status, "program_number");
    EXPECT(number, told ? UNWRITTEN : last.reply, "program_number: number");
    free(name);
}

static void ask_facts(void) {
    static const size_t rooms[] = {sizeof(nrbpf_store_facts), sizeof(uint64_t), sizeof(union answers)};
    const size_t size = rooms[choose(sizeof rooms / sizeof rooms[0])];
    struct call call = {.told = 0};
    nrbpf_store_facts facts;
    note("store_info of %zu bytes", size);
    memset(&call.out, UNWRITTEN, sizeof call.out);
    EXPECT(nrbpf_store_info(store, (nrbpf_store_facts *)(void *)&call.out, size), 0, "store_info");
    expect_ends(&call, END(nrbpf_store_facts, long_bytes), size);
    memcpy(&facts, &call.out, sizeof facts);
    EXPECT(facts.nodes, WORD(struct nrbpf_raw_facts, nodes), "store_info: nodes");
    EXPECT(facts.slots, WORD(struct nrbpf_raw_facts, slots), "store_info: slots");
    if (size < sizeof facts) return;
    EXPECT(facts.window, WORD(struct nrbpf_raw_facts, window), "store_info: window");
    EXPECT(facts.limit, last.limit == FILLED ? FILLED : NRBPF_ENDLESS, "store_info: limit");
    EXPECT(facts.spare, WORD(struct nrbpf_raw_facts, spare), "store_info: spare");
    EXPECT(facts.maps, WORD(struct nrbpf_raw_facts, maps), "store_info: maps");
    EXPECT(facts.programs, WORD(struct nrbpf_raw_facts, programs), "store_info: programs");
    EXPECT(facts.long_bytes, WORD(struct nrbpf_raw_facts, long_bytes), "store_info: long_bytes");
}

// Whether the store is closed.
static int close_store(int is_into) {
    const nrbpf_status wanted = slots_attached() > 0 ? NRBPF_S5 : 0;
    nrbpf_status told;
    ready(0);
    if (is_into) {
        last.status = NRBPF_O2;
        note("close_into");
        told = nrbpf_close_into(store, &state);
        EXPECT(told, last.status, "close_into");
        NEED(told == wanted || told == NRBPF_O2, "close_into answers %x", told);
        NEED(!told == (state != NULL), "close_into writes a state, or none");
    } else {
        note("close");
        told = nrbpf_close(store);
        EXPECT(told, wanted, "close");
    }
    if (told == 0) store = NULL;
    return told == 0;
}

// ---- A run

// Gives all back. Then no memory is left.
static void end_all(void) {
    nrbpf_outcome outcomes[NRBPF_MOST_SLOTS];
    nrbpf_answer answer;
    may_refuse = 0;
    for (unsigned k = 0; store && k < known; k++) {
        struct handle *const of = &handles[k];
        ready(0);
        if (of->is_attached && of->is_posted) {
            const nrbpf_status told = of->is_lane ? nrbpf_poll_each(of->at, outcomes) : nrbpf_poll(of->at, &answer);
            NEED(told == 0 || told == NRBPF_S4, "a poll at the end answers %x", told);
            of->is_posted = 0;
        }
        if (of->is_attached) detach(of);
    }
    if (store) close_store(0);
    nrbpf_state_free(state);
    state = NULL;
    EXPECT(held, 0, "blocks of memory are left");
    EXPECT(blocks, 0, "blocks of the library's memory are left");
}

enum beginning {
    NEW, WITH_SESSION, AFTER_SESSION, WITH_LANE, WITH_LONG_LANE, WITH_SESSION_AFTER_WAITS, WITH_LANE_AFTER_WAITS, ON_STATE, ON_LOST_STATE, BEGINNINGS
};

// A session waits so often that it lets other threads run, and is given back.
static void wait_often(void) {
    enum { WAITS = SHORT_PAUSES + 3 };
    nrbpf_counts counts;
    attach(0, 0);
    ready(0);
    last.busy = WAITS;
    note("stats, after %d waits", (int)WAITS);
    EXPECT(nrbpf_stats(handles[0].at, &counts, sizeof counts), 0, "stats");
    EXPECT(yields, WAITS - SHORT_PAUSES, "how often other threads may run");
    detach(&handles[0]);
    known = 0;                                  // (late calls have a beginning of their own)
}

static int never_return(void *to, const char *bytes, size_t length) {
    (void)to, (void)bytes, (void)length;
    longjmp(before_dump, 1);
}

// The state's dump never ends, if the library makes one.
static void lose_state(void) {
    ready(0);
    note("dump that never ends");
    if (setjmp(before_dump) == 0) {
        (void)!nrbpf_state_dump(state, never_return, NULL);
    } else {
        is_dumped = 1;
    }
}

// Whether the run can go on.
static int begin(enum beginning how) {
    const int is_on = how == ON_STATE || how == ON_LOST_STATE;
    if (is_on && !load_state()) return 0;
    if (how == ON_LOST_STATE) lose_state();
    if (!open_store(is_on)) return 0;
    if (how != NEW) may_refuse = 0;             // (memory is refused in the shortest runs alone)
    if (how == WITH_SESSION_AFTER_WAITS || how == WITH_LANE_AFTER_WAITS) wait_often();
    if (how == WITH_SESSION || how == AFTER_SESSION || how == WITH_SESSION_AFTER_WAITS) attach(0, 0);
    if (how == AFTER_SESSION) detach(&handles[0]);
    if (how == WITH_LANE || how == WITH_LANE_AFTER_WAITS) attach_lane(0, 1);
    if (how == WITH_LONG_LANE) attach_lane(0, SESSIONS);
    return 1;
}

// Makes a call. Whether the run can go on.
static int make_call(void) {
    static const uint32_t slots[] = {1, 2, 3, 0, NRBPF_MOST_SLOTS + 1};
    enum { ATTACH, ATTACH_LANE, STATE, STORE, CLOSE, DETACH, CALL, CALL_TOO, ALL };
    const unsigned which = choose(known > 0 ? ALL : DETACH);
    struct handle *const of = which < DETACH ? NULL : &handles[choose(known)];
    switch (which) {
    case ATTACH: attach(choose(3) == 2, choose(8) == 7); break;
    case ATTACH_LANE: attach_lane(choose(3) == 2, slots[choose(5)]); break;
    case STATE: use_state(); break;
    case STORE:
        ready(0);
        if (choose(2)) ask_number();
        else ask_facts();
        break;
    case CLOSE:
        // (a long run seldom closes)
        if (is_willing && choose(500) > 0) break;
        return !close_store(!state && choose(2));
    case DETACH: detach(of); break;
    default:
        if (of->is_lane) call_lane(of);
        else call_session(of);
    }
    return 1;
}

void run_calls(unsigned count, int beginning) {
    store = NULL;
    state = NULL;
    is_dumped = 0;
    known = 0;
    may_refuse = !is_willing;
    if (begin(is_willing ? NEW : beginning < 0 ? (enum beginning)choose(BEGINNINGS) : (enum beginning)beginning)) {
        while (count > 0 && make_call()) count--;
    }
    end_all();
}
