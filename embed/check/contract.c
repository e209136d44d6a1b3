// contract.c: a stand-in for the proved library. It answers with each status that the C treats in its own way, by a choice, and fails if its caller breaks
// what nrbpf_raw.h asks for: a null pointer, a handle that is moved, not open, or written over while it is open, two calls at once on a handle, bytes or
// words that the host did not give, results that overlap what is read, or another call than the posted one.
#include "check.h"
#include <stdlib.h>
#include <string.h>

enum { OPEN = 0x09e11, MOST_NODES = 8, MOST_SLOTS = 16, MOST_KEY = 64, LINE = 32931, PART = 16385 };
#define C(number) ('C' << 8 | (number))
#define D(number) ('D' << 8 | (number))
#define E(number) ('E' << 8 | (number))
#define H(number) ('H' << 8 | (number))
#define O(number) ('O' << 8 | (number))
#define S(number) ('S' << 8 | (number))
#define V(number) ('V' << 8 | (number))
// One of these.
#define ONE_OF(...) ((const uint64_t[]){__VA_ARGS__}[choose(sizeof((const uint64_t[]){__VA_ARGS__}) / sizeof(uint64_t))])

struct sessions {
    unsigned nodes, slots;
    unsigned char are_attached[MOST_NODES][MOST_SLOTS];
};

// The four handles whose size the host asks for: the words, and what says that it is open and where.
struct session {
    struct nrbpf_raw_session words;
    uint64_t open;
    const void *self;
    struct sessions *of;
    unsigned node, slot;
    int is_posted;
};

struct lane {
    struct nrbpf_raw_lane words;
    uint64_t open;
    const void *self;
    void *memory;
    struct sessions *of;
    unsigned node, count, slots[MOST_SLOTS];
    size_t posted;
};

struct state {
    struct nrbpf_raw_state words;
    uint64_t open;
    const void *self;
    void *memory;                               // null while a text has it
};

struct text {
    struct nrbpf_raw_text words;
    uint64_t open;
    const void *self;
    void *memory;
    unsigned parts;                             // how many are left
};

struct last last;
int is_willing, blocks;
unsigned long entries;

static void *some_memory(void) {
    blocks++;
    return malloc(1);
}

static void give_back(void *memory) {
    blocks--;
    free(memory);
}

// ---- What a call may be passed

enum { MOST_USED = 16 };
static const void *used[MOST_USED];             // the handles that a call has now

// A call begins on a handle, which takes one at a time.
static void enter(const void *handle) {
    const void **room = NULL;
    NEED(handle && (uintptr_t)handle % sizeof(uint64_t) == 0, "no handle, or one that is not aligned");
    entries++;
    for (int i = 0; i < MOST_USED; i++) {
        NEED(used[i] != handle, "two calls at once on a handle");
        if (!used[i]) room = &used[i];
    }
    NEED(room, "too many calls at once");
    *room = handle;
    step();
}

static void leave(const void *handle) {
    step();
    for (int i = 0; i < MOST_USED; i++) {
        if (used[i] == handle) used[i] = NULL;
    }
}

// Reads bytes that are passed in: for AddressSanitizer they must be there.
static void read_bytes(struct nrbpf_raw_bytes bytes) {
    static volatile uint8_t seen;
    NEED(bytes.at, "a null pointer to bytes");
    for (size_t i = 0; i < bytes.length; i++) seen = seen ^ bytes.at[i];
}

static void are_lent(const uint8_t *at, size_t length) {
    NEED(at, "a null pointer to bytes");
    NEED(length == last.length && (length == 0 || memcmp(at, last.bytes, length) == 0), "other bytes arrive than the host lent");
}

static void are_asked(const struct nrbpf_raw_question *questions, size_t count) {
    for (size_t i = 0; i < count; i++) {
        NEED(questions[i].program == last.program + i, "another program arrives");
        are_lent(questions[i].argument.at, questions[i].argument.length);
    }
}

static void are_apart(const void *one, size_t one_size, const void *other, size_t other_size) {
    NEED((uintptr_t)one + one_size <= (uintptr_t)other || (uintptr_t)other + other_size <= (uintptr_t)one, "a result overlaps what is read");
}

static struct sessions *sessions_of(const struct nrbpf_raw_store *at) {
    NEED(at->own[1] == ((uint64_t)(uintptr_t)at ^ OPEN), "a store's handle that is not open, or was moved");
    return (struct sessions *)(uintptr_t)at->own[0];
}

static struct session *session_of(struct nrbpf_raw_session *at) {
    struct session *const session = (struct session *)at;
    NEED(session->open == OPEN && session->self == session, "a session's handle that is not open, or was moved");
    return session;
}

static struct session *room_of(struct nrbpf_raw_session *at) {
    struct session *const session = (struct session *)at;
    NEED(session->open != OPEN, "an open session is written over");
    memset(session, 0xcc, sizeof *session);
    return session;
}

static struct lane *lane_of(struct nrbpf_raw_lane *at) {
    struct lane *const lane = (struct lane *)at;
    NEED(lane->open == OPEN && lane->self == lane, "a lane's handle that is not open, or was moved");
    return lane;
}

// (a handle whose state a text has is passed in no call: nrbpf_raw_open_on would take it for a new state)
static struct state *state_of(struct nrbpf_raw_state *at) {
    struct state *const state = (struct state *)at;
    NEED(state->open == OPEN && state->self == state && state->memory, "a state's handle that has no state, or was moved");
    return state;
}

static struct text *text_of(struct nrbpf_raw_text *at) {
    struct text *const text = (struct text *)at;
    NEED(text->open == OPEN && text->self == text, "a text's handle that has no text, or was moved");
    return text;
}

// ---- What it answers

uint32_t nrbpf_raw_version(void) {
    return 2000;
}

size_t nrbpf_raw_store_size(void) {
    return sizeof(struct nrbpf_raw_store);
}

size_t nrbpf_raw_session_size(void) {
    return sizeof(struct session);
}

size_t nrbpf_raw_lane_size(void) {
    return sizeof(struct lane);
}

size_t nrbpf_raw_state_size(void) {
    return sizeof(struct state);
}

size_t nrbpf_raw_text_size(void) {
    return sizeof(struct text);
}

// One of these statuses, and BUSY or AGAIN while the call may still wait.
static uint64_t one_of(const uint64_t *statuses, unsigned count, int may_be_busy, int may_be_again) {
    const unsigned waits = last.waits > 0 ? (unsigned)(may_be_busy + may_be_again) : 0;
    if (last.busy > 0 && may_be_busy) {
        last.busy--;
        return NRBPF_RAW_BUSY;
    }
    const unsigned which = choose(count + waits);
    if (which < count) return statuses[which];
    last.waits--;
    return which == count && may_be_busy ? NRBPF_RAW_BUSY : NRBPF_RAW_AGAIN;
}

#define LOOK(...) one_of((const uint64_t[]){__VA_ARGS__}, sizeof((const uint64_t[]){__VA_ARGS__}) / sizeof(uint64_t), 1, 0)
#define POST(...) one_of((const uint64_t[]){__VA_ARGS__}, sizeof((const uint64_t[]){__VA_ARGS__}) / sizeof(uint64_t), 1, 1)
#define POLL(...) one_of((const uint64_t[]){__VA_ARGS__}, sizeof((const uint64_t[]){__VA_ARGS__}) / sizeof(uint64_t), 0, 1)

// Writes a session's status, and its answer with 0.
static void answer(struct nrbpf_raw_session *session, uint64_t status) {
    last.calls++;
    session->status = last.status = status;
    session->inner = last.inner = status == S(7) ? D(3) : status == S(8) ? V(16) : 0;
    session->slot = last.slot = session->inner ? 5 : 0;
    if (status == 0) {
        session->point = last.point = 0x100000000u + last.calls;
        session->reply = last.reply = 0xfffffffffffffff9u;
    }
}

// Writes bytes that differ from their neighbours: byte k of a row is first + (from + k) % 251.
void number(uint8_t *out, uint8_t first, size_t from, size_t count) {
    unsigned at = (unsigned)(from % 251);
    for (size_t k = 0; k < count; k++) {
        out[k] = (uint8_t)(first + at);
        at = at == 250 ? 0 : at + 1;
    }
}

// ---- Stores and states

static void are_bytes(struct nrbpf_raw_bytes bytes, struct nrbpf_raw_bytes wanted, const char *what) {
    NEED(bytes.at, "a null pointer to a %s", what);
    NEED(bytes.length == wanted.length && (wanted.length == 0 || memcmp(bytes.at, wanted.at, wanted.length) == 0), "another %s arrives", what);
}

static void read_limits(const struct nrbpf_raw_limits *limits, const struct nrbpf_raw_limits *wanted) {
    EXPECT(limits->key, wanted->key, "another limit of a key arrives");
    EXPECT(limits->value, wanted->value, "another limit of a value arrives");
    EXPECT(limits->entries, wanted->entries, "another limit of entries arrives");
    EXPECT(limits->bytes, wanted->bytes, "another limit of bytes arrives");
    EXPECT(limits->argument, wanted->argument, "another limit of an argument arrives");
}

// Reads what is opened or loaded: each word and text is the host's.
static void read_opening(const struct nrbpf_raw_opening *opening) {
    const struct nrbpf_raw_opening *const wanted = last.opening;
    NEED(wanted, "an opening arrives that the host did not ask for");
    are_bytes(opening->manifest, wanted->manifest, "manifest");
    NEED(opening->files, "a null pointer to files");
    EXPECT(opening->count, wanted->count, "another number of files arrives");
    for (size_t i = 0; i < opening->count; i++) {
        are_bytes(opening->files[i].name, wanted->files[i].name, "name of a file");
        are_bytes(opening->files[i].text, wanted->files[i].text, "file");
    }
    EXPECT(opening->nodes, wanted->nodes, "other nodes arrive");
    EXPECT(opening->slots, wanted->slots, "other slots arrive");
    EXPECT(opening->window, wanted->window, "another window arrives");
    EXPECT(opening->limit, wanted->limit, "another limit arrives");
    EXPECT(opening->spare, wanted->spare, "other spare places arrive");
    EXPECT(opening->long_bytes, wanted->long_bytes, "other long_bytes arrive");
    read_limits(&opening->limits, &wanted->limits);
}

static void open_with(const struct nrbpf_raw_opening *opening, struct nrbpf_raw_store *at, uint64_t status) {
    enter(at);
    read_opening(opening);
    memset(at, 0xcc, sizeof *at);
    at->status = last.status = status;
    at->line = last.line = status == C(4) ? 3 : 0;
    at->inner = last.inner = status == C(4) ? V(2) : 0;
    at->slot = last.slot = status == C(4) ? 7 : 0;
    at->own[1] = 0;
    if (status == 0) {
        struct sessions *const sessions = calloc(1, sizeof *sessions);
        blocks++;
        sessions->nodes = opening->nodes;
        sessions->slots = opening->slots;
        at->own[0] = (uint64_t)(uintptr_t)sessions;
        at->own[1] = (uint64_t)(uintptr_t)at ^ OPEN;
    }
    leave(at);
}

void nrbpf_raw_open(const struct nrbpf_raw_opening *opening, struct nrbpf_raw_store *at) {
    open_with(opening, at, is_willing ? 0 : ONE_OF(0, C(4), O(1), O(2), H(4)));
}

void nrbpf_raw_open_on(const struct nrbpf_raw_opening *opening, struct nrbpf_raw_state *at_state, struct nrbpf_raw_store *at) {
    enter(at_state);
    state_of(at_state);
    open_with(opening, at, is_willing ? 0 : ONE_OF(0, C(4), O(1), O(2), H(4), O(3)));
    leave(at_state);
}

static int is_attached(const struct sessions *sessions) {
    for (unsigned node = 0; node < sessions->nodes; node++) {
        for (unsigned slot = 0; slot < sessions->slots; slot++) {
            if (sessions->are_attached[node][slot]) return 1;
        }
    }
    return 0;
}

static void end_store(struct nrbpf_raw_store *at) {
    give_back(sessions_of(at));
    at->own[1] = 0;
}

void nrbpf_raw_close(struct nrbpf_raw_store *at) {
    enter(at);
    at->status = last.status = is_attached(sessions_of(at)) ? S(5) : 0;
    if (at->status == 0) end_store(at);
    leave(at);
}

static void make_state(struct nrbpf_raw_state *at, uint64_t status) {
    struct state *const state = (struct state *)at;
    memset(state, 0xcc, sizeof *state);
    at->status = last.status = status;
    at->line = last.line = status == E(8) ? 9 : 0;
    at->inner = last.inner = status == E(8) ? D(4) : 0;
    at->slot = last.slot = status == E(8) ? 2 : 0;
    state->open = status == 0 ? OPEN : 0;
    state->self = state;
    state->memory = status == 0 ? some_memory() : NULL;
}

void nrbpf_raw_close_into(struct nrbpf_raw_store *at, struct nrbpf_raw_state *at_state) {
    enter(at);
    enter(at_state);
    if (is_attached(sessions_of(at))) {
        at->status = S(5);
    } else if (is_willing && last.waits == 0) { // (so that a thread that tries again ends)
        at->status = 0;
    } else {
        at->status = ONE_OF(0, O(2));
        last.waits -= is_willing && at->status == O(2);
    }
    make_state(at_state, at->status);
    if (at->status == 0) end_store(at);
    leave(at_state);
    leave(at);
}

void nrbpf_raw_new_state(struct nrbpf_raw_store *at, struct nrbpf_raw_state *at_state) {
    enter(at);
    enter(at_state);
    sessions_of(at);
    at->status = ONE_OF(0, O(2));
    make_state(at_state, at->status);
    leave(at_state);
    leave(at);
}

void nrbpf_raw_load(const struct nrbpf_raw_opening *opening, const uint8_t *text, size_t length, struct nrbpf_raw_state *at) {
    enter(at);
    read_opening(opening);
    are_lent(text, length);
    make_state(at, ONE_OF(0, E(8), C(1), E(0)));
    leave(at);
}

void nrbpf_raw_drop_state(struct nrbpf_raw_state *at) {
    enter(at);
    struct state *const state = state_of(at);
    give_back(state->memory);
    state->open = 0;
    leave(at);
}

void nrbpf_raw_dump(struct nrbpf_raw_state *at_state, struct nrbpf_raw_text *at) {
    enter(at_state);
    enter(at);
    struct state *const state = state_of(at_state);
    struct text *const text = (struct text *)at;
    memset(text, 0xcc, sizeof *text);
    at->status = last.status = ONE_OF(0, E(0));
    text->open = 0;
    if (at->status == 0) {
        text->open = OPEN;
        text->self = text;
        text->memory = state->memory;
        text->parts = choose(3);
        state->memory = NULL;
        blocks++;
    }
    leave(at);
    leave(at_state);
}

void nrbpf_raw_part(struct nrbpf_raw_text *at, uint8_t *out, size_t room) {
    enter(at);
    struct text *const text = text_of(at);
    NEED(room >= LINE, "no room for a part");
    at->length = text->parts == 0 ? 0 : text->parts == 2 ? room : PART;
    text->parts -= text->parts > 0;
    memset(out, 0xcc, room);
    number(out, 0, last.count, at->length);
    last.count += at->length;
    leave(at);
}

void nrbpf_raw_drop_text(struct nrbpf_raw_text *at, struct nrbpf_raw_state *at_state) {
    enter(at);
    enter(at_state);
    struct text *const text = text_of(at);
    struct state *const state = (struct state *)at_state;
    NEED(state->open == OPEN && state->self == state && !state->memory, "a text's state goes to a handle that has one, or is not open");
    state->memory = text->memory;
    text->open = 0;
    blocks--;
    leave(at_state);
    leave(at);
}

// ---- Names and sessions

void nrbpf_raw_number(struct nrbpf_raw_store *at) {
    enter(at);
    sessions_of(at);
    if (at->length <= sizeof at->name) are_lent(at->name, at->length);
    at->status = last.status = at->length > sizeof at->name ? S(1) : ONE_OF(0, S(1), H(4));
    if (at->status == 0) at->number = last.reply = 0x1234;
    leave(at);
}

// Puts a session of this slot into a room.
static void put_session(struct session *session, struct sessions *of, unsigned node, unsigned slot) {
    session->open = OPEN;
    session->self = session;
    session->of = of;
    session->node = node;
    session->slot = slot;
    session->is_posted = 0;
}

void nrbpf_raw_attach(struct nrbpf_raw_store *at, struct nrbpf_raw_session *at_session) {
    enter(at);
    enter(at_session);
    struct sessions *const sessions = sessions_of(at);
    struct session *const session = room_of(at_session);
    unsigned slot = 0;
    at->status = H(1);
    session->open = 0;
    if (at->node < sessions->nodes) {
        while (slot < sessions->slots && sessions->are_attached[at->node][slot]) slot++;
        if (slot < sessions->slots) {
            sessions->are_attached[at->node][slot] = 1;
            put_session(session, sessions, (unsigned)at->node, slot);
            at->status = 0;
        }
    }
    at_session->status = last.status = at->status;
    leave(at_session);
    leave(at);
}

void nrbpf_raw_detach(struct nrbpf_raw_store *at, struct nrbpf_raw_session *at_session) {
    enter(at);
    enter(at_session);
    struct sessions *const sessions = sessions_of(at);
    struct session *const session = session_of(at_session);
    NEED(session->of == sessions, "a session of another store");
    at->status = last.status = session->is_posted ? H(3) : 0;
    if (at->status == 0) {
        sessions->are_attached[session->node][session->slot] = 0;
        session->open = 0;
    }
    leave(at_session);
    leave(at);
}

// ---- Calls

static uint64_t post_or_poll(struct session *session, const uint8_t *bytes, size_t length) {
    const struct nrbpf_raw_session *const words = &session->words;
    if (session->is_posted) return POLL(0, S(4));
    EXPECT(words->call, last.call, "another call arrives");
    are_lent(bytes, length);
    if (words->call == NRBPF_RAW_UPDATE) {
        NEED(words->program == last.program, "another program arrives");
        return POST(0, S(2), S(4));
    }
    NEED(words->mode == last.mode && words->argument == last.argument, "other words of an install arrive");
    NEED(words->call == NRBPF_RAW_INSTALL || words->program == last.maps, "other maps arrive");
    return words->mode > 1 ? H(5) : POST(0, S(4), S(6), S(7), S(8));
}

void nrbpf_raw_call(struct nrbpf_raw_session *at, const uint8_t *bytes, size_t length) {
    enter(at);
    struct session *const session = session_of(at);
    NEED(bytes, "a null pointer to bytes");
    NEED(at->call <= NRBPF_RAW_INSTALL_WITHIN, "a word is no call's");
    if (at->call == NRBPF_RAW_READ) {
        NEED(!session->is_posted, "a read next to a posted update");
        EXPECT(at->call, last.call, "another call arrives");
        NEED(at->program == last.program, "another program arrives");
        are_lent(bytes, length);
        answer(at, LOOK(0, S(1), S(2), S(3)));
    } else {
        answer(at, post_or_poll(session, bytes, length));
        session->is_posted = at->status == NRBPF_RAW_AGAIN;
    }
    leave(at);
}

// A call begins that reads the maps.
static struct session *enter_read(struct nrbpf_raw_session *at) {
    enter(at);
    struct session *const session = session_of(at);
    NEED(!session->is_posted, "a read next to a posted update");
    return session;
}

void nrbpf_raw_get(struct nrbpf_raw_session *at, uint32_t map, const uint8_t *key, size_t key_length, uint8_t *value, size_t value_length) {
    enter_read(at);
    EXPECT(map, last.map, "get: another map arrives");
    NEED(value, "a null pointer to a value");
    read_bytes((struct nrbpf_raw_bytes){key, key_length});
    are_apart(key, key_length, value, value_length);
    if (last.length <= MOST_KEY) are_lent(key, key_length);
    else NEED(key_length > MOST_KEY, "a part of a long key arrives");
    answer(at, key_length > MOST_KEY ? LOOK(S(9), S(11)) : LOOK(0, S(9), S(11), S(12)));
    if (at->status == 0) {
        at->count = last.count = choose(2);
        if (last.count) memset(value, 0x77, value_length);
    }
    leave(at);
}

void nrbpf_raw_scan(struct nrbpf_raw_session *at, uint32_t map, uint32_t from, uint8_t *keys, size_t keys_room, uint8_t *values, size_t values_room) {
    enter_read(at);
    EXPECT(map, last.map, "scan: another map arrives");
    EXPECT(from, last.from, "scan: another place arrives");
    NEED(keys && values, "a null pointer to a room");
    answer(at, LOOK(0, S(9), S(10)));
    if (at->status == 0) {
        number(keys, KEYS, 0, keys_room);
        number(values, VALUES, 0, values_room);
        at->count = last.count = 2;
        at->next = last.next = choose(2) ? NRBPF_RAW_END : 0xfffffffeu;
    }
    leave(at);
}

void nrbpf_raw_read_each(struct nrbpf_raw_session *at, const struct nrbpf_raw_question *questions, size_t count, uint64_t *replies, size_t room) {
    enter_read(at);
    NEED(questions && replies, "a null pointer to a list");
    NEED(count <= NRBPF_MOST_QUESTIONS && room == count, "a list arrives that is H5");
    are_apart(replies, room * sizeof *replies, questions, count * sizeof *questions);
    are_asked(questions, count);
    answer(at, count > 0 ? LOOK(0, S(2)) : LOOK(0));
    if (at->status == S(2)) at->slot = last.slot = choose((unsigned)count);
    for (size_t i = 0; at->status == 0 && i < count; i++) replies[i] = 500 + i;
    leave(at);
}

void nrbpf_raw_snapshot(struct nrbpf_raw_session *at, struct nrbpf_raw_state *at_state) {
    enter_read(at);
    enter(at_state);
    state_of(at_state);
    answer(at, LOOK(0, H(9)));
    leave(at_state);
    leave(at);
}

// Writes word k of what something is, from the byte `from` on: FILLED and k.
static void fill(void *words, size_t from, size_t size) {
    for (size_t k = from / sizeof(uint64_t); k < size / sizeof(uint64_t); k++) ((uint64_t *)words)[k] = FILLED + k;
}

void nrbpf_raw_map_info(struct nrbpf_raw_session *at, struct nrbpf_raw_map *words) {
    enter_read(at);
    EXPECT(words->map, last.map, "map_info: another map arrives");
    answer(at, LOOK(0, S(9)));
    if (at->status == 0) fill(words, offsetof(struct nrbpf_raw_map, point), sizeof *words);
    leave(at);
}

void nrbpf_raw_program_info(struct nrbpf_raw_session *at, struct nrbpf_raw_program *words) {
    enter_read(at);
    EXPECT(words->program, last.program, "program_info: another program arrives");
    answer(at, LOOK(0, S(1)));
    if (at->status == 0) fill(words, offsetof(struct nrbpf_raw_program, point), sizeof *words);
    leave(at);
}

void nrbpf_raw_stats(struct nrbpf_raw_session *at, struct nrbpf_raw_counts *words) {
    enter_read(at);
    answer(at, LOOK(0));
    if (at->status == 0) fill(words, 0, sizeof *words);
    leave(at);
}

void nrbpf_raw_store_info(struct nrbpf_raw_store *at, struct nrbpf_raw_facts *words) {
    enter(at);
    sessions_of(at);
    at->status = last.status = 0;
    fill(words, 0, sizeof *words);
    words->limit = last.limit = choose(2) ? (uint64_t)1 << 62 : FILLED;
    leave(at);
}

// ---- Lanes

void nrbpf_raw_new_lane(struct nrbpf_raw_lane *at) {
    enter(at);
    struct lane *const lane = (struct lane *)at;
    memset(lane, 0xcc, sizeof *lane);
    at->status = is_willing ? 0 : ONE_OF(0, O(2));
    lane->open = at->status == 0 ? OPEN : 0;
    lane->self = lane;
    lane->memory = at->status == 0 ? some_memory() : NULL;
    lane->count = 0;
    lane->posted = 0;
    leave(at);
}

void nrbpf_raw_drop_lane(struct nrbpf_raw_lane *at) {
    enter(at);
    struct lane *const lane = lane_of(at);
    NEED(lane->count == 0, "a lane with sessions is ended");
    give_back(lane->memory);
    lane->open = 0;
    leave(at);
}

void nrbpf_raw_join(struct nrbpf_raw_lane *at, struct nrbpf_raw_session *at_session) {
    enter(at);
    enter(at_session);
    struct lane *const lane = lane_of(at);
    struct session *const session = session_of(at_session);
    NEED(lane->count == 0 || lane->of == session->of, "a session of another store joins");
    if (lane->posted > 0 || session->is_posted) {
        at->status = H(3);
    } else if (lane->count == MOST_SLOTS || (lane->count > 0 && (session->node != lane->node || session->slot <= lane->slots[lane->count - 1]))) {
        at->status = H(6);
    } else {
        at->status = 0;
        lane->of = session->of;
        lane->node = session->node;
        lane->slots[lane->count++] = session->slot;
        session->open = 0;
    }
    leave(at_session);
    leave(at);
}

void nrbpf_raw_leave(struct nrbpf_raw_lane *at, struct nrbpf_raw_session *at_session) {
    enter(at);
    enter(at_session);
    struct lane *const lane = lane_of(at);
    struct session *const session = room_of(at_session);
    session->open = 0;
    at->status = lane->posted > 0 ? H(3) : lane->count == 0 ? H(2) : 0;
    if (at->status == 0) put_session(session, lane->of, lane->node, lane->slots[--lane->count]);
    at_session->status = at->status;
    leave(at_session);
    leave(at);
}

static uint64_t post_list(struct lane *lane, const struct nrbpf_raw_question *questions, size_t count) {
    are_asked(questions, count);
    const uint64_t status = POST(0, S(2));
    if (status == S(2)) lane->words.slot = last.slot = choose((unsigned)count);
    return status;
}

void nrbpf_raw_update_each(struct nrbpf_raw_lane *at, const struct nrbpf_raw_question *questions, size_t count, struct nrbpf_raw_outcome *outcomes,
                           size_t room) {
    enter(at);
    struct lane *const lane = lane_of(at);
    NEED(questions, "a null pointer to a list");
    last.calls++;
    at->slot = last.slot = 0;
    if (lane->posted > 0) count = lane->posted;
    NEED(count <= lane->count && room >= count, "a list arrives that is H5");
    at->status = last.status = lane->posted > 0 ? POLL(0) : post_list(lane, questions, count);
    lane->posted = at->status == NRBPF_RAW_AGAIN ? count : 0;
    if (at->status == 0) {
        at->count = last.count = count;
        last.full = choose(3);
        for (size_t i = 0; i < count; i++) {
            const int is_full = last.full == 2 || (last.full == 1 && i == 0);
            outcomes[i] = is_full ? (struct nrbpf_raw_outcome){0, 0, S(4)} : (struct nrbpf_raw_outcome){70 + i, 90 + i, 0};
        }
    }
    leave(at);
}
