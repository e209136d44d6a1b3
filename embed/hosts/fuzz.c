// fuzz.c: random calls over the whole interface, also wrong ones that the duties of a host allow, judged by a small model of the store (model.h).
//
//     fuzz CALLS SEED
//
// A store lives for some hundred calls, and the next one is new, or goes on from a state that was kept. Beside every second store two threads count
// counter 15 up, so that places are held and updates posted; of such a store the model knows all but that counter, and that points rise.
#include "fuzz.h"

// ---- Programs

// A call of a program, as it is going to be made.
typedef struct call {
    uint16_t program;
    uint32_t mode;
    uint32_t words[16];
    size_t len;
} call;

// Of the argument of an installed program.
static uint32_t any_length(void) {
    static const uint32_t lengths[] = {0, 4, 64};
    return lengths[below(3)];
}

static call any_call(uint32_t mode) {
    call it = {.program = (uint16_t)below(MODEL_PROGRAMS + config.spare + (chance(20) ? 2 : 0)), .mode = mode};
    for (int i = 0; i < 16; i++) it.words[i] = below(5);
    it.words[0] = below(KEYS);
    if (it.program == COUNT_UP || it.program == COUNT) it.words[0] = below(BESIDE + 2);
    if (it.words[0] == BESIDE) it.words[0] = COUNTERS + 7;
    it.len = it.program < MODEL_PROGRAMS ? argument_of[it.program] : any_length();
    if (it.program < MODEL_PROGRAMS && !chance(12)) it.mode = mode_of[it.program];
    if (chance(20)) it.len = below(sizeof it.words + 1);
    return it;
}

static nrbpf_status refusal_of(const call *it) {
    if (it->program >= MODEL_PROGRAMS + config.spare) return NRBPF_UNKNOWN_PROGRAM;
    if (it->program >= MODEL_PROGRAMS) return NRBPF_OK;
    if (it->len != argument_of[it->program]) return NRBPF_ARGUMENT_LENGTH;
    return it->mode == mode_of[it->program] ? NRBPF_OK : NRBPF_OTHER_MODE;
}

static uint64_t reply_of(const call *it) {
    if (it->program < MODEL_PROGRAMS) return model_run(&now, it->program, it->words);
    return model_run_installed(&now, (uint32_t)it->program - MODEL_PROGRAMS, it->mode, it->len);
}

// The history's end, which only an update meets.
static nrbpf_status ended(uint32_t mode) { return mode == NRBPF_MODE_UPDATE && config.limit && point == config.limit ? NRBPF_FULL : NRBPF_OK; }

// While its update is posted, a session takes no other call.
static void refuse_beside_posted(nrbpf_session *session) {
    uint32_t words[3] = {0};
    nrbpf_answer answer = {77, 77};
    nrbpf_found found;
    nrbpf_scanned scanned;
    uint64_t at;
    calls++;
    refused++;
    switch (below(7)) {
    case 0: EXPECT_STATUS(nrbpf_try_update(session, PUT, words, 8, &answer), NRBPF_H3); break;
    case 1: EXPECT_STATUS(nrbpf_read(session, GET, words, 4, &answer), NRBPF_H3); break;
    case 2: EXPECT_STATUS(nrbpf_detach(session), NRBPF_H3); break;
    case 3: EXPECT_STATUS(nrbpf_get(session, 0, words, 4, words + 1, 4, &found), NRBPF_H3); break;
    case 4: EXPECT_STATUS(nrbpf_try_scan(session, 0, 0, words, 4, words + 1, 4, &scanned), NRBPF_H3); break;
    case 5: EXPECT_STATUS(nrbpf_read_each(session, NULL, 0, NULL, &at, NULL), NRBPF_H3); break;
    default: EXPECT_STATUS(nrbpf_poll(session, NULL), NRBPF_H7);
    }
    EXPECT(answer.point == 77 && answer.reply == 77);
}

// Goes on with what is posted until it is answered.
static nrbpf_status polled(nrbpf_session *session, nrbpf_answer *answer) {
    nrbpf_status told;
    posted++;
    do {
        if (chance(3)) refuse_beside_posted(session);
        calls++;
        told = nrbpf_poll(session, answer);
        if (told == NRBPF_POSTED) sched_yield();
    } while (told == NRBPF_POSTED);
    return told;
}

static nrbpf_status make(nrbpf_session *session, const call *it, nrbpf_answer *answer) {
    const int waits = chance(2);
    nrbpf_status told = NRBPF_BUSY;
    while (told == NRBPF_BUSY) {
        if (it->mode == NRBPF_MODE_UPDATE) told = made((waits ? nrbpf_update : nrbpf_try_update)(session, it->program, it->words, it->len, answer), waits);
        else told = made((waits ? nrbpf_read : nrbpf_try_read)(session, it->program, it->words, it->len, answer), waits);
    }
    return told == NRBPF_POSTED ? polled(session, answer) : told;
}

static void run_program(void) {
    const handle *it = chance(12) ? any_handle() : attached_handle();
    const call of = any_call(below(2));
    nrbpf_answer answer = {77, 77};
    if (!it) return;
    nrbpf_status wanted_status = of_session(it);
    if (!wanted_status) wanted_status = refusal_of(&of);
    if (!wanted_status) wanted_status = ended(of.mode);
    if (ANSWERS(make(it->at, &of, &answer), wanted_status)) {
        EXPECT(answer.reply == reply_of(&of));
        is_at(answer.point, of.mode == NRBPF_MODE_UPDATE);
    } else EXPECT(answer.point == 77 && answer.reply == 77);
}

static void null_call(void) {
    const handle *it = any_handle();
    nrbpf_answer answer = {77, 77};
    nrbpf_session *session = it ? it->at : NULL;
    calls++;
    switch (below(4)) {
    case 0: ANSWERS(nrbpf_update(NULL, PUT, &answer, 8, &answer), NRBPF_H7); break;
    case 1: ANSWERS(nrbpf_try_update(session, PUT, NULL, 8, &answer), NRBPF_H7); break;
    case 2: ANSWERS(nrbpf_read(session, GET, &answer, 4, NULL), NRBPF_H7); break;
    default: if (it) ANSWERS(nrbpf_poll(session, &answer), it->is_attached ? NRBPF_H11 : NRBPF_H2);
    }
    EXPECT(answer.point == 77 && answer.reply == 77);
}

static void install(void) {
    const handle *it = chance(12) ? any_handle() : attached_handle();
    const installed program = {below(2), any_length(), (uint8_t)below(128)};
    uint8_t bytes[200] = {0};
    nrbpf_answer answer = {77, 77};
    nrbpf_error why = {0, 0, 0, 0};
    if (!it) return;
    model_program(program.reply, bytes);
    nrbpf_status wanted_status = of_session(it), told = NRBPF_BUSY;
    size_t len = 16;
    uint32_t mode = program.mode, argument_len = program.argument_len;
    const uint32_t wrong = below(12);
    if (wrong == 0) len = 193;
    if (wrong == 1) argument_len = 65;
    if (wrong == 2) len = 15;
    if (wrong == 3) len = 8;
    if (wrong == 4) mode = 2 + below(7);
    if (!wanted_status && wrong < 2) wanted_status = NRBPF_TOO_LARGE;
    if (!wanted_status && wrong == 2) wanted_status = NRBPF_NOT_DECODED;
    if (!wanted_status && wrong == 3) wanted_status = NRBPF_NOT_ACCEPTED;
    if (!wanted_status && wrong == 4) wanted_status = NRBPF_BAD_CALL;
    if (!wanted_status) wanted_status = ended(NRBPF_MODE_UPDATE);
    const int waits = chance(2);
    while (told == NRBPF_BUSY) {
        told = made((waits ? nrbpf_install : nrbpf_try_install)(it->at, mode, argument_len, bytes, len, &answer, &why), waits);
    }
    if (told == NRBPF_POSTED) told = polled(it->at, &answer);
    if (!ANSWERS(told, wanted_status)) {
        EXPECT(answer.point == 77 && answer.reply == 77);
        return;
    }
    is_at(answer.point, 1);
    EXPECT(answer.reply == (now.count < config.spare ? MODEL_PROGRAMS + now.count : NRBPF_REPLY_NO_ROOM));
    if (now.count < config.spare) now.programs[now.count++] = program;
}

// ---- Reads without a program

static void get(void) {
    const handle *it = chance(12) ? any_handle() : attached_handle();
    const uint32_t map = below(chance(12) ? 4 : 2), any = below(COUNTERS + 3), key = map == 0 ? any % KEYS : any == BESIDE ? 0 : any;
    const size_t key_len = chance(12) ? below(9) : 4, value_len = chance(12) ? below(17) : 4 + 4 * (map == 1);
    uint8_t bytes[8] = {(uint8_t)key}, value[16];
    uint64_t got = 0;
    nrbpf_found found = {77, 77};
    if (!it) return;
    memset(value, 77, sizeof value);
    nrbpf_status wanted_status = of_session(it), told = NRBPF_BUSY;
    if (!wanted_status && map > 1) wanted_status = NRBPF_UNKNOWN_MAP;
    if (!wanted_status && key_len != 4) wanted_status = NRBPF_KEY_LENGTH;
    if (!wanted_status && value_len != 4 + 4 * (map == 1)) wanted_status = NRBPF_VALUE_LENGTH;
    const int waits = chance(2);
    while (told == NRBPF_BUSY) {
        told = made((waits ? nrbpf_get : nrbpf_try_get)(it->at, map, bytes, key_len, value, value_len, &found), waits);
    }
    if (ANSWERS(told, wanted_status)) {
        is_at(found.point, 0);
        EXPECT(found.is_there == (uint32_t)(map == 1 ? key < COUNTERS : now.has[key]));
        memcpy(&got, value, value_len);
        if (found.is_there) EXPECT(got == (map == 1 ? now.counter[key] : now.value[key]));
    } else EXPECT(found.point == 77);
    for (size_t i = found.is_there == 1 ? value_len : 0; i < sizeof value; i++) EXPECT(value[i] == 77);
}

// What one page gives of map 0, each key once.
static void is_in_hash(const uint32_t *keys, const uint32_t *values, uint32_t count, int *seen) {
    for (uint32_t i = 0; i < count; i++) {
        EXPECT(keys[i] < KEYS && now.has[keys[i]] && !seen[keys[i]] && values[i] == now.value[keys[i]]);
        seen[keys[i]] = 1;
    }
}

static void is_in_array(uint32_t from, const uint32_t *keys, const uint64_t *values, uint32_t count) {
    for (uint32_t i = 0; i < count; i++) {
        EXPECT(keys[i] == from + i);
        if (keys[i] != BESIDE) EXPECT(values[i] == now.counter[keys[i]]);
    }
}

// All pages of a map, with room for so many entries.
static void scan(void) {
    const handle *it = chance(12) ? any_handle() : attached_handle();
    const uint32_t map = below(chance(12) ? 4 : 2), room = 1 + below(20);
    uint32_t keys[20], from = chance(12) ? below(20) : 0;
    uint64_t values[20];
    int seen[KEYS] = {0};
    nrbpf_scanned scanned = {77, 77, from};
    if (!it) return;
    nrbpf_status wanted_status = of_session(it);
    if (!wanted_status && map > 1) wanted_status = NRBPF_UNKNOWN_MAP;
    if (!wanted_status && from >= (uint32_t)(map == 0 ? KEY_ROOM : COUNTERS)) wanted_status = NRBPF_UNKNOWN_PLACE;
    const int waits = chance(2), is_whole = from == 0;
    while (from != NRBPF_END) {
        nrbpf_status told = NRBPF_BUSY;
        while (told == NRBPF_BUSY) {
            told = made((waits ? nrbpf_scan : nrbpf_try_scan)(it->at, map, from, keys, 4 * room, values, (map == 1 ? 8 : 4) * room, &scanned), waits);
        }
        if (!ANSWERS(told, wanted_status)) {
            EXPECT(scanned.point == 77 && scanned.count == 77);
            return;
        }
        is_at(scanned.point, 0);
        EXPECT(scanned.count <= room);
        if (map == 0) is_in_hash(keys, (const uint32_t *)(const void *)values, scanned.count, seen);
        else is_in_array(from, keys, values, scanned.count);
        EXPECT(scanned.next > from);
        from = scanned.next;
    }
    for (int i = 0; map == 0 && is_whole && i < KEYS; i++) EXPECT(seen[i] == now.has[i]);
}

static void read_each(void) {
    const handle *it = chance(12) ? any_handle() : attached_handle();
    const size_t count = below(18);
    call asked[18];
    nrbpf_question questions[18];
    uint64_t replies[18] = {77}, at = 77;
    nrbpf_error why = {0, 0, 0, 0};
    if (!it) return;
    nrbpf_status wanted_status = of_session(it), told = NRBPF_BUSY;
    uint32_t which = 0;
    if (!wanted_status && count > NRBPF_MOST_QUESTIONS) wanted_status = NRBPF_BAD_CALL;
    for (size_t i = 0; i < count; i++) {
        asked[i] = any_call(NRBPF_MODE_READ);
        if (asked[i].program < MODEL_PROGRAMS && !chance(30)) asked[i].program = chance(2) ? GET : COUNT;
        if (asked[i].program == GET && asked[i].words[0] >= KEYS) asked[i].words[0] = 0;
        if (!chance(30) && asked[i].program < MODEL_PROGRAMS) asked[i].len = argument_of[asked[i].program];
        if (asked[i].words[0] == BESIDE) asked[i].words[0] = 0;
        asked[i].mode = NRBPF_MODE_READ;
        questions[i] = (nrbpf_question){asked[i].len > 0 || chance(2) ? asked[i].words : NULL, asked[i].len, asked[i].program};
        if (wanted_status) continue;
        wanted_status = refusal_of(&asked[i]);
        which = wanted_status ? (uint32_t)i : 0;
    }
    const int waits = chance(2);
    while (told == NRBPF_BUSY) {
        told = made((waits ? nrbpf_read_each : nrbpf_try_read_each)(it->at, questions, count, replies, &at, &why), waits);
    }
    if (!ANSWERS(told, wanted_status)) {
        EXPECT(why.status == wanted_status && why.slot == which && replies[0] == 77 && at == 77);
        return;
    }
    is_at(at, 0);
    for (size_t i = 0; i < count; i++) EXPECT(replies[i] == reply_of(&asked[i]));
}

// ---- Lists

enum { LONGEST = 6 };

typedef struct list {
    nrbpf_lane *lane;
    size_t count;
    call asked[LONGEST + 2];
    nrbpf_question calls[LONGEST + 2];
    nrbpf_outcome outcomes[LONGEST + 2];
} list;

// Asks for updates, some of which may be wrong. What the list must be told, and which call is refused.
static nrbpf_status any_list(list *it, uint32_t slots, uint32_t *which) {
    nrbpf_status wanted_status = it->count > slots ? NRBPF_BAD_CALL : NRBPF_OK;
    for (size_t i = 0; i < it->count; i++) {
        call *of = &it->asked[i];
        *of = any_call(NRBPF_MODE_UPDATE);
        if (of->program < MODEL_PROGRAMS && mode_of[of->program] != NRBPF_MODE_UPDATE && !chance(8)) of->program = PUT;
        if (of->program == PUT && of->words[0] >= KEYS) of->words[0] = 0;
        if (of->program < MODEL_PROGRAMS && !chance(20)) of->len = argument_of[of->program];
        of->mode = NRBPF_MODE_UPDATE;
        it->calls[i] = (nrbpf_question){of->words, of->len, of->program};
        if (wanted_status) continue;
        wanted_status = refusal_of(of);
        *which = wanted_status ? (uint32_t)i : 0;
    }
    return wanted_status;
}

// Each update is the next one, until the history ends.
static void expect_outcomes(const list *it, nrbpf_status told) {
    nrbpf_status wanted_status = NRBPF_OK;
    for (size_t i = 0; i < it->count; i++) {
        const nrbpf_outcome *of = &it->outcomes[i];
        const nrbpf_status own = ended(NRBPF_MODE_UPDATE);
        EXPECT_STATUS(of->status, own);
        if (own) wanted_status = own;
        else {
            EXPECT(of->reply == reply_of(&it->asked[i]));
            is_at(of->point, 1);
        }
    }
    EXPECT_STATUS(told, wanted_status);
}

// A lane for one list: there may be no slots for it.
static void update_each(void) {
    const uint32_t node = below(config.nodes + 1), slots = below(LONGEST + 1);
    list it = {.count = below(slots + 2), .outcomes = {{77, 77, 77}}};
    nrbpf_error why = {0, 0, 0, 0};
    uint32_t which = 0;
    const int has_slots = node < config.nodes && count_attached(node) + slots <= config.slots;
    calls++;
    if (!ANSWERS(nrbpf_attach_lane(store, node, slots, &it.lane), slots == 0 ? NRBPF_H5 : has_slots ? NRBPF_OK : NRBPF_H1)) return;
    const nrbpf_status wanted_status = any_list(&it, slots, &which);
    const int waits = chance(2);
    nrbpf_status told = NRBPF_BUSY;
    while (told == NRBPF_BUSY) {
        told = made((waits ? nrbpf_update_each : nrbpf_try_update_each)(it.lane, it.calls, it.count, it.outcomes, &why), waits);
    }
    posted += told == NRBPF_POSTED;
    while (told == NRBPF_POSTED) {
        if (chance(3)) EXPECT_STATUS(nrbpf_detach_lane(it.lane), NRBPF_H3);
        told = nrbpf_poll_each(it.lane, it.outcomes);
        if (told == NRBPF_POSTED) sched_yield();
    }
    if (wanted_status) {
        ANSWERS(told, wanted_status);
        EXPECT(why.status == wanted_status && why.slot == which && it.outcomes[0].status == 77);
    } else expect_outcomes(&it, told);
    EXPECT_STATUS(nrbpf_detach_lane(it.lane), NRBPF_OK);
}

// ---- States

typedef struct text {
    char bytes[MOST_TEXT];
    size_t len, stop;
} text;

static int write_text(void *to, const char *bytes, size_t len) {
    text *into = to;
    if (into->len >= into->stop) return 1 + (int)below(9);
    EXPECT(into->len + len < sizeof into->bytes);
    memcpy(into->bytes + into->len, bytes, len);
    into->len += len;
    into->bytes[into->len] = 0;
    return 0;
}

// The text of a state must be the model's; what a thread counted beside it is what stands there.
static void is_dumped(kept *it, int is_known) {
    char wanted_text[MOST_TEXT];
    text got = {.stop = SIZE_MAX};
    calls++;
    EXPECT_STATUS(nrbpf_state_dump(it->at, write_text, &got), NRBPF_OK);
    const char *line = strstr(got.bytes, "1 0f000000 ");
    if (!is_known && line) {
        it->holds.counter[BESIDE] = 0;
        for (int i = 7; i >= 0; i--) {
            unsigned byte;
            EXPECT(sscanf(line + 11 + 2 * i, "%2x", &byte) == 1);
            it->holds.counter[BESIDE] = it->holds.counter[BESIDE] << 8 | byte;
        }
    }
    model_text(&it->holds, wanted_text);
    EXPECT(strcmp(got.bytes, wanted_text) == 0);
}

static nrbpf_status load_text(const char *bytes, size_t len, nrbpf_state **out, nrbpf_error *why) {
    calls++;
    return nrbpf_state_load(&config, MODEL_MANIFEST, strlen(MODEL_MANIFEST), files, MODEL_PROGRAMS, bytes, len, out, why);
}

static void free_state(kept *it) {
    calls++;
    nrbpf_state_free(it->at);
    it->at = NULL;
}

static void new_state(kept *it) {
    free_state(it);
    calls++;
    EXPECT_STATUS(nrbpf_state_new(store, &it->at), NRBPF_OK);
    memset(&it->holds, 0, sizeof it->holds);
    it->spare = config.spare;
    is_dumped(it, 1);
}

static void snapshot(void) {
    const handle *of = chance(12) ? any_handle() : attached_handle();
    kept *it = &states[below(STATES)];
    uint64_t at = 77;
    if (!of) return;
    if (!it->at || chance(8)) new_state(it);
    nrbpf_status wanted_status = of_session(of), told = NRBPF_BUSY;
    if (!wanted_status && it->spare != config.spare) wanted_status = NRBPF_OTHER_SIZES;
    const int waits = chance(2);
    while (told == NRBPF_BUSY) {
        told = made((waits ? nrbpf_snapshot : nrbpf_try_snapshot)(of->at, it->at, &at), waits);
    }
    if (ANSWERS(told, wanted_status)) {
        is_at(at, 0);
        it->holds = now;
    } else EXPECT(at == 77);
    is_dumped(it, !(is_beside && told == NRBPF_OK));
}

// Loads what a state says, or a text of it that is wrong, or stops a dump on the way.
static void load(void) {
    kept *it = &states[below(STATES)];
    char bytes[MOST_TEXT];
    nrbpf_state *loaded = NULL;
    nrbpf_error why = {0, 0, 0, 0};
    text into = {.stop = 0};
    model_text(&it->holds, bytes);
    const size_t len = strlen(bytes);
    if (!it->at || len == 0) return;
    if (chance(4)) ANSWERS(nrbpf_state_dump(it->at, write_text, &into), NRBPF_STOPPED);
    if (chance(4)) {                            // without its last line feed: the last line is bad, if none is before
        const nrbpf_status first = it->holds.count > config.spare + 1 ? NRBPF_DUMP_TOO_MANY_PROGRAMS : NRBPF_BAD_DUMP_LINE;
        ANSWERS(load_text(bytes, len - 1, &loaded, &why), first);
        EXPECT(!loaded && why.status == first && why.line > 0);
    } else if (ANSWERS(load_text(bytes, len, &loaded, &why), it->holds.count > config.spare ? NRBPF_E9 : NRBPF_OK)) {
        nrbpf_state_free(it->at);
        it->at = loaded;
        it->spare = config.spare;
        is_dumped(it, 1);
    }
}

// ---- From store to store

static void *count_beside(void *session) {
    const uint32_t word = BESIDE;
    nrbpf_answer answer;
    while (!stopped) {
        for (int i = 0; i < 50; i++) EXPECT_STATUS(nrbpf_update(session, COUNT_UP, &word, 4, &answer), NRBPF_OK);
        sched_yield();
    }
    EXPECT_STATUS(nrbpf_detach(session), NRBPF_OK);
    return NULL;
}

// What is refused changes nothing: the store that is opened behind it is the one that was asked for.
static void open_wrongly(void) {
    nrbpf_config wrong = config;
    nrbpf_store *none = NULL;
    const size_t len = strlen(MODEL_MANIFEST);
    calls += 4;
    wrong.nodes = 9 + below(9);
    ANSWERS(nrbpf_open(&wrong, MODEL_MANIFEST, len, files, MODEL_PROGRAMS, &none, NULL), NRBPF_O1);
    ANSWERS(nrbpf_open(&config, MODEL_MANIFEST, len, files, below(MODEL_PROGRAMS), &none, NULL), NRBPF_C1);
    ANSWERS(nrbpf_open(chance(2) ? NULL : &config, MODEL_MANIFEST, len, NULL, 1, &none, NULL), NRBPF_H7);
    wrong.version = below(NRBPF_VERSION);
    ANSWERS(nrbpf_open(&wrong, MODEL_MANIFEST, len, files, MODEL_PROGRAMS, &none, NULL), wrong.version / 1000 == 2 ? NRBPF_O1 : NRBPF_H8);
    EXPECT(!none);
}

// Opens a store on a state, if there is one that fits, or a new one.
static void open_store(void) {
    const kept *on = &states[below(STATES)];
    const size_t len = strlen(MODEL_MANIFEST);
    is_beside = chance(2);
    EXPECT_STATUS(nrbpf_config_init(&config, NRBPF_VERSION, 1 + below(3), 1 + below(3) + (is_beside ? THREADS : 0)), NRBPF_OK);
    config.window = chance(2) ? 16 : 64;
    config.limit = is_beside || chance(2) ? NRBPF_ENDLESS : 20 + below(200);
    config.spare = below(MOST_SPARE + 1);
    open_wrongly();
    memset(&now, 0, sizeof now);
    calls += 2;
    if (on->at && ANSWERS(nrbpf_open_on(&config, MODEL_MANIFEST, len, files, MODEL_PROGRAMS, on->at, &store, NULL),
                          on->holds.count > config.spare ? NRBPF_O3 : NRBPF_OK)) now = on->holds;
    else EXPECT_STATUS(nrbpf_open(&config, MODEL_MANIFEST, len, files, MODEL_PROGRAMS, &store, NULL), NRBPF_OK);
    point = 0;
    handle_count = 0;
    if (!is_beside) return;
    stopped = 0;
    for (int i = 0; i < THREADS; i++) EXPECT(pthread_create(&beside[i], NULL, count_beside, attached(store, 0)) == 0);
}

// Closes the store, and looks at the state that it ends in.
static void close_store(void) {
    kept *it = &states[below(STATES)];
    nrbpf_state *none = NULL;
    calls += 2;
    stopped = 1;
    for (int i = 0; is_beside && i < THREADS; i++) EXPECT(pthread_join(beside[i], NULL) == 0);
    ANSWERS(nrbpf_close_into(store, NULL), NRBPF_H7);
    if (attached_handle()) ANSWERS(chance(2) ? nrbpf_close(store) : nrbpf_close_into(store, &none), NRBPF_S5);
    for (uint32_t i = 0; i < handle_count; i++) {
        calls++;
        ANSWERS(nrbpf_detach(handles[i].at), of_session(&handles[i]));
    }
    if (chance(2)) {
        EXPECT_STATUS(nrbpf_close(store), NRBPF_OK);
        return;
    }
    free_state(it);
    EXPECT_STATUS(nrbpf_close_into(store, &it->at), NRBPF_OK);
    it->holds = now;
    it->spare = config.spare;
    is_dumped(it, !is_beside);
}

static void texts(void) {
    const nrbpf_error why = {below(65536), below(65536), below(3), below(3)};
    char line[200], cut[20];
    calls += 2;
    const size_t len = nrbpf_error_text(chance(9) ? NULL : &why, line, sizeof line), room = below(sizeof cut + 1);
    EXPECT(len == strlen(line) && len < sizeof line);
    memset(cut, 77, sizeof cut);
    nrbpf_error_text(&why, cut, room);
    EXPECT(room == 0 || memchr(cut, 0, room));
    for (size_t i = room; i < sizeof cut; i++) EXPECT(cut[i] == 77);
}

static void live(void) {
    const uint32_t calls_of_it = 100 + below(1500);
    for (uint32_t i = 0; i < calls_of_it && calls < wanted; i++) {
        const uint32_t which = below(100);
        if (which < 8) attach();
        else if (which < 11) detach();
        else if (which < 14) null_call();
        else if (which < 20) install();
        else if (which < 28) get();
        else if (which < 34) scan();
        else if (which < 40) read_each();
        else if (which < 44) snapshot();
        else if (which < 46) load();
        else if (which < 48) names();
        else if (which < 50) texts();
        else if (which < 60) update_each();
        else run_program();
    }
}

int main(int count, char **words) {
    long stores = 0;
    if (count != 3) {
        fprintf(stderr, "fuzz CALLS SEED\n");
        return 2;
    }
    wanted = strtol(words[1], NULL, 10);
    seed = strtoull(words[2], NULL, 10);
    model_files(files);
    for (; calls < wanted; stores++) {
        open_store();
        live();
        close_store();
    }
    for (int i = 0; i < STATES; i++) nrbpf_state_free(states[i].at);
    for (int i = 0; i < MODEL_PROGRAMS; i++) free((char *)files[i].text);
    printf("%ld calls on %ld stores as the model has them, %ld of them refused; %ld tries were busy, %ld updates posted and gone on with\n", calls, stores,
           refused, busy, posted);
    return 0;
}
