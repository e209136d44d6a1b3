// growths.c: refuses each call that takes memory each growth of it in turn, once alone and once with all behind it. Opening answers C6 or O2 then,
// closing and a new state O2, a dump E0, loading C6, E0 or O2; nothing is left of what was to be made, and a store that was to be closed goes on. The
// other calls ask for no memory at all. A dump asks for no more than nrbpf.h says.
//
// It is linked with -Wl,--wrap=malloc,--wrap=calloc,--wrap=realloc,--wrap=aligned_alloc,--wrap=free, so that these come here first.
#include "fixture.h"

void *__real_malloc(size_t), *__real_calloc(size_t, size_t), *__real_realloc(void *, size_t), *__real_aligned_alloc(size_t, size_t);
void __real_free(void *);
void *__wrap_malloc(size_t), *__wrap_calloc(size_t, size_t), *__wrap_realloc(void *, size_t), *__wrap_aligned_alloc(size_t, size_t);
void __wrap_free(void *);

static long growths, blocks;                    // how many were asked for, and how many are not given back
static size_t asked_bytes;                      // how many bytes were asked for
static long from, to;                           // the growths that are refused, counted from 1

static int is_refused(size_t n) {
    growths++;
    asked_bytes += n;
    return from <= growths && growths < to;
}

static void *grown(void *block) {
    blocks += block != NULL;
    return block;
}

void *__wrap_malloc(size_t n) { return is_refused(n) ? NULL : grown(__real_malloc(n)); }
void *__wrap_calloc(size_t n, size_t each) { return is_refused(n * each) ? NULL : grown(__real_calloc(n, each)); }
void *__wrap_aligned_alloc(size_t to_what, size_t n) { return is_refused(n) ? NULL : grown(__real_aligned_alloc(to_what, n)); }

void *__wrap_realloc(void *block, size_t n) {
    if (is_refused(n)) return NULL;
    void *moved = __real_realloc(block, n);
    return block ? moved : grown(moved);
}

void __wrap_free(void *block) {
    blocks -= block != NULL;
    __real_free(block);
}

// From now on these are refused. How many are asked for is counted anew.
static void refuse(long first, long behind) {
    growths = 0;
    asked_bytes = 0;
    from = first;
    to = behind;
}

static void refuse_none(void) { from = to = 0; }

static counter files;
static nrbpf_state *on;                         // the state that a store is opened on, in which 1 is counted; null for a new one
static const key third = {{3, 0, 0, 0}};

static nrbpf_config two_by_two(void) {
    nrbpf_config config = NRBPF_CONFIG(2, 2);
    config.spare = 2;
    return config;
}

// Counts in a store, which replies that it is so many then.
static void counts(nrbpf_store *store, uint64_t wanted) {
    nrbpf_session *session;
    nrbpf_answer answer;
    EXPECT_STATUS(nrbpf_attach(store, 1, &session), NRBPF_OK);
    EXPECT_STATUS(nrbpf_update(session, bump, &third, sizeof third, &answer), NRBPF_OK);
    EXPECT(answer.reply == wanted);
    EXPECT_STATUS(nrbpf_detach(session), NRBPF_OK);
}

// Opens a store with these growths refused, counts in it, and ends it. What opening answered.
static nrbpf_status opened_with(long first, long behind) {
    nrbpf_config config = two_by_two();
    size_t len = strlen(files.manifest);
    nrbpf_store *store = NULL;
    nrbpf_error why;
    long before = blocks;
    refuse(first, behind);
    nrbpf_status told = on ? nrbpf_open_on(&config, files.manifest, len, files.files, programs, on, &store, &why)
                           : nrbpf_open(&config, files.manifest, len, files.files, programs, &store, &why);
    refuse_none();
    if (told == NRBPF_OK) {
        counts(store, on ? 2 : 1);
        EXPECT_STATUS(nrbpf_close(store), NRBPF_OK);
    } else EXPECT((told == NRBPF_C6 || told == NRBPF_O2) && why.status == told && store == NULL);
    EXPECT(blocks == before);
    return told;
}

// Closes a store in which 1 is counted with these growths refused. The state that it ends in, or null where it is refused: then it goes on.
static nrbpf_state *closed_state(long first, long behind, nrbpf_status *told) {
    nrbpf_config config = two_by_two();
    nrbpf_store *store = opened(&config);
    nrbpf_state *state = NULL;
    counts(store, 1);
    refuse(first, behind);
    *told = nrbpf_close_into(store, &state);
    refuse_none();
    if (*told != NRBPF_OK) {
        EXPECT(*told == NRBPF_O2 && state == NULL);
        counts(store, 2);
        EXPECT_STATUS(nrbpf_close(store), NRBPF_OK);
    }
    return state;
}

// The same, and ends the state. What closing answered.
static nrbpf_status closed_with(long first, long behind) {
    long before = blocks;
    nrbpf_status told;
    nrbpf_state_free(closed_state(first, behind, &told));
    EXPECT(blocks == before);
    return told;
}

// ---- States: of a store in which 1 is counted, and of its dump

static nrbpf_store *counted_once;
static const nrbpf_state *dumped;
static dump text;

static nrbpf_status made_with(long first, long behind) {
    nrbpf_state *state = NULL;
    long before = blocks;
    refuse(first, behind);
    nrbpf_status told = nrbpf_state_new(counted_once, &state);
    refuse_none();
    EXPECT(told == NRBPF_OK ? state != NULL : told == NRBPF_O2 && state == NULL);
    nrbpf_state_free(state);
    EXPECT(blocks == before);
    return told;
}

static nrbpf_status dumped_with(long first, long behind) {
    static dump into;
    long before = blocks;
    into.len = 0;
    refuse(first, behind);
    nrbpf_status told = nrbpf_state_dump(dumped, keep, &into);
    refuse_none();
    EXPECT(told == NRBPF_OK ? into.len == text.len && memcmp(into.text, text.text, text.len) == 0 : told == NRBPF_E0 && into.len == 0);
    EXPECT(blocks == before);
    return told;
}

static nrbpf_status loaded_with(long first, long behind) {
    nrbpf_config config = two_by_two();
    nrbpf_state *state = NULL;
    nrbpf_error why = {0, 0, 0, 0};
    long before = blocks;
    refuse(first, behind);
    nrbpf_status told =
        nrbpf_state_load(&config, files.manifest, strlen(files.manifest), files.files, programs, text.text, text.len, &state, &why);
    refuse_none();
    if (told != NRBPF_OK) EXPECT((told == NRBPF_C6 || told == NRBPF_E0 || told == NRBPF_O2) && why.status == told && state == NULL);
    nrbpf_state_free(state);
    EXPECT(blocks == before);
    return told;
}

static int count_bytes(void *to, const char *bytes, size_t len) {
    (void)bytes;
    *(size_t *)to += len;
    return 0;
}

// A dump takes 4 bytes for each key, and 40 KiB and a little more.
static void dumped_in_little(void) {
    enum { ENTRIES = 4096, LINE = 36, LITTLE = 4096 };
    static char lines[ENTRIES * LINE + 1];
    const nrbpf_config config = two_by_two();
    const char *const manifest = "map hash 8 8 4096\n";
    nrbpf_state *state = NULL;
    size_t written = 0;
    for (unsigned i = 0; i < ENTRIES; i++) sprintf(lines + i * LINE, "0 %016x %016x\n", i, i);
    EXPECT_STATUS(nrbpf_state_load(&config, manifest, strlen(manifest), NULL, 0, lines, ENTRIES * LINE, &state, NULL), NRBPF_OK);
    refuse(0, 0);
    EXPECT_STATUS(nrbpf_state_dump(state, count_bytes, &written), NRBPF_OK);
    EXPECT(written == ENTRIES * LINE && asked_bytes < 4 * ENTRIES + 40960 + LITTLE);
    nrbpf_state_free(state);
}

// ---- Each in turn

// Refuses a call each of its growths in turn, and writes how often it answered what.
static void refused_in_turn(const char *name, nrbpf_status (*call)(long, long)) {
    EXPECT_STATUS(call(0, 0), NRBPF_OK);
    const long asked = growths;
    long spared = 0, loading = 0, dumping = 0;
    for (long n = 1; n <= asked; n++) {
        nrbpf_status alone = call(n, n + 1);
        spared += alone == NRBPF_OK;
        loading += alone == NRBPF_C6;
        dumping += alone == NRBPF_E0;
        EXPECT(call(n, 1000000) != NRBPF_OK);
    }
    EXPECT(asked > 0 && spared < asked);
    printf("%s: %ld growths refused in turn: %ld times C6, %ld times E0, %ld times O2, %ld asked for once more\n", name, asked, loading, dumping,
           asked - loading - dumping - spared, spared);
}

// All that a store does between its opening and its end, with every growth refused.
static void calls_without_memory(void) {
    static const uint8_t five[] = {0xb7, 0, 0, 0, 5, 0, 0, 0, 0x95, 0, 0, 0, 0, 0, 0, 0};
    static uint8_t longest[16384];              // the same in 2,048 slots
    nrbpf_config config = two_by_two();
    config.long_bytes = sizeof longest;
    for (size_t at = 0; at < sizeof longest; at += 8) memcpy(longest + at, five + (at + 8 == sizeof longest ? 8 : 0), 8);
    nrbpf_store *store = opened(&config);
    nrbpf_session *session;
    nrbpf_state *state;
    nrbpf_answer answer;
    nrbpf_found found;
    nrbpf_scanned scanned;
    nrbpf_error why;
    uint8_t keys[16][4], values[16][8];
    uint64_t reply, point;
    uint16_t number;
    key first = key_of(0);
    const nrbpf_question question = {&first, sizeof first, peek};
    EXPECT_STATUS(nrbpf_state_new(store, &state), NRBPF_OK);
    refuse(1, 1000000);
    EXPECT_STATUS(nrbpf_attach(store, 1, &session), NRBPF_OK);
    EXPECT_STATUS(nrbpf_program_number(store, "peek", 4, &number), NRBPF_OK);
    for (int i = 0; i < 5000; i++) EXPECT_STATUS(nrbpf_update(session, bump, &first, sizeof first, &answer), NRBPF_OK);
    EXPECT_STATUS(nrbpf_poll(session, &answer), NRBPF_H11);
    EXPECT_STATUS(nrbpf_read(session, peek, &first, sizeof first, &answer), NRBPF_OK);
    EXPECT_STATUS(nrbpf_install(session, NRBPF_MODE_READ, 0, five, sizeof five, &answer, &why), NRBPF_OK);
    EXPECT_STATUS(nrbpf_install(session, NRBPF_MODE_READ, 0, five, 8, &answer, &why), NRBPF_S8);
    EXPECT_STATUS(nrbpf_install(session, NRBPF_MODE_READ, 0, longest, sizeof longest, &answer, &why), NRBPF_OK);
    EXPECT(answer.point == 5001 && answer.reply == programs + 1);
    EXPECT_STATUS(nrbpf_get(session, 0, &first, sizeof first, values, 8, &found), NRBPF_OK);
    EXPECT_STATUS(nrbpf_scan(session, 0, 0, keys, sizeof keys, values, sizeof values, &scanned), NRBPF_OK);
    EXPECT_STATUS(nrbpf_read_each(session, &question, 1, &reply, &point, &why), NRBPF_OK);
    EXPECT(reply == 5000 && point == 5002);
    EXPECT_STATUS(nrbpf_snapshot(session, state, &point), NRBPF_OK);
    EXPECT_STATUS(nrbpf_detach(session), NRBPF_OK);
    EXPECT(growths == 0);
    refuse_none();
    nrbpf_state_free(state);
    EXPECT_STATUS(nrbpf_close(store), NRBPF_OK);
}

int main(void) {
    nrbpf_status told;
    nrbpf_config config = two_by_two();
    files = counter_files();
    refused_in_turn("nrbpf_open", opened_with);
    refused_in_turn("nrbpf_close_into", closed_with);
    on = closed_state(0, 0, &told);
    refused_in_turn("nrbpf_open_on", opened_with);
    dumped = on;
    dump_state(on, &text);
    EXPECT(strcmp(text.text, "0 03000000 0100000000000000\n") == 0);
    refused_in_turn("nrbpf_state_dump", dumped_with);
    refused_in_turn("nrbpf_state_load", loaded_with);
    dumped_in_little();
    nrbpf_state_free(on);
    counted_once = opened(&config);
    counts(counted_once, 1);
    refused_in_turn("nrbpf_state_new", made_with);
    EXPECT_STATUS(nrbpf_close(counted_once), NRBPF_OK);
    calls_without_memory();
    give_back(&files);
    EXPECT(blocks == 0);
    printf("no other call asks for any, and nothing is left over\n");
    return 0;
}
