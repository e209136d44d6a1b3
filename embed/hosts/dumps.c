// dumps.c: states as text. A store's state is dumped and loaded, stores go on from it, and the dump of what they end in is what was counted there; the
// texts that are refused, each with its line; a text of many parts; a writer that never returns, or calls on its own state; and a file that `nrbpf --dump`
// wrote, which is loaded and dumped to the byte.
//
//     dumps [MANIFEST FILE..] STATE      loads STATE with this manifest and these program files in place of the counter's, and dumps it to
//                                        standard output
#include "fixture.h"
#include <setjmp.h>

enum { SPARE = 2, MOST_FILES = 16 };

static const uint8_t five[] = {0xb7, 0, 0, 0, 5, 0, 0, 0, 0x95, 0, 0, 0, 0, 0, 0, 0}; // a program that replies 5
#define FIVE "p read 0 b7000000050000009500000000000000\n"
static counter files;
static int refused;                             // how many texts and calls

static nrbpf_config config_of(uint32_t spare) {
    nrbpf_config config = NRBPF_CONFIG(2, 2);
    config.spare = spare;
    return config;
}

static nrbpf_status load(const char *text, size_t len, uint32_t spare, nrbpf_state **state, nrbpf_error *why) {
    const nrbpf_config config = config_of(spare);
    return nrbpf_state_load(&config, files.manifest, strlen(files.manifest), files.files, programs, text, len, state, why);
}

static nrbpf_state *loaded(const char *text) {
    nrbpf_state *state = NULL;
    EXPECT_STATUS(load(text, strlen(text), SPARE, &state, NULL), NRBPF_OK);
    return state;
}

static void dumps_as(const nrbpf_state *state, const char *wanted) {
    static dump into;
    dump_state(state, &into);
    EXPECT(strcmp(into.text, wanted) == 0);
}

// ---- What is loaded

// A store that goes on from an empty text ends in one that says what was done there, and another goes on from that.
static void goes_on(void) {
    const nrbpf_config config = config_of(SPARE);
    const key third = key_of(3);
    nrbpf_store *store;
    nrbpf_state *state = loaded(""), *end;
    nrbpf_answer answer;
    dumps_as(state, "");
    EXPECT_STATUS(nrbpf_open_on(&config, files.manifest, strlen(files.manifest), files.files, programs, state, &store, NULL), NRBPF_OK);
    nrbpf_session *session = attached(store, 1);
    EXPECT_STATUS(nrbpf_update(session, bump, &third, sizeof third, &answer), NRBPF_OK);
    EXPECT_STATUS(nrbpf_install(session, NRBPF_MODE_READ, 0, five, sizeof five, &answer, NULL), NRBPF_OK);
    EXPECT_STATUS(nrbpf_detach(session), NRBPF_OK);
    EXPECT_STATUS(nrbpf_close_into(store, &end), NRBPF_OK);
    dumps_as(end, "0 03000000 0100000000000000\n" FIVE);
    dumps_as(state, "");
    nrbpf_state_free(state);
    nrbpf_state_free(end);

    state = loaded("0 03000000 0100000000000000\n" FIVE);
    EXPECT_STATUS(nrbpf_open_on(&config, files.manifest, strlen(files.manifest), files.files, programs, state, &store, NULL), NRBPF_OK);
    nrbpf_state_free(state);
    session = attached(store, 0);
    EXPECT_STATUS(nrbpf_read(session, programs, NULL, 0, &answer), NRBPF_OK);
    EXPECT(answer.reply == 5);
    EXPECT_STATUS(nrbpf_read(session, programs + 1, NULL, 0, &answer), NRBPF_OK);
    EXPECT(answer.reply == NRBPF_REPLY_INVALID);
    EXPECT_STATUS(nrbpf_update(session, bump, &third, sizeof third, &answer), NRBPF_OK);
    EXPECT(answer.point == 0 && answer.reply == 2);
    EXPECT_STATUS(nrbpf_detach(session), NRBPF_OK);
    EXPECT_STATUS(nrbpf_close(store), NRBPF_OK);
}

// ---- What is refused

static void refuse(const char *text, nrbpf_error wanted) {
    nrbpf_state *state = NULL;
    nrbpf_error why = {77, 77, 77, 77};
    EXPECT_STATUS(load(text, strlen(text), SPARE, &state, &why), wanted.status);
    EXPECT(why.status == wanted.status && why.inner == wanted.inner && why.line == wanted.line && why.slot == wanted.slot);
    EXPECT_STATUS(load(text, strlen(text), SPARE, &state, NULL), wanted.status);
    EXPECT(state == NULL);
    refused++;
}

static void bad_lines(void) {
#define ONE "0 00000000 0100000000000000\n"
    refuse("0 00000000 0100000000000000", (nrbpf_error){NRBPF_E1, 0, 1, 0});
    refuse(ONE "0 0A000000 0100000000000000\n", (nrbpf_error){NRBPF_E1, 0, 2, 0});
    refuse(ONE "\n", (nrbpf_error){NRBPF_E1, 0, 2, 0});
    refuse(ONE "1 00000000 0100000000000000\n", (nrbpf_error){NRBPF_E2, 0, 2, 0});
    refuse("0 10000000 0100000000000000\n", (nrbpf_error){NRBPF_E3, 0, 1, 0});
    refuse("0 0000 0100000000000000\n", (nrbpf_error){NRBPF_E3, 0, 1, 0});
    refuse("0 00000000 01000000000000\n", (nrbpf_error){NRBPF_E4, 0, 1, 0});
    refuse(ONE ONE, (nrbpf_error){NRBPF_E5, 0, 2, 0});
    refuse(FIVE ONE, (nrbpf_error){NRBPF_E5, 0, 2, 0});
    refuse(ONE "0 01000000 0000000000000000\n", (nrbpf_error){NRBPF_E6, 0, 2, 0});
    refuse(ONE "p read 0 95\n", (nrbpf_error){NRBPF_E8, NRBPF_REFUSAL('D', 1), 2, 0});
    refuse("p read 0 b7000000050000000d00000000000000\n", (nrbpf_error){NRBPF_E8, NRBPF_REFUSAL('D', 4), 1, 1});
    refuse("p read 0 9500000000000000\n", (nrbpf_error){NRBPF_E8, NRBPF_REFUSAL('V', 6), 1, 0});
    refuse(FIVE FIVE FIVE, (nrbpf_error){NRBPF_E9, 0, 3, 0});
    refuse("0 00000000 010000\xff", (nrbpf_error){NRBPF_H4, 0, 0, 0});
}

// A hash of two entries has no room for three keys.
static void too_many_keys(void) {
    const nrbpf_config config = config_of(0);
    const char *const manifest = "map hash 1 1 2\n", *const text = "0 01 01\n0 02 00\n0 03 01\n";
    nrbpf_state *state = NULL;
    nrbpf_error why = {77, 77, 77, 77};
    EXPECT_STATUS(nrbpf_state_load(&config, manifest, strlen(manifest), NULL, 0, text, strlen(text), &state, &why), NRBPF_E7);
    EXPECT(why.status == NRBPF_E7 && why.inner == 0 && why.line == 3 && why.slot == 0 && state == NULL);
    refused++;
    EXPECT_STATUS(nrbpf_state_load(&config, manifest, strlen(manifest), NULL, 0, text, 16, &state, &why), NRBPF_OK);
    dumps_as(state, "0 01 01\n0 02 00\n");
    nrbpf_state_free(state);
}

static void wrong_calls(void) {
    const nrbpf_config config = config_of(SPARE);
    const nrbpf_config old = {NRBPF_VERSION - 1000, 2, 2, 4096, 0, SPARE, {0, 0, 0, 0, 0}, 0};
    const char *const manifest = files.manifest;
    const size_t len = strlen(manifest);
    nrbpf_state *state = NULL;
    nrbpf_error why = {77, 77, 77, 77};
    EXPECT_STATUS(nrbpf_state_load(NULL, manifest, len, files.files, programs, "", 0, &state, &why), NRBPF_H7);
    EXPECT_STATUS(nrbpf_state_load(&config, NULL, len, files.files, programs, "", 0, &state, &why), NRBPF_H7);
    EXPECT_STATUS(nrbpf_state_load(&config, manifest, len, NULL, programs, "", 0, &state, &why), NRBPF_H7);
    EXPECT_STATUS(nrbpf_state_load(&config, manifest, len, files.files, programs, NULL, 1, &state, &why), NRBPF_H7);
    EXPECT_STATUS(nrbpf_state_load(&config, manifest, len, files.files, programs, "", 0, NULL, &why), NRBPF_H7);
    EXPECT_STATUS(nrbpf_state_load(&old, manifest, len, files.files, programs, "", 0, &state, &why), NRBPF_H8);
    EXPECT_STATUS(load("", 0, 4097, &state, &why), NRBPF_O1);
    EXPECT(why.status == NRBPF_O1 && why.inner == 0 && why.line == 0 && why.slot == 0);
    EXPECT_STATUS(nrbpf_state_load(&config, "map array 08 16\n", 16, NULL, 0, "", 0, &state, &why), NRBPF_C1);
    EXPECT(why.status == NRBPF_C1 && why.line == 1);
    EXPECT_STATUS(nrbpf_state_load(&config, manifest, len, files.files, 1, "", 0, &state, &why), NRBPF_C1);
    EXPECT(why.line == 3);
    EXPECT(state == NULL);
    refused += 9;
    EXPECT_STATUS(nrbpf_state_load(&config, manifest, len, files.files, programs, NULL, 0, &state, &why), NRBPF_OK);
    dumps_as(state, "");
    nrbpf_state_free(state);
}

// ---- Many parts

enum { ENTRIES = 3000, LINE = 36 };

// What a dump has to be, how much of it has come, and from where on that is enough.
typedef struct wanted {
    const char *text;
    size_t len, enough;
} wanted;

static int compare(void *to, const char *bytes, size_t len) {
    wanted *it = (wanted *)to;
    EXPECT(len > 0 && len <= 16384 && it->len + len <= ENTRIES * LINE && memcmp(it->text + it->len, bytes, len) == 0);
    it->len += len;
    return it->len >= it->enough;
}

// A text of many parts comes as it was loaded, also after a writer that had enough in the middle of it.
static void many_parts(void) {
    static char text[ENTRIES * LINE + 1];
    const nrbpf_config config = config_of(0);
    const char *const manifest = "map hash 8 8 3000\n";
    nrbpf_state *state = NULL;
    wanted half = {text, 0, ENTRIES * LINE / 2}, whole = {text, 0, SIZE_MAX};
    for (unsigned i = 0; i < ENTRIES; i++) sprintf(text + i * LINE, "0 %016x %016x\n", i, 7 * i);
    EXPECT_STATUS(nrbpf_state_load(&config, manifest, strlen(manifest), NULL, 0, text, ENTRIES * LINE, &state, NULL), NRBPF_OK);
    EXPECT_STATUS(nrbpf_state_dump(state, compare, &half), NRBPF_H10);
    EXPECT(half.len >= half.enough && half.len < half.enough + 16384);
    EXPECT_STATUS(nrbpf_state_dump(state, compare, &whole), NRBPF_OK);
    EXPECT(whole.len == ENTRIES * LINE);
    nrbpf_state_free(state);
}

// ---- A writer that never returns, or calls on its own state

static jmp_buf before;

static int jump(void *to, const char *bytes, size_t len) {
    (void)to, (void)bytes, (void)len;
    longjmp(before, 1);
}

// A state that is in a dump is refused by each call that takes one, and nothing is written.
static void refuse_dumped(nrbpf_state *state) {
    const nrbpf_config config = config_of(SPARE);
    const char *const manifest = files.manifest;
    const nrbpf_file no_name = {NULL, 1, "", 0};
    nrbpf_store *store = NULL, *other = NULL;
    nrbpf_error why = {77, 77, 77, 77};
    uint64_t point = 77;
    static dump none;
    none.len = 0;
    EXPECT_STATUS(nrbpf_state_dump(state, keep, &none), NRBPF_H2);
    EXPECT_STATUS(nrbpf_open_on(&config, manifest, strlen(manifest), files.files, programs, state, &store, &why), NRBPF_H2);
    EXPECT(why.status == NRBPF_H2 && why.inner == 0 && why.line == 0 && why.slot == 0);
    EXPECT_STATUS(nrbpf_open_on(&config, manifest, strlen(manifest), &no_name, 1, state, &store, NULL), NRBPF_H2);
    EXPECT_STATUS(nrbpf_open(&config, manifest, strlen(manifest), files.files, programs, &other, NULL), NRBPF_OK);
    nrbpf_session *session = attached(other, 0);
    EXPECT_STATUS(nrbpf_snapshot(session, state, &point), NRBPF_H2);
    EXPECT_STATUS(nrbpf_try_snapshot(session, state, &point), NRBPF_H2);
    EXPECT_STATUS(nrbpf_detach(session), NRBPF_OK);
    EXPECT_STATUS(nrbpf_close(other), NRBPF_OK);
    EXPECT(!store && point == 77 && none.len == 0);
    refused += 5;
}

static void never_returns(void) {
    static nrbpf_state *state;                  // (no variable that the longjmp may leave undefined)
    state = loaded("0 03000000 0100000000000000\n" FIVE);
    if (setjmp(before) == 0) {
        (void)!nrbpf_state_dump(state, jump, NULL);
        EXPECT(0);
    }
    refuse_dumped(state);
    nrbpf_state_free(state);
}

static int dump_again(void *state, const char *bytes, size_t len) {
    (void)bytes, (void)len;
    refuse_dumped((nrbpf_state *)state);
    return 0;
}

static void own_state(void) {
    nrbpf_state *state = loaded("0 03000000 0100000000000000\n" FIVE);
    EXPECT_STATUS(nrbpf_state_dump(state, dump_again, state), NRBPF_OK);
    dumps_as(state, "0 03000000 0100000000000000\n" FIVE);
    nrbpf_state_free(state);
}

// ---- A file

static int print(void *to, const char *bytes, size_t len) {
    return fwrite(bytes, 1, len, (FILE *)to) != len;
}

static int dump_file(int count, char **words) {
    const nrbpf_config config = config_of(4);   // as many places as `nrbpf run` has
    nrbpf_file given[MOST_FILES];
    char *manifest = text_of(words[0]), *text = text_of(words[count - 1]);
    nrbpf_state *state;
    nrbpf_error why;
    char told[300];
    EXPECT(count - 2 <= MOST_FILES);
    for (int i = 1; i < count - 1; i++) given[i - 1] = file_of(words[i], text_of(words[i]));
    if (nrbpf_state_load(&config, manifest, strlen(manifest), given, (size_t)count - 2, text, strlen(text), &state, &why)) {
        nrbpf_error_text(&why, told, sizeof told);
        fprintf(stderr, "%s\n", told);
        return 1;
    }
    EXPECT_STATUS(nrbpf_state_dump(state, print, stdout), NRBPF_OK);
    nrbpf_state_free(state);
    for (int i = 1; i < count - 1; i++) free((char *)given[i - 1].text);
    free(manifest);
    free(text);
    return 0;
}

int main(int count, char **words) {
    if (count > 2) return dump_file(count - 1, words + 1);
    files = counter_files();
    goes_on();
    bad_lines();
    too_many_keys();
    wrong_calls();
    many_parts();
    never_returns();
    own_state();
    give_back(&files);
    printf("two stores went on from dumps, and %d texts and calls were refused\n", refused);
    return 0;
}
