// refusals.c: what a store refuses, each with its status; and then nothing has changed: neither the store nor an answer nor a handle.
#include "fixture.h"

static counter files;
static int refused;                             // how many refusals were asked for

static nrbpf_session *earlier;                  // one that was detached, of another store
static void *const untouched = &refused;        // what a handle is that no call writes

// ---- Opening

// What a refused opening tells.
typedef struct fault {
    nrbpf_status status, inner;
    uint32_t line, slot;
} fault;

// A refusal writes no handle, and nothing but the error.
static void refuse(const nrbpf_config *config, const char *manifest, size_t len, const nrbpf_file *given, size_t count, fault wanted) {
    nrbpf_store *store = untouched;
    nrbpf_error why = {77, 77, 77, 77};
    EXPECT_STATUS(nrbpf_open(config, manifest, len, given, count, &store, &why), wanted.status);
    EXPECT(why.status == wanted.status && why.inner == wanted.inner && why.line == wanted.line && why.slot == wanted.slot);
    EXPECT_STATUS(nrbpf_open(config, manifest, len, given, count, &store, NULL), wanted.status);
    EXPECT(store == untouched);
    refused++;
}

static void refuse_config(nrbpf_config config, nrbpf_status wanted) {
    refuse(&config, files.manifest, strlen(files.manifest), files.files, programs, (fault){.status = wanted});
}

// A manifest with the counter's files and a file `other` of this text.
static void refuse_manifest(const char *manifest, const char *other, fault wanted) {
    nrbpf_config config = NRBPF_CONFIG(1, 1);
    nrbpf_file given[] = {files.files[bump], files.files[peek], file_of("other", other)};
    refuse(&config, manifest, strlen(manifest), given, 3, wanted);
}

static void configurations(void) {
    const nrbpf_config good = NRBPF_CONFIG(1, 1);
    nrbpf_config wrong;
    EXPECT_STATUS(nrbpf_config_init(&wrong, NRBPF_VERSION, 1, 1), NRBPF_OK);
    EXPECT(memcmp(&wrong, &good, offsetof(nrbpf_config, limits.argument) + sizeof good.limits.argument) == 0);
    EXPECT(wrong.long_bytes == good.long_bytes);
    const uint32_t versions[] = {0, NRBPF_VERSION - 1000, NRBPF_VERSION + 1000, NRBPF_VERSION + 1, UINT32_MAX};
    for (int i = 0; i < 5; i++) {
        wrong.version = versions[i];
        refuse_config(wrong, NRBPF_H8);
    }
    const uint32_t outside[][5] = {{0, 1, 16, 1, 0},   {9, 1, 16, 1, 0},    {1, 0, 16, 1, 0},  {1, 17, 16, 1, 0},
                                   {1, 1, 15, 1, 0},   {1, 1, 1048577, 1, 0}, {1, 1, 16, 1, 4097}, {UINT32_MAX, UINT32_MAX, 16, 1, 0}};
    for (int i = 0; i < 8; i++) {
        const uint32_t *it = outside[i];
        refuse_config((nrbpf_config){NRBPF_VERSION, it[0], it[1], it[2], it[3], it[4], {0, 0, 0, 0, 0}, 0}, NRBPF_O1);
    }
    for (int i = 0; i < 2; i++) {
        wrong = good;
        wrong.long_bytes = i == 0 ? 16385 : UINT32_MAX;
        refuse_config(wrong, NRBPF_O1);
    }
    const nrbpf_limits wider[] = {{65, 0, 0, 0, 0}, {3, 0, 0, 0, 0}, {0, 16385, 0, 0, 0}, {0, 0, 2147483649, 0, 0}, {0, 0, UINT64_MAX, 0, 0},
                                  {0, 0, 0, 1099511627777, 0}, {0, 0, 0, 0, 16385}, {0, 0, 0, 0, UINT32_MAX}};
    for (int i = 0; i < 8; i++) {
        wrong = good;
        wrong.limits = wider[i];
        refuse_config(wrong, NRBPF_O1);
    }
}

// What a manifest is answered with these limits, by a host with a header of this version. It may name a program file `five`.
static nrbpf_status opened_with(const char *manifest, nrbpf_limits limits, uint32_t version) {
    nrbpf_config config = NRBPF_CONFIG(1, 1);
    nrbpf_store *store = NULL;
    const nrbpf_file five = file_of("five", "b7000000050000009500000000000000");
    config.limits = limits;
    config.version = version;
    const nrbpf_status status = nrbpf_open(&config, manifest, strlen(manifest), &five, 1, &store, NULL);
    if (status == NRBPF_OK) {
        EXPECT_STATUS(nrbpf_close(store), NRBPF_OK);
    }
    return status;
}

static void limits_of_maps(void) {
    const nrbpf_limits standard = NRBPF_STANDARD, large = NRBPF_LARGE, zeros = {0, 0, 0, 0, 0}, narrow = {0, 0, 16, 0, 0};
    const char *past = "map hash 8 8 65537\n";
    EXPECT_STATUS(opened_with(past, zeros, NRBPF_VERSION), NRBPF_C1);
    EXPECT_STATUS(opened_with(past, standard, NRBPF_VERSION), NRBPF_C1);
    EXPECT_STATUS(opened_with(past, large, NRBPF_VERSION), NRBPF_OK);
    EXPECT_STATUS(opened_with(past, large, 2000), NRBPF_C1);    // an older host has no limits there
    EXPECT_STATUS(opened_with("map hash 8 8 17\n", narrow, NRBPF_VERSION), NRBPF_C1);
    EXPECT_STATUS(opened_with("map hash 8 8 16\n", narrow, NRBPF_VERSION), NRBPF_OK);
    EXPECT_STATUS(opened_with("map hash 8 8 2147483649\n", large, NRBPF_VERSION), NRBPF_C1);
    EXPECT_STATUS(opened_with("map hash 8 16384 16\n", large, NRBPF_VERSION), NRBPF_OK);
    EXPECT_STATUS(opened_with("map hash 8 16385 16\n", large, NRBPF_VERSION), NRBPF_C1);
    EXPECT_STATUS(opened_with("map hash 8 257 16\n", standard, NRBPF_VERSION), NRBPF_C1);
}

// What a program with arguments of so many bytes is answered.
static nrbpf_status argument_of(const char *length, nrbpf_limits limits, uint32_t version) {
    char manifest[80];
    snprintf(manifest, sizeof manifest, "map array 8 1\nprogram long update %s five\n", length);
    return opened_with(manifest, limits, version);
}

static void limits_of_arguments(void) {
    const nrbpf_limits standard = NRBPF_STANDARD, large = NRBPF_LARGE, zeros = {0, 0, 0, 0, 0}, narrow = {0, 0, 0, 0, 8}, unknown = {0, 0, 0, 0, 16385};
    const uint32_t older[] = {2000, 2001, 2004};
    EXPECT_STATUS(argument_of("64", zeros, NRBPF_VERSION), NRBPF_OK);
    EXPECT_STATUS(argument_of("64", standard, NRBPF_VERSION), NRBPF_OK);
    EXPECT_STATUS(argument_of("65", zeros, NRBPF_VERSION), NRBPF_C1);
    EXPECT_STATUS(argument_of("16384", zeros, NRBPF_VERSION), NRBPF_C1);
    EXPECT_STATUS(argument_of("16384", standard, NRBPF_VERSION), NRBPF_C1);
    EXPECT_STATUS(argument_of("193", large, NRBPF_VERSION), NRBPF_OK);
    EXPECT_STATUS(argument_of("16384", large, NRBPF_VERSION), NRBPF_OK);
    EXPECT_STATUS(argument_of("16385", large, NRBPF_VERSION), NRBPF_C1);
    EXPECT_STATUS(argument_of("8", narrow, NRBPF_VERSION), NRBPF_OK);
    EXPECT_STATUS(argument_of("9", narrow, NRBPF_VERSION), NRBPF_C1);
    for (int i = 0; i < 3; i++) {               // an older host has no limit of arguments there
        EXPECT_STATUS(argument_of("64", unknown, older[i]), NRBPF_OK);
        EXPECT_STATUS(argument_of("65", large, older[i]), NRBPF_C1);
        EXPECT_STATUS(argument_of("16384", large, older[i]), NRBPF_C1);
    }
    EXPECT_STATUS(opened_with("map hash 8 16384 16\n", large, 2004), NRBPF_OK);
}

// The configuration of an older host ends earlier. Nothing behind its end is read or written.
static void older_configurations(void) {
    const uint32_t versions[] = {2000, 2001, 2004, 2005};
    const size_t sizes[] = {24, 48, 48, 56};    // as the headers of these versions have them
    const size_t ends[] = {24, 48, 48, 52};     // where their last members end
    for (int i = 0; i < 4; i++) {
        nrbpf_config config = NRBPF_CONFIG(1, 1), behind;
        nrbpf_store *opened = NULL;
        void *const older = malloc(sizes[i]);
        EXPECT(older);
        config.version = versions[i];
        EXPECT_STATUS(nrbpf_config_init(older, versions[i], 1, 1), NRBPF_OK);
        EXPECT(memcmp(older, &config, ends[i]) == 0);
        EXPECT_STATUS(nrbpf_open(older, files.manifest, strlen(files.manifest), files.files, programs, &opened, NULL), NRBPF_OK);
        EXPECT_STATUS(nrbpf_close(opened), NRBPF_OK);
        free(older);
        memset(&behind, 0xee, sizeof behind);
        EXPECT_STATUS(nrbpf_config_init(&behind, versions[i], 1, 1), NRBPF_OK);
        for (size_t k = sizes[i]; k < sizeof behind; k++) EXPECT(((const uint8_t *)&behind)[k] == 0xee);
    }
}

// A value of 16,384 bytes is loaded, read by one call and by a page, and dumped.
static void long_values(void) {
    enum { BYTES = 16384, DIGITS = 2 * BYTES, KEY = 11 };
    static char text[KEY + DIGITS + 2];
    static uint8_t value[BYTES];
    const char *manifest = "map array 16384 1\n";
    nrbpf_config config = NRBPF_CONFIG(1, 1);
    config.limits = (nrbpf_limits)NRBPF_LARGE;
    memcpy(text, "0 00000000 ", KEY);
    for (int i = 0; i < BYTES; i++) sprintf(text + KEY + 2 * i, "%02x", (unsigned)(i % 251));
    text[KEY + DIGITS] = '\n';
    nrbpf_state *state = NULL;
    nrbpf_store *store = NULL;
    EXPECT_STATUS(nrbpf_state_load(&config, manifest, strlen(manifest), NULL, 0, text, KEY + DIGITS + 1, &state, NULL), NRBPF_OK);
    EXPECT_STATUS(nrbpf_open_on(&config, manifest, strlen(manifest), NULL, 0, state, &store, NULL), NRBPF_OK);
    nrbpf_session *session = attached(store, 0);
    const uint32_t key = 0;
    nrbpf_found found;
    EXPECT_STATUS(nrbpf_get(session, 0, &key, sizeof key, value, BYTES, &found), NRBPF_OK);
    EXPECT(found.is_there && value[0] == 0 && value[BYTES - 1] == (BYTES - 1) % 251);
    EXPECT_STATUS(nrbpf_get(session, 0, &key, sizeof key, value, BYTES - 1, &found), NRBPF_S12);
    EXPECT_STATUS(nrbpf_detach(session), NRBPF_OK);
    EXPECT_STATUS(nrbpf_close(store), NRBPF_OK);
    static dump written;
    dump_state(state, &written);
    EXPECT(written.len == KEY + DIGITS + 1 && memcmp(written.text, text, written.len) == 0);
    nrbpf_state_free(state);
}

static void manifests(void) {
    refuse_manifest("", "", (fault){NRBPF_C1, 0, 1, 0});
    refuse_manifest("map array 08 16\n", "", (fault){NRBPF_C1, 0, 1, 0});
    refuse_manifest("map array 8 16\nprogram it update 4 none", "", (fault){NRBPF_C1, 0, 2, 0});
    refuse_manifest("map array 8 16\nprogram it update 4 other\n", "b7 0", (fault){NRBPF_C2, 0, 2, 0});
    refuse_manifest("map array 8 16\nprogram it update 4 other\n", "", (fault){NRBPF_C3, NRBPF_REFUSAL('D', 2), 2, 0});
    refuse_manifest("map array 8 16\nprogram it update 4 other\n", "9500000000000000", (fault){NRBPF_C4, NRBPF_REFUSAL('V', 6), 2, 0});
    refuse_manifest("map array 8 16\nprogram it read 4 " BUMP "\n", "", (fault){NRBPF_C4, NRBPF_REFUSAL('V', 18), 2, 7});
    refuse_manifest("map array 256 65536\nmap array 1 1\n", "", (fault){NRBPF_C5, 0, 2, 0});
    refuse_manifest("map array \xff 16\n", "", (fault){.status = NRBPF_H4});
    refuse_manifest(files.manifest, "b7 \xc3", (fault){.status = NRBPF_H4});
}

static void null_pointers_of_open(void) {
    const nrbpf_config config = NRBPF_CONFIG(1, 1);
    const size_t len = strlen(files.manifest);
    const nrbpf_file no_name = {NULL, 1, "", 0}, no_text = {"other", 5, NULL, 1};
    const fault null = {.status = NRBPF_H7};
    refuse(NULL, files.manifest, len, files.files, programs, null);
    refuse(&config, NULL, 1, files.files, programs, null);
    refuse(&config, files.manifest, len, NULL, 1, null);
    refuse(&config, files.manifest, len, &no_name, 1, null);
    refuse(&config, files.manifest, len, &no_text, 1, null);
    refuse(&config, NULL, 0, NULL, 0, (fault){NRBPF_C1, 0, 1, 0});      // no text at all is the empty one
    EXPECT_STATUS(nrbpf_open(&config, files.manifest, len, files.files, programs, NULL, NULL), NRBPF_H7);
    refused++;
}

// A name that is not UTF-8, and a manifest whose last line has no line feed, which is good.
static void names_and_ends(void) {
    nrbpf_config config = NRBPF_CONFIG(1, 1);
    nrbpf_file given[] = {files.files[bump], files.files[peek], file_of("oth\xe9r", "")};
    refuse(&config, files.manifest, strlen(files.manifest), given, 3, (fault){.status = NRBPF_H4});
    nrbpf_store *opened;
    nrbpf_error why = {77, 77, 77, 77};
    size_t len = strlen(files.manifest) - 1;
    EXPECT(files.manifest[len] == '\n');
    EXPECT_STATUS(nrbpf_open(&config, files.manifest, len, files.files, programs, &opened, &why), NRBPF_OK);
    EXPECT(why.status == 77 && why.inner == 77 && why.line == 77 && why.slot == 77);
    EXPECT_STATUS(nrbpf_close(opened), NRBPF_OK);
}

// ---- A store of two nodes with two sessions each, whose counter 3 stands at 1

static nrbpf_store *store;
static nrbpf_session *sessions[2][2];
static const uint8_t argument[16385] = {3};

// No call that is refused has done anything: the history has one update, and counter 3 is 1, on both nodes.
static void expect_nothing_changed(void) {
    for (int node = 0; node < 2; node++) {
        nrbpf_answer answer;
        EXPECT_STATUS(nrbpf_read(sessions[node][0], peek, argument, 4, &answer), NRBPF_OK);
        EXPECT(answer.point == 1 && answer.reply == 1);
    }
    refused++;
}

#define REFUSE(call, wanted)               \
    do {                                   \
        EXPECT_STATUS(call, wanted);       \
        expect_nothing_changed();          \
    } while (0)

typedef nrbpf_status run(nrbpf_session *, uint16_t, const void *, size_t, nrbpf_answer *);

// What each of the four calls that run a program refuses, and that it writes no answer then.
static void runs(run *call, uint16_t program, uint16_t of_other_mode) {
    nrbpf_session *session = sessions[0][0];
    nrbpf_answer answer = {77, 77};
    const size_t lengths[] = {0, 3, 5, 64, 65, 193, 16384, 16385, SIZE_MAX};
    for (int i = 0; i < 9; i++) REFUSE(call(session, program, argument, lengths[i], &answer), NRBPF_S2);
    REFUSE(call(session, program, NULL, 0, &answer), NRBPF_S2);
    REFUSE(call(session, of_other_mode, argument, 4, &answer), NRBPF_S3);
    REFUSE(call(session, programs + 1, argument, 4, &answer), NRBPF_S1);        // behind the place that is spare
    REFUSE(call(session, UINT16_MAX, argument, 4, &answer), NRBPF_S1);
    REFUSE(call(session, program, NULL, 4, &answer), NRBPF_H7);
    REFUSE(call(session, program, argument, 4, NULL), NRBPF_H7);
    REFUSE(call(NULL, program, argument, 4, &answer), NRBPF_H7);
    REFUSE(call(earlier, program, argument, 4, &answer), NRBPF_H2);
    EXPECT(answer.point == 77 && answer.reply == 77);
}

typedef nrbpf_status install(nrbpf_session *, uint32_t, uint32_t, const void *, size_t, nrbpf_answer *, nrbpf_error *);

static void refuse_install(install *call, uint32_t mode, uint32_t argument_len, const void *bytes, size_t len, fault wanted) {
    nrbpf_answer answer = {77, 77};
    nrbpf_error why = {77, 77, 77, 77};
    REFUSE(call(sessions[0][0], mode, argument_len, bytes, len, &answer, &why), wanted.status);
    EXPECT(why.status == wanted.status && why.inner == wanted.inner && why.line == 0 && why.slot == wanted.slot);
    REFUSE(call(sessions[0][0], mode, argument_len, bytes, len, &answer, NULL), wanted.status);
    EXPECT(answer.point == 77 && answer.reply == 77);
}

static void installs(install *call) {
    static const uint8_t nothing_in_r0[] = {0x95, 0, 0, 0, 0, 0, 0, 0}, zeros[200];
    static const uint8_t opcode_13[] = {0xb7, 0, 0, 0, 5, 0, 0, 0, 0x0d, 0, 0, 0, 0, 0, 0, 0};
    nrbpf_answer answer = {77, 77};
    refuse_install(call, NRBPF_MODE_UPDATE, 4, zeros, 193, (fault){.status = NRBPF_S6});
    refuse_install(call, NRBPF_MODE_UPDATE, 4, zeros, 194, (fault){.status = NRBPF_S6});
    refuse_install(call, NRBPF_MODE_UPDATE, 4, zeros, SIZE_MAX, (fault){.status = NRBPF_S6});
    refuse_install(call, NRBPF_MODE_READ, 65, nothing_in_r0, 8, (fault){.status = NRBPF_S6});
    refuse_install(call, NRBPF_MODE_READ, UINT32_MAX, nothing_in_r0, 8, (fault){.status = NRBPF_S6});
    refuse_install(call, NRBPF_MODE_READ, 0, NULL, 0, (fault){NRBPF_S7, NRBPF_REFUSAL('D', 2), 0, 0});
    refuse_install(call, NRBPF_MODE_READ, 0, opcode_13, 16, (fault){NRBPF_S7, NRBPF_REFUSAL('D', 4), 0, 1});
    refuse_install(call, NRBPF_MODE_READ, 0, nothing_in_r0, 8, (fault){NRBPF_S8, NRBPF_REFUSAL('V', 6), 0, 0});
    refuse_install(call, 2, 0, nothing_in_r0, 8, (fault){.status = NRBPF_H5});
    refuse_install(call, NRBPF_MODE_READ, 0, NULL, 8, (fault){.status = NRBPF_H7});
    REFUSE(call(sessions[0][0], NRBPF_MODE_READ, 0, nothing_in_r0, 8, NULL, NULL), NRBPF_H7);
    REFUSE(call(NULL, NRBPF_MODE_READ, 0, nothing_in_r0, 8, &answer, NULL), NRBPF_H7);
    REFUSE(call(earlier, NRBPF_MODE_READ, 0, nothing_in_r0, 8, &answer, NULL), NRBPF_H2);
}

static void names(void) {
    uint16_t number = 77;
    char long_name[400];
    memset(long_name, 'a', sizeof long_name);
    REFUSE(nrbpf_program_number(store, "nope", 4, &number), NRBPF_S1);
    REFUSE(nrbpf_program_number(store, "bum", 3, &number), NRBPF_S1);
    REFUSE(nrbpf_program_number(store, "bump ", 5, &number), NRBPF_S1);
    REFUSE(nrbpf_program_number(store, NULL, 0, &number), NRBPF_S1);
    REFUSE(nrbpf_program_number(store, long_name, sizeof long_name, &number), NRBPF_S1);
    REFUSE(nrbpf_program_number(store, "b\xff", 2, &number), NRBPF_H4);
    REFUSE(nrbpf_program_number(store, NULL, 4, &number), NRBPF_H7);
    REFUSE(nrbpf_program_number(NULL, "bump", 4, &number), NRBPF_H7);
    REFUSE(nrbpf_program_number(store, "bump", 4, NULL), NRBPF_H7);
    EXPECT(number == 77);
    EXPECT_STATUS(nrbpf_program_number(store, "peek", 4, &number), NRBPF_OK);
    EXPECT(number == peek);
}

// ---- Reads of maps, and states

typedef nrbpf_status get(nrbpf_session *, uint32_t, const void *, size_t, void *, size_t, nrbpf_found *);

static void gets(get *call) {
    nrbpf_session *session = sessions[0][0];
    uint8_t value[9] = {77, 77, 77, 77, 77, 77, 77, 77, 77};
    nrbpf_found found = {77, 77};
    REFUSE(call(session, 1, argument, 4, value, 8, &found), NRBPF_UNKNOWN_MAP);
    REFUSE(call(session, UINT32_MAX, argument, 4, value, 8, &found), NRBPF_S9);
    REFUSE(call(session, 0, argument, 3, value, 8, &found), NRBPF_KEY_LENGTH);
    REFUSE(call(session, 0, NULL, 0, value, 7, &found), NRBPF_S11);
    REFUSE(call(session, 0, argument, 4, value, 7, &found), NRBPF_VALUE_LENGTH);
    REFUSE(call(session, 0, argument, 4, value, 9, &found), NRBPF_S12);
    REFUSE(call(session, 0, argument, 4, NULL, 0, &found), NRBPF_S12);
    REFUSE(call(earlier, 0, argument, 4, value, 8, &found), NRBPF_DETACHED);
    REFUSE(call(NULL, 0, argument, 4, value, 8, &found), NRBPF_NULL_POINTER);
    REFUSE(call(session, 0, NULL, 4, value, 8, &found), NRBPF_H7);
    REFUSE(call(session, 0, argument, 4, NULL, 8, &found), NRBPF_H7);
    REFUSE(call(session, 0, argument, 4, value, 8, NULL), NRBPF_H7);
    EXPECT(found.point == 77 && found.is_there == 77);
    for (int i = 0; i < 9; i++) EXPECT(value[i] == 77);
}

// The longest key is one of its map. A longer one is none, and is not cut.
static void longest_keys(get *call) {
    const nrbpf_config config = NRBPF_CONFIG(1, 1);
    const char manifest[] = "map hash 64 1 1\n";
    uint8_t key[128] = {0}, value = 77;
    nrbpf_store *opened;
    nrbpf_session *session;
    nrbpf_found found = {77, 77};
    EXPECT_STATUS(nrbpf_open(&config, manifest, strlen(manifest), NULL, 0, &opened, NULL), NRBPF_OK);
    EXPECT_STATUS(nrbpf_attach(opened, 0, &session), NRBPF_OK);
    for (size_t length = 65; length <= sizeof key; length++) REFUSE(call(session, 0, key, length, &value, 1, &found), NRBPF_S11);
    EXPECT(found.point == 77 && value == 77);
    EXPECT_STATUS(call(session, 0, key, 64, &value, 1, &found), NRBPF_OK);
    EXPECT(found.point == 0 && found.is_there == 0 && value == 77);
    EXPECT_STATUS(nrbpf_detach(session), NRBPF_OK);
    EXPECT_STATUS(nrbpf_close(opened), NRBPF_OK);
}

typedef nrbpf_status scan(nrbpf_session *, uint32_t, uint32_t, void *, size_t, void *, size_t, nrbpf_scanned *);

static void scans(scan *call) {
    nrbpf_session *session = sessions[0][0];
    uint8_t keys[4] = {77, 77, 77, 77}, values[8] = {77};
    nrbpf_scanned scanned = {77, 77, 77};
    REFUSE(call(session, 1, 0, keys, 4, values, 8, &scanned), NRBPF_S9);
    REFUSE(call(session, 0, 16, keys, 4, values, 8, &scanned), NRBPF_UNKNOWN_PLACE);
    REFUSE(call(session, 0, NRBPF_END, keys, 4, values, 8, &scanned), NRBPF_S10);
    REFUSE(call(earlier, 0, 0, keys, 4, values, 8, &scanned), NRBPF_H2);
    REFUSE(call(NULL, 0, 0, keys, 4, values, 8, &scanned), NRBPF_H7);
    REFUSE(call(session, 0, 0, NULL, 4, values, 8, &scanned), NRBPF_H7);
    REFUSE(call(session, 0, 0, keys, 4, NULL, 8, &scanned), NRBPF_H7);
    REFUSE(call(session, 0, 0, keys, 4, values, 8, NULL), NRBPF_H7);
    EXPECT(scanned.point == 77 && scanned.count == 77 && scanned.next == 77 && keys[0] == 77 && values[0] == 77);
}

typedef nrbpf_status read_each(nrbpf_session *, const nrbpf_question *, size_t, uint64_t *, uint64_t *, nrbpf_error *);

static void reads_of_many(read_each *call) {
    nrbpf_session *session = sessions[0][0];
    nrbpf_question questions[17];
    uint64_t replies[17] = {77}, point = 77;
    nrbpf_error why = {77, 77, 77, 77};
    const nrbpf_question good = {argument, 4, peek}, wrong[] = {{argument, 4, UINT16_MAX}, {argument, 5, peek}, {argument, 4, bump}};
    for (int i = 0; i < 17; i++) questions[i] = good;
    for (int i = 0; i < 3; i++) {
        questions[i + 7] = wrong[i];
        REFUSE(call(session, questions, 16, replies, &point, &why), NRBPF_REFUSAL('S', i + 1));
        EXPECT(why.status == NRBPF_REFUSAL('S', i + 1) && why.inner == 0 && why.line == 0 && why.slot == (uint32_t)i + 7);
        REFUSE(call(session, questions, 16, replies, &point, NULL), NRBPF_REFUSAL('S', i + 1));
        questions[i + 7] = good;
    }
    REFUSE(call(session, questions, 17, replies, &point, &why), NRBPF_BAD_CALL);
    EXPECT(why.status == NRBPF_H5 && why.slot == 0);
    questions[2].argument = NULL;
    REFUSE(call(session, questions, 3, replies, &point, &why), NRBPF_H7);
    REFUSE(call(earlier, questions, 2, replies, &point, &why), NRBPF_H2);
    REFUSE(call(NULL, questions, 2, replies, &point, &why), NRBPF_H7);
    REFUSE(call(session, NULL, 2, replies, &point, &why), NRBPF_H7);
    REFUSE(call(session, questions, 2, NULL, &point, &why), NRBPF_H7);
    REFUSE(call(session, questions, 2, replies, NULL, &why), NRBPF_H7);
    EXPECT(point == 77 && replies[0] == 77);
}

static int stops(void *to, const char *bytes, size_t len) {
    (void)bytes;
    *(size_t *)to += len;
    return 1;
}

// A state of this store, and one that has another number of places.
static void states(void) {
    nrbpf_session *session = sessions[0][0];
    nrbpf_config other = NRBPF_CONFIG(1, 1);
    nrbpf_store *other_store = opened(&other);
    nrbpf_state *other_state = NULL, *state = NULL;
    uint64_t point = 77;
    size_t written = 0;
    EXPECT_STATUS(nrbpf_state_new(other_store, &other_state), NRBPF_OK);
    EXPECT_STATUS(nrbpf_close(other_store), NRBPF_OK);
    REFUSE(nrbpf_state_new(NULL, &state), NRBPF_H7);
    REFUSE(nrbpf_state_new(store, NULL), NRBPF_H7);
    EXPECT(state == NULL);
    EXPECT_STATUS(nrbpf_state_new(store, &state), NRBPF_OK);
    REFUSE(nrbpf_snapshot(session, other_state, &point), NRBPF_OTHER_SIZES);
    REFUSE(nrbpf_try_snapshot(session, other_state, &point), NRBPF_H9);
    REFUSE(nrbpf_snapshot(earlier, state, &point), NRBPF_H2);
    REFUSE(nrbpf_try_snapshot(earlier, state, &point), NRBPF_H2);
    REFUSE(nrbpf_snapshot(NULL, state, &point), NRBPF_H7);
    REFUSE(nrbpf_snapshot(session, NULL, &point), NRBPF_H7);
    REFUSE(nrbpf_snapshot(session, state, NULL), NRBPF_H7);
    REFUSE(nrbpf_try_snapshot(session, NULL, &point), NRBPF_H7);
    EXPECT(point == 77);
    EXPECT_STATUS(nrbpf_snapshot(session, state, &point), NRBPF_OK);
    EXPECT(point == 1);
    REFUSE(nrbpf_state_dump(state, stops, &written), NRBPF_STOPPED);
    EXPECT(written == strlen("0 03000000 0100000000000000\n"));
    static dump whole;
    dump_state(state, &whole);                  // the state is as it was
    EXPECT(strcmp(whole.text, "0 03000000 0100000000000000\n") == 0);
    REFUSE(nrbpf_state_dump(NULL, stops, &written), NRBPF_H7);
    REFUSE(nrbpf_state_dump(state, NULL, &written), NRBPF_H7);
    nrbpf_state_free(state);
    nrbpf_state_free(other_state);
}

static void nothing_posted(void) {
    nrbpf_answer answer = {77, 77};
    REFUSE(nrbpf_poll(sessions[0][0], &answer), NRBPF_NOTHING_POSTED);
    REFUSE(nrbpf_poll(earlier, &answer), NRBPF_H2);
    REFUSE(nrbpf_poll(NULL, &answer), NRBPF_H7);
    REFUSE(nrbpf_poll(sessions[0][0], NULL), NRBPF_H7);
    EXPECT(answer.point == 77 && answer.reply == 77);
}

// All four sessions are attached.
static void attaching(void) {
    nrbpf_session *one = untouched;
    nrbpf_answer answer = {77, 77};
    REFUSE(nrbpf_attach(store, 0, &one), NRBPF_H1);
    REFUSE(nrbpf_attach(store, 1, &one), NRBPF_H1);
    REFUSE(nrbpf_attach(store, 2, &one), NRBPF_H1);
    REFUSE(nrbpf_attach(store, UINT32_MAX, &one), NRBPF_H1);
    REFUSE(nrbpf_attach(NULL, 0, &one), NRBPF_H7);
    REFUSE(nrbpf_attach(store, 0, NULL), NRBPF_H7);
    REFUSE(nrbpf_detach(NULL), NRBPF_H7);
    REFUSE(nrbpf_detach(earlier), NRBPF_H2);
    EXPECT(one == untouched);

    EXPECT_STATUS(nrbpf_detach(sessions[1][1]), NRBPF_OK);
    REFUSE(nrbpf_detach(sessions[1][1]), NRBPF_H2);
    REFUSE(nrbpf_update(sessions[1][1], bump, argument, 4, &answer), NRBPF_H2);
    REFUSE(nrbpf_read(sessions[1][1], peek, argument, 4, &answer), NRBPF_H2);
    REFUSE(nrbpf_poll(sessions[1][1], &answer), NRBPF_H2);
    EXPECT_STATUS(nrbpf_attach(store, 1, &sessions[1][1]), NRBPF_OK);
    EXPECT(answer.point == 77 && answer.reply == 77);
}

// A session that is detached stays so while others get its place, one after another.
static void earlier_sessions(void) {
    nrbpf_session *const first = sessions[1][1];
    nrbpf_answer answer = {77, 77};
    nrbpf_found found;
    uint64_t point, value = 77;
    for (int i = 0; i < 511; i++) {
        EXPECT_STATUS(nrbpf_detach(sessions[1][1]), NRBPF_OK);
        EXPECT_STATUS(nrbpf_attach(store, 1, &sessions[1][1]), NRBPF_OK);
        REFUSE(nrbpf_detach(first), NRBPF_H2);
    }
    REFUSE(nrbpf_update(first, bump, argument, 4, &answer), NRBPF_H2);
    REFUSE(nrbpf_try_read(first, peek, argument, 4, &answer), NRBPF_H2);
    REFUSE(nrbpf_get(first, 0, argument, 4, &value, 8, &found), NRBPF_H2);
    REFUSE(nrbpf_read_each(first, NULL, 0, NULL, &point, NULL), NRBPF_H2);
    REFUSE(nrbpf_poll(first, &answer), NRBPF_H2);
    EXPECT_STATUS(nrbpf_read(sessions[1][1], peek, argument, 4, &answer), NRBPF_OK);
    EXPECT(answer.point == 1 && answer.reply == 1 && value == 77);
}

// Of several refusals it is the first in this order: H7, H8, H2, H3 or H11, H5, and then the others.
static void first_of_several(void) {
    static const uint8_t zeros[200];
    const nrbpf_file no_text = {"other", 5, NULL, 1};
    const nrbpf_question questions[17] = {{NULL, 4, UINT16_MAX}};
    nrbpf_config other = {NRBPF_VERSION + 1000, 0, 0, 0, 0, 0, {0, 0, 0, 0, 0}, 0};
    nrbpf_answer answer = {77, 77};
    uint64_t replies[17], point;
    refuse(&other, NULL, 1, &no_text, 1, (fault){.status = NRBPF_H7});
    refuse(&other, NULL, 0, &no_text, 1, (fault){.status = NRBPF_H8});
    other.version = NRBPF_VERSION;
    refuse(&other, NULL, 0, &no_text, 1, (fault){.status = NRBPF_H7});
    REFUSE(nrbpf_update(earlier, UINT16_MAX, NULL, 4, &answer), NRBPF_H7);
    REFUSE(nrbpf_update(earlier, UINT16_MAX, argument, 5, &answer), NRBPF_H2);
    REFUSE(nrbpf_poll(earlier, NULL), NRBPF_H7);
    REFUSE(nrbpf_install(earlier, 2, 65, zeros, 193, &answer, NULL), NRBPF_H2);
    REFUSE(nrbpf_install(sessions[0][0], 2, 65, zeros, 193, &answer, NULL), NRBPF_H5);
    REFUSE(nrbpf_install(sessions[0][0], 2, 65, zeros, 194, &answer, NULL), NRBPF_H5);
    REFUSE(nrbpf_install(sessions[0][0], 2, 65, zeros, 8, &answer, NULL), NRBPF_H5);
    REFUSE(nrbpf_read_each(earlier, questions, 17, replies, &point, NULL), NRBPF_H2);
    REFUSE(nrbpf_read_each(sessions[0][0], questions, 17, replies, &point, NULL), NRBPF_H5);
    REFUSE(nrbpf_read_each(sessions[0][0], questions, 16, replies, &point, NULL), NRBPF_H7);
}

static void closing(void) {
    nrbpf_state *into = NULL;
    REFUSE(nrbpf_close(store), NRBPF_S5);
    REFUSE(nrbpf_close(NULL), NRBPF_H7);
    REFUSE(nrbpf_close_into(store, &into), NRBPF_S5);
    REFUSE(nrbpf_close_into(NULL, &into), NRBPF_H7);
    REFUSE(nrbpf_close_into(store, NULL), NRBPF_H7);
    EXPECT(into == NULL);
    for (int i = 1; i < 4; i++) EXPECT_STATUS(nrbpf_detach(sessions[i % 2][i / 2]), NRBPF_OK);
    EXPECT_STATUS(nrbpf_close(store), NRBPF_S5);
    EXPECT_STATUS(nrbpf_detach(sessions[0][0]), NRBPF_OK);
    EXPECT_STATUS(nrbpf_close(store), NRBPF_OK);
}

static void calls(void) {
    nrbpf_config config = NRBPF_CONFIG(2, 2);
    nrbpf_answer answer;
    config.spare = 1;
    store = opened(&config);
    for (uint32_t i = 0; i < 4; i++) EXPECT_STATUS(nrbpf_attach(store, i % 2, &sessions[i % 2][i / 2]), NRBPF_OK);
    EXPECT_STATUS(nrbpf_update(sessions[1][1], bump, argument, 4, &answer), NRBPF_OK);
    EXPECT(answer.point == 0 && answer.reply == 1);
    runs(nrbpf_update, bump, peek);
    runs(nrbpf_try_update, bump, peek);
    runs(nrbpf_read, peek, bump);
    runs(nrbpf_try_read, peek, bump);
    installs(nrbpf_install);
    installs(nrbpf_try_install);
    gets(nrbpf_get);
    longest_keys(nrbpf_get);
    gets(nrbpf_try_get);
    longest_keys(nrbpf_try_get);
    scans(nrbpf_scan);
    scans(nrbpf_try_scan);
    reads_of_many(nrbpf_read_each);
    reads_of_many(nrbpf_try_read_each);
    nothing_posted();
    states();
    names();
    attaching();
    earlier_sessions();
    first_of_several();
    closing();
}

// ---- A history that is full, and one with no place for a program

static void full_history(void) {
    nrbpf_config config = NRBPF_CONFIG(1, 1);
    nrbpf_session *session;
    nrbpf_answer answer;
    static const uint8_t five[] = {0xb7, 0, 0, 0, 5, 0, 0, 0, 0x95, 0, 0, 0, 0, 0, 0, 0};
    config.limit = 4;
    config.spare = 1;
    store = opened(&config);
    EXPECT_STATUS(nrbpf_attach(store, 0, &session), NRBPF_OK);
    EXPECT_STATUS(nrbpf_install(session, NRBPF_MODE_READ, 0, five, sizeof five, &answer, NULL), NRBPF_OK);
    EXPECT(answer.point == 0 && answer.reply == programs);
    EXPECT_STATUS(nrbpf_install(session, NRBPF_MODE_READ, 0, five, sizeof five, &answer, NULL), NRBPF_OK);
    EXPECT(answer.point == 1 && answer.reply == NRBPF_REPLY_NO_ROOM);
    EXPECT_STATUS(nrbpf_read(session, programs, NULL, 0, &answer), NRBPF_OK);
    EXPECT(answer.point == 2 && answer.reply == 5);
    for (uint64_t index = 2; index < 4; index++) {
        EXPECT_STATUS(nrbpf_update(session, bump, argument, 4, &answer), NRBPF_OK);
        EXPECT(answer.point == index && answer.reply == index - 1);
    }
    for (int again = 0; again < 2; again++) {
        answer = (nrbpf_answer){77, 77};
        EXPECT_STATUS(nrbpf_update(session, bump, argument, 4, &answer), NRBPF_S4);
        EXPECT_STATUS(nrbpf_try_update(session, bump, argument, 4, &answer), NRBPF_S4);
        EXPECT_STATUS(nrbpf_install(session, NRBPF_MODE_READ, 0, five, sizeof five, &answer, NULL), NRBPF_S4);
        EXPECT(answer.point == 77 && answer.reply == 77);
        EXPECT_STATUS(nrbpf_read(session, peek, argument, 4, &answer), NRBPF_OK);
        EXPECT(answer.point == 4 && answer.reply == 2);
        refused += 3;
    }
    EXPECT_STATUS(nrbpf_detach(session), NRBPF_OK);
    EXPECT_STATUS(nrbpf_close(store), NRBPF_OK);
}

// ---- Texts

static void texts(void) {
    const char *const line = "line 2: C4: the program is not accepted: slot 7: V18: a program in Read mode changes a map";
    nrbpf_error why = {NRBPF_C4, NRBPF_REFUSAL('V', 18), 2, 7};
    char text[600], cut[10] = "untouched";
    EXPECT(nrbpf_error_text(&why, text, sizeof text) == strlen(line) && strcmp(text, line) == 0);
    EXPECT(nrbpf_error_text(&why, cut, 5) == strlen(line) && strcmp(cut, "line") == 0);
    EXPECT(nrbpf_error_text(&why, NULL, 0) == strlen(line));
    EXPECT(nrbpf_error_text(NULL, text, sizeof text) > 0 && strcmp(text, nrbpf_status_text(NRBPF_H7)) == 0);
    why = (nrbpf_error){NRBPF_S7, NRBPF_REFUSAL('D', 2), 0, 0};
    EXPECT(nrbpf_error_text(&why, text, sizeof text) && strcmp(text, "S7: the bytes are no program: slot 0: D2: there are no bytes") == 0);
    why = (nrbpf_error){.status = NRBPF_S1};
    EXPECT(nrbpf_error_text(&why, text, sizeof text) && strcmp(text, "S1: unknown program") == 0);

    // Every refusal has a text of its own that begins with its letter and number, and nothing else has one.
    static const struct { char letter; int first, last; } letters[] = {{'C', 1, 6},  {'O', 1, 3}, {'S', 1, 12}, {'H', 1, 11},
                                                                             {'D', 0, 9}, {'E', 0, 9}, {'V', 0, 18}};
    const char *unknown = nrbpf_status_text(UINT32_MAX);
    for (int i = 0; i < 7; i++) {
        for (int number = 0; number < 256; number++) {
            const char *told = nrbpf_status_text(NRBPF_REFUSAL(letters[i].letter, number));
            snprintf(text, sizeof text, "%c%d: ", letters[i].letter, number);
            int is_one = letters[i].first <= number && number <= letters[i].last;
            EXPECT(is_one ? strncmp(told, text, strlen(text)) == 0 && told[strlen(text)] : told == unknown);
        }
    }
}

int main(void) {
    const nrbpf_config config = NRBPF_CONFIG(1, 1);
    files = counter_files();
    EXPECT(nrbpf_version() == NRBPF_VERSION);
    EXPECT_STATUS(nrbpf_config_init(NULL, NRBPF_VERSION, 1, 1), NRBPF_H7);
    configurations();
    limits_of_maps();
    limits_of_arguments();
    older_configurations();
    long_values();
    manifests();
    null_pointers_of_open();
    names_and_ends();
    nrbpf_store *other = opened(&config);
    earlier = attached(other, 0);
    EXPECT_STATUS(nrbpf_detach(earlier), NRBPF_OK);
    calls();
    full_history();
    texts();
    EXPECT_STATUS(nrbpf_close(other), NRBPF_OK);
    give_back(&files);
    printf("%d refusals, each with its status, and nothing changed\n", refused);
    return 0;
}
