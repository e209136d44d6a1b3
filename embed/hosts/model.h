// model.h: what a store of the fuzz is, in a few lines: a hash with room for eight keys (map 0, of examples/key_value), sixteen counters (map 1, of
// examples/counter), and installed programs that reply a number.
#ifndef MODEL_H
#define MODEL_H

#include "fixture.h"

enum { KEYS = 12, KEY_ROOM = 8, COUNTERS = 16, MOST_SPARE = 3 };
enum { PUT = 0, GET = 1, DEL = 2, CAS = 3, COUNT_UP = 4, COUNT = 5, MODEL_PROGRAMS = 6 };

#define MODEL_MANIFEST                                      \
    "map hash 4 4 8\n"                                      \
    "map array 8 16\n"                                      \
    "program put update 8 examples/key_value/put.hex\n"     \
    "program get read 4 examples/key_value/get.hex\n"       \
    "program del update 4 examples/key_value/del.hex\n"     \
    "program cas update 12 examples/key_value/cas.hex\n"    \
    "program bump update 4 bump\n"                          \
    "program peek read 4 peek\n"

static const size_t argument_of[MODEL_PROGRAMS] = {8, 4, 4, 12, 4, 4};
static const uint32_t mode_of[MODEL_PROGRAMS] = {NRBPF_MODE_UPDATE, NRBPF_MODE_READ, NRBPF_MODE_UPDATE, NRBPF_MODE_UPDATE, NRBPF_MODE_UPDATE, NRBPF_MODE_READ};

typedef struct installed {
    uint32_t mode, argument_len;
    uint8_t reply;
} installed;

typedef struct model {
    int has[KEYS];
    uint32_t value[KEYS];
    uint64_t counter[COUNTERS];
    uint32_t count;                             // of what is installed
    installed programs[MOST_SPARE];
} model;

// The program files. Those of the counter name map 1 instead of map 0.
static inline nrbpf_file counter_file(const char *name, const char *path) {
    char *text = text_of(path), *at = strstr(text, "1851000000000000");
    EXPECT(at);
    memcpy(at, "1851000001000000", 16);
    return file_of(name, text);
}

static inline void model_files(nrbpf_file *files) {
    static const char *const paths[] = {"examples/key_value/put.hex", "examples/key_value/get.hex", "examples/key_value/del.hex", "examples/key_value/cas.hex"};
    for (int i = 0; i < 4; i++) files[i] = file_of(paths[i], text_of(paths[i]));
    files[COUNT_UP] = counter_file("bump", BUMP);
    files[COUNT] = counter_file("peek", PEEK);
}

// ---- What programs do

static inline uint64_t model_put(model *of, uint32_t key, uint32_t value) {
    int count = 0;
    for (int i = 0; i < KEYS; i++) count += of->has[i];
    if (!of->has[key] && count == KEY_ROOM) return NRBPF_REPLY_NO_ROOM;
    of->has[key] = 1;
    of->value[key] = value;
    return 0;
}

static inline uint64_t model_del(model *of, uint32_t key) {
    const int had = of->has[key];
    of->has[key] = 0;
    return had ? 0 : (uint64_t)-2;
}

static inline uint64_t model_cas(model *of, uint32_t key, uint32_t expected, uint32_t value) {
    if (!of->has[key]) return (uint64_t)-2;
    if (of->value[key] != expected) return 1;
    of->value[key] = value;
    return 0;
}

// What a program of the manifest replies to these words, the first of which is a key below KEYS, or a counter's number.
static inline uint64_t model_run(model *of, uint16_t program, const uint32_t *words) {
    switch (program) {
    case PUT: return model_put(of, words[0], words[1]);
    case GET: return of->has[words[0]] ? of->value[words[0]] : (uint64_t)-2;
    case DEL: return model_del(of, words[0]);
    case CAS: return model_cas(of, words[0], words[1], words[2]);
    case COUNT_UP: return words[0] < COUNTERS ? ++of->counter[words[0]] : UINT64_MAX;
    default: return words[0] < COUNTERS ? of->counter[words[0]] : UINT64_MAX;
    }
}

// What one at a place replies.
static inline uint64_t model_run_installed(const model *of, uint32_t place, uint32_t mode, size_t len) {
    const installed *it = &of->programs[place];
    if (place >= of->count || it->mode != mode || it->argument_len != len) return NRBPF_REPLY_INVALID;
    return it->reply;
}

// Writes the program that replies a number: mov64 r0, REPLY; exit.
static inline void model_program(uint8_t reply, uint8_t *bytes) {
    static const uint8_t five[16] = {0xb7, 0, 0, 0, 5, 0, 0, 0, 0x95, 0, 0, 0, 0, 0, 0, 0};
    memcpy(bytes, five, sizeof five);
    bytes[4] = reply;
}

// ---- Its text

static inline char *model_number(char *at, uint64_t number, int bytes) {
    for (int i = 0; i < bytes; i++) at += sprintf(at, "%02x", (unsigned)(number >> (8 * i) & 255));
    return at;
}

// The dump of a store that is so.
static inline void model_text(const model *of, char *text) {
    *text = 0;
    for (uint32_t i = 0; i < KEYS; i++) {
        if (!of->has[i]) continue;
        text = model_number(text + sprintf(text, "0 "), i, 4);
        text = model_number(text + sprintf(text, " "), of->value[i], 4);
        text += sprintf(text, "\n");
    }
    for (uint32_t i = 0; i < COUNTERS; i++) {
        if (!of->counter[i]) continue;
        text = model_number(text + sprintf(text, "1 "), i, 4);
        text = model_number(text + sprintf(text, " "), of->counter[i], 8);
        text += sprintf(text, "\n");
    }
    for (uint32_t i = 0; i < of->count; i++) {
        const installed *it = &of->programs[i];
        text += sprintf(text, "p %s %u b7000000%02x0000009500000000000000\n", it->mode ? "read" : "update", (unsigned)it->argument_len, it->reply);
    }
}

#endif
