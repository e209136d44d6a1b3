// fixture.h: the store that the hosts in C open, the counter of examples/counter, and what they say if an expectation fails.
// A host runs in the top folder of the repository.
#ifndef FIXTURE_H
#define FIXTURE_H

#include "../nrbpf.h"
#include <stdio.h>
#include <stdlib.h>
#include <string.h>

// Ends the host if this is not so.
#define EXPECT(holds)                                                           \
    do {                                                                        \
        if (!(holds)) {                                                         \
            fprintf(stderr, "%s:%d: not so: %s\n", __FILE__, __LINE__, #holds); \
            exit(1);                                                            \
        }                                                                       \
    } while (0)

// Ends the host if a call answers another status than this.
#define EXPECT_STATUS(call, wanted) expect_status(__FILE__, __LINE__, #call, call, wanted)

static inline void expect_status(const char *file, int line, const char *call, nrbpf_status status, nrbpf_status wanted) {
    if (status == wanted) return;
    fprintf(stderr, "%s:%d: %s: %s\n", file, line, call, nrbpf_status_text(status));
    exit(1);
}

// A file as it is, with a zero after it. Never given back: a host opens few.
static inline char *text_of(const char *path) {
    enum { MOST = 65536 };
    FILE *file = fopen(path, "rb");
    char *text = malloc(MOST + 1);
    if (!file || !text) {
        perror(path);
        exit(1);
    }
    size_t len = fread(text, 1, MOST, file);
    text[len] = 0;
    fclose(file);
    return text;
}

#define MANIFEST "examples/counter/manifest"
#define BUMP "examples/counter/bump.hex"
#define PEEK "examples/counter/peek.hex"

// The programs' numbers are their places in the manifest.
enum { bump = 0, peek = 1, programs = 2 };

typedef struct counter {
    char *manifest;
    nrbpf_file files[programs];
} counter;

static inline nrbpf_file file_of(const char *name, const char *text) {
    return (nrbpf_file){name, strlen(name), text, strlen(text)};
}

static inline counter counter_files(void) {
    return (counter){text_of(MANIFEST), {file_of(BUMP, text_of(BUMP)), file_of(PEEK, text_of(PEEK))}};
}

static inline void give_back(counter *files) {
    free(files->manifest);
    for (int i = 0; i < programs; i++) free((char *)files->files[i].text);
}

static inline nrbpf_store *opened(const nrbpf_config *config) {
    counter files = counter_files();
    nrbpf_store *store = NULL;
    EXPECT_STATUS(nrbpf_open(config, files.manifest, strlen(files.manifest), files.files, programs, &store, NULL), NRBPF_OK);
    give_back(&files);
    return store;
}

static inline nrbpf_session *attached(nrbpf_store *store, uint32_t node) {
    nrbpf_session *session = NULL;
    EXPECT_STATUS(nrbpf_attach(store, node, &session), NRBPF_OK);
    return session;
}

// What a state is dumped into: a text with a zero after it.
typedef struct dump {
    char text[65536];
    size_t len;
} dump;

static inline int keep(void *to, const char *bytes, size_t len) {
    dump *into = (dump *)to;
    EXPECT(len > 0 && len <= 16384 && into->len + len < sizeof into->text);
    memcpy(into->text + into->len, bytes, len);
    into->len += len;
    into->text[into->len] = 0;
    return 0;
}

static inline void dump_state(const nrbpf_state *state, dump *into) {
    into->len = 0;
    into->text[0] = 0;
    EXPECT_STATUS(nrbpf_state_dump(state, keep, into), NRBPF_OK);
}

// The argument of both programs: a counter's number, 0 to 15, in four bytes, the low one first.
typedef struct key {
    uint8_t bytes[4];
} key;

static inline key key_of(uint32_t number) {
    return (key){{(uint8_t)number, (uint8_t)(number >> 8), (uint8_t)(number >> 16), (uint8_t)(number >> 24)}};
}

#endif
