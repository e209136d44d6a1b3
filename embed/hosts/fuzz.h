// fuzz.h: the store that fuzz.c makes calls on, and what the host knows of it; its sessions.
#ifndef FUZZ_H
#define FUZZ_H

#include "model.h"
#include <pthread.h>
#include <sched.h>
#include <stdatomic.h>

enum { MOST_HANDLES = 30, STATES = 4, THREADS = 2, BESIDE = 15, MOST_TEXT = 4096 };

static long calls, wanted;                      // how many were made, and how many are to be
static long refused, busy, posted;
static uint64_t seed;
static nrbpf_file files[MODEL_PROGRAMS];

static uint32_t below(uint32_t n) {
    seed = seed * 6364136223846793005u + 1442695040888963407u;
    return (uint32_t)(seed >> 33) % n;
}

static int chance(uint32_t of) { return below(of) == 0; }

// ---- The store, and what is known of it

typedef struct handle {
    nrbpf_session *at;
    int is_attached;
    uint32_t node;
} handle;

typedef struct kept {                           // a state, if there is one, and what is in it
    nrbpf_state *at;
    uint32_t spare;
    model holds;
} kept;

static nrbpf_store *store;
static nrbpf_config config;
static model now;
static uint64_t point;                          // how many updates there are; next to a thread, how many at least
static handle handles[MOST_HANDLES];
static uint32_t handle_count;
static kept states[STATES];
static int is_beside;
static atomic_int stopped;
static pthread_t beside[THREADS];

// A status that this call must answer, and whether that is all.
static int answers(nrbpf_status told, nrbpf_status wanted_status, int line) {
    if (told != wanted_status) {
        fprintf(stderr, "fuzz.c:%d: call %ld answers %s\n    in place of %s\n", line, calls, nrbpf_status_text(told), nrbpf_status_text(wanted_status));
        exit(1);
    }
    refused += wanted_status != NRBPF_OK;
    return wanted_status == NRBPF_OK;
}
#define ANSWERS(told, wanted_status) answers(told, wanted_status, __LINE__)

// Counts a call, of tries that are BUSY the last. One that waits is answered.
static nrbpf_status made(nrbpf_status told, int waits) {
    calls += told != NRBPF_BUSY;
    busy += told == NRBPF_BUSY;
    if (told == NRBPF_BUSY) sched_yield();
    EXPECT(!(waits && (told == NRBPF_BUSY || told == NRBPF_POSTED)));
    return told;
}

static void is_at(uint64_t told, uint64_t more) {
    EXPECT(is_beside ? told >= point : told == point);
    point = told + more;
}

// ---- Sessions

static handle *any_handle(void) { return handle_count ? &handles[below(handle_count)] : NULL; }

// One that is attached, if any is.
static handle *attached_handle(void) {
    const uint32_t first = handle_count ? below(handle_count) : 0;
    for (uint32_t i = 0; i < handle_count; i++) {
        handle *it = &handles[(first + i) % handle_count];
        if (it->is_attached) return it;
    }
    return NULL;
}

static nrbpf_status of_session(const handle *it) { return it->is_attached ? NRBPF_OK : NRBPF_H2; }

static uint32_t count_attached(uint32_t node) {
    uint32_t count = is_beside && node == 0 ? THREADS : 0;
    for (uint32_t i = 0; i < handle_count; i++) count += handles[i].is_attached && handles[i].node == node;
    return count;
}

// No handle comes again while there are so few. If there is no room left, one that is detached is forgotten.
static void note_handle(nrbpf_session *at, uint32_t node) {
    for (uint32_t i = 0; i < handle_count; i++) EXPECT(handles[i].at != at);
    uint32_t free = handle_count;
    if (handle_count < MOST_HANDLES) handle_count++;
    else for (free = below(MOST_HANDLES); handles[free].is_attached;) free = (free + 1) % MOST_HANDLES;
    handles[free] = (handle){at, 1, node};
}

static void attach(void) {
    const uint32_t node = below(config.nodes + 1);
    nrbpf_session *got = NULL;
    calls++;
    if (chance(20)) {
        ANSWERS(chance(2) ? nrbpf_attach(NULL, node, &got) : nrbpf_attach(store, node, NULL), NRBPF_H7);
        return;
    }
    if (ANSWERS(nrbpf_attach(store, node, &got), node < config.nodes && count_attached(node) < config.slots ? NRBPF_OK : NRBPF_H1)) note_handle(got, node);
    else EXPECT(!got);
}

static void detach(void) {
    handle *it = any_handle();
    calls++;
    if (!it || chance(20)) ANSWERS(nrbpf_detach(NULL), NRBPF_H7);
    else if (ANSWERS(nrbpf_detach(it->at), of_session(it))) it->is_attached = 0;
}

// ---- Names

static void names(void) {
    static const char *const known[] = {"put", "get", "del", "cas", "bump", "peek"};
    const uint32_t which = below(MODEL_PROGRAMS);
    uint16_t number = 77;
    calls += 3;
    EXPECT_STATUS(nrbpf_program_number(store, known[which], strlen(known[which]), &number), NRBPF_OK);
    EXPECT(number == which);
    ANSWERS(nrbpf_program_number(store, known[which], strlen(known[which]) - 1, &number), NRBPF_S1);
    ANSWERS(nrbpf_program_number(store, NULL, 3, &number), NRBPF_H7);
}

#endif
