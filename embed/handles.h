// handles.h: what is at the handles of nrbpf.h, for nrbpf.c, calls.c, lanes.c and states.c. No host includes it.
#ifndef NRBPF_HANDLES_H
#define NRBPF_HANDLES_H

#include "nrbpf.h"
#include "nrbpf_raw.h"
#include <assert.h>
#include <pthread.h>
#include <sched.h>
#include <stdalign.h>
#include <stddef.h>
#include <stdlib.h>
#include <string.h>

enum { MOST_SESSIONS = 128, TURNS = 512, MOST_DOUBLINGS = 8 };

// A place for a session. Its sessions come one after another, and each has a handle of its own: the
// address of the place, with the session's turn in its low bits. No code reads through a handle.
// So the handle of a detached session is found to be none, also after the place has another session.
// A handle comes again after TURNS turns.
// A lane has one place, whose handle is the lane's.
struct place {
    alignas(TURNS) nrbpf_session *handle;       // of the session that is attached, or null; of a lane's place the store, which is no session's
    int is_posted;                              // whether there is an update or an install to continue
    uint32_t turn;                              // of the session that is attached, or else of the next one
    uint32_t node;                              // of the session that is attached, and since it was:
    uint64_t updates;                           // how many updates and installs the store was asked for
    uint64_t waits;                             // how many calls waited for another session
    uint32_t doublings;                         // how often its shortest pause is doubled, when it waits next
    nrbpf_store *of;
    nrbpf_lane *lane;                           // of a lane's place: the lane's handle; else null
    uint32_t slots;                             // of the same: how many the lane has
    struct nrbpf_raw_session *raw;
    struct nrbpf_raw_lane *list;                // a lane without sessions, unless the place is a lane's
};

struct nrbpf_store {
    pthread_mutex_t mutex;                      // of `raw`, and of each place's handle and turn
    struct nrbpf_raw_store raw;
    struct place places[MOST_SESSIONS + 1];     // one more than can be attached, so that there is always one to try with
    size_t count;                               // how many of them have raw handles: one more than the store has sessions
    struct nrbpf_raw_session *moved;            // room for a session that joins a lane or leaves it
    void *rooms;                                // the memory of all raw handles
};

static inline nrbpf_session *next_handle(const struct place *place) {
    return (nrbpf_session *)((uintptr_t)place + place->turn);
}

// The handles at a place. A call that is late reads them while another thread attaches or detaches there: whichever it reads is not its own.
static inline nrbpf_session *handle_of(const struct place *place) {
    return __atomic_load_n(&place->handle, __ATOMIC_RELAXED);
}

static inline void set_handle(struct place *place, nrbpf_session *handle) {
    __atomic_store_n(&place->handle, handle, __ATOMIC_RELAXED);
}

static inline nrbpf_lane *lane_of(const struct place *place) {
    return __atomic_load_n(&place->lane, __ATOMIC_RELAXED);
}

static inline void set_lane(struct place *place, nrbpf_lane *lane) {
    __atomic_store_n(&place->lane, lane, __ATOMIC_RELAXED);
}

// The place of a session, of an earlier one too.
static inline struct place *place_of(const nrbpf_session *session) {
    return (struct place *)((uintptr_t)session & ~(uintptr_t)(TURNS - 1));
}

// A free place: there is always one.
static inline struct place *free_place(nrbpf_store *store) {
    struct place *place = store->places;
    while (handle_of(place)) {
        place++;
    }
    return place;
}

// Ends the session at a place, which the store has taken back.
static inline void end_session(struct place *place) {
    set_handle(place, NULL);
    place->turn = (place->turn + 1) % TURNS;
}

// The host's bytes, which a call is lent until it returns. No pointer that crosses is null, also if its length is 0.
static inline struct nrbpf_raw_bytes lent(const void *at, size_t len) {
    struct nrbpf_raw_bytes bytes;
    bytes.at = (const uint8_t *)(len > 0 ? at : "");
    bytes.length = len;
    return bytes;
}

static_assert(sizeof(nrbpf_question) == sizeof(struct nrbpf_raw_question) &&
                  offsetof(nrbpf_question, argument) == offsetof(struct nrbpf_raw_question, argument.at) &&
                  offsetof(nrbpf_question, len) == offsetof(struct nrbpf_raw_question, argument.length) &&
                  offsetof(nrbpf_question, program) == offsetof(struct nrbpf_raw_question, program),
              "a host's question is one that the library reads");

// The host's questions, at most 16, as the library reads them: the host's own array, or `room` with copies if one has a null pointer to no bytes or there
// are none. Null if one has a null pointer to bytes: H7.
static inline const struct nrbpf_raw_question *questions_of(const nrbpf_question *questions, size_t count, struct nrbpf_raw_question *room) {
    int is_copied = count == 0;
    for (size_t i = 0; i < count; i++) {
        if (!questions[i].argument) {
            if (questions[i].len > 0) {
                return NULL;
            }
            is_copied = 1;
        }
    }
    if (!is_copied) {
        return (const struct nrbpf_raw_question *)questions;
    }
    for (size_t i = 0; i < count; i++) {
        room[i].argument = lent(questions[i].argument, questions[i].len);
        room[i].program = questions[i].program;
    }
    return room;
}

// Lets another session go on: spins, each time for twice as long, 8 us or so at most, and then lets another thread run, too. The more often sessions
// are in each other's way, the longer one of them goes on alone, and has what they share in its cache.
static inline void pause_behind(struct place *place) {
    for (volatile unsigned spin = 0; spin < 16u << place->doublings;) {
        spin = spin + 1;
    }
    if (place->doublings < MOST_DOUBLINGS) {
        place->doublings = place->doublings + 1;
    } else {
        sched_yield();
    }
}

// Halves the next pause, after a call that did not wait.
static inline void shorten_pause(struct place *place) {
    if (place->doublings > 0) {
        place->doublings = place->doublings - 1;
    }
}

// What is at a state's handle. A dump has the state out of the raw handle, and puts it back before it returns: if the host's writer never returns, the state
// stays in the text.
struct nrbpf_state {
    struct nrbpf_raw_text *text;                // of the dump that has the state, or null
    struct nrbpf_raw_state raw;                 // only the words of it that are the host's: it is longer
};

// Room for a state; null if there is no memory.
static inline nrbpf_state *room_for_state(void) {
    nrbpf_state *const state = (nrbpf_state *)malloc(offsetof(nrbpf_state, raw) + nrbpf_raw_state_size());
    if (state) {
        state->text = NULL;
    }
    return state;
}

// Whether the state is in a dump, whose writer runs or never returned: H2.
static inline int is_dumped(const nrbpf_state *state) {
    return state->text != NULL;
}

static inline struct nrbpf_raw_state *raw_state_of(const nrbpf_state *state) {
    return (struct nrbpf_raw_state *)&state->raw;
}

// Writes an error that has nothing but its status, which it answers.
static inline nrbpf_status refused(nrbpf_error *why, nrbpf_status status) {
    if (why) {
        why->status = status;
        why->inner = 0;
        why->line = 0;
        why->slot = 0;
    }
    return status;
}

// Writes as many facts as the host's struct has room for, and zeros for what this library does not know.
static inline void put_facts(void *out, size_t size, const void *facts, size_t known) {
    memcpy(out, facts, size < known ? size : known);
    if (size > known) {
        memset((char *)out + known, 0, size - known);
    }
}

#endif
