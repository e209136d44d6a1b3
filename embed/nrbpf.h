// nrbpf.h: an in-memory store that the threads of a service share. Its
// operations are verified eBPF programs.
//
//     nrbpf_config config = NRBPF_CONFIG(2, 4); // 2 nodes, 4 sessions of each
//     check(nrbpf_open(&config, manifest, strlen(manifest), files, 2,
//                      &store, &why));
//     check(nrbpf_program_number(store, "bump", 4, &bump));
//     check(nrbpf_attach(store, 0, &session)); // a session for this thread
//     check(nrbpf_update(session, bump, key, 4, &answer)); // see answer.reply
//     check(nrbpf_detach(session));
//     check(nrbpf_close(store));
//
// This file is the manual of the C interface. docs/EMBEDDING.md has a host's
// duties, which calls suit which service, and what is proved.
//
// A call writes its answer only if it succeeds. (Of a list also at S4.) It
// reads its arguments, keys and questions before that, so an answer may
// overwrite them. It keeps no pointer. The memory of two results of one call
// must not overlap. A text has a length, and needs no final zero.
//
// Only nrbpf_open, nrbpf_open_on, nrbpf_close_into, nrbpf_state_new,
// nrbpf_state_dump and nrbpf_state_load take memory. The library starts no
// thread, has no global state, opens no file, prints nothing, and sets no errno
// of its own.
//
// All updates of a store are its history. An install is an update too. A point
// of the history is a number of updates. The point of an update is its index:
// how many updates come before it. The point of any other answer is how many
// updates are in the maps that it was read from. If call A returned before call
// B began, A comes first.
//
// Each function says in brackets when it may be called:
//     [any]      At any time, by any number of threads, until the store ends.
//     [session]  As [any], but one call at a time on this session or lane: one
//                thread uses it, or hands it to another.
//     [end]      By one thread at a time. While a session or a lane is
//                attached, the call answers S5, even while a call on it runs.
//                Once none is attached, the call ends the store. Then no other
//                call on the store may be running or follow. Only a detach of
//                what is attached may run at the same time: the call answers
//                S5, as before it, or ends the store, as after it.
// A thread hands a session to another by a mutex, by a thread's start or join,
// or by a sequentially consistent atomic. Call nothing here from a signal
// handler, or in the forked child of a process with threads.
#ifndef NRBPF_HOST_H
#define NRBPF_HOST_H

#include <stddef.h>
#include <stdint.h>

#ifdef __cplusplus
extern "C" {
#endif

#if defined(__GNUC__)
#define NRBPF_MUST_LOOK __attribute__((warn_unused_result))
#else
#define NRBPF_MUST_LOOK
#endif

typedef struct nrbpf_store nrbpf_store;
// A thread's way to call a store: one slot of one node.
typedef struct nrbpf_session nrbpf_session;
// Some slots of one node: a thread's way to ask for several updates at once.
typedef struct nrbpf_lane nrbpf_lane;
// All keys, values and installed programs at one point of a history.
typedef struct nrbpf_state nrbpf_state;

// The major number changes if a host has to be changed or compiled again. The
// minor number changes if something is added.
#define NRBPF_VERSION_MAJOR 2u
#define NRBPF_VERSION_MINOR 7u
#define NRBPF_VERSION (NRBPF_VERSION_MAJOR * 1000u + NRBPF_VERSION_MINOR)

// Answers the version of the library. [any]
uint32_t nrbpf_version(void);

// ---- Statuses

// 0, or a refusal: why a call did not do what it should. `status >> 8` is its
// letter and `status & 255` its number in docs/REFUSALS.md. If several refusals
// apply, a call answers the first in this order: H7 of its own pointers, H8,
// H2, H3 or H11, H5, H7 of a pointer in a list, then the others. A refused call
// changes nothing, except that before S4 other updates may have gone in, also
// of the same list, and before H10 the writer may have had parts of the text.
// The statuses 1 and 2 have no letter and are no refusals. Only nrbpf_poll,
// nrbpf_poll_each and calls with `try_` in their name answer these: they have
// no answer yet.
typedef uint32_t nrbpf_status;
#define NRBPF_REFUSAL(letter, number) ((nrbpf_status)(letter) << 8 | (nrbpf_status)(number))

// Each refusal has a number and a name, of the same value.
enum {
    NRBPF_OK = 0,
    // Another session was in the way, and nothing has happened: call again, or
    // give up.
    NRBPF_BUSY = 1,
    // The update is posted and has no answer yet: call nrbpf_poll. Of a lane:
    // some of its updates are; call nrbpf_poll_each.
    NRBPF_POSTED = 2,

    // A manifest

    // A line is bad, or `files` lacks its program file.
    NRBPF_C1 = 'C' << 8 | 1, NRBPF_BAD_LINE = NRBPF_C1,
    // A program file has more than digits and white space, or an odd number of
    // digits.
    NRBPF_C2, NRBPF_BAD_DIGITS = NRBPF_C2,
    // A program file is no program. The inner refusal has the letter D.
    NRBPF_C3, NRBPF_FILE_NOT_DECODED = NRBPF_C3,
    // A program is not accepted. The inner refusal has the letter V.
    NRBPF_C4, NRBPF_FILE_NOT_ACCEPTED = NRBPF_C4,
    // There are more than 16 maps or 256 programs, or the maps have more bytes
    // than the configuration's `limits`.
    NRBPF_C5, NRBPF_TOO_MUCH = NRBPF_C5,
    // There is no memory to load the manifest.
    NRBPF_C6, NRBPF_NO_MEMORY_TO_LOAD = NRBPF_C6,

    // A dump: a state as text

    // There is no memory for the text, or for what it says.
    NRBPF_E0 = 'E' << 8, NRBPF_NO_MEMORY_FOR_DUMP = NRBPF_E0,
    // A line is no line of a dump.
    NRBPF_E1, NRBPF_BAD_DUMP_LINE = NRBPF_E1,
    // The manifest has no such map.
    NRBPF_E2, NRBPF_BAD_DUMP_MAP = NRBPF_E2,
    // The map can't have this key.
    NRBPF_E3, NRBPF_BAD_DUMP_KEY = NRBPF_E3,
    // The map's values have another length.
    NRBPF_E4, NRBPF_BAD_DUMP_VALUE = NRBPF_E4,
    // The line is out of order.
    NRBPF_E5, NRBPF_BAD_DUMP_ORDER = NRBPF_E5,
    // The value of an array is all zeros.
    NRBPF_E6, NRBPF_BAD_DUMP_ZEROS = NRBPF_E6,
    // The map has no room for the key.
    NRBPF_E7, NRBPF_DUMP_TOO_MANY_KEYS = NRBPF_E7,
    // The bytes are no program, or the program is not accepted. The inner
    // refusal has the letter D or V.
    NRBPF_E8, NRBPF_DUMP_BAD_PROGRAM = NRBPF_E8,
    // There is no place for the program.
    NRBPF_E9, NRBPF_DUMP_TOO_MANY_PROGRAMS = NRBPF_E9,

    // Opening

    // A number of the configuration is out of its limits, which nrbpf_config
    // names.
    NRBPF_O1 = 'O' << 8 | 1, NRBPF_OUT_OF_LIMITS = NRBPF_O1,
    // There is no memory for the store or the state.
    NRBPF_O2, NRBPF_NO_MEMORY = NRBPF_O2,
    // The state has other maps, or more or longer programs than there is room
    // for.
    NRBPF_O3, NRBPF_OTHER_STATE = NRBPF_O3,

    // A call on a store

    // The store has no such program.
    NRBPF_S1 = 'S' << 8 | 1, NRBPF_UNKNOWN_PROGRAM = NRBPF_S1,
    // The program's argument has another length. At a spare place: it is
    // longer than an installed program's argument may be (S6).
    NRBPF_S2, NRBPF_ARGUMENT_LENGTH = NRBPF_S2,
    // The program has the other mode.
    NRBPF_S3, NRBPF_OTHER_MODE = NRBPF_S3,
    // The history is full. Reads go on, updates don't.
    NRBPF_S4, NRBPF_FULL = NRBPF_S4,
    // close, close_into: sessions are attached.
    NRBPF_S5, NRBPF_ATTACHED = NRBPF_S5,
    // install: the program has more than 192 bytes, or its argument more than
    // 64, and more than the configuration's `long_bytes`.
    NRBPF_S6, NRBPF_TOO_LARGE = NRBPF_S6,
    // install: the bytes are no program. The inner refusal has the letter D.
    NRBPF_S7, NRBPF_NOT_DECODED = NRBPF_S7,
    // install: the program is not accepted. The inner refusal has the letter V.
    NRBPF_S8, NRBPF_NOT_ACCEPTED = NRBPF_S8,
    // scan, get, map_info: the store has no such map.
    NRBPF_S9, NRBPF_UNKNOWN_MAP = NRBPF_S9,
    // scan: the map has no such place.
    NRBPF_S10, NRBPF_UNKNOWN_PLACE = NRBPF_S10,
    // get: the map's keys have another length.
    NRBPF_S11, NRBPF_KEY_LENGTH = NRBPF_S11,
    // get: the map's values have another length.
    NRBPF_S12, NRBPF_VALUE_LENGTH = NRBPF_S12,

    // A host's mistake

    // attach: every session of the node is attached, or there is no such node.
    // attach_lane: the node has fewer free sessions.
    NRBPF_H1 = 'H' << 8 | 1, NRBPF_NO_SESSION = NRBPF_H1,
    // The session or the lane is not attached. open_on, snapshot, state_dump:
    // the state is in a dump, whose writer runs or never returned.
    NRBPF_H2, NRBPF_DETACHED = NRBPF_H2,
    // An update is posted on this session or lane and has no answer: call
    // nrbpf_poll or nrbpf_poll_each.
    NRBPF_H3, NRBPF_UNANSWERED = NRBPF_H3,
    // A text is not UTF-8.
    NRBPF_H4, NRBPF_NOT_UTF8 = NRBPF_H4,
    // install: the mode is neither of the two. read_each: there are more than
    // 16 questions. attach_lane: 0 slots, or more than 16. update_each: there
    // are more calls than the lane has slots.
    NRBPF_H5, NRBPF_BAD_CALL = NRBPF_H5,
    // Of raw calls (nrbpf_raw.h): the session is not of this store or does not
    // fit into this lane, or a part of the store is missing. No call below
    // answers this.
    NRBPF_H6, NRBPF_OTHER_STORE = NRBPF_H6,
    // A pointer is null.
    NRBPF_H7, NRBPF_NULL_POINTER = NRBPF_H7,
    // The host was compiled with a header that this library does not know.
    NRBPF_H8, NRBPF_OTHER_VERSION = NRBPF_H8,
    // snapshot: the state has other maps than the store, another number of
    // places, or other `long_bytes`.
    NRBPF_H9, NRBPF_OTHER_SIZES = NRBPF_H9,
    // state_dump: the host's writer stopped.
    NRBPF_H10, NRBPF_STOPPED = NRBPF_H10,
    // poll, poll_each: no update is posted on this session or lane.
    NRBPF_H11, NRBPF_NOTHING_POSTED = NRBPF_H11
};

// Why a call refused, with more than the status. A member that does not apply
// is 0.
typedef struct nrbpf_error {
    nrbpf_status status;
    // With C3, C4, E8, S7 and S8: the refusal of the program, with the letter D
    // or V.
    nrbpf_status inner;
    // The line of the manifest (letter C) or of the dump (letter E). The first
    // line is 1.
    uint32_t line;
    // With `inner`: the slot of the program. Of read_each and update_each: the
    // question's or call's number. The first is 0.
    uint32_t slot;
} nrbpf_error;

// Answers what a status means, in one line. The line of a refusal begins with
// its letter and number. The text is a constant and never null. [any]
const char *nrbpf_status_text(nrbpf_status status);

// Writes an error as one line: "line 3: C4: the program is not accepted: slot
// 5: V14: ..". The line and its final zero are cut to fit into `room` bytes.
// Answers the full length without the zero, as snprintf does. [any]
size_t nrbpf_error_text(const nrbpf_error *why, char *text, size_t room);

// ---- A store

// How large the maps of a manifest and the arguments of its programs may be. A
// number that is 0 means that of NRBPF_STANDARD. A host that loads the
// manifests of others may set smaller numbers.
typedef struct nrbpf_limits {
    // The most bytes of a key: 4 to 64.
    uint32_t key;
    // The most bytes of a value: at most 16384.
    uint32_t value;
    // The most entries of a map: at most 2147483648.
    uint64_t entries;
    // The most bytes of all maps: at most 1099511627776.
    uint64_t bytes;
    // The most bytes of an argument: at most 16384.
    uint32_t argument;
} nrbpf_limits;
#define NRBPF_STANDARD {64, 256, 65536, 16777216, 64}
#define NRBPF_LARGE {64, 16384, 2147483648, 1099511627776, 16384}

typedef struct nrbpf_config {
    // NRBPF_VERSION.
    uint32_t version;
    // 1 to 8. Each node has a copy of the maps, from which it answers reads.
    uint32_t nodes;
    // 1 to 16: the sessions of a node.
    uint32_t slots;
    // 16 to 1048576: how many updates the log keeps.
    uint32_t window;
    // How many updates the whole history may have. Later ones get S4.
    // NRBPF_ENDLESS sets no limit.
    uint32_t limit;
    // 0 to 4096: the spare places, for programs that are installed later.
    uint32_t spare;
    // How large maps and arguments may be. The library reads it if `version` is
    // 2001 or more, and its member `argument` if `version` is 2005 or more.
    nrbpf_limits limits;
    // The most bytes of an installed program, and of its argument, if that is
    // more than the 192 and 64 that each may have: up to 16384, which are 2048
    // slots. The log and each node keep so many bytes for each update of the
    // window. If `window` times `long_bytes` is 4 GiB or more, that is O2. With
    // 2048 slots, each spare place takes 99 KB in the log and in each node.
    // The log, each node and each session take about 1 MB more. The library
    // reads it if `version` is 2006 or more.
    uint32_t long_bytes;
} nrbpf_config;
#define NRBPF_ENDLESS 0
#define NRBPF_CONFIG(nodes, slots) {NRBPF_VERSION, (nodes), (slots), 4096, NRBPF_ENDLESS, 0, {0, 0, 0, 0, 0}, 0}

// Fills in what NRBPF_CONFIG does, for languages without macros. `version` is
// the NRBPF_VERSION of the header that the host was made for. Refuses with H7.
// [any]
nrbpf_status nrbpf_config_init(
    nrbpf_config *config, uint32_t version, uint32_t nodes, uint32_t slots);

// A program file: its name as the manifest has it, and its hexadecimal digits.
typedef struct nrbpf_file {
    const char *name;
    size_t name_len;
    const char *text;
    size_t text_len;
} nrbpf_file;

// Loads the maps and programs of a manifest, verifies each program, and opens a
// store of them. `files` are the `count` program files that the manifest names.
// Refuses with C1 to C6, O1, O2, H4, H7 and H8. Then *why says where, unless
// `why` is null. [any]
NRBPF_MUST_LOOK nrbpf_status nrbpf_open(
    const nrbpf_config *config, const char *manifest, size_t manifest_len,
    const nrbpf_file *files, size_t count, nrbpf_store **out, nrbpf_error *why);

// Opens a store as nrbpf_open does, but on a state. The state stays the host's,
// and other stores may open on it too. The new history begins at point 0.
// Refuses as nrbpf_open does. Also refuses with O3 if the manifest has other
// maps than the state, or if the configuration has fewer spare places than the
// state has programs. A program of the state that is longer than `long_bytes`
// allows is O3 too, and so is a longer argument. Refuses with H2 if the state
// is in a dump. [any], with no other call on this state at the same time.
NRBPF_MUST_LOOK nrbpf_status nrbpf_open_on(
    const nrbpf_config *config, const char *manifest, size_t manifest_len,
    const nrbpf_file *files, size_t count, const nrbpf_state *state,
    nrbpf_store **out, nrbpf_error *why);

// Ends a store and gives its memory back. If it refuses (S5, H7), the store is
// as it was. [end]
NRBPF_MUST_LOOK nrbpf_status nrbpf_close(nrbpf_store *store);

// Ends a store and gives its last state. If it refuses (S5, O2, H7), the store
// is as it was. [end]
NRBPF_MUST_LOOK nrbpf_status nrbpf_close_into(
    nrbpf_store *store, nrbpf_state **out);

// Gives the number of a program of the manifest. Refuses with S1, H4 and H7.
// [any]
NRBPF_MUST_LOOK nrbpf_status nrbpf_program_number(
    nrbpf_store *store, const char *name, size_t len, uint16_t *out);

// Gives a free session of this node. The first node is 0. Takes no memory.
// Refuses with H1 and H7. [any]
NRBPF_MUST_LOOK nrbpf_status nrbpf_attach(
    nrbpf_store *store, uint32_t node, nrbpf_session **out);

// Gives a session back. While the store is open, all calls then refuse its
// handle (H2), until a new session gets the same one. None of the next 511
// sessions gets it. Refuses with H2, H3 and H7. [session]
NRBPF_MUST_LOOK nrbpf_status nrbpf_detach(nrbpf_session *session);

// ---- Calls: each is one operation, at one point of the store's history

typedef struct nrbpf_answer {
    // Of an update: its index, how many updates come before it. Of a read: how
    // many updates it has seen.
    uint64_t point;
    // What the program left in R0.
    uint64_t reply;
} nrbpf_answer;

// Two replies say that an operation did nothing. -7: an install found no free
// place. By custom a program also replies -7 if a map has no room for a key.
// -22: at its index a call found no program of its number, mode and argument
// length.
#define NRBPF_REPLY_NO_ROOM (UINT64_MAX - 6)
#define NRBPF_REPLY_INVALID (UINT64_MAX - 21)

enum { NRBPF_MODE_UPDATE = 0, NRBPF_MODE_READ = 1 };

// Run a program on an argument of `len` bytes. Both calls wait while other
// sessions of the store are in the way. First they spin. Later they call
// sched_yield between two tries. That a wait ends is not proved. Refuse with
// S1, S2, S3, H2, H3 and H7, an update also with S4. [session]
NRBPF_MUST_LOOK nrbpf_status nrbpf_update(
    nrbpf_session *session, uint16_t program, const void *argument, size_t len,
    nrbpf_answer *out);
NRBPF_MUST_LOOK nrbpf_status nrbpf_read(
    nrbpf_session *session, uint16_t program, const void *argument, size_t len,
    nrbpf_answer *out);

// Adds a program to the running store. Waits as nrbpf_update does. The reply is
// its number from then on, or NRBPF_REPLY_NO_ROOM if no spare place is left.
// That is no refusal: the status is NRBPF_OK, so test the reply. The program
// has at most 192 bytes, which are 24 slots, and an argument of at most 64, or
// as many of both as the configuration's `long_bytes` (S6). Refuses with S4, S6
// to S8, H2, H3, H5 and H7. Then *why says more, unless `why` is null.
// [session]
NRBPF_MUST_LOOK nrbpf_status nrbpf_install(
    nrbpf_session *session, uint32_t mode, uint32_t argument_len,
    const void *bytes, size_t len, nrbpf_answer *out, nrbpf_error *why);

// Do what nrbpf_update, nrbpf_read and nrbpf_install do, but wait for nobody.
// Each may also answer BUSY. An update or an install may also answer POSTED.
// After POSTED the update will happen exactly once, unless nrbpf_poll refuses
// it with S4. Until its answer the session takes only nrbpf_poll (H3). Poll
// soon, and all sessions of a thread in turn: one may have taken other updates
// of its node along, and they wait until it is polled. If it is never polled
// again, these and all later updates of its node may wait for ever. Then the
// store can't be closed either (S5). [session]
NRBPF_MUST_LOOK nrbpf_status nrbpf_try_update(
    nrbpf_session *session, uint16_t program, const void *argument, size_t len,
    nrbpf_answer *out);
NRBPF_MUST_LOOK nrbpf_status nrbpf_try_read(
    nrbpf_session *session, uint16_t program, const void *argument, size_t len,
    nrbpf_answer *out);
NRBPF_MUST_LOOK nrbpf_status nrbpf_try_install(
    nrbpf_session *session, uint32_t mode, uint32_t argument_len,
    const void *bytes, size_t len, nrbpf_answer *out, nrbpf_error *why);

// A program to install, and the maps that it may name.
typedef struct nrbpf_confined {
    // Bit m is for map m, as the manifest counts its maps from 0. Bits for maps
    // that the store doesn't have say nothing.
    uint16_t maps;
    uint32_t mode;          // NRBPF_MODE_UPDATE or NRBPF_MODE_READ
    uint32_t argument_len;  // how many bytes its arguments have
    const void *bytes;      // its instructions
    size_t len;             // how many bytes these have
} nrbpf_confined;

// Do what nrbpf_install and nrbpf_try_install do, for a program that may name
// only the maps in `maps`. So a host that lets others install programs says
// which maps each may read and change. If nrbpf_install would refuse the
// program, the refusal is that one. Else, if the program names another map, the
// call refuses with S8, and *why has V16 and the first slot that names such a
// map. What is posted does not depend on `maps`. Refuse with S4, S6 to S8, H2,
// H3, H5 and H7. [session]
NRBPF_MUST_LOOK nrbpf_status nrbpf_install_within(
    nrbpf_session *session, const nrbpf_confined *program, nrbpf_answer *out,
    nrbpf_error *why);
NRBPF_MUST_LOOK nrbpf_status nrbpf_try_install_within(
    nrbpf_session *session, const nrbpf_confined *program, nrbpf_answer *out,
    nrbpf_error *why);

// Continues the update or the install that is posted, and waits for nobody.
// Answers POSTED again, or gives the answer, or refuses with S4. With S4 the
// update is over and did nothing. Also refuses with H2, H7 and H11. [session]
NRBPF_MUST_LOOK nrbpf_status nrbpf_poll(
    nrbpf_session *session, nrbpf_answer *out);

// ---- More reads: each at one point of the history
//
// Each function with `try_` in its name waits for nobody, and may answer BUSY.
// The others wait as nrbpf_read does.

typedef struct nrbpf_found {
    // How many updates the map had seen.
    uint64_t point;
    // 1 if the key is there, and its value is written. Else 0, and the bytes at
    // `value` are as they were.
    uint32_t is_there;
} nrbpf_found;

// Finds a key in a map and gives its value. The first map of the manifest is 0.
// Refuses with S9, S11, S12, H2, H3 and H7. [session]
NRBPF_MUST_LOOK nrbpf_status nrbpf_get(
    nrbpf_session *session, uint32_t map, const void *key, size_t key_len,
    void *value, size_t value_len, nrbpf_found *out);
NRBPF_MUST_LOOK nrbpf_status nrbpf_try_get(
    nrbpf_session *session, uint32_t map, const void *key, size_t key_len,
    void *value, size_t value_len, nrbpf_found *out);

typedef struct nrbpf_scanned {
    // How many updates the map had seen.
    uint64_t point;
    // How many entries were given.
    uint32_t count;
    // The place of the map from which to continue, or NRBPF_END.
    uint32_t next;
} nrbpf_scanned;
#define NRBPF_END UINT32_MAX

// Gives a page of a map's entries, from the place `from` on. A map has a place
// for each of its ENTRIES, from 0 on. Begin with 0. Writes keys one after
// another into `keys`, and their values into `values`, as many as both hold.
// Both rooms are in bytes. Reads at most 1,024 places of the map, and 16 more
// for each entry that the buffers hold. So a page may have no entry although
// the map goes on. If the buffers hold no entry, no page goes past the first
// one that it finds. Two pages may be of different points, and a deletion may
// move a key to another page. A snapshot is of one point. It is tested, not
// proved, that the pages of one session at one point give each key once.
// Refuses with S9, S10, H2, H3 and H7. [session]
NRBPF_MUST_LOOK nrbpf_status nrbpf_scan(
    nrbpf_session *session, uint32_t map, uint32_t from, void *keys,
    size_t keys_room, void *values, size_t values_room, nrbpf_scanned *out);
NRBPF_MUST_LOOK nrbpf_status nrbpf_try_scan(
    nrbpf_session *session, uint32_t map, uint32_t from, void *keys,
    size_t keys_room, void *values, size_t values_room, nrbpf_scanned *out);

// One call of nrbpf_read or nrbpf_update.
typedef struct nrbpf_question {
    const void *argument;
    size_t len;
    uint16_t program;
} nrbpf_question;
#define NRBPF_MOST_QUESTIONS 16

// Answers up to 16 reads at one point. replies[i] is the reply of questions[i].
// Without questions the call brings the session's node up to date. Refuses with
// S1 to S3, H2, H3, H5 and H7. With S1 to S3 the slot of *why is the question's
// number, unless `why` is null. [session]
NRBPF_MUST_LOOK nrbpf_status nrbpf_read_each(
    nrbpf_session *session, const nrbpf_question *questions, size_t count,
    uint64_t *replies, uint64_t *point, nrbpf_error *why);
NRBPF_MUST_LOOK nrbpf_status nrbpf_try_read_each(
    nrbpf_session *session, const nrbpf_question *questions, size_t count,
    uint64_t *replies, uint64_t *point, nrbpf_error *why);

// ---- Lanes: several updates by one call

#define NRBPF_MOST_SLOTS 16

// Gives `slots` free sessions of this node as one lane: 1 to 16. The first node
// is 0. Gives all or none. Takes no memory. Refuses with H1, H5 and H7. [any]
NRBPF_MUST_LOOK nrbpf_status nrbpf_attach_lane(
    nrbpf_store *store, uint32_t node, uint32_t slots, nrbpf_lane **out);

// Gives a lane back. While the store is open, all calls then refuse its handle
// (H2), as nrbpf_detach says. Refuses with H2, H3 and H7. [session]
NRBPF_MUST_LOOK nrbpf_status nrbpf_detach_lane(nrbpf_lane *lane);

// What became of one update of a list.
typedef struct nrbpf_outcome {
    // How many updates come before it. 0 with S4.
    uint64_t point;
    // What the program left in R0. 0 with S4.
    uint64_t reply;
    // NRBPF_OK, or S4: the history is full, and the update did nothing.
    nrbpf_status status;
} nrbpf_outcome;

// Asks for a list of updates, at most one for each slot of the lane, and waits
// for all answers as nrbpf_update does. outcomes[i] is that of calls[i]. Each
// update is an operation of its own, within the call, as if a session of its
// own had asked for it. The list is no transaction: other updates may come
// between its updates. Later updates have higher points. Where many updates
// wait, a list costs less than as many calls. An empty list does nothing.
// Refuses with S1 to S3, H2, H3, H5 and H7. Then nothing is posted. With S1 to
// S3 the slot of *why is the number of the first call that is refused, unless
// `why` is null. Answers S4 if at least one update got S4. Then `outcomes` are
// written too. [session]
NRBPF_MUST_LOOK nrbpf_status nrbpf_update_each(
    nrbpf_lane *lane, const nrbpf_question *calls, size_t count,
    nrbpf_outcome *outcomes, nrbpf_error *why);

// Does what nrbpf_update_each does, but waits for nobody, and may also answer
// BUSY or POSTED. After POSTED each update of the list will happen exactly
// once, unless its outcome is S4. Until nrbpf_poll_each has the outcomes, the
// lane takes only that call (H3). Poll soon, as nrbpf_try_update says.
// [session]
NRBPF_MUST_LOOK nrbpf_status nrbpf_try_update_each(
    nrbpf_lane *lane, const nrbpf_question *calls, size_t count,
    nrbpf_outcome *outcomes, nrbpf_error *why);

// Continues the list that is posted, and waits for nobody. Answers POSTED
// again, or writes an outcome for each call of the list and answers OK or S4.
// Also refuses with H2, H7 and H11. [session]
NRBPF_MUST_LOOK nrbpf_status nrbpf_poll_each(
    nrbpf_lane *lane, nrbpf_outcome *outcomes);

// ---- What a store is: its maps, its programs, its sizes
//
// Later headers may add members at the end of the three structs below. So a
// host passes `size`, the size of its own struct. The library writes that many
// bytes, and zeros for members that it does not know.

enum { NRBPF_MAP_ARRAY = 0, NRBPF_MAP_HASH = 1 };

typedef struct nrbpf_map_facts {
    // How many updates the map had seen.
    uint64_t point;
    // How many keys it has. An array always has all of its keys.
    uint64_t keys;
    // How many keys it may have.
    uint64_t entries;
    // NRBPF_MAP_ARRAY or NRBPF_MAP_HASH.
    uint32_t kind;
    // How many bytes a key has. The key of an array is its index, in 4 bytes.
    uint32_t key_len;
    // How many bytes a value has.
    uint32_t value_len;
} nrbpf_map_facts;

// Says what a map is. The first map of the manifest is 0. nrbpf_try_map_info
// waits for nobody, and may answer BUSY. Refuse with S9, H2, H3 and H7.
// [session]
NRBPF_MUST_LOOK nrbpf_status nrbpf_map_info(
    nrbpf_session *session, uint32_t map, nrbpf_map_facts *out, size_t size);
NRBPF_MUST_LOOK nrbpf_status nrbpf_try_map_info(
    nrbpf_session *session, uint32_t map, nrbpf_map_facts *out, size_t size);

typedef struct nrbpf_program_facts {
    // How many updates were seen.
    uint64_t point;
    // 1 if the number is that of a spare place. 0 if the manifest has a program
    // of this number.
    uint32_t is_place;
    // 1 if there is a program of this number. 0 if nothing is installed at the
    // place. Then all members below are 0.
    uint32_t is_there;
    // NRBPF_MODE_UPDATE if the program may change the maps that it names. Else
    // NRBPF_MODE_READ.
    uint32_t mode;
    // How many bytes its argument has.
    uint32_t argument_len;
    // How many slots of 8 bytes it has.
    uint32_t slots;
    // The maps that it names. It reads and changes no others. Bit m is for map
    // m.
    uint16_t maps;
    // Its name in the manifest, and a zero. An installed program has no name.
    char name[34];
} nrbpf_program_facts;

// Says what the program of this number is. nrbpf_try_program_info waits for
// nobody, and may answer BUSY. Refuse with S1, H2, H3 and H7. [session]
NRBPF_MUST_LOOK nrbpf_status nrbpf_program_info(
    nrbpf_session *session, uint16_t program, nrbpf_program_facts *out,
    size_t size);
NRBPF_MUST_LOOK nrbpf_status nrbpf_try_program_info(
    nrbpf_session *session, uint16_t program, nrbpf_program_facts *out,
    size_t size);

typedef struct nrbpf_store_facts {
    // As nrbpf_config has them.
    uint32_t nodes;
    uint32_t slots;
    uint32_t window;
    uint32_t limit;
    uint32_t spare;
    // How many maps the store has.
    uint32_t maps;
    // How many programs the manifest has. The numbers of the spare places come
    // after theirs.
    uint32_t programs;
    // As nrbpf_config has it: the most bytes of an installed program, and of
    // its argument, if that is more than the 192 and 64 that each may have.
    uint32_t long_bytes;
} nrbpf_store_facts;

// Says what a store is from its opening on. Refuses with H7. [any]
NRBPF_MUST_LOOK nrbpf_status nrbpf_store_info(
    nrbpf_store *store, nrbpf_store_facts *out, size_t size);

// ---- What a store does: counts for its operators

typedef struct nrbpf_counts {
    // How many updates of the history are completed. Each answered update is
    // one of them.
    uint64_t completed;
    // How many updates the history has.
    uint64_t appended;
    // How many of these the log keeps. It keeps no more than its window.
    uint64_t kept;
    // How many updates the maps of the session's node have seen.
    uint64_t tail;
    // How many completed updates these maps have still to see.
    uint64_t lag;
    // How many updates and installs this session was asked for since it was
    // attached. Each try counts, and a refused call too, except with H3 and H7:
    // then the store was not asked. Reads are not counted.
    uint64_t updates;
    // How many calls of this session waited for another session since it was
    // attached. The calls that wait for nobody are not counted.
    uint64_t waits;
    // How many batches of several updates this session combined since it was
    // attached: an update of its own, and others of its node that it took
    // along. A batch of one update is not counted.
    uint64_t batches;
    // How many updates these batches had.
    uint64_t batched;
    // How many updates the largest of them had.
    uint64_t largest;
    // The session's node.
    uint32_t node;
} nrbpf_counts;

// Says what the store has done, and how far the session's node has come. The
// first five counts are of one moment of the call. A session says nothing of
// other nodes: ask a session of each. While the call reads, it keeps the node's
// maps and the log from other sessions. So ask once a second, not at each call.
// `size` is the size of the host's struct, as above. nrbpf_try_stats waits for
// nobody, and may answer BUSY. Refuse with H2, H3 and H7. [session]
NRBPF_MUST_LOOK nrbpf_status nrbpf_stats(
    nrbpf_session *session, nrbpf_counts *out, size_t size);
NRBPF_MUST_LOOK nrbpf_status nrbpf_try_stats(
    nrbpf_session *session, nrbpf_counts *out, size_t size);

// ---- States: from a running store, as text, and from a text

// Makes a state for any number of snapshots of this store. Before the first
// snapshot it is the state of a new store. A state takes as much memory as one
// node's maps. Refuses with O2 and H7. [any]
NRBPF_MUST_LOOK nrbpf_status nrbpf_state_new(
    nrbpf_store *store, nrbpf_state **out);

// Copies the store's state at one point of the history into `into`. The copy
// has all updates that were answered when the call began. Other nodes go on.
// Sessions of this node wait while the maps are copied (0.3 ms a MiB), so use a
// node with few calls. Takes no memory. Refuses with H2, H3, H7 and H9.
// nrbpf_try_snapshot waits for nobody. If it answers BUSY, `into` is as it was.
// [session], with no other call on this state at the same time.
NRBPF_MUST_LOOK nrbpf_status nrbpf_snapshot(
    nrbpf_session *session, nrbpf_state *into, uint64_t *point);
NRBPF_MUST_LOOK nrbpf_status nrbpf_try_snapshot(
    nrbpf_session *session, nrbpf_state *into, uint64_t *point);

// A function of the host that takes bytes of a dump. It answers 0 to get more.
typedef int nrbpf_writer(void *to, const char *bytes, size_t len);

// Dumps a state as the text that `nrbpf run --dump` writes and `--load` takes.
// Hands it to `write` in parts of at most 16,384 bytes. Before the first part
// it takes 4 bytes for each key of the state, and 40 KiB more. It never has the
// whole text in memory. No store is blocked. `write` may make calls, but none
// on this state. As soon as it does not answer 0, the call refuses with H10. If
// it never returns (by a longjmp, say), the state is lost: other calls refuse
// it with H2, and nrbpf_state_free gives all memory back. Refuses with E0 if
// there is no memory, with H2 if the state is in a dump already, and with H7.
// [any], with no other call on this state at the same time.
NRBPF_MUST_LOOK nrbpf_status nrbpf_state_dump(
    const nrbpf_state *state, nrbpf_writer *write, void *to);

// Makes the state that a dump describes, for stores of this manifest with
// `config->spare` places. An empty text gives the state of a new store.
// nrbpf_open_on takes the state. A program's line is E1 if the program or its
// argument is longer than `long_bytes` allows. Refuses with C1 to C6, E0 to E9,
// O1 (of `spare`, `long_bytes` or `limits`), O2, H4, H7 and H8. Then *why says
// where, unless `why` is null. [any]
NRBPF_MUST_LOOK nrbpf_status nrbpf_state_load(
    const nrbpf_config *config, const char *manifest, size_t manifest_len,
    const nrbpf_file *files, size_t count, const char *text, size_t len,
    nrbpf_state **out, nrbpf_error *why);

// Ends a state. Does nothing with a null pointer. [any], with no other call on
// this state at the same time or later.
void nrbpf_state_free(nrbpf_state *state);

#ifdef __cplusplus
}
#endif
#endif
