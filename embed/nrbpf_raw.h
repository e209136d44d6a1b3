/* What the proved library libembed.a exports, and what is at its five kinds of handle. A host includes nrbpf.h, not this.
 *
 * A handle is memory of the host, with the alignment of its struct, and the size that nrbpf_raw_store_size, nrbpf_raw_session_size, nrbpf_raw_lane_size,
 * nrbpf_raw_state_size or nrbpf_raw_text_size answers. Until nrbpf_raw_open, nrbpf_raw_open_on, nrbpf_raw_attach, nrbpf_raw_leave, nrbpf_raw_close_into,
 * nrbpf_raw_new_state, nrbpf_raw_load, nrbpf_raw_dump or nrbpf_raw_new_lane has written it, the memory is only room. After nrbpf_raw_close,
 * nrbpf_raw_close_into, nrbpf_raw_detach, nrbpf_raw_join, nrbpf_raw_drop_state, nrbpf_raw_drop_text or nrbpf_raw_drop_lane has ended it, the memory is as
 * good as room again. Between two calls the host writes the words under "asked" and reads those under "answered". The host leaves the rest alone, and moves
 * or copies no handle. Each function takes one call at a time on each handle that is passed to it. Calls on different handles may run at the same time. No
 * pointer is null, also if its length is 0. What a function writes overlaps nothing else that it is passed.
 *
 * No function waits or locks. nrbpf_raw_open, nrbpf_raw_open_on, nrbpf_raw_close_into, nrbpf_raw_new_state, nrbpf_raw_load, nrbpf_raw_dump and
 * nrbpf_raw_new_lane take memory, by the host's malloc and realloc. nrbpf_raw_close, nrbpf_raw_close_into, nrbpf_raw_drop_state, nrbpf_raw_drop_text and
 * nrbpf_raw_drop_lane give it back, by free. Those that load or dump also give back what they took on the way. No other function takes any. What is passed
 * in is copied. Nothing of it is read or written after the function has returned.
 *
 * A status is 0, NRBPF_RAW_BUSY, NRBPF_RAW_AGAIN, or a refusal: 256 times its letter, and its number, as in docs/REFUSALS.md. With any other status than 0
 * the words point, reply, count, next, number and length are as they were. So are the bytes, replies and states that a call is to fill.
 */
#ifndef NRBPF_RAW_H
#define NRBPF_RAW_H

#include <stddef.h>
#include <stdint.h>

#ifdef __cplusplus
extern "C" {
#endif

enum {
    NRBPF_RAW_BUSY = 1,     /* another session held a place, and nothing has happened: call again */
    NRBPF_RAW_AGAIN = 2,    /* an update is posted, once, and not answered: call again soon. The session may have taken other updates of its node along:
                             * if it is never called again, they are never answered */
    NRBPF_RAW_H1 = 'H' << 8 | 1, /* attach: no session of this node is free, or there is no such node */
    NRBPF_RAW_H2,           /* the handle is not open: the opening or the attach was refused, or the state's handle has no state */
    NRBPF_RAW_H3,           /* a read of any kind, a snapshot, or a detach, while an update is posted */
    NRBPF_RAW_H4,           /* a text is not UTF-8: the manifest, a file, its name, the name of a program, or the text of a state */
    NRBPF_RAW_H5,           /* a word is no call's: `call` above 5, `mode` above 1; read_each: more than 16 questions, or another number of replies */
    NRBPF_RAW_H6,           /* join: the session does not fit into the lane; close_into: a part of the store is elsewhere, and it is ended */
    NRBPF_RAW_H9 = 'H' << 8 | 9 /* snapshot: the state has other maps, or another number of places for programs, or takes longer or shorter ones, than the store */
};

/* ---- what is passed in */

struct nrbpf_raw_bytes { const uint8_t *at; size_t length; };

/* A program file: its name as the manifest has it, and its text, hexadecimal digits. */
struct nrbpf_raw_file { struct nrbpf_raw_bytes name, text; };

/* How large the maps of a manifest and the arguments of its programs may be: the most bytes of a key and of a value, entries of a map, bytes of all maps, and
 * bytes of an argument. O1 if one is above the widest, or `key` below 4. */
struct nrbpf_raw_limits { uint32_t key, value, entries; uint64_t bytes; uint32_t argument; };

struct nrbpf_raw_opening {
    struct nrbpf_raw_bytes manifest;
    const struct nrbpf_raw_file *files; size_t count;
    uint32_t nodes, slots, window, limit, spare;    /* O1 has their limits; a limit of 0 is none */
    uint32_t long_bytes;                            /* the most bytes of an installed program, and of its argument, where that is more than 192 and 64 */
    struct nrbpf_raw_limits limits;
};

/* A read, or an update of a list: a program, by its number, and its argument. */
struct nrbpf_raw_question { struct nrbpf_raw_bytes argument; uint16_t program; };

/* ---- a store's handle */

struct nrbpf_raw_store {
    uint64_t own[2];
    /* asked */
    uint64_t node;          /* attach: of which node */
    uint64_t length;        /* number: how many bytes of name count; more than 32 are no program's name */
    uint8_t name[32];
    /* answered */
    uint64_t status;        /* by each call */
    uint64_t line;          /* by open: the line of the manifest that is refused, from 1, or 0 */
    uint64_t inner;         /* by open: a refusal in the form of a status, of the letter D with C3, of V with C4; else 0 */
    uint64_t slot;          /* by open: the slot that is refused, if inner isn't 0 */
    uint64_t number;        /* by number */
};

/* ---- a session's handle */

enum { NRBPF_RAW_UPDATE = 0, NRBPF_RAW_READ = 1, NRBPF_RAW_INSTALL = 2, NRBPF_RAW_INSTALL_WITHIN = 3, NRBPF_RAW_POST = 4, NRBPF_RAW_CHECK = 5 };

#define NRBPF_RAW_END UINT64_MAX

/* Its size is that of nrbpf_raw_session_size; what comes after these words is not for the host. */
struct nrbpf_raw_session {
    /* asked, by nrbpf_raw_call alone; the other calls leave these words as they are */
    uint64_t call;          /* NRBPF_RAW_UPDATE, .. */
    uint16_t program;       /* update, read, post, check: the program's number. install within: the maps that the new program may name, bit m for map m. If an
                             * install would not refuse it, and it names another, S8 with V16 */
    uint64_t mode;          /* both installs: 0 for a program that updates, 1 for one that reads */
    uint64_t argument;      /* both installs: how many bytes the program's arguments have */
    /* answered */
    uint64_t status;
    uint64_t inner;         /* with S7 a refusal of the letter D, with S8 of the letter V; else 0 */
    uint64_t slot;          /* the slot that is refused, if inner isn't 0. read_each: with S1 to S3 the number of the question, from 0. Else 0 */
    uint64_t point;         /* update, both installs: the index in the history, from 0. All others: how many updates they have seen */
    uint64_t reply;         /* what the program replied; of an install the number of the program, or 2^64 - 7 if each place is taken */
    uint64_t count;         /* scan: how many entries were given. get: 1 if the key is there, else 0 */
    uint64_t next;          /* scan: the place from which to continue, below 2^32, or NRBPF_RAW_END at the end of the map */
};

/* ---- a lane's handle: its size is that of nrbpf_raw_lane_size; what comes after these words is not for the host */

struct nrbpf_raw_lane {
    /* answered */
    uint64_t status;
    uint64_t slot;          /* update_each: with S1 to S3 the number of the update, from 0; else 0 */
    uint64_t count;         /* update_each: how many outcomes it wrote */
};

/* What became of an update of a list: its index in the history and its reply, both 0 with S4; and 0 or S4. */
struct nrbpf_raw_outcome { uint64_t point, reply, status; };

/* ---- a state's handle: its size is that of nrbpf_raw_state_size; what comes after these words is not for the host */

struct nrbpf_raw_state {
    /* answered, by whoever wrote the handle */
    uint64_t status;        /* 0 if the handle has a state */
    uint64_t line;          /* by load: the line that is refused, from 1: with C1 to C6 of the manifest, with E1 to E9 of the text; else 0 */
    uint64_t inner;         /* by load: a refusal of the letter D with C3 or E8, of V with C4 or E8; else 0 */
    uint64_t slot;          /* by load: the slot that is refused, if inner is not 0 */
};

/* ---- a text's handle: its size is that of nrbpf_raw_text_size; what comes after these words is not for the host */

struct nrbpf_raw_text {
    /* answered */
    uint64_t status;        /* by dump: 0 if the handle has a text */
    uint64_t length;        /* by part: how many bytes it gave */
};

/* ---- what is said of a map, of a program and of a store: memory of the host's, all of which is written before it is passed in */

struct nrbpf_raw_map {
    /* asked */
    uint32_t map;           /* its number */
    /* answered */
    uint64_t point;         /* how many operations of the history it had seen */
    uint64_t keys;          /* how many keys it has */
    uint64_t entries;       /* how many entries it has or may have */
    uint64_t kind;          /* 0 an array, 1 a hash */
    uint64_t key, value;    /* how many bytes a key and a value have */
};

struct nrbpf_raw_program {
    /* asked */
    uint16_t program;       /* its number */
    /* answered */
    uint64_t point;         /* how many operations of the history were seen */
    uint64_t place;         /* 1 if the number is that of a place, 0 if it is that of a program of the manifest */
    uint64_t present;       /* 1 if there is a program; else this word and the next four are 0 */
    uint64_t mode;          /* 0 if it may change the maps that it names, 1 if not */
    uint64_t argument;      /* how many bytes its argument has */
    uint64_t slots;         /* how many slots of 8 bytes it has */
    uint64_t maps;          /* the maps that it names, bit m for map m */
    uint64_t length;        /* how many bytes its name in the manifest has; 0 of a place */
    uint8_t name[32];       /* these, and zeros after them */
};

struct nrbpf_raw_facts {
    uint64_t nodes, slots, window, limit, spare; /* as the store was opened; limit 2^62 is no end */
    uint64_t maps, programs;                    /* how many it has; programs of the manifest alone */
    uint64_t long_bytes;                        /* as the store was opened */
};

/* What a store had done at one moment: memory of the host's, all of which is written before it is passed in. */
struct nrbpf_raw_counts {
    uint64_t completed;     /* how many operations of the history were completed */
    uint64_t appended;      /* how many the history had */
    uint64_t kept;          /* how many of these the log kept */
    uint64_t tail;          /* how many the replica of the session's node had applied */
    uint64_t lag;           /* how many completed operations it had still to apply */
    uint64_t batches;       /* how many batches of several updates the session has combined since it was attached; nothing is proved of these three */
    uint64_t batched;       /* how many updates these had, all together */
    uint64_t largest;       /* how many the largest had */
};

/* ---- the functions */

uint32_t nrbpf_raw_version(void);           /* of this interface: 1000 times the major number, and the minor one: 2000 */
size_t nrbpf_raw_store_size(void);          /* sizeof(struct nrbpf_raw_store), as the library has it */
size_t nrbpf_raw_session_size(void);        /* how many bytes a session's handle has, a multiple of 8 */
size_t nrbpf_raw_lane_size(void);           /* how many bytes a lane's handle has, a multiple of 8 */
size_t nrbpf_raw_state_size(void);          /* how many bytes a state's handle has, a multiple of 8 */
size_t nrbpf_raw_text_size(void);           /* how many bytes a text's handle has, a multiple of 8 */

/* Opens a store, and writes its handle into the room at `at`. Statuses: 0, H4, C1 to C6, O1, O2. If it is refused, the handle is closed: each call answers
 * H2, and its memory is as good as room. */
void nrbpf_raw_open(const struct nrbpf_raw_opening *opening, struct nrbpf_raw_store *at);

/* As nrbpf_raw_open, but on the state of a handle, which stays as it is. If the handle has no state, on a new one. Also O3. */
void nrbpf_raw_open_on(const struct nrbpf_raw_opening *opening, struct nrbpf_raw_state *state, struct nrbpf_raw_store *at);

/* Writes the number of the program that has this name. Statuses: 0, S1, H2, H4. */
void nrbpf_raw_number(struct nrbpf_raw_store *at);

/* Gives the first session of the node that the store's word `node` names, of those that are not attached, and writes its handle into the room at `session`.
 * Both handles get the status: 0, H1, H2. If it is refused, the session's handle is closed. */
void nrbpf_raw_attach(struct nrbpf_raw_store *at, struct nrbpf_raw_session *session);

/* Takes a session back into the store that it was attached to. Then its handle is closed, and its memory is as good as room. The store's handle gets the
 * status: 0, H2, H3 if an update of the session is posted. With H3 the session is as it was. A session of another store is the host's mistake, which
 * nothing notices. */
void nrbpf_raw_detach(struct nrbpf_raw_store *at, struct nrbpf_raw_session *session);

/* Ends the store. Then its handle is closed, and its memory is as good as room. Statuses: 0, H2, and S5 if a session is attached. With S5 nothing changes. */
void nrbpf_raw_close(struct nrbpf_raw_store *at);

/* Ends a store to which only its own sessions came back, and writes the handle of its last state into the room at `state`. Then the store's handle is
 * closed, and as good as room. With any other status than 0 the state's handle has no state, and its memory is as good as room. Both handles get the
 * status: 0, H2, S5 if a session is attached, O2 if there is no memory, H6 if a part of the store is elsewhere. S5 and O2 change nothing. H6 ends the store. */
void nrbpf_raw_close_into(struct nrbpf_raw_store *at, struct nrbpf_raw_state *state);

/* Makes a new state with the store's maps and places, for its snapshots, and writes its handle into the room at `state`. With any other status than 0 the
 * state's handle has no state, and its memory is as good as room. Both handles get the status: 0, H2, O2. */
void nrbpf_raw_new_state(struct nrbpf_raw_store *at, struct nrbpf_raw_state *state);

/* Ends a state. Then its handle is room. */
void nrbpf_raw_drop_state(struct nrbpf_raw_state *at);

/* Makes the call that the session's words ask for. `bytes` are the argument, or of an install the program. An update or an install posts if none is posted.
 * Else it continues the posted one, whatever operation its words name. It reads no bytes then, and there may be none. NRBPF_RAW_POST is an update that only
 * posts: BUSY or AGAIN, and the session has taken no other update along. NRBPF_RAW_CHECK does nothing: its status is S1 to S3 if the update of these words
 * and bytes would be refused so, else 0. Statuses: 0, BUSY, AGAIN, S1 to S4, S6 to S8, H2, H3, H5. */
void nrbpf_raw_call(struct nrbpf_raw_session *session, const uint8_t *bytes, size_t length);

/* Writes the handle of a lane without sessions into the room at `at`. Statuses: 0, O2. With O2 it has no lane, and its memory is as good as room. */
void nrbpf_raw_new_lane(struct nrbpf_raw_lane *at);

/* Ends a lane without sessions. Then its handle is room. */
void nrbpf_raw_drop_lane(struct nrbpf_raw_lane *at);

/* Moves a session from its handle into a lane, after the lane's others. Then its handle is closed, and its memory is as good as room. The lane's handle gets
 * the status: 0; H2 if a handle is not open; H3 if an update is posted; H6 if the session is of another node than the lane's, or not of a higher slot, or the
 * lane has 16. With any other status than 0 both are as they were. A session of another store than the lane's is the host's mistake. */
void nrbpf_raw_join(struct nrbpf_raw_lane *at, struct nrbpf_raw_session *session);

/* Moves the last session of a lane to a handle, which it writes into the room at `session`. Both handles get the status: 0; H2 if there is none; H3 if a list
 * is posted. With any other status than 0 the session's handle is closed, and its memory is as good as room. */
void nrbpf_raw_leave(struct nrbpf_raw_lane *at, struct nrbpf_raw_session *session);

/* Asks for a list of updates, one of each session from the first on, if no list is posted. Else it continues the posted one, whatever list is passed. With
 * 0 each update of the list has its outcome at its number, and later ones that are not S4 have higher points. After AGAIN each of them is posted, once.
 * Statuses: 0, BUSY, AGAIN, H2, H5 if there are more updates than sessions or no room for their outcomes, and S1 to S3 of the first update that is refused:
 * nothing is posted then. */
void nrbpf_raw_update_each(struct nrbpf_raw_lane *at, const struct nrbpf_raw_question *questions, size_t count, struct nrbpf_raw_outcome *outcomes, size_t room);

/* The calls below read the maps of the session's node, after these have seen everything that was completed when the call began. They don't use the words
 * under "asked", and answer in the others. */

/* Gives the value of a key of a map. If the key is there, count is 1, and `value` gets as many bytes as the map's values have. Else count is 0, and `value`
 * stays as it was. An array's key is the index, 4 bytes, the low one first. Statuses: 0, BUSY, S9, S11, S12, H2, H3. */
void nrbpf_raw_get(struct nrbpf_raw_session *session, uint32_t map, const uint8_t *key, size_t key_length, uint8_t *value, size_t value_length);

/* Gives entries of a map from a place on, keys one after another and values likewise, as many as both rooms hold. Reads at most 1,024 places of the map,
 * and 16 more for each entry that there is room for. Statuses: 0, BUSY, S9, S10, H2, H3. */
void nrbpf_raw_scan(struct nrbpf_raw_session *session, uint32_t map, uint32_t from, uint8_t *keys, size_t keys_room, uint8_t *values, size_t values_room);

/* Answers up to 16 questions at one point, each in `replies` at its number. There are as many replies as questions. Without any it only brings the maps of
 * the session's node up to that point. Statuses: 0, BUSY, H2, H3, H5, and S1 to S3 of the first question that is refused: its number is in slot. */
void nrbpf_raw_read_each(struct nrbpf_raw_session *session, const struct nrbpf_raw_question *questions, size_t count, uint64_t *replies, size_t room);

/* Copies the store's state at one point of the history. The session's handle gets the status: 0, BUSY, H3, H9, and H2 if the session's handle is not open or
 * the state's has no state. With any other status than 0 the state is as it was. The words of the state's handle stay. */
void nrbpf_raw_snapshot(struct nrbpf_raw_session *session, struct nrbpf_raw_state *state);

/* Gives the text of a state, as `nrbpf run --dump` writes it, part by part. Writes the text's handle into the room at `text`. The text's handle gets the
 * status: 0, H2 if the state's handle has no state, E0 if there is no memory. With 0 the text has the state, until nrbpf_raw_drop_text. With H2 and E0 it
 * has no text, its memory is as good as room, and the state's handle stays as it is. Takes 4 bytes for each key; the parts take nothing. */
void nrbpf_raw_dump(struct nrbpf_raw_state *state, struct nrbpf_raw_text *text);

/* Puts the next bytes of a text at the front of `out`. The word `length` of the text's handle gets their number: 0 only at the end, or if `room` is below
 * 32,931, which is the most that a line has. */
void nrbpf_raw_part(struct nrbpf_raw_text *text, uint8_t *out, size_t room);

/* Ends a text, and gives its state to the state's handle. Then the text's handle is closed, and its memory is as good as room. */
void nrbpf_raw_drop_text(struct nrbpf_raw_text *text, struct nrbpf_raw_state *state);

/* Loads the state that a text describes, for stores of the opening's manifest with `spare` places, and writes its handle into the room at `state`. Of the
 * opening only manifest, files, `spare`, `long_bytes` and `limits` count. Statuses, in the state's handle: 0, H4, C1 to C6, O1 (of these numbers), E0 to E9. With
 * any but 0 the handle has no state, and its memory is as good as room. */
void nrbpf_raw_load(const struct nrbpf_raw_opening *opening, const uint8_t *text, size_t length, struct nrbpf_raw_state *state);

/* Writes what the map is whose number is in the words. The status stands in the session's handle: 0, BUSY, S9, H2, H3; with any but 0 the words are as they
 * were. */
void nrbpf_raw_map_info(struct nrbpf_raw_session *session, struct nrbpf_raw_map *words);

/* Writes what the program is whose number is in the words. The status stands in the session's handle: 0, BUSY, S1, H2, H3; with any but 0 the words are as
 * they were. */
void nrbpf_raw_program_info(struct nrbpf_raw_session *session, struct nrbpf_raw_program *words);

/* Writes what the store is from its opening on. The status stands in the store's handle: 0, H2; with H2 the words are as they were. */
void nrbpf_raw_store_info(struct nrbpf_raw_store *at, struct nrbpf_raw_facts *words);

/* Writes what the store had done at one moment, and how far the session's node had come then. It takes the node's replica and the log, and changes neither.
 * The session's handle gets the status: 0, BUSY, H2, H3. With any but 0 the words are as they were. */
void nrbpf_raw_stats(struct nrbpf_raw_session *session, struct nrbpf_raw_counts *words);

#ifdef __cplusplus
}
#endif
#endif
