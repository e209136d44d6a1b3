// calls.c: the calls on a session of nrbpf.h, each a try, and the loops that wait.
#include "handles.h"
#include <string.h>

enum { LONGEST_KEY = 64 };

// Lets another session go on. The first time it counts the call as one that waits.
static void wait_behind(struct place *place, int *has_waited) {
    if (!*has_waited) {
        place->waits = place->waits + 1;
        *has_waited = 1;
    }
    pause_behind(place);
}

// What a call answers. If it did not wait, the next pause of its session is half as long.
static inline nrbpf_status ended(nrbpf_session *session, nrbpf_status status, int has_waited) {
    if (status == NRBPF_OK && !has_waited) {
        shorten_pause(place_of(session));
    }
    return status;
}

// Whether the session of this handle takes a call: H2, H3.
static nrbpf_status usable(const struct place *place, const nrbpf_session *session) {
    if (handle_of(place) != session) {
        return NRBPF_H2;
    }
    if (place->is_posted) {
        return NRBPF_H3;
    }
    return NRBPF_OK;
}

// Writes why the session's last call is refused, if it is. What it answered.
static nrbpf_status told(const struct nrbpf_raw_session *raw, nrbpf_error *why) {
    const nrbpf_status status = (nrbpf_status)raw->status;
    if (why && status >> 8 != 0) {
        why->status = status;
        why->inner = (nrbpf_status)raw->inner;
        why->line = 0;
        why->slot = (uint32_t)raw->slot;
    }
    return status;
}

// ---- Updates, reads and installs

// Makes the call that the session's words ask for, or goes on with what is posted: the bytes are not read then. The answer is written last, and may be where
// they are.
static nrbpf_status go_on(struct place *place, struct nrbpf_raw_bytes bytes, nrbpf_answer *out, nrbpf_error *why) {
    struct nrbpf_raw_session *const raw = place->raw;
    nrbpf_raw_call(raw, bytes.at, bytes.length);
    if (raw->status == NRBPF_OK) {
        place->is_posted = 0;
        out->point = raw->point;
        out->reply = raw->reply;
        return NRBPF_OK;
    }
    place->is_posted = raw->status == NRBPF_POSTED;
    return told(raw, why);
}

// Goes on until a call that was tried with these bytes is answered.
static nrbpf_status wait_for(struct place *place, struct nrbpf_raw_bytes bytes, nrbpf_answer *out, nrbpf_error *why) {
    nrbpf_status status;
    place->waits = place->waits + 1;
    do {
        pause_behind(place);
        status = go_on(place, bytes, out, why);
    } while (status == NRBPF_BUSY || status == NRBPF_POSTED);
    return status;
}

// Runs a program, NRBPF_RAW_UPDATE or NRBPF_RAW_READ. (Each update and read comes by here, so it does no more than it must: nothing is posted before it.)
static inline nrbpf_status run(nrbpf_session *session, uint64_t call, uint16_t program, const void *argument, size_t len, nrbpf_answer *out) {
    if (!session || !out) {
        return NRBPF_H7;
    }
    if (len == 0) {
        argument = "";
    } else if (!argument) {
        return NRBPF_H7;
    }
    struct place *const place = place_of(session);
    nrbpf_status status = usable(place, session);
    if (status != NRBPF_OK) {
        return status;
    }
    if (call == NRBPF_RAW_UPDATE) {
        place->updates = place->updates + 1;
    }
    struct nrbpf_raw_session *const raw = place->raw;
    raw->call = call;
    raw->program = program;
    nrbpf_raw_call(raw, (const uint8_t *)argument, len);
    status = (nrbpf_status)raw->status;
    if (status == NRBPF_OK) {
        out->point = raw->point;
        out->reply = raw->reply;
    } else if (status == NRBPF_POSTED) {
        place->is_posted = 1;
    }
    return status;
}

nrbpf_status nrbpf_try_update(nrbpf_session *session, uint16_t program, const void *argument, size_t len, nrbpf_answer *out) {
    return run(session, NRBPF_RAW_UPDATE, program, argument, len, out);
}

nrbpf_status nrbpf_try_read(nrbpf_session *session, uint16_t program, const void *argument, size_t len, nrbpf_answer *out) {
    return run(session, NRBPF_RAW_READ, program, argument, len, out);
}

nrbpf_status nrbpf_update(nrbpf_session *session, uint16_t program, const void *argument, size_t len, nrbpf_answer *out) {
    const nrbpf_status status = run(session, NRBPF_RAW_UPDATE, program, argument, len, out);
    if (status == NRBPF_BUSY || status == NRBPF_POSTED) {
        return wait_for(place_of(session), lent(argument, len), out, NULL);
    }
    return ended(session, status, 0);
}

nrbpf_status nrbpf_read(nrbpf_session *session, uint16_t program, const void *argument, size_t len, nrbpf_answer *out) {
    const nrbpf_status status = run(session, NRBPF_RAW_READ, program, argument, len, out);
    if (status == NRBPF_BUSY) {
        return wait_for(place_of(session), lent(argument, len), out, NULL);
    }
    return ended(session, status, 0);
}

// Installs a program, NRBPF_RAW_INSTALL or NRBPF_RAW_INSTALL_WITHIN.
static nrbpf_status install(nrbpf_session *session, uint64_t call, const nrbpf_confined *program, nrbpf_answer *out, nrbpf_error *why) {
    if (!session || !program || (!program->bytes && program->len > 0) || !out) {
        return refused(why, NRBPF_H7);
    }
    struct place *const place = place_of(session);
    const nrbpf_status status = usable(place, session);
    if (status != NRBPF_OK) {
        return refused(why, status);
    }
    place->updates = place->updates + 1;
    place->raw->call = call;
    place->raw->program = program->maps;
    place->raw->mode = program->mode;
    place->raw->argument = program->argument_len;
    return go_on(place, lent(program->bytes, program->len), out, why);
}

nrbpf_status nrbpf_try_install(nrbpf_session *session, uint32_t mode, uint32_t argument_len, const void *bytes, size_t len, nrbpf_answer *out,
                               nrbpf_error *why) {
    const nrbpf_confined program = {0, mode, argument_len, bytes, len};
    return install(session, NRBPF_RAW_INSTALL, &program, out, why);
}

nrbpf_status nrbpf_install(nrbpf_session *session, uint32_t mode, uint32_t argument_len, const void *bytes, size_t len, nrbpf_answer *out,
                           nrbpf_error *why) {
    const nrbpf_status status = nrbpf_try_install(session, mode, argument_len, bytes, len, out, why);
    if (status == NRBPF_BUSY || status == NRBPF_POSTED) {
        return wait_for(place_of(session), lent(bytes, len), out, why);
    }
    return status;
}

nrbpf_status nrbpf_try_install_within(nrbpf_session *session, const nrbpf_confined *program, nrbpf_answer *out, nrbpf_error *why) {
    return install(session, NRBPF_RAW_INSTALL_WITHIN, program, out, why);
}

nrbpf_status nrbpf_install_within(nrbpf_session *session, const nrbpf_confined *program, nrbpf_answer *out, nrbpf_error *why) {
    const nrbpf_status status = nrbpf_try_install_within(session, program, out, why);
    if (status == NRBPF_BUSY || status == NRBPF_POSTED) {
        return wait_for(place_of(session), lent(program->bytes, program->len), out, why);
    }
    return status;
}

nrbpf_status nrbpf_poll(nrbpf_session *session, nrbpf_answer *out) {
    if (!session || !out) {
        return NRBPF_H7;
    }
    struct place *const place = place_of(session);
    if (handle_of(place) != session) {
        return NRBPF_H2;
    }
    if (!place->is_posted) {
        return NRBPF_H11;
    }
    return go_on(place, lent(NULL, 0), out, NULL);
}

// ---- More reads

nrbpf_status nrbpf_try_get(nrbpf_session *session, uint32_t map, const void *key, size_t key_len, void *value, size_t value_len,
                           nrbpf_found *out) {
    uint8_t none = 0;                           // what a null pointer to no bytes points to
    uint8_t *const to = value ? (uint8_t *)value : &none;
    uint8_t own_key[LONGEST_KEY + 1] = {0};     // a copy: the value may be written where the key is
    const size_t own_len = key_len < sizeof own_key ? key_len : sizeof own_key; // the full length is no key's: S11
    if (!session || (!key && key_len > 0) || (!value && value_len > 0) || !out) {
        return NRBPF_H7;
    }
    struct place *const place = place_of(session);
    nrbpf_status status = usable(place, session);
    if (status != NRBPF_OK) {
        return status;
    }
    if (own_len > 0) {
        memcpy(own_key, key, own_len);
    }
    nrbpf_raw_get(place->raw, map, own_key, own_len, to, value_len);
    status = told(place->raw, NULL);
    if (status == NRBPF_OK) {
        out->point = place->raw->point;
        out->is_there = (uint32_t)place->raw->count;
    }
    return status;
}

nrbpf_status nrbpf_get(nrbpf_session *session, uint32_t map, const void *key, size_t key_len, void *value, size_t value_len, nrbpf_found *out) {
    nrbpf_status status = nrbpf_try_get(session, map, key, key_len, value, value_len, out);
    int has_waited = 0;
    while (status == NRBPF_BUSY) {
        wait_behind(place_of(session), &has_waited);
        status = nrbpf_try_get(session, map, key, key_len, value, value_len, out);
    }
    return ended(session, status, has_waited);
}

nrbpf_status nrbpf_try_scan(nrbpf_session *session, uint32_t map, uint32_t from, void *keys, size_t keys_room, void *values, size_t values_room,
                            nrbpf_scanned *out) {
    uint8_t none = 0;
    uint8_t *const keys_at = keys ? (uint8_t *)keys : &none;
    uint8_t *const values_at = values ? (uint8_t *)values : &none;
    if (!session || (!keys && keys_room > 0) || (!values && values_room > 0) || !out) {
        return NRBPF_H7;
    }
    struct place *const place = place_of(session);
    const struct nrbpf_raw_session *const raw = place->raw;
    nrbpf_status status = usable(place, session);
    if (status != NRBPF_OK) {
        return status;
    }
    nrbpf_raw_scan(place->raw, map, from, keys_at, keys_room, values_at, values_room);
    status = told(raw, NULL);
    if (status == NRBPF_OK) {
        out->point = raw->point;
        out->count = (uint32_t)raw->count;
        out->next = raw->next == NRBPF_RAW_END ? NRBPF_END : (uint32_t)raw->next;
    }
    return status;
}

nrbpf_status nrbpf_scan(nrbpf_session *session, uint32_t map, uint32_t from, void *keys, size_t keys_room, void *values, size_t values_room,
                        nrbpf_scanned *out) {
    nrbpf_status status = nrbpf_try_scan(session, map, from, keys, keys_room, values, values_room, out);
    int has_waited = 0;
    while (status == NRBPF_BUSY) {
        wait_behind(place_of(session), &has_waited);
        status = nrbpf_try_scan(session, map, from, keys, keys_room, values, values_room, out);
    }
    return ended(session, status, has_waited);
}

nrbpf_status nrbpf_try_read_each(nrbpf_session *session, const nrbpf_question *questions, size_t count, uint64_t *replies, uint64_t *point,
                                 nrbpf_error *why) {
    struct nrbpf_raw_question room[NRBPF_MOST_QUESTIONS];
    uint64_t own_replies[NRBPF_MOST_QUESTIONS]; // copied at the end: arguments may be where the replies are written
    if (!session || (!questions && count > 0) || (!replies && count > 0) || !point) {
        return refused(why, NRBPF_H7);
    }
    struct place *const place = place_of(session);
    nrbpf_status status = usable(place, session);
    if (status != NRBPF_OK) {
        return refused(why, status);
    }
    if (count > NRBPF_MOST_QUESTIONS) {
        return refused(why, NRBPF_H5);
    }
    const struct nrbpf_raw_question *const asked = questions_of(questions, count, room);
    if (!asked) {
        return refused(why, NRBPF_H7);
    }
    nrbpf_raw_read_each(place->raw, asked, count, own_replies, count);
    status = told(place->raw, why);
    if (status == NRBPF_OK) {
        *point = place->raw->point;
        for (size_t i = 0; i < count; i++) {
            replies[i] = own_replies[i];
        }
    }
    return status;
}

nrbpf_status nrbpf_read_each(nrbpf_session *session, const nrbpf_question *questions, size_t count, uint64_t *replies, uint64_t *point,
                             nrbpf_error *why) {
    nrbpf_status status = nrbpf_try_read_each(session, questions, count, replies, point, why);
    int has_waited = 0;
    while (status == NRBPF_BUSY) {
        wait_behind(place_of(session), &has_waited);
        status = nrbpf_try_read_each(session, questions, count, replies, point, why);
    }
    return ended(session, status, has_waited);
}

nrbpf_status nrbpf_try_snapshot(nrbpf_session *session, nrbpf_state *into, uint64_t *point) {
    if (!session || !into || !point) {
        return NRBPF_H7;
    }
    if (is_dumped(into)) {
        return NRBPF_H2;
    }
    struct place *const place = place_of(session);
    nrbpf_status status = usable(place, session);
    if (status != NRBPF_OK) {
        return status;
    }
    nrbpf_raw_snapshot(place->raw, raw_state_of(into));
    status = told(place->raw, NULL);
    if (status == NRBPF_OK) {
        *point = place->raw->point;
    }
    return status;
}

nrbpf_status nrbpf_snapshot(nrbpf_session *session, nrbpf_state *into, uint64_t *point) {
    nrbpf_status status = nrbpf_try_snapshot(session, into, point);
    int has_waited = 0;
    while (status == NRBPF_BUSY) {
        wait_behind(place_of(session), &has_waited);
        status = nrbpf_try_snapshot(session, into, point);
    }
    return ended(session, status, has_waited);
}

// ---- What a store is

nrbpf_status nrbpf_try_map_info(nrbpf_session *session, uint32_t map, nrbpf_map_facts *out, size_t size) {
    struct nrbpf_raw_map raw = {map, 0, 0, 0, 0, 0, 0};
    if (!session || !out) {
        return NRBPF_H7;
    }
    struct place *const place = place_of(session);
    nrbpf_status status = usable(place, session);
    if (status != NRBPF_OK) {
        return status;
    }
    nrbpf_raw_map_info(place->raw, &raw);
    status = told(place->raw, NULL);
    if (status == NRBPF_OK) {
        nrbpf_map_facts facts;
        memset(&facts, 0, sizeof facts);
        facts.point = raw.point;
        facts.keys = raw.keys;
        facts.entries = raw.entries;
        facts.kind = (uint32_t)raw.kind;
        facts.key_len = (uint32_t)raw.key;
        facts.value_len = (uint32_t)raw.value;
        put_facts(out, size, &facts, sizeof facts);
    }
    return status;
}

nrbpf_status nrbpf_map_info(nrbpf_session *session, uint32_t map, nrbpf_map_facts *out, size_t size) {
    nrbpf_status status = nrbpf_try_map_info(session, map, out, size);
    int has_waited = 0;
    while (status == NRBPF_BUSY) {
        wait_behind(place_of(session), &has_waited);
        status = nrbpf_try_map_info(session, map, out, size);
    }
    return ended(session, status, has_waited);
}

// The facts of a program, from its words.
static nrbpf_program_facts facts_of(const struct nrbpf_raw_program *raw) {
    nrbpf_program_facts facts;
    memset(&facts, 0, sizeof facts);
    facts.point = raw->point;
    facts.is_place = (uint32_t)raw->place;
    facts.is_there = (uint32_t)raw->present;
    facts.mode = (uint32_t)raw->mode;
    facts.argument_len = (uint32_t)raw->argument;
    facts.slots = (uint32_t)raw->slots;
    facts.maps = (uint16_t)raw->maps;
    memcpy(facts.name, raw->name, sizeof raw->name);
    return facts;
}

nrbpf_status nrbpf_try_program_info(nrbpf_session *session, uint16_t program, nrbpf_program_facts *out, size_t size) {
    struct nrbpf_raw_program raw;
    if (!session || !out) {
        return NRBPF_H7;
    }
    struct place *const place = place_of(session);
    nrbpf_status status = usable(place, session);
    if (status != NRBPF_OK) {
        return status;
    }
    memset(&raw, 0, sizeof raw);
    raw.program = program;
    nrbpf_raw_program_info(place->raw, &raw);
    status = told(place->raw, NULL);
    if (status == NRBPF_OK) {
        const nrbpf_program_facts facts = facts_of(&raw);
        put_facts(out, size, &facts, sizeof facts);
    }
    return status;
}

nrbpf_status nrbpf_program_info(nrbpf_session *session, uint16_t program, nrbpf_program_facts *out, size_t size) {
    nrbpf_status status = nrbpf_try_program_info(session, program, out, size);
    int has_waited = 0;
    while (status == NRBPF_BUSY) {
        wait_behind(place_of(session), &has_waited);
        status = nrbpf_try_program_info(session, program, out, size);
    }
    return ended(session, status, has_waited);
}

// ---- What a store does

nrbpf_status nrbpf_try_stats(nrbpf_session *session, nrbpf_counts *out, size_t size) {
    struct nrbpf_raw_counts raw = {0, 0, 0, 0, 0, 0, 0, 0};
    if (!session || !out) {
        return NRBPF_H7;
    }
    struct place *const place = place_of(session);
    nrbpf_status status = usable(place, session);
    if (status != NRBPF_OK) {
        return status;
    }
    nrbpf_raw_stats(place->raw, &raw);
    status = told(place->raw, NULL);
    if (status == NRBPF_OK) {
        nrbpf_counts counts;
        memset(&counts, 0, sizeof counts);
        counts.completed = raw.completed;
        counts.appended = raw.appended;
        counts.kept = raw.kept;
        counts.tail = raw.tail;
        counts.lag = raw.lag;
        counts.updates = place->updates;
        counts.waits = place->waits;
        counts.batches = raw.batches;
        counts.batched = raw.batched;
        counts.largest = raw.largest;
        counts.node = place->node;
        put_facts(out, size, &counts, sizeof counts);
    }
    return status;
}

nrbpf_status nrbpf_stats(nrbpf_session *session, nrbpf_counts *out, size_t size) {
    nrbpf_status status = nrbpf_try_stats(session, out, size);
    int has_waited = 0;
    while (status == NRBPF_BUSY) {
        wait_behind(place_of(session), &has_waited);
        status = nrbpf_try_stats(session, out, size);
    }
    return ended(session, status, has_waited);
}
