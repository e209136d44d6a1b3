// nrbpf.c: stores and sessions of nrbpf.h over what the proved library exports (nrbpf_raw.h), and states that are loaded. It sees to null pointers,
// and to the memory in which handles lie. What a store does is decided below it.
#include "handles.h"
#include <assert.h>
#include <stddef.h>
#include <stdlib.h>
#include <string.h>

static_assert((int)NRBPF_POSTED == (int)NRBPF_RAW_AGAIN, "a status has one number");
static_assert((int)NRBPF_H5 == (int)NRBPF_RAW_H5, "a status has one number");
static_assert((int)NRBPF_H9 == (int)NRBPF_RAW_H9, "a status has one number");

uint32_t nrbpf_version(void) {
    return NRBPF_VERSION;
}

// The bytes of a configuration of a host with a header of this version: before 2001 it has no limits, before 2005 none of arguments, and before
// 2006 no long programs.
static size_t size_of_config(uint32_t version) {
    if (version < 2001) {
        return offsetof(nrbpf_config, limits);
    }
    if (version < 2005) {
        return offsetof(nrbpf_config, limits.argument);
    }
    return version < 2006 ? offsetof(nrbpf_config, long_bytes) : sizeof(nrbpf_config);
}

nrbpf_status nrbpf_config_init(nrbpf_config *config, uint32_t version, uint32_t nodes, uint32_t slots) {
    const nrbpf_config made = NRBPF_CONFIG(nodes, slots);
    if (!config) {
        return NRBPF_H7;
    }
    memcpy(config, &made, size_of_config(version));
    config->version = version;
    return NRBPF_OK;
}

// ---- What is opened or loaded

// The texts of a call, as the host gives them.
struct texts {
    const nrbpf_config *config;
    const char *manifest;
    size_t manifest_len;
    const nrbpf_file *files;
    size_t count;
};

static struct texts texts_of(const nrbpf_config *config, const char *manifest, size_t manifest_len, const nrbpf_file *files, size_t count) {
    struct texts given;
    given.config = config;
    given.manifest = manifest;
    given.manifest_len = manifest_len;
    given.files = files;
    given.count = count;
    return given;
}

static int is_missing(const char *text, size_t len) {
    return !text && len > 0;
}

// Whether one of the pointers that are passed is null.
static int has_null(const struct texts *given) {
    if (!given->config || is_missing(given->manifest, given->manifest_len)) {
        return 1;
    }
    return !given->files && given->count > 0;
}

// Whether one of those in the files is.
static int has_null_in_files(const struct texts *given) {
    for (size_t i = 0; i < given->count; i++) {
        const nrbpf_file *file = &given->files[i];
        if (is_missing(file->name, file->name_len) || is_missing(file->text, file->text_len)) {
            return 1;
        }
    }
    return 0;
}

// Whether this library knows a host with a header of this version, and the proved library is the one of nrbpf_raw.h.
static int is_known(uint32_t version) {
    if (version / 1000 != NRBPF_VERSION_MAJOR || version > NRBPF_VERSION) {
        return 0;
    }
    if (nrbpf_raw_version() / 1000 != NRBPF_VERSION_MAJOR) {
        return 0;
    }
    if (nrbpf_raw_store_size() != sizeof(struct nrbpf_raw_store)) {
        return 0;
    }
    return 1;
}

// A number of limits, or the standard one where it is 0; of more than 32 bits, one that is refused.
static uint32_t number_or(uint64_t number, uint32_t standard) {
    if (number > UINT32_MAX) {
        return UINT32_MAX;
    }
    return number ? (uint32_t)number : standard;
}

// The configuration. What the host's header does not have is 0 here.
static nrbpf_config whole_config(const nrbpf_config *config) {
    nrbpf_config whole = NRBPF_CONFIG(0, 0);
    memcpy(&whole, config, size_of_config(config->version));
    return whole;
}

// How large maps and arguments may be.
static struct nrbpf_raw_limits limits_of(const nrbpf_limits *given) {
    const nrbpf_limits standard = NRBPF_STANDARD;
    struct nrbpf_raw_limits limits;
    limits.key = number_or(given->key, standard.key);
    limits.value = number_or(given->value, standard.value);
    limits.entries = number_or(given->entries, (uint32_t)standard.entries);
    limits.bytes = given->bytes ? given->bytes : standard.bytes;
    limits.argument = number_or(given->argument, standard.argument);
    return limits;
}

// Whether the texts can be opened or loaded, on a state if `state` is not null: H7, H8, H2, O2. Then the opening is written, and its files are to be freed.
static nrbpf_status prepared(const struct texts *given, const nrbpf_state *state, struct nrbpf_raw_opening *opening) {
    if (has_null(given)) {
        return NRBPF_H7;
    }
    if (!is_known(given->config->version)) {
        return NRBPF_H8;                        // before the files, which another header may lay out otherwise
    }
    if (state && is_dumped(state)) {
        return NRBPF_H2;                        // the raw call would open a new store
    }
    if (has_null_in_files(given)) {
        return NRBPF_H7;
    }
    struct nrbpf_raw_file *files = (struct nrbpf_raw_file *)calloc(given->count + 1, sizeof *files);
    if (!files) {
        return NRBPF_O2;
    }
    for (size_t i = 0; i < given->count; i++) {
        files[i].name = lent(given->files[i].name, given->files[i].name_len);
        files[i].text = lent(given->files[i].text, given->files[i].text_len);
    }
    const nrbpf_config config = whole_config(given->config);
    opening->manifest = lent(given->manifest, given->manifest_len);
    opening->files = files;
    opening->count = given->count;
    opening->nodes = config.nodes;
    opening->slots = config.slots;
    opening->window = config.window;
    opening->limit = config.limit;
    opening->spare = config.spare;
    opening->long_bytes = config.long_bytes;
    opening->limits = limits_of(&config.limits);
    return NRBPF_OK;
}

static void let_go(const struct nrbpf_raw_opening *opening) {
    free((struct nrbpf_raw_file *)opening->files);
}

// ---- Opening and closing

// Room for a store, none of whose sessions is attached; null where there is no memory.
static nrbpf_store *room_for_store(void) {
    nrbpf_store *store = (nrbpf_store *)aligned_alloc(TURNS, sizeof *store);
    if (!store) {
        return NULL;
    }
    memset(store, 0, sizeof *store);
    if (pthread_mutex_init(&store->mutex, NULL) != 0) {
        free(store);
        return NULL;
    }
    for (size_t i = 0; i <= MOST_SESSIONS; i++) {
        store->places[i].of = store;
    }
    return store;
}

static void give_back(nrbpf_store *store) {
    for (size_t i = 0; i < store->count; i++) {
        nrbpf_raw_drop_lane(store->places[i].list);
    }
    free(store->rooms);
    pthread_mutex_destroy(&store->mutex);
    free(store);
}

// Gives each session of an open store a place with raw handles, and one more. 0 if there is no memory.
static int make_rooms(nrbpf_store *store, size_t sessions) {
    const size_t of_session = nrbpf_raw_session_size();
    const size_t of_lane = nrbpf_raw_lane_size();
    unsigned char *room = (unsigned char *)calloc(sessions + 2, of_session + of_lane);
    store->rooms = room;
    if (!room) {
        return 0;
    }
    store->moved = (struct nrbpf_raw_session *)room;
    room += of_session;
    for (store->count = 0; store->count <= sessions; store->count++) {
        struct place *const place = &store->places[store->count];
        place->raw = (struct nrbpf_raw_session *)room;
        room += of_session;
        place->list = (struct nrbpf_raw_lane *)room;
        room += of_lane;
        nrbpf_raw_new_lane(place->list);
        if (place->list->status != NRBPF_OK) {
            return 0;
        }
    }
    return 1;
}

// Opens a store on a state, or on a new one where `state` is null.
static nrbpf_status opened(const struct texts *given, const nrbpf_state *state, nrbpf_store **out, nrbpf_error *why) {
    struct nrbpf_raw_opening opening;
    nrbpf_status status = prepared(given, state, &opening);
    if (status != NRBPF_OK) {
        return refused(why, status);
    }
    nrbpf_store *store = room_for_store();
    if (!store) {
        let_go(&opening);
        return refused(why, NRBPF_O2);
    }
    if (state) {
        nrbpf_raw_open_on(&opening, raw_state_of(state), &store->raw);
    } else {
        nrbpf_raw_open(&opening, &store->raw);
    }
    let_go(&opening);
    status = (nrbpf_status)store->raw.status;
    if (status == NRBPF_OK && make_rooms(store, (size_t)given->config->nodes * given->config->slots)) {
        *out = store;
        return NRBPF_OK;
    }
    if (status == NRBPF_OK) {
        nrbpf_raw_close(&store->raw);
        give_back(store);
        return refused(why, NRBPF_O2);
    }
    if (why) {
        why->status = status;
        why->inner = (nrbpf_status)store->raw.inner;
        why->line = (uint32_t)store->raw.line;
        why->slot = (uint32_t)store->raw.slot;
    }
    give_back(store);
    return status;
}

nrbpf_status nrbpf_open(const nrbpf_config *config, const char *manifest, size_t manifest_len, const nrbpf_file *files, size_t count,
                        nrbpf_store **out, nrbpf_error *why) {
    const struct texts given = texts_of(config, manifest, manifest_len, files, count);
    if (!out) {
        return refused(why, NRBPF_H7);
    }
    return opened(&given, NULL, out, why);
}

nrbpf_status nrbpf_open_on(const nrbpf_config *config, const char *manifest, size_t manifest_len, const nrbpf_file *files, size_t count,
                           const nrbpf_state *state, nrbpf_store **out, nrbpf_error *why) {
    const struct texts given = texts_of(config, manifest, manifest_len, files, count);
    if (!state || !out) {
        return refused(why, NRBPF_H7);
    }
    return opened(&given, state, out, why);
}

nrbpf_status nrbpf_close(nrbpf_store *store) {
    if (!store) {
        return NRBPF_H7;
    }
    // (a detach in another thread writes the status too)
    pthread_mutex_lock(&store->mutex);
    nrbpf_raw_close(&store->raw);
    nrbpf_status status = (nrbpf_status)store->raw.status;
    pthread_mutex_unlock(&store->mutex);
    if (status == NRBPF_OK) {
        give_back(store);
    }
    return status;
}

nrbpf_status nrbpf_close_into(nrbpf_store *store, nrbpf_state **out) {
    if (!store || !out) {
        return NRBPF_H7;
    }
    nrbpf_state *const room = room_for_state();
    if (!room) {
        return NRBPF_O2;
    }
    pthread_mutex_lock(&store->mutex);
    nrbpf_raw_close_into(&store->raw, &room->raw);
    nrbpf_status status = (nrbpf_status)store->raw.status;
    pthread_mutex_unlock(&store->mutex);
    if (status == NRBPF_OK || status == NRBPF_H6) {
        give_back(store);                       // H6 ends it too; no call of nrbpf.h leads there
    }
    if (status == NRBPF_OK) {
        *out = room;
    } else {
        free(room);
    }
    return status;
}

nrbpf_status nrbpf_state_load(const nrbpf_config *config, const char *manifest, size_t manifest_len, const nrbpf_file *files, size_t count,
                              const char *text, size_t len, nrbpf_state **out, nrbpf_error *why) {
    const struct texts given = texts_of(config, manifest, manifest_len, files, count);
    const struct nrbpf_raw_bytes dump = lent(text, len);
    struct nrbpf_raw_opening opening;
    if (is_missing(text, len) || !out) {
        return refused(why, NRBPF_H7);
    }
    nrbpf_status status = prepared(&given, NULL, &opening);
    if (status != NRBPF_OK) {
        return refused(why, status);
    }
    nrbpf_state *const room = room_for_state();
    if (!room) {
        let_go(&opening);
        return refused(why, NRBPF_O2);
    }
    nrbpf_raw_load(&opening, dump.at, dump.length, &room->raw);
    let_go(&opening);
    status = (nrbpf_status)room->raw.status;
    if (status == NRBPF_OK) {
        *out = room;
        return NRBPF_OK;
    }
    if (why) {
        why->status = status;
        why->inner = (nrbpf_status)room->raw.inner;
        why->line = (uint32_t)room->raw.line;
        why->slot = (uint32_t)room->raw.slot;
    }
    free(room);
    return status;
}

// ---- Names and sessions

nrbpf_status nrbpf_program_number(nrbpf_store *store, const char *name, size_t len, uint16_t *out) {
    if (!store || is_missing(name, len) || !out) {
        return NRBPF_H7;
    }
    pthread_mutex_lock(&store->mutex);
    struct nrbpf_raw_store *raw = &store->raw;
    raw->length = len;
    if (len > 0 && len <= sizeof raw->name) {
        memcpy(raw->name, name, len);
    }
    nrbpf_raw_number(raw);
    nrbpf_status status = (nrbpf_status)raw->status;
    if (status == NRBPF_OK) {
        *out = (uint16_t)raw->number;
    }
    pthread_mutex_unlock(&store->mutex);
    return status;
}

nrbpf_status nrbpf_attach(nrbpf_store *store, uint32_t node, nrbpf_session **out) {
    if (!store || !out) {
        return NRBPF_H7;
    }
    pthread_mutex_lock(&store->mutex);
    struct place *const place = free_place(store);
    store->raw.node = node;
    nrbpf_raw_attach(&store->raw, place->raw);
    nrbpf_status status = (nrbpf_status)store->raw.status;
    if (status == NRBPF_OK) {
        set_handle(place, next_handle(place));
        place->is_posted = 0;
        place->node = node;
        place->updates = 0;
        place->waits = 0;
        place->doublings = 0;
        *out = handle_of(place);
    }
    pthread_mutex_unlock(&store->mutex);
    return status;
}

nrbpf_status nrbpf_detach(nrbpf_session *session) {
    if (!session) {
        return NRBPF_H7;
    }
    struct place *const place = place_of(session);
    nrbpf_store *const store = place->of;
    nrbpf_status status = NRBPF_H2;
    pthread_mutex_lock(&store->mutex);
    if (handle_of(place) == session) {
        nrbpf_raw_detach(&store->raw, place->raw);
        status = (nrbpf_status)store->raw.status;
        if (status == NRBPF_OK) {
            end_session(place);
        }
    }
    pthread_mutex_unlock(&store->mutex);
    return status;
}

nrbpf_status nrbpf_store_info(nrbpf_store *store, nrbpf_store_facts *out, size_t size) {
    struct nrbpf_raw_facts raw = {0, 0, 0, 0, 0, 0, 0, 0};
    if (!store || !out) {
        return NRBPF_H7;
    }
    pthread_mutex_lock(&store->mutex);
    nrbpf_raw_store_info(&store->raw, &raw);
    const nrbpf_status status = (nrbpf_status)store->raw.status;
    pthread_mutex_unlock(&store->mutex);
    if (status == NRBPF_OK) {
        nrbpf_store_facts facts;
        facts.nodes = (uint32_t)raw.nodes;
        facts.slots = (uint32_t)raw.slots;
        facts.window = (uint32_t)raw.window;
        facts.limit = raw.limit > UINT32_MAX ? NRBPF_ENDLESS : (uint32_t)raw.limit;
        facts.spare = (uint32_t)raw.spare;
        facts.maps = (uint32_t)raw.maps;
        facts.programs = (uint32_t)raw.programs;
        facts.long_bytes = (uint32_t)raw.long_bytes;
        put_facts(out, size, &facts, sizeof facts);
    }
    return status;
}
