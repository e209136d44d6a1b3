// openings.c: each version of a host's header, each configuration and text of a list, and a store of as many sessions as can be.
#include "check.h"
#include <stdlib.h>
#include <string.h>

#define CHOICE(list) (list)[choose(sizeof(list) / sizeof(list)[0])]

// ---- What must arrive

static struct nrbpf_raw_bytes bytes_of(const char *at, size_t length) {
    return (struct nrbpf_raw_bytes){(const uint8_t *)at, length};
}

static uint32_t limit_of(uint64_t given, uint64_t standard) {
    const uint64_t limit = given ? given : standard;
    return limit > UINT32_MAX ? UINT32_MAX : (uint32_t)limit;
}

void ask_to_open(const nrbpf_config *config, const char *manifest, size_t length, const nrbpf_file *files, size_t count) {
    static struct nrbpf_raw_file raw_files[2];
    static struct nrbpf_raw_opening opening;
    const nrbpf_limits standard = NRBPF_STANDARD, *const limits = &config->limits;
    for (size_t i = 0; i < count; i++) {
        raw_files[i].name = bytes_of(files[i].name, files[i].name_len);
        raw_files[i].text = bytes_of(files[i].text, files[i].text_len);
    }
    opening.manifest = bytes_of(manifest, length);
    opening.files = raw_files;
    opening.count = count;
    opening.nodes = config->nodes;
    opening.slots = config->slots;
    opening.window = config->window;
    opening.limit = config->limit;
    opening.spare = config->spare;
    opening.long_bytes = config->long_bytes;
    opening.limits.key = limit_of(limits->key, standard.key);
    opening.limits.value = limit_of(limits->value, standard.value);
    opening.limits.entries = limit_of(limits->entries, standard.entries);
    opening.limits.bytes = limits->bytes ? limits->bytes : standard.bytes;
    opening.limits.argument = limit_of(limits->argument, standard.argument);
    last.opening = &opening;
}

// ---- Versions, configurations and texts

static const uint32_t versions[] = {2000, 2001, 2004, 2005, NRBPF_VERSION, NRBPF_VERSION + 1, 2999, 3000, 1999, 1000, 1, 0, UINT32_MAX};

static const nrbpf_config configs[] = {
    NRBPF_CONFIG(3, 5),
    {NRBPF_VERSION, 4, 6, 0x41, 0x42, 0x43, {0x44, 0x45, 0x46, 0x47, 0x48}, 0x49},
    {NRBPF_VERSION, 8, 16, 0x51, 0x52, 0x53, NRBPF_LARGE, 16384},
    {NRBPF_VERSION, 1, 1, UINT32_MAX, UINT32_MAX, UINT32_MAX, {UINT32_MAX, UINT32_MAX, UINT64_MAX, UINT64_MAX, UINT32_MAX}, UINT32_MAX},
    {NRBPF_VERSION, 1, 1, 0x61, 0x62, 0x63, {0, 0, (uint64_t)1 << 32, (uint64_t)1 << 32, 0}, 0},
};

static const struct text {
    const char *manifest;
    size_t length;
    nrbpf_file files[2];
    size_t count;
} texts[] = {
    {"map\0s\n", 6, {{"a", 1, "9\0005", 3}, {"bc", 2, "0", 1}}, 2},
    {"m", 1, {{NULL, 0, NULL, 0}, {NULL, 0, NULL, 0}}, 1},
    {NULL, 0, {{NULL, 0, NULL, 0}, {NULL, 0, NULL, 0}}, 0},
};

// The bytes of a configuration of a host with a header of this version.
static size_t size_of(uint32_t version) {
    if (version < 2001) return offsetof(nrbpf_config, limits);
    if (version < 2005) return offsetof(nrbpf_config, limits.argument);
    return version < 2006 ? offsetof(nrbpf_config, long_bytes) : sizeof(nrbpf_config);
}

// Writes no byte past those of the host's configuration.
static void init_config(uint32_t version) {
    const size_t size = size_of(version), end = offsetof(nrbpf_config, limits.argument) + sizeof(uint32_t);
    nrbpf_config wanted = NRBPF_CONFIG(3, 5);
    void *const own = malloc(size);
    wanted.version = version;
    note("config_init %u", version);
    EXPECT(nrbpf_config_init(own, version, 3, 5), 0, "config_init");
    NEED(memcmp(own, &wanted, size < end ? size : end) == 0, "config_init writes another configuration");
    if (size == sizeof wanted) EXPECT(((const nrbpf_config *)own)->long_bytes, 0, "config_init: long_bytes");
    free(own);
}

// What a call of a host with a header of this version answers, if it answers 0 with a known one.
static void expect_known(nrbpf_status told, uint32_t version, unsigned long before, const nrbpf_error *why) {
    const int is_known = version >= 2000 && version <= NRBPF_VERSION;
    EXPECT(told, is_known ? last.status : NRBPF_H8, "an opening by a header of version %u", version);
    if (is_known) return;
    EXPECT(entries, before, "an opening by a header of version %u reaches the library", version);
    EXPECT(why->status, NRBPF_H8, "why: status");
}

static void open_it(const nrbpf_config *config, uint32_t version, const struct text *text, const nrbpf_state *on) {
    const nrbpf_file *const files = text->count ? text->files : NULL;
    const unsigned long before = entries;
    nrbpf_error why;
    last.status = 0;
    note(on ? "open_on" : "open");
    const nrbpf_status told = on ? nrbpf_open_on(config, text->manifest, text->length, files, text->count, on, &store, &why)
                                 : nrbpf_open(config, text->manifest, text->length, files, text->count, &store, &why);
    expect_known(told, version, before, &why);
    if (told == 0) EXPECT(nrbpf_close(store), 0, "close");
}

// Opens, loads, and opens on what is loaded. The host's configuration has no byte more than its header says. What it lacks is 0.
static void open_all(uint32_t version, const nrbpf_config *config, const struct text *text) {
    const size_t size = size_of(version);
    void *const own = malloc(size);
    nrbpf_config whole;
    nrbpf_state *state = NULL;
    nrbpf_error why;
    memcpy(own, config, size);
    memcpy(own, &version, sizeof version);
    memset(&whole, 0, sizeof whole);
    memcpy(&whole, own, size);
    ready(0);
    ask_to_open(&whole, text->manifest, text->length, text->files, text->count);
    open_it(own, version, text, NULL);
    const unsigned long before = entries;
    last.status = 0;
    note("load");
    lend("1\0", 2);
    const nrbpf_status told = nrbpf_state_load(own, text->manifest, text->length, text->count ? text->files : NULL, text->count, "1\0", 2, &state, &why);
    expect_known(told, version, before, &why);
    if (told == 0) open_it(own, version, text, state);
    nrbpf_state_free(state);
    free(own);
}

// ---- A store of as many sessions as can be

enum { NODES = 8, SLOTS = NRBPF_MOST_SLOTS };
static nrbpf_session *sessions[NODES * SLOTS];
static nrbpf_lane *lanes[NODES];

// Attaches all, in turn to each node. Each has a handle of its own, and its node's number.
static void attach_all(void) {
    nrbpf_counts counts;
    nrbpf_session *none;
    nrbpf_lane *no_lane;
    for (uint32_t k = 0; k < NODES * SLOTS; k++) {
        EXPECT(nrbpf_attach(store, k % NODES, &sessions[k]), 0, "attach %u", k);
        for (uint32_t other = 0; other < k; other++) NEED(sessions[other] != sessions[k], "two have one handle");
    }
    for (uint32_t k = 0; k < NODES * SLOTS; k++) {
        ready(0);
        EXPECT(nrbpf_stats(sessions[k], &counts, sizeof counts), 0, "stats");
        EXPECT(counts.node, k % NODES, "stats: node");
    }
    for (uint32_t node = 0; node <= NODES; node++) {
        EXPECT(nrbpf_attach(store, node, &none), NRBPF_H1, "a session too many");
        EXPECT(nrbpf_attach_lane(store, node, 1, &no_lane), NRBPF_H1, "a lane too many");
    }
    EXPECT(nrbpf_close(store), NRBPF_S5, "close");
}

// A list as long as can be, and one more.
static void ask_list(nrbpf_lane *lane) {
    nrbpf_question calls[SLOTS + 1];
    nrbpf_outcome outcomes[SLOTS];
    for (uint16_t k = 0; k <= SLOTS; k++) calls[k] = (nrbpf_question){"ab", 2, k};
    ready(0);
    lend("ab", 2);
    EXPECT(nrbpf_update_each(lane, calls, SLOTS + 1, outcomes, NULL), NRBPF_H5, "a list that is too long");
    EXPECT(last.calls, 0, "a refused list reaches the library");
    const nrbpf_status told = nrbpf_update_each(lane, calls, SLOTS, outcomes, NULL);
    EXPECT(told, last.status ? last.status : last.full ? NRBPF_S4 : 0, "a list");
    if (last.status == 0 && last.full < 2) EXPECT(outcomes[SLOTS - 1].reply, 90 + SLOTS - 1, "the last outcome");
}

static void open_large(void) {
    const nrbpf_config config = NRBPF_CONFIG(NODES, SLOTS);
    ready(0);
    ask_to_open(&config, "m", 1, NULL, 0);
    note("a store of %d nodes with %d sessions", (int)NODES, (int)SLOTS);
    EXPECT(nrbpf_open(&config, "m", 1, NULL, 0, &store, NULL), 0, "open");
    attach_all();
    for (uint32_t k = 0; k < NODES * SLOTS; k++) {
        EXPECT(nrbpf_detach(sessions[k]), 0, "detach");
        EXPECT(nrbpf_detach(sessions[k]), NRBPF_H2, "a second detach");
    }
    for (uint32_t node = 0; node < NODES; node++) EXPECT(nrbpf_attach_lane(store, node, SLOTS, &lanes[node]), 0, "attach_lane %u", node);
    ask_list(lanes[NODES - 1]);
    for (uint32_t node = 0; node < NODES; node++) EXPECT(nrbpf_detach_lane(lanes[node]), 0, "detach_lane %u", node);
    EXPECT(nrbpf_close(store), 0, "close");
}

void run_openings(void) {
    const uint32_t version = CHOICE(versions);
    EXPECT(nrbpf_version(), NRBPF_VERSION, "version");
    init_config(version);
    open_all(version, &CHOICE(configs), &CHOICE(texts));
    if (version == NRBPF_VERSION) open_large();
    EXPECT(held, 0, "blocks of memory are left");
    EXPECT(blocks, 0, "blocks of the library's memory are left");
}
