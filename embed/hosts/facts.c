// facts.c: what a store says of itself: of a map its kind, its sizes and how many keys it has, of a program what it was accepted for and which maps it
// names, of itself its sizes; by hosts with an older, the same and a newer header; and what is refused.
#include "fixture.h"

enum { PUT = 0, NONE = 1, FIRST_PLACE = 2, SPARE = 2, HASH = 0, ARRAY = 1 };

static const char manifest[] = "map hash 1 2 16\nmap array 8 4\nprogram put update 2 put.hex\nprogram none read 3 none.hex\n";

// Puts its argument under the argument's first byte, in seven slots; and `mov r0, 0; exit`.
static const char put[] = "bf12000000000000bf1300000000000018510000000000000000000000000000b70400000000000085000000020000009500000000000000";
static const char none[] = "b7000000000000009500000000000000";

static nrbpf_store *store;
static nrbpf_session *session, *other;

static void open_store(uint32_t limit, uint32_t long_bytes) {
    nrbpf_config config = NRBPF_CONFIG(2, 3);
    const nrbpf_file files[] = {file_of("put.hex", put), file_of("none.hex", none)};
    config.window = 64;
    config.limit = limit;
    config.spare = SPARE;
    config.long_bytes = long_bytes;
    EXPECT_STATUS(nrbpf_open(&config, manifest, strlen(manifest), files, 2, &store, NULL), NRBPF_OK);
    session = attached(store, 0);
    other = attached(store, 1);
}

static void close_store(void) {
    EXPECT_STATUS(nrbpf_detach(session), NRBPF_OK);
    EXPECT_STATUS(nrbpf_detach(other), NRBPF_OK);
    EXPECT_STATUS(nrbpf_close(store), NRBPF_OK);
}

static void has_sizes(uint32_t limit, uint32_t long_bytes) {
    nrbpf_store_facts facts;
    open_store(limit, long_bytes);
    EXPECT_STATUS(nrbpf_store_info(store, &facts, sizeof facts), NRBPF_OK);
    EXPECT(facts.nodes == 2 && facts.slots == 3 && facts.window == 64 && facts.limit == limit && facts.spare == SPARE);
    EXPECT(facts.maps == 2 && facts.programs == 2 && facts.long_bytes == long_bytes);
    close_store();
}

// Both calls say this of a map, and write zeros after its last member.
static void has_map(nrbpf_session *asked, uint32_t map, nrbpf_map_facts wanted) {
    enum { END = offsetof(nrbpf_map_facts, value_len) + sizeof wanted.value_len };
    static const uint8_t zeros[sizeof wanted - END];
    nrbpf_map_facts facts[2];
    memset(facts, 0x77, sizeof facts);
    EXPECT_STATUS(nrbpf_map_info(asked, map, &facts[0], sizeof facts[0]), NRBPF_OK);
    EXPECT_STATUS(nrbpf_try_map_info(asked, map, &facts[1], sizeof facts[1]), NRBPF_OK);
    for (int i = 0; i < 2; i++) {
        const nrbpf_map_facts *it = &facts[i];
        EXPECT(it->point == wanted.point && it->keys == wanted.keys && it->entries == wanted.entries);
        EXPECT(it->kind == wanted.kind && it->key_len == wanted.key_len && it->value_len == wanted.value_len);
        EXPECT(memcmp((const uint8_t *)it + END, zeros, sizeof zeros) == 0);
    }
}

static void put_byte(uint8_t key) {
    const uint8_t argument[] = {key, 9};
    nrbpf_answer answer;
    EXPECT_STATUS(nrbpf_update(session, PUT, argument, sizeof argument, &answer), NRBPF_OK);
    EXPECT(answer.reply == 0);
}

static void maps(void) {
    open_store(NRBPF_ENDLESS, 0);
    has_map(session, HASH, (nrbpf_map_facts){0, 0, 16, NRBPF_MAP_HASH, 1, 2});
    has_map(session, ARRAY, (nrbpf_map_facts){0, 4, 4, NRBPF_MAP_ARRAY, 4, 8});
    put_byte(7);
    put_byte(8);
    has_map(session, HASH, (nrbpf_map_facts){2, 2, 16, NRBPF_MAP_HASH, 1, 2});
    put_byte(7);
    has_map(other, HASH, (nrbpf_map_facts){3, 2, 16, NRBPF_MAP_HASH, 1, 2});
    has_map(other, ARRAY, (nrbpf_map_facts){3, 4, 4, NRBPF_MAP_ARRAY, 4, 8});
    close_store();
}

// Both calls say this of a program.
static void has_program(nrbpf_session *asked, uint16_t number, nrbpf_program_facts wanted) {
    nrbpf_program_facts facts[2];
    EXPECT_STATUS(nrbpf_program_info(asked, number, &facts[0], sizeof facts[0]), NRBPF_OK);
    EXPECT_STATUS(nrbpf_try_program_info(asked, number, &facts[1], sizeof facts[1]), NRBPF_OK);
    for (int i = 0; i < 2; i++) {
        const nrbpf_program_facts *it = &facts[i];
        EXPECT(it->point == wanted.point && it->is_place == wanted.is_place && it->is_there == wanted.is_there && it->mode == wanted.mode);
        EXPECT(it->argument_len == wanted.argument_len && it->slots == wanted.slots && it->maps == wanted.maps);
        EXPECT(strcmp(it->name, wanted.name) == 0);
    }
}

static void programs_of_store(void) {
    // (a reference to map 1, `mov r0, 0` and `exit`: four slots)
    static const uint8_t names_array[] = {0x18, 0x51, 0, 0, ARRAY, 0, 0, 0, 0, 0, 0, 0, 0, 0, 0, 0, 0xb7, 0, 0, 0, 0, 0, 0, 0, 0x95, 0, 0, 0, 0, 0, 0, 0};
    nrbpf_answer answer;
    open_store(NRBPF_ENDLESS, 0);
    has_program(session, PUT, (nrbpf_program_facts){0, 0, 1, NRBPF_MODE_UPDATE, 2, 7, 1u << HASH, "put"});
    has_program(session, NONE, (nrbpf_program_facts){0, 0, 1, NRBPF_MODE_READ, 3, 2, 0, "none"});
    has_program(session, FIRST_PLACE, (nrbpf_program_facts){0, 1, 0, 0, 0, 0, 0, ""});
    EXPECT_STATUS(nrbpf_install(session, NRBPF_MODE_READ, 64, names_array, sizeof names_array, &answer, NULL), NRBPF_OK);
    EXPECT(answer.reply == FIRST_PLACE);
    has_program(other, FIRST_PLACE, (nrbpf_program_facts){1, 1, 1, NRBPF_MODE_READ, 64, 4, 1u << ARRAY, ""});
    has_program(other, FIRST_PLACE + 1, (nrbpf_program_facts){1, 1, 0, 0, 0, 0, 0, ""});
    has_program(other, PUT, (nrbpf_program_facts){1, 0, 1, NRBPF_MODE_UPDATE, 2, 7, 1u << HASH, "put"});
    close_store();
}

// A host with an older header has fewer members, and one with a newer header more.
static void other_headers(void) {
    struct { nrbpf_map_facts known; uint64_t later; } newer;
    struct { nrbpf_store_facts known; uint32_t later; } newer_sizes;
    nrbpf_map_facts older;
    nrbpf_program_facts program;
    nrbpf_store_facts sizes;
    open_store(NRBPF_ENDLESS, 200);
    put_byte(3);
    memset(&newer, 0xee, sizeof newer);
    EXPECT_STATUS(nrbpf_map_info(session, HASH, &newer.known, sizeof newer), NRBPF_OK);
    EXPECT(newer.known.keys == 1 && newer.known.value_len == 2 && newer.later == 0);
    memset(&older, 0xee, sizeof older);
    EXPECT_STATUS(nrbpf_map_info(session, HASH, &older, offsetof(nrbpf_map_facts, keys)), NRBPF_OK);
    EXPECT(older.point == 1 && older.keys == 0xeeeeeeeeeeeeeeee && older.value_len == 0xeeeeeeee);
    memset(&program, 0xee, sizeof program);
    EXPECT_STATUS(nrbpf_program_info(session, PUT, &program, offsetof(nrbpf_program_facts, mode)), NRBPF_OK);
    EXPECT(program.is_there == 1 && program.mode == 0xeeeeeeee && (uint8_t)program.name[0] == 0xee);
    memset(&sizes, 0xee, sizeof sizes);
    EXPECT_STATUS(nrbpf_store_info(store, &sizes, sizeof sizes.nodes), NRBPF_OK);
    EXPECT(sizes.nodes == 2 && sizes.slots == 0xeeeeeeee);
    EXPECT_STATUS(nrbpf_store_info(store, &sizes, offsetof(nrbpf_store_facts, long_bytes)), NRBPF_OK);  // as the header of version 2005 has it
    EXPECT(sizes.programs == 2 && sizes.long_bytes == 0xeeeeeeee);
    memset(&newer_sizes, 0xee, sizeof newer_sizes);
    EXPECT_STATUS(nrbpf_store_info(store, &newer_sizes.known, sizeof newer_sizes), NRBPF_OK);
    EXPECT(newer_sizes.known.programs == 2 && newer_sizes.known.long_bytes == 200 && newer_sizes.later == 0);
    close_store();
}

// A refused call writes nothing.
static void refusals(void) {
    nrbpf_map_facts map, map_before;
    nrbpf_program_facts program, program_before;
    nrbpf_store_facts sizes;
    open_store(NRBPF_ENDLESS, 0);
    memset(&map, 0xee, sizeof map);
    memset(&program, 0xee, sizeof program);
    map_before = map;
    program_before = program;
    for (uint32_t number = 2; number != 0; number = number == UINT32_MAX ? 0 : UINT32_MAX) {
        EXPECT_STATUS(nrbpf_map_info(session, number, &map, sizeof map), NRBPF_S9);
        EXPECT_STATUS(nrbpf_try_map_info(session, number, &map, sizeof map), NRBPF_UNKNOWN_MAP);
    }
    const uint16_t numbers[] = {FIRST_PLACE + SPARE, UINT16_MAX};
    for (int i = 0; i < 2; i++) {
        EXPECT_STATUS(nrbpf_program_info(session, numbers[i], &program, sizeof program), NRBPF_S1);
        EXPECT_STATUS(nrbpf_try_program_info(session, numbers[i], &program, sizeof program), NRBPF_UNKNOWN_PROGRAM);
    }
    EXPECT_STATUS(nrbpf_map_info(NULL, HASH, &map, sizeof map), NRBPF_H7);
    EXPECT_STATUS(nrbpf_map_info(session, HASH, NULL, sizeof map), NRBPF_H7);
    EXPECT_STATUS(nrbpf_try_map_info(session, HASH, NULL, sizeof map), NRBPF_H7);
    EXPECT_STATUS(nrbpf_program_info(NULL, PUT, &program, sizeof program), NRBPF_H7);
    EXPECT_STATUS(nrbpf_program_info(session, PUT, NULL, sizeof program), NRBPF_H7);
    EXPECT_STATUS(nrbpf_store_info(NULL, &sizes, sizeof sizes), NRBPF_H7);
    EXPECT_STATUS(nrbpf_store_info(store, NULL, sizeof sizes), NRBPF_H7);
    nrbpf_session *const earlier = attached(store, 0);
    EXPECT_STATUS(nrbpf_detach(earlier), NRBPF_OK);
    EXPECT_STATUS(nrbpf_map_info(earlier, HASH, &map, sizeof map), NRBPF_H2);
    EXPECT_STATUS(nrbpf_try_map_info(earlier, 2, &map, sizeof map), NRBPF_H2);
    EXPECT_STATUS(nrbpf_program_info(earlier, PUT, &program, sizeof program), NRBPF_H2);
    EXPECT(memcmp(&map, &map_before, sizeof map) == 0 && memcmp(&program, &program_before, sizeof program) == 0);
    close_store();
}

int main(void) {
    has_sizes(NRBPF_ENDLESS, 0);
    has_sizes(100, 1);
    has_sizes(NRBPF_ENDLESS, 16384);
    maps();
    programs_of_store();
    other_headers();
    refusals();
    puts("a store says what its maps, its programs and its sizes are");
    return 0;
}
