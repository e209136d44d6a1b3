// installs.c: installed programs of 2,048 slots, the most that a host may allow, of 512 with an argument of 16,384 bytes, and of 24. One node installs them, by
// each call that installs, and another has them. The log has them where it had shorter updates, also while threads of both nodes install and call at once. A
// state has them, as a text too, and stores with as many `long_bytes` go on from it. What is longer than a store allows is refused.
#include "fixture.h"
#include <pthread.h>

enum { LONG = 16384, SLOTS = 2048, MIDDLE = 512, SHORT = 24, KEY = 4, WINDOW = 16, TURNS = 480, INSTALLS = 4 };
enum { COUNTERS = 0, LASTS = 1, PLACE = programs, SPARE = 4, PLACES = 40 };

// The first map is the counter's. Into the second a program puts the last eight bytes of its argument.
static const char manifest[] = "map array 8 16\nmap hash 4 8 16\nprogram bump update 4 " BUMP "\nprogram peek read 4 " PEEK "\n";

static counter files;
static nrbpf_store *store;
static nrbpf_session *own, *other;              // of node 0 and of node 1

// ---- Programs

// A program, and what it replies: the sum of the numbers that its slots add.
typedef struct program {
    uint8_t bytes[LONG + 8];
    size_t len;
    uint32_t mode, argument_len;
    uint16_t maps;
    uint64_t reply;
} program;

static void add_slot(program *to, uint8_t opcode, uint8_t registers, uint32_t number) {
    const uint8_t slot[8] = {opcode, registers, 0, 0, (uint8_t)number, (uint8_t)(number >> 8), (uint8_t)(number >> 16), (uint8_t)(number >> 24)};
    EXPECT(to->len + sizeof slot <= sizeof to->bytes);
    memcpy(to->bytes + to->len, slot, sizeof slot);
    to->len += sizeof slot;
}

// Has R1 point to a map, in two slots.
static void add_map(program *to, uint16_t map) {
    add_slot(to, 0x18, 0x51, map);
    add_slot(to, 0, 0, 0);
    to->maps |= (uint16_t)(1u << map);
}

// Adds a number to R0 in each slot before this one. The numbers differ from seed to seed.
static void add_numbers(program *to, size_t end, uint32_t seed) {
    while (to->len < 8 * end) {
        const uint32_t number = 1 + (31 * seed + 7 * (uint32_t)to->len) % 100003;
        add_slot(to, 0x07, 0, number);
        to->reply += number;
    }
}

// Adds numbers, and names no map.
static program summing(size_t slots, uint32_t seed) {
    program it = {.mode = NRBPF_MODE_READ};
    add_slot(&it, 0xb7, 0, 0);
    add_numbers(&it, slots - 1, seed);
    add_slot(&it, 0x95, 0, 0);
    return it;
}

// Does the same, and names the second map in the third slot from its end.
static program naming(size_t slots, uint32_t seed) {
    program it = {.mode = NRBPF_MODE_UPDATE};
    add_slot(&it, 0xb7, 0, 0);
    add_numbers(&it, slots - 3, seed);
    add_map(&it, LASTS);
    add_slot(&it, 0x95, 0, 0);
    return it;
}

// Puts the last eight of the 16,384 bytes of its argument under the first four, and adds numbers.
static program putting(size_t slots, uint32_t seed) {
    program it = {.mode = NRBPF_MODE_UPDATE, .argument_len = LONG};
    add_slot(&it, 0xbf, 0x12, 0);               // r2 = r1
    add_slot(&it, 0xbf, 0x13, 0);               // r3 = r1
    add_slot(&it, 0x07, 0x03, LONG - 8);        // r3 += 16376
    add_map(&it, LASTS);
    add_slot(&it, 0xb7, 0x04, 0);               // r4 = 0
    add_slot(&it, 0x85, 0, 2);                  // call bpf_map_update_elem
    add_numbers(&it, slots - 1, seed);
    add_slot(&it, 0x95, 0, 0);
    return it;
}

// Programs of all three lengths, one after another.
static program nth(uint32_t number) {
    return number % 3 == 0 ? summing(SLOTS, number) : number % 3 == 1 ? putting(MIDDLE, number) : naming(SHORT, number);
}

typedef nrbpf_status install(nrbpf_session *, const nrbpf_confined *, nrbpf_answer *, nrbpf_error *);

static nrbpf_status install_anywhere(nrbpf_session *session, const nrbpf_confined *it, nrbpf_answer *out, nrbpf_error *why) {
    return nrbpf_install(session, it->mode, it->argument_len, it->bytes, it->len, out, why);
}

static nrbpf_status try_install_anywhere(nrbpf_session *session, const nrbpf_confined *it, nrbpf_answer *out, nrbpf_error *why) {
    return nrbpf_try_install(session, it->mode, it->argument_len, it->bytes, it->len, out, why);
}

static install *const installs[INSTALLS] = {install_anywhere, try_install_anywhere, nrbpf_install_within, nrbpf_try_install_within};

// Installs a program by the n-th of these calls. As soon as that is posted, the host has the program's memory again.
static nrbpf_answer installed(nrbpf_session *session, uint32_t n, const program *it) {
    program room = *it;
    const nrbpf_confined given = {it->maps, it->mode, it->argument_len, room.bytes, room.len};
    nrbpf_answer answer;
    nrbpf_status told = NRBPF_BUSY;
    while (told == NRBPF_BUSY) told = installs[n % INSTALLS](session, &given, &answer, NULL);
    while (told == NRBPF_POSTED) {
        memset(room.bytes, 0xee, sizeof room.bytes);
        told = nrbpf_poll(session, &answer);
    }
    EXPECT_STATUS(told, NRBPF_OK);
    return answer;
}

// ---- A store of two nodes

// An argument of up to 16,385 bytes: a key, and bytes that differ from turn to turn.
typedef struct argument {
    uint8_t bytes[LONG + 1];
} argument;

static argument argument_of(uint32_t key, uint32_t turn) {
    argument it;
    memcpy(it.bytes, &key, KEY);
    for (uint32_t i = KEY; i < sizeof it.bytes; i++) it.bytes[i] = (uint8_t)(1 + 31 * turn + 7 * i + (i >> 8) + key);
    return it;
}

static nrbpf_config config_of(uint32_t spare, uint32_t long_bytes) {
    nrbpf_config config = NRBPF_CONFIG(2, 4);
    config.window = WINDOW;
    config.spare = spare;
    config.long_bytes = long_bytes;
    return config;
}

// Opens a store, on a state or on a new one if that is null.
static nrbpf_status open_with(const nrbpf_config *config, const nrbpf_state *on, nrbpf_store **out) {
    const size_t len = strlen(manifest);
    if (on) return nrbpf_open_on(config, manifest, len, files.files, programs, on, out, NULL);
    return nrbpf_open(config, manifest, len, files.files, programs, out, NULL);
}

static void open_store(const nrbpf_config *config, const nrbpf_state *on) {
    EXPECT_STATUS(open_with(config, on, &store), NRBPF_OK);
    own = attached(store, 0);
    other = attached(store, 1);
}

static void detach_both(void) {
    EXPECT_STATUS(nrbpf_detach(own), NRBPF_OK);
    EXPECT_STATUS(nrbpf_detach(other), NRBPF_OK);
}

static void close_store(void) {
    detach_both();
    EXPECT_STATUS(nrbpf_close(store), NRBPF_OK);
}

static uint64_t updates(void) {
    uint64_t point;
    EXPECT_STATUS(nrbpf_read_each(other, NULL, 0, NULL, &point, NULL), NRBPF_OK);
    return point;
}

static void count_up(nrbpf_session *session, uint32_t number) {
    const key counted = key_of(number);
    nrbpf_answer answer;
    EXPECT_STATUS(nrbpf_update(session, bump, &counted, sizeof counted, &answer), NRBPF_OK);
}

// The place has this program, and it replies its sum. Whether that was an update.
static int answers(nrbpf_session *session, uint64_t place, const program *it, const argument *given) {
    const uint16_t number = (uint16_t)place;
    nrbpf_program_facts facts;
    nrbpf_answer answer;
    EXPECT_STATUS(nrbpf_program_info(session, number, &facts, sizeof facts), NRBPF_OK);
    EXPECT(facts.is_place && facts.is_there && facts.mode == it->mode && facts.argument_len == it->argument_len);
    EXPECT(8 * facts.slots == it->len && facts.maps == it->maps && facts.name[0] == 0);
    if (it->mode == NRBPF_MODE_READ) EXPECT_STATUS(nrbpf_read(session, number, given->bytes, it->argument_len, &answer), NRBPF_OK);
    else EXPECT_STATUS(nrbpf_update(session, number, given->bytes, it->argument_len, &answer), NRBPF_OK);
    EXPECT(answer.reply == it->reply);
    return it->mode == NRBPF_MODE_UPDATE;
}

// The second map has the last bytes of this argument.
static void has_last(nrbpf_session *session, const argument *given) {
    uint8_t value[8];
    nrbpf_found found;
    EXPECT_STATUS(nrbpf_get(session, LASTS, given->bytes, KEY, value, sizeof value, &found), NRBPF_OK);
    EXPECT(found.is_there && memcmp(value, given->bytes + LONG - sizeof value, sizeof value) == 0);
}

// ---- One thread

// Each call fills a place, and then each finds none.
static void by_each_call(void) {
    const nrbpf_config config = config_of(SPARE, LONG);
    const program given[SPARE] = {summing(SLOTS, 1), putting(MIDDLE, 2), naming(SHORT, 3), putting(SLOTS, 4)};
    open_store(&config, NULL);
    for (uint32_t i = 0; i < SPARE; i++) {
        const argument it = argument_of(i, i);
        const nrbpf_answer answer = installed(i % 2 ? other : own, i, &given[i]);
        EXPECT(answer.point == updates() - 1 && answer.reply == PLACE + i);
        answers(i % 2 ? own : other, answer.reply, &given[i], &it);
        answers(i % 2 ? other : own, answer.reply, &given[i], &it);
        if (given[i].argument_len == LONG) has_last(own, &it), has_last(other, &it);
    }
    for (uint32_t i = 0; i < INSTALLS; i++) EXPECT(installed(own, i, &given[i]).reply == NRBPF_REPLY_NO_ROOM);
    close_store();
}

// A list of calls of installed programs, and of reads.
static void by_lists(void) {
    const nrbpf_config config = config_of(SPARE, LONG);
    const program put = putting(SLOTS, 5), sum = summing(SLOTS, 6);
    const argument first = argument_of(1, 1), second = argument_of(2, 2);
    const key third = key_of(3);
    const nrbpf_question calls[] = {{first.bytes, LONG, PLACE}, {&third, sizeof third, bump}, {second.bytes, LONG, PLACE}};
    const nrbpf_question questions[] = {{NULL, 0, PLACE + 1}, {&third, sizeof third, peek}, {NULL, 0, PLACE + 1}};
    nrbpf_outcome outcomes[3];
    nrbpf_lane *lane;
    uint64_t replies[3], point;
    open_store(&config, NULL);
    EXPECT(installed(own, 0, &put).reply == PLACE && installed(other, 0, &sum).reply == PLACE + 1);
    EXPECT_STATUS(nrbpf_attach_lane(store, 0, 3, &lane), NRBPF_OK);
    EXPECT_STATUS(nrbpf_update_each(lane, calls, 3, outcomes, NULL), NRBPF_OK);
    EXPECT(outcomes[0].reply == put.reply && outcomes[1].reply == 1 && outcomes[2].reply == put.reply);
    EXPECT_STATUS(nrbpf_detach_lane(lane), NRBPF_OK);
    has_last(other, &first);
    has_last(other, &second);
    EXPECT_STATUS(nrbpf_read_each(other, questions, 3, replies, &point, NULL), NRBPF_OK);
    EXPECT(point == 5 && replies[0] == sum.reply && replies[1] == 1 && replies[2] == sum.reply);
    close_store();
}

// Each place of the log has installs and updates of all lengths one after another.
static void by_turns(void) {
    static program given[PLACES];
    const nrbpf_config config = config_of(PLACES, LONG);
    uint32_t count = 0;
    open_store(&config, NULL);
    for (uint32_t turn = 0; turn < TURNS; turn++) {
        nrbpf_session *const session = turn % 7 < 4 ? own : other, *const reader = turn % 11 < 6 ? other : own;
        const argument it = argument_of(turn % 16, turn);
        if (turn % 5 < 3) {
            const program next = nth(turn);
            const nrbpf_answer answer = installed(session, turn / 5, &next);
            EXPECT(answer.point == turn && answer.reply == (count < PLACES ? PLACE + count : NRBPF_REPLY_NO_ROOM));
            if (count < PLACES) given[count++] = next;
        } else if (turn % 5 == 3) {
            EXPECT(answers(session, PLACE + 1, &given[1], &it));
            has_last(reader, &it);
        } else {
            count_up(session, 3);
        }
        const program *const earlier = &given[turn % count];
        if (earlier->mode == NRBPF_MODE_READ) answers(reader, PLACE + turn % count, earlier, &it);
        EXPECT(updates() == turn + 1);
    }
    EXPECT(count == PLACES);
    for (uint32_t i = 0; i < PLACES; i++) {
        const argument it = argument_of(i % 16, i);
        answers(own, PLACE + i, &given[i], &it);
        answers(other, PLACE + i, &given[i], &it);
        if (given[i].argument_len == LONG) has_last(own, &it);
    }
    close_store();
}

// ---- What is refused

// A program is refused by the n-th call, and nothing has happened.
static void refuses(uint32_t n, const program *it, uint16_t maps, nrbpf_error wanted) {
    const nrbpf_confined given = {maps, it->mode, it->argument_len, it->bytes, it->len};
    nrbpf_answer answer = {77, 77};
    nrbpf_error why = {77, 77, 77, 77};
    EXPECT_STATUS(installs[n](own, &given, &answer, &why), wanted.status);
    EXPECT(why.status == wanted.status && why.inner == wanted.inner && why.line == 0 && why.slot == wanted.slot);
    EXPECT(answer.point == 77 && answer.reply == 77 && updates() == 0);
}

// A program of so many slots with an argument of so many bytes, in a store of so many `long_bytes`.
typedef struct length {
    uint32_t long_bytes, slots, argument_len;
    nrbpf_status wanted;
} length;

static const length lengths[] = {
    {0, SHORT, 64, NRBPF_OK}, {0, SHORT + 1, 64, NRBPF_S6}, {0, SHORT, 65, NRBPF_S6}, {0, SLOTS, 0, NRBPF_S6}, {0, 2, LONG, NRBPF_S6},
    {64, SHORT, 64, NRBPF_OK}, {64, SHORT + 1, 0, NRBPF_S6}, {64, 2, 65, NRBPF_S6}, {65, SHORT, 65, NRBPF_OK}, {65, 2, 66, NRBPF_S6},
    {192, SHORT, 192, NRBPF_OK}, {192, SHORT + 1, 0, NRBPF_S6}, {199, SHORT, 199, NRBPF_OK}, {199, SHORT + 1, 0, NRBPF_S6}, {199, 2, 200, NRBPF_S6},
    {200, SHORT + 1, 200, NRBPF_OK}, {200, SHORT + 2, 0, NRBPF_S6}, {200, 2, 201, NRBPF_S6}, {LONG - 1, SLOTS - 1, LONG - 1, NRBPF_OK},
    {LONG - 1, SLOTS, 0, NRBPF_S6}, {LONG - 1, 2, LONG, NRBPF_S6}, {LONG, SLOTS, LONG, NRBPF_OK}, {LONG, SLOTS + 1, 0, NRBPF_S6},
    {LONG, 2, LONG + 1, NRBPF_S6}, {LONG, 2, UINT32_MAX, NRBPF_S6},
};

// The store says how long programs it takes.
static void allows(uint32_t long_bytes) {
    nrbpf_store_facts facts;
    EXPECT_STATUS(nrbpf_store_info(store, &facts, sizeof facts), NRBPF_OK);
    EXPECT(facts.long_bytes == long_bytes);
}

static void lengths_of_programs(void) {
    const argument given = argument_of(1, 1);
    for (uint32_t i = 0; i < sizeof lengths / sizeof *lengths; i++) {
        const nrbpf_config config = config_of(1, lengths[i].long_bytes);
        program it = summing(lengths[i].slots, i);
        it.argument_len = lengths[i].argument_len;
        open_store(&config, NULL);
        allows(lengths[i].long_bytes);
        if (lengths[i].wanted == NRBPF_OK) {
            EXPECT(installed(own, i, &it).reply == PLACE);
            answers(other, PLACE, &it, &given);
        } else {
            for (uint32_t n = 0; n < INSTALLS; n++) refuses(n, &it, UINT16_MAX, (nrbpf_error){.status = lengths[i].wanted});
        }
        close_store();
    }
}

// What is wrong far from the beginning of a program is found there, and a size that no memory has is refused.
static void other_programs(void) {
    const nrbpf_config config = config_of(1, LONG);
    const program good = naming(SLOTS, 1);
    const uint8_t opcode_13[8] = {0x0d};
    program no_opcode = good, endless = good;
    memcpy(no_opcode.bytes + 8 * (SLOTS - 4), opcode_13, sizeof opcode_13);
    endless.len = SIZE_MAX;
    open_store(&config, NULL);
    for (uint32_t n = 0; n < INSTALLS; n++) {
        refuses(n, &no_opcode, UINT16_MAX, (nrbpf_error){NRBPF_S7, NRBPF_REFUSAL('D', 4), 0, SLOTS - 4});
        refuses(n, &endless, UINT16_MAX, (nrbpf_error){.status = NRBPF_S6});
    }
    for (uint32_t n = INSTALLS - 2; n < INSTALLS; n++)
        refuses(n, &good, 1u << COUNTERS, (nrbpf_error){NRBPF_S8, NRBPF_REFUSAL('V', 16), 0, SLOTS - 3});
    close_store();
}

// A call of a place with one byte more than the longest argument is refused. With so many it finds no program there.
static void calls_of_places(void) {
    const uint32_t allowed[][2] = {{0, 64}, {64, 64}, {100, 100}, {LONG, LONG}};
    const argument it = argument_of(1, 1);
    for (int i = 0; i < 4; i++) {
        const nrbpf_config config = config_of(1, allowed[i][0]);
        const size_t most = allowed[i][1], lengths_of_arguments[] = {most + 1, LONG + 1, SIZE_MAX};
        nrbpf_answer answer = {77, 77};
        nrbpf_outcome outcomes[2];
        nrbpf_lane *lane;
        nrbpf_error why;
        uint64_t replies[2], point;
        open_store(&config, NULL);
        EXPECT_STATUS(nrbpf_attach_lane(store, 0, 2, &lane), NRBPF_OK);
        for (int k = 0; k < 3; k++) {
            const size_t len = lengths_of_arguments[k];
            const nrbpf_question calls[] = {{it.bytes, most, PLACE}, {it.bytes, len, PLACE}};
            EXPECT_STATUS(nrbpf_update(own, PLACE, it.bytes, len, &answer), NRBPF_S2);
            EXPECT_STATUS(nrbpf_try_update(own, PLACE, it.bytes, len, &answer), NRBPF_S2);
            EXPECT_STATUS(nrbpf_read(own, PLACE, it.bytes, len, &answer), NRBPF_S2);
            EXPECT_STATUS(nrbpf_try_read(own, PLACE, it.bytes, len, &answer), NRBPF_S2);
            EXPECT_STATUS(nrbpf_update_each(lane, calls, 2, outcomes, &why), NRBPF_S2);
            EXPECT(why.status == NRBPF_S2 && why.slot == 1);
            EXPECT_STATUS(nrbpf_read_each(own, calls, 2, replies, &point, &why), NRBPF_S2);
            EXPECT(why.status == NRBPF_S2 && why.slot == 1);
        }
        EXPECT(answer.point == 77 && answer.reply == 77 && updates() == 0);
        EXPECT_STATUS(nrbpf_update(own, PLACE, it.bytes, most, &answer), NRBPF_OK);
        EXPECT(answer.point == 0 && answer.reply == NRBPF_REPLY_INVALID);
        EXPECT_STATUS(nrbpf_read(other, PLACE, it.bytes, most, &answer), NRBPF_OK);
        EXPECT(answer.point == 1 && answer.reply == NRBPF_REPLY_INVALID);
        EXPECT_STATUS(nrbpf_detach_lane(lane), NRBPF_OK);
        close_store();
    }
}

// ---- States

static nrbpf_status load(const nrbpf_config *config, const char *text, nrbpf_state **out, nrbpf_error *why) {
    return nrbpf_state_load(config, manifest, strlen(manifest), files.files, programs, text, strlen(text), out, why);
}

// Adds a text, or bytes as hexadecimal digits, to what a dump has to be.
static void add_text(dump *to, const char *text) { EXPECT(keep(to, text, strlen(text)) == 0); }

static void add_hex(dump *to, const uint8_t *bytes, size_t len) {
    for (size_t i = 0; i < len; i++) {
        char digits[3];
        snprintf(digits, sizeof digits, "%02x", bytes[i]);
        add_text(to, digits);
    }
}

static void add_program(dump *to, const program *it) {
    char head[32];
    snprintf(head, sizeof head, "p %s %u ", it->mode == NRBPF_MODE_READ ? "read" : "update", (unsigned)it->argument_len);
    add_text(to, head);
    add_hex(to, it->bytes, it->len);
    add_text(to, "\n");
}

static void dumps_as(const nrbpf_state *state, const dump *wanted) {
    static dump told;
    dump_state(state, &told);
    EXPECT(told.len == wanted->len && memcmp(told.text, wanted->text, told.len) == 0);
}

enum { KEPT = 3 };                              // programs of the state, on its lines from the third on
static program kept[KEPT];

// A store on the state has the programs, on both nodes, and takes another.
static void goes_on(const nrbpf_config *config, const nrbpf_state *state) {
    const argument before = argument_of(1, 1), it = argument_of(2, 2);
    open_store(config, state);
    has_last(own, &before);
    for (uint64_t i = 0; i < KEPT; i++) {
        answers(own, PLACE + i, &kept[i], &it);
        answers(other, PLACE + i, &kept[i], &it);
    }
    has_last(own, &it);
    EXPECT(installed(other, 0, &kept[0]).reply == PLACE + KEPT);
    answers(own, PLACE + KEPT, &kept[0], &it);
    close_store();
}

// A store, and a text, of fewer `long_bytes` than the longest program has.
static void does_not_go_on(uint32_t long_bytes, const nrbpf_state *state, const char *text, uint32_t line) {
    const nrbpf_config config = config_of(SPARE, long_bytes);
    nrbpf_store *none = NULL;
    nrbpf_state *loaded = NULL;
    nrbpf_error why = {77, 77, 77, 77};
    EXPECT_STATUS(open_with(&config, state, &none), NRBPF_OTHER_STATE);
    EXPECT_STATUS(load(&config, text, &loaded, &why), NRBPF_BAD_DUMP_LINE);
    EXPECT(why.status == NRBPF_E1 && why.inner == 0 && why.line == line && why.slot == 0);
    EXPECT(none == NULL && loaded == NULL);
}

// The state of a store with programs of all three lengths, by a snapshot and at its end, and as a text.
static void states(void) {
    static dump wanted;
    const nrbpf_config config = config_of(SPARE, LONG);
    nrbpf_config wide = config_of(2 * SPARE, LONG);
    const argument it = argument_of(1, 1);
    nrbpf_state *state, *ended, *loaded;
    uint64_t point;
    wide.nodes = 3;
    kept[0] = summing(SLOTS, 1), kept[1] = putting(MIDDLE, 2), kept[2] = naming(SHORT, 3);
    open_store(&config, NULL);
    EXPECT_STATUS(nrbpf_state_new(store, &state), NRBPF_OK);
    for (uint32_t i = 0; i < KEPT; i++) EXPECT(installed(own, i, &kept[i]).reply == PLACE + i);
    count_up(own, 3);
    answers(own, PLACE + 1, &kept[1], &it);
    EXPECT_STATUS(nrbpf_snapshot(other, state, &point), NRBPF_OK);
    EXPECT(point == KEPT + 2);
    detach_both();
    EXPECT_STATUS(nrbpf_close_into(store, &ended), NRBPF_OK);

    add_text(&wanted, "0 03000000 0100000000000000\n1 01000000 ");
    add_hex(&wanted, it.bytes + LONG - 8, 8);
    add_text(&wanted, "\n");
    for (int i = 0; i < KEPT; i++) add_program(&wanted, &kept[i]);
    EXPECT_STATUS(load(&config, wanted.text, &loaded, NULL), NRBPF_OK);
    nrbpf_state *const all[] = {state, ended, loaded};
    for (int i = 0; i < 3; i++) {
        dumps_as(all[i], &wanted);
        goes_on(&config, all[i]);
        goes_on(&wide, all[i]);
        const uint32_t fewer[] = {0, 192, LONG - 8, LONG - 1};
        for (int k = 0; k < 4; k++) does_not_go_on(fewer[k], all[i], wanted.text, 3);
        dumps_as(all[i], &wanted);
        nrbpf_state_free(all[i]);
    }
}

// A state for long programs that has none suits a store without them, but no snapshot of it. A long argument is as bad as a long program.
static void states_of_other_lengths(void) {
    static dump text;
    const nrbpf_config none = config_of(SPARE, 0), some = config_of(SPARE, 65), all = config_of(SPARE, LONG);
    const argument given = argument_of(1, 1);
    program it = summing(SHORT, 7);
    nrbpf_state *state, *longer;
    uint64_t point = 77;
    it.argument_len = 64;
    add_program(&text, &it);
    EXPECT_STATUS(load(&all, text.text, &state, NULL), NRBPF_OK);
    open_store(&none, state);
    answers(other, PLACE, &it, &given);
    EXPECT_STATUS(nrbpf_snapshot(own, state, &point), NRBPF_OTHER_SIZES);
    EXPECT_STATUS(nrbpf_try_snapshot(own, state, &point), NRBPF_H9);
    EXPECT(point == 77);
    close_store();
    nrbpf_state_free(state);

    it.argument_len = 65;
    text.len = 0;
    add_program(&text, &it);
    EXPECT_STATUS(load(&some, text.text, &longer, NULL), NRBPF_OK);
    does_not_go_on(0, longer, text.text, 1);
    does_not_go_on(64, longer, text.text, 1);
    open_store(&some, longer);
    answers(other, PLACE, &it, &given);
    close_store();
    nrbpf_state_free(longer);
}

// More `long_bytes` than any store has, 4 GiB for the updates of a window, and a host whose header has none.
static void configurations(void) {
    const uint32_t wrong[] = {LONG + 1, UINT32_MAX};
    const program it = summing(SHORT + 1, 8);
    nrbpf_config config = config_of(1, LONG);
    nrbpf_store *none = NULL;
    nrbpf_state *state, *loaded = NULL;
    EXPECT_STATUS(load(&config, "", &state, NULL), NRBPF_OK);
    for (int i = 0; i < 2; i++) {
        config.long_bytes = wrong[i];
        EXPECT_STATUS(open_with(&config, NULL, &none), NRBPF_OUT_OF_LIMITS);
        EXPECT_STATUS(open_with(&config, state, &none), NRBPF_O1);
        EXPECT_STATUS(load(&config, "", &loaded, NULL), NRBPF_O1);
    }
    nrbpf_config large = config_of(1, LONG);
    large.window = 262144;
    EXPECT_STATUS(open_with(&large, NULL, &none), NRBPF_O2);
    EXPECT_STATUS(open_with(&large, state, &none), NRBPF_NO_MEMORY);
    EXPECT(none == NULL && loaded == NULL);
    nrbpf_state_free(state);
    config.version = 2005;
    open_store(&config, NULL);
    allows(0);
    for (uint32_t n = 0; n < INSTALLS; n++) refuses(n, &it, 0, (nrbpf_error){.status = NRBPF_S6});
    close_store();
}

// ---- Threads

enum { THREADS = 4, OWN = 6, ROUNDS = 2 * OWN, CALLS = 10 };

// A thread: which programs it has installed, where, and how many updates it made.
typedef struct installer {
    uint32_t number, count;
    uint64_t made, places[ROUNDS];
    program given[ROUNDS];
} installer;

static installer installers[THREADS];

// Installs programs until there may be no place left, and meanwhile calls those that are its own.
static void *install_and_call(void *at) {
    installer *const it = (installer *)at;
    nrbpf_session *session = attached(store, it->number % 2);
    for (uint32_t round = 0; round < ROUNDS; round++) {
        const program next = nth(100 * it->number + round);
        const nrbpf_answer answer = installed(session, round, &next);
        it->made++;
        if (answer.reply != NRBPF_REPLY_NO_ROOM) {
            it->places[it->count] = answer.reply;
            it->given[it->count++] = next;
        }
        for (uint32_t call = 0; call < CALLS; call++) {
            const argument given = argument_of(it->number, round * CALLS + call);
            count_up(session, it->number);
            it->made++;
            if (it->count == 0) continue;
            const uint32_t which = call % it->count;
            it->made += (uint64_t)answers(session, it->places[which], &it->given[which], &given);
            if (it->given[which].argument_len == LONG) has_last(session, &given);
        }
    }
    EXPECT_STATUS(nrbpf_detach(session), NRBPF_OK);
    return NULL;
}

// Each place has been given once, and both nodes have the program that was installed there.
static void have_all(void) {
    const argument given = argument_of(9, 9);
    uint8_t taken[THREADS * OWN] = {0};
    uint32_t count = 0;
    for (int i = 0; i < THREADS; i++) {
        const installer *const it = &installers[i];
        for (uint32_t k = 0; k < it->count; k++) {
            EXPECT(it->places[k] >= PLACE && it->places[k] < PLACE + THREADS * OWN && taken[it->places[k] - PLACE]++ == 0);
            answers(own, it->places[k], &it->given[k], &given);
            answers(other, it->places[k], &it->given[k], &given);
        }
        count += it->count;
    }
    EXPECT(count == THREADS * OWN);
}

static void at_once(void) {
    const nrbpf_config config = config_of(THREADS * OWN, LONG);
    pthread_t threads[THREADS];
    nrbpf_counts counts;
    nrbpf_answer answer;
    uint64_t made = 0;
    open_store(&config, NULL);
    for (uint32_t i = 0; i < THREADS; i++) {
        installers[i].number = i;
        EXPECT(pthread_create(&threads[i], NULL, install_and_call, &installers[i]) == 0);
    }
    for (int i = 0; i < THREADS; i++) {
        EXPECT(pthread_join(threads[i], NULL) == 0);
        made += installers[i].made;
    }
    EXPECT_STATUS(nrbpf_stats(own, &counts, sizeof counts), NRBPF_OK);
    EXPECT(counts.completed == made && counts.kept <= WINDOW);
    for (uint32_t i = 0; i < THREADS; i++) {
        const key counted = key_of(i);
        EXPECT_STATUS(nrbpf_read(other, peek, &counted, sizeof counted, &answer), NRBPF_OK);
        EXPECT(answer.reply == ROUNDS * CALLS);
    }
    have_all();
    close_store();
}

int main(void) {
    files = counter_files();
    by_each_call();
    by_lists();
    by_turns();
    lengths_of_programs();
    other_programs();
    calls_of_places();
    states();
    states_of_other_lengths();
    configurations();
    at_once();
    give_back(&files);
    printf("installed programs of %d slots go to the other node, and %d slots are refused\n", SLOTS, SLOTS + 1);
    return 0;
}
