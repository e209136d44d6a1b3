// maps.c: what a host reads of maps without a program: a value by its key, all entries page by page, several reads at one point. A hash of 20,000
// places has 3,000 keys, which examples/key_value puts there and takes away.
#include "fixture.h"

enum { PUT = 0, GET = 1, DEL = 2, PLACES = 20000, KEYS = 3000 };

#define MAP_LINES                                           \
    "map hash 4 4 20000\n"                                  \
    "program put update 8 examples/key_value/put.hex\n"     \
    "program get read 4 examples/key_value/get.hex\n"       \
    "program del update 4 examples/key_value/del.hex\n"

static const char *const paths[] = {"examples/key_value/put.hex", "examples/key_value/get.hex", "examples/key_value/del.hex"};
static nrbpf_store *store;
static nrbpf_session *session;
static uint8_t is_there[KEYS];                  // by the model of this host: the key k has the value 7 * k

// A key and its value, as the programs take them.
typedef struct entry {
    uint32_t key, value;
} entry;

static void open_store(void) {
    const nrbpf_config config = NRBPF_CONFIG(2, 1);
    nrbpf_file files[3];
    nrbpf_error why;
    for (int i = 0; i < 3; i++) files[i] = file_of(paths[i], text_of(paths[i]));
    EXPECT_STATUS(nrbpf_open(&config, MAP_LINES, strlen(MAP_LINES), files, 3, &store, &why), NRBPF_OK);
    for (int i = 0; i < 3; i++) free((char *)files[i].text);
    session = attached(store, 1);
}

static void update(uint16_t program, uint32_t key) {
    const entry of = {key, 7 * key};
    nrbpf_answer answer;
    EXPECT_STATUS(nrbpf_update(session, program, &of, program == PUT ? sizeof of : sizeof of.key, &answer), NRBPF_OK);
    EXPECT(answer.reply == 0);
    is_there[key] = program == PUT;
}

static void look_for_each(uint64_t point) {
    for (uint32_t k = 0; k < KEYS; k++) {
        uint32_t value = 77;
        nrbpf_found found = {0, 77};
        EXPECT_STATUS(nrbpf_get(session, 0, &k, sizeof k, &value, sizeof value, &found), NRBPF_OK);
        EXPECT(found.point == point && found.is_there == is_there[k] && value == (is_there[k] ? 7 * k : 77));
    }
}

// All pages of so many entries. A page without an entry has a place to go on from: it came to the end of what it may look at.
static void page_through(uint32_t each, uint64_t point, int *pages, int *empty) {
    static uint8_t seen[KEYS];
    uint32_t keys[KEYS], values[KEYS], from = 0;
    memset(seen, 0, sizeof seen);
    for (*pages = 0, *empty = 0; from != NRBPF_END; ++*pages) {
        nrbpf_scanned scanned;
        EXPECT_STATUS(nrbpf_scan(session, 0, from, keys, 4 * each, values, 4 * each, &scanned), NRBPF_OK);
        EXPECT(scanned.point == point && scanned.count <= each);
        EXPECT(scanned.next == NRBPF_END || (scanned.next > from && scanned.next < PLACES && scanned.next - from <= 1024 + 16 * each));
        for (uint32_t i = 0; i < scanned.count; i++) {
            EXPECT(keys[i] < KEYS && is_there[keys[i]] && !seen[keys[i]] && values[i] == 7 * keys[i]);
            seen[keys[i]] = 1;
        }
        *empty += scanned.count == 0;
        from = scanned.next;
    }
    EXPECT(memcmp(seen, is_there, sizeof seen) == 0);
}

// The smaller of both rooms counts, and a room for nothing gives nothing.
static void small_rooms(void) {
    uint32_t keys[4] = {0}, values[4] = {77, 77, 77, 77};
    nrbpf_scanned scanned;
    EXPECT_STATUS(nrbpf_scan(session, 0, 0, keys, sizeof keys, values, 11, &scanned), NRBPF_OK);
    EXPECT(scanned.count == 2 && values[2] == 77 && values[3] == 77);
    EXPECT_STATUS(nrbpf_scan(session, 0, 0, NULL, 0, NULL, 0, &scanned), NRBPF_OK);
    EXPECT(scanned.count == 0 && scanned.next != NRBPF_END);
    const uint32_t first = scanned.next;
    EXPECT_STATUS(nrbpf_scan(session, 0, first, keys, sizeof keys, values, 3, &scanned), NRBPF_OK);
    EXPECT(scanned.count == 0 && scanned.next == first);
    EXPECT_STATUS(nrbpf_scan(session, 0, first, keys, sizeof keys, values, sizeof values, &scanned), NRBPF_OK);
    EXPECT(scanned.count == 4 && scanned.next > first);
}

// A key may be where its value is written, in whole or in part.
static void look_in_one_buffer(uint64_t point) {
    for (uint32_t k = 0; k < 100; k++) {
        for (size_t from = 0; from <= 4; from++) {
            uint8_t bytes[8] = {0};
            uint32_t value = 0;
            nrbpf_found found = {0, 77};
            memcpy(bytes, &k, sizeof k);
            EXPECT_STATUS(nrbpf_get(session, 0, bytes, 4, bytes + from, 4, &found), NRBPF_OK);
            EXPECT(found.point == point && found.is_there == is_there[k]);
            memcpy(&value, bytes + from, sizeof value);
            EXPECT(found.is_there ? value == 7 * k : memcmp(bytes, &k, sizeof k) == 0);
        }
    }
}

// So may the arguments of questions be where replies are written, also that of another question.
static void ask_in_one_buffer(void) {
    enum { LAST = NRBPF_MOST_QUESTIONS - 1 };
    uint64_t words[NRBPF_MOST_QUESTIONS], point = 0;
    nrbpf_question questions[NRBPF_MOST_QUESTIONS];
    for (uint32_t i = 0; i <= LAST; i++) {
        const uint32_t key = LAST - i;
        memcpy(&words[i], &key, sizeof key);
        questions[i] = (nrbpf_question){&words[LAST - i], sizeof key, GET};
    }
    EXPECT_STATUS(nrbpf_read_each(session, questions, NRBPF_MOST_QUESTIONS, words, &point, NULL), NRBPF_OK);
    for (uint32_t i = 0; i <= LAST; i++) EXPECT(words[i] == (is_there[i] ? 7 * i : (uint64_t)-2));
}

static void ask_at_once(uint64_t at) {
    uint32_t keys[NRBPF_MOST_QUESTIONS];
    nrbpf_question questions[NRBPF_MOST_QUESTIONS];
    uint64_t replies[NRBPF_MOST_QUESTIONS], point = 0;
    for (uint32_t i = 0; i < NRBPF_MOST_QUESTIONS; i++) {
        keys[i] = i;
        questions[i] = (nrbpf_question){&keys[i], sizeof keys[i], GET};
    }
    for (size_t count = 0; count <= NRBPF_MOST_QUESTIONS; count++) {
        EXPECT_STATUS(nrbpf_read_each(session, questions, count, replies, &point, NULL), NRBPF_OK);
        EXPECT(point == at);
        for (uint32_t i = 0; i < count; i++) EXPECT(replies[i] == (is_there[i] ? 7 * i : (uint64_t)-2));
    }
    EXPECT_STATUS(nrbpf_read_each(session, NULL, 0, NULL, &point, NULL), NRBPF_OK);
    EXPECT(point == at);
}

int main(void) {
    static const uint32_t sizes[] = {1, 3, 100, KEYS};
    uint64_t point = 0;
    int pages, empty, all = 0, without = 0;
    open_store();
    page_through(5, 0, &pages, &empty);
    EXPECT(empty == pages);
    for (uint32_t k = 0; k < KEYS; k++, point++) update(PUT, k);
    for (uint32_t k = 0; k < KEYS; k += 3, point++) update(DEL, k);
    look_for_each(point);
    for (int i = 0; i < 4; i++) {
        page_through(sizes[i], point, &pages, &empty);
        all += pages;
        without += empty;
    }
    EXPECT(pages > 0 && without > 0);
    small_rooms();
    ask_at_once(point);
    look_in_one_buffer(point);
    ask_in_one_buffer();
    EXPECT_STATUS(nrbpf_detach(session), NRBPF_OK);
    EXPECT_STATUS(nrbpf_close(store), NRBPF_OK);
    printf("%d keys looked for, all entries in %d pages, %d of them without one, and up to 16 reads at one point\n", KEYS, all, without);
    return 0;
}
