/* What large maps cost, through the library for C: a store of one node with a hash of 2^N entries, keys and values of 8 bytes. For each N among its words
   (16 and 20 if there is none) it opens a store, fills the hash, and prints a row. "Memory" is what the process holds more than before, then what the
   formula of docs/PERFORMANCE.md says. Keys are drawn: each call asks for another. Times are the processor's, which other processes change less; those of
   calls are the median of some rounds. Then it takes a snapshot, dumps it twice (to nothing, then into memory), loads it, opens a store on it, and checks
   that it is dumped the same. 2^24 entries take some 3.5 GB. Last it times updates of one program with arguments of 4 bytes and of 4 KiB. It runs
   in the top folder. */

#include "../embed/nrbpf.h"
#include <stdio.h>
#include <stdlib.h>
#include <string.h>
#include <time.h>

enum { ROUNDS = 7, CALLS = 100000, PAGE = 256, WINDOW = 4096, LONG = 4096 };
enum { put, look, bump, programs };
/* The program `bump` twice, in a store without a hash. */
enum { bump_short, bump_long };

/* A key and its value in map 0. */
static const char *const put_hex = "bf12000000000000 bf13000000000000 0703000008000000 1851000000000000 0000000000000000 "
                                   "b704000000000000 8500000002000000 9500000000000000";
/* The value of a key of map 0. */
static const char *const look_hex = "bf12000000000000 1851000000000000 0000000000000000 8500000001000000 1500020000000000 "
                                    "7900000000000000 9500000000000000 b7000000ffffffff 9500000000000000";
/* Adds one to a counter of map 1, and replies what it is then. */
static const char *const bump_hex = "bf12000000000000 1851000001000000 0000000000000000 8500000001000000 1500050000000000 "
                                    "7906000000000000 0706000001000000 7b60000000000000 bf60000000000000 9500000000000000 "
                                    "b7000000ffffffff 9500000000000000";

#define EXPECT(holds)                                                           \
    do {                                                                        \
        if (!(holds)) {                                                         \
            fprintf(stderr, "%s:%d: not so: %s\n", __FILE__, __LINE__, #holds); \
            exit(1);                                                            \
        }                                                                       \
    } while (0)

#define CHECK(call)                                                                                    \
    do {                                                                                               \
        nrbpf_status status_ = call;                                                                   \
        if (status_) {                                                                                 \
            fprintf(stderr, "%s:%d: %s: %s\n", __FILE__, __LINE__, #call, nrbpf_status_text(status_)); \
            exit(1);                                                                                   \
        }                                                                                              \
    } while (0)

static char manifest[200];
static nrbpf_file files[programs];
static nrbpf_config config = NRBPF_CONFIG(1, 1);
static nrbpf_session *session;
static uint64_t entries, drawn;

static double now(void) {
    struct timespec t;
    clock_gettime(CLOCK_PROCESS_CPUTIME_ID, &t);
    return (double)t.tv_sec * 1e9 + (double)t.tv_nsec;
}

/* A figure of the process in KiB: VmRSS, or VmHWM, the most since `forget_most`. */
static double kib_of(const char *name) {
    FILE *file = fopen("/proc/self/status", "r");
    char line[200];
    double kib = 0;
    EXPECT(file);
    while (fgets(line, sizeof line, file))
        if (strncmp(line, name, strlen(name)) == 0) kib = strtod(line + strlen(name) + 1, NULL);
    fclose(file);
    return kib;
}

static void forget_most(void) {
    FILE *file = fopen("/proc/self/clear_refs", "w");
    if (!file) return;
    fputs("5", file);
    fclose(file);
}

/* The key of an entry: different ones for different numbers, in no order. */
static uint64_t key_of(uint64_t number) {
    uint64_t x = number + 1;
    x = (x ^ (x >> 30)) * 0xbf58476d1ce4e5b9u;
    x = (x ^ (x >> 27)) * 0x94d049bb133111ebu;
    return x ^ (x >> 31);
}

static uint64_t drawn_key(void) {
    drawn = drawn * 6364136223846793005u + 1442695040888963407u;
    return key_of((drawn >> 33) % entries);
}

/* ---- The calls that are timed, so often */

static void put_one(uint64_t key, uint64_t value) {
    const uint64_t argument[] = {key, value};
    nrbpf_answer answer;
    CHECK(nrbpf_update(session, put, argument, sizeof argument, &answer));
    EXPECT(answer.reply == 0);
}

static void put_often(long times) {
    for (long i = 0; i < times; i++) put_one(drawn_key(), (uint64_t)i);
}

static void get_often(long times) {
    for (long i = 0; i < times; i++) {
        const uint64_t key = drawn_key();
        uint64_t value;
        nrbpf_found found;
        CHECK(nrbpf_get(session, 0, &key, sizeof key, &value, sizeof value, &found));
        EXPECT(found.is_there);
    }
}

static void read_often(long times) {
    for (long i = 0; i < times; i++) {
        const uint64_t key = drawn_key();
        nrbpf_answer answer;
        CHECK(nrbpf_read(session, look, &key, sizeof key, &answer));
    }
}

static void bump_often(long times) {
    for (long i = 0; i < times; i++) {
        const uint32_t counter = (uint32_t)i % 16;
        nrbpf_answer answer;
        CHECK(nrbpf_update(session, bump, &counter, sizeof counter, &answer));
        EXPECT(answer.reply > 0);
    }
}

static void bump_of(uint16_t program, size_t len, long times) {
    static uint32_t argument[LONG / 4];
    nrbpf_answer answer;
    for (long i = 0; i < times; i++) {
        argument[0] = (uint32_t)i % 16;
        CHECK(nrbpf_update(session, program, argument, len, &answer));
        EXPECT(answer.reply > 0);
    }
}

static void bump_short_often(long times) { bump_of(bump_short, 4, times); }
static void bump_long_often(long times) { bump_of(bump_long, LONG, times); }

static int by_size(const void *a, const void *b) {
    double x = *(const double *)a, y = *(const double *)b;
    return (x > y) - (x < y);
}

/* Nanoseconds of a call: the median of the rounds. */
static double time_of(void (*often)(long)) {
    double took[ROUNDS];
    for (int round = 0; round < ROUNDS; round++) {
        double from = now();
        often(CALLS);
        took[round] = (now() - from) / CALLS;
    }
    qsort(took, ROUNDS, sizeof *took, by_size);
    return took[ROUNDS / 2];
}

/* Nanoseconds an entry of a scan of the whole hash. */
static double time_of_scan(void) {
    static uint64_t keys[PAGE], values[PAGE];
    nrbpf_scanned page = {0, 0, 0};
    uint64_t count = 0;
    double from = now();
    for (uint32_t place = 0; place != NRBPF_END; place = page.next) {
        CHECK(nrbpf_scan(session, 0, place, keys, sizeof keys, values, sizeof values, &page));
        count += page.count;
    }
    EXPECT(count == entries);
    return (now() - from) / (double)entries;
}

/* ---- States as text */

typedef struct text {
    char *bytes;
    size_t len, room;
} text;

static int count_bytes(void *to, const char *bytes, size_t len) {
    (void)bytes;
    ((text *)to)->len += len;
    return 0;
}

static int keep_bytes(void *to, const char *bytes, size_t len) {
    text *into = to;
    EXPECT(into->len + len <= into->room);
    memcpy(into->bytes + into->len, bytes, len);
    into->len += len;
    return 0;
}

static int compare_bytes(void *to, const char *bytes, size_t len) {
    text *with = to;
    EXPECT(with->len + len <= with->room && memcmp(with->bytes + with->len, bytes, len) == 0);
    with->len += len;
    return 0;
}

/* ---- A row */

/* What the formula says that a store takes, in bytes. */
static double formula(void) {
    const double maps = (double)entries * (8 + 8 + 18) + 8 + 10 + 16 * 8;
    return 208.0 * WINDOW * 2 + 3856 + 600 + 4248 + 2 * maps;
}

static nrbpf_store *opened(const nrbpf_state *state, double *took) {
    nrbpf_store *store;
    double from = now();
    if (state) CHECK(nrbpf_open_on(&config, manifest, strlen(manifest), files, programs, state, &store, NULL));
    else CHECK(nrbpf_open(&config, manifest, strlen(manifest), files, programs, &store, NULL));
    *took = (now() - from) / 1e6;
    return store;
}

static void ended(nrbpf_store *store) {
    CHECK(nrbpf_detach(session));
    CHECK(nrbpf_close(store));
}

/* Takes a snapshot, and prints what it and its texts cost: of a text the nanoseconds an entry, and of a dump what it takes above the maps, in MiB. */
static nrbpf_state *tried_states(nrbpf_store *store) {
    nrbpf_state *state, *loaded;
    uint64_t point;
    text told = {NULL, 0, 0};
    CHECK(nrbpf_state_new(store, &state));
    CHECK(nrbpf_snapshot(session, state, &point));
    double from = now();
    CHECK(nrbpf_snapshot(session, state, &point));
    double snapshot = (now() - from) / 1e6;
    forget_most();
    double before = kib_of("VmRSS");
    from = now();
    CHECK(nrbpf_state_dump(state, count_bytes, &told));
    double dump = (now() - from) / (double)entries, more = (kib_of("VmHWM") - before) / 1024;
    told = (text){malloc(told.len), 0, told.len};
    EXPECT(told.bytes);
    CHECK(nrbpf_state_dump(state, keep_bytes, &told));
    nrbpf_state_free(state);
    from = now();
    CHECK(nrbpf_state_load(&config, manifest, strlen(manifest), files, programs, told.bytes, told.len, &loaded, NULL));
    double load = (now() - from) / (double)entries;
    told.len = 0;
    CHECK(nrbpf_state_dump(loaded, compare_bytes, &told));
    EXPECT(told.len == told.room);
    free(told.bytes);
    printf("%10.1f%8.0f%10.1f%8.0f", snapshot, dump, more, load);
    return loaded;
}

static void row_of(int power) {
    double open, reopen, before = kib_of("VmRSS");
    entries = (uint64_t)1 << power;
    snprintf(manifest, sizeof manifest,
             "map hash 8 8 %llu\nmap array 8 16\nprogram put update 16 put.hex\nprogram look read 8 look.hex\nprogram bump update 4 bump.hex\n",
             (unsigned long long)entries);
    nrbpf_store *store = opened(NULL, &open);
    CHECK(nrbpf_attach(store, 0, &session));
    double from = now();
    for (uint64_t i = 0; i < entries; i++) put_one(key_of(i), i);
    double fill = (now() - from) / (double)entries, memory = kib_of("VmRSS") - before;
    printf("2^%-4d%9.1f%9.1f%8.1f%8.0f", power, memory / 1024, formula() / 1048576, open, fill);
    printf("%8.0f%8.0f%8.0f%8.0f%8.1f", time_of(put_often), time_of(get_often), time_of(read_often), time_of(bump_often), time_of_scan());
    fflush(stdout);
    nrbpf_state *state = tried_states(store);
    ended(store);
    store = opened(state, &reopen);
    nrbpf_state_free(state);
    CHECK(nrbpf_attach(store, 0, &session));
    get_often(1000);
    ended(store);
    printf("%9.1f\n", reopen);
}

/* Updates of one program with a short and with a long argument. */
static void row_of_lengths(void) {
    double open;
    snprintf(manifest, sizeof manifest, "map array 8 16\nmap array 8 16\nprogram short update 4 bump.hex\nprogram long update %d bump.hex\n", LONG);
    nrbpf_store *store = opened(NULL, &open);
    CHECK(nrbpf_attach(store, 0, &session));
    double brief = time_of(bump_short_often), lengthy = time_of(bump_long_often);
    ended(store);
    printf("an update with an argument of 4 bytes: %.0f ns, of %d: %.0f ns\n", brief, LONG, lengthy);
}

int main(int count, char **words) {
    const char *const names[programs] = {"put.hex", "look.hex", "bump.hex"}, *const texts[programs] = {put_hex, look_hex, bump_hex};
    const nrbpf_limits large = NRBPF_LARGE;
    config.limits = large;
    for (int i = 0; i < programs; i++) files[i] = (nrbpf_file){names[i], strlen(names[i]), texts[i], strlen(texts[i])};
    printf("MiB of memory; milliseconds of open, snapshot and reopen; nanoseconds a call, and an entry of scan, dump and load; above: MiB that a dump takes\n");
    printf("%-6s%9s%9s%8s%8s%8s%8s%8s%8s%8s%10s%8s%10s%8s%9s\n", "keys", "memory", "formula", "open", "fill", "put", "get", "read", "bump", "scan", "snapshot",
           "dump", "above", "load", "reopen");
    if (count < 2) row_of(16), row_of(20);
    for (int i = 1; i < count; i++) row_of(atoi(words[i]));
    row_of_lengths();
    return 0;
}
