/* Times the store through nrbpf.h on 1, 2 and 4 threads and 1 and 2 nodes, with none, 90 and all of 100 calls reads, and prints how many calls a
   second each makes: the median of the rounds, and half of what lies between the lowest and the highest in percent of it. Next to it are the
   same store by lists, which are as long as the slots of a node allow (16 for one thread, 4 for four), a mutex round one session of a store of one
   node, which is one replica of the same machine, and a mutex round the interpreter of threaded.c, which trusts every program. All threads begin
   at once, behind a barrier, and a round is long enough that they run beside each other. With two words, `update N`, `list N` or `read N`, one
   session or one lane makes so many calls and nothing is timed, to count their processor instructions. With the word `waits` it prints how long each
   call takes instead, with `one` what an update takes one thread, singly and by lists of sixteen. It runs in the top folder. */

#include "threaded.c"

#include "../embed/hosts/fixture.h"
#include <pthread.h>
#include <time.h>

enum { ROUNDS = 5, TRIAL = 20000, MOST_UPDATES = 900000, ENTRIES = 16, MOST_THREADS = 4 };

/* How long a round is at least, in nanoseconds, but where a history ends first. */
static const double ROUND = 2e8;

struct load {
    int threads, nodes;
    uint64_t reads; /* of 100 calls */
    uint64_t calls; /* of a thread */
};

/* What is compared: how it is opened, and what a thread does for an update and a read. */
struct kind {
    const char *name;
    void (*open)(struct load load);
    uint64_t (*update)(int thread, const uint8_t *argument);
    uint64_t (*read)(int thread, const uint8_t *argument); /* or null: then it has rounds of updates alone */
    void (*close)(struct load load);
};

static double now(void) {
    struct timespec t;
    clock_gettime(CLOCK_MONOTONIC, &t);
    return (double)t.tv_sec * 1e9 + (double)t.tv_nsec;
}

/* ---- The store: a session a thread, which go round the nodes */

static nrbpf_store *store;
static nrbpf_session *sessions[MOST_THREADS];

static void open_shared(struct load load) {
    nrbpf_config config = NRBPF_CONFIG((uint32_t)load.nodes, (uint32_t)((load.threads + load.nodes - 1) / load.nodes));
    store = opened(&config);
    for (int i = 0; i < load.threads; i++) EXPECT_STATUS(nrbpf_attach(store, (uint32_t)(i % load.nodes), &sessions[i]), NRBPF_OK);
}

static void close_shared(struct load load) {
    for (int i = 0; i < load.threads; i++) EXPECT_STATUS(nrbpf_detach(sessions[i]), NRBPF_OK);
    EXPECT_STATUS(nrbpf_close(store), NRBPF_OK);
}

static uint64_t update_shared(int thread, const uint8_t *argument) {
    nrbpf_answer answer;
    EXPECT_STATUS(nrbpf_update(sessions[thread], bump, argument, 4, &answer), NRBPF_OK);
    return answer.reply;
}

static uint64_t read_shared(int thread, const uint8_t *argument) {
    nrbpf_answer answer;
    EXPECT_STATUS(nrbpf_read(sessions[thread], peek, argument, 4, &answer), NRBPF_OK);
    return answer.reply;
}

/* ---- The same by lists: a lane a thread, which gathers updates and asks for them together */

static struct list {
    nrbpf_lane *lane;
    uint32_t length, count;
    uint8_t arguments[NRBPF_MOST_SLOTS][4];
    nrbpf_question calls[NRBPF_MOST_SLOTS];
    nrbpf_outcome outcomes[NRBPF_MOST_SLOTS];
    char apart[128];                                /* no two threads share a cache line */
} lists[MOST_THREADS];

static void open_listed(struct load load) {
    const uint32_t length = NRBPF_MOST_SLOTS / (uint32_t)((load.threads + load.nodes - 1) / load.nodes);
    nrbpf_config config = NRBPF_CONFIG((uint32_t)load.nodes, NRBPF_MOST_SLOTS);
    store = opened(&config);
    for (int i = 0; i < load.threads; i++) {
        struct list *it = &lists[i];
        it->length = length;
        it->count = 0;
        for (uint32_t k = 0; k < length; k++) it->calls[k] = (nrbpf_question){it->arguments[k], 4, bump};
        EXPECT_STATUS(nrbpf_attach_lane(store, (uint32_t)(i % load.nodes), length, &it->lane), NRBPF_OK);
    }
}

static void close_listed(struct load load) {
    for (int i = 0; i < load.threads; i++) EXPECT_STATUS(nrbpf_detach_lane(lists[i].lane), NRBPF_OK);
    EXPECT_STATUS(nrbpf_close(store), NRBPF_OK);
}

static uint64_t update_listed(int thread, const uint8_t *argument) {
    struct list *it = &lists[thread];
    memcpy(it->arguments[it->count++], argument, 4);
    if (it->count < it->length) return 0;
    it->count = 0;
    EXPECT_STATUS(nrbpf_update_each(it->lane, it->calls, it->length, it->outcomes, NULL), NRBPF_OK);
    return it->outcomes[0].reply;
}

/* ---- A mutex round one session */

static pthread_mutex_t mutex = PTHREAD_MUTEX_INITIALIZER;

static void open_one(struct load load) {
    (void)load;
    open_shared((struct load){1, 1, 0, 0});
}

static void close_one(struct load load) {
    (void)load;
    close_shared((struct load){1, 1, 0, 0});
}

static uint64_t update_one(int thread, const uint8_t *argument) {
    (void)thread;
    pthread_mutex_lock(&mutex);
    uint64_t reply = update_shared(0, argument);
    pthread_mutex_unlock(&mutex);
    return reply;
}

static uint64_t read_one(int thread, const uint8_t *argument) {
    (void)thread;
    pthread_mutex_lock(&mutex);
    uint64_t reply = read_shared(0, argument);
    pthread_mutex_unlock(&mutex);
    return reply;
}

/* ---- A mutex round the interpreter of threaded.c */

static struct instruction code[programs][16];
static uint64_t counters[ENTRIES];
static struct array counted = {(uint8_t *)counters, ENTRIES};

/* The bytes of a program file, with the map's address where its number stands. */
static void load_code(struct instruction *into, const char *path) {
    char *text = text_of(path), *at = text;
    for (int i = 0; i < 16; i++) {
        uint8_t bytes[8];
        for (int k = 0; k < 8; k++) {
            unsigned byte;
            int read = 0;
            if (sscanf(at, " %2x%n", &byte, &read) != 1) break;
            bytes[k] = (uint8_t)byte;
            at += read;
        }
        memcpy(&into[i], bytes, 8);
        if (!*at || !at[1]) break;
    }
    free(text);
    for (int i = 0; i < 15; i++) {
        if (into[i].opcode != 0x18 || into[i].src != 5) continue;
        into[i].imm = (int32_t)(uint32_t)(uint64_t)&counted;
        into[i + 1].imm = (int32_t)((uint64_t)&counted >> 32);
    }
}

static void open_interpreter(struct load load) {
    (void)load;
    load_code(code[bump], BUMP);
    load_code(code[peek], PEEK);
    memset(counters, 0, sizeof counters);
}

static void close_interpreter(struct load load) { (void)load; }

static uint64_t interpreted(int program, const uint8_t *argument) {
    pthread_mutex_lock(&mutex);
    uint64_t reply = run(code[program], argument);
    pthread_mutex_unlock(&mutex);
    return reply;
}

static uint64_t update_interpreted(int thread, const uint8_t *argument) { return (void)thread, interpreted(bump, argument); }
static uint64_t read_interpreted(int thread, const uint8_t *argument) { return (void)thread, interpreted(peek, argument); }

static const struct kind kinds[] = {
    {"store", open_shared, update_shared, read_shared, close_shared},
    {"store, lists", open_listed, update_listed, NULL, close_listed},
    {"mutex, session", open_one, update_one, read_one, close_one},
    {"mutex, threaded", open_interpreter, update_interpreted, read_interpreted, close_interpreter},
};
enum { KINDS = sizeof kinds / sizeof *kinds };

/* ---- Rounds */

struct worker {
    pthread_t thread;
    const struct kind *kind;
    struct load load;
    int number;
    double from, to;
    uint64_t sum;
};

static pthread_barrier_t start;

static void *work(void *of) {
    struct worker *mine = of;
    struct load load = mine->load;
    uint64_t sum = 0; /* not in *mine, whose cache line another thread may have */
    pthread_barrier_wait(&start);
    mine->from = now();
    for (uint64_t i = 0; i < load.calls; i++) {
        const uint8_t argument[4] = {(uint8_t)(i % ENTRIES)};
        sum += i % 100 < load.reads ? mine->kind->read(mine->number, argument) : mine->kind->update(mine->number, argument);
    }
    mine->to = now();
    mine->sum = sum;
    return NULL;
}

/* How long the threads take, from when the first begins until the last is done. */
static double time_of(const struct kind *kind, struct load load) {
    struct worker all[MOST_THREADS];
    double from, to;
    kind->open(load);
    EXPECT(pthread_barrier_init(&start, NULL, (unsigned)load.threads) == 0);
    for (int i = 0; i < load.threads; i++) {
        all[i] = (struct worker){.kind = kind, .load = load, .number = i};
        EXPECT(pthread_create(&all[i].thread, NULL, work, &all[i]) == 0);
    }
    for (int i = 0; i < load.threads; i++) EXPECT(pthread_join(all[i].thread, NULL) == 0);
    pthread_barrier_destroy(&start);
    kind->close(load);
    from = all[0].from, to = all[0].to;
    for (int i = 1; i < load.threads; i++) {
        from = all[i].from < from ? all[i].from : from;
        to = all[i].to > to ? all[i].to : to;
    }
    return to - from;
}

/* Millions of calls a second of all threads, in one round. */
static double rate_of(const struct kind *kind, struct load load) {
    if (load.reads > 0 && !kind->read) return 0;
    load.calls = TRIAL;
    double longer = ROUND / time_of(kind, load);
    uint64_t updates = (uint64_t)load.threads * (100 - load.reads), most = updates ? 100 * (uint64_t)MOST_UPDATES / updates : UINT64_MAX;
    load.calls = (uint64_t)(TRIAL * (longer > 1 ? longer : 1));
    load.calls = load.calls < most ? load.calls : most;
    return (double)load.threads * (double)load.calls / time_of(kind, load) * 1e3;
}

static int is_above(const void *a, const void *b) {
    const double *x = a, *y = b;
    return (*x > *y) - (*x < *y);
}

/* Prints the median of some rounds, and their spread. */
static void print_spread(double *rates) {
    char text[32];
    qsort(rates, ROUNDS, sizeof *rates, is_above);
    const double median = rates[ROUNDS / 2], half = median > 0 ? 50 * (rates[ROUNDS - 1] - rates[0]) / median : 0;
    if (median > 0) snprintf(text, sizeof text, "%.2f +-%.0f%%", median, half);
    else snprintf(text, sizeof text, "-");
    printf("%18s", text);
}

/* Makes so many calls of one session or lane. */
static int make_calls(const char *call, long times) {
    const struct load alone = {1, 1, 0, 0};
    const int is_read = strcmp(call, "read") == 0, is_list = strcmp(call, "list") == 0;
    const struct kind *kind = &kinds[is_list ? 1 : 0];
    kind->open(alone);
    for (long i = 0; i < times; i++) {
        const uint8_t argument[4] = {(uint8_t)(i % ENTRIES)};
        if (is_read) kind->read(0, argument);
        else kind->update(0, argument);
    }
    kind->close(alone);
    return 0;
}

/* ---- How long each call takes */

enum { TIMED = 100000 };

static uint32_t took[MOST_THREADS * TIMED]; /* nanoseconds, of each thread in a part of its own */

static void *time_each(void *of) {
    struct worker *mine = of;
    uint32_t *next = &took[mine->number * TIMED], *end = next + TIMED;
    pthread_barrier_wait(&start);
    for (uint64_t i = 0; next < end; i++) {
        const uint8_t argument[4] = {(uint8_t)(i % ENTRIES)};
        const double from = now();
        mine->kind->update(mine->number, argument);
        *next = (uint32_t)(now() - from);
        next += mine->kind->update != update_listed || lists[mine->number].count == 0; /* an update that only joined its list is no call */
    }
    return NULL;
}

static int is_longer(const void *a, const void *b) {
    const uint32_t *x = a, *y = b;
    return (*x > *y) - (*x < *y);
}

/* Prints the microseconds that so many of a thousand calls take at most, while four threads update. */
static void print_waits(const struct kind *kind, struct load load) {
    const size_t of_1000[] = {500, 900, 990, 999}, count = (size_t)load.threads * TIMED;
    struct worker all[MOST_THREADS];
    kind->open(load);
    EXPECT(pthread_barrier_init(&start, NULL, (unsigned)load.threads) == 0);
    for (int i = 0; i < load.threads; i++) {
        all[i] = (struct worker){.kind = kind, .load = load, .number = i};
        EXPECT(pthread_create(&all[i].thread, NULL, time_each, &all[i]) == 0);
    }
    for (int i = 0; i < load.threads; i++) EXPECT(pthread_join(all[i].thread, NULL) == 0);
    pthread_barrier_destroy(&start);
    kind->close(load);
    qsort(took, count, sizeof *took, is_longer);
    printf("%-8d%-18s", load.nodes, kind->name);
    for (int i = 0; i < 4; i++) printf("%10.1f", took[count * of_1000[i] / 1000] / 1e3);
    printf("\n");
}

static int print_all_waits(void) {
    printf("Microseconds that a call takes at most, while four threads update: half of all calls, 90, 99 and 99.9 of 100\n");
    printf("%-8s%-18s%10s%10s%10s%10s\n", "nodes", "", "half", "90", "99", "99.9");
    for (int nodes = 1; nodes <= 2; nodes++) {
        for (int k = 0; k < KINDS; k++) print_waits(&kinds[k], (struct load){4, nodes, 0, 0});
    }
    return 0;
}

/* ---- One thread: an update singly, and by a list of sixteen, in turn */

static int print_one(void) {
    enum { TURNS_OF_EACH = 20 };
    double rates[2][TURNS_OF_EACH];
    for (int turn = 0; turn < TURNS_OF_EACH; turn++) {
        for (int k = 0; k < 2; k++) rates[k][turn] = rate_of(&kinds[k], (struct load){1, 1, 0, 0});
    }
    for (int k = 0; k < 2; k++) qsort(rates[k], TURNS_OF_EACH, sizeof *rates[k], is_above);
    printf("Nanoseconds of an update, of %d rounds: the quickest quarter, half\n", TURNS_OF_EACH);
    for (int k = 0; k < 2; k++) printf("%-18s%10.1f%10.1f\n", k ? "lists of 16" : "singly", 1e3 / rates[k][TURNS_OF_EACH * 3 / 4], 1e3 / rates[k][TURNS_OF_EACH / 2]);
    return 0;
}

int main(int count, char **words) {
    if (count == 3) return make_calls(words[1], strtol(words[2], NULL, 10));
    if (count == 2) return strcmp(words[1], "one") == 0 ? print_one() : print_all_waits();
    const int spreads[][2] = {{1, 1}, {2, 1}, {2, 2}, {4, 1}, {4, 2}};
    const uint64_t mixes[] = {0, 90, 100};
    printf("Millions of calls a second, the median of %d rounds\n%-8s%-8s%-8s", ROUNDS, "threads", "nodes", "reads");
    for (int k = 0; k < KINDS; k++) printf("%18s", kinds[k].name);
    printf("\n");
    for (int s = 0; s < 5; s++) {
        for (int m = 0; m < 3; m++) {
            struct load load = {spreads[s][0], spreads[s][1], mixes[m], 0};
            double rates[KINDS][ROUNDS];
            for (int round = 0; round < ROUNDS; round++) {
                for (int k = 0; k < KINDS; k++) rates[k][round] = rate_of(&kinds[k], load);
            }
            printf("%-8d%-8d%-8llu", load.threads, load.nodes, (unsigned long long)load.reads);
            for (int k = 0; k < KINDS; k++) print_spread(rates[k]);
            printf("\n");
            fflush(stdout);
        }
    }
    return 0;
}
