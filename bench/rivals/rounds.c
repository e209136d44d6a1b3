/* Makes the calls of one round and prints how many, in how many nanoseconds, and a sum over their replies. Its words:

       HOST SERVICE THREADS READS IN_FLIGHT MILLISECONDS MOST

   SERVICE is counter, limiter or leaderboard; READS of 100 calls are reads; a thread has at most IN_FLIGHT calls out at once, and stops after
   so many milliseconds or MOST calls. A thread's calls are the same in every host and every round. First 2,000 updates are made, which don't
   count, so that there is something to read; then all threads begin at once, behind a barrier. `HOST fault FAULT` tries a fault instead. It
   runs in the top folder. */

#include "rounds.h"
#include <pthread.h>
#include <string.h>
#include <time.h>

enum { COUNTERS = 16, USERS = 1000, PLACES = 5, PREPARED = 2000, MOST_FILE = 65536, BETWEEN_LOOKS = 64 };

static const struct service services[] = {
    {"counter", "examples/counter/manifest", {"bump", "peek"}, {1, 1}, {4, 4}},
    {"limiter", "bench/rivals/limiter.manifest", {"take", "left"}, {3, 2}, {24, 16}},
    {"leaderboard", "examples/c/leaderboard/manifest", {"submit", "score_at"}, {2, 1}, {16, 8}},
};
enum { COUNTER, LIMITER, LEADERBOARD, SERVICES };

struct load {
    int service, threads, reads, in_flight;
    double time;
    uint64_t most;
};

struct caller {
    pthread_t thread;
    int number;
    struct load load;
    uint64_t random, made, sum;
    double from, to;
    struct call calls[MOST_IN_FLIGHT];
    int64_t replies[MOST_IN_FLIGHT];
};

static const uint64_t RANDOM = 88172645463325252u;

static pthread_barrier_t start;

double now(void) {
    struct timespec t;
    clock_gettime(CLOCK_MONOTONIC, &t);
    return (double)t.tv_sec * 1e9 + (double)t.tv_nsec;
}

char *text_of(const char *path) {
    FILE *file = fopen(path, "rb");
    char *text = malloc(MOST_FILE + 1);
    if (!file || !text) fail(path);
    size_t size = fread(text, 1, MOST_FILE, file);
    text[size] = 0;
    fclose(file);
    return text;
}

static uint64_t drawn(struct caller *it) {
    it->random ^= it->random << 13;
    it->random ^= it->random >> 7;
    it->random ^= it->random << 17;
    return it->random >> 16;
}

/* The next call of a thread. 37 is prime to 100, so reads and updates are mixed. Scores of two players differ, so that no two tie. */
static struct call next_call(struct caller *it) {
    uint64_t k = it->made++, one = drawn(it), user = one % USERS + 1, more = one / USERS;
    int operation = k * 37 % 100 < (uint64_t)it->load.reads ? READ : UPDATE;
    switch (it->load.service) {
        case COUNTER: return (struct call){operation, {one % COUNTERS}};
        case LIMITER: return (struct call){operation, {user, k / 4, more % 3 + 1}};
        default: break;
    }
    if (operation == READ) return (struct call){READ, {one % PLACES + 1}};
    return (struct call){UPDATE, {user, more % 1000000 * 1024 + user}};
}

/* Makes as many calls as may be in flight. */
static void make_some(struct caller *mine) {
    const int count = mine->load.in_flight;
    for (int i = 0; i < count; i++) mine->calls[i] = next_call(mine);
    rival_make(mine->number, mine->calls, count, mine->replies);
    for (int i = 0; i < count; i++) mine->sum = mine->sum * 31 + (uint64_t)mine->replies[i];
}

static void prepare(struct load load) {
    struct caller first = {.load = load, .random = RANDOM};
    first.load.reads = 0;
    while (first.made < PREPARED) make_some(&first);
}

static void *work(void *of) {
    struct caller mine = *(struct caller *)of; /* not in *of, whose cache line another thread may have */
    const uint64_t most = mine.made + mine.load.most - (uint64_t)mine.load.in_flight;
    const uint64_t between = mine.load.in_flight > 1 ? 1 : BETWEEN_LOOKS;
    pthread_barrier_wait(&start);
    mine.from = now();
    for (uint64_t round = 0; mine.made <= most; round++) {
        if (round % between == 0 && now() - mine.from >= mine.load.time) break;
        make_some(&mine);
    }
    mine.to = now();
    *(struct caller *)of = mine;
    return NULL;
}

static void run(struct load load) {
    struct caller all[MOST_THREADS];
    uint64_t made = 0, sum = 0;
    rival_open(&services[load.service], load.threads, load.in_flight);
    prepare(load);
    pthread_barrier_init(&start, NULL, (unsigned)load.threads);
    for (int i = 0; i < load.threads; i++) {
        all[i] = (struct caller){.number = i, .load = load, .random = RANDOM + 977 * (uint64_t)(i + 1), .made = PREPARED};
        if (pthread_create(&all[i].thread, NULL, work, &all[i])) fail("no thread");
    }
    for (int i = 0; i < load.threads; i++) pthread_join(all[i].thread, NULL);
    rival_close();
    double from = all[0].from, to = all[0].to;
    for (int i = 0; i < load.threads; i++) {
        from = all[i].from < from ? all[i].from : from;
        to = all[i].to > to ? all[i].to : to;
        made += all[i].made - PREPARED;
        sum += all[i].sum;
    }
    printf("%llu %.0f %llu\n", (unsigned long long)made, to - from, (unsigned long long)sum);
}

static int number_of(const char *word, int least, int most) {
    char *end;
    long number = strtol(word, &end, 10);
    if (*end || number < least || number > most) fail(word);
    return (int)number;
}

int main(int count, char **words) {
    if (count == 3 && strcmp(words[1], "fault") == 0) {
        rival_fault(words[2]);
        return 0;
    }
    if (count != 7) fail("SERVICE THREADS READS IN_FLIGHT MILLISECONDS MOST, or fault FAULT");
    struct load load = {0, number_of(words[2], 1, MOST_THREADS), number_of(words[3], 0, 100), number_of(words[4], 1, MOST_IN_FLIGHT),
                        number_of(words[5], 1, 60000) * 1e6, (uint64_t)number_of(words[6], 1, 1000000000)};
    while (load.service < SERVICES && strcmp(services[load.service].name, words[1])) load.service++;
    if (load.service == SERVICES) fail(words[1]);
    run(load);
    return 0;
}
