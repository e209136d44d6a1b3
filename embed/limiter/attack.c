// attack.c: somebody takes tokens for more and more new users, so that the map of buckets is full. Are others refused, and what does a take cost?
//
//     attack [TAKES]
//
// It makes so many takes of new users, 1,000,000 if nothing is said, and between them takes of 50 others, who ask for less than comes back to them. It fails
// if one of all these is refused. Then it times takes of users who have a bucket, and of users who have none, beside those of examples/c/rate_limiter, whose
// map makes no room. It runs in the top folder of the repository.
#include "../../examples/c/rate_limiter/rate_limiter.h"
#include "../nrbpf.h"
#include <inttypes.h>
#include <stdio.h>
#include <stdlib.h>
#include <string.h>
#include <time.h>

enum { OTHERS = 50, EVERY = 100, KNOWN = 50000, ROUNDS = 5 };

// A limiter of one thread: a bucket of 10 tokens for each user, one of which comes back in each unit of time.
typedef struct limiter {
    nrbpf_store *store;
    nrbpf_session *session;
    uint16_t take;
} limiter;

static void check(nrbpf_status status) {
    if (status == NRBPF_OK) return;
    fprintf(stderr, "attack: %s\n", nrbpf_status_text(status));
    exit(1);
}

static nrbpf_file file_of(const char *path) {
    FILE *file = fopen(path, "rb");
    char *text = malloc(65536);
    if (!file || !text) {
        perror(path);
        exit(1);
    }
    const size_t len = fread(text, 1, 65536, file);
    fclose(file);
    return (nrbpf_file){path, strlen(path), text, len};
}

// Opens a limiter on this manifest, with the programs of this folder.
static limiter opened(const char *manifest, size_t length, const char *take, const char *left) {
    const nrbpf_config config = NRBPF_CONFIG(1, 1);
    const nrbpf_file files[] = {file_of("examples/c/rate_limiter/configure.hex"), file_of(take), file_of(left)};
    const struct settings settings = {.burst = 10, .period = 1};
    limiter of;
    uint16_t configure;
    nrbpf_answer answer;
    check(nrbpf_open(&config, manifest, length, files, 3, &of.store, NULL));
    check(nrbpf_attach(of.store, 0, &of.session));
    check(nrbpf_program_number(of.store, "configure", 9, &configure));
    check(nrbpf_program_number(of.store, "take", 4, &of.take));
    check(nrbpf_update(of.session, configure, &settings, sizeof settings, &answer));
    for (int i = 0; i < 3; i++) free((char *)files[i].text);
    return of;
}

static void closed(limiter of) {
    check(nrbpf_detach(of.session));
    check(nrbpf_close(of.store));
}

// Whether a token of this user is granted.
static int is_granted(limiter of, uint64_t user, uint64_t now) {
    const struct take take = {.user = user, .now = now, .tokens = 1};
    nrbpf_answer answer;
    check(nrbpf_update(of.session, of.take, &take, sizeof take, &answer));
    return answer.reply == 1;
}

// So many takes of new users, and others between them. How many are refused.
static uint64_t attack(limiter of, uint64_t takes) {
    uint64_t refused = 0, now = 0;
    for (uint64_t i = 0; i < takes; i++) {
        refused += !is_granted(of, OTHERS + i, now);
        if (i % EVERY != 0) continue;
        refused += !is_granted(of, i / EVERY % OTHERS, now);
        now += i / EVERY % OTHERS == 0;
    }
    return refused;
}

// Nanoseconds of a take of each of so many users, the first of whom has this number.
static double take_of(limiter of, uint64_t first, uint64_t users) {
    struct timespec from, to;
    clock_gettime(CLOCK_MONOTONIC, &from);
    for (uint64_t i = 0; i < users; i++) is_granted(of, first + i, i);
    clock_gettime(CLOCK_MONOTONIC, &to);
    return ((double)(to.tv_sec - from.tv_sec) * 1e9 + (double)(to.tv_nsec - from.tv_nsec)) / (double)users;
}

// Takes of users who have none yet, and then the best of some rounds of their further takes.
static void measure(const char *name, limiter of) {
    const double fresh = take_of(of, 0, KNOWN);
    double known = 1e9;
    for (int i = 0; i < ROUNDS; i++) {
        const double once = take_of(of, 0, KNOWN);
        if (once < known) known = once;
    }
    printf("%s: a take of a user with a bucket %.0f ns, of one without %.0f ns\n", name, known, fresh);
    closed(of);
}

int main(int words, char **word) {
    static const char plain[] = "map array 8 1\nmap hash 8 16 65536\nprogram configure update 8 examples/c/rate_limiter/configure.hex\n"
                                "program take update 24 examples/c/rate_limiter/take.hex\nprogram left read 16 examples/c/rate_limiter/left.hex\n";
    const uint64_t takes = words > 1 ? strtoull(word[1], NULL, 10) : 1000000;
    const nrbpf_file own = file_of("embed/limiter/manifest");
    limiter of = opened(own.text, own.text_len, "embed/limiter/take.hex", "embed/limiter/left.hex");
    const uint64_t refused = attack(of, takes);
    printf("%" PRIu64 " takes of new users: %" PRIu64 " takes refused\n", takes, refused);
    printf("a take of a new user in the full map %.0f ns\n", take_of(of, UINT64_C(1) << 40, KNOWN));
    closed(of);
    measure("with room made", opened(own.text, own.text_len, "embed/limiter/take.hex", "embed/limiter/left.hex"));
    measure("without", opened(plain, sizeof plain - 1, "examples/c/rate_limiter/take.hex", "examples/c/rate_limiter/left.hex"));
    free((char *)own.text);
    return refused != 0;
}
