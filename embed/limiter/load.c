// load.c: clients of limiter.c, a thread each, which take a token as often as they can; and whether the limit was kept.
//
//     load SOCKET CLIENTS CALLS USERS BURST PERIOD [AT_ONCE]
//     load SOCKET LINE
//
// The first prints how many calls a second were answered, and how long they took; the second the answer to one line. AT_ONCE is how many lines a client sends
// before it reads their answers, 1 if it isn't there.
#include <pthread.h>
#include <signal.h>
#include <stdio.h>
#include <stdlib.h>
#include <string.h>
#include <sys/socket.h>
#include <sys/un.h>
#include <time.h>
#include <unistd.h>

static struct { const char *socket; int clients, calls, users, burst, period, at_once; } load;
static pthread_barrier_t start;

typedef struct client {
    pthread_t thread;
    double *took;                               // nanoseconds of each call
    double from, to;
    long *granted;                              // of each user
} client;

static _Noreturn void fail(const char *what) {
    perror(what);
    exit(1);
}

static double now(void) {
    struct timespec t;
    clock_gettime(CLOCK_MONOTONIC, &t);
    return (double)t.tv_sec * 1e9 + (double)t.tv_nsec;
}

static int connected(void) {
    struct sockaddr_un at = {.sun_family = AF_UNIX};
    int socket_ = socket(AF_UNIX, SOCK_STREAM, 0);
    if (socket_ < 0 || strlen(load.socket) >= sizeof at.sun_path) fail(load.socket);
    strcpy(at.sun_path, load.socket);
    if (connect(socket_, (struct sockaddr *)&at, sizeof at)) fail(load.socket);
    return socket_;
}

// Reads the answer of a call. Whether a token was granted.
static int is_granted(FILE *in) {
    char line[80];
    if (!fgets(line, sizeof line, in)) fail("load: the limiter is gone");
    if (strcmp(line, "1\n") && strcmp(line, "0\n")) {
        fprintf(stderr, "load: the limiter answers %s", line);
        exit(1);
    }
    return line[0] == '1';
}

static void *work(void *of) {
    client *mine = of;
    int socket_ = connected();
    FILE *in = fdopen(socket_, "r"), *out = fdopen(dup(socket_), "w");
    if (!in || !out) fail("load");
    pthread_barrier_wait(&start);
    mine->from = now();
    for (int i = 0, end = 0; i < load.calls;) {
        double began = now();
        for (; end < load.calls && end < i + load.at_once; end++) fprintf(out, "take %d 1\n", end % load.users);
        if (fflush(out)) fail("load: the limiter is gone");
        for (; i < end; i++) {
            mine->granted[i % load.users] += is_granted(in);
            mine->took[i] = now() - began;
        }
    }
    mine->to = now();
    fclose(in);
    fclose(out);
    return NULL;
}

static int by_size(const void *a, const void *b) {
    double x = *(const double *)a, y = *(const double *)b;
    return (x > y) - (x < y);
}

// No user was granted more than the burst and what came back meanwhile, and none less than the burst where that many were asked for.
static int is_kept(const client *all, double milliseconds) {
    for (int user = 0; user < load.users; user++) {
        long granted = 0, asked = (long)load.clients * (load.calls / load.users);
        for (int i = 0; i < load.clients; i++) granted += all[i].granted[user];
        if (granted > load.burst + (long)(milliseconds / load.period) + 1 || (granted < load.burst && granted < asked)) {
            fprintf(stderr, "load: user %d was granted %ld\n", user, granted);
            return 0;
        }
    }
    return 1;
}

static int ask(const char *said) {
    int socket_ = connected();
    FILE *in = fdopen(socket_, "r"), *out = fdopen(dup(socket_), "w");
    char line[80];
    if (!in || !out || fprintf(out, "%s\n", said) < 0 || fflush(out) || !fgets(line, sizeof line, in)) fail("load");
    fputs(line, stdout);
    fclose(in);
    fclose(out);
    return 0;
}

int main(int words, char **word) {
    if (words != 7 && words != 8 && words != 3) {
        fprintf(stderr, "load SOCKET CLIENTS CALLS USERS BURST PERIOD [AT_ONCE]\nload SOCKET LINE\n");
        return 2;
    }
    load.socket = word[1];
    if (words == 3) return ask(word[2]);
    load.clients = atoi(word[2]), load.calls = atoi(word[3]);
    load.users = atoi(word[4]), load.burst = atoi(word[5]), load.period = atoi(word[6]);
    load.at_once = words == 8 ? atoi(word[7]) : 1;
    if (load.clients < 1 || load.calls < 1 || load.users < 1 || load.period < 1 || load.at_once < 1) return 2;
    signal(SIGPIPE, SIG_IGN);
    size_t all_calls = (size_t)load.clients * (size_t)load.calls;
    client *all = calloc((size_t)load.clients, sizeof *all);
    double *took = calloc(all_calls, sizeof *took), from, to;
    long *granted = calloc((size_t)load.clients * (size_t)load.users, sizeof *granted);
    if (!all || !took || !granted || pthread_barrier_init(&start, NULL, (unsigned)load.clients)) fail("load");
    for (int i = 0; i < load.clients; i++) {
        all[i].took = took + (size_t)i * (size_t)load.calls;
        all[i].granted = granted + (size_t)i * (size_t)load.users;
        if (pthread_create(&all[i].thread, NULL, work, &all[i])) fail("load");
    }
    for (int i = 0; i < load.clients; i++) pthread_join(all[i].thread, NULL);
    from = all[0].from, to = all[0].to;
    for (int i = 1; i < load.clients; i++) {
        from = all[i].from < from ? all[i].from : from;
        to = all[i].to > to ? all[i].to : to;
    }
    int kept = is_kept(all, (to - from) / 1e6);
    qsort(took, all_calls, sizeof *took, by_size);
    printf("load: %d clients, %.0f calls a second; a call takes %.1f us, 99 of 100 at most %.1f, the longest %.1f; ", load.clients,
           (double)all_calls / (to - from) * 1e9, took[all_calls / 2] / 1e3, took[all_calls / 100 * 99] / 1e3, took[all_calls - 1] / 1e3);
    printf("the limit of %d users %s kept\n", load.users, kept ? "is" : "is NOT");
    free(all), free(took), free(granted);
    return !kept;
}
