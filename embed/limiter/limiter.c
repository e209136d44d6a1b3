// limiter.c: a rate limiter over a Unix socket, a thread a client. Its operations are those of examples/c/rate_limiter: a bucket of tokens for each
// user, of which one comes back every PERIOD milliseconds. Programs have no clock, so the time is part of a call. There is always room for one more
// user: buckets.c.
//
//     limiter SOCKET BURST PERIOD [STATE [EVERY]]
//
// STATE is a file in which the buckets outlive the process: it is loaded at the start, where it is there, and written every EVERY milliseconds (10,000
// where nothing is said) and at the end, beside itself and then renamed.
//
// A client writes lines, and each is answered by one:
//     take USER TOKENS    1, and they are taken; 0 where there are fewer
//     left USER           how many there are
// and `bad` to any other. To a request `GET /metrics ..` of HTTP it answers a page in Prometheus' text form, and ends the connection:
//     curl --unix-socket SOCKET http://limiter/metrics
// It runs in the top folder of the repository until SIGINT or SIGTERM, and then prints what it did.
#include "../../examples/c/rate_limiter/rate_limiter.h"
#include "../nrbpf.h"
#include "input.h"
#include <errno.h>
#include <inttypes.h>
#include <pthread.h>
#include <sched.h>
#include <signal.h>
#include <stdatomic.h>
#include <stdio.h>
#include <stdlib.h>
#include <string.h>
#include <sys/socket.h>
#include <sys/un.h>
#include <time.h>
#include <unistd.h>

enum { NODES = 2, SLOTS = 16, MOST_CLIENTS = NODES * SLOTS, KEEPER = NODES, MOST_PATH = 400 };
enum { PROGRAMS = 3, BUCKETS = 1, MOMENT = 100, LANE = 8 };

static struct settings settings;                // the arguments of the programs are those of rate_limiter.h
static const char *state_path;
static uint32_t every = 10000;

static nrbpf_store *store;
static uint16_t take_number, left_number;

static _Noreturn void fail(const char *what) {
    perror(what);
    exit(1);
}

static void check(nrbpf_status status) {
    if (status == NRBPF_OK) return;
    fprintf(stderr, "limiter: %s\n", nrbpf_status_text(status));
    exit(1);
}

// Milliseconds of the clock on the wall: what a state says must mean the same in the next process.
static uint64_t now(void) {
    struct timespec t;
    clock_gettime(CLOCK_REALTIME, &t);
    return (uint64_t)t.tv_sec * 1000 + (uint64_t)t.tv_nsec / 1000000;
}

// ---- The store, on the state of the file or on a new one

static nrbpf_file file_of(const char *path) {
    FILE *file = fopen(path, "rb");
    size_t len = 0, room = 4096;
    char *text = malloc(room);
    if (!file || !text) fail(path);
    for (size_t more; (more = fread(text + len, 1, room - len, file)) > 0;) {
        len += more;
        if (len == room && !(text = realloc(text, room *= 2))) fail(path);
    }
    if (ferror(file)) fail(path);
    fclose(file);
    return (nrbpf_file){path, strlen(path), text, len};
}

static void complain(const char *of, const nrbpf_error *why) {
    char text[300];
    nrbpf_error_text(why, text, sizeof text);
    fprintf(stderr, "limiter: %s: %s\n", of, text);
    exit(1);
}

static int is_there(const char *path) { return access(path, F_OK) == 0 || errno != ENOENT; }

static void open_store(void) {
    const nrbpf_config config = NRBPF_CONFIG(NODES + 1, SLOTS);
    nrbpf_file manifest = file_of("embed/limiter/manifest"), text = {"embed/limiter/manifest", 0, NULL, 0};
    nrbpf_file files[PROGRAMS] = {file_of("examples/c/rate_limiter/configure.hex"), file_of("embed/limiter/take.hex"), file_of("embed/limiter/left.hex")};
    nrbpf_state *state;
    nrbpf_error why;
    if (state_path && is_there(state_path)) text = file_of(state_path);
    if (nrbpf_state_load(&config, manifest.text, manifest.text_len, files, PROGRAMS, text.text, text.text_len, &state, &why)) complain(text.name, &why);
    if (nrbpf_open_on(&config, manifest.text, manifest.text_len, files, PROGRAMS, state, &store, &why)) complain("the store", &why);
    nrbpf_state_free(state);
    for (int i = 0; i < PROGRAMS; i++) free((char *)files[i].text);
    free((char *)manifest.text);
    free((char *)text.text);
}

static void configure(void) {
    uint16_t configure;
    nrbpf_session *session;
    nrbpf_answer answer;
    check(nrbpf_program_number(store, "configure", 9, &configure));
    check(nrbpf_program_number(store, "take", 4, &take_number));
    check(nrbpf_program_number(store, "left", 4, &left_number));
    check(nrbpf_attach(store, 0, &session));
    check(nrbpf_update(session, configure, &settings, sizeof settings, &answer));
    if (answer.reply != 0) {
        fprintf(stderr, "limiter: BURST and PERIOD are at least 1\n");
        exit(1);
    }
    check(nrbpf_detach(session));
}

// ---- The keeper: a session of a node that has no client, so that nobody waits for its copies

typedef struct keeper {
    pthread_t thread;
    nrbpf_session *session;
    nrbpf_state *state;
    uint64_t written;
} keeper;

static atomic_int stopped;

static int write_part(void *to, const char *bytes, size_t len) { return fwrite(bytes, 1, len, to) != len; }

// Puts the state into the file, or leaves that as it is.
static int put(const nrbpf_state *state) {
    char part[MOST_PATH + 10];
    snprintf(part, sizeof part, "%s.part", state_path);
    FILE *out = fopen(part, "wb");
    if (!out) return 0;
    int is_written = nrbpf_state_dump(state, write_part, out) == NRBPF_OK && fflush(out) == 0 && fsync(fileno(out)) == 0;
    if (fclose(out) != 0) is_written = 0;
    return is_written && rename(part, state_path) == 0;
}

static void keep(keeper *of) {
    uint64_t point;
    if (!state_path) return;
    check(nrbpf_snapshot(of->session, of->state, &point));
    if (put(of->state)) of->written++;
    else perror(state_path);
}

static void *keep_up(void *at) {
    const struct timespec moment = {0, MOMENT * 1000000};
    keeper *of = at;
    uint64_t point, due = now() + every;
    while (!stopped) {
        nanosleep(&moment, NULL);
        check(nrbpf_read_each(of->session, NULL, 0, NULL, &point, NULL)); // so that its node stays near
        if (now() < due) continue;
        keep(of);
        due = now() + every;
    }
    return NULL;
}

static void begin_keeping(keeper *of) {
    check(nrbpf_attach(store, KEEPER, &of->session));
    check(nrbpf_state_new(store, &of->state));
    if (pthread_create(&of->thread, NULL, keep_up, of)) fail("limiter");
}

// Behind the last client.
static void end_keeping(keeper *of) {
    stopped = 1;
    pthread_join(of->thread, NULL);
    keep(of);
    check(nrbpf_detach(of->session));
    nrbpf_state_free(of->state);
}

// ---- A client

typedef struct client {
    int socket;
    uint32_t node;
    nrbpf_session *session;
    uint64_t lines, granted;
    struct client *next;
} client;

// The lock is of all that is static below it.
static pthread_mutex_t lock = PTHREAD_MUTEX_INITIALIZER;
static pthread_cond_t left_one = PTHREAD_COND_INITIALIZER;
static struct { uint64_t clients, turned_away, lines, granted, waits; } figures;
static client *clients;
static int count;                               // of them

static int is_take(const char *line, struct take *take) {
    char end;
    return sscanf(line, "take %" SCNu64 " %" SCNu64 "%c", &take->user, &take->tokens, &end) == 3 && end == '\n';
}

// Makes the call that a line says: S1 where it says none.
static nrbpf_status call(const client *of, const char *line, nrbpf_answer *answer) {
    struct take take = {.now = now()};
    struct left left = {.now = take.now};
    char end;
    if (is_take(line, &take)) return nrbpf_update(of->session, take_number, &take, sizeof take, answer);
    if (sscanf(line, "left %" SCNu64 "%c", &left.user, &end) == 2 && end == '\n')
        return nrbpf_read(of->session, left_number, &left, sizeof left, answer);
    return NRBPF_UNKNOWN_PROGRAM;
}

// ---- A page of figures (Prometheus' text-based format, version 0.0.4)

static void put_figure(FILE *out, const char *name, const char *kind, const char *help, uint64_t value) {
    fprintf(out, "# HELP %s %s\n# TYPE %s %s\n%s %" PRIu64 "\n", name, help, name, kind, name, value);
}

// What the store says of its maps, each with its number as a label.
static void put_maps(FILE *out, nrbpf_session *session) {
    nrbpf_store_facts facts;
    nrbpf_map_facts map[16];
    check(nrbpf_store_info(store, &facts, sizeof facts));
    for (uint32_t m = 0; m < facts.maps; m++) check(nrbpf_map_info(session, m, &map[m], sizeof map[m]));
    put_figure(out, "limiter_updates_total", "counter", "Updates of the store.", map[BUCKETS].point);
    fputs("# HELP limiter_map_keys Keys of a map.\n# TYPE limiter_map_keys gauge\n", out);
    for (uint32_t m = 0; m < facts.maps; m++) fprintf(out, "limiter_map_keys{map=\"%" PRIu32 "\"} %" PRIu64 "\n", m, map[m].keys);
    fputs("# HELP limiter_map_entries Keys that a map has room for.\n# TYPE limiter_map_entries gauge\n", out);
    for (uint32_t m = 0; m < facts.maps; m++) fprintf(out, "limiter_map_entries{map=\"%" PRIu32 "\"} %" PRIu64 "\n", m, map[m].entries);
}

// What the store says of what it has done. A session tells of its own node alone, so a session of each is asked: a node whose sessions are all attached has no
// line. Under the lock, so that no client is turned away meanwhile.
static void put_stats(FILE *out) {
    nrbpf_store_facts facts;
    nrbpf_counts of[NODES + 1] = {0}, any = {0};
    int is_told[NODES + 1] = {0};
    check(nrbpf_store_info(store, &facts, sizeof facts));
    for (uint32_t node = 0; node <= NODES; node++) {
        nrbpf_session *session;
        if (nrbpf_attach(store, node, &session)) continue;
        check(nrbpf_stats(session, &of[node], sizeof of[node]));
        check(nrbpf_detach(session));
        is_told[node] = 1;
        any = of[node];
    }
    put_figure(out, "limiter_completed_total", "counter", "Updates that are completed.", any.completed);
    put_figure(out, "limiter_log_kept", "gauge", "Updates that the log keeps.", any.kept);
    put_figure(out, "limiter_log_window", "gauge", "Updates that the log keeps at most.", facts.window);
    fputs("# HELP limiter_node_tail Updates that a node has applied.\n# TYPE limiter_node_tail counter\n", out);
    for (int n = 0; n <= NODES; n++)
        if (is_told[n]) fprintf(out, "limiter_node_tail{node=\"%d\"} %" PRIu64 "\n", n, of[n].tail);
    fputs("# HELP limiter_node_lag Completed updates that a node has still to apply.\n# TYPE limiter_node_lag gauge\n", out);
    for (int n = 0; n <= NODES; n++)
        if (is_told[n]) fprintf(out, "limiter_node_lag{node=\"%d\"} %" PRIu64 "\n", n, of[n].lag);
}

// Reads the rest of the request, up to an empty line, and answers it.
static void put_page(const client *of, input *in, FILE *out) {
    char line[MOST_LINE];
    while (take_line(in, line, 1) && strcmp(line, "\r\n") && strcmp(line, "\n")) {}
    pthread_mutex_lock(&lock);
    const uint64_t here = (uint64_t)count, all = figures.clients, away = figures.turned_away, waits = figures.waits;
    fputs("HTTP/1.0 200 OK\r\nContent-Type: text/plain; version=0.0.4\r\n\r\n", out);
    put_stats(out);
    pthread_mutex_unlock(&lock);
    put_figure(out, "limiter_clients", "gauge", "Clients that are connected.", here);
    put_figure(out, "limiter_clients_total", "counter", "Clients that got a session.", all);
    put_figure(out, "limiter_turned_away_total", "counter", "Clients that got none.", away);
    put_figure(out, "limiter_waits_total", "counter", "Calls of clients that have left which waited for another client.", waits);
    put_maps(out, of->session);
    fflush(out);
}

static void put_answer(client *of, uint64_t reply, int is_token, FILE *out) {
    fprintf(out, "%" PRId64 "\n", (int64_t)reply);
    of->lines++;
    of->granted += is_token && reply == 1;
}

static void answer_line(client *of, const char *line, FILE *out) {
    nrbpf_answer answer;
    if (call(of, line, &answer) == NRBPF_OK) {
        put_answer(of, answer.reply, line[0] == 't', out);
        return;
    }
    fputs("bad\n", out);
    of->lines++;
}

// Takes these by one list, if the client's node has as many free slots.
static int take_each(client *of, const struct take *takes, uint32_t count, FILE *out) {
    nrbpf_question calls[LANE];
    nrbpf_outcome outcomes[LANE];
    nrbpf_lane *lane;
    if (nrbpf_attach_lane(store, of->node, count, &lane)) return 0;
    for (uint32_t i = 0; i < count; i++) calls[i] = (nrbpf_question){&takes[i], sizeof takes[i], take_number};
    check(nrbpf_update_each(lane, calls, count, outcomes, NULL));
    check(nrbpf_detach_lane(lane));
    for (uint32_t i = 0; i < count; i++) put_answer(of, outcomes[i].reply, 1, out);
    return 1;
}

// Answers lines that are here together: takes that follow each other by a list.
static void answer_each(client *of, char (*lines)[MOST_LINE], uint32_t count, FILE *out) {
    struct take takes[LANE];
    const uint64_t at = now();
    for (uint32_t i = 0; i < count;) {
        uint32_t n = 0;
        while (i + n < count && is_take(lines[i + n], &takes[n])) takes[n++].now = at;
        if (n > 1 && take_each(of, takes, n, out)) i += n;
        else answer_line(of, lines[i++], out);
    }
}

// Answers its lines until it goes away.
static void serve(client *of, input *in, FILE *out) {
    char lines[LANE][MOST_LINE];
    while (take_line(in, lines[0], 1)) {
        uint32_t count = 1;
        if (strncmp(lines[0], "GET /metrics ", 13) == 0) {
            put_page(of, in, out);
            return;
        }
        while (count < LANE && take_line(in, lines[count], 0)) count++;
        answer_each(of, lines, count, out);
        if (fflush(out)) return;
    }
}

static void *work(void *at) {
    client *of = at, **place = &clients;
    nrbpf_counts counts;
    input in = {.socket = of->socket};
    FILE *out = fdopen(of->socket, "w");
    if (!out) fail("limiter");
    serve(of, &in, out);
    pthread_mutex_lock(&lock);
    check(nrbpf_stats(of->session, &counts, sizeof counts));
    check(nrbpf_detach(of->session));
    while (*place != of) place = &(*place)->next;
    *place = of->next;
    fclose(out);                                // under the lock, so that `stop` shuts no socket down that is another's by now
    figures.lines += of->lines;
    figures.granted += of->granted;
    figures.waits += counts.waits;
    count--;
    pthread_cond_signal(&left_one);
    pthread_mutex_unlock(&lock);
    free(of);
    return NULL;
}

// Under the lock. Whether there is a session for it, of one node or the other. A list may have the free slots for a moment.
static int joins(client *of, int socket) {
    if (count == MOST_CLIENTS) return 0;
    of->node = (uint32_t)count % NODES;
    while (nrbpf_attach(store, of->node, &of->session)) {
        sched_yield();
        of->node = 1 - of->node;
    }
    of->socket = socket;
    of->next = clients;
    clients = of;
    count++;
    return 1;
}

// Gives a client a session and a thread, or turns it away.
static void welcome(int socket) {
    pthread_t thread;
    client *of = calloc(1, sizeof *of);
    pthread_mutex_lock(&lock);
    int is_in = of && joins(of, socket);
    figures.clients += is_in ? 1 : 0;
    figures.turned_away += is_in ? 0 : 1;
    pthread_mutex_unlock(&lock);
    if (!is_in) {
        close(socket);
        free(of);
        return;
    }
    if (pthread_create(&thread, NULL, work, of)) fail("limiter");
    pthread_detach(thread);
}

// ---- The service

static void *welcome_all(void *listener) {
    for (int socket; (socket = accept(*(int *)listener, NULL, NULL)) >= 0;) welcome(socket);
    return NULL;
}

static int listen_at(const char *path) {
    struct sockaddr_un at = {.sun_family = AF_UNIX};
    int listener = socket(AF_UNIX, SOCK_STREAM, 0);
    if (listener < 0 || strlen(path) >= sizeof at.sun_path) fail(path);
    strcpy(at.sun_path, path);
    unlink(path);
    if (bind(listener, (struct sockaddr *)&at, sizeof at) || listen(listener, MOST_CLIENTS)) fail(path);
    return listener;
}

// Sends the clients away, and waits until they are.
static void stop(void) {
    pthread_mutex_lock(&lock);
    for (client *of = clients; of; of = of->next) shutdown(of->socket, SHUT_RDWR);
    while (count) pthread_cond_wait(&left_one, &lock);
    pthread_mutex_unlock(&lock);
}

static int is_number(const char *word, uint32_t *number) {
    char end;
    return sscanf(word, "%" SCNu32 "%c", number, &end) == 1;
}

// What the command line says.
static int is_told(int words, char **word) {
    if (words < 4 || words > 6 || !is_number(word[2], &settings.burst) || !is_number(word[3], &settings.period)) return 0;
    if (words > 4) state_path = word[4];
    if (words > 5 && (!is_number(word[5], &every) || every == 0)) return 0;
    return !state_path || strlen(state_path) <= MOST_PATH;
}

int main(int words, char **word) {
    sigset_t ends;
    int which;
    pthread_t thread;
    keeper kept = {.session = NULL};
    if (!is_told(words, word)) {
        fprintf(stderr, "limiter SOCKET BURST PERIOD [STATE [EVERY]]\n");
        return 2;
    }
    open_store();
    configure();
    int listener = listen_at(word[1]);
    sigemptyset(&ends);
    sigaddset(&ends, SIGINT);
    sigaddset(&ends, SIGTERM);
    signal(SIGPIPE, SIG_IGN);
    pthread_sigmask(SIG_BLOCK, &ends, NULL);    // in the threads too, which begin below
    begin_keeping(&kept);
    if (pthread_create(&thread, NULL, welcome_all, &listener)) fail("limiter");
    printf("limiter: ready\n");
    fflush(stdout);
    sigwait(&ends, &which);
    shutdown(listener, SHUT_RDWR);
    pthread_join(thread, NULL);
    stop();
    end_keeping(&kept);
    check(nrbpf_close(store));
    close(listener);
    unlink(word[1]);
    printf("limiter: %" PRIu64 " clients, %" PRIu64 " turned away; %" PRIu64 " lines, %" PRIu64 " times tokens granted; ", figures.clients,
           figures.turned_away, figures.lines, figures.granted);
    printf("the state written %" PRIu64 " times\n", kept.written);
    return 0;
}
