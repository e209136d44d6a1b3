/* Scripts in Redis, over a Unix socket: a connection a thread, which sends its calls in one write and then reads the replies. */

#include "rounds.h"
#include <errno.h>
#include <poll.h>
#include <string.h>
#include <sys/socket.h>
#include <sys/un.h>
#include <unistd.h>

enum { SHA_SIZE = 40, MOST_COMMAND = 256, MOST_SCRIPT = 4096, MOST_WORDS = 4 + MOST_VALUES, MOST_WORD = 32 };

static const struct service *served;
static int is_keyed; /* the first value names the key: a counter or a bucket, where there is one leaderboard */
static char shas[OPERATIONS][SHA_SIZE + 1];

struct connection {
    int socket;
    size_t sent_size;
    char sent[MOST_IN_FLIGHT * MOST_COMMAND + MOST_SCRIPT], got[MOST_SCRIPT];
};
static struct connection connections[MOST_THREADS];

static int connected(void) {
    const char *path = getenv("REDIS_SOCKET");
    struct sockaddr_un at = {.sun_family = AF_UNIX};
    int it = socket(AF_UNIX, SOCK_STREAM, 0);
    if (!path || strlen(path) >= sizeof at.sun_path) fail("REDIS_SOCKET has no path of a socket");
    strcpy(at.sun_path, path);
    if (it < 0 || connect(it, (struct sockaddr *)&at, sizeof at)) fail("Redis is not there");
    return it;
}

/* Puts a command of so many words behind those that are to be sent. */
static void add(struct connection *to, int count, const char *const *words) {
    char *at = to->sent + to->sent_size;
    at += sprintf(at, "*%d\r\n", count);
    for (int i = 0; i < count; i++) at += sprintf(at, "$%zu\r\n%s\r\n", strlen(words[i]), words[i]);
    to->sent_size = (size_t)(at - to->sent);
}

static void send_all(struct connection *to) {
    const char *from = to->sent;
    while (to->sent_size) {
        ssize_t written = write(to->socket, from, to->sent_size);
        if (written < 0 && errno == EINTR) continue;
        if (written < 0) fail("Redis takes no more commands");
        from += written, to->sent_size -= (size_t)written;
    }
}

/* Reads so many lines into `got`, behind which stands a zero. */
static void receive(struct connection *from, int count) {
    size_t size = 0;
    while (count > 0) {
        ssize_t more = read(from->socket, from->got + size, sizeof from->got - 1 - size);
        if (more < 0 && errno == EINTR) continue;
        if (more <= 0) fail("Redis answers no more");
        for (ssize_t i = 0; i < more; i++) count -= from->got[size + (size_t)i] == '\n';
        size += (size_t)more;
    }
    from->got[size] = 0;
}

static void add_call(struct connection *to, const struct call *call) {
    char numbers[MOST_VALUES][MOST_WORD], key[MOST_WORD];
    const char *words[MOST_WORDS] = {"EVALSHA", shas[call->operation], "1", key};
    int count = 4;
    if (is_keyed) snprintf(key, sizeof key, "%.10s:%llu", served->name, (unsigned long long)call->values[0]);
    else snprintf(key, sizeof key, "%.10s", served->name);
    for (int i = is_keyed; i < served->values[call->operation]; i++) {
        snprintf(numbers[i], MOST_WORD, "%llu", (unsigned long long)call->values[i]);
        words[count++] = numbers[i];
    }
    add(to, count, words);
}

void rival_make(int thread, const struct call *calls, int count, int64_t *replies) {
    struct connection *mine = &connections[thread];
    for (int i = 0; i < count; i++) add_call(mine, &calls[i]);
    send_all(mine);
    receive(mine, count);
    const char *at = mine->got;
    for (int i = 0; i < count; i++) {
        if (*at != ':') fail(at);
        replies[i] = (int64_t)strtoll(at + 1, NULL, 10);
        at = strchr(at, '\n') + 1;
    }
}

/* Makes a command, and leaves its answer of so many lines in `got`. */
static const char *asked(struct connection *of, int lines, int count, const char *const *words) {
    add(of, count, words);
    send_all(of);
    receive(of, lines);
    return of->got;
}

void rival_open(const struct service *service, int threads, int in_flight) {
    (void)in_flight;
    served = service;
    is_keyed = strcmp(service->name, "leaderboard") != 0;
    for (int i = 0; i < threads; i++) connections[i].socket = connected();
    if (asked(&connections[0], 1, 1, (const char *[]){"FLUSHALL"})[0] != '+') fail(connections[0].got);
    for (int i = 0; i < OPERATIONS; i++) {
        char path[80];
        snprintf(path, sizeof path, "bench/rivals/redis/%s.lua", service->operations[i]);
        char *script = text_of(path);
        const char *sha = asked(&connections[0], 2, 3, (const char *[]){"SCRIPT", "LOAD", script});
        if (strncmp(sha, "$40\r\n", 5)) fail(sha);
        memcpy(shas[i], sha + 5, SHA_SIZE);
        free(script);
    }
}

void rival_close(void) {
    for (int i = 0; i < MOST_THREADS; i++)
        if (connections[i].socket) close(connections[i].socket);
}

/* ---- Faults: scripts that move 1 from one account to another and fail between */

enum { SECOND = 1000, LONGEST = 12 };

static void eval(struct connection *of, const char *text) { add(of, 3, (const char *[]){"EVAL", text, "0"}), send_all(of); }

/* A line of an answer, without its end, or nothing where none comes in so many milliseconds; a server that is gone answers "gone". */
static const char *answer_within(struct connection *of, int milliseconds) {
    struct pollfd ready = {of->socket, POLLIN, 0};
    if (poll(&ready, 1, milliseconds) != 1) return NULL;
    ssize_t size = read(of->socket, of->got, sizeof of->got - 1);
    if (size <= 0) return "gone";
    of->got[size] = 0;
    of->got[strcspn(of->got, "\r\n")] = 0;
    return of->got;
}

static const char *command_within(struct connection *of, int milliseconds, int count, const char *const *words) {
    add(of, count, words);
    send_all(of);
    const char *told = answer_within(of, milliseconds);
    return told ? told : "nothing";
}

/* How long another connection waits until it is answered at all, in seconds, and by what; then what ends the script. */
static void tell_of_loop(struct connection *other) {
    double from = now();
    const char *told = command_within(other, LONGEST * SECOND, 2, (const char *[]){"GET", "a"});
    printf("others wait; after %.1f s they are answered \"%.40s..\". ", (now() - from) / 1e9, told);
    told = command_within(other, SECOND, 2, (const char *[]){"SCRIPT", "KILL"});
    printf("`SCRIPT KILL`: \"%.60s\"\n", told);
}

static void tell_of_error(struct connection *one, struct connection *other) {
    const char *told = answer_within(one, LONGEST * SECOND);
    printf("the script answers \"%.160s\"; ", told ? told : "nothing");
    if (told && strcmp(told, "gone") == 0) {
        printf("the server has ended\n");
        return;
    }
    eval(other, "return redis.call('GET', 'a') + redis.call('GET', 'b')");
    told = answer_within(other, SECOND);
    printf("what it did before stands: the accounts hold %s, where it was 10. Others are answered\n", told ? told + 1 : "nothing");
}

void rival_fault(const char *fault) {
    struct connection *one = &connections[0], *other = &connections[1];
    one->socket = connected(), other->socket = connected();
    eval(one, "redis.call('FLUSHALL') redis.call('SET', 'a', 5) return redis.call('SET', 'b', 5)");
    receive(one, 1);
    if (strcmp(fault, "endless") == 0) eval(one, "while true do end");
    else if (strcmp(fault, "endless_written") == 0) eval(one, "redis.call('DECR', 'a') while true do end");
    else if (strcmp(fault, "memory") == 0) eval(one, "redis.call('DECR', 'a') local t = {} while true do t[#t + 1] = ('x'):rep(65536) .. #t end");
    else if (strcmp(fault, "keys") == 0) eval(one, "redis.call('DECR', 'a') for i = 1, 16384 do redis.call('SET', i, ('x'):rep(65536)) end");
    else if (strcmp(fault, "pointer") == 0) eval(one, "redis.call('DECR', 'a') local c c.tokens = 1");
    else fail(fault);
    if (strncmp(fault, "endless", 7) == 0) tell_of_loop(other);
    else tell_of_error(one, other);
}
