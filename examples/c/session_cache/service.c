// service.c: the session cache as a service over a Unix socket. Its sessions keep a text too, which one call of the library puts.
//
//     cache SOCKET
//
// A client writes lines, and each is answered by one:
//     start TOKEN USER SECONDS    0; -17 if the token's session lasts; -7 if there is no room
//     save TOKEN TEXT             0, and TEXT is the session's text; -2 if there is no such session, or it is over; -7
//     load TOKEN                  LENGTH TEXT, of length 0 if none was saved; -2 as `save`
//     finish TOKEN                0; -2 if there is no such session
// and `bad` to any other. TOKEN is 32 hexadecimal digits, USER and SECONDS are 1 to 18 decimal ones. TEXT is up to 2,048 bytes, none of them a line feed.
//
// Each of 32 threads serves one client at a time. SIGINT or SIGTERM ends the service, and it prints how many calls of the library it made.
#include "session_data.h"
#include "cache.h" // made of service.manifest
#include <inttypes.h>
#include <pthread.h>
#include <signal.h>
#include <stdatomic.h>
#include <stdio.h>
#include <stdlib.h>
#include <string.h>
#include <sys/socket.h>
#include <sys/un.h>
#include <time.h>
#include <unistd.h>

enum { NODES = 2, WORKERS = 32, PAGE = 256 };
enum { MOST_LINE = 5 + 32 + 1 + MOST_DATA };             // of `save TOKEN TEXT`
enum { SESSIONS = 0, DATA = 3 };                         // maps
enum { NO_SESSION = -2, NO_ROOM = -7, BAD = 1 };         // replies, and a line that makes no call

// A session and a lane of one node, and the lane's row: for one thread at a time.
typedef struct desk {
    pthread_mutex_t lock;
    nrbpf_session *session;
    nrbpf_lane *lane;
    uint32_t row;
    uint64_t calls;
} desk;

typedef struct client {
    int socket;
    char bytes[4096];                                    // that came
    size_t from, to;                                     // those of them that no line has yet
    char line[MOST_LINE + 2];                            // without its line feed, and a zero
    size_t length;                                       // of the line; MOST_LINE + 1 if it is longer than MOST_LINE
} client;

static nrbpf_store *store;
static desk desks[NODES];
static atomic_uint turn;
static int listener;

static _Noreturn void fail(const char *what) {
    perror(what);
    exit(1);
}

static void check(nrbpf_status status) {
    if (status == NRBPF_OK) return;
    fprintf(stderr, "cache: %s\n", nrbpf_status_text(status));
    exit(1);
}

static uint64_t now(void) { return (uint64_t)time(NULL); }

// ---- Calls of the library, on a desk

static int64_t update(desk *of, uint16_t program, const void *argument, size_t length) {
    nrbpf_answer answer;
    of->calls++;
    check(nrbpf_update(of->session, program, argument, length, &answer));
    return (int64_t)answer.reply;
}

// Puts a text by one list: its pieces into the lane's row, and then the row as the session's.
static int64_t save(desk *of, const struct token *token, const char *text, uint32_t length) {
    const struct save save = {*token, now(), of->row, length};
    struct piece pieces[PIECES];
    nrbpf_question list[PIECES + 1];
    nrbpf_outcome outcomes[PIECES + 1];
    uint32_t n = 0;
    for (uint32_t at = 0; at < length; at += PIECE, n++) {
        pieces[n] = (struct piece){.row = of->row, .number = n};
        memcpy(pieces[n].words, text + at, length - at < PIECE ? length - at : PIECE);
        list[n] = (nrbpf_question){&pieces[n], sizeof pieces[n], CACHE_PIECE};
    }
    list[n] = (nrbpf_question){&save, sizeof save, CACHE_SAVE};
    of->calls++;
    check(nrbpf_update_each(of->lane, list, n + 1, outcomes, NULL));
    return (int64_t)outcomes[n].reply;
}

static int64_t load(desk *of, const struct token *token, struct session_data *data) {
    const struct who who = {*token, now()};
    nrbpf_answer answer;
    nrbpf_found found;
    of->calls++;
    check(nrbpf_read(of->session, CACHE_WHO, &who, sizeof who, &answer));
    if ((int64_t)answer.reply == NO_SESSION) return NO_SESSION;
    of->calls++;
    check(nrbpf_get(of->session, DATA, token, sizeof *token, data, sizeof *data, &found));
    if (!found.is_there) data->length = 0;
    return 0;
}

// Takes away the sessions that are over. (That may bring another one to an earlier page, where the next sweep finds it.)
static void sweep(desk *of) {
    struct token tokens[PAGE];
    struct { uint64_t user, end; } sessions[PAGE];
    struct who who = {.now = now()};
    nrbpf_scanned page;
    for (uint32_t from = 0; from != NRBPF_END; from = page.next) {
        of->calls++;
        check(nrbpf_scan(of->session, SESSIONS, from, tokens, sizeof tokens, sessions, sizeof sessions, &page));
        for (uint32_t i = 0; i < page.count; i++) {
            who.token = tokens[i];
            if (sessions[i].end <= who.now) update(of, CACHE_SWEEP, &who, sizeof who);
        }
    }
}

// ---- A client's lines

// The next byte, or EOF. It waits for one.
static int byte_of(client *of) {
    if (of->from == of->to) {
        const ssize_t count = read(of->socket, of->bytes, sizeof of->bytes);
        if (count <= 0) return EOF;
        of->from = 0;
        of->to = (size_t)count;
    }
    return (unsigned char)of->bytes[of->from++];
}

static int has_line(client *of) {
    of->length = 0;
    for (int byte; (byte = byte_of(of)) != '\n';) {
        if (byte == EOF) return 0;
        if (of->length <= MOST_LINE) of->line[of->length++] = (char)byte;
    }
    of->line[of->length] = 0;
    return 1;
}

// What comes after this word and a token, if the line begins so.
static const char *after(const client *of, const char *word, struct token *token) {
    const size_t length = strlen(word);
    const char *at = of->line + length + 1;
    unsigned char *to = (unsigned char *)token;
    if (strncmp(of->line, word, length) || of->line[length] != ' ' || strspn(at, "0123456789abcdefABCDEF") != 2 * sizeof *token) return NULL;
    for (size_t i = 0; i < sizeof *token; i++, at += 2) sscanf(at, "%2hhx", &to[i]);
    return at;
}

// Takes a space and a number from a text.
static int is_number(const char **text, uint64_t *number) {
    const size_t digits = **text == ' ' ? strspn(*text + 1, "0123456789") : 0;
    if (digits < 1 || digits > 18) return 0;
    *number = strtoull(*text + 1, NULL, 10);
    *text += 1 + digits;
    return 1;
}

// Does what the line says. A reply, or BAD. `data` gets what is loaded, and else stays as it is.
static int64_t reply(desk *of, const client *asks, struct session_data *data) {
    const char *const end = asks->line + asks->length, *rest;
    struct start start = {.now = now()};
    if ((rest = after(asks, "start", &start.token)) && is_number(&rest, &start.user) && is_number(&rest, &start.lifetime) && rest == end)
        return update(of, CACHE_BEGIN, &start, sizeof start);
    if ((rest = after(asks, "save", &start.token)) && *rest == ' ' && end - (rest + 1) <= MOST_DATA)
        return save(of, &start.token, rest + 1, (uint32_t)(end - (rest + 1)));
    if (after(asks, "load", &start.token) == end) return load(of, &start.token, data);
    if (after(asks, "finish", &start.token) == end) return update(of, CACHE_END, &start.token, sizeof start.token);
    return BAD;
}

// The same on the next desk, so that no node stays behind. If there is no room, sessions that are over make some.
static int64_t replied(const client *asks, struct session_data *data) {
    desk *of = &desks[turn++ % NODES];
    pthread_mutex_lock(&of->lock);
    int64_t told = reply(of, asks, data);
    if (told == NO_ROOM) {
        sweep(of);
        told = reply(of, asks, data);
    }
    pthread_mutex_unlock(&of->lock);
    return told;
}

// Answers the line, unless the client is gone.
static int is_answered(const client *asks) {
    struct session_data data = {.length = UINT64_MAX};
    char told[MOST_LINE];
    const int64_t it = replied(asks, &data);
    size_t length = (size_t)(it == BAD ? sprintf(told, "bad") : sprintf(told, "%" PRId64, it));
    if (data.length <= MOST_DATA) {
        length = (size_t)sprintf(told, "%" PRIu64 " ", data.length);
        memcpy(told + length, data.words, data.length);
        length += data.length;
    }
    told[length++] = '\n';
    return send(asks->socket, told, length, MSG_NOSIGNAL) == (ssize_t)length;
}

static void *work(void *nothing) {
    for (;;) {
        client of = {.socket = accept(listener, NULL, NULL)};
        if (of.socket < 0) continue;
        while (has_line(&of) && is_answered(&of)) {}
        close(of.socket);
    }
    return nothing;
}

// ---- The service

static void open_store(void) {
    nrbpf_config config = NRBPF_CONFIG(NODES, PIECES + 2);   // of each node a session, and a lane for the longest list
    const nrbpf_limits large = NRBPF_LARGE;                  // the manifest is the service's own
    config.limits = large;
    check(cache_open(&config, &store, NULL));
    for (uint32_t n = 0; n < NODES; n++) {
        desks[n].row = n;
        if (pthread_mutex_init(&desks[n].lock, NULL)) fail("cache");
        check(nrbpf_attach(store, n, &desks[n].session));
        check(nrbpf_attach_lane(store, n, PIECES + 1, &desks[n].lane));
    }
}

// Takes the desks for good, so that no thread makes a call any more. How many calls were made.
static uint64_t close_store(void) {
    uint64_t calls = 0;
    for (int n = 0; n < NODES; n++) {
        pthread_mutex_lock(&desks[n].lock);
        calls += desks[n].calls;
        check(nrbpf_detach(desks[n].session));
        check(nrbpf_detach_lane(desks[n].lane));
    }
    check(nrbpf_close(store));
    return calls;
}

static void listen_at(const char *path) {
    struct sockaddr_un at = {.sun_family = AF_UNIX};
    listener = socket(AF_UNIX, SOCK_STREAM, 0);
    if (listener < 0 || strlen(path) >= sizeof at.sun_path) fail(path);
    strcpy(at.sun_path, path);
    unlink(path);
    if (bind(listener, (struct sockaddr *)&at, sizeof at) || listen(listener, WORKERS)) fail(path);
}

int main(int words, char **word) {
    sigset_t ends;
    pthread_t thread;
    int which;
    if (words != 2) {
        fprintf(stderr, "cache SOCKET\n");
        return 2;
    }
    open_store();
    listen_at(word[1]);
    sigemptyset(&ends);
    sigaddset(&ends, SIGINT);
    sigaddset(&ends, SIGTERM);
    pthread_sigmask(SIG_BLOCK, &ends, NULL);                 // in the threads too, which begin below
    for (int i = 0; i < WORKERS; i++)
        if (pthread_create(&thread, NULL, work, NULL) || pthread_detach(thread)) fail("cache");
    printf("cache: ready\n");
    fflush(stdout);
    sigwait(&ends, &which);
    unlink(word[1]);
    printf("cache: %" PRIu64 " calls\n", close_store());
    return 0;
}
