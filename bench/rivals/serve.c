/* The service `nrbpf serve` over two pipes: lines of hexadecimal digits. It has one input, so several threads take turns, by a mutex. */

#include "rounds.h"
#include <errno.h>
#include <pthread.h>
#include <signal.h>
#include <string.h>
#include <sys/wait.h>
#include <unistd.h>

enum { MOST_LINE = 128 };

static const struct service *served;
static pthread_mutex_t turn = PTHREAD_MUTEX_INITIALIZER;
static pid_t process;
static int lines, answers;
static char sent[MOST_IN_FLIGHT * MOST_LINE], got[MOST_IN_FLIGHT * MOST_LINE];

/* Writes a call as a line, and answers where it ends. */
static char *write_line(char *at, const char *name, const uint8_t *argument, int bytes) {
    static const char digits[] = "0123456789abcdef";
    size_t length = strlen(name);
    memcpy(at, name, length);
    at += length;
    *at++ = ' ';
    for (int i = 0; i < bytes; i++) {
        *at++ = digits[argument[i] >> 4];
        *at++ = digits[argument[i] & 15];
    }
    *at++ = '\n';
    return at;
}

static void send_all(const char *from, size_t size) {
    while (size) {
        ssize_t written = write(lines, from, size);
        if (written < 0 && errno == EINTR) continue;
        if (written < 0) fail("serve takes no more lines");
        from += written, size -= (size_t)written;
    }
}

/* Reads so many lines. */
static void receive(int count) {
    size_t size = 0;
    while (count > 0) {
        ssize_t more = read(answers, got + size, sizeof got - 1 - size);
        if (more < 0 && errno == EINTR) continue;
        if (more <= 0) fail("serve answers no more");
        for (ssize_t i = 0; i < more; i++) count -= got[size + (size_t)i] == '\n';
        size += (size_t)more;
    }
    got[size] = 0;
}

void rival_make(int thread, const struct call *calls, int count, int64_t *replies) {
    (void)thread;
    pthread_mutex_lock(&turn);
    char *end = sent;
    for (int i = 0; i < count; i++)
        end = write_line(end, served->operations[calls[i].operation], (const uint8_t *)calls[i].values, served->bytes[calls[i].operation]);
    send_all(sent, (size_t)(end - sent));
    receive(count);
    const char *at = got;
    for (int i = 0; i < count; i++) {
        at = strstr(at, " reply ");
        if (!at) fail(got);
        at += strlen(" reply ");
        replies[i] = (int64_t)strtoull(at, NULL, 10);
    }
    pthread_mutex_unlock(&turn);
}

static void start(const char *program, const char *manifest) {
    int to[2], from[2];
    if (pipe(to) || pipe(from)) fail("no pipes");
    process = fork();
    if (process < 0) fail("no process");
    if (process == 0) {
        signal(SIGPIPE, SIG_DFL);
        dup2(to[0], 0), dup2(from[1], 1);
        close(to[0]), close(to[1]), close(from[0]), close(from[1]);
        execl(program, program, "serve", manifest, (char *)NULL);
        _exit(127);
    }
    close(to[0]), close(from[1]);
    lines = to[1], answers = from[0];
}

void rival_open(const struct service *service, int threads, int in_flight) {
    (void)threads, (void)in_flight;
    const char *program = getenv("NRBPF");
    const uint32_t settings[] = {BURST, PERIOD};
    served = service;
    signal(SIGPIPE, SIG_IGN);
    start(program ? program : "./nrbpf", service->manifest);
    if (strcmp(service->name, "limiter")) return;
    send_all(sent, (size_t)(write_line(sent, "configure", (const uint8_t *)settings, sizeof settings) - sent));
    receive(1);
}

void rival_close(void) {
    int status;
    close(lines);
    if (waitpid(process, &status, 0) != process || status) fail("serve ends badly");
    close(answers);
}

void rival_fault(const char *fault) { fail(fault); }
