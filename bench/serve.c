/* Times a service that answers each line of its standard input by a line: for a client that sends one and waits for its answer before it sends the
   next, and for one that sends 100 in one write and then reads their 100 answers. Its words are the command that is started, over two pipes. A round
   takes at least two seconds, and neither the start of the process nor its first lines count. Its last answer is compared: it tells how many lines
   were updates, and so all were. */

#include <errno.h>
#include <signal.h>
#include <stdint.h>
#include <stdio.h>
#include <stdlib.h>
#include <string.h>
#include <sys/wait.h>
#include <time.h>
#include <unistd.h>

#define LINE "bump 00000000\n"

enum { BATCH = 100, STRETCH = 1000, LINE_SIZE = sizeof LINE - 1 };

/* How long a round is at least, in nanoseconds. */
static const double ROUND = 2e9;

struct service {
    const char *name;
    pid_t process;
    int lines, answers;
    uint64_t sent;
    char got[16384]; /* the answers to the last write */
    size_t got_size;
};

static char batch[BATCH * LINE_SIZE];

static _Noreturn void fail(const char *name, const char *what) {
    fprintf(stderr, "serve: %s %s\n", name, what);
    exit(1);
}

static double now(void) {
    struct timespec t;
    clock_gettime(CLOCK_MONOTONIC, &t);
    return (double)t.tv_sec * 1e9 + (double)t.tv_nsec;
}

static void start(struct service *it, char **command) {
    int to[2], from[2];
    it->name = command[0];
    it->sent = 0;
    if (pipe(to) || pipe(from)) fail(it->name, "gets no pipes");
    it->process = fork();
    if (it->process < 0) fail(it->name, "gets no process");
    if (it->process == 0) {
        signal(SIGPIPE, SIG_DFL);
        dup2(to[0], 0);
        dup2(from[1], 1);
        close(to[0]), close(to[1]), close(from[0]), close(from[1]);
        execvp(command[0], command);
        _exit(127);
    }
    close(to[0]), close(from[1]);
    it->lines = to[1];
    it->answers = from[0];
}

/* Sends so many lines in one write, and reads as many answers. */
static void ask(struct service *it, int count) {
    const char *at = batch;
    size_t left = (size_t)count * LINE_SIZE;
    while (left) {
        ssize_t written = write(it->lines, at, left);
        if (written < 0 && errno == EINTR) continue;
        if (written < 0) fail(it->name, "takes no more lines");
        at += written, left -= (size_t)written;
    }
    it->got_size = 0;
    for (int missing = count; missing > 0;) {
        char *end = it->got + it->got_size;
        ssize_t size = read(it->answers, end, sizeof it->got - it->got_size);
        if (size < 0 && errno == EINTR) continue;
        if (size <= 0) fail(it->name, "answers no more, or too much");
        it->got_size += (size_t)size;
        for (char *here = end; (here = memchr(here, '\n', (size_t)(it->got + it->got_size - here))); here++) missing--;
        if (missing < 0) fail(it->name, "answers more lines than it was sent");
    }
    it->sent += (uint64_t)count;
}

/* Whether the last answer is that of the last line: the line itself, or what an update replies that all lines before it were too. */
static int is_answered(const struct service *it) {
    char wanted[64];
    size_t from = it->got_size - 1;
    if (it->got[from] != '\n') return 0;
    while (from > 0 && it->got[from - 1] != '\n') from--;
    const char *last = it->got + from;
    size_t size = it->got_size - from;
    if (size == LINE_SIZE && memcmp(last, LINE, LINE_SIZE) == 0) return 1;
    int length = snprintf(wanted, sizeof wanted, "update %llu reply %llu ", (unsigned long long)it->sent - 1, (unsigned long long)it->sent);
    return size > (size_t)length && memcmp(last, wanted, (size_t)length) == 0;
}

static void end(struct service *it) {
    char more;
    int status;
    if (!is_answered(it)) fail(it->name, "answers the last line wrong");
    close(it->lines);
    if (read(it->answers, &more, 1) != 0) fail(it->name, "answers more lines than it was sent");
    close(it->answers);
    if (waitpid(it->process, &status, 0) != it->process || status != 0) fail(it->name, "ends badly");
}

/* About a thousand lines, so many in flight. */
static void ask_stretch(struct service *it, int in_flight) {
    for (int i = 0; i < STRETCH; i += in_flight) ask(it, in_flight);
}

/* What a line takes in a round, in nanoseconds. */
static double time_of(char **command, int in_flight) {
    static struct service it;
    start(&it, command);
    ask_stretch(&it, in_flight);
    uint64_t uncounted = it.sent;
    double from = now(), to;
    do {
        ask_stretch(&it, in_flight);
        to = now();
    } while (to - from < ROUND);
    uint64_t lines = it.sent - uncounted;
    end(&it);
    return (to - from) / (double)lines;
}

int main(int count, char **words) {
    const int flights[] = {1, BATCH};
    if (count < 2) fail("COMMAND", "is missing");
    signal(SIGPIPE, SIG_IGN);
    for (int i = 0; i < BATCH; i++) memcpy(batch + i * LINE_SIZE, LINE, LINE_SIZE);
    for (int i = 0; i < 2; i++) {
        double each = time_of(words + 1, flights[i]);
        printf("%-4d in flight %12.0f lines/s %10.3f us/line\n", flights[i], 1e9 / each, each / 1e3);
        fflush(stdout);
    }
    return 0;
}
