// input.h: the lines of a client, of which several may be here at once.
#ifndef LIMITER_INPUT_H
#define LIMITER_INPUT_H

#include <string.h>
#include <sys/types.h>
#include <unistd.h>

enum { MOST_LINE = 80 };

// What a client has sent and is not answered.
typedef struct input {
    int socket;
    size_t from, length;                        // of the bytes that no line has been taken of
    char bytes[4096];
} input;

// Takes the next line, of a line that is too long a part. If none is here, waits for one, or gives up.
static inline int take_line(input *of, char line[MOST_LINE], int waits) {
    for (;;) {
        char *const at = of->bytes + of->from;
        const char *end = memchr(at, '\n', of->length);
        const size_t whole = end ? (size_t)(end - at) + 1 : of->length, length = whole < MOST_LINE ? whole : MOST_LINE - 1;
        if (end || whole >= MOST_LINE) {
            memcpy(line, at, length);
            line[length] = 0;
            of->from += length;
            of->length -= length;
            return 1;
        }
        if (!waits) return 0;
        memmove(of->bytes, at, of->length);
        of->from = 0;
        const ssize_t more = read(of->socket, of->bytes + of->length, sizeof of->bytes - of->length);
        if (more <= 0) return 0;
        of->length += (size_t)more;
    }
}

#endif
