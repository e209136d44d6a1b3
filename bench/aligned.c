/* A malloc whose blocks begin at multiples of 128 bytes, two cache lines, and end before the next multiple: so no two blocks share a line. For glibc:

       cc -O1 -fno-builtin -shared -fPIC -o bench/out/aligned.so bench/aligned.c
       LD_PRELOAD=$PWD/bench/out/aligned.so bench/run_lists */

#include <stddef.h>

enum { LINES = 128, LARGE = 1 << 20 };

void *__libc_malloc(size_t size);
void *__libc_memalign(size_t alignment, size_t size);

/* (a large block gets pages of its own) */
void *malloc(size_t size) {
    if (size >= LARGE) return __libc_malloc(size);
    return __libc_memalign(LINES, (size + LINES - 1) / LINES * LINES);
}
