// unseen.c: memory is moved here for the proved library where a host has ThreadSanitizer, and this file has none: that would see the blocks that the
// library copies, and not the atomics by which it orders this. It is compiled with -O1 -fno-builtin, so that these are no calls of themselves.
#include <stddef.h>

void *unseen_memcpy(void *, const void *, size_t), *unseen_memmove(void *, const void *, size_t), *unseen_memset(void *, int, size_t);

void *unseen_memmove(void *to, const void *from, size_t n) {
    unsigned char *into = to;
    const unsigned char *out_of = from;
    if (into < out_of) for (size_t i = 0; i < n; i++) into[i] = out_of[i];
    else while (n-- > 0) into[n] = out_of[n];
    return to;
}

void *unseen_memcpy(void *to, const void *from, size_t n) { return unseen_memmove(to, from, n); }

void *unseen_memset(void *to, int byte, size_t n) {
    unsigned char *into = to;
    while (n-- > 0) into[n] = (unsigned char)byte;
    return to;
}
