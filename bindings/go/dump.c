// What the library calls with each piece of a dump.
#include "_cgo_export.h"
#include <nrbpf.h>

static int write_piece(void *to, const char *bytes, size_t len) {
    return nrbpfGoWrite((uintptr_t)to, (char *)bytes, len);
}

nrbpf_status nrbpf_go_dump(const nrbpf_state *state, uintptr_t to) {
    return nrbpf_state_dump(state, write_piece, (void *)to);
}
