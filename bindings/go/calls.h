// The calls of nrbpf.h that take bytes, of a type in which cgo need not look for pointers.
#ifndef NRBPF_GO_CALLS_H
#define NRBPF_GO_CALLS_H

#include <nrbpf.h>

static inline nrbpf_status go_update(nrbpf_session *session, uint16_t program, const uint8_t *argument, size_t len, nrbpf_answer *out) {
    return nrbpf_update(session, program, argument, len, out);
}

static inline nrbpf_status go_try_update(nrbpf_session *session, uint16_t program, const uint8_t *argument, size_t len, nrbpf_answer *out) {
    return nrbpf_try_update(session, program, argument, len, out);
}

static inline nrbpf_status go_read(nrbpf_session *session, uint16_t program, const uint8_t *argument, size_t len, nrbpf_answer *out) {
    return nrbpf_read(session, program, argument, len, out);
}

static inline nrbpf_status go_try_read(nrbpf_session *session, uint16_t program, const uint8_t *argument, size_t len, nrbpf_answer *out) {
    return nrbpf_try_read(session, program, argument, len, out);
}

static inline nrbpf_status go_install(nrbpf_session *session, uint32_t mode, uint32_t argument_len, const uint8_t *bytes, size_t len,
                                      nrbpf_answer *out, nrbpf_error *why) {
    return nrbpf_install(session, mode, argument_len, bytes, len, out, why);
}

static inline nrbpf_status go_try_install(nrbpf_session *session, uint32_t mode, uint32_t argument_len, const uint8_t *bytes, size_t len,
                                          nrbpf_answer *out, nrbpf_error *why) {
    return nrbpf_try_install(session, mode, argument_len, bytes, len, out, why);
}

static inline nrbpf_status go_install_within(nrbpf_session *session, uint16_t maps, uint32_t mode, uint32_t argument_len, const uint8_t *bytes,
                                             size_t len, nrbpf_answer *out, nrbpf_error *why) {
    const nrbpf_confined program = {maps, mode, argument_len, bytes, len};
    return nrbpf_install_within(session, &program, out, why);
}

static inline nrbpf_status go_try_install_within(nrbpf_session *session, uint16_t maps, uint32_t mode, uint32_t argument_len,
                                                 const uint8_t *bytes, size_t len, nrbpf_answer *out, nrbpf_error *why) {
    const nrbpf_confined program = {maps, mode, argument_len, bytes, len};
    return nrbpf_try_install_within(session, &program, out, why);
}

static inline nrbpf_status go_get(nrbpf_session *session, uint32_t map, const uint8_t *key, size_t key_len, uint8_t *value, size_t value_len,
                                  nrbpf_found *out) {
    return nrbpf_get(session, map, key, key_len, value, value_len, out);
}

static inline nrbpf_status go_try_get(nrbpf_session *session, uint32_t map, const uint8_t *key, size_t key_len, uint8_t *value, size_t value_len,
                                      nrbpf_found *out) {
    return nrbpf_try_get(session, map, key, key_len, value, value_len, out);
}

static inline nrbpf_status go_scan(nrbpf_session *session, uint32_t map, uint32_t from, uint8_t *keys, size_t keys_room, uint8_t *values,
                                   size_t values_room, nrbpf_scanned *out) {
    return nrbpf_scan(session, map, from, keys, keys_room, values, values_room, out);
}

static inline nrbpf_status go_try_scan(nrbpf_session *session, uint32_t map, uint32_t from, uint8_t *keys, size_t keys_room, uint8_t *values,
                                       size_t values_room, nrbpf_scanned *out) {
    return nrbpf_try_scan(session, map, from, keys, keys_room, values, values_room, out);
}

#endif
