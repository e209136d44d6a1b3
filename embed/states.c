// states.c: states of nrbpf.h: room for a store's, the text of one, its end.
#include "handles.h"

enum { MOST_READ = 40960, MOST_WRITTEN = 16384 };  // a line of a dump has room in the first

nrbpf_status nrbpf_state_new(nrbpf_store *store, nrbpf_state **out) {
    if (!store || !out) {
        return NRBPF_H7;
    }
    nrbpf_state *const room = room_for_state();
    if (!room) {
        return NRBPF_O2;
    }
    pthread_mutex_lock(&store->mutex);
    nrbpf_raw_new_state(&store->raw, &room->raw);
    nrbpf_status status = (nrbpf_status)store->raw.status;
    pthread_mutex_unlock(&store->mutex);
    if (status == NRBPF_OK) {
        *out = room;
    } else {
        free(room);
    }
    return status;
}

// Gives the writer these bytes.
static nrbpf_status written(const uint8_t *bytes, size_t length, nrbpf_writer *write, void *to) {
    size_t from = 0;
    while (from < length) {
        const size_t rest = length - from, count = rest < MOST_WRITTEN ? rest : (size_t)MOST_WRITTEN;
        if (write(to, (const char *)bytes + from, count) != 0) {
            return NRBPF_H10;
        }
        from += count;
    }
    return NRBPF_OK;
}

// Gives the writer all of a text, which is read through this room of MOST_READ bytes.
static nrbpf_status all_written(struct nrbpf_raw_text *text, uint8_t *room, nrbpf_writer *write, void *to) {
    nrbpf_status status;
    do {
        nrbpf_raw_part(text, room, MOST_READ);
        status = written(room, (size_t)text->length, write, to);
    } while (status == NRBPF_OK && text->length > 0);
    return status;
}

nrbpf_status nrbpf_state_dump(const nrbpf_state *state, nrbpf_writer *write, void *to) {
    if (!state || !write) {
        return NRBPF_H7;
    }
    if (is_dumped(state)) {
        return NRBPF_H2;
    }
    const size_t size = nrbpf_raw_text_size();
    struct nrbpf_raw_text *text = (struct nrbpf_raw_text *)malloc(size + MOST_READ);
    if (!text) {
        return NRBPF_E0;
    }
    nrbpf_raw_dump(raw_state_of(state), text);
    nrbpf_status status = (nrbpf_status)text->status;
    if (status == NRBPF_OK) {
        nrbpf_state *const dumped = (nrbpf_state *)state;
        dumped->text = text;
        status = all_written(text, (uint8_t *)text + size, write, to);
        nrbpf_raw_drop_text(text, &dumped->raw);
        dumped->text = NULL;
    }
    free(text);
    return status;
}

void nrbpf_state_free(nrbpf_state *state) {
    if (!state) {
        return;
    }
    if (is_dumped(state)) {
        nrbpf_raw_drop_text(state->text, &state->raw);
        free(state->text);
    }
    nrbpf_raw_drop_state(&state->raw);
    free(state);
}
