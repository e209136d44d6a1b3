// lanes.c: lanes of nrbpf.h. The sessions of a lane are at its raw handle, and ask for a list together.
#include "handles.h"
#include <assert.h>

static_assert((int)NRBPF_MOST_SLOTS <= (int)MOST_SESSIONS, "a node has a session for each slot of a lane");

// ---- Attaching

static nrbpf_lane *lane_at(const struct place *place) {
    return (nrbpf_lane *)next_handle(place);
}

// The place of a lane, of an earlier one too.
static struct place *place_of_lane(const nrbpf_lane *lane) {
    return place_of((const nrbpf_session *)lane);
}

// Gives the sessions of a lane back, the last one first.
static void give_back_each(nrbpf_store *store, struct place *place) {
    for (;;) {
        nrbpf_raw_leave(place->list, store->moved);
        if (place->list->status != NRBPF_OK) {
            break;
        }
        nrbpf_raw_detach(&store->raw, store->moved);
    }
}

// Adds a session of the store's node `raw.node` to a lane: H1. The store gives sessions by ascending slots, as the lane wants them.
static nrbpf_status add_slot(nrbpf_store *store, const struct place *place) {
    nrbpf_raw_attach(&store->raw, store->moved);
    if (store->raw.status != NRBPF_OK) {
        return (nrbpf_status)store->raw.status;
    }
    nrbpf_raw_join(place->list, store->moved);
    if (place->list->status != NRBPF_OK) {
        nrbpf_raw_detach(&store->raw, store->moved);
    }
    return (nrbpf_status)place->list->status;
}

nrbpf_status nrbpf_attach_lane(nrbpf_store *store, uint32_t node, uint32_t slots, nrbpf_lane **out) {
    nrbpf_status status = NRBPF_OK;
    if (!store || !out) {
        return NRBPF_H7;
    }
    if (slots == 0 || slots > NRBPF_MOST_SLOTS) {
        return NRBPF_H5;
    }
    pthread_mutex_lock(&store->mutex);
    struct place *const place = free_place(store);
    store->raw.node = node;
    for (uint32_t i = 0; i < slots && status == NRBPF_OK; i++) {
        status = add_slot(store, place);
    }
    if (status == NRBPF_OK) {
        set_handle(place, (nrbpf_session *)store);
        set_lane(place, lane_at(place));
        place->slots = slots;
        place->is_posted = 0;
        place->doublings = 0;
        *out = lane_of(place);
    } else {
        give_back_each(store, place);           // nobody has a handle: the turn is still free
    }
    pthread_mutex_unlock(&store->mutex);
    return status;
}

// Whether the lane of this handle takes a list: H2, H3.
static nrbpf_status usable(const struct place *place, const nrbpf_lane *lane) {
    if (lane_of(place) != lane) {
        return NRBPF_H2;
    }
    if (place->is_posted) {
        return NRBPF_H3;
    }
    return NRBPF_OK;
}

nrbpf_status nrbpf_detach_lane(nrbpf_lane *lane) {
    if (!lane) {
        return NRBPF_H7;
    }
    struct place *const place = place_of_lane(lane);
    nrbpf_store *const store = place->of;
    pthread_mutex_lock(&store->mutex);
    const nrbpf_status status = usable(place, lane);
    if (status == NRBPF_OK) {
        give_back_each(store, place);
        set_lane(place, NULL);
        end_session(place);
    }
    pthread_mutex_unlock(&store->mutex);
    return status;
}

// ---- Lists

// Asks for these updates, or goes on with the list that is posted. The host's outcomes are written last, and may be where its calls are.
static nrbpf_status go_on(struct place *place, const struct nrbpf_raw_question *asked, size_t count, nrbpf_outcome *outcomes, nrbpf_error *why) {
    struct nrbpf_raw_outcome told[NRBPF_MOST_SLOTS];
    const struct nrbpf_raw_lane *const list = place->list;
    nrbpf_raw_update_each(place->list, asked, count, told, NRBPF_MOST_SLOTS);
    nrbpf_status status = (nrbpf_status)list->status;
    place->is_posted = status == NRBPF_POSTED;
    if (status == NRBPF_OK) {
        for (size_t i = 0; i < list->count; i++) {
            outcomes[i].point = told[i].point;
            outcomes[i].reply = told[i].reply;
            outcomes[i].status = (nrbpf_status)told[i].status;
            status = told[i].status != NRBPF_OK ? outcomes[i].status : status;
        }
    }
    if (status >> 8 != 0) {
        refused(why, status);
        if (why) {
            why->slot = (uint32_t)list->slot;
        }
    }
    return status;
}

// Whether the lane takes a list of so many updates: H7, H2, H3, H5.
static nrbpf_status may_begin(const nrbpf_lane *lane, const nrbpf_question *calls, size_t count, const nrbpf_outcome *outcomes) {
    if (!lane || (!calls && count > 0) || (!outcomes && count > 0)) {
        return NRBPF_H7;
    }
    const struct place *const place = place_of_lane(lane);
    const nrbpf_status status = usable(place, lane);
    if (status != NRBPF_OK) {
        return status;
    }
    return count > place->slots ? NRBPF_H5 : NRBPF_OK;
}

// Goes on with the list that is posted.
static nrbpf_status poll_list(struct place *place, nrbpf_outcome *outcomes, nrbpf_error *why) {
    const struct nrbpf_raw_question none = {{(const uint8_t *)"", 0}, 0};
    return go_on(place, &none, 0, outcomes, why);
}

nrbpf_status nrbpf_try_update_each(nrbpf_lane *lane, const nrbpf_question *calls, size_t count, nrbpf_outcome *outcomes, nrbpf_error *why) {
    struct nrbpf_raw_question room[NRBPF_MOST_SLOTS];
    const nrbpf_status status = may_begin(lane, calls, count, outcomes);
    if (status != NRBPF_OK) {
        return refused(why, status);
    }
    if (count == 0) {
        return NRBPF_OK;
    }
    const struct nrbpf_raw_question *const asked = questions_of(calls, count, room);
    return asked ? go_on(place_of_lane(lane), asked, count, outcomes, why) : refused(why, NRBPF_H7);
}

nrbpf_status nrbpf_update_each(nrbpf_lane *lane, const nrbpf_question *calls, size_t count, nrbpf_outcome *outcomes, nrbpf_error *why) {
    nrbpf_status status = nrbpf_try_update_each(lane, calls, count, outcomes, why);
    if (status == NRBPF_OK && count > 0) {
        shorten_pause(place_of_lane(lane));
    }
    while (status == NRBPF_BUSY || status == NRBPF_POSTED) {
        pause_behind(place_of_lane(lane));
        status = status == NRBPF_BUSY ? nrbpf_try_update_each(lane, calls, count, outcomes, why) : poll_list(place_of_lane(lane), outcomes, why);
    }
    return status;
}

nrbpf_status nrbpf_poll_each(nrbpf_lane *lane, nrbpf_outcome *outcomes) {
    if (!lane || !outcomes) {
        return NRBPF_H7;
    }
    struct place *const place = place_of_lane(lane);
    if (lane_of(place) != lane) {
        return NRBPF_H2;
    }
    if (!place->is_posted) {
        return NRBPF_H11;
    }
    return poll_list(place, outcomes, NULL);
}
