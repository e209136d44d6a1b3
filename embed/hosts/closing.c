// closing.c: ends stores while another thread detaches their sessions, by nrbpf_close and by
// nrbpf_close_into in turn. It tries until all are detached: S5 comes before that, and no block of
// memory is left after it.
//
// It is linked with -Wl,--wrap=malloc,--wrap=calloc,--wrap=realloc,--wrap=aligned_alloc,--wrap=free,
// so that it counts the blocks.
#include "fixture.h"
#include <pthread.h>
#include <stdatomic.h>

void *__real_malloc(size_t), *__real_calloc(size_t, size_t), *__real_realloc(void *, size_t), *__real_aligned_alloc(size_t, size_t);
void __real_free(void *);
void *__wrap_malloc(size_t), *__wrap_calloc(size_t, size_t), *__wrap_realloc(void *, size_t), *__wrap_aligned_alloc(size_t, size_t);
void __wrap_free(void *);

static atomic_long blocks;                      // how many are not given back

static void count(void *block, long more) {
    if (block) atomic_fetch_add_explicit(&blocks, more, memory_order_relaxed);
}

static void *grown(void *block) {
    count(block, 1);
    return block;
}

void *__wrap_malloc(size_t n) { return grown(__real_malloc(n)); }
void *__wrap_calloc(size_t n, size_t each) { return grown(__real_calloc(n, each)); }
void *__wrap_aligned_alloc(size_t to_what, size_t n) { return grown(__real_aligned_alloc(to_what, n)); }

void *__wrap_realloc(void *block, size_t n) {
    void *moved = __real_realloc(block, n);
    return block ? moved : grown(moved);
}

void __wrap_free(void *block) {
    count(block, -1);
    __real_free(block);
}

enum { STORES = 2000, SLOTS = 16 };

static nrbpf_session *sessions[SLOTS];          // of the store that is open
static pthread_barrier_t start, end;

static void *detach_all(void *none) {
    for (int i = 0; i < STORES; i++) {
        pthread_barrier_wait(&start);
        for (int k = 0; k < SLOTS; k++) EXPECT_STATUS(nrbpf_detach(sessions[k]), NRBPF_OK);
        pthread_barrier_wait(&end);
    }
    return none;
}

// Ends a store some of whose sessions may still be attached. How often that was refused.
static long ended(nrbpf_store *store, int into_state) {
    nrbpf_state *state = NULL;
    nrbpf_status told;
    long refused = -1;
    do {
        told = into_state ? nrbpf_close_into(store, &state) : nrbpf_close(store);
        refused++;
    } while (told == NRBPF_S5);
    EXPECT_STATUS(told, NRBPF_OK);
    EXPECT((state != NULL) == into_state);
    nrbpf_state_free(state);
    return refused;
}

int main(void) {
    nrbpf_config config = NRBPF_CONFIG(1, SLOTS);
    counter files = counter_files();
    const size_t len = strlen(files.manifest);
    long refused = 0, lost = 0;
    pthread_t other;
    config.window = 16;
    EXPECT(pthread_barrier_init(&start, NULL, 2) == 0 && pthread_barrier_init(&end, NULL, 2) == 0);
    EXPECT(pthread_create(&other, NULL, detach_all, NULL) == 0);
    for (int i = 0; i < STORES; i++) {
        const long before = blocks;
        nrbpf_store *store;
        EXPECT_STATUS(nrbpf_open(&config, files.manifest, len, files.files, programs, &store, NULL), NRBPF_OK);
        for (int k = 0; k < SLOTS; k++) sessions[k] = attached(store, 0);
        pthread_barrier_wait(&start);
        refused += ended(store, i % 2);
        pthread_barrier_wait(&end);
        lost += blocks != before;
    }
    EXPECT(pthread_join(other, NULL) == 0);
    give_back(&files);
    EXPECT(lost == 0);
    printf("%d stores ended next to their sessions' detaching, after %ld refusals, and nothing is left over\n", STORES, refused);
    return 0;
}
