/* A store through the library for C: one thread on one node, more on two. A thread has one session; where several of its calls are in flight these are
   updates, and it has a lane of as many slots and asks for them by the list. */

#include "../../embed/nrbpf.h"
#include "rounds.h"
#include <string.h>
#include <sys/resource.h>

enum { MOST_FILES = 4, MOST_NAME = 256, MOST_SLOTS = 16 };

static const struct service *served;
static nrbpf_store *store;
static nrbpf_session *sessions[MOST_THREADS];
static nrbpf_lane *lanes[MOST_THREADS];
static int attached, slots;
static uint16_t programs[OPERATIONS];

static void check(nrbpf_status status) {
    if (status) fail(nrbpf_status_text(status));
}

/* Opens a store of a manifest, with the program files that its lines end in. */
static void open_store(const char *path, nrbpf_config config) {
    static char names[MOST_FILES][MOST_NAME];
    nrbpf_file files[MOST_FILES];
    size_t count = 0;
    nrbpf_error why;
    char *manifest = text_of(path);
    for (char *line = manifest; line; line = strchr(line, '\n') ? strchr(line, '\n') + 1 : NULL) {
        if (strncmp(line, "program ", 8) || count == MOST_FILES) continue;
        if (sscanf(line, "program %*s %*s %*s %255s", names[count]) != 1) fail(path);
        char *text = text_of(names[count]);
        files[count] = (nrbpf_file){names[count], strlen(names[count]), text, strlen(text)};
        count++;
    }
    if (nrbpf_open(&config, manifest, strlen(manifest), files, count, &store, &why)) fail(nrbpf_status_text(why.status));
    for (size_t i = 0; i < count; i++) free((char *)files[i].text);
    free(manifest);
}

static uint16_t number_of(const char *name) {
    uint16_t number;
    check(nrbpf_program_number(store, name, strlen(name), &number));
    return number;
}

static void attach_all(int threads, uint32_t nodes) {
    for (attached = 0; attached < threads; attached++) {
        const uint32_t node = (uint32_t)attached % nodes;
        if (slots > 1) check(nrbpf_attach_lane(store, node, (uint32_t)slots, &lanes[attached]));
        else check(nrbpf_attach(store, node, &sessions[attached]));
    }
}

static void update_by_list(int thread, const nrbpf_question *questions, int count, nrbpf_outcome *outcomes) {
    nrbpf_error why;
    check(nrbpf_update_each(lanes[thread], questions, (size_t)count, outcomes, &why));
}

static void configure(void) {
    const uint32_t settings[] = {BURST, PERIOD};
    nrbpf_answer answer;
    nrbpf_outcome outcome;
    nrbpf_question question = {.program = number_of("configure"), .argument = settings, .len = sizeof settings};
    if (slots > 1) update_by_list(0, &question, 1, &outcome);
    else check(nrbpf_update(sessions[0], question.program, settings, sizeof settings, &answer));
}

void rival_open(const struct service *service, int threads, int in_flight) {
    const uint32_t nodes = threads > 1 ? 2 : 1;
    nrbpf_config config = NRBPF_CONFIG(nodes, (uint32_t)(threads * in_flight) / nodes);
    served = service;
    slots = in_flight;
    open_store(service->manifest, config);
    for (int i = 0; i < OPERATIONS; i++) programs[i] = number_of(service->operations[i]);
    attach_all(threads, nodes);
    if (strcmp(service->name, "limiter") == 0) configure();
}

static void make_by_list(int thread, const struct call *calls, int count, int64_t *replies) {
    nrbpf_question questions[MOST_SLOTS] = {{0}};
    nrbpf_outcome outcomes[MOST_SLOTS];
    for (int i = 0; i < count; i++) {
        if (calls[i].operation == READ) fail("a list has updates only");
        questions[i] = (nrbpf_question){.program = programs[UPDATE], .argument = calls[i].values, .len = (size_t)served->bytes[UPDATE]};
    }
    update_by_list(thread, questions, count, outcomes);
    for (int i = 0; i < count; i++) replies[i] = (int64_t)outcomes[i].reply;
}

void rival_make(int thread, const struct call *calls, int count, int64_t *replies) {
    nrbpf_answer answer;
    if (slots > 1) {
        make_by_list(thread, calls, count, replies);
        return;
    }
    for (int i = 0; i < count; i++) {
        int it = calls[i].operation;
        size_t size = (size_t)served->bytes[it];
        if (it == READ) check(nrbpf_read(sessions[thread], programs[READ], calls[i].values, size, &answer));
        else check(nrbpf_update(sessions[thread], programs[UPDATE], calls[i].values, size, &answer));
        replies[i] = (int64_t)answer.reply;
    }
}

void rival_close(void) {
    for (int i = 0; i < attached; i++) check(slots > 1 ? nrbpf_detach_lane(lanes[i]) : nrbpf_detach(sessions[i]));
    check(nrbpf_close(store));
}

/* ---- Faults, on a store of examples/visits, whose map has room for two keys */

static uint64_t visited(int thread, const char *name, uint32_t user) {
    const uint32_t argument[] = {user, 0, 0};
    nrbpf_answer answer;
    if (strcmp(name, "visit") == 0) check(nrbpf_update(sessions[thread], number_of(name), argument, 12, &answer));
    else check(nrbpf_read(sessions[thread], number_of(name), argument, 8, &answer));
    return answer.reply;
}

static void install(const char *what, const uint8_t *bytes, size_t size) {
    nrbpf_answer answer;
    nrbpf_error why;
    char text[300];
    if (nrbpf_install(sessions[0], NRBPF_MODE_UPDATE, 8, bytes, size, &answer, &why) == NRBPF_OK) fail("it was accepted");
    nrbpf_error_text(&why, text, sizeof text);
    printf("%s is refused before it runs (%s). ", what, text);
}

/* r0 = 0, and then for ever back by one slot. */
static void try_endless(void) {
    static const uint8_t loop[] = {0xb7, 0, 0, 0, 0, 0, 0, 0, 0x05, 0, 0xfe, 0xff, 0, 0, 0, 0, 0x95, 0, 0, 0, 0, 0, 0, 0};
    install("the loop", loop, sizeof loop);
}

/* r2 = r1; r1 = map 0; r0 = lookup; r0 = *r0 without a test; and with a test, 8 bytes behind the value. */
static void try_pointer(void) {
    static const uint8_t untested[] = {0xbf, 0x12, 0, 0, 0, 0, 0, 0, 0x18, 0x51, 0, 0, 0, 0, 0, 0, 0,    0, 0, 0, 0, 0, 0, 0,
                                       0x85, 0,    0, 0, 1, 0, 0, 0, 0x79, 0,    0, 0, 0, 0, 0, 0, 0x95, 0, 0, 0, 0, 0, 0, 0};
    static const uint8_t behind[] = {0xbf, 0x12, 0, 0, 0, 0, 0, 0, 0x18, 0x51, 0, 0, 0, 0, 0, 0, 0,    0, 0, 0, 0, 0, 0, 0, 0x85, 0, 0, 0,
                                     1,    0,    0, 0, 0x15, 0, 1, 0, 0, 0, 0, 0, 0x79, 0, 8, 0, 0, 0, 0, 0, 0x95, 0, 0, 0, 0, 0, 0, 0};
    install("null", untested, sizeof untested);
    install("an address behind the value", behind, sizeof behind);
}

/* The process gets no memory any more, and then a map is full. */
static void try_memory(void) {
    enum { CALLS = 100000 };
    struct rlimit none = {0, 0};
    if (setrlimit(RLIMIT_AS, &none) || malloc(64 << 20)) fail("memory is not refused");
    for (uint32_t i = 0; i < CALLS; i++) visited(0, "visit", 7 + i % 2);
    printf("no call takes memory: 100,000 are answered while the process gets none. ");
    int64_t full = (int64_t)visited(0, "visit", 9);
    if (full != -7) fail("the full map answers something else");
    printf("Where a map is full the helper answers -7, and the operation says what then. ");
}

void rival_fault(const char *fault) {
    nrbpf_config config = NRBPF_CONFIG(1, 2);
    config.spare = 1;
    open_store("examples/visits/manifest", config);
    attach_all(2, 1);
    visited(1, "visit", 7);
    uint64_t before = visited(1, "visits", 7);
    if (strcmp(fault, "endless") == 0) try_endless();
    else if (strcmp(fault, "pointer") == 0) try_pointer();
    else if (strcmp(fault, "memory") == 0) try_memory();
    else fail(fault);
    uint64_t after = visited(1, "visits", 7);
    if (after < before) fail("the state was changed");
    double from = now();
    for (int i = 0; i < 1000; i++) visited(1, "visits", 7);
    printf("Other sessions are answered (1,000 reads in %.1f ms)\n", (now() - from) / 1e6);
    rival_close();
}
