// service.c: four threads bid for one item, through a store in this process. Meanwhile the store gets another operation, and at last another
// store goes on from the state of the first. docs/TUTORIAL.md goes through it; it runs in the top folder of the repository.
#include "auction.h"
#include <inttypes.h>
#include <nrbpf.h>
#include <pthread.h>
#include <stdio.h>
#include <stdlib.h>
#include <string.h>

enum { THREADS = 4, BIDS = 1000, MOST_TEXT = 4096, MOST_PROGRAM = 192 };

static const uint64_t item = 7;
static nrbpf_store *store;
static uint16_t bid, highest;

// Ends the service if a call is refused.
static void check(nrbpf_status status) {
    if (status == NRBPF_OK) return;
    fprintf(stderr, "%s\n", nrbpf_status_text(status));
    exit(1);
}

static nrbpf_file file_of(const char *name) {
    FILE *file = fopen(name, "rb");
    char *text = calloc(1, MOST_TEXT);
    if (!file || !text) {
        perror(name);
        exit(1);
    }
    size_t size = fread(text, 1, MOST_TEXT - 1, file);
    fclose(file);
    return (nrbpf_file){name, strlen(name), text, size};
}

// A thread of the service: it has a session of its own, and bids with it.
static void *serve(void *number) {
    const uint64_t bidder = (uint64_t)(uintptr_t)number;
    nrbpf_session *session;
    nrbpf_answer answer;
    check(nrbpf_attach(store, bidder % 2, &session));
    for (uint64_t k = 0; k < BIDS; k++) {
        const struct bid mine = {item, bidder, bidder + k * THREADS};
        check(nrbpf_update(session, bid, &mine, sizeof mine, &answer));
    }
    check(nrbpf_detach(session));
    return NULL;
}

// Installs the program of a file of hexadecimal digits, and answers its number.
static uint16_t install(nrbpf_session *session, const char *name) {
    uint8_t bytes[MOST_PROGRAM];
    size_t size = 0;
    nrbpf_answer answer;
    nrbpf_file file = file_of(name);
    int length;
    for (const char *at = file.text; size < MOST_PROGRAM && sscanf(at, " %2hhx%n", &bytes[size], &length) == 1; at += length) size++;
    check(nrbpf_install(session, NRBPF_MODE_READ, sizeof item, bytes, size, &answer, NULL));
    free((char *)file.text);
    if (answer.reply == NRBPF_REPLY_NO_ROOM) {
        fputs("there is no place for another program\n", stderr);
        exit(1);
    }
    return (uint16_t)answer.reply;
}

static uint64_t asked(nrbpf_session *session, uint16_t program) {
    nrbpf_answer answer;
    check(nrbpf_read(session, program, &item, sizeof item, &answer));
    return answer.reply;
}

int main(void) {
    nrbpf_file files[] = {file_of("examples/auction/bid.hex"), file_of("examples/auction/highest.hex")}, manifest = file_of("examples/auction/manifest");
    nrbpf_config config = NRBPF_CONFIG(2, 3); // two nodes, three sessions of each
    config.spare = 1;                         // a place for an operation that comes later
    nrbpf_session *session;
    pthread_t threads[THREADS];
    check(nrbpf_open(&config, manifest.text, manifest.text_len, files, 2, &store, NULL));
    check(nrbpf_program_number(store, "bid", 3, &bid));
    check(nrbpf_program_number(store, "highest", 7, &highest));
    check(nrbpf_attach(store, 0, &session));

    for (uintptr_t i = 0; i < THREADS; i++)
        if (pthread_create(&threads[i], NULL, serve, (void *)(i + 1))) return 1;
    const uint16_t winner = install(session, "examples/auction/winner.hex"); // while they bid
    for (int i = 0; i < THREADS; i++) pthread_join(threads[i], NULL);
    printf("winner is program %d\n", winner);
    printf("the highest bid is %" PRIu64 ", of bidder %" PRIu64 "\n", asked(session, highest), asked(session, winner));

    nrbpf_state *state;
    check(nrbpf_detach(session));
    check(nrbpf_close_into(store, &state)); // all keys, values and installed programs
    check(nrbpf_open_on(&config, manifest.text, manifest.text_len, files, 2, state, &store, NULL));
    nrbpf_state_free(state);
    check(nrbpf_attach(store, 0, &session));
    printf("in the next store it is %" PRIu64 ", of bidder %" PRIu64 "\n", asked(session, highest), asked(session, winner));
    check(nrbpf_detach(session));
    check(nrbpf_close(store));
    free((char *)manifest.text), free((char *)files[0].text), free((char *)files[1].text);
    return 0;
}
