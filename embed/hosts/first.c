// first.c: the smallest whole host. It opens a store of the counter in examples/counter, counts, and reads. docs/EMBEDDING.md shows how to
// compile it, also with what is installed; it runs in the top folder of the repository.
#include <nrbpf.h>
#include <inttypes.h>
#include <stdio.h>
#include <string.h>

static char manifest[4096], bump_hex[4096], peek_hex[4096];

// Reads a file as a text, and answers its length.
static size_t read_text(const char *path, char *text, size_t room) {
    FILE *file = fopen(path, "rb");
    size_t len = file ? fread(text, 1, room, file) : 0;
    if (file) fclose(file);
    return len;
}

static int complain(nrbpf_status status) {
    fprintf(stderr, "%s\n", nrbpf_status_text(status));
    return 1;
}

int main(void) {
    const char *const names[] = {"examples/counter/bump.hex", "examples/counter/peek.hex"};
    size_t len = read_text("examples/counter/manifest", manifest, sizeof manifest);
    nrbpf_file files[] = {{names[0], strlen(names[0]), bump_hex, read_text(names[0], bump_hex, sizeof bump_hex)},
                          {names[1], strlen(names[1]), peek_hex, read_text(names[1], peek_hex, sizeof peek_hex)}};

    nrbpf_config config = NRBPF_CONFIG(2, 4); // two nodes, four sessions of each
    nrbpf_store *store;
    nrbpf_error why;
    if (nrbpf_open(&config, manifest, len, files, 2, &store, &why)) {
        char text[512];
        nrbpf_error_text(&why, text, sizeof text);
        fprintf(stderr, "%s\n", text);
        return 1;
    }

    nrbpf_session *session;
    nrbpf_answer answer;
    nrbpf_status status;
    uint16_t bump, peek;
    const uint8_t key[4] = {3, 0, 0, 0}; // the counter's number, low byte first
    if ((status = nrbpf_program_number(store, "bump", 4, &bump))) return complain(status);
    if ((status = nrbpf_program_number(store, "peek", 4, &peek))) return complain(status);
    if ((status = nrbpf_attach(store, 0, &session))) return complain(status);

    if ((status = nrbpf_update(session, bump, key, sizeof key, &answer))) return complain(status);
    printf("update %" PRIu64 " reply %" PRIu64 ", ", answer.point, answer.reply);
    if ((status = nrbpf_read(session, peek, key, sizeof key, &answer))) return complain(status);
    printf("read %" PRIu64 " reply %" PRIu64 "\n", answer.point, answer.reply);

    if ((status = nrbpf_detach(session))) return complain(status);
    if ((status = nrbpf_close(store))) return complain(status);
    return 0;
}
