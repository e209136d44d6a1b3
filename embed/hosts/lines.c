// lines.c: what surrounds the lines of C in README.md and docs/EMBEDDING.md, which embed/run takes out of them.
#include "fixture.h"

#define check(call) EXPECT_STATUS(call, NRBPF_OK)

static void readme(const char *manifest, const nrbpf_file *files) {
    const uint8_t key[4] = {0};
    nrbpf_store *store;
    nrbpf_session *session;
    nrbpf_error why;
    nrbpf_answer answer;
    uint16_t bump;
#include "readme.inc"
    EXPECT(answer.point == 0 && answer.reply == 1);
}

int main(void) {
    counter given = counter_files();
    const char *manifest = given.manifest;
    const nrbpf_file *files = given.files;
    const uint8_t key[4] = {0};
#include "lines.inc"
    EXPECT(told.point == 0 && told.reply == 1 && seen.point == 1 && seen.reply == 1);
    readme(manifest, files);
    give_back(&given);
    printf("the lines of C in README.md and docs/EMBEDDING.md count to %d\n", (int)seen.reply);
    return 0;
}
