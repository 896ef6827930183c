/*
 * Prints the MD5 of standard input, which is read and hashed in parts. Exit
 * status: 0 hashed, 2 refused, 3 standard input could not be read or standard
 * output could not be written.
 */
#include <dwarnizza.h>

#include <errno.h>
#include <inttypes.h>
#include <stdio.h>
#include <string.h>

enum { HASHED = 0, REFUSED = 2, UNREADABLE = 3 };

static int failed(const char *what) {
    fprintf(stderr, "md5: %s: %s\n", what, strerror(errno));
    return UNREADABLE;
}

/* Hashes standard input. */
static int hash(struct dwarnizza_md5_state *state) {
    uint64_t answer[8];
    uint8_t part[4096];
    dwarnizza_md5_start(state->words, state->pending, &state->count, answer);
    while (!feof(stdin)) {
        size_t length = fread(part, 1, sizeof part, stdin);
        if (ferror(stdin))
            return failed("standard input");
        uint32_t result = dwarnizza_md5_update(part, length, state->words, state->pending,
                                               &state->count, answer);
        if (result == DWARNIZZA_REFUSED) {
            fprintf(stderr, "md5: refused %" PRIu64 ": %s\n", answer[0], dwarnizza_words(answer[0]));
            return REFUSED;
        }
    }
    return HASHED;
}

static void print(const struct dwarnizza_md5_state *state) {
    uint64_t answer[8];
    uint8_t digest[16];
    dwarnizza_md5_finish(state->words, state->pending, state->count, digest, answer);
    for (size_t i = 0; i < sizeof digest; i++)
        printf("%02x", (unsigned)digest[i]);
    putchar('\n');
}

int main(void) {
    struct dwarnizza_md5_state state;
    int status = hash(&state);
    if (status == HASHED)
        print(&state);
    if (fclose(stdout) != 0)
        status = failed("standard output");
    return status;
}
