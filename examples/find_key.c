/*
 * Finds an encoding key in an archive index:
 *
 *     find_key INDEX KEY
 *
 * prints the key, its encoded size, the archive number (a dash where the index
 * has none) and the offset, with tabs between. The index is checked before it
 * is searched. Exit status: 0 found, 1 absent, 2 refused, 3 a file could not be
 * read or written, 64 wrong usage.
 */
#include <dwarnizza.h>

#include <errno.h>
#include <inttypes.h>
#include <stdio.h>
#include <stdlib.h>
#include <string.h>

enum { FOUND = 0, ABSENT = 1, REFUSED = 2, UNREADABLE = 3, USAGE = 64 };

struct bytes {
    uint8_t *data;
    size_t length;
};

/* Reads the rest of a file; 0 where that fails. The data is to be freed. */
static int read_rest(FILE *file, struct bytes *bytes) {
    size_t room = 0;
    while (!feof(file)) {
        if (bytes->length == room) {
            room = 2 * room + 4096;
            uint8_t *data = (uint8_t *)realloc(bytes->data, room);
            if (data == NULL)
                return 0;
            bytes->data = data;
        }
        bytes->length += fread(bytes->data + bytes->length, 1, room - bytes->length, file);
        if (ferror(file))
            return 0;
    }
    return 1;
}

/* Reads a file; 0 where that fails, with the reason in errno. The data is to be freed. */
static int read_file(const char *name, struct bytes *bytes) {
    FILE *file = fopen(name, "rb");
    if (file == NULL)
        return 0;
    int is_read = read_rest(file, bytes);
    int reason = errno;
    fclose(file);
    errno = reason;
    return is_read;
}

/* Says what was refused, and why. */
static int refused(const char *what, const uint64_t answer[8]) {
    uint64_t number = answer[0], place = answer[1];
    const char *place_words = dwarnizza_place_words(number);
    fprintf(stderr, "find_key: %s: refused %" PRIu64 ": %s", what, number, dwarnizza_words(number));
    if (place_words[0] != '\0')
        fprintf(stderr, " (%s %" PRIu64 ")", place_words, place);
    fputc('\n', stderr);
    return REFUSED;
}

/* Prints what a lookup found. Only with an offset width of 6 has a location an archive number. */
static int found(const char *text, uint64_t offset_width, uint64_t size, uint64_t location) {
    printf("found\t%s\t%" PRIu64 "\t", text, size);
    if (offset_width == 6)
        printf("%" PRIu64 "\t%" PRIu64 "\n", location >> 32, location & 0xffffffff);
    else
        printf("-\t%" PRIu64 "\n", location);
    return FOUND;
}

/* Finds the key of this text in an index, which was read from a file of this name. */
static int find(const char *name, struct bytes index, const char *text) {
    uint64_t answer[8];
    if (dwarnizza_index_check(index.data, index.length, answer) == DWARNIZZA_REFUSED)
        return refused(name, answer);
    uint64_t offset_width = answer[1];
    uint32_t key_length = (uint32_t)answer[2];

    uint8_t key[16];
    const uint8_t *digits = (const uint8_t *)text;
    if (dwarnizza_key_text(digits, strlen(text), key_length, key, answer) == DWARNIZZA_REFUSED)
        return refused(text, answer);

    switch (dwarnizza_index_lookup(index.data, index.length, key, key_length, answer)) {
    case DWARNIZZA_ANSWERED: return found(text, offset_width, answer[2], answer[3]);
    case DWARNIZZA_ABSENT: printf("absent\t%s\n", text); return ABSENT;
    default: return refused(name, answer);
    }
}

int main(int argc, char **argv) {
    if (argc != 3) {
        fputs("usage: find_key INDEX KEY\n", stderr);
        return USAGE;
    }
    struct bytes index = {NULL, 0};
    int status = UNREADABLE;
    if (read_file(argv[1], &index))
        status = find(argv[1], index, argv[2]);
    else
        fprintf(stderr, "find_key: %s: %s\n", argv[1], strerror(errno));
    free(index.data);
    if (fclose(stdout) != 0) {
        fprintf(stderr, "find_key: standard output: %s\n", strerror(errno));
        status = UNREADABLE;
    }
    return status;
}
