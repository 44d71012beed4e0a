/* Runs texts through the library, each in pieces of several sizes, and compares what comes out with what must come out.
 *
 *     c_rows < TABLE
 *
 * A line of TABLE has six words: a name, how to print (run, json or proof), the status (ended or refused), the text, what must be printed, and
 * how many bytes of which number come behind the text, as 1000001x10, or 0. Prints a line for each text that differs, and then how many are right. */
#include "titan.h"

#include <stdio.h>
#include <stdlib.h>
#include <string.h>

struct bytes { uint8_t *at; size_t length, room; };

static void add(struct bytes *bytes, const uint8_t *more, size_t count) {
    if (bytes->length + count > bytes->room || bytes->at == NULL) {
        bytes->room = 2 * (bytes->length + count) + 64;
        bytes->at = realloc(bytes->at, bytes->room);
        if (bytes->at == NULL) exit(2);
    }
    if (count > 0) memcpy(bytes->at + bytes->length, more, count);
    bytes->length += count;
}

static struct bytes file_bytes(const char *path) {
    struct bytes bytes = {NULL, 0, 0};
    uint8_t piece[4096];
    FILE *file = fopen(path, "rb");
    if (file == NULL) { perror(path); exit(2); }
    add(&bytes, piece, 0);
    for (size_t count; (count = fread(piece, 1, sizeof piece, file)) > 0;) add(&bytes, piece, count);
    fclose(file);
    return bytes;
}

/* Adds a piece, and all that waits behind it. */
static uint32_t rest(titan *session, uint32_t status, struct bytes *text, uint8_t *out, size_t room, size_t written) {
    if (status >= TITAN_WRONG_CALL) return status;
    add(text, out, written);
    while (written == room) {
        if (titan_take(session, out, room, &written) != status) return TITAN_WRONG_CALL;
        add(text, out, written);
    }
    return status;
}

/* Runs a text: the status, and what came out in pieces of so many bytes. */
static uint32_t run(uint32_t words, const struct bytes *input, size_t room, struct bytes *text) {
    titan session = TITAN_NOTHING;
    uint8_t *out = malloc(room);
    size_t from = 0, written;
    if (out == NULL) exit(2);
    uint32_t status = titan_open(&session, words);
    while (status == TITAN_GOES_ON && from < input->length) {
        const uint8_t *end = memchr(input->at + from, '\n', input->length - from);
        size_t length = (end == NULL ? input->length : (size_t)(end - input->at)) - from;
        status = titan_line(&session, input->at + from, length, out, room, &written);
        status = rest(&session, status, text, out, room, written);
        from += length + 1;
    }
    if (status == TITAN_GOES_ON) {
        status = titan_end(&session, out, room, &written);
        if (status == TITAN_ENDED && written > 0) status = TITAN_WRONG_CALL; /* all was said before the end */
        status = rest(&session, status, text, out, room, written);
    }
    titan_close(&session);
    if (session.at != NULL) exit(2);
    free(out);
    return status;
}

int main(void) {
    static const size_t rooms[] = {1, 7, 512, 65536};
    static char name[128], print[16], ends[16], input_path[512], output_path[512], fill[32];
    unsigned right = 0, all = 0;
    while (scanf("%127s %15s %15s %511s %511s %31s", name, print, ends, input_path, output_path, fill) == 6) {
        struct bytes input = file_bytes(input_path), wanted = file_bytes(output_path);
        uint32_t words = print[0] == 'r' ? TITAN_IN_WORDS : print[0] == 'j' ? TITAN_AS_JSON : TITAN_WITH_PROOFS;
        uint32_t status = ends[0] == 'e' ? TITAN_ENDED : TITAN_REFUSED;
        const char *number = strchr(fill, 'x');
        uint8_t byte = number == NULL ? 0 : (uint8_t)atoi(number + 1);
        for (long count = atol(fill); count > 0; count--) add(&input, &byte, 1);
        for (size_t i = 0; i < sizeof rooms / sizeof *rooms; i++) {
            struct bytes text = {NULL, 0, 0};
            add(&text, NULL, 0);
            uint32_t ended = run(words, &input, rooms[i], &text);
            int same = ended == status && text.length == wanted.length && memcmp(text.at, wanted.at, wanted.length) == 0;
            if (!same) printf("%s as %s in pieces of %zu: status %u, %zu bytes, wanted %zu\n", name, print, rooms[i], (unsigned)ended, text.length, wanted.length);
            all++;
            right += (unsigned)same;
            free(text.at);
        }
        free(input.at);
        free(wanted.at);
    }
    printf("%u of %u runs of rows in pieces are right\n", right, all);
    return right == all && all > 0 && feof(stdin) ? 0 : 1;
}
