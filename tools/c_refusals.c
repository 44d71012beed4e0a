/* Refuses each allocation of a flight in turn: the call that wants it answers that memory ran out, the handle is empty, no block is left, and
 * another session can be opened. Then calls that don't fit: each is answered so, and changes nothing. Linked with --wrap for malloc, realloc and free.
 *
 *     c_refusals MODEL */
#include "titan.h"

#include <stdio.h>
#include <stdlib.h>
#include <string.h>

void *__real_malloc(size_t size);
void *__real_realloc(void *at, size_t size);
void __real_free(void *at);
void *__wrap_malloc(size_t size);
void *__wrap_realloc(void *at, size_t size);
void __wrap_free(void *at);

static long until_refused = -1, blocks;

static int refuses(void) { return until_refused >= 0 && until_refused-- == 0; }

void *__wrap_malloc(size_t size) {
    void *at = refuses() ? NULL : __real_malloc(size);
    blocks += at != NULL;
    return at;
}

void *__wrap_realloc(void *at, size_t size) {
    void *moved = refuses() ? NULL : __real_realloc(at, size);
    blocks += at == NULL && moved != NULL;
    return moved;
}

void __wrap_free(void *at) {
    blocks -= at != NULL;
    __real_free(at);
}

static int fault(const char *what, long at) { return printf("c_refusals: %s at %ld\n", what, at), 1; }

/* A flight over a text; what comes out is let go, but for what the last call left. */
static uint32_t flight(titan *session, const char *text) {
    uint8_t out[64];
    size_t written = 0;
    uint32_t status = titan_open(session, TITAN_WITH_PROOFS);
    while (status == TITAN_GOES_ON && *text != '\0') {
        size_t length = strcspn(text, "\n");
        status = titan_line(session, (const uint8_t *)text, length, out, sizeof out, &written);
        if (status >= TITAN_WRONG_CALL && written != 0) return 9;
        text += length + (text[length] == '\n');
    }
    if (status == TITAN_GOES_ON) status = titan_end(session, out, sizeof out, &written);
    return status >= TITAN_WRONG_CALL && written != 0 ? 9 : status;
}

static int each_in_turn(const char *text, uint32_t wanted) {
    for (long at = 0;; at++) {
        titan session = TITAN_NOTHING;
        uint8_t out[8];
        size_t written = 7;
        until_refused = at;
        uint32_t status = flight(&session, text);
        if (until_refused >= 0) {
            titan_close(&session);
            if (status != wanted || blocks != 0 || at == 0) return fault("a flight with memory doesn't end, or leaves a block", at);
            printf("%ld allocations refused in turn: each said so, and left nothing\n", at);
            return 0;
        }
        if (status != TITAN_NO_MEMORY) return fault("the status isn't that memory ran out", at);
        if (session.at != NULL || blocks != 0) return fault("the handle isn't empty, or a block is left", at);
        if (titan_take(&session, out, sizeof out, &written) != TITAN_WRONG_CALL || written != 0) return fault("an empty handle gives text", at);
        if (titan_open(&session, TITAN_IN_WORDS) != TITAN_GOES_ON) return fault("no session can be opened again", at);
        titan_close(&session);
        titan_close(&session);
        if (blocks != 0) return fault("a block is left behind the close", at);
    }
}

static int wrong_calls(void) {
    titan session = TITAN_NOTHING;
    uint8_t out[16] = "unchanged";
    size_t n = 9;
    const uint8_t *two = (const uint8_t *)"titan 1\ntitan 1";
    until_refused = -1;
    if (titan_line(&session, two, 7, out, 16, &n) != TITAN_WRONG_CALL || n != 0) return fault("a line without a session", 0);
    n = 9;
    if (titan_end(&session, out, 16, &n) != TITAN_WRONG_CALL || n != 0) return fault("an end without a session", 0);
    if (titan_open(&session, 3) != TITAN_WRONG_CALL || session.at != NULL) return fault("words of no form", 0);
    if (titan_open(&session, 0) != TITAN_GOES_ON) return fault("a session", 0);
    void *at = session.at;
    n = 9;
    if (titan_line(&session, two, 15, out, 16, &n) != TITAN_WRONG_CALL || n != 0 || session.at != at) return fault("a line with LF", 0);
    n = 9;
    if (titan_line(&session, two, 7, out, 0, &n) != TITAN_GOES_ON || n != 0) return fault("a line with no room", 0);
    if (titan_open(&session, 0) != TITAN_WRONG_CALL || session.at != at) return fault("a session in a held handle", 0);
    if (strcmp((char *)out, "unchanged") != 0) return fault("a buffer that was changed", 0);
    if (titan_line(&session, two, 1, out, 4, &n) != TITAN_REFUSED || n != 4 || memcmp(out, "refuanged", 9) != 0) return fault("a refused line", 0);
    if (titan_line(&session, two, 7, out, 16, &n) != TITAN_WRONG_CALL || titan_end(&session, out, 16, &n) != TITAN_WRONG_CALL) return fault("a call behind a refusal", 0);
    if (titan_take(&session, out, 16, &n) != TITAN_REFUSED || n != 16 || memcmp(out, "sed 2 1 malforme", 16) != 0) return fault("what waits behind a refusal", 0);
    if (titan_take(&session, out, 16, &n) != TITAN_REFUSED || n != 2 || memcmp(out, "d\nd 2 1 malforme", 16) != 0) return fault("the last of what waits", 0);
    titan_close(&session);
    return blocks == 0 ? 0 : fault("a block is left", 0);
}

int main(int count, char **words) {
    static char text[65536];
    FILE *file = count == 2 ? fopen(words[1], "r") : NULL;
    if (file == NULL) return 2;
    text[fread(text, 1, sizeof text - 1, file)] = '\0';
    fclose(file);
    blocks = 0;
    if (each_in_turn(text, TITAN_ENDED) != 0 || each_in_turn("titan 1", TITAN_REFUSED) != 0 || each_in_turn("titan 1\nt", TITAN_REFUSED) != 0 || wrong_calls() != 0) return 1;
    puts("calls that don't fit are answered so, and change nothing");
    return 0;
}
