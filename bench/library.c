/* Runs a text through Titan for C, on a stack of its own, and prints what that took: lines, bytes that came out, allocations, and the greatest heap and stack
 * in bytes. Linked with --wrap for malloc, realloc and free.
 *
 *     library TEXT */
#define _GNU_SOURCE
#include "titan.h"

#include <malloc.h>
#include <stdio.h>
#include <stdlib.h>
#include <string.h>
#include <ucontext.h>

void *__real_malloc(size_t size);
void *__real_realloc(void *at, size_t size);
void __real_free(void *at);
void *__wrap_malloc(size_t size);
void *__wrap_realloc(void *at, size_t size);
void __wrap_free(void *at);

static size_t heap, most_heap, allocations;

static void counted(size_t now) {
    heap = now;
    if (heap > most_heap) most_heap = heap;
}

void *__wrap_malloc(size_t size) {
    void *at = __real_malloc(size);
    allocations++;
    counted(heap + (at == NULL ? 0 : malloc_usable_size(at)));
    return at;
}

void *__wrap_realloc(void *at, size_t size) {
    size_t before = at == NULL ? 0 : malloc_usable_size(at);
    void *moved = __real_realloc(at, size);
    allocations++;
    if (moved != NULL) counted(heap - before + malloc_usable_size(moved));
    return moved;
}

void __wrap_free(void *at) {
    counted(heap - (at == NULL ? 0 : malloc_usable_size(at)));
    __real_free(at);
}

static uint8_t stack[4 << 20];
static char *text;
static size_t length, lines, came;
static uint32_t status;
static ucontext_t here, there;

static void flight(void) {
    static uint8_t out[4096];
    titan session = TITAN_NOTHING;
    size_t from = 0, written;
    status = titan_open(&session, TITAN_IN_WORDS);
    while (status == TITAN_GOES_ON && from < length) {
        size_t count = strcspn(text + from, "\n");
        status = titan_line(&session, (const uint8_t *)text + from, count, out, sizeof out, &written);
        came += written;
        lines++;
        from += count + 1;
    }
    if (status == TITAN_GOES_ON) status = titan_end(&session, out, sizeof out, &written);
    titan_close(&session);
}

int main(int count, char **words) {
    FILE *file = count == 2 ? fopen(words[1], "r") : NULL;
    if (file == NULL) return 2;
    text = __real_malloc(16 << 20);
    length = fread(text, 1, (16 << 20) - 1, file);
    text[length] = '\0';
    fclose(file);
    heap = most_heap = allocations = 0;
    memset(stack, 0xa5, sizeof stack);
    getcontext(&there);
    there.uc_stack.ss_sp = stack;
    there.uc_stack.ss_size = sizeof stack;
    there.uc_link = &here;
    makecontext(&there, flight, 0);
    swapcontext(&here, &there);
    size_t untouched = 0;
    while (untouched < sizeof stack && stack[untouched] == 0xa5) untouched++;
    printf("%zu %zu %zu %zu %zu\n", lines, came, allocations, most_heap, sizeof stack - untouched);
    return status == TITAN_ENDED && heap == 0 ? 0 : 1;
}
