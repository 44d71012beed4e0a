/* Titan for C: a model-based executive behind a handle.
 *
 * A session reads a text line by line, as `titan run` does: first the lines of a model, then the line `script`, then events, among them
 * `tick`. What `titan run` would print for these lines comes out, byte for byte; docs/LANGUAGE.md of the repository says what may be written and
 * what is printed. Nothing here blocks, reads a file, starts a thread, or keeps a pointer of the caller behind the call.
 *
 * The caller allocates the handle, as a variable or a member, and the library what the handle points to, by malloc, realloc and free:
 *
 *     titan session = TITAN_NOTHING;
 *     uint8_t text[512];
 *     size_t length;
 *     uint32_t status = titan_open(&session, TITAN_IN_WORDS);
 *     status = titan_line(&session, (const uint8_t *)"titan 1", 7, text, sizeof text, &length);
 *     titan_close(&session);
 *
 * WHAT THE CALLER OWES. No call can check these:
 *   - A handle begins as TITAN_NOTHING. Only the library reads or changes its member, and a handle is never copied.
 *   - Each pointer is valid for its length, and isn't NULL, also where the length is 0.
 *   - The areas of one call, the handle and `*written` among them, don't overlap.
 *   - Calls with the same handle come one after the other, and from one thread. No call comes from a signal handler, or from the forked
 *     child of a process with threads.
 *   - The stack has room: no proof bounds what a call takes of it.
 *   - malloc, realloc and free are of one allocator. It aligns a block to each power of two up to 16 that divides its size.
 *
 * Sizes are in bytes. Every call returns, whatever the text is. A session takes 1,000,000 lines of at most 4,096 bytes; the next line, or a longer one, is
 * refused. A flight then opens a new session, whose model has the last printed modes behind `start`: behind a tick that sent nothing, since a new session knows no
 * last command, and with its goal and its mirrored variables given again. What stands in `out` and `*written` before a call may be anything. How much heap and stack a session takes is measured, not proved. */
#ifndef TITAN_H
#define TITAN_H

#include <stddef.h>
#include <stdint.h>

#ifdef __cplusplus
extern "C" {
#endif

/* A handle: nothing, or a session. */
typedef struct titan { void *at; } titan;

/* What a handle begins as. */
#ifdef __cplusplus
#define TITAN_NOTHING {nullptr}
#else
#define TITAN_NOTHING {NULL}
#endif

/* How a session prints: as `titan run`, as `titan run --json`, or as `titan run --proof`. */
enum titan_words {
    TITAN_IN_WORDS = 0,
    TITAN_AS_JSON = 1,
    TITAN_WITH_PROOFS = 2
};

/* What became of a call. Below TITAN_WRONG_CALL the session did what was asked, and this is where it stands. */
enum titan_status {
    TITAN_GOES_ON = 0,    /* the next line may come */
    TITAN_ENDED = 1,      /* the end of the lines came, and all of them were read */
    TITAN_REFUSED = 2,    /* a line was refused, or the model; the last line of the text says which and why; no line may come any more */
    TITAN_WRONG_CALL = 4, /* the call doesn't fit the handle, or an argument is wrong; nothing has changed, and *written is 0 */
    TITAN_NO_MEMORY = 5   /* memory ran out; the session is freed, and text that still waited is lost with it; the handle holds nothing, and *written is 0 */
};

/* Opens a session in a handle that holds nothing. `words` is one of titan_words.
 * TITAN_GOES_ON; TITAN_WRONG_CALL where the handle holds a session or `words` is another number; TITAN_NO_MEMORY. */
uint32_t titan_open(titan *handle, uint32_t words);

/* Hands the session one line of `length` bytes without its LF, and moves as much as fits of the text that waits to the front of `out`,
 * whose size is `room`; `*written` is how much that is. What waits is what didn't fit before, and behind it what this line prints. If
 * `*written` is less than `room`, nothing is left waiting; the bytes of `out` behind it are as before.
 * Where `*written` is `room`, more may wait: titan_take has it. A line that is refused is no wrong call: it prints its refusal.
 * TITAN_GOES_ON, TITAN_REFUSED; TITAN_WRONG_CALL where the line has an LF in it, or the handle holds no session that goes on;
 * TITAN_NO_MEMORY. */
uint32_t titan_line(titan *handle, const uint8_t *line, size_t length, uint8_t *out, size_t room, size_t *written);

/* Moves as much as fits of the text that waits to the front of `out`, and changes nothing else.
 * Where the session stands: TITAN_GOES_ON, TITAN_ENDED, TITAN_REFUSED; TITAN_WRONG_CALL where the handle holds nothing. */
uint32_t titan_take(titan *handle, uint8_t *out, size_t room, size_t *written);

/* Tells the session that no line comes any more, and moves as much as fits of the text that waits to the front of `out`.
 * TITAN_ENDED; TITAN_REFUSED where the lines end before their model does; TITAN_WRONG_CALL where the handle holds no session that goes
 * on; TITAN_NO_MEMORY. */
uint32_t titan_end(titan *handle, uint8_t *out, size_t room, size_t *written);

/* Frees all that the handle holds, and leaves nothing in it. It may be called again, and a session may be opened in it again. */
void titan_close(titan *handle);

#ifdef __cplusplus
}
#endif
#endif
