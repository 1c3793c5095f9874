/* The run of pnmlstruct(1) as a call: bytes in, bytes out and a status.
 *
 * Link libpnmlstruct_c.a and the part of the toolchain that gives memory by malloc, realloc and free; bin/check-library
 * shows how. The call reads no file and writes none, and it keeps nothing from one call to the next.
 */
#ifndef PNMLSTRUCT_H
#define PNMLSTRUCT_H

#include <stddef.h>
#include <stdint.h>

#ifdef __cplusplus
extern "C" {
#endif

/* How many bytes of each buffer a call filled. */
struct pnmlstruct_written {
    size_t out;
    size_t err;
};

/* The statuses, which are those of the program. */
enum pnmlstruct_status {
    PNMLSTRUCT_DONE = 0,          /* the text is in `out` */
    PNMLSTRUCT_NOT_ACCEPTED = 1,  /* a certificate or a firing list is malformed or rejected */
    PNMLSTRUCT_USAGE = 2,         /* the words mean nothing */
    PNMLSTRUCT_REFUSED = 3,       /* the document is refused */
    PNMLSTRUCT_WIDE = 4,          /* a number exceeds 2^127 - 1 */
    PNMLSTRUCT_ROW_BUDGET = 5,    /* a step of the elimination has more candidate rows than allowed */
    PNMLSTRUCT_SET_LIMIT = 6,     /* there are more grown siphons or traps than allowed */
    PNMLSTRUCT_TOO_LONG = 7,      /* the input has more than 67,108,864 bytes */
    PNMLSTRUCT_TEXT_CUT = 9,      /* the text doesn't fit into `out`, which is full of its front */
    PNMLSTRUCT_NO_MEMORY = 10     /* memory was refused; then both buffers may have got nothing */
};

/* Runs what the words mean on the input.
 *
 * words   the arguments of the program with one space between each two, as "places --rows 500"; UTF-8, no 0 at the end
 * input   what the program reads from standard input
 * out     gets the text at its front, as standard output
 * err     gets the line of a status other than 0 at its front, as standard error; it is cut where it doesn't fit.
 *         A line has at most some 8,300 bytes: it may name two ids
 * written tells how many bytes each of the two got; what comes after them stays as it was
 *
 * Where the status is PNMLSTRUCT_TEXT_CUT, call again with a larger `out`. Status 8, a failed read, doesn't occur.
 *
 * The caller owes: no pointer is null, also where its size is 0; the sizes are true, and none exceeds PTRDIFF_MAX; the
 * two buffers and `written` overlap nothing else; nothing writes to any of them during the call. The call takes memory for
 * the two buffers once more, beside what the task needs. Calls in several threads at a time are fine. No call from a
 * signal handler, nor in the forked child of a process with threads.
 */
uint8_t pnmlstruct_run(const uint8_t *words, size_t words_size,
                       const uint8_t *input, size_t input_size,
                       uint8_t *out, size_t out_size,
                       uint8_t *err, size_t err_size,
                       struct pnmlstruct_written *written);

#ifdef __cplusplus
}
#endif

#endif
