/* The fewest fences, for C and C++: the proved calls `look` and `outcomes` of the static library.
 *
 * Link crates/capi/out/libcapi.a, which `rt lib` in crates/capi writes. The library allocates nothing, keeps nothing between
 * calls, and calls nothing but memcpy, memmove and memset: all memory is lent by the caller. Different threads may call it with
 * different memory.
 *
 * A program is words: how many threads (1 to 4); for each how many instructions (at most 8), and four words for each:
 *   0 register number 0     a number (0 to 15) into a register (0 to 3)
 *   1 register first second the sum of two registers, modulo 16, into a register
 *   2 register place 0      a place (0 to 7) into a register
 *   3 place register 0      a register to a place
 *   4 0 0 0                 a fence
 *
 * `most` is how many states are allowed at the least. `work` is lent: at least FENCES_WORK(most) words, or the answer is
 * `FENCES_FEW`; where more is lent, more states are explored before the program is called crowded. It need not be
 * cleared, and what it holds afterwards means nothing. `out` takes the answer and stays as it was where nothing is told.
 *
 * Each of the three is a pointer and how many words it points to; the pointer may be null if that is 0. They must not
 * overlap. */
#ifndef FENCES_H
#define FENCES_H

#include <stddef.h>
#include <stdint.h>

#ifdef __cplusplus
extern "C" {
#endif

/* Kinds of answers. */
enum {
    /* fences_look: everything that comes out where stores wait comes out at once */
    FENCES_PLAIN = 0,
    /* fences_outcomes: all outcomes are listed */
    FENCES_LISTED = 0,
    /* fences_look: something new comes out; a run that shows it and the fewest fences are told */
    FENCES_FENCES = 1,
    /* there are more states than allowed */
    FENCES_CROWDED = 2,
    /* `out` is too short for the answer: see below */
    FENCES_OUT_FULL = 3,
    /* the words are no program */
    FENCES_NO_PROGRAM = 4,
    /* fewer than FENCES_WORK(most) words are lent */
    FENCES_FEW = 5
};

/* How many words `work` must have at the least. */
#define FENCES_WORK(most) ((size_t)65536 + (size_t)128 * ((size_t)(most) + 1))

/* How many words of `out` are always enough for fences_look. */
#define FENCES_OUT 256

typedef struct {
    uint32_t kind;
    size_t moves;  /* with FENCES_FENCES: how many moves the run has */
    size_t fences; /* with FENCES_FENCES: how many fences there are */
} fences_looked;

typedef struct {
    uint32_t kind;
    size_t outcomes; /* with FENCES_LISTED: how many outcomes there are */
    size_t states;   /* with FENCES_LISTED: how many states runs come to */
} fences_listed;

/* Is the program plain? If not, the first `moves` words of `out` are a run whose outcome can't come out at once: a
 * thread's number for its next instruction, 4 more for its oldest store going to memory. The next 2 * `fences` words are
 * the fewest fences with which it is plain, and of the lists as short the first: the thread, and the number (from 0) of
 * the instruction that the fence is put before. FENCES_OUT_FULL only with fewer than FENCES_OUT words of `out`. */
fences_looked fences_look(const uint32_t *words, size_t words_len, uint32_t most,
                          uint32_t *out, size_t out_len, uint32_t *work, size_t work_len);

/* All outcomes of the program, each once: `outcomes` rows of 9 + 4 * threads words. A row is 1 if the outcome also comes
 * out at once, else 0; then four registers for each thread; then the eight places of memory. FENCES_OUT_FULL exactly if
 * the rows are longer than `out`. */
fences_listed fences_outcomes(const uint32_t *words, size_t words_len, uint32_t most,
                              uint32_t *out, size_t out_len, uint32_t *work, size_t work_len);

#ifdef __cplusplus
}
#endif

#endif
