/* The library from C: the two threads that each write their own place and read the other's.
 * Build and run it by `scripts/c-and-rust`. */
#include "fences.h"

#include <stdio.h>
#include <stdlib.h>

static const uint32_t PROGRAM[] = {
    2,
    3, 0, 0, 1, 0, 3, 0, 0, 0, 2, 1, 1, 0, /* r0 = 1; [0] = r0; r1 = [1] */
    3, 0, 0, 1, 0, 3, 1, 0, 0, 2, 1, 0, 0, /* r0 = 1; [1] = r0; r1 = [0] */
};

#define LENGTH (sizeof PROGRAM / sizeof PROGRAM[0])

static void print_run(const uint32_t *moves, size_t count) {
    for (size_t k = 0; k < count; k++)
        printf("  thread %u: %s\n", moves[k] % 4, moves[k] < 4 ? "its next instruction" : "its oldest store goes to memory");
}

int main(void) {
    const uint32_t most = 1000;
    const size_t lent = FENCES_WORK(most);
    uint32_t out[FENCES_OUT];
    uint32_t *work = malloc(lent * sizeof *work);
    if (work == NULL)
        return 1;

    fences_looked looked = fences_look(PROGRAM, LENGTH, most, out, FENCES_OUT, work, lent);
    if (looked.kind == FENCES_FENCES) {
        printf("not plain: a run of %zu moves\n", looked.moves);
        print_run(out, looked.moves);
        for (size_t k = 0; k < looked.fences; k++)
            printf("a fence before instruction %u of thread %u\n", out[looked.moves + 2 * k + 1] + 1, out[looked.moves + 2 * k]);
    }

    fences_listed listed = fences_outcomes(PROGRAM, LENGTH, most, out, FENCES_OUT, work, lent);
    if (listed.kind == FENCES_LISTED)
        printf("%zu outcomes, %zu states\n", listed.outcomes, listed.states);

    /* no words are no program, and nothing lent is too few: a pointer may be null where its length is 0 */
    printf("no words: %u\n", fences_look(NULL, 0, most, NULL, 0, work, lent).kind);
    printf("nothing lent: %u\n", fences_look(PROGRAM, LENGTH, most, NULL, 0, NULL, 0).kind);
    free(work);
    return 0;
}
