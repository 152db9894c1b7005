/* Open names that are listed wrongly, to see that who goes by the list notices. MISROW has a word, `rows` or `filled`, a slot of the list or of the answer, and what is added there; of the list it has to be
 * one that was filled. `tools/hosts` puts it into an archive in the place of the function itself, which is there under another name. */
#include "sporebasket.h"

#include <stdio.h>
#include <stdlib.h>
#include <string.h>

size_t sporebasket_open_rows_itself(const size_t *stack, size_t stack_slots, const size_t *state, size_t state_slots, size_t *rows,
                                    size_t rows_slots, size_t *answer, size_t answer_slots);

size_t sporebasket_open_rows(const size_t *stack, size_t stack_slots, const size_t *state, size_t state_slots, size_t *rows,
                             size_t rows_slots, size_t *answer, size_t answer_slots)
{
    const char *fault = getenv("MISROW");
    char which[8];
    size_t slot;
    long added;
    size_t refusal = sporebasket_open_rows_itself(stack, stack_slots, state, state_slots, rows, rows_slots, answer, answer_slots);

    if (fault == NULL || refusal != 0 || sscanf(fault, "%7s %zu %ld", which, &slot, &added) != 3) {
        return refusal;
    }
    if (strcmp(which, "rows") == 0 && slot < answer[SPOREBASKET_FILLED_ROWS] * SPOREBASKET_ROW_SLOTS) {
        rows[slot] += (size_t)added;
    }
    if (strcmp(which, "filled") == 0 && slot < answer_slots && answer[slot] > 0) {
        answer[slot] += (size_t)added;
    }
    return 0;
}
