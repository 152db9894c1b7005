/* A reader that tells one number wrongly, to see that who checks its answers notices. MISREAD has the call, counted from 0, the slot of its answer, and what is
 * added there; the number of a refusal is answered too. `tools/hosts` puts it into an archive in the place of the reader's own, which is there under another name. */
#include "sporebasket.h"

#include <stdio.h>
#include <stdlib.h>

size_t sporebasket_read_event_itself(const uint8_t *document, size_t length, size_t *stack, size_t stack_slots, size_t *state,
                                     size_t state_slots, size_t *answer, size_t answer_slots);

size_t sporebasket_read_event(const uint8_t *document, size_t length, size_t *stack, size_t stack_slots, size_t *state,
                              size_t state_slots, size_t *answer, size_t answer_slots)
{
    static size_t calls = 0;
    const char *fault = getenv("MISREAD");
    size_t call, slot;
    long added;
    size_t refusal = sporebasket_read_event_itself(document, length, stack, stack_slots, state, state_slots, answer, answer_slots);

    if (fault != NULL && sscanf(fault, "%zu %zu %ld", &call, &slot, &added) == 3 && call == calls && slot < answer_slots) {
        answer[slot] += (size_t)added;
        if (slot == SPOREBASKET_ANSWER_NUMBER) {
            refusal = answer[slot];
        }
    }
    calls++;
    return refusal;
}
