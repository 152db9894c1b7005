/* A plain engine that answers or leaves one number wrongly, to see that who runs it beside the other notices. MISPLAIN has the call, counted from 0, a word, `number`, `answer`, `state` or `stack`, the slot, and what is added
 * there; of the number it is slot 0. `tools/hosts` puts it into an archive in the place of the engine's own function, which is there under another name. */
#include "sporebasket.h"

#include <stdio.h>
#include <stdlib.h>
#include <string.h>

size_t sporebasket_plain_read_event_itself(const uint8_t *document, size_t length, size_t *stack, size_t stack_slots, size_t *state,
                                           size_t state_slots, size_t *answer, size_t answer_slots);

/* Adds to the slot, if it is one of these and they have that name. */
static void add(const char *name, size_t *slots, size_t count, const char *which, size_t slot, long added)
{
    if (strcmp(which, name) == 0 && slot < count) {
        slots[slot] += (size_t)added;
    }
}

size_t sporebasket_plain_read_event(const uint8_t *document, size_t length, size_t *stack, size_t stack_slots, size_t *state,
                                    size_t state_slots, size_t *answer, size_t answer_slots)
{
    static size_t calls = 0;
    const char *fault = getenv("MISPLAIN");
    char which[8];
    size_t call, slot;
    long added;
    size_t number = sporebasket_plain_read_event_itself(document, length, stack, stack_slots, state, state_slots, answer, answer_slots);

    if (fault != NULL && sscanf(fault, "%zu %7s %zu %ld", &call, which, &slot, &added) == 4 && call == calls) {
        add("number", &number, 1, which, slot, added);
        add("answer", answer, answer_slots, which, slot, added);
        add("state", state, state_slots, which, slot, added);
        add("stack", stack, stack_slots, which, slot, added);
    }
    calls++;
    return number;
}
