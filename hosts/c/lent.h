/* What the programs beside it lend to a reader. */
#ifndef LENT_H
#define LENT_H

#include "sporebasket.h"

#include <stdlib.h>

/* What is lent to every call besides the document: the library keeps nothing itself. The stack holds the open names and the state holds where
 * the reader is, so both go from call to call as they are; an answer is written anew by each. */
struct lent {
    size_t *stack;
    size_t names; /* that the stack has room for */
    size_t state[SPOREBASKET_STATE_SLOTS];
    size_t answer[SPOREBASKET_ANSWER_SLOTS];
};

/* The byte order mark. */
static const uint8_t mark[] = {0xEF, 0xBB, 0xBF};

/* Makes a stack that is full twice as long, if more names may be open, and one that is not there yet: a pointer that is lent is not null. A call opens
 * one name at most, so one that has room for it answers as if all room were there. 0 if there is no memory. */
static int make_room(struct lent *lent)
{
    size_t names = 2 * lent->names;
    size_t *stack;

    if (lent->state[SPOREBASKET_STATE_DEPTH] < lent->names || lent->names == SPOREBASKET_MOST_NAMES) {
        return 1;
    }
    if (names == 0) {
        names = 32;
    }
    if (names > SPOREBASKET_MOST_NAMES) {
        names = SPOREBASKET_MOST_NAMES;
    }
    stack = (size_t *)realloc(lent->stack, names * SPOREBASKET_NAME_SLOTS * sizeof *stack);
    if (stack == NULL) {
        return 0;
    }
    lent->stack = stack;
    lent->names = names;
    return 1;
}

/* An engine of the archive: sporebasket_read_event, or sporebasket_plain_read_event. */
typedef size_t engine(const uint8_t *document, size_t length, size_t *stack, size_t stack_slots, size_t *state, size_t state_slots,
                      size_t *answer, size_t answer_slots);

/* Reads on by an engine: 0 for an event, or the number of a refusal. There has to be room. */
static size_t read_by(engine *read_event, const uint8_t *document, size_t length, struct lent *lent)
{
    return read_event(document, length, lent->stack, lent->names * SPOREBASKET_NAME_SLOTS, lent->state, SPOREBASKET_STATE_SLOTS, lent->answer,
                      SPOREBASKET_ANSWER_SLOTS);
}

/* The same by the main engine. */
static inline size_t read_on(const uint8_t *document, size_t length, struct lent *lent)
{
    return read_by(sporebasket_read_event, document, length, lent);
}

/* Whether the answer is an opening tag or an empty element, which may have attributes. */
static inline int is_tag(const size_t *answer)
{
    return answer[SPOREBASKET_ANSWER_KIND] == SPOREBASKET_START || answer[SPOREBASKET_ANSWER_KIND] == SPOREBASKET_EMPTY;
}

#endif
