/* How the programs beside it read a document. */
#ifndef WHOLE_H
#define WHOLE_H

#include "sporebasket.h"

#include <stdio.h>
#include <stdlib.h>

/* The whole of a file, not null even if it is empty; of one that is longer than a document may be, one byte more than that. NULL if it can't be read,
 * or there is no memory. */
static uint8_t *whole(FILE *in, size_t *length)
{
    const size_t most = (size_t)SPOREBASKET_LONGEST + 1;
    size_t room = 65536;
    uint8_t *document = (uint8_t *)malloc(room);

    *length = 0;
    while (document != NULL) {
        uint8_t *longer;
        *length += fread(document + *length, 1, room - *length, in);
        if (*length < room || room == most) {
            break;
        }
        room = room < most / 2 ? 2 * room : most;
        longer = (uint8_t *)realloc(document, room);
        if (longer == NULL) {
            free(document);
        }
        document = longer;
    }
    if (ferror(in)) {
        free(document);
        document = NULL;
    }
    return document;
}

#endif
