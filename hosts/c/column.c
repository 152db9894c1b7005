/* Prints the column of times of a document, from a file or standard input, by the C interface: a time to a line; `refused`, a number and a place, if the
 * document is refused; and how many times there are, `in order` if they never decrease, else `lower at` and the first index, from 0, whose time is lower than
 * the one before it.
 *
 *   cc -I include hosts/c/column.c target/host/libsporebasket.a -o column
 */
#include "sporebasket.h"
#include "whole.h"

#include <stdio.h>
#include <stdlib.h>

/* Slots that are lent. A pointer that is lent is not null, so there is one at least. */
struct slots {
    size_t *first;
    size_t count;
};

/* Makes them so many; 0 if there is no memory. */
static int lend(struct slots *slots, size_t count)
{
    size_t *first = (size_t *)realloc(slots->first, count * sizeof *first);

    if (first == NULL) {
        return 0;
    }
    slots->first = first;
    slots->count = count;
    return 1;
}

/* Reads the document, with little room at first, and once more wherever that was too little. For names there is then all room that can be used. A column becomes
 * longer by as many bytes as were read, and a time has five. So the next reading that ends for want of slots has passed over at least five eighths more than this
 * one, and all of them together over few times the document. 0 if there is no memory. */
static int read_column(const uint8_t *document, size_t length, struct slots *stack, struct slots *column, size_t *answer)
{
    const size_t most = (size_t)SPOREBASKET_MOST_NAMES * SPOREBASKET_NAME_SLOTS;
    int room = lend(stack, 32 * SPOREBASKET_NAME_SLOTS) && lend(column, 1024);

    while (room) {
        size_t number = sporebasket_column(document, length, stack->first, stack->count, column->first, column->count, answer,
                                           SPOREBASKET_COLUMN_SLOTS);

        if (number == SPOREBASKET_NAME_STACK_FULL && stack->count < most) {
            room = lend(stack, most);
        } else if (number == SPOREBASKET_COLUMN_FULL) {
            room = lend(column, column->count + answer[SPOREBASKET_COLUMN_PIECE_TO] / sizeof *column->first + 1);
        } else {
            return 1;
        }
    }
    return 0;
}

static void say(const size_t *column, const size_t *answer)
{
    size_t count = answer[SPOREBASKET_COLUMN_COUNT];
    size_t i;

    for (i = 0; i < count; i++) {
        printf("%02zu:%02zu\n", column[i] / 60, column[i] % 60);
    }
    if (answer[SPOREBASKET_COLUMN_NUMBER] != 0) {
        printf("refused %zu %zu\n", answer[SPOREBASKET_COLUMN_NUMBER], answer[SPOREBASKET_COLUMN_PLACE]);
    }
    if (answer[SPOREBASKET_COLUMN_LOWER] == 0) {
        printf("%zu in order\n", count);
    } else {
        printf("%zu lower at %zu\n", count, answer[SPOREBASKET_COLUMN_LOWER]);
    }
}

int main(int argc, char **argv)
{
    FILE *in = argc > 1 ? fopen(argv[1], "rb") : stdin;
    struct slots stack = {NULL, 0}, column = {NULL, 0};
    size_t answer[SPOREBASKET_COLUMN_SLOTS];
    size_t length = 0;
    uint8_t *document = in == NULL ? NULL : whole(in, &length);
    int done = document != NULL && read_column(document, length, &stack, &column, answer);

    if (done) {
        say(column.first, answer);
        done = fflush(stdout) == 0 && !ferror(stdout);
    }
    if (!done) {
        perror("column");
    }
    if (in != NULL) {
        fclose(in);
    }
    free(stack.first);
    free(column.first);
    free(document);
    return done ? 0 : 2;
}
