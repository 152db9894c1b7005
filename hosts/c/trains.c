/* Prints the numbers of the trains in a timetable, from a file or standard input, by the C interface: the value of `n` of each element `r` that has one, with its
 * references replaced, a line to each; `refused`, a number and a place, for what is refused; and how many trains there are.
 *
 *   cc -I include hosts/c/trains.c target/host/libsporebasket.a -o trains
 */
#include "sporebasket.h"
#include "lent.h"
#include "whole.h"

#include <stdio.h>
#include <stdlib.h>

static void refuse(size_t number, size_t place)
{
    printf("refused %zu %zu\n", number, place);
}

/* Says a value with its references replaced. The buffer for that is as long as the document, so that there is always room. 1 if nothing is refused. */
static size_t say_value(const uint8_t *document, size_t from, size_t to, uint8_t *buffer, size_t room)
{
    size_t answer[SPOREBASKET_UNESCAPE_SLOTS];
    size_t refusal = sporebasket_unescape(document + from, to - from, buffer, room, 0, answer, SPOREBASKET_UNESCAPE_SLOTS);

    if (refusal != 0) {
        refuse(refusal, from + answer[SPOREBASKET_UNESCAPE_PLACE]);
        return 0;
    }
    fwrite(buffer, 1, answer[SPOREBASKET_UNESCAPE_WRITTEN], stdout);
    putchar('\n');
    return 1;
}

/* Says the number of the train that the answer is the tag of: 1 if it has one. */
static size_t say(const uint8_t *document, size_t length, const size_t *answer, uint8_t *buffer)
{
    static const uint8_t n[] = {'n'};
    size_t from = answer[SPOREBASKET_ANSWER_CONTENT_FROM];
    size_t name = answer[SPOREBASKET_ANSWER_NAME];
    size_t found[SPOREBASKET_ATTRIBUTE_SLOTS];
    size_t refusal;

    if (!is_tag(answer) || name != 1 || document[from] != 'r') {
        return 0;
    }
    refusal = sporebasket_find_attribute(document, length, from, answer[SPOREBASKET_ANSWER_CONTENT_TO], name, n, sizeof n, found,
                                         SPOREBASKET_ATTRIBUTE_SLOTS);
    if (refusal != 0) {
        refuse(refusal, found[SPOREBASKET_ATTRIBUTE_PLACE]);
        return 0;
    }
    if (!found[SPOREBASKET_ATTRIBUTE_FOUND]) {
        return 0;
    }
    return say_value(document, found[SPOREBASKET_ATTRIBUTE_VALUE_FROM], found[SPOREBASKET_ATTRIBUTE_VALUE_TO], buffer, length);
}

/* 0 if there is no memory for the open names. */
static int list(const uint8_t *document, size_t length, uint8_t *buffer, struct lent *lent)
{
    size_t refusal = sporebasket_new(document, length, sporebasket_default_settings(), lent->state, SPOREBASKET_STATE_SLOTS);
    size_t trains = 0;

    if (refusal != 0) {
        refuse(refusal, 0);
    }
    while (refusal == 0) {
        if (!make_room(lent)) {
            return 0;
        }
        refusal = read_on(document, length, lent);
        if (refusal != 0) {
            refuse(refusal, lent->answer[SPOREBASKET_ANSWER_PLACE]);
            /* 17 does not come to who keeps the state as it was left; after any other refusal it goes on */
            refusal = refusal == SPOREBASKET_BAD_STATE ? refusal : 0;
        } else if (lent->answer[SPOREBASKET_ANSWER_KIND] == SPOREBASKET_EOF) {
            break;
        } else {
            trains += say(document, length, lent->answer, buffer);
        }
    }
    printf("%zu trains\n", trains);
    return 1;
}

int main(int argc, char **argv)
{
    FILE *in = argc > 1 ? fopen(argv[1], "rb") : stdin;
    struct lent lent = {NULL, 0, {0}, {0}};
    size_t length = 0;
    uint8_t *document = in == NULL ? NULL : whole(in, &length);
    /* one byte at least: a pointer that is lent is not null */
    uint8_t *buffer = (uint8_t *)malloc(length + 1);
    int done = document != NULL && buffer != NULL && list(document, length, buffer, &lent) && fflush(stdout) == 0 && !ferror(stdout);

    if (!done) {
        perror("trains");
    }
    if (in != NULL) {
        fclose(in);
    }
    free(lent.stack);
    free(buffer);
    free(document);
    return done ? 0 : 2;
}
