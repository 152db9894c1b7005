/* Lists the events of a document, from a file or standard input, by the C interface: a line to each answer, up to the end of file. Before the file's name
 * may stand --check-open-names: then a document that ends while names are open is refused (18) before its end of file; --attributes: then the attributes of
 * a tag stand behind it, a line to each; --references: then the bytes of its character stand behind a reference, in hexadecimal; or --rows: then the open names
 * stand behind each refusal and behind the end of file, a line to each.
 *
 * With --plain before all that it reads by the plain engine, and prints the same.
 *
 *   cc -I include hosts/c/events.c target/host/libsporebasket.a -o events
 */
#include "sporebasket.h"
#include "lent.h"
#include "say.h"
#include "whole.h"

#include <stdio.h>
#include <stdlib.h>
#include <string.h>

/* 0 if there is no memory for the open names. */
static int list(engine *read_event, const uint8_t *document, size_t length, struct asked asked, struct lent *lent)
{
    size_t refusal = sporebasket_new(document, length, settings_of(asked), lent->state, SPOREBASKET_STATE_SLOTS);

    if (refusal != 0) {
        printf("%s %zu 0\n", words[0], refusal);
        return 1;
    }
    /* end of file comes by call number length + 2 */
    do {
        if (!make_room(lent)) {
            return 0;
        }
        refusal = read_by(read_event, document, length, lent);
        say(document, length, asked, lent);
        /* 17 does not come to who keeps the state as it was left; it would come again for ever */
    } while (refusal != SPOREBASKET_BAD_STATE && lent->answer[SPOREBASKET_ANSWER_KIND] != SPOREBASKET_EOF);
    return 1;
}

int main(int argc, char **argv)
{
    int plain = argc > 1 && strcmp(argv[1], "--plain") == 0;
    engine *read_event = plain ? sporebasket_plain_read_event : sporebasket_read_event;
    int file = 1 + plain;
    struct asked asked = asked_by(argc > file ? argv[file] : NULL, &file);
    FILE *in = argc > file ? fopen(argv[file], "rb") : stdin;
    struct lent lent = {NULL, 0, {0}, {0}};
    size_t length = 0;
    uint8_t *document = in == NULL ? NULL : whole(in, &length);
    int done = document != NULL && list(read_event, document, length, asked, &lent) && fflush(stdout) == 0 && !ferror(stdout);

    if (!done) {
        perror("events");
    }
    if (in != NULL) {
        fclose(in);
    }
    free(lent.stack);
    free(document);
    return done ? 0 : 2;
}
