/* Lists the events of a document that comes in chunks, from a file or standard input, by the C interface: the lines of the program events.c, each as soon as its bytes have come. The first word is how many
 * bytes a chunk has, and before it may stand what events.c takes: --check-open-names, --attributes, --references or --rows.
 *
 * Of a document that is too long the answers that were whole before are listed, and then `refused 16 0`.
 *
 * An answer whose bytes were there has to be given before the end is told. If one is not, the program says so, and ends with 1.
 *
 *   cc -I include hosts/c/chunks.c target/host/libsporebasket.a -o chunks
 */
#include "sporebasket.h"
#include "lent.h"
#include "say.h"

#include <errno.h>
#include <stdio.h>
#include <stdlib.h>
#include <string.h>

/* What has come of a document. It is kept whole: open names and contents are spans of it. */
struct fed {
    uint8_t *bytes;
    size_t length, room;
    int finished; /* no more bytes come */
    /* the scan of the piece that the next call is to read, if there is one, and the bytes that it was fed, from the document's start */
    int looking;
    size_t looked;
    size_t scan[SPOREBASKET_SCAN_SLOTS];
};

/* Makes room for so many bytes more: 0 if there is no memory. */
static int make_bytes(struct fed *fed, size_t more)
{
    size_t room = fed->room == 0 ? 4096 : fed->room;
    uint8_t *bytes;

    while (room - fed->length < more) {
        room *= 2;
    }
    if (room == fed->room) {
        return 1;
    }
    bytes = (uint8_t *)realloc(fed->bytes, room);
    if (bytes == NULL) {
        return 0;
    }
    fed->bytes = bytes;
    fed->room = room;
    return 1;
}

/* Takes the next chunk, which has so many bytes or those that are left. 0; 16 if the document is too long with it, and nothing is taken; or 1 if it can't be read. */
static size_t feed(struct fed *fed, FILE *in, size_t size)
{
    const size_t most = (size_t)SPOREBASKET_LONGEST + 1 - fed->length;
    size_t count;

    if (size > most) {
        size = most;
    }
    if (!make_bytes(fed, size)) {
        return 1;
    }
    count = fread(fed->bytes + fed->length, 1, size, in);
    if (ferror(in)) {
        return 1;
    }
    if (count == most) {
        return SPOREBASKET_SLICE_TOO_LONG;
    }
    fed->finished = count == 0;
    fed->length += count;
    return 0;
}

/* Whether a call in this state is answered the same whatever follows: its piece is whole, or it reads none, or no more bytes come. A reader with SPOREBASKET_TRIM_TEXT_START would pass white space before the
 * scan begins. */
static int is_due(struct fed *fed, const size_t *state)
{
    size_t phase = state[SPOREBASKET_STATE_PHASE];

    if (fed->finished || phase == SPOREBASKET_INSIDE_EMPTY || phase == SPOREBASKET_DONE) {
        return 1;
    }
    if (!fed->looking) {
        fed->looked = state[SPOREBASKET_STATE_POSITION];
        if (phase == SPOREBASKET_INIT) {
            size_t come = fed->length < sizeof mark ? fed->length : sizeof mark;
            int marked = memcmp(fed->bytes, mark, come) == 0;

            if (marked && come < sizeof mark) {
                return 0;
            }
            fed->looked = marked ? sizeof mark : 0;
        }
        sporebasket_scan(SPOREBASKET_SCAN_PIECE, fed->scan, SPOREBASKET_SCAN_SLOTS);
        fed->looking = 1;
    }
    /* neither 16 nor 17 comes: a document is not too long for a scan, which is kept as it was left */
    sporebasket_feed(fed->bytes + fed->looked, fed->length - fed->looked, fed->scan, SPOREBASKET_SCAN_SLOTS);
    fed->looked = fed->length;
    return fed->scan[SPOREBASKET_SCAN_STATE] == SPOREBASKET_SCAN_CLOSED;
}

/* Whether an answer that came after the end was told could have come before: its piece does not go up to the end, and it is no `<` or `<!` alone, which is not read. */
static int is_late(const size_t *answer, size_t length)
{
    size_t number = answer[SPOREBASKET_ANSWER_NUMBER];
    size_t unread = number == SPOREBASKET_UNCLOSED_TAG ? 1 : number == SPOREBASKET_INVALID_BANG_MARKUP ? 2 : 0;

    return answer[SPOREBASKET_ANSWER_PIECE_TO] + unread < length;
}

/* 0 if all is listed, 1 if an answer was late, 2 if the document can't be read or there is no memory. */
static int list(FILE *in, size_t size, struct asked asked, struct fed *fed, struct lent *lent)
{
    int at_end = 0;
    size_t refusal;

    /* one byte at least: a pointer that is lent is not null */
    if (!make_bytes(fed, 1)) {
        return 2;
    }
    sporebasket_new(fed->bytes, 0, settings_of(asked), lent->state, SPOREBASKET_STATE_SLOTS);
    do {
        while (!is_due(fed, lent->state)) {
            /* the line may be slow */
            fflush(stdout);
            refusal = feed(fed, in, size);
            if (refusal == SPOREBASKET_SLICE_TOO_LONG) {
                printf("%s %zu 0\n", words[0], refusal);
                return 0;
            }
            if (refusal != 0) {
                return 2;
            }
            at_end = fed->finished;
        }
        fed->looking = 0;
        if (!make_room(lent)) {
            return 2;
        }
        lent->state[SPOREBASKET_STATE_LENGTH] = fed->length;
        refusal = read_on(fed->bytes, fed->length, lent);
        say(fed->bytes, fed->length, asked, lent);
        if (at_end && is_late(lent->answer, fed->length)) {
            fflush(stdout);
            fprintf(stderr, "chunks: the piece up to byte %zu was whole, and was not given\n", lent->answer[SPOREBASKET_ANSWER_PIECE_TO]);
            return 1;
        }
        at_end = 0;
        /* 17 does not come to who keeps the state as it was left; it would come again for ever */
    } while (refusal != SPOREBASKET_BAD_STATE && lent->answer[SPOREBASKET_ANSWER_KIND] != SPOREBASKET_EOF);
    return 0;
}

/* The number of a word; 0 if there is none. */
static size_t number(const char *word)
{
    size_t digits = word == NULL ? 0 : strspn(word, "0123456789");
    unsigned long number;

    if (digits == 0 || word[digits] != 0) {
        return 0;
    }
    errno = 0;
    number = strtoul(word, NULL, 10);
    return errno == 0 ? number : 0;
}

int main(int argc, char **argv)
{
    int word = 1;
    struct asked asked = asked_by(argc > 1 ? argv[1] : NULL, &word);
    size_t size = word < argc ? number(argv[word]) : 0;
    struct fed fed = {NULL, 0, 0, 0, 0, 0, {0}};
    struct lent lent = {NULL, 0, {0}, {0}};
    FILE *in;
    int ended;

    if (size == 0) {
        fputs("usage: chunks [--check-open-names | --attributes | --references | --rows] SIZE [FILE]\n", stderr);
        return 2;
    }
    in = argc > word + 1 ? fopen(argv[word + 1], "rb") : stdin;
    ended = in == NULL ? 2 : list(in, size, asked, &fed, &lent);
    if (ended == 0 && (fflush(stdout) != 0 || ferror(stdout))) {
        ended = 2;
    }
    if (ended == 2) {
        perror("chunks");
    }
    if (in != NULL) {
        fclose(in);
    }
    free(lent.stack);
    free(fed.bytes);
    return ended;
}
