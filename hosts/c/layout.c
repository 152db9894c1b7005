/* Prints the layout of documents, from files or standard input, by the C interface: in which part each byte stands. A line has the kind of a part, its start and
 * its end: `mark` is the byte order mark, `white` white space that was skipped; the others are the pieces of the answers, by the word of the event, or `refused`
 * and the number. Then it says how many bytes are in which parts, and how many are left, if a refusal ended the run; of several files, behind the name of the file.
 * Of a document that is too long it says so.
 *
 * Every run is held to an account, laid out by the answers and the document's bytes alone: no byte is set twice, and none dropped. If one fails, the program says where, and
 * ends with 1.
 *
 * Before the names of the files may stand, in any order, --quiet: then the last line of each file is printed alone; --trim: then white space at both ends of text is
 * cut off; --expand: then empty elements are expanded; --checks: then comments and the names of closing tags are checked; --check-open-names: then a document that
 * ends while names are open is refused (18).
 *
 *   cc -I include hosts/c/layout.c target/host/libsporebasket.a -o layout
 */
#include "sporebasket.h"
#include "lent.h"
#include "whole.h"
#include "words.h"

#include <errno.h>
#include <stdio.h>
#include <stdlib.h>
#include <string.h>

struct span {
    size_t from, to;
};

/* The parts that an answer adds, in their order. The first two are empty where there is none. */
struct parts {
    struct span mark, white, piece;
};

/* The account of a run. */
struct layout {
    const uint8_t *document;
    size_t length;
    uint8_t *counts;    /* in how many parts each byte is */
    size_t end;         /* where the last part ends */
    int stopped;        /* whether a refusal ended the run, */
    size_t stop;        /* and where its piece ends */
    size_t mark, white; /* the bytes in these parts, */
    size_t pieces, set; /* the pieces, and the bytes in them */
    const char *fault;  /* what is wrong, with two numbers to be put in */
    size_t numbers[2];
};

/* Keeps what is wrong. */
static int wrong(struct layout *layout, const char *fault, size_t first, size_t second)
{
    layout->fault = fault;
    layout->numbers[0] = first;
    layout->numbers[1] = second;
    return 0;
}

/* Sets a part, and counts its bytes. It has to lie in the document, and to begin where the one before it ends. */
static int set(struct layout *layout, struct span part)
{
    size_t i;

    if (part.from > part.to || part.to > layout->length) {
        return wrong(layout, "a part from byte %zu to %zu does not lie in the document", part.from, part.to);
    }
    if (part.from != layout->end) {
        return wrong(layout, "a part ends at byte %zu, and the next begins at %zu", layout->end, part.from);
    }
    for (i = part.from; i < part.to; i++) {
        layout->counts[i] += layout->counts[i] < 255;
    }
    layout->end = part.to;
    return 1;
}

static int is_white(uint8_t byte)
{
    return byte == ' ' || byte == '\t' || byte == '\n' || byte == '\r';
}

/* What stands between the parts before and the piece was skipped: a mark, at the start, and white space. */
static struct parts parts_of(const struct layout *layout, const size_t *answer)
{
    struct parts parts;

    parts.mark.from = parts.mark.to = layout->end;
    if (layout->pieces == 0 && layout->length >= sizeof mark && memcmp(layout->document, mark, sizeof mark) == 0) {
        parts.mark.to = sizeof mark;
    }
    parts.piece.from = answer[SPOREBASKET_ANSWER_PIECE_FROM];
    parts.piece.to = answer[SPOREBASKET_ANSWER_PIECE_TO];
    parts.white.from = parts.white.to = parts.mark.to;
    if (parts.piece.from > parts.white.from) {
        parts.white.to = parts.piece.from;
    }
    return parts;
}

/* Sets the parts of an answer. Those skipped have to be white space, and that to be asked for. */
static int set_parts(struct layout *layout, const struct parts *parts, int trim)
{
    size_t i;

    if (!set(layout, parts->mark) || !set(layout, parts->white) || !set(layout, parts->piece)) {
        return 0;
    }
    for (i = parts->white.from; i < parts->white.to; i++) {
        if (!is_white(layout->document[i])) {
            return wrong(layout, "byte %zu was skipped, and is no white space", i, 0);
        }
    }
    if (parts->white.from < parts->white.to && !trim) {
        return wrong(layout, "byte %zu was skipped, and white space was to stay", parts->white.from, 0);
    }
    layout->mark += parts->mark.to - parts->mark.from;
    layout->white += parts->white.to - parts->white.from;
    layout->set += parts->piece.to - parts->piece.from;
    layout->pieces++;
    return 1;
}

/* At end of file each byte is in one part, or in none behind the refusal that ended the run. */
static int counted(struct layout *layout)
{
    size_t stop = layout->stopped ? layout->stop : layout->length;
    size_t i;

    for (i = 0; i < layout->length; i++) {
        if (layout->counts[i] != (i < stop)) {
            return wrong(layout, i < stop ? "byte %zu is in %zu parts, not in 1" : "byte %zu is in %zu parts, not in 0", i, layout->counts[i]);
        }
    }
    return 1;
}

/* Whether a refusal ends the run. */
static int ends_run(size_t number)
{
    return (number >= SPOREBASKET_UNCLOSED_TAG && number <= SPOREBASKET_INVALID_BANG_MARKUP) || number == SPOREBASKET_ENCODING ||
           number == SPOREBASKET_DOCTYPE || number == SPOREBASKET_NAME_STACK_FULL;
}

/* Adds the answer of a call and gives its parts: 0 if something is wrong. */
static int add(struct layout *layout, const struct lent *lent, struct parts *parts)
{
    size_t position = lent->state[SPOREBASKET_STATE_POSITION];

    if (lent->answer[SPOREBASKET_ANSWER_KIND] > SPOREBASKET_EOF) {
        return wrong(layout, "behind byte %zu there is no answer of kind %zu", layout->end, lent->answer[SPOREBASKET_ANSWER_KIND]);
    }
    *parts = parts_of(layout, lent->answer);
    if (!set_parts(layout, parts, (lent->state[SPOREBASKET_STATE_SETTINGS] & SPOREBASKET_TRIM_TEXT_START) != 0)) {
        return 0;
    }
    if (layout->end != position) {
        return wrong(layout, "the parts end at byte %zu, and the reader stands at %zu", layout->end, position);
    }
    if (!layout->stopped && ends_run(lent->answer[SPOREBASKET_ANSWER_NUMBER])) {
        layout->stopped = 1;
        layout->stop = layout->end;
    }
    return lent->answer[SPOREBASKET_ANSWER_KIND] != SPOREBASKET_EOF || counted(layout);
}

static void say(const struct parts *parts, const size_t *answer)
{
    if (parts->mark.from < parts->mark.to) {
        printf("mark %zu %zu\n", parts->mark.from, parts->mark.to);
    }
    if (parts->white.from < parts->white.to) {
        printf("white %zu %zu\n", parts->white.from, parts->white.to);
    }
    printf("%s ", words[answer[SPOREBASKET_ANSWER_KIND]]);
    if (answer[SPOREBASKET_ANSWER_NUMBER] != 0) {
        printf("%zu ", answer[SPOREBASKET_ANSWER_NUMBER]);
    }
    printf("%zu %zu\n", parts->piece.from, parts->piece.to);
}

/* A run has a piece at least, that of its end of file. */
static void say_all(const struct layout *layout)
{
    size_t left = layout->length - layout->end;

    if (layout->pieces == 0) {
        puts("too long: no byte is read");
        return;
    }
    printf("%zu bytes: %zu mark, %zu white, %zu in %zu pieces", layout->mark + layout->white + layout->set + left, layout->mark,
           layout->white, layout->set, layout->pieces);
    if (layout->stopped) {
        printf(", %zu left", left);
    }
    putchar('\n');
}

/* What the command line asks for. */
struct asked {
    size_t settings;
    int quiet;
    int several; /* files */
};

/* Reads a document to its end of file, and prints its parts: 0 if something is wrong, or, where no fault is kept, if there is no memory. */
static int lay(struct layout *layout, struct asked asked, struct lent *lent)
{
    size_t refusal = sporebasket_new(layout->document, layout->length, asked.settings, lent->state, SPOREBASKET_STATE_SLOTS);
    struct parts parts;

    if (refusal != 0) {
        if (!asked.quiet) {
            printf("%s %zu 0 0\n", words[0], refusal);
        }
        return 1;
    }
    do {
        if (!make_room(lent)) {
            return 0;
        }
        /* 17 does not come to who keeps the state as it was left; it would come again for ever */
        if (read_on(layout->document, layout->length, lent) == SPOREBASKET_BAD_STATE) {
            return wrong(layout, "from byte %zu on nothing can be read", layout->end, 0);
        }
        if (!add(layout, lent, &parts)) {
            return 0;
        }
        if (!asked.quiet) {
            say(&parts, lent->answer);
        }
    } while (lent->answer[SPOREBASKET_ANSWER_KIND] != SPOREBASKET_EOF);
    return 1;
}

/* Says what is wrong with a document, or why it cannot be laid out. */
static void complain(const char *name, const struct layout *layout)
{
    const char *reason = strerror(errno);

    fflush(stdout);
    fprintf(stderr, "layout: %s%s", name == NULL ? "" : name, name == NULL ? "" : ": ");
    if (layout->fault == NULL) {
        fprintf(stderr, "%s", reason);
    } else {
        fprintf(stderr, layout->fault, layout->numbers[0], layout->numbers[1]);
    }
    fputc('\n', stderr);
}

/* Lays out the document in a file, or that of standard input where none is named: 0, 1 if something is wrong with its layout, or 2 if there is none. */
static int lay_file(const char *name, struct asked asked)
{
    FILE *in = name == NULL ? stdin : fopen(name, "rb");
    struct layout layout = {NULL, 0, NULL, 0, 0, 0, 0, 0, 0, 0, NULL, {0, 0}};
    struct lent lent = {NULL, 0, {0}, {0}};
    uint8_t *document = in == NULL ? NULL : whole(in, &layout.length);
    int done = 0;

    if (document != NULL) {
        layout.document = document;
        /* one more, so that none of them is NULL */
        layout.counts = (uint8_t *)calloc(layout.length + 1, 1);
        done = layout.counts != NULL && lay(&layout, asked, &lent);
    }
    if (done) {
        if (asked.several) {
            printf("%s: ", name);
        }
        say_all(&layout);
        done = fflush(stdout) == 0 && !ferror(stdout);
    }
    if (!done) {
        complain(name, &layout);
    }
    if (in != NULL && in != stdin) {
        fclose(in);
    }
    free(lent.stack);
    free(layout.counts);
    free(document);
    return done ? 0 : layout.fault != NULL ? 1 : 2;
}

/* Whether a word is an option, which then is asked for. */
static int ask(struct asked *asked, const char *word)
{
    if (strcmp(word, "--quiet") == 0) {
        asked->quiet = 1;
    } else if (strcmp(word, "--trim") == 0) {
        asked->settings |= SPOREBASKET_TRIM_TEXT_START | SPOREBASKET_TRIM_TEXT_END;
    } else if (strcmp(word, "--expand") == 0) {
        asked->settings |= SPOREBASKET_EXPAND_EMPTY_ELEMENTS;
    } else if (strcmp(word, "--checks") == 0) {
        asked->settings |= SPOREBASKET_CHECK_COMMENTS | SPOREBASKET_CHECK_END_NAMES;
    } else if (strcmp(word, "--check-open-names") == 0) {
        asked->settings |= SPOREBASKET_CHECK_OPEN_NAMES;
    } else {
        return 0;
    }
    return 1;
}

int main(int argc, char **argv)
{
    struct asked asked = {sporebasket_default_settings(), 0, 0};
    int code = 0;
    int i = 1;

    while (i < argc && ask(&asked, argv[i])) {
        i++;
    }
    asked.several = argc - i > 1;
    do {
        int ended = lay_file(i < argc ? argv[i] : NULL, asked);

        if (ended == 1 || code == 0) {
            code = ended;
        }
    } while (++i < argc && !ferror(stdout));
    return code;
}
