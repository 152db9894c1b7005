/* The lines that the programs events.c and chunks.c print of a document's answers, and what their command lines ask for. */
#ifndef SAY_H
#define SAY_H

#include "sporebasket.h"
#include "lent.h"
#include "words.h"

#include <stdio.h>
#include <string.h>

/* An event has its piece, its content and the length of its name; a refusal its number and its place. */
static void say_answer(const size_t *answer)
{
    if (answer[SPOREBASKET_ANSWER_NUMBER] != 0) {
        printf("%s %zu %zu\n", words[0], answer[SPOREBASKET_ANSWER_NUMBER], answer[SPOREBASKET_ANSWER_PLACE]);
        return;
    }
    printf("%s %zu %zu %zu %zu %zu\n", words[answer[SPOREBASKET_ANSWER_KIND]], answer[SPOREBASKET_ANSWER_PIECE_FROM],
           answer[SPOREBASKET_ANSWER_PIECE_TO], answer[SPOREBASKET_ANSWER_CONTENT_FROM], answer[SPOREBASKET_ANSWER_CONTENT_TO],
           answer[SPOREBASKET_ANSWER_NAME]);
}

/* An attribute has its name and its value; a refusal, after which there is none, its number and its place. */
static void say_attributes(const uint8_t *document, size_t length, const size_t *tag)
{
    size_t from = tag[SPOREBASKET_ANSWER_CONTENT_FROM];
    size_t to = tag[SPOREBASKET_ANSWER_CONTENT_TO];
    size_t name = tag[SPOREBASKET_ANSWER_NAME];
    size_t at = from + name;
    size_t answer[SPOREBASKET_ATTRIBUTE_SLOTS];
    size_t refusal;

    for (;;) {
        refusal = sporebasket_attribute(document, length, from, to, name, at, answer, SPOREBASKET_ATTRIBUTE_SLOTS);
        if (refusal != 0) {
            printf("%s %zu %zu\n", words[0], refusal, answer[SPOREBASKET_ATTRIBUTE_PLACE]);
            return;
        }
        if (!answer[SPOREBASKET_ATTRIBUTE_FOUND]) {
            return;
        }
        printf("attribute %zu %zu %zu %zu\n", answer[SPOREBASKET_ATTRIBUTE_NAME_FROM], answer[SPOREBASKET_ATTRIBUTE_NAME_TO],
               answer[SPOREBASKET_ATTRIBUTE_VALUE_FROM], answer[SPOREBASKET_ATTRIBUTE_VALUE_TO]);
        at = answer[SPOREBASKET_ATTRIBUTE_NEXT];
    }
}

/* A reference has the bytes of its character; a refusal its number and the place of the reference. */
static void say_character(const uint8_t *document, const size_t *reference)
{
    size_t from = reference[SPOREBASKET_ANSWER_CONTENT_FROM];
    size_t answer[SPOREBASKET_UNESCAPE_SLOTS];
    uint8_t buffer[4];
    size_t i, refusal;

    refusal = sporebasket_reference(document + from, reference[SPOREBASKET_ANSWER_CONTENT_TO] - from, buffer, sizeof buffer, 0, answer,
                                    SPOREBASKET_UNESCAPE_SLOTS);
    if (refusal != 0) {
        printf("%s %zu %zu\n", words[0], refusal, reference[SPOREBASKET_ANSWER_PIECE_FROM]);
        return;
    }
    printf("character");
    for (i = 0; i < answer[SPOREBASKET_UNESCAPE_WRITTEN]; i++) {
        printf(" %02x", buffer[i]);
    }
    putchar('\n');
}

/* An open name has where it begins, where it ends, and its depth. */
static void say_row(const size_t *row)
{
    printf("row %zu %zu %zu\n", row[SPOREBASKET_ROW_START], row[SPOREBASKET_ROW_END], row[SPOREBASKET_ROW_DEPTH]);
}

/* The open names, the outermost first: by one call those that the list has room for, and by a call for each those that are further down. */
static void say_rows(const struct lent *lent)
{
    size_t rows[16 * SPOREBASKET_ROW_SLOTS];
    size_t filled[SPOREBASKET_FILLED_SLOTS];
    size_t slots = lent->names * SPOREBASKET_NAME_SLOTS;
    size_t i;

    sporebasket_open_rows(lent->stack, slots, lent->state, SPOREBASKET_STATE_SLOTS, rows, sizeof rows / sizeof *rows, filled,
                          SPOREBASKET_FILLED_SLOTS);
    for (i = 0; i < filled[SPOREBASKET_FILLED_ROWS]; i++) {
        say_row(rows + i * SPOREBASKET_ROW_SLOTS);
    }
    /* 17 comes where no name is as deep */
    while (sporebasket_open_row(lent->stack, slots, lent->state, SPOREBASKET_STATE_SLOTS, ++i, rows, SPOREBASKET_ROW_SLOTS) == 0) {
        say_row(rows);
    }
}

/* What is asked for besides the events. */
struct asked {
    int check;
    int attributes;
    int references;
    int rows;
};

/* What the first word asks for, if there is one. If it is an option, `next` goes on to the word behind it. */
static struct asked asked_by(const char *word, int *next)
{
    struct asked asked = {0, 0, 0, 0};

    if (word != NULL) {
        asked.check = strcmp(word, "--check-open-names") == 0;
        asked.attributes = strcmp(word, "--attributes") == 0;
        asked.references = strcmp(word, "--references") == 0;
        asked.rows = strcmp(word, "--rows") == 0;
    }
    *next += asked.check + asked.attributes + asked.references + asked.rows;
    return asked;
}

/* The settings that are asked for. */
static size_t settings_of(struct asked asked)
{
    return sporebasket_default_settings() | (asked.check ? (size_t)SPOREBASKET_CHECK_OPEN_NAMES : 0);
}

/* All lines of the last answer. */
static void say(const uint8_t *document, size_t length, struct asked asked, const struct lent *lent)
{
    const size_t *answer = lent->answer;

    say_answer(answer);
    if (asked.attributes && is_tag(answer)) {
        say_attributes(document, length, answer);
    }
    if (asked.references && answer[SPOREBASKET_ANSWER_KIND] == SPOREBASKET_GENERAL_REF) {
        say_character(document, answer);
    }
    if (asked.rows && (answer[SPOREBASKET_ANSWER_NUMBER] != 0 || answer[SPOREBASKET_ANSWER_KIND] == SPOREBASKET_EOF)) {
        say_rows(lent);
    }
}

#endif
