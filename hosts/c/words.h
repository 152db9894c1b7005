/* How the programs beside it name answers. */
#ifndef WORDS_H
#define WORDS_H

/* The words of the kinds, by their numbers. */
static const char *const words[] = {
    "refused", "start", "end", "empty", "text", "ref", "comment", "cdata", "decl", "pi", "eof",
};

#endif
