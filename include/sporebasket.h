/* Sporebasket: a verified reader of XML events, of attributes, of references and of columns of times, which tells the names that are open, and scans of input that comes in pieces. Link
 * libsporebasket.a, which `tools/host-staticlib capi` makes.
 *
 * The host lends all memory: the document, a stack for the open names, the state of a reader or of a scan, a buffer, a column, a list of rows and room for an answer. Nothing is kept between
 * calls but what stands there, so each thread may have a reader of its own, over one document too. Every function but
 * sporebasket_default_settings answers 0 or the number of a refusal, and asks nothing of the numbers that it is lent: whatever they are, the
 * answer is the one that docs/PROMISES.md states. It asks of C what C cannot be asked to check: a pointer is to as many bytes or slots as its
 * count says, aligned as its type is and not null, even where the count is 0, and what is written to overlaps with nothing else that is lent.
 */
#ifndef SPOREBASKET_H
#define SPOREBASKET_H

#include <stddef.h>
#include <stdint.h>

/* The archive is for processors with addresses of 64 bits: a slot has 8 bytes. */
#if defined(__cplusplus) && __cplusplus >= 201103L
static_assert(sizeof(size_t) == 8, "a slot has 8 bytes");
#elif defined(__STDC_VERSION__) && __STDC_VERSION__ >= 201112L
_Static_assert(sizeof(size_t) == 8, "a slot has 8 bytes");
#endif

#ifdef __cplusplus
extern "C" {
#endif

/* The settings, a bit each. With CHECK_OPEN_NAMES, which quick-xml has not, a document that ends while names are open is refused (18). */
enum {
    SPOREBASKET_ALLOW_DANGLING_AMP = 1,
    SPOREBASKET_ALLOW_UNMATCHED_ENDS = 2,
    SPOREBASKET_CHECK_COMMENTS = 4,
    SPOREBASKET_CHECK_END_NAMES = 8,
    SPOREBASKET_EXPAND_EMPTY_ELEMENTS = 16,
    SPOREBASKET_TRIM_MARKUP_NAMES_IN_CLOSING_TAGS = 32,
    SPOREBASKET_TRIM_TEXT_START = 64,
    SPOREBASKET_TRIM_TEXT_END = 128,
    SPOREBASKET_CHECK_OPEN_NAMES = 256
};

/* The slots of a reader's state, and its phases. The MARK remembers that the end was told: 0 is off, any other number is on, and none is a
 * reason for 17. A fresh reader has 0. End of file turns the mark on, and so do refusals 1 to 8, 13 to 15 and 18: they write 1 where 0 stands. Another number
 * stays as it is, and no call turns the mark off. */
enum {
    SPOREBASKET_STATE_PHASE,
    SPOREBASKET_STATE_POSITION,
    SPOREBASKET_STATE_DEPTH,
    SPOREBASKET_STATE_LENGTH,
    SPOREBASKET_STATE_SETTINGS,
    SPOREBASKET_STATE_MARK,
    SPOREBASKET_STATE_SLOTS
};
enum {
    SPOREBASKET_INIT,
    SPOREBASKET_INSIDE_TEXT,
    SPOREBASKET_INSIDE_MARKUP,
    SPOREBASKET_INSIDE_REF,
    SPOREBASKET_INSIDE_EMPTY,
    SPOREBASKET_DONE
};

/* The slots of an answer, and the kinds of an event. Of an event NUMBER and PLACE are 0; of a refusal KIND, the content and NAME are; EXPECTED
 * and FOUND are 0 but in refusals 10 and 11 (11 has no EXPECTED). The PLACE of a refusal is where its piece begins, but in refusal 9, where it is the
 * first hyphen of the first pair, in refusal 13, where it is the first byte of the first sequence of the piece that is not UTF-8, and in refusal 18, where
 * it is the first byte of the latest open name. A span is its first byte's place in the document and the place after its last.
 *
 * In a run each piece begins where the one before it ended, or behind white space there that SPOREBASKET_TRIM_TEXT_START skips, the first behind a byte order
 * mark too, and ends at the state's POSITION. So each byte before the position is in exactly one of the mark, skipped white space and the pieces; at end of file
 * that is every byte, unless a refusal ended the run (1 to 8, 13 to 15). */
enum {
    SPOREBASKET_ANSWER_KIND,
    SPOREBASKET_ANSWER_NUMBER,
    SPOREBASKET_ANSWER_PLACE,
    SPOREBASKET_ANSWER_PIECE_FROM,
    SPOREBASKET_ANSWER_PIECE_TO,
    SPOREBASKET_ANSWER_CONTENT_FROM,
    SPOREBASKET_ANSWER_CONTENT_TO,
    SPOREBASKET_ANSWER_NAME,
    SPOREBASKET_ANSWER_EXPECTED_FROM,
    SPOREBASKET_ANSWER_EXPECTED_TO,
    SPOREBASKET_ANSWER_FOUND_FROM,
    SPOREBASKET_ANSWER_FOUND_TO,
    SPOREBASKET_ANSWER_SLOTS
};
enum {
    SPOREBASKET_START = 1,
    SPOREBASKET_END,
    SPOREBASKET_EMPTY,
    SPOREBASKET_TEXT,
    SPOREBASKET_GENERAL_REF,
    SPOREBASKET_COMMENT,
    SPOREBASKET_CDATA,
    SPOREBASKET_DECL,
    SPOREBASKET_PI,
    SPOREBASKET_EOF
};

/* The slots of a row, which tells an open name: its span in the document, and its depth, from 1, the outermost. */
enum {
    SPOREBASKET_ROW_START,
    SPOREBASKET_ROW_END,
    SPOREBASKET_ROW_DEPTH,
    SPOREBASKET_ROW_SLOTS
};

/* The slot of the answer of sporebasket_open_rows: how many rows were filled. */
enum {
    SPOREBASKET_FILLED_ROWS,
    SPOREBASKET_FILLED_SLOTS
};

/* The slots of a part of the document. */
enum {
    SPOREBASKET_PART_FROM,
    SPOREBASKET_PART_TO,
    SPOREBASKET_PART_SLOTS
};

/* The slots of the answer of sporebasket_attribute and sporebasket_find_attribute. FOUND is 1 where an attribute is told: then the name and the value, without its
 * quotes, are spans in the document, NEXT is the place just behind the closing quote, and the others are 0. Where there is none FOUND is 0, and so are all others. In a refusal PLACE is
 * where the rule breaks; QUOTE is the byte of the quote that 22 finds not closed, or 0 where none opens; FIRST is where the name of 24 was used first; the others are 0. */
enum {
    SPOREBASKET_ATTRIBUTE_FOUND,
    SPOREBASKET_ATTRIBUTE_NAME_FROM,
    SPOREBASKET_ATTRIBUTE_NAME_TO,
    SPOREBASKET_ATTRIBUTE_VALUE_FROM,
    SPOREBASKET_ATTRIBUTE_VALUE_TO,
    SPOREBASKET_ATTRIBUTE_NEXT,
    SPOREBASKET_ATTRIBUTE_PLACE,
    SPOREBASKET_ATTRIBUTE_QUOTE,
    SPOREBASKET_ATTRIBUTE_FIRST,
    SPOREBASKET_ATTRIBUTE_SLOTS
};

/* The slots of the answer of sporebasket_reference and sporebasket_unescape. WRITTEN is how many bytes were written, 0 in a refusal. PLACE is where in the content
 * sporebasket_unescape refused, and 0 else. */
enum {
    SPOREBASKET_UNESCAPE_WRITTEN,
    SPOREBASKET_UNESCAPE_PLACE,
    SPOREBASKET_UNESCAPE_SLOTS
};

/* The slots of the answer of sporebasket_column. COUNT is how many times stand in the column, LOWER the first index, from 0, whose time is lower than the one
 * before it, or 0 where the column never decreases: index 0 has none before it. The others are 0 where nothing is refused; else they are those of the refusal, as
 * sporebasket_read_event gives them. The piece of 30 and 31 is that of the text or the reference, and PLACE its start; EXPECTED and FOUND are 0 there. */
enum {
    SPOREBASKET_COLUMN_COUNT,
    SPOREBASKET_COLUMN_LOWER,
    SPOREBASKET_COLUMN_NUMBER,
    SPOREBASKET_COLUMN_PLACE,
    SPOREBASKET_COLUMN_PIECE_FROM,
    SPOREBASKET_COLUMN_PIECE_TO,
    SPOREBASKET_COLUMN_EXPECTED_FROM,
    SPOREBASKET_COLUMN_EXPECTED_TO,
    SPOREBASKET_COLUMN_FOUND_FROM,
    SPOREBASKET_COLUMN_FOUND_TO,
    SPOREBASKET_COLUMN_SLOTS
};

/* The slots of a scan, and its states. While a scan is open COUNT is how many bytes it has taken; in CLOSED it is the place of the byte that was found, counted from the first byte of the first
 * piece. LEFT is how many bytes of the opener `<!--` of a comment are yet to pass. SEEN is how many of the marks that have to stand right before the `>` were the last bytes taken: a `?` in PI, up to
 * two `-` in COMMENT, up to two `]` in CDATA. LEFT and SEEN are 0 in all other states.
 *
 * In PIECE nothing has come, and the first byte is to tell what it is: `<` leads to OPENED, `&` to REFERENCE, any other byte to TEXT. In OPENED `!` leads to BANG, `?` to PI, and any other byte belongs to
 * a TAG; in BANG `[` leads to CDATA and `-` to COMMENT, and any other byte is found itself, since a reader refuses there at once (8 or 14). */
enum {
    SPOREBASKET_SCAN_STATE,
    SPOREBASKET_SCAN_COUNT,
    SPOREBASKET_SCAN_LEFT,
    SPOREBASKET_SCAN_SEEN,
    SPOREBASKET_SCAN_SLOTS
};
enum {
    SPOREBASKET_SCAN_CLOSED,
    SPOREBASKET_SCAN_PIECE,
    SPOREBASKET_SCAN_OPENED,
    SPOREBASKET_SCAN_BANG,
    SPOREBASKET_SCAN_TAG,
    SPOREBASKET_SCAN_SINGLE_QUOTED,
    SPOREBASKET_SCAN_DOUBLE_QUOTED,
    SPOREBASKET_SCAN_PI,
    SPOREBASKET_SCAN_COMMENT,
    SPOREBASKET_SCAN_CDATA,
    SPOREBASKET_SCAN_REFERENCE,
    SPOREBASKET_SCAN_TEXT
};

/* The refusals. 18 is given where end of file is due, CHECK_OPEN_NAMES is on, a name is open and the MARK is off. So it comes once, instead of the first end of
 * file, and not after a refusal that ended the run (1 to 8, 13 to 15). Its piece is that of the end of file, and it takes no name away; end of file follows.
 * 19 to 24 are of the two functions for attributes, 25 to 27 of the two for references, 30 and 31 of sporebasket_column alone. */
enum {
    SPOREBASKET_UNCLOSED_TAG = 1,
    SPOREBASKET_UNCLOSED_SINGLE_QUOTED_ATTRIBUTE_VALUE,
    SPOREBASKET_UNCLOSED_DOUBLE_QUOTED_ATTRIBUTE_VALUE,
    SPOREBASKET_UNCLOSED_COMMENT,
    SPOREBASKET_UNCLOSED_CDATA,
    SPOREBASKET_UNCLOSED_PI,
    SPOREBASKET_UNCLOSED_XML_DECL,
    SPOREBASKET_INVALID_BANG_MARKUP,
    SPOREBASKET_DOUBLE_HYPHEN_IN_COMMENT,
    SPOREBASKET_MISMATCHED_END_TAG,
    SPOREBASKET_UNMATCHED_END_TAG,
    SPOREBASKET_UNCLOSED_REFERENCE,
    SPOREBASKET_ENCODING,
    SPOREBASKET_DOCTYPE,
    SPOREBASKET_NAME_STACK_FULL,
    SPOREBASKET_SLICE_TOO_LONG,
    SPOREBASKET_BAD_STATE,
    SPOREBASKET_UNCLOSED_ELEMENTS,
    SPOREBASKET_NO_SPACE,
    SPOREBASKET_EMPTY_NAME,
    SPOREBASKET_NO_EQUALS,
    SPOREBASKET_NO_QUOTE,
    SPOREBASKET_LESS_THAN,
    SPOREBASKET_NAME_USED,
    SPOREBASKET_BAD_REFERENCE,
    SPOREBASKET_BAD_CHARACTER,
    SPOREBASKET_BUFFER_FULL,
    SPOREBASKET_BAD_TIME = 30,
    SPOREBASKET_COLUMN_FULL
};

/* A document has at most this many bytes, and at most this many names are open, each in two slots of the stack; a longer stack holds no more. */
enum {
    SPOREBASKET_LONGEST = 268435456,
    SPOREBASKET_MOST_NAMES = 65535,
    SPOREBASKET_NAME_SLOTS = 2
};

/* The settings of a reader to which none are given. */
size_t sporebasket_default_settings(void);

/* Makes a reader over a document, in the first SPOREBASKET_STATE_SLOTS slots of the state. Bits of the settings that stand for none do not
 * count. 17: the state has fewer slots than that; else 16: the document has more than SPOREBASKET_LONGEST bytes. Then nothing is written. */
size_t sporebasket_new(const uint8_t *document, size_t length, size_t settings, size_t *state, size_t state_slots);

/* Reads on, and writes the answer, the state after it, and, for a Start, its name on the stack. 0 is an event. Lend each call the same document and the
 * stack and state as the call before left them. Slots past those named above are left alone.
 * 17 comes before all else, and exactly where one of these is so:
 * - The answer has fewer than SPOREBASKET_ANSWER_SLOTS slots. Then nothing is written, not even the answer.
 * - The state has fewer than SPOREBASKET_STATE_SLOTS slots, its PHASE is none of those above, or its SETTINGS are more than all the bits together (511).
 * - LENGTH is not the document's or more than SPOREBASKET_LONGEST, or POSITION is more than LENGTH.
 * - DEPTH is more than SPOREBASKET_MOST_NAMES, or than half the slots of the stack, rounded down.
 * - DEPTH is not 0, and of the latest open name, slots 2 * DEPTH - 2 and 2 * DEPTH - 1 of the stack, the start is more than the end, or the end more than POSITION.
 * - The PHASE does not fit: INIT where POSITION or DEPTH is not 0, INSIDE_MARKUP where no `<` is at POSITION, INSIDE_REF where no `&` is there, INSIDE_EMPTY where
 *   DEPTH is 0.
 * It leaves the stack and the state alone, so it comes again for ever: a loop has to end there. From sporebasket_new on, with everything lent as said, it never
 * comes, and end of file comes by call number length + 2, whatever is refused before. A state that passes need not be one that calls lead to: of the names the
 * latest alone is looked at, of the document the byte at POSITION. It is read on from as it is.
 * A call opens one name at most. So a stack may be short at first, and where it is full a longer one be lent before the next call, with what the short
 * one held in its first slots: every answer is then as if the longest had been lent from the start. */
size_t sporebasket_read_event(const uint8_t *document, size_t length, size_t *stack, size_t stack_slots, size_t *state,
                              size_t state_slots, size_t *answer, size_t answer_slots);

/* The same by the plain engine, which takes one byte at a time and searches nowhere ahead, so that it can be checked by eye. Whatever is lent, it answers what sporebasket_read_event answers and leaves every slot
 * of the answer, the state and the stack as that does: this is proved. It is slower, and is for the release check (`tools/release-check`). Any call of a run may be made by either. */
size_t sporebasket_plain_read_event(const uint8_t *document, size_t length, size_t *stack, size_t stack_slots, size_t *state,
                                    size_t state_slots, size_t *answer, size_t answer_slots);

/* Writes the open name of this depth, from 1, the outermost, into the first SPOREBASKET_ROW_SLOTS slots of `row`. The stack and the state are a reader's, between any two calls, and are only read;
 * of the state POSITION and DEPTH alone are looked at.
 * 17, with nothing written, exactly where one of these is so:
 * - The row has fewer than SPOREBASKET_ROW_SLOTS slots, or the state fewer than SPOREBASKET_STATE_SLOTS.
 * - `depth` is 0, or more than DEPTH.
 * - DEPTH is more than SPOREBASKET_MOST_NAMES, or than half the slots of the stack, rounded down.
 * - Of the name, slots 2 * depth - 2 and 2 * depth - 1 of the stack, the start is more than the end, or the end more than POSITION.
 * From sporebasket_new on, with everything lent as sporebasket_read_event says and enough slots, it comes for no depth from 1 to DEPTH, whatever the settings. */
size_t sporebasket_open_row(const size_t *stack, size_t stack_slots, const size_t *state, size_t state_slots, size_t depth, size_t *row,
                            size_t row_slots);

/* Lists the open names, the way down to where a run stands or stopped: fills `rows` from its first slot on, SPOREBASKET_ROW_SLOTS slots to a row, the outermost name first, and writes into the answer how
 * many rows were filled: as many as names are open, or as the list has room for, if that is less. Slots behind these rows are left alone, and so are one or two slots at the end that make no whole row. The stack and the state
 * are a reader's, between any two calls, and are only read; of the state POSITION and DEPTH alone are looked at. A list of 3 * DEPTH slots has room for all.
 * 17, exactly where one of these is so:
 * - The answer has fewer than SPOREBASKET_FILLED_SLOTS slots. Then nothing is written, not even the answer.
 * - The state has fewer than SPOREBASKET_STATE_SLOTS slots.
 * - DEPTH is more than SPOREBASKET_MOST_NAMES, or than half the slots of the stack, rounded down, even if there is room for no row.
 * - Of a name for which there is room the start is more than the end, or the end more than POSITION. The others are not looked at.
 * Then, but in the first case, FILLED_ROWS is 0, and no slot of `rows` changes. From sporebasket_new on, with everything lent as sporebasket_read_event says and enough slots, 17 never comes, whatever
 * the settings, and the rows are the names that the answers so far left open. */
size_t sporebasket_open_rows(const size_t *stack, size_t stack_slots, const size_t *state, size_t state_slots, size_t *rows,
                             size_t rows_slots, size_t *answer, size_t answer_slots);

/* Where the bytes of a span stand in the document: the slots of `part` are its start and its end, or both are the document's end if the
 * span does not lie in it. 17: the part has too few slots, and nothing is written. */
size_t sporebasket_content(const uint8_t *document, size_t length, size_t from, size_t to, size_t *part, size_t part_slots);

/* Reads one attribute of a tag. The content is that of a Start or an Empty, from `from` to `to` in the document, and `name` the length of its name, as
 * sporebasket_read_event tells them (CONTENT_FROM, CONTENT_TO, NAME). The first call of a tag has `at` = from + name, each call after it the NEXT of the answer before. 0 is an
 * attribute, or none: only white space is left (FOUND is 0). All places count in the document, but that of 17, which is 0. Who has the content alone lends it as the document,
 * from 0 to its length.
 * An attribute is white space, a name, `=`, and a value in `'` or `"`; white space may stand on both sides of the `=`. White space is space, tab, line feed and carriage return. A name is a
 * run, not empty, of bytes other than white space, `=`, `'` and `"`. A value ends at the quote that it began with. The first fault from the left is refused, and only by the call that
 * comes to it; a call before it tells its attribute:
 * - 19: a byte that is no white space stands at `at`, just behind a value.
 * - 20: a name is empty: `=` or a quote stands where it should begin.
 * - 24: the name is one that was read before in this tag, byte for byte. PLACE is where it begins the second time. The element's own name does not count.
 * - 21: no `=` behind the name and white space: PLACE is the byte there, or `to`.
 * - 22: no quote behind the `=` and white space: PLACE is the byte there, or `to`. Or the value has no closing quote: PLACE is `to`.
 * - 23: a `<` in a value, before its closing quote, be there one or not. PLACE is the `<`.
 * 17 comes before all else, at 0, and exactly where one of these is so:
 * - The answer has fewer than SPOREBASKET_ATTRIBUTE_SLOTS slots. Then nothing is written, not even the answer.
 * - `from` is more than `to`, or `to` more than `length`.
 * - `name` is not the count of the content's bytes before its first white space.
 * - `at` is not reached. Reached are from + name, and the NEXT of each attribute that reading from there tells, one after the other; nothing behind a refusal, and no place besides.
 * So it never comes where the numbers are those of a Start or an Empty, handed on as said. A refusal ends the tag: there is no place to go on from. Slots past those named above are left alone.
 * A call walks the tag from its name, since 17 and 24 need what came before; nothing is kept between calls. It takes time by the content's length for tags of up to a thousand attributes or so; in a longer
 * one, or one whose names were chosen for it, a call may walk the tag once more for each name. It takes some 75 KiB of the machine's stack. */
size_t sporebasket_attribute(const uint8_t *document, size_t length, size_t from, size_t to, size_t name, size_t at, size_t *answer,
                             size_t answer_slots);

/* Looks up an attribute by its name: reads the tag from its name on, as sporebasket_attribute does call by call, and tells the first attribute whose name has the bytes of
 * `wanted`. Where there is none FOUND is 0, and a refusal that is met before it is told as there. 17, at 0: as there, but that no `at` is handed in. */
size_t sporebasket_find_attribute(const uint8_t *document, size_t length, size_t from, size_t to, size_t name, const uint8_t *wanted,
                                  size_t wanted_length, size_t *answer, size_t answer_slots);

/* Writes the character that a reference stands for into the buffer, from `at` on, as UTF-8. The content is what stands between `&` and `;`, as that of a GENERAL_REF is: one of `lt`, `gt`, `amp`,
 * `apos` and `quot`; `#` and decimal digits; or `#x` and hexadecimal digits of either case. There may be any number of digits, leading zeros among them.
 * 0: the bytes are written, 1 to 4 of them, and no other byte of the buffer changes. A refusal leaves the whole buffer as it was. The first of these that is so:
 * - 25: the content has none of these forms; `#`, `#x`, `#X41`, `#+1` and nothing at all have none.
 * - 26: the number is that of no character of XML, which are 9, A, D, 20 to D7FF, E000 to FFFD and 10000 to 10FFFF, in hexadecimal.
 * - 27: the bytes do not fit into the buffer from `at` on, or `at` is more than `buffer_length`.
 * 17, before all else: the answer has fewer than SPOREBASKET_UNESCAPE_SLOTS slots, and nothing is written. Slots past those are left alone. */
size_t sporebasket_reference(const uint8_t *content, size_t length, uint8_t *buffer, size_t buffer_length, size_t at, size_t *answer,
                             size_t answer_slots);

/* Writes a content with references between into the buffer, from `at` on, each reference replaced by its character and every other byte as it is. A reference goes from `&` to the next `;`,
 * whatever stands between. 0: WRITTEN bytes are written, and no other byte of the buffer changes. A refusal leaves the whole buffer as it was. It is the first from the left, and PLACE tells where it stands:
 * - 25 and 26: as sporebasket_reference has them, or an `&` has no `;` behind it (25). PLACE is the `&`.
 * - 27: what is due does not fit. PLACE is the `&` of a reference that is good, or the byte that does not fit. An empty content is 27, at 0, where `at` is more than `buffer_length`.
 * 17: as there. What is written is never longer than the content, so that a buffer that has as many bytes from `at` on as the content never gives 27. It is UTF-8 where the content is. The buffer must not
 * overlap with the content: nothing is replaced in place. */
size_t sporebasket_unescape(const uint8_t *content, size_t length, uint8_t *buffer, size_t buffer_length, size_t at, size_t *answer,
                            size_t answer_slots);

/* Reads the times of a timetable's column: goes through the whole document with the default settings, and fills the column with the times of its texts within
 * `t`, in the order of the document. A text is within `t` where the latest open name is `t`. White space at both its ends does not count; where nothing else is
 * there, the text is passed over. A time is two digits, a colon and two digits, hours 00 to 47 and minutes 00 to 59. Its slot has 60 times the hours plus the
 * minutes: 24:10 is 1450, and follows 23:50, which is 1430. Text that is no time and a reference within `t` are 30; comments, CDATA sections and all else are
 * passed over.
 * It answers 0, or the number of the first refusal, which ends the reading: one of sporebasket_read_event, be it one after which a reader could go on, 30, or 31
 * where the column is full and one more time stands there (text that is no time is 30 there too). The times before it stay in the column, and COUNT and LOWER are
 * theirs. Slots of the column past COUNT and of the answer past those named above are left alone, and the stack is left as the reader's calls leave it. 16: the document is too long, and nothing but the
 * answer is written; 17, before all else: the answer has too few slots, and nothing is written.
 * Where the stack (15) or the column (31) was too short, lend a longer one and call again: the document is then read from its start. No column needs more slots than
 * a fifth of the document's bytes, since a time has five. */
size_t sporebasket_column(const uint8_t *document, size_t length, size_t *stack, size_t stack_slots, size_t *column, size_t column_slots,
                          size_t *answer, size_t answer_slots);

/* Makes a scan that has taken nothing, in the first SPOREBASKET_SCAN_SLOTS slots of `scan`: the state is PIECE, TAG, PI, COMMENT, CDATA or TEXT, LEFT is 4 for a COMMENT, and the others are 0.
 * 17: any other state, or fewer slots. Then nothing is written. */
size_t sporebasket_scan(size_t state, size_t *scan, size_t scan_slots);

/* Goes on with a scan over the next piece of what it looks through, and writes the scan. The first piece of a tag, a processing instruction, a comment or a CDATA section begins at its `<`, that of a PIECE
 * with the first byte of whatever comes; a piece may end anywhere, and be empty. 0: the piece was taken. If the scan is now CLOSED, COUNT is the place of the byte found, and what stands behind it in the
 * piece was not looked at; else it has to be fed on. Once it is CLOSED pieces of any length change nothing, and are answered by 0. For any cutting of the same bytes into pieces, empty ones included, answer, place and
 * slots at the end are those for the bytes in one piece, as long as they are SPOREBASKET_LONGEST together at most. What is found:
 * - TAG: the first `>` outside quotes.
 * - PI: the first `>` with a `?` right before it; of `<?>` it is the `>`.
 * - COMMENT: the first `>` with `--` right before it, none of which belongs to the opener: `<!-->` and `<!--->` are not closed by it.
 * - CDATA: the first `>` with `]]` right before it.
 * - TEXT: the first `<` or `&`, which does not belong to the text.
 * - REFERENCE: the first of `;`, `&` and `<` behind its `&`; the last two do not belong to it.
 * From PIECE on the scan finds out by itself which of these it is, as stands above, and is CLOSED by the byte that a call of sporebasket_read_event goes by to end its piece, or to refuse it. So a host that
 * gets a document by and by makes a call, over the bytes that have come and with LENGTH set to how many these are, as soon as a scan of a PIECE is CLOSED that began at POSITION: behind a byte order mark there
 * in INIT (it waits while what has come is only the beginning of a mark), and behind white space that SPOREBASKET_TRIM_TEXT_START skips. In INSIDE_EMPTY and DONE a call needs no byte, and where no more bytes
 * come all calls are made. They are answered as over the whole document. `hosts/c/chunks.c` is a whole program that does so.
 * 17, before all else, with the scan left as it was, exactly where one of these is so:
 * - There are fewer than SPOREBASKET_SCAN_SLOTS slots, or STATE is none of those above.
 * - COUNT is more than SPOREBASKET_LONGEST, or, in CLOSED, as much.
 * - COUNT does not fit the state: it is not 0 in PIECE, not 1 in OPENED, not 2 in BANG, or 0 in SINGLE_QUOTED, DOUBLE_QUOTED or REFERENCE.
 * - LEFT and SEEN do not fit: with LEFT 0, SEEN is more than 1 in PI, 2 in COMMENT and CDATA or 0 elsewhere, or the bytes of the opener that are no marks (4 in COMMENT, else 0) and SEEN are together more than
 *   COUNT; or LEFT is not 0, and the state is not COMMENT, SEEN is not 0, or COUNT and LEFT are together not 4.
 * So it never comes to who keeps a scan as it was left. 16, with the scan left as it was: it is open, and COUNT and `length` are together more than SPOREBASKET_LONGEST, even if the byte would be found
 * before that. */
size_t sporebasket_feed(const uint8_t *piece, size_t length, size_t *scan, size_t scan_slots);

#ifdef __cplusplus
}
#endif

#endif
