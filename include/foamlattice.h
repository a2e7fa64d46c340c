/* Foamlattice: a proved matcher for regular expressions.
 *
 * Every function takes slices as a pointer and a length, ends and answers on all bytes and words that it can be
 * handed, and keeps nothing between calls. It allocates nothing; what it needs it takes from the stack: 17 KB in
 * foam_check and foam_check2, 26 KB in foam_read and foam_read2, 39 KB in foam_match, foam_search, foam_start,
 * foam_step, foam_steps, foam_lines and foam_table (7 KB in the first five for lists of up to 120 records), 142 KB in
 * foam_pick (79 KB where its texts have fewer than 4,000 bytes), 47 KB in foam_widen, as measured by bench/run.
 *
 * What a caller must see to, since it cannot be checked: no pointer is null, also where its length is 0; each points to
 * as many bytes, entries or words as its length says, words aligned as uint64_t and entries as uint16_t; what is written
 * through overlaps nothing else that is lent to the same call. The archive libfoamlattice.a is for x86-64 of level v2
 * (Linux, System V calling convention).
 *
 * Each function answers one number:
 *   bits  0 to  7  the refusal's number, 0 where nothing is refused
 *   bits  8 to 15  a flag
 *   bits 16 to 39  x
 *   bits 40 to 63  y
 * foam_number, foam_flag, foam_x and foam_y below take it apart.
 *
 *   call          flag                                      x                            y
 *   foam_read     0                                         records; of a refusal        pieces; 0 of a refusal
 *                                                           its place
 *   foam_read2    0                                         as foam_read                 pieces + 256 * classes
 *   foam_check    0                                         as foam_read                 pieces + 256 * classes
 *   foam_check2   0                                         as foam_read                 pieces + 256 * classes
 *   foam_match    1 yes, 0 no                               0                            0
 *   foam_search   1 found, 0 nothing                        start                        end, the first byte after
 *   foam_start    1 where the accepting state is marked     0; of a refusal its place    0
 *   foam_step     1 where the accepting state is marked     1 where nothing is left,     0
 *                                                           else 0
 *   foam_steps    as foam_step after the last byte          as foam_step                 0
 *   foam_lines    0                                         lines; 0 of a refusal        yes lines
 *   foam_lines_table  as foam_lines
 *   foam_widen    0                                         records; 0 of a refusal      0
 *   foam_pick     1 written, 0 too short a buffer           bytes written                0
 *   foam_table    1 made, 0 does not fit                    states                       entries
 *   foam_match_table
 *                 1 yes, 0 no                               0                            0
 *
 * A refusal changes no byte and no word that was lent.
 *
 * A list that foam_read2 wrote may have class leaves. The class records that it wrote beside are then lent after the list
 * to each call that takes one. A list with no class leaf, as foam_read writes it, takes a class buffer of length 0.
 */
#ifndef FOAMLATTICE_H
#define FOAMLATTICE_H

#include <stddef.h>
#include <stdint.h>

/* The length of buffer that foam_pick asks for: no output is longer than this. */
#define FOAM_MOST_OUTPUT 1048575

/* Bytes of a tree record and of a class record; the longest record list and the most class records that a call can write;
 * the most words that marks can take, one for each piece. */
#define FOAM_RECORD_SIZE 12
#define FOAM_CLASS_SIZE 32
#define FOAM_MOST_RECORD_BYTES 23040
#define FOAM_MOST_CLASS_BYTES 30720
#define FOAM_MOST_WORDS 128

/* The longest expression, text and input of foam_pick, in bytes: a buffer for one needs no more. Bytes of a record of the
 * layout that foam_widen takes. */
#define FOAM_MOST_EXPRESSION 1024
#define FOAM_MOST_TEXT 65536
#define FOAM_MOST_INPUT 65536
#define FOAM_OLD_RECORD_SIZE 8

/* The fewest entries that a table of steps can have, and the most. */
#define FOAM_TABLE_HEADING 257
#define FOAM_MOST_ENTRIES 65536

#ifdef __cplusplus
extern "C" {
#endif

/* The refusals by their numbers, which never change. docs/REFERENCE.md, section 3, says when each is given, and where. */
enum foam_refusal {
    FOAM_REFUSAL_NONE = 0,
    FOAM_REFUSAL_EMPTY = 1,
    FOAM_REFUSAL_TOO_LONG = 2,
    FOAM_REFUSAL_OPERAND_DUE = 3,
    FOAM_REFUSAL_GROUP_OPEN = 4,
    FOAM_REFUSAL_NO_GROUP = 5,
    FOAM_REFUSAL_TOO_DEEP = 6,
    FOAM_REFUSAL_ESCAPE = 7,
    FOAM_REFUSAL_TOO_MANY_PIECES = 8,
    FOAM_REFUSAL_BUFFER_SHORT = 9,
    FOAM_REFUSAL_LIST = 10,
    FOAM_REFUSAL_TEXT_TOO_LONG = 11,
    FOAM_REFUSAL_WORDS_SHORT = 12,
    FOAM_REFUSAL_MARKS = 13,
    FOAM_REFUSAL_CLASS = 14,
    FOAM_REFUSAL_CLASSES_SHORT = 15,
    FOAM_REFUSAL_COUNT = 16,
    FOAM_REFUSAL_TOO_MANY_NODES = 17,
    FOAM_REFUSAL_TABLE_SHORT = 28
};

/* The refusal of an answer, 0 where nothing is refused. */
static inline unsigned foam_number(uint64_t answer) { return (unsigned)(answer & 0xff); }

/* The flag of an answer: whether it is 1. */
static inline int foam_flag(uint64_t answer) { return (answer >> 8 & 0xff) == 1; }

/* x of an answer: of a refusal its place. */
static inline size_t foam_x(uint64_t answer) { return (size_t)(answer >> 16 & 0xffffff); }

/* y of an answer. */
static inline size_t foam_y(uint64_t answer) { return (size_t)(answer >> 40); }

/* The pieces and the classes that y of a reading or a check holds. */
static inline size_t foam_pieces(uint64_t answer) { return foam_y(answer) % 256; }
static inline size_t foam_classes(uint64_t answer) { return foam_y(answer) / 256; }

/* A refusal in words, as `pick` has them: a string that is there for good, for any number. */
static inline const char *foam_refusal_text(unsigned number) {
    switch (number) {
    case FOAM_REFUSAL_NONE: return "nothing is refused";
    case FOAM_REFUSAL_EMPTY: return "the expression is empty";
    case FOAM_REFUSAL_TOO_LONG: return "the expression has more than 1,024 bytes";
    case FOAM_REFUSAL_OPERAND_DUE: return "a character, a class or a group has to begin here";
    case FOAM_REFUSAL_GROUP_OPEN: return "this group is not closed";
    case FOAM_REFUSAL_NO_GROUP: return "no group is open for this ) to close";
    case FOAM_REFUSAL_TOO_DEEP: return "more than 32 groups stand one inside the other";
    case FOAM_REFUSAL_ESCAPE: return "a \\ has to stand before a sign";
    case FOAM_REFUSAL_TOO_MANY_PIECES: return "too large: the tree has more than 128 pieces";
    case FOAM_REFUSAL_BUFFER_SHORT: return "the buffer is too short";
    case FOAM_REFUSAL_LIST: return "the list of records is not a good one";
    case FOAM_REFUSAL_TEXT_TOO_LONG: return "the text has more than 65,536 bytes";
    case FOAM_REFUSAL_WORDS_SHORT: return "fewer words are lent than the list has pieces";
    case FOAM_REFUSAL_MARKS: return "the words are no marks of this list";
    case FOAM_REFUSAL_CLASS: return "this is no class of the form [a-z] or [^a-z]";
    case FOAM_REFUSAL_CLASSES_SHORT: return "the buffer for the classes is too short";
    case FOAM_REFUSAL_COUNT: return "this is no count of the form {2,4}";
    case FOAM_REFUSAL_TOO_MANY_NODES: return "too large: the tree has more than 2,047 nodes";
    case FOAM_REFUSAL_TABLE_SHORT: return "the table has fewer than 257 entries";
    default: return "no such refusal";
    }
}

/* Checks an expression of the first syntax: every refusal of foam_read but 9, and the counts, which say how much room the
 * records need. Nothing is lent but the expression. Where it refuses nothing foam_read refuses nothing but 9. */
uint64_t foam_check(const uint8_t *expression, size_t expression_length);

/* Checks an expression of the second syntax: every refusal of foam_read2 but 9 and 15, and the counts. */
uint64_t foam_check2(const uint8_t *expression, size_t expression_length);

/* Reads an expression of the first syntax into tree records of 12 bytes. Refusals, in this order: 1 no bytes; 2 more than
 * 1,024 bytes; the first from left to right of 3 operand due, 4 group left open, 5 `)` with no group open, 6 a 33rd open
 * group, 7 a bad `\`; 8 more than 128 pieces; 9 the record buffer is too short. Bytes past the records are not written. */
uint64_t foam_read(const uint8_t *expression, size_t expression_length, uint8_t *records, size_t records_length);

/* Reads an expression of the second syntax, which has `.` (each byte but 10), classes `[..]`, and behind an operand `+`, `?`
 * and counts `{m,n}` too, into tree records and class records: for each class leaf, in the order of leaves, 32 bytes, value
 * v at bit v % 8 of byte v / 8. What a sign repeats is copied, its class leaves too, each with a class record of its own.
 * Refusals as foam_read, and from left to right with 3 to 7 (3 also at `+`, `?` or `{` where an operand is due) also 14 a
 * class that is not of the form, at its `[`, or a `]` outside a class, at it, and 16 a count that is not of the form, at its
 * `{`, or a `}` outside a count, at it; before 8 also 17 more than 2,047 nodes, copies counted; after 9 also 15 the class
 * buffer is too short. Bytes past the records and past the classes are not written. */
uint64_t foam_read2(const uint8_t *expression, size_t expression_length, uint8_t *records, size_t records_length,
                    uint8_t *classes, size_t classes_length);

/* Whether the whole text is in the language of the list's tree. Refusals: 10 not a good list; 15 fewer than 32 bytes of
 * classes for each class leaf (more, of any length, are right); 11 a text of more than 65,536 bytes. */
uint64_t foam_match(const uint8_t *records, size_t records_length, const uint8_t *classes, size_t classes_length,
                    const uint8_t *text, size_t text_length);

/* The part of the text that starts earliest and, of those, ends furthest, among the parts in the language; it may be
 * empty. Refusals as foam_match. */
uint64_t foam_search(const uint8_t *records, size_t records_length, const uint8_t *classes, size_t classes_length,
                     const uint8_t *text, size_t text_length);

/* Writes the marks to start with: one word for each piece. What the words held before is not read, and words past the
 * pieces are neither read nor written. The flag is 1 where the empty text is in the language. Refusals: 10 not a good
 * list; 15 as foam_match; 12 fewer words than pieces. */
uint64_t foam_start(const uint8_t *records, size_t records_length, const uint8_t *classes, size_t classes_length,
                    uint64_t *words, size_t words_length);

/* Turns the marks into those after one more byte: a state is marked exactly when a path leads to it from a state that was
 * marked, by this one byte and then any number of empty transitions. After a start and a step for each byte of a text the
 * flag is 1 where that text is in the language. x is 1 where no state is marked any more: then no later byte marks one, so
 * that a caller may stop there with the answer no. Words past the pieces are neither read nor written. Refusals: 10; 15; 12;
 * 13 a bit past the last state is set, or the two bits of a shared state differ. */
uint64_t foam_step(const uint8_t *records, size_t records_length, const uint8_t *classes, size_t classes_length,
                   uint64_t *words, size_t words_length, uint8_t byte);

/* Turns the marks into those after each of the bytes, one after the other: the words and the answer are what as many calls of
 * foam_step leave and give, and the list is decided on and its tables are made once. Where nothing is left, the rest of the
 * bytes is not read: it could mark nothing. With no byte the words stay as they are, the flag is 1 where they mark the accepting
 * state, and x is 1 where they mark nothing. Refusals as foam_step, with no byte too. */
uint64_t foam_steps(const uint8_t *records, size_t records_length, const uint8_t *classes, size_t classes_length,
                    uint64_t *words, size_t words_length, const uint8_t *bytes, size_t bytes_length);

/* Matches every line of a text: byte i of the answers is 1 where line i is in the language of the list's tree, and 0 where it
 * is not, as foam_match says of that line. A line ends at byte 10, or at 13 and 10; last bytes without an end are a line too,
 * and a text of no bytes has none. The list is decided on and its tables are made once for all lines. Bytes past the answers
 * are not written. Refusals: 10, 15 and 11 as foam_match of the whole text; 9 fewer answers are lent than there are lines. */
uint64_t foam_lines(const uint8_t *records, size_t records_length, const uint8_t *classes, size_t classes_length,
                    const uint8_t *text, size_t text_length, uint8_t *answers, size_t answers_length);

/* The same by a table of steps: byte i of the answers is 1 where the table accepts line i, and 0 where it does not. Refusals:
 * 28 a table of fewer than 257 entries; 11 a text of more than 65,536 bytes; 9 as foam_lines. */
uint64_t foam_lines_table(const uint16_t *table, size_t table_length, const uint8_t *text, size_t text_length, uint8_t *answers,
                          size_t answers_length);

/* Writes what the program `pick` prints for an input of any length: its first line is an expression of the first syntax,
 * each later one a text, and a line ends at byte 10, or at 13 and 10. For each text stand its number, `yes` and its rank
 * among the yes lines or `no -`, and in the last line the counts; for an expression that is refused only `refused N at P`,
 * and for more than 65,536 bytes only `input too long`. The expression is read once for all texts, so this is the call for
 * many short ones. Bytes past the output are not written. Nothing is refused by number: with a buffer shorter than
 * FOAM_MOST_OUTPUT, whatever the input, the flag is 0 and no byte is written. */
uint64_t foam_pick(const uint8_t *input, size_t input_length, uint8_t *output, size_t output_length);

/* Turns a good list of the layout that had no places, of 8 bytes a record, into one of today, of 12 bytes a record, with
 * the place 0 in every record; its class records stay as they are. Refusals: 10 not a good list of that layout; 9 the
 * record buffer is shorter than 12 bytes for each record. Bytes past the records are not written. */
uint64_t foam_widen(const uint8_t *old, size_t old_length, uint8_t *records, size_t records_length);

/* Makes a table of steps of the list's tree, in the table that is lent, with room lent for finding its states: so many
 * entries from the first on; those past them are not written. By it foam_match_table answers what foam_match answers by the
 * list, in two loads a byte. With k columns (one for all bytes that no leaf tells apart), s states (state 0, where nothing
 * is left, among them) and p pieces it has 257 + (k + 1) * s entries and takes (1 + p + k) * (s - 1) words of room. The
 * flag is 0, and x and y are 0, where it does not fit: it would have more than 65,536 entries, or the table or the room is
 * too short; then no entry of the table differs. In both cases every word of the room is 0 afterwards. It tries fewer than
 * 65,279 steps before it gives up. Sizes to lend: 1,024 entries and 1,024 words are enough for most rules, such as dates,
 * addresses or the first line of a request (docs/REFERENCE.md, section 7, has figures); FOAM_MOST_ENTRIES entries for any.
 * Refusals, which change nothing: 10 not a good list; 15 as foam_match. */
uint64_t foam_table(const uint8_t *records, size_t records_length, const uint8_t *classes, size_t classes_length,
                    uint16_t *table, size_t table_length, uint64_t *room, size_t room_length);

/* Whether a table of steps accepts the whole text, of any length. Any entries are a table: entry b, for each byte b, says
 * where the column of b begins, entry 256 where that of accepting does; a column has an entry for each state; the run
 * starts in state 1, ends with no at state 0, and an entry past the table's length counts as 0. Nothing outside of what is
 * lent is read, whatever the entries are. Refusal: 28 a table of fewer than 257 entries. */
uint64_t foam_match_table(const uint16_t *table, size_t table_length, const uint8_t *text, size_t text_length);

#ifdef __cplusplus
}
#endif

#endif
