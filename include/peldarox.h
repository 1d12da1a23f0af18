/* peldarox.h -- read Souper IR into tables lent by the caller, print such tables, find names in them, and keep them
   in files; lex a text that arrives in parts.

   The library takes no memory of its own but its stack, less than 40 KB for a read and less than 80 KB for any other
   call. It keeps nothing between calls and calls nothing back: everything a call knows is in its arguments,
   everything it has to say is in what it is lent to write and in the report. Any bytes, any lengths, any counts and
   any contents of the tables are allowed; every call ends, with one of the answers below. Calls that share no memory
   that one of them writes may run at the same time. */

#ifndef PELDAROX_H
#define PELDAROX_H

#include <stddef.h>
#include <stdint.h>

#ifdef __cplusplus
extern "C" {
#endif

/* The longest text that is read, in bytes; also the most rows that a table gets. */
#define PELDAROX_MOST_BYTES 65536

/* How many 32-bit words a row of each table has. docs/LAYOUT.md says what each word means. */
#define PELDAROX_ITEM_WORDS 9
#define PELDAROX_STATEMENT_WORDS 10
#define PELDAROX_OPERAND_WORDS 7
#define PELDAROX_ATTRIBUTE_WORDS 11

/* How many 32-bit words the work area of a print needs, by the counts of statements and operands. */
#define PELDAROX_WORK_WORDS(statement_count, operand_count) (3 * (statement_count) + (operand_count) + 1)

/* Read a list of items from the first byte of a text to its last: replacements (statements, then `infer` and
   `result` or `cand`), left-hand sides (statements, then `infer`), or right-hand sides (statements, then `result`).
   An empty text, or one of white space and comments alone, is a list of no items.

     text, text_bytes   the text: UTF-8, no closing zero byte. It is only read.
     items, statements, operands, attributes
                        the four tables. Each count beside a table is in words, not in rows or bytes: a table has
                        room for its words divided by its row length, rounded down. A text of n bytes never needs
                        more than n rows of any table; n / 2 rows of items and n / 3 of statements and of
                        attributes, rounded up, are enough.
     report             six words, all of them written by every call:

                          report[0]   the number of the answer
                          report[1]   the place: counted in bytes from 0; 0 where the text is accepted
                          report[2]   how many rows of items, from word 0 of the table on
                          report[3]   how many rows of statements
                          report[4]   how many rows of operands
                          report[5]   how many rows of attributes

   No pointer is null, not even beside a count of 0, and each has the alignment of its words. No table, and not the
   report, overlaps anything else that is lent to the call.

   The answers. 1 is tested first, then 2 over the whole text; of 3 to 7 it is what comes first while reading from
   left to right.

     No.  Given when                                                      Place
     0    accepted                                                        0
     1    the text is longer than 65,536 bytes                            65,536
     2    the text is not well-formed UTF-8                               first byte of the first bad sequence
     3    no token can be made of the bytes                               the byte where that fails
     4    wrong token, bad type, bad demandedBits pattern, or the         first byte of that token; at the end of
          end of the text where a token is needed                         the text see below
     5    an integer is malformed or does not fit its field               first byte of its token
     6    a name is unknown, redefined, or no block where one is needed   first byte of its token
     7    a table has no row left                                         first byte of the last token found

   Where a token is demanded and none is left, the place of 4 is the text's last byte; where the right side of
   a statement is looked for and none is left, it is the first byte of the last token found. 7 says that a table is
   too short, not which: lend more words and read again.

   What is left behind. Accepted: each table has its rows, in the order of reading, and every word behind them is 0,
   also those that make no whole row. Refused: every word of every table is 0, and report[2] to report[5] are 0.
   Rows name bytes of the text by their place, so keep the text as long as the rows are in use. */

void peldarox_read_replacements(const uint8_t *text, size_t text_bytes,
                                uint32_t *items, size_t item_words,
                                uint32_t *statements, size_t statement_words,
                                uint32_t *operands, size_t operand_words,
                                uint32_t *attributes, size_t attribute_words,
                                uint64_t report[6]);

void peldarox_read_left_hand_sides(const uint8_t *text, size_t text_bytes,
                                   uint32_t *items, size_t item_words,
                                   uint32_t *statements, size_t statement_words,
                                   uint32_t *operands, size_t operand_words,
                                   uint32_t *attributes, size_t attribute_words,
                                   uint64_t report[6]);

void peldarox_read_right_hand_sides(const uint8_t *text, size_t text_bytes,
                                    uint32_t *items, size_t item_words,
                                    uint32_t *statements, size_t statement_words,
                                    uint32_t *operands, size_t operand_words,
                                    uint32_t *attributes, size_t attribute_words,
                                    uint64_t report[6]);

/* Print the items of four tables, one after another: of each the statements that its closing lines need, every one
   after those it refers to, and its closing lines, a line feed after each line.

     text, text_bytes   the text that the tables were read from: names and patterns are taken from it. It need not be
                        UTF-8. Text and tables are only read.
     items, statements, operands, attributes
                        the four tables, each with its words, as a read left them or made otherwise.
     item_count, statement_count, operand_count, attribute_count
                        how many rows of each table are counted: report[2] to report[5] of the read.
     work, work_words   the work area: PELDAROX_WORK_WORDS(statement_count, operand_count) words or more, whatever
                        they hold. It may be lent longer than that.
     output, output_bytes
                        where the bytes go; no closing zero byte is written.
     report             report[0], the number of the answer, and report[1], as below; report[2] to report[5] are 0.

   The answers, tested in this order:

     No.  Given when                                                      report[1]
     8    the tables are not well formed                                  0
     9    the work area is too short                                      words needed
     10   the output is too short                                         bytes needed
     0    printed                                                         bytes written

   To ask for the bytes needed, print with output_bytes 0: the answer is 10 with their number (0 if there are none to
   write); then print again into an output of that length.

   What is left behind. 8 and 9: nothing is changed. 10: every word of the work area lent is 0, and the output is not
   changed. 0: every word of the work area lent is 0, and of the output the bytes written are changed and no others.

   Pointers as for a read: the work area, the output and the report overlap nothing else that is lent to the call. */

void peldarox_print(const uint8_t *text, size_t text_bytes,
                    const uint32_t *items, size_t item_words,
                    const uint32_t *statements, size_t statement_words,
                    const uint32_t *operands, size_t operand_words,
                    const uint32_t *attributes, size_t attribute_words,
                    uint64_t item_count, uint64_t statement_count,
                    uint64_t operand_count, uint64_t attribute_count,
                    uint32_t *work, size_t work_words,
                    uint8_t *output, size_t output_bytes,
                    uint64_t report[6]);

/* Find the name of a statement: text, tables and counts as for a print, and the statement's row, counted from 0.
   The name is the part of the text that begins at byte report[1] and has report[2] bytes, the `%` first. It has none
   where the tables are not well formed, and where the row is past the count or no assignment (a `pc` or `blockpc`);
   then report[1] is 0 too. The rest of the report is 0. */

void peldarox_name(const uint8_t *text, size_t text_bytes,
                   const uint32_t *items, size_t item_words,
                   const uint32_t *statements, size_t statement_words,
                   const uint32_t *operands, size_t operand_words,
                   const uint32_t *attributes, size_t attribute_words,
                   uint64_t item_count, uint64_t statement_count,
                   uint64_t operand_count, uint64_t attribute_count,
                   uint64_t row,
                   uint64_t report[6]);

/* Lex a text as it arrives, in parts of any length: start once, give every part in its turn, then end. Nothing is told
   before the end. However the text is cut, and also where it comes whole in one part, the report is the same.

     state, state_words   where the lexer keeps what it knows between calls: PELDAROX_LEXER_WORDS words or more. Before
                          the start they may hold anything. Words behind those are never touched. The state is all that
                          is kept, so a copy of it can be gone on with, and several texts can be lexed side by side.
     part, part_bytes     the next bytes of the text, as few or as many as have come, also none. They are only read, and
                          need not be kept after the call.
     report               eight words, all of them written by every call:

                            report[0]   the number of the answer
                            report[1]   the place: counted in bytes from the text's first; 0 where there is none. Of 9
                                        the words needed
                            report[2]   of an end, how many tokens stand before the refusal, or in all; 0 for 1, 2 and 9

                          The rest is 0. A start and a part answer 0 or 9 and nothing else.

   The answers of an end. 1 is given before 2, and 2 before 3 and 16, of which it is the one that comes first.

     No.  Given when                                                      Place
     0    all of the text are tokens, white space and comments            0
     1    the text is longer than 65,536 bytes                            65,536
     2    the text is not well-formed UTF-8                               first byte of the first bad sequence
     3    no token can be made of the bytes                               the byte where that fails
     9    the state has too few words                                     words needed
     16   a token is longer than PELDAROX_LONGEST_TOKEN bytes             its first byte

   The length of a token counts all its bytes, the `%` of a name and `knownBits=` too. Where no token is too long, the
   report is that of lexing the whole text at once.

   What is left behind. 9: nothing is changed. A start and a part write the first PELDAROX_LEXER_WORDS words of the
   state; an end changes nothing, so parts may follow it. Any words are a state: a call that is given others than these
   calls left ends as well, and touches nothing else; what an end then tells means nothing.

   The time is linear in the bytes, however they are cut, and less than 1 KB of stack is used. Pointers as for a read:
   the state and the report overlap nothing else that is lent to the call. */

/* How many 64-bit words the state of the lexer has. */
#define PELDAROX_LEXER_WORDS 14

/* The longest token that is carried, in bytes. */
#define PELDAROX_LONGEST_TOKEN 4096

void peldarox_lex_start(uint64_t *state, size_t state_words, uint64_t report[8]);

void peldarox_lex_part(uint64_t *state, size_t state_words,
                       const uint8_t *part, size_t part_bytes,
                       uint64_t report[8]);

void peldarox_lex_end(const uint64_t *state, size_t state_words, uint64_t report[8]);

/* Rules on disk: a text and its tables as one file of bytes, so that a later run need not read the text again. The
   report of these two calls has eight words, all of them written by every call; what is not named is 0. */

/* How many bytes the file of a text and so many counted rows has. */
#define PELDAROX_STORED_BYTES(text_bytes, item_count, statement_count, operand_count, attribute_count) \
    ((text_bytes) + 36 * (item_count) + 40 * (statement_count) + 28 * (operand_count) + 44 * (attribute_count) + 44)

/* Store a text and four tables: write their file.

     text, text_bytes; items, statements, operands, attributes; item_count, statement_count, operand_count,
     attribute_count    as for a print. They are only read.
     output, output_bytes
                        where the file goes. docs/LAYOUT.md says what its bytes are: the text, the counted rows of the
                        four tables, and a trailer.
     report             report[0], the number of the answer, and report[1], as below; report[2] to report[7] are 0.

   The answers, tested in this order:

     No.  Given when                                                      report[1]
     8    the tables are not well formed                                  0
     15   the output is shorter than the file                             0
     0    stored                                                          bytes written

   The file has PELDAROX_STORED_BYTES bytes of the text's length and the four counts. That of a text of n bytes which was
   read has at most n + 100 n / 3 + 44 bytes, 2,250,113 for the longest text.

   What is left behind. 8 and 15: nothing is changed. 0: of the output the bytes written are changed and no others.

   Pointers as for a read: the output and the report overlap nothing else that is lent to the call. */

void peldarox_store(const uint8_t *text, size_t text_bytes,
                    const uint32_t *items, size_t item_words,
                    const uint32_t *statements, size_t statement_words,
                    const uint32_t *operands, size_t operand_words,
                    const uint32_t *attributes, size_t attribute_words,
                    uint64_t item_count, uint64_t statement_count,
                    uint64_t operand_count, uint64_t attribute_count,
                    uint8_t *output, size_t output_bytes,
                    uint64_t report[8]);

/* Load a file: take its text and its rows into lent memory. The tables are then as a read of the text leaves them, but
   for the kind of list, which a file does not tell: each item row says its own.

     file, file_bytes   the whole file, from its first byte to its last. Any bytes are allowed. It is only read.
     text, text_bytes   where the text goes.
     items, statements, operands, attributes
                        where the rows go. Each count beside a table is in words, not in rows or bytes.
     report             report[0], the number of the answer; where that is 0,

                          report[1]   how many bytes of text, from the first lent byte on
                          report[2]   how many rows of items, from word 0 of the table on
                          report[3]   how many rows of statements
                          report[4]   how many rows of operands
                          report[5]   how many rows of attributes

                        and the rest is 0; where it is another, all the rest is 0.

   The answers, tested in this order:

     No.  Given when
     14   the file is shorter than its trailer, 44 bytes
     13   its last word is not the version, 1
     14   the parts overlap, leave gaps, run outside the file, or end in a broken row
     15   the text is longer than the lent text, or a table has more words than the lent table
     8    the tables are not well formed, or the text is longer than 65,536 bytes
     0    loaded

   What is left behind. Refused: nothing is changed. 0: the text stands at the front of the lent text, and the bytes behind
   it are as they were; each table has its rows, and every word behind them is 0.

   A file that was stored loads as the same text, counts and rows, into any memory that is long enough; and a file that
   loads is exactly what a store of what was loaded writes.

   Pointers as for a read: the text, the tables and the report overlap nothing else that is lent to the call. */

void peldarox_load(const uint8_t *file, size_t file_bytes,
                   uint8_t *text, size_t text_bytes,
                   uint32_t *items, size_t item_words,
                   uint32_t *statements, size_t statement_words,
                   uint32_t *operands, size_t operand_words,
                   uint32_t *attributes, size_t attribute_words,
                   uint64_t report[8]);

#ifdef __cplusplus
}
#endif

#endif
