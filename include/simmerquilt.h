/* Simmerquilt: Double Metaphone keys from a proved port of src/double_metaphone.rs of rphonetic 4.0.0.
 *
 * There are two editions of the letter rules. Edition 1 alone equals that Rust. Edition 2 is the same but for one test of the rule
 * that sounds CH as K: it tests for "VAN " and "VON " at the word's front, where edition 1 compares these four bytes with the three
 * letters alone, which never holds. So "Van Chi" has the codes FNX and FNK by edition 1, and FNK and FNK by edition 2.
 *
 * A word is bytes. Bytes 9 to 13 and 32 are trimmed at both ends, and a to z count as A to Z. Each code lies at the front of
 * the buffer that the caller lends for it; there is no byte 0 behind it.
 *
 * The functions take anything: every word, every length, every limit gets an answer, nothing is allocated, and nothing is
 * kept. The caller sees to it that a pointer has its length behind it, and that what is written lies apart from everything
 * else that is lent. A pointer with length 0 is not followed.
 *
 * No.  given exactly when                                     returns and leaves
 * 0    none of the others                                     both lengths and the visits; codes written
 * 7    the edition is not known: neither 1 nor 2              as 1
 * 1    the word, before trimming, is over 1,024 bytes         lengths 0, visits 0; buffers untouched
 * 2    some byte of it is 128 or more                         also the place of the first; otherwise as 1
 * 3    the primary buffer is shorter than the need            as 1
 * 4    the alternate buffer is shorter than the need          as 1
 *
 * The first that holds is given, in this order; simmerquilt_encode is passed no edition, so that it never gives 7. The need is 0 if
 * the trimmed word is empty, else 2 * t - 1 for its t bytes, or the limit if that is smaller.
 */
#ifndef SIMMERQUILT_H
#define SIMMERQUILT_H

#include <stdbool.h>
#include <stddef.h>
#include <stdint.h>

#ifdef __cplusplus
extern "C" {
#endif

enum {
    SIMMERQUILT_ACCEPTED = 0,
    SIMMERQUILT_TOO_LONG = 1,
    SIMMERQUILT_NOT_ASCII = 2,
    SIMMERQUILT_PRIMARY_SHORT = 3,
    SIMMERQUILT_ALTERNATE_SHORT = 4
};

enum {
    /* The longest word that is taken, before trimming. */
    SIMMERQUILT_WORD_LIMIT = 1024,
    /* A buffer of this length is never too short. */
    SIMMERQUILT_CODE_ROOM = 2047,
    /* The limit that rphonetic's encoder has by default. */
    SIMMERQUILT_DEFAULT_LIMIT = 4
};

/* Where each number stands in the answer of simmerquilt_encode and of simmerquilt_encode_in. */
enum {
    SIMMERQUILT_NUMBER,
    SIMMERQUILT_PLACE,
    SIMMERQUILT_PRIMARY_LENGTH,
    SIMMERQUILT_ALTERNATE_LENGTH,
    SIMMERQUILT_VISITS,
    SIMMERQUILT_ANSWER_COUNT
};

/* Encodes a word by edition 1 into two lent buffers. Each code has at most `limit` bytes where `limited` is true. Bytes behind a
 * code, and under a refusal both buffers, keep what they held. The visits are the fewest that fill both codes to the limit, or
 * all. */
void simmerquilt_encode(const uint8_t *word, size_t word_length,
                        uint8_t *primary, size_t primary_room,
                        uint8_t *alternate, size_t alternate_room,
                        bool limited, uint64_t limit,
                        uint64_t answer[SIMMERQUILT_ANSWER_COUNT]);

/* Encodes a word as simmerquilt_encode does, by the edition of this number: 1 for the same answer, or 2. For any other the number is
 * 7, SIMMERQUILT_UNKNOWN, whatever the word and the buffers are. */
void simmerquilt_encode_in(uint64_t edition,
                           const uint8_t *word, size_t word_length,
                           uint8_t *primary, size_t primary_room,
                           uint8_t *alternate, size_t alternate_room,
                           bool limited, uint64_t limit,
                           uint64_t answer[SIMMERQUILT_ANSWER_COUNT]);

/* Which rule spoke at each visit of a word: a row of seven numbers for each visit that simmerquilt_encode_in makes by the same edition
 * under the same limit, in order.
 *
 * The place counts from the front of the trimmed word. The letter is the byte there, a to z as A to Z. The case is the number, from 1, of
 * the case that spoke in the letter's list (docs/RULES.md has them all: A, E, I, O, U and Y share one list, bytes outside A to Z another).
 * The text is the number, from 1, of the text that matched in the first window test of that case's condition that matched one, tests
 * under a "not" left out; 0 where none did. What each code gained is 0 for nothing, the byte, or the first byte plus 256 times the second,
 * before it is clipped to the limit: joined and clipped, the gains are the codes. Over is how many further bytes are passed over.
 *
 * No.  given exactly when                                     returns and leaves
 * 0    none of the others                                     how many rows there are; rows written
 * 7    the edition is not known: neither 1 nor 2              rows 0; the room untouched
 * 1    the word, before trimming, is over 1,024 bytes         as 7
 * 2    some byte of it is 128 or more                         also the place of the first; otherwise as 7
 * 9    the room holds fewer rows than there are visits        as 7
 *
 * The first that holds is given, in this order. */
enum {
    SIMMERQUILT_ROW_PLACE,
    SIMMERQUILT_ROW_LETTER,
    SIMMERQUILT_ROW_CASE,
    SIMMERQUILT_ROW_TEXT,
    SIMMERQUILT_ROW_PRIMARY,
    SIMMERQUILT_ROW_ALTERNATE,
    SIMMERQUILT_ROW_OVER,
    SIMMERQUILT_ROW_COUNT
};

enum {
    /* A room of this length is never too short, nor is one of SIMMERQUILT_ROW_COUNT numbers for each byte of the word. */
    SIMMERQUILT_ROWS_ROOM = 7168
};

/* Where each number stands in the answer of simmerquilt_explain. */
enum {
    SIMMERQUILT_EXPLAIN_NUMBER,
    SIMMERQUILT_EXPLAIN_PLACE,
    SIMMERQUILT_EXPLAIN_ROWS,
    SIMMERQUILT_EXPLAIN_COUNT
};

/* Writes the rows to the front of `rows`, which has room for `rows_length` numbers; those that make no whole row are not used. The answer
 * is the number (0, 1, 2, 7 or 9), the place, and how many rows there are. Numbers behind the rows keep what they held. */
void simmerquilt_explain(uint64_t edition,
                         const uint8_t *word, size_t word_length,
                         bool limited, uint64_t limit,
                         uint32_t *rows, size_t rows_length,
                         uint64_t answer[SIMMERQUILT_EXPLAIN_COUNT]);

/* Where each number stands in the answer of simmerquilt_equal. */
enum {
    SIMMERQUILT_EQUAL_NUMBER,
    SIMMERQUILT_EQUAL_WORD,
    SIMMERQUILT_EQUAL_PLACE,
    SIMMERQUILT_EQUAL_VERDICT,
    SIMMERQUILT_EQUAL_COUNT
};

/* Whether two words have the same code by edition 1 under the limit: the alternate one where `alternate` is true, else the primary
 * one. The answer is the number (0, 1 or 2), the refused word (1 or 2, else 0), the place in it, and 1 for equal codes, else 0. The
 * first word is checked wholly before the second. Both may be the same bytes. */
void simmerquilt_equal(const uint8_t *first, size_t first_length,
                       const uint8_t *second, size_t second_length,
                       bool limited, uint64_t limit,
                       bool alternate,
                       uint64_t answer[SIMMERQUILT_EQUAL_COUNT]);

/* The station key book: a header and records, in bytes that the caller keeps.
 *
 * A number is written in groups of seven bits, low group first; the high bit of a byte says that more follow. Only the shortest
 * form is good, at most four groups. The header is the format, 1 or 2, the rule edition, 1 or 2, and the cut: 0 for no limit, else the
 * limit plus 1. A record is, in format 2, the kind, 1 for live or 0 for closed, and in both formats the station, the name's length and
 * the name, the primary code's length and the code, and the same of the alternate code. In format 1 all records are live. Stations rise
 * strictly, over live and closed records alike. A name is stored as it is lent, untrimmed; its codes are those that
 * simmerquilt_encode_in gives by the header's edition and under its cut. A new book carries format 2 and edition 2; one that was stored
 * under format 1 or edition 1 is read and added to as it is.
 *
 * A station is closed by its kind alone, so that its record stays. It gives its room back when a record is added that does not fit
 * behind the book as it stands: the book is then closed up first, which is to say that its live records, in order and byte for byte, come
 * to lie directly behind the header, and the closed ones are gone.
 *
 * The room, the name and the answer must lie apart from each other. A refusal writes nothing but the answer, whose other numbers
 * are then 0. Bytes behind the new end of a book keep what they held when the call began, also where it is closed up.
 *
 * No.  given exactly when
 * 0    none of the others
 * 1    a name is over 1,024 bytes; in a book this is met at the name's length
 * 2    some byte of a name is 128 or more
 * 5    a number is in a bad form or needs more than four groups
 * 6    the book ends inside something
 * 7    the format, the edition or a kind is not known: the format or the edition is neither 1 nor 2, or the kind above 1; or a station
 *      of a book of format 1 is to be closed
 * 8    a station is not above the one before
 * 9    the lent room is too short for the result
 * 11   no live record has the station that is to be closed
 *
 * In a book the fault that is met first is given, from byte to byte: a number is judged when it is whole, its form before its
 * value, and 6 is met at the end. A stored code may hold any bytes. A new record is tested for 1, 2, 5, 8 and 9 in this order. Where it
 * fits behind the book as it stands, 8 counts every record; where it does not, 8 counts live records only, and 9 says that the header,
 * the live records and the new one do not fit the room.
 */
enum {
    SIMMERQUILT_BAD_NUMBER = 5,
    SIMMERQUILT_CUT_SHORT = 6,
    SIMMERQUILT_UNKNOWN = 7,
    SIMMERQUILT_NOT_RISING = 8,
    SIMMERQUILT_ROOM_SHORT = 9,
    SIMMERQUILT_NOT_LIVE = 11
};

/* What a record's kind may be. */
enum {
    SIMMERQUILT_CLOSED = 0,
    SIMMERQUILT_LIVE = 1
};

enum {
    /* The first number that four groups do not hold; stations and cuts are below it. */
    SIMMERQUILT_NUMBER_END = 268435456,
    /* The format and the edition of a new book; a stored one may carry older ones. */
    SIMMERQUILT_FORMAT = 2,
    SIMMERQUILT_EDITION = 2,
    /* A room of this length is never too short for a new book. */
    SIMMERQUILT_HEADER_ROOM = 6,
    /* So many bytes behind a book are never too few for one more record. */
    SIMMERQUILT_RECORD_ROOM = 5129
};

/* Where each number stands in the answer of simmerquilt_book_start, of simmerquilt_book_add and of simmerquilt_book_close. */
enum {
    SIMMERQUILT_BOOK_NUMBER,
    SIMMERQUILT_BOOK_LENGTH,
    SIMMERQUILT_BOOK_COUNT
};

/* Writes a book of format 2 and edition 2 without records to the front of the room. The answer is the number (0, 5 or 9) and the book's
 * length. */
void simmerquilt_book_start(uint8_t *room, size_t room_length,
                            bool limited, uint64_t limit,
                            uint64_t answer[SIMMERQUILT_BOOK_COUNT]);

/* Where each number stands in the answer of simmerquilt_book_open. */
enum {
    SIMMERQUILT_OPEN_NUMBER,
    SIMMERQUILT_OPEN_FORMAT,
    SIMMERQUILT_OPEN_EDITION,
    SIMMERQUILT_OPEN_CUT,
    SIMMERQUILT_OPEN_PLACE,
    SIMMERQUILT_OPEN_FLOOR,
    SIMMERQUILT_OPEN_COUNT
};

/* Reads a book's header. The answer is the number (0, 5, 6 or 7), the header, and the cursor of the first record: the place where
 * it begins and the least station that it may have. */
void simmerquilt_book_open(const uint8_t *book, size_t book_length,
                           uint64_t answer[SIMMERQUILT_OPEN_COUNT]);

/* Where each number stands in the answer of simmerquilt_book_next. */
enum {
    SIMMERQUILT_NEXT_NUMBER,
    SIMMERQUILT_NEXT_FOUND,
    SIMMERQUILT_NEXT_STATION,
    SIMMERQUILT_NEXT_NAME_START,
    SIMMERQUILT_NEXT_NAME_LENGTH,
    SIMMERQUILT_NEXT_PRIMARY_START,
    SIMMERQUILT_NEXT_PRIMARY_LENGTH,
    SIMMERQUILT_NEXT_ALTERNATE_START,
    SIMMERQUILT_NEXT_ALTERNATE_LENGTH,
    SIMMERQUILT_NEXT_PLACE,
    SIMMERQUILT_NEXT_FLOOR,
    SIMMERQUILT_NEXT_KIND,
    SIMMERQUILT_NEXT_COUNT
};

/* Reads the record at a cursor, live or closed, of a book with this format and edition. The answer is the number (0, 1, 2 or 5 to 8), 1
 * for a record found, else 0, the record, with where in the book each text starts and how long it is, the cursor of the record behind it,
 * and the record's kind, which in format 1 is SIMMERQUILT_LIVE. At the end of the book and past it the number is 0, nothing is found,
 * and all other numbers are 0. 7 is given for a format or an edition that is not known, whatever the cursor is, also there. */
void simmerquilt_book_next(const uint8_t *book, size_t book_length,
                           uint32_t format, uint32_t edition,
                           uint64_t place, uint32_t floor,
                           uint64_t answer[SIMMERQUILT_NEXT_COUNT]);

/* Where each number stands in the answer of simmerquilt_book_read. */
enum {
    SIMMERQUILT_READ_NUMBER,
    SIMMERQUILT_READ_FORMAT,
    SIMMERQUILT_READ_EDITION,
    SIMMERQUILT_READ_CUT,
    SIMMERQUILT_READ_RECORDS,
    SIMMERQUILT_READ_FLOOR,
    SIMMERQUILT_READ_LIVE,
    SIMMERQUILT_READ_COUNT
};

/* Reads a whole book. The answer is the number (0, 1, 2 or 5 to 8), the header, how many records there are, closed ones too, the least
 * station that a further one may have behind all these, and how many of them are live. */
void simmerquilt_book_read(const uint8_t *book, size_t book_length,
                           uint64_t answer[SIMMERQUILT_READ_COUNT]);

/* Adds a live record to the book in the first `length` bytes of the room. The whole book is read first, and its fault is given; then
 * the record is tested. Where the room has fewer bytes than `length`, those that are there are read, and if they show no fault
 * the number is 6. A book that the record does not fit behind is closed up, so that the new length may be less than `length`. The answer
 * is the number (0, 1, 2 or 5 to 9) and the new length. */
void simmerquilt_book_add(uint8_t *room, size_t room_length,
                          uint64_t length,
                          uint64_t station,
                          const uint8_t *name, size_t name_length,
                          uint64_t answer[SIMMERQUILT_BOOK_COUNT]);

/* Where each number stands in the answer of simmerquilt_book_append. */
enum {
    SIMMERQUILT_APPEND_NUMBER,
    SIMMERQUILT_APPEND_LENGTH,
    SIMMERQUILT_APPEND_FLOOR,
    SIMMERQUILT_APPEND_COUNT
};

/* Adds a record as simmerquilt_book_add does, but goes on from a known good end and does not read the book again: the header,
 * the length and the floor are those that simmerquilt_book_read told of these bytes, or the append before. 7 is given for a format
 * or an edition that is not known, then 6 for a length beyond the room; then the record is tested. It never closes the book up: in
 * format 2 a record that does not fit behind the end is 9, and is not tested for 8, since closed records may give room back and then only
 * live ones count. Who gets this 9 turns to simmerquilt_book_add, which reads the book and answers both. The answer is the number
 * (0, 1, 2 or 5 to 9), the new length and the new floor. */
void simmerquilt_book_append(uint8_t *room, size_t room_length,
                             uint32_t format, uint32_t edition, uint32_t cut,
                             uint64_t length, uint32_t floor,
                             uint64_t station,
                             const uint8_t *name, size_t name_length,
                             uint64_t answer[SIMMERQUILT_APPEND_COUNT]);

/* Closes a station of the book in the first `length` bytes of the room: the kind of its record, which is one byte, becomes
 * SIMMERQUILT_CLOSED, and nothing else changes. The whole book is read first, as simmerquilt_book_add reads it, and its fault is given; a
 * book of format 1 is 7 at its format number, whatever is behind that. Then 11 is given where no live record has this station: there is
 * none, or it is closed, or the number is no station. The answer is the number (0, 1, 2, 5 to 8 or 11) and the length, which is the one
 * stated. */
void simmerquilt_book_close(uint8_t *room, size_t room_length,
                            uint64_t length,
                            uint64_t station,
                            uint64_t answer[SIMMERQUILT_BOOK_COUNT]);

/* The join of two books of one edition, whose cuts and formats may differ: all pairs of a station of the first and a station of the
 * second book that meet. Closed records are skipped on both sides.
 *
 * Two stations meet where their primary codes, or the alternate ones where `alternate` is true, agree on their first m bytes: m is
 * the smaller limit of both books, and no limit puts no bound. A code shorter than m counts whole, so that it meets none that is
 * longer. The codes are taken as they are stored. Each pair comes once, by rising station of the first book, then of the second.
 *
 * The scratch is words that the join works in; what they hold at first does not matter. The two books may be the same bytes; the
 * scratch, the pairs and the answer must lie apart from each other and from the books.
 *
 * No.           given exactly when                                         the scratch then
 * 1, 2, 5 to 8  the first book has this fault, or else the second one      keeps what it held
 * 10            the editions of the books differ                           keeps what it held
 * 9             the scratch has fewer words than are needed                keeps what it held
 * 9             the pairs' room is too short for all pairs                 as under 0
 * 0             none of these                                              is 0 in the words that are needed
 *
 * The first that holds is given. Words of the scratch behind those that are needed keep what they held, and under a refusal so does
 * the pairs' room; the count is then 0.
 *
 * A book crafted so that many of its codes share a slot may slow a join; it can never change the result.
 */
enum {
    SIMMERQUILT_EDITIONS_DIFFER = 10
};

/* Where each number stands in the answer of simmerquilt_join_count and of simmerquilt_join. */
enum {
    SIMMERQUILT_JOIN_NUMBER,
    SIMMERQUILT_JOIN_PAIRS,
    SIMMERQUILT_JOIN_COUNT
};

/* How many words of scratch the join of books with so many live records needs: 3 * first + 8 * second + 1, or SIZE_MAX where that does
 * not fit. simmerquilt_book_read tells how many are live. */
size_t simmerquilt_join_scratch(size_t first_live, size_t second_live);

/* How many pairs there are, or `most` where there are more. The answer is the number and that count. */
void simmerquilt_join_count(const uint8_t *first, size_t first_length,
                            const uint8_t *second, size_t second_length,
                            bool alternate,
                            size_t *scratch, size_t scratch_length,
                            uint64_t most,
                            uint64_t answer[SIMMERQUILT_JOIN_COUNT]);

/* Writes the pairs, each as two stations, to the front of `pairs`, which has room for `pairs_length` numbers; an odd last one is not
 * used. The answer is the number and how many pairs there are. Numbers behind the pairs keep what they held. */
void simmerquilt_join(const uint8_t *first, size_t first_length,
                      const uint8_t *second, size_t second_length,
                      bool alternate,
                      size_t *scratch, size_t scratch_length,
                      uint32_t *pairs, size_t pairs_length,
                      uint64_t answer[SIMMERQUILT_JOIN_COUNT]);

#ifdef __cplusplus
}
#endif

#endif
