/* Calls the library as a C program does: words with known keys by both editions, every refusal, guard bytes around the buffers, the
 * listing of which rule spoke, and station key books of both formats and editions that are started, added to, closed, read and joined with
 * another. It writes nothing where all is as it should be. */
#include "simmerquilt.h"

#include <stdio.h>
#include <string.h>

enum { GUARD = 8, ROOM = 16, HELD = 0xee, BOTH = 3 * GUARD + 2 * ROOM };

static int failures;

static void expect(bool holds, const char *what, const char *word) {
    if (!holds) {
        printf("face.c: %s: \"%s\"\n", what, word);
        failures++;
    }
}

/* Two buffers with guards before, between and behind. */
struct lent {
    uint8_t bytes[BOTH];
};

static uint8_t *primary_of(struct lent *lent) { return lent->bytes + GUARD; }
static uint8_t *alternate_of(struct lent *lent) { return lent->bytes + GUARD + ROOM + GUARD; }

/* Whether the buffers begin with these codes and all other bytes are held. */
static bool holds(struct lent *lent, const char *primary, const char *alternate) {
    struct lent expected;
    memset(expected.bytes, HELD, BOTH);
    memcpy(primary_of(&expected), primary, strlen(primary));
    memcpy(alternate_of(&expected), alternate, strlen(alternate));
    return memcmp(expected.bytes, lent->bytes, BOTH) == 0;
}

static bool answered(const uint64_t *answer, uint64_t number, uint64_t place, uint64_t primary, uint64_t alternate,
                     uint64_t visits) {
    return answer[SIMMERQUILT_NUMBER] == number && answer[SIMMERQUILT_PLACE] == place &&
           answer[SIMMERQUILT_PRIMARY_LENGTH] == primary && answer[SIMMERQUILT_ALTERNATE_LENGTH] == alternate &&
           answer[SIMMERQUILT_VISITS] == visits;
}

/* What is passed as the edition for a call of simmerquilt_encode, which takes none; no edition has this number. */
#define PLAIN (UINT64_MAX / 3)

static void encode(uint64_t edition, const void *word, size_t length, struct lent *lent, size_t primary, size_t alternate,
                   bool limited, uint64_t limit, uint64_t *answer) {
    memset(lent->bytes, HELD, BOTH);
    if (edition == PLAIN) {
        simmerquilt_encode(word, length, primary_of(lent), primary, alternate_of(lent), alternate, limited, limit, answer);
    } else {
        simmerquilt_encode_in(edition, word, length, primary_of(lent), primary, alternate_of(lent), alternate, limited, limit,
                              answer);
    }
}

/* A limit below 0 is none. */
static void known_in(uint64_t edition, const char *word, int limit, const char *primary, const char *alternate, uint64_t visits) {
    struct lent lent;
    uint64_t answer[SIMMERQUILT_ANSWER_COUNT];
    encode(edition, word, strlen(word), &lent, ROOM, ROOM, limit >= 0, limit >= 0 ? (uint64_t)limit : 0, answer);
    expect(answered(answer, SIMMERQUILT_ACCEPTED, 0, strlen(primary), strlen(alternate), visits), "answer", word);
    expect(holds(&lent, primary, alternate), "buffers", word);
}

/* A word on which the editions agree, by every call. */
static void known(const char *word, int limit, const char *primary, const char *alternate, uint64_t visits) {
    known_in(PLAIN, word, limit, primary, alternate, visits);
    known_in(1, word, limit, primary, alternate, visits);
    known_in(2, word, limit, primary, alternate, visits);
}

static void refused_in(uint64_t edition, const void *word, size_t length, size_t primary, size_t alternate, uint64_t number,
                       uint64_t place) {
    struct lent lent;
    uint64_t answer[SIMMERQUILT_ANSWER_COUNT];
    encode(edition, word, length, &lent, primary, alternate, false, 0, answer);
    expect(answered(answer, number, place, 0, 0, 0), "refusal", word);
    expect(holds(&lent, "", ""), "buffers under a refusal", word);
}

/* By every call; an edition that is not known is told before it. */
static void refused(const void *word, size_t length, size_t primary, size_t alternate, uint64_t number, uint64_t place) {
    static const uint64_t unknown[] = {0, 3, 258, UINT64_C(0x100000001), UINT64_C(0x100000002), UINT64_MAX};
    size_t at;
    refused_in(PLAIN, word, length, primary, alternate, number, place);
    refused_in(1, word, length, primary, alternate, number, place);
    refused_in(2, word, length, primary, alternate, number, place);
    for (at = 0; at < sizeof unknown / sizeof *unknown; at++) {
        refused_in(unknown[at], word, length, primary, alternate, SIMMERQUILT_UNKNOWN, 0);
    }
}

static void equal(const char *first, const char *second, bool alternate, uint64_t number, uint64_t which, uint64_t place,
                  uint64_t verdict) {
    uint64_t answer[SIMMERQUILT_EQUAL_COUNT];
    simmerquilt_equal((const uint8_t *)first, strlen(first), (const uint8_t *)second, strlen(second), true,
                      SIMMERQUILT_DEFAULT_LIMIT, alternate, answer);
    expect(answer[SIMMERQUILT_EQUAL_NUMBER] == number && answer[SIMMERQUILT_EQUAL_WORD] == which &&
               answer[SIMMERQUILT_EQUAL_PLACE] == place && answer[SIMMERQUILT_EQUAL_VERDICT] == verdict,
           "equality", second);
}

static void known_words(void) {
    known("", -1, "", "", 0);
    known("jumped", -1, "JMPT", "AMPT", 6);
    known("jumped", 1, "J", "A", 1);
    known("jumped", 0, "", "", 0);
    known("GN", -1, "N", "N", 1);
    known("XX", -1, "SKS", "SKS", 2);
    known("KXZ", -1, "KKSS", "KKSTS", 3);
    known("KXZ", 2, "KK", "KK", 2);
    known("Mac Gregor", 4, "MKRK", "MKRK", 6);
    known("Rogier", 3, "RJ", "RJR", 5);
    known("Villa", 2, "FL", "F", 4);
    known("artois", 3, "ART", "ART", 3);
    known(" \t Saj\r\n", -1, "SJ", "S ", 3);
    known("Vanchi", -1, "FNX", "FNK", 5);
}

static void editions(void) {
    known_in(PLAIN, "Van Chi", -1, "FNX", "FNK", 6);
    known_in(1, "Van Chi", -1, "FNX", "FNK", 6);
    known_in(2, "Van Chi", -1, "FNK", "FNK", 6);
    known_in(1, "\tvon CHI ", 3, "FNX", "FNK", 5);
    known_in(2, "\tvon CHI ", 3, "FNK", "FNK", 5);
    /* With nothing wrong but the edition. */
    refused_in(3, "Van Chi", 7, ROOM, ROOM, SIMMERQUILT_UNKNOWN, 0);
    refused_in(0, "Van Chi", 7, ROOM, ROOM, SIMMERQUILT_UNKNOWN, 0);
}

static void refusals(void) {
    static char longest[SIMMERQUILT_WORD_LIMIT + 2];
    memset(longest, 'b', SIMMERQUILT_WORD_LIMIT + 1);
    refused(longest, SIMMERQUILT_WORD_LIMIT + 1, ROOM, ROOM, SIMMERQUILT_TOO_LONG, 0);
    refused(longest, SIMMERQUILT_WORD_LIMIT, ROOM, ROOM, SIMMERQUILT_PRIMARY_SHORT, 0);
    refused("Gar\xc3\xa7on", 7, ROOM, ROOM, SIMMERQUILT_NOT_ASCII, 3);
    refused("Gar\xc3\xa7on", 7, 0, 0, SIMMERQUILT_NOT_ASCII, 3);
    refused("KXZ", 3, 4, 5, SIMMERQUILT_PRIMARY_SHORT, 0);
    refused("KXZ", 3, 5, 4, SIMMERQUILT_ALTERNATE_SHORT, 0);
    refused("KXZ", 3, 4, 4, SIMMERQUILT_PRIMARY_SHORT, 0);
}

static void questions(void) {
    equal("Smith", "Smyth", false, SIMMERQUILT_ACCEPTED, 0, 0, 1);
    equal("Villa", "Fillo", true, SIMMERQUILT_ACCEPTED, 0, 0, 1);
    equal("Oder", "Elbe", false, SIMMERQUILT_ACCEPTED, 0, 0, 0);
    equal("", " ", false, SIMMERQUILT_ACCEPTED, 0, 0, 1);
    equal("a\x80", "\x80", false, SIMMERQUILT_NOT_ASCII, 1, 1, 0);
    equal("a", "ab\xff", true, SIMMERQUILT_NOT_ASCII, 2, 2, 0);
}

/* Length 0 with no pointer, as C callers write it. */
static void nothing_lent(void) {
    uint64_t answer[SIMMERQUILT_ANSWER_COUNT];
    simmerquilt_encode(NULL, 0, NULL, 0, NULL, 0, false, 0, answer);
    expect(answered(answer, SIMMERQUILT_ACCEPTED, 0, 0, 0, 0), "nothing lent", "");
    simmerquilt_encode_in(2, NULL, 0, NULL, 0, NULL, 0, false, 0, answer);
    expect(answered(answer, SIMMERQUILT_ACCEPTED, 0, 0, 0, 0), "nothing lent", "edition 2");
    simmerquilt_encode_in(3, NULL, 0, NULL, 0, NULL, 0, false, 0, answer);
    expect(answered(answer, SIMMERQUILT_UNKNOWN, 0, 0, 0, 0), "nothing lent", "edition 3");
    simmerquilt_explain(1, NULL, 0, false, 0, NULL, 0, answer);
    expect(answer[SIMMERQUILT_EXPLAIN_NUMBER] == SIMMERQUILT_ACCEPTED && answer[SIMMERQUILT_EXPLAIN_ROWS] == 0, "nothing lent", "rows");
}

enum { ROWS_ROOM = 3 * SIMMERQUILT_ROW_COUNT + 6, ROWS_HELD = 0x0eeeeeee };

/* Lists a word in a room of `length` numbers, and expects the answer, these rows, and all other numbers held. A limit below 0 is none. */
static void explained(uint64_t edition, const char *word, size_t word_length, int limit, size_t length, uint64_t number,
                      uint64_t place, const uint32_t *rows, size_t count) {
    uint64_t expected[SIMMERQUILT_EXPLAIN_COUNT] = {number, place, count};
    uint64_t answer[SIMMERQUILT_EXPLAIN_COUNT];
    uint32_t room[ROWS_ROOM], wanted[ROWS_ROOM];
    size_t at;
    for (at = 0; at < ROWS_ROOM; at++) {
        room[at] = ROWS_HELD;
        wanted[at] = at < count * SIMMERQUILT_ROW_COUNT ? rows[at] : ROWS_HELD;
    }
    simmerquilt_explain(edition, (const uint8_t *)word, word_length, limit >= 0, limit >= 0 ? (uint64_t)limit : 0, room, length,
                        answer);
    expect(memcmp(answer, expected, sizeof expected) == 0, "explained", word);
    expect(memcmp(room, wanted, sizeof room) == 0, "rows", word);
}

/* KXZ: the K of one sound; X behind it, KS; Z in a word with the Slavo-Germanic mark, S and TS. */
static void explanations(void) {
    static const uint32_t rows[] = {
        0, 'K', 2, 0, 'K', 'K', 0,
        1, 'X', 3, 0, 'K' + 256 * 'S', 'K' + 256 * 'S', 0,
        2, 'Z', 3, 0, 'S', 'T' + 256 * 'S', 0,
    };
    static const uint32_t ch[] = {0, 'C', 4, 1, 'K', 'K', 1};
    static char longest[SIMMERQUILT_WORD_LIMIT + 2];
    memset(longest, 'b', SIMMERQUILT_WORD_LIMIT + 1);
    explained(1, "KXZ", 3, -1, ROWS_ROOM, SIMMERQUILT_ACCEPTED, 0, rows, 3);
    explained(2, "\tkxz ", 5, -1, 3 * SIMMERQUILT_ROW_COUNT, SIMMERQUILT_ACCEPTED, 0, rows, 3);
    /* The walk ends once both codes are full; the gain of the last visit is told whole. */
    explained(1, "KXZ", 3, 2, ROWS_ROOM, SIMMERQUILT_ACCEPTED, 0, rows, 2);
    explained(1, "KXZ", 3, 0, 0, SIMMERQUILT_ACCEPTED, 0, rows, 0);
    explained(1, "Ch", 2, 1, SIMMERQUILT_ROW_COUNT, SIMMERQUILT_ACCEPTED, 0, ch, 1);
    explained(1, "KXZ", 3, -1, 3 * SIMMERQUILT_ROW_COUNT - 1, SIMMERQUILT_ROOM_SHORT, 0, rows, 0);
    explained(1, "Gar\xc3\xa7on", 7, -1, 0, SIMMERQUILT_NOT_ASCII, 3, rows, 0);
    explained(2, longest, SIMMERQUILT_WORD_LIMIT + 1, -1, 0, SIMMERQUILT_TOO_LONG, 0, rows, 0);
    explained(3, longest, SIMMERQUILT_WORD_LIMIT + 1, -1, 0, SIMMERQUILT_UNKNOWN, 0, rows, 0);
    explained(0, "KXZ", 3, -1, ROWS_ROOM, SIMMERQUILT_UNKNOWN, 0, rows, 0);
}

/* A new book of two records under limit 4, and where its parts end; and the same as it was stored under format 1 and edition 1, where a
 * record has no kind. */
#define HEADER "\x02\x02\x05"
#define OLD_HEADER "\x01\x01\x05"
#define OLD_FIRST "\x07\x06jumped\x04JMPT\x04" "AMPT"
#define OLD_SECOND "\xac\x02\x03Saj\x02SJ\x02S "
#define LIVE "\x01"
#define CLOSED "\x00"
#define FIRST LIVE OLD_FIRST
#define SECOND LIVE OLD_SECOND
enum { HEADER_END = 3, OLD_FIRST_END = 21, OLD_SECOND_END = 33, FIRST_END = 22, SECOND_END = 35, BOOK_ROOM = 48 };

static const uint8_t *bytes(const char *text) { return (const uint8_t *)text; }

/* Whether an answer has these numbers; under a refusal all but the first are 0. */
static bool gives(const uint64_t *answer, const uint64_t *expected, size_t count) {
    return memcmp(answer, expected, count * sizeof *answer) == 0;
}

/* Whether a room begins with this book and all its other bytes are held. */
static bool room_holds(const uint8_t *room, const char *book, size_t length) {
    uint8_t expected[BOOK_ROOM];
    memset(expected, HELD, BOOK_ROOM);
    memcpy(expected, book, length);
    return memcmp(expected, room, BOOK_ROOM) == 0;
}

static void start(uint8_t *room, size_t length, bool limited, uint64_t limit, uint64_t number, uint64_t made) {
    uint64_t expected[SIMMERQUILT_BOOK_COUNT] = {number, made};
    uint64_t answer[SIMMERQUILT_BOOK_COUNT];
    memset(room, HELD, BOOK_ROOM);
    simmerquilt_book_start(room, length, limited, limit, answer);
    expect(gives(answer, expected, SIMMERQUILT_BOOK_COUNT), "start", "a book");
}

static void add(uint8_t *room, size_t room_length, uint64_t length, uint64_t station, const char *name, uint64_t number,
                uint64_t made) {
    uint64_t expected[SIMMERQUILT_BOOK_COUNT] = {number, made};
    uint64_t answer[SIMMERQUILT_BOOK_COUNT];
    simmerquilt_book_add(room, room_length, length, station, bytes(name), strlen(name), answer);
    expect(gives(answer, expected, SIMMERQUILT_BOOK_COUNT), "add", name);
}

static void append_in(uint8_t *room, size_t room_length, uint32_t format, uint32_t edition, uint64_t length, uint32_t floor,
                      uint64_t station, const char *name, uint64_t number, uint64_t made, uint64_t made_floor) {
    uint64_t expected[SIMMERQUILT_APPEND_COUNT] = {number, made, made_floor};
    uint64_t answer[SIMMERQUILT_APPEND_COUNT];
    simmerquilt_book_append(room, room_length, format, edition, 5, length, floor, station, bytes(name), strlen(name), answer);
    expect(gives(answer, expected, SIMMERQUILT_APPEND_COUNT), "append", name);
}

/* To a new book. */
static void append(uint8_t *room, size_t room_length, uint64_t length, uint32_t floor, uint64_t station, const char *name,
                   uint64_t number, uint64_t made, uint64_t made_floor) {
    append_in(room, room_length, SIMMERQUILT_FORMAT, SIMMERQUILT_EDITION, length, floor, station, name, number, made, made_floor);
}

static void books_started(void) {
    uint8_t room[BOOK_ROOM];
    start(room, BOOK_ROOM, true, SIMMERQUILT_DEFAULT_LIMIT, SIMMERQUILT_ACCEPTED, HEADER_END);
    expect(room_holds(room, HEADER, HEADER_END), "room", "a book at 4");
    start(room, BOOK_ROOM, false, 9, SIMMERQUILT_ACCEPTED, HEADER_END);
    expect(room_holds(room, "\x02\x02\x00", HEADER_END), "room", "a book without a limit");
    start(room, SIMMERQUILT_HEADER_ROOM, true, SIMMERQUILT_NUMBER_END - 2, SIMMERQUILT_ACCEPTED, SIMMERQUILT_HEADER_ROOM);
    expect(room_holds(room, "\x02\x02\xff\xff\xff\x7f", SIMMERQUILT_HEADER_ROOM), "room", "a book at the largest limit");
    start(room, 0, true, SIMMERQUILT_NUMBER_END - 1, SIMMERQUILT_BAD_NUMBER, 0);
    start(room, BOOK_ROOM, true, UINT64_MAX, SIMMERQUILT_BAD_NUMBER, 0);
    start(room, HEADER_END - 1, true, 4, SIMMERQUILT_ROOM_SHORT, 0);
    expect(room_holds(room, "", 0), "room under a refusal", "start");
}

/* Both ways make the same book, and a refusal leaves it. */
static void books_added_to(void) {
    static char longest[SIMMERQUILT_WORD_LIMIT + 2];
    uint8_t room[BOOK_ROOM];
    memset(longest, '\x80', SIMMERQUILT_WORD_LIMIT + 1);
    start(room, BOOK_ROOM, true, 4, SIMMERQUILT_ACCEPTED, HEADER_END);
    add(room, BOOK_ROOM, HEADER_END, 7, "jumped", SIMMERQUILT_ACCEPTED, FIRST_END);
    add(room, BOOK_ROOM, FIRST_END, SIMMERQUILT_NUMBER_END, longest, SIMMERQUILT_TOO_LONG, 0);
    add(room, BOOK_ROOM, FIRST_END, SIMMERQUILT_NUMBER_END, longest + 1, SIMMERQUILT_NOT_ASCII, 0);
    add(room, BOOK_ROOM, FIRST_END, SIMMERQUILT_NUMBER_END, "Saj", SIMMERQUILT_BAD_NUMBER, 0);
    add(room, FIRST_END, FIRST_END, 7, "Saj", SIMMERQUILT_NOT_RISING, 0);
    add(room, SECOND_END - 1, FIRST_END, 300, "Saj", SIMMERQUILT_ROOM_SHORT, 0);
    add(room, FIRST_END, FIRST_END - 1, 300, longest, SIMMERQUILT_CUT_SHORT, 0);
    add(room, FIRST_END, UINT64_MAX, 300, "Saj", SIMMERQUILT_CUT_SHORT, 0);
    expect(room_holds(room, HEADER FIRST, FIRST_END), "room", "one record");
    add(room, SECOND_END, FIRST_END, 300, "Saj", SIMMERQUILT_ACCEPTED, SECOND_END);
    expect(room_holds(room, HEADER FIRST SECOND, SECOND_END), "room", "two records added");

    start(room, BOOK_ROOM, true, 4, SIMMERQUILT_ACCEPTED, HEADER_END);
    append(room, BOOK_ROOM, HEADER_END, 0, 7, "jumped", SIMMERQUILT_ACCEPTED, FIRST_END, 8);
    append_in(room, 0, 0, 2, FIRST_END, 8, 7, longest, SIMMERQUILT_UNKNOWN, 0, 0);
    append_in(room, 0, 3, 2, FIRST_END, 8, 7, longest, SIMMERQUILT_UNKNOWN, 0, 0);
    append_in(room, 0, 2, 0, FIRST_END, 8, 7, longest, SIMMERQUILT_UNKNOWN, 0, 0);
    append_in(room, 0, 2, 3, FIRST_END, 8, 7, longest, SIMMERQUILT_UNKNOWN, 0, 0);
    append(room, FIRST_END - 1, FIRST_END, 8, 7, longest, SIMMERQUILT_CUT_SHORT, 0, 0);
    append(room, SECOND_END, FIRST_END, 8, 7, "Saj", SIMMERQUILT_NOT_RISING, 0, 0);
    append(room, SECOND_END - 1, FIRST_END, 8, 300, "Saj", SIMMERQUILT_ROOM_SHORT, 0, 0);
    /* Where the record does not fit, the order is for adding to judge; in format 1 it comes before the room. */
    append(room, FIRST_END, FIRST_END, 8, 7, "Saj", SIMMERQUILT_ROOM_SHORT, 0, 0);
    append_in(room, FIRST_END, 1, 2, FIRST_END, 8, 7, "Saj", SIMMERQUILT_NOT_RISING, 0, 0);
    expect(room_holds(room, HEADER FIRST, FIRST_END), "room", "one record appended");
    append(room, SECOND_END, FIRST_END, 8, 300, "Saj", SIMMERQUILT_ACCEPTED, SECOND_END, 301);
    expect(room_holds(room, HEADER FIRST SECOND, SECOND_END), "room", "two records appended");
}

/* A record whose codes tell by which edition they were made. */
#define VAN_CHI "\x0a\x07Van Chi\x03"
enum { VAN_CHI_END = HEADER_END + 1 + 8 + 4 + 4 };

/* Adds it to a book without records in both ways. */
static void van_chi(uint32_t format, uint32_t edition, const char *book, size_t end) {
    uint8_t room[BOOK_ROOM];
    memset(room, HELD, BOOK_ROOM);
    memcpy(room, book, HEADER_END);
    add(room, BOOK_ROOM, HEADER_END, 10, "Van Chi", SIMMERQUILT_ACCEPTED, end);
    expect(room_holds(room, book, end), "added", book);
    memset(room + HEADER_END, HELD, BOOK_ROOM - HEADER_END);
    append_in(room, BOOK_ROOM, format, edition, HEADER_END, 0, 10, "Van Chi", SIMMERQUILT_ACCEPTED, end, 11);
    expect(room_holds(room, book, end), "appended", book);
}

static void books_of_editions(void) {
    uint8_t room[BOOK_ROOM];
    start(room, BOOK_ROOM, true, 4, SIMMERQUILT_ACCEPTED, HEADER_END);
    expect(room[0] == SIMMERQUILT_FORMAT && SIMMERQUILT_FORMAT == 2, "format", "a new book");
    expect(room[1] == SIMMERQUILT_EDITION && SIMMERQUILT_EDITION == 2, "edition", "a new book");
    van_chi(2, 2, HEADER LIVE VAN_CHI "FNK\x03" "FNK", VAN_CHI_END + 1);
    van_chi(2, 1, "\x02\x01\x05" LIVE VAN_CHI "FNX\x03" "FNK", VAN_CHI_END + 1);
    van_chi(1, 2, "\x01\x02\x05" VAN_CHI "FNK\x03" "FNK", VAN_CHI_END);
    van_chi(1, 1, OLD_HEADER VAN_CHI "FNX\x03" "FNK", VAN_CHI_END);
}

/* Reads a good book of this header. */
static void whole(uint64_t format, uint64_t edition, const char *book, size_t length, uint64_t records, uint64_t floor,
                  uint64_t live) {
    uint64_t expected[SIMMERQUILT_READ_COUNT] = {SIMMERQUILT_ACCEPTED, format, edition, 5, records, floor, live};
    uint64_t answer[SIMMERQUILT_READ_COUNT];
    simmerquilt_book_read(bytes(book), length, answer);
    expect(gives(answer, expected, SIMMERQUILT_READ_COUNT), "read", book);
}

static void faulty(const char *book, size_t length, uint64_t number) {
    uint64_t expected[SIMMERQUILT_READ_COUNT] = {number};
    uint64_t answer[SIMMERQUILT_READ_COUNT];
    simmerquilt_book_read(bytes(book), length, answer);
    expect(gives(answer, expected, SIMMERQUILT_READ_COUNT), "fault", book);
}

static void opened(const char *book, size_t length, uint64_t number, uint64_t format, uint64_t edition) {
    bool good = number == SIMMERQUILT_ACCEPTED;
    uint64_t expected[SIMMERQUILT_OPEN_COUNT] = {number, format, edition, good ? 5 : 0, good ? HEADER_END : 0, 0};
    uint64_t answer[SIMMERQUILT_OPEN_COUNT];
    simmerquilt_book_open(bytes(book), length, answer);
    expect(gives(answer, expected, SIMMERQUILT_OPEN_COUNT), "open", book);
}

static void next_in(uint32_t format, uint32_t edition, const char *book, size_t length, uint64_t place, uint32_t floor,
                    const uint64_t expected[SIMMERQUILT_NEXT_COUNT]) {
    uint64_t answer[SIMMERQUILT_NEXT_COUNT];
    simmerquilt_book_next(bytes(book), length, format, edition, place, floor, answer);
    expect(gives(answer, expected, SIMMERQUILT_NEXT_COUNT), "next", "two records");
}

static void next(size_t length, uint64_t place, uint32_t floor, const uint64_t expected[SIMMERQUILT_NEXT_COUNT]) {
    next_in(2, 2, HEADER FIRST SECOND, length, place, floor, expected);
}

static void books_read(void) {
    whole(2, 2, HEADER FIRST SECOND, SECOND_END, 2, 301, 2);
    whole(2, 2, HEADER, HEADER_END, 0, 0, 0);
    whole(2, 1, "\x02\x01\x05" FIRST, FIRST_END, 1, 8, 1);
    whole(2, 2, HEADER CLOSED OLD_FIRST SECOND, SECOND_END, 2, 301, 1);
    whole(2, 2, HEADER CLOSED OLD_FIRST CLOSED OLD_SECOND, SECOND_END, 2, 301, 0);
    whole(1, 1, OLD_HEADER OLD_FIRST OLD_SECOND, OLD_SECOND_END, 2, 301, 2);
    faulty(HEADER FIRST SECOND, SECOND_END - 1, SIMMERQUILT_CUT_SHORT);
    faulty(HEADER FIRST FIRST, 2 * FIRST_END - HEADER_END, SIMMERQUILT_NOT_RISING);
    faulty(HEADER CLOSED OLD_FIRST FIRST, 2 * FIRST_END - HEADER_END, SIMMERQUILT_NOT_RISING);
    faulty(HEADER "\x01\x07\x81\x08", 7, SIMMERQUILT_TOO_LONG);
    faulty(HEADER "\x00\x07\x09\x80", 7, SIMMERQUILT_NOT_ASCII);
    faulty(HEADER "\x02\x07", 5, SIMMERQUILT_UNKNOWN);
    faulty(HEADER "\x81\x00", 5, SIMMERQUILT_BAD_NUMBER);
    faulty(HEADER FIRST "\x02", FIRST_END + 1, SIMMERQUILT_UNKNOWN);
    faulty(OLD_HEADER "\x07\x81\x08", 6, SIMMERQUILT_TOO_LONG);
    faulty("\x01\x03\x05", HEADER_END, SIMMERQUILT_UNKNOWN);
    faulty("\x03\x02\x05", HEADER_END, SIMMERQUILT_UNKNOWN);

    opened(HEADER FIRST, FIRST_END, SIMMERQUILT_ACCEPTED, 2, 2);
    opened(OLD_HEADER OLD_FIRST, OLD_FIRST_END, SIMMERQUILT_ACCEPTED, 1, 1);
    opened("\x01\x02\x05", HEADER_END, SIMMERQUILT_ACCEPTED, 1, 2);
    opened("\x00", 1, SIMMERQUILT_UNKNOWN, 0, 0);
    opened("\x03", 1, SIMMERQUILT_UNKNOWN, 0, 0);
    opened("\x02\x00", 2, SIMMERQUILT_UNKNOWN, 0, 0);
    opened("\x02\x03", 2, SIMMERQUILT_UNKNOWN, 0, 0);
    opened("\x02\x81\x00", 3, SIMMERQUILT_BAD_NUMBER, 0, 0);
    opened("\x02\x02", 2, SIMMERQUILT_CUT_SHORT, 0, 0);
}

static void books_walked(void) {
    static const uint64_t first[SIMMERQUILT_NEXT_COUNT] = {0, 1, 7, 6, 6, 13, 4, 18, 4, FIRST_END, 8, SIMMERQUILT_LIVE};
    static const uint64_t second[SIMMERQUILT_NEXT_COUNT] = {0, 1, 300, 26, 3, 30, 2, 33, 2, SECOND_END, 301, SIMMERQUILT_LIVE};
    static const uint64_t closed[SIMMERQUILT_NEXT_COUNT] = {0, 1, 7, 6, 6, 13, 4, 18, 4, FIRST_END, 8, SIMMERQUILT_CLOSED};
    static const uint64_t old[SIMMERQUILT_NEXT_COUNT] = {0, 1, 7, 5, 6, 12, 4, 17, 4, OLD_FIRST_END, 8, SIMMERQUILT_LIVE};
    static const uint64_t end[SIMMERQUILT_NEXT_COUNT] = {0};
    static const uint64_t cut_short[SIMMERQUILT_NEXT_COUNT] = {SIMMERQUILT_CUT_SHORT};
    static const uint64_t not_rising[SIMMERQUILT_NEXT_COUNT] = {SIMMERQUILT_NOT_RISING};
    static const uint64_t unknown[SIMMERQUILT_NEXT_COUNT] = {SIMMERQUILT_UNKNOWN};
    static const uint64_t places[] = {HEADER_END, FIRST_END, SECOND_END, SECOND_END + 1, UINT64_MAX};
    size_t at;
    next(SECOND_END, HEADER_END, 0, first);
    next(SECOND_END, FIRST_END, 8, second);
    next(SECOND_END, SECOND_END, 301, end);
    next(SECOND_END, UINT64_MAX, 0, end);
    next(SECOND_END - 1, FIRST_END, 8, cut_short);
    next(SECOND_END, FIRST_END, 301, not_rising);
    next_in(2, 2, HEADER CLOSED OLD_FIRST SECOND, SECOND_END, HEADER_END, 0, closed);
    next_in(2, 2, HEADER CLOSED OLD_FIRST SECOND, SECOND_END, FIRST_END, 8, second);
    next_in(2, 2, HEADER "\x02", 4, HEADER_END, 0, unknown);
    next_in(1, 1, OLD_HEADER OLD_FIRST, OLD_FIRST_END, HEADER_END, 0, old);
    /* A format or an edition that is not known, at every record, at the end and past it. */
    for (at = 0; at < sizeof places / sizeof *places; at++) {
        next_in(0, 2, HEADER FIRST SECOND, SECOND_END, places[at], 0, unknown);
        next_in(3, 2, HEADER FIRST SECOND, SECOND_END, places[at], 0, unknown);
        next_in(2, 0, HEADER FIRST SECOND, SECOND_END, places[at], 0, unknown);
        next_in(1, 3, HEADER FIRST SECOND, SECOND_END, places[at], 0, unknown);
    }
}

static void close_station(uint8_t *room, size_t room_length, uint64_t length, uint64_t station, uint64_t number) {
    uint64_t expected[SIMMERQUILT_BOOK_COUNT] = {number, number == SIMMERQUILT_ACCEPTED ? length : 0};
    uint64_t answer[SIMMERQUILT_BOOK_COUNT];
    simmerquilt_book_close(room, room_length, length, station, answer);
    expect(gives(answer, expected, SIMMERQUILT_BOOK_COUNT), "close", "a station");
}

/* A book in a room with held bytes behind it. */
static void lend(uint8_t *room, const char *book, size_t length) {
    memset(room, HELD, BOOK_ROOM);
    memcpy(room, book, length);
}

static void books_closed(void) {
    uint8_t room[BOOK_ROOM];
    lend(room, HEADER FIRST SECOND, SECOND_END);
    close_station(room, BOOK_ROOM, SECOND_END - 1, 7, SIMMERQUILT_CUT_SHORT);
    close_station(room, SECOND_END, SECOND_END + 1, 7, SIMMERQUILT_CUT_SHORT);
    close_station(room, SECOND_END, UINT64_MAX, 8, SIMMERQUILT_CUT_SHORT);
    close_station(room, BOOK_ROOM, SECOND_END, 8, SIMMERQUILT_NOT_LIVE);
    close_station(room, BOOK_ROOM, SECOND_END, SIMMERQUILT_NUMBER_END + 7, SIMMERQUILT_NOT_LIVE);
    close_station(room, BOOK_ROOM, SECOND_END, UINT64_C(0x100000007), SIMMERQUILT_NOT_LIVE);
    close_station(room, BOOK_ROOM, SECOND_END, UINT64_MAX, SIMMERQUILT_NOT_LIVE);
    expect(room_holds(room, HEADER FIRST SECOND, SECOND_END), "room under a refusal", "close");
    close_station(room, BOOK_ROOM, SECOND_END, 7, SIMMERQUILT_ACCEPTED);
    expect(room_holds(room, HEADER CLOSED OLD_FIRST SECOND, SECOND_END), "room", "one closed");
    close_station(room, BOOK_ROOM, SECOND_END, 7, SIMMERQUILT_NOT_LIVE);
    close_station(room, SECOND_END, SECOND_END, 300, SIMMERQUILT_ACCEPTED);
    expect(room_holds(room, HEADER CLOSED OLD_FIRST CLOSED OLD_SECOND, SECOND_END), "room", "both closed");
    close_station(room, BOOK_ROOM, SECOND_END, 300, SIMMERQUILT_NOT_LIVE);

    /* Format 1 is met at its number, before what is behind it. */
    lend(room, OLD_HEADER OLD_FIRST, OLD_FIRST_END);
    close_station(room, BOOK_ROOM, OLD_FIRST_END, 7, SIMMERQUILT_UNKNOWN);
    close_station(room, BOOK_ROOM, OLD_FIRST_END - 1, 7, SIMMERQUILT_UNKNOWN);
    close_station(room, BOOK_ROOM, 1, 7, SIMMERQUILT_UNKNOWN);
    close_station(room, OLD_FIRST_END, UINT64_MAX, 8, SIMMERQUILT_UNKNOWN);
    close_station(room, BOOK_ROOM, 0, 7, SIMMERQUILT_CUT_SHORT);
    expect(room_holds(room, OLD_HEADER OLD_FIRST, OLD_FIRST_END), "room under a refusal", "close in format 1");
}

/* Records of 12 and 17 bytes that the room of closed ones is used for. */
#define SAJ LIVE "\x08\x03Saj\x02SJ\x02S "
#define WESER LIVE "\xad\x02\x05Weser\x03" "ASR\x03" "FSR"
enum { SAJ_LENGTH = 12, WESER_LENGTH = 17, SECOND_LENGTH = SECOND_END - FIRST_END };

static void books_closed_up(void) {
    static const char *const last_closed = HEADER FIRST CLOSED OLD_SECOND;
    uint8_t room[BOOK_ROOM];
    /* As the book stands there is room, and closed records count; with one byte less only live ones do. */
    lend(room, last_closed, SECOND_END);
    add(room, SECOND_END + SAJ_LENGTH, SECOND_END, 8, "Saj", SIMMERQUILT_NOT_RISING, 0);
    append(room, SECOND_END + SAJ_LENGTH, SECOND_END, 301, 8, "Saj", SIMMERQUILT_NOT_RISING, 0, 0);
    append(room, SECOND_END + SAJ_LENGTH - 1, SECOND_END, 301, 8, "Saj", SIMMERQUILT_ROOM_SHORT, 0, 0);
    add(room, SECOND_END + SAJ_LENGTH - 1, SECOND_END, 7, "Saj", SIMMERQUILT_NOT_RISING, 0);
    add(room, SECOND_END, SECOND_END, 301, "Weser", SIMMERQUILT_ROOM_SHORT, 0);
    expect(room_holds(room, last_closed, SECOND_END), "room under a refusal", "closing up");
    add(room, SECOND_END + SAJ_LENGTH - 1, SECOND_END, 8, "Saj", SIMMERQUILT_ACCEPTED, FIRST_END + SAJ_LENGTH);
    /* The byte behind the new end was the old book's last. */
    expect(room_holds(room, HEADER FIRST SAJ " ", SECOND_END), "room", "closed up at its end");

    /* A live record moves to the front. */
    lend(room, HEADER CLOSED OLD_FIRST SECOND, SECOND_END);
    add(room, SECOND_END, SECOND_END, 301, "Weser", SIMMERQUILT_ACCEPTED, HEADER_END + SECOND_LENGTH + WESER_LENGTH);
    expect(room_holds(room, HEADER SECOND WESER "S ", SECOND_END), "room", "closed up at its front");

    /* As it stands, the book keeps its closed records. */
    lend(room, HEADER CLOSED OLD_FIRST, FIRST_END);
    add(room, BOOK_ROOM, FIRST_END, 8, "Saj", SIMMERQUILT_ACCEPTED, FIRST_END + SAJ_LENGTH);
    expect(room_holds(room, HEADER CLOSED OLD_FIRST SAJ, FIRST_END + SAJ_LENGTH), "room", "not closed up");
}

static void no_book_lent(void) {
    static const uint64_t cut_short[SIMMERQUILT_READ_COUNT] = {SIMMERQUILT_CUT_SHORT};
    static const uint64_t end[SIMMERQUILT_NEXT_COUNT] = {0};
    static const uint64_t room_short[SIMMERQUILT_APPEND_COUNT] = {SIMMERQUILT_ROOM_SHORT};
    uint64_t answer[SIMMERQUILT_NEXT_COUNT];
    simmerquilt_book_start(NULL, 0, false, 0, answer);
    expect(gives(answer, room_short, SIMMERQUILT_BOOK_COUNT), "no room", "start");
    simmerquilt_book_open(NULL, 0, answer);
    expect(gives(answer, cut_short, SIMMERQUILT_OPEN_COUNT), "no book", "open");
    simmerquilt_book_next(NULL, 0, 2, 2, 0, 0, answer);
    expect(gives(answer, end, SIMMERQUILT_NEXT_COUNT), "no book", "next");
    simmerquilt_book_read(NULL, 0, answer);
    expect(gives(answer, cut_short, SIMMERQUILT_READ_COUNT), "no book", "read");
    simmerquilt_book_add(NULL, 0, 0, 0, NULL, 0, answer);
    expect(gives(answer, cut_short, SIMMERQUILT_BOOK_COUNT), "no room", "add");
    simmerquilt_book_append(NULL, 0, 1, 1, 0, 0, 0, 0, NULL, 0, answer);
    expect(gives(answer, room_short, SIMMERQUILT_APPEND_COUNT), "no room", "append");
    simmerquilt_book_append(NULL, 0, 2, 2, 0, 0, 0, 0, NULL, 0, answer);
    expect(gives(answer, room_short, SIMMERQUILT_APPEND_COUNT), "no room", "append in format 2");
    simmerquilt_book_close(NULL, 0, 0, 0, answer);
    expect(gives(answer, cut_short, SIMMERQUILT_BOOK_COUNT), "no room", "close");
}

/* A book of two records under limit 6, to be joined with the one above: 7 meets 9. */
#define OTHER "\x02\x02\x07" LIVE "\x05\x05Weser\x03" "ASR\x03" "FSR" LIVE "\x09\x07Jumpton\x05JMPTN\x05" "AMPTN"
enum { OTHER_END = 41, SCRATCH = 3 * 2 + 8 * 2 + 1, PAIRS = 2 };

/* What is lent to a join, with words and numbers behind what it needs. */
struct joined {
    size_t scratch[SCRATCH + 2];
    uint32_t pairs[PAIRS + 3];
};

static void hold(struct joined *lent) { memset(lent, HELD, sizeof *lent); }

/* Whether the scratch that is needed is cleared or not, these pairs are written, and all else is held. */
static bool left(const struct joined *lent, bool cleared, const uint32_t *pairs, size_t count) {
    struct joined expected;
    hold(&expected);
    if (cleared) memset(expected.scratch, 0, SCRATCH * sizeof *expected.scratch);
    if (count > 0) memcpy(expected.pairs, pairs, 2 * count * sizeof *pairs);
    return memcmp(expected.scratch, lent->scratch, sizeof expected.scratch) == 0 &&
           memcmp(expected.pairs, lent->pairs, sizeof expected.pairs) == 0;
}

/* Joins the two books, of which so many bytes are lent. */
static void join(size_t first_length, size_t second_length, bool alternate, size_t scratch, size_t room, uint64_t number,
                 bool cleared, const char *what) {
    static const uint32_t pairs[PAIRS] = {7, 9};
    uint64_t count = number == SIMMERQUILT_ACCEPTED;
    uint64_t expected[SIMMERQUILT_JOIN_COUNT] = {number, count};
    uint64_t answer[SIMMERQUILT_JOIN_COUNT];
    struct joined lent;
    hold(&lent);
    simmerquilt_join(bytes(HEADER FIRST SECOND), first_length, bytes(OTHER), second_length, alternate, lent.scratch, scratch,
                     lent.pairs, room, answer);
    expect(gives(answer, expected, SIMMERQUILT_JOIN_COUNT), "join", what);
    expect(left(&lent, cleared, pairs, count), "scratch and pairs", what);
}

static void count(const char *second, size_t second_length, size_t scratch, uint64_t most, uint64_t number, uint64_t pairs,
                  const char *what) {
    uint64_t expected[SIMMERQUILT_JOIN_COUNT] = {number, pairs};
    uint64_t answer[SIMMERQUILT_JOIN_COUNT];
    struct joined lent;
    hold(&lent);
    simmerquilt_join_count(bytes(HEADER FIRST SECOND), SECOND_END, bytes(second), second_length, false, lent.scratch, scratch,
                           most, answer);
    expect(gives(answer, expected, SIMMERQUILT_JOIN_COUNT), "count", what);
    expect(left(&lent, number == SIMMERQUILT_ACCEPTED, NULL, 0), "scratch", what);
}

static void books_joined(void) {
    expect(simmerquilt_join_scratch(2, 2) == SCRATCH, "scratch", "two records each");
    expect(simmerquilt_join_scratch(0, 0) == 1, "scratch", "no records");
    expect(simmerquilt_join_scratch(SIZE_MAX / 3, 0) == SIZE_MAX, "scratch", "does not fit");
    expect(simmerquilt_join_scratch(0, SIZE_MAX) == SIZE_MAX, "scratch", "does not fit");

    join(SECOND_END, OTHER_END, false, SCRATCH, PAIRS, SIMMERQUILT_ACCEPTED, true, "primary");
    join(SECOND_END, OTHER_END, true, SCRATCH + 2, PAIRS + 3, SIMMERQUILT_ACCEPTED, true, "alternate, more lent");
    join(SECOND_END, OTHER_END, false, SCRATCH, PAIRS + 1, SIMMERQUILT_ACCEPTED, true, "odd room");
    join(SECOND_END, OTHER_END, false, SCRATCH, PAIRS - 1, SIMMERQUILT_ROOM_SHORT, true, "room too short");
    join(SECOND_END, OTHER_END, false, SCRATCH, 0, SIMMERQUILT_ROOM_SHORT, true, "no room");
    join(SECOND_END, OTHER_END, false, SCRATCH - 1, PAIRS, SIMMERQUILT_ROOM_SHORT, false, "scratch too short");
    join(SECOND_END, OTHER_END - 1, false, SCRATCH, PAIRS, SIMMERQUILT_CUT_SHORT, false, "second book cut short");
    join(SECOND_END - 1, OTHER_END, false, 0, 0, SIMMERQUILT_CUT_SHORT, false, "first book cut short");

    count(OTHER, OTHER_END, SCRATCH, UINT64_MAX, SIMMERQUILT_ACCEPTED, 1, "two books");
    count(OTHER, OTHER_END, SCRATCH, 0, SIMMERQUILT_ACCEPTED, 0, "at most none");
    count(OTHER, OTHER_END, SCRATCH - 1, UINT64_MAX, SIMMERQUILT_ROOM_SHORT, 0, "scratch too short");
    count("\x02\x03", 2, SCRATCH, UINT64_MAX, SIMMERQUILT_UNKNOWN, 0, "no such edition");
    count(OLD_HEADER OLD_FIRST, OLD_FIRST_END, SCRATCH, UINT64_MAX, SIMMERQUILT_EDITIONS_DIFFER, 0, "another edition");
    count(OLD_HEADER OLD_FIRST, OLD_FIRST_END, 0, UINT64_MAX, SIMMERQUILT_EDITIONS_DIFFER, 0, "another edition and no scratch");
    count(OLD_HEADER OLD_FIRST, OLD_FIRST_END - 1, 0, UINT64_MAX, SIMMERQUILT_CUT_SHORT, 0, "another edition, cut short");
    count(HEADER FIRST SECOND, SECOND_END, SCRATCH, UINT64_MAX, SIMMERQUILT_ACCEPTED, 2, "a book with itself");
}

/* Joins two books of the same records, of which each has this header. */
static void join_of(const char *first, const char *second, size_t scratch, uint64_t number, const char *what) {
    static const uint32_t pairs[] = {7, 7, 300, 300};
    bool accepted = number == SIMMERQUILT_ACCEPTED;
    uint64_t expected[SIMMERQUILT_JOIN_COUNT] = {number, accepted ? 2 : 0};
    uint64_t answer[SIMMERQUILT_JOIN_COUNT];
    struct joined lent;
    hold(&lent);
    simmerquilt_join(bytes(first), first[0] == 1 ? OLD_SECOND_END : SECOND_END, bytes(second),
                     second[0] == 1 ? OLD_SECOND_END : SECOND_END, false, lent.scratch, scratch, lent.pairs, PAIRS + 3, answer);
    expect(gives(answer, expected, SIMMERQUILT_JOIN_COUNT), "join", what);
    expect(left(&lent, accepted, pairs, accepted ? 2 : 0), "scratch and pairs", what);
}

/* Different editions are refused before the scratch is looked at; different formats are joined. */
static void books_of_editions_joined(void) {
    static const char *const old = OLD_HEADER OLD_FIRST OLD_SECOND, *const new = HEADER FIRST SECOND;
    static const char *const old_format = "\x01\x02\x05" OLD_FIRST OLD_SECOND, *const old_edition = "\x02\x01\x05" FIRST SECOND;
    join_of(new, new, SCRATCH, SIMMERQUILT_ACCEPTED, "two new books");
    join_of(old, old, SCRATCH, SIMMERQUILT_ACCEPTED, "two old books");
    join_of(old, old, 0, SIMMERQUILT_ROOM_SHORT, "two old books and no scratch");
    join_of(old, new, SCRATCH, SIMMERQUILT_EDITIONS_DIFFER, "an old and a new book");
    join_of(new, old, SCRATCH, SIMMERQUILT_EDITIONS_DIFFER, "a new and an old book");
    join_of(new, old, 0, SIMMERQUILT_EDITIONS_DIFFER, "a new and an old book and no scratch");
    join_of(new, old_format, SCRATCH, SIMMERQUILT_ACCEPTED, "a new book and one of format 1");
    join_of(old_format, new, SCRATCH, SIMMERQUILT_ACCEPTED, "a book of format 1 and a new one");
    join_of(old_edition, old, SCRATCH, SIMMERQUILT_ACCEPTED, "two formats of edition 1");
    join_of(old_edition, new, SCRATCH, SIMMERQUILT_EDITIONS_DIFFER, "two editions of format 2");
}

/* Joins two books of which one has its first record closed: 300 meets itself, and the scratch goes by live records. */
static void closed_join(const char *first, const char *second, size_t scratch, const char *what) {
    static const uint64_t one[SIMMERQUILT_JOIN_COUNT] = {SIMMERQUILT_ACCEPTED, 1};
    static const uint64_t room_short[SIMMERQUILT_JOIN_COUNT] = {SIMMERQUILT_ROOM_SHORT};
    uint64_t answer[SIMMERQUILT_JOIN_COUNT];
    struct joined lent;
    simmerquilt_join(bytes(first), SECOND_END, bytes(second), SECOND_END, false, lent.scratch, scratch, lent.pairs, PAIRS, answer);
    expect(gives(answer, one, SIMMERQUILT_JOIN_COUNT) && lent.pairs[0] == 300 && lent.pairs[1] == 300, "join", what);
    simmerquilt_join_count(bytes(first), SECOND_END, bytes(second), SECOND_END, false, lent.scratch, scratch - 1, 9, answer);
    expect(gives(answer, room_short, SIMMERQUILT_JOIN_COUNT), "scratch too short", what);
}

static void closed_books_joined(void) {
    static const char *const open = HEADER FIRST SECOND, *const closed = HEADER CLOSED OLD_FIRST SECOND;
    static const uint64_t none[SIMMERQUILT_JOIN_COUNT] = {0};
    uint64_t answer[SIMMERQUILT_JOIN_COUNT];
    size_t word = HELD;
    closed_join(closed, open, 3 * 1 + 8 * 2 + 1, "closed in the first");
    closed_join(open, closed, 3 * 2 + 8 * 1 + 1, "closed in the second");
    closed_join(closed, closed, 3 * 1 + 8 * 1 + 1, "closed in both");
    simmerquilt_join_count(bytes(closed), FIRST_END, bytes(closed), FIRST_END, false, &word, 1, 9, answer);
    expect(gives(answer, none, SIMMERQUILT_JOIN_COUNT) && word == 0, "count", "none live");
}

static void no_join_lent(void) {
    static const uint64_t cut_short[SIMMERQUILT_JOIN_COUNT] = {SIMMERQUILT_CUT_SHORT};
    static const uint64_t room_short[SIMMERQUILT_JOIN_COUNT] = {SIMMERQUILT_ROOM_SHORT};
    static const uint64_t none[SIMMERQUILT_JOIN_COUNT] = {0};
    uint64_t answer[SIMMERQUILT_JOIN_COUNT];
    size_t word = HELD;
    simmerquilt_join(NULL, 0, NULL, 0, false, NULL, 0, NULL, 0, answer);
    expect(gives(answer, cut_short, SIMMERQUILT_JOIN_COUNT), "no books", "join");
    simmerquilt_join_count(bytes(HEADER), HEADER_END, bytes(HEADER), HEADER_END, false, NULL, 0, 0, answer);
    expect(gives(answer, room_short, SIMMERQUILT_JOIN_COUNT), "no scratch", "count");
    simmerquilt_join(bytes(HEADER), HEADER_END, bytes(HEADER), HEADER_END, false, &word, 1, NULL, 0, answer);
    expect(gives(answer, none, SIMMERQUILT_JOIN_COUNT) && word == 0, "no room", "join without pairs");
}

int main(void) {
    known_words();
    editions();
    refusals();
    questions();
    explanations();
    nothing_lent();
    books_started();
    books_added_to();
    books_of_editions();
    books_read();
    books_walked();
    books_closed();
    books_closed_up();
    no_book_lent();
    books_joined();
    books_of_editions_joined();
    closed_books_joined();
    no_join_lent();
    return failures != 0;
}
