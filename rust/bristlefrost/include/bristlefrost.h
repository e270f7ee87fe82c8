/* Least-cost pairing of n rows with n columns, over the archive libface.a. n is the side, at most 4,096; rows and
 * columns count from 0. The place of row i and column j is i*n+j: row order.
 *
 * A price is a number for each row and each column such that row price + column price is at most the cost
 * everywhere, and equal to it on each pair. Where there are such prices, no pairing has a lower total.
 *
 * Each list is a pointer and, after it, its length in elements. Numbers are handed over by value and the
 * structs below are returned by value.
 *
 * What the caller keeps, since C cannot test it:
 *   - no pointer is null, and each is aligned for its type, even where its length is 0: with a length of 0, pass any
 *     valid pointer, which is then neither read nor written;
 *   - each pointer is valid for its length in elements: for reading, and for writing where it is not const;
 *   - no list that is written overlaps any other list of the same call;
 *   - no other thread touches a list during the call (lists that are only read may be read by others).
 * Nothing is kept after the call returns. Nothing else is asked: any side, length and number is answered.
 *
 * A refusal is 0 where the input was accepted, else number + 256*place:
 *    1  side over 4,096; with bars or fewer rows over 64;           place 0
 *       plain: over 8
 *    2  not exactly n*n costs, with fewer rows m*n                  0
 *    3  an output or list shorter than n (cost: longer than n)      the first such, by its number
 *    4  work room too short                                         1 indices, 2 numbers
 *    5  a cost outside -1,000,000,000..1,000,000,000;               the first, i*n+j
 *       with bars outside -1,000,000..1,000,000
 *    6  a listed column is not below n                              the first row
 *       repair: before that, the row number is not below n          n
 *    7  the column of a row does not name that row back             the first row
 *       with fewer rows and in an audit: it is used twice           the later row
 *    8  a price outside -10,000,000,000..10,000,000,000             the first: row i is i, column j is n+j,
 *                                                                   with fewer rows m+j
 *    9  row price + column price over the cost                      the first i*n+j
 *   10  on a paired place that sum is not the cost                  the first row
 *   11  sheet under 12 bytes, or wrong mark                         0
 *   12  edition not 1, 2 or 3                                       0
 *   13  sheet side over 64                                          0
 *   14  distance not 4*n*n, in edition 2 not 4*n*n+8*n,             0
 *       in edition 3 not 4*m*n+2
 *   15  distance exceeds the bytes before the trailer               0
 *   16  slip room under 18n+20, in edition 3 under 10m+8n+22,       0
 *       or sheet room under 4*n*n+12
 *   17  sheet over 65,536 bytes                                     0
 *   18  a reference is not of 12 characters                         1 the first, 2 the second
 *       lists of references are unequal, or not of whole ones       0
 *   19  a character is not from 0-9 and A-Z                         the first, from 0 counted on over both references;
 *                                                                   in lists 24 times the reference's number more
 *   20  no pairing is without a barred pair                         0
 *   21  a note (all bytes before the first cost) over 4,096 bytes,  the first such position, 4,096 for a longer note
 *       or with a byte outside 32 to 126                            whose first 4,096 bytes are good
 *   22  a row's bars have a bit set from n up                       the first row
 *   23  more rows than columns                                      the number of rows
 *       a sheet of edition 3 under 14 bytes                         0
 *   24  a price outside -7,000,000,000..7,000,000,000               as for 8
 *   25  a slip not of the length, trailer, edition, side or number  0
 *       of rows that its sheet wants, or of another total
 *   26  a row's column is barred to it                              the first row
 *   27  a spare column's price below that of a used one             the first such spare column
 *   28  a piece or an end after the end of a sheet in pieces        0
 * Lists are numbered 1 columns by row, 2 rows by column, 3 row prices, 4 column prices, 5 bars, 6 the columns of a second
 * pairing. A refusal has total 0 and counts 0 and changes nothing that was lent, but for the state of a sheet in pieces
 * (below) and, with 20, the first 8 bytes of the slip's room. With 9 and 10 comes the slack of the place named, its cost
 * minus both its prices: below 0 with a 9, above 0 with a 10. All others have slack 0. */

#ifndef BRISTLEFROST_H
#define BRISTLEFROST_H

#include <stddef.h>
#include <stdint.h>

#ifdef __cplusplus
extern "C" {
#endif

#define BRISTLEFROST_VERSION "0.1.0"

/* The limits. A cost lies within -LARGEST_COST..LARGEST_COST, on a sheet with bars within -LARGEST_BARRED_COST..
 * LARGEST_BARRED_COST; a price within -LARGEST_PRICE..LARGEST_PRICE, where a night is repaired within
 * -LARGEST_REPAIRED_PRICE..LARGEST_REPAIRED_PRICE. Lengths are in bytes. */
#define BRISTLEFROST_LARGEST_SIDE 4096
#define BRISTLEFROST_LARGEST_SHEET_SIDE 64 /* with bars or fewer rows too */
#define BRISTLEFROST_LARGEST_COST INT32_C(1000000000)
#define BRISTLEFROST_LARGEST_BARRED_COST INT32_C(1000000)
#define BRISTLEFROST_LARGEST_PRICE INT64_C(10000000000)
#define BRISTLEFROST_LARGEST_REPAIRED_PRICE INT64_C(7000000000)
#define BRISTLEFROST_LONGEST_SHEET 65536
#define BRISTLEFROST_LONGEST_NOTE 4096
#define BRISTLEFROST_LONGEST_SLIP 1174 /* room enough for any sheet's */
#define BRISTLEFROST_REFERENCE 12

/* The bytes of a slip: of a square night, editions 1 and 2, and of m rows and n columns, edition 3. */
#define BRISTLEFROST_SLIP(n) (18 * (n) + 20)
#define BRISTLEFROST_OBLONG_SLIP(m, n) (10 * (m) + 8 * (n) + 22)

/* The bytes of stack that a call takes at most, as measured: bristlefrost_sheet and bristlefrost_end the first, whatever
 * the side, bristlefrost_audit the second, and every other function the third. A thread with a smaller stack leaves sheets
 * and slips to another one, or calls solve and check. */
#define BRISTLEFROST_SHEET_STACK 163840
#define BRISTLEFROST_AUDIT_STACK 32768
#define BRISTLEFROST_STACK 8192

/* The refusals' numbers: refusal % 256. The place is refusal / 256. */
enum {
    BRISTLEFROST_SIDE_OVER = 1,
    BRISTLEFROST_COSTS_LENGTH = 2,
    BRISTLEFROST_LIST_LENGTH = 3,
    BRISTLEFROST_ROOM_SHORT = 4,
    BRISTLEFROST_COST_OUTSIDE = 5,
    BRISTLEFROST_COLUMN_OUTSIDE = 6,
    BRISTLEFROST_ROW_NOT_NAMED = 7,
    BRISTLEFROST_PRICE_OUTSIDE = 8,
    BRISTLEFROST_PRICES_OVER_COST = 9,
    BRISTLEFROST_PRICES_NOT_COST = 10,
    BRISTLEFROST_NO_MARK = 11,
    BRISTLEFROST_EDITION_UNKNOWN = 12,
    BRISTLEFROST_SHEET_SIDE_OVER = 13,
    BRISTLEFROST_DISTANCE_WRONG = 14,
    BRISTLEFROST_DISTANCE_PAST_BYTES = 15,
    BRISTLEFROST_SLIP_ROOM_SHORT = 16,
    BRISTLEFROST_SHEET_OVER = 17,
    BRISTLEFROST_REFERENCE_LENGTH = 18,
    BRISTLEFROST_CHARACTER_UNKNOWN = 19,
    BRISTLEFROST_NO_PAIRING = 20,
    BRISTLEFROST_NOTE_UNFIT = 21,
    BRISTLEFROST_BARS_PAST_SIDE = 22,
    BRISTLEFROST_ROWS_OVER = 23,
    BRISTLEFROST_PRICE_FAR = 24,
    BRISTLEFROST_SLIP_WRONG = 25,
    BRISTLEFROST_BARRED_PAIR = 26,
    BRISTLEFROST_SPARE_BELOW = 27,
    BRISTLEFROST_SHEET_ENDED = 28
};

/* The solver's answer: the refusal, the least total, and the six counts. */
typedef struct {
    uint64_t refusal;
    int64_t total;
    uint64_t free_rows;       /* free rows after column reduction */
    uint64_t looks_one;       /* looks in pass one */
    uint64_t left_one;        /* rows left after pass one */
    uint64_t looks_two;       /* looks in pass two */
    uint64_t rows_left;       /* rows left after the passes */
    uint64_t columns_scanned; /* columns whose row was used in a scan */
} bristlefrost_solved;

/* The checker's answer. */
typedef struct {
    uint64_t refusal;
    int64_t total;
    int64_t slack; /* of refusals 9 and 10 */
} bristlefrost_checked;

/* What is told of a second pairing. */
typedef struct {
    uint64_t refusal;
    int64_t total; /* of either */
    int64_t slack; /* of refusals 9 and 10 */
    uint64_t also; /* 1 where there is a second, 0 where there is only one */
} bristlefrost_seconded;

/* What an audit answers: the number of columns and the total of an accepted slip, both 0 with a refusal. */
typedef struct {
    uint64_t refusal;
    uint64_t side;
    int64_t total;
} bristlefrost_audited;

/* The answer of cost, score and plain. */
typedef struct {
    uint64_t refusal;
    int64_t total;
} bristlefrost_total;

/* Pairs a night. costs: n*n in row order. cols, rows, row_prices, col_prices: at least n entries each, the first
 * n are written. indices: at least 4n, numbers: at least n; the first 4n and n are 0 afterwards. Entries past
 * these are untouched. Refusals 1 2 3 4 5. */
bristlefrost_solved bristlefrost_solve(
    size_t n,
    const int32_t *costs, size_t costs_len,
    uint32_t *cols, size_t cols_len,
    uint32_t *rows, size_t rows_len,
    int64_t *row_prices, size_t row_prices_len,
    int64_t *col_prices, size_t col_prices_len,
    uint32_t *indices, size_t indices_len,
    int64_t *numbers, size_t numbers_len);

/* Accepts a pairing with its prices, and answers its total; accepted means that no pairing has a lower one. Each
 * list has at least n entries and the first n are read. Refusals 1 2 3 5 6 7 8 9 10. */
bristlefrost_checked bristlefrost_check(
    size_t n,
    const int32_t *costs, size_t costs_len,
    const uint32_t *cols, size_t cols_len,
    const uint32_t *rows, size_t rows_len,
    const int64_t *row_prices, size_t row_prices_len,
    const int64_t *col_prices, size_t col_prices_len);

/* The same for a night with bars: for each row a number whose bit j is set where column j is barred; bits from n up are
 * clear. n is at most 64, and costs lie within -1,000,000..1,000,000. Accepted means that no pair is barred, and that no
 * pairing without a barred pair has a lower total: 9 leaves barred places out. Refusals 1 2 3 5 22 6 7 26 8 9 10. */
bristlefrost_checked bristlefrost_check_barred(
    size_t n,
    const int32_t *costs, size_t costs_len,
    const uint32_t *cols, size_t cols_len,
    const uint32_t *rows, size_t rows_len,
    const int64_t *row_prices, size_t row_prices_len,
    const int64_t *col_prices, size_t col_prices_len,
    const uint64_t *bars, size_t bars_len);

/* The same for a night of m rows and n columns, m at most n, n at most 64: m*n costs in row order, the column of each row,
 * m row prices and n column prices; lists 1, 3 and 4. Accepted means that no choice of a column of its own for each row
 * has a lower total. Any m may be passed: with 23 a place over 2^56 - 1 is told as that. Refusals 1 23 2 3 5 6 7 8 9 10
 * 27. */
bristlefrost_checked bristlefrost_check_oblong(
    size_t m, size_t n,
    const int32_t *costs, size_t costs_len,
    const uint32_t *cols, size_t cols_len,
    const int64_t *row_prices, size_t row_prices_len,
    const int64_t *col_prices, size_t col_prices_len);

/* Whether another pairing has the total of this one. costs, cols, rows, row_prices, col_prices: as check takes them, and
 * tested as there. Where there is another, the first n entries of second, list 6, are its columns; where there is only one,
 * second is untouched. Which second is given is defined: always the same one of a pairing and its prices. second: at least
 * n entries; indices, numbers: as for solve. Refusals 1 2 3 4 5 6 7 8 9 10. */
bristlefrost_seconded bristlefrost_second(
    size_t n,
    const int32_t *costs, size_t costs_len,
    const uint32_t *cols, size_t cols_len,
    const uint32_t *rows, size_t rows_len,
    const int64_t *row_prices, size_t row_prices_len,
    const int64_t *col_prices, size_t col_prices_len,
    uint32_t *second, size_t second_len,
    uint32_t *indices, size_t indices_len,
    int64_t *numbers, size_t numbers_len);

/* The same for a night with bars, tested as check_barred does: only pairings without a barred pair count. Refusals 1 2 3 4
 * 5 22 6 7 26 8 9 10. */
bristlefrost_seconded bristlefrost_second_barred(
    size_t n,
    const int32_t *costs, size_t costs_len,
    const uint32_t *cols, size_t cols_len,
    const uint32_t *rows, size_t rows_len,
    const int64_t *row_prices, size_t row_prices_len,
    const int64_t *col_prices, size_t col_prices_len,
    const uint64_t *bars, size_t bars_len,
    uint32_t *second, size_t second_len,
    uint32_t *indices, size_t indices_len,
    int64_t *numbers, size_t numbers_len);

/* The same for m rows and n columns, tested as check_oblong does: another choice of spare columns is another pairing.
 * second: at least m entries, the first m are written; indices, numbers: at least 4n and n. Refusals 1 23 2 3 4 5 6 7 8 9
 * 10 27. */
bristlefrost_seconded bristlefrost_second_oblong(
    size_t m, size_t n,
    const int32_t *costs, size_t costs_len,
    const uint32_t *cols, size_t cols_len,
    const int64_t *row_prices, size_t row_prices_len,
    const int64_t *col_prices, size_t col_prices_len,
    uint32_t *second, size_t second_len,
    uint32_t *indices, size_t indices_len,
    int64_t *numbers, size_t numbers_len);

/* The total over a list of at most n columns: the column of row 0, of row 1, and so on. Refusals 1 2 3 5 6. */
bristlefrost_total bristlefrost_cost(
    size_t n,
    const int32_t *costs, size_t costs_len,
    const uint32_t *listed, size_t listed_len);

/* Repairs a paired night in place, with one search, after the costs of one row changed. costs: the whole new matrix.
 * cols, rows, row_prices, col_prices: the old pairing and its prices, as solve left them and check accepted them; the
 * first n entries are read and then hold the new ones. indices, numbers: as for solve. Answers the least total. The
 * pairing and prices may differ from those of solve. A repair never raises a column price, so that a chain of repairs
 * comes to 24 in time: then solve. Refusals 1 2 3 4 5 6 7 8 24 9 10; 9 and 10 leave the row out. */
bristlefrost_checked bristlefrost_repair(
    size_t n,
    const int32_t *costs, size_t costs_len,
    size_t row,
    uint32_t *cols, size_t cols_len,
    uint32_t *rows, size_t rows_len,
    int64_t *row_prices, size_t row_prices_len,
    int64_t *col_prices, size_t col_prices_len,
    uint32_t *indices, size_t indices_len,
    int64_t *numbers, size_t numbers_len);

/* Reads a sheet and writes its slip of 18n+20 bytes, where n is the sheet's side, at most 64; later bytes of the
 * slip's room are untouched. Answers 0, or number + 256*place. Refusals 17 11 12 13 23 14 15 21 16 5 22 20.
 *
 * A sheet is a note for people, the n*n costs (4 bytes each) and a trailer: the distance from the trailer back to the
 * first cost, 4*n*n (4 bytes), the side (2), the edition, 1 (2), and MTCH. A slip is the columns by row (2 bytes each),
 * row prices and column prices (8 each), the total (8) and such a trailer, with the distance 18n+8, the sheet's edition
 * and SLIP. All numbers are little-endian.
 *
 * In edition 2 bars stand between costs and trailer, for each row a number (8 bytes) whose bit j is set where column j
 * is barred; bits from n up are clear. The distance is 4*n*n+8*n, and all costs, barred ones too, lie within
 * -1,000,000..1,000,000. The total is the least of the pairings without a barred pair, and the prices are those of the
 * same costs with 1,000,000,000 on barred places. Where there is no such pairing, 20 is given and the first 8 bytes of
 * the slip's room are a number whose bits are a set of rows: the columns allowed to any of them are fewer than they
 * are. It is the one refusal that writes.
 *
 * In edition 3 there are m rows and n columns, m at most n: m*n costs, then m (2 bytes), and a trailer with the distance
 * 4*m*n+2 and the side n. Each row gets a column of its own, at the least total; the choice and the prices are those of
 * the same costs with n-m rows of zeros below. The slip is m columns, m row prices, n column prices, the total, m (2
 * bytes) and a trailer with the distance 10m+8n+10: 10m+8n+22 bytes. No spare column's price is below that of a used
 * one. */
uint64_t bristlefrost_sheet(
    const uint8_t *sheet, size_t sheet_len,
    uint8_t *slip, size_t slip_len);

/* A second opinion: tries every pairing of a night, n at most 8, and answers the least total. cols, at least n entries,
 * gets in its first n the first pairing of that total in dictionary order. It shares with solve nothing but the tests of
 * its input. Refusals 1 2 3 5; 3 is of list 1. */
bristlefrost_total bristlefrost_plain(
    size_t n,
    const int32_t *costs, size_t costs_len,
    uint32_t *cols, size_t cols_len);

/* Holds a slip against its sheet, whoever wrote it; slip_len is the slip's own length, not its room's. Accepted means
 * that the slip's total is the least of the sheet's night. It tests the sheet as bristlefrost_sheet does, then the slip's
 * form, then what it says as the checker of its edition does, with the plain engine beside it up to side 8; last comes
 * the total. A 9 or 10 comes without its slack. It proves a slip, it does not sign one: in edition 3 a spare column's
 * price may be higher, and a row may have a spare column of the same cost and price instead.
 * Refusals 17 11 12 13 23 14 15 21 5 22 25 6 7 26 8 9 10 27 25. */
bristlefrost_audited bristlefrost_audit(
    const uint8_t *sheet, size_t sheet_len,
    const uint8_t *slip, size_t slip_len);

/* The score of two references of 12 characters from 0-9 and A-Z, in bytes: over the 12 places 0 where they are equal,
 * 2 for a look-alike (0/O, 1/I, 2/Z, 5/S, 8/B), 9 for any other difference. Refusals 18 19. */
bristlefrost_total bristlefrost_score(
    const uint8_t *first, size_t first_len,
    const uint8_t *second, size_t second_len);

/* Writes a sheet of the scores of two lists of n references each, at most 64, one reference behind the other: the
 * first list gives the rows, no note is written, and bytes of the room past 4*n*n+12 are untouched. Answers 0, or
 * number + 256*place. Refusals 18 13 16 19, the first list whole before the second. */
uint64_t bristlefrost_score_sheet(
    const uint8_t *firsts, size_t firsts_len,
    const uint8_t *seconds, size_t seconds_len,
    uint8_t *sheet, size_t sheet_len);

/* A sheet that arrives in pieces. The caller keeps two arrays between the calls and hands them over without a length:
 * bytes, 65,536 of them, and state, two numbers. It begins with a state of zeros, as zeroed memory has it or a reset
 * leaves it; what stands in bytes then does not matter. state[0] is how many bytes have come; state[1] is 0 while
 * pieces are taken, 1 once 17 was given and 2 after the end. Any other numbers are read as if 17 had been given.
 *
 * A piece is of any size, also 0, and is copied behind those before it: 0. One that would pass 65,536 bytes in all
 * is not, and gives 17, as does every later call until a reset, the end too. */
uint64_t bristlefrost_piece(
    uint8_t bytes[65536], uint64_t state[2],
    const uint8_t *sent, size_t sent_len);

/* The end: what bristlefrost_sheet gives for the whole, however it was cut; bytes are not written. After it, refused
 * or not (16 too), a piece and an end give 28 and change nothing, until a reset. */
uint64_t bristlefrost_end(
    uint8_t bytes[65536], uint64_t state[2],
    uint8_t *slip, size_t slip_len);

/* Back to a state of zeros: 0; bytes are neither read nor written. */
uint64_t bristlefrost_reset(uint8_t bytes[65536], uint64_t state[2]);

#ifdef __cplusplus
}
#endif

#endif
