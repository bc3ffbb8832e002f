/* Jorumrain for C and C++: the proved calls on posits, ranges, columns and sheets.
 *
 * Posits are numbers of 3 to 16 bits; ranges (valids) have posits as their ends, each open or closed.
 * The library decodes, encodes, compares, negates, adds, subtracts, multiplies and divides posits,
 * works with ranges so that every answer is the smallest range of all exact results, and does the
 * same along columns and sheets. Each call is proved to give, for every input, the answer or the
 * refusal that the archive's scope document (document 01) names, whose words jorumrain_words gives.
 *
 * How to read an answer. Every answer begins with a number and a place. Look at the number first:
 * 0 means done, and only then does the rest of the answer hold. A refusal is a number from 1 to 10
 * and a place; its value is zero, and all memory lent to the call keeps its content. The refusals of
 * a call are listed below in the order in which they are tried: the first hit wins.
 *
 * Common parameters. A format is a width `n` from 3 to 16 and an exponent size `es` from 0 to 2. A
 * posit is a pattern below 2^n in the low bits of 32. A range is a word of 64 bits: its start tile
 * times 2^(n+1), plus its end tile, where a tile is a posit times 2, plus 1 for an open end; its bits
 * from 2n+2 up must be zero. An operation is a byte, JORUMRAIN_ADD to JORUMRAIN_DIVIDE; a larger
 * byte is refused, but C cuts a number of more than 8 bits to its low byte before the call sees it.
 *
 * Memory. A list comes as a pointer and a length, which counts elements and not bytes. Nothing
 * outside those elements is read or written. The library allocates nothing and keeps nothing between
 * calls. What the caller sees to, since no call can test it:
 *
 * - A pointer with a length above 0 points to that many elements, aligned for their type. With length
 *   0 the pointer is never followed, so it may be NULL or anything else.
 * - Lent memory overlaps none of the inputs: the contract is proved for slices that lie apart, and
 *   where they overlap an answer just written could be read as an operand, of which nothing is said.
 *   Inputs may overlap each other, since they are only read: `left` and `right` may be one column.
 * - No other thread writes the inputs, or reads or writes the lent memory, while a call runs. Calls
 *   on memory of their own may run at the same time.
 *
 * The library is compiled for x86-64 Linux.
 */
#ifndef JORUMRAIN_H
#define JORUMRAIN_H

#include <stdbool.h>
#include <stddef.h>
#include <stdint.h>

/* The version of this header, as a number and as text. The number is 10,000 times the first of the
 * version's numbers, plus 100 times the second, plus the third. A program runs with a library of the
 * same first number that is not older; jorumrain_version tells which library it met. */
#define JORUMRAIN_VERSION 10000
#define JORUMRAIN_VERSION_TEXT "1.0.0"

/* Has the compiler warn where an answer is dropped: without its number nothing in it holds. */
#if defined(__GNUC__)
#define JORUMRAIN_MUST_USE __attribute__((warn_unused_result))
#else
#define JORUMRAIN_MUST_USE
#endif

#ifdef __cplusplus
extern "C" {
#endif

/* The numbers a call may come back with; jorumrain_words says when each is given. */
enum {
    JORUMRAIN_DONE = 0,
    JORUMRAIN_OUTSIDE_LIMITS = 1,
    JORUMRAIN_NO_OPERATION = 2,
    JORUMRAIN_TOO_LARGE = 3,
    JORUMRAIN_HOLDS_INFINITY = 4,
    JORUMRAIN_ZERO_DIVISOR = 5,
    JORUMRAIN_BAD_READING = 6,
    JORUMRAIN_WRONG_LENGTH = 7,
    JORUMRAIN_NOT_EARLIER = 8,
    JORUMRAIN_NO_ROOM = 9,
    JORUMRAIN_BAD_FILE = 10
};

/* The words of a number, which is given exactly when they hold. The text is constant. It is no call of
 * the library, so a number that only a later library gives has no words here. */
JORUMRAIN_MUST_USE
static inline const char *jorumrain_words(uint32_t number) {
    switch (number) {
    case JORUMRAIN_DONE:
        return "done";
    case JORUMRAIN_OUTSIDE_LIMITS:
        return "n or es outside the format limits";
    case JORUMRAIN_NO_OPERATION:
        return "operation number above 3";
    case JORUMRAIN_TOO_LARGE:
        return "posit of 2^n or more, or range word of 2^(2n+2) or more";
    case JORUMRAIN_HOLDS_INFINITY:
        return "the range holds infinity";
    case JORUMRAIN_ZERO_DIVISOR:
        return "the divisor range has 0 as a member";
    case JORUMRAIN_BAD_READING:
        return "a reading with a NaN, low +infinity, high -infinity, or low above high";
    case JORUMRAIN_WRONG_LENGTH:
        return "columns of unequal length or over 4,096; over 32 inputs or 64 steps; "
               "a step list that is no whole number of steps";
    case JORUMRAIN_NOT_EARLIER:
        return "a step names a row that isn't earlier";
    case JORUMRAIN_NO_ROOM:
        return "the named row (0 for a sheet) plus the words to be written exceeds the lent column's "
               "length";
    case JORUMRAIN_BAD_FILE:
        return "file shorter than 9 bytes, mark or version wrong, or wrong length";
    default:
        return "no number that this version knows";
    }
}

/* The places of a single call: its left or only operand, and its right one. */
enum {
    JORUMRAIN_LEFT = 0,
    JORUMRAIN_RIGHT = 1
};

/* The operations. */
enum {
    JORUMRAIN_ADD = 0,
    JORUMRAIN_SUBTRACT = 1,
    JORUMRAIN_MULTIPLY = 2,
    JORUMRAIN_DIVIDE = 3
};

/* The kinds of a decoded posit; NaR ("not a real") is what a division by zero gives. */
enum {
    JORUMRAIN_ZERO = 0,
    JORUMRAIN_NAR = 1,
    JORUMRAIN_FINITE = 2
};

/* The kind of a posit that is a float; that of NaR is JORUMRAIN_NAR. */
enum {
    JORUMRAIN_FLOAT = 0
};

/* The orders. */
enum {
    JORUMRAIN_LESS = 0,
    JORUMRAIN_EQUAL = 1,
    JORUMRAIN_GREATER = 2
};

/* The limits of columns and sheets, and the bytes of a step. */
enum {
    JORUMRAIN_LONGEST_COLUMN = 4096,
    JORUMRAIN_MOST_INPUTS = 32,
    JORUMRAIN_MOST_STEPS = 64,
    JORUMRAIN_STEP_BYTES = 3
};

/* Number, place and a posit. */
typedef struct JorumrainPositAnswer {
    uint32_t number;
    uint32_t place;
    uint32_t posit;
} JorumrainPositAnswer;

/* Number, place and a decoded posit. A finite one is fraction * 2^scale, negated where `negative` is
 * set; the other kinds have sign, scale and fraction 0. */
typedef struct JorumrainPositDecoding {
    uint32_t number;
    uint32_t place;
    uint32_t kind;
    bool negative;
    int32_t scale;
    uint32_t fraction;
} JorumrainPositDecoding;

/* Number, place and an order: JORUMRAIN_LESS, JORUMRAIN_EQUAL or JORUMRAIN_GREATER. */
typedef struct JorumrainPositComparison {
    uint32_t number;
    uint32_t place;
    uint32_t order;
} JorumrainPositComparison;

/* Number, place and a posit as a float: its kind, JORUMRAIN_FLOAT or JORUMRAIN_NAR, and its value,
 * which is 0.0 for NaR and never a NaN. */
typedef struct JorumrainPositFloating {
    uint32_t number;
    uint32_t place;
    uint32_t kind;
    double value;
} JorumrainPositFloating;

/* Number, place and a range word. */
typedef struct JorumrainRangeAnswer {
    uint32_t number;
    uint32_t place;
    uint64_t word;
} JorumrainRangeAnswer;

/* Number, place and a yes or no. */
typedef struct JorumrainRangeReply {
    uint32_t number;
    uint32_t place;
    bool yes;
} JorumrainRangeReply;

/* Number, place, and a range as two floats with their open marks and an empty mark. */
typedef struct JorumrainRangeOutgoing {
    uint32_t number;
    uint32_t place;
    double low;
    double high;
    bool low_open;
    bool high_open;
    bool empty;
} JorumrainRangeOutgoing;

/* Number, place and the count of words written. */
typedef struct JorumrainSheetAnswer {
    uint32_t number;
    uint32_t place;
    uint32_t count;
} JorumrainSheetAnswer;

/* ---- The library ---- */

/* Gives the version of the library that the program met, as JORUMRAIN_VERSION gives the header's. */
JORUMRAIN_MUST_USE
uint32_t jorumrain_version(void);

/* ---- Posits ---- */

/* Decodes the posit p: zero, NaR, or sign, scale and fraction, the fraction always odd.
 * Refused: 1 at place 0, 3 at place 0. */
JORUMRAIN_MUST_USE
JorumrainPositDecoding jorumrain_posit_decode(uint32_t n, uint32_t es, uint32_t p);

/* Encodes zero, NaR or any sign, scale and fraction, rounding to a posit by document 01's rule. A
 * fraction of 0 is zero, and a kind above JORUMRAIN_FINITE is taken as NaR; sign, scale and fraction
 * count for JORUMRAIN_FINITE only.
 * Refused: 1 at place 0. */
JORUMRAIN_MUST_USE
JorumrainPositAnswer jorumrain_posit_encode(uint32_t n, uint32_t es, uint32_t kind, bool negative,
                                            int32_t scale, uint32_t fraction);

/* Compares p with q; NaR equals itself and is below all else. A refused comparison says equal.
 * Refused: 1 at place 0, 3 at place 0 for p, 3 at place 1 for q. */
JORUMRAIN_MUST_USE
JorumrainPositComparison jorumrain_posit_compare(uint32_t n, uint32_t es, uint32_t p, uint32_t q);

/* Negates p; zero and NaR stay.
 * Refused: 1 at place 0, 3 at place 0. */
JORUMRAIN_MUST_USE
JorumrainPositAnswer jorumrain_posit_negate(uint32_t n, uint32_t es, uint32_t p);

/* Adds, subtracts, multiplies or divides, rounded once; NaR and a zero divisor give NaR, which is no
 * refusal.
 * Refused: 1 at place 0, 2 at place 0, 3 at place 0 for p, 3 at place 1 for q. */
JORUMRAIN_MUST_USE
JorumrainPositAnswer jorumrain_posit_operate(uint32_t n, uint32_t es, uint8_t op, uint32_t p, uint32_t q);

/* Rounds the exact value of a float to a posit; -0.0 gives 0, a NaN and the infinities give NaR.
 * Refused: 1 at place 0. */
JORUMRAIN_MUST_USE
JorumrainPositAnswer jorumrain_posit_from_float(uint32_t n, uint32_t es, double x);

/* Gives the exact value of p as a float, or the kind JORUMRAIN_NAR; zero is +0.0.
 * Refused: 1 at place 0, 3 at place 0. */
JORUMRAIN_MUST_USE
JorumrainPositFloating jorumrain_posit_to_float(uint32_t n, uint32_t es, uint32_t p);

/* ---- Ranges ---- */

/* Negates each member of a.
 * Refused: 1 at place 0, then 3 and 4 at place 0. */
JORUMRAIN_MUST_USE
JorumrainRangeAnswer jorumrain_range_negate(uint32_t n, uint32_t es, uint64_t a);

/* Adds, subtracts, multiplies or divides: the smallest range of this format that holds every exact
 * result of a member of a and a member of b, taken as independent; empty where a or b is empty.
 * Refused: 1 at place 0, 2 at place 0, 3 and 4 at place 0 for a, 3 and 4 at place 1 for b, then 5 at
 * place 1. */
JORUMRAIN_MUST_USE
JorumrainRangeAnswer jorumrain_range_operate(uint32_t n, uint32_t es, uint8_t op, uint64_t a, uint64_t b);

/* Gives the smallest range that holds all rationals from low to high, both included; -infinity as
 * low and +infinity as high mean unbounded.
 * Refused: 1 at place 0, 6 at place 0. */
JORUMRAIN_MUST_USE
JorumrainRangeAnswer jorumrain_range_take_in(uint32_t n, uint32_t es, double low, double high);

/* Gives both ends of a exactly as floats, with their open marks. Unbounded ends are the infinities,
 * open; an empty range is 0.0 twice, both open, with the empty mark set.
 * Refused: 1 at place 0, then 3 and 4 at place 0; the marks are then unset. */
JORUMRAIN_MUST_USE
JorumrainRangeOutgoing jorumrain_range_give_out(uint32_t n, uint32_t es, uint64_t a);

/* Says whether each member of a is in b; an empty a is inside every range. A refusal says no.
 * Refused: 1 at place 0, 3 and 4 at place 0 for a, 3 and 4 at place 1 for b. */
JORUMRAIN_MUST_USE
JorumrainRangeReply jorumrain_range_inside(uint32_t n, uint32_t es, uint64_t a, uint64_t b);

/* Says whether some member is in both; an empty range meets nothing. A refusal says no.
 * Refused: as for jorumrain_range_inside. */
JORUMRAIN_MUST_USE
JorumrainRangeReply jorumrain_range_meets(uint32_t n, uint32_t es, uint64_t a, uint64_t b);

/* Says whether each member of a is less than each of b; with an empty range that is so. A refusal
 * says no.
 * Refused: as for jorumrain_range_inside. */
JORUMRAIN_MUST_USE
JorumrainRangeReply jorumrain_range_below(uint32_t n, uint32_t es, uint64_t a, uint64_t b);

/* ---- Columns and sheets ---- */

/* Applies one operation to two columns of ranges, pair by pair, each as jorumrain_range_operate does.
 * Answer i goes to lent[row + i] and the count is the columns' length; all other words of the lent
 * column keep their content, and where the call is refused all of them do.
 * Refused: 1, 2, 7 and 9 at place 0 (7: unequal lengths, or over JORUMRAIN_LONGEST_COLUMN; 9: row plus
 * the columns' length exceeds lent_length); then pair by pair 3 and 4 for the left, 3 and 4 for the
 * right, and 5, with the pair as place. */
JORUMRAIN_MUST_USE
JorumrainSheetAnswer jorumrain_columns_combine(uint32_t n, uint32_t es, uint8_t op,
                                               const uint64_t *left, size_t left_length,
                                               const uint64_t *right, size_t right_length,
                                               size_t row, uint64_t *lent, size_t lent_length);

/* Works a sheet. The inputs are its first rows, kept as given. Each step is JORUMRAIN_STEP_BYTES
 * bytes, an operation and two earlier rows, and adds a row; `steps_length` counts bytes. The rows go
 * to the first words of the lent column and the count is how many; the words after them keep their
 * content, and where the call is refused all words do.
 * Refused: 1, 7 and 9 at place 0 (7: over JORUMRAIN_MOST_INPUTS or JORUMRAIN_MOST_STEPS, or bytes that
 * are no whole number of steps; 9: inputs plus steps exceed lent_length); then 3 and 4 for each input;
 * then 2, 8 and 5 for each step; with the row of that input or step as place. */
JORUMRAIN_MUST_USE
JorumrainSheetAnswer jorumrain_sheet_work(uint32_t n, uint32_t es,
                                          const uint64_t *inputs, size_t inputs_length,
                                          const uint8_t *steps, size_t steps_length,
                                          uint64_t *lent, size_t lent_length);

/* Works the sheet of a sheet file, whose bytes are: the mark "RSH"; version 1 in two bytes, low byte
 * first; n, es, the count of inputs and the count of steps, a byte each; the inputs in 8 bytes each,
 * low byte first; the steps in JORUMRAIN_STEP_BYTES bytes each. Rows, count and lent column are as for
 * jorumrain_sheet_work.
 * Refused: 10 at place 0 for under 9 bytes, the mark or the version; 1, 7, and 10 for the length, all
 * at place 0; then 9 and the rest as for jorumrain_sheet_work. */
JORUMRAIN_MUST_USE
JorumrainSheetAnswer jorumrain_file_work(const uint8_t *file, size_t file_length,
                                         uint64_t *lent, size_t lent_length);

#ifdef __cplusplus
}
#endif

#endif
