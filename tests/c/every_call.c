/* Every exported call once with an answer and once refused, and lent memory that a refused call keeps; C11 and C++. */

/* A name that a program may well have for itself, which the header leaves to it. */
typedef struct PositAnswer {
    int own;
} PositAnswer;

#include "jorumrain.h"

#include <math.h>
#include <stdio.h>
#include <stdlib.h>
#include <string.h>

#define N 8u
#define ES 2u

/* Patterns and words of the format N, ES. */
#define ONE 0x40u
#define TWO 0x48u
#define THREE 0x4cu
#define MINUS_THREE 0xb4u
#define NAR 0x80u
#define NO_POSIT 0x100u
#define WORD(start, end) ((uint64_t)(start) << (N + 1) | (uint64_t)(end))
#define ONE_TO_TWO WORD(0x80, 0x90)
#define THREE_ONLY WORD(0x98, 0x98)
#define ZERO_TO_ONE WORD(0x00, 0x80)
#define EMPTY WORD(0x01, 0x01)
#define WITH_INFINITY WORD(0x100, 0x00)
#define NO_WORD WORD(0x200, 0x00)

/* What lent memory holds before a call. */
#define OLD UINT64_C(0xdeadbeefdeadbeef)

#define HOLD(condition) \
    do { \
        if (!(condition)) { \
            fprintf(stderr, "%s:%d: %s\n", __FILE__, __LINE__, #condition); \
            exit(1); \
        } \
    } while (0)

/* The number and place of an answer of any kind. */
#define IS(answer, n, p) HOLD((answer).number == (n) && (answer).place == (p))
#define DONE(answer) IS(answer, JORUMRAIN_DONE, 0u)

static void version_and_words(void) {
    HOLD(jorumrain_version() == JORUMRAIN_VERSION);
    HOLD(strcmp(jorumrain_words(JORUMRAIN_HOLDS_INFINITY), "the range holds infinity") == 0);
    HOLD(strcmp(jorumrain_words(UINT32_MAX), "no number that this version knows") == 0);
}

static void decode_and_encode(void) {
    JorumrainPositDecoding d = jorumrain_posit_decode(N, ES, MINUS_THREE);
    DONE(d);
    HOLD(d.kind == JORUMRAIN_FINITE && d.negative && d.scale == 0 && d.fraction == 3);
    d = jorumrain_posit_decode(N, ES, NAR);
    DONE(d);
    HOLD(d.kind == JORUMRAIN_NAR);
    d = jorumrain_posit_decode(N, ES, NO_POSIT);
    IS(d, JORUMRAIN_TOO_LARGE, JORUMRAIN_LEFT);
    HOLD(d.kind == JORUMRAIN_ZERO && !d.negative && d.scale == 0 && d.fraction == 0);

    JorumrainPositAnswer p = jorumrain_posit_encode(N, ES, JORUMRAIN_FINITE, true, -1, 6);
    DONE(p);
    HOLD(p.posit == MINUS_THREE);
    p = jorumrain_posit_encode(N, ES, 7, false, 0, 1);
    DONE(p);
    HOLD(p.posit == NAR);
    p = jorumrain_posit_encode(17, ES, JORUMRAIN_FINITE, false, 0, 1);
    IS(p, JORUMRAIN_OUTSIDE_LIMITS, 0u);
    HOLD(p.posit == 0);
}

static void compare_negate_and_operate(void) {
    JorumrainPositComparison c = jorumrain_posit_compare(N, ES, ONE, TWO);
    DONE(c);
    HOLD(c.order == JORUMRAIN_LESS);
    c = jorumrain_posit_compare(N, ES, ONE, NAR);
    DONE(c);
    HOLD(c.order == JORUMRAIN_GREATER);
    c = jorumrain_posit_compare(N, ES, ONE, NO_POSIT);
    IS(c, JORUMRAIN_TOO_LARGE, JORUMRAIN_RIGHT);
    HOLD(c.order == JORUMRAIN_EQUAL);

    JorumrainPositAnswer p = jorumrain_posit_negate(N, ES, THREE);
    DONE(p);
    HOLD(p.posit == MINUS_THREE);
    p = jorumrain_posit_negate(N, 3, THREE);
    IS(p, JORUMRAIN_OUTSIDE_LIMITS, 0u);

    const uint32_t answers[] = {0x50, 0xb8, 0x4c, 0x33};
    for (uint8_t op = JORUMRAIN_ADD; op <= JORUMRAIN_DIVIDE; op++) {
        p = jorumrain_posit_operate(N, ES, op, ONE, THREE);
        DONE(p);
        HOLD(p.posit == answers[op]);
    }
    p = jorumrain_posit_operate(N, ES, JORUMRAIN_DIVIDE + 1, ONE, NO_POSIT);
    IS(p, JORUMRAIN_NO_OPERATION, 0u);
    HOLD(p.posit == 0);
}

static void floats(void) {
    JorumrainPositAnswer p = jorumrain_posit_from_float(N, ES, -3.0);
    DONE(p);
    HOLD(p.posit == MINUS_THREE);
    p = jorumrain_posit_from_float(N, ES, HUGE_VAL);
    DONE(p);
    HOLD(p.posit == NAR);
    p = jorumrain_posit_from_float(2, ES, 1.0);
    IS(p, JORUMRAIN_OUTSIDE_LIMITS, 0u);

    JorumrainPositFloating f = jorumrain_posit_to_float(N, ES, MINUS_THREE);
    DONE(f);
    HOLD(f.kind == JORUMRAIN_FLOAT && f.value == -3.0);
    f = jorumrain_posit_to_float(N, ES, NAR);
    DONE(f);
    HOLD(f.kind == JORUMRAIN_NAR && f.value == 0.0);
    f = jorumrain_posit_to_float(N, ES, UINT32_MAX);
    IS(f, JORUMRAIN_TOO_LARGE, JORUMRAIN_LEFT);
    HOLD(f.value == 0.0 && !signbit(f.value));
}

static void ranges(void) {
    JorumrainRangeAnswer r = jorumrain_range_negate(N, ES, THREE_ONLY);
    DONE(r);
    HOLD(r.word == WORD(0x168, 0x168));
    r = jorumrain_range_negate(N, ES, WITH_INFINITY);
    IS(r, JORUMRAIN_HOLDS_INFINITY, JORUMRAIN_LEFT);
    HOLD(r.word == 0);

    /* [0,1) times (1,2) is [0,2): zero stays in. */
    r = jorumrain_range_operate(N, ES, JORUMRAIN_MULTIPLY, WORD(0x00, 0x81), WORD(0x81, 0x91));
    DONE(r);
    HOLD(r.word == WORD(0x00, 0x91));
    r = jorumrain_range_operate(N, ES, JORUMRAIN_DIVIDE, ONE_TO_TWO, ZERO_TO_ONE);
    IS(r, JORUMRAIN_ZERO_DIVISOR, JORUMRAIN_RIGHT);
    HOLD(r.word == 0);

    r = jorumrain_range_take_in(N, ES, 1.0, 2.0);
    DONE(r);
    HOLD(r.word == ONE_TO_TWO);
    r = jorumrain_range_take_in(N, ES, 2.0, 1.0);
    IS(r, JORUMRAIN_BAD_READING, 0u);

    JorumrainRangeOutgoing o = jorumrain_range_give_out(N, ES, WORD(0x80, 0x101));
    DONE(o);
    HOLD(o.low == 1.0 && !o.low_open && o.high == HUGE_VAL && o.high_open && !o.empty);
    o = jorumrain_range_give_out(N, ES, EMPTY);
    DONE(o);
    HOLD(o.low == 0.0 && o.low_open && o.high == 0.0 && o.high_open && o.empty);
    o = jorumrain_range_give_out(N, ES, NO_WORD);
    IS(o, JORUMRAIN_TOO_LARGE, JORUMRAIN_LEFT);
    HOLD(o.low == 0.0 && !o.low_open && o.high == 0.0 && !o.high_open && !o.empty);
}

static void comparisons_of_ranges(void) {
    JorumrainRangeReply y = jorumrain_range_inside(N, ES, EMPTY, ONE_TO_TWO);
    DONE(y);
    HOLD(y.yes);
    y = jorumrain_range_inside(N, ES, EMPTY, NO_WORD);
    IS(y, JORUMRAIN_TOO_LARGE, JORUMRAIN_RIGHT);
    HOLD(!y.yes);

    y = jorumrain_range_meets(N, ES, ZERO_TO_ONE, ONE_TO_TWO);
    DONE(y);
    HOLD(y.yes);
    y = jorumrain_range_meets(N, ES, WITH_INFINITY, ONE_TO_TWO);
    IS(y, JORUMRAIN_HOLDS_INFINITY, JORUMRAIN_LEFT);
    HOLD(!y.yes);

    y = jorumrain_range_below(N, ES, ZERO_TO_ONE, ONE_TO_TWO);
    DONE(y);
    HOLD(!y.yes);
    y = jorumrain_range_below(N, ES, ONE_TO_TWO, THREE_ONLY);
    DONE(y);
    HOLD(y.yes);
    y = jorumrain_range_below(N, ES, ONE_TO_TWO, WITH_INFINITY);
    IS(y, JORUMRAIN_HOLDS_INFINITY, JORUMRAIN_RIGHT);
    HOLD(!y.yes);
}

/* Holds lent memory to its old content from one word up to another. */
static void hold_old(const uint64_t *lent, size_t from, size_t to) {
    for (size_t i = from; i < to; i++) {
        HOLD(lent[i] == OLD);
    }
}

static void columns(void) {
    const uint64_t left[] = {ONE_TO_TWO, ONE_TO_TWO};
    const uint64_t right[] = {THREE_ONLY, ZERO_TO_ONE};
    uint64_t lent[] = {OLD, OLD, OLD, OLD};

    JorumrainSheetAnswer s =
        jorumrain_columns_combine(N, ES, JORUMRAIN_DIVIDE, left, 2, right, 2, 1, lent, 4);
    IS(s, JORUMRAIN_ZERO_DIVISOR, 1u);
    HOLD(s.count == 0);
    hold_old(lent, 0, 4);
    s = jorumrain_columns_combine(N, ES, JORUMRAIN_ADD, left, 2, right, 1, 1, lent, 4);
    IS(s, JORUMRAIN_WRONG_LENGTH, 0u);
    s = jorumrain_columns_combine(N, ES, JORUMRAIN_ADD, left, 2, right, 2, SIZE_MAX, lent, 4);
    IS(s, JORUMRAIN_NO_ROOM, 0u);
    hold_old(lent, 0, 4);

    s = jorumrain_columns_combine(N, ES, JORUMRAIN_ADD, left, 2, right, 2, 1, lent, 4);
    DONE(s);
    HOLD(s.count == 2);
    HOLD(lent[1] == WORD(0xa0, 0xa4) && lent[2] == WORD(0x80, 0x98));
    hold_old(lent, 0, 1);
    hold_old(lent, 3, 4);

    s = jorumrain_columns_combine(N, ES, JORUMRAIN_ADD, NULL, 0, NULL, 0, 0, NULL, 0);
    DONE(s);
    HOLD(s.count == 0);
    s = jorumrain_columns_combine(N, ES, JORUMRAIN_ADD, left, 2, left, 2, 0, NULL, 0);
    IS(s, JORUMRAIN_NO_ROOM, 0u);
}

static void sheets(void) {
    const uint64_t inputs[] = {ONE_TO_TWO, THREE_ONLY};
    const uint8_t steps[] = {JORUMRAIN_ADD, 0, 0, JORUMRAIN_DIVIDE, 0, 1};
    const uint8_t later[] = {JORUMRAIN_ADD, 0, 0, JORUMRAIN_DIVIDE, 0, 3};
    uint64_t lent[] = {OLD, OLD, OLD, OLD, OLD};

    JorumrainSheetAnswer s = jorumrain_sheet_work(N, ES, inputs, 2, later, 6, lent, 5);
    IS(s, JORUMRAIN_NOT_EARLIER, 3u);
    HOLD(s.count == 0);
    hold_old(lent, 0, 5);
    s = jorumrain_sheet_work(N, ES, inputs, 2, steps, 5, lent, 5);
    IS(s, JORUMRAIN_WRONG_LENGTH, 0u);
    s = jorumrain_sheet_work(N, ES, inputs, 2, steps, 6, lent, 3);
    IS(s, JORUMRAIN_NO_ROOM, 0u);
    hold_old(lent, 0, 5);

    /* Document 01's example. */
    s = jorumrain_sheet_work(N, ES, inputs, 2, steps, 6, lent, 5);
    DONE(s);
    HOLD(s.count == 4);
    HOLD(lent[0] == ONE_TO_TWO && lent[1] == THREE_ONLY);
    HOLD(lent[2] == WORD(0x90, 0xa0) && lent[3] == WORD(0x65, 0x77));
    hold_old(lent, 4, 5);

    s = jorumrain_sheet_work(N, ES, NULL, 0, NULL, 0, NULL, 0);
    DONE(s);
    HOLD(s.count == 0);
}

static void files(void) {
    /* Document 01's example. */
    const uint8_t file[] = {0x52, 0x53, 0x48, 0x01, 0x00, 0x08, 0x02, 0x02, 0x02, 0x90, 0x00,
                            0x01, 0x00, 0x00, 0x00, 0x00, 0x00, 0x98, 0x30, 0x01, 0x00, 0x00,
                            0x00, 0x00, 0x00, 0x00, 0x00, 0x00, 0x03, 0x00, 0x01};
    uint64_t lent[] = {OLD, OLD, OLD, OLD, OLD};

    JorumrainSheetAnswer s = jorumrain_file_work(file, sizeof file - 1, lent, 5);
    IS(s, JORUMRAIN_BAD_FILE, 0u);
    HOLD(s.count == 0);
    s = jorumrain_file_work(NULL, 0, lent, 5);
    IS(s, JORUMRAIN_BAD_FILE, 0u);
    s = jorumrain_file_work(file, sizeof file, lent, 3);
    IS(s, JORUMRAIN_NO_ROOM, 0u);
    hold_old(lent, 0, 5);

    s = jorumrain_file_work(file, sizeof file, lent, 5);
    DONE(s);
    HOLD(s.count == 4);
    HOLD(lent[0] == ONE_TO_TWO && lent[1] == THREE_ONLY);
    HOLD(lent[2] == WORD(0x90, 0xa0) && lent[3] == WORD(0x65, 0x77));
    hold_old(lent, 4, 5);
}

int main(void) {
    version_and_words();
    decode_and_encode();
    compare_negate_and_operate();
    floats();
    ranges();
    comparisons_of_ranges();
    columns();
    sheets();
    files();
    puts("every call answers and refuses as expected");
    return 0;
}
