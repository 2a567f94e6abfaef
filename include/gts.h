/* The calls on a run of a guarded transition system, on a text, on a model and on a log (libcapi.a, made by `rt lib` in crates/capi).
 *
 * A model is a file of S states, F flows, E events, T transitions and N nodes, lent as bytes to every call. A run is
 *   values   int32_t, at least S + F of them: states, then flows; a Boolean is 0 or 1
 *   marks    uint8_t, at least T of them: for each transition 1 if its guard is true, 0 false, 2 failed, whatever the reason
 *   history  uint16_t, a place for each recorded transition; its length is how many steps can be recorded
 *   n        how many are recorded
 * A caller keeps them from one call to the next. Any content will do: a call that cannot go on from it refuses. gts_start
 * fills values and marks and sets n, so they need no initial content; nor does the history.
 *
 * gts_start, gts_fire and gts_undo leave the marks of the guards over the new values. Marks from 0 to 2 that a caller made
 * up are copied by gts_marks as they are, and stay until one of these three is done; gts_fire and gts_pick go by the guards.
 *
 * gts_text is no call on a run: beside the model it takes a text, bytes of any content, and two slices for its nodes
 *   kinds       uint8_t, at least GTS_TEXT_NODES of them
 *   parameters  int32_t, likewise: those of the same nodes
 *
 * gts_synchronise is no call on a run either: from a model and two lists of transitions it writes a model
 *   mandatory   size_t, numbers of transitions
 *   optional    size_t, likewise
 *   out         uint8_t, for the new model; GTS_MAX_BYTES of them are enough for every model
 *
 * gts_windows is no call on a run: beside the model it takes two expressions, a Boolean one and a number one, each in two slices
 *   condition_kinds       uint8_t, exactly as many as the Boolean expression has nodes, however many these are: after gts_text
 *                         `count` of them, and not all that were lent to it, since cells left over are 8
 *   condition_parameters  int32_t, as many (else 3): those of the same nodes
 *   number_kinds, number_parameters  likewise, of the number expression
 * and a log with a slice for what is told of it
 *   rows     int32_t, any number of rows one after another, each S + F values: states, then flows
 *   figures  int32_t, three for each row; those past the last row's stay
 *
 * gts_rewrite takes no model but an old file, whose sizes S, F, E, T stand in one byte each (6 + 5 N bytes, N at most 4,000),
 * and writes it as a model. No other call takes an old file.
 *
 * Each call answers 0 and its results, or one of the numbers below, and then nothing that was lent has changed, results
 * included. Cells past those in use are neither looked at nor written, but for place n of the history, which gts_fire
 * writes. If several refusals apply, the one that is named first at the call is answered; but among 4 to 7 the first
 * offending node decides (at one node the lowest number), and among 28, 40, 29, 30 the first round with a fault (in one
 * round the one that is named first).
 *
 * No two buffers or cells of one call may overlap, and no pointer may be NULL, also where its length is 0. Lengths are
 * counted in elements, not in bytes. No call keeps a pointer, holds state, takes memory from the heap or does not end. */
#ifndef GTS_H
#define GTS_H

#include <stddef.h>
#include <stdint.h>

#ifdef __cplusplus
extern "C" {
#endif

/* The version of this header: the first number rises when a caller must change, the second when a call is added,
 * promises more or goes by a changed rule. 1.1: gts_pick answers the lowest. 1.2: gts_text. 1.3: gts_first_outside. 2.0: a
 * run holds its marks, so that showing them works no guard out. gts_start, gts_fire, gts_undo, gts_marks, gts_value and
 * gts_pick are lent them after the values. Each refuses by 10 where they are too short, and each but gts_start by 20 where
 * one of the first T is above 2. gts_marks copies them to `buffer`. 2.1: gts_synchronise. 2.2: an if-then-else whose
 * branches have one and the same value has it whatever its condition is, and under a failed condition it waits for an
 * unknown branch: gts_start, gts_fire and gts_undo accept more, and marks, picks, round counts and the numbers of refusals
 * may be others. 3.0: a call on a run needs more stack (GTS_STACK_BYTES); no call and no answer changed. 4.0: a model's
 * sizes S, F, E, T take two bytes each, and a cell of the history is a uint16_t: gts_fire, gts_undo, gts_marks, gts_value and
 * gts_pick are lent it so. An old file goes through gts_rewrite first. Models may be larger (the GTS_MAX_ constants, 1, 2, 3
 * and 36), and are refused by 37 too; a call on a run and a join need more stack (GTS_STACK_BYTES, GTS_SYNCHRONISE_STACK_BYTES).
 * 5.0: 24, 25 and 28 are a divisor of 0 alone, by new names; a number beyond 32 bits is 38, 39 or 40. 5.1: gts_windows. */
#define GTS_VERSION_MAJOR 5
#define GTS_VERSION_MINOR 1

/* The largest model. */
#define GTS_MAX_NODES 12000
#define GTS_MAX_DEPTH 32
#define GTS_MAX_VARIABLES 4000   /* S + F: values of this length are long enough for every model */
#define GTS_MAX_TRANSITIONS 3999 /* T: marks and a buffer of this length are long enough for every model */
#define GTS_MAX_BYTES 60010      /* 10 + 5 N: no longer file is accepted */
#define GTS_MAX_OLD_BYTES 20006  /* 6 + 5 N: no longer old file is rewritten */

/* The longest text, in bytes. */
#define GTS_MAX_TEXT 200

/* The most rows of a window. */
#define GTS_MAX_WINDOW 1000

/* Least lengths. */
#define GTS_SIZES 5        /* of `sizes`; of `values` it is S + F, of `marks` and `buffer` T, of `history` none */
#define GTS_TEXT_NODES 400 /* of `kinds` and of `parameters`: no text has more nodes */
#define GTS_FIGURES 3      /* of `figures`, for each row */

/* The stack that a call on a run, gts_check, gts_windows or gts_rewrite needs, in bytes: the most that was measured is
 * 319,648 (README), rounded up. A thread whose stack is smaller must not make the call. The arrays have fixed sizes, and
 * recursion goes by depth, at most GTS_MAX_DEPTH. */
#define GTS_STACK_BYTES 327680

/* The stack that gts_synchronise needs: the most that was measured is 196,864 (README), rounded up. Recursion goes by
 * depth, at most GTS_MAX_DEPTH. */
#define GTS_SYNCHRONISE_STACK_BYTES 204800

/* The stack that gts_text needs: the most that was measured is 72,248 (README), with room to spare. Recursion goes by parts of a
 * text that stand in one another, in at most GTS_MAX_TEXT bytes. */
#define GTS_TEXT_STACK_BYTES 122880

/* Why a call refuses. */
enum gts_refusal {
    GTS_DONE = 0,
    /* the model */
    GTS_FILE_TOO_SHORT = 1,      /* under 10 bytes (an old file: 6) */
    GTS_TOO_MANY_NODES = 2,      /* N above 12,000 (an old file: 4,000) */
    GTS_TOO_MANY_VARIABLES = 37, /* S + F above 4,000; tried between 2 and 3 */
    GTS_WRONG_LENGTH = 3,        /* not 10 + 5 N bytes (an old file: 6 + 5 N); of an expression, its lengths differ */
    GTS_NODE_MISSING = 4,        /* a node is due past the N-th (of an expression, past its last) */
    GTS_TOO_DEEP = 5,            /* depth 33 */
    GTS_KIND_NOT_ALLOWED = 6,    /* a kind is not allowed where it stands */
    GTS_PARAMETER_NOT_ALLOWED = 7, /* a parameter or a variable is not allowed where it stands */
    GTS_NODES_LEFT_OVER = 8,
    /* what is lent */
    GTS_VALUES_TOO_SHORT = 9,    /* under S + F */
    GTS_SLICE_TOO_SHORT = 10,    /* marks or buffer under T, sizes under GTS_SIZES, kinds or parameters under GTS_TEXT_NODES,
                                    figures under three for each row, or `out` of gts_rewrite shorter than the model */
    GTS_NO_SUCH_TRANSITION = 11, /* T or above; also a member of a list */
    GTS_NO_SUCH_VARIABLE = 12,   /* S + F or above; also one in a text */
    /* the run */
    GTS_RUN_NOT_VALID = 20,      /* n above the history's length, one of the first n entries T or above, one of the first T marks
                                    above 2, or a value outside its ends (gts_first_outside tells the first such variable);
                                    in a log, a value of any row */
    GTS_HISTORY_FULL = 21,       /* n is the history's length */
    GTS_NOTHING_TO_UNDO = 22,    /* n is 0 */
    /* the step */
    GTS_GUARD_FALSE = 23,
    GTS_GUARD_ZERO_DIVISOR = 24, /* a divisor is 0 */
    GTS_GUARD_TOO_LARGE = 38,    /* a number is beyond 32 bits */
    GTS_ACTION_ZERO_DIVISOR = 25,
    GTS_ACTION_TOO_LARGE = 39,
    GTS_ACTION_OUTSIDE = 26,     /* a value outside its variable's ends */
    GTS_ACTION_CONFLICT = 27,    /* two different values for one variable */
    GTS_ASSERTION_ZERO_DIVISOR = 28,
    GTS_ASSERTION_TOO_LARGE = 40,
    GTS_ASSERTION_OUTSIDE = 29,
    GTS_ASSERTION_CONFLICT = 30,
    GTS_REPLAY_REFUSED = 31,     /* start, or one of the first n - 1 entries, cannot be fired again */
    /* the text */
    GTS_TEXT_NOT_IN_GRAMMAR = 32,
    GTS_TYPES_DO_NOT_FIT = 33,
    GTS_TEXT_TOO_LONG_OR_DEEP = 34, /* over GTS_MAX_TEXT bytes; or nodes deeper than GTS_MAX_DEPTH, which is tried last */
    /* the new model */
    GTS_NO_MEMBERS = 35,         /* mandatory and optional are both empty */
    GTS_NEW_MODEL_TOO_LARGE = 36, /* E or T would be above 65,535, N above GTS_MAX_NODES, a depth above GTS_MAX_DEPTH, or
                                    `out` is shorter than the new model */
    /* the log */
    GTS_NO_WINDOWS = 41          /* `window` is 0 or above GTS_MAX_WINDOW, S + F is 0, or `rows` is no whole number of rows */
};

/* The sizes S F E T N into the first five cells of `sizes`. Refuses by 1, 2, 37, 3 to 8, 10. */
uint8_t gts_check(const uint8_t *model, size_t len, uint32_t *sizes, size_t sizes_len);

/* The states take their initial values, then the assertion gives the flows theirs; the marks become those of the guards, n
 * becomes 0. `rounds` is how many rounds the assertion took, at most F + 1. Refuses by 1, 2, 37, 3 to 8, 9, 10, 28, 40, 29, 30. */
uint8_t gts_start(const uint8_t *model, size_t len, int32_t *values, size_t values_len, uint8_t *marks, size_t marks_len, size_t *n, size_t *rounds);

/* Guard, action, assertion, then the transition at place n of the history, n one higher; the marks become those of the
 * guards over the new values. Refuses by 1, 2, 37, 3 to 8, 9, 10, 11, 20, 21, 23, 24, 38, then 25, 39,
 * 26, 27, then 28, 40, 29, 30. */
uint8_t gts_fire(const uint8_t *model, size_t len, int32_t *values, size_t values_len, uint8_t *marks, size_t marks_len, uint16_t *history, size_t history_len, size_t *n, size_t transition, size_t *rounds);

/* The values become those of a start and of the first n - 1 entries of the history fired again, the marks those of the
 * guards over them; n one lower. The values and marks that were there are replaced, not compared.
 * Refuses by 1, 2, 37, 3 to 8, 9, 10, 20, 22, 31. */
uint8_t gts_undo(const uint8_t *model, size_t len, int32_t *values, size_t values_len, uint8_t *marks, size_t marks_len, const uint16_t *history, size_t history_len, size_t *n);

/* The first T of the run's marks into the first T cells of `buffer`. Refuses by 1, 2, 37, 3 to 8, 9, 10 (marks or buffer), 20. */
uint8_t gts_marks(const uint8_t *model, size_t len, const int32_t *values, size_t values_len, const uint8_t *marks, size_t marks_len, const uint16_t *history, size_t history_len, size_t n, uint8_t *buffer, size_t buffer_len);

/* The value of a variable. Refuses by 1, 2, 37, 3 to 8, 9, 10, 12, 20. */
uint8_t gts_value(const uint8_t *model, size_t len, const int32_t *values, size_t values_len, const uint8_t *marks, size_t marks_len, const uint16_t *history, size_t history_len, size_t n, size_t variable, int32_t *value);

/* The lowest transition whose guard is true: `found` is 1. Where there is none, `found` is 0 and `transition` keeps its
 * content. Refuses by 1, 2, 37, 3 to 8, 9, 10, 20. */
uint8_t gts_pick(const uint8_t *model, size_t len, const int32_t *values, size_t values_len, const uint8_t *marks, size_t marks_len, const uint16_t *history, size_t history_len, size_t n, size_t *transition, uint8_t *found);

/* The check of the values behind 20: the first variable whose value is outside its ends, lowest first, goes to `variable`,
 * and `found` is 1. Where all are within, `found` is 0 and `variable` keeps its content. `looked` is how many values were
 * looked at: that variable's number plus one, or S + F. A value outside is the answer and not 20. Refuses by 1, 2, 37, 3 to 8, 9. */
uint8_t gts_first_outside(const uint8_t *model, size_t len, const int32_t *values, size_t values_len, size_t *variable, uint8_t *found, size_t *looked);

/* The nodes of a text, which is an expression of either type: kinds and parameters as in a model, in prefix order, into
 * the first `count` cells of `kinds` and of `parameters`. In the text variables are v0, v1 and so on, numbers digits up to
 * 2147483647, both without leading zeros, Booleans true and false. The operators, tightest first:
 *   div(a,b) mod(a,b)   a * b   a + b, a - b   -a, +a   == != < <= > >=   not a   a and b   a or b   if a then b else c
 * Operators of one level group from the left, but a relation takes no relation; signs and not may repeat; a looser
 * operand needs parentheses. So -v0 + v1 is -(v0 + v1), and 1 + -2 is not in the grammar. A word is a longest run of
 * letters and digits, or a longest sign; spaces may stand around words. A minus sign gives 0 minus its operand, a plus
 * sign no node, but it wants a number; a > b and a >= b give b < a and b <= a; != gives not of equal.
 * Refuses by 1, 2, 37, 3 to 8, 34 (too long), 10, 32, 12, 33, 34 (too deep). */
uint8_t gts_text(const uint8_t *model, size_t len, const uint8_t *text, size_t text_len, uint8_t *kinds, size_t kinds_len, int32_t *parameters, size_t parameters_len, size_t *count);

/* The model with one transition more, for events that happen together: number T, under the new event E. Its guard: the
 * mandatory guards joined by `and`; where there are none, the optional guards joined by `or`; nested to the right, and one
 * guard stands alone. Its action: a block of the mandatory actions, then each optional action under its own guard, each in
 * the order of its list. A transition may be named several times, in both lists too. Variables, the other transitions with
 * their numbers and events, and the assertion stay. The new model goes into the first `new_len` cells of `out`.
 * A run goes on under the new model if its marks have a cell for the new transition, with a mark from 0 to 2 in it. That mark
 * is the guard's once a gts_start, gts_fire or gts_undo is done.
 * Refuses by 1, 2, 37, 3 to 8, 35, 11 (a member of either list), 36. */
uint8_t gts_synchronise(const uint8_t *model, size_t len, const size_t *mandatory, size_t mandatory_len, const size_t *optional, size_t optional_len, uint8_t *out, size_t out_len, size_t *new_len);

/* For every row of the log three cells of `figures`: in how many of the last `window` rows, this one included (fewer at the
 * beginning), the Boolean expression is true; the largest value that the number expression has there; and 1, or 0 and 0 where
 * it has none. A row in which an expression failed adds nothing to that figure. `count` is how many rows there are.
 * Refuses by 1, 2, 37, 3 to 8, then the Boolean expression by 3 (its lengths differ), 4 to 8, then the number expression likewise,
 * 41, 10 (under GTS_FIGURES cells for each row), 20 (a value outside its ends, in any row). */
uint8_t gts_windows(const uint8_t *model, size_t len, const uint8_t *condition_kinds, size_t condition_kinds_len, const int32_t *condition_parameters, size_t condition_parameters_len, const uint8_t *number_kinds, size_t number_kinds_len, const int32_t *number_parameters, size_t number_parameters_len, size_t window, const int32_t *rows, size_t rows_len, int32_t *figures, size_t figures_len, size_t *count);

/* An old file as a model: 5 N + 10 bytes into the first `new_len` cells of `out`. It runs as the old file did; GTS_MAX_OLD_BYTES
 * + 4 cells are enough for every one. Refuses by 1 to 8, by the limits of old files, then 10. */
uint8_t gts_rewrite(const uint8_t *old, size_t len, uint8_t *out, size_t out_len, size_t *new_len);

#ifdef __cplusplus
}
#endif

#endif
