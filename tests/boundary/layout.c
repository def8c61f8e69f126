/* The header held against the static library. At compile time: its structs, numbers, room sizes and prototypes are the ones that are written
 * here. At run time: the library's answers, read word by word, stand where the header's fields are and hold what they must hold; it gives each
 * of the header's refusal numbers for the fault that the number names, with the header's number of the list and the place of the edge where it is
 * about one; and the header's lengths and ranges are where it changes its answer.
 * Says what differs and ends with status 1, or says how much was held. */
#include "samburext.h"

#include <stdio.h>
#include <string.h>

#define AT(type, field, place) _Static_assert(offsetof(type, field) == 4 * (place), #type "." #field)

_Static_assert(sizeof(samburext_answer) == 68, "samburext_answer");
AT(samburext_answer, refusal, 0);
AT(samburext_answer, list, 1);
AT(samburext_answer, position, 2);
AT(samburext_answer, transform, 3);
AT(samburext_answer, row, 4);
AT(samburext_answer, col, 5);
AT(samburext_answer, hits, 6);
AT(samburext_answer, edges, 7);
AT(samburext_answer, weighted_score, 8);
AT(samburext_answer, error_rate, 9);
AT(samburext_answer, mean_confidence, 10);
AT(samburext_answer, best_score, 11);
AT(samburext_answer, runner_up_transform, 12);
AT(samburext_answer, runner_up_row, 13);
AT(samburext_answer, runner_up_col, 14);
AT(samburext_answer, runner_up_hits, 15);
AT(samburext_answer, margin_hits, 16);

_Static_assert(sizeof(samburext_exact_answer) == 80, "samburext_exact_answer");
AT(samburext_exact_answer, refusal, 0);
AT(samburext_exact_answer, list, 1);
AT(samburext_exact_answer, position, 2);
AT(samburext_exact_answer, transform, 3);
AT(samburext_exact_answer, row, 4);
AT(samburext_exact_answer, col, 5);
AT(samburext_exact_answer, hits, 6);
AT(samburext_exact_answer, edges, 7);
AT(samburext_exact_answer, error_rate, 8);
AT(samburext_exact_answer, runner_up_transform, 9);
AT(samburext_exact_answer, runner_up_row, 10);
AT(samburext_exact_answer, runner_up_col, 11);
AT(samburext_exact_answer, runner_up_hits, 12);
AT(samburext_exact_answer, margin_hits, 13);
AT(samburext_exact_answer, weight, 14);
AT(samburext_exact_answer, total, 16);
AT(samburext_exact_answer, runner_up_weight, 18);

_Static_assert(sizeof(samburext_soft_answer) == 84, "samburext_soft_answer");
AT(samburext_soft_answer, refusal, 0);
AT(samburext_soft_answer, list, 1);
AT(samburext_soft_answer, position, 2);
AT(samburext_soft_answer, transform, 3);
AT(samburext_soft_answer, row, 4);
AT(samburext_soft_answer, col, 5);
AT(samburext_soft_answer, hits, 6);
AT(samburext_soft_answer, edges, 7);
AT(samburext_soft_answer, weighted_score, 8);
AT(samburext_soft_answer, error_rate, 9);
AT(samburext_soft_answer, mean_confidence, 10);
AT(samburext_soft_answer, best_score, 11);
AT(samburext_soft_answer, second_transform, 12);
AT(samburext_soft_answer, second_row, 13);
AT(samburext_soft_answer, second_col, 14);
AT(samburext_soft_answer, second_score, 15);
AT(samburext_soft_answer, margin, 16);
AT(samburext_soft_answer, runner_up_transform, 17);
AT(samburext_soft_answer, runner_up_row, 18);
AT(samburext_soft_answer, runner_up_col, 19);
AT(samburext_soft_answer, runner_up_hits, 20);

_Static_assert(sizeof(samburext_located) == 44, "samburext_located");
AT(samburext_located, refusal, 0);
AT(samburext_located, list, 1);
AT(samburext_located, position, 2);
AT(samburext_located, transform, 3);
AT(samburext_located, row, 4);
AT(samburext_located, col, 5);
AT(samburext_located, hits, 6);
AT(samburext_located, runner_up_transform, 7);
AT(samburext_located, runner_up_row, 8);
AT(samburext_located, runner_up_col, 9);
AT(samburext_located, runner_up_hits, 10);

_Static_assert(sizeof(samburext_stats) == 28, "samburext_stats");
AT(samburext_stats, refusal, 0);
AT(samburext_stats, list, 1);
AT(samburext_stats, position, 2);
AT(samburext_stats, edges, 3);
AT(samburext_stats, hits, 4);
AT(samburext_stats, error_rate, 5);
AT(samburext_stats, mean_confidence, 6);

_Static_assert(SAMBUREXT_FOUND == 0, "found");
_Static_assert(SAMBUREXT_ROOM_TOO_SHORT == 1, "1");
_Static_assert(SAMBUREXT_LENGTHS_DIFFER == 2, "2");
_Static_assert(SAMBUREXT_LIST_SIZE == 3, "3");
_Static_assert(SAMBUREXT_BAD_COORDINATE == 4, "4");
_Static_assert(SAMBUREXT_BAD_ORIENTATION == 16, "16");
_Static_assert(SAMBUREXT_BAD_BIT == 17, "17");
_Static_assert(SAMBUREXT_BAD_CONFIDENCE == 5, "5");
_Static_assert(SAMBUREXT_BAD_LIKELIHOOD == 6, "6");
_Static_assert(SAMBUREXT_BAD_TRANSFORM == 7, "7");
_Static_assert(SAMBUREXT_BAD_TABLE == 8, "8");
_Static_assert(SAMBUREXT_BAD_SETTING == 9, "9");
_Static_assert(SAMBUREXT_NO_CONFIDENCE == 10, "10");
_Static_assert(SAMBUREXT_NONE_WITHIN_LIMIT == 11, "11");
_Static_assert(SAMBUREXT_LISTS_DISAGREE == 12, "12");
_Static_assert(SAMBUREXT_NOT_FAR_AHEAD == 13, "13");
_Static_assert(SAMBUREXT_SOFT_MARGIN == 14, "14");
_Static_assert(SAMBUREXT_SOFT_HARD_DISAGREE == 15, "15");
_Static_assert(SAMBUREXT_LOGICAL_LIST == 1 && SAMBUREXT_PHYSICAL_LIST == 2 && SAMBUREXT_ONLY_LIST == 3, "lists");
_Static_assert(SAMBUREXT_NOTHING == UINT32_MAX && SAMBUREXT_NO_WEIGHT == UINT64_MAX, "what a refusal holds");
_Static_assert(SAMBUREXT_UNITS == 1 << 24 && SAMBUREXT_NO_WEIGHT > (uint64_t)SAMBUREXT_UNITS * SAMBUREXT_MAX_EDGES, "units");
_Static_assert(SAMBUREXT_ROOM_COUNTS == 3006 && SAMBUREXT_ROOM_WEIGHTS == 3006 && SAMBUREXT_ROOM_SUMS == 5010, "room");
_Static_assert(SAMBUREXT_ROOM_UNITS == 3006 && SAMBUREXT_ROOM_UNITS_FOR(4) == 1539 && SAMBUREXT_ROOM_UNITS_FOR(167) == 3006, "room of units");
_Static_assert(SAMBUREXT_ROOM_UNITS_FOR(500) == 6003 && SAMBUREXT_ROOM_UNITS_FOR(1 + 3) - 1 == 1538, "room of units");
_Static_assert(SAMBUREXT_ROOM_COUNTS_FOR(4) == 1539 && SAMBUREXT_ROOM_WEIGHTS_FOR(4) == 1539 && SAMBUREXT_ROOM_SUMS_FOR(4) == 2565, "room of 4");
_Static_assert(SAMBUREXT_ROOM_COUNTS_FOR(167) == 3006 && SAMBUREXT_ROOM_WEIGHTS_FOR(167) == 3006 && SAMBUREXT_ROOM_SUMS_FOR(167) == 5010, "room of 167");
_Static_assert(SAMBUREXT_ROOM_COUNTS_FOR(500) == 6003 && SAMBUREXT_ROOM_WEIGHTS_FOR(500) == 6003 && SAMBUREXT_ROOM_SUMS_FOR(500) == 10005, "room of 500");
_Static_assert(SAMBUREXT_ROOM_COUNTS_FOR(1 + 3) == 1539 && SAMBUREXT_ROOM_SUMS_FOR(1 + 3) - 1 == 2564, "room of a sum, in a sum");
_Static_assert(SAMBUREXT_MIN_POLE_LENGTH == 4 && SAMBUREXT_MAX_POLE_LENGTH == 500, "pole lengths");
_Static_assert(SAMBUREXT_IS_POLE_LENGTH(4) && SAMBUREXT_IS_POLE_LENGTH(167) && SAMBUREXT_IS_POLE_LENGTH(500), "pole lengths");
_Static_assert(!SAMBUREXT_IS_POLE_LENGTH(0) && !SAMBUREXT_IS_POLE_LENGTH(3) && !SAMBUREXT_IS_POLE_LENGTH(168) && !SAMBUREXT_IS_POLE_LENGTH(501), "no poles");
_Static_assert(SAMBUREXT_BOARD_ROWS_FOR(4) == 12 && SAMBUREXT_BOARD_ROWS_FOR(167) == 501 && SAMBUREXT_BOARD_ROWS_FOR(500) == 1500, "rows");
_Static_assert(SAMBUREXT_TABLE_LENGTH == 167 && SAMBUREXT_MAX_EDGES == 8192 && SAMBUREXT_MAX_TRANSFORMS == 8, "limits");
_Static_assert(SAMBUREXT_BOARD_SQUARES == 501, "board");

/* The prototypes: a function of each type is the library's. */
samburext_answer (*const hard)(const int32_t *, size_t, const int32_t *, size_t, const uint8_t *, size_t, const uint8_t *, size_t, const float *, size_t,
                               const int32_t *, size_t, const int32_t *, size_t, const uint8_t *, size_t, const uint8_t *, size_t, const float *, size_t,
                               const uint8_t *, size_t, const uint8_t *, size_t, const uint8_t *, size_t, float, uint32_t *, size_t, float *,
                               size_t) = samburext_decode_hard;
samburext_exact_answer (*const exact)(const int32_t *, size_t, const int32_t *, size_t, const uint8_t *, size_t, const uint8_t *, size_t,
                                      const float *, size_t, const int32_t *, size_t, const int32_t *, size_t, const uint8_t *, size_t,
                                      const uint8_t *, size_t, const float *, size_t, const uint8_t *, size_t, const uint8_t *, size_t,
                                      const uint8_t *, size_t, float, uint32_t *, size_t, uint64_t *, size_t) = samburext_decode_exact;
samburext_soft_answer (*const soft)(const int32_t *, size_t, const int32_t *, size_t, const uint8_t *, size_t, const uint8_t *, size_t, const float *,
                                    size_t, const int32_t *, size_t, const int32_t *, size_t, const uint8_t *, size_t, const uint8_t *, size_t,
                                    const float *, size_t, const float *, size_t, const float *, size_t, const uint8_t *, size_t, const uint8_t *, size_t,
                                    const uint8_t *, size_t, float, float, uint32_t *, size_t, float *, size_t, int64_t *,
                                    size_t) = samburext_decode_soft;
samburext_located (*const locate)(const int32_t *, size_t, const int32_t *, size_t, const uint8_t *, size_t, const uint8_t *, size_t, const float *,
                                  size_t, const uint8_t *, size_t, const uint8_t *, size_t, const uint8_t *, size_t, float) = samburext_locate;
samburext_stats (*const stats)(const int32_t *, size_t, const int32_t *, size_t, const uint8_t *, size_t, const uint8_t *, size_t, const float *, size_t,
                               uint32_t, uint32_t, uint32_t, const uint8_t *, size_t, const uint8_t *, size_t) = samburext_match_stats;

/* ---- the library's own answers */

enum { CORNERS = 12, EDGES = 2 * CORNERS * (CORNERS - 1), FEWER = EDGES - 4, MISSES = 2, ROW = 123, COLUMN = 456 };

typedef struct list {
    int32_t rows[SAMBUREXT_MAX_EDGES + 1], columns[SAMBUREXT_MAX_EDGES + 1];
    uint8_t orientations[SAMBUREXT_MAX_EDGES + 1], bits[SAMBUREXT_MAX_EDGES + 1];
    float confidences[SAMBUREXT_MAX_EDGES + 1];
    size_t edges;
} list;

/* The board of the calls: the length of its horizontal table, and the row that the lists are seen at. */
static size_t length = SAMBUREXT_TABLE_LENGTH;
static int32_t seen_row = ROW;

/* One call: each of the five functions takes from it what it needs. */
static struct call {
    list logical, physical;
    float matches[SAMBUREXT_MAX_EDGES + 1], mismatches[SAMBUREXT_MAX_EDGES + 1];
    size_t likelihoods;
    uint8_t transforms[SAMBUREXT_MAX_TRANSFORMS + 1], horizontal[SAMBUREXT_MAX_POLE_LENGTH + 2], vertical[SAMBUREXT_TABLE_LENGTH + 1];
    size_t transforms_length, horizontal_length, vertical_length, counts_length, weights_length, units_length, sums_length;
    float error_limit, soft_margin;
    uint32_t transform, row, column;
} call;

static uint32_t counts[SAMBUREXT_ROOM_COUNTS_FOR(SAMBUREXT_MAX_POLE_LENGTH)];
static float weights[SAMBUREXT_ROOM_WEIGHTS_FOR(SAMBUREXT_MAX_POLE_LENGTH)];
static uint64_t units[SAMBUREXT_ROOM_UNITS_FOR(SAMBUREXT_MAX_POLE_LENGTH)];
static int64_t sums[SAMBUREXT_ROOM_SUMS_FOR(SAMBUREXT_MAX_POLE_LENGTH)];
static int held, failed;

static void hold(int good, const char *what)
{
    held++;
    if (!good) {
        failed++;
        printf("the header and the library differ: %s\n", what);
    }
}

/* The bit that the board predicts under transform 0, whose lookup is one row up for a horizontal edge and one column back for a vertical one. */
static uint8_t seen(int32_t row, int32_t column, uint8_t orientation, int32_t at_row)
{
    if (orientation == 0)
        return (uint8_t)(call.horizontal[(size_t)(row - 1 + at_row) % length] >> (column + COLUMN) % 3 & 1);
    return (uint8_t)(call.vertical[(column - 1 + COLUMN) % 167] >> (row + at_row) % 3 & 1);
}

static void fill_list(list *to, int32_t at_row)
{
    size_t n = 0;
    for (uint8_t orientation = 0; orientation < 2; orientation++)
        for (int32_t row = 0; row < CORNERS - orientation; row++)
            for (int32_t column = 0; column < CORNERS - 1 + orientation; column++, n++) {
                to->rows[n] = row;
                to->columns[n] = column;
                to->orientations[n] = orientation;
                to->bits[n] = seen(row, column, orientation, at_row);
                to->confidences[n] = 0.75f;
            }
    to->edges = n;
}

/* A call that all five functions take: a clean logical list but for two wrong bits, and a physical list that is four edges shorter. A vertical
 * edge says less by its likelihoods than a horizontal one, so that the second by likelihood is another square than the runner-up by hits. */
static void fill_call(void)
{
    uint32_t state = 12345u;
    memset(&call, 0, sizeof call);
    for (size_t i = 0; i < length + SAMBUREXT_TABLE_LENGTH; i++) {
        state = state * 1664525u + 1013904223u;
        *(i < length ? &call.horizontal[i] : &call.vertical[i - length]) = (uint8_t)((state >> 24) % 8);
    }
    fill_list(&call.logical, seen_row);
    fill_list(&call.physical, seen_row);
    call.physical.edges = FEWER;
    for (int i = 0; i < MISSES; i++)
        call.logical.bits[7 + i] ^= 1;
    for (int i = 0; i <= SAMBUREXT_MAX_EDGES; i++) {
        call.matches[i] = -0.125f;
        call.mismatches[i] = i < EDGES / 2 ? -2.5f : -1.5f;
    }
    call.likelihoods = FEWER;
    for (uint8_t i = 0; i <= SAMBUREXT_MAX_TRANSFORMS; i++)
        call.transforms[i] = i % SAMBUREXT_MAX_TRANSFORMS;
    call.transforms_length = SAMBUREXT_MAX_TRANSFORMS;
    call.horizontal_length = length;
    call.vertical_length = SAMBUREXT_TABLE_LENGTH;
    call.counts_length = SAMBUREXT_ROOM_COUNTS_FOR(length);
    call.weights_length = SAMBUREXT_ROOM_WEIGHTS_FOR(length);
    call.units_length = SAMBUREXT_ROOM_UNITS_FOR(length);
    call.sums_length = SAMBUREXT_ROOM_SUMS_FOR(length);
    call.error_limit = 0.25f;
    call.soft_margin = 0.125f;
    call.row = (uint32_t)seen_row;
    call.column = COLUMN;
}

#define LIST(l) (l).rows, (l).edges, (l).columns, (l).edges, (l).orientations, (l).edges, (l).bits, (l).edges, (l).confidences, (l).edges
#define TABLES call.horizontal, call.horizontal_length, call.vertical, call.vertical_length

static samburext_answer run_hard(void)
{
    return hard(LIST(call.logical), LIST(call.physical), call.transforms, call.transforms_length, TABLES, call.error_limit, counts,
                call.counts_length, weights, call.weights_length);
}

static samburext_exact_answer run_exact(void)
{
    return exact(LIST(call.logical), LIST(call.physical), call.transforms, call.transforms_length, TABLES, call.error_limit, counts,
                 call.counts_length, units, call.units_length);
}

static samburext_soft_answer run_soft(void)
{
    return soft(LIST(call.logical), LIST(call.physical), call.matches, call.likelihoods, call.mismatches, call.likelihoods, call.transforms,
                call.transforms_length, TABLES, call.error_limit, call.soft_margin, counts, call.counts_length, weights, call.weights_length,
                sums, call.sums_length);
}

static samburext_located run_locate(const list *of)
{
    return locate(LIST(*of), call.transforms, call.transforms_length, TABLES, call.error_limit);
}

/* Hard decode of one list with itself, in room for every board. */
static samburext_answer run_hard_twice(const list *of)
{
    return hard(LIST(*of), LIST(*of), call.transforms, call.transforms_length, TABLES, call.error_limit, counts, sizeof counts / sizeof *counts,
                weights, sizeof weights / sizeof *weights);
}

static samburext_stats run_stats(const list *of, uint32_t transform, uint32_t row, uint32_t column)
{
    return stats(LIST(*of), transform, row, column, TABLES);
}

static float number(uint32_t word)
{
    float x;
    memcpy(&x, &word, sizeof x);
    return x;
}

/* The first twelve words of a found answer, which hard and soft decode have alike. What a field must hold is worked out here. */
static void found(const uint32_t *w, const list *of, float score, float best, const char *what)
{
    uint32_t misses = of == &call.logical ? MISSES : 0, edges = (uint32_t)of->edges;
    hold(w[0] == SAMBUREXT_FOUND && w[1] == SAMBUREXT_NOTHING && w[2] == SAMBUREXT_NOTHING, what);
    hold(w[3] == 0 && w[4] == ROW && w[5] == COLUMN && w[6] == edges - misses && w[7] == edges, what);
    hold(number(w[8]) == score && number(w[9]) == (float)misses / (float)edges && number(w[10]) == 0.75f && number(w[11]) == best, what);
}

/* Four words of a found answer are a runner-up: a transform, a row and a column other than those found, and the hits of the logical list there, by
 * match statistics. */
static void runner_up(const uint32_t *w, const char *what)
{
    samburext_stats there = run_stats(&call.logical, w[0], w[1], w[2]);
    hold(w[0] != 0 || w[1] != ROW || w[2] != COLUMN, what);
    hold(there.refusal == SAMBUREXT_FOUND && there.hits == w[3] && w[3] < EDGES - MISSES, what);
}

/* A found exact answer: the square and the runner-up by hits, and what their hits and the whole list weigh. Each edge weighs three quarters of 2^24. */
static void found_exact(const samburext_exact_answer *e, const char *what)
{
    const uint64_t each = 12582912;
    uint32_t w[sizeof *e / 4];
    memcpy(w, e, sizeof *e);
    hold(w[0] == SAMBUREXT_FOUND && w[1] == SAMBUREXT_NOTHING && w[2] == SAMBUREXT_NOTHING, what);
    hold(w[3] == 0 && w[4] == ROW && w[5] == COLUMN && w[6] == EDGES - MISSES && w[7] == EDGES, what);
    hold(number(w[8]) == (float)MISSES / EDGES && w[13] == w[6] - w[12], what);
    runner_up(w + 9, what);
    hold(e->weight == each * (EDGES - MISSES) && e->total == each * EDGES && e->runner_up_weight == each * e->runner_up_hits, what);
}

/* The log likelihood of the physical list at a square, by match statistics of its horizontal and of its vertical edges: a miss costs more of the one
 * than of the other. All terms are eighths, so that the sum is exact. */
static float total(uint32_t transform, uint32_t row, uint32_t column)
{
    list part = call.physical;
    part.edges = EDGES / 2;
    samburext_stats all = run_stats(&call.physical, transform, row, column), across = run_stats(&part, transform, row, column);
    float hits = (float)all.hits, misses = (float)(part.edges - across.hits);
    return -0.125f * hits - 2.5f * misses - 1.5f * ((float)all.edges - hits - misses);
}

/* The words of a found soft answer that are its own: the second by likelihood with its total, their margin, and the runner-up, which is another square
 * here. Neither is better than the other by the other's measure. */
static void found_soft(const uint32_t *w, const char *what)
{
    hold(w[12] != 0 || w[13] != ROW || w[14] != COLUMN, what);
    hold(number(w[15]) == total(w[12], w[13], w[14]) && number(w[15]) < number(w[11]), what);
    hold(number(w[16]) == (number(w[11]) - number(w[15])) / (float)w[7], what);
    runner_up(w + 17, what);
    hold(w[12] != w[17] || w[13] != w[18] || w[14] != w[19], what);
    hold(total(w[17], w[18], w[19]) < number(w[15]) && run_stats(&call.logical, w[12], w[13], w[14]).hits < w[20], what);
}

/* Whether word i of a struct of this size is a float. */
static int is_float(size_t size, size_t i)
{
    if (size == sizeof(samburext_stats))
        return i > 4;
    if (size == sizeof(samburext_exact_answer))
        return i == 8;
    if (size == sizeof(samburext_located))
        return 0;
    return (i > 7 && i < 12) || (size == sizeof(samburext_soft_answer) && (i == 15 || i == 16));
}

/* A refused answer of so many words: the number, the list and the position, and nothing else in any of them. The two words of a weight that is none are
 * what two whole numbers that are none are. */
static int only(const void *answer, size_t size, uint32_t refusal, uint32_t list, uint32_t position)
{
    uint32_t w[sizeof(samburext_soft_answer) / 4];
    memcpy(w, answer, size);
    int good = w[0] == refusal && w[1] == list && w[2] == position;
    for (size_t i = 3; i < size / 4; i++)
        good = good && (is_float(size, i) ? number(w[i]) != number(w[i]) : w[i] == SAMBUREXT_NOTHING);
    return good;
}

/* The edge that the call's refusals are about: its list, as hard and soft decode have it, and its place there. */
static uint32_t at_list = SAMBUREXT_NOTHING, at_position = SAMBUREXT_NOTHING;

static void at(uint32_t list, uint32_t position) { at_list = list, at_position = position; }

/* Locate says of a list what hard decode says of it with itself, in any room: the same refusal, about the same edge of the only list, or the same square
 * with the same hits, and a runner-up with as many hits. */
static void as_with_tables(const list *of, const char *what)
{
    samburext_located l = run_locate(of);
    samburext_answer h = run_hard_twice(of);
    uint32_t one = h.list == SAMBUREXT_NOTHING ? SAMBUREXT_NOTHING : (uint32_t)SAMBUREXT_ONLY_LIST;
    if (h.refusal != SAMBUREXT_FOUND) {
        hold(only(&l, sizeof l, h.refusal, one, h.position), what);
        return;
    }
    hold(l.refusal == SAMBUREXT_FOUND && l.list == SAMBUREXT_NOTHING && l.position == SAMBUREXT_NOTHING, what);
    hold(l.transform == h.transform && l.row == h.row && l.col == h.col && l.hits == h.hits && l.runner_up_hits == h.runner_up_hits, what);
    hold(run_stats(of, l.runner_up_transform, l.runner_up_row, l.runner_up_col).hits == l.runner_up_hits, what);
}

/* What the call as it stands must be: 0 or a refusal's number, by hard decode, by exact decode, by soft decode and by match statistics of the physical
 * list; OTHER where this does not matter. Locate is held to hard decode of either list. The call is made good again. */
enum { OTHER = 99 };

static void expect_each(uint32_t by_hard, uint32_t by_exact, uint32_t by_soft, uint32_t by_stats, const char *what)
{
    samburext_answer h = run_hard();
    samburext_exact_answer e = run_exact();
    samburext_soft_answer s = run_soft();
    samburext_stats m = run_stats(&call.physical, call.transform, call.row, call.column);
    uint32_t one = at_list == SAMBUREXT_NOTHING ? SAMBUREXT_NOTHING : (uint32_t)SAMBUREXT_ONLY_LIST;
    hold(by_hard == OTHER || (by_hard == SAMBUREXT_FOUND ? h.refusal == 0 : only(&h, sizeof h, by_hard, at_list, at_position)), what);
    hold(by_exact == OTHER || (by_exact == SAMBUREXT_FOUND ? e.refusal == 0 : only(&e, sizeof e, by_exact, at_list, at_position)), what);
    hold(by_soft == OTHER || (by_soft == SAMBUREXT_FOUND ? s.refusal == 0 : only(&s, sizeof s, by_soft, at_list, at_position)), what);
    hold(by_stats == OTHER || (by_stats == SAMBUREXT_FOUND ? m.refusal == 0 : only(&m, sizeof m, by_stats, one, at_position)), what);
    as_with_tables(&call.logical, what);
    as_with_tables(&call.physical, what);
    at(SAMBUREXT_NOTHING, SAMBUREXT_NOTHING);
    fill_call();
}

/* The same where exact decode says what hard decode says. */
static void expect(uint32_t by_hard, uint32_t by_soft, uint32_t by_stats, const char *what) { expect_each(by_hard, by_hard, by_soft, by_stats, what); }

static void both(uint32_t refusal, const char *what) { expect(refusal, refusal, OTHER, what); }
static void all(uint32_t refusal, const char *what) { expect(refusal, refusal, refusal, what); }

static void long_lists(size_t edges)
{
    for (size_t i = FEWER; i < edges; i++) {
        call.physical.rows[i] = call.physical.rows[0];
        call.physical.columns[i] = call.physical.columns[0];
        call.physical.orientations[i] = call.physical.orientations[0];
        call.physical.bits[i] = call.physical.bits[0];
        call.physical.confidences[i] = 0.75f;
    }
    call.physical.edges = call.likelihoods = edges;
    call.soft_margin = 0; /* one edge again and again leaves little of it */
}

/* A logical list whose edges all have one confidence. */
static void small_confidences(float confidence)
{
    for (size_t i = 0; i < call.logical.edges; i++)
        call.logical.confidences[i] = confidence;
}

/* One bad edge of each kind, at a place of the logical list and of the physical one. Statistics are of the physical list. */
static void bad_edges(uint32_t i)
{
    for (uint32_t l = SAMBUREXT_LOGICAL_LIST; l <= SAMBUREXT_PHYSICAL_LIST; l++) {
        list *of = l == SAMBUREXT_LOGICAL_LIST ? &call.logical : &call.physical;
        void (*bad)(uint32_t, const char *) = l == SAMBUREXT_LOGICAL_LIST ? both : all;
        at(l, i), of->rows[i] = 1000001, bad(SAMBUREXT_BAD_COORDINATE, "a row");
        at(l, i), of->columns[i] = -1000001, bad(SAMBUREXT_BAD_COORDINATE, "a column");
        at(l, i), of->orientations[i] = 2, bad(SAMBUREXT_BAD_ORIENTATION, "an orientation");
        at(l, i), of->bits[i] = 2, bad(SAMBUREXT_BAD_BIT, "a bit");
        at(l, i), of->confidences[i] = 1.5f, bad(SAMBUREXT_BAD_CONFIDENCE, "a confidence");
    }
    at(SAMBUREXT_PHYSICAL_LIST, i), call.matches[i] = 65537;
    expect(SAMBUREXT_FOUND, SAMBUREXT_BAD_LIKELIHOOD, SAMBUREXT_FOUND, "a likelihood");
    at(SAMBUREXT_PHYSICAL_LIST, i), call.mismatches[i] = -65537;
    expect(SAMBUREXT_FOUND, SAMBUREXT_BAD_LIKELIHOOD, SAMBUREXT_FOUND, "a mismatch likelihood");
}

/* The order of the refusals: a physical edge that is bad in each of two ways, and a logical edge that is bad in the later one. */
static void orders(void)
{
    list *l = &call.logical, *p = &call.physical;
    at(SAMBUREXT_PHYSICAL_LIST, 9), p->rows[9] = 1000001, p->orientations[3] = l->orientations[2] = 2, all(SAMBUREXT_BAD_COORDINATE, "4 before 16");
    at(SAMBUREXT_PHYSICAL_LIST, 9), p->orientations[9] = 2, p->bits[3] = l->bits[2] = 2, all(SAMBUREXT_BAD_ORIENTATION, "16 before 17");
    at(SAMBUREXT_PHYSICAL_LIST, 9), p->bits[9] = 2, p->confidences[3] = l->confidences[2] = 2, all(SAMBUREXT_BAD_BIT, "17 before 5");
    at(SAMBUREXT_PHYSICAL_LIST, 3), p->bits[9] = p->bits[3] = 2, all(SAMBUREXT_BAD_BIT, "the first of two");
    at(SAMBUREXT_LOGICAL_LIST, 9), l->bits[9] = p->bits[3] = 2, both(SAMBUREXT_BAD_BIT, "the logical list first");
}

/* A pole's board, seen from its last row on, over the seam: found there, in room that has just the length that the header says, and its rows end there. */
static void pole(size_t pole_length)
{
    length = pole_length;
    seen_row = (int32_t)SAMBUREXT_BOARD_ROWS_FOR(length) - 1;
    fill_call();
    samburext_answer h = run_hard();
    samburext_soft_answer s = run_soft();
    hold(h.refusal == 0 && h.transform == 0 && h.row == call.row && h.col == COLUMN && h.hits == EDGES - MISSES, "a pole, hard");
    hold(s.refusal == 0 && s.transform == 0 && s.row == call.row && s.col == COLUMN && s.hits == FEWER, "a pole, soft");
    samburext_exact_answer e = run_exact();
    hold(e.refusal == 0 && e.transform == 0 && e.row == call.row && e.col == COLUMN && e.hits == EDGES - MISSES, "a pole, exact");
    samburext_located l = run_locate(&call.logical);
    hold(l.refusal == 0 && l.transform == 0 && l.row == call.row && l.col == COLUMN && l.hits == EDGES - MISSES, "a pole, locate");
    hold(run_stats(&call.logical, 0, call.row, COLUMN).hits == EDGES - MISSES, "a pole, statistics");
    all(SAMBUREXT_FOUND, "a pole");
    call.counts_length--, both(SAMBUREXT_ROOM_TOO_SHORT, "SAMBUREXT_ROOM_COUNTS_FOR");
    call.weights_length--, expect_each(SAMBUREXT_ROOM_TOO_SHORT, SAMBUREXT_FOUND, SAMBUREXT_ROOM_TOO_SHORT, OTHER, "SAMBUREXT_ROOM_WEIGHTS_FOR");
    call.units_length--, expect_each(SAMBUREXT_FOUND, SAMBUREXT_ROOM_TOO_SHORT, SAMBUREXT_FOUND, OTHER, "SAMBUREXT_ROOM_UNITS_FOR");
    call.sums_length--, expect(SAMBUREXT_FOUND, SAMBUREXT_ROOM_TOO_SHORT, SAMBUREXT_FOUND, "SAMBUREXT_ROOM_SUMS_FOR");
    call.row++, expect(SAMBUREXT_FOUND, SAMBUREXT_FOUND, SAMBUREXT_BAD_SETTING, "SAMBUREXT_BOARD_ROWS_FOR");
    call.vertical_length--, all(SAMBUREXT_BAD_TABLE, "a pole's vertical table");
    call.horizontal[length - 1] = 8, all(SAMBUREXT_BAD_TABLE, "a pole's last pattern");
    length = SAMBUREXT_TABLE_LENGTH;
    seen_row = ROW;
    fill_call();
}

/* A length that no pole has: 8, and before it 1 where the room is too short for the smallest pole. */
static void no_pole(size_t bad)
{
    for (size_t less = 0; less < 2; less++) {
        call.horizontal_length = bad;
        call.counts_length = SAMBUREXT_ROOM_COUNTS_FOR(SAMBUREXT_MIN_POLE_LENGTH) - less;
        expect(less ? SAMBUREXT_ROOM_TOO_SHORT : SAMBUREXT_BAD_TABLE, less ? SAMBUREXT_ROOM_TOO_SHORT : SAMBUREXT_BAD_TABLE, SAMBUREXT_BAD_TABLE,
               "no pole, counts");
        call.horizontal_length = bad;
        call.units_length = SAMBUREXT_ROOM_UNITS_FOR(SAMBUREXT_MIN_POLE_LENGTH) - less;
        expect_each(SAMBUREXT_BAD_TABLE, less ? SAMBUREXT_ROOM_TOO_SHORT : SAMBUREXT_BAD_TABLE, SAMBUREXT_BAD_TABLE, SAMBUREXT_BAD_TABLE,
                    "no pole, units");
        call.horizontal_length = bad;
        call.sums_length = SAMBUREXT_ROOM_SUMS_FOR(SAMBUREXT_MIN_POLE_LENGTH) - less;
        expect(SAMBUREXT_BAD_TABLE, less ? SAMBUREXT_ROOM_TOO_SHORT : SAMBUREXT_BAD_TABLE, SAMBUREXT_BAD_TABLE, "no pole, sums");
    }
}

int main(void)
{
    uint32_t w[sizeof(samburext_soft_answer) / 4];
    fill_call();
    samburext_answer h = run_hard();
    memcpy(w, &h, sizeof h);
    found(w, &call.logical, 0.75f * (EDGES - MISSES) / (0.75f * EDGES), 0.75f * (EDGES - MISSES) / (0.75f * EDGES), "hard, found");
    runner_up(w + 12, "hard, runner-up");
    hold(w[16] == w[6] - w[15], "hard, margin in hits");
    samburext_exact_answer e = run_exact();
    found_exact(&e, "exact, found");
    samburext_located l = run_locate(&call.logical);
    memcpy(w, &l, sizeof l);
    hold(w[0] == SAMBUREXT_FOUND && w[1] == SAMBUREXT_NOTHING && w[2] == SAMBUREXT_NOTHING, "locate, found");
    hold(w[3] == 0 && w[4] == ROW && w[5] == COLUMN && w[6] == EDGES - MISSES, "locate, square and hits");
    runner_up(w + 7, "locate, runner-up");
    samburext_soft_answer s = run_soft();
    memcpy(w, &s, sizeof s);
    found(w, &call.physical, -0.125f, -0.125f * FEWER, "soft, found");
    found_soft(w, "soft, second and runner-up");
    samburext_stats m = run_stats(&call.logical, 0, ROW, COLUMN);
    memcpy(w, &m, sizeof m);
    hold(w[0] == 0 && w[1] == SAMBUREXT_NOTHING && w[2] == SAMBUREXT_NOTHING && w[3] == EDGES && w[4] == EDGES - MISSES, "statistics");
    hold(number(w[5]) == (float)MISSES / EDGES && number(w[6]) == 0.75f, "statistics");
    all(SAMBUREXT_FOUND, "a call that is taken");

    call.counts_length--, both(SAMBUREXT_ROOM_TOO_SHORT, "SAMBUREXT_ROOM_COUNTS");
    call.weights_length--, expect_each(SAMBUREXT_ROOM_TOO_SHORT, SAMBUREXT_FOUND, SAMBUREXT_ROOM_TOO_SHORT, OTHER, "SAMBUREXT_ROOM_WEIGHTS");
    call.units_length--, expect_each(SAMBUREXT_FOUND, SAMBUREXT_ROOM_TOO_SHORT, SAMBUREXT_FOUND, OTHER, "SAMBUREXT_ROOM_UNITS");
    call.sums_length--, expect(SAMBUREXT_FOUND, SAMBUREXT_ROOM_TOO_SHORT, SAMBUREXT_FOUND, "SAMBUREXT_ROOM_SUMS");
    call.likelihoods--, expect(SAMBUREXT_FOUND, SAMBUREXT_LENGTHS_DIFFER, SAMBUREXT_FOUND, "SAMBUREXT_LENGTHS_DIFFER");
    call.logical.edges = 0, both(SAMBUREXT_LIST_SIZE, "an empty list");
    long_lists(SAMBUREXT_MAX_EDGES), all(SAMBUREXT_FOUND, "SAMBUREXT_MAX_EDGES");
    long_lists(SAMBUREXT_MAX_EDGES + 1), all(SAMBUREXT_LIST_SIZE, "SAMBUREXT_MAX_EDGES and one");
    bad_edges(0);
    bad_edges(100);
    bad_edges(FEWER - 1);
    orders();
    call.transforms_length++, both(SAMBUREXT_BAD_TRANSFORM, "SAMBUREXT_MAX_TRANSFORMS");
    call.transform = 8, expect(SAMBUREXT_FOUND, SAMBUREXT_FOUND, SAMBUREXT_BAD_TRANSFORM, "a transform");
    call.horizontal_length++, all(SAMBUREXT_BAD_TABLE, "SAMBUREXT_TABLE_LENGTH, horizontal");
    call.vertical_length--, all(SAMBUREXT_BAD_TABLE, "SAMBUREXT_TABLE_LENGTH, vertical");
    pole(SAMBUREXT_MIN_POLE_LENGTH), pole(100), pole(SAMBUREXT_TABLE_LENGTH), pole(SAMBUREXT_MAX_POLE_LENGTH);
    no_pole(0), no_pole(3), no_pole(SAMBUREXT_TABLE_LENGTH + 1), no_pole(SAMBUREXT_MAX_POLE_LENGTH + 1);
    call.error_limit = 1.5f, both(SAMBUREXT_BAD_SETTING, "an error limit");
    call.soft_margin = -1, expect(SAMBUREXT_FOUND, SAMBUREXT_BAD_SETTING, SAMBUREXT_FOUND, "a soft margin");
    call.row = call.column = SAMBUREXT_BOARD_SQUARES - 1, all(SAMBUREXT_FOUND, "the last square");
    call.row = SAMBUREXT_BOARD_SQUARES, expect(SAMBUREXT_FOUND, SAMBUREXT_FOUND, SAMBUREXT_BAD_SETTING, "SAMBUREXT_BOARD_SQUARES, row");
    call.column = SAMBUREXT_BOARD_SQUARES, expect(SAMBUREXT_FOUND, SAMBUREXT_FOUND, SAMBUREXT_BAD_SETTING, "SAMBUREXT_BOARD_SQUARES, column");

    memset(call.logical.confidences, 0, sizeof call.logical.confidences), both(SAMBUREXT_NO_CONFIDENCE, "no confidence");
    small_confidences(1.0f / 33554432), expect_each(SAMBUREXT_FOUND, SAMBUREXT_FOUND, SAMBUREXT_FOUND, OTHER, "confidences of 2^-25");
    small_confidences(1.0f / 67108864), expect_each(SAMBUREXT_FOUND, SAMBUREXT_NO_CONFIDENCE, SAMBUREXT_FOUND, OTHER, "confidences of 2^-26");
    call.error_limit = 0, both(SAMBUREXT_NONE_WITHIN_LIMIT, "a limit of no misses");
    fill_list(&call.physical, ROW + 7), call.likelihoods = EDGES;
    expect(SAMBUREXT_LISTS_DISAGREE, SAMBUREXT_SOFT_HARD_DISAGREE, SAMBUREXT_FOUND, "a physical list of another square");
    call.transforms[1] = 0, call.soft_margin = 0, both(SAMBUREXT_NOT_FAR_AHEAD, "a transform listed twice");
    call.soft_margin = 65536, expect(SAMBUREXT_FOUND, SAMBUREXT_SOFT_MARGIN, SAMBUREXT_FOUND, "a soft margin that no call has");

    printf("%d of %d hold\n", held - failed, held);
    return failed != 0;
}
