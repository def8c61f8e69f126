/* A window of a small made-up board, decoded by hits (hard), by hits and weights that add without rounding (exact), by hits without room (locate) and
 * by likelihoods (soft): each once as it is, and once so that it is refused, by an error limit that no call takes, by confidences that are too small
 * to weigh anything, by a transform that is listed twice, and by a soft margin that no window has; and once more by hits, and by hits without room,
 * with one bit that is none. It prints all ten answers whole, so that what a refusal holds can be seen, and how the window fits its square; and last a
 * window of a target that is wrapped round a pole. Compiled and run by .ci/tests/boundary, which compares what it prints. */
#include "samburext.h"

#include <inttypes.h>
#include <stdio.h>

enum { CORNERS = 12, EDGES = 2 * CORNERS * (CORNERS - 1), ROW = 123, COLUMN = 456, POLE = 200, POLE_ROW = 3 * POLE - 5 };

static uint8_t horizontal[SAMBUREXT_TABLE_LENGTH], vertical[SAMBUREXT_TABLE_LENGTH], pole[POLE];
static int32_t rows[EDGES], columns[EDGES];
static uint8_t orientations[EDGES], bits[EDGES];
static float confidences[EDGES], matches[EDGES], mismatches[EDGES];
static uint32_t counts[SAMBUREXT_ROOM_COUNTS_FOR(POLE)]; /* the longer board's room serves both */
static float weights[SAMBUREXT_ROOM_WEIGHTS_FOR(POLE)];
static uint64_t units[SAMBUREXT_ROOM_UNITS];
static int64_t sums[SAMBUREXT_ROOM_SUMS];
static const uint8_t transforms[] = {0, 1, 2, 3}, twice[] = {0, 0};

/* A pattern table of three-bit patterns from a small generator. */
static uint32_t fill_table(uint8_t *table, int length, uint32_t state)
{
    for (int i = 0; i < length; i++) {
        state = state * 1664525u + 1013904223u;
        table[i] = (uint8_t)((state >> 24) % 8);
    }
    return state;
}

/* The bit of an edge that a camera sees which faces column COLUMN and this row of a board upright: transform 0, whose lookup is one row up
 * for a horizontal edge and one column back for a vertical one. The horizontal table has a length of its own on a pole. */
static uint8_t seen(const uint8_t *table, int length, int at_row, int32_t row, int32_t column, uint8_t orientation)
{
    if (orientation == 0)
        return (uint8_t)(table[(row - 1 + at_row) % length] >> (column + COLUMN) % 3 & 1);
    return (uint8_t)(vertical[(column - 1 + COLUMN) % 167] >> (row + at_row) % 3 & 1);
}

static void fill_window(const uint8_t *table, int length, int at_row)
{
    int n = 0;
    for (uint8_t orientation = 0; orientation < 2; orientation++)
        for (int32_t row = 0; row < CORNERS - orientation; row++)
            for (int32_t column = 0; column < CORNERS - 1 + orientation; column++, n++) {
                rows[n] = row;
                columns[n] = column;
                orientations[n] = orientation;
                bits[n] = seen(table, length, at_row, row, column, orientation);
                confidences[n] = 0.75f;
                matches[n] = -0.125f; /* the logarithm of how likely this reading is if the board has this bit here, */
                mismatches[n] = orientation == 0 ? -3.0f : -2.0f; /* and if it has the other; each edge may have its own */
            }
}

static const char *float_or_nan(float x, char text[32])
{
    snprintf(text, 32, "%.4f", x);
    return x == x ? text : "nan";
}

static void print_whole(const char *name, uint32_t x) { printf("  %s %u\n", name, (unsigned)x); }

static void print_weight(const char *name, uint64_t x) { printf("  %s %" PRIu64 "\n", name, x); }

static void print_float(const char *name, float x)
{
    char text[32];
    printf("  %s %s\n", name, float_or_nan(x, text));
}

/* Hits are counts, so the lead over the runner-up is a count too. */
static void print_hard(const samburext_answer *a)
{
    printf("hard: %s\n", a->refusal == SAMBUREXT_FOUND ? "found" : "refused");
    print_whole("refusal", a->refusal);
    print_whole("list", a->list);
    print_whole("position", a->position);
    print_whole("transform", a->transform);
    print_whole("row", a->row);
    print_whole("col", a->col);
    print_whole("hits", a->hits);
    print_whole("edges", a->edges);
    print_float("weighted_score", a->weighted_score);
    print_float("error_rate", a->error_rate);
    print_float("mean_confidence", a->mean_confidence);
    print_float("best_score", a->best_score);
    print_whole("runner_up_transform", a->runner_up_transform);
    print_whole("runner_up_row", a->runner_up_row);
    print_whole("runner_up_col", a->runner_up_col);
    print_whole("runner_up_hits", a->runner_up_hits);
    print_whole("margin_hits", a->margin_hits);
}

/* Weights are whole numbers here: SAMBUREXT_UNITS of them are a confidence of 1. */
static void print_exact(const samburext_exact_answer *a)
{
    printf("exact: %s\n", a->refusal == SAMBUREXT_FOUND ? "found" : "refused");
    print_whole("refusal", a->refusal);
    print_whole("list", a->list);
    print_whole("position", a->position);
    print_whole("transform", a->transform);
    print_whole("row", a->row);
    print_whole("col", a->col);
    print_whole("hits", a->hits);
    print_whole("edges", a->edges);
    print_float("error_rate", a->error_rate);
    print_whole("runner_up_transform", a->runner_up_transform);
    print_whole("runner_up_row", a->runner_up_row);
    print_whole("runner_up_col", a->runner_up_col);
    print_whole("runner_up_hits", a->runner_up_hits);
    print_whole("margin_hits", a->margin_hits);
    print_weight("weight", a->weight);
    print_weight("total", a->total);
    print_weight("runner_up_weight", a->runner_up_weight);
}

/* Whole numbers alone: there is no score. */
static void print_located(const samburext_located *a)
{
    printf("locate: %s\n", a->refusal == SAMBUREXT_FOUND ? "found" : "refused");
    print_whole("refusal", a->refusal);
    print_whole("list", a->list);
    print_whole("position", a->position);
    print_whole("transform", a->transform);
    print_whole("row", a->row);
    print_whole("col", a->col);
    print_whole("hits", a->hits);
    print_whole("runner_up_transform", a->runner_up_transform);
    print_whole("runner_up_row", a->runner_up_row);
    print_whole("runner_up_col", a->runner_up_col);
    print_whole("runner_up_hits", a->runner_up_hits);
}

/* Scores and the margin are log likelihoods here; the second by these is another square than the runner-up by hits. */
static void print_soft(const samburext_soft_answer *a)
{
    printf("soft: %s\n", a->refusal == SAMBUREXT_FOUND ? "found" : "refused");
    print_whole("refusal", a->refusal);
    print_whole("list", a->list);
    print_whole("position", a->position);
    print_whole("transform", a->transform);
    print_whole("row", a->row);
    print_whole("col", a->col);
    print_whole("hits", a->hits);
    print_whole("edges", a->edges);
    print_float("weighted_score", a->weighted_score);
    print_float("error_rate", a->error_rate);
    print_float("mean_confidence", a->mean_confidence);
    print_float("best_score", a->best_score);
    print_whole("second_transform", a->second_transform);
    print_whole("second_row", a->second_row);
    print_whole("second_col", a->second_col);
    print_float("second_score", a->second_score);
    print_float("margin", a->margin);
    print_whole("runner_up_transform", a->runner_up_transform);
    print_whole("runner_up_row", a->runner_up_row);
    print_whole("runner_up_col", a->runner_up_col);
    print_whole("runner_up_hits", a->runner_up_hits);
}

/* What a person is told of a refusal that is about an edge: people count from 1. */
static void print_edge(uint32_t refusal, uint32_t list, uint32_t position)
{
    if (refusal != SAMBUREXT_FOUND && list != SAMBUREXT_NOTHING)
        printf("  look at edge %u of the %s list, counting from 1\n", (unsigned)position + 1,
               list == SAMBUREXT_LOGICAL_LIST ? "logical" : list == SAMBUREXT_PHYSICAL_LIST ? "physical" : "only");
}

static void hard_and_print(float error_limit)
{
    samburext_answer answer = samburext_decode_hard(
        rows, EDGES, columns, EDGES, orientations, EDGES, bits, EDGES, confidences, EDGES, /* the logical list */
        rows, EDGES, columns, EDGES, orientations, EDGES, bits, EDGES, confidences, EDGES, /* the physical list: the same */
        transforms, sizeof transforms, horizontal, sizeof horizontal, vertical, sizeof vertical, error_limit,
        counts, SAMBUREXT_ROOM_COUNTS, weights, SAMBUREXT_ROOM_WEIGHTS);
    print_hard(&answer);
    print_edge(answer.refusal, answer.list, answer.position);
}

static void exact_and_print(void)
{
    samburext_exact_answer answer = samburext_decode_exact(
        rows, EDGES, columns, EDGES, orientations, EDGES, bits, EDGES, confidences, EDGES, /* the logical list */
        rows, EDGES, columns, EDGES, orientations, EDGES, bits, EDGES, confidences, EDGES, /* the physical list: the same */
        transforms, sizeof transforms, horizontal, sizeof horizontal, vertical, sizeof vertical, 0.1f,
        counts, SAMBUREXT_ROOM_COUNTS, units, SAMBUREXT_ROOM_UNITS);
    print_exact(&answer);
    print_edge(answer.refusal, answer.list, answer.position);
}

static void locate_and_print(const uint8_t *some, size_t some_length)
{
    samburext_located answer = samburext_locate(
        rows, EDGES, columns, EDGES, orientations, EDGES, bits, EDGES, confidences, EDGES, /* the list */
        some, some_length, horizontal, sizeof horizontal, vertical, sizeof vertical, 0.1f);
    print_located(&answer);
    print_edge(answer.refusal, answer.list, answer.position);
}

static void set_confidences(float confidence)
{
    for (int i = 0; i < EDGES; i++)
        confidences[i] = confidence;
}

static void soft_and_print(float soft_margin)
{
    samburext_soft_answer answer = samburext_decode_soft(
        rows, EDGES, columns, EDGES, orientations, EDGES, bits, EDGES, confidences, EDGES, /* the logical list */
        rows, EDGES, columns, EDGES, orientations, EDGES, bits, EDGES, confidences, EDGES, /* the physical list: the same, */
        matches, EDGES, mismatches, EDGES,                                                 /* with its likelihoods */
        transforms, sizeof transforms, horizontal, sizeof horizontal, vertical, sizeof vertical, 0.1f, soft_margin,
        counts, SAMBUREXT_ROOM_COUNTS, weights, SAMBUREXT_ROOM_WEIGHTS, sums, SAMBUREXT_ROOM_SUMS);
    print_soft(&answer);
    print_edge(answer.refusal, answer.list, answer.position);
}

int main(void)
{
    fill_table(vertical, SAMBUREXT_TABLE_LENGTH, fill_table(horizontal, SAMBUREXT_TABLE_LENGTH, 12345u));
    fill_window(horizontal, SAMBUREXT_TABLE_LENGTH, ROW);
    hard_and_print(0.1f);
    hard_and_print(1.5f);
    exact_and_print();
    set_confidences(1e-9f); /* below 2^-25, which is no unit */
    exact_and_print();
    set_confidences(0.75f);
    locate_and_print(transforms, sizeof transforms);
    locate_and_print(twice, sizeof twice);
    soft_and_print(0.02f);
    soft_and_print(100.0f);
    bits[41] += 2; /* a slip of whoever wrote the list */
    hard_and_print(0.1f);
    locate_and_print(transforms, sizeof transforms);
    bits[41] -= 2;
    samburext_stats stats = samburext_match_stats(
        rows, EDGES, columns, EDGES, orientations, EDGES, bits, EDGES, confidences, EDGES, 0, ROW, COLUMN,
        horizontal, sizeof horizontal, vertical, sizeof vertical);
    printf("statistics: refusal %u, list %u, position %u, edges %u, hits %u\n", (unsigned)stats.refusal, (unsigned)stats.list,
           (unsigned)stats.position, (unsigned)stats.edges, (unsigned)stats.hits);

    /* A pole: the horizontal table by its own length, and room for that length. This window runs over the seam, where the last row meets row 0. */
    fill_table(pole, POLE, 54321u);
    fill_window(pole, POLE, POLE_ROW);
    samburext_answer found = samburext_decode_hard(
        rows, EDGES, columns, EDGES, orientations, EDGES, bits, EDGES, confidences, EDGES,
        rows, EDGES, columns, EDGES, orientations, EDGES, bits, EDGES, confidences, EDGES,
        transforms, sizeof transforms, pole, POLE, vertical, sizeof vertical, 0.1f,
        counts, SAMBUREXT_ROOM_COUNTS_FOR(POLE), weights, SAMBUREXT_ROOM_WEIGHTS_FOR(POLE));
    printf("pole of %d rows: refusal %u, row %u, col %u, hits %u\n", SAMBUREXT_BOARD_ROWS_FOR(POLE), (unsigned)found.refusal, (unsigned)found.row,
           (unsigned)found.col, (unsigned)found.hits);
    return 0;
}
