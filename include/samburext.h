/* Samburext for C and C++: which square of a PuzzleBoard a camera faces, or a refusal.
 *
 * Link with target/staticlib/libsamburext.a, which tools/archive writes (x86-64 Linux). Each function takes every input: it
 * ends, reads and writes nothing but the slices it was lent, keeps nothing between calls, and may be called from several
 * threads at once, each with room of its own.
 *
 * Slices. Each is a pointer and then its length in elements. The caller sees to it that
 *   - no pointer is null, also where the length is 0, and each is aligned for its type;
 *   - that many elements can be read there, and in the room slices written;
 *   - a room slice overlaps no other slice. Slices that are only read may overlap each other.
 *
 * Edge lists. A list of n edges is five columns of n elements: rows and columns from -1,000,000 to 1,000,000, orientations
 * (0 horizontal, 1 vertical), bits (0 or 1), confidences (0 to 1). A list has 1 to 8,192 edges; match statistics also take 0.
 *
 * Boards. The vertical pattern table has 167 bytes. The horizontal one has L: 167 on the flat board, and on a target that is wrapped round a pole any
 * L from 4 to 500 that is no multiple of 3. Rows of an origin go from 0 to 3L - 1, where row 0 comes next (the seam), columns from 0 to 500.
 *
 * Refusals. `refusal` is 0 when found. On a refusal every field but `refusal`, `list` and `position` is SAMBUREXT_NOTHING, SAMBUREXT_NO_WEIGHT
 * or NaN: there is no square in it. Refusals 4, 16, 17, 5 and 6 are about an edge: `list` is a number of samburext_list, and `position` is the
 * place of the first bad edge of that kind in that list, counting from 0; where both lists have one, the logical list's. `list` and
 * `position` are both SAMBUREXT_NOTHING after every other refusal, which is about no edge, and in a found answer.
 * After refusals 1 to 9, 16 and 17 the room is untouched; after every other call its used part is zero. A surplus never changes.
 */
#ifndef SAMBUREXT_H
#define SAMBUREXT_H

#include <stddef.h>
#include <stdint.h>

#ifdef __cplusplus
extern "C" {
#endif

/* The number of a function's form is part of its name in the library, so that a program which was compiled for another form does not link: the
   structs of another form have other fields. A program calls the functions by the names without a number. Hard and soft decode are in their
   third form, in which exact decode and locate came; match statistics are in their second, since their struct stayed what it was. */
#define samburext_decode_hard samburext_decode_hard_3
#define samburext_decode_exact samburext_decode_exact_3
#define samburext_decode_soft samburext_decode_soft_3
#define samburext_locate samburext_locate_3
#define samburext_match_stats samburext_match_stats_2

/* What changed with the third form of hard and soft decode. They had one struct, in which the runner-up's hits stood as a float beside a margin
   that was in hits after hard decode and in log likelihood after soft decode. Now each has a struct of its own: what counts edges is a whole
   number named .._hits, and in a soft answer the scores and the margin are log likelihoods. In a found answer the old fields are
       runner_up_score   (float)runner_up_hits, in both
       margin            (float)margin_hits in a hard answer; margin, as it was, in a soft one
   and every other field has its old name and value (in a refusal both were NaN). The second_.. fields are new. The old answer is defined from
   the new ones as `ten_fields` (crates/ten_fields/specs/TenFields.antt), and the Rattle library has a function that is proved to compute it. */

/* The least lengths of the room slices where the horizontal pattern table has L bytes; what they hold before has no influence. Longer slices are
   taken too: room for SAMBUREXT_MAX_POLE_LENGTH serves every board. */
#define SAMBUREXT_ROOM_COUNTS_FOR(L) (9 * (L) + 1503)  /* u32 */
#define SAMBUREXT_ROOM_WEIGHTS_FOR(L) (9 * (L) + 1503) /* f32, hard and soft decode */
#define SAMBUREXT_ROOM_UNITS_FOR(L) (9 * (L) + 1503)   /* u64, exact decode alone */
#define SAMBUREXT_ROOM_SUMS_FOR(L) (15 * (L) + 2505)   /* i64, soft decode alone */

/* The same for the flat board. */
#define SAMBUREXT_ROOM_COUNTS SAMBUREXT_ROOM_COUNTS_FOR(SAMBUREXT_TABLE_LENGTH)   /* 3,006 */
#define SAMBUREXT_ROOM_WEIGHTS SAMBUREXT_ROOM_WEIGHTS_FOR(SAMBUREXT_TABLE_LENGTH) /* 3,006 */
#define SAMBUREXT_ROOM_UNITS SAMBUREXT_ROOM_UNITS_FOR(SAMBUREXT_TABLE_LENGTH)     /* 3,006 */
#define SAMBUREXT_ROOM_SUMS SAMBUREXT_ROOM_SUMS_FOR(SAMBUREXT_TABLE_LENGTH)       /* 5,010 */

#define SAMBUREXT_TABLE_LENGTH 167    /* bytes of the vertical pattern table, and of the flat board's horizontal one, each 0 to 7 */
#define SAMBUREXT_MIN_POLE_LENGTH 4   /* bytes of a pole's horizontal pattern table: from here */
#define SAMBUREXT_MAX_POLE_LENGTH 500 /* to here, */
#define SAMBUREXT_IS_POLE_LENGTH(L) ((L) >= SAMBUREXT_MIN_POLE_LENGTH && (L) <= SAMBUREXT_MAX_POLE_LENGTH && (L) % 3 != 0) /* and no multiple of 3 */
#define SAMBUREXT_MAX_EDGES 8192      /* edges of a list */
#define SAMBUREXT_MAX_TRANSFORMS 8    /* transform numbers in search order, each 0 to 7 */
#define SAMBUREXT_BOARD_SQUARES 501   /* columns of an origin go from 0 to one less, and on the flat board rows too */
#define SAMBUREXT_BOARD_ROWS_FOR(L) (3 * (L)) /* rows of an origin go from 0 to one less, where the horizontal pattern table has L bytes */
#define SAMBUREXT_NOTHING 0xFFFFFFFFu /* a whole number that an answer does not have */
#define SAMBUREXT_NO_WEIGHT UINT64_C(0xFFFFFFFFFFFFFFFF) /* a weight that an answer does not have */
#define SAMBUREXT_UNITS 16777216      /* units of weight in a confidence of 1: 2^24. No list weighs more than 2^37 */

/* Why a call was refused: of 1, 2, 3, 4, 16, 17, 5, 6, 7, 8, 9 the first in this order that applies, over all lists, else one of
   10 to 15. In earlier versions 4 stood for 16 and 17 too: a program that tests for 4 must now also know these two. */
enum samburext_refusal {
    SAMBUREXT_FOUND = 0,                /* not refused */
    SAMBUREXT_ROOM_TOO_SHORT = 1,       /* a room slice is too short for the horizontal table's length; where that is no pole's, for L = 4 */
    SAMBUREXT_LENGTHS_DIFFER = 2,       /* the columns of one list differ in length */
    SAMBUREXT_LIST_SIZE = 3,            /* a list is empty or has more than 8,192 edges */
    SAMBUREXT_BAD_COORDINATE = 4,       /* a row or column is out of range; says which edge */
    SAMBUREXT_BAD_ORIENTATION = 16,     /* an orientation is not 0 or 1; comes after 4; says which edge */
    SAMBUREXT_BAD_BIT = 17,             /* a bit is not 0 or 1; comes after 16 and before 5; says which edge */
    SAMBUREXT_BAD_CONFIDENCE = 5,       /* a confidence is no number from 0 to 1; says which edge */
    SAMBUREXT_BAD_LIKELIHOOD = 6,       /* a log likelihood is no finite number from -65,536 to 65,536; says which edge */
    SAMBUREXT_BAD_TRANSFORM = 7,        /* no transforms, more than eight, or one above 7 */
    SAMBUREXT_BAD_TABLE = 8,            /* the horizontal table has no pole length, the vertical one not 167 bytes, or a byte is above 7 */
    SAMBUREXT_BAD_SETTING = 9,          /* error limit or soft margin out of range, or a given origin's row from 3L or column from 501 on */
    SAMBUREXT_NO_CONFIDENCE = 10,       /* a list has no confidence at all; to exact decode, none of 2^-25 or more: what is below counts as 0 there */
    SAMBUREXT_NONE_WITHIN_LIMIT = 11,   /* no listed transform comes within the error limit */
    SAMBUREXT_LISTS_DISAGREE = 12,      /* the logical and the physical list point to different squares */
    SAMBUREXT_NOT_FAR_AHEAD = 13,       /* the best square is not far enough ahead of the next */
    SAMBUREXT_SOFT_MARGIN = 14,         /* the soft scores of the two best are closer than the soft margin */
    SAMBUREXT_SOFT_HARD_DISAGREE = 15   /* the soft and the hard winner differ */
};

/* The lists by number. A call with one list has the only one. */
enum samburext_list {
    SAMBUREXT_LOGICAL_LIST = 1,  /* the logical list of hard, exact and soft decode */
    SAMBUREXT_PHYSICAL_LIST = 2, /* their physical list, with its likelihoods */
    SAMBUREXT_ONLY_LIST = 3      /* the list of locate and of match statistics */
};

/* The answer of hard decode. Whatever counts edges is a whole number. */
typedef struct samburext_answer {
    uint32_t refusal;             /* 0 when found, else a number of samburext_refusal */
    uint32_t list;                /* the list of the edge that the refusal is about: a number of samburext_list, or SAMBUREXT_NOTHING */
    uint32_t position;            /* the place of that edge in its list, counting from 0, or SAMBUREXT_NOTHING */
    uint32_t transform;           /* the transform's number, 0 to 7 */
    uint32_t row;                 /* the origin's row on the board, 0 to 3L - 1: 500 on the flat board */
    uint32_t col;                 /* the origin's column, 0 to 500 */
    uint32_t hits;                /* edges of the logical list whose bit is the one that the board predicts there */
    uint32_t edges;               /* edges of the logical list */
    float weighted_score;         /* confidence of the hits over all confidence, 0 to 1 */
    float error_rate;             /* misses over edges */
    float mean_confidence;        /* of the hits; 0 for no hits */
    float best_score;             /* the weighted score again */
    uint32_t runner_up_transform; /* the best competitor by hits on the logical list: its transform, */
    uint32_t runner_up_row;       /* its row, */
    uint32_t runner_up_col;       /* its column */
    uint32_t runner_up_hits;      /* and its hits */
    uint32_t margin_hits;         /* hits ahead of the runner-up: hits - runner_up_hits */
} samburext_answer;

/* The answer of exact decode. Weights are whole numbers of units, and a unit is a confidence of 2^-24: each confidence counts as the nearest whole
   number of units, a half as the one above, and these are added without rounding. Fourteen fields of four bytes stand before three of eight, so
   there are no unused bytes between or after them. */
typedef struct samburext_exact_answer {
    uint32_t refusal;             /* 0 when found, else a number of samburext_refusal */
    uint32_t list;                /* the list of the edge that the refusal is about: a number of samburext_list, or SAMBUREXT_NOTHING */
    uint32_t position;            /* the place of that edge in its list, counting from 0, or SAMBUREXT_NOTHING */
    uint32_t transform;           /* the transform's number, 0 to 7 */
    uint32_t row;                 /* the origin's row on the board, 0 to 3L - 1: 500 on the flat board */
    uint32_t col;                 /* the origin's column, 0 to 500 */
    uint32_t hits;                /* edges of the logical list whose bit is the one that the board predicts there */
    uint32_t edges;               /* edges of the logical list */
    float error_rate;             /* misses over edges */
    uint32_t runner_up_transform; /* the best competitor by hits on the logical list: its transform, */
    uint32_t runner_up_row;       /* its row, */
    uint32_t runner_up_col;       /* its column */
    uint32_t runner_up_hits;      /* and its hits */
    uint32_t margin_hits;         /* hits ahead of the runner-up: hits - runner_up_hits */
    uint64_t weight;              /* units of the hits */
    uint64_t total;               /* units of all edges of the logical list */
    uint64_t runner_up_weight;    /* units of the runner-up's hits; may be more than `weight`, since hits come first */
} samburext_exact_answer;

/* The answer of soft decode. Each score and the margin is a log likelihood, each .._hits a count of edges: to subtract one from the other gives
   nothing. The second is second by likelihood on the physical list, the runner-up is second by hits on the logical one; they may be two
   squares. Both are filled in every found answer. */
typedef struct samburext_soft_answer {
    uint32_t refusal;             /* 0 when found, else a number of samburext_refusal */
    uint32_t list;                /* the list of the edge that the refusal is about: a number of samburext_list, or SAMBUREXT_NOTHING */
    uint32_t position;            /* the place of that edge in its list, counting from 0, or SAMBUREXT_NOTHING */
    uint32_t transform;           /* the transform's number, 0 to 7 */
    uint32_t row;                 /* the origin's row on the board, 0 to 3L - 1: 500 on the flat board */
    uint32_t col;                 /* the origin's column, 0 to 500 */
    uint32_t hits;                /* edges of the physical list whose bit is the one that the board predicts there */
    uint32_t edges;               /* edges of the physical list */
    float weighted_score;         /* log likelihood per edge: best_score / edges */
    float error_rate;             /* misses over edges */
    float mean_confidence;        /* of the hits; 0 for no hits */
    float best_score;             /* log likelihood: the total of the physical edges at this square */
    uint32_t second_transform;    /* the best other by log likelihood on the physical list: its transform, */
    uint32_t second_row;          /* its row, */
    uint32_t second_col;          /* its column */
    float second_score;           /* log likelihood: the total of the physical edges at the second */
    float margin;                 /* log likelihood per edge: (best_score - second_score) / edges */
    uint32_t runner_up_transform; /* the best competitor by hits on the logical list: its transform, */
    uint32_t runner_up_row;       /* its row, */
    uint32_t runner_up_col;       /* its column */
    uint32_t runner_up_hits;      /* and its hits, which are the logical list's, as `hits` above are the physical one's */
} samburext_soft_answer;

/* The answer of locate: whole numbers alone, and no score. */
typedef struct samburext_located {
    uint32_t refusal;             /* 0 when found, else a number of samburext_refusal */
    uint32_t list;                /* SAMBUREXT_ONLY_LIST where the refusal is about an edge, or SAMBUREXT_NOTHING */
    uint32_t position;            /* the place of that edge in the list, counting from 0, or SAMBUREXT_NOTHING */
    uint32_t transform;           /* the transform's number, 0 to 7 */
    uint32_t row;                 /* the origin's row on the board, 0 to 3L - 1: 500 on the flat board */
    uint32_t col;                 /* the origin's column, 0 to 500 */
    uint32_t hits;                /* edges of the list whose bit is the one that the board predicts there */
    uint32_t runner_up_transform; /* of the other placings with most hits the first by place in `transforms`, row and column: its transform, */
    uint32_t runner_up_row;       /* its row, */
    uint32_t runner_up_col;       /* its column */
    uint32_t runner_up_hits;      /* and its hits */
} samburext_located;

/* The answer of match statistics. */
typedef struct samburext_stats {
    uint32_t refusal;      /* 0 when counted, else a number of samburext_refusal */
    uint32_t list;         /* SAMBUREXT_ONLY_LIST where the refusal is about an edge, or SAMBUREXT_NOTHING */
    uint32_t position;     /* the place of that edge in the list, counting from 0, or SAMBUREXT_NOTHING */
    uint32_t edges;        /* edges of the list */
    uint32_t hits;         /* edges whose bit is the one that the board predicts there */
    float error_rate;      /* misses over edges; 1 for no edges */
    float mean_confidence; /* of the hits; 0 for no hits */
} samburext_stats;

/* Hard decode: the square by hits. The logical list decides, with the error limit; the physical list must agree. */
samburext_answer samburext_decode_hard(
    const int32_t *logical_rows, size_t logical_rows_length,                 /* the logical list: rows */
    const int32_t *logical_columns, size_t logical_columns_length,           /* its columns */
    const uint8_t *logical_orientations, size_t logical_orientations_length, /* its orientations, 0 or 1 */
    const uint8_t *logical_bits, size_t logical_bits_length,                 /* its bits, 0 or 1 */
    const float *logical_confidences, size_t logical_confidences_length,     /* its confidences, 0 to 1 */
    const int32_t *physical_rows, size_t physical_rows_length,                 /* the physical list: rows */
    const int32_t *physical_columns, size_t physical_columns_length,           /* its columns */
    const uint8_t *physical_orientations, size_t physical_orientations_length, /* its orientations */
    const uint8_t *physical_bits, size_t physical_bits_length,                 /* its bits */
    const float *physical_confidences, size_t physical_confidences_length,     /* its confidences */
    const uint8_t *transforms, size_t transforms_length, /* 1 to 8 transform numbers in search order, each 0 to 7 */
    const uint8_t *horizontal, size_t horizontal_length, /* the horizontal pattern table: L bytes, each 0 to 7, of a pole length L; 167 on the flat board */
    const uint8_t *vertical, size_t vertical_length,     /* the vertical pattern table: 167 bytes, each 0 to 7 */
    float error_limit,                                   /* the largest error rate that is taken, 0 to 1 */
    uint32_t *counts, size_t counts_length,              /* room, at least SAMBUREXT_ROOM_COUNTS_FOR(horizontal_length) */
    float *weights, size_t weights_length);              /* room, at least SAMBUREXT_ROOM_WEIGHTS_FOR(horizontal_length) */

/* Exact decode: the square by hits and, where hits are equal, by weights that add without rounding. The logical list decides, with the error limit; the
   physical list must agree. Lists, tables and refusals are hard decode's, but 10 is given where all confidences of a list are below 2^-25, and 12 goes
   by the physical list's best square by these weights. Where both modes find a square, it is the same one; where they do not answer alike, one of
   them gives 10 or 12. Room is u32 and u64: the counts are asked for and left zero, as in hard decode. */
samburext_exact_answer samburext_decode_exact(
    const int32_t *logical_rows, size_t logical_rows_length,                 /* the logical list: rows */
    const int32_t *logical_columns, size_t logical_columns_length,           /* its columns */
    const uint8_t *logical_orientations, size_t logical_orientations_length, /* its orientations, 0 or 1 */
    const uint8_t *logical_bits, size_t logical_bits_length,                 /* its bits, 0 or 1 */
    const float *logical_confidences, size_t logical_confidences_length,     /* its confidences, 0 to 1 */
    const int32_t *physical_rows, size_t physical_rows_length,                 /* the physical list: rows */
    const int32_t *physical_columns, size_t physical_columns_length,           /* its columns */
    const uint8_t *physical_orientations, size_t physical_orientations_length, /* its orientations */
    const uint8_t *physical_bits, size_t physical_bits_length,                 /* its bits */
    const float *physical_confidences, size_t physical_confidences_length,     /* its confidences */
    const uint8_t *transforms, size_t transforms_length, /* 1 to 8 transform numbers in search order, each 0 to 7 */
    const uint8_t *horizontal, size_t horizontal_length, /* the horizontal pattern table: L bytes, each 0 to 7, of a pole length L; 167 on the flat board */
    const uint8_t *vertical, size_t vertical_length,     /* the vertical pattern table: 167 bytes, each 0 to 7 */
    float error_limit,                                   /* the largest error rate that is taken, 0 to 1 */
    uint32_t *counts, size_t counts_length,              /* room, at least SAMBUREXT_ROOM_COUNTS_FOR(horizontal_length) */
    uint64_t *units, size_t units_length);               /* room, at least SAMBUREXT_ROOM_UNITS_FOR(horizontal_length) */

/* Soft decode: the square by the likelihoods of the physical list; the hits of the logical list must confirm it.
   The logical list comes first, as in hard decode. In earlier versions the physical list and its likelihoods came first: a program
   written for that order must be changed, and some C compilers only warn about it. */
samburext_soft_answer samburext_decode_soft(
    const int32_t *logical_rows, size_t logical_rows_length,                 /* the logical list: rows */
    const int32_t *logical_columns, size_t logical_columns_length,           /* its columns */
    const uint8_t *logical_orientations, size_t logical_orientations_length, /* its orientations */
    const uint8_t *logical_bits, size_t logical_bits_length,                 /* its bits */
    const float *logical_confidences, size_t logical_confidences_length,     /* its confidences */
    const int32_t *physical_rows, size_t physical_rows_length,                 /* the physical list: rows */
    const int32_t *physical_columns, size_t physical_columns_length,           /* its columns */
    const uint8_t *physical_orientations, size_t physical_orientations_length, /* its orientations */
    const uint8_t *physical_bits, size_t physical_bits_length,                 /* its bits */
    const float *physical_confidences, size_t physical_confidences_length,     /* its confidences */
    const float *match_likelihoods, size_t match_likelihoods_length,       /* each physical edge's log likelihood of a hit */
    const float *mismatch_likelihoods, size_t mismatch_likelihoods_length, /* and of a miss, -65,536 to 65,536 */
    const uint8_t *transforms, size_t transforms_length, /* 1 to 8 transform numbers in search order, each 0 to 7 */
    const uint8_t *horizontal, size_t horizontal_length, /* the horizontal pattern table: L bytes, each 0 to 7, of a pole length L; 167 on the flat board */
    const uint8_t *vertical, size_t vertical_length,     /* the vertical pattern table: 167 bytes, each 0 to 7 */
    float error_limit,                                   /* the largest error rate of the logical list, 0 to 1 */
    float soft_margin,                                   /* the least margin that is taken, in log likelihood per edge, 0 to 65,536 */
    uint32_t *counts, size_t counts_length,              /* room, at least SAMBUREXT_ROOM_COUNTS_FOR(horizontal_length) */
    float *weights, size_t weights_length,               /* room, at least SAMBUREXT_ROOM_WEIGHTS_FOR(horizontal_length) */
    int64_t *sums, size_t sums_length);                  /* room, at least SAMBUREXT_ROOM_SUMS_FOR(horizontal_length) */

/* Locate: the square by the hits of one list, without room, where there is no space for tables. It takes longer than hard decode. The square is the
   placing within the error limit that is ahead of every other by more hits than it has misses. Refusals are 2 to 5, 7 to 9, 16 and 17, then 10, 11
   and 13, and never 1. It is refused as hard decode of this list with itself is, or finds the same square, hits and runner-up hits; its
   runner-up may be another square with as many hits. */
samburext_located samburext_locate(
    const int32_t *rows, size_t rows_length,                 /* the list: rows */
    const int32_t *columns, size_t columns_length,           /* its columns */
    const uint8_t *orientations, size_t orientations_length, /* its orientations, 0 or 1 */
    const uint8_t *bits, size_t bits_length,                 /* its bits, 0 or 1 */
    const float *confidences, size_t confidences_length,     /* its confidences, 0 to 1: where their sum is 0 it is refused, and else they have no influence */
    const uint8_t *transforms, size_t transforms_length, /* 1 to 8 transform numbers in search order, each 0 to 7 */
    const uint8_t *horizontal, size_t horizontal_length, /* the horizontal pattern table: L bytes, each 0 to 7, of a pole length L; 167 on the flat board */
    const uint8_t *vertical, size_t vertical_length,     /* the vertical pattern table: 167 bytes, each 0 to 7 */
    float error_limit);                                  /* the largest error rate that is taken, 0 to 1 */

/* Match statistics: how one list fits a known transform and origin. No room is needed. */
samburext_stats samburext_match_stats(
    const int32_t *rows, size_t rows_length,                 /* the list: rows */
    const int32_t *columns, size_t columns_length,           /* its columns */
    const uint8_t *orientations, size_t orientations_length, /* its orientations */
    const uint8_t *bits, size_t bits_length,                 /* its bits */
    const float *confidences, size_t confidences_length,     /* its confidences */
    uint32_t transform,                                      /* the transform's number, 0 to 7 */
    uint32_t row,                                            /* the origin's row on the board, 0 to 3L - 1: 500 on the flat board */
    uint32_t column,                                         /* the origin's column, 0 to 500 */
    const uint8_t *horizontal, size_t horizontal_length, /* the horizontal pattern table: L bytes, each 0 to 7, of a pole length L; 167 on the flat board */
    const uint8_t *vertical, size_t vertical_length);    /* the vertical pattern table: 167 bytes, each 0 to 7 */

#ifdef __cplusplus
}
#endif

#endif
