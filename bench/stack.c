/* How many bytes of stack a call of samburext_locate takes (request C-16), for windows of 7, 12, 24 and 48 squares. The call is made on a stack of its own,
 * all of whose bytes held one value before; what it used is how far down another value stands afterwards, with the caller's arguments and the answer. A call
 * that does nothing is measured beside it. bench/stack.sh compiles and runs it. */
#include "samburext.h"

#include <stdio.h>
#include <string.h>
#include <ucontext.h>

enum { STACK = 65536, PAINT = 0xA5, LONGEST = 2 * 48 * 48 };

static unsigned char stack[STACK];
static ucontext_t here, there;

static uint8_t horizontal[167], vertical[167];
static int32_t rows[LONGEST], columns[LONGEST];
static uint8_t orientations[LONGEST], bits[LONGEST];
static float confidences[LONGEST];
static const uint8_t transforms[4] = {0, 1, 2, 3};
static size_t edges;
static samburext_located answer;

/* Patterns that look random. */
static void fill(uint8_t *table, uint32_t x)
{
    for (int i = 0; i < 167; i++) {
        x = (x * 1103515245u + 12345u) & 0x7fffffff;
        table[i] = x / 65536 % 8;
    }
}

/* A clean window of so many squares at row 123 and column 456 under transform 2: each bit is the one that makes its edge a hit there. */
static void cut(int squares)
{
    edges = 0;
    for (int i = 0; i < 2 * squares * squares; i++) {
        int32_t *row = rows + edges, *column = columns + edges;
        *row = i / 2 / squares;
        *column = i / 2 % squares;
        orientations[edges] = i % 2;
        bits[edges] = 0;
        confidences[edges] = 1;
        bits[edges] = !samburext_match_stats(row, 1, column, 1, orientations + edges, 1, bits + edges, 1, confidences + edges, 1, 2, 123, 456,
            horizontal, 167, vertical, 167).hits;
        edges++;
    }
}

static void call(void)
{
    answer = samburext_locate(rows, edges, columns, edges, orientations, edges, bits, edges, confidences, edges, transforms, 4, horizontal, 167,
        vertical, 167, 0.3f);
}

static void nothing(void) {}

/* The bytes of the stack that a function uses. */
static int used_by(void (*function)(void))
{
    memset(stack, PAINT, STACK);
    getcontext(&there);
    there.uc_stack.ss_sp = stack;
    there.uc_stack.ss_size = STACK;
    there.uc_link = &here;
    makecontext(&there, function, 0);
    swapcontext(&here, &there);
    int untouched = 0;
    while (untouched < STACK && stack[untouched] == PAINT)
        untouched++;
    return STACK - untouched;
}

int main(void)
{
    fill(horizontal, 1);
    fill(vertical, 2);
    printf("| window | hits | bytes of stack |\n|---|---|---|\n");
    for (int i = 0; i < 4; i++) {
        int squares = (const int[]){7, 12, 24, 48}[i];
        cut(squares);
        int used = used_by(call);
        if (answer.refusal) {
            printf("a window of %d is refused with %u\n", squares, answer.refusal);
            return 1;
        }
        printf("| %d | %u of %zu | %d |\n", squares, answer.hits, edges, used);
    }
    printf("a call that does nothing: %d\n", used_by(nothing));
    return 0;
}
