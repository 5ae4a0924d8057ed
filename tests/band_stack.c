/*
 * Every kind of band call on a thread whose whole stack is the size that zimarolfo.h
 * names, or the size in bytes that is given. Prints one line and ends with 0 when the
 * answers are right; a call that needs more stack ends the program with a fault.
 */
#include "stack.h"

#include "../host/zimarolfo_band.h"

#include <string.h>

enum { POINTS_MAX = 4096, COLUMNS = 16384, ROWS = 600, STRIDE = COLUMNS / 8 };

static uint8_t path[8 * (POINTS_MAX + 1)], bytes[STRIDE * ROWS];

/* A zigzag over the whole film, four columns to a segment. */
static void zigzag(size_t points)
{
    for (size_t k = 0; k < points; k++) {
        zimarolfo_put_coordinate(path, 2 * k, (int32_t)(64 * k));
        zimarolfo_put_coordinate(path, 2 * k + 1, k % 2 == 0 ? 160 : 16 * ROWS - 160);
    }
}

/* What the call must answer, and whether it must draw. */
static void call(uint64_t w, size_t points, uint64_t first_row, uint64_t n_rows, size_t length,
                 uint64_t expected, int draws)
{
    memset(bytes, 0, sizeof bytes);
    uint64_t answer = zimarolfo_band(w, 1, 1, path, 8 * points, COLUMNS, ROWS, first_row, n_rows,
                                     bytes, length, STRIDE);
    size_t black = 0;
    while (black < sizeof bytes && bytes[black] == 0)
        black++;
    calls++;
    if (answer != expected || (black < sizeof bytes) != draws) {
        failures++;
        fprintf(stderr, "band_stack.c: w %d, %zu points, rows %d and %d more: refusal %u, count %u\n",
                (int)w, points, (int)first_row, (int)n_rows - 1, zimarolfo_refusal(answer),
                (unsigned)zimarolfo_count(answer));
    }
}

/* With the smallest pen, one between, and the largest. */
static void *all_calls(void *unused)
{
    static const size_t lengths[] = {1, 2, 3, 32, 33, POINTS_MAX};
    static const uint64_t widths[] = {16, 471, 512};
    for (size_t i = 0; i < sizeof lengths / sizeof *lengths * 3; i++) {
        size_t points = lengths[i / 3];
        uint64_t w = widths[i % 3], all = (uint64_t)ROWS << 32, one = (uint64_t)1 << 32;
        zigzag(points);
        call(w, points, 0, ROWS, sizeof bytes, all, 1);
        call(w, points, 10, 1, STRIDE, one, 1);
        call(w, points, 300, 1, STRIDE, one, points > 1);
        call(w, points, ROWS, 1, sizeof bytes, ZIMAROLFO_BAD_ROW, 0);
        call(w, points, 0, ROWS, sizeof bytes - 1, ZIMAROLFO_NO_ROOM, 0);
        call(15, points, 0, ROWS, sizeof bytes, ZIMAROLFO_BAD_SETTING, 0);
        zimarolfo_put_coordinate(path, 2 * points - 1, 262145);
        call(w, points, 0, ROWS, sizeof bytes,
             ZIMAROLFO_BAD_COORDINATE | (uint64_t)(2 * points - 1) << 8, 0);
    }
    call(16, POINTS_MAX + 1, 0, ROWS, sizeof bytes, ZIMAROLFO_BAD_PATH, 0);
    return unused;
}

int main(int arguments, char **argument)
{
    return on_small_stack("band_stack", arguments, argument, all_calls);
}
