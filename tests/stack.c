/*
 * Every kind of call on a thread whose whole stack is the size that zimarolfo.h
 * names, or the size in bytes that is given. Prints one line and ends with 0 when
 * the answers are right; a call that needs more stack ends the program with a fault.
 */
#include "stack.h"

enum { POINTS_MAX = 4096, COLUMNS = 16384, ROW = 8 };

static uint8_t path[8 * POINTS_MAX], runs[4 * COLUMNS], bytes[COLUMNS / 8];

/* A zigzag whose every segment crosses the row four columns after the one before. */
static void zigzag(size_t points)
{
    for (size_t k = 0; k < points; k++) {
        zimarolfo_put_coordinate(path, 2 * k, (int32_t)(64 * k));
        zimarolfo_put_coordinate(path, 2 * k + 1, points == 1 ? 16 * ROW : k % 2 == 0 ? 0 : 32 * ROW);
    }
}

/* Both functions, for the row and the room; what they must answer. */
static void call(size_t points, uint64_t row, size_t room, unsigned refusal, uint32_t count)
{
    uint64_t a = zimarolfo_row(16, 1, 1, path, 8 * points, COLUMNS, 32, row, runs, 4 * room);
    uint64_t b = zimarolfo_packed_row(16, 1, 1, path, 8 * points, COLUMNS, 32, row, bytes, room);
    calls += 2;
    if (zimarolfo_refusal(a) != refusal || zimarolfo_count(a) != count) {
        failures++;
        fprintf(stderr, "stack.c: %zu points, row %d: refusal %u, %u runs\n", points, (int)row,
                zimarolfo_refusal(a), (unsigned)zimarolfo_count(a));
    }
    if (zimarolfo_refusal(b) != (room < sizeof bytes ? ZIMAROLFO_NO_ROOM : refusal)) {
        failures++;
        fprintf(stderr, "stack.c: %zu points, row %d, packed: refusal %u\n", points, (int)row,
                zimarolfo_refusal(b));
    }
}

/* No segment, one, and several in the row; a refusal; and too little room. */
static void *all_calls(void *unused)
{
    static const size_t lengths[] = {1, 2, 3, 32, 33, POINTS_MAX};
    for (size_t i = 0; i < sizeof lengths / sizeof *lengths; i++) {
        size_t points = lengths[i];
        zigzag(points);
        call(points, 31, COLUMNS, ZIMAROLFO_DONE, 0);
        call(points, ROW, COLUMNS, ZIMAROLFO_DONE, points == 1 ? 1 : (uint32_t)points - 1);
        call(points, 32, COLUMNS, ZIMAROLFO_BAD_ROW, 0);
        call(points, ROW, 0, ZIMAROLFO_NO_ROOM, 0);
    }
    return unused;
}

int main(int arguments, char **argument)
{
    return on_small_stack("stack", arguments, argument, all_calls);
}
