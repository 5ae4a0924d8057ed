/*
 * Puts a fault between a C program and the library, to see that the tests over it can
 * fail. Linked with -Wl,--wrap=zimarolfo_row,--wrap=zimarolfo_packed_row; the variable
 * FAULT names the faults, and without it there is none.
 */
#include "../host/zimarolfo.h"
#include "faults.h"

#include <string.h>

uint64_t __real_zimarolfo_row(uint64_t, uint64_t, uint64_t, const uint8_t *, size_t, uint64_t,
                              uint64_t, uint64_t, uint8_t *, size_t);
uint64_t __real_zimarolfo_packed_row(uint64_t, uint64_t, uint64_t, const uint8_t *, size_t,
                                     uint64_t, uint64_t, uint64_t, uint8_t *, size_t);
uint64_t __wrap_zimarolfo_row(uint64_t, uint64_t, uint64_t, const uint8_t *, size_t, uint64_t,
                              uint64_t, uint64_t, uint8_t *, size_t);
uint64_t __wrap_zimarolfo_packed_row(uint64_t, uint64_t, uint64_t, const uint8_t *, size_t,
                                     uint64_t, uint64_t, uint64_t, uint8_t *, size_t);

enum { POINT = 8, LONGEST = 4096 * POINT };

struct path {
    const uint8_t *bytes;
    size_t length;
};

static bool within_limits(struct path path)
{
    for (size_t i = 0; i < path.length; i += 4) {
        const uint8_t *four = path.bytes + i;
        uint32_t bits = four[0] | (uint32_t)four[1] << 8 | (uint32_t)four[2] << 16 |
                        (uint32_t)four[3] << 24;
        if (bits + 262144 > 2 * 262144)
            return false;
    }
    return true;
}

static struct path without_point(struct path path, size_t point)
{
    static uint8_t others[LONGEST];
    size_t before = POINT * point, after = path.length - before - POINT;
    memcpy(others, path.bytes, before);
    memcpy(others + before, path.bytes + before + POINT, after);
    return (struct path){others, before + after};
}

/* The path that a library draws which forgets a point of a long one; refusals stay. */
static struct path seen(const uint8_t *bytes, size_t length)
{
    struct path path = {bytes, length};
    size_t points = length / POINT;
    if (length % POINT != 0 || points <= 120 || length > LONGEST || !within_limits(path))
        return path;
    if (fault("last-point-forgotten"))
        return without_point(path, points - 1);
    if (fault("middle-point-forgotten"))
        return without_point(path, points / 2);
    if (fault("first-point-of-4096-forgotten") && points == 4096)
        return without_point(path, 0);
    return path;
}

/* The faults that both functions can have; filled is how many bytes they wrote. */
static uint64_t spoil(uint64_t answer, const uint8_t *path, size_t path_len, uint8_t *room,
                      size_t room_len, size_t filled)
{
    bool done = zimarolfo_refusal(answer) == ZIMAROLFO_DONE;
    if (fault("writes-past-the-end") && done && room_len > 0)
        room[room_len] = 0;
    if (fault("reads-past-the-path") && done && path[path_len] == 0)
        answer ^= (uint64_t)1 << 32;
    if (fault("writes-the-tail") && done && filled < room_len)
        room[filled] = 0;
    if (fault("writes-on-refusal") && !done && room_len > 0)
        room[0] = 0;
    if (fault("no-place") && zimarolfo_refusal(answer) == ZIMAROLFO_BAD_COORDINATE)
        answer = ZIMAROLFO_BAD_COORDINATE;
    if (fault("place-cut-to-8-bits"))
        answer &= ~(uint64_t)0xFFFF0000;
    if (fault("place-cut-to-12-bits"))
        answer &= ~(uint64_t)0xFFF00000;
    if (fault("counts-one-more") && done)
        answer += (uint64_t)1 << 32;
    return answer;
}

/* Joins the first two runs past column 4,096 that stand one column apart. */
static bool gap_closed(uint8_t *runs, size_t count)
{
    for (size_t i = 0; i + 1 < count; i++) {
        uint16_t left = zimarolfo_run_at(runs, i + 1).left;
        if (left > 4096 && left == zimarolfo_run_at(runs, i).right + 2) {
            memmove(runs + 4 * i + 2, runs + 4 * i + 6, 4 * (count - i) - 6);
            return true;
        }
    }
    return false;
}

/* The faults of runs that are many or far to the right. */
static uint64_t spoil_runs(uint64_t answer, uint8_t *runs)
{
    size_t count = zimarolfo_count(answer);
    for (size_t i = 0; i < count; i++) {
        if (fault("left-high-byte-lost"))
            runs[4 * i + 1] = 0;
        if (fault("right-high-byte-lost"))
            runs[4 * i + 3] = 0;
        if (fault("ninth-run-wrong") && i >= 8)
            runs[4 * i] ^= 1;
        if (fault("run-4000-wrong") && i >= 3999)
            runs[4 * i + 2] ^= 1;
    }
    if (fault("runs-past-32-swapped") && count > 33) {
        uint8_t run[4];
        memcpy(run, runs + 4 * 32, 4);
        memcpy(runs + 4 * 32, runs + 4 * 33, 4);
        memcpy(runs + 4 * 33, run, 4);
    }
    if (fault("gap-closed-far-right") && gap_closed(runs, count))
        answer -= (uint64_t)1 << 32;
    if (fault("count-cut-to-8-bits"))
        answer &= ~(UINT64_C(0xFFFFFF) << 40);
    return answer;
}

uint64_t __wrap_zimarolfo_row(uint64_t w, uint64_t p, uint64_t q, const uint8_t *path,
                              size_t path_len, uint64_t columns, uint64_t rows, uint64_t row,
                              uint8_t *runs, size_t runs_len)
{
    struct path own = seen(path, path_len);
    size_t room_len = runs_len;
    if (fault("no-room-for-256-runs") && room_len > 4 * 255)
        room_len = 4 * 255;
    uint64_t answer = __real_zimarolfo_row(w, p, q, own.bytes, own.length, columns, rows, row,
                                           runs, room_len);
    answer = spoil_runs(answer, runs);
    size_t count = zimarolfo_count(answer);
    /* As if left sides were kept wherever they are: a column more. */
    if (fault("keeps-left-sides"))
        for (size_t i = 0; i < count; i++)
            if (runs[4 * i] > 0)
                runs[4 * i]--;
    if (fault("writes-nothing") && count > 0)
        memset(runs, 0xEE, 4 * count);
    return spoil(answer, path, path_len, runs, runs_len, 4 * count);
}

/* The faults of packed rows that are long; count is how many bytes they have. */
static void spoil_bytes(uint8_t *bytes, size_t count)
{
    if (fault("byte-past-160-cleared") && count > 20)
        bytes[20] = 0;
    if (fault("last-byte-past-8192-cleared") && count > 1024)
        bytes[count - 1] = 0;
    if (fault("first-bits-past-4096-lost"))
        for (size_t i = 512; i < count; i++)
            bytes[i] &= 127;
}

uint64_t __wrap_zimarolfo_packed_row(uint64_t w, uint64_t p, uint64_t q, const uint8_t *path,
                                     size_t path_len, uint64_t columns, uint64_t rows,
                                     uint64_t row, uint8_t *bytes, size_t bytes_len)
{
    struct path own = seen(path, path_len);
    uint64_t answer = __real_zimarolfo_packed_row(w, p, q, own.bytes, own.length, columns, rows,
                                                  row, bytes, bytes_len);
    size_t count = zimarolfo_count(answer);
    spoil_bytes(bytes, count);
    if (fault("sets-spare-bits") && count > 0 && columns % 8 != 0)
        bytes[count - 1] |= 1;
    return spoil(answer, path, path_len, bytes, bytes_len, count);
}
