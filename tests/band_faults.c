/*
 * Puts a fault between a program and the library's zimarolfo_band, to see that the tests
 * over it can fail. Linked with -Wl,--wrap=zimarolfo_band; the variable FAULT names the
 * faults, and without it there is none.
 */
#define _POSIX_C_SOURCE 200809L

#include "../host/zimarolfo_band.h"
#include "faults.h"

#include <stdlib.h>
#include <string.h>
#include <time.h>
#include <unistd.h>

uint64_t __real_zimarolfo_band(uint64_t, uint64_t, uint64_t, const uint8_t *, size_t, uint64_t,
                               uint64_t, uint64_t, uint64_t, uint8_t *, size_t, uint64_t);
uint64_t __wrap_zimarolfo_band(uint64_t, uint64_t, uint64_t, const uint8_t *, size_t, uint64_t,
                               uint64_t, uint64_t, uint64_t, uint8_t *, size_t, uint64_t);

enum { POINT = 8 };

/* What is asked, but for the bytes. */
struct call {
    uint64_t w, p, q;
    const uint8_t *path;
    size_t path_len;
    uint64_t columns, rows, first_row, n_rows, stride;
};

static uint64_t ask(const struct call *c, uint8_t *bytes, size_t bytes_len)
{
    return __real_zimarolfo_band(c->w, c->p, c->q, c->path, c->path_len, c->columns, c->rows,
                                 c->first_row, c->n_rows, bytes, bytes_len, c->stride);
}

static int32_t y_of(const struct call *c, size_t point)
{
    const uint8_t *four = c->path + POINT * point + 4;
    return (int32_t)(four[0] | (uint32_t)four[1] << 8 | (uint32_t)four[2] << 16 |
                     (uint32_t)four[3] << 24);
}

/* -------------------------------------------------------- the faults of processes */

/* How many of the band's rows lie between the path's lowest and highest point. */
static long rows_between(const struct call *c)
{
    long long lowest = y_of(c, 0), highest = lowest;
    for (size_t i = 1; i < c->path_len / POINT; i++) {
        lowest = y_of(c, i) < lowest ? y_of(c, i) : lowest;
        highest = y_of(c, i) > highest ? y_of(c, i) : highest;
    }
    long long first = (long long)c->first_row, last = first + (long long)c->n_rows - 1;
    first = lowest / 16 > first ? lowest / 16 : first;
    last = highest / 16 < last ? highest / 16 : last;
    return last < first ? 0 : (long)(last - first + 1);
}

/* A call without room is a check, and no drawing. */
static bool refuses_or_is_slow(const struct call *c, size_t bytes_len, bool in_first_process)
{
    if (bytes_len == 0)
        return false;
    if (fault("refuses-in-the-first-process") && in_first_process)
        return true;
    long milliseconds = fault("slow") ? rows_between(c) : 0;
    const struct timespec pause = {.tv_sec = milliseconds / 1000,
                                   .tv_nsec = milliseconds % 1000 * 1000 * 1000};
    nanosleep(&pause, NULL);
    return false;
}

/* -------------------------------------------------------------- the faults of rows */

static bool bit(const uint8_t *row, size_t column)
{
    return (row[column / 8] >> (7 - column % 8) & 1) != 0;
}

static void set_bit(uint8_t *row, size_t column, bool black)
{
    uint8_t mask = (uint8_t)(128 >> column % 8);
    row[column / 8] = (uint8_t)(black ? row[column / 8] | mask : row[column / 8] & ~mask);
}

/* A run of the row is laid over its bytes wrongly; from and to are its columns. */
static void spoil_run(uint8_t *row, size_t from, size_t to, size_t columns)
{
    bool in_one_byte = from / 8 == to / 8;
    if (fault("right-mask-one-bit-short") && to % 8 != 7)
        set_bit(row, to, false);
    if (fault("right-mask-one-bit-long") && to % 8 != 7 && to + 1 < columns)
        set_bit(row, to + 1, true);
    if (fault("right-mask-of-a-whole-byte-lost") && to % 8 == 7 && !in_one_byte)
        row[to / 8] = 0;
    if (fault("left-mask-one-bit-short") && from % 8 != 0)
        set_bit(row, from, false);
    if (fault("run-in-one-byte-to-its-end") && in_one_byte)
        for (size_t column = to; column / 8 == to / 8 && column < columns; column++)
            set_bit(row, column, true);
    if (fault("middle-one-byte-short") && to / 8 >= from / 8 + 2)
        row[to / 8 - 1] = 0;
    if (fault("middle-one-byte-late") && to / 8 >= from / 8 + 3)
        row[from / 8 + 1] = 0;
    if (fault("spare-bits-set") && to + 1 == columns)
        row[to / 8] |= (uint8_t)(255 >> to % 8);
    if (fault("pixels-past-4096-lost") && to >= 4096)
        for (size_t column = 4096; column <= to; column++)
            set_bit(row, column, false);
}

static void spoil_runs(uint8_t *row, size_t columns)
{
    for (size_t from = 0; from < columns; from++) {
        size_t end = from;
        while (end < columns && bit(row, end))
            end++;
        if (end > from) {
            spoil_run(row, from, end - 1, columns);
            from = end;
        }
    }
}

/* A row is forgotten, by where it is from the top. */
static bool lost(const struct call *c, size_t row)
{
    size_t from_below = (size_t)c->n_rows - 1 - row;
    return (fault("rows-256-from-the-top-lost") && row > 0 && row % 256 == 0) ||
           (fault("rows-256-from-below-lost") && from_below > 0 && from_below % 256 == 0) ||
           (fault("rows-of-the-film-at-256-lost") && c->first_row + from_below > 0 &&
            (c->first_row + from_below) % 256 == 0) ||
           (fault("rows-past-4096-lost") && from_below >= 4096) ||
           (fault("top-row-lost") && row == 0) || (fault("lowest-row-lost") && from_below == 0);
}

/* Lays the stroke, which is alone in a band of its own, over the bytes. */
static void lay(const struct call *c, uint8_t *alone, uint8_t *bytes)
{
    size_t row_len = (size_t)((c->columns + 7) / 8), stride = (size_t)c->stride;
    for (size_t row = 0; row < c->n_rows; row++) {
        uint8_t *from = alone + row * stride;
        size_t to = row * stride;
        if (fault("rows-bottom-first"))
            to = ((size_t)c->n_rows - 1 - row) * stride;
        if (fault("stride-forgotten"))
            to = row * row_len;
        spoil_runs(from, (size_t)c->columns);
        for (size_t i = 0; i < row_len && !lost(c, row); i++) {
            if (fault("old-bits-cleared"))
                bytes[to + i] = 0;
            if (fault("old-bits-turned"))
                bytes[to + i] ^= from[i];
            else
                bytes[to + i] |= from[i];
        }
        if (fault("padding-written") && stride > row_len)
            bytes[to + row_len] = 0;
    }
}

/* ------------------------------------------------------------- the faults of calls */

/* The path of a good call without one of its points, or its end. */
static void forget(struct call *c)
{
    static uint8_t others[4096 * POINT];
    size_t points = c->path_len / POINT, lost = points;
    if (points > 4096)
        return;
    if (fault("last-segment-lost") && points > 2)
        lost = points - 1;
    if (fault("first-segment-lost") && points > 2)
        lost = 0;
    if (fault("middle-point-of-many-lost") && points > 120)
        lost = points / 2;
    if (fault("last-point-of-4096-lost") && points == 4096)
        lost = points - 1;
    if (lost == points)
        return;
    memcpy(others, c->path, POINT * lost);
    memcpy(others + POINT * lost, c->path + POINT * (lost + 1), POINT * (points - lost - 1));
    c->path = others;
    c->path_len -= POINT;
}

static bool good(uint64_t answer)
{
    return zimarolfo_refusal(answer) == ZIMAROLFO_DONE;
}

/* A good call, drawn with faults. */
static void draw(struct call c, uint8_t *bytes, size_t bytes_len)
{
    uint64_t rows_in_all = bytes_len / c.stride;
    if (fault("one-row-below-too") && c.first_row > 0 && rows_in_all > c.n_rows) {
        c.first_row--;
        c.n_rows++;
    }
    if (fault("one-row-above-too") && c.first_row + c.n_rows < c.rows && rows_in_all > c.n_rows)
        c.n_rows++;
    forget(&c);
    uint8_t *alone = calloc(bytes_len, 1);
    if (alone == NULL || !good(ask(&c, alone, bytes_len)))
        abort();
    if (!fault("dots-lost") || c.path_len > POINT)
        lay(&c, alone, bytes);
    free(alone);
}

/* What a refused call does all the same, and what it answers then. */
static uint64_t refuse(struct call c, uint64_t answer, uint8_t *bytes, size_t bytes_len)
{
    unsigned refusal = zimarolfo_refusal(answer);
    size_t row_len = (size_t)(c.columns / 8 + (c.columns % 8 != 0));
    if (fault("refusal-lays-the-first-row") && refusal == ZIMAROLFO_NO_ROOM && bytes_len >= row_len) {
        c.first_row += c.n_rows - 1;
        c.n_rows = 1;
        c.stride = row_len;
        ask(&c, bytes, bytes_len);
    }
    if (fault("refusal-writes-a-byte") && bytes_len > 0)
        bytes[0] ^= 1;
    if (fault("one-row-too-many-is-taken") && refusal == ZIMAROLFO_BAD_ROW &&
        c.first_row < c.rows && c.n_rows == c.rows - c.first_row + 1)
        answer = c.n_rows << 32;
    if (fault("place-lost"))
        answer = refusal;
    if (fault("place-cut-to-8-bits"))
        answer &= ~(uint64_t)0xFFFF0000;
    if (fault("place-cut-to-12-bits"))
        answer &= ~(uint64_t)0xFFF00000;
    return answer;
}

static uint64_t spoil_count(uint64_t answer, const struct call *c)
{
    if (fault("count-one-more"))
        answer += (uint64_t)1 << 32;
    if (fault("count-of-bytes"))
        answer = (c->columns + 7) / 8 << 32;
    if (fault("count-lost"))
        answer = 0;
    if (fault("count-cut-to-8-bits"))
        answer &= ~(UINT64_C(0xFFFFFF) << 40);
    return answer;
}

/* The call without drawing: which answer it is. */
static uint64_t answer_of(const struct call *c, size_t bytes_len)
{
    uint8_t *scratch = calloc(bytes_len + 1, 1);
    if (scratch == NULL)
        abort();
    uint64_t answer = ask(c, scratch, bytes_len);
    free(scratch);
    return answer;
}

uint64_t __wrap_zimarolfo_band(uint64_t w, uint64_t p, uint64_t q, const uint8_t *path,
                               size_t path_len, uint64_t columns, uint64_t rows,
                               uint64_t first_row, uint64_t n_rows, uint8_t *bytes,
                               size_t bytes_len, uint64_t stride)
{
    static pid_t first_process = 0;
    struct call c = {w, p, q, path, path_len, columns, rows, first_row, n_rows, stride};
    if (first_process == 0)
        first_process = getpid();
    if (refuses_or_is_slow(&c, bytes_len, getpid() == first_process))
        return ZIMAROLFO_BAD_ROW;
    if (getenv("FAULT") == NULL || fault("slow"))
        return ask(&c, bytes, bytes_len);
    uint64_t answer = answer_of(&c, bytes_len);
    if (!good(answer))
        return refuse(c, answer, bytes, bytes_len);
    draw(c, bytes, bytes_len);
    if (fault("writes-past-the-end"))
        bytes[bytes_len] = 0;
    if (fault("reads-past-the-path") && path[path_len] == 0)
        answer ^= (uint64_t)1 << 32;
    if (fault("differs-in-a-second-process") && getpid() != first_process)
        bytes[0] ^= 128;
    return spoil_count(answer, &c);
}
