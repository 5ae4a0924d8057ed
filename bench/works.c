/* The works that are timed, and the contenders that do them. */
#include "bench.h"

#include <cairo.h>
#include <math.h>
#include <stdlib.h>
#include <string.h>

/* ----------------------------------------------------------------------- works */

struct work new_work(const char *name, uint64_t w, size_t columns, size_t rows, size_t strokes,
                     size_t points)
{
    struct work work = {name, w, 1, 1, columns, rows, (columns + 7) / 8, strokes, points, NULL,
                        NULL, NULL, NULL};
    work.paths = memory(strokes * points * 8);
    work.coordinates = memory(strokes * points * 2 * sizeof *work.coordinates);
    work.first_row = memory(strokes * sizeof *work.first_row);
    work.end_row = memory(strokes * sizeof *work.end_row);
    return work;
}

void put(struct work *work, size_t stroke, size_t point, int32_t x, int32_t y)
{
    size_t at = 2 * (stroke * work->points + point);
    work->coordinates[at] = x;
    work->coordinates[at + 1] = y;
    zimarolfo_put_coordinate(work->paths, at, x);
    zimarolfo_put_coordinate(work->paths, at + 1, y);
}

static const uint8_t *path_of(const struct work *work, size_t stroke)
{
    return work->paths + stroke * work->points * 8;
}

/* The rows within each stroke's reach: the pen is floor((w + 8) / 16) pixels high. */
static void find_reaches(struct work *work)
{
    double half = 8 * (double)((work->w + 8) / 16);
    for (size_t i = 0; i < work->strokes; i++) {
        int32_t low = INT32_MAX, high = INT32_MIN;
        for (size_t point = 0; point < work->points; point++) {
            int32_t y = work->coordinates[2 * (i * work->points + point) + 1];
            low = y < low ? y : low;
            high = y > high ? y : high;
        }
        double first = fmax(ceil((low - half) / 16), 0);
        double end = fmin(floor((high + half) / 16) + 1, (double)work->rows);
        work->first_row[i] = (size_t)first;
        work->end_row[i] = end > first ? (size_t)end : (size_t)first;
    }
}

void free_work(struct work *work)
{
    free(work->paths);
    free(work->coordinates);
    free(work->first_row);
    free(work->end_row);
}

/* A sequence of numbers that is the same for each work that starts it anew. */
static uint64_t sequence;

static int32_t below(int32_t n)
{
    sequence = sequence * 6364136223846793005u + 1442695040888963407u;
    return (int32_t)((sequence >> 33) % (uint64_t)n);
}

static struct work diagonal(void)
{
    struct work work = new_work("a diagonal of width 4 on 16384 x 16384", 64, 16384, 16384, 1, 2);
    put(&work, 0, 0, 0, 0);
    put(&work, 0, 1, 16 * 16383, 16 * 16383);
    find_reaches(&work);
    return work;
}

static struct work strokes_of(const char *name, uint64_t w)
{
    struct work work = new_work(name, w, 4096, 4096, 1000, 4);
    sequence = 1;
    for (size_t i = 0; i < work.strokes; i++) {
        int32_t x = below(16 * 3896), y = below(16 * 3896);
        for (size_t point = 0; point < 4; point++)
            put(&work, i, point, x + below(16 * 200), y + below(16 * 200));
    }
    find_reaches(&work);
    return work;
}

static struct work short_strokes(void)
{
    return strokes_of("1000 strokes of 4 points within 200, width 4, on 4096 x 4096", 64);
}

static struct work wide_strokes(void)
{
    return strokes_of("the same 1000 strokes, width 32", 512);
}

static struct work zigzag(void)
{
    struct work work =
        new_work("a zigzag of 4096 points, width 2, on 16384 x 4096", 32, 16384, 4096, 1, 4096);
    for (size_t point = 0; point < 4096; point++)
        put(&work, 0, point, (int32_t)(64 * point), point % 2 == 0 ? 0 : 16 * 4095);
    find_reaches(&work);
    return work;
}

/* Short segments up the whole film. */
static struct work wave(void)
{
    struct work work =
        new_work("a wave of 4096 points, width 2, on 16384 x 16384", 32, 16384, 16384, 1, 4096);
    for (int i = 0; i < 4096; i++)
        put(&work, 0, (size_t)i, (int32_t)lround(16 * (8192 + 4000 * sin(i / 100.0))), 64 * i);
    find_reaches(&work);
    return work;
}

static struct work dots(void)
{
    struct work work = new_work("10000 dots of width 4 on 4096 x 4096", 64, 4096, 4096, 10000, 1);
    sequence = 1;
    for (size_t i = 0; i < work.strokes; i++) {
        int32_t x = below(16 * 4096);
        put(&work, i, 0, x, below(16 * 4096));
    }
    find_reaches(&work);
    return work;
}

const struct maker makers[WORKS] = {
    [DIAGONAL] = {"diagonal", diagonal},
    [STROKES] = {"strokes, width 4", short_strokes},
    [ZIGZAG] = {"zigzag", zigzag},
    [WAVE] = {"wave", wave},
    [WIDE_STROKES] = {"strokes, width 32", wide_strokes},
    [DOTS] = {"dots", dots},
};

/* ------------------------------------------------------------------ contenders */

uint8_t *line_of(const struct work *work, uint8_t *film, size_t row)
{
    return film + (work->rows - 1 - row) * work->row_len;
}

static void fill(uint8_t *line, unsigned left, unsigned right)
{
    unsigned from = left / 8, to = right / 8;
    unsigned head = 0xFFu >> left % 8, tail = 0xFFu << (7 - right % 8) & 0xFF;
    if (from == to) {
        line[from] |= (uint8_t)(head & tail);
        return;
    }
    line[from] |= (uint8_t)head;
    memset(line + from + 1, 0xFF, to - from - 1);
    line[to] |= (uint8_t)tail;
}

/* Ors a packed row into a film's, eight bytes at a time as far as there are eight. */
static void lay(uint8_t *line, const uint8_t *packed, size_t length)
{
    size_t byte = 0;
    for (; byte + 8 <= length; byte += 8) {
        uint64_t old, black;
        memcpy(&old, line + byte, 8);
        memcpy(&black, packed + byte, 8);
        old |= black;
        memcpy(line + byte, &old, 8);
    }
    for (; byte < length; byte++)
        line[byte] |= packed[byte];
}

/* One call for each stroke, over the whole film. */
static void library_bands(const struct work *work, uint8_t *film, size_t n)
{
    (void)n;
    for (size_t i = 0; i < work->strokes; i++) {
        uint64_t answer = zimarolfo_band(work->w, work->p, work->q, path_of(work, i),
                                         work->points * 8, work->columns, work->rows, 0,
                                         work->rows, film, work->rows * work->row_len, work->row_len);
        if (zimarolfo_refusal(answer) != ZIMAROLFO_DONE || zimarolfo_count(answer) != work->rows)
            give_up("a band was refused");
    }
}

/* The rows whose number leaves nothing when divided by n, by their runs. */
static void by_runs(row_function *function, const struct work *work, uint8_t *film, size_t n)
{
    static uint8_t runs[ROOM];
    for (size_t i = 0; i < work->strokes; i++) {
        for (size_t row = (work->first_row[i] + n - 1) / n * n; row < work->end_row[i]; row += n) {
            uint64_t answer = function(work->w, work->p, work->q, path_of(work, i),
                                       work->points * 8, work->columns, work->rows, row, runs, ROOM);
            if (zimarolfo_refusal(answer) != ZIMAROLFO_DONE)
                give_up("a row was refused");
            uint8_t *line = line_of(work, film, row);
            for (uint32_t k = 0; k < zimarolfo_count(answer); k++) {
                struct zimarolfo_run run = zimarolfo_run_at(runs, k);
                fill(line, run.left, run.right);
            }
        }
    }
}

static void library_by_runs(const struct work *work, uint8_t *film, size_t n)
{
    by_runs(zimarolfo_row, work, film, n);
}

static void fast_by_runs(const struct work *work, uint8_t *film, size_t n)
{
    by_runs(peer_row, work, film, n);
}

static void library_packed(const struct work *work, uint8_t *film, size_t n)
{
    static uint8_t packed[2048];
    for (size_t i = 0; i < work->strokes; i++) {
        for (size_t row = (work->first_row[i] + n - 1) / n * n; row < work->end_row[i]; row += n) {
            uint64_t answer = zimarolfo_packed_row(work->w, work->p, work->q, path_of(work, i),
                                                   work->points * 8, work->columns, work->rows,
                                                   row, packed, sizeof packed);
            if (zimarolfo_refusal(answer) != ZIMAROLFO_DONE)
                give_up("a packed row was refused");
            lay(line_of(work, film, row), packed, work->row_len);
        }
    }
}

static void fast_film(const struct work *work, uint8_t *film, size_t n)
{
    (void)n;
    struct peer_pen *pen = peer_pen(work->w, work->p, work->q);
    if (pen == NULL)
        give_up("no pen");
    for (size_t i = 0; i < work->strokes; i++)
        peer_draw(pen, path_of(work, i), work->points * 8, work->columns, work->rows, film);
    peer_pen_free(pen);
}

/* Its own rows, in its own order of bits; only the time is compared. */
static void with_cairo(const struct work *work, uint8_t *film, size_t n)
{
    (void)n;
    int stride = cairo_format_stride_for_width(CAIRO_FORMAT_A1, (int)work->columns);
    if ((size_t)stride > work->row_len)
        give_up("cairo's rows are longer than ours");
    cairo_surface_t *surface = cairo_image_surface_create_for_data(
        film, CAIRO_FORMAT_A1, (int)work->columns, (int)work->rows, stride);
    cairo_t *cairo = cairo_create(surface);
    cairo_set_antialias(cairo, CAIRO_ANTIALIAS_NONE);
    cairo_set_line_cap(cairo, CAIRO_LINE_CAP_ROUND);
    cairo_set_line_join(cairo, CAIRO_LINE_JOIN_ROUND);
    cairo_set_line_width(cairo, (double)work->w / 16);
    for (size_t i = 0; i < work->strokes; i++) {
        for (size_t point = 0; point < work->points; point++) {
            const int32_t *xy = work->coordinates + 2 * (i * work->points + point);
            double x = xy[0] / 16.0 + 0.5, y = (double)work->rows - 0.5 - xy[1] / 16.0;
            if (point == 0)
                cairo_move_to(cairo, x, y);
            if (point > 0 || work->points == 1)
                cairo_line_to(cairo, x, y);
        }
        cairo_stroke(cairo);
    }
    cairo_surface_flush(surface);
    if (cairo_status(cairo) != CAIRO_STATUS_SUCCESS)
        give_up(cairo_status_to_string(cairo_status(cairo)));
    cairo_destroy(cairo);
    cairo_surface_destroy(surface);
}

const struct contender contenders[CONTENDERS] = {
    [BAND] = {"band", library_bands, false, true},
    [RUNS] = {"runs", library_by_runs, true, true},
    [PACKED] = {"packed", library_packed, true, true},
    [CAIRO] = {"cairo", with_cairo, false, false},
    [FAST_FILM] = {"fast, film", fast_film, false, true},
    [FAST_ROWS] = {"fast, rows", fast_by_runs, true, true},
};
