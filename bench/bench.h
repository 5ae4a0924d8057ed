/* What bench.c, films.c, works.c and memory.c share. */
#ifndef BENCH_H
#define BENCH_H

#include "../host/zimarolfo_band.h"

#include <stdbool.h>
#include <stddef.h>
#include <stdint.h>

/* ------------------------------------------------------------------ shared.c */

_Noreturn void give_up(const char *what);

void *memory(size_t length);

/*
 * The time that this process has computed. All contenders are of one thread, so that
 * nothing of their work is missed, and waiting for a busy machine does not count.
 */
double seconds(void);

/* The time by a clock on the wall. */
double wall_seconds(void);

/* ------------------------------------------------------------------- bench.c */

/* Keeps a number for the file of numbers. */
void keep(const char *table, const char *line, const char *column, double value);

/* ------------------------------------------------------------------- works.c */

/* Strokes of one setting on a film. */
struct work {
    const char *name;
    uint64_t w, p, q;
    size_t columns, rows, row_len;
    size_t strokes, points;
    uint8_t *paths;
    int32_t *coordinates;
    /* The rows within each stroke's reach. */
    size_t *first_row, *end_row;
};

struct work new_work(const char *name, uint64_t w, size_t columns, size_t rows, size_t strokes,
                     size_t points);
void put(struct work *work, size_t stroke, size_t point, int32_t x, int32_t y);
void free_work(struct work *work);

enum { DIAGONAL, STROKES, ZIGZAG, WAVE, WIDE_STROKES, DOTS, WORKS };

/* A short name, and how the strokes are made. */
struct maker {
    const char *name;
    struct work (*make)(void);
};

extern const struct maker makers[WORKS];

/* Draws the rows whose number leaves nothing when divided by n; all of them if not by rows. */
struct contender {
    const char *name;
    void (*draw)(const struct work *work, uint8_t *film, size_t n);
    bool by_rows, same_pixels;
};

enum { BAND, RUNS, PACKED, CAIRO, FAST_FILM, FAST_ROWS, CONTENDERS };

extern const struct contender contenders[CONTENDERS];

uint8_t *line_of(const struct work *work, uint8_t *film, size_t row);

/* The second program's fast way: see second/examples/peer.rs. */
struct peer_pen;
struct peer_pen *peer_pen(uint64_t w, uint64_t p, uint64_t q);
void peer_pen_free(struct peer_pen *pen);
void peer_draw(const struct peer_pen *pen, const uint8_t *path, size_t path_len, size_t columns,
               size_t rows, uint8_t *film);
uint64_t peer_row(uint64_t, uint64_t, uint64_t, const uint8_t *, size_t, uint64_t, uint64_t,
                  uint64_t, uint8_t *, size_t);
uint64_t peer_packed_row(uint64_t, uint64_t, uint64_t, const uint8_t *, size_t, uint64_t,
                         uint64_t, uint64_t, uint8_t *, size_t);
uint64_t peer_band(uint64_t, uint64_t, uint64_t, const uint8_t *, size_t, uint64_t, uint64_t,
                   uint64_t, uint64_t, uint8_t *, size_t, uint64_t);

typedef uint64_t row_function(uint64_t, uint64_t, uint64_t, const uint8_t *, size_t, uint64_t,
                              uint64_t, uint64_t, uint8_t *, size_t);

/* No row of 16,384 columns has more runs. */
enum { MOST_RUNS = 8192, ROOM = 4 * MOST_RUNS };

/* ------------------------------------------------------------------ memory.c */

/* Prints what memory the calls need, and what they call outside of the two libraries. */
void print_memory(const char *outside, const char *outside_band);

/* Finds it out; before anything else is allocated, so that the heap is small. */
void find_memory(void);

#endif
