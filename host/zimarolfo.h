/*
 * The stroke drawer of a laser film plotter: which pixels of a row a stroke
 * blackens. Link libhost.a (x86-64). C99; also for C++. zimarolfo_band.h has the
 * function that draws a stroke into many rows by one call.
 *
 * Units. y grows upwards. Pixel (i, j) has its centre at column i, row j. A path
 * coordinate counts sixteenths of a pixel, so that centre is at (16i, 16j).
 *
 * w, p, q  The setting: width w in sixteenths, 16 to 512; aspect p/q with p and q
 *          each 1 to 16; and 16q <= w*p <= 512q. The pen is modelled on an ellipse
 *          w/16 pixels high and w*p/(16q) wide.
 * path     x, y, x, y, ... as bytes: four to a coordinate, two's complement, lowest
 *          byte first. 1 to 4,096 points; each coordinate from -262,144 to
 *          262,144. One point, or two equal ones, is a dot.
 * columns, rows
 *          The raster: each 1 to 16,384. Rows and columns count from 0.
 * row      The row that is asked for, below rows. Row 0 is the lowest.
 *
 * Black. While the pen moves along a segment of the path, it sweeps an area. A pixel
 * is black when its centre lies in the area of any segment. A centre on the border
 * counts when each side through it faces right, level or slanting, or straight up: on
 * the right border and on a flat top, but not on the left border or a flat bottom.
 *
 * The answer is one number: bits 0 to 7 the refusal, bits 8 to 31 the place, bits
 * 32 to 63 the count. The functions below take it apart.
 *
 *   refusal  given exactly when                               place
 *   0        done                                             0
 *   1        setting outside the limits above                 0
 *   2        path has no entries, an odd number, or more      0
 *            than 8,192; or its length in bytes is no
 *            multiple of four
 *   3        a coordinate outside its range                   index of the first
 *                                                             bad entry, from 0
 *   4        raster size outside 1 to 16,384                  0
 *   5        row not below the number of rows                 0
 *   7        more runs than the list has records, or a        0
 *            packed row longer than its buffer
 *
 * They are checked in the order 1, 2, 4, 5, 3, 7. The first that applies is the
 * answer, with count 0, and nothing lent is changed. Any numbers may be given.
 *
 * Every call ends. It reads the path, writes what is lent to it and touches nothing
 * else. Nothing is kept from one call to the next, so that rows may be asked for in
 * any order, and in several threads or processes at once.
 *
 * The caller sees to it that a pointer has as many bytes as its length says, that
 * they may be written where they are to be, and that the path does not overlap
 * what is written. Any address will do. A null pointer with length 0 is an empty
 * path (refusal 2) or no room at all: no run, or no byte, fits in it.
 *
 * Stack. A row call needs less than 54,000 bytes of it and a packed row less than
 * 52,000, whatever the path. A thread of ZIMAROLFO_STACK bytes, 64 KB, has enough
 * for both.
 */
#ifndef ZIMAROLFO_H
#define ZIMAROLFO_H

#include <stddef.h>
#include <stdint.h>

#ifdef __cplusplus
extern "C" {
#endif

/* A stack that is large enough for a thread that calls these functions, in bytes. */
#define ZIMAROLFO_STACK 65536

enum {
    ZIMAROLFO_DONE = 0,
    ZIMAROLFO_BAD_SETTING = 1,
    ZIMAROLFO_BAD_PATH = 2,
    ZIMAROLFO_BAD_COORDINATE = 3,
    ZIMAROLFO_BAD_RASTER = 4,
    ZIMAROLFO_BAD_ROW = 5,
    ZIMAROLFO_NO_ROOM = 7
};

/*
 * The runs of black pixels in a row, from left to right: the longest unbroken
 * stretches within the raster. A run is four bytes, left then right column (both
 * black), two bytes each, lowest first; the room is the whole number of such fours
 * in runs_len. The count is the number of runs. The first records hold them; those
 * after them, and the bytes past the last whole four, are unchanged. A row without
 * black pixels is done with count 0.
 */
uint64_t zimarolfo_row(uint64_t w, uint64_t p, uint64_t q,
                       const uint8_t *path, size_t path_len,
                       uint64_t columns, uint64_t rows, uint64_t row,
                       uint8_t *runs, size_t runs_len);

/*
 * The same row packed for a raw PBM file: the leftmost pixel in the highest bit,
 * black is 1, spare bits are 0. It fills ceil(columns/8) bytes, which is the count,
 * and leaves the rest of the buffer.
 */
uint64_t zimarolfo_packed_row(uint64_t w, uint64_t p, uint64_t q,
                              const uint8_t *path, size_t path_len,
                              uint64_t columns, uint64_t rows, uint64_t row,
                              uint8_t *bytes, size_t bytes_len);

/* The refusal of an answer; 0 is done. */
static inline unsigned zimarolfo_refusal(uint64_t answer)
{
    return (unsigned)(answer & 0xFF);
}

/* Its place: an index into the path's coordinates for refusal 3, else 0. */
static inline uint32_t zimarolfo_place(uint64_t answer)
{
    return (uint32_t)(answer >> 8 & 0xFFFFFF);
}

/* The number of runs, of bytes filled, or of a band's rows. */
static inline uint32_t zimarolfo_count(uint64_t answer)
{
    return (uint32_t)(answer >> 32);
}

/* A stretch of black pixels, both columns included. */
struct zimarolfo_run {
    uint16_t left;
    uint16_t right;
};

/* A run of a list; the index is below the count. */
static inline struct zimarolfo_run zimarolfo_run_at(const uint8_t *runs, size_t index)
{
    const uint8_t *four = runs + 4 * index;
    struct zimarolfo_run run;
    run.left = (uint16_t)(four[0] | four[1] << 8);
    run.right = (uint16_t)(four[2] | four[3] << 8);
    return run;
}

/* Puts a coordinate into a path of at least 4 * (index + 1) bytes. */
static inline void zimarolfo_put_coordinate(uint8_t *path, size_t index, int32_t coordinate)
{
    uint32_t bits = (uint32_t)coordinate;
    uint8_t *four = path + 4 * index;
    four[0] = (uint8_t)(bits & 0xFF);
    four[1] = (uint8_t)(bits >> 8 & 0xFF);
    four[2] = (uint8_t)(bits >> 16 & 0xFF);
    four[3] = (uint8_t)(bits >> 24);
}

#ifdef __cplusplus
}
#endif

#endif
