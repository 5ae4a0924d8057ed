/*
 * The stroke drawer of a laser film plotter: a stroke laid over a band of a film, that
 * is over some neighbouring rows of it. Link libhost_band.a (x86-64); together with
 * libhost.a where the functions of zimarolfo.h are called too. C99; also for C++.
 *
 * Units, setting, path, raster, which pixels are black, the answer and its functions,
 * and what holds of every call, are those of zimarolfo.h. Here is what differs.
 */
#ifndef ZIMAROLFO_BAND_H
#define ZIMAROLFO_BAND_H

#include "zimarolfo.h"

#ifdef __cplusplus
extern "C" {
#endif

/*
 * Lays the stroke over the rows first_row to first_row + n_rows - 1 of a film of so
 * many columns and rows. The top one of them, that is the highest row, is at bytes,
 * and each next lower row is stride bytes further: bands one after the other, the top
 * one first, make the data of a raw PBM file.
 *
 * A row is packed as zimarolfo_packed_row packs it: the leftmost pixel in the highest
 * bit, black is 1. Each pixel's bit becomes 1 where the stroke is black, and stays what
 * it was elsewhere, so that strokes are laid over each other by one call each. All else
 * is unchanged: spare bits, the bytes of a row past ceil(columns/8), and what follows
 * the last row. So a band is its packed rows laid over, row by row, and it does not
 * matter where a film is cut into bands, nor in which order or process they are drawn.
 *
 *   refusal  given exactly when
 *   5        first_row is not below rows, or n_rows is 0, or n_rows is more than
 *            rows - first_row
 *   7        stride is less than ceil(columns/8), or bytes_len / stride, a whole
 *            number, is less than n_rows
 *
 * 1, 2, 3 and 4, and the place of 3, are as in zimarolfo.h; they are checked in the order
 * 1, 2, 4, 5, 3, 7. The first that applies is the answer, with count 0, and nothing is
 * changed. The count of a call that is done is n_rows. Any numbers may be given; a null
 * pointer with length 0 is an empty path (refusal 2), or room for no row (refusal 7).
 *
 * Stack. This call needs less than 37,000 bytes of it, whatever the path. A thread of
 * ZIMAROLFO_STACK bytes has enough.
 *
 * Bands that do not overlap may be drawn at once, in several threads or processes.
 */
uint64_t zimarolfo_band(uint64_t w, uint64_t p, uint64_t q,
                        const uint8_t *path, size_t path_len,
                        uint64_t columns, uint64_t rows,
                        uint64_t first_row, uint64_t n_rows,
                        uint8_t *bytes, size_t bytes_len, uint64_t stride);

#ifdef __cplusplus
}
#endif

#endif
