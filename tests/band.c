/*
 * The C function zimarolfo_band through its header, on the cases of document 01, with
 * document 02's W7, and against the packed row: both libraries are in this program.
 * Prints one line and ends with 0 when all holds; names each one that does not and ends
 * with 1.
 */
#include "checks.h"

#include "../host/zimarolfo_band.h"

/* What a film held before: 0 is white, 1 black, others are dirty, each in its way. */
enum { WHITE = 0, BLACK = 1, DIRTY = 2 };

static uint8_t dirt(unsigned film, size_t at)
{
    if (film == WHITE || film == BLACK)
        return film == WHITE ? 0 : 0xFF;
    uint32_t mixed = (uint32_t)(at + 1) * 2654435761u ^ film * 40503u;
    return (uint8_t)(mixed >> 13 ^ mixed >> 24);
}

static uint8_t *lend_film(unsigned film, size_t length)
{
    uint8_t *bytes = lend(length);
    for (size_t i = 0; i < length; i++)
        bytes[i] = dirt(film, i);
    return bytes;
}

static bool is_film(unsigned film, const uint8_t *bytes, size_t length)
{
    for (size_t i = 0; i < length; i++)
        if (bytes[i] != dirt(film, i))
            return false;
    return true;
}

static size_t row_len(const struct drawing *d)
{
    return (size_t)((d->columns + 7) / 8);
}

static uint64_t ask(const struct drawing *d, uint64_t first_row, uint64_t n_rows, uint8_t *bytes,
                    size_t bytes_len, uint64_t stride)
{
    return zimarolfo_band(d->w, d->p, d->q, d->path, d->path_len, d->columns, d->rows, first_row,
                          n_rows, bytes, bytes_len, stride);
}

static uint64_t done(uint64_t n_rows)
{
    return n_rows << 32;
}

/* The packed rows, each asked for by itself and laid over the film. */
static bool lay_rows(const struct drawing *d, uint64_t first_row, uint64_t n_rows, uint8_t *bytes,
                     size_t stride)
{
    size_t length = row_len(d);
    uint8_t *packed = lend(length);
    bool good = true;
    for (uint64_t i = 0; i < n_rows; i++) {
        uint64_t answer = zimarolfo_packed_row(d->w, d->p, d->q, d->path, d->path_len, d->columns,
                                               d->rows, first_row + n_rows - 1 - i, packed, length);
        good = good && answer == (uint64_t)length << 32;
        for (size_t k = 0; good && k < length; k++)
            bytes[(size_t)i * stride + k] |= packed[k];
    }
    free(packed);
    return good;
}

/* A band over a film that held this, with bytes after its rows: its packed rows laid over. */
static bool is_its_rows(const struct drawing *d, uint64_t first_row, uint64_t n_rows,
                        size_t padding, size_t after, unsigned film)
{
    size_t stride = row_len(d) + padding, length = stride * (size_t)n_rows + after;
    uint8_t *band = lend_film(film, length), *rows = lend_film(film, length);
    bool good = ask(d, first_row, n_rows, band, length, stride) == done(n_rows) &&
                lay_rows(d, first_row, n_rows, rows, stride) && memcmp(band, rows, length) == 0;
    free(band);
    free(rows);
    return good;
}

/* With all paddings up to 9 and over all films. */
static bool are_its_rows(const struct drawing *d, uint64_t first_row, uint64_t n_rows)
{
    for (size_t padding = 0; padding < 10; padding++)
        for (unsigned film = WHITE; film < DIRTY + 3; film++)
            if (!is_its_rows(d, first_row, n_rows, padding, padding * film, film))
                return false;
    return true;
}

/* Every band of the film that there is. */
static bool all_bands_are_their_rows(const struct drawing *d)
{
    for (uint64_t first_row = 0; first_row < d->rows; first_row++)
        for (uint64_t n_rows = 1; n_rows <= d->rows - first_row; n_rows++)
            if (!are_its_rows(d, first_row, n_rows))
                return false;
    return true;
}

/* The film as text, the top row first, each row's bytes in hexadecimal. */
static bool film_is(const struct drawing *d, const char *expected)
{
    size_t stride = row_len(d), length = stride * (size_t)d->rows;
    uint8_t *bytes = lend_film(WHITE, length);
    char *text = (char *)lend(2 * length + (size_t)d->rows + 1), *at = text;
    bool good = ask(d, 0, d->rows, bytes, length, stride) == done(d->rows);
    for (size_t i = 0; i < length; i++)
        at += sprintf(at, (i + 1) % stride == 0 ? "%02X " : "%02X", bytes[i]);
    good = good && strcmp(text, expected) == 0;
    free(bytes);
    free(text);
    return good;
}

static void cases_of_the_paper(void)
{
    struct drawing d = DRAWING(16, 32, 16);
    d.columns = 5;
    d.rows = 3;
    CHECK(film_is(&d, "00 20 00 "));
    free(d.path);

    d = DRAWING(48, 48, 32, 160, 32);
    d.rows = 5;
    CHECK(film_is(&d, "000000 1FF000 3FF000 1FF000 000000 "));
    d.columns = 6;
    CHECK(film_is(&d, "00 1C 3C 1C 00 "));
    CHECK(all_bands_are_their_rows(&d));
    free(d.path);

    d = DRAWING(48, 48, 40, 160, 40);
    d.rows = 6;
    CHECK(film_is(&d, "000000 1FE000 3FF000 3FF000 000000 000000 "));
    free(d.path);

    d = DRAWING(16, 0, 0, 160, 160);
    CHECK(film_is(&d, "000000 002000 004000 008000 010000 020000 040000 080000 100000 200000 "
                      "400000 800000 "));
    CHECK(all_bands_are_their_rows(&d));
    free(d.path);

    d = DRAWING(16, 16, 64, 16, 16, 80, 16, 80, 64);
    d.rows = 6;
    CHECK(film_is(&d, "000000 440000 440000 440000 7C0000 000000 "));
    CHECK(all_bands_are_their_rows(&d));
    free(d.path);

    /* A dot between two rows and two columns: nothing is black. */
    d = DRAWING(16, 32, 40);
    d.rows = 4;
    CHECK(film_is(&d, "000000 000000 000000 000000 "));
    free(d.path);
}

/* Pixels up to both ends, in films whose last byte has every number of spare bits. */
static void spans_across_bytes(void)
{
    for (uint64_t columns = 1; columns <= 33; columns++) {
        struct drawing d = DRAWING(48, -400, 24, 1600, 24);
        d.columns = columns;
        d.rows = 3;
        CHECK(all_bands_are_their_rows(&d));
        free(d.path);
    }
    for (int32_t left = 0; left < 20; left++) {
        for (int32_t right = left; right < 20; right++) {
            struct drawing d = DRAWING(16, 16 * left, 16, 16 * right, 16);
            d.rows = 2;
            CHECK(is_its_rows(&d, 1, 1, 0, 0, WHITE));
            CHECK(is_its_rows(&d, 0, 2, 1, 4, DIRTY));
            free(d.path);
        }
    }
}

/* One band is two of them, one after the other, wherever the seam is. */
static void bands_one_after_the_other(void)
{
    struct drawing d = DRAWING(100, -40, -40, 330, 200, 24, 8, 160, 90, 160, 90);
    d.p = 3;
    d.q = 2;
    size_t stride = row_len(&d) + 2, length = stride * 12;
    uint8_t *one = lend_film(DIRTY, length);
    CHECK(ask(&d, 0, 12, one, length, stride) == done(12));
    for (uint64_t seam = 1; seam < 12; seam++) {
        uint8_t *two = lend_film(DIRTY, length);
        size_t upper = stride * (size_t)(12 - seam);
        CHECK(ask(&d, 0, seam, two + upper, length - upper, stride) == done(seam));
        CHECK(ask(&d, seam, 12 - seam, two, upper, stride) == done(12 - seam));
        CHECK(memcmp(one, two, length) == 0);
        free(two);
    }
    free(one);
    CHECK(all_bands_are_their_rows(&d));
    free(d.path);
}

/* Strokes laid over each other: each keeps what the others have blackened. */
static void strokes_over_each_other(void)
{
    struct drawing a = DRAWING(48, 0, 0, 300, 180), b = DRAWING(32, 300, 0, 0, 180);
    uint8_t *band = lend_film(WHITE, 36), *rows = lend_film(WHITE, 36), *back = lend_film(WHITE, 36);
    CHECK(ask(&a, 0, 12, band, 36, 3) == done(12));
    CHECK(ask(&b, 0, 12, band, 36, 3) == done(12));
    CHECK(ask(&b, 0, 12, back, 36, 3) == done(12));
    CHECK(ask(&a, 0, 12, back, 36, 3) == done(12));
    CHECK(lay_rows(&a, 0, 12, rows, 3) && lay_rows(&b, 0, 12, rows, 3));
    CHECK(memcmp(band, rows, 36) == 0 && memcmp(back, rows, 36) == 0);
    free(a.path);
    free(b.path);
    free(band);
    free(rows);
    free(back);
}

/* More rows than there are in a tile of 256, and the widest film. */
static void large_bands(void)
{
    struct drawing d = DRAWING(40, 100, -100, 500, 20000, 40, 9000, 640, 100);
    d.columns = 40;
    d.rows = 1200;
    CHECK(is_its_rows(&d, 0, 1200, 0, 0, WHITE));
    CHECK(is_its_rows(&d, 0, 1200, 3, 5, DIRTY));
    CHECK(is_its_rows(&d, 255, 770, 0, 0, DIRTY));
    CHECK(is_its_rows(&d, 1, 257, 1, 0, WHITE));
    free(d.path);
    d = DRAWING(512, -262144, 262144, 262144, -262144, 262144, 262144, 100, 100);
    d.columns = d.rows = 16384;
    CHECK(is_its_rows(&d, 0, 1, 0, 0, WHITE));
    CHECK(is_its_rows(&d, 16383, 1, 7, 1, DIRTY));
    CHECK(is_its_rows(&d, 8000, 300, 0, 0, WHITE));
    free(d.path);
    enum { POINTS = 4096 };
    int32_t *zigzag = malloc(2 * POINTS * sizeof *zigzag);
    if (zigzag == NULL)
        exit(3);
    for (int32_t k = 0; k < POINTS; k++) {
        zigzag[2 * k] = 24 * k;
        zigzag[2 * k + 1] = k % 2 == 0 ? 8 : 300;
    }
    d = drawing(16, zigzag, 2 * POINTS);
    free(zigzag);
    d.columns = 6150;
    d.rows = 24;
    CHECK(is_its_rows(&d, 0, 24, 0, 0, WHITE));
    CHECK(is_its_rows(&d, 3, 9, 1, 0, DIRTY));
    free(d.path);
}

/* A refusal, with count 0; nothing of a room that would be enough is changed. */
static bool refused(const struct drawing *d, uint64_t first_row, uint64_t n_rows, unsigned refusal,
                    uint32_t place)
{
    enum { ROOM = 16384 };
    size_t stride = d->columns <= 16384 ? row_len(d) : 1;
    uint8_t *room = lend_film(DIRTY, ROOM);
    uint64_t answer = ask(d, first_row, n_rows, room, ROOM, stride);
    bool good = zimarolfo_refusal(answer) == refusal && zimarolfo_place(answer) == place &&
                zimarolfo_count(answer) == 0 && is_film(DIRTY, room, ROOM);
    free(room);
    return good;
}

/* The lowest rows, over a dirty film; with a byte after each row; and refused. */
static bool lowest_rows(const struct drawing *d, uint64_t n_rows)
{
    return is_its_rows(d, 0, n_rows, 0, 0, DIRTY);
}

static bool lowest_rows_apart(const struct drawing *d, uint64_t n_rows)
{
    return is_its_rows(d, 0, n_rows, 1, 0, DIRTY);
}

static bool lowest_rows_refused(const struct drawing *d, uint64_t n_rows, unsigned refusal,
                                uint32_t place)
{
    return refused(d, 0, n_rows, refusal, place);
}

static void limits_of_settings_and_sizes(void)
{
    check_settings(12, lowest_rows, lowest_rows_refused);
    struct drawing d = DRAWING(0, 0, 0);
    d.p = d.q = 0;
    CHECK(refused(&d, 0, 12, ZIMAROLFO_BAD_SETTING, 0));
    free(d.path);
    check_sizes(1, lowest_rows, lowest_rows_refused);
}

static void limits_of_rows(void)
{
    struct drawing d = DRAWING(48, 48, 32, 160, 90);
    const uint64_t far[] = {13, 14, 256, 65536, UINT64_C(1) << 32, UINT64_C(1) << 63,
                            UINT64_MAX - 11, UINT64_MAX - 1, UINT64_MAX};
    for (uint64_t first_row = 0; first_row < 12; first_row++) {
        uint64_t above = 12 - first_row;
        CHECK(is_its_rows(&d, first_row, above, 0, 0, DIRTY));
        CHECK(refused(&d, first_row, above + 1, ZIMAROLFO_BAD_ROW, 0));
        CHECK(refused(&d, first_row, 0, ZIMAROLFO_BAD_ROW, 0));
        /* Their end is a row of the film in 64 bits. */
        for (uint64_t end = 0; end < first_row; end++)
            CHECK(refused(&d, first_row, end - first_row, ZIMAROLFO_BAD_ROW, 0));
    }
    for (size_t i = 0; i < sizeof far / sizeof far[0]; i++) {
        CHECK(refused(&d, 0, far[i], ZIMAROLFO_BAD_ROW, 0));
        CHECK(refused(&d, 11, far[i], ZIMAROLFO_BAD_ROW, 0));
        CHECK(refused(&d, far[i], 1, ZIMAROLFO_BAD_ROW, 0));
        CHECK(refused(&d, far[i], far[i], ZIMAROLFO_BAD_ROW, 0));
        CHECK(refused(&d, far[i], 0 - far[i], ZIMAROLFO_BAD_ROW, 0));
    }
    CHECK(refused(&d, 12, 0, ZIMAROLFO_BAD_ROW, 0));
    CHECK(refused(&d, 12, 1, ZIMAROLFO_BAD_ROW, 0));
    free(d.path);
}

static void limits_of_room(void)
{
    struct drawing d = DRAWING(48, 48, 32, 160, 90);
    for (uint64_t stride = 0; stride < 7; stride++) {
        for (uint64_t n_rows = 1; n_rows <= 4; n_rows++) {
            for (size_t length = 0; length < 32; length++) {
                uint8_t *bytes = lend_film(DIRTY, length);
                bool fits = stride >= 3 && stride * n_rows <= length;
                uint64_t answer = ask(&d, 2, n_rows, bytes, length, stride);
                CHECK(answer == (fits ? done(n_rows) : ZIMAROLFO_NO_ROOM));
                CHECK(fits || is_film(DIRTY, bytes, length));
                free(bytes);
            }
        }
    }
    /* Strides that come back to small numbers when they are multiplied, or cut. */
    const uint64_t far[] = {33,
                            UINT64_C(1) << 32,
                            (UINT64_C(1) << 32) + 3,
                            UINT64_C(1) << 61,
                            (UINT64_C(1) << 62) + 3,
                            UINT64_C(1) << 63,
                            UINT64_MAX / 3 + 1,
                            UINT64_MAX - 2,
                            UINT64_MAX};
    for (size_t i = 0; i < sizeof far / sizeof far[0]; i++) {
        for (uint64_t n_rows = 1; n_rows <= 12; n_rows++) {
            uint8_t *bytes = lend_film(DIRTY, 32);
            CHECK(ask(&d, 0, n_rows, bytes, 32, far[i]) == ZIMAROLFO_NO_ROOM);
            CHECK(is_film(DIRTY, bytes, 32));
            CHECK(ask(&d, 0, n_rows, NULL, 0, far[i]) == ZIMAROLFO_NO_ROOM);
            free(bytes);
        }
    }
    free(d.path);
}

static void limits_of_paths(void)
{
    check_path_lengths(4, lowest_rows_apart, lowest_rows_refused);
    check_coordinates(12, lowest_rows, lowest_rows_refused);
}

/* In no room, and in too little of it. */
static void refuses_first(const struct drawing *d, uint64_t n_rows, uint64_t expected)
{
    uint8_t *bytes = lend_film(DIRTY, 36);
    CHECK(ask(d, 0, n_rows, NULL, 0, 3) == expected);
    CHECK(ask(d, 0, n_rows, NULL, 0, 0) == expected);
    CHECK(ask(d, 0, n_rows, bytes, 35, 3) == expected);
    CHECK(ask(d, 0, n_rows, bytes, 36, 2) == expected);
    CHECK(is_film(DIRTY, bytes, 36));
    free(bytes);
}

int main(void)
{
    cases_of_the_paper();
    spans_across_bytes();
    bands_one_after_the_other();
    strokes_over_each_other();
    large_bands();
    limits_of_settings_and_sizes();
    limits_of_rows();
    limits_of_room();
    limits_of_paths();
    check_order(13, 12, refuses_first);
    return end_of_checks("band");
}
