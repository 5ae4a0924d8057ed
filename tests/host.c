/*
 * The C functions through the C header, on the cases of document 01, with document 02's
 * W7. Prints one line and ends with 0 when all hold; names each one that does not and
 * ends with 1.
 */
#include "checks.h"

static bool untouched(const uint8_t *bytes, size_t from, size_t to)
{
    for (size_t i = from; i < to; i++)
        if (bytes[i] != UNTOUCHED)
            return false;
    return true;
}

static uint64_t ask(const struct drawing *d, uint64_t row, uint8_t *runs, size_t runs_len)
{
    return zimarolfo_row(d->w, d->p, d->q, d->path, d->path_len, d->columns, d->rows, row, runs,
                         runs_len);
}

static uint64_t ask_packed(const struct drawing *d, uint64_t row, uint8_t *bytes, size_t bytes_len)
{
    return zimarolfo_packed_row(d->w, d->p, d->q, d->path, d->path_len, d->columns, d->rows, row,
                                bytes, bytes_len);
}

static bool bit(const uint8_t *bytes, size_t column)
{
    return (bytes[column / 8] >> (7 - column % 8) & 1) != 0;
}

/*
 * Both functions on a row: exactly these runs, given as left and right columns, and
 * the same pixels packed; what lies after them is untouched.
 */
static bool row_is(const struct drawing *d, uint64_t row, size_t count, const uint16_t *columns)
{
    size_t runs_len = 4 * count + 7, row_len = (size_t)((d->columns + 7) / 8);
    uint8_t *runs = lend(runs_len), *bytes = lend(row_len + 3);
    bool good = ask(d, row, runs, runs_len) == (uint64_t)count << 32 &&
                untouched(runs, 4 * count, runs_len) &&
                ask_packed(d, row, bytes, row_len + 3) == (uint64_t)row_len << 32 &&
                untouched(bytes, row_len, row_len + 3);
    for (size_t i = 0; good && i < count; i++) {
        struct zimarolfo_run run = zimarolfo_run_at(runs, i);
        good = run.left == columns[2 * i] && run.right == columns[2 * i + 1];
    }
    for (size_t column = 0; good && column < 8 * row_len; column++) {
        bool black = false;
        for (size_t i = 0; i < count; i++)
            black = black || (columns[2 * i] <= column && column <= columns[2 * i + 1]);
        good = bit(bytes, column) == black;
    }
    free(runs);
    free(bytes);
    return good;
}

static bool one_run(const struct drawing *d, uint64_t row, uint16_t left, uint16_t right)
{
    return row_is(d, row, 1, (const uint16_t[]){left, right});
}

static bool empty(const struct drawing *d, uint64_t row)
{
    return row_is(d, row, 0, NULL);
}

/* Both functions refuse alike, and change nothing of a room that would be enough. */
static bool refused(const struct drawing *d, uint64_t row, unsigned refusal, uint32_t place)
{
    enum { ROOM = 4096 };
    uint8_t *room = lend(ROOM);
    uint64_t answer = ask(d, row, room, ROOM), packed = ask_packed(d, row, room, ROOM);
    bool good = answer == packed && zimarolfo_refusal(answer) == refusal &&
                zimarolfo_place(answer) == place && zimarolfo_count(answer) == 0 &&
                untouched(room, 0, ROOM);
    free(room);
    return good;
}

static bool taken(const struct drawing *d, uint64_t row)
{
    enum { ROOM = 4096 };
    uint8_t *room = lend(ROOM);
    bool good = zimarolfo_refusal(ask(d, row, room, ROOM)) == ZIMAROLFO_DONE &&
                zimarolfo_refusal(ask_packed(d, row, room, ROOM)) == ZIMAROLFO_DONE;
    free(room);
    return good;
}

static void dots(void)
{
    struct drawing on = DRAWING(16, 32, 32), between = DRAWING(16, 40, 32);
    struct drawing above = DRAWING(16, 32, 40), twice = DRAWING(16, 32, 32, 32, 32);
    for (uint64_t row = 0; row < 12; row++) {
        CHECK(row == 2 ? one_run(&on, row, 2, 2) : empty(&on, row));
        CHECK(row == 2 ? one_run(&between, row, 3, 3) : empty(&between, row));
        CHECK(row == 2 ? one_run(&twice, row, 2, 2) : empty(&twice, row));
        CHECK(empty(&above, row));
    }
    free(on.path);
    free(between.path);
    free(above.path);
    free(twice.path);
}

static void level_paths(void)
{
    struct drawing d = DRAWING(48, 48, 32, 160, 32);
    for (uint64_t row = 0; row < 12; row++)
        CHECK(row == 1 || row == 3 ? one_run(&d, row, 3, 11)
              : row == 2           ? one_run(&d, row, 2, 11)
                                   : empty(&d, row));
    d.columns = 6;
    CHECK(one_run(&d, 2, 2, 5));
    free(d.path);

    d = DRAWING(48, 48, 40, 160, 40);
    for (uint64_t row = 0; row < 12; row++)
        CHECK(row == 2 || row == 3 ? one_run(&d, row, 2, 11)
              : row == 4           ? one_run(&d, row, 3, 10)
                                   : empty(&d, row));
    free(d.path);
}

static void slanted_and_bent_paths(void)
{
    struct drawing d = DRAWING(16, 0, 0, 160, 160);
    for (uint16_t row = 0; row < 12; row++)
        CHECK(row <= 10 ? one_run(&d, row, row, row) : empty(&d, row));
    free(d.path);

    d = DRAWING(16, 16, 64, 16, 16, 80, 16, 80, 64);
    CHECK(one_run(&d, 1, 1, 5));
    CHECK(row_is(&d, 3, 2, (const uint16_t[]){1, 1, 5, 5}));
    /* One record, and one with three bytes over, are too few for row 3; two are enough. */
    for (size_t length = 0; length <= 8; length++) {
        uint8_t *runs = lend(length);
        uint64_t answer = ask(&d, 3, runs, length);
        CHECK(length < 8 ? answer == ZIMAROLFO_NO_ROOM : answer == (uint64_t)2 << 32);
        CHECK(length == 8 || untouched(runs, 0, length));
        free(runs);
    }
    /* A row without black pixels needs no room, a packed row always does. */
    CHECK(ask(&d, 9, NULL, 0) == 0);
    CHECK(ask_packed(&d, 9, NULL, 0) == ZIMAROLFO_NO_ROOM);
    for (size_t length = 0; length <= 3; length++) {
        uint8_t *bytes = lend(length);
        CHECK(ask_packed(&d, 3, bytes, length) ==
              (length < 3 ? ZIMAROLFO_NO_ROOM : (uint64_t)3 << 32));
        CHECK(length == 3 || untouched(bytes, 0, length));
        free(bytes);
    }
    free(d.path);
}

/* "w=64 in direction (1,2): c is 9, so two neighbouring middle rows hold 9 pixels." */
static void line_weight(void)
{
    for (int32_t at = 100; at < 116; at++) {
        struct drawing d = DRAWING(64, at, 105, at + 100, 305);
        unsigned pixels[30] = {0};
        for (uint64_t row = 0; row < 30; row++) {
            uint8_t runs[80];
            d.rows = 30;
            uint64_t answer = ask(&d, row, runs, sizeof runs);
            CHECK(zimarolfo_refusal(answer) == ZIMAROLFO_DONE);
            for (uint32_t i = 0; i < zimarolfo_count(answer); i++) {
                struct zimarolfo_run run = zimarolfo_run_at(runs, i);
                pixels[row] += 1u + run.right - run.left;
            }
        }
        /* Row j is far enough inside when 105 + 32 <= 16j <= 305 - 32. */
        for (unsigned row = 9; row + 1 <= 17; row++)
            CHECK(pixels[row] + pixels[row + 1] == 9);
        free(d.path);
    }
}

static void limits_of_settings_and_sizes(void)
{
    check_settings(0, taken, refused);
    struct drawing d = DRAWING(512, 0, 0);
    d.p = d.q = 16;
    CHECK(taken(&d, 0));
    d.w = 16;
    d.p = d.q = 1;
    CHECK(taken(&d, 11));
    CHECK(refused(&d, 12, ZIMAROLFO_BAD_ROW, 0));
    CHECK(refused(&d, UINT64_MAX, ZIMAROLFO_BAD_ROW, 0));
    CHECK(refused(&d, UINT64_C(1) << 32, ZIMAROLFO_BAD_ROW, 0));
    free(d.path);
    check_sizes(0, taken, refused);
}

static bool a_dot_in_column_1(const struct drawing *d, uint64_t row)
{
    return one_run(d, row, 1, 1);
}

static void limits_of_paths(void)
{
    check_path_lengths(1, a_dot_in_column_1, refused);
    check_coordinates(0, taken, refused);
}

static void refuses_first(const struct drawing *d, uint64_t row, uint64_t expected)
{
    CHECK(ask(d, row, NULL, 0) == expected);
    CHECK(ask_packed(d, row, NULL, 0) == expected);
}

/* The whole PBM file for w=16, dot at (32,16), 5 columns, 3 rows. */
static void pbm_file(void)
{
    const uint8_t expected[] = {'P', '4', '\n', '5', ' ', '3', '\n', 0, 32, 0};
    struct drawing d = DRAWING(16, 32, 16);
    d.columns = 5;
    d.rows = 3;
    uint8_t file[sizeof expected + 1];
    int header = snprintf((char *)file, sizeof file, "P4\n5 3\n");
    for (unsigned i = 0; i < 3; i++)
        CHECK(ask_packed(&d, 2 - i, file + header + i, 1) == UINT64_C(1) << 32);
    CHECK(memcmp(file, expected, sizeof expected) == 0);
    free(d.path);
}

int main(void)
{
    dots();
    level_paths();
    slanted_and_bent_paths();
    line_weight();
    limits_of_settings_and_sizes();
    limits_of_paths();
    check_order(12, 1, refuses_first);
    pbm_file();
    return end_of_checks("host");
}
