/*
 * bench MACHINE LIBRARIES NUMBERS PATIENCE OUTSIDE OUTSIDE_BAND: times the libraries through
 * the C boundary against cairo and against the second program's fast way, looks what memory they
 * need, and prints tables in Markdown; every number goes to the file NUMBERS too, as lines of
 * table, line, column and value with tabs between. bench/run builds and runs it.
 *
 * All take turns, so that what else the machine does falls on each; of several rounds the
 * fastest counts. A film is cleared before each one, outside
 * the time. Work whose rows would take too long is timed on every n-th row and multiplied
 * by n; such times are marked with ~. The library must draw the fast way's pixels; cairo's
 * pen is another, so that only its number of black pixels is told.
 */
#include "bench.h"

#include <cairo.h>
#include <math.h>
#include <stdio.h>
#include <stdlib.h>
#include <string.h>

/* A contender has about this long, in seconds, for a work; one round takes half of it at most. */
static double patience;

static FILE *numbers;

void keep(const char *table, const char *line, const char *column, double value)
{
    fprintf(numbers, "%s\t%s\t%s\t%.9g\n", table, line, column, value);
}

/* A cell with three digits that count, or all before the point. */
static void print_cell(const char *mark, double value)
{
    printf(" %s%.*f |", mark, value < 9.995 ? 2 : value < 99.95 ? 1 : 0, value);
}

/* ----------------------------------------------------------------- whole films */

struct timing {
    double seconds;
    size_t n;
};

static struct timing timings[WORKS][CONTENDERS];

static double once(const struct contender *contender, const struct work *work, uint8_t *film,
                   size_t n)
{
    memset(film, 0, work->rows * work->row_len);
    double start = seconds();
    contender->draw(work, film, n);
    return (seconds() - start) * (double)n;
}

/* On every how many rows a contender is timed, by what few of its rows take. */
static size_t every(const struct contender *contender, const struct work *work, uint8_t *film)
{
    size_t n = 1;
    if (contender->by_rows) {
        double guess = once(contender, work, film, 512);
        while (guess / (double)n > patience / 2)
            n *= 2;
    }
    return n;
}

/* On the rows that were drawn, the library's pixels are those of the fast way. */
static void compare(const struct contender *contender, const struct work *work, uint8_t *film,
                    uint8_t *other, size_t n)
{
    for (size_t row = 0; row < work->rows; row += n) {
        if (memcmp(line_of(work, film, row), line_of(work, other, row), work->row_len) != 0) {
            fprintf(stderr, "bench: %s: row %zu by \"%s\"\n", work->name, row, contender->name);
            give_up("the library and the fast way draw different pixels");
        }
    }
}

static unsigned long black_pixels(const uint8_t *film, size_t length)
{
    unsigned long count = 0;
    for (size_t i = 0; i < length; i++)
        for (unsigned byte = film[i]; byte != 0; byte &= byte - 1)
            count++;
    return count;
}

/* The work's line of the table of times. */
static void time_films(int number)
{
    struct work work = makers[number].make();
    struct timing *taken = timings[number];
    size_t length = work.rows * work.row_len;
    uint8_t *film = memory(length), *reference = memory(length);
    memset(reference, 0, length);
    contenders[FAST_FILM].draw(&work, reference, 1);
    unsigned long black = black_pixels(reference, length), cairos = 0;
    for (int i = 0; i < CONTENDERS; i++)
        taken[i] = (struct timing){INFINITY, every(&contenders[i], &work, film)};
    double start = seconds();
    for (int round = 0; round < 20; round++) {
        if (round >= 3 && seconds() - start >= patience * CONTENDERS)
            break;
        for (int i = 0; i < CONTENDERS; i++) {
            double passed = once(&contenders[i], &work, film, taken[i].n);
            taken[i].seconds = fmin(taken[i].seconds, passed);
            if (contenders[i].same_pixels)
                compare(&contenders[i], &work, film, reference, taken[i].n);
            else
                cairos = black_pixels(film, length);
        }
    }
    double mib = (double)length / (1 << 20);
    printf("| %s | %.0f | %lu | %lu |", work.name, mib, black, cairos);
    for (int i = 0; i < CONTENDERS; i++)
        print_cell(taken[i].n > 1 ? "~" : "", taken[i].seconds * 1e3);
    printf("\n");
    fflush(stdout);
    const char *line = makers[number].name;
    keep("films", line, "MiB", mib);
    keep("films", line, "black pixels", (double)black);
    keep("films", line, "cairo's black pixels", (double)cairos);
    for (int i = 0; i < CONTENDERS; i++) {
        keep("seconds", line, contenders[i].name, taken[i].seconds);
        keep("every n-th row", line, contenders[i].name, (double)taken[i].n);
    }
    free(film);
    free(reference);
    free_work(&work);
}

static double ratio(int work, int mine, int theirs)
{
    return timings[work][mine].seconds / timings[work][theirs].seconds;
}

static const struct {
    int mine, theirs;
} ratios[] = {
    {BAND, CAIRO},     {RUNS, CAIRO},     {PACKED, CAIRO},     {FAST_FILM, CAIRO},
    {BAND, FAST_FILM}, {RUNS, FAST_ROWS}, {PACKED, FAST_ROWS},
};

enum { RATIOS = sizeof ratios / sizeof *ratios };

static void print_ratios(void)
{
    printf("\nHow many times as long one takes as the other.\n\n| work |");
    for (int i = 0; i < RATIOS; i++)
        printf(" %s / %s |", contenders[ratios[i].mine].name, contenders[ratios[i].theirs].name);
    printf("\n|---|");
    for (int i = 0; i < RATIOS; i++)
        printf("---:|");
    printf("\n");
    for (int work = 0; work < WORKS; work++) {
        printf("| %s |", makers[work].name);
        for (int i = 0; i < RATIOS; i++)
            print_cell("", ratio(work, ratios[i].mine, ratios[i].theirs));
        printf("\n");
    }
}

/* Of cairo's time, at most. */
static const struct {
    int work, contender;
    double most;
} targets[] = {
    {DIAGONAL, BAND, 0.25}, {STROKES, BAND, 0.25}, {ZIGZAG, BAND, 0.25},  {DOTS, BAND, 0.25},
    {WAVE, BAND, 0.6},      {STROKES, RUNS, 2.5},  {STROKES, PACKED, 2.5},
};

static void print_targets(void)
{
    printf("\nWhat was aimed at, of cairo's time.\n\n"
           "| work | call | at most | taken | |\n|---|---|---:|---:|---|\n");
    for (size_t i = 0; i < sizeof targets / sizeof *targets; i++) {
        double taken = ratio(targets[i].work, targets[i].contender, CAIRO);
        printf("| %s | %s | %.2f | %.2f | %s |\n", makers[targets[i].work].name,
               contenders[targets[i].contender].name, targets[i].most, taken,
               taken <= targets[i].most ? "met" : "missed");
    }
}

static void all_films(void)
{
    printf("### Whole films\n\n"
           "In milliseconds.\n\n"
           "| work | film, MiB | black pixels | cairo's |");
    for (int i = 0; i < CONTENDERS; i++)
        printf(" %s |", contenders[i].name);
    printf("\n|---|");
    for (int i = 0; i < 3 + CONTENDERS; i++)
        printf("---:|");
    printf("\n");
    for (int work = 0; work < WORKS; work++)
        time_films(work);
    print_ratios();
    print_targets();
}

/* ----------------------------------------------------------------- single calls */

/* Nanoseconds to a call: of batches within a twentieth of a second, the fastest counts. */
static double nanoseconds(row_function *function, const struct work *work, size_t row,
                          uint8_t *room, size_t room_len, unsigned refusal)
{
    double best = INFINITY, start = seconds();
    size_t batch = 1;
    while (seconds() - start < patience / 80) {
        double from = seconds();
        for (size_t i = 0; i < batch; i++) {
            uint64_t answer =
                function(work->w, work->p, work->q, work->paths, work->points * 8, work->columns,
                         work->rows, row, room, room_len);
            if (zimarolfo_refusal(answer) != refusal)
                give_up("a call was not answered as it should be");
        }
        double passed = seconds() - from;
        best = fmin(best, passed / (double)batch);
        if (passed < 1e-3)
            batch *= 2;
    }
    return best * 1e9;
}

/* A band of one row, and one of eight from a row on, in the shape of the row functions. */
static uint64_t band_of_one(uint64_t w, uint64_t p, uint64_t q, const uint8_t *path,
                            size_t path_len, uint64_t columns, uint64_t rows, uint64_t row,
                            uint8_t *room, size_t room_len)
{
    return zimarolfo_band(w, p, q, path, path_len, columns, rows, row, 1, room, room_len,
                          (columns + 7) / 8);
}

static uint64_t peer_band_of_one(uint64_t w, uint64_t p, uint64_t q, const uint8_t *path,
                                 size_t path_len, uint64_t columns, uint64_t rows, uint64_t row,
                                 uint8_t *room, size_t room_len)
{
    return peer_band(w, p, q, path, path_len, columns, rows, row, 1, room, room_len,
                     (columns + 7) / 8);
}

static uint64_t band_of_eight(uint64_t w, uint64_t p, uint64_t q, const uint8_t *path,
                              size_t path_len, uint64_t columns, uint64_t rows, uint64_t row,
                              uint8_t *room, size_t room_len)
{
    return zimarolfo_band(w, p, q, path, path_len, columns, rows, row, 8, room, room_len,
                          (columns + 7) / 8);
}

static uint64_t peer_band_of_eight(uint64_t w, uint64_t p, uint64_t q, const uint8_t *path,
                                   size_t path_len, uint64_t columns, uint64_t rows, uint64_t row,
                                   uint8_t *room, size_t room_len)
{
    return peer_band(w, p, q, path, path_len, columns, rows, row, 8, room, room_len,
                     (columns + 7) / 8);
}

enum form { ROW, PACKED_ROW, ONE_ROW_BAND, EIGHT_ROW_BAND };

static const struct {
    row_function *library, *fast;
} forms[] = {
    [ROW] = {zimarolfo_row, peer_row},
    [PACKED_ROW] = {zimarolfo_packed_row, peer_packed_row},
    [ONE_ROW_BAND] = {band_of_one, peer_band_of_one},
    [EIGHT_ROW_BAND] = {band_of_eight, peer_band_of_eight},
};

static void call(const char *name, struct work work, enum form form, size_t row, size_t room_len,
                 unsigned refusal)
{
    static uint8_t room[ROOM];
    double mine = INFINITY, theirs = INFINITY;
    for (int round = 0; round < 4; round++) {
        mine = fmin(mine, nanoseconds(forms[form].library, &work, row, room, room_len, refusal));
        theirs = fmin(theirs, nanoseconds(forms[form].fast, &work, row, room, room_len, refusal));
    }
    printf("| %s | %.0f | %.0f | %.2f |\n", name, mine, theirs, mine / theirs);
    fflush(stdout);
    keep("nanoseconds", name, "library", mine);
    keep("nanoseconds", name, "fast", theirs);
    free_work(&work);
}

static struct work segment(uint64_t w, size_t columns, int32_t x0, int32_t y0, int32_t x1,
                           int32_t y1)
{
    struct work work = new_work(NULL, w, columns, 4096, 1, 2);
    put(&work, 0, 0, x0, y0);
    put(&work, 0, 1, x1, y1);
    return work;
}

static struct work dot(uint64_t w)
{
    struct work work = new_work(NULL, w, 64, 4096, 1, 1);
    put(&work, 0, 0, 16 * 32, 16 * 100);
    return work;
}

static struct work points(size_t count, size_t columns)
{
    struct work work = new_work(NULL, 32, columns, 4096, 1, count);
    for (size_t point = 0; point < count; point++)
        put(&work, 0, point, (int32_t)(64 * point), point % 2 == 0 ? 16 * 90 : 16 * 110);
    return work;
}

static struct work black(size_t columns)
{
    return segment(64, columns, -1600, 160, 262144, 160);
}

static void single_calls(void)
{
    printf("\n### Single calls\n\n"
           "In nanoseconds; fast is the fast way behind the same function. A pen's cost is that of a\n"
           "row call on a dot with no room, refused with 7: the number of runs is known only once\n"
           "the pen is built; the one extent that follows is not taken off. The fast way keeps the\n"
           "pen it built last, so that the ratio of those lines says nothing about building pens.\n\n"
           "| call | library | fast | ratio |\n|---|---:|---:|---:|\n");
    struct work none = dot(64);
    none.points = 0;
    call("refused for the setting (1), w = 15", dot(15), ROW, 100, ROOM, ZIMAROLFO_BAD_SETTING);
    call("refused for an empty path (2), w = 64", none, ROW, 100, ROOM, ZIMAROLFO_BAD_PATH);
    call("refused for the row (5), w = 64", dot(64), ROW, 4096, ROOM, ZIMAROLFO_BAD_ROW);
    call("a pen, w = 16: a dot, no room (7)", dot(16), ROW, 100, 0, ZIMAROLFO_NO_ROOM);
    call("a pen, w = 64: a dot, no room (7)", dot(64), ROW, 100, 0, ZIMAROLFO_NO_ROOM);
    call("a pen, w = 512: a dot, no room (7)", dot(512), ROW, 100, 0, ZIMAROLFO_NO_ROOM);
    struct work missed = segment(64, 64, 0, 0, 800, 800);
    call("a row that misses the stroke, 1 segment, w = 64", missed, ROW, 4000, ROOM, 0);
    missed = segment(64, 64, 0, 0, 800, 800);
    call("a band of that row, which misses it", missed, ONE_ROW_BAND, 4000, ROOM, 0);
    struct work hit = segment(64, 64, 0, 0, 1600, 3200);
    call("a row with 1 segment, w = 64", hit, ROW, 50, ROOM, 0);
    hit = segment(64, 64, 0, 0, 1600, 3200);
    call("the same packed, 64 columns", hit, PACKED_ROW, 50, ROOM, 0);
    hit = segment(64, 64, 0, 0, 1600, 3200);
    call("the same as a band of one row", hit, ONE_ROW_BAND, 50, ROOM, 0);
    hit = segment(512, 64, 0, 0, 1600, 3200);
    call("a row with 1 segment, w = 512", hit, ROW, 50, ROOM, 0);
    call("a band of 8 rows around a dot, w = 64", dot(64), EIGHT_ROW_BAND, 96, ROOM, 0);
    call("16 points, each segment in the row", points(16, 16384), ROW, 100, ROOM, 0);
    call("256 points, each segment in the row", points(256, 16384), ROW, 100, ROOM, 0);
    call("4096 points, each segment in the row", points(4096, 16384), ROW, 100, ROOM, 0);
    call("16 points, none in the row", points(16, 16384), ROW, 1000, ROOM, 0);
    call("256 points, none in the row", points(256, 16384), ROW, 1000, ROOM, 0);
    call("4096 points, none in the row", points(4096, 16384), ROW, 1000, ROOM, 0);
    call("64 columns, all black", black(64), ROW, 10, ROOM, 0);
    call("1024 columns, all black", black(1024), ROW, 10, ROOM, 0);
    call("16384 columns, all black", black(16384), ROW, 10, ROOM, 0);
    call("64 columns, all black, packed", black(64), PACKED_ROW, 10, ROOM, 0);
    call("1024 columns, all black, packed", black(1024), PACKED_ROW, 10, ROOM, 0);
    call("16384 columns, all black, packed", black(16384), PACKED_ROW, 10, ROOM, 0);
}

int main(int argc, char **argv)
{
    if (argc != 7) {
        fprintf(stderr, "usage: bench MACHINE LIBRARIES NUMBERS PATIENCE OUTSIDE OUTSIDE_BAND\n");
        return 2;
    }
    find_memory();
    patience = strtod(argv[4], NULL);
    numbers = fopen(argv[3], "w");
    if (numbers == NULL || !(patience > 0))
        give_up("no file for the numbers, or no time");
    fprintf(numbers, "run\tmachine\t%s\t\nrun\tlibraries\t%s\t\n", argv[1], argv[2]);
    printf("Machine: %s. Libraries: %s.\n"
           "cairo %s on an A1 surface, no antialiasing, round caps and joins. Band: one call for\n"
           "each stroke, over the whole film. Runs: a call for each row within a stroke's reach, the\n"
           "runs filled into the film here; packed: the same, the rows or-ed into it. Fast: the second\n"
           "program's floor divisions over the sides, drawn into a film stroke by stroke (film), and\n"
           "behind the function of runs, row by row (rows); it keeps the pen that it built last.\n"
           "Films are cleared before the time runs. Times are the process's own computing. All\n"
           "take turns, and the fastest of 3 to 20 rounds counts; ~ is timed on every n-th row,\n"
           "times n. All but cairo are seen to draw the same pixels.\n\n",
           argv[1], argv[2], cairo_version_string());
    all_films();
    single_calls();
    print_memory(argv[5], argv[6]);
    if (fflush(stdout) != 0 || ferror(stdout) || fclose(numbers) != 0)
        give_up("what was found could not be written");
    return 0;
}
