/*
 * films CONTENDER <LIST >FILM: draws a list of strokes by one of bench.h's contenders on a film
 * in memory, and writes that as a raw PBM file. bench/films builds and runs it.
 *
 * The list has the film's columns and rows, both multiples of 64, how many settings there are, and for
 * each of them w, p and q, how many strokes, how many points each of these has, and the coordinates.
 *
 * Standard error gets three times, in seconds, none of which has the list's reading in it: what
 * was computed until the film was drawn, what until it was written, and that by the wall's clock.
 * The film's memory is got from the system, all clear, within these times.
 */
#include "bench.h"

#include <inttypes.h>
#include <stdio.h>
#include <stdlib.h>
#include <string.h>

/* A film has so many settings at most. */
enum { SETTINGS = 32 };

static int32_t number(void)
{
    int32_t n;
    if (scanf("%" SCNd32, &n) != 1)
        give_up("a number is missing in the list");
    return n;
}

static size_t count(void)
{
    int32_t n = number();
    if (n < 0)
        give_up("a count in the list is below 0");
    return (size_t)n;
}

/* The strokes of one setting. */
static struct work read_work(size_t columns, size_t rows)
{
    uint64_t w = count(), p = count(), q = count();
    size_t strokes = count(), points = count();
    struct work work = new_work(NULL, w, columns, rows, strokes, points);
    work.p = p;
    work.q = q;
    for (size_t i = 0; i < strokes; i++) {
        for (size_t point = 0; point < points; point++) {
            int32_t x = number();
            put(&work, i, point, x, number());
        }
    }
    return work;
}

/* Turns the bits of each byte round, eight bytes at a time: cairo's leftmost pixel is in the lowest bit. */
static void turn_bits(uint8_t *film, size_t length)
{
    for (size_t at = 0; at < length; at += 8) {
        uint64_t b;
        memcpy(&b, film + at, 8);
        b = (b >> 1 & 0x5555555555555555) | (b & 0x5555555555555555) << 1;
        b = (b >> 2 & 0x3333333333333333) | (b & 0x3333333333333333) << 2;
        b = (b >> 4 & 0x0F0F0F0F0F0F0F0F) | (b & 0x0F0F0F0F0F0F0F0F) << 4;
        memcpy(film + at, &b, 8);
    }
}

static const struct contender *contender_of(const char *name)
{
    for (int i = 0; i < CONTENDERS; i++)
        if (strcmp(contenders[i].name, name) == 0)
            return &contenders[i];
    give_up("no such contender");
}

int main(int argc, char **argv)
{
    if (argc != 2) {
        fprintf(stderr, "usage: films CONTENDER <LIST >FILM\n");
        return 2;
    }
    const struct contender *contender = contender_of(argv[1]);
    struct work works[SETTINGS];
    size_t columns = count(), rows = count(), settings = count();
    if (columns % 64 != 0 || rows % 64 != 0 || settings > SETTINGS)
        give_up("sizes that are no multiples of 64, or too many settings");
    for (size_t i = 0; i < settings; i++)
        works[i] = read_work(columns, rows);

    double computed = seconds(), wall = wall_seconds();
    size_t length = rows * (columns / 8);
    uint8_t *film = calloc(length, 1);
    if (film == NULL)
        give_up("no memory");
    for (size_t i = 0; i < settings; i++)
        contender->draw(&works[i], film, 1);
    double drawn = seconds();
    if (contender == &contenders[CAIRO])
        turn_bits(film, length);
    if (printf("P4\n%zu %zu\n", columns, rows) < 0 || fwrite(film, 1, length, stdout) != length ||
        fflush(stdout) != 0)
        give_up("the film could not be written");
    fprintf(stderr, "%.9f %.9f %.9f\n", drawn - computed, seconds() - computed, wall_seconds() - wall);
    return 0;
}
