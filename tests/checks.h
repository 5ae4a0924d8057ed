/*
 * What the tests of the C functions share: checks that are counted, memory that is
 * lent, drawings, and the limits of document 01 that every function keeps. Each test
 * has its own words for what it asks; here it is a number, a row or how many rows.
 */
#ifndef CHECKS_H
#define CHECKS_H

#include "../host/zimarolfo.h"

#include <stdbool.h>
#include <stdio.h>
#include <stdlib.h>
#include <string.h>

static unsigned checks, failures;

static inline void check(bool holds, const char *what, const char *file, int line)
{
    checks++;
    if (!holds) {
        failures++;
        fprintf(stderr, "%s:%d: does not hold: %s\n", file, line, what);
    }
}

#define CHECK(condition) check((condition), #condition, __FILE__, __LINE__)

/* Prints the line that a test ends with; what its main returns. */
static inline int end_of_checks(const char *name)
{
    printf("%s: %u checks, %u do not hold\n", name, checks, failures);
    return failures == 0 ? 0 : 1;
}

enum { UNTOUCHED = 0xEE };

/*
 * Length bytes, each untouched; a null pointer for none. They come from malloc in just
 * this length, so that a checker of memory sees a read or a write beside them.
 */
static inline uint8_t *lend(size_t length)
{
    if (length == 0)
        return NULL;
    uint8_t *bytes = malloc(length);
    if (bytes == NULL) {
        fprintf(stderr, "checks.h: no memory\n");
        exit(3);
    }
    memset(bytes, UNTOUCHED, length);
    return bytes;
}

/* A stroke on a film; the film is 20 by 12 unless stated. */
struct drawing {
    uint64_t w, p, q, columns, rows;
    uint8_t *path;
    size_t path_len;
};

static inline struct drawing drawing(uint64_t w, const int32_t *coordinates, size_t count)
{
    struct drawing d = {w, 1, 1, 20, 12, lend(4 * count), 4 * count};
    for (size_t i = 0; i < count; i++)
        zimarolfo_put_coordinate(d.path, i, coordinates[i]);
    return d;
}

#define DRAWING(w, ...) \
    drawing(w, (const int32_t[]){__VA_ARGS__}, sizeof((const int32_t[]){__VA_ARGS__}) / 4)

/* Whether a drawing is drawn as it must be, and whether it is refused and nothing changed. */
typedef bool is_good(const struct drawing *d, uint64_t asked);
typedef bool is_refused(const struct drawing *d, uint64_t asked, unsigned refusal, uint32_t place);

static inline void check_settings(uint64_t asked, is_good *good, is_refused *refused)
{
    struct drawing d = DRAWING(16, 0, 0);
    const struct {
        uint64_t w, p, q;
        bool good;
    } settings[] = {
        {15, 1, 1, false},          {16, 1, 1, true},   {512, 1, 1, true},  {513, 1, 1, false},
        {16, 16, 1, true},          {16, 17, 1, false}, {32, 16, 1, true},  {33, 16, 1, false},
        {16, 1, 2, false},          {32, 1, 2, true},   {256, 1, 16, true}, {255, 1, 16, false},
        {64, 0, 1, false},          {64, 1, 0, false},  {512, 16, 17, false},
        {UINT64_MAX, 1, 1, false},  {64, UINT64_MAX, UINT64_MAX, false},
        {(UINT64_C(1) << 32) + 64, 1, 1, false},
    };
    for (size_t i = 0; i < sizeof settings / sizeof settings[0]; i++) {
        d.w = settings[i].w;
        d.p = settings[i].p;
        d.q = settings[i].q;
        CHECK(settings[i].good ? good(&d, asked) : refused(&d, asked, ZIMAROLFO_BAD_SETTING, 0));
    }
    free(d.path);
}

static inline void check_sizes(uint64_t asked, is_good *good, is_refused *refused)
{
    struct drawing d = DRAWING(16, 0, 0);
    const uint64_t sizes[] = {0, 1, 16384, 16385, UINT64_MAX, UINT64_C(1) << 32};
    for (size_t i = 0; i < sizeof sizes / sizeof sizes[0]; i++) {
        bool within = 1 <= sizes[i] && sizes[i] <= 16384;
        d.columns = sizes[i];
        CHECK(within ? good(&d, asked) : refused(&d, asked, ZIMAROLFO_BAD_RASTER, 0));
        d.columns = 20;
        d.rows = sizes[i];
        CHECK(within ? good(&d, asked) : refused(&d, asked, ZIMAROLFO_BAD_RASTER, 0));
        d.rows = 12;
    }
    free(d.path);
}

/* 8,192 entries are taken, 8,194 refused; so are odd numbers and parts of an entry. */
static inline void check_path_lengths(uint64_t asked, is_good *good, is_refused *refused)
{
    for (size_t entries = 8190; entries <= 8194; entries++) {
        for (size_t over = 0; over < 4; over++) {
            struct drawing d = {16, 1, 1, 3, 12, lend(4 * entries + over), 4 * entries + over};
            for (size_t i = 0; i < entries; i++)
                zimarolfo_put_coordinate(d.path, i, 16);
            bool within = entries % 2 == 0 && entries <= 8192 && over == 0;
            CHECK(within ? good(&d, asked) : refused(&d, asked, ZIMAROLFO_BAD_PATH, 0));
            free(d.path);
        }
    }
}

/*
 * A path without entries is refused. 262,144 is taken, 262,145 refused, on both sides,
 * with the first bad entry's index.
 */
static inline void check_coordinates(uint64_t asked, is_good *good, is_refused *refused)
{
    struct drawing none = {16, 1, 1, 20, 12, NULL, 0};
    CHECK(refused(&none, asked, ZIMAROLFO_BAD_PATH, 0));
    for (int32_t sign = -1; sign <= 1; sign += 2) {
        int32_t limit = sign * 262144, beyond = sign * 262145;
        struct drawing d = DRAWING(16, limit, limit, limit, 0);
        CHECK(good(&d, asked));
        for (uint32_t i = 0; i < 4; i++) {
            zimarolfo_put_coordinate(d.path, 3 - i, beyond);
            CHECK(refused(&d, asked, ZIMAROLFO_BAD_COORDINATE, 3 - i));
        }
        zimarolfo_put_coordinate(d.path, 0, INT32_MIN);
        CHECK(refused(&d, asked, ZIMAROLFO_BAD_COORDINATE, 0));
        zimarolfo_put_coordinate(d.path, 0, INT32_MAX);
        CHECK(refused(&d, asked, ZIMAROLFO_BAD_COORDINATE, 0));
        free(d.path);
    }
}

/*
 * Each refusal comes before all that follow it in 1, 2, 4, 5, 3, 7. What is asked is bad
 * or good, and nothing that is lent is enough; the test checks the answer.
 */
static inline void check_order(uint64_t bad, uint64_t good,
                               void (*answers)(const struct drawing *d, uint64_t asked,
                                               uint64_t expected))
{
    const unsigned order[] = {1, 2, 4, 5, 3, 7};
    for (size_t first = 0; first < 6; first++) {
        struct drawing d = DRAWING(16, 16, 300000, 16, 16);
        uint64_t asked = bad;
        d.w = 15;
        d.path_len = 15;
        d.columns = 0;
        for (size_t i = 0; i < first; i++) {
            switch (order[i]) {
            case 1: d.w = 16; break;
            case 2: d.path_len = 16; break;
            case 4: d.columns = 20; break;
            case 5: asked = good; break;
            case 3: zimarolfo_put_coordinate(d.path, 1, 16); break;
            }
        }
        answers(&d, asked, order[first] | (order[first] == 3 ? 1 << 8 : 0));
        free(d.path);
    }
}

#endif
