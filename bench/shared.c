/* What bench.c and films.c, which are programs of their own, both need. */
#define _POSIX_C_SOURCE 200809L

#include "bench.h"

#include <stdio.h>
#include <stdlib.h>
#include <time.h>

void give_up(const char *what)
{
    fprintf(stderr, "bench: %s\n", what);
    exit(1);
}

void *memory(size_t length)
{
    void *bytes = malloc(length);
    if (bytes == NULL)
        give_up("no memory");
    return bytes;
}

static double read_clock(clockid_t clock)
{
    struct timespec now;
    if (clock_gettime(clock, &now) != 0)
        give_up("no clock");
    return (double)now.tv_sec + (double)now.tv_nsec * 1e-9;
}

double seconds(void)
{
    return read_clock(CLOCK_PROCESS_CPUTIME_ID);
}

double wall_seconds(void)
{
    return read_clock(CLOCK_MONOTONIC);
}
