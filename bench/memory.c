/*
 * What memory the calls need beside what is lent to them: the stack, by painting a thread's and
 * looking how far down it was written; and the heap, by how far it grew. Whether a library can
 * allocate at all is seen from the names that it leaves to the linker.
 */
#define _GNU_SOURCE /* mallinfo2, MAP_ANONYMOUS */

#include "bench.h"

#include <limits.h>
#include <malloc.h>
#include <pthread.h>
#include <stdio.h>
#include <stdlib.h>
#include <string.h>
#include <sys/mman.h>
#include <sys/wait.h>
#include <unistd.h>

struct cost {
    size_t stack, heap;
};

static void *pages(size_t length)
{
    void *bytes = mmap(NULL, length, PROT_READ | PROT_WRITE, MAP_PRIVATE | MAP_ANONYMOUS, -1, 0);
    if (bytes == MAP_FAILED)
        give_up("no memory");
    return bytes;
}

/* ---------------------------------------------------------------- a painted stack */

enum { STACK = 8 << 20, PAINT = 0xA5 };

struct trial {
    void (*run)(const void *given);
    const void *given;
    uint8_t *stack;
    struct cost cost;
};

/* Where the stack of what is looked at begins. */
static uint8_t *top;

static size_t heap_size(void)
{
    struct mallinfo2 info = mallinfo2();
    return info.arena + info.hblkhd;
}

/*
 * Paints all but its own frame, with room to spare for the call of memset. It looks before it
 * calls anything else, which could write further down.
 */
static void *on_paint(void *given)
{
    struct trial *trial = given;
    size_t before = heap_size();
    top = __builtin_frame_address(0);
    memset(trial->stack, PAINT, (size_t)(top - trial->stack) - 256);
    trial->run(trial->given);
    const uint8_t *low = trial->stack;
    while (*low == PAINT)
        low++;
    trial->cost.stack = (size_t)(top - low);
    trial->cost.heap = heap_size() - before;
    return NULL;
}

static struct cost cost_of(void (*run)(const void *), const void *given)
{
    struct trial trial = {run, given, pages(STACK), {0, 0}};
    pthread_attr_t attributes;
    pthread_t thread;
    if (pthread_attr_init(&attributes) != 0 ||
        pthread_attr_setstack(&attributes, trial.stack, STACK) != 0 ||
        pthread_create(&thread, &attributes, on_paint, &trial) != 0 ||
        pthread_join(thread, NULL) != 0)
        give_up("no thread");
    munmap(trial.stack, STACK);
    return trial.cost;
}

/* ------------------------------------------------------------------ single calls */

enum { COLUMNS = 16384, ROWS = 600, MIDDLE = ROWS / 2, STRIDE = COLUMNS / 8, MOST_POINTS = 4096 };

static uint8_t path[8 * MOST_POINTS], room[STRIDE * ROWS];

/* The stack of a call starts in these, so that its arguments are counted. */
__attribute__((noinline)) static uint64_t ask_band(uint64_t w, size_t points, uint64_t first_row,
                                                   uint64_t n_rows)
{
    top = __builtin_frame_address(0);
    return zimarolfo_band(w, 1, 1, path, 8 * points, COLUMNS, ROWS, first_row, n_rows, room,
                          sizeof room, STRIDE);
}

__attribute__((noinline)) static uint64_t ask_row(row_function *function, uint64_t w, size_t points,
                                                  uint64_t row)
{
    top = __builtin_frame_address(0);
    return function(w, 1, 1, path, 8 * points, COLUMNS, ROWS, row, room, ROOM);
}

static const struct {
    const char *name;
    row_function *function;
} calls[] = {
    {"zimarolfo_band", NULL},
    {"zimarolfo_row", zimarolfo_row},
    {"zimarolfo_packed_row", zimarolfo_packed_row},
};

enum { CALLS = sizeof calls / sizeof *calls };

/* Many segments in the row, one, a dot and none, by small and large pens. */
static void call_often(const void *given)
{
    row_function *function = calls[*(const int *)given].function;
    static const uint64_t widths[] = {16, 64, 471, 512};
    static const size_t lengths[] = {1, 2, 3, 33, MOST_POINTS};
    for (size_t i = 0; i < 4 * 5; i++) {
        uint64_t w = widths[i % 4];
        size_t points = lengths[i / 4];
        for (size_t k = 0; k < points; k++) {
            zimarolfo_put_coordinate(path, 2 * k, (int32_t)(64 * k));
            zimarolfo_put_coordinate(path, 2 * k + 1, k % 2 == 1 ? 16 * ROWS - 800 : 16 * MIDDLE);
        }
        uint64_t refused = 0;
        if (function == NULL) {
            refused |= ask_band(w, points, 0, ROWS);
            refused |= ask_band(w, points, MIDDLE, 1);
            refused |= ask_band(w, points, 0, 1);
        } else {
            refused |= ask_row(function, w, points, MIDDLE);
            refused |= ask_row(function, w, points, 0);
        }
        if (zimarolfo_refusal(refused) != ZIMAROLFO_DONE)
            give_up("a call for its stack was refused");
    }
}

/* ------------------------------------------------------------------- whole films */

static const int drawers[] = {BAND, CAIRO, FAST_FILM};

enum { DRAWERS = sizeof drawers / sizeof *drawers };

struct drawing {
    const struct contender *contender;
    struct work work;
    uint8_t *film;
};

static void draw(const void *given)
{
    const struct drawing *drawing = given;
    drawing->contender->draw(&drawing->work, drawing->film, 1);
}

/* In this process, whose heap gives nothing back and has no room to spare when it starts. */
static struct cost drawing_cost(int contender, int work)
{
    struct drawing drawing = {&contenders[contender], makers[work].make(), NULL};
    drawing.film = pages(drawing.work.rows * drawing.work.row_len);
    mallopt(M_ARENA_MAX, 1);
    mallopt(M_MMAP_MAX, 0);
    mallopt(M_TRIM_THRESHOLD, INT_MAX);
    mallopt(M_TOP_PAD, 0);
    malloc_trim(0);
    return cost_of(draw, &drawing);
}

static struct cost in_a_process_of_its_own(int contender, int work)
{
    struct cost cost;
    int ends[2], status;
    if (pipe(ends) != 0)
        give_up("no pipe");
    pid_t child = fork();
    if (child < 0)
        give_up("no process");
    if (child == 0) {
        cost = drawing_cost(contender, work);
        _exit(write(ends[1], &cost, sizeof cost) == (ssize_t)sizeof cost ? 0 : 1);
    }
    close(ends[1]);
    bool told = read(ends[0], &cost, sizeof cost) == (ssize_t)sizeof cost;
    close(ends[0]);
    if (waitpid(child, &status, 0) != child || status != 0 || !told)
        give_up("a process that draws failed");
    return cost;
}

/* ------------------------------------------------------------------------ tables */

static struct cost call_costs[CALLS], drawing_costs[WORKS][DRAWERS];

void find_memory(void)
{
    for (int work = 0; work < WORKS; work++)
        for (int i = 0; i < DRAWERS; i++)
            drawing_costs[work][i] = in_a_process_of_its_own(drawers[i], work);
    for (int i = 0; i < CALLS; i++) {
        call_often(&i); /* so that the linker's own work is not counted */
        call_costs[i] = cost_of(call_often, &i);
    }
}

void print_memory(const char *outside, const char *outside_band)
{
    printf("\n### Memory\n\n"
           "The stack that each call wrote, its arguments included: the most of calls with paths of 1\n"
           "to 4,096 points, pens from the smallest to the largest, rows met and missed, on a thread\n"
           "whose stack was painted; what is set aside and not written is not seen, some bytes. What a\n"
           "library calls outside of itself is what it leaves to the linker: where none of it\n"
           "allocates, no call does.\n\n"
           "| call | stack, bytes | called outside |\n|---|---:|---|\n");
    for (int i = 0; i < CALLS; i++) {
        printf("| %s | %zu | %s |\n", calls[i].name, call_costs[i].stack,
               calls[i].function == NULL ? outside_band : outside);
        keep("stack of a call", calls[i].name, "bytes", (double)call_costs[i].stack);
    }
    printf("\nThe most memory beside the film, in KiB, each work in a process of its own: by how much\n"
           "the heap grew, and the stack.\n\n| work | film, MiB |");
    for (int i = 0; i < DRAWERS; i++)
        printf(" %s: heap | stack |", contenders[drawers[i]].name);
    printf("\n|---|---:|");
    for (int i = 0; i < DRAWERS; i++)
        printf("---:|---:|");
    printf("\n");
    for (int number = 0; number < WORKS; number++) {
        struct work work = makers[number].make();
        printf("| %s | %.0f |", makers[number].name, (double)(work.rows * work.row_len) / (1 << 20));
        free_work(&work);
        for (int i = 0; i < DRAWERS; i++) {
            struct cost cost = drawing_costs[number][i];
            const char *name = contenders[drawers[i]].name;
            printf(" %.0f | %.1f |", (double)cost.heap / 1024, (double)cost.stack / 1024);
            keep("heap in bytes", makers[number].name, name, (double)cost.heap);
            keep("stack in bytes", makers[number].name, name, (double)cost.stack);
        }
        printf("\n");
    }
}
