/*
 * bands FILM OUTPUT
 *
 * Draws a film in two processes, a band of rows each, and compares it with the film
 * drawn in one process, as one band: byte for byte the same. Then it writes the film
 * as a raw PBM file. "-" is standard input, or output. A stroke is one call for each
 * band. Link libhost_band.a and libhost.a.
 *
 * FILM is a text file in ASCII or UTF-8. The first line is `film COLUMNS ROWS`; each
 * further one is a stroke, `stroke W P Q X Y X Y ...`, in the numbers of zimarolfo.h.
 * What follows a # is a comment; empty lines are skipped. A pixel is black where any
 * stroke makes it so. A stroke that leaves no pixel on the film is warned of.
 *
 * OUTPUT must not be FILM. It is replaced at once when the film is whole, and else
 * stays as it was; links to it stay links, and its permissions stay. What is no
 * regular file, such as a pipe, is written to directly.
 *
 * Ends with 0: done; 1: the bands differ from the film in one, or the drawer answers
 * what it cannot; 2: bad usage or a bad film file; 3: the system failed.
 */
#define _POSIX_C_SOURCE 200809L
#define _DEFAULT_SOURCE /* MAP_ANONYMOUS */

#include "zimarolfo_band.h"

#include <errno.h>
#include <inttypes.h>
#include <limits.h>
#include <signal.h>
#include <stdbool.h>
#include <stdio.h>
#include <stdlib.h>
#include <string.h>
#ifdef __linux__
#include <sys/prctl.h>
#endif
#include <sys/mman.h>
#include <sys/stat.h>
#include <sys/wait.h>
#include <time.h>
#include <unistd.h>

enum status { DONE = 0, DIFFERENT = 1, BAD_FILM = 2, SYSTEM_FAILED = 3 };

enum { MOST_COLUMNS = 16384, MOST_ROWS = 16384 };

struct stroke {
    uint64_t w, p, q;
    uint8_t *path;
    size_t path_len;
    unsigned long line;
    /* The rows that the pen may reach, within the film: from first to below end. */
    uint64_t first_row, end_row;
};

struct film {
    const char *name;
    uint64_t columns, rows;
    size_t row_len;
    struct stroke *strokes;
    size_t count;
};

/* ------------------------------------------------------------------ complaints */

/* Names and words of others: a terminal would obey their control characters. */
static void put_printable(const char *text, size_t most)
{
    for (size_t i = 0; i < most && text[i] != '\0'; i++) {
        unsigned char byte = (unsigned char)text[i];
        fprintf(stderr, byte >= 0x20 && byte <= 0x7E ? "%c" : "\\x%02X", byte);
    }
}

static void begin_complaint(const char *name)
{
    fputs("bands: ", stderr);
    put_printable(name, SIZE_MAX);
}

static void begin_line_complaint(const struct film *film, unsigned long line)
{
    begin_complaint(film->name);
    fprintf(stderr, ":%lu: ", line);
}

/* What failed, and why: a number as errno has it. */
static enum status failed_with(const char *what, int error, const char *then)
{
    begin_complaint(what);
    fprintf(stderr, ": %s%s\n", strerror(error), then);
    return SYSTEM_FAILED;
}

static enum status system_failed(const char *what)
{
    return failed_with(what, errno, "");
}

static enum status bad_line(const struct film *film, unsigned long line, const char *what,
                            const char *word)
{
    begin_line_complaint(film, line);
    fputs(what, stderr);
    if (word != NULL) {
        fputs(": ", stderr);
        put_printable(word, 40);
    }
    fputc('\n', stderr);
    return BAD_FILM;
}

static const char *refusal_in_words(unsigned refusal)
{
    switch (refusal) {
    case ZIMAROLFO_BAD_SETTING:
        return "the setting is outside its limits (W 16 to 512, P and Q 1 to 16, 16Q <= W*P <= 512Q)";
    case ZIMAROLFO_BAD_PATH:
        return "the path must have 1 to 4096 points, two numbers each";
    case ZIMAROLFO_BAD_COORDINATE:
        return "a coordinate is outside -262144 to 262144";
    case ZIMAROLFO_BAD_RASTER:
        return "columns and rows must be 1 to 16384";
    default:
        return "the drawer's answer is not one that this call can get";
    }
}

/* --------------------------------------------------------------- the film file */

static const char blanks[] = " \t\r\n\v\f";

/* The next word of the line, ended by a zero; NULL where there is none. */
static char *next_word(char **rest)
{
    char *word = *rest + strspn(*rest, blanks);
    if (*word == '\0')
        return NULL;
    char *end = word + strcspn(word, blanks);
    if (*end != '\0')
        *end++ = '\0';
    *rest = end;
    return word;
}

/* Decimal digits only: strtoumax alone would take signs and white space. */
static bool read_number(const char *word, uint64_t *number)
{
    if (word[0] == '\0' || word[strspn(word, "0123456789")] != '\0')
        return false;
    errno = 0;
    uintmax_t value = strtoumax(word, NULL, 10);
    if (errno != 0 || value > UINT64_MAX)
        return false;
    *number = (uint64_t)value;
    return true;
}

static bool read_coordinate(const char *word, int32_t *coordinate)
{
    uint64_t size;
    bool negative = word[0] == '-';
    if (!read_number(negative ? word + 1 : word, &size) || size > (uint64_t)INT32_MAX + negative)
        return false;
    *coordinate = (int32_t)(negative ? -(int64_t)size : (int64_t)size);
    return true;
}

static enum status read_film_line(struct film *film, unsigned long line, char *rest)
{
    uint64_t *sizes[2] = {&film->columns, &film->rows};
    for (int i = 0; i < 2; i++) {
        const char *word = next_word(&rest);
        if (word == NULL)
            return bad_line(film, line, "a film line is: film COLUMNS ROWS", NULL);
        if (!read_number(word, sizes[i]) || *sizes[i] < 1 ||
            *sizes[i] > (i == 0 ? MOST_COLUMNS : MOST_ROWS))
            return bad_line(film, line, i == 0 ? "columns must be a number from 1 to 16384"
                                               : "rows must be a number from 1 to 16384",
                            word);
    }
    const char *word = next_word(&rest);
    if (word != NULL)
        return bad_line(film, line, "nothing may follow the rows", word);
    film->row_len = (size_t)((film->columns + 7) / 8);
    return DONE;
}

/*
 * Asks for the whole film with no room: a good stroke is then refused with 7, and only
 * with that, so that each stroke's fault is known, with its line, before anything is
 * drawn.
 */
static enum status check_stroke(const struct film *film, const struct stroke *stroke)
{
    uint64_t answer = zimarolfo_band(stroke->w, stroke->p, stroke->q, stroke->path,
                                     stroke->path_len, film->columns, film->rows, 0, film->rows,
                                     NULL, 0, film->row_len);
    unsigned refusal = zimarolfo_refusal(answer);
    if (refusal == ZIMAROLFO_NO_ROOM)
        return DONE;
    char place[64] = "";
    if (refusal == ZIMAROLFO_BAD_COORDINATE)
        snprintf(place, sizeof place, " (%s of point %" PRIu32 ")",
                 zimarolfo_place(answer) % 2 == 0 ? "X" : "Y", zimarolfo_place(answer) / 2 + 1);
    begin_line_complaint(film, stroke->line);
    fprintf(stderr, "refusal %u: %s%s\n", refusal, refusal_in_words(refusal), place);
    return BAD_FILM;
}

/* floor(a / 16), for any sign. */
static int64_t pixels_down(int64_t a)
{
    return a >= 0 ? a / 16 : -((-a + 15) / 16);
}

/*
 * The pen of a good setting is exactly floor((w + 8) / 16) pixels high, so a stroke
 * leaves no pixel in rows further than half of that from all its points.
 */
static void find_reach(const struct film *film, struct stroke *stroke, int32_t lowest,
                       int32_t highest)
{
    int64_t reach = 8 * (int64_t)((stroke->w + 8) / 16);
    int64_t first = pixels_down(lowest - reach + 15);
    int64_t end = pixels_down(highest + reach) + 1;
    int64_t rows = (int64_t)film->rows;
    first = first < 0 ? 0 : first;
    end = end > rows ? rows : end;
    stroke->first_row = (uint64_t)first;
    stroke->end_row = end > first ? (uint64_t)end : (uint64_t)first;
}

static enum status read_stroke_line(struct film *film, unsigned long line, char *rest)
{
    struct stroke *more = realloc(film->strokes, (film->count + 1) * sizeof *more);
    if (more == NULL)
        return system_failed("no memory for a stroke");
    film->strokes = more;
    struct stroke *stroke = &film->strokes[film->count];
    memset(stroke, 0, sizeof *stroke);
    stroke->line = line;

    uint64_t *setting[3] = {&stroke->w, &stroke->p, &stroke->q};
    for (int i = 0; i < 3; i++) {
        const char *word = next_word(&rest);
        if (word == NULL)
            return bad_line(film, line, "a stroke line is: stroke W P Q X Y ...", NULL);
        if (!read_number(word, setting[i]))
            return bad_line(film, line, "W, P and Q must be whole numbers below 2^64", word);
    }

    /* No entry takes less than two characters, so the rest of the line is enough. */
    stroke->path = malloc(4 * (strlen(rest) / 2 + 1));
    if (stroke->path == NULL)
        return system_failed("no memory for a path");
    film->count++;

    int32_t lowest = 0, highest = 0;
    size_t entries = 0;
    for (const char *word; (word = next_word(&rest)) != NULL; entries++) {
        int32_t coordinate;
        if (!read_coordinate(word, &coordinate))
            return bad_line(film, line, "a coordinate must be a whole number that fits in 32 bits", word);
        zimarolfo_put_coordinate(stroke->path, entries, coordinate);
        if (entries % 2 == 1) {
            lowest = entries == 1 || coordinate < lowest ? coordinate : lowest;
            highest = entries == 1 || coordinate > highest ? coordinate : highest;
        }
    }
    stroke->path_len = 4 * entries;
    enum status status = check_stroke(film, stroke);
    if (status == DONE)
        find_reach(film, stroke, lowest, highest);
    return status;
}

static bool starts_with(const char *text, size_t length, const char *mark)
{
    return length >= strlen(mark) && memcmp(text, mark, strlen(mark)) == 0;
}

static enum status read_line(struct film *film, unsigned long line, char *text, size_t length)
{
    if (strlen(text) != length)
        return bad_line(film, line, "a zero byte in the line", NULL);
    text[strcspn(text, "#")] = '\0';
    char *rest = text;
    const char *word = next_word(&rest);
    if (word == NULL)
        return DONE;
    bool is_film = strcmp(word, "film") == 0;
    if (film->columns == 0)
        return is_film ? read_film_line(film, line, rest)
                       : bad_line(film, line, "film COLUMNS ROWS must come first, not", word);
    if (is_film)
        return bad_line(film, line, "a second film line", NULL);
    if (strcmp(word, "stroke") != 0)
        return bad_line(film, line, "a line begins with film or stroke, not with", word);
    return read_stroke_line(film, line, rest);
}

/* Editors put a byte order mark before the first line: UTF-8's is skipped. */
static enum status read_first_line(struct film *film, char *text, size_t length)
{
    if (starts_with(text, length, "\xFF\xFE") || starts_with(text, length, "\xFE\xFF"))
        return bad_line(film, 1, "the file is UTF-16; save it as UTF-8 or ASCII", NULL);
    size_t mark = starts_with(text, length, "\xEF\xBB\xBF") ? 3 : 0;
    return read_line(film, 1, text + mark, length - mark);
}

static enum status read_lines(struct film *film, FILE *file)
{
    char *text = NULL;
    size_t size = 0;
    enum status status = DONE;
    unsigned long line = 0;
    while (status == DONE) {
        errno = 0;
        ssize_t length = getline(&text, &size, file);
        if (length < 0) {
            if (!feof(file))
                status = system_failed(film->name);
            break;
        }
        status = ++line == 1 ? read_first_line(film, text, (size_t)length)
                             : read_line(film, line, text, (size_t)length);
    }
    free(text);
    if (status == DONE && film->columns == 0) {
        begin_complaint(film->name);
        fputs(": no line film COLUMNS ROWS\n", stderr);
        status = BAD_FILM;
    }
    return status;
}

static enum status read_film(struct film *film, const char *name)
{
    if (strcmp(name, "-") == 0) {
        film->name = "standard input";
        return read_lines(film, stdin);
    }
    film->name = name;
    FILE *file = fopen(name, "r");
    if (file == NULL) {
        system_failed(name);
        return BAD_FILM;
    }
    enum status status = read_lines(film, file);
    if (fclose(file) != 0 && status == DONE)
        status = system_failed(name);
    return status;
}

static void free_film(struct film *film)
{
    for (size_t i = 0; i < film->count; i++)
        free(film->strokes[i].path);
    free(film->strokes);
}

/* --------------------------------------------------------------------- signals */

/* What must not outlive this process when a signal ends it. */
static volatile pid_t child = 0;
static const char *volatile temporary = NULL;

/* The signal's own action is back in place, and takes effect on return. */
static void clean_up(int number)
{
    if (child > 0)
        kill(child, SIGKILL);
    if (temporary != NULL)
        unlink(temporary);
    raise(number);
}

static const int endings[] = {SIGHUP, SIGINT, SIGTERM};
enum { ENDINGS = sizeof endings / sizeof endings[0] };

/* A signal that was ignored from the start, as by nohup, stays ignored. */
static enum status catch_signals(void)
{
    struct sigaction action, before;
    memset(&action, 0, sizeof action);
    action.sa_handler = clean_up;
    action.sa_flags = (int)SA_RESETHAND;
    for (int i = 0; i < ENDINGS; i++) {
        if (sigaction(endings[i], NULL, &before) != 0 ||
            (before.sa_handler != SIG_IGN && sigaction(endings[i], &action, NULL) != 0))
            return system_failed("catching signals");
    }
    /* A file beyond the limit is then a failed write, and told like any other. */
    return signal(SIGXFSZ, SIG_IGN) == SIG_ERR ? system_failed("ignoring a signal") : DONE;
}

/* -------------------------------------------------------------------- progress */

/* The strokes that are laid over a band. */
struct work {
    uint64_t total, done;
};

/*
 * On a terminal, long work says how far it is: after a second, and each fifth of one.
 * Of two bands the slower one counts, since both must be done.
 */
struct progress {
    const char *what;
    const struct work *works;
    size_t count;
    bool terminal, shown;
    double start, last;
};

static double seconds(void)
{
    struct timespec now;
    if (clock_gettime(CLOCK_MONOTONIC, &now) != 0)
        return 0;
    return (double)now.tv_sec + (double)now.tv_nsec * 1e-9;
}

static struct progress begin(const char *what, const struct work *works, size_t count)
{
    struct progress progress = {.what = what, .works = works, .count = count};
    progress.terminal = isatty(STDERR_FILENO) == 1;
    progress.start = progress.last = seconds();
    return progress;
}

/* The other process counts on meanwhile. */
static unsigned percent(const struct work *work)
{
    uint64_t done = __atomic_load_n(&work->done, __ATOMIC_RELAXED);
    return work->total == 0 ? 100 : (unsigned)(100 * done / work->total);
}

static unsigned slowest(const struct progress *progress)
{
    unsigned least = 100;
    for (size_t i = 0; i < progress->count; i++) {
        unsigned here = percent(&progress->works[i]);
        least = here < least ? here : least;
    }
    return least;
}

static void tell(struct progress *progress)
{
    if (!progress->terminal)
        return;
    double now = seconds();
    if (now - progress->start < 1 || now - progress->last < 0.2)
        return;
    progress->last = now;
    progress->shown = true;
    fprintf(stderr, "\r%s: %3u%%", progress->what, slowest(progress));
}

/* Leaves the line, whatever the work came to. */
static void end(const struct progress *progress)
{
    if (progress->shown)
        fprintf(stderr, "\r%s: %s\n", progress->what,
                slowest(progress) == 100 ? "done" : "ended");
}

/* --------------------------------------------------------------------- drawing */

/* Rows of the film, from the first to below the end, and how far they are drawn. */
struct band {
    uint64_t from, to;
    struct work *work;
};

static struct band make_band(const struct film *film, uint64_t from, uint64_t to, struct work *work)
{
    work->total = film->count;
    work->done = 0;
    return (struct band){.from = from, .to = to, .work = work};
}

/*
 * Lays a stroke over a band in the picture of the whole film, which is in the order of
 * the file: the top row, that is the last one, comes first.
 */
static enum status draw_stroke(const struct film *film, const struct stroke *stroke,
                               const struct band *band, uint8_t *picture)
{
    uint64_t rows = band->to - band->from;
    uint8_t *top = picture + (size_t)(film->rows - band->to) * film->row_len;
    uint64_t answer = zimarolfo_band(stroke->w, stroke->p, stroke->q, stroke->path,
                                     stroke->path_len, film->columns, film->rows, band->from, rows,
                                     top, (size_t)rows * film->row_len, film->row_len);
    if (zimarolfo_refusal(answer) == ZIMAROLFO_DONE && zimarolfo_count(answer) == rows)
        return DONE;
    begin_line_complaint(film, stroke->line);
    fprintf(stderr, "rows %" PRIu64 " to %" PRIu64 ": refusal %u after a good check\n", band->from,
            band->to - 1, zimarolfo_refusal(answer));
    return DIFFERENT;
}

/* Tells its progress unless that is NULL. The lower half of a film of one row is none. */
static enum status draw(const struct film *film, const struct band *band, uint8_t *picture,
                        struct progress *progress)
{
    for (size_t i = 0; i < film->count; i++) {
        enum status status =
            band->from < band->to ? draw_stroke(film, &film->strokes[i], band, picture) : DONE;
        if (status != DONE)
            return status;
        __atomic_store_n(&band->work->done, i + 1, __ATOMIC_RELAXED);
        if (progress != NULL)
            tell(progress);
    }
    return DONE;
}

/* ------------------------------------------------------------------- two bands */

enum { LOWER = 0, UPPER = 1 };

/* What both processes see. */
struct shared {
    struct work works[2];
    uint8_t picture[];
};

/*
 * Draws the upper band. A parent that is killed cannot end its child, so the system
 * does; one that was gone before that was asked for has left the child to another.
 */
static enum status run_child(const struct film *film, const struct band *band, uint8_t *picture,
                             pid_t parent)
{
#ifdef __linux__
    if (prctl(PR_SET_PDEATHSIG, (unsigned long)SIGKILL) != 0)
        return system_failed("tying the upper band to its parent");
#endif
    if (getppid() != parent)
        return SYSTEM_FAILED;
    return draw(film, band, picture, NULL);
}

/* Only where progress is told does it look again and again. */
static pid_t wait_telling(int *ended, struct progress *progress)
{
    const struct timespec pause = {.tv_nsec = 50 * 1000 * 1000};
    pid_t found;
    while ((found = waitpid(child, ended, progress->terminal ? WNOHANG : 0)) == 0 ||
           (found < 0 && errno == EINTR)) {
        nanosleep(&pause, NULL);
        tell(progress);
    }
    return found;
}

static enum status wait_for_child(struct progress *progress)
{
    int ended;
    pid_t found = wait_telling(&ended, progress);
    child = 0;
    end(progress);
    if (found < 0)
        return system_failed("waiting for the upper band");
    if (WIFEXITED(ended))
        return (enum status)WEXITSTATUS(ended);
    fprintf(stderr, "bands: the upper band's process was ended by signal %d\n",
            WIFSIGNALED(ended) ? WTERMSIG(ended) : 0);
    return SYSTEM_FAILED;
}

/* Its band is of no use any more. */
static void stop_child(void)
{
    kill(child, SIGKILL);
    while (waitpid(child, NULL, 0) < 0 && errno == EINTR)
        continue;
    child = 0;
}

/* A child draws the upper band, this process the lower one, into shared memory. */
static enum status draw_in_two(const struct film *film, struct shared *shared)
{
    uint64_t seam = film->rows / 2;
    struct band lower = make_band(film, 0, seam, &shared->works[LOWER]);
    struct band upper = make_band(film, seam, film->rows, &shared->works[UPPER]);
    pid_t parent = getpid();
    if (fflush(NULL) != 0)
        return system_failed("before the second process");
    child = fork();
    if (child < 0)
        return system_failed("a second process");
    if (child == 0)
        _exit((int)run_child(film, &upper, shared->picture, parent));
    struct progress progress = begin("drawing in two bands", shared->works, 2);
    enum status status = draw(film, &lower, shared->picture, &progress);
    if (status == DONE)
        return wait_for_child(&progress);
    stop_child();
    end(&progress);
    return status;
}

/* --------------------------------------------------------------------- in one */

static enum status compare(const struct film *film, const uint8_t *bands, const uint8_t *one)
{
    for (uint64_t i = 0; i < film->rows; i++) {
        size_t at = (size_t)i * film->row_len;
        if (memcmp(bands + at, one + at, film->row_len) != 0) {
            fprintf(stderr, "bands: row %" PRIu64 " differs between the bands and the film in one\n",
                    film->rows - 1 - i);
            return DIFFERENT;
        }
    }
    return DONE;
}

/*
 * Whether a stroke has a pixel on the film, even one that others have blackened. A row
 * with black pixels is refused with 7 where there is no room for any run.
 */
static bool leaves_pixels(const struct film *film, const struct stroke *stroke)
{
    for (uint64_t row = stroke->first_row; row < stroke->end_row; row++) {
        uint64_t answer = zimarolfo_row(stroke->w, stroke->p, stroke->q, stroke->path,
                                        stroke->path_len, film->columns, film->rows, row, NULL, 0);
        if (zimarolfo_refusal(answer) == ZIMAROLFO_NO_ROOM)
            return true;
    }
    return false;
}

static void warn_of_idle_strokes(const struct film *film)
{
    for (size_t i = 0; i < film->count; i++) {
        if (leaves_pixels(film, &film->strokes[i]))
            continue;
        begin_line_complaint(film, film->strokes[i].line);
        fputs("warning: this stroke leaves no pixel on the film\n", stderr);
    }
}

static enum status draw_in_one(const struct film *film, const uint8_t *bands)
{
    uint8_t *one = calloc((size_t)film->rows, film->row_len);
    if (one == NULL)
        return system_failed("no memory for the film");
    struct work work;
    struct band whole = make_band(film, 0, film->rows, &work);
    struct progress progress = begin("drawing in one", &work, 1);
    enum status status = draw(film, &whole, one, &progress);
    end(&progress);
    if (status == DONE)
        status = compare(film, bands, one);
    free(one);
    return status;
}

/* ---------------------------------------------------------------------- output */

/* 0, or why not, as errno has it; so do the next two. */
static int put_pbm(const struct film *film, const uint8_t *picture, FILE *file)
{
    size_t length = (size_t)film->rows * film->row_len;
    bool put = fprintf(file, "P4\n%" PRIu64 " %" PRIu64 "\n", film->columns, film->rows) > 0 &&
               fwrite(picture, 1, length, file) == length && fflush(file) == 0;
    return put ? 0 : errno;
}

/* A failure to close is one to write, unless an earlier one is known. */
static int close_after(FILE *file, int error)
{
    return fclose(file) != 0 && error == 0 ? errno : error;
}

static int fill_temporary(const struct film *film, const uint8_t *picture, int made, mode_t mode)
{
    FILE *file = fdopen(made, "wb");
    if (file == NULL) {
        int error = errno;
        close(made);
        return error;
    }
    int error = fchmod(made, mode) != 0 ? errno : put_pbm(film, picture, file);
    if (error == 0 && fsync(made) != 0)
        error = errno;
    return close_after(file, error);
}

static enum status write_directly(const struct film *film, const uint8_t *picture, FILE *file,
                                  const char *name)
{
    if (file == NULL)
        return system_failed(name);
    int error = close_after(file, put_pbm(film, picture, file));
    return error == 0 ? DONE : failed_with(name, error, "; the film there is not whole");
}

/* The path in the folder of another one, in memory to be freed; NULL: no memory. */
static char *beside(const char *other, const char *path)
{
    const char *slash = path[0] == '/' ? NULL : strrchr(other, '/');
    size_t folder = slash == NULL ? 0 : (size_t)(slash - other) + 1;
    char *joined = malloc(folder + strlen(path) + 1);
    if (joined != NULL) {
        memcpy(joined, other, folder);
        strcpy(joined + folder, path);
    }
    return joined;
}

/*
 * Where a name leads, be there a file or not, in memory to be freed; NULL: no memory,
 * or links without end. What is wrong with a folder is seen when a file is made there.
 */
static char *follow_links(const char *name)
{
    char link[PATH_MAX];
    char *at = strdup(name);
    for (int links = 0; at != NULL && links < 40; links++) {
        ssize_t length = readlink(at, link, sizeof link - 1);
        if (length < 0)
            return at;
        link[length] = '\0';
        char *next = beside(at, link);
        free(at);
        at = next;
    }
    errno = at == NULL ? errno : ELOOP;
    free(at);
    return NULL;
}

/* No signal may come between a file and its name's being known. */
static int make_temporary(char *path)
{
    sigset_t all, before;
    sigfillset(&all);
    sigprocmask(SIG_BLOCK, &all, &before);
    int made = mkstemp(path);
    int error = errno;
    if (made >= 0)
        temporary = path;
    sigprocmask(SIG_SETMASK, &before, NULL);
    errno = error;
    return made;
}

static enum status replace_by(const struct film *film, const uint8_t *picture, char *path,
                              const char *target, mode_t mode)
{
    int made = make_temporary(path);
    if (made < 0)
        return failed_with(target, errno, " (for a temporary file beside it)");
    int error = fill_temporary(film, picture, made, mode);
    if (error == 0 && rename(path, target) != 0)
        error = errno;
    if (error != 0 && unlink(path) != 0)
        system_failed(path);
    temporary = NULL;
    return error == 0 ? DONE : failed_with(target, error, "; the film is not written");
}

/* The film is whole on the disk before its name is, so that no half of one is seen. */
static enum status replace(const struct film *film, const uint8_t *picture, const char *output,
                           mode_t mode)
{
    char *target = follow_links(output);
    char *path = target == NULL ? NULL : beside(target, ".bands-XXXXXX");
    enum status status = path == NULL ? system_failed(output)
                                      : replace_by(film, picture, path, target, mode);
    free(path);
    free(target);
    return status;
}

/* What creating a file would give it: a temporary one has less. */
static mode_t usual_mode(void)
{
    mode_t mask = umask(0);
    umask(mask);
    return (mode_t)(0666 & ~mask);
}

static enum status write_film(const struct film *film, const uint8_t *picture, const char *output)
{
    if (strcmp(output, "-") == 0)
        return write_directly(film, picture, stdout, "standard output");
    struct stat found;
    if (stat(output, &found) != 0)
        return replace(film, picture, output, usual_mode());
    if (!S_ISREG(found.st_mode))
        return write_directly(film, picture, fopen(output, "wb"), output);
    /* Renaming would replace a write-protected file too. */
    if (access(output, W_OK) != 0)
        return system_failed(output);
    return replace(film, picture, output, found.st_mode & 0777);
}

/* ------------------------------------------------------------------------ main */

static bool find(const char *name, int standard, struct stat *found)
{
    return (strcmp(name, "-") == 0 ? fstat(standard, found) : stat(name, found)) == 0;
}

/* By whatever names: a link is another name of its file. */
static enum status check_names(const char *input, const char *output)
{
    struct stat in, out;
    if (!find(input, STDIN_FILENO, &in) || !find(output, STDOUT_FILENO, &out) ||
        !S_ISREG(in.st_mode) || in.st_dev != out.st_dev || in.st_ino != out.st_ino)
        return DONE;
    begin_complaint(output);
    fputs(": this is the film file itself; it is not overwritten\n", stderr);
    return BAD_FILM;
}

static enum status draw_film(const struct film *film, const char *output)
{
    size_t length = sizeof(struct shared) + (size_t)film->rows * film->row_len;
    struct shared *shared =
        mmap(NULL, length, PROT_READ | PROT_WRITE, MAP_SHARED | MAP_ANONYMOUS, -1, 0);
    if (shared == MAP_FAILED)
        return system_failed("no memory for the bands");
    enum status status = draw_in_two(film, shared);
    if (status == DONE)
        status = draw_in_one(film, shared->picture);
    if (status == DONE) {
        warn_of_idle_strokes(film);
        status = write_film(film, shared->picture, output);
    }
    if (munmap(shared, length) != 0 && status == DONE)
        status = system_failed("giving back the bands");
    return status;
}

static enum status run(struct film *film, const char *input, const char *output)
{
    enum status status = catch_signals();
    if (status == DONE)
        status = check_names(input, output);
    if (status == DONE)
        status = read_film(film, input);
    if (status == DONE)
        status = draw_film(film, output);
    return status;
}

int main(int argc, char **argv)
{
    if (argc != 3) {
        fprintf(stderr, "usage: bands FILM OUTPUT\n"
                        "  draws FILM in two processes and in one, compares, and writes a raw PBM file;\n"
                        "  - is standard input or output\n");
        return BAD_FILM;
    }
    struct film film = {0};
    enum status status = run(&film, argv[1], argv[2]);
    if (status == DONE)
        fprintf(stderr, "bands: %" PRIu64 " by %" PRIu64 ", %zu stroke%s: both bands equal the film in one\n",
                film.columns, film.rows, film.count, film.count == 1 ? "" : "s");
    free_film(&film);
    return (int)status;
}
