/* Measures the engine's lister against the plain C lister.
 *
 *     bench FILE BUDGET ROOM [FILE BUDGET ROOM ..]
 *     bench --once engine|c|none FILE BUDGET ROOM
 *
 * The first form holds the two answers against each other and prints a line for each book: nodes, microseconds of C
 * and engine (best of several runs), nanoseconds per node of each, and engine over C. The second calls one lister
 * once, or only loads the book, so that a tool outside can count instructions. List and work area are lent as the
 * call before left them. */

#define _POSIX_C_SOURCE 199309L

#include "../include/wizogbare.h"
#include "book.h"

#include <math.h>
#include <string.h>
#include <time.h>

typedef uint64_t lister(const uint8_t *, size_t, uint32_t, uint64_t *, size_t, uint32_t *, size_t);

/* A run is so many calls that it takes RUN_SECONDS; runs go on until each lister has had ALL_SECONDS. */
enum { LEAST_RUNS = 3 };
static const double RUN_SECONDS = 0.02, ALL_SECONDS = 0.2;

struct timing {
    uint64_t calls; /* in one run */
    double best;    /* seconds of one call, in the best run */
    double all;     /* seconds of all runs */
};

static uint64_t sets[MOST_ROOM];
static uint32_t work[WORK_NUMBERS];

static uint64_t call(lister *list, const struct book *book)
{
    return list(book->image, book->length, book->budget, sets, book->room, work, WORK_NUMBERS);
}

/* ---- The answers ---- */

/* The answer and the list it leaves, from a list and a work area that hold something else. */
static uint64_t first_answer(lister *list, const struct book *book, uint64_t *left)
{
    memset(sets, 0xff, sizeof sets);
    memset(work, 0xff, sizeof work);
    uint64_t answer = call(list, book);
    memcpy(left, sets, sizeof sets);
    for (size_t i = 0; i < WORK_NUMBERS; i++)
        if (work[i] != 0)
            stop(book->path, "the work area is not left 0");
    return answer;
}

/* The one answer of both listers. */
static uint64_t common_answer(const struct book *book)
{
    static uint64_t by_c[MOST_ROOM], by_engine[MOST_ROOM];
    uint64_t c = first_answer(c_list, book, by_c);
    uint64_t engine = first_answer(wizogbare_list, book, by_engine);
    if (c != engine)
        stop(book->path, "the answers differ");
    if (memcmp(by_c, by_engine, sizeof by_c) != 0)
        stop(book->path, "the lists differ");
    return c;
}

/* ---- The times ---- */

static double now(void)
{
    struct timespec t;
    clock_gettime(CLOCK_MONOTONIC, &t);
    return t.tv_sec + t.tv_nsec * 1e-9;
}

static double run(lister *list, const struct book *book, uint64_t calls)
{
    double start = now();
    for (uint64_t i = 0; i < calls; i++)
        call(list, book);
    return now() - start;
}

static uint64_t calls_in_a_run(lister *list, const struct book *book)
{
    uint64_t calls = 1;
    while (run(list, book, calls) < RUN_SECONDS)
        calls *= 2;
    return calls;
}

static void time_a_run(struct timing *timing, lister *list, const struct book *book)
{
    double seconds = run(list, book, timing->calls);
    timing->all += seconds;
    timing->best = fmin(timing->best, seconds / timing->calls);
}

/* Times both listers on the book, in turns. */
static void time_both(const struct book *book, struct timing *c, struct timing *engine)
{
    *c = (struct timing){calls_in_a_run(c_list, book), INFINITY, 0};
    *engine = (struct timing){calls_in_a_run(wizogbare_list, book), INFINITY, 0};
    for (int runs = 0; runs < LEAST_RUNS || c->all < ALL_SECONDS || engine->all < ALL_SECONDS; runs++) {
        time_a_run(c, c_list, book);
        time_a_run(engine, wizogbare_list, book);
    }
}

/* Prints the book's line; the answer is engine over C. */
static double measure(const struct book *book)
{
    struct timing c, engine;
    uint32_t nodes = (uint32_t)common_answer(book);
    time_both(book, &c, &engine);
    double ratio = engine.best / c.best;
    const char *slash = strrchr(book->path, '/');
    printf("%-20s %8u %11.2f %11.2f %9.2f %9.2f %7.2f\n", slash ? slash + 1 : book->path, nodes, c.best * 1e6,
           engine.best * 1e6, c.best * 1e9 / nodes, engine.best * 1e9 / nodes, ratio);
    fflush(stdout);
    return ratio;
}

static void measure_all(int count, char **words)
{
    double logs = 0, most = 0;
    int books = 0;
    printf("%-20s %8s %11s %11s %9s %9s %7s\n", "book", "nodes", "C us", "engine us", "C ns", "engine ns", "ratio");
    for (int i = 0; i + 2 < count; i += 3) {
        struct book book = load(words + i);
        double ratio = measure(&book);
        logs += log(ratio);
        most = fmax(most, ratio);
        books++;
    }
    printf("%d books, geometric mean %.2f, largest %.2f\n", books, exp(logs / books), most);
}

/* ---- The two forms ---- */

static int call_once(const char *which, char **words)
{
    struct book book = load(words);
    if (strcmp(which, "engine") == 0)
        call(wizogbare_list, &book);
    else if (strcmp(which, "c") == 0)
        call(c_list, &book);
    else
        return strcmp(which, "none") == 0 ? 0 : 2;
    return 0;
}

int main(int count, char **words)
{
    if (count == 6 && strcmp(words[1], "--once") == 0)
        return call_once(words[2], words + 3);
    if (count > 1 && count % 3 == 1) {
        measure_all(count - 1, words + 1);
        return 0;
    }
    fputs("usage: bench FILE BUDGET ROOM .. | bench --once engine|c|none FILE BUDGET ROOM\n", stderr);
    return 2;
}
