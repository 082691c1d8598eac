/* Measures the engine's reader of texts against the two C readers, the plain one and the tuned one.
 *
 *     text_bench FILE ..
 *     text_bench --once engine|plain|tuned|none FILE
 *
 * The first form holds the three answers against each other and prints a line for each text: its bytes, the answer, and
 * microseconds of plain C, tuned C and engine (best of several runs, in turns). The second calls one reader once, or only
 * loads the text, so that a tool outside can count instructions. The room is that of the longest image. */

#define _POSIX_C_SOURCE 199309L

#include "../include/wizogbare.h"
#include "text.h"

#include <math.h>
#include <stdio.h>
#include <stdlib.h>
#include <string.h>
#include <time.h>

enum { MOST_TEXT = 32769, LONGEST_IMAGE = 8751 };

/* A run is so many calls that it takes RUN_SECONDS; runs go on until each reader has had ALL_SECONDS. */
enum { LEAST_RUNS = 3 };
static const double RUN_SECONDS = 0.02, ALL_SECONDS = 0.4;

struct text {
    const char *path;
    size_t length;
    uint8_t bytes[MOST_TEXT];
};

struct timing {
    uint64_t calls; /* in one run */
    double best;    /* seconds of one call, in the best run */
    double all;     /* seconds of all runs */
};

typedef uint64_t reader(const uint8_t *, size_t, uint8_t *, size_t);

static uint8_t image[LONGEST_IMAGE];

static void stop(const char *path, const char *what)
{
    fprintf(stderr, "%s: %s\n", path, what);
    exit(1);
}

static void load(struct text *text, const char *path)
{
    FILE *file = fopen(path, "rb");
    if (file == NULL)
        stop(path, "cannot be opened");
    text->path = path;
    text->length = fread(text->bytes, 1, sizeof text->bytes, file);
    fclose(file);
}

/* A C reader's answer as the engine's. */
static uint64_t answer_of(c_text_reader *read, const uint8_t *text, size_t length, uint8_t *room, size_t room_length)
{
    size_t written = 0;
    uint32_t refusal = read(text, length, room, room_length, &written);
    return refusal != 0 ? (uint64_t)refusal << 32 : written;
}

static uint64_t plain(const uint8_t *text, size_t length, uint8_t *room, size_t room_length)
{
    return answer_of(c_text, text, length, room, room_length);
}

static uint64_t tuned(const uint8_t *text, size_t length, uint8_t *room, size_t room_length)
{
    return answer_of(c_text_tuned, text, length, room, room_length);
}

enum { PLAIN, TUNED, ENGINE, READERS };
static reader *const readers[READERS] = {plain, tuned, wizogbare_text};
static const char *const reader_names[READERS] = {"plain", "tuned", "engine"};

static uint64_t call(reader *read, const struct text *text)
{
    return read(text->bytes, text->length, image, sizeof image);
}

/* The one answer of all readers, and the one room that they leave. */
static uint64_t common_answer(const struct text *text)
{
    static uint8_t first_room[LONGEST_IMAGE];
    uint64_t first = 0;
    for (int i = 0; i < READERS; i++) {
        memset(image, 0xa5, sizeof image);
        uint64_t answer = call(readers[i], text);
        if (i == 0) {
            first = answer;
            memcpy(first_room, image, sizeof image);
        }
        if (answer != first)
            stop(text->path, "the answers differ");
        if (memcmp(first_room, image, sizeof image) != 0)
            stop(text->path, "the rooms differ");
    }
    return first;
}

static double now(void)
{
    struct timespec t;
    clock_gettime(CLOCK_MONOTONIC, &t);
    return t.tv_sec + t.tv_nsec * 1e-9;
}

static double run(reader *read, const struct text *text, uint64_t calls)
{
    double start = now();
    for (uint64_t i = 0; i < calls; i++)
        call(read, text);
    return now() - start;
}

static uint64_t calls_in_a_run(reader *read, const struct text *text)
{
    uint64_t calls = 1;
    while (run(read, text, calls) < RUN_SECONDS)
        calls *= 2;
    return calls;
}

static void time_a_run(struct timing *timing, reader *read, const struct text *text)
{
    double seconds = run(read, text, timing->calls);
    timing->all += seconds;
    timing->best = fmin(timing->best, seconds / timing->calls);
}

static int is_timed(const struct timing *timing)
{
    for (int i = 0; i < READERS; i++)
        if (timing[i].all < ALL_SECONDS)
            return 0;
    return 1;
}

/* Prints the text's line. */
static void measure(const struct text *text)
{
    uint64_t answer = common_answer(text);
    struct timing timing[READERS];
    for (int i = 0; i < READERS; i++)
        timing[i] = (struct timing){calls_in_a_run(readers[i], text), INFINITY, 0};
    for (int runs = 0; runs < LEAST_RUNS || !is_timed(timing); runs++)
        for (int i = 0; i < READERS; i++)
            time_a_run(&timing[i], readers[i], text);
    const char *slash = strrchr(text->path, '/');
    const char *word = answer >> 32 != 0 ? "refused" : "written";
    unsigned number = (unsigned)(answer >> 32 != 0 ? answer >> 32 : answer);
    printf("%-14s %6zu %s %5u %10.2f %10.2f %10.2f\n", slash ? slash + 1 : text->path, text->length, word, number,
           timing[PLAIN].best * 1e6, timing[TUNED].best * 1e6, timing[ENGINE].best * 1e6);
    fflush(stdout);
}

static int call_once(const char *which, const struct text *text)
{
    for (int i = 0; i < READERS; i++)
        if (strcmp(which, reader_names[i]) == 0) {
            call(readers[i], text);
            return 0;
        }
    return strcmp(which, "none") == 0 ? 0 : 2;
}

int main(int count, char **words)
{
    static struct text text;
    if (count == 4 && strcmp(words[1], "--once") == 0) {
        load(&text, words[3]);
        return call_once(words[2], &text);
    }
    if (count < 2) {
        fputs("usage: text_bench FILE .. | text_bench --once engine|plain|tuned|none FILE\n", stderr);
        return 2;
    }
    for (int i = 1; i < count; i++) {
        load(&text, words[i]);
        measure(&text);
    }
    return 0;
}
