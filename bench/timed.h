/* What programs that time calls share: files, the rooms that a sheet needs, a clock, medians. Where this is included, lists are of ROOM
 * rows each (lent.h), dogma_calculate is lent those from AHEAD on, and `run(what)` makes one of the calls that are timed. */
#define _POSIX_C_SOURCE 199309L
#include <stdio.h>
#include <stdlib.h>
#include <string.h>
#include <time.h>

#include "lent.h"

enum { MOST = 5000 };

static size_t sheet_length, rooms[DOGMA_LISTS];

static void run(int what);

static void expect(int right, const char *what)
{
    if (!right) {
        fprintf(stderr, "%s\n", what);
        exit(2);
    }
}

static size_t read_file(const char *name, void *bytes, size_t most)
{
    FILE *file = fopen(name, "rb");
    expect(file != NULL, name);
    const size_t length = fread(bytes, 1, most, file);
    fclose(file);
    return length;
}

static struct dogma_answer calculated(void)
{
    return dogma_calculate(
        states, collected + AHEAD, rooms[0], collected_values + AHEAD, rooms[0], rows + AHEAD, rooms[1], bases + AHEAD, rooms[1],
        values + AHEAD, rooms[1], entries + AHEAD, rooms[2], entry_values + AHEAD, rooms[2], plain + AHEAD, rooms[3], sources + AHEAD,
        rooms[4], source_values + AHEAD, rooms[4], sheet, sheet_length);
}

/* the rooms that the sheet needs, to the row; the lists hold its result */
static struct dogma_answer seat(void)
{
    for (int list = 0; list < DOGMA_LISTS; list++)
        rooms[list] = 1;
    struct dogma_answer answer;
    while ((answer = calculated()).number == DOGMA_ROOM) {
        rooms[answer.place - 1] *= 2;
        expect(rooms[answer.place - 1] <= ROOM - AHEAD, "a list is too long");
    }
    expect(answer.number == DOGMA_DONE, "the sheet is refused");
    const uint64_t counts[DOGMA_LISTS] = { answer.collected, answer.rows, answer.entries, answer.plain, answer.sources };
    for (int list = 0; list < DOGMA_LISTS; list++)
        rooms[list] = counts[list];
    return calculated();
}

static double now(void)
{
    struct timespec time;
    clock_gettime(CLOCK_MONOTONIC, &time);
    return 1e9 * (double)time.tv_sec + (double)time.tv_nsec;
}

/* Times so many calls in turn, round after round, for so many seconds: how many rounds. */
static int take_times(double seconds, int whats, double (*times)[MOST])
{
    const double start = now();
    int round = 0;
    for (; round < 33 || (now() - start < 1e9 * seconds && round < MOST); round++)
        for (int what = 0; what < whats; what++) {
            const double before = now();
            run(what);
            times[what][round] = now() - before;
        }
    return round;
}

static int by_size(const void *a, const void *b)
{
    const double x = *(const double *)a, y = *(const double *)b;
    return (x > y) - (x < y);
}

/* median, the tenth and the ninetieth of a hundred */
static void print_spread(double *some, int count)
{
    qsort(some, (size_t)count, sizeof *some, by_size);
    printf(" %.6f %.6f %.6f", some[(count - 1) / 2], some[(count - 1) / 10], some[(count - 1) * 9 / 10]);
}
