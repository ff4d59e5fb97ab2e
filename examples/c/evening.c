/* A club's evening over a pool that is too small for all: evening BOOK FIT FIT FIT. Two pilots are admitted and calculated, a third
 * finds no run; the first leaves, the third is admitted where it sat and calculated; then all leave. */
#include <inttypes.h>
#include <stdio.h>

#include "dogma.h"
#include "value.h"

enum { POOL = 10, SEAT = 4, LONGEST = 1 << 20 };

static uint8_t book[LONGEST], fit[LONGEST];

static dogma_state states[DOGMA_PILOTS][DOGMA_OBJECTS];
static dogma_collected collected[POOL];
static double collected_values[POOL];
static dogma_row rows[POOL];
static double bases[POOL], values[POOL];
static dogma_entry entries[POOL];
static double entry_values[POOL];
static dogma_plain plain[POOL];
static dogma_source sources[POOL];
static dogma_source_value source_values[POOL];
static dogma_stretch_of_list stretches[DOGMA_PILOTS][DOGMA_LISTS];
static struct dogma_stretch free_stretches[DOGMA_FREE];

static struct dogma_hall hall = DOGMA_HALL(
    states, collected, collected_values, rows, bases, values, entries, entry_values, plain, sources, source_values, stretches, free_stretches);

static size_t read_file(const char *name, uint8_t *bytes)
{
    FILE *file = fopen(name, "rb");
    if (!file)
        return 0; /* no bytes: refused as a file without a header */
    const size_t length = fread(bytes, 1, LONGEST, file);
    fclose(file);
    return length;
}

/* the answer, and what is free then */
static void tell(const char *call, uint32_t pilot, struct dogma_seat seat)
{
    printf("%s %" PRIu32 ": %" PRIu64 " %" PRIu64 ", free", call, pilot, seat.number, seat.place);
    for (uint32_t i = 0; i < hall.count; i++)
        printf(" (%" PRIu32 ", %" PRIu32 ")", free_stretches[i].start, free_stretches[i].length);
    putchar('\n');
}

static void admit(uint32_t pilot)
{
    tell("admit", pilot, dogma_admit_checked(&hall, pilot, SEAT));
}

static void leave(uint32_t pilot)
{
    tell("leave", pilot, dogma_leave_checked(&hall, pilot));
}

static void calculate(uint32_t pilot, size_t book_length, const char *name)
{
    const size_t fit_length = read_file(name, fit);
    const struct dogma_answer answer = dogma_calculate_pilot_checked(
        DOGMA_LEND_POOL(
            states, collected, collected_values, rows, bases, values, entries, entry_values, plain, sources, source_values, stretches),
        book, book_length, fit, fit_length, pilot);
    printf("pilot %" PRIu32 ": %" PRIu64 " %" PRIu64 "\n", pilot, answer.number, answer.place);
    const size_t first = stretches[pilot][DOGMA_LIST_ROWS - 1][DOGMA_STRETCH_FIRST];
    for (size_t i = first; i < first + answer.rows; i++) {
        printf("%" PRIu32 " %" PRId32 " ", rows[i][DOGMA_ROW_OBJECT], DOGMA_SIGNED(rows[i][DOGMA_ROW_ATTRIBUTE]));
        print_value(values[i]);
        putchar('\n');
    }
}

int main(int count, char **words)
{
    if (count != 5) {
        fprintf(stderr, "usage: %s BOOK FIT FIT FIT\n", words[0]);
        return 2;
    }
    const size_t book_length = read_file(words[1], book);
    hall.count = DOGMA_START(free_stretches, POOL);
    admit(0);
    admit(1);
    admit(2);
    calculate(0, book_length, words[2]);
    calculate(1, book_length, words[3]);
    leave(0);
    admit(2);
    calculate(2, book_length, words[4]);
    leave(1);
    leave(2);
    leave(2);
    return 0;
}
