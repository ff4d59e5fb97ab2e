/* Opens up to 16 fits over one book and prints each pilot's values, or the refusal: pilots BOOK FIT .. */
#include <inttypes.h>
#include <stdio.h>

#include "dogma.h"
#include "value.h"

/* ROOM rows of each list for each pilot */
enum { ROOM = 256, POOL = DOGMA_PILOTS * ROOM, LONGEST = 1 << 20 };

static uint8_t book[LONGEST], fit[LONGEST];

static dogma_state states[DOGMA_PILOTS][DOGMA_OBJECTS];
static dogma_collected collected[POOL];
static double collected_values[POOL];
static dogma_row rows[POOL];
static double bases[POOL], values[POOL];
static dogma_entry entries[POOL];
static double entry_values[POOL];
static dogma_plain plain[POOL];
static dogma_source sources[POOL];
static dogma_source_value source_values[POOL];
static dogma_stretch_of_list stretches[DOGMA_PILOTS][DOGMA_LISTS];

static size_t read_file(const char *name, uint8_t *bytes)
{
    FILE *file = fopen(name, "rb");
    if (!file)
        return 0; /* no bytes: refused as a file without a header */
    const size_t length = fread(bytes, 1, LONGEST, file);
    fclose(file);
    return length;
}

static void print_pilot(uint32_t pilot, struct dogma_answer answer)
{
    printf("pilot %" PRIu32 "\n", pilot);
    if (answer.number != DOGMA_DONE) {
        printf("refused %" PRIu64 " %" PRIu64 "\n", answer.number, answer.place);
        return;
    }
    printf("rows %" PRIu64 "\n", answer.rows);
    const size_t first = stretches[pilot][DOGMA_LIST_ROWS - 1][DOGMA_STRETCH_FIRST];
    for (size_t i = first; i < first + answer.rows; i++) {
        printf("%" PRIu32 " %" PRId32 " ", rows[i][DOGMA_ROW_OBJECT], DOGMA_SIGNED(rows[i][DOGMA_ROW_ATTRIBUTE]));
        print_value(values[i]);
        putchar('\n');
    }
}

int main(int count, char **words)
{
    if (count < 3 || count > 2 + DOGMA_PILOTS) {
        fprintf(stderr, "usage: %s BOOK FIT ..: up to 16 fits\n", words[0]);
        return 2;
    }
    const uint32_t pilots = (uint32_t)count - 2;
    const size_t book_length = read_file(words[1], book);
    /* each pilot's stretch begins where the one before ends; who is not in has none */
    for (uint32_t pilot = 0; pilot < pilots; pilot++)
        for (int list = 0; list < DOGMA_LISTS; list++) {
            stretches[pilot][list][DOGMA_STRETCH_FIRST] = pilot * ROOM;
            stretches[pilot][list][DOGMA_STRETCH_LENGTH] = ROOM;
        }
    struct dogma_answer answers[DOGMA_PILOTS];
    for (uint32_t pilot = 0; pilot < pilots; pilot++) {
        const size_t fit_length = read_file(words[2 + pilot], fit);
        answers[pilot] = dogma_calculate_pilot_checked(
            DOGMA_LEND_POOL(
                states, collected, collected_values, rows, bases, values, entries, entry_values, plain, sources, source_values,
                stretches),
            book, book_length, fit, fit_length, pilot);
    }
    /* all of them are in the pool side by side */
    for (uint32_t pilot = 0; pilot < pilots; pilot++)
        print_pilot(pilot, answers[pilot]);
    return 0;
}
