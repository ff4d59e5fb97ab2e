/* Calculates a sheet from a file and prints it: every attribute's value, or the refusal. */
#include <inttypes.h>
#include <stdio.h>

#include "dogma.h"
#include "value.h"

enum { ROOM = 4096, LONGEST = 1 << 20 };

static uint8_t sheet[LONGEST];

static dogma_state states[DOGMA_OBJECTS];
static dogma_collected collected[ROOM];
static double collected_values[ROOM];
static dogma_row rows[ROOM];
static double bases[ROOM], values[ROOM];
static dogma_entry entries[ROOM];
static double entry_values[ROOM];
static dogma_plain plain[ROOM];
static dogma_source sources[ROOM];
static dogma_source_value source_values[ROOM];

int main(int count, char **words)
{
    FILE *file = count == 2 ? fopen(words[1], "rb") : NULL;
    if (!file) {
        fprintf(stderr, "usage: %s FILE\n", words[0]);
        return 2;
    }
    const size_t length = fread(sheet, 1, sizeof sheet, file);
    fclose(file);

    const struct dogma_answer answer = dogma_calculate_checked(
        DOGMA_LEND(states, collected, collected_values, rows, bases, values, entries, entry_values, plain, sources, source_values),
        sheet, length);

    if (answer.number == DOGMA_MISUSED) {
        fprintf(stderr, "argument %" PRIu64 " of dogma_calculate may not be lent\n", answer.place);
        return 2;
    }
    if (answer.number != DOGMA_DONE) {
        printf("refused %" PRIu64 " %" PRIu64 "\n", answer.number, answer.place);
        return 1;
    }
    printf("rows %" PRIu64 "\n", answer.rows);
    for (uint64_t i = 0; i < answer.rows; i++) {
        printf("%" PRIu32 " %" PRId32 " ", rows[i][DOGMA_ROW_OBJECT], DOGMA_SIGNED(rows[i][DOGMA_ROW_ATTRIBUTE]));
        print_value(values[i]);
        putchar('\n');
    }
    return 0;
}
