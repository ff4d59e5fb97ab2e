/* Calculates a sheet of any size: a list that is full is lent twice as long, and the sheet is calculated again. grow SHEET */
#include <inttypes.h>
#include <stdio.h>
#include <stdlib.h>

#include "dogma.h"
#include "value.h"

enum { LONGEST = 1 << 20, ROOM = 1 << 10, MOST = 1 << 20 };

static uint8_t sheet[LONGEST];
static dogma_state states[DOGMA_OBJECTS];
static struct dogma_lent lent = { .states = states, .state_count = DOGMA_OBJECTS };

/* A column of so many elements in place of another; what that held is not kept. */
static void *lend(void *old, size_t *count, size_t width, size_t room)
{
    free(old);
    *count = room;
    return calloc(room, width);
}

/* Lends all columns of a list, by its number. A column that could not be had is null: the checked form finds that. */
static void lend_list(uint64_t list, size_t room)
{
    switch (list) {
    case DOGMA_LIST_COLLECTED:
        lent.collected = lend(lent.collected, &lent.collected_count, sizeof(dogma_collected), room);
        lent.collected_values = lend(lent.collected_values, &lent.collected_value_count, sizeof(double), room);
        break;
    case DOGMA_LIST_ROWS:
        lent.rows = lend(lent.rows, &lent.row_count, sizeof(dogma_row), room);
        lent.bases = lend(lent.bases, &lent.base_count, sizeof(double), room);
        lent.values = lend(lent.values, &lent.value_count, sizeof(double), room);
        break;
    case DOGMA_LIST_ENTRIES:
        lent.entries = lend(lent.entries, &lent.entry_count, sizeof(dogma_entry), room);
        lent.entry_values = lend(lent.entry_values, &lent.entry_value_count, sizeof(double), room);
        break;
    case DOGMA_LIST_PLAIN:
        lent.plain = lend(lent.plain, &lent.plain_count, sizeof(dogma_plain), room);
        break;
    case DOGMA_LIST_SOURCES:
        lent.sources = lend(lent.sources, &lent.source_count, sizeof(dogma_source), room);
        lent.source_values = lend(lent.source_values, &lent.source_value_count, sizeof(dogma_source_value), room);
        break;
    }
}

int main(int count, char **words)
{
    FILE *file = count == 2 ? fopen(words[1], "rb") : NULL;
    if (!file) {
        fprintf(stderr, "usage: %s SHEET\n", words[0]);
        return 2;
    }
    const size_t length = fread(sheet, 1, sizeof sheet, file);
    fclose(file);

    size_t rooms[DOGMA_LISTS + 1];
    for (uint64_t list = DOGMA_LIST_COLLECTED; list <= DOGMA_LISTS; list++)
        lend_list(list, rooms[list] = ROOM);
    struct dogma_answer answer = dogma_calculate_checked(&lent, sheet, length);
    while (answer.number == DOGMA_ROOM && rooms[answer.place] < MOST) {
        lend_list(answer.place, rooms[answer.place] *= 2);
        answer = dogma_calculate_checked(&lent, sheet, length);
    }

    if (answer.number != DOGMA_DONE) {
        printf("refused %" PRIu64 " %" PRIu64 "\n", answer.number, answer.place);
        return 1;
    }
    printf("rows %" PRIu64 "\n", answer.rows);
    for (uint64_t i = 0; i < answer.rows; i++) {
        printf("%" PRIu32 " %" PRId32 " ", lent.rows[i][DOGMA_ROW_OBJECT], DOGMA_SIGNED(lent.rows[i][DOGMA_ROW_ATTRIBUTE]));
        print_value(lent.values[i]);
        putchar('\n');
    }
    return 0;
}
