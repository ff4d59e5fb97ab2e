/* `once SHEET TIMES`: calculates a sheet so many times and prints number and place; for profiles. */
#include <stdio.h>
#include <stdlib.h>

enum { ROOM = 65536 };

#include "lent.h"

static struct dogma_answer run(size_t length, const struct dogma_answer *need)
{
    return dogma_calculate(
        states, collected, need->collected, collected_values, need->collected, rows, need->rows, bases, need->rows, values, need->rows,
        entries, need->entries, entry_values, need->entries, plain, need->plain, sources, need->sources, source_values, need->sources,
        sheet, length);
}

int main(int count, char **words)
{
    FILE *file = count == 3 ? fopen(words[1], "rb") : NULL;
    if (!file)
        return 2;
    const size_t length = fread(sheet, 1, sizeof sheet, file);
    fclose(file);
    /* a list that is full is lent twice as much, until all suffice; then they are lent to the row */
    uint64_t rooms[6] = { 0, 1, 1, 1, 1, 1 };
    struct dogma_answer answer;
    do {
        const struct dogma_answer lent = { 0, 0, rooms[1], rooms[2], rooms[3], rooms[4], rooms[5] };
        answer = run(length, &lent);
        if (answer.number == DOGMA_ROOM)
            rooms[answer.place] *= 2;
    } while (answer.number == DOGMA_ROOM && rooms[answer.place] <= ROOM);
    for (int i = 0; i < atoi(words[2]) && answer.number == DOGMA_DONE; i++)
        answer = run(length, &answer);
    printf("%d %d\n", (int)answer.number, (int)answer.place);
    return answer.number != DOGMA_DONE;
}
