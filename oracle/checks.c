/* Checks one listing after another and prints everything, in the oracle's form.
 *
 * Standard input: for each check the length of its sheet and how many lines are listed, the nine lent lengths (oracle/checks.py, LISTS),
 * a seed (all 32 bits, little-endian), the sheet's bytes, the lines. Standard output: as oracle/engine.c has it; a line that starts with
 * `!` says what no list shows, or that sheet or listing is changed.
 */
#include "columns.h"

static struct dogma_answer check(const uint32_t *lent, const uint8_t *sheet, size_t length, const uint8_t *lines, size_t count)
{
    return dogma_check(
        column(COLUMNS), column(0), lent[0], column(1), lent[1], column(2), lent[2], column(3), lent[3], column(4), lent[4],
        column(WORK), lent[WORK], column(5), lent[5], column(6), lent[6], column(7), lent[7],
        sheet, length, (const dogma_line *)lines, count);
}

static void one(const uint32_t *head)
{
    const uint32_t length = head[0], count = head[1];
    const uint32_t lent[COLUMNS] = { head[2], head[3], head[4], head[5], head[6], head[8], head[9], head[10], 0, 0, head[7] };
    uint8_t *sheet = taken(length), *lines = taken(sizeof(dogma_line) * count);
    state = head[11];
    lay(lent);
    const struct dogma_answer answer = check(lent, sheet, length, lines, count);
    put_answer(&answer, lent, answer.number == DOGMA_DONE ? objects_of(sheet) : 0);
    expect_gaps(lent);
    if (changed(sheet, length) || changed(lines, sizeof(dogma_line) * count))
        put_text("! the sheet or the listing is changed\n");
    put_text("end\n");
    free(sheet);
    free(lines);
}

int main(void)
{
    uint32_t head[12];
    while (take(head, sizeof head) == sizeof head)
        one(head);
    flush();
    return 0;
}
