/* Runs the engine on many sheets and prints everything, in the oracle's form.
 *
 * Standard input: for each sheet its length, the ten lent lengths, a seed (all 32 bits, little-endian), and its bytes.
 * Standard output: for each sheet number, place and the five counts, then the lists as oracle/README.md has them, then `end`.
 * The columns are filled with rubbish first, stand apart, and are as long as said to the element (columns.h). A line that starts with
 * `!` says what no list shows, or that the sheet is changed.
 * Only the headers of a freestanding C are used, so that it can be compiled for another machine.
 */
#include "columns.h"

static struct dogma_answer run(const uint32_t *lent, const uint8_t *sheet, size_t length)
{
    const struct dogma_lent all = {
        column(COLUMNS), DOGMA_OBJECTS, column(0), lent[0], column(1), lent[1], column(2), lent[2], column(3), lent[3],
        column(4), lent[4], column(5), lent[5], column(6), lent[6], column(7), lent[7], column(8), lent[8], column(9), lent[9],
    };
    return dogma_calculate_checked(&all, sheet, length);
}

int main(void)
{
    uint32_t head[12];
    uint8_t *sheet = 0, *copy = 0;
    size_t room = 0;
    while (take(head, sizeof head) == sizeof head) {
        const size_t length = head[0];
        uint32_t lent[COLUMNS] = { 0 };
        memcpy(lent, head + 1, 10 * sizeof *lent);
        if (!sheet || length > room) {
            free(sheet);
            free(copy);
            room = 2 * length + 64;
            sheet = malloc(room);
            copy = malloc(room);
            if (!sheet || !copy)
                stop("engine: no memory\n");
        }
        if (take(sheet, length) != length)
            stop("engine: the input ends inside a sheet\n");
        memcpy(copy, sheet, length);
        state = head[11];
        lay(lent);
        const struct dogma_answer answer = run(lent, sheet, length);
        put_answer(&answer, lent, answer.number == DOGMA_DONE ? objects_of(sheet) : 0);
        expect_gaps(lent);
        if (memcmp(copy, sheet, length) != 0)
            put_text("! the sheet is changed\n");
        put_text("end\n");
    }
    flush();
    return 0;
}
