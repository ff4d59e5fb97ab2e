/* Runs calls for pilots over one pool after another, and gives back the whole pool, byte by byte, after each.
 *
 * Standard input, all numbers 32 bits, little-endian: for each pool the ten lengths of its columns and how many calls; what the
 * columns hold, then the states; and for each call the pilot, the lengths of book and fit, the stretches, and the two files.
 * Standard output: for each call the seven numbers of the answer, 64 bits each, 1 where something was written that was not lent to
 * be written (the memory between the columns, book, fit or stretches), else 0, in 64 bits; then all columns and the states.
 */
#include "bytes.h"
#include "dogma.h"

enum { COLUMNS = 10, GAP = 64, STATES = DOGMA_PILOTS * DOGMA_OBJECTS };

static const size_t sizes[COLUMNS + 1] = {
    sizeof(dogma_collected), 8, sizeof(dogma_row), 8, 8, sizeof(dogma_entry), 8, sizeof(dogma_plain), sizeof(dogma_source),
    sizeof(dogma_source_value), sizeof(dogma_state),
};

/* everything lent to be written, with gaps between; and where each column, and behind them the states, begin and end */
static uint8_t *memory;
static size_t memory_size, begins[COLUMNS + 1], ends[COLUMNS + 1];

/* Columns of floats begin at a multiple of 8, those of numbers 4 behind one. */
static void lay(const uint32_t *lengths)
{
    size_t at = GAP;
    for (int c = 0; c <= COLUMNS; c++) {
        const int floats = c == 1 || c == 3 || c == 4 || c == 6 || c == 9;
        at = (at + 15) / 8 * 8 + (floats ? 0 : 4);
        begins[c] = at;
        at += sizes[c] * (c < COLUMNS ? lengths[c] : STATES);
        ends[c] = at;
        at += GAP;
    }
    memory = grown(memory, &memory_size, at);
    for (size_t i = 0; i < at; i++)
        memory[i] = filler(i);
    for (int c = 0; c <= COLUMNS; c++)
        get(memory + begins[c], ends[c] - begins[c]);
}

static int gaps_stand(void)
{
    size_t at = 0;
    for (int c = 0; c <= COLUMNS + 1; c++) {
        const size_t end = c <= COLUMNS ? begins[c] : ends[COLUMNS] + GAP;
        for (; at < end; at++)
            if (memory[at] != filler(at))
                return 0;
        at = c <= COLUMNS ? ends[c] : at;
    }
    return 1;
}

static void *column(int c)
{
    return memory + begins[c];
}

static struct dogma_answer run(
    const uint32_t *lengths, const uint32_t *stretches, const uint8_t *book, size_t book_length, const uint8_t *fit, size_t fit_length,
    uint32_t pilot)
{
    const struct dogma_pool pool = {
        {
            column(COLUMNS), STATES, column(0), lengths[0], column(1), lengths[1], column(2), lengths[2], column(3), lengths[3],
            column(4), lengths[4], column(5), lengths[5], column(6), lengths[6], column(7), lengths[7], column(8), lengths[8],
            column(9), lengths[9],
        },
        (const dogma_stretch_of_list (*)[DOGMA_LISTS])stretches, DOGMA_PILOTS,
    };
    return dogma_calculate_pilot_checked(&pool, book, book_length, fit, fit_length, pilot);
}

/* One call: what is read lies in one piece, head, stretches, book, fit, and is compared with a copy after. */
static void call(const uint32_t *lengths)
{
    static uint8_t *read_part, *copy;
    static size_t read_size, copy_size;
    uint32_t head[3];
    get(head, sizeof head);
    const size_t table = sizeof(dogma_stretch_of_list) * DOGMA_LISTS * DOGMA_PILOTS, length = table + head[1] + head[2];
    read_part = grown(read_part, &read_size, length);
    copy = grown(copy, &copy_size, length);
    get(read_part, length);
    memcpy(copy, read_part, length);
    const struct dogma_answer answer =
        run(lengths, (const uint32_t *)(const void *)read_part, read_part + table, head[1], read_part + table + head[1], head[2], head[0]);
    const uint64_t touched = !gaps_stand() || memcmp(copy, read_part, length) != 0;
    give(&answer, sizeof answer);
    give(&touched, sizeof touched);
    for (int c = 0; c <= COLUMNS; c++)
        give(memory + begins[c], ends[c] - begins[c]);
}

int main(void)
{
    uint32_t head[COLUMNS + 1];
    while (take(head, sizeof head) == sizeof head) {
        lay(head);
        for (uint32_t i = 0; i < head[COLUMNS]; i++)
            call(head);
    }
    flush();
    return 0;
}
