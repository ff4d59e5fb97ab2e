/* Exports one sheet after another, and holds the lists against those of dogma_calculate.
 *
 * Standard input: for each call, all 32 bits, little-endian: the sheet's length, the ten lent lengths, a seed, the lent bytes of text, how
 * many labels, how many bytes of labels; then the labels, their bytes, the sheet. Standard output: for each call number, place, length and
 * a sum of faults, 64 bits each, and then all the bytes lent for the text.
 * Faults: 1 lists, states or counts are not those of dogma_calculate, or, after a refusal, not zero; 2 a write outside what was lent;
 * 4 the labels, their bytes or the sheet are changed. Everything lent is filled with rubbish first.
 */
#include "bytes.h"
#include "dogma.h"

enum { COLUMNS = 10, GAP = 16 };

static const size_t widths[COLUMNS] = { 14, 2, 6, 2, 2, 12, 2, 2, 11, 4 };
static size_t places[COLUMNS + 1], end;
static uint32_t state;

static void *room_for(size_t n)
{
    void *place = malloc(n + 64);
    if (!place)
        stop("exports: no memory\n");
    return place;
}

static uint32_t rubbish(size_t i)
{
    uint32_t x = (uint32_t)i * 2654435761u ^ state;
    x ^= x >> 15;
    x *= 2246822519u;
    return x ^ x >> 13;
}

static size_t width_of(int c, const uint32_t *lent)
{
    return c < COLUMNS ? widths[c] * lent[c] : 2 * DOGMA_OBJECTS;
}

/* columns of floats at an even word; rubbish everywhere */
static uint32_t *lay(const uint32_t *lent)
{
    end = GAP;
    for (int c = 0; c <= COLUMNS; c++) {
        end += end & 1;
        places[c] = end;
        end += width_of(c, lent) + GAP;
    }
    uint32_t *words = room_for(4 * end);
    for (size_t i = 0; i < end; i++)
        words[i] = rubbish(i);
    return words;
}

/* whether what lies in the columns is all zero, and what lies between them is as it was */
static uint64_t seen(const uint32_t *words, const uint32_t *lent, int zero)
{
    uint64_t faults = 0;
    size_t at = 0;
    for (int c = 0; c <= COLUMNS; c++) {
        for (; at < places[c]; at++)
            faults |= words[at] != rubbish(at) ? 2 : 0;
        for (size_t last = at + width_of(c, lent); at < last; at++)
            faults |= zero && words[at] != 0 ? 1 : 0;
    }
    for (; at < end; at++)
        faults |= words[at] != rubbish(at) ? 2 : 0;
    return faults;
}

#define LISTS(w) \
    (void *)(w + places[COLUMNS]), (void *)(w + places[0]), lent[0], (void *)(w + places[1]), lent[1], (void *)(w + places[2]), lent[2], \
    (void *)(w + places[3]), lent[3], (void *)(w + places[4]), lent[4], (void *)(w + places[5]), lent[5], (void *)(w + places[6]), lent[6], \
    (void *)(w + places[7]), lent[7], (void *)(w + places[8]), lent[8], (void *)(w + places[9]), lent[9]

static void call(const uint32_t *head)
{
    const size_t length = head[0], room = head[12], labels = head[13], bytes = head[14];
    const uint32_t *lent = head + 1;
    uint8_t *given = room_for(12 * labels + bytes + length), *copy = room_for(12 * labels + bytes + length);
    get(given, 12 * labels + bytes + length);
    memcpy(copy, given, 12 * labels + bytes + length);
    state = head[11];
    const uint8_t *sheet = given + 12 * labels + bytes;
    uint32_t *right = lay(lent), *own = lay(lent);
    uint8_t *text = (uint8_t *)room_for(room + 2 * GAP) + GAP;
    for (size_t i = 0; i < room + 2 * GAP; i++)
        (text - GAP)[i] = (uint8_t)rubbish(i);
    const struct dogma_answer answer = dogma_calculate(LISTS(right), sheet, length);
    const struct dogma_exported e = dogma_export(text, room, LISTS(own), (const dogma_label *)given, labels, given + 12 * labels, bytes, sheet, length);
    uint64_t faults = seen(own, lent, e.number != DOGMA_DONE);
    if (e.number == DOGMA_DONE) {
        faults |= memcmp(right, own, 4 * end) != 0 || answer.number != DOGMA_DONE ? 1 : 0;
        faults |= answer.collected != e.collected || answer.rows != e.rows || answer.entries != e.entries || answer.plain != e.plain
            || answer.sources != e.sources ? 1 : 0;
    } else
        faults |= (e.collected | e.rows | e.entries | e.plain | e.sources | e.length) != 0 ? 1 : 0;
    for (size_t i = 0; i < GAP; i++)
        faults |= (text - GAP)[i] != (uint8_t)rubbish(i) || text[room + i] != (uint8_t)rubbish(GAP + room + i) ? 2 : 0;
    faults |= memcmp(given, copy, 12 * labels + bytes + length) != 0 ? 4 : 0;
    const uint64_t numbers[4] = { e.number, e.place, e.length, faults };
    give(numbers, sizeof numbers);
    give(text, room);
    free(given);
    free(copy);
    free(right);
    free(own);
    free(text - GAP);
}

int main(void)
{
    uint32_t head[15];
    while (take(head, sizeof head) == sizeof head)
        call(head);
    flush();
    return 0;
}
