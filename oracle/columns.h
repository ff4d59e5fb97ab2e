/* The columns that a call lends, full of rubbish and with gaps between, and how the lists in them are printed.
 *
 * A line that starts with `!` says what no list shows: an unused end or a state that is not zero, a write outside what was lent.
 */
#include "bytes.h"
#include "dogma.h"

static void put(char c)
{
    if (out_at == sizeof out_buffer)
        flush();
    out_buffer[out_at++] = c;
}

static void put_text(const char *text)
{
    while (*text)
        put(*text++);
}

static void put_number(uint64_t x)
{
    char digits[20];
    int n = 0;
    do
        digits[n++] = (char)('0' + x % 10);
    while ((x /= 10) != 0);
    while (n > 0)
        put(digits[--n]);
}

static void put_signed(uint32_t x)
{
    if (x >> 31) {
        put('-');
        put_number(-(uint64_t)(int64_t)(int32_t)x);
    } else
        put_number(x);
}

static void put_bits(const uint32_t *words)
{
    for (int w = 1; w >= 0; w--)
        for (int shift = 28; shift >= 0; shift -= 4)
            put("0123456789abcdef"[words[w] >> shift & 15]);
}

/* ---- the columns */

enum { COLUMNS = 11, WORK = 10, GAP = 16 };

/* words of an element, and the list it is of; what the last one holds after a call is not said */
static const size_t widths[COLUMNS] = { 14, 2, 6, 2, 2, 12, 2, 2, 11, 4, 4 };
static const int lists[COLUMNS] = { 0, 0, 1, 1, 1, 2, 2, 3, 4, 4, 1 };
static const char *const names[COLUMNS] = {
    "collected", "collected_values", "rows", "bases", "values", "entries", "entry_values", "plain", "sources", "source_values", "work",
};

static uint32_t *words;   /* everything lent, with gaps between */
static size_t word_count;
static size_t places[COLUMNS + 1]; /* of the columns, and of the states */
static uint32_t state;    /* of the rubbish */

static uint32_t rubbish(size_t i)
{
    uint32_t x = (uint32_t)i * 2654435761u ^ state;
    x ^= x >> 15;
    x *= 2246822519u;
    return x ^ x >> 13;
}

/* Columns of floats start at an even word, those of numbers at an odd one. */
static void lay(const uint32_t *lent)
{
    size_t at = GAP;
    for (int c = 0; c <= COLUMNS; c++) {
        const int floats = c < COLUMNS && (c == 1 || c == 3 || c == 4 || c == 6 || c == 9);
        at += (at & 1) == (size_t)floats;
        places[c] = at;
        at += (c < COLUMNS ? widths[c] * lent[c] : 2 * DOGMA_OBJECTS) + GAP;
    }
    if (at > word_count) {
        free(words);
        word_count = at + at / 2;
        words = malloc(word_count * 4);
        if (!words)
            stop("engine: no memory\n");
    }
    for (size_t i = 0; i < at; i++)
        words[i] = rubbish(i);
}

/* that nothing but zeros stands in part of a column */
static void expect_zero(const char *what, size_t from, size_t to)
{
    for (size_t i = from; i < to; i++)
        if (words[i] != 0) {
            put_text("! not zero: ");
            put_text(what);
            put(' ');
            put_number(i - from);
            put('\n');
            return;
        }
}

static void expect_gaps(const uint32_t *lent)
{
    size_t at = 0;
    for (int c = 0; c <= COLUMNS; c++) {
        for (; at < places[c]; at++)
            if (words[at] != rubbish(at)) {
                put_text("! written outside, before column ");
                put_number((uint64_t)c);
                put('\n');
            }
        at = places[c] + (c < COLUMNS ? widths[c] * lent[c] : 2 * DOGMA_OBJECTS);
    }
    for (size_t end = at + GAP; at < end; at++)
        if (words[at] != rubbish(at))
            put_text("! written outside, after the states\n");
}

static void *column(int c)
{
    return words + places[c];
}

/* ---- printing */

/* A list's lines: the letter, the numbers, those in the mask signed, then the floats of up to two columns. */
static void put_list(char letter, int c, uint32_t mask, int first_floats, int second_floats, uint64_t count)
{
    for (uint64_t i = 0; i < count; i++) {
        const uint32_t *row = words + places[c] + widths[c] * i;
        put(letter);
        for (size_t k = 0; k < widths[c]; k++) {
            put(' ');
            if (mask >> k & 1)
                put_signed(row[k]);
            else
                put_number(row[k]);
        }
        for (int f = first_floats; f != 0; f = f == first_floats && second_floats > f ? second_floats : 0)
            for (size_t k = 0; k < widths[f]; k += 2) {
                put(' ');
                put_bits(words + places[f] + widths[f] * i + k);
            }
        put('\n');
    }
}

static uint64_t count_of(const struct dogma_answer *a, int list)
{
    const uint64_t counts[5] = { a->collected, a->rows, a->entries, a->plain, a->sources };
    return counts[list];
}

static void put_answer(const struct dogma_answer *a, const uint32_t *lent, uint64_t objects)
{
    put_number(a->number);
    put(' ');
    put_number(a->place);
    for (int list = 0; list < 5; list++) {
        put(' ');
        put_number(count_of(a, list));
    }
    put('\n');
    for (int c = 0; c < WORK; c++)
        if (count_of(a, lists[c]) > lent[c]) {
            put_text("! more than lent: ");
            put_text(names[c]);
            put('\n');
            return;
        }
    for (uint64_t i = 0; i < objects; i++) {
        put_text("S ");
        put_number(words[places[COLUMNS] + 2 * i]);
        put(' ');
        put_number(words[places[COLUMNS] + 2 * i + 1]);
        put('\n');
    }
    put_list('C', 0, 1u << 1 | 1u << 4 | 1u << 5 | 1u << 7 | 1u << 11 | 1u << 13, 1, 0, a->collected);
    put_list('P', 7, 1u << 1, 0, 0, a->plain);
    put_list('R', 2, 1u << 1, 3, 4, a->rows);
    put_list('E', 5, 1u << 1 | 1u << 4 | 1u << 5 | 1u << 10, 6, 0, a->entries);
    put_list('Q', 8, 1u << 1 | 1u << 3 | 1u << 5, 9, 0, a->sources);
    for (int c = 0; c < WORK; c++)
        expect_zero(names[c], places[c] + widths[c] * count_of(a, lists[c]), places[c] + widths[c] * lent[c]);
    expect_zero("states", places[COLUMNS] + 2 * objects, places[COLUMNS] + 2 * DOGMA_OBJECTS);
}

/* how many objects a sheet that was not refused has */
static uint64_t objects_of(const uint8_t *sheet)
{
    return (uint64_t)sheet[40] | (uint64_t)sheet[41] << 8;
}

